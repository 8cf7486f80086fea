// What bench/program times, in plain Rust: for each word the same names, with the nanoseconds that
// one takes. For `script` and a name of `steps`, as `loop`, it times that script alone, and for
// `inserts` and a number so many nodes that are put before others.
mod frames;
mod items;
mod searches;
mod steps;
mod variables;

use std::hint::black_box;
use std::rc::Rc;
use std::time::Instant;

fn timed(name: &str, times: u32, mut once: impl FnMut()) {
    let start = Instant::now();
    for _ in 0..times {
        once();
    }
    let nanoseconds = start.elapsed().as_secs_f64() * 1e9 / f64::from(times);
    println!("{name} {nanoseconds:.1}");
}

const CELLS: u32 = 1_048_576;
const OPERATIONS: u32 = 1_000_000;

// A vector of the same cells; a fork is a copy of it.
fn list() {
    let mut cells = Vec::new();
    let mut next: u32 = 0;
    let mut step = || {
        next += 1;
        (u64::from(next) * 7_919 % u64::from(OPERATIONS)) as usize
    };
    timed("push", OPERATIONS, || cells.push(1u32));
    timed("get", OPERATIONS, || {
        black_box(cells[step()]);
    });
    timed("set", OPERATIONS, || cells[step()] = 7);
    cells.resize(CELLS as usize, 1);
    timed("fork", 20, || {
        black_box(cells.clone());
    });
}

// A loop over the same bytes that counts parentheses, and then a reader that makes the same tree.
fn text() {
    let lists = [[b'('; 64], [b')'; 64]].concat().repeat(8192);
    let mut string = vec![b'a'; 1_048_576];
    (string[0], string[1_048_575]) = (b'"', b'"');
    for (name, bytes) in [("lists", lists), ("string", string)] {
        let start = Instant::now();
        black_box(black_box(&bytes).iter().filter(|byte| matches!(byte, b'(' | b')')).count());
        let counted = start.elapsed().as_secs_f64() * 1e9;
        let start = Instant::now();
        black_box(items::read_items(black_box(&bytes)).is_ok());
        let read = start.elapsed().as_secs_f64() * 1e9;
        println!("{name} {counted:.1} {read:.1}");
    }
}

// So many nodes, each put before all others in a vector of their numbers.
fn inserts(count: u32) {
    let (mut nodes, mut children) = (Vec::new(), Vec::new());
    timed("inserts", 1, || {
        for number in 0..count {
            nodes.push(("t".to_string(), "x".to_string()));
            children.insert(0, black_box(number));
        }
    });
}

enum Value {
    Bool(bool),
    Num(i64),
    Str(Rc<str>),
}

fn operators() {
    let (words, wires): (Rc<str>, Rc<str>) = ("a-text-of-words".into(), "a-text-of-wires".into());
    let (hello, world): (Rc<str>, Rc<str>) = ("hello".into(), "world".into());
    let apply = |name: &str, call: &dyn Fn() -> Option<Value>| {
        timed(name, OPERATIONS, || {
            black_box(call());
        })
    };
    apply("+", &|| black_box(1i64).checked_add(black_box(2)).map(Value::Num));
    apply("/", &|| black_box(700i64).checked_div(black_box(3)).map(Value::Num));
    apply("<", &|| Some(Value::Bool(black_box(&words) < black_box(&wires))));
    apply("=", &|| Some(Value::Bool(black_box(&words) == black_box(&wires))));
    apply("cat", &|| Some(Value::Str([&**black_box(&hello), &**black_box(&world)].concat().into())));
}

fn main() {
    match std::env::args().nth(1).as_deref() {
        Some("list") => list(),
        Some("text") => text(),
        Some("operators") => operators(),
        Some("frames") => frames::measure(),
        Some("searches") => searches::measure(),
        Some("variables") => variables::measure(),
        Some("steps") => steps::measure(),
        Some("inserts") => inserts(std::env::args().nth(2).and_then(|count| count.parse().ok()).unwrap_or(0)),
        Some("script") => steps::measure_one(&std::env::args().nth(2).unwrap_or_default()),
        _ => eprintln!("usage: plain list | text | operators | frames | searches | variables | steps | script NAME | inserts N"),
    }
}
