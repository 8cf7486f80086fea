// Variables in the two maps of std: the nanoseconds in a `BTreeMap`, then those in a `HashMap`.
use std::collections::{BTreeMap, HashMap};
use std::hint::black_box;
use std::rc::Rc;
use std::time::Instant;

const OPERATIONS: usize = 1_000_000;

type Names = [Rc<str>];

// What both maps do alike.
trait Variables: Default {
    fn get(&self, name: &str) -> Option<i64>;
    fn put(&mut self, name: Rc<str>, value: i64);
    fn change(&mut self, name: &str, value: i64);
}

impl Variables for BTreeMap<Rc<str>, i64> {
    fn get(&self, name: &str) -> Option<i64> {
        self.get(name).copied()
    }

    fn put(&mut self, name: Rc<str>, value: i64) {
        self.insert(name, value);
    }

    fn change(&mut self, name: &str, value: i64) {
        if let Some(place) = self.get_mut(name) {
            *place = value;
        }
    }
}

impl Variables for HashMap<Rc<str>, i64> {
    fn get(&self, name: &str) -> Option<i64> {
        self.get(name).copied()
    }

    fn put(&mut self, name: Rc<str>, value: i64) {
        self.insert(name, value);
    }

    fn change(&mut self, name: &str, value: i64) {
        if let Some(place) = self.get_mut(name) {
            *place = value;
        }
    }
}

fn each(start: Instant) -> f64 {
    start.elapsed().as_secs_f64() * 1e9 / OPERATIONS as f64
}

fn place(i: usize, count: usize) -> usize {
    i * 7_919 % count
}

fn declared<V: Variables>(names: &Names) -> V {
    let mut variables = V::default();
    for name in names {
        variables.put(name.clone(), 7);
    }
    variables
}

// What a declaration, a look-up and an assignment take.
fn spent<V: Variables>(names: &Names) -> [f64; 3] {
    let start = Instant::now();
    for _ in 0..OPERATIONS / names.len() {
        black_box(declared::<V>(black_box(names)));
    }
    let declare = each(start);
    let mut variables: V = declared(names);
    let start = Instant::now();
    let name = |i| &names[place(i, names.len())];
    black_box((0..OPERATIONS).filter_map(|i| variables.get(name(i))).sum::<i64>());
    let look_up = each(start);
    let start = Instant::now();
    for i in 0..OPERATIONS {
        variables.change(name(i), 8);
    }
    black_box(variables.get(&names[0]));
    [declare, look_up, each(start)]
}

pub fn measure() {
    for count in [10, 1_000, 100_000] {
        let name = |number| Rc::from(format!("variable-{number}"));
        let names: Vec<Rc<str>> = (0..count).map(name).collect();
        let ordered = spent::<BTreeMap<Rc<str>, i64>>(&names);
        let hashed = spent::<HashMap<Rc<str>, i64>>(&names);
        for (at, operation) in ["declare", "lookup", "assign"].iter().enumerate() {
            println!("{operation}-{count} {:.1} {:.1}", ordered[at], hashed[at]);
        }
    }
}
