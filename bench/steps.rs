// The machine over its stores in plain Rust: the nanoseconds of a reduction, of four scripts that
// don't end, and those of a copy of full stores.
use crate::frames::{apply, num, prim, var, Body, Control, Expr, Op, Redex, Val};
use crate::timed;
use std::collections::{HashMap, HashSet};
use std::hint::black_box;
use std::rc::Rc;
use std::time::Instant;

const REDUCTIONS: u32 = 2_000_000;
const MOST_MASS: u64 = 1 << 26;

// How many activations with two variables each, and how many nodes, are all that there may be.
const ACTS: u32 = 524_288;
const NODES: u32 = 524_288;

#[derive(Debug)]
enum Fault {
    Kind,
    Name,
    Range,
    Overflow,
    Limit,
}

#[derive(Clone)]
struct Act {
    parent: Option<u32>,
    vars: HashMap<Rc<str>, Val>,
}

#[derive(Clone, Default)]
struct Node {
    parent: Option<u32>,
    children: Vec<u32>,
    page: Option<u32>,
    name: Option<Rc<str>>,
    text: Option<Rc<str>>,
}

#[derive(Clone)]
struct Page {
    window: u32,
    root: u32,
    act: u32,
}

#[derive(Clone)]
struct Stores {
    nodes: Vec<Node>,
    pages: Vec<Page>,
    // The pages of the windows, and the open windows.
    windows: Vec<u32>,
    opened: Vec<u32>,
    acts: Vec<Act>,
    mass: u64,
    touched: HashSet<u32>,
}

impl Stores {
    // One window, whose page has one text, the node 1.
    fn new() -> Stores {
        let root = Node {
            children: vec![1],
            page: Some(0),
            ..Node::default()
        };
        let page = Page {
            window: 0,
            root: 0,
            act: 0,
        };
        Stores {
            nodes: vec![root, Stores::text(Some(0))],
            pages: vec![page],
            windows: vec![0],
            opened: vec![0],
            acts: vec![Stores::act(None, HashMap::new())],
            mass: 0,
            touched: HashSet::new(),
        }
    }

    fn text(parent: Option<u32>) -> Node {
        Node {
            parent,
            name: Some("b".into()),
            text: Some("pin".into()),
            ..Node::default()
        }
    }

    fn act(parent: Option<u32>, vars: HashMap<Rc<str>, Val>) -> Act {
        Act { parent, vars }
    }

    // As many activations, variables and nodes as there may be.
    fn full() -> Stores {
        let mut stores = Stores::new();
        let (one, two): (Rc<str>, Rc<str>) = ("a".into(), "b".into());
        for number in 1..ACTS {
            let vars = [(one.clone(), number), (two.clone(), number)];
            let vars = vars.map(|(name, number)| (name, Val::Num(number.into())));
            stores.acts.push(Stores::act(Some(0), vars.into()));
        }
        stores.nodes.resize(NODES as usize, Stores::text(None));
        stores
    }

    fn is_live(&self, page: u32) -> bool {
        self.opened.iter().any(|window| self.windows[*window as usize] == page)
    }

    fn find(&self, node: u32, name: &str) -> Option<u32> {
        let this = &self.nodes[node as usize];
        if this.name.as_deref() == Some(name) {
            return Some(node);
        }
        this.children.iter().find_map(|child| self.find(*child, name))
    }

    fn lookup(&self, act: u32, name: &str) -> Option<&Val> {
        let mut at = Some(act);
        while let Some(act) = at {
            let act = &self.acts[act as usize];
            if let Some(value) = act.vars.get(name) {
                return Some(value);
            }
            at = act.parent;
        }
        None
    }

    fn declare(&mut self, act: u32, name: Rc<str>, value: Val) {
        self.acts[act as usize].vars.insert(name, value);
    }

    fn assign(&mut self, act: u32, name: &str, value: Val) -> Result<(), Fault> {
        let mut at = Some(act);
        while let Some(number) = at {
            let act = &mut self.acts[number as usize];
            if let Some(place) = act.vars.get_mut(name) {
                *place = value;
                return Ok(());
            }
            at = act.parent;
        }
        Err(Fault::Name)
    }

    fn page_of(&self, node: u32) -> Option<u32> {
        let mut at = node;
        while let Some(parent) = self.nodes[at as usize].parent {
            at = parent;
        }
        self.nodes[at as usize].page
    }

    fn set_text(&mut self, node: u32, text: &Rc<str>) -> Result<(), Fault> {
        let place = &mut self.nodes[node as usize].text;
        if place.is_none() {
            return Err(Fault::Kind);
        }
        let weight = text.len() as u64;
        if weight > MOST_MASS - self.mass {
            return Err(Fault::Limit);
        }
        *place = Some(text.clone());
        self.mass += weight;
        if let Some(page) = self.page_of(node) {
            if self.is_live(page) {
                self.touched.insert(page);
            }
        }
        Ok(())
    }
}

fn equal(a: &Val, b: &Val) -> Result<bool, Fault> {
    match (a, b) {
        (Val::Code(_), _) | (_, Val::Code(_)) => Err(Fault::Kind),
        (Val::Null, Val::Null) => Ok(true),
        (Val::Bool(a), Val::Bool(b)) => Ok(a == b),
        (Val::Num(a), Val::Num(b)) => Ok(a == b),
        (Val::Str(a), Val::Str(b)) => Ok(a == b),
        (Val::Win(a), Val::Win(b)) | (Val::Node(a), Val::Node(b)) => Ok(a == b),
        _ => Ok(false),
    }
}

// What an operator gives that reads or changes the stores.
fn use_stores(stores: &mut Stores, page: u32, op: Op, values: &[Val]) -> Result<Val, Fault> {
    match (op, values) {
        (Op::Window, []) => Ok(Val::Win(stores.pages[page as usize].window)),
        (Op::Page, [Val::Win(window)]) => {
            let page = stores.windows[*window as usize];
            Ok(Val::Node(stores.pages[page as usize].root))
        }
        (Op::Find, [Val::Node(node), Val::Str(name)]) => {
            Ok(stores.find(*node, name).map_or(Val::Null, Val::Node))
        }
        (Op::Text, [Val::Node(node)]) => match &stores.nodes[*node as usize].text {
            Some(text) => Ok(Val::Str(text.clone())),
            None => Err(Fault::Kind),
        },
        (Op::SetText, [Val::Node(node), Val::Str(text)]) => {
            stores.set_text(*node, text)?;
            Ok(Val::Null)
        }
        _ => Err(Fault::Kind),
    }
}

fn operate(stores: &mut Stores, page: u32, op: Op, values: &[Val]) -> Result<Val, Fault> {
    let number = match (op, values) {
        (Op::Add, [Val::Num(a), Val::Num(b)]) => a.checked_add(*b),
        (Op::Sub, [Val::Num(a), Val::Num(b)]) => a.checked_sub(*b),
        (Op::Mul, [Val::Num(a), Val::Num(b)]) => a.checked_mul(*b),
        (Op::Div | Op::Rem, [Val::Num(_), Val::Num(0)]) => return Err(Fault::Range),
        (Op::Div, [Val::Num(a), Val::Num(b)]) => a.checked_div(*b),
        (Op::Rem, [Val::Num(a), Val::Num(b)]) => a.checked_rem(*b),
        (Op::Less, [Val::Num(a), Val::Num(b)]) => return Ok(Val::Bool(a < b)),
        (Op::Equal, [a, b]) => return equal(a, b).map(Val::Bool),
        _ => return use_stores(stores, page, op, values),
    };
    number.map(Val::Num).ok_or(Fault::Overflow)
}

fn reduce(control: &mut Control, stores: &mut Stores, page: u32) -> Result<(), Fault> {
    match control.next() {
        Redex::Local => control.local(),
        Redex::Test(Val::Bool(test)) => control.choose(test),
        Redex::Test(_) | Redex::Apply(_, _) => return Err(Fault::Kind),
        Redex::Var(name) => {
            let value = stores.lookup(control.act, &name).cloned();
            control.give(value.ok_or(Fault::Name)?);
        }
        Redex::Let(name, value) => {
            stores.declare(control.act, name, value.clone());
            control.give(value);
        }
        Redex::Set(name, value) => {
            stores.assign(control.act, &name, value.clone())?;
            control.give(value);
        }
        Redex::Prim(op, values) => {
            let value = operate(stores, page, op, &values)?;
            control.give(value);
        }
    }
    Ok(())
}

// The reductions of a script of a page that is live, so many at the most.
fn run(body: &Body, stores: &mut Stores, page: u32) -> Result<u32, Fault> {
    let mut control = Control::start(body);
    control.act = stores.pages[page as usize].act;
    let mut made = 0;
    while made < REDUCTIONS && stores.is_live(page) && !control.is_done() {
        reduce(&mut control, stores, page)?;
        made += 1;
    }
    Ok(made)
}

fn many(parts: Vec<Body>) -> Body {
    Rc::new(Expr::Do(parts.into()))
}

fn put(name: &str, part: Body) -> Body {
    Rc::new(Expr::Set(name.into(), part))
}

fn declared(name: &str, part: Body) -> Body {
    Rc::new(Expr::Let(name.into(), part))
}

fn forever(body: Body) -> Body {
    Rc::new(Expr::While(Rc::new(Expr::Lit(Val::Bool(true))), body))
}

/// `(while (< (% 7 5) (* 3 4)) (+ (- 5 6) (/ 8 2)))`
fn arithmetic() -> Body {
    let test = prim(Op::Less, prim(Op::Rem, num(7), num(5)), prim(Op::Mul, num(3), num(4)));
    let body = prim(Op::Add, prim(Op::Sub, num(5), num(6)), prim(Op::Div, num(8), num(2)));
    Rc::new(Expr::While(test, body))
}

/// `(do (let a 1) (let b 2) (while true (do (set a b) (set b a))))`
fn variables() -> Body {
    let turn = many(vec![put("a", var("b")), put("b", var("a"))]);
    many(vec![declared("a", num(1)), declared("b", num(2)), forever(turn)])
}

fn text(text: &str) -> Body {
    Rc::new(Expr::Lit(Val::Str(text.into())))
}

/// `(do (let n NODE) (while true (set-text n "ab")))`
fn set_text() -> Body {
    let node = Rc::new(Expr::Lit(Val::Node(1)));
    let turn = prim(Op::SetText, var("n"), text("ab"));
    many(vec![declared("n", node), forever(turn)])
}

/// `(while (= (text (find (page (self)) "b")) "pin") null)`
fn page_loop() -> Body {
    let page = apply(Op::Page, vec![apply(Op::Window, Vec::new())]);
    let found = apply(Op::Text, vec![prim(Op::Find, page, text("b"))]);
    let null = Rc::new(Expr::Lit(Val::Null));
    Rc::new(Expr::While(prim(Op::Equal, found, text("pin")), null))
}

fn report(name: &str, body: &Body) {
    let mut stores = Stores::new();
    let start = Instant::now();
    let made = run(body, &mut stores, 0).expect("a script without a fault");
    let nanoseconds = start.elapsed().as_secs_f64() * 1e9 / f64::from(made);
    println!("{name} {nanoseconds:.1}");
}

const SCRIPTS: [(&str, fn() -> Body); 4] = [
    ("arithmetic", arithmetic),
    ("variables", variables),
    ("set-text", set_text),
    ("loop", page_loop),
];

/// Times the script of this name alone.
pub fn measure_one(name: &str) {
    for (known, body) in SCRIPTS {
        if known == name {
            report(known, &body());
        }
    }
}

pub fn measure() {
    for (name, body) in SCRIPTS {
        report(name, &body());
    }
    let stores = Stores::full();
    timed("fork", 3, || {
        black_box(black_box(&stores).clone());
    });
}
