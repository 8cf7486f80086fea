// The term machine in plain Rust: the nanoseconds of a reduction, of two programs. The machine over
// stores has its control and its expressions.
use std::mem;
use std::rc::Rc;
use std::time::Instant;

const TURNS: i64 = 100_000;
const CALLS: i64 = 900;
const DESCENTS: u32 = 100;

pub type Body = Rc<Expr>;
pub type Exprs = Rc<[Body]>;

#[derive(Clone, Copy)]
pub enum Op {
    Add,
    Sub,
    Mul,
    Div,
    Rem,
    Less,
    Equal,
    Window,
    Page,
    Find,
    Text,
    SetText,
}

#[derive(Clone)]
pub enum Val {
    Null,
    Bool(bool),
    Num(i64),
    Str(Rc<str>),
    Win(u32),
    Node(u32),
    Code(Body),
}

pub enum Expr {
    Lit(Val),
    Var(Rc<str>),
    Let(Rc<str>, Body),
    Set(Rc<str>, Body),
    If(Body, Body, Body),
    While(Body, Body),
    Do(Exprs),
    Apply(Body, Exprs),
    Prim(Op, Exprs),
}

pub enum Redex {
    Local,
    Test(Val),
    Var(Rc<str>),
    Let(Rc<str>, Val),
    Set(Rc<str>, Val),
    Apply(Val, Vec<Val>),
    Prim(Op, Vec<Val>),
}

enum Frame {
    Part(Body, Vec<Val>),
    Do(Exprs, usize),
    Inside(u32),
}

enum Focus {
    Value(Val),
    Part(Body),
}

pub struct Control {
    frames: Vec<Frame>,
    focus: Focus,
    pub act: u32,
    depth: u32,
}

fn focus_on(expr: Body) -> Focus {
    match &*expr {
        Expr::Lit(value) => Focus::Value(value.clone()),
        _ => Focus::Part(expr),
    }
}

fn operand(expr: &Expr, at: usize) -> Option<Body> {
    match expr {
        Expr::Let(_, part) | Expr::Set(_, part) | Expr::If(part, _, _) => {
            (at == 0).then(|| part.clone())
        }
        Expr::Apply(function, args) => {
            if at == 0 {
                Some(function.clone())
            } else {
                args.get(at - 1).cloned()
            }
        }
        Expr::Prim(_, args) => args.get(at).cloned(),
        _ => None,
    }
}

impl Control {
    pub fn start(body: &Body) -> Control {
        let mut control = Control {
            frames: Vec::new(),
            focus: focus_on(body.clone()),
            act: 0,
            depth: 0,
        };
        control.seek();
        control
    }

    pub fn is_done(&self) -> bool {
        self.frames.is_empty() && matches!(self.focus, Focus::Value(_))
    }

    fn seek(&mut self) {
        loop {
            match &self.focus {
                Focus::Part(form) => {
                    let (frame, next) = match &**form {
                        Expr::Do(parts) => match parts.first() {
                            None => return,
                            Some(part) => (Frame::Do(parts.clone(), 1), part.clone()),
                        },
                        other => match operand(other, 0) {
                            None => return,
                            Some(part) => (Frame::Part(form.clone(), Vec::new()), part),
                        },
                    };
                    self.frames.push(frame);
                    self.focus = focus_on(next);
                }
                Focus::Value(value) => {
                    let Some(Frame::Part(form, values)) = self.frames.last_mut() else {
                        return;
                    };
                    let Some(next) = operand(form, values.len() + 1) else {
                        return;
                    };
                    values.push(value.clone());
                    self.focus = focus_on(next);
                }
            }
        }
    }

    pub fn next(&self) -> Redex {
        match &self.focus {
            Focus::Part(form) => match &**form {
                Expr::Var(name) => Redex::Var(name.clone()),
                Expr::Prim(op, _) => Redex::Prim(*op, Vec::new()),
                _ => Redex::Local,
            },
            Focus::Value(value) => match self.frames.last() {
                Some(Frame::Part(form, values)) => match &**form {
                    Expr::Let(name, _) => Redex::Let(name.clone(), value.clone()),
                    Expr::Set(name, _) => Redex::Set(name.clone(), value.clone()),
                    Expr::If(_, _, _) => Redex::Test(value.clone()),
                    Expr::Apply(_, _) => Redex::Apply(values[0].clone(), with(&values[1..], value)),
                    Expr::Prim(op, _) => Redex::Prim(*op, with(values, value)),
                    _ => Redex::Local,
                },
                _ => Redex::Local,
            },
        }
    }

    fn take_redex(&mut self) {
        if let Focus::Value(_) = self.focus {
            if let Some(Frame::Inside(outer)) = self.frames.pop() {
                self.act = outer;
                self.depth -= 1;
            }
        }
    }

    pub fn give(&mut self, value: Val) {
        self.take_redex();
        self.focus = Focus::Value(value);
        self.seek();
    }

    pub fn choose(&mut self, yes: bool) {
        let Some(Frame::Part(form, _)) = self.frames.pop() else {
            unreachable!();
        };
        if let Expr::If(_, left, right) = &*form {
            self.focus = focus_on(if yes { left.clone() } else { right.clone() });
        }
        self.seek();
    }

    pub fn enter(&mut self, act: u32, body: &Body) {
        self.take_redex();
        self.frames.push(Frame::Inside(mem::replace(&mut self.act, act)));
        self.depth += 1;
        self.focus = focus_on(body.clone());
        self.seek();
    }

    pub fn local(&mut self) {
        match &self.focus {
            Focus::Part(form) => {
                let Expr::While(test, body) = &**form else {
                    unreachable!();
                };
                let again = Expr::Do(Rc::from([body.clone(), form.clone()]));
                let turn = Expr::If(test.clone(), Rc::new(again), Rc::new(Expr::Lit(Val::Null)));
                self.focus = Focus::Part(Rc::new(turn));
            }
            Focus::Value(_) => match self.frames.pop() {
                Some(Frame::Do(parts, at)) => {
                    if let Some(part) = parts.get(at) {
                        self.focus = focus_on(part.clone());
                        self.frames.push(Frame::Do(parts, at + 1));
                    }
                }
                Some(Frame::Inside(outer)) => {
                    self.act = outer;
                    self.depth -= 1;
                }
                _ => unreachable!(),
            },
        }
        self.seek();
    }
}

fn with(values: &[Val], last: &Val) -> Vec<Val> {
    let mut all = Vec::with_capacity(values.len() + 1);
    all.extend_from_slice(values);
    all.push(last.clone());
    all
}

fn applied(op: Op, values: &[Val]) -> Val {
    match (op, values) {
        (Op::Add, [Val::Num(a), Val::Num(b)]) => Val::Num(a.wrapping_add(*b)),
        (Op::Less, [Val::Num(a), Val::Num(b)]) => Val::Bool(a < b),
        _ => Val::Null,
    }
}

/// The number that a variable has in each activation.
struct Store {
    numbers: Vec<i64>,
}

impl Store {
    fn put(&mut self, act: u32, value: &Val) {
        if let Val::Num(number) = value {
            let at = act as usize;
            if at == self.numbers.len() {
                self.numbers.push(*number);
            } else if at < self.numbers.len() {
                self.numbers[at] = *number;
            }
        }
    }
}

fn reduce(control: &mut Control, store: &mut Store, function: &Body) {
    match control.next() {
        Redex::Local => control.local(),
        Redex::Test(test) => control.choose(matches!(test, Val::Bool(true))),
        Redex::Var(name) if &*name == "f" => control.give(Val::Code(function.clone())),
        Redex::Var(_) => {
            let number = store.numbers.get(control.act as usize).copied().unwrap_or(0);
            control.give(Val::Num(number));
        }
        Redex::Let(_, value) => control.give(value),
        Redex::Set(name, value) => {
            if &*name == "i" {
                store.put(control.act, &value);
            }
            control.give(value);
        }
        Redex::Prim(op, values) => control.give(applied(op, &values)),
        Redex::Apply(Val::Code(body), args) => {
            let act = control.depth + 1;
            if let [arg] = &args[..] {
                store.put(act, arg);
            }
            control.enter(act, &body);
        }
        Redex::Apply(_, _) => control.give(Val::Null),
    }
}

fn run(body: &Body, function: &Body) -> u32 {
    let mut store = Store { numbers: vec![0] };
    let mut control = Control::start(body);
    let mut made = 0;
    while !control.is_done() {
        reduce(&mut control, &mut store, function);
        made += 1;
    }
    made
}

pub fn num(number: i64) -> Body {
    Rc::new(Expr::Lit(Val::Num(number)))
}

pub fn var(name: &str) -> Body {
    Rc::new(Expr::Var(Rc::from(name)))
}

pub fn prim(op: Op, left: Body, right: Body) -> Body {
    apply(op, vec![left, right])
}

pub fn apply(op: Op, operands: Vec<Body>) -> Body {
    Rc::new(Expr::Prim(op, operands.into()))
}

/// `(while (< i TURNS) (set i (+ i 1)))`
fn counting() -> Body {
    let step = Expr::Set(Rc::from("i"), prim(Op::Add, var("i"), num(1)));
    Rc::new(Expr::While(prim(Op::Less, var("i"), num(TURNS)), Rc::new(step)))
}

fn call(arg: Body) -> Body {
    Rc::new(Expr::Apply(var("f"), Rc::from([arg])))
}

/// `(if (< n CALLS) (+ 1 (call f (+ n 1))) 0)`
fn deep() -> Body {
    let inner = call(prim(Op::Add, var("n"), num(1)));
    Rc::new(Expr::If(
        prim(Op::Less, var("n"), num(CALLS)),
        prim(Op::Add, num(1), inner),
        num(0),
    ))
}

fn report(name: &str, times: u32, body: &Body, function: &Body) {
    let start = Instant::now();
    let made: u32 = (0..times).map(|_| run(body, function)).sum();
    let nanoseconds = start.elapsed().as_secs_f64() * 1e9 / f64::from(made);
    println!("{name} {nanoseconds:.1}");
}

pub fn measure() {
    let function = deep();
    report("loop", 1, &counting(), &function);
    report("calls", DESCENTS, &call(num(1)), &function);
}
