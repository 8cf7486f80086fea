// Searches of a page of 100,000 nodes in plain Rust: walks over a vector of their kinds and names.
use crate::timed;
use std::hint::black_box;

#[derive(Clone, Copy, PartialEq)]
enum Kind {
    Page,
    Division,
    Text,
    Button,
    Link,
}

struct Node {
    kind: Kind,
    name: String,
}

const DIVISIONS: usize = 271;
const PARTS: usize = 368;
const TEXTS: usize = DIVISIONS * PARTS - 2;
const WALKS: u32 = 200;

fn node(kind: Kind, name: &str) -> Node {
    Node {
        kind,
        name: name.to_string(),
    }
}

// The nodes in the order in which a search comes to them.
fn page() -> Vec<Node> {
    let mut nodes = vec![node(Kind::Page, "")];
    for part in 0..DIVISIONS * PARTS {
        if part % PARTS == 0 {
            nodes.push(node(Kind::Division, "d"));
        }
        nodes.push(match part {
            TEXTS => node(Kind::Button, "near"),
            part if part > TEXTS => node(Kind::Button, "last"),
            _ => node(Kind::Text, "t"),
        });
    }
    nodes
}

fn nth(nodes: &[Node], kind: Kind, k: usize) -> Option<usize> {
    let mut found = nodes.iter().enumerate().filter(|(_, node)| node.kind == kind);
    found.nth(k).map(|(number, _)| number)
}

fn by_name(nodes: &[Node], name: &str) -> Option<usize> {
    nodes.iter().position(|node| node.name == name)
}

pub fn measure() {
    let nodes = page();
    for (name, kind, k) in [
        ("nth-last", Kind::Text, TEXTS - 1),
        ("nth-past", Kind::Text, TEXTS),
        ("nth-only", Kind::Button, 1),
        ("nth-none", Kind::Link, 0),
    ] {
        timed(name, WALKS, || {
            black_box(nth(black_box(&nodes), black_box(kind), black_box(k)));
        });
    }
    for (name, searched) in [("name-last", "last"), ("name-like", "4"), ("name-none", "none")] {
        timed(name, WALKS, || {
            black_box(by_name(black_box(&nodes), black_box(searched)));
        });
    }
}
