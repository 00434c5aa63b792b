//! The chart of bench/benchchart.txt in plain Rust, without contracts and proofs: the same steps in the same order, over the same list.
//!
//! Arguments, standard input and the line printed are those of bench/benchchart.txt. The grammar is taken to be one: nothing here judges its bytes.
use std::io::Read;
use std::time::Instant;

const MISSING: u8 = 255;

#[derive(Clone, Copy, PartialEq)]
enum Kind {
    Inner,
    Word(u16),
    Empty,
    Foot,
}

struct Node {
    kind: Kind,
    children: Vec<u8>,
    may_stay: bool,
    listed: Vec<bool>,
}

struct Tree {
    initial: bool,
    nodes: Vec<Node>,
}

struct Grammar {
    trees: Vec<Tree>,
}

/// Links the node `n` to its children, and answers where its subtree ends.
fn link(nodes: &mut [Node], counts: &[u8], n: usize) -> usize {
    let mut at = n + 1;
    for _ in 0..counts[n] {
        nodes[n].children.push(at as u8);
        at = link(nodes, counts, at);
    }
    at
}

fn read_tree(initial: bool, body: &[u8]) -> Tree {
    let mut nodes = Vec::new();
    let mut counts = Vec::new();
    for four in body.chunks(4) {
        let name = u16::from_be_bytes([four[1], four[2]]);
        let kind = match four[0] {
            0 => Kind::Inner,
            1 => Kind::Word(name),
            2 => Kind::Empty,
            _ => Kind::Foot,
        };
        nodes.push(Node { kind, children: Vec::new(), may_stay: true, listed: Vec::new() });
        counts.push(four[3]);
    }
    link(&mut nodes, &counts, 0);
    Tree { initial, nodes }
}

fn read_grammar(mut bytes: &[u8]) -> Grammar {
    let mut trees: Vec<Tree> = Vec::new();
    while let [tag, high, low, rest @ ..] = bytes {
        let (body, behind) = rest.split_at(u16::from_be_bytes([*high, *low]) as usize);
        match tag {
            2 | 3 => trees.push(read_tree(*tag == 2, body)),
            4 => {
                let count = trees.len();
                let node = &mut trees[body[0] as usize].nodes[body[1] as usize];
                node.may_stay = body[2] == 1;
                node.listed = vec![false; count];
                for &tree in &body[3..] {
                    node.listed[tree as usize] = true;
                }
            }
            _ => {}
        }
        bytes = behind;
    }
    Grammar { trees }
}

#[derive(Clone, Copy, PartialEq)]
enum Spot {
    Top,
    At(u8),
}

#[derive(Clone, Copy)]
enum Origin {
    Start,
    Scan(usize),
    Predict(usize),
    Complete(usize, usize),
    AdjoinPredict(usize),
    FootPredict(usize),
    FootComplete(usize, usize),
    AdjoinComplete(usize, usize, usize),
}

#[derive(Clone, Copy)]
struct Item {
    tree: u8,
    spot: Spot,
    dot: u8,
    i: u8,
    j: u8,
    p: u8,
    q: u8,
    origin: Origin,
}

impl Item {
    fn fresh(tree: u8, spot: Spot, position: u8, origin: Origin) -> Item {
        Item { tree, spot, dot: 0, i: position, j: position, p: MISSING, q: MISSING, origin }
    }

    fn same(&self, other: &Item) -> bool {
        self.tree == other.tree
            && self.spot == other.spot
            && self.dot == other.dot
            && self.i == other.i
            && self.j == other.j
            && self.p == other.p
            && self.q == other.q
    }

    /// Finished at the top of its tree.
    fn is_whole(&self) -> bool {
        self.spot == Spot::Top && self.dot == 1
    }
}

enum Next {
    End,
    Bottom,
    Child(u8),
}

impl Grammar {
    fn node(&self, tree: u8, node: u8) -> &Node {
        &self.trees[tree as usize].nodes[node as usize]
    }

    fn next(&self, x: &Item) -> Next {
        let Spot::At(n) = x.spot else {
            return if x.dot > 0 { Next::End } else { Next::Child(0) };
        };
        let node = self.node(x.tree, n);
        match node.kind {
            Kind::Foot if x.dot == 0 => Next::Bottom,
            _ => match node.children.get(x.dot as usize) {
                Some(&child) => Next::Child(child),
                None => Next::End,
            },
        }
    }

    fn finished(&self, x: &Item) -> bool {
        matches!(self.next(x), Next::End)
    }

    /// The inner node or foot right after the dot.
    fn site(&self, x: &Item) -> Option<u8> {
        let Next::Child(n) = self.next(x) else {
            return None;
        };
        match self.node(x.tree, n).kind {
            Kind::Inner | Kind::Foot => Some(n),
            Kind::Word(_) | Kind::Empty => None,
        }
    }

    fn starts_foot(&self, x: &Item) -> bool {
        let Spot::At(n) = x.spot else {
            return false;
        };
        x.dot == 0 && x.i == x.j && self.node(x.tree, n).kind == Kind::Foot
    }

    fn lists(&self, tree: u8, node: u8, auxiliary: u8) -> bool {
        *self.node(tree, node).listed.get(auxiliary as usize).unwrap_or(&false)
    }

    fn complete(&self, a: usize, x: &Item, b: usize, y: &Item) -> Option<Item> {
        if y.i != x.j || y.tree != x.tree {
            return None;
        }
        let n = self.site(x)?;
        if y.spot != Spot::At(n) || !self.node(x.tree, n).may_stay || !self.finished(y) {
            return None;
        }
        Some(Item { dot: x.dot + 1, j: y.j, p: join(x.p, y.p), q: join(x.q, y.q), origin: Origin::Complete(a, b), ..*x })
    }

    fn foot_complete(&self, a: usize, x: &Item, b: usize, f: &Item) -> Option<Item> {
        if f.i != x.i || !self.starts_foot(f) {
            return None;
        }
        let Spot::At(n) = x.spot else {
            return None;
        };
        if !self.lists(x.tree, n, f.tree) || !self.finished(x) {
            return None;
        }
        Some(Item { tree: f.tree, spot: f.spot, dot: 1, i: x.i, j: x.j, p: x.i, q: x.j, origin: Origin::FootComplete(a, b) })
    }

    /// Adjoin complete, where `x` is finished at the top of its tree.
    fn adjoin_complete(&self, (a, x): (usize, &Item), (b, y): (usize, &Item), (c, z): (usize, &Item)) -> Option<Item> {
        if x.i != z.j || y.i != x.p || y.j != x.q || y.tree != z.tree {
            return None;
        }
        let n = self.site(z)?;
        if y.spot != Spot::At(n) || !self.lists(z.tree, n, x.tree) || !self.finished(y) {
            return None;
        }
        Some(Item { dot: z.dot + 1, j: x.j, p: join(y.p, z.p), q: join(y.q, z.q), origin: Origin::AdjoinComplete(a, b, c), ..*z })
    }
}

fn join(a: u8, b: u8) -> u8 {
    match (a, b) {
        (MISSING, b) => b,
        (a, MISSING) => a,
        (a, b) => a.min(b),
    }
}

struct Chart<'a> {
    grammar: &'a Grammar,
    words: &'a [u16],
    items: Vec<Item>,
    capacity: usize,
    full: bool,
}

impl Chart<'_> {
    fn draw(&mut self, item: Item) {
        if self.full || self.items.iter().any(|held| held.same(&item)) {
            return;
        }
        if self.items.len() < self.capacity {
            self.items.push(item);
        } else {
            self.full = true;
        }
    }

    /// Draws what the step concludes at each of the first `n` items, in order.
    fn sweep(&mut self, n: usize, step: impl Fn(usize, &Item) -> Option<Item>) {
        for k in 0..n {
            if self.full {
                return;
            }
            if let Some(item) = step(k, &self.items[k]) {
                self.draw(item);
            }
        }
    }

    fn start(&mut self) {
        let grammar = self.grammar;
        for (k, tree) in grammar.trees.iter().enumerate() {
            if tree.initial {
                self.draw(Item::fresh(k as u8, Spot::Top, 0, Origin::Start));
            }
        }
    }

    fn scan(&mut self, t: usize, x: &Item) {
        let Next::Child(n) = self.grammar.next(x) else {
            return;
        };
        let moved = Item { dot: x.dot + 1, origin: Origin::Scan(t), ..*x };
        match self.grammar.node(x.tree, n).kind {
            Kind::Word(word) => {
                if self.words.get(x.j as usize) == Some(&word) {
                    self.draw(Item { j: x.j + 1, ..moved });
                }
            }
            Kind::Empty => self.draw(moved),
            Kind::Inner | Kind::Foot => {}
        }
    }

    fn predict(&mut self, t: usize, x: &Item) {
        let Some(n) = self.grammar.site(x) else {
            return;
        };
        if self.grammar.node(x.tree, n).may_stay {
            self.draw(Item::fresh(x.tree, Spot::At(n), x.j, Origin::Predict(t)));
        }
    }

    fn complete(&mut self, t: usize, x: &Item) {
        let grammar = self.grammar;
        if grammar.finished(x) {
            self.sweep(t, |a, other| grammar.complete(a, other, t, x));
        }
        if grammar.site(x).is_some() {
            self.sweep(t + 1, |b, other| grammar.complete(t, x, b, other));
        }
    }

    fn adjoin_predict(&mut self, t: usize, x: &Item) {
        let Some(n) = self.grammar.site(x) else {
            return;
        };
        for k in 0..self.grammar.trees.len() as u8 {
            if self.grammar.lists(x.tree, n, k) {
                self.draw(Item::fresh(k, Spot::Top, x.j, Origin::AdjoinPredict(t)));
            }
        }
    }

    fn foot_predict(&mut self, t: usize, x: &Item) {
        let grammar = self.grammar;
        if !grammar.starts_foot(x) {
            return;
        }
        for (k, tree) in grammar.trees.iter().enumerate() {
            for n in 0..tree.nodes.len() {
                let (tree, node) = (k as u8, n as u8);
                if grammar.lists(tree, node, x.tree) {
                    self.draw(Item::fresh(tree, Spot::At(node), x.j, Origin::FootPredict(t)));
                }
            }
        }
    }

    fn foot_complete(&mut self, t: usize, x: &Item) {
        let grammar = self.grammar;
        if grammar.starts_foot(x) {
            self.sweep(t, |a, other| grammar.foot_complete(a, other, t, x));
        }
        if grammar.finished(x) {
            self.sweep(t + 1, |b, other| grammar.foot_complete(t, x, b, other));
        }
    }

    fn adjoin_complete(&mut self, t: usize, x: &Item) {
        let grammar = self.grammar;
        for a in 0..t {
            let first = self.items[a];
            if !first.is_whole() {
                continue;
            }
            if first.i == x.j && grammar.site(x).is_some() {
                self.sweep(t, |b, other| grammar.adjoin_complete((a, &first), (b, other), (t, x)));
            }
            if x.i == first.p && x.j == first.q && grammar.finished(x) {
                self.sweep(t + 1, |c, other| grammar.adjoin_complete((a, &first), (t, x), (c, other)));
            }
        }
        if !x.is_whole() {
            return;
        }
        for b in 0..t + 1 {
            let second = self.items[b];
            if second.i == x.p && second.j == x.q && grammar.finished(&second) {
                self.sweep(t + 1, |c, other| grammar.adjoin_complete((t, x), (b, &second), (c, other)));
            }
        }
    }

    /// Processes items in order until none is left or the chart is full, and answers how many.
    fn work(&mut self) -> usize {
        let mut t = 0;
        while !self.full && t < self.items.len() {
            let x = self.items[t];
            self.scan(t, &x);
            self.predict(t, &x);
            self.complete(t, &x);
            self.adjoin_predict(t, &x);
            self.foot_predict(t, &x);
            self.foot_complete(t, &x);
            self.adjoin_complete(t, &x);
            t += 1;
        }
        t
    }
}

/// One more item in a sum that depends on the order.
fn with_item(sum: u64, item: &Item) -> u64 {
    let spot = match item.spot {
        Spot::Top => 256,
        Spot::At(node) => node as u64,
    };
    let (step, a, b, c) = match item.origin {
        Origin::Start => (0, 0, 0, 0),
        Origin::Scan(a) => (1, a, 0, 0),
        Origin::Predict(a) => (2, a, 0, 0),
        Origin::Complete(a, b) => (3, a, b, 0),
        Origin::AdjoinPredict(a) => (4, a, 0, 0),
        Origin::FootPredict(a) => (5, a, 0, 0),
        Origin::FootComplete(a, b) => (6, a, b, 0),
        Origin::AdjoinComplete(a, b, c) => (7, a, b, c),
    };
    let small = [item.dot, item.i, item.j, item.p, item.q].map(u64::from);
    let places = [item.tree as u64, spot].into_iter().chain(small);
    places
        .chain([step, a as u64, b as u64, c as u64])
        .fold(sum, |sum, number| (sum ^ number).wrapping_mul(0x0100_0000_01b3))
}

fn main() {
    let numbers: Vec<usize> = std::env::args().skip(1).map(|text| text.parse().expect("a number")).collect();
    let mut bytes = Vec::new();
    std::io::stdin().read_to_end(&mut bytes).expect("a grammar");
    let grammar = read_grammar(&bytes);
    let words = vec![1; numbers[0]];
    let mut chart = Chart { grammar: &grammar, words: &words, items: Vec::with_capacity(numbers[1]), capacity: numbers[1], full: false };
    chart.start();
    let begun = Instant::now();
    let processed = chart.work();
    let took = begun.elapsed().as_nanos();
    let sum = chart.items.iter().fold(0xcbf2_9ce4_8422_2325, with_item);
    println!("{processed} {} {sum} {took}", chart.items.len());
}
