//! What the program `bench_tree` does to well-formed folded text on standard input, in plain Rust: a list of the samples, whose rows of
//! frame numbers are kept once, a tree of call paths with the weight of each path and of all below it, into which each sample is added,
//! the boxes of the tree's flame graph in the order of its names, and those of the list's flame chart.
//!
//!     grow_tree [MORE]
//!
//! With MORE it makes the same tree so many times more.

mod boxes;
mod folded;
mod hashing;
mod names;
mod page;
mod profiles;
mod stacks;

use std::cmp::Reverse;
use std::io::Read;

use boxes::Boxes;
use hashing::QuickMap;
use stacks::{Rows, Source, Stacks};

/// The row of each sample, and its weight.
type List = Vec<(u32, u64)>;

/// Call paths: node 0 is the root, and a node is found by its parent and its frame.
struct CallTree {
    places: QuickMap<(u32, u32), u32>,
    path_ends: Vec<(u32, u32)>,
    totals: Vec<u64>,
    owns: Vec<u64>,
}

impl CallTree {
    fn of(rows: &Rows, list: &List) -> Self {
        let mut tree = CallTree { places: QuickMap::default(), path_ends: vec![(0, 0)], totals: vec![0], owns: vec![0] };
        for (row, weight) in list {
            tree.add(rows.row(*row as usize), *weight);
        }
        tree
    }

    fn add(&mut self, path: &[u32], weight: u64) {
        if weight == 0 {
            return;
        }
        let mut node = 0;
        self.totals[0] += weight;
        for frame in path {
            let new = self.totals.len() as u32;
            let next = *self.places.entry((node, *frame)).or_insert(new);
            if next == new {
                self.path_ends.push((node, *frame));
                self.totals.push(0);
                self.owns.push(0);
            }
            self.totals[next as usize] += weight;
            node = next;
        }
        self.owns[node as usize] += weight;
    }
}

/// A box before it is placed in an image, with the number of its name.
#[allow(dead_code)]
struct SpanBox {
    depth: u32,
    name: u32,
    start: u64,
    weight: u64,
    own: u64,
}

/// The nodes by their parents, the children of one from the last name to the first, and where those of each begin.
fn children(tree: &CallTree, ranks: &[u32]) -> (Vec<u32>, Vec<u32>) {
    let mut nodes: Vec<u32> = (1..tree.totals.len() as u32).collect();
    nodes.sort_unstable_by_key(|node| {
        let (parent, frame) = tree.path_ends[*node as usize];
        (parent, Reverse(ranks[frame as usize]))
    });
    let mut begins = vec![0; tree.totals.len() + 1];
    for (parent, _) in &tree.path_ends[1..] {
        begins[*parent as usize + 1] += 1;
    }
    for parent in 1..begins.len() {
        begins[parent] += begins[parent - 1];
    }
    (nodes, begins)
}

/// The boxes of a tree's flame graph.
fn graph_boxes(tree: &CallTree, texts: &[&str]) -> Vec<SpanBox> {
    if tree.totals[0] == 0 {
        return Vec::new();
    }
    let (nodes, begins) = children(tree, &names::ranks(texts));
    let mut boxes = Vec::with_capacity(tree.totals.len());
    let (mut start, mut waiting) = (0, vec![(0, 0)]);
    while let Some((node, depth)) = waiting.pop() {
        let place = node as usize;
        let name = if depth == 0 { names::ALL } else { tree.path_ends[place].1 };
        boxes.push(SpanBox { depth, name, start, weight: tree.totals[place], own: tree.owns[place] });
        start += tree.owns[place];
        let below = begins[place] as usize..begins[place + 1] as usize;
        waiting.extend(nodes[below].iter().map(|child| (*child, depth + 1)));
    }
    boxes
}

fn main() -> std::io::Result<()> {
    let more = std::env::args().nth(1).and_then(|word| word.parse::<u32>().ok()).unwrap_or(0);
    let mut bytes = Vec::new();
    std::io::stdin().lock().read_to_end(&mut bytes)?;
    let source = Source::text(bytes);
    let mut stacks = Stacks::<1>::new();
    let mut list = List::new();
    stacks.each_sample(&source, |_, row, weight| list.push((row, weight)));
    let tree = CallTree::of(&stacks.rows, &list);
    for _ in 0..more {
        std::hint::black_box(CallTree::of(&stacks.rows, &list));
    }
    let graph = std::hint::black_box(graph_boxes(&tree, &stacks.names.texts())).len();
    let samples = list.iter().map(|(row, weight)| (stacks.rows.row(*row as usize), [*weight]));
    let chart = Boxes::of(names::ALL, samples).count();
    let (nodes, weight) = (tree.totals.len(), tree.totals[0]);
    println!("{nodes} nodes, weight {weight}, {graph} boxes in the graph, {chart} in the chart");
    Ok(())
}
