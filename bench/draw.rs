//! What `flamecollect fold`, `graph`, `chart` and `compare` do to well-formed sources, in plain Rust on one thread with std's collections.
//! The benchmark measures the program beside this one.
//!
//!     draw [fold|graph|chart] [FILE]...     (without a file: folded text on standard input)
//!     draw graph --every N FILE...
//!     draw compare [--boxes] BEFORE AFTER

mod boxes;
mod folded;
mod hashing;
mod names;
mod page;
mod profiles;
mod stacks;

use std::io::{Read, Result};

use boxes::Boxes;
use page::{quoted, Page};
use stacks::{Sorted, Source, Stacks};

/// The sources of these files, or of standard input where there is no file.
fn load(files: &[&str]) -> Result<Vec<Source>> {
    if files.is_empty() {
        let mut bytes = Vec::new();
        std::io::stdin().lock().read_to_end(&mut bytes)?;
        return Ok(vec![Source::text(bytes)]);
    }
    let load = |file: &&str| {
        let bytes = std::fs::read(file)?;
        let is_profile = [".pb", ".pprof", ".prof"].iter().any(|ending| file.ends_with(ending));
        Ok(if is_profile { Source::Profile(bytes) } else { Source::text(bytes) })
    };
    files.iter().map(load).collect()
}

/// Each sorted stack on a line, with a number for each column.
fn write_lines<const COLUMNS: usize>(sorted: &Sorted<COLUMNS>) -> Result<()> {
    let mut page = Page::new();
    for (row, sums) in sorted.merged() {
        for (at, name) in row.iter().enumerate() {
            page.put(if at > 0 { b";" } else { b"" });
            page.put(sorted.names[*name as usize].as_bytes());
        }
        for sum in sums {
            page.number(b" ", sum);
        }
        page.put(b"\n");
        page.pass_on()?;
    }
    page.flush()
}

fn all_quoted(names: &[&str]) -> Vec<Vec<u8>> {
    names.iter().map(|name| quoted(name)).collect()
}

fn fold(sources: &[Source]) -> Result<()> {
    let mut stacks = Stacks::<1>::new();
    sources.iter().for_each(|source| stacks.gather(source, 0));
    write_lines(&stacks.sorted())
}

/// What was gathered when a snapshot was due.
struct Snapshot {
    at: u64,
    counts: Vec<u64>,
    sums: Vec<[u64; 1]>,
}

/// Gathers the sources one after another, with a snapshot after every so many samples.
fn gather_with_snapshots<'a>(sources: &'a [Source], stacks: &mut Stacks<'a, 1>, every: u64) -> Vec<Snapshot> {
    let (mut at, mut counts, mut snapshots) = (0, vec![0; sources.len()], Vec::new());
    for (place, source) in sources.iter().enumerate() {
        stacks.each_sample(source, |stacks, stack, weight| {
            stacks.sums[stack as usize][0] += weight;
            counts[place] += 1;
            at += 1;
            if at % every == 0 {
                snapshots.push(Snapshot { at, counts: counts.clone(), sums: stacks.sums.clone() });
            }
        });
    }
    snapshots
}

fn graph(sources: &[Source], every: Option<u64>) -> Result<()> {
    let mut stacks = Stacks::new();
    let snapshots = gather_with_snapshots(sources, &mut stacks, every.unwrap_or(u64::MAX));
    let sorted = stacks.sorted();
    let (names, mut page) = (all_quoted(&sorted.names), Page::new());
    for Snapshot { at, counts, sums } in snapshots {
        let boxes = Boxes::of(sorted.all, sorted.weighed(&sums));
        let counts: Vec<String> = counts.iter().map(u64::to_string).collect();
        let middle = format!("\"counts\":[{}],", counts.join(","));
        boxes.write(&mut page, &names, "snapshot", &format!("\"at\":{at},"), &middle)?;
    }
    let boxes = Boxes::of(sorted.all, sorted.weighed(sorted.sums));
    boxes.write(&mut page, &names, "graph", "", "")?;
    page.flush()
}

fn chart(sources: &[Source]) -> Result<()> {
    let mut stacks = Stacks::<1>::new();
    let mut boxes = Boxes::new(names::ALL);
    for source in sources {
        stacks.each_sample(source, |stacks, stack, weight| boxes.push(stacks.rows.row(stack as usize), [weight]));
    }
    let mut page = Page::new();
    boxes.write(&mut page, &all_quoted(&stacks.names.texts()), "chart", "", "")?;
    page.flush()
}

fn compare(sources: &[Source], as_boxes: bool) -> Result<()> {
    let mut stacks = Stacks::<2>::new();
    stacks.gather(&sources[0], 0);
    stacks.gather(&sources[1], 1);
    let sorted = stacks.sorted();
    if !as_boxes {
        return write_lines(&sorted);
    }
    let boxes = Boxes::of(sorted.all, sorted.weighed(sorted.sums));
    let first = format!("\"before\":{},", boxes.total(0));
    let mut page = Page::new();
    boxes.write(&mut page, &all_quoted(&sorted.names), "compare", &first, "")?;
    page.flush()
}

fn main() -> Result<()> {
    let words: Vec<String> = std::env::args().skip(1).collect();
    let words: Vec<&str> = words.iter().map(String::as_str).collect();
    match &words[..] {
        [] => fold(&load(&[])?),
        ["fold", files @ ..] => fold(&load(files)?),
        ["graph", "--every", every, files @ ..] => graph(&load(files)?, every.parse().ok()),
        ["graph", files @ ..] => graph(&load(files)?, None),
        ["chart", files @ ..] => chart(&load(files)?),
        ["compare", "--boxes", files @ ..] => compare(&load(files)?, true),
        ["compare", files @ ..] => compare(&load(files)?, false),
        _ => panic!("usage: draw fold|graph|chart|compare [--every N] [--boxes] [FILE]..."),
    }
}
