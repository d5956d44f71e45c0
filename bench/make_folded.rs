//! Writes a folded file of the asked number of lines, made from a fixed seed. KIND is one of those of `calls.rs`, `repeated` where there
//! is none. With a depth, each stack has that many frames; with `short`, names are a few bytes long; `seedN` gives other lines of the
//! same kind. With `wide` each stack is another child of one frame.
//!
//!     make_folded LINES [DEPTH] [KIND] [short] [seedN] > FILE
//!     make_folded LINES wide > FILE

mod calls;
mod numbers;

use std::io::{BufWriter, Write};

use calls::{Calls, Kind, FRAMES};

fn main() -> std::io::Result<()> {
    let words: Vec<String> = std::env::args().skip(1).collect();
    let number = |at: usize| words.get(at).and_then(|word| word.parse::<u64>().ok());
    let lines = number(0).expect("usage: make_folded LINES [DEPTH] [KIND] [short] [seedN], or make_folded LINES wide");
    let kind = words.iter().find_map(|word| Kind::of(word)).unwrap_or(Kind::Repeated);
    let short = words.iter().any(|word| word == "short");
    let seed = words.iter().find_map(|word| word.strip_prefix("seed")?.parse::<u64>().ok()).unwrap_or(0);
    let mut out = BufWriter::with_capacity(1 << 16, std::io::stdout().lock());
    if words.iter().any(|word| word == "wide") {
        for child in 0..lines {
            writeln!(out, "main;child_{child} 1")?;
        }
        return out.flush();
    }
    let name = |frame| match (kind == Kind::Deep, short) {
        (true, _) => format!("visit_{frame}"),
        (_, true) => format!("f{frame}"),
        _ => format!("module_{}::function_{frame}", frame % 37),
    };
    let names: Vec<String> = (0..FRAMES).map(name).collect();
    let mut calls = Calls::new(kind, lines, number(1), seed);
    for _ in 0..lines {
        let (stack, weight) = calls.next();
        for (at, frame) in stack.iter().enumerate() {
            out.write_all(if at > 0 { b";" } else { b"" })?;
            out.write_all(names[*frame as usize].as_bytes())?;
        }
        writeln!(out, " {weight}")?;
    }
    out.flush()
}
