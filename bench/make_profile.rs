//! Writes an uncompressed pprof profile of the asked number of samples, made from a fixed seed, with one sample type. Where a KIND is
//! asked for, its stacks are those of `calls.rs`, with a location for each frame and a function for each two locations. Without one the
//! profile has a location for each ten samples, a function for each ten locations, and stacks of 10 to 30 random locations.
//!
//!     make_profile SAMPLES [KIND] [seedN] > FILE

mod calls;
mod numbers;

use std::io::{BufWriter, Write};

use calls::{Calls, Kind, FRAMES};
use numbers::Numbers;

/// A message of the wire format, or several top-level fields.
#[derive(Default)]
struct Message(Vec<u8>);

impl Message {
    fn varint(&mut self, mut number: u64) {
        while number >= 0x80 {
            self.0.push(number as u8 | 0x80);
            number >>= 7;
        }
        self.0.push(number as u8);
    }

    /// A field of wire type 0.
    fn number(&mut self, field: u64, number: u64) {
        self.varint(field << 3);
        self.varint(number);
    }

    /// A field of wire type 2.
    fn bytes(&mut self, field: u64, bytes: &[u8]) {
        self.varint(field << 3 | 2);
        self.varint(bytes.len() as u64);
        self.0.extend_from_slice(bytes);
    }

    /// A packed field.
    fn packed(&mut self, field: u64, numbers: impl Iterator<Item = u64>) {
        let mut content = Message::default();
        numbers.for_each(|number| content.varint(number));
        self.bytes(field, &content.0);
    }
}

// field numbers of profile.proto
const SAMPLE_TYPE: u64 = 1;
const SAMPLE: u64 = 2;
const LOCATION: u64 = 4;
const FUNCTION: u64 = 5;
const STRING_TABLE: u64 = 6;

/// A location of one line in the middle of its function.
fn location(id: u64, functions: u64) -> Message {
    let mut line = Message::default();
    line.number(1, 1 + (id - 1) % functions);
    line.number(2, 10 + id % 90);
    let mut location = Message::default();
    location.number(1, id);
    location.number(3, 0x40_0000 + 16 * id);
    location.bytes(4, &line.0);
    location
}

/// The sample type, the strings, the functions and the locations.
fn tables(locations: u64, functions: u64) -> Message {
    let mut tables = Message::default();
    let mut sample_type = Message::default();
    sample_type.number(1, 1);
    sample_type.number(2, 2);
    tables.bytes(SAMPLE_TYPE, &sample_type.0);
    for text in ["", "samples", "count"] {
        tables.bytes(STRING_TABLE, text.as_bytes());
    }
    for function in 1..=functions {
        let name = format!("module_{}::function_{}", function % 37, function);
        tables.bytes(STRING_TABLE, name.as_bytes());
        let mut message = Message::default();
        message.number(1, function);
        message.number(2, 2 + function);
        tables.bytes(FUNCTION, &message.0);
    }
    for id in 1..=locations {
        tables.bytes(LOCATION, &location(id, functions).0);
    }
    tables
}

/// A sample of these locations, innermost first.
fn sample(locations: impl Iterator<Item = u64>, weight: u64) -> Message {
    let mut sample = Message::default();
    sample.packed(1, locations);
    sample.packed(2, std::iter::once(weight));
    let mut field = Message::default();
    field.bytes(SAMPLE, &sample.0);
    field
}

fn main() -> std::io::Result<()> {
    let words: Vec<String> = std::env::args().skip(1).collect();
    let samples: u64 = words.first().and_then(|word| word.parse().ok()).expect("usage: make_profile SAMPLES [KIND] [seedN]");
    let seed = words.iter().find_map(|word| word.strip_prefix("seed")?.parse::<u64>().ok()).unwrap_or(0);
    let mut out = BufWriter::new(std::io::stdout().lock());
    if let Some(kind) = words.iter().find_map(|word| Kind::of(word)) {
        out.write_all(&tables(FRAMES, FRAMES / 2).0)?;
        let mut calls = Calls::new(kind, samples, None, seed);
        for _ in 0..samples {
            let (stack, weight) = calls.next();
            out.write_all(&sample(stack.iter().rev().map(|frame| 1 + frame), weight).0)?;
        }
        return out.flush();
    }
    let locations = (samples / 10).max(1);
    out.write_all(&tables(locations, (locations / 10).max(1)).0)?;
    let mut numbers = Numbers(0x5eed_0f1a_3e5c_0113);
    for _ in 0..samples {
        let depth = 10 + numbers.below(21);
        let ids: Vec<u64> = (0..depth).map(|_| 1 + numbers.below(locations)).collect();
        out.write_all(&sample(ids.into_iter(), 1 + numbers.below(100)).0)?;
    }
    out.flush()
}
