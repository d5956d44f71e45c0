//! Writes folded lines of one name each, 256 bytes long, that all have the same hash in the toolchain's default hasher; with `others` they
//! are as many names of the same length with hashes of their own.
//!
//! The hasher begins with a fixed state to which the length is added, and goes through the text 16 bytes at a time: the state and the first
//! 8 bytes make one factor, the next 8 bytes and a constant the other, and the new state is their 128-bit product folded to 64 bits. So two
//! blocks with the same product leave the same state. Where one has the factors `u * p` and `v * q`, and the other `u * q` and `v * p`, the
//! product is the same, whatever `u` and `v` are; they are tried until all bytes can stand in a name. With two such blocks at each of the
//! 16 places there are 2^16 names of the same hash.
//!
//!     make_colliding NAMES [others] > FILE

mod numbers;

use std::io::{BufWriter, Write};

use numbers::Numbers;

const STATE: u64 = 0x243f_6a88_85a3_08d3;
const CONSTANT: u64 = 0x9e37_79b9_7f4a_7c15;
const BLOCKS: usize = 16;

fn new_state(state: u64, [first, second]: [u64; 2]) -> u64 {
    let product = u128::from(state ^ first) * u128::from(second ^ CONSTANT);
    product as u64 ^ (product >> 64) as u64
}

/// Whether all bytes can stand in a name.
fn is_text(word: u64) -> bool {
    word.to_le_bytes().iter().all(|byte| byte.is_ascii_graphic() && *byte != b';')
}

/// Two words of text that are `unit * one` and `unit * other` once they are mixed with `mixed`, where some tries find them.
fn two_multiples(numbers: &mut Numbers, mixed: u64, one: u64, other: u64) -> Option<[u64; 2]> {
    (0..100_000).find_map(|_| {
        let first = u64::from_le_bytes([(); 8].map(|()| b'!' + numbers.below(94) as u8));
        let unit = (first ^ mixed) / one;
        let second = unit.checked_mul(other)? ^ mixed;
        ((first ^ mixed) % one == 0 && is_text(first) && is_text(second)).then_some([first, second])
    })
}

/// Two blocks that lead from this state to one and the same.
fn two_blocks(numbers: &mut Numbers, state: u64) -> [[u64; 2]; 2] {
    loop {
        let one = 2 + numbers.below(10);
        let other = 2 + numbers.below(10);
        if one == other {
            continue;
        }
        let firsts = two_multiples(numbers, state, one, other);
        let seconds = two_multiples(numbers, CONSTANT, other, one);
        if let (Some(firsts), Some(seconds)) = (firsts, seconds) {
            return [[firsts[0], seconds[0]], [firsts[1], seconds[1]]];
        }
    }
}

/// The blocks of each place.
fn places() -> Vec<[[u64; 2]; 2]> {
    let mut numbers = Numbers(0x5eed_0f1a_3e5c_0113);
    let mut state = STATE + 16 * BLOCKS as u64;
    let mut places = Vec::new();
    for _ in 0..BLOCKS {
        let blocks = two_blocks(&mut numbers, state);
        assert_eq!(new_state(state, blocks[0]), new_state(state, blocks[1]));
        state = new_state(state, blocks[0]);
        places.push(blocks);
    }
    places
}

fn main() -> std::io::Result<()> {
    let words: Vec<String> = std::env::args().skip(1).collect();
    let names: u64 = words.first().and_then(|word| word.parse().ok()).expect("usage: make_colliding NAMES [others]");
    assert!(names <= 1 << BLOCKS, "there are only 2^{BLOCKS} such names");
    let others = words.iter().any(|word| word == "others");
    let places = places();
    let mut out = BufWriter::new(std::io::stdout().lock());
    for number in 0..names {
        let blocks = places.iter().enumerate().map(|(place, blocks)| blocks[(number >> place & 1) as usize]);
        let mut name: Vec<u8> = blocks.flatten().flat_map(u64::to_le_bytes).collect();
        if others {
            name[..8].copy_from_slice(format!("{number:08x}").as_bytes());
        }
        out.write_all(&name)?;
        out.write_all(b" 1\n")?;
    }
    out.flush()
}
