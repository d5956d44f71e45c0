//! A hash for the tables of the plain programs: a 128-bit product for each 16 bytes, folded to 64 bits.

use std::collections::HashMap;
use std::hash::{BuildHasherDefault, Hasher};

pub type QuickMap<Key, Value> = HashMap<Key, Value, BuildHasherDefault<QuickHasher>>;

const FIRST: u64 = 0x9e37_79b9_7f4a_7c15;
const SECOND: u64 = 0xc2b2_ae3d_27d4_eb4f;

#[derive(Clone, Copy, Default)]
pub struct QuickHasher(u64);

fn folded(one: u64, other: u64) -> u64 {
    let product = u128::from(one) * u128::from(other);
    product as u64 ^ (product >> 64) as u64
}

fn word(bytes: &[u8], at: usize) -> u64 {
    u64::from_le_bytes(bytes[at..at + 8].try_into().expect("eight bytes"))
}

fn half_word(bytes: &[u8], at: usize) -> u64 {
    u64::from(u32::from_le_bytes(bytes[at..at + 4].try_into().expect("four bytes")))
}

/// The first and the last bytes of at most 16, as two words that may overlap.
fn two_words(bytes: &[u8]) -> (u64, u64) {
    match bytes.len() {
        0 => (0, 0),
        length @ 1..=3 => (u64::from(bytes[0]) << 8 | u64::from(bytes[length / 2]), u64::from(bytes[length - 1])),
        length @ 4..=7 => (half_word(bytes, 0), half_word(bytes, length - 4)),
        length => (word(bytes, 0), word(bytes, length - 8)),
    }
}

impl Hasher for QuickHasher {
    fn write(&mut self, bytes: &[u8]) {
        // two products at a time, since neither has to wait for the other
        let (mut one, mut other) = (self.0 ^ bytes.len() as u64, SECOND);
        let chunks = bytes.chunks_exact(32);
        let mut rest = chunks.remainder();
        for chunk in chunks {
            one = folded(one ^ word(chunk, 0), FIRST ^ word(chunk, 8));
            other = folded(other ^ word(chunk, 16), SECOND ^ word(chunk, 24));
        }
        if rest.len() > 16 {
            one = folded(one ^ word(rest, 0), FIRST ^ word(rest, 8));
            rest = &rest[16..];
        }
        let (first, last) = two_words(rest);
        self.0 = folded(one ^ first, other ^ FIRST ^ last);
    }

    fn write_u8(&mut self, number: u8) {
        self.0 ^= u64::from(number);
    }

    fn write_u32(&mut self, number: u32) {
        self.write_u64(u64::from(number));
    }

    fn write_u64(&mut self, number: u64) {
        self.0 = folded(self.0 ^ number, FIRST);
    }

    fn write_usize(&mut self, number: usize) {
        self.0 ^= number as u64;
    }

    fn finish(&self) -> u64 {
        self.0
    }
}
