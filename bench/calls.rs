//! Samples of a program whose calls make a tree: the stacks of the inputs, by the numbers of their frames.

use crate::numbers::Numbers;

/// Frames are numbered below this, and those of deep stacks below `DEEP_FRAMES`.
pub const FRAMES: u64 = 4_001;
pub const DEEP_FRAMES: u64 = 8;

/// How stacks follow one another.
#[derive(Clone, Copy, PartialEq, Eq)]
pub enum Kind {
    /// Stacks in random order, about one in ten new.
    Repeated,
    /// As a sampler sees them: a stack stays for some samples, then a few of its last frames change.
    Timed,
    /// Each stack is another one.
    New,
    /// Recursion as a sampler sees it: up to 1,000 frames of few names, of which the last ones change. Other seeds begin alike.
    Deep,
}

impl Kind {
    pub fn of(word: &str) -> Option<Kind> {
        Some(match word {
            "repeated" => Kind::Repeated,
            "timed" => Kind::Timed,
            "new" => Kind::New,
            "deep" => Kind::Deep,
            _ => return None,
        })
    }
}

const START: u64 = 0x5eed_0f1a_3e5c_0113;

pub struct Calls {
    kind: Kind,
    samples: u64,
    /// Each stack has so many frames, where the kind is `Repeated`.
    depth: Option<u64>,
    seed: u64,
    numbers: Numbers,
    at: u64,
    stack: Vec<u64>,
    /// How deep the recursion is to go next.
    goal: u64,
}

impl Calls {
    pub fn new(kind: Kind, samples: u64, depth: Option<u64>, seed: u64) -> Self {
        let numbers = Numbers(START + if kind == Kind::Deep { 0 } else { seed });
        Calls { kind, samples, depth, seed, numbers, at: 0, stack: Vec::new(), goal: 0 }
    }

    /// The stack of the next sample, root first, and its weight.
    pub fn next(&mut self) -> (&[u64], u64) {
        // most stacks are a function of their number, so that a number that comes again gives the same stack
        let any = self.numbers.below((self.samples / 10).max(1));
        match self.kind {
            Kind::Repeated => self.random(any),
            Kind::Timed => self.timed(),
            Kind::New => self.new_one(self.at + (self.seed << 20)),
            Kind::Deep => self.deep(),
        }
        self.at += 1;
        (&self.stack, 1 + self.numbers.below(100))
    }

    /// Calls one of the functions that the innermost one calls.
    fn call(&mut self, branch: u64) {
        let caller = self.stack.last().copied().unwrap_or(0);
        self.stack.push((caller * 5 + branch) % FRAMES);
    }

    fn random(&mut self, number: u64) {
        let mut of = numbers_of(number);
        let any_depth = 10 + of.below(21);
        self.stack.clear();
        for frame in 0..self.depth.unwrap_or(any_depth) {
            self.call(if frame < 6 { of.below(2) } else { of.below(4) });
        }
    }

    fn timed(&mut self) {
        if self.numbers.below(4) > 0 && !self.stack.is_empty() {
            return;
        }
        let far = self.numbers.below(64) == 0;
        let returns = if far { self.numbers.below(20) } else { self.numbers.below(3) };
        self.stack.truncate(self.stack.len().saturating_sub(returns as usize));
        let more = if self.stack.len() < 10 { 10 } else { self.numbers.below(returns + 2) };
        for _ in 0..more.min(30 - self.stack.len() as u64) {
            let branch = self.numbers.below(if self.stack.len() < 6 { 2 } else { 4 });
            self.call(branch);
        }
    }

    /// The bits of its number are the branches of a stack's first 16 frames.
    fn new_one(&mut self, number: u64) {
        let mut bits = number.wrapping_mul(0x9e37_79b9_7f4a_7c15) % (1 << 26);
        let mut of = numbers_of(number);
        self.stack.clear();
        for frame in 0..16 + of.below(15) {
            let branches = if frame < 6 { 2 } else { 4 };
            self.call(if frame < 16 { bits % branches } else { of.below(branches) });
            bits /= branches;
        }
    }

    /// The second half of the samples is another one for each seed.
    fn deep(&mut self) {
        if self.at == self.samples / 2 {
            self.numbers = Numbers(START + self.seed);
        }
        if self.at % 256 == 0 {
            self.goal = 1 + self.numbers.below(1_000);
        }
        if self.numbers.below(2) == 0 && !self.stack.is_empty() {
            return;
        }
        let depth = self.stack.len() as u64;
        let (returns, calls) = if depth > self.goal { (20, 4) } else { (4, 20) };
        let kept = depth.saturating_sub(self.numbers.below(returns));
        self.stack.truncate(kept as usize);
        for _ in 0..(1 + self.numbers.below(calls)).min(1_000 - kept) {
            self.stack.push(self.numbers.below(DEEP_FRAMES));
        }
    }
}

/// The numbers that the stack of this number is made from.
fn numbers_of(number: u64) -> Numbers {
    let mut numbers = Numbers(0x9e37_79b9 + number * 2 + 1);
    numbers.next();
    numbers
}
