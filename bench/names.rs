//! Frame names by number.

use std::borrow::Cow;

use crate::hashing::QuickMap;

/// The name of the root's box has this number in each table.
pub const ALL: u32 = 0;

/// Names, numbered in the order in which they were first asked for. Most are borrowed from the input.
pub struct Names<'a>(QuickMap<Cow<'a, str>, u32>);

impl<'a> Names<'a> {
    pub fn new() -> Self {
        let mut names = Names(QuickMap::default());
        names.number(Cow::Borrowed("all"));
        names
    }

    pub fn number(&mut self, name: Cow<'a, str>) -> u32 {
        if let Some(number) = self.0.get(&*name) {
            return *number;
        }
        let number = self.0.len() as u32;
        self.0.insert(name, number);
        number
    }

    /// The numbers of a folded line's head.
    pub fn cut(&mut self, head: &'a str, frames: &mut Vec<u32>) {
        if !head.is_empty() {
            frames.extend(head.split(';').map(|name| self.number(Cow::Borrowed(name))));
        }
    }

    /// The names by their numbers.
    pub fn texts(&self) -> Vec<&str> {
        let mut texts = vec![""; self.0.len()];
        for (name, number) in &self.0 {
            texts[*number as usize] = name;
        }
        texts
    }
}

/// For each name its place among the sorted names.
pub fn ranks(texts: &[&str]) -> Vec<u32> {
    let mut sorted: Vec<u32> = (0..texts.len() as u32).collect();
    sorted.sort_unstable_by_key(|number| texts[*number as usize]);
    let mut ranks = vec![0; texts.len()];
    for (rank, number) in sorted.iter().enumerate() {
        ranks[*number as usize] = rank as u32;
    }
    ranks
}
