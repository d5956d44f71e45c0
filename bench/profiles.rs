//! Well-formed pprof profiles: the tables, and each sample with its locations, borrowed from the profile, and its weight.

use std::borrow::Cow;

use crate::hashing::QuickMap;
use crate::names::Names;

/// The content of a field of the wire format.
enum Content<'a> {
    Number(u64),
    Bytes(&'a [u8]),
}

/// The fields of a message, in order.
struct Fields<'a>(&'a [u8]);

fn varint(bytes: &mut &[u8]) -> Option<u64> {
    let (first, mut rest) = bytes.split_first()?;
    let mut number = u64::from(first & 0x7f);
    let (mut byte, mut shift) = (*first, 7);
    while byte & 0x80 != 0 {
        let (next, after) = rest.split_first()?;
        (byte, rest) = (*next, after);
        number |= u64::from(byte & 0x7f) << shift;
        shift += 7;
    }
    *bytes = rest;
    Some(number)
}

impl<'a> Fields<'a> {
    fn split(&mut self, length: usize) -> Option<Content<'a>> {
        let (front, rest) = self.0.split_at_checked(length)?;
        self.0 = rest;
        Some(Content::Bytes(front))
    }
}

impl<'a> Iterator for Fields<'a> {
    type Item = (u64, Content<'a>);

    fn next(&mut self) -> Option<Self::Item> {
        let key = varint(&mut self.0)?;
        let content = match key & 7 {
            0 => Content::Number(varint(&mut self.0)?),
            1 => self.split(8)?,
            2 => {
                let length = varint(&mut self.0)?;
                self.split(length as usize)?
            }
            5 => self.split(4)?,
            _ => panic!("a group, or a wire type that does not exist"),
        };
        Some((key >> 3, content))
    }
}

/// The last number of each of the first fields of a message, or 0.
fn numbers<const FIELDS: usize>(message: &[u8]) -> [u64; FIELDS] {
    let mut numbers = [0; FIELDS];
    for (field, content) in Fields(message) {
        if let (Content::Number(number), true) = (content, field < FIELDS as u64) {
            numbers[field as usize] = number;
        }
    }
    numbers
}

/// The messages of a field.
fn messages(message: &[u8], wanted: u64) -> impl Iterator<Item = &[u8]> {
    Fields(message).filter_map(move |(field, content)| match content {
        Content::Bytes(bytes) if field == wanted => Some(bytes),
        _ => None,
    })
}

/// The text of a name in a folded line.
fn name(bytes: &[u8]) -> Cow<'_, str> {
    let text = String::from_utf8_lossy(bytes);
    if text.contains([';', '\n']) {
        Cow::Owned(text.replace(';', ":").replace('\n', " "))
    } else {
        text
    }
}

/// The numbers of the functions' names by the functions' ids.
fn functions<'a>(profile: &'a [u8], strings: &[&'a [u8]], names: &mut Names<'a>) -> QuickMap<u64, u32> {
    let text = |at: u64| strings.get(at as usize).copied().unwrap_or_default();
    messages(profile, 5)
        .map(|function| {
            let [_, id, plain, system] = numbers(function);
            let unknown: &[u8] = b"[unknown]";
            let spelled = [text(plain), text(system)].into_iter().find(|text| !text.is_empty()).unwrap_or(unknown);
            (id, names.number(name(spelled)))
        })
        .collect()
}

/// A sample's location ids in the packed form, innermost first, and its weight.
pub struct Sample<'a> {
    pub locations: Cow<'a, [u8]>,
    pub weight: u64,
}

/// The frames of each location as numbers of names, the innermost first.
pub struct Profile<'a> {
    bytes: &'a [u8],
    frames: Vec<u32>,
    locations: QuickMap<u64, (u32, u32)>,
    chosen: usize,
}

impl<'a> Profile<'a> {
    pub fn read(bytes: &'a [u8], names: &mut Names<'a>) -> Self {
        let strings: Vec<&[u8]> = messages(bytes, 6).collect();
        let functions = functions(bytes, &strings, names);
        let (mut frames, mut locations) = (Vec::new(), QuickMap::default());
        for location in messages(bytes, 4) {
            let [_, id, _, address] = numbers(location);
            let begin = frames.len();
            for line in messages(location, 4) {
                let [_, function] = numbers(line);
                frames.push(match function {
                    0 => names.number(format!("{address:#x}").into()),
                    function => functions[&function],
                });
            }
            if frames.len() == begin {
                frames.push(names.number(format!("{address:#x}").into()));
            }
            locations.insert(id, (begin as u32, frames.len() as u32));
        }
        Profile { bytes, frames, locations, chosen: chosen(bytes, &strings) }
    }

    /// Hands on each sample, in order.
    pub fn each_sample(&self, mut take: impl FnMut(Sample<'a>)) {
        for message in messages(self.bytes, 2) {
            take(self.sample(message));
        }
    }

    fn sample(&self, message: &'a [u8]) -> Sample<'a> {
        let mut locations = Cow::Borrowed(&[][..]);
        let (mut value, mut weight) = (0, 0);
        let mut weigh = |number| {
            weight = if value == self.chosen { number } else { weight };
            value += 1;
        };
        for (field, content) in Fields(message) {
            match (field, content) {
                (1, Content::Bytes(run)) if locations.is_empty() => locations = Cow::Borrowed(run),
                (1, Content::Bytes(run)) => locations.to_mut().extend_from_slice(run),
                (1, Content::Number(id)) => pack(locations.to_mut(), id),
                (2, Content::Bytes(mut run)) => std::iter::from_fn(|| varint(&mut run)).for_each(&mut weigh),
                (2, Content::Number(number)) => weigh(number),
                _ => {}
            }
        }
        Sample { locations, weight }
    }

    /// The frames of packed location ids, root first.
    pub fn cut(&self, mut locations: &[u8], frames: &mut Vec<u32>) {
        let stack = frames.len();
        while let Some(id) = varint(&mut locations) {
            let (begin, end) = self.locations[&id];
            frames.extend_from_slice(&self.frames[begin as usize..end as usize]);
        }
        frames[stack..].reverse();
    }
}

/// Which of a sample's values is its weight: that of the default sample type, and else the last.
fn chosen(profile: &[u8], strings: &[&[u8]]) -> usize {
    let [.., default] = numbers::<15>(profile);
    let types: Vec<u64> = messages(profile, 1).map(|kind| numbers::<2>(kind)[1]).collect();
    let text = |at: u64| strings.get(at as usize).copied().unwrap_or_default();
    let found = types.iter().position(|kind| default != 0 && text(*kind) == text(default));
    found.unwrap_or(types.len().saturating_sub(1))
}

fn pack(bytes: &mut Vec<u8>, mut number: u64) {
    while number >= 0x80 {
        bytes.push(number as u8 | 0x80);
        number >>= 7;
    }
    bytes.push(number as u8);
}
