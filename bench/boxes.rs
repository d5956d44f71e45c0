//! Boxes of flame graphs and charts: the longest runs of neighbouring stacks with the same first names.

use crate::page::Page;

pub const WIDTH: u64 = 1200;

/// A box in the order of start and depth. Its start is that in the column that is drawn.
struct SpanBox<const COLUMNS: usize> {
    depth: u32,
    name: u32,
    start: u64,
    own: [u64; COLUMNS],
    weight: [u64; COLUMNS],
}

/// A box whose run is not over, and the weight before it.
struct Open<const COLUMNS: usize> {
    place: usize,
    start: [u64; COLUMNS],
}

/// The last column is the one that is drawn, and another is what its boxes weighed before.
pub struct Boxes<const COLUMNS: usize> {
    boxes: Vec<SpanBox<COLUMNS>>,
    open: Vec<Open<COLUMNS>>,
    path: Vec<u32>,
    now: [u64; COLUMNS],
}

impl<const COLUMNS: usize> Boxes<COLUMNS> {
    /// No boxes yet, where the root's is to have the name of this number.
    pub fn new(all: u32) -> Self {
        Boxes { boxes: Vec::new(), open: Vec::new(), path: vec![all], now: [0; COLUMNS] }
    }

    pub fn of<'a>(all: u32, stacks: impl Iterator<Item = (&'a [u32], [u64; COLUMNS])>) -> Self {
        let mut boxes = Self::new(all);
        stacks.for_each(|(row, weights)| boxes.push(row, weights));
        boxes
    }

    pub fn push(&mut self, row: &[u32], weights: [u64; COLUMNS]) {
        if weights == [0; COLUMNS] {
            return;
        }
        let shared = self.path[1..].iter().zip(row).take_while(|(one, other)| one == other).count() + 1;
        self.close(shared);
        self.path.truncate(shared);
        self.path.extend_from_slice(&row[shared - 1..]);
        for depth in self.open.len()..self.path.len() {
            self.open.push(Open { place: self.boxes.len(), start: self.now });
            let (none, start) = ([0; COLUMNS], self.now[COLUMNS - 1]);
            self.boxes.push(SpanBox { depth: depth as u32, name: self.path[depth], start, own: none, weight: none });
        }
        let own = &mut self.boxes[self.open[row.len()].place].own;
        for column in 0..COLUMNS {
            own[column] += weights[column];
            self.now[column] += weights[column];
        }
    }

    /// Weighs the open boxes from this depth on.
    fn close(&mut self, depth: usize) {
        for Open { place, start } in self.open.drain(depth.min(self.open.len())..) {
            for column in 0..COLUMNS {
                self.boxes[place].weight[column] = self.now[column] - start[column];
            }
        }
    }

    /// Writes the line of a view. `first` and `middle` are members of its own, before and after the boxes.
    pub fn write(mut self, page: &mut Page, names: &[Vec<u8>], view: &str, first: &str, middle: &str) -> std::io::Result<()> {
        self.close(0);
        let last = COLUMNS - 1;
        let total = self.now[last];
        page.put(b"{");
        page.put(first.as_bytes());
        page.put(b"\"boxes\":[");
        let mut comma = false;
        for span in self.boxes.iter().filter(|span| span.weight[last] > 0) {
            page.put(if comma { b",{" } else { b"{" });
            comma = true;
            span.write(page, &names[span.name as usize], total);
            page.pass_on()?;
        }
        page.put(b"],");
        page.put(middle.as_bytes());
        page.put(format!("\"total\":{total},\"view\":\"{view}\",\"width\":{WIDTH}}}\n").as_bytes());
        page.pass_on()
    }

    /// How many boxes there are, of which all was made.
    pub fn count(mut self) -> usize {
        self.close(0);
        std::hint::black_box(&self.boxes).len()
    }

    pub fn total(&self, column: usize) -> u64 {
        self.now[column]
    }
}

/// The pixel at which a weight is reached.
fn edge(start: u64, total: u64) -> u64 {
    match start.checked_mul(WIDTH) {
        Some(product) => product / total,
        None => (u128::from(start) * u128::from(WIDTH) / u128::from(total)) as u64,
    }
}

impl<const COLUMNS: usize> SpanBox<COLUMNS> {
    fn write(&self, page: &mut Page, name: &[u8], total: u64) {
        let last = COLUMNS - 1;
        let (start, weight) = (self.start, self.weight[last]);
        if last > 0 {
            page.number(b"\"before\":", self.weight[0]);
            page.put(b",");
        }
        page.number(b"\"depth\":", u64::from(self.depth));
        page.number(b",\"left\":", edge(start, total));
        page.put(b",\"name\":");
        page.put(name);
        page.number(b",\"own\":", self.own[last]);
        page.number(b",\"right\":", edge(start + weight, total));
        page.number(b",\"start\":", start);
        page.number(b",\"weight\":", weight);
        page.put(b"}");
    }
}
