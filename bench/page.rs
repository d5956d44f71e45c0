//! Text on its way to standard output.

use std::io::{StdoutLock, Write};

const FULL: usize = 1 << 16;

/// Text that was not yet passed on.
pub struct Page {
    text: Vec<u8>,
    out: StdoutLock<'static>,
}

impl Page {
    pub fn new() -> Self {
        Page { text: Vec::with_capacity(2 * FULL), out: std::io::stdout().lock() }
    }

    pub fn put(&mut self, text: &[u8]) {
        self.text.extend_from_slice(text);
    }

    /// A label and a number in decimal digits.
    pub fn number(&mut self, label: &[u8], mut number: u64) {
        let mut digits = [0; 20];
        let mut first = digits.len();
        loop {
            first -= 1;
            digits[first] = b'0' + (number % 10) as u8;
            number /= 10;
            if number == 0 {
                break;
            }
        }
        self.put(label);
        self.put(&digits[first..]);
    }

    /// Passes the text on where there is enough of it.
    pub fn pass_on(&mut self) -> std::io::Result<()> {
        if self.text.len() >= FULL {
            self.flush()
        } else {
            Ok(())
        }
    }

    pub fn flush(&mut self) -> std::io::Result<()> {
        self.out.write_all(&self.text)?;
        self.text.clear();
        self.out.flush()
    }
}

/// A text of JSON.
pub fn quoted(text: &str) -> Vec<u8> {
    let mut quoted = vec![b'"'];
    for byte in text.bytes() {
        match byte {
            b'"' | b'\\' => quoted.extend([b'\\', byte]),
            8 => quoted.extend(b"\\b"),
            9 => quoted.extend(b"\\t"),
            10 => quoted.extend(b"\\n"),
            12 => quoted.extend(b"\\f"),
            13 => quoted.extend(b"\\r"),
            0..=31 => quoted.extend(format!("\\u{byte:04x}").into_bytes()),
            _ => quoted.push(byte),
        }
    }
    quoted.push(b'"');
    quoted
}
