//! Well-formed folded text, borrowed line by line.

/// The number that these digits spell, where they are a number.
fn number(digits: &[u8]) -> Option<u64> {
    if digits.is_empty() {
        return None;
    }
    digits.iter().try_fold(0u64, |sum, digit| digit.is_ascii_digit().then(|| sum * 10 + u64::from(digit - b'0')))
}

/// The head of a line, without the `;` at its end, and its weight.
fn sample(line: &str) -> Option<(&str, u64)> {
    let space = line.bytes().rposition(|byte| matches!(byte, b' ' | b'\t'))?;
    let weight = number(&line.as_bytes()[space + 1..])?;
    Some((line[..space].trim_end_matches(';'), weight))
}

/// Hands on the stack, its names joined by `;`, and the weight of each line, in order. Other lines are passed over.
pub fn each_sample<'a>(text: &'a str, mut take: impl FnMut(&'a str, u64)) {
    for line in text.split_inclusive('\n') {
        let line = match line.strip_suffix('\n') {
            Some(line) => line.strip_suffix('\r').unwrap_or(line),
            None => line,
        };
        if let Some((head, weight)) = sample(line) {
            take(head, weight);
        }
    }
}
