//! Lines of an input, and their words.
use std::io::{Read, Write};

/// The longest line.
const MOST_BYTES: usize = 256;

/// The words of a line.
#[derive(Clone)]
pub struct Words<'a>(&'a [u8]);

impl<'a> Iterator for Words<'a> {
    type Item = &'a [u8];

    fn next(&mut self) -> Option<&'a [u8]> {
        let start = self.0.iter().position(|byte| *byte != b' ')?;
        let rest = &self.0[start..];
        let end = rest.iter().position(|byte| *byte == b' ').unwrap_or(rest.len());
        self.0 = &rest[end..];
        Some(&rest[..end])
    }
}

impl Words<'_> {
    /// The next word, a number up to the limit.
    pub fn number(&mut self, limit: u64) -> Option<u64> {
        number(self.next()?, limit)
    }

    pub fn end(&mut self) -> Option<()> {
        self.next().is_none().then_some(())
    }
}

/// The number that a word spells, if it is one up to the limit.
pub fn number(word: &[u8], limit: u64) -> Option<u64> {
    if word.is_empty() || word.len() > 1 && word[0] == b'0' {
        return None;
    }
    let mut value = 0u64;
    for byte in word {
        if !byte.is_ascii_digit() {
            return None;
        }
        value = value.checked_mul(10)?.checked_add((byte - b'0') as u64)?;
    }
    (value <= limit).then_some(value)
}

/// What a line asks for: its words, or nothing, or what no line may ask.
pub enum Line<'a> {
    Words(Words<'a>),
    Nothing,
    Bad,
}

pub fn read(line: &[u8]) -> Line<'_> {
    if line.len() > MOST_BYTES || !line.iter().all(|byte| (b' '..=b'~').contains(byte)) {
        Line::Bad
    } else if line.first() == Some(&b'#') || line.iter().all(|byte| *byte == b' ') {
        Line::Nothing
    } else {
        Line::Words(Words(line))
    }
}

/// Answers each line of standard input on standard output.
pub fn answer_all(mut answer: impl FnMut(&[u8], &mut Vec<u8>)) {
    let (mut input, mut output) = (std::io::stdin().lock(), std::io::stdout().lock());
    let mut block = vec![0; 65536];
    let (mut kept, mut out) = (Vec::new(), Vec::new());
    loop {
        let count = input.read(&mut block).unwrap();
        if count == 0 {
            break;
        }
        let mut rest = &block[..count];
        while let Some(end) = rest.iter().position(|byte| *byte == b'\n') {
            kept.extend_from_slice(&rest[..end]);
            rest = &rest[end + 1..];
            answer(kept.strip_suffix(b"\r").unwrap_or(&kept), &mut out);
            kept.clear();
        }
        kept.extend_from_slice(rest);
        output.write_all(&out).unwrap();
        out.clear();
    }
    if !kept.is_empty() {
        answer(&kept, &mut out);
    }
    output.write_all(&out).unwrap();
}
