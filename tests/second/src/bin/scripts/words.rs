//! The parts of a command: its letter, its label, its words, numbers and bytes.

use second::frames::{line_bytes, Line};

/// The letter, the label and the words of a line `LETTER LABEL|WORD WORD`.
pub fn command(line: &str) -> Option<(&str, &str, Vec<&str>)> {
    let (letter, rest) = line.split_once(' ')?;
    let (label, words) = rest.split_once('|')?;
    Some((letter, label, words.split(' ').collect()))
}

/// The bytes that a word spells in hexadecimal, `-` for none.
pub fn bytes(word: &str) -> Option<Vec<u8>> {
    if word == "-" {
        return Some(Vec::new());
    }
    let line = Line {
        characters: word.into(),
        ended: true,
    };
    line_bytes(&line).ok()
}

/// The number that a word spells in decimal digits alone.
fn number(word: &str) -> Option<u64> {
    let digits = word.bytes().all(|character| character.is_ascii_digit());
    word.parse().ok().filter(|_| digits)
}

/// The numbers of words.
pub fn numbers(words: &[&str]) -> Option<Vec<u64>> {
    words.iter().map(|word| number(word)).collect()
}
