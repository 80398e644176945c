//! Texts by their lines.

use second::{case, printed};

/// The printed line of lines.
pub fn line(lines: &[&str]) -> String {
    let text: String = lines.iter().map(|line| format!("{line}\n")).collect();
    let mut line = String::from_utf8(printed(&case(text.as_bytes()))).expect("digits");
    assert_eq!(line.pop(), Some('\n'));
    line
}
