//! What stands in a Markdown file.

/// A fenced block: the line of its first fence, its info string, its lines.
pub struct Block {
    pub line: usize,
    pub info: String,
    pub lines: Vec<String>,
    pub closed: bool,
}

/// A line of three backticks or more.
#[derive(Clone, Copy)]
struct Fence<'a> {
    indent: usize,
    ticks: usize,
    info: &'a str,
}

fn fence(line: &str) -> Option<Fence<'_>> {
    let text = line.trim_start();
    let after = text.trim_start_matches('`');
    let ticks = text.len() - after.len();
    let info = after.trim();
    let indent = line.len() - text.len();
    (ticks >= 3 && !info.contains('`')).then_some(Fence {
        indent,
        ticks,
        info,
    })
}

/// A line without the blanks, at most so many, that it begins with.
fn unindented(line: &str, indent: usize) -> &str {
    let blanks = line.len() - line.trim_start_matches(' ').len();
    &line[blanks.min(indent)..]
}

/// The blocks of a file, and for each line whether it is part of one.
fn blocks(lines: &[String]) -> (Vec<Block>, Vec<bool>) {
    let mut blocks: Vec<Block> = Vec::new();
    let mut fenced = Vec::new();
    let mut open: Option<Fence> = None;
    for (number, line) in (1..).zip(lines) {
        let found = fence(line);
        fenced.push(open.is_some() || found.is_some());
        match (open, found) {
            (None, Some(first)) => {
                open = Some(first);
                blocks.push(Block {
                    line: number,
                    info: first.info.to_string(),
                    lines: Vec::new(),
                    closed: false,
                });
            }
            (Some(first), Some(last)) if last.info.is_empty() && last.ticks >= first.ticks => {
                open = None;
                blocks.last_mut().expect("a block").closed = true;
            }
            (Some(first), _) => {
                let inside = unindented(line, first.indent).to_string();
                blocks.last_mut().expect("a block").lines.push(inside);
            }
            (None, None) => {}
        }
    }
    (blocks, fenced)
}

pub struct Document {
    /// From the repository's folder.
    pub path: String,
    lines: Vec<String>,
    pub blocks: Vec<Block>,
    fenced: Vec<bool>,
}

/// A row of a table or an entry of a list: its line, what it begins with (the first cell, or what
/// stands before the first colon) and the whole of it.
pub struct Entry {
    pub line: usize,
    pub head: String,
    pub whole: String,
}

/// A row of a table: its line and its cells.
pub type Row = (usize, Vec<String>);

impl Document {
    pub fn new(path: &str, text: &str) -> Document {
        let lines: Vec<String> = text.lines().map(str::to_string).collect();
        let (blocks, fenced) = blocks(&lines);
        Document {
            path: path.to_string(),
            lines,
            blocks,
            fenced,
        }
    }

    /// All lines with their numbers.
    pub fn numbered(&self) -> impl Iterator<Item = (usize, &str)> {
        (1..).zip(self.lines.iter().map(String::as_str))
    }

    /// The lines outside fenced blocks with their numbers.
    pub fn prose(&self) -> impl Iterator<Item = (usize, &str)> {
        let outside = move |(number, _): &(usize, &str)| !self.fenced[number - 1];
        self.numbered().filter(outside)
    }

    /// The headings: line, level and words.
    fn headings(&self) -> Vec<(usize, usize, &str)> {
        let heading = |(number, line): (usize, &'_ str)| {
            let words = line.trim_start_matches('#');
            let level = line.len() - words.len();
            (level > 0 && words.starts_with(' ')).then_some((number, level))
        };
        let found = self.prose().filter_map(heading);
        found
            .map(|(number, level)| (number, level, self.lines[number - 1][level..].trim()))
            .collect()
    }

    /// What a link may name after `#`. Equal headings are numbered from the second on.
    pub fn slugs(&self) -> Vec<String> {
        let headings = self.headings();
        let all: Vec<String> = headings.iter().map(|heading| slug(heading.2)).collect();
        let numbered = |(place, slug): (usize, &String)| {
            let earlier = all[..place].iter().filter(|other| *other == slug);
            match earlier.count() {
                0 => slug.clone(),
                count => format!("{slug}-{count}"),
            }
        };
        all.iter().enumerate().map(numbered).collect()
    }

    /// The lines under a heading, up to the next that is no lower; none without that heading.
    fn section(&self, title: &str) -> Vec<(usize, &str)> {
        let headings = self.headings();
        let Some(place) = headings.iter().position(|heading| heading.2 == title) else {
            return Vec::new();
        };
        let (first, level, _) = headings[place];
        let end = headings[place + 1..].iter().find(|next| next.1 <= level);
        let end = end.map_or(self.lines.len() + 1, |next| next.0);
        let inside = |(number, _): &(usize, &str)| first < *number && *number < end;
        self.prose().filter(inside).collect()
    }

    /// The rows of the tables and the entries of the lists of a section.
    pub fn entries(&self, title: &str) -> Vec<Entry> {
        let mut entries: Vec<Entry> = Vec::new();
        let mut listed = false;
        for (line, text) in self.section(title) {
            if text.starts_with("- ") || text.starts_with("| ") {
                let whole = text.to_string();
                let head = String::new();
                entries.push(Entry { line, head, whole });
            } else if listed && text.starts_with(' ') {
                let last = entries.last_mut().expect("an entry");
                last.whole += &format!(" {}", text.trim());
            }
            listed = text.starts_with("- ") || (listed && text.starts_with(' '));
        }
        for entry in &mut entries {
            entry.head = head(&entry.whole);
        }
        entries
    }

    /// The tables: the cells of the first row, and the rows below the line of dashes.
    pub fn tables(&self) -> Vec<(Vec<String>, Vec<Row>)> {
        let mut tables: Vec<(Vec<String>, Vec<Row>)> = Vec::new();
        let mut before = None;
        for (number, line) in self.prose().filter(|(_, line)| line.starts_with('|')) {
            if before != Some(number - 1) {
                tables.push((cells(line), Vec::new()));
            } else if !line.starts_with("|-") {
                let (_, rows) = tables.last_mut().expect("a table");
                rows.push((number, cells(line)));
            }
            before = Some(number);
        }
        tables
    }

    /// Code: the spans in backticks, the lines set in by four blanks after an empty line, and the
    /// lines of shell blocks.
    pub fn code(&self) -> Vec<(usize, &str)> {
        let mut code = Vec::new();
        let mut may_begin = true;
        for (number, line) in self.prose() {
            if may_begin && line.starts_with("    ") {
                code.push((number, line.trim()));
            } else {
                code.extend(code_spans(line).into_iter().map(|span| (number, span)));
                may_begin = line.is_empty();
            }
        }
        for block in self.blocks.iter().filter(|block| block.info == "sh") {
            let lines = block.lines.iter().map(|line| line.as_str());
            code.extend((block.line + 1..).zip(lines));
        }
        code
    }

    /// The numbers that stand right before some words, with their lines.
    pub fn numbers_before(&self, words: &str) -> Vec<(usize, usize)> {
        let wanted: Vec<&str> = words.split(' ').collect();
        let mut all: Vec<(usize, String)> = Vec::new();
        for (number, line) in self.prose() {
            for word in plain(line).split_whitespace() {
                let bare = word.trim_matches(|c: char| ".,:;()".contains(c));
                all.push((number, bare.to_string()));
            }
        }
        let told = all.windows(wanted.len() + 1).filter(|window| {
            let after = window[1..].iter().map(|(_, word)| word.as_str());
            after.eq(wanted.iter().copied())
        });
        told.filter_map(|window| Some((window[0].0, number(&window[0].1)?)))
            .collect()
    }
}

/// A whole number, with commas or without.
fn number(word: &str) -> Option<usize> {
    word.replace(',', "").parse().ok()
}

/// What an entry begins with.
fn head(whole: &str) -> String {
    match whole.strip_prefix("- ") {
        Some(entry) => entry.split(": ").next().unwrap_or(entry).to_string(),
        None => cells(whole).swap_remove(0),
    }
}

/// The cells of a row.
fn cells(row: &str) -> Vec<String> {
    let inside = row.trim().trim_start_matches('|').trim_end_matches('|');
    inside
        .split('|')
        .map(|cell| cell.trim().to_string())
        .collect()
}

/// GitHub's name for a heading.
fn slug(heading: &str) -> String {
    let kept = |c: &char| c.is_alphanumeric() || " -_".contains(*c);
    let lower = heading.to_lowercase();
    lower
        .chars()
        .filter(kept)
        .collect::<String>()
        .replace(' ', "-")
}

/// The spans in backticks of a line.
pub fn code_spans(line: &str) -> Vec<&str> {
    let pieces: Vec<&str> = line.split('`').collect();
    let closed = pieces.len() - (pieces.len() + 1) % 2;
    let inside = pieces[..closed].iter().skip(1).step_by(2);
    inside.copied().collect()
}

/// A line without its code spans.
fn without_code(line: &str) -> String {
    line.split('`').step_by(2).collect::<Vec<&str>>().join("``")
}

/// What the links of a line lead to.
pub fn links(line: &str) -> Vec<String> {
    let text = without_code(line);
    let after = text.split("](").skip(1);
    after
        .filter_map(|rest| rest.split_once(')'))
        .map(|(target, _)| target.to_string())
        .collect()
}

/// A line without the targets of its links.
pub fn without_targets(line: &str) -> String {
    let mut pieces = line.split("](");
    let mut text = pieces.next().unwrap_or("").to_string();
    for piece in pieces {
        text.push(']');
        text.push_str(piece.split_once(')').map_or(piece, |(_, rest)| rest));
    }
    text
}

/// A line without the targets of its links and without marks.
fn plain(line: &str) -> String {
    without_targets(line).replace(['[', ']', '`', '*'], "")
}

#[cfg(test)]
mod tests {
    use super::*;

    #[test]
    fn blocks_are_found_where_they_are_set_in() {
        let text = "- a\n  ```dates\n  1 2\n    3\n  ```\n````text\n```\n````\n```case\n";
        let document = Document::new("a.md", text);
        let found: Vec<_> = document
            .blocks
            .iter()
            .map(|block| {
                (
                    block.line,
                    block.info.as_str(),
                    block.lines.join("|"),
                    block.closed,
                )
            })
            .collect();
        let expected = [
            (2, "dates", "1 2|  3".to_string(), true),
            (6, "text", "```".to_string(), true),
            (9, "case", String::new(), false),
        ];
        assert_eq!(found, expected);
    }

    #[test]
    fn headings_have_their_slugs() {
        let document = Document::new("a.md", "# Of C, `x_y`: 1-2\n## A\n```\n# no\n```\n## A\n");
        assert_eq!(document.slugs(), ["of-c-x_y-1-2", "a", "a-1"]);
    }

    #[test]
    fn entries_begin_with_what_they_name() {
        let text = "# A\n| `a` | b |\n- `c`, `d`\n  (e): f:\n  g\n\n  h: i\n# B\n- j: k\n";
        let document = Document::new("a.md", text);
        let entries = document.entries("A");
        let heads: Vec<&str> = entries.iter().map(|entry| entry.head.as_str()).collect();
        assert_eq!(heads, ["`a`", "`c`, `d` (e)"]);
        assert_eq!(entries[1].whole, "- `c`, `d` (e): f: g");
    }

    #[test]
    fn numbers_are_found_over_ends_of_lines_and_links() {
        let text = "all 1,022\n[must-fail](a.md) edits, 7 must-fail edit\n";
        let document = Document::new("a.md", text);
        assert_eq!(document.numbers_before("must-fail edits"), [(1, 1_022)]);
    }

    #[test]
    fn code_is_no_link() {
        assert_eq!(links("`[a](b)` [`c`](d#e) (f) [g](h)"), ["d#e", "h"]);
        assert_eq!(code_spans("`a` b `c d` e ` f"), ["a", "c d"]);
    }
}
