//! Executable blocks: an input, and in the next block what it gives. The engine and the second
//! program both work it.

use crate::markdown::{Block, Document};
use crate::repository::{Faults, Repository};
use second::engine;
use second::posts::POST_BYTES;

/// The lines that the engine and the second program give for a block.
struct Answers {
    engine: Vec<String>,
    second: Vec<String>,
}

/// An input's info string, that of what it gives, and how it is worked: the words say why it is no
/// input.
type Pair = (
    &'static str,
    &'static str,
    fn(&[String]) -> Result<Answers, String>,
);

const PAIRS: &[Pair] = &[
    ("case", "line", case),
    ("posts", "parts", posts),
    ("dates", "months", dates),
    ("charge", "pence", charge),
    ("abatement", "pence", abatement),
    ("change", "charges", change),
];

/// A figure marked as wrong, which is not run and may stand between the blocks of a pair.
const WRONG: &str = "wrong";

/// The other blocks that are not run.
const NOT_RUN: &[&str] = &["", "c", "sh", "text", WRONG];

/// Lines as a text, each ended by 0A.
fn text_of(lines: &[String]) -> String {
    lines.iter().map(|line| format!("{line}\n")).collect()
}

fn case(lines: &[String]) -> Result<Answers, String> {
    let text = text_of(lines);
    let printed = |outcome| {
        let line = String::from_utf8(second::printed(&outcome)).expect("digits");
        vec![line.trim_end_matches('\n').to_string()]
    };
    Ok(Answers {
        engine: printed(engine::case(text.as_bytes())),
        second: printed(second::case(text.as_bytes())),
    })
}

/// The bytes of posts in hexadecimal, one post a line.
fn bytes_of(lines: &[String]) -> Option<Vec<u8>> {
    let mut bytes = Vec::new();
    for line in lines {
        let digits: Option<Vec<u32>> = line.chars().map(|c| c.to_digit(16)).collect();
        let digits = digits.filter(|digits| digits.len() == 2 * POST_BYTES)?;
        let pairs = digits.chunks(2).map(|pair| (pair[0] * 16 + pair[1]) as u8);
        bytes.extend(pairs);
    }
    Some(bytes)
}

/// The lines of a posts call with as many places as posts.
fn parts_by(call: fn(&[u8], &mut [u64]) -> (u64, u64), bytes: &[u8]) -> Vec<String> {
    let mut places = vec![0; bytes.len() / POST_BYTES];
    let (refusal, number) = call(bytes, &mut places);
    let mut lines = vec![format!("refusal {refusal}, {number} pence")];
    if refusal == 0 && !places.is_empty() {
        let parts: Vec<String> = places.iter().map(u64::to_string).collect();
        lines.push(parts.join(" "));
    }
    lines
}

fn posts(lines: &[String]) -> Result<Answers, String> {
    let bytes = bytes_of(lines).ok_or("a line that is not 24 hexadecimal digits")?;
    Ok(Answers {
        engine: parts_by(engine::posts, &bytes),
        second: parts_by(second::posts, &bytes),
    })
}

/// So many decimal numbers.
fn numbers<const COUNT: usize>(lines: &[String]) -> Result<[u64; COUNT], String> {
    let words = lines.iter().flat_map(|line| line.split_whitespace());
    let numbers: Option<Vec<u64>> = words.map(|word| word.parse().ok()).collect();
    let numbers = numbers.and_then(|numbers| numbers.try_into().ok());
    numbers.ok_or_else(|| format!("not {COUNT} decimal numbers"))
}

fn pence((refusal, number): (u64, u64)) -> Vec<String> {
    vec![format!("refusal {refusal}, {number} pence")]
}

fn months((refusal, number): (u64, i64)) -> Vec<String> {
    vec![format!("refusal {refusal}, {number} months")]
}

fn dates(lines: &[String]) -> Result<Answers, String> {
    let call = numbers::<7>(lines)?;
    Ok(Answers {
        engine: months(engine::months_early(&call)),
        second: months(second::months_early(&call)),
    })
}

fn charge(lines: &[String]) -> Result<Answers, String> {
    let call = numbers::<10>(lines)?;
    Ok(Answers {
        engine: pence(engine::charge(&call)),
        second: pence(second::charge(&call)),
    })
}

fn abatement(lines: &[String]) -> Result<Answers, String> {
    let call = numbers::<4>(lines)?;
    Ok(Answers {
        engine: pence(engine::abatement(&call)),
        second: pence(second::abatement(&call)),
    })
}

fn charges((refusal, (old, new)): (u64, (u64, u64))) -> Vec<String> {
    vec![format!("refusal {refusal}, {old} and {new} pence")]
}

fn change(lines: &[String]) -> Result<Answers, String> {
    let call = numbers::<15>(lines)?;
    Ok(Answers {
        engine: charges(engine::change_of_employer(&call)),
        second: charges(second::change_of_employer(&call)),
    })
}

/// What is wrong with an input and the block after it.
fn faults_of(input: &Block, pair: &Pair, next: Option<&Block>) -> Vec<(usize, String)> {
    let (_, given, work) = pair;
    let Some(told) = next.filter(|block| block.info == *given) else {
        let words = format!("no `{given}` block after this `{}` block", input.info);
        return vec![(input.line, words)];
    };
    let answers = match work(&input.lines) {
        Ok(answers) => answers,
        Err(words) => return vec![(input.line, words)],
    };
    let both = [
        ("the engine", answers.engine),
        ("the second program", answers.second),
    ];
    let wrong = both.into_iter().filter(|(_, lines)| *lines != told.lines);
    wrong
        .map(|(who, lines)| (told.line, format!("{who} gives: {}", lines.join(" / "))))
        .collect()
}

/// Whether a block is what the block before it gives.
fn is_given(info: &str, before: Option<&&Block>) -> bool {
    let of_pair =
        |pair: &Pair| pair.1 == info && before.map_or(false, |block| block.info == pair.0);
    PAIRS.iter().any(of_pair)
}

/// Runs the blocks of a document and gives the number of inputs.
pub fn run(document: &Document, faults: &mut Faults) -> usize {
    let mut run = 0;
    for block in document.blocks.iter().filter(|block| !block.closed) {
        faults.add(&document.path, block.line, "a block without an end");
    }
    let blocks: Vec<&Block> = document
        .blocks
        .iter()
        .filter(|block| block.info != WRONG)
        .collect();
    for (place, block) in blocks.iter().enumerate() {
        let before = place.checked_sub(1).and_then(|before| blocks.get(before));
        if let Some(pair) = PAIRS.iter().find(|pair| pair.0 == block.info) {
            run += 1;
            for (line, words) in faults_of(block, pair, blocks.get(place + 1).copied()) {
                faults.add(&document.path, line, words);
            }
        } else if PAIRS.iter().any(|pair| pair.1 == block.info) {
            if !is_given(&block.info, before) {
                let words = format!("a `{}` block that no input stands before", block.info);
                faults.add(&document.path, block.line, words);
            }
        } else if !NOT_RUN.contains(&block.info.as_str()) {
            let words = format!("a block of an unknown kind, `{}`", block.info);
            faults.add(&document.path, block.line, words);
        }
    }
    run
}

/// Each example has its text, its line and its words; the first blocks of its words are the text
/// and the line.
pub fn check_examples(repository: &Repository, faults: &mut Faults) {
    const ENDINGS: [&str; 3] = [".txt", ".line", ".md"];
    for ending in ENDINGS {
        for name in repository.stems_in("examples", ending) {
            let path = format!("examples/{name}");
            for other in ENDINGS
                .iter()
                .filter(|other| !repository.has(&format!("{path}{other}")))
            {
                let words = format!("without {path}{other}");
                faults.add(&format!("{path}{ending}"), 0, words);
            }
        }
    }
    for name in repository.stems_in("examples", ".md") {
        let document = repository.document(&format!("examples/{name}.md"));
        for (info, ending) in [("case", ".txt"), ("line", ".line")] {
            let Some(block) = document.blocks.iter().find(|block| block.info == info) else {
                continue;
            };
            let path = format!("examples/{name}{ending}");
            if repository.text_of(&path) != Some(text_of(&block.lines)) {
                let words = format!("this block is not {path}");
                faults.add(&document.path, block.line, words);
            }
        }
    }
}
