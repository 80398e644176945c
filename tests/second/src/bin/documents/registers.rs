//! What the documents list: must-fail edits, theorems, crates, refusals.

use crate::markdown::{code_spans, Entry};
use crate::names::{is_there, path_named, path_words};
use crate::repository::{Faults, Repository};
use std::collections::BTreeSet;
use std::fmt::Display;

const README: &str = "README.md";
const TESTING: &str = "docs/TESTING.md";
const PROVED: &str = "docs/PROVED.md";
const HEADER: &str = "include/canyonsieve.h";

/// The must-fail edits of a crate.
fn edits_of(repository: &Repository, name: &str) -> Vec<String> {
    repository.stems_in(&format!("crates/{name}/must-fail"), ".edit")
}

/// Each edit is named in docs/TESTING.md and the other way round; each changes what is there; the
/// numbers that are told of them and of the crates are theirs.
pub fn check_edits(repository: &Repository, faults: &mut Faults) {
    let crates = repository.crates();
    let mut edits = BTreeSet::new();
    for name in &crates {
        for edit in edits_of(repository, name) {
            check_edit(repository, name, &edit, faults);
            edits.insert(format!("{name}/{edit}"));
        }
    }
    check_listed(repository, &crates, &edits, faults);
    check_table(repository, &crates, faults);
    let (wordings, places) = (["must-fail edits", "wrong engines"], [README, TESTING]);
    check_told(repository, &wordings, edits.len(), &places, faults);
    check_told(repository, &["crates"], crates.len(), &[TESTING], faults);
}

/// Each text that an edit replaces stands once in its file, after the replacements before it.
fn check_edit(repository: &Repository, name: &str, edit: &str, faults: &mut Faults) {
    let path = format!("crates/{name}/must-fail/{edit}.edit");
    let replacements = repository.text(&path);
    let mut text = String::new();
    let mut old = "";
    for (number, line) in (1..).zip(replacements.lines()) {
        if let Some(file) = line.strip_prefix("file: ") {
            let file = format!("crates/{name}/{file}");
            text = repository.text_of(&file).unwrap_or_else(|| {
                faults.add(&path, number, format!("{file} is not there"));
                String::new()
            });
        } else if let Some(replaced) = line.strip_prefix("old: ") {
            old = replaced;
            let count = text.matches(old).count();
            if count != 1 {
                let words = format!("the old text stands {count} times in its file");
                faults.add(&path, number, words);
            }
        } else if let Some(new) = line.strip_prefix("new:") {
            text = text.replacen(old, new.strip_prefix(' ').unwrap_or(new), 1);
        }
    }
}

/// The edits that docs/TESTING.md names are those that there are.
fn check_listed(
    repository: &Repository,
    crates: &[String],
    edits: &BTreeSet<String>,
    faults: &mut Faults,
) {
    let mut named = BTreeSet::new();
    for (number, line) in repository.document(TESTING).prose() {
        for word in path_words(line) {
            let of_crate = |(name, rest): (&str, &str)| {
                crates.iter().any(|known| known == name) && !rest.contains('/')
            };
            if !word.split_once('/').map_or(false, of_crate) {
                continue;
            }
            if !edits.contains(word) {
                faults.add(TESTING, number, format!("there is no edit {word}"));
            }
            named.insert(word.to_string());
        }
    }
    for edit in edits.difference(&named) {
        faults.add(TESTING, 0, format!("the edit {edit} is not named"));
    }
}

/// The table of times in docs/TESTING.md has every crate with the number of its edits.
fn check_table(repository: &Repository, crates: &[String], faults: &mut Faults) {
    let mut rows = BTreeSet::new();
    for (titles, table) in repository.document(TESTING).tables() {
        let Some(column) = titles.iter().position(|title| title == "Edits") else {
            continue;
        };
        for (number, cells) in table {
            let name = cells[0].trim_matches('`').to_string();
            let told = cells.get(column).map_or("", String::as_str);
            let count = edits_of(repository, &name).len();
            if told.parse().unwrap_or(0) != count {
                let words = format!("{name} has {count} edits, not {told}");
                faults.add(TESTING, number, words);
            }
            rows.insert(name);
        }
    }
    let crates = crates.iter().cloned().collect();
    check_same(
        TESTING,
        "the table of edits",
        &rows,
        "crates.txt",
        &crates,
        faults,
    );
}

/// What a place of a document lists is what there is.
fn check_same<Item: Ord + Display>(
    file: &str,
    place: &str,
    listed: &BTreeSet<Item>,
    source: &str,
    known: &BTreeSet<Item>,
    faults: &mut Faults,
) {
    for item in known.difference(listed) {
        faults.add(file, 0, format!("{item} of {source} is not in {place}"));
    }
    for item in listed.difference(known) {
        faults.add(file, 0, format!("{item} of {place} is not in {source}"));
    }
}

/// Each number told before one of these words is this; each of some documents tells it.
fn check_told(
    repository: &Repository,
    wordings: &[&str],
    number: usize,
    told_in: &[&str],
    faults: &mut Faults,
) {
    for document in repository.current() {
        let mut told = false;
        for words in wordings {
            for (line, given) in document.numbers_before(words) {
                told = true;
                if given != number {
                    let fault = format!("{given} {words} are told, there are {number}");
                    faults.add(&document.path, line, fault);
                }
            }
        }
        if !told && told_in.contains(&document.path.as_str()) {
            let fault = format!("nowhere `{number} {}`", wordings.join("` or `"));
            faults.add(&document.path, 0, fault);
        }
    }
}

/// Whether a text declares a name at the start of a line or of a module's line.
fn declares(text: &str, name: &str) -> bool {
    text.lines().any(|line| {
        let line = line.trim_start();
        let line = line.strip_prefix("pub ").unwrap_or(line);
        let rest = line.strip_prefix(name).map(str::trim_start);
        rest.map_or(false, |rest| rest.starts_with(':'))
    })
}

/// The text of the files of definitions and proofs that an entry names.
fn files_of(repository: &Repository, crates: &[String], entry: &Entry) -> String {
    let paths = path_words(&entry.whole).filter_map(|word| path_named(crates, word));
    paths
        .filter_map(|path| repository.text_of(&format!("{path}.antt")))
        .collect()
}

/// Each theorem that docs/PROVED.md lists is declared in a file that is named with it.
pub fn check_theorems(repository: &Repository, faults: &mut Faults) {
    let crates = repository.crates();
    let mut count = 0;
    for entry in repository.document(PROVED).entries("The theorems") {
        let declared = files_of(repository, &crates, &entry);
        for name in code_spans(&entry.head) {
            count += 1;
            if !declares(&declared, name) {
                let words = format!("{name} is declared in no file that is named with it");
                faults.add(PROVED, entry.line, words);
            }
        }
    }
    if count == 0 {
        faults.add(PROVED, 0, "no theorem under the heading `The theorems`");
    }
}

/// README.md lists the crates of crates.txt, each with files of it to read first.
pub fn check_crates(repository: &Repository, faults: &mut Faults) {
    let mut listed = BTreeSet::new();
    for entry in repository.document(README).entries("Where things are") {
        for name in code_spans(&entry.head) {
            for word in path_words(&entry.whole).filter(|word| word.starts_with("specs/")) {
                if !is_there(repository, &format!("crates/{name}/{word}")) {
                    faults.add(README, entry.line, format!("{name} has no {word}"));
                }
            }
            listed.insert(name.to_string());
        }
    }
    let crates = repository.crates().into_iter().collect();
    check_same(
        README,
        "`Where things are`",
        &listed,
        "crates.txt",
        &crates,
        faults,
    );
}

/// The refusals of the header, without 0.
fn refusals(header: &str) -> BTreeSet<u64> {
    let after = header.split("enum canyonsieve_refusal {").nth(1);
    let inside = after.and_then(|rest| rest.split('}').next()).unwrap_or("");
    let numbers = inside.lines().filter_map(|line| line.split_once(" = "));
    numbers
        .filter_map(|(_, number)| number.trim_end_matches(',').parse::<u64>().ok())
        .filter(|number| *number != 0)
        .collect()
}

/// README.md lists the refusals of the header.
pub fn check_refusals(repository: &Repository, faults: &mut Faults) {
    let mut listed = BTreeSet::new();
    for entry in repository.document(README).entries("Refusals") {
        let numbers = entry.head.split(", ");
        listed.extend(numbers.filter_map(|number| number.parse::<u64>().ok()));
    }
    let known = refusals(&repository.text(HEADER));
    check_same(README, "`Refusals`", &listed, "the header", &known, faults);
}
