//! Holds the documents against the engine, against the second program and against the repository.
//! Prints each fault as FILE:LINE: words and fails where there is any. The argument is the
//! repository's folder.

mod blocks;
mod markdown;
mod names;
mod registers;
mod repository;

use repository::{Faults, Repository};
use std::env;
use std::process::exit;

/// The most characters of a line.
const LONGEST_LINE: usize = 120;

/// The least number of executable blocks in all documents together.
const LEAST_BLOCKS: usize = 45;

fn check_lines(repository: &Repository, faults: &mut Faults) {
    for document in &repository.documents {
        for (number, line) in document.numbered() {
            let length = line.chars().count();
            if length > LONGEST_LINE {
                let words = format!("{length} characters, at most {LONGEST_LINE} may stand");
                faults.add(&document.path, number, words);
            }
        }
    }
}

/// Runs the blocks of all documents and gives their number.
fn check_blocks(repository: &Repository, faults: &mut Faults) -> usize {
    let documents = repository.documents.iter();
    let run: usize = documents
        .map(|document| blocks::run(document, faults))
        .sum();
    if run < LEAST_BLOCKS {
        let words = format!("{run} executable blocks in all documents, at least {LEAST_BLOCKS}");
        faults.add("README.md", 0, words);
    }
    run
}

fn main() {
    let folder = env::args().nth(1).unwrap_or_else(|| ".".to_string());
    let repository = Repository::read(folder.as_ref());
    let mut faults = Faults::default();
    let run = check_blocks(&repository, &mut faults);
    blocks::check_examples(&repository, &mut faults);
    check_lines(&repository, &mut faults);
    names::check_links(&repository, &mut faults);
    names::check_names(&repository, &mut faults);
    registers::check_edits(&repository, &mut faults);
    registers::check_theorems(&repository, &mut faults);
    registers::check_crates(&repository, &mut faults);
    registers::check_refusals(&repository, &mut faults);
    let found = faults.printed();
    println!(
        "{} documents, {run} blocks run, {found} faults",
        repository.documents.len()
    );
    if found > 0 {
        exit(1);
    }
}
