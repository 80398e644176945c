//! The time of a case: the library beside a twin written for speed, over texts that all differ.
//!
//! First the two are compared, on the texts and lists to be timed, the examples, accepted and
//! damaged texts and lists of the second program, texts of the 2008 Section, and lists and texts
//! with supplements; any difference ends the program. `--compare` stops there.

use bench::texts::{self, KINDS, SIZES};
use bench::{compare, timing};
use second::random::Random;
use std::io;
use std::process::exit;

const SEED: u64 = 0x0002_0150_0001_9950;

/// Whether to stop after comparing.
fn only_compares() -> bool {
    let arguments: Vec<String> = std::env::args().skip(1).collect();
    match &arguments[..] {
        [] => false,
        [option] if option == "--compare" => true,
        _ => {
            eprintln!("usage: bench [--compare]");
            exit(2);
        }
    }
}

fn main() -> io::Result<()> {
    let stops = only_compares();
    let mut random = Random::new(SEED);
    let sizes = SIZES.map(|size| (size, texts::texts(&mut random, size)));
    let kinds = KINDS.map(|kind| (kind, texts::lists(&mut random, kind)));
    for (_, texts) in &sizes {
        compare::compare_size(texts);
    }
    for (_, lists) in &kinds {
        compare::compare_lists(lists);
    }
    let count: usize = sizes.iter().map(|(_, texts)| texts.len()).sum();
    println!("{count:>8}  texts to be timed, none refused");
    let count: usize = kinds.iter().map(|(_, lists)| lists.len()).sum();
    println!("{count:>8}  lists of posts to be timed, none refused");
    compare::compare_all(&mut random)?;
    println!("no difference");
    if stops {
        return Ok(());
    }
    timing::print_head();
    for (size, texts) in &sizes {
        timing::time_size(*size, texts);
    }
    let (size, texts) = &sizes[texts::ONE_YEAR];
    timing::time_one_text(*size, texts);
    for (kind, lists) in &kinds {
        timing::time_lists(*kind, lists);
    }
    Ok(())
}
