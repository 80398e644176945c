//! The exercises: each case in words with its blank and its solution, which are held to the second
//! program's own print.

use second::sheet::{blank, sheet};
use second::words::reading::read;
use second::words::Named;
use std::fs;
use std::path::{Path, PathBuf};
use std::process::exit;

fn contents(path: &Path) -> String {
    fs::read_to_string(path).unwrap_or_else(|error| {
        println!("{}: {error}", path.display());
        exit(1);
    })
}

/// The case of a file of words.
pub fn case_of(path: &Path) -> Named {
    read(&contents(path)).unwrap_or_else(|line| {
        println!("{}: line {line} cannot be read", path.display());
        exit(1);
    })
}

/// The cases of a folder by name.
fn cases_in(folder: &Path) -> Vec<PathBuf> {
    let entries = fs::read_dir(folder).unwrap_or_else(|error| {
        println!("{}: {error}", folder.display());
        exit(1);
    });
    let paths = entries.map(|entry| entry.expect("an exercise").path());
    let mut cases: Vec<PathBuf> = paths
        .filter(|path| path.extension().map_or(false, |ending| ending == "case"))
        .collect();
    cases.sort();
    cases
}

/// The first line in which two prints differ.
fn first_difference(stored: &str, own: &str) -> usize {
    let lines = stored.split('\n').zip(own.split('\n'));
    1 + lines.take_while(|(one, other)| one == other).count()
}

/// Compares every sheet and blank of a folder; ends where there is none or one differs.
pub fn hold_exercises(folder: &Path) {
    let cases = cases_in(folder);
    let mut differences = 0;
    for path in &cases {
        let named = case_of(path);
        for (ending, own) in [("sheet", sheet(&named)), ("blank", blank(&named))] {
            let file = path.with_extension(ending);
            let stored = contents(&file);
            if stored != own {
                let line = first_difference(&stored, &own);
                println!("{}: line {line} differs", file.display());
                differences += 1;
            }
        }
    }
    println!("{} exercises, {differences} differences", cases.len());
    if cases.is_empty() || differences > 0 {
        exit(1);
    }
}
