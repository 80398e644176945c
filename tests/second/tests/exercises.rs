//! The exercises: each of the six mistakes has one, whose case is that of its example.

use second::mistakes::{closed, Mistake};
use second::samples::writing::case_text;
use second::words::reading::read;
use second::words::Named;
use std::fs;
use std::path::Path;

fn file(path: &str) -> String {
    let path = Path::new(env!("CARGO_MANIFEST_DIR"))
        .join("../..")
        .join(path);
    fs::read_to_string(&path).unwrap_or_else(|error| panic!("{}: {error}", path.display()))
}

fn exercise(mistake: Mistake) -> Named {
    let name = mistake.example().trim_start_matches("mistake_");
    let words = file(&format!("exercises/{name}.case"));
    read(&words).unwrap_or_else(|line| panic!("line {line} of {name}"))
}

#[test]
fn every_mistake_has_its_exercise() {
    for mistake in Mistake::ALL {
        let text = file(&format!("examples/{}.txt", mistake.example()));
        let given = exercise(mistake).case;
        assert_eq!(case_text(&given), text.as_bytes(), "{mistake:?}");
    }
}

/// An officer who makes the mistake comes to other amounts than the solution has.
#[test]
fn the_mistake_shows_on_its_exercise() {
    for mistake in Mistake::ALL {
        let case = exercise(mistake).case;
        let right = case.close().expect("a worked case");
        assert_ne!(closed(&case, mistake), Ok(right), "{mistake:?}");
    }
}
