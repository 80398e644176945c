//! The six mistakes on their examples: each shows on its own and on none of the others, and the pages
//! of the examples give the right line and the wrong one.

use second::cases::read;
use second::mistakes::{closed, Mistake};
use second::{case, printed, Outcome};
use std::fs;
use std::path::{Path, PathBuf};

fn examples() -> PathBuf {
    Path::new(env!("CARGO_MANIFEST_DIR")).join("../../examples")
}

/// A file of a mistake's example.
fn file(mistake: Mistake, ending: &str) -> String {
    let path = examples().join(format!("{}.{ending}", mistake.example()));
    fs::read_to_string(&path).unwrap_or_else(|error| panic!("{}: {error}", path.display()))
}

/// The one fenced block of a page with this info string.
fn block<'page>(page: &'page str, info: &str) -> &'page str {
    let start = format!("\n```{info}\n");
    let mut blocks = page.split(&start[..]).skip(1);
    let (Some(from), None) = (blocks.next(), blocks.next()) else {
        panic!("not one block of {info}");
    };
    from.split_once("```\n").expect("an end of the block").0
}

fn right(example: Mistake) -> Outcome {
    case(file(example, "txt").as_bytes())
}

/// What an example comes to with a mistake.
fn wrong(example: Mistake, mistake: Mistake) -> Outcome {
    let case = read(file(example, "txt").as_bytes()).expect("an accepted text");
    closed(&case, mistake).expect("a worked case")
}

fn line(outcome: &Outcome) -> String {
    String::from_utf8(printed(outcome)).expect("digits")
}

fn amounts(of: Outcome) -> [u64; 4] {
    [of.net_2015, of.net_1995, of.net_lump_sum, of.charge]
}

/// An amount in pounds and pence.
fn pounds(pence: u64) -> String {
    let (pounds, pence) = (pence / 100, pence % 100);
    match (pounds / 1_000, pounds % 1_000) {
        (0, pounds) => format!("£{pounds}.{pence:02}"),
        (thousands, rest) => format!("£{thousands},{rest:03}.{pence:02}"),
    }
}

/// Whether a row of the table ends with the right amount and, beside it, the wrong one.
fn has_row(page: &str, right: &str, wrong: &str) -> bool {
    let end = format!(" = {wrong} |");
    let before = format!(" = {right} | ");
    page.lines()
        .any(|row| row.contains(&before) && row.ends_with(&end))
}

/// What the page says of a line before its block.
fn words_of<'page>(page: &'page str, start: &str, info: &str) -> &'page str {
    let (_, from) = page.split_once(start).expect("words of the line");
    let block = format!("\n```{info}\n");
    from.split_once(&block[..]).expect("the line").0
}

#[test]
fn every_example_of_a_mistake_has_its_mistake() {
    let entries = fs::read_dir(examples()).expect("the examples");
    let names = entries.map(|entry| entry.expect("an example").file_name());
    let mut found: Vec<String> = names
        .filter_map(|name| name.into_string().ok())
        .filter(|name| name.starts_with("mistake_") && name.ends_with(".txt"))
        .collect();
    let mut known = Mistake::ALL.map(|mistake| format!("{}.txt", mistake.example()));
    found.sort();
    known.sort();
    assert_eq!(found, known);
}

#[test]
fn a_mistake_shows_on_its_own_example_alone() {
    for example in Mistake::ALL {
        assert_eq!(right(example).refusal, 0, "{example:?}");
        for mistake in Mistake::ALL {
            let shows = wrong(example, mistake) != right(example);
            assert_eq!(shows, mistake == example, "{mistake:?} on {example:?}");
        }
    }
}

#[test]
fn pages_give_the_text_and_both_lines() {
    for mistake in Mistake::ALL {
        let page = file(mistake, "md");
        assert_eq!(block(&page, "case"), file(mistake, "txt"), "{mistake:?}");
        assert_eq!(block(&page, "line"), file(mistake, "line"), "{mistake:?}");
        assert_eq!(block(&page, "line"), line(&right(mistake)), "{mistake:?}");
        let given = line(&wrong(mistake, mistake));
        assert_eq!(block(&page, "wrong"), given, "{mistake:?}");
        let place = |info: &str| page.find(&format!("\n```{info}\n"));
        assert!(place("case") < place("line") && place("line") < place("wrong"));
    }
}

#[test]
fn pages_mark_the_wrong_amounts() {
    for mistake in Mistake::ALL {
        let page = file(mistake, "md");
        assert!(page.contains("\n| Step | Right | WRONG: "), "{mistake:?}");
        let right = amounts(right(mistake));
        let wrong = amounts(wrong(mistake, mistake));
        let changed = right.into_iter().zip(wrong).filter(|(a, b)| a != b);
        let of_right = words_of(&page, "\nThe right line: ", "line");
        let of_wrong = words_of(&page, "\nThe WRONG line, ", "wrong");
        for (right, wrong) in changed.map(|(a, b)| (pounds(a), pounds(b))) {
            let given = has_row(&page, &right, &wrong)
                && of_right.contains(&right)
                && of_wrong.contains(&wrong);
            assert!(given, "{mistake:?}: {right}, {wrong}");
        }
    }
}
