//! Accepted cases: their words and their text are the same case, and each figure of their sheets is the
//! second program's.

use crate::running::{differ, hold, Ended, Program};
use second::posts::{has_supplement, is_cut, Post};
use second::random::Random;
use second::samples::accepted::{case, largest_case};
use second::samples::writing::case_text;
use second::sheet::{blank, csv, sheet};
use second::tally::Tally;
use second::words::names::named;
use second::words::writing::written;
use second::words::Named;
use second::{engine, printed};

/// The cases, those of them whose sheets are compared, whose texts are printed in every way, and the
/// largest there are.
pub const CASES: u64 = 10_000;
const ONE_SHEET_IN: u64 = 10;
const ALL_WAYS_IN: u64 = 100;
const ONE_LARGEST_IN: u64 = 500;

/// One file in so many is given by its name.
const ONE_FILE_IN: u64 = 8;

const TEXTS: &str = "words printed as a text";
const FROM_TEXTS: &str = "sheets of texts, posts by number";
const SHEETS: &str = "sheets of words, with blank and table";

/// A class of cases and the least that there must be of it.
type Class = (&'static str, u64, fn(&Named) -> bool);

fn any_name(named: &Named, test: fn(&str) -> bool) -> bool {
    named.names.iter().flatten().any(|name| test(name))
}

fn alike(names: &[String]) -> bool {
    let mut others = names.iter().enumerate();
    others.any(|(place, name)| names[..place].contains(name))
}

const CLASSES: &[Class] = &[
    ("without a section", 200, |named| named.case.section() == 0),
    ("in the 1995 Section", 200, |named| {
        named.case.section() == 1
    }),
    ("in the 2008 Section", 200, |named| {
        named.case.section() == 2
    }),
    ("no year", 5, |named| named.case.years.is_empty()),
    ("50 years", 5, |named| named.case.years.len() == 50),
    ("a year without posts", 20, |named| {
        named.case.years.iter().any(|year| year.posts.is_empty())
    }),
    ("16 posts", 20, |named| {
        named.case.any_year(|posts| posts.len() == 16)
    }),
    ("a supplement", 200, |named| {
        named.case.any_year(has_supplement)
    }),
    ("a post that is cut", 200, |named| {
        named.case.any_year(is_cut)
    }),
    ("a post with a supplement that is cut", 50, |named| {
        named
            .case
            .any_year(|posts| is_cut(posts) && has_supplement(posts))
    }),
    ("a whole-time post", 100, |named| {
        named
            .case
            .any_year(|posts| posts.iter().any(Post::is_whole_time))
    }),
    ("early in the 2015 Scheme", 200, |named| {
        named.case.is_early(0)
    }),
    ("early in the section", 100, |named| named.case.is_early(1)),
    ("two debits", 50, |named| named.case.debits.len() == 2),
    ("a charge", 20, |named| {
        named.case.final_pay.map_or(false, |pay| pay.charge() > 0)
    }),
    ("a name in another script", 100, |named| {
        any_name(named, |name| !name.is_ascii())
    }),
    ("a name that looks like a formula", 50, |named| {
        any_name(named, |name| name.starts_with(['=', '+', '-', '@']))
    }),
    ("a name with quotes", 50, |named| {
        any_name(named, |name| name.contains('"'))
    }),
    ("a name with a tab", 20, |named| {
        any_name(named, |name| name.contains('\t'))
    }),
    ("a name of 20,000 characters", 1, |named| {
        any_name(named, |name| name.chars().count() == 20_000)
    }),
    ("names alike in a year", 100, |named| {
        named.names.iter().any(|names| alike(names))
    }),
];

pub fn expect(tally: &mut Tally) {
    tally.expect(TEXTS, CASES);
    tally.expect(FROM_TEXTS, CASES);
    tally.expect(SHEETS, CASES / ONE_SHEET_IN);
    for (words, least, _) in CLASSES {
        tally.expect(&of_texts(words), ONE_SHEET_IN * least);
        tally.expect(&of_sheets(words), *least);
    }
}

fn of_texts(words: &str) -> String {
    format!("{TEXTS}: {words}")
}

fn of_sheets(words: &str) -> String {
    format!("{SHEETS}: {words}")
}

/// Runs the program on words, by standard input or by the name of a file.
fn run(program: &Program, random: &mut Random, arguments: &[&str], input: &[u8]) -> Ended {
    if random.one_in(ONE_FILE_IN) {
        program.run_on_file(arguments, input)
    } else {
        program.run(arguments, input)
    }
}

/// The words of a case print its text, and the text the sheet of the case with its posts by number.
fn hold_texts(program: &Program, random: &mut Random, named: &Named, words: &[u8]) {
    let text = case_text(&named.case);
    let given = run(program, random, &["--text"], words);
    hold("--text", words, &given, &Ended::printed(text.clone()));
    let (own, engines) = (second::case(&text), engine::case(&text));
    if own.refusal != 0 || printed(&own) != printed(&engines) {
        differ(
            "the line of a text",
            &text,
            &format!("{engines:?}\n{own:?}"),
        );
    }
    let numbered = Named::by_number(named.case.clone());
    let given = run(program, random, &["--from-text"], &text);
    hold(
        "--from-text",
        &text,
        &given,
        &Ended::printed(sheet(&numbered)),
    );
}

/// The sheet of words, its blank and its table.
fn hold_sheets(program: &Program, random: &mut Random, named: &Named, words: &[u8]) {
    for (arguments, expected) in [
        (&[][..], sheet(named)),
        (&["--csv"], csv(named)),
        (&["--blank"], blank(named)),
    ] {
        let given = run(program, random, arguments, words);
        let what = format!("the sheet {arguments:?}");
        hold(&what, words, &given, &Ended::printed(expected));
    }
}

/// A text printed in every other way than as a sheet.
fn hold_all_ways(program: &Program, random: &mut Random, named: &Named) {
    let text = case_text(&named.case);
    let again = String::from_utf8(text.clone()).expect("digits");
    let numbered = Named::by_number(named.case.clone());
    for (way, expected) in [
        ("--text", again),
        ("--csv", csv(&numbered)),
        ("--blank", blank(&numbered)),
    ] {
        let mut arguments = [way, "--from-text"];
        random.shuffle(&mut arguments);
        let given = run(program, random, &arguments, &text);
        let what = format!("{arguments:?}");
        hold(&what, &text, &given, &Ended::printed(expected));
    }
}

fn classify(tally: &mut Tally, named: &Named, words: fn(&str) -> String) {
    for (class, _, test) in CLASSES {
        if test(named) {
            tally.add(&words(class));
        }
    }
}

/// Holds the program to the second program on the case of a number.
pub fn hold_case(program: &Program, tally: &mut Tally, number: u64, seed: u64) {
    let mut random = Random::new(seed.wrapping_add(number));
    let case = if number % ONE_LARGEST_IN == 0 {
        largest_case(&mut random)
    } else {
        case(&mut random)
    };
    let named = named(&mut random, case);
    let words = written(&mut random, &named.lines()).bytes;
    hold_texts(program, &mut random, &named, &words);
    tally.add(TEXTS);
    tally.add(FROM_TEXTS);
    classify(tally, &named, of_texts);
    if number % ONE_SHEET_IN == 0 {
        hold_sheets(program, &mut random, &named, &words);
        tally.add(SHEETS);
        classify(tally, &named, of_sheets);
    }
    if number % ALL_WAYS_IN == 0 {
        hold_all_ways(program, &mut random, &named);
        tally.add("texts printed in every way");
    }
}
