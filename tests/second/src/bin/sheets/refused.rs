//! Refused cases: the number of the refusal, and the line of the person's own file.

use crate::running::{differ, hold, Ended, Program};
use second::cases::Case;
use second::random::Random;
use second::samples::damaged::CAUSES;
use second::sheet::figures::{decimal, money};
use second::tally::Tally;
use second::words::refused::{refused_lines, unsayable_lines};
use second::words::writing::{written, Written};
use second::words::{fits, text_of_lines, Line, Named};
use second::Outcome;
use std::collections::BTreeSet;

/// The refused cases, and those with a debit factor that no frame can say.
pub const REFUSED: u64 = 600;
pub const UNSAYABLE: u64 = 30;

/// The refused texts: two for each cause.
pub const REFUSED_TEXTS: u64 = 2 * CAUSES.len() as u64;

/// The refusals that words can come to, with the least that there must be of each.
const LEAST: &[(u64, u64)] = &[
    (1, 5),
    (4, 50),
    (5, 20),
    (6, 20),
    (7, 50),
    (8, 5),
    (9, 10),
    (10, 20),
    (11, 10),
    (13, 5),
    (14, 5),
    (27, 10),
];

const UNSAYABLE_FACTOR: &str = "a debit factor that no frame can say";
const TOO_LARGE: &str = "refused words with a number too large for its field";

fn class(refusal: u64) -> String {
    format!("refused words: refusal {refusal}")
}

fn text_class(refusal: u64) -> String {
    format!("refused texts: refusal {refusal}")
}

pub fn expect(tally: &mut Tally) {
    for &(refusal, least) in LEAST {
        tally.expect(&class(refusal), least);
    }
    tally.expect(TOO_LARGE, 20);
    let refusals: BTreeSet<u64> = CAUSES.iter().map(|cause| cause.refusal).collect();
    for refusal in refusals {
        tally.expect(&text_class(refusal), 2);
    }
    tally.expect(UNSAYABLE_FACTOR, UNSAYABLE);
}

/// What a message must be: the name of the file and the line that it is about, words, and its end.
#[derive(Debug)]
struct Message {
    beginning: String,
    /// What the words must end with; empty where any words will do.
    words: String,
    end: String,
}

impl Message {
    fn new(file: Option<&str>, line: u64, words: &str, end: &str) -> Message {
        let file = file.map_or(String::new(), |name| format!("{name}: "));
        let line = match line {
            0 => String::new(),
            _ => format!("line {line}: "),
        };
        Message {
            beginning: format!("canyonsieve-sheet: {file}{line}"),
            words: words.to_string(),
            end: end.to_string(),
        }
    }

    /// Whether this is what was told, in one line. A refusal without a line says none.
    fn is(&self, told: &str) -> bool {
        let rest = told.strip_prefix(&self.beginning);
        let inside = rest.and_then(|rest| rest.strip_suffix(&self.end));
        inside.map_or(false, |words| {
            let lined = words.starts_with("line ") || words.contains('\n');
            !words.is_empty() && !lined && words.ends_with(&self.words)
        })
    }
}

/// A run that refused: nothing printed, and this told.
fn hold_told(what: &str, input: &[u8], given: &Ended, expected: &Message) {
    let silent = given.status == Some(1) && given.output.is_empty();
    if !silent || !expected.is(&given.errors) {
        differ(what, input, &format!("{given:?}\nexpected: {expected:?}"));
    }
}

/// What is missing of a case that is refused with 13.
fn missing_factor(case: &Case) -> String {
    let scheme = u64::from(case.factor(0).is_ok());
    let months = case.months_early(scheme).expect("months early");
    format!("no factor {} for {months} months", name_of(case, scheme))
}

fn name_of(case: &Case, scheme: u64) -> &'static str {
    match scheme {
        0 => "2015",
        _ => ["", "1995", "2008"][case.section() as usize],
    }
}

/// What a case that is refused with 14 has a debit above.
fn debit_above(case: &Case) -> String {
    let had = case.reduced_benefits().expect("its factors");
    let debits = case.benefit_debits();
    let of = |scheme: u64, amount: u64| {
        let debit = case.debits.iter().find(|debit| debit.scheme == scheme);
        let debit = debit.expect("a debit");
        let (name, pot) = (name_of(case, scheme), money(debit.pot));
        let (factor, amount) = (decimal(debit.factor, 2), money(amount));
        format!("debit {name} of pot {pot}, factor {factor}, is more than the pension of {amount}")
    };
    let words = if debits.pension_2015 > had.pension_2015 {
        of(0, had.pension_2015)
    } else if debits.pension_1995 > had.pension_1995 {
        of(1, had.pension_1995)
    } else {
        format!(" is more than the lump sum of {}", money(had.lump_sum))
    };
    format!("{words} that it is taken from")
}

/// The words that must be told of a refusal at the end of a case; none of another one.
fn closing_words(lines: &[Line]) -> String {
    let Ok(named) = Named::of(lines) else {
        return String::new();
    };
    match named.case.close() {
        Err(13) => missing_factor(&named.case),
        Err(14) => debit_above(&named.case),
        _ => String::new(),
    }
}

/// The line of the words that say a line of the text.
fn line_in_words(written: &Written, outcome: &Outcome) -> u64 {
    match outcome.line {
        0 => 0,
        line => written.lines[line as usize - 1],
    }
}

/// Refused words, their text and the sheet of that text.
fn hold_lines(program: &Program, tally: &mut Tally, random: &mut Random, lines: &[Line]) {
    let text = text_of_lines(lines);
    let outcome = second::case(&text);
    let given = written(random, lines);
    let line = line_in_words(&given, &outcome);
    let end = format!(" (refusal {})\n", outcome.refusal);
    let why = closing_words(lines);
    let words = &given.bytes;
    let told = program.run(&[], words);
    let message = Message::new(None, line, &why, &end);
    hold_told("refused words", words, &told, &message);
    let on_file = program.run_on_file(&["--csv"], words);
    let message = Message::new(program.file.to_str(), line, &why, &end);
    hold_told("refused words of a file", words, &on_file, &message);
    let as_text = program.run(&["--text"], words);
    if lines.iter().all(fits) {
        hold("--text", words, &as_text, &Ended::printed(text.clone()));
    } else {
        hold("--text", words, &as_text, &told);
        tally.add(TOO_LARGE);
    }
    let from_text = program.run(&["--from-text", "--blank"], &text);
    let message = Message::new(None, outcome.line, &why, &end);
    hold_told("a refused text", &text, &from_text, &message);
    tally.add(&class(outcome.refusal));
}

/// Holds the program to a text refused by each cause there is, also by those that words cannot come to.
pub fn hold_refused_text(program: &Program, tally: &mut Tally, number: u64, seed: u64) {
    let mut random = Random::new(seed.rotate_left(7).wrapping_add(number));
    let cause = &CAUSES[number as usize % CAUSES.len()];
    let damaged = cause.damaged(&mut random);
    let told = program.run(&["--from-text"], &damaged.text);
    let end = format!(" (refusal {})\n", cause.refusal);
    let message = Message::new(None, damaged.line, "", &end);
    hold_told(cause.words, &damaged.text, &told, &message);
    tally.add(&text_class(cause.refusal));
}

/// Holds the program to the second program on the refused case of a number.
pub fn hold_refused(program: &Program, tally: &mut Tally, number: u64, seed: u64) {
    let mut random = Random::new(seed.wrapping_sub(number + 1));
    let lines = refused_lines(&mut random);
    hold_lines(program, tally, &mut random, &lines);
}

/// The same of a debit factor that no frame can say: it has no number of a refusal.
pub fn hold_unsayable(program: &Program, tally: &mut Tally, number: u64, seed: u64) {
    let mut random = Random::new(!seed.wrapping_add(number));
    let (lines, at) = unsayable_lines(&mut random);
    let given = written(&mut random, &lines);
    let end = " is more than 655.35, the largest that a frame can say\n";
    let mut message = Message::new(None, given.lines[at], "", end);
    message.beginning += "a debit factor of ";
    for arguments in [&[][..], &["--text"]] {
        let told = program.run(arguments, &given.bytes);
        hold_told(UNSAYABLE_FACTOR, &given.bytes, &told, &message);
    }
    tally.add(UNSAYABLE_FACTOR);
}
