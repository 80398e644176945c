//! Runs the case program as its users do: texts at the limit of their length, from a file and from a
//! pipe in pieces; reads that a signal interrupts; a read that fails after whole lines; writes that
//! fail; arguments. What it must print is worked by the second program. No proof reaches what a
//! program reads and writes, so these runs must.
//!
//! ```text
//! program PATH-OF-THE-CASE-PROGRAM
//! ```

mod longest;
mod running;

use longest::longest_text;
use running::{
    after_failed_read, first_read, from_file, in_pieces, interrupted, one_read, to_closed, to_full,
    to_nobody, with_argument, Ended,
};
use second::frames::LARGEST_TEXT;
use second::{case, printed};
use std::env;
use std::process::exit;

const PRINTED_CASE: &[u8] =
    b"0107B2040107F50401004300\n0207DF0000\n0305DC08CA0027AC4000000000\n03038408CA00124F8000000000\n";

/// What comes last of a text after a failed read: a byte that is no digit and no line feed.
const FAILED_MARK: u8 = 0;

/// Stops where a run did not end as it must.
fn hold(what: &str, given: &Ended, output: &[u8], errors: &str) {
    let expected = Ended {
        output: String::from_utf8_lossy(output).into(),
        errors: errors.into(),
    };
    if *given != expected {
        println!("{what}\ngiven:    {given:?}\nexpected: {expected:?}");
        exit(1);
    }
    let words = [given.output.trim_end(), given.errors.trim_end()];
    println!("{what}: {}", words.join(" ").trim());
}

/// The line that the second program prints of a text.
fn line_of(text: &[u8]) -> Vec<u8> {
    printed(&case(text))
}

/// The longest text, which is worked, and texts that only begin with it.
fn hold_lengths(program: &str) {
    let longest = longest_text();
    let without_debits = &longest[..longest.len() - 2 * 17];
    assert_eq!(longest.len(), LARGEST_TEXT);
    assert!(case(&longest).refusal == 0 && case(without_debits).refusal == 0);
    assert!(case(&longest).net_2015 < case(without_debits).net_2015);
    for more in [0, 1, 7, 40_000] {
        let mut text = longest.clone();
        text.resize(longest.len() + more, b'\n');
        let words = format!("{} bytes", text.len());
        let line = line_of(&text);
        hold(
            &format!("{words}, a file"),
            &from_file(program, &text),
            &line,
            "",
        );
        for size in [4_096, 1_000, 16_384] {
            let what = format!("{words}, a pipe, {size} at a time");
            hold(&what, &in_pieces(program, &text, size), &line, "");
        }
    }
    hold(
        "one byte at a time",
        &in_pieces(program, PRINTED_CASE, 1),
        &line_of(PRINTED_CASE),
        "",
    );
}

/// Reads interrupted by a signal: before the first byte, between lines and inside one.
fn hold_interrupted(program: &str) {
    let own = env::current_exe().expect("this program");
    let own = own.to_str().expect("a path");
    let control = interrupted(own, &[one_read()], b"\n", &[0]);
    hold(
        "a read that is stopped and continued",
        &control,
        b"interrupted\n",
        "",
    );
    for cuts in [&[0][..], &[25], &[0, 25, 32, 63]] {
        let given = interrupted(program, &[], PRINTED_CASE, cuts);
        hold(
            &format!("interrupted after {cuts:?} bytes"),
            &given,
            &line_of(PRINTED_CASE),
            "",
        );
    }
}

/// A read that fails after whole lines, or after all digits of a line but before its line feed: no
/// text cut short may pass for a whole one.
fn hold_failed(program: &str) {
    let errors = "canyonsieve-case: standard input: Connection reset by peer\n";
    let longest = longest_text();
    let cuts = [0, 24, 25, 32, 62, 63, 89, 90].map(|cut| &PRINTED_CASE[..cut]);
    for text in [&cuts[..], &[&longest[..longest.len() - 1], &longest]].concat() {
        let line = line_of(&[text, &[FAILED_MARK]].concat());
        assert!(line.starts_with(b"EE"));
        let what = format!("a read that fails after {} bytes", text.len());
        hold(&what, &after_failed_read(program, text), &line, errors);
    }
}

/// Writes that fail, and arguments.
fn hold_told(program: &str) {
    let full = "canyonsieve-case: standard output: No space left on device\n";
    hold("a full device", &to_full(program, PRINTED_CASE), b"", full);
    let closed = "canyonsieve-case: standard output: Bad file descriptor\n";
    hold(
        "a closed output",
        &to_closed(program, PRINTED_CASE),
        b"",
        closed,
    );
    let broken = "canyonsieve-case: standard output: Broken pipe\n";
    for (what, ignored) in [
        ("a pipe that nobody reads", false),
        ("the same, its signal ignored", true),
    ] {
        let given = to_nobody(program, PRINTED_CASE, ignored);
        hold(what, &given, b"", broken);
    }
    let usage = "usage: canyonsieve-case < TEXT    (no arguments; man canyonsieve-case)\n";
    for argument in ["--help", "case.txt", ""] {
        let what = format!("with the argument {argument:?}");
        hold(&what, &with_argument(program, argument), b"", usage);
    }
}

fn main() {
    let Some(program) = env::args().nth(1) else {
        println!("which program?");
        exit(1);
    };
    if program == one_read() {
        first_read();
        return;
    }
    hold_lengths(&program);
    hold_interrupted(&program);
    hold_failed(&program);
    hold_told(&program);
    println!("the case program reads and writes as it must");
}
