//! Does the scripts of the engine's test programs by the second program's own rules, and writes what
//! those programs must write. `scripts figures` and `scripts running` read a script from standard
//! input. A line that is none of the script's commands is an error, and nothing is written then.

mod figures;
mod running;
mod words;

use figures::Figures;
use running::Running;
use std::env;
use std::io::{self, Read, Write};
use std::process::ExitCode;

/// What the lines of a script write, one after another. `write` gives nothing for a line that it does
/// not know.
fn written(script: &str, mut write: impl FnMut(&str) -> Option<String>) -> Result<String, String> {
    let mut lines = String::new();
    for (number, line) in (1..).zip(script.split_inclusive('\n')) {
        let known = line.strip_suffix('\n').and_then(&mut write);
        lines += &known.ok_or_else(|| format!("line {number} is no command: {line}"))?;
    }
    Ok(lines)
}

/// What a script in one of the two languages writes.
fn done(language: &str, script: &str) -> Result<String, String> {
    match language {
        "figures" => {
            let mut figures = Figures::default();
            written(script, |line| figures.line(line))
        }
        "running" => {
            let mut running = Running::default();
            written(script, |line| running.line(line))
        }
        _ => Err("give the script's language: figures or running".to_string()),
    }
}

fn run() -> Result<(), String> {
    let language = env::args().nth(1).unwrap_or_default();
    let mut script = String::new();
    io::stdin()
        .read_to_string(&mut script)
        .map_err(|error| error.to_string())?;
    let lines = done(&language, &script)?;
    io::stdout()
        .write_all(lines.as_bytes())
        .map_err(|error| error.to_string())
}

fn main() -> ExitCode {
    match run() {
        Ok(()) => ExitCode::SUCCESS,
        Err(words) => {
            eprintln!("scripts: {}", words.trim_end());
            ExitCode::FAILURE
        }
    }
}

#[cfg(test)]
mod tests {
    use super::*;

    /// Asserts that each line is refused, whatever stands before it.
    fn assert_unknown(language: &str, before: &str, lines: &[&str]) {
        assert!(done(language, before).is_ok());
        for line in lines {
            let given = done(language, &format!("{before}{line}\n"));
            let words = format!("line 2 is no command: {line}\n");
            assert_eq!(given, Err(words), "{language}");
        }
    }

    #[test]
    fn unknown_lines_are_errors() {
        let known = "C closed\n";
        let unknown = [
            "G x|01", "F", "F no bar", "F x|", "F x|0", "F x|0g", "C x|01", " ",
        ];
        assert_unknown("running", known, &unknown);
        let known = "A none|0 0 0 0\n";
        let unknown = [
            "",
            "A no bar",
            "A x|0 0 0",
            "A x|0 0 0 0 0",
            "A x|0 0 0 -1",
            "F x|01",
        ];
        assert_unknown("figures", known, &unknown);
        let unknown = [
            "P x|19",
            "P x|1 1 2",
            "P x|1 1 2 3",
            "R x|1 1 2 3 0 1 2 3",
            "P x|1 65536 1 1 0",
            "R x|1 1 1 4294967296 0",
            "P x|1 1 1 0 4294967296",
            "B x|1",
            "E x|0 0 0 0 0 0 0 0 0 1 0 1 0 1",
        ];
        assert_unknown("figures", known, &unknown);
        let unknown = [
            "Y x",
            "Y x|0",
            "J x|1 2 3",
            "J x|1 2 3 0 0",
            "J x|1 2 3 18446744073709551616",
            "L x|",
            "L x|-1",
            "L x|1 1",
            "L x|18446744073709551616",
        ];
        assert_unknown("figures", known, &unknown);
    }

    /// A 54th of 27 pence goes up; a debit of a penny and a half takes more than that.
    #[test]
    fn a_closed_case_has_its_count() {
        let frames = "0107B2040107F50401004300 0207DF0000 03000100010000001B00000000";
        let worked = "worked: net 2015 1, net 1995 0, lump sum 0, charge 0 pence, 1 rounded up\n";
        let script = format!("F frames|{frames}\nC worked\nF debit|0600000000030000\n");
        let lines = format!("frames 0 0 0\n{worked}debit 11\n");
        assert_eq!(done("running", &script), Ok(lines));
        let script = format!("F frames|{frames} 06000000000300C8\nC refused\n");
        let lines = "frames 0 0 0 0\nrefused: refusal 14, line 0\n";
        assert_eq!(done("running", &script), Ok(lines.to_string()));
    }

    /// 10 and 9 pence a minute: 3 minutes for 30 pence and 1 of the other post.
    #[test]
    fn posts_have_their_supplements() {
        let posts = "3 4 30 0 3 4 0 36";
        let given = "refusal 0, 39 pence; places 18 6";
        let unwritten = " 9".repeat(16);
        let script = format!("P x|2 {posts}\nR y|2 {posts}\n");
        let lines = format!("x: {given}\ny: {given}{unwritten}\ny: {given}\n");
        assert_eq!(done("figures", &script), Ok(lines));
        let script = "B x|2 000300040000001E00000000000300040000000000000024\n";
        assert_eq!(done("figures", script), Ok(format!("x: {given}\n")));
    }

    /// A penny, then a penny and a half of one; after a refused change the year as it was.
    #[test]
    fn a_year_is_changed_line_by_line() {
        let script = "J first|2 3 1 0\nJ second|2 3 1 0\nL none|3\nP other|1 5 5 5 0\nL one|1\n\
            J past it|18446744073709551615 3 1 0\nY empty|\nL left|18446744073709551615\n";
        let lines = "first: refusal 0, 1 pence, exact; parts 4\n\
            second: refusal 0, 2 pence, up; parts 8 4\n\
            none: refusal 29, 2 pence, up; parts 8 4\n\
            other: refusal 0, 5 pence; places 25\n\
            one: refusal 0, 1 pence, exact; parts 4\n\
            past it: refusal 7, 1 pence, exact; parts 4\n\
            empty: refusal 0, 0 pence, exact; parts\n\
            left: refusal 29, 0 pence, exact; parts\n";
        assert_eq!(done("figures", script), Ok(lines.to_string()));
        // A third of a penny is cut off.
        let script = "J one|3 4 1 0\nJ other|3 4 1 0\n";
        let lines = "one: refusal 0, 1 pence, exact; parts 9\n\
            other: refusal 0, 1 pence, down; parts 18 6\n";
        assert_eq!(done("figures", script), Ok(lines.to_string()));
    }

    #[test]
    fn a_last_line_without_an_end_is_an_error() {
        assert!(done("running", "C closed\n").is_ok());
        assert!(done("running", "C closed").is_err());
        assert!(done("walking", "").is_err());
    }
}
