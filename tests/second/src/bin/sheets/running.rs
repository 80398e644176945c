//! The sheet program run once.

use std::fs;
use std::io::{ErrorKind, Write};
use std::path::{Path, PathBuf};
use std::process::{exit, Command, Stdio};

/// How a run of the program ended.
#[derive(Debug, PartialEq, Eq)]
pub struct Ended {
    /// Nothing where a signal ended it.
    pub status: Option<i32>,
    pub output: Vec<u8>,
    pub errors: String,
}

impl Ended {
    /// A run that printed this and told nothing.
    pub fn printed(output: impl Into<Vec<u8>>) -> Ended {
        Ended {
            status: Some(0),
            output: output.into(),
            errors: String::new(),
        }
    }
}

/// The program, and a file for what it reads.
pub struct Program<'path> {
    pub path: &'path str,
    pub file: PathBuf,
}

impl Program<'_> {
    /// Given its input by standard input.
    pub fn run(&self, arguments: &[&str], input: &[u8]) -> Ended {
        let mut command = Command::new(self.path);
        command.args(arguments).stdin(Stdio::piped());
        let command = command.stdout(Stdio::piped()).stderr(Stdio::piped());
        let mut child = command.spawn().expect("a program that starts");
        let mut pipe = child.stdin.take().expect("a pipe");
        match pipe.write_all(input) {
            // A program that ends before it has read all shows that by what it tells.
            Err(error) if error.kind() == ErrorKind::BrokenPipe => {}
            written => written.expect("an input written"),
        }
        drop(pipe);
        let given = child.wait_with_output().expect("a program that ends");
        Ended {
            status: given.status.code(),
            output: given.stdout,
            errors: String::from_utf8_lossy(&given.stderr).into(),
        }
    }

    /// Given its input by the name of a file.
    pub fn run_on_file(&self, arguments: &[&str], input: &[u8]) -> Ended {
        fs::write(&self.file, input).expect("a file written");
        let name = self.file.to_str().expect("a name");
        let ended = self.run(&[arguments, &[name]].concat(), b"");
        fs::remove_file(&self.file).expect("a file removed");
        ended
    }
}

/// The first line in which two outputs differ, of each of them.
fn first_difference(given: &[u8], expected: &[u8]) -> String {
    let lines = |bytes: &[u8]| -> Vec<String> {
        let text = String::from_utf8_lossy(bytes).into_owned();
        text.split('\n').map(|line| format!("{line:?}")).collect()
    };
    let (given, expected) = (lines(given), lines(expected));
    let same = given.iter().zip(&expected).take_while(|(a, b)| a == b);
    let place = same.count();
    let of = |lines: &[String]| lines.get(place).cloned().unwrap_or_default();
    format!(
        "line {}\nprogram: {}\nsecond:  {}",
        place + 1,
        of(&given),
        of(&expected)
    )
}

/// Says how a run differs from what it must be, keeps its input in a file, and ends.
pub fn differ(what: &str, input: &[u8], told: &str) -> ! {
    let folder = std::env::temp_dir();
    let file = folder.join("canyonsieve-sheet-difference");
    let kept = fs::write(&file, input).map_or(Path::new("nowhere"), |()| &file);
    println!("DIFFERENCE in {what}\ninput in {}\n{told}", kept.display());
    exit(1);
}

/// Ends where a run is not what it must be.
pub fn hold(what: &str, input: &[u8], given: &Ended, expected: &Ended) {
    if given == expected {
        return;
    }
    let difference = first_difference(&given.output, &expected.output);
    let statuses = [given.status, expected.status];
    let errors = &given.errors;
    let told = format!("status {statuses:?}, errors {errors:?}, {difference}");
    differ(what, input, &told);
}
