//! Holds the sheet program against the second program on cases drawn from a fixed seed, and the
//! exercises against the second program's own print. Any difference ends the run; so does a class with
//! too few cases.
//!
//! ```text
//! sheets PATH-OF-THE-SHEET-PROGRAM
//! sheets --exercises FOLDER
//! sheets --sheet CASE-IN-WORDS    (--blank, --csv: its own print of a case)
//! ```

mod accepted;
mod exercises;
mod refused;
mod running;
mod unreadable;

use accepted::{hold_case, CASES};
use exercises::{case_of, hold_exercises};
use refused::{hold_refused, hold_refused_text, hold_unsayable, REFUSED, REFUSED_TEXTS, UNSAYABLE};
use running::Program;
use second::sheet::{blank, csv, sheet};
use second::tally::Tally;
use second::words::Named;
use std::env;
use std::path::Path;
use std::process::exit;
use std::thread;
use unreadable::{hold_unreadable, UNREADABLE};

const SEED: u64 = 0x0022_1995_2008_2015;

/// What is held of the case of a number.
type Held = fn(&Program, &mut Tally, u64, u64);

/// All that is held, and on how many cases.
const ALL: [(Held, u64); 5] = [
    (hold_case, CASES),
    (hold_refused, REFUSED),
    (hold_refused_text, REFUSED_TEXTS),
    (hold_unsayable, UNSAYABLE),
    (hold_unreadable, UNREADABLE),
];

fn threads() -> u64 {
    thread::available_parallelism().map_or(1, |count| count.get() as u64)
}

/// The share of one of the threads.
fn hold_share(path: &str, share: u64) -> Tally {
    let name = format!("canyonsieve-sheet-{}-{share}", std::process::id());
    let program = Program {
        path,
        file: env::temp_dir().join(name),
    };
    let mut tally = Tally::default();
    for (held, count) in ALL {
        for number in (share..count).step_by(threads() as usize) {
            held(&program, &mut tally, number, SEED);
        }
    }
    tally
}

fn hold_program(path: &str) {
    let mut tally = Tally::default();
    accepted::expect(&mut tally);
    refused::expect(&mut tally);
    unreadable::expect(&mut tally);
    thread::scope(|scope| {
        let share = |share| scope.spawn(move || hold_share(path, share));
        let shares: Vec<_> = (0..threads()).map(share).collect();
        for share in shares {
            tally.join(share.join().expect("a share that ends"));
        }
    });
    if !tally.reached() {
        println!("some class has too few cases");
        exit(1);
    }
    println!("no difference");
}

fn main() {
    let arguments: Vec<String> = env::args().skip(1).collect();
    let arguments: Vec<&str> = arguments.iter().map(String::as_str).collect();
    let own = |print: fn(&Named) -> String, path: &str| {
        print!("{}", print(&case_of(Path::new(path))));
    };
    match arguments[..] {
        ["--exercises", folder] => hold_exercises(Path::new(folder)),
        ["--sheet", path] => own(sheet, path),
        ["--blank", path] => own(blank, path),
        ["--csv", path] => own(csv, path),
        [program] if !program.starts_with('-') => hold_program(program),
        _ => {
            println!("sheets PROGRAM, or --exercises FOLDER, or --sheet, --blank or --csv CASE");
            exit(1);
        }
    }
}
