//! Rounds over all inputs of a size in turn, the library and the twin by turns.

use crate::texts::{Contracts, Kind, Size};
use crate::twin;
use second::engine;
use std::hint::black_box;
use std::time::Instant;

/// The rounds that are timed. One before them is not.
pub const ROUNDS: usize = 15;

/// The nanoseconds of one input in each round.
#[derive(Default)]
pub struct Times(Vec<f64>);

impl Times {
    /// Adds those of a round.
    pub fn add(&mut self, time: f64) {
        self.0.push(time);
    }

    pub fn least(&self) -> f64 {
        self.0.iter().copied().fold(f64::INFINITY, f64::min)
    }

    pub fn median(&self) -> f64 {
        let mut times = self.0.clone();
        times.sort_by(f64::total_cmp);
        times[times.len() / 2]
    }
}

/// The nanoseconds of one input in a round over all of them.
pub fn round<Input, Answer>(inputs: &[Input], mut call: impl FnMut(&Input) -> Answer) -> f64 {
    let start = Instant::now();
    for input in inputs {
        black_box(call(black_box(input)));
    }
    start.elapsed().as_nanos() as f64 / inputs.len() as f64
}

/// The times of two calls on the same inputs.
fn rounds<One, Other>(
    inputs: &[Vec<u8>],
    mut one: impl FnMut(&[u8]) -> One,
    mut other: impl FnMut(&[u8]) -> Other,
) -> (Times, Times) {
    let (mut times, mut other_times) = (Times::default(), Times::default());
    round(inputs, |input| one(input));
    round(inputs, |input| other(input));
    for _ in 0..ROUNDS {
        times.add(round(inputs, |input| one(input)));
        other_times.add(round(inputs, |input| other(input)));
    }
    (times, other_times)
}

/// Whole nanoseconds with a comma after the thousands.
pub fn in_thousands(time: f64) -> String {
    match time.round() as u64 {
        time @ 0..=999 => time.to_string(),
        time => format!("{},{:03}", time / 1_000, time % 1_000),
    }
}

/// A row of the table.
fn print_row(words: &str, inputs: &[Vec<u8>], (library, twin): (Times, Times)) {
    println!(
        "| {words:<29} | {:>6} | {:>6} | {:>14} | {:>14} | {:>11} | {:>11} | {:>5.2} | {:>7.2} |",
        inputs.len(),
        inputs[0].len(),
        in_thousands(library.least()),
        in_thousands(library.median()),
        in_thousands(twin.least()),
        in_thousands(twin.median()),
        library.least() / twin.least(),
        library.median() / twin.median(),
    );
}

pub fn print_head() {
    println!(
        "nanoseconds for one input, least and median of {ROUNDS} rounds; ratios are library / twin"
    );
    println!(
        "| {:<29} | Inputs |  Bytes | {:>14} | {:>14} | {:>11} | {:>11} | Least | Medians |",
        "Years × posts", "Library, least", "median", "Twin, least", "median"
    );
    println!("|---|---|---|---|---|---|---|---|---|");
}

/// Times the case call on the texts of a size.
pub fn time_size(size: Size, texts: &[Vec<u8>]) {
    let more = if size.whole { ", whole" } else { "" };
    let words = format!("{} × {}{more}", size.years, size.posts);
    print_row(&words, texts, rounds(texts, engine::case, twin::case));
}

/// Times the case call on one text of a size again and again, which is what the processor learns.
pub fn time_one_text(size: Size, texts: &[Vec<u8>]) {
    let copies = vec![texts[0].clone(); texts.len()];
    let words = format!("{} × {}, one text", size.years, size.posts);
    print_row(&words, &copies, rounds(&copies, engine::case, twin::case));
}

/// The number of posts of a kind, and what they have.
pub fn words_of(kind: Kind) -> String {
    let agree = match kind.contracts {
        Contracts::Any => "",
        Contracts::Equal => ", all h equal",
        Contracts::MostlyEqual => ", most h equal",
        Contracts::Different => ", no h equal",
    };
    let more = if kind.supplements {
        ", supplements"
    } else {
        ""
    };
    format!("{}{agree}{more}", kind.posts)
}

/// Times the posts call on the lists of a kind.
pub fn time_lists(kind: Kind, lists: &[Vec<u8>]) {
    let words = format!("posts call, {}", words_of(kind));
    let (mut places, mut other_places) = ([0; 16], [0; 16]);
    let times = rounds(
        lists,
        |list| engine::posts(list, black_box(&mut places)),
        |list| twin::posts(list, black_box(&mut other_places)),
    );
    print_row(&words, lists, times);
}
