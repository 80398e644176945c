//! The time of a change of a year of 16 posts, which is one leaving, one joining and one
//! allocation, beside that of working the same posts afresh.
//!
//! First both are compared with the posts call on the posts that remain, after every change that
//! is to be timed and of years with refused ones; any difference ends the program.

use bench::texts::changes::{any_course, courses, Course, REPLACEMENTS, REPLACEMENT_BYTES};
use bench::texts::{Kind, KINDS};
use bench::timing::{in_thousands, round, words_of, Times, ROUNDS};
use second::engine;
use second::posts::{MOST_POSTS, POST_BYTES};
use second::random::Random;
use second::samples::writing::digits;
use std::hint::black_box;
use std::process::exit;

const SEED: u64 = 0x0002_0160_0000_0800;

/// The years with refused changes.
const ANY_COURSES: usize = 20_000;

extern "C" {
    fn timing_afresh(posts: *const u8, length: usize) -> u64;
    fn timing_changes(
        posts: *const u8,
        length: usize,
        replacements: *const u8,
        replacements_length: usize,
    ) -> u64;
}

/// The aggregate of posts that join a year one by one.
fn afresh(posts: &[u8]) -> u64 {
    // SAFETY: the length is that of the slice.
    unsafe { timing_afresh(posts.as_ptr(), posts.len()) }
}

/// The sum of the aggregates after each replacement.
fn changes(course: &Course) -> u64 {
    let Course {
        posts,
        replacements,
    } = course;
    // SAFETY: the lengths are those of the slices.
    unsafe {
        timing_changes(
            posts.as_ptr(),
            posts.len(),
            replacements.as_ptr(),
            replacements.len(),
        )
    }
}

/// The posts that a year has, in bytes.
#[derive(Default)]
struct Remaining(Vec<u8>);

impl Remaining {
    /// Has a post join, if the posts call takes it after the others.
    fn join(&mut self, post: &[u8]) {
        let all = [&self.0[..], post].concat();
        let (refusal, _) = engine::posts(&all, &mut [0; MOST_POSTS + 1]);
        if refusal == 0 {
            self.0 = all;
        }
    }

    /// Has the post at a position leave, if there is one.
    fn leave(&mut self, position: u8) {
        let end = usize::from(position) * POST_BYTES;
        if 0 < end && end <= self.0.len() {
            self.0.drain(end - POST_BYTES..end);
        }
    }

    /// What the posts call gives, which is what working them afresh gives too.
    fn aggregate(&self) -> u64 {
        let (_, number) = engine::posts(&self.0, &mut [0; MOST_POSTS]);
        check("working afresh", &self.0, afresh(&self.0), number);
        number
    }
}

/// Ends the program where the two differ.
fn check(words: &str, posts: &[u8], given: u64, wanted: u64) {
    if given != wanted {
        println!("DIFFERENCE in {words}");
        println!("posts:      {}", String::from_utf8_lossy(&digits(posts)));
        println!("given:      {given}");
        println!("posts call: {wanted}");
        exit(1);
    }
}

/// Compares a year after every change, and gives the posts that remain after each.
fn compare(course: &Course) -> Vec<Vec<u8>> {
    let mut year = Remaining::default();
    for post in course.posts.chunks(POST_BYTES) {
        year.join(post);
    }
    let first = year.aggregate();
    check("joining", &course.posts, afresh(&course.posts), first);
    let mut sum = 0_u64;
    let mut years = Vec::new();
    for replacement in course.replacements.chunks(REPLACEMENT_BYTES) {
        year.leave(replacement[0]);
        year.join(&replacement[1..]);
        sum = sum.wrapping_add(year.aggregate());
        years.push(year.0.clone());
    }
    check("the changes", &course.posts, changes(course), sum);
    years
}

/// Compares years with refused changes.
fn compare_any(random: &mut Random) {
    let mut count = 0;
    for _ in 0..ANY_COURSES {
        count += compare(&any_course(random)).len();
    }
    println!("{count:>8}  changes, some of them refused");
}

/// Compares the years of a kind, no change of which may be refused, and times them.
fn time_kind(random: &mut Random, kind: Kind) {
    let courses = courses(random, kind);
    let years: Vec<Vec<u8>> = courses.iter().flat_map(compare).collect();
    let full = kind.posts * POST_BYTES;
    assert!(years.iter().all(|year| year.len() == full), "refused");
    let mut places = [0; MOST_POSTS];
    let mut call = || round(&years, |year| engine::posts(year, black_box(&mut places)));
    let work = || round(&years, |year| afresh(year));
    let change = || round(&courses, changes) / REPLACEMENTS as f64;
    let (mut called, mut worked, mut changed) = <(Times, Times, Times)>::default();
    call();
    work();
    change();
    for _ in 0..ROUNDS {
        called.add(call());
        worked.add(work());
        changed.add(change());
    }
    print_row(&words_of(kind), years.len(), [&called, &worked, &changed]);
}

fn print_row(words: &str, count: usize, [called, worked, changed]: [&Times; 3]) {
    println!(
        "| {words:<16} | {count:>7} | {:>17} | {:>6} | {:>13} | {:>6} | {:>13} | {:>6} | {:>5.2} | {:>7.2} |",
        in_thousands(called.least()),
        in_thousands(called.median()),
        in_thousands(worked.least()),
        in_thousands(worked.median()),
        in_thousands(changed.least()),
        in_thousands(changed.median()),
        changed.least() / worked.least(),
        changed.median() / worked.median(),
    );
}

fn main() {
    let mut random = Random::new(SEED);
    compare_any(&mut random);
    println!("nanoseconds, least and median of {ROUNDS} rounds; ratios are one change / afresh");
    println!(
        "| {:<16} | Changes | Posts call, least | median | Afresh, least | median | Change, least | median | Least | Medians |",
        "Posts"
    );
    println!("|---|---|---|---|---|---|---|---|---|---|");
    for kind in KINDS.iter().filter(|kind| kind.posts == MOST_POSTS) {
        time_kind(&mut random, *kind);
    }
}
