//! The script of `figures`, a call for each line:
//! `P` and `R LABEL|PLACES H W P S H W P S`, posts in bytes and as records; `B LABEL|PLACES BYTES`, bytes;
//! `D LABEL|` birth, retirement, pension age; `C LABEL|` the ten numbers of an 04; `A LABEL|` pension,
//! earned pension, previous pay, new pay; `E LABEL|` the ten numbers of an 04, old pay and days, new
//! pay and days, price increase.
//! Three commands change a year, which is empty at the start: `Y LABEL|` begins an empty one,
//! `J LABEL|H W P S` has a post join it, `L LABEL|POSITION` has one leave it.

use crate::words::{bytes, command, numbers};
use second::changes::{join, leave};
use second::posts::{aggregate_of, parts_of, Post, MOST_POSTS};
use second::samples::writing::post_records;
use second::wide::Way;
use second::{abatement, change_of_employer, charge, months_early, posts, records};

/// The places that there are, of which a command lends the first, and what stands in each.
const PLACES: usize = 18;
const UNWRITTEN: u64 = 9;

/// The posts that the lines so far have left in the year.
#[derive(Default)]
pub struct Figures {
    year: Vec<Post>,
}

impl Figures {
    /// Does a line and gives what it writes.
    pub fn line(&mut self, line: &str) -> Option<String> {
        let (letter, label, words) = command(line)?;
        let given = match letter {
            "P" => posts_given(&words)?,
            "R" => return records_lines(label, &words),
            "B" => bytes_given(&words)?,
            "D" => dates_given(&words)?,
            "C" => charge_given(&words)?,
            "A" => abatement_given(&words)?,
            "E" => change_given(&words)?,
            "Y" if words == [""] => self.begun(),
            "J" => self.joined(&words)?,
            "L" => self.left(&words)?,
            _ => return None,
        };
        Some(format!("{label}: {given}\n"))
    }

    fn begun(&mut self) -> String {
        self.year.clear();
        self.after(Ok(()))
    }

    fn joined(&mut self, words: &[&str]) -> Option<String> {
        let post = Post::of(&numbers(words)?.try_into().ok()?);
        let change = join(&mut self.year, post);
        Some(self.after(change))
    }

    fn left(&mut self, words: &[&str]) -> Option<String> {
        let [position] = numbers(words)?.try_into().ok()?;
        let change = leave(&mut self.year, position);
        Some(self.after(change))
    }

    /// The refusal of a change, and the year after it.
    fn after(&self, change: Result<(), u64>) -> String {
        let parts = parts_of(&self.year);
        let aggregate = aggregate_of(&self.year, &parts);
        let given = pence((change.err().unwrap_or(0), aggregate.number));
        let way = match aggregate.way {
            Way::Exact => "exact",
            Way::Down => "down",
            Way::Up => "up",
        };
        format!("{given}, {way}; parts{}", in_a_row(&parts))
    }
}

fn pence((refusal, amount): (u64, u64)) -> String {
    format!("refusal {refusal}, {amount} pence")
}

/// Numbers, each after a blank.
fn in_a_row(list: &[u64]) -> String {
    list.iter().map(|number| format!(" {number}")).collect()
}

/// A refusal, an aggregate and the numbers in places.
fn with_places(given: (u64, u64), places: &[u64]) -> String {
    format!("{}; places{}", pence(given), in_a_row(places))
}

/// Some of the places, all unwritten.
fn lent(count: u64) -> Option<Vec<u64>> {
    let count = usize::try_from(count).ok()?;
    (count <= PLACES).then(|| vec![UNWRITTEN; count])
}

/// The places lent and the posts of four numbers each, at most one too many, whose numbers fit the
/// widths of their bytes.
fn places_and_posts(words: &[&str]) -> Option<(Vec<u64>, Vec<Post>)> {
    let numbers = numbers(words)?;
    let (&count, rest) = numbers.split_first()?;
    let posts = rest.chunks(4);
    if posts.len() > MOST_POSTS + 1 {
        return None;
    }
    let posts = posts.map(|of| Some(Post::of(of.try_into().ok()?)));
    let list: Vec<Post> = posts.collect::<Option<_>>()?;
    let minutes = |post: &Post| post.contracted.max(post.whole_time);
    let amounts = |post: &Post| post.pay.max(post.supplement);
    let fits = |post: &Post| minutes(post) <= u16::MAX.into() && amounts(post) <= u32::MAX.into();
    let places = lent(count)?;
    list.iter().all(fits).then_some((places, list))
}

/// The posts call on posts.
fn posts_given(words: &[&str]) -> Option<String> {
    let (mut places, list) = places_and_posts(words)?;
    let given = posts(&post_records(&list), &mut places);
    Some(with_places(given, &places))
}

/// The call on posts as records with every place, those not lent too; then the posts call on them.
fn records_lines(label: &str, words: &[&str]) -> Option<String> {
    let (places, list) = places_and_posts(words)?;
    let mut all = [UNWRITTEN; PLACES];
    let given = records(&list, &mut all[..places.len()]);
    let in_bytes = posts_given(words)?;
    let as_records = with_places(given, &all);
    Some(format!("{label}: {as_records}\n{label}: {in_bytes}\n"))
}

/// The posts call on bytes.
fn bytes_given(words: &[&str]) -> Option<String> {
    let &[count, digits] = words else {
        return None;
    };
    let mut places = lent(*numbers(&[count])?.first()?)?;
    let given = posts(&bytes(digits)?, &mut places);
    Some(with_places(given, &places))
}

fn dates_given(words: &[&str]) -> Option<String> {
    let (refusal, months) = months_early(&numbers(words)?.try_into().ok()?);
    Some(format!("refusal {refusal}, {months} months"))
}

fn charge_given(words: &[&str]) -> Option<String> {
    Some(pence(charge(&numbers(words)?.try_into().ok()?)))
}

fn abatement_given(words: &[&str]) -> Option<String> {
    Some(pence(abatement(&numbers(words)?.try_into().ok()?)))
}

fn change_given(words: &[&str]) -> Option<String> {
    let (refusal, (old, new)) = change_of_employer(&numbers(words)?.try_into().ok()?);
    Some(format!("refusal {refusal}, {old} and {new} pence"))
}
