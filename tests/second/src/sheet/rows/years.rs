//! The rows of a year: its weighted week, its pensionable pay and what it does to the pension.

use super::{amount, plain, rounded, Row, POSTS, YEARS};
use crate::cases::Year;
use crate::fractions::Mixed;
use crate::posts::{minutes_together, parts_together, Post};
use crate::sheet::figures::{decimal, money, time, Figure};
use crate::sheet::Worked;

/// How many terms of a weighted week stand in a line.
const TERMS_IN_A_LINE: usize = 3;

/// How the weighted week comes about, three terms to a line.
fn weighting(posts: &[Post]) -> Vec<String> {
    let term = |post: &Post| format!("{} × {}", time(post.contracted), time(post.whole_time));
    let lines = posts.chunks(TERMS_IN_A_LINE);
    let mut lines: Vec<String> = lines
        .map(|posts| posts.iter().map(term).collect::<Vec<_>>().join(" + "))
        .collect();
    let last = lines.len() - 1;
    for line in &mut lines[..last] {
        line.push_str(" +");
    }
    lines[0].insert(0, '(');
    lines[last].push_str(&format!(")/{}", time(minutes_together(posts))));
    lines
}

/// The weighted week of posts, or that there is none.
fn week_row(posts: &[Post]) -> Row {
    if posts.iter().any(Post::is_whole_time) {
        let how = "a whole-time post counts by itself: no other hours count";
        return plain(POSTS, "weighted week", Figure::Word("none"), how);
    }
    let week = Mixed::of(parts_together(posts), minutes_together(posts));
    Row {
        how: weighting(posts),
        ..plain(POSTS, "weighted week", Figure::Time(week), "")
    }
}

impl Worked<'_> {
    pub fn year_rows(&self, place: usize) -> Vec<Row> {
        let year = &self.case.years[place];
        let mut rows = Vec::new();
        if !year.posts.is_empty() {
            rows.push(week_row(&year.posts));
        }
        rows.extend(self.pension_rows(place, year));
        rows
    }

    /// Those of a year from its pensionable pay on.
    fn pension_rows(&self, place: usize, year: &Year) -> [Row; 5] {
        let given = &self.steps.year[place];
        let (before, from) = match place {
            0 => (0, "nothing before the first year".to_string()),
            _ => {
                let from = self.case.years[place - 1].april;
                let pension = self.steps.year[place - 1].pension;
                (pension, format!("carried forward from {from}"))
            }
        };
        let of_posts = match year.posts.is_empty() {
            true => "no posts",
            false => "the pay counted of all posts",
        };
        let rise = decimal(10_000 + year.revaluation, 4);
        let (revalued, accrued) = (given.revalued, given.accrued);
        let pay = money(given.aggregate.number);
        let sum = format!("{} + {}", money(revalued.number), money(accrued.number));
        let raised = format!("{} × {rise}", money(before));
        [
            rounded(POSTS, "pensionable pay", given.aggregate, of_posts),
            amount(YEARS, "pension brought forward", before, from),
            rounded(YEARS, "revalued", revalued, raised),
            rounded(
                YEARS,
                "a 54th of pensionable pay",
                accrued,
                format!("{pay}/54"),
            ),
            amount(YEARS, "pension carried forward", given.pension, sum),
        ]
    }
}
