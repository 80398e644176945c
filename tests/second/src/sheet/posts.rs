//! The posts of a year on a sheet: what each says, and what the second program's own division of the
//! hours makes of it.

use super::figures::Figure;
use super::tables::{left, right, Column};
use crate::fractions::Mixed;
use crate::posts::{minutes_together, parts_of, Post};
use crate::wide::Rounded;

/// A column of the table of posts behind that of their names.
pub struct PostColumn {
    pub heading: [&'static str; 3],
    pub column: Column,
    /// Its name for a spreadsheet.
    pub item: &'static str,
    /// Whether it is worked, and not said by the case.
    pub worked: bool,
}

const fn given(heading: [&'static str; 3], column: Column, item: &'static str) -> PostColumn {
    PostColumn {
        heading,
        column,
        item,
        worked: false,
    }
}

const fn worked(heading: [&'static str; 3], column: Column, item: &'static str) -> PostColumn {
    PostColumn {
        heading,
        column,
        item,
        worked: true,
    }
}

/// The columns behind the name.
pub const POST_COLUMNS: [PostColumn; 11] = [
    given(["", "", "contract"], right(8), "contract"),
    given(["", "whole", "time"], right(6), "whole time"),
    worked(["", "", "proportion"], right(10), "proportion"),
    given(["", "", "pay"], right(11), "pay"),
    given(["", "", "supplement"], right(10), "supplement"),
    worked(
        ["comparable", "whole-time", "pay"],
        right(14),
        "comparable whole-time pay",
    ),
    worked(
        ["rate: a year,", "for an hour", "a week"],
        right(13),
        "rate",
    ),
    worked(["", "hours", "counted *"], right(11), "hours counted"),
    worked(["", "hours", "left out"], right(11), "hours left out"),
    worked(["", "pay", "counted"], right(11), "pay counted"),
    worked(["", "", "counts"], left(7), "counts"),
];

/// The figures of a post, in the order of the columns. It has so many parts of the year's minutes
/// together, which are also the number of parts to a minute.
fn figures(post: &Post, parts: u64, minutes: u64) -> [Figure; 11] {
    let (h, w) = (post.contracted, post.whole_time);
    let (above, below) = post.rate();
    let whole = h * minutes;
    [
        Figure::time(h),
        Figure::time(w),
        Figure::Proportion(Mixed::of(h, w)),
        Figure::money(post.pay),
        Figure::money(post.supplement),
        Figure::Money(Mixed::of(post.pay * w, h)),
        Figure::Rate(Mixed::of(60 * above, below)),
        Figure::Time(Mixed::of(parts, minutes)),
        Figure::Time(Mixed::of(whole - parts, minutes)),
        Figure::money(pay_counted(post, parts, minutes)),
        Figure::Word(match parts {
            0 => "none",
            _ if parts == whole => "in full",
            _ => "cut",
        }),
    ]
}

/// What a post counts, in whole pence. At most one post of a year is cut, so that its minutes times its
/// rate, rounded by itself, are the aggregate less what the others count.
fn pay_counted(post: &Post, parts: u64, minutes: u64) -> u64 {
    if parts == post.contracted * minutes {
        return post.pay_in_full();
    }
    let (above, below) = post.rate();
    let number = u128::from(parts) * u128::from(above);
    Rounded::of(number, u128::from(minutes) * u128::from(below)).number
}

/// The figures of all posts of a year.
pub fn all_figures(posts: &[Post]) -> Vec<[Figure; 11]> {
    let minutes = minutes_together(posts);
    let shares = posts.iter().zip(parts_of(posts));
    shares
        .map(|(post, parts)| figures(post, parts, minutes))
        .collect()
}

#[cfg(test)]
mod tests {
    use super::*;
    use crate::posts::aggregate;
    use crate::random::Random;
    use crate::samples::accepted::post_list;

    /// What the posts count is the aggregate, and what counts and what is left out are the contract.
    #[test]
    fn the_columns_add_up() {
        let mut random = Random::new(0x0022);
        for _ in 0..5_000 {
            let posts = post_list(&mut random);
            let minutes = minutes_together(&posts);
            let parts = parts_of(&posts);
            let counted = posts.iter().zip(&parts);
            let counted: u64 = counted
                .map(|(post, &parts)| pay_counted(post, parts, minutes))
                .sum();
            assert_eq!(counted, aggregate(&posts).number);
            for (post, figures) in posts.iter().zip(all_figures(&posts)) {
                let [.., Figure::Time(counted), Figure::Time(left), _, _] = figures else {
                    panic!("hours counted and left out");
                };
                let together = counted.whole + left.whole + u64::from(counted.number != 0);
                assert_eq!(together, post.contracted);
            }
        }
    }
}
