//! The posts of a year by document 01 alone, as they were worked before a post had a supplement: the
//! rate is p/h, and a post counts its parts × p/(h × H), in full or not. Without a supplement in the
//! list the posts step must give the same.

use crate::cases::{Case, Outcome};
use crate::posts::{in_order, parts_by, rounded_sum, Post, Worth};
use crate::wide::Rounded;

/// The places of the posts by falling p/h; of equals the earlier post first.
pub fn by_pay_a_minute(posts: &[Post]) -> Vec<usize> {
    in_order(posts, |one, other| {
        (other.pay * one.contracted).cmp(&(one.pay * other.contracted))
    })
}

/// The parts of each post, in list order.
pub fn parts_of(posts: &[Post]) -> Vec<u64> {
    parts_by(posts, &by_pay_a_minute(posts))
}

/// The sum of parts × p/(h × H) over all posts, rounded once.
pub fn aggregate_of(posts: &[Post], parts: &[u64]) -> Rounded {
    let worth = |(post, &share): (&Post, &u64)| Worth {
        product: [share, post.pay],
        divisor: post.contracted,
    };
    rounded_sum(posts, posts.iter().zip(parts).map(worth))
}

/// The aggregate of a year.
pub fn aggregate(posts: &[Post]) -> Rounded {
    aggregate_of(posts, &parts_of(posts))
}

/// What a case gives whose frames are accepted.
pub fn closed(case: &Case) -> Outcome {
    let years = case.years.iter();
    let aggregates: Vec<Rounded> = years.map(|year| aggregate(&year.posts)).collect();
    let closed = case.close_with(&aggregates, case.final_year());
    closed.unwrap_or_else(|refusal| Outcome::refused(refusal, 0))
}
