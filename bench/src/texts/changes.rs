//! Years of posts that change: a post leaves by its position and another joins, again and again.

use super::{minutes, posts, posts_of, Contracts, Kind};
use second::posts::{Post, MOST_POSTS, POST_BYTES};
use second::random::Random;
use second::samples::writing::post_records;

/// The bytes of a replacement: the position that leaves, counted from 1, and the post that joins.
pub const REPLACEMENT_BYTES: usize = 1 + POST_BYTES;

/// The replacements of a year that is timed, so many that the joining of its first posts is lost
/// among them.
pub const REPLACEMENTS: usize = 1_000;

/// The years of a kind. All their posts together are more than a processor learns.
const YEARS: usize = 128;

/// The posts of a year in bytes, and the replacements that come after they have joined.
pub struct Course {
    pub posts: Vec<u8>,
    pub replacements: Vec<u8>,
}

/// Years whose posts are always those of the kind, and as many.
pub fn courses(random: &mut Random, kind: Kind) -> Vec<Course> {
    (0..YEARS).map(|_| course(random, kind)).collect()
}

fn course(random: &mut Random, kind: Kind) -> Course {
    let mut year = posts_of(random, kind);
    let posts = post_records(&year);
    let mut replacements = Vec::new();
    for _ in 0..REPLACEMENTS {
        let place = random.place(year.len());
        let left = year.remove(place);
        year.push(post_for(random, kind, left, &year));
        replacements.push(place as u8 + 1);
        replacements.extend(post_records(&year[year.len() - 1..]));
    }
    Course {
        posts,
        replacements,
    }
}

/// A post in the place of one that left the others.
fn post_for(random: &mut Random, kind: Kind, left: Post, others: &[Post]) -> Post {
    let mut post = posts_of(random, Kind { posts: 1, ..kind })[0];
    match kind.contracts {
        Contracts::Any => {}
        Contracts::Equal | Contracts::MostlyEqual => post.contracted = left.contracted,
        Contracts::Different => {
            while others.iter().any(|x| x.contracted == post.contracted) {
                post.contracted = minutes(random, 1)[0];
            }
        }
    }
    post
}

/// A year some of whose posts, leavings and joinings are refused.
pub fn any_course(random: &mut Random) -> Course {
    let count = random.near_ends(0, MOST_POSTS as u64 + 2);
    let posts = (0..count).flat_map(|_| any_post(random)).collect();
    let count = random.near_ends(0, 40);
    let mut replacements: Vec<u8> = Vec::new();
    for _ in 0..count {
        let there = random.between(1, MOST_POSTS as u64) as u8;
        replacements.push(random.pick(&[there, there, 1, 0, 16, 17, 255]));
        replacements.extend(any_post(random));
    }
    Course {
        posts,
        replacements,
    }
}

/// A post in bytes: any bytes, whole-time, or as usual, with or without a supplement.
fn any_post(random: &mut Random) -> Vec<u8> {
    let mut post = posts(random, 1)[0];
    match random.below(6) {
        0 => return (0..POST_BYTES).map(|_| random.word() as u8).collect(),
        1 => post.contracted = post.whole_time,
        2 => post.supplement = random.between(1, 900_000),
        _ => {}
    }
    post_records(&[post])
}
