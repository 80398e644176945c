//! Lists of posts with supplements for the comparison, by class, texts of cases with such years,
//! and one list or text for each cause of refusal.

use super::{member, posts};
use second::posts::{Post, MOST_POSTS, POST_BYTES};
use second::random::Random;
use second::samples::writing::{
    lines_of, member_frame, post_frame, post_records, text_of, year_frame,
};
use second::LARGEST_PAY;

/// The longest whole-time week in minutes.
const LONGEST_WEEK: u64 = 10_080;

/// Where the supplement stands in an 03, after what was the whole frame before there were any.
const SUPPLEMENT: usize = 9;

/// Lists of one class.
pub struct Class {
    pub words: &'static str,
    draw: fn(&mut Random) -> Vec<Post>,
}

pub const CLASSES: [Class; 6] = [
    class("without a supplement", any_posts),
    class("with some supplements", with_some),
    class("with supplements throughout", with_all),
    class("with supplements, at the limits", at_limits),
    class("with supplements, of equal rates", of_equal_rates),
    class("with supplements and a whole-time post", with_whole_time),
];

const fn class(words: &'static str, draw: fn(&mut Random) -> Vec<Post>) -> Class {
    Class { words, draw }
}

impl Class {
    /// A list as the posts call takes it.
    pub fn list(&self, random: &mut Random) -> Vec<u8> {
        post_records(&(self.draw)(random))
    }

    /// The text of a case whose years have such posts.
    pub fn text(&self, random: &mut Random) -> Vec<u8> {
        let count = random.between(1, 4);
        let years: Vec<Vec<Post>> = (0..count).map(|_| (self.draw)(random)).collect();
        text(&frames(random, &years))
    }
}

/// The frames of a case of these years, its member retired on time.
fn frames(random: &mut Random, years: &[Vec<Post>]) -> Vec<Vec<u8>> {
    let mut frames = vec![member_frame(&member(random, 0, 67, 12 * 67))];
    for (april, posts) in (2015..).zip(years) {
        frames.push(year_frame(april, random.near_ends(0, 2_000)));
        frames.extend(posts.iter().map(post_frame));
    }
    frames
}

fn text(frames: &[Vec<u8>]) -> Vec<u8> {
    text_of(&lines_of(frames))
}

/// Posts of varied weeks and rates, up to the most of a year.
fn any_posts(random: &mut Random) -> Vec<Post> {
    let count = random.near_ends(1, MOST_POSTS as u64);
    posts(random, count)
}

fn supplement(random: &mut Random) -> u64 {
    let usual = random.between(10_000, 900_000);
    let any = random.of_any_size(LARGEST_PAY).max(1);
    random.pick(&[usual, any, 1, LARGEST_PAY])
}

fn with_all(random: &mut Random) -> Vec<Post> {
    let mut posts = any_posts(random);
    for post in &mut posts {
        post.supplement = supplement(random);
    }
    posts
}

/// One post has a supplement, all but one have, or about one in two.
fn with_some(random: &mut Random) -> Vec<Post> {
    let mut posts = with_all(random);
    let alone = random.place(posts.len());
    let shape = random.below(3);
    for (place, post) in posts.iter_mut().enumerate() {
        let stays = match shape {
            0 => place == alone,
            1 => place != alone,
            _ => random.one_in(2),
        };
        if !stays {
            post.supplement = 0;
        }
    }
    posts
}

/// Fields at their ends or one beside them.
fn at_limits(random: &mut Random) -> Vec<Post> {
    let amounts = [0, 1, LARGEST_PAY - 1, LARGEST_PAY];
    let count = random.pick(&[1, 2, 3, MOST_POSTS]);
    let mut post = || {
        let whole_time = random.pick(&[2, 3, LONGEST_WEEK - 1, LONGEST_WEEK]);
        Post {
            contracted: random.pick(&[1, whole_time - 1]),
            whole_time,
            pay: random.pick(&amounts),
            supplement: random.pick(&amounts),
        }
    };
    (0..count).map(|_| post()).collect()
}

/// Posts of one rate, p/h + s/w, divided otherwise in each; in one list of three some are a penny
/// above it.
fn of_equal_rates(random: &mut Random) -> Vec<Post> {
    let longest = random.pick(&[20, 2_400, LONGEST_WEEK]);
    let rate = random.of_any_size(LARGEST_PAY / longest);
    let beside = random.one_in(3);
    let count = random.between(2, MOST_POSTS as u64);
    let mut post = || {
        let whole_time = random.between(2, longest);
        let contracted = random.between(1, whole_time - 1);
        let of_pay = random.near_ends(0, rate);
        let more = if beside { random.below(2) } else { 0 };
        Post {
            contracted,
            whole_time,
            pay: of_pay * contracted + more,
            supplement: (rate - of_pay) * whole_time,
        }
    };
    (0..count).map(|_| post()).collect()
}

fn with_whole_time(random: &mut Random) -> Vec<Post> {
    let mut posts = with_some(random);
    let post = random.place(posts.len());
    posts[post].contracted = posts[post].whole_time;
    posts
}

/// Two whole-time posts, and one that is not and has a supplement past its limit.
fn two_whole_time(random: &mut Random) -> [Post; 3] {
    let mut post = || Post {
        supplement: supplement(random),
        ..posts(random, 1)[0]
    };
    let [one, other, past] = [post(), post(), post()];
    let in_whole_time = |post: Post| Post {
        contracted: post.whole_time,
        ..post
    };
    let past = Post {
        supplement: past_limit(random),
        ..past
    };
    [in_whole_time(one), in_whole_time(other), past]
}

/// A supplement past its limit.
fn past_limit(random: &mut Random) -> u64 {
    random.near_ends(LARGEST_PAY + 1, 0xFFFF_FFFF)
}

/// One list for each cause of refusal, as the posts call takes it, with the number of the refusal.
pub fn refused_lists(random: &mut Random) -> Vec<(u64, Vec<u8>)> {
    let mut bad = with_some(random);
    let place = random.place(bad.len());
    bad[place].supplement = past_limit(random);
    let [one, other, past] = two_whole_time(random);
    let past_too = Post {
        supplement: past.supplement,
        ..other
    };
    let many = bad.repeat(MOST_POSTS + 1);
    let mut lists = vec![
        (7, post_records(&bad)),
        (7, vec![0; POST_BYTES]),
        (7, post_records(&[one, past_too])),
        (7, post_records(&[one, past, other])),
        (8, post_records(&[one, other])),
        (8, post_records(&[one, other, past])),
        (21, post_records(&many[..MOST_POSTS + 1])),
    ];
    for more in 1..POST_BYTES {
        lists.push((23, [&lists[0].1[..], &vec![0; more]].concat()));
        lists.push((23, vec![0; more]));
    }
    lists
}

/// One text for each cause of refusal, with the number of the refusal.
pub fn refused_texts(random: &mut Random) -> Vec<(u64, Vec<u8>)> {
    let years = [with_some(random), with_some(random)];
    let accepted = frames(random, &years);
    let (post, others) = accepted.split_last().expect("a post");
    let with_last = |post: Vec<u8>| text(&[others, &[post]].concat());
    let supplement = past_limit(random) as u32;
    let past = [&post[..SUPPLEMENT], &supplement.to_be_bytes()].concat();
    let [one, other, _] = two_whole_time(random);
    let mut texts = vec![
        (4, text(&[accepted[0].clone(), past.clone()])),
        (7, with_last(past)),
        (8, text(&frames(random, &[vec![one, other]]))),
    ];
    for length in 1..=2 * POST_BYTES {
        if length != post.len() {
            let mut other = post.clone();
            other.resize(length, 0);
            texts.push((3, with_last(other)));
        }
    }
    texts
}

#[cfg(test)]
mod tests {
    use super::*;
    use crate::twin;

    fn refusal(list: &[u8]) -> u64 {
        twin::posts(list, &mut [0; MOST_POSTS + 2]).0
    }

    #[test]
    fn lists_and_texts_of_each_class_are_accepted() {
        let mut random = Random::new(2007);
        for class in &CLASSES {
            for _ in 0..1_000 {
                let list = class.list(&mut random);
                assert_eq!(refusal(&list), 0, "{}: {list:?}", class.words);
                let text = class.text(&mut random);
                let given = twin::case(&text).refusal;
                assert_eq!(given, 0, "{}", String::from_utf8_lossy(&text));
            }
        }
    }

    #[test]
    fn each_cause_is_refused_by_its_number() {
        let mut random = Random::new(2007);
        for _ in 0..100 {
            for (number, list) in refused_lists(&mut random) {
                assert_eq!(refusal(&list), number, "{list:?}");
            }
            for (number, text) in refused_texts(&mut random) {
                let given = twin::case(&text).refusal;
                assert_eq!(given, number, "{}", String::from_utf8_lossy(&text));
            }
        }
    }
}
