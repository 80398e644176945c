//! Figures for each sentence of request 2.8, posts that start and stop. Posts are given as h, w, p, s.

use second::changes::{join, leave};
use second::posts::{aggregate, parts_of, Post, MOST_POSTS};
use second::random::Random;
use second::records;
use second::samples::accepted::post_list;
use second::wide::Way;

type Numbers = [u64; 4];

const MOST: u64 = 1_000_000_000;

/// £10,000 and £12,000 for 20 hours of 37.5; two whole-time posts.
const LOWER: Numbers = [1_200, 2_250, 1_000_000, 0];
const HIGHER: Numbers = [1_200, 2_250, 1_200_000, 0];
const WHOLE_TIME: Numbers = [2_250, 2_250, 2_000_000, 0];
const OTHER_WHOLE_TIME: Numbers = [1_800, 1_800, 1, 0];

/// A year with what it shows.
#[derive(Clone, Default)]
struct Year(Vec<Post>);

impl Year {
    /// A year that posts have joined.
    fn of(numbers: &[Numbers]) -> Year {
        let mut year = Year::default();
        for &post in numbers {
            assert_eq!(year.joins(post), 0);
        }
        year
    }

    /// The refusal of a change. A refused one alters nothing.
    fn tried(&mut self, change: impl Fn(&mut Vec<Post>) -> Result<(), u64>) -> u64 {
        let before = self.0.clone();
        let refusal = change(&mut self.0).err().unwrap_or(0);
        assert_eq!(self.0 == before, refusal != 0);
        refusal
    }

    fn joins(&mut self, post: Numbers) -> u64 {
        self.tried(|year| join(year, Post::of(&post)))
    }

    fn leaves(&mut self, position: u64) -> u64 {
        self.tried(|year| leave(year, position))
    }

    /// The aggregate and the parts, which the call on the same posts must give too.
    fn shown(&self) -> (u64, Vec<u64>) {
        let given = (aggregate(&self.0).number, parts_of(&self.0));
        let mut places = vec![7; self.0.len()];
        assert_eq!(records(&self.0, &mut places), (0, given.0));
        assert_eq!(places, given.1);
        given
    }

    fn way(&self) -> Way {
        aggregate(&self.0).way
    }

    fn is(&self, numbers: &[Numbers]) -> bool {
        let list: Vec<Post> = numbers.iter().map(Post::of).collect();
        self.0 == list
    }
}

#[test]
fn an_empty_year() {
    let year = Year::default();
    assert_eq!((year.shown(), year.way()), ((0, vec![]), Way::Exact));
}

/// From an empty year and back, with each refusal on the way.
#[test]
fn joinings_and_leavings() {
    let mut year = Year::default();
    assert_eq!(year.joins(LOWER), 0);
    assert_eq!(year.shown(), (1_000_000, vec![1_440_000]));
    assert_eq!(year.joins(HIGHER), 0);
    let two = (2_075_000, vec![2_520_000, 2_880_000]);
    assert_eq!(year.shown(), two);
    assert_eq!((year.leaves(3), year.leaves(0)), (29, 29));
    assert_eq!(year.shown(), two);
    assert_eq!(year.leaves(1), 0);
    let one = (1_200_000, vec![1_440_000]);
    assert_eq!(year.shown(), one);
    assert_eq!(year.joins(WHOLE_TIME), 0);
    let whole_time = (2_000_000, vec![0, 7_762_500]);
    assert_eq!(year.shown(), whole_time);
    assert_eq!(year.joins([2_250, 2_250, 1, 0]), 8);
    assert_eq!(year.shown(), whole_time);
    assert_eq!(year.leaves(2), 0);
    assert_eq!(year.shown(), one);
    assert_eq!(year.joins([2_251, 2_250, 1, 0]), 7);
    assert_eq!(year.shown(), one);
    assert_eq!(year.joins(LOWER), 0);
    assert_eq!(year.shown(), (2_075_000, vec![2_880_000, 2_520_000]));
    assert_eq!(year.leaves(1), 0);
    assert_eq!(year.shown(), (1_000_000, vec![1_440_000]));
    assert_eq!(year.leaves(1), 0);
    assert_eq!(year.shown(), (0, vec![]));
    assert_eq!(year.leaves(1), 29);
    assert_eq!(year.shown(), (0, vec![]));
}

#[test]
fn a_post_joins_at_the_end_and_later_ones_move_up() {
    let third = [300, 2_250, 1, 1];
    let mut year = Year::of(&[LOWER, HIGHER, third]);
    assert!(year.is(&[LOWER, HIGHER, third]));
    assert_eq!(year.leaves(2), 0);
    assert!(year.is(&[LOWER, third]));
    assert_eq!(year.joins(HIGHER), 0);
    assert!(year.is(&[LOWER, third, HIGHER]));
    assert_eq!(year.leaves(3), 0);
    assert!(year.is(&[LOWER, third]));
    assert_eq!(year.leaves(1), 0);
    assert!(year.is(&[third]));
}

/// Sixteen posts of 10 minutes in a week of 145, their pays 10, 20, .. 160 pence in the order given.
fn sixteen() -> Vec<Numbers> {
    let pays = [
        70, 160, 20, 110, 50, 140, 90, 10, 130, 30, 150, 60, 120, 40, 100, 80,
    ];
    pays.map(|pay| [10, 145, pay, 0]).to_vec()
}

/// Nothing is paid of the lowest and half of the lowest but one: 1,360 − 10 − 10.
#[test]
fn a_seventeenth_post() {
    let mut year = Year::of(&sixteen());
    assert_eq!(year.shown().0, 1_340);
    assert_eq!(year.joins([1, 2, 3, 0]), 7);
    assert_eq!(year.shown().0, 1_340);
    assert_eq!(year.leaves(17), 29);
    // The last, of 80 pence, makes room for a second one of 10, of which nothing is paid.
    assert_eq!(year.leaves(16), 0);
    assert_eq!(year.joins([10, 145, 10, 0]), 0);
    assert_eq!(year.shown().0, 1_290 - 10 - 10 / 2);
    assert_eq!(year.joins([1, 2, 3, 0]), 7);
}

/// Fifteen posts have 150 minutes, 5 more than the week: half of the lowest is cut off.
#[test]
fn each_position_of_sixteen() {
    let all = sixteen();
    for place in 0..MOST_POSTS {
        let mut year = Year::of(&all);
        assert_eq!(year.leaves(place as u64 + 1), 0);
        let remaining = [&all[..place], &all[place + 1..]].concat();
        assert!(year.is(&remaining));
        let left = all[place][2];
        let lowest = if left == 10 { 20 } else { 10 };
        let parts = |post: &Numbers| if post[2] == lowest { 5 * 150 } else { 10 * 150 };
        let parts = remaining.iter().map(parts).collect();
        assert_eq!(year.shown(), (1_360 - left - lowest / 2, parts));
    }
}

/// 10 pence a minute each, 8 minutes of which count: 6, 3 and 6 in the order of the list.
#[test]
fn the_order_of_equals_is_the_lists() {
    let (one, other, third) = ([6, 8, 60, 0], [3, 8, 30, 0], [6, 8, 60, 0]);
    let mut year = Year::of(&[one, other, third]);
    assert_eq!(year.shown(), (80, vec![6 * 15, 2 * 15, 0]));
    assert_eq!(year.leaves(1), 0);
    assert_eq!(year.shown(), (80, vec![3 * 9, 5 * 9]));
    // It joins again behind its equals.
    assert_eq!(year.joins(one), 0);
    assert_eq!(year.shown(), (80, vec![3 * 15, 5 * 15, 0]));
    assert_eq!(year.leaves(1), 0);
    assert_eq!(year.joins(other), 0);
    assert_eq!(year.shown(), (80, vec![6 * 15, 2 * 15, 0]));
}

/// 60/6 and 54/6 + 10/10 pence a minute: 6 minutes in full and 4 of the later post, 60 + 40 or 64 + 40.
#[test]
fn equal_rates_by_a_supplement() {
    let (plain, supplemented) = ([6, 10, 60, 0], [6, 10, 54, 10]);
    let mut year = Year::of(&[plain, supplemented]);
    assert_eq!(year.shown(), (100, vec![72, 48]));
    assert_eq!(year.leaves(1), 0);
    assert_eq!(year.shown(), (64, vec![36]));
    assert_eq!(year.joins(plain), 0);
    assert_eq!(year.shown(), (104, vec![72, 48]));
    // A penny of supplement more goes first: 65 + 40.
    assert_eq!(year.leaves(1), 0);
    assert_eq!(year.joins([6, 10, 54, 11]), 0);
    assert_eq!(year.shown(), (105, vec![48, 72]));
}

#[test]
fn a_whole_time_post_in_and_out() {
    let mut year = Year::of(&[WHOLE_TIME, LOWER]);
    assert_eq!(year.shown(), (2_000_000, vec![2_250 * 3_450, 0]));
    assert_eq!(year.joins(OTHER_WHOLE_TIME), 8);
    // A third has nothing either, and there are more parts to a minute.
    assert_eq!(year.joins(HIGHER), 0);
    assert_eq!(year.shown(), (2_000_000, vec![2_250 * 4_650, 0, 0]));
    assert_eq!(year.joins(OTHER_WHOLE_TIME), 8);
    assert_eq!(year.leaves(1), 0);
    assert_eq!(year.shown(), (2_075_000, vec![2_520_000, 2_880_000]));
    assert_eq!(year.joins(OTHER_WHOLE_TIME), 0);
    assert_eq!(year.shown(), (1, vec![0, 0, 1_800 * 4_200]));
    assert_eq!(year.joins(WHOLE_TIME), 8);
}

/// 2,400 minutes of 3,600 parts pass the 7,560,000 that there are.
#[test]
fn a_whole_time_post_passes_the_weighted_week() {
    let mut year = Year::of(&[[1_200, 1_500, 900, 0], [2_400, 2_400, 100, 0]]);
    assert_eq!(year.shown(), (100, vec![0, 8_640_000]));
    assert_eq!(year.leaves(2), 0);
    assert_eq!(year.shown(), (900, vec![1_440_000]));
}

#[test]
fn seven_before_eight() {
    let mut year = Year::of(&[WHOLE_TIME]);
    assert_eq!(year.joins([1_800, 1_800, MOST, MOST]), 8);
    assert_eq!(year.joins([1_800, 1_800, MOST + 1, 0]), 7);
    assert_eq!(year.joins([1_800, 1_800, 0, MOST + 1]), 7);
    assert_eq!(year.joins([10_081, 10_081, 0, 0]), 7);
    assert_eq!(year.joins([0, 0, 0, 0]), 7);
    for _ in 1..MOST_POSTS {
        assert_eq!(year.joins(LOWER), 0);
    }
    assert_eq!(year.joins(OTHER_WHOLE_TIME), 7);
    assert_eq!(year.leaves(16), 0);
    assert_eq!(year.joins(OTHER_WHOLE_TIME), 8);
}

#[test]
fn the_limits_of_a_joining() {
    let mut year = Year::of(&[LOWER]);
    for post in [
        [0, 2_250, 1, 0],
        [2_251, 2_250, 1, 0],
        [600, 10_081, 1, 0],
        [600, 2_250, MOST + 1, 0],
        [600, 2_250, 1, MOST + 1],
        [u64::MAX; 4],
        [u64::MAX, 2_250, 1, 0],
        [600, u64::MAX, 1, 0],
        [600, 2_250, u64::MAX, 0],
        [600, 2_250, 1, u64::MAX],
    ] {
        assert_eq!(year.joins(post), 7, "{post:?}");
    }
    assert_eq!(year.joins([1, 10_080, MOST, MOST]), 0);
    assert_eq!(year.joins([10_080, 10_080, MOST, MOST]), 0);
    assert_eq!(year.shown().0, 2 * MOST);
}

#[test]
fn a_position_that_holds_no_post() {
    let past = [u64::MAX, 1 << 32, (1 << 32) + 1, 1 << 63];
    let mut year = Year::default();
    for position in (0..=17).chain(past) {
        assert_eq!(year.leaves(position), 29, "{position}");
    }
    for count in 1..=MOST_POSTS as u64 {
        assert_eq!(year.joins(LOWER), 0);
        for position in [0, count + 1].into_iter().chain(past) {
            assert_eq!(year.leaves(position), 29, "{position} of {count}");
        }
    }
    assert_eq!(year.leaves(16), 0);
    assert_eq!(year.leaves(16), 29);
}

/// A penny and a half, a penny and a third, and a penny.
#[test]
fn the_way_of_the_one_rounding() {
    let mut year = Year::of(&[[2, 3, 1, 0], [2, 3, 1, 0]]);
    assert_eq!((year.shown().0, year.way()), (2, Way::Up));
    assert_eq!(year.leaves(1), 0);
    assert_eq!((year.shown().0, year.way()), (1, Way::Exact));
    let mut year = Year::of(&[[3, 4, 1, 0], [3, 4, 1, 0]]);
    assert_eq!((year.shown().0, year.way()), (1, Way::Down));
    assert_eq!(year.joins([0, 4, 1, 0]), 7);
    assert_eq!((year.shown().0, year.way()), (1, Way::Down));
}

/// Makes a change and gives its refusal. Beside the year stands every post that was offered to it, with
/// whether it remains: position 1 is the first that does.
fn changed(year: &mut Year, offered: &mut Vec<(Post, bool)>, random: &mut Random) -> u64 {
    if random.one_in(3) {
        let position = random.below(18);
        let mut remaining = (1..).zip(offered.iter_mut().filter(|(_, remains)| *remains));
        if let Some((_, found)) = remaining.find(|(at, _)| *at == position) {
            found.1 = false;
        }
        return year.leaves(position);
    }
    let post = post_list(random).first().copied();
    let post = post.unwrap_or(Post::of(&[0; 4]));
    let refusal = year.tried(|year| join(year, post));
    offered.push((post, refusal == 0));
    refusal
}

#[test]
fn any_changes() {
    let mut random = Random::new(0x0208);
    let (mut made, mut refused) = (0, 0);
    for _ in 0..500 {
        let mut year = Year::default();
        let mut offered = Vec::new();
        for _ in 0..60 {
            match changed(&mut year, &mut offered, &mut random) {
                0 => made += 1,
                _ => refused += 1,
            }
            let remaining = offered.iter().filter(|(_, remains)| *remains);
            assert!(remaining.map(|(post, _)| post).eq(&year.0));
            year.shown();
        }
    }
    assert!(made > 10_000 && refused > 10_000, "{made} and {refused}");
}
