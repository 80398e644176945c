//! The posts of a year, ranked as they come.

use super::{rounded, rounded_wide, unless, Rounded, LARGEST_PAY};

/// The most posts of a year.
const MOST_POSTS: usize = 16;

/// The bytes of a post in a list.
const POST_BYTES: usize = 12;

/// Contracted and whole-time minutes, yearly pay and yearly supplement in pence.
pub struct Post {
    pub contracted: u64,
    pub whole_time: u64,
    pub pay: u64,
    pub supplement: u64,
}

/// A post in the ranking, with its place in the list.
#[derive(Clone, Copy, Default)]
struct Ranked {
    /// The rate is over/under pence a minute: (p × w + s × h)/(h × w), which is p/h without a
    /// supplement and is then kept so.
    over: u64,
    under: u32,
    /// What it counts in full: p + s.
    in_full: u32,
    contracted: u16,
    place: u16,
    has_supplement: bool,
}

impl Ranked {
    /// A post that is not refused.
    #[inline(always)]
    fn new(post: &Post, place: usize) -> Ranked {
        let (over, under) = if post.supplement == 0 {
            (post.pay, post.contracted)
        } else {
            (
                post.pay * post.whole_time + post.supplement * post.contracted,
                post.contracted * post.whole_time,
            )
        };
        Ranked {
            over,
            under: under as u32,
            in_full: (post.pay + post.supplement) as u32,
            contracted: post.contracted as u16,
            place: place as u16,
            has_supplement: post.supplement != 0,
        }
    }

    fn under(&self) -> u64 {
        u64::from(self.under)
    }

    fn in_full(&self) -> u64 {
        u64::from(self.in_full)
    }

    fn contracted(&self) -> u64 {
        u64::from(self.contracted)
    }

    /// Whether this rate is above the other: a/b against c/d by a × d against c × b. The products
    /// stay within 64 bits where one of the two has no supplement.
    #[inline(always)]
    fn is_above(&self, other: &Ranked) -> bool {
        self.over * other.under() > other.over * self.under()
    }

    /// The same for any two posts, by products of up to 71 bits.
    #[inline(always)]
    fn is_above_wide(&self, other: &Ranked) -> bool {
        let product = |over: u64, under: u64| u128::from(over) * u128::from(under);
        product(self.over, other.under()) > product(other.over, self.under())
    }

    /// What so many parts count, `minutes` parts to a minute: minutes times rate, by a product of
    /// up to 75 bits where there is a supplement.
    #[inline(always)]
    fn curtailed(&self, parts: u64, minutes: u64) -> Rounded {
        let under = self.under() * minutes;
        if self.has_supplement {
            rounded_wide(u128::from(parts) * u128::from(self.over), under)
        } else {
            rounded(parts * self.over, under)
        }
    }
}

/// The posts of a year by falling rate, of equal rates the earlier first.
pub struct YearPosts {
    ranking: [Ranked; MOST_POSTS],
    count: usize,
    /// H: the contracted minutes together, which is also the number of parts to a minute.
    minutes: u64,
    /// K: the parts that all posts together may have.
    parts: u64,
    whole_time: Option<Ranked>,
}

impl YearPosts {
    pub fn new() -> YearPosts {
        YearPosts {
            ranking: [Ranked::default(); MOST_POSTS],
            count: 0,
            minutes: 0,
            parts: 0,
            whole_time: None,
        }
    }

    /// Begins another year. What the ranking holds past the count is not looked at.
    pub fn clear(&mut self) {
        self.count = 0;
        self.minutes = 0;
        self.parts = 0;
        self.whole_time = None;
    }

    /// Takes one more post, or refuses it by 7 or 8.
    #[inline(always)]
    pub fn join(&mut self, post: &Post) -> Result<(), u64> {
        unless(post.contracted != 0, 7)?;
        unless(post.contracted <= post.whole_time, 7)?;
        unless(post.whole_time <= 10_080, 7)?;
        unless(post.pay <= LARGEST_PAY, 7)?;
        unless(post.supplement <= LARGEST_PAY, 7)?;
        unless(self.count < MOST_POSTS, 7)?;
        let ranked = Ranked::new(post, self.count);
        if post.contracted == post.whole_time {
            unless(self.whole_time.is_none(), 8)?;
            self.whole_time = Some(ranked);
        }
        self.minutes += post.contracted;
        self.parts += post.contracted * post.whole_time;
        if ranked.has_supplement {
            self.rank(ranked, Ranked::is_above_wide);
        } else {
            self.rank(ranked, Ranked::is_above);
        }
        Ok(())
    }

    /// Puts a post before all of a lower rate. There is room for it.
    #[inline(always)]
    fn rank(&mut self, post: Ranked, is_above: impl Fn(&Ranked, &Ranked) -> bool) {
        let mut place = self.count;
        while place > 0 && is_above(&post, &self.ranking[place - 1]) {
            self.ranking[place] = self.ranking[place - 1];
            place -= 1;
        }
        self.ranking[place] = post;
        self.count += 1;
    }

    /// The aggregate. `give` is told the parts of each post that has any, by its place in the list.
    ///
    /// A post in full adds its pay and supplement, so that only the one post that is cut has a
    /// fraction to round, and the way of that fraction is the way of the sum.
    #[inline(always)]
    fn divide(&self, mut give: impl FnMut(usize, u64)) -> Rounded {
        if let Some(post) = self.whole_time {
            give(usize::from(post.place), post.contracted() * self.minutes);
            return Rounded::exact(post.in_full());
        }
        let mut left = self.parts;
        let mut aggregate = 0;
        for post in &self.ranking[..self.count] {
            let full = post.contracted() * self.minutes;
            if full > left {
                give(usize::from(post.place), left);
                let mut sum = post.curtailed(left, self.minutes);
                sum.number += aggregate;
                return sum;
            }
            give(usize::from(post.place), full);
            aggregate += post.in_full();
            left -= full;
        }
        Rounded::exact(aggregate)
    }

    pub fn aggregate(&self) -> Rounded {
        self.divide(|_, _| ())
    }
}

/// The number of at most eight bytes.
#[inline(always)]
fn number_of(bytes: &[u8]) -> u64 {
    let with_next = |number: u64, &byte: &u8| number << 8 | u64::from(byte);
    bytes.iter().fold(0, with_next)
}

/// The posts of twelve bytes each, or their refusal.
fn listed(bytes: &[u8], places: usize) -> Result<YearPosts, u64> {
    unless(bytes.len() % POST_BYTES == 0, 23)?;
    unless(bytes.len() / POST_BYTES <= MOST_POSTS, 21)?;
    unless(bytes.len() / POST_BYTES <= places, 22)?;
    let mut posts = YearPosts::new();
    for record in bytes.chunks_exact(POST_BYTES) {
        let word = number_of(&record[..8]);
        posts.join(&Post {
            contracted: word >> 48,
            whole_time: word >> 32 & 0xFFFF,
            pay: word & 0xFFFF_FFFF,
            supplement: number_of(&record[8..]),
        })?;
    }
    Ok(posts)
}

/// The posts call: refusal and aggregate; the parts are written to the places in list order.
#[inline(never)]
pub fn posts(bytes: &[u8], places: &mut [u64]) -> (u64, u64) {
    match listed(bytes, places.len()) {
        Ok(posts) => {
            let places = &mut places[..posts.count];
            places.fill(0);
            let aggregate = posts.divide(|place, parts| places[place] = parts);
            (0, aggregate.number)
        }
        Err(refusal) => (refusal, 0),
    }
}

#[cfg(test)]
mod tests {
    use super::posts;
    use second::posts::Post;
    use second::samples::writing::post_records;

    /// Contracted and whole-time minutes, pay and supplement.
    type Fields = [u64; 4];

    fn bytes_of(list: &[Fields]) -> Vec<u8> {
        let post = |&[contracted, whole_time, pay, supplement]: &Fields| Post {
            contracted,
            whole_time,
            pay,
            supplement,
        };
        let list: Vec<Post> = list.iter().map(post).collect();
        post_records(&list)
    }

    /// The list is accepted, with this aggregate and these parts; a place more stays.
    fn assert_given<const COUNT: usize>(
        list: [Fields; COUNT],
        aggregate: u64,
        parts: [u64; COUNT],
    ) {
        let mut places = vec![7; COUNT + 1];
        let given = posts(&bytes_of(&list), &mut places);
        assert_eq!(given, (0, aggregate), "{list:?}");
        assert_eq!(places, [&parts[..], &[7]].concat(), "{list:?}");
    }

    fn assert_refused(bytes: &[u8], refusal: u64) {
        let mut places = [7; 20];
        assert_eq!(posts(bytes, &mut places), (refusal, 0));
        assert_eq!(places, [7; 20]);
    }

    #[test]
    fn without_supplements_parts_go_by_pay_for_a_contracted_minute() {
        assert_given([], 0, []);
        // Twice 20 hours at £10,000 of 37.5 hours.
        let twenty_hours = [1_200, 2_250, 1_000_000, 0];
        let parts = [2_880_000, 2_520_000];
        assert_given([twenty_hours; 2], 1_875_000, parts);
        let better = [1_200, 2_250, 1_200_000, 0];
        let parts = [2_520_000, 2_880_000];
        assert_given([twenty_hours, better], 2_075_000, parts);
    }

    #[test]
    fn parts_go_to_the_highest_rate_first() {
        // Both at 10 pence a minute, then the second at 10.1.
        assert_given([[6, 10, 60, 0], [6, 10, 54, 10]], 100, [72, 48]);
        assert_given([[6, 10, 54, 10], [6, 10, 60, 0]], 104, [72, 48]);
        assert_given([[6, 10, 60, 0], [6, 10, 54, 11]], 105, [48, 72]);
        // Higher by the supplement alone, and lower with a higher supplement.
        assert_given([[6, 10, 60, 0], [6, 10, 60, 1]], 101, [48, 72]);
        assert_given([[6, 10, 60, 1], [6, 10, 0, 60]], 85, [72, 48]);
    }

    #[test]
    fn in_full_a_post_counts_pay_and_supplement_else_minutes_times_rate() {
        assert_given([[3, 4, 30, 0], [3, 4, 0, 36]], 39, [18, 6]);
        // One part short of its six: 5/3 minutes at 10 pence.
        assert_given([[1, 2, 100, 0], [2, 3, 0, 30]], 117, [3, 5]);
        // 25 hours of 37.5 and 16 hours of 40; then the first alone.
        let first = [1_500, 2_250, 2_600_000, 200_000];
        let second = [960, 2_400, 3_200_000, 400_000];
        let parts = [3_317_400, 2_361_600];
        assert_given([first, second], 6_057_333, parts);
        assert_given([first], 2_800_000, [1_500 * 1_500]);
    }

    #[test]
    fn a_whole_time_post_counts_alone() {
        let whole_time = [2_250, 2_250, 2_000_000, 50_000];
        let other = [300, 2_250, 900_000, 700_000];
        assert_given([whole_time, other], 2_050_000, [5_737_500, 0]);
        assert_given([other, whole_time], 2_050_000, [0, 5_737_500]);
    }

    #[test]
    fn the_sum_is_rounded_once() {
        // 107/7 and 7/3.
        assert_given([[7, 10, 10, 0], [7, 10, 9, 2]], 15, [42, 98]);
        assert_given([[3, 4, 1, 0], [3, 4, 1, 1]], 2, [6, 18]);
    }

    #[test]
    fn products_pass_64_bits() {
        let most = 1_000_000_000;
        let long = |pay| [10_079, 10_080, pay, most];
        let parts = [203_172_482, 20_158];
        assert_given([long(most), long(most - 1)], 2_000_198_423, parts);
        // Of these the higher product has the lower 64 bits below the other's.
        assert_given([long(most), long(900_000_000)], 2_000_188_501, parts);
        let parts = [20_158, 203_172_482];
        assert_given([long(900_000_000), long(most)], 2_000_188_501, parts);
        // Products of 71 bits, the first higher by 1.
        let higher = [10_079, 10_080, 999_998_148, 915_106_033];
        let lower = [10_067, 10_069, 999_991_861, 912_922_865];
        assert_given([higher, lower], 1_914_159_018, [202_960_943, 0]);
        assert_given([lower, higher], 1_914_159_018, [0, 202_960_943]);
        let raised = [10_067, 10_069, 999_991_861, 912_922_866];
        let parts = [151_161, 202_809_782];
        assert_given([higher, raised], 1_914_340_352, parts);
        let full = [630, 10_080, most, most];
        assert_given([full; 16], 32_000_000_000, [630 * 10_080; 16]);
    }

    #[test]
    fn a_post_has_twelve_bytes_and_a_limit_of_its_supplement() {
        let bytes = bytes_of(&[[1_200, 2_250, 1_000_000, 5]; 17]);
        for length in 1..=bytes.len() {
            match (length % 12, length) {
                (0, 193..) => assert_refused(&bytes[..length], 21),
                (0, _) => assert_eq!(posts(&bytes[..length], &mut [0; 16]).0, 0),
                _ => assert_refused(&bytes[..length], 23),
            }
        }
        assert_refused(&[0; 12], 7);
        assert_given([[1, 1, 0, 1_000_000_000]], 1_000_000_000, [1]);
        assert_refused(&bytes_of(&[[1, 1, 0, 1_000_000_001]]), 7);
        assert_refused(&bytes_of(&[[1, 1, 0, 0xFFFF_FFFF]]), 7);
    }
}
