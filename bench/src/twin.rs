//! The twin: a text of document 01, with the landed requests of document 02, worked for speed: the
//! library's answers, none of its proofs.
//!
//! Each byte is read once, nothing is allocated, a post is put into its year's ranking as it comes,
//! and a year is worked when the next one begins or the text ends. Any bytes whatever give an
//! outcome.

mod benefits;
mod calendar;
mod case;
mod posts;
mod reading;

pub use case::case;
pub use posts::posts;

use std::cmp::Ordering;

/// The largest pay or pot in pence.
const LARGEST_PAY: u64 = 1_000_000_000;

/// The most days of service.
const MOST_DAYS: u64 = 16_425;

/// Which way a rounding went.
#[derive(Clone, Copy, Debug, Default, PartialEq, Eq)]
enum Way {
    #[default]
    Exact,
    Down,
    Up,
}

impl Way {
    /// The way from a number to the one taken for it.
    #[inline(always)]
    fn of<Number: Ord>(number: Number, taken: Number) -> Way {
        match taken.cmp(&number) {
            Ordering::Less => Way::Down,
            Ordering::Equal => Way::Exact,
            Ordering::Greater => Way::Up,
        }
    }
}

/// A rounded number and its way.
#[derive(Clone, Copy, Debug, Default, PartialEq, Eq)]
struct Rounded {
    number: u64,
    way: Way,
}

impl Rounded {
    /// A number that nothing was done to.
    fn exact(number: u64) -> Rounded {
        Rounded {
            number,
            way: Way::Exact,
        }
    }

    /// 1 for a rounding upward, else 0.
    #[inline(always)]
    fn ups(self) -> u64 {
        u64::from(self.way == Way::Up)
    }
}

/// A number divided and rounded, a half upward, with the way it went.
#[inline(always)]
fn rounded(number: u64, divisor: u64) -> Rounded {
    let nearest = (number + divisor / 2) / divisor;
    Rounded {
        number: nearest,
        way: Way::of(number, nearest * divisor),
    }
}

/// The same where the number may pass 64 bits and what comes of it does not.
#[inline(always)]
fn rounded_wide(number: u128, divisor: u64) -> Rounded {
    let divisor = u128::from(divisor);
    let nearest = (number + divisor / 2) / divisor;
    Rounded {
        number: nearest as u64,
        way: Way::of(number, nearest * divisor),
    }
}

/// `Err` with the refusal where the test fails.
#[inline(always)]
fn unless(passes: bool, refusal: u64) -> Result<(), u64> {
    if passes {
        Ok(())
    } else {
        Err(refusal)
    }
}

#[cfg(test)]
mod tests {
    use super::{case, rounded, rounded_wide, Rounded, Way};
    use second::Outcome;

    const PRINTED: &[u8] = b"0107B2040107F50401004300\n0207DF0000\n\
                             0305DC08CA0027AC4000000000\n03038408CA00124F8000000000\n";

    #[test]
    fn the_printed_case_gives_its_pence() {
        let outcome = case(PRINTED);
        assert_eq!((outcome.refusal, outcome.net_2015), (0, 66_667));
        assert_eq!(outcome.rounded_up, 1);
    }

    #[test]
    fn a_rounding_is_exact_or_down_or_up_and_a_half_is_up() {
        let figures = [
            (0, 54, 0, Way::Exact),
            (26, 54, 0, Way::Down),
            (27, 54, 1, Way::Up),
            (53, 54, 1, Way::Up),
            (54, 54, 1, Way::Exact),
            (80, 54, 1, Way::Down),
            (1, 3, 0, Way::Down),
            (2, 3, 1, Way::Up),
            (5, 1, 5, Way::Exact),
        ];
        for (dividend, divisor, number, way) in figures {
            assert_eq!(rounded(dividend, divisor), Rounded { number, way });
            let wide = rounded_wide(dividend.into(), divisor);
            assert_eq!(wide, Rounded { number, way });
        }
    }

    #[test]
    fn a_number_past_64_bits_is_rounded_to_the_penny() {
        let divisor = 16_384_000_000_003;
        let multiple = 2_000_000_000 * u128::from(divisor);
        let half = u128::from(divisor / 2);
        let figures = [
            (multiple, 2_000_000_000, Way::Exact),
            (multiple + half, 2_000_000_000, Way::Down),
            (multiple + half + 1, 2_000_000_001, Way::Up),
        ];
        for (dividend, number, way) in figures {
            assert_eq!(rounded_wide(dividend, divisor), Rounded { number, way });
        }
    }

    #[test]
    fn a_beginning_of_a_text_is_refused_at_its_last_line() {
        assert_eq!((case(b"").refusal, case(b"").line), (4, 0));
        for length in 1..25 {
            let outcome = case(&PRINTED[..length]);
            assert_eq!((outcome.refusal, outcome.line), (2, 1));
        }
        let unended = case(&PRINTED[..PRINTED.len() - 1]);
        assert_eq!((unended.refusal, unended.line), (2, 4));
    }

    #[test]
    fn a_line_feed_too_early_cuts_the_line_there() {
        let outcome = case(b"0107B2040107F50401004300\n0207\n7DF000\n");
        assert_eq!((outcome.refusal, outcome.line), (3, 2));
        let outcome = case(b"0107B2040107F50401004300\n02078\nDF00\n");
        assert_eq!((outcome.refusal, outcome.line), (2, 2));
    }

    /// A member of the 2008 Section who retires at 67, and 7,300 days of which the best three years
    /// average £41,000.
    const MEMBER_2008: &str = "0107B2040107F50401024341\n";
    const TEN_PAYS: &str = "08002DC6C0002F4D600030D400003D0900003E8FA000401640\
                            003B82600039FBC0003875200036EE801C84\n";

    fn assert_given(lines: &[&str], outcome: Outcome) {
        assert_eq!(case(lines.concat().as_bytes()), outcome, "{lines:?}");
    }

    /// Worked, with a 2008 pension and no other amount.
    fn assert_pension_2008(lines: &[&str], net_1995: u64, rounded_up: u64) {
        let outcome = Outcome {
            net_1995,
            rounded_up,
            ..Outcome::default()
        };
        assert_given(lines, outcome);
    }

    fn assert_refused(lines: &[&str], refusal: u64, line: u64) {
        let outcome = Outcome {
            refusal,
            line,
            ..Outcome::default()
        };
        assert_given(lines, outcome);
    }

    /// The line of an 08.
    fn ten_pays(pays: [u64; 10], days: u64) -> String {
        let pays: String = pays.iter().map(|pay| format!("{pay:08X}")).collect();
        format!("08{pays}{days:04X}\n")
    }

    #[test]
    fn the_2008_pension_is_of_the_best_three_consecutive_years() {
        assert_pension_2008(&[MEMBER_2008, TEN_PAYS], 1_366_667, 1);
        for years in 0..8 {
            let mut pays = [1_000_000; 10];
            pays[years..years + 3].copy_from_slice(&[4_000_000, 4_300_000, 4_000_000]);
            let frame = ten_pays(pays, 7_300);
            assert_pension_2008(&[MEMBER_2008, &frame], 1_366_667, 1);
        }
        let equal = ten_pays([3_000_000; 10], 7_300);
        assert_pension_2008(&[MEMBER_2008, &equal], 1_000_000, 0);
        // The average of 2 pence in three years is 1, and 0.75 of a penny is 1.
        let small = ten_pays([1, 1, 0, 0, 0, 0, 0, 0, 0, 0], 16_425);
        assert_pension_2008(&[MEMBER_2008, &small], 1, 2);
        let largest = ten_pays([1_000_000_000; 10], 16_425);
        assert_pension_2008(&[MEMBER_2008, &largest], 750_000_000, 0);
    }

    #[test]
    fn of_ten_pays_only_the_best_average_before_rounding_counts() {
        // 10,950 days are a half. The best sums are 2, 3 and 6, the last beside sums of 5, which
        // give 2 as well.
        let two_thirds = ten_pays([0, 0, 0, 0, 0, 0, 0, 1, 1, 0], 10_950);
        assert_pension_2008(&[MEMBER_2008, &two_thirds], 1, 2);
        let one = ten_pays([0, 0, 0, 0, 0, 0, 1, 1, 1, 0], 10_950);
        assert_pension_2008(&[MEMBER_2008, &one], 1, 1);
        let two = ten_pays([0, 0, 0, 0, 0, 1, 2, 2, 2, 1], 10_950);
        assert_pension_2008(&[MEMBER_2008, &two], 1, 0);
    }

    /// Net 2015 pension and upward roundings of lines after a member of the 2015 Scheme, retired on
    /// time, and the year 2015.
    fn net_and_ups(lines: &[&str]) -> (u64, u64) {
        let text = ["0107B2040107F50401004300\n0207DF0000\n", &lines.concat()].concat();
        let outcome = case(text.as_bytes());
        assert_eq!(outcome.refusal, 0, "{text}");
        (outcome.net_2015, outcome.rounded_up)
    }

    /// The line of a post.
    fn post([contracted, whole_time, pay, supplement]: [u64; 4]) -> String {
        format!("03{contracted:04X}{whole_time:04X}{pay:08X}{supplement:08X}\n")
    }

    /// Net 2015 pension and upward roundings of one year's posts.
    fn of_posts<const COUNT: usize>(posts: [[u64; 4]; COUNT]) -> (u64, u64) {
        net_and_ups(&[&posts.map(post).concat()])
    }

    /// The line of a whole-time post without a supplement.
    fn whole_time(pay: u64) -> String {
        post([1, 1, pay, 0])
    }

    #[test]
    fn each_step_of_the_2015_scheme_counts_where_it_goes_up() {
        assert_eq!(net_and_ups(&[&whole_time(26)]), (0, 0));
        assert_eq!(net_and_ups(&[&whole_time(27)]), (1, 1));
        // 5 becomes 5.5, and 5.4995.
        assert_eq!(net_and_ups(&[&whole_time(270), "0207E003E8\n"]), (6, 1));
        assert_eq!(net_and_ups(&[&whole_time(270), "0207E003E7\n"]), (5, 0));
        // Debits of 100/199, 100/200 and 100/201.
        for (factor, given) in [(199, (99, 1)), (200, (99, 1)), (201, (100, 0))] {
            let debit = format!("060000000001{factor:04X}\n");
            assert_eq!(net_and_ups(&[&whole_time(5_400), &debit]), given);
        }
        // Aggregates of 8.4 and 1.5.
        let posts = [[5, 6, 8, 0], [2, 3, 4, 0], [1, 2, 1, 0]];
        assert_eq!(of_posts(posts), (0, 0));
        assert_eq!(of_posts([[2, 3, 1, 0]; 2]), (0, 1));
    }

    #[test]
    fn a_supplement_counts_in_the_pension() {
        // A whole-time post of 13 + 14 pence.
        assert_eq!(of_posts([[1, 1, 13, 14]]), (1, 1));
        assert_eq!(of_posts([[1, 1, 13, 13]]), (0, 0));
        // Aggregates of 107/7, 11/3 and 7/2.
        assert_eq!(of_posts([[7, 10, 10, 0], [7, 10, 9, 2]]), (0, 0));
        assert_eq!(of_posts([[3, 4, 2, 0], [3, 4, 2, 1]]), (0, 1));
        assert_eq!(of_posts([[3, 4, 0, 2], [3, 4, 1, 2]]), (0, 1));
        // Sixteen posts at the limits, all in full.
        let most = [630, 10_080, 1_000_000_000, 1_000_000_000];
        assert_eq!(of_posts([most; 16]), (592_592_593, 1));
    }

    #[test]
    fn a_post_has_26_digits() {
        let member = "0107B2040107F50401004300\n";
        let year = "0207DF0000\n";
        let earlier = "0305DC08CA0027AC40\n";
        assert_refused(&[member, year, earlier], 3, 3);
        assert_refused(&[member, earlier, year], 3, 2);
        let largest = post([1, 2, 0, 1_000_000_000]);
        let past = post([1, 2, 0, 1_000_000_001]);
        assert_refused(&[member, year, &largest, &past], 7, 4);
        assert_refused(&[member, &past], 4, 2);
        let whole_time = post([2, 2, 0, 1]);
        assert_refused(&[member, year, &whole_time, &whole_time], 8, 4);
    }

    #[test]
    fn every_controlled_year_counts_and_no_other() {
        // A pension of 1.5; with year 3 controlled an excess of 1, its pension a half.
        let counts = [1, 3, 2, 3, 2, 4, 3, 4];
        for (controls, rounded_up) in (0..).zip(counts) {
            let lines = [
                "0107B2040107F5040101433C\n",
                "040000000100000003000000010000000101F401F401F4",
                &format!("{controls:02X}39080064\n"),
            ];
            let outcome = Outcome {
                net_1995: 2,
                net_lump_sum: 6,
                charge: 4 * (controls & 1),
                rounded_up,
                ..Outcome::default()
            };
            assert_given(&lines, outcome);
        }
    }

    #[test]
    fn the_2008_section_is_reduced_from_65_and_has_its_debit() {
        let early = "0107B2040107F10401024341\n";
        let factor_2015 = "0500003003840000\n";
        let factor = "0501001803200000\n";
        assert_pension_2008(&[early, TEN_PAYS, factor_2015, factor], 1_093_334, 2);
        assert_refused(&[early, TEN_PAYS, factor_2015], 13, 0);
        let lump_factor = "0501001803200001\n";
        assert_refused(&[early, TEN_PAYS, lump_factor], 10, 3);
        let debit = "0601000F424007E4\n";
        assert_pension_2008(&[MEMBER_2008, TEN_PAYS, debit], 1_317_162, 2);
        assert_refused(&[MEMBER_2008, TEN_PAYS, "06013B9ACA000001\n"], 14, 0);
    }

    #[test]
    fn a_section_has_its_own_pay_frame() {
        let no_section = "0107B2040107F50401004300\n";
        let section_1995 = "0107B2040107F5040101433C\n";
        let final_pay = "04002DC6C0002F4D600030D400003D0900004100410041071C8407E4\n";
        assert_refused(&["0107B2040107F50401034300\n"], 5, 1);
        assert_refused(&[MEMBER_2008], 12, 0);
        assert_refused(&[MEMBER_2008, final_pay], 4, 2);
        assert_refused(&[section_1995, TEN_PAYS], 4, 2);
        assert_refused(&[no_section, TEN_PAYS], 4, 2);
        assert_refused(&[MEMBER_2008, TEN_PAYS, TEN_PAYS], 4, 3);
        assert_refused(&[MEMBER_2008, TEN_PAYS, "0207DF0000\n"], 4, 3);
        assert_refused(&[MEMBER_2008, "0500003003840000\n", TEN_PAYS], 4, 3);
        let short = [&TEN_PAYS[..84], "\n"].concat();
        assert_refused(&[MEMBER_2008, &short], 3, 2);
        for year in 0..10 {
            let mut pays = [1_000_000_000; 10];
            pays[year] += 1;
            let frame = ten_pays(pays, 16_425);
            assert_refused(&[MEMBER_2008, &frame], 27, 2);
            assert_refused(&[no_section, &frame], 4, 2);
        }
        let days = ten_pays([0; 10], 16_426);
        assert_refused(&[MEMBER_2008, &days], 27, 2);
    }
}
