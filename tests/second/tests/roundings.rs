//! Figures for each sentence of request 2.6, which way a penny went. Each step that rounds stands alone
//! once: the others of its case are exact.

mod lines;

use lines::line;
use second::cases::{read, Case, MOST_YEARS};
use second::frames::frame;
use second::roundings::{most_roundings, rounded_up, Step};
use second::wide::Way;
use second::{case, Outcome};

/// Out at 67 without a section, in the 1995 Section and in the 2008.
const LATE: &str = "0107B2040107F50401004300";
const LATE_1995: &str = "0107B2040107F5040101433C";
const LATE_2008: &str = "0107B2040107F50401024341";

/// One month before 67, without a section.
const MONTH_EARLY: &str = "0107B2040107F50301004300";

/// Out at 55: 144 months before 67, 60 before 60 and 120 before 65.
const EARLY: &str = "0107B2040107E90401004300";
const EARLY_1995: &str = "0107B2040107E9040101433C";
const EARLY_2008: &str = "0107B2040107E90401024341";

fn year(april: u64, revaluation: u64) -> String {
    format!("02{april:04X}{revaluation:04X}")
}

fn post(contracted: u64, whole_time: u64, pay: u64) -> String {
    format!("03{contracted:04X}{whole_time:04X}{pay:08X}00000000")
}

fn whole_time(pay: u64) -> String {
    post(1, 1, pay)
}

fn final_pay(
    pays: [u64; 4],
    allowances: [u64; 3],
    controls: u64,
    days: u64,
    factor: u64,
) -> String {
    let pays: String = pays.iter().map(|pay| format!("{pay:08X}")).collect();
    let allowances = allowances.map(|part| format!("{part:04X}")).concat();
    format!("04{pays}{allowances}{controls:02X}{days:04X}{factor:04X}")
}

fn ten_pays(pays: [u64; 10], days: u64) -> String {
    let pays: String = pays.iter().map(|pay| format!("{pay:08X}")).collect();
    format!("08{pays}{days:04X}")
}

fn factor(scheme: u64, months: u64, pension: u64, lump_sum: u64) -> String {
    format!("05{scheme:02X}{months:04X}{pension:04X}{lump_sum:04X}")
}

fn debit(scheme: u64, pot: u64, factor: u64) -> String {
    format!("06{scheme:02X}{pot:08X}{factor:04X}")
}

fn text(lines: &[impl AsRef<str>]) -> String {
    let ended = |line: &_| format!("{}\n", AsRef::<str>::as_ref(line));
    lines.iter().map(ended).collect()
}

/// The four amounts and the count, read off a printed line of 70 digits.
fn worked(member: &str, frames: &[String]) -> ([u64; 4], u64) {
    let frames = frames.iter().map(String::as_str);
    let lines: Vec<&str> = [member].into_iter().chain(frames).collect();
    let given = line(&lines);
    assert!(given.len() == 70 && given.starts_with("80"), "{given}");
    let number = |from: usize, to: usize| u64::from_str_radix(&given[from..to], 16);
    let amounts = [2, 18, 34, 50].map(|at| number(at, at + 16).expect("an amount"));
    (amounts, number(66, 70).expect("a count"))
}

/// A 2015 pension alone, and the count.
fn pension_2015(member: &str, frames: &[String]) -> (u64, u64) {
    let ([pension, others @ ..], count) = worked(member, frames);
    assert_eq!(others, [0; 3]);
    (pension, count)
}

#[test]
fn the_line_gains_two_bytes() {
    let (year, first, second) = (
        "0207DF0000",
        "0305DC08CA0027AC4000000000",
        "03038408CA00124F8000000000",
    );
    // £36,000, an exact aggregate, is 54 times 66,666.67.
    assert_eq!(
        line(&[LATE, year, first, second]),
        "80000000000001046B0000000000000000000000000000000000000000000000000001"
    );
    // Pays 1, 3, 1, 1, allowances 500, 14,600 days, factor 1: allowed years 3, 2, 1 are 3/2, then 3, of
    // the lower, which is allowed year 3, and 3/2; the pension is 3/2, the excess pension 1/2. Where year
    // 3 alone is controlled, the other two round nothing.
    let member = "0107A8050A07EB050A01433C";
    assert_eq!(
        line(&[
            member,
            "040000000100000003000000010000000101F401F401F40739080064"
        ]),
        "8000000000000000000000000000000002000000000000000600000000000000040004"
    );
    assert_eq!(
        line(&[
            member,
            "040000000100000003000000010000000101F401F401F40139080064"
        ]),
        "8000000000000000000000000000000002000000000000000600000000000000040003"
    );
}

#[test]
fn none_for_a_refused_case() {
    let going_up = [LATE, "0207DF0000", "03000100010000001B00000000"];
    assert_eq!(case(text(&going_up).as_bytes()).rounded_up, 1);
    let refused = |member, after: &str, refusal, line| {
        let mut lines = going_up.to_vec();
        lines[0] = member;
        lines.push(after);
        let expected = Outcome {
            refusal,
            line,
            ..Outcome::default()
        };
        assert_eq!(case(text(&lines).as_bytes()), expected);
    };
    refused(LATE, "0600000000020064", 14, 0);
    refused(LATE, "06000000006400", 3, 4);
    refused(LATE, "0601000000010064", 11, 4);
    refused(LATE, "01", 3, 4);
    refused(MONTH_EARLY, "0500000203E80000", 13, 0);
    refused(LATE_1995, "0207E00000", 12, 0);
    assert_eq!(line(&[LATE, "0600000000010064"]), "EE0E0000");
}

/// The second of two posts of 3 minutes in weeks of 4 has a third of its parts, that of two posts of 2
/// in weeks of 3 a half.
#[test]
fn an_aggregate() {
    let of = |posts: &[String]| pension_2015(LATE, &[&[year(2015, 0)], posts].concat());
    let thirds = |pays: [u64; 2]| of(&pays.map(|pay| post(3, 4, pay)));
    assert_eq!(thirds([53, 2]), (1, 1));
    assert_eq!(thirds([54, 1]), (1, 0));
    assert_eq!(thirds([53, 3]), (1, 0));
    let halves = |pays: [u64; 2]| of(&pays.map(|pay| post(2, 3, pay)));
    assert_eq!(halves([53, 1]), (1, 1));
    assert_eq!(halves([53, 2]), (1, 0));
    // 4 and 22/5: together 8.4, of which nothing is left after the 54th.
    assert_eq!(of(&[post(5, 6, 8), post(2, 3, 4), post(1, 2, 1)]), (0, 0));
    // No post, posts in full, and a whole-time post beside others.
    assert_eq!(of(&[]), (0, 0));
    assert_eq!(of(&[post(1, 10, 50), post(1, 10, 4)]), (1, 0));
    assert_eq!(of(&[post(2, 3, 1), whole_time(54), post(2, 3, 1)]), (1, 0));
}

#[test]
fn a_year_rounds_its_aggregate_once() {
    let halves = [post(2, 3, 53), post(2, 3, 1)];
    let years: Vec<String> = (0..5)
        .flat_map(|count| [&[year(2015 + count, 0)], &halves[..]].concat())
        .collect();
    assert_eq!(pension_2015(LATE, &years), (5, 5));
}

/// A pension of 5 pence in the year before.
#[test]
fn a_revaluation() {
    let of = |revaluation| {
        let first = [year(2015, 2_000), whole_time(270)];
        pension_2015(LATE, &[&first[..], &[year(2016, revaluation)]].concat())
    };
    assert_eq!(of(1_000), (6, 1));
    assert_eq!(of(999), (5, 0));
    assert_eq!(of(1_001), (6, 1));
    assert_eq!(of(0), (5, 0));
    assert_eq!(of(2_000), (6, 0));
}

#[test]
fn a_54th() {
    let of = |pay| pension_2015(LATE, &[year(2015, 0), whole_time(pay)]);
    assert_eq!(of(27), (1, 1));
    assert_eq!(of(26), (0, 0));
    assert_eq!(of(53), (1, 1));
    assert_eq!(of(54), (1, 0));
    assert_eq!(of(55), (1, 0));
    assert_eq!(of(0), (0, 0));
}

/// No year is controlled, so that the charge is exact.
#[test]
fn the_1995_pension() {
    let of = |pay, days| worked(LATE_1995, &[final_pay([pay; 4], [0; 3], 0, days, 100)]);
    assert_eq!(of(3, 14_600), ([0, 2, 6, 0], 1));
    assert_eq!(of(1, 14_600), ([0, 1, 3, 0], 1));
    assert_eq!(of(1, 14_599), ([0, 0, 0, 0], 0));
    assert_eq!(of(2, 14_600), ([0, 1, 3, 0], 0));
}

/// Half of the average is the pension.
#[test]
fn the_2008_average() {
    let of = |pays| worked(LATE_2008, &[ten_pays(pays, 10_950)]);
    let three = |oldest, middle, last| of([0, 0, oldest, middle, last, 0, 0, 0, 0, 0]);
    assert_eq!(three(2, 2, 1), ([0, 1, 0, 0], 1));
    assert_eq!(three(2, 2, 3), ([0, 1, 0, 0], 0));
    assert_eq!(three(2, 2, 2), ([0, 1, 0, 0], 0));
    assert_eq!(of([0, 0, 0, 0, 0, 0, 0, 1, 1, 0]), ([0, 1, 0, 0], 2));
    assert_eq!(of([0, 0, 0, 0, 0, 0, 1, 1, 1, 0]), ([0, 1, 0, 0], 1));
}

/// The sums that are not taken count nothing; of averages equal by rounding the best sum is taken.
#[test]
fn the_one_average_taken() {
    let of = |pays| worked(LATE_2008, &[ten_pays(pays, 0)]).1;
    assert_eq!(of([1, 1, 0, 0, 0, 0, 0, 1, 1, 0]), 1);
    assert_eq!(of([1, 1, 0, 1, 1, 0, 0, 1, 1, 1]), 0);
    // 10/3 with 8/3 after or before it, and 8/3 alone.
    assert_eq!(of([4, 3, 3, 0, 0, 0, 0, 3, 3, 2]), 0);
    assert_eq!(of([3, 3, 2, 0, 0, 0, 0, 4, 3, 3]), 0);
    assert_eq!(of([0, 0, 0, 0, 0, 0, 0, 3, 3, 2]), 1);
}

#[test]
fn the_2008_pension() {
    let of = |pay, days| worked(LATE_2008, &[ten_pays([pay; 10], days)]);
    assert_eq!(of(1, 10_950), ([0, 1, 0, 0], 1));
    assert_eq!(of(1, 10_949), ([0, 0, 0, 0], 0));
    assert_eq!(of(2, 10_950), ([0, 1, 0, 0], 0));
}

#[test]
fn the_reduced_2015_pension() {
    let of = |member, thousandths| {
        let frames = [year(2015, 0), whole_time(54), factor(0, 1, thousandths, 0)];
        pension_2015(member, &frames)
    };
    assert_eq!(of(MONTH_EARLY, 500), (1, 1));
    assert_eq!(of(MONTH_EARLY, 499), (0, 0));
    assert_eq!(of(MONTH_EARLY, 999), (1, 1));
    assert_eq!(of(MONTH_EARLY, 1_000), (1, 0));
    assert_eq!(of(MONTH_EARLY, 0), (0, 0));
    assert_eq!(of(LATE, 500), (1, 0));
}

/// A pension of 2 pence and a lump sum of 6; nothing in the 2015 Scheme, whose factor gives nought.
#[test]
fn the_reduced_1995_pension_and_lump_sum() {
    let of = |member, pension, lump_sum| {
        let frames = [
            final_pay([4; 4], [0; 3], 0, 14_600, 100),
            factor(0, 144, 999, 0),
            factor(1, 60, pension, lump_sum),
        ];
        worked(member, &frames)
    };
    assert_eq!(of(EARLY_1995, 250, 500), ([0, 1, 3, 0], 1));
    assert_eq!(of(EARLY_1995, 249, 500), ([0, 0, 3, 0], 0));
    assert_eq!(of(EARLY_1995, 500, 500), ([0, 1, 3, 0], 0));
    assert_eq!(of(EARLY_1995, 500, 250), ([0, 1, 2, 0], 1));
    assert_eq!(of(EARLY_1995, 500, 249), ([0, 1, 1, 0], 0));
    assert_eq!(of(EARLY_1995, 250, 250), ([0, 1, 2, 0], 2));
    assert_eq!(of(LATE_1995, 250, 250), ([0, 2, 6, 0], 0));
}

#[test]
fn the_reduced_2008_pension() {
    let of = |member, pension| {
        let frames = [
            ten_pays([2; 10], 10_950),
            factor(0, 144, 999, 0),
            factor(1, 120, pension, 0),
        ];
        worked(member, &frames)
    };
    assert_eq!(of(EARLY_2008, 500), ([0, 1, 0, 0], 1));
    assert_eq!(of(EARLY_2008, 499), ([0, 0, 0, 0], 0));
    assert_eq!(of(EARLY_2008, 1_000), ([0, 1, 0, 0], 0));
    assert_eq!(of(LATE_2008, 500), ([0, 1, 0, 0], 0));
}

/// A pot of 1 penny: 100/199 of a penny, a half, 100/201, and 1.
#[test]
fn debits_of_each_scheme() {
    let debits = [(199, 1, 1), (200, 1, 1), (201, 0, 0), (100, 1, 0)];
    for (hundredths, taken, count) in debits {
        let frames = [year(2015, 0), whole_time(5_400), debit(0, 1, hundredths)];
        assert_eq!(pension_2015(LATE, &frames), (100 - taken, count));
        let pays = final_pay([4; 4], [0; 3], 0, 14_600, 100);
        let given = worked(LATE_1995, &[pays, debit(1, 1, hundredths)]);
        assert_eq!(given, ([0, 2 - taken, 6 - 3 * taken, 0], count));
        let pays = ten_pays([4; 10], 10_950);
        let given = worked(LATE_2008, &[pays, debit(1, 1, hundredths)]);
        assert_eq!(given, ([0, 2 - taken, 0, 0], count));
    }
    let pays = final_pay([4; 4], [0; 3], 0, 14_600, 100);
    let both = [year(2015, 0), whole_time(54), pays, debit(0, 1, 199)];
    let given = worked(LATE_1995, &[&both[..], &[debit(1, 1, 199)]].concat());
    assert_eq!(given, ([0, 1, 3, 0], 2));
}

/// An 06 that the running case refuses is not counted, nor is any other frame.
#[test]
fn refused_frames_are_not_counted() {
    let mut running = Case::default();
    let mut offer = |digits: &str| {
        let pairs = (0..digits.len()).step_by(2);
        let byte = |at: usize| u8::from_str_radix(&digits[at..at + 2], 16).expect("a byte");
        let bytes: Vec<u8> = pairs.map(byte).collect();
        let taken = frame(&bytes).and_then(|frame| running.take(frame));
        (taken.err().unwrap_or(0), running.close())
    };
    for (frame, refusal) in [
        (LATE_1995.to_string(), 0),
        (year(2015, 0), 0),
        (whole_time(5_400), 0),
        (whole_time(27), 8),
        (year(2017, 0), 6),
        (final_pay([3; 4], [500; 3], 7, 14_600, 0), 9),
        (final_pay([4; 4], [0; 3], 7, 14_600, 100), 0),
        (final_pay([3; 4], [500; 3], 7, 14_600, 100), 4),
        (debit(0, 1, 100), 0),
        (debit(0, 1, 199), 11),
        (debit(2, 1, 199), 11),
        (debit(1, 1_000_000_001, 199), 11),
    ] {
        assert_eq!(offer(&frame).0, refusal, "{frame}");
    }
    let (refusal, closed) = offer(&debit(1, 1, 199));
    let expected = Outcome {
        net_2015: 99,
        net_1995: 1,
        net_lump_sum: 3,
        rounded_up: 1,
        ..Outcome::default()
    };
    assert_eq!((refusal, closed), (0, Ok(expected)));
}

/// One year is controlled, and 1 penny is what it rises from. No days: no pension, no charge.
#[test]
fn each_allowed_year() {
    let of = |pays, controls, allowance| {
        let pays = final_pay(pays, [allowance; 3], controls, 0, 100);
        let (amounts, count) = worked(LATE_1995, &[pays]);
        assert_eq!(amounts, [0; 4]);
        count
    };
    for (pays, controls) in [([1, 0, 0, 0], 1), ([0, 1, 0, 0], 2), ([0, 0, 1, 0], 4)] {
        assert_eq!(of(pays, controls, 500), 1);
        assert_eq!(of(pays, controls, 501), 1);
        assert_eq!(of(pays, controls, 499), 0);
        assert_eq!(of(pays, controls, 0), 0);
        assert_eq!(of(pays, controls, 1_000), 0);
    }
    for controls in 0..8u64 {
        let controlled = u64::from(controls.count_ones());
        assert_eq!(of([1; 4], controls, 500), controlled);
        assert_eq!(of([1; 4], controls, 499), 0);
    }
}

/// Allowed year 3 is 3/2. Year 2 rises from it, the lower, to 5/2; year 1 from its pay of 1 to 3/2, or
/// from allowed year 2 to 9/2.
#[test]
fn all_three_allowed_years_whichever_gives_final_pay() {
    for pays in [[1, 9, 1, 1], [1, 9, 10, 1], [1, 9, 1, 10]] {
        let frame = final_pay(pays, [500, 250, 500], 7, 0, 100);
        assert_eq!(worked(LATE_1995, &[frame]), ([0; 4], 3));
    }
}

/// Pay 4, whose pension is exact, above an allowed year 1 that is the pay of year 2.
#[test]
fn the_excess_pension_and_the_charge_by_its_factor() {
    let of = |pay2, days, factor| {
        let pays = final_pay([0, 0, pay2, 4], [0; 3], 4, days, factor);
        let ([_, _, _, charge], count) = worked(LATE_1995, &[pays]);
        (charge, count)
    };
    // An excess of 1: a half, and a quarter. An excess of 2.
    assert_eq!(of(3, 14_600, 100), (4, 1));
    assert_eq!(of(3, 7_300, 100), (0, 0));
    assert_eq!(of(2, 14_600, 100), (4, 0));
    // An excess pension of 1 by 0.50, 0.49 and 2.
    assert_eq!(of(2, 14_600, 50), (4, 1));
    assert_eq!(of(2, 14_600, 49), (3, 0));
    assert_eq!(of(2, 14_600, 200), (5, 0));
    assert_eq!(of(3, 14_600, 50), (4, 2));
    // No excess.
    assert_eq!(of(4, 14_600, 50), (0, 0));
}

/// Years that add 3 pence each: 134 and half of 1 as aggregate, 135/54. From the second on the pension,
/// 3, 7, 11 and so on, is raised by a half of a penny or a little more, to the next.
fn years_going_up(count: u64) -> Vec<String> {
    let revaluation = |place: u64| match place {
        0 => 2_000,
        _ => (5_000 + 4 * place - 2) / (4 * place - 1),
    };
    let halves = [post(2, 3, 134), post(2, 3, 1)];
    (0..count)
        .flat_map(|place| [&[year(2015 + place, revaluation(place))], &halves[..]].concat())
        .collect()
}

/// The rest of a case in which everything goes up: halves by factors of 500, debits of 100/199.
fn all_going_up(section: u64) -> (&'static str, Vec<String>) {
    let pot = |scheme| debit(scheme, 1, 199);
    let of_2015 = factor(0, 144, 500, 0);
    match section {
        0 => (EARLY, vec![of_2015, pot(0)]),
        1 => {
            let pays = final_pay([1, 1, 1, 21], [500; 3], 7, 14_600, 25);
            let of_1995 = factor(1, 60, 500, 500);
            (EARLY_1995, vec![pays, of_2015, of_1995, pot(0), pot(1)])
        }
        _ => {
            let pays = ten_pays([0, 0, 0, 0, 0, 0, 0, 1, 1, 0], 10_950);
            let of_2008 = factor(1, 120, 500, 0);
            (EARLY_2008, vec![pays, of_2015, of_2008, pot(0), pot(1)])
        }
    }
}

/// 1995: the pension is 21/2, 11, with a lump sum of 33; reduced they are 11/2, 6, and 33/2, 17; less the
/// debits of 1 and 3, 5 and 14. All allowed pays are 3/2, so the excess is 19, its pension 19/2, 10, and
/// the charge 10/4, 3, and 30. 2008: 2/3, 1/2 and again 1/2, less 1.
#[test]
fn everything_goes_up() {
    let of = |section, years| {
        let (member, rest) = all_going_up(section);
        worked(member, &[years_going_up(years), rest].concat())
    };
    // Two years give 3, then 4 and 3; reduced it is 7/2, 4, less 1. Fifty give 199; reduced it is
    // 199/2, 100, less 1. Only the first year's revaluation does not go up.
    assert_eq!(of(0, 2), ([3, 0, 0, 0], 3 * 2 - 1 + 2));
    assert_eq!(of(1, 2), ([3, 5, 14, 33], 3 * 2 - 1 + 11));
    assert_eq!(of(2, 2), ([3, 0, 0, 0], 3 * 2 - 1 + 6));
    assert_eq!(of(0, 50), ([99, 0, 0, 0], 151));
    assert_eq!(of(1, 50), ([99, 5, 14, 33], 160));
    assert_eq!(of(2, 50), ([99, 0, 0, 0], 155));
}

#[test]
fn the_most_roundings() {
    for (section, most) in [(0, 152), (1, 161), (2, 156)] {
        let (member, rest) = all_going_up(section);
        let years = years_going_up(MOST_YEARS as u64);
        let lines = [vec![member.to_string()], years, rest].concat();
        let case = read(text(&lines).as_bytes()).expect("an accepted text");
        let list = case.own_roundings().expect("a worked case");
        assert_eq!((list.len(), most_roundings(section)), (most, most));
        assert_eq!(rounded_up(&list), most as u64 - 1);
        let not_up: Vec<_> = list.iter().filter(|(_, way)| *way != Way::Up).collect();
        assert_eq!(not_up, [&(Step::Revaluation, Way::Exact)]);
    }
}
