//! Figures for each sentence of request 2.7, unsocial hours. Posts are given as h, w, p, s.

mod lines;

use lines::line;
use second::cases::read;
use second::mistakes::{closed, Mistake};
use second::posts::{
    aggregate, aggregate_of, minutes_together, parts_of, parts_together, rival_aggregate, Post,
    MOST_POSTS, POST_BYTES,
};
use second::random::Random;
use second::samples::accepted::post_list;
use second::samples::writing::{digits, post_frame, post_records};
use second::wide::Way;
use second::{document_01, posts, records};

type Numbers = [u64; 4];

const MOST: u64 = 1_000_000_000;

/// Out at 67 without a section; the first year.
const MEMBER: &str = "0107B2040107F50401004300";
const YEAR: &str = "0207DF0000";

fn list_of(numbers: &[Numbers]) -> Vec<Post> {
    numbers.iter().map(Post::of).collect()
}

/// What the call on records and the posts call, which must agree, give: refusal and aggregate, parts.
fn both_calls(numbers: &[Numbers]) -> ((u64, u64), Vec<u64>) {
    let list = list_of(numbers);
    let mut parts = vec![7; list.len()];
    let mut in_bytes = parts.clone();
    let given = records(&list, &mut parts);
    assert_eq!(posts(&post_records(&list), &mut in_bytes), given);
    assert_eq!(in_bytes, parts);
    (given, parts)
}

/// The aggregate and the parts of accepted posts.
fn worked(numbers: &[Numbers]) -> (u64, Vec<u64>) {
    let ((refusal, aggregate), parts) = both_calls(numbers);
    assert_eq!(refusal, 0);
    (aggregate, parts)
}

fn refused(numbers: &[Numbers]) -> u64 {
    let ((refusal, aggregate), parts) = both_calls(numbers);
    assert_eq!((aggregate, parts), (0, vec![7; numbers.len()]));
    refusal
}

fn way(numbers: &[Numbers]) -> Way {
    aggregate(&list_of(numbers)).way
}

/// The lines of a year of posts.
fn year_of(numbers: &[Numbers]) -> Vec<String> {
    let frames = numbers.iter().map(|of| digits(&post_frame(&Post::of(of))));
    let lines = frames.map(|line| String::from_utf8(line).expect("digits"));
    [MEMBER, YEAR]
        .map(String::from)
        .into_iter()
        .chain(lines)
        .collect()
}

/// The printed line of one year of posts.
fn line_of(numbers: &[Numbers]) -> String {
    let lines = year_of(numbers);
    line(&lines.iter().map(String::as_str).collect::<Vec<_>>())
}

/// The printed line of a 2015 pension alone, and of a count of upward roundings.
fn pension(pence: u64, rounded_up: u64) -> String {
    format!("80{pence:016X}{:048X}{rounded_up:04X}", 0)
}

#[test]
fn four_bytes_at_the_end() {
    let bytes = [0, 3, 0, 4, 0, 0, 0, 30, 0, 0, 0, 36];
    assert_eq!(bytes.len(), POST_BYTES);
    let mut parts = [7; 2];
    assert_eq!(posts(&bytes, &mut parts), (0, 66));
    assert_eq!(parts, [9, 7]);
    // 30 pence and 16,909,060, which are the bytes 1, 2, 3, 4.
    let bytes = [0, 3, 0, 4, 0, 0, 0, 30, 1, 2, 3, 4];
    assert_eq!(posts(&bytes, &mut parts), (0, 16_909_090));
}

#[test]
fn twenty_three_goes_by_12_bytes() {
    for length in (1..200).filter(|length| length % 12 != 0) {
        let mut parts = [7; 17];
        assert_eq!(posts(&vec![0; length], &mut parts), (23, 0), "{length}");
        assert_eq!(parts, [7; 17]);
    }
    assert_eq!(posts(&[0; 12], &mut [0]), (7, 0));
    assert_eq!(posts(&[0; 12 * 17], &mut [0; 17]), (21, 0));
    assert_eq!(posts(&[0; 24], &mut [0]), (22, 0));
}

#[test]
fn the_printed_case_gains_eight_digits_a_post() {
    let (first, second) = ("0305DC08CA0027AC40", "03038408CA00124F80");
    let with_noughts = |line: &str| format!("{line}00000000");
    let given = line(&[MEMBER, YEAR, &with_noughts(first), &with_noughts(second)]);
    assert_eq!(given, pension(66_667, 1));
    assert_eq!(line(&[MEMBER, YEAR, first, second]), "EE030003");
    assert_eq!(
        line(&[MEMBER, YEAR, &with_noughts(first), second]),
        "EE030004"
    );
    for more in ["000000", "0000000000"] {
        let other = format!("{first}{more}");
        assert_eq!(line(&[MEMBER, YEAR, &other]), "EE030003");
    }
}

/// 12 × 12 parts for two posts of 6 minutes in weeks of 10, of which 120 may be had: 6 minutes and 4.
#[test]
fn the_highest_rate_first() {
    // 60/6 and 54/6 + 10/10: both 10 pence a minute. 60 + 4 × 10, and the other way 64 + 4 × 10.
    let (plain, supplemented) = ([6, 10, 60, 0], [6, 10, 54, 10]);
    assert_eq!(worked(&[plain, supplemented]), (100, vec![72, 48]));
    assert_eq!(worked(&[supplemented, plain]), (104, vec![72, 48]));
    // 54/6 + 11/10 is the higher: 65 + 4 × 10, whatever the order.
    let higher = [6, 10, 54, 11];
    assert_eq!(worked(&[plain, higher]), (105, vec![48, 72]));
    assert_eq!(worked(&[higher, plain]), (105, vec![72, 48]));
    // 54/6 + 9/10 is the lower: 60 + 4 × 9.9, which is 99.6.
    let lower = [6, 10, 54, 9];
    assert_eq!(worked(&[lower, plain]), (100, vec![48, 72]));
    assert_eq!(worked(&[plain, lower]), (100, vec![72, 48]));
}

/// H is 5 and K 2 × 4 + 3 × 4. By 8/4 a minute the supplement goes after 9/3, and has 1 minute; by 8/2,
/// grossed up, it would go first.
#[test]
fn a_supplement_is_not_grossed_up() {
    let given = worked(&[[2, 4, 0, 8], [3, 4, 9, 0]]);
    assert_eq!(given, (9 + 2, vec![5, 15]));
}

/// Equal h: 60 pence against 54 and a supplement, as above; without one the higher pay goes first, in
/// whatever week. H is 6 and K 3 × 4 + 3 × 5: 3 minutes for 31 and 3/2 for 10 each.
#[test]
fn pays_alone_only_without_a_supplement() {
    assert_eq!(worked(&[[3, 4, 30, 0], [3, 5, 31, 0]]), (46, vec![9, 18]));
    // 10 1/4 and 10 1/3 + 2/5 pence a minute: 33 and 3/2 of 10 1/4, 48.375. 10 1/2 and 10 1/3: the lower
    // pay goes first, 32 and 3/2 of 10 1/3, 47.5.
    assert_eq!(
        worked(&[[3, 4, 30, 1], [3, 5, 31, 2]]),
        (33 + 15, vec![9, 18])
    );
    assert_eq!(
        worked(&[[3, 4, 30, 2], [3, 5, 31, 0]]),
        (32 + 16, vec![18, 9])
    );
}

/// 30/3 and 36/4 pence a minute: 30 and 1 minute of 9.
#[test]
fn a_post_in_full_and_a_curtailed_one() {
    let posts = [[3, 4, 30, 0], [3, 4, 0, 36]];
    assert_eq!(worked(&posts), (39, vec![18, 6]));
    // Each alone, in full.
    assert_eq!(worked(&posts[..1]), (30, vec![9]));
    assert_eq!(worked(&posts[1..]), (36, vec![9]));
    // Both in full in longer weeks: H is 6 and K 6 × 6.
    let longer = [[3, 6, 30, 0], [3, 6, 0, 36]];
    assert_eq!(worked(&longer), (66, vec![18, 18]));
    // Of 10, 9 and 6 pence a minute the first two use up all 54 parts, and the third counts nothing.
    let third = [[3, 6, 30, 0], [3, 6, 0, 54], [3, 6, 0, 36]];
    assert_eq!(worked(&third), (84, vec![27, 27, 0]));
}

/// A post one part short of all loses s × (1 − h/w) at once: of 3 minutes in a week of 4 with 36 pence
/// it counts 36, or at most 3 × 9.
#[test]
fn one_part_short() {
    let list = list_of(&[[3, 4, 0, 36], [3, 4, 0, 0]]);
    assert_eq!(aggregate_of(&list, &[18, 0]).number, 36);
    // 17/6 × 9 is 25.5.
    assert_eq!(aggregate_of(&list, &[17, 0]).number, 26);
}

/// £26,000 and £2,000 for 25 of 37.5 hours, £32,000 and £4,000 for 16 of 40. The rates are 16,400/9 and
/// 3,500. The second counts £36,000; of the first 5,679,000 − 2,361,600 parts, 55,290/41 minutes, are
/// left, worth 7,372,000/3. The source counts £84,000 for the second, a whole-time amount.
#[test]
fn scenario_e() {
    let posts = [
        [1_500, 2_250, 2_600_000, 200_000],
        [960, 2_400, 3_200_000, 400_000],
    ];
    let aggregate = 3_600_000 + 7_372_000 / 3;
    assert_eq!(worked(&posts), (aggregate, vec![3_317_400, 2_361_600]));
    assert_eq!((aggregate, way(&posts)), (6_057_333, Way::Down));
    // 6,057,333/54 is 112,172.8.
    assert_eq!(line_of(&posts), pension(112_173, 1));
}

#[test]
fn a_lone_whole_time_post() {
    // The others have nothing, at whatever rate.
    let posts = [
        [2_250, 2_250, 2_000_000, 50_000],
        [300, 2_250, 900_000, 700_000],
    ];
    assert_eq!(worked(&posts), (2_050_000, vec![2_250 * 2_550, 0]));
    assert_eq!(way(&posts), Way::Exact);
    // 2,050,000/54 is 37,962.96.
    assert_eq!(line_of(&posts), pension(37_963, 1));
    let posts = [[300, 2_250, 900_000, 700_000], [2_250, 2_250, 0, 1]];
    assert_eq!(worked(&posts), (1, vec![0, 2_250 * 2_550]));
    assert_eq!(worked(&[[1, 1, 27, 27]]), (54, vec![1]));
    assert_eq!(line_of(&[[1, 1, 27, 27]]), pension(1, 0));
    let two = [[2, 2, 1, 1], [3, 3, 1, 1]];
    assert_eq!(refused(&two), 8);
    assert_eq!(line_of(&two), "EE080004");
}

#[test]
fn one_rounding_a_year() {
    // 9 + 2 and 3 minutes of 10/7: 107/7. In minutes times rate it would be 514/35, which goes up.
    let posts = [[7, 10, 10, 0], [7, 10, 9, 2]];
    assert_eq!(worked(&posts), (15, vec![42, 98]));
    assert_eq!(way(&posts), Way::Down);
    let list = list_of(&posts);
    let rival = rival_aggregate(&list, &parts_of(&list));
    assert_eq!((rival.number, rival.way), (15, Way::Up));
    assert_eq!(line_of(&posts), pension(0, 0));
    // 1 + 1 and 1 minute of 1/3: 7/3.
    let posts = [[3, 4, 1, 0], [3, 4, 1, 1]];
    assert_eq!((worked(&posts), way(&posts)), ((2, vec![6, 18]), Way::Down));
    // 1 + 3 and 1 minute of 1/2: 9/2, a half.
    let posts = [[2, 3, 1, 3], [2, 3, 1, 0]];
    assert_eq!((worked(&posts), way(&posts)), ((5, vec![8, 4]), Way::Up));
    assert_eq!(line_of(&posts), pension(0, 1));
    // 1 + 3 and 1 minute of 1/2 + 2/3: 31/6.
    let posts = [[2, 3, 1, 3], [2, 3, 1, 2]];
    assert_eq!((worked(&posts), way(&posts)), ((5, vec![8, 4]), Way::Down));
    // 1 + 3 and 1 minute of 1: 5.
    let posts = [[2, 3, 1, 3], [2, 3, 2, 0]];
    assert_eq!((worked(&posts), way(&posts)), ((5, vec![8, 4]), Way::Exact));
}

/// The upward rounding of a year is counted once, whatever its posts.
#[test]
fn the_count_of_upward_roundings() {
    let halves = year_of(&[[2, 3, 1, 55], [2, 3, 1, 0]]);
    // 56 and a half: 57/54, which goes down.
    let lines: Vec<&str> = halves.iter().map(String::as_str).collect();
    assert_eq!(line(&lines), pension(1, 1));
    let second = [&["0207E00000"], &lines[2..]].concat();
    assert_eq!(line(&[&lines[..], &second].concat()), pension(2, 2));
}

/// The products of the rates are 1,956,675,278,814,870,660,481 and one less, of 71 bits. The one that
/// goes first is given all 202,960,943 parts there are, 20,146 to a minute, which are fewer than its own.
#[test]
fn products_in_two_halves() {
    let higher = [10_079, 10_080, 999_998_148, 915_106_033];
    let lower = [10_067, 10_069, 999_991_861, 912_922_865];
    let (one, other) = (Post::of(&higher), Post::of(&lower));
    let product = 1_956_675_278_814_870_660_481;
    assert_eq!(one.rates_with(&other), (product, product - 1));
    // 202,960,943/20,146 × (999,998,148/10,079 + 915,106,033/10,080) is 1,914,159,017.61.
    let all = 202_960_943;
    assert_eq!(worked(&[higher, lower]), (1_914_159_018, vec![all, 0]));
    assert_eq!(worked(&[lower, higher]), (1_914_159_018, vec![0, all]));
    // A penny more: 999,991,861 + 912,922,866 and 151,161 parts of the other, 1,914,340,351.98.
    let raised = [10_067, 10_069, 999_991_861, 912_922_866];
    let (raised_parts, rest) = (202_809_782, 151_161);
    assert_eq!(
        worked(&[higher, raised]),
        (1_914_340_352, vec![rest, raised_parts])
    );
    assert_eq!(
        worked(&[raised, higher]),
        (1_914_340_352, vec![raised_parts, rest])
    );
}

/// 1 minute is left: 999,999,999/10,079 + 1,000,000,000/10,080 is 198,422.54.
#[test]
fn a_penny_below_the_limits() {
    let (full, penny_less) = (
        [10_079, 10_080, MOST, MOST],
        [10_079, 10_080, MOST - 1, MOST],
    );
    assert_eq!(
        worked(&[full, penny_less]),
        (2_000_198_423, vec![203_172_482, 20_158])
    );
    assert_eq!(
        worked(&[penny_less, full]),
        (2_000_198_423, vec![20_158, 203_172_482])
    );
    // 2,000,198,423/54 is 37,040,711.54.
    assert_eq!(line_of(&[full, penny_less]), pension(37_040_712, 2));
}

#[test]
fn sixteen_posts_at_all_limits() {
    // 16 × 630 minutes are a week: all in full.
    let posts = [[630, 10_080, MOST, MOST]; MOST_POSTS];
    assert_eq!(worked(&posts), (32 * MOST, vec![630 * 10_080; MOST_POSTS]));
    // The first in full and 1 minute of the second, as above: 198,422.54.
    let posts = [[10_079, 10_080, MOST, MOST]; MOST_POSTS];
    let minutes = 161_264;
    let mut parts = vec![0; MOST_POSTS];
    parts[..2].copy_from_slice(&[10_079 * minutes, minutes]);
    assert_eq!(worked(&posts), (2_000_198_423, parts));
    // 10,096 minutes in a week of 10,080: 15 in full and 615 minutes of the last,
    // 615 × (1,000,000,000/631 + 1,000,000,000/10,080), which is 1,035,655,327.9.
    let posts = [[631, 10_080, MOST, MOST]; MOST_POSTS];
    let mut parts = vec![631 * 10_096; MOST_POSTS];
    parts[15] = 615 * 10_096;
    assert_eq!(worked(&posts), (30 * MOST + 1_035_655_328, parts));
}

/// Every whole number of parts for two posts, together at most what there are.
fn rivals_of(list: &[Post]) -> Vec<[u64; 2]> {
    let most = |place: usize| list[place].contracted * minutes_together(list);
    let all = parts_together(list);
    (0..=most(0))
        .flat_map(|one| (0..=most(1)).map(move |other| [one, other]))
        .filter(|[one, other]| one + other <= all)
        .collect()
}

#[test]
fn rivals_in_minutes_times_rate() {
    // The second post in full, 3 × 9 and 1 × 10, and not 36 + 10.
    let list = list_of(&[[3, 4, 30, 0], [3, 4, 0, 36]]);
    assert_eq!(rival_aggregate(&list, &[6, 18]).number, 37);
    assert_eq!(aggregate_of(&list, &[6, 18]).number, 46);
    assert_eq!(rival_aggregate(&list, &[18, 6]).number, 39);
    // A whole-time post: its forced parts are worth p + s.
    let list = list_of(&[[4, 4, 7, 5], [3, 4, 900, 900]]);
    assert_eq!(rival_aggregate(&list, &parts_of(&list)).number, 12);
    assert_eq!(rival_aggregate(&[], &[]).number, 0);
}

#[test]
fn no_rival_is_better() {
    for numbers in [
        [[3, 4, 30, 0], [3, 4, 0, 36]],
        [[6, 10, 60, 0], [6, 10, 54, 10]],
        [[6, 10, 54, 10], [6, 10, 60, 0]],
        [[7, 10, 10, 0], [7, 10, 9, 2]],
        [[2, 4, 0, 8], [3, 4, 9, 0]],
        [[5, 6, 0, 1], [2, 9, 100, 100]],
    ] {
        let list = list_of(&numbers);
        let worths = rivals_of(&list)
            .into_iter()
            .map(|parts| rival_aggregate(&list, &parts).number);
        let best = worths.max().expect("a rival");
        let own = rival_aggregate(&list, &parts_of(&list)).number;
        assert_eq!(best, own, "{numbers:?}");
        assert!(best <= aggregate(&list).number, "{numbers:?}");
    }
}

/// Twice 20 hours at £10,000 of 37.5, the second cut, and lists of every shape.
#[test]
fn without_a_supplement_document_01() {
    let twice = [[1_200, 2_250, 1_000_000, 0]; 2];
    let parts = vec![1_200 * 2_400, 1_050 * 2_400];
    assert_eq!(worked(&twice), (1_875_000, parts));
    let mut random = Random::new(0x0207_0001);
    for _ in 0..3_000 {
        let list = post_list(&mut random).into_iter();
        let list: Vec<Post> = list.map(Post::without_supplement).collect();
        let parts = parts_of(&list);
        assert_eq!(parts, document_01::parts_of(&list), "{list:?}");
        let given = aggregate(&list);
        assert_eq!(given, document_01::aggregate(&list), "{list:?}");
        assert_eq!(given, rival_aggregate(&list, &parts), "{list:?}");
    }
}

#[test]
fn a_supplement_within_7() {
    let of = |supplement| [[1, 1, 0, supplement]];
    assert_eq!(worked(&of(MOST)), (MOST, vec![1]));
    assert_eq!(worked(&[[1, 1, MOST, MOST]]), (2 * MOST, vec![1]));
    for past in [MOST + 1, 0x8000_0000, 0xFFFF_FFFF] {
        assert_eq!(refused(&of(past)), 7);
        assert_eq!(line_of(&of(past)), "EE070003");
        // After an accepted post, before 8.
        let second = [[1, 1, 0, 0], [1, 1, 0, past]];
        assert_eq!(refused(&second), 7);
        assert_eq!(line_of(&second), "EE070004");
    }
    // A 17th post is 7 too, and 21 in the call.
    let seventeen = [[1, 2, 0, 1]; MOST_POSTS + 1];
    assert_eq!(refused(&seventeen), 21);
    assert_eq!(line_of(&seventeen), "EE070013");
}

/// The pension of a year of posts with a mistake.
fn mistaken(mistake: Mistake, numbers: &[Numbers]) -> u64 {
    let text: String = year_of(numbers)
        .iter()
        .map(|line| format!("{line}\n"))
        .collect();
    let case = read(text.as_bytes()).expect("an accepted text");
    closed(&case, mistake).expect("a worked case").net_2015
}

/// The mistakes with supplements beside the pays; pensions are 54ths.
#[test]
fn mistakes_beside_supplements() {
    // 3,000/3 and 2,000/3 + 3,600/4 a minute: right, 5,600 and 1,000, a 54th of which is 122.2; by pay
    // 3,000 and 1,566 2/3, of which it is 84.57. The proportion 3/4 has three digits at most.
    let posts = [[3, 4, 3_000, 0], [3, 4, 2_000, 3_600]];
    assert_eq!(worked(&posts).0, 6_600);
    assert_eq!(mistaken(Mistake::SmallerSalary, &posts), 85);
    assert_eq!(mistaken(Mistake::ThreeDigits, &posts), 122);
    // A proportion of 2/3, 0.667 by three digits: 3,000,000 and 1 minute of 2,000,000/2 + 3,000/3, of
    // which a 54th is 74,092.59, or of (2,000,000/0.667 + 3,000)/3, 1,000,500.25, of which it is 74,083.3.
    let posts = [[2, 3, 3_000_000, 0], [2, 3, 2_000_000, 3_000]];
    assert_eq!(worked(&posts).0, 4_001_000);
    assert_eq!(mistaken(Mistake::SmallerSalary, &posts), 74_093);
    assert_eq!(mistaken(Mistake::ThreeDigits, &posts), 74_083);
    // Weeks of 4 and 12, weighted (3 × 4 + 1 × 12)/4, 6, and averaged 8: both posts are in full, and a
    // 54th is 159.26.
    let posts = [[3, 4, 3_000, 0], [1, 12, 2_000, 3_600]];
    assert_eq!(worked(&posts).0, 8_600);
    assert_eq!(mistaken(Mistake::AveragedWeek, &posts), 159);
    // Weeks of 4 and 2 for 3 minutes and 1: weighted 7/2, averaged 3. 5,600 for the 1 minute and 1,000 for
    // each of 5/2, or for each of 2, 7,600, of which a 54th is 140.74.
    let posts = [[3, 4, 3_000, 0], [1, 2, 2_000, 3_600]];
    assert_eq!(worked(&posts).0, 8_100);
    assert_eq!(mistaken(Mistake::AveragedWeek, &posts), 141);
}
