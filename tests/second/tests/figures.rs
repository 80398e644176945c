//! The figures of document 01, starred and unstarred, and its printed example.

use second::{abatement, case, charge, months_early, posts, printed, Outcome};

/// Hours as minutes.
fn hours(hours: f64) -> u64 {
    (hours * 60.0) as u64
}

/// The bytes of posts of contracted minutes, whole-time minutes and pay, without supplements.
fn records(list: &[(u64, u64, u64)]) -> Vec<u8> {
    let mut bytes = Vec::new();
    for &(contracted, whole_time, pay) in list {
        bytes.extend((contracted as u16).to_be_bytes());
        bytes.extend((whole_time as u16).to_be_bytes());
        bytes.extend((pay as u32).to_be_bytes());
        bytes.extend([0; 4]);
    }
    bytes
}

/// The aggregate of posts of hours, whole-time hours and pounds.
fn aggregate(list: &[(f64, f64, u64)]) -> u64 {
    let list: Vec<_> = list
        .iter()
        .map(|&(contracted, whole_time, pounds)| {
            (hours(contracted), hours(whole_time), pounds * 100)
        })
        .collect();
    let (refusal, aggregate) = posts(&records(&list), &mut [0; 16]);
    assert_eq!(refusal, 0);
    aggregate
}

/// What lines give, each ended by 0A.
fn outcome(lines: &[&str]) -> Outcome {
    let text: String = lines.iter().map(|line| format!("{line}\n")).collect();
    case(text.as_bytes())
}

/// The refusal and line of lines.
fn refusal(lines: &[&str]) -> (u64, u64) {
    let given = outcome(lines);
    (given.refusal, given.line)
}

const LATE: &str = "0107B2040107F50401004300";
const LATE_WITH_SECTION: &str = "0107B2040107F5040101433C";
const FINAL_PAY: &str = "04002DC6C0002F4D600030D400003D0900004100410041071C8407E4";

#[test]
fn aggregates() {
    assert_eq!(posts(&[], &mut []), (0, 0));
    assert_eq!(
        aggregate(&[(20.0, 37.5, 10_000), (20.0, 37.5, 12_000)]),
        2_075_000
    );
    assert_eq!(
        aggregate(&[(25.0, 37.5, 26_000), (15.0, 37.5, 12_000)]),
        3_600_000
    );
    assert_eq!(
        aggregate(&[(20.0, 37.5, 53_000), (19.0, 40.0, 47_500)]),
        9_979_487
    );
    assert_eq!(
        aggregate(&[(37.5, 37.5, 20_000), (5.0, 37.5, 9_000)]),
        2_000_000
    );
}

#[test]
fn the_second_of_equal_posts_is_cut() {
    let bytes = records(&[(1_200, 2_250, 1_000_000); 2]);
    let mut places = [7; 4];
    assert_eq!(posts(&bytes, &mut places), (0, 1_875_000));
    assert_eq!(places, [1_200 * 2_400, 1_050 * 2_400, 7, 7]);
}

#[test]
fn a_whole_time_post_passes_the_weighted_week() {
    let bytes = records(&[(1_200, 1_500, 900), (2_400, 2_400, 100)]);
    let mut places = [7; 2];
    assert_eq!(posts(&bytes, &mut places), (0, 100));
    assert_eq!(places, [0, 2_400 * 3_600]);
    let together = 1_200 * 1_500 + 2_400 * 2_400;
    assert!(places[1] > together);
}

#[test]
fn months() {
    assert_eq!(months_early(&[1970, 4, 1, 2025, 11, 1, 60]), (0, 53));
    assert_eq!(months_early(&[1967, 11, 1, 2030, 10, 17, 67]), (0, 49));
    assert_eq!(months_early(&[1967, 11, 1, 2034, 11, 1, 67]), (0, 0));
    assert_eq!(months_early(&[1967, 11, 1, 2034, 12, 1, 67]), (0, -1));
}

#[test]
fn born_on_the_31st() {
    for (birth, retirement, early) in [
        ([1970, 8, 31], [2030, 6, 29], 3),
        ([1970, 8, 31], [2030, 6, 30], 2),
        ([1970, 8, 31], [2030, 7, 30], 2),
        ([1970, 8, 31], [2030, 7, 31], 1),
        ([1970, 8, 30], [2030, 6, 30], 2),
        ([1970, 10, 31], [1970, 11, 30], 719),
        ([1972, 2, 29], [2031, 2, 27], 13),
        ([1972, 2, 29], [2031, 2, 28], 12),
        ([1972, 2, 29], [2031, 3, 28], 12),
        ([1972, 2, 29], [2032, 2, 28], 1),
        ([1972, 2, 29], [2032, 2, 29], 0),
        ([1970, 1, 31], [2031, 2, 27], -12),
        ([1970, 1, 31], [2031, 2, 28], -13),
        ([1970, 1, 29], [2032, 2, 28], -24),
        ([2000, 1, 31], [2100, 2, 28], -481),
    ] {
        let [year, month, day] = birth;
        let [out_year, out_month, out_day] = retirement;
        let call = [year, month, day, out_year, out_month, out_day, 60];
        assert_eq!(months_early(&call), (0, early), "{call:?}");
    }
}

#[test]
fn charges() {
    let given = charge(&[
        3_000_000, 3_100_000, 3_200_000, 4_000_000, 65, 65, 65, 7, 7_300, 2_020,
    ]);
    assert_eq!(given, (0, 3_433_600));
}

#[test]
fn abatements() {
    for (new_pay, reduction) in [(18_000, 2_000), (30_000, 4_000), (16_000, 0)] {
        let given = abatement(&[1_000_000, 600_000, 2_000_000, new_pay * 100]);
        assert_eq!(given, (0, reduction * 100));
    }
    assert_eq!(abatement(&[1_000_000_000_001, 0, 0, 0]), (24, 0));
    assert_eq!(abatement(&[1, 2, 0, 1_000_000_000_001]), (24, 0));
    assert_eq!(abatement(&[1, 2, 0, 0]), (25, 0));
}

#[test]
fn debits() {
    assert_eq!(
        second::benefits::pension_debit(1_000_000, 2_020).number,
        49_505
    );
    // Final pay £40,000 for 7,300 days: pension £10,000, lump sum £30,000. Of all the steps the debit
    // alone, 49,504.95, goes up.
    let given = outcome(&[LATE_WITH_SECTION, FINAL_PAY, "0601000F424007E4"]);
    assert_eq!(
        given,
        Outcome {
            net_1995: 1_000_000 - 49_505,
            net_lump_sum: 3_000_000 - 148_515,
            charge: 3_433_600,
            rounded_up: 1,
            ..Outcome::default()
        }
    );
}

#[test]
fn a_debit_equal_to_the_pension_passes() {
    // 66,667 pence by factor 100 is a debit of 66,667 pence. The pension was rounded up.
    let year = [
        LATE,
        "0207DF0000",
        "0305DC08CA0027AC4000000000",
        "03038408CA00124F8000000000",
    ];
    let with = |debit: &'static str| outcome(&[&year[..], &[debit]].concat());
    let nothing_left = Outcome {
        rounded_up: 1,
        ..Outcome::default()
    };
    assert_eq!(with("06000001046B0064"), nothing_left);
    assert_eq!(with("06000001046A0064").net_2015, 1);
    assert_eq!(with("06000001046C0064").refusal, 14);
}

#[test]
fn the_bounds_of_posts() {
    let of = |contracted, whole_time| {
        let bytes = records(&[(contracted, whole_time, 1)]);
        posts(&bytes, &mut [0]).0
    };
    assert_eq!(of(2_250, 2_250), 0);
    assert_eq!(of(2_251, 2_250), 7);
    assert_eq!(of(0, 2_250), 7);
    assert_eq!(of(1, 10_080), 0);
    assert_eq!(of(1, 10_081), 7);
    let sixteen = records(&[(100, 200, 54); 16]);
    assert_eq!(posts(&sixteen, &mut [0; 16]).0, 0);
    assert_eq!(posts(&sixteen, &mut [0; 15]).0, 22);
    let seventeen = records(&[(100, 200, 54); 17]);
    assert_eq!(posts(&seventeen, &mut [0; 17]), (21, 0));
    assert_eq!(posts(&sixteen[1..], &mut [0; 16]), (23, 0));
    let post = "03006400C80000003600000000";
    let mut lines = vec![LATE, "0207DF0000"];
    lines.extend([post; 16]);
    assert_eq!(refusal(&lines), (0, 0));
    lines.push(post);
    assert_eq!(refusal(&lines), (7, 19));
}

#[test]
fn the_printed_example() {
    let given = outcome(&[
        LATE,
        "0207DF0000",
        "0305DC08CA0027AC4000000000",
        "03038408CA00124F8000000000",
    ]);
    assert_eq!(given.net_2015, 66_667);
    assert_eq!(
        printed(&given),
        b"80000000000001046B0000000000000000000000000000000000000000000000000001\n"
    );
}

#[test]
fn printed_refusals() {
    let line = |lines: &[&str]| String::from_utf8(printed(&outcome(lines))).expect("digits");
    assert_eq!(line(&[]), "EE040000\n");
    assert_eq!(line(&[""]), "EE020001\n");
    assert_eq!(line(&[LATE_WITH_SECTION]), "EE0C0000\n");
    assert_eq!(line(&[LATE, "05000000000000"]), "EE030002\n");
    assert_eq!(line(&[LATE, "0500000003E80000"]), "EE0A0002\n");
    assert_eq!(printed(&case(&[b'0'; 32_769])), b"EE010000\n");
    assert_eq!(printed(&case(LATE.as_bytes())), b"EE020001\n");
}

#[test]
fn closing() {
    let early = "0107B2040107E9040101433C";
    // Born 1 April 1970, out 1 April 2025: 144 months before 67 and 60 before 60.
    assert_eq!(refusal(&[early]), (12, 0));
    assert_eq!(refusal(&[early, FINAL_PAY]), (13, 0));
    assert_eq!(refusal(&[early, FINAL_PAY, "0500009002580000"]), (13, 0));
    assert_eq!(refusal(&[early, FINAL_PAY, "0501003C03200384"]), (13, 0));
    let given = outcome(&[early, FINAL_PAY, "0500009002580000", "0501003C03200384"]);
    assert_eq!((given.net_1995, given.net_lump_sum), (800_000, 2_700_000));
}
