//! Figures for each sentence of request 2.4, the 2008 Section.

mod lines;

use lines::line;

/// Out at 67, section 2.
const MEMBER: &str = "0107B2040107F50401024341";

/// Out at 63: 48 months before 67 and 24 before 65.
const EARLY: &str = "0107B2040107F10401024341";

/// £30,000, £31,000, £32,000, £40,000, £41,000, £42,000, £39,000, £38,000, £37,000, £36,000; 7,300
/// days. The average of £41,000 is exact, a third of it is rounded up to £13,666.67.
const TEN_PAYS: &str =
    "08002DC6C0002F4D600030D400003D0900003E8FA000401640003B82600039FBC0003875200036EE801C84";

const FINAL_PAY: &str = "04002DC6C0002F4D600030D400003D0900004100410041071C8407E4";

/// The printed line of a pension in the 1995 place alone, and of a count of upward roundings.
fn pension(pence: u64, rounded_up: u64) -> String {
    format!("80{:016X}{pence:016X}{:032X}{rounded_up:04X}", 0, 0)
}

/// An 08 of pays and days.
fn frame(pays: [u64; 10], days: u64) -> String {
    let pays: String = pays.iter().map(|pay| format!("{pay:08X}")).collect();
    format!("08{pays}{days:04X}")
}

#[test]
fn sections() {
    let of = |member: &str| line(&[member]);
    assert_eq!(of("0107B2040107F50401004300"), pension(0, 0));
    assert_eq!(of("0107B2040107F5040101433C"), "EE0C0000");
    assert_eq!(of("0107B2040107F50401024341"), "EE0C0000");
    assert_eq!(of("0107B2040107F50401034300"), "EE050001");
    assert_eq!(of("0107B2040107F50401FF4300"), "EE050001");
}

#[test]
fn the_best_three_years() {
    let of = |pays, days| line(&[MEMBER, &frame(pays, days)]);
    assert_eq!(line(&[MEMBER, TEN_PAYS]), pension(1_366_667, 1));
    assert_eq!(of([3_000_000; 10], 7_300), pension(1_000_000, 0));
    // Averages of 2/3 and of 1/3 of a penny, of 5/3, and a pension of a half. The pensions of the
    // first three are 3/4 of a penny, nought and 3/2.
    assert_eq!(of([1, 1, 0, 0, 0, 0, 0, 0, 0, 0], 16_425), pension(1, 2));
    assert_eq!(of([0, 0, 0, 0, 0, 0, 0, 0, 0, 1], 16_425), pension(0, 0));
    assert_eq!(of([0, 0, 0, 0, 2, 2, 1, 0, 0, 0], 16_425), pension(2, 2));
    assert_eq!(of([1; 10], 10_950), pension(1, 1));
    // The highest pay stands alone; three lower ones are better together.
    let alone = [0, 9_000_000, 0, 0, 0, 4_000_000, 4_000_000, 4_000_000, 0, 0];
    assert_eq!(of(alone, 7_300), pension(1_333_333, 0));
}

#[test]
fn pension_age_65() {
    let (of_2015, of_2008) = ("0500003003840000", "0501001803200000");
    // 1,093,333.6.
    let reduced = line(&[EARLY, TEN_PAYS, of_2015, of_2008]);
    assert_eq!(reduced, pension(1_093_334, 2));
    assert_eq!(line(&[EARLY, TEN_PAYS, of_2015]), "EE0D0000");
    assert_eq!(line(&[EARLY, TEN_PAYS, of_2008]), "EE0D0000");
    // Out at 60 with a pension age of 60: 60 months early in the section alone; 1,025,000.25.
    let at_60 = "0107B2040107EE0401023C41";
    assert_eq!(line(&[at_60, TEN_PAYS]), "EE0D0000");
    let factor = "0501003C02EE0000";
    assert_eq!(line(&[at_60, TEN_PAYS, factor]), pension(1_025_000, 1));
}

#[test]
fn the_debit_touches_the_pension_only() {
    let of = |debit: &str| line(&[MEMBER, TEN_PAYS, debit]);
    // 49,504.95, then all of the pension.
    assert_eq!(of("0601000F424007E4"), pension(1_366_667 - 49_505, 2));
    assert_eq!(of("06010014DA8B0064"), pension(0, 1));
    assert_eq!(of("06010014DA8C0064"), "EE0E0000");
    assert_eq!(of("06013B9ACA000001"), "EE0E0000");
}

#[test]
fn in_the_place_of_04() {
    let (year, factor, debit) = ("0207DF0000", "0500003003840000", "0600000000000001");
    assert_eq!(line(&[MEMBER, &TEN_PAYS[..84]]), "EE030002");
    assert_eq!(line(&[MEMBER, &format!("{TEN_PAYS}00")]), "EE030002");
    assert_eq!(line(&[MEMBER, &TEN_PAYS[..56]]), "EE030002");
    assert_eq!(line(&[TEN_PAYS]), "EE040001");
    assert_eq!(line(&[MEMBER, year, TEN_PAYS]), pension(1_366_667, 1));
    assert_eq!(line(&[MEMBER, TEN_PAYS, TEN_PAYS]), "EE040003");
    assert_eq!(line(&[MEMBER, TEN_PAYS, year]), "EE040003");
    assert_eq!(line(&[MEMBER, factor, TEN_PAYS]), "EE040003");
    assert_eq!(line(&[MEMBER, debit, TEN_PAYS]), "EE040003");
}

#[test]
fn pays_of_another_section() {
    let past = frame([1_000_000_001; 10], 16_426);
    for member in ["0107B2040107F50401004300", "0107B2040107F5040101433C"] {
        assert_eq!(line(&[member, TEN_PAYS]), "EE040002");
        assert_eq!(line(&[member, &past]), "EE040002");
    }
    assert_eq!(line(&[MEMBER, FINAL_PAY]), "EE040002");
    assert_eq!(line(&[MEMBER, TEN_PAYS, FINAL_PAY]), "EE040003");
}

#[test]
fn scheme_1_means_the_section() {
    let (factor, with_lump_factor) = ("0501001803200000", "0501001803200001");
    let debit = "0601000F424007E4";
    assert_eq!(line(&[MEMBER, TEN_PAYS, factor]), pension(1_366_667, 1));
    assert_eq!(line(&[MEMBER, TEN_PAYS, with_lump_factor]), "EE0A0003");
    let none = "0107B2040107F50401004300";
    assert_eq!(line(&[none, factor]), "EE0A0002");
    assert_eq!(line(&[none, debit]), "EE0B0002");
}

#[test]
fn limits() {
    let most = [1_000_000_000; 10];
    let of = |pays, days| line(&[MEMBER, &frame(pays, days)]);
    assert_eq!(of(most, 16_425), pension(0x2CB4_1780, 0));
    assert_eq!(of(most, 16_426), "EE1B0002");
    for place in 0..10 {
        let mut pays = most;
        pays[place] += 1;
        assert_eq!(of(pays, 16_425), "EE1B0002", "{place}");
    }
}
