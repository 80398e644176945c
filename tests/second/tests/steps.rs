//! Every step of cases worked by hand: the papers' figures and the examples of the rules.

use second::steps::{BenefitSteps, ChargeSteps, Number, YearSteps};
use second::{case, steps, Steps};

const EXACT: u64 = 0;
const DOWN: u64 = 1;
const UP: u64 = 2;

const YEAR_2015: &str = "0207DF0000";

/// Pays £30,000, £31,000, £32,000, £40,000, allowances 65, all controlled, 7,300 days, 20.20.
const FINAL_PAY: &str = "04002DC6C0002F4D600030D400003D0900004100410041071C8407E4";

/// The steps of lines, each ended by 0A.
fn worked(lines: &[&str]) -> Steps {
    let text: String = lines.iter().map(|line| format!("{line}\n")).collect();
    steps(text.as_bytes())
}

fn number(number: u64, way: u64) -> Number {
    Number { number, way }
}

fn whole(pence: u64) -> Number {
    number(pence, EXACT)
}

/// A benefit that is neither reduced nor debited.
fn untouched(earned: Number) -> BenefitSteps {
    BenefitSteps {
        earned,
        reduced: whole(earned.number),
        net: earned.number,
        ..BenefitSteps::default()
    }
}

/// A benefit all of whose steps are exact.
fn exact(earned: u64, factor: u64, reduced: u64, debit: u64, net: u64) -> BenefitSteps {
    BenefitSteps {
        earned: whole(earned),
        factor,
        reduced: whole(reduced),
        debit: whole(debit),
        net,
    }
}

/// The years, and noughts behind the last of them.
fn hold_years(given: &Steps, expected: &[YearSteps]) {
    assert_eq!(given.years, expected.len() as u64);
    assert_eq!(&given.year[..expected.len()], expected);
    let rest = &given.year[expected.len()..];
    assert!(rest.iter().all(|year| *year == YearSteps::default()));
}

/// Ward of 30 hours at £24,000 and Clinic of 15 at £15,000 with a supplement of £500, both of 37.5.
const WARD: &str = "03070808CA00249F0000000000";
const CLINIC: &str = "03038408CA0016E3600000C350";

#[test]
fn the_case_of_ward_and_clinic() {
    let given = worked(&[
        "0107B2040107F5040101433C",
        YEAR_2015,
        WARD,
        CLINIC,
        FINAL_PAY,
        "05000031030C0000",
        "0600000F424007E4",
    ]);
    assert_eq!((given.refusal, given.line), (0, 0));
    // 67 on the day, seven years past 60.
    assert_eq!((given.months_2015, given.months_1995), (0, -84));
    // Clinic is in full with £15,500; of Ward 22.5 hours count at £800 each, £18,000. A 54th of
    // £33,500 is £620.3704.
    let year = YearSteps {
        aggregate: whole(3_350_000),
        revalued: whole(0),
        accrued: number(62_037, DOWN),
        pension: 62_037,
    };
    hold_years(&given, &[year]);
    // £10,000 / 20.20 is £495.0495. The factor for 49 months is not used.
    let pension_2015 = BenefitSteps {
        debit: number(49_505, UP),
        net: 12_532,
        ..untouched(whole(62_037))
    };
    assert_eq!(given.pension_2015, pension_2015);
    assert_eq!((given.pay, given.pay_year), (whole(4_000_000), 1));
    assert_eq!(given.pension_1995, untouched(whole(1_000_000)));
    assert_eq!(given.lump_sum, untouched(whole(3_000_000)));
    assert_eq!(given.charge, charge_of_document_01());
    assert_eq!(given.rounded_up, 1);
}

/// Of `FINAL_PAY`: £30,000, £31,000 and £32,000 raised by 6.5 per cent, since each is below what its
/// year allows; £40,000 less £34,080; a quarter of that for 7,300 days.
fn charge_of_document_01() -> ChargeSteps {
    ChargeSteps {
        allowed: [whole(3_195_000), whole(3_301_500), whole(3_408_000)],
        excess: 592_000,
        pension: whole(148_000),
        product: whole(2_989_600),
        lump_sum: 444_000,
        charge: 3_433_600,
    }
}

#[test]
fn the_hours_of_ward_and_clinic() {
    let case = second::cases::read(
        format!("0107B2040107F50401004300\n{YEAR_2015}\n{WARD}\n{CLINIC}\n").as_bytes(),
    );
    let posts = &case.expect("an accepted case").years[0].posts;
    // Minutes have 2,700 parts: 22h30 of Ward count and 7h30 are left out, all 15h00 of Clinic count.
    let parts = second::posts::parts_of(posts);
    assert_eq!(parts, [1_350 * 2_700, 900 * 2_700]);
    assert_eq!(1_800 * 2_700 - parts[0], 450 * 2_700);
}

#[test]
fn the_printed_case() {
    let given = worked(&[
        "0107B2040107F50401004300",
        YEAR_2015,
        "0305DC08CA0027AC4000000000",
        "03038408CA00124F8000000000",
    ]);
    let year = YearSteps {
        aggregate: whole(3_600_000),
        revalued: whole(0),
        accrued: number(66_667, UP),
        pension: 66_667,
    };
    hold_years(&given, &[year]);
    let mut expected = Steps::refused(0, 0);
    expected.pension_2015 = untouched(whole(66_667));
    expected.rounded_up = 1;
    expected.years = 1;
    expected.year[0] = year;
    assert_eq!(given, expected);
}

#[test]
fn years_one_after_another() {
    let given = worked(&[
        "0107AE021407F00214004200",
        "0207E300AA",
        "0308CA08CA002625A000000000",
        "0207E4014A",
        "0308CA08CA0027AC4000000000",
        "0207E50032",
    ]);
    // 2,500,000/54 = 46,296.30; 46,296 × 1.033 = 47,823.77; 2,600,000/54 = 48,148.15;
    // 95,972 × 1.005 = 96,451.86.
    let rows = [
        (2_500_000, whole(0), number(46_296, DOWN), 46_296),
        (2_600_000, number(47_824, UP), number(48_148, DOWN), 95_972),
        (0, number(96_452, UP), whole(0), 96_452),
    ];
    let years = rows.map(|(pay, revalued, accrued, pension)| YearSteps {
        aggregate: whole(pay),
        revalued,
        accrued,
        pension,
    });
    hold_years(&given, &years);
    assert_eq!(given.pension_2015, untouched(whole(96_452)));
    assert_eq!(given.rounded_up, 2);
}

#[test]
fn an_aggregate_is_rounded_once() {
    // £53,000 for 20 hours of 37.5, £47,500 for 19 of 40: H is 2,340, K is 5,436,000, and the second
    // has 2,628,000 of its 2,667,600 parts: 5,300,000 + 4,679,487.18.
    let given = worked(&[
        "0107B2040107F50401004300",
        YEAR_2015,
        "0304B008CA0050DF2000000000",
        "030474096000487AB000000000",
    ]);
    let year = YearSteps {
        aggregate: number(9_979_487, DOWN),
        revalued: whole(0),
        accrued: number(184_805, DOWN),
        pension: 184_805,
    };
    hold_years(&given, &[year]);
    assert_eq!(given.rounded_up, 0);
}

#[test]
fn early_in_both_schemes_with_both_debits() {
    // Born 23 September 1968, out on 10 June 2025: 680 months, 124 before 67 and 40 before 60.
    let given = worked(&[
        "0107B0091707E9060A01433C",
        YEAR_2015,
        "03054608CA0018B82000000000",
        "04002AB980002C4020002DC6C00037B1D000280032003C0616D00866",
        "0500007C021C0000",
        "050100280352038E",
        "0600000186A00753",
        "0601000C35000640",
    ]);
    assert_eq!((given.months_2015, given.months_1995), (124, 40));
    // £300.00 × 0.540 less £53.33, of £53.3333.
    let pension_2015 = BenefitSteps {
        earned: whole(30_000),
        factor: 540,
        reduced: whole(16_200),
        debit: number(5_333, DOWN),
        net: 10_867,
    };
    assert_eq!(given.pension_2015, pension_2015);
    assert_eq!((given.pay, given.pay_year), (whole(3_650_000), 1));
    let pension_1995 = exact(730_000, 850, 620_500, 50_000, 570_500);
    assert_eq!(given.pension_1995, pension_1995);
    let lump_sum = exact(2_190_000, 910, 1_992_900, 150_000, 1_842_900);
    assert_eq!(given.lump_sum, lump_sum);
    // Year 3 is not controlled: its pay is allowed.
    let charge = ChargeSteps {
        allowed: [whole(2_900_000), whole(3_045_000), whole(3_180_000)],
        excess: 470_000,
        pension: whole(94_000),
        product: whole(2_021_000),
        lump_sum: 282_000,
        charge: 2_303_000,
    };
    assert_eq!(given.charge, charge);
    assert_eq!(given.rounded_up, 0);
}

#[test]
fn ways_of_allowed_pays() {
    // Pays £30,000.31, £30,500.01, £31,000.00, £30,700.00, allowances 25, all controlled: up, down and
    // exact; final pay is that of year 2, £31,000 × 4,000/29,200 = £4,246.5753.
    let given = worked(&[
        "0107AE021407F0021401423C",
        "04002DC6DF002E8A11002F4D60002ED830001900190019070FA007D0",
    ]);
    assert_eq!((given.pay, given.pay_year), (whole(3_100_000), 2));
    let allowed = [
        number(3_075_032, UP),
        number(3_126_251, DOWN),
        whole(3_177_500),
    ];
    assert_eq!(given.charge.allowed, allowed);
    assert_eq!(given.pension_1995, untouched(number(424_658, UP)));
    assert_eq!(given.lump_sum, untouched(whole(1_273_974)));
    let nothing = ChargeSteps {
        allowed,
        ..ChargeSteps::default()
    };
    assert_eq!(given.charge, nothing);
    assert_eq!(given.rounded_up, 2);
    hold_years(&given, &[]);
}

#[test]
fn ten_pays_early_with_a_debit() {
    // The best three years are 3 to 1, 10,850,000/3 = 3,616,666.67; half of that rounded is a half;
    // 1,808,334 × 0.720 = 1,302,000.48; 1,200,000/15.35 = 78,175.90.
    let given = worked(&[
        "0107AE021407E80813024241",
        "08002DC6C0002E8A10002F4D600036EE800037B1D00036EE800033E1400034A4900039FBC00036EE802AC6",
        "0500005B03110000",
        "0501004F02D00000",
        "060100124F8005FF",
    ]);
    assert_eq!((given.months_2015, given.months_1995), (91, 79));
    assert_eq!((given.pay, given.pay_year), (number(3_616_667, UP), 1));
    let pension = BenefitSteps {
        earned: number(1_808_334, UP),
        factor: 720,
        reduced: number(1_302_000, DOWN),
        debit: number(78_176, UP),
        net: 1_223_824,
    };
    assert_eq!(given.pension_1995, pension);
    // The 2015 pension of 0 has its factor too; there is no lump sum and no charge.
    let nothing = BenefitSteps {
        factor: 785,
        ..BenefitSteps::default()
    };
    assert_eq!(given.pension_2015, nothing);
    assert_eq!(given.lump_sum, BenefitSteps::default());
    assert_eq!(given.charge, ChargeSteps::default());
    assert_eq!(given.rounded_up, 3);
}

#[test]
fn a_half_is_up() {
    // 97,100 × 0.785 = 76,223.5, by the factor for 91 months.
    let given = worked(&[
        "0107AE021407E80813004200",
        "0207E30000",
        "0308CA08CA0050020800000000",
        "0500005A03140000",
        "0500005B03110000",
    ]);
    let pension = BenefitSteps {
        earned: whole(97_100),
        factor: 785,
        reduced: number(76_224, UP),
        debit: whole(0),
        net: 76_224,
    };
    assert_eq!(given.pension_2015, pension);
    assert_eq!((given.months_2015, given.months_1995), (91, 0));
}

#[test]
fn noughts_when_refused() {
    for (lines, refusal, line) in [
        (&[][..], 4, 0),
        (&["0107B2040107F50401004300", YEAR_2015, "03"], 3, 3),
        (&["0107B2040107F5040101433C", YEAR_2015, WARD], 12, 0),
        (&["0107B2040107F50301004300", YEAR_2015, WARD], 13, 0),
        (&["0107B2040107F50401004300", "060000000064000A"], 14, 0),
    ] {
        assert_eq!(worked(lines), Steps::refused(refusal, line));
    }
}

#[test]
fn the_amounts_of_the_case_call() {
    let text = format!("0107B2040107F5040101433C\n{YEAR_2015}\n{WARD}\n{CLINIC}\n{FINAL_PAY}\n");
    let (given, answer) = (steps(text.as_bytes()), case(text.as_bytes()));
    assert_eq!(given.pension_2015.net, answer.net_2015);
    assert_eq!(given.pension_1995.net, answer.net_1995);
    assert_eq!(given.lump_sum.net, answer.net_lump_sum);
    assert_eq!(given.charge.charge, answer.charge);
    assert_eq!(given.rounded_up, answer.rounded_up);
}
