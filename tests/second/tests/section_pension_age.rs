//! Figures for each sentence of request 2.5, the section's pension age on record.

mod lines;

use lines::line;

const FINAL_PAY: &str = "04002DC6C0002F4D600030D400003D0900004100410041071C8407E4";

/// £30,000 in each of ten years; 7,300 days.
const TEN_PAYS: &str =
    "08002DC6C0002DC6C0002DC6C0002DC6C0002DC6C0002DC6C0002DC6C0002DC6C0002DC6C0002DC6C01C84";

/// The line of four amounts in pence, none of them rounded up.
fn worked(net_2015: u64, net_1995: u64, net_lump_sum: u64, charge: u64) -> String {
    format!("80{net_2015:016X}{net_1995:016X}{net_lump_sum:016X}{charge:016X}0000")
}

/// A member who is out at 67, of the section and the age that is given for it.
fn member(section: u64, section_pension_age: u64) -> String {
    format!("0107B2040107F50401{section:02X}43{section_pension_age:02X}")
}

#[test]
fn the_last_byte() {
    let (year, first, second) = (
        "0207DF0000",
        "0305DC08CA0027AC4000000000",
        "03038408CA00124F8000000000",
    );
    let printed = line(&["0107B2040107F50401004300", year, first, second]);
    assert_eq!(
        printed,
        "80000000000001046B0000000000000000000000000000000000000000000000000001"
    );
    assert_eq!(
        line(&["0107B2040107F5040101433C", FINAL_PAY]),
        worked(0, 1_000_000, 3_000_000, 3_433_600)
    );
    assert_eq!(
        line(&["0107B2040107F50401024341", TEN_PAYS]),
        worked(0, 1_000_000, 0, 0)
    );
    assert_eq!(line(&["0107B2040107F50401024341"]), "EE0C0000");
}

/// Out at 55: 144 months before 67, 60 before 60 and 120 before 65.
#[test]
fn months_early_of_the_section() {
    let (of_1995, of_2008) = ("0107B2040107E9040101433C", "0107B2040107E90401024341");
    let early = |member, pays, factor| line(&[member, pays, "0500009003840000", factor]);
    assert_eq!(
        early(of_1995, FINAL_PAY, "0501003C03200384"),
        worked(0, 800_000, 2_700_000, 3_433_600)
    );
    assert_eq!(
        early(of_2008, TEN_PAYS, "0501007803200000"),
        worked(0, 800_000, 0, 0)
    );
    // The months to the other section's age, and to the member's own.
    for factor in ["0501007803200384", "0501009003200384"] {
        assert_eq!(early(of_1995, FINAL_PAY, factor), "EE0D0000");
    }
}

#[test]
fn the_earlier_length() {
    assert_eq!(line(&["0107B2040107F504010043"]), "EE030001");
    assert_eq!(line(&["0107B2040107F5040100430000"]), "EE030001");
    assert_eq!(line(&["0107B2040107F504010343"]), "EE030001");
}

#[test]
fn each_section_with_each_byte() {
    for (section, own) in [(0, 0), (1, 60), (2, 65)] {
        let pays: &[&str] = match section {
            0 => &[],
            1 => &[FINAL_PAY],
            _ => &[TEN_PAYS],
        };
        for byte in 0..=255 {
            let member = member(section, byte);
            let given = line(&[&[&member[..]], pays].concat());
            assert_eq!(given == "EE1C0001", byte != own, "{section} with {byte}");
            assert_eq!(given.starts_with("80"), byte == own);
        }
    }
}

#[test]
fn after_5() {
    for byte in [0x00, 0x3C, 0x41, 0xFF] {
        assert_eq!(line(&[&member(3, byte)]), "EE050001");
        assert_eq!(line(&[&member(255, byte)]), "EE050001");
    }
    // Pension age 54 and 76, 31 April, retirement before birth.
    assert_eq!(line(&["0107B2040107F5040100363C"]), "EE050001");
    assert_eq!(line(&["0107B2040107F50401014C00"]), "EE050001");
    assert_eq!(line(&["0107B2041F07F5040102433C"]), "EE050001");
    assert_eq!(line(&["0107B2040107B2031F0143FF"]), "EE050001");
    // The order stands before both.
    let first = &member(0, 0);
    assert_eq!(line(&[first, &member(0, 60)]), "EE040002");
}
