//! Cases in words, and lines of their sheets worked by hand.

use second::random::Random;
use second::samples::accepted;
use second::samples::writing::case_text;
use second::sheet::{blank, csv, sheet};
use second::words::names::named;
use second::words::reading::read;
use second::words::writing::written;
use second::words::{fits, text_of_lines, Named};

/// The case of Ward and Clinic, as its officer writes it.
const WARD_AND_CLINIC: &str = "\
member born 1970-04-01 retires 2037-04-01 age 67
year 2015 revaluation 0.00%
post Ward    30h00 of 37h30  £24,000
post Clinic  15h00 of 37h30  £15,000 supplement £500
section 1995 pays £30,000 £31,000 £32,000 £40,000 allowances 6.5% 6.5% 6.5% controlled 3 2 1 days 7300 factor 20.20
factor 2015 49 months 0.780
debit 2015 pot £10,000 factor 20.20
";

const ITS_TEXT: &str = "\
0107B2040107F5040101433C
0207DF0000
03070808CA00249F0000000000
03038408CA0016E3600000C350
04002DC6C0002F4D600030D400003D0900004100410041071C8407E4
05000031030C0000
0600000F424007E4
";

/// Out at 66, in 2032, without a section.
const MEMBER: &str = "member born 1966-02-20 retires 2032-02-20 age 66\n";

fn case_of(words: &str) -> Named {
    read(words).unwrap_or_else(|line| panic!("line {line} of {words}"))
}

/// Whether a print has these lines, each as a whole.
fn hold_lines(print: &str, expected: &[&str]) {
    for line in expected {
        assert!(print.lines().any(|given| given == *line), "{line}\n{print}");
    }
}

/// The same, with any number of blanks in place of those given.
fn hold_words(print: &str, expected: &[&str]) {
    let spaced = |line: &str| line.split_whitespace().collect::<Vec<_>>().join(" ");
    for line in expected {
        assert!(
            print.lines().any(|given| spaced(given) == *line),
            "{line}\n{print}"
        );
    }
}

#[test]
fn words_are_read() {
    let named = case_of(WARD_AND_CLINIC);
    assert_eq!(case_text(&named.case), ITS_TEXT.as_bytes());
    assert_eq!(text_of_lines(&named.lines()), ITS_TEXT.as_bytes());
    assert_eq!(named.names, [["Ward", "Clinic"]]);
}

#[test]
fn what_cannot_be_read() {
    assert_eq!(read("member\n"), Err(1));
    assert_eq!(read(&format!("{MEMBER}# nothing\n\npots 1\n")), Err(4));
    assert_eq!(read(&format!("{MEMBER}year 2014 revaluation 0%")), Err(0));
}

#[test]
fn the_sheet_of_ward_and_clinic() {
    let given = sheet(&case_of(WARD_AND_CLINIC));
    hold_lines(&given, &[
        "WORKSHEET OF A PENSION CASE",
        "born 1970-04-01, retires 2037-04-01, pension age 67 in the 2015 Scheme, 60 in the 1995 Section",
        "YEAR 2015, from 1 April 2015, revaluation 0.00%",
        "Ward                 30h00   37h30         4/5   £24,000.00       £0.00      £30,000.00        £800.00        22h30         7h30   £18,000.00  cut",
        "Clinic               15h00   37h30         2/5   £15,000.00     £500.00      £37,500.00  £1,013.33 1/3        15h00         0h00   £15,500.00  in full",
        "* of the post that is cut, the hours counted are the \"curtailed hours\" of note 001",
        "2 posts         weighted week                                  37h30                (30h00 × 37h30 + 15h00 × 37h30)/45h00",
        "2 posts         pensionable pay                           £33,500.00  exact         the pay counted of all posts",
        "3 years         a 54th of pensionable pay                    £620.37  rounded down  £33,500.00/54",
        "4 final pay     1995 pension                              £10,000.00  exact         £40,000.00 × 7,300/29,200",
        "1 months early  months early, 1995 Section                       -84                born 1970-04-01, retires 2037-04-01, pension age 60",
        "6 debit         debit of the 2015 pension                    £495.05  rounded up    £10,000.00/20.20",
        "6 debit         net 2015 pension, a year                     £125.32                £620.37 − £495.05",
        "6 debit         net lump sum, once                        £30,000.00                £30,000.00 − £0.00",
        "7 charge        employer's charge, once                   £34,336.00                £29,896.00 + £4,440.00",
        "1 to 7          amounts rounded up                                 1                the lines that say \"rounded up\"",
    ]);
    assert_eq!(given.matches("  rounded up  ").count(), 1);
    assert!(given.ends_with("rounded up\"\n"));
}

#[test]
fn a_fraction_of_a_minute() {
    // H is 2,580 and K 5,976,000: 2,316 720/2,580 minutes. C has 2,260,800 of its 2,941,200 parts, and
    // counts 1,314,418.60 pence.
    let given = sheet(&case_of(&format!(
        "{MEMBER}year 2019 revaluation 0%
post A 16h00 of 37h30 £14,400
post B  8h00 of 37h30 £8,640
post C 19h00 of 40h00 £17,100\n"
    )));
    hold_words(&given, &[
        "A 16h00 37h30 32/75 £14,400.00 £0.00 £33,750.00 £900.00 16h00 0h00 £14,400.00 in full",
        "B 8h00 37h30 16/75 £8,640.00 £0.00 £40,500.00 £1,080.00 8h00 0h00 £8,640.00 in full",
        "C 19h00 40h00 19/40 £17,100.00 £0.00 £36,000.00 £900.00 14h36 12/43 4h23 31/43 £13,144.19 cut",
        "2 posts weighted week 38h36 12/43 (16h00 × 37h30 + 8h00 × 37h30 + 19h00 × 40h00)/43h00",
        "2 posts pensionable pay £36,184.19 rounded up the pay counted of all posts",
    ]);
}

#[test]
fn four_posts_are_weighted_in_two_lines() {
    let posts = "post X 10h00 of 37h30 £1\n".repeat(4);
    let given = sheet(&case_of(&format!(
        "{MEMBER}year 2019 revaluation 0%\n{posts}"
    )));
    let first = "(10h00 × 37h30 + 10h00 × 37h30 + 10h00 × 37h30 +";
    let row = format!(
        "2 posts         weighted week {:>38}{:16}{first}",
        "37h30", ""
    );
    let more = format!("{:85}10h00 × 37h30)/40h00", "");
    assert!(
        given.contains(&format!("{row}\n{more}\n2 posts  ")),
        "{given}"
    );
    let empty = blank(&case_of(&format!(
        "{MEMBER}year 2019 revaluation 0%\n{posts}"
    )));
    assert!(!empty.contains('×'));
}

#[test]
fn years_with_a_whole_time_post_and_without_posts() {
    let given = sheet(&case_of(&format!(
        "{MEMBER}year 2019 revaluation 1.7%
post Whole 37h30 of 37h30 £20,000 supplement £500
post Part 5h00 of 37h30 £9,000 supplement £7,000
year 2020 revaluation 3.3%\n"
    )));
    // 2,050,000/54 = 37,962.96; 37,963 × 1.033 = 39,215.779.
    hold_words(&given, &[
        "Whole 37h30 37h30 1 £20,000.00 £500.00 £20,000.00 £546.66 2/3 37h30 0h00 £20,500.00 in full",
        "Part 5h00 37h30 2/15 £9,000.00 £7,000.00 £67,500.00 £1,986.66 2/3 0h00 5h00 £0.00 none",
        "2 posts weighted week none a whole-time post counts by itself: no other hours count",
        "3 years pension carried forward £379.63 £0.00 + £379.63",
        "no posts",
        "2 posts pensionable pay £0.00 exact no posts",
        "3 years pension brought forward £379.63 carried forward from 2019",
        "3 years revalued £392.16 rounded up £379.63 × 1.0330",
        "born 1966-02-20, retires 2032-02-20, pension age 66 in the 2015 Scheme, no section",
    ]);
}

#[test]
fn the_2008_section_early() {
    let given = sheet(&case_of(
        "member born 1966-02-20 retires 2024-08-19 age 66
section 2008 days 10950 pays 30000 30500 31000 36000 36500 36000 34000 34500 38000 36000
factor 2015 91 months 0.785
factor 2008 79 months 0.72
debit 2008 pot 12000 factor 15.35\n",
    ));
    hold_words(&given, &[
        "SECTION 2008, 10,950 days of service",
        "10 £30,000.00",
        "4 ten pays average of three years £36,166.67 rounded up (£34,500.00 + £38,000.00 + £36,000.00)/3",
        "4 ten pays last of the three years 1 years 3, 2 and 1: of equal averages the latest",
        "4 ten pays 2008 pension £18,083.34 rounded up £36,166.67 × 10,950/21,900",
        "2008 79 0.720",
        "3 years 2015 pension before reduction £0.00 no years",
        "5 reduction 2015 pension reduced £0.00 exact £0.00 × 0.785",
        "5 reduction factor, 2008 pension 0.720 given for 79 months",
        "5 reduction 2008 pension reduced £13,020.00 rounded down £18,083.34 × 0.720",
        "6 debit debit of the 2008 pension £781.76 rounded up £12,000.00/15.35",
        "6 debit net 2008 pension, a year £12,238.24 £13,020.00 − £781.76",
    ]);
    assert!(!given.contains("lump sum reduced") && !given.contains("CHARGE"));
}

#[test]
fn allowed_pays() {
    // Year 3 is not controlled, and final pay is below what year 2 is allowed.
    let given = sheet(&case_of(
        "member born 1966-02-20 retires 2032-02-20 age 66
section 1995 pays 30000.31 30500.01 31000 30700 allowances 2.5% 2.5% 2.5% controlled 1 2 days 4000 factor 20\n",
    ));
    hold_words(&given, &[
        "3 £30,500.01 2.5% no",
        "7 charge allowed pay of year 3 £30,500.01 not controlled: its own pay",
        "7 charge allowed pay of year 2 £31,262.51 rounded down the lower of £30,500.01 and £30,500.01, × 1.025",
        "7 charge excess £0.00 £31,000.00 is not above £31,262.51, allowed in year 2",
    ]);
}

#[test]
fn names_on_a_sheet() {
    let given = case_of(&format!(
        "{MEMBER}year 2019 revaluation 0%
post \"a name of seventeen \" 1h00 of 2h00 £1
post \"say \"\"x\"\"\ty\" 1h00 of 2h00 £1
post =1 1h00 of 2h00 £1\n"
    ));
    let print = sheet(&given);
    assert!(print.contains("\na name of seventeen\n                      1h00    2h00         1/2"));
    assert!(print.contains("\nsay \"x\" y             1h00"));
    let table = csv(&given);
    assert!(
        table.contains("\"post\",2019,2,\"say \"\"x\"\"\ty\",\"contract\",,60,,,\"minutes\",\r\n")
    );
    assert!(table.contains("\"post\",2019,3,\"'=1\",\"proportion\",2,,1,2,\"of whole time\",\r\n"));
    assert!(table.lines().all(|line| !line.contains("\n")));
}

/// What is worked is left out of the blank, and what the case says stays.
#[test]
fn the_blank_of_ward_and_clinic() {
    let named = case_of(WARD_AND_CLINIC);
    let given = blank(&named);
    let underscores = |count: usize| "_".repeat(count);
    let ward = [10, 14, 13, 11, 11, 11, 7].map(underscores);
    let [proportion, comparable, rate, counted, left, pay, counts] = ward;
    hold_words(&given, &[
        &format!("Ward 30h00 37h30 {proportion} £24,000.00 £0.00 {comparable} {rate} {counted} {left} {pay} {counts}"),
        &format!("2 posts weighted week {} {}", underscores(20), underscores(12)),
        "2015 49 0.780",
        "2015 £10,000.00 20.20",
    ]);
    assert_eq!(given.lines().count(), sheet(&named).lines().count());
    for worked in [
        "33,500",
        "620.37",
        "125.32",
        "34,336",
        "22h30",
        "-84",
        "rounded down",
        "exact  ",
    ] {
        assert!(!given.contains(worked), "{worked}");
    }
}

/// What is written at random says the case, its names among it.
#[test]
fn what_is_written_is_read() {
    let mut random = Random::new(0x0022);
    for _ in 0..3_000 {
        let case = accepted::case(&mut random);
        let named = named(&mut random, case);
        let lines = named.lines();
        assert!(lines.iter().all(fits));
        assert_eq!(text_of_lines(&lines), case_text(&named.case));
        let given = written(&mut random, &lines);
        let words = String::from_utf8(given.bytes).expect("UTF-8");
        assert_eq!(read(&words).as_ref(), Ok(&named), "{words}");
        let said: Vec<&str> = words.split('\n').collect();
        assert_eq!(given.lines.len(), lines.len());
        for line in given.lines {
            let line = said[line as usize - 1].trim_start_matches(['\u{FEFF}', ' ', '\t']);
            let first = line.split([' ', '\t']).next();
            let known = ["member", "year", "post", "section", "factor", "debit"];
            assert!(first.map_or(false, |word| known.contains(&word)), "{line}");
        }
    }
}
