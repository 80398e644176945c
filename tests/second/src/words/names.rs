//! The names of posts: plain, with blanks and quotes, in any script, long, and such as a spreadsheet
//! would take for a formula.

use super::Named;
use crate::cases::Case;
use crate::random::Random;

/// Names that are telling by themselves.
const TELLING: &[&str] = &[
    "Ward",
    "Clinic",
    "Night bank",
    "Ärztin",
    "nuit à l'hôpital",
    "病棟",
    "Отделение №2",
    "🏥",
    "e\u{301}te\u{301} 16 accents",
    "seventeen letters",
    "exactly sixteen.",
    "=SUM(A1:A9)",
    "+44",
    "-1",
    "@home",
    "＝1",
    "＋",
    "－x",
    "＠",
    "  =behind blanks",
    "\tbehind a tab",
    "\t@both",
    "tab\tinside",
    " ",
    "                    ",
    "ends in a blank ",
    "#1",
    "say \"hello\"",
    "\"",
    "\"\"",
    "a,b",
    "of",
    "supplement",
    "post",
    "30h00",
    "£1,000",
    "'",
    "\u{A0}",
    "\u{300}\u{301}",
    "\u{FEFF}",
    "\u{2028}",
    "\u{10FFFF}",
];

/// A character of some script that may stand in a name.
fn character(random: &mut Random) -> char {
    let (low, high) = random.pick(&[
        (0x20, 0x7E),
        (0x20, 0x7E),
        (0x61, 0x7A),
        (0xA0, 0xFF),
        (0x300, 0x36F),
        (0x370, 0x4FF),
        (0x4E00, 0x9FFF),
        (0xE000, 0xFFFF),
        (0x1_F300, 0x1_F6FF),
        (0x1_0000, 0x10_FFFF),
    ]);
    char::from_u32(random.between(low, high) as u32).expect("no surrogate")
}

/// How long the longest names are.
const LONGEST: u64 = 20_000;

/// Any name; one in some thousands is far longer than a line of a sheet.
pub fn name(random: &mut Random) -> String {
    if random.below(3) != 0 {
        return random.pick(TELLING).to_string();
    }
    let long = random.between(17, 400);
    let length = match random.one_in(700) {
        true => LONGEST,
        false => random.pick(&[1, 2, 5, 8, 15, 16, 17, 18, long]),
    };
    (0..length).map(|_| character(random)).collect()
}

/// Names for the years of a case with so many posts each. Some are alike.
fn names(random: &mut Random, counts: &[usize]) -> Vec<Vec<String>> {
    let few = random.between(1, 4);
    let known: Vec<String> = (0..few).map(|_| name(random)).collect();
    let mut any = || match random.below(3) {
        0 => name(random),
        _ => known[random.place(known.len())].clone(),
    };
    let of_year = |&count: &usize| (0..count).map(|_| any()).collect();
    counts.iter().map(of_year).collect()
}

/// A case with names for its posts.
pub fn named(random: &mut Random, case: Case) -> Named {
    let counts: Vec<usize> = case.years.iter().map(|year| year.posts.len()).collect();
    let names = names(random, &counts);
    Named { case, names }
}

/// A name as it is written: as it is, where that can be, or in quotes.
pub fn spelled(random: &mut Random, name: &str) -> String {
    let parting = |character: char| " \t#\"".contains(character);
    if name.contains(parting) || random.one_in(3) {
        format!("\"{}\"", name.replace('"', "\"\""))
    } else {
        name.to_string()
    }
}
