//! Lines of a case written in words, in spellings drawn at random.

use super::names::{name, spelled};
use super::spelling::{decimal, digits, hours, money, per_cent};
use super::{section_of, Line};
use crate::benefits::FinalPay;
use crate::frames::{Debit, Factor, Frame, Member};
use crate::posts::Post;
use crate::random::Random;
use crate::sheet::figures::date;
use crate::ten_pays::TenPays;

/// Words, and for each line of the text the line in which they say it.
pub struct Written {
    pub bytes: Vec<u8>,
    pub lines: Vec<u64>,
}

/// How a file is written throughout.
struct Style {
    mark: bool,
    last_end: bool,
    /// Once in how many lines there is a CR, a comment, an empty line before it, or more than a blank
    /// between its words.
    returns: u64,
    comments: u64,
    empty: u64,
    wide: u64,
}

impl Style {
    fn drawn(random: &mut Random) -> Style {
        Style {
            mark: random.one_in(4),
            last_end: !random.one_in(4),
            returns: random.pick(&[u64::MAX, u64::MAX, 1, 2]),
            comments: random.pick(&[u64::MAX, 2, 5]),
            empty: random.pick(&[u64::MAX, 3, 10]),
            wide: random.pick(&[u64::MAX, 1, 3]),
        }
    }
}

/// Words of a keyword and what belongs to it.
type Field = Vec<String>;

fn field(keyword: &str, words: impl IntoIterator<Item = String>) -> Field {
    let keyword = std::iter::once(keyword.to_string());
    keyword.chain(words).collect()
}

/// The fields of a line in any order.
fn in_any_order(random: &mut Random, mut fields: Vec<Field>) -> Vec<String> {
    random.shuffle(&mut fields);
    fields.concat()
}

fn member_words(random: &mut Random, member: &Member) -> Vec<String> {
    let age = digits(random, member.pension_age);
    let fields = vec![
        field("born", [date(member.birth)]),
        field("retires", [date(member.retirement)]),
        field("age", [age]),
    ];
    in_any_order(random, fields)
}

fn post_words(random: &mut Random, post: &Post, name: &str) -> Vec<String> {
    let mut words = vec![
        spelled(random, name),
        hours(random, post.contracted),
        "of".to_string(),
        hours(random, post.whole_time),
        money(random, post.pay),
    ];
    if post.supplement > 0 || random.one_in(4) {
        words.extend(field("supplement", [money(random, post.supplement)]));
    }
    words
}

/// The controlled years in any order.
fn controlled_words(random: &mut Random, given: &FinalPay) -> Vec<String> {
    let years = (1..=3).filter(|&year| given.controlled(year));
    let mut years: Vec<String> = years.map(|year| year.to_string()).collect();
    random.shuffle(&mut years);
    if years.is_empty() {
        years.push("none".to_string());
    }
    years
}

fn final_pay_words(random: &mut Random, given: &FinalPay) -> Vec<String> {
    let fields = vec![
        field("pays", given.pays.map(|pay| money(random, pay))),
        field(
            "allowances",
            given.allowances.map(|part| per_cent(random, part, 1)),
        ),
        field("controlled", controlled_words(random, given)),
        field("days", [digits(random, given.days)]),
        field("factor", [decimal(random, given.factor, 2)]),
    ];
    let mut words = vec!["1995".to_string()];
    words.extend(in_any_order(random, fields));
    words
}

fn ten_pays_words(random: &mut Random, given: &TenPays) -> Vec<String> {
    let fields = vec![
        field("pays", given.pays.map(|pay| money(random, pay))),
        field("days", [digits(random, given.days)]),
    ];
    let mut words = vec!["2008".to_string()];
    words.extend(in_any_order(random, fields));
    words
}

/// The year that names a scheme for a member of the section, or of none. Without a section a lump factor
/// can only be said of the 1995.
fn scheme_word(random: &mut Random, section: u64, scheme: u64, lump_factor: u64) -> &'static str {
    let either = random.pick(&["1995", "2008"]);
    match (scheme, section) {
        (0, _) => "2015",
        (1, 1) | (2, 2) => "1995",
        (1, 2) | (2, 1) => "2008",
        _ if lump_factor > 0 => "1995",
        _ => either,
    }
}

fn factor_words(random: &mut Random, factor: &Factor, section: u64) -> Vec<String> {
    let scheme = scheme_word(random, section, factor.scheme, factor.lump_sum);
    let mut words = vec![
        scheme.to_string(),
        digits(random, factor.months),
        "months".to_string(),
        decimal(random, factor.pension, 3),
    ];
    if scheme == "1995" {
        words.extend(field("lump", [decimal(random, factor.lump_sum, 3)]));
    }
    words
}

fn debit_words(random: &mut Random, debit: &Debit, section: u64) -> Vec<String> {
    let fields = vec![
        field("pot", [money(random, debit.pot)]),
        field("factor", [decimal(random, debit.factor, 2)]),
    ];
    let scheme = scheme_word(random, section, debit.scheme, 0);
    let mut words = vec![scheme.to_string()];
    words.extend(in_any_order(random, fields));
    words
}

/// The words of a line.
fn words_of(random: &mut Random, line: &Line, section: u64) -> Vec<String> {
    let (first, rest) = match &line.frame {
        Frame::Member(member) => ("member", member_words(random, member)),
        Frame::Year { april, revaluation } => {
            let revaluation = per_cent(random, *revaluation, 2);
            let april = april.to_string();
            ("year", vec![april, "revaluation".to_string(), revaluation])
        }
        Frame::Post(post) => ("post", post_words(random, post, &line.name)),
        Frame::FinalPay(given) => ("section", final_pay_words(random, given)),
        Frame::TenPays(given) => ("section", ten_pays_words(random, given)),
        Frame::Factor(factor) => ("factor", factor_words(random, factor, section)),
        Frame::Debit(debit) => ("debit", debit_words(random, debit, section)),
    };
    field(first, rest)
}

/// What stands between words, or around them.
fn space(random: &mut Random, style: &Style) -> &'static str {
    if random.one_in(style.wide) {
        random.pick(&["\t", "  ", " \t ", "        "])
    } else {
        " "
    }
}

fn comment(random: &mut Random) -> String {
    let start = random.pick(&["#", " # ", "\t#", "## \"", " #post "]);
    format!("{start}{}", name(random))
}

/// The words of a line as they stand in it, with a comment behind them or not.
fn spaced(random: &mut Random, style: &Style, words: &[String]) -> String {
    let mut line = String::new();
    if random.one_in(style.wide) {
        line.push_str(space(random, style));
    }
    for (place, word) in words.iter().enumerate() {
        if place > 0 {
            line.push_str(space(random, style));
        }
        line.push_str(word);
    }
    if random.one_in(style.wide) {
        line.push_str(space(random, style));
    }
    if random.one_in(style.comments) {
        line.push_str(&comment(random));
    }
    line
}

/// A line that says nothing.
fn saying_nothing(random: &mut Random, style: &Style) -> String {
    match random.below(3) {
        0 => String::new(),
        1 => space(random, style).to_string(),
        _ => comment(random),
    }
}

/// Writes lines in words.
pub fn written(random: &mut Random, lines: &[Line]) -> Written {
    let style = Style::drawn(random);
    let section = section_of(lines);
    let mut file: Vec<String> = Vec::new();
    let mut numbers = Vec::new();
    for line in lines {
        while random.one_in(style.empty) {
            file.push(saying_nothing(random, &style));
        }
        let words = words_of(random, line, section);
        file.push(spaced(random, &style, &words));
        numbers.push(file.len() as u64);
    }
    while random.one_in(style.empty) {
        file.push(saying_nothing(random, &style));
    }
    let mut text = String::from(if style.mark { "\u{FEFF}" } else { "" });
    let count = file.len();
    for (place, line) in file.into_iter().enumerate() {
        text.push_str(&line);
        if place + 1 < count || style.last_end {
            text.push_str(if random.one_in(style.returns) {
                "\r\n"
            } else {
                "\n"
            });
        }
    }
    Written {
        bytes: text.into_bytes(),
        lines: numbers,
    }
}
