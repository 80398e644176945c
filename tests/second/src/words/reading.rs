//! A small reader of cases in words, for files that say a case rightly: it looks for nothing but what it
//! needs, and says of anything else that it cannot be read.

use super::{Line, Named};
use crate::benefits::FinalPay;
use crate::calendar::Date;
use crate::frames::{Debit, Factor, Frame, Member};
use crate::posts::Post;
use crate::ten_pays::TenPays;
use std::str::Chars;

/// The words of a line up to a comment.
fn words_of(line: &str) -> Option<Vec<String>> {
    let mut words = Vec::new();
    let mut rest = line.chars();
    loop {
        rest = rest.as_str().trim_start_matches([' ', '\t']).chars();
        match rest.clone().next() {
            None | Some('#') => return Some(words),
            Some('"') => words.push(quoted(&mut rest)?),
            Some(_) => {
                let text = rest.as_str();
                let end = text.find([' ', '\t', '#', '"']);
                let (word, behind) = text.split_at(end.unwrap_or(text.len()));
                words.push(word.to_string());
                rest = behind.chars();
            }
        }
    }
}

/// The word in quotes that comes first.
fn quoted(rest: &mut Chars) -> Option<String> {
    let mut word = String::new();
    rest.next();
    loop {
        match rest.next()? {
            '"' if rest.as_str().starts_with('"') => {
                rest.next();
                word.push('"');
            }
            '"' => return Some(word),
            other => word.push(other),
        }
    }
}

/// A number with at most so many decimals, as a whole number of its last.
fn decimal(word: &str, decimals: usize) -> Option<u64> {
    let (whole, behind) = word.split_once('.').unwrap_or((word, ""));
    if behind.len() > decimals {
        return None;
    }
    format!("{whole}{behind:0<decimals$}").parse().ok()
}

fn number(word: &str) -> Option<u64> {
    decimal(word, 0)
}

fn per_cent(word: &str, decimals: usize) -> Option<u64> {
    decimal(word.strip_suffix('%')?, decimals)
}

fn money(word: &str) -> Option<u64> {
    let pounds = word.strip_prefix('£').unwrap_or(word);
    decimal(&pounds.replace(',', ""), 2)
}

/// The minutes of hours in any of their spellings.
fn hours(word: &str) -> Option<u64> {
    if let Some((hours, minutes)) = word.split_once(['h', ':']) {
        return Some(60 * number(hours)? + number(minutes)?);
    }
    let (whole, behind) = word.split_once('.').unwrap_or((word, "0"));
    let parts = 10u64.checked_pow(behind.len() as u32)?;
    let rest = 60 * number(behind)?;
    (rest % parts == 0).then_some(60 * number(whole)? + rest / parts)
}

fn date(word: &str) -> Option<Date> {
    let numbers: Option<Vec<u64>> = word.split('-').map(number).collect();
    let [year, month, day] = numbers?[..] else {
        return None;
    };
    Some(Date { year, month, day })
}

/// So many words behind a keyword.
fn behind<'line>(words: &'line [String], keyword: &str, count: usize) -> Option<&'line [String]> {
    let place = words.iter().position(|word| word == keyword)?;
    words.get(place + 1..=place + count)
}

/// The word behind a keyword.
fn one<'line>(words: &'line [String], keyword: &str) -> Option<&'line str> {
    Some(&behind(words, keyword, 1)?[0])
}

/// The numbers of words, all of them read in the same way.
fn all<const COUNT: usize>(
    words: &[String],
    read: impl Fn(&str) -> Option<u64>,
) -> Option<[u64; COUNT]> {
    let numbers: Option<Vec<u64>> = words.iter().map(|word| read(word)).collect();
    numbers?.try_into().ok()
}

/// The member; its section is said elsewhere.
fn member(words: &[String]) -> Option<Member> {
    Some(Member {
        birth: date(one(words, "born")?)?,
        retirement: date(one(words, "retires")?)?,
        section: 0,
        pension_age: number(one(words, "age")?)?,
        section_pension_age: 0,
    })
}

fn post(words: &[String]) -> Option<(Post, String)> {
    let [name, contracted, _, whole_time, pay, rest @ ..] = words else {
        return None;
    };
    let supplement = match rest {
        [] => 0,
        _ => money(one(rest, "supplement")?)?,
    };
    let numbers = [
        hours(contracted)?,
        hours(whole_time)?,
        money(pay)?,
        supplement,
    ];
    Some((Post::of(&numbers), name.clone()))
}

/// The controls of the years named: bits 0, 1, 2 for years 3, 2, 1.
fn controls(words: &[String]) -> Option<u64> {
    let place = words.iter().position(|word| word == "controlled")?;
    let years = words[place + 1..].iter();
    let bit = |word: &String| ["3", "2", "1"].iter().position(|year| year == word);
    Some(years.map_while(bit).map(|bit| 1 << bit).sum())
}

fn section(words: &[String]) -> Option<Frame> {
    let days = number(one(words, "days")?)?;
    if words.first()? == "2008" {
        let pays = all(behind(words, "pays", 10)?, money)?;
        return Some(Frame::TenPays(TenPays { pays, days }));
    }
    Some(Frame::FinalPay(FinalPay {
        pays: all(behind(words, "pays", 4)?, money)?,
        allowances: all(behind(words, "allowances", 3)?, |word| per_cent(word, 1))?,
        controls: controls(words)?,
        days,
        factor: decimal(one(words, "factor")?, 2)?,
    }))
}

fn factor(words: &[String]) -> Option<Factor> {
    let [scheme, months, _, pension, rest @ ..] = words else {
        return None;
    };
    let lump_sum = match rest {
        [] => 0,
        _ => decimal(one(rest, "lump")?, 3)?,
    };
    Some(Factor {
        scheme: u64::from(scheme != "2015"),
        months: number(months)?,
        pension: decimal(pension, 3)?,
        lump_sum,
    })
}

fn debit(words: &[String]) -> Option<Debit> {
    Some(Debit {
        scheme: u64::from(words.first()? != "2015"),
        pot: money(one(words, "pot")?)?,
        factor: decimal(one(words, "factor")?, 2)?,
    })
}

/// The line of words.
fn line_of(words: &[String]) -> Option<Line> {
    let (first, words) = words.split_first()?;
    let frame = match first.as_str() {
        "member" => Frame::Member(member(words)?),
        "year" => Frame::Year {
            april: number(words.first()?)?,
            revaluation: per_cent(one(words, "revaluation")?, 2)?,
        },
        "post" => {
            let (post, name) = post(words)?;
            let frame = Frame::Post(post);
            return Some(Line { frame, name });
        }
        "section" => section(words)?,
        "factor" => Frame::Factor(factor(words)?),
        "debit" => Frame::Debit(debit(words)?),
        _ => return None,
    };
    Some(Line::of(frame))
}

/// The case of a file of words, or the line that cannot be read; 0 where a line is refused.
pub fn read(file: &str) -> Result<Named, usize> {
    let file = file.strip_prefix('\u{FEFF}').unwrap_or(file);
    let mut lines = Vec::new();
    for (number, line) in (1usize..).zip(file.split('\n')) {
        let line = line.strip_suffix('\r').unwrap_or(line);
        let words = words_of(line).ok_or(number)?;
        if !words.is_empty() {
            lines.push(line_of(&words).ok_or(number)?);
        }
    }
    Named::of(&lines).map_err(|_| 0)
}
