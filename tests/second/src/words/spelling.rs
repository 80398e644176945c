//! Numbers as people may write them.

use crate::random::Random;
use crate::sheet::figures::with_commas;

/// The largest number stands for any that has more bits.
const MORE_DIGITS: &str = "99999999999999999999999999999999";

/// Decimal digits, at times with noughts in front.
pub fn digits(random: &mut Random, number: u64) -> String {
    if number == u64::MAX {
        return MORE_DIGITS.to_string();
    }
    let noughts = if random.one_in(12) {
        random.between(1, 5) as usize
    } else {
        0
    };
    format!("{}{number}", "0".repeat(noughts))
}

/// A whole number of tenths, hundredths or thousandths with at most so many decimals.
pub fn decimal(random: &mut Random, number: u64, decimals: usize) -> String {
    let unit = 10u64.pow(decimals as u32);
    let whole = digits(random, number / unit);
    with_decimals(random, whole, number % unit, decimals)
}

/// The decimals behind a whole number, noughts at their end left out or not.
fn with_decimals(random: &mut Random, whole: String, rest: u64, decimals: usize) -> String {
    let mut behind = format!("{rest:0decimals$}");
    while behind.ends_with('0') && random.one_in(2) {
        behind.pop();
    }
    if behind.is_empty() {
        whole
    } else {
        format!("{whole}.{behind}")
    }
}

pub fn per_cent(random: &mut Random, number: u64, decimals: usize) -> String {
    format!("{}%", decimal(random, number, decimals))
}

/// Pence as pounds, with a sign, with commas and with pence, or without.
pub fn money(random: &mut Random, pence: u64) -> String {
    let sign = if random.one_in(2) { "£" } else { "" };
    if pence == u64::MAX {
        return format!("{sign}{MORE_DIGITS}");
    }
    let pounds = if random.one_in(2) {
        with_commas(pence / 100)
    } else {
        digits(random, pence / 100)
    };
    let amount = with_decimals(random, pounds, pence % 100, 2);
    format!("{sign}{amount}")
}

/// Minutes as hours in one of three spellings. Decimals are taken where they come out.
pub fn hours(random: &mut Random, minutes: u64) -> String {
    let (hours, rest) = (digits(random, minutes / 60), minutes % 60);
    match random.below(3) {
        0 if rest % 3 == 0 => {
            let noughts = "0".repeat(random.pick(&[0, 0, 1, 3]));
            let written = with_decimals(random, hours, rest * 100 / 60, 2);
            if written.contains('.') {
                format!("{written}{noughts}")
            } else {
                written
            }
        }
        1 => format!("{hours}:{rest:02}"),
        _ => format!("{hours}h{rest:02}"),
    }
}

#[cfg(test)]
mod tests {
    use super::*;
    use std::collections::BTreeSet;

    fn all(spell: impl Fn(&mut Random) -> String) -> BTreeSet<String> {
        let mut random = Random::new(1);
        let drawn = (0..2_000).map(|_| spell(&mut random));
        drawn.filter(|word| !word.contains("00000")).collect()
    }

    fn holds(words: &BTreeSet<String>, wanted: &[&str]) {
        for word in wanted {
            assert!(words.contains(*word), "{word}");
        }
    }

    #[test]
    fn money_in_its_spellings() {
        let words = all(|random| money(random, 2_400_050));
        holds(&words, &["£24,000.50", "24000.5", "£24000.50", "24,000.5"]);
        assert!(!words.contains("24,000"));
        let words = all(|random| money(random, 100));
        holds(&words, &["£1", "1", "1.0", "£1.00", "01"]);
    }

    #[test]
    fn hours_in_their_spellings() {
        let words = all(|random| hours(random, 1_830));
        holds(
            &words,
            &["30h30", "30:30", "30.5", "30.50", "30.5000", "030h30"],
        );
        let words = all(|random| hours(random, 61));
        assert!(words.iter().all(|word| !word.contains('.')));
    }

    #[test]
    fn decimals_in_their_spellings() {
        let words = all(|random| per_cent(random, 150, 2));
        holds(&words, &["1.5%", "1.50%", "01.50%"]);
        let words = all(|random| decimal(random, 1_000, 3));
        holds(&words, &["1", "1.0", "1.00", "1.000"]);
    }
}
