//! The steps call beside the case call: every word of what it gives, and what the two must share.

use crate::{fail, hexadecimal};
use second::steps::UP;
use second::tally::Tally;
use second::{engine, Outcome, Steps};

/// The classes of texts whose steps are compared.
const TEXTS: &str = "inputs of the steps call";
const WORKED: &str = "steps: every step of a worked case";
const REFUSED: &str = "steps: nothing but a refusal and its line";

/// The least that is asked of the worked and of the refused.
const LEAST: u64 = 100_000;

pub fn expect_steps(tally: &mut Tally) {
    tally.expect(TEXTS, 2 * LEAST);
    tally.expect(WORKED, LEAST);
    tally.expect(REFUSED, LEAST);
}

/// What steps have in common with the answer of the case call.
fn shared(steps: &Steps) -> Outcome {
    Outcome {
        refusal: steps.refusal,
        line: steps.line,
        net_2015: steps.pension_2015.net,
        net_1995: steps.pension_1995.net,
        net_lump_sum: steps.lump_sum.net,
        charge: steps.charge.charge,
        rounded_up: steps.rounded_up,
    }
}

/// How many of the numbers went up.
fn numbers_up(steps: &Steps) -> u64 {
    let numbers = steps.numbers().into_iter();
    numbers.filter(|number| number.way == UP).count() as u64
}

/// Compares the steps of a text with the second program's, and with the engine's answer to the case
/// call.
pub fn compare_steps(tally: &mut Tally, text: &[u8], answer: &Outcome, expected: &Steps) {
    let given = engine::steps(text);
    if given != *expected {
        fail("steps", &hexadecimal(text), given, expected);
    }
    if shared(&given) != *answer {
        fail("steps and case", &hexadecimal(text), given, answer);
    }
    if numbers_up(&given) != given.rounded_up {
        let count = numbers_up(&given);
        fail("the ways of steps", &hexadecimal(text), given, count);
    }
    let nothing = Steps::refused(given.refusal, given.line);
    if given.refusal != 0 && given != nothing {
        fail("refused steps", &hexadecimal(text), given, nothing);
    }
    tally.add(TEXTS);
    tally.add(if given.refusal == 0 { WORKED } else { REFUSED });
}
