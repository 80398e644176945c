//! Words that cannot be read: a line among those of an accepted case that says nothing for sure. It is
//! told with its place, before anything is worked.

use crate::running::{differ, Ended, Program};
use second::random::Random;
use second::samples::accepted::case;
use second::tally::Tally;
use second::words::names::named;
use second::words::writing::written;

/// How often each of the lines is tried.
const TIMES: u64 = 3;

pub const UNREADABLE: u64 = TIMES * LINES.len() as u64;

const CLASS: &str = "unreadable words";

/// Lines that cannot be read.
const LINES: &[&[u8]] = &[
    b"pots",
    b"Member born 1970-04-01 retires 2037-04-01 age 67",
    b"member",
    b"member born 1970-04-01 retires 2037-04-01",
    b"member born 1970-04-01 retires 2037-04-01 age",
    b"member born 1970-04-01 retires 2037-04-01 age 67 age 67",
    b"member born 1970-04-01 retires 2037-04-01 age 67 67",
    b"member born 1970-4-1 retires 2037-04-01 age 67",
    b"member born 01/04/1970 retires 2037-04-01 age 67",
    b"member born 1970-04-01 retires 2037-04-01 age 67.0",
    b"member born 1970-04-01 retires 2037-04-01 age -67",
    b"member born 1970-04-01 retires 2037-04-01 age +67",
    b"member born 1970-04-01 retires 2037-04-01 age sixty",
    b"member born 1970-04-01 retires 2037-04-01 age \"67\"",
    b"year revaluation 1%",
    b"year 2015",
    b"year 2015 revaluation",
    b"year 2015 revaluation 1",
    b"year 2015 revaluation 1.500%",
    b"year 2015 revaluation 1.%",
    b"year 2015 revaluation .5%",
    b"year 2015 revaluation 1 %",
    b"year 2015 revaluation -1%",
    b"year 2015 revaluation 1% revaluation 1%",
    b"year 2015 revaluation 1,5%",
    b"year 2015 revaluation 1e1%",
    b"post",
    b"post Ward",
    b"post Ward 30h00 of 37h30",
    b"post 30h00 of 37h30 24000",
    b"post Ward 30h00 37h30 24000",
    b"post Ward 30h0 of 37h30 24000",
    b"post Ward 30h60 of 37h30 24000",
    b"post Ward 30h000 of 37h30 24000",
    b"post Ward 30:5 of 37h30 24000",
    b"post Ward 30.5h of 37h30 24000",
    b"post Ward h30 of 37h30 24000",
    b"post Ward 30.01 of 37h30 24000",
    b"post Ward 30. of 37h30 24000",
    b"post Ward .5 of 37h30 24000",
    b"post Ward 30h00 of 37.51 24000",
    b"post Ward 30h00 of 37h30 24000.000",
    b"post Ward 30h00 of 37h30 24000.",
    b"post Ward 30h00 of 37h30 24,00",
    b"post Ward 30h00 of 37h30 2400,000",
    b"post Ward 30h00 of 37h30 ,240",
    b"post Ward 30h00 of 37h30 24,000,",
    b"post Ward 30h00 of 37h30 \xC2\xA3",
    b"post Ward 30h00 of 37h30 \xA324000",
    b"post Ward 30h00 of 37h30 $24000",
    b"post Ward 30h00 of 37h30 \xC2\xA3\xC2\xA324000",
    b"post Ward 30h00 of 37h30 24000 500",
    b"post Ward 30h00 of 37h30 24000 supplement",
    b"post Ward 30h00 of 37h30 24000 supplement 1 supplement 1",
    b"post Ward 30h00 of 37h30 24000 supplements 1",
    b"post Night ward 30h00 of 37h30 24000",
    b"post \"\" 30h00 of 37h30 24000",
    b"post \"Ward 30h00 of 37h30 24000",
    b"post \"Ward\"30h00 of 37h30 24000",
    b"post Wa\"rd 30h00 of 37h30 24000",
    b"post Ward# 30h00 of 37h30 24000",
    b"section",
    b"section 2015 pays 1 1 1 1 1 1 1 1 1 1 days 1",
    b"section 1995 pays 1 1 1 allowances 1% 1% 1% controlled none days 1 factor 1",
    b"section 1995 pays 1 1 1 1 1 allowances 1% 1% 1% controlled none days 1 factor 1",
    b"section 1995 pays 1 1 1 1 allowances 1% 1% controlled none days 1 factor 1",
    b"section 1995 pays 1 1 1 1 allowances 1.25% 1% 1% controlled none days 1 factor 1",
    b"section 1995 pays 1 1 1 1 allowances 1% 1% 1% controlled days 1 factor 1",
    b"section 1995 pays 1 1 1 1 allowances 1% 1% 1% controlled 4 days 1 factor 1",
    b"section 1995 pays 1 1 1 1 allowances 1% 1% 1% controlled 3 3 days 1 factor 1",
    b"section 1995 pays 1 1 1 1 allowances 1% 1% 1% controlled none 3 days 1 factor 1",
    b"section 1995 pays 1 1 1 1 allowances 1% 1% 1% controlled 3 none days 1 factor 1",
    b"section 1995 pays 1 1 1 1 allowances 1% 1% 1% controlled none factor 1",
    b"section 1995 pays 1 1 1 1 allowances 1% 1% 1% controlled none days 1,000 factor 1",
    b"section 1995 pays 1 1 1 1 allowances 1% 1% 1% controlled none days 1 factor 1.234",
    b"section 2008 pays 1 1 1 1 1 1 1 1 1 days 1",
    b"section 2008 pays 1 1 1 1 1 1 1 1 1 1 1 days 1",
    b"section 2008 pays 1 1 1 1 1 1 1 1 1 1 days 1 factor 1",
    b"factor 2015 49",
    b"factor 2015 49 month 0.780",
    b"factor 2015 49 months",
    b"factor 2015 49 months 0.7801",
    b"factor 2015 49 months 78%",
    b"factor 2015 49 months 0.780 lump 0.780",
    b"factor 2008 49 months 0.780 lump 0.780",
    b"factor 1995 49 months 0.780",
    b"factor 1995 49 months 0.780 lump 0.780 lump 0.780",
    b"factor 2016 49 months 0.780",
    b"debit 2015 pot 10000",
    b"debit 2015 factor 20.20",
    b"debit 2015 pot 10000 factor 20.200",
    b"debit 2015 pot 10000 pot 10000 factor 20.20",
    b"debit pot 10000 factor 20.20",
    b"# a lone \r return",
    b"# a \x00 nought",
    b"# a \x1B control character",
    b"# a \x7F control character",
    b"# a \xC2\x85 control character",
    b"# a byte \xFF",
    b"# a byte \x80",
    b"# cut short \xE2\x82",
    b"# overlong \xC0\xAF",
    b"# overlong \xE0\x80\xAF",
    b"# a surrogate \xED\xA0\x80",
    b"# too high \xF4\x90\x80\x80",
];

pub fn expect(tally: &mut Tally) {
    tally.expect(CLASS, UNREADABLE);
}

/// A message with a place in a line.
fn tells_place(told: &str, line: usize) -> Option<()> {
    let start = format!("canyonsieve-sheet: line {line}, column ");
    let (column, words) = told.strip_prefix(&start)?.split_once(": ")?;
    let place: usize = column.parse().ok()?;
    let words = words.strip_suffix('\n')?;
    (place > 0 && !words.is_empty() && !words.contains('\n')).then_some(())
}

fn hold_place(input: &[u8], given: &Ended, line: usize) {
    let silent = given.status == Some(2) && given.output.is_empty();
    if !silent || tells_place(&given.errors, line).is_none() {
        differ(CLASS, input, &format!("{given:?}\nexpected: line {line}"));
    }
}

/// Holds the program to the place of the unreadable line of a number.
pub fn hold_unreadable(program: &Program, tally: &mut Tally, number: u64, seed: u64) {
    let mut random = Random::new(seed.rotate_left(22).wrapping_add(number));
    let case = case(&mut random);
    let named = named(&mut random, case);
    let words = written(&mut random, &named.lines()).bytes;
    let mut lines: Vec<&[u8]> = words.split(|&byte| byte == b'\n').collect();
    // Not before the first, where a mark may stand.
    let place = 1 + random.place(lines.len());
    lines.insert(place, LINES[number as usize % LINES.len()]);
    let words = lines.join(&b'\n');
    let way = random.pick(&["--text", "--csv", "--blank"]);
    let given = program.run(&[way], &words);
    hold_place(&words, &given, place + 1);
    tally.add(CLASS);
}
