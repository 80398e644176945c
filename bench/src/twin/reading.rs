//! A line of digits as numbers.

/// What the table has for a character that is no digit.
const NO_DIGIT: u8 = 0xF0;

/// Each character's value as a digit.
const DIGITS: [u8; 256] = digits();

const fn digits() -> [u8; 256] {
    let mut table = [NO_DIGIT; 256];
    let mut value = 0;
    while value < 16 {
        table[b"0123456789ABCDEF"[value] as usize] = value as u8;
        value += 1;
    }
    table
}

/// The fields of one line, read from left to right.
pub struct Fields<'t> {
    rest: &'t [u8],
    /// All digits read, one laid over the other: above 15 where a character was no digit.
    seen: u8,
}

impl Fields<'_> {
    /// The next field of so many bytes.
    #[inline(always)]
    pub fn number(&mut self, width: usize) -> u64 {
        let (characters, rest) = self.rest.split_at(2 * width);
        self.rest = rest;
        let mut number = 0;
        for &character in characters {
            let digit = DIGITS[usize::from(character)];
            self.seen |= digit;
            number = number << 4 | u64::from(digit);
        }
        number
    }
}

/// The fields of the line that the text begins with, and the text after it. `LENGTH` is what a line
/// of its kind has with its 0A, and `read` takes what follows the kind.
#[inline(always)]
pub fn line<const LENGTH: usize, Frame>(
    text: &[u8],
    read: impl FnOnce(&mut Fields) -> Frame,
) -> Result<(Frame, &[u8]), u64> {
    if text.len() < LENGTH || text[LENGTH - 1] != b'\n' {
        return Err(why_no_frame(text));
    }
    let (characters, after) = text.split_at(LENGTH);
    let mut fields = Fields {
        rest: &characters[2..LENGTH - 1],
        seen: 0,
    };
    let frame = read(&mut fields);
    if fields.seen > 15 {
        return Err(why_no_frame(text));
    }
    Ok((frame, after))
}

/// Refusal 2 or 3 of the line that the text begins with, which is no frame.
#[cold]
pub fn why_no_frame(text: &[u8]) -> u64 {
    let is_digit = |&&character: &&u8| DIGITS[usize::from(character)] < 16;
    let length = text.iter().take_while(is_digit).count();
    let ended = text.get(length) == Some(&b'\n');
    if ended && length > 0 && length % 2 == 0 {
        3
    } else {
        2
    }
}
