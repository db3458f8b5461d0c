//! The two kinds of value: whole numbers and texts.

use crate::refusal::Refusal;

/// A kind of value, which can be read from bytes and written as bytes.
pub trait Value: Copy + PartialEq {
    const BLANK: Self;

    fn read(bytes: &[u8]) -> Result<Self, Refusal>;

    fn write(&self, out: &mut Vec<u8>);
}

/// How far a whole number may lie from 0.
pub const LIMIT: i64 = 1_000_000_000;

const DIGITS: usize = 10;

/// A whole number within the limits.
#[derive(Clone, Copy, PartialEq, Eq, Debug)]
pub struct Whole(i32);

impl Whole {
    pub fn new(number: i64) -> Option<Whole> {
        if number.abs() <= LIMIT { Some(Whole(number as i32)) } else { None }
    }

    pub fn number(self) -> i64 {
        i64::from(self.0)
    }
}

// The number that the digits write, if there are some, not too many, and no leading zero.
fn magnitude(digits: &[u8]) -> Option<i64> {
    match digits {
        [b'0'] => return Some(0),
        [] | [b'0', ..] => return None,
        _ if digits.len() > DIGITS => return None,
        _ => {}
    }
    let mut number = 0;
    for &digit in digits {
        if !digit.is_ascii_digit() {
            return None;
        }
        number = number * 10 + i64::from(digit - b'0');
    }
    Some(number)
}

impl Value for Whole {
    const BLANK: Whole = Whole(0);

    fn read(bytes: &[u8]) -> Result<Whole, Refusal> {
        let number = match bytes {
            [b'-', b'0', ..] => None,
            [b'-', digits @ ..] => magnitude(digits).map(|number| -number),
            digits => magnitude(digits),
        };
        number.and_then(Whole::new).ok_or(Refusal::NotANumber)
    }

    fn write(&self, out: &mut Vec<u8>) {
        if self.0 < 0 {
            out.push(b'-');
        }
        write_number(self.0.unsigned_abs(), out);
    }
}

/// Writes a number in decimal.
pub fn write_number(number: u32, out: &mut Vec<u8>) {
    let mut digits = [0; DIGITS];
    let mut start = DIGITS;
    let mut rest = number;
    loop {
        start -= 1;
        digits[start] = b'0' + (rest % 10) as u8;
        rest /= 10;
        if rest == 0 {
            break;
        }
    }
    out.extend_from_slice(&digits[start..]);
}

/// The most bytes that a text has.
pub const LONGEST: usize = 32;

/// A text. Zeros follow its bytes, so that equal texts are equal records.
#[derive(Clone, Copy, PartialEq, Eq, Debug)]
pub struct Text {
    bytes: [u8; LONGEST],
    len: u8,
}

impl Text {
    pub fn as_slice(&self) -> &[u8] {
        &self.bytes[..self.len as usize]
    }

    pub fn is_empty(&self) -> bool {
        self.len == 0
    }

    /// Puts bytes behind the text; `None` and no change where they do not fit.
    pub fn append(&mut self, more: &[u8]) -> Option<()> {
        let start = self.len as usize;
        let end = start + more.len();
        self.bytes.get_mut(start..end)?.copy_from_slice(more);
        self.len = end as u8;
        Some(())
    }

    /// Puts one byte behind the text; `None` and no change where it does not fit.
    pub fn push(&mut self, byte: u8) -> Option<()> {
        *self.bytes.get_mut(self.len as usize)? = byte;
        self.len += 1;
        Some(())
    }
}

impl Value for Text {
    const BLANK: Text = Text { bytes: [0; LONGEST], len: 0 };

    fn read(bytes: &[u8]) -> Result<Text, Refusal> {
        let mut text = Text::BLANK;
        if bytes.iter().any(|byte| !(b' '..=b'~').contains(byte)) {
            return Err(Refusal::NotAText);
        }
        text.append(bytes).ok_or(Refusal::NotAText)?;
        Ok(text)
    }

    fn write(&self, out: &mut Vec<u8>) {
        out.extend_from_slice(self.as_slice());
    }
}
