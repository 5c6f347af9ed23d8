//! "Fields parted by one tab, each line ended by LF": taking them from a text and laying them into one.

use crate::refusal::{Fault, Refusal};
use crate::series::{Asked, Date, Nature, Series};

const TAB: u8 = b'\t';
const LF: u8 = b'\n';

/// "Text: too long by bytes, line 0"; "empty text (line 0)" is 1.
pub(crate) fn check_length(text: &[u8], most: usize) -> Result<(), Fault> {
    if text.len() > most {
        Err(Refusal::Range.at(0))
    } else if text.is_empty() {
        Err(Refusal::Form.at(0))
    } else {
        Ok(())
    }
}

/// What is left of a text. Each method takes one field and the byte that ends it; `None` says that the line is not of the form.
pub(crate) struct Reader<'a> {
    rest: &'a [u8],
}

impl<'a> Reader<'a> {
    pub(crate) fn new(text: &'a [u8]) -> Reader<'a> {
        Reader { rest: text }
    }

    /// Whether no further line follows.
    pub(crate) fn at_end(&self) -> bool {
        self.rest.is_empty()
    }

    /// The letter of a line: one byte, then a tab.
    pub(crate) fn letter(&mut self) -> Option<u8> {
        match *self.rest {
            [letter, TAB, ref rest @ ..] => {
                self.rest = rest;
                Some(letter)
            }
            _ => None,
        }
    }

    /// A field of any bytes, ended by a tab.
    pub(crate) fn bytes(&mut self) -> Option<&'a [u8]> {
        let end = self.rest.iter().position(|&b| b == TAB || b == LF)?;
        let (field, rest) = self.rest.split_at(end);
        let (&ended, rest) = rest.split_first()?;
        self.rest = rest;
        (ended == TAB).then_some(field)
    }

    /// A number ended by a tab.
    pub(crate) fn number(&mut self) -> Option<u32> {
        self.number_to(TAB)
    }

    /// The number that ends a line.
    pub(crate) fn last_number(&mut self) -> Option<u32> {
        self.number_to(LF)
    }

    /// So many numbers, each ended by a tab.
    pub(crate) fn numbers<const N: usize>(&mut self) -> Option<[u32; N]> {
        let mut numbers = [0; N];
        for number in &mut numbers {
            *number = self.number()?;
        }
        Some(numbers)
    }

    /// "account is 7 digits", ended by a tab.
    pub(crate) fn account(&mut self) -> Option<u32> {
        self.digits_to::<7>(TAB)
    }

    /// The date that ends a line: "a date 8".
    pub(crate) fn last_date(&mut self) -> Option<u32> {
        self.digits_to::<8>(LF)
    }

    /// "SERIES is code, date, nature, strike", ended by a tab.
    pub(crate) fn series(&mut self) -> Option<Asked<'a>> {
        Some(Asked {
            code: self.bytes()?,
            date: self.digits_to::<8>(TAB)?,
            nature: Nature::parse(self.bytes()?),
            strike: self.number()?,
        })
    }

    /// "Numbers have no leading zero and at most 9 digits".
    fn number_to(&mut self, end: u8) -> Option<u32> {
        let mut value = 0u32;
        for (at, &byte) in self.rest.iter().take(10).enumerate() {
            let digit = byte.wrapping_sub(b'0');
            if digit <= 9 {
                // A tenth digit may wrap; then the number is refused below.
                value = value.wrapping_mul(10).wrapping_add(u32::from(digit));
                continue;
            }
            let written = at == 1 || (at > 1 && self.rest[0] != b'0');
            if byte != end || !written {
                return None;
            }
            self.rest = &self.rest[at + 1..];
            return Some(value);
        }
        None
    }

    /// A number of exactly so many digits, "zeros kept".
    fn digits_to<const N: usize>(&mut self, end: u8) -> Option<u32> {
        let (digits, rest) = self.rest.split_first_chunk::<N>()?;
        let (&ended, rest) = rest.split_first()?;
        let mut value = 0;
        for &byte in digits {
            let digit = byte.wrapping_sub(b'0');
            if digit > 9 {
                return None;
            }
            value = value * 10 + u32::from(digit);
        }
        self.rest = rest;
        (ended == end).then_some(value)
    }
}

/// The number of digits of a number as printed.
pub(crate) fn width(number: u64) -> usize {
    number.checked_ilog10().unwrap_or(0) as usize + 1
}

/// A buffer that is filled field by field. Its owner has seen to it that there is room.
pub(crate) struct Writer<'a> {
    out: &'a mut [u8],
    at: usize,
}

impl<'a> Writer<'a> {
    pub(crate) fn new(out: &'a mut [u8]) -> Writer<'a> {
        Writer { out, at: 0 }
    }

    /// How many bytes are laid.
    pub(crate) fn length(&self) -> usize {
        self.at
    }

    /// One byte and the tab after it.
    pub(crate) fn letter(&mut self, letter: u8) {
        self.put(&[letter, TAB]);
    }

    /// A number and the tab after it.
    pub(crate) fn number(&mut self, number: impl Into<u64>) {
        let number = number.into();
        self.digits(number, width(number), TAB);
    }

    /// The number that ends a line.
    pub(crate) fn last_number(&mut self, number: impl Into<u64>) {
        let number = number.into();
        self.digits(number, width(number), LF);
    }

    /// "account is 7 digits ... zeros kept", and a tab.
    pub(crate) fn account(&mut self, account: u32) {
        self.digits(u64::from(account), 7, TAB);
    }

    /// A date and the tab after it.
    pub(crate) fn date(&mut self, date: Date) {
        self.date_to(date, TAB);
    }

    /// The date that ends a line.
    pub(crate) fn last_date(&mut self, date: Date) {
        self.date_to(date, LF);
    }

    /// "SERIES is code, date, nature, strike", and a tab.
    pub(crate) fn series(&mut self, series: Series) {
        let ([first, second, third], length) = series.code().bytes();
        if length == 3 {
            self.put(&[first, second, third, TAB]);
        } else {
            self.put(&[first, second, TAB]);
        }
        self.date(series.date());
        self.letter(series.nature().letter());
        self.number(series.strike());
    }

    fn date_to(&mut self, date: Date, end: u8) {
        let [year, month, day] = date.parts();
        let tens = |n: u8| b'0' + n / 10;
        let ones = |n: u8| b'0' + n % 10;
        self.put(&[
            b'2',
            b'0',
            tens(year),
            ones(year),
            tens(month),
            ones(month),
            tens(day),
            ones(day),
            end,
        ]);
    }

    fn digits(&mut self, mut number: u64, width: usize, end: u8) {
        let field = &mut self.out[self.at..=self.at + width];
        if let Some((last, digits)) = field.split_last_mut() {
            *last = end;
            for digit in digits.iter_mut().rev() {
                *digit = b'0' + (number % 10) as u8;
                number /= 10;
            }
        }
        self.at += width + 1;
    }

    fn put(&mut self, bytes: &[u8]) {
        let end = self.at + bytes.len();
        self.out[self.at..end].copy_from_slice(bytes);
        self.at = end;
    }
}
