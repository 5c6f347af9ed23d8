//! The margin book of document 01, written by hand in plain Rust: the yardstick for answers and for speed.

#![forbid(unsafe_code)]

pub mod book;
pub mod calls;
mod fields;
pub mod margin;
pub mod pairing;
pub mod rates;
pub mod refusal;
pub mod rules;
pub mod series;
pub mod sheet;
pub mod text;

use std::hint::black_box;

use engine::{Engine, Printed, Verdict, WORDS};

use crate::book::{Book, Side};
use crate::calls::AskedPair;
use crate::fields::Writer;
use crate::rates::Levels;
use crate::refusal::{Fault, Refusal};
use crate::series::{Asked, Nature};
use crate::sheet::Sheet;

/// The implementation in plain Rust. Its books keep the rules by the way they come about, and are not tested.
#[derive(Clone, Copy, Debug, Default)]
pub struct Reference;

/// The same, but each print, margin and call of a script tests the whole book first, as one that is handed plain data must.
#[derive(Clone, Copy, Debug, Default)]
pub struct Testing;

impl Engine for Reference {
    fn name(&self) -> &'static str {
        "rust"
    }

    fn read(&self, text: &[u8]) -> Verdict {
        verdict(Book::read(text))
    }

    fn print(&self, text: &[u8], times: u32, out: &mut [u8]) -> Printed {
        print_text::<false>(text, times, out)
    }

    fn check(&self, sheet: &[u8]) -> Verdict {
        verdict(Sheet::read(sheet))
    }

    fn margin(&self, book: &[u8], sheet: &[u8], times: u32, out: &mut [u8]) -> Printed {
        margin_line::<false>(book, sheet, times, out)
    }

    fn run(&self, book: &[u8], words: &[u32], numbers: &mut [u8], out: &mut [u8]) -> Printed {
        run_script::<false>(book, words, numbers, out)
    }
}

impl Engine for Testing {
    fn name(&self) -> &'static str {
        "rust, testing"
    }

    fn read(&self, text: &[u8]) -> Verdict {
        Reference.read(text)
    }

    fn print(&self, text: &[u8], times: u32, out: &mut [u8]) -> Printed {
        print_text::<true>(text, times, out)
    }

    fn check(&self, sheet: &[u8]) -> Verdict {
        Reference.check(sheet)
    }

    fn margin(&self, book: &[u8], sheet: &[u8], times: u32, out: &mut [u8]) -> Printed {
        margin_line::<true>(book, sheet, times, out)
    }

    fn run(&self, book: &[u8], words: &[u32], numbers: &mut [u8], out: &mut [u8]) -> Printed {
        run_script::<true>(book, words, numbers, out)
    }
}

/// "16 comes first wherever a book is handed in", where that is tested.
fn handed<const TESTED: bool>(book: &Book) -> Result<(), Refusal> {
    if TESTED && !black_box(book).keeps_rules() {
        return Err(Refusal::Rules);
    }
    Ok(())
}

fn print_text<const TESTED: bool>(text: &[u8], times: u32, out: &mut [u8]) -> Printed {
    let book = match Book::read(text) {
        Ok(book) => book,
        Err(Fault { refusal, line }) => return printed(refusal as u8, line, 0),
    };
    let mut answer = print::<TESTED>(&book, out);
    for _ in 1..times {
        answer = print::<TESTED>(black_box(&book), black_box(&mut *out));
    }
    match answer {
        Ok(length) => printed(0, 0, length),
        Err(refusal) => printed(refusal as u8, 0, 0),
    }
}

fn print<const TESTED: bool>(book: &Book, out: &mut [u8]) -> Result<usize, Refusal> {
    handed::<TESTED>(book)?;
    book.print(out)
}

fn margin_line<const TESTED: bool>(book: &[u8], sheet: &[u8], times: u32, out: &mut [u8]) -> Printed {
    let mut line = [0; LINE];
    let length = match margin_of_texts::<TESTED>(book, sheet, times) {
        Ok((book, amounts)) => lay_amounts(&book, amounts, &mut line),
        Err(fault) => lay_fault(fault, &mut line),
    };
    match out.get_mut(..length) {
        Some(start) => {
            start.copy_from_slice(&line[..length]);
            printed(0, 0, length)
        }
        None => printed(Refusal::Buffer as u8, 0, 0),
    }
}

fn run_script<const TESTED: bool>(
    book: &[u8],
    words: &[u32],
    numbers: &mut [u8],
    out: &mut [u8],
) -> Printed {
    let mut book = match Book::read(book) {
        Ok(book) => book,
        Err(Fault { refusal, line }) => return printed(refusal as u8, line, 0),
    };
    if words.len() % WORDS != 0 {
        return printed(Refusal::Form as u8, 0, 0);
    }
    if numbers.len() < words.len() / WORDS || out.len() < BOOK_ROOM {
        return printed(Refusal::Buffer as u8, 0, 0);
    }
    for (words, number) in words.chunks_exact(WORDS).zip(numbers) {
        *number = match call::<TESTED>(&mut book, words) {
            Ok(()) => 0,
            Err(refusal) => refusal as u8,
        };
    }
    match print::<TESTED>(&book, out) {
        Ok(length) => printed(0, 0, length),
        Err(refusal) => printed(refusal as u8, 0, 0),
    }
}

fn verdict<T>(answer: Result<T, Fault>) -> Verdict {
    match answer {
        Ok(_) => Verdict { number: 0, line: 0 },
        Err(Fault { refusal, line }) => Verdict {
            number: refusal as u8,
            line,
        },
    }
}

fn printed(number: u8, line: u32, length: usize) -> Printed {
    Printed {
        number,
        line,
        length,
    }
}

/// "At most 16,384 bytes": room for the text of any book.
const BOOK_ROOM: usize = 16_384;

/// Room for a line of the margin program.
const LINE: usize = 96;

/// "The margin program reads files `book` and `sheet` (book first ...)": both texts read once, the margin worked so many times.
fn margin_of_texts<const TESTED: bool>(
    book: &[u8],
    sheet: &[u8],
    times: u32,
) -> Result<(Book, Levels), Fault> {
    let book = Book::read(book)?;
    let sheet = Sheet::read(sheet)?;
    let mut amounts = margin_of::<TESTED>(&book, &sheet);
    for _ in 1..times {
        amounts = black_box(margin_of::<TESTED>(black_box(&book), black_box(&sheet)));
    }
    let amounts = amounts.map_err(|refusal| refusal.at(0))?;
    Ok((book, amounts))
}

fn margin_of<const TESTED: bool>(book: &Book, sheet: &Sheet) -> Result<Levels, Refusal> {
    handed::<TESTED>(book)?;
    margin::margin(book, sheet)
}

/// "prints `R account day clearing maintenance initial`"
fn lay_amounts(book: &Book, amounts: Levels, line: &mut [u8; LINE]) -> usize {
    let [clearing, maintenance, initial] = amounts;
    let mut writer = Writer::new(line);
    writer.letter(b'R');
    writer.account(book.account());
    writer.date(book.day());
    writer.number(clearing);
    writer.number(maintenance);
    writer.last_number(initial);
    writer.length()
}

/// "or `X number line`"
fn lay_fault(fault: Fault, line: &mut [u8; LINE]) -> usize {
    let mut writer = Writer::new(line);
    writer.letter(b'X');
    writer.number(fault.refusal as u8);
    writer.last_number(fault.line);
    writer.length()
}

/// One call of a script, as `engine::WORDS` describes its words. A refused make gives the empty book; no book is handed to it.
fn call<const TESTED: bool>(book: &mut Book, words: &[u32]) -> Result<(), Refusal> {
    let &[call, c1, d1, n1, s1, c2, d2, n2, s2, w9, w10, w11, w12] = words else {
        return Ok(());
    };
    let codes = [c1.to_be_bytes(), c2.to_be_bytes()];
    let first = asked(&codes[0], d1, n1, s1);
    let second = asked(&codes[1], d2, n2, s2);
    let side = if w9 == 0 { Side::Long } else { Side::Short };
    let pair = AskedPair {
        kind: w9,
        first,
        second,
        r1: w10,
        r2: w11,
        units: w12,
    };
    if call != 0 {
        handed::<TESTED>(book)?;
    }
    match call {
        0 => {
            *book = Book::default();
            *book = calls::make(w9, u8::try_from(w10).unwrap_or(0), w11)?;
            Ok(())
        }
        1 => book.open(first, side, w12),
        2 => book.close(first, side, w12),
        3 => book.pair(&pair),
        4 => book.split(&pair),
        _ => book.turn(w11),
    }
}

/// A series of four words. The code's bytes are the lower three; "a two-letter code has 0 for its third byte", and one with a fourth byte is none.
fn asked(code: &[u8; 4], date: u32, nature: u32, strike: u32) -> Asked<'_> {
    let code: &[u8] = match code {
        [0, short @ .., 0] => short,
        [0, whole @ ..] => whole,
        _ => &[],
    };
    let (nature, strike) = match nature {
        0 => (Nature::Future, 0),
        1 => (Nature::Call, strike),
        _ => (Nature::Put, strike),
    };
    Asked {
        code,
        date,
        nature: Some(nature),
        strike,
    }
}
