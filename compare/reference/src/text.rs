//! The text of a book: reading and printing it.

use crate::book::{Book, Holding, Pair, Side, Terms, MOST_LOTS, MOST_ROWS};
use crate::calls::is_identity;
use crate::fields::{check_length, width, Reader, Writer};
use crate::pairing::{self, Kind};
use crate::refusal::{Fault, Refusal};
use crate::series::{Date, Series};

/// "At most 16,384 bytes."
pub const MOST_BYTES: usize = 16_384;

/// Bytes of an A line; each field is counted with the byte that ends it.
const A_LINE: usize = 2 + 8 + 2 + 9;
/// The fewest and the most bytes of SERIES, and with them of H and M lines (an allowed ratio has one digit).
const LEAST_SERIES: usize = 3 + 9 + 2 + 2;
const MOST_SERIES: usize = 4 + 9 + 2 + 10;
const LEAST_H_LINE: usize = 2 + LEAST_SERIES + 2 + 2;
const MOST_H_LINE: usize = 2 + MOST_SERIES + 7 + 7;
const LEAST_M_LINE: usize = 2 + 2 + 2 * LEAST_SERIES + 2 + 2 + 2;
const MOST_M_LINE: usize = 2 + 2 + 2 * MOST_SERIES + 2 + 2 + 7;

impl Book {
    /// "Book: `A account identity day`, then `H` lines in series order, then `M` lines". "The first bad line is the one reported."
    pub fn read(text: &[u8]) -> Result<Book, Fault> {
        check_length(text, MOST_BYTES)?;
        let mut reader = Reader::new(text);
        let mut book = read_first(&mut reader).map_err(|refusal| refusal.at(1))?;
        book.holdings
            .reserve_exact(MOST_ROWS.min(text.len() / LEAST_H_LINE));
        book.pairs
            .reserve_exact(MOST_ROWS.min(text.len() / LEAST_M_LINE));
        let mut line = 1;
        while !reader.at_end() {
            line += 1;
            read_line(&mut book, &mut reader).map_err(|refusal| refusal.at(line))?;
        }
        Ok(book)
    }

    /// "Print writes the text, no byte after it, and returns its length"; 15 where the buffer is too short, and it keeps its bytes.
    pub fn print(&self, out: &mut [u8]) -> Result<usize, Refusal> {
        if out.len() < self.longest_text() && out.len() < self.text_length() {
            return Err(Refusal::Buffer);
        }
        let mut writer = Writer::new(out);
        writer.letter(b'A');
        writer.account(self.account);
        writer.letter(self.identity);
        writer.last_date(self.day);
        for holding in &self.holdings {
            writer.letter(b'H');
            writer.series(holding.series);
            writer.number(holding.total(Side::Long));
            writer.last_number(holding.total(Side::Short));
        }
        for Pair { terms, units } in &self.pairs {
            writer.letter(b'M');
            writer.letter(b'0' + terms.kind as u8);
            writer.series(terms.first);
            writer.series(terms.second);
            writer.number(terms.r1);
            writer.number(terms.r2);
            writer.last_number(*units);
        }
        Ok(writer.length())
    }

    /// A length that no text of so many lines passes.
    fn longest_text(&self) -> usize {
        A_LINE + self.holdings.len() * MOST_H_LINE + self.pairs.len() * MOST_M_LINE
    }

    /// The length of the text.
    fn text_length(&self) -> usize {
        let holdings = self.holdings.iter().map(|holding| {
            2 + series_length(holding.series)
                + number_length(holding.total(Side::Long))
                + number_length(holding.total(Side::Short))
        });
        let pairs = self.pairs.iter().map(|Pair { terms, units }| {
            4 + series_length(terms.first)
                + series_length(terms.second)
                + number_length(terms.r1)
                + number_length(terms.r2)
                + number_length(*units)
        });
        A_LINE + holdings.sum::<usize>() + pairs.sum::<usize>()
    }
}

/// The length of a number and the byte that ends it.
fn number_length(number: impl Into<u64>) -> usize {
    width(number.into()) + 1
}

/// The length of a SERIES and the tab that ends it.
fn series_length(series: Series) -> usize {
    series.code().bytes().1 + 1 + 9 + 2 + number_length(series.strike())
}

/// Line 1: "first line not A or D" is 1.
fn read_first(reader: &mut Reader) -> Result<Book, Refusal> {
    match reader.letter() {
        Some(b'A') => read_a(reader),
        _ => Err(Refusal::Form),
    }
}

/// A line after the first; a sound A line there is "a line in the wrong group 3".
fn read_line(book: &mut Book, reader: &mut Reader) -> Result<(), Refusal> {
    match reader.letter() {
        Some(b'H') => read_h(book, reader),
        Some(b'M') => read_m(book, reader),
        Some(b'A') => read_a(reader).and(Err(Refusal::Order)),
        _ => Err(Refusal::Form),
    }
}

/// `A account identity day`: 1, 5, 2.
fn read_a(reader: &mut Reader) -> Result<Book, Refusal> {
    let (account, identity, day) = fields_of_a(reader).ok_or(Refusal::Form)?;
    let day = Date::from_number(day).ok_or(Refusal::Date)?;
    match *identity {
        [identity] if is_identity(identity) => Ok(Book::empty(account, identity, day)),
        _ => Err(Refusal::Range),
    }
}

fn fields_of_a<'a>(reader: &mut Reader<'a>) -> Option<(u32, &'a [u8], u32)> {
    Some((reader.account()?, reader.bytes()?, reader.last_date()?))
}

/// `H SERIES long short`: 1, 4, 5, 2, 3, 8.
fn read_h(book: &mut Book, reader: &mut Reader) -> Result<(), Refusal> {
    let series = reader.series().ok_or(Refusal::Form)?;
    let long = reader.number().ok_or(Refusal::Form)?;
    let short = reader.last_number().ok_or(Refusal::Form)?;
    let series = series.judge()?;
    if long > MOST_LOTS || short > MOST_LOTS || long + short == 0 {
        return Err(Refusal::Range);
    }
    let ascends = book.holdings.last().is_none_or(|h| h.series < series);
    if !book.pairs.is_empty() || !ascends {
        return Err(Refusal::Order);
    }
    if book.holdings.len() == MOST_ROWS {
        return Err(Refusal::Holdings);
    }
    book.holdings.push(Holding {
        series,
        total: [long, short],
        tied: [0; 2],
    });
    Ok(())
}

/// `M kind SERIES SERIES r1 r2 units`: 1, 4 of either series, 5 of either, 2 of either, 6, 10, 3, 11, 9.
fn read_m(book: &mut Book, reader: &mut Reader) -> Result<(), Refusal> {
    let kind = reader.number().ok_or(Refusal::Form)?;
    let first = reader.series().ok_or(Refusal::Form)?;
    let second = reader.series().ok_or(Refusal::Form)?;
    let [r1, r2] = reader.numbers().ok_or(Refusal::Form)?;
    let units = reader.last_number().ok_or(Refusal::Form)?;

    let codes = (first.code()?, second.code()?);
    let dates = (first.date()?, second.date()?);
    let first = first.series(codes.0, dates.0)?;
    let second = second.series(codes.1, dates.1)?;
    let (r1, r2) = pairing::sized(r1, r2, units).ok_or(Refusal::Size)?;
    let kind = Kind::from_number(kind).ok_or(Refusal::Kind)?;
    if !pairing::allowed(kind, first, second, r1, r2) {
        return Err(Refusal::Kind);
    }
    let terms = Terms {
        kind,
        first,
        second,
        r1,
        r2,
    };
    if book.pairs.last().is_some_and(|last| last.terms >= terms) {
        return Err(Refusal::Order);
    }
    if book.pairs.len() == MOST_ROWS {
        return Err(Refusal::Pairs);
    }
    let legs = book.free_legs(&terms, units).ok_or(Refusal::Free)?;
    book.pairs.push(Pair { terms, units });
    book.tie(legs);
    Ok(())
}
