//! The words of the paper as values: codes, series, holdings, pairs, books and sheets, and how they are written.

use std::collections::BTreeMap;

pub const MOST_ROWS: usize = 128;
pub const MOST_LOTS: u32 = 100_000;
pub const MOST_PRICE: u32 = 100_000_000;
pub const BOOK_BYTES: usize = 16_384;
pub const SHEET_BYTES: usize = 65_536;
pub const SHEET_LINES: usize = 1_024;

/// Three letters, or two and a 0: so the order of the array is the paper's order, a prefix first.
#[derive(Clone, Copy, PartialEq, Eq, PartialOrd, Ord, Debug)]
pub struct Code(pub [u8; 3]);

impl Code {
    pub const fn of(letters: &str) -> Code {
        let bytes = letters.as_bytes();
        let third = if bytes.len() > 2 { bytes[2] } else { 0 };
        Code([bytes[0], bytes[1], third])
    }

    pub const fn of_stock(letters: [u8; 2], last: u8) -> Code {
        Code([letters[0], letters[1], last])
    }

    pub fn letters(&self) -> &[u8] {
        if self.0[2] == 0 {
            &self.0[..2]
        } else {
            &self.0
        }
    }

    /// As a script's word has it.
    pub fn word(&self) -> u32 {
        (self.0[0] as u32) << 16 | (self.0[1] as u32) << 8 | self.0[2] as u32
    }

    pub fn is_option(&self) -> bool {
        self.0[2] == b'O'
    }

    pub fn is_listed(&self) -> bool {
        FUTURES.contains(self) || OPTIONS.contains(self)
    }

    /// The two letters that name the stock, for a stock's future or option.
    pub fn stock(&self) -> Option<[u8; 2]> {
        if self.is_listed() {
            None
        } else {
            Some([self.0[0], self.0[1]])
        }
    }

    /// The full-size future whose clearing margin stands behind a listed code.
    pub fn parent(&self) -> Option<Code> {
        PARENTS.iter().find(|(code, _)| code == self).map(|(_, parent)| *parent)
    }
}

pub const TX: Code = Code::of("TX");
pub const MTX: Code = Code::of("MTX");
pub const TMF: Code = Code::of("TMF");
pub const TE: Code = Code::of("TE");
pub const ZEF: Code = Code::of("ZEF");
pub const TF: Code = Code::of("TF");
pub const ZFF: Code = Code::of("ZFF");
pub const TGF: Code = Code::of("TGF");
pub const UNF: Code = Code::of("UNF");
pub const SXF: Code = Code::of("SXF");
pub const GTF: Code = Code::of("GTF");
pub const G2F: Code = Code::of("G2F");
pub const TXO: Code = Code::of("TXO");
pub const TEO: Code = Code::of("TEO");
pub const TFO: Code = Code::of("TFO");
pub const TGO: Code = Code::of("TGO");

pub const FUTURES: [Code; 12] = [TX, MTX, TMF, TE, ZEF, TF, ZFF, TGF, UNF, SXF, GTF, G2F];
pub const OPTIONS: [Code; 4] = [TXO, TEO, TFO, TGO];

/// The codes that have a clearing margin on a sheet.
pub const CLEARING: [Code; 8] = [TX, TE, TF, TGF, UNF, SXF, GTF, G2F];

/// The full-size future behind each listed code.
pub const PARENTS: [(Code, Code); 16] = [
    (TX, TX),
    (MTX, TX),
    (TMF, TX),
    (TE, TE),
    (ZEF, TE),
    (TF, TF),
    (ZFF, TF),
    (TGF, TGF),
    (UNF, UNF),
    (SXF, SXF),
    (GTF, GTF),
    (G2F, G2F),
    (TXO, TX),
    (TEO, TE),
    (TFO, TF),
    (TGO, TGF),
];

/// A line of kind 5's table: the future, the option, r1, least and greatest r2. A stock's line is 1 to 1.
#[derive(Clone, Copy, Debug)]
pub struct Ratio {
    pub future: Code,
    pub option: Code,
    pub r1: u32,
    pub least: u32,
    pub greatest: u32,
}

const fn ratio(future: Code, option: Code, r1: u32, least: u32, greatest: u32) -> Ratio {
    Ratio { future, option, r1, least, greatest }
}

pub const RATIOS: [Ratio; 8] = [
    ratio(TX, TXO, 1, 1, 4),
    ratio(MTX, TXO, 1, 1, 1),
    ratio(TMF, TXO, 5, 1, 1),
    ratio(TE, TEO, 1, 1, 4),
    ratio(ZEF, TEO, 2, 1, 1),
    ratio(TF, TFO, 1, 1, 4),
    ratio(ZFF, TFO, 1, 1, 1),
    ratio(TGF, TGO, 1, 1, 2),
];

/// The futures that kind 8 couples, either one long.
pub const COUPLES: [(Code, Code); 2] = [(UNF, SXF), (GTF, G2F)];

/// Stocks to draw from. Most look like beginnings of listed codes, or are named in later requests.
pub const STOCKS: [[u8; 2]; 16] =
    [*b"CD", *b"CA", *b"DV", *b"TX", *b"TE", *b"TF", *b"TG", *b"TM", *b"MT", *b"RH", *b"ZE", *b"UN", *b"SX", *b"GT", *b"AA", *b"ZZ"];

/// The nature's letter: C, F or P, whose order is the paper's.
pub type Nature = u8;

#[derive(Clone, Copy, PartialEq, Eq, PartialOrd, Ord, Debug)]
pub struct Series {
    pub code: Code,
    pub date: u32,
    pub nature: Nature,
    pub strike: u32,
}

impl Series {
    pub fn future(code: Code, date: u32) -> Series {
        Series { code, date, nature: b'F', strike: 0 }
    }

    pub fn option(code: Code, date: u32, nature: Nature, strike: u32) -> Series {
        Series { code, date, nature, strike }
    }

    pub fn write(&self, out: &mut Vec<u8>) {
        out.extend_from_slice(self.code.letters());
        tab(out);
        number(out, self.date, 8);
        tab(out);
        out.push(self.nature);
        tab(out);
        number(out, self.strike, 1);
    }
}

#[derive(Clone, Copy, PartialEq, Eq, Debug)]
pub enum Side {
    Long,
    Short,
}

#[derive(Clone, Copy, PartialEq, Eq, PartialOrd, Ord, Debug)]
pub struct Holding {
    pub series: Series,
    pub long: u32,
    pub short: u32,
}

/// The order of the fields is the order of pairs; units come last and never decide between different pairs.
#[derive(Clone, Copy, PartialEq, Eq, PartialOrd, Ord, Debug)]
pub struct Pair {
    pub kind: u32,
    pub first: Series,
    pub second: Series,
    pub r1: u32,
    pub r2: u32,
    pub units: u32,
}

/// One leg of a pair: its series, its side, and its lots per unit.
pub type Leg = (Series, Side, u32);

impl Pair {
    /// The two legs, as an allowed pair of this kind has them.
    pub fn legs(&self) -> [Leg; 2] {
        let first_side = match self.kind {
            4 => Side::Short,
            5 if self.second.nature == b'P' => Side::Short,
            _ => Side::Long,
        };
        [(self.first, first_side, self.r1), (self.second, Side::Short, self.r2)]
    }

    pub fn is_same(&self, other: &Pair) -> bool {
        Pair { units: 0, ..*self } == Pair { units: 0, ..*other }
    }
}

#[derive(Clone, PartialEq, Eq, Debug)]
pub struct Book {
    pub account: u32,
    pub identity: u8,
    pub day: u32,
    pub holdings: Vec<Holding>,
    pub pairs: Vec<Pair>,
}

impl Book {
    pub fn text(&self) -> Vec<u8> {
        let mut out = Vec::with_capacity(64 * (1 + self.holdings.len() + self.pairs.len()));
        out.extend_from_slice(b"A\t");
        number(&mut out, self.account, 7);
        out.extend_from_slice(&[b'\t', self.identity, b'\t']);
        number(&mut out, self.day, 8);
        out.push(b'\n');
        for holding in &self.holdings {
            holding_line(&mut out, holding);
        }
        for pair in &self.pairs {
            pair_line(&mut out, pair);
        }
        out
    }
}

pub fn holding_line(out: &mut Vec<u8>, holding: &Holding) {
    out.extend_from_slice(b"H\t");
    holding.series.write(out);
    numbers(out, &[holding.long, holding.short]);
    out.push(b'\n');
}

pub fn pair_line(out: &mut Vec<u8>, pair: &Pair) {
    out.extend_from_slice(b"M\t");
    number(out, pair.kind, 1);
    tab(out);
    pair.first.write(out);
    tab(out);
    pair.second.write(out);
    numbers(out, &[pair.r1, pair.r2, pair.units]);
    out.push(b'\n');
}

/// What an O line says of a listed option; levels stand clearing, maintenance, initial.
#[derive(Clone, Copy, PartialEq, Eq, Debug)]
pub struct OptionLine {
    pub multiplier: u32,
    pub a: [u32; 3],
    pub b: [u32; 3],
    pub c: [u32; 3],
    pub underlying: u32,
}

/// What an S line says of a stock.
#[derive(Clone, Copy, PartialEq, Eq, Debug)]
pub struct StockLine {
    pub shares: u32,
    pub future_rate: u32,
    pub a: u32,
    pub c: [u32; 3],
    pub disposition: u32,
    pub price: u32,
}

#[derive(Clone, PartialEq, Eq, Debug)]
pub struct Sheet {
    pub day: u32,
    pub clearing: BTreeMap<Code, u32>,
    pub options: BTreeMap<Code, OptionLine>,
    pub stocks: BTreeMap<[u8; 2], StockLine>,
    pub prices: BTreeMap<Series, u32>,
}

impl Sheet {
    pub fn empty(day: u32) -> Sheet {
        Sheet { day, clearing: BTreeMap::new(), options: BTreeMap::new(), stocks: BTreeMap::new(), prices: BTreeMap::new() }
    }

    pub fn lines(&self) -> usize {
        1 + self.clearing.len() + self.options.len() + self.stocks.len() + self.prices.len()
    }

    pub fn text(&self) -> Vec<u8> {
        let mut out = Vec::with_capacity(48 * self.lines());
        out.extend_from_slice(b"D\t");
        number(&mut out, self.day, 8);
        out.push(b'\n');
        for (code, clearing) in &self.clearing {
            start(&mut out, b'F', code.letters());
            numbers(&mut out, &[*clearing]);
            out.push(b'\n');
        }
        for (code, line) in &self.options {
            start(&mut out, b'O', code.letters());
            numbers(&mut out, &[line.multiplier]);
            for levels in [&line.a, &line.b, &line.c] {
                numbers(&mut out, levels);
            }
            numbers(&mut out, &[line.underlying]);
            out.push(b'\n');
        }
        for (stock, line) in &self.stocks {
            start(&mut out, b'S', stock);
            numbers(&mut out, &[line.shares, line.future_rate, line.a]);
            numbers(&mut out, &line.c);
            numbers(&mut out, &[line.disposition, line.price]);
            out.push(b'\n');
        }
        for (series, price) in &self.prices {
            out.extend_from_slice(b"Q\t");
            series.write(&mut out);
            numbers(&mut out, &[*price]);
            out.push(b'\n');
        }
        out
    }
}

fn start(out: &mut Vec<u8>, letter: u8, code: &[u8]) {
    out.extend_from_slice(&[letter, b'\t']);
    out.extend_from_slice(code);
}

fn tab(out: &mut Vec<u8>) {
    out.push(b'\t');
}

/// A number with at least `digits` digits.
pub fn number(out: &mut Vec<u8>, value: u32, digits: usize) {
    out.extend_from_slice(format!("{value:0digits$}").as_bytes());
}

/// Numbers, each after a tab.
fn numbers(out: &mut Vec<u8>, values: &[u32]) {
    for value in values {
        tab(out);
        number(out, *value, 1);
    }
}

pub fn days_of_month(year: u32, month: u32) -> u32 {
    match month {
        2 if year % 4 == 0 && (year % 100 != 0 || year % 400 == 0) => 29,
        2 => 28,
        4 | 6 | 9 | 11 => 30,
        _ => 31,
    }
}

/// The day after a day; after 20991231 a number that is no day of the paper's.
pub fn next_day(day: u32) -> u32 {
    let (year, month, of_month) = (day / 10_000, day / 100 % 100, day % 100);
    if of_month < days_of_month(year, month) {
        day + 1
    } else if month < 12 {
        year * 10_000 + (month + 1) * 100 + 1
    } else {
        (year + 1) * 10_000 + 101
    }
}
