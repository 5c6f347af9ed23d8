//! The benchmark's inputs: a full book with every family and every kind of pair, a full sheet for it, a small book, and a long script.
//! They are the same in every run.

use crate::histories::{words_of, Call};
use crate::holdings::Holdings;
use crate::paper::*;
use crate::rng::Rng;

const DAY: u32 = 20240102;
const DATES: [u32; 3] = [20240117, 20240221, 20240320];
const STOCKS_HELD: [[u8; 2]; 4] = [*b"CA", *b"CD", *b"DV", *b"QF"];
const SEED: u64 = 20240102;

/// Three strikes of an option, about the money.
fn strikes(code: Code) -> [u32; 3] {
    let middle = match code {
        TXO => 18_000_000,
        TEO => 900_000,
        TFO => 1_700_000,
        TGO => 8_000_000,
        _ => 100_000,
    };
    [middle - middle / 20, middle, middle + middle / 20]
}

fn option_codes() -> Vec<Code> {
    OPTIONS.into_iter().chain(STOCKS_HELD.map(|stock| Code::of_stock(stock, b'O'))).collect()
}

fn future_codes() -> Vec<Code> {
    FUTURES.into_iter().chain(STOCKS_HELD.map(|stock| Code::of_stock(stock, b'F'))).collect()
}

/// Every future, and every option in both natures at three strikes, of each given date.
fn all_series(dates: &[u32]) -> Vec<Series> {
    let mut list = Vec::new();
    for date in dates {
        list.extend(future_codes().into_iter().map(|code| Series::future(code, *date)));
        for code in option_codes() {
            for strike in strikes(code) {
                list.push(Series::option(code, *date, b'C', strike));
                list.push(Series::option(code, *date, b'P', strike));
            }
        }
    }
    list.sort();
    list
}

fn pair(kind: u32, first: Series, second: Series, r1: u32, r2: u32) -> Pair {
    Pair { kind, first, second, r1, r2, units: 1 }
}

/// The pairs of one option code on two dates: two each of kinds 1, 2, 3, 4 and 6.
fn option_pairs(list: &mut Vec<Pair>, code: Code, early: u32, late: u32) {
    let [low, middle, high] = strikes(code);
    let call = |date, strike| Series::option(code, date, b'C', strike);
    let put = |date, strike| Series::option(code, date, b'P', strike);
    list.push(pair(1, call(early, low), call(early, middle), 1, 1));
    list.push(pair(1, put(early, high), put(early, middle), 1, 1));
    list.push(pair(2, call(late, high), call(late, middle), 1, 1));
    list.push(pair(2, put(late, low), put(late, middle), 1, 1));
    list.push(pair(3, call(late, middle), call(early, middle), 1, 1));
    list.push(pair(3, put(late, middle), put(early, low), 1, 1));
    list.push(pair(4, call(early, middle), put(early, middle), 1, 1));
    list.push(pair(4, call(late, high), put(late, low), 1, 1));
    list.push(pair(6, call(early, low), put(early, low), 1, 1));
    list.push(pair(6, put(late, high), call(late, high), 1, 1));
}

/// Sixteen pairs of kind 5: least and greatest r2 of each line of the table, and the stocks.
fn covered_pairs(list: &mut Vec<Pair>, date: u32) {
    for (place, line) in RATIOS.iter().enumerate() {
        let nature = if place % 2 == 0 { b'C' } else { b'P' };
        let option = Series::option(line.option, date, nature, strikes(line.option)[1]);
        list.push(pair(5, Series::future(line.future, date), option, line.r1, line.least));
        if line.greatest > line.least {
            list.push(pair(5, Series::future(line.future, date), option, line.r1, line.greatest));
        }
    }
    for stock in STOCKS_HELD {
        let code = Code::of_stock(stock, b'O');
        let option = Series::option(code, date, b'C', strikes(code)[2]);
        list.push(pair(5, Series::future(Code::of_stock(stock, b'F'), date), option, 1, 1));
    }
}

fn future_pairs(list: &mut Vec<Pair>, early: u32, late: u32) {
    for code in future_codes() {
        list.push(pair(7, Series::future(code, early), Series::future(code, late), 1, 1));
    }
    for (one, other) in COUPLES {
        for long_date in [early, late] {
            for short_date in [early, late] {
                list.push(pair(8, Series::future(one, long_date), Series::future(other, short_date), 1, 1));
                list.push(pair(8, Series::future(other, long_date), Series::future(one, short_date), 1, 1));
            }
        }
    }
}

/// 128 pairs, sixteen of each kind, on two dates.
fn all_pairs(early: u32, late: u32) -> Vec<Pair> {
    let mut list = Vec::new();
    for code in option_codes() {
        option_pairs(&mut list, code, early, late);
    }
    covered_pairs(&mut list, early);
    future_pairs(&mut list, early, late);
    list.sort();
    list
}

/// A book of these series and pairs, each series with free lots on both sides.
fn book_of(series: &[Series], mut pairs: Vec<Pair>) -> Book {
    let mut rng = Rng::new(SEED);
    for pair in &mut pairs {
        pair.units = rng.between(1, 20);
    }
    let tied = |series: &Series, side: Side| -> u32 {
        let legs = pairs.iter().flat_map(|pair| pair.legs().map(|(of, on, ratio)| (of, on, ratio * pair.units)));
        legs.filter(|(of, on, _)| of == series && *on == side).map(|(_, _, lots)| lots).sum()
    };
    let mut holdings = Vec::new();
    for series in series {
        let long = tied(series, Side::Long) + rng.between(1, 30);
        let short = tied(series, Side::Short) + rng.between(1, 30);
        holdings.push(Holding { series: *series, long, short });
    }
    holdings.sort();
    Book { account: 1_234_567, identity: b'A', day: DAY, holdings, pairs }
}

/// 128 holdings and 128 pairs: every family, every kind.
pub fn full_book() -> Book {
    book_of(&all_series(&DATES[..2]), all_pairs(DATES[0], DATES[1]))
}

/// 12 holdings and 12 pairs, with index and stock series and every kind.
pub fn small_book() -> Book {
    let (early, late) = (DATES[0], DATES[1]);
    let [low, middle, _] = strikes(TXO);
    let call = |date, strike| Series::option(TXO, date, b'C', strike);
    let put = |date, strike| Series::option(TXO, date, b'P', strike);
    let stock_option = Series::option(Code::of("CDO"), early, b'C', strikes(Code::of("CDO"))[1]);
    let futures = [(TX, early), (TX, late), (UNF, early), (SXF, early), (Code::of("CDF"), early)].map(|(code, date)| Series::future(code, date));
    let options = [call(early, low), call(early, middle), put(early, low), put(early, middle), call(late, low), put(late, low), stock_option];
    let series: Vec<Series> = futures.into_iter().chain(options).collect();
    let mut pairs = vec![
        pair(1, call(early, low), call(early, middle), 1, 1),
        pair(1, put(early, middle), put(early, low), 1, 1),
        pair(2, call(early, middle), call(early, low), 1, 1),
        pair(2, put(early, low), put(early, middle), 1, 1),
        pair(3, call(late, low), call(early, middle), 1, 1),
        pair(4, call(early, middle), put(early, low), 1, 1),
        pair(5, futures[0], call(early, middle), 1, 4),
        pair(5, futures[4], stock_option, 1, 1),
        pair(6, call(early, low), put(early, low), 1, 1),
        pair(6, put(late, low), call(late, low), 1, 1),
        pair(7, futures[0], futures[1], 1, 1),
        pair(8, futures[2], futures[3], 1, 1),
    ];
    pairs.sort();
    book_of(&series, pairs)
}

fn option_line(code: Code) -> OptionLine {
    let underlying = strikes(code)[1] + 37_000;
    match code {
        TXO => OptionLine { multiplier: 50, a: [58_000, 61_000, 79_000], b: [29_000, 31_000, 40_000], c: [2_900, 3_100, 4_000], underlying },
        TEO => OptionLine { multiplier: 1_000, a: [40_000, 42_000, 54_000], b: [20_000, 21_000, 27_000], c: [2_000, 2_100, 2_700], underlying },
        TFO => OptionLine { multiplier: 1_000, a: [35_000, 37_000, 48_000], b: [18_000, 19_000, 24_000], c: [1_800, 1_900, 2_400], underlying },
        _ => OptionLine { multiplier: 50, a: [12_000, 13_000, 17_000], b: [6_000, 7_000, 9_000], c: [600, 700, 900], underlying },
    }
}

/// A price for the Q line of a series.
fn price(rng: &mut Rng, series: &Series) -> u32 {
    if series.code.is_option() {
        10 * rng.between(0, 60_000)
    } else {
        50 * rng.between(1_800, 2_200)
    }
}

/// A sheet of `lines` lines that has every line the book needs; the rest are Q lines of the same codes on other dates and strikes.
pub fn sheet_of(book: &Book, lines: usize) -> Sheet {
    let mut rng = Rng::new(SEED);
    let mut sheet = Sheet::empty(book.day);
    for (place, code) in CLEARING.into_iter().enumerate() {
        sheet.clearing.insert(code, 1_000 * (47 + 31 * place as u32));
    }
    for code in OPTIONS {
        sheet.options.insert(code, option_line(code));
    }
    for (place, stock) in STOCKS_HELD.into_iter().enumerate() {
        let disposition = [10, 15, 20, 30][place];
        let line = StockLine { shares: 2_000, future_rate: 13_000, a: 15_000, c: [1_000, 1_035, 1_350], disposition, price: 101_500 };
        sheet.stocks.insert(stock, line);
    }
    for holding in &book.holdings {
        if holding.series.code.is_option() || holding.series.code.stock().is_some() {
            sheet.prices.insert(holding.series, price(&mut rng, &holding.series));
        }
    }
    while sheet.lines() < lines {
        let code = *rng.pick(&option_codes());
        let date = *rng.pick(&[20240110, 20240117, 20240124, 20240221, 20240320, 20240619, 20240918]);
        let strike = strikes(code)[1] / 100 * rng.between(70, 130);
        let series = Series::option(code, date, *rng.pick(b"CP"), strike);
        let price = price(&mut rng, &series);
        sheet.prices.insert(series, price);
    }
    sheet
}

pub fn full_sheet() -> Sheet {
    sheet_of(&full_book(), SHEET_LINES)
}

/// Steers the long script: keeps both counts between half full and full.
struct Keeper {
    rng: Rng,
    held: Holdings,
    series: Vec<Series>,
    pairs: Vec<Pair>,
    day: u32,
}

const HALF: usize = MOST_ROWS / 2;

/// How many rows it likes to have: three quarters of a full book.
const LIKED: usize = 96;

impl Keeper {
    fn side(&mut self) -> Side {
        if self.rng.chance(1, 2) {
            Side::Long
        } else {
            Side::Short
        }
    }

    fn held_series(&mut self) -> Series {
        let place = self.rng.below(self.held.lots.len());
        *self.held.lots.keys().nth(place).unwrap_or(&self.series[0])
    }

    fn open(&mut self) -> Call {
        let drawn = *self.rng.pick(&self.series);
        let may_come = self.held.lots.len() < MOST_ROWS && (self.held.lots.len() < LIKED || self.rng.chance(1, 4));
        let series = if may_come { drawn } else { self.held_series() };
        Call::Open { series, side: self.side(), lots: self.rng.between(5, 40) }
    }

    /// Closes some or all free lots of a side; where the book is near half full, never a whole holding.
    fn close(&mut self) -> Call {
        if self.held.lots.len() > HALF + 8 && self.rng.chance(1, 2) {
            if let Some((series, side, lots)) = self.loose() {
                return Call::Close { series, side, lots };
            }
        }
        for _ in 0..50 {
            let (series, side) = (self.held_series(), self.side());
            let free = self.held.free(&series, side).min(12);
            if free > 0 && free < self.held.total(&series, Side::Long) + self.held.total(&series, Side::Short) {
                return Call::Close { series, side, lots: self.rng.between(1, free) };
            }
        }
        Call::Close { series: self.series[0], side: Side::Long, lots: 1 }
    }

    /// All lots of a side of the smallest holding that no pair ties.
    fn loose(&self) -> Option<(Series, Side, u32)> {
        let untied = self.held.lots.iter().filter(|(_, lots)| lots.tied == [0, 0]);
        let (series, lots) = untied.min_by_key(|(_, lots)| lots.total[0] + lots.total[1])?;
        if lots.total[0] > 0 {
            Some((*series, Side::Long, lots.total[0]))
        } else {
            Some((*series, Side::Short, lots.total[1]))
        }
    }

    fn pair(&mut self) -> Call {
        for _ in 0..50 {
            let drawn = if self.held.pairs.len() >= MOST_ROWS { *self.rng.pick(&self.held.pairs) } else { *self.rng.pick(&self.pairs) };
            let most = self.held.units_free(&drawn).min(20);
            if most > 0 {
                return Call::Pair(Pair { units: self.rng.between(1, most), ..drawn });
            }
        }
        Call::Pair(*self.rng.pick(&self.pairs))
    }

    /// Splits a pair, wholly or in part; where no more stand than it likes, only in part of the largest.
    fn split(&mut self) -> Call {
        let standing = *self.rng.pick(&self.held.pairs);
        if self.held.pairs.len() > LIKED {
            let units = if self.rng.chance(1, 2) { standing.units } else { self.rng.between(1, standing.units) };
            return Call::Split(Pair { units, ..standing });
        }
        let largest = *self.held.pairs.iter().max_by_key(|pair| pair.units).unwrap_or(&standing);
        Call::Split(Pair { units: self.rng.between(1, (largest.units - 1).clamp(1, 20)), ..largest })
    }

    fn turn(&mut self) -> Call {
        self.day = next_day(self.day);
        Call::Turn { day: self.day }
    }

    fn next(&mut self, place: usize) -> Call {
        let call = match place % 5 {
            0 => self.open(),
            1 => self.pair(),
            2 => self.close(),
            3 => self.split(),
            _ => self.turn(),
        };
        call.steer(&mut self.held);
        call
    }
}

/// The book that the long script starts from.
fn script_book() -> Book {
    Book { day: 20000103, ..full_book() }
}

fn keeper() -> Keeper {
    let book = script_book();
    let mut pairs = all_pairs(DATES[0], DATES[1]);
    pairs.extend(all_pairs(DATES[1], DATES[2]));
    Keeper { rng: Rng::new(SEED), held: Holdings::of(&book), series: all_series(&DATES), pairs, day: book.day }
}

/// The book that the long script starts from, and the script: an even mix of open, pair, close, split and turn.
pub fn long_script(calls: usize) -> (Book, Vec<u32>) {
    let mut keeper = keeper();
    let list: Vec<Call> = (0..calls).map(|place| keeper.next(place)).collect();
    (script_book(), words_of(&list))
}

#[cfg(test)]
mod tests {
    use super::*;

    #[test]
    fn the_full_inputs_are_full() {
        let (book, sheet) = (full_book(), full_sheet());
        assert_eq!((book.holdings.len(), book.pairs.len()), (MOST_ROWS, MOST_ROWS));
        assert_eq!((sheet.lines(), sheet.text().iter().filter(|byte| **byte == b'\n').count()), (SHEET_LINES, SHEET_LINES));
        for kind in 1..=8 {
            assert_eq!(book.pairs.iter().filter(|pair| pair.kind == kind).count(), 16);
        }
    }

    #[test]
    fn the_long_script_keeps_the_book_between_half_full_and_full() {
        let (book, words) = long_script(20_000);
        assert_eq!(words.len(), 13 * 20_000);
        assert_eq!((book.holdings.len(), book.pairs.len()), (MOST_ROWS, MOST_ROWS));
        let mut keeper = keeper();
        for place in 0..20_000 {
            keeper.next(place);
            assert!((HALF..=MOST_ROWS).contains(&keeper.held.lots.len()) && (HALF..=MOST_ROWS).contains(&keeper.held.pairs.len()));
        }
    }

    #[test]
    fn the_small_book_has_twelve_rows_of_each_sort() {
        let book = small_book();
        assert_eq!((book.holdings.len(), book.pairs.len()), (12, 12));
        assert_eq!(sheet_of(&book, 100).lines(), 100);
    }
}
