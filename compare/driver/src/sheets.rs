//! Random sound sheets for a book: every line that might be needed, then some left out, some more that are not needed.

use crate::books::{any_day, Market};
use crate::paper::*;
use crate::rng::Rng;
use std::collections::BTreeMap;

/// What values a sheet likes: ordinary ones, tiny ones (so that amounts tie and halves come often), or the edges of the ranges.
#[derive(Clone, Copy, PartialEq, Eq, Debug)]
pub enum Taste {
    Ordinary,
    Tiny,
    Edges,
}

pub fn some_taste(rng: &mut Rng) -> Taste {
    *rng.pick(&[Taste::Ordinary, Taste::Ordinary, Taste::Tiny, Taste::Tiny, Taste::Edges])
}

pub const MULTIPLIERS: [u32; 8] = [1, 50, 250, 2_000, 1_000, 20_000, 100, 10];

fn clearing(rng: &mut Rng, taste: Taste) -> u32 {
    match taste {
        Taste::Ordinary => 1_000 * rng.between(10, 400),
        Taste::Tiny => 1_000 * rng.between(0, 5),
        Taste::Edges => *rng.pick(&[0, 1_000, MOST_PRICE, MOST_PRICE - 1_000, 136_000, 200_000]),
    }
}

fn multiplier(rng: &mut Rng, taste: Taste) -> u32 {
    match taste {
        Taste::Edges => *rng.pick(&[1, 20_000, 19_999, 2]),
        _ if rng.chance(1, 6) => rng.between(1, 20_000),
        _ => *rng.pick(&MULTIPLIERS),
    }
}

/// An amount of A, B or C.
fn amount(rng: &mut Rng, taste: Taste) -> u32 {
    match taste {
        Taste::Ordinary => 100 * rng.between(0, 800),
        Taste::Tiny => rng.between(0, 12),
        Taste::Edges => *rng.pick(&[0, 1, MOST_PRICE, MOST_PRICE - 1, 17_000]),
    }
}

/// Three amounts, mostly rising with the level, though no rule asks for it.
fn levels(rng: &mut Rng, taste: Taste) -> [u32; 3] {
    let mut levels = [amount(rng, taste), amount(rng, taste), amount(rng, taste)];
    if rng.chance(3, 4) {
        levels.sort();
    }
    levels
}

/// The price of an underlying or a stock: near a strike that the book knows where there is one.
fn underlying(rng: &mut Rng, taste: Taste, strikes: &[u32]) -> u32 {
    if taste == Taste::Edges && rng.chance(1, 2) {
        return *rng.pick(&[1, MOST_PRICE, MOST_PRICE - 1, 2]);
    }
    if strikes.is_empty() || rng.chance(1, 8) {
        return rng.between(1, 20_000_000);
    }
    let strike = *rng.pick(strikes);
    let away = match taste {
        Taste::Tiny => rng.between(0, 40),
        _ => *rng.pick(&[0, 1, 500, 50_000, 310_000, 1_000_000]),
    };
    let price = if rng.chance(1, 2) { strike.saturating_add(away) } else { strike.saturating_sub(away) };
    price.clamp(1, MOST_PRICE)
}

fn option_line(rng: &mut Rng, taste: Taste, strikes: &[u32]) -> OptionLine {
    OptionLine {
        multiplier: multiplier(rng, taste),
        a: levels(rng, taste),
        b: levels(rng, taste),
        c: levels(rng, taste),
        underlying: underlying(rng, taste, strikes),
    }
}

fn rate(rng: &mut Rng, taste: Taste) -> u32 {
    match taste {
        Taste::Edges => *rng.pick(&[1_000, 30_000]),
        _ => 1_000 * rng.between(1, 30),
    }
}

/// c of a stock: used as printed, any whole number of thousandths of a percent.
fn c_rate(rng: &mut Rng, taste: Taste) -> u32 {
    match taste {
        Taste::Edges => *rng.pick(&[0, 1, 100_000, 99_999]),
        Taste::Ordinary => 10 * rng.between(0, 500),
        Taste::Tiny => rng.between(0, 100_000),
    }
}

/// A price at which price x shares x rate lies halfway between two dollars, where there is one.
fn half_price(rng: &mut Rng, shares: u32, rate: u32) -> Option<u32> {
    let lot = shares as u64 * rate as u64;
    let odd = 2 * rng.between(0, 50) as u64 + 1;
    let price = 50_000_000 * odd / lot;
    (50_000_000 * odd % lot == 0 && (1..=MOST_PRICE as u64).contains(&price)).then_some(price as u32)
}

fn stock_line(rng: &mut Rng, taste: Taste, strikes: &[u32]) -> StockLine {
    let shares = if rng.chance(1, 2) { 2_000 } else { multiplier(rng, taste) };
    let (future_rate, a) = (rate(rng, taste), rate(rng, taste));
    let disposition = *rng.pick(&[10, 10, 15, 20, 30]);
    let half = if rng.chance(1, 4) { half_price(rng, shares, a * disposition / 10) } else { None };
    let price = half.unwrap_or_else(|| underlying(rng, taste, strikes));
    StockLine { shares, future_rate, a, c: [c_rate(rng, taste), c_rate(rng, taste), c_rate(rng, taste)], disposition, price }
}

/// The price on a Q line.
fn price(rng: &mut Rng, taste: Taste, sheet: &Sheet, series: &Series) -> u32 {
    if let Some(half) = price_of_half(rng, sheet, series) {
        return half;
    }
    match taste {
        Taste::Edges => *rng.pick(&[0, 1, MOST_PRICE, MOST_PRICE - 1]),
        Taste::Tiny => rng.between(0, 60),
        Taste::Ordinary => match rng.below(4) {
            0 => 10 * rng.between(0, 30_000),
            1 => rng.between(0, 400_000),
            2 => 500 * rng.between(0, 2_000),
            _ => rng.between(0, 3_000) * 2 + 1,
        },
    }
}

/// At times a price whose premium value, or whose future's margin, ends in half a dollar.
fn price_of_half(rng: &mut Rng, sheet: &Sheet, series: &Series) -> Option<u32> {
    if !rng.chance(1, 4) {
        return None;
    }
    if let Some(line) = sheet.options.get(&series.code) {
        return half_price(rng, line.multiplier, 100_000);
    }
    let line = sheet.stocks.get(&series.code.stock()?)?;
    if series.code.is_option() {
        half_price(rng, line.shares, 100_000)
    } else {
        half_price(rng, line.shares, line.future_rate * line.disposition / 10)
    }
}

/// Strikes of a code's series in the book.
fn strikes_of(book: &Book, is_of: impl Fn(&Series) -> bool) -> Vec<u32> {
    let mut list: Vec<u32> = book.holdings.iter().map(|holding| &holding.series).filter(|series| is_of(series)).map(|s| s.strike).collect();
    list.retain(|strike| *strike > 0);
    list
}

fn add_line_of_code(rng: &mut Rng, taste: Taste, book: &Book, sheet: &mut Sheet, code: Code) {
    if let Some(stock) = code.stock() {
        let strikes = strikes_of(book, |series| series.code.stock() == Some(stock));
        sheet.stocks.entry(stock).or_insert_with(|| stock_line(rng, taste, &strikes));
        return;
    }
    if code.is_option() {
        let strikes = strikes_of(book, |series| series.code == code);
        sheet.options.entry(code).or_insert_with(|| option_line(rng, taste, &strikes));
    }
    if let Some(parent) = code.parent() {
        sheet.clearing.entry(parent).or_insert_with(|| clearing(rng, taste));
    }
}

fn add_price(rng: &mut Rng, taste: Taste, sheet: &mut Sheet, series: Series) {
    if series.code.is_option() || series.code.stock().is_some() {
        let price = price(rng, taste, sheet, &series);
        sheet.prices.insert(series, price);
    }
}

/// A sheet of the book's day with every line that the book might need.
pub fn covering(rng: &mut Rng, book: &Book, taste: Taste) -> Sheet {
    let mut sheet = Sheet::empty(book.day);
    for holding in &book.holdings {
        add_line_of_code(rng, taste, book, &mut sheet, holding.series.code);
        add_price(rng, taste, &mut sheet, holding.series);
    }
    sheet
}

/// Lines that nothing needs, or that no series of the book has.
pub fn add_others(rng: &mut Rng, book: &Book, sheet: &mut Sheet, taste: Taste, count: usize) {
    let market = Market::small(rng);
    for _ in 0..count {
        let series = market.series(rng);
        add_line_of_code(rng, taste, book, sheet, series.code);
        add_price(rng, taste, sheet, series);
    }
}

/// More Q lines until the sheet has `lines` lines.
pub fn fill(rng: &mut Rng, sheet: &mut Sheet, taste: Taste, lines: usize) {
    while sheet.lines() < lines {
        let market = Market::wide(rng);
        for _ in 0..lines - sheet.lines() {
            let series = market.series(rng);
            add_price(rng, taste, sheet, series);
        }
    }
}

fn remove_some<K: Copy + Ord, V>(rng: &mut Rng, map: &mut BTreeMap<K, V>) {
    if let Some(key) = map.keys().nth(rng.below(map.len())).copied() {
        map.remove(&key);
    }
}

/// Leaves out some line, of a group chosen first so that the few F, O and S lines go as often as the many Q lines.
pub fn leave_out(rng: &mut Rng, sheet: &mut Sheet) {
    match rng.below(5) {
        0 => remove_some(rng, &mut sheet.clearing),
        1 => remove_some(rng, &mut sheet.options),
        2 => remove_some(rng, &mut sheet.stocks),
        _ => remove_some(rng, &mut sheet.prices),
    }
}

/// A sheet for a book: mostly one on which it can be margined, at times with a line left out, lines added, or of another day.
pub fn sheet_for(rng: &mut Rng, book: &Book) -> Sheet {
    let taste = some_taste(rng);
    let mut sheet = covering(rng, book, taste);
    if rng.chance(1, 3) {
        let count = 1 + rng.below(6);
        add_others(rng, book, &mut sheet, taste, count);
    }
    if rng.chance(1, 4) {
        for _ in 0..1 + rng.below(3) {
            leave_out(rng, &mut sheet);
        }
    }
    if rng.chance(1, 25) {
        sheet.day = any_day(rng);
    }
    sheet
}

/// A book of one row, or of one pair and what it ties, with few lots, and a sheet with all it needs: for amounts one by one.
pub fn one_amount(rng: &mut Rng) -> (Book, Sheet) {
    let market = Market::small(rng);
    let mut book = Book { account: 1, identity: b'1', day: any_day(rng), holdings: Vec::new(), pairs: Vec::new() };
    let lots = *rng.pick(&[1, 1, 1, 2, 3, MOST_LOTS / 5]);
    if rng.chance(1, 3) {
        let long = if rng.chance(1, 2) { 0 } else { lots };
        book.holdings.push(Holding { series: market.series(rng), long, short: lots });
    } else {
        let kind = rng.between(2, 8);
        let pair = Pair { units: lots, ..market.pair(rng, kind) };
        for (series, side, ratio) in pair.legs() {
            let total = (ratio * lots).min(MOST_LOTS);
            let (long, short) = if side == Side::Long { (total, 0) } else { (0, total) };
            book.holdings.push(Holding { series, long, short });
        }
        book.holdings.sort();
        book.pairs.push(pair);
    }
    let taste = some_taste(rng);
    let sheet = covering(rng, &book, taste);
    (book, sheet)
}
