//! Random sound books: pairs are chosen first, then holdings that cover the lots they tie, and some free lots.

use crate::paper::*;
use crate::rng::Rng;
use std::collections::BTreeMap;

/// How large a book is to be.
#[derive(Clone, Copy, PartialEq, Eq, Debug)]
pub enum Size {
    Small,
    Middle,
    Large,
    Full,
}

/// What series are drawn from: a small market makes pairs share series, a wide one has room for full books.
#[derive(Clone, Debug)]
pub struct Market {
    pub futures: Vec<Code>,
    pub options: Vec<Code>,
    pub stocks: Vec<[u8; 2]>,
    pub dates: Vec<u32>,
    pub strikes: Vec<u32>,
}

pub const EDGE_DATES: [u32; 6] = [20000101, 20991231, 20240229, 20000229, 20960229, 20231231];

/// Any day of the paper's, at times one at an edge.
pub fn any_day(rng: &mut Rng) -> u32 {
    if rng.chance(1, 10) {
        return *rng.pick(&EDGE_DATES);
    }
    let year = if rng.chance(4, 5) { rng.between(2018, 2026) } else { rng.between(2000, 2099) };
    let month = rng.between(1, 12);
    year * 10_000 + month * 100 + rng.between(1, days_of_month(year, month))
}

/// A strike: mostly one that lies near a usual underlying price, so that options fall in and out of the money.
fn any_strike(rng: &mut Rng) -> u32 {
    match rng.below(12) {
        0 => *rng.pick(&[1, 2, MOST_PRICE, MOST_PRICE - 1, 999, 1_000]),
        1 => rng.between(1, MOST_PRICE),
        2 => rng.between(1, 20_000),
        3..=5 => 50_000 + 500 * rng.between(0, 200),
        _ => 10_000_000 + 50_000 * rng.between(0, 40),
    }
}

fn several<T: Copy + PartialEq>(rng: &mut Rng, from: &[T], count: usize) -> Vec<T> {
    let mut list = from.to_vec();
    rng.shuffle(&mut list);
    list.truncate(count.max(1));
    list
}

impl Market {
    pub fn small(rng: &mut Rng) -> Market {
        let count = 1 + rng.below(3);
        Market::random(rng, count, 2 + count.min(2), 2 + count)
    }

    pub fn wide(rng: &mut Rng) -> Market {
        let count = 6 + rng.below(10);
        Market::random(rng, count, 5, 8)
    }

    fn random(rng: &mut Rng, families: usize, dates: usize, strikes: usize) -> Market {
        let mut market = Market {
            futures: several(rng, &FUTURES, families),
            options: several(rng, &OPTIONS, families),
            stocks: several(rng, &STOCKS, families),
            dates: Vec::new(),
            strikes: Vec::new(),
        };
        while market.dates.len() < dates {
            let date = any_day(rng);
            if !market.dates.contains(&date) {
                market.dates.push(date);
            }
        }
        while market.strikes.len() < strikes {
            let strike = any_strike(rng);
            if !market.strikes.contains(&strike) {
                market.strikes.push(strike);
            }
        }
        market.dates.sort();
        market.strikes.sort();
        market
    }

    pub fn option_code(&self, rng: &mut Rng) -> Code {
        if rng.chance(1, 2) {
            *rng.pick(&self.options)
        } else {
            // A stock whose two letters and O spell a listed option is no stock.
            let code = Code::of_stock(*rng.pick(&self.stocks), b'O');
            if code.is_listed() {
                *rng.pick(&self.options)
            } else {
                code
            }
        }
    }

    pub fn future_code(&self, rng: &mut Rng) -> Code {
        if rng.chance(2, 3) {
            *rng.pick(&self.futures)
        } else {
            Code::of_stock(*rng.pick(&self.stocks), b'F')
        }
    }

    fn date(&self, rng: &mut Rng) -> u32 {
        *rng.pick(&self.dates)
    }

    fn strike(&self, rng: &mut Rng) -> u32 {
        *rng.pick(&self.strikes)
    }

    pub fn series(&self, rng: &mut Rng) -> Series {
        if rng.chance(1, 3) {
            Series::future(self.future_code(rng), self.date(rng))
        } else {
            let code = self.option_code(rng);
            self.option_of(rng, code, b"CP")
        }
    }

    fn option_of(&self, rng: &mut Rng, code: Code, among: &[u8]) -> Series {
        let letter = *rng.pick(among);
        Series::option(code, self.date(rng), letter, self.strike(rng))
    }

    /// A pair of the kind that may stand, of one unit.
    pub fn pair(&self, rng: &mut Rng, kind: u32) -> Pair {
        let (first, second, r1, r2) = match kind {
            1 | 2 => self.vertical(rng, kind),
            3 => self.time_spread(rng),
            4 => self.short_couple(rng),
            5 => self.covered(rng),
            6 => self.conversion(rng),
            7 => self.calendar(rng),
            _ => self.products(rng),
        };
        Pair { kind, first, second, r1, r2, units: 1 }
    }

    fn vertical(&self, rng: &mut Rng, kind: u32) -> (Series, Series, u32, u32) {
        let (code, date) = (self.option_code(rng), self.date(rng));
        let letter = *rng.pick(b"CP");
        let (low, high) = rng.two(&self.strikes);
        let long_is_low = (kind == 1) == (letter == b'C');
        let (long, short) = if long_is_low { (low, high) } else { (high, low) };
        (Series::option(code, date, letter, long), Series::option(code, date, letter, short), 1, 1)
    }

    fn time_spread(&self, rng: &mut Rng) -> (Series, Series, u32, u32) {
        let code = self.option_code(rng);
        let letter = *rng.pick(b"CP");
        let (early, late) = rng.two(&self.dates);
        let long = Series::option(code, late, letter, self.strike(rng));
        (long, Series::option(code, early, letter, self.strike(rng)), 1, 1)
    }

    fn short_couple(&self, rng: &mut Rng) -> (Series, Series, u32, u32) {
        let code = self.option_code(rng);
        (self.option_of(rng, code, b"C"), self.option_of(rng, code, b"P"), 1, 1)
    }

    fn covered(&self, rng: &mut Rng) -> (Series, Series, u32, u32) {
        let stock = *rng.pick(&self.stocks);
        let of_stock = Code::of_stock(stock, b'O');
        let line = if rng.chance(1, 3) && !of_stock.is_listed() && !Code::of_stock(stock, b'F').is_listed() {
            Ratio { future: Code::of_stock(stock, b'F'), option: of_stock, r1: 1, least: 1, greatest: 1 }
        } else {
            *rng.pick(&RATIOS)
        };
        let r2 = match rng.below(3) {
            0 => line.least,
            1 => line.greatest,
            _ => rng.between(line.least, line.greatest),
        };
        (Series::future(line.future, self.date(rng)), self.option_of(rng, line.option, b"CP"), line.r1, r2)
    }

    fn conversion(&self, rng: &mut Rng) -> (Series, Series, u32, u32) {
        let code = self.option_code(rng);
        let (long, short) = if rng.chance(1, 2) { (b"C", b"P") } else { (b"P", b"C") };
        (self.option_of(rng, code, long), self.option_of(rng, code, short), 1, 1)
    }

    fn calendar(&self, rng: &mut Rng) -> (Series, Series, u32, u32) {
        let code = self.future_code(rng);
        let (early, late) = rng.two(&self.dates);
        let (long, short) = if rng.chance(1, 2) { (early, late) } else { (late, early) };
        (Series::future(code, long), Series::future(code, short), 1, 1)
    }

    fn products(&self, rng: &mut Rng) -> (Series, Series, u32, u32) {
        let (one, other) = *rng.pick(&COUPLES);
        let (long, short) = if rng.chance(1, 2) { (one, other) } else { (other, one) };
        (Series::future(long, self.date(rng)), Series::future(short, self.date(rng)), 1, 1)
    }
}

/// Lots that pairs tie: long and short of each series.
type Tied = BTreeMap<Series, [u32; 2]>;

fn at(side: Side) -> usize {
    match side {
        Side::Long => 0,
        Side::Short => 1,
    }
}

/// The most units of a pair that keep every tied sum within a total's limit.
fn units_left(tied: &Tied, pair: &Pair) -> u32 {
    let left = |(series, side, ratio): &Leg| (MOST_LOTS - tied.get(series).map_or(0, |lots| lots[at(*side)])) / ratio;
    pair.legs().iter().map(left).min().unwrap_or(0)
}

fn tie(tied: &mut Tied, pair: &Pair) {
    for (series, side, ratio) in pair.legs() {
        tied.entry(series).or_default()[at(side)] += ratio * pair.units;
    }
}

/// Units: mostly few, at times exactly as many as a total can hold.
fn some_units(rng: &mut Rng, most: u32) -> u32 {
    match rng.below(24) {
        0 => most,
        1 => rng.between(1, most),
        2 => rng.between(1, most.min(1_000)),
        _ => rng.between(1, most.min(5)),
    }
}

/// Up to `count` pairs that may stand together, on at most `series` series.
fn some_pairs(rng: &mut Rng, market: &Market, count: usize, series: usize, tied: &mut Tied) -> Vec<Pair> {
    let mut pairs: Vec<Pair> = Vec::new();
    for _ in 0..4 * count {
        if pairs.len() == count {
            break;
        }
        let kind = rng.between(1, 8);
        let mut pair = market.pair(rng, kind);
        let new_series = pair.legs().iter().filter(|leg| !tied.contains_key(&leg.0)).count();
        let most = units_left(tied, &pair);
        if most == 0 || tied.len() + new_series > series || pairs.iter().any(|standing| standing.is_same(&pair)) {
            continue;
        }
        pair.units = some_units(rng, most);
        tie(tied, &pair);
        pairs.push(pair);
    }
    pairs.sort();
    pairs
}

/// A total that covers the tied lots.
fn some_total(rng: &mut Rng, tied: u32) -> u32 {
    match rng.below(16) {
        0 => MOST_LOTS,
        1 => tied.max(MOST_LOTS - 1),
        2 => rng.between(tied, MOST_LOTS),
        3..=6 => (tied + rng.between(1, 5)).min(MOST_LOTS),
        7 => (tied + 1).min(MOST_LOTS),
        _ => tied,
    }
}

fn some_holdings(rng: &mut Rng, market: &Market, count: usize, mut tied: Tied) -> Vec<Holding> {
    for _ in 0..4 * count {
        if tied.len() >= count {
            break;
        }
        tied.entry(market.series(rng)).or_default();
    }
    let mut holdings = Vec::with_capacity(tied.len());
    for (series, lots) in tied {
        let (mut long, mut short) = (some_total(rng, lots[0]), some_total(rng, lots[1]));
        if long == 0 && short == 0 {
            let lots = *rng.pick(&[1, 1, 2, 3, 7, MOST_LOTS - 1, MOST_LOTS]);
            if rng.chance(1, 3) {
                long = lots;
            } else {
                short = lots;
            }
        }
        holdings.push(Holding { series, long, short });
    }
    holdings
}

/// How many pairs and holdings a book of this size is to have.
fn wanted(rng: &mut Rng, size: Size) -> (usize, usize) {
    match size {
        Size::Small => (rng.below(4), rng.below(6)),
        Size::Middle => (rng.below(12), rng.below(16)),
        Size::Large => (rng.below(MOST_ROWS + 1), rng.below(MOST_ROWS + 1)),
        Size::Full => (MOST_ROWS, MOST_ROWS),
    }
}

/// A random sound book.
pub fn book(rng: &mut Rng, size: Size) -> Book {
    let market = match size {
        Size::Small | Size::Middle => Market::small(rng),
        Size::Large | Size::Full => Market::wide(rng),
    };
    book_of(rng, &market, size)
}

pub fn book_of(rng: &mut Rng, market: &Market, size: Size) -> Book {
    let (pairs, holdings) = wanted(rng, size);
    let mut tied = Tied::new();
    let pairs = some_pairs(rng, market, pairs, MOST_ROWS, &mut tied);
    let holdings = some_holdings(rng, market, holdings, tied);
    Book { account: some_account(rng), identity: some_identity(rng), day: any_day(rng), holdings, pairs }
}

pub fn some_account(rng: &mut Rng) -> u32 {
    match rng.below(6) {
        0 => 0,
        1 => 9_999_999,
        2 => rng.between(0, 9),
        _ => rng.between(0, 9_999_999),
    }
}

pub fn some_identity(rng: &mut Rng) -> u8 {
    *rng.pick(b"0123456789ABCDEFGHIJKLMNOPQRSTUVWXYZ")
}

/// Mostly small books.
pub fn some_size(rng: &mut Rng) -> Size {
    match rng.below(100) {
        0 => Size::Large,
        1..=25 => Size::Middle,
        _ => Size::Small,
    }
}
