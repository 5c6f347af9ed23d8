//! The book: an account, its holdings and its pairs.

use crate::pairing::{self, Kind};
use crate::series::{Date, Series};

/// "A book holds at most 128 holdings and 128 pairs."
pub const MOST_ROWS: usize = 128;

/// "long and short totals, each 0 to 100,000"
pub const MOST_LOTS: u32 = 100_000;

/// "A book has an account (0 to 9,999,999)"
pub const MOST_ACCOUNT: u32 = 9_999_999;

/// A side of a holding.
#[derive(Clone, Copy, Debug, PartialEq, Eq)]
pub enum Side {
    Long,
    Short,
}

/// "A holding is a series with long and short totals"; beside them the "Tied lots of a series and side", kept up with the pairs.
#[derive(Clone, Copy, Debug, PartialEq, Eq)]
pub struct Holding {
    pub series: Series,
    pub(crate) total: [u32; 2],
    pub(crate) tied: [u32; 2],
}

impl Holding {
    /// The side's total.
    pub fn total(&self, side: Side) -> u32 {
        self.total[side as usize]
    }

    /// "free is total less tied and never negative"
    pub fn free(&self, side: Side) -> u32 {
        self.total[side as usize] - self.tied[side as usize]
    }
}

/// What tells pairs apart: "pairs differ in kind, series or ratio". The order is that of M lines, "those fields but units".
#[derive(Clone, Copy, Debug, PartialEq, Eq, PartialOrd, Ord)]
pub struct Terms {
    pub kind: Kind,
    pub first: Series,
    pub second: Series,
    pub r1: u8,
    pub r2: u8,
}

impl Terms {
    /// The sides of the first and the second leg.
    pub fn sides(&self) -> [Side; 2] {
        pairing::sides(self.kind, self.second.nature())
    }

    /// The lots of the first and the second leg in so many units: "ratio times units".
    pub fn lots(&self, units: u32) -> [u32; 2] {
        [u32::from(self.r1) * units, u32::from(self.r2) * units]
    }
}

/// "A pair is a kind, first and second series, lots per unit r1 and r2, and units."
#[derive(Clone, Copy, Debug, PartialEq, Eq)]
pub struct Pair {
    pub terms: Terms,
    pub units: u32,
}

/// "A book has an account, a client identity code, a day, holdings and pairs."
/// Both lists "stand in the order of their text lines".
#[derive(Clone, Debug, PartialEq, Eq)]
pub struct Book {
    pub(crate) account: u32,
    pub(crate) identity: u8,
    pub(crate) day: Date,
    pub(crate) holdings: Vec<Holding>,
    pub(crate) pairs: Vec<Pair>,
}

impl Default for Book {
    /// "the empty book of account 0, code 0, day 20000101"
    fn default() -> Book {
        Book::empty(0, b'0', Date::FIRST)
    }
}

impl Book {
    pub(crate) fn empty(account: u32, identity: u8, day: Date) -> Book {
        Book {
            account,
            identity,
            day,
            holdings: Vec::new(),
            pairs: Vec::new(),
        }
    }

    /// "an account (0 to 9,999,999)"
    pub fn account(&self) -> u32 {
        self.account
    }

    /// "a client identity code (one digit or capital)"
    pub fn identity(&self) -> u8 {
        self.identity
    }

    /// The book's day.
    pub fn day(&self) -> Date {
        self.day
    }

    /// "Holdings have different series", in series order.
    pub fn holdings(&self) -> &[Holding] {
        &self.holdings
    }

    /// The pairs, in the order of M lines.
    pub fn pairs(&self) -> &[Pair] {
        &self.pairs
    }

    /// Where the series' holding stands, or where it would be put in.
    pub(crate) fn find(&self, series: Series) -> Result<usize, usize> {
        self.holdings.binary_search_by_key(&series, |h| h.series)
    }

    /// Where the pair of these terms stands, or where it would be put in.
    pub(crate) fn find_pair(&self, terms: &Terms) -> Result<usize, usize> {
        self.pairs.binary_search_by(|pair| pair.terms.cmp(terms))
    }

    /// The lots that so many units of a pair tie, if both legs have them free. The legs of an allowed pair are different series.
    pub(crate) fn free_legs(&self, terms: &Terms, units: u32) -> Option<[Leg; 2]> {
        let [first_side, second_side] = terms.sides();
        let [first_lots, second_lots] = terms.lots(units);
        Some([
            self.free_leg(terms.first, first_side, first_lots)?,
            self.free_leg(terms.second, second_side, second_lots)?,
        ])
    }

    fn free_leg(&self, series: Series, side: Side, lots: u32) -> Option<Leg> {
        let at = self.find(series).ok()?;
        (self.holdings[at].free(side) >= lots).then_some(Leg { at, side, lots })
    }

    /// Tie the lots of a pair's legs.
    pub(crate) fn tie(&mut self, legs: [Leg; 2]) {
        for Leg { at, side, lots } in legs {
            self.holdings[at].tied[side as usize] += lots;
        }
    }

    /// Set free the lots that so many units of a standing pair tie.
    pub(crate) fn untie(&mut self, terms: &Terms, units: u32) {
        let legs = [terms.first, terms.second].into_iter();
        for ((series, side), lots) in legs.zip(terms.sides()).zip(terms.lots(units)) {
            if let Ok(at) = self.find(series) {
                self.holdings[at].tied[side as usize] -= lots;
            }
        }
    }
}

/// Lots of one side of the holding at a place.
#[derive(Clone, Copy, Debug)]
pub(crate) struct Leg {
    at: usize,
    side: Side,
    lots: u32,
}
