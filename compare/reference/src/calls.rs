//! The calls that make and change a book. A refused call leaves the book as it was handed in.

use crate::book::{Book, Holding, Pair, Side, Terms, MOST_ACCOUNT, MOST_LOTS, MOST_ROWS};
use crate::pairing::{self, Kind};
use crate::refusal::Refusal;
use crate::series::{Asked, Date};

/// A pair as a call hands it in, not yet judged.
#[derive(Clone, Copy, Debug)]
pub struct AskedPair<'a> {
    pub kind: u32,
    pub first: Asked<'a>,
    pub second: Asked<'a>,
    pub r1: u32,
    pub r2: u32,
    pub units: u32,
}

/// "a client identity code (one digit or capital)"
pub fn is_identity(byte: u8) -> bool {
    byte.is_ascii_digit() || byte.is_ascii_uppercase()
}

/// "make an empty book"; "Make: 2, 5."
pub fn make(account: u32, identity: u8, day: u32) -> Result<Book, Refusal> {
    if account > MOST_ACCOUNT || !is_identity(identity) {
        return Err(Refusal::Range);
    }
    let day = Date::from_number(day).ok_or(Refusal::Date)?;
    Ok(Book::empty(account, identity, day))
}

impl Book {
    /// Add lots to one side of a holding; "Open: series, 6, 7, 8."
    pub fn open(&mut self, series: Asked, side: Side, lots: u32) -> Result<(), Refusal> {
        let series = series.judge()?;
        let lots = sized_lots(lots)?;
        match self.find(series) {
            Ok(at) => {
                let total = &mut self.holdings[at].total[side as usize];
                if *total + lots > MOST_LOTS {
                    return Err(Refusal::Total);
                }
                *total += lots;
            }
            Err(_) if self.holdings.len() == MOST_ROWS => return Err(Refusal::Holdings),
            Err(at) => {
                let mut total = [0; 2];
                total[side as usize] = lots;
                let holding = Holding {
                    series,
                    total,
                    tied: [0; 2],
                };
                self.holdings.insert(at, holding);
            }
        }
        Ok(())
    }

    /// Take free lots from one side of a holding; "Close: series, 6, 9." "A holding of no lots ... give[s] up [its] room".
    pub fn close(&mut self, series: Asked, side: Side, lots: u32) -> Result<(), Refusal> {
        let series = series.judge()?;
        let lots = sized_lots(lots)?;
        let at = self.find(series).map_err(|_| Refusal::Free)?;
        let holding = &mut self.holdings[at];
        if holding.free(side) < lots {
            return Err(Refusal::Free);
        }
        holding.total[side as usize] -= lots;
        if holding.total == [0; 2] {
            self.holdings.remove(at);
        }
        Ok(())
    }

    /// Tie free lots in units of a pair; "Pair: first series, second, 6, 10, 9, 11." "Pairing what already stands adds to its units."
    pub fn pair(&mut self, asked: &AskedPair) -> Result<(), Refusal> {
        let first = asked.first.judge()?;
        let second = asked.second.judge()?;
        let units = asked.units;
        let (r1, r2) = pairing::sized(asked.r1, asked.r2, units).ok_or(Refusal::Size)?;
        let kind = Kind::from_number(asked.kind).ok_or(Refusal::Kind)?;
        if !pairing::allowed(kind, first, second, r1, r2) {
            return Err(Refusal::Kind);
        }
        let terms = Terms {
            kind,
            first,
            second,
            r1,
            r2,
        };
        let legs = self.free_legs(&terms, units).ok_or(Refusal::Free)?;
        match self.find_pair(&terms) {
            Ok(at) => self.pairs[at].units += units,
            Err(_) if self.pairs.len() == MOST_ROWS => return Err(Refusal::Pairs),
            Err(at) => self.pairs.insert(at, Pair { terms, units }),
        }
        self.tie(legs);
        Ok(())
    }

    /// Set free units of a standing pair; "Split: first, second, 6, 12." "a pair of no units give[s] up [its] room".
    pub fn split(&mut self, asked: &AskedPair) -> Result<(), Refusal> {
        let first = asked.first.judge()?;
        let second = asked.second.judge()?;
        let units = asked.units;
        let (r1, r2) = pairing::sized(asked.r1, asked.r2, units).ok_or(Refusal::Size)?;
        let kind = Kind::from_number(asked.kind).ok_or(Refusal::NoPair)?;
        let terms = Terms {
            kind,
            first,
            second,
            r1,
            r2,
        };
        let at = self.find_pair(&terms).map_err(|_| Refusal::NoPair)?;
        let left = self.pairs[at]
            .units
            .checked_sub(units)
            .ok_or(Refusal::NoPair)?;
        if left == 0 {
            self.pairs.remove(at);
        } else {
            self.pairs[at].units = left;
        }
        self.untie(&terms, units);
        Ok(())
    }

    /// "turn the day"; "Turn: 5, 13."
    pub fn turn(&mut self, day: u32) -> Result<(), Refusal> {
        let day = Date::from_number(day).ok_or(Refusal::Date)?;
        if day <= self.day {
            return Err(Refusal::Day);
        }
        self.day = day;
        Ok(())
    }
}

/// "lots ... not 1..100,000" is 6.
fn sized_lots(lots: u32) -> Result<u32, Refusal> {
    if (1..=MOST_LOTS).contains(&lots) {
        Ok(lots)
    } else {
        Err(Refusal::Size)
    }
}
