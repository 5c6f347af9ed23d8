//! A light account of what is held and tied, kept only to steer a generator's choice. It never judges an answer.

use crate::paper::{Book, Holding, Leg, Pair, Series, Side, MOST_LOTS, MOST_ROWS};
use std::collections::BTreeMap;

/// Lots of one series: totals and tied lots, long then short.
#[derive(Clone, Copy, Default, Debug)]
pub struct Lots {
    pub total: [u32; 2],
    pub tied: [u32; 2],
}

#[derive(Clone, Default, Debug)]
pub struct Holdings {
    pub lots: BTreeMap<Series, Lots>,
    pub pairs: Vec<Pair>,
}

fn at(side: Side) -> usize {
    match side {
        Side::Long => 0,
        Side::Short => 1,
    }
}

impl Holdings {
    pub fn of(book: &Book) -> Holdings {
        let mut held = Holdings::default();
        for Holding { series, long, short } in &book.holdings {
            held.lots.insert(*series, Lots { total: [*long, *short], tied: [0, 0] });
        }
        for pair in &book.pairs {
            held.pair(pair);
        }
        held
    }

    pub fn total(&self, series: &Series, side: Side) -> u32 {
        self.lots.get(series).map_or(0, |lots| lots.total[at(side)])
    }

    pub fn free(&self, series: &Series, side: Side) -> u32 {
        self.lots.get(series).map_or(0, |lots| lots.total[at(side)].saturating_sub(lots.tied[at(side)]))
    }

    /// How many units of a pair the free lots allow.
    pub fn units_free(&self, pair: &Pair) -> u32 {
        pair.legs().iter().map(|(series, side, ratio)| self.free(series, *side) / (*ratio).max(1)).min().unwrap_or(0)
    }

    pub fn open(&mut self, series: &Series, side: Side, lots: u32) {
        if lots == 0 || lots > MOST_LOTS || self.total(series, side) + lots > MOST_LOTS {
            return;
        }
        if self.lots.len() < MOST_ROWS || self.lots.contains_key(series) {
            self.lots.entry(*series).or_default().total[at(side)] += lots;
        }
    }

    pub fn close(&mut self, series: &Series, side: Side, lots: u32) {
        if self.free(series, side) < lots {
            return;
        }
        if let Some(row) = self.lots.get_mut(series) {
            row.total[at(side)] -= lots;
            if row.total == [0, 0] {
                self.lots.remove(series);
            }
        }
    }

    pub fn pair(&mut self, pair: &Pair) {
        if pair.units == 0 || pair.units > MOST_LOTS || self.units_free(pair) < pair.units {
            return;
        }
        match self.pairs.iter().position(|standing| standing.is_same(pair)) {
            Some(place) => self.pairs[place].units += pair.units,
            None if self.pairs.len() < MOST_ROWS => self.pairs.push(*pair),
            None => return,
        }
        for leg in pair.legs() {
            self.tie(leg, pair.units, true);
        }
    }

    pub fn split(&mut self, pair: &Pair) {
        let Some(place) = self.pairs.iter().position(|standing| standing.is_same(pair)) else {
            return;
        };
        if self.pairs[place].units < pair.units {
            return;
        }
        self.pairs[place].units -= pair.units;
        if self.pairs[place].units == 0 {
            self.pairs.swap_remove(place);
        }
        for leg in pair.legs() {
            self.tie(leg, pair.units, false);
        }
    }

    fn tie(&mut self, (series, side, ratio): Leg, units: u32, more: bool) {
        if let Some(row) = self.lots.get_mut(&series) {
            let tied = &mut row.tied[at(side)];
            *tied = if more { *tied + ratio * units } else { tied.saturating_sub(ratio * units) };
        }
    }
}
