//! Which pairs may stand.

use crate::book::{Side, MOST_LOTS};
use crate::series::{Code, Nature, Product, Series};

/// The eight kinds of "Which pairs may stand".
#[derive(Clone, Copy, Debug, PartialEq, Eq, PartialOrd, Ord)]
pub enum Kind {
    /// "1. Debit vertical"
    Debit = 1,
    /// "2. Credit vertical"
    Credit,
    /// "3. Time spread"
    Time,
    /// "4. Short call, then short put"
    ShortBoth,
    /// "5. Future, then short option"
    Covered,
    /// "6. Conversion or reversal"
    Conversion,
    /// "7. Calendar"
    Calendar,
    /// "8. Two products"
    TwoProducts,
}

impl Kind {
    /// The kind of this number; "kind not 1..8" is none.
    pub fn from_number(number: u32) -> Option<Kind> {
        match number {
            1 => Some(Kind::Debit),
            2 => Some(Kind::Credit),
            3 => Some(Kind::Time),
            4 => Some(Kind::ShortBoth),
            5 => Some(Kind::Covered),
            6 => Some(Kind::Conversion),
            7 => Some(Kind::Calendar),
            8 => Some(Kind::TwoProducts),
            _ => None,
        }
    }
}

/// A row of "The ratios allowed for kind 5".
struct Ratio {
    future: Code,
    option: Code,
    r1: u8,
    least_r2: u8,
    most_r2: u8,
}

const fn ratio(future: Code, r1: u8, option: Code, least_r2: u8, most_r2: u8) -> Ratio {
    Ratio {
        future,
        option,
        r1,
        least_r2,
        most_r2,
    }
}

const RATIOS: [Ratio; 8] = [
    ratio(Code::TX, 1, Code::TXO, 1, 4),
    ratio(Code::MTX, 1, Code::TXO, 1, 1),
    ratio(Code::TMF, 5, Code::TXO, 1, 1),
    ratio(Code::TE, 1, Code::TEO, 1, 4),
    ratio(Code::ZEF, 2, Code::TEO, 1, 1),
    ratio(Code::TF, 1, Code::TFO, 1, 4),
    ratio(Code::ZFF, 1, Code::TFO, 1, 1),
    ratio(Code::TGF, 1, Code::TGO, 1, 2),
];

/// "ratio times units not 1..100,000; ratio not 1..100" and units not 1..100,000 are 6: the ratios, where none of these holds.
pub fn sized(r1: u32, r2: u32, units: u32) -> Option<(u8, u8)> {
    let ratios = 1..=100;
    let sized = ratios.contains(&r1)
        && ratios.contains(&r2)
        && (1..=MOST_LOTS).contains(&units)
        && r1.max(r2) * units <= MOST_LOTS;
    sized.then_some((r1 as u8, r2 as u8))
}

/// Whether the pair may stand: "Except in kind 5, r1 = r2 = 1", and the kind's own rule.
pub fn allowed(kind: Kind, first: Series, second: Series, r1: u8, r2: u8) -> bool {
    if kind == Kind::Covered {
        return second.nature() != Nature::Future && covered(first.code(), second.code(), r1, r2);
    }
    r1 == 1
        && r2 == 1
        && match kind {
            Kind::Debit => vertical(first, second) && buys_nearer(first, second),
            Kind::Credit => vertical(first, second) && buys_nearer(second, first),
            Kind::Time => same_options(first, second) && first.date() > second.date(),
            Kind::ShortBoth => {
                first.code() == second.code()
                    && first.nature() == Nature::Call
                    && second.nature() == Nature::Put
            }
            Kind::Conversion => {
                first.code() == second.code()
                    && first.nature() != second.nature()
                    && first.nature() != Nature::Future
            }
            Kind::Calendar => {
                first.code() == second.code()
                    && first.nature() == Nature::Future
                    && first.date() != second.date()
            }
            Kind::TwoProducts => matches!(
                (first.code(), second.code()),
                (Code::UNF, Code::SXF)
                    | (Code::SXF, Code::UNF)
                    | (Code::GTF, Code::G2F)
                    | (Code::G2F, Code::GTF)
            ),
            Kind::Covered => false,
        }
}

/// The sides of a pair's legs: "long, then short"; two short ones in kind 4; in kind 5 "long future with calls, short future with puts".
pub fn sides(kind: Kind, second: Nature) -> [Side; 2] {
    match kind {
        Kind::ShortBoth => [Side::Short, Side::Short],
        Kind::Covered if second == Nature::Put => [Side::Short, Side::Short],
        _ => [Side::Long, Side::Short],
    }
}

/// "Same nature means both calls or both puts", and of one code.
fn same_options(first: Series, second: Series) -> bool {
    first.code() == second.code()
        && first.nature() == second.nature()
        && first.nature() != Nature::Future
}

/// "same option code, nature and date"
fn vertical(first: Series, second: Series) -> bool {
    same_options(first, second) && first.date() == second.date()
}

/// "call: long strike lower; put: long strike higher"
fn buys_nearer(long: Series, short: Series) -> bool {
    match long.nature() {
        Nature::Put => long.strike() > short.strike(),
        _ => long.strike() < short.strike(),
    }
}

/// "The ratios allowed for kind 5", of the table or "1 stock future to 1 option of that stock".
fn covered(future: Code, option: Code, r1: u8, r2: u8) -> bool {
    match (future.product(), option.product()) {
        (Product::StockFuture(future), Product::StockOption(option)) => {
            future == option && r1 == 1 && r2 == 1
        }
        _ => RATIOS.iter().any(|row| {
            row.future == future
                && row.option == option
                && row.r1 == r1
                && (row.least_r2..=row.most_r2).contains(&r2)
        }),
    }
}
