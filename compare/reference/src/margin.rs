//! The account's margin. Every look at the sheet that finds no line is 14, so what is read here is what is "Needed".
//!
//! Prices times a multiplier are thousandths of a dollar; those times a rate are 100,000,000ths. The greatest single margin is
//! below 450,000,000,000,000,000 of the latter, and the greatest account's sum is below that many dollars: 64 bits hold all.

use std::cmp::Ordering;

use crate::book::{Book, Holding, Side, Terms};
use crate::pairing::Kind;
use crate::rates::{half_up, Levels};
use crate::refusal::Refusal;
use crate::series::{Code, ListedOption, Nature, Product, Series};
use crate::sheet::{OptionRow, Sheet, StockRow};

/// Thousandths in a dollar.
const MILLS: u64 = 1_000;
/// A thousandth of a percent is one 100,000th.
const RATE: u64 = 100_000;

/// "The account's margin is the sum", or 13 where "sheet's day is not the book's", or 14 where a needed line is missing.
pub fn margin(book: &Book, sheet: &Sheet) -> Result<Levels, Refusal> {
    if book.day() != sheet.day() {
        return Err(Refusal::Day);
    }
    let mut sum = [0; 3];
    for holding in book.holdings() {
        charge_free(&mut sum, holding, sheet)?;
    }
    for pair in book.pairs() {
        let unit = unit_margin(&pair.terms, sheet)?;
        add(&mut sum, &unit, pair.units);
    }
    Ok(sum)
}

/// "Free long options cost nothing; every free future is charged."
fn charge_free(sum: &mut Levels, holding: &Holding, sheet: &Sheet) -> Result<(), Refusal> {
    let series = holding.series;
    let short = holding.free(Side::Short);
    if series.nature() == Nature::Future {
        let lots = holding.free(Side::Long) + short;
        if lots > 0 {
            add(sum, &future_margin(series, sheet)?, lots);
        }
    } else if short > 0 {
        let row = Row::of(series.code(), sheet)?;
        add(sum, &row.single(series, price(series, sheet)?), short);
    }
    Ok(())
}

/// "Then multiply by lots or units."
fn add(sum: &mut Levels, each: &Levels, lots: u32) {
    for (sum, each) in sum.iter_mut().zip(each) {
        *sum += each * u64::from(lots);
    }
}

/// "Each of the eight kinds has its own formula, per unit".
fn unit_margin(terms: &Terms, sheet: &Sheet) -> Result<Levels, Refusal> {
    let &Terms { first, second, .. } = terms;
    match terms.kind {
        Kind::Debit => Row::of(first.code(), sheet).map(|_| [0; 3]),
        Kind::Credit => {
            let width = u64::from(first.strike().abs_diff(second.strike()));
            let row = Row::of(first.code(), sheet)?;
            Ok([half_up(width * row.multiplier(), MILLS); 3])
        }
        Kind::Time => time_spread(first, second, sheet),
        Kind::ShortBoth => short_both(first, second, sheet),
        Kind::Covered => {
            let row = Row::of(second.code(), sheet)?;
            let premium = row.premium(price(second, sheet)?) * u64::from(terms.r2);
            let future = future_margin(first, sheet)?;
            Ok(future.map(|margin| margin * u64::from(terms.r1) + premium))
        }
        Kind::Conversion => {
            let row = Row::of(second.code(), sheet)?;
            Ok(row.single(second, price(second, sheet)?))
        }
        Kind::Calendar | Kind::TwoProducts => {
            let long = future_margin(first, sheet)?;
            let short = future_margin(second, sheet)?;
            Ok(levels(|l| long[l].max(short[l])))
        }
    }
}

/// "3, the larger of 10 percent of the parent future's clearing margin (...; for a stock 10 percent of security value) and
/// 2 x the absolute premium difference x multiplier, the same at all levels." The larger may be taken after rounding.
fn time_spread(long: Series, short: Series, sheet: &Sheet) -> Result<Levels, Refusal> {
    let row = Row::of(long.code(), sheet)?;
    let tenth = match row {
        Row::Listed(option, _) => {
            let parent = sheet.future(option.parent()).ok_or(Refusal::Missing)?;
            parent[0] / 10
        }
        Row::Stock(stock) => half_up(security_value(stock), 10 * MILLS),
    };
    let apart = price(long, sheet)?.abs_diff(price(short, sheet)?);
    let spread = half_up(2 * apart * row.multiplier(), MILLS);
    Ok([tenth.max(spread); 3])
}

/// "4, the larger of the two single margins + premium value of the side with the lower one + C; compared after rounding,
/// and when equal, the larger premium value".
fn short_both(call: Series, put: Series, sheet: &Sheet) -> Result<Levels, Refusal> {
    let row = Row::of(call.code(), sheet)?;
    let (call_price, put_price) = (price(call, sheet)?, price(put, sheet)?);
    let (call_premium, put_premium) = (row.premium(call_price), row.premium(put_price));
    let (call, put) = (row.single(call, call_price), row.single(put, put_price));
    let c = row.c();
    Ok(levels(|l| {
        let added = match call[l].cmp(&put[l]) {
            Ordering::Less => call_premium,
            Ordering::Equal => call_premium.max(put_premium),
            Ordering::Greater => put_premium,
        };
        call[l].max(put[l]) + added + c[l]
    }))
}

/// One lot of a future: the F line's amounts, or "Stock future: its Q price x shares x rate."
fn future_margin(future: Series, sheet: &Sheet) -> Result<Levels, Refusal> {
    match future.code().product() {
        Product::Future(listed) => sheet.future(listed).copied(),
        Product::StockFuture(stock) => sheet.stock(stock).and_then(|row| {
            let value = u64::from(sheet.price(future)?) * u64::from(row.shares);
            Some(
                row.future_rates
                    .map(|rate| half_up(value * rate, MILLS * RATE)),
            )
        }),
        Product::Option(_) | Product::StockOption(_) => None,
    }
    .ok_or(Refusal::Missing)
}

/// The price of a needed Q line.
fn price(series: Series, sheet: &Sheet) -> Result<u64, Refusal> {
    sheet.price(series).map(u64::from).ok_or(Refusal::Missing)
}

/// "security value = price x shares", in thousandths of a dollar.
fn security_value(row: &StockRow) -> u64 {
    u64::from(row.price) * u64::from(row.shares)
}

fn levels(amount: impl FnMut(usize) -> u64) -> Levels {
    [0, 1, 2].map(amount)
}

/// The "O or S line for each free short option and each pair with an option".
#[derive(Clone, Copy)]
enum Row<'a> {
    Listed(ListedOption, &'a OptionRow),
    Stock(&'a StockRow),
}

impl<'a> Row<'a> {
    fn of(code: Code, sheet: &'a Sheet) -> Result<Row<'a>, Refusal> {
        match code.product() {
            Product::Option(option) => sheet.option(option).map(|row| Row::Listed(option, row)),
            Product::StockOption(stock) => sheet.stock(stock).map(Row::Stock),
            Product::Future(_) | Product::StockFuture(_) => None,
        }
        .ok_or(Refusal::Missing)
    }

    /// "For a stock (004): multiplier = shares".
    fn multiplier(self) -> u64 {
        u64::from(match self {
            Row::Listed(_, row) => row.multiplier,
            Row::Stock(row) => row.shares,
        })
    }

    /// "Premium value = price x multiplier", rounded by itself.
    fn premium(self, price: u64) -> u64 {
        half_up(price * self.multiplier(), MILLS)
    }

    /// "C (stock: value x c)", rounded by itself.
    fn c(self) -> Levels {
        match self {
            Row::Listed(_, row) => row.c.map(u64::from),
            Row::Stock(row) => {
                let value = security_value(row);
                row.c.map(|c| half_up(value * u64::from(c), MILLS * RATE))
            }
        }
    }

    /// "Single short option, one lot": "premium value + the larger of (A - out-of-money) and B", rounded once.
    /// B is never negative, so neither need A less out-of-money be.
    fn single(self, option: Series, price: u64) -> Levels {
        let multiplier = self.multiplier();
        let premium = price * multiplier;
        let strike = u64::from(option.strike()) * multiplier;
        let is_put = option.nature() == Nature::Put;
        let out_of_money = |underlying: u64| {
            if is_put {
                underlying.saturating_sub(strike)
            } else {
                strike.saturating_sub(underlying)
            }
        };
        match self {
            Row::Listed(_, row) => {
                let out = out_of_money(u64::from(row.underlying) * multiplier);
                levels(|l| {
                    let a = u64::from(row.a[l]) * MILLS;
                    let b = u64::from(row.b[l]) * MILLS;
                    half_up(premium + a.saturating_sub(out).max(b), MILLS)
                })
            }
            // "A is value x a; B is value x b for a call but strike x shares x b for a put"; "b is half of a at each level, exact."
            Row::Stock(row) => {
                let value = security_value(row);
                let out = out_of_money(value) * RATE;
                let base = if is_put { strike } else { value };
                levels(|l| {
                    let a = value * row.a[l];
                    let b = base * (row.a[l] / 2);
                    half_up(premium * RATE + a.saturating_sub(out).max(b), MILLS * RATE)
                })
            }
        }
    }
}
