//! Texts at and over the limits: bytes, lines, holdings, pairs.

use crate::books::{any_day, book, some_account, some_identity, Market, Size};
use crate::breaches::breached_once;
use crate::damage::damaged;
use crate::fields::{lines_of, text_of};
use crate::paper::*;
use crate::rng::Rng;
use crate::sheets::{covering, fill, some_taste};

/// A market with a little more than 128 series, all of which pairs can use.
fn dense_market(rng: &mut Rng) -> Market {
    let mut options = OPTIONS.to_vec();
    options.remove(1 + rng.below(3));
    Market {
        futures: FUTURES.to_vec(),
        options,
        stocks: vec![*b"CD", *b"TX"],
        dates: vec![20240117, 20240221, 20240320],
        strikes: vec![1, 100_000, 18_000_000, MOST_PRICE],
    }
}

/// The market that a book's series come from.
pub fn market_of(book: &Book) -> Market {
    let series = || book.holdings.iter().map(|holding| holding.series);
    let listed = |codes: &[Code]| codes.iter().copied().filter(|code| series().any(|s| s.code == *code)).collect::<Vec<_>>();
    let mut dates: Vec<u32> = series().map(|s| s.date).collect();
    let mut strikes: Vec<u32> = series().map(|s| s.strike).filter(|strike| *strike > 0).collect();
    let mut stocks: Vec<[u8; 2]> = series().filter_map(|s| s.code.stock()).collect();
    dates.sort();
    dates.dedup();
    strikes.sort();
    strikes.dedup();
    stocks.sort();
    stocks.dedup();
    Market { futures: listed(&FUTURES), options: listed(&OPTIONS), stocks, dates, strikes }
}

/// As many different series of the market.
fn dense_series(rng: &mut Rng, market: &Market, count: usize) -> Vec<Series> {
    let mut list: Vec<Series> = Vec::new();
    for date in &market.dates {
        let stocks = market.stocks.iter().map(|stock| Code::of_stock(*stock, b'F'));
        list.extend(market.futures.iter().copied().chain(stocks).map(|code| Series::future(code, *date)));
        let stocks = market.stocks.iter().map(|stock| Code::of_stock(*stock, b'O'));
        for code in market.options.iter().copied().chain(stocks) {
            for strike in &market.strikes {
                list.push(Series::option(code, *date, b'C', *strike));
                list.push(Series::option(code, *date, b'P', *strike));
            }
        }
    }
    list.sort();
    list.dedup();
    rng.shuffle(&mut list);
    list.truncate(count);
    list
}

/// A book of exactly so many holdings and pairs (as far as series go round), also more than a book may hold.
pub fn exact_book(rng: &mut Rng, holdings: usize, pairs: usize) -> Book {
    let market = dense_market(rng);
    let series = dense_series(rng, &market, holdings);
    let mut list: Vec<Pair> = Vec::new();
    for _ in 0..40 * pairs {
        if list.len() == pairs {
            break;
        }
        let kind = rng.between(1, 8);
        let pair = Pair { units: rng.between(1, 3), ..market.pair(rng, kind) };
        if series.contains(&pair.first) && series.contains(&pair.second) && !list.iter().any(|other| other.is_same(&pair)) {
            list.push(pair);
        }
    }
    list.sort();
    let mut rows: Vec<Holding> = series.iter().map(|series| row(rng, series, &list)).collect();
    rows.sort();
    Book { account: some_account(rng), identity: some_identity(rng), day: any_day(rng), holdings: rows, pairs: list }
}

/// A holding that covers what the pairs tie, mostly with a few free lots.
fn row(rng: &mut Rng, series: &Series, pairs: &[Pair]) -> Holding {
    let mut totals = [rng.between(0, 3), rng.between(0, 3)];
    for pair in pairs {
        for (of, side, ratio) in pair.legs() {
            if of == *series {
                totals[(side == Side::Short) as usize] += ratio * pair.units;
            }
        }
    }
    if totals == [0, 0] {
        totals[rng.below(2)] = 1;
    }
    Holding { series: *series, long: totals[0], short: totals[1] }
}

/// Lets a text grow to exactly this many bytes, with bytes of a chosen sort.
fn grow(rng: &mut Rng, mut text: Vec<u8>, bytes: usize) -> Vec<u8> {
    let lines = lines_of(&text);
    let last = text_of(&lines[lines.len().saturating_sub(1)..]);
    let sort = rng.below(4);
    while text.len() < bytes {
        match sort {
            0 => text.push(b'x'),
            1 => text.push(b'\n'),
            2 => text.extend_from_slice(&last),
            _ => text.push(b'0'),
        }
    }
    text.truncate(bytes);
    text
}

/// A text of one long line, or of junk.
fn junk(rng: &mut Rng, start: &[u8], bytes: usize) -> Vec<u8> {
    let byte = *rng.pick(b"x0\n\t\0");
    let mut text = if rng.chance(1, 2) { start.to_vec() } else { Vec::new() };
    text.resize(bytes, byte);
    if rng.chance(1, 2) {
        text[bytes - 1] = b'\n';
    }
    text
}

/// Mostly the text as it is; at times damaged, breached, or with its last lines in another order.
fn shuffle_some(rng: &mut Rng, text: Vec<u8>) -> Vec<u8> {
    match rng.below(6) {
        0 => damaged(rng, text),
        1 => breached_once(rng, &text),
        2 => {
            // The last rows of the text change places.
            let mut lines = lines_of(&text);
            let from = lines.len().saturating_sub(1 + rng.below(4));
            rng.shuffle(&mut lines[from..]);
            text_of(&lines)
        }
        _ => text,
    }
}

/// A full book, and a line more before its pairs or at its end.
fn line_too_many(rng: &mut Rng) -> Vec<u8> {
    let full = exact_book(rng, MOST_ROWS, MOST_ROWS);
    let other = exact_book(rng, 140, 200);
    let mut lines = lines_of(&full.text());
    let mut line = Vec::new();
    let at = if rng.chance(1, 2) {
        let holding = Holding { long: rng.between(0, 2) * 60_000, ..*rng.pick(&other.holdings) };
        holding_line(&mut line, &holding);
        1 + full.holdings.len()
    } else {
        let units = *rng.pick(&[0, 1, 1, 100_000]);
        pair_line(&mut line, &Pair { units, ..*rng.pick(&other.pairs) });
        lines.len()
    };
    line.pop();
    lines.insert(at, line);
    text_of(&lines)
}

/// The text of a book at or over a limit.
pub fn book_at_limit(rng: &mut Rng) -> Vec<u8> {
    let bytes = *rng.pick(&[BOOK_BYTES - 1, BOOK_BYTES, BOOK_BYTES, BOOK_BYTES + 1, BOOK_BYTES + 1, BOOK_BYTES + 2, 2 * BOOK_BYTES]);
    match rng.below(8) {
        0 => junk(rng, b"A\t0000001\t1\t20240102\n", bytes),
        1 => {
            let text = book(rng, Size::Small).text();
            grow(rng, text, bytes)
        }
        2 => {
            let text = exact_book(rng, MOST_ROWS, MOST_ROWS).text();
            grow(rng, text, bytes)
        }
        3 => line_too_many(rng),
        4 => {
            let text = exact_book(rng, MOST_ROWS, MOST_ROWS).text();
            shuffle_some(rng, text)
        }
        _ => {
            let holdings = *rng.pick(&[127, 128, 128, 129, 130]);
            let pairs = *rng.pick(&[127, 128, 129, 129, 130, 140]);
            let text = exact_book(rng, holdings, pairs).text();
            shuffle_some(rng, text)
        }
    }
}

/// The text of a sheet at or over a limit.
pub fn sheet_at_limit(rng: &mut Rng) -> Vec<u8> {
    let bytes = *rng.pick(&[SHEET_BYTES - 1, SHEET_BYTES, SHEET_BYTES, SHEET_BYTES + 1, SHEET_BYTES + 1, SHEET_BYTES + 2, 2 * SHEET_BYTES]);
    if rng.chance(1, 6) {
        return junk(rng, b"D\t20240102\n", bytes);
    }
    let lines = *rng.pick(&[20, 1_022, 1_023, 1_024, 1_024, 1_024, 1_025, 1_025, 1_026, 1_030]);
    let book = book(rng, Size::Small);
    let taste = some_taste(rng);
    let mut sheet = covering(rng, &book, taste);
    fill(rng, &mut sheet, taste, lines);
    let mut text = sheet.text();
    match rng.below(8) {
        0 => grow(rng, text, bytes),
        1 => {
            text.extend_from_slice(rng.pick::<&[u8]>(&[b"\n", b"x", b"x\n", b"\0", b"Q", b"D\t20240102\n", b"\n\n\n"]));
            text
        }
        2 => {
            text.pop();
            text
        }
        3 => {
            // A bad line early, or the last of those that count.
            let mut list = lines_of(&text);
            let at = (*rng.pick(&[6, 1, 1_022, 1_023, 1_024])).min(list.len() - 1);
            list[at] = b"junk".to_vec();
            text_of(&list)
        }
        4 => damaged(rng, text),
        5 => breached_once(rng, &text),
        _ => text,
    }
}

/// A sheet of many lines for this book.
pub fn large_sheet(rng: &mut Rng, book: &Book) -> Sheet {
    let taste = some_taste(rng);
    let mut sheet = covering(rng, book, taste);
    let lines = if rng.chance(1, 3) { SHEET_LINES } else { 200 + rng.below(SHEET_LINES - 199) };
    fill(rng, &mut sheet, taste, lines);
    sheet
}
