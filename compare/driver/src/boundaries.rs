//! The boundaries of the paper, one after the other, beside the random inputs. The table says which value stands where; each row becomes
//! one text per value. Then come what a table cannot hold: every byte, every code, every day, every couple of series, every rate.

use crate::books::Market;
use crate::fields::{fields_of, join_line, lines_of, split_line, text_of, wrong_values};
use crate::histories::{Call, Words, NOTHING};
use crate::inputs::Input;
use crate::paper::*;
use crate::rng::Rng;
use crate::sheets::{covering, Taste};

/// A place of a text, written `{}`, and the values put there: the least and greatest allowed, their neighbours, and forms that no number has.
pub struct Boundary {
    pub what: &'static str,
    pub template: &'static str,
    pub values: &'static [&'static str],
}

const fn row(what: &'static str, template: &'static str, values: &'static [&'static str]) -> Boundary {
    Boundary { what, template, values }
}

const DATES: &[&str] = &[
    "20000101",
    "19991231",
    "20991231",
    "21000101",
    "20240229",
    "20230229",
    "20000229",
    "20240230",
    "20240131",
    "20240132",
    "20240100",
    "20240430",
    "20240431",
    "20241231",
    "20241301",
    "20240001",
    "00000000",
    "99999999",
    "2024011",
    "202401170",
    "",
];
const PRICES: &[&str] = &["0", "1", "2", "99999999", "100000000", "100000001", "999999999", "1000000000", "00", "01", ""];
const MULTIPLIERS: &[&str] = &["0", "1", "2", "19999", "20000", "20001", "999999999", "1000000000", "01"];
const RATES: &[&str] = &["0", "999", "1000", "1001", "1500", "2000", "29000", "29999", "30000", "30001", "31000", "999999999", "1000000000", "01000"];
const TOTALS: &[&str] = &["0", "1", "2", "99999", "100000", "100001", "131072", "999999999", "1000000000", "00", "01", "-1", ""];
const RATIOS: &[&str] = &["0", "1", "2", "3", "4", "5", "6", "10", "99", "100", "101", "256", "999999999", "1000000000", "01"];
const UNITS: &[&str] = &[
    "0",
    "1",
    "2",
    "999",
    "1000",
    "1001",
    "19999",
    "20000",
    "20001",
    "24999",
    "25000",
    "25001",
    "33333",
    "33334",
    "49999",
    "50000",
    "50001",
    "99999",
    "100000",
    "100001",
    "999999999",
    "1000000000",
    "01",
];

/// Fields of a book.
pub const BOOK: [Boundary; 19] = [
    row("account, 7 digits", "A\t{}\t1\t20240102\n", &["0000000", "0000001", "9999999", "000000", "00000000", "10000000", "-000001", "", "1"]),
    row("day of a book", "A\t0000001\t1\t{}\n", DATES),
    row("date of a series", "A\t0000001\t1\t20240102\nH\tTXO\t{}\tC\t1\t1\t0\n", DATES),
    row("strike of an option", "A\t0000001\t1\t20240102\nH\tTXO\t20240117\tC\t{}\t1\t0\n", PRICES),
    row("strike of a future", "A\t0000001\t1\t20240102\nH\tTX\t20240117\tF\t{}\t1\t0\n", PRICES),
    row("nature of an option", "A\t0000001\t1\t20240102\nH\tTXO\t20240117\t{}\t1\t1\t0\n", &["C", "P", "F", "c", "", "CC", "X"]),
    row("nature of a future", "A\t0000001\t1\t20240102\nH\tTX\t20240117\t{}\t0\t1\t0\n", &["C", "P", "F", "f", "", "FF", "X"]),
    row("long total", "A\t0000001\t1\t20240102\nH\tTX\t20240117\tF\t0\t{}\t0\n", TOTALS),
    row("short total", "A\t0000001\t1\t20240102\nH\tTX\t20240117\tF\t0\t0\t{}\n", TOTALS),
    row("long total beside a full short one", "A\t0000001\t1\t20240102\nH\tTX\t20240117\tF\t0\t{}\t100000\n", TOTALS),
    row("kind, verticals", "A\t0000001\t1\t20240102\nH\tTXO\t20240117\tC\t1\t5\t5\nH\tTXO\t20240117\tC\t2\t5\t5\nM\t{}\tTXO\t20240117\tC\t1\tTXO\t20240117\tC\t2\t1\t1\t1\n", &["0", "1", "2", "3", "4", "5", "6", "7", "8", "9", "10", "257", "01", "999999999", "1000000000", ""]),
    row("kind, futures", "A\t0000001\t1\t20240102\nH\tGTF\t20240117\tF\t0\t5\t5\nH\tGTF\t20240221\tF\t0\t5\t5\nM\t{}\tGTF\t20240117\tF\t0\tGTF\t20240221\tF\t0\t1\t1\t1\n", &["0", "1", "2", "3", "4", "5", "6", "7", "8", "9"]),
    row("r1 of TMF to TXO", "A\t0000001\t1\t20240102\nH\tTMF\t20240117\tF\t0\t100000\t0\nH\tTXO\t20240117\tC\t1\t0\t100000\nM\t5\tTMF\t20240117\tF\t0\tTXO\t20240117\tC\t1\t{}\t1\t1\n", RATIOS),
    row("r2 of TX to TXO", "A\t0000001\t1\t20240102\nH\tTX\t20240117\tF\t0\t100000\t0\nH\tTXO\t20240117\tC\t1\t0\t100000\nM\t5\tTX\t20240117\tF\t0\tTXO\t20240117\tC\t1\t1\t{}\t1\n", RATIOS),
    row("r2 of TGF to TGO", "A\t0000001\t1\t20240102\nH\tTGF\t20240117\tF\t0\t0\t100000\nH\tTGO\t20240117\tP\t1\t0\t100000\nM\t5\tTGF\t20240117\tF\t0\tTGO\t20240117\tP\t1\t1\t{}\t1\n", RATIOS),
    row("units of 1 to 1", "A\t0000001\t1\t20240102\nH\tTX\t20240117\tF\t0\t100000\t0\nH\tTX\t20240221\tF\t0\t0\t100000\nM\t7\tTX\t20240117\tF\t0\tTX\t20240221\tF\t0\t1\t1\t{}\n", UNITS),
    row("units of 5 to 1", "A\t0000001\t1\t20240102\nH\tTMF\t20240117\tF\t0\t100000\t0\nH\tTXO\t20240117\tC\t1\t0\t100000\nM\t5\tTMF\t20240117\tF\t0\tTXO\t20240117\tC\t1\t5\t1\t{}\n", UNITS),
    row("units of 1 to 4", "A\t0000001\t1\t20240102\nH\tTX\t20240117\tF\t0\t100000\t0\nH\tTXO\t20240117\tC\t1\t0\t100000\nM\t5\tTX\t20240117\tF\t0\tTXO\t20240117\tC\t1\t1\t4\t{}\n", UNITS),
    row("units of 1 to 100, never allowed", "A\t0000001\t1\t20240102\nH\tTX\t20240117\tF\t0\t100000\t0\nH\tTXO\t20240117\tC\t1\t0\t100000\nM\t5\tTX\t20240117\tF\t0\tTXO\t20240117\tC\t1\t1\t100\t{}\n", UNITS),
];

/// Fields of a sheet.
pub const SHEET: [Boundary; 16] = [
    row("day of a sheet", "D\t{}\n", DATES),
    row(
        "clearing margin",
        "D\t20240102\nF\tTX\t{}\n",
        &["0", "1", "999", "1000", "1001", "99999000", "100000000", "100001000", "100000001", "999999000", "1000000000", "01000", ""],
    ),
    row("multiplier", "D\t20240102\nO\tTXO\t{}\t1\t1\t1\t1\t1\t1\t1\t1\t1\t1\n", MULTIPLIERS),
    row("A, clearing", "D\t20240102\nO\tTXO\t50\t{}\t1\t1\t1\t1\t1\t1\t1\t1\t1\n", PRICES),
    row("B, maintenance", "D\t20240102\nO\tTXO\t50\t1\t1\t1\t1\t{}\t1\t1\t1\t1\t1\n", PRICES),
    row("C, initial", "D\t20240102\nO\tTXO\t50\t1\t1\t1\t1\t1\t1\t1\t1\t{}\t1\n", PRICES),
    row("underlying", "D\t20240102\nO\tTXO\t50\t1\t1\t1\t1\t1\t1\t1\t1\t1\t{}\n", PRICES),
    row("shares", "D\t20240102\nS\tCD\t{}\t1000\t1000\t0\t0\t0\t10\t1\n", MULTIPLIERS),
    row("rate of futures", "D\t20240102\nS\tCD\t2000\t{}\t1000\t0\t0\t0\t10\t1\n", RATES),
    row("a", "D\t20240102\nS\tCD\t2000\t1000\t{}\t0\t0\t0\t10\t1\n", RATES),
    row(
        "c, clearing",
        "D\t20240102\nS\tCD\t2000\t1000\t1000\t{}\t0\t0\t10\t1\n",
        &["0", "1", "99999", "100000", "100001", "999999999", "1000000000", "00"],
    ),
    row(
        "c, initial",
        "D\t20240102\nS\tCD\t2000\t1000\t1000\t0\t0\t{}\t10\t1\n",
        &["0", "1", "99999", "100000", "100001", "999999999", "1000000000", "00"],
    ),
    row("price of a stock", "D\t20240102\nS\tCD\t2000\t1000\t1000\t0\t0\t0\t10\t{}\n", PRICES),
    row("price on a Q line", "D\t20240102\nQ\tTXO\t20240117\tC\t1\t{}\n", PRICES),
    row("strike on a Q line", "D\t20240102\nQ\tTXO\t20240117\tC\t{}\t1\n", PRICES),
    row("date on a Q line", "D\t20240102\nQ\tCDF\t{}\tF\t0\t1\n", DATES),
];

fn put(boundary: &Boundary, value: &str) -> Vec<u8> {
    boundary.template.replace("{}", value).into_bytes()
}

/// The paper's example.
pub const EXAMPLE_BOOK: &[u8] = b"A\t0000007\t1\t20190930\nH\tTXO\t20191016\tC\t10200000\t0\t1\nH\tTXO\t20191016\tP\t10200000\t0\t1\nM\t4\tTXO\t20191016\tC\t10200000\tTXO\t20191016\tP\t10200000\t1\t1\t1\n";
pub const EXAMPLE_SHEET: &[u8] = b"D\t20190930\nO\tTXO\t50\t17000\t18000\t23000\t9000\t10000\t12000\t1800\t1900\t2400\t10873000\nQ\tTXO\t20191016\tC\t10200000\t590000\nQ\tTXO\t20191016\tP\t10200000\t98000\n";
const OTHER_SHEET: &[u8] =
    b"D\t20240102\nF\tGTF\t1000\nF\tTX\t136000\nS\tCD\t2000\t15000\t15000\t1\t2\t3\t15\t50050\nQ\tCDF\t20240117\tF\t0\t50100\n";

/// All inputs of the boundaries, each with its sort.
pub fn all() -> Vec<(&'static str, Input)> {
    let mut list = Vec::new();
    tables(&mut list);
    identities(&mut list);
    dispositions(&mut list);
    bytes(&mut list);
    two_fields(&mut list);
    codes(&mut list);
    calendar(&mut list);
    couples(&mut list);
    ratios(&mut list);
    clearing_amounts(&mut list);
    stock_rates(&mut list);
    time_spreads(&mut list);
    missing_lines(&mut list);
    list
}

type List = Vec<(&'static str, Input)>;

fn tables(list: &mut List) {
    for boundary in &BOOK {
        list.extend(boundary.values.iter().map(|value| ("boundary: fields of a book", Input::Book(put(boundary, value)))));
    }
    for boundary in &SHEET {
        list.extend(boundary.values.iter().map(|value| ("boundary: fields of a sheet", Input::Sheet(put(boundary, value)))));
    }
    list.push(("boundary: amounts", Input::Margin(EXAMPLE_BOOK.to_vec(), EXAMPLE_SHEET.to_vec())));
    for text in [&b""[..], b"\n", b"\0", b"A", b"D", b"A\n", b"D\n"] {
        list.push(("boundary: fields of a book", Input::Book(text.to_vec())));
        list.push(("boundary: fields of a sheet", Input::Sheet(text.to_vec())));
        list.push(("boundary: first of two texts", Input::Margin(text.to_vec(), EXAMPLE_SHEET.to_vec())));
        list.push(("boundary: first of two texts", Input::Margin(EXAMPLE_BOOK.to_vec(), text.to_vec())));
        list.push(("boundary: first of two texts", Input::Margin(text.to_vec(), text.to_vec())));
    }
}

/// Every byte as identity, in a text and in a call.
fn identities(list: &mut List) {
    for byte in 0..=255u8 {
        let text = [b"A\t0000001\t", &[byte][..], b"\t20240102\n"].concat();
        list.push(("boundary: fields of a book", Input::Book(text)));
    }
    let make = |identity: u32| Call::Make { account: 9_999_999, identity, day: 20240229 }.words();
    for identity in (0..=255).chain([305, u32::MAX]) {
        list.push(("boundary: calls", Input::History(NOTHING.to_vec(), vec![make(identity)])));
    }
    // a refused book, and codes with a fourth byte
    list.push(("boundary: calls", Input::History(Vec::new(), vec![make(u32::from(b'1'))])));
    for high in [0x0000_0000, 0x0100_0000, 0xFF00_0000] {
        let mut open = [0; 13];
        open[..5].copy_from_slice(&[1, 0x0054_5800 | high, 20240117, 0, 0]);
        open[12] = 1;
        list.push(("boundary: calls", Input::History(NOTHING.to_vec(), vec![make(u32::from(b'1')), open])));
    }
}

fn dispositions(list: &mut List) {
    for value in 0..=40 {
        let text = format!("D\t20240102\nS\tCD\t2000\t15000\t15000\t0\t0\t0\t{value}\t50050\n");
        list.push(("boundary: fields of a sheet", Input::Sheet(text.into_bytes())));
    }
    for value in (0..=31_500).step_by(250) {
        let text = format!("D\t20240102\nS\tCD\t2000\t{value}\t15000\t0\t0\t0\t10\t50050\n");
        list.push(("boundary: fields of a sheet", Input::Sheet(text.into_bytes())));
    }
}

/// The example's texts with each byte replaced, taken away or doubled, and cut at each place.
fn bytes(list: &mut List) {
    let mut add = |text: Vec<u8>, is_book: bool| {
        let input = if is_book { Input::Book(text) } else { Input::Sheet(text) };
        list.push((if is_book { "boundary: bytes of a book" } else { "boundary: bytes of a sheet" }, input));
    };
    for (text, is_book) in [(EXAMPLE_BOOK, true), (EXAMPLE_SHEET, false), (OTHER_SHEET, false)] {
        for place in 0..text.len() {
            add(text[..place].to_vec(), is_book);
            add([&text[..place], &text[place + 1..]].concat(), is_book);
            for byte in b"\t\n\r\0 019AFOXHM-\xFF" {
                add([&text[..place], &[*byte], &text[place + 1..]].concat(), is_book);
                add([&text[..place], &[*byte], &text[place..]].concat(), is_book);
            }
        }
    }
}

/// Every two fields of every line wrong at once, each in every way its sort of field can be (one value for each number).
fn two_fields(list: &mut List) {
    for (text, is_book) in [(EXAMPLE_BOOK, true), (EXAMPLE_SHEET, false), (OTHER_SHEET, false)] {
        let lines = lines_of(text);
        for (at, line) in lines.iter().enumerate() {
            for changed in wrong_in_two_fields(line) {
                let mut lines = lines.clone();
                lines[at] = changed;
                let text = text_of(&lines);
                let input = if is_book { Input::Book(text) } else { Input::Sheet(text) };
                list.push((if is_book { "boundary: two fields of a book" } else { "boundary: two fields of a sheet" }, input));
            }
        }
    }
}

fn wrong_in_two_fields(line: &[u8]) -> Vec<Vec<u8>> {
    let fields = split_line(line);
    let sorts = fields_of(line[0]);
    let wrong = |place: usize| [1, 4, 5, 2, 6, 10].into_iter().filter_map(move |number| wrong_values(sorts[place], number).first());
    let mut list = Vec::new();
    for one in 1..sorts.len() {
        for other in one + 1..sorts.len() {
            for first in wrong(one) {
                for second in wrong(other) {
                    let mut changed = fields.clone();
                    changed[one] = first.to_vec();
                    changed[other] = second.to_vec();
                    list.push(join_line(&changed));
                }
            }
        }
    }
    list
}

/// Every code of two and three bytes out of a few letters, on every line that has a code, and in a call.
fn codes(list: &mut List) {
    let letters = b"AEFGMNOSTUXZ2a\0";
    let mut calls = Vec::new();
    for first in letters {
        for second in letters {
            let pair = [*first, *second];
            let thirds = letters.iter().map(|third| [*first, *second, *third].to_vec());
            for code in std::iter::once(pair.to_vec()).chain(thirds) {
                code_lines(list, &code);
                calls.extend(code_calls(&code));
            }
        }
    }
    for part in calls.chunks(600) {
        let start = Call::Make { account: 1, identity: 65, day: 20240102 }.words();
        list.push(("boundary: calls", Input::History(NOTHING.to_vec(), std::iter::once(start).chain(part.iter().copied()).collect())));
    }
}

fn code_lines(list: &mut List, code: &[u8]) {
    for series in [&b"\t20240117\tF\t0"[..], b"\t20240117\tP\t1"] {
        let book = [b"A\t0000001\t1\t20240102\nH\t", code, series, b"\t1\t0\n"].concat();
        list.push(("boundary: codes of a book", Input::Book(book)));
        let sheet = [b"D\t20240102\nQ\t", code, series, b"\t1\n"].concat();
        list.push(("boundary: codes of a sheet", Input::Sheet(sheet)));
    }
    let clearing = [b"D\t20240102\nF\t", code, b"\t1000\n"].concat();
    let option = [b"D\t20240102\nO\t", code, b"\t50\t1\t1\t1\t1\t1\t1\t1\t1\t1\t1\n"].concat();
    let stock = [b"D\t20240102\nS\t", code, b"\t2000\t1000\t1000\t0\t0\t0\t10\t1\n"].concat();
    list.extend([clearing, option, stock].map(|text| ("boundary: codes of a sheet", Input::Sheet(text))));
}

/// Opens a future and a put of the code, and closes them again.
fn code_calls(code: &[u8]) -> Vec<Words> {
    let code = Code([code[0], code[1], code.get(2).copied().unwrap_or(0)]);
    let mut calls = Vec::new();
    for series in [Series::future(code, 20240117), Series::option(code, 20240117, b'P', 1)] {
        calls.push(Call::Open { series, side: Side::Short, lots: 1 }.words());
        calls.push(Call::Close { series, side: Side::Short, lots: 1 }.words());
    }
    calls
}

/// Turns to every number that looks like a day, from 1999 to 2100: those that are days come in order.
fn calendar(list: &mut List) {
    let start = Call::Make { account: 1, identity: 65, day: 20000101 }.words();
    for year in 1999..=2100 {
        let mut calls = vec![start];
        for month in 0..=13 {
            for day in 0..=32 {
                calls.push(Call::Turn { day: year * 10_000 + month * 100 + day }.words());
            }
        }
        list.push(("boundary: calls", Input::History(NOTHING.to_vec(), calls)));
    }
}

/// A book that holds both sides of these series.
fn holding_all(series: &[Series], lots: u32) -> Book {
    let mut holdings: Vec<Holding> = series.iter().map(|series| Holding { series: *series, long: lots, short: lots }).collect();
    holdings.sort();
    Book { account: 1, identity: b'A', day: 20240102, holdings, pairs: Vec::new() }
}

/// Futures of two dates, and options of two dates, two strikes and both natures: listed ones and stocks that look like them.
fn series_of_all_codes() -> Vec<Series> {
    let mut list = Vec::new();
    for date in [20240117, 20240221] {
        let stocks = [Code::of("CDF"), Code::of("TXF")];
        list.extend(FUTURES.into_iter().chain(stocks).map(|code| Series::future(code, date)));
        for code in OPTIONS.into_iter().chain([Code::of("CDO"), Code::of("TMO")]) {
            for strike in [1, MOST_PRICE] {
                list.push(Series::option(code, date, b'C', strike));
                list.push(Series::option(code, date, b'P', strike));
            }
        }
    }
    list
}

/// Every couple of series in every kind from 0 to 9, paired and split again.
fn couples(list: &mut List) {
    let series = series_of_all_codes();
    let book = holding_all(&series, 3).text();
    for first in &series {
        let mut calls = Vec::new();
        for second in &series {
            for kind in 0..=9 {
                let pair = Pair { kind, first: *first, second: *second, r1: 1, r2: 1, units: 1 };
                calls.push(Call::Pair(pair).words());
                calls.push(Call::Split(pair).words());
            }
        }
        list.push(("boundary: calls", Input::History(book.clone(), calls)));
    }
}

/// Every future with every option in kind 5, and every ratio up to 6, and some beyond.
fn ratios(list: &mut List) {
    let series = series_of_all_codes();
    let book = holding_all(&series, 1_000).text();
    let ratios = [0, 1, 2, 3, 4, 5, 6, 10, 100, 101];
    for future in series.iter().filter(|series| series.nature == b'F' && series.date == 20240117) {
        let mut calls = Vec::new();
        for option in series.iter().filter(|series| series.nature != b'F' && series.date == 20240221 && series.strike == 1) {
            for r1 in ratios {
                for r2 in ratios {
                    let pair = Pair { kind: 5, first: *future, second: *option, r1, r2, units: 1 };
                    calls.push(Call::Pair(pair).words());
                    calls.push(Call::Split(pair).words());
                }
            }
        }
        list.push(("boundary: calls", Input::History(book.clone(), calls)));
    }
}

/// Every clearing margin up to 300,000 and the greatest, with one lot of every listed future, and each by itself.
fn clearing_amounts(list: &mut List) {
    let all: Vec<Series> = FUTURES.map(|code| Series::future(code, 20240117)).to_vec();
    let mut sheet = Sheet::empty(20240102);
    for thousands in (0..=300).chain([99_999, 100_000]) {
        for (place, code) in CLEARING.into_iter().enumerate() {
            sheet.clearing.insert(code, 1_000 * ((thousands + 37 * place as u32) % 100_001));
        }
        list.push(("boundary: amounts", Input::Margin(holding_all(&all, 1).text(), sheet.text())));
        let one = all[thousands as usize % all.len()];
        list.push(("boundary: amounts", Input::Margin(holding_all(&[one], 100_000).text(), sheet.text())));
    }
}

/// Every rate with every disposition, for a stock's future, call and put by themselves and in every kind that stocks have.
fn stock_rates(list: &mut List) {
    let future = Series::future(Code::of("CDF"), 20240117);
    let option = |nature, strike| Series::option(Code::of("CDO"), 20240117, nature, strike);
    let (call, put) = (option(b'C', 50_000), option(b'P', 51_000));
    let mut book = holding_all(&[future, call, put], 2);
    let pair = |kind, first, second| Pair { kind, first, second, r1: 1, r2: 1, units: 1 };
    let pairs = [pair(4, call, put), pair(5, future, call), pair(6, call, put)];
    for (place, thousands) in (1..=30u32).flat_map(|rate| [10, 15, 20, 30].map(|disposition| (disposition, rate))) {
        for (shares, price) in [(2_000, 50_050), (1, 50_100), (2_000, 50_500), (7, 1), (20_000, MOST_PRICE), (1, 50_001)] {
            let line = StockLine {
                shares,
                future_rate: 1_000 * thousands,
                a: 1_000 * (31 - thousands),
                c: [1_000, 1_035, 1_350],
                disposition: place,
                price,
            };
            let mut sheet = Sheet::empty(20240102);
            sheet.stocks.insert(*b"CD", line);
            for (series, price) in [(future, price), (call, price % 1_000 + 250), (put, 500)] {
                sheet.prices.insert(series, price);
            }
            book.pairs.clear();
            list.push(("boundary: amounts", Input::Margin(book.text(), sheet.text())));
            book.pairs.push(pairs[(shares + thousands) as usize % 3]);
            list.push(("boundary: amounts", Input::Margin(book.text(), sheet.text())));
        }
    }
}

/// Time spreads of an index and a stock with every small difference of premiums.
fn time_spreads(list: &mut List) {
    for code in [TXO, Code::of("CDO")] {
        let (late, early) = (Series::option(code, 20240221, b'C', 18_000_000), Series::option(code, 20240117, b'C', 18_000_000));
        let pair = Pair { kind: 3, first: late, second: early, r1: 1, r2: 1, units: 1 };
        let holdings = vec![Holding { series: early, long: 0, short: 1 }, Holding { series: late, long: 1, short: 0 }];
        let book = Book { account: 1, identity: b'A', day: 20240102, holdings, pairs: vec![pair] };
        for (multiplier, underlying) in [(50, 18_000_000), (1, 5_000), (1, 4_999), (250, 20), (2_000, 1)] {
            for difference in (0..=60).chain([500, 501, 136_000, 136_100, MOST_PRICE]) {
                let mut sheet = Sheet::empty(20240102);
                sheet.clearing.insert(TX, if multiplier == 50 { 136_000 } else { 0 });
                sheet.options.insert(TXO, OptionLine { multiplier, a: [0; 3], b: [0; 3], c: [0; 3], underlying });
                sheet
                    .stocks
                    .insert(*b"CD", StockLine { shares: multiplier, future_rate: 1_000, a: 1_000, c: [0; 3], disposition: 30, price: underlying });
                sheet.prices.insert(late, difference);
                sheet.prices.insert(early, 0);
                list.push(("boundary: amounts", Input::Margin(book.text(), sheet.text())));
            }
        }
    }
}

/// A book of one pair, or of one free lot, on a sheet that lacks each of its lines in turn.
fn missing_lines(list: &mut List) {
    let mut rng = Rng::new(1);
    for round in 0..400u32 {
        let market = Market::small(&mut rng);
        let mut book = Book { account: 1, identity: b'A', day: 20240102, holdings: Vec::new(), pairs: Vec::new() };
        if round % 9 == 0 {
            let series = market.series(&mut rng);
            book.holdings.push(Holding { series, long: rng.between(0, 1), short: 1 });
        } else {
            let pair = market.pair(&mut rng, round % 9);
            for (series, side, lots) in pair.legs() {
                let (long, short) = if side == Side::Long { (lots, 0) } else { (0, lots) };
                book.holdings.push(Holding { series, long, short });
            }
            book.holdings.sort();
            book.pairs.push(pair);
        }
        let lines = lines_of(&covering(&mut rng, &book, Taste::Ordinary).text());
        for left_out in 0..lines.len() {
            let kept: Vec<Vec<u8>> = (0..lines.len()).filter(|place| *place != left_out || left_out == 0).map(|place| lines[place].clone()).collect();
            list.push(("boundary: lines needed", Input::Margin(book.text(), text_of(&kept))));
        }
    }
}
