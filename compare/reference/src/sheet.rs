//! The sheet: its lines, in the form in which the margin uses them.

use crate::fields::{check_length, Reader};
use crate::rates::{fixed_margins, stock_rates, Levels};
use crate::refusal::{Fault, Refusal};
use crate::series::{Code, Date, ListedFuture, ListedOption, Product, Series, Stock, MOST_PRICE};

/// "A sheet has at most 65,536 bytes and 1,024 lines."
pub const MOST_BYTES: usize = 65_536;
/// As above, the lines.
pub const MOST_LINES: u32 = 1_024;

/// "A, B, C and clearing 0..100,000,000"
const MOST_AMOUNT: u32 = 100_000_000;
/// "Multiplier and shares 1..20,000"
const MOST_MULTIPLIER: u32 = 20_000;
/// "c 0..100,000"
const MOST_C: u32 = 100_000;
/// Bytes of the shortest Q line.
const LEAST_Q_LINE: usize = 2 + 4 + 9 + 2 + 2 + 2;

/// `O code multiplier A A A B B B C C C underlying`
#[derive(Clone, Copy, Debug)]
pub struct OptionRow {
    pub multiplier: u32,
    pub a: [u32; 3],
    pub b: [u32; 3],
    pub c: [u32; 3],
    pub underlying: u32,
}

/// `S xx shares futrate a c c c disposition price`, with both rates raised by the disposition and at the three levels.
#[derive(Clone, Copy, Debug)]
pub struct StockRow {
    pub shares: u32,
    pub future_rates: Levels,
    pub a: Levels,
    pub c: [u32; 3],
    pub price: u32,
}

/// `Q SERIES price`
#[derive(Clone, Copy, Debug)]
struct Quote {
    series: Series,
    price: u32,
}

/// A sound sheet. Listed contracts and stocks are found by their place in a table, quotes by their order.
#[derive(Clone, Debug)]
pub struct Sheet {
    day: Date,
    futures: [Option<Levels>; ListedFuture::COUNT],
    options: [Option<OptionRow>; ListedOption::COUNT],
    stock_places: [u16; Stock::COUNT],
    stocks: Vec<StockRow>,
    quotes: Vec<Quote>,
}

/// The place of a stock that has no S line.
const NO_PLACE: u16 = u16::MAX;

impl Sheet {
    /// "check a sheet": read it. "The first bad line is the one reported"; "Line 1,025 of a sheet is 2, unread."
    pub fn read(text: &[u8]) -> Result<Sheet, Fault> {
        check_length(text, MOST_BYTES)?;
        let mut reader = Reader::new(text);
        let day = read_first(&mut reader).map_err(|refusal| refusal.at(1))?;
        let mut sheet = Sheet {
            day,
            futures: [None; ListedFuture::COUNT],
            options: [None; ListedOption::COUNT],
            stock_places: [NO_PLACE; Stock::COUNT],
            stocks: Vec::new(),
            quotes: Vec::with_capacity((MOST_LINES as usize).min(text.len() / LEAST_Q_LINE)),
        };
        let mut last = Place::D;
        let mut line = 1;
        while !reader.at_end() {
            line += 1;
            if line > MOST_LINES {
                return Err(Refusal::Range.at(line));
            }
            last = sheet
                .read_line(&mut reader, last)
                .map_err(|refusal| refusal.at(line))?;
        }
        Ok(sheet)
    }

    /// The day of the D line.
    pub fn day(&self) -> Date {
        self.day
    }

    /// The margins of a listed future at the three levels, if the F line of the full-size one behind it is there.
    pub fn future(&self, future: ListedFuture) -> Option<&Levels> {
        self.futures[future as usize].as_ref()
    }

    /// The O line of a listed option.
    pub fn option(&self, option: ListedOption) -> Option<&OptionRow> {
        self.options[option as usize].as_ref()
    }

    /// The S line of a stock.
    pub fn stock(&self, stock: Stock) -> Option<&StockRow> {
        self.stocks
            .get(usize::from(self.stock_places[stock.index()]))
    }

    /// The price of the series' Q line.
    pub fn price(&self, series: Series) -> Option<u32> {
        let at = self.quotes.binary_search_by_key(&series, |q| q.series);
        at.ok().map(|at| self.quotes[at].price)
    }

    /// A line after the first, with the place of the line before it. A sound D line there is "a line in the wrong group 3".
    fn read_line(&mut self, reader: &mut Reader, last: Place) -> Result<Place, Refusal> {
        match reader.letter() {
            Some(b'Q') => self.read_q(reader, last),
            Some(b'S') => self.read_s(reader, last),
            Some(b'O') => self.read_o(reader, last),
            Some(b'F') => self.read_f(reader, last),
            Some(b'D') => read_d(reader).and_then(|_| Place::D.after(last)),
            _ => Err(Refusal::Form),
        }
    }

    /// `F code clearing`: "F takes the eight codes that have a clearing margin".
    fn read_f(&mut self, reader: &mut Reader, last: Place) -> Result<Place, Refusal> {
        let code = reader.bytes().ok_or(Refusal::Form)?;
        let clearing = reader.last_number().ok_or(Refusal::Form)?;
        let code = Code::parse(code).ok_or(Refusal::Code)?;
        let shares = match code.product() {
            Product::Future(future) => future.shares(),
            _ => &[],
        };
        if shares.is_empty() {
            return Err(Refusal::Code);
        }
        if clearing > MOST_AMOUNT || !clearing.is_multiple_of(1_000) {
            return Err(Refusal::Range);
        }
        let place = Place::new(Group::F, code.rank()).after(last)?;
        let margins = fixed_margins(clearing);
        for &(future, parts) in shares {
            self.futures[future as usize] = Some(margins.map(|margin| margin / parts));
        }
        Ok(place)
    }

    /// `O code multiplier A A A B B B C C C underlying`: "O the four listed options".
    fn read_o(&mut self, reader: &mut Reader, last: Place) -> Result<Place, Refusal> {
        let code = reader.bytes().ok_or(Refusal::Form)?;
        let multiplier = reader.number().ok_or(Refusal::Form)?;
        let [a, b, c] = [
            reader.numbers().ok_or(Refusal::Form)?,
            reader.numbers().ok_or(Refusal::Form)?,
            reader.numbers().ok_or(Refusal::Form)?,
        ];
        let underlying = reader.last_number().ok_or(Refusal::Form)?;
        let code = Code::parse(code).ok_or(Refusal::Code)?;
        let Product::Option(option) = code.product() else {
            return Err(Refusal::Code);
        };
        let in_range = (1..=MOST_MULTIPLIER).contains(&multiplier)
            && [a, b, c].as_flattened().iter().all(|&x| x <= MOST_AMOUNT)
            && (1..=MOST_PRICE).contains(&underlying);
        if !in_range {
            return Err(Refusal::Range);
        }
        let place = Place::new(Group::O, code.rank()).after(last)?;
        self.options[option as usize] = Some(OptionRow {
            multiplier,
            a,
            b,
            c,
            underlying,
        });
        Ok(place)
    }

    /// `S xx shares futrate a c c c disposition price`: "S any two capitals".
    fn read_s(&mut self, reader: &mut Reader, last: Place) -> Result<Place, Refusal> {
        let stock = reader.bytes().ok_or(Refusal::Form)?;
        let [shares, future_rate, a] = reader.numbers().ok_or(Refusal::Form)?;
        let c = reader.numbers().ok_or(Refusal::Form)?;
        let disposition = reader.number().ok_or(Refusal::Form)?;
        let price = reader.last_number().ok_or(Refusal::Form)?;
        let stock = Stock::parse(stock).ok_or(Refusal::Code)?;
        let in_range = (1..=MOST_MULTIPLIER).contains(&shares)
            && is_rate(future_rate)
            && is_rate(a)
            && c.iter().all(|&c| c <= MOST_C)
            && matches!(disposition, 10 | 15 | 20 | 30)
            && (1..=MOST_PRICE).contains(&price);
        if !in_range {
            return Err(Refusal::Range);
        }
        let place = Place::new(Group::S, stock.index() as u64).after(last)?;
        self.stock_places[stock.index()] = self.stocks.len() as u16;
        self.stocks.push(StockRow {
            shares,
            future_rates: stock_rates(future_rate, disposition),
            a: stock_rates(a, disposition),
            c,
            price,
        });
        Ok(place)
    }

    /// `Q SERIES price`: "Q any option or stock future, price 0 allowed".
    fn read_q(&mut self, reader: &mut Reader, last: Place) -> Result<Place, Refusal> {
        let asked = reader.series().ok_or(Refusal::Form)?;
        let price = reader.last_number().ok_or(Refusal::Form)?;
        let code = asked.code()?;
        if matches!(code.product(), Product::Future(_)) {
            return Err(Refusal::Code);
        }
        let series = asked.series(code, asked.date()?)?;
        if price > MOST_PRICE {
            return Err(Refusal::Range);
        }
        let place = Place::new(Group::Q, series.rank()).after(last)?;
        self.quotes.push(Quote { series, price });
        Ok(place)
    }
}

/// "a clearing rate for futures and one for options (a), 1,000 to 30,000 by thousands"
fn is_rate(rate: u32) -> bool {
    (1_000..=30_000).contains(&rate) && rate.is_multiple_of(1_000)
}

/// Line 1: "first line not A or D" is 1.
fn read_first(reader: &mut Reader) -> Result<Date, Refusal> {
    match reader.letter() {
        Some(b'D') => read_d(reader),
        _ => Err(Refusal::Form),
    }
}

/// `D day`
fn read_d(reader: &mut Reader) -> Result<Date, Refusal> {
    let day = reader.last_date().ok_or(Refusal::Form)?;
    Date::from_number(day).ok_or(Refusal::Date)
}

/// The groups of a sheet, in the order in which they stand.
#[derive(Clone, Copy, Debug, PartialEq, Eq, PartialOrd, Ord)]
enum Group {
    D,
    F,
    O,
    S,
    Q,
}

/// Where a line belongs: "Groups in that order, each strictly ascending".
#[derive(Clone, Copy, Debug, PartialEq, Eq, PartialOrd, Ord)]
struct Place {
    group: Group,
    rank: u64,
}

impl Place {
    const D: Place = Place::new(Group::D, 0);

    const fn new(group: Group, rank: u64) -> Place {
        Place { group, rank }
    }

    /// This place, if it comes after the line before; else "line out of order or repeated".
    fn after(self, last: Place) -> Result<Place, Refusal> {
        if self > last {
            Ok(self)
        } else {
            Err(Refusal::Order)
        }
    }
}
