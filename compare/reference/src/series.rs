//! Series: codes, dates, natures and their order.

use crate::refusal::Refusal;

/// "Prices and strikes are whole thousandths of a point, 0 to 100,000,000".
pub const MOST_PRICE: u32 = 100_000_000;

const SYMBOL: u32 = 5;
const LAST: u16 = (1 << SYMBOL) - 1;

/// A byte of a code as a symbol of five bits, in the order of the bytes; 0 where a code has no further byte.
const fn symbol(byte: u8) -> u16 {
    match byte {
        b'2' => 1,
        b'A'..=b'Z' => (byte - b'A') as u16 + 2,
        _ => 0,
    }
}

const fn byte(symbol: u16) -> u8 {
    match symbol {
        1 => b'2',
        n => b'A' - 2 + n as u8,
    }
}

/// A known code: one of the sixteen, or "two capitals, which name a stock, then F (stock future) or O (stock option)".
/// Held as three symbols in one number, whose order is that of the "code bytes (a prefix first)".
#[derive(Clone, Copy, Debug, PartialEq, Eq, PartialOrd, Ord)]
pub struct Code(u16);

impl Code {
    // "The sixteen listed codes": twelve futures, four options.
    pub(crate) const TX: Code = Code::pack(*b"TX\0");
    pub(crate) const MTX: Code = Code::pack(*b"MTX");
    pub(crate) const TMF: Code = Code::pack(*b"TMF");
    pub(crate) const TE: Code = Code::pack(*b"TE\0");
    pub(crate) const ZEF: Code = Code::pack(*b"ZEF");
    pub(crate) const TF: Code = Code::pack(*b"TF\0");
    pub(crate) const ZFF: Code = Code::pack(*b"ZFF");
    pub(crate) const TGF: Code = Code::pack(*b"TGF");
    pub(crate) const UNF: Code = Code::pack(*b"UNF");
    pub(crate) const SXF: Code = Code::pack(*b"SXF");
    pub(crate) const GTF: Code = Code::pack(*b"GTF");
    pub(crate) const G2F: Code = Code::pack(*b"G2F");
    pub(crate) const TXO: Code = Code::pack(*b"TXO");
    pub(crate) const TEO: Code = Code::pack(*b"TEO");
    pub(crate) const TFO: Code = Code::pack(*b"TFO");
    pub(crate) const TGO: Code = Code::pack(*b"TGO");

    const fn pack(bytes: [u8; 3]) -> Code {
        let [first, second, third] = bytes;
        Code(symbol(first) << (2 * SYMBOL) | symbol(second) << SYMBOL | symbol(third))
    }

    /// The code of these bytes; "Everything else is unknown".
    /// Of the sixteen, only these five are not two capitals with F or O.
    pub fn parse(bytes: &[u8]) -> Option<Code> {
        match *bytes {
            [b'A'..=b'Z', b'A'..=b'Z', b'F' | b'O'] => {
                Some(Code::pack([bytes[0], bytes[1], bytes[2]]))
            }
            [b'T', second @ (b'X' | b'E' | b'F')] => Some(Code::pack([b'T', second, 0])),
            [b'M', b'T', b'X'] => Some(Code::MTX),
            [b'G', b'2', b'F'] => Some(Code::G2F),
            _ => None,
        }
    }

    /// The code's bytes and how many of the three it has.
    pub fn bytes(self) -> ([u8; 3], usize) {
        let third = self.0 & LAST;
        let bytes = [
            byte(self.0 >> (2 * SYMBOL)),
            byte(self.0 >> SYMBOL & LAST),
            byte(third),
        ];
        (bytes, if third == 0 { 2 } else { 3 })
    }

    /// What the code names: a listed contract, or a stock's future or option.
    pub fn product(self) -> Product {
        match self {
            Code::TX => Product::Future(ListedFuture::Tx),
            Code::MTX => Product::Future(ListedFuture::Mtx),
            Code::TMF => Product::Future(ListedFuture::Tmf),
            Code::TE => Product::Future(ListedFuture::Te),
            Code::ZEF => Product::Future(ListedFuture::Zef),
            Code::TF => Product::Future(ListedFuture::Tf),
            Code::ZFF => Product::Future(ListedFuture::Zff),
            Code::TGF => Product::Future(ListedFuture::Tgf),
            Code::UNF => Product::Future(ListedFuture::Unf),
            Code::SXF => Product::Future(ListedFuture::Sxf),
            Code::GTF => Product::Future(ListedFuture::Gtf),
            Code::G2F => Product::Future(ListedFuture::G2f),
            Code::TXO => Product::Option(ListedOption::Txo),
            Code::TEO => Product::Option(ListedOption::Teo),
            Code::TFO => Product::Option(ListedOption::Tfo),
            Code::TGO => Product::Option(ListedOption::Tgo),
            Code(packed) if packed & LAST == symbol(b'F') => {
                Product::StockFuture(Stock(packed >> SYMBOL))
            }
            Code(packed) => Product::StockOption(Stock(packed >> SYMBOL)),
        }
    }

    /// Whether series of this code are futures: "The nature must suit the code."
    pub fn is_future(self) -> bool {
        matches!(self.product(), Product::Future(_) | Product::StockFuture(_))
    }

    /// The code as a number in the order of codes.
    pub fn rank(self) -> u64 {
        u64::from(self.0)
    }

    /// Whether the three symbols are those of a known code.
    pub(crate) fn is_known(self) -> bool {
        const CAPITALS: u16 = 26;
        let is_capital = |symbol: u16| symbol.wrapping_sub(2) < CAPITALS;
        let third = self.0 & LAST;
        if (third == symbol(b'F')) | (third == symbol(b'O')) {
            let capitals = is_capital(self.0 >> (2 * SYMBOL)) & is_capital(self.0 >> SYMBOL & LAST);
            capitals || self == Code::G2F
        } else {
            matches!(self, Code::TX | Code::TE | Code::TF | Code::MTX)
        }
    }
}

/// What a code names.
#[derive(Clone, Copy, Debug, PartialEq, Eq)]
pub enum Product {
    Future(ListedFuture),
    Option(ListedOption),
    StockFuture(Stock),
    StockOption(Stock),
}

/// "futures TX MTX TMF TE ZEF TF ZFF TGF UNF SXF GTF G2F"
#[derive(Clone, Copy, Debug, PartialEq, Eq)]
pub enum ListedFuture {
    Tx,
    Mtx,
    Tmf,
    Te,
    Zef,
    Tf,
    Zff,
    Tgf,
    Unf,
    Sxf,
    Gtf,
    G2f,
}

impl ListedFuture {
    /// How many listed futures there are.
    pub const COUNT: usize = 12;

    /// The contracts whose amounts come from this one's clearing margin, and into how many parts it is cut for each:
    /// "MTX, TMF, ZEF, ZFF are 1/4, 1/20, 1/8, 1/4 of the TX, TE, TF amount". Small contracts have no clearing margin of their own.
    pub fn shares(self) -> &'static [(ListedFuture, u64)] {
        use ListedFuture::*;
        match self {
            Tx => &[(Tx, 1), (Mtx, 4), (Tmf, 20)],
            Te => &[(Te, 1), (Zef, 8)],
            Tf => &[(Tf, 1), (Zff, 4)],
            Tgf => &[(Tgf, 1)],
            Unf => &[(Unf, 1)],
            Sxf => &[(Sxf, 1)],
            Gtf => &[(Gtf, 1)],
            G2f => &[(G2f, 1)],
            Mtx | Tmf | Zef | Zff => &[],
        }
    }
}

/// "options TXO TEO TFO TGO"
#[derive(Clone, Copy, Debug, PartialEq, Eq)]
pub enum ListedOption {
    Txo,
    Teo,
    Tfo,
    Tgo,
}

impl ListedOption {
    /// How many listed options there are.
    pub const COUNT: usize = 4;

    /// "the parent future's clearing margin (TX, TE, TF, TGF)"
    pub fn parent(self) -> ListedFuture {
        match self {
            ListedOption::Txo => ListedFuture::Tx,
            ListedOption::Teo => ListedFuture::Te,
            ListedOption::Tfo => ListedFuture::Tf,
            ListedOption::Tgo => ListedFuture::Tgf,
        }
    }
}

/// "two capitals, which name a stock", as their two symbols in one number.
#[derive(Clone, Copy, Debug, PartialEq, Eq, PartialOrd, Ord)]
pub struct Stock(u16);

impl Stock {
    /// A number that every stock's index is below.
    pub const COUNT: usize = 1 << (2 * SYMBOL);

    /// The stock of an S line: "S any two capitals".
    pub fn parse(bytes: &[u8]) -> Option<Stock> {
        match *bytes {
            [first @ b'A'..=b'Z', second @ b'A'..=b'Z'] => {
                Some(Stock(symbol(first) << SYMBOL | symbol(second)))
            }
            _ => None,
        }
    }

    /// The stock's place in a table of all stocks, in their order.
    pub fn index(self) -> usize {
        usize::from(self.0)
    }
}

/// "any Gregorian day of 2000 to 2099": year of the century, month and day in one number, whose order is that of the days.
#[derive(Clone, Copy, Debug, PartialEq, Eq, PartialOrd, Ord)]
pub struct Date(u16);

impl Date {
    /// 20000101, the day of the empty book.
    pub const FIRST: Date = Date(1 << 5 | 1);

    /// The day that eight digits name, if there is one in 2000 to 2099.
    pub fn from_number(number: u32) -> Option<Date> {
        let (year, month, day) = (number / 10_000, number / 100 % 100, number % 100);
        // From 2000 to 2099 every fourth year is a leap year.
        let last = match month {
            1 | 3 | 5 | 7 | 8 | 10 | 12 => 31,
            4 | 6 | 9 | 11 => 30,
            2 if year % 4 == 0 => 29,
            2 => 28,
            _ => 0,
        };
        let known = (2000..=2099).contains(&year) && (1..=last).contains(&day);
        known.then(|| Date(((year - 2000) << 9 | month << 5 | day) as u16))
    }

    /// Year of the century, month, day.
    pub fn parts(self) -> [u8; 3] {
        [
            (self.0 >> 9) as u8,
            (self.0 >> 5 & 15) as u8,
            (self.0 & 31) as u8,
        ]
    }

    /// Whether year, month and day are those of "any Gregorian day of 2000 to 2099".
    pub(crate) fn is_day(self) -> bool {
        const LAST_DAYS: [u8; 16] = [0, 31, 28, 31, 30, 31, 30, 31, 31, 30, 31, 30, 31, 0, 0, 0];
        let [year, month, day] = self.parts();
        let leap = (month == 2) & year.is_multiple_of(4);
        let last = LAST_DAYS[usize::from(month)] + u8::from(leap);
        (year <= 99) & (day >= 1) & (day <= last)
    }

    /// The date that is this number, sound or not.
    #[cfg(test)]
    pub(crate) fn unjudged(number: u16) -> Date {
        Date(number)
    }
}

/// "a future, a call with its strike or a put with its strike", in the order of the "nature letter C, F, P".
#[derive(Clone, Copy, Debug, PartialEq, Eq, PartialOrd, Ord)]
pub enum Nature {
    Call,
    Future,
    Put,
}

impl Nature {
    /// The nature of a nature field: one of the letters C, F, P.
    pub fn parse(bytes: &[u8]) -> Option<Nature> {
        match bytes {
            b"C" => Some(Nature::Call),
            b"F" => Some(Nature::Future),
            b"P" => Some(Nature::Put),
            _ => None,
        }
    }

    /// The nature's letter.
    pub fn letter(self) -> u8 {
        match self {
            Nature::Call => b'C',
            Nature::Future => b'F',
            Nature::Put => b'P',
        }
    }
}

/// "A series is a code, an expiry date and a nature". Packed from the high bits down as code, date, nature and strike,
/// so that the "Order of series: code bytes, date, nature letter C, F, P, strike" is the order of one number.
#[derive(Clone, Copy, Debug, PartialEq, Eq, PartialOrd, Ord)]
pub struct Series(u64);

impl Series {
    const NATURE: u32 = 27;
    const DATE: u32 = Series::NATURE + 2;
    const CODE: u32 = Series::DATE + 16;

    /// The series, if "The nature must suit the code" and "an option's strike is at least 1, a future's is written 0" hold.
    pub fn new(code: Code, date: Date, nature: Nature, strike: u32) -> Option<Series> {
        let sound = if code.is_future() {
            nature == Nature::Future && strike == 0
        } else {
            nature != Nature::Future && (1..=MOST_PRICE).contains(&strike)
        };
        sound.then(|| {
            Series(
                u64::from(code.0) << Series::CODE
                    | u64::from(date.0) << Series::DATE
                    | (nature as u64) << Series::NATURE
                    | u64::from(strike),
            )
        })
    }

    /// The code of "a code, an expiry date and a nature".
    pub fn code(self) -> Code {
        Code((self.0 >> Series::CODE) as u16)
    }

    /// The expiry date.
    pub fn date(self) -> Date {
        Date((self.0 >> Series::DATE) as u16)
    }

    /// The nature, without its strike.
    pub fn nature(self) -> Nature {
        match self.0 >> Series::NATURE & 3 {
            0 => Nature::Call,
            1 => Nature::Future,
            _ => Nature::Put,
        }
    }

    /// The strike in "whole thousandths of a point"; of a future 0.
    pub fn strike(self) -> u32 {
        (self.0 & ((1 << Series::NATURE) - 1)) as u32
    }

    /// The series as a number in the order of series.
    pub fn rank(self) -> u64 {
        self.0
    }

    /// Whether the number is that of a series: code known, date a day, nature that suits the code, strike in range.
    pub(crate) fn is_right(self) -> bool {
        let nature_and_strike = self.0 & ((1 << Series::DATE) - 1);
        let suits = if self.0 >> Series::CODE & u64::from(LAST) == u64::from(symbol(b'O')) {
            // The nature is 0 or 2, a call or a put.
            (nature_and_strike >> Series::NATURE & 1 == 0)
                & (1..=MOST_PRICE).contains(&self.strike())
        } else {
            nature_and_strike == (Nature::Future as u64) << Series::NATURE
        };
        // Nothing stands above a code's three symbols.
        let fits = self.0 >> (Series::CODE + 3 * SYMBOL) == 0;
        fits & suits & self.date().is_day() && self.code().is_known()
    }

    /// The series that is this number, sound or not.
    #[cfg(test)]
    pub(crate) fn unjudged(number: u64) -> Series {
        Series(number)
    }
}

/// A series as a call or a line hands it in, not yet judged; no nature where the field is none of C, F, P.
#[derive(Clone, Copy, Debug)]
pub struct Asked<'a> {
    pub code: &'a [u8],
    pub date: u32,
    pub nature: Option<Nature>,
    pub strike: u32,
}

impl Asked<'_> {
    /// "A series: 4, 5, 2."
    pub fn judge(&self) -> Result<Series, Refusal> {
        let code = self.code()?;
        let date = self.date()?;
        self.series(code, date)
    }

    /// The code, or 4.
    pub fn code(&self) -> Result<Code, Refusal> {
        Code::parse(self.code).ok_or(Refusal::Code)
    }

    /// The date, or 5.
    pub fn date(&self) -> Result<Date, Refusal> {
        Date::from_number(self.date).ok_or(Refusal::Date)
    }

    /// The series of a code and date already judged, or 2.
    pub fn series(&self, code: Code, date: Date) -> Result<Series, Refusal> {
        self.nature
            .and_then(|nature| Series::new(code, date, nature, self.strike))
            .ok_or(Refusal::Range)
    }
}
