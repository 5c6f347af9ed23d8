//! The numbers a call may answer.

/// A refusal, by its number in the table "Numbers a call may answer" (0 is a call that succeeds).
/// A `Book` comes from `make`, `read` and the calls alone, so only an engine that tests what it is handed has a use for 16.
#[derive(Clone, Copy, Debug, PartialEq, Eq)]
#[repr(u8)]
pub enum Refusal {
    /// "line not of the form; first line not A or D; empty text"
    Form = 1,
    /// "value outside its range ... or off its step, nature unsuited, holding of no lots, text too long"
    Range = 2,
    /// "line out of order or repeated"
    Order = 3,
    /// "unknown code, or one its line doesn't allow"
    Code = 4,
    /// "no such date"
    Date = 5,
    /// "lots, units, or ratio times units not 1..100,000; ratio not 1..100"
    Size = 6,
    /// "a total would pass 100,000"
    Total = 7,
    /// "new series and 128 holdings"
    Holdings = 8,
    /// "fewer free lots than needed"
    Free = 9,
    /// "kind not 1..8, or pair not allowed"
    Kind = 10,
    /// "new pair and 128 pairs"
    Pairs = 11,
    /// "no such pair, or fewer units"
    NoPair = 12,
    /// "sheet's day is not the book's; or new day not later"
    Day = 13,
    /// "a needed sheet line is missing"
    Missing = 14,
    /// "output buffer too short"
    Buffer = 15,
    /// "book handed in breaks a rule of a book"
    Rules = 16,
}

impl Refusal {
    /// The refusal at a line of a text: "the line (text only, from 1; 0 if no line)".
    pub fn at(self, line: u32) -> Fault {
        Fault {
            refusal: self,
            line,
        }
    }
}

/// "A refusal returns its number, the line (text only, from 1; 0 if no line)".
#[derive(Clone, Copy, Debug, PartialEq, Eq)]
pub struct Fault {
    pub refusal: Refusal,
    pub line: u32,
}
