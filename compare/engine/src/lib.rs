//! What both implementations are asked, in plain bytes and numbers, and what they answer.

/// A number of document 01's table, and the line: from 1, or 0 where no line is at fault.
#[derive(Clone, Copy, Debug, PartialEq, Eq)]
pub struct Verdict {
    pub number: u8,
    pub line: u32,
}

/// What became of a text that was to be laid into a lent buffer: 0, line 0 and its length; or why it was not, with length 0, and then the
/// buffer is as it was.
#[derive(Clone, Copy, Debug, PartialEq, Eq)]
pub struct Printed {
    pub number: u8,
    pub line: u32,
    pub length: usize,
}

/// Words to a call in a script. Word 0 is the call: 0 make, 1 open, 2 close, 3 pair, 4 split, anything else turn. Words 1 to 4 are the first
/// series, 5 to 8 the second: the code's three bytes as one number, the first byte highest (a two-letter code has 0 for its third byte; a
/// number of more than 24 bits spells no code), the date, the nature (0 future, 1 call, anything else put), the strike (of a future not looked at).
/// Words 9 to 12:
///
/// | call        | 9                           | 10                     | 11  | 12    |
/// |-------------|-----------------------------|------------------------|-----|-------|
/// | make        | account                     | identity (256 and more is none)  | day | -     |
/// | open, close | side: 0 long, else short    | -                      | -   | lots  |
/// | pair, split | kind                        | r1                     | r2  | units |
/// | turn        | -                           | -                      | day | -     |
///
/// Words with `-`, and series that the call does not have, are not looked at.
pub const WORDS: usize = 13;

/// One implementation of document 01. Nothing is remembered between calls.
pub trait Engine {
    fn name(&self) -> &'static str;

    /// Read the text of a book.
    fn read(&self, text: &[u8]) -> Verdict;

    /// Read the text of a book and print it into `out`, `times` times (at least once), each time over the same bytes.
    fn print(&self, text: &[u8], times: u32, out: &mut [u8]) -> Printed;

    /// Check the text of a sheet.
    fn check(&self, sheet: &[u8]) -> Verdict;

    /// The line that the margin program prints of two texts, laid over the start of `out`; 15 where that is too short. Both texts are read
    /// once, and the margin is worked `times` times (at least once).
    fn margin(&self, book: &[u8], sheet: &[u8], times: u32, out: &mut [u8]) -> Printed;

    /// Read the text of a book, make the calls of a script on it one after the other, 13 words each, and print the book that results into
    /// `out`; cell i of `numbers` gets the number of call i. A make goes on with the book that it gives. Nothing is done where the book is
    /// refused (its number and line), where words are left over (1), where there are fewer cells than calls, or less room in `out` than the
    /// 16,384 bytes that a book may need (15).
    fn run(&self, book: &[u8], words: &[u32], numbers: &mut [u8], out: &mut [u8]) -> Printed;
}
