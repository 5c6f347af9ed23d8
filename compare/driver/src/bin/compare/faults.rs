//! An engine with a fault planted in it, to show that the comparer sees faults.

use driver::fields::{lines_of, split_line};
use driver::paper::{days_of_month, BOOK_BYTES};
use engine::{Engine, Printed, Verdict, WORDS};

pub const FAULTS: [&str; 24] = [
    "a line too high in refusals of a book past line 3",
    "9 and 11 swapped in calls",
    "a dollar more in the initial margin where a pair of kind 4 stands",
    "print touches the byte behind the text",
    "13 and 14 swapped in margins",
    "100,001 lots or units accepted in calls",
    "TX to TXO 1:5 accepted in a text",
    "a buffer of exactly the length refused by print",
    "a refused print touches the buffer",
    "line 1,025 of a sheet read",
    "a year out of range is 2 in a book",
    "an M line judged series by series: 5 of the first before 4 of the second",
    "a last line without LF accepted",
    "CR before LF passed over",
    "a second A line is 1",
    "a book a byte too long judged by line",
    "a new series in a full book is 7",
    "the last line lost in the text of a book of more than 200 lines, after calls",
    "amounts cut to 32 bits",
    "14 given with line 1",
    "kind 257 taken for an allowed one in calls",
    "29 February 2000 refused",
    "a dollar less in the maintenance margin of a book of one future",
    "a full book of pairs refuses more units of a standing pair",
];

pub struct Faulty<'a> {
    pub inner: &'a dyn Engine,
    /// Which fault, as a place in the list.
    pub fault: usize,
}

/// The fields of a line, numbered from 1.
fn fields_at(text: &[u8], line: u32) -> Vec<Vec<u8>> {
    lines_of(text).get((line as usize).wrapping_sub(1)).map_or(Vec::new(), |line| split_line(line))
}

fn is_day(field: &[u8]) -> bool {
    let Some(day) = std::str::from_utf8(field).ok().and_then(|text| text.parse::<u32>().ok()) else {
        return false;
    };
    let (year, month) = (day / 10_000, day / 100 % 100);
    (2000..2100).contains(&year) && (1..13).contains(&month) && (1..=days_of_month(year, month)).contains(&(day % 100))
}

fn has(text: &[u8], part: &[u8]) -> bool {
    text.windows(part.len()).any(|at| at == part)
}

fn verdict(number: u8, line: u32) -> Verdict {
    Verdict { number, line }
}

impl Faulty<'_> {
    /// The text as the faulty engine sees it.
    fn seen(&self, text: &[u8]) -> Vec<u8> {
        let mut text = text.to_vec();
        if self.fault == 12 && text.last().is_some_and(|byte| *byte != b'\n') {
            text.push(b'\n');
        }
        if self.fault == 13 {
            text = String::from_utf8_lossy(&text).replace("\r\n", "\n").into_bytes();
        }
        text
    }

    fn read_wrong(&self, text: &[u8], right: Verdict) -> Verdict {
        let Verdict { number, line } = right;
        let fields = fields_at(text, line);
        match self.fault {
            0 if number != 0 && line > 3 => verdict(number, line + 1),
            6 if number == 10 && fields.len() == 13 && fields[1] == b"5" && fields[2] == b"TX" && fields[6] == b"TXO" && fields[11] == b"5" => {
                verdict(0, 0)
            }
            10 if number == 5 && fields.iter().any(|field| field.len() == 8 && (field.starts_with(b"1999") || field.starts_with(b"2100"))) => {
                verdict(2, line)
            }
            11 if number == 4 && fields[0] == b"M" && fields[2].starts_with(b"T") && !is_day(&fields[3]) => verdict(5, line),
            14 if number == 3 && fields[0] == b"A" => verdict(1, line),
            15 if text.len() == BOOK_BYTES + 1 => verdict(1, 1),
            21 if number == 0 && has(text, b"\t20000229\t") => verdict(5, 2),
            _ => right,
        }
    }

    fn margin_wrong(&self, book: &[u8], fields: &mut [String]) {
        let is_charged = fields[0] == "R";
        let last = |fields: &[String], at: usize| fields[at].parse::<u64>().unwrap_or(0);
        match self.fault {
            2 if is_charged && has(book, b"\nM\t4\t") => fields[5] = (last(fields, 5) + 1).to_string(),
            4 if fields[1] == "13" => fields[1] = "14".to_string(),
            4 if fields[1] == "14" => fields[1] = "13".to_string(),
            18 if is_charged => (3..6).for_each(|at| fields[at] = (last(fields, at) as u32).to_string()),
            19 if fields[1] == "14" => fields[2] = "1".to_string(),
            22 if is_charged && has(book, b"F\t") && lines_of(book).len() == 2 && last(fields, 4) > 0 => {
                fields[4] = (last(fields, 4) - 1).to_string()
            }
            _ => (),
        }
    }

    fn number_wrong(&self, call: &[u32], number: u8) -> u8 {
        match (self.fault, number) {
            (1, 9) => 11,
            (1, 11) => 9,
            (5, 6) if call[12] == 100_001 => 0,
            (16, 8) => 7,
            (20, 10) if call[9] == 257 => 0,
            _ => number,
        }
    }
}

impl Engine for Faulty<'_> {
    fn name(&self) -> &'static str {
        "faulty"
    }

    fn read(&self, text: &[u8]) -> Verdict {
        let text = self.seen(text);
        self.read_wrong(&text, self.inner.read(&text))
    }

    fn print(&self, text: &[u8], times: u32, out: &mut [u8]) -> Printed {
        let text = self.seen(text);
        if self.fault == 7 && text.len() == out.len() && self.inner.read(&text).number == 0 {
            return Printed { number: 15, line: 0, length: 0 };
        }
        let printed = self.inner.print(&text, times, out);
        if self.fault == 3 && printed.number == 0 && out.len() > printed.length {
            out[printed.length] = 0;
        }
        if self.fault == 8 && printed.number == 15 && !out.is_empty() {
            out[0] = b'A';
        }
        printed
    }

    fn check(&self, sheet: &[u8]) -> Verdict {
        let sheet = self.seen(sheet);
        match self.inner.check(&sheet) {
            Verdict { number: 2, line: 1_025 } if self.fault == 9 => verdict(1, 1_025),
            right => right,
        }
    }

    fn margin(&self, book: &[u8], sheet: &[u8], times: u32, out: &mut [u8]) -> Printed {
        let (book, sheet) = (self.seen(book), self.seen(sheet));
        let answer = self.inner.margin(&book, &sheet, times, out);
        if answer.number != 0 {
            return answer;
        }
        let length = answer.length;
        let line = String::from_utf8_lossy(&out[..length]).trim_end().to_string();
        let mut fields: Vec<String> = line.split('\t').map(str::to_string).collect();
        self.margin_wrong(&book, &mut fields);
        let wrong = fields.join("\t") + "\n";
        out[..wrong.len()].copy_from_slice(wrong.as_bytes());
        Printed { length: wrong.len(), ..answer }
    }

    fn run(&self, book: &[u8], words: &[u32], numbers: &mut [u8], out: &mut [u8]) -> Printed {
        let answer = self.inner.run(book, words, numbers, out);
        let length = answer.length;
        for (call, number) in words.chunks(WORDS).zip(numbers.iter_mut()) {
            *number = self.number_wrong(call, *number);
        }
        let lines = lines_of(&out[..length]);
        if self.fault == 17 && lines.len() > 200 {
            return Printed { length: length - lines[lines.len() - 1].len() - 1, ..answer };
        }
        if self.fault == 23 && lines.len() > 200 {
            refuse_last_pair(words, numbers, &lines);
        }
        answer
    }
}

/// Says 11 to the last accepted pair call where 128 pairs stand at the end.
fn refuse_last_pair(words: &[u32], numbers: &mut [u8], lines: &[Vec<u8>]) {
    let pairs = lines.iter().filter(|line| line.starts_with(b"M")).count();
    let last = (0..numbers.len()).rev().find(|place| words[place * WORDS] == 3 && numbers[*place] == 0);
    if let (128, Some(place)) = (pairs, last) {
        numbers[place] = 11;
    }
}
