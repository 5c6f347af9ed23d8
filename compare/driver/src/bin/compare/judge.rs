//! Puts one input to two engines and compares every answer and every byte they leave.

use crate::tally::Tally;
use driver::inputs::Input;
use driver::paper::BOOK_BYTES;
use engine::{Engine, Printed, Verdict};
use std::panic::{catch_unwind, AssertUnwindSafe};

/// Two answers that should be the same.
pub struct Difference {
    pub what: String,
    pub one: String,
    pub other: String,
}

type Answer = Result<(), Difference>;

fn same<T: PartialEq + std::fmt::Debug>(what: &str, one: &T, other: &T) -> Answer {
    if one == other {
        return Ok(());
    }
    Err(Difference { what: what.to_string(), one: format!("{one:?}"), other: format!("{other:?}") })
}

/// Compares two buffers, and shows the bytes about the first place where they part.
fn same_bytes(what: &str, one: &[u8], other: &[u8]) -> Answer {
    if one == other {
        return Ok(());
    }
    let place = one.iter().zip(other).position(|(a, b)| a != b).unwrap_or(one.len().min(other.len()));
    let near = |bytes: &[u8]| bytes[place.saturating_sub(20)..(place + 40).min(bytes.len())].escape_ascii().to_string();
    Err(Difference { what: format!("{what}, from byte {place} of {}", one.len()), one: near(one), other: near(other) })
}

/// A buffer full of bytes that no text has, so that a touched byte is seen.
fn fresh(length: usize) -> Vec<u8> {
    (0..length).map(|place| 0x80 | (place * 37 + 11) as u8).collect()
}

/// What the buffer must be after a print: untouched where it was refused, else the text and untouched bytes behind it.
fn expected(text: &[u8], length: usize, is_printed: bool) -> Vec<u8> {
    let mut buffer = fresh(length);
    if is_printed {
        buffer[..text.len()].copy_from_slice(text);
    }
    buffer
}

/// Prints the text into buffers of this length on both engines.
fn print(engines: [&dyn Engine; 2], text: &[u8], times: u32, length: usize) -> Result<Printed, Difference> {
    let mut buffers = [fresh(length), fresh(length)];
    let answers = [0, 1].map(|which| engines[which].print(text, times, &mut buffers[which]));
    let what = format!("print into {length} bytes, {times} times");
    same(&what, &answers[0], &answers[1])?;
    same_bytes(&format!("{what}: buffer"), &buffers[0], &buffers[1])?;
    let printed = answers[0];
    if printed.number == 0 {
        same(&format!("{what}: length of the text read"), &printed.length, &text.len())?;
    }
    same_bytes(&format!("{what}: buffer against what the paper says of it"), &buffers[0], &expected(text, length, printed.number == 0))?;
    Ok(printed)
}

fn book(engines: [&dyn Engine; 2], text: &[u8], tally: &mut Tally, sort: &'static str) -> Answer {
    let read = [0, 1].map(|which| engines[which].read(text));
    tally.verdict(sort, read[0].number);
    same("read", &read[0], &read[1])?;
    let times = if text.len() % 9 == 0 { 3 } else { 1 };
    let spare = 1 + text.len() % 70;
    let long = print(engines, text, times, text.len() + spare)?;
    same("print against read", &(long.number, long.line), &(read[0].number, read[0].line))?;
    if read[0].number == 0 {
        tally.pairs_read(text);
        for (row, length) in [
            ("print, room to spare", text.len() + spare),
            ("print, exact room", text.len()),
            ("print, a byte short", text.len() - 1),
            ("print, no room", 0),
        ] {
            let printed = if length > text.len() { long } else { print(engines, text, times, length)? };
            tally.verdict(row, printed.number);
        }
    } else {
        print(engines, text, 1, 0)?;
    }
    Ok(())
}

fn sheet(engines: [&dyn Engine; 2], text: &[u8], tally: &mut Tally, sort: &'static str) -> Answer {
    let answers = [0, 1].map(|which| engines[which].check(text));
    tally.verdict(sort, answers[0].number);
    same("check", &answers[0], &answers[1])
}

fn margin(engines: [&dyn Engine; 2], book: &[u8], sheet: &[u8], tally: &mut Tally, sort: &'static str) -> Answer {
    let length = if sheet.len() % 17 == 0 { sheet.len() % 40 } else { 96 + sheet.len() % 40 };
    let times = if sheet.len() % 11 == 0 { 2 } else { 1 };
    let mut buffers = [fresh(length), fresh(length)];
    let answers = [0, 1].map(|which| engines[which].margin(book, sheet, times, &mut buffers[which]));
    let lengths = answers.map(|answer| answer.length);
    tally.margin(sort, book, &buffers[0][..lengths[0].min(length)]);
    let [one, other] = [0, 1].map(|which| buffers[which][..lengths[which].min(length)].escape_ascii().to_string());
    if one != other {
        return Err(Difference { what: "margin".to_string(), one, other });
    }
    same("margin: number and length", &answers[0], &answers[1])?;
    same_bytes("margin: buffer", &buffers[0], &buffers[1])
}

fn history(engines: [&dyn Engine; 2], book: &[u8], calls: &[[u32; 13]], tally: &mut Tally) -> Answer {
    let words: Vec<u32> = calls.iter().flatten().copied().collect();
    let mut numbers = [vec![0xEE; calls.len()], vec![0xEE; calls.len()]];
    let mut buffers = [fresh(BOOK_BYTES + 9), fresh(BOOK_BYTES + 9)];
    let answers = [0, 1].map(|which| engines[which].run(book, &words, &mut numbers[which], &mut buffers[which]));
    tally.calls(calls, &numbers[0]);
    if let Some(place) = (0..calls.len()).find(|place| numbers[0][*place] != numbers[1][*place]) {
        same(&format!("call {place} of {}: {:?}", calls.len(), calls[place]), &numbers[0][place], &numbers[1][place])?;
    }
    same("history: number, line and length of the text", &answers[0], &answers[1])?;
    same_bytes("history: text", &buffers[0], &buffers[1])?;
    if answers[0].number != 0 {
        return Ok(());
    }
    let text = &buffers[0][..answers[0].length.min(BOOK_BYTES)];
    let read = [0, 1].map(|which| engines[which].read(text));
    same("history: reading the text that it gave", &read[0], &read[1])?;
    same("history: whether the text that it gave is sound", &read[0], &Verdict { number: 0, line: 0 })
}

fn held(input: &Input, engines: [&dyn Engine; 2], tally: &mut Tally, sort: &'static str) -> Answer {
    match input {
        Input::Book(text) => book(engines, text, tally, sort),
        Input::Sheet(text) => sheet(engines, text, tally, sort),
        Input::Margin(text, prices) => margin(engines, text, prices, tally, sort),
        Input::History(text, calls) => history(engines, text, calls, tally),
    }
}

/// Holds both engines' answers to an input against each other. A panic is a difference too.
pub fn compare(input: &Input, engines: [&dyn Engine; 2], tally: &mut Tally, sort: &'static str) -> Option<Difference> {
    let panicked = || Difference { what: "a panic".to_string(), one: String::new(), other: String::new() };
    match catch_unwind(AssertUnwindSafe(|| held(input, engines, tally, sort))) {
        Ok(answer) => answer.err(),
        Err(_) => Some(panicked()),
    }
}

fn differs(input: &Input, engines: [&dyn Engine; 2]) -> bool {
    compare(input, engines, &mut Tally::default(), "").is_some()
}

/// The pieces an input can lose: lines of its texts and calls, numbered through.
fn pieces(input: &Input) -> usize {
    let lines = |text: &[u8]| text.split_inclusive(|byte| *byte == b'\n').count();
    match input {
        Input::Book(text) | Input::Sheet(text) => lines(text),
        Input::Margin(book, sheet) => lines(book) + lines(sheet),
        Input::History(book, calls) => lines(book) + calls.len(),
    }
}

fn text_without(text: &[u8], from: usize, count: usize) -> Vec<u8> {
    let lines = text.split_inclusive(|byte| *byte == b'\n').enumerate();
    lines.filter(|(place, _)| *place < from || *place >= from + count).flat_map(|(_, line)| line.to_vec()).collect()
}

/// The input without `count` pieces from `from` on.
fn without(input: &Input, from: usize, count: usize) -> Input {
    let lines = |text: &[u8]| text.split_inclusive(|byte| *byte == b'\n').count();
    // Pieces before `first` are lines of the first text; what is left of the span lies in the second part.
    let second = |first: usize| (from.max(first) - first, (from + count).max(first) - from.max(first));
    match input {
        Input::Book(text) => Input::Book(text_without(text, from, count)),
        Input::Sheet(text) => Input::Sheet(text_without(text, from, count)),
        Input::Margin(book, sheet) => {
            let (start, left) = second(lines(book));
            Input::Margin(text_without(book, from, count), text_without(sheet, start, left))
        }
        Input::History(book, calls) => {
            let (start, left) = second(lines(book));
            let kept = calls.iter().enumerate().filter(|(place, _)| *place < start || *place >= start + left);
            Input::History(text_without(book, from, count), kept.map(|(_, call)| *call).collect())
        }
    }
}

/// Takes pieces away, many at once and then one by one, as long as some difference stays.
pub fn minimised(input: &Input, engines: [&dyn Engine; 2]) -> Input {
    let mut least = input.clone();
    let mut tries = 0;
    let mut size = (pieces(&least) / 2).max(1);
    loop {
        let mut from = 0;
        let before = pieces(&least);
        while from < pieces(&least) && tries < 4_000 {
            let smaller = without(&least, from, size);
            tries += 1;
            if differs(&smaller, engines) {
                least = smaller;
            } else {
                from += size;
            }
        }
        if tries >= 4_000 || (size == 1 && pieces(&least) == before) {
            return least;
        }
        size = (size / 2).max(1);
    }
}

/// A text, escaped, a line of it to a line; of a long one the start and the end.
fn shown_text(text: &[u8]) -> String {
    let part = |bytes: &[u8]| bytes.escape_ascii().to_string().replace("\\n", "\\n\n      ").trim_end().to_string();
    if text.len() <= 1_500 {
        return format!("      {}", part(text));
    }
    format!("      {}\n      ... ({} bytes in all)\n      {}", part(&text[..700]), text.len(), part(&text[text.len() - 700..]))
}

/// Calls, one to a line; of many the last.
fn shown_calls(calls: &[[u32; 13]]) -> String {
    let left_out = calls.len().saturating_sub(40);
    let list: Vec<String> = calls[left_out..].iter().map(|call| format!("      {}", shown_call(call))).collect();
    format!("    calls, the first {left_out} not shown:\n{}", list.join("\n"))
}

/// The input as a reader can use it.
pub fn dump(input: &Input) -> String {
    match input {
        Input::Book(text) => format!("    book:\n{}", shown_text(text)),
        Input::Sheet(text) => format!("    sheet:\n{}", shown_text(text)),
        Input::Margin(book, sheet) => format!("    book:\n{}\n    sheet:\n{}", shown_text(book), shown_text(sheet)),
        Input::History(book, calls) => format!("    book:\n{}\n{}", shown_text(book), shown_calls(calls)),
    }
}

fn shown_call(words: &[u32; 13]) -> String {
    let name = crate::tally::CALLS[(words[0] as usize).min(5)];
    let series = |at: usize| {
        let code: Vec<u8> = words[at].to_be_bytes()[1..].to_vec();
        let nature = ["F", "C", "P"][(words[at + 2] as usize).min(2)];
        format!("{} {} {nature} {}", code.escape_ascii(), words[at + 1], words[at + 3])
    };
    match words[0] {
        0 => format!("{name} account {} identity {} day {}", words[9], words[10], words[11]),
        1 | 2 => format!("{name} {} side {} lots {}", series(1), words[9], words[12]),
        3 | 4 => format!("{name} kind {} {} / {} ratio {}:{} units {}", words[9], series(1), series(5), words[10], words[11], words[12]),
        _ => format!("{name} day {}", words[11]),
    }
}
