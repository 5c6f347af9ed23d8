//! One input to both implementations, and how it is drawn from the seed of its case.

use crate::books::{book, some_size, Size};
use crate::breaches::{breached_once, breached_twice, one_pair};
use crate::damage::damaged;
use crate::fields::{lines_of, text_of};
use crate::histories::{from_book, from_nothing, past_full, History, Words};
use crate::limits::{book_at_limit, exact_book, large_sheet, sheet_at_limit};
use crate::paper::MOST_ROWS;
use crate::rng::Rng;
use crate::sheets::{one_amount, sheet_for};

#[derive(Clone, PartialEq, Eq, Debug)]
pub enum Input {
    /// A book to read and to print.
    Book(Vec<u8>),
    /// A sheet to check.
    Sheet(Vec<u8>),
    /// A book and a sheet to work the margin of.
    Margin(Vec<u8>, Vec<u8>),
    /// A book to start from, and calls.
    History(Vec<u8>, Vec<Words>),
}

/// Sorts of random input, with how often each is drawn.
pub const SORTS: [(&str, usize); 20] = [
    ("book, sound", 120),
    ("book, sound, large", 8),
    ("book, damaged", 150),
    ("book, one breach", 90),
    ("book, two breaches", 90),
    ("book, one pair", 80),
    ("book, at the limits", 5),
    ("sheet, sound", 70),
    ("sheet, sound, large", 4),
    ("sheet, damaged", 100),
    ("sheet, one breach", 60),
    ("sheet, two breaches", 60),
    ("sheet, at the limits", 5),
    ("margin, sound", 180),
    ("margin, one amount", 120),
    ("margin, sound, large", 8),
    ("margin, damaged", 50),
    ("history, from nothing", 50),
    ("history, from a book", 45),
    ("history, past a full book", 3),
];

fn drawn_sort(rng: &mut Rng) -> &'static str {
    let mut left = rng.below(SORTS.iter().map(|(_, weight)| weight).sum());
    for (sort, weight) in SORTS {
        if left < weight {
            return sort;
        }
        left -= weight;
    }
    SORTS[0].0
}

fn sound_book(rng: &mut Rng) -> Vec<u8> {
    let size = some_size(rng);
    book(rng, size).text()
}

/// A book that has at least one pair, so that a pair's rules can be broken; mostly.
fn paired_book(rng: &mut Rng) -> Vec<u8> {
    for _ in 0..4 {
        let size = if rng.chance(1, 4) { Size::Middle } else { Size::Small };
        let book = book(rng, size);
        if !book.pairs.is_empty() {
            return book.text();
        }
    }
    sound_book(rng)
}

fn large_book(rng: &mut Rng) -> crate::paper::Book {
    match rng.below(3) {
        0 => exact_book(rng, MOST_ROWS, MOST_ROWS),
        1 => book(rng, Size::Full),
        _ => book(rng, Size::Large),
    }
}

fn sound_sheet(rng: &mut Rng) -> Vec<u8> {
    let size = some_size(rng);
    let book = book(rng, size);
    sheet_for(rng, &book).text()
}

/// Mostly a sound book and a sound sheet for it; `harm` damages either.
fn margin(rng: &mut Rng, large: bool, harm: bool) -> Input {
    let book = if large {
        large_book(rng)
    } else {
        let size = some_size(rng);
        book(rng, size)
    };
    let sheet = if large && rng.chance(2, 3) { large_sheet(rng, &book) } else { sheet_for(rng, &book) };
    let (mut book, mut sheet) = (book.text(), sheet.text());
    if harm {
        match rng.below(40) {
            0 => book = book_at_limit(rng),
            1 => sheet = sheet_at_limit(rng),
            2..=9 => book = damaged(rng, book),
            10..=15 => book = without_some_line(rng, &book),
            16..=23 => sheet = without_some_line(rng, &sheet),
            24..=31 => sheet = breached_once(rng, &sheet),
            _ => sheet = damaged(rng, sheet),
        }
    }
    Input::Margin(book, sheet)
}

fn without_some_line(rng: &mut Rng, text: &[u8]) -> Vec<u8> {
    let mut lines = lines_of(text);
    lines.remove(rng.below(lines.len()));
    text_of(&lines)
}

fn history(history: History) -> Input {
    Input::History(history.book, history.calls)
}

/// The sort and the input of the case with this seed.
pub fn drawn(seed: u64) -> (&'static str, Input) {
    let mut rng = Rng::new(seed);
    let rng = &mut rng;
    let sort = drawn_sort(rng);
    let input = match sort {
        "book, sound" => Input::Book(sound_book(rng)),
        "book, sound, large" => Input::Book(large_book(rng).text()),
        "book, damaged" => {
            let text = sound_book(rng);
            Input::Book(damaged(rng, text))
        }
        "book, one breach" => {
            let text = paired_book(rng);
            Input::Book(breached_once(rng, &text))
        }
        "book, two breaches" => {
            let text = paired_book(rng);
            Input::Book(breached_twice(rng, &text))
        }
        "book, one pair" => Input::Book(one_pair(rng)),
        "book, at the limits" => Input::Book(book_at_limit(rng)),
        "sheet, sound" => Input::Sheet(sound_sheet(rng)),
        "sheet, sound, large" => {
            let book = large_book(rng);
            Input::Sheet(large_sheet(rng, &book).text())
        }
        "sheet, damaged" => {
            let text = sound_sheet(rng);
            Input::Sheet(damaged(rng, text))
        }
        "sheet, one breach" => {
            let text = sound_sheet(rng);
            Input::Sheet(breached_once(rng, &text))
        }
        "sheet, two breaches" => {
            let text = sound_sheet(rng);
            Input::Sheet(breached_twice(rng, &text))
        }
        "sheet, at the limits" => Input::Sheet(sheet_at_limit(rng)),
        "margin, sound" => margin(rng, false, false),
        "margin, one amount" => {
            let (book, sheet) = one_amount(rng);
            Input::Margin(book.text(), sheet.text())
        }
        "margin, sound, large" => margin(rng, true, false),
        "margin, damaged" => margin(rng, false, true),
        "history, from nothing" => history(from_nothing(rng)),
        "history, from a book" => history(from_book(rng)),
        _ => history(past_full(rng)),
    };
    (sort, input)
}

#[cfg(test)]
mod tests {
    use super::*;
    use crate::rng::case_seed;

    #[test]
    fn a_seed_gives_the_same_case_again() {
        for index in 0..300 {
            let seed = case_seed(7, index);
            assert_eq!(drawn(seed), drawn(seed));
        }
    }
}
