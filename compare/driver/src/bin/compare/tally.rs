//! Counts what was run and answered, so that a reader sees that every number and kind was reached.

use std::collections::BTreeMap;

pub const CALLS: [&str; 6] = ["call make", "call open", "call close", "call pair", "call split", "call turn"];

/// How often a sort was run, by the number it got.
#[derive(Default, Clone)]
struct Row {
    run: u64,
    numbers: [u64; 17],
}

#[derive(Default)]
pub struct Tally {
    rows: BTreeMap<&'static str, Row>,
    /// Accepted books and margins that had a pair of each kind.
    books_with: [u64; 9],
    margins_with: [u64; 9],
    margins_accepted: u64,
    margins_charged: u64,
    pub texts: u64,
    pub calls: u64,
}

/// Which kinds of pairs stand in a book's text.
fn kinds(book: &[u8]) -> [bool; 9] {
    let mut found = [false; 9];
    for line in book.split(|byte| *byte == b'\n') {
        if let [b'M', b'\t', kind @ b'1'..=b'8', b'\t', ..] = line {
            found[(kind - b'0') as usize] = true;
        }
    }
    found
}

fn count_kinds(counts: &mut [u64; 9], book: &[u8]) {
    for (count, found) in counts.iter_mut().zip(kinds(book)) {
        *count += found as u64;
    }
}

impl Tally {
    pub fn verdict(&mut self, sort: &'static str, number: u8) {
        let row = self.rows.entry(sort).or_default();
        row.run += 1;
        row.numbers[(number as usize).min(16)] += 1;
    }

    pub fn pairs_read(&mut self, book: &[u8]) {
        count_kinds(&mut self.books_with, book);
    }

    /// Counts the margin program's line.
    pub fn margin(&mut self, sort: &'static str, book: &[u8], line: &[u8]) {
        let line = String::from_utf8_lossy(line);
        let fields: Vec<&str> = line.trim_end().split('\t').collect();
        if fields[0] == "R" {
            self.verdict(sort, 0);
            self.margins_accepted += 1;
            count_kinds(&mut self.margins_with, book);
            self.margins_charged += fields[3..].iter().any(|amount| *amount != "0") as u64;
        } else {
            self.verdict(sort, fields.get(1).and_then(|number| number.parse().ok()).unwrap_or(16));
        }
    }

    pub fn calls(&mut self, calls: &[[u32; 13]], numbers: &[u8]) {
        self.calls += calls.len() as u64;
        for (call, number) in calls.iter().zip(numbers) {
            self.verdict(CALLS[(call[0] as usize).min(5)], *number);
        }
    }

    pub fn print(&self) {
        println!("| sort | run | accepted | refused, by number |");
        println!("|---|---|---|---|");
        for (sort, row) in &self.rows {
            let refused: Vec<String> = (1..17).filter(|n| row.numbers[*n] > 0).map(|n| format!("{n}: {}", row.numbers[n])).collect();
            println!("| {sort} | {} | {} | {} |", row.run, row.numbers[0], refused.join(", "));
        }
        let list = |counts: &[u64; 9]| (1..9).map(|kind| format!("{kind}: {}", counts[kind])).collect::<Vec<_>>().join(", ");
        println!("\nAccepted books with a pair of kind: {}.", list(&self.books_with));
        println!(
            "Accepted margins: {}, of them {} with an amount above 0; with a pair of kind: {}.",
            self.margins_accepted,
            self.margins_charged,
            list(&self.margins_with)
        );
    }
}
