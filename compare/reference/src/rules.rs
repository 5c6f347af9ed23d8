//! The rules of a book, tested on its numbers, as must one who is handed a book and does not know where it comes from.

use std::hint::black_box;

use crate::book::{Book, Holding, Pair, Terms, MOST_ACCOUNT, MOST_LOTS, MOST_ROWS};
use crate::calls::is_identity;
use crate::pairing::{self, Kind};
use crate::series::Series;

impl Book {
    /// Whether the book keeps every "rule of a book". What it remembers as tied is no part of that: tied lots are summed afresh.
    pub fn keeps_rules(&self) -> bool {
        let mut held = Held {
            series: [u64::MAX; MOST_ROWS],
            free: [[0; 2]; MOST_ROWS],
        };
        self.account <= MOST_ACCOUNT
            && is_identity(self.identity)
            && self.day.is_day()
            && self.holdings.len() <= MOST_ROWS
            && self.pairs.len() <= MOST_ROWS
            && held.takes(&self.holdings)
            && held.ties(&self.pairs)
    }
}

/// The numbers of the series held, in order, and the lots of each that are not yet tied. Room that no holding has is of a number above
/// all series, and of no lots.
struct Held {
    series: [u64; MOST_ROWS],
    free: [[u32; 2]; MOST_ROWS],
}

impl Held {
    /// Takes the holdings in, if "Holdings have different series" and stand in their order, and totals are "each 0 to 100,000, not
    /// both 0".
    fn takes(&mut self, holdings: &[Holding]) -> bool {
        // The number of a right series is above 0.
        let mut last = 0;
        let rows = self.series.iter_mut().zip(&mut self.free).zip(holdings);
        for ((number, free), &Holding { series, total, .. }) in rows {
            let [long, short] = total;
            let totals = (long <= MOST_LOTS) & (short <= MOST_LOTS) & (long | short != 0);
            if !(totals & (series.rank() > last) && series.is_right()) {
                return false;
            }
            last = series.rank();
            *number = last;
            *free = total;
        }
        true
    }

    /// Ties the lots of the pairs, if each may stand, all stand in order, and the lots are there. A leg must be held, so its series is
    /// right with that of its holding.
    fn ties(&mut self, pairs: &[Pair]) -> bool {
        let mut last: Option<&Terms> = None;
        for Pair { terms, units } in pairs {
            if last.is_some_and(|last| last >= terms) || !is_allowed(terms, *units) {
                return false;
            }
            last = Some(terms);
            let legs = [terms.first, terms.second].map(|series| self.find(series));
            for ((at, side), lots) in legs.into_iter().zip(terms.sides()).zip(terms.lots(*units)) {
                let Some(at) = at else {
                    return false;
                };
                let free = &mut self.free[at][side as usize];
                if *free < lots {
                    return false;
                }
                *free -= lots;
            }
        }
        true
    }

    /// Where the series is held: seven halvings without a branch.
    fn find(&self, series: Series) -> Option<usize> {
        let mut at = 0;
        for half in [64, 32, 16, 8, 4, 2, 1] {
            at += half * usize::from(self.series[at + half] <= series.rank());
        }
        (self.series[at] == series.rank()).then_some(at)
    }
}

/// Counts in range and the kind's rule. The number of the kind is taken as one that might be any.
fn is_allowed(terms: &Terms, units: u32) -> bool {
    let &Terms {
        first,
        second,
        r1,
        r2,
        ..
    } = terms;
    pairing::sized(u32::from(r1), u32::from(r2), units).is_some()
        && Kind::from_number(black_box(terms.kind as u32))
            .is_some_and(|kind| pairing::allowed(kind, first, second, r1, r2))
}

#[cfg(test)]
mod tests {
    use super::*;
    use crate::book::Side;
    use crate::calls::{make, AskedPair};
    use crate::refusal::Refusal;
    use crate::series::{Asked, Date, Nature};
    use crate::sheet::Sheet;

    const SAMPLE: &str = "\
A 0000007 1 20190930
H TXO 20191016 C 10200000 0 1
H TXO 20191016 P 10200000 0 1
M 4 TXO 20191016 C 10200000 TXO 20191016 P 10200000 1 1 1
";

    /// A book with all eight kinds, in which every short TXO call of 21,000 is tied.
    const ALL_KINDS: &str = "\
A 0000007 Z 20240229
H CCF 20240117 F 0 2 1
H CCO 20240117 C 14000 0 3
H G2F 20240117 F 0 0 4
H GTF 20240221 F 0 5 0
H TMF 20240117 F 0 0 10
H TX 20240117 F 0 7 7
H TX 20240221 F 0 0 7
H TXO 20240117 C 21000000 9 9
H TXO 20240117 C 21200000 9 9
H TXO 20240117 P 21000000 9 9
H TXO 20240221 C 21000000 9 0
M 1 TXO 20240117 C 21000000 TXO 20240117 C 21200000 1 1 2
M 2 TXO 20240117 C 21200000 TXO 20240117 C 21000000 1 1 1
M 3 TXO 20240221 C 21000000 TXO 20240117 C 21000000 1 1 1
M 4 TXO 20240117 C 21000000 TXO 20240117 P 21000000 1 1 2
M 5 CCF 20240117 F 0 CCO 20240117 C 14000 1 1 2
M 5 TMF 20240117 F 0 TXO 20240117 P 21000000 5 1 2
M 5 TX 20240117 F 0 TXO 20240117 C 21000000 1 2 1
M 5 TX 20240117 F 0 TXO 20240117 C 21000000 1 3 1
M 6 TXO 20240117 C 21000000 TXO 20240117 P 21000000 1 1 1
M 7 TX 20240117 F 0 TX 20240221 F 0 1 1 4
M 8 GTF 20240221 F 0 G2F 20240117 F 0 1 1 4
";

    fn book(text: &str) -> Book {
        Book::read(text.replace(' ', "\t").as_bytes()).expect("a sound text")
    }

    /// The book after a change by hand.
    fn changed(book: &Book, change: impl FnOnce(&mut Book)) -> Book {
        let mut book = book.clone();
        change(&mut book);
        book
    }

    fn option(nature: Nature, strike: u32) -> Asked<'static> {
        Asked {
            code: b"TXO",
            date: 20240117,
            nature: Some(nature),
            strike,
        }
    }

    /// Whether the text of the book is read as that same book; what is remembered as tied aside.
    fn reads_back(book: &Book) -> bool {
        let mut text = vec![0; 65_536];
        let length = book.print(&mut text).expect("room for any text");
        let Ok(again) = Book::read(&text[..length]) else {
            return false;
        };
        let rows = |book: &Book| -> Vec<_> {
            let holdings = book.holdings.iter();
            holdings.map(|h| (h.series, h.total)).collect()
        };
        let head = |book: &Book| (book.account, book.identity, book.day);
        head(&again) == head(book) && rows(&again) == rows(book) && again.pairs == book.pairs
    }

    /// Every book that one changed bit, or one changed kind, makes of this one.
    fn with_one_change(book: &Book) -> Vec<Book> {
        let mut all = Vec::new();
        let mut add = |change: &dyn Fn(&mut Book)| all.push(changed(book, change));
        let flipped = |series: Series, bit: u32| Series::unjudged(series.rank() ^ 1 << bit);
        let [year, month, day] = book.day.parts().map(u16::from);
        for bit in 0..16 {
            let number = (year << 9 | month << 5 | day) ^ 1 << bit;
            add(&|book| book.day = Date::unjudged(number));
        }
        for bit in 0..32 {
            add(&|book| book.account ^= 1 << bit);
            add(&|book| book.identity ^= 1 << (bit % 8));
        }
        for at in 0..book.holdings.len() {
            for bit in 0..64 {
                let series = flipped(book.holdings[at].series, bit);
                add(&|book| book.holdings[at].series = series);
                add(&|book| book.holdings[at].total[bit as usize / 32] ^= 1 << (bit % 32));
            }
        }
        for at in 0..book.pairs.len() {
            let Terms { first, second, .. } = book.pairs[at].terms;
            for bit in 0..64 {
                add(&|book| book.pairs[at].terms.first = flipped(first, bit));
                add(&|book| book.pairs[at].terms.second = flipped(second, bit));
            }
            for bit in 0..8 {
                add(&|book| book.pairs[at].terms.r1 ^= 1 << bit);
                add(&|book| book.pairs[at].terms.r2 ^= 1 << bit);
            }
            for bit in 0..32 {
                add(&|book| book.pairs[at].units ^= 1 << bit);
            }
            for kind in (1..=8).filter_map(Kind::from_number) {
                add(&|book| book.pairs[at].terms.kind = kind);
            }
        }
        all
    }

    #[test]
    fn sound_books_keep_the_rules() {
        for text in [SAMPLE, ALL_KINDS, "A 9999999 Z 20991231\n"] {
            assert!(book(text).keeps_rules());
        }
        assert!(Book::default().keeps_rules());
    }

    #[test]
    fn books_after_calls_keep_the_rules() {
        let (near, far) = (
            option(Nature::Call, 21_000_000),
            option(Nature::Call, 21_200_000),
        );
        let vertical = |units| AskedPair {
            kind: 1,
            first: near,
            second: far,
            r1: 1,
            r2: 1,
            units,
        };
        let mut book = make(7, b'1', 20240102).expect("a sound book");
        let mut calls: Vec<Box<dyn FnMut(&mut Book) -> Result<(), Refusal>>> = vec![
            Box::new(|book| book.open(near, Side::Long, 3)),
            Box::new(|book| book.open(far, Side::Short, 100_000)),
            Box::new(|book| book.pair(&vertical(2))),
            Box::new(|book| book.pair(&vertical(1))),
            Box::new(|book| book.close(far, Side::Short, 99_997)),
            Box::new(|book| book.split(&vertical(2))),
            Box::new(|book| book.close(near, Side::Long, 2)),
            Box::new(|book| book.turn(20240103)),
            Box::new(|book| book.split(&vertical(1))),
            Box::new(|book| book.close(near, Side::Long, 1)),
        ];
        for call in &mut calls {
            assert_eq!(call(&mut book), Ok(()));
            assert!(book.keeps_rules());
        }
    }

    #[test]
    fn broken_books_do_not() {
        let (sample, all) = (book(SAMPLE), book(ALL_KINDS));
        let broken = [
            changed(&sample, |book| book.account = 10_000_000),
            changed(&sample, |book| book.identity = b'a'),
            changed(&sample, |book| {
                book.day = Date::unjudged(19 << 9 | 2 << 5 | 29)
            }),
            changed(&sample, |book| book.holdings[0].total = [0; 2]),
            changed(&sample, |book| book.holdings[0].total[0] = 100_001),
            changed(&sample, |book| book.pairs[0].units = 0),
            changed(&sample, |book| book.pairs[0].units = 2),
            changed(&sample, |book| book.pairs[0].terms.r2 = 0),
            changed(&sample, |book| book.pairs[0].terms.kind = Kind::Time),
            changed(&all, |book| book.holdings.swap(0, 1)),
            changed(&all, |book| book.pairs.swap(6, 7)),
            changed(&all, |book| book.holdings.insert(3, book.holdings[3])),
            changed(&all, |book| book.pairs.insert(3, book.pairs[3])),
            changed(&all, |book| {
                book.holdings
                    .retain(|h| h.series != book.pairs[5].terms.first)
            }),
            changed(&all, |book| book.holdings[7].total[1] = 8),
        ];
        for (place, book) in broken.iter().enumerate() {
            assert!(!book.keeps_rules(), "broken book {place}");
        }
    }

    #[test]
    fn rules_are_kept_exactly_where_the_text_reads_back() {
        let all = with_one_change(&book(ALL_KINDS));
        let kept = all.iter().filter(|book| book.keeps_rules()).count();
        assert!((100..all.len() - 1_000).contains(&kept), "{kept} are kept");
        for book in all {
            assert_eq!(book.keeps_rules(), reads_back(&book), "{book:?}");
        }
    }

    #[test]
    fn room_is_for_128_rows_of_each_sort() {
        let mut book = make(7, b'1', 20240102).expect("a sound book");
        for strike in 1..=128 {
            assert_eq!(
                book.open(option(Nature::Call, strike), Side::Long, 1),
                Ok(())
            );
        }
        assert!(book.keeps_rules());
        let series = option(Nature::Call, 129).judge().expect("a series");
        let one_more = Holding {
            series,
            ..book.holdings[0]
        };
        assert!(!changed(&book, |book| book.holdings.push(one_more)).keeps_rules());
        let legs = |at: u32| {
            (
                option(Nature::Call, 1 + at / 12),
                option(Nature::Call, 100 + at % 12),
            )
        };
        for at in 0..129 {
            let (first, second) = legs(at);
            let terms = Terms {
                kind: Kind::Debit,
                first: first.judge().expect("a series"),
                second: second.judge().expect("a series"),
                r1: 1,
                r2: 1,
            };
            book.pairs.push(Pair { terms, units: 1 });
        }
        for holding in &mut book.holdings {
            holding.total = [100, 100];
        }
        assert!(!book.keeps_rules());
        book.pairs.pop();
        assert!(book.keeps_rules());
    }

    #[test]
    fn a_broken_book_is_16_and_nothing_else_happens() {
        let broken = changed(&book(SAMPLE), |book| book.pairs[0].units = 2);
        for call in 1..=5 {
            let mut handed = broken.clone();
            let words = [call; engine::WORDS];
            assert_eq!(
                crate::call::<true>(&mut handed, &words),
                Err(Refusal::Rules)
            );
            assert_eq!(handed, broken);
        }
        let mut out = [7; 1_000];
        assert_eq!(crate::print::<true>(&broken, &mut out), Err(Refusal::Rules));
        assert_eq!(out, [7; 1_000]);
        let sheet = Sheet::read(b"D\t20240102\n").expect("a sound sheet");
        assert_eq!(
            crate::margin_of::<true>(&broken, &sheet),
            Err(Refusal::Rules)
        );
        assert_eq!(
            crate::call::<true>(&mut broken.clone(), &[0; engine::WORDS]),
            Err(Refusal::Range)
        );
    }
}
