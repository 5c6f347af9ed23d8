//! Random histories of calls, as scripts of words.

use crate::books::{any_day, book_of, some_account, some_identity, Market, Size};
use crate::damage::damaged;
use crate::holdings::Holdings;
use crate::limits::exact_book;
use crate::paper::*;
use crate::rng::Rng;

/// One call, before it becomes words.
#[derive(Clone, Copy, Debug)]
pub enum Call {
    Make { account: u32, identity: u32, day: u32 },
    Open { series: Series, side: Side, lots: u32 },
    Close { series: Series, side: Side, lots: u32 },
    Pair(Pair),
    Split(Pair),
    Turn { day: u32 },
}

/// The text of the empty book, for histories that begin with a make.
pub const NOTHING: &[u8] = b"A\t0000000\t0\t20000101\n";

/// A call as the thirteen words of a script.
pub type Words = [u32; 13];

fn put_series(words: &mut Words, at: usize, series: &Series) {
    words[at] = series.code.word();
    words[at + 1] = series.date;
    words[at + 2] = match series.nature {
        b'F' => 0,
        b'C' => 1,
        _ => 2,
    };
    words[at + 3] = series.strike;
}

fn put_lots(words: &mut Words, series: &Series, side: Side, lots: u32) {
    put_series(words, 1, series);
    words[9] = (side == Side::Short) as u32;
    words[12] = lots;
}

fn put_pair(words: &mut Words, pair: &Pair) {
    put_series(words, 1, &pair.first);
    put_series(words, 5, &pair.second);
    words[9..].copy_from_slice(&[pair.kind, pair.r1, pair.r2, pair.units]);
}

impl Call {
    pub fn words(&self) -> Words {
        let mut words = [0; 13];
        match self {
            Call::Make { account, identity, day } => words[9..12].copy_from_slice(&[*account, *identity, *day]),
            Call::Open { series, side, lots } => {
                words[0] = 1;
                put_lots(&mut words, series, *side, *lots);
            }
            Call::Close { series, side, lots } => {
                words[0] = 2;
                put_lots(&mut words, series, *side, *lots);
            }
            Call::Pair(pair) => {
                words[0] = 3;
                put_pair(&mut words, pair);
            }
            Call::Split(pair) => {
                words[0] = 4;
                put_pair(&mut words, pair);
            }
            Call::Turn { day } => {
                words[0] = 5;
                words[11] = *day;
            }
        }
        words
    }

    /// Keeps a steering account in step, as far as it goes.
    pub fn steer(&self, held: &mut Holdings) {
        match self {
            Call::Make { .. } => *held = Holdings::default(),
            Call::Open { series, side, lots } => held.open(series, *side, *lots),
            Call::Close { series, side, lots } => held.close(series, *side, *lots),
            Call::Pair(pair) => held.pair(pair),
            Call::Split(pair) => held.split(pair),
            Call::Turn { .. } => (),
        }
    }
}

pub fn words_of(calls: &[Call]) -> Vec<u32> {
    calls.iter().flat_map(Call::words).collect()
}

/// Where a history starts, and its calls.
pub struct History {
    pub book: Vec<u8>,
    pub calls: Vec<Words>,
}

/// Numbers that lie at an edge of something, or far outside.
const WILD: [u32; 38] = [
    0,
    1,
    2,
    3,
    4,
    5,
    7,
    8,
    9,
    10,
    48,
    90,
    99,
    100,
    101,
    255,
    256,
    257,
    65_535,
    65_537,
    99_999,
    100_000,
    100_001,
    9_999_999,
    10_000_000,
    20_230_229,
    20_240_229,
    20_991_231,
    21_000_101,
    42_949_673,
    100_000_000,
    100_000_001,
    0x7FFF_FFFF,
    0x8000_0000,
    0x8000_0001,
    0xFFFF_FFFE,
    0xFFFF_FFFF,
    0x0100_0001,
];

/// Codes as words: unknown ones, ones of two letters, and ones with something above 24 bits.
const WILD_CODES: [u32; 18] = [
    0,
    0x54_58_00,
    0x54_58_20,
    0x54_58_4F,
    0xFF54_584F,
    0x0154_5800,
    0x74_78_6F,
    0x58_58_58,
    0x00_54_58,
    0x54_00_00,
    0x41_42_46,
    0x41_42_4F,
    0x41_31_46,
    0x47_32_4F,
    0x47_32_46,
    0x4D_54_58,
    0x5A_46_46,
    0xFFFF_FFFF,
];

const NO_DAYS: [u32; 10] = [20230229, 20000001, 19991231, 21000101, 0, 99999999, 20240230, 20241301, 20240100, 0xFFFF_FFFF];

/// Chooses calls that are mostly sensible, by a steering account of what is held.
struct Player {
    market: Market,
    pool: Vec<Series>,
    held: Holdings,
    day: u32,
    calls: Vec<Words>,
}

impl Player {
    fn new(market: Market, pool: Vec<Series>) -> Player {
        Player { market, pool, held: Holdings::default(), day: 20000101, calls: Vec::new() }
    }

    fn make_call(&mut self, call: Call) {
        call.steer(&mut self.held);
        self.calls.push(call.words());
    }

    fn series(&self, rng: &mut Rng) -> Series {
        match self.held.lots.keys().nth(rng.below(self.held.lots.len())) {
            Some(series) if rng.chance(1, 2) => *series,
            _ if rng.chance(1, 10) => self.market.series(rng),
            _ => *rng.pick(&self.pool),
        }
    }

    fn open(&mut self, rng: &mut Rng) {
        let (series, side) = (self.series(rng), some_side(rng));
        let room = MOST_LOTS - self.held.total(&series, side);
        let lots = match rng.below(20) {
            0 => room,
            1 => room + 1,
            2 => *rng.pick(&[0, MOST_LOTS, MOST_LOTS + 1, MOST_LOTS - 1]),
            _ => rng.between(1, 6),
        };
        self.make_call(Call::Open { series, side, lots });
    }

    fn close(&mut self, rng: &mut Rng) {
        let (mut series, mut side) = (self.series(rng), some_side(rng));
        for _ in 0..6 {
            if self.held.free(&series, side) > 0 {
                break;
            }
            (series, side) = (self.series(rng), some_side(rng));
        }
        let (free, total) = (self.held.free(&series, side), self.held.total(&series, side));
        let lots = match rng.below(10) {
            0 => free + 1,
            1 => total,
            2 => *rng.pick(&[0, MOST_LOTS, MOST_LOTS + 1, 1]),
            3..=5 => free.max(1),
            _ => rng.between(1, free),
        };
        self.make_call(Call::Close { series, side, lots });
    }

    /// A pair whose legs are in the pool or held, as far as a few draws find one with free lots.
    fn free_pair(&self, rng: &mut Rng) -> Pair {
        let mut pair = self.market.pair(rng, 1);
        for _ in 0..12 {
            let kind = rng.between(1, 8);
            pair = self.market.pair(rng, kind);
            if self.held.units_free(&pair) > 0 {
                break;
            }
        }
        pair
    }

    fn pair(&mut self, rng: &mut Rng) {
        let drawn = self.free_pair(rng);
        if self.held.units_free(&drawn) == 0 && rng.chance(3, 4) {
            self.open_legs(rng, &drawn);
        }
        let free = self.held.units_free(&drawn);
        let units = match rng.below(12) {
            0 => free + 1,
            1 => *rng.pick(&[0, MOST_LOTS, MOST_LOTS + 1, 25_000, 25_001, 20_000, 20_001]),
            2..=4 => free.max(1),
            _ => rng.between(1, free.min(3)),
        };
        let pair = Pair { units, ..drawn };
        self.make_call(Call::Pair(pair));
    }

    fn open_legs(&mut self, rng: &mut Rng, pair: &Pair) {
        let units = rng.between(1, 4);
        for (series, side, ratio) in pair.legs() {
            self.make_call(Call::Open { series, side, lots: ratio * units });
        }
    }

    /// A pair that is near an allowed one.
    fn wrong_pair(&self, rng: &mut Rng) -> Pair {
        let mut pair = if self.held.pairs.is_empty() || rng.chance(1, 2) { self.free_pair(rng) } else { *rng.pick(&self.held.pairs) };
        match rng.below(9) {
            0 => pair.kind = *rng.pick(&[0, 1, 2, 3, 4, 5, 6, 7, 8, 9, 257]),
            1 => std::mem::swap(&mut pair.first, &mut pair.second),
            2 => pair.r1 = *rng.pick(&[0, 1, 2, 5, 10, 100, 101]),
            3 => pair.r2 = *rng.pick(&[0, 1, 2, 3, 4, 5, 100, 101]),
            4 => pair.first.strike = pair.second.strike,
            5 => pair.first.date = pair.second.date,
            6 => pair.second.nature = *rng.pick(b"CFP"),
            7 => pair.first.code = self.market.series(rng).code,
            _ => pair.second = self.series(rng),
        }
        pair
    }

    fn split(&mut self, rng: &mut Rng) {
        if self.held.pairs.is_empty() || rng.chance(1, 12) {
            let pair = self.free_pair(rng);
            return self.make_call(Call::Split(pair));
        }
        let standing = *rng.pick(&self.held.pairs);
        let units = match rng.below(10) {
            0 => standing.units + 1,
            1 => *rng.pick(&[0, MOST_LOTS, MOST_LOTS + 1]),
            2..=5 => standing.units,
            _ => rng.between(1, standing.units),
        };
        self.make_call(Call::Split(Pair { units, ..standing }));
    }

    fn turn(&mut self, rng: &mut Rng) {
        let day = match rng.below(10) {
            0 => self.day,
            1 => *rng.pick(&NO_DAYS),
            2 => any_day(rng),
            3 => self.day - 1,
            _ => next_day(self.day),
        };
        if day > self.day && day <= 20991231 && !NO_DAYS.contains(&day) {
            self.day = day;
        }
        self.make_call(Call::Turn { day });
    }

    fn make(&mut self, rng: &mut Rng) {
        let mut call = (some_account(rng), some_identity(rng) as u32, any_day(rng));
        match rng.below(8) {
            0 => call.0 = *rng.pick(&[10_000_000, 9_999_999, 0xFFFF_FFFF, 0x8000_0000]),
            1 => call.1 = *rng.pick(&[0, 47, 58, 64, 91, 97, 255, 256 + 65, 0xFFFF_FF41]),
            2 => call.2 = *rng.pick(&NO_DAYS),
            _ => (),
        }
        self.day = call.2.max(20000101);
        self.make_call(Call::Make { account: call.0, identity: call.1, day: call.2 });
    }

    /// The words of the last call again, with one or two of them wild. The steering account is not told.
    fn wild(&mut self, rng: &mut Rng) {
        let mut words = match self.calls.get(rng.below(self.calls.len())) {
            Some(words) => *words,
            None => [0; 13],
        };
        for _ in 0..1 + rng.below(2) {
            let place = rng.below(13);
            words[place] = match place {
                1 | 5 if rng.chance(3, 4) => *rng.pick(&WILD_CODES),
                2 | 6 | 11 if rng.chance(1, 2) => *rng.pick(&NO_DAYS),
                _ => *rng.pick(&WILD),
            };
        }
        // A make call throws the book away: not too often.
        if words[0] != 0 || rng.chance(1, 10) {
            self.calls.push(words);
        }
    }

    fn step(&mut self, rng: &mut Rng) {
        match rng.below(100) {
            0..=27 => self.open(rng),
            28..=41 => self.close(rng),
            42..=65 => self.pair(rng),
            66..=77 => self.split(rng),
            78..=83 => self.turn(rng),
            84..=90 => {
                let pair = self.wrong_pair(rng);
                let call = if rng.chance(2, 3) { Call::Pair(pair) } else { Call::Split(pair) };
                self.calls.push(call.words());
            }
            91..=98 => self.wild(rng),
            _ if rng.chance(1, 4) => self.make(rng),
            _ => self.turn(rng),
        }
    }
}

fn some_side(rng: &mut Rng) -> Side {
    if rng.chance(1, 2) {
        Side::Long
    } else {
        Side::Short
    }
}

fn pool_of(rng: &mut Rng, market: &Market, count: usize) -> Vec<Series> {
    (0..count).map(|_| market.series(rng)).collect()
}

/// A history from the empty text, its book made by a make call; at times without one.
pub fn from_nothing(rng: &mut Rng) -> History {
    let market = Market::small(rng);
    let count = 2 + rng.below(10);
    let pool = pool_of(rng, &market, count);
    let mut player = Player::new(market, pool);
    if rng.chance(9, 10) {
        player.make(rng);
    }
    for _ in 0..1 + rng.below(60) {
        player.step(rng);
    }
    History { book: NOTHING.to_vec(), calls: player.calls }
}

/// A history from the text of a random sound book.
pub fn from_book(rng: &mut Rng) -> History {
    let market = Market::small(rng);
    let size = if rng.chance(1, 2) { Size::Small } else { Size::Middle };
    let book = book_of(rng, &market, size);
    let mut pool = pool_of(rng, &market, 4);
    pool.extend(book.holdings.iter().map(|holding| holding.series));
    let mut player = Player { held: Holdings::of(&book), day: book.day, ..Player::new(market, pool) };
    for _ in 0..1 + rng.below(50) {
        player.step(rng);
    }
    // At times the text is refused, and the calls go on from the empty book.
    let text = if rng.chance(1, 25) { damaged(rng, book.text()) } else { book.text() };
    History { book: text, calls: player.calls }
}

/// Calls that make this book out of nothing, holdings in any order.
fn building(rng: &mut Rng, book: &Book) -> Vec<Call> {
    let mut calls = Vec::new();
    for Holding { series, long, short } in &book.holdings {
        for (side, lots) in [(Side::Long, *long), (Side::Short, *short)] {
            if lots > 0 {
                calls.push(Call::Open { series: *series, side, lots });
            }
        }
    }
    rng.shuffle(&mut calls);
    let mut pairs: Vec<Call> = book.pairs.iter().copied().map(Call::Pair).collect();
    rng.shuffle(&mut pairs);
    calls.extend(pairs);
    calls
}

/// A history that fills a book, by calls or from a text, and goes on past its room.
pub fn past_full(rng: &mut Rng) -> History {
    let (holdings, pairs) = (120 + rng.below(20), 110 + rng.below(40));
    let wanted = exact_book(rng, holdings, pairs);
    let market = crate::limits::market_of(&wanted);
    let pool: Vec<Series> = exact_book(rng, 140, 0).holdings.iter().map(|holding| holding.series).collect();
    let mut player = Player::new(market, pool);
    let mut book = Vec::new();
    if holdings <= MOST_ROWS && pairs <= MOST_ROWS && rng.chance(1, 2) {
        book = wanted.text();
        player.held = Holdings::of(&wanted);
        player.day = wanted.day;
    } else {
        player.make(rng);
        for call in building(rng, &wanted) {
            player.make_call(call);
        }
    }
    for _ in 0..100 + rng.below(200) {
        if rng.chance(1, 3) {
            let pair = wanted.pairs.get(rng.below(wanted.pairs.len())).copied();
            player.pair_again(rng, pair);
        } else {
            player.step(rng);
        }
    }
    History { book, calls: player.calls }
}

impl Player {
    /// Opens what a new pair between held series needs, and pairs it: so that the room for pairs runs out.
    fn pair_again(&mut self, rng: &mut Rng, standing: Option<Pair>) {
        let drawn = match standing {
            Some(pair) if rng.chance(1, 4) => pair,
            _ => self.free_pair(rng),
        };
        if drawn.legs().iter().all(|leg| self.held.lots.contains_key(&leg.0)) {
            self.open_legs(rng, &drawn);
        }
        let units = rng.between(1, 2);
        self.make_call(Call::Pair(Pair { units, ..drawn }));
    }
}
