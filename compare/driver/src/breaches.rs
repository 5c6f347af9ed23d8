//! Nearly sound texts: a sound one with one deliberate breach, or with two, in the same line or in different lines.
//! The number a breach is meant to give only steers what is written; other rules may speak first.

use crate::books::{any_day, Market};
use crate::fields::*;
use crate::paper::{Book, Holding, Pair, Series, Side, MOST_LOTS};
use crate::rng::Rng;

const NUMBERS: [u8; 8] = [1, 4, 5, 2, 6, 10, 3, 9];

/// Fields of the line that have values for this number.
fn places(line: &[u8], number: u8) -> Vec<usize> {
    let sorts = fields_of(line.first().copied().unwrap_or(0));
    (0..sorts.len()).filter(|place| !wrong_values(sorts[*place], number).is_empty()).collect()
}

fn can_breach(line: &[u8], number: u8) -> bool {
    match number {
        3 => !line.starts_with(b"A") && !line.starts_with(b"D"),
        9 | 10 => line.starts_with(b"M"),
        _ => !places(line, number).is_empty(),
    }
}

/// Puts a wrong value into one field; for 1 at times takes a field away or adds one.
fn breach_field(rng: &mut Rng, line: &mut Vec<u8>, number: u8) {
    let places = places(line, number);
    let mut fields = split_line(line);
    if number == 1 && rng.chance(1, 3) {
        if rng.chance(1, 2) {
            fields.pop();
        } else {
            fields.push(b"1".to_vec());
        }
    } else if let (Some(place), sorts) = (places.get(rng.below(places.len())), fields_of(line[0])) {
        let value = rng.pick(wrong_values(sorts[*place], number)).to_vec();
        match fields.get_mut(*place) {
            Some(field) => *field = value,
            None => fields.push(value),
        }
    }
    *line = join_line(&fields);
}

/// A holding's totals both 0, or a nature that does not suit, or a strike that does not.
fn breach_whole_line(rng: &mut Rng, line: &mut Vec<u8>) {
    let mut fields = split_line(line);
    let nature = if fields[0] == b"H" || fields[0] == b"Q" { 3 } else { *rng.pick(&[4, 8]) };
    if fields[0] == b"H" && fields.len() == 7 && rng.chance(1, 2) {
        fields[5] = b"0".to_vec();
        fields[6] = b"0".to_vec();
    } else if fields.len() > nature + 1 {
        let letter: &[u8] = if fields[nature] == b"F" { b"C" } else { b"F" };
        if rng.chance(1, 2) {
            fields[nature] = letter.to_vec();
        } else {
            fields[nature + 1] = if letter == b"C" { b"1".to_vec() } else { b"0".to_vec() };
        }
    }
    *line = join_line(&fields);
}

/// A pair that is not allowed: another kind, legs swapped, equal strikes or dates, other ratio, another code or nature.
fn breach_pair(rng: &mut Rng, line: &mut Vec<u8>) {
    let mut fields = split_line(line);
    if fields.len() != 13 {
        return;
    }
    let sort = if fields[1] == b"5" && rng.chance(1, 2) { 4 } else { rng.below(7) };
    match sort {
        0 => fields[1] = rng.between(0, 9).to_string().into_bytes(),
        1 => (2..6).for_each(|at| fields.swap(at, at + 4)),
        2 => fields[5] = fields[9].clone(),
        3 => fields[3] = fields[7].clone(),
        4 => fields[10 + rng.below(2)] = rng.between(1, 6).to_string().into_bytes(),
        5 => fields[if rng.chance(1, 2) { 2 } else { 6 }] = any_value(rng, Field::Code),
        _ => fields[if rng.chance(1, 2) { 4 } else { 8 }] = rng.pick::<&[u8]>(&[b"C", b"P", b"F"]).to_vec(),
    }
    *line = join_line(&fields);
}

/// Asks for more lots than are free, or just as many as a total may be; at times lowers a holding instead.
fn breach_free(rng: &mut Rng, lines: &mut [Vec<u8>], at: usize) {
    let is_holding = |line: &Vec<u8>| line.starts_with(b"H");
    let holdings: Vec<usize> = (0..lines.len()).filter(|place| is_holding(&lines[*place])).collect();
    let (line, place, value) = if rng.chance(1, 2) || holdings.is_empty() {
        (at, 12, rng.pick(&["100000", "25000", "20000", "1000", "3"]).as_bytes().to_vec())
    } else {
        (*rng.pick(&holdings), 5 + rng.below(2), rng.pick(&["0", "1", "2"]).as_bytes().to_vec())
    };
    let mut fields = split_line(&lines[line]);
    if let Some(field) = fields.get_mut(place) {
        *field = value;
    }
    lines[line] = join_line(&fields);
}

/// Puts a line where it should not stand: doubled, before its neighbour, or anywhere.
fn breach_order(rng: &mut Rng, lines: &mut Vec<Vec<u8>>, at: usize) {
    match rng.below(4) {
        0 => lines.insert(at, lines[at].clone()),
        1 if at > 1 => lines.swap(at, at - 1),
        2 => {
            let line = lines.remove(at);
            let place = (1 + rng.below(lines.len())).min(lines.len());
            lines.insert(place, line);
        }
        _ => {
            let line = lines[at].clone();
            lines.push(line);
        }
    }
}

fn breach(rng: &mut Rng, lines: &mut Vec<Vec<u8>>, at: usize, number: u8) {
    match number {
        2 if rng.chance(1, 4) && matches!(lines[at].first(), Some(b'H' | b'M' | b'Q')) => breach_whole_line(rng, &mut lines[at]),
        3 => breach_order(rng, lines, at),
        9 => breach_free(rng, lines, at),
        10 if rng.chance(3, 4) => breach_pair(rng, &mut lines[at]),
        _ => breach_field(rng, &mut lines[at], number),
    }
}

/// A line in which this number can be breached.
fn some_line(rng: &mut Rng, lines: &[Vec<u8>], number: u8) -> Option<usize> {
    let places: Vec<usize> = (0..lines.len()).filter(|at| can_breach(&lines[*at], number)).collect();
    places.get(rng.below(places.len())).copied()
}

/// A number that can be breached somewhere in the text.
fn some_number(rng: &mut Rng, lines: &[Vec<u8>]) -> u8 {
    for _ in 0..20 {
        let number = *rng.pick(&NUMBERS);
        if lines.iter().any(|line| can_breach(line, number)) {
            return number;
        }
    }
    1
}

fn breach_somewhere(rng: &mut Rng, lines: &mut Vec<Vec<u8>>) {
    let number = some_number(rng, lines);
    if let Some(at) = some_line(rng, lines, number) {
        breach(rng, lines, at, number);
    }
}

/// The text with one breach.
pub fn breached_once(rng: &mut Rng, text: &[u8]) -> Vec<u8> {
    let mut lines = lines_of(text);
    breach_somewhere(rng, &mut lines);
    text_of(&lines)
}

/// The text with two breaches, half of the time of different numbers in the same line.
pub fn breached_twice(rng: &mut Rng, text: &[u8]) -> Vec<u8> {
    let mut lines = lines_of(text);
    if rng.chance(1, 2) {
        breach_somewhere(rng, &mut lines);
        breach_somewhere(rng, &mut lines);
        return text_of(&lines);
    }
    // Half of the time in a pair's line, which knows most numbers.
    let pairs: Vec<usize> = (0..lines.len()).filter(|at| lines[*at].starts_with(b"M")).collect();
    let in_pair = !pairs.is_empty() && rng.chance(1, 2);
    let first = if in_pair { *rng.pick(&NUMBERS) } else { some_number(rng, &lines) };
    let at = if in_pair { Some(*rng.pick(&pairs)) } else { some_line(rng, &lines, first) };
    let Some(at) = at else {
        return text_of(&lines);
    };
    let others: Vec<u8> = NUMBERS.into_iter().filter(|number| *number != first && can_breach(&lines[at], *number)).collect();
    let second = if others.is_empty() { first } else { *rng.pick(&others) };
    // What moves a line comes last, so that both breaches stay in it.
    let (one, other) = if first == 3 { (second, first) } else { (first, second) };
    breach(rng, &mut lines, at, one);
    if can_breach(&lines[at], other) {
        breach(rng, &mut lines, at, other);
    }
    text_of(&lines)
}

/// A change to a pair that mostly takes it out of what is allowed, or moves it within.
fn bend(rng: &mut Rng, market: &Market, pair: &mut Pair) {
    let sort = if pair.kind == 5 && rng.chance(1, 2) { 2 + rng.below(3) } else { rng.below(10) };
    match sort {
        0 => pair.kind = rng.between(0, 9),
        1 => std::mem::swap(&mut pair.first, &mut pair.second),
        2 => pair.r1 = (pair.r1 + rng.between(0, 2)).saturating_sub(1),
        3 | 4 => pair.r2 = (pair.r2 + rng.between(0, 2)).saturating_sub(1),
        5 => pair.first.strike = pair.second.strike,
        6 => pair.first.date = pair.second.date,
        7 => pair.second.nature = *rng.pick(b"CFP"),
        8 => pair.first.code = market.series(rng).code,
        _ => pair.second = market.series(rng),
    }
}

/// Totals about what a leg needs: just enough, one too few, or plenty, and some on the other side.
fn leg_holding(rng: &mut Rng, series: Series, side: Side, lots: u32) -> Holding {
    let lots = lots.clamp(1, MOST_LOTS);
    let total = match rng.below(6) {
        0 => lots - 1,
        1..=3 => lots,
        4 => MOST_LOTS,
        _ => (lots + 5).min(MOST_LOTS),
    };
    let other = if total == 0 { 1 } else { rng.below(3) as u32 };
    let (long, short) = if side == Side::Long { (total, other) } else { (other, total) };
    Holding { series, long, short }
}

/// A book of one pair, allowed or nearly, whose legs are held just so.
pub fn one_pair(rng: &mut Rng) -> Vec<u8> {
    let market = Market::small(rng);
    let kind = *rng.pick(&[1, 2, 3, 4, 5, 5, 5, 6, 7, 8]);
    let mut pair = market.pair(rng, kind);
    pair.units = *rng.pick(&[1, 1, 1, 2, 7, 20_000, 20_001, 25_000, 25_001, 33_333, 50_000, MOST_LOTS, MOST_LOTS + 1, 0]);
    if rng.chance(2, 3) {
        bend(rng, &market, &mut pair);
    }
    let mut holdings: Vec<Holding> = Vec::new();
    for (series, side, ratio) in pair.legs() {
        if !holdings.iter().any(|holding| holding.series == series) {
            holdings.push(leg_holding(rng, series, side, ratio.saturating_mul(pair.units)));
        }
    }
    holdings.sort();
    // Where a leg is no sound series, no line may hold it.
    holdings.retain(|holding| (holding.series.nature == b'F') != holding.series.code.is_option());
    Book { account: 1, identity: b'1', day: any_day(rng), holdings, pairs: vec![pair] }.text()
}
