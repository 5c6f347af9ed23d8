//! Damages any text, without a thought for what the damage does.

use crate::fields::*;
use crate::rng::Rng;

/// Bytes that are likely to matter somewhere.
const BYTES: &[u8] = b"\t\t\n\n\r\0 0123456789ABCDFHMOPQSTXZacfhz-+./:@[\x7F\xFF";

fn edit_byte(rng: &mut Rng, text: &mut Vec<u8>) {
    let place = rng.below(text.len() + 1);
    let byte = if rng.chance(1, 20) { rng.below(256) as u8 } else { *rng.pick(BYTES) };
    match rng.below(3) {
        0 if place < text.len() => text[place] = byte,
        1 if place < text.len() => {
            text.remove(place);
        }
        _ => text.insert(place, byte),
    }
}

fn swap_lines(rng: &mut Rng, lines: &mut [Vec<u8>]) {
    if lines.len() < 2 {
        return;
    }
    let one = rng.below(lines.len());
    let other = if rng.chance(2, 3) { (one + 1) % lines.len() } else { rng.below(lines.len()) };
    lines.swap(one, other);
}

fn double_line(rng: &mut Rng, lines: &mut Vec<Vec<u8>>) {
    if lines.is_empty() {
        return;
    }
    let line = rng.pick(lines).clone();
    let place = if rng.chance(1, 2) { lines.iter().position(|at| *at == line).unwrap_or(0) } else { rng.below(lines.len() + 1) };
    lines.insert(place, line);
}

fn remove_line(rng: &mut Rng, lines: &mut Vec<Vec<u8>>) {
    if !lines.is_empty() {
        lines.remove(rng.below(lines.len()));
    }
}

fn move_to_end(rng: &mut Rng, lines: &mut Vec<Vec<u8>>) {
    if !lines.is_empty() {
        let line = lines.remove(rng.below(lines.len()));
        lines.push(line);
    }
}

/// Lines that may be put anywhere: of the other file, of no file, blank, a second first line.
const STRANGE_LINES: &[&[u8]] = &[
    b"",
    b"A\t0000001\t1\t20240102",
    b"A\t0000001\ta\t20240102",
    b"D\t20240102",
    b"D\t20240132",
    b"D\t2024010",
    b"H\tTX\t20240117\tF\t0\t1\t0",
    b"H\tTX\t20240117\tF\t0\t0\t0",
    b"H\tXXX\t20240132\tC\t0\t0\t0",
    b"M\t7\tTX\t20240117\tF\t0\tTX\t20240221\tF\t0\t1\t1\t1",
    b"F\tTX\t136000",
    b"F\tMTX\t1",
    b"O\tTXO\t50\t1\t1\t1\t1\t1\t1\t1\t1\t1\t1",
    b"S\tCD\t2000\t15000\t15000\t0\t0\t0\t10\t50050",
    b"Q\tTXO\t20240117\tC\t1\t1",
    b"Q\tTX\t20240117\tF\t0\t1",
    b"R\t0000007\t20190930\t0\t0\t0",
    b"U\tNY\tNX",
    b"x",
    b"\t",
    b"\0",
    b"\r",
    b" ",
];

fn insert_line(rng: &mut Rng, lines: &mut Vec<Vec<u8>>) {
    let place = if rng.chance(1, 3) { lines.len() } else { rng.below(lines.len() + 1) };
    lines.insert(place, rng.pick(STRANGE_LINES).to_vec());
}

/// Changes the fields of a line: another value in one, one more, one less, two swapped, a series set equal to the other.
fn change_fields(rng: &mut Rng, lines: &mut [Vec<u8>]) {
    if lines.is_empty() {
        return;
    }
    let line = rng.below(lines.len());
    let mut fields = split_line(&lines[line]);
    let sorts = fields_of(lines[line].first().copied().unwrap_or(0));
    let place = rng.below(fields.len());
    match rng.below(12) {
        0 => fields.insert(place, b"1".to_vec()),
        1 => {
            fields.remove(place);
        }
        2 => fields.push(rng.pick::<&[u8]>(&[b"", b"1", b"0"]).to_vec()),
        3 => {
            let other = rng.below(fields.len());
            fields.swap(place, other);
        }
        4 if fields.len() == 13 && fields[0] == b"M" => {
            for at in 2..6 {
                fields.swap(at, at + 4);
            }
        }
        5 if fields.len() == 13 && fields[0] == b"M" => {
            for at in 2..6 {
                fields[at] = fields[at + 4].clone();
            }
        }
        _ if place < sorts.len() => fields[place] = any_value(rng, sorts[place]),
        _ => fields[place] = b"1".to_vec(),
    }
    lines[line] = join_line(&fields);
}

fn one_damage(rng: &mut Rng, text: Vec<u8>) -> Vec<u8> {
    let mut text = text;
    match rng.below(20) {
        0..=4 => {
            for _ in 0..1 + rng.below(3) {
                edit_byte(rng, &mut text);
            }
            return text;
        }
        5 => {
            text.truncate(rng.below(text.len() + 1));
            return text;
        }
        6 => {
            text.pop();
            return text;
        }
        7 => {
            // Each LF becomes CR LF, or one does.
            let all = rng.chance(1, 4);
            let lines = lines_of(&text);
            let chosen = rng.below(lines.len());
            let with_return = |(place, line): (usize, &Vec<u8>)| [&line[..], if all || place == chosen { b"\r" } else { b"" }].concat();
            return text_of(&lines.iter().enumerate().map(with_return).collect::<Vec<_>>());
        }
        _ => (),
    }
    let mut lines = lines_of(&text);
    match rng.below(12) {
        0 | 1 => swap_lines(rng, &mut lines),
        2 => double_line(rng, &mut lines),
        3 => remove_line(rng, &mut lines),
        4 => move_to_end(rng, &mut lines),
        5 => insert_line(rng, &mut lines),
        _ => change_fields(rng, &mut lines),
    }
    text_of(&lines)
}

/// The text with one to three damages.
pub fn damaged(rng: &mut Rng, text: Vec<u8>) -> Vec<u8> {
    let count = *rng.pick(&[1, 1, 1, 1, 2, 2, 3]);
    (0..count).fold(text, |text, _| one_damage(rng, text))
}
