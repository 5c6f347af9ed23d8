//! The fields of each line, and values for them: sound ones at the edges, and wrong ones by the number they are likely to give alone.

use crate::rng::Rng;

#[derive(Clone, Copy, PartialEq, Eq, Debug)]
pub enum Field {
    Letter,
    Account,
    Identity,
    Date,
    /// The code of a series in a book, and of a price on a sheet.
    Code,
    PriceCode,
    ClearingCode,
    OptionCode,
    Stock,
    Nature,
    Strike,
    Total,
    Kind,
    Ratio,
    Units,
    Clearing,
    Multiplier,
    Amount,
    Underlying,
    Rate,
    CRate,
    Disposition,
    Price,
}

use Field::*;

const A: [Field; 4] = [Letter, Account, Identity, Date];
const H: [Field; 7] = [Letter, Code, Date, Nature, Strike, Total, Total];
const M: [Field; 13] = [Letter, Kind, Code, Date, Nature, Strike, Code, Date, Nature, Strike, Ratio, Ratio, Units];
const D: [Field; 2] = [Letter, Date];
const F: [Field; 3] = [Letter, ClearingCode, Clearing];
const O: [Field; 13] = [Letter, OptionCode, Multiplier, Amount, Amount, Amount, Amount, Amount, Amount, Amount, Amount, Amount, Underlying];
const S: [Field; 10] = [Letter, Stock, Multiplier, Rate, Rate, CRate, CRate, CRate, Disposition, Underlying];
const Q: [Field; 6] = [Letter, PriceCode, Date, Nature, Strike, Price];

/// The fields of a line with this letter; none for another letter.
pub fn fields_of(letter: u8) -> &'static [Field] {
    match letter {
        b'A' => &A,
        b'H' => &H,
        b'M' => &M,
        b'D' => &D,
        b'F' => &F,
        b'O' => &O,
        b'S' => &S,
        b'Q' => &Q,
        _ => &[],
    }
}

type Values = &'static [&'static [u8]];

const NO_LETTERS: Values = &[b"", b"HH", b"h", b" H", b"X", b"\0", b"a", b"AA", b"R", b"U", b"K", b"E", b"\xFF", b"1"];
const NO_NUMBERS: Values = &[
    b"",
    b"00",
    b"01",
    b"+1",
    b"-1",
    b"1.0",
    b" 1",
    b"1 ",
    b"1000000000",
    b"0000000001",
    b"4294967297",
    b"18446744073709551617",
    b"x",
    b"1\r",
    b"\0",
    b"1\0",
    b"0x1",
    b"1e3",
    b"1,000",
    b"\xFF",
    b"-0",
    b"1x",
    b"/",
    b":",
    b"1:",
];
const NO_ACCOUNTS: Values = &[b"000001", b"00000001", b"", b"000000x", b"1", b" 000001", b"-000001", b"+000001", b"000001\0", b"99999999"];
const NO_DATE_FORMS: Values =
    &[b"2024011", b"202401170", b"2024-1-1", b"", b"2024011x", b" 2024011", b"020240117", b"20240117\r", b"2024\x00117", b"+2024011", b"2024/1/1"];
const NO_DATES: Values = &[
    b"20230229",
    b"20000001",
    b"20000100",
    b"19991231",
    b"21000101",
    b"00000000",
    b"99999999",
    b"20240230",
    b"20240431",
    b"20241301",
    b"20240132",
    b"20240732",
    b"21000229",
    b"20000230",
    b"20240631",
    b"20240931",
    b"20241131",
    b"20241232",
    b"10000101",
    b"20250229",
    b"20990229",
    b"20240100",
];
const EDGE_DATES: Values = &[b"20000101", b"20991231", b"20240229", b"20000229", b"20960229", b"20230228", b"20240131", b"20240430", b"20241231"];
const UNKNOWN_CODES: Values = &[
    b"", b"ABCF", b"TXOX", b"txo", b"\0TX", b"TX ", b"TX\0", b"G2O", b"AB", b"XXX", b"T", b"TXf", b"1AF", b"A1O", b"\0\0F", b"ABC", b"MTXF", b"TXFO",
    b"MTXX", b"TE\0", b" TX", b"TX\r", b"AaF", b"[AF", b"@AO", b"A[F", b"TXOO", b"F", b"O", b"OO", b"FF", b"2GF", b"ABF ", b"ABFX", b"G2", b"G2FF",
    b"\xFFAF",
];
const CODES: Values = &[
    b"TX", b"MTX", b"TMF", b"TE", b"ZEF", b"TF", b"ZFF", b"TGF", b"UNF", b"SXF", b"GTF", b"G2F", b"TXO", b"TEO", b"TFO", b"TGO", b"TXF", b"TEF",
    b"TFF", b"MTF", b"TMO", b"ZEO", b"RHF", b"CDF", b"CDO", b"AAF", b"ZZO", b"GTO", b"UNO", b"FFF", b"OOO", b"MTO",
];
const NO_STOCKS: Values = &[b"", b"G2", b"A", b"ABC", b"ab", b"A1", b"A ", b"\0A", b"CDF", b"CDO", b"TXO", b"A[", b"@A", b"A\r", b"Cd"];
const STOCKS: Values = &[b"CD", b"TX", b"AA", b"ZZ", b"UN", b"CA", b"RH"];
const NO_IDENTITIES: Values = &[b"", b"a", b"AA", b"\0", b" ", b"@", b"[", b"/", b":", b"z", b"\xFF", b"11", b"`", b"{", b"1\r"];
const NO_NATURES: Values = &[b"", b"X", b"c", b"CC", b"f", b"\0", b"p", b" C", b"C ", b"CP", b"FF", b"0", b"\xFF"];
const NATURES: Values = &[b"C", b"F", b"P"];

/// What number fields hold at the edges of their ranges (first list) and just outside, or off their step (second).
fn number_values(field: Field) -> (Values, Values) {
    match field {
        Strike => (&[b"1", b"100000000", b"0", b"99999999", b"2"], &[b"0", b"1", b"100000001", b"999999999", b"5"]),
        Total => (&[b"0", b"1", b"99999", b"100000"], &[b"100001", b"999999999", b"100002", b"131072"]),
        Kind => (&[b"1", b"2", b"3", b"4", b"5", b"6", b"7", b"8"], &[]),
        Ratio => (&[b"1", b"2", b"4", b"5"], &[]),
        Units => (&[b"1", b"2", b"99999", b"100000"], &[]),
        Clearing => (&[b"0", b"1000", b"100000000", b"99999000"], &[b"1", b"999", b"1001", b"500", b"100001000", b"999999000", b"100000001"]),
        Multiplier => (&[b"1", b"20000", b"19999", b"2000"], &[b"0", b"20001", b"999999999", b"65537"]),
        Amount => (&[b"0", b"1", b"100000000", b"99999999"], &[b"100000001", b"999999999"]),
        Underlying => (&[b"1", b"100000000", b"99999999"], &[b"0", b"100000001", b"999999999"]),
        Rate => (&[b"1000", b"30000", b"2000", b"29000"], &[b"0", b"999", b"1001", b"1500", b"30001", b"31000", b"999999999", b"29999", b"65536000"]),
        CRate => (&[b"0", b"1", b"100000", b"99999"], &[b"100001", b"999999999"]),
        Disposition => (&[b"10", b"15", b"20", b"30"], &[b"0", b"9", b"11", b"14", b"16", b"25", b"31", b"100", b"266", b"999999999", b"1", b"2"]),
        Price => (&[b"0", b"1", b"100000000", b"99999999"], &[b"100000001", b"999999999"]),
        _ => (&[], &[]),
    }
}

fn is_number(field: Field) -> bool {
    !number_values(field).0.is_empty()
}

/// Values of the field that are likely to give this number by themselves.
pub fn wrong_values(field: Field, number: u8) -> Values {
    match (number, field) {
        (1, Letter) => NO_LETTERS,
        (1, Account) => NO_ACCOUNTS,
        (1, Date) => NO_DATE_FORMS,
        (1, field) if is_number(field) => NO_NUMBERS,
        (4, Code) => UNKNOWN_CODES,
        (4, PriceCode) => &[b"TX", b"MTX", b"UNF", b"TGF", b"", b"ABCF", b"txo", b"TXOX", b"AB", b"G2O", b"G2F"],
        (4, ClearingCode) => &[b"MTX", b"TMF", b"ZEF", b"ZFF", b"TXO", b"CDF", b"", b"TXF", b"tx", b"TX ", b"T", b"TXX"],
        (4, OptionCode) => &[b"CDO", b"TX", b"TMO", b"", b"TXOO", b"txo", b"TXF", b"G2O"],
        (4, Stock) => NO_STOCKS,
        (5, Date) => NO_DATES,
        (2, Identity) => NO_IDENTITIES,
        (2, Nature) => NO_NATURES,
        (2, field) => number_values(field).1,
        (6, Ratio) => &[b"0", b"101", b"999999999", b"102", b"256", b"65537"],
        (6, Units) => &[b"0", b"100001", b"999999999", b"100002", b"131073"],
        (10, Kind) => &[b"0", b"9", b"999999999", b"257", b"10", b"65537"],
        (10, Ratio) => &[b"2", b"3", b"5", b"6", b"10", b"100", b"99"],
        _ => &[],
    }
}

/// Sound values of the field, most at an edge. Other fields of the line may still make one of them wrong.
pub fn edge_values(field: Field) -> Values {
    match field {
        Letter => &[b"A", b"H", b"M", b"D", b"F", b"O", b"S", b"Q"],
        Account => &[b"0000000", b"9999999", b"0000001"],
        Identity => &[b"0", b"9", b"A", b"Z"],
        Date => EDGE_DATES,
        Code | PriceCode => CODES,
        ClearingCode => &[b"TX", b"TE", b"TF", b"TGF", b"UNF", b"SXF", b"GTF", b"G2F"],
        OptionCode => &[b"TXO", b"TEO", b"TFO", b"TGO"],
        Stock => STOCKS,
        Nature => NATURES,
        field => number_values(field).0,
    }
}

/// Any value worth trying in the field: sound or wrong, at times one of a field of another sort.
pub fn any_value(rng: &mut Rng, field: Field) -> Vec<u8> {
    let mut lists = vec![edge_values(field)];
    for number in [1, 4, 5, 2, 6, 10] {
        let list = wrong_values(field, number);
        if !list.is_empty() {
            lists.push(list);
        }
    }
    if rng.chance(1, 12) {
        lists = vec![NO_NUMBERS, NO_DATE_FORMS, UNKNOWN_CODES, CODES, EDGE_DATES, NATURES, NO_NATURES];
    }
    let list = *rng.pick(&lists);
    rng.pick(list).to_vec()
}

/// A text as lines without their LF. Bytes after the last LF are one more line.
pub fn lines_of(text: &[u8]) -> Vec<Vec<u8>> {
    let mut lines: Vec<Vec<u8>> = text.split(|byte| *byte == b'\n').map(<[u8]>::to_vec).collect();
    if lines.last().is_some_and(Vec::is_empty) {
        lines.pop();
    }
    lines
}

/// Lines, each ended by LF.
pub fn text_of(lines: &[Vec<u8>]) -> Vec<u8> {
    let mut text = Vec::new();
    for line in lines {
        text.extend_from_slice(line);
        text.push(b'\n');
    }
    text
}

pub fn split_line(line: &[u8]) -> Vec<Vec<u8>> {
    line.split(|byte| *byte == b'\t').map(<[u8]>::to_vec).collect()
}

pub fn join_line(fields: &[Vec<u8>]) -> Vec<u8> {
    fields.join(&b'\t')
}
