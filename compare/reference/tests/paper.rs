//! The cases that document 01, and the examples of 003 and 004, write out. Texts are written with spaces for tabs.

use engine::{Engine, Printed, Verdict, WORDS};
use reference::rates::{fixed_margins, stock_rates};
use reference::Reference;

const BOOK: &str = "\
A 0000007 1 20190930
H TXO 20191016 C 10200000 0 1
H TXO 20191016 P 10200000 0 1
M 4 TXO 20191016 C 10200000 TXO 20191016 P 10200000 1 1 1
";

const SHEET: &str = "\
D 20190930
O TXO 50 17000 18000 23000 9000 10000 12000 1800 1900 2400 10873000
Q TXO 20191016 C 10200000 590000
Q TXO 20191016 P 10200000 98000
";

fn tabs(text: &str) -> Vec<u8> {
    text.replace(' ', "\t").into_bytes()
}

fn margin(book: &str, sheet: &str) -> String {
    let mut out = [0; 96];
    let length = Reference.margin(&tabs(book), &tabs(sheet), 2, &mut out).length;
    String::from_utf8_lossy(&out[..length]).replace('\t', " ")
}

fn read(text: &str) -> (u8, u32) {
    let Verdict { number, line } = Reference.read(&tabs(text));
    (number, line)
}

fn check(text: &str) -> (u8, u32) {
    let Verdict { number, line } = Reference.check(&tabs(text));
    (number, line)
}

/// The margin of a book of 20240102 with these H and M lines, by a sheet with these lines.
fn amounts(book: &str, sheet: &str) -> String {
    let answer = margin(
        &format!("A 0000001 1 20240102\n{book}"),
        &format!("D 20240102\n{sheet}"),
    );
    match answer.strip_prefix("R 0000001 20240102 ") {
        Some(amounts) => amounts.trim_end().to_string(),
        None => answer,
    }
}

/// Words of a series in a script.
fn series(code: &[u8; 3], date: u32, nature: u32, strike: u32) -> [u32; 4] {
    let [first, second, third] = *code;
    let code = u32::from_be_bytes([0, first, second, third]);
    [code, date, nature, strike]
}

/// Words of one call.
fn call(number: u32, first: [u32; 4], second: [u32; 4], rest: [u32; 4]) -> Vec<u32> {
    [&[number][..], &first, &second, &rest].concat()
}

/// The numbers that the calls give, and the book that results.
fn run(book: &str, calls: &[Vec<u32>]) -> (Vec<u8>, String) {
    let words = calls.concat();
    assert_eq!(words.len(), calls.len() * WORDS);
    let mut numbers = vec![255; calls.len()];
    let mut out = [0; 16_384];
    let length = Reference.run(&tabs(book), &words, &mut numbers, &mut out).length;
    let text = String::from_utf8_lossy(&out[..length]).replace('\t', " ");
    (numbers, text)
}

#[test]
fn sample_book_and_sheet() {
    assert_eq!(
        margin(BOOK, SHEET),
        "R 0000007 20190930 53200 54300 59800\n"
    );
    assert_eq!(margin("", SHEET), "X 1 0\n");
    assert_eq!(margin(BOOK, ""), "X 1 0\n");
    assert_eq!(margin(BOOK, "D 20191001\n"), "X 13 0\n");
    assert_eq!(margin(BOOK, "D 20190930\n"), "X 14 0\n");
}

#[test]
fn print_gives_the_text_again() {
    let text = tabs(BOOK);
    let answer = |number, length| Printed {
        number,
        line: 0,
        length,
    };
    let mut out = vec![7; text.len() + 1];
    assert_eq!(Reference.print(&text, 3, &mut out), answer(0, text.len()));
    assert_eq!(out[..text.len()], text);
    assert_eq!(out[text.len()], 7);
    let mut exact = vec![7; text.len()];
    assert_eq!(Reference.print(&text, 1, &mut exact), answer(0, text.len()));
    assert_eq!(exact, text);
    let mut short = vec![7; text.len() - 1];
    assert_eq!(Reference.print(&text, 1, &mut short), answer(15, 0));
    assert_eq!(short, vec![7; text.len() - 1]);
}

#[test]
fn fixed_futures() {
    assert_eq!(fixed_margins(136_000), [136_000, 141_000, 184_000]);
    assert_eq!(fixed_margins(200_000), [200_000, 207_000, 270_000]);
    let book = "H MTX 20240117 F 0 1 0\n";
    assert_eq!(amounts(book, "F TX 136000\n"), "34000 35250 46000");
}

#[test]
fn stock_rates_of_003() {
    let cases = [
        (10_000, 10, [10_000, 10_350, 13_500]),
        (12_000, 10, [12_000, 12_420, 16_200]),
        (15_000, 10, [15_000, 15_530, 20_250]),
        (10_000, 15, [15_000, 15_530, 20_250]),
        (12_000, 15, [18_000, 18_630, 24_300]),
        (10_000, 20, [20_000, 20_700, 27_000]),
        (12_000, 20, [24_000, 24_840, 32_400]),
        (10_000, 30, [30_000, 31_050, 40_500]),
        (12_000, 30, [36_000, 37_260, 48_600]),
        (15_000, 15, [22_500, 23_290, 30_380]),
    ];
    for (clearing, disposition, rates) in cases {
        assert_eq!(stock_rates(clearing, disposition), rates);
    }
}

#[test]
fn stock_future() {
    let book = "H CCF 20240117 F 0 0 1\n";
    let sheet =
        |price| format!("S CC 2000 10000 10000 0 0 0 10 50000\nQ CCF 20240117 F 0 {price}\n");
    assert_eq!(amounts(book, &sheet(50_050)), "10010 10360 13514");
    assert_eq!(amounts(book, &sheet(50_100)), "10020 10371 13527");
}

#[test]
fn credit_vertical() {
    let book = "\
H TXO 20240117 C 21000000 0 1
H TXO 20240117 C 21200000 1 0
M 2 TXO 20240117 C 21200000 TXO 20240117 C 21000000 1 1 1
";
    let sheet = "O TXO 50 1 1 1 1 1 1 1 1 1 21000000\n";
    assert_eq!(amounts(book, sheet), "10000 10000 10000");
    assert_eq!(amounts(book, ""), "X 14 0\n");
}

#[test]
fn time_spread() {
    let book = "\
H TXO 20240117 C 21000000 0 1
H TXO 20240221 C 21000000 1 0
M 3 TXO 20240221 C 21000000 TXO 20240117 C 21000000 1 1 1
";
    let sheet = |price| {
        format!(
            "F TX 136000\nO TXO 50 1 1 1 1 1 1 1 1 1 21000000\n\
             Q TXO 20240117 C 21000000 100000\nQ TXO 20240221 C 21000000 {price}\n"
        )
    };
    assert_eq!(amounts(book, &sheet(160_000)), "13600 13600 13600");
    assert_eq!(amounts(book, &sheet(236_100)), "13610 13610 13610");
}

#[test]
fn example_2_of_004() {
    let call = "H CCO 20240117 C 14000 0 1\n";
    let put = "H CCO 20240117 P 14000 0 1\n";
    let pair = "M 4 CCO 20240117 C 14000 CCO 20240117 P 14000 1 1 1\n";
    let sheet = "\
S CC 2000 10000 10000 500 518 675 10 13800
Q CCO 20240117 C 14000 940
Q CCO 20240117 P 14000 1080
";
    let initial = |book: &str| amounts(book, sheet).rsplit(' ').next().map(str::to_string);
    assert_eq!(initial(call).as_deref(), Some("5206"));
    assert_eq!(initial(put).as_deref(), Some("5886"));
    assert_eq!(
        initial(&format!("{call}{put}{pair}")).as_deref(),
        Some("7952")
    );
}

#[test]
fn dates() {
    assert_eq!(read("A 0000001 1 20240229\n"), (0, 0));
    assert_eq!(read("A 0000001 1 20230229\n"), (5, 1));
    assert_eq!(check("D 20240229\n"), (0, 0));
    assert_eq!(check("D 20230229\n"), (5, 1));
}

#[test]
fn ratios_and_no_lots() {
    let future = series(b"TX\0", 20240117, 0, 0);
    let option = series(b"TXO", 20240117, 1, 21_000_000);
    let book = "A 0000001 1 20240102\nH TX 20240117 F 0 1 0\nH TXO 20240117 C 21000000 0 5\n";
    let (numbers, text) = run(
        book,
        &[
            call(3, future, option, [5, 1, 5, 1]),
            call(1, future, option, [0, 0, 0, 0]),
            call(3, future, option, [5, 1, 4, 1]),
            call(2, future, option, [0, 0, 0, 1]),
        ],
    );
    assert_eq!(numbers, [10, 6, 0, 9]);
    let pair = "M 5 TX 20240117 F 0 TXO 20240117 C 21000000 1 4 1\n";
    assert_eq!(text, format!("{book}{pair}"));
}

#[test]
fn calls_make_and_unmake_a_book() {
    let long = series(b"TXO", 20240117, 1, 21_000_000);
    let short = series(b"TXO", 20240117, 1, 21_200_000);
    let none = [u32::MAX; 4];
    let empty = "A 0000000 0 20000101\n";
    let (numbers, text) = run(
        empty,
        &[
            call(0, none, none, [7, u32::from(b'a'), 20240132, 0]),
            call(0, none, none, [7, u32::from(b'1'), 20240132, 0]),
            call(0, none, none, [7, u32::from(b'1'), 20240102, 0]),
            call(1, long, none, [0, 0, 0, 100_000]),
            call(1, long, none, [0, 0, 0, 1]),
            call(1, short, none, [1, 0, 0, u32::MAX]),
            call(1, short, none, [1, 0, 0, 3]),
            call(1, none, none, [1, 0, 0, 3]),
            call(3, long, short, [1, 1, 1, u32::MAX]),
            call(3, long, short, [2, 1, 1, 1]),
            call(3, long, short, [1, 1, 1, 2]),
            call(3, long, short, [1, 1, 1, 2]),
            call(3, long, short, [1, 1, 1, 1]),
            call(4, long, short, [1, 1, 1, 4]),
            call(4, long, short, [9, 1, 1, 1]),
            call(2, short, none, [1, 0, 0, 1]),
            call(4, long, short, [1, 1, 1, 3]),
            call(2, short, none, [1, 0, 0, 3]),
            call(5, none, none, [0, 0, 20240102, 0]),
            call(5, none, none, [0, 0, 20240100, 0]),
            call(5, none, none, [0, 0, 20240103, 0]),
        ],
    );
    assert_eq!(
        numbers,
        [2, 5, 0, 0, 7, 6, 0, 4, 6, 10, 0, 9, 0, 12, 12, 9, 0, 0, 13, 5, 0]
    );
    assert_eq!(
        text,
        "A 0000007 1 20240103\nH TXO 20240117 C 21000000 100000 0\n"
    );
    let refused = [call(0, none, none, [10_000_000, 0, 0, 0])];
    assert_eq!(run(BOOK, &refused), (vec![2], empty.to_string()));
}

#[test]
fn numbers_and_lines_of_texts() {
    let a = "A 0000001 1 20240102\n";
    let book = |lines: &str| read(&format!("{a}{lines}"));
    assert_eq!(read(""), (1, 0));
    assert_eq!(read("\n"), (1, 1));
    assert_eq!(read(a.trim_end()), (1, 1));
    assert_eq!(read(&"x".repeat(16_384)), (1, 1));
    assert_eq!(read(&"x".repeat(16_385)), (2, 0));
    assert_eq!(book(a), (3, 2));
    assert_eq!(book("A 0000001 a 20240102\n"), (2, 2));
    assert_eq!(book("D 20240102\n"), (1, 2));
    assert_eq!(book("H TX 20240117 F 5 1 0\n"), (2, 2));
    assert_eq!(book("H TX 20240117 F 0 0 0\n"), (2, 2));
    assert_eq!(book("H TX 20240117 F 0 01 0\n"), (1, 2));
    assert_eq!(
        book("M 1 TXO 20240132 C 1 XXX 20240117 C 2 1 1 1\n"),
        (4, 2)
    );
    assert_eq!(
        book("M 9 TXO 20240117 C 1 TXO 20240117 C 2 1 1 0\n"),
        (6, 2)
    );
    assert_eq!(
        book("M 1 TXO 20240117 C 1 TXO 20240117 C 2 1 1 1\n"),
        (9, 2)
    );

    let quotes: String = (1..=1_023)
        .map(|strike| format!("Q TXO 20240117 C {strike} 0\n"))
        .collect();
    let sheet = format!("D 20240102\n{quotes}");
    assert_eq!(check(&sheet), (0, 0));
    assert_eq!(check(&format!("{sheet}\n")), (2, 1_025));
    assert_eq!(check(&format!("{sheet}x")), (2, 1_025));
    assert_eq!(check(&sheet.replace(" 7 0", " 7 x")), (1, 8));
    assert_eq!(check("D 20240102\nF TX 1000\nF TE 1000\n"), (3, 3));
    assert_eq!(check("D 20240102\nF MTX 1000\n"), (4, 2));
    assert_eq!(check("D 20240102\nF TX 1500\n"), (2, 2));
    assert_eq!(check("D 20240102\nQ TX 20240132 F 0 1\n"), (4, 2));
}
