//! Times the implementations on the same inputs in one run: ours, the one in Rust, and that one testing each book that it is handed, as ours does.
//!
//! `bench` prints Markdown tables; `bench quick` takes fewer rounds; `bench inputs DIR` writes the full book and the full sheet as files;
//! `bench one MEASURE ENGINE COUNT` runs one measure on one engine that many times (for a profiler); `bench list` names the measures.

use driver::clock;
use driver::full;
use driver::paper::{Book, SHEET_LINES};
use engine::{Engine, WORDS};
use std::hint::black_box;
use std::time::Duration;

const CALLS: usize = 100_000;

/// What is timed: one run of it makes `operations` operations. Where no book is handed in, the two engines in Rust are the same.
struct Measure {
    name: &'static str,
    what: String,
    operations: u32,
    hands_book: bool,
    run: Box<dyn Fn(&dyn Engine)>,
}

type Engines = [Box<dyn Engine>; 3];

fn engines() -> Engines {
    [Box::new(ours::Ours), Box::new(reference::Reference), Box::new(reference::Testing)]
}

impl Measure {
    /// The engines that it tells apart.
    fn engines<'a>(&self, all: &'a Engines) -> &'a [Box<dyn Engine>] {
        if self.hands_book {
            all
        } else {
            &all[..2]
        }
    }
}

/// The texts that measures share, and how often printing and margining are repeated so that reading is a small part.
struct Inputs {
    full_book: Vec<u8>,
    small_book: Vec<u8>,
    full_sheet: Vec<u8>,
    sheet_100: Vec<u8>,
    sheet_125: Vec<u8>,
    sheet_1000: Vec<u8>,
    script_book: Vec<u8>,
    script: Vec<u32>,
}

fn inputs() -> Inputs {
    let (full, small) = (full::full_book(), full::small_book());
    let sheet = |book: &Book, lines| full::sheet_of(book, lines).text();
    let (script_book, script) = full::long_script(CALLS);
    Inputs {
        full_sheet: sheet(&full, SHEET_LINES),
        sheet_100: sheet(&small, 100),
        sheet_125: sheet(&full, 125),
        sheet_1000: sheet(&full, 1_000),
        full_book: full.text(),
        small_book: small.text(),
        script_book: script_book.text(),
        script,
    }
}

fn read(name: &'static str, what: &str, book: &[u8]) -> Measure {
    let book = book.to_vec();
    let run = Box::new(move |engine: &dyn Engine| {
        black_box(engine.read(black_box(&book)));
    });
    Measure { name, what: what.to_string(), operations: 1, hands_book: false, run }
}

fn print(name: &'static str, what: &str, book: &[u8], times: u32) -> Measure {
    let book = book.to_vec();
    let run = Box::new(move |engine: &dyn Engine| {
        let mut out = [0; 16_384];
        black_box(engine.print(black_box(&book), times, &mut out));
    });
    Measure { name, what: what.to_string(), operations: times, hands_book: true, run }
}

fn check(name: &'static str, what: &str, sheet: &[u8]) -> Measure {
    let sheet = sheet.to_vec();
    let run = Box::new(move |engine: &dyn Engine| {
        black_box(engine.check(black_box(&sheet)));
    });
    Measure { name, what: what.to_string(), operations: 1, hands_book: false, run }
}

fn margin(name: &'static str, what: &str, book: &[u8], sheet: &[u8], times: u32) -> Measure {
    let (book, sheet) = (book.to_vec(), sheet.to_vec());
    let run = Box::new(move |engine: &dyn Engine| {
        let mut out = [0; 96];
        black_box(engine.margin(black_box(&book), black_box(&sheet), times, &mut out));
    });
    Measure { name, what: what.to_string(), operations: times, hands_book: true, run }
}

fn calls(name: &'static str, what: &str, book: &[u8], script: &[u32]) -> Measure {
    let (book, script) = (book.to_vec(), script.to_vec());
    let operations = (script.len() / WORDS) as u32;
    let run = Box::new(move |engine: &dyn Engine| {
        let mut numbers = vec![0; script.len() / WORDS];
        let mut out = [0; 16_384];
        black_box(engine.run(black_box(&book), black_box(&script), &mut numbers, &mut out));
    });
    Measure { name, what: what.to_string(), operations, hands_book: true, run }
}

/// The six measures of full inputs. `prints` and `margins` are how often one run repeats those.
fn main_measures(inputs: &Inputs, prints: u32, margins: u32) -> Vec<Measure> {
    vec![
        read("read", "read a full book", &inputs.full_book),
        print("print", "print a full book", &inputs.full_book, prints),
        check("check", "check a full sheet (1,024 lines)", &inputs.full_sheet),
        margin("margin", "margin of the full book on the full sheet, from text", &inputs.full_book, &inputs.full_sheet, 1),
        margin("margin-read", "margin of the full book on the full sheet, both already read", &inputs.full_book, &inputs.full_sheet, margins),
        calls("calls", "one call of 100,000 (open, pair, close, split, turn)", &inputs.script_book, &inputs.script),
    ]
}

/// How cost grows with the sheet's lines and the book's rows.
fn growth_measures(inputs: &Inputs, margins: u32) -> Vec<Measure> {
    let (small, full) = (&inputs.small_book, &inputs.full_book);
    vec![
        check("check-100", "check a sheet of 100 lines", &inputs.sheet_100),
        check("check-1000", "check a sheet of 1,000 lines", &inputs.sheet_1000),
        margin("text-12", "margin from text, 12 holdings and 12 pairs, 1,000 lines", small, &inputs.sheet_1000, 1),
        margin("text-128", "margin from text, 128 holdings and 128 pairs, 1,000 lines", full, &inputs.sheet_1000, 1),
        margin("read-12-100", "margin on read texts, 12 and 12, 100 lines", small, &inputs.sheet_100, 8 * margins),
        margin("read-12-1000", "margin on read texts, 12 and 12, 1,000 lines", small, &inputs.sheet_1000, 8 * margins),
        margin("read-128-125", "margin on read texts, 128 and 128, 125 lines", full, &inputs.sheet_125, margins),
        margin("read-128-1000", "margin on read texts, 128 and 128, 1,000 lines", full, &inputs.sheet_1000, margins),
    ]
}

/// Which growth measures are set against each other, and by how much their input grows.
const GROWTH: [(&str, &str, &str); 5] = [
    ("check-100", "check-1000", "check: lines x 10"),
    ("text-12", "text-128", "margin from text: rows x 10.7"),
    ("read-12-100", "read-12-1000", "margin on read texts, 12 rows: lines x 10"),
    ("read-128-125", "read-128-1000", "margin on read texts, 128 rows: lines x 8"),
    ("read-12-1000", "read-128-1000", "margin on read texts, 1,000 lines: rows x 10.7"),
];

fn time(measure: &Measure, engine: &dyn Engine, runs: u32) -> Duration {
    let start = clock::now();
    for _ in 0..runs {
        (measure.run)(engine);
    }
    clock::now() - start
}

/// Nanoseconds of one operation.
fn per_operation(measure: &Measure, taken: Duration, runs: u32) -> f64 {
    taken.as_nanos() as f64 / runs as f64 / measure.operations as f64
}

/// How many runs make a sample that the clock measures well.
fn runs_of(measure: &Measure, engine: &dyn Engine, least: Duration) -> u32 {
    let mut runs = 1;
    while time(measure, engine, runs) < least && runs < 1 << 20 {
        runs *= 2;
    }
    runs
}

/// Nanoseconds per operation of one engine: sorted samples.
struct Times(Vec<f64>);

impl Times {
    fn part(&self, part: f64) -> f64 {
        let place = (part * (self.0.len() - 1) as f64).round() as usize;
        self.0[place]
    }

    fn median(&self) -> f64 {
        self.part(0.5)
    }
}

/// Samples of the engines, taken in turn, the first to go changing from round to round.
fn sample(measure: &Measure, engines: &[Box<dyn Engine>], rounds: usize, least: Duration) -> Vec<Times> {
    let runs: Vec<u32> = engines.iter().map(|engine| runs_of(measure, &**engine, least)).collect();
    let mut samples = vec![Vec::new(); engines.len()];
    for round in 0..rounds {
        for turn in 0..engines.len() {
            let which = (round + turn) % engines.len();
            let taken = time(measure, &*engines[which], runs[which]);
            samples[which].push(per_operation(measure, taken, runs[which]));
        }
    }
    for list in &mut samples {
        list.sort_by(f64::total_cmp);
    }
    samples.into_iter().map(Times).collect()
}

/// Enough repeats in one run that reading once is below one percent of it, for all engines.
fn repeats(engines: &Engines, make: &dyn Fn(u32) -> Measure) -> u32 {
    let mut times = 1_000;
    let once = make(1);
    let firsts: Vec<f64> = engines.iter().map(|engine| shortest(&once, &**engine)).collect();
    while times < 1_000_000 {
        let many = make(times);
        let low = engines.iter().zip(&firsts).all(|(engine, first)| first * 125.0 < shortest(&many, &**engine));
        if low {
            break;
        }
        times *= 2;
    }
    times
}

/// The shortest of a few runs, in nanoseconds.
fn shortest(measure: &Measure, engine: &dyn Engine) -> f64 {
    (0..5).map(|_| time(measure, engine, 1).as_nanos() as f64).fold(f64::INFINITY, f64::min)
}

/// A duration in nanoseconds with a fitting unit.
fn shown(nanoseconds: f64) -> String {
    if nanoseconds < 1_000.0 {
        format!("{nanoseconds:.1} ns")
    } else if nanoseconds < 1_000_000.0 {
        format!("{:.2} us", nanoseconds / 1_000.0)
    } else {
        format!("{:.2} ms", nanoseconds / 1_000_000.0)
    }
}

/// A measure and the samples of the engines that it tells apart.
type Row = (Measure, Vec<Times>);

/// What a cell of the engine that tests says where it is the same as the one before.
const SAME: &str = "the same";

fn print_head(engines: &Engines) {
    let [ours, rust, testing] = engines.each_ref().map(|engine| engine.name());
    println!("| per operation, median | {ours} | {rust} | {testing} | {ours} / {rust} | {ours} / ({testing}) |");
    println!("|---|---|---|---|---|---|");
}

fn print_row((measure, times): &Row) {
    let median = |which: usize| times.get(which).map(Times::median);
    let cell = |which: usize| median(which).map_or(SAME.to_string(), shown);
    let ratio = |which: usize| median(0).zip(median(which)).map_or(SAME.to_string(), |(ours, theirs)| format!("{:.2}", ours / theirs));
    println!("| {} | {} | {} | {} | {} | {} |", measure.what, cell(0), cell(1), cell(2), ratio(1), ratio(2));
}

fn print_spread(engines: &Engines, all: &[Row]) {
    let [ours, rust, testing] = engines.each_ref().map(|engine| engine.name());
    println!("\n| least; 10 % .. 90 % | {ours} | {rust} | {testing} |");
    println!("|---|---|---|---|");
    for (measure, times) in all {
        let spread = |t: &Times| format!("{}; {} .. {}", shown(t.part(0.0)), shown(t.part(0.1)), shown(t.part(0.9)));
        let cell = |which: usize| times.get(which).map_or(SAME.to_string(), spread);
        println!("| {} | {} | {} | {} |", measure.what, cell(0), cell(1), cell(2));
    }
}

/// The widest spread seen, as a part of the median.
fn noise(all: &[Row]) -> f64 {
    let spread = |times: &Times| (times.part(0.9) - times.part(0.1)) / times.median();
    all.iter().flat_map(|(_, times)| times.iter()).map(spread).fold(0.0, f64::max)
}

fn print_growth(engines: &Engines, all: &[Row]) {
    let [ours, rust, testing] = engines.each_ref().map(|engine| engine.name());
    println!("\n| growth | {ours} | {rust} | {testing} |");
    println!("|---|---|---|---|");
    let median = |name: &str, which: usize| all.iter().find(|(measure, _)| measure.name == name)?.1.get(which).map(Times::median);
    for (from, to, what) in GROWTH {
        let cell = |which: usize| median(from, which).zip(median(to, which)).map_or(SAME.to_string(), |(from, to)| format!("x {:.2}", to / from));
        println!("| {what} | {} | {} | {} |", cell(0), cell(1), cell(2));
    }
}

/// The same questions must have the same answers before their times are worth anything.
fn answers(engine: &dyn Engine, inputs: &Inputs) -> (Vec<String>, usize) {
    let mut out = vec![0; 16_384];
    let mut list = vec![format!("{:?}", engine.read(&inputs.full_book)), format!("{:?}", engine.print(&inputs.full_book, 1, &mut out))];
    for sheet in [&inputs.full_sheet, &inputs.sheet_100, &inputs.sheet_125, &inputs.sheet_1000] {
        list.push(format!("{:?}", engine.check(sheet)));
    }
    let pairs = [
        (&inputs.full_book, &inputs.full_sheet),
        (&inputs.full_book, &inputs.sheet_1000),
        (&inputs.full_book, &inputs.sheet_125),
        (&inputs.small_book, &inputs.sheet_1000),
        (&inputs.small_book, &inputs.sheet_100),
    ];
    for (book, sheet) in pairs {
        let length = engine.margin(book, sheet, 1, &mut out).length;
        list.push(String::from_utf8_lossy(&out[..length]).trim_end().replace('\t', " "));
    }
    let mut numbers = vec![0; CALLS];
    let length = engine.run(&inputs.script_book, &inputs.script, &mut numbers, &mut out).length;
    list.push(String::from_utf8_lossy(&out[..length]).replace('\t', " "));
    (list, numbers.iter().filter(|number| **number == 0).count())
}

fn print_answers(engines: &Engines, inputs: &Inputs) {
    let (ours, accepted) = answers(&*engines[0], inputs);
    for engine in &engines[1..] {
        let (theirs, _) = answers(&**engine, inputs);
        for (one, other) in ours.iter().zip(&theirs).filter(|(one, other)| one != other) {
            println!("ANSWERS DIFFER: {} says {one}\n{} says {other}", engines[0].name(), engine.name());
        }
    }
    let rows = |text: &str, letter: char| text.lines().filter(|line| line.starts_with(letter)).count();
    println!("Answers to the full inputs: {}.", ours[..ours.len() - 1].join("; "));
    let last = &ours[ours.len() - 1];
    println!("Of the 100,000 calls {accepted} are accepted; the book ends with {} holdings and {} pairs.", rows(last, 'H'), rows(last, 'M'));
}

fn bench(quick: bool) {
    let engines = engines();
    let inputs = inputs();
    print_answers(&engines, &inputs);
    let prints = repeats(&engines, &|times| print("print", "", &inputs.full_book, times));
    let margins = repeats(&engines, &|times| margin("margin-read", "", &inputs.full_book, &inputs.full_sheet, times));
    println!("In one run a book is printed {prints} times and a margin worked {margins} times, so that reading is below one percent of it.");
    let (rounds, least) = if quick { (9, Duration::from_millis(3)) } else { (61, Duration::from_millis(10)) };
    println!("{rounds} rounds, the engines in turn, the first to go changing each round; a sample takes at least {} ms.", least.as_millis());
    println!("Times are processor time of the one thread. \"{}\" tests the whole book at every print, margin and call.\n", engines[2].name());
    let mut all: Vec<Row> = Vec::new();
    print_head(&engines);
    for measure in main_measures(&inputs, prints, margins).into_iter().chain(growth_measures(&inputs, margins)) {
        let times = sample(&measure, measure.engines(&engines), rounds, least);
        let row = (measure, times);
        print_row(&row);
        all.push(row);
    }
    print_spread(&engines, &all);
    print_growth(&engines, &all);
    println!("\nNoise: the widest span from the 10th to the 90th percentile is {:.0} % of its median.", 100.0 * noise(&all));
}

fn write_inputs(directory: &str) -> std::io::Result<()> {
    std::fs::create_dir_all(directory)?;
    let inputs = inputs();
    let files = [
        ("book", &inputs.full_book),
        ("sheet", &inputs.full_sheet),
        ("book-12", &inputs.small_book),
        ("sheet-100", &inputs.sheet_100),
        ("sheet-125", &inputs.sheet_125),
        ("sheet-1000", &inputs.sheet_1000),
        ("script-book", &inputs.script_book),
    ];
    for (name, text) in files {
        std::fs::write(format!("{directory}/{name}"), text)?;
        println!("{name}: {} bytes, {} lines", text.len(), text.iter().filter(|byte| **byte == b'\n').count());
    }
    Ok(())
}

/// Runs one measure alone; print and margin on read texts are repeated 1,000 times in each run.
fn one(name: &str, engine: &str, count: u32) -> bool {
    let inputs = inputs();
    let list = main_measures(&inputs, 1_000, 1_000).into_iter().chain(growth_measures(&inputs, 125));
    let engines = engines();
    let (Some(measure), Some(engine)) = (list.into_iter().find(|m| m.name == name), engines.iter().find(|e| e.name() == engine)) else {
        return false;
    };
    let taken = time(&measure, &**engine, count);
    println!("{} on {}: {} per operation", measure.what, engine.name(), shown(per_operation(&measure, taken, count.max(1))));
    true
}

fn list_measures() {
    let inputs = inputs();
    println!("engines: {}", engines().map(|engine| engine.name()).join("; "));
    for measure in main_measures(&inputs, 1, 1).iter().chain(&growth_measures(&inputs, 1)) {
        println!("{}: {}", measure.name, measure.what);
    }
}

fn main() {
    let arguments: Vec<String> = std::env::args().skip(1).collect();
    let words: Vec<&str> = arguments.iter().map(String::as_str).collect();
    let done = match words[..] {
        [] => {
            bench(false);
            true
        }
        ["quick"] => {
            bench(true);
            true
        }
        ["list"] => {
            list_measures();
            true
        }
        ["inputs", directory] => write_inputs(directory).is_ok(),
        ["one", name, engine, count] => count.parse().is_ok_and(|count| one(name, engine, count)),
        _ => false,
    };
    if !done {
        eprintln!("usage: bench [quick | list | inputs DIR | one MEASURE ENGINE COUNT]");
        std::process::exit(2);
    }
}
