//! Compares the proved functions with plain versions of the same, on the same sheets. See README.md.

mod listing;
mod proved;
mod queue;
mod reader;
mod resolver;
mod sheets;
mod table;
mod vocabulary;

use listing::{counts, Counts};
use sheets::{Dice, Sort, SORTS};
use std::hint::black_box;
use std::io::{Read, Write};
use std::process::{Command, ExitCode};
use std::time::Instant;

const SEED: u64 = 1;
const SIZES: [usize; 3] = [4_000, 15_000, 60_000];
const TOKENS: [usize; 3] = [100, 300, 1_000];

type Work = fn(&[u8]) -> u64;

/// A layer's work in two versions, which answer the same number for each text. A proved one may still be missing.
struct Layer {
    name: &'static str,
    proved: Option<Work>,
    plain: Work,
}

// A layer that is added gets a line here, a module with its plain version and a function in `proved`.
const READ: Layer = Layer { name: "read", proved: Some(proved::read), plain: reader::read };
const RESOLVE: Layer = Layer { name: "resolve", proved: proved::RESOLVE, plain: resolver::resolve };
const LAYERS: [Layer; 2] = [READ, RESOLVE];

#[derive(Clone, Copy)]
enum Version {
    Proved,
    Plain,
}

impl Version {
    fn name(self) -> &'static str {
        match self {
            Version::Proved => "proved",
            Version::Plain => "plain",
        }
    }
}

impl Layer {
    fn work(&self, version: Version) -> Option<Work> {
        match version {
            Version::Proved => self.proved,
            Version::Plain => Some(self.plain),
        }
    }

    /// Whether both versions answer the same, if there are two.
    fn agrees(&self, text: &[u8]) -> bool {
        self.proved.is_none_or(|proved| proved(text) == (self.plain)(text))
    }
}

fn main() -> ExitCode {
    let words: Vec<String> = std::env::args().skip(1).collect();
    let words: Vec<&str> = words.iter().map(String::as_str).collect();
    match words[..] {
        [] => compare(),
        ["plain-resolve"] => plain_resolve(),
        ["agree", count] => agree(count.parse().expect("a number of sheets")),
        ["sheet", sort, bytes] => print(&named(sort, bytes)),
        ["tokens"] => print(listing::tokens(&standard_input()).as_bytes()),
        ["once", layer, version, sort, bytes, times] => once(layer, version, sort, bytes, times),
        _ => {
            eprintln!("bench [plain-resolve | agree COUNT | sheet SORT BYTES | tokens]");
            ExitCode::FAILURE
        }
    }
}

fn print(bytes: &[u8]) -> ExitCode {
    std::io::stdout().write_all(bytes).expect("all is written");
    ExitCode::SUCCESS
}

fn standard_input() -> Vec<u8> {
    let mut text = Vec::new();
    std::io::stdin().read_to_end(&mut text).expect("a sheet");
    text
}

/// A sheet that is made again from its sort and the number of bytes that it may have.
struct Sheet {
    name: &'static str,
    bytes: usize,
    text: Vec<u8>,
}

impl Sheet {
    fn of(sort: Sort, name: &'static str, bytes: usize) -> Sheet {
        Sheet { name, bytes, text: made(sort, bytes) }
    }

    /// Of the sheets of all sizes that are resolved with nothing refused, the one nearest to so many tokens.
    fn with_tokens(sort: Sort, name: &'static str, tokens: usize) -> (Sheet, Counts) {
        const STEP: usize = 10;
        const BYTES_A_TOKEN: usize = 10;
        (0..tokens * BYTES_A_TOKEN)
            .step_by(STEP)
            .map(|bytes| Sheet::of(sort, name, bytes))
            .filter_map(|sheet| counts(&sheet.text).map(|counts| (sheet, counts)))
            .min_by_key(|(_, counts)| counts.tokens.abs_diff(tokens))
            .expect("an empty sheet has two tokens")
    }
}

fn made(sort: Sort, bytes: usize) -> Vec<u8> {
    sheets::sheet(sort, bytes, &mut Dice::new(SEED))
}

fn named(sort: &str, bytes: &str) -> Vec<u8> {
    let (sort, _) = SORTS.into_iter().find(|(_, name)| *name == sort).expect("a sort of sheets");
    made(sort, bytes.parse().expect("a number of bytes"))
}

/// Both versions of each layer on each sheet, a line for each.
fn compare() -> ExitCode {
    if compare_reading() && compare_resolving() {
        ExitCode::SUCCESS
    } else {
        ExitCode::FAILURE
    }
}

fn compare_reading() -> bool {
    println!("                            nanoseconds a byte      instructions a byte");
    println!("layer    sheet     bytes    proved  plain  ratio    proved  plain  ratio");
    for (sort, name) in SORTS {
        for bytes in SIZES {
            let sheet = Sheet::of(sort, name, bytes);
            if !told_to_agree(&READ, &sheet) {
                return false;
            }
            let length = sheet.text.len();
            print!("{:<8} {name:<8} {length:>6}", READ.name);
            Figures::of(|version| nanoseconds(&READ, version, &sheet)).print_each(length);
            Figures::of(|version| instructions(&READ, version, &sheet)).print_each(length);
            println!();
        }
    }
    true
}

/// What resolving takes beyond reading, for a lexeme and for a token.
fn compare_resolving() -> bool {
    const GAP: &str = "                                 ";
    println!("\n{GAP} nanoseconds a lexeme    instructions a lexeme   instructions a token");
    println!("layer    sheet    lexemes tokens{}", "    proved  plain  ratio".repeat(3));
    for (sort, name) in SORTS {
        for tokens in TOKENS {
            let (sheet, counts) = Sheet::with_tokens(sort, name, tokens);
            if !told_to_agree(&RESOLVE, &sheet) {
                return false;
            }
            print!("{:<8} {name:<8} {:>7} {:>6}", RESOLVE.name, counts.lexemes, counts.tokens);
            let time = Figures::of(|version| beyond_reading(|layer| nanoseconds(layer, version, &sheet)));
            time.print_each(counts.lexemes);
            let taken = Figures::of(|version| beyond_reading(|layer| instructions(layer, version, &sheet)));
            taken.print_each(counts.lexemes);
            taken.print_each(counts.tokens);
            println!();
        }
    }
    true
}

/// The plain version's part of the table above, which needs no proved function.
fn plain_resolve() -> ExitCode {
    println!("                                   instructions");
    println!("layer    sheet    lexemes tokens    a lexeme  a token");
    for (sort, name) in SORTS {
        for tokens in TOKENS {
            let (sheet, counts) = Sheet::with_tokens(sort, name, tokens);
            let taken = beyond_reading(|layer| instructions(layer, Version::Plain, &sheet)).expect("callgrind");
            let (lexeme, token) = (taken / counts.lexemes as f64, taken / counts.tokens as f64);
            print!("{:<8} {name:<8} {:>7} {:>6}", RESOLVE.name, counts.lexemes, counts.tokens);
            println!("    {lexeme:>8.2} {token:>8.2}");
        }
    }
    ExitCode::SUCCESS
}

/// Resolving reads too: what it takes less what reading takes.
fn beyond_reading(measure: impl Fn(&Layer) -> Option<f64>) -> Option<f64> {
    Some(measure(&RESOLVE)? - measure(&READ)?)
}

fn told_to_agree(layer: &Layer, sheet: &Sheet) -> bool {
    let agrees = layer.agrees(&sheet.text);
    if !agrees {
        eprintln!("{}: the versions differ on {}, {} bytes", layer.name, sheet.name, sheet.bytes);
    }
    agrees
}

/// What is measured of each version, where it is there and can be measured.
struct Figures {
    proved: Option<f64>,
    plain: Option<f64>,
}

impl Figures {
    fn of(measure: impl Fn(Version) -> Option<f64>) -> Figures {
        Figures { proved: measure(Version::Proved), plain: measure(Version::Plain) }
    }

    /// For each of so many parts, with the ratio.
    fn print_each(&self, parts: usize) {
        let each = |figure: Option<f64>| cell(figure.map(|figure| figure / parts as f64));
        let ratio = self.proved.zip(self.plain).map(|(proved, plain)| proved / plain);
        print!("    {} {} {}", each(self.proved), each(self.plain), cell(ratio));
    }
}

fn cell(figure: Option<f64>) -> String {
    figure.map_or("     -".to_string(), |figure| format!("{figure:>6.2}"))
}

/// The nanoseconds of one call, the least of many.
fn nanoseconds(layer: &Layer, version: Version, sheet: &Sheet) -> Option<f64> {
    const CALLS: usize = 300;
    let work = layer.work(version)?;
    let mut least = f64::INFINITY;
    for _ in 0..CALLS {
        let start = Instant::now();
        black_box(work(black_box(&sheet.text)));
        least = least.min(start.elapsed().as_nanos() as f64);
    }
    Some(least)
}

/// The instructions of one call: what callgrind counts more for a process with two calls than for one with one.
fn instructions(layer: &Layer, version: Version, sheet: &Sheet) -> Option<f64> {
    layer.work(version)?;
    let two = collected(layer, version, sheet, 2)?;
    let one = collected(layer, version, sheet, 1)?;
    Some((two - one) as f64)
}

fn collected(layer: &Layer, version: Version, sheet: &Sheet, times: usize) -> Option<u64> {
    // Callgrind counts one instruction for each byte that is cleared or copied by `rep`. So the C library is told to
    // clear and copy by vectors, however much it is.
    const VECTORS: &str = "glibc.cpu.x86_rep_stosb_threshold=1000000:glibc.cpu.x86_rep_movsb_threshold=1000000";
    let done = Command::new("valgrind")
        .env("GLIBC_TUNABLES", VECTORS)
        .args(["--tool=callgrind", "--callgrind-out-file=/dev/null"])
        .arg(std::env::current_exe().ok()?)
        .args(["once", layer.name, version.name(), sheet.name, &sheet.bytes.to_string(), &times.to_string()])
        .output()
        .ok()?;
    let said = String::from_utf8_lossy(&done.stderr);
    let line = said.lines().find(|line| line.contains("Collected :"))?;
    line.rsplit(' ').next()?.parse().ok()
}

/// What callgrind watches: a sheet is made, and a layer's work is done on it so many times.
fn once(layer: &str, version: &str, sort: &str, bytes: &str, times: &str) -> ExitCode {
    let layer = LAYERS.iter().find(|known| known.name == layer).expect("a layer");
    let version = if version == "proved" { Version::Proved } else { Version::Plain };
    let work = layer.work(version).expect("a version that is there");
    let text = named(sort, bytes);
    for _ in 0..times.parse().expect("a number of times") {
        black_box(work(black_box(&text)));
    }
    ExitCode::SUCCESS
}

/// Many sheets, most of them damaged, through both versions of each layer that has two.
fn agree(count: u64) -> ExitCode {
    let mut exit = ExitCode::SUCCESS;
    for layer in LAYERS.iter().filter(|layer| layer.proved.is_some()) {
        let mut agreed = 0;
        for seed in 0..count {
            if layer.agrees(&any_sheet(seed)) {
                agreed += 1;
            } else {
                eprintln!("{}: the versions differ at seed {seed}", layer.name);
                exit = ExitCode::FAILURE;
            }
        }
        println!("{}: {agreed} of {count} sheets agreed", layer.name);
    }
    exit
}

/// One in four is a good sheet, and one in a hundred is about as long as a text may be.
fn any_sheet(seed: u64) -> Vec<u8> {
    let mut dice = Dice::new(seed);
    let (sort, _) = SORTS[dice.below(SORTS.len() as u64) as usize];
    let bytes = if seed % 100 == 1 { 65_535 } else { dice.below(3_000) as usize };
    if seed % 4 == 0 {
        sheets::sheet(sort, bytes, &mut dice)
    } else {
        sheets::damaged(sort, bytes, &mut dice)
    }
}
