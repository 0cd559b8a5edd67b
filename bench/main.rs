//! Times the Rust original and libgeusomin.a on the same inputs, by turns, in one run.
//! Usage: bench ORDINARY, the file of ordinary declarations.
//!
//! The Rust's reading is `Descriptor::parse_declaration` of a `&str`, its result dropped; its
//! canonical text and signature are `to_string()` of what was read before. This one's reading is
//! `geusomin_parse_declaration` of bytes, UTF-8 checked, into a lent buffer that is not cleared
//! between calls; its texts are the calls on the record, the check of the record included. The sheet
//! call is timed beside the general call over the same lines.
#[path = "../tests/compare/calls.rs"]
mod calls;

use calls::{ask, ask_sheet, Call, READERS, WRITERS};
use plain::abi::Descriptor;
use std::collections::HashSet;
use std::hint::black_box;
use std::time::Instant;

const ROUNDS: usize = 41;
const SAMPLE_NS: f64 = 20_000_000.0;
const MOST_RECORD: usize = 40_960;
const MOST_SHEET: usize = 655_366;
const DECLARATIONS: usize = 512;

/// The nanoseconds of one call, round by round.
struct Spent(Vec<f64>);

impl Spent {
    fn median(&self) -> f64 {
        let mut sorted = self.0.clone();
        sorted.sort_by(f64::total_cmp);
        sorted[sorted.len() / 2]
    }

    fn best(&self) -> f64 {
        self.0.iter().copied().fold(f64::MAX, f64::min)
    }

    /// How many times this time the other is, by the median of the rounds: what slows the
    /// machine slows both halves of a round.
    fn ratio(&self, other: &Spent) -> f64 {
        Spent(self.0.iter().zip(&other.0).map(|(this, other)| other / this).collect()).median()
    }
}

/// What a call takes in works that each make `calls` calls; by turns.
fn spent<const N: usize>(calls: usize, mut works: [&mut dyn FnMut(); N]) -> [Spent; N] {
    let passes = works.each_mut().map(|work| {
        let once = time(&mut || work());
        (SAMPLE_NS / once.max(1.0)).clamp(1.0, 100_000.0) as usize
    });
    let mut spent = [(); N].map(|_| Spent(vec![]));
    for _ in 0..ROUNDS {
        for (i, work) in works.iter_mut().enumerate() {
            let all = time(&mut || (0..passes[i]).for_each(|_| work()));
            spent[i].0.push(all / (passes[i] * calls) as f64);
        }
    }
    spent
}

fn time(work: &mut dyn FnMut()) -> f64 {
    let start = Instant::now();
    work();
    start.elapsed().as_nanos() as f64
}

/// A work that makes a call on each input. Input and answer pass through a black box, as those of
/// the Rust do.
fn each<'a>(call: &'a Call, inputs: &'a [Vec<u8>], buffer: &'a mut [u8]) -> impl FnMut() + 'a {
    move || {
        for input in inputs {
            black_box(ask(call, black_box(input), buffer));
        }
    }
}

/// Prints a row and hands back how many times as fast as the Rust this is.
fn row(what: &str, inputs: &[Vec<u8>], [rust, this]: [Spent; 2]) -> f64 {
    let (count, bytes) = (inputs.len(), inputs.iter().map(Vec::len).sum::<usize>() as f64 / inputs.len() as f64);
    let ratio = this.ratio(&rust);
    print!("{what:40} {count:5} {bytes:6.0} {:9.0} {:7.0} {ratio:6.2}", rust.median(), this.median());
    println!(" {:11.0} {:7.0} {:6.2}", rust.best(), this.best(), rust.best() / this.best());
    ratio
}

fn reading(what: &str, texts: &[Vec<u8>]) -> f64 {
    let strings: Vec<&str> = texts.iter().map(|t| std::str::from_utf8(t).unwrap()).collect();
    let mut buffer = vec![0; MOST_RECORD];
    let mut rust = || {
        for text in &strings {
            let _ = black_box(Descriptor::parse_declaration(black_box(text)));
        }
    };
    let mut this = each(&READERS[0], texts, &mut buffer);
    row(&format!("reading, {what}"), texts, spent(texts.len(), [&mut rust, &mut this]))
}

/// The record of a text, in an allocation of its own length: one of 40,960 bytes for each would
/// have every record miss the cache.
fn record(text: &[u8]) -> Vec<u8> {
    let mut buffer = vec![0; MOST_RECORD];
    let (number, length) = ask(&READERS[0], text, &mut buffer);
    assert_eq!(number, 0, "this text is to be read: {}", String::from_utf8_lossy(text));
    buffer[..length].to_vec()
}

/// Canonical texts and signatures of those that have one; hands back the first's ratio.
fn writing(what: &str, texts: &[Vec<u8>]) -> f64 {
    let descriptor = |t: &Vec<u8>| Descriptor::parse_declaration(std::str::from_utf8(t).unwrap()).unwrap();
    let texts: Vec<Vec<u8>> = texts.iter().filter(|t| !t.starts_with(b"constructor")).cloned().collect();
    let functions: Vec<Vec<u8>> = texts.iter().filter(|t| t.starts_with(b"function")).cloned().collect();
    let mut buffer = vec![0; MOST_RECORD];
    let mut ratios = vec![];
    for (call, texts) in WRITERS.iter().zip([texts, functions]) {
        let descriptors: Vec<Descriptor> = texts.iter().map(descriptor).collect();
        let records: Vec<Vec<u8>> = texts.iter().map(|t| record(t)).collect();
        let canonical = call.name == "canonical";
        let mut rust = || {
            for d in &descriptors {
                black_box(match black_box(d) {
                    Descriptor::Function(d) if canonical => d.canonical().to_string(),
                    Descriptor::Function(d) => d.signature().to_string(),
                    Descriptor::Event(d) => d.canonical().to_string(),
                    Descriptor::Error(d) => d.canonical().to_string(),
                    _ => unreachable!(),
                });
            }
        };
        let mut this = each(call, &records, &mut buffer);
        let spent = spent(texts.len(), [&mut rust, &mut this]);
        ratios.push(row(&format!("{}, {what}", call.name), &texts, spent));
    }
    ratios[0]
}

/// `before`, `pad` as often as fits, and `behind`, with blanks up to `size` bytes.
fn filled(size: usize, before: &str, pad: &str, behind: &str) -> Vec<u8> {
    let room = size - before.len() - behind.len();
    let mut text = [before, &pad.repeat(room / pad.len()), behind].concat();
    text += &" ".repeat(size - text.len());
    text.into_bytes()
}

/// Ordinary declarations with many parameters.
fn long(size: usize) -> Vec<u8> {
    let pad = "address indexedBy, uint256 amount, bytes calldata data, uint256[] memory ids, ";
    filled(size, "function f(", pad, "bool last) view returns (uint256)")
}

fn refused(ordinary: &[Vec<u8>]) -> Vec<Vec<u8>> {
    let broken = |text: &String| {
        [
            text.replacen(") ", ") internal ", 1),
            text.replacen("address", "adress", 1),
            text.replacen("uint256", "uint255", 1),
            text.replacen(')', "", 1),
            text[..text.len() * 2 / 3].to_string(),
        ]
    };
    let texts = ordinary.iter().map(|t| String::from_utf8(t.clone()).unwrap());
    let all = texts.flat_map(|t| broken(&t).into_iter().filter(move |b| *b != t).collect::<Vec<_>>());
    all.filter(|t| Descriptor::parse_declaration(t).is_err()).map(String::into_bytes).collect()
}

/// Texts of 4,096 bytes that might be slow, each beside an ordinary one of that length; hands
/// back how many times that one's time the slowest takes.
fn slowest() -> f64 {
    let deep = |depth: usize, inside: &str, close: &str| {
        let open = format!("function f({}", "(".repeat(depth));
        let behind = format!("int{})", close.repeat(depth));
        filled(4096, &open, inside, &behind)
    };
    let nested = format!("{}{},", "(".repeat(32), ")".repeat(32));
    let named = format!("{}{},", "(".repeat(32), ")a".repeat(32));
    let texts = [
        ("spaces", filled(4096, "function f(", " ", ")")),
        ("wide blanks", filled(4096, "function f(", "\u{3000}", ")")),
        // Two bytes first, so that the Rust does not panic.
        ("wide characters, refused", filled(4096, "function f()xx", "\u{1f600}", "")),
        ("a long name", filled(4096, "function ", "n", "()")),
        ("a long width", filled(4096, "function f(uint", "0", "8)")),
        ("open suffixes", filled(4096, "function f(uint", "[]", ")")),
        ("short suffixes", filled(4096, "function f(uint", "[1]", ")")),
        ("suffixes of 20 digits", filled(4096, "function f(uint", "[18446744073709551615]", ")")),
        ("suffixes of no kind, refused", filled(4096, "function f(x", "[1]", ")")),
        ("a tuple's suffixes", filled(4096, "function f(()", "[]", ")")),
        ("opening brackets in a run, refused", filled(4096, "function f(uint", "[", ")")),
        ("closing brackets in a run, refused", filled(4096, "function f(uint", "]", ")")),
        ("short fields", filled(4096, "function f(", "int,", "int)")),
        ("short fields, the last refused", filled(4096, "function f(", "int,", "x)")),
        ("named fields", filled(4096, "function f(", "int a,", "int)")),
        ("indexed fields", filled(4096, "event e(", "int indexed a,", "int)")),
        ("empty tuples", filled(4096, "function f(", "(),", "int)")),
        ("named tuples", filled(4096, "function f(", "()a,", "int)")),
        ("32 deep, again and again", filled(4096, "function f(", &nested, "int)")),
        ("32 deep and named, again and again", filled(4096, "function f(", &named, "int)")),
        ("fields 32 deep", deep(32, "int,", ")")),
        ("fields 32 deep, each tuple named", deep(32, "int,", ")a")),
        ("empty tuples 31 deep, each tuple named", deep(31, "(),", ")a")),
        ("fields 32 deep, long names", deep(32, "int,", &format!("){}", "n".repeat(60)))),
        ("fields 32 deep, the last name refused", deep(32, "int,", ")a b")),
    ];
    let ordinary = [long(4096)];
    let mut worst: f64 = 0.0;
    println!("\n{:40} {:>10} {:>8} {:>6}", "texts of 4,096 bytes, reading", "Rust", "this", "times");
    for (what, text) in &texts {
        assert_eq!(text.len(), 4096);
        let (mut a, mut b) = (vec![0; MOST_RECORD], vec![0; MOST_RECORD]);
        let string = std::str::from_utf8(text).unwrap();
        let mut rust = || drop(black_box(Descriptor::parse_declaration(black_box(string))));
        let mut plain = each(&READERS[0], &ordinary, &mut a);
        let mut slow = each(&READERS[0], std::slice::from_ref(text), &mut b);
        let [rust, plain, slow] = spent(1, [&mut rust, &mut plain, &mut slow]);
        let times = plain.ratio(&slow);
        println!("{what:40} {:10.0} {:8.0} {times:6.2}", rust.median(), slow.median());
        worst = worst.max(times);
    }
    worst
}

/// The canonical call on the longest record and on one of a tenth of that length.
fn proportion() {
    let field: &[u8] = b"\x17\0\0\0\x10\0\0\0\x07\0\0\0\x11\0a\x08\0\0\0\x02\0\0\x01";
    let error = |size: usize| {
        let head = |length: usize, kind: u8| [&(length as u32).to_le_bytes()[..], &[kind, 0]].concat();
        let fields = (size - 19) / field.len();
        let name = size - 18 - fields * field.len();
        let word = vec![b'n'; name];
        let list = head(6 + fields * field.len(), 0x12);
        [head(size, 0x23), head(6 + name, 0x11), word, list, field.repeat(fields)].concat()
    };
    let (whole, tenth) = ([error(MOST_RECORD)], [error(MOST_RECORD / 10)]);
    let (mut a, mut b) = (vec![0; MOST_RECORD], vec![0; MOST_RECORD]);
    for call in WRITERS.iter().take(1) {
        assert_eq!(ask(call, &whole[0], &mut a).0, 0);
        let mut long = each(call, &whole, &mut a);
        let mut short = each(call, &tenth, &mut b);
        let [long, short] = spent(1, [&mut long, &mut short]);
        let (ratio, long, short) = (short.ratio(&long), long.median(), short.median());
        println!("\ncanonical: a record of 40,960 bytes {long:.0} ns, of 4,096 bytes {short:.0} ns");
        println!("{ratio:.2} times the time for ten times the bytes");
    }
}

// --- sheets ---------------------------------------------------------------------------------

/// The keyword and the canonical text, none for a constructor: what no two lines of a sheet share.
fn sameness(text: &[u8]) -> (u8, String) {
    match Descriptor::parse_declaration(std::str::from_utf8(text).unwrap()).unwrap() {
        Descriptor::Function(d) => (b'f', d.canonical().to_string()),
        Descriptor::Event(d) => (b'v', d.canonical().to_string()),
        Descriptor::Error(d) => (b'r', d.canonical().to_string()),
        _ => (b'c', String::new()),
    }
}

/// Ordinary declarations for one sheet: those that repeat none before them, then the same by longer names.
fn apart(ordinary: &[Vec<u8>]) -> Vec<Vec<u8>> {
    let longer = |text: &Vec<u8>| String::from_utf8(text.clone()).unwrap().replacen('(', "2(", 1).into_bytes();
    let named = ordinary.iter().filter(|text| !text.starts_with(b"constructor")).map(longer);
    let mut seen = HashSet::new();
    ordinary.iter().cloned().chain(named).filter(|text| seen.insert(sameness(text))).take(DECLARATIONS).collect()
}

/// Functions of one name, with every three of eight kinds.
fn overloads() -> Vec<Vec<u8>> {
    let kinds = ["uint256", "address", "bool", "bytes32", "string", "uint8", "bytes", "int256"];
    let overload = |i: usize| {
        let [a, b, c] = [i, i / 8, i / 64].map(|digits| kinds[digits % 8]);
        format!("function transfer({a} to, {b} value, {c} data) returns (bool success)").into_bytes()
    };
    (0..DECLARATIONS).map(overload).collect()
}

/// Prints a row and hands back how many times the general call's time over the lines the sheet takes.
fn sheet(what: &str, lines: &[Vec<u8>]) -> f64 {
    let text = lines.join(&b'\n');
    let (mut a, mut b) = (vec![0; MOST_RECORD], vec![0; MOST_SHEET]);
    assert_eq!((lines.len(), ask_sheet(&text, &mut b).0), (DECLARATIONS, 0));
    let mut general = each(&READERS[0], lines, &mut a);
    let mut whole = || {
        black_box(ask_sheet(black_box(&text), &mut b));
    };
    let [general, whole] = spent(lines.len(), [&mut general, &mut whole]);
    let (bytes, times) = (text.len() / lines.len(), general.ratio(&whole));
    println!("{what:40} {bytes:6} {:9.0} {:7.0} {times:6.2}", general.median(), whole.median());
    times
}

/// Hands back the times of ordinary declarations and of overloads.
fn sheets(ordinary: &[Vec<u8>]) -> (f64, f64) {
    println!("\n{:40} {:>6} {:>9} {:>7} {:>6}", "sheets, ns for a declaration", "bytes", "general", "sheet", "times");
    (sheet("512 ordinary declarations", &apart(ordinary)), sheet("512 overloads of one name", &overloads()))
}

fn main() {
    let file = std::env::args().nth(1).expect("the file of ordinary declarations");
    let lines = std::fs::read_to_string(file).expect("a readable file");
    let ordinary: Vec<Vec<u8>> = lines.lines().map(|l| l.as_bytes().to_vec()).collect();
    let long = [500, 1000, 2000, 4096].map(long);
    let deep = [format!("function f({}uint256{})", "(".repeat(32), ")".repeat(32)).into_bytes()];
    let suffixes = [filled(4096, "function f(uint", "[]", ")"), filled(4096, "function f(uint", "[3]", ")")];
    print!("{:40} {:>5} {:>6}", "ns for one call", "texts", "bytes");
    println!("{0:>10} {1:>7} {2:>6}{0:>12} {1:>7} {2:>6}", "Rust", "this", "ratio");
    println!("{:52} {:>24} {:>26}", "", "median", "best");
    let read = reading("ordinary", &ordinary);
    reading("refused", &refused(&ordinary));
    let written = writing("ordinary", &ordinary);
    for (what, texts) in [("long", &long[..]), ("32 deep", &deep), ("thousands of suffixes", &suffixes)] {
        reading(what, texts);
        writing(what, texts);
    }
    proportion();
    let (sheet, overloaded) = sheets(&ordinary);
    let slowest = slowest();
    println!("\nordinary declarations: reading {read:.2} times as fast as the Rust");
    println!("canonical {written:.2} times as fast");
    println!("slowest text of 4,096 bytes: {slowest:.2} times an ordinary one");
    println!("a sheet of 512 ordinary declarations: {sheet:.2} times the general call over its lines");
    println!("of 512 overloads: {overloaded:.2} times, {:.2} times that", overloaded / sheet);
}
