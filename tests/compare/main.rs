//! Sets the Rust original beside libgeusomin.a on generated texts and records.
//! Usage: compare [COUNT] [SEED]. Exit status 1 if a difference is on no list.
mod calls;
mod document;
mod full;
mod marks;
mod original;
mod random;
mod records;
mod rows;
mod sheets;
mod texts;

use calls::{ask, Answer, Call, MESSAGES, READERS, WRITERS};
use original::{Said, Texts, KIND};
use random::Random;
use rows::Due;
use std::collections::BTreeMap;
use std::fmt::Debug;

/// The differences that docs/DIFFERENCES.md lists and a text can show.
#[derive(Clone, Copy, PartialEq, Eq, PartialOrd, Ord)]
enum Rule {
    TooLong,
    NotUtf8,
    TooDeep,
    KindTuple,
    KindUnfit,
    KindCrowded,
    Place,
    Visibility,
    Number,
    Panic,
    Escape,
}

impl Rule {
    fn says(self) -> &'static str {
        match self {
            Rule::TooLong => "text over 4,096 bytes: 8",
            Rule::NotUtf8 => "text not UTF-8: 9 where the Rust's caller stops",
            Rule::TooDeep => "33rd open tuple: 10 at its bracket",
            Rule::KindTuple => "kind text starts with a bracket: read as a list's only field",
            Rule::KindUnfit => "kind text starts with a bracket and is no such field: 13",
            Rule::KindCrowded => "kind text starts with a bracket, 33 more open than close: 10",
            Rule::Place => "place word: mark 2 or 3, which the Rust forgets",
            Rule::Visibility => "visibility word, which the Rust refuses: as with spaces for it",
            Rule::Number => "number that is not plain, which the Rust reads: as with letters for it",
            Rule::Panic => "context cuts a character, the Rust panics: error as elsewhere",
            Rule::Escape => "message copies what the Rust escapes",
        }
    }
}

/// What a call has to answer if lent enough.
enum Wanted<'a> {
    Output(&'a [u8]),
    Refusal(u32, usize),
}

/// Bytes on each side of what is lent; all are filled with FILL beforehand.
const GUARD: usize = 64;
const FILL: u8 = 0xA5;
const SHOWN: usize = 10;

/// Room enough for every record.
const LONGEST: usize = 40_960;

/// The longest text that is read.
const MOST_BYTES: usize = 4096;

/// For so many texts there is a sheet.
const TEXTS_A_SHEET: usize = 20;

/// The places of the kind-text call and of the full-text call in calls::WRITERS.
const KIND_TEXT: usize = 2;
const FULL: usize = 4;

#[derive(Default)]
struct Compare {
    buffer: Vec<u8>,
    fill: Vec<u8>,
    outcomes: BTreeMap<(&'static str, u32), usize>,
    rules: BTreeMap<Rule, usize>,
    asked: usize,
    unlisted: usize,
    records: usize,
    again: usize,
    lines: usize,
    sheets: usize,
    declarations: usize,
}

impl Compare {
    fn count(&mut self, call: &Call, number: u32) {
        *self.outcomes.entry((call.name, number)).or_default() += 1;
    }

    fn listed(&mut self, rule: Rule) {
        *self.rules.entry(rule).or_default() += 1;
    }

    fn differ(&mut self, call: &str, input: &[u8], what: impl FnOnce() -> String) {
        self.unlisted += 1;
        if self.unlisted <= SHOWN {
            println!("unlisted: {call} {}\n  {}", hex(input), what());
        }
    }

    /// A call with rooms 0, one short, exact and one over; with a few if it refuses.
    fn check(&mut self, call: &Call, input: &[u8], wanted: &Wanted) {
        let (rooms, output, answer) = match *wanted {
            Wanted::Output(output) => {
                let n = output.len();
                ([0, n.saturating_sub(1), n, n + 1], output, (0, n))
            }
            Wanted::Refusal(number, position) => {
                let n = input.len();
                ([0, 1, n % 200, 10 * n.min(100)], &[][..], (number, position))
            }
        };
        self.count(call, answer.0);
        for room in rooms {
            self.lend(call, input, room, output, answer);
        }
    }

    /// One call with a room.
    fn lend(&mut self, call: &Call, input: &[u8], room: usize, output: &[u8], answer: Answer) {
        let short = answer.0 == 0 && room < output.len();
        if short {
            self.count(call, 20);
        }
        let (answer, output) = if short { ((20, 0), &[][..]) } else { (answer, output) };
        self.lent(call.name, input, room, output, answer, |lent| ask(call, input, lent));
    }

    /// A call that is asked so, with an answer of any shape; every byte around and in the lent room is looked
    /// at afterwards.
    fn lent<A: PartialEq + Debug>(
        &mut self, name: &str, input: &[u8], room: usize, output: &[u8], answer: A, ask: impl FnOnce(&mut [u8]) -> A,
    ) {
        let size = room + 2 * GUARD;
        if self.buffer.len() < size {
            self.buffer.resize(size, FILL);
            self.fill.resize(size, FILL);
        }
        self.asked += 1;
        let given = ask(&mut self.buffer[GUARD..GUARD + room]);
        let written = GUARD + output.len();
        let kept = self.buffer[..GUARD] == self.fill[..GUARD]
            && self.buffer[written..size] == self.fill[written..size];
        let good = self.buffer[GUARD..written] == *output;
        if given == answer && kept && good {
            self.buffer[GUARD..written].fill(FILL);
            return;
        }
        let buffer = self.buffer[GUARD..written].to_vec();
        self.buffer.fill(FILL);
        self.differ(name, input, || {
            let bytes = match (good, kept) {
                (true, true) => "the bytes right".to_string(),
                (true, false) => "bytes changed that are not the output's".to_string(),
                _ => format!("bytes {} instead of {}", hex(&buffer), hex(output)),
            };
            format!("room {room}: answer {given:?} instead of {answer:?}, {bytes}")
        });
    }

    /// Everything about one text. The last record that was read is left in `record`.
    fn text(&mut self, bytes: &[u8], record: &mut Vec<u8>) {
        let text = std::str::from_utf8(bytes).map_err(|e| e.valid_up_to());
        for place in 0..READERS.len() {
            match text {
                _ if bytes.len() > MOST_BYTES => self.refused(place, bytes, Rule::TooLong, (8, 0)),
                Err(valid) => self.refused(place, bytes, Rule::NotUtf8, (9, valid)),
                Ok(text) => self.reading(place, text, record),
            }
        }
    }

    /// A refusal without a message, which the Rust does not give.
    fn refused(&mut self, place: usize, text: &[u8], rule: Rule, (number, position): Answer) {
        self.listed(rule);
        self.check(&READERS[place], text, &Wanted::Refusal(number, position));
        self.message(place, text, "");
    }

    /// One reading call and its message call, by the Rust's answer to the text: with letters for each
    /// number that is not plain and, if a visibility word stands where it may, with spaces for that word.
    /// The message shows the text itself. Of a kind text that starts with `(` the brackets are counted
    /// first.
    fn reading(&mut self, place: usize, text: &str, record: &mut Vec<u8>) {
        let (call, bytes) = (&READERS[place], text.as_bytes());
        let bracketed = place == KIND && text.starts_with('(');
        if let Some(position) = document::crowded(bytes).filter(|_| bracketed) {
            return self.refused(place, bytes, Rule::KindCrowded, (10, position));
        }
        let letters = original::with_letters(text);
        if letters.as_ref().is_some_and(|letters| original::differ(place, text, letters)) {
            self.listed(Rule::Number);
        }
        let plain = letters.as_deref().unwrap_or(text);
        let spaced = original::spaced(place, plain);
        if spaced.is_some() {
            self.listed(Rule::Visibility);
        }
        let known = spaced.as_deref().unwrap_or(plain);
        if let Some(position) = original::too_deep(place, known) {
            return self.refused(place, bytes, Rule::TooDeep, (10, position));
        }
        let said = original::read(place, known);
        if bracketed && !original::agrees(text, &said) {
            let is_read = matches!(said, Said::Read { .. });
            self.listed(if is_read { Rule::KindTuple } else { Rule::KindUnfit });
        }
        match said {
            Said::Read { record: read, texts } => {
                let Some(read) = self.kept(call, text, read) else { return };
                self.check(call, bytes, &Wanted::Output(&read));
                self.message(place, bytes, "");
                self.texts(&read, &texts, place == KIND);
                *record = read;
            }
            Said::Refused { number, position, message } => {
                self.check(call, bytes, &Wanted::Refusal(number, position));
                if place != KIND {
                    self.copied(place, known, number, position, &message);
                    self.message(place, bytes, &document::message(place, text, number, position));
                }
            }
            Said::Panicked { number, position } => {
                self.listed(Rule::Panic);
                self.check(call, bytes, &Wanted::Refusal(number, position));
                self.message(place, bytes, &document::message(place, text, number, position));
            }
        }
    }

    /// Order 3: the text of a field's kind, as it was written, is read as that kind.
    fn read_again(&mut self, text: &[u8], bare: &[u8]) {
        if text.len() <= MOST_BYTES {
            self.again += 1;
            self.check(&READERS[KIND], text, &Wanted::Output(bare));
            self.check(&WRITERS[KIND_TEXT], bare, &Wanted::Output(text));
        }
    }

    /// Order 4: a declaration is written out, and its line is read as the very record, by the general call
    /// and by the one named for its keyword; the Rust reads it as that record without place words.
    fn full(&mut self, record: &[u8]) {
        let line = full::line(record);
        self.check(&WRITERS[FULL], record, &Wanted::Output(&line));
        for place in [original::GENERAL, original::NAMED + full::keyword(record)] {
            if line.len() > MOST_BYTES {
                self.refused(place, &line, Rule::TooLong, (8, 0));
            } else {
                self.line_again(place, &line, record);
            }
        }
    }

    fn line_again(&mut self, place: usize, line: &[u8], record: &[u8]) {
        self.lines += 1;
        self.check(&READERS[place], line, &Wanted::Output(record));
        match original::read(place, std::str::from_utf8(line).unwrap()) {
            Said::Read { record: read, .. } if marks::forgotten(record).as_ref() == Some(&read) => (),
            _ => self.differ("full", record, || "the Rust does not read the line so".to_string()),
        }
    }

    /// A text whose full line is written down.
    fn full_row(&mut self, text: &str, line: &str) {
        let call = &READERS[original::GENERAL];
        match self.written(call, text.as_bytes(), LONGEST) {
            ((0, length), record) => {
                self.check(&WRITERS[FULL], &record[..length], &Wanted::Output(line.as_bytes()));
            }
            (answer, _) => self.differ(call.name, text.as_bytes(), || format!("answer {answer:?}")),
        }
    }

    /// What a call has to write where the Rust read this record. If the text has place words as marks,
    /// it is what the call writes, once that is the Rust's record in a copy without them and they are
    /// those of the text; none if it is not so.
    fn kept(&mut self, call: &Call, text: &str, read: Vec<u8>) -> Option<Vec<u8>> {
        let words = marks::of_text(text, &read);
        if words.iter().all(|mark| *mark == marks::UNMARKED) {
            return Some(read);
        }
        self.listed(Rule::Place);
        let (_, written) = self.written(call, text.as_bytes(), read.len());
        let fields = marks::of_record(&written).unwrap_or_default();
        let stand: Vec<u16> = fields.iter().map(|(mark, _)| *mark).collect();
        if stand == words && marks::forgotten(&written).as_ref() == Some(&read) {
            return Some(written);
        }
        self.differ(call.name, text.as_bytes(), || {
            format!("marks {stand:?} instead of {words:?}, in {} beside {}", hex(&written), hex(&read))
        });
        None
    }

    /// What a call answers and leaves in a lent buffer of that length.
    fn written(&mut self, call: &Call, input: &[u8], room: usize) -> (Answer, Vec<u8>) {
        self.asked += 1;
        let mut lent = vec![FILL; room];
        (ask(call, input, &mut lent), lent)
    }

    /// A text whose answer is written down.
    fn row(&mut self, call: &Call, text: &[u8], due: &Due) {
        let (answer, written) = self.written(call, text, LONGEST);
        if !due.is_met(answer, &written) {
            let shown = String::from_utf8_lossy(text);
            let what = || format!("answer {answer:?}, not what is written down for {shown:?}");
            self.differ(call.name, text, what);
        }
    }

    /// A text whose own lists have only fields with this mark and this name.
    fn located(&mut self, text: &str, mark: u16, name: &str) {
        let call = &READERS[original::GENERAL];
        let (_, written) = self.written(call, text.as_bytes(), LONGEST);
        let fields = marks::of_record(&written).unwrap_or_default();
        if fields.is_empty() || fields.iter().any(|field| *field != (mark, name.as_bytes())) {
            let what = || format!("marks and names {fields:?} instead of {mark} and {name}");
            self.differ(call.name, text.as_bytes(), what);
        }
    }

    /// The Rust's message beside document 01's wording.
    fn copied(&mut self, place: usize, text: &str, number: u32, position: usize, message: &str) {
        let copied = document::copied(message);
        if copied != message {
            self.listed(Rule::Escape);
        }
        let worded = document::message(place, text, number, position);
        if copied != worded {
            let what = || format!("the Rust {message}, document 01 {worded}");
            self.differ("message", text.as_bytes(), what);
        }
    }

    fn message(&mut self, place: usize, text: &[u8], message: &str) {
        if let Some(call) = MESSAGES.get(place) {
            self.check(call, text, &Wanted::Output(message.as_bytes()));
        }
    }

    /// The calls on a record that was read; `field` if by the kind call.
    fn texts(&mut self, record: &[u8], texts: &Texts, field: bool) {
        let all = [&texts.canonical, &texts.signature, &texts.kind, &texts.name];
        for (place, (call, text)) in WRITERS.iter().zip(all).enumerate() {
            let wanted = match text {
                Some(text) => Wanted::Output(text),
                // Kind text of a declaration; canonical and signature of a field.
                None if field || place == KIND_TEXT => Wanted::Refusal(15, 0),
                None => Wanted::Refusal(16, 0),
            };
            self.check(call, record, &wanted);
        }
        match field {
            true => self.check(&WRITERS[FULL], record, &Wanted::Refusal(15, 0)),
            false => self.full(record),
        }
        if let Some(text) = &texts.kind {
            self.read_again(text, record);
        }
        for lone in &texts.tuples {
            self.check(&WRITERS[KIND_TEXT], &lone.record, &Wanted::Output(&lone.text));
            self.read_again(&lone.text, &lone.bare);
        }
    }

    /// The calls on any bytes, by document 01.
    fn record(&mut self, record: &[u8]) {
        self.records += 1;
        let formed = document::formed(record);
        let signature = formed.as_ref().map(|f| [&f.canonical, &b":"[..], &f.outputs].concat());
        let (wrong, none) = (|| Wanted::Refusal(15, 0), || Wanted::Refusal(16, 0));
        let wanted = match &formed {
            None => [wrong(), wrong(), wrong(), wrong()],
            Some(f) => {
                let canonical = Wanted::Output(&f.canonical);
                let name = Wanted::Output(f.name);
                match f.kind {
                    document::FUNCTION => {
                        [canonical, Wanted::Output(signature.as_ref().unwrap()), wrong(), name]
                    }
                    document::CONSTRUCTOR => [none(), none(), wrong(), none()],
                    document::FIELD => [wrong(), wrong(), canonical, name],
                    _ => [canonical, none(), wrong(), name],
                }
            }
        };
        for (call, wanted) in WRITERS.iter().zip(&wanted) {
            self.check(call, record, wanted);
        }
        match &formed {
            Some(f) if f.kind != document::FIELD => return self.full(record),
            Some(f) => self.kind_again(&f.canonical),
            None => (),
        }
        self.check(&WRITERS[FULL], record, &wrong());
    }

    /// The text of a made-up field's kind, which the Rust reads as it is.
    fn kind_again(&mut self, text: &[u8]) {
        match original::read(KIND, std::str::from_utf8(text).unwrap()) {
            Said::Read { record, texts } if texts.kind.as_deref() == Some(text) => {
                self.read_again(text, &record);
            }
            _ => self.differ("kind", text, || "the Rust does not read it as it stands".to_string()),
        }
    }

    /// Outcomes by call and refusal number.
    fn table(&self) {
        let mut numbers: Vec<u32> = self.outcomes.keys().map(|k| k.1).collect();
        numbers.sort();
        numbers.dedup();
        print!("{:19}", "call");
        for n in &numbers {
            print!("{:>10}", if *n == 0 { "ok".to_string() } else { n.to_string() });
        }
        println!();
        let calls = READERS.iter().chain(WRITERS).chain(MESSAGES);
        for name in calls.map(|call| call.name).chain([sheets::NAME]) {
            print!("{name:19}");
            for n in &numbers {
                print!("{:>10}", self.outcomes.get(&(name, *n)).unwrap_or(&0));
            }
            println!();
        }
    }
}

fn hex(bytes: &[u8]) -> String {
    if bytes.is_empty() {
        return "-".into();
    }
    let shown: String = bytes.iter().take(500).map(|b| format!("{b:02x}")).collect();
    if bytes.len() > 500 { format!("{shown}... ({} bytes)", bytes.len()) } else { shown }
}

fn run(count: usize, seed: u64) -> bool {
    // The original's panics are answers here: no words about them.
    std::panic::set_hook(Box::new(|_| {}));
    let mut compare = Compare::default();
    let mut random = Random::new(seed + 1);
    let mut read = vec![];
    let mut sheets = sheets::Maker::new(seed + 2);
    let mut texts = 0;
    for size in [40_959, 40_960, 40_961, 50_000] {
        compare.record(&records::of_size(size));
    }
    for size in [4095, 4096, 4097] {
        compare.record(&records::of_line(size));
    }
    records::marked(|record| compare.record(record));
    texts::located(&mut |text, mark, name| compare.located(text, mark, name));
    for (text, due) in &rows::VISIBILITY {
        compare.row(&READERS[original::GENERAL], text.as_bytes(), due);
    }
    for (text, due) in &rows::kind_tuples() {
        compare.row(&READERS[KIND], text, due);
    }
    for (text, line) in rows::FULL {
        compare.full_row(text, line);
    }
    for (call, text, due) in &rows::NUMBERS {
        compare.row(&READERS[*call], text.as_bytes(), due);
    }
    texts::each(count, seed, |text| {
        texts += 1;
        compare.text(text, &mut read);
        // By turns a made-up record, one with a fault, one damaged, and one that was read, damaged.
        let mut record = read.clone();
        if texts % 4 != 0 {
            let faults = (texts % 4 == 1) as usize;
            let deep = *random.of(&[&0, &2, &2, &3, &3, &32, &33]);
            let mut maker = records::Maker { random: &mut random, out: vec![], faults, deep };
            maker.record();
            record = maker.out;
        }
        if texts % 4 > 2 || texts % 4 == 0 {
            texts::damage(&mut random, &mut record);
        }
        compare.record(&record);
        sheets.note(text);
        if texts % TEXTS_A_SHEET == 0 {
            compare.sheet(&sheets.sheet());
        }
    });
    compare.table();
    for (rule, times) in &compare.rules {
        println!("listed: {times:>9} {}", rule.says());
    }
    let calls = READERS.len() + WRITERS.len() + MESSAGES.len() + 1;
    let (asked, records) = (compare.asked, compare.records);
    println!("{calls} functions called {asked} times; {records} records made up; seed {seed}");
    println!("{} kind texts of fields read again, full lines {} times", compare.again, compare.lines);
    println!("{} sheets, those that were accepted with {} declarations", compare.sheets, compare.declarations);
    println!("compare: {texts} texts, {} unlisted differences", compare.unlisted);
    compare.unlisted == 0
}

fn main() {
    let mut arguments = std::env::args().skip(1).map(|a| a.parse::<u64>().expect("a number"));
    let count = arguments.next().unwrap_or(200_000) as usize;
    let seed = arguments.next().unwrap_or(1);
    // The original goes as deep as the text does.
    let run = std::thread::Builder::new().stack_size(1 << 28).spawn(move || run(count, seed));
    match run.unwrap().join() {
        Ok(true) => (),
        Ok(false) => std::process::exit(1),
        Err(_) => {
            println!("compare: stopped by a panic that is not the original's");
            std::process::exit(2);
        }
    }
}
