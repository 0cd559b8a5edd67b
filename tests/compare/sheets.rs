//! Order 5: sheets. The Rust is asked for their lines one by one; the rest are the order's rules.
use crate::calls::{ask_sheet, Answer, LinedAnswer};
use crate::document::{CONSTRUCTOR, HEAD, KEYWORDS, LENGTH};
use crate::original::{self, Said, GENERAL};
use crate::random::Random;
use crate::{full, marks, texts, Compare, MOST_BYTES};
use std::collections::HashSet;

/// The call's name.
pub const NAME: &str = "sheet";

/// The record kind of a sheet.
const SHEET: u16 = 0x30;
const MOST_TEXT: usize = 65_536;
const MOST_DECLARATIONS: usize = 512;

// --- the rules --------------------------------------------------------------------------

/// What 23 compares: the record kind and, but for a constructor, the canonical text.
type Sameness = (u16, Option<Vec<u8>>);

struct Declared {
    record: Vec<u8>,
    sameness: Sameness,
}

/// What the general call has to answer to a line.
fn single(line: &[u8]) -> Result<Declared, Answer> {
    if line.len() > MOST_BYTES {
        return Err((8, 0));
    }
    let text = std::str::from_utf8(line).map_err(|e| (9, e.valid_up_to()))?;
    let letters = original::with_letters(text);
    let plain = letters.as_deref().unwrap_or(text);
    let spaced = original::spaced(GENERAL, plain);
    let known = spaced.as_deref().unwrap_or(plain);
    if let Some(position) = original::too_deep(GENERAL, known) {
        return Err((10, position));
    }
    match original::read(GENERAL, known) {
        Said::Read { record, texts } => {
            let kind = u16::from_le_bytes(record[LENGTH..HEAD].try_into().unwrap());
            let record = marks::marked(&record, &marks::of_text(text, &record));
            Ok(Declared { record, sameness: (kind, texts.canonical) })
        }
        Said::Refused { number, position, .. } | Said::Panicked { number, position } => Err((number, position)),
    }
}

fn is_blank(line: &[u8]) -> bool {
    std::str::from_utf8(line).is_ok_and(|line| line.chars().all(char::is_whitespace))
}

/// How many declarations a sheet has, and its record; or a refusal with its line.
fn answer(text: &[u8]) -> Result<(usize, Vec<u8>), LinedAnswer> {
    if text.len() > MOST_TEXT {
        return Err((21, 0, 0));
    }
    let (mut body, mut lines, mut seen, mut repeated) = (vec![], vec![], HashSet::new(), None);
    for (line, place) in text.split(|byte| *byte == b'\n').zip(1..) {
        if is_blank(line) {
            continue;
        }
        let declared = single(line).map_err(|(number, position)| (number, position, place))?;
        body.extend(declared.record);
        lines.push(place);
        if !seen.insert(declared.sameness) && repeated.is_none() {
            repeated = Some(place);
        }
    }
    match (lines.get(MOST_DECLARATIONS), repeated) {
        (Some(line), _) => Err((22, 0, *line)),
        (None, Some(line)) => Err((23, 0, line)),
        (None, None) => {
            let length = (HEAD + body.len()) as u32;
            Ok((lines.len(), [&length.to_le_bytes()[..], &SHEET.to_le_bytes(), &body].concat()))
        }
    }
}

impl Compare {
    /// A sheet with several rooms.
    pub fn sheet(&mut self, text: &[u8]) {
        self.sheets += 1;
        let (rooms, output, answer) = match answer(text) {
            Ok((count, record)) => {
                let n = record.len();
                self.declarations += count;
                (vec![0, n - 1, n, n + 1], record, (0, n, 0))
            }
            Err(refusal) => (vec![0, 1, text.len()], vec![], refusal),
        };
        for room in rooms {
            let short = answer.0 == 0 && room < output.len();
            let (answer, output) = if short { ((20, 0, 0), &[][..]) } else { (answer, &output[..]) };
            *self.outcomes.entry((NAME, answer.0)).or_default() += 1;
            self.lent(NAME, text, room, output, answer, |lent| ask_sheet(text, lent));
        }
    }
}

// --- sheets that are made up ------------------------------------------------------------

/// A line that is read, and another that repeats it.
struct Line {
    text: Vec<u8>,
    repeat: Vec<u8>,
}

pub struct Maker {
    random: Random,
    /// Lines of which none repeats another.
    read: Vec<Line>,
    known: HashSet<Sameness>,
    refused: Vec<Vec<u8>>,
}

const MOST_READ: usize = 4000;
const MOST_REFUSED: usize = 500;

/// As long on average as 512 lines of a sheet may be.
const SHORT: usize = 120;

const BLANK_LINES: [&str; 7] = ["", "", " ", "\r", "\t \u{b}", "\u{3000}", "\u{85}\u{2028}\u{a0}"];

impl Maker {
    pub fn new(seed: u64) -> Self {
        Maker { random: Random::new(seed), read: vec![], known: HashSet::new(), refused: vec![] }
    }

    /// Keeps a text for later sheets, if it is a line of use.
    pub fn note(&mut self, text: &[u8]) {
        if text.contains(&b'\n') || is_blank(text) || self.read.len() == MOST_READ && !self.random.once_in(8) {
            return;
        }
        match single(text) {
            Ok(declared) if self.read.len() < MOST_READ => self.keep(text, declared),
            Ok(_) => (),
            Err(_) if self.refused.len() < MOST_REFUSED => self.refused.push(text.to_vec()),
            Err(_) => {
                let place = self.random.below(MOST_REFUSED);
                self.refused[place] = text.to_vec();
            }
        }
    }

    fn keep(&mut self, text: &[u8], declared: Declared) {
        let keyword = KEYWORDS[full::keyword(&declared.record)];
        let repeat = match &declared.sameness {
            (CONSTRUCTOR, _) => b"constructor(int a, string memory) payable ;".to_vec(),
            (_, canonical) => [keyword.as_bytes(), b" ", canonical.as_ref().unwrap()].concat(),
        };
        if self.known.insert(declared.sameness) {
            self.read.push(Line { text: text.to_vec(), repeat });
        }
    }

    /// So many lines that are read, as far as there are so many, in some order.
    fn lines(&mut self, count: usize) -> Vec<Vec<u8>> {
        let many = count > MOST_DECLARATIONS / 2;
        let mut places: Vec<usize> =
            (0..self.read.len()).filter(|i| !many || self.read[*i].text.len() < SHORT).collect();
        for i in 0..count.min(places.len()) {
            let other = i + self.random.below(places.len() - i);
            places.swap(i, other);
        }
        places.iter().take(count).map(|i| self.read[*i].text.clone()).collect()
    }

    fn put(&mut self, lines: &mut Vec<Vec<u8>>, line: Vec<u8>) {
        let place = self.random.below(lines.len() + 1);
        lines.insert(place, line);
    }

    /// Once more what one of the lines says, in its words or in others.
    fn put_repeat(&mut self, lines: &mut Vec<Vec<u8>>) {
        if self.read.is_empty() {
            return;
        }
        let line = &self.read[self.random.below(self.read.len())];
        let (text, repeat) = (line.text.clone(), line.repeat.clone());
        let again = if self.random.once_in(2) { text.clone() } else { repeat };
        self.put(lines, text);
        self.put(lines, again);
    }

    fn put_refused(&mut self, lines: &mut Vec<Vec<u8>>) {
        if self.refused.is_empty() {
            return;
        }
        let line = self.refused[self.random.below(self.refused.len())].clone();
        self.put(lines, line);
    }

    fn put_blank(&mut self, lines: &mut Vec<Vec<u8>>) {
        let line = match self.random.once_in(30) {
            true => " ".repeat(MOST_BYTES + 1),
            false => self.random.of(&BLANK_LINES).to_string(),
        };
        self.put(lines, line.into_bytes());
    }

    /// Blanks behind a text, up to the longest sheet or one byte more.
    fn fill(&mut self, text: &mut Vec<u8>) {
        let blank = *self.random.of(&[&b'\n', &b' ', &b'\r']);
        let size = MOST_TEXT + self.random.below(2);
        if text.len() < size {
            text.push(b'\n');
            text.resize(size, blank);
        }
    }

    pub fn sheet(&mut self) -> Vec<u8> {
        let count = match self.random.below(40) {
            0 | 1 => MOST_DECLARATIONS - 4 + self.random.below(8),
            2..=5 => 20 + self.random.below(100),
            _ => self.random.below(12),
        };
        let mut lines = self.lines(count);
        if self.random.once_in(5) {
            self.put_repeat(&mut lines);
        }
        if self.random.once_in(5) {
            self.put_refused(&mut lines);
        }
        for _ in 0..*self.random.of(&[&0, &0, &1, &2, &10]) {
            self.put_blank(&mut lines);
        }
        let feed = self.random.of(&[&b"\n"[..], b"\n", b"\n", b"\r\n"]);
        let mut text = lines.join(feed);
        if self.random.once_in(20) {
            texts::damage(&mut self.random, &mut text);
        }
        if self.random.once_in(20) {
            self.fill(&mut text);
        }
        text
    }
}
