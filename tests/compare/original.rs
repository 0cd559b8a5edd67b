//! What the Rust original answers: `plain` is the original, `marked` the copy that cannot
//! panic and notes where the 33rd tuple is opened.
use crate::document::lettered;
use plain::abi::declaration::ParseError;
use plain::abi::{
    ConstructorDescriptor, Descriptor, ErrorDescriptor, EventDescriptor, Field,
    FunctionDescriptor, StateMutability,
};
use plain::value::{ParseValueKindError, ValueKind};
use std::panic::{catch_unwind, AssertUnwindSafe};

/// The reading calls, in the order of calls::READERS.
pub const GENERAL: usize = 0;
/// The first of those that are named for a keyword, which follow in the order of document::KEYWORDS.
pub const NAMED: usize = 1;
pub const KIND: usize = 5;

pub enum Said {
    /// The record of what was read, and the texts of it that there are.
    Read { record: Vec<u8>, texts: Texts },
    Refused { number: u32, position: usize, message: String },
    /// Where the original panics: number and position as the copy gives them.
    Panicked { number: u32, position: usize },
}

/// Texts of a record; none where the call on it is refused. And its fields that have a tuple, at every
/// depth.
#[derive(Default)]
pub struct Texts {
    pub canonical: Option<Vec<u8>>,
    pub signature: Option<Vec<u8>>,
    pub kind: Option<Vec<u8>>,
    pub name: Option<Vec<u8>>,
    pub tuples: Vec<Lone>,
}

/// A field by itself: its record, its kind's text, and the record of that kind alone, without names.
pub struct Lone {
    pub record: Vec<u8>,
    pub text: Vec<u8>,
    pub bare: Vec<u8>,
}

// --- records, by the layout of document 01 ------------------------------------------

/// Writes a record around what `body` writes.
fn record(out: &mut Vec<u8>, kind: u16, body: impl FnOnce(&mut Vec<u8>)) {
    let start = out.len();
    out.extend([0; 4]);
    out.extend(kind.to_le_bytes());
    body(out);
    let length = (out.len() - start) as u32;
    out[start..start + 4].copy_from_slice(&length.to_le_bytes());
}

fn number(out: &mut Vec<u8>, n: u16) {
    out.extend(n.to_le_bytes());
}

fn name(out: &mut Vec<u8>, name: &str) {
    record(out, 0x11, |out| out.extend(name.as_bytes()));
}

fn kind(out: &mut Vec<u8>, k: &ValueKind, components: Option<&[Field]>) {
    match k {
        ValueKind::Int(w) => record(out, 1, |out| number(out, w.get() as u16)),
        ValueKind::Uint(w) => record(out, 2, |out| number(out, w.get() as u16)),
        ValueKind::Address => record(out, 3, |_| ()),
        ValueKind::Bool => record(out, 4, |_| ()),
        ValueKind::FixedBytes(n) => record(out, 5, |out| number(out, n.get() as u16)),
        ValueKind::Function => record(out, 6, |_| ()),
        ValueKind::Bytes => record(out, 7, |_| ()),
        ValueKind::String => record(out, 8, |_| ()),
        ValueKind::Tuple(kinds) => match components {
            Some(fields) => {
                assert!(fields.iter().map(|f| &f.kind).eq(kinds));
                record(out, 9, |out| fields.iter().for_each(|f| field(out, f, 0)));
            }
            None => record(out, 9, |out| kinds.iter().for_each(|k| bare(out, k))),
        },
        ValueKind::FixedArray(n, inner) => {
            kind(out, inner, components);
            record(out, 0xA, |out| out.extend((*n as u64).to_le_bytes()));
        }
        ValueKind::Array(inner) => {
            kind(out, inner, components);
            record(out, 0xB, |_| ());
        }
    }
}

fn field(out: &mut Vec<u8>, f: &Field, mark: u16) {
    record(out, 0x10, |out| {
        number(out, mark);
        name(out, &f.name);
        kind(out, &f.kind, f.components.as_deref());
    });
}

/// A kind by itself: a field with mark 0 and no names, nor any in its tuples.
fn bare(out: &mut Vec<u8>, k: &ValueKind) {
    record(out, 0x10, |out| {
        number(out, 0);
        name(out, "");
        kind(out, k, None);
    });
}

fn list<'a>(out: &mut Vec<u8>, fields: impl Iterator<Item = (&'a Field, bool)>) {
    record(out, 0x12, |out| fields.for_each(|(f, indexed)| field(out, f, indexed as u16)));
}

fn mutability(out: &mut Vec<u8>, m: StateMutability) {
    let n = match m {
        StateMutability::Pure => 0,
        StateMutability::View => 1,
        StateMutability::NonPayable => 2,
        StateMutability::Payable => 3,
    };
    number(out, n);
}

fn encode(descriptor: &Descriptor) -> Vec<u8> {
    let mut out = vec![];
    match descriptor {
        Descriptor::Function(d) => record(&mut out, 0x20, |out| {
            mutability(out, d.state_mutability);
            name(out, &d.name);
            list(out, d.inputs.iter().map(|p| (&p.field, false)));
            list(out, d.outputs.iter().map(|p| (&p.field, false)));
        }),
        Descriptor::Constructor(d) => record(&mut out, 0x21, |out| {
            mutability(out, d.state_mutability);
            list(out, d.inputs.iter().map(|p| (&p.field, false)));
        }),
        Descriptor::Event(d) => record(&mut out, 0x22, |out| {
            number(out, d.anonymous as u16);
            name(out, &d.name);
            list(out, d.inputs.iter().map(|f| (&f.field, f.indexed)));
        }),
        Descriptor::Error(d) => record(&mut out, 0x23, |out| {
            name(out, &d.name);
            list(out, d.inputs.iter().map(|f| (f, false)));
        }),
        _ => unreachable!("no text reads as this"),
    }
    out
}

fn texts(descriptor: &Descriptor) -> Texts {
    let (canonical, name) = match descriptor {
        Descriptor::Function(d) => (d.canonical().to_string(), &d.name),
        Descriptor::Event(d) => (d.canonical().to_string(), &d.name),
        Descriptor::Error(d) => (d.canonical().to_string(), &d.name),
        _ => return Texts::default(),
    };
    let signature = match descriptor {
        Descriptor::Function(d) => Some(d.signature().to_string().into_bytes()),
        _ => None,
    };
    let name = Some(name.as_bytes().to_vec());
    Texts { canonical: Some(canonical.into_bytes()), signature, kind: None, name, tuples: vec![] }
}

/// The fields of a declaration's own lists.
fn own_fields(descriptor: &Descriptor) -> Vec<&Field> {
    match descriptor {
        Descriptor::Function(d) => d.inputs.iter().chain(&d.outputs).map(|p| &p.field).collect(),
        Descriptor::Constructor(d) => d.inputs.iter().map(|p| &p.field).collect(),
        Descriptor::Event(d) => d.inputs.iter().map(|f| &f.field).collect(),
        Descriptor::Error(d) => d.inputs.iter().collect(),
        _ => unreachable!("no text reads as this"),
    }
}

fn lone(f: &Field) -> Lone {
    let (mut record, mut alone) = (vec![], vec![]);
    field(&mut record, f, 0);
    bare(&mut alone, &f.kind);
    Lone { record, text: f.kind.to_string().into_bytes(), bare: alone }
}

/// The fields that have a tuple, and those within it; of several that are the same, one.
fn tuples(fields: Vec<&Field>, out: &mut Vec<Lone>) {
    for f in fields {
        if let Some(components) = &f.components {
            let lone = lone(f);
            if out.iter().all(|other| other.record != lone.record) {
                out.push(lone);
                tuples(components.iter().collect(), out);
            }
        }
    }
}

// --- calls ----------------------------------------------------------------------------

/// A reading call of one of the two crates.
macro_rules! parse {
    ($of:ident, $call:expr, $text:expr) => {{
        use $of::abi::*;
        match $call {
            GENERAL => Descriptor::parse_declaration($text),
            1 => FunctionDescriptor::parse_declaration($text).map(Descriptor::Function),
            2 => ConstructorDescriptor::parse_declaration($text).map(Descriptor::Constructor),
            3 => EventDescriptor::parse_declaration($text).map(Descriptor::Event),
            _ => ErrorDescriptor::parse_declaration($text).map(Descriptor::Error),
        }
    }};
}

/// Number and position, from the derived Debug text of a `ParseError`.
fn refusal(debug: &str) -> (u32, usize) {
    let rest = debug.strip_prefix("ParseError { kind: ").unwrap();
    let (kind, rest) = rest.split_once(", pos: ").unwrap();
    let (position, _) = rest.split_once(", context: ").unwrap();
    let number = match kind {
        "Eos" => 1,
        "ExpectChar('(')" => 2,
        "ExpectChar(')')" => 3,
        "Expect(\"declaration\")" => 4,
        "Expect(\"identifier\")" => 6,
        "Expect(\"end of declaration\")" => 7,
        _ => 5,
    };
    (number, position.parse().unwrap())
}

pub fn read(call: usize, text: &str) -> Said {
    if call == KIND {
        return if text.starts_with('(') { read_tuple(text) } else { read_kind(text) };
    }
    match catch_unwind(AssertUnwindSafe(|| parse!(plain, call, text))) {
        Ok(Ok(d)) => {
            let mut texts = texts(&d);
            tuples(own_fields(&d), &mut texts.tuples);
            Said::Read { record: encode(&d), texts }
        }
        Ok(Err(e)) => refused(e),
        Err(_) => {
            let (number, position) = refusal(&format!("{:?}", parse!(marked, call, text).unwrap_err()));
            Said::Panicked { number, position }
        }
    }
}

fn refused(e: ParseError) -> Said {
    let (number, position) = refusal(&format!("{e:?}"));
    Said::Refused { number, position, message: e.to_string() }
}

/// What the original's own reader of kinds says.
fn own_kind(text: &str) -> Result<ValueKind, u32> {
    text.parse().map_err(|e| match e {
        ParseValueKindError::InvalidBitWidth => 11,
        ParseValueKindError::InvalidByteLength => 12,
        _ => UNKNOWN,
    })
}

fn read_kind(text: &str) -> Said {
    match own_kind(text) {
        Ok(kind) => {
            let (name, components, internal_type) = (String::new(), None, None);
            read_field(&Field { name, kind, components, internal_type })
        }
        Err(number) => no_kind(number),
    }
}

fn read_field(f: &Field) -> Said {
    let Lone { record, text, .. } = lone(f);
    Said::Read { record, texts: Texts { kind: Some(text), name: Some(vec![]), ..Texts::default() } }
}

fn no_kind(number: u32) -> Said {
    Said::Refused { number, position: 0, message: String::new() }
}

// --- order 3: kind texts that start with a bracket ----------------------------------------

/// The refusal of what is no kind.
const UNKNOWN: u32 = 13;

fn is_nameless(f: &Field) -> bool {
    f.name.is_empty() && f.components.iter().flatten().all(is_nameless)
}

/// The one field of an error's list that is this text, without blanks and names. The list's bracket is
/// the last character, behind which there is no room for more, so the list is the text and no less.
fn only_field(text: &str) -> Option<Field> {
    let around = format!("error e({text})");
    // The original panics only where it refuses.
    let read = catch_unwind(AssertUnwindSafe(|| ErrorDescriptor::parse_declaration(&around)));
    let mut fields = read.ok()?.ok()?.inputs;
    let only = fields.pop().filter(|f| fields.is_empty() && is_nameless(f))?;
    (!text.contains(char::is_whitespace)).then_some(only)
}

/// A kind text that starts with `(`, by the original's reader of lists; what it does not read so is no
/// kind, whatever is wrong with it.
fn read_tuple(text: &str) -> Said {
    only_field(text).map_or_else(|| no_kind(UNKNOWN), |f| read_field(&f))
}

/// Whether the original's own reader of kinds says the same: the same kind, or the same number.
pub fn agrees(text: &str, said: &Said) -> bool {
    match (own_kind(text), said) {
        (Ok(kind), Said::Read { texts, .. }) => texts.kind == Some(kind.to_string().into_bytes()),
        (Err(own), Said::Refused { number, .. }) => own == *number,
        _ => false,
    }
}

// --- order 7: numbers that are not plain --------------------------------------------------

/// Whether a number may stand behind this: behind a bracket, or behind a word that takes a width or a
/// length, where a kind begins.
fn awaits_number(before: &str) -> bool {
    let parts = |c: char| c.is_whitespace() || matches!(c, '(' | ',' | ')');
    let run = before.rsplit(parts).next().unwrap();
    let front = before[..before.len() - run.len()].trim_end();
    let begins = front.is_empty() || front.ends_with(['(', ',']);
    before.ends_with('[') || begins && matches!(run, "int" | "uint" | "bytes")
}

/// The text with as many letters for each number with a sign or a leading zero; none if it has none.
pub fn with_letters(text: &str) -> Option<String> {
    let mut letters = text.as_bytes().to_vec();
    let mut at = 0;
    while at < text.len() {
        let signed = text.as_bytes()[at] == b'+';
        let digits = text.bytes().skip(at + signed as usize).take_while(u8::is_ascii_digit).count();
        let end = at + signed as usize + digits;
        let leading_zero = digits > 1 && text.as_bytes()[at] == b'0';
        if digits > 0 && (signed || leading_zero) && awaits_number(&text[..at]) {
            letters[at..end].fill(b'x');
        }
        at = end.max(at + 1);
    }
    (letters != text.as_bytes()).then(|| String::from_utf8(letters).unwrap())
}

/// Whether the original answers the two texts otherwise, but for what it read.
pub fn differ(call: usize, text: &str, other: &str) -> bool {
    let [one, two] = [text, other].map(|text| match read(call, text) {
        Said::Read { .. } => None,
        Said::Refused { number, position, .. } | Said::Panicked { number, position } => Some((number, position)),
    });
    one != two
}

/// Order 2's words, which the original does not know.
pub const VISIBILITY: [&str; 2] = ["external", "public"];

/// The refusal of what stands where the declaration should end.
const EXPECT_END: u32 = 7;

/// Whether a text begins with a word, and not with a longer one.
fn begins(text: &str, word: &str) -> bool {
    text.strip_prefix(word).is_some_and(|rest| !rest.as_bytes().first().is_some_and(lettered))
}

/// The text with its first visibility word as many spaces, if one stands where it may: the original
/// wants the end of the declaration there, and reads what is before it with ` returns ()` behind.
pub fn spaced(call: usize, text: &str) -> Option<String> {
    if call == KIND || !VISIBILITY.iter().any(|word| text.contains(word)) {
        return None;
    }
    let error = parse!(marked, call, text).err()?;
    let (number, position) = refusal(&format!("{error:?}"));
    let (before, behind) = text.split_at(position);
    let word = VISIBILITY.iter().find(|word| number == EXPECT_END && begins(behind, word))?;
    parse!(marked, call, &format!("{before} returns ()")).ok()?;
    Some([before, &" ".repeat(word.len()), &behind[word.len()..]].concat())
}

/// Where the original opens a 33rd tuple, if it does.
pub fn too_deep(call: usize, text: &str) -> Option<usize> {
    if call == KIND || text.bytes().filter(|b| *b == b'(').count() <= 33 {
        return None;
    }
    marked::deep::start();
    let _ = parse!(marked, call, text);
    marked::deep::met()
}
