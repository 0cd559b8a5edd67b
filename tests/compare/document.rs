//! What document 01 and the orders say, where the Rust original has no say: messages whose context
//! cuts a character, which records are well formed, and which kind texts have too many brackets open.
use crate::marks::{INDEXED, LOCATIONS, UNMARKED};

// --- messages -------------------------------------------------------------------------

pub const KEYWORDS: [&str; 4] = ["function", "constructor", "event", "error"];

/// The message of refusals 1 to 7; `call` is the place of the reading call.
pub fn message(call: usize, text: &str, number: u32, position: usize) -> String {
    let wanted = match number {
        1 => "unexpected end of stream".to_string(),
        2 => "expected (".to_string(),
        3 => "expected )".to_string(),
        4 => "expected declaration".to_string(),
        5 if call > 0 => format!("expected {}", KEYWORDS[call - 1]),
        5 => {
            let keyword = KEYWORDS.iter().find(|k| text.starts_with(*k)).unwrap();
            format!("expected {keyword}")
        }
        6 => "expected identifier".to_string(),
        _ => "expected end of declaration".to_string(),
    };
    let start = position.saturating_sub(10);
    let end = text.len().min(position + 10);
    let whole_start = (start..).find(|i| text.is_char_boundary(*i)).unwrap();
    let whole_end = (0..=end).rev().find(|i| text.is_char_boundary(*i)).unwrap();
    let mut context = String::new();
    if start > 0 {
        context += "...";
    }
    escape(&mut context, &text[whole_start..position]);
    context += "|";
    escape(&mut context, &text[position..whole_end]);
    if end < text.len() {
        context += "...";
    }
    format!("{wanted} at position {position}(\"{context}\")")
}

fn escape(out: &mut String, text: &str) {
    for c in text.chars() {
        match c {
            '\0' => out.push_str("\\0"),
            '\t' => out.push_str("\\t"),
            '\n' => out.push_str("\\n"),
            '\r' => out.push_str("\\r"),
            '"' => out.push_str("\\\""),
            '\\' => out.push_str("\\\\"),
            '\u{1}'..='\u{1f}' | '\u{7f}' => out.push_str(&format!("\\u{{{:x}}}", c as u32)),
            _ => out.push(c),
        }
    }
}

/// The Rust's message with characters beyond ASCII copied, not escaped.
pub fn copied(message: &str) -> String {
    let mut out = String::new();
    let mut rest = message;
    while let Some(at) = rest.find('\\') {
        out.push_str(&rest[..at]);
        rest = &rest[at..];
        let length = if rest.starts_with("\\u{") { rest.find('}').unwrap() + 1 } else { 2 };
        let (escaped, behind) = rest.split_at(length);
        match escaped.get(3..length - 1).map(|hex| u32::from_str_radix(hex, 16).unwrap()) {
            Some(code) if code >= 0x80 => out.push(char::from_u32(code).unwrap()),
            _ => out.push_str(escaped),
        }
        rest = behind;
    }
    out + rest
}

// --- brackets -------------------------------------------------------------------------

const MOST_OPEN: i32 = 32;

/// Order 3: where some beginning of a kind text has 33 more `(` than `)`, the place of the first such
/// `(`. The bytes are counted, whatever they stand for.
pub fn crowded(text: &[u8]) -> Option<usize> {
    let mut open = 0;
    text.iter().position(|byte| {
        open += (*byte == b'(') as i32 - (*byte == b')') as i32;
        open > MOST_OPEN
    })
}

// --- records --------------------------------------------------------------------------

/// A well-formed record: its kind, its name (none is empty), and its texts. A field's kind
/// text is its canonical text here.
pub struct Formed<'a> {
    pub kind: u16,
    pub name: &'a [u8],
    pub canonical: Vec<u8>,
    pub outputs: Vec<u8>,
}

/// Bytes of a record's length, and of all that stands before its body.
pub const LENGTH: usize = 4;
pub const HEAD: usize = 6;

pub const FUNCTION: u16 = 0x20;
pub const CONSTRUCTOR: u16 = 0x21;
pub const EVENT: u16 = 0x22;
pub const ERROR: u16 = 0x23;
pub const FIELD: u16 = 0x10;
pub const NAME: u16 = 0x11;
pub const LIST: u16 = 0x12;
pub const INT: u16 = 1;
pub const UINT: u16 = 2;
pub const ADDRESS: u16 = 3;
pub const BOOL: u16 = 4;
pub const BYTES_N: u16 = 5;
pub const FUNCTION_KIND: u16 = 6;
pub const BYTES: u16 = 7;
pub const STRING: u16 = 8;
pub const TUPLE: u16 = 9;
pub const FIXED: u16 = 0xA;
pub const OPEN: u16 = 0xB;

/// Lists by the marks that their fields may have.
#[derive(Clone, Copy)]
pub enum Sort {
    /// Of an error or a tuple; a field by itself too.
    Plain,
    /// Of a function or a constructor.
    Parameter,
    Event,
}

/// None if the record is not well formed.
pub fn formed(record: &[u8]) -> Option<Formed<'_>> {
    let mut rest = record;
    let (kind, mut body) = next(&mut rest)?;
    if record.len() > 40_960 || !rest.is_empty() {
        return None;
    }
    let body = &mut body;
    let (mut canonical, mut outputs) = (vec![], vec![]);
    if kind == FIELD {
        let name = field(body, Sort::Plain, 0, &mut canonical)?;
        return Some(Formed { kind, name, canonical, outputs });
    }
    let most = match kind {
        FUNCTION | CONSTRUCTOR => 3,
        EVENT => 1,
        ERROR => 0,
        _ => return None,
    };
    if kind != ERROR {
        let stated = number(body)?;
        if stated > most || kind == CONSTRUCTOR && stated < 2 {
            return None;
        }
    }
    let mut name = &[][..];
    if kind != CONSTRUCTOR {
        name = word(body).filter(|name| !name.is_empty())?;
        canonical.extend(name);
    }
    list(body, sort_of(kind), &mut canonical)?;
    if kind == FUNCTION {
        list(body, sort_of(kind), &mut outputs)?;
    }
    body.is_empty().then_some(Formed { kind, name, canonical, outputs })
}

/// The sort of a declaration's own lists.
pub fn sort_of(declaration: u16) -> Sort {
    match declaration {
        FUNCTION | CONSTRUCTOR => Sort::Parameter,
        EVENT => Sort::Event,
        _ => Sort::Plain,
    }
}

/// Takes a record off: its kind and its body.
pub fn next<'a>(rest: &mut &'a [u8]) -> Option<(u16, &'a [u8])> {
    let length = u32::from_le_bytes(rest.get(..4)?.try_into().unwrap()) as usize;
    let kind = u16::from_le_bytes(rest.get(4..6)?.try_into().unwrap());
    let body = rest.get(6..length)?;
    *rest = &rest[length..];
    Some((kind, body))
}

pub fn number(rest: &mut &[u8]) -> Option<u16> {
    let n = u16::from_le_bytes(rest.get(..2)?.try_into().unwrap());
    *rest = &rest[2..];
    Some(n)
}

/// Whether a word may go on with a byte.
pub fn lettered(byte: &u8) -> bool {
    byte.is_ascii_alphanumeric() || matches!(byte, b'$' | b'_')
}

/// A name, perhaps empty.
fn word<'a>(rest: &mut &'a [u8]) -> Option<&'a [u8]> {
    let (kind, name) = next(rest)?;
    let digit_first = name.first().is_some_and(u8::is_ascii_digit);
    (kind == NAME && name.iter().all(lettered) && !digit_first).then_some(name)
}

fn list(rest: &mut &[u8], sort: Sort, out: &mut Vec<u8>) -> Option<()> {
    let (kind, body) = next(rest)?;
    if kind != LIST {
        return None;
    }
    fields(body, sort, 0, out)
}

/// Fields up to the end of the body, `nested` tuples deep.
fn fields(mut body: &[u8], sort: Sort, nested: usize, out: &mut Vec<u8>) -> Option<()> {
    out.push(b'(');
    let mut first = true;
    while !body.is_empty() {
        if !first {
            out.push(b',');
        }
        first = false;
        let (kind, mut inside) = next(&mut body)?;
        if kind != FIELD {
            return None;
        }
        field(&mut inside, sort, nested, out)?;
    }
    out.push(b')');
    Some(())
}

/// The body of a field; its kind's text is written and its name handed back.
fn field<'a>(body: &mut &'a [u8], sort: Sort, nested: usize, out: &mut Vec<u8>) -> Option<&'a [u8]> {
    let mark = number(body)?;
    let name = word(body)?;
    let mut located = kind(body, nested, out)?;
    while !body.is_empty() {
        suffix(body, out)?;
        located = true;
    }
    is_mark(sort, located, mark, name).then_some(name)
}

/// A mark that one of the words stands for that may stand there, or none and a name that is no such
/// word; `located` if the kind admits a data location.
fn is_mark(sort: Sort, located: bool, mark: u16, name: &[u8]) -> bool {
    let words = match sort {
        Sort::Event => &[("indexed", INDEXED)][..],
        Sort::Parameter if located => &LOCATIONS,
        _ => &[],
    };
    match mark {
        UNMARKED => words.iter().all(|(word, _)| word.as_bytes() != name),
        _ => words.iter().any(|(_, stands)| *stands == mark),
    }
}

/// A kind without its suffixes; whether it admits a data location.
pub fn kind(rest: &mut &[u8], nested: usize, out: &mut Vec<u8>) -> Option<bool> {
    let (kind, mut body) = next(rest)?;
    let word = match kind {
        INT => "int",
        UINT => "uint",
        ADDRESS => "address",
        BOOL => "bool",
        BYTES_N | BYTES => "bytes",
        FUNCTION_KIND => "function",
        STRING => "string",
        TUPLE if nested < 32 => return fields(body, Sort::Plain, nested + 1, out).map(|()| true),
        _ => return None,
    };
    out.extend(word.bytes());
    if matches!(kind, INT | UINT | BYTES_N) {
        let n = number(&mut body)?;
        let good = match kind {
            BYTES_N => (1..=32).contains(&n),
            _ => n % 8 == 0 && (8..=256).contains(&n),
        };
        if !good {
            return None;
        }
        out.extend(n.to_string().bytes());
    }
    body.is_empty().then_some(matches!(kind, BYTES | STRING))
}

pub fn suffix(rest: &mut &[u8], out: &mut Vec<u8>) -> Option<()> {
    let (kind, body) = next(rest)?;
    match kind {
        FIXED => {
            let n = u64::from_le_bytes(body.try_into().ok()?);
            out.extend(format!("[{n}]").bytes());
        }
        OPEN if body.is_empty() => out.extend(b"[]"),
        _ => return None,
    }
    Some(())
}
