//! Order 1: in a function's and a constructor's own lists a field's mark keeps the place word, which
//! the Rust forgets.
use crate::document::{CONSTRUCTOR, FUNCTION, HEAD, LENGTH};

pub const UNMARKED: u16 = 0;
pub const INDEXED: u16 = 1;
pub const CALLDATA: u16 = 2;
pub const MEMORY: u16 = 3;

/// The place words and the marks that they stand for.
pub const LOCATIONS: [(&str, u16); 2] = [("calldata", CALLDATA), ("memory", MEMORY)];

/// Bytes of a number in a body.
const NUMBER: usize = 2;

// --- own lists of a record ------------------------------------------------------------

/// Where the record ends that begins there. It has a head at least, so that a walk over records goes on.
fn end(record: &[u8], at: usize) -> Option<usize> {
    let length = u32::from_le_bytes(record.get(at..at + LENGTH)?.try_into().unwrap()) as usize;
    (HEAD <= length).then_some(at + length)
}

fn number(record: &[u8], at: usize) -> Option<u16> {
    Some(u16::from_le_bytes(record.get(at..at + NUMBER)?.try_into().unwrap()))
}

/// Where the fields of the own lists begin: of a function's inputs and outputs and a constructor's
/// inputs, and none of another record. None if the record ends too early.
fn own_fields(record: &[u8]) -> Option<Vec<usize>> {
    let mut at = HEAD + NUMBER;
    let lists = match number(record, LENGTH)? {
        FUNCTION => {
            at = end(record, at)?;
            2
        }
        CONSTRUCTOR => 1,
        _ => 0,
    };
    let mut fields = vec![];
    for _ in 0..lists {
        let behind = end(record, at)?;
        at += HEAD;
        while at < behind {
            fields.push(at);
            at = end(record, at)?;
        }
    }
    Some(fields)
}

/// The mark and the name of each field of the own lists.
pub fn of_record(record: &[u8]) -> Option<Vec<(u16, &[u8])>> {
    let marked = |field: usize| {
        let name = field + HEAD + NUMBER;
        Some((number(record, field + HEAD)?, record.get(name + HEAD..end(record, name)?)?))
    };
    own_fields(record)?.into_iter().map(marked).collect()
}

/// A copy in which the marks of place words are 0 in the own lists, and nowhere else.
pub fn forgotten(record: &[u8]) -> Option<Vec<u8>> {
    let mut copy = record.to_vec();
    for field in own_fields(record)? {
        if matches!(number(record, field + HEAD)?, CALLDATA | MEMORY) {
            copy[field + HEAD..][..NUMBER].copy_from_slice(&UNMARKED.to_le_bytes());
        }
    }
    Some(copy)
}

/// A copy with these marks in the own lists.
pub fn marked(record: &[u8], marks: &[u16]) -> Vec<u8> {
    let mut copy = record.to_vec();
    for (field, mark) in own_fields(record).expect("a record by document 01").into_iter().zip(marks) {
        copy[field + HEAD..][..NUMBER].copy_from_slice(&mark.to_le_bytes());
    }
    copy
}

// --- own lists of a text --------------------------------------------------------------

/// What stands between the brackets and commas of a text's own lists, none of it within a tuple. A list
/// of no fields has only blanks there.
fn own_texts(text: &str) -> Vec<&str> {
    let (mut texts, mut open, mut start) = (vec![], 0, 0);
    for (at, byte) in text.bytes().enumerate() {
        if open == 1 && matches!(byte, b',' | b')') {
            texts.push(&text[start..at]);
            start = at + 1;
        }
        match byte {
            b'(' if open == 0 => (open, start) = (1, at + 1),
            b'(' => open += 1,
            b')' => open -= 1,
            _ => (),
        }
    }
    texts.retain(|field| !field.trim().is_empty());
    texts
}

/// The mark by the word that stands before the name and behind the kind, of which none ends so.
fn of_field(text: &str, name: &[u8]) -> u16 {
    let name = std::str::from_utf8(name).unwrap();
    let before = text.trim_end().strip_suffix(name).expect("a field ends with its name").trim_end();
    LOCATIONS.iter().find(|(word, _)| before.ends_with(word)).map_or(UNMARKED, |(_, mark)| *mark)
}

/// The marks by the words of a text that the Rust read as this record: it tells which words are names.
pub fn of_text(text: &str, read: &[u8]) -> Vec<u16> {
    if !LOCATIONS.iter().any(|(word, _)| text.contains(word)) {
        return vec![];
    }
    let fields = of_record(read).expect("the Rust's record is laid out by document 01");
    if fields.is_empty() {
        return vec![];
    }
    let texts = own_texts(text);
    assert_eq!(texts.len(), fields.len(), "{text}");
    texts.iter().zip(fields).map(|(text, (_, name))| of_field(text, name)).collect()
}
