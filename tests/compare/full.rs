//! Order 4: the full line of a declaration, by the order's sentence, from a well-formed record.
use crate::document::{
    kind, next, number, suffix, CONSTRUCTOR, ERROR, EVENT, FUNCTION, HEAD, KEYWORDS, LENGTH, TUPLE,
};
use crate::marks::{INDEXED, LOCATIONS};
use crate::rows::{PAYABLE, PURE, VIEW};

const ANONYMOUS: u16 = 1;

/// The place of a declaration's keyword.
pub fn keyword(record: &[u8]) -> usize {
    let kind = u16::from_le_bytes(record[LENGTH..HEAD].try_into().unwrap());
    (kind - FUNCTION).into()
}

/// The keyword; a space and the name, none for a constructor; the list; a space and the mutability word
/// unless none is stated; ` returns ` and the list if there are outputs; ` anonymous` where it is set.
pub fn line(record: &[u8]) -> Vec<u8> {
    let mut out = KEYWORDS[keyword(record)].as_bytes().to_vec();
    let (kind, mut rest) = taken(&mut &record[..]);
    let stated = if kind == ERROR { None } else { number(&mut rest) };
    if kind != CONSTRUCTOR {
        spaced(taken(&mut rest).1, &mut out);
    }
    fields(taken(&mut rest).1, &mut out);
    match (kind, stated) {
        (FUNCTION | CONSTRUCTOR, Some(PURE)) => spaced(b"pure", &mut out),
        (FUNCTION | CONSTRUCTOR, Some(VIEW)) => spaced(b"view", &mut out),
        (FUNCTION | CONSTRUCTOR, Some(PAYABLE)) => spaced(b"payable", &mut out),
        _ => (),
    }
    if kind == FUNCTION {
        let outputs = taken(&mut rest).1;
        if !outputs.is_empty() {
            out.extend(b" returns ");
            fields(outputs, &mut out);
        }
    }
    if (kind, stated) == (EVENT, Some(ANONYMOUS)) {
        spaced(b"anonymous", &mut out);
    }
    out
}

/// Takes a record off: its kind and its body.
fn taken<'a>(rest: &mut &'a [u8]) -> (u16, &'a [u8]) {
    next(rest).expect("the record is well formed")
}

/// A space and a word, if there is one.
fn spaced(word: &[u8], out: &mut Vec<u8>) {
    if !word.is_empty() {
        out.push(b' ');
        out.extend(word);
    }
}

/// The fields of a list or a tuple in brackets, parted by `,`.
fn fields(mut body: &[u8], out: &mut Vec<u8>) {
    out.push(b'(');
    let mut first = true;
    while !body.is_empty() {
        if !first {
            out.push(b',');
        }
        first = false;
        field(taken(&mut body).1, out);
    }
    out.push(b')');
}

/// The kind, of whose tuple the components are written so; a space and the mark word if there is a
/// mark; a space and the name if there is one.
fn field(mut body: &[u8], out: &mut Vec<u8>) {
    let mark = number(&mut body);
    let name = taken(&mut body).1;
    match taken(&mut &body[..]) {
        (TUPLE, components) => {
            fields(components, out);
            taken(&mut body);
        }
        _ => drop(kind(&mut body, 0, out)),
    }
    while !body.is_empty() {
        suffix(&mut body, out);
    }
    let words = [&[("indexed", INDEXED)][..], &LOCATIONS].concat();
    let word = words.iter().find(|(_, stands)| Some(*stands) == mark);
    spaced(word.map_or("", |(word, _)| word).as_bytes(), out);
    spaced(name, out);
}
