//! Oracle: answers of the published Rust reader, one line per input line.
//!
//! Input  `CALL HEX`, CALL one of general, function, constructor, event, error,
//! kind; HEX the text's bytes, `-` if empty. A kind text that starts with `(` is asked for in
//! an error's list, since the original's own reader of kinds loses a tuple's last component.
//! Output `ok RECORDHEX CANONHEX SIGHEX`, `no NUMBER POS MSGHEX`, or, where the
//! original panics in `with_context`, `panic NUMBER POS -` (number and position from
//! the copy whose two slices there cannot panic). `-` stands for what there is none of:
//! an empty text, a constructor's canonical text, the message of a refusal without one.
use plain::abi::{
    ConstructorDescriptor, Descriptor, ErrorDescriptor, EventDescriptor, Field, FunctionDescriptor,
    Parameter, StateMutability,
};
use plain::value::{ParseValueKindError, ValueKind};
use std::io::{BufRead, BufWriter, Write};
use std::panic::{catch_unwind, AssertUnwindSafe};

fn unhex(s: &str) -> Vec<u8> {
    if s == "-" {
        return vec![];
    }
    (0..s.len() / 2)
        .map(|i| u8::from_str_radix(&s[2 * i..2 * i + 2], 16).unwrap())
        .collect()
}

fn hex(b: &[u8]) -> String {
    if b.is_empty() {
        return "-".into();
    }
    let mut s = String::with_capacity(2 * b.len());
    for x in b {
        s.push(char::from_digit((x >> 4) as u32, 16).unwrap());
        s.push(char::from_digit((x & 15) as u32, 16).unwrap());
    }
    s
}

// --- the record of document 01 ------------------------------------------------

fn rec(kind: u16, body: &[u8]) -> Vec<u8> {
    let mut v = ((body.len() + 6) as u32).to_le_bytes().to_vec();
    v.extend(kind.to_le_bytes());
    v.extend(body);
    v
}

fn name_rec(n: &str) -> Vec<u8> {
    rec(0x11, n.as_bytes())
}

/// Kind record and suffix records, innermost first.
fn kind_recs(kind: &ValueKind, components: Option<&Vec<Field>>) -> Vec<u8> {
    let mut suffixes: Vec<Vec<u8>> = vec![];
    let mut k = kind;
    loop {
        match k {
            ValueKind::FixedArray(n, inner) => {
                suffixes.push(rec(0xA, &(*n as u64).to_le_bytes()));
                k = inner;
            }
            ValueKind::Array(inner) => {
                suffixes.push(rec(0xB, &[]));
                k = inner;
            }
            _ => break,
        }
    }
    let mut out = match k {
        ValueKind::Int(w) => rec(1, &(w.get() as u16).to_le_bytes()),
        ValueKind::Uint(w) => rec(2, &(w.get() as u16).to_le_bytes()),
        ValueKind::Address => rec(3, &[]),
        ValueKind::Bool => rec(4, &[]),
        ValueKind::FixedBytes(n) => rec(5, &(n.get() as u16).to_le_bytes()),
        ValueKind::Function => rec(6, &[]),
        ValueKind::Bytes => rec(7, &[]),
        ValueKind::String => rec(8, &[]),
        ValueKind::Tuple(kinds) => {
            let mut body = vec![];
            match components {
                Some(fields) => {
                    // The tree must be the components' kinds.
                    assert!(fields.iter().map(|f| &f.kind).eq(kinds.iter()));
                    for f in fields {
                        body.extend(field_rec(0, f));
                    }
                }
                None => {
                    for k in kinds {
                        body.extend(bare(k));
                    }
                }
            }
            rec(9, &body)
        }
        _ => unreachable!(),
    };
    for s in suffixes.iter().rev() {
        out.extend(s);
    }
    out
}

fn field_of(mark: u16, name: &str, kinds: Vec<u8>) -> Vec<u8> {
    let mut body = mark.to_le_bytes().to_vec();
    body.extend(name_rec(name));
    body.extend(kinds);
    rec(0x10, &body)
}

fn bare(k: &ValueKind) -> Vec<u8> {
    field_of(0, "", kind_recs(k, None))
}

fn field_rec(mark: u16, f: &Field) -> Vec<u8> {
    field_of(mark, &f.name, kind_recs(&f.kind, f.components.as_ref()))
}

fn params(ps: &[Parameter]) -> Vec<u8> {
    let mut body = vec![];
    for p in ps {
        body.extend(field_rec(0, &p.field));
    }
    rec(0x12, &body)
}

fn mutability(m: StateMutability) -> [u8; 2] {
    match m {
        StateMutability::Pure => 0u16,
        StateMutability::View => 1,
        StateMutability::NonPayable => 2,
        StateMutability::Payable => 3,
    }
    .to_le_bytes()
}

fn function(d: &FunctionDescriptor) -> String {
    let mut b = mutability(d.state_mutability).to_vec();
    b.extend(name_rec(&d.name));
    b.extend(params(&d.inputs));
    b.extend(params(&d.outputs));
    format!(
        "ok {} {} {}",
        hex(&rec(0x20, &b)),
        hex(d.canonical().to_string().as_bytes()),
        hex(d.signature().to_string().as_bytes())
    )
}

fn constructor(d: &ConstructorDescriptor) -> String {
    let mut b = mutability(d.state_mutability).to_vec();
    b.extend(params(&d.inputs));
    format!("ok {} - -", hex(&rec(0x21, &b)))
}

fn event(d: &EventDescriptor) -> String {
    let mut b = (d.anonymous as u16).to_le_bytes().to_vec();
    b.extend(name_rec(&d.name));
    let mut l = vec![];
    for f in &d.inputs {
        l.extend(field_rec(f.indexed as u16, &f.field));
    }
    b.extend(rec(0x12, &l));
    format!(
        "ok {} {} -",
        hex(&rec(0x22, &b)),
        hex(d.canonical().to_string().as_bytes())
    )
}

fn error(d: &ErrorDescriptor) -> String {
    let mut b = name_rec(&d.name);
    let mut l = vec![];
    for f in &d.inputs {
        l.extend(field_rec(0, f));
    }
    b.extend(rec(0x12, &l));
    format!(
        "ok {} {} -",
        hex(&rec(0x23, &b)),
        hex(d.canonical().to_string().as_bytes())
    )
}

// --- errors ---------------------------------------------------------------------

/// Number and position, from the derived Debug text of a `ParseError`.
fn number(debug: &str) -> (u32, usize) {
    let rest = debug.strip_prefix("ParseError { kind: ").unwrap();
    let (kind, rest) = rest.split_once(", pos: ").unwrap();
    let (pos, _) = rest.split_once(", context: ").unwrap();
    let n = match kind {
        "Eos" => 1,
        "ExpectChar('(')" => 2,
        "ExpectChar(')')" => 3,
        "Expect(\"declaration\")" => 4,
        "Expect(\"function\")" | "Expect(\"constructor\")" | "Expect(\"event\")"
        | "Expect(\"error\")" => 5,
        "Expect(\"identifier\")" => 6,
        "Expect(\"end of declaration\")" => 7,
        other => panic!("unmapped error kind {other}"),
    };
    (n, pos.parse().unwrap())
}

fn refused(e: impl std::fmt::Debug + std::fmt::Display) -> String {
    let (n, pos) = number(&format!("{e:?}"));
    format!("no {n} {pos} {}", hex(e.to_string().as_bytes()))
}

// --- kind texts that start with a bracket -------------------------------------------

fn is_nameless(f: &Field) -> bool {
    f.name.is_empty() && f.components.iter().flatten().all(is_nameless)
}

/// The only field of an error's list, if the text is one without blanks and names. The text of the
/// error ends with the list's bracket, so the list is the text and no less.
fn only_field(s: &str) -> Option<Field> {
    let around = format!("error e({s})");
    // The original panics only where it refuses.
    let read = catch_unwind(AssertUnwindSafe(|| ErrorDescriptor::parse_declaration(&around)));
    let mut fields = read.ok()?.ok()?.inputs;
    let only = fields.pop().filter(|f| fields.is_empty() && is_nameless(f))?;
    (!s.contains(char::is_whitespace)).then_some(only)
}

/// Order 3: what is no such field gets 13, whatever is wrong with it.
fn tuple_answer(s: &str) -> String {
    match only_field(s) {
        Some(f) => format!("ok {} {} -", hex(&field_rec(0, &f)), hex(f.kind.to_string().as_bytes())),
        None => "no 13 0 -".into(),
    }
}

fn answer(call: &str, s: &str) -> String {
    match call {
        "general" => match Descriptor::parse_declaration(s) {
            Ok(Descriptor::Function(d)) => function(&d),
            Ok(Descriptor::Constructor(d)) => constructor(&d),
            Ok(Descriptor::Event(d)) => event(&d),
            Ok(Descriptor::Error(d)) => error(&d),
            Ok(_) => unreachable!(),
            Err(e) => refused(e),
        },
        "function" => match FunctionDescriptor::parse_declaration(s) {
            Ok(d) => function(&d),
            Err(e) => refused(e),
        },
        "constructor" => match ConstructorDescriptor::parse_declaration(s) {
            Ok(d) => constructor(&d),
            Err(e) => refused(e),
        },
        "event" => match EventDescriptor::parse_declaration(s) {
            Ok(d) => event(&d),
            Err(e) => refused(e),
        },
        "error" => match ErrorDescriptor::parse_declaration(s) {
            Ok(d) => error(&d),
            Err(e) => refused(e),
        },
        "kind" if s.starts_with('(') => tuple_answer(s),
        "kind" => match s.parse::<ValueKind>() {
            Ok(k) => format!("ok {} {} -", hex(&bare(&k)), hex(k.to_string().as_bytes())),
            Err(e) => {
                let n = match e {
                    ParseValueKindError::InvalidBitWidth => 11,
                    ParseValueKindError::InvalidByteLength => 12,
                    ParseValueKindError::FunctionSignature => unreachable!(),
                    ParseValueKindError::Unknown => 13,
                };
                format!("no {n} 0 -")
            }
        },
        other => panic!("unknown call {other}"),
    }
}

/// Number and position where the original panics (the kind call never does).
fn patched_answer(call: &str, s: &str) -> String {
    use patched::abi as p;
    let e = match call {
        "general" => p::Descriptor::parse_declaration(s).unwrap_err(),
        "function" => p::FunctionDescriptor::parse_declaration(s).unwrap_err(),
        "constructor" => p::ConstructorDescriptor::parse_declaration(s).unwrap_err(),
        "event" => p::EventDescriptor::parse_declaration(s).unwrap_err(),
        "error" => p::ErrorDescriptor::parse_declaration(s).unwrap_err(),
        other => panic!("unknown call {other}"),
    };
    let (n, pos) = number(&format!("{e:?}"));
    format!("panic {n} {pos} -")
}

fn run() {
    // The original's panics are answers here, not failures: no words about them.
    std::panic::set_hook(Box::new(|_| {}));
    let mut out = BufWriter::new(std::io::stdout().lock());
    for line in std::io::stdin().lock().lines() {
        let line = line.unwrap();
        let (call, h) = line.split_once(' ').unwrap();
        let bytes = unhex(h);
        let text = match std::str::from_utf8(&bytes) {
            Ok(s) => match catch_unwind(AssertUnwindSafe(|| answer(call, s))) {
                Ok(a) => a,
                Err(_) => patched_answer(call, s),
            },
            Err(e) => format!("no 9 {} -", e.valid_up_to()),
        };
        writeln!(out, "{text}").unwrap();
    }
}

fn main() {
    std::thread::Builder::new()
        .stack_size(1 << 30)
        .spawn(run)
        .unwrap()
        .join()
        .unwrap_or_else(|_| {
            eprintln!("the oracle met a line that it cannot answer");
            std::process::exit(2)
        });
}
