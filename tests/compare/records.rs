//! Made-up records: most well formed, the others next to it.
use crate::document::{
    sort_of, Sort, BOOL, BYTES, BYTES_N, CONSTRUCTOR, ERROR, EVENT, FIELD, FIXED, FUNCTION, FUNCTION_KIND,
    HEAD, INT, LIST, NAME, OPEN, STRING, TUPLE, UINT,
};
use crate::marks::{CALLDATA, INDEXED, MEMORY, UNMARKED};
use crate::random::Random;

/// Room for a number that is put in later.
const UNKNOWN: [u8; 2] = [0; 2];

pub struct Maker<'a> {
    pub random: &'a mut Random,
    pub out: Vec<u8>,
    /// How many faults may still be put in.
    pub faults: usize,
    /// How many more tuples may be opened.
    pub deep: usize,
}

impl Maker<'_> {
    pub fn record(&mut self) {
        let kind = *self.random.of(&[&FUNCTION, &FUNCTION, &CONSTRUCTOR, &EVENT, &ERROR, &FIELD]);
        if kind == FIELD {
            return self.field(Sort::Plain);
        }
        let start = self.open(kind);
        let numbers = match kind {
            FUNCTION => 4,
            EVENT => 2,
            _ => 0,
        };
        if kind == CONSTRUCTOR {
            let stated = 2 + self.random.below(2) as u16;
            self.number(stated);
        } else if numbers > 0 {
            let stated = self.random.below(numbers) as u16;
            self.number(stated);
        }
        if kind != CONSTRUCTOR {
            self.name(false);
        }
        self.list(sort_of(kind));
        if kind == FUNCTION {
            self.list(sort_of(kind));
        }
        self.close(start);
    }

    /// Whether to put in a fault here.
    fn fault(&mut self) -> bool {
        let put = self.faults > 0 && self.random.once_in(6);
        self.faults -= put as usize;
        put
    }

    fn open(&mut self, kind: u16) -> usize {
        let start = self.out.len();
        self.out.extend([0; 4]);
        let other = self.random.below(0x26) as u16;
        let kind = if self.fault() { other } else { kind };
        self.out.extend(kind.to_le_bytes());
        start
    }

    fn close(&mut self, start: usize) {
        let mut length = (self.out.len() - start) as u32;
        if self.fault() {
            let by = *self.random.of(&[&1, &6, &8, &0x1_0000, &0x8000_0000, &0x100_0000]);
            length = if self.random.once_in(2) { length.wrapping_add(by) } else { length.wrapping_sub(by) };
        }
        self.out[start..start + 4].copy_from_slice(&length.to_le_bytes());
    }

    fn number(&mut self, n: u16) {
        let at = self.out.len();
        self.out.extend(UNKNOWN);
        self.number_at(at, n);
    }

    /// Puts a number where room was left for it.
    fn number_at(&mut self, at: usize, n: u16) {
        let other = *self.random.of(&[&0, &1, &2, &3, &4, &7, &12, &33, &256, &264, &0x108, &0x8001]);
        let n = if self.fault() { other } else { n };
        self.out[at..at + UNKNOWN.len()].copy_from_slice(&n.to_le_bytes());
    }

    fn name(&mut self, may_be_empty: bool) {
        let start = self.open(NAME);
        let good = self.random.of(&[
            "a", "$", "_9", "amount", "Zz09", "indexed", "memory", "calldata", "returns", "pure", "anonymous",
            "function",
        ]);
        let bad = self.random.of(&["", "9", "a b", "é", "a.", "a\0", "@", "[", "`", "{", "/", ":"]);
        let none = may_be_empty && self.random.once_in(3);
        let name = if none { "" } else if self.fault() { bad } else { good };
        self.out.extend(name.bytes());
        self.close(start);
    }

    fn list(&mut self, sort: Sort) {
        let start = self.open(LIST);
        self.fields(sort);
        self.close(start);
    }

    fn fields(&mut self, sort: Sort) {
        let fields = self.random.of(&[&0, &1, &1, &2, &3]);
        for _ in 0..*fields {
            self.field(sort);
        }
    }

    fn field(&mut self, sort: Sort) {
        let start = self.open(FIELD);
        let mark = self.out.len();
        // Which marks may stand here is known behind the kind.
        self.out.extend(UNKNOWN);
        self.name(true);
        let mut located = self.kind();
        while self.random.once_in(3) {
            self.suffix();
            located = true;
        }
        let stands = self.mark(sort, located);
        self.number_at(mark, stands);
        self.close(start);
    }

    /// A mark that may stand in a list of this sort, at a kind that admits a data location or not.
    fn mark(&mut self, sort: Sort, located: bool) -> u16 {
        match sort {
            Sort::Event => *self.random.of(&[&UNMARKED, &INDEXED]),
            Sort::Parameter if located => *self.random.of(&[&UNMARKED, &CALLDATA, &MEMORY]),
            _ => UNMARKED,
        }
    }

    /// A kind without its suffixes; whether it admits a data location.
    fn kind(&mut self) -> bool {
        if self.deep == 0 || !self.random.once_in(if self.deep > 4 { 1 } else { 4 }) {
            return self.elementary();
        }
        self.deep -= 1;
        let tuple = self.open(TUPLE);
        // Deep down one field is enough.
        if self.deep > 4 {
            self.field(Sort::Plain);
        } else {
            self.fields(Sort::Plain);
        }
        self.close(tuple);
        self.deep += 1;
        true
    }

    fn elementary(&mut self) -> bool {
        let kind = INT + self.random.below(STRING as usize) as u16;
        let start = self.open(kind);
        match kind {
            INT | UINT => {
                let width = 8 * (1 + self.random.below(32));
                self.number(width as u16);
            }
            BYTES_N => {
                let length = 1 + self.random.below(32);
                self.number(length as u16);
            }
            _ => (),
        }
        self.close(start);
        matches!(kind, BYTES | STRING)
    }

    fn suffix(&mut self) {
        if self.random.once_in(2) {
            let start = self.open(OPEN);
            self.close(start);
            return;
        }
        let start = self.open(FIXED);
        let length = match self.random.below(4) {
            0 => self.random.next(),
            1 => u64::MAX,
            2 => 10u64.pow(self.random.below(20) as u32) - self.random.below(2) as u64,
            _ => self.random.below(12) as u64,
        };
        self.out.extend(length.to_le_bytes());
        self.close(start);
    }
}

// --- fixed records ----------------------------------------------------------------------

/// The number of a function or a constructor that states `payable`, and of an event that is not
/// anonymous.
const PAYABLE: [u8; 2] = [3, 0];
const NOT_ANONYMOUS: [u8; 2] = [0, 0];

/// A record around what stands in it.
fn wrapped(kind: u16, body: &[&[u8]]) -> Vec<u8> {
    let body = body.concat();
    let length = (HEAD + body.len()) as u32;
    [&length.to_le_bytes()[..], &kind.to_le_bytes(), &body].concat()
}

/// An event's record of `size` bytes: many fields, and a name that fills what they leave.
pub fn of_size(size: usize) -> Vec<u8> {
    let field: &[u8] = b"\x16\0\0\0\x10\0\0\0\x06\0\0\0\x11\0\x08\0\0\0\x02\0\x40\0";
    let front = 8 + 6 + 1 + 6;
    let fields = (size - front) / field.len();
    let name = vec![b'n'; 1 + (size - front) % field.len()];
    let list = wrapped(LIST, &[&field.repeat(fields)]);
    wrapped(EVENT, &[&NOT_ANONYMOUS, &wrapped(NAME, &[&name]), &list])
}

/// An error's record whose full line has `size` bytes.
pub fn of_line(size: usize) -> Vec<u8> {
    let name = vec![b'n'; size - b"error ()".len()];
    wrapped(ERROR, &[&wrapped(NAME, &[&name]), &wrapped(LIST, &[])])
}

/// Hands each mark with each of several names and kinds to `take`: by itself, in a tuple and in each
/// list.
pub fn marked(mut take: impl FnMut(&[u8])) {
    let bool = wrapped(BOOL, &[]);
    let kinds = [
        bool.clone(),
        wrapped(BYTES_N, &[&32_u16.to_le_bytes()]),
        wrapped(FUNCTION_KIND, &[]),
        wrapped(BYTES, &[]),
        wrapped(STRING, &[]),
        wrapped(TUPLE, &[]),
        [&bool[..], &wrapped(OPEN, &[])].concat(),
        [&bool[..], &wrapped(FIXED, &[&2_u64.to_le_bytes()])].concat(),
    ];
    for kind in kinds {
        for name in ["", "a", "indexed", "calldata", "memory"] {
            let name = wrapped(NAME, &[name.as_bytes()]);
            for mark in UNMARKED..=MEMORY + 1 {
                placed(&wrapped(FIELD, &[&mark.to_le_bytes(), &name, &kind]), &mut take);
            }
        }
    }
}

/// A field by itself, in each list, and each time in a tuple.
fn placed(field: &[u8], take: &mut impl FnMut(&[u8])) {
    let name = wrapped(NAME, &[b"f"]);
    let (none, list) = (wrapped(LIST, &[]), wrapped(LIST, &[field]));
    let tuple = wrapped(TUPLE, &[field]);
    let around = wrapped(FIELD, &[&UNMARKED.to_le_bytes(), &wrapped(NAME, &[]), &tuple]);
    take(field);
    take(&around);
    for list in [list, wrapped(LIST, &[&around])] {
        let list = &list;
        take(&wrapped(FUNCTION, &[&PAYABLE, &name, list, &none]));
        take(&wrapped(FUNCTION, &[&PAYABLE, &name, &none, list]));
        take(&wrapped(CONSTRUCTOR, &[&PAYABLE, list]));
        take(&wrapped(EVENT, &[&NOT_ANONYMOUS, &name, list]));
        take(&wrapped(ERROR, &[&name, list]));
    }
}
