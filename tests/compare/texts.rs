//! The texts that are compared, made anew in each run: with one count and seed always the same.
use crate::marks::{LOCATIONS, UNMARKED};
use crate::original::VISIBILITY;
use crate::random::Random;
use crate::rows;

const HEADS: [&str; 4] = ["function f", "constructor", "event e", "error e"];

/// Blanks by their code points.
const BLANKS: [u32; 25] = [
    9, 10, 11, 12, 13, 32, 0x85, 0xA0, 0x1680, 0x2000, 0x2001, 0x2002, 0x2003, 0x2004, 0x2005,
    0x2006, 0x2007, 0x2008, 0x2009, 0x200A, 0x2028, 0x2029, 0x202F, 0x205F, 0x3000,
];

/// Bytes at the edges of UTF-8's ranges.
const EDGE_BYTES: [u8; 26] = [
    0x00, 0x20, 0x41, 0x7F, 0x80, 0x85, 0x8F, 0x90, 0x9F, 0xA0, 0xBF, 0xC0, 0xC1, 0xC2, 0xDF,
    0xE0, 0xE2, 0xEC, 0xED, 0xEE, 0xEF, 0xF0, 0xF3, 0xF4, 0xF5, 0xFF,
];

fn character(code: u32) -> char {
    char::from_u32(code).unwrap()
}

/// Hands at least the fixed texts, and `count` in all if there are fewer, to `take`.
pub fn each(count: usize, seed: u64, mut take: impl FnMut(&[u8])) {
    let mut made = 0;
    let mut counted = |text: &[u8]| {
        made += 1;
        take(text);
    };
    blanks(&mut counted);
    edge_bytes(&mut counted);
    nesting(&mut counted);
    long(&mut counted);
    located(&mut |text, _, _| counted(text.as_bytes()));
    visible(&mut counted);
    named(&mut counted);
    bracketed(&mut counted);
    numbered(&mut counted);
    let left = count.saturating_sub(made);
    short(left / 3, &mut take);
    let mut maker = Maker { random: Random::new(seed), out: vec![], loose: false, bare: false, deep: 0 };
    for i in 0..left - left / 3 / PLACES.len() * PLACES.len() {
        maker.text();
        if i % 2 == 1 {
            damage(&mut maker.random, &mut maker.out);
        }
        take(&maker.out);
    }
}

// --- fixed texts ------------------------------------------------------------------------

/// Each blank and its neighbours wherever a blank may stand, and where none may.
fn blanks(take: &mut impl FnMut(&[u8])) {
    let places = [
        "~function f()", "function~f()", "function f~()", "error e(~)", "error e(~int)",
        "event e(int~a)", "event e(int~indexed~a)", "function f(string~memory~a)", "error e(int~)",
        "error e(bool~,~int)", "error e(()~[2])", "error e(()[~])", "error e(()[2~])",
        "error e(()[~2])", "error e(()~a~)", "function f()~pure~", "constructor()~payable~;~",
        "function f()~returns~(~int~)", "event e()~anonymous", "~uint", "uint~", "uint[~]",
        "uint[2~]", "function f~", "function f(int~", "function f()~x", "function~(", "~(uint)",
        "(~uint)", "(uint~)", "(uint)~", "(uint~,bool)", "(uint,~bool)", "(uint)[~]", "(uint)[2~]",
    ];
    let mut characters = vec![0, 0x1C, 0x1F, 0x7F, 0x180E, 0x200D, 0x2060, 0xFEFF, 0x1_2000, 0x10_FFFF];
    for blank in BLANKS {
        // Neighbours, and characters that share the last byte of their UTF-8.
        characters.extend([blank, blank - 1, blank + 1, blank ^ 0x40, blank + 0x1_0000]);
    }
    for code in characters {
        for place in places {
            let once = character(code).to_string();
            take(place.replace('~', &once).as_bytes());
            take(place.replace('~', &format!(" {once}{once} ")).as_bytes());
        }
    }
}

/// Edges of UTF-8 at several places: pairs of edge bytes, and code points at the limits in
/// two to four bytes, overlong forms, surrogates and too large ones among them; whole and cut.
fn edge_bytes(take: &mut impl FnMut(&[u8])) {
    let mut put = |bytes: &[u8]| {
        for (before, behind) in [("", ""), ("function f(int", " a)"), ("uint", "[]"), ("(uint", ")")] {
            take(&[before.as_bytes(), bytes, behind.as_bytes()].concat());
        }
    };
    for (a, b) in EDGE_BYTES.iter().flat_map(|a| EDGE_BYTES.iter().map(move |b| (*a, *b))) {
        put(&[a, b]);
        put(&[a, b, 0x80, 0x80]);
    }
    for limit in [0x00, 0x80, 0x800, 0xD800, 0xE000, 0x1_0000, 0x11_0000, 0x20_0000_u32] {
        for code in [limit.saturating_sub(1), limit, limit + 1] {
            let tail = |shift: u32| 0x80 | (code >> shift & 0x3F) as u8;
            put(&[0xC0 | (code >> 6 & 0x1F) as u8, tail(0)]);
            put(&[0xE0 | (code >> 12 & 0x0F) as u8, tail(6), tail(0)]);
            put(&[0xF0 | (code >> 18 & 0x07) as u8, tail(12), tail(6), tail(0)]);
            put(&[0xE0 | (code >> 12 & 0x0F) as u8, tail(6)]);
            put(&[0xF0 | (code >> 18 & 0x07) as u8, tail(12), tail(6)]);
        }
    }
}

/// Tuples 1 to 34 deep and more, whole and broken.
fn nesting(take: &mut impl FnMut(&[u8])) {
    for depth in (1..=34).chain([35, 64, 200]) {
        for head in HEADS {
            for inside in ["", "int", "uin", "int a", "bool,", "()", "\u{a0}"] {
                for close in [")", ")[2]", ") a", " ) [ ]\u{2003}a", ""] {
                    let tuple = ["(".repeat(depth).as_str(), inside, &close.repeat(depth)].concat();
                    take(format!("{head}({tuple})").as_bytes());
                    if close == ")" {
                        take(format!("{head}(int a,{tuple}").as_bytes());
                        take(format!("{head}(x,{tuple})").as_bytes());
                        take(format!("{head}()returns({tuple},{tuple})").as_bytes());
                        take(format!("{head}({tuple})external").as_bytes());
                        take(format!("{head}()public returns({tuple})").as_bytes());
                        take(format!("{head}({}{tuple})", "(),".repeat(40)).as_bytes());
                    }
                }
            }
        }
        take(["(".repeat(depth), ")".repeat(depth)].concat().as_bytes());
    }
}

/// Texts near 4,096 bytes and over.
fn long(take: &mut impl FnMut(&[u8])) {
    let nested = |depth| format!("{}{},", "(".repeat(depth), ")".repeat(depth));
    let (deep, within) = (nested(32), nested(31));
    let shapes = [
        ("function f()", " ", ""), ("function", "\u{3000}", "f()"), ("function f()", " ", "x"),
        ("", "\n", "event e()"), ("error ", "n", "()"), ("uint", "0", "8"), ("bytes+", "0", "32"),
        ("bool[", "0", "2]"), ("bool[", "9", "]"), ("uint", "[]", ""), ("uint", "[]", "x"),
        ("string", "[18446744073709551615]", ""), ("constructor(()[", "0", "7])"),
        ("constructor(()", "[ ]", ")"), ("function f(", "int,", "int)"), ("function f(", "int,", ")"),
        ("event e(", "bool indexed a,", "()indexed)"), ("error e(", &deep, "int)"),
        ("error e(", &deep, "x)"), ("function f(", "(", ")"), ("function f()", "é", ""), ("", "(", ""),
        ("function f(", "() memory a,", "()[])returns(int)"), ("function f(uint", "[2]", " memory a)"),
        ("function f()external", " ", "returns()"), ("function f()pure", "\u{3000}", "public public"),
        ("(", "(),", "())"), ("(", "uint,", "uint)[2]"), ("(", &within, "bool)"), ("(", &deep, "bool)"),
        ("(uint)", "[]", ""), ("(uint)[", "0", "7]"), ("(uint", "[2]", ")"), ("()", "(", ""),
        ("(uint)", "[18446744073709551615]", ""), ("(", ")(", "(("),
    ];
    for (before, pad, behind) in shapes {
        for size in (4085..=4100).chain([1000, 1024, 1025, 65_536]) {
            let room = size - before.len() - behind.len();
            let filled = pad.repeat(room / pad.len());
            take([before, &filled, behind].concat().as_bytes());
            take([before, &filled, &" ".repeat(room % pad.len()), behind].concat().as_bytes());
        }
    }
}

/// Texts whose own lists have only fields with one mark and one name, which are told: place words at
/// kinds that admit a data location, with names that could be taken for one, and the same words as
/// names at kinds that admit none.
pub fn located(take: &mut impl FnMut(&str, u16, &str)) {
    let lists = [
        "function f(~)", "function f()returns(~)", "constructor(~)", "function f(~)view returns (~);",
        "function f(~, ~ ,~)", "constructor(~,~)payable",
    ];
    let admit = [
        "string ", "bytes ", "()", "() ", "(uint)", "(string memory) ", "(string memory,bytes a)[2]",
        "bool[] ", "function[1] ", "bytes32[][2] ", "((int)[]memory)",
    ];
    for list in lists {
        let mut put = |field: String, mark, name| take(&list.replace('~', &field), mark, name);
        for (word, mark) in LOCATIONS {
            for kind in admit {
                for name in ["", "a", "indexed", "calldata", "memory"] {
                    put(format!("{kind}{word} {name}"), mark, name);
                }
            }
            for kind in ["bool", "uint", "int8", "bytes32", "address", "function"] {
                put(format!("{kind} {word}"), UNMARKED, word);
            }
        }
    }
}

/// Visibility words, once and twice, wherever they may stand and where they may not.
fn visible(take: &mut impl FnMut(&[u8])) {
    rows::VISIBILITY.iter().for_each(|(text, _)| take(text.as_bytes()));
    let places = [
        "~function f()", "function~f()", "function~()", "function f~()", "function f(~)",
        "function f(int~)", "function f(int~a)", "function f(int a~)", "function f((int~)~)",
        "function f(string~memory a)", "function f(uin)~", "function f~", "function f()~",
        "function f()~pure", "function f()view~",
        "function f()payable~returns(int)", "function f()~returns(int)", "function f()returns~(int)",
        "function f()~view~returns(bytes memory)", "function f()returns(~)", "function f()returns(int)~",
        "function f()pure~pure", "function f();~", "function f()~;", "function f()~returns(",
        "function f()~returns(uin)", "constructor~()", "constructor(~)", "constructor()~",
        "constructor()~payable", "constructor()payable~", "event~()", "event e(int~)",
        "event e(int indexed~)", "event e()~", "event e()~anonymous", "event e()anonymous~", "error~()",
        "error e(int~)", "error e()~", "~", "uint~", "(uint)~",
    ];
    let mut put = |place: &str, words: &str| take(place.replace('~', words).as_bytes());
    for (place, word) in places.iter().flat_map(|place| VISIBILITY.map(|word| (place, word))) {
        for before in ["", " ", "   ", "\u{3000}"] {
            for between in ["", " ", "\u{3000}", ";", " pure ", "1", "é"] {
                put(place, &format!("{before}{word}{between}"));
                VISIBILITY.iter().for_each(|other| put(place, &format!("{before}{word}{between}{other} ")));
            }
        }
    }
}

/// Names that are words of other places of a declaration, wherever a name may stand and where none may.
fn named(take: &mut impl FnMut(&[u8])) {
    rows::FULL.iter().for_each(|(text, _)| take(text.as_bytes()));
    let places = [
        "function ~()", "function ~(uint ~)", "function f(string memory ~)", "function f(() calldata ~)",
        "function f((uint ~,(bool ~)[2]~)[]memory ~)", "function f(~ ~)", "function ~() ~ returns (uint ~)",
        "function f()pure returns(string ~,() ~)", "function f()view ~", "function f()returns ~(int)",
        "constructor(uint ~,(bool ~)~)", "constructor(bytes ~)~", "constructor ~()", "event ~(uint ~)~",
        "event e(uint indexed ~,(uint ~) indexed ~)anonymous", "event e(()[] ~)", "error ~(uint ~,() ~)",
        "error e((string ~)[] ~)~",
    ];
    let words = [
        "returns", "pure", "view", "payable", "memory", "calldata", "indexed", "anonymous", "function",
        "constructor", "event", "error", "external", "public", "uint256",
    ];
    for (place, word) in places.iter().flat_map(|place| words.map(|word| (place, word))) {
        take(place.replace('~', word).as_bytes());
    }
}

/// Kind texts that start with `(`, or nearly: what may be a component and what may not, at every place
/// of a tuple; and brackets around the most that may be open, with others before them and behind.
fn bracketed(take: &mut impl FnMut(&[u8])) {
    let parts = [
        "", "uint", "int8[2]", "string[][0]", "bytes33", "uint12", "uint0", "uint08", "bytes+1",
        "uint[+2]", "uint[18446744073709551615]", "uint[18446744073709551616]", "x", "é", "fixed",
        "uint a", " uint", "uint ", "uint\n", "string memory", "address payable", "[]", "uint[", "uint]",
        "uint;", "uint(", "()", "()a", "() a", "()()", "()[]", "()[2]a", "()[02]", "()[+2]", "()[ 2]",
        "()[2 ]", "()[ ]", "()[-1]", "()[18446744073709551615]", "()[18446744073709551616]", "(", ")",
        ",", "uint,", ",uint", "uint,bool", "uint, bool", "uint,,bool", "(uint,bool)[],(int)",
        "(uint,(bool))",
    ];
    let places = [
        "(~)", "(~,bool)", "(bool,~)", "((~))", "((~)[2],~)[]", "(~", "~)", "(~)a", "(~)[]", "(~)[2][",
        "(~)[+2]", "(~)[02]", "(~),bool", "(~),(~)", "(~)(~)", "(~))", "(~);", " (~)", "(~) ",
        "\u{feff}(~)", "(~)[2",
    ];
    for (place, part) in places.iter().flat_map(|place| parts.map(|part| (place, part))) {
        take(place.replace('~', part).as_bytes());
    }
    let fronts = ["", "x", "é", ")", "))))", "()", "(),", "uint,", "() ", "(uint)[2],", ")(", "\n"];
    for (front, open) in fronts.iter().flat_map(|front| (28..=40).map(move |open| (front, open))) {
        let text = ["(", front, &"(".repeat(open)].concat();
        let (closed, suffixed) = (")".repeat(open), ")[2]".repeat(open + 1));
        for behind in ["", "uint", "x", "é", ")", "uint)", &closed, &suffixed] {
            take([&text, behind].concat().as_bytes());
        }
        take([&text, "uint", &")".repeat(open + 1)].concat().as_bytes());
        take(text[1..].as_bytes());
    }
}

/// Numbers with signs and zeros before them, wherever one may stand and where none may.
fn numbered(take: &mut impl FnMut(&[u8])) {
    rows::NUMBERS.iter().for_each(|(_, text, _)| take(text.as_bytes()));
    let fronts = ["", "+", "0", "00", "+0", "000000000000000000000000", "++", "+-", "-", "0x"];
    let kinds = [
        "uint~8", "int~256[]", "bytes~32", "bytes~1[2]", "uint[~0]", "bytes[~2][]", "bool[][~10]", "x[~2]",
        "uint12[~2]", "uint~0", "bytes~0", "int~264", "uint~18446744073709551624", "bool[~18446744073709551615]",
        "bool[~18446744073709551616]", "uint~8x", "uint~8[", "bool[~2", "bool[~2]]", "bool[~2]x", "bool[x~2]",
        "uint a~8", "uint int~8", "uint int~8 x", "uint bytes~8,bool", "()~8", "()[~0]", "(uint)[2][~3]",
        "() [~2 ]", "()[ ~2]", "()[~2", "()a[~2]", "()[~18446744073709551616]", "(uint~8 a)[~2]", "( int~8)",
    ];
    let places = [
        "~", "function f(~)", "constructor(bool,~)", "event e( ~ indexed a)", "error e((~) t)", "error e(x,~)",
        "function f(bool) returns (int,~ a)", "function f((bool,(~)[]))pure external", "(~)", "(bool,~)[]",
    ];
    for text in places.iter().flat_map(|place| kinds.map(|kind| place.replacen('~', kind, 1))) {
        fronts.iter().for_each(|front| take(text.replace('~', front).as_bytes()));
    }
}

// --- exhaustive short texts ---------------------------------------------------------------

/// Where strings of tokens are put: what stands before them, behind them, and the tokens.
const PLACES: [(&str, &str, &[&str]); 12] = [
    ("", "", &["int", "uint", "bytes", "8", "3", "[", "]", "+", "0"]),
    ("", "", &["function", "constructor", "event", "error", " ", "f", "()", ";"]),
    ("function f", "", &["(", ")", ",", "int", " ", "a", "é"]),
    ("function f(", ")", &["(", ")", ",", "bool", " ", "[2]", "a"]),
    ("constructor(", ")", &["string", "uint", "memory", "calldata", "[]", "()", " ", ","]),
    ("function f(int)returns(", ")", &["bytes", "memory", "calldata", "(", ")", "a", " ", ","]),
    ("event e(", ")", &["int", "indexed", "()", " ", ",", "a"]),
    ("error e((int)", ")", &["[", "]", "2", " ", "+", ",", "a"]),
    ("function f()", "", &["pure", "payable", "returns", "()", " ", ";", "x"]),
    ("function f()", "", &["external", "public", "view", "returns", "()", " ", ";"]),
    ("(", "", &["(", ")", ",", "bool", "[2]", "a"]),
    ("((uint)", ")", &["[", "]", "2", "+", ",", "()", "a", " "]),
];

/// The shortest strings of tokens, all of one length before the next.
fn short(count: usize, take: &mut impl FnMut(&[u8])) {
    for (before, behind, tokens) in PLACES {
        for i in 0..count / PLACES.len() {
            let mut text = before.as_bytes().to_vec();
            let mut rest = i;
            // Digits from 1 on, so that each number is another string.
            while rest > 0 {
                text.extend(tokens[(rest - 1) % tokens.len()].bytes());
                rest = (rest - 1) / tokens.len();
            }
            text.extend(behind.bytes());
            take(&text);
        }
    }
}

// --- texts by the grammar -----------------------------------------------------------------

const WORDS: [&str; 7] = ["int", "uint", "address", "bool", "function", "bytes", "string"];
const NAMES: [&str; 18] = [
    "a", "b1", "_", "$x", "to", "amount", "memory", "calldata", "indexed", "returns", "uint",
    "function", "pure", "external", "public", "transferFrom", "Transfer",
    "A_long_Name_of_32_bytes_and_more_$0123",
];

struct Maker {
    random: Random,
    out: Vec<u8>,
    /// Whether blanks are strewn in and, now and then, signs and leading zeros.
    loose: bool,
    /// Whether it is a kind text, where blanks, marks and names are rare.
    bare: bool,
    /// How many more tuples may be opened.
    deep: usize,
}

impl Maker {
    fn put(&mut self, text: &str) {
        self.out.extend(text.bytes());
    }

    fn any_blank(&mut self) {
        let blank = character(BLANKS[self.random.below(BLANKS.len())]);
        self.out.extend(blank.encode_utf8(&mut [0; 4]).bytes());
    }

    /// Whether blanks, marks and names may be put in here: in a kind text now and then.
    fn is_free(&mut self) -> bool {
        !self.bare || self.random.once_in(60)
    }

    /// Where blanks may stand.
    fn gap(&mut self) {
        while self.loose && self.random.once_in(3) && self.is_free() {
            match self.random.once_in(2) {
                true => self.put(" "),
                false => self.any_blank(),
            }
        }
    }

    /// Where a blank must stand; now and then there is none.
    fn blank(&mut self) {
        match self.random.below(80) {
            0 => (),
            1..=8 => self.any_blank(),
            _ => self.put(" "),
        }
        self.gap();
    }

    /// What makes a number one that is not plain, now and then.
    fn front(&mut self) {
        if self.loose && self.random.once_in(16) {
            let front = self.random.of(&["+", "0", "+00"]);
            self.put(front);
        }
    }

    /// A number from `least` to `most`; now and then a bad one.
    fn number(&mut self, least: u64, most: u64) {
        self.front();
        let n = match self.random.below(40) {
            0 => most as u128 + 1,
            1 => least.saturating_sub(1) as u128,
            2 => (1 << 64) + self.random.below(9) as u128,
            3 => self.random.next() as u128,
            4 => return self.put("-1"),
            5..=9 => most as u128,
            _ => (least + self.random.below(12) as u64) as u128,
        };
        self.put(&n.to_string());
    }

    fn elementary(&mut self) {
        match self.random.below(8) {
            0 | 1 => {
                let word = self.random.of(&["int", "uint"]);
                self.put(word);
                if self.random.once_in(20) {
                    self.number(8, 256);
                } else {
                    self.front();
                    let width = 8 * (1 + self.random.below(32));
                    self.put(&width.to_string());
                }
            }
            2 => {
                self.put("bytes");
                self.number(1, 32);
            }
            _ => {
                let word = self.random.of(&WORDS);
                self.put(word);
            }
        }
        while self.random.once_in(4) {
            self.put("[");
            if self.random.once_in(2) {
                self.number(0, u64::MAX);
            }
            self.put("]");
        }
    }

    fn tuple(&mut self) {
        self.deep -= 1;
        self.list("");
        self.deep += 1;
        while self.random.once_in(3) {
            self.gap();
            self.put("[");
            if self.random.once_in(2) {
                self.number(0, u64::MAX);
            }
            self.gap();
            self.put("]");
        }
    }

    /// A field with perhaps a mark, of those that may stand there or of others.
    fn field(&mut self, mark: &str) {
        self.gap();
        let opens = if self.deep > 4 { !self.random.once_in(100) } else { self.random.once_in(5) };
        if self.deep > 0 && opens {
            self.tuple();
        } else {
            self.elementary();
        }
        if self.random.once_in(3) && self.is_free() {
            self.blank();
            let other = self.random.of(&["memory", "calldata", "indexed"]);
            let word = if self.random.once_in(9) { other } else { mark };
            self.put(word);
        }
        if self.random.once_in(2) && self.is_free() {
            // Behind a bracket no blank is needed.
            if !self.bare || self.random.once_in(2) {
                self.blank();
            }
            self.name();
        }
        self.gap();
    }

    fn name(&mut self) {
        let name = self.random.of(&NAMES);
        self.put(name);
    }

    fn list(&mut self, mark: &str) {
        self.put("(");
        let fields = if self.deep > 4 { &1 } else { self.random.of(&[&0, &1, &1, &2, &2, &3, &5]) };
        for i in 0..*fields {
            if i > 0 {
                self.put(",");
            }
            self.field(mark);
        }
        self.put(")");
    }

    /// Perhaps one of the words that may stand behind the list.
    fn word(&mut self, words: &[&str]) {
        if self.random.once_in(2) {
            self.blank();
            let word = self.random.of(words);
            self.put(word);
        }
    }

    /// Words behind a function's inputs: mostly at most one of each sort, in either order.
    fn modifiers(&mut self) {
        let sorts: [&[&str]; 2] = [&["pure", "view", "payable"], &VISIBILITY];
        let mut sort = self.random.below(sorts.len());
        for _ in 0..*self.random.of(&[&0, &0, &0, &1, &1, &1, &2, &2, &2, &2, &3]) {
            // Behind the bracket no blank is needed.
            if !self.random.once_in(10) {
                self.blank();
            }
            let word = self.random.of(sorts[sort]);
            self.put(word);
            if !self.random.once_in(5) {
                sort = sorts.len() - 1 - sort;
            }
        }
    }

    /// A visibility word anywhere.
    fn stray(&mut self) {
        let word = self.random.of(&VISIBILITY);
        let word = [self.random.of(&["", " "]), word, self.random.of(&["", " "])].concat();
        let at = self.random.below(self.out.len() + 1);
        self.out.splice(at..at, word.bytes());
    }

    fn declaration(&mut self) {
        if self.loose && self.random.once_in(4) {
            self.gap();
        }
        let keyword = self.random.of(&["function", "function", "constructor", "event", "error"]);
        self.put(keyword);
        if keyword != "constructor" {
            self.blank();
            self.name();
        }
        self.gap();
        let place = self.random.of(&["memory", "calldata"]);
        self.list(match keyword {
            "event" => "indexed",
            "error" => "",
            _ => place,
        });
        match keyword {
            "function" => {
                self.modifiers();
                if self.random.once_in(2) {
                    self.blank();
                    self.put("returns");
                    self.gap();
                    self.list(place);
                }
            }
            "constructor" => self.word(&["payable"]),
            "event" => self.word(&["anonymous"]),
            _ => (),
        }
        if self.random.once_in(16) {
            self.word(&VISIBILITY);
        }
        self.gap();
        if self.random.once_in(4) {
            self.put(";");
        }
        self.gap();
    }

    /// A kind text that starts with `(`; one in six has blanks, marks and names as a list has.
    fn tuple_alone(&mut self) {
        self.bare = !self.random.once_in(6);
        self.deep = *self.random.of(&[&1, &2, &2, &3, &4]);
        if self.random.once_in(4) {
            // The first 29 to 34 tuples stand each in the one before.
            self.deep = 4 + 29 + self.random.below(6);
        }
        self.tuple();
        self.bare = false;
    }

    /// A declaration, or now and then a kind alone.
    fn text(&mut self) {
        self.out.clear();
        self.loose = self.random.once_in(2);
        self.deep = *self.random.of(&[&0, &2, &2, &3, &4]);
        if self.random.once_in(200) {
            // The first 30 to 34 tuples stand each in the one before.
            self.deep = 4 + 30 + self.random.below(5);
        }
        match self.random.below(8) {
            0 => self.elementary(),
            1 => self.tuple_alone(),
            _ => self.declaration(),
        }
        if self.random.once_in(32) {
            self.stray();
        }
    }
}

// --- damage -------------------------------------------------------------------------------

const PIECES: [&[u8]; 24] = [
    b" ", b"(", b")", b",", b";", b"[", b"]", b"+", b"0", b"8", b"a", b"int", b"[]", b"\0", b"\"",
    b"\\", b"\x7f", b"\xc2\xa0", b"\xe2\x80\x83", b"\xc3\xa9", b"\xc2\xad", b"\xf0\x9f\x98\x80",
    b"\xcc\x81", b"\xef\xbf\xbd",
];

/// Damages bytes in one to three places.
pub fn damage(random: &mut Random, out: &mut Vec<u8>) {
    for _ in 0..=random.below(3).min(random.below(3)) {
        let start = random.below(out.len() + 1);
        let end = out.len().min(start + *random.of(&[&1, &1, &2, &5]));
        match random.below(8) {
            0 => drop(out.drain(start..end)),
            1 => out.extend_from_within(start..end),
            2 => {
                let doubled = out[start..end].to_vec();
                out.splice(start..start, doubled);
            }
            3 => out.truncate(start),
            4 if start < end => out[start] ^= 1 << random.below(8),
            5 if start < end => out[start] = EDGE_BYTES[random.below(EDGE_BYTES.len())],
            6 => {
                let bytes = [(); 3].map(|_| EDGE_BYTES[random.below(EDGE_BYTES.len())]);
                out.splice(start..end, bytes);
            }
            _ => {
                let piece = random.of(&PIECES);
                let behind = if random.once_in(2) { start } else { end };
                out.splice(start..behind, piece.iter().copied());
            }
        }
    }
}
