#!/usr/bin/env python3
"""Writes the texts that the oracle is asked about, always the same list.

A line is `CALL HEX`: the reading call, and the text's bytes in lower-case hex, `-` if
there are none. Each group of texts below is a function that yields pairs of call and
text. `main` drops repeated pairs and texts outside the domain; when the oracle has answered,
visible.py drops those with a visibility word where it may stand, and plain.py those with a
number that is not plain where the Rust reads it.
"""

import random
from itertools import product
from pathlib import Path

MOST_BYTES = 4096
MOST_TUPLES = 32

# How a declaration with each keyword opens, up to its list.
HEADS = {
    "function": "function f",
    "constructor": "constructor",
    "event": "event e",
    "error": "error e",
}
DECLARATION_CALLS = ["general", *HEADS]

WIDTHS = range(8, 257, 8)
BYTE_LENGTHS = range(1, 33)
PLAIN_KINDS = ["int", "uint", "address", "bool", "function", "bytes", "string"]

BLANKS = [
    *map(chr, [*range(9, 14), 32, 0x85, 0xA0, 0x1680, *range(0x2000, 0x200B)]),
    *map(chr, [0x2028, 0x2029, 0x202F, 0x205F, 0x3000]),
]
# No blanks: their neighbours, invisible characters, and bytes A0 and 85 as a tail.
LOOK_ALIKES = [
    *map(chr, [0, 8, 0x0E, 0x1C, 0x1F, 0x7F, 0x84, 0x86, 0x9F, 0xA1, 0xE0, 0x105]),
    *map(chr, [0x167F, 0x1681, 0x180E, 0x1FFF, 0x200B, 0x200D, 0x2027, 0x202A]),
    *map(chr, [0x202E, 0x2030, 0x205E, 0x2060, 0x3001, 0xFEFF, 0x1F000]),
]


# --- shared pieces ----------------------------------------------------------------


def call_of(text):
    """The reading call named for the text's keyword."""
    return next(keyword for keyword in HEADS if text.lstrip().startswith(keyword))


def by_general(texts):
    return (("general", text) for text in texts)


def by_both(texts):
    """Each text by the general call and by the one named for its keyword."""
    for text in texts:
        yield "general", text
        yield call_of(text), text


def by_all(texts):
    return product(DECLARATION_CALLS, texts)


def by_kind(texts):
    return (("kind", text) for text in texts)


def strings(tokens, most):
    """Every string of at most `most` tokens."""
    for count in range(most + 1):
        for chosen in product(tokens, repeat=count):
            yield "".join(chosen)


def nested(depth, inside="", suffix=""):
    """Tuples `depth` deep around `inside`, each with the suffix."""
    return "(" * depth + inside + (")" + suffix) * depth


def padded(before, pad, after, size=MOST_BYTES):
    """`before`, then `pad` again and again (spaces if it does not fit), then `after`,
    so that all is `size` bytes long."""
    room = size - len(before.encode()) - len(after.encode())
    count, rest = divmod(room, len(pad.encode()))
    return before + pad * count + " " * rest + after


# --- document 01's edges ----------------------------------------------------------


def edges():
    """Every edge and example that document 01 names, by every call it fits."""
    yield from by_kind(
        "uint8 uint256 uint0 uint12 uint264 bytes1 bytes32 bytes0 bytes33 uint[0] "
        "uint[2][] uint+8 uint08 uint[+2] fixed int uint bytes string".split()
    )
    yield "kind", ""
    yield from by_all(["", "functionf()", "function ()", " function f()"])
    rests = [
        "", "()", "(uint", "(uin)", "(bool,)", "(uint []a)", "();;", "() external",
        "(uint a)", "(uint[0])", "(uint[2][])", "(uint+8,uint08,uint[+2])", "(fixed)",
        "(address payable a)", "(string memory)", "(string calldata a)", "((uin))",
        "(bool,(uint,uin))", "((uint)[2 ])", "((uint)[ ])", "((uint)[ 2])",
        "(" + nested(MOST_TUPLES) + ")",
    ]
    for keyword, rest in product(HEADS, rests):
        text = HEADS[keyword] + rest
        yield from by_both([text])
        yield keyword, " " + text
    yield from by_all(HEADS["function"] + rest for rest in rests[:6])


def openings():
    """Keywords and names, right and wrong: refusals 2, 4, 5 and 6."""
    yield from by_all(head + "()" for head in HEADS.values())
    yield from by_all(
        ["function", "event ", "constructor", "\terror", "Function f()", "functio", "x"]
    )
    yield from by_all(["\ufefffunction f()", "\u00a0event e()", "constructor1()", "error"])
    for keyword in ["function", "event", "error"]:
        names = [
            "$", "_", "$_$9", "a1", "1a", "Ab_C", "é", "aé", "a.b", "a-b", "a b", "-",
            "(", "function", "event", "indexed", "returns", "pure", "constructor",
        ]
        yield from by_both(f"{keyword} {name}()" for name in names)
        yield from by_both([f"{keyword}  ()", f"{keyword}\n", f"{keyword}s f()", f"{keyword}()"])
        yield from by_both([f"{keyword}\tf", f"{keyword} f ", f"{keyword} f\n x"])
    yield from by_both(["constructor c()", "constructor \n x", "constructor ", "constructor$()"])


# --- ordinary declarations --------------------------------------------------------


def without_visibility(text):
    return text.replace(" external", "").replace(" public", "").replace(" internal", "")


def ordinary():
    """Declarations of token, exchange and governance contracts, as they are written
    (`internal` is refused with 7) and without the visibility word."""
    lines = Path(__file__).with_name("ordinary.txt").read_text(encoding="utf-8").splitlines()
    yield from by_general(lines)
    for line in map(without_visibility, lines):
        yield "general", line
        if len(line) < 80:
            yield call_of(line), line


# --- kinds ------------------------------------------------------------------------


def elementary_kinds():
    """Every elementary kind and width."""
    yield from by_kind(PLAIN_KINDS)
    for width in WIDTHS:
        yield from by_kind([f"int{width}", f"uint{width}"])
    yield from by_kind(f"bytes{length}" for length in BYTE_LENGTHS)


def bad_numbers():
    """Widths and lengths next to the good ones, past the machine's numbers, and what
    is no number: refusals 11 and 12."""
    numbers = [*range(18), 31, 33, 34, 40, 64, 127, 128, 255, 257, 264, 512, 65544]
    numbers += [2**32 - 8, 2**32, 2**32 + 8, 2**64, 2**64 + 1, 2**64 + 8, 2**128 + 8]
    # not plain, and wrong without the sign and the zeros too
    numbers += ["00", "+0", "+00", "07", "+7", "+007", "033", "+33", "0257", "+264", f"+{2**64}", f"00{2**64}"]
    signs = ["+", "-8", "-0", "++8", "+-8", "8+", "8 ", " 8", "8_", "0x8", "8.0", "1e1", "a"]
    others = ["٨", "８", "²", "é", "\0", "8\0", "\u00a08", "8\u3000"]
    for stem in ["int", "uint", "bytes"]:
        yield from by_kind(f"{stem}{rest}" for rest in [*numbers, *signs, *others])


def odd_kinds():
    """Words that are nearly kinds: mostly refusal 13."""
    yield from by_kind(
        "Uint UINT8 uInt i in u ui uin byt byte byteS addres addressx Address boo bool1 bools "
        "strin string1 functio functions fixed ufixed fixed128x18 enum mapping tuple x _ $ 0 8 "
        "+ , ) x(uint) uint() uint(8) bool() int8x bytes1x intuint uintint bytesbytes".split()
    )
    yield from by_kind([" uint", "uint ", "\tbool", "bool\n", "address payable", " ", "\u3000"])
    yield from by_kind(["é", "úint", "uint\u00e0", "string\u200b", "\ufeffbool", "😀", "\0"])


def array_suffixes():
    """Suffixes and chains of them on kinds of every sort."""
    largest = 2**64 - 1
    lengths = [0, 1, 2, 9, 10, 255, 2**32, largest - 1, largest, "+2", "007", "+0", "00"]
    lengths += [f"+{largest}", f"000{largest}", f"+000{largest}"]
    bad = [largest + 1, 10 * largest, 2**65, f"+{largest + 1}", "-1", "-0", "+", "++2", " ", " 2"]
    bad += ["2 ", "a", "2a", "0x2", "[", "]", "[2", "2]", "[]", "][", "٢", "é", ",", "1,2"]
    for stem in ["uint", "bytes3"]:
        yield from by_kind(f"{stem}[{length}]" for length in [*lengths, *bad])
    chains = [
        "[]", "[][]", "[2][]", "[][2]", "[2][3]", "[2][][3]", "[][][]", "[+2][03][]",
        "[]x", "[2]x", "[", "]", "[][", "[]]", "[2][", "[2", "2]", "[] ", "[][x]", "[x][]",
        "[2][x][]", "[][ ][2]", "[2[3]", "[2]3]", "()", "[()]",
    ]
    stems = [*PLAIN_KINDS, "int8", "uint16", "bytes32", "uint7", "bytes33", "x", ""]
    yield from by_kind(stem + chain for stem in stems for chain in chains[:8])
    yield from by_kind(stem + chain for stem in ["uint", "bytes", "bool", ""] for chain in chains)


def short_kinds():
    """Every short text over small alphabets, alone and behind a kind's beginning."""
    yield from by_kind(strings("int[]", 3))
    yield from by_kind("int" + rest for rest in strings("[]08+", 2))
    yield from by_kind("bytes" + rest for rest in strings("[]03+", 2))


def tuple_alone():
    """Kind texts that start with `(`, and what order 3 says is none: blanks, names, marks, bad
    components and numbers, and more or less than one tuple with its suffixes."""
    parts = [
        "", *PLAIN_KINDS, "int8", "uint08", "bytes+032", "uint[+2]", "bool[007][]", "string[0][]",
        "uint7", "bytes33", "fixed", "x", "é", ",", "uint,", ",uint", "uint,bool", "uint,,bool",
        "uint, bool", "uint ,bool", " uint", "uint ", "uint a", "string memory", "address payable",
        "[]", "uint[", "uint]", "uint(", "uint;", "()", "()a", "() a", "()()", "()[]", "()[2]a",
        "()[+2]", "()[2 ]", "(uint,bool)[2],int", "((),(uint8))", "(", ")",
    ]
    places = ["(~)", "(bool,~)", "(~,(int)[])", "((~)[2])[][3]"]
    yield from by_kind(place.replace("~", part) for place, part in product(places, parts))
    behind = ["x", " ", ")", "(", "()", ",bool", ",(bool)", ";", "a[2]", "[2]a", "é", "\0"]
    yield from by_kind("(uint)" + rest for rest in behind)
    before = [" ", "\t", "x", "uint", ",", ")", "[", "+", "\ufeff"]
    yield from by_kind(front + "(uint)" for front in before)
    largest = 2**64 - 1
    suffixes = [
        "[]", "[2]", "[0]", "[007]", f"[{largest}]", f"[000{largest}]", f"[{largest + 1}]",
        f"[{10 * largest}]", "[2][][0]", "[][][]", "[+2]", "[-1]", "[ ]", "[ 2]", "[2 ]", " [2]",
        "[2] ", "[2", "[", "]", "[2]]", "[[2]]", "[a]", "[2a]", "[()]", "[٢]", "[2,]",
    ]
    yield from by_kind(stem + suffix for stem, suffix in product(["()", "(int)"], suffixes))
    yield from by_kind("(" + rest for rest in strings(["(", ")", ",", "int"], 3))
    for depth in range(1, MOST_TUPLES + 1):
        whole = nested(depth)
        yield from by_kind([whole, nested(depth, "bool", "[2]"), whole[:-1], whole + ")"])
    for depth, part in product([2, 8, 31, 32], ["uin", "int a", "int,", "int,bool[]", "é"]):
        yield "kind", nested(depth, part)
    for character in BLANKS + LOOK_ALIKES[::3]:
        yield from by_kind([f"(uint{character})", f"(){character}", f"()[{character}]"])
    pieces = [b"\xff", b"\xc2", b"\xe2\x80", "\u20ac".encode()]
    yield from by_kind(b"(" + piece + b")" for piece in pieces)


# --- lists ------------------------------------------------------------------------


def kinds_in_lists():
    """Kinds in a declaration's list, where the run ends at a blank, `,` or `)`."""
    kinds = [
        *PLAIN_KINDS, "int08", "uint+8", "bytes+032", "uint[+2]", "bool[007][]", "string[]",
        "function[2]", f"int8[{2**64 - 1}]", f"int8[{2**64}]", "uint7", "bytes0", "uint;",
        "int(", "uint[2", "uint[ 2]", "uint[2 ]", "uint[]a", "bool\u00a0a", "uint\u200b",
    ]
    lists = ["( {0} a )", "({0},{0})", "(bool,{0})", "(({0}) t)", "({0}"]
    for kind, (place, shape) in product(kinds, enumerate(lists)):
        keyword = list(HEADS)[(place + len(kind)) % len(HEADS)]
        yield "general", HEADS[keyword] + shape.format(kind)


def marks():
    """Mark words where they are marks and where they are names."""
    kinds = ["uint", "bytes4", "bytes", "string", "bool[]", "()"]
    words = [
        "", "a", "indexed", "calldata", "memory", "indexed a", "calldata a", "memory a",
        "calldata memory", "indexed indexed", "memory memory a", "memoryx",
    ]
    for head, kind, word in product(HEADS.values(), kinds, words):
        yield "general", f"{head}({kind} {word})"
    for kind, word in product(["uint", "string", "()"], ["calldata", "memory a", "indexed"]):
        yield "function", f"function f()returns({kind} {word})"
        yield from by_general(f"{head}(({kind} {word}))" for head in HEADS.values())
    yield from by_both(["event e(()indexed)", "event e(()[]indexed a)", "function f(()memory)"])
    yield from by_both(["function f(()[2]calldata a)", "event e(int indexed,bool indexed indexed)"])


def tails():
    """What stands behind the list: mutability, `returns`, `anonymous`, `;`, more."""
    rests = [
        "pure", "view", "payable", "nonpayable", "constant", "anonymous", "external", "public",
        "Pure", "pureview", "pure view", "payable payable", "view returns(int)", "returns",
        "returns(int)view", "returns ( int a , string memory ) ;", "returns(", "returns(int",
        "returns(uin)", "returns int", "returns()returns()", "pure;", "payable ;", "anonymous;",
        "anonymous anonymous", ";", " ; ", "; x", ";;", "; ;", "pure;view", "{}", "é", "//", ",",
        ")", "[]", "\\", '"', "'",
    ]
    yield from by_general(f"{head}() {rest}" for head in HEADS.values() for rest in rests)


def visibility():
    """Visibility words as names, and where they are refused with 7: behind `returns` or `;`, as a
    part of a word, behind a word that is none of a function's, and behind other lists."""
    for word in ["external", "public"]:
        yield from by_both([f"function {word}(int {word})", f"event {word}(int indexed {word})"])
        yield from by_both([f"error {word}((int {word}) {word})", f"constructor(bytes memory {word})"])
        rests = [
            f"returns(int){word}", f"view returns () {word}", f"returns(){word} view", f";{word}",
            f"pure ; {word}", f"{word}1", f"{word}pure", f"pure{word}", f"{word}$",
            word.capitalize(), f"é {word}", f"internal {word}", f"nonpayable {word}",
        ]
        yield from by_both("function f() " + rest for rest in rests)
        yield from by_both([f"constructor()payable {word}", f"constructor(){word} payable"])
        yield from by_both([f"event e()anonymous\u3000{word}", f"event e(){word}", f"error e(){word};"])


def tuple_depths():
    """Tuples 1 to 32 deep, whole, with suffixes, and damaged inside."""
    for depth in range(1, MOST_TUPLES + 1):
        keyword = list(HEADS)[depth % len(HEADS)]
        head = HEADS[keyword]
        yield "general", f"{head}({nested(depth)})"
        yield keyword, f"{head}({nested(depth, 'uin')})"
        yield "general", f"{head}({nested(depth)[:-1]})"
        yield "general", f"{head}({nested(depth)}"
    for depth in [1, 2, 3, 8, 31, 32]:
        yield "error", f"error e({nested(depth, 'int', '[2]')})"
        yield "event", f"event e(bool,{nested(depth, 'int a', '[ ]')} indexed)"
        yield "general", f"function f(bool,{nested(depth, 'int,')})"
    deep = nested(MOST_TUPLES)
    yield "function", f"function f({deep} a)returns({deep},{deep}[2])"


def tuple_suffixes():
    """The suffixes of a tuple: digits at once or none, blanks only around them."""
    largest = 2**64 - 1
    suffixes = [
        "[]", "[2]", "[2 ]", "[ ]", "[ 2]", " [2]", " [ ] [3 ]", "[0]", "[007]", "[+2]", "[-1]",
        f"[{largest}]", f"[{largest + 1}]", f"[000{largest}]", f"[{10 * largest}]", "[2", "[",
        "[2]]", "]", "[2a]", "[a]", "[]a", "[2]a", "[][2][]", "[2][ 3]", "[][+3]", "[٢]",
        "[\u3000]", "[2\u00a0]", "[\u00a02]", "\u2003[2]", "[2\u200b]", "\n[\t]\r[1\x0b]", "[2,]",
        "[2)", "[)]", "[()]", "a[2]", " a [2]", "x", "[2] memory a", "[ ]memory", "[2]indexed",
    ]
    for suffix in suffixes:
        yield "function", f"function f((int){suffix})"
        yield "general", f"event e((){suffix})"
        yield "error", f"error e(bool,(){suffix},int)"


def broken_lists():
    """Missing and spare fields, commas and brackets."""
    rests = [
        "(", "( ", "(,", "(,)", "(int,", "(int,int", "(int,,int)", "(int int)", "(int a b)",
        "(int a,b)", "(int;)", "(int))", "((int)", "((int,bool)", "(int(bool))", "((),())",
        "((int)a(int)b)", "((int a b))", "((int,))", "(bool,(int,(uin)))", "((),(),x)",
        "((bool)x y)", "( ( int ) , ( ) )", "(int , )", "(int,)a", ")", "[]", "x", "a(int)",
    ]
    yield from by_general(head + rest for head in HEADS.values() for rest in rests)


def short_declarations():
    """Every short string of tokens at several places of a declaration."""
    yield from by_general("function f" + rest for rest in strings(["(", ")", ",", "int", " "], 3))
    inside = ["(", ")", ",", "bool", " ", "[2]"]
    yield from by_general(f"function f({rest})" for rest in strings(inside, 3))
    inside = ["int", " ", "indexed", "()"]
    yield from by_general(f"event e({rest})" for rest in strings(inside, 3))
    behind = [" ", "pure", "returns", "()", ";"]
    yield from by_general("function f()" + rest for rest in strings(behind, 3))


# --- characters -------------------------------------------------------------------


def blanks():
    """Each Unicode blank wherever one may stand, and characters that are no blanks."""
    places = [
        "~function f()", "function~f()", "error e(~)", "event e(int~a)", "error e(bool~,int)",
        "error e(()~[2])", "error e(()[~])", "constructor()~;~",
    ]
    for blank, place in product(BLANKS, places):
        yield "general", place.replace("~", blank)
    for other, place in product(LOOK_ALIKES, places[1::2]):
        yield "general", place.replace("~", other)
    for character in BLANKS + LOOK_ALIKES:
        yield "event", character + "event e()"
    yield from by_general(f"function{blank} (int)" for blank in BLANKS)
    everywhere = "~function~f~(~int~a~,~()~[2~]~)~pure~returns~(~)~;~"
    yield from (("function", everywhere.replace("~", blank)) for blank in BLANKS)
    every = "".join(BLANKS)
    yield "error", f"{every}error{every}e{every}({every}int{every}a{every}){every}"
    yield from by_both(["function \t f\n(\r\n int\x0b,\x0cbool ) view ; \n"])


def messages():
    """Characters that a message shows: ASCII, and some others that Rust's Debug escapes."""
    ascii_marks = [chr(code) for code in range(128) if not chr(code).isalnum()]
    others = "\u0080\u00ad\u0301\u2028\ue000\ufffe\ufffd\u00e9\u20ac\U0001f600\U0010ffff"
    yield from by_general(f"function f(){c}x" for c in [*ascii_marks, *others])
    yield from by_general(f"{c}y" for c in ["\0", "\t", "\r", '"', "\\", "\x1b", *others])
    yield from by_general("event e()" + "x" * count for count in [1, 9, 10, 11, 12])
    yield from by_general("event" + " " * count + "1" for count in [1, 4, 5, 6, 9, 10])


def cut_characters():
    """Characters across the ten bytes before or behind the place of a refusal, and just
    within them: the Rust panics where one is cut."""
    openings = [
        ("general", ""), ("error", ""), ("function", "function "), ("event", "event e "),
        ("general", "function f("), ("constructor", "constructor()"),
    ]
    for (call, before), count in product(openings, range(6, 11)):
        for character in "é€😀":
            yield call, before + "1" * count + character + "z"
    for blank, count in product("\u0085\u2003", range(4, 10)):
        gap = " " * count
        yield "general", f"function{blank}f{gap}x"
        yield "function", f"function{blank}f({gap}"
        yield "error", f"error{blank}e({gap}x)"
        yield "event", f"event{blank}e(){gap}x"
    for blank, count in product("\u00a0\u3000", range(4)):
        yield "function", blank + " " * count + "function 1"


def invalid_utf8():
    """Bytes that are no UTF-8, alone and at several places, and their valid neighbours."""
    bad = [
        "80", "bf", "c080", "c1bf", "e08080", "e09fbf", "f0808080", "f08fbfbf", "eda080",
        "edbfbf", "f4908080", "f5808080", "f8888080", "fe", "ff", "c2", "e1", "e180", "f1",
        "f180", "f18080", "c220", "e120", "e18020", "f1808020", "c2c280", "e1c280",
        "f180c280", "80c280", "c28080", "e28083bf", "ed", "eda0", "e0", "e09f", "f4", "f490",
    ]
    good = ["c280", "dfbf", "e0a080", "ed9fbf", "ee8080", "efbfbf", "f0908080", "f48fbfbf"]
    for piece in map(bytes.fromhex, bad + good):
        yield "general", piece
        yield "general", b"function f(" + piece + b")"
        yield "function", "function f()é".encode() + piece
        yield "kind", b"uint" + piece
    for call in [*DECLARATION_CALLS, "kind"]:
        yield call, b"\xff"
        yield call, b"error e()\xe2\x80"


# --- grammar-made texts -----------------------------------------------------------


class Maker:
    """Makes good declarations by the grammar, with every blank; numbers are plain."""

    NAMES = ["a", "b1", "_", "$x", "to", "memory", "indexed", "returns", "uint", "function"]

    def __init__(self, seed):
        self.random = random.Random(seed)

    def one_of(self, choices):
        return self.random.choice(choices)

    def gap(self):
        """A place where blanks may stand: mostly none."""
        return self.one_of(["", "", "", "", " ", " ", "\n", self.one_of(BLANKS)])

    def blank(self):
        """A place where a blank must stand."""
        return self.one_of([" ", " ", " ", " ", "  ", "\t", self.one_of(BLANKS)])

    def some(self, make):
        """None, one or two of what `make` makes."""
        return "".join(make() for _ in range(self.one_of([0, 0, 1, 1, 2])))

    def suffix(self):
        return self.one_of(["[]", f"[{self.random.randrange(12)}]"])

    def elementary_kind(self):
        integer = f"{self.one_of(['int', 'uint'])}{self.one_of(WIDTHS)}"
        fixed = f"bytes{self.one_of(BYTE_LENGTHS)}"
        return self.one_of([integer, fixed, *PLAIN_KINDS]) + self.some(self.suffix)

    def tuple_suffix(self):
        digits = self.one_of(["", "2", "70"])
        return f"{self.gap()}[{digits}{self.gap()}]"

    def kind(self, depth):
        if depth > 0 and self.random.randrange(4) == 0:
            return self.fields("tuple", depth - 1) + self.some(self.tuple_suffix)
        return self.elementary_kind()

    def mark(self, sort, kind):
        """A mark that the sort of list and the kind admit, or none."""
        if sort == "event":
            return self.one_of(["", "indexed"])
        if sort == "parameter" and (kind in ["bytes", "string"] or kind[-1] in "])"):
            return self.one_of(["", "calldata", "memory"])
        return ""

    def field(self, sort, depth):
        kind = self.kind(depth)
        words = [self.mark(sort, kind), self.one_of(["", self.one_of(self.NAMES)])]
        return kind + "".join(self.blank() + word for word in words if word)

    def fields(self, sort, depth=3):
        """A list in brackets; its sort is parameter, event or tuple (an error's too)."""
        fields = [self.field(sort, depth) for _ in range(self.one_of([0, 1, 1, 2, 3]))]
        return "(" + ",".join(self.gap() + field + self.gap() for field in fields) + ")"

    def opening(self, keyword):
        return keyword + self.blank() + self.one_of(self.NAMES) + self.gap()

    def word(self, choices):
        """One of the words behind a list, or none."""
        return self.one_of(["", self.blank() + self.one_of(choices)])

    def function(self):
        returns = self.blank() + "returns" + self.gap() + self.fields("parameter")
        mutability = self.word(["pure", "view", "payable"])
        inputs = self.fields("parameter")
        return self.opening("function") + inputs + mutability + self.one_of(["", returns])

    def constructor(self):
        return "constructor" + self.gap() + self.fields("parameter") + self.word(["payable"])

    def event(self):
        return self.opening("event") + self.fields("event") + self.word(["anonymous"])

    def error(self):
        return self.opening("error") + self.fields("tuple")

    def declaration(self):
        text = self.one_of([self.function, self.constructor, self.event, self.error])()
        return text + self.gap() + self.one_of(["", "", ";"]) + self.gap()


def grammar_made():
    """Good texts by the grammar."""
    maker = Maker(1)
    for _ in range(220):
        text = maker.declaration()
        yield maker.one_of(["general", call_of(text)]), text


# --- damaged texts ----------------------------------------------------------------

GOOD_DECLARATIONS = [
    "function f(uint a)",
    "function f(address to, uint256 n) returns (bool)",
    "function g(string memory s,(int,bool)[2] t) view;",
    "function h((uint8[] a,(bytes b)[])[ ] calldata c) payable",
    "constructor(bytes32[4] r, string memory) payable;",
    "constructor((address,uint96 fee)[2 ] c)",
    "event E(address indexed a,uint8 b) anonymous",
    "event T((int,()[3]) indexed,string indexed s);",
    "error Low(uint256 have, uint256 want)",
    "error O(((bool a)[],bytes32)[1][] x)",
    "function\u00a0f(\u2003bool\u3000a\u0085)\u2028pure",
]

GOOD_KINDS = ["uint256[2][]", "bytes32[7]", "int8[][10]", "address[]", "string[0]"]
GOOD_TUPLES = ["(uint256,(bool,bytes32)[2][])[70]", "((),address[3],int8)"]


class Damager:
    """Damages a text, given as bytes, in one of six ways."""

    # What is put in: tokens, whole characters and pieces of characters.
    PIECES = [b" ", b"(", b")", b",", b";", b"[", b"]", b"+", b"0", b"8", b"a", b"int", b"[]"]
    PIECES += ["é".encode(), "\u00a0".encode(), "\u2003".encode(), b"\xa0", b"\xc2", b"\0", b'"']

    def __init__(self, seed):
        self.random = random.Random(seed)

    def span(self, text):
        """Where a short piece of the text begins and ends."""
        start = self.random.randrange(len(text))
        return start, min(len(text), start + self.random.choice([1, 1, 1, 2, 3, 7]))

    def delete(self, text):
        start, end = self.span(text)
        return text[:start] + text[end:]

    def duplicate(self, text):
        start, end = self.span(text)
        return text[:end] + text[start:]

    def swap(self, text):
        """Swaps a piece with the byte behind it."""
        start, end = self.span(text)
        behind = end + 1
        return text[:start] + text[end:behind] + text[start:end] + text[behind:]

    def insert(self, text):
        start = self.random.randrange(len(text) + 1)
        return text[:start] + self.random.choice(self.PIECES) + text[start:]

    def replace(self, text):
        start, end = self.span(text)
        return text[:start] + self.random.choice(self.PIECES) + text[end:]

    def change_bit(self, text):
        start = self.random.randrange(len(text))
        changed = text[start] ^ (1 << self.random.randrange(8))
        return text[:start] + bytes([changed]) + text[start + 1:]

    def damage(self, text):
        ways = [self.delete, self.duplicate, self.swap, self.insert, self.replace, self.change_bit]
        return self.random.choice(ways)(text)


def damaged():
    """Good texts with one or two damages."""
    damager = Damager(2)
    for text, _ in product(GOOD_DECLARATIONS, range(15)):
        once = damager.damage(text.encode())
        yield damager.random.choice(["general", call_of(text)]), once
        yield "general", damager.damage(once)
    for text, _ in product(GOOD_KINDS + GOOD_TUPLES, range(16)):
        yield "kind", damager.damage(text.encode())


def cuts():
    """Good texts cut at every byte."""
    for text in GOOD_DECLARATIONS[2::4]:
        whole = text.encode()
        yield from by_general(whole[:size] for size in range(len(whole) + 1))
    for text in GOOD_KINDS + GOOD_TUPLES:
        yield from by_kind(text[:size] for size in range(len(text) + 1))


# --- long texts -------------------------------------------------------------------


def long_texts():
    """Texts of up to exactly 4,096 bytes."""
    yield "general", padded("function f()", " ", "")
    yield "general", padded("function", "\u3000", "f()")
    yield "general", padded("function f()", " ", "x")
    yield "event", padded("", "\n", "event e()")
    yield "error", padded("error ", "n", "()")
    yield "kind", padded("uint", "0", "8")
    yield "kind", padded("bytes+", "0", "32")
    yield "kind", padded("bool[", "0", "2]")
    yield "kind", padded("bool[", "9", "]", 300)
    yield "kind", padded("uint", "[]", "")
    yield "kind", padded("uint", "[]", "x", 900)
    yield "kind", padded("string", "[1]", "", 900)
    yield "kind", padded("(", "(),", "())")
    yield "kind", padded("(uint", ",uint", ")", 1200)
    yield "kind", padded("(uint", ",uint", ",)", 1200)
    yield "kind", padded("()", "[]", "", 1200)
    yield "kind", padded("()[", "0", "7]")
    yield "constructor", padded("constructor(()[", "0", "7])")
    yield "constructor", padded("constructor(()[", "9", "])", 300)
    yield "constructor", padded("constructor(()", "[ ]", ")", 1200)
    yield "general", padded("function f(int", ",int", ")", 1000)
    yield "general", padded("function f(int", ",int", ",)")
    yield "event", padded("event e(bool indexed a", ",bool indexed a", ")", 1200)
    within = nested(MOST_TUPLES - 1)
    yield "kind", padded("(" + within, "," + within, ")", 1200)
    deep = nested(MOST_TUPLES)
    yield "error", padded("error e(" + deep, "," + deep, ")")
    yield "error", padded("error e(" + deep, "," + deep, ",x)", 900)


# --- the list ---------------------------------------------------------------------

GROUPS = [
    edges, openings, ordinary, elementary_kinds, bad_numbers, odd_kinds, array_suffixes,
    short_kinds, tuple_alone, kinds_in_lists, marks, tails, visibility, tuple_depths,
    tuple_suffixes, broken_lists, short_declarations, blanks, messages, cut_characters,
    invalid_utf8, grammar_made, damaged, cuts, long_texts,
]


def most_open(text):
    """The most brackets open at once, which are no fewer than the reader has open."""
    most = count = 0
    for byte in text:
        count += (byte == ord("(")) - (byte == ord(")"))
        most = max(most, count)
    return most


def in_domain(call, text):
    """Whether the Rust's answer is the reference: a text that is short enough, with at
    most 32 tuples open. The first bracket of a declaration is its list's, not a tuple's."""
    lists = 0 if call == "kind" else 1
    return len(text) <= MOST_BYTES and most_open(text) <= lists + MOST_TUPLES


def lines():
    """The line of each text in the domain, some of them more than once."""
    for group in GROUPS:
        for call, text in group():
            whole = text.encode() if isinstance(text, str) else text
            if in_domain(call, whole):
                yield f"{call} {whole.hex() or '-'}"


def main():
    for line in dict.fromkeys(lines()):
        print(line)


if __name__ == "__main__":
    main()
