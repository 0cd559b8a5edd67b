"""What the C program is asked, line by line, and what it has to answer.

The Rust's list says what is read of a text, and canonical text and signature of what was read; a name and the kinds of its
fields stand in the canonical text and the signature. The Rust forgets place words, so its records say nothing of them; the
marks that stand for them are order 1's. The Rust reads no visibility words: a text with one is read as the text without it,
and refused where order 2 says. The text of a field's kind is read again as that kind, as order 3 says, which is the field
without its names; with a sign or a zero in front of a number it is refused, as order 7 says. A declaration is written out by
order 4's sentence, and its full line is read again as the very record. What of records is wrong, and with which refusal, is
document 01's and order 1's; the limits of texts are document 01's and, of kind texts, order 3's.
"""
import itertools
import re

UNLIMITED = "-"
NOT_WELL_FORMED, WRONG_SORT, NO_ROOM = "no 15 0", "no 16 0", "no 20 0"
TUPLE, FIXED, OPEN, FIELD, NAME, LIST, FUNCTION, CONSTRUCTOR, EVENT, ERROR = 9, 0xA, 0xB, 0x10, 0x11, 0x12, 0x20, 0x21, 0x22, 0x23
WORDS = dict(enumerate((b"int", b"uint", b"address", b"bool", b"bytes", b"function", b"bytes", b"string"), 1))  # of elementary kinds
KEYWORDS = {FUNCTION: "function", CONSTRUCTOR: "constructor", EVENT: "event", ERROR: "error"}
UNMARKED, INDEXED, CALLDATA, MEMORY = range(4)
LOCATIONS = {CALLDATA: b"calldata", MEMORY: b"memory"}
MARK_WORDS = {UNMARKED: b"", INDEXED: b"indexed", **LOCATIONS}
MUTABILITIES = dict(enumerate((b"pure", b"view", b"", b"payable")))
ANONYMOUS = 1
VISIBILITIES = ("external", "public")
MOST_BYTES = 4096
LONGEST_RECORD = 40960
RECORD_CALLS = ("canonical", "signature", "full", "kind_text", "name", "heads")


def hexed(b):
    return b.hex() or "-"


def unhexed(h):
    return b"" if h == "-" else bytes.fromhex(h)


# Answers in every room.

def written(call, given, output):
    """A call that writes: whole, or not at all."""
    n = len(output)
    for room in (UNLIMITED, n, n + 1):
        yield f"{call} {hexed(given)} {room}", f"ok {hexed(output)}"
    for room in {0, n - 1} if n > 0 else ():
        yield f"{call} {hexed(given)} {room}", NO_ROOM


def refused(call, given, refusal):
    """A call that refuses whatever it is lent."""
    for room in (UNLIMITED, 0, 1):
        yield f"{call} {hexed(given)} {room}", refusal


def answered(call, given, answer):
    """An answer is bytes or a refusal."""
    return written(call, given, answer) if isinstance(answer, bytes) else refused(call, given, answer)


# Records, by document 01's layout.

def number(n, size):
    return n.to_bytes(size, "little")


def record(kind, *parts):
    body = b"".join(parts)
    return number(6 + len(body), 4) + number(kind, 2) + body


def field(kind, name=b"", mark=UNMARKED, suffixes=b""):
    return record(FIELD, number(mark, 2), record(NAME, name), kind, suffixes)


def function(*inputs, mutability=2, name=b"f", outputs=()):
    return record(FUNCTION, number(mutability, 2), record(NAME, name), record(LIST, *inputs), record(LIST, *outputs))


def constructor(*inputs, mutability=2):
    return record(CONSTRUCTOR, number(mutability, 2), record(LIST, *inputs))


def event(*inputs, anonymous=0, name=b"E"):
    return record(EVENT, number(anonymous, 2), record(NAME, name), record(LIST, *inputs))


def error(*inputs, name=b"E"):
    return record(ERROR, record(NAME, name), record(LIST, *inputs))


def nested(depth, *inner):
    """Tuples of one field each, up to the innermost."""
    kind = record(9, *inner)
    for _ in range(depth - 1):
        kind = record(9, field(kind))
    return kind


UINT, BOOL, BYTES32 = record(2, number(256, 2)), record(4), record(5, number(32, 2))
CODE, BYTES, STRING, EMPTY = (record(kind) for kind in (6, 7, 8, 9))  # `function`, `bytes`, `string`, `()`


def kind_of(r):
    return r[4] | r[5] << 8


def mark_of(one):
    return one[6] | one[7] << 8


def parts(body, at):
    """The records that stand behind one another, each with its place, the first one's given."""
    while body:
        n = int.from_bytes(body[:4], "little")
        yield at, body[:n]
        at, body = at + n, body[n:]


def inside(r):
    """A declaration's name, if it has one, and its lists, each with its place."""
    head = 6 if kind_of(r) == ERROR else 8
    yield from parts(r[head:], head)


def own_fields(r):
    """The fields of a declaration's own lists, each with its place."""
    for at, part in inside(r):
        if kind_of(part) == LIST:
            yield from parts(part[6:], at + 6)


def components(r):
    """The fields of a field's tuple, if it has one."""
    for _, part in parts(r[8:], 8):
        if kind_of(part) == TUPLE:
            yield from (one for _, one in parts(part[6:], 6))


def bare(r):
    """A field's kind by itself: the field with mark 0 and without names, its own and those within its tuple."""
    changed = {NAME: lambda part: record(NAME), TUPLE: lambda part: record(TUPLE, *(bare(one) for _, one in parts(part[6:], 6)))}
    return record(FIELD, number(UNMARKED, 2), *(changed.get(kind_of(part), bytes)(part) for _, part in parts(r[8:], 8)))


def text_of(r):
    """The text of a field's kind."""
    return b"".join(text_of_part(part) for _, part in parts(r[8:], 8) if kind_of(part) != NAME)


def text_of_part(part):
    """Of a kind without its suffixes, or of a suffix."""
    kind, body = kind_of(part), part[6:]
    if kind == TUPLE:
        return b"(" + b",".join(text_of(one) for _, one in parts(body, 6)) + b")"
    n = b"%d" % int.from_bytes(body, "little") if body else b""
    return b"[" + n + b"]" if kind in (FIXED, OPEN) else WORDS[kind] + n


def full_line(r):
    """A declaration written out: keyword; a space and the name (none for a constructor); the list; a space and the mutability word unless
    none is stated; ` returns ` and the list if there are outputs; ` anonymous` where set."""
    kind, stated = kind_of(r), int.from_bytes(r[6:8], "little")
    names = [part[6:] for _, part in inside(r) if kind_of(part) == NAME]
    inputs, *outputs = (full_list(part) for _, part in inside(r) if kind_of(part) == LIST)
    line = KEYWORDS[kind].encode() + b"".join(map(spaced, names)) + inputs
    if kind in (FUNCTION, CONSTRUCTOR):
        line += spaced(MUTABILITIES[stated])
    line += b"".join(b" returns " + listed for listed in outputs if listed != b"()")
    return line + (b" anonymous" if kind == EVENT and stated == ANONYMOUS else b"")


def spaced(word):
    """A space and the word, if there is one."""
    return b" " + word if word else b""


def full_list(r):
    """Of a list or a tuple: fields are parted by `,`."""
    return b"(" + b",".join(full_field(one) for _, one in parts(r[6:], 6)) + b")"


def full_field(r):
    """A field is its kind, then a space and its mark word if any, then a space and its name if any. A tuple's components are written so."""
    (_, name), *kind = parts(r[8:], 8)
    texts = (full_list(part) if kind_of(part) == TUPLE else text_of_part(part) for _, part in kind)
    return b"".join(texts) + spaced(MARK_WORDS[mark_of(r)]) + spaced(name[6:])


def heads(r, at=0):
    """Where the heads of a record and of the records in it stand."""
    yield at
    inner = {TUPLE: 6, FIELD: 8, LIST: 6, FUNCTION: 8, CONSTRUCTOR: 8, EVENT: 8, ERROR: 6}.get(kind_of(r))
    for place, part in parts(r[inner:], at + inner) if inner else ():
        yield from heads(part, place)


# The Rust's list.

def kinds_in(canonical):
    """The kinds of a canonical text, or of the outputs behind it."""
    kinds, depth = [b""], 0
    for c in canonical[canonical.index(b"(") + 1:-1]:
        depth += (c == ord("(")) - (c == ord(")"))
        if c == ord(",") and depth == 0:
            kinds.append(b"")
        else:
            kinds[-1] += bytes([c])
    return kinds if kinds != [b""] else []


def of_field(r, text):
    """A field by itself. One with a mark is none, and is one with mark 0, whatever its name. The text of its kind is read again, and so
    are those of the fields within it."""
    assert text == text_of(r)
    whole, (_, name) = mark_of(r) == UNMARKED, next(parts(r[8:], 8))
    yield from answered("kind_text", r, text if whole else NOT_WELL_FORMED)
    yield from answered("name", r, name[6:] if whole else NOT_WELL_FORMED)
    for call in ("canonical", "signature", "full", "heads"):
        yield from refused(call, r, NOT_WELL_FORMED)
    if not whole:
        yield from of_field(r[:6] + number(UNMARKED, 2) + r[8:], text)
        return
    yield from read_again(r, text)
    for one in components(r):
        yield from of_field(one, text_of(one))


def read_again(r, text):
    """Order 3: the text of a field's kind is read as that kind, whose text is the same."""
    if len(text) <= MOST_BYTES:
        yield from written("kind", text, bare(r))
        yield from written("kind_text", bare(r), text)


def of_full_line(r):
    """Order 4: a declaration's full line is read as the very record, by the general call and by the one named for its keyword. One that is
    too long for them is written nevertheless."""
    line = full_line(r)
    yield from written("full", r, line)
    for call in ("general", KEYWORDS[kind_of(r)]):
        yield from answered(call, line, r if len(line) <= MOST_BYTES else "no 8 0")


def of_declaration(r, canonical, signature):
    kind = kind_of(r)
    yield from answered("canonical", r, WRONG_SORT if kind == CONSTRUCTOR else canonical)
    yield from answered("signature", r, signature if kind == FUNCTION else WRONG_SORT)
    yield from answered("name", r, WRONG_SORT if kind == CONSTRUCTOR else canonical[:canonical.index(b"(")])
    yield from refused("kind_text", r, NOT_WELL_FORMED)
    yield from of_full_line(r)
    fields = [one for _, one in own_fields(r)]
    kinds = [text_of(one) for one in fields]
    if kind != CONSTRUCTOR:
        assert kinds == kinds_in(canonical) + (kinds_in(signature[len(canonical):]) if kind == FUNCTION else [])
    for one, text in zip(fields, kinds):
        yield from of_field(one, text)


def is_read(row):
    return row.split()[2] == "ok"


def reading(row):
    """The reading call of a row, lent enough."""
    call, given, *_ = row.split()
    return f"{call} {given} {UNLIMITED}"


def forgotten(r, rust):
    """A copy of a record without place words: marks 2 and 3 of a function's or a constructor's own lists, whose places are those of the
    Rust's record, are set to 0."""
    copy = bytearray(r)
    for at, _ in own_fields(rust) if kind_of(rust) in (FUNCTION, CONSTRUCTOR) else ():
        mark = slice(at + 6, at + 8)
        if copy[mark] in (number(CALLDATA, 2), number(MEMORY, 2)):
            copy[mark] = number(UNMARKED, 2)
    return bytes(copy)


def as_written(row, answer):
    """The row with the record that its reading call answers, or nothing where that is not the Rust's: a text without a place word has the
    Rust's very record, and one with such words has it once they are forgotten."""
    call, given, verdict, rust, *rest = row.split()
    written = re.fullmatch(r"ok ((?:[0-9a-f]{2})+)", answer)
    if not written:
        return None
    here, there = unhexed(written[1]), unhexed(rust)
    if any(word in unhexed(given) for word in LOCATIONS.values()):
        here = forgotten(here, there)
    return " ".join((call, given, verdict, written[1], *rest)) if here == there else None


def of_row(row):
    """The calls that a row of the list tells of; the calls on records get the row's record as it is."""
    call, given, verdict, *rest = row.split()
    text = unhexed(given)
    if call != "kind":
        yield from written(f"message:{call}", text, message_of_row(row))
    if verdict != "ok":
        yield from refused(call, text, f"no {rest[0]} {rest[1]}")
        return
    r, canonical, signature = (unhexed(h) for h in rest)
    yield from written(call, text, r)
    if call == "kind":
        yield from of_field(r, canonical)
        yield from of_numbers(text)
    else:
        yield from of_declaration(r, canonical, signature)
    if kind_of(r) == FUNCTION:
        yield from of_visible(call, text, r)


def line_of_row(row, full=False):
    """A text without line feeds, and what the program prints of it, with its full line or its canonical one; or nothing."""
    call, given, verdict, *rest = row.split()
    text = unhexed(given)
    if call != "general" or b"\n" in text:
        return None
    if verdict != "ok":
        message = message_of_row(row)
        return text, f"no {rest[0]} {rest[1]}".encode() + (b"\t" + message if message else b"")
    r, canonical = unhexed(rest[0]), unhexed(rest[1])
    return text, b"ok %s %d %s" % (KEYWORDS[kind_of(r)].encode(), len(r), full_line(r) if full else canonical or b"-")


# Visibility words, put into texts that the Rust reads without them.

MUTABILITY = re.compile(r"[\t-\r \x85\xa0\u1680\u2000-\u200a\u2028\u2029\u202f\u205f\u3000]*(?:pure|view|payable)(?![A-Za-z0-9$_])")


def places(text):
    """Where a function's text that is read has its inputs behind it, and where its mutability word too, if there is one."""
    open_there = itertools.accumulate((c == "(") - (c == ")") for c in text)
    inputs = next(at for at, (c, depth) in enumerate(zip(text, open_there), 1) if c == ")" and depth == 0)
    mutability = MUTABILITY.match(text, inputs)
    return inputs, mutability.end() if mutability else inputs


def of_visible(call, text, r):
    """With a visibility word at either place a text is read as without it; of two the second is refused."""
    text = text.decode()
    first, second = places(text)
    for word, place in itertools.product(VISIBILITIES, sorted({first, second})):
        visible = f"{text[:place]} {word} {text[place:]}".encode()
        yield from answered(call, visible, r if len(visible) <= MOST_BYTES else "no 8 0")
    for words in itertools.product(VISIBILITIES, repeat=2):
        front = f"{text[:first]} {words[0]} {text[first:second]} ".encode()
        twice = front + f"{words[1]} {text[second:]}".encode()
        number, position = (7, len(front)) if len(twice) <= MOST_BYTES else (8, 0)
        yield from refused(call, twice, f"no {number} {position}")
        yield from written(f"message:{call}", twice, message(call, twice, number, position))


# Numbers that are not plain, put into kind texts that are read.

NUMBER = re.compile(rb"(?<=int)[0-9]+|(?<=bytes)[0-9]+|(?<=\[)[0-9]+")


def refusal_of_kind(text):
    """Of a kind text that is read but for a number: by its beginning."""
    return "no 11 0" if text.startswith((b"int", b"uint")) else "no 12 0" if text.startswith(b"bytes") else "no 13 0"


def of_numbers(text):
    """With a sign or zeros in front of its first number, and of its last, a kind text is refused."""
    numbers = [found.start() for found in NUMBER.finditer(text)]
    for at, front in itertools.product({*numbers[:1], *numbers[-1:]}, (b"+", b"0", b"+0", b"00")):
        given = text[:at] + front + text[at:]
        yield from refused("kind", given, refusal_of_kind(text) if len(given) <= MOST_BYTES else "no 8 0")


# Messages.

WORDINGS = {
    1: "unexpected end of stream",
    2: "expected (",
    3: "expected )",
    4: "expected declaration",
    5: "expected KEYWORD",
    6: "expected identifier",
    7: "expected end of declaration",
}
ESCAPED = {"\0": "\\0", "\t": "\\t", "\n": "\\n", "\r": "\\r", '"': '\\"', "\\": "\\\\"}


def escaped(part):
    """As Rust's Debug has it, but only ASCII; of a character that is cut nothing."""
    return "".join(ESCAPED.get(c) or (f"\\u{{{ord(c):x}}}" if ord(c) < 32 or ord(c) == 127 else c) for c in part.decode(errors="ignore"))


def message(call, text, number, position):
    """A message by document 01."""
    if number not in WORDINGS:
        return b""
    wanted = call if call != "general" else next((k for k in KEYWORDS.values() if text.startswith(k.encode())), "")
    left, right = text[:position], text[position:]
    context = ("..." if len(left) > 10 else "") + escaped(left[-10:]) + "|" + escaped(right[:10]) + ("..." if len(right) > 10 else "")
    return f'{WORDINGS[number].replace("KEYWORD", wanted)} at position {position}("{context}")'.encode()


def copied(rust):
    """The Rust's message with the characters beyond ASCII that it escapes: "Other characters are copied"."""
    def one(match):
        return match[0] if match[1] is None or int(match[1], 16) < 128 else chr(int(match[1], 16))

    return re.sub(r"\\u\{([0-9a-f]+)\}|\\.", one, rust.decode()).encode()


def message_of_row(row):
    """By the Rust where it has one; where it panics, by document 01."""
    call, given, verdict, *rest = row.split()
    if verdict == "ok":
        return b""
    text = unhexed(given)
    here = message(call, text, int(rest[0]), int(rest[1]))
    assert verdict == "panic" or here == copied(unhexed(rest[2])), row
    return here


# Records that nobody read.

def damaged():
    """Records that are not well formed."""
    array = field(nested(2), b"a", MEMORY, record(0xA, number(3, 8)) + record(0xB))
    whole = function(array, field(UINT), outputs=[field(BOOL), field(STRING, mark=CALLDATA)])
    for r in (whole, constructor(field(UINT, b"a")), event(field(UINT, b"a", INDEXED)), error(field(BOOL)), field(UINT, b"a")):
        for n in range(len(r)):
            yield r[:n]
        yield r + b"\0"
        for at in heads(r):
            n = int.from_bytes(r[at:at + 4], "little")
            for m in (0, 5, n - 1, n + 1, n + 256, n + 2 ** 24, 2 ** 32 - 1):
                yield r[:at] + number(m, 4) + r[at + 4:]
            for k in (0, 0xC, 0x13, 0x24, kind_of(r[at:]) + 0x100):
                yield r[:at + 4] + number(k, 2) + r[at + 6:]
    for width in (0, 7, 12, 264, 65535):
        yield from (field(record(k, number(width, 2))) for k in (1, 2))
    for length in (0, 33, 256):
        yield field(record(5, number(length, 2)))
    yield from (field(record(k, b"\0")) for k in (3, 4, 6, 7, 8))
    yield field(record(2))
    yield field(UINT, suffixes=record(0xA, number(3, 7)))
    yield field(UINT, suffixes=record(0xB, b"\0"))
    yield field(UINT, suffixes=UINT)
    yield field(record(0xB))
    yield from (field(UINT, name) for name in (b"1", b"a ", b"a-b", b"\xc3\xa9"))
    yield from (field(UINT, mark=256), event(field(UINT, mark=256 + INDEXED)), function(field(STRING, mark=256 + MEMORY)))
    for name in (b"", b"1", b"f()", b"\xc3\xa9"):
        yield from (function(name=name), event(name=name), error(name=name))
    yield from (function(mutability=4), function(mutability=256), constructor(mutability=0), constructor(mutability=1), event(anonymous=2))
    yield from (field(nested(33)), function(field(nested(33))), function(outputs=[field(nested(33))]))
    yield longest(1)


def longest(over):
    """A function's record of 40,960 bytes and some more."""
    empty = len(function(name=b""))
    return function(name=b"f" * (LONGEST_RECORD - empty + over))


def of_records():
    for r in damaged():
        for call in RECORD_CALLS:
            yield from refused(call, r, NOT_WELL_FORMED)
    r = longest(0)
    yield from of_declaration(r, r[14:-12] + b"()", r[14:-12] + b"():()")
    deepest = b"(" * 32 + b")" * 32
    yield from of_field(field(nested(32), b"indexed"), deepest)
    yield from of_declaration(error(field(nested(32))), b"E(" + deepest + b")", b"")
    yield from of_declaration(function(mutability=3, outputs=[field(UINT, b"indexed")]), b"f()", b"f():(uint256)")
    yield from of_declaration(event(field(BOOL, b"indexed", INDEXED), field(record(9, field(BOOL, b"indexed"))), anonymous=1), b"E(bool,(bool))", b"")
    longest_suffix = record(0xA, number(2 ** 64 - 1, 8))
    yield from of_field(field(UINT, suffixes=longest_suffix * 2000), b"uint256" + b"[18446744073709551615]" * 2000)


def of_marks():
    """Each mark with each name, at kinds that admit a place word and kinds that do not, wherever a field may stand. A mark stands where its
    word is a mark word, and there mark 0 has none of these words for a name."""
    for kind, suffixes, text, located in (
        (BOOL, b"", b"bool", False), (BYTES32, b"", b"bytes32", False), (STRING, b"", b"string", True), (EMPTY, b"", b"()", True),
        (BOOL, record(0xB), b"bool[]", True),
    ):
        locations = LOCATIONS if located else {}
        for mark, name in itertools.product(range(5), (b"", b"a", b"indexed", b"calldata", b"memory")):
            one = field(kind, name, mark, suffixes)
            inside = field(record(9, one))
            for words, r, canonical, signature in (
                (locations, function(one), b"f(KIND)", b"f(KIND):()"),
                (locations, function(outputs=[one]), b"f()", b"f():(KIND)"),
                (locations, constructor(one), b"", b""),
                ({INDEXED: b"indexed"}, event(one), b"E(KIND)", b""),
                ({}, error(one), b"E(KIND)", b""),
                ({}, function(inside), b"f((KIND))", b"f((KIND)):()"),
                ({}, event(inside), b"E((KIND))", b""),
                ({}, one, b"KIND", b""),
            ):
                if not (mark in words or mark == UNMARKED and name not in words.values()):
                    for call in RECORD_CALLS:
                        yield from refused(call, r, NOT_WELL_FORMED)
                elif r is one:
                    yield from of_field(one, text)
                else:
                    yield from of_declaration(r, canonical.replace(b"KIND", text), signature.replace(b"KIND", text))


# Texts with place words, of which the Rust says less.

def of_text(text, r, canonical, signature):
    """A text that is read, by the general call and by the one named for its keyword."""
    for call in ("general", KEYWORDS[kind_of(r)]):
        yield from written(call, text, r)
        yield from written(f"message:{call}", text, b"")
    yield from of_declaration(r, canonical, signature)


def of_refused_text(text, keyword, number, position):
    """A text that is refused by both."""
    for call in ("general", keyword):
        yield from refused(call, text, f"no {number} {position}")
        yield from written(f"message:{call}", text, message(call, text, number, position))


def of_place_words():
    """Each list as a function's inputs, as its outputs and as a constructor's, and others that are as they were."""
    for list_text, one, kind in (
        (b"(string memory)", field(STRING, mark=MEMORY), b"string"),
        (b"(bytes calldata)", field(BYTES, mark=CALLDATA), b"bytes"),
        (b"(function[1] memory)", field(CODE, mark=MEMORY, suffixes=record(0xA, number(1, 8))), b"function[1]"),
        (b"((uint)memory)", field(record(9, field(UINT)), mark=MEMORY), b"(uint256)"),
        (b"(() memory)", field(EMPTY, mark=MEMORY), b"()"),
        (b"(string memory memory)", field(STRING, b"memory", MEMORY), b"string"),
        (b"(string memory calldata)", field(STRING, b"calldata", MEMORY), b"string"),
        (b"((string memory) calldata a)", field(record(9, field(STRING, b"memory")), b"a", CALLDATA), b"(string)"),
        (b"(string memory s)", field(STRING, b"s", MEMORY), b"string"),
        (b"(string calldata)", field(STRING, mark=CALLDATA), b"string"),
        (b"(uint memory)", field(UINT, b"memory"), b"uint256"),
        (b"(bytes32 calldata)", field(BYTES32, b"calldata"), b"bytes32"),
    ):
        yield from of_text(b"function f" + list_text, function(one), b"f(%s)" % kind, b"f(%s):()" % kind)
        yield from of_text(b"function f() returns " + list_text, function(outputs=[one]), b"f()", b"f():(%s)" % kind)
        yield from of_text(b"constructor" + list_text, constructor(one), b"", b"")
    yield from of_text(b"event E(string memory)", event(field(STRING, b"memory")), b"E(string)", b"")
    yield from of_text(b"error E(string calldata)", error(field(STRING, b"calldata")), b"E(string)", b"")
    yield from of_refused_text(b"function f(address memory a)", "function", 3, 26)
    yield from of_refused_text(b"function f(string storage memory)", "function", 3, 26)
    yield from of_refused_text(b"function f(string memory 1)", "function", 3, 25)


# Declarations written out, of which the Rust says nothing.

NAMES = (b"returns", b"pure", b"view", b"payable", b"memory", b"calldata", b"indexed", b"anonymous", b"function", b"constructor", b"event",
         b"error", b"external", b"public", b"uint256")  # words that stand elsewhere in a declaration


def of_full_lines():
    """Lines written by hand, as order 4 has them."""
    pair = record(TUPLE, field(UINT, b"indexed"), field(STRING, b"memory"))
    twice, any_number = record(FIXED, number(2, 8)), record(OPEN)
    for text, r, line in (
        (b"function f ( uint  a , bool ) external view returns ( string memory )",
         function(field(UINT, b"a"), field(BOOL), mutability=1, outputs=[field(STRING, mark=MEMORY)]),
         b"function f(uint256 a,bool) view returns (string memory)"),
        (b"function f() returns ()", function(), b"function f()"),
        (b"function f() public", function(), b"function f()"),
        (b"constructor ( ) payable ;", constructor(mutability=3), b"constructor() payable"),
        (b"event e(uint a, (uint indexed, string memory) indexed t) anonymous",
         event(field(UINT, b"a"), field(pair, b"t", INDEXED), anonymous=ANONYMOUS, name=b"e"),
         b"event e(uint256 a,(uint256 indexed,string memory) indexed t) anonymous"),
        (b"function returns(uint returns) pure returns(bool pure)",
         function(field(UINT, b"returns"), mutability=0, name=b"returns", outputs=[field(BOOL, b"pure")]),
         b"function returns(uint256 returns) pure returns (bool pure)"),
        (b"constructor((uint indexed,string memory)[2][]calldata function)",
         constructor(field(pair, b"function", CALLDATA, twice + any_number)),
         b"constructor((uint256 indexed,string memory)[2][] calldata function)"),
        (b"error E( ( ) [ ] [2 ] , ( ) a )", error(field(EMPTY, suffixes=any_number + twice), field(EMPTY, b"a")), b"error E(()[][2],() a)"),
        (b"event E(bytes32 indexed);", event(field(BYTES32, mark=INDEXED)), b"event E(bytes32 indexed)"),
        (b"function f(function function)external payable", function(field(CODE, b"function"), mutability=3), b"function f(function function) payable"),
        (b"function f()view public returns(((bytes a)b)memory memory)",
         function(mutability=1, outputs=[field(record(TUPLE, field(record(TUPLE, field(BYTES, b"a")), b"b")), b"memory", MEMORY)]),
         b"function f() view returns (((bytes a) b) memory memory)"),
    ):
        assert line == full_line(r)
        for call in ("general", KEYWORDS[kind_of(r)]):
            yield from written(call, text, r)
        yield from of_full_line(r)


def of_named():
    """Names that are words: of declarations, of fields with a mark and without, and of fields in tuples; with all that may stand behind."""
    for name in NAMES:
        pair = record(TUPLE, field(UINT, name), field(record(TUPLE, field(STRING, name)), name, suffixes=record(OPEN)))
        plain = [field(BOOL, name), field(record(TUPLE, field(pair, name)))]
        located = [field(STRING, name, MEMORY), field(pair, name, CALLDATA, record(FIXED, number(7, 8))), field(EMPTY, b"", MEMORY)]
        indexed = [field(kind, named, INDEXED) for kind in (UINT, STRING, pair) for named in (b"", name)]
        for mutability, outputs in itertools.product(MUTABILITIES, ([], plain, plain + located)):
            yield from of_full_line(function(*located, *plain, mutability=mutability, name=name, outputs=outputs))
        for mutability in (2, 3):
            yield from of_full_line(constructor(*plain, *located, mutability=mutability))
        for anonymous in (0, ANONYMOUS):
            yield from of_full_line(event(*indexed, plain[1], anonymous=anonymous, name=name))
        yield from of_full_line(error(*plain, field(pair, name), name=name))


def of_long_lines():
    """Lines of 4,096 bytes and one more; one of a longest record, full of the longest suffixes; and tuples 32 deep that each have a name."""
    for build, over in itertools.product((function, constructor, event, error), (0, 1)):
        rest = MOST_BYTES - len(full_line(build(field(BOOL)))) - 1
        r = build(field(BOOL, b"a" * (rest + over)))
        assert len(full_line(r)) == MOST_BYTES + over
        yield from of_full_line(r)
    suffix, empty = record(FIXED, number(2 ** 64 - 1, 8)), len(error(field(UINT)))
    count, rest = divmod(LONGEST_RECORD - empty, len(suffix))
    yield from of_full_line(error(field(UINT, b"a" * rest, suffixes=suffix * count)))
    kind = BOOL
    for _ in range(32):
        kind = record(TUPLE, field(kind, b"memory"))
    yield from of_full_line(function(field(kind, b"memory", MEMORY), outputs=[field(kind, b"returns")]))


# Texts with visibility words, which the Rust does not read.

def of_visibility_words():
    for text, r, canonical, outputs in (
        (b"function f() external", function(), b"f()", b"()"),
        (b"function f()public", function(), b"f()", b"()"),
        (b"function f() pure external", function(mutability=0), b"f()", b"()"),
        (b"function f() external payable;", function(mutability=3), b"f()", b"()"),
        (b"function f() external view returns (uint)", function(mutability=1, outputs=[field(UINT)]), b"f()", b"(uint256)"),
        (b"function external() external", function(name=b"external"), b"external()", b"()"),
        (b"function public(uint public) public", function(field(UINT, b"public"), name=b"public"), b"public(uint256)", b"()"),
    ):
        yield from of_text(text, r, canonical, canonical + b":" + outputs)
    for word, before, behind in itertools.product(VISIBILITIES, ("", " ", "   ", "\u3000"), ("", ";", "\n;\n")):
        yield from of_text(f"function f(){before}{word}{behind}".encode(), function(), b"f()", b"f():()")
    for text, number, position in (
        (b"function f() external external", 7, 22),
        (b"function f() external  public", 7, 23),
        (b"function f() public public", 7, 20),
        (b"function f() pure external view", 7, 27),
        (b"function f() external pure public", 7, 27),
        (b"function f() pure pure external", 7, 18),
        (b"function f() returns (uint) external", 7, 28),
        (b"function f() external returns (uint) public", 7, 37),
        (b"function f() external;external", 7, 22),
        (b"function f() internal", 7, 13),
        (b"function f() public1", 7, 13),
        (b"function f() externalpure", 7, 13),
        (b"function f() external returns", 1, 29),
        (b"function f() external returns (uin)", 3, 31),
    ):
        yield from of_refused_text(text, "function", number, position)
    yield from of_refused_text(b"constructor() public", "constructor", 7, 14)
    yield from of_refused_text(b"event e() external", "event", 7, 10)
    yield from written("message:general", b"function f() external external", b'expected end of declaration at position 22("... external |external")')


# Texts with numbers that are not plain, which the Rust reads, and with plain ones.

def of_plain_numbers():
    for answer, texts in (
        ("no 11 0", b"uint08 uint[+2] uint[00] uint[2][02] uint0 uint00 uint12[02]"),
        ("no 12 0", b"bytes01 bytes[02] bytes4[01] bytes0"),
        ("no 13 0", b"bool[02] address[010] (uint08) (uint)[02] (uint)[2][03] x[02]"),
    ):
        for text in texts.split():
            yield from refused("kind", text, answer)
    for length in (0, 10, 2 ** 64 - 1):
        suffix = record(FIXED, number(length, 8))
        yield from written("kind", b"uint[%d]" % length, field(UINT, suffixes=suffix))
        yield from written("kind", b"(uint)[%d]" % length, field(record(TUPLE, field(UINT)), suffixes=suffix))
    for text, keyword, position in (
        (b"function f(uint08)", "function", 11),
        (b"function f(bool,uint08)", "function", 15),
        (b"error e(bytes+1)", "error", 8),
        (b"function f((uint)[02])", "function", 17),
        (b"function f((uint)[2][03])", "function", 20),
        (b"function f(((uint)[02]))", "function", 11),
        (b"function f() returns ((bool)[01])", "function", 28),
        (b"constructor(bool[" + b"0" * 4000 + b"2])", "constructor", 12),
    ):
        yield from of_refused_text(text, keyword, 3, position)
    yield from of_text(b"function f(uint a08)", function(field(UINT, b"a08")), b"f(uint256)", b"f(uint256):()")
    yield from of_text(b"function f08(uint $0)", function(field(UINT, b"$0"), name=b"f08"), b"f08(uint256)", b"f08(uint256):()")


# Texts at the limits, where the Rust is not asked.

def declared(kind, *inputs):
    """A declaration's text up to behind its `(`, and its record."""
    build, name = {FUNCTION: (function, b" f"), CONSTRUCTOR: (constructor, b""), EVENT: (event, b" E"), ERROR: (error, b" E")}[kind]
    return KEYWORDS[kind].encode() + name + b"(", build(*inputs)


def of_limits():
    for kind, keyword in KEYWORDS.items():
        opening, r = declared(kind, field(nested(32, field(UINT, b"a"))))
        longest_text = (opening + b"(" * 32 + "uint\u2003a".encode() + b")" * 32).ljust(4095) + b")"
        for call in ("general", keyword):
            yield from written(call, longest_text, r)
            yield from refused(call, longest_text + b" ", "no 8 0")
            yield from refused(call, opening + b"(" * 33, f"no 10 {len(opening) + 32}")
            for text in (longest_text, longest_text + b" ", opening + b"(" * 33):
                yield from written(f"message:{call}", text, b"")


def of_kind_texts():
    """Kind texts that start with `(`, of which the Rust's list has those with at most 32 tuples open."""
    inner = field(nested(31))
    for text, r in (
        (b"()", field(EMPTY)),
        (b"(uint)", field(record(TUPLE, field(UINT)))),
        (b"(" * 32 + b"uint" + b")" * 32, field(nested(32, field(UINT)))),
        (b"(" + b"()," * 1364 + b"())", field(record(TUPLE, *[field(EMPTY)] * 1365))),
        (b"(" + b",".join([b"(" * 31 + b")" * 31] * 65) + b")", field(record(TUPLE, *[inner] * 65))),
        (b"()" + b"[]" * 2047, field(EMPTY, suffixes=record(OPEN) * 2047)),
    ):
        yield from written("kind", text, r)
        yield from refused("kind", text.ljust(MOST_BYTES + 1, b")"), "no 8 0")
        yield from refused("kind", text + b" ", "no 13 0" if len(text) < MOST_BYTES else "no 8 0")
    for text, answer in (
        (b"(" * 32, "no 13 0"),
        (b"(" * 33, "no 10 32"),
        (b"(x" + b"(" * 32, "no 10 33"),
        ("(é".encode() + b"(" * 32, "no 10 34"),
        (b"()" + b"(" * 33, "no 10 34"),
        (b"())))" + b"(" * 36, "no 10 40"),
        (b"())))" + b"(" * 35, "no 13 0"),
        (b"(" * 33 + b")" * 33, "no 10 32"),
        (b"(uint)x" + b"(" * 33, "no 10 39"),
        (b"(" * 4096, "no 10 32"),
        (b"(" * 4097, "no 8 0"),
        (b"(\xff", "no 9 1"),
        (b"(" * 33 + b"\xff", "no 9 33"),
        (b"x" + b"(" * 33, "no 13 0"),
    ):
        yield from refused("kind", text, answer)
