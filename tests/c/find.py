"""Finding a function in a sheet (order 9): what find is asked and has to answer.

A sheet is put together of records: of the Rust's list, of those that the calls on records are asked about, whose answers say which of
them are declarations, and of some that are made here. A function's canonical text is the list's, or is put together by document 01's
sentence. The rest is order 9's. Nothing is taken from the library.
"""
import itertools
import random
import re
import signal
import subprocess

import cases
from cases import BOOL, EMPTY, FUNCTION, LIST, LONGEST_RECORD, NAME, UINT, UNLIMITED, field, hexed, kind_of, number, record, unhexed
from sheets import MOST_DECLARATIONS, SHEET, Lines, distinct, of_list

NOT_A_SHEET = "no 15 0"
WIDTHS = range(8, 257, 8)
PIECE = 64  # declarations of a sheet that is asked about again and again
MOST_LENGTH = 2 ** 64 - 1


def sheet(*records):
    return record(SHEET, *records)


def asked(given, text, answer):
    return f"find {hexed(given)} {hexed(text)}", answer


def at(place):
    return f"ok {place} {place}"


def missing(functions):
    return f"no 26 {functions}"


# Canonical texts, by document 01: "Name, `(`, kinds parted by `,`, `)`".

def canonical(declared):
    name, listed, *_ = (part for _, part in cases.inside(declared) if kind_of(part) in (NAME, LIST))
    return name[6:] + b"(" + b",".join(cases.text_of(one) for _, one in cases.parts(listed[6:], 6)) + b")"


def functions(records):
    return [one for one in records if kind_of(one) == FUNCTION]


def searched(records, texts=None, step=1):
    """Each function, or each so many, is found at its place, by the text that is given for it or its canonical one; nothing is found by other
    texts."""
    given, found = sheet(*records), functions(records)
    known = [(texts or {}).get(one) or canonical(one) for one in found]
    for place, text in list(enumerate(known, 1))[::step]:
        yield asked(given, text, at(place))
    some = known[-1] if known else b"f()"
    for text in (b"", b" ", some[:-1], some + b" ", b" " + some, b"function " + some, some + b"\0", some.upper() + b"()", bytes(90_000)):
        if text not in known:
            yield asked(given, text, missing(len(found)))


# Document 02's sheet.

ORDER = (
    cases.event(name=b"f"),
    cases.function(name=b"f"),
    cases.constructor(),
    cases.function(field(UINT), name=b"g"),
    cases.error(field(UINT), name=b"g"),
)


def of_order():
    yield from searched(ORDER)
    for text, answer in (
        (b"f()", at(1)), (b"g(uint256)", at(2)),
        *((text, missing(2)) for text in (b"g(uint)", b"", b"f() ", b"function f()", b"f", b"f()f()", b"g(uint256", b"f()" * 30_000)),
    ):
        yield asked(sheet(*ORDER), text, answer)
    yield asked(sheet(), b"", missing(0))
    yield asked(sheet(), b"f()", missing(0))
    yield asked(b"", b"f()", NOT_A_SHEET)
    yield asked(b"", b"", NOT_A_SHEET)


# What is no sheet.

def of_damaged():
    """Bytes too many and too few, other record kinds, lengths that do not meet, and declarations that may not stand in a sheet."""
    whole, text = sheet(*ORDER), b"g(uint256)"
    yield from (asked(whole[:n], text, NOT_A_SHEET) for n in range(len(whole)))
    yield from (asked(whole + more, text, NOT_A_SHEET) for more in (b"\0", whole, ORDER[1], bytes(6)))
    for kind in (0, 1, 9, 0x10, 0x11, 0x12, 0x20, 0x21, 0x22, 0x23, 0x31, 0x2F, 0x130, 0x3000):
        yield asked(record(kind, *ORDER), text, NOT_A_SHEET)
    for place in (0, 1, 2, 3):  # of the length
        for change in (1, 0x80, 0xFF):
            yield asked(whole[:place] + bytes([whole[place] ^ change]) + whole[place + 1:], text, NOT_A_SHEET)
    for n in (0, 1, 5, len(whole) - 1, len(whole) + 1, 2 ** 32 - 1):
        yield asked(number(n, 4) + whole[4:], text, NOT_A_SHEET)
    other = field(UINT), record(LIST), record(NAME, b"f"), UINT
    yield from (asked(one, text, NOT_A_SHEET) for one in (*ORDER, *other))
    for one in (*other, sheet(), sheet(ORDER[1])):
        for records in ((one,), (*ORDER, one), (one, *ORDER)):
            yield asked(sheet(*records), text, NOT_A_SHEET)
    for n in (0, 1, 5, 6, 7, len(ORDER[1]) - 1, len(ORDER[1]) + 1, 2 ** 31, 2 ** 32 - 1):  # the length of a declaration within
        records = ORDER[0], number(n, 4) + ORDER[1][4:], *ORDER[2:]
        yield asked(sheet(*records), text, NOT_A_SHEET)
    for more in (b"\0", bytes(5), bytes(6), number(6, 4) + bytes(2)):
        yield asked(sheet(*ORDER, more), text, NOT_A_SHEET)


def of_repeats():
    """A repeat in any place; what is no repeat."""
    g = ORDER[3]
    again = (
        g,
        cases.function(field(UINT, b"a"), name=b"g"),
        cases.function(field(UINT), name=b"g", mutability=0),
        cases.function(field(UINT), name=b"g", outputs=(field(BOOL),)),
        cases.constructor(field(UINT), mutability=3),
        cases.event(name=b"f", anonymous=1),
        cases.error(field(UINT, b"b"), name=b"g"),
    )
    for one, place in itertools.product(again, range(len(ORDER) + 1)):
        yield asked(sheet(*ORDER[:place], one, *ORDER[place:]), b"f()", NOT_A_SHEET)
    tuples = [cases.function(field(record(9, field(UINT, name)), outer), name=b"t") for name, outer in itertools.product((b"", b"a"), (b"", b"b"))]
    for one, other in itertools.product(tuples, repeat=2):
        yield asked(sheet(one, other), b"t((uint256))", NOT_A_SHEET)
    other = cases.function(field(record(9, field(UINT)), suffixes=record(0xB)), name=b"t"), cases.function(field(UINT), name=b"t")
    yield from searched((*tuples[:1], *other, *ORDER))


def of_counts():
    """512 declarations and one more, of each keyword."""
    for make in (cases.function, cases.event, cases.error):
        many = [make(name=b"n%d" % i) for i in range(MOST_DECLARATIONS + 1)]
        found = len(functions(many[:MOST_DECLARATIONS]))
        for place in (1, 2, 256, 511, 512, 513):
            text = b"n%d()" % (place - 1)
            yield asked(sheet(*many[:MOST_DECLARATIONS]), text, at(place) if place <= found else missing(found))
            yield asked(sheet(*many), text, NOT_A_SHEET)
        yield asked(sheet(*many[:MOST_DECLARATIONS], cases.constructor()), b"n0()", NOT_A_SHEET)
        yield asked(sheet(*many[1:MOST_DECLARATIONS], cases.constructor()), b"n0()", missing(max(found - 1, 0)))


# Long declarations and long texts.

def sized(size, name, *inputs):
    """A function of that many bytes: its name, empty tuples, and the inputs behind them."""
    short = cases.function(*inputs, name=name)
    fill, rest = divmod(size - len(short), len(field(EMPTY)))
    made = cases.function(*[field(EMPTY)] * fill, *inputs, name=name + b"x" * rest)
    assert len(made) == size
    return made


def of_lengths():
    """Declarations of exactly 40,960 bytes and of one more."""
    for size, is_sheet in ((LONGEST_RECORD - 1, True), (LONGEST_RECORD, True), (LONGEST_RECORD + 1, False)):
        one = sized(size, b"f", field(UINT))
        for records in ((one,), (*ORDER, one), (one, *ORDER), (one, sized(size, b"g"))):
            place = 1 + len(functions(records[:records.index(one)]))
            yield asked(sheet(*records), canonical(one), at(place) if is_sheet else NOT_A_SHEET)
            yield asked(sheet(*records), canonical(one)[:-1], missing(len(functions(records))) if is_sheet else NOT_A_SHEET)
    yield from searched([sized(size, b"f%d" % size, field(UINT)) for size in range(4090, 4103)])  # twice as much is the usual scratch


def of_endings():
    """Texts of more than 8,192 bytes that agree but for their end, or are the beginning of another."""
    widths = [record(2, number(width, 2)) for width in WIDTHS]
    for front in ([field(UINT)] * 1100, [field(UINT)] * 1800):
        many = [cases.function(*front, field(last), name=b"f") for last in widths[:6]]
        many += [cases.function(*front, name=b"f"), cases.function(*front, field(UINT), field(BOOL), name=b"f")]
        assert all(len(canonical(one)) > 8192 for one in many)
        yield from searched(many)
        for place in range(len(many)):
            yield asked(sheet(*many, many[place]), canonical(many[0]), NOT_A_SHEET)
    for width in (5800 // 22, 2900):  # suffixes: texts of up to 63,820 bytes, the longest that a record may have
        lengths = [record(0xA, number(MOST_LENGTH, 8))] * width
        many = [cases.function(field(UINT, suffixes=b"".join(lengths) + record(0xA, number(MOST_LENGTH - i, 8))), name=b"f") for i in range(4)]
        yield from searched(many)
        yield asked(sheet(*many, many[0]), canonical(many[0]), NOT_A_SHEET)
    exact = [cases.function(*[field(UINT)] * 1023, name=b"f" * n) for n in range(3, 10)]  # texts of 8,190 bytes and more, around the scratch
    assert 8192 in map(len, map(canonical, exact))
    yield from searched(exact)


# Sheets of the list, and of the records that the calls on records are asked about.

def of_rows(rows, count=60):
    """Functions of the list in sheets, each at its place, between their namesakes and others."""
    lines, choose = Lines(of_list(rows)), random.Random(9)
    said = [lines[line] for line in distinct(lines)]
    texts = {declared: text for declared, text in said if kind_of(declared) == FUNCTION}
    all_records = [declared for declared, _ in said]
    for start in range(0, len(all_records), PIECE):
        yield from searched(all_records[start:start + PIECE], texts)
    yield from searched(all_records[:MOST_DECLARATIONS], texts, PIECE)
    for _ in range(count):
        some = choose.sample(all_records, choose.choice((1, 2, 5, 20)))
        there = {(kind_of(one), canonical(one)) for one in some if kind_of(one) != cases.CONSTRUCTOR}
        for one in functions(some):
            for other in namesakes(one):
                if (kind_of(other), canonical(other)) not in there:
                    some.insert(choose.randrange(len(some) + 1), other)
        yield from searched(some, texts)


def namesakes(function):
    """The event and the error of a function's name and inputs, these without marks and names."""
    name, inputs, _ = (part for _, part in cases.inside(function))
    bare = record(LIST, *(cases.bare(one) for _, one in cases.parts(inputs[6:], 6)))
    return record(cases.EVENT, number(0, 2), name, bare), record(cases.ERROR, name, bare)


def of_records(calls):
    """A record that the canonical call is asked about, as a sheet's only declaration and behind another. It is a declaration unless the answer
    is 15, and a function with that text if it is of that kind and has one. Bytes behind a record would be a declaration of their own: they
    are left to `of_damaged`."""
    answers = {}
    for line, answer in calls:
        call, given, room = line.split()
        if call == "canonical" and room == UNLIMITED:
            answers[given] = answer
    for given, answer in answers.items():
        one, told = unhexed(given), answer.split()
        if 6 <= int.from_bytes(one[:4], "little") < len(one):
            continue
        if answer == cases.NOT_WELL_FORMED:
            yield asked(sheet(one), b"f()", NOT_A_SHEET if one else missing(0))
            yield asked(sheet(ORDER[4], one), b"g(uint256)", NOT_A_SHEET if one else missing(0))
        elif told[0] == "ok" and kind_of(one) == FUNCTION:
            yield asked(sheet(one), unhexed(told[1]), at(1))
            yield asked(sheet(one), b"", missing(1))
        else:
            yield asked(sheet(one), unhexed(told[1]) if told[0] == "ok" else b"", missing(0))


def calls(rows, record_calls):
    """Lines of replay with their answers."""
    made = itertools.chain(of_order(), of_damaged(), of_repeats(), of_counts(), of_lengths(), of_endings(), of_rows(rows), of_records(record_calls))
    return list(dict.fromkeys(made))


# What guarded_sheets.c has to say of calls that misbehave.
ENDED = b"", -signal.SIGSEGV
PLANTED = {
    "reads_before_sheet": ENDED,
    "reads_behind_text": ENDED,
    "writes_beside_place": ENDED,
    "takes_stack": ENDED,
    "changes_sheet": (b"ok 1 1 damaged\n", 0),
}


def planted(command):
    """How many calls that misbehave are seen, and how many are not."""
    wrong = []
    for call, (answer, status) in PLANTED.items():
        done = subprocess.run(command, input=f"find - -\n{call} 00 00\n".encode(), capture_output=True)
        if (done.stdout, done.returncode) != (b"no 15 0\n" + answer, status):
            wrong.append(f"{call}: printed {done.stdout}, status {done.returncode}")
    done = subprocess.run(command, input=b"tells_places 00 00\n", capture_output=True)
    if not (done.stdout.endswith(b" differs\n") and done.returncode == 0):
        wrong.append(f"tells_places: printed {done.stdout}")
    for what in wrong:
        print(f"guarded sheets: {what}")
    return len(PLANTED) + 1 - len(wrong), len(wrong)


def large(command):
    """Sheets of 21 MB, and how long a search takes: what large.c says passed and failed."""
    done = subprocess.run(command, capture_output=True, text=True)
    *told, last = done.stdout.splitlines() or [""]
    for line in told:
        print(line)
    counts = re.fullmatch(r"(\d+) passed, (\d+) failed", last)
    if counts is None:
        print(f"large: status {done.returncode}: {last} {done.stderr}")
        return 0, 1
    return int(counts[1]), int(counts[2])
