"""Sheets (order 5): what the sheet call is asked and has to answer, how long it may take, and what `geusomin sheet` prints.

A line that is not blank has the answer that the general call has for it: the Rust's list says which; document 01 does where the
line is over 4,096 bytes or is not UTF-8; and document 01's layout says what is read of a declaration that has another name than one
of the list, or kinds of the list in brackets. The rest are order 5's rules, in `answer`. Nothing is taken from the library.
"""
import errno
import itertools
import pathlib
import random
import resource
import string
import subprocess

import cases
from cases import MOST_BYTES, UNLIMITED, field, hexed, number, record, unhexed
from program import BAD, E, F, ended, failed, in_shell, misused, run, same, started, tell, test

SHEET = 0x30
MOST_TEXT, MOST_RECORD, MOST_DECLARATIONS = 65536, 655366, 512
NO_ROOM = "no 20 0 0"
BLANKS = frozenset("\t\n\v\f\r \x85\xa0\u1680\u2000\u2001\u2002\u2003\u2004\u2005\u2006\u2007\u2008\u2009\u200a\u2028\u2029\u202f\u205f\u3000")
INT = record(1, number(256, 2))


# Lines by themselves.

def of_list(rows):
    """What the general call answers to each text of the list: record and canonical text, or number and position."""
    for row in rows:
        call, given, verdict, *rest = row.split()
        if call == "general":
            yield unhexed(given), tuple(map(unhexed, rest[:2])) if verdict == "ok" else (int(rest[0]), int(rest[1]))


def kinds_of(rows):
    """The kinds of the list: for each canonical text a text, with its field."""
    kinds = {}
    for row in rows:
        call, given, verdict, *rest = row.split()
        if (call, verdict) == ("kind", "ok"):
            kinds.setdefault(unhexed(rest[1]), (unhexed(given), unhexed(rest[0])))
    return [(text, one, canonical) for canonical, (text, one) in kinds.items()]


def valid_prefix(line):
    """How long the longest prefix is that is UTF-8."""
    try:
        line.decode()
    except UnicodeDecodeError as wrong:
        return wrong.start
    return len(line)


def is_blank(line):
    return valid_prefix(line) == len(line) and BLANKS.issuperset(line.decode())


class Lines(dict):
    """What the general call answers to lines; one that nobody has told of is an error here."""

    def single(self, line):
        if len(line) > MOST_BYTES:
            return 8, 0
        if valid_prefix(line) < len(line):
            return 9, valid_prefix(line)
        return self[line]

    def is_told(self, line):
        return is_blank(line) or len(line) > MOST_BYTES or valid_prefix(line) < len(line) or line in self

    def add(self, line, said):
        """What is told twice is the same."""
        assert self.setdefault(line, said) == said, line
        return line

    def error(self, name, *kinds):
        """The line of an error with this name and these kinds, each a text, a field and a canonical text."""
        texts, fields, canonicals = zip(*kinds) if kinds else ((), (), ())
        record, canonical = cases.error(*fields, name=name), b"%s(%s)" % (name, b",".join(canonicals))
        return self.add(b"error %s(%s)" % (name, b",".join(texts)), (record, canonical))


# Order 5.

def sameness(declared, canonical):
    """What 23 compares."""
    kind = cases.kind_of(declared)
    return kind if kind == cases.CONSTRUCTOR else (kind, canonical)


def refusal(number, line, position=0):
    return f"no {number} {line} {position}"


def answer(lines, text):
    """The sheet's record, or a refusal."""
    if len(text) > MOST_TEXT:
        return refusal(21, 0)
    records, at, seen, repeated = [], [], set(), []
    for place, line in enumerate(text.split(b"\n"), 1):
        if is_blank(line):
            continue
        said = lines.single(line)
        if not isinstance(said[0], bytes):
            return refusal(said[0], place, said[1])
        records.append(said[0])
        at.append(place)
        if sameness(*said) in seen:
            repeated.append(place)
        seen.add(sameness(*said))
    if len(records) > MOST_DECLARATIONS:
        return refusal(22, at[MOST_DECLARATIONS])
    if repeated:
        return refusal(23, repeated[0])
    return record(SHEET, *records)


def asked(lines, text, due=None):
    """A sheet with a room that is exact, one over, one short and none, and, where an answer is written down for it, with ample room. What
    is written down is what the rules say."""
    wanted = answer(lines, text)
    assert due is None or due == (len(wanted) if isinstance(due, int) else wanted), (text[:200], due, wanted[:200])
    ample = () if due is None else (MOST_RECORD, UNLIMITED)
    if isinstance(wanted, str):
        rooms = {wanted: (0, 1, 1000, *ample)}
    else:
        rooms = {f"ok {hexed(wanted)}": (len(wanted), len(wanted) + 1, *ample), NO_ROOM: (0, 5, len(wanted) - 1)}
    return [(f"sheet {hexed(text)} {room}", told) for told in rooms for room in rooms[told]]


# Sheets. Each function is given the lines and hands out texts, each with the answer that is written down for it, a refusal or a
# record's length, or with nothing.

A, B = b"error e()", b"error f()"
DEEP = b"error e(" + b"(" * 33
WIDE = "\u3000".encode()
TABLE_LINES = {
    A: (cases.error(name=b"e"), b"e()"),
    B: (cases.error(name=b"f"), b"f()"),
    b"error e( )": (cases.error(name=b"e"), b"e()"),
    b"event e()": (cases.event(name=b"e"), b"e()"),
    b"function e()": (cases.function(name=b"e"), b"e()"),
    b"function f((uint))": (cases.function(field(record(9, field(cases.UINT)))), b"f((uint256))"),
    b"function f((uint a))": (cases.function(field(record(9, field(cases.UINT, b"a")))), b"f((uint256))"),
    b"function f((uint256)) view": (cases.function(field(record(9, field(cases.UINT))), mutability=1), b"f((uint256))"),
    b"function f(uint)": (cases.function(field(cases.UINT)), b"f(uint256)"),
    b"constructor()": (cases.constructor(), b""),
    b"constructor(uint) payable": (cases.constructor(field(cases.UINT), mutability=3), b""),
    b" " + A: (4, 0),
    b"\r" + A: (4, 0),
    b"error e(": (1, 8),
    b"error": (6, 5),
    A + b"; " + B: (7, 11),
    b"x": (4, 0),
    b" " * 4095 + b"x": (4, 0),
    DEEP: (10, 40),
}
TABLE = {
    6: (b"", b"\n", b"\r", b" " * MOST_TEXT, b"\n" * MOST_TEXT, WIDE * 21845 + b"\n", "\x85\u3000\n\u2028".encode()),
    25: (A, A + b"\n", b"\n" + A, A + b"\r\n\r\n", b" " * 4097 + b"\n" + A, A + b"\n" + b" " * 4097, A + b" " * 4087),
    44: (A + b"\r\n" + B + b"\r\n", A + b"\n" + B, B + b"\n\n" + A + b"\n"),
    6 + 21 + 19 + 27: (b"event e()\nerror e()\nfunction e()",),
    6 + 69 + 49: (b"function f((uint))\nfunction f(uint)",),
    refusal(21, 0): (b" " * (MOST_TEXT + 1), b"x" * (MOST_TEXT + 1), b"\xff" * (MOST_TEXT + 1), b"\n" * (MOST_TEXT + 1), b"x\n" * MOST_TEXT),
    refusal(4, 1): (b" " + A, b"\r" + A, b" " * 4095 + b"x", b"x\nerror e("),
    refusal(4, 3): (A + b"\n" + A + b"\nx",),
    refusal(1, 1, 8): (b"error e(\n)", b"error e(\nx"),
    refusal(1, 3, 8): (b"\n\nerror e(\nx",),
    refusal(7, 1, 11): (A + b"; " + B,),
    refusal(8, 1): (b" " * 4096 + b"x", b" " * 4096 + b"\xff", A + b" " * 4088),
    refusal(9, 1, 0): (WIDE[:2], WIDE[:2] + b"\n" + WIDE[2:]),
    refusal(9, 1, 1): (b" \xff",),
    refusal(9, 1, 4090): (b" " * 4090 + b"\xff",),
    refusal(9, 3, 1): (A + b"\n\n \x80",),
    refusal(10, 1, 40): (DEEP,),
    refusal(10, 2, 40): (A + b"\n" + DEEP,),
    refusal(23, 2): (A + b"\n" + A, b"constructor()\nconstructor(uint) payable", b"function f((uint a))\nfunction f((uint256)) view"),
    refusal(23, 3): (b"\n".join((A, B, B, A)), b"\n".join((A, B, A, B)), b"constructor()\n" + A + b"\nconstructor()"),
    refusal(23, 4): (A + b"\n\n\nerror e( )",),
}


def of_table(lines):
    """A few lines at a time."""
    for line, said in TABLE_LINES.items():
        lines.add(line, said)
    for line, behind in itertools.product((A, B), (b"\r", b" " * 4087)):
        lines.add(line + behind, lines[line])
    return [(text, due) for due, texts in TABLE.items() for text in texts]


def of_rows(lines):
    """Each text of the list as a sheet, those with line feeds too if all their lines are told of."""
    return [(text, None) for text in lines if all(map(lines.is_told, text.split(b"\n")))]


def distinct(lines):
    """Declarations of the list that go into one sheet."""
    kept = {}
    for line, said in lines.items():
        if isinstance(said[0], bytes) and b"\n" not in line:
            kept.setdefault(sameness(*said), line)
    return list(kept.values())


def renamed(lines, count):
    """Errors of the list's `error e()` but for the name."""
    return [lines.error(b"e%d" % i) for i in range(count)]


def of_counts(lines):
    """512 declarations and one or two more."""
    listed = distinct(lines)
    many = listed + renamed(lines, MOST_DECLARATIONS + 2 - len(listed))
    for between in (b"\n", b"\n\n", b"\n \r\n\n"):
        feeds = between.count(b"\n")
        at_512, at_513 = 511 * feeds + 1, 512 * feeds + 1
        whole, one_more, two_more = (between.join(many[:n]) for n in (512, 513, 514))
        yield from ((whole, None), (whole + between, None))
        yield from ((one_more, refusal(22, at_513)), (two_more, refusal(22, at_513)), (between + one_more, refusal(22, at_513 + feeds)))
        yield one_more + b"\nx", refusal(4, at_513 + 1)
        yield between.join((*many[:512], many[0])), refusal(22, at_513)
        yield between.join((many[0], *many[:512])), refusal(22, at_513)
        yield between.join((*many[:511], many[0])), refusal(23, at_512)
        yield between.join((many[0], *many[:511])), refusal(23, feeds + 1)
    yield b"".join(b"\n" + line + b"\n" for line in many), refusal(22, 1026)
    yield (A + b"\n") * 6553, refusal(22, 513)
    yield (A + b"\n") * 6553 + b"error", refusal(6, 6554, 5)


def filled(size, front, fill, behind=b""):
    """A text of that size."""
    return (front + fill * size)[:size - len(behind)] + behind


def of_lengths(lines):
    """65,536 bytes and one more, of one and of many declarations."""
    for fill, (behind, length) in itertools.product((b"\n", b" ", b"\r", b" \n"), ((b"", 25), (b"\n" + B, 44))):
        yield filled(MOST_TEXT, A + b"\n", fill, behind), length
        yield filled(MOST_TEXT + 1, A + b"\n", fill, behind), refusal(21, 0)
    yield filled(MOST_TEXT, A + b"\n", b"\n", b"x"), refusal(4, MOST_TEXT - len(A))
    many = b"\n".join(distinct(lines)[:MOST_DECLARATIONS])
    yield filled(MOST_TEXT, many, b"\n"), None
    yield filled(MOST_TEXT, b"", b"\n", many), None
    yield filled(MOST_TEXT + 1, many, b"\n"), refusal(21, 0)


def of_overloads(lines, kinds):
    """One name with every kind of the list that is short enough, and with 512 pairs of kinds."""
    kinds = sorted(kinds, key=lambda kind: len(kind[0]))
    yield b"\n".join(lines.error(b"e", one) for one in kinds[:300]), None
    pairs = [lines.error(b"e", *two) for two in itertools.product(kinds[:23], repeat=2)][:MOST_DECLARATIONS]
    yield b"\n".join(pairs), None
    for place in (0, 1, 255, 510):
        yield b"\n".join(pairs[:-1] + [pairs[place]]), refusal(23, MOST_DECLARATIONS)


def of_inner_names(lines):
    """Lines that differ in names within tuples only, and in the names of tuples."""
    shallow, deep = [], []
    for inner, outer in itertools.product((b"", b"a", b"b", b"memory"), (b"", b"c", b"d")):
        one = field(record(9, field(cases.UINT, inner)), outer)
        shallow.append(lines.add(b"function f((uint %s) %s)" % (inner, outer), (cases.function(one), b"f((uint256))")))
    for name in (b"a", b"b", b"abc"):
        inner = field(record(9, field(record(9, field(cases.BOOL, name))), field(cases.UINT)), suffixes=record(0xB))
        outer = field(record(9, field(record(9, inner), suffixes=record(0xA, number(2, 8)))))
        said = cases.function(outer), b"f(((((bool),uint256)[])[2]))"
        deep.append(lines.add(b"function f(((((bool %s),uint)[])[2]))" % name, said))
    for same_lines in (shallow, deep):
        yield from ((one + b"\n\n" + other, refusal(23, 3)) for one, other in itertools.product(same_lines, repeat=2))
    yield shallow[0] + b"\n" + deep[0], None


def of_large(lines):
    """Sheet records of more than 600,000 bytes: tuples 32 deep again and again, in lines of 4,095 bytes."""
    deepest = b"(" * 32 + b")" * 32
    one = deepest, field(cases.nested(32)), deepest
    short = [lines.error(b"e%02d" % i, *[one] * 62) for i in range(16)]
    large = [lines.add(line.ljust(4095), lines[line]) for line in short]
    text = b"\n".join(large)
    yield text, None
    yield text + b"\n", None
    yield text + b"\n\n", refusal(21, 0)
    yield b"\n".join(large[:-1]) + b"\nerror e(", refusal(1, 16, 8)
    yield b"\n".join(large[:-1] + large[:1]), refusal(23, 16)


def of_random(lines, count=600):
    """Sheets of lines of the list: blank lines between, lines again, and now and then one that is refused."""
    choose = random.Random(5)
    listed = [line for line in lines if b"\n" not in line and not is_blank(line)]
    apart = distinct(lines)
    blank = b"", b" ", b"\r", b"\t \r", WIDE, "\x85\u2028".encode(), b" " * 5000
    for _ in range(count):
        sheet = choose.sample(apart, choose.choice((0, 1, 2, 5, 20, 100)))
        for some, often in (sheet or [b""], (0, 0, 1)), (listed, (0, 0, 1)), (blank, (0, 1, 3, 10)):
            for line in choose.choices(some, k=choose.choice(often)):
                sheet.insert(choose.randrange(len(sheet) + 1), line)
        yield b"\n".join(sheet), None


# Declarations that share a fingerprint. It is the one of crates/repeat/specs/Prints.antt: four bytes a step, the last ones singly.

STEP, BLOCK = 4, 8


def fingerprint(text):
    h, stepped = 0, len(text) // STEP * STEP
    for value in (*(int.from_bytes(text[at:at + STEP], "little") for at in range(0, stepped, STEP)), *text[stepped:]):
        h = (h * 16777619 + value) % 2 ** 32
    return h


def pair(alphabet):
    """Two blocks of one fingerprint that do not begin with the alphabet's first letter. Where a text has one of them, at a place that
    STEP divides, it has the same fingerprint with the other."""
    choose, seen = random.Random(1), {}
    while True:
        block = bytes([choose.choice(alphabet[1:]), *choose.choices(alphabet, k=BLOCK - 1)])
        other = seen.setdefault(fingerprint(block), block)
        if other != block:
            return other, block


def rows_of(alphabet):
    """512 rows of nine blocks, each time either of two."""
    return itertools.product(pair(alphabet), repeat=9)


def sharing_names(lines):
    """Errors whose names have one fingerprint, as long as 512 lines may be, with tuples in tuples that have names."""
    inner, text, canonical = field(INT), b"int", b"int256"
    for _ in range(14):
        inner, text, canonical = field(record(9, inner), b"a"), b"(%s)a" % text, b"(%s)" % canonical
    return [lines.error(b"".join(name), (text, inner, canonical)) for name in rows_of(b"0" + string.ascii_letters.encode())]


def sharing_kinds(lines):
    """Overloads of one fingerprint, which differ in array lengths. `name(int256[` and what stands between two lengths keep the places."""
    made = []
    for digits in rows_of(b"0123456789"):
        lengths = [b"".join(digits[i:i + 2]) + b"00" for i in range(0, len(digits), 2)]
        suffixes = b"".join(b"[%s]" % n for n in lengths)
        one = field(INT, suffixes=b"".join(record(0xA, number(int(n), 8)) for n in lengths))
        made.append(lines.error(b"name", (b"int" + suffixes, one, b"int256" + suffixes)))
    return made


def of_sharing(lines):
    for sharing in (sharing_names(lines), sharing_kinds(lines)):
        assert len(sharing) == MOST_DECLARATIONS and len({fingerprint(lines[line][1]) for line in sharing}) == 1
        text = b"\n".join(sharing)
        yield text, None
        yield b"\n".join(sharing[:-1] + sharing[:1]), refusal(23, 512)
        yield b"\n".join(sharing[:-1] + sharing[-2:-1]), refusal(23, 512)
        yield text + b"\n" + sharing[0], refusal(22, 513)


SECONDS, TIMES = 0.5, 4  # of processor time for one sheet at most; how often each is judged


def spent(program, lines):
    """Seconds of processor time to judge a sheet that is read, by the program that is delivered."""
    before = resource.getrusage(resource.RUSAGE_CHILDREN)
    asked = "sheet " + hexed(b"\n".join(lines)) + " 0\n"
    done = subprocess.run([program, "replay"], input=asked.encode() * TIMES, capture_output=True)
    same((done.returncode, done.stdout), (0, (NO_ROOM + "\n").encode() * TIMES))
    after = resource.getrusage(resource.RUSAGE_CHILDREN)
    return (after.ru_utime + after.ru_stime - before.ru_utime - before.ru_stime) / TIMES


def quickly(program):
    """Declarations of one fingerprint are judged in time; that they are such is seen by the time, which others of that length do not take."""
    passed = 0
    for sharing in (sharing_names(Lines()), sharing_kinds(Lines())):
        numbered = [b"error e%03d" % i + line[len("error name"):] for i, line in enumerate(sharing)]
        shared, other = spent(program, sharing), spent(program, numbered)
        print(f"512 declarations of one fingerprint: {shared * 1000:.1f} ms, of as many: {other * 1000:.1f} ms")
        passed += 3 * other < shared < SECONDS
    return passed, 2 - passed


# All of it.

def of_sheet_records(lines):
    """The calls on records take no sheet."""
    for text in (b"", b"error e()", b"function e()\nconstructor()"):
        for call in cases.RECORD_CALLS:
            yield from cases.refused(call, answer(lines, text), cases.NOT_WELL_FORMED)


def calls(rows):
    """Lines of replay with their answers: of sheets, and of their records."""
    lines = Lines(of_list(rows))
    made = itertools.chain(of_rows(lines), of_table(lines), of_counts(lines), of_lengths(lines), of_random(lines),
                           of_overloads(lines, kinds_of(rows)), of_inner_names(lines), of_large(lines), of_sharing(lines))
    sheets = [case for text, due in made for case in asked(lines, text, due)]
    return list(dict.fromkeys(sheets)), list(of_sheet_records(lines))


# The program. A sheet of the two declarations F and E, and of one that is refused.

WHOLE = F + b"\r\n\n" + E
WHOLE_ANSWER = b"ok 2 %d\n" % (6 + len(cases.function(field(cases.UINT, b"a"))) + len(cases.event()))
BROKEN = F + b"\n \n" + BAD + b"\nx"
BROKEN_ANSWER = b"no 3 3 11\t" + cases.message("general", BAD, 3, 11) + b"\n"


@test
def a_sheet_is_a_file_or_standard_input(program):
    pathlib.Path("whole").write_bytes(WHOLE)
    pathlib.Path("sheet").write_bytes(WHOLE)
    for words in (["whole"], ["sheet"], ["-"], ["--", "whole"], ["--check", "whole"], ["whole", "--quiet"], []):
        same(run([program, "sheet", *words], WHOLE), (0, WHOLE_ANSWER, b""))


@test
def a_refused_sheet_has_the_message_of_its_line(program):
    for text, printed in (
        (BROKEN, BROKEN_ANSWER),
        (b" " + F, b"no 4 1 0\t" + cases.message("general", b" " + F, 4, 0) + b"\n"),
        (E + b"\nerror e(\n)", b"no 1 2 8\t" + cases.message("general", b"error e(", 1, 8) + b"\n"),
        (E + b"\n\xff", b"no 9 2 0\n"),
        (b"\n" * 9 + b"x" * 4097, b"no 8 10 0\n"),
        (E + b"\nerror e(" + b"(" * 33, b"no 10 2 40\n"),
        (b"x" * (MOST_TEXT + 1), b"no 21 0 0\n"),
        (b"".join(b"error e%d()\n" % i for i in range(514)), b"no 22 513 0\n"),
        (E + b"\n\n" + E + b";", b"no 23 3 0\n"),
    ):
        same(run([program, "sheet"], text), (0, printed, b""))
        same(run([program, "sheet", "--check"], text), (3, printed, b""))


@test
def a_sheet_is_not_read_on_behind_the_limit(program):
    same(run([program, "sheet", "/dev/zero"]), (0, b"no 21 0 0\n", b""))
    with subprocess.Popen(["yes", ""], stdout=subprocess.PIPE) as endless:
        try:
            same(run([program, "sheet"], stdin=endless.stdout), (0, b"no 21 0 0\n", b""))
        finally:
            endless.kill()
    for text, printed in ((b" " * MOST_TEXT, b"ok 0 6\n"), (b" " * (MOST_TEXT + 1), b"no 21 0 0\n"), (b" " * (2 << 20), b"no 21 0 0\n")):
        same(run([program, "sheet"], text), (0, printed, b""))


@test
def a_sheet_that_comes_in_pieces_is_one(program):
    process = started([program, "sheet"])
    for line in (F, b"", E):
        tell(process, line)
    same(ended(process), (0, WHOLE_ANSWER))


@test
def the_largest_sheet(program):
    lines = Lines()
    text, _ = next(of_large(lines))
    same(run([program, "sheet"], text), (0, b"ok 16 %d\n" % len(answer(lines, text)), b""))


@test
def a_sheet_that_cannot_be_read_or_told_has_no_answer(program):
    for name, error in (("missing", errno.ENOENT), (".", errno.EISDIR), ("/proc/self/mem", errno.EIO)):
        failed(run([program, "sheet", name]), name, error)
    failed(in_shell(program, "sheet <&-"), "standard input", errno.EBADF)
    failed(in_shell(program, "sheet >&-"), "standard output", errno.EBADF)
    with open("/dev/full", "wb") as full:
        failed(run([program, "sheet", "--check"], BROKEN, stdout=full), "standard output", errno.ENOSPC, None)


@test
def other_arguments_of_sheet_are_refused(program):
    misused(run([program, "sheet", "a", "b"]), "sheet: takes one file")
    misused(run([program, "sheet", "--chek"]), "--chek: no such option")
    misused(run([program, "sheet", "--full", "a"]), "--full: not for a sheet")
