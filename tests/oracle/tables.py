#!/usr/bin/env python3
"""Makes the rows of the program `orders` (crates/orders/stdin) and what it has to print (stdout).

Usage: tests/oracle/tables.py [--check]     ORACLE names the program that build.sh builds
A row is a call, the room that it is lent and an input. Numbers, positions and lines are written here as document 02's
tables have them; whole declarations are put together by its sentences. A record is the Rust's, of a text that document
02 says to be read the same, and of a number that is not plain the refusal is the Rust's, of the text with letters in that
place: both come from the oracle. An input is a text, or bytes where it is no UTF-8. With --check the files are compared
instead of written; the exit status is then 1 if they differ.
"""
import itertools
import os
import pathlib
import subprocess
import sys

HERE = pathlib.Path(__file__).resolve().parent
CRATE = HERE.parent.parent / "crates" / "orders"
AMPLE = "-"
IDEOGRAPHIC_SPACE = "\u3000"


def no(number, position):
    """A refusal."""
    return f"no {number} {position}"


def line(text):
    """A text that is written."""
    return f"ok {len(text)} {text}"


def lined(number, line, position=0):
    """A refusal of the sheet call."""
    return f"{no(number, position)} line {line}"


class As:
    """The record that the Rust writes of a text."""

    outcome = "ok"

    def __init__(self, text, call="general"):
        self.asked = [f"{call} {text.encode().hex()}"]

    def due(self, record):
        """What of that record is due."""
        return record

    def printed(self, *records):
        """What is printed, by the Rust's records of what it was asked."""
        due = self.due(*records)
        return f"ok {len(due)} {due.hex()}"


class Kind(As):
    """The field that the Rust reads of a kind text in a list; by itself a tuple loses its last component there."""

    FRONT = 6 + 7 + 6  # the error's head, its name `e`, its list's head

    def __init__(self, text):
        super().__init__(f"error e({text})", "error")

    def due(self, record):
        field = record[self.FRONT:]
        if int.from_bytes(field[:4], "little") != len(field):
            sys.exit(f"the Rust does not read one field: {self.asked}")
        return field


class Sheet(As):
    """The sheet record, kind hex 30, of the Rust's records of some lines."""

    def __init__(self, *lines):
        self.asked = [f"general {line.encode().hex()}" for line in lines]

    def due(self, *records):
        body = b"".join(records)
        return (6 + len(body)).to_bytes(4, "little") + b"\x30\0" + body

    def printed(self, *records):
        return f"{super().printed(*records)} line 0"


class Refused(As):
    """The refusal that the Rust gives to a text."""

    outcome = "no"

    def printed(self, number, position):
        return no(number, position)


# Order 2: visibility words.

def visibility():
    f = "function f()"
    for text, same in (
        (f + " external", f),
        (f + "public", f),
        (f + " pure external", f + " pure"),
        (f + " external payable;", f + " payable"),
        (f + " external view returns (uint)", f + " view returns (uint)"),
        ("function external() external", "function external()"),
        ("function public(uint public) public", "function public(uint public)"),
    ):
        yield "general", AMPLE, text, As(same)
    for words, position in (
        ("external external", 22), ("external  public", 23), ("public public", 20),
        ("pure external view", 27), ("external pure public", 27), ("pure pure external", 18),
        ("returns (uint) external", 28), ("external returns (uint) public", 37), ("external;external", 22),
        ("internal", 13), ("public1", 13), ("externalpure", 13),
    ):
        yield "general", AMPLE, f"{f} {words}", no(7, position)
    yield "general", AMPLE, "constructor() public", no(7, 14)
    yield "general", AMPLE, "event e() external", no(7, 10)
    yield "error", AMPLE, "error e() public", no(7, 10)
    yield "general", AMPLE, f + " external returns", no(1, 29)
    yield "general", AMPLE, f + " external returns (uin)", no(3, 31)
    for word in ("external", "public"):
        for text in (f"{f} {word};", f"{f}{word}", f"{f}   {word}", f"{f}{IDEOGRAPHIC_SPACE}{word}"):
            yield "function", AMPLE, text, As(f)
        yield "function", AMPLE, f"{f} {word} view", As(f + " view")
        yield "function", AMPLE, f"{f} view {word}", As(f + " view")
        yield "signature", AMPLE, f"{f} {word} returns (bool)", line("f():(bool)")
    yield "message", AMPLE, f + " external external", line('expected end of declaration at position 22("... external |external")')


# Order 3: tuples in the kind call.

def kind_tuples():
    for text in (
        "()", "(uint)", "(uint)[2][][0]", "((uint)[2],bool[])[3]",
        "(" * 32 + ")" * 32, "(" * 32 + "uint" + ")" * 32, "(" * 32 + ")[]" * 32,
    ):
        yield "kind", AMPLE, text, Kind(text)
    for text in (
        "(uint,)", "(,uint)", "([])", "(uint)[+2]", "(uint)[2 ]", "(uint)[18446744073709551616]", "(uint)[2", "()()", "(uint))",
        "(bytes33)", "(uint12)", "(uint a)", "((uint)a)", "(uint, bool)", "(uint) ", "(string memory)", "(é)",
        "(uint),bool", "(uint),(bool)",
    ):
        yield "kind", AMPLE, text, no(13, 0)
    for text, answer in (
        ("(" * 32, no(13, 0)), ("(" * 33, no(10, 32)), ("(x" + "(" * 32, no(10, 33)), ("(é" + "(" * 32, no(10, 34)),
        ("()" + "(" * 33, no(10, 34)), ("())))" + "(" * 36, no(10, 40)), ("())))" + "(" * 35, no(13, 0)),
        (b"(\xff", no(9, 1)), (b"(" * 33 + b"\xff", no(9, 33)), ("(" * 4097, no(8, 0)), ("(" * 4096, no(10, 32)),
        (" (uint)", no(13, 0)), ("x" + "(" * 33, no(13, 0)), ("uint(", no(11, 0)),
    ):
        yield "kind", AMPLE, text, answer
    yield "kind", 20, "()", Kind("()")
    yield "kind", 19, "()", no(20, 0)
    yield "kind", 0, "(uint)x", no(13, 0)
    yield "kind", 0, "(" * 33, no(10, 32)
    for text, written in (
        ("()", "()"), ("(uint)[2][][0]", "(uint256)[2][][0]"), ("((int)[2],bool[])[3]", "((int256)[2],bool[])[3]"),
    ):
        yield "kind_text", AMPLE, text, line(written)


# Order 4: whole declarations written out.

def behind(words):
    """Words, each behind a space; those that are absent are empty."""
    return "".join(f" {word}" for word in words if word)


def field(kind, mark="", name=""):
    """ "A field is its kind, then a space and its mark word if any, then a space and its name if any." """
    return kind + behind((mark, name))


def listed(*fields):
    """ "fields are parted by `,`" """
    return f"({','.join(fields)})"


def whole(keyword, name, inputs, stated="", outputs="()", anonymous=""):
    """ "keyword; a space and the name (none for a constructor); the list; a space and the mutability word unless none is stated;
    ` returns ` and the list if there are outputs; ` anonymous` where set" """
    return keyword + behind([name]) + inputs + behind([stated]) + ("" if outputs == "()" else f" returns {outputs}") + behind([anonymous])


def loosely(written):
    """The same declaration, spelled with blanks and short kinds."""
    for part, spelled in (("(", " ( "), (")", " )  "), (",", " ,"), ("uint256", "uint"), (")  [", ") [")):
        written = written.replace(part, spelled)
    return written.strip() + " ;"


NAMES = ("returns", "pure", "memory", "calldata", "indexed", "anonymous", "function", "constructor", "external")


def full_lines():
    strings = [field("string", mark, name) for mark in ("memory", "calldata") for name in ("", "s")]
    tuples = [field("()", "", "t"), field("()[2][]", "memory"), field("(()[0],(bool a)[] b)[18446744073709551615]", "calldata", "t")]
    indexed = [field(kind, "indexed", name) for kind in ("uint256", "string", "()[]") for name in ("", "a")]
    for stated in ("", "pure", "view", "payable"):
        for outputs in (listed(), listed("bool"), listed(field("uint256[2]", "memory", "a"), field("uint256", "", "b"))):
            yield whole("function", "f", listed("address", field("bytes32", "", "a")), stated, outputs)
    yield whole("function", "f", listed(*strings, *tuples), "", listed(*tuples, *strings))
    for stated in ("", "payable"):
        for inputs in (listed(), listed("uint256"), listed(*strings), listed(*tuples)):
            yield whole("constructor", "", inputs, stated)
    for anonymous in ("", "anonymous"):
        for inputs in (listed(), listed("bool", *indexed)):
            yield whole("event", "e", inputs, anonymous=anonymous)
    for inputs in (listed(), listed("int8", field("bytes", "", "a"), field("((bool a,function b),string)[2][]", "", "c"))):
        yield whole("error", "e", inputs)
    for name in NAMES:  # in lists of every sort, and in tuples
        inside = field(listed(field("uint256", "", name), field("string", "", name), field("()[]", "", name)), "", "t")
        yield whole("function", name, listed(field("uint256", "", name), inside), "pure", listed(field("string", "memory", name), field("bool", "", name)))
        yield whole("constructor", "", listed(field("bytes", "calldata", name), inside))
        yield whole("event", name, listed(field("uint256", "indexed", name), inside), anonymous="anonymous")
        yield whole("error", name, listed(field("uint256", "", name), inside))


def full_text():
    for text, written in (
        ("function f ( uint  a , bool ) external view returns ( string memory )", "function f(uint256 a,bool) view returns (string memory)"),
        ("function f() returns ()", "function f()"), ("function f() public", "function f()"), ("constructor ( ) payable ;", "constructor() payable"),
        ("event e(uint a, (uint indexed, string memory) indexed t) anonymous", "event e(uint256 a,(uint256 indexed,string memory) indexed t) anonymous"),
        ("function returns(uint returns) pure returns(bool pure)", "function returns(uint256 returns) pure returns (bool pure)"),
    ):
        yield "full", AMPLE, text, line(written)
    for written in full_lines():
        yield "full", AMPLE, loosely(written), line(written)
    longer = f"error e(bool{'[18446744073709551615]' * 8})"  # than its record
    for written in ("function f(uint256 a) view returns (bool)", "constructor()", "event e((bool a) indexed t) anonymous", "error e()", longer):
        yield "full", len(written), written, line(written)
        yield "full", len(written) - 1, written, no(20, 0)
        yield "full", 0, written, no(20, 0)
    many = "function f(" + ",".join(["uint"] * 817) + ")"  # 4,096 bytes, of which the line has more
    written = many.replace("uint", "uint256")
    yield "full", AMPLE, many, line(written)
    yield "general", AMPLE, written, no(8, 0)
    for text in ("bool", "(uint)[2]"):  # "a field where a declaration is due"
        yield "full_kind", AMPLE, text, no(15, 0)
        yield "full_kind", 0, text, no(15, 0)


# Order 5: sheets of many declarations.

def sheets():
    e, f = "error e()", "error f()"
    for text, lines in (
        ("", ()), ("\n", ()), ("\n\n", ()), ("\x85\u3000\n\u2028", ()), (" \t\r\n\v\f", ()),
        (f"{e}\r\n{f}\r\n", (e, f)), (f"\n{e}\n \n{f}", (e, f)), (f"{e};\n{f} ;", (e, f)),
    ):
        yield "sheet", AMPLE, text, Sheet(*lines)
    for lines in (
        ("event e()", e, "function e()"), ("function f((uint))", "function f(uint)"), ("constructor(uint a)", "function f()"),
        ("function f()", "function f(uint)", "function f(uint,uint)", "function f(int)", "function f(uint8)", "function g()"),
        ("function f(uint)", "function f(uint[])", "function f(uint[2])", "function f(uint[3])", "function f(uint[][2])", "function f(uint[2][])"),
        ("function f((uint,bool))", "function f((uint),bool)", "function f(uint,(bool))", "function f((uint,bool)[])", "function f(((uint,bool)))"),
        ("event e(uint indexed a, bytes32 b)", "event e(bytes32 a, uint b) anonymous", "event e(uint a)"),
    ):
        yield "sheet", AMPLE, "\n".join(lines), Sheet(*lines)
    for text, answer in (
        (" " + e, lined(4, 1)), ("error e(\n)", lined(1, 1, 8)), (f"{e}; {f}", lined(7, 1, 11)), (f"{e}\r{f}", lined(7, 1, 10)),
        (b" \xff", lined(9, 1, 1)), (b"error e()\n\xc3", lined(9, 2)), (b"error e()\xe3\n\x80\x80", lined(9, 1, 9)),
        ("x\ny", lined(4, 1)), (f"{e}\n\nerror e(\nx", lined(1, 3, 8)),
        (f"{e}\n{e}\nx", lined(4, 3)), (f"{e}\n\n\nerror e( )", lined(23, 4)), (f"{e}\n{f}\n{f}\n{e}", lined(23, 3)),
        ("constructor()\nconstructor(uint) payable", lined(23, 2)), ("constructor()\nevent e()\nconstructor()", lined(23, 3)),
        ("function f((uint a))\nfunction f((uint256)) view", lined(23, 2)), ("function f((uint a, bool b)[2][])\nfunction f((uint b, bool)[2][] c)", lined(23, 2)),
        ("function f() returns (uint)\nfunction f() external", lined(23, 2)), ("event e(uint indexed a)\nevent e(uint) anonymous", lined(23, 2)),
        ("function f(string memory a)\nfunction f(string calldata)", lined(23, 2)),
    ):
        yield "sheet", AMPLE, text, answer
    yield "sheet", 6, "", Sheet()
    yield "sheet", 5, "", lined(20, 0)
    yield "sheet", 44, f"{e}\n{f}", Sheet(e, f)
    yield "sheet", 43, f"{e}\n{f}", lined(20, 0)
    yield "sheet", 0, f"{e}\n{e}", lined(23, 2)
    yield "sheet", 0, "x", lined(4, 1)


# Order 7: plain numbers.

FRONTS = ("+", "0", "0" * 20)  # a number with one of these in front is not plain
NUMBERED = (  # kinds, taken apart around a number
    ("uint", "8", ""), ("int", "256", "[]"), ("bytes", "32", ""), ("uint[", "0", "]"), ("bytes[", "2", "][]"), ("bool[][", "10", "]"),
    ("(uint", "8", ")"), ("(uint)[", "0", "]"), ("(uint)[2][", "3", "]"), ("((bool)[", "2", "],int)"),
)
PLACES = (  # where a kind may stand
    ("kind", "{}"), ("general", "function f(bool,{} a)"), ("general", "function f(int,({} a)[])"), ("general", "function f() returns (bool,{})"),
    ("general", "constructor({})"), ("general", "event e({} indexed a)"),
)


def plain_numbers():
    for number, texts in (
        (11, "uint08 uint[+2] uint[00] uint[2][02] uint0 uint00 uint12[02]"),
        (12, "bytes01 bytes[02] bytes4[01] bytes0"),
        (13, "bool[02] address[010] (uint08) (uint)[02] (uint)[2][03] x[02] (uint[+2])"),
    ):
        for text in texts.split():
            yield "kind", AMPLE, text, no(number, 0)
    for text in ("uint[0]", "uint[10]", "(uint)[0]", "uint[18446744073709551615]"):
        yield "kind", AMPLE, text, Kind(text)
    for text, position in (
        ("function f(uint08)", 11), ("function f(bool,uint08)", 15), ("error e(bytes+1)", 8),
        ("function f((uint)[02])", 17), ("function f((uint)[2][03])", 20), ("function f(((uint)[02]))", 11), ("function f() returns ((bool)[01])", 28),
    ):
        yield "general", AMPLE, text, no(3, position)
    for text in ("function f(uint a08)", "function f08(uint $0)", "function f(uint uint08)"):
        yield "general", AMPLE, text, As(text)
    yield "message", AMPLE, "function f(uint08)", line('expected ) at position 11("...unction f(|uint08)")')
    for (before, number, behind), (call, shape) in itertools.product(NUMBERED, PLACES):
        plain = shape.format(before + number + behind)
        yield call, AMPLE, plain, Kind(plain) if call == "kind" else As(plain)
        for front in FRONTS:
            letters = "x" * len(front + number)
            yield call, AMPLE, shape.format(before + front + number + behind), Refused(shape.format(before + letters + behind), call)


TABLES = (visibility, kind_tuples, full_text, sheets, plain_numbers)


def as_bytes(text):
    return text if isinstance(text, bytes) else text.encode()


def escaped(text):
    """Printable ASCII as it is, any other byte, the backslash, and a space at either end as a backslash and two hex digits."""
    given = as_bytes(text)
    plain = range(len(given) - len(given.lstrip(b" ")), len(given.rstrip(b" ")))
    return "".join(chr(b) if at in plain and 32 <= b < 127 and b != 92 else f"\\{b:02x}" for at, b in enumerate(given))


def answers(rows):
    """What is to be printed behind each row; one run of the oracle answers for all records."""
    asked = [text for *_, said in rows if isinstance(said, As) for text in said.asked]
    done = subprocess.run([os.environ["ORACLE"]], input="".join(a + "\n" for a in asked), capture_output=True, text=True, check=True)
    replies = iter(done.stdout.splitlines())
    for *_, said in rows:
        if not isinstance(said, As):
            yield said
            continue
        told = []
        for text in said.asked:
            outcome, *reply = next(replies).split(" ")
            if outcome != said.outcome:
                sys.exit(f"the Rust does not say {said.outcome}: {text}")
            told.extend([bytes.fromhex(reply[0])] if outcome == "ok" else reply[:2])
        yield said.printed(*told)


def main():
    rows = [row for table in TABLES for row in table()]
    given = [f"{call} {room} {escaped(text)}\n" for call, room, text, _ in rows]
    printed = [f"{row[:-1]} -> {answer}\n" for row, answer in zip(given, answers(rows))]
    made = {"stdin": "".join(given), "stdout": "".join(printed)}
    if sys.argv[1:] == ["--check"]:
        differing = [name for name, text in made.items() if (CRATE / name).read_text() != text]
        sys.exit(f"differ: {' '.join(differing)}" if differing else 0)
    for name, text in made.items():
        (CRATE / name).write_text(text)
    print(f"{len(rows)} rows")


if __name__ == "__main__":
    main()
