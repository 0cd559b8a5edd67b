"""Call data (order 8): what the two calls on them are asked and have to answer, and how long they may take.

Kinds come from records, by document 01's layout. Encoder and decoder are written from the Solidity Contract ABI Specification,
sections Types and Formal Specification of the Encoding. Data are accepted exactly if decoding them by their offsets, and encoding
the values again, gives them back, and no open array in them has over 65,536 elements. Nothing is taken from the library.
"""
import collections
import itertools
import random
import resource
import subprocess
from typing import NamedTuple

import cases
from cases import FIXED, NAME, NOT_WELL_FORMED, OPEN, TUPLE, UINT, WRONG_SORT, answered, field, hexed, number, record

INT, UINTS, ADDRESS, BOOL, OCTETS, CODE, BYTES, STRING = range(1, 9)  # record kinds of elementary kinds
WORD, LIMIT = 32, 65536  # bytes; bytes of heads and of data, and elements of an open array
TOO_LONG, NO_ENCODING, ACCEPTED = "no 24 0", "no 25 0", "ok -"
LARGEST = 2 ** 64 - 1


# Kinds.

class Kind(NamedTuple):
    """The record kind of a kind without its suffixes, its width or length, or its components; and the suffixes, the innermost first, of an
    open one None."""
    base: int
    size: int = 0
    components: tuple = ()
    suffixes: tuple = ()

    def array(self, length=None):
        return self._replace(suffixes=self.suffixes + (length,))

    @property
    def element(self):
        return self._replace(suffixes=self.suffixes[:-1])


def tuple_of(*components):
    return Kind(TUPLE, components=components)


def kind_in(one):
    """The kind of a field's record."""
    (_, base), *suffixes = [part for part in cases.parts(one[8:], 8) if cases.kind_of(part[1]) != NAME]
    base_kind, body = cases.kind_of(base), base[6:]
    components = tuple(kind_in(inner) for _, inner in cases.parts(body, 6)) if base_kind == TUPLE else ()
    lengths = tuple(int.from_bytes(part[6:], "little") if cases.kind_of(part) == FIXED else None for _, part in suffixes)
    return Kind(base_kind, 0 if base_kind == TUPLE else int.from_bytes(body, "little"), components, lengths)


def field_of(kind):
    """The other way: a field without names."""
    body = b"".join(map(field_of, kind.components)) + (number(kind.size, 2) if kind.base in (INT, UINTS, OCTETS) else b"")
    suffixes = (record(OPEN) if length is None else record(FIXED, number(length, 8)) for length in kind.suffixes)
    return field(record(kind.base, body), suffixes=b"".join(suffixes))


def function_of(*kinds):
    return cases.function(*map(field_of, kinds))


def inputs_of(r):
    """The kinds of a function's inputs."""
    lists = [part for _, part in cases.inside(r) if cases.kind_of(part) == cases.LIST]
    return [kind_in(one) for _, one in cases.parts(lists[0][6:], 6)]


# The Specification.

def is_dynamic(kind):
    """bytes; string; T[] for any T; T[k] for any dynamic T and any k >= 0; (T1,...,Tn) if Ti is dynamic for some 1 <= i <= n."""
    if None in kind.suffixes or kind.base in (BYTES, STRING):
        return True
    return any(map(is_dynamic, kind.components))


def static_length(kind):
    """How many bytes the values of a static kind take."""
    length = sum(map(static_length, kind.components)) if kind.base == TUPLE else WORD
    for count in kind.suffixes:
        length *= count
    return length


def head_length(kind):
    return WORD if is_dynamic(kind) else static_length(kind)


def word(n):
    """A number, big-endian; of a negative one the two's complement."""
    return (n % 2 ** 256).to_bytes(WORD, "big")


def padded(s):
    """pad_right: zero-bytes up to a multiple of 32."""
    return s + bytes(-len(s) % WORD)


def encoded(kind, value):
    """enc(X). Of an array of so many elements that take no bytes none need be listed."""
    if kind.suffixes:
        length = [word(len(value))] if kind.suffixes[-1] is None else []
        return b"".join(length) + encoded_members([kind.element] * len(value), value)
    if kind.base == TUPLE:
        return encoded_members(kind.components, value)
    if kind.base in (OCTETS, CODE):
        return padded(value)
    if kind.base in (BYTES, STRING):
        return word(len(value)) + padded(value)
    return word(value)


def encoded_members(kinds, values):
    """head(X(1)) ... head(X(n)) tail(X(1)) ... tail(X(n))."""
    seam, heads, tails, behind = sum(map(head_length, kinds)), [], [], 0
    for kind, value in zip(kinds, values):
        if is_dynamic(kind):
            heads.append(word(seam + behind))
            tails.append(encoded(kind, value))
            behind += len(tails[-1])
        else:
            heads.append(encoded(kind, value))
    return b"".join(heads + tails)


class NoValues(Exception):
    """Data that are no encoding whatever is encoded again."""


class Decoder:
    """Reads values by their offsets. What is read takes its bytes off what is left of the data: where they run out, more is read than the
    data have, so that encoding the values again does not give them back."""

    def __init__(self, data):
        self.data, self.left = data, len(data)

    def take(self, at, count):
        self.left -= count
        if self.left < 0 or at + count > len(self.data):
            raise NoValues
        return self.data[at:at + count]

    def natural(self, at):
        return int.from_bytes(self.take(at, WORD), "big")

    def value(self, kind, at):
        if kind.suffixes:
            return self.elements(kind.element, kind.suffixes[-1], at)
        if kind.base == TUPLE:
            return self.members(kind.components, at)
        if kind.base in (BYTES, STRING):
            length = self.natural(at)
            return self.take(at + WORD, length + -length % WORD)[:length]
        return self.leaf(kind, self.take(at, WORD))

    def leaf(self, kind, one):
        if kind.base in (OCTETS, CODE):
            return one[:{OCTETS: kind.size, CODE: 24}[kind.base]]
        width = {INT: kind.size, UINTS: kind.size, ADDRESS: 160, BOOL: 1}[kind.base]
        low = int.from_bytes(one, "big") % 2 ** width
        return low - 2 ** width if kind.base == INT and low >= 2 ** (width - 1) else low

    def elements(self, kind, length, at):
        if length is None:
            length, at = self.natural(at), at + WORD
            if length > LIMIT:
                raise NoValues
        elif head_length(kind) == 0:
            return []  # as many as there are: they take no bytes
        if length * head_length(kind) > self.left:
            raise NoValues
        return self.members([kind] * length, at)

    def members(self, kinds, base):
        at, values = base, []
        for kind in kinds:
            dynamic = is_dynamic(kind)
            values.append(self.value(kind, base + self.natural(at) if dynamic else at))
            at += head_length(kind)
        return values


def is_encoding(kinds, data):
    try:
        return encoded_members(kinds, Decoder(data).members(kinds, 0)) == data
    except NoValues:
        return False


# Order 8.

def total_head(kinds):
    return sum(map(head_length, kinds))


def heads(kinds):
    """Output of the first call, or its refusal."""
    if total_head(kinds) > LIMIT:
        return TOO_LONG
    return b"".join(number(is_dynamic(kind), 1) + number(head_length(kind), 4) for kind in kinds)


def judgement(kinds, data):
    """Answer of the second call."""
    if total_head(kinds) > LIMIT or len(data) > LIMIT:
        return TOO_LONG
    return ACCEPTED if is_encoding(kinds, data) else NO_ENCODING


def judged(r, data, answer):
    return f"check_data {hexed(r)} {hexed(data)}", answer


def asked(kinds, data, due=None):
    """What is written down is what the rules say."""
    answer = judgement(kinds, data)
    assert due in (None, answer), (kinds, data.hex(), due, answer)
    return judged(function_of(*kinds), data, answer)


# The table: kinds, heads or their refusal, and data with their answers.

def words(*numbers):
    return b"".join(map(word, numbers))


U, S, B, UNIT = Kind(UINTS, 256), Kind(STRING), Kind(BYTES), tuple_of()
PAIR = tuple_of(U, S)
TEXT = b"Hello, world!"
BAZ = [Kind(UINTS, 32), Kind(BOOL)]
BAR = [Kind(OCTETS, 3).array(2)]
SAM = [B, Kind(BOOL), U.array()]
F = [U, Kind(UINTS, 32).array(), Kind(OCTETS, 10), B]
G = [U.array().array(), S.array()]


def in_tuple(*kinds):
    return [tuple_of(*kinds)]


TABLE = (
    ([], b"", {ACCEPTED: [b""], NO_ENCODING: [b"\0", word(0)], TOO_LONG: [bytes(LIMIT + 1)]}),
    ([UNIT], b"\0" * 5, {ACCEPTED: [b""], NO_ENCODING: [b"\0", word(0)]}),
    ([U.array(0)], b"\0" * 5, {ACCEPTED: [b""], NO_ENCODING: [word(0)]}),
    ([UNIT.array(LARGEST)], b"\0" * 5, {ACCEPTED: [b""], NO_ENCODING: [word(0)]}),
    ([U.array(LARGEST).array(0)], b"\0" * 5, {ACCEPTED: [b""], NO_ENCODING: [word(0)]}),
    ([UNIT.array(LARGEST).array(LARGEST)], b"\0" * 5, {ACCEPTED: [b""], NO_ENCODING: [word(0)]}),
    ([S.array(0)], b"\1\x20\0\0\0", {ACCEPTED: [word(32)], NO_ENCODING: [b"", word(0), words(32, 0)]}),
    ([S.array(0)] * 2, b"\1\x20\0\0\0" * 2, {ACCEPTED: [words(64, 64)], NO_ENCODING: [words(64, 32), words(32, 64)]}),
    ([UNIT.array()], b"\1\x20\0\0\0", {ACCEPTED: [words(32, 65536), words(32, 0)], NO_ENCODING: [words(32, 65537), words(32, 2 ** 64), word(32)]}),
    ([U.array(2048)], b"\0\0\0\1\0", {ACCEPTED: [bytes(LIMIT)], NO_ENCODING: [bytes(LIMIT - 1), bytes(LIMIT - 32), b""]}),
    ([U.array(2049)], TOO_LONG, {TOO_LONG: [bytes(LIMIT), bytes(LIMIT + 32), b""]}),
    ([U.array(2048), S], TOO_LONG, {TOO_LONG: [b""]}),
    ([S, U.array(2047)], b"\1\x20\0\0\0\0\xe0\xff\0\0", {NO_ENCODING: [bytes(LIMIT)]}),
    ([U.array(LARGEST).array(LARGEST)], TOO_LONG, {TOO_LONG: [b"", word(0)]}),
    ([S.array(LARGEST)], b"\1\x20\0\0\0", {NO_ENCODING: [word(32), b"", words(32, 32)]}),
    ([U.array(1000000).array()], b"\1\x20\0\0\0", {ACCEPTED: [words(32, 0)], NO_ENCODING: [words(32, 1), words(32, 1, 0)]}),
    (in_tuple(U.array(1000000), S), b"\1\x20\0\0\0", {NO_ENCODING: [words(32), words(32, 0), bytes(LIMIT)]}),
    ([Kind(INT, 8)], b"\0\x20\0\0\0", {ACCEPTED: [word(127), word(-128), word(0), word(-1)], NO_ENCODING: [word(128), word(-129), word(2 ** 255)]}),
    ([Kind(INT, 256)], b"\0\x20\0\0\0", {ACCEPTED: [word(2 ** 255), word(-1)]}),
    ([Kind(UINTS, 8)], b"\0\x20\0\0\0", {ACCEPTED: [word(255)], NO_ENCODING: [word(256), word(-1), b"\1" + bytes(31)]}),
    ([Kind(BOOL)], b"\0\x20\0\0\0", {ACCEPTED: [word(0), word(1)], NO_ENCODING: [word(2), word(257), word(-1)]}),
    ([Kind(ADDRESS)], b"\0\x20\0\0\0", {ACCEPTED: [word(2 ** 160 - 1)], NO_ENCODING: [word(2 ** 160), word(2 ** 168 - 1)]}),
    ([Kind(CODE)], b"\0\x20\0\0\0", {ACCEPTED: [b"\xff" * 24 + bytes(8)], NO_ENCODING: [b"\xff" * 25 + bytes(7), word(1), word(2 ** 63)]}),
    ([Kind(OCTETS, 1)], b"\0\x20\0\0\0", {ACCEPTED: [b"\xff" + bytes(31)], NO_ENCODING: [b"\xff\1" + bytes(30), word(1)]}),
    ([Kind(OCTETS, 32)], b"\0\x20\0\0\0", {ACCEPTED: [b"\xff" * 32]}),
    ([B], b"\1\x20\0\0\0", {
        ACCEPTED: [words(32, 1) + b"\xff" + bytes(31), words(32, 0), words(32, 32) + b"\xff" * 32, words(32, 33) + b"\xff" * 33 + bytes(31)],
        NO_ENCODING: [words(32, 1) + b"\xff\1" + bytes(30), words(32, 2 ** 64), words(32, 2 ** 256 - 1), words(32, 2 ** 256 - 32, 0),
                      words(32, 1) + b"\xff", words(32, 32), words(32, 0, 0), words(32), words(0, 0), words(64, 0, 0), words(2 ** 64 + 32, 0)],
    }),
    ([S], b"\1\x20\0\0\0", {ACCEPTED: [words(32, 2) + b"\xc3\x28" + bytes(30), words(32, 1) + b"\xff" + bytes(31)]}),
    ([B, B], b"\1\x20\0\0\0" * 2, {
        ACCEPTED: [words(64, 96, 0, 0)],
        NO_ENCODING: [words(96, 64, 0, 0), words(64, 64, 0), words(64, 128, 0, 0, 0), words(64, 96, 0), words(96, 128, 0, 0, 0)],
    }),
    ([PAIR.array(2)], b"\1\x20\0\0\0", {
        ACCEPTED: [words(32, 64, 160, 1, 64, 0, 2, 64, 0)],
        NO_ENCODING: [words(32, 160, 64, 1, 64, 0, 2, 64, 0), words(32, 96, 192, 1, 64, 0, 2, 64, 0)],
    }),
    (BAZ, b"\0\x20\0\0\0" * 2, {ACCEPTED: [words(69, 1)], NO_ENCODING: [bytes.fromhex("cdcd77c0") + words(69, 1), words(69, 1, 0), words(69)]}),
    (BAR, b"\0\x40\0\0\0", {
        ACCEPTED: [padded(b"abc") + padded(b"def")],
        NO_ENCODING: [bytes.fromhex("fce353f6") + padded(b"abc") + padded(b"def"), padded(b"abcd") + padded(b"def")],
    }),
    (SAM, b"\1\x20\0\0\0\0\x20\0\0\0\1\x20\0\0\0", {
        ACCEPTED: [words(96, 1, 160, 4) + padded(b"dave") + words(3, 1, 2, 3)],
        NO_ENCODING: [bytes.fromhex("a5643bf2") + words(96, 1, 160, 4) + padded(b"dave") + words(3, 1, 2, 3)],
    }),
    (F, b"\0\x20\0\0\0\1\x20\0\0\0\0\x20\0\0\0\1\x20\0\0\0", {
        ACCEPTED: [words(0x123, 128) + padded(b"1234567890") + words(224, 2, 0x456, 0x789, 13) + padded(TEXT)],
        NO_ENCODING: [bytes.fromhex("8be65246") + words(0x123, 128) + padded(b"1234567890") + words(224, 2, 0x456, 0x789, 13) + padded(TEXT)],
    }),
    (G, b"\1\x20\0\0\0" * 2, {
        ACCEPTED: [words(64, 320, 2, 64, 160, 2, 1, 2, 1, 3, 3, 96, 160, 224, 3) + padded(b"one") + word(3) + padded(b"two") + word(5) + padded(b"three")],
        NO_ENCODING: [bytes.fromhex("2289b18c") + words(64, 320, 2, 64, 160, 2, 1, 2, 1, 3, 3, 96, 160, 224, 3) + padded(b"one") + word(3) + padded(b"two")
                      + word(5) + padded(b"three")],
    }),
)


def of_table():
    """Heads in every room; data with the answers that are written down."""
    for kinds, due, _ in TABLE:
        assert due == heads(kinds), (kinds, due)
        yield from answered("heads", function_of(*kinds), due)


def of_table_data():
    for kinds, _, answers in TABLE:
        for answer, datas in answers.items():
            yield from (asked(kinds, data, answer) for data in datas)


# Kinds and values at random; each encoding is accepted, and then damaged.

def random_kind(choose, depth=0):
    base = choose.choice((INT, UINTS, UINTS, ADDRESS, BOOL, OCTETS, CODE, BYTES, STRING, *([TUPLE] * 4 if depth < 3 else ())))
    components, size = (), 0
    if base == TUPLE:
        components = tuple(random_kind(choose, depth + 1) for _ in range(choose.choice((0, 1, 1, 2, 2, 3))))
    elif base in (INT, UINTS):
        size = 8 * choose.choice((1, 2, 3, 15, 20, 31, 32, 32))
    elif base == OCTETS:
        size = choose.choice((1, 2, 4, 31, 32))
    suffixes = tuple(choose.choice((None, None, 0, 1, 2, 3)) for _ in range(choose.choice((0, 0, 0, 1, 1, 2))))
    return Kind(base, size, components, suffixes)


def random_value(choose, kind):
    if kind.suffixes:
        length = kind.suffixes[-1]
        return [random_value(choose, kind.element) for _ in range(choose.choice((0, 1, 1, 2, 3)) if length is None else length)]
    if kind.base == TUPLE:
        return [random_value(choose, one) for one in kind.components]
    if kind.base in (OCTETS, CODE, BYTES, STRING):
        length = {OCTETS: kind.size, CODE: 24}.get(kind.base) or choose.choice((0, 1, 5, 31, 32, 33, 64, 70))
        return bytes(choose.choice((0, 0, 1, 255, choose.randrange(256))) for _ in range(length))
    width = {INT: kind.size, UINTS: kind.size, ADDRESS: 160, BOOL: 1}[kind.base]
    low, high = (-2 ** (width - 1), 2 ** (width - 1) - 1) if kind.base == INT else (0, 2 ** width - 1)
    return choose.choice((low, high, 0, min(1, high), choose.randint(low, high)))


def word_changed(choose, data, change):
    at = WORD * choose.randrange(len(data) // WORD)
    return data[:at] + change(data[at:at + WORD]) + data[at + WORD:]


def shifted(choose, one):
    return word(int.from_bytes(one, "big") + choose.choice((1, -1, 32, -32, 64, -64, 2 ** 32, 2 ** 64, 2 ** 255)))


def damages(choose, data):
    """Data that are not far from these: bytes and words changed, exchanged, put in and taken out."""
    yield data + choose.choice((b"\0", word(0), word(1), b"\xff" * WORD))
    if not data:
        return
    at = choose.randrange(len(data))
    yield data[:at]
    yield data[:at] + bytes([data[at] ^ 1 << choose.randrange(8)]) + data[at + 1:]
    yield data[:at] + bytes([choose.choice((0, 1, 127, 128, 255))]) + data[at + 1:]
    yield word_changed(choose, data, lambda one: shifted(choose, one))
    yield word_changed(choose, data, lambda one: shifted(choose, one))
    yield word_changed(choose, data, lambda one: word(choose.choice((0, 1, 2, 32, 64, 96, 128, 2 ** 256 - 1))))
    yield word_changed(choose, data, lambda one: b"")
    yield word_changed(choose, data, lambda one: one + word(choose.choice((0, 0, 1, 32))))
    one, other = sorted(WORD * choose.randrange(len(data) // WORD) for _ in range(2))
    if one < other:
        yield data[:one] + data[other:other + WORD] + data[one + WORD:other] + data[one:one + WORD] + data[other + WORD:]


def of_random(count=1500):
    choose, seen = random.Random(8), collections.Counter()
    for _ in range(count):
        kinds = [random_kind(choose) for _ in range(choose.choice((0, 1, 1, 1, 2, 2, 3)))]
        data = encoded_members(kinds, [random_value(choose, kind) for kind in kinds])
        if total_head(kinds) <= LIMIT and len(data) <= LIMIT:
            yield asked(kinds, data, ACCEPTED)
            for damaged in damages(choose, data):
                line, answer = asked(kinds, damaged)
                seen[answer] += 1
                yield line, answer
    assert min(seen[ACCEPTED], seen[NO_ENCODING]) > count // 2, seen


# Many elements, many levels, many records: each is judged on little stack and in time.

def levels(kind, length, count):
    return kind._replace(suffixes=(length,) * count)


def nested(depth, inner):
    for _ in range(depth):
        inner = tuple_of(inner)
    return inner


def of_depth():
    """By hand, since there are more levels than the decoder has; what is written down is what the encoder says where they are few."""
    def opened(depth):  # each array has one element, the innermost none
        return [levels(U, None, depth)], words(32, *[1, 32] * (depth - 1), 0)

    def ones_of_string(depth):
        return [levels(S, 1, depth)], words(*[32] * (depth + 1), 0)

    def ones_of_uint(depth):
        return [levels(U, 1, depth)], word(7)

    def units(depth, count, *more):
        return [nested(depth, tuple_of(*[UNIT] * count, *more))], words(*[32] * (depth + 2), 0) if more else b""

    for made, many in ((opened, 1024), (ones_of_string, 2000), (ones_of_uint, 2890)):
        for few in range(1, 5):
            yield asked(*made(few), ACCEPTED)
        kinds, data = made(many)
        assert len(data) <= LIMIT
        yield judged(function_of(*kinds), data, ACCEPTED)
        yield judged(function_of(*kinds), data[:-1], NO_ENCODING)
        yield judged(function_of(*kinds), data + word(0), TOO_LONG if len(data) == LIMIT else NO_ENCODING)
    for depth, answer in ((1023, NO_ENCODING), (1025, ACCEPTED)):  # whatever the elements of an empty array are
        yield judged(function_of(levels(U, None, depth)), opened(1024)[1], answer)
    for more in ((), (S,)):
        yield asked(*units(2, 3, *more), ACCEPTED)
        kinds, data = units(25, 1900, *more)
        yield asked(kinds, data, ACCEPTED)
        yield asked(kinds, data + b"\0", NO_ENCODING)


def of_size():
    """As many elements as there may be, of as many records; by hand too."""
    def one(count):
        return tuple_of(*[UNIT] * count, U)

    def in_array(count, length):
        return [one(count).array()], words(32, length, *range(length))

    def in_arrays(count, length):
        return [tuple_of(one(count).array()).array(1)], words(32, 32, 32, length, *range(length))

    def of_units(length, most):
        return [UNIT.array().array()], words(32, length, *range(32 * length, 64 * length, 32), *[most] * length)

    def of_nothing(length):
        return [S.array(0).array()], words(32, length, *[32 * length] * length)

    for made, few, many in (
        (in_array, (2, 3), (1900, 2046)), (in_arrays, (2, 3), (1900, 2044)), (of_units, (3, 2), (1022, LIMIT)), (of_nothing, (3,), (2046,)),
    ):
        yield asked(*made(*few), ACCEPTED)
        kinds, data = made(*many)
        assert len(data) <= LIMIT
        yield judged(function_of(*kinds), data, ACCEPTED)
        yield judged(function_of(*kinds), data[:-WORD], NO_ENCODING)
    yield judged(function_of(UNIT.array().array()), of_units(1022, LIMIT + 1)[1], NO_ENCODING)
    yield asked([U.array(2048)], bytes(LIMIT), ACCEPTED)
    yield asked([B], words(32, LIMIT - 64) + b"\xff" * (LIMIT - 64), ACCEPTED)


SECONDS, TIMES = 1, 4  # of processor time for one judgement at most; how often each is asked for


def spent(command, line):
    """Seconds of processor time for a judgement; no end of them where the program is ended by it."""
    before = resource.getrusage(resource.RUSAGE_CHILDREN)
    done = subprocess.run(command, input=f"{line}\n".encode() * TIMES, capture_output=True)
    after = resource.getrusage(resource.RUSAGE_CHILDREN)
    return (after.ru_utime + after.ru_stime - before.ru_utime - before.ru_stime) / TIMES if done.returncode == 0 else float("inf")


def quickly(command):
    """How many of the deep and the large are judged in time, and how many are not; that they are judged right is asked elsewhere."""
    took = [spent(command, line) for line, _ in itertools.chain(of_depth(), of_size())]
    late = sum(seconds >= SECONDS for seconds in took)
    print(f"{len(took)} judgements of much or deep data: {max(took) * 1000:.1f} ms at most")
    return len(took) - late, late


# All of it.

def of_refused_records():
    """Records that are not well formed, and declarations that are no function, whatever the data."""
    datas = b"", word(0), bytes(LIMIT + 1)
    for r in cases.damaged():
        yield judged(r, b"", NOT_WELL_FORMED)
    for r, data in itertools.product((cases.function()[:-1], field(UINT), record(0x30), b""), datas):
        yield judged(r, data, NOT_WELL_FORMED)
    for r, data in itertools.product((cases.constructor(), cases.event(), cases.error(), cases.error(field(UINT))), datas):
        yield judged(r, data, WRONG_SORT)


def declarations(rows):
    """The records of the list's declarations."""
    read = (row.split() for row in rows if cases.is_read(row))
    return list(dict.fromkeys(cases.unhexed(r) for call, _, _, r, *_ in read if call != "kind"))


def of_declarations(rows):
    for r in declarations(rows):
        yield from answered("heads", r, heads(inputs_of(r)) if cases.kind_of(r) == cases.FUNCTION else WRONG_SORT)


def of_functions(rows):
    """Values of the list's functions, of those that have no long arrays."""
    choose = random.Random(9)
    for r in declarations(rows):
        if cases.kind_of(r) == cases.FUNCTION:
            kinds = inputs_of(r)
            if all(map(has_short_arrays, kinds)):
                yield judged(r, encoded_members(kinds, [random_value(choose, kind) for kind in kinds]), ACCEPTED)


def has_short_arrays(kind):
    return max((length or 0 for length in kind.suffixes), default=0) <= 10 and all(map(has_short_arrays, kind.components))


def calls(rows):
    """Lines of replay with their answers: of heads, and of data."""
    of_data = itertools.chain(of_table_data(), of_random(), of_depth(), of_size(), of_refused_records(), of_functions(rows))
    return [*of_table(), *of_declarations(rows)], list(dict.fromkeys(of_data))
