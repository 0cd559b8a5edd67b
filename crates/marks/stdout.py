#!/usr/bin/env python3
"""What the program marks must print: python3 crates/marks/stdout.py > crates/marks/stdout

The texts and their answers are written here as documents 01 and 02 have them. Which records are well formed is
document 02's rule, in well_formed; c stands for a constructor that is, since it has neither a line nor a name.
"""

TEXTS = [
    ('function f(string memory)', '3 ""'),
    ('function f(string calldata a)', '2 "a"'),
    ('function f() returns (string memory s)', '3 "s"'),
    ('function f() returns (string calldata)', '2 ""'),
    ('constructor(string memory a)', '3 "a"'),
    ('constructor(string calldata)', '2 ""'),
    ('function f(bytes calldata)', '2 ""'),
    ('function f(function[1] memory)', '3 ""'),
    ('function f((uint)memory)', '3 ""'),
    ('function f(() memory)', '3 ""'),
    ('function f(string memory memory)', '3 "memory"'),
    ('function f(string memory calldata)', '3 "calldata"'),
    ('function f((string memory) calldata a)', '2 "a"'),
    ('function f(uint memory)', '0 "memory"'),
    ('function f(bytes32 calldata)', '0 "calldata"'),
    ('event e(string memory)', '0 "memory"'),
    ('error e(string calldata)', '0 "calldata"'),
    ('function f(address memory a)', 'no 3 26'),
    ('function f(string storage memory)', 'no 3 26'),
    ('function f(string memory 1)', 'no 3 25'),
]

PLACES = ['inputs', 'outputs', 'constructor', 'tuple', 'event', 'error', 'alone']
OWN_LISTS = ['inputs', 'outputs', 'constructor']  # a function's and a constructor's
KINDS = ['bool', 'bytes32', 'string', '()', 'bool[]']
LOCATED = ['string', '()', 'bool[]']  # document 01: arrays, tuples, `bytes` and `string`
NAMES = ['', 'a', 'memory', 'calldata']
INDEXED, CALLDATA, MEMORY = 1, 2, 3


def well_formed(place, kind, mark, name):
    if mark == 0:
        return not (place in OWN_LISTS and kind in LOCATED and name in ('calldata', 'memory'))
    if mark == INDEXED:
        return place == 'event'
    return mark in (CALLDATA, MEMORY) and place in OWN_LISTS and kind in LOCATED


def letter(place, kind, mark, name):
    if not well_formed(place, kind, mark, name):
        return 'n'
    return 'c' if place == 'constructor' else 'y'


for text, answer in TEXTS:
    print(text, answer)
for place in PLACES:
    for kind in KINDS:
        words = [''.join(letter(place, kind, mark, name) for name in NAMES) for mark in range(5)]
        print(place, kind, *words)
