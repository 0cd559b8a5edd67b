#!/usr/bin/env python3
"""Leaves out of the list the texts with a number that is not plain and that the Rust reads: there the Rust is not the reference.

Usage: plain.py ORACLE < LIST
Order 7: "A number now has no sign and no leading zero, `0` itself excepted". A number stands behind `[`, or behind `int`,
`uint` or `bytes` where a kind begins: at the front of the text, behind `(` or behind `,`. The Rust reads one if it answers
otherwise, read or not, by number or by position, to the text with letters in the place of each that is not plain. A text
that is answered alike stays.
"""

import re
import subprocess
import sys

sys.dont_write_bytecode = True  # nothing is left beside this file
from texts import BLANKS

NUMBER = re.compile(rf"((?:(?:^|[(,])[{''.join(BLANKS)}]*(?:u?int|bytes)|\[))(\+[0-9]+|0[0-9]+)")


def lettered(text):
    """The text with as many letters for each number that is not plain."""
    return NUMBER.sub(lambda found: found[1] + "x" * len(found[2]), text)


def tried(row):
    """The line that asks for the text with letters, where it has such a number; or nothing."""
    call, text, *_ = row.split()
    # bytes that are no UTF-8 are as they were
    whole = bytes.fromhex(text).decode(errors="surrogateescape") if text != "-" else ""
    letters = lettered(whole)
    return f"{call} {letters.encode(errors='surrogateescape').hex()}" if letters != whole else None


def told(outcome, *rest):
    """What an answer tells but for what was read and for the message, which shows the text."""
    return "read" if outcome == "ok" else rest[:2]


def asked(oracle, lines):
    """What the Rust answers to each of the lines."""
    done = subprocess.run([oracle], input="".join(line + "\n" for line in lines), stdout=subprocess.PIPE, text=True, check=True)
    return dict(zip(lines, done.stdout.splitlines()))


def main():
    rows = sys.stdin.read().splitlines()
    lines = [tried(row) for row in rows]
    replies = asked(sys.argv[1], [line for line in lines if line])
    for row, line in zip(rows, lines):
        if line is None or told(*row.split()[2:]) == told(*replies[line].split()):
            print(row)


if __name__ == "__main__":
    main()
