#!/usr/bin/env python3
"""Leaves out of the list the texts with a visibility word where it may stand: there the Rust is not the reference.

Usage: visible.py ORACLE < LIST
Such a text is known by the place: the Rust refuses it with 7 at a word that is `external` or `public`, and reads, by
the same call, what stands before that word followed by ` returns ()`. A text where the word stands elsewhere stays.
"""

import re
import subprocess
import sys

END_WANTED = "7"
VISIBILITY = re.compile(rb"(?:external|public)(?![A-Za-z0-9$_])")


def tried(row):
    """Where the Rust wants the end at a visibility word, the line that asks whether `returns` may
    stand there; or nothing."""
    call, text, outcome, *rest = row.split()
    if outcome == "ok" or rest[0] != END_WANTED:
        return None
    whole, position = bytes.fromhex(text), int(rest[1])
    if not VISIBILITY.match(whole, position):
        return None
    return f"{call} {(whole[:position] + b' returns ()').hex()}"


def are_read(oracle, lines):
    """Those of the lines whose texts the Rust reads."""
    asked = "".join(line + "\n" for line in lines)
    done = subprocess.run([oracle], input=asked, stdout=subprocess.PIPE, text=True, check=True)
    return {line for line, reply in zip(lines, done.stdout.splitlines()) if reply.startswith("ok ")}


def main():
    rows = sys.stdin.read().splitlines()
    lines = [tried(row) for row in rows]
    left_out = are_read(sys.argv[1], [line for line in lines if line])
    for row, line in zip(rows, lines):
        if line not in left_out:
            print(row)


if __name__ == "__main__":
    main()
