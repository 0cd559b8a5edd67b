#!/usr/bin/env bash
# Makes answers.txt: the texts of texts.py, each with the Rust original's answer; and, by tables.py, the rows of crates/orders.
# Usage: ./make.sh           writes answers.txt and prints how many answers of each sort
#        ./make.sh --check   compares instead of writing; exit status 1 if different
# The list stands in crates/replay, whose program reads it, and once more beside this script: rt follows no link.
# SOURCE, OUT and exit status 3 are those of build.sh.
set -euo pipefail
me=tests/oracle/make.sh
HERE=$(cd "$(dirname "$(readlink -f "$0")")" && pwd)
ANSWERS="$HERE/../../crates/replay/stdin"
COPY="$HERE/answers.txt"
. "$HERE/../../tools/common.sh"

# A line of the list is the text's line, a space and the oracle's line.
make_answers() {
  python3 "$HERE/texts.py" > "$WORK/texts.txt"
  "$ORACLE" < "$WORK/texts.txt" > "$WORK/replies.txt"
  paste -d ' ' "$WORK/texts.txt" "$WORK/replies.txt" > "$WORK/asked.txt"
  # visibility words where they may stand, and numbers that are not plain, are not the Rust's
  python3 "$HERE/visible.py" "$ORACLE" < "$WORK/asked.txt" > "$WORK/visible.txt"
  python3 "$HERE/plain.py" "$ORACLE" < "$WORK/visible.txt" > "$WORK/answers.txt"
}

# A row for each call; columns for ok, each refusal's number, panic, and the sum.
count_answers() {
  awk '
    function count(call, outcome) {
      seen[call, outcome]++
      sum[call]++
    }
    function heading(    line, i) {
      line = sprintf("%-11s", "call")
      for (i = 1; i <= outcomes; i++)
        line = line sprintf("%6s", outcome_at[i])
      return line sprintf("%6s", "sum")
    }
    function row(call,    line, i) {
      line = sprintf("%-11s", call)
      for (i = 1; i <= outcomes; i++)
        line = line sprintf("%6d", seen[call, outcome_at[i]])
      return line sprintf("%6d", sum[call])
    }
    BEGIN {
      outcomes = split("ok 1 2 3 4 5 6 7 9 11 12 13 panic", outcome_at, " ")
      calls = split("general function constructor event error kind all", call_at, " ")
    }
    {
      outcome = $3 == "no" ? $4 : $3
      count($1, outcome)
      count("all", outcome)
    }
    END {
      print heading()
      for (i = 1; i <= calls; i++)
        print row(call_at[i])
    }
  ' "$1"
}

case "${1:-}" in
  "" | --check) ;;
  *) echo "usage: $0 [--check]" >&2; exit 2 ;;
esac

need python3 "which makes the texts"
ORACLE=$("$HERE/build.sh")
WORK=$(mktemp -d)
trap 'rm -rf "$WORK"' EXIT
make_answers
ORACLE=$ORACLE python3 "$HERE/tables.py" "$@"
if [ "${1:-}" = --check ]; then
  cmp "$WORK/answers.txt" "$ANSWERS" || exit 1
  cmp "$ANSWERS" "$COPY" || exit 1
  echo "answers.txt is what the Rust original answers"
else
  cp "$WORK/answers.txt" "$ANSWERS"
  cp "$WORK/answers.txt" "$COPY"
fi
count_answers "$ANSWERS"
