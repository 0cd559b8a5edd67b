#!/usr/bin/env python3
"""Has the checker evaluate the definitions on some of the Rust's answers.

Usage: tests/evaluate.py [COUNT] [LONGEST]
Takes COUNT rows (default 400) spread evenly over tests/oracle/answers.txt, of texts of at most LONGEST bytes
(default 160), and states for each, as a theorem that the checker has to compute, that the definitions give the
Rust's record, canonical and signature text, or its refusal, position and message. The Rust forgets place words: of
a text that has one, the record is compared with marks 2 and 3 of own lists set to 0, and the lines are those of the
record that the definitions write. The theorems stand in a crate of a temporary copy of the repository. The exit
status is 0 only if all of them hold.
"""
import pathlib
import shutil
import subprocess
import sys
import tempfile

TOP = pathlib.Path(__file__).resolve().parent.parent
ANSWERS = TOP / "tests" / "oracle" / "answers.txt"
ROWS_A_MODULE = 50

HEADER = """-- Answers of the Rust, evaluated by the definitions.
use Rattle.std.specs.Prelude.{◌≡◌, refl, List, [], ◌∷◌, ℕ}
use Rattle.model.specs.declared.Call.TheVariants as call
use Rattle.model.specs.Answer.{writes, refused, outcome}
use Rattle.model.specs.Calls.{read_output, kind_output, canonical_output, signature_output, kind_text_output}
use Rattle.model.specs.Message.{message_output}
use Rattle.model.proofs.Evaluation.{evaluation}
use Rattle.evaluated.proofs.Forgotten.{of_written, forgotten}
"""

PLACE_WORDS = (b"calldata", b"memory")
FORGOTTEN = """-- Records without place words: marks 2 and 3 of a function's or a constructor's own lists are set to 0.
use Rattle.std.specs.Prelude.{true, false, ◌||◌, List, ℕ, eqb}
use Rattle.model.specs.Tree.{Field, field, Fields, no_field, more_fields, unmarked, in_calldata, in_memory, Declaration}
use Rattle.model.specs.Record.{encode, decode}
use Rattle.model.specs.Answer.{Output, writes, refuses}
use Rattle.model.specs.Calls.{of_record}

abbrev forget_mark : ℕ → ℕ
forget_mark m = elim (eqb m in_calldata || eqb m in_memory) [ true ↦ unmarked | false ↦ m ]

abbrev forget_marks : Fields → Fields
forget_marks no_field = no_field
forget_marks (more_fields (field m nm b ss) fs) = more_fields (field (forget_mark m) nm b ss) (forget_marks fs)

abbrev forget : Declaration → Declaration
forget (Declaration.function m nm ins outs) = Declaration.function m nm (forget_marks ins) (forget_marks outs)
forget (Declaration.constructor m ins) = Declaration.constructor m (forget_marks ins)
forget (Declaration.event a nm ins) = Declaration.event a nm ins
forget (Declaration.error nm ins) = Declaration.error nm ins

-- what a call answers to the bytes that another writes
abbrev pub of_written : (List ℕ → Output) → Output → Output
of_written f (writes b) = f b
of_written f (refuses w p) = refuses w p

abbrev pub forgotten : List ℕ → Output
forgotten b = of_record (decode b) (λ d. writes (encode 4 (forget d)))
"""


def numbers(hexed):
    """The bytes as a list of the checker's."""
    data = b"" if hexed == "-" else bytes.fromhex(hexed)
    return "(" + "".join(f"{b} ∷ " for b in data) + "[])"


def has_place_word(hexed):
    return hexed != "-" and any(word in bytes.fromhex(hexed) for word in PLACE_WORDS)


def is_ascii(hexed):
    return hexed != "-" and all(b < 128 for b in bytes.fromhex(hexed))


def claims(row):
    """The equations that a row of the list states."""
    name, text, outcome, *rest = row.split(" ")
    output = f"kind_output {numbers(text)}" if name == "kind" else f"read_output call.{name.capitalize()} {numbers(text)}"
    if outcome == "ok":
        record, canonical, signature = rest
        if has_place_word(text):
            written = output
            yield f"of_written forgotten ({written}) ≡ writes {numbers(record)}"
        else:
            written = f"writes {numbers(record)}"
            yield f"{output} ≡ {written}"
        if canonical != "-":
            call = "kind_text_output" if name == "kind" else "canonical_output"
            yield f"of_written {call} ({written}) ≡ writes {numbers(canonical)}"
        if signature != "-":
            yield f"of_written signature_output ({written}) ≡ writes {numbers(signature)}"
    else:
        number, position, message = rest
        yield f"outcome 100000 ({output}) ≡ refused {number} {position}"
        # a text of ASCII has the Rust's very message; the listed differences are about other characters
        if outcome == "no" and message != "-" and is_ascii(text):
            yield f"message_output call.{name.capitalize()} {numbers(text)} ≡ writes {numbers(message)}"


def sample(count, longest):
    rows = [r for r in ANSWERS.read_text().splitlines() if len(r.split(" ")[1]) <= 2 * longest]
    step = max(1, len(rows) // count)
    return rows[::step][:count]


def write_modules(proofs, rows):
    """Some rows to a module; answers how many equations there are."""
    equations = 0
    (proofs / "Forgotten.antt").write_text(FORGOTTEN)
    lib = ["pub mod Forgotten\n"]
    for start in range(0, len(rows), ROWS_A_MODULE):
        module = f"Rows{start // ROWS_A_MODULE}"
        lib.append(f"pub mod {module}\n")
        out = [HEADER]
        for i, row in enumerate(rows[start:start + ROWS_A_MODULE]):
            for j, claim in enumerate(claims(row)):
                out.append(f"row-{start + i}-{j} : {claim}\nunfolding evaluation\nrow-{start + i}-{j} = refl\n")
                equations += 1
        (proofs / f"{module}.antt").write_text("\n".join(out))
    (proofs / "Lib.antt").write_text("".join(lib))
    return equations


def main():
    if len(sys.argv) > 3 or not all(word.isdigit() and int(word) for word in sys.argv[1:]):
        print("usage: tests/evaluate.py [COUNT] [LONGEST]", file=sys.stderr)
        sys.exit(2)
    if not shutil.which("rt"):
        sys.exit("tests/evaluate.py: the command rt (the Rattle toolchain) is not on the PATH")
    count, longest = (int(word) for word in (sys.argv[1:] + ["400", "160"][len(sys.argv) - 1:]))
    rows = sample(count, longest)
    with tempfile.TemporaryDirectory() as folder:
        top = pathlib.Path(folder)
        for crate in ("kinds", "model"):
            shutil.copytree(TOP / "crates" / crate, top / "crates" / crate)
        (top / "crates.txt").write_text("kinds:\nmodel: kinds\nevaluated: model\n")
        proofs = top / "crates" / "evaluated" / "proofs"
        proofs.mkdir(parents=True)
        (top / "crates" / "evaluated" / "src").mkdir()
        (top / "crates" / "evaluated" / "src" / "lib.rt").write_text("// Theorems only.\n")
        equations = write_modules(proofs, rows)
        done = subprocess.run(["rt", "check"], cwd=top / "crates" / "evaluated", capture_output=True, text=True)
        for line in (done.stdout + done.stderr).splitlines():
            if "error" in line or line.startswith("rt: "):
                print(line)
    print(f"{len(rows)} rows, {equations} equations: {'all hold' if done.returncode == 0 else 'NOT ALL HOLD'}")
    sys.exit(done.returncode)


if __name__ == "__main__":
    main()
