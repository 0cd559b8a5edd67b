"""Tests of the C program: arguments, statuses, what it tells, and what it does where reading or writing fails.

Statuses and messages are those of `geusomin --help`; the system's reasons are those of `strerror`.
"""
import errno
import os
import pathlib
import pty
import re
import subprocess
import tempfile
import threading
import time

import cases
import header

F, E = b"function f(uint a)", b"event E()"
F_ANSWER = b"ok function %d f(uint256)\n" % len(cases.function(cases.field(cases.UINT, b"a")))
E_ANSWER = b"ok event %d E()\n" % len(cases.event())
F_FULL = F_ANSWER.replace(b"f(uint256)", b"function f(uint256 a)")
BAD = b"function f(uin)"
BAD_ANSWER = b"no 3 11\t" + cases.message("general", BAD, 3, 11) + b"\n"
RATE = rb", \d+(\.\d million)? lines a second\n"
PATIENCE = 60  # seconds before a run counts as one that does not end

TESTS = []


def test(function):
    TESTS.append(function)
    return function


def run(command, given=b"", **more):
    """Status, standard output and standard error of a run."""
    if "stdin" not in more:
        more["input"] = given
    more = {"stdout": subprocess.PIPE, "stderr": subprocess.PIPE, **more}
    done = subprocess.run(command, timeout=PATIENCE, **more)
    return done.returncode, done.stdout, done.stderr


def started(command, stderr=subprocess.PIPE):
    """A run that is talked to; it is ended where it does not answer."""
    process = subprocess.Popen(command, stdin=subprocess.PIPE, stdout=subprocess.PIPE, stderr=stderr)
    process.watch = threading.Timer(PATIENCE, process.kill)
    process.watch.daemon = True
    process.watch.start()
    return process


def tell(process, line):
    process.stdin.write(line + b"\n")
    process.stdin.flush()


def ended(process):
    """Status, and the rest of standard output, of a run that is told no more."""
    process.stdin.close()
    rest, status = process.stdout.read(), process.wait()
    process.watch.cancel()
    return status, rest


def in_shell(program, words, **more):
    """The program with the words of a shell behind it, as `>&-`."""
    return run(["sh", "-c", f'exec "$0" {words}', program], **more)


def same(got, wanted):
    assert got == wanted, f"got {got!r}, wanted {wanted!r}"


def failed(got, name, error, printed=b""):
    """Status 1, the name and the system's reason; what was answered before is printed."""
    same(got, (1, printed, f"geusomin: {name}: {os.strerror(error)}\n".encode()))


def misused(got, what):
    status, printed, told = got
    same((status, printed), (2, b""))
    assert told.startswith(f"geusomin: {what}\nusage: geusomin ".encode()), told


def summed(got, status, printed, summary):
    """A run that went well, with a summary up to the rate."""
    same(got[:2], (status, printed))
    assert re.fullmatch(b"geusomin: " + re.escape(summary) + RATE, got[2]), got[2]


# Files.

@test
def files_are_read_one_after_the_other(program):
    pathlib.Path("a").write_bytes(F)  # its last line has no line feed
    pathlib.Path("b").write_bytes(E + b"\n" + BAD + b"\n")
    summed(run([program, "a", "b"]), 0, F_ANSWER + E_ANSWER + BAD_ANSWER, b"3 lines, 2 accepted, 1 refused (3: 1)")


@test
def a_line_alone(program):
    summed(run([program], F), 0, F_ANSWER, b"1 line, 1 accepted, 0 refused")


@test
def a_minus_is_standard_input(program):
    pathlib.Path("a").write_bytes(F)
    summed(run([program, "a", "-", "a"], E), 0, F_ANSWER + E_ANSWER + F_ANSWER, b"3 lines, 3 accepted, 0 refused")
    summed(run([program, "-", "-"], E), 0, E_ANSWER, b"1 line, 1 accepted, 0 refused")


@test
def empty_files_have_no_line(program):
    pathlib.Path("empty").write_bytes(b"")
    pathlib.Path("a").write_bytes(F)
    summed(run([program, "empty", "a", "empty"]), 0, F_ANSWER, b"1 line, 1 accepted, 0 refused")
    same(run([program, "empty"])[:2], (0, b""))


@test
def empty_and_indented_lines_and_a_byte_order_mark_are_refused_with_4(program):
    for line in (b"", b" ", b" " + F, b"\t" + F, "\ufeff".encode() + F):
        answer = b"no 4 0\t" + cases.message("general", line, 4, 0) + b"\n"
        summed(run([program], line + b"\n"), 0, answer, b"1 line, 0 accepted, 1 refused (4: 1)")


@test
def a_carriage_return_at_the_end_is_a_blank(program):
    summed(run([program], F + b"\r\n" + E + b"\r\n"), 0, F_ANSWER + E_ANSWER, b"2 lines, 2 accepted, 0 refused")


@test
def lines_longer_than_the_window_are_one_line(program):
    pathlib.Path("long").write_bytes(b"function f" * 300_000)
    pathlib.Path("a").write_bytes(F)
    summed(run([program, "long", "a", "-"], b"x" * 3_000_000 + b"\n" + E), 0, b"no 8 0\n" + F_ANSWER + b"no 8 0\n" + E_ANSWER,
           b"4 lines, 2 accepted, 2 refused (8: 2)")


@test
def lines_as_long_as_the_window(program):
    for length in ((1 << 20) - 1, 1 << 20, (1 << 20) + 1):
        summed(run([program], E + b"\n" + b"x" * length + b"\n" + E), 0, E_ANSWER + b"no 8 0\n" + E_ANSWER, b"3 lines, 2 accepted, 1 refused (8: 1)")
        summed(run([program], b"x" * length), 0, b"no 8 0\n", b"1 line, 0 accepted, 1 refused (8: 1)")


@test
def a_first_argument_bench_replay_or_sheet_is_the_command(program):
    for name in ("bench", "replay", "sheet"):
        pathlib.Path(name).write_bytes(F)
        summed(run([program, f"./{name}"]), 0, F_ANSWER, b"1 line, 1 accepted, 0 refused")
        summed(run([program, "--", name]), 0, F_ANSWER, b"1 line, 1 accepted, 0 refused")
    misused(run([program, "bench"]), "bench: takes one file")
    same(run([program, "replay"], b"general - -"), (0, b"no 4 0\n", b""))
    same(run([program, "sheet"]), (0, b"ok 0 6\n", b""))


@test
def answers_are_out_before_the_next_line_is_awaited(program):
    process = started([program])
    for line, answer in ((F, F_ANSWER), (E, E_ANSWER)):
        tell(process, line)
        same(process.stdout.readline(), answer)
    summed((*ended(process), process.stderr.read()), 0, b"", b"2 lines, 2 accepted, 0 refused")


# Options.

@test
def help_and_version_go_to_standard_output(program):
    status, printed, told = run([program, "--help"])
    same((status, told), (0, b""))
    for word in ("usage: geusomin", "--check", "--full", "--quiet", "--version", "sheet [--check] [FILE]", "replay", "bench FILE", "Status:"):
        assert word in printed.decode(), word
    words = header.document_words(TOP)
    same(printed.decode().split("Refusals:\n")[1].splitlines(), [f"{number:4} {words[number]}" for number in sorted(words)])
    version = header.VERSION.search((TOP / "include" / "geusomin.h").read_text())[1]
    same(run([program, "--version"]), (0, f"geusomin {version}\n".encode(), b""))


@test
def check_tells_a_refusal_by_the_status(program):
    summed(run([program, "--check"], F + b"\n" + BAD), 3, F_ANSWER + BAD_ANSWER, b"2 lines, 1 accepted, 1 refused (3: 1)")
    summed(run([program, "--check"], F), 0, F_ANSWER, b"1 line, 1 accepted, 0 refused")
    summed(run([program], BAD), 0, BAD_ANSWER, b"1 line, 0 accepted, 1 refused (3: 1)")


@test
def full_prints_full_lines(program):
    string, a = cases.field(cases.STRING, mark=cases.MEMORY), cases.field(cases.UINT, b"a")
    texts, lines, printed = b"", b"", b""
    for text, r, line in (
        (b"function f ( uint  a ) external view returns ( string memory )", cases.function(a, mutability=1, outputs=[string]),
         b"function f(uint256 a) view returns (string memory)"),
        (b"constructor ( string  memory ) payable ;", cases.constructor(string, mutability=3), b"constructor(string memory) payable"),
        (b"constructor()", cases.constructor(), b"constructor()"),
        (b"event E(uint a)anonymous", cases.event(a, anonymous=cases.ANONYMOUS), b"event E(uint256 a) anonymous"),
        (b"error E()", cases.error(), b"error E()"),
    ):
        texts, lines = texts + text + b"\n", lines + line + b"\n"
        printed += b"ok %s %d %s\n" % (cases.KEYWORDS[cases.kind_of(r)].encode(), len(r), line)
    for given in (texts, lines):
        summed(run([program, "--full"], given), 0, printed, b"5 lines, 5 accepted, 0 refused")


@test
def full_stands_with_other_options(program):
    pathlib.Path("a").write_bytes(F)
    pathlib.Path("--full").write_bytes(F)
    summed(run([program, "--full"], F + b"\n" + BAD), 0, F_FULL + BAD_ANSWER, b"2 lines, 1 accepted, 1 refused (3: 1)")
    summed(run([program, "a", "--check", "-", "--full"], BAD), 3, F_FULL + BAD_ANSWER, b"2 lines, 1 accepted, 1 refused (3: 1)")
    summed(run([program, "--full", "--full", "--check", "a"]), 0, F_FULL, b"1 line, 1 accepted, 0 refused")
    summed(run([program, "--", "--full"]), 0, F_ANSWER, b"1 line, 1 accepted, 0 refused")
    summed(run([program, "--full", "--", "--full"]), 0, F_FULL, b"1 line, 1 accepted, 0 refused")
    failed(run([program, "--full", "a", "missing"]), "missing", errno.ENOENT, F_FULL)
    misused(run([program, "--ful"]), "--ful: no such option")
    misused(run([program, "replay", "--full"]), "replay: takes no argument")


@test
def a_full_line_may_be_longer_than_the_text(program):
    text = b"function f(" + b"int," * 1000 + b"int)"
    line = text.replace(b"int", b"int256")
    assert len(text) <= cases.MOST_BYTES < len(line)
    answer = b"ok function %d %s\n" % (len(cases.function(*[cases.field(cases.UINT)] * 1001)), line)
    summed(run([program, "--full"], text), 0, answer, b"1 line, 1 accepted, 0 refused")
    summed(run([program, "--full"], line), 0, b"no 8 0\n", b"1 line, 0 accepted, 1 refused (8: 1)")


@test
def quiet_tells_nothing_but_failures(program):
    pathlib.Path("a").write_bytes(F)
    same(run([program, "--quiet"], F), (0, F_ANSWER, b""))
    same(run([program, "a", "--check", "--quiet", "-"], BAD), (3, F_ANSWER + BAD_ANSWER, b""))
    failed(run([program, "--quiet", "missing"]), "missing", errno.ENOENT)


@test
def refusals_are_summed_by_number(program):
    lines = [F, BAD, E, b"function f", BAD, b"x", b"functionf()", b"function ()", b"function f)", b"function f();;", b"x" * 4097, b"\xff",
             b"function f(" + b"(" * 33]
    given = b"\n".join(lines)
    status, _, told = run([program], given)
    same(status, 0)
    wanted = b"geusomin: 13 lines, 2 accepted, 11 refused (1: 1, 2: 1, 3: 2, 4: 1, 5: 1, 6: 1, 7: 1, 8: 1, 9: 1, 10: 1)"
    assert re.fullmatch(re.escape(wanted) + RATE, told), told


@test
def other_arguments_are_refused(program):
    misused(run([program, "--chek"]), "--chek: no such option")
    misused(run([program, "-q", "a"]), "-q: no such option")
    misused(run([program, "bench", "a", "b"]), "bench: takes one file")
    misused(run([program, "replay", "a"]), "replay: takes no argument")


@test
def behind_two_minuses_stand_files(program):
    pathlib.Path("--check").write_bytes(BAD)
    summed(run([program, "--", "--check"]), 0, BAD_ANSWER, b"1 line, 0 accepted, 1 refused (3: 1)")


# Input that fails.

@test
def a_file_that_cannot_be_read_ends_it(program):
    pathlib.Path("a").write_bytes(F)
    pathlib.Path("folder").mkdir()
    for name, error in (("missing", errno.ENOENT), ("folder", errno.EISDIR), ("a/b", errno.ENOTDIR), ("/proc/self/mem", errno.EIO)):
        failed(run([program, name]), name, error)
        failed(run([program, "--check", "a", name, "a"]), name, error, F_ANSWER)
        failed(run([program, "bench", name]), name, error)


@test
def closed_standard_input_ends_it(program):
    pathlib.Path("a").write_bytes(F)
    for words in ("<&-", "- <&-", "replay <&-", "bench - <&-"):
        failed(in_shell(program, words), "standard input", errno.EBADF)
    failed(in_shell(program, "a - <&-"), "standard input", errno.EBADF, F_ANSWER)
    summed(in_shell(program, "a a <&-"), 0, F_ANSWER * 2, b"2 lines, 2 accepted, 0 refused")


@test
def a_line_that_was_not_read_to_its_end_is_not_answered(program):
    reading, writing = os.pipe()
    os.set_blocking(reading, False)
    os.write(writing, F + b"\n" + F)
    failed(run([program], stdin=reading), "standard input", errno.EAGAIN, F_ANSWER)
    os.close(reading)
    os.close(writing)


# Output that fails.

COMMANDS = (["--help"], ["--version"], ["a"], ["--full", "a"], ["--check", "--quiet", "a"], ["replay"], ["bench", "a"])
CALL = b"general - -\n"


@test
def a_full_output_ends_it(program):
    pathlib.Path("a").write_bytes(F)
    for words in COMMANDS:
        with open("/dev/full", "wb") as full:
            failed(run([program, *words], CALL, stdout=full), "standard output", errno.ENOSPC, None)


@test
def a_closed_output_ends_it(program):
    pathlib.Path("a").write_bytes(F)
    for words in COMMANDS:
        failed(in_shell(program, " ".join(words) + " >&-", given=CALL), "standard output", errno.EBADF)
    failed(in_shell(program, ">&-"), "standard output", errno.EBADF)  # though there is nothing to print


@test
def the_first_failed_write_ends_endless_input(program):
    for words in ([], ["replay"]):
        with open("/dev/full", "wb") as full, subprocess.Popen(["yes", "general - -"], stdout=subprocess.PIPE) as endless:
            try:
                failed(run([program, *words], stdin=endless.stdout, stdout=full), "standard output", errno.ENOSPC, None)
            finally:
                endless.kill()


@test
def a_pipe_that_nobody_reads_ends_it(program):
    reading, writing = os.pipe()
    os.close(reading)
    failed(run([program], F, stdout=writing, restore_signals=False), "standard output", errno.EPIPE, None)
    os.close(writing)


@test
def what_stands_on_a_closed_standard_error_harms_nothing(program):
    same(in_shell(program, "2>&-", given=F), (0, F_ANSWER, b""))


# Replay and bench.

@test
def malformed_calls_end_replay(program):
    for line, why in (
        (b"", "no call has that name"),
        (b"general", "no room is given"),
        (b"genera - -", "no call has that name"),
        (b"general - ", "no room is given"),
        (b"general  -", "no bytes are given"),
        (b"general - x", "the room is no number"),
        (b"general - -1", "the room is no number"),
        (b"general - - ", "the room is no number"),
        (b"general - 131073", "the room is too large"),
        (b"general - 18446744073709551617", "the room is too large"),
        (b"general 0 -", "the bytes are not in pairs of digits"),
        (b"general 0g -", "the bytes are not in lower-case hex"),
        (b"general 6F -", "the bytes are not in lower-case hex"),
        (b"sheet - 2097153", "the room is too large"),
        (b"heads - 131073", "the room is too large"),
        (b"check_data", "no bytes are given"),
        (b"check_data -", "no bytes are given"),
        (b"check_data - 0", "the bytes are not in pairs of digits"),
        (b"check_data 0g -", "the bytes are not in lower-case hex"),
        (b"check_data - 0G", "the bytes are not in lower-case hex"),
        (b"check_data - - ", "the bytes are not in lower-case hex"),
        (b"general " + b"00" * (1 << 22) + b" -", "the line is too long"),
    ):
        told = f"geusomin: replay: line 3: {why}\n".encode()
        same(run([program, "replay"], CALL * 2 + line + b"\n" + CALL), (2, b"no 4 0\n" * 2, told))
        with open("/dev/full", "wb") as full:
            failed(run([program, "replay"], CALL + line + b"\n", stdout=full), "standard output", errno.ENOSPC, None)
    same(run([program, "replay"], b"general - 131072\nsheet - 2097152\ncheck_data - -"), (0, b"no 4 0\nok 060000003000\nno 15 0\n", b""))


@test
def replay_takes_long_lines(program):
    given = b"00" * (1 << 21)
    same(run([program, "replay"], b"general %s -\nsheet %s -\n%s" % (given, given, CALL)), (0, b"no 8 0\nno 21 0 0\nno 4 0\n", b""))


@test
def bench_times_four_calls(program):
    pathlib.Path("a").write_bytes(F + b"\n" + E + b"\nconstructor()\n" + BAD)
    status, printed, told = run([program, "bench", "a"])
    same((status, told), (0, b""))
    row = r": {} inputs of \d+ bytes on average, \d+ ns each\n"
    timed = (("general", 4), ("canonical", 2), ("signature", 1), ("full", 2))
    assert re.fullmatch("".join(call + row.format(count) for call, count in timed), printed.decode()), printed


# A terminal.

def slowly(program, words, stderr):
    """A run that is told a line, and after more than a second two more."""
    process = started([program, *words], stderr)
    tell(process, F)
    yield
    for _ in range(2):
        tell(process, F)
        same(process.stdout.readline(), F_ANSWER)
    same(ended(process), (0, F_ANSWER))
    yield process


def seen(terminal):
    """What a terminal was told; its lines end in `\\r\\n`."""
    lines = b""
    os.set_blocking(terminal, False)
    try:
        while True:
            lines += os.read(terminal, 4096)
    except BlockingIOError:  # nothing more
        return lines.replace(b"\r\n", b"\n")


@test
def a_terminal_is_told_once_a_second_how_far_it_is(program):
    before = time.monotonic()
    (watching, watched), (other, silent) = pty.openpty(), pty.openpty()
    runs = [slowly(program, [], watched), slowly(program, ["--quiet"], silent), slowly(program, [], subprocess.PIPE)]
    for one in runs:
        next(one)
    time.sleep(1.1)
    piped = [next(one) for one in runs][2].stderr.read()
    took = time.monotonic() - before
    summary = rb"geusomin: 3 lines, 3 accepted, 0 refused" + RATE
    lines = seen(watching)
    match = re.fullmatch(rb"((?:geusomin: lines so far: [123]\n)+)" + summary, lines)
    assert match and match[1].count(b"\n") <= took, lines
    assert re.fullmatch(summary, piped), piped
    same(seen(other), b"")
    for one in (watching, watched, other, silent):
        os.close(one)


TOP = pathlib.Path(__file__).resolve().parent.parent.parent


def checked(program):
    """How many tests pass and how many fail; prints those that fail. Each has a folder of its own."""
    wrong = 0
    for one in TESTS:
        with tempfile.TemporaryDirectory() as folder:
            before = os.getcwd()
            os.chdir(folder)
            try:
                one(program)
            except (AssertionError, subprocess.TimeoutExpired) as problem:
                wrong += 1
                print(f"program: {one.__name__.replace('_', ' ')}: {problem}")
            finally:
                os.chdir(before)
    return len(TESTS) - wrong, wrong
