"""Tests of the header: the refusals and their texts are the documents', and each call gives the refusals that its comment names.

A number's words stand behind it in document 01, up to its position or the end of the sentence; 11 to 13 share theirs. A number
that document 02 says is no longer given has none; one that an order adds has its words there, up to where it comes.
"""
import re
import shutil
import subprocess

VERSION = re.compile(r'^#define GEUSOMIN_VERSION "(\d+\.\d+\.\d+)"$', re.M)
STRICT = ["-Wall", "-Wextra", "-Wpedantic", "-Werror"]
LANGUAGES = {"C99": ["gcc", "-std=c99", "-x", "c"], "C11": ["gcc", "-std=c11", "-x", "c"], "C++": ["g++", "-x", "c++"]}
NUMBERS = (*range(41), 2 ** 32 - 1)  # those that header.c asks for
ORDERS = range(1, 10)  # those of document 02 that are in


CLAUSE = re.compile(r"(\d+)(?:, in the second call only,)? (.*?), (?:first|at|found|after|before|carrying|in place) ")


def order_words(orders):
    """Of the refusals that these orders add: what stands between a number and where it is given."""
    clauses = (clause for listed in re.findall(r"Refused: (.*?)\.(?: |$)", orders, re.M) for clause in listed.split("; "))
    return {int(found[1]): found[2] for clause in clauses if (found := CLAUSE.match(clause))}


def document_words(top):
    """Numbers and their words, as the documents have them."""
    document, orders = ((top / "docs" / name).read_text() for name in ("01-scope.md", "02-change-requests.md"))
    causes = document[document.index("## What the sender's bytes cause"):document.index("## Edges")]
    words = {int(n): text for n, text in re.findall(r"(?:^|\. |: )(\d+) (.*?)(?=, position|;|\.(?: |$))", causes, re.M)}
    shared, starts, *ends = re.search(r"(what remains [^:]*): 11 if (it starts) (with [^,]*), 12 if (with [^,]*), 13 (\w+)\.", causes).groups()
    words.update({11 + i: f"{shared}: {starts} {end}" for i, end in enumerate(ends)})
    orders = "\n".join(re.search(rf"^\*\*order {n}\..*$", orders, re.M)[0] for n in ORDERS)
    words.update(order_words(orders))
    gone = {int(n) for n in re.findall(r"Number (\d+) is no longer given", orders)}
    return {n: text for n, text in words.items() if n not in gone}


def expected(top):
    """What header.c has to print."""
    words = document_words(top)
    version = VERSION.search((top / "include" / "geusomin.h").read_text())[1]
    return [version, *(f"{n} {words.get(n, '-')}" for n in NUMBERS), "f(uint256)"]


def printed(top, compiler):
    """What header.c prints, compiled so."""
    program = top / "target" / "header"
    library = top / "target" / "staticlib" / "libgeusomin.a"
    done = subprocess.run([*compiler, *STRICT, f"-I{top / 'include'}", top / "tests" / "c" / "header.c", "-x", "none", library, "-o", program])
    return subprocess.run([program], capture_output=True, text=True).stdout.splitlines() if done.returncode == 0 else []


def texts(top):
    """How many lines are as expected and how many are not, in each language."""
    passed = failed = 0
    for language, compiler in LANGUAGES.items():
        if language == "C++" and shutil.which(compiler[0]) is None:
            print("skipped: the header in C++: there is no g++")
            continue
        got = printed(top, compiler)
        wanted = expected(top)
        wrong = [line for i, line in enumerate(wanted) if got[i:i + 1] != [line]]
        for line in wrong[:3]:
            print(f"header in {language}: not printed: {line}")
        passed, failed = passed + len(wanted) - len(wrong), failed + len(wrong) + max(0, len(got) - len(wanted))
    return passed, failed


def enumerators(top):
    """Whether the header names the numbers that there are, and no other."""
    listed = re.search(r"enum geusomin_refusal \{(.*?)\};", (top / "include" / "geusomin.h").read_text(), re.S)[1]
    named = sorted(int(n) for n in re.findall(r"^ *GEUSOMIN_\w+ = (\d+)", listed, re.M))
    wrong = named != sorted(document_words(top))
    if wrong:
        print(f"header: the enum has the refusals {named}")
    return 1 - wrong, int(wrong)


# The refusals that a call can give.

def numbers(listed):
    """`1 to 3, 20` as a set."""
    ends = (part.split(" to ") for part in listed.split(", "))
    return {n for part in ends for n in range(int(part[0]), int(part[-1]) + 1)}


def named(header):
    """By C function, the refusals that the comment before it names."""
    listed, result = None, {}
    for text, function in re.findall(r"Refusals: ([\d, to]+)\.|^uint32_t geusomin_(\w+)\(", header, re.M):
        if function:
            result[function] = listed
        else:
            listed = numbers(text)
    return result


def call_of(function):
    """The name that `replay` has for a C function."""
    call = function.replace("parse_", "").replace("copy_", "").replace("full_text", "full").replace("message_", "message:")
    return call.replace("declaration", "general")


def refusals(top, calls):
    """By C function, whether its refusals in all that is replayed are those that the header names."""
    given = {}
    for line, answer in calls:
        given.setdefault(line.split()[0], set()).update([int(answer.split()[1])] if answer.startswith("no ") else [])
    listed = named((top / "include" / "geusomin.h").read_text())
    wrong = [function for function in listed if listed[function] != given.get(call_of(function))]
    for function in wrong:
        print(f"header: geusomin_{function}: names the refusals {listed[function]}, gives {given.get(call_of(function))}")
    missing = set(given) - {call_of(function) for function in listed}
    for call in missing:
        print(f"header: no function for the call {call}")
    return len(listed) - len(wrong), len(wrong) + len(missing)
