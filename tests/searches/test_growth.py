"""All matches take time in proportion to the text, under patterns whose searches read past the match that they find: in the
lines of a report and in a whole text, by bin/rope-search, and in one haystack, in lists and one after the other, by a
`Regex` and by the PikeVM, by bin/search-driver. So do the worst known inputs of each kind of bin/rope-search, as in
bench/proportion.py. No time is measured: valgrind's callgrind counts instructions, which are the same in each run. Without
valgrind, a message says so, and nothing is tested.
"""
import random
import re
import shutil
import subprocess

from driver import search
from harness import PROGRAM, SEARCH_PROGRAM, open_input, test
from protocol import spelled
from test_lists import about

# Patterns that match each letter, and whose searches read some letters further or to the end of the line; the part that
# a text repeats, and the number of repetitions in the shorter text.
LINE = b"a" * 99 + b"\n"
GROWING = [("(?:a{0,50}b)|a", b"a", 500), (".*x|.", LINE, 5)]
# Patterns whose searches all read to the end, so that one search after the other would read a quadratic number of bytes.
SQUARES = [("a*b|a", b"a", 1_000), ("(?s:.*x)|a", LINE, 10)]


def given(word, payload):
    return spelled(word, (len(payload),), payload)


def many_states(count):
    """A pattern whose automaton has states for each sequence of the last twenty letters."""
    text = bytes(random.Random(5).choices(b"ab", k=count))
    return given("text", text) + given("pattern", b"(a|b)*a(a|b){20}") + b"next 0 0\nuse 0\n"


def empty_lines(count):
    return given("text", b"\n" * count) + given("pattern", b"x*") + given("replace", b"y") + b"use 0\n"


def heavy_pattern(count):
    """A pattern of weight 250,000, most of whose states each letter visits."""
    return given("text", b"a" * count) + given("pattern", b"(?:(?:a?){290}){290}") + b"use 0\n"


def history(count):
    """Letters typed under a pattern, then as many undos and redos."""
    typed = b"".join(spelled("edit", (line % 50, 0, line % 50, 0, 1), b"a") for line in range(count))
    return given("text", b"a line\n" * 50) + given("pattern", b"a+") + typed + b"undo\n" * count + b"redo\n" * count + b"use 0\n"


def buffers(count):
    """Buffers with a pattern each."""
    some = (b"fork\nuse %d\n" % (number + 1) + given("pattern", rb"\w+") for number in range(count))
    return given("text", b"one two\n" * 10) + b"".join(some) + b"use 0\n"


# The length of the longer text as a multiple of the shorter one, and the multiple of instructions that is too many. The
# instructions for no text are subtracted from both.
LONGER, TOO_MANY = 4, 6
# Inputs of a size, whose last reply is `ok`, the smaller size, and the multiple of instructions that is too many. At first
# an automaton makes a state for each letter, and each takes longer the more there are, up to its capacity.
WORST = [(many_states, 2_000, 9), (empty_lines, 1_000, TOO_MANY), (heavy_pattern, 8, TOO_MANY), (history, 250, TOO_MANY),
         (buffers, 20, TOO_MANY)]


def session(pattern, text, *more):
    """The commands that set both, and more of them."""
    told = [("text", text), ("pattern", pattern.encode()), *more]
    return b"".join(spelled(word, (len(payload),), payload) for word, payload in told)


def reported(pattern, text):
    """All matches line by line, and how the output must end."""
    return PROGRAM, session(pattern, text) + b"list\n", b"ok %d\n" % text.count(b"a")


def replaced(pattern, text):
    """All matches of the whole text, each replaced."""
    return PROGRAM, session(pattern, text, ("replace", b"$0")), b"ok %d\n" % text.count(b"a")


def by_regex(pattern, text):
    """All matches in a haystack in chunks, by the iterators of a `Regex`."""
    program, line, end = by_pikevm(pattern, text)
    return program, line.replace(b"search", b"regex", 1), end


def by_pikevm(pattern, text):
    places = [place for place, byte in enumerate(text) if byte != ord("\n")]
    end = " ".join(f"{place}-{place + 1}" for place in places[-2:]) + "\n"
    return SEARCH_PROGRAM, search(pattern, text, cut=7).line.encode(), end.encode()


def in_a_list(pattern, text):
    last = max((place for place, byte in enumerate(text) if byte != ord("\n")), default=None)
    end = "" if last is None else f"0 {last + 1} {last} {last + 1}"
    return SEARCH_PROGRAM, about([pattern], text, 2, None, 7).line.encode(), f"{end}\n".encode()


LISTS = {"in a report": reported, "by a replacement": replaced, "in a list": in_a_list}
WAYS = {**LISTS, "by a Regex": by_regex, "by the PikeVM": by_pikevm}


def instructions(program, data, end):
    """The number of instructions of a program for its input, and what is wrong with the run."""
    words = ["valgrind", "--tool=callgrind", "--callgrind-out-file=/dev/null", program]
    with open_input(data) as given:
        ran = subprocess.run(words, stdin=given, stdout=subprocess.PIPE, stderr=subprocess.PIPE, check=False)
    told = re.search(rb"Collected : (\d+)", ran.stderr)
    is_right = told and ran.returncode == 0 and ran.stdout.endswith(end)
    return int(told[1]) if told else 0, [] if is_right else [f"ended with {ran.returncode}: {ran.stdout[-50:]}"]


def growth(way, pattern, part, count):
    """What is wrong with the growth of the number of instructions with the text."""
    texts = (part * size for size in (0, count, LONGER * count))
    return wrong_growth([way(pattern, text) for text in texts])


def growth_of(worst, count, too_many):
    """The same for inputs of a size."""
    return wrong_growth([(PROGRAM, worst(size), b"ok\n") for size in (0, count, LONGER * count)], too_many)


def wrong_growth(runs, too_many=TOO_MANY):
    """What is wrong with the instructions of three runs: for nothing, for a size, and for the longer one."""
    (none, *wrong), (once, *second), (grown, *third) = (instructions(*run) for run in runs)
    once, grown = once - none, grown - none
    yield from wrong[0] + second[0] + third[0]
    if not 0 < grown < too_many * once:
        yield f"{once:,} instructions, and {grown:,} for {LONGER} times the text"


def test_all():
    if shutil.which("valgrind") is None:
        print("skipped, no valgrind: counts of instructions")
        return
    for (pattern, part, count), ways in [*((row, WAYS) for row in GROWING), *((row, LISTS) for row in SQUARES)]:
        for name, way in ways.items():
            what = f"{LONGER} times {len(part) * count:,} bytes take less than {TOO_MANY} times the instructions"
            test(f"all matches of {pattern} {name}: {what}", growth(way, pattern, part, count))
    for worst, count, too_many in WORST:
        name = worst.__name__.replace("_", " ")
        what = f"{LONGER} times {count:,} take less than {too_many} times the instructions"
        test(f"{name}: {what}", growth_of(worst, count, too_many))
