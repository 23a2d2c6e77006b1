"""Measures whether the worst known inputs take time and memory in proportion to the text: each at one size and at four
times that size, by instructions, which are the same in each run, and by the peak of memory; the largest ones by processor
time.

An input is a name, its smaller size, a function from a size to the commands before the measurement and those measured, and
what the size counts: bytes, lines, buffers or steps. Each command has a reply of one line, and an empty one that of one more
line. Inputs of calls of the library, for which the program has no command, are in worst_calls.c.
"""
import os
import random
import re
import subprocess

from processes import PROGRAM, Session, command, instructions, peak_of, tells_peak, text_and_pattern, written
from texts import TOP

TIMES = 4  # the larger size as a multiple of the smaller one
WORDS = 10_000
EXPLODING = "(a|b)*a(a|b){20}"
# Patterns, most of them with nearly the greatest weight, 262,144: a name, the pattern, the part that their text repeats, and
# the smaller size of that text.
HEAVY = {
    "65,535 times `[a-cx]`": ("[a-cx]{65535}", b"abcx", 1_000),
    "2,000 times `[a-cx]`": ("[a-cx]{2000}[d-f]", b"abcx" * 499 + b"d", 4_000),
    r"300 times `\w`": (r"\w{300}", "aé".encode(), 1_000),
    "`(?:(?:a?){290}){300}`": ("(?:(?:a?){290}){300}", b"a", 64),
    "65,000 times `k` in each case": ("(?i)k{65000}", b"kK", 1_000),
    "10,000 words": (None, b"abcd", 250),
    "10,000 words in each case": ("(?i)", b"aBcd", 250),
}
# Patterns that match each letter `a`; each of their searches reads to the end.
HOSTILE = ["a*b|a", ".*?x|a", ".*x|.", "(a|b)*c|a", "(?:a{0,200})*b|a"]


def words():
    """An alternation of words of five letters."""
    letters = "abcdefghij"

    def word(number):
        return "".join(letters[number // 10**place % 10] for place in range(4)) + letters[number % 7]

    return "|".join(map(word, range(WORDS)))


def letters_at_random(count):
    chance = random.Random(5)
    return bytes(chance.choices(b"ab", k=count))


def in_lines(text, length=100):
    return b"\n".join(text[at : at + length] for at in range(0, len(text), length))


def report(text, pattern):
    """The report of a pattern in a text."""
    setting = text_and_pattern(text, pattern)
    return setting[:1], setting[1:]


def heavy(pattern, part):
    """The report of a pattern, or of all words if it is none or sets a flag for them."""
    spelled = (pattern or "") + words() if pattern in (None, "(?i)") else pattern
    return lambda size: report(part * (size // len(part)), spelled)


def found_in(pattern, *commands):
    """Commands in one line of letters `a`, under a pattern that has its report."""
    return lambda size: (text_and_pattern(b"a" * size, pattern), list(commands))


def reported(pattern, arranged=lambda text: text):
    return lambda size: report(arranged(b"a" * size), pattern)


def exploding(arranged=lambda text: text):
    return lambda size: report(arranged(letters_at_random(size)), EXPLODING)


def buffers(size):
    more = (b"fork\nuse %d\n" % number + command("pattern", rb"\w+") for number in range(1, size + 1))
    return [command("text", b"one two\n" * 10)], [one for three in more for one in split(three)]


def split(commands):
    """Three commands, the first two of one line each."""
    first, second, third = commands.split(b"\n", 2)
    return first + b"\n", second + b"\n", third


def steps(*words_of_step):
    """Letters typed, and then the same number of undos, or the like."""
    def of(size):
        typed = [b"edit %d 0 %d 0 1\na" % (place % 1_000, place % 1_000) for place in range(size)]
        return [*text_and_pattern(b"a line\n" * 1_000, "a+"), *typed], [word for word in words_of_step for _ in range(size)]
    return of


def inputs():
    """All inputs."""
    for name, (pattern, part, size) in HEAVY.items():
        yield f"report of {name}", size, heavy(pattern, part), "bytes"
    yield f"report of `{EXPLODING}` in a line", 50_000, exploding(), "bytes"
    yield f"report of `{EXPLODING}` in lines", 50_000, exploding(in_lines), "bytes"
    yield f"`replace` under `{EXPLODING}`", 10_000, lambda size: (
        text_and_pattern(letters_at_random(size), EXPLODING), [command("replace", b"$1")]), "bytes"
    for pattern in HOSTILE:
        yield f"report of `{pattern}` in a line", 50_000, reported(pattern), "bytes"
        yield f"report of `{pattern}` in lines", 50_000, reported(pattern, in_lines), "bytes"
        yield f"`replace` under `{pattern}`", 10_000, found_in(pattern, command("replace", b"$0$0")), "bytes"
    yield "`next` of `a*b` in a line, nowhere", 250_000, found_in("a*b", b"next 0 0\n"), "bytes"
    yield "report of `x*` in empty lines", 25_000, empty_lines, "lines"
    yield "`replace` under `x*` in empty lines", 5_000, lambda size: (
        text_and_pattern(b"\n" * size, "x*"), [command("replace", b"y")]), "lines"
    yield "`list` of matches of `x*` in empty lines", 25_000, lambda size: (
        text_and_pattern(b"\n" * (size - 1), "x*"), [b"list\n"] + [b""] * size), "lines"
    yield "`text` of CR LFs", 500_000, lambda size: ([b"use 0\n"], [command("text", b"\r\n" * (size // 2))]), "bytes"
    yield "`print` of a line", 500_000, lambda size: ([command("text", b"a" * size)], [b"print\n", b""]), "bytes"
    yield "`edit` in a line under `a*b|a`", 50_000, lambda size: (
        text_and_pattern(b"a" * size, "a*b|a"), [b"edit 0 0 0 0 1\na"]), "bytes"
    yield "buffers with a pattern", 500, buffers, "buffers"
    yield "letters typed and taken back", 2_500, steps(b"undo\n"), "steps"
    yield "letters taken back and made again", 2_500, steps(b"undo\n", b"redo\n"), "steps"


def largest():
    """Inputs that would take too many instructions to be counted."""
    yield "report of 4,000 times `[a-cx]`", 16_000, heavy("[a-cx]{4000}[d-f]", b"abcx" * 999 + b"d"), "bytes"
    yield f"report of `{EXPLODING}` in a line", 2_500_000, exploding(), "bytes"
    yield f"report of `{EXPLODING}` in lines", 2_500_000, exploding(in_lines), "bytes"
    for pattern in HOSTILE[::4]:
        yield f"report of `{pattern}` in a line", 2_500_000, reported(pattern), "bytes"
        yield f"report of `{pattern}` in lines", 2_500_000, reported(pattern, in_lines), "bytes"
        yield f"`replace` under `{pattern}`", 250_000, found_in(pattern, command("replace", b"$0$0")), "bytes"
    yield "report of `x*` in empty lines", 250_000, empty_lines, "lines"
    yield "letters typed and taken back", 25_000, steps(b"undo\n"), "steps"
    yield "letters taken back and made again", 25_000, steps(b"undo\n", b"redo\n"), "steps"


def empty_lines(size):
    return report(b"\n" * size, "x*")


def counted(before, measured):
    """The instructions of some commands after others."""
    return instructions(PROGRAM, *before, *measured) - instructions(PROGRAM, *before)


def held(folder, before, measured):
    """The peak of the program's memory, in kilobytes."""
    return peak_of([PROGRAM], written(folder, "session", *before, *measured))


def grow_worst(folder, tiny):
    """For each input the instructions per byte, line or other unit of its size; the ratio of instructions for four times
    the size; and the memory."""
    for name, size, of, unit in inputs():
        size = max(20, size // 1_000) if tiny else size
        small, large = (counted(*of(number)) for number in (size, TIMES * size))
        named = f"{name}, {TIMES * size:,} {unit}"
        yield named, "instructions for each", f"{large / (TIMES * size):.0f}", ""
        yield named, "beside a quarter", f"{large / small:.2f}", "times"
        if tells_peak():
            less, more = (held(folder, *of(number)) for number in (size, TIMES * size))
            yield named, "memory", f"{more}", "kB"
            yield named, "memory beside a quarter", f"{more / less:.2f}", "times"


def spent_and_held(before, measured):
    """The nanoseconds that commands take after others in a session, and the peak of its memory in kilobytes, 0 if the system
    doesn't tell it."""
    with Session(PROGRAM) as session:
        session.ask(before)
        spent, _ = session.ask(measured)
        with open(f"/proc/{session.process.pid}/status", encoding="utf-8") as told:
            peak = re.search(r"VmHWM:\s*(\d+) kB", told.read())
        return spent, int(peak[1]) if peak else 0


def time_largest(folder, tiny):
    """The same by time: per byte or line, and compared with a quarter of the size."""
    for name, size, of, unit in largest():
        size = max(20, size // 1_000) if tiny else size
        (small, less), (large, more) = (spent_and_held(*of(number)) for number in (size, TIMES * size))
        named = f"{name}, {TIMES * size:,} {unit}"
        yield named, "time for each", f"{large / (TIMES * size):.1f}", "ns"
        yield named, "beside a quarter", f"{large / small:.2f}", "times"
        if more:
            yield named, "memory", f"{more}", "kB"
            yield named, "memory beside a quarter", f"{more / less:.2f}", "times"


# Calls of the library, by their names in worst_calls.c: what the input is, its smaller size, and what that counts.
CALLS = {
    "set_text": ("`set_text` of CR LFs", 50_000, "breaks"),
    "edit": ("`edit` in a line under `(a|b)*c|(a)`", 5_000, "bytes"),
    "edit_bytes": ("`edit_bytes` of a long text", 250_000, "bytes"),
    "edit_all": ("`edit_all` under `match`", 25_000, "edits"),
    "replace": ("`replace` of `(a|b)*c|(a)` by `$2$0`", 5_000, "matches"),
    "replace_match": ("`replace_match` of the last in a line", 5_000, "matches"),
    "replace_listed": ("`replace_listed` in a line, by `$2$0`", 5_000, "matches"),
    "text_changes": ("`text_changes` after that", 25_000, "ranges"),
    "join": ("`join` of letters in 1,000 lines", 1_000, "steps"),
    "keep": ("`keep` of one step", 5_000, "steps"),
    "next_all": ("`next_all` of `(a|b)*c|(a)`", 5_000, "matches"),
    "groups_at": ("`groups_at` of the last in a line", 5_000, "matches"),
    "list_index": ("`list_index` of the last match", 25_000, "rows"),
    "listed_before": ("`listed_before` of the next but last", 25_000, "rows"),
    "copy_matches": ("`copy_matches` of `x*` in empty lines", 25_000, "matches"),
    "copy_matches_in": ("`copy_matches_in` by bytes, frogs in a line", 5_000, "matches"),
    "advance": ("`advance` over a line under `(a|b)*c|(a)`", 5_000, "bytes"),
    "window": ("`window` of lines under `\\w+`", 2_500, "lines"),
    "clamp": ("`clamp` in a line of frogs", 25_000, "characters"),
    "column_in": ("`column_in` in a line of frogs", 25_000, "characters"),
    "copy_line": ("`copy_line` of a line of frogs", 25_000, "characters"),
    "pattern_error": ("`pattern_error` of open groups", 16_000, "bytes"),
    "escape": ("`escape` of backslashes", 8_000, "bytes"),
}


def grow_calls(folder, tiny):
    """The same as `grow_worst` for calls of the library."""
    made = os.path.join(folder, "worst_calls")
    library = os.path.join(os.environ.get("ROPE_SEARCH_LIBRARIES") or os.path.join(TOP, "bin"), "librope_search.a")
    source, headers = os.path.join(TOP, "bench", "worst_calls.c"), os.path.join(TOP, "include")
    subprocess.run(["cc", "-O2", "-I", headers, "-o", made, source, library], check=True)
    for name, (told, size, unit) in CALLS.items():
        size = max(20, size // 100) if tiny else size
        small, large = (instructions_of([made, name, str(number)]) - instructions_of([made, name, str(number), "before"])
                        for number in (size, TIMES * size))
        named = f"{told}, {TIMES * size:,} {unit}"
        yield named, "instructions for each", f"{large / (TIMES * size):.0f}", ""
        yield named, "beside a quarter", f"{large / small:.2f}", "times"
        if tells_peak():
            less, more = (peak_of([made, name, str(number)], os.devnull) for number in (size, TIMES * size))
            yield named, "memory", f"{more}", "kB"
            yield named, "memory beside a quarter", f"{more / less:.2f}", "times"


def instructions_of(words_of_program):
    """The instructions of a whole run of a program, which must succeed."""
    words_of_tool = ["valgrind", "--tool=callgrind", "--callgrind-out-file=/dev/null"]
    ran = subprocess.run([*words_of_tool, *words_of_program], stdout=subprocess.PIPE, stderr=subprocess.PIPE, check=True)
    return int(ran.stderr.split(b"Collected : ")[1].split()[0])
