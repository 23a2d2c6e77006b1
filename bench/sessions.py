"""Measures the program bin/rope-search by whole sessions, and programs and calls that do the same. Each function is a run
of a topic: it yields what a figure is of, its name, the figure, and its unit, which is `failed` if an answer is wrong. A
figure is the median of several runs."""
import os
import random
import re
import shutil
import statistics
import sys
import time

from processes import (
    OURS,
    PROGRAM,
    RUNS,
    THEIRS,
    command,
    instructions,
    kept_by,
    nanos_of,
    peak_of,
    programs,
    taken,
    tells_peak,
    text_and_pattern,
    timed,
    written,
)
from texts import TOP, lines_of, source_text

UNDO = b"undo\n"
LITERALS = ["let", "e", "xyz"]  # in about three of ten lines, in nearly each, and in none
EXPRESSIONS = [r"\w+\s*=>\s*\w+", "(?i)todo|error", "[0-9]+|0x[0-9a-f]+"]
# Patterns that match only in this line, which `next` has to reach.
LAST_LINE = "zebra ZEBRA := 1.5;"
REACHED = [
    "ZEBRA", "(?i)zebra", "zebra|gnu|okapi", "[A-Z]{2,}", r"[0-9]+\.[0-9]+", r"\w+\s*:=\s*\w+", ".*;"
]
# Patterns that match each letter `a` of a line; each of their searches reads to the end of the line.
HOSTILE = ["a*b|a", ".*?x|a", ".*x|.", "(a|b)*c|a", "(?:a{0,200})*b|a"]
# A pattern, a template, and the template in Python's syntax.
REPLACED = [
    ("marker", "bookmarks", "bookmarks"),
    ("(mark)(er)", "$2$1$$", r"\2\1$"),
    (r"\w+", "<$0>", r"<\g<0>>"),
    (r"(\w+) (\w+)", "$2 $1", r"\2 \1"),
]
# The patterns whose instructions are counted: of reports, and of replacements with their templates.
REPORTED = ["TODO", *EXPRESSIONS, "e", "found nowhere", "[a-z]+", r"\w+", ".*x", r"(\w+) (\w+)"]
REWRITTEN = [("e", "E"), (r"\w+", "<$0>"), (r"(\w+) (\w+)", "$2 $1")]
SAMPLES = {
    "ASCII": "    let count = lines.iter().filter(|line| line.len() > 80).count();\n",
    "many scripts": "let größe = zeilen.länge(); // 行の数を数える, строки, γραμμές 🐸\n",
}


def nanos(times):
    return f"{statistics.median(times):.0f}"


def unit_of(is_right):
    """The unit of a time, unless the answer is wrong."""
    return "ns" if is_right else "failed"


def by_template(pattern, template):
    return f"`{pattern}` by `{template}`"


def is_reply(path, text):
    """Whether a file holds the replies to `text` and `print`."""
    head = b"ok\ntext %d\n" % len(text)
    with open(path, "rb") as file:
        return file.read() == head + text + b"\n"


def load_print(folder, tiny):
    size = 1_000_000 if tiny else 100_000_000
    for name, line in SAMPLES.items():
        text = line.encode() * (size // len(line.encode()))
        of = f"{name}, {len(text):,} bytes"
        session = written(folder, "session", command("text", text), b"print\n")
        out = os.path.join(folder, "out")
        runs = [timed([PROGRAM], session, out) for _ in range(RUNS)]
        yield of, "text and print", nanos([run[0] for run in runs]), unit_of(is_reply(out, text))
        yield of, "cat", nanos([timed(["cat"], session, out)[0] for _ in range(RUNS)]), "ns"
        if tells_peak():
            yield of, "memory", f"{peak_of([PROGRAM], session) * 102400 / len(text):.0f}", "% of the text"


def listed(lines, pattern):
    """The number of matches, by Python line by line, and of lines with a match."""
    rows = [sum(1 for _ in pattern.finditer(line)) for line in lines]
    return sum(rows), sum(map(bool, rows))


def counters(pattern):
    """Programs that count the lines of a file in which a pattern matches, by their names."""
    kind = "-F" if pattern in LITERALS else "-P"
    by_rg = {"rg": ["rg", "--no-config", "-c", "-e", pattern]} if shutil.which("rg") else {}
    return {"grep": ["grep", "-c", kind, "-e", pattern], **by_rg}


def list_matches(folder, tiny):
    text = lines_of(4_000 if tiny else 400_000)
    lines, file = text.decode().split("\n"), written(folder, "lines", text)
    for pattern in LITERALS + EXPRESSIONS:
        of = f"`{pattern}`"
        by_re, (matches, found) = nanos_of(lambda: listed(lines, re.compile(pattern, re.ASCII)))
        setting = text_and_pattern(text, pattern)
        listing = written(folder, "listing", *setting, b"list\n")
        shown = {name: timed([program], listing)[1] for name, program in programs().items()}
        is_right = len(set(shown.values())) == 1 and shown[OURS].endswith(b"ok %d\n" % matches)
        for name, program in programs().items():
            [(report, _)] = taken(program, setting[:1], setting[1:])
            yield of, name, nanos([report]), unit_of(is_right)
        for name, words in counters(pattern).items():
            runs = [timed([*words, file]) for _ in range(RUNS)]
            yield of, name, nanos([run[0] for run in runs]), unit_of(int(runs[0][1] or 0) == found)
        yield of, "Python's re", f"{by_re}", "ns"
        yield of, "matches", f"{matches}", ""


def letters_at(places):
    """Commands that insert a letter at each of these lines and columns."""
    return [b"edit %d %d %d %d 1\ne" % (*place, *place) for place in places]


def letters_in(lines, count, columns=40):
    """This number of them, in random lines and columns."""
    chance = random.Random(11)
    return letters_at([(chance.randrange(lines), chance.randrange(columns)) for _ in range(count)])


def words_in(lines, count):
    """The same as a typist types them: one after the other, forty in a random line."""
    chance = random.Random(13)
    chosen = [chance.randrange(lines) for _ in range(-(-count // 40))]
    return letters_at([(line, column) for line in chosen for column in range(40)][:count])


def edit_lines(folder, tiny):
    """Letters typed under a pattern, undone, and the memory of their history. The plain program makes few edits."""
    lines, edits = (4_000, 200) if tiny else (400_000, 20_000)
    text = lines_of(lines)
    at_random, typed = letters_in(lines, edits), words_in(lines, edits)
    for pattern in ["let", EXPRESSIONS[0]]:
        of, settings = f"`{pattern}`", text_and_pattern(text, pattern)
        batches = [at_random, [UNDO] * edits, typed]
        whats = ["a letter in a random line", "its undo", "a typist's letter"]
        for what, (time_of_all, said) in zip(whats, taken(PROGRAM, settings, *batches)):
            yield of, what, f"{time_of_all / edits:.1f}", unit_of(said == b"ok\n" * edits)
        if os.path.exists("/proc/self/statm"):
            yield of, "what a random letter keeps", f"{kept_by(PROGRAM, settings, at_random) / edits:.0f}", "bytes"
        if THEIRS in programs():
            [(time_of_all, said)] = taken(programs()[THEIRS], settings, at_random[:3], runs=3)
            yield of, f"a letter, {THEIRS}", f"{time_of_all / 3:.1f}", unit_of(said == b"ok\n" * 3)


def grow(folder, tiny):
    """A letter typed in texts of 10 kB, 100 kB and so on, up to 100 MB."""
    for lines in (200, 2_000) if tiny else (200, 2_000, 20_000, 200_000, 2_000_000):
        settings = text_and_pattern(lines_of(lines), "let")
        few = min(10 * lines, 20_000)  # so that the length of the text hardly changes
        counts = {OURS: few, THEIRS: min(few, max(2, 1_000_000 // lines))}
        for name, program in programs().items():
            [(all_of_them, said)] = taken(program, settings, letters_in(lines, counts[name]), runs=3)
            figure = f"{all_of_them / counts[name]:.1f}"
            yield f"{lines:,} lines", name, figure, unit_of(said == b"ok\n" * counts[name])


def break_at_top(folder, tiny):
    """Breaks and letters inserted at the top, and undone. The rows of all lines after a break move."""
    lines, many = (4_000, 20) if tiny else (400_000, 100)
    text = lines_of(lines)
    under_let, bare = text_and_pattern(text, "let"), [command("text", text)]
    ways = {
        "a break under `let`": (under_let, b"edit 0 0 0 0 1\n\n"),
        "a letter under `let`": (under_let, b"edit 0 0 0 0 1\ne"),
        "a break without a pattern": (bare, b"edit 0 0 0 0 1\n\n"),
    }
    for way, (settings, edit) in ways.items():
        for name, program in programs().items():
            count = many if name == OURS else 2
            answers = taken(program, settings, [edit] * count, [UNDO] * count, runs=3)
            for of, (all_of_them, said) in zip((way, f"undo of {way}"), answers):
                yield of, name, f"{all_of_them / count:.1f}", unit_of(said == b"ok\n" * count)


def one_line(folder, tiny):
    """The report of a long line, and edits, which each search the whole line again."""
    line = lines_of(400 if tiny else 20_000).replace(b"\n", b" ")
    letters = letters_in(1, 10, columns=len(line))
    for pattern in LITERALS + EXPRESSIONS:
        text, setting = text_and_pattern(line, pattern)
        for name, program in programs().items():
            batches = {"report": [setting], "a letter": letters, "its undo": [UNDO] * len(letters)}
            for what, (all_of_them, said) in zip(batches, taken(program, [text], *batches.values(), runs=3)):
                count = len(batches[what])
                figure = f"{all_of_them / count:.1f}"
                yield f"`{pattern}`: {what}", name, figure, unit_of(said == b"ok\n" * count)


def grow_hostile(folder, tiny):
    """The report of patterns that read to the end of the line to match each letter."""
    for pattern in HOSTILE:
        last = {}
        for letters in (1_000, 10_000) if tiny else (10_000, 100_000, 1_000_000):
            text, setting = text_and_pattern(b"a" * letters, pattern)
            for name, program in programs().items():
                if name != OURS and name in last:
                    continue  # its time grows with the square
                [(report, said)] = taken(program, [text], [setting], runs=3)
                yield f"`{pattern}`: {letters:,} letters", name, nanos([report]), unit_of(said == b"ok\n")
                if last.get(name):
                    yield f"`{pattern}`: {letters:,} letters", f"{name}, beside a tenth as many", f"{report / last[name]:.1f}", "times"
                last[name] = report


def reach_last(folder, tiny):
    """`next` from the start of a text to its last line, for each byte that it passes."""
    lines = 2_600 if tiny else 260_000
    text = lines_of(lines) + LAST_LINE.encode()
    for pattern in REACHED:
        found = re.search(pattern, LAST_LINE)
        due = b"m %d %d %d %d\n" % (lines, found.start(), lines, found.end())
        for name, program in programs().items():
            answers = taken(program, text_and_pattern(text, pattern), *[[b"next 0 0\n"]] * RUNS, runs=1)
            times, is_right = [answer[0] for answer in answers], all(answer[1] == due for answer in answers)
            yield f"`{pattern}`", name, f"{statistics.median(times) / len(text):.3f}", unit_of(is_right)


def marked(lines, gap):
    """The lines, with a match at the start of every `gap`-th one."""
    chosen = lines_of(lines).decode().split("\n")
    for line in range(0, lines, gap):
        chosen[line] = "marker" + chosen[line][6:]
    return "\n".join(chosen)


def replace_matches(folder, tiny):
    """Matches replaced in lines, every fourth of which begins with `marker`, and undone."""
    text = marked(4_000 if tiny else 400_000, 4)
    for pattern, template, named in REPLACED:
        of, settings = by_template(pattern, template), text_and_pattern(text.encode(), pattern)
        by_re, (made, count) = nanos_of(lambda: re.subn(pattern, named, text, flags=re.ASCII))
        replace = command("replace", template.encode())
        shown = timed([PROGRAM], written(folder, "session", *settings, replace, b"print\n"))[1]
        is_text = shown.endswith(b"\n%b\n" % made.encode())
        for name, program in programs().items():
            runs = 3 if count < 1_000_000 else 1
            (replaced, said), (undone, back) = taken(program, settings, [replace], [UNDO], runs=runs)
            yield of, name, nanos([replaced]), unit_of(is_text and said == b"ok %d\n" % count)
            if name == OURS:
                yield of, "undo", nanos([undone]), unit_of(back == b"ok\n")
        yield of, "Python's re.sub", f"{by_re}", "ns"
        yield of, "matches", f"{count}", ""


def build_patterns(patterns, folder, tiny):
    """Each of the patterns set once: the time, and the peak of memory."""
    bare = peak_of([PROGRAM], written(folder, "session", b"off\n")) if tells_peak() else 0
    for name, pattern in patterns:
        session = written(folder, "session", command("pattern", pattern.encode()))
        runs = [timed([PROGRAM], session) for _ in range(1 if tiny else RUNS)]
        is_right = all(run[1] in (b"ok\n", b"error limit\n", b"error pattern\n") for run in runs)
        of = name if runs[0][1] == b"ok\n" else f"{name}: refused"
        yield of, "time", nanos([run[0] for run in runs]), unit_of(is_right)
        if tells_peak():
            yield of, "memory", f"{peak_of([PROGRAM], session) - bare}", "kB"


def whole_texts(folder, tiny):
    """Calls that change many places of a text at once, by bindings/python, and the ranges that they changed."""
    sys.path.insert(0, os.path.join(TOP, "bindings", "python"))
    import rope_search

    lines, edits = (4_000, 500) if tiny else (400_000, 50_000)

    def taking(session, call, due, is_undone=True):
        """The nanoseconds of a call, which is undone before it is timed again, and whether its result is right."""
        times, is_right = [], True
        for _ in range(RUNS):
            start = time.perf_counter_ns()
            is_right &= call() == due
            times.append(time.perf_counter_ns() - start)
            if is_undone:
                session.undo()
        return nanos(times), unit_of(is_right)

    with rope_search.Session() as session:
        session.set_text(marked(lines, 4))
        for pattern, template in (("marker", "bookmarks"), ("(mark)(er)", "$2$1$$")):
            session.set_pattern(pattern)
            due, of = session.count_matches(), by_template(pattern, template)
            yield of, "`replace`", *taking(session, lambda: session.replace(template), due)
            yield of, "`replace_listed` of all lines", *taking(session, lambda: session.replace_listed(0, lines, template), due)
            yield of, "matches", f"{due}", ""
        session.replace(template)
        out, calls = (rope_search._TextChange * due)(), rope_search.library()
        ranges = lambda: calls.rope_search_text_changes(session._handle, out, due)
        yield f"`text_changes` of {due:,} matches", "in C", *taking(session, ranges, due, False)

    with rope_search.Session() as session:
        session.set_text(b"let x = 1; // ok\n" * (edits + edits // 5))
        made, texts = (rope_search._TextEdit * edits)(), b"ab" * edits
        for line, edit in enumerate(made):
            at = rope_search._Position(line, 4)
            edit.start, edit.stop, edit.len = at, at, 2
        all_of_them = lambda: calls.rope_search_edit_all(session._handle, made, edits, texts, len(texts))
        yield f"`edit_all` of {edits:,} edits, in {session.text_len / 1e6:.1f} MB", "in C", *taking(session, all_of_them, 0)


def count_instructions(folder, tiny):
    """Counts over lines of source text, every fifth of which ends in `// TODO`. The lines change with the sources, and so do
    the plain program's numbers."""
    lines = (source_text().split("\n") * 5)[: 1_000 if tiny else 20_000]
    lines[::5] = [line + " // TODO" for line in lines[::5]]
    scripts = with_scripts(lines)
    for name, program in programs().items():
        for of, figure, unit in counted(lines, program, 1_000 if name == OURS else 10):
            yield of, name, figure, unit
        for of, figure, unit in counted_reports(scripts, program):
            yield f"{of}, many scripts", name, figure, unit


def with_scripts(lines):
    """The lines, three of five of which end in a word of another script."""
    ends = ["", " naïve", " かな", " 🐸", ""]
    return [line + ends[at % 5] for at, line in enumerate(lines)]


def counted_reports(lines, program):
    """The instructions of each report, less what precedes it in the session."""
    text = "\n".join(lines).encode()
    alone = instructions(program, command("text", text))
    for pattern in REPORTED:
        counted = instructions(program, *text_and_pattern(text, pattern))
        yield f"report of `{pattern}`", f"{(counted - alone) / 1e6:.1f}", "million"


def counted(lines, program, edits):
    """The instructions of reports, replacements and this number of edits, each less what precedes it in the session."""

    def of(*commands):
        return instructions(program, *commands)

    text = "\n".join(lines).encode()
    alone = of(command("text", text))
    patterns = dict.fromkeys([*REPORTED, *(pattern for pattern, _ in REWRITTEN)])
    set_up = {pattern: of(*text_and_pattern(text, pattern)) for pattern in patterns}
    for pattern in REPORTED:
        yield f"report of `{pattern}`", f"{(set_up[pattern] - alone) / 1e6:.1f}", "million"
    bare, in_fifth = ((set_up[pattern] - alone) / len(lines) for pattern in ("found nowhere", "TODO"))
    yield "a line's report without a match", f"{bare:.0f}", ""
    yield "a line's report with a `TODO`", f"{5 * in_fifth - 4 * bare:.0f}", ""
    listed = of(*text_and_pattern(text, "e"), b"list\n")
    yield "`list` of `e`", f"{(listed - set_up['e']) / 1e6:.1f}", "million"
    first = of(*text_and_pattern(b"", r"\w+")) - of(command("text", b""))
    yield r"report of `\w+` in an empty text", f"{first / 1e6:.1f}", "million"
    for pattern, template in REWRITTEN:
        replaced = of(*text_and_pattern(text, pattern), command("replace", template.encode()))
        yield f"`replace` of {by_template(pattern, template)}", f"{(replaced - set_up[pattern]) / 1e6:.1f}", "million"
    letters = letters_in(len(lines) // 2, edits, columns=1)
    for under, base, settings in [
        ("without a pattern", alone, [command("text", text)]),
        ("under `TODO`", set_up["TODO"], text_and_pattern(text, "TODO")),
    ]:
        yield f"a letter {under}", f"{(of(*settings, *letters) - base) / edits / 1e3:.1f}", "thousand"
