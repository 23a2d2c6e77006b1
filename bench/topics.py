"""The topics of `bench/run`.

A text is a kind and a size: `ascii`, `mixed`, `japanese` and `emoji` are source text, source text with Japanese comments,
Japanese text and emoji, with a size in bytes; `lines` are lines of 50 bytes, `short` of 13, with their number; `pattern` is
a text of `PATTERNS`.
"""
import functools
import itertools
from typing import NamedTuple

import proportion
import sessions
import ways
import windows

MB = 1_000_000
EXPRESSIONS = [r"\w+\s*=>\s*\w+", "(?i)todo|error", "[0-9]+|0x[0-9a-f]+"]
SEARCHED = [*EXPRESSIONS, "TODO", ".*x", "(a*)*b", r"(\w+) (\w+)"]
LETTERS = "abcdefghijklmnopqrstuvwxyz"
NAMES = ["".join(name) for name in itertools.islice(itertools.product(LETTERS, repeat=3), 8192)]


def class_of(numbers):
    return "[" + "".join(map(chr, numbers)) + "]"


# Patterns of up to 65,536 bytes: a name, `fold` if case is ignored, and the pattern.
PATTERNS = {
    r"32,768 times `\w`": ("", r"\w" * 32768),
    r"16,384 times `[\w]`": ("", r"[\w]" * 16384),
    r"16,384 times `[\w]`, in each case": ("fold", r"[\w]" * 16384),
    r"13,107 times `[^\w]`, in each case": ("fold", r"[^\w]" * 13107),
    r"13,107 times `[\wa]`, in each case": ("fold", r"[\wa]" * 13107),
    "65,535 postfixes": ("", "a" + "*" * 65535),
    "32,767 groups in one another": ("", "(" * 32767 + ")" * 32767),
    "32,768 empty groups": ("", "()" * 32768),
    "8,192 named groups": ("", "".join(f"(?<{name}>)" for name in NAMES)),
    "a class of 65,000 items": ("", "[" + LETTERS * 2500 + "]"),
    "a class of 21,844 items, in each case": ("fold", class_of(0x3041 + 3 * i % 0x8000 for i in range(21844))),
    "a class of 21,844 items, none beside another": ("", class_of(0x0800 + 2 * i for i in range(21844))),
    "65,536 times k, in each case": ("fold", "k" * 65536),
    "65,536 letters of 26, in each case": ("fold", "".join(LETTERS[i % 26] for i in range(65536))),
    "20,000 different letters": ("", "".join(chr(0x4E00 + i) for i in range(20000))),
    "65,536 dots": ("", "." * 65536),
    "32,768 alternatives": ("", "a|" * 32768),
    r"`(\w{1,50} ){1,20}`": ("", r"(\w{1,50} ){1,20}"),
}


def over(texts, *told):
    """A run over each text with each argument."""
    return [(text, more) for text in texts for more in told or ("",)]


def over_patterns():
    return [(("pattern", name), PATTERNS[name][0]) for name in PATTERNS]


def built():
    """The patterns as the command takes them: `(?i)` before those that ignore case, which have one item less if they would
    be too long."""
    for name, (case, pattern) in PATTERNS.items():
        is_too_long = case and len(pattern.encode()) + 4 > 65_536
        is_class = pattern.startswith("[") and pattern.find("]") == len(pattern) - 1
        less = "[" + pattern[3:] if is_class else pattern[4:]
        yield name, ("(?i)" if case else "") + (less if is_too_long else pattern)


def sized(*kinds, sizes=(MB, 100 * MB)):
    return [(kind, size) for kind in kinds for size in sizes]


TEXTS = sized("ascii", "mixed", "japanese", sizes=(10 * MB,))


class Topic(NamedTuple):
    """A topic: what it measures, and its runs, each a text and a further argument of `bin/bench`, or a call of `sessions`,
    which measures the program itself. The page leaves out figures whose `OF: WHAT` matches `left_out`, and the topic if
    these are all. `named` is the topic of `bin/bench`, if it has another name; `built` are other files that it needs;
    `in_the_way` says after the table why aims are missed."""

    measures: str
    runs: list
    left_out: str = "(?!)"
    named: str = ""
    built: tuple = ()
    in_the_way: str = ""


# The aims, by topic and by the name of a figure or what it is of: the greatest value of a figure, the least of a speed.
AIMS = {
    "load": {"text and print": "4 times `cat`", "memory": "250 %"},
    "list": {"rope-search": "the plain program's, for literals 0.7 of it"},
    "instructions": {
        "report of `TODO`": "15 million",
        r"report of `\w+\s*=>\s*\w+`": "37 million",
        "a line's report without a match": "150",
        "a line's report with a `TODO`": "900",
        "a letter without a pattern": "10 thousand",
        "a letter under `TODO`": "16 thousand",
    },
    "typing": {
        "a letter in a random line": "12 us",
        "a typist's letter": "6 us",
        "what a random letter keeps": "3,000 bytes",
    },
    "embedded": dict.fromkeys(("in C", "in Rust", "in Python", "in LuaJIT"), "1 us above the buffer"),
    "replace": {sessions.by_template(*replaced[:2]): "the plain program's" for replaced in sessions.REPLACED},
    "windows": {"the first window": "1 ms", "all slices": "1.05 times `set_pattern`"},
    "next": {f"`{pattern}`": "5 ns" for pattern in sessions.REACHED},
    "enter": {"a break under `let`": "1.2 ms"},
    "hostile": {f"`{pattern}`: 1,000,000 letters": "10 times" for pattern in sessions.HOSTILE},
    "iterators": {
        f"{what}{way}": f"{part} of the string's" for way in ("", " backwards")
        for what, part in [("bytes", "3/4"), ("characters", "3/4"), ("lines", "1/2")]
    },
    "edits": {
        "insertions at random places": "2 us in 1 MB",
        "insertions at a typist's place": "1.2 us in 1 MB",
    },
    "live": {
        "a letter in a random line": "8 us",
        "a typist's letter": "5 us",
        "a break before a random line": "2 ms",
        "a typist's break": "2 ms",
    },
    "forks": {"200 forks and edits, above one text": "6 %"},
    "engines": {
        "PikeVM, all matches": "40 ns, or 5 ns where a match seldom begins",
        **{f"{engine}, all matches": "2.5 ns" for engine in ("hybrid", "dfa")},
    },
    "regexes": {
        "a byte of the rope": "110 % of the slice's",
        "a line, searched with one cache": "150 ns more than its bytes",
    },
    "cursors": {"a cursor over it": "50 ns"},
    "many": {"a byte, by so many patterns": "1.2 times their alternation's"},
}


TOPICS = {
    "load": Topic(
        "the processor's time and the memory of the commands `text` and `print` of 100 MB, beside `cat`",
        [sessions.load_print],
    ),
    "list": Topic(
        "the report of a pattern in 400,000 lines of 50 bytes, beside `grep -c` (`-F` for literals, else `-P`) and "
        "`rg -c`",
        [sessions.list_matches],
        left_out="Python|: matches",
        in_the_way=r"`\w+\s*=>\s*\w+` takes two automata for a match, one to its end and one back",
    ),
    "instructions": Topic(
        "instructions, as valgrind's callgrind counts them, of the report of a pattern in 20,000 lines of source text, "
        "of `replace` in them, and of `edit` of a letter; of many scripts are lines of which three in five end in a word "
        "that is not ASCII; the plain Rust program's number is the aim of other reports and replacements",
        [sessions.count_instructions],
        in_the_way="of a line with a `TODO` the look at a chunk's end, and the search after its match, which finds nothing; "
        r"of reports of `e` and `(\w+) (\w+)` what each match and each line cost beside their bytes; of `replace` of `e` "
        "the lists of matches and patches; of a letter the copy of the path to it",
    ),
    "growth": Topic(
        "a letter put in a random line under the pattern `let`, as the text of 50 bytes a line grows",
        [sessions.grow],
    ),
    "typing": Topic(
        "a letter with the report of a pattern in 400,000 lines, its `undo`, and the memory that its text keeps",
        [sessions.edit_lines],
    ),
    "embedded": Topic(
        "a letter typed in a random line, with the report of `y\\(\\w+` in 400,000 lines, its `undo` and the rows of a "
        "window, by the library, its modules, and the program over pipes, which tells no window: medians, but for the "
        "buffer's, a mean",
        [ways.embedded],
        built=("bin/librope_search.a", "bin/librope_search.so"),
    ),
    "replace": Topic(
        "`replace` of all matches in 400,000 lines, with the report of the new text, beside Python's `re.sub`, which "
        "makes none",
        [sessions.replace_matches],
        left_out=": matches",
        in_the_way="with groups the PikeVM read each match once more, when this was measured; a single thread now reads most "
        "of them, as the instructions above show",
    ),
    "places": Topic(
        "calls that change many places of a text at once: in 400,000 lines `replace_listed` of all lines beside `replace`, "
        "and `text_changes` after it; `edit_all` of 50,000 edits, without a pattern",
        [sessions.whole_texts],
        left_out=": matches",
        built=("bin/librope_search.so",),
    ),
    "windows": Topic(
        "a report in slices of 4,000 lines, of 2,000,000 lines: `begin_pattern` with the first window of 50 lines, the longest "
        "slice, and all slices",
        [windows.first_windows],
        built=("bin/librope_search.so",),
    ),
    "copies": Topic(
        "copies of matches of `\\w+` in 400,000 lines",
        [windows.copies],
        built=("bin/librope_search.so",),
    ),
    "next": Topic(
        "`next` from the start of 13 MB to the only match, in the last line, a byte",
        [sessions.reach_last],
    ),
    "enter": Topic(
        "a break put in at the top of 400,000 lines, behind which the rows of all lines move, and its `undo`",
        [sessions.break_at_top],
        left_out="of a letter|of a break without",
    ),
    "line": Topic(
        "the report of a pattern in one line of 1 MB, and a letter in it, after which the line is searched whole again",
        [sessions.one_line],
        left_out=": its undo|xyz|todo",
    ),
    "hostile": Topic(
        "the report of a pattern in one line of letters `a`, each of which it matches after a search that reads on to "
        "the line's end; the plain Rust program takes as long as the square",
        [sessions.grow_hostile],
        left_out=r"plain Rust|: 100,000 letters|: 10,000 letters",
    ),
    "proportion": Topic(
        "whether the worst inputs known take instructions, as valgrind's callgrind counts them, and memory in proportion to "
        "their size, the largest ones time: each beside one of a quarter of the size, which is that of the text, or a number of "
        "lines, matches, buffers, steps or edits; patterns weigh up to 262,144",
        [proportion.grow_worst, proportion.grow_calls, proportion.time_largest],
        left_out=r"`(\.\*\?x\|a|\.\*x\|\.|\(a\|b\)\*c\|a)`[a-z ]*, (200|40),000 bytes",
        built=("bin/librope_search.a",),
        in_the_way="under a pattern that is longer than the text each letter is a step of as many states as there are letters "
        "before it; `join` takes time in proportion to the steps times the ranges that they change",
    ),
    "indices": Topic(
        "counts and conversions of `str_indices`, beside plain loops",
        over(sized("ascii", "japanese", "emoji", sizes=(100 * MB,))),
        left_out="",
    ),
    "ropes": Topic(
        "building, cloning and asking a rope, a million look-ups of each kind",
        over(sized("ascii", "japanese")),
        left_out="^japanese, 1 MB|, in a hundredth$|: (byte|char_to_line|line_to_char|char_to_utf16_cu|chunk_at_byte)$",
    ),
    "memory": Topic(
        "the most memory that a program takes for a text and a rope of it",
        over(sized("ascii", "japanese")),
        left_out="",
    ),
    "slices": Topic(
        "a million slices at random places with their line counts, beside counts in a string",
        over(sized("ascii", "japanese")),
        left_out="",
    ),
    "iterators": Topic(
        "going through a rope both ways, beside plain loops over a string",
        over(sized("ascii", "japanese", sizes=(100 * MB,))),
        left_out=": (breaks|chunks)|each as a string",
    ),
    "edits": Topic(
        "a million insertions, removals, splits with appends, comparison, beside a String",
        over(sized("ascii")),
        left_out="in a hundredth$|room in chunks|removals at a typist",
    ),
    "files": Topic("reading and writing a rope, beside a String", over(sized("ascii"), "copy"), left_out=""),
    "live": Topic(
        "edits of a buffer with its report, beside a String of which all rows are made again; aims are for a literal "
        "in 400,000 lines",
        over([("lines", 10_000), ("lines", 400_000)], "", "let", *EXPRESSIONS),
        left_out="",
    ),
    "forks": Topic(
        "200 forks with an edit each",
        over([("lines", 400_000)]),
        left_out="",
    ),
    "patterns": Topic(
        "parsing patterns of up to 65,536 bytes",
        over_patterns(),
        left_out="",
    ),
    "programs": Topic(
        "compiling such patterns, and making an engine of them",
        over_patterns(),
        left_out="",
    ),
    "building": Topic(
        "the command `pattern` for long patterns, and the most memory that the program holds then, above one "
        "without a pattern",
        [functools.partial(sessions.build_patterns, list(built()))],
        left_out="",
    ),
    "searches": Topic(
        "all matches by the PikeVM, in one piece and in pieces",
        over(TEXTS, *SEARCHED),
        left_out="",
    ),
    "engines": Topic(
        "where matches end, by each engine and by a `Regex`, of all and of each line's first, a byte",
        over(TEXTS[:1], *SEARCHED),
        left_out=r"in pieces of|(PikeVM|hybrid|dfa), line|: (lines with|matches|a .* is made)|todo|`\((a\*|\\w\+)\)",
    ),
    "regexes": Topic(
        "a `Regex` over a rope, beside one slice, and line by line with one cache",
        over(TEXTS, *EXPRESSIONS, "TODO", ".*x", "(a*)*b") + over([("short", 400_000)], "TODO", "[0-9]+|0x[0-9a-f]+"),
        left_out="",
    ),
    "cursors": Topic(
        "a line of a rope, and a cursor over it",
        over(TEXTS),
        left_out="",
        named="regexes",
    ),
    "many": Topic(
        "all matches of the first 1, 10 and 100 words of a text, each a pattern of one `Regex`, beside their "
        "alternation",
        over(TEXTS[:1], "1", "10", "100"),
        left_out=": matches",
    ),
}
