"""A `Regex` and its iterators, on bin/search-driver, over haystacks in chunks and over parts of ropes with given
leaves: all matches with their groups, for which all calls must agree, also with one cache and with clones; the result
of `count` after some calls of `next`; and the parts between matches.

The expected answers are those of test_searches: of the table tests/models/searches.jsonl, listed ones, and those of the model
of tests/models/walks.py. How a rope is split and where in it a part is changes none of them.
"""
import itertools
import json
import os
import random
import re

from driver import PROGRAM_WANT, TOO_LARGE, WANT, Case, Settings, check_memory, line_of, problems, search, written
from harness import TOP, short, test
from memory import library
from random_patterns import Maker
from test_searches import EXTREMES, VECTORS, asked_at_random, is_worth, listed
from walks import Alternation, Concat, Look, Search, spelled

RANDOM_CASES, TIMES = 700, 3_000

# The text before and after a part of a rope. Parts may begin and end inside a CR LF.
AROUND = [("", ""), ("ab", ""), ("", "🐸x"), ("b\r", "\nb"), ("せ\n", "a"), ("aaaaaaa", "aaaaaaa")]

# Weights of 262,144 and 262,145; the first is the maximum of a regex. An engine has no such limit.
HEAVY, TOO_HEAVY = "^a{65535}a{65535}", "^^a{65535}a{65535}"


def leaves(text, counts):
    """A split of a text into leaves with these numbers of characters, in turn; a CR LF counts as one."""
    units, sizes = iter(re.findall("\r\n|.", text, re.DOTALL)), []
    for count in itertools.cycle(counts):
        leaf = "".join(itertools.islice(units, count))
        if not leaf:
            return ".".join(map(str, sizes + [0]))
        sizes.append(len(leaf.encode()))


def in_rope(word, pattern, text, answer, counts=(1,), asked=None, around=("", ""), at=None, count=None):
    """A case about a part of a rope, with the text around it, for a pattern or for a list of them. It may be about a
    cursor that is created at an offset, and has a number."""
    whole, start = around[0] + text + around[1], len(around[0].encode())
    slice_, span, anchored = asked or ((None, None), (None, None), None)
    patterns = [pattern] if isinstance(pattern, str) else pattern
    texts = ".".join(map(written, patterns)) if patterns else "-"
    fields = [texts, *Settings().fields(), leaves(whole, counts), whole.encode().hex(), *slice_, *span]
    fields += ["" if anchored is None else int(anchored), start, start + len(text.encode()), at, count]
    shown = " and ".join(repr(text[:70]) for text in patterns)
    name = f"{word} {shown} in {short(text.encode())} of {short(whole.encode())} by leaves of {counts}"
    name += f" (slice, span, anchored: {asked})" if asked else ""
    name += "".join(f", {what} {number}" for what, number in (("at", at), ("with", count)) if number is not None)
    return Case(name, line_of(word, *fields), answer)


def in_pieces(pattern, haystack, answer, cut, asked=None):
    """A case about a haystack in chunks."""
    case = search(pattern, haystack, answer, cut, asked)
    return Case(f"regex {case.name}", "regex" + case.line[len("search") :], answer)


def rows():
    with open(os.path.join(TOP, "tests", "models", "searches.jsonl"), encoding="utf-8") as file:
        return [json.loads(line) for line in file]


def each_way(pattern, text, answer, asked=None, around=AROUND[0]):
    """A search in chunks of one byte, in leaves of one character, and in a part of a rope with longer leaves."""
    yield in_pieces(pattern, text.encode(), answer, 1, asked)
    yield in_rope("rope", pattern, text, answer, (1,), asked)
    yield in_rope("rope", pattern, text, answer, (2, 1, 3), asked, around)


def table():
    for row, around in zip(rows(), itertools.cycle(AROUND)):
        yield from each_way(row["pattern"], row["haystack"], listed(row["matches"]), around=around)


def vectors():
    """The searches with listed answers, with default settings, and a pattern within the limit on weight."""
    for (pattern, haystack, answer, *how), around in zip(VECTORS + EXTREMES, itertools.cycle(AROUND)):
        if how[1:] in ([], [False]):
            yield from each_way(pattern, haystack, answer, *how[:1], around=around)
    yield in_pieces(HEAVY, b"b", "", 1)
    yield in_pieces(TOO_HEAVY, b"b", TOO_LARGE, 1)
    yield search(TOO_HEAVY, b"b", "", 1)


def searched(tree, text, asked=None):
    """The matches of a tree in a text, by the model."""
    return Search(tree, text.encode(), *(asked or (None, None, False))).matches()


def texts_at_random(chance, count):
    """Trees and texts."""
    maker = Maker(chance)
    for _ in range(count):
        tree = maker.tree()
        yield tree, maker.haystack(tree)


def at_random(count=RANDOM_CASES):
    chance = random.Random(15)
    for tree, text in texts_at_random(chance, count):
        asked = chance.choice([None, asked_at_random(chance, len(text.encode()))])
        answer = listed(searched(tree, text, asked))
        counts = [chance.randint(1, 4) for _ in range(3)]
        case = in_rope("rope", spelled(tree), text, answer, counts, asked, chance.choice(AROUND))
        if is_worth(chance, case):
            yield case
            yield in_pieces(spelled(tree), text.encode(), answer, chance.choice((1, 2, 5)), asked)


def from_places(count=120):
    """Searches with a cursor that is created at an offset: those of the whole haystack, and those without a span, which
    begin at the start of the chunk that contains the offset."""
    chance = random.Random(16)
    for tree, text in texts_at_random(chance, count):
        length = len(text.encode())
        at = chance.randint(0, length)
        asked = ((0, length), (0, length), False)
        yield in_rope("rope", spelled(tree), text, listed(searched(tree, text)), (2,), asked, AROUND[0], at)
        starts = [0, *itertools.accumulate(map(int, leaves(text, (2,)).split(".")))]
        first = max((start for start in starts if start <= at and start < length), default=0)
        answer = listed(searched(tree, text, ((0, length), (first, length), False)))
        yield in_rope("rope", spelled(tree), text, answer, (2,), None, AROUND[0], at)


def often():
    """One cache is used for search after search."""
    for row in rows()[::40]:
        yield in_rope("rope", row["pattern"], row["haystack"], listed(row["matches"]), (2,), count=TIMES)


def at_the_end(count=250):
    """Patterns whose matches all end at the slice's end, or nearly all: one cache is used for so many searches that
    they search backward from there, and if groups are requested, between where a match starts and where it ends."""
    chance = random.Random(18)
    for tree, text in texts_at_random(chance, count):
        last = Look(chance.choice(("$", "$", "\\z", "(?m:$)")))
        tree = chance.choice((Concat((tree, last)), Concat((tree, last, last)), Alternation((Concat((tree, last)), last))))
        asked = chance.choice([None, None, asked_at_random(chance, len(text.encode()))])
        answer = listed(searched(tree, text, asked))
        around = chance.choice(AROUND)
        times = 30_000 // max(len(text.encode()), 10)
        case = in_rope("rope", spelled(tree), text, answer, (chance.randint(1, 4),), asked, around, count=times)
        if is_worth(chance, case):
            yield case


def counted():
    """This number of calls of `next`, and then `count`, of both iterators. An iterator that has ended yields no
    more."""
    for row in rows()[::4]:
        total = len(row["matches"])
        for calls in sorted({0, 1, total // 2, total, total + 2}):
            given = f"{min(calls, total)} {max(total - calls, 0)}"
            yield in_rope("counts", row["pattern"], row["haystack"], f"{given} {given}", count=calls)


def parts(matches, end, limit=None):
    """The parts between matches, up to this end: at most this number, the last of which goes to the end."""
    starts, ends = [0], []
    for match in matches if limit is None else matches[: max(limit - 1, 0)]:
        ends.append(match[0][0])
        starts.append(match[0][1])
    spans = [] if limit == 0 else zip(starts, ends + [end])
    return " ".join(f"{start}-{end}" for start, end in spans if start <= end)


def told_parts():
    answers = [(None, "0-1 2-3 4-4"), (2, "0-1 2-4"), (1, "0-4"), (0, ""), (3, "0-1 2-3 4-4"), (2**64 - 1, "0-1 2-3 4-4")]
    for limit, answer in answers:
        yield in_rope("split", "b", "abcb", answer, count=limit)
    yield in_rope("split", "b", "", "0-0")


def split():
    """The parts between matches, with each limit up to one more than there are parts."""
    for row in rows()[::5]:
        matches = row["matches"]
        for limit in (None, *range(len(matches) + 3)):
            answer = parts(matches, len(row["haystack"].encode()), limit)
            yield in_rope("split", row["pattern"], row["haystack"], answer, (2, 1), count=limit)
    chance = random.Random(17)
    for tree, text in texts_at_random(chance, 150):
        slice_, (start, end), anchored = asked = asked_at_random(chance, len(text.encode()))
        limit = chance.choice((None, 1, 2, 3))
        answer = parts(searched(tree, text, asked), min(end, len(text.encode())), limit)
        yield in_rope("split", spelled(tree), text, answer, (1, 2), asked, chance.choice(AROUND), None, limit)


# Each has its requests for memory refused in turn. After each request of a search with a cache there is one more
# search.
SEARCHED_AGAIN = [
    in_pieces("(a)|b", b"ab", "0-1,0-1 1-2,-", 1),
    in_rope("rope", "(?:([a-é]+?)|\\b){2}x?", "aé 🐸", "0-3,1-3", (1,), None, ("b", "c")),
]
SEARCHED_ONCE = [
    in_rope("split", "b|$", "abcb", "0-1 2-3 4-4"),
    in_rope("split", "b", "abcb", "0-1 2-4", (2,), count=2),
]


def test_all():
    parts = [
        ("searches of the table, in pieces and in parts of ropes", table()),
        ("searches with listed answers, in chunks and in parts of ropes", vectors()),
        ("searches at random, in pieces and in parts of ropes", at_random()),
        ("searches with a cursor that is made at a place", from_places()),
        (f"searches, each {TIMES:,} times with one cache", often()),
        ("searches of matches at the end, often with one cache", at_the_end()),
        ("counts of what is left of iterators", counted()),
        ("lists of parts between matches", [*told_parts(), *split()]),
    ]
    for name, cases in parts:
        cases = list(cases)
        test(f"{len(cases)} {name}", problems(cases))
    if library() is not None:
        for case in SEARCHED_AGAIN:
            check_memory(case, [PROGRAM_WANT, WANT, b"again"], f"{case.answer}\n".encode())
        for case in SEARCHED_ONCE:
            check_memory(case, [PROGRAM_WANT, WANT], f"{case.answer}\n".encode())
