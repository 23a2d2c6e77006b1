"""The results of the engines, on bin/search-driver: where the first match ends, by the PikeVM, by an automaton whose
states a cache keeps, of four capacities, and by one all of whose states are made in advance; and all matches, by a
`Regex`, which chooses among them, and by one with some of them off. Haystacks are in chunks and in ropes, also in
slices and spans, and some searches are anchored.

The expected answers are those of the table tests/models/searches.jsonl and those of the model of tests/models/walks.py. An
automaton may also quit before the first byte of 128 or more that it sees, if a pattern has `\\b` or `\\B`, and give up if a
cache is small.
"""
import itertools
import json
import os
import random
import re

from driver import PROGRAM_WANT, WANT, Case, Settings
from driver import answer_to, answers, check_memory, line_of, problems, search, written
from harness import TOP, differences, share_of, short, test
from memory import library, tallied
from random_patterns import Maker
from test_match_kind_all import SIZES
from test_regexes import in_rope
from test_searches import EXTREMES, SECOND, VECTORS, asked_at_random, listed
from test_settings import about, engines
from walks import Search, spelled

RANDOM_CASES, LITERAL_CASES, IN_ONE_RUN = share_of(24_000), share_of(2_000), 500
LITTLE_ROOM, ALL_ROOM = (0, 700), 2**64 - 1  # of caches, in bytes
CAPACITIES = (*LITTLE_ROOM, None, ALL_ROOM)  # none: the default

# An automaton with all states made in advance may have so many that this takes long.
MANY = re.compile(r"\\[dDsSwW]")

# A haystack of 100,000 letters, a pattern that matches nothing in it, and one that matches all.
LETTERS = "abcab" * 20_000
IN_LETTERS = [("(a|b|ab)*x", "none"), ("(?:[a-c]|\\w)+", "0 100000"), ("(?i)todo|error", "none")]


def automaton(word, pattern, haystack, cut=0, asked=None, times=0, capacity=None, answer=None):
    """A case of a search by an automaton, after this number of searches with it."""
    slice_, span, anchored = asked or ((None, None), (None, None), None)
    fields = [written(pattern), *Settings().fields(), cut, haystack.hex(), *slice_, *span]
    fields += ["" if anchored is None else int(anchored), times, capacity]
    name = f"{word} {pattern[:70]!r} in {short(haystack)}, cut by {cut} (slice, span, anchored: {asked})"
    name += f", {times} times before, capacity {capacity}"
    return Case(name, line_of(word, *fields), answer)


def regex(pattern, haystack, cut=0, asked=None):
    """A case of a search for all matches by a `Regex`."""
    case = search(pattern, haystack, None, cut, asked)
    return Case(f"regex {case.name}", "regex" + case.line[len("search") :])


def under(ways, pattern, haystack, cut=0, asked=None):
    """A case of a search for all matches by a `Regex`, with some of its engines off."""
    slice_, span, anchored = asked or ((None, None), (None, None), 0)
    return about("under", [pattern], None, ways, haystack, cut, (slice_, span, int(anchored)))


class Wanted:
    """A search with known matches, and the answers that each engine may give."""

    engines = itertools.cycle(engines())  # each in turn is on and off

    def __init__(self, pattern, haystack, matches, cut=0, asked=None, times=0, is_dense=True):
        self.pattern, self.haystack, self.matches = pattern, haystack, matches
        self.cut, self.asked, self.times, self.is_dense = cut, asked, times, is_dense
        text = haystack.decode(errors="ignore")
        self.text = text if text.encode() == haystack else None

    def cases(self):
        """By the PikeVM, by a regex, by one with some engines off, by an automaton with caches of each capacity, in a
        rope, if it is one of text, and by an automaton with all states."""
        how = self.pattern, self.haystack, self.cut, self.asked
        yield search(self.pattern, self.haystack, None, self.cut, self.asked, slots=2)
        yield regex(*how)
        yield under(next(self.engines), *how)
        for capacity in CAPACITIES:
            yield automaton("lazy", *how, self.times, capacity)
        if self.text is not None:
            yield in_rope("rope", self.pattern, self.text, None, (1 + self.cut, 2), self.asked)
        if self.is_dense:
            yield automaton("dense", *how, self.times)

    def places(self):
        """Where the slice starts and ends, and the first and the last offset of the search."""
        length = len(self.haystack)
        slice_, span, _ = self.asked or ((0, length), (0, length), None)
        low, high = max(slice_[0], span[0]), min(slice_[1], span[1], length)
        return slice_[0], min(slice_[1], length), low, high

    def quit(self):
        """How a search quits, if there is a byte before which it may have to."""
        start, end, low, high = self.places()
        if low <= high and re.search(r"\\[bB]", self.pattern):
            for place in range(max(start, low - 1), min(high + 1, end)):
                if self.haystack[place] >= 128:
                    return f"the search met the byte {self.haystack[place]} at {place}, and can't go on"
        return None

    def is_given_up(self, answer):
        """Whether the answer is that a search gave up at an offset inside."""
        _, _, low, high = self.places()
        told = re.fullmatch(r"the search gave up at (\d+)", answer)
        return told is not None and low <= int(told[1]) <= high

    def wrong(self, told):
        """The numbers of the cases that have wrong answers."""
        by_caches = told[3:7]
        whole = self.matches[0][0] if self.matches else None
        end = f"0 {whole[1]}" if whole else "none"
        if told[0] != (f"0 {whole[0]} {whole[1]}" if whole else "none - -"):
            yield 0
        for number in (1, 2) if self.text is None else (1, 2, 7):
            if told[number] != listed(self.matches):
                yield number
        for number, (capacity, answer) in enumerate(zip(CAPACITIES, by_caches), 3):
            gave_up = capacity in LITTLE_ROOM and self.is_given_up(answer)
            if answer not in (end, self.quit()) and not gave_up:
                yield number
        if self.is_dense and told[-1] != by_caches[-1]:
            yield len(told) - 1


def answered(searches, wrong):
    """Each of the searches, with its cases and the answers to them, which come from runs of a limited number of
    searches. Faults of a run are added to the problems."""
    while batch := list(itertools.islice(searches, IN_ONE_RUN)):
        cases = [list(wanted.cases()) for wanted in batch]
        told, with_run = answers(list(itertools.chain.from_iterable(cases)))
        wrong += with_run
        told = iter(told)
        for wanted, about in zip(batch, cases):
            yield wanted, about, list(itertools.islice(told, len(about)))


def compared(searches):
    """What is wrong with the answers to searches, and the kinds of answers, each of which must occur."""
    counts, wrong = {"with a match": 0, "that quit": 0, "that gave up": 0}, []
    for wanted, about, here in answered(iter(searches), wrong):
        for number in wanted.wrong(here):
            wrong.append(f"{about[number].name}: {short(here[number].encode())}, of matches {wanted.matches[:1]}")
        counts["with a match"] += bool(wanted.matches)
        counts["that quit"] += "can't go on" in here[5]
        counts["that gave up"] += any("gave up" in answer for answer in here)
    wrong += [f"no searches {what}" for what, count in counts.items() if not count]
    return wrong, ", ".join(f"{count} {what}" for what, count in counts.items())


def table():
    """All rows, in chunks of sizes in turn."""
    with open(os.path.join(TOP, "tests", "models", "searches.jsonl"), encoding="utf-8") as file:
        rows = [json.loads(line) for line in file]
    for row, size in zip(rows, itertools.cycle(SIZES)):
        pattern = row["pattern"]
        yield Wanted(pattern, row["haystack"].encode(), row["matches"], size, is_dense=not MANY.search(pattern))


def vectors():
    """Those of VECTORS and EXTREMES that list matches, with default settings, in chunks of each size."""
    for (pattern, haystack, answer, *asked), size in itertools.product(VECTORS + EXTREMES, SIZES):
        if len(asked) <= 1 and re.fullmatch(r"[-0-9, ]*", answer):
            groups = ([told.split("-") for told in match.split(",")] for match in answer.split())
            matches = [[(int(start), int(end)) if start else None for start, end in match] for match in groups]
            yield Wanted(pattern, haystack.encode(), matches, size, *asked)


def at_random(count=RANDOM_CASES):
    """Random searches, four for a pattern, one of them by an automaton with all states; some with caches that were used
    before."""
    chance = random.Random(21)
    maker = Maker(chance)
    for number in range(count):
        if number % 4 == 0:
            tree = maker.tree()
        is_dense = number % 4 == 0 and (not MANY.search(spelled(tree)) or chance.random() < 0.01)
        haystack = maker.haystack(tree).encode()
        asked = chance.choice([None, asked_at_random(chance, len(haystack))])
        matches = Search(tree, haystack, *(asked or ())).matches()
        if asked and asked[2] and chance.random() < 0.2:
            matches, asked = [], (*asked[:2], SECOND)
        how = chance.choice((0, 1, 2, 3, 5)), asked, chance.choice((0, 2))
        yield Wanted(spelled(tree), haystack, matches, *how, is_dense)


def literal_matches(literal, haystack, slice_, span, anchored):
    """Where a literal occurs in a slice and a span, in order; each begins where the search for it does, if that is
    anchored."""
    high, place = min(slice_[1], span[1], len(haystack)), span[0]
    while True:
        found = haystack.find(literal, max(place, slice_[0]), high) if place <= high else -1
        if found < 0 or (anchored and found != place):
            return
        place = found + len(literal)
        yield [(found, place)]


def literals(count=LITERAL_CASES):
    """Searches for patterns that are one literal, or nearly so, in haystacks that it nearly fills, with characters that
    are split: a regex finds them by the literal only."""
    chance = random.Random(38)
    parts = [b"a", b"b", "é".encode(), b"\xc3", "🐸".encode()]
    for _ in range(count):
        text = "".join(chance.choices("abé🐸", k=chance.randint(1, 4)))
        literal = text.encode()
        likely = [literal, literal[:-1], *parts]
        haystack = b"".join(chance.choice(likely) for _ in range(chance.randint(0, 6)))
        asked = chance.choice([None, asked_at_random(chance, len(haystack))])
        everything = (0, len(haystack)), (0, len(haystack)), False
        matches = list(literal_matches(literal, haystack, *(asked or everything)))
        if asked and asked[2] and chance.random() < 0.2:
            matches, asked = [], (*asked[:2], SECOND)
        pattern = chance.choice([text, text, f"(?:{text})", "".join(f"[{letter}]" for letter in text)])
        yield Wanted(pattern, haystack, matches, chance.choice((0, 1, 2, 3, 5)), asked, chance.choice((0, 2)))


# Engines, and patterns whose search in `aaaa` reaches all states that one in more of these letters does; for the first
# all states are made with a `Regex`, for the others they aren't.
ENGINES = "pikevm", "hybrid", "dfa", "meta"
FULL_OF_A = "a" * 100_000
IN_FULL_OF_A = ["a*b", "(?:a|b|cc?|dd?d?|ee?e?e?|ff?f?f?f?|gg?g?g?)*x", "(?:a|[é-ü]{1,9})*x"]

# Patterns, haystacks and the answer with a cache that has room for two states: each letter leads to another one, and so
# does the end, and when they would be cleared for the fourth time it gives up.
IN_LITTLE_ROOM = [
    ("a", b"bbbb", "none"),
    ("abcdef", b"abcdef", "0 6"),
    ("abcdefg", b"abcdefg", "the search gave up at 7"),
    ("abcdefgh", b"abcdefgh", "the search gave up at 7"),
]
# One with room for all possible states never gives up.
IN_ALL_ROOM = [*IN_LITTLE_ROOM[:2], ("abcdefg", b"abcdefg", "0 7"), ("[ab]*a[ab]{5}", b"abbab" * 40 + b"c", "0 199")]

# Each has its requests for memory refused in turn. After each request of a search with a cache there is one more
# search.
IN_NEED = [
    automaton("lazy", "(a)|b", b"ab", 1, answer="0 1"),
    automaton("lazy", "(?:([a-é]+?)|$){2}x?", "aé 🐸".encode(), 2, answer="0 3"),
    automaton("lazy", "a*b", b"xaab", 1, ((0, 4), (1, 4), True), 0, 700, answer="0 4"),
]
IN_NEED_OF_ALL = [automaton("dense", "a*b", b"xaab", 1, answer="0 4")]


def check_warm(few, many):
    """A program that searches more often in a long haystack, with the same cache as before, requests no more memory."""
    wrong, told = [], []
    for case in (few, many):
        ended, count, _, total = tallied(lambda environment, line=case.line: answer_to(line, environment))
        wrong += differences(ended, f"{case.answer}\n".encode(), 0)
        told.append((count, total))
    if told[0] != told[1]:
        wrong.append("%d requests for %d bytes, and %d for %d with more searches" % (*told[0], *told[1]))
    test(f"{many.name}, as much memory as {few.name}", wrong)


def check_first(pattern):
    """An engine that has searched in `aaaa` requests no memory in a long haystack that it hasn't seen."""
    for engine in ENGINES:
        wrong, told = [], []
        for length in (8, len(FULL_OF_A)):
            line = line_of("warm", written(pattern), engine, FULL_OF_A.encode().hex(), f"{length:06}")
            ended, count, _, total = tallied(lambda environment, line=line: answer_to(line, environment))
            wrong += differences(ended, b"none\n", 0)
            told.append((count, total))
        if told[0] != told[1]:
            wrong.append("%d requests for %d bytes in 8 letters, %d for %d in 100,000" % (*told[0], *told[1]))
        test(f"{pattern!r} by {engine} in 100,000 letters after four, as much memory as in 8", wrong)


def in_long_contents():
    """Pairs of cases that differ in the number of searches before."""
    for pattern, answer in IN_LETTERS:
        for word in ("lazy", "dense"):
            if word == "lazy" or not MANY.search(pattern):
                yield [automaton(word, pattern, LETTERS.encode(), 984, None, times, answer=answer) for times in (1, 4)]
        matches = "" if answer == "none" else "0-100000"
        yield [in_rope("rope", pattern, LETTERS, matches, (900,), count=times) for times in (2, 5)]


def test_all():
    wrong, how = compared(itertools.chain(table(), vectors(), at_random(), literals()))
    test(f"searches of the table, {RANDOM_CASES} at random, {LITERAL_CASES} for literals, by each engine: {how}", wrong)
    for name, room, searches in (("two states", 0, IN_LITTLE_ROOM), ("all states", ALL_ROOM, IN_ALL_ROOM)):
        told = [automaton("lazy", *told, capacity=room, answer=answer) for *told, answer in searches]
        test(f"{len(told)} searches with a cache that has room for {name}", problems(told))
    if library() is not None:
        for case in IN_NEED:
            check_memory(case, [PROGRAM_WANT, WANT, b"again"], f"{case.answer}\n".encode())
        for case in IN_NEED_OF_ALL:
            check_memory(case, [PROGRAM_WANT, WANT], f"{case.answer}\n".encode())
        for few, many in in_long_contents():
            check_warm(few, many)
        for pattern in IN_FULL_OF_A:
            check_first(pattern)
