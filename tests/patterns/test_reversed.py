"""Reversed programs, as bin/search-driver prints them: their nodes are those of the programs, followed backward, and
their walks over bytes, from the end of each span, reach the starts that the model finds. Each refused request is
reported."""
import itertools
import re

from driver import PROGRAM_WANT, WANT, about, answers, check_memory
from harness import test
from memory import library
from walks import LOOKS, Alternation, Concat, Group, Look, Repeat, Search, Set, spelled

LOOK_SIGNS = {"^": "\\A", "$": "\\z", "m^": "(?m:^)", "m$": "(?m:$)", "b": "\\b", "B": "\\B"}


# ---- the answers


class Turned:
    """A reversed program as it is printed: the starts, the states, and the automata by the first state with each."""

    def __init__(self, told):
        states, *automata = told.split("; ")
        starts, *states = states.split(", ")
        self.start, *self.patterns = map(int, starts.split())
        self.states = [(state.split()[0], state.split()[1:]) for state in states]
        self.automata = {}
        for automaton in automata:
            first, *rows = automaton.split(" /")
            self.automata[int(first)] = [self.row(row) for row in rows]

    @staticmethod
    def row(row):
        """By byte the state that it leads to, and None for a character's first byte."""
        ranges = re.findall(r"(\d+)-(\d+)>(\d+|-)", row)
        return {
            byte: None if state == "-" else int(state)
            for first, last, state in ranges
            for byte in range(int(first), int(last) + 1)
        }

    def step(self, number, state, byte):
        """Whether a byte is read from a state of a node's automaton, and where it leads."""
        row = self.automata[int(self.states[number][1][0])][state]
        return byte in row, row.get(byte)


def nodes_back(states):
    """The states of a reversed program, by the rules, from the printed states of the forward program. States that read
    share an automaton if those of the program do."""
    count, arrivals, edges = len(states), [[] for _ in states], []
    for number, state in enumerate(states):
        kind, *rest = state.split()
        for edge in edges_of(kind, rest):
            if count + number not in arrivals[edge]:
                arrivals[edge].append(count + number)
        if kind == "end":
            edges.append(("|", []))
        elif kind.startswith("set"):
            edges.append(("set", [str(count + int(rest[1])), str(number)]))
        else:
            edges.append((kind if kind in LOOK_SIGNS else "|", [str(number)]))
    arrivals[0].append(2 * count)  # one pattern, which starts at the first state
    ends = [str(number) for number, state in enumerate(states) if state.startswith("end")]
    unions = [("|", list(map(str, arrival))) for arrival in arrivals]
    return unions + edges + [("end", ["0"]), ("|", ends), ("|", ends)]


def edges_of(kind, rest):
    if kind == "end":
        return []
    return [int(rest[-1])] if kind.startswith("set") else list(map(int, rest))


# ---- backward walks


def starts_back(turned, search):
    """The offsets that walks reach backward over bytes from the span's end."""
    found, seen, left = set(), set(), [(turned.start, 0, search.span[1])]
    if not search.low <= search.span[1] <= search.high:
        return found
    while left:
        triple = left.pop()
        if triple in seen:
            continue
        seen.add(triple)
        number, state, place = triple
        kind, rest = turned.states[number]
        if kind == "end":
            found.add(place)
        elif kind == "set":
            left += read_back(turned, search, number, state, place)
        elif kind == "|" or search.holds(LOOKS[LOOK_SIGNS[kind]], place):
            left += [(int(edge), 0, place) for edge in rest]
    return found


def read_back(turned, search, number, state, place):
    if place <= search.low:
        return []
    is_read, further = turned.step(number, state, search.content[place - 1])
    if not is_read:
        return []
    return [(int(turned.states[number][1][1]), 0, place - 1) if further is None else (number, further, place - 1)]


# ---- patterns and haystacks


def letter(text):
    return Set(text, lambda character: character == text)


def several():
    """Trees with assertions, groups, loops of what may be empty, and characters of one to four bytes."""
    a, b, wide = letter("a"), letter("b"), letter("é")
    three, four = letter("\u20ac"), letter("\U0001f600")
    dot = Set(".", lambda character: character != "\n")
    yield from [a, Concat((a, b)), Alternation((Concat((a, b)), b)), Repeat(a, 0, None), Repeat(a, 1, None, False)]
    yield from [Repeat(dot, 0, None), Concat((dot, a)), Alternation((wide, three, four)), Repeat(wide, 1, 2)]
    yield Repeat(Alternation((Repeat(a, 0, None), Look("\\b"))), 0, None)
    yield Repeat(Group(1, Alternation((a, Concat((b, a))))), 2, 3)
    for look in ["\\A", "\\z", "(?m:^)", "(?m:$)", "\\b", "\\B"]:
        yield Look(look)
        yield Concat((Look(look), Repeat(dot, 0, 1), a))
        yield Alternation((Concat((a, Look(look))), Concat((wide, Look(look), a))))


CONTENTS = [
    b"", b"a", b"ab", b"ba a\n", b"aab", b"\na\n", "aé".encode(), "éa".encode(), "a\u20acb".encode(),
    "\U0001f600a".encode(), b"\xc3", b"a\xc3", b"\xa9a", b"\xc3\xa9\xa9", b"\xe2\x82a\xac", b"\xf0\x9f\x98a",
    b"\xed\xa0\x80", b"\xc3\xc3\xa9a", b"\xf0\x9f\x98\x80\x80", b"\xff\x00a",
]  # fmt: skip


def spans(content):
    """All spans of a haystack, in slices of it with and without its first and its last byte."""
    end = len(content)
    slices = [(start, last) for start in [0, 1] for last in [end - 1, end] if 0 <= start <= last]
    return itertools.product(slices, itertools.combinations_with_replacement(range(end + 1), 2))


def wrong_walks(tree, turned):
    """What is wrong with the backward walks of a tree's program, in all spans and slices of the haystacks."""
    for content in CONTENTS:
        for slice_, span in spans(content):
            for inside in [False, True]:
                search = Search(tree, content, slice_, span, inside=inside)
                found = starts_back(turned, search)
                least = min((place for place in found if search.counts(place, span[1])), default=None)
                if least != search.find_back():
                    yield f"{content!r} in {slice_} and {span}, {inside}: {least}, not {search.find_back()}"


def test_all():
    trees = list(several())
    cases = [about(word, spelled(tree)) for tree in trees for word in ["compile", "reversed"]]
    told, wrong = answers(cases)
    for tree, (states, back) in zip(trees, zip(told[::2], told[1::2])):
        turned = Turned(back)
        if turned.states != nodes_back(states.split(", ")):
            wrong.append(f"{spelled(tree)!r}: {turned.states}, not {nodes_back(states.split(', '))}")
        count = len(states.split(", "))
        if (turned.start, turned.patterns) != (2 * count + 1, [2 * count + 2]):
            wrong.append(f"{spelled(tree)!r} starts at {turned.start} and {turned.patterns}")
        if any(0 in row.values() for rows in turned.automata.values() for row in rows):
            wrong.append(f"{spelled(tree)!r} has an automaton that comes back to its first state")
        wrong += [f"{spelled(tree)!r} in {line}" for line in wrong_walks(tree, turned)]
    test(f"{len(trees)} reversed programs, in all spans of {len(CONTENTS)} haystacks", wrong)
    if library() is not None:
        for pattern in ["a", "(a)|b|c*?|", "[a-c]{2,4}(?:a|é){0}\\b", ".[^a]."]:
            check_memory(about("reversed", pattern), [PROGRAM_WANT, WANT])
