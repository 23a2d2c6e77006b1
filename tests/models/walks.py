"""A small model of searches, from their definitions: patterns as trees, their programs, the walks through these, and
the results of searches. It is slow, and shares nothing with the engines.

Offsets are byte indices into a haystack, which may be any bytes.
"""
import functools
import itertools
import sys
import unicodedata
from dataclasses import dataclass
from typing import Any, Callable, Optional, Tuple

sys.setrecursionlimit(20_000)  # a walk takes some calls for each node
CONTINUE = {bytes([byte]) for byte in range(0x80, 0xC0)}  # the bytes that continue a character


# ---- patterns, as trees


@dataclass(frozen=True)
class Empty:
    """No item."""


@dataclass(frozen=True)
class Set:
    """One character of a set, which `text` spells."""

    text: str
    has: Callable[[str], bool]


@dataclass(frozen=True)
class Look:
    """The condition on the text around an offset: a key of LOOKS."""

    text: str


@dataclass(frozen=True)
class Group:
    """A tree with a number, and perhaps a name. Groups are numbered from 1 by where they open."""

    number: int
    inside: Any
    name: Optional[str] = None


@dataclass(frozen=True)
class Concat:
    """Two trees or more, one after the other."""

    parts: Tuple[Any, ...]


@dataclass(frozen=True)
class Alternation:
    """One of two trees or more, an earlier one preferred."""

    parts: Tuple[Any, ...]


@dataclass(frozen=True)
class Repeat:
    """A repetition of a tree, from the least number to the greatest (None: any), as many as possible or as few."""

    inside: Any
    least: int
    most: Optional[int]
    is_greedy: bool = True


def below(tree):
    """The trees directly below a tree."""
    if isinstance(tree, (Concat, Alternation)):
        return tree.parts
    return [tree.inside] if isinstance(tree, (Group, Repeat)) else []


def postfix(tree):
    """The spelling of a repetition, after what is repeated."""
    counts = f"{{{tree.least}}}" if tree.least == tree.most else f"{{{tree.least},{tree.most or ''}}}"
    short = {(0, None): "*", (1, None): "+", (0, 1): "?"}
    return short.get((tree.least, tree.most), counts) + ("" if tree.is_greedy else "?")


def spelled(tree, looks=None, level=0):
    """The pattern that spells a tree; `looks` has other spellings of assertions. The level says what is put between
    `(?:` and `)`: at 1 alternations, at 2 also sequences and the empty tree, at 3 also repetitions."""
    if isinstance(tree, Set):
        return tree.text
    if isinstance(tree, Look):
        return (looks or {}).get(tree.text, tree.text)
    if isinstance(tree, Group):
        return f"({spelled(tree.inside, looks)})"
    if isinstance(tree, Alternation):
        text, needs = "|".join(spelled(part, looks, 1) for part in tree.parts), 1
    elif isinstance(tree, Repeat):
        text, needs = spelled(tree.inside, looks, 3) + postfix(tree), 3
    else:
        text, needs = "".join(spelled(part, looks, 2) for part in below(tree)), 2
    return f"(?:{text})" if level >= needs else text


def group_numbers(tree):
    """The numbers of the groups in a tree; 0 is the whole of it."""
    inside = [number for part in below(tree) for number in group_numbers(part)[1:]]
    return [0] + ([tree.number] if isinstance(tree, Group) else []) + inside


def may_be_empty(tree):
    """Whether some path through the tree reads no character, whatever assertions are on it."""
    if isinstance(tree, Alternation):
        return any(map(may_be_empty, tree.parts))
    if isinstance(tree, Repeat) and tree.least == 0:
        return True
    return not isinstance(tree, Set) and all(map(may_be_empty, below(tree)))


def static_groups(tree):
    """The number of groups in each match of the tree, if that is the same for all, otherwise None."""
    inside = [static_groups(part) for part in below(tree)]
    if isinstance(tree, Alternation):
        return inside[0] if len(set(inside)) == 1 else None
    if isinstance(tree, Repeat) and (tree.most == 0 or tree.least == 0 and inside != [0]):
        return 0 if tree.most == 0 else None
    return None if None in inside else sum(inside) + isinstance(tree, Group)


def static_captures(trees):
    """The same for several patterns, one of which matches, with its whole match."""
    each = {static_groups(tree) for tree in trees}
    return each.pop() + 1 if len(each) == 1 and None not in each else None


# ---- characters and assertions

WHITE_SPACE = set("\t\n\v\f\r \x85\xa0\u1680\u2028\u2029\u202f\u205f\u3000") | set(map(chr, range(0x2000, 0x200B)))
# The letters in circles and squares, which are alphabetic though no category says so.
ENCLOSED = [(0x24B6, 0x24E9), (0x1F130, 0x1F149), (0x1F150, 0x1F169), (0x1F170, 0x1F189)]
WORD_CATEGORIES = {"Lu", "Ll", "Lt", "Lm", "Lo", "Nl", "Mn", "Mc", "Me", "Nd", "Pc"}


def is_digit(character):
    return unicodedata.category(character) == "Nd"


def is_space(character):
    return character in WHITE_SPACE


def is_word(character):
    """Whether it is a letter, a mark, a decimal digit, a connector such as `_`, or joins or separates letters."""
    enclosed = any(low <= ord(character) <= high for low, high in ENCLOSED)
    return unicodedata.category(character) in WORD_CATEGORIES or enclosed or character in "\u200c\u200d"


def whole(data):
    """The only character whose UTF-8 these bytes are, if they are that of one."""
    try:
        text = data.decode()
    except UnicodeDecodeError:
        return None
    return text if len(text) == 1 else None


def first_character(data):
    """The character whose UTF-8 is the first one, two, three or four bytes."""
    return next(filter(None, (whole(data[:size]) for size in range(1, 5))), None)


def last_character(data):
    return next(filter(None, (whole(data[-size:]) for size in range(1, 5))), None)


def words(before, after):
    """Whether there is a word character on each side. A side without a whole character has none."""
    sides = last_character(before), first_character(after)
    return [side is not None and is_word(side) for side in sides]


def is_cut(before, after):
    """Whether the bytes on a side are no whole character."""
    return (before and not last_character(before)) or (after and not first_character(after))


# When each assertion holds, given the bytes before an offset and those after it, and the byte that ends lines.
LOOKS = {
    "\\A": lambda before, after, line_end: not before,
    "^": lambda before, after, line_end: not before,
    "\\z": lambda before, after, line_end: not after,
    "$": lambda before, after, line_end: not after,
    "(?m:^)": lambda before, after, line_end: not before or before.endswith(line_end),
    "(?m:$)": lambda before, after, line_end: not after or after.startswith(line_end),
    "\\b": lambda before, after, line_end: sum(words(before, after)) == 1,
    "\\B": lambda before, after, line_end: sum(words(before, after)) != 1 and not is_cut(before, after),
}


# ---- programs


class Program:
    """The nodes of trees, each as its kind, its ordered edges to other nodes, and the slot, the assertion, the set or
    the pattern that it has. A tree's nodes are made after their next nodes. One pattern has only its own nodes;
    several, or none, are below one node with edges to them. The slots of all groups 0 come first, then those of the
    other groups, pattern by pattern."""

    def __init__(self, *trees):
        self.nodes, self.patterns, self.slots = [], [], 2 * len(trees) - 2
        for pattern, tree in enumerate(trees):
            end = self.add("match", [], pattern)
            self.patterns.append(self.noted(2 * pattern, tree, end))
            self.slots += 2 * (len(group_numbers(tree)) - 1)
        self.start = self.patterns[0] if len(trees) == 1 else self.add("pass", self.patterns)

    def add(self, kind, edges, has=None):
        self.nodes.append((kind, edges, has))
        return len(self.nodes) - 1

    def fork(self, into, on, is_greedy):
        """A node with edges into what is repeated and past it; the first is preferred if it is greedy."""
        return self.add("pass", [into, on] if is_greedy else [on, into])

    def noted(self, slot, inside, on):
        """A node that notes the start, the contents, and a node that notes the end."""
        end = self.add("note", [on], slot + 1)
        return self.add("note", [self.code(inside, end)], slot)

    def code(self, tree, on):
        """Adds nodes for a tree from which walks continue to the node `on`. Returns the node that is entered."""
        if isinstance(tree, Set):
            return self.add("set", [on], tree.has)
        if isinstance(tree, Look):
            return self.add("look", [on], LOOKS[tree.text])
        if isinstance(tree, Group):
            return self.noted(self.slots + 2 * tree.number, tree.inside, on)
        if isinstance(tree, Alternation):
            return self.add("pass", [self.code(part, on) for part in tree.parts])
        if isinstance(tree, Concat):
            for part in reversed(tree.parts):
                on = self.code(part, on)
            return on
        if isinstance(tree, Repeat) and tree.most != 0:
            return self.repeat(tree, on)
        return self.add("pass", [on])

    def repeat(self, tree, on):
        """The least number of copies; then optional ones, each inside the one before, or a loop. If what may be empty
        is repeated, `*` is an optional `+`."""
        first, copies = on, tree.least
        if tree.most is not None:
            for _ in range(tree.most - tree.least):
                first = self.fork(self.code(tree.inside, first), on, tree.is_greedy)
        elif tree.least > 0:
            first, copies = self.loop(tree, on)[0], tree.least - 1
        elif may_be_empty(tree.inside):
            first = self.fork(self.loop(tree, on)[0], on, tree.is_greedy)
        else:
            first = self.loop(tree, on)[1]
        for _ in range(copies):
            first = self.code(tree.inside, first)
        return first

    def loop(self, tree, on):
        """A fork into what is repeated and past it, and what is repeated, which leads back to it. Returns the first
        node of what is repeated, and the fork."""
        fork = self.fork(None, on, tree.is_greedy)
        into = self.code(tree.inside, fork)
        edges = self.nodes[fork][1]
        edges[edges.index(None)] = into
        return into, fork


@functools.lru_cache(maxsize=500)
def program_of(*trees):
    return Program(*trees)


# ---- searches


class Search:
    """Searches of a haystack for a tree, or for several, a tuple of them, with a slice, outside of which nothing is
    seen, and a span, in which a match has to be. Both are the whole haystack by default; ends beyond the haystack mean
    its end. Empty matches inside a character are found if `inside` is set, and lines end at the byte `line_end`.
    Matches are anchored to a pattern if its number is given."""

    def __init__(self, tree, content, slice_=None, span=None, is_anchored=False, inside=False, line_end=b"\n",
                 pattern=None):
        self.trees = tree if isinstance(tree, tuple) else (tree,)
        self.program, self.content, self.is_anchored = program_of(*self.trees), content, is_anchored
        self.inside, self.line_end = inside, line_end
        self.slice, self.span = slice_ or (0, len(content)), span or (0, len(content))
        self.low = max(self.slice[0], self.span[0])
        self.high = min(self.slice[1], self.span[1], len(content))
        self.pattern, self.known = pattern, {}
        counts = [len(group_numbers(tree)) - 1 for tree in self.trees]
        starts = itertools.accumulate(counts, initial=len(counts))
        # The first slot of each group, pattern by pattern.
        self.slots = [[2 * number, *range(2 * start, 2 * (start + count), 2)]
                      for number, (start, count) in enumerate(zip(starts, counts))]

    def holds(self, look, place):
        """Whether an assertion holds at an offset, in the haystack cut off at the slice's ends."""
        return look(self.content[self.slice[0] : place], self.content[place : self.slice[1]], self.line_end)

    def least_walk(self, node, place, taken=frozenset()):
        """The least walk from a node at an offset, as where it ends and what it notes, or None. No pair of node and
        offset is taken twice: none of the nodes that were taken at this offset, and a read leads to a further offset,
        where none was. The least walk uses the first edge that some walk continues on."""
        key = node, place, taken
        if key not in self.known:
            self.known[key] = None if node in taken else self.walk_by_edges(node, place, taken | {node})
        return self.known[key]

    def walk_by_edges(self, node, place, taken):
        kind, edges, has = self.program.nodes[node]
        if kind == "match":
            return place, (("pattern", has),)
        if kind == "look" and not self.holds(has, place):
            return None
        if kind == "set":
            character = first_character(self.content[place : self.high])
            is_read = character is not None and has(character)
            return self.least_walk(edges[0], place + len(character.encode())) if is_read else None
        walks = (self.least_walk(edge, place, taken) for edge in edges)
        walk = next((walk for walk in walks if walk), None)
        return (walk[0], ((has, place),) + walk[1]) if walk and kind == "note" else walk

    def walked(self, node, place):
        """The patterns that walks from a node at an offset match, each with where it ends."""
        walked, seen, left = set(), set(), [(node, place)] if self.low <= place <= self.high else []
        while left:
            pair = left.pop()
            if pair not in seen:
                seen.add(pair)
                kind, edges, has = self.program.nodes[pair[0]]
                if kind == "match":
                    walked.add((has, pair[1]))
                left += self.further(kind, edges, has, pair[1])
        return walked

    def ends(self, place):
        """The offsets where walks from the start node at an offset end."""
        return {end for _, end in self.walked(self.program.start, place)}

    def further(self, kind, edges, has, place):
        """The pairs of node and offset to which the edges of a node lead at an offset."""
        if kind == "look" and not self.holds(has, place):
            return []
        if kind == "set":
            character = first_character(self.content[place : self.high])
            is_read = character is not None and has(character)
            return [(edges[0], place + len(character.encode()))] if is_read else []
        return [(edge, place) for edge in edges]

    def counts(self, start, end):
        """Whether a match from a start to an end counts: it isn't empty, or may be empty there."""
        return start != end or self.inside or self.content[start : start + 1] not in CONTINUE

    def find_back(self):
        """The least start of the walks that end where the span ends and count, or None."""
        end = min(self.span[1], len(self.content))
        places = range(self.low, min(end, self.high) + 1)
        return next((place for place in places if end in self.ends(place) and self.counts(place, end)), None)

    def find_backwards(self, pattern=None):
        """Of the walks that end where the span ends and count the least start, then the least pattern, as pattern and
        start, or None. With `pattern` only those of that pattern."""
        if pattern is not None and pattern >= len(self.trees):
            return None
        node = self.program.start if pattern is None else self.program.patterns[pattern]
        end = min(self.span[1], len(self.content))
        for place in range(self.low, min(end, self.high) + 1):
            matched = [matched for matched, last in self.walked(node, place) if last == end]
            if matched and self.counts(place, end):
                return min(matched), place
        return None

    def find_all(self, start, pattern=None):
        """For all matches: of the walks that count, from all offsets from `start` on, or only from that one, the
        greatest end, then the least start, then the least pattern, as pattern, start and end, or None. With `pattern`
        walks start only at that offset, at the pattern's own node."""
        if pattern is not None and pattern >= len(self.trees):
            return None
        is_tied = self.is_anchored or pattern is not None
        node = self.program.start if pattern is None else self.program.patterns[pattern]
        last = min(start, self.high) if is_tied else self.high
        found = [(end, -place, -matched) for place in range(start, last + 1) for matched, end in self.walked(node, place)
                 if self.counts(place, end)]
        end, place, matched = max(found) if found else (None, None, None)
        return (-matched, -place, end) if found else None

    def find(self, start):
        """The least walk of the least start that counts, as its pattern and the offsets in its slots, or None. Starts
        are the offsets from `start` on, or only that one. An empty walk counts at the haystack's end and before a byte
        that continues no character, and anywhere if `inside`. A slot has the offset that was noted last."""
        if self.pattern is not None and self.pattern >= len(self.trees):
            return None
        node = self.program.start if self.pattern is None else self.program.patterns[self.pattern]
        last = min(start, self.high) if self.is_anchored or self.pattern is not None else self.high
        for place in range(start, last + 1):
            walk = self.least_walk(node, place) if place >= self.low else None
            is_inside = self.content[place : place + 1] in CONTINUE
            if walk and (walk[0] != place or self.inside or not is_inside):
                return dict(walk[1])
        return None

    def all_told(self, pattern=None):
        """For all matches, these in order, as `told_from` continues, each as its pattern, its start and its end."""
        found, start, last = [], self.span[0], None
        while True:
            best = self.find_all(start, pattern)
            if best and best[1:] == (last, last):
                best = self.find_all(start + 1, pattern)
            if not best:
                return found
            found.append(best)
            start = last = best[2]

    def matches(self):
        """All matches, each as the spans of its groups, None for one that is absent."""
        return self.matches_from(self.span[0])

    def matches_from(self, start, last=None):
        """Those from an offset on, after one that ended at `last`."""
        return [groups for _, groups in self.told_from(start, last)]

    def told(self):
        """All matches, each as its pattern and the spans of its groups."""
        return self.told_from(self.span[0])

    def told_from(self, start, last=None):
        """Those from an offset on, after one that ended at `last`. A match is the find from the end of the one before,
        or, if that is empty and ends where the one before did, from the next offset."""
        found = []
        while True:
            slots = self.find(start)
            if slots and self.whole(slots) == (last, last):
                slots = self.find(start + 1)
            if not slots:
                return found
            groups = self.slots[slots["pattern"]]
            found.append((slots["pattern"], [(slots[k], slots[k + 1]) if k in slots else None for k in groups]))
            start = last = self.whole(slots)[1]

    def whole(self, slots):
        first = 2 * slots["pattern"]
        return slots[first], slots[first + 1]
