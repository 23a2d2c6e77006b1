"""A plain parser of patterns, by the grammar of docs/patterns.md: the tree that a pattern spells, or that it is outside
the grammar, and its weight; and its matches in a text, by the walks of tests/models/walks.py. It shares nothing with the
engine, and nothing with Python's `re`, whose patterns differ.
"""
import bisect
import functools
import re

from walks import Alternation, Concat, Empty, Group, Look, Repeat, Search, Set
from walks import is_digit, is_space, is_word, may_be_empty

NEST_LIMIT = 250  # the limit on the nesting of groups and repetitions
MOST_TIMES = 65_535  # the greatest number of a repetition
SCALARS = 0x10F800  # the number of scalar values
LAST = 0x10FFFF

NAME = r"P?<(?P<name>[A-Za-z_][A-Za-z0-9_]*)>"
FLAGS = r"(?P<on>[imsU]*)(?:-(?P<off>[imsU]+))?(?P<end>[:)])"
HEAD = re.compile(rf"\((?:(?!\?)|\?(?:{NAME}|{FLAGS}))")  # of a group, or a setting
POSTFIX = re.compile(r"(?:([*+?])|\{([0-9]+)(,?)([0-9]*)\})(\??)")
HEX = "[0-9A-Fa-f]"
ESCAPE = re.compile(rf"\\(?:x({HEX}{{2}})|u({HEX}{{4}})|[xu]\{{({HEX}{{1,8}})\}}|(.))", re.DOTALL)
SHORT_COUNTS = {"*": (0, None), "+": (1, None), "?": (0, 1)}
CONTROLS = {"a": "\a", "f": "\f", "t": "\t", "n": "\n", "r": "\r", "v": "\v"}
ESCAPED_LOOKS = ("A", "z", "b", "B")
CLASSES = {"d": is_digit, "s": is_space, "w": is_word}


class Outside(Exception):
    """The pattern is outside the grammar."""


# ---- sets of characters


def ordinal(code):
    """The number of a scalar value, not counting surrogates."""
    return code - 0x800 if code > 0xDFFF else code


def every_character():
    return map(chr, (*range(0xD800), *range(0xE000, LAST + 1)))


@functools.lru_cache(maxsize=None)
def folded_alike():
    """The characters that share a simple case folding, if there are at least two, as ordinals."""
    alike = {}
    for c in every_character():
        folded = next((text for text in (c.casefold(), c.lower()) if len(text) == 1), c)
        if folded != c:
            alike.setdefault(folded, {ordinal(ord(folded))}).add(ordinal(ord(c)))
    return list(alike.values())


class Members:
    """A set of characters, as its maximal ranges of ordinals."""

    def __init__(self, ranges):
        self.ranges = []
        for low, high in sorted(ranges):
            if self.ranges and low <= self.ranges[-1][1] + 1:
                self.ranges[-1] = (self.ranges[-1][0], max(high, self.ranges[-1][1]))
            else:
                self.ranges.append((low, high))
        self.starts = [low for low, _ in self.ranges]

    def holds(self, number):
        at = bisect.bisect_right(self.starts, number) - 1
        return at >= 0 and number <= self.ranges[at][1]

    def __call__(self, character):
        return self.holds(ordinal(ord(character)))

    def others(self):
        """All characters that aren't in the set."""
        ends = [-1] + [high for _, high in self.ranges]
        return Members((end + 1, low - 1) for end, low in zip(ends, self.starts + [SCALARS]) if end + 1 < low)

    def folded(self):
        """All characters with the simple case folding of one in the set."""
        alike = (numbers for numbers in folded_alike() if any(map(self.holds, numbers)))
        return Members(self.ranges + [(number, number) for numbers in alike for number in numbers])


def spread(low, high):
    """The characters of a range."""
    return Members([(ordinal(ord(low)), ordinal(ord(high)))])


@functools.lru_cache(maxsize=1_000)
def in_each_case(c):
    """A character and those with the same folding."""
    return spread(c, c).folded()


@functools.lru_cache(maxsize=None)
def letter_class(letter):
    """The set of `\\d`, `\\s`, `\\w` or of one with a capital letter."""
    if letter.isupper():
        return letter_class(letter.lower()).others()
    numbers = (ordinal(ord(c)) for c in filter(CLASSES[letter], every_character()))
    return Members((number, number) for number in numbers)


# ---- reading


def changed(flags, head):
    """The flags that are on after the head of a setting, or in a group with flags."""
    on, off = head["on"], head["off"] or ""
    letters = on + off
    if len(set(letters)) < len(letters) or (head["end"] == ")" and not letters):
        raise Outside
    return (flags | set(on)) - set(off)


def number_of(digits):
    digits = digits.lstrip("0") or "0"
    if len(digits) > 5 or int(digits) > MOST_TIMES:
        raise Outside
    return int(digits)


class Reader:
    """Parses a pattern from its start. Methods that parse a tree also return its nesting depth."""

    def __init__(self, text):
        self.text, self.at, self.groups, self.names = text, 0, 0, set()

    def whole(self):
        tree, _ = self.branches(frozenset(), 0)
        if self.at < len(self.text):
            raise Outside
        return tree

    def begins(self, front):
        return self.text.startswith(front, self.at)

    def eat(self, front):
        found = self.begins(front)
        self.at += len(front) if found else 0
        return found

    def take(self, form):
        """Consumes text of this form, which must follow."""
        found = form.match(self.text, self.at)
        if not found:
            raise Outside
        self.at = found.end()
        return found

    def branches(self, flags, level):
        """Branches separated by bars, up to a `)` or the end, with this number of groups before. A setting applies in
        the branches that follow."""
        rows, depth, is_over = [], 0, False
        while not is_over:
            row, deep, flags = self.row(flags, level)
            rows.append(row)
            depth, is_over = max(depth, deep), not self.eat("|")
        return (Alternation(tuple(rows)) if len(rows) > 1 else rows[0]), depth

    def row(self, flags, level):
        """A sequence of items, and the flags that are on after it."""
        items, depth = [], 0
        while self.at < len(self.text) and self.text[self.at] not in "|)":
            if self.begins("("):
                head = self.take(HEAD)
                if head["end"] == ")":
                    flags = changed(flags, head)
                    continue
                atom = self.group(head, flags, level)
            else:
                atom = self.atom(flags), 0
            item, deep = self.repeated(*atom, flags)
            items.append(item)
            depth = max(depth, deep)
        return (Concat(tuple(items)) if len(items) > 1 else items[0] if items else Empty()), depth, flags

    def group(self, head, flags, level):
        """The contents of a group after its head, up to its `)`."""
        number, name = None, head["name"]
        if head["end"]:
            flags = changed(flags, head)
        else:
            self.groups += 1
            number = self.groups
        if level == NEST_LIMIT or name in self.names:
            raise Outside
        self.names |= {name} - {None}
        inside, depth = self.branches(flags, level + 1)
        if not self.eat(")") or depth == NEST_LIMIT:
            raise Outside
        return (inside if number is None else Group(number, inside, name)), depth + 1

    def repeated(self, tree, depth, flags):
        """The tree with all repetitions that follow it."""
        while self.at < len(self.text) and self.text[self.at] in "*+?{":
            sign, low, comma, high, mark = self.take(POSTFIX).groups()
            if sign:
                least, most = SHORT_COUNTS[sign]
            else:
                least = number_of(low)
                most = number_of(high) if high else None if comma else least
            if depth == NEST_LIMIT or (most is not None and most < least):
                raise Outside
            tree, depth = Repeat(tree, least, most, ("U" in flags) == (mark == "?")), depth + 1
        return tree, depth

    def atom(self, flags):
        """An atom that is no group."""
        start, c = self.at, self.text[self.at]
        if c in "*+?{":
            raise Outside
        if c in "^$":
            self.at += 1
            return Look(f"(?m:{c})" if "m" in flags else c)
        if c == "[":
            members = self.class_members("i" in flags)
        elif c == "\\":
            members = self.escape()
            if isinstance(members, Look):
                return members
            if isinstance(members, str):
                members = self.alone(members, flags)
        else:
            self.at += 1
            members = self.dot(flags) if c == "." else self.alone(c, flags)
        letters = "".join(sorted(flags & set("is")))
        spelling = self.text[start : self.at]
        return Set(f"(?{letters}:{spelling})" if letters else spelling, members)

    def alone(self, c, flags):
        """One character, under `i` with those of the same folding."""
        return in_each_case(c) if "i" in flags else spread(c, c)

    def dot(self, flags):
        return Members([(0, SCALARS - 1)]) if "s" in flags else spread("\n", "\n").others()

    def escape(self):
        """An escape: an assertion, the members of a letter class, or the escaped character."""
        *digits, letter = self.take(ESCAPE).groups()
        code = next((int(number, 16) for number in digits if number), None)
        if code is not None:
            if code > LAST or 0xD800 <= code < 0xE000:
                raise Outside
            return chr(code)
        if letter in ESCAPED_LOOKS:
            return Look("\\" + letter)
        if letter in "dDsSwW":
            return letter_class(letter)
        if letter in CONTROLS:
            return CONTROLS[letter]
        if not letter.isascii() or letter.isalnum() or letter in "<>":
            raise Outside
        return letter

    def class_members(self, folds):
        """The set of a bracketed class."""
        self.eat("[")
        is_negated = self.eat("^")
        ranges = self.class_ranges()
        members = Members(ranges).folded() if folds else Members(ranges)
        return members.others() if is_negated else members

    def class_ranges(self):
        """The ranges of the items of a class, up to its end."""
        ranges = []
        if self.eat("]"):
            ranges += spread("]", "]").ranges
        elif self.begins("-") and not self.begins("--"):
            self.at += 1
            ranges += spread("-", "-").ranges
        while not self.eat("]"):
            ranges += spread("-", "-").ranges if self.begins("-]") and self.eat("-") else self.class_item().ranges
        return ranges

    def class_item(self):
        """An item of a class: a letter class, a character, or a range."""
        low = self.class_end()
        if isinstance(low, Members):
            return low
        if not self.begins("-") or self.begins("-]"):
            return spread(low, low)
        self.at += 1
        high = self.class_end()
        if isinstance(high, Members) or high < low:
            raise Outside
        return spread(low, high)

    def class_end(self):
        """A letter class, or a character, which may be an end of a range."""
        if self.begins("\\"):
            found = self.escape()
            if isinstance(found, Look):
                raise Outside
            return found
        c = self.text[self.at : self.at + 1]
        if not c or c in "[]-" or (c in "&~" and self.begins(c + c)):
            raise Outside
        self.at += 1
        return c


@functools.lru_cache(maxsize=5_000)
def tree_of(pattern):
    """The tree that a pattern spells, or None if it is outside the grammar."""
    try:
        return Reader(pattern).whole()
    except Outside:
        return None


# ---- weights


def repeated_weight(tree):
    """The weight of the copies of a repetition."""
    weight, least, most = weight_of(tree.inside), tree.least, tree.most
    if most == 0:
        return 1
    if most is not None:
        return least * weight + (most - least) * (1 + weight)
    if least > 0:
        return least * weight + 1
    return weight + (2 if may_be_empty(tree.inside) else 1)


def weight_of(tree):
    """The weight of a tree: the number of nodes of its program, and of the ranges of its sets."""
    if isinstance(tree, Set):
        return 1 + len(tree.has.ranges)
    if isinstance(tree, Group):
        return 2 + weight_of(tree.inside)
    if isinstance(tree, Repeat):
        return repeated_weight(tree)
    if isinstance(tree, (Concat, Alternation)):
        return isinstance(tree, Alternation) + sum(map(weight_of, tree.parts))
    return 1


@functools.lru_cache(maxsize=5_000)
def pattern_weight(pattern):
    """The weight of a pattern in the grammar: of its tree, the group of the whole match, and the end. The number of
    ranges of letter classes is that of Python's version of Unicode, and may be greater in that of the program."""
    return 3 + weight_of(tree_of(pattern))


# ---- what is found


def is_literal(pattern):
    """Whether a pattern is a literal text, which is searched for as one."""
    return bool(pattern) and not set(pattern) & set("\\.+*?()|[{^$")


def occurrences(literal, text):
    """The offsets of a literal in a text, each searched for from the end of the one before."""
    at = text.find(literal)
    while at >= 0:
        yield at
        at = text.find(literal, at + len(literal))


@functools.lru_cache(maxsize=1_000)
def search_in(pattern, text):
    """Searches of a whole text for a pattern, from any offset on."""
    return Search(tree_of(pattern), text.encode())


def in_characters(text, span):
    """A span of offsets in UTF-8, as offsets in characters."""
    data = text.encode()
    return tuple(len(data[:place].decode()) for place in span)


@functools.lru_cache(maxsize=50_000)
def matches(pattern, text):
    """The matches of a pattern in a text, as pairs of offsets in characters."""
    if is_literal(pattern):
        return [(start, start + len(pattern)) for start in occurrences(pattern, text)]
    return [in_characters(text, groups[0]) for groups in search_in(pattern, text).matches()]


@functools.lru_cache(maxsize=1_000)
def matches_with_groups(pattern, text):
    """The matches of a pattern in a text, each as the spans of its groups in the text's UTF-8, from group 0 on, None
    for an absent one."""
    if is_literal(pattern):
        return [[(start, start + len(pattern.encode()))] for start in occurrences(pattern.encode(), text.encode())]
    return search_in(pattern, text).matches()


def match_from(pattern, text, place):
    """The first match in a text that starts at an offset or after it, or None."""
    if is_literal(pattern):
        start = text.find(pattern, place)
        return (start, start + len(pattern)) if start >= 0 else None
    slots = search_in(pattern, text).find(len(text[:place].encode()))
    return slots and in_characters(text, (slots[0], slots[1]))
