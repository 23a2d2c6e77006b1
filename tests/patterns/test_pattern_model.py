"""The model's parser of patterns, tests/models/pattern_model.py, compared with everything listed elsewhere about patterns,
with its own spelling of the trees that it parses, and with bin/search-driver, over random texts about half of which are
patterns: the tree, the weight, and the matches.
"""
import itertools
import random
import re

from driver import OUTSIDE, TOO_DEEP, TOO_LONG, Settings, about, answers, problems, search
from harness import short, test
from pattern_model import pattern_weight, tree_of
from protocol import WEIGHT_LIMIT, refused_pattern
from random_patterns import Maker
from test_edits import PATTERNS, REFUSED_PATTERNS
from test_patterns import LARGE, MOST, REFUSED, TREES, WEIGHTS, examples, set_of, tree_of as told_tree, tried
from test_regexes import rows
from test_searches import VECTORS, listed
from walks import Empty, Group, Look, Repeat, Search, Set, below, spelled

MANGLED, FOUND_IN_MANGLED = 4_000, 1_000
# The characters for mangling a text: all that have a meaning in some pattern, and some without one.
MARKS = [
    *"\\.+*?()|[]{}^$-&~,:<>=!#/ \n\r", *"imsUxPpdDsSwWbBAzqnrtaku019_é🐸ſ",
    "(?", "(?:", "(?i)", "(?-i)", "(?m:", "(?sU-i:", "(?P<a>", "(?<b>", "\\x", "\\x{", "\\u{e9}", "\\x41", "\\u212a", "\\d",
    "[^", "[]", "[^]", "[-", "-]", "&&", "--", "~~", "a-z", "{2}", "{1,}", "{0,2}", "{3,1}", "{,2}", "{65535}", "*?", "+?",
]
# The number of its ranges depends on the version of Unicode.
LETTER_CLASS = re.compile(r"\\[dwDW]")
LOOKS_OF_PAGE = {"\\A": "Start", "^": "Start", "\\z": "End", "$": "End", "(?m:^)": "StartLine", "(?m:$)": "EndLine"}
LOOKS_OF_PAGE.update({"\\b": "WordUnicode", "\\B": "WordUnicodeNegate"})


def written(tree):
    """A tree as docs/patterns.md writes it."""
    if isinstance(tree, Empty):
        return "Empty"
    if isinstance(tree, Set):
        return set_of(", ".join(map(str, tree.has.ranges)))
    if isinstance(tree, Look):
        return LOOKS_OF_PAGE[tree.text]
    inside = ", ".join(map(written, below(tree)))
    if isinstance(tree, Group):
        return f"Group {tree.number}{' ' + tree.name if tree.name else ''}({inside})"
    if isinstance(tree, Repeat):
        most = "" if tree.most is None else tree.most
        return f"Repeat{{{tree.least},{most}}}{'' if tree.is_greedy else '?'}({inside})"
    return f"{type(tree).__name__}({inside})"


def spelling(pattern):
    """The model's result for a pattern."""
    tree = tree_of(pattern)
    return tree and written(tree)


def wrong_rows():
    """Rows that the model parses differently."""
    for pattern, settings, due in examples() + [(pattern, Settings(), tree) for pattern, tree in TREES]:
        found = spelling(pattern)
        if settings == Settings() and found != (None if due == "outside" else due):
            yield f"{pattern!r} spells {found}, not {due}"
    for pattern in REFUSED:
        if tree_of(pattern):
            yield f"{pattern!r} spells {spelling(pattern)}"
    for patterns, trees, instead in tried():
        for pattern, due in zip(patterns, trees):
            if spelling(pattern) != due:
                yield f"{pattern!r} spells {spelling(pattern)}, not {due}"
        for pattern in instead:
            if tree_of(pattern) is None:
                yield f"{pattern!r}, which is advised, is none"


def wrong_reasons():
    """Patterns that are long, deep or heavy, and that the model refuses differently."""
    for pattern, settings, due in LARGE:
        refused = b"limit" if due == TOO_LONG else b"pattern" if due in (TOO_DEEP, OUTSIDE) else None
        found = refused_pattern(pattern)
        if settings == Settings() and found != refused:
            yield f"{pattern[:40]!r} .. of {len(pattern)} characters is refused with {found}"
    for pattern, weight, _ in WEIGHTS:
        found, refused = min(pattern_weight(pattern), MOST), refused_pattern(pattern)
        if weight is not None and (found != weight or refused != (b"limit" if weight > WEIGHT_LIMIT else None)):
            yield f"{pattern!r} weighs {found}, not {weight}, and is refused with {refused}"


def wrong_searches():
    """Patterns whose matches by the model differ from those listed here and from those of Python's `re`."""
    table = [(row["pattern"], row["haystack"], listed(row["matches"])) for row in rows()]
    for pattern, haystack, due, *how in VECTORS + table:
        is_known = how[1:] in ([], [False]) and not (how and isinstance(how[0][2], int) and how[0][2] > 1)
        if is_known and refused_pattern(pattern) is None:
            found = listed(Search(tree_of(pattern), haystack.encode(), *(how[0] if how else ())).matches())
            if found != due:
                yield f"{pattern[:70]!r} in {haystack!r}: {found}, not {due}"


def mangled(chance, maker):
    """A text that may be a pattern: a pattern with some of it removed, doubled or inserted."""
    pick = chance.random()
    text = spelled(maker.tree()) if pick < 0.4 else chance.choice(PATTERNS + REFUSED_PATTERNS) if pick < 0.7 else ""
    if not text:
        text = "".join(chance.choice(MARKS) for _ in range(chance.randint(1, 8)))
    for _ in range(chance.choice((0, 1, 1, 2, 3))):
        first, last = sorted(chance.randint(0, len(text)) for _ in range(2))
        last = min(last, first + 3)
        middle = chance.choice(("", text[first:last] * 2, chance.choice(MARKS), chance.choice(MARKS)))
        text = text[:first] + middle + text[last:]
    return text


def wrong_trees(texts):
    """Texts for which the program has another tree than the model, or another weight, though there is no letter
    class."""
    told, wrong = answers([about("parse", text) for text in texts])
    weighed, more_wrong = answers([about("weigh", text) for text in texts])
    for text, answer, weight in zip(texts, told, weighed):
        is_refused = answer in (OUTSIDE, TOO_DEEP)
        found = None if is_refused else told_tree(answer)
        if found != spelling(text) or (found is None and not is_refused):
            wrong.append(f"{text!r} spells {spelling(text)}, and the program reads {found}: {short(answer.encode())}")
        elif found and not LETTER_CLASS.search(text) and int(weight.split(" ")[1]) != min(pattern_weight(text), MOST):
            wrong.append(f"{text!r} weighs {pattern_weight(text)}, and by the program {weight}")
    return wrong + more_wrong


def searches_for(chance, maker, texts):
    """Searches for texts that are patterns of small weight."""
    for text in texts:
        tree = tree_of(text)
        if tree and pattern_weight(text) < 3_000:
            haystack = maker.haystack(tree).encode()
            yield search(text, haystack, listed(Search(tree, haystack).matches()), chance.choice((0, 1, 3)))


def test_all():
    test("the model parses the listed patterns", wrong_rows())
    test("the model refuses patterns that are long, deep or heavy", wrong_reasons())
    test("the model finds the listed matches", wrong_searches())
    chance = random.Random(17)
    maker = Maker(chance, most_nodes=40)
    texts = [mangled(chance, maker) for _ in range(MANGLED)]
    patterns = [text for text in texts if tree_of(text)]
    name = f"{len(texts)} texts at random, {len(patterns)} of them patterns, as the program reads them"
    test(name, wrong_trees(texts))
    cases = list(itertools.islice(searches_for(chance, maker, patterns), FOUND_IN_MANGLED))
    test(f"{len(cases)} searches for such patterns", problems(cases))
