#!/usr/bin/env python3
"""Makes the table of searches in tests/models/searches.jsonl.

    tests/models/make_searches.py COUNT > tests/models/searches.jsonl

Each line has a pattern, a haystack, and all matches that Python's re finds, each as the spans of its groups in bytes,
null for one that is absent. The two semantics agree if nothing that may be empty is repeated, so the patterns repeat no
such thing. `$` and `\\z` are `\\Z` for re, because its `$` also matches before a last line feed. The model of
tests/models/walks.py has to find the same in each case, otherwise no table is made. The table depends only on COUNT.
"""
import json
import random
import re
import sys

from random_patterns import Maker
from walks import Group, Look, Repeat, Search, below, spelled

IN_RE = {"$": "\\Z", "\\z": "\\Z"}


def found_by_re(tree, haystack):
    """All matches. Each is searched for from the end of the one before, or one character further on if that finds an
    empty match there."""
    compiled = re.compile(spelled(tree, IN_RE))
    places = [len(haystack[:index].encode()) for index in range(len(haystack) + 1)]
    matches, found = [], compiled.search(haystack)
    while found:
        spans = map(found.span, range(compiled.groups + 1))
        matches.append([None if start < 0 else [places[start], places[end]] for start, end in spans])
        last = found.end()
        found = compiled.search(haystack, last)
        if found and found.span() == (last, last):
            found = compiled.search(haystack, last + 1) if last < len(haystack) else None
    return matches


def found_by_model(tree, haystack):
    matches = Search(tree, haystack.encode()).matches()
    return [[span and list(span) for span in groups] for groups in matches]


def within(tree):
    """A tree and all subtrees."""
    yield tree
    for part in below(tree):
        yield from within(part)


def worth(tree, haystack, matches):
    """The number of features worth testing that a case has."""
    trees = list(within(tree))
    repeats = [part for part in trees if isinstance(part, Repeat)]
    return sum(
        [
            2 * any(start < end for start, end in (groups[0] for groups in matches)),
            any(isinstance(part, Group) for part in trees),
            any(not part.is_greedy for part in repeats),
            any(isinstance(inner, Repeat) for part in repeats for inner in within(part.inside)),
            any(isinstance(part, Look) for part in trees),
            not haystack.isascii(),
        ]
    )


def cases(count):
    maker, made = Maker(random.Random(13), repeats_empty=False, most_nodes=40), set()
    while len(made) < count:
        tree = maker.tree()
        pattern, haystack = spelled(tree), maker.haystack(tree)
        # For re `\B` fails in an empty text.
        if (pattern, haystack) in made or not haystack:
            continue
        matches = found_by_re(tree, haystack)
        if matches != found_by_model(tree, haystack):
            raise SystemExit(f"{pattern!r} in {haystack!r}: re finds {matches}, the model another list")
        if worth(tree, haystack, matches) >= maker.random.choice([2, 5, 5, 6, 6]):
            made.add((pattern, haystack))
            yield {"pattern": pattern, "haystack": haystack, "matches": matches}


def main():
    for case in cases(int(sys.argv[1])):
        print(json.dumps(case, ensure_ascii=False))


if __name__ == "__main__":
    main()
