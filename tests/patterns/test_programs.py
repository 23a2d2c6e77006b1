"""The programs of patterns, on bin/search-driver: their states, the limits that they exceed, and that each refused
request for memory is reported."""
import re

from driver import OUTSIDE, PROGRAM_WANT, TOO_DEEP, Settings, about, answers, check_memory
from harness import short, test
from memory import library

# The states of patterns, in the program's table: notes of slots (@), sets with the number of their ranges, forks (|),
# assertions, the end, and `-` for a state that does nothing; each with the numbers of its next states.
STATES = [
    ("", "@0 1, - 2, @1 3, end 0"),
    ("[ac]", "@0 1, set2 2, @1 3, end 0"),
    ("(?m)^$\\A\\z\\b\\B", "@0 1, m^ 2, m$ 3, ^ 4, $ 5, b 6, B 7, @1 8, end 0"),
    ("(a)", "@0 1, @2 2, set1 3, @3 4, @1 5, end 0"),
    ("(a)|b", "@0 1, | 2 5, @2 3, set1 4, @3 6, set1 6, @1 7, end 0"),
    ("a|b|cd", "@0 1, | 2 3 4, set1 6, set1 6, set1 5, set1 6, @1 7, end 0"),
    ("a{0}", "@0 1, - 2, @1 3, end 0"),
    ("a?", "@0 1, | 2 3, set1 3, @1 4, end 0"),
    ("a??", "@0 1, | 3 2, set1 3, @1 4, end 0"),
    ("a{2}", "@0 1, set1 2, set1 3, @1 4, end 0"),
    ("a{1,3}", "@0 1, set1 2, | 3 6, set1 4, | 5 6, set1 6, @1 7, end 0"),
    ("a*", "@0 1, | 2 3, set1 1, @1 4, end 0"),
    ("a*?", "@0 1, | 3 2, set1 1, @1 4, end 0"),
    ("(?:a*)*", "@0 1, | 2 5, | 3 4, set1 2, | 2 5, @1 6, end 0"),
    ("a+", "@0 1, set1 2, | 1 3, @1 4, end 0"),
    ("a{3,}?", "@0 1, set1 2, set1 3, set1 4, | 5 3, @1 6, end 0"),
    ("(?:ab|c)+", "@0 1, | 2 4, set1 3, set1 5, set1 5, | 1 6, @1 7, end 0"),
]

# The least limits with which patterns are compiled, and their numbers of states.
LEAST_LIMITS = [
    ("", 160, 4),
    ("a", 200, 4),
    ("(a)|b", 400, 8),
    ("[a-c]{2,4}", 520, 9),
    ("(?:a*)*", 320, 7),
    (".", 240, 4),
    ("a{65535}{65535}{0}", 160, 4),
    ("^a{65535}a{65535}", 10_485_760, 131_074),
]
HIGHEST = 85_899_345_840  # the limit if none is given: a weight of 2,147,483,646
# Patterns, limits (None: no limit is given), and the number of states, or the limit that the pattern exceeds.
LIMITS = [
    ("a{65535}{65535}", None, f"above {HIGHEST}"),
    ("a{65535}", None, "65538"),
    # The greatest possible weight: it is far above any limit, and saturates.
    ("a" + "{65535}" * 200, 0, "above 0"),
    ("a" + "{65535}" * 200, 2**64 - 1, f"above {2**64 - 1}"),
    ("a" + "{65535}" * 200, None, f"above {HIGHEST}"),
    ("(?:\\w{1,50} ){1,20}", None, "2022"),
    ("(a", None, OUTSIDE),
    ("(" * 251 + ")" * 251, None, TOO_DEEP),
]

# Patterns whose states share an automaton exactly if they read characters of one set.
SHARING = "cabz[a-c]\\wbZ\\W[c]a[a-b]za.\\w[a-c]"
MANY_LETTERS = "(?:\\w{1,50} ){1,20}"

# Each has its requests for memory refused in turn.
IN_NEED = ["a", "(a)|b|c*?|", "[a-c]{2,4}(?:a|é){0}\\b", "(?m)^(?:a*)*?b+$", ".[^a]."]


def wrong_states():
    """What is wrong with the states of patterns, whatever automata they share."""
    told, wrong = answers([about("compile", pattern) for pattern, _ in STATES])
    for (pattern, due), answer in zip(STATES, told):
        found = re.sub(r"(set\d+) of \d+", r"\1", answer)
        if found != due:
            wrong.append(f"{pattern!r}: {found}, not {due}")
    return wrong


def limits():
    """Each least limit, one that is one less, and the limits listed here; for programs, the number of states."""
    for pattern, limit, count in LEAST_LIMITS:
        yield about("compile", pattern, str(count), Settings(), limit)
        yield about("compile", pattern, f"above {limit - 1}", Settings(), limit - 1)
    for pattern, limit, answer in LIMITS:
        yield about("compile", pattern, answer, Settings(), limit)


def wrong_limits(cases):
    """What is wrong with the answers to these cases, in which the states of a program are counted."""
    told, wrong = answers(cases)
    for case, answer in zip(cases, told):
        found = str(len(answer.split(", "))) if answer.startswith("@") else answer
        if found != case.answer:
            wrong.append(f"{case.name}: {short(found.encode())}, not {case.answer}")
    return wrong


def wrong_sharing():
    """What is wrong with which states share an automaton, in a sequence of sets with each set several times."""
    cases = [about("parse", SHARING), about("compile", SHARING), about("compile", MANY_LETTERS)]
    (tree, states, many), wrong = answers(cases)
    sets = re.findall(r"Set\(CharacterSet \{ ranges: \[(.*?)\] \}\)", tree)
    shared = re.findall(r"set\d+ of (\d+)", states)
    due = [str(1 + sets.index(ranges)) for ranges in sets]
    if shared != due:
        wrong.append(f"{SHARING!r} has automata of {shared}, not of {due}")
    if len(set(re.findall(r"set\d+ of (\d+)", many))) != 2:
        wrong.append(f"{MANY_LETTERS!r} has not two automata: {short(many.encode())}")
    return wrong


def test_all():
    test(f"the programs of {len(STATES)} patterns", wrong_states())
    rows = list(limits())
    test(f"{len(rows)} patterns under limits of their size", wrong_limits(rows))
    test("states share an automaton exactly where they read one set", wrong_sharing())
    if library() is not None:
        for pattern in IN_NEED:
            check_memory(about("compile", pattern), [PROGRAM_WANT])
