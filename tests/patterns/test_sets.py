"""The sets of patterns, and the automata that read them, on bin/search-driver: the sets as they are printed, and
searches in every scalar value, in bytes with each first and second byte, and in random bytes, most of which are no
UTF-8.

The matches of a set are compared with the ranges that the pattern spells, with the characters from Python's own UTF-8
decoder; and the ranges with Python's properties of the scalar values that its version of Unicode has.
"""
import itertools
import re
import unicodedata

from driver import EVERY_CHARACTER, NO_MEMORY, Case, Settings
from driver import about, answers, check_memory, line_of, problems, search, written
from harness import short, test
from walks import is_digit, is_space, is_word

LAST = 0x10FFFF
RANGES = re.compile(r"\((\d+), (\d+)\)")
SEPARATOR = b"\n"

# Sets as ranges of code points. U+212A is the kelvin sign, and U+017F the long s.
KELVINS, LONG_S = [(0x4B, 0x4B), (0x6B, 0x6B), (0x212A, 0x212A)], [(0x53, 0x53), (0x73, 0x73), (0x17F, 0x17F)]
SPACES = [(0x9, 0xD), (0x20, 0x20), (0x85, 0x85), (0xA0, 0xA0), (0x1680, 0x1680), (0x2000, 0x200A), (0x2028, 0x2029)]
SPACES += [(0x202F, 0x202F), (0x205F, 0x205F), (0x3000, 0x3000)]
SETS = [
    ("[\\x05-\\x07\\x00-\\x02\\x03\\x06]", [(0, 3), (5, 7)]),
    ("[^\\x05-\\x07\\x00-\\x02\\x03\\x06]", [(4, 4), (8, LAST)]),
    ("[^\\s\\S]", []),
    ("[\\s\\S]", [(0, LAST)]),
    ("(?s).", [(0, LAST)]),
    (".", [(0, 9), (11, LAST)]),
    ("[\\x{D7FF}-\\x{E000}]", [(0xD7FF, 0xE000)]),
    ("\\x{D7FF}", [(0xD7FF, 0xD7FF)]),
    ("[\\x{E000}\\x{10FFFF}]", [(0xE000, 0xE000), (LAST, LAST)]),
    ("k", [(0x6B, 0x6B)]),
    ("(?i)k", KELVINS),
    ("(?i)[k]", KELVINS),
    ("(?i)s", LONG_S),
    ("(?i)\\x{17F}", LONG_S),
    ("(?i)1", [(0x31, 0x31)]),
    ("(?i)[a-z]", [(0x41, 0x5A), (0x61, 0x7A), (0x17F, 0x17F), (0x212A, 0x212A)]),
    ("\\s", SPACES),
]
# Members and non-members of sets, among the characters given.
MEMBERS = [
    ("[\\s]", "\t\n\x0b\x0c\r \x85\u3000", "a\u200b"),
    ("\\d", "0123456789\U0001fbf9", "/:a"),
    ("\\w", "\u200d_é7", "-"),
    ("\\W", "-", "\u200d_é7"),
    ("[k\\da-f]", "k7d", "Kg"),
    ("(?i)[^k]", "j", "kK\u212a"),
    ("(?i)[\\w]", "k", "-"),
    ("(?i)[^\\w-]", "+", "-k"),
    ("(?i)[^a-f\\d]", "x", "7D"),
]

# Sets that are searched for in every scalar value, by runs of members, and Python's property of a character.
JUDGED = [
    ("\\w", is_word),
    ("\\W", lambda c: not is_word(c)),
    ("\\d", is_digit),
    ("\\D", lambda c: not is_digit(c)),
    ("\\s", is_space),
    ("\\S", lambda c: not is_space(c)),
    (".", lambda c: c != "\n"),
    ("(?s:.)", lambda c: True),
    ("[^a]", lambda c: c != "a"),
    ("[\\x{D7FF}-\\x{E000}]", lambda c: c in "\ud7ff\ue000"),
    ("[é-せ]", lambda c: "é" <= c <= "せ"),
    ("(?i:k)", lambda c: c in "kK\u212a"),
    ("[^\\s\\S]", lambda c: False),
]
PATTERNS = [pattern for pattern, _ in JUDGED]
# Sets each member of which is searched for separately, also in bytes that are no UTF-8.
SINGLE = ["\\w", "\\W", ".", "(?s:.)", "[^a]", "[\\x{D7FF}-\\x{E000}]"]

# The number of states and ranges of bytes of a set's automaton, and of its reverse, from a plain subset construction,
# which tries each byte for each set of states.
SIZES = [
    ("a", "4 4 4 4"),
    ("é", "5 5 5 7"),
    (".", "8 17 6 15"),
    ("[^a]", "8 17 6 15"),
    ("(?s:.)", "8 16 6 14"),
    ("(?i:k)", "6 8 6 12"),
    ("[é-せ]", "8 13 8 21"),
    ("[\\x{D7FF}-\\x{E000}]", "8 9 8 14"),
]

EVERY = "".join(map(chr, [*range(0xD800), *range(0xE000, LAST + 1)]))
KNOWN = [c for c in EVERY if unicodedata.category(c) != "Cn"]


def offsets(text):
    """The offsets in UTF-8 of the characters of a text, in which a byte that is none is a surrogate, and of its end."""
    places, at = [0], 0
    for character in text:
        code = ord(character)
        at += 1 if code < 0x80 or 0xDC80 <= code <= 0xDCFF else 2 if code < 0x800 else 3 if code < 0x10000 else 4
        places.append(at)
    return places


def code_points(answer):
    """The ranges of the only set in an answer to `parse`, which numbers scalar values without surrogates."""

    def code(number):
        return number + (0x800 if number >= 0xD800 else 0)

    found = re.search(r"nodes: \[Set\(CharacterSet \{ ranges: \[(.*?)\] \}\)\]", answer)
    return [(code(int(low)), code(int(high))) for low, high in RANGES.findall(found[1])] if found else None


def members_of(ranges):
    """A 1 for each code point in the ranges that is no surrogate, and a 0 for each other one."""
    members = bytearray(LAST + 1)
    for low, high in ranges or []:
        members[low : high + 1] = b"\1" * (high + 1 - low)
    members[0xD800:0xE000] = bytes(0x800)
    return members


def wrong_sets():
    """What is wrong with the sets that are printed, and with those whose members are given."""
    told, wrong = answers([about("parse", pattern) for pattern, _ in SETS])
    for (pattern, ranges), answer in zip(SETS, told):
        if code_points(answer) != ranges:
            wrong.append(f"{pattern!r} spells {short(answer.encode())}")
    told, more_wrong = answers([about("parse", pattern) for pattern, _, _ in MEMBERS])
    for (pattern, members, others), answer in zip(MEMBERS, told):
        found = members_of(code_points(answer))
        wrong += [f"{pattern!r} and {c!r}" for c in members + others if found[ord(c)] != (c in members)]
    return wrong + more_wrong


def wrong_judgements(pattern, ranges, has):
    """Where Python's property differs, for the scalar values that its version of Unicode has."""
    members = members_of(ranges)
    for c in KNOWN:
        if members[ord(c)] != has(c):
            yield f"{pattern!r} and {c!r} (U+{ord(c):04X})"


def difference(case, answer, due):
    """What is wrong with a long answer: where it first differs."""
    if answer != due:
        found, wanted = answer.split(" "), due.split(" ")
        alike = itertools.takewhile(lambda pair: pair[0] == pair[1], zip(found, wanted))
        at = sum(1 for _ in alike)
        yield f"{case.name}: {found[at : at + 3]}, not {wanted[at : at + 3]}, as match {at}"


def wrong_runs():
    """What is wrong with runs of members among all scalar values, which are the set's maximal ranges."""
    places, count = offsets(EVERY), len(JUDGED)
    index = {code: at for at, code in enumerate(map(ord, EVERY))}
    spelled, wrong = answers([about("parse", pattern) for pattern, _ in JUDGED])
    cases = [search(f"(?:{pattern})+", EVERY_CHARACTER) for pattern, _ in JUDGED]
    told, more_wrong = answers(cases)
    for number in range(count):
        (pattern, has), ranges = JUDGED[number], code_points(spelled[number]) or []
        due = " ".join(f"{places[index[low]]}-{places[index[high] + 1]}" for low, high in ranges)
        wrong += [*difference(cases[number], told[number], due), *wrong_judgements(pattern, ranges, has)]
    return wrong + more_wrong


def matches_due(text, places, ranges):
    """The expected matches of a set in a text with these offsets. A byte that is no UTF-8 is a surrogate there."""
    members = members_of(ranges)
    return " ".join(f"{places[at]}-{places[at + 1]}" for at, c in enumerate(text) if members[ord(c)])


def wrong_singles(haystack):
    """What is wrong with members that are searched for one by one, in every scalar value or in these bytes."""
    text = EVERY if haystack == EVERY_CHARACTER else haystack.decode("utf-8", "surrogateescape")
    places = offsets(text)
    spelled, wrong = answers([about("parse", pattern) for pattern in SINGLE])
    cases = [search(pattern, haystack) for pattern in SINGLE]
    told, more_wrong = answers(cases)
    for case, answer, ranges in zip(cases, told, map(code_points, spelled)):
        wrong += difference(case, answer, matches_due(text, places, ranges))
    return wrong + more_wrong


def read_back(pattern, haystack):
    """A case of a set that is read backward from each offset of every scalar value, or of these bytes."""
    told = haystack if haystack == EVERY_CHARACTER else haystack.hex()
    return Case(f"{pattern!r} back", line_of("back", written(pattern), *Settings().fields(), None, told))


def wrong_back(patterns, haystack):
    """What is wrong with sets that are read backward: from each offset the member whose UTF-8 ends there is read."""
    text = EVERY if haystack == EVERY_CHARACTER else haystack.decode("utf-8", "surrogateescape")
    places = offsets(text)
    lens = [b"%d" % (end - start) for start, end in zip(places, places[1:])]
    spelled, wrong = answers([about("parse", pattern) for pattern in patterns])
    cases = [read_back(pattern, haystack) for pattern in patterns]
    told, more_wrong = answers(cases)
    for case, answer, ranges in zip(cases, told, map(code_points, spelled)):
        members, due = members_of(ranges), bytearray(b"0" * (places[-1] + 1))
        for c, end, length in zip(text, places[1:], lens):
            if members[ord(c)]:
                due[end : end + 1] = length
        if answer.encode() != due:
            at = next(at for at, (digit, wanted) in enumerate(zip(answer.encode() + b"?", due)) if digit != wanted)
            wrong.append(f"{case.name}: {answer[at : at + 9]}, not {due[at : at + 9].decode()}, at byte {at}")
    return wrong + more_wrong


def cut_and_changed():
    """Each scalar value's UTF-8 without its first byte, and with a byte changed, in turn; separated by line feeds."""
    rows = []
    for c in EVERY:
        spelling, code = c.encode(), ord(c)
        changed = bytearray(spelling)
        changed[code % len(spelling)] = (changed[code % len(spelling)] + code // 4 % 255 + 1) % 256
        rows += [spelling[1:], bytes(changed)]
    return SEPARATOR.join(rows)


def first_and_second_bytes():
    """Bytes with each first and second byte, separated by line feeds."""
    thirds = [0x7F, 0x80, 0xBF, 0xC0]
    rows = (bytes([first, second, third, 0x80]) for first in range(256) for second in range(256) for third in thirds)
    return SEPARATOR.join(rows) + SEPARATOR + b"\xe2\x82"


def bytes_at_random(count=100_000):
    """This number of times four pseudo-random bytes, separated by line feeds."""
    rows, seed = [], 1
    for _ in range(count):
        seed = (seed * 6_364_136_223_846_793_005 + 1_442_695_040_888_963_407) % 2**64
        rows.append(seed.to_bytes(8, "big")[:4])
    return SEPARATOR.join(rows)


def test_all():
    test(f"{len(SETS) + len(MEMBERS)} sets are the listed ones", wrong_sets())
    test(f"runs of {len(JUDGED)} sets in every scalar value, which Python judges too", wrong_runs())
    test(f"members of {len(SINGLE)} sets one by one in every scalar value", wrong_singles(EVERY_CHARACTER))
    test("the same in bytes with each first and second byte", wrong_singles(first_and_second_bytes()))
    test("the same in 400,000 bytes at random", wrong_singles(bytes_at_random()))
    name = f"{len(PATTERNS)} sets are read back from each place of every scalar value"
    test(name, wrong_back(PATTERNS, EVERY_CHARACTER))
    test("the same of bytes with each first and second byte", wrong_back(PATTERNS, first_and_second_bytes()))
    test("the same of 400,000 bytes at random", wrong_back(PATTERNS, bytes_at_random()))
    test("the same of every scalar value cut, and with a byte changed", wrong_back(SINGLE, cut_and_changed()))
    sizes = [about("sizes", pattern, told) for pattern, told in SIZES]
    test(f"automata of {len(SIZES)} sets and their reverses have the listed numbers of states and ranges", problems(sizes))
    for pattern in ("é", "\\d"):
        check_memory(read_back(pattern, "aé٣".encode()), NO_MEMORY)
