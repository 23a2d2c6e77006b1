"""Needles of prefilters in chunked haystacks, by bin/search-driver, compared with a plain model; the literals that the
matches of a pattern begin with, contain, or are; and what the engines find of such patterns, compared with Python's re."""
import itertools
import random
import re

from driver import NO_MEMORY, WANT, Case, Settings, answer_to, check_memory, line_of, problems, written
from harness import differences, short, test
from memory import tallied
from test_automata import Wanted, compared

CUTS = ["0", "1", "2", "3", "1.0.2.0.4"]  # how haystacks are cut

# Needles in order, and haystacks: needles that contain one another, begin alike, or span many chunks.
NEEDLES = [
    [b"a"],
    [b"ab"],
    [b"aab"],
    [b"ab", b"a"],
    [b"a", b"ab"],
    [b"ba", b"b", b"abb"],
    [b"abab", b"bb"],
    ["é".encode(), b"\xc3"],
    [b"abcdefgh"],
    [b"b" * 64, b"ab"],
    [b"\x00"],
    # By a table of their first three bytes: many first bytes, common ones, needles that mix these bytes.
    [b"abb", b"bab", b"cab", "éa".encode()],
    [b"aab", b"abab", b"aba", b"abb"],
    [b"bab", b"abba", b"\x00\xc3\xa9", b"cde"],
]
HAYSTACKS = [b"", b"a", b"ab", b"aab", b"abab", b"babba", b"aaabaaab", "aéb".encode(), b"\x00\xc3\xa9\x00"]
HAYSTACKS += [b"xabcdefgh", b"abcdefgabcdefgh", b"a" + b"b" * 70, b"b" * 63, b"ababbab", b"cbabbacd"]

# Lists that are refused as needles: none, one that is empty, too many, one that is too long.
REFUSED = [[], [b""], [b"a", b""], [b"a"] * 17, [b"a" * 65]]
ACCEPTED = [[b"a"] * 16, [b"a" * 64]]


def cases(word):
    """A word in each mix of capitals and small letters."""
    return ["".join(letters) for letters in itertools.product(*[(letter.upper(), letter) for letter in word])]


# Patterns, and the literals that their matches begin with, if there are any. Literals continue through repetitions of at
# least one, groups, assertions and empty items. Branches, sets of at most four members and optional items are followed in
# each way, up to three bytes, or two if a literal is the only one.
BEGINNINGS = [
    ("let", ["let"]),
    ("xyz+", ["xyz"]),
    ("fn \\w+", ["fn "]),
    ("(a)(?:b(?<n>c))d*e", ["abc"]),
    ("^ab$", ["ab"]),
    ("\\bfoo\\b", ["foo"]),
    ("(?:)ab", ["ab"]),
    ("\\x{E9}t", ["ét"]),
    ("a[b]c", ["abc"]),
    ("a[bc]d", ["abd", "acd"]),
    ("(ab)+c", ["ab"]),
    ("ab[cd]", ["ab"]),
    ("é[ab]", ["é"]),
    ("e[a-d]x", ["eax", "ebx", "ecx", "edx"]),
    ("e[a-d]", []),
    ("e[ab]", ["ea", "eb"]),
    ("e[a-e]x", ["e"]),
    ("x(ab)+c", ["xab"]),
    ("a{3}b", ["aaab"]),
    ("(?:ab|ac)", ["ab", "ac"]),
    ("a(?:b|c)", ["ab", "ac"]),
    ("a?b", []),
    ("a*b", []),
    ("xa?b", ["xab", "xb"]),
    ("(?i)xb", ["XB", "Xb", "xB", "xb"]),
    ("(?i)ab", []),
    ("(?i)1b", ["1B", "1b"]),
    ("(?i)foo", ["FOO", "FOo", "FoO", "Foo", "fOO", "fOo", "foO", "foo"]),
    ("(?i)ks", ["KS", "Ks", "Kſ", "kS", "ks", "kſ", "\u212a"]),
    ("", []),
    (".a", []),
    ("\\d", []),
    ("a|b", []),
    ("[^a]", []),
    ("x{0}ab", ["ab"]),
    ("a" * 100, ["a" * 61]),
    ("🐸" * 30, ["🐸" * 16]),
    ("foo|bar|baz", ["foo", "bar", "baz"]),
    ("(?:foo|ba(?:r|z))\\d", ["foo", "bar", "baz"]),
    ("foo|foobar", ["foo"]),
    ("foobar|foo", ["foo"]),
    ("foo(?:bar|qux)", ["foo"]),
    ("ab+", ["ab"]),
    ("foo|", []),
    ("(?:foo|\\d)x", []),
    ("foo|b", []),
    ("if|for", ["if", "for"]),
    ("if|else", []),
    ("ab|cd|xf", ["ab", "cd", "xf"]),
    ("ab|cd|ef|gh", []),
    ("[bc]{2}d", ["bbd", "bcd", "cbd", "ccd"]),
    ("[ab]{2}c", ["aac", "abc", "bac", "bbc"]),
    ("[ab]{2}", []),
    ("x[a-d]", ["xa", "xb", "xc", "xd"]),
    ("x[a-e]", ["x"]),
    ("x[ace-f]", ["xa", "xc", "xe", "xf"]),
    ("[a-e]x", []),
    ("[b-d]x", ["bx", "cx", "dx"]),
    ("\\bfoo|^bar$", ["foo", "bar"]),
    # Several begin with many different bytes, or with common ones, if each has three bytes or more.
    ("(?i)err", ["ERR", "ERr", "ErR", "Err", "eRR", "eRr", "erR", "err"]),
    ("(?i)todo|error", [*cases("tod"), *cases("err")]),
    ("(?i)todo|error|x", []),
    ("(?i)todo|error|warn", []),
    ("error|warning|info|debug|trace", ["error", "warning", "info", "debug", "trace"]),
    ("the|and|are", ["the", "and", "are"]),
    ("the|and|are|it", []),
    ("(?:foo){0,2}bar", ["foo", "bar"]),
    ("foo|[^\\s\\S]", ["foo"]),
    # Of 16 literals at most, these are made longer first.
    ("[xy][a-d][a-d]", ["xaa", "xab", "xac", "xad", "xba", "xbb", "xbc", "xbd", "xc", "xd", "ya", "yb", "yc", "yd"]),
]

# Words of random patterns. Each begins with one of few bytes.
WORDS = ["oxy", "(?i:foé)", "x", "xy", "foo", "fob", "bar", "yb", "é", "éa", "[xy]b", "f[a-c]", "f[^f]", "x?b", "b*y", "(?i:fo)", "(?i:é)x"]

# Patterns, and the literal that equals each of their matches, if there is one: only characters, of at most 64 bytes.
WHOLES = [
    ("let", ["let"]),
    ("e", ["e"]),
    ("(?:)a", []),
    ("(?:a)b", ["ab"]),
    ("(?:ab)", ["ab"]),
    ("[a]b", ["ab"]),
    ("\\x{E9}t🐸", ["ét🐸"]),
    ("a{3}b", ["aaab"]),
    ("(?i)1", ["1"]),
    ("(?i)a", []),
    ("(a)", []),
    ("a(b)", []),
    ("^a", []),
    ("a$", []),
    ("a\\b", []),
    ("a+", []),
    ("ab?", []),
    ("a|b", []),
    ("[ab]", []),
    (".", []),
    ("", []),
    ("a" * 64, ["a" * 64]),
    ("a" * 65, []),
    ("🐸" * 16, ["🐸" * 16]),
    ("🐸" * 17, []),
]

# Patterns, and the literal that each of their matches contains, if one is known: the first of the longest, of at most 16
# characters; a single byte that is common in texts doesn't count. Literals in branches, optional items and assertions are
# not used.
REQUIRED = [
    ("\\w+\\s*=>\\s*\\w+", ["=>"]),
    (".*;", [";"]),
    (".*x", ["x"]),
    (".*e", []),
    (".*ex", ["ex"]),
    (".*(ab|cd)", []),
    (".*(?:xb|xd)", []),
    (".*(?:bx|dx)", []),
    (".*(?:ax)?y", ["y"]),
    (".*(?:ax){0}y", ["y"]),
    (".*x|y", []),
    (".*x*", []),
    (".*x+", ["x"]),
    (".*(xy)+z", ["xy"]),
    (".*(xy)+zab", ["zab"]),
    ("\\d+xy?\\d+z", ["x"]),
    ("\\d+x\\d+yz", ["yz"]),
    ("\\d+xy\\d+zb", ["xy"]),
    ("\\d+xy\\d+abc\\d+zb", ["abc"]),
    ("\\d+[x]\\b[y]", ["x"]),
    ("\\w+(x)(y)", ["x"]),
    ("\\w+\\bx$", ["x"]),
    ("\\w+(?i)1", ["1"]),
    ("\\w+(?i)x", []),
    ("\\w+é", ["é"]),
    ("\\w+🐸é", ["🐸é"]),
    ("\\w+" + "xy" * 20, ["xy" * 8]),
    ("\\w+" + "🐸" * 20, ["🐸" * 16]),
    ("(?:a|b)x(?:c|d)", ["x"]),
    ("(?:a*x)*", []),
    ("(?:a*x){2}", ["x"]),
    ("a?", []),
    ("", []),
    ("\\w", []),
    ("let", ["let"]),
    ("[^\\s\\S]x", ["x"]),
    ("(?:1y\\d|2y\\d)x", ["x"]),
    ("(?:" + "|".join(f"{n}y\\d" for n in range(10, 30)) + ")x", ["x"]),
    ("\\d{300}x", []),
]

DIGITS, LETTERS = list("0123456789"), list("ABCDEFGHIJKLMNOPQRSTUVWXYZ")

# Patterns, and needles, literals or single bytes, such that each match begins with one or contains one, if they are known.
BETWEEN = [
    (["\\w+\\s*=>\\s*\\w+"], ["=>"]),
    ([".*;$"], [";"]),
    (["^.*;"], [";"]),
    (["foo|ba[rz]"], ["foo", "bar", "baz"]),
    (["foo.*xyz"], ["foo"]),
    (["\\w+abcde"], ["abcde"]),
    ([".*abcde", "\\d+abcde"], None),
    (["abcde", "abcdf"], ["abcde", "abcdf"]),
    (["\\d+x", "\\d+y"], DIGITS),
    (["\\d+x"], ["x"]),
    ([".*"], None),
    (["x*"], None),
    # The bytes that matches begin with, if none is common in texts and no match is empty.
    (["[0-9]+|0x[0-9a-f]+"], DIGITS),
    (["[A-Z]\\d?"], LETTERS),
    (["(?:(?:x|[0-9])|y)+?\\b"], [*DIGITS, "x", "y"]),
    (["^[0-9]", "x|[A-Z]"], [*DIGITS, *LETTERS, "x"]),
    (["\\b[v-z]{2,}"], ["v", "w", "x", "y", "z"]),
    (["[xy]*[0-9]"], [*DIGITS, "x", "y"]),
    (["[à-ü]|[0-9]"], [*DIGITS, b"\xc3"]),
    (["[a-z]+"], None),
    (["[xs]y*"], None),
    (["[0-9]*"], None),
    (["[0-9]?|x"], None),
    (["[0-9]", "x*"], None),
    (["(?i)todo|error"], [*cases("tod"), *cases("err")]),
    (["error|warning|info|debug|trace"], ["error", "warning", "info", "debug", "trace"]),
]


MOST = 2**64 - 1  # the end of a span without an end


def at(needles, bytes_, place):
    """The first needle at an offset, as the program prints it."""
    for needle in needles:
        if bytes_[place : place + len(needle)] == needle:
            return f"{place}-{place + len(needle)}"
    return None


def model(needles, haystack, start, end):
    """What is found in a span, and at its start."""
    bytes_ = haystack[:end]
    places = (at(needles, bytes_, place) for place in range(start, len(bytes_)))
    first = next(filter(None, places), "-")
    return f"{first} {start < len(bytes_) and at(needles, bytes_, start) or '-'}"


def find(needles, haystack, cut, start, end):
    told = ".".join(needle.hex() for needle in needles) if needles else "-"
    name = f"{needles} in {short(haystack)}, cut by {cut}, from {start} to {end}"
    return Case(name, line_of("literal", told, cut, haystack.hex(), start, end), model(needles, haystack, start, end))


def found():
    for needles, haystack, cut in itertools.product(NEEDLES, HAYSTACKS, CUTS):
        ends = range(len(haystack) + 2) if len(haystack) < 10 else (0, 9, len(haystack), len(haystack) + 1)
        for end in ends:
            for start in range(min(end, 9) + 2):
                yield find(needles, haystack, cut, start, end)
        for start in (0, 1, len(haystack) + 1, MOST):
            yield find(needles, haystack, cut, start, MOST)


def at_random():
    chance = random.Random(38)
    for _ in range(2000):
        needles = [bytes(chance.choices(b"ab", k=chance.randint(1, 5))) for _ in range(chance.randint(1, 4))]
        haystack = bytes(chance.choices(b"ab", k=chance.randint(0, 40)))
        cut = chance.choice(["0", "1", "2", "5", "7", "3.0.1.6.2"])
        end = chance.randint(0, len(haystack) + 2)
        yield find(needles, haystack, cut, chance.randint(0, end + 1), end)


def wrong_memory():
    """What is wrong with searches in a long haystack without a needle, which request as much memory as those in an empty
    span: none."""
    haystack = b"az" * 5_000 + b"bz" * 5_000
    for needles in ([b"ab"], [b"abab", b"bb"], [b"b" * 64, b"ab", b"aa"]):
        told = ".".join(needle.hex() for needle in needles)
        lines = (line_of("literal", told, "7", haystack.hex(), "00000", f"{end:05}") for end in (0, len(haystack)))
        ends = [tallied(lambda environment, line=line: answer_to(line, environment)) for line in lines]
        for ended, *_ in ends:
            yield from differences(ended, b"- -\n", 0)
        if ends[0][1:] != ends[1][1:]:
            yield f"{needles}: {ends[1][1:]} in all of it, and {ends[0][1:]} in none"


def refused():
    for needles, is_refused in [(needles, True) for needles in REFUSED] + [(needles, False) for needles in ACCEPTED]:
        told = ".".join(needle.hex() for needle in needles) if needles else "-"
        answer = "none" if is_refused else "- -"
        yield Case(f"{len(needles)} needles", line_of("literal", told, 0, b"b".hex(), 0, 1), answer)


def read_from(word, patterns):
    """Each of a pattern's literals is found at its offset, and is not found without its last character."""
    for pattern, told in patterns:
        fields = [written(pattern), *Settings().fields(), 3]
        name = f"the {word} of {pattern[:20]!r}"
        if not told:
            yield Case(name, line_of(word, *fields, b"ab".hex(), 0, 2), "none")
        literals = [literal.encode() for literal in told]
        for literal in literals:
            haystack = literal[:-1] + literal + b"a"
            answer = model(literals, haystack, 0, 999)
            yield Case(name, line_of(word, *fields, haystack.hex(), 0, len(haystack)), answer)


def between():
    """The offset up to which nothing matches: that of the first needle in the span, however the haystack is split."""
    for patterns, told in BETWEEN:
        needles = [needle if isinstance(needle, bytes) else needle.encode() for needle in told or ["=>"]]
        first, last = needles[0], needles[-1]
        haystacks = [b"", first, first[:-1], b"ab" + first, b"a1 " + last + b" " + first + b"b", first[:-1] * 3 + last, b"a\n" * 3 + first]
        for haystack, cut in itertools.product(haystacks, CUTS):
            for start, end in [(0, len(haystack)), (1, len(haystack)), (0, max(len(haystack) - 1, 0)), (0, MOST), (2, MOST)]:
                if start > end + 1:
                    continue
                found = model(needles, haystack, start, end).split()[0]
                answer = "none" if told is None else str(end if found == "-" else found.split("-")[0])
                fields = [".".join(map(written, patterns)), cut, haystack.hex(), start, end]
                yield Case(f"{patterns} in {short(haystack)}, cut by {cut}, from {start} to {end}", line_of("between", *fields), answer)


def searches_at_random():
    """Searches in chunks whose matches may begin with one of few literals."""
    chance = random.Random(39)
    for _ in range(1500):
        words = ["".join(chance.choices(WORDS, k=chance.randint(1, 2))) for _ in range(chance.randint(1, 3))]
        pattern = f"(?:{'|'.join(words)})" + chance.choice(["", "", "b", "\\b", "(?:x|$)", "y+"])
        haystack = "".join(chance.choices("xybfaoFOéÉ ", k=chance.randint(0, 40)))
        matches = re.finditer(pattern, haystack)
        places = [len(haystack[:at].encode()) for at in range(len(haystack) + 1)]
        spans = [(places[match.start()], places[match.end()]) for match in matches]
        yield Wanted(pattern, haystack.encode(), [[span] for span in spans], chance.choice((0, 1, 2, 3)))


def test_all():
    parts = [
        ("finds of needles in pieces and spans", found()),
        ("finds of needles at random", at_random()),
        ("lists that are no needles, or are", refused()),
        ("patterns with what they begin with", read_from("beginning", BEGINNINGS)),
        ("patterns with the literal that they are", read_from("whole", WHOLES)),
        ("patterns with a literal that they contain", read_from("required", REQUIRED)),
        ("offsets before which nothing matches", between()),
    ]
    for name, cases in parts:
        cases = list(cases)
        test(f"{len(cases)} {name}", problems(cases))
    wrong, told = compared(searches_at_random())
    test(f"searches for patterns that begin with literals: {told}", wrong)
    check_memory(find([b"ab", b"b"], b"aab", "1", 0, 3), [WANT])
    test("a search for needles requests no memory", wrong_memory())
    for pattern in ("let", "(?i)xb", "foo|bar|baz"):
        check_memory(next(case for case in read_from("beginning", BEGINNINGS) if repr(pattern) in case.name), NO_MEMORY)
    check_memory(next(read_from("whole", WHOLES)), NO_MEMORY)
    check_memory(next(read_from("required", REQUIRED)), NO_MEMORY)
