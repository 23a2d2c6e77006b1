"""The trees of patterns, on bin/search-driver: the examples of docs/patterns.md and more of them, the weights of
patterns, which are refused and why, and that each refused request for memory is reported."""
import re

from driver import OUTSIDE, PATTERN_WANT, TOO_DEEP, TOO_LONG, Settings, about, answers, check_memory, problems, search
from harness import example_rows, short, test
from memory import library

NODE = re.compile(
    r"(?P<empty>Empty)|Set\(CharacterSet \{ ranges: \[(?P<ranges>.*?)\] \}\)|Look\((?P<look>\w+)\)"
    r'|Group\((?P<number>\d+), (?:None|Some\("(?P<name>.*?)"\))\)|(?P<row>Concat|Alternation)\((?P<count>\d+)\)'
    r"|Repeat\(Repetition \{ min: (?P<min>\d+), max: (?:None|Some\((?P<max>\d+)\)), greedy: (?P<greedy>\w+) \}\)"
)
PART = re.compile(r"Properties \{ extent: (\d+), weight: (\d+), size: (\d+), may_be_empty: (\w+), static_groups: [^}]+ \}")

# The trees of patterns, known from the grammar of `regex-syntax` with Unicode on, in the notation of docs/patterns.md.
TREES = [
    ("a", "Set(a)"),
    ("a|", "Alternation(Set(a), Empty)"),
    ("|", "Alternation(Empty, Empty)"),
    ("()", "Group 1(Empty)"),
    ("(a)(b)", "Concat(Group 1(Set(a)), Group 2(Set(b)))"),
    ("((a)b)", "Group 1(Concat(Group 2(Set(a)), Set(b)))"),
    ("((a)|(?<b>c)*)", "Group 1(Alternation(Group 2(Set(a)), Repeat{0,}(Group 3 b(Set(c)))))"),
    ("(?:a)", "Set(a)"),
    ("(?:a)(?i:b)(?i)", "Concat(Set(a), Set(B, b))"),
    ("(?:ab)*", "Repeat{0,}(Concat(Set(a), Set(b)))"),
    ("(?P<ab>a)", "Group 1 ab(Set(a))"),
    ("(?<a_1>a)", "Group 1 a_1(Set(a))"),
    ("^(?<word>a)*?", "Concat(Start, Repeat{0,}?(Group 1 word(Set(a))))"),
    ("a+??", "Repeat{0,1}(Repeat{1,}?(Set(a)))"),
    ("a{2,}", "Repeat{2,}(Set(a))"),
    ("a{3,}?", "Repeat{3,}?(Set(a))"),
    ("a{0}", "Repeat{0,0}(Set(a))"),
    ("a{65535}", "Repeat{65535,65535}(Set(a))"),
    ("a{0000065535}", "Repeat{65535,65535}(Set(a))"),
    ("(?m:^)^", "Concat(StartLine, Start)"),
    ("[\\d\\-x]", "Set(..)"),
    ("[a&b]", "Set(&, a-b)"),
    ("[\\--a]", "Set(--a)"),
    ("(?i-m)a", "Set(A, a)"),
    ("(?-i)a", "Set(a)"),
    ("(?i)", "Empty"),
    ("]}", "Concat(Set(]), Set(}))"),
    ("\\x41\\u0041\\x{41}\\u{00000041}\\%", "Concat(Set(A), Set(A), Set(A), Set(A), Set(%))"),
    ("(?s).", "Set(U+0000-U+10FFFF)"),
    ("[-a-c]", "Set(-, a-c)"),
    ("[a-cb-z]", "Set(a-z)"),
    ("\\w", "Set(..)"),
    ("(?i)\\x73", "Set(S, s, U+017F)"),
    ("a**", "Repeat{0,}(Repeat{0,}(Set(a)))"),
    ("(?U)a{2,3}b*?", "Concat(Repeat{2,3}?(Set(a)), Repeat{0,}(Set(b)))"),
    ("((?m)^)$", "Concat(Group 1(StartLine), End)"),
    ("[^]]", "Set(U+0000-\\, ^-U+10FFFF)"),
    ("[a-]", "Set(-, a)"),
    ("[^\\s\\S]", "Set()"),
    ("(?i:a)a", "Concat(Set(A, a), Set(a))"),
    # Escapes.
    ("\\a", "Set(U+0007)"),
    ("\\f", "Set(U+000C)"),
    ("\\t", "Set(U+0009)"),
    ("\\n", "Set(U+000A)"),
    ("\\r", "Set(U+000D)"),
    ("\\v", "Set(U+000B)"),
    ("\\ ", "Set(U+0020)"),
    ("\\\t", "Set(U+0009)"),
    ("\\\u007f", "Set(U+007F)"),
    ("\\-", "Set(-)"),
    ("\\u212a", "Set(U+212A)"),
    ("\\u{10FFFF}", "Set(U+10FFFF)"),
]
# The same with settings.
TREES_UNDER = [
    (".", Settings("i", no_dot=ord("k")), "Set(U+0000-j, l-U+10FFFF)"),
    ("(?s).", Settings(no_dot=0x80), "Set(U+0000-U+10FFFF)"),
    ("a", Settings(no_dot=0x80), "Set(a)"),
    (".", Settings("s", no_dot=0x80), "Set(U+0000-U+10FFFF)"),
    ("a*^.$", Settings("imsU"), "Concat(Repeat{0,}?(Set(A, a)), StartLine, Set(U+0000-U+10FFFF), EndLine)"),
    ("(?-imsU)a*^.$", Settings("imsU"), "Concat(Repeat{0,}(Set(a)), Start, Set(U+0000-U+0009, U+000B-U+10FFFF), End)"),
]

REFUSED = """
    (*) + ? {2} a{ a{} a{2 ( ) a) (a (? (?ii) (?-) (?i (?P<>a) (?<1a>a) (?<a-b>a) (?<a.b>a) (?<é>a) (?P=a) (?=a) (?<=a)
    (?P<a>(?<a>b)) [ [^] [a [a[b]] [a--b] [a~~b] [a-z-9] [\\A] \\ \\q \\1 \\pL \\x4 \\x{} \\x{000000041} \\Z \\G \\é *
""".split() + ["a{2 }"]
REFUSED += [
    "*a", "a|*", "(?i)*", "a{65536}", "a{2,1}", "a{,2}", "a{ 2}", "[]", "[]-a]", "[b-a]", "[--a]", "[a&&b]",
    "[[:alpha:]]", "[\\b]", "(?i-i)", "(?i-)", "(?)", "(?x)a", "(?u)a", "(?R)", "\\p{L}", "\\b{start}", "\\>",
    "\\U00000041", "\\u{D800}", "[a-\\d]", "(?<name>a)(?<name>b)", "\\x{110000}",
]

# The number of nodes of a tree, or why there is none, for deep and long patterns.
LARGE = [
    ("(" * 250 + "a" + ")" * 250, Settings(), 251),
    ("(" * 251 + "a" + ")" * 251, Settings(), TOO_DEEP),
    ("(" * 251 + "*" + ")" * 251, Settings(), OUTSIDE),
    ("a" + "*" * 250, Settings(), 251),
    ("a" + "*" * 251, Settings(), TOO_DEEP),
    ("(" * 32_767 + ")" * 32_767, Settings(nest_limit=65_535), 32_768),
    ("a" + "*" * 65_535, Settings(nest_limit=65_535), 65_536),
    ("a" * 65_536, Settings(), 65_537),
    ("a" * 65_537, Settings(), TOO_LONG),
    ("é" * 32_769, Settings(), TOO_LONG),
    ("(a*)", Settings(nest_limit=1), TOO_DEEP),
    ("(a*)", Settings(nest_limit=2), 3),
    (".", Settings(no_dot=0x80), OUTSIDE),
    ("(?P<a>(?i)[a-z]+|\\w{2,3}?)(b)", Settings(), 9),
]

MOST = 2**64 - 1  # the answer for a greater weight or size
# The weights of patterns, or None if that depends on the version of Unicode, and the number of nodes of their programs.
WEIGHTS = [
    ("", 4, 1),
    ("a", 5, 1),
    ("^", 4, 1),
    ("$", 4, 1),
    ("\\b", 4, 1),
    (".", 6, 1),
    ("[a-cx]", 6, 1),
    ("ab", 7, 2),
    ("a|b|c", 10, 4),
    ("((a))", 9, 5),
    ("[^\\s\\S]", 4, 1),
    ("[\\x{D7FF}-\\x{E000}]", 5, 1),
    ("(a)|b", 10, 5),
    ("[a-c]{2,4}", 13, 6),
    ("a?", 6, 2),
    ("a*", 6, 2),
    ("a*?", 6, 2),
    ("\\w*", None, 2),
    ("a{0,0}", 4, 1),
    ("a{0,2}", 9, 4),
    ("(?:a*)*", 8, 4),
    ("(?:a*){0,}", 8, 4),
    ("(?:a*){2,}", 10, 5),
    ("(?:a?)*", 8, 4),
    ("(?:\\b)*", 6, 3),
    ("a+", 6, 2),
    ("a{3,}", 10, 4),
    ("a{3}", 9, 3),
    ("a{65535}{65535}{0}", 4, 1),
    ("^a{65535}a{65535}", 262_144, 131_071),
    ("^^a{65535}a{65535}", 262_145, 131_072),
    ("a{65535}{65535}{65535}{65535}", MOST, 65_535**4),
    ("a{65535}{65535}{65535}{65535}{2}", MOST, MOST),
    ("(?:a{65535}{65535}{65535}{65535}){0}", 4, 1),
]

# The properties of each part of a tree: its extent, weight and size, and whether it may be empty.
PARTS = [
    ("a*", [(1, 2, 1, False), (2, 3, 2, True)]),
    (
        "(a)|bc",
        [(1, 2, 1), (2, 4, 3), (1, 2, 1), (1, 2, 1), (3, 4, 2), (6, 9, 6)],
    ),
]
# Whether each part of a tree may be empty.
EMPTY_PARTS = [("(?:\\b|a)+", [True, False, True, True])]

GROUPS = [
    ("", ""),
    ("(?:a)(?i:b)(?i)", ""),
    ("((a)|(?<b>c)*)", "- - b"),
    ("(?<year>a)(b)|(?P<day>)", "year - day"),
]

# Each has its requests for memory refused in turn.
IN_NEED = [
    ("a", Settings()),
    ("x*|(b|c)+?\\d{2,3}", Settings()),
    ("(?P<year>\\d{4})-(?<month>[^\\W_])\\b|^$", Settings()),
    ("(?P<a>(?i)[a-z]+|\\w{2,3}?)(b)", Settings()),
    ("[k-m\\s](?-i:s)(?m)^.\\D", Settings("i")),
    ("\\w[\\w]\\W[^\\w-][\\wa]", Settings("i")),
    ("(" * 250 + ")" * 250, Settings()),
    ("(a|b", Settings()),
]


LITERAL = "".join(map(chr, range(0x80))) + "é🐸"  # a text with every character that has a meaning in patterns
# The matches in a text of the suggested patterns, as the tried ones mean in other dialects.
MEANT = [
    (r"[^\W\d_]", "aé1_ 漢", "0-1 1-3 6-9"),
    (r"[ \t]", "a \t\n", "1-2 2-3"),
    (r"[^ \t]", "a \n", "0-1 2-3"),
    (r"\r\n|[\r\n]", "\r\n\n\rx", "0-2 2-3 3-4"),
    (r"[^\r\n]", "a\r\n", "0-1"),
    (r"\n?\z", "a\n", "1-2"),
    (r"\bfoo\b", "foo food", "0-3"),
    (r"a\.b", "axb a.b", "4-7"),
    (r"\{a: 1}", "{a: 1}", "0-6"),
    (r"if \(x\) \{", "if (x) {", "0-8"),
    (r"[\w.-]", "a.-+", "0-1 1-2 2-3"),
    (r"[^\s\S]", "a\n", ""),
    (r"(?s:.)", "a\n", "0-1 1-2"),
    (r"[a-wyz]", "wxy", "0-1 2-3"),
    (r".*\.rs", "lib.rs", "0-6"),
    (r"C\+\+", "C C++", "2-5"),
    (r"f\(x\)", "fx f(x)", "3-7"),
    (r"\u{1F438}", "🐸", "0-4"),
    (r"(?i)foo", "FoO", "0-3"),
    (r"[\n\v\f\r]", "\n\v\f\r", "0-1 1-2 2-3 3-4"),
]


def set_of(ranges):
    """A set in the notation of the page, from ranges of scalar values, which are numbered without surrogates."""

    def character(number):
        code = int(number) + (0x800 if int(number) >= 0xD800 else 0)
        return chr(code) if 0x21 <= code < 0x7F else f"U+{code:04X}"

    pairs = re.findall(r"\((\d+), (\d+)\)", ranges)
    if len(pairs) > 4:
        return "Set(..)"
    written = (character(low) + ("" if low == high else "-" + character(high)) for low, high in pairs)
    return f"Set({', '.join(written)})"


def tree_of(out):
    """A tree in the notation of the page, from the nodes that bin/search-driver writes, each after those below it."""
    trees = []
    for node in NODE.finditer(out):
        below = int(node["count"] or (1 if node["number"] or node["min"] else 0))
        inside = ", ".join(trees[len(trees) - below :])
        del trees[len(trees) - below :]
        if node["number"]:
            name = f" {node['name']}" if node["name"] else ""
            trees.append(f"Group {node['number']}{name}({inside})")
        elif node["min"]:
            lazy = "" if node["greedy"] == "true" else "?"
            trees.append(f"Repeat{{{node['min']},{node['max'] or ''}}}{lazy}({inside})")
        elif node["row"]:
            trees.append(f"{node['row']}({inside})")
        else:
            trees.append(node["empty"] or node["look"] or set_of(node["ranges"]))
    return ", ".join(trees)


def examples():
    """The rows of the page, each as a pattern and its tree, or None if it is outside the grammar."""
    rows = example_rows("patterns.md", r"\| (?:`(.+)`|nothing) \| (?:`(.+)`|outside) \|")
    return [((row[1] or "").replace("\\|", "|"), Settings(), row[2]) for row in rows]


def tried():
    """The rows of the page on other dialects: the patterns that are tried, their trees here, None for what is refused,
    and the suggested patterns."""
    found = []
    for row in example_rows("patterns.md", r"\| (`.+`) \| (refused|`.+`) \| (.+) \|", "What other dialects have"):
        cells = [re.findall("`(.+?)`", cell.replace("\\|", "|")) for cell in row.groups()]
        found.append((cells[0], cells[1] or [None] * len(cells[0]), cells[2]))
    return found


def wrong_advice():
    """What is wrong with the suggested patterns: each has to be a pattern, and the matches of those in MEANT are those
    of the tried ones in other dialects."""
    advised = [pattern for _, _, instead in tried() for pattern in instead]
    told, wrong = answers([about("parse", pattern) for pattern in advised])
    wrong += [f"{pattern!r} is refused" for pattern, answer in zip(advised, told) if answer == OUTSIDE]
    wrong += [f"{pattern!r} isn't on the page" for pattern, _, _ in MEANT if pattern not in advised]
    by_hand = "".join("\\" * (character in "\\.+*?()|[{^$") + character for character in LITERAL)
    literals = [(pattern, f"a{LITERAL}", f"1-{1 + len(LITERAL.encode())}") for pattern in (by_hand, re.escape(LITERAL))]
    yield from wrong
    yield from problems([search(pattern, text.encode(), found) for pattern, text, found in MEANT + literals])


def wrong_trees(rows):
    """What is wrong with the trees of patterns; each row has the settings and the tree, or None."""
    told, wrong = answers([about("parse", pattern, settings=settings) for pattern, settings, _ in rows])
    for (pattern, settings, tree), answer in zip(rows, told):
        found = tree_of(answer) if answer != OUTSIDE else None
        if found != tree or (not found and answer != OUTSIDE):
            yield f"{pattern!r} under {settings} spells {found}, not {tree}: {short(answer.encode())}"
    yield from wrong


def wrong_parts():
    """What is wrong with the properties of the parts of trees."""
    rows = PARTS + EMPTY_PARTS
    told, wrong = answers([about("parse", pattern) for pattern, _ in rows])
    for (pattern, parts), answer in zip(rows, told):
        found = [(*map(int, part[:3]), part[3] == "true") for part in PART.findall(answer)]
        for part, due in zip(found, parts):
            due = (*part[:3], due) if isinstance(due, bool) else (*due, False)[:4]
            if part != due:
                wrong.append(f"{pattern!r} has a part {part}, not {due}")
        if len(found) != len(parts):
            wrong.append(f"{pattern!r} has {len(found)} parts")
    return wrong


def wrong_sizes():
    """What is wrong with the numbers of nodes of trees, or with why there is none."""
    told, wrong = answers([about("weigh", pattern, settings=settings) for pattern, settings, _ in LARGE])
    for (pattern, settings, due), answer in zip(LARGE, told):
        if answer != due and answer.split(" ")[0] != str(due):
            wrong.append(f"{pattern[:40]!r} .. of {len(pattern)} characters: {short(answer.encode())}, not {due}")
    return wrong


def wrong_weights():
    told, wrong = answers([about("weigh", pattern) for pattern, _, _ in WEIGHTS])
    for (pattern, weight, size), answer in zip(WEIGHTS, told):
        numbers = (answer.split(" ") + [""] * 3)[1:3]
        if str(size) != numbers[1] or str(weight or numbers[0]) != numbers[0]:
            wrong.append(f"{pattern!r}: {answer}, not {weight} {size}")
    return wrong


def test_all():
    rows = examples()
    test(f"the page of patterns has its examples ({len(rows)})", [] if len(rows) >= 10 else ["fewer than 10"])
    test(f"{len(rows)} patterns of the page spell what it says", wrong_trees(rows))
    rows = [(pattern, Settings(), tree) for patterns, trees, _ in tried() for pattern, tree in zip(patterns, trees)]
    test(f"{len(rows)} patterns of other dialects spell what the page says, or are refused", wrong_trees(rows))
    test("what the page advises in their place", wrong_advice())
    rows = [(pattern, Settings(), tree) for pattern, tree in TREES] + TREES_UNDER
    test(f"{len(rows)} further patterns spell the listed trees", wrong_trees(rows))
    rows = [(pattern, Settings(), None) for pattern in REFUSED]
    test(f"{len(rows)} texts are outside the grammar", wrong_trees(rows))
    test(f"{len(LARGE)} patterns that are deep or long, or nearly so", wrong_sizes())
    rows = [about("groups", pattern, names) for pattern, names in GROUPS]
    test(f"the names of groups of {len(rows)} patterns", problems(rows))
    test(f"what is known of the parts of {len(PARTS + EMPTY_PARTS)} patterns", wrong_parts())
    test(f"{len(WEIGHTS)} patterns have the listed weights, and programs of the listed sizes", wrong_weights())
    if library() is not None:
        for pattern, settings in IN_NEED:
            check_memory(about("parse", pattern, settings=settings), [PATTERN_WANT])
