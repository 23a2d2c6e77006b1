"""A `Regex` of several patterns under settings, by bin/search-driver: all matches, on which all engines must agree; the
number of groups, and why patterns are refused; and the results of the getters.

The expected answers are listed here, or in the table of settings in docs/searching.md, or are those of the model of
tests/models/walks.py for random cases, each tried with each engine on and off.
"""
import itertools
import random
import re

from driver import OUTSIDE, PROGRAM_WANT, TOO_LARGE, WANT, Case, Settings
from driver import answer_to, answers, check_memory, in_runs, line_of, problems, written
from harness import example_rows, share_of, short, test
from memory import library
from random_patterns import Maker
from test_match_kind_all import ANYWHERE, AT_START, FIRST, SIZES
from test_searches import asked_at_random, listed
from walks import Search, spelled, static_captures

RANDOM_CASES, STATIC_CASES = share_of(14_000), share_of(5_000)
LINES = Settings("m")  # `^` and `$` are those of lines

# Settings that change no answer: engines on and off, capacities of caches, and the number of states made in advance.
ENGINES = ["hybrid", "dfa", "auto_prefilter"]
CAPACITIES = ["", *(f"hybrid_cache_capacity={size}" for size in (0, 700, 2**64 - 1))]
LIMITS = ["", "dfa_state_limit=none.dfa_size_limit=none", "dfa_state_limit=3", "dfa_size_limit=0"]
IDLE = ["byte_classes=0", "backtrack=0", "onepass_size_limit=1", "prefilter=" + written("b"), "prefilter=none"]


def spans(first, length, apart, count):
    """`count` spans of this length; the first starts at `first`, and each next one `apart` bytes later."""
    return " ".join(f"{start}-{start + length}" for start in range(first, first + count * apart, apart))


# Patterns, haystacks, settings, and all matches; some with settings of the syntax.
VECTORS = [
    (["a", "ab"], "ab", "", "0:0-1"),
    (["x*"], "せ", "", "0-0 3-3"),
    (["x*"], "せ", "utf8_empty=1", "0-0 3-3"),
    (["x*"], "せ", "utf8_empty=0", "0-0 1-1 2-2 3-3"),
    (["x*", "せ"], "せ", "utf8_empty=0", "0:0-0 0:1-1 0:2-2 0:3-3"),
    (["^b"], "a;b", "line_terminator=59", "2-3", LINES),
    # Of all matches the one with the greatest end, without its groups.
    (["a", "ab"], "ab", "match_kind=all", "1:0-2"),
    (["a", "ab"], "ab", "match_kind=leftmost", "0:0-1"),
    (["a", "ab"], "ab", "match_kind=all/hybrid=0", "1:0-2"),
    (["a", "ab"], "ab", "match_kind=all/match_kind=leftmost", "0:0-1"),
    (["ab", "ab"], "ab", "match_kind=all", "0:0-2"),
    (["b", "abb"], "abab", "match_kind=all", "0:3-4"),
    (["(a)b"], "ab", "match_kind=all", "0-2,-"),
    (["(a)b"], "ab", "match_kind=all.which_captures=implicit", "0-2"),
    (["ab"], "abab", "match_kind=all", "2-4"),
    (["x*"], "せ", "match_kind=all", "3-3"),
    (["a+?"], "aab", "match_kind=all", "0-2"),
    (["^b"], "a;b", "match_kind=all.line_terminator=59", "2-3", LINES),
    (["ab|b"], "ab", "match_kind=all.prefilter=" + written("b"), "0-2"),
    (["a$"], "a;b", "line_terminator=59", "0-1", LINES),
    (["^b"], "a\nb", "line_terminator=59", "", LINES),
    (["^b"], "a;b", "line_terminator=59", ""),
    (["."], "a;\n", "line_terminator=59", "0-1 1-2"),
    (["."], "a;\n", "", "0-1 2-3", Settings(no_dot=ord(";"))),
    (["^b"], "a;b", "", "", Settings("m", no_dot=ord(";"))),
    (["A|b"], "ab", "", "0-1 1-2", Settings("i")),
    (["(a)|(b)"], "ab", "which_captures=all", "0-1,0-1,- 1-2,-,1-2"),
    (["(a)|(b)"], "ab", "which_captures=implicit", "0-1 1-2"),
    (["(a)|(b)"], "ab", "which_captures=none", "0-1 1-2"),
    (["(a)", "(?<x>b)(c)"], "abc", "which_captures=implicit", "0:0-1 1:1-3"),
    # Literals from the caller that don't begin each match.
    (["ab|b"], "ab", "prefilter=" + written("b"), "0-2"),
    (["ab|b"], "ab", "auto_prefilter=0.prefilter=" + written("b"), "0-2"),
    (["ab"], "xab", "auto_prefilter=0.prefilter=" + written("ab"), "1-3"),
    # A later value replaces an earlier one, and leaves other settings.
    (["x*"], "せ", "utf8_empty=0/hybrid=0", "0-0 1-1 2-2 3-3"),
    (["x*"], "せ", "utf8_empty=0/utf8_empty=1", "0-0 3-3"),
    # Too many states are made for a small cache.
    (["[ab]*a[ab]{5}"], "abbab" * 40 + "c", "hybrid_cache_capacity=0.dfa=0", "0-199"),
    (["[ab]*a[ab]{5}"], "abbab" * 40 + "c", "hybrid=0.dfa=0", "0-199"),
    (["[ab]*a[ab]{5}"], "abbab" * 40 + "c", "dfa_state_limit=none.dfa_size_limit=none", "0-199"),
    # Matches that mostly don't begin at the first candidate byte, and later mostly do; searches from a candidate that read
    # far; and one that reaches a byte of 128 or more.
    (["[a-z]+[0-9]"], "ab ab1 " * 150 + "ab1 " * 150, "", spans(3, 3, 7, 150) + " " + spans(1050, 3, 4, 150)),
    (["[a-z ]+[0-9]|x"], ("ab " * 30 + "x;") * 40 + "x1", "", spans(90, 1, 92, 40) + " 3680-3682"),
    (["todo\\([0-9]\\)"], "todo(x) todo(1) " * 100, "", spans(8, 7, 16, 100)),
    (["\\b[a-z]+\\b"], "aé ab a", "", "4-6 7-8"),
]


def refused(error, pattern="None", limit="None"):
    return f"{error}, {pattern}, {limit}"


def too_large(limit):
    return refused(TOO_LARGE, limit=f"Some({limit})")


# Patterns, settings, and the number of patterns, of groups, of groups that are in each match, and of slots, and whether
# literals are searched for; or why there is no regex.
COUNTS = [
    (["a"], "nfa_size_limit=200", "1 1 Some(1) 2 true"),
    (["a"], "nfa_size_limit=199", too_large(199)),
    (["(a)|b"], "nfa_size_limit=400", "1 2 None 4 false"),
    (["(a)|b"], "nfa_size_limit=399", too_large(399)),
    (["[a-c]{2,4}"], "nfa_size_limit=520", "1 1 Some(1) 2 false"),
    (["[a-c]{2,4}"], "nfa_size_limit=519", too_large(519)),
    (["(?:a*)*"], "nfa_size_limit=320", "1 1 Some(1) 2 false"),
    (["(?:a*)*"], "nfa_size_limit=319", too_large(319)),
    (["."], "nfa_size_limit=240", "1 1 Some(1) 2 false"),
    (["."], "nfa_size_limit=239", too_large(239)),
    (["a", "ab"], "nfa_size_limit=520", "2 2 Some(1) 4 true"),
    (["a", "ab"], "nfa_size_limit=519", too_large(519)),
    ([], "nfa_size_limit=40", "0 0 None 0 false"),
    ([], "nfa_size_limit=39", too_large(39)),
    (["^a{65535}a{65535}"], "", "1 1 Some(1) 2 true"),
    (["^^a{65535}a{65535}"], "", too_large(10_485_760)),
    (["^^a{65535}a{65535}"], "nfa_size_limit=10485800", "1 1 Some(1) 2 true"),
    (["^^a{65535}a{65535}"], "nfa_size_limit=none", "1 1 Some(1) 2 true"),
    (["a", "(", ")"], "", refused(OUTSIDE, "Some(1)")),
    (["a", "(", ")"], "nfa_size_limit=0", refused(OUTSIDE, "Some(1)")),
    # Groups that aren't recorded are counted too, and have the same weight.
    (["(a){0}"], "", "1 2 Some(1) 4 false"),
    (["(a){0}"], "which_captures=implicit", "1 2 Some(1) 2 false"),
    (["(a)|b"], "which_captures=none", "1 2 None 2 false"),
    (["(a)|b"], "which_captures=none.nfa_size_limit=399", too_large(399)),
    # Literals are searched for if they are known and the setting is on.
    (["a"], "auto_prefilter=0", "1 1 Some(1) 2 false"),
    (["a"], "auto_prefilter=0.prefilter=none", "1 1 Some(1) 2 false"),
    (["a"], "auto_prefilter=0/auto_prefilter=1", "1 1 Some(1) 2 true"),
    (["ab"], "auto_prefilter=0.prefilter=" + written("a"), "1 1 Some(1) 2 true"),
    (["ab"], "auto_prefilter=0.prefilter=" + written("b"), "1 1 Some(1) 2 false"),
    (["ab|b"], "auto_prefilter=0.prefilter=" + written("b"), "1 1 Some(1) 2 false"),
    (["ab|b"], "prefilter=" + written("b"), "1 1 Some(1) 2 false"),
    (["a"], "match_kind=all", "1 1 Some(1) 2 false"),
    (["a"], "match_kind=all.nfa_size_limit=199", too_large(199)),
    # The number of groups in each match.
    (["(a)|(b)"], "", "1 3 Some(2) 6 false"),
    (["(a)|(b)|c"], "", "1 3 None 6 false"),
    (["((a)(b))|(c(d)(e))"], "", "1 7 Some(4) 14 true"),
    (["(a)?"], "", "1 2 None 4 false"),
    (["(?:a)?(b)"], "", "1 2 Some(2) 4 false"),
    (["(a){2}"], "", "1 2 Some(2) 4 true"),
    (["(a){1,3}"], "", "1 2 Some(2) 4 true"),
    (["(?:(a)|b){0}"], "", "1 2 Some(1) 4 false"),
    (["(?:(a)|b){2}"], "", "1 2 None 4 false"),
    (["(a)", "(b)"], "", "2 4 Some(2) 8 false"),
    (["(a)", "b"], "", "2 3 None 6 false"),
    (["(a)|(b)"], "which_captures=none", "1 3 Some(2) 2 false"),
]

# The results of the getters, in order, and other values of each setting with the results for these.
GETTERS = {
    "match_kind": ("LeftmostFirst", [("all", "All"), ("leftmost", "LeftmostFirst")]),
    "utf8_empty": ("true", [("0", "false"), ("1", "true")]),
    "auto_prefilter": ("true", [("0", "false"), ("1", "true")]),
    "prefilter": ("false", [(written("b"), "true"), ("none", "false")]),
    "which_captures": ("All", [("implicit", "Implicit"), ("none", "None"), ("all", "All")]),
    "byte_classes": ("true", [("0", "false"), ("1", "true")]),
    "hybrid": ("true", [("0", "false"), ("1", "true")]),
    "dfa": ("true", [("0", "false"), ("1", "true")]),
    "nfa_size_limit": ("Some(10485760)", [("400", "Some(400)"), ("none", "None")]),
    "hybrid_cache_capacity": ("2097152", [("0", "0"), ("7", "7")]),
    "dfa_size_limit": ("Some(40960)", [("7", "Some(7)"), ("none", "None")]),
    "dfa_state_limit": ("Some(30)", [("7", "Some(7)"), ("none", "None")]),
    "line_terminator": ("10", [("59", "59"), ("255", "255")]),
}


def about(word, patterns, answer=None, given="", haystack=b"", cut=0, asked=None, settings=Settings()):
    slice_, span, anchored = asked or ((None, None), (None, None), None)
    texts = ".".join(map(written, patterns)) if patterns else "-"
    fields = [texts, *settings.fields(), cut, haystack.hex(), *slice_, *span, anchored, given]
    shown = [pattern[:40] for pattern in patterns]
    name = f"{word} {shown} in {short(haystack)}, cut by {cut}, {asked}, {settings}, under {given or 'nothing'}"
    return Case(name, line_of(word, *fields), answer)


def engines():
    """Each engine on and off."""
    for values in itertools.product("01", repeat=len(ENGINES)):
        yield ".".join(f"{name}={value}" for name, value in zip(ENGINES, values))


def vectors():
    for patterns, haystack, given, answer, *syntax in VECTORS:
        for size, ways in itertools.product(SIZES[:2], engines()):
            settings = syntax[0] if syntax else Settings()
            yield about("under", patterns, answer, f"{ways}/{given}", haystack.encode(), size, settings=settings)


def gives_up():
    """Backward, the automaton gives up; later searches follow threads, until enough bytes were read to try it again."""
    haystack = ("ab " + "a" * 20_000 + "12345678 ") * 11
    given = "hybrid_cache_capacity=0"
    yield about("under", ["[a-z]+[0-9]{8}"], spans(3, 20_008, 20_012, 11), given, haystack.encode())


def counts():
    for patterns, given, answer in COUNTS:
        yield about("counted", patterns, answer, given)


def static_at_random(count=STATIC_CASES):
    """The number of groups in each match of random patterns."""
    chance = random.Random(47)
    maker = Maker(chance, most_nodes=30)
    for _ in range(count):
        trees = [maker.tree() for _ in range(chance.choice((1, 1, 1, 2, 2, 3)))]
        each = static_captures(trees)
        yield about("counted", [spelled(tree) for tree in trees], "None" if each is None else f"Some({each})")


def wrong_static(cases):
    """What is wrong with the number of groups in each match, the third word of the answers to these cases."""
    told, wrong = answers(cases)
    for case, answer in zip(cases, told):
        if answer.split(" ")[2:3] != [case.answer]:
            wrong.append(f"{case.name}: {short(answer.encode())}, not {case.answer}")
    return wrong


def told(values):
    return " ".join(values.get(name, default) for name, (default, _) in GETTERS.items())


def getters():
    """Each setting alone, set twice, and with each of the others; and those that have no getter."""
    cases = [("", {})] + [(given, {}) for given in ("onepass_size_limit=7", "onepass_size_limit=none.backtrack=0")]
    for (name, (_, values)), (other, (_, others)) in itertools.product(GETTERS.items(), repeat=2):
        for (value, shown), (beside, shown_too) in itertools.product(values, others):
            cases.append((f"{other}={beside}/{name}={value}", {other: shown_too, name: shown}))
    for given, values in cases:
        yield about("getters", [], told(values), given)


def settings_at_random(chance):
    """Random settings: whether empty matches inside a character are found, the byte that ends lines, whether all groups
    are recorded, and all of these as a field, with settings that change no answer except engines."""
    inside, line_end = chance.random() < 0.3, chance.choice([b"\n", b"\n", b"a", b"\x81"])
    which = chance.choice(["all", "all", "implicit", "none"])
    given = [f"utf8_empty={int(not inside)}", f"line_terminator={line_end[0]}", f"which_captures={which}"]
    given += [chance.choice(ways) for ways in (CAPACITIES, LIMITS, IDLE)]
    return inside, line_end, which == "all", ".".join(filter(None, given))


def whole_of(model, pattern, start, end):
    """A match without its groups, as its pattern and the spans of its groups."""
    return pattern, [(start, end)] + [None] * (len(model.slots[pattern]) - 1)


def at_random(count=RANDOM_CASES):
    chance = random.Random(43)
    maker = Maker(chance, most_nodes=30)
    for _ in range(count):
        trees = tuple(maker.tree() for _ in range(chance.choice((1, 1, 2, 2, 3, 4))))
        haystack = "".join(map(maker.haystack, trees[:2])).encode()[:14]
        slice_, span, is_tied = asked_at_random(chance, len(haystack))
        anchored = chance.randint(AT_START, len(trees) + FIRST) if is_tied else ANYWHERE
        inside, line_end, all_noted, given = settings_at_random(chance)
        pattern = anchored - FIRST if anchored >= FIRST else None
        model = Search(trees, haystack, slice_, span, is_tied, inside, line_end, pattern)
        matches = model.told()
        if chance.random() < 0.3:
            given += ".match_kind=all"
            matches = [whole_of(model, *found) for found in model.all_told(pattern)]
        noted = ((number, groups if all_noted else groups[:1]) for number, groups in matches)
        answer = " ".join((f"{number}:" if len(trees) > 1 else "") + listed([groups]) for number, groups in noted)
        asked = slice_, span, anchored
        patterns = [spelled(tree) for tree in trees]
        size = chance.choice(SIZES)
        for ways in engines():
            yield about("under", patterns, answer, f"{ways}.{given}", haystack, size, asked)


def usage(given):
    """The memory of a regex, and of a cache before and after a search in which many states are made."""
    case = about("usage", ["[ab]*a[ab]{5}"], None, given, b"abbab" * 40 + b"c")
    return [int(number) for number in answer_to(case.line).out.split()]


def engines_obey():
    """No state is made if engines are off, and no more than the cache can hold."""
    by_default, lazy_off, small = usage(""), usage("hybrid=0"), usage("hybrid_cache_capacity=0")
    all_made = usage("dfa_state_limit=none.dfa_size_limit=none")
    dense_off = usage("dfa_state_limit=none.dfa_size_limit=none.dfa=0")
    by_size = usage("dfa_state_limit=none.dfa_size_limit=9.hybrid=0")
    by_states = usage("dfa_state_limit=9.dfa_size_limit=none.hybrid=0")
    expected = [
        ("fewer states are kept with hybrid off", lazy_off[2] < by_default[2]),
        ("fewer states are kept in a small cache", small[2] < by_default[2]),
        ("states are made with the regex without limits", all_made[0] > by_default[0]),
        ("and a search keeps nothing more then", all_made[2] == all_made[1]),
        ("no state is made with the regex with dfa off", dense_off == by_default),
        ("too few bytes for all states", by_size == lazy_off),
        ("too few states", by_states == lazy_off),
    ]
    return [what for what, holds in expected if not holds]


ROW = (r"\| `(?P<name>\w+)` \| (?:`(?P<default>[^`]+)`|none set) \| [^|]+ "
       r"\| `(?P<pattern>[^`]+)` on `(?P<text>[^`]+)` with `(?P<value>[^`]+)`: (?P<told>[^|]+) \|")


def page():
    """The settings of the table of docs/searching.md: its example of each, and its defaults."""
    rows = example_rows("searching.md", ROW, "Settings")
    for row in rows:
        value = re.fullmatch(r"(?:Some\()?(\w+)\)?", row["value"])[1].lower().replace("false", "0").replace("true", "1")
        given = f"{row['name']}={written(value) if row['name'] == 'prefilter' else value}"
        yield about("under", [row["pattern"]], row["told"], given, row["text"].encode())
    defaults = {row["name"]: row["default"] for row in rows if row["default"]}
    defaults["prefilter"] = {"None": "false"}[defaults["prefilter"]]
    yield about("getters", [], " ".join(defaults[name] for name in GETTERS))


def test_all():
    for name, cases in [
        ("examples and defaults of docs/searching.md", page()),
        ("searches under settings, by each engine", vectors()),
        ("search whose automaton gives up backward", gives_up()),
        ("counts of groups, and refusals, under settings", counts()),
        ("results of getters", getters()),
    ]:
        cases = list(cases)
        test(f"{len(cases)} {name}", problems(cases))
    test(f"{STATIC_CASES} groups in each match, of patterns at random", wrong_static(list(static_at_random())))
    name = f"{RANDOM_CASES} searches at random under settings at random, each with each engine on and off"
    test(name, in_runs(at_random(), 2_000))
    test("engines obey their settings", engines_obey())
    if library() is not None:
        given = "prefilter=" + written("b") + ".dfa_state_limit=9/which_captures=implicit"
        check_memory(about("under", ["a|ab", "(b)+"], "0:0-1 1:1-3", given, b"abb", 1), [WANT, PROGRAM_WANT])
