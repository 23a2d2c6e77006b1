"""Haystacks in chunks, on bin/search-driver: the chunks that a cursor shows, forward and backward, over slices and over
parts of ropes; what is seen at each offset, including the assertions that hold there, compared with the model of
tests/models/walks.py; and where positions move."""
import itertools

from driver import Case, answers, line_of, problems
from harness import short, test
from walks import CONTINUE, LOOKS

# The signs of assertions, in the order of an answer.
SIGNS = [("A", "\\A"), ("z", "\\z"), ("^", "(?m:^)"), ("$", "(?m:$)"), ("b", "\\b"), ("B", "\\B")]
SIDE = 4  # the number of bytes on each side that assertions see

# Haystacks, how they are split, and the chunks that are shown. Chunks may split a character, and empty ones aren't
# shown.
SHOWN = [
    (b"a\xe3\x81", "0", [b"a\xe3\x81"]),
    ("aせ".encode(), "0", ["aせ".encode()]),
    ("aせ".encode(), "1", [b"a", b"\xe3", b"\x81", b"\x9b"]),
    ("aせ".encode(), "3", [b"a\xe3\x81", b"\x9b"]),
    (b"", "0", [b""]),
    (b"", "1", [b""]),
    (b"", "0.0", [b""]),
    ("aせb".encode(), "0.2.0.0.1.2", [b"a\xe3", b"\x81", b"\x9bb"]),
    (b"one two", "4.0", [b"one ", b"two"]),
]

# Leaves of ropes over parts of which cursors move.
LEAVES = [[], ["aせ"], ["a", "せ", "🐸b"], ["ab", "\r\n", "c"], ["é\r", "a\n", "x", "yz"], ["ab"] * 40]

WHOLE = "aせb🐸".encode()
CUTS = ["0", "1", "2.0.5.1.1", "3"]  # how it is split

# Haystacks for which everything at each offset of each slice is compared.
SEEN = [WHOLE, b"", b"a b c", "a é\nb".encode(), b"a\r\nb\n", b"a.\xf0\x9f\x90 b", b"a\xc3\xc3\xa9b", b"a\x90\xb8a"]
SEEN += [b"\0a\0"]

# The assertions between bytes before an offset and bytes after it, if a line feed ends a line.
LOOKS_BETWEEN = [
    (b"", b"", "Az^$B"),
    (b"", b"a", "A^b"),
    (b" ", b"", "z$B"),
    (b"a", b" ", "b"),
    (b"a", b"b", "B"),
    (b".", b" ", "B"),
    (b"a\n", b"b", "^b"),
    (b"a", b"\nb", "$b"),
    (b"a", b"\r\n", "b"),
    (b"a\xc3\xa9", b"\xe3\x81\x9b", "B"),
    (b"a\xc3", b"\xa9b", ""),
    (b"a\xf0\x9f\x90", b" ", ""),
    (b"a", b"\x90\xb8a", "b"),
    (b"\xf0\x9f\x90\xb8", b"a", "b"),
]


def walk_over(pieces, first=0):
    """The answer for a walk over chunks from one of them to the last and back to the first."""
    starts = itertools.accumulate(map(len, pieces), initial=0)
    told = [f"{start}:{piece.hex()}" for start, piece in zip(starts, pieces)]
    return " ".join([f"Some({sum(map(len, pieces))})", *told[first:], "|", *reversed(told), "|", told[0]])


def shown():
    for haystack, cut, pieces in SHOWN:
        name = f"pieces of {short(haystack)} cut by {cut}"
        yield Case(name, line_of("pieces", cut, haystack.hex()), walk_over(pieces))


def of_part(leaves, start, end):
    """The chunks of a part of a rope with these leaves: one empty chunk if it has no byte."""
    starts = itertools.accumulate(map(len, leaves), initial=0)
    parts = [leaf[max(start - at, 0) : max(end - at, 0)] for at, leaf in zip(starts, leaves)]
    return list(filter(None, parts)) or [b""]


def holding(pieces, at):
    """The index of the chunk that contains the byte at an offset, or of the last one if there is none."""
    ends = itertools.accumulate(map(len, pieces))
    return next((index for index, end in enumerate(ends) if at < end), len(pieces) - 1)


def chunks_shown():
    """The chunks of cursors over parts of ropes, created at the start and at each offset. A part may begin inside a CR
    LF, but no leaf and no part splits a character."""
    for leaves in LEAVES:
        text = "".join(leaves)
        bounds = [len(text[:index].encode()) for index in range(len(text) + 1)]
        leaves = [leaf.encode() for leaf in leaves]
        cut = ".".join(str(len(leaf)) for leaf in [*leaves, b""])
        for start, end in itertools.combinations_with_replacement(bounds[:: 1 + len(leaves) // 8], 2):
            pieces = of_part(leaves, start, end)
            for at in [None, *range(end - start + 1)]:
                name = f"chunks of {start}..{end} of {short(text.encode())} cut by {cut}, at {at}"
                line = line_of("chunks", cut, text.encode().hex(), start, end, at)
                yield Case(name, line, walk_over(pieces, holding(pieces, at or 0)))


def signs_at(haystack, slice_, at, line_end):
    before, after = haystack[slice_[0] : at], haystack[at : slice_[1]]
    return "".join(sign for sign, look in SIGNS if LOOKS[look](before, after, line_end))


def place(haystack, slice_, end, at, line_end):
    """What is seen at an offset of a slice, in a span that ends there."""
    before = haystack[max(slice_[0], at - SIDE) : at].hex()
    after = haystack[at : min(slice_[1], at + SIDE)].hex()
    is_boundary = haystack[at : at + 1] not in CONTINUE
    byte = haystack[at] if at < min(slice_[1], end, len(haystack)) else "-"
    return f"{at},{str(is_boundary).lower()},{before},{after},{byte},{signs_at(haystack, slice_, at, line_end)}"


def seen_in(haystack, cut, slice_, span, line_end=b"\n"):
    places = range(slice_[0], min(slice_[1], len(haystack)) + 1)
    answer = " ".join(place(haystack, slice_, span[1], at, line_end) for at in places)
    name = f"places of {short(haystack)} cut by {cut}, slice {slice_}, span {span}, lines end in {line_end}"
    return Case(name, line_of("places", cut, haystack.hex(), *slice_, *span, 0, line_end[0]), answer)


def pairs(low, high):
    return itertools.combinations_with_replacement(range(low, high + 1), 2)


def seen():
    for haystack, cut in itertools.product(SEEN, CUTS):
        for slice_ in pairs(0, len(haystack)):
            yield seen_in(haystack, cut, slice_, slice_)
        yield seen_in(haystack, cut, (0, len(haystack)), (0, len(haystack) // 2))
        yield seen_in(haystack, cut, (0, len(haystack)), (0, len(haystack) + 2), b"\0")
        yield seen_in(haystack, cut, (0, len(haystack) + 3), (0, len(haystack)), b" ")


def wrong_looks():
    """Where the model disagrees with the list of assertions between bytes."""
    for before, after, due in LOOKS_BETWEEN:
        found = signs_at(before + after, (0, len(before + after)), len(before), b"\n")
        if found != due:
            yield f"between {short(before)} and {short(after)} the model has {found}, not {due}"


def looks_between():
    """What is seen between the given bytes; the assertions are the model's."""
    for (before, after, _), cut in itertools.product(LOOKS_BETWEEN, CUTS):
        both = before + after
        yield seen_in(both, cut, (0, len(both)), (0, len(both)))


def moved_to(at, start, end, length):
    """Where the position is once the span is set, from the whole haystack to this one."""
    return min(start, length) if at < start else min(end, length) if end < at else at


def moves():
    for cut, at in itertools.product(CUTS, range(len(WHOLE))):
        for start in range(len(WHOLE) + 2):
            for end in range(max(start - 1, 0), len(WHOLE) + 3):
                name = f"move from {at} into {start}..{end} of {short(WHOLE)} cut by {cut}"
                to = moved_to(at, start, end, len(WHOLE))
                yield Case(name, line_of("moved", cut, WHOLE.hex(), at, start, end), str(to))


def wrong_moves():
    """What is wrong with positions, and with the chunks that are shown there."""
    cases = list(moves())
    told, wrong = answers(cases)
    for case, answer in zip(cases, told):
        to, rest, offset = (answer.split(" ") + ["", "0"])[:3]
        if to != case.answer or not WHOLE[int(to) :].startswith(bytes.fromhex(rest)) or int(offset) > int(to):
            wrong.append(f"{case.name}: {answer}, not {case.answer}")
        if int(to) < len(WHOLE) and not rest:
            wrong.append(f"{case.name}: the piece that is shown has no byte there")
    return wrong


def test_all():
    parts = [
        ("contents with pieces that are shown", shown()),
        ("cursors at places of parts of ropes", chunks_shown()),
        ("contents with places that are looked at", seen()),
    ]
    for name, cases in parts:
        cases = list(cases)
        test(f"{len(cases)} {name}", problems(cases))
    cases = list(looks_between())
    test(f"the assertions that hold in {len(cases)} haystacks", [*wrong_looks(), *problems(cases)])
    test("positions move into each span from each place", wrong_moves())
