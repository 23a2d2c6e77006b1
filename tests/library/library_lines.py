"""Lines, clamped positions, matches in other units and edits by bytes of the library, compared with plain models: all
lines, columns and bytes of small texts, and some of random texts."""
import ctypes
import itertools
import random

from library import rope_search
from protocol import is_utf8, lines_of, place_of, position_at, rows_of, units
from test_edits import PATTERNS, some_text

ENCODINGS = {"utf-8": lambda part: len(part.encode()), "utf-16": units, "utf-32": len}
MOST = (1 << 64) - 1
LIMIT = 40


def answered(call, *arguments):
    """The answer of a call, or why it is refused."""
    try:
        return call(*arguments)
    except rope_search.Fault as fault:
        return type(fault)


def line_text(text, line):
    start, end = lines_of(text)[line]
    return text[start:end]


def clamped(text, line, column, count):
    """The position nearest to a line and a column, for a way to count the columns of a text."""
    lines = lines_of(text)
    if line >= len(lines):
        return position_at(text, len(text))
    own = line_text(text, line)
    fronts = [own[:place] for place in range(len(own) + 1) if count(own[:place]) <= column]
    return line, units(fronts[-1])


def wrong_lines(session, text):
    """What is wrong with a text's lines, and with clamped positions: for all columns up to two past the end, and for
    the greatest."""
    lines, most = len(lines_of(text)), len(text.encode()) + 2
    for encoding, count in ENCODINGS.items():
        for line in (*range(lines + 2), MOST):
            due = count(line_text(text, line)) if line < lines else rope_search.Range
            if (told := answered(session.line_len, line, encoding)) != due:
                yield f"line {line} of {text!r} has the length {told} by {encoding}, not {due}"
            for column in (*range(most), MOST):
                due = tuple(clamped(text, line, column, count))
                if (told := answered(session.clamp, line, column, encoding)) != due:
                    yield f"{line}, {column} of {text!r} is clamped to {told} by {encoding}, not {due}"
                elif answered(session.byte_of, told) is rope_search.Range:
                    yield f"{line}, {column} of {text!r} is clamped to {told}, which is nowhere"
    for line in (*range(lines + 2), MOST):
        due = line_text(text, line) if line < lines else rope_search.Range
        if (told := answered(session.line_text, line)) != due:
            yield f"line {line} of {text!r} is returned as {told!r}"
    if answered(session.clamp, 0, 0, "utf-7") is not rope_search.Range or answered(session.line_len, 0, "utf-7") is not rope_search.Range:
        yield "another encoding is taken"


def wrong_copies(session, text):
    """What is wrong with copies of lines in a caller's array, with as much room as the line takes, with less and with
    more."""
    calls, handle = rope_search.library(), session._handle
    for line in range(len(lines_of(text)) + 1):
        own = line_text(text, line).encode() if line < len(lines_of(text)) else None
        for room in {0, 3, *(() if own is None else (max(0, len(own) - 1), len(own), len(own) + 1))}:
            out = ctypes.create_string_buffer(b"\xa5" * (room + 1), room + 1)
            due = own is not None and len(own) <= room
            done = calls.rope_search_copy_line(handle, line, out, room)
            if done != due or out.raw != ((own if due else b"") + b"\xa5" * (room + 1))[: room + 1]:
                yield f"line {line} of {text!r} is copied wrong into {room}: {done}, {out.raw}"


def wrong_matches(session, text, pattern, chosen):
    """What is wrong with the matches of some rows in each unit."""
    calls, handle = rope_search.library(), session._handle
    rows = rows_of(text, pattern) if pattern is not None else []
    for bits, count in zip((8, 16, 32, 0, 7, 64), (*ENCODINGS.values(), None, None, None)):
        first, last = (chosen.choice((0, 1, len(rows), chosen.randint(0, len(rows) + 2), MOST)) for _ in range(2))
        due = []
        for line in range(first, min(last, len(rows))) if count else ():
            own, at = line_text(text, line), lines_of(text)[line][0]
            due += [(line, *(count(own[: place_of(text, line, column) - at]) for column in match)) for match in rows[line]]
        room = chosen.choice((0, 1, len(due), max(0, len(due) - 1), len(due) + 2))
        out = (rope_search._Span * (room + 1))()
        ctypes.memset(out, 0xA5, ctypes.sizeof(out))
        before = bytes(out)
        told = calls.rope_search_copy_matches_in(handle, bits, first, last, out, room)
        got = [(span.line, span.start, span.stop) for span in out[: min(told, room)]]
        if told != len(due) or got != due[:room] or bytes(out)[24 * len(got):] != before[24 * len(got):]:
            yield f"{pattern!r} in rows {first} to {last} of {text!r} by {bits} bits: {told}, {got}, not {due}"


def wrong_text(text):
    chosen = random.Random(text)
    with rope_search.Session() as session:
        session.set_text(text)
        wrong = [*wrong_lines(session, text), *wrong_copies(session, text)]
        for pattern in (None, *PATTERNS):
            if pattern is not None:
                session.set_pattern(pattern)
            wrong += [one for _ in range(3) for one in wrong_matches(session, text, pattern, chosen)]
        return wrong


def wrong_small():
    """For all texts of at most three characters, and some longer ones, one of them with lines that span chunks."""
    small = ["".join(text) for count in range(4) for text in itertools.product("\n\ra\u00e9\U0001f438", repeat=count)]
    return [one for text in (*small, "a\u00e9\U0001f438b\r\nx\ry\n", "\u2028a\v") for one in wrong_text(text)]


def wrong_long():
    """For a text with lines that span chunks, at some columns."""
    text = ("a\u00e9\U0001f438" * 900 + "\r\n") * 3
    chosen = random.Random(4)
    with rope_search.Session() as session:
        session.set_text(text)
        session.set_pattern("\U0001f438a")
        for encoding, count in ENCODINGS.items():
            own = line_text(text, 1)
            for column in (0, 2_000, 3_601, chosen.randint(0, 9_000), chosen.randint(0, 9_000)):
                fitting = max(place for place in range(len(own) + 1) if count(own[:place]) <= column)
                if (told := session.clamp(1, column, encoding)) != (1, units(own[:fitting])):
                    yield f"column {column} of a long line is clamped to {told} by {encoding}"
            due = [(line, count(own[:place]), count(own[: place + 2])) for line in range(3) for place in range(2, len(own) - 1, 3)]
            if [tuple(span) for span in session.matches(encoding=encoding)] != due:
                yield f"the matches of long lines are wrong in {encoding}"


# ---- edits by bytes


def places_of(text):
    """The number of characters before each byte offset that is a position."""
    return {len(text[:place].encode()): place for place in range(len(text) + 1) if text[place - 1 : place + 1] != "\r\n" or place == 0}


def wrong_edits(seed):
    """What is wrong with edits by bytes of a random text, and with undoing them."""
    chosen = random.Random(f"bytes {seed}")
    text, pattern = some_text(chosen, 12), chosen.choice((None, *PATTERNS))
    with rope_search.Session(LIMIT) as session:
        session.set_text(text)
        if pattern is not None:
            session.set_pattern(pattern)
        texts = [text]
        for _ in range(6):
            places, most = places_of(texts[-1]), len(texts[-1].encode())
            first, last = (chosen.choice((chosen.randint(0, most + 1), chosen.choice(list(places)), MOST)) for _ in range(2))
            payload = b"\xff" if chosen.random() < 0.05 else some_text(chosen, chosen.choice((0, 1, 2, 20))).encode()
            due = None
            if first not in places or last not in places or last < first:
                due = rope_search.Range
            elif not is_utf8(payload):
                due = rope_search.Utf8
            elif most - (last - first) + len(payload) > LIMIT:
                due = rope_search.Size
            rows = session.counted.rows
            if (told := answered(session.edit_bytes, first, last, payload)) is not due:
                return [f"{first} to {last} of {texts[-1]!r}, by {payload}: {told}, not {due}"]
            if due is None:
                texts.append(texts[-1][: places[first]] + payload.decode() + texts[-1][places[last] :])
            allowed = len(lines_of(payload.decode())) if due is None and pattern is not None else 0
            if session.text != texts[-1] or session.counted.rows - rows > allowed:
                return [f"{first} to {last} of {texts[-2:]}, by {payload}, leaves {session.text!r}, {session.counted}"]
            report = [(line, *match) for line, row in enumerate(rows_of(texts[-1], pattern)) for match in row] if pattern is not None else []
            if [tuple(span) for span in session.matches()] != report:
                return [f"{first} to {last} of {texts[-2:]}, by {payload}, leaves another report"]
        for text in reversed(texts[:-1]):
            session.undo()
            if session.text != text:
                return [f"an undo leads to {session.text!r}, not {text!r}"]
    return []


def wrong_numbers():
    """A number that C can't represent raises an error, and isn't truncated."""
    with rope_search.Session() as session:
        session.set_text("a")
        for call in (lambda: session.byte_of((1 << 64, 0)), lambda: session.edit((0, -1), (0, 0), ""),
                     lambda: session.choose(1 << 64), lambda: session.clamp(0, 1 << 64), lambda: session.edit_bytes(-1, 0, ""),
                     lambda: session.line_len(1 << 64), lambda: session.position_of(1 << 65),
                     lambda: rope_search.Session(1 << 64)):
            try:
                yield f"{call()} is answered"
            except ctypes.ArgumentError:
                pass
