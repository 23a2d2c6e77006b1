"""The first matches of a whole text from a position on by the library, compared with the model's: from each position of a
text and from some that are nowhere, with room for all, for some and for none; that one search is counted, and that nothing
else changes."""
import ctypes
import random

from library import rope_search
from library_lines import answered
from pattern_model import matches
from protocol import place_of, position_at, positions_of
from random_patterns import Maker
from test_edits import PATTERNS, some_text
from walks import spelled

LAST = (1 << 64) - 1
# Matches that span lines, that overlap where they are searched for from another place, and that are empty.
ALSO = ("aa", "a|aa", r"\s+", r"\n", r"a\n?a", "(?s).{1,3}", r"\r", "x*", r"\b", "(?m)^", r"a*\s*")


def state_of(session):
    return session.text, session.matches(), session.changed, session.text_changes, session.undo_steps, session.counted.rows


def due_from(text, pattern, spot):
    """The matches of the whole text that start at a position or after it; or why they are refused."""
    if pattern is None:
        return rope_search.Nothing
    place = place_of(text, *spot)
    if place is None:
        return rope_search.Range
    return [tuple(position_at(text, end) for end in span) for span in matches(pattern, text) if span[0] >= place]


def copied(session, spot, room):
    """What a call leaves in a larger array: the status, the number, and the elements."""
    out, count = (rope_search._TextMatch * (room + 2))(), ctypes.c_size_t(7)
    ctypes.memset(out, 0xA5, ctypes.sizeof(out))
    status = rope_search.library().rope_search_next_all(session._handle, rope_search._Position(*spot), out, room, count)
    return status, count.value, out


def wrong_copy(session, due, spot, room):
    """What is wrong with the matches that are copied into so much room."""
    status, count, out = copied(session, spot, room)
    if isinstance(due, type):
        fits = (status, count) == (rope_search.FAULTS.index(due) + 1, 0)
        return [] if fits and bytes(out) == b"\xa5" * ctypes.sizeof(out) else [f"it is answered {status}, {count}, not {due}"]
    got = [((one.start.line, one.start.column), (one.stop.line, one.stop.column)) for one in out[: min(count, room)]]
    rest = bytes(out)[32 * len(got) :]
    if (status, got) != (0, due[:room]) or count != len(got) or rest != b"\xa5" * len(rest):
        return [f"with room for {room} it is {count}: {got}, not {due}"]
    return []


def wrong_from(session, text, pattern, chosen):
    spots = [*positions_of(text), (0, LAST), (LAST, 0), (0, len(text) + 1)]
    for spot in chosen.sample(spots, min(6, len(spots))):
        due, counted = due_from(text, pattern, spot), session.counted.wholes
        if (told := answered(session.next_all, spot)) != due:
            yield f"from {spot} they are {told}, not {due}"
        for room in {0, 1, 2, len(due) if isinstance(due, list) else 1}:
            for one in wrong_copy(session, due, spot, room):
                yield f"from {spot} {one}"
            counted += isinstance(due, list)
        counted += isinstance(due, list)
        if session.counted.wholes != counted:
            yield f"from {spot} {session.counted.wholes - counted} more whole texts are searched"
    if pattern is not None and session.next_all((0, 0), 1) != [one for one in [session.next((0, 0))] if one]:
        yield "the first match isn't the next one"


def wrong_text_matches(seed):
    chosen = random.Random(f"text matches {seed}")
    text = some_text(chosen, 14)
    pattern = chosen.choice([*PATTERNS, *ALSO]) if chosen.random() < 0.7 else spelled(Maker(chosen, most_nodes=20).tree())
    with rope_search.Session() as session:
        session.set_text(text)
        wrong = [f"without a pattern: {one}" for one in wrong_from(session, text, None, chosen)]
        session.set_pattern(pattern)
        before = state_of(session)
        wrong += wrong_from(session, text, pattern, chosen)
        wrong += [] if state_of(session) == before else ["something has changed"]
    return [f"{pattern!r} in {text!r}: {one}" for one in wrong]
