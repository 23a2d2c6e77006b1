"""The matches in a report by the library, compared with the model's rows: the first from a position on, the last before
it, and the index of each among all."""
import random

from library import rope_search
from protocol import rows_of
from random_patterns import Maker
from test_edits import PATTERNS, some_text
from walks import spelled

LAST = (1 << 64) - 1


def all_listed(rows):
    """The matches of rows: each with its line, its number in the row, and its columns."""
    return [(line, number, *span) for line, row in enumerate(rows) for number, span in enumerate(row)]


def wrong_look_ups(session, rows):
    """What is wrong with look-ups in a report from positions in it and around it, and by lines and numbers."""
    matches = all_listed(rows)
    spots = {(line, column + more) for line, _, *span in matches for column in span for more in (-1, 0, 1) if column + more >= 0}
    spots |= {(line, column) for line in (0, 1, len(rows), LAST) for column in (0, LAST)}
    for spot in sorted(spots):
        due = next((match for match in matches if (match[0], match[2]) >= spot), None)
        if (told := session.listed_from(spot)) != due:
            yield f"from {spot} it is {told}, not {due}"
        due = next((match for match in reversed(matches) if (match[0], match[2]) < spot), None)
        if (told := session.listed_before(spot)) != due:
            yield f"before {spot} it is {told}, not {due}"
    for index, (line, number, _, _) in enumerate(matches):
        if (told := session.list_index(line, number)) != (index, len(matches)):
            yield f"match {number} of line {line} is {told}, not {index} of {len(matches)}"
    for line, number in ((0, LAST), (LAST, 0), *((line, len(row)) for line, row in enumerate(rows)), (len(rows), 0)):
        if (told := session.list_index(line, number)) is not None:
            yield f"there is a match {number} of line {line}: {told}"


def wrong_listed(seed):
    chosen = random.Random(f"listed {seed}")
    text = some_text(chosen, 16)
    pattern = chosen.choice(PATTERNS) if chosen.random() < 0.6 else spelled(Maker(chosen, most_nodes=30).tree())
    with rope_search.Session() as session:
        session.set_text(text)
        wrong = [f"without a pattern: {one}" for one in wrong_look_ups(session, [])]
        session.set_pattern(pattern)
        wrong += wrong_look_ups(session, rows_of(text, pattern))
    return [f"{pattern!r} in {text!r}: {one}" for one in wrong]
