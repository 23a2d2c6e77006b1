"""The groups of each match of a report by the library, compared with the model's: each match of each line, and numbers
and lines that don't exist; that each search is counted, and that nothing else changes."""
import random

from library import rope_search
from pattern_model import matches_with_groups
from protocol import lines_of, units
from random_patterns import Maker
from test_edits import some_text
from walks import spelled

# In addition to these, random patterns, which have groups too.
PATTERNS = ("(a)|(b)", "((a)|é)+b?", "()a*", "x*", r"(\w)(?:(a)|(b))*", "(a)(a)?(a)?(a)?(a)?(a)?(a)?(a)?(a)?(b)?(b)?", "(🐸)|(?:(a)(b))")
NO_MATCH = (1 << 64) - 1


def state_of(session):
    return session.text, session.matches(), session.changed, session.can_undo, session.counted.wholes


def due_groups(pattern, text, line):
    """The groups 0 to 9 of each match in a line, as columns."""
    data, told = text.encode(), []
    for spans in matches_with_groups(pattern, text):
        spans = (list(spans) + [None] * 10)[:10]
        told.append([span and (line, *(units(data[:place].decode()) for place in span)) for span in spans])
    return told


def asked(session, line, number):
    """The answer, and the number of rows that it is counted as."""
    before = session.counted.rows
    try:
        answer = [group and tuple(group) for group in session.groups_at(line, number)]
    except rope_search.Fault as fault:
        answer = type(fault)
    return answer, session.counted.rows - before


def wrong_groups(seed):
    chosen = random.Random(f"groups {seed}")
    maker = Maker(chosen, most_nodes=30)
    text = some_text(chosen, 16)
    pattern = chosen.choice(PATTERNS) if chosen.random() < 0.4 else spelled(maker.tree())
    with rope_search.Session() as session:
        session.set_text(text)
        if asked(session, 0, 0) != (rope_search.Nothing, 0):
            return ["without a pattern it isn't refused so"]
        session.set_pattern(pattern)
        before = state_of(session)
        wrong = list(wrong_lines(session, text, pattern))
        if state_of(session) != before:
            wrong.append("something has changed")
    return [f"{pattern!r} in {text!r}: {one}" for one in wrong]


def wrong_lines(session, text, pattern):
    lines = lines_of(text)
    for line, (start, end) in enumerate(lines):
        due = due_groups(pattern, text[start:end], line)
        for number, groups in enumerate((*due, rope_search.Range)):
            if (told := asked(session, line, number)) != (groups, 1):
                yield f"match {number} of line {line} has the groups {told}, not {groups}"
        if [groups[0] for groups in due] != [tuple(span) for span in session.matches(line, line + 1)]:
            yield f"the model's matches of line {line} are others"
    for line, number in ((0, NO_MATCH), (len(lines), 0), (NO_MATCH, 0)):
        if (told := asked(session, line, number)) != (rope_search.Range, 1 if line < len(lines) else 0):
            yield f"match {number} of line {line} is {told}"
