"""Matches of a report replaced by the library, one or all of some lines, compared with the model: the text, the report,
the ranges and the rows after each, why it is refused, and its undo."""
import random

from library import rope_search
from library_lines import answered
from library_text_changes import wrong_ranges
from pattern_model import matches_with_groups
from protocol import expanded, is_utf8, lines_of, rows_of
from random_patterns import Maker
from test_edits import PATTERNS, some_text
from walks import spelled

LIMIT, LAST = 60, (1 << 64) - 1
TEMPLATES = ("", "x", "$0", "<$0>", "$1", "$2$1", "$1\n$0", "\r", "\n", "$$1$9", "é🐸$0", "$0" * 9, "$1" * 20)


def places_of_match(text, line, pattern, number):
    """The byte range of a listed match, and the texts of its groups."""
    start, end = lines_of(text)[line]
    own, before = text[start:end].encode(), len(text[:start].encode())
    groups = matches_with_groups(pattern, text[start:end])[number]
    texts = [span and own[slice(*span)].decode() for span in groups]
    return before + groups[0][0], before + groups[0][1], texts


def replaced(text, pattern, line, number, template):
    """The text with a listed match replaced, and the range of bytes; or why that is refused."""
    if pattern is None:
        return rope_search.Nothing
    rows = rows_of(text, pattern)
    if line >= len(rows) or number >= len(rows[line]):
        return rope_search.Range
    if not is_utf8(template):
        return rope_search.Utf8
    start, end, texts = places_of_match(text, line, pattern, number)
    by, data = expanded(template.decode(), texts).encode(), text.encode()
    if len(data) - (end - start) + len(by) > LIMIT:
        return rope_search.Size
    return (data[:start] + by + data[end:]).decode(), (start, end, start, start + len(by))


def rows_allowed(template, inserted):
    """The number of rows that may be made: one if the template names a group, and one for each line of the replacement."""
    named = any(f"${number}" in template.decode().replace("$$", "") for number in range(1, 10))
    return int(named) + len(lines_of(inserted))


def wrong_replacement(session, text, pattern, line, number, template):
    """What is wrong with the replacement of a match; and the text after it."""
    due, counted, told = replaced(text, pattern, line, number, template), session.counted, session.text_changes
    got = answered(session.replace_match, line, number, template)
    if isinstance(due, type):
        if got is not due or session.text != text or session.text_changes != told or session.counted.rows > counted.rows + 1:
            return [f"it is answered {got}, not {due}, and leaves {session.text!r}"], text
        return [], text
    new, (start, end, _, stop) = due
    if got is not None or session.text != new:
        return [f"it is answered {got} and leaves {session.text!r}, not {new!r}"], text
    most = rows_allowed(template, new.encode()[start:stop].decode())
    wrong = [f"more than {most} rows are made"] if session.counted.rows > counted.rows + most else []
    wrong += ["a whole text is searched"] if session.counted.wholes != counted.wholes else []
    report = [(row, *match) for row, matches in enumerate(rows_of(new, pattern)) for match in matches]
    wrong += [] if [tuple(span) for span in session.matches()] == report else ["the report is another"]
    ranges = [tuple(change) for change in session.text_changes]
    return wrong + list(wrong_ranges(text.encode(), new.encode(), ranges, [(start, end, start, stop)])), new


def some_match(chosen, text, pattern):
    """A listed match of a text, or sometimes one that doesn't exist."""
    listed = [(line, number) for line, row in enumerate(rows_of(text, pattern)) for number in range(len(row))] if pattern is not None else []
    if listed and chosen.random() < 0.8:
        return chosen.choice(listed)
    return chosen.choice((0, 1, 2, len(lines_of(text)), LAST)), chosen.choice((0, 1, 2, 3, LAST))


def wrong_replacements(seed):
    """What is wrong with matches that are replaced one after the other, and with their undo."""
    chosen = random.Random(f"replace {seed}")
    text = some_text(chosen, 14)
    pattern = chosen.choice(PATTERNS) if chosen.random() < 0.5 else spelled(Maker(chosen, most_nodes=20).tree())
    pattern = None if chosen.random() < 0.03 else pattern
    with rope_search.Session(LIMIT) as session:
        session.set_text(text)
        if pattern is not None:
            session.set_pattern(pattern)
        texts = [text]
        for _ in range(5):
            line, number = some_match(chosen, texts[-1], pattern)
            template = b"\xff" if chosen.random() < 0.04 else chosen.choice(TEMPLATES).encode()
            wrong, new = wrong_replacement(session, texts[-1], pattern, line, number, template)
            if wrong:
                return [f"{pattern!r} in {texts[-1]!r}, match {number} of line {line} by {template}: {one}" for one in wrong]
            texts += [new] if session.undo_steps == len(texts) else []
        for text in reversed(texts[:-1]):
            session.undo()
            if session.text != text:
                return [f"an undo leads to {session.text!r}, not {text!r}"]
    return []


# ---- all matches of some lines

def listed_places(text, pattern, first, last):
    """The listed matches of some lines, a list for each: their byte ranges, and the texts of their groups."""
    rows = rows_of(text, pattern)
    return [[places_of_match(text, line, pattern, number) for number in range(len(rows[line]))]
            for line in range(first, min(last, len(rows)))]


def replaced_listed(text, pattern, first, last, template):
    """The text with the matches of some lines replaced, their ranges, and how many rows may be made; or why it is refused."""
    if pattern is None:
        return rope_search.Nothing
    if not is_utf8(template):
        return rope_search.Utf8
    lists, data, new, at, ranges = listed_places(text, pattern, first, last), text.encode(), b"", 0, []
    named = any(f"${number}" in template.decode().replace("$$", "") for number in range(1, 10))
    most = sum(1 for places in lists if places) if named else 0
    for start, end, texts in (place for places in lists for place in places):
        by = expanded(template.decode(), texts)
        new += data[at:start]
        ranges.append((start, end, len(new), len(new) + len(by.encode())))
        new, at, most = new + by.encode(), end, most + len(lines_of(by))
    new += data[at:]
    return rope_search.Size if len(new) > LIMIT else (new.decode(), ranges, most)


def wrong_listed_replacement(session, text, pattern, first, last, template):
    """What is wrong with the replacement of the matches of some lines; and the text after it."""
    due, counted, told = replaced_listed(text, pattern, first, last, template), session.counted, session.text_changes
    count = session.count_matches(first, last)
    got = answered(session.replace_listed, first, last, template)
    if isinstance(due, type):
        most = 0 if due is not rope_search.Size else session.rows
        if got is not due or session.text != text or session.text_changes != told or session.counted.rows > counted.rows + most:
            return [f"it is answered {got}, not {due}, and leaves {session.text!r}"], text
        return [], text
    new, ranges, most = due
    if got != len(ranges) or got != count or session.text != new:
        return [f"it is answered {got}, not {len(ranges)} or {count}, and leaves {session.text!r}, not {new!r}"], text
    wrong = [f"more than {most} rows are made"] if session.counted.rows > counted.rows + most else []
    wrong += ["a whole text is searched"] if session.counted.wholes != counted.wholes else []
    report = [(row, *match) for row, matches in enumerate(rows_of(new, pattern)) for match in matches]
    wrong += [] if [tuple(span) for span in session.matches()] == report else ["the report is another"]
    return wrong + list(wrong_ranges(text.encode(), new.encode(), [tuple(change) for change in session.text_changes], ranges)), new


def wrong_listed_replacements(seed):
    """What is wrong with repeated replacements of the matches of some lines, and with their undo."""
    chosen = random.Random(f"replace listed {seed}")
    text = some_text(chosen, 14)
    pattern = chosen.choice(PATTERNS) if chosen.random() < 0.5 else spelled(Maker(chosen, most_nodes=20).tree())
    pattern = None if chosen.random() < 0.03 else pattern
    with rope_search.Session(LIMIT) as session:
        session.set_text(text)
        if pattern is not None:
            session.set_pattern(pattern)
        texts = [text]
        for _ in range(5):
            lines = len(lines_of(texts[-1]))
            first, last = chosen.choice((0, 0, 1, lines - 1, LAST)), chosen.choice((0, 1, 2, lines, lines, LAST))
            template = b"\xff" if chosen.random() < 0.04 else chosen.choice(TEMPLATES).encode()
            wrong, new = wrong_listed_replacement(session, texts[-1], pattern, first, last, template)
            if wrong:
                return [f"{pattern!r} in {texts[-1]!r}, lines {first} to {last} by {template}: {one}" for one in wrong]
            texts += [new] if session.undo_steps == len(texts) else []
        for text in reversed(texts[:-1]):
            session.undo()
            if session.text != text:
                return [f"an undo leads to {session.text!r}, not {text!r}"]
    return []
