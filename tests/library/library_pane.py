"""The document of the search pane over the library: its text, its history, in which letters that are typed one after the
other are one step, its rows, which are made in slices, and its look-ups, beside the model."""
import os
import random
import sys

import library  # names the library
from harness import TOP
from library_replacing import listed_places
from protocol import expanded, lines_of, matches_with_groups, place_of, positions_of, rows_of

sys.path.insert(0, os.path.join(TOP, "examples"))
from pane_parts import library as pane_library
from pane_parts.document import Refused
from pane_parts.text import Text

LINES = ("one two", "a line", "", "none", "ab\rone", "\N{FROG FACE} one")
PATTERNS = ("one", "n", "l|$", "\\w+", "e\\s*n", "(", "")
INSERTED = ("x", "one\n", "\n", "n\r", "")
TEMPLATES = ("", "<$0>", "n\n")
KINDS = ("pattern", "advance", "advance", "show", "edit", "letters", "undo", "redo", "replace", "many")
SLICE, FEW = 3, 2


class Model:
    """The texts of the history, one of which is current, and the pattern."""

    def __init__(self, text):
        self.texts, self.at, self.pattern = [text], 0, None

    @property
    def text(self):
        return self.texts[self.at]

    def add(self, text):
        self.texts[self.at + 1 :] = [text]
        self.at += 1

    def edited(self, first, last, text):
        start, end = place_of(self.text, *first), place_of(self.text, *last)
        return self.text[:start] + text + self.text[end:]

    def replaced(self, template):
        """The text with the listed matches replaced, or, where none is, with those of the whole text; and how many."""
        data, new, at = self.text.encode(), b"", 0
        places = [place for row in listed_places(self.text, self.pattern, 0, len(lines_of(self.text))) for place in row]
        if not places:
            for groups in matches_with_groups(self.pattern, self.text):
                places.append((*groups[0], [span and data[slice(*span)].decode() for span in groups]))
        for start, end, texts in places:
            new, at = new + data[at:start] + expanded(template, texts).encode(), end
        return (new + data[at:]).decode(), len(places)


def type_letters(chosen, shown, model, place):
    """Types letters one after the other: one step."""
    for number in range(chosen.randrange(1, 4)):
        new = model.edited(place, place, "o")
        place = shown.edit(place, place, "o", number > 0)
        if number > 0:
            model.at -= 1
        model.add(new)


def change(chosen, shown, model, kind):
    """Makes a call of the document at random, and of the model."""
    places = positions_of(model.text)
    first, last = sorted(chosen.choices(places, k=2))
    if kind == "pattern":
        model.pattern = None
        pattern = chosen.choice(PATTERNS)
        shown.set_pattern(pattern)
        model.pattern = pattern or None
    elif kind == "advance" and shown.is_pending:
        shown.advance()
    elif kind == "show":
        shown.show(range(chosen.randrange(4), chosen.randrange(9)))
    elif kind == "edit":
        text = chosen.choice(INSERTED)
        new = model.edited(first, last, text)
        shown.edit(first, last, text)
        model.add(new)
    elif kind == "letters":
        type_letters(chosen, shown, model, first)
    elif kind == "many" and chosen.random() < 0.2:
        new = model.edited(first, first, "one\n" * 300)
        shown.edit(first, first, "one\n" * 300)
        model.add(new)
    elif kind == "replace" and model.pattern:
        template = chosen.choice(TEMPLATES)
        new, count = model.replaced(template)
        assert shown.replace(template) == count
        model.add(new)
    elif kind in ("undo", "redo"):
        getattr(shown, kind)()
        model.at += 1 if kind == "redo" else -1


def wrong_rows(shown, model):
    """What is wrong with the rows of lines, whether they are done or not."""
    rows = rows_of(model.text, model.pattern) if model.pattern else [[]] * len(lines_of(model.text))
    shown.show(range(1, 5))
    for line in range(min(8, len(rows))):
        if shown.row(line) != [tuple(span) for span in rows[line]]:
            yield f"row {line} is {shown.row(line)}, not {rows[line]}"


def wrong_look_ups(shown, model):
    """What is wrong with look-ups once all lines are done."""
    rows = rows_of(model.text, model.pattern) if model.pattern else []
    matches = [(line, *span) for line, row in enumerate(rows) for span in row]
    if shown.count != len(matches):
        yield f"there are {shown.count} matches, not {len(matches)}"
        return
    for number, (line, *span) in enumerate(matches[:12]):
        span = tuple(span)
        due = [number + 1, *((matches + [None])[number + 1 :][:1]), *([None] + matches)[number : number + 1]]
        told = [shown.number_of(line, *span), shown.match_behind(line, span), shown.match_before(line, span)]
        if told != due:
            yield f"match {number} has {told}, not {due}"


def wrong_text(shown, model):
    """What is wrong with the text, beside one that the pane keeps itself."""
    own, shown_lines = Text(model.text), shown.text
    if shown_lines.whole() != model.text or shown_lines.count != own.count:
        yield f"the text is {shown_lines.whole()[:200]!r}, not {model.text[:200]!r}"
        return
    for line in range(min(6, own.count)):
        lines = [(text.line(line), text.break_of(line), text.break_near(line), text.clamped(line, 99)) for text in (own, shown_lines)]
        steps = [(text.behind(line, 0), text.before(line, 0), text.before(*text.clamped(line, 9))) for text in (own, shown_lines)]
        if lines[0] != lines[1] or steps[0] != steps[1]:
            yield f"line {line} has {lines[1]}, {steps[1]}, not {lines[0]}, {steps[0]}"


def wrong_document(seed):
    chosen, pane_library.SLICE, pane_library.FEW = random.Random(f"pane {seed}"), SLICE, FEW
    model = Model("\n".join(chosen.choice(LINES) for _ in range(chosen.randrange(1, 14))))
    shown, wrong = pane_library.LibraryDocument(model.text), []
    for _ in range(14):
        kind = chosen.choice(KINDS)
        state, before = shown.state(), model.text
        try:
            change(chosen, shown, model, kind)
        except Refused:
            if kind not in ("pattern", "undo", "redo") or model.text != before:
                wrong.append(f"{kind} is refused")
        wrong += [f"after {kind}: {one}" for one in (*wrong_text(shown, model), *wrong_rows(shown, model))]
        wrong += [] if shown.state() is state or shown.state() in shown.states else [f"after {kind} the state is another"]
        if len(shown.states) != len(model.texts) or shown.at != model.at or shown.session.undo_steps != model.at:
            wrong.append(f"after {kind} the history has {len(shown.states)} texts, not {len(model.texts)}")
        if wrong:
            break
    shown.finish()
    wrong += wrong or wrong_look_ups(shown, model)
    shown.close()
    return [f"session {seed}: {one}" for one in wrong[:3]]
