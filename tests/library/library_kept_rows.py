"""Rows that a replacement of matches takes out of the report, kept for its undo and its redo: the report after each call,
compared with the model, and whether lines were searched for it. A model says which rows are kept: those of the last
`replace` or `replace_listed` that changes no number of lines, if they are counted as fewer bytes than the text; until its
step leaves the history, or a call sets the pattern, drops it, or is `set_text`, `keep` or `forget`."""
import random

from library import rope_search
from protocol import expanded, lines_of, matches_with_groups, rows_of

PATTERNS = ("[ab]", "c+", r"\bcab", "[a-d]", "never")
TEMPLATES = ("", "<$0>", "abcab", "$0", "d" * 30, "$0\n$0")
# The bytes that are counted for a patch and for a row, and for a match.
EACH, MATCH = 40, 16


def some_line(chosen):
    """A line, mostly a long one, so that its row takes less than its text."""
    words = "".join(chosen.choice("abcd -") for _ in range(chosen.choice((0, 3, 8))))
    return words + chosen.choice(("", "-", "- é 🐸 ", "-" * 90, "-" * 200, "-" * 400))


def line_texts(text):
    return [text[start:end] for start, end in lines_of(text)]


def with_matches_replaced(text, pattern, first, last, template):
    """The text with the matches of some lines replaced, and the lines with a match."""
    lines, touched = line_texts(text), []
    for line in range(first, min(last, len(lines))):
        own, new, at = lines[line].encode(), "", 0
        for groups in matches_with_groups(pattern, lines[line]):
            start, end = groups[0]
            new += own[at:start].decode() + expanded(template, [own[start:end].decode()])
            at = end
            touched += [line] if line not in touched[-1:] else []
        lines[line] = new + own[at:].decode()
    return "\n".join(lines), touched


class Model:
    """The texts of a buffer, and whether changes led to each, or None if that isn't known; the current one; the pattern;
    and the step whose rows are kept, with the lines in which its texts differ."""

    def __init__(self, text):
        self.texts, self.changed = [text], [False]
        self.current, self.pattern, self.step, self.lines = 0, None, None, []

    def text(self):
        return self.texts[self.current]

    def takes_less(self, text):
        """Whether the rows of the step's lines in a text are counted as fewer bytes than the text."""
        rows = rows_of(text, self.pattern)
        patches = sum(1 for line in self.lines if line - 1 not in self.lines)
        counted = EACH * (patches + len(self.lines)) + MATCH * sum(len(rows[line]) for line in self.lines)
        return counted < len(text.encode())

    def keep(self, text, step, lines):
        """Keeps the rows of a text for a step, if they are few."""
        self.step, self.lines = step, lines
        if not self.takes_less(text):
            self.step = None

    def add(self, text, is_changed=True):
        self.texts[self.current + 1:] = [text]
        self.changed[self.current + 1:] = [is_changed]
        self.current += 1
        self.drop_from(self.current)

    def drop_from(self, step):
        if self.step is not None and self.step >= step:
            self.step = None

    def cut(self, first, last):
        """Drops all texts but those from one up to another."""
        self.texts, self.changed = self.texts[first:last], [False, *self.changed[first + 1:last]]

    def move(self, by):
        """Goes one text back or forward, and returns whether that searches lines, or None if that isn't known."""
        text, step = self.text(), self.current + max(by, 0)
        self.current += by
        if self.pattern is None or self.step != step:
            return self.pattern is not None and self.changed[step]
        self.keep(text, step, self.lines)
        return False


def replaced(chosen, session, model):
    """Replaces matches, and returns whether the model does the same."""
    text, lines, template = model.text(), len(lines_of(model.text())), chosen.choice(TEMPLATES)
    first, last = (0, lines) if chosen.random() < 0.6 else (chosen.randrange(lines), chosen.randrange(lines + 2))
    new, touched = with_matches_replaced(text, model.pattern, first, last, template)
    if (first, last) == (0, lines) and chosen.random() < 0.7:
        session.replace(template)
    else:
        session.replace_listed(first, last, template)
    model.add(new, touched != [])
    model.step = None
    if len(lines_of(new)) == lines:
        model.keep(text, model.current, touched)


def edited(chosen, session, model):
    text = model.text()
    line = chosen.randrange(len(lines_of(text)))
    column = chosen.choice((0, len(line_texts(text)[line].split("-")[0])))
    start = sum(len(one) + 1 for one in line_texts(text)[:line]) + column
    inserted = chosen.choice(("", "a", "cab", "\n", "a\nb"))
    if chosen.random() < 0.5:
        session.edit((line, column), (line, column), inserted)
    else:
        session.edit_all([((line, column), (line, column), inserted)])
    model.add(text[:start] + inserted + text[start:])


def pattern_set(chosen, session, model):
    pattern = chosen.choice((model.pattern, *PATTERNS))
    if pattern is None or chosen.random() < 0.2:
        session.off()
        pattern = None
    elif chosen.random() < 0.3:
        session.begin_pattern(pattern)
        while not session.advance(2):
            pass
    else:
        session.set_pattern(pattern)
    model.pattern, model.step = pattern, None


def steps_dropped(chosen, session, model):
    """`keep`, `forget`, `set_text` or `join`."""
    roll, steps = chosen.random(), chosen.randrange(4)
    if roll < 0.4:
        steps = min(steps, model.current)
        session.join(steps)
        if steps > 1:
            model.changed[model.current] = None
            for kept in (model.texts, model.changed):
                kept[model.current - steps + 1:model.current] = []
            model.current -= steps - 1
            model.drop_from(model.current)
        return
    model.step = None
    if roll < 0.6:
        session.keep(steps)
    elif roll < 0.8:
        session.forget()
    else:
        session.set_text(model.text())
    model.cut(max(model.current - steps, 0) if roll < 0.6 else model.current, model.current + 1)
    model.current = len(model.texts) - 1


def wrong_move(session, model, by):
    """What is wrong with an `undo` or a `redo`: whether it searches lines is as the model says."""
    counted, was = session.counted, model.step
    is_searched = model.move(by)
    (session.undo if by < 0 else session.redo)()
    rows = session.counted.rows - counted.rows
    if session.counted.wholes != counted.wholes or is_searched not in (None, rows > 0):
        return [f"{'an undo' if by < 0 else 'a redo'} with the rows of step {was} makes {rows} rows"]
    return []


def wrong_step(chosen, session, model):
    """Makes a call at random, and returns what is wrong with it."""
    roll = chosen.random()
    if roll < 0.25 and model.pattern is not None:
        replaced(chosen, session, model)
    elif roll < 0.6 and model.current > 0:
        return wrong_move(session, model, -1)
    elif roll < 0.8 and model.current + 1 < len(model.texts):
        return wrong_move(session, model, 1)
    elif roll < 0.9:
        edited(chosen, session, model)
    elif roll < 0.95:
        pattern_set(chosen, session, model)
    else:
        steps_dropped(chosen, session, model)
    return []


def wrong_kept_rows(seed):
    """What is wrong with a random session of these calls, in a text with long lines."""
    chosen = random.Random(f"kept rows {seed}")
    model = Model("\n".join(some_line(chosen) for _ in range(chosen.choice((1, 3, 6, 12)))))
    with rope_search.Session() as session:
        session.set_text(model.text())
        model.pattern = chosen.choice(PATTERNS)
        session.set_pattern(model.pattern)
        for _ in range(30):
            wrong = wrong_step(chosen, session, model)
            report = [] if model.pattern is None else rows_of(model.text(), model.pattern)
            listed = [(line, *match) for line, row in enumerate(report) for match in row]
            if session.text != model.text():
                wrong += [f"the text is {session.text!r}, not {model.text()!r}"]
            elif model.pattern is not None and [tuple(span) for span in session.matches()] != listed:
                wrong += [f"the report of {model.pattern!r} in {model.text()!r} is another"]
            if wrong:
                return [f"session {seed}: {one}" for one in wrong]
    return []
