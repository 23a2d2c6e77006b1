"""The ranges of bytes that the library reports as replaced, and its number of undo steps, compared with a mirror: the
expected ranges, and the old text with each range replaced by the new text's range, from the last to the first."""
import functools
import itertools
import random

from library import reply, rope_search
from library_edits import LIMIT, after, places_in, some_edits
from protocol import Session, lines_of, matches_with_groups, parts_replaced, place_of
from test_edits import PATTERNS, some_text

CHANGING = ("text", "edit", "undo", "redo", "replace")
SMALL = "\r\na"
MOST = (1 << 64) - 1


def bytes_in(text):
    return len(text.encode())


def ranges_of(old, parts):
    """The ranges between parts of a text that stay: each part has its start and end in the old text, in characters, and
    its replacement."""
    ranges, moved = [], 0
    for start, stop, new in parts:
        first, last = bytes_in(old[:start]), bytes_in(old[:stop])
        ranges.append((first, last, first + moved, first + moved + bytes_in(new)))
        moved += bytes_in(new) - (last - first)
    return ranges


def raised(call):
    """Whether a call is refused because there is nothing to undo."""
    try:
        call()
    except rope_search.Nothing:
        return True
    return False


def turned(ranges):
    return [(start, stop, first, last) for first, last, start, stop in ranges]


def composed(length, steps):
    """The composed ranges of several steps, of a text of this number of bytes: they contain no byte that stays through
    all steps."""
    stays = list(range(length))
    for ranges in steps:
        behind, at = [], 0
        for first, last, start, stop in ranges:
            behind += stays[at:first] + [None] * (stop - start)
            at = last
        stays = behind + stays[at:]
    ranges, at, at_new = [], 0, 0
    for new, old in [*enumerate(stays), (len(stays), length)]:
        if old is not None:
            if old > at or new > at_new:
                ranges.append((at, old, at_new, new))
            at, at_new = old + 1, new + 1
    return ranges


def applied(old, new, ranges):
    """The old text with each range replaced by the new text's, from the last to the first, as in a client that mirrors the
    text."""
    for first, last, start, stop in reversed(ranges):
        old = old[:first] + new[start:stop] + old[last:]
    return old


def wrong_ranges(old, new, told, due):
    """What is wrong with the ranges that are reported for two texts in bytes."""
    if due is not None and told != due:
        yield f"{told} are reported, not {due}"
    ends = [(0, 0), *((last, stop) for _, last, _, stop in told)]
    for (at, at_new), (first, last, start, stop) in zip(ends, told):
        if not (at <= first <= last <= len(old) and at_new <= start <= stop <= len(new)):
            yield f"{told} don't ascend within {len(old)} and {len(new)} bytes"
        if old[at:first] != new[at_new:start]:
            yield f"before {(first, last, start, stop)} the texts differ"
        if any(text[place : place + 1] and text[place] & 0xC0 == 0x80 for text, place in
               ((old, first), (old, last), (new, start), (new, stop))):
            yield f"{(first, last, start, stop)} cuts a character"
    if applied(old, new, told) != new:
        yield f"{old!r} with {told} is {applied(old, new, told)!r}, not {new!r}"


class Mirror:
    """A session of the model, with what each buffer reports, and for each of its texts the ranges that led to it."""

    def __init__(self):
        self.model, self.told, self.led = Session(), [[]], [[[]]]

    def due(self, word, numbers, payload):
        """The expected ranges of an accepted command, for the buffer before it."""
        buffer, led = self.model.buffer, self.led[self.model.chosen]
        old = buffer.text
        if word == "text":
            return [(0, bytes_in(old), 0, len(payload))]
        if word == "edit":
            return ranges_of(old, [(place_of(old, *numbers[:2]), place_of(old, *numbers[2:4]), payload.decode())])
        if word == "replace":
            return ranges_of_matches(old, buffer.pattern, payload.decode())
        return turned(led[buffer.at]) if word == "undo" else led[buffer.at + 1]

    def carried_out(self, command):
        word, numbers, payload = command
        number, at = self.model.chosen, self.model.buffer.at
        due = None
        if word in CHANGING and not self.model.refusal(*command):
            due = self.due(*command)
        answer = self.model.reply(command)
        if due is not None:
            self.told[number] = due
            if word == "text":
                self.led[number] = [[]]
            elif word in ("edit", "replace"):
                self.led[number][at + 1 :] = [due]
        elif word == "fork" and not answer.startswith(b"error"):
            self.told.append([])
            self.led.append([[]])
        return answer

    def keep(self, steps):
        buffer, number = self.model.buffer, self.model.chosen
        first = max(0, buffer.at - steps)
        buffer.texts = buffer.texts[first : buffer.at + 1]
        self.led[number] = [[], *self.led[number][first + 1 : buffer.at + 1]]
        buffer.at -= first

    def join(self, steps):
        """Joins the last steps, and returns whether there are that many."""
        buffer, led = self.model.buffer, self.led[self.model.chosen]
        if steps > buffer.at:
            return False
        if steps > 1:
            first = buffer.at - steps + 1
            led[first : buffer.at + 1] = [composed(bytes_in(buffer.texts[first - 1]), led[first : buffer.at + 1])]
            del buffer.texts[first : buffer.at]
            buffer.at = first
        return True


def ranges_of_matches(old, pattern, template):
    """A range for each match of a replacement."""
    parts, ranges, at = parts_replaced(old, pattern, template), [], 0
    spans = [groups[0] for groups in matches_with_groups(pattern, old)]
    for (first, last), gap, new in zip(spans, parts[::2], parts[1::2]):
        start = at + bytes_in(gap)
        at = start + bytes_in(new)
        ranges.append((first, last, start, at))
    return ranges


def wrong_told(session, mirror, old, place):
    """What is wrong with what a session reports after a command that the mirror executed."""
    model, number = mirror.model, mirror.model.chosen
    told = [tuple(one) for one in session.text_changes]
    wrong = [] if told == mirror.told[number] else [f"{told} are reported, not {mirror.told[number]}"]
    if old is not None:
        wrong += wrong_ranges(old.encode(), model.buffer.text.encode(), told, None)
    steps = (model.buffer.at, len(model.buffer.texts) - model.buffer.at - 1)
    if (session.undo_steps, session.redo_steps) != steps:
        wrong.append(f"there are {session.undo_steps} and {session.redo_steps} steps, not {steps}")
    return [f"{place}: {one}" for one in wrong]


def wrong_text_changes(session, commands, chosen):
    """What is wrong with what a session reports after each of some commands, and after steps that are dropped between
    them, up to the first that is wrong."""
    mirror = Mirror()
    for place, command in enumerate(commands):
        if chosen.random() < 0.05:
            steps = chosen.choice((0, 0, 1, 2, 5, MOST))
            session.keep(steps) if steps or chosen.random() < 0.5 else session.forget()
            mirror.keep(steps)
            if wrong := wrong_told(session, mirror, None, f"after {steps} steps are kept, before command {place}"):
                return wrong
        if chosen.random() < 0.2:
            steps = chosen.choice((0, 1, 2, 2, 3, 4, 7, MOST))
            done = not raised(lambda: session.join(steps))
            wrong = [] if done == mirror.join(steps) else [f"{steps} steps are made one: {done}"]
            if wrong := wrong + wrong_told(session, mirror, None, f"after {steps} steps are made one, before command {place}"):
                return wrong
        old, number = mirror.model.buffer.text, mirror.model.chosen
        accepted = command[0] in CHANGING and not mirror.model.refusal(*command)
        got, due = reply(session, command), mirror.carried_out(command)
        if got != due:
            return [f"command {place}, {command[:2]}, is answered {got[:60]}, not {due[:60]}"]
        same = number == mirror.model.chosen
        if wrong := wrong_told(session, mirror, old if accepted and same else None, f"command {place}, {command[:2]}"):
            return wrong
    return []


def wrong_after_edits(seed):
    """What is wrong with what is reported for several edits as one, and for their undo and redo."""
    chosen = random.Random(f"ranges of edits {seed}")
    text = some_text(chosen, 12)
    with rope_search.Session(LIMIT) as session:
        session.set_text(text)
        pattern = chosen.choice(PATTERNS) if chosen.random() < 0.7 else None
        if pattern is not None:
            session.set_pattern(pattern)
        texts, led = [text], [[]]
        for _ in range(6):
            edits = some_edits(chosen, text := texts[-1])
            new, fault, _ = after(text, edits)
            before = session.text_changes
            try:
                session.edit_all(edits)
            except rope_search.Fault:
                if not fault or session.text_changes != before:
                    return [f"{edits} in {text!r} are refused, or tell {session.text_changes}"]
                continue
            parts = [(*ends, edit[2].decode()) for ends, edit in zip(places_in(text, edits), edits)]
            told = [tuple(one) for one in session.text_changes]
            if wrong := list(wrong_ranges(text.encode(), new.encode(), told, ranges_of(text, parts))):
                return [f"{edits} in {text!r}: {one}" for one in wrong]
            texts.append(new)
            led.append(told)
        for place in range(len(texts) - 1, 0, -1):
            session.undo()
            if (told := [tuple(one) for one in session.text_changes]) != turned(led[place]):
                return [f"an undo to {texts[place - 1]!r} tells {told}, not {turned(led[place])}"]
        for place in range(1, len(texts)):
            session.redo()
            if (told := [tuple(one) for one in session.text_changes]) != led[place]:
                return [f"a redo to {texts[place]!r} tells {told}, not {led[place]}"]
        return wrong_joined(session, pattern, texts, led, chosen.randrange(len(texts)))


def wrong_joined(session, pattern, texts, led, steps):
    """What is wrong after the last steps are joined: when they are undone and redone. Each makes at most as many rows
    as the restored text has lines, and leaves the report of the text."""
    first = len(texts) - 1 - steps
    due = composed(bytes_in(texts[first]), led[first + 1 :]) if steps > 1 else led[-1]
    session.join(steps)
    if (told := [tuple(one) for one in session.text_changes]) != led[-1] or session.text != texts[-1]:
        return [f"{steps} of {texts} made one tell {told}, not {led[-1]}"]
    for call, text, ranges in ((session.undo, texts[first], turned(due)), (session.redo, texts[-1], due)) if steps else ():
        rows, content = session.counted.rows, text.encode()
        call()
        made = session.counted.rows - rows
        most = sum(len(lines_of(content[start:stop].decode())) for _, _, start, stop in ranges)
        if (told := [tuple(one) for one in session.text_changes]) != ranges or session.text != text:
            return [f"{steps} of {texts} made one: {call.__name__} to {session.text!r} tells {told}, not {ranges}"]
        if made > most or (pattern is not None and session.matches() != matches_of(text, pattern)):
            return [f"{steps} of {texts} made one: {call.__name__} to {text!r} makes {made} of {most} rows: {session.matches()}"]
    return []


@functools.lru_cache(maxsize=None)
def matches_of(text, pattern):
    with rope_search.Session() as session:
        session.set_text(text)
        session.set_pattern(pattern)
        return session.matches()


def small_changes(length):
    """What is wrong after each edit of each text with this number of characters from CR, LF and `a`, after its undo,
    after steps are dropped at each of these, and after matches are replaced."""
    with rope_search.Session() as session:
        for text in map("".join, itertools.product(SMALL, repeat=length)):
            for start, stop, new in itertools.product(range(length + 1), range(length + 1), ("", "a", "\n", "\r\n")):
                wrong = wrong_small(session, text, start, stop, new) if start <= stop else []
                if wrong:
                    return [f"{text!r}, {start} to {stop}, {new!r}: {one}" for one in wrong]
            for pattern, template in itertools.product(("a", "\\n", "\\r", "", "\\r?\\n?"), ("", "a", "\n", "\r")):
                session.set_text(text)
                session.set_pattern(pattern)
                session.replace(template)
                told, due = [tuple(one) for one in session.text_changes], ranges_of_matches(text, pattern, template)
                if wrong := list(wrong_ranges(text.encode(), session.text_bytes(), told, due)):
                    return [f"{pattern!r} by {template!r} in {text!r}: {one}" for one in wrong]
                session.off()
    return []


def wrong_small(session, text, start, stop, new):
    session.set_text(text)
    try:
        ends = session.position_of(bytes_in(text[:start])), session.position_of(bytes_in(text[:stop]))
        session.edit(*ends, new)
    except rope_search.Range:
        return []  # Between the CR and the LF of a break.
    after_edit = text[:start] + new + text[stop:]
    due = [(start, stop, start, start + len(new))]
    wrong = list(wrong_ranges(text.encode(), after_edit.encode(), [tuple(one) for one in session.text_changes], due))
    session.keep(1)
    wrong += told_other(session, due, 1, 0)
    session.undo()
    wrong += told_other(session, turned(due), 0, 1)
    session.redo()
    wrong += told_other(session, due, 1, 0)
    session.undo()
    session.keep(3)
    wrong += told_other(session, turned(due), 0, 0)
    if session.text != text:
        wrong.append(f"the text is {session.text!r}")
    session.set_text(after_edit)
    wrong += told_other(session, [(0, len(text), 0, len(after_edit))], 0, 0)
    session.keep(0)
    return wrong + told_other(session, [(0, len(text), 0, len(after_edit))], 0, 0)


def small_joins(length):
    """What is wrong after each two edits of each text with this number of characters from CR, LF and `a`, joined,
    undone and redone."""
    with rope_search.Session() as session:
        session.set_pattern("a$|^")
        for text in map("".join, itertools.product(SMALL, repeat=length)):
            for one in edits_of(text):
                for other in edits_of(after_one := one[3]):
                    if wrong := wrong_join(session, text, one, other):
                        return [f"{text!r}, {one[:3]} and {other[:3]} of {after_one!r}: {fault}" for fault in wrong]
    return []


def edits_of(text):
    """The edits of a text that start and end outside of its breaks: where, by what, and the resulting text."""
    places = [place for place in range(len(text) + 1) if text[place - 1 : place + 1] != "\r\n" or not place]
    return [(start, stop, new, text[:start] + new + text[stop:])
            for start, stop, new in itertools.product(places, places, ("", "a", "\n", "\r")) if start <= stop]


def wrong_join(session, text, one, other):
    session.set_text(text)
    for start, stop, new, _ in (one, other):
        session.edit_bytes(start, stop, new)
    due = composed(len(text), [[(start, stop, start, start + len(new))] for start, stop, new, _ in (one, other)])
    last = [(other[0], other[1], other[0], other[0] + len(other[2]))]
    session.join(2)
    wrong = told_other(session, last, 1, 0)
    rows = session.counted.rows
    session.undo()
    wrong += told_other(session, turned(due), 0, 1)
    most = sum(len(lines_of(text[start:stop])) for start, stop, _, _ in due)
    if session.text != text or session.counted.rows - rows > most or session.matches() != matches_of(text, "a$|^"):
        wrong.append(f"an undo to {session.text!r} makes {session.counted.rows - rows} of {most} rows")
    session.redo()
    return wrong + told_other(session, due, 1, 0) + ([] if session.text == other[3] else [f"a redo leads to {session.text!r}"])


def told_other(session, due, undo, redo):
    told, steps = [tuple(one) for one in session.text_changes], (session.undo_steps, session.redo_steps)
    return [] if told == due and steps == (undo, redo) else [f"{told} and {steps} are reported, not {due} and {undo}, {redo}"]
