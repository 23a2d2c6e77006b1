"""A pending pattern by the library, compared with a model: the lines that are done, their rows, windows, the counts, and
the report after all lines are done."""
import functools
import itertools

from library import reply, rope_search
from library_text_changes import CHANGING, SMALL, Mirror, edits_of
import protocol
from protocol import lines_of, position_at, refused_pattern
from random_patterns import Maker
from test_edits import PATTERNS
from walks import spelled

MOST = (1 << 64) - 1
BROKEN = ("(", "[", "a{2", "\\")


@functools.lru_cache(maxsize=1_000)
def rows_of(text, pattern):
    """The rows of a text, cached because they are used often."""
    return protocol.rows_of(text, pattern)


def spans_of(rows, first=0):
    """The matches of rows, each with its line; the first row is that of line `first`."""
    return [(line, *span) for line, row in enumerate(rows, first) for span in row]


def line_at(text, byte):
    """The line of a byte offset in a text."""
    return position_at(text, len(text.encode()[:byte].decode()))[0]


class Model:
    """A session of the model, and for each buffer the pending pattern with the number of the lines that are done."""

    def __init__(self):
        self.mirror, self.pending = Mirror(), [None]

    @property
    def session(self):
        return self.mirror.model

    @property
    def here(self):
        return self.pending[self.session.chosen]

    def carried_out(self, command):
        """Executes a command: lines that are done stay done if they are before the first change."""
        number, accepted = self.session.chosen, not self.session.refusal(*command)
        answer = self.mirror.carried_out(command)
        if not accepted:
            return answer
        if command[0] in ("pattern", "off"):
            self.pending[number] = None
        elif command[0] == "fork":
            self.pending.append(None)
        elif command[0] in CHANGING and self.pending[number]:
            pattern, done = self.pending[number]
            ranges = self.mirror.told[number]
            self.pending[number] = pattern, min([done, *(line_at(self.session.buffer.text, one[2]) for one in ranges)])
        return answer

    def advanced(self, lines):
        """Searches further lines, and returns how many, and whether all are done."""
        (pattern, done), buffer = self.here, self.session.buffer
        left = len(lines_of(buffer.text)) - done
        if left > lines:
            self.pending[self.session.chosen] = pattern, done + lines
            return lines, False
        self.pending[self.session.chosen] = None
        buffer.pattern = pattern
        return left, True


def is_refused(call, *arguments):
    try:
        call(*arguments)
    except rope_search.Nothing:
        return True
    return False


def wrong_state(session, model):
    """What is wrong with the visible state of the chosen buffer."""
    buffer, here = model.session.buffer, model.here
    if (told := session.pending) != (here and here[1]):
        yield f"{told} lines are done, not {here and here[1]}"
    elif here is None:
        for call in (session.count_pending, session.pending_matches, lambda: session.window(0, MOST), lambda: session.advance(0)):
            if not is_refused(call):
                yield "nothing is pending, and a call is done"
    else:
        due = spans_of(rows_of(buffer.text, here[0])[: here[1]])
        if (told := session.pending_matches()) != due:
            yield f"the pending rows of {here} in {buffer.text!r} have {told}, not {due}"
        if session.count_pending() != len(due) or session.count_pending(1, 3) != sum(1 <= line < 3 for line, _, _ in due):
            yield f"{session.count_pending()} matches are counted, not {len(due)}"
    due = spans_of(rows_of(buffer.text, buffer.pattern)) if buffer.pattern is not None else []
    if (told := session.matches()) != due:
        yield f"the report of {buffer.pattern!r} in {buffer.text!r} is {told}, not {due}"


def wrong_window(session, model, first, stop, room):
    """What is wrong with the matches of some lines, and with the rows that are counted."""
    (pattern, done), text, before = model.here, model.session.buffer.text, session.counted.rows
    told = session.window(first, stop, room)
    due = spans_of(rows_of(text, pattern)[first:stop], first)
    if told != due:
        yield f"lines {first} to {stop} have {told}, not {due}"
    searched = max(0, min(stop, len(lines_of(text))) - max(first, done))
    if (rows := session.counted.rows - before) != searched * (2 if len(due) > max(1, room) else 1):
        yield f"lines {first} to {stop} take {rows} rows, not {searched}"


def wrong_advance(session, model, lines):
    """What is wrong with a slice."""
    before, changed, buffer = session.counted.rows, session.changed, model.session.buffer
    old_rows = session.rows
    count, finished = model.advanced(lines)
    if (told := session.advance(lines)) != finished:
        yield f"a slice of {lines} lines tells {told}"
    if session.counted.rows - before != count:
        yield f"a slice of {lines} lines takes {session.counted.rows - before} rows, not {count}"
    due = (0, old_rows, len(lines_of(buffer.text))) if finished else changed
    if (told := session.changed) != due:
        yield f"a slice tells {told} as changed, not {due}"


def wrong_call(session, model, chosen):
    """Makes a random call for a pending pattern."""
    kind = chosen.choice(("begin", "begin", "advance", "advance", "advance", "window", "window", "cancel", "broken"))
    if kind == "begin":
        pattern = chosen.choice(PATTERNS) if chosen.random() < 0.7 else spelled(Maker(chosen, most_nodes=20).tree())
        if not refused_pattern(pattern):
            session.begin_pattern(pattern)
            model.pending[model.session.chosen] = pattern, 0
    elif kind == "broken":
        try:
            session.begin_pattern(chosen.choice(BROKEN))
            yield "a broken pattern is taken"
        except rope_search.Pattern:
            pass
    elif kind == "cancel" and chosen.random() < 0.3:
        session.cancel()
        model.pending[model.session.chosen] = None
    elif model.here and kind == "advance":
        yield from wrong_advance(session, model, chosen.choice((0, 1, 1, 2, 3, 5, MOST)))
    elif model.here and kind == "window":
        ends = [chosen.choice((0, 1, 2, 3, 5, 9, MOST)) for _ in range(2)]
        yield from wrong_window(session, model, *ends, chosen.choice((0, 1, 2, 64)))


def wrong_pending(session, commands, chosen):
    """What is wrong with a session of commands and calls for a pending pattern between them, up to the first wrong answer;
    and with the end of each pending search."""
    model = Model()
    for place, command in enumerate(commands):
        for _ in range(chosen.randrange(4)):
            wrong = list(wrong_call(session, model, chosen)) + list(wrong_state(session, model))
            if wrong:
                return [f"before command {place}: {one}" for one in wrong]
        got, due = reply(session, command), model.carried_out(command)
        if got != due:
            return [f"command {place}, {command[:2]}, is answered {got[:60]}, not {due[:60]}"]
        if wrong := list(wrong_state(session, model)):
            return [f"command {place}, {command}: {one}" for one in wrong]
    for number in range(session.buffers):
        session.choose(number)
        model.session.chosen = number
        while model.here:
            if wrong := list(wrong_advance(session, model, 2)) + list(wrong_state(session, model)):
                return [f"at the end, in buffer {number}: {one}" for one in wrong]
    return []


def wrong_at(session, text, one, done, pattern):
    """What is wrong with the pending rows after an edit with this number of lines done, after its undo, and after its redo."""
    start, stop, new, after_edit = one
    session.set_text(text)
    session.begin_pattern(pattern)
    session.advance(done)
    kept = min(done, line_at(after_edit, start))
    back = min(kept, line_at(text, start))
    forward = min(back, line_at(after_edit, start))
    for call, now, lines in ((lambda: session.edit_bytes(start, stop, new), after_edit, kept), (session.undo, text, back),
                             (session.redo, after_edit, forward)):
        call()
        if (told := session.pending) != lines:
            yield f"{told} lines are done of {now!r}, not {lines}"
        if session.pending_matches() != spans_of(rows_of(now, pattern)[:lines]):
            yield f"the pending rows of {now!r} have {session.pending_matches()}"
        if session.window(0, 9) != spans_of(rows_of(now, pattern)):
            yield f"the window of {now!r} has {session.window(0, 9)}"
    while not session.advance(1):
        pass
    if session.matches() != spans_of(rows_of(after_edit, pattern)):
        yield f"the report of {after_edit!r} has {session.matches()}"


def small_pending(length):
    """The same for each edit of each text of this number of characters from CR, LF and `a`, with each number of lines done."""
    with rope_search.Session() as session:
        for text in map("".join, itertools.product(SMALL, repeat=length)):
            for one, done in itertools.product(edits_of(text), range(len(lines_of(text)))):
                if wrong := list(wrong_at(session, text, one, done, "a$|^")):
                    return [f"{text!r}, {one[:3]}, {done} lines done: {fault}" for fault in wrong]
    return []
