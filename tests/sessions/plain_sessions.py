"""The answers of the Python models to calls of the library, compared with those of the model in tests/sessions, which
is in Rust, for the same sessions, so that each checks the other."""
import codecs
import functools

from library_escapes import escaped
from library_groups import due_groups
from library_lines import ENCODINGS, clamped, line_text, places_of
from library_edits import places_in
from library_listed import all_listed
from library_pending import line_at, spans_of
from library_replacing import places_of_match
from library_text_changes import Mirror, ranges_of
from pattern_model import is_literal, matches, pattern_weight, tree_of
from protocol import (PATTERN_LIMIT, expanded, is_utf8, lines_of, place_of, position_at, positions_of, refused_pattern,
                      rows_of, units)
from random_sessions import is_light, may_be_heavy
from test_explanations import is_front

STATUS = {b"ok": 0, b"m": 0, b"no": 0, b"error none": 1, b"error range": 2, b"error utf8": 3, b"error pattern": 4,
          b"error limit": 5, b"error size": 6}
CLOSED, RANGE, SIZE = 8, 2, 6
BITS = dict(zip((8, 16, 32), ENCODINGS.values()))
MOST_CHARACTERS, MOST_OF_LITERALS = 150, 3_000  # of a text in which patterns are searched for
COMMANDS = {"SetText": "text", "Edit": "edit", "Undo": "undo", "Redo": "redo", "SetPattern": "pattern", "Off": "off", "Next":
            "next", "Replace": "replace", "Fork": "fork", "Choose": "use"}
CHANGING = ("SetText", "EndText", "Edit", "EditAll", "EditBytes", "Undo", "Redo", "Replace", "ReplaceMatch", "ReplaceListed")
REFUSED_IF_CLOSED = (*COMMANDS, *CHANGING, "Forget", "Keep", "Join", "GroupsAt", "ByteOf", "PositionOf", "ColumnIn",
                     "PositionIn", "Clamp", "LineLen", "BeginPattern", "Advance", "Cancel", "CountPending", "CopyPending",
                     "Window", "NextAll", "BeginText", "AppendPart", "CancelText")
WITH_PAYLOAD = ("AppendPart", "EditAll", "EditBytes", "ReplaceMatch", "ReplaceListed", "BeginPattern")


class Unclear(Exception):
    """The Python models would take too long."""


def refused(status):
    return status, [], b""


def begins_text(payload):
    try:
        codecs.getincrementaldecoder("utf-8")().decode(payload)
    except UnicodeDecodeError:
        return False
    return True


@functools.lru_cache(maxsize=100_000)
def is_known(pattern):
    """Whether the Python models find the pattern quickly in short texts."""
    return is_literal(pattern) or is_light(pattern)


class Plain:
    """A session of the Python models, closed at first."""

    def __init__(self):
        self.mirror, self.limit = None, 0
        self.arriving = None  # the bytes of the text that arrives, and why it will be refused, as far as that is known
        self.pending = {}  # the pending pattern of a buffer's number, and how many lines are done

    @property
    def model(self):
        return self.mirror.model

    @property
    def text(self):
        return self.model.buffer.text

    @property
    def pattern(self):
        return self.model.buffer.pattern

    def answer(self, name, numbers, payload):
        """The status, the numbers and the bytes that a call returns."""
        if name == "Version":
            return 2_000, [], b""
        if name == "PatternError":
            return self.pattern_error(payload)
        if name == "Escape":
            return self.escape(*numbers, payload)
        if name == "Open":
            return self.open(*numbers)
        if name == "Close":
            self.mirror = None
            return refused(0)
        if self.mirror is None:
            return refused(CLOSED if name in REFUSED_IF_CLOSED else 0)
        if name in COMMANDS:
            answer = self.command(COMMANDS[name], numbers, payload)
        else:
            answer = getattr(self, name)(*numbers, **({"payload": payload} if name in WITH_PAYLOAD else {}))
        if answer[0] == 0:
            self.follow(name)
        return answer

    def follow(self, name):
        """What is pending follows an accepted call."""
        number = self.model.chosen
        if name in ("SetPattern", "Off", "Cancel"):
            self.pending.pop(number, None)
        elif name in CHANGING and number in self.pending:
            pattern, done = self.pending[number]
            ranges = self.mirror.told[number]
            self.pending[number] = pattern, min([done, *(line_at(self.text, start) for _, _, start, _ in ranges)])

    def open(self, limit):
        if limit >= 1 << 63:
            return refused(SIZE)
        self.mirror, self.pending, self.arriving = Mirror(), {}, None
        self.model.limit = limit
        return refused(0)

    def check_light(self):
        """Gives up if the Python models would search for long."""
        if self.pattern is not None:
            self.check_pattern(self.pattern)

    def check_pattern(self, pattern):
        most = MOST_OF_LITERALS if is_literal(pattern) else MOST_CHARACTERS
        if not is_known(pattern) or len(self.text) > most:
            raise Unclear

    def command(self, word, numbers, payload):
        if word in ("next", "replace"):
            self.check_light()
        if word == "pattern" and may_be_heavy(payload):
            raise Unclear
        numbers = (*numbers, len(payload)) if word in ("text", "edit", "pattern", "replace") else tuple(numbers)
        told = self.mirror.carried_out((word, numbers, payload)).split(b"\n")[0]
        front, _, rest = told.partition(b" ")
        status = STATUS[told] if told.startswith(b"error") else STATUS[front]
        if word == "next":
            return status, [1, *map(int, rest.split())] if front == b"m" else [0], b""
        if word in ("replace", "fork"):
            return status, [int(rest) if status == 0 else 0], b""
        return refused(status)

    def pattern_error(self, payload):
        if not is_utf8(payload):
            return refused(3)
        text = payload.decode()
        if len(payload) > PATTERN_LIMIT or tree_of(text) is not None:
            return 0, [0, 0], b""
        if len(text) > 40:
            raise Unclear
        front = next(place for place in range(len(text) + 1) if place == len(text) or not is_front(text[: place + 1]))
        return 0, ["a reason", len(text[:front].encode())], b""

    def escape(self, room, payload):
        if not is_utf8(payload):
            return refused(3)
        pattern = escaped(payload.decode()).encode()
        if len(pattern) > PATTERN_LIMIT:
            return refused(5)
        return 0, [len(pattern)], pattern if len(pattern) <= room else b""

    def NextAll(self, line, column, room):
        if self.pattern is None:
            return 1, [0], b""
        place = place_of(self.text, line, column)
        if place is None:
            return RANGE, [0], b""
        self.check_light()
        spans = [span for span in matches(self.pattern, self.text) if span[0] >= place][:room]
        return 0, [len(spans), *(number for span in spans for end in span for number in position_at(self.text, end))], b""

    def EditBytes(self, first, last, payload):
        places = places_of(self.text)
        if first not in places or last not in places:
            return refused(RANGE)
        spots = (position_at(self.text, places[place]) for place in (first, last))
        return self.command("edit", [number for spot in spots for number in spot], payload)

    def EditAll(self, *numbers, payload):
        parts, at = [], 0
        for line, column, last, end, count in zip(*(numbers[place::5] for place in range(5))):
            parts.append(((line, column), (last, end), payload[at : at + count]))
            at += count
        places = places_in(self.text, parts) if at == len(payload) else None
        if places is None:
            return refused(RANGE)
        if not all(is_utf8(new) for _, _, new in parts):
            return refused(3)
        changes = [(*ends, new.decode()) for ends, (_, _, new) in zip(places, parts)]
        made, at = "", 0
        for first, last, new in changes:
            made, at = made + self.text[at:first] + new, last
        made += self.text[at:]
        if len(made.encode()) > self.model.limit:
            return refused(SIZE)
        self.add(made, ranges_of(self.text, changes))
        return refused(0)

    def add(self, text, told):
        """Adds a text to the history, with the ranges that led to it."""
        number = self.model.chosen
        self.mirror.led[number][self.model.buffer.at + 1 :] = [told]
        self.mirror.told[number] = told
        self.model.buffer.add(text)

    def ReplaceMatch(self, line, number, payload):
        if self.pattern is None:
            return refused(1)
        rows = self.rows()
        if line >= len(rows) or number >= len(rows[line]):
            return refused(RANGE)
        if not is_utf8(payload):
            return refused(3)
        start, end, texts = places_of_match(self.text, line, self.pattern, number)
        return self.EditBytes(start, end, expanded(payload.decode(), texts).encode())

    def ReplaceListed(self, first, last, payload):
        if self.pattern is None:
            return 1, [0], b""
        if not is_utf8(payload):
            return 3, [0], b""
        old, new, at, ranges, rows = self.text.encode(), b"", 0, [], self.rows()
        for line in range(first, min(last, len(rows))):
            for number in range(len(rows[line])):
                start, end, texts = places_of_match(self.text, line, self.pattern, number)
                new += old[at:start]
                by = expanded(payload.decode(), texts).encode()
                ranges.append((start, end, len(new), len(new) + len(by)))
                new, at = new + by, end
        new += old[at:]
        if len(new) > self.model.limit:
            return SIZE, [0], b""
        self.add(new.decode(), ranges)
        return 0, [len(ranges)], b""

    def BeginText(self):
        self.arriving = b"", 0
        return refused(0)

    def AppendPart(self, payload):
        if self.arriving is None:
            return refused(1)
        payload, status = self.arriving[0] + payload, self.arriving[1]
        if status == 0:
            status = SIZE if len(payload) > self.model.limit else 0 if begins_text(payload) else 3
        self.arriving = payload, status
        return refused(status)

    def EndText(self):
        if self.arriving is None:
            return refused(1)
        payload, self.arriving = self.arriving[0], None
        return self.command("text", [], payload)

    def CancelText(self):
        self.arriving = None
        return refused(0)

    def BeginPattern(self, payload):
        if not is_utf8(payload):
            return refused(3)
        if may_be_heavy(payload):
            raise Unclear
        if refusal := refused_pattern(payload.decode()):
            return refused(STATUS[b"error " + refusal])
        self.pending[self.model.chosen] = payload.decode(), 0
        return refused(0)

    def Advance(self, lines):
        if not (here := self.pending.get(self.model.chosen)):
            return 1, [0], b""
        pattern, done = here
        is_over = lines >= len(lines_of(self.text)) - done
        if is_over:
            del self.pending[self.model.chosen]
            self.model.buffer.pattern = pattern
        else:
            self.pending[self.model.chosen] = pattern, done + lines
        return 0, [int(is_over)], b""

    def Cancel(self):
        return refused(0)

    def Join(self, steps):
        return refused(0 if self.mirror.join(steps) else 1)

    def Forget(self):
        return self.Keep(0)

    def Keep(self, steps):
        self.mirror.keep(steps)
        return refused(0)

    def GroupsAt(self, line, number, room):
        if self.pattern is None:
            return refused(1)
        lines = lines_of(self.text)
        if line >= len(lines):
            return refused(RANGE)
        self.check_light()
        groups = due_groups(self.pattern, self.text[slice(*lines[line])], line)
        if number >= len(groups):
            return refused(RANGE)
        told = [[1, *group] if group else [0, 0, 0] for group in groups[number][:room]]
        return 0, [one for group in told for one in group], b""

    # ---- what is read

    def Pending(self):
        here = self.pending.get(self.model.chosen)
        return (1, [here[1]], b"") if here else refused(0)

    def CountPending(self, first, last):
        return self.CopyPending(first, last, 0)

    def CopyPending(self, first, last, room):
        here = self.pending.get(self.model.chosen)
        return self.Window(first, min(last, here[1]), room) if here else (1, [0], b"")

    def Window(self, first, last, room):
        if not (here := self.pending.get(self.model.chosen)):
            return 1, [0], b""
        self.check_pattern(here[0])
        spans = spans_of(rows_of(self.text, here[0])[first:last], first)
        return 0, [len(spans), *(number for span in spans[:room] for number in span)], b""

    def Buffers(self):
        return refused(len(self.model.buffers))

    def Chosen(self):
        return refused(self.model.chosen)

    def CanUndo(self):
        return refused(int(self.model.buffer.at > 0))

    def CanRedo(self):
        return refused(int(self.RedoSteps()[0] > 0))

    def UndoSteps(self):
        return refused(self.model.buffer.at)

    def RedoSteps(self):
        return refused(len(self.model.buffer.texts) - 1 - self.model.buffer.at)

    def TextLen(self):
        return refused(len(self.text.encode()))

    def TextLines(self):
        return refused(len(lines_of(self.text)))

    def CopyText(self, first, last, room):
        data = self.text.encode()
        cut = any(data[place : place + 1] and data[place] & 0xC0 == 0x80 for place in (first, last))
        if not first <= last <= len(data) or cut or last - first > room:
            return refused(0)
        return 1, [], data[first:last]

    def CopyLine(self, line, room):
        own = line_text(self.text, line).encode() if line < len(lines_of(self.text)) else None
        return (1, [], own) if own is not None and len(own) <= room else refused(0)

    def ByteOf(self, line, column):
        place = place_of(self.text, line, column)
        return refused(RANGE) if place is None else (0, [len(self.text[:place].encode())], b"")

    def PositionOf(self, byte):
        begins = {len(self.text[:place].encode()): place for place in range(len(self.text) + 1)}
        return (0, list(position_at(self.text, begins[byte])), b"") if byte in begins else refused(RANGE)

    def ColumnIn(self, bits, line, column):
        place = place_of(self.text, line, column)
        if bits not in BITS or place is None:
            return refused(RANGE)
        return 0, [BITS[bits](self.text[lines_of(self.text)[line][0] : place])], b""

    def PositionIn(self, bits, line, column):
        if bits not in BITS:
            return refused(RANGE)
        for spot in positions_of(self.text) if line < len(lines_of(self.text)) else ():
            if spot[0] == line and self.ColumnIn(bits, *spot)[1] == [column]:
                return 0, list(spot), b""
        return refused(RANGE)

    def Clamp(self, bits, line, column):
        return (0, list(clamped(self.text, line, column, BITS[bits])), b"") if bits in BITS else refused(RANGE)

    def LineLen(self, line, bits):
        if bits not in BITS or line >= len(lines_of(self.text)):
            return refused(RANGE)
        return 0, [BITS[bits](line_text(self.text, line))], b""

    def rows(self):
        self.check_light()
        return [] if self.pattern is None else rows_of(self.text, self.pattern)

    def Rows(self):
        return refused(len(lines_of(self.text)) if self.pattern is not None else 0)

    def CountMatches(self, first, last):
        return refused(sum(map(len, self.rows()[first:last])) if first < last else 0)

    def CopyMatches(self, first, last, room):
        return self.CopyMatchesIn(16, first, last, room)

    def CopyMatchesIn(self, bits, first, last, room):
        rows, told = self.rows(), []
        for line in range(first, min(last, len(rows))) if bits in BITS else ():
            own, start = line_text(self.text, line), lines_of(self.text)[line][0]
            ends = [[place_of(self.text, line, column) - start for column in match] for match in rows[line]]
            told += [(line, *(BITS[bits](own[:place]) for place in match)) for match in ends]
        return len(told), [number for match in told[:room] for number in match], b""

    def ListedFrom(self, line, column):
        return self.looked_up(next((one for one in self.listed() if (one[0], one[2]) >= (line, column)), None))

    def ListedBefore(self, line, column):
        return self.looked_up(next((one for one in self.listed()[::-1] if (one[0], one[2]) < (line, column)), None))

    def ListIndex(self, line, number):
        listed = self.listed()
        index = next((index for index, one in enumerate(listed) if one[:2] == (line, number)), None)
        return self.looked_up(None if index is None else (index, len(listed)))

    def listed(self):
        return all_listed(self.rows())

    def looked_up(self, found):
        return refused(0) if found is None else (1, list(found), b"")

    def TextChanges(self, room):
        told = self.mirror.told[self.model.chosen]
        return len(told), [number for change in told[:room] for number in change], b""


def numbers_in(words):
    return [int(word) for word in words.split()]


def wrong_session(lines):
    """What is wrong with the answers of a session, and whether it was compared completely."""
    plain = Plain()
    for line in lines:
        name, numbers, payload, status, told, data = line.split("|")
        numbers, payload = numbers_in(numbers), bytes.fromhex(payload)
        got = (int(status), numbers_in(told), bytes.fromhex(data))
        try:
            due = plain.answer(name, numbers, payload)
        except Unclear:
            return [], False
        if due[1][:1] == ["a reason"] and got[1][:1] != [0]:
            due[1][0] = got[1][0]
        if got != due:
            return [f"{name} {numbers} {payload[:80]} is answered {got}, not {due}, in {lines[:30]}"], True
    return [], True
