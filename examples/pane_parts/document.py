"""A text and its matches, kept besides those of the program, so that neither is requested again after an edit.

The program has the text in buffer 0, with its history. The text is kept here too, and changed by each command. The rows of
changed lines come from buffer 1, which has the same pattern and gets only these lines as its text: each line is searched by
itself, so its row depends on no other line."""
import bisect
import itertools

from client import command

from .text import BREAKS, Text

FEW = 1000  # lines: if a change has more, the whole report is listed


class Refused(Exception):
    """The reply to a command was `error` and this word."""


def rows_of(reply, count):
    """The rows of this number of lines in a reply to `list`: for each the columns where its matches start and end."""
    rows, at = [()] * count, 0
    numbers = list(map(int, reply[: reply.rindex(b"ok ")].replace(b"m ", b"").split()))
    matches = list(zip(numbers[1::3], numbers[2::3]))
    for line, found in itertools.groupby(numbers[0::3]):
        end = at + sum(1 for _ in found)
        rows[line], at = matches[at:end], end
    return rows


class Document:
    """A text in the program, with its history, and the rows of its matches under a pattern, if it has one."""

    def __init__(self, client, text):
        self.client, self.text = client, Text(text)
        self.changes, self.at = [], 0  # the change from each text to the next, and how many of them are done
        self.rows, self.count, self.has_pattern = [], 0, False
        self.is_pending = False  # each report is made at once
        self.ask(b"fork\n")  # of the empty text, for buffer 1
        self.ask(command(b"text", text.encode()))
        self.forget_rows()

    def close(self):
        self.client.close()

    def ask(self, sent):
        reply = self.client.ask(sent)
        if reply.startswith(b"error "):
            raise Refused(reply[6:-1].decode())
        return reply

    def state(self):
        """A key for the state of the text."""
        return self.changes[self.at - 1] if self.at else None

    # ---- the pattern and its rows

    def forget_rows(self):
        self.rows, self.count, self.has_pattern = [()] * len(self.text.lines), 0, False

    def is_pattern(self, pattern):
        """Whether a text is a pattern. `set_pattern` then restores the pattern of buffer 1."""
        self.ask(b"use 1\n")
        reply = self.client.ask(command(b"pattern", pattern.encode()))
        self.ask(b"use 0\n")
        return reply == b"ok\n"

    def set_pattern(self, pattern):
        """Sets another pattern, or none if it is empty or refused."""
        data = pattern.encode()
        self.forget_rows()
        try:
            for buffer in (b"use 1\n", b"use 0\n"):
                self.ask(buffer)
                self.ask(command(b"pattern", data) if data else b"off\n")
        except Refused:
            self.set_pattern("")
            raise
        if data:
            self.has_pattern = True
            self.list_rows()

    def show(self, lines):
        """Does nothing: the rows of visible lines are known."""

    def row(self, line):
        """The columns of the matches in a line."""
        return self.rows[line]

    def list_rows(self):
        self.rows = rows_of(self.ask(b"list\n"), len(self.text.lines))
        self.count = sum(map(len, self.rows))

    def rows_that_come(self, lines):
        """The rows of lines, from buffer 1."""
        text = "".join([*lines[:-1], lines[-1].rstrip(BREAKS)])
        self.ask(b"use 1\n")
        try:
            self.ask(command(b"text", text.encode()))
            return rows_of(self.ask(b"list\n"), len(lines))
        finally:
            self.ask(b"use 0\n")

    def follow(self, change):
        """Updates the text and the rows after a change that the program has made."""
        self.text.apply(change)
        if not self.has_pattern:
            self.forget_rows()
            return
        if len(change.come) > FEW:
            self.list_rows()
            return
        try:
            new = self.rows_that_come(change.come) if change.come else []
        except Refused:  # out of memory; list needs none
            self.list_rows()
            return
        self.put_rows(change, new)

    def put_rows(self, change, new):
        """Replaces the rows of the old lines of a change by those of its new lines."""
        end = change.line + len(change.gone)
        self.count += sum(map(len, new)) - sum(map(len, self.rows[change.line : end]))
        self.rows[change.line : end] = new

    # ---- changes

    def done(self, change):
        self.changes[self.at :] = [change]
        self.at += 1
        self.follow(change)

    def edit(self, first, last, text, is_run=False):
        """Replaces the text between two positions, and returns where the new text ends. Each edit is its own undo step:
        no command joins several."""
        change = self.text.change(first, last, text)
        self.ask(command(b"edit %d %d %d %d" % (*first, *last), text.encode()))
        self.done(change)
        return self.text.clamped(*change.place)

    def replace(self, template):
        """Replaces all matches of the whole text by a template, and returns their number."""
        count = int(self.ask(command(b"replace", template.encode()))[3:])
        told = self.ask(b"print\n")
        self.done(self.text.change_to(told[told.index(b"\n") + 1 : -1].decode()))
        return count

    def undo(self):
        """Undoes a step, and returns where the text changed."""
        self.ask(b"undo\n")
        self.at -= 1
        change = self.changes[self.at].back()
        self.follow(change)
        return self.text.clamped(*change.place)

    def redo(self):
        """Redoes a step, and returns where the text changed."""
        self.ask(b"redo\n")
        self.at += 1
        change = self.changes[self.at - 1]
        self.follow(change)
        return self.text.clamped(*change.place)

    # ---- matches

    def match_behind(self, line, mark):
        """The first match of a line after a pair of columns, or of the following lines: its line and columns."""
        row = self.rows[line]
        at = bisect.bisect_right(row, mark)
        if at == len(row):
            line, at = next((k for k in range(line + 1, len(self.rows)) if self.rows[k]), None), 0
        return line if line is None else (line, *self.rows[line][at])

    def match_before(self, line, mark):
        """The last match of a line before a pair of columns, or of the preceding lines."""
        at = bisect.bisect_left(self.rows[line], mark)
        if at == 0:
            line = next((k for k in range(line - 1, -1, -1) if self.rows[k]), None)
            at = 0 if line is None else len(self.rows[line])
        return line if line is None else (line, *self.rows[line][at - 1])

    def number_of(self, line, *match):
        """The number of a match, from 1."""
        return sum(map(len, self.rows[:line])) + bisect.bisect_left(self.rows[line], match) + 1

    def find_over_lines(self, line, column):
        """The first match of the whole text at or after a position, as two positions, or None. It may span lines, unlike
        the matches of rows."""
        numbers = self.ask(b"next %d %d\n" % (line, column)).split()[1:]
        numbers = tuple(map(int, numbers)) if len(numbers) == 4 else None
        return numbers and (numbers[:2], numbers[2:])
