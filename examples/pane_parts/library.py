"""A text and its matches in a session of the library. Nothing is kept besides: lines and rows are read when they are shown,
so a key takes about as long in a large text as in a small one.

A new pattern is pending: its rows are made in slices, and those of the visible lines at once. Letters typed one after the
other are one undo step."""
import bisect
import itertools

from calls import WORDS, rope_search

from .document import Refused
from .text import Lines

SLICE = 4000  # lines of a slice of a pending pattern, or of a search for one of its matches
FEW = 100  # lines that are read together


class LibraryText(Lines):
    """The lines of a session's text."""

    def __init__(self, session):
        self.session = session

    @property
    def count(self):
        return self.session.text_lines

    def line(self, number):
        return self.session.line_text(number)

    def clamped(self, line, column):
        return tuple(self.session.clamp(line, column))

    def break_of(self, number):
        """The break that ends a line, or an empty text for the last one."""
        if number + 1 >= self.count:
            return ""
        end = self.session.byte_of((number, self.session.line_len(number)))
        return self.session.text_bytes(end, self.session.byte_of((number + 1, 0))).decode()

    def whole(self):
        return self.session.text


class LibraryDocument:
    """A text with its history, and the matches of a pattern, if it has one."""

    def __init__(self, text):
        self.session = rope_search.Session()
        self.called(lambda: self.session.set_text(text))
        self.text, self.has_pattern, self.count = LibraryText(self.session), False, 0
        self.states, self.at = [object()], 0  # a key for each text of the history
        self.seen = {}  # the rows of the visible lines

    def close(self):
        self.session.close()

    def called(self, call):
        """The result of a call of the library."""
        try:
            return call()
        except rope_search.Fault as fault:
            raise Refused(WORDS[type(fault)].decode()) from None

    def state(self):
        """A key for the state of the text."""
        return self.states[self.at]

    # ---- the pattern and its rows

    def is_pattern(self, pattern):
        """Whether a text is a pattern."""
        return self.called(lambda: rope_search.pattern_error(pattern)) is None

    def set_pattern(self, pattern):
        """Sets another pattern, or none if it is empty or refused. The first slice is searched at once."""
        self.has_pattern = False
        try:
            if pattern:
                self.called(lambda: self.session.begin_pattern(pattern))
                self.has_pattern = True
                self.count = 0
                self.advance()
        finally:
            if not self.has_pattern:
                self.session.off()
                self.recount()

    @property
    def is_pending(self):
        """Whether lines remain to be searched."""
        return self.session.pending is not None

    def advance(self):
        """Searches another slice."""
        start = self.session.pending
        if self.called(lambda: self.session.advance(SLICE)):
            self.count += self.session.count_matches(start)
        else:
            self.count += self.session.count_pending(start)
        self.seen = {}

    def finish(self):
        """Searches all remaining lines."""
        while self.is_pending:
            self.advance()

    def recount(self):
        """Counts the matches again; of a pending pattern, those in the lines that are done."""
        self.seen = {}
        self.count = self.session.count_pending() if self.is_pending else self.session.count_matches()

    def rows_of(self, start, stop):
        """The rows of the lines from one to another that have matches: for each its columns, by the line."""
        if not self.has_pattern or start >= stop:
            return {}
        look_up = self.session.window if self.is_pending else self.session.matches
        spans = self.called(lambda: look_up(start, stop))
        return {line: [(span.start, span.stop) for span in row] for line, row in itertools.groupby(spans, lambda span: span.line)}

    def show(self, lines):
        """Reads the rows of visible lines, whether they are done or not."""
        shown = range(lines.start, min(lines.stop, self.text.count))
        self.seen = {line: [] for line in shown}
        self.seen.update(self.rows_of(shown.start, shown.stop))

    def row(self, line):
        """The columns of the matches in a line."""
        return self.seen[line] if line in self.seen else self.rows_of(line, line + 1).get(line, [])

    # ---- changes

    def place_of_change(self):
        """The end of the last change of the text, or the start of the first of several."""
        changes = self.session.text_changes
        if not changes:
            return None
        byte = changes[0].new_end if len(changes) == 1 else changes[0].new_start
        return self.text.clamped(*self.session.position_of(byte))

    def add_state(self):
        self.states[self.at + 1 :] = [object()]
        self.at += 1

    def edit(self, first, last, text, is_run=False):
        """Replaces the text between two positions, and returns where the new text ends. If it continues what was typed
        before, both are one step."""
        # A CR and an LF that meet or are separated may change the preceding line.
        start, stop, lines = max(0, first[0] - 1), last[0] + 2, self.text.count
        gone = self.session.count_matches(start, stop)
        self.called(lambda: self.session.edit(first, last, text))
        self.add_state()
        if is_run:
            self.join()
        if self.is_pending:
            self.recount()
        else:
            self.seen = {}
            self.count += self.session.count_matches(start, stop + self.text.count - lines) - gone
        return self.place_of_change()

    def join(self):
        """Makes the last two steps one; they stay two if there is no memory for it."""
        try:
            self.session.join(2)
        except rope_search.Memory:
            return
        del self.states[self.at - 1]
        self.at -= 1

    def replace(self, template):
        """Replaces all listed matches by a template, or, if there are none, those of the whole text, which span lines; and
        returns their number."""
        self.finish()
        if self.count:
            count = self.called(lambda: self.session.replace_listed(0, self.text.count, template))
        else:
            count = self.called(lambda: self.session.replace(template))
        self.add_state()
        self.recount()
        return count

    def undo(self):
        """Undoes a step, and returns where the text changed."""
        self.called(self.session.undo)
        self.at -= 1
        self.recount()
        return self.place_of_change()

    def redo(self):
        """Redoes a step, and returns where the text changed."""
        self.called(self.session.redo)
        self.at += 1
        self.recount()
        return self.place_of_change()

    # ---- matches

    def match_behind(self, line, mark):
        """The first match of a line after a pair of columns, or of the following lines: its line and columns."""
        row = self.row(line)
        at = bisect.bisect_right(row, mark)
        return (line, *row[at]) if at < len(row) else self.first_from(line + 1)

    def match_before(self, line, mark):
        """The last match of a line before a pair of columns, or of the preceding lines."""
        row = self.row(line)
        at = bisect.bisect_left(row, mark)
        return (line, *row[at - 1]) if at > 0 else self.last_before(line)

    def first_from(self, line):
        """The first match in the lines from one on; of a pending pattern, in a slice of those that are done."""
        if not self.is_pending:
            found = self.session.listed_from((line, 0))
            return found and (found.line, found.start, found.stop)
        for start in range(line, min(line + SLICE, self.session.pending), FEW):
            if self.session.count_pending(start, start + FEW):
                return tuple(self.session.pending_matches(start, start + FEW)[0])
        return None

    def last_before(self, line):
        """The last match in the lines before one; of a pending pattern, in a slice of those that are done."""
        if not self.is_pending:
            found = self.session.listed_before((line, 0))
            return found and (found.line, found.start, found.stop)
        end = min(line, self.session.pending)
        for stop in range(end, max(0, end - SLICE), -FEW):
            if self.session.count_pending(max(0, stop - FEW), stop):
                return tuple(self.session.pending_matches(max(0, stop - FEW), stop)[-1])
        return None

    def number_of(self, line, *match):
        """The number of a match, from 1."""
        number = bisect.bisect_left(self.row(line), match)
        if self.is_pending:
            return self.session.count_pending(0, line) + number + 1
        return self.session.list_index(line, number)[0] + 1

    def find_over_lines(self, line, column):
        """The first match of the whole text at or after a position, as two positions, or None. It may span lines, unlike
        the matches of rows."""
        self.finish()
        found = self.called(lambda: self.session.next((line, column)))
        return found and (tuple(found.start), tuple(found.stop))
