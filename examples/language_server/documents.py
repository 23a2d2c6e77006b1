"""A document that the editor has open. A session of the library keeps its text and the report of its matches."""
import bisect
import os
import re
import sys
from collections import namedtuple

sys.path.insert(0, os.path.join(os.path.dirname(os.path.abspath(__file__)), "..", "..", "bindings", "python"))
import rope_search

Found = namedtuple("Found", "line start stop text")  # A match: where it is, in the editor's columns, and its text.
LONE_SURROGATE = re.compile("[\ud800-\udfff]")  # JSON can spell one, UTF-8 can't.
MOST = (1 << 64) - 1  # the greatest number that the library takes
REFERENCE = re.compile(r"\$([0-9$])")  # in a template


class Document:
    """A text with its version and, in `listed`, the matches of its report. Lines and columns are those of the editor, in
    an encoding that both have agreed on: "utf-8", "utf-16" or "utf-32"."""

    def __init__(self, version, text, pattern, encoding):
        self.version, self.encoding, self.listed, self.word = version, encoding, [], None
        self.report = rope_search.Session()
        self.sessions = [self.report]  # The second, once it is needed, finds the word under the cursor.
        self.set_text(text)
        self.set_pattern(pattern)

    def close(self):
        for session in self.sessions:
            session.close()

    def set_text(self, text):
        for session in self.sessions:
            session.set_text(LONE_SURROGATE.sub("\ufffd", text))
        self.listed = self.matches(self.report)

    def set_pattern(self, pattern):
        self.report.set_pattern(pattern)
        self.listed = self.matches(self.report)

    def edit(self, start, stop, text):
        """Replaces the text between two positions, each a line and a column."""
        start, stop = sorted((self.position(*start), self.position(*stop)))
        for session in self.sessions:
            session.edit(start, stop, LONE_SURROGATE.sub("\ufffd", text))
            session.forget()  # The editor keeps the history.
        self.follow()

    def follow(self):
        """Brings `listed` up to date after an edit, and reads no row of the report but those that the edit replaced. If
        nothing has changed, `listed` stays the same object."""
        first, removed, added = self.report.changed  # rows
        start, stop = (bisect.bisect_left(self.listed, (line,)) for line in (first, first + removed))
        new = self.matches(self.report, first, first + added)
        if new != self.listed[start:stop] or removed != added and stop < len(self.listed):
            moved = [found._replace(line=found.line - removed + added) for found in self.listed[stop:]]
            self.listed = self.listed[:start] + new + moved

    def position(self, line, column):
        """Returns the session's position for a place of the editor. As the protocol asks, a column after the line's end is
        that end. A line after the last is the text's end, and a column inside a character the character's start."""
        return self.report.clamp(min(line, MOST), min(column, MOST), self.encoding)

    def text(self, start, stop):
        return self.report.text_bytes(self.report.byte_of(start), self.report.byte_of(stop)).decode()

    def matches(self, session, first=0, stop=None, word=None):
        """Returns the matches that a session of this text lists in some rows, or in all. Each is `word`, if it is given."""
        told = session.matches(first, stop, self.encoding)
        return [Found(*own, word or self.text((line, start), (line, end)))
                for own, (line, start, end) in zip(told, session.matches(first, stop))]

    def word_at(self, line, column):
        """Returns the word around a position, or None."""
        with rope_search.Session() as session:
            session.set_text(self.report.line_text(line))
            session.set_pattern(r"\w+")
            spans = [((line, start), (line, stop)) for _, start, stop in session.matches() if start <= column <= stop]
        return self.text(*spans[0]) if spans else None

    def same_words(self, line, column):
        """Returns all places of the word around a place of the editor. The second session keeps them up to date, and
        searches the whole text again only for another word."""
        if (word := self.word_at(*self.position(line, column))) is None:
            return []
        if len(self.sessions) == 1:
            words = rope_search.Session()
            words.set_text(self.report.text_bytes())
            self.sessions.append(words)
        if word != self.word:
            self.sessions[1].set_pattern(rf"\b{word}\b")
            self.word = word
        return self.matches(self.sessions[1], word=word)

    def replacements(self, template):
        """Yields each listed match, and the text that takes its place: in a template `$0` is the match, `$1` to `$9` are
        its groups, and `$$` is a dollar."""
        for at, found in enumerate(self.listed):
            number = at - bisect.bisect_left(self.listed, (found.line,))
            yield found, REFERENCE.sub(lambda name: self.referenced(name[1], found, number), template)

    def referenced(self, name, found, number):
        if name in "$0":
            return "$" if name == "$" else found.text
        group = self.report.groups_at(found.line, number)[int(name)]
        return self.text((group.line, group.start), (group.line, group.stop)) if group else ""
