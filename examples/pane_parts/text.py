"""A text as an editor keeps it: its lines, with the program's positions, a line and a column, both from 0, where columns
count UTF-16 code units."""
import io

BREAKS = "\r\n"  # CR and LF, and CR LF as one


def units(text):
    """The number of UTF-16 code units of a text."""
    return len(text) if text.isascii() else len(text.encode("utf-16-le")) // 2


def index_of(line, column):
    """The number of characters of a line before a column. A column inside a character counts as the start of it."""
    return column if line.isascii() else len(line.encode("utf-16-le")[: 2 * column].decode("utf-16-le", "ignore"))


def lines_of(text):
    """The lines of a text, each with the break that ends it; only the last one has none."""
    lines = list(io.StringIO(text, newline=""))
    return lines if text and text[-1] not in BREAKS else lines + [""]


def behind(place, text):
    """The position after a text that was inserted at one, if no CR and LF meet."""
    lines = lines_of(text)
    return place[0] + len(lines) - 1, (place[1] if len(lines) == 1 else 0) + units(lines[-1])


class Change:
    """The replaced lines, from the line with a number on, and the new lines; and the position after the new text, and after
    the old text when it is restored."""

    def __init__(self, line, gone, come, place, place_back):
        self.line, self.gone, self.come, self.place, self.place_back = line, gone, come, place, place_back

    def back(self):
        """The change that reverts it."""
        return Change(self.line, self.come, self.gone, self.place_back, self.place)


class Lines:
    """The lines of a text: `count` is their number, `line` returns one without its break, `break_of` its break."""

    def behind(self, line, column):
        """The position one character further, or None at the end."""
        text = self.line(line)
        rest = text[index_of(text, column) :]
        if rest:
            return line, column + units(rest[0])
        return (line + 1, 0) if line + 1 < self.count else None

    def before(self, line, column):
        """The position one character before, or None at the start."""
        if column > 0:
            text = self.line(line)
            return line, units(text[: index_of(text, column) - 1])
        return (line - 1, units(self.line(line - 1))) if line > 0 else None

    def break_near(self, number):
        """The break of a line, or of the preceding one, or LF."""
        return self.break_of(number) or (self.break_of(number - 1) if number > 0 else "") or "\n"


class Text(Lines):
    """The lines of a text that changes are applied to."""

    def __init__(self, text):
        self.lines = lines_of(text)

    @property
    def count(self):
        return len(self.lines)

    def break_of(self, number):
        line = self.lines[number]
        return line[len(line.rstrip(BREAKS)) :]

    def line(self, number):
        """A line's text, without its break."""
        return self.lines[number].rstrip(BREAKS)

    def clamped(self, line, column):
        """The position that a client of the Language Server Protocol means: a column past the end of the line is its end,
        one inside a character the start of that, and a line that doesn't exist the end of the text."""
        if line >= len(self.lines):
            line, column = len(self.lines) - 1, units(self.lines[-1])
        text = self.line(line)
        return line, units(text[: index_of(text, column)])

    def change(self, first, last, text):
        """The change that replaces the text between two positions."""
        start, head = first[0], self.lines[first[0]]
        end, tail = last[0] + 1, self.lines[last[0]]
        head, tail = head[: index_of(head, first[1])], tail[index_of(tail, last[1]) :]
        if start > 0 and not head and (text or tail).startswith("\n") and self.lines[start - 1].endswith("\r"):
            start, head = start - 1, self.lines[start - 1]  # with the LF that its CR meets
        come = lines_of(head + text + tail)
        if end < len(self.lines):
            come.pop()  # the text after the last break is the next line
        return Change(start, self.lines[start:end], come, behind(first, text), last)

    def change_to(self, text):
        """The change that makes it another text, without the equal lines at both ends."""
        old, new = self.lines, lines_of(text)
        most, start, end = min(len(old), len(new)), 0, 0
        while start < most and old[start] == new[start]:
            start += 1
        while end < most - start and old[-1 - end] == new[-1 - end]:
            end += 1
        return Change(start, old[start : len(old) - end], new[start : len(new) - end], (start, 0), (start, 0))

    def apply(self, change):
        self.lines[change.line : change.line + len(change.gone)] = change.come

    def whole(self):
        return "".join(self.lines)
