"""What the pane shows, and what each key does."""
import os
import shutil
import tempfile

from . import screen
from .document import Refused
from .text import units

AFTER_ALL = (float("inf"),)  # after each pair of columns of a line
TOLD = {"pattern": "no pattern, or not yet: docs/patterns.md", "limit": "too large a pattern: docs/patterns.md"}


class Left(Exception):
    """A key ended the pane."""


def stamp_of(path):
    """A key for the state of a file, or None if there is no file."""
    try:
        told = os.stat(path)
    except OSError:
        return None
    return told.st_mtime_ns, told.st_size


def save(path, text):
    """Writes a text to a new file, which then replaces the old one."""
    path = os.path.realpath(path)
    with tempfile.NamedTemporaryFile(dir=os.path.dirname(path), delete=False) as file:
        try:
            file.write(text.encode())
            file.flush()
            if os.path.exists(path):
                shutil.copymode(path, file.name)
            os.replace(file.name, path)
        except OSError:
            os.remove(file.name)
            raise


class Pane:
    """A document, its visible part, a cursor in it, and the typed pattern."""

    def __init__(self, document, path):
        self.document, self.path, self.saved, self.stamp = document, path, document.state(), stamp_of(path)
        self.mode, self.question = "search", None  # or the mode is "text", or "template"
        self.typed, self.folds, self.words = "", False, False  # the pattern, whether it ignores case, whether it matches whole words
        self.asked = self.spelled()
        self.template, self.told, self.refused = "", "", ""  # the message of the last key, and why there is no pattern
        self.top, self.left = 0, 0  # the first visible line and cell
        self.place, self.found = (0, 0), None  # the cursor, and the current match, as two positions
        self.run = None  # the end of letters typed one after the other, which are one undo step

    # ---- the pattern and its matches

    def spelled(self):
        """The typed pattern, with its options."""
        pattern = rf"\b(?:{self.typed})\b" if self.typed and self.words else self.typed
        return "(?i)" + pattern if pattern and self.folds else pattern

    def set_pattern(self):
        """Sets the typed pattern, or none."""
        self.asked, self.found, self.refused = self.spelled(), None, ""
        try:
            if self.words and self.typed and not self.document.is_pattern(self.typed):
                raise Refused("pattern")
            self.document.set_pattern(self.asked)
        except Refused as refused:
            self.document.set_pattern("")
            self.refused = TOLD.get(str(refused), f"error {refused}")

    def follow(self):
        """Sets the pattern, unless more was typed meanwhile, and shows a match of it: if none is visible, the next one."""
        if self.spelled() != self.asked:
            self.set_pattern()
            self.document.show(self.shown())
            count, is_pending = self.document.text.count, self.document.is_pending
            if self.document.count and not any(self.document.row(line) for line in self.shown() if line < count):
                match = self.document.match_behind(self.top, (-1, -1))
                match = match or (None if is_pending else self.document.match_behind(0, (-1, -1)))
                self.top = match[0] if match else self.top

    def report(self):
        """The number of the current match, and of all."""
        count, more = self.document.count, "+" * self.document.is_pending
        if not self.document.has_pattern:
            return ""
        if self.found and self.found[0][0] == self.found[1][0] and count:
            (line, start), (_, end) = self.found
            return f"{self.document.number_of(line, start, end)} of {count}{more}"
        return f"{count}{more} match{'es' * (count != 1 or bool(more))}" + ", and one over lines" * bool(self.found)

    def go_to_match(self, is_back):
        """Goes to the match after the current one, or before it, or, without one, to the nearest to the cursor; from the
        last one to the first, and back."""
        if self.spelled() != self.asked:
            self.set_pattern()
        line, column = self.found[0] if self.found else self.place_shown()
        if not self.document.has_pattern:
            return
        if not self.document.count and not self.document.is_pending:
            self.find_over_lines()
            return
        if is_back:
            mark = (column, self.found[1][1] if self.found else -1)
            last = self.document.text.count - 1
            match = self.document.match_before(line, mark) or self.document.match_before(last, AFTER_ALL)
        else:
            mark = (column, self.found[1][1]) if self.found else (column, -1)
            match = self.document.match_behind(line, mark) or self.document.match_behind(0, (-1, -1))
        if match is None:
            self.told = "still searching"
            return
        line, start, end = match
        self.found = (line, start), (line, end)
        self.go(self.found[0], self.found[1])

    def find_over_lines(self):
        """Goes to the next match of the whole text."""
        start = self.document.text.behind(*self.place) if self.found else self.place
        found = start and self.document.find_over_lines(*start)
        self.found = found or self.document.find_over_lines(0, 0)
        if self.found:
            self.go(self.document.text.clamped(*self.found[0]))

    # ---- what is shown

    def front(self):
        """The number of cells of a line's number."""
        return max(6, len(str(self.document.text.count)))

    def size(self):
        """The number of lines on the screen, and of cells for a line's text."""
        size = os.get_terminal_size()
        return max(1, size.lines - 1), max(1, size.columns - self.front() - 2)

    def shown(self):
        """The numbers of the lines on the screen."""
        return range(self.top, self.top + self.size()[0])

    def place_shown(self):
        """The cursor, or the first visible position."""
        return self.place if self.place[0] in self.shown() else (self.top, 0)

    def resize(self):
        """Keeps the cursor visible."""
        if self.mode == "text":
            self.go(self.place)

    def go(self, place, end=None):
        """Moves the cursor to a position, and shows it, and the end of a match that begins there, if there is room."""
        self.place, (height, width) = place, self.size()
        if not self.top - 1 <= place[0] <= self.top + height:
            self.top = max(0, place[0] - height // 2)
        self.top = min(max(self.top, place[0] - height + 1), place[0])
        line = self.document.text.line(place[0])
        cell, last = screen.cell_of(line, place[1]), screen.cell_of(line, (end or place)[1])
        if cell < self.left or max(cell, min(last, cell + width - 1)) >= self.left + width:
            self.left = 0 if last < width else max(0, cell - width // 2)

    def lines_of(self, key):
        """The number of lines by which a key moves."""
        height, _ = self.size()
        return {"up": -1, "down": 1, "page up": -height, "page down": height}.get(key, 0)

    def move_file(self, key):
        """Scrolls."""
        height, width = self.size()
        lines = self.lines_of(key)
        last = self.document.text.count - 1
        self.top = {"home": 0, "end": max(0, last - height + 1)}.get(key, max(0, min(self.top + lines, last)))
        self.left = max(0, self.left + {"left": -width // 2, "right": width // 2}.get(key, 0))

    # ---- changes

    def changed(self, change):
        """Makes a change, and returns its result, or None if it was refused. Visible lines and the cursor may be gone then."""
        self.run = None
        try:
            answer = change()
        except Refused as refused:
            self.told = f"error {refused}"
            return None
        text = self.document.text
        self.top, self.place, self.found = min(self.top, text.count - 1), text.clamped(*self.place), None
        return answer

    def edit(self, first, last, text, is_run=False):
        """Replaces the text between two positions, and moves the cursor after the new text."""
        self.make(lambda: self.document.edit(first, last, text, is_run))

    def replace_all(self):
        """Replaces all matches by the template, if the typed pattern is one."""
        if self.spelled() != self.asked:
            self.set_pattern()
        if self.document.has_pattern:
            shown = self.document.count
            count = self.changed(lambda: self.document.replace(self.template))
            if count is not None:
                other = f" ({shown} were marked: docs/protocol.md)" if count != shown else ""
                self.told = f"replaced: {count}{other}, matches: {self.document.count}"

    def make(self, change):
        """Makes a change, and goes to it."""
        place = self.changed(change)
        if place:
            self.go(place)

    def undo_or_redo(self, change):
        """Undoes or redoes."""
        self.make(change)
        if self.told == "error none":
            self.told = "there is nothing to undo or to redo"

    def save(self):
        try:
            save(self.path, self.document.text.whole())
        except OSError as error:
            self.told = f"not saved: {error.strerror}"
        else:
            self.saved, self.stamp, self.told = self.document.state(), stamp_of(self.path), "saved"
            self.run = None

    # ---- keys

    def move(self, key):
        """Moves the cursor by a key."""
        text, (line, column) = self.document.text, self.place
        if self.lines_of(key):
            if key.startswith("page"):
                self.move_file(key)
            place = text.clamped(min(max(0, line + self.lines_of(key)), text.count - 1), column)
        else:
            to = {"right": text.behind, "left": text.before, "home": lambda *_: (line, 0)}
            to["end"] = lambda *_: (line, units(text.line(line)))
            place = to[key](line, column)
        self.found = None
        self.go(place or self.place)

    def type_into_text(self, key):
        """Handles a key that edits the text."""
        text, place = self.document.text, self.place
        if key.text or key.name == "enter":
            is_letter, is_run = len(key.text) == 1, self.run == place
            self.edit(place, place, (key.text or "\n").replace("\n", text.break_near(place[0])), is_letter and is_run)
            self.run = self.place if is_letter else None
        elif key.name == "backspace" and text.before(*place):
            self.edit(text.before(*place), place, "")
        elif key.name == "delete" and text.behind(*place):
            self.edit(place, text.behind(*place), "")
        elif key.name in ("up", "down", "left", "right", "home", "end", "page up", "page down"):
            self.move(key.name)

    def type_into_search(self, key):
        """Handles a key of the pattern, or one that scrolls."""
        if key.name == "enter":
            self.go_to_match(False)
        elif key.text or key.name in ("backspace", "ctrl-u"):
            self.typed = self.typed + key.text if key.text else self.typed[: -1 if key.name == "backspace" else 0]
        else:
            self.move_file(key.name)

    def type_into_template(self, key):
        """Handles a key of the template."""
        if key.name in ("enter", "escape"):
            self.mode = "search"
        if key.name == "enter":
            self.replace_all()
        elif key.text or key.name == "backspace":
            self.template = self.template + key.text if key.text else self.template[:-1]

    def change_mode(self):
        """Goes to the text, or back."""
        self.mode = "search" if self.mode == "text" else "text"
        self.go(self.place_shown())

    def ask_for_template(self):
        self.mode, self.template = "template", ""

    def ask_to_save(self):
        why = ", which has changed since it was read" if stamp_of(self.path) != self.stamp else ""
        self.question = f"overwrite {self.path}{why}? y or n ", self.save

    def ask_to_leave(self):
        if self.document.state() is self.saved:
            self.leave()
        self.question = "leave, though the text isn't saved? y or n ", self.leave

    def leave(self):
        raise Left

    def answer(self, key):
        """Does what was confirmed, or nothing."""
        (_, do), self.question = self.question, None
        if key.text in ("y", "Y"):
            do()

    def always(self, key):
        """The action of a key in every mode, or None."""
        if key in ("shift-tab", "ctrl-p", "shift-f3"):
            return lambda: self.go_to_match(True)
        return {
            "f3": lambda: self.go_to_match(False),
            "tab": self.change_mode,
            "alt-c": lambda: setattr(self, "folds", not self.folds),
            "alt-w": lambda: setattr(self, "words", not self.words),
            "ctrl-r": self.ask_for_template,
            "ctrl-z": lambda: self.undo_or_redo(self.document.undo),
            "ctrl-y": lambda: self.undo_or_redo(self.document.redo),
            "ctrl-s": self.ask_to_save,
            "escape": None if self.mode == "template" else self.ask_to_leave,
        }.get(key)

    def take(self, key):
        """Handles a key."""
        self.told = ""
        if key.name == "ctrl-c":
            self.leave()
        if self.question:
            self.answer(key)
            return
        do = self.always(key.name)
        if do:
            do()
        else:
            getattr(self, f"type_into_{self.mode}")(key)

    # ---- drawing

    def found_in(self, line):
        """The part of the current match in a line, as two columns."""
        if not self.found or not self.found[0][0] <= line <= self.found[1][0]:
            return None
        (first, start), (last, end) = self.found
        return start if line == first else 0, end if line == last else units(self.document.text.line(line))

    def head(self):
        """The first row: the pattern, the template if one is typed, and the message."""
        columns = os.get_terminal_size().columns
        if self.question:
            return screen.cut(self.question[0], columns) + "\x1b7"
        chosen = "   any case" * self.folds + "   whole words" * self.words
        told = f"{chosen}   {self.told or self.refused or self.report()}"
        fields = [("search", "search: ", self.typed)]
        fields += [("template", "   replace: ", self.template)] if self.mode == "template" else []
        room = max(8, (columns - len(told) - sum(len(label) for _, label, _ in fields)) // len(fields))
        out, used = "", 0
        for mode, label, text in fields:
            text = "".join(screen.shown(character)[0] for character in text)
            text = screen.cut(text, room, from_end=True)
            out += label + text + "\x1b7" * (mode == self.mode)
            used += screen.cells(label + text)
        return out + screen.cut(told, columns - used)

    def draw(self):
        """Draws the head, and below it the lines from `top` on."""
        self.document.show(self.shown())
        count, (_, width) = self.document.text.count, self.size()
        out = f"\x1b[H\x1b[K{self.head()}"
        for row, line in enumerate(self.shown()):
            out += f"\x1b[{row + 2}H\x1b[K"
            if line < count:
                cursor = self.place[1] if self.mode == "text" and line == self.place[0] and not self.question else None
                text, marks = self.document.text.line(line), (self.document.row(line), self.found_in(line), cursor)
                out += f"{line + 1:{self.front()}}  {screen.marked(text, self.left, width, *marks)}"
        print(out, end="\x1b8", flush=True)
