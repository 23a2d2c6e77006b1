#!/usr/bin/env python3
"""A search pane in a terminal: shows a file, and highlights the matches of a regular expression while you type it and
while you edit the text.

    examples/pane.py FILE [PROGRAM]

Enter or F3     the next match, after the last one the first; Shift-Tab, Ctrl-P or Shift-F3: the preceding one
arrows          scroll the file, also sideways; PageUp, PageDown by a screen, Home and End to its ends
Alt-C, Alt-W    ignore case; match whole words only
Ctrl-R          prompts for a template, in which $0 is the match and $1 to $9 are its groups; Enter replaces all matches,
                Escape goes back
Tab             goes to the match in the text, and back. In the text, typed and pasted text is inserted, Backspace and
                Delete remove, Enter breaks the line, arrows, Home and End move
Ctrl-Z, Ctrl-Y  undo and redo, and go to the change
Ctrl-S          writes the file, after a confirmation
Escape          leaves, with a confirmation if the text isn't saved; Ctrl-C leaves at once

Matches are those of the report: of each line by itself. If there is none, Enter searches for one that spans lines.

The pane uses the library, if `make lib` has built it and no PROGRAM is named, and otherwise the program. With the library
it searches a pattern in slices of some thousand lines between keys: the visible lines at once, and a number of matches ends
with `+` until all lines are done. A line is searched whole, however long it is. No key waits for more than a slice, except
for a replacement, its undo, and a search for a match that spans lines: these read the whole text. Exactly the listed
matches are replaced, or, if there are none, those that span lines. Letters typed one after the other are one undo step.

With the program each letter is its own undo step, a pattern is searched at once, and the matches of the whole text are
replaced, which may differ from the listed ones, as docs/protocol.md explains.
"""
import os
import signal
import sys
import termios
import time
import tty

sys.dont_write_bytecode = True
from calls import rope_search
from client import PROGRAM, Client, Ended
from pane_parts.document import Document, Refused
from pane_parts.keys import Keys
from pane_parts.library import LibraryDocument
from pane_parts.pane import Left, Pane

SECONDS = 30  # for a reply of the program
MOMENT = 0.1  # seconds between two pictures while lines are left to be searched
BEGIN = "\x1b[?1049h\x1b[?7l\x1b[?2004h"  # another screen, on which nothing is wrapped, and pasted text told as such
END = "\x1b[?2004l\x1b[?7h\x1b[?1049l"


def document_of(program, text):
    """A text in the program, or in the library if no program is named."""
    return Document(Client(program, SECONDS), text) if program else LibraryDocument(text)


def is_built():
    return os.path.exists(rope_search.library_path())


class Session:
    """A pane in a terminal. If the program ends, it is restarted with the text, which is kept here too."""

    def __init__(self, program, text, path):
        self.program = program
        self.pane = Pane(document_of(program, text), path)

    def begin_anew(self, ended):
        """Continues with a new child, which has the text and no history."""
        pane, is_saved = self.pane, self.pane.document.state() is self.pane.saved
        pane.document.close()
        pane.document = document_of(self.program, pane.document.text.whole())
        pane.saved = pane.document.state() if is_saved else object()  # which is no state
        pane.typed, pane.found, pane.mode = "", None, "search" if pane.mode == "template" else pane.mode
        pane.asked, pane.place = pane.spelled(), pane.document.text.clamped(*pane.place)
        pane.told = f"restarted, with nothing to undo: {ended}"

    def guarded(self, do):
        try:
            do()
        except Ended as ended:
            self.begin_anew(ended)

    def search_on(self, is_waiting):
        """Searches the remaining lines, slice by slice, until a key is typed or the terminal is resized."""
        drawn = time.monotonic()
        while self.pane.document.is_pending and not is_waiting():
            self.guarded(self.pane.document.advance)
            if not self.pane.document.is_pending or time.monotonic() > drawn + MOMENT:
                self.pane.draw()
                drawn = time.monotonic()

    def run(self):
        """Handles keys and shows the result, until one of them leaves, or the terminal closes."""
        keys, (resized, told) = Keys(0), os.pipe()
        os.set_blocking(told, False)
        signal.set_wakeup_fd(told)
        signal.signal(signal.SIGWINCH, lambda *_: None)
        while True:
            if not keys.is_waiting():
                self.guarded(self.pane.follow)
                self.pane.draw()
            self.search_on(lambda: keys.is_waiting(0, resized))
            if not keys.wait(resized):
                self.pane.resize()
                continue
            typed = keys.read()
            if typed is None:
                return
            for key in typed:
                self.guarded(lambda: self.pane.take(key))


def read_text(path):
    """The text of a file. Raises OSError, or ValueError with the offset at which it isn't UTF-8."""
    with open(path, "rb") as file:
        data = file.read()
    try:
        return data.decode()
    except UnicodeDecodeError as error:
        line = len(data[: error.start].replace(b"\r\n", b"\n").replace(b"\r", b"\n").split(b"\n"))
        raise ValueError(f"not UTF-8: byte {data[error.start]:02x} at {error.start}, in line {line}") from None


def start(path, program):
    """A pane for a file, or a message why there is none."""
    if not (os.isatty(0) and os.isatty(1)):
        return "it needs a terminal"
    try:
        text = read_text(path)
    except (OSError, ValueError) as error:
        return f"{path}: {error.strerror if isinstance(error, OSError) else error}"
    if program and not os.path.exists(program):
        return f"there is no {program}: make builds bin/rope-search"
    try:
        return Session(program, text, path)
    except Refused as refused:
        return f"{path}: error {refused}"
    except (Ended, OSError) as error:
        return f"{program}: {error}"


def main(path=None, program=None, *more):
    if path is None or more:
        return "usage: examples/pane.py FILE [PROGRAM]"
    session = start(path, program or (None if is_built() else PROGRAM))
    if isinstance(session, str):
        return f"pane.py: {session}"
    before, why = termios.tcgetattr(0), None
    sys.stdout.reconfigure(encoding="utf-8", errors="replace")
    try:
        tty.setraw(0)
        print(BEGIN, end="")
        session.run()
    except Left:
        pass
    except (Ended, Refused) as error:
        why = f"pane.py: {error}"
    finally:
        print(END, end="", flush=True)
        termios.tcsetattr(0, termios.TCSADRAIN, before)
        session.pane.document.close()
    return why


if __name__ == "__main__":
    sys.exit(main(*sys.argv[1:]))
