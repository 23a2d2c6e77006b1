"""The search pane of examples/: its parts compared with the model and the program, and all of it in a terminal of its
own."""
import fcntl
import os
import pty
import random
import select
import signal
import struct
import subprocess
import sys
import termios
import time

from harness import PROGRAM, ROOM, SECONDS, TOP, short, test
from protocol import Buffer, lines_of, positions_of

sys.path.insert(0, os.path.join(TOP, "examples"))
from client import Client
from pane_parts import screen
from pane_parts.document import Document, Refused
from pane_parts.keys import Keys
from pane_parts.text import Text

PANE = os.path.join(TOP, "examples", "pane.py")
ROWS, COLUMNS = 12, 80
TEXT = "A frog 🐸 and a toad.\nNo toad here is green.\r\n" + "\n" * 40 + "the end\n"

# The bytes that terminals send for keys, as xterm, the Linux console, rxvt, screen and PuTTY do, and their names.
SENT = [
    *((sent, "up") for sent in ("\x1b[A", "\x1bOA", "\x1b[1;2A", "\x1b\x1b[A")),
    ("\x1b[1;5B", "down"), ("\x1b[1;2C", "right"), ("\x1b[1;3D", "left"), ("\x1b[5~", "page up"),
    ("\x1b[6~", "page down"), ("\x1b[6;5~", "page down"), ("\x1b[3~", "delete"), ("\x1b[3;2~", "delete"),
    *((sent, "home") for sent in ("\x1b[H", "\x1bOH", "\x1b[1~", "\x1b[7~")),
    *((sent, "end") for sent in ("\x1b[F", "\x1bOF", "\x1b[4~", "\x1b[8~")),
    ("\x1bOR", "f3"), ("\x1b[13~", "f3"), ("\x1b[[C", "f3"), ("\x1b[1;2R", "shift-f3"), ("\x1b[25~", "shift-f3"),
    *((sent, "unknown") for sent in ("\x1bOP", "\x1b[15~", "\x1b[2~", "\x1b[24;2~", "\x1b[[A", "\x1b[<0;1;2M")),
    ("\x1b[Z", "shift-tab"), ("\x1b[97;5u", "unknown"),
    ("\x1bx", "alt-x"), ("\x1bC", "alt-c"), ("\t", "tab"), ("\r", "enter"), ("\x7f", "backspace"), ("\x10", "ctrl-p"),
    ("\x13", "ctrl-s"), ("\x1a", "ctrl-z"), ("é", "é"), ("🐸", "🐸"),
    ("\x1b[200~a\tb\rc\r\nd\x1b[A\x1b[201~", "a\tb\nc\nd\x1b[A"),
]


def keys_of(pieces):
    """The keys that are read when these bytes come one after the other, each by its name or the text that it types."""
    out, given = os.pipe()
    keys, found = Keys(out), []
    for piece in pieces:
        os.write(given, piece)
        found += keys.read()
    os.close(given)
    found += keys.read() or []
    os.close(out)
    return [key.text or key.name for key in found]


def test_keys():
    wrong = []
    for sent, name in SENT:
        for rest in ("", "x", "\x1b[A"):
            found, due = keys_of([(sent + rest).encode()]), [name] + {"": [], "x": ["x"], "\x1b[A": ["up"]}[rest]
            wrong += [] if found == due else [f"{sent + rest!r} is read as {found}"]
    test(f"{len(SENT)} keys are read by their whole sequences", wrong)
    wrong = []
    for sent, name in [("\x1b", "escape"), ("\x1b\x1b", "escape escape"), ("\x1b[", "alt-["), ("\x1b[1;", "alt-[ 1 ;")]:
        found = " ".join(keys_of([sent.encode()]))
        wrong += [] if found == name else [f"{sent!r} is read as {found}"]
    test("Escape alone is a key once nothing comes behind it", wrong)
    pasted, wrong = "\x1b[200~aé\tb\x1b[201~x".encode(), []
    for at in range(len("\x1b[200~"), len(pasted)):
        found = keys_of([pasted[:at], pasted[at:]])
        wrong += [] if found == ["aé\tb", "x"] else [f"cut at {at} it is read as {found}"]
    test("pasted text is one, wherever it is cut", wrong)


# Lines, the first visible cell and the number of visible cells, and what is visible of them.
SHOWN = [
    ("ab漢字c", 0, 4, "ab漢"), ("ab漢字c", 0, 3, "ab "), ("ab漢字c", 3, 3, " 字"), ("ab漢字c", 3, 4, " 字c"),
    ("ab漢字c", 2, 9, "漢字c"), ("a\tb", 0, 20, "a       b"), ("a\tb", 3, 4, "    "), ("a\tb", 3, 9, "     b"),
    ("e\u0301漢", 0, 2, "e\u0301 "), ("e\u0301b", 1, 2, "b"), ("a\x1b[31m\x00", 0, 9, "a·[31m·"), ("🐸🐸", 1, 2, "  "),
    ("🐸🐸", 0, 3, "🐸 "), ("plain", 2, 2, "ai"), ("", 0, 5, ""), ("x", 5, 5, ""),
]


def test_screen():
    wrong = []
    for line, left, width, due in SHOWN:
        found = "".join(text for _, text in screen.seen(line, left, width))
        wrong += [] if found == due else [f"of {line!r} from {left} in {width} cells {found!r} is seen"]
    test("what of lines is seen, with wide characters at both edges", wrong)
    found = screen.marked("a🐸bcd", 0, 9, [(1, 3), (4, 5)], (4, 5), 3)
    due = "a\x1b[7m🐸\x1b[27m\x1b7b\x1b[4m\x1b[7mc\x1b[27m\x1b[24md"
    test("matches are marked by their columns", [] if found == due else [f"{found!r}"])


def text_at_random(chance, most=6):
    return "".join(chance.choice("ab\r\n\r\n🐸") for _ in range(chance.randint(0, most)))


def wrong_changes(seed):
    """A text after an edit that differs from the model's, or is split into other lines."""
    chance = random.Random(seed)
    text = Text(text_at_random(chance, 12))
    for _ in range(30):
        whole, new = text.whole(), text_at_random(chance)
        places = positions_of(whole)
        first, last = sorted(chance.choice(places) for _ in range(2))
        due, change = Buffer(whole).edited(*first, *last, new), text.change(first, last, new)
        text.apply(change)
        lines = [due[start:end] for start, end in lines_of(due)]
        if text.whole() != due or [text.line(k) for k in range(len(text.lines))] != lines:
            yield f"{whole!r} with {new!r} from {first} to {last} is {text.lines}"
        back = Text(due)
        back.apply(change.back())
        if back.whole() != whole:
            yield f"{whole!r} with {new!r} from {first} to {last}, taken back, is {back.lines}"
        other = Text(whole)
        other.apply(other.change_to(due))
        if other.lines != text.lines:
            yield f"{whole!r} is made {due!r} as {other.lines}"
        places = positions_of(due)
        steps = list(zip([None] + places, places, places[1:] + [None]))
        if any((text.before(*place), text.behind(*place)) != (before, behind) for before, place, behind in steps):
            yield f"the steps from position to position of {due!r} are others"


def test_clamping():
    text, wrong = Text("a🐸b\r\n\nend"), []
    rows = [((0, 1), (0, 1)), ((0, 2), (0, 1)), ((0, 4), (0, 4)), ((0, 5), (0, 4)), ((0, 99), (0, 4)), ((1, 7), (1, 0))]
    rows += [((2, 3), (2, 3)), ((2, 4), (2, 3)), ((3, 0), (2, 3)), ((2**31 - 1, 0), (2, 3))]
    for asked, due in rows:
        wrong += [] if text.clamped(*asked) == due else [f"{asked} is taken for {text.clamped(*asked)}"]
    test("positions are clamped as the Language Server Protocol says", wrong)


def change_at_random(chance, document):
    """Does something with a document, if it can be done."""
    places = positions_of(document.text.whole())
    first, last = sorted(chance.choice(places) for _ in range(2))
    text, template = text_at_random(chance), chance.choice(["", "$0$0", "\n", "x"])
    pattern = chance.choice(["a", "a*", "^", "\\s", "a\\nb|b", "🐸|$", "(", ""])
    try:
        chance.choice([
            lambda: document.edit(first, last, text), lambda: document.edit(first, first, text), document.undo,
            document.redo, lambda: document.replace(template), lambda: document.set_pattern(pattern),
        ])()
    except Refused:
        pass


def wrong_documents(seed):
    """Differences between a document and the program, after random edits, replacements, undos and redos."""
    chance = random.Random(seed)
    with Client(PROGRAM) as client:
        document = Document(client, text_at_random(chance, 30))
        for _ in range(60):
            change_at_random(chance, document)
            text, rows = document.text.whole(), document.rows
            if client.ask(b"print\n") != b"text %d\n%b\n" % (len(text.encode()), text.encode()):
                yield f"seed {seed}: it has the text {text!r}"
            told = [b"m %d %d %d\n" % (line, *match) for line, row in enumerate(rows) for match in row]
            told = b"".join(told) + b"ok %d\n" % document.count if document.has_pattern else b"error none\n"
            if told != client.ask(b"list\n") or document.count != sum(map(len, rows)):
                yield f"seed {seed}: of {text!r} it has the rows {rows}, and {document.count} matches"


class Pane:
    """The pane in a terminal: its output, and its exit status."""

    def __init__(self, text, program=PROGRAM):
        self.path = os.path.join(ROOM, "shown")
        with open(self.path, "wb") as file:
            file.write(text)
        self.control, self.terminal = pty.openpty()
        self.resize(ROWS, COLUMNS)
        self.settings = termios.tcgetattr(self.terminal)
        files = {"stdin": self.terminal, "stdout": self.terminal, "stderr": self.terminal}
        command = [sys.executable, PANE, self.path, program]
        self.process = subprocess.Popen(command, cwd=ROOM, start_new_session=True, **files)
        self.out = b""

    def resize(self, rows, columns):
        fcntl.ioctl(self.terminal, termios.TIOCSWINSZ, struct.pack("HHHH", rows, columns, 0, 0))

    def shows(self, wanted, since=0):
        """Waits until the terminal got these bytes, and returns whether it did."""
        end = time.monotonic() + SECONDS
        while wanted not in self.out[since:] and time.monotonic() < end:
            if select.select([self.control], [], [], 0.1)[0]:
                self.out += os.read(self.control, 1 << 16)
            elif self.process.poll() is not None:
                break
        return wanted in self.out[since:]

    def type(self, keys):
        """Types keys, and returns how much had been written before."""
        before = len(self.out)
        os.write(self.control, keys.encode())
        return before

    def asked(self, keys, *wanted):
        """What isn't shown after keys are typed."""
        before = self.type(keys)
        return [f"after {keys!r} it doesn't show {text!r}" for text in wanted if not self.shows(text.encode(), before)]

    def children(self):
        with open(f"/proc/{self.process.pid}/task/{self.process.pid}/children", encoding="utf-8") as file:
            return [int(number) for number in file.read().split()]

    def end(self, status=0):
        """What is wrong with how the pane left the terminal, after it was told to end."""
        if not self.shows(b"\x1b[?1049l"):
            yield f"it leaves the terminal as {short(self.out[-200:])}"
        try:
            found = self.process.wait(SECONDS)
        except subprocess.TimeoutExpired:
            os.killpg(self.process.pid, signal.SIGKILL)
            found = self.process.wait()
        self.shows(b"nothing that is waited for")
        if found != status or b"Traceback" in self.out:
            yield f"it ends with {found}: {short(self.out[-200:])}"
        if termios.tcgetattr(self.terminal) != self.settings:
            yield "it leaves the terminal with other settings"
        os.close(self.control)
        os.close(self.terminal)


def test_typing(asked):
    """Keys that edit the text from the first match on, with the pattern `t\\w+d`; `\\x1b7` is at the cursor."""
    front, toad = "     1  A frog 🐸 and a ", "\x1b[7mtoad\x1b[27m."
    at_match = asked("\t", f"{front}\x1b7\x1b[4m\x1b[7mtoad\x1b[27m\x1b[24m.")
    test("Tab goes to the text, where the match is", at_match)
    wrong = asked("old ", "search: t\\w+d   2 matches", f"{front}old \x1b7{toad}")
    test("what is typed is put in, and the matches follow", wrong)
    test("Backspace takes a character away", asked("\x7f" * 2, f"{front}ol\x1b7{toad}"))
    wrong = asked("ad\x7f\x7f\x1b[C\x1b[C\x7f\x7f", "1 match\x1b", f"{front}ol\x1b7ad.")
    test("a match that typing removed is not counted", wrong)
    wrong = asked("\rt🐸\x1b[D\x1b[Co", "     2  t🐸o\x1b7ad.", "     3  No \x1b[7mtoad\x1b[27m")
    test("Enter breaks the line, and arrows go over characters of two code units", wrong)
    test("Backspace at a line's start joins it with the one before", asked("\x7f\x7f\x7f\x7f", f"{front}ol\x1b7ad."))
    wrong = asked("\x1b[3~", f"{front}ol\x1b7d.") + asked("\x1a", f"{front}ola\x1b7d.")
    test("Delete removes the character after the cursor", wrong)
    asked("\x1b[D", f"{front}ol\x1b7ad.")
    wrong = asked("\x1a" * 4, "     2  t🐸o\x1b7ad.") + asked("\x1a" * 16, f"{front}\x1b7{toad}", "2 matches")
    test("Ctrl-Z undoes edits, and goes to what changed", wrong)
    test("and says so if there is none left", asked("\x1a", "nothing to undo"))
    wrong = asked("\x19" * 4, f"{front}old \x1b7{toad}") + asked("\x1a" * 4, f"{front}\x1b7{toad}")
    test("Ctrl-Y does them again", wrong)
    wrong = asked("\x1b[200~x\ty\rz\x1b[201~", f"{front}x       y", f"     2  z\x1b7{toad}")
    wrong += asked("\x1a", f"{front}\x1b7{toad}")
    test("what is pasted is one edit, tabs and breaks in it", wrong)
    wrong = asked("\x1b[H\x1b[5~\x1b[1;2C\x1b[2~\x1bOP\x1bx\x1b[97;5u!", "     1  A!\x1b7 frog")
    wrong += asked("\x1a", "     1  A\x1b7 frog")
    test("keys without a meaning insert nothing", wrong)
    wrong = asked("\x1b[B\x1b[F", "     2  No \x1b[7mtoad\x1b[27m here is green.\x1b7")
    wrong += asked("\rend", "     3  end\x1b7")
    test("Home and End go to a line's start and end", wrong + asked("\x1b[H", "     3  \x1b7end"))
    wrong = asked("\x1a" * 4, "     2  No \x1b[7mtoad")
    wrong += asked("\x1b[A\t\r", "search: t\\w+d\x1b7", "     2  No \x1b[4m\x1b[7mtoad")
    test("Tab goes back to the search, and Enter on from there", wrong)


def test_replacing(asked):
    """A template that is typed for all matches of the pattern `t\\w+d`."""
    wrong = asked("\x12", "search: t\\w+d   replace: \x1b7") + asked("big $0s\x7f", "replace: big $0\x1b7")
    test("Ctrl-R asks for a template", wrong)
    lines = ["     1  A frog 🐸 and a big \x1b[7mtoad\x1b[27m.", "     2  No big \x1b[7mtoad\x1b[27m here"]
    wrong = asked("\r", "search: t\\w+d\x1b7   replaced: 2, matches: 2", *lines)
    test("Enter puts it in the place of all matches, and the matches follow", wrong)
    wrong = asked("\x1a", "     2  No \x1b[7mtoad") + asked("\x19", *lines) + asked("\x1a", "     2  No \x1b[7mtoad")
    test("Ctrl-Z undoes it, and Ctrl-Y does it again", wrong)
    test("Escape leaves all as it is", asked("\x12x\x1b", "search: t\\w+d\x1b7", "     2  No \x1b[7mtoad"))
    wrong = asked("(", "no pattern") + asked("\x12x\r", "no pattern", "     2  No toad here")
    wrong += asked("\x7f", "2 matches")
    test("nothing is replaced under a pattern that is refused", wrong)


def test_searching(asked):
    """Keys that search, from the pattern `t\\w+d` on."""
    toad = "\x1b[4m\x1b[7mtoad\x1b[27m\x1b[24m"
    first, second = f"     1  A frog 🐸 and a {toad}.", f"     2  No {toad} here"
    wrong = asked("\r", "1 of 2", first) + asked("\x1bOR", "2 of 2", second) + asked("\r", "1 of 2", first)
    test("Enter and F3 go to the next match, and from the last one to the first", wrong)
    wrong = asked("\x1b[Z", "2 of 2", second) + asked("\x10", "1 of 2", first) + asked("\x1b[1;2R", "2 of 2", second)
    test("Shift-Tab, Ctrl-P and Shift-F3 go to the one before, and from the first one to the last", wrong)
    wrong = asked("\x1b[B", "\x1b[2H\x1b[K     2  ") + asked("\x1b[A", "\x1b[2H\x1b[K     1  ")
    wrong += asked("\x1b[6~", "\x1b[2H\x1b[K    12  ") + asked("\x1b[F", "    44  ")
    wrong += asked("\x1b[5~", "\x1b[2H\x1b[K    23  ")
    test("Up, Down, PageUp, PageDown, Home and End move the file", wrong + asked("\x1b[H", "\x1b[2H\x1b[K     1  "))


def test_pane():
    pane = Pane(TEXT.encode())
    asked = pane.asked
    started = pane.shows("     2  No toad here is green.".encode())
    test("the pane shows a file's lines", [] if started else [f"it shows {short(pane.out)}"])
    marked = "     1  A frog 🐸 and a \x1b[7mtoad\x1b[27m."
    test("the pane marks matches behind a character of two code units", asked("t\\w+d", "2 matches", marked))
    test("the pane tells a pattern that is refused", asked("(", "no pattern", "     1  A frog 🐸 and a toad."))
    test("the pane goes on after it", asked("\x7f", "2 matches", marked))
    test_searching(asked)
    asked("\x10", "1 of 2")
    test_typing(asked)
    test_replacing(asked)
    far = asked("\x7f" * 5 + "^the", "search: ^the", "    43  \x1b[7mthe\x1b[27m end")
    test("the pane goes to the first match where none is in sight", far)
    test("without a pattern the pane marks nothing", asked("\x7f" * 4, "    43  the end"))
    test("and Enter goes nowhere", asked("\r", "search: \x1b7   \x1b["))
    pane.type("\x1b")
    test("Escape leaves, with the terminal as it was", pane.end())


def test_choices():
    """Ignored case, whole words, matches over lines, and long lines."""
    pane = Pane(("Toad toads\n" + "x" * 200 + "toad\nab\nend\n").encode())
    asked = pane.asked
    pane.shows(b"     4  end")
    whole, word = "\x1b[7mToad\x1b[27m", "\x1b[7mtoad\x1b[27m"
    wrong = asked("toad", "2 matches", f"     1  Toad {word}s")
    wrong += asked("\x1bc", "any case   3 matches", f"     1  {whole} {word}s")
    test("Alt-C takes letters in either case", wrong)
    wrong = asked("\x1bw", "any case   whole words   1 match\x1b", f"     1  {whole} toads")
    wrong += asked("\x1bc", "search: toad\x1b7   whole words   0 matches") + asked("\x1bc", "1 match\x1b")
    test("Alt-W takes whole words alone", wrong)
    wrong = asked(")(x", "no pattern") + asked("\x7f" * 3 + "|end", "2 matches", "\x1b[7mend\x1b[27m")
    test("and what isn't a pattern by itself stays none", wrong + asked("\x7f" * 4 + "\x1bw\x1bc", "2 matches"))
    wrong = asked("\r\r", "2 of 2", f"     2  {'x' * 36}\x1b[4m{word}\x1b[24m\x1b[")
    test("a match behind the right edge is scrolled to", wrong + asked("\r", "1 of 2", f"     1  Toad \x1b[4m{word}"))
    wrong = asked("\x1b[C", "\x1b[3H\x1b[K     2  " + "x" * 72 + "\x1b[", "\x1b[2H\x1b[K     1  \x1b[3H")
    wrong += asked("\x1b[D", "     1  Toad")
    test("Left and Right move the file sideways", wrong)
    wrong = asked("\x15b\\ne", "0 matches")
    wrong += asked("\r", "0 matches, and one over lines", "a\x1b[4mb\x1b[24m\x1b[", "\x1b[4me\x1b[24mnd")
    test("where no line has a match, Enter goes to one over lines", wrong)
    wrong = asked("\x15\\s+$", "0 matches") + asked("\x12\r", "replaced: 1 (0 were marked: docs/protocol.md)")
    test("the pane says if other matches are replaced than were marked", wrong)
    before = len(pane.out)
    pane.resize(5, 30)
    os.kill(pane.process.pid, signal.SIGWINCH)
    wrong = [] if pane.shows(b"\x1b[5H\x1b[K     4  end", before) else ["it isn't redrawn"]
    wrong += [] if b"\x1b[3H\x1b[K     2  " + b"x" * 22 + b"\x1b[" in pane.out[before:] else ["lines aren't wrapped again"]
    test("a resized terminal is redrawn at once", wrong)
    pane.type("\x03")
    test("Ctrl-C leaves, with the terminal as it was, though the text isn't saved", pane.end())


def read(path):
    with open(path, "rb") as file:
        return file.read()


def test_saving():
    text = "é\r\nb\rc\nd".encode()
    pane = Pane(text)
    asked = pane.asked
    pane.shows(b"     4  d")
    wrong = asked("\t\x1b[Fx", "éx") + asked("\x13", f"overwrite {pane.path}? y or n") + asked("n", "search: ")
    wrong += [] if read(pane.path) == text else ["it did"]
    test("Ctrl-S asks, and writes nothing where the answer is no", wrong)
    wrong = asked("\x1b[B\x1b[F\r", "     4  c") + asked("\x13y", "saved")
    found = read(pane.path)
    wrong += [] if found == "éx\r\nb\r\rc\nd".encode() else [f"it wrote {found!r}"]
    test("it writes the text with the breaks that it has", wrong)
    test("undo is there as before", asked("\x1a", "     3  c"))
    with open(pane.path, "wb") as file:
        file.write(b"other")
    wrong = asked("\x13", "which has changed since it was read?") + asked("n", "search: ")
    test("it says that the file has changed", wrong + ([] if read(pane.path) == b"other" else ["it is overwritten"]))
    wrong = asked("\x1b", "the text isn't saved? y or n") + asked("n", "search: ")
    test("Escape asks where the text isn't saved", wrong)
    os.remove(pane.path)
    os.mkdir(pane.path)
    test("a file that can't be written is reported", asked("\x13y", "not saved: "))
    os.rmdir(pane.path)
    asked("\x1b", "y or n")
    pane.type("y")
    test("and leaves if the answer is yes", pane.end())


def test_ended():
    """The program ends while the pane runs."""
    pane = Pane(b"a frog\n")
    asked = pane.asked
    pane.shows(b"     1  a frog")
    wrong = asked("frog\t!", "     1  !\x1b7a \x1b[7mfrog")
    os.kill(pane.children()[0], signal.SIGKILL)
    wrong += asked("x", "restarted, with nothing to undo: ", "     1  !\x1b7a frog")
    wrong += asked("y", "     1  !y\x1b7a frog") + asked("\tfrog", "1 match\x1b", "\x1b[7mfrog")
    test("where the program is killed, the pane tells it, and goes on with the text", wrong)
    pane.type("\x03")
    test("it leaves as ever", pane.end())
    ending = os.path.join(ROOM, "ending")
    with open(ending, "w", encoding="utf-8") as file:
        file.write(f"#!/bin/sh\n[ -e {ending}.once ] && exit 3\n: > {ending}.once\nexec {PROGRAM}\n")
    os.chmod(ending, 0o700)
    pane = Pane(b"a frog\n", ending)
    pane.shows(b"     1  a frog")
    os.kill(pane.children()[0], signal.SIGKILL)
    pane.type("x")
    wrong = list(pane.end(1)) + ([] if b"(status 3)" in pane.out else ["it doesn't"])
    test("if the program can't be restarted, the pane ends, and says so", wrong)


def test_refusals():
    """The pane's message if it can't start, without a traceback."""
    pane = Pane(b"a\r\nb\rc\n \xff")
    told = pane.shows(b"not UTF-8: byte ff at 8, in line 4")
    pane.process.wait()
    test("the pane says if a file isn't UTF-8", [] if told and b"Traceback" not in pane.out else [short(pane.out)])
    os.close(pane.control)
    os.close(pane.terminal)

    def told_of(*arguments, has_terminal=True):
        control, terminal = pty.openpty()
        given = {"stdin": terminal if has_terminal else subprocess.DEVNULL, "stdout": terminal}
        ended = subprocess.run([sys.executable, PANE, *arguments], stderr=subprocess.PIPE, timeout=SECONDS, **given)
        os.close(terminal)
        os.close(control)
        return ended.returncode, ended.stderr.decode()

    here, false, ended = os.path.abspath(__file__), "/bin/false", "the program ended before the whole reply"
    for name, due, *arguments in [
        ("no file", "usage: examples/pane.py FILE [PROGRAM]\n"),
        ("a file that isn't there", "pane.py: nowhere: No such file or directory\n", "nowhere"),
        ("a folder", f"pane.py: {ROOM}: Is a directory\n", ROOM),
        ("no program", "pane.py: there is no nowhere: make builds bin/rope-search\n", here, "nowhere"),
        ("a program that ends", f"pane.py: {false}: {ended} (status 1)\n", here, false),
        ("a program that is none", f"pane.py: {ROOM}: [Errno 13] Permission denied: '{ROOM}'\n", here, ROOM),
    ]:
        found = told_of(*arguments)
        test(f"the pane reports {name}", [] if found == (1, due) else [f"{found}"])
    found = told_of(here, has_terminal=False)
    test("the pane reports that there is no terminal", [] if found == (1, "pane.py: it needs a terminal\n") else [f"{found}"])


def test_large():
    pane = Pane(b"a\n" * 1000)
    pane.shows(b"     1  a")
    wrong = pane.asked("\\n\x1b[F", "  1000  a") + pane.asked("\x12\r", "replaced: 1000 (0 were marked", "     1  aaaa")
    wrong += pane.asked("\x1a", "     1  a\x1b") + pane.asked("\x15a", "1000 matches")
    test("what is shown is moved where its lines are gone", wrong)
    pane.type("\x03")
    test("and it leaves", pane.end())

    pane = Pane("".join(f"line {number} é\n" for number in range(50000)).encode())
    pane.shows(b"     1  line")
    for key in "line 4":
        pane.type(key)
    shown = pane.shows(b"search: line 4\x1b7   11111 matches")
    test("the pane follows who types fast over 50,000 lines", [] if shown else ["it doesn't"])
    pane.type("\x1b")
    test("it leaves at once then", pane.end())

    pane = Pane(b"a\x1b[31mb\n")
    shown = pane.shows("     1  a·[31mb".encode())
    pane.type("\x1b")
    wrong = ([] if shown else ["it does"]) + list(pane.end())
    test("the pane gives the terminal no control characters of a file", wrong)


def test_all():
    test_keys()
    test_screen()
    wrong = [wrong for seed in range(300) for wrong in wrong_changes(seed)]
    test("300 texts keep their lines through 30 changes each", wrong)
    test_clamping()
    wrong = [wrong for seed in range(20) for wrong in wrong_documents(seed)]
    test("20 documents have the program's text and rows after 60 changes each", wrong)
    test_pane()
    test_choices()
    test_saving()
    test_ended()
    test_refusals()
    test_large()
