"""The search pane in tmux, a terminal that draws: the screen after each key, for a text of 100,000 lines, and the
number of commands to the program. If there is no tmux, a message says so, and nothing is tested."""
import os
import shutil
import subprocess
import sys
import time

from harness import PROGRAM, ROOM, SECONDS, TOP, test
from protocol import read_commands

LINES = 100_000
COLUMNS, ROWS = 59, 16  # so 51 cells for a line
MARKED, FOUND = "\x1b[7mfrog\x1b[0m", "\x1b[4;7mfrog\x1b[0m"  # how tmux shows a match, and the current one
# The limit for each key, except those that request all matches: a pattern, a replacement and its undo.
MOST_COMMANDS, MOST_BYTES = 6, 2_000


def line(number):
    return f"{number:6} a frog 🐸 and a toad by the pond" + (" 漢字" * 12 if number % 7 == 3 else "") + "\n"


class Tmux:
    """The pane in a window of tmux, with a program whose commands and replies are stored in files."""

    def __init__(self, text):
        self.socket, self.path = os.path.join(ROOM, "tmux"), os.path.join(ROOM, "large")
        self.sent, self.told = os.path.join(ROOM, "sent"), os.path.join(ROOM, "told")
        with open(self.path, "w", encoding="utf-8", newline="") as file:
            file.write(text)
        noting = os.path.join(ROOM, "noting")
        with open(noting, "w", encoding="utf-8") as file:
            file.write(f"#!/bin/sh\ntee {self.sent} | {PROGRAM} | tee {self.told}\n")
        os.chmod(noting, 0o700)
        words = [sys.executable, os.path.join(TOP, "examples", "pane.py"), self.path, noting]
        self.ask("new-session", "-d", "-x", str(COLUMNS), "-y", str(ROWS), *words)

    def ask(self, *words):
        environment = {name: value for name, value in os.environ.items() if name != "TMUX"}
        environment.update(LC_ALL="C.UTF-8", TERM="xterm-256color")
        files = {"stdin": subprocess.DEVNULL, "stdout": subprocess.PIPE, "stderr": subprocess.STDOUT}
        words = ["tmux", "-S", self.socket, "-f", "/dev/null", "-u", *words]
        return subprocess.run(words, env=environment, **files).stdout.decode()

    def rows(self):
        """The text on the screen; `\\x1b[7m` and `\\x1b[4m` start reverse video and underlining."""
        return self.ask("capture-pane", "-p", "-e").split("\n")

    def lacks(self, wanted):
        """Which of the wanted texts, each by the number of its row, isn't on the screen after waiting for it."""
        end, rows = time.monotonic() + SECONDS, []
        while time.monotonic() < end:
            rows = self.rows() + [""] * ROWS
            if all(text in rows[row] for row, text in wanted):
                return []
            time.sleep(0.02)
        return [f"row {row} is {rows[row]!r}, without {text!r}" for row, text in wanted if text not in rows[row]]

    def asked(self, keys, *wanted):
        """What isn't on the screen after keys are typed, or pasted."""
        if isinstance(keys, str):
            self.ask("set-buffer", keys)
            self.ask("paste-buffer", "-p")
        else:
            self.ask("send-keys", *keys)
        return [f"after {keys}: {wrong}" for wrong in self.lacks(wanted)]

    def sizes(self):
        """The number of commands that were sent, and of bytes that were received."""
        with open(self.sent, "rb") as file:
            return len(read_commands(file.read())[0]), os.path.getsize(self.told)

    def cursor(self):
        return tuple(map(int, self.ask("display-message", "-p", "#{cursor_x} #{cursor_y}").split()))

    def ended(self):
        """The message of tmux once its only window is closed, after waiting for it."""
        end = time.monotonic() + SECONDS
        while time.monotonic() < end and not self.ask("has-session"):
            time.sleep(0.02)
        return self.ask("has-session")

    def close(self):
        self.ask("kill-server")


def wrong_file(path, text):
    with open(path, encoding="utf-8", newline="") as file:
        return [] if file.read() == text else ["the file is another"]


def wrong_answers(tmux, steps):
    """What isn't shown after keys, or took more commands or bytes than allowed."""
    for keys, *wanted in steps:
        commands, told = tmux.sizes()
        yield from tmux.asked(keys, *wanted)
        more_commands, more_told = tmux.sizes()
        if more_commands - commands > MOST_COMMANDS or more_told - told > MOST_BYTES:
            yield f"{keys} took {more_commands - commands} commands and {more_told - told} bytes of replies"


def test_search(tmux):
    cut = tmux.rows()[4]
    wrong = [] if cut.endswith("by the pond 漢字 漢字") else [f"row 4 is {cut!r}"]
    test("a wide character that has no room at the right edge isn't shown", wrong)
    wrong = tmux.asked(["frog|pond"], (0, "search: frog|pond   200000 matches"), (4, f"     4       3 a {MARKED}"))
    test("the matches of a pattern are counted and marked", wrong)
    steps = [
        (["Enter"], (0, "1 of 200000"), (1, f"     1       0 a {FOUND}")),
        (["BTab"], (0, "200000 of 200000"), (8, "100000 ")),
        (["Enter"], (0, "1 of 200000"), (1, "     1 ")),
        (["F3"], (0, "2 of 200000")),
        (["C-p"], (0, "1 of 200000")),
        (["NPage"], (1, "    16 "), (15, "    30 ")),
        (["End"], (1, " 99987 "), (15, "100001")),
        (["PPage"], (1, " 99972 "), (15, " 99986 ")),
        (["Down"], (1, " 99973 ")),
        (["Home"], (1, "     1       0 a ")),
        (["Right"], (1, "     1  ad by the \x1b[7mpond"), (4, "漢字 漢字 漢字 漢字 漢字 漢字 漢")),
        (["Left"], (1, "     1       0 a ")),
        (["F5"], (0, "search: frog|pond   1 of")),
        (["IC"], (0, "search: frog|pond   1 of")),
    ]
    test("keys that search and move are answered, with little asked for", wrong_answers(tmux, steps))


def test_text(tmux):
    steps = [
        (["Tab"], (1, f"a {FOUND}")),
        (["x"], (0, "200000 matches"), (1, f"     1       0 a x{MARKED}")),
        (["BSpace"], (1, f"     1       0 a {MARKED}")),
        (["DC"], (0, "199999 matches"), (1, "     1       0 a rog")),
        (["C-z"], (0, "200000 matches"), (1, f"     1       0 a {MARKED}")),
        (["Enter"], (1, "     1       0 a f"), (2, "     2  rog"), (3, "     3       1 a ")),
        (["C-z"], (1, f"     1       0 a {MARKED}"), (2, "     2       1 a ")),
        (["C-y"], (2, "     2  rog"), (15, "    15      13 ")),
        (["C-z"], (2, "     2       1 a ")),
        (["NPage"], (1, "    16 ")),
        (["S-Right"], (1, "    16 ")),
        (["F5"], (1, "    16 ")),
        (["M-x"], (1, "    16 ")),
        (["PPage"], (1, "     1       0 a ")),
        (["Home"], (1, "     1       0 a ")),
        ("one\ttwo\nthree", (1, "     1  one     tw"), (2, "     2  three     0 a "), (3, "     3       1 a ")),
        (["C-z"], (1, "     1       0 a "), (2, "     2       1 a ")),
        (["Down", "Down", "Down", "End"], (4, "     4   漢字 漢字 漢字 漢字 漢字"), (1, "     1")),
    ]
    test("keys that edit are answered, with little asked for", wrong_answers(tmux, steps))
    cursor = tmux.cursor()
    test("the cursor is behind the line, which is scrolled to", [] if cursor == (33, 4) else [f"{cursor}"])
    wrong = tmux.asked(["F3", "NPage", "NPage", "Home", "y"], (5, "    35  y    34 a "))
    wrong += tmux.asked(["PPage", "PPage", "PPage"], (1, "     1       0 a "))
    test("an undo goes to what it changed", wrong + tmux.asked(["C-z"], (8, "    35      34 a ")))


def test_all_matches(tmux):
    wrong = tmux.asked(["Tab", "C-r"], (0, "replace: "))
    wrong += tmux.asked(["<$0>", "Enter"], (0, "replaced: 200000"))
    test("all matches are replaced", wrong + tmux.asked(["Home"], (1, "     1       0 a <\x1b[7mfrog")))
    test("and come back", tmux.asked(["C-z"], (1, f"     1       0 a {MARKED}")))
    tmux.ask("resize-window", "-x", "40", "-y", "8")
    wrong = tmux.lacks([(0, "search: frog|pond"), (1, "     1       0 a "), (7, "     7       6 a ")])
    test("a smaller window is redrawn", wrong)
    tmux.ask("resize-window", "-x", str(COLUMNS), "-y", str(ROWS))
    test("and a larger one", tmux.lacks([(0, "search: frog|pond"), (15, "    15      14 a ")]))


def test_all():
    if shutil.which("tmux") is None:
        print("skipped: there is no tmux, so the pane isn't tried on 100,000 lines in it")
        return
    text = "".join(map(line, range(LINES)))
    tmux = Tmux(text)
    try:
        wrong = tmux.lacks([(0, "search:"), (1, "     1       0 a frog 🐸 and"), (15, "    15 ")])
        test("the pane shows a text of 100,000 lines", wrong)
        if wrong:
            return
        test_search(tmux)
        test_text(tmux)
        test_all_matches(tmux)
        wrong = tmux.asked(["C-s", "y"], (0, "saved")) + wrong_file(tmux.path, text)
        test("no key put anything else into the text", wrong)
        tmux.asked(["Escape"])
        test("Escape ends it", [] if "no server" in tmux.ended() else ["it goes on"])
    finally:
        tmux.close()
