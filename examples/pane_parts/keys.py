"""Keys typed into a terminal, each by its name, whatever sequence of bytes it sends."""
import codecs
import os
import re
import select
from collections import namedtuple

MOMENT = 0.05  # seconds within which the rest of a key's sequence arrives, unless it is Escape

# A key: its name, and the text that it types, if any; pasted text is a key too.
Key = namedtuple("Key", "name text")

PASTE, PASTE_END = "\x1b[200~", "\x1b[201~"
SEQUENCE = re.compile(
    r"\x1b\x1b?(?:\[\[[A-E]|\[(?P<numbers>[0-9;:]*)[0-?]*[ -/]*(?P<end>[@-Z\\-~])|O[0-9;]*(?P<short>[@-~]))"
)
UNFINISHED = re.compile(r"\x1b\x1b?(?:\[\[?|\[[0-?]+[ -/]*|O[0-9;]*)?\Z")
ENDS = {"A": "up", "B": "down", "C": "right", "D": "left", "H": "home", "F": "end", "R": "f3", "Z": "shift-tab"}
NUMBERS = {"1": "home", "3": "delete", "4": "end", "5": "page up", "6": "page down", "7": "home", "8": "end"}
NUMBERS.update({"13": "f3", "25": "shift-f3"})
CONTROLS = {"\r": "enter", "\n": "enter", "\t": "tab", "\x7f": "backspace", "\x08": "backspace", "\x1b": "escape"}


def name_of(sequence):
    """The name of the key that sends this, or one that nothing uses. Control and Alt don't change the key."""
    if sequence["end"] is None and sequence["short"] is None:
        return "f3" if sequence[0].endswith("C") else "unknown"
    number, *more = (sequence["numbers"] or "").split(";")
    name = NUMBERS.get(number) if sequence["end"] == "~" else ENDS.get(sequence["end"] or sequence["short"])
    is_shifted = more and more[0].isdigit() and (int(more[0]) - 1) & 1
    return "shift-f3" if name == "f3" and is_shifted else name or "unknown"


def key_of(character):
    if character in CONTROLS:
        return Key(CONTROLS[character], "")
    if character < " ":
        return Key(f"ctrl-{chr(ord(character) + 96)}", "")
    return Key("text", character)


def first_key(typed, is_all):
    """The first key of the typed bytes and its length, or None if it isn't complete."""
    if typed.startswith(PASTE):
        end = typed.find(PASTE_END)
        pasted = typed[len(PASTE) : end].replace("\r\n", "\n").replace("\r", "\n")
        return (Key("text", pasted), end + len(PASTE_END)) if end >= 0 else None
    found = SEQUENCE.match(typed)
    if found:
        return Key(name_of(found), ""), found.end()
    if UNFINISHED.match(typed) and not is_all:
        return None
    if typed[0] == "\x1b" and typed[1:2] not in ("", "\x1b"):
        return Key(f"alt-{typed[1].lower()}", ""), 2
    return key_of(typed[0]), 1


class Keys:
    """The keys that a terminal sends."""

    def __init__(self, number):
        self.number, self.typed, self.decoder = number, "", codecs.getincrementaldecoder("utf-8")("ignore")

    def is_waiting(self, seconds=0, *others):
        """Whether something was typed, or other files have something to read."""
        return bool(select.select([self.number, *others], [], [], seconds)[0])

    def wait(self, other):
        """Waits until a key is typed or another file has something to read, reads that, and returns whether a key was
        typed."""
        ready = select.select([self.number, other], [], [])[0]
        if other in ready:
            os.read(other, 4096)
        return self.number in ready

    def take_more(self):
        """Reads typed bytes, and returns whether there were any: the terminal may have closed."""
        try:
            data = os.read(self.number, 1 << 16)
        except OSError:
            data = b""
        self.typed += self.decoder.decode(data)
        return bool(data)

    def read(self):
        """The list of typed keys, or None if the terminal has closed."""
        keys, is_there = [], self.take_more()
        while is_there and self.typed:
            key = first_key(self.typed, False)
            if key is None and self.typed.startswith(PASTE):
                break  # its end hasn't arrived
            if key is None and self.is_waiting(MOMENT):
                is_there = self.take_more()
                continue
            key = key or first_key(self.typed, True)
            keys.append(key[0])
            self.typed = self.typed[key[1] :]
        return keys if is_there else None
