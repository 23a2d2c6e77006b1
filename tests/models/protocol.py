"""A small model of the protocol of docs/protocol.md: the output for an input, and the exit status of the program."""
import functools
import re

from pattern_model import match_from, matches, matches_with_groups, pattern_weight, tree_of

TEXT_LIMIT = 1 << 30  # the maximum number of bytes of a text
PATTERN_LIMIT = 65_536  # the maximum number of bytes of a pattern
WEIGHT_LIMIT = 262_144  # the maximum weight of a pattern
BREAK = re.compile("\r\n|[\r\n]")
LINE_LIMIT = 128  # the maximum number of bytes of a command line, without its LF
NUMBER_LIMIT = (1 << 64) - 1
LINE = re.compile(rb"([a-z]+)((?: [0-9]{1,20})*)")
REFERENCE = re.compile(r"\$([0-9$])")  # the parts of a template that are not copied
# The words of commands, each with the count of numbers that follow it.
WORDS = {
    b"text": 1,
    b"edit": 5,
    b"undo": 0,
    b"redo": 0,
    b"print": 0,
    b"pattern": 1,
    b"off": 0,
    b"list": 0,
    b"next": 2,
    b"replace": 1,
    b"fork": 0,
    b"use": 1,
}
HAS_PAYLOAD = ("text", "edit", "pattern", "replace")  # the last number is that of its bytes
STATUS = {"input": 0, "command": 2, "cut": 2}
CLOSING = {"input": b"", "command": b"error command\n", "cut": b"error end\n"}


def command_of(line):
    """The word and the numbers of a command line, or None if it is no command."""
    found = LINE.fullmatch(line)
    numbers = tuple(map(int, found[2].split())) if found else ()
    if not found or WORDS.get(found[1]) != len(numbers) or max(numbers, default=0) > NUMBER_LIMIT:
        return None
    return found[1].decode(), numbers


def read_commands(data):
    """The commands of an input, each as (word, numbers, payload), and how it ends."""
    commands, at = [], 0
    while at < len(data):
        window = data[at : at + LINE_LIMIT + 1]
        length = window.find(b"\n")
        if length < 0:
            return commands, "command" if len(window) > LINE_LIMIT else "cut"
        found = command_of(window[:length])
        if found is None:
            return commands, "command"
        word, numbers = found
        start = at + length + 1
        end = start + (numbers[-1] if word in HAS_PAYLOAD else 0)
        if end > len(data):
            return commands, "cut"
        commands.append((word, numbers, data[start:end]))
        at = end
    return commands, "input"


def spelled(word, numbers=(), payload=b""):
    """The bytes of a command."""
    return b" ".join([word.encode(), *(b"%d" % number for number in numbers)]) + b"\n" + payload


def is_utf8(data):
    try:
        data.decode("utf-8")
    except UnicodeDecodeError:
        return False
    return True


def units(text):
    """The number of UTF-16 code units of a text."""
    return len(text.encode("utf-16-le")) // 2


@functools.lru_cache(maxsize=10)
def lines_of(text):
    """Where each line of a text starts, and where the line's text ends, in characters."""
    breaks = [found.span() for found in BREAK.finditer(text)]
    return list(zip([0] + [end for _, end in breaks], [start for start, _ in breaks] + [len(text)]))


def positions_of(text):
    """The positions of a text, from its start on."""
    return [
        (number, units(text[start:place]))
        for number, (start, end) in enumerate(lines_of(text))
        for place in range(start, end + 1)
    ]


def place_of(text, line, column):
    """The offset of a position in a text, in characters, or None if it is nowhere."""
    lines = lines_of(text)
    if line >= len(lines):
        return None
    place, end = lines[line]
    while column > 0 and place < end:
        column -= units(text[place])
        place += 1
    return place if column == 0 else None


def refused_pattern(text):
    """Why a pattern is refused, or None."""
    if len(text.encode()) > PATTERN_LIMIT:
        return b"limit"
    if tree_of(text) is None:
        return b"pattern"
    return b"limit" if pattern_weight(text) > WEIGHT_LIMIT else None


@functools.lru_cache(maxsize=10_000)
def rows_of(text, pattern):
    """The report: for each line of a text the columns of the matches of a pattern in it."""
    return [[(units(line[:start]), units(line[:end])) for start, end in matches(pattern, line)] for line in BREAK.split(text)]


def listed(text, pattern):
    """The lines of the matches of a pattern in each line of a text, and their number."""
    out = [b"m %d %d %d\n" % (number, *columns) for number, row in enumerate(rows_of(text, pattern)) for columns in row]
    return b"".join(out) + b"ok %d\n" % len(out)


def position_at(text, place):
    """The line and the column of an offset: between a CR and an LF it is one past the end of the line's text."""
    line, start = [(number, start) for number, (start, _) in enumerate(lines_of(text)) if start <= place][-1]
    return line, units(text[start:place])


def found_next(text, pattern, place):
    """The reply with the first match in a whole text that starts at an offset or after it, or that there is none."""
    found = match_from(pattern, text, place)
    return b"m %d %d %d %d\n" % (*position_at(text, found[0]), *position_at(text, found[1])) if found else b"no match\n"


def expanded(template, groups):
    """The expansion of a template for a match with these texts of its groups, None for an absent one."""
    meant = {"$": "$", **{str(number): text for number, text in enumerate(groups)}}
    return REFERENCE.sub(lambda found: meant.get(found[1]) or "", template)


def parts_replaced(text, pattern, template):
    """The parts of a text with all matches replaced, in order: the text before a match, its replacement, and so on, and
    the text after the last."""
    data, parts, at = text.encode(), [], 0
    for groups in matches_with_groups(pattern, text):
        start, end = groups[0]
        texts = [span and data[slice(*span)].decode() for span in groups]
        parts += [data[at:start].decode(), expanded(template, texts)]
        at = end
    return parts + [data[at:].decode()]


class Buffer:
    """The texts of a buffer, one of which is the current one, and its pattern or None."""

    def __init__(self, text=""):
        self.texts, self.at, self.pattern = [text], 0, None

    @property
    def text(self):
        return self.texts[self.at]

    def edited(self, first_line, first_column, last_line, last_column, payload):
        """The text after an edit, or None if its positions don't allow it."""
        first = place_of(self.text, first_line, first_column)
        last = place_of(self.text, last_line, last_column)
        if first is None or last is None or last < first:
            return None
        return self.text[:first] + payload + self.text[last:]

    def add(self, text):
        """Replaces all texts after the current one by another, and makes that current."""
        self.texts[self.at + 1 :] = [text]
        self.at += 1


class Session:
    """Buffers, one of which is chosen, and the limit on the bytes of a text."""

    def __init__(self, limit=TEXT_LIMIT):
        self.buffers, self.chosen, self.limit = [Buffer()], 0, limit

    @property
    def buffer(self):
        return self.buffers[self.chosen]

    def takes_memory(self, word):
        """Whether the reply to a command with this word may be that it is out of memory."""
        return word in ("text", "edit", "pattern", "fork", "next", "replace") or (
            word in ("undo", "redo") and self.buffer.pattern is not None
        )

    def is_for_nothing(self, word, numbers):
        """Whether what the command needs doesn't exist."""
        return {
            "list": self.buffer.pattern is None,
            "next": self.buffer.pattern is None,
            "replace": self.buffer.pattern is None,
            "undo": self.buffer.at == 0,
            "redo": self.buffer.at + 1 == len(self.buffer.texts),
            "use": word == "use" and numbers[0] >= len(self.buffers),
        }.get(word, False)

    def refusal(self, word, numbers, payload):
        """Why a command is refused, or None."""
        if self.is_for_nothing(word, numbers):
            return b"none"
        if word == "edit" and self.buffer.edited(*numbers[:4], "") is None:
            return b"range"
        if word == "next":
            return b"range" if place_of(self.buffer.text, *numbers) is None else None
        if not is_utf8(payload):
            return b"utf8"
        if word == "pattern":
            return refused_pattern(payload.decode())
        lengths = [len(payload)]
        if word == "edit":
            lengths.append(len(self.buffer.edited(*numbers[:4], "").encode()))
        if word == "replace" and len(payload) <= self.limit:
            parts = parts_replaced(self.buffer.text, self.buffer.pattern, payload.decode())
            lengths = [len(part.encode()) for part in parts]
        return b"size" if sum(lengths) > self.limit else None

    def carry_out(self, word, numbers, payload):
        """The reply to a command that isn't refused."""
        buffer = self.buffer
        if word == "text":
            buffer.texts, buffer.at = [payload.decode()], 0
        elif word == "edit":
            buffer.add(buffer.edited(*numbers[:4], payload.decode()))
        elif word in ("undo", "redo"):
            buffer.at += 1 if word == "redo" else -1
        elif word in ("pattern", "off"):
            buffer.pattern = payload.decode() if word == "pattern" else None
        elif word == "list":
            return listed(buffer.text, buffer.pattern)
        elif word == "next":
            return found_next(buffer.text, buffer.pattern, place_of(buffer.text, *numbers))
        elif word == "replace":
            parts = parts_replaced(buffer.text, buffer.pattern, payload.decode())
            buffer.add("".join(parts))
            return b"ok %d\n" % (len(parts) // 2)
        elif word == "print":
            text = buffer.text.encode()
            return b"text %d\n%b\n" % (len(text), text)
        elif word == "fork":
            self.buffers.append(Buffer(buffer.text))
            return b"ok %d\n" % (len(self.buffers) - 1)
        elif word == "use":
            self.chosen = numbers[0]
        return b"ok\n"

    def cost(self, command):
        """The maximum number of rows that a command may make, and of searches of a whole text: rows for the lines of an
        edit's inserted text and of each replacement, otherwise for all lines of the resulting text, if it then has a
        pattern."""
        (word, _, payload), buffer = command, self.buffer
        wholes = int(word in ("next", "replace"))
        if self.refusal(*command) or (buffer.pattern is None and word != "pattern"):
            return 0, wholes
        texts = []
        if word in ("text", "edit"):
            texts = [payload.decode()]
        elif word == "pattern":
            texts = [buffer.text]
        elif word in ("undo", "redo"):
            texts = [buffer.texts[buffer.at + (1 if word == "redo" else -1)]]
        elif word == "replace":
            texts = parts_replaced(buffer.text, buffer.pattern, payload.decode())[1::2]
        return sum(len(lines_of(text)) for text in texts), wholes

    def reply(self, command, lacks_memory=False):
        """The reply to a command, with memory refused to it or not."""
        if lacks_memory:
            assert self.takes_memory(command[0])
            return b"error memory\n"
        refusal = self.refusal(*command)
        return b"error %b\n" % refusal if refusal else self.carry_out(*command)


def replies(commands, refused=frozenset(), limit=TEXT_LIMIT):
    """The replies to the commands, with memory refused to those whose indices are in `refused`."""
    session = Session(limit)
    return [session.reply(command, place in refused) for place, command in enumerate(commands)]


def replies_and_costs(commands, limit=TEXT_LIMIT, refused=frozenset()):
    """The replies to the commands, and the maximum number of rows that these may make and of their searches of a whole
    text, in all; with memory refused to those whose indices are in `refused`, which may have had their cost by then."""
    session, told, rows, wholes = Session(limit), [], 0, 0
    for place, command in enumerate(commands):
        more = session.cost(command)
        rows, wholes = rows + more[0], wholes + more[1]
        told.append(session.reply(command, place in refused))
    return told, (rows, wholes)


def costs(commands, limit=TEXT_LIMIT, refused=frozenset()):
    """The maximum number of rows that the commands may make, and of their searches of a whole text, in all."""
    return replies_and_costs(commands, limit, refused)[1]


def takers(commands, limit=TEXT_LIMIT):
    """The indices of the commands whose replies may be that they are out of memory, if no other reply is."""
    session, places = Session(limit), set()
    for place, command in enumerate(commands):
        if session.takes_memory(command[0]):
            places.add(place)
        session.reply(command)
    return places


def answer(data, refused=frozenset()):
    """All output for an input, and the exit status."""
    commands, ending = read_commands(data)
    return b"".join(replies(commands, refused)) + CLOSING[ending], STATUS[ending]
