"""Rows for bin/rope-driver, and what is wrong with its answers to them.

A row is a line that is sent, and what is expected: a line, or a function that returns what is wrong with one.
"""
from harness import ROPE_PROGRAM, differences, end_of, open_input, start, test
from rope_model import MOST_BYTES, Cut, byte_range_refusal, compared, hexed, lengths, ok, range_refusal, refused, text_of

BATCH = 20_000  # the number of rows in one run


def answers_to(lines, environment=None):
    with open_input(lines.encode()) as given:
        return end_of(start((), environment, program=ROPE_PROGRAM, stdin=given))


def problems(rows):
    """What is wrong with the answers to rows."""
    rows = list(rows)
    for first in range(0, len(rows), BATCH):
        batch = rows[first : first + BATCH]
        ended = answers_to("".join(line + "\n" for line, _ in batch))
        answers = ended.out.decode(errors="replace").split("\n")
        if len(answers) != len(batch) + 1:
            yield f"{len(answers) - 1} answers to {len(batch)} rows"
        for (line, due), answer in zip(batch, answers):
            if callable(due):
                yield from due(answer)
            elif answer != due:
                yield difference(line, due, answer)
        yield from differences(ended, ended.out, 0)


def check(name, rows):
    """Counts rows as one test."""
    rows = list(rows)
    test(f"{len(rows)} {name}", problems(rows))


def short(line, size=150):
    return line if len(line) <= size else f"{line[:size]}.."


def difference(line, due, answer):
    """Where an answer first differs from the expected one."""
    dues, answers = due.split(";"), answer.split(";")
    at = next((k for k, pair in enumerate(zip(dues, answers)) if pair[0] != pair[1]), 0)
    told = answers[at] if at < len(answers) else ""
    return f"{short(line)}: answer {at} is {short(told)!r}, not {short(dues[at])!r}"


def leaves_row(pieces, asks, answers, parts=()):
    """A row on the slice of a tree of these leaves, or on a part of it."""
    leaves = "|".join(map(hexed, pieces))
    return " ".join(["tree", leaves, *parts, *asks]), "".join(f"{answer};" for answer in answers)


def wrong_chunks(chunks, least=980):
    """What is wrong with the lengths of chunks, each of which except the last has a minimum number of bytes, and where
    a text is split into them. After text is removed at the start, the first chunk may be shorter."""
    for number, chunk in enumerate(chunks):
        size, is_last = len(chunk.encode()), number + 1 == len(chunks)
        may_be_short = is_last or (number == 0 and least < 980)
        if not 1 <= size <= MOST_BYTES or (size < least and not may_be_short):
            yield f"chunk {number} has {size} bytes"
        if not is_last and chunk.endswith("\r") and chunks[number + 1].startswith("\n"):
            yield f"a CR LF is cut after chunk {number}"


def cut_at(text, sizes):
    """A text in chunks of these numbers of bytes, or None if a character is split or the sizes have another sum."""
    data, at, pieces = text.encode(), 0, []
    for size in sizes:
        pieces.append(data[at : at + size])
        at += size
    try:
        return tuple(piece.decode() for piece in pieces) if at == len(data) else None
    except UnicodeDecodeError:
        return None


def sent(ask):
    """A request as it is sent: a word unchanged, and a call with its arguments; texts are in hexadecimal, and a missing
    offset is left out."""
    if isinstance(ask, str):
        return ask
    name, *given = ask
    told = (hexed(part) if isinstance(part, str) else "" if part is None else str(part) for part in given)
    return ",".join((name, *told))


class RopeRow:
    """A row on a rope, whose answers are checked one after the other. If a request for memory may be refused, an edit
    may report that, and then changes nothing. A request is a word, or a call: its name and its arguments, offsets and
    texts. Two of the requested lists of chunks, by their numbers, may have to differ."""

    def __init__(self, maker, parts, asks, may_refuse=False, differ=()):
        self.maker, self.parts, self.asks, self.may_refuse = maker, parts, list(asks), may_refuse
        self.differ = differ
        self.refusals = set()  # the names of what was refused

    def line(self):
        return " ".join([self.maker, "|".join(map(hexed, self.parts)), *map(sent, self.asks)])

    def row(self):
        return self.line(), self.wrong

    def __str__(self):
        return short(self.line())

    def wrong(self, line):
        """What is wrong with the answers."""
        self.text, self.kept, self.pieces, self.cuts = "", [], None, []
        self.least = 980  # the minimum bytes of a chunk except the last, in a rope that is built and not edited
        first, *answers = line.split(";")
        end = answers.pop() if answers else ""
        if self.may_refuse and first.endswith("Memory"):
            self.refusals.add(self.maker)
            return [] if not answers and not end else [f"{self}: answers after a refusal"]
        skipped = set(map(int, first.split()))
        if skipped and not (self.may_refuse and self.maker in ("builder", "slices")):
            return [f"{self}: parts {first} are refused"]
        self.refusals |= {"append_part"} if skipped else set()
        self.text = "".join(part for number, part in enumerate(self.parts) if number not in skipped)
        if len(answers) != len(self.asks) or end:
            return [f"{self}: {len(answers)} answers to {len(self.asks)} asks: {short(line)!r}"]
        return list(self.wrong_answers(answers))

    def wrong_answers(self, answers):
        for number, (ask, answer) in enumerate(zip(self.asks, answers)):
            name, *arguments = ask.split(",") if isinstance(ask, str) else ask
            if self.may_refuse and answer == "Err(Memory)":
                self.refusals.add(name)
                self.lose(name)
            elif name == "cut":
                yield from (f"{self}: ask {number}: {wrong}" for wrong in self.cut(answer))
            else:
                due = self.due(name, arguments)
                if answer != due:
                    yield f"{self}: ask {number}, {short(sent(ask))}: {short(answer)!r}, not {short(due)!r}"
        if self.differ and len({self.cuts[number] for number in self.differ}) == 1:
            yield f"{self}: the cuts {self.differ} are alike"

    def lose(self, name):
        """A refused `append` drops its argument."""
        if name == "append" and self.kept:
            self.kept.pop()

    def cut(self, answer):
        """What is wrong with the chunks, to which later answers refer."""
        *sizes, capacity = map(int, answer.split())
        pieces = cut_at(self.text, sizes)
        if pieces is None:
            return [f"the chunks have {sizes} bytes"]
        self.pieces = Cut(pieces)
        self.cuts.append(pieces)
        wrong = list(wrong_chunks(pieces, self.least))
        return wrong + ([] if capacity == MOST_BYTES * len(sizes) else [f"the capacity is {capacity}"])

    def due(self, name, arguments):
        """The expected answer; an edit changes the text."""
        if name == "lengths":
            return lengths(self.text)
        if name in ("text", "display", "written"):
            return hexed(self.text)
        if name == "same":
            return f"true {compared(self.text, self.text)}"
        if name == "compare":
            return compared(self.text, self.kept[-1])
        if name == "places":
            return text_of(self.text).places(int(arguments[0]))
        if name == "parts":
            told, ends = text_of(self.text), tuple(map(int, arguments))
            return told.parts(*ends) + told.parts(*ends, tells_why=False)
        if name == "chunk":
            return self.pieces.chunk(int(arguments[0]), tells_why=False)
        if name in ("bytes", "chars", "lines") or name.startswith("chunks_at"):
            pieces = self.pieces or Cut((self.text,) if self.text else ())
            return pieces.walk(name, int(arguments[0]), arguments[1])
        return self.edit(name, arguments)

    def edit(self, name, arguments):
        """The answer to an edit, which is made."""
        error = self.refusal(name, arguments)
        if error:
            return f"Err({error})"
        self.pieces, text = None, self.text
        if name != "clone":
            self.least = 980 if name in ("shrink_to_fit", "slice", "build") else min(self.least, 462)
        if "insert" in name:
            at, other = arguments
            other = other[:1] if "char" in name else other
            self.text = text[:at] + other + text[at:]
        elif "remove" in name:
            start, end = self.ends(arguments)
            self.text = text[: start or 0] + text[len(text) if end is None else end :]
        elif "replace" in name:
            self.text = self.replaced(name, *self.ends(arguments[:2]), arguments[2])
        elif name == "build":
            self.text = text[: int(arguments[0])] + text[int(arguments[1]) :]
            return ok(len(self.text.encode()))
        elif "split_off" in name:
            at = int(arguments[0])
            self.text = text[:at]
            self.kept.append(text[at:])
        elif name == "slice":
            start, end = map(int, arguments)
            self.text = text[start:end]
        elif name == "clone":
            self.kept.append(text)
        elif name == "append":
            self.text += self.kept.pop()
        elif name == "swap":
            self.text, self.kept[-1], self.least = self.kept[-1], text, 0
        return ok("()")

    def replaced(self, name, start, end, other):
        """The text with a range of characters or of bytes replaced by another text."""
        if "byte" in name:
            data = self.text.encode()
            return (data[: start or 0] + other.encode() + data[len(data) if end is None else end :]).decode()
        return self.text[: start or 0] + other + self.text[len(self.text) if end is None else end :]

    def ends(self, arguments):
        return [None if argument in ("", None) else int(argument) for argument in arguments]

    def refusal(self, name, arguments):
        """Why an edit is refused, if it is."""
        if "byte_replace" in name:
            return byte_range_refusal(self.text.encode(), *self.ends(arguments[:2]))
        if "remove" in name or "replace" in name:
            return range_refusal("Char", len(self.text), *self.ends(arguments[:2]))
        if "insert" in name or "split_off" in name:
            at = int(arguments[0])
            return refused("CharIndexOutOfBounds", at, len(self.text)) if at > len(self.text) else None
        # The answer of the program if no rope is kept, or a slice isn't inside the text.
        if name in ("append", "swap") and not self.kept:
            return "Size"
        if name in ("slice", "build") and max(map(int, arguments)) > len(self.text):
            return "Size"
        return None
