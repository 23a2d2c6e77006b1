"""Random sessions of bin/rope-search, compared with the models: with all commands, long texts, deliberately hostile
patterns, lines that are no commands, and bytes that are changed anywhere; each passed in one of several ways. A seed
and a number always give the same session. One that fails is shortened."""
import random
from dataclasses import dataclass, field, replace

from harness import differences, run, run_in_pieces, short
from memory import library as refusing_library
from pattern_model import is_literal, pattern_weight, tree_of
from protocol import CLOSING, PATTERN_LIMIT, STATUS, TEXT_LIMIT, WEIGHT_LIMIT, Session, lines_of, read_commands, spelled, units
from test_edits import BACK_AND_FORWARD, OF_ALL_KINDS, PATTERNS, REFUSED_PATTERNS, Writer, some_command, some_pattern, some_text
from test_memory import answered
from test_runs import Run, outcomes, problems, wrong_with, wrong_with_failed_read, wrong_with_failed_write, wrong_with_room
from walks import program_of

MOST_NODES, MOST_CHARACTERS = 60, 120  # of a pattern, and of a text in which the model searches for a non-literal
LITERALS = ("mark", "a", "ab", "é", "🐸", "\r", "\n", "k\nm", "xyz", "-")
LINES = ("", "a", "mark", "a mark", "- ab -", "é🐸é", "x" * 70, "mark" * 20, "xyz ab " * 30)
BREAKS = ("\n", "\n", "\n", "\r\n", "\r")
SIGNS = r"abé🐸 0-9\.+*?()[]{}|^$,:<>P=!imsU&~wWdDsSbBAzxnr" + "\n\r"
# The parts of hostile patterns, which are nested and repeated, and put in sequence.
NESTED = ("({})*", "({})+", "(?:{})?", "(?:{}){{0,3}}", "({}|)", "(?:{}|a)*", "(?i:{})", "({}){{2}}", "(?:{}|{})")
PARTS = ("a*", "a?", "(a|a)", ".*", ".*?", r"\w", r"[^\w]", "a{0,200}", "(?:x|)", r"\b", r"\B", "^", "$", "(?m:^)", "|", "()")
PARTS += ("[a-z]", "(?i)k", "b{65535}", "(a*)*", "x{0,40}", r"[\d\D]", r"[^\s\S]", "(?s:.)", "é", "🐸", r"\z", r"\A")
TAILS = (b"jump\n", b"print", b"text 3\nab", b"edit 0 0", b"x" * 128, b"x" * 129, b"\n", b"print \n", b"pattern 1\n", b"\xff\n")


class Unclear(Exception):
    """The expected output isn't known."""


def is_light(pattern):
    """Whether the model finds a pattern quickly in short texts."""
    if len(pattern) > 80 or tree_of(pattern) is None or pattern_weight(pattern) > 5_000:
        return False
    return len(program_of(tree_of(pattern)).nodes) <= MOST_NODES


def may_be_heavy(payload):
    """Whether a pattern that isn't too heavy by Python's version of Unicode may be so by a later one, in which letter
    classes have more ranges."""
    try:
        pattern = payload.decode()
    except UnicodeDecodeError:
        return False
    is_pattern = len(payload) <= PATTERN_LIMIT and tree_of(pattern) is not None
    return is_pattern and 0.9 * WEIGHT_LIMIT < pattern_weight(pattern) <= WEIGHT_LIMIT


class Fuzzed(Session):
    """A session of the model. If the model would take too long, the result is what the program itself finds with the
    same pattern, set again for the same text."""

    def is_for_model(self):
        pattern, text = self.buffer.pattern, self.buffer.text
        return pattern is None or is_literal(pattern) or (len(text) <= MOST_CHARACTERS and is_light(pattern))

    def refusal(self, word, numbers, payload):
        if word == "replace" and not self.is_for_model() or word == "pattern" and may_be_heavy(payload):
            raise Unclear
        return super().refusal(word, numbers, payload)

    def carry_out(self, word, numbers, payload):
        if word not in ("list", "next") or self.is_for_model():
            return super().carry_out(word, numbers, payload)
        front = with_payload("text", self.buffer.text) + with_payload("pattern", self.buffer.pattern)
        return run(front + spelled(word, numbers)).out.removeprefix(b"ok\nok\n")


def with_payload(word, text):
    payload = text.encode()
    return spelled(word, (len(payload),), payload)


def due(data):
    """The expected output for an input, and the exit status."""
    commands, ending = read_commands(data)
    session = Fuzzed()
    return b"".join(map(session.reply, commands)) + CLOSING[ending], STATUS[ending]


# ---- ways to pass a session; each returns what is wrong


@dataclass(frozen=True)
class File:
    """As a file."""

    def wrong(self, data):
        return differences(run(data), *due(data))


@dataclass(frozen=True)
class Pieces:
    """By a pipe that gives this number of bytes at a time."""

    size: int

    def wrong(self, data):
        return differences(run_in_pieces(data, self.size), *due(data))


@dataclass(frozen=True)
class Refused:
    """As a file, with a request for memory refused, alone or with all later ones."""

    name: str
    number: int

    def wrong(self, data):
        preload = {"LD_PRELOAD": refusing_library(), f"REFUSE_MEMORY_{self.name.upper()}": str(self.number)}
        return answered(data, run(data, environment=preload))[0]


@dataclass(frozen=True)
class Driven:
    """In memory, in small reads and writes, with limits, and with calls that fail; its rows are counted too."""

    settings: Run

    def row(self, data):
        return replace(self.settings, data=data)

    def wrong_with(self, row, outcome):
        check = wrong_with_failed_read if row.failed_read else wrong_with_failed_write if row.failed_write else wrong_with
        return (wrong_with_room if row.room < 1 << 20 else check)(row, outcome)

    def wrong(self, data):
        return list(problems([self.row(data)], self.wrong_with))


def some_way(chosen, is_short):
    roll = chosen.random()
    if roll < 0.15 or not is_short:
        return Pieces(chosen.choice((1, 2, 3, 5, 984, 4_096))) if roll < 0.05 else File()
    if roll < 0.2:
        return Pieces(chosen.choice((1, 2, 3, 7)))
    if roll < 0.35 and refusing_library():
        return Refused(chosen.choice(("at", "from")), chosen.randint(1, 120))
    steps = {"read": chosen.choice((1, 2, 5, 4_096)), "write": chosen.choice((1, 2, 5, 4_096))}
    if roll < 0.75:
        return Driven(Run(b"", chosen.choice((TEXT_LIMIT, TEXT_LIMIT, TEXT_LIMIT, 0, 3, 10, 20, 40)), **steps))
    if roll < 0.84:
        return Driven(Run(b"", read=1, failed_read=chosen.randint(1, 400)))
    if roll < 0.93:
        return Driven(Run(b"", write=1, failed_write=chosen.randint(1, 300)))
    return Driven(Run(b"", room=chosen.randint(0, 300), **steps))


# ---- sessions


@dataclass(frozen=True)
class Trial:
    """A session as its commands, and how it is passed."""

    commands: list = field(repr=False)
    way: object

    def wrong(self):
        try:
            return list(self.way.wrong(b"".join(self.commands)))
        except Unclear:
            return []


def hostile_pattern(chosen):
    """A pattern that is nested, repeated, long, or heavy, or one with characters inserted and removed."""
    roll = chosen.random()
    if roll < 0.25:
        pattern = chosen.choice(PARTS)
        for _ in range(chosen.choice((1, 2, 3, 5, 12, 249, 251)) // (1 if roll < 0.2 else 4) + 1):
            form = chosen.choice(NESTED if len(pattern) < 300 else NESTED[:3])
            pattern = form.format(*[pattern] * form.count("{}"))
        return pattern
    if roll < 0.5:
        return "".join(chosen.choice(PARTS) for _ in range(chosen.choice((2, 2, 3, 3, 5, 40, 300))))
    if roll < 0.6:
        part = chosen.choice(PARTS)
        return part * chosen.choice((2, 50, 300) if "[" in part or "w" in part else (2, 50, 300, 4_000))
    pattern = list(chosen.choice(PATTERNS + REFUSED_PATTERNS + list(PARTS)))
    for _ in range(chosen.randint(1, 6)):
        at = chosen.randint(0, len(pattern))
        pattern[at : at + chosen.choice((0, 0, 1, 2))] = chosen.choice(("", chosen.choice(SIGNS), chosen.choice(SIGNS)))
    return "".join(pattern)


def write_hostile(chosen, writer):
    """Some commands with hostile patterns; the report is listed unless it is long."""
    writer.write("text", text=some_text(chosen, 14))
    for _ in range(chosen.randint(1, 3)):
        writer.write("pattern", text=hostile_pattern(chosen))
        for _ in range(chosen.randint(2, 6)):
            word = chosen.choice(("list", "list", "next", "edit", "undo", "redo", "replace"))
            if word == "next":
                writer.write("next", 0, chosen.randint(0, 2))
            elif word == "edit":
                writer.write("edit", 0, 0, 0, chosen.choice((0, 0, 1)), text=some_text(chosen, 4))
            elif word != "replace":
                writer.write(word)
            elif writer.session.is_for_model() and len(writer.session.buffer.text) < 40:
                writer.write("replace", text=chosen.choice(("", "$0", "$1x", "a\n", "$0$0")))


def some_position(chosen, text):
    """A position of a long text, at an end of a line more often than in it."""
    lines = lines_of(text)
    number = chosen.randrange(len(lines))
    start, end = lines[number]
    place = chosen.choice((start, end, chosen.randint(start, end)))
    return number, units(text[start:place])


def write_long(chosen, writer):
    """Edits and searches in a text of some thousand bytes, in several chunks, with a pattern or two."""
    lines = (chosen.choice(LINES) + chosen.choice(BREAKS) for _ in range(chosen.choice((20, 100, 300))))
    writer.write("text", text="".join(lines))
    for _ in range(chosen.randint(1, 2)):
        writer.write("pattern", text=chosen.choice(LITERALS) if chosen.random() < 0.6 else some_pattern(chosen))
        for _ in range(chosen.randint(2, 6)):
            text = writer.session.buffer.text
            word = chosen.choice(("edit", "edit", "edit", "undo", "redo", "next", "fork", "use", "replace"))
            if word == "edit":
                first, last = sorted(some_position(chosen, text) for _ in range(2))
                last = last if chosen.random() < 0.4 else first
                writer.write("edit", *first, *last, text=chosen.choice((*LITERALS, *BREAKS, "", "x" * 990, "a\r\nb" * 400)))
            elif word == "next":
                writer.write("next", *some_position(chosen, text))
            elif word == "use":
                writer.write("use", chosen.randrange(len(writer.session.buffers)))
            elif word != "replace":
                writer.write(word)
            elif is_literal(writer.session.buffer.pattern or "("):
                writer.write("replace", text=chosen.choice(("", "$0", "$0y", "\r\n", "z$0\n")))
        writer.write("list")
    writer.write("print")


def write_plain(chosen, writer):
    """All kinds of commands."""
    weights = chosen.choice((OF_ALL_KINDS, BACK_AND_FORWARD, [chosen.choice((1, 1, 4, 12)) for _ in OF_ALL_KINDS]))
    writer.write("text", text=some_text(chosen, 12))
    if chosen.random() < 0.8:
        writer.write("pattern", text=some_pattern(chosen))
    for _ in range(chosen.randint(4, 24)):
        if len(writer.session.buffer.text) <= MOST_CHARACTERS:
            some_command(chosen, writer, weights)
    for word in ("list", "print"):
        writer.write(word)


def changed(chosen, commands):
    """The commands with some bytes of one of them changed, one doubled, or one left out; and a tail that is no
    command."""
    roll, at = chosen.random(), chosen.randrange(len(commands))
    if roll < 0.4:
        data = bytearray(commands[at])
        for _ in range(chosen.randint(1, 3)):
            place = chosen.randint(0, len(data))
            data[place : place + chosen.choice((0, 1, 1, 4))] = chosen.choice((b"", b"0", b" ", b"\n", b"9", b"\xc3", b"z"))
        return [*commands[:at], bytes(data), *commands[at + 1 :]]
    if roll < 0.6:
        return [*commands[:at], commands[at], *commands[at:]]
    if roll < 0.8:
        return commands[:at] + commands[at + 1 :]
    return commands[: at + 1] + [chosen.choice(TAILS)]


def some_trial(seed, number):
    """The session of a seed and a number."""
    chosen, writer = random.Random(f"{seed} {number}"), Writer(Fuzzed())
    kind = chosen.choices((write_plain, write_hostile, write_long), (84, 10, 6))[0]
    try:
        kind(chosen, writer)
    except Unclear:
        writer.commands.pop()
    commands = [spelled(*command) for command in writer.commands]
    if chosen.random() < 0.15:
        commands = changed(chosen, commands)
    return Trial(commands, some_way(chosen, kind is write_plain))


# ---- shortening of a session that fails


def without_some(commands, still_fails):
    """The commands without those that a failure doesn't need: runs of them are left out, each half as long as the one
    before, as long as it still fails."""
    size = max(len(commands) // 2, 1)
    while size > 0:
        at = 0
        while at < len(commands):
            fewer = commands[:at] + commands[at + size :]
            if fewer and still_fails(fewer):
                commands = fewer
            else:
                at += size
        size //= 2
    return commands


def shorter_payloads(command):
    """The command with a half of its payload, the first one or the last one, or with one character less."""
    commands, ending = read_commands(command)
    if len(commands) == 1 and ending == "input" and commands[0][2]:
        word, numbers, payload = commands[0]
        half, text = (len(payload) + 1) // 2, payload.decode(errors="ignore")
        for less in (payload[:half], payload[half:], text[1:].encode(), text[:-1].encode()):
            if len(less) < len(payload):
                yield spelled(word, (*numbers[:-1], len(less)), less)


def with_short_payloads(commands, still_fails):
    """The commands with payloads as short as a failure allows."""
    at = 0
    while at < len(commands):
        tries = ([*commands[:at], less, *commands[at + 1 :]] for less in shorter_payloads(commands[at]))
        fewer = next(filter(still_fails, tries), None)
        at += fewer is None
        commands = fewer or commands
    return commands


def shortened(trial):
    """A failing session with as few commands, and as short payloads, as still fail when passed in the same way."""
    def still_fails(commands):
        return bool(Trial(commands, trial.way).wrong())

    commands = without_some(trial.commands, still_fails)
    return Trial(without_some(with_short_payloads(commands, still_fails), still_fails), trial.way)


def told_of(seed, number, trial):
    """The message for a session that fails."""
    least = shortened(trial)
    lines = [f"session {number} of seed {seed}, {least.way}:", *(f"    {short(command)}" for command in least.commands)]
    return "\n".join([*lines, *(f"    {line}" for line in least.wrong())])


def failures(seed, first, count):
    """The messages for those of these sessions of a seed whose answers are wrong. Those in memory go into one run of
    the driver; if that stops early, all of them are suspect."""
    trials = {number: some_trial(seed, number) for number in range(first, first + count)}
    driven = {number: trial for number, trial in trials.items() if isinstance(trial.way, Driven)}
    told = list(outcomes([trial.way.row(b"".join(trial.commands)) for trial in driven.values()]))
    is_whole = len(told) == len(driven) and all(outcome for _, outcome in told)
    for (number, trial), (row, outcome) in zip(driven.items(), told):
        if is_whole and not list(trial.way.wrong_with(row, outcome)):
            del trials[number]
    for number, trial in trials.items():
        if trial.wrong():
            yield told_of(seed, number, trial)
