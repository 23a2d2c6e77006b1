"""Runs in memory, by bin/run-driver: how many rows they make and how many whole texts they search, with small limits on
texts, in small reads and writes, and with calls that fail. The head of tests/compiled/run_driver/src/main.rt.txt
describes the rows; the expected results come from the model of the protocol, or are listed."""
import functools
from dataclasses import dataclass, replace
from itertools import product

from harness import RUN_PROGRAM, differences, end_of, open_input, short, start, test
from memory import counted, library
from protocol import CLOSING, TEXT_LIMIT, Session, costs, positions_of, read_commands, replies, replies_and_costs, spelled, takers
from test_replies import MORE_EXAMPLES, examples_of_page

BATCH = 5_000  # the number of rows in one run of the driver
ENDINGS = {"input": "Input", "command": "Command", "cut": "Cut"}
# An input with more bytes is truncated, and failed, only near its ends and at some offsets between, except the shortest
# with several chunks; one with more than MOST bytes isn't.
LONG, LONGER, MOST = 400, 10_000, 70_000
ACROSS_CHUNKS = spelled("text", (1_969,), b"a" * 983 + b"xyz" + b"a" * 983) + spelled("pattern", (3,), b"xyz") + b"list\n"


@dataclass(frozen=True)
class Run:
    """A run of an input: the limit on the bytes of a text, the maximum number of bytes of a read and a write, which of
    these calls fails, and the room in bytes."""

    data: bytes
    limit: int = TEXT_LIMIT
    read: int = 4096
    write: int = 4096
    failed_read: object = ""
    failed_write: object = ""
    room: int = 1 << 20

    def line(self):
        calls = (self.limit, self.read, self.write, self.failed_read, self.failed_write, self.room)
        return ",".join(["run", self.data.hex(), *map(str, calls)]) + "\n"


@dataclass(frozen=True)
class Outcome:
    """How a run ended, the rows that it made, how many whole texts it searched, and its output."""

    ending: str
    rows: int
    wholes: int
    written: bytes

    @staticmethod
    def of(answer):
        """The outcome in an answer, or None if it says why there is none."""
        words = answer.split(" ")
        return Outcome(words[0], int(words[1]), int(words[2]), bytes.fromhex(words[3])) if len(words) == 4 else None


def outcomes(runs):
    """The outcomes of runs, each with what is wrong if there is no answer."""
    runs = list(runs)
    for first in range(0, len(runs), BATCH):
        batch = runs[first : first + BATCH]
        with open_input("".join(run.line() for run in batch).encode()) as given:
            ended = end_of(start(program=RUN_PROGRAM, stdin=given))
        told = ended.out.decode(errors="replace").split("\n")
        wrong = differences(ended, ended.out, 0) + ([] if len(told) == len(batch) + 1 else ["answers are missing"])
        for run, answer in zip(batch, told + [""] * len(batch)):
            yield run, Outcome.of(answer)
        if wrong:
            yield batch[0], None


def problems(runs, wrong_with):
    """What is wrong with runs, by a function of each run and its outcome."""
    for run, outcome in outcomes(runs):
        for wrong in wrong_with(run, outcome) if outcome else ["there is no answer"]:
            yield f"{short(run.data)} {replace(run, data=b'')}: {wrong}"


@functools.lru_cache(maxsize=10)
def due_under(data, limit):
    """The model's ending and output, and its bounds on rows and searches of whole texts."""
    commands, ending = read_commands(data)
    told, most = replies_and_costs(commands, limit)
    return ENDINGS[ending], b"".join(told) + CLOSING[ending], most


def due(run):
    return due_under(run.data, run.limit)


def wrong_with(run, outcome):
    """A run without a failing call is that of the model, within its bounds."""
    ending, written, (rows, wholes) = due(run)
    if (outcome.ending, outcome.written) != (ending, written):
        yield f"{outcome.ending} with {short(outcome.written)}, not {ending} with {short(written)}"
    if outcome.rows > rows or outcome.wholes > wholes:
        yield f"{outcome.rows} rows and {outcome.wholes} searches, more than {rows} and {wholes}"


def wrong_with_failed_read(run, outcome):
    """One byte for each read: if the one that fails was needed, the replies to all commands read completely are
    written."""
    before = run.data[: run.failed_read - 1]
    commands, ending = read_commands(before)
    if run.failed_read > len(run.data) + 1 or ending == "command":
        yield from wrong_with(run, outcome)
    elif (outcome.ending, outcome.written) != ("Read", b"".join(replies(commands))):
        yield f"{outcome.ending} with {short(outcome.written)}"
    elif outcome.rows > costs(commands)[0]:
        yield f"{outcome.rows} rows"


def wrong_with_failed_write(run, outcome):
    """One byte for each write, and a flush at the end: what was taken before the one that fails is a prefix of all."""
    _, written, (rows, _) = due(run)
    if run.failed_write > len(written) + 1:
        yield from wrong_with(run, outcome)
    elif (outcome.ending, outcome.written) != ("Write", written[: run.failed_write - 1]):
        yield f"{outcome.ending} with {short(outcome.written)}, not a front of {short(written)}"
    elif outcome.rows > rows:
        yield f"{outcome.rows} rows, more than {rows}"


def wrong_with_room(run, outcome):
    """If there isn't room for all output, a prefix of it is written."""
    ending, written, _ = due(run)
    wanted = (ending, written) if len(written) <= run.room else ("Write", outcome.written)
    if (outcome.ending, outcome.written) != wanted or not written.startswith(outcome.written):
        yield f"{outcome.ending} with {short(outcome.written)}"


def places(length, each=False):
    """The offsets up to a length: for a long one those near its ends and some between, otherwise each."""
    if each or length <= LONG:
        return range(length)
    near = 6 if length <= LONGER else 2
    return sorted({*range(near), *range(near, length - near, length // near), *range(length - near, length)})


def test_worked(inputs):
    """Every worked input: in reads and writes of few bytes, truncated after each byte, and with each call failing in
    turn."""
    for data in inputs:
        name = short(data[:60]) + (f".. ({len(data)} bytes)" if len(data) > 60 else "")
        steps = [Run(data, read=read, write=write) for read, write in ((1, 1), (2, 3), (4096, 1), (3, 4096))]
        test(f"{name} over memory, within its rows", problems(steps, wrong_with))
        if len(data) > MOST:
            continue
        written, each = len(due(steps[0])[1]), data == ACROSS_CHUNKS
        lengths, reads, writes, rooms = (
            places(count, each) for count in (len(data), len(data) + 3, written + 3, written + 2)
        )
        cut = (Run(data[:length], read=1, write=1) for length in lengths)
        test(f"{name} over memory, cut at {len(lengths)} places", problems(cut, wrong_with))
        failed = (Run(data, read=1, failed_read=call + 1) for call in reads)
        test(f"{name} over memory, each of {len(reads)} reads failing", problems(failed, wrong_with_failed_read))
        failed = (Run(data, write=1, failed_write=call + 1) for call in writes)
        test(f"{name} over memory, each of {len(writes)} writes failing", problems(failed, wrong_with_failed_write))
        runs = (Run(data, room=room) for room in rooms)
        test(f"{name} over memory, with little room, {len(rooms)} times", problems(runs, wrong_with_room))


# Inputs, with the exact numbers of rows that they make and of whole texts that they search.
ROWS = [
    ("text 7\na🐸b\npattern 1\nblist\n".encode(), 2, 0),
    # Without a pattern nothing is searched, and neither for a text that is no pattern.
    (b"text 2\nabfork\nuse 1\nprint\nfork\nlist\n", 0, 0),
    (b"pattern 2\na(pattern 1\n\xffpattern 1\nalist\n", 1, 0),
    # A text that is set later is searched too.
    ("text 9\nab\r\nba\u2028pattern 1\natext 1\naoff\noff\n".encode(), 3, 0),
    (b"pattern 5\nabcdetext 3\na\nalist\nundo\n", 3, 0),
    (b"text 3\na\nbpattern 1\nbedit 1 0 1 1 3\nb\nb", 4, 0),
    # Undo and redo search only the lines that come back.
    (b"text 7\na\nb\na\nbpattern 1\nbedit 2 0 2 1 1\nbundo\nredo\n", 7, 0),
    (b"text 7\na\nb\na\nbpattern 1\nbedit 0 1 2 0 0\nundo\nredo\n", 9, 0),
    (b"text 5\nx\rb\nypattern 1\nyedit 1 0 1 1 0\nundo\nredo\n", 6, 0),
    (b"text 3\na\nbedit 1 0 1 1 1\ncpattern 1\nbundo\noff\nredo\npattern 1\nbundo\n", 6, 0),
    # One line for each match that is replaced, and a line with many matches once.
    (b"text 7\na\nb\na\nbpattern 1\nbreplace 1\ncundo\nredo\n", 10, 1),
    (b"text 4\nbbbbpattern 1\nbreplace 2\nccundo\nredo\n", 4, 1),
    (b"text 3\na\nbpattern 1\ncreplace 1\ndundo\nredo\n", 2, 1),
    # A search of a whole text makes no row; one that is refused because of its position is none.
    (b"text 3\nabapattern 3\n\\b.next 0 1\nnext 0 3\nnext 0 4\nlist\n", 1, 2),
    # Each line has a row that is counted, also if it is skipped because it has none of the literals.
    (spelled("text", (33_027,), b"".join(b"some line\r\n" if line % 1_001 else b"a match\r\n" for line in range(3_003)))
     + b"pattern 5\nmatchlist\n", 3_004, 0),
]


def test_rows():
    for data, rows, wholes in ROWS:
        def wrong_rows(run, outcome, made=(rows, wholes)):
            yield from wrong_with(run, outcome)
            if (outcome.rows, outcome.wholes) != made:
                yield f"{outcome.rows} rows and {outcome.wholes} searches, not {made}"
        test(f"{short(data[:60])} makes {rows} rows", problems([Run(data)], wrong_rows))


LINES = spelled("text", (99_990,), b"some line\n" * 9_999) + b"pattern 4\nline"
EDITED = b"text 7\na\nb\na\nbpattern 1\nbedit 2 0 2 1 3\nb\nb"
REPLACED = b"text 7\na\nb\na\nbpattern 1\nbreplace 3\n$0\n"
ONE_MATCH = spelled("text", (99_995,), b"some line\n" * 5_000 + b"match" + b"some line\n" * 4_999) + b"pattern 5\nmatch"

# The input before a command, the command, the maximum number of rows that it makes, and how many whole texts it
# searches.
LAST = [
    # A CR and an LF meet at the start of an edit, at its end, at both, and if it leaves nothing between them.
    (b"text 5\nx\rb\nypattern 1\ny", b"edit 1 0 1 1 0\n", 1, 0),
    (b"text 5\nx\rb\nypattern 1\ny", b"edit 1 0 1 1 2\n\n\r", 3, 0),
    (b"text 3\nx\rypattern 1\ny", b"edit 1 0 1 0 1\n\n", 2, 0),
    (b"text 3\nb\nypattern 1\ny", b"edit 0 1 0 1 1\n\r", 2, 0),
    (LINES, b"edit 5000 5 5000 5 1\nx", 1, 0),
    # For a replacement, the number of lines of each expansion.
    (b"text 4\na\r\nbpattern 1\n\n", b"replace 0\n", 1, 1),
    (b"text 5\na\rx\nypattern 1\nx", b"replace 0\n", 1, 1),
    (b"text 4\na\r\nbpattern 2\n\r\n", b"replace 2\n\n\r", 3, 1),
    (b"text 1\napattern 1\nb", b"replace 1\nc", 0, 1),
    (b"text 2\nabpattern 2\nx*", b"replace 1\n-", 3, 1),
    (b"text 5\na\nb\napattern 1\na", b"replace 3\n$0\n", 4, 1),
    (b"text 5\na\nb\napattern 1\n\n", b"replace 1\n\r", 4, 1),
    (ONE_MATCH, b"replace 1\nz", 1, 1),
    # For undo and redo, the number of lines that come back for each change.
    (EDITED, b"undo\n", 1, 0),
    (EDITED + b"undo\n", b"redo\n", 2, 0),
    (REPLACED, b"undo\n", 2, 0),
    (REPLACED + b"undo\n", b"redo\n", 4, 0),
    (EDITED + b"pattern 1\na", b"undo\n", 1, 0),
]


def wrong_last(pairs):
    """What is wrong with the last commands of inputs: each is run without it, unless that was done, and with it, and
    has the model's answer."""
    begun = {run.data: outcome for run, outcome in outcomes(map(Run, dict.fromkeys(pair[0] for pair in pairs)))}
    told = outcomes(Run(before + last) for before, last, _, _ in pairs)
    for (before, last, rows, wholes), (run, both) in zip(pairs, told):
        first = begun.get(before)
        if not first or not both:
            yield f"{short(before)} {short(last)}: there is no answer"
            continue
        yield from (f"{short(before)} {short(last)}: {wrong}" for wrong in wrong_with(run, both))
        if not 0 <= both.rows - first.rows <= rows or both.wholes - first.wholes != wholes:
            yield f"{short(before)} {short(last)}: {both.rows - first.rows} rows, {both.wholes - first.wholes} searches"


def test_last():
    for pair in LAST:
        test(f"{short(pair[1])} behind {short(pair[0][:60])} makes at most {pair[2]} rows", wrong_last([pair]))


def refused_in(run):
    """The outcomes of a run with each request for memory of the program refused in turn, except if the program itself
    lacks it: to read the line, to make the sink, or to write the answer."""
    line = run.line().encode()

    def runs(environment):
        return end_of(start(environment=environment, program=RUN_PROGRAM, stdin=open_input(line)))

    for number in range(1, counted(runs)[1] + 1):
        outcome = Outcome.of(counted(runs, at=number)[0].out.decode(errors="replace").rstrip("\n"))
        if outcome is not None:
            yield number, outcome


def places_refused(run):
    """The commands to which memory may be refused: none that reports it, or one."""
    commands, _ = read_commands(run.data)
    return [frozenset(), *(frozenset({place}) for place in takers(commands, run.limit))]


def written_where_refused(run):
    """All possible outputs with memory refused to one command, or to none that reports it."""
    commands, ending = read_commands(run.data)
    return {b"".join(replies(commands, refused, run.limit)) + CLOSING[ending] for refused in places_refused(run)}


def costs_where_refused(run):
    """The maximum number of rows then, and of searches of a whole text: a session in which one command is refused may
    continue with another text."""
    commands, _ = read_commands(run.data)
    each = [costs(commands, run.limit, refused) for refused in places_refused(run)]
    return max(rows for rows, _ in each), max(wholes for _, wholes in each)


def wrong_refused(run, rows, wholes):
    """What is wrong with a run in which each request for memory is refused in turn: one command is out of memory and
    changes nothing, or there is no session; and no more rows are made, and whole texts searched, than otherwise."""
    may_be, refused = written_where_refused(run), 0
    for number, outcome in refused_in(run):
        refused += b"error memory" in outcome.written
        wanted = (ENDINGS[read_commands(run.data)[1]], may_be) if outcome.ending != "Memory" else ("Memory", {b""})
        if outcome.ending != wanted[0] or outcome.written not in wanted[1]:
            yield f"request {number}: {outcome.ending} with {short(outcome.written)}"
        if outcome.rows > rows or outcome.wholes > wholes:
            yield f"request {number}: {outcome.rows} rows, {outcome.wholes} searches, more than {rows} and {wholes}"
    if not refused and rows:
        yield "no request was refused to a command"


def wrong_last_refused(before, last, rows, wholes):
    """The same for an input whose last command makes this number of rows."""
    for _, outcome in outcomes([Run(before)]):
        yield from wrong_refused(Run(before + last), outcome.rows + rows, outcome.wholes + wholes) if outcome else ["no answer"]


def wrong_sink():
    """What is wrong if the room that a sink requests is refused."""
    line = Run(b"print\n", room=1 << 24).line().encode()

    def run(environment):
        return end_of(start(environment=environment, program=RUN_PROGRAM, stdin=open_input(line)))

    ended, _, largest = counted(run, above=(1 << 24) - 1)
    yield from differences(ended, b"no memory\n", 0)
    if largest != 1 << 24:
        yield f"the largest request is of {largest} bytes"


def test_refused():
    if library() is not None:
        test("a sink of 16 MB is refused its room", wrong_sink())
    for pair in LAST:
        if len(pair[0]) < LONG and library() is not None:
            test(f"{short(pair[1])} behind {short(pair[0])}, refused memory, makes no more rows", wrong_last_refused(*pair))


def texts(letters, longest):
    return ["".join(text) for length in range(longest + 1) for text in product(letters, repeat=length)]


@functools.lru_cache(maxsize=1)
def session_after(before):
    """The model's session after these commands."""
    session = Session()
    for command in read_commands(before)[0]:
        session.reply(command)
    return session


def last_of(before, last):
    """The last command of an input, with the maximum number of rows that it may make, and of searches of a whole
    text."""
    return before, last, *session_after(before).cost(read_commands(last)[0][0])


def small_edits(letters, longest, longest_inserted):
    """Every edit between two positions of every small text, also from a later one to an earlier, with some patterns."""
    for text, pattern in product(texts(letters, longest), ("a", "x*", "a$")):
        before = spelled("text", (len(text),), text.encode()) + spelled("pattern", (len(pattern),), pattern.encode())
        for first, last, inserted in product(positions_of(text), positions_of(text), texts(letters, longest_inserted)):
            yield last_of(before, spelled("edit", (*first, *last, len(inserted)), inserted.encode()))


def small_replacements(letters, longest):
    """Every replacement by small templates in every small text."""
    patterns, templates = ("\n", "\r", "a", "", "x*", "\r\n"), (*texts(letters, 2), "$0\r", "\n$0")
    for text, pattern, template in product(texts(letters, longest), patterns, templates):
        before = spelled("text", (len(text),), text.encode()) + spelled("pattern", (len(pattern),), pattern.encode())
        yield last_of(before, spelled("replace", (len(template),), template.encode()))


def test_small_texts():
    edits = list(small_edits("\r\na", 4, 2))
    test(f"{len(edits)} edits of small texts make no more rows than they may", wrong_last(edits))
    replacements = list(small_replacements("\r\na", 4))
    test(f"{len(replacements)} replacements in small texts make no more rows than they may", wrong_last(replacements))


# A limit on texts, an input, and its answer.
LIMITS = [
    (4, b"text 5\nabcdeprint\n", b"error size\ntext 0\n\n"),
    (4, b"text 4\nabcdprint\n", b"ok\ntext 4\nabcd\n"),
    (4, b"text 2\nabtext 5\nabcdeprint\n", b"ok\nerror size\ntext 2\nab\n"),
    (4, b"text 3\nabcedit 0 1 0 2 3\nxyzedit 0 1 0 2 2\nxyprint\n", b"ok\nerror size\nok\ntext 4\naxyc\n"),
    (4, b"text 5\n\xff\xff\xff\xff\xfftext 5\nabcde", b"error utf8\nerror size\n"),
    # A pattern may have more bytes than a text.
    (4, b"pattern 5\nabcde", b"ok\n"),
    # The limit applies to templates, and to the text after replacing.
    (4, b"text 3\nabcpattern 0\nreplace 1\n-print\n", b"ok\nok\nerror size\ntext 3\nabc\n"),
    (4, b"text 3\nabcpattern 1\nbreplace 4\n$0$0print\nundo\nreplace 6\n$0$0$0",
     b"ok\nok\nok 1\ntext 4\nabbc\nok\nerror size\n"),
    (4, b"text 2\nabreplace 5\n$0$0$pattern 1\nxreplace 5\n$0$0$replace 1\n$",
     b"ok\nerror none\nok\nerror size\nok 0\n"),
    # Nothing of these texts is kept. Each character is split at each offset.
    (2, "text 10\naé🐸せ".encode(), b"error size\n"),
    (2, b"text 4\n\xf0\x9f\x90\xc3", b"error utf8\n"),
    (2, b"text 3\nab\xc3", b"error utf8\n"),
    (2, b"text 4\nab\xc3\xa9", b"error size\n"),
    (0, b"text 0\nedit 0 0 0 0 1\naprint\nfork\n", b"ok\nerror size\ntext 0\n\nok 1\n"),
]


def test_limits():
    for limit, data, out in LIMITS:
        def wrong_answer(run, outcome, wanted=out):
            yield from wrong_with(run, outcome)
            if outcome.written != wanted:
                yield f"{short(outcome.written)}, not {short(wanted)}"
        runs = (Run(data, limit, read=step, write=step) for step in (1, 2, 3, 4, 5, 4096))
        test(f"{short(data)} where texts have {limit} bytes at most", problems(runs, wrong_answer))
        cut = (Run(data[:length], limit, read=1, write=1) for length in range(len(data)))
        test(f"{short(data)} where they do, cut after each of its bytes", problems(cut, wrong_with))
        if library() is not None:
            run = Run(data, limit)
            test(f"{short(data)} where they do, refused memory", wrong_refused(run, *costs_where_refused(run)))


def test_all():
    test_worked([data for data, _, _ in examples_of_page() + MORE_EXAMPLES])
    test_rows()
    test_last()
    test_refused()
    test_small_texts()
    test_limits()
