"""bin/rope-search with memory refused: each request of several sessions in turn, alone and with all later ones."""
import functools
import os
import random

from harness import FIRST, differences, end_of, open_input, run, short, start, test, told
from memory import counted, library, most_held, tallied
from protocol import HAS_PAYLOAD, NUMBER_LIMIT, PATTERN_LIMIT, TEXT_LIMIT, WORDS, Session, answer, read_commands, spelled, takers


def given(word, payload):
    """A command with a payload."""
    return spelled(word, (len(payload),), payload)


# Without a pattern `undo` and `redo` take no memory, and an edit that changes nothing drops the texts that could be
# redone.
HISTORY = b"text 1\naedit 0 1 0 1 1\nbundo\nredo\nprint\nundo\nedit 0 0 0 0 0\nredo\n"
FIRST_EDIT_REFUSED = b"ok\nerror memory\nerror none\nerror none\ntext 1\na\nerror none\nok\nerror none\n"
UNDER_PATTERN = (
    b"pattern 1\nbtext 13\nab\nb\ncb\nbb\nabedit 1 0 2 1 5\nb\r\nxblist\nundo\nlist\nredo\nlist\n"
    b"edit 0 1 4 0 0\nlist\nedit 0 0 0 0 12\nb\nb\nb\nb\nb\nb\nlist\nundo\nundo\nundo\nlist\nprint\n"
)
# Regular expressions, one of them outside the grammar and one too heavy, and the next matches.
UNDER_REGEX = (
    given("text", b"Todo a\nan error\r\nno todo\n\n") + given("pattern", rb"(?i)\btodo\b|e\w+r$")
    + b"list\nnext 0 1\nnext 2 4\nedit 1 3 1 8 4\nTODOlist\nnext 0 5\nundo\nnext 1 3\nredo\nlist\n"
    + given("pattern", b"(a|") + given("pattern", rb"\w{1000}{1000}") + b"next 9 9\nfork\n"
    + given("pattern", rb"(\r\n|o$)+|^$") + b"next 0 4\nlist\noff\nnext 0 0\nuse 1\nnext 0 0\n"
)

# All matches replaced: some, none, one by a text as long as the whole, breaks that are split, and refused templates.
REPLACED = (
    given("text", b"ab\r\ncab\nb\r\nxabc") + given("pattern", rb"(a)?b|\r") + b"list\n" + given("replace", b"$1\n$0")
    + b"list\nundo\nlist\nredo\n" + given("replace", b"$2") + b"redo\nlist\nprint\n" + given("replace", b"\xff")
    + given("pattern", b"(?s)^.*|never") + given("replace", b"$0$0") + given("replace", b"") + b"undo\n"
    + given("pattern", b"never") + given("replace", b"x") + b"redo\nlist\nfork\nuse 1\n" + given("replace", b"x")
    + b"off\nuse 0\nundo\nprint\n"
)
# Few matches in a text of many chunks, and many there.
REPLACED_IN_LONG = (
    given("text", b"mark\n".join([b"-" * 3_000] * 3)) + given("pattern", rb"mark|\A") + given("replace", b"$0\nbar")
    + b"list\nundo\n" + given("pattern", b"-") + given("replace", b"+") + given("pattern", rb"\++\n?") + b"list\n"
    + given("replace", b"x") + b"list\nundo\nundo\nprint\n"
)
# Edits and replacements without a pattern, with one, and with another one, undone and redone.
BACK_AND_FORWARD = (
    given("text", b"ab\r\nab\n\nab\n") + b"edit 0 1 1 1 1\nb" + given("pattern", b"b|\n") + given("replace", b"\n$0")
    + b"undo\nlist\nundo\nlist\nredo\nredo\nlist\n" + given("pattern", b"a") + given("replace", b"") + b"undo\nundo\nlist\n"
    + b"edit 0 0 1 0 2\n\r\nlist\nredo\noff\nundo\nredo\n" + given("pattern", b"(?m)b$") + b"undo\nundo\nundo\nlist\nprint\n"
)
# Searches that read to the line's end, or the text's, and match one letter each.
FAR_READING = (
    given("text", b"a" * 70 + b"\n" + b"a" * 40) + given("pattern", b"(a*b)|a") + b"list\nedit 0 1 1 1 1\naundo\nlist\n"
    + given("replace", b"$0$1-") + b"list\nundo\nredo\nlist\nprint\n"
)
# Long lines, so that the rows that a replacement takes out of the report take less than the text, and are kept: it is
# undone and redone, also after an edit, and after one under another pattern.
KEPT_ROWS = (
    given("text", b"\n".join([b"ab" + b"-" * 300, b"b-b" + b"-" * 400, b"none"])) + given("pattern", b"b") + given("replace", b"<$0>")
    + b"list\nundo\nlist\nredo\nlist\nedit 1 0 1 0 1\nbundo\nundo\nlist\nprint\n" + given("replace", b"") + b"fork\nundo\n"
    + given("pattern", b"a|-b") + b"redo\nlist\n" + given("replace", b"b\n") + b"undo\nlist\nundo\nlist\nuse 1\nundo\nprint\n"
)

# A text of a megabyte, and how many of its lines are edited, each in a fork of its own and all in one buffer.
LINES, LINE, EDITED = 20_000, b"a line of fifty bytes, which holds one mark: here\n", 50
# The limit for a fork with an edit, or an edit with its rows, whatever the text: a path of nodes and a few lists.
MOST_FOR_AN_EDIT = 8_192
MOST_FOR_A_FORK = 12_288  # one with an edit: in addition it is a buffer of its own
# Buffers with a pattern each, and the limit for one by pattern: with a letter class most of it is the program.
BUFFERS, MOST_FOR_A_BUFFER = 2_000, ((b"mark", 16_000), (rb"(?i)todo|error", 16_000), (rb"\w+", 60_000))
# Patterns that repeat a class, and the limit for one.
SAID_AGAIN, MOST_FOR_A_PATTERN = ((rb"[\wa]", 13_107), (rb"[^\w]", 13_107), (rb"[^a]", 16_384)), 10_000_000
# Patterns that are refused because of their weight, and the limit for each byte of one.
TOO_HEAVY, MOST_FOR_A_BYTE = (rb"[\wa]", rb"[^\w]"), 64
# The number of breaks that are replaced, the limit for this, and for each if it is undone, as a match, a line and a
# change.
BREAKS, MOST_FOR_BREAKS, MOST_FOR_A_BREAK = 1_000_000, 100_000_000, 120
# A text, how often it is edited, and how much an edit may leave in the history.
LONG_TEXT, MANY_EDITS, MOST_KEPT = 20_000_000, 10_000, 5_000
# The limit for a text while it is read, as a multiple of its bytes.
MOST_FOR_A_TEXT = 1.2

# The most requests for what a single thread keeps, which finds the groups of a replacement's matches.
FOR_A_THREAD = 20

# Inputs on which memory is refused. The payload of the second is as long as several reads and spells commands, which
# must not be executed if it is lost.
MEMORY_INPUTS = [
    FIRST,
    b"text 9000\n" + b"print\n" * 1500 + b"fork\nprint\nuse 1\ntext 6000\n" + b"use 0\n" * 1000 + b"print\nuse 0\nprint\n",
    b"fork\n" * 40 + b"use 40\ntext 3\nabcfork\nuse 41\nprint\n",
    b"text 9\naba\na\nbabpattern 1\nblist\ntext 5\nb\nb\nblist\npattern 1\n*pattern 1\nclist\noff\nlist\nprint\n",
    b"pattern 2\nabtext 240\n" + b"abab\n" * 48 + b"list\nfork\nuse 1\nlist\nuse 0\noff\nprint\n",
    b"pattern 1\nbtext 4003\n" + b"a" * 2000 + b"b\n" + b"a" * 2000 + b"blist\ntext 2\nb\nlist\nprint\n",
    b"text 2\nab" + b"text 3\n\xff\xfe\xfd" + b"fork\nuse 9\nuse 1\ntext 0\nprint\nuse 0\nprint\njump\n",
    b"text 5001\n" + "é".encode() * 2500 + b"\xff" + b"print\ntext 4999\n" + "a☃".encode() * 1249 + b"ab\xe2print\n",
    HISTORY,
    UNDER_PATTERN,
    UNDER_REGEX,
    REPLACED,
    REPLACED_IN_LONG,
    BACK_AND_FORWARD,
    FAR_READING,
    KEPT_ROWS,
    b"pattern 2\nabtext 3063\n" + b"ab" * 1500 + b"\n" + b"ab\n" * 20 + b"abedit 0 1500 10 1 47\n" + b"\nab" * 15 + b"\r\n"
    + b"list\nundo\nlist\nredo\nprint\nedit 0 0 5 2 0\nlist\n",
    b"text 3\na\nbfork\nedit 0 1 1 0 1\n\ruse 1\nedit 0 0 0 1 2\n\xc3\xa9undo\nprint\nuse 0\nundo\nundo\nredo\nprint\n"
    + b"edit 0 0 0 2 1\nxedit 0 0 0 0 1\n\xffprint\n",
]


def growths(length):
    """How often a list grows that takes the characters of this number of bytes: it requests room for a quarter of them,
    or for four, and then for twice as much each time."""
    room, count = max(4, (length + 3) // 4), 1
    while room < length:
        room, count = 2 * room, count + 1
    return count


def session(data, **settings):
    """A run with these requests refused, how many there were, and how many bytes of its input were read by then."""
    with open_input(data) as given:
        ended, count, _ = counted(lambda environment: end_of(start((), environment, stdin=given)), **settings)
        ended.read = os.lseek(given.fileno(), 0, os.SEEK_CUR)
    return ended, count


def respelled(commands):
    return b"".join(spelled(*command) for command in commands)


def under_way(commands, data):
    """For each request for memory the index of the command that makes it, or None if it is made before the first. After
    the last one an incomplete payload makes some."""
    counts = [session(respelled(commands[:place]))[1] for place in range(len(commands) + 1)]
    ends = zip([*counts, session(data)[1]], [None, *range(len(commands) + 1)])
    return [place for before, (end, place) in zip([0, *counts], ends) for _ in range(before, end)]


def follow(commands, out):
    """The indices of the commands that are out of memory in an output, if the others have the model's answers."""
    model, at, lacking = Session(), 0, set()
    for place, command in enumerate(commands):
        if model.takes_memory(command[0]) and out.startswith(b"error memory\n", at):
            lacking.add(place)
        at += len(model.reply(command, place in lacking))
    return lacking


@functools.lru_cache(maxsize=200)
def answer_without(data, lacking):
    """The answer to an input with memory refused to the commands at these indices."""
    return answer(data, lacking)


@functools.lru_cache(maxsize=4)
def known_answers(data):
    """The outputs for an input with memory refused, each with the commands to which it was refused. They are stored,
    because computing one takes as long as the commands."""
    return {}


def answered(data, ended):
    """What is wrong with a run with refused requests, and the indices of the commands that are out of memory: there is
    no session at all, or some of the commands that take memory are, and change nothing."""
    if ended.status == 1:
        return differences(ended, b"", 1, told(b"out of memory")), frozenset()
    known = known_answers(data)
    if ended.out not in known:
        known[ended.out] = frozenset(follow(read_commands(data)[0], ended.out))
    lacking = known[ended.out]
    return differences(ended, *answer_without(data, lacking)), lacking


def may_go_untold(commands):
    """By command, how many requests may be refused without effect. The list of a pattern's characters requests more room
    than it needs at once, and if that is refused it requests room for one after the other. For the groups of a
    replacement, what a single thread keeps may be refused: the PikeVM then searches."""
    return {
        "pattern": sum(growths(len(payload)) for word, _, payload in commands if word == "pattern"),
        "replace": sum(FOR_A_THREAD for word, _, payload in commands if word == "replace" and b"$" in payload),
    }


def one_refused(data, places):
    """Each request refused alone: before the first command nothing is read, and afterwards the command that made the
    request is the one that is out of memory. But for patterns and replacements some requests may be refused without
    effect."""
    commands, _ = read_commands(data)
    untold, seen, whole = may_go_untold(commands), set(), answer(data)
    for number, place in enumerate(places, 1):
        ended, _ = session(data, at=number)
        if place is None:
            wrong = differences(ended, b"", 1, told(b"out of memory")) + ([f"{ended.read} bytes were read"] if ended.read else [])
        elif place == len(commands):
            wrong = differences(ended, *whole)
        elif untold.get(commands[place][0]) and not differences(ended, *whole):
            untold[commands[place][0]] -= 1
            wrong = []
        else:
            wrong = differences(ended, *answer_without(data, frozenset({place})))
            seen.add(place)
        yield from (f"request {number}, command {place}: {line}" for line in wrong)
    # A payload that isn't empty and is kept needs memory, except perhaps a text that isn't UTF-8: it is checked first.
    for place in sorted(takers(commands) - seen):
        word, numbers, _ = commands[place]
        is_kept = word in HAS_PAYLOAD and 0 < numbers[-1] and (word != "pattern" or numbers[-1] <= PATTERN_LIMIT)
        refusal = whole_refusal(commands, place)
        if is_kept and refusal not in (b"none", b"range") and (word, refusal) != ("text", b"utf8"):
            yield f"no refusal reached command {place}, a {word}"


def whole_refusal(commands, place):
    """Why a command is refused that follows others, or None."""
    model = Session()
    for command in commands[:place]:
        model.reply(command)
    return model.refusal(*commands[place])


def all_refused_from(data, places):
    """Each request and all later ones refused: the answers are right for the commands that are out of memory, and none
    before the one that made the request is."""
    for number, place in enumerate(places, 1):
        ended, _ = session(data, **{"from": number})
        wrong, lacking = answered(data, ended)
        if any(other < place for other in lacking):
            wrong.append("a command before it is answered so")
        if place is None and ended.read:
            wrong.append(f"{ended.read} bytes were read")
        yield from (f"from request {number}, command {place}: {line}" for line in wrong)


def sent_again(data, places):
    """A command one of whose requests was refused is executed if it is sent again at once."""
    commands, _ = read_commands(data)
    untold = may_go_untold(commands)
    for number, place in enumerate(places, 1):
        if place is not None and place < len(commands):
            given = respelled(commands[: place + 1] + commands[place:])
            ended, _ = session(given, at=number)
            wrong = differences(ended, *answer_without(given, frozenset({place})))
            if wrong and untold.get(commands[place][0]) and not differences(ended, *answer(given)):
                untold[commands[place][0]] -= 1
                wrong = []
            yield from (f"request {number}, command {place}: {line}" for line in wrong)


def asks_for_none(data):
    """Fifty more of each command that needs no memory request none, in the session that the commands lead to."""
    commands, _ = read_commands(data)
    model = Session()
    for command in commands:
        model.reply(command)
    words = [spelled("use", (model.chosen,)), b"use 99\n", b"list\n", b"print\n", b"off\n", b"undo\n", b"redo\n"]
    more = respelled(commands) + b"".join(word * 50 for word in words)
    ended, asked = session(more)
    yield from differences(ended, *answer(more))
    if asked != session(respelled(commands))[1]:
        yield f"{asked} requests"


def check_refusals(data, most=None):
    """Tests an input with each of its requests refused, if there are at most this number."""
    name = short(data[:40]) + (f".. ({len(data)} bytes)" if len(data) > 40 else "")
    ended, count = session(data)
    test(f"{name} under the library, nothing refused", differences(ended, *answer(data)))
    test(f"{name}, and more that needs no memory", asks_for_none(data))
    if most is None or count <= most:
        places = under_way(read_commands(data)[0], data)
        test(f"{name} with each of its {count} requests refused", one_refused(data, places))
        test(f"{name} with all from each of its {count} requests on refused", all_refused_from(data, places))
        test(f"{name} with each command that lacked memory sent again", sent_again(data, places))


def test_all():
    if library() is None:
        return
    for data in MEMORY_INPUTS:
        check_refusals(data)

    is_as_told = answer(HISTORY, {1})[0] == FIRST_EDIT_REFUSED
    test("after an edit that lacked memory there is nothing to undo", [] if is_as_told else ["the model has"])

    def claims():
        """Memory is requested for what was read, not for the number in a line."""
        for number in (100_000_000, TEXT_LIMIT, TEXT_LIMIT + 1, NUMBER_LIMIT):
            for command in [(word, (*[0] * (WORDS[word.encode()] - 1), number), b"ab") for word in HAS_PAYLOAD]:
                data = spelled(*command)
                ended, _, largest = counted(lambda environment, given=data: run(given, environment=environment))
                yield from differences(ended, b"error end\n", 2)
                if largest > 1 << 16:
                    yield f"{command[0]} {number} with two bytes asks for {largest} bytes"

    test("a line that claims many bytes takes no memory for them", claims())

    def rooms():
        """No room is requested that is longer than the payload."""
        for size in (5_000, 100_000, 5_000_000):
            data = given("text", b"x" * size)
            ended, _, largest = counted(lambda environment, given=data: run(given, environment=environment))
            yield from differences(ended, b"ok\n", 0)
            if largest > max(size, 1 << 16):
                yield f"a text of {size} bytes asks for {largest} at once"

    test("a payload's room is no longer than the payload", rooms())

    def edited_lines(before):
        """Commands that insert a letter in lines all over the text, each after the commands that `before` returns for
        it."""
        step = LINES // EDITED
        return b"".join(before(k) + spelled("edit", (k * step, 0, k * step, 0, 1), b"x") for k in range(EDITED))

    def taken_for_edits(first, edits, most=MOST_FOR_AN_EDIT):
        """The memory that an edit takes after these first commands, if it is too much, in bytes."""
        text = given("text", LINE * LINES) + first
        _, _, _, alone = tallied(lambda environment: run(text, environment=environment))
        ended, _, _, total = tallied(lambda environment: run(text + edits, environment=environment))
        yield from differences(ended, ended.out, 0)
        if b"error" in ended.out:
            yield "a command is refused"
        each = (total - alone) // EDITED
        if not 0 < each <= most:
            yield f"it takes {each} bytes"

    forks = edited_lines(lambda k: b"fork\nuse %d\n" % (k + 1))
    test("a fork with an edit takes memory for the edit, not for the text", taken_for_edits(b"", forks, MOST_FOR_A_FORK))
    one = edited_lines(lambda k: b"")
    test("an edit takes memory for what it changes, not for the text", taken_for_edits(b"", one))
    # The rows of a new report fill their list, which doubles with the first edit.
    grown = spelled("edit", (0, 0, 0, 0, 1), b"x")
    for pattern in (b"mark", rb"(?i)\bM\w+k\b|^$"):
        test(f"so does an edit under the pattern {pattern.decode()}", taken_for_edits(given("pattern", pattern) + grown, one))
    replacements = given("replace", b"$0x") * EDITED
    test("and so does a replacement of one match", taken_for_edits(given("pattern", rb"\A.") + grown, replacements))
    test_bounds()
    test_texts()
    test_histories()


def peak_of(data):
    """The maximum memory that the program holds at a time for an input whose commands are all accepted."""
    ended, peak = most_held(lambda environment: run(data, environment=environment))
    assert b"error" not in ended.out[-1_000_000:] and ended.status == 0, short(ended.out)
    return peak


def test_bounds():
    """The memory of many buffers with a pattern each, and of long patterns: by the maximum that is held at a time."""
    for pattern, most in MOST_FOR_A_BUFFER:
        def buffers(count, setting=given("pattern", pattern)):
            return b"".join(b"fork\nuse %d\n" % (number + 1) + setting for number in range(count))
        each = (peak_of(buffers(BUFFERS)) - peak_of(buffers(1))) // (BUFFERS - 1)
        wrong = [] if 0 < each <= most else [f"a buffer takes {each} bytes"]
        test(f"{BUFFERS} buffers under {pattern.decode()} take at most {most} bytes each", wrong)
    for part, count in SAID_AGAIN:
        ended, most = most_held(lambda environment, data=given("pattern", part * count): run(data, environment=environment))
        wrong = differences(ended, ended.out, 0) + ([] if most <= MOST_FOR_A_PATTERN else [f"{most} bytes"])
        test(f"{count} times {part.decode()}, taken or refused, takes at most {MOST_FOR_A_PATTERN} bytes", wrong)
    for part in TOO_HEAVY:
        wrong, held = [], []
        for count in (3_000, 13_000):
            ended, most = most_held(lambda environment, data=given("pattern", part * count): run(data, environment=environment))
            wrong += differences(ended, b"error limit\n", 0)
            held.append(most)
        each = (held[1] - held[0]) // (10_000 * len(part))
        wrong += [] if each <= MOST_FOR_A_BYTE else [f"a byte takes {each}"]
        test(f"{part.decode()} again and again, refused, takes at most {MOST_FOR_A_BYTE} bytes for each of its own", wrong)


def test_texts():
    """The memory of a text that is read and printed: it is held once, in leaves, while it is read."""
    for name, line in (("letters", LINE), ("characters of all lengths", "aé☃🐸\n".encode())):
        text = line * (LONG_TEXT // len(line))
        share = (peak_of(given("text", text) + b"print\n") - peak_of(given("text", b"") + b"print\n")) / len(text)
        wrong = [] if share <= MOST_FOR_A_TEXT else [f"{share:.2f} times its bytes"]
        test(f"a text of {name} takes at most {MOST_FOR_A_TEXT} times its bytes while it is read", wrong)


def test_histories():
    """The memory that edits, replacements and new texts leave, likewise."""
    def broken(count):
        return given("text", b"\r" * count) + given("pattern", b"\r") + given("replace", b"x")
    held = peak_of(broken(BREAKS))
    wrong = [] if 0 < held <= MOST_FOR_BREAKS else [f"they take {held} bytes"]
    test(f"{BREAKS} lines, all of whose breaks are replaced, take at most {MOST_FOR_BREAKS} bytes", wrong)
    each = (peak_of(broken(BREAKS) + b"undo\n") - peak_of(broken(1) + b"undo\n")) // BREAKS
    wrong = [] if 0 < each <= MOST_FOR_A_BREAK else [f"each takes {each} bytes"]
    test(f"they take at most {MOST_FOR_A_BREAK} bytes each where that is undone", wrong)
    once = given("text", LINE * LINES) + letters_at_random(MANY_EDITS, LINES)
    wrong = [] if peak_of(once * 4) < 1.5 * peak_of(once) else [f"{peak_of(once * 4)} bytes, {peak_of(once)} with one text"]
    test("a new text frees the history", wrong)
    text = given("text", LINE * (LONG_TEXT // len(LINE)))
    for name, edits in (("letters at random lines", letters_at_random), ("a typist", letters_in_a_row)):
        # A text takes more memory while it is read than afterwards, so edits are compared with fewer edits.
        each = (peak_of(text + edits(2 * MANY_EDITS)) - peak_of(text + edits(MANY_EDITS))) // MANY_EDITS
        wrong = [] if 0 < each <= MOST_KEPT else [f"an edit keeps {each} bytes"]
        test(f"{name}: {MANY_EDITS} edits of {LONG_TEXT} bytes keep at most {MOST_KEPT} bytes each", wrong)


def letters_at_random(count, among=LONG_TEXT // len(LINE)):
    chosen = random.Random(7)
    lines = (chosen.randrange(among) for _ in range(count))
    return b"".join(spelled("edit", (line, 0, line, 0, 1), b"x") for line in lines)


def letters_in_a_row(count):
    return b"".join(spelled("edit", (200_000, column, 200_000, column, 1), b"x") for column in range(count))
