"""The client of examples/client.py: whole replies, in time linear in their length, and its errors if a child ends,
doesn't answer, or would wait for more."""
import io
import os
import random
import signal
import stat
import sys

from harness import PROGRAM, ROOM, TOP, run, test

sys.path.insert(0, os.path.join(TOP, "examples"))
from client import Client, Ended, command, read_reply

MATCHES = 300_000
MOST_ADDITIONS = 10
REPLIES = [
    b"ok\n", b"ok 12\n", b"no match\n", b"error pattern\n", b"m 0 1 2 3\n", b"ok 0\n", b"m 0 1 2\nok 1\n",
    b"m 0 1 2\nm 0 3 4\nm 1 0 0\nok 3\n", b"text 0\n\n", b"text 5\nok\nok\n", b"text 14\nm 0 1 2\ntext 5\n",
    b"text 3\na\n\n\n",
]


class TooMany(Exception):
    pass


class Counted(bytes):
    """Bytes that count how often they are added to others, up to a limit."""

    additions = 0

    def __add__(self, other):
        Counted.additions += 1
        if Counted.additions > MOST_ADDITIONS:
            raise TooMany
        return Counted(bytes(self) + other)

    __radd__ = __iadd__ = __add__


class CountedLines(io.BytesIO):
    def readline(self, *size):
        return Counted(super().readline(*size))

    def read(self, *size):
        return Counted(super().read(*size))


def listed(count):
    return b"".join(b"m %d 3 4\n" % line for line in range(count)) + b"ok %d\n" % count


def program(name, lines):
    """A program that is a shell script."""
    path = os.path.join(ROOM, name)
    with open(path, "w", encoding="utf-8") as file:
        file.write(f"#!/bin/sh\n{lines}\n")
    os.chmod(path, stat.S_IRWXU)
    return path


def ended_of(do):
    """What `do` raises, if that is Ended."""
    try:
        do()
    except Ended as ended:
        return ended
    return None


def wrong_ending(do, status, words, reply=b""):
    """What is wrong with how `do` fails, which must include a status and these words."""
    ended = ended_of(do)
    if ended is None:
        return ["it isn't told that the program ended"]
    found = ended.status, ended.reply, words in str(ended)
    return [] if found == (status, reply, True) else [f"it tells {ended}, with {found[0]} and {found[1]!r}"]


def test_replies():
    wrong = []
    for first in REPLIES:
        for second in REPLIES:
            replies = io.BytesIO(first + second)
            found = read_reply(replies), read_reply(replies)
            wrong += [] if found == (first, second) else [f"of {first + second!r} it reads {found}"]
    test("replies are read whole, one after the other", wrong)
    wrong = []
    for reply in REPLIES:
        for length in range(len(reply)):
            try:
                wrong.append(f"of {reply[:length]!r} it reads {read_reply(io.BytesIO(reply[:length]))!r}")
            except EOFError as error:
                wrong += [] if error.args == (reply[:length],) else [f"of {reply[:length]!r} it tells {error.args}"]
    test("a truncated reply is reported, with the part that was read", wrong)
    reply, Counted.additions = listed(MATCHES), 0
    try:
        wrong = [] if read_reply(CountedLines(reply)) == reply else ["it reads another reply"]
    except TooMany:
        wrong = ["there are more"]
    test(f"a reply of {MATCHES} matches is read with {MOST_ADDITIONS} additions of bytes at most", wrong)


def test_commands():
    with Client(PROGRAM) as search:
        wrong = []
        sendings = [b"print", b"", b"text 5\nabc", b"text 2\nabc", b"list\nlist\n", b"undo\nx", b"text 1x\na", b"use 0\na"]
        for sent in sendings:
            try:
                wrong.append(f"{sent!r} is answered {search.ask(sent)!r}")
            except ValueError:
                pass
        test("what isn't one whole command is refused", wrong)
        replies = [search.ask(command(b"text", "é\n".encode())), search.ask(command(b"edit 0 1 0 1", b"x"))]
        replies += [search.ask(b"text 00000000000000000003\nabc"), search.ask(b"print\n")]
        replies += [search.ask(command(b"text", b"\xff"))]
        due = [b"ok\n", b"ok\n", b"ok\n", b"text 3\nabc\n", b"error utf8\n"]
        test("and isn't sent: all others are answered", [] if replies == due else [f"they are answered {replies}"])
    test("a session that is closed has ended with 0", [] if search.close() == 0 else [f"with {search.close()}"])
    test("and answers no more", wrong_ending(lambda: search.ask(b"print\n"), 0, "ended"))


class Killing:
    """Replies during which the child is killed."""

    def __init__(self, search):
        self.search, self.replies = search, search.replies

    def kill(self):
        self.search.child.kill()
        self.search.child.wait()

    def readline(self):
        line = self.replies.readline()
        self.kill()
        return line

    def read(self, size):
        self.kill()
        return self.replies.read(size)


def test_endings():
    search = Client(PROGRAM)
    reply = search.ask(b"jump\n")
    test("a line that is no command is answered", [] if reply == b"error command\n" else [f"{reply!r}"])
    wrong = wrong_ending(lambda: search.ask(b"print\n"), 2, "ended")
    test("and ends the program, which is reported with its status", wrong)
    text = "".join(f"{number:7}x\n" for number in range(MATCHES)).encode()
    for name, asked in (("list", b"list\n"), ("print", b"print\n")):
        search = Client(PROGRAM)
        whole = [search.ask(command(b"text", text)), search.ask(command(b"pattern", b"x")), search.ask(asked)][-1]
        search.replies = Killing(search)
        ended = ended_of(lambda: search.ask(asked))
        wrong = ["it isn't told"] if ended is None else []
        if ended and (ended.status != -signal.SIGKILL or not whole.startswith(ended.reply) or whole == ended.reply):
            wrong.append(f"it is reported with {ended.status} and {len(ended.reply)} bytes of {len(whole)}")
        test(f"a child killed during the reply to {name} is reported with the signal, and no reply is returned", wrong)
        test("it stays ended", wrong_ending(lambda: search.ask(b"print\n"), -signal.SIGKILL, "ended"))
        test("and is closed", [] if search.close() == -signal.SIGKILL else [f"with {search.close()}"])
    cut = program("cut", "read line; printf 'm 0 1 2\\nm 0 3'; echo 'no more' >&2; exit 7")
    test("a child's message is reported", wrong_ending(lambda: Client(cut).ask(b"list\n"), 7, "no more", b"m 0 1 2\nm 0 3"))
    silent, part = "while read -r line; do :; done", "printf 'm 0 1 2\\n'; while read -r line; do :; done"
    for name, lines in (("reads nothing", "exec sleep 1000"), ("tells nothing", silent), ("tells a part", part)):
        search = Client(program("silent", lines), timeout=0.3)
        wrong = wrong_ending(lambda: search.ask(command(b"text", bytes(100_000))), -signal.SIGKILL, "within 0.3 s")
        test(f"a child that {name} is stopped at its timeout", wrong)


def wrong_sessions(seed):
    """Answers by the client that differ from a run over all commands."""
    chance, search, sent, told = random.Random(seed), Client(PROGRAM), [], []
    for _ in range(300):
        position = b"%d %d" % (chance.randint(0, 3), chance.randint(0, 3))
        payload = "".join(chance.choice("ab\r\n🐸.*(") for _ in range(chance.randint(0, 4))).encode()
        words = chance.choice([b"text", b"pattern", b"replace", b"edit %b %b" % (position, position)])
        plain = [b"list", b"undo", b"redo", b"print", b"off", b"fork", b"use 0", b"use 1", b"next %b" % position]
        sent.append(chance.choice([command(words, payload), chance.choice(plain) + b"\n"]))
        told.append(search.ask(sent[-1]))
    status = search.close()
    ended = run(b"".join(sent))
    return [] if (b"".join(told), status) == (ended.out, ended.status) else [f"seed {seed}: {told}"]


def test_all():
    test_replies()
    test_commands()
    test_endings()
    wrong = [wrong for seed in range(5) for wrong in wrong_sessions(seed)]
    test("sessions at random are answered as by one run", wrong)
