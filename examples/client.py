"""The program bin/rope-search as a child process: a client, to be copied.

    with Client() as search:
        search.ask(command(b"text", b"a frog"))             # b"ok\\n"
        search.ask(command(b"edit 0 2 0 6", b"toad"))       # b"ok\\n"
        search.ask(b"print\\n")                              # b"text 6\\na toad\\n"

A refusal is a reply, `error` and a word. If the child has ended, or does not reply completely in time, `Ended` is raised.
"""
import io
import os
import select
import subprocess
import time

PROGRAM = os.path.join(os.path.dirname(os.path.dirname(os.path.abspath(__file__))), "bin", "rope-search")
PAYLOADS = (b"text", b"edit", b"pattern", b"replace")  # the words of commands that have one


class Ended(Exception):
    """The program has ended, with this exit status, or minus the number of the signal that ended it. `reply` is what
    came of the reply that was due."""

    def __init__(self, why, status, reply=b""):
        super().__init__(f"{why} (status {status})")
        self.status, self.reply = status, reply


def command(words, payload):
    """A command with a payload, whose length is its last number."""
    return b"%b %d\n%b" % (words, len(payload), payload)


def check(sent):
    """Raises ValueError unless this is one command, whole: the program would wait for the rest of any other."""
    end = sent.find(b"\n")
    if end < 0:
        raise ValueError(f"a command's line ends in LF: {sent[:100]!r}")
    word, *numbers = sent[:end].split(b" ")
    due, given = int(numbers[-1]) if numbers and word in PAYLOADS else 0, len(sent) - end - 1
    if due != given:
        raise ValueError(f"{sent[:end][:100]!r} has a payload of {due} bytes, and {given} follow it")


def read_reply(replies):
    """The next reply of a file of replies, whole. Raises EOFError, with what there was, where the file ends before."""
    line = replies.readline()
    parts = [line]
    while line.startswith(b"m ") and line.count(b" ") == 3:  # of list, which ends with a line 'ok' and a number
        line = replies.readline()
        parts.append(line)
    is_whole = line.endswith(b"\n")
    if is_whole and line.startswith(b"text "):  # of print: the text's bytes, and LF
        length = int(line[5:]) + 1
        parts.append(replies.read(length))
        is_whole = len(parts[-1]) == length
    if not is_whole:
        raise EOFError(b"".join(parts))
    return b"".join(parts)


class Pipe(io.RawIOBase):
    """An end of a pipe that is waited for until the moment `deadline`, and then raises TimeoutError."""

    def __init__(self, file, event):
        super().__init__()
        self.number, self.deadline, self.poll = file.fileno(), 0.0, select.poll()
        self.poll.register(file, event)
        os.set_blocking(self.number, False)

    def wait(self):
        if not self.poll.poll(max(0.0, self.deadline - time.monotonic()) * 1000):
            raise TimeoutError

    def readable(self):
        return True

    def readinto(self, room):
        self.wait()
        data = os.read(self.number, len(room))
        room[: len(data)] = data
        return len(data)

    def send(self, data):
        data = memoryview(data)
        while data:
            self.wait()
            data = data[os.write(self.number, data) :]


class Client:
    """A session, which ends as the client is closed. A reply that isn't there, whole, within `timeout` seconds ends it
    too, since a command can't be stopped otherwise."""

    def __init__(self, program=PROGRAM, timeout=60):
        pipes = {"stdin": subprocess.PIPE, "stdout": subprocess.PIPE, "stderr": subprocess.PIPE}
        self.child, self.timeout, self.message = subprocess.Popen([program], bufsize=0, **pipes), timeout, ""
        self.commands, self.source = Pipe(self.child.stdin, select.POLLOUT), Pipe(self.child.stdout, select.POLLIN)
        self.replies = io.BufferedReader(self.source, 1 << 16)

    def __enter__(self):
        return self

    def __exit__(self, *_):
        self.close()

    def ask(self, sent):
        """Gives the program one command, with its payload, and answers the whole reply. Raises Ended, and ValueError
        for what isn't one command, which isn't sent."""
        check(sent)
        if self.child.stdin.closed:
            raise Ended("the program has ended before", self.child.returncode)
        self.commands.deadline = self.source.deadline = time.monotonic() + self.timeout
        try:
            self.commands.send(sent)
            return read_reply(self.replies)
        except TimeoutError:
            self.child.kill()
            raise Ended(f"stopped: no whole reply within {self.timeout:g} s", self.close()) from None
        except (EOFError, BrokenPipeError) as error:
            status, reply = self.close(), error.args[0] if isinstance(error, EOFError) else b""
            raise Ended(self.message or "the program ended before the whole reply", status, reply) from None

    def close(self):
        """Ends the session, if the program hasn't ended by itself, and answers its exit status. What it wrote to
        standard error is its `message` then."""
        if not self.child.stdin.closed:
            self.child.stdin.close()
            try:
                self.child.wait(self.timeout)
            except subprocess.TimeoutExpired:
                self.child.kill()
                self.child.wait()
            os.set_blocking(self.child.stderr.fileno(), False)  # children of its own may keep it open
            self.message = (self.child.stderr.read() or b"").decode(errors="replace").strip()
            self.child.stdout.close()
            self.child.stderr.close()
        return self.child.returncode
