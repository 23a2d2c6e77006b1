"""Commands of the protocol executed by calls of the library that `make lib` builds, instead of a child process, with their
replies. `Calls` has the calls of `client.Client`.

    with Calls() as search:
        search.ask(command(b"text", b"a frog"))             # b"ok\\n"
"""
import os
import sys

from client import check

sys.path.insert(0, os.path.join(os.path.dirname(os.path.dirname(os.path.abspath(__file__))), "bindings", "python"))
import rope_search

WORDS = dict(zip(rope_search.FAULTS, (b"none", b"range", b"utf8", b"pattern", b"limit", b"size", b"memory", b"closed")))


def shown(match):
    """The reply for a match in a whole text."""
    return b"m %d %d %d %d\n" % (*match.start, *match.stop) if match else b"no match\n"


def listed(session):
    """The reply for a report: without a pattern it has no rows, and is refused."""
    if session.rows == 0:
        raise rope_search.Nothing()
    matches = session.matches()
    return b"".join(b"m %d %d %d\n" % match for match in matches) + b"ok %d\n" % len(matches)


def printed(session):
    text = session.text_bytes()
    return b"text %d\n%b\n" % (len(text), text)


# Each command as calls of a session, given the session, the numbers, and the payload.
CALLS = {
    "text": lambda session, numbers, payload: session.set_text(payload),
    "edit": lambda session, numbers, payload: session.edit(numbers[:2], numbers[2:4], payload),
    "undo": lambda session, numbers, payload: session.undo(),
    "redo": lambda session, numbers, payload: session.redo(),
    "print": lambda session, numbers, payload: printed(session),
    "pattern": lambda session, numbers, payload: session.set_pattern(payload),
    "off": lambda session, numbers, payload: session.off(),
    "list": lambda session, numbers, payload: listed(session),
    "next": lambda session, numbers, payload: shown(session.next(numbers)),
    "replace": lambda session, numbers, payload: b"ok %d\n" % session.replace(payload),
    "fork": lambda session, numbers, payload: b"ok %d\n" % session.fork(),
    "use": lambda session, numbers, payload: session.choose(numbers[0]),
}


def reply(session, word, numbers, payload):
    """The reply to a command, which the session executes."""
    try:
        return CALLS[word](session, numbers, payload) or b"ok\n"
    except rope_search.Fault as fault:
        return b"error %b\n" % WORDS[type(fault)]


class Calls:
    """A session, which ends when this is closed."""

    def __init__(self):
        self.session = rope_search.Session()

    def __enter__(self):
        return self

    def __exit__(self, *_):
        self.close()

    def ask(self, sent):
        """Executes one command, with its payload, and returns the whole reply. Raises ValueError for what isn't one
        command."""
        check(sent)
        line, _, payload = sent.partition(b"\n")
        word, *numbers = line.decode().split(" ")
        if word not in CALLS:
            raise ValueError(f"there is no command {word}")
        return reply(self.session, word, tuple(map(int, numbers)), payload)

    def close(self):
        """Ends the session, and returns 0, the status of a program that succeeds."""
        self.session.close()
        return 0
