"""Texts that arrive in parts: each sequence of some bytes, split in every way, is answered as the whole at once; until the
end, the text and its report are those before."""
import itertools

from library import rope_search

# Characters, and bytes of which some begin one, go on with one, or are none.
BYTES = [b"a", b"\n", b"\xc3", b"\xa9", b"\xe0", b"\xf0", b"\x9f", b"\x90", b"\xff"]
LONGER = ["a frog 🐸\r\n".encode() * 300, b"\xc3\xa9" * 2_000, b"a" * 983 + "🐸".encode() + b"b" * 983 + b"\r\n" * 500]
LIMIT, BEFORE = 3, "an a"


def status_of(call, *arguments):
    """What a call raises, or None."""
    try:
        call(*arguments)
    except rope_search.Fault as fault:
        return type(fault)
    return None


def splits(data):
    """The bytes as each list of parts that are not empty, and with an empty one first."""
    for cuts in range(1 << max(0, len(data) - 1)):
        places = [0, *(at + 1 for at in range(len(data) - 1) if cuts >> at & 1), len(data)]
        yield [data[start:stop] for start, stop in zip(places, places[1:])]
    yield [b"", data]


def of_parts(session, parts):
    """What the parts raise, each, and then the end."""
    session.begin_text()
    return [status_of(session.append_part, part) for part in parts], status_of(session.end_text)


def session_of(limit):
    session = rope_search.Session(limit)
    session.set_pattern("a")
    return session


def wrong_splits():
    """All short sequences of bytes, under a small limit."""
    wrong = []
    with session_of(LIMIT) as whole, session_of(LIMIT) as parted:
        for length in range(5):
            for data in map(b"".join, itertools.product(BYTES, repeat=length)):
                due = status_of(whole.set_text, data), whole.text, whole.matches()
                for parts in splits(data):
                    told, end = of_parts(parted, parts)
                    # As soon as it is known, and never if the end succeeds.
                    known = [status for status in told if status]
                    if (end, parted.text, parted.matches()) != due or (end is None and known) or len(set(known)) > 1:
                        wrong.append(f"{parts} raise {told}, and the end {end}, not {due[0]}")
    return wrong


def wrong_long():
    """Longer texts in parts of some lengths."""
    wrong = []
    with session_of(1 << 20) as whole, session_of(1 << 20) as parted:
        for data in LONGER:
            whole.set_text(data)
            for size in (1, 2, 3, 7, 983, 984, 985, 4_096):
                parts = [data[at : at + size] for at in range(0, len(data), size)]
                told, end = of_parts(parted, parts)
                if any(told) or end or parted.text_bytes() != data or parted.matches() != whole.matches():
                    wrong.append(f"{len(data)} bytes in parts of {size}: {end}")
    return wrong


def wrong_until_the_end():
    """Other calls see the text before, also after a part is refused, and none drops what arrived but open and close."""
    wrong, nothing = [], rope_search.Nothing
    with session_of(20) as session:
        if [status_of(call) for call in (lambda: session.append_part("a"), session.end_text, session.cancel_text)] != [nothing, nothing, None]:
            wrong.append("a text arrives that was not begun")
        session.set_text(BEFORE)
        session.begin_text()
        session.append_part("é🐸".encode()[:3])
        session.edit((0, 0), (0, 0), "- ")
        session.undo()
        session.choose(session.fork())
        if (session.text, session.undo_steps, session.redo_steps) != (BEFORE, 0, 0):
            wrong.append(f"{session.text!r} is the text before the end")
        session.append_part("é🐸".encode()[3:])
        session.end_text()
        texts = []
        for number in (1, 0):
            session.choose(number)
            texts.append(session.text)
        if texts != ["é🐸", BEFORE] or status_of(session.end_text) is not nothing:
            wrong.append(f"{texts} are the texts after the end")
        for part, due in (("a" * 21, rope_search.Size), (b"\xff", rope_search.Utf8), (b"\xe0", None)):
            session.begin_text()
            if status_of(session.append_part, part) is not due or session.text != BEFORE or len(session.matches()) != 2:
                wrong.append(f"after {part}: {session.text!r}")
            if status_of(session.end_text) is not (due or rope_search.Utf8) or session.text != BEFORE:
                wrong.append(f"after {part} and the end: {session.text!r}")
        session.begin_text()
        session.append_part("dropped")
        session.begin_text()
        session.append_part("kept")
        session.end_text()
        session.begin_text()
        session.append_part("canceled")
        session.cancel_text()
        if session.text != "kept" or status_of(session.end_text) is not nothing:
            wrong.append(f"{session.text!r} is left")
    return wrong
