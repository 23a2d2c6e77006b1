"""Several edits as one by the library, compared with the model: the text and the report after them, the rows that they
replace, how many they may make, and that one undo reverts all."""
import random

from library import rope_search
from library_changes import lines_between, wrong_stretch
from protocol import is_utf8, lines_of, place_of, positions_of, rows_of
from test_edits import PATTERNS, some_text

LIMIT = 40
FAULTS = {"range": rope_search.Range, "utf8": rope_search.Utf8, "size": rope_search.Size}


def some_edits(chosen, text):
    """Edits of a text: mostly in order, some of them touching; sometimes out of order, overlapping, or not in the text."""
    spots = sorted(chosen.choices(positions_of(text), k=2 * chosen.choice((0, 1, 1, 2, 2, 3, 5))))
    parts = [(start, start if chosen.random() < 0.3 else stop) for start, stop in zip(spots[::2], spots[1::2])]
    roll = chosen.random()
    if roll < 0.08:
        chosen.shuffle(parts)
    elif roll < 0.14 and parts:
        parts[chosen.randrange(len(parts))] = tuple((chosen.randint(0, 4), chosen.randint(0, 5)) for _ in range(2))
    elif roll < 0.2 and parts:
        parts.append(parts[-1])
    return [(start, stop, some_payload(chosen)) for start, stop in parts]


def some_payload(chosen):
    roll = chosen.random()
    if roll < 0.02:
        return b"\xff"
    return (chosen.choice("\r\n") if roll < 0.3 else some_text(chosen, chosen.choice((0, 1, 2, 6)))).encode()


def places_in(text, edits):
    """The range of each edit, in characters; None if one isn't in the text, or starts before the end of the preceding one."""
    places, behind = [], 0
    for start, stop, _ in edits:
        first, last = place_of(text, *start), place_of(text, *stop)
        if first is None or last is None or last < first or first < behind:
            return None
        places.append((first, last))
        behind = last
    return places


def after(text, edits):
    """The text after edits, or why they are refused; and their extent in it, if there is any edit."""
    places = places_in(text, edits)
    if places is None:
        return None, "range", None
    if not all(is_utf8(payload) for _, _, payload in edits):
        return None, "utf8", None
    new, at = "", 0
    for (first, last), (_, _, payload) in zip(places, edits):
        new, at = new + text[at:first] + payload.decode(), last
    end = len(new)
    new += text[at:]
    if len(new.encode()) > LIMIT:
        return None, "size", None
    return new, None, (places[0][0], end) if places else None


def wrong_edit(session, text, pattern, edits):
    """What is wrong with some edits of a session with this text; and the text after them, None if they are refused."""
    new, fault, reach = after(text, edits)
    counted, told, got = session.counted, session.changed, None
    try:
        session.edit_all(edits)
    except rope_search.Fault as found:
        got = type(found)
    if got is not FAULTS.get(fault):
        return [f"it is answered {got}, not {fault}"], None
    if (got_text := session.text) != (due := text if fault else new):
        return [f"the text is {got_text!r}, not {due!r}"], None
    rows = rows_of(due, pattern) if pattern is not None else []
    wrong = [] if [(m.line, m.start, m.stop) for m in session.matches()] == spans_of(rows) else ["the report is another"]
    most = 0 if fault or pattern is None else sum(len(lines_of(payload.decode())) for _, _, payload in edits)
    if session.counted.rows > counted.rows + most or session.counted.wholes != counted.wholes:
        wrong.append(f"more is counted than {most} rows: {session.counted}, before {counted}")
    if fault:
        return wrong + ([] if session.changed == told else ["it tells other rows"]), None
    added = lines_between(new, *reach) if reach and pattern is not None else 0
    before = rows_of(text, pattern) if pattern is not None else []
    return wrong + list(wrong_stretch(before, rows, session.changed, added)), new


def spans_of(rows):
    return [(line, *match) for line, row in enumerate(rows) for match in row]


def wrong_with(seed):
    """What is wrong with random edits of a text, their undo and their redo."""
    chosen = random.Random(f"edits {seed}")
    text = some_text(chosen, 12)
    pattern = chosen.choice((None, *PATTERNS))
    with rope_search.Session(LIMIT) as session:
        session.set_text(text)
        if pattern is not None:
            session.set_pattern(pattern)
        texts = [text]
        for _ in range(8):
            edits = some_edits(chosen, texts[-1])
            wrong, new = wrong_edit(session, texts[-1], pattern, edits)
            if wrong:
                return [f"{edits} in {texts[-1]!r} under {pattern!r}: {one}" for one in wrong]
            if new is not None:
                texts.append(new)
        return wrong_ways(session, texts, pattern)


def wrong_ways(session, texts, pattern):
    for text in reversed(texts[:-1]):
        session.undo()
        if session.text != text:
            return [f"an undo leads to {session.text!r}, not {text!r}"]
    for text in texts[1:]:
        session.redo()
        rows = rows_of(text, pattern) if pattern is not None else []
        if session.text != text or [(m.line, m.start, m.stop) for m in session.matches()] != spans_of(rows):
            return [f"a redo leads to {session.text!r}, not {text!r}, or to another report"]
    return []


def wrong_many():
    """What is wrong with edits of a long text, one in each of some lines: with few it is edited, otherwise rebuilt."""
    lines = [f"line {number} of\tthe text 🐸" for number in range(4_000)]
    for count in (0, 1, 50, 70, 4_000):
        chosen, new = random.Random(f"many edits {count}"), list(lines)
        edits = [((line, 2), (line, chosen.randint(2, 8)), chosen.choice(("", "é", "x\ny"))) for line in sorted(chosen.sample(range(len(lines)), count))]
        for (line, first), (_, last), text in edits:
            new[line] = new[line][:first] + text + new[line][last:]
        with rope_search.Session() as session:
            session.set_text("\n".join(lines))
            session.set_pattern("of|x")
            session.edit_all(edits)
            if session.text != "\n".join(new) or len(session.text_changes) != count:
                yield f"{count} edits leave another text, or {len(session.text_changes)} ranges"
            if [(m.line, m.start, m.stop) for m in session.matches()] != spans_of(rows_of("\n".join(new), "of|x")):
                yield f"{count} edits leave another report"
            session.undo()
            if session.text != "\n".join(lines):
                yield f"an undo of {count} edits leaves another text"
