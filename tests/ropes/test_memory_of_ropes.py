"""Calls of ropes with memory refused, on bin/rope-driver: ropes that are built, edited, copied and shrunk, with each
request refused in turn, alone and with all later ones; and that a rope is split at its ends without any request."""
from harness import differences, test
from memory import counted, library
from rope_model import hexed
from rope_rows import RopeRow, answers_to, leaves_row, short

PARTS = [
    [""],
    ["Here\r", "\nare\r\n", "", "words"],
    ["a" * 983, "\r", "\n" + "b" * 3000, "\r", "\n", "c"],
    ["é" * 491, "せ" * 500, "🐸" * 700 + "\r", "\n"],
    ["x" * 100] * 40,
]
NO_MEMORY = b"no memory\n"
ASKED = ["cut", "text"]
EDITS = {"try_byte_replace", "try_insert", "try_remove", "try_split_off", "try_replace", "build"}
KEPT = ["swap", *ASKED, "swap"]  # reads the clone that is kept, which no edit changes


def runs_of(line):
    return lambda environment: answers_to(line + "\n", environment)


def refusals(runs, count):
    """The runs in which a request is refused alone, or with all after it."""
    for number in range(1, count + 1):
        for name in ("at", "from"):
            ended = counted(runs, **{name: number})[0]
            # If the program lacks memory for its input, it writes nothing.
            if ended.status != 1 or ended.out:
                yield f"{name} request {number}", name, ended


def wrong_refusals(row, count, needed, free):
    """What is wrong with a rope with memory refused: a call that reports it leaves its rope unchanged, some request is
    refused in each of the calls that need memory, and none in those that don't, once the program has room for what it
    keeps."""
    seen = set()
    for place, name, ended in refusals(runs_of(row.line()), count):
        row.refusals = set()
        wrong = list(row.wrong(ended.out.decode()[:-1])) if ended.out != NO_MEMORY else []
        if name == "at" and len(row.refusals) > 1:
            wrong.append(f"more than one call was refused: {row.refusals}")
        if "clone" not in row.refusals:
            wrong += [f"{word} was refused" for word in row.refusals & free]
        seen |= row.refusals
        for line in wrong + differences(ended, ended.out, 0):
            yield f"{place}: {line}"
    for word in set(needed) - seen:
        yield f"no refusal came to {word}"


def check_row(name, row, needed, free=frozenset()):
    ended, count, _ = counted(runs_of(row.line()))
    row.may_refuse = False
    test(f"{name}, nothing refused", [*row.wrong(ended.out.decode()[:-1]), *differences(ended, ended.out, 0)])
    row.may_refuse = True
    wrong = wrong_refusals(row, count, needed, free)
    test(f"{name}, with each of its {count} requests refused, alone and with all that follow", wrong)


def check_copy(pieces):
    """A slice after the first character, whose text is copied."""
    rest = "".join(pieces)[1:]
    line, due = leaves_row(pieces, ["to_text", "display"], [hexed(rest)] * 2, [f"slice,1,{len(rest) + 1}"])
    whole = due.encode() + b"\n"
    ended, count, _ = counted(runs_of(line))
    name = f"the text of a slice of {short(''.join(pieces), 30)!r}"
    test(f"{name}, nothing refused", differences(ended, whole, 0))

    def wrong():
        outs = set()
        for place, _, ended in refusals(runs_of(line), count):
            outs.add(ended.out)
            for found in differences(ended, ended.out if ended.out == NO_MEMORY else whole, 0):
                yield f"{place}: {found}"
        if NO_MEMORY not in outs:
            yield "no refusal came to it"

    test(f"{name}, with each of its {count} requests refused, alone and with all that follow", wrong())


def edits_of(text):
    half, third = len(text) // 2, (len(text) + 3 - (len(text) // 2 - len(text) // 4)) // 3
    first, last = (len(text[:at].encode()) for at in (half // 2, half // 2 + 1))
    asks = ["clone", ("try_byte_replace", first, last, "é"), *KEPT]
    asks += [("try_insert", half, "\né\r"), *KEPT, f"try_remove,{half // 2},{half}", *KEPT]
    asks += [f"try_split_off,{third}", *KEPT, "append", *ASKED, ("insert_char", 0, "é"), "clone", *ASKED]
    asks += [("try_replace", third, half, "é" * 400), *KEPT, *ASKED]
    return asks + [f"build,{half // 2},{third}", *KEPT, *ASKED]


def parted_at_ends(text):
    """A rope is split at its start, which splits off all of it, and at its end."""
    return ["clone", "try_split_off,0", *KEPT, "swap", *ASKED, f"try_split_off,{len(text)}", *KEPT, *ASKED]


def joined(text):
    """A clone of a rope is split and joined again, more of it each time, until joining requests memory."""
    asks = ["clone"]
    for part in (2, 3, 5, 7):
        asks += [f"try_split_off,{len(text) // part}", "append", *ASKED]
    return [*asks, "swap", *ASKED]


def test_all():
    if library() is None:
        return
    for parts in PARTS:
        text, some = "".join(parts), {"builder"} if "".join(parts) else set()
        name = f"{len(parts)} parts, {short('|'.join(parts), 30)!r}"
        longer = {"append_part"} if len(text.encode()) > 1968 else set()
        check_row(f"a builder of {name}", RopeRow("builder", parts, ASKED), some | longer)
        check_row(f"a builder of slices of {name}", RopeRow("slices", parts, ASKED), {"slices", "append_part"} if text else set())
        check_row(f"a rope of {name}", RopeRow("from_chunks", parts, ASKED), {"from_chunks"} if text else set())
    for parts in PARTS[1:]:
        text, name = "".join(parts), f"{short('|'.join(parts), 30)!r}"
        check_row(f"edits of {name}", RopeRow("from_chunks", parts, edits_of(text)), EDITS)
        check_row(f"ends of {name}", RopeRow("from_chunks", parts, parted_at_ends(text)), set(), {"try_split_off"})
        joins = {"append"} if len(text.encode()) > 1968 else set()
        check_row(f"parts of {name} joined", RopeRow("from_chunks", parts, joined(text)), joins)
        check_row(f"a rope of a slice of {name}", RopeRow("from_chunks", parts, [f"slice,1,{len(text)}", *ASKED]), {"slice"})
        check_row(f"a rope that is shrunk, of {name}", RopeRow("from_chunks", parts, ["shrink_to_fit", *ASKED]), {"shrink_to_fit"})
        check_row(f"a rope that is read, of {name}", RopeRow("from_reader", [text], ASKED), {"from_reader"})
        check_row(f"a rope of a str, of {name}", RopeRow("from_str", [text], ASKED), {"from_str"})
        check_copy([part for part in (text[k : k + 230] for k in range(0, len(text), 230))])
