"""The library for C: its declarations; the worked inputs and random sessions by its calls, compared with the program's
replies; what its copies leave in a caller's array; calls of closed sessions; and programs in C, C++ and Lua, under
sanitizers and valgrind, on a measured stack, and with each request for memory refused in turn.
"""
import ctypes
import itertools
import os
import random
import re
import shutil
import subprocess
import sys

import library_parts
from harness import LIBRARY, LIBRARY_FOLDER, PROGRAM, ROOM, SECONDS, SONAME, TOP, VERSION, example_rows, short, test
from library import replies, reply, rope_search
from library_changes import wrong_changes
from library_edits import wrong_many, wrong_with
from library_escapes import wrong_matches, wrong_rooms, wrong_rows, wrong_singles
from library_groups import wrong_groups
from library_in_c import STRICT, test_stack, test_under_tools
from library_kept_rows import wrong_kept_rows
from library_lines import wrong_edits, wrong_long, wrong_numbers, wrong_small
from library_listed import wrong_listed
from library_pane import wrong_document
from library_pending import small_pending, wrong_pending
from library_replacing import wrong_listed_replacements, wrong_replacements
from library_text_changes import small_changes, small_joins, wrong_after_edits, wrong_text_changes
from library_text_matches import wrong_text_matches
from protocol import Session, lines_of, place_of, position_at, positions_of, read_commands, spelled, units
from random_patterns import Maker
from test_edits import BACK_AND_FORWARD, OF_ALL_KINDS, SESSIONS, SESSIONS_IN_RUN, some_sessions
from test_explanations import MORE_EXPLAINED
from test_pattern_model import mangled
from test_replies import MORE_EXAMPLES, examples_of_page

HEADER = os.path.join(TOP, "include", "rope_search.h")
EDITED, ESCAPED, GROUPED, LISTED, MANGLED = 4_000, 2_000, 1_000, 2_000, 2_000
# The name of a parameter of C, behind its type.
# The name of a parameter of C, after its type.
PARAMETER = re.compile(r"\s*\b(?!const\b|size_t\b|bool\b|void\b|u?int\d+_t\b|rope_search\w*\b)\w+$")
# The paths under which programs find the modules of the bindings, and these the library.
PATHS = {
    "PYTHONPATH": os.path.join(TOP, "bindings", "python"),
    "LUA_PATH": os.path.join(TOP, "bindings", "lua", "?.lua"),
    "ROPE_SEARCH_LIBRARY": LIBRARY,
}


# Neovim, which runs the Lua file that follows these arguments; its status says whether that failed.
NEOVIM = ["nvim", "--clean", "--headless", "-n", "-c", "lua local done, why = pcall(dofile, vim.v.argv[#vim.v.argv]) "
          "if not done then io.stdout:write(why, '\\n') vim.cmd('cquit 1') end", "-c", "qall!", "--"]


# Neovim prints what Lua prints as messages.
PRINTING = """print = function(...)
  local all = { ... }
  for i = 1, select("#", ...) do
    all[i] = tostring(all[i])
  end
  io.stdout:write(table.concat(all, "\\t"), "\\n")
end
"""


def declared(text):
    """The declarations of calls in C: each call's name, and its types, without names of parameters."""
    text = re.sub(r"/\*.*?\*/|#[^\n]*", "", text, flags=re.S)
    calls = {}
    for result, name, parameters in re.findall(r"(\w+) (rope_search_\w+)\(([^)]*)\);", text):
        parameters = [] if parameters == "void" else parameters.split(",")
        kinds = [PARAMETER.sub("", " ".join(one.split())) for one in parameters]
        calls[name] = (result, *(kind.replace("* ", "*").strip() for kind in kinds))
    return calls


def structures(text):
    """The structures that C declares, each with its fields."""
    text = re.sub(r"/\*.*?\*/", "", text, flags=re.S)
    return {name: " ".join(fields.split()) for fields, name in re.findall(r"typedef struct \{([^}]*)\} (\w+);", text)}


def exported():
    """The names that the shared library exports."""
    shown = subprocess.run(["nm", "-D", "--defined-only", LIBRARY], stdout=subprocess.PIPE, text=True, check=True)
    return {line.split()[-1] for line in shown.stdout.splitlines() if line}


def differing(what, one, other):
    names = sorted(name for name in {*one, *other} if one.get(name) != other.get(name))
    return [f"{what}: {name}: {one.get(name)}, not {other.get(name)}" for name in names]


def read(*names):
    with open(os.path.join(TOP, *names), encoding="utf-8") as file:
        return file.read()


def wrong_version():
    """The header, the library and its modules must have the version of the repository, and the shared library a name
    with its first two numbers, under which it is found."""
    first, second, third = map(int, VERSION.split("."))
    number = 1_000_000 * first + 1_000 * second + third
    defined = re.search(r"#define ROPE_SEARCH_VERSION (\d+) /\* ([0-9.]+) \*/", read("include", "rope_search.h"))
    told = {
        "the header": int(defined[1]) if defined[2] == VERSION else defined[2],
        "the library": rope_search.library().rope_search_version(),
        "bindings/python": rope_search.VERSION,
        "bindings/lua": int(re.search(r"M\.version = (\d+)", read("bindings", "lua", "rope_search.lua"))[1]),
    }
    wrong = [f"{name} has the version {other}" for name, other in told.items() if other != number]
    if shutil.which("readelf"):
        shown = subprocess.run(["readelf", "-d", LIBRARY], stdout=subprocess.PIPE, text=True, check=True).stdout
        wrong += [] if f"[{SONAME}]" in shown else [f"the shared library isn't named {SONAME}"]
    return wrong + ([] if os.path.exists(os.path.join(LIBRARY_FOLDER, SONAME)) else [f"there is no {SONAME}"])


def test_declarations():
    header, lua = read("include", "rope_search.h"), read("bindings", "lua", "rope_search.lua")
    calls, in_lua = declared(header), declared(lua)
    names = {name: None for name in exported()}
    wrong = differing("shown", names, dict.fromkeys(calls))
    test("the shared library exports the calls of its header, and nothing else", wrong)
    wrong = differing("calls", in_lua, calls) + differing("structures", structures(lua), structures(header))
    test("bindings/lua declares what the header does", wrong)
    counts = {f"rope_search_{name}": len(kinds) - 1 for name, kinds in rope_search._CALLS.items()}
    wrong = differing("parameters", counts, {name: len(kinds) - 1 for name, kinds in calls.items()})
    test("bindings/python declares what the header does", wrong)
    test("the header, the library and its modules have the version of the repository", wrong_version())


def reasons_declared(header, lua):
    """The reasons for which a text is no pattern, in their order, as C and as Lua declare them."""
    block = re.search(r"/\* Why bytes are no pattern\. \*/\nenum \{(.*?)\};", header, flags=re.S)[1]
    numbered = re.findall(r"= (\d+),?\s+/\* (.*?) \*/", block)
    numbers = [int(number) for number, _ in numbered]
    in_lua = re.findall(r'"(.*?)"', re.search(r"M\.reasons = \{(.*?)\n\}", lua, flags=re.S)[1])
    return numbers, [reason for _, reason in numbered[1:]], in_lua


def wrong_explanations():
    """What is wrong with where and why texts are no patterns: for the rows of the page, for some more, and for mangled
    patterns, for which `set_pattern` must be refused exactly if there is a reason."""
    long, deep = "a" * 65_537, "(" * 251 + "a" + ")" * 251
    rows = [(long, None), ("a{65535}{65535}", None), ("(a)", None), ("", None), (deep, (251, rope_search.REASONS[0]))]
    rows += [("é(" + "a" * 60_000, (60_003, rope_search.REASONS[1])), (b"\xff(", rope_search.Utf8)]
    page = example_rows("patterns.md", r"\| `(.+)` \| ([0-9]+) \| (.+) \|", "Where and why")
    rows += [(row[1].replace("\\|", "|"), (int(row[2]), row[3])) for row in page]
    rows += [(text, (place, reason)) for reason, texts in MORE_EXPLAINED.items() for text, place in texts]
    for text, due in rows:
        if (told := answered(rope_search.pattern_error, text)) != due:
            yield f"{text[:40]!r} is told {told}, not {due}"
    chance = random.Random(3)
    maker = Maker(chance, most_nodes=20)
    with rope_search.Session() as session:
        for text in (mangled(chance, maker) for _ in range(MANGLED)):
            told, refused = rope_search.pattern_error(text), raised(lambda: session.set_pattern(text))
            if (told is not None) != (refused is rope_search.Pattern):
                yield f"{text!r} is told {told}, and is answered {refused}"


def test_explanations():
    header, lua = read("include", "rope_search.h"), read("bindings", "lua", "rope_search.lua")
    numbers, reasons, in_lua = reasons_declared(header, lua)
    same = numbers == list(range(len(numbers))) and reasons == in_lua == list(rope_search.REASONS)
    test("the header and the bindings have the same reasons", [] if same else [f"{reasons}, in Lua {in_lua}"])
    test("where and why texts are no patterns", wrong_explanations())


def test_parts():
    test("texts that arrive in parts, split in every way", library_parts.wrong_splits())
    test("longer texts that arrive in parts", library_parts.wrong_long())
    test("what other calls see while a text arrives", library_parts.wrong_until_the_end())


def test_escapes():
    test("texts escaped for patterns", wrong_rows())
    test("what escaped texts leave in a caller's array", wrong_rooms())
    test("matches of escaped characters", wrong_singles())
    test("matches of escaped texts", [one for seed in range(ESCAPED) for one in wrong_matches(seed)])


def wrong_replies(commands, expected):
    told = replies(commands)
    for place, (got, due) in enumerate(zip(told, expected)):
        if got != due:
            yield f"command {place}, {commands[place][:2]}, is answered {short(got)}, not {short(due)}"
            return


def test_worked():
    wrong = []
    for data, out, _ in [*examples_of_page(), *MORE_EXAMPLES]:
        commands, _ = read_commands(data)
        told = b"".join(replies(commands))
        closing = {b"error command\n", b"error end\n", b""}
        if not out.startswith(told) or out[len(told):] not in closing:
            wrong.append(f"{short(data)} is answered {short(told)}, not {short(out)}")
    test("the worked inputs, by calls, compared with the program's replies", wrong)


def test_sessions():
    for kind, weights in (("of all kinds", OF_ALL_KINDS), ("back and forward", BACK_AND_FORWARD)):
        wrong = []
        for seed in range(SESSIONS // SESSIONS_IN_RUN // 2):
            writer = some_sessions(("library", kind, seed).__repr__(), SESSIONS_IN_RUN, weights)
            wrong += wrong_replies(writer.commands, writer.replies)
        test(f"{SESSIONS // 2} sessions at random {kind}, by calls, beside the model", wrong)


def filled(kind, count):
    """An array whose bytes are all 0xA5."""
    made = (kind * count)()
    ctypes.memset(made, 0xA5, ctypes.sizeof(made))
    return made


def wrong_copies(session, calls, handle, chosen):
    """What is wrong with copies of a session's matches and text: for each request, the first elements of the array are the
    result, as many as fit, and the others are not changed."""
    spans, text = session.matches(), session.text_bytes()
    rows, most = session.rows, (1 << 64) - 1
    for _ in range(60):
        first, last = (chosen.choice((0, 1, rows, chosen.randint(0, rows + 2), most)) for _ in range(2))
        due = [span for span in spans if first <= span.line < last]
        room = chosen.choice((0, 1, len(due), max(0, len(due) - 1), len(due) + 2))
        out, before = filled(rope_search._Span, room + 1), bytes(filled(rope_search._Span, room + 1))
        count = calls.rope_search_copy_matches(handle, first, last, out, room)
        if count != len(due) or calls.rope_search_count_matches(handle, first, last) != len(due):
            yield f"rows {first} to {last} have {count} matches, not {len(due)}"
        got = [(span.line, span.start, span.stop) for span in out[:min(count, room)]]
        kept = 24 * min(len(due), room)
        if got != [tuple(span) for span in due[:room]] or bytes(out)[kept:] != before[kept:]:
            yield f"of rows {first} to {last}, {room} of {len(due)} were copied wrong"
        start, stop = (chosen.choice((0, len(text), chosen.randint(0, len(text) + 2))) for _ in range(2))
        fits, room = max(0, stop - start), max(0, stop - start) + chosen.randint(-1, 1)
        room = max(0, room)
        cut = any(text[place : place + 1] and text[place] & 0xC0 == 0x80 for place in (start, stop))
        whole = start <= stop <= len(text) and not cut
        out = ctypes.create_string_buffer(b"\xa5" * (room + 1), room + 1)
        done = calls.rope_search_copy_text(handle, start, stop, out, room)
        due = whole and fits <= room
        if done != due or out.raw != (text[start:stop] if due else b"") + b"\xa5" * (room + 1 - (fits if due else 0)):
            yield f"bytes {start} to {stop} of {len(text)} were copied wrong into {room}"


def test_copies():
    wrong, chosen = [], random.Random(1)
    texts = ("", "a", "aé🐸a\na\r\n\naa🐸\r", "ab\n" * 400, "é" * 3_000 + "\n" + "a" * 900)
    for text in texts:
        for pattern in (None, "a", "x*", "é|\\n"):
            with rope_search.Session() as session:
                session.set_text(text)
                if pattern is not None:
                    session.set_pattern(pattern)
                wrong += wrong_copies(session, rope_search.library(), session._handle, chosen)
    test("what copies leave in a caller's array", wrong)


def wrong_places(session, text):
    """What is wrong with the bytes of a text's positions, and with the positions of its bytes."""
    places = {position: len(text[:place_of(text, *position)].encode()) for position in positions_of(text)}
    for position in itertools.product(range(len(lines_of(text)) + 2), range(units(text) + 2)):
        if (told := answered(session.byte_of, position)) != places.get(position, rope_search.Range):
            yield f"the byte of {position} in {text!r} is {told}"
    begins = {len(text[:place].encode()): tuple(position_at(text, place)) for place in range(len(text) + 1)}
    for byte in range(len(text.encode()) + 3):
        if (told := answered(session.position_of, byte)) != begins.get(byte, rope_search.Range):
            yield f"the position of byte {byte} in {text!r} is {told}"


def wrong_columns(session, text):
    """What is wrong with columns in bytes and in characters, and with the positions of these."""
    lines, most = lines_of(text), len(text.encode()) + 2
    for encoding, count in (("utf-8", lambda part: len(part.encode())), ("utf-16", units), ("utf-32", len)):
        known = {position: count(text[lines[position[0]][0] : place_of(text, *position)]) for position in positions_of(text)}
        back = {(line, known[line, column]): (line, column) for line, column in known}
        for spot in itertools.product(range(len(lines) + 2), (*range(most), (1 << 64) - 1)):
            if (told := answered(session.column_in, encoding, spot)) != known.get(spot, rope_search.Range):
                yield f"the column of {spot} in {text!r} by {encoding} is {told}"
            if (told := answered(session.position_in, encoding, *spot)) != back.get(spot, rope_search.Range):
                yield f"the position of {spot} in {text!r} by {encoding} is {told}"


def test_places():
    wrong = []
    for text in ("", "a", "aé🐸b\r\nx\ry\n", "\r\n", "\n\r", "🐸\n" * 3, "\u2028a\v"):
        with rope_search.Session() as session:
            session.set_text(text)
            wrong += wrong_places(session, text)
            wrong += wrong_columns(session, text)
    test("the bytes of positions and the positions of bytes, also by columns in bytes and in characters", wrong)


def test_histories():
    """Random sessions in which the history is sometimes dropped: whether there is something to undo and to redo."""
    wrong, chosen = [], random.Random(2)
    commands = some_sessions("histories", SESSIONS_IN_RUN, BACK_AND_FORWARD).commands
    model = Session()
    with rope_search.Session() as session:
        for place, command in enumerate(commands):
            if chosen.random() < 0.1:
                session.forget()
                model.buffer.texts, model.buffer.at = [model.buffer.text], 0
            if (got := reply(session, command)) != (due := model.reply(command)):
                wrong.append(f"command {place}, {command[:2]}, is answered {short(got)}, not {short(due)}")
                break
            buffer = model.buffer
            due = (len(model.buffers), model.chosen, buffer.at > 0, buffer.at + 1 < len(buffer.texts))
            if (session.buffers, session.chosen, session.can_undo, session.can_redo) != due:
                wrong.append(f"after command {place}: not {due}")
                break
    test("histories that are dropped, and what is there to undo and to redo", wrong)


def test_changes():
    """Random sessions: the rows that each command replaced."""
    for kind, weights in (("of all kinds", OF_ALL_KINDS), ("back and forward", BACK_AND_FORWARD)):
        wrong = []
        for seed in range(SESSIONS // SESSIONS_IN_RUN // 4):
            with rope_search.Session() as session:
                wrong += wrong_changes(session, some_sessions(("changes", kind, seed).__repr__(), SESSIONS_IN_RUN, weights).commands)
        test(f"which rows commands replace, {SESSIONS // 4} sessions at random {kind}", wrong)


def test_text_changes():
    """Random sessions: the ranges of the text that each command replaced."""
    for kind, weights in (("of all kinds", OF_ALL_KINDS), ("back and forward", BACK_AND_FORWARD)):
        wrong = []
        for seed in range(SESSIONS // SESSIONS_IN_RUN // 4):
            name = ("text changes", kind, seed).__repr__()
            with rope_search.Session() as session:
                commands = some_sessions(name, SESSIONS_IN_RUN, weights).commands
                wrong += wrong_text_changes(session, commands, random.Random(name))
        test(f"which ranges of texts commands replace, {SESSIONS // 4} sessions at random {kind}", wrong)
    wrong = [one for seed in range(EDITED) for one in wrong_after_edits(seed)]
    test(f"which ranges several edits as one replace, of {EDITED} texts at random", wrong)
    for length in range(5):
        test(f"which ranges edits replace, of all texts of {length} characters over CR, LF and a", small_changes(length))
    for length in range(3):
        test(f"two edits made one step, of all texts of {length} characters over CR, LF and a", small_joins(length))


def test_edits():
    for front in range(0, EDITED, EDITED // 4):
        wrong = [one for seed in range(front, front + EDITED // 4) for one in wrong_with(seed)]
        test(f"several edits as one, {EDITED // 4} texts at random from {front} on, beside the model", wrong)
    test("few edits and many of a long text as one", list(wrong_many()))


def test_groups():
    wrong = [one for seed in range(GROUPED) for one in wrong_groups(seed)]
    test(f"the groups of each match, in {GROUPED} texts at random, beside the model", wrong)


def test_lines():
    test("lines, clamped positions and matches by each unit, of all texts of three characters", wrong_small())
    test("the same if lines span several chunks", wrong_long())
    test(f"edits by bytes, {GROUPED} texts at random", [one for seed in range(GROUPED) for one in wrong_edits(seed)])
    test("bindings/python truncates no number", wrong_numbers())


def test_replacing():
    wrong = [one for seed in range(GROUPED) for one in wrong_replacements(seed)]
    test(f"single matches replaced, in {GROUPED} texts at random, beside the model", wrong)
    wrong = [one for seed in range(GROUPED) for one in wrong_listed_replacements(seed)]
    test(f"the matches of some lines replaced, in {GROUPED} texts at random, beside the model", wrong)
    wrong = [one for seed in range(GROUPED) for one in wrong_kept_rows(seed)]
    test(f"rows kept for an undo and a redo, in {GROUPED} sessions at random, beside the model", wrong)


def test_pending():
    """Random sessions in which a pending pattern is searched in slices between the commands."""
    for kind, weights in (("of all kinds", OF_ALL_KINDS), ("back and forward", BACK_AND_FORWARD)):
        wrong = []
        for seed in range(SESSIONS // SESSIONS_IN_RUN // 4):
            name = ("pending", kind, seed).__repr__()
            with rope_search.Session() as session:
                wrong += wrong_pending(session, some_sessions(name, SESSIONS_IN_RUN, weights).commands, random.Random(name))
        test(f"pending patterns, {SESSIONS // 4} sessions at random {kind}, beside the model", wrong)
    for length in range(5):
        test(f"pending rows after edits of all texts of {length} characters over CR, LF and a", small_pending(length))


def test_listed():
    wrong = [one for seed in range(LISTED) for one in wrong_listed(seed)]
    test(f"listed matches looked up, in {LISTED} texts at random, beside the model", wrong)
    wrong = [one for seed in range(LISTED) for one in wrong_text_matches(seed)]
    test(f"the first matches of whole texts, of {LISTED} texts at random, beside the model", wrong)


def answered(call, *arguments):
    """The result of a call, or why it is refused."""
    try:
        return call(*arguments)
    except rope_search.Fault as fault:
        return type(fault)


def raised(call):
    try:
        call()
    except rope_search.Fault as fault:
        return type(fault)
    return None


def test_closed():
    wrong, session = [], rope_search.Session()
    session.close()
    session.close()
    calls, handle, origin = rope_search.library(), session._handle, rope_search._Position(0, 0)
    refused = {
        "set_text": (b"a", 1), "edit": (origin, origin, b"a", 1),
        "edit_all": ((rope_search._TextEdit * 1)(), 1, b"", 0), "undo": (), "redo": (),
        "set_pattern": (b"a", 1), "off": (), "next": (origin, rope_search._Match(True)),
        "next_all": (origin, (rope_search._TextMatch * 1)(), 1, ctypes.c_size_t(7)),
        "replace": (b"a", 1, ctypes.c_size_t(7)), "fork": (ctypes.c_size_t(7),), "choose": (0,),
        "column_in": (8, origin, ctypes.c_size_t(7)), "position_in": (8, 0, 0, rope_search._Position()),
        "forget": (), "keep": (1,), "join": (1,), "byte_of": (origin, ctypes.c_size_t(7)), "position_of": (0, rope_search._Position()),
        "groups_at": (0, 0, (rope_search._Group * 10)(), 10), "edit_bytes": (0, 0, b"a", 1),
        "replace_match": (0, 0, b"a", 1), "replace_listed": (0, 9, b"a", 1, ctypes.c_size_t(7)),
        "begin_text": (), "append_part": (b"a", 1), "end_text": (), "cancel_text": (),
        "begin_pattern": (b"a", 1), "advance": (1, ctypes.c_bool(True)), "cancel": (),
        "window": (0, 9, (rope_search._Span * 1)(), 1, ctypes.c_size_t(7)), "count_pending": (0, 9, ctypes.c_size_t(7)),
        "copy_pending": (0, 9, (rope_search._Span * 1)(), 1, ctypes.c_size_t(7)),
        "clamp": (8, 0, 0, rope_search._Position(7, 7)), "line_len": (0, 8, ctypes.c_size_t(7)),
    }
    read_only = {
        "buffers": (), "chosen": (), "can_undo": (), "can_redo": (), "text_len": (), "text_lines": (), "rows": (),
        "count_matches": (0, 9), "copy_text": (0, 0, ctypes.create_string_buffer(4), 4),
        "copy_matches": (0, 9, (rope_search._Span * 1)(), 1), "undo_steps": (), "redo_steps": (),
        "text_changes": ((rope_search._TextChange * 1)(), 1),
        "copy_matches_in": (8, 0, 9, (rope_search._Span * 1)(), 1),
        "copy_line": (0, ctypes.create_string_buffer(4), 4),
        "listed_from": (origin, rope_search._Listed(7)),
        "listed_before": (origin, rope_search._Listed(7)), "list_index": (0, 0, ctypes.c_size_t(7), ctypes.c_size_t(7)),
        "pending": (ctypes.c_size_t(7),),
    }
    # Three calls need no session.
    named = {"version", "open", "close", "counted", "changed", "pattern_error", "escape", *refused, *read_only}
    wrong += [f"no test calls {name}" for name in sorted(set(rope_search._CALLS) - named)]
    for name, arguments in refused.items():
        if (status := getattr(calls, "rope_search_" + name)(handle, *arguments)) != 8:
            wrong.append(f"{name} answers {status}")
    for name, arguments in read_only.items():
        if answer := getattr(calls, "rope_search_" + name)(handle, *arguments):
            wrong.append(f"{name} answers {answer}")
    stretch = calls.rope_search_changed(handle)
    if (stretch.first, stretch.removed, stretch.added) != (0, 0, 0):
        wrong.append("some rows of a closed session are told as changed")
    counts = calls.rope_search_counted(handle)
    if (counts.rows, counts.wholes, handle.is_open) != (0, 0, False):
        wrong.append("counted, or the handle, is something")
    kept = [refused[name][-1].value for name in ("replace", "replace_listed", "fork", "byte_of", "column_in", "line_len", "window", "count_pending", "copy_pending", "next_all")]
    kept.append(refused["clamp"][-1].line)
    kept += [read_only[name][1].line for name in ("listed_from", "listed_before")]
    kept += [count.value for count in (*read_only["list_index"][2:], *read_only["pending"])]
    if kept != [7] * 16 or not refused["next"][1].found or not refused["advance"][1].value:
        wrong.append(f"a call of a closed session writes: {kept}, {refused['next'][1].found}")
    if any(group.found for group in refused["groups_at"][2]):
        wrong.append("groups of a closed session are told")
    if raised(lambda: session.matches()) is not rope_search.Closed:
        wrong.append("matches of a closed session are told")
    test("each call of a closed session", wrong)


def test_opening():
    wrong = []
    limits = {0: None, 4: None, (1 << 63) - 1: None, 1 << 63: rope_search.Size, (1 << 64) - 1: rope_search.Size}
    for limit, due in limits.items():
        if (got := raised(lambda: rope_search.Session(limit).close())) is not due:
            wrong.append(f"a limit of {limit} is answered {got}")
    with rope_search.Session(4) as session:
        if raised(lambda: session.set_text("abcde")) is not rope_search.Size or session.text != "":
            wrong.append("a text above the limit is taken")
        session.set_text("abcd")
        calls = rope_search.library()
        if calls.rope_search_open(1 << 63, session._handle) != 6 or session.text != "abcd":
            wrong.append("a refused opening ends what was open")
        session.set_pattern("a")
        if calls.rope_search_open(1 << 20, session._handle) != 0 or session.text != "" or session.rows != 0:
            wrong.append("an opening keeps what was open")
        if session.counted != (0, 0):
            wrong.append(f"it counts from {session.counted}")
    test("opening: limits, an open session in its place, whose counts begin at 0", wrong)


def built(name, sources, flags, compiler="cc"):
    """A program from these sources and the static library, or None if it can't be built."""
    made = os.path.join(ROOM, name)
    words = [os.environ.get("CC" if compiler == "cc" else "CXX", compiler), *flags, "-I", os.path.join(TOP, "include")]
    words += ["-o", made, *sources, os.path.join(LIBRARY_FOLDER, "librope_search.a"), "-lpthread"]
    settings = {"stdin": subprocess.DEVNULL, "stderr": subprocess.PIPE, "text": True, "errors": "replace"}
    done = subprocess.run(words, check=False, **settings)
    test(f"{name} is built", [] if done.returncode == 0 else done.stderr.splitlines()[:5] or ["the compiler failed"])
    return made if done.returncode == 0 else None


def ended(words, **more):
    done = subprocess.run(words, stdin=subprocess.DEVNULL, stdout=subprocess.PIPE, stderr=subprocess.STDOUT, text=True,
                          errors="replace", timeout=SECONDS, cwd=ROOM, check=False, env=dict(os.environ, **more))
    return [] if done.returncode == 0 else [*done.stdout.splitlines()[:20], f"ended with {done.returncode}"]


def at(*names):
    return os.path.join(TOP, *names)


def test_programs():
    test_under_tools()
    test_stack()
    wraps = ["-Wl,--wrap=malloc,--wrap=realloc"]
    if made := built("library-memory", [at("tests", "library", "library_memory.c")], [*STRICT, *wraps]):
        test("each request of the library for memory refused in turn", ended([made]))
    if made := built("library-c", [at("examples", "session.c")], STRICT):
        test("examples/session.c", ended([made]))
    flags = ["-std=c++11", "-O1", "-Wall", "-Wextra", "-Werror"]
    if made := built("library-cpp", [at("examples", "session.cpp")], flags, "c++"):
        test("examples/session.cpp", ended([made]))


def wrong_prints(words, due):
    """What is wrong with the output of a program that finds the library and its modules."""
    done = subprocess.run(words, stdin=subprocess.DEVNULL, stdout=subprocess.PIPE, stderr=subprocess.STDOUT, timeout=SECONDS,
                          cwd=ROOM, check=False, env=dict(os.environ, **PATHS))
    return [] if (done.returncode, done.stdout.decode()) == (0, due) else [f"it prints {short(done.stdout)}"]


def test_page():
    """Each code block of docs/embedding.md, with its output. Code of other ways is on the pages that it links."""
    page = read("docs", "embedding.md")
    blocks = re.findall(r"```(c|python|lua|sh)\n(.*?)```\n\nIt prints\n\n```text\n(.*?)```", page, flags=re.S)
    kinds = [kind for kind, _, _ in blocks]
    test("docs/embedding.md has code in four languages", [] if kinds == ["c", "python", "lua", "sh", "python", "c", "python", "c", "python", "c"] else [f"in {kinds}"])
    for kind, code, due in blocks:
        file = os.path.join(ROOM, "embedded." + kind.replace("python", "py"))
        with open(file, "w", encoding="utf-8") as out:
            out.write((PRINTING if kind == "lua" else "") + code.replace("| bin/rope-search", f"| '{PROGRAM}'"))
        words = {"python": [sys.executable, file], "lua": [*lua(), file], "sh": ["sh", file]}.get(kind)
        if kind == "c" and (made := built("embedded", [file], STRICT)):
            words = [made]
        if words and words[0]:
            test(f"the {kind} code of docs/embedding.md", wrong_prints(words, due))
        elif kind == "lua":
            print("no LuaJIT and no Neovim: the Lua code of docs/embedding.md isn't run")


def test_pane():
    """The client that the search pane uses instead of the program: it gives the same replies, command by command."""
    sys.path.insert(0, os.path.join(TOP, "examples"))
    from calls import Calls
    from client import command

    wrong = []
    with Calls() as search:
        for data in (*(data for data, _, _ in [*examples_of_page(), *MORE_EXAMPLES]), b"fork\nuse 1\nprint\n"):
            commands, _ = read_commands(data)
            model = Session()
            search.session.close()
            search.session = rope_search.Session()
            for one in commands:
                if (got := search.ask(spelled(*one))) != (due := model.reply(one)):
                    wrong.append(f"{one[:2]} is answered {short(got)}, not {short(due)}")
        for sent in (b"jump\n", b"print", command(b"text", b"a") + b"b"):
            try:
                wrong.append(f"{sent} is answered {search.ask(sent)}")
            except ValueError:
                pass
    test("the client of the pane that uses the library", wrong)
    test("the rows of the pane, made in slices", [one for seed in range(GROUPED) for one in wrong_document(seed)])


def test_readme():
    """The Python code of README.md, with its output."""
    shown = re.search(r"```python\n(.*?)```\n\nIt prints `(.*?)`", read("README.md"), flags=re.S)
    wrong = wrong_prints([sys.executable, "-c", shown[1]], shown[2] + "\n") if shown else ["there is none"]
    test("the Python code of README.md", wrong)


def lua():
    """The command that runs a Lua file: LuaJIT, or Neovim, which contains it; None if neither is installed."""
    if shutil.which("luajit"):
        return ["luajit"]
    return NEOVIM if shutil.which("nvim") else [None]


def test_neovim():
    """The live search of examples/nvim, if Neovim is installed."""
    if shutil.which("nvim"):
        found = {"LUA_PATH": ";".join((at("examples", "nvim", "lua", "?.lua"), PATHS["LUA_PATH"]))}
        words = [*NEOVIM, at("tests", "library", "nvim_live_search.lua")]
        test("examples/nvim, after keys at random", ended(words, **{**PATHS, **found}))
    else:
        print("no Neovim: examples/nvim isn't run")


def test_lua():
    words = lua()
    if words[0]:
        test(f"bindings/lua, by {words[0]}", ended([*words, at("tests", "library", "library.lua")], **PATHS))
    else:
        print("no LuaJIT and no Neovim: bindings/lua isn't run")


def test_all():
    test_declarations()
    test_worked()
    test_opening()
    test_copies()
    test_closed()
    test_places()
    test_lines()
    test_histories()
    test_changes()
    test_text_changes()
    test_edits()
    test_groups()
    test_replacing()
    test_listed()
    test_pending()
    test_explanations()
    test_escapes()
    test_parts()
    test_programs()
    test_lua()
    test_neovim()
    test_page()
    test_readme()
    test_pane()
    test_sessions()
