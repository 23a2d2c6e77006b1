"""The library in WebAssembly: its heap, natively, compared with a model; the script that changes the target, on lines
that it must refuse; the module's calls, and commands by them in random sessions, under Node; refused memory and the end
of the stack; and the page of examples/web in Chromium. If the module, Node or Chromium is missing, it is named, and its
tests are left out.

The module is that of ROPE_SEARCH_WEB, otherwise rope_search.wasm next to the C library.
"""
import json
import os
import re
import shutil
import subprocess
import sys
import tempfile
import zlib

from bindings import copied, inputs_of_commands, ran, read, shown, wrong_end, wrong_links, wrong_prints
from browser import chromium
from harness import LIBRARY_FOLDER, ROOM, TOP, VERSION, run, share_of, short, test
from protocol import read_commands, spelled
from random_sessions import some_trial
from test_library import declared, differing, reasons_declared, structures
from test_replies import examples_of_page
from web_lowerings import lacking, wrong_lowerings
from web_module import sections, with_memory, with_stack
from web_page import PARTS_OF_PAGE, in_browser

sys.path.insert(0, os.path.join(TOP, "bindings", "web"))
import retarget

MODULE = os.path.abspath(os.environ.get("ROPE_SEARCH_WEB") or os.path.join(LIBRARY_FOLDER, "rope_search.wasm"))
FOLDER = os.path.join(TOP, "bindings", "web")
MEMORY64 = "--experimental-wasm-memory64"
RUNS_OF_HEAP = 40
SESSIONS, SESSIONS_IN_RUN = 300, 15  # random ones, some of them hostile
MOST_KB, MOST_COMPRESSED_KB = 700, 250  # of the module, as docs/embedding.md says
SANITIZED = ["-std=c99", "-pedantic", "-O1", "-g", "-Wall", "-Wextra", "-Werror", "-fno-strict-aliasing",
             "-fsanitize=address,undefined", "-fno-sanitize-recover=all"]

# ---- the heap


def wrong_heap():
    """What is wrong with the heap natively, under sanitizers."""
    made = os.path.join(ROOM, "web_heap")
    compiler = os.environ.get("CC", "cc")
    wrong = wrong_end([compiler, *SANITIZED, os.path.join(TOP, "tests", "web", "web_heap.c"), "-o", made], ROOM)
    return wrong or wrong_end([made, str(RUNS_OF_HEAP)], ROOM, [r"^\d+ runs of \d+ steps: [1-9]"])


# ---- the script that changes the target

BEFORE = [
    "; ModuleID = 'module.bc'",
    f'target datalayout = "{retarget.X86_64[0]}"',
    f'target triple = "{retarget.X86_64[1]}"',
    "",
    '@static.0 = private unnamed_addr constant [1 x i8] c"#", align 1',
    "",
    "define noundef i32 @rope_search_rows(ptr noundef %a0) #0 {",
    "start:",
    "  %r0 = alloca [8 x i8], align 8",
    '  %r1 = call noundef i32 @"rope_search::inner"(ptr noundef %a0)',
    "  ret i32 %r1",
    "}",
    "",
    'define internal noundef i32 @"rope_search::inner"(ptr noundef %a0) #0 {',
    "start:",
    "  %r0 = alloca i32, align 4",
    "  %r1 = load i32, ptr %a0, align 4, !noundef !1",
    "  ret i32 %r1",
    "}",
    "",
    "declare { i64, i64 } @rattle_alloc(i64 noundef, i64 noundef) #1",
    "",
    'attributes #0 = { nounwind "probe-stack"="inline-asm" "stack-probe-size"="3072" "target-cpu"="x86-64-v2" }',
    "attributes #1 = { nobuiltin nounwind }",
    "!1 = !{}",
]
EXPORT, INNER, LOAD = 6, 13, 16
# Lines that put something of x86-64's, or something unknown, in place of the line with that number.
REFUSED = [
    (1, 'target datalayout = "e-m:e-p:32:32-i64:64-S128"'), (2, 'target triple = "aarch64-unknown-linux-gnu"'),
    (4, "@static.0 = thread_local global i32 0, align 4"), (4, 'module asm "nop"'),
    (EXPORT, "define fastcc i32 @rope_search_rows(ptr noundef %a0) #0 {"),
    (EXPORT, "define noundef i32 @rope_search_rows(ptr byval([16 x i8]) align 8 %a0) #0 {"),
    (EXPORT, "define noundef x86_fp80 @rope_search_rows(ptr noundef %a0) #0 {"),
    (EXPORT, "define noundef i32 @rope_search_rows(ptr noundef %a0, ...) #0 {"),
    (INNER, 'define linkonce_odr i32 @"rope_search::inner"(ptr noundef %a0) #0 {'),
    (LOAD, "  %r1 = phi i32 [ 0, %start ]"), (LOAD, "  %r1 = call i32 %a0(i32 1)"),
    (LOAD, "  %r1 = call <16 x i8> @llvm.x86.sse2.pavg.b(<16 x i8> %a, <16 x i8> %b)"),
    (LOAD, "  %r1 = call i64 @write(i32 1, ptr %a0, i64 1)"), (LOAD, '  call void asm sideeffect "nop", ""()'),
    (LOAD, "  %r1 = musttail call i32 @\"rope_search::inner\"(ptr %a0)"), (LOAD, "  %r1 = fadd double 1.0, 2.0"),
    (LOAD, "  %r1 = load volatile i32, ptr %a0, align 4"), (LOAD, "  %r1 = load atomic i32, ptr %a0 seq_cst, align 4"),
    (LOAD, "  %r1 = load double, ptr %a0, align 8"), (LOAD, "  %r1 = atomicrmw add ptr %a0, i32 1 seq_cst, align 4"),
    (LOAD, "  indirectbr ptr %a0, [label %start]"), (LOAD, "  %r1 = va_arg ptr %a0, i32"), (LOAD, "  fence seq_cst"),
    (LOAD, "  %r1 = load i32, ptr addrspace(1) %a0, align 4"), (LOAD, "  %r1 = freeze i32 undef"),
    (LOAD, '  store ptr @"rope_search::inner", ptr %a0, align 8'), (LOAD, "  %r1 = call i32 @elsewhere(ptr %a0)"),
    (LOAD, "  %r1 = getelementptr { i32, ptr }, ptr %a0, i64 1"), (LOAD, "  %enter = add i32 1, 2"),
    (20, "declare i64 @write(i32, ptr, i64) #1"), (20, "declare i32 @llvm.x86.sse42.crc32.32.8(i32, i8) #1"),
    (22, 'attributes #0 = { nounwind "target-cpu"="znver4" }'), (22, "attributes #0 = { nounwind sanitize_address }"),
    (22, 'attributes #0 = { nounwind "target-features"="+avx2" }'), (24, "!1 = distinct !{!1}"),
]


def refuses(lines):
    try:
        retarget.retargeted(lines)
    except (retarget.Unknown, ValueError):
        return True
    return False


def wrong_retargeting():
    """A small module gets its guards, and each unknown line is refused."""
    out, exports, functions = retarget.retargeted(BEFORE)
    text = "\n".join(out)
    due = [
        f'target triple = "{retarget.WASM64[1]}"', '#0 "wasm-export-name"="rope_search_rows" {\nstart:\n  %r0 = alloca',
        "%enter = call zeroext i1 @__rattle_enter()", "  call void @__rattle_leave()\n  ret i32 %r1\n}\n\ndefine internal",
        "align 4\n  %frame = call ptr @llvm.frameaddress.p0(i32 0)", '"target-cpu"="lime1"',
        "declare void @__rattle_leave()",
    ]
    wrong = [f"it writes no {part!r}" for part in due if part not in text] + (["it writes x86"] if "x86" in text else [])
    wrong += [] if (exports, functions) == (1, 2) else [f"it counts {exports} exports of {functions} functions"]
    for place, line in REFUSED:
        wrong += [] if refuses([*BEFORE[:place], line, *BEFORE[place + 1:]]) else [f"it takes {line!r}"]
    late = [*BEFORE[:LOAD + 1], "  br label %next", "", "next:", "  %r2 = alloca i32, align 4", *BEFORE[LOAD + 1:]]
    return wrong + ([] if refuses(late) else ["it takes an alloca that isn't in the first block"])


# ---- the calls

# The header's types in calls.js, for arguments of one type, or of one with its length.
KINDS = {
    # A position is passed as a line and a column.
    ("rope_search_position",): "size size", ("const uint8_t*", "size_t"): "text", ("size_t",): "size", ("uint64_t",): "size",
    ("uint32_t",): "bits", ("bool",): "bool",
    ("const rope_search_text_edit*", "size_t", "const uint8_t*", "size_t"): "edits",
}
SIZES = ("index", "count")
VALUES = {"bool": "bool", "size_t": "size", "uint64_t": "size", "uint32_t": "u32", "rope_search_position": "position"}


def passed(kinds):
    """The kinds in calls.js for types of C."""
    found = []
    while kinds:
        known = max((form for form in KINDS if tuple(kinds[: len(form)]) == form), key=len, default=None)
        if known is None:
            return None
        found.append(KINDS[known])
        kinds = kinds[len(known):]
    return " ".join(found)


def is_array(kinds):
    """Whether the last two types are an array that a call writes to, and its length."""
    return len(kinds) > 1 and kinds[-1] == "size_t" and kinds[-2].endswith("*") and not kinds[-2].startswith("const")


def row_of(result, kinds):
    """The entry that calls.js must have for a call of C, without its session."""
    kinds = [kind.replace(" *", "*") for kind in kinds]
    has_session, kinds = kinds[:1] == ["rope_search*"], [kind for kind in kinds if kind != "rope_search*"]
    if result.startswith("rope_search_"):
        return passed(kinds), ["structure", result.removeprefix("rope_search_")]
    writes_count = kinds[-2:] == ["size_t", "size_t*"]
    if is_array(kinds[:-1] if writes_count else kinds):
        *front, array, _ = kinds[:-1] if writes_count else kinds
        kind = "byte" if array == "uint8_t*" else array.removeprefix("rope_search_").rstrip("*")
        form = "copies" if writes_count or result == "size_t" else "filled"
        return passed(front), [form, kind, "status" if result == "uint32_t" else "count" if form == "copies" else "bool"]
    written = [kind for kind in kinds if kind.endswith("*") and not kind.startswith("const")]
    writes = [VALUES.get(kind.rstrip("*")) or kind.removeprefix("rope_search_").rstrip("*") for kind in written]
    front = passed(kinds[: len(kinds) - len(writes)])
    if result == "bool" and writes:
        return front, ["found", *writes]
    if result == "uint32_t" and (has_session or kinds):
        return front, ["status", *writes]
    return front, ["value", VALUES.get(result, "nothing")]


def table_row(takes, returns):
    form = returns["form"]
    writes = returns.get("writes") or returns.get("kind") or []
    writes = writes if isinstance(writes, list) else [writes]
    # Numbers that are written may have names of their own.
    said = ["size" if name in SIZES else name for name in writes]
    returned = [returns["returns"]] if "returns" in returns else []
    return takes.replace("position", "size size"), [form, *said, *returned]


TABLES = """import * as calls from "FOLDER/calls.js";
import { Session } from "FOLDER/rope-search.js";
const methods = Object.getOwnPropertyNames(Session.prototype);
console.log(JSON.stringify({ ...calls, methods }));"""


def wrong_tables(node):
    """calls.js must have the calls, structures, refusals and reasons of the header, and the declarations its
    methods."""
    status, said = ran([node, "--input-type=module", "-e", TABLES.replace("FOLDER", FOLDER)], ROOM)
    if status:
        return said.splitlines()
    tables, header = json.loads(said), read("include", "rope_search.h")
    calls = declared(header).items()
    due = {name.removeprefix("rope_search_"): row_of(result, list(kinds)) for name, (result, *kinds) in calls}
    due.pop("open")
    # It writes how many it copied, and not how many there are.
    due["next_all"][1][0] = "first"
    rows = {**tables["CALLS"], **tables["FREE_CALLS"]}
    wrong = differing("calls", {name: table_row(*row) for name, row in rows.items()}, due)
    forms = {}
    for name, fields in structures(header).items():
        kinds = re.findall(r"(\w+) ([^;*]+);", fields)
        forms[name.removeprefix("rope_search_")] = {
            field.strip(): VALUES[kind] for kind, these in kinds for field in these.split(",")}
    forms.pop("rope_search")
    wrong += differing("structures", tables["STRUCTURES"], forms)
    _, reasons, _ = reasons_declared(header, read("bindings", "lua", "rope_search.lua"))
    wrong += [] if tables["REASONS"] == reasons else [f"reasons: {tables['REASONS']}"]
    types = read("bindings", "web", "rope-search.d.ts")
    shown = set(re.findall(r"^  (\w+)\(", types.partition("export class Session")[2], re.M))
    wrong += [f"rope-search.d.ts: {name}" for name in shown ^ (set(tables["methods"]) - {"constructor", "library", "call"})]
    return wrong


def wrong_exports():
    """The module must export the header's calls, the two of its heap and its memory, and import nothing."""
    due = {*declared(read("include", "rope_search.h")), "heap_alloc", "heap_free", "memory", "__heap_base"}
    with open(MODULE, "rb") as file:
        found = sections(file.read())
    wrong = [f"{name} isn't as it should be" for name in found.exports ^ due]
    return wrong + [f"it imports {name}" for name in found.imports]


def wrong_size():
    """The module must be no larger than docs/embedding.md says."""
    with open(MODULE, "rb") as file:
        data = file.read()
    sizes = len(data), len(zlib.compress(data))
    is_small = sizes[0] <= MOST_KB * 1000 and sizes[1] <= MOST_COMPRESSED_KB * 1000
    wrong = [] if is_small else [f"it has {sizes[0]} and {sizes[1]} bytes"]
    due = f"at most {MOST_KB} kB, {MOST_COMPRESSED_KB} kB compressed"
    return wrong + ([] if due in read("docs", "embedding.md") else [f"the page doesn't say {due!r}"])


def wrong_version():
    told = json.loads(read("bindings", "web", "package.json"))["version"]
    return [] if told == VERSION else [f"it has the version {told}"]


# ---- the module under Node


def node_words():
    """Node with 64-bit memories, and the flags that this one needs for them; None if there is none."""
    node = shutil.which("node")
    for flags in ([], [MEMORY64]) if node else ():
        probe = [node, *flags, "--input-type=module", "-e", PROBE.replace("FOLDER", FOLDER)]
        if ran(probe, ROOM)[0] == 0:
            return [node, *flags]
    return None


PROBE = 'import { isSupported } from "FOLDER/rope-search.js"; process.exitCode = isSupported() ? 0 : 1;'


def wrong_in_web(words, package):
    """The code of the page must print what the page says, in a folder where the package is installed."""
    code, due = shown("web", "js")
    at = tempfile.mkdtemp(dir=ROOM)
    os.makedirs(os.path.join(at, "node_modules"))
    os.symlink(package, os.path.join(at, "node_modules", "rope-search-web"))
    with open(os.path.join(at, "main.mjs"), "w", encoding="utf-8") as out:
        out.write(code)
    return wrong_prints([*words, "main.mjs"], at, due)


def wrong_script(words, name, *arguments):
    """What is wrong with a script of tests/web, which prints the number of its checks at its end."""
    script = os.path.join(TOP, "tests", "web", name)
    return wrong_end([*words, script, *arguments], ROOM, [r"^[1-9]\d* checks$"])


def changed_module(name, change):
    path = os.path.join(ROOM, name)
    with open(MODULE, "rb") as file, open(path, "wb") as out:
        out.write(change(file.read()))
    return path


def sessions_at_random():
    """The commands of random sessions, several in an input, without those that are none."""
    count = share_of(SESSIONS)
    for first in range(0, count, SESSIONS_IN_RUN):
        data = b"".join(part for number in range(first, min(first + SESSIONS_IN_RUN, count))
                        for part in some_trial("web", number).commands)
        yield b"".join(spelled(*command) for command in whole_commands(data))


def whole_commands(data):
    """The commands of an input, also those after a line that is none."""
    while data:
        commands, ending = read_commands(data)
        yield from commands
        if ending == "input":
            return
        read = sum(len(spelled(*command)) for command in commands)
        data = data[read:].partition(b"\n")[2]


def different(data, got, due):
    """Where replies differ."""
    got, due = got.split(b"\n"), due.split(b"\n")
    place = next((k for k, pair in enumerate(zip(got, due)) if pair[0] != pair[1]), min(len(got), len(due)))
    return f"{short(data)}: line {place}: {got[place:place + 2]}, not {due[place:place + 2]}"


def wrong_replies(words, inputs):
    """What is wrong with the replies by calls of the module to inputs, each with the expected output."""
    inputs, folder = list(inputs), tempfile.mkdtemp(dir=ROOM)
    files = [os.path.join(folder, str(number)) for number in range(len(inputs))]
    for file, (data, _) in zip(files, inputs):
        with open(file, "wb") as out:
            out.write(data)
    wrong = wrong_script(words, "web_commands.mjs", MODULE, *files)
    for file, (data, due) in zip(files, inputs if not wrong else []):
        with open(f"{file}.out", "rb") as told:
            got = told.read()
        wrong += [] if got == due else [different(data, got, due)]
    return wrong


def wrong_example(words, folder):
    """The example must reply to the first session of the protocol's page."""
    data, due, _ = examples_of_page()[0]
    done = subprocess.run([*words, os.path.join(folder, "examples", "commands.js"), MODULE], input=data, capture_output=True)
    return [] if done.stdout == due else [f"{done.stdout!r}, not {due!r}: {done.stderr.decode()[-300:]}"]


def beside_program():
    """Random sessions, and the program's replies."""
    for data in sessions_at_random():
        yield data, run(data).out


def test_under_node(words):
    folder = copied("web")
    shutil.copy(MODULE, os.path.join(folder, "rope_search.wasm"))
    test("bindings/web: commands by calls, with sessions at random", wrong_replies(words, inputs_of_commands()))
    test(f"bindings/web: {share_of(SESSIONS)} sessions at random beside the program", wrong_replies(words, beside_program()))
    test("bindings/web: the program that carries out commands", wrong_example(words, folder))
    test("bindings/web: the code of its page", wrong_in_web(words, folder))
    test("bindings/web: each call, and each refusal", wrong_script(words, "web_calls.mjs", MODULE))
    limited = changed_module("limited.wasm", lambda data: with_memory(data, 100))
    test("bindings/web: refused memory leaves the session usable", wrong_script(words, "web_memory.mjs", limited))
    shallow = changed_module("shallow.wasm", lambda data: with_stack(data, 8192))
    wrong = wrong_script(words, "web_stack.mjs", MODULE, shallow)
    test("bindings/web: the end of the stack is a trap, and the library is lost", wrong)


def test_in_browser():
    for name, wrong in zip(PARTS_OF_PAGE, in_browser(TOP, MODULE, PARTS_OF_PAGE.values())):
        test(f"examples/web in Chromium: {name}", wrong)


def test_all():
    test("the heap of the module, beside a model", wrong_heap())
    test(f"the target is changed, but for {len(REFUSED) + 1} lines that are refused", wrong_retargeting())
    if lacking():
        print(f"skipped, {lacking()}: both lowerings of a crate that allocates nothing")
    else:
        test("both lowerings of a crate that allocates nothing are the same", wrong_lowerings(ROOM))
    test("bindings/web has the version of the repository", wrong_version())
    test("the links of bindings/web/README.md", wrong_links("web"))
    words = node_words()
    if words is None:
        print(f"skipped, no Node with 64-bit memories ({MEMORY64}): the tables and the module of bindings/web under it")
    else:
        test("bindings/web has the calls of the header", wrong_tables(words[0]))
    if not os.path.exists(MODULE):
        what = "the module of bindings/web, and examples/web"
        print(f"skipped, no {os.path.relpath(MODULE, TOP)}, which make web builds: {what}")
        return
    test("the module exports the header's calls, and imports nothing", wrong_exports())
    test(f"the module has at most {MOST_KB} kB, {MOST_COMPRESSED_KB} kB compressed", wrong_size())
    if words is not None:
        test_under_node(words)
    if chromium() is None:
        print("skipped, no chromium: examples/web in a browser")
    else:
        test_in_browser()
