"""A letter typed by each way to use the library: by calls in Rattle, C, Python, Lua, Rust and WebAssembly, by commands
over pipes, in Neovim, and by the language server. Each function returns medians in nanoseconds: of a letter typed in a
random line until the report is up to date, of its undo, and of a window's rows, as many of these as that way has; none
if its tool isn't installed, or its program isn't built."""
import json
import os
import random
import shutil
import statistics
import subprocess
import sys
import time

from processes import PROGRAM, written
from texts import TOP

CALLED = r"y\(\w+"  # the pattern of the calls that are measured
RARE = r"line \d*000 "  # matches in one line of a thousand
BENCH, WEB_MODULE = (os.path.join(TOP, "bin", name) for name in ("bench", "rope_search.wasm"))
MEMORY64 = "--experimental-wasm-memory64"


def told_by(words, **more):
    """The medians that a program prints, each after a name."""
    told = subprocess.run(words, stdout=subprocess.PIPE, check=True, text=True, env=dict(os.environ, **more)).stdout
    return [float(line.split()[1]) for line in told.splitlines()]


def lines_of_calls(lines):
    """The text that the library's calls are measured over."""
    return b"".join(b"line %d of the text: let x = y(a, b);\n" % line for line in range(lines))


def by_buffer(folder, lines):
    """The mean of a letter typed in a buffer of `rope_search`, by bin/bench."""
    if not os.path.exists(BENCH):
        return []
    words = [BENCH, "live", written(folder, "lines", lines_of_calls(lines)), CALLED]
    told = subprocess.run(words, stdout=subprocess.PIPE, check=True, text=True).stdout
    return [float(line.split("\t")[1]) for line in told.splitlines() if line.startswith("a letter in a random line\t")][:1]


def by_c(folder, lines, edits):
    """The medians of a letter typed, undone, and a window's rows, by a program in C."""
    made = os.path.join(folder, "embedded")
    words = ["cc", "-O2", "-I", os.path.join(TOP, "include"), "-o", made, os.path.join(TOP, "bench", "embedded.c")]
    subprocess.run([*words, os.path.join(TOP, "bin", "librope_search.a")], check=True)
    return told_by([made, str(lines), str(edits)])


def over_pipes(folder, lines, edits):
    """Those of a letter typed and undone, by a C program that writes the commands to the program."""
    made = os.path.join(folder, "piped")
    subprocess.run(["cc", "-O2", "-o", made, os.path.join(TOP, "bench", "piped.c")], check=True)
    return told_by([made, PROGRAM, str(lines), str(edits)])


def by_lua(lines, edits):
    """The same as in C by bindings/lua, if LuaJIT is installed."""
    if not shutil.which("luajit"):
        return []
    paths = {"LUA_PATH": os.path.join(TOP, "bindings", "lua", "?.lua")}
    return told_by(["luajit", os.path.join(TOP, "bench", "embedded.lua"), str(lines), str(edits)], **paths)


def by_rust(folder, lines, edits):
    """The same by bindings/rust, if cargo is installed."""
    if not shutil.which("cargo"):
        return []
    words = ["cargo", "build", "--quiet", "--release", "--offline", "--target-dir", folder]
    library = {"ROPE_SEARCH_LIB_DIR": os.path.join(TOP, "bin")}
    subprocess.run(words, cwd=os.path.join(TOP, "bench", "embedded_rust"), env=dict(os.environ, **library), check=True)
    return told_by([os.path.join(folder, "release", "embedded"), str(lines), str(edits)])


def by_node(way, lines, edits):
    """The same by bindings/node, which runs the program and has no window, or by bindings/web with its module, if Node is
    installed."""
    if not shutil.which("node") or way == WEB_MODULE and not os.path.exists(way):
        return []
    words = ["node", "--no-warnings", MEMORY64, os.path.join(TOP, "bench", "embedded.mjs"), way, str(lines), str(edits)]
    return told_by(words, ROPE_SEARCH=PROGRAM)


def by_neovim(lines, edits):
    """The medians of a letter inserted into a row of Neovim, which examples/nvim follows, and removed again."""
    if not shutil.which("nvim"):
        return []
    paths = [os.path.join(TOP, folder, "?.lua") for folder in ("examples/nvim/lua", "bindings/lua")]
    words = ["nvim", "--clean", "--headless", "-n", "-c", "lua dofile(vim.v.argv[#vim.v.argv])", "-c", "qall!", "--",
             os.path.join(TOP, "bench", "embedded_nvim.lua")]
    return told_by(words, LUA_PATH=";".join(paths), LINES=str(lines), EDITS=str(edits))[:2]


class Server:
    """The language server of examples/ with a document, and a client that waits for its diagnostics."""

    def __init__(self, text, pattern):
        words = [sys.executable, os.path.join(TOP, "examples", "language_server")]
        self.process = subprocess.Popen(words, stdin=subprocess.PIPE, stdout=subprocess.PIPE)
        options = {"pattern": pattern}
        self.send("initialize", id=1, processId=None, rootUri=None, capabilities={}, initializationOptions=options)
        self.read()
        self.document = {"uri": "file:///lines", "version": 1}
        self.published("textDocument/didOpen", textDocument={**self.document, "languageId": "text", "text": text})

    def __enter__(self):
        return self

    def __exit__(self, *_):
        self.process.stdin.close()
        self.process.wait()

    def send(self, method, id=None, **params):
        numbered = {} if id is None else {"id": id}
        body = json.dumps({"jsonrpc": "2.0", **numbered, "method": method, "params": params}).encode()
        self.process.stdin.write(b"Content-Length: %d\r\n\r\n%b" % (len(body), body))
        self.process.stdin.flush()

    def read(self):
        length = int(self.process.stdout.readline().split(b":")[1])
        self.process.stdout.readline()
        return json.loads(self.process.stdout.read(length))

    def published(self, method, **params):
        """The nanoseconds from a notification until the diagnostics that it changes are published."""
        start = time.perf_counter_ns()
        self.send(method, **params)
        while self.read().get("method") != "textDocument/publishDiagnostics":
            pass
        return time.perf_counter_ns() - start

    def replace(self, line, stop, text):
        """Replaces the first characters of a line, up to a column."""
        self.document["version"] += 1
        start, end = ({"line": line, "character": column} for column in (0, stop))
        change = {"range": {"start": start, "end": end}, "text": text}
        return self.published("textDocument/didChange", textDocument=self.document, contentChanges=[change])


def by_server(lines, edits):
    """The medians of a letter inserted into a line that has a match, and removed again, until the language server has
    published the report: one line in a thousand is in it."""
    chance, times = random.Random(7), []
    with Server(lines_of_calls(lines).decode(), RARE) as server:
        for _ in range(edits):
            line = 1000 * chance.randrange(1, lines // 1000)
            times.append((server.replace(line, 0, "a"), server.replace(line, 1, "")))
    return [statistics.median(column) for column in zip(*times)]


def by_python(lines, edits):
    """The same by bindings/python."""
    sys.path.insert(0, os.path.join(TOP, "bindings", "python"))
    import rope_search

    chance, times = random.Random(7), ([], [], [])
    with rope_search.Session() as session:
        session.set_text(lines_of_calls(lines))
        session.set_pattern(CALLED.encode())
        for _ in range(edits):
            line = chance.randrange(lines)
            typed, shown = lambda: session.edit((line, 5), (line, 5), b"a"), lambda: session.matches(line, line + 50)
            for times_of_call, call in zip(times, (typed, session.undo, shown)):
                start = time.perf_counter_ns()
                call()
                times_of_call.append(time.perf_counter_ns() - start)
    return [statistics.median(times_of_call) for times_of_call in times]


def embedded(folder, tiny):
    """A letter typed in a random line, its undo, and the rows of a window, by the library that make lib builds."""
    lines, edits = (4_000, 200) if tiny else (400_000, 2_000)
    whats = ("a letter in a random line", "undo", "a window's 50 rows")
    ways = {
        "in Rattle, a buffer": by_buffer(folder, lines),
        "in C": by_c(folder, lines, edits),
        "in Python": by_python(lines, edits),
        "in LuaJIT": by_lua(lines, edits),
        "in Rust": by_rust(folder, lines, edits),
        "in WebAssembly, in Node": by_node(WEB_MODULE, lines, edits),
        "in Neovim, with its own edit": by_neovim(lines, edits),
        "by the program over pipes": over_pipes(folder, lines, edits),
        "by the program from Node": by_node("child", lines, edits),
        "by the language server": by_server(lines, edits // 10),
    }
    for way, medians in ways.items():
        if not medians:
            print(f"  {way}: not measured, since its tool isn't installed or its program isn't built", flush=True)
        for what, median in zip(whats, medians):
            yield way, what, f"{median:.0f}", "ns"
