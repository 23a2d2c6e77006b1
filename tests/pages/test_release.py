"""The files that make install and make release write, from programs that were built, with the commands of the pages; and
the program's manual page, compared with docs/protocol.md."""
import glob
import os
import re
import shutil
import subprocess
import sys

from bindings import newest_enough, wrong_in_node, wrong_in_rust
from browser import chromium
from harness import FIRST, LIBRARY, LIBRARY_FOLDER, PROGRAM, ROOM, SONAME, TOP, end_of, open_input, start, test
from test_replies import examples_of_page
from test_sources import broken_links
from test_language_server import Client
from test_web import node_words, wrong_in_web
from web_page import wrong_released

BUILT = ["rope-search", "librope_search_c.a", "librope_search.a", "librope_search.so", "librope_search_c.bc", "rope_search.wasm"]
INSTALLED = [
    "bin/rope-search", "include/rope_search.h", "lib/librope_search.a", "lib/librope_search.so", f"lib/{SONAME}",
    "lib/pkgconfig/rope_search.pc", "share/man/man1/rope-search.1", "share/rope-search/rope_search.py",
    "share/rope-search/rope_search.lua", "share/rope-search/rust/Cargo.toml", "share/rope-search/rust/build.rs",
    *(f"share/rope-search/rust/src/{name}.rs" for name in ("error", "lib", "matches", "raw", "session", "types")),
    *(f"share/rope-search/node/{name}" for name in (
        "package.json", "queue.js", "replies.js", "rope-search.d.ts", "rope-search.js")),
    *(f"share/rope-search/web/{name}" for name in (
        "calls.js", "package.json", "rope-search.d.ts", "rope-search.js", "rope_search.wasm")),
    *(f"share/doc/rope-search/{name}" for name in (
        "README.md", "CHANGELOG.md", "LICENSE-APACHE", "LICENSE-MIT", "NOTICE", "protocol.md", "patterns.md",
        "embedding.md")),
]
# A program of docs/embedding.md with its output, and a command there that runs such a program.
PROGRAM_OF_PAGE = re.compile(r"(?s)```(c|python|lua)\n(.*?)```\n\nIt prints\n\n```text\n(.*?)```")
COMMAND_OF_PAGE = re.compile(r"(?m)^    (.*\bprogram\.(c|py|lua)\b.*)$")
SESSION = "import rope_search; s = rope_search.Session(); s.set_text('abab'); s.set_pattern('b'); print(s.count_matches(0, 1))"


def read(*parts):
    with open(os.path.join(TOP, *parts), encoding="utf-8") as file:
        return file.read()


def manual():
    """The text of the manual, without its macros."""
    text = re.sub(r"(?m)^\\.\\\".*\n", "", read("docs", "rope-search.1"))
    return re.sub(r"(?m)^\.[A-Z]+ ?", "", text).replace('"', "").replace("\\-", "-")


def wrong_manual():
    """Each command, word of a refusal, status and message of the page must be in the manual."""
    page, told = read("docs", "protocol.md").partition("## Examples")[0], manual()
    words = set(re.findall(r"`error ([a-z0-9]+)`", page)) - {"command", "end"}
    words |= {word for row in re.findall(r"(?m)^\| (`[a-z][^|]*) \|", page) for word in re.findall(r"`([a-z]+)", row)}
    words |= set(re.findall(r"`(rope-search: [a-z ]+)`", page)) | {"error command", "error end"}
    return [f"{word!r} isn't there" for word in sorted(words) if not re.search(rf"\b{re.escape(word)}\b", told)]


def wrong_example():
    """The shell line in the manual must have the answer that it shows."""
    shown = re.search(r"(?s)\.EX\n(.*?)\.EE", read("docs", "rope-search.1"))[1].replace("\\e", "\\")
    line, *answers = shown.splitlines(True)
    told = subprocess.run(["sh", "-c", line.replace("| rope-search", f"| '{PROGRAM}'")], capture_output=True).stdout.decode()
    return [] if told == "".join(answers) else [f"the program answers {told!r}"]


def laid_out_wrong():
    """The messages of groff about the manual, if groff is installed."""
    if not shutil.which("groff"):
        return []
    done = subprocess.run(["groff", "-man", "-Tascii", "-ww", os.path.join(TOP, "docs", "rope-search.1")], capture_output=True)
    return done.stderr.decode().splitlines()


def made(*words):
    """The output of make for a target that uses what was built, without building anything."""
    old = [word for name in BUILT for word in ("-o", f"bin/{name}")]
    return subprocess.run(["make", "--no-print-directory", *old, "-C", TOP, *words], capture_output=True, text=True)


def wrong_server(top):
    """The language server of an unpacked release must find the Python module, and the module the library."""
    client = Client([sys.executable, os.path.join(top, "examples", "language_server")], {"ROPE_SEARCH_LIBRARY": ""})
    client.begin()
    client.open("a", "a TODO")
    published = client.published()
    return [] if published == [("a", [(0, 2, 6, "TODO")])] and client.end() == 1 else [f"the server publishes {published}"]


def wrong_session(modules):
    """The module for Python must find the library from its own folder."""
    ended = subprocess.run([sys.executable, "-B", "-c", SESSION], cwd=modules, capture_output=True, text=True,
                           env={"PATH": os.environ["PATH"]})
    return [] if ended.stdout == "2\n" else [ended.stdout + ended.stderr]


def wrong_commands(top):
    """Each command of docs/embedding.md that runs a program must have the output that the page shows, in a release."""
    page = read("docs", "embedding.md")
    programs = {}
    for kind, code, due in PROGRAM_OF_PAGE.findall(page):
        programs.setdefault(kind.replace("python", "py"), (code, due))
    commands = COMMAND_OF_PAGE.findall(page)
    if {kind for _, kind in commands} != set(programs):
        return [f"docs/embedding.md has the commands {commands}"]
    wrong = []
    for command, kind in commands:
        code, due = programs[kind]
        with open(os.path.join(top, f"program.{kind}"), "w", encoding="utf-8") as out:
            out.write(code)
        if kind == "lua" and not shutil.which("luajit"):
            print(f"no LuaJIT: {command!r} isn't run where a release is unpacked")
            continue
        names = {name: value for name, value in os.environ.items() if not name.startswith("ROPE_SEARCH")}
        ended = subprocess.run(["sh", "-c", command], cwd=top, capture_output=True, text=True, env=names)
        wrong += [] if ended.stdout == due else [f"{command!r} prints {ended.stdout + ended.stderr!r}"]
    return wrong


def wrong_packages(folder):
    """The package for Rust must find the library from its own folder, the module for Node the program, and that for the
    web its module of WebAssembly."""
    wrong, node = [], newest_enough()
    if shutil.which("cargo"):
        wrong += wrong_in_rust(os.path.join(folder, "rust"), os.path.join(ROOM, "released-target"), PKG_CONFIG="/nowhere/it")
    else:
        print(f"no cargo: the package for Rust isn't tried in {os.path.relpath(folder, ROOM)}")
    if node:
        wrong += wrong_in_node(node, os.path.join(folder, "node"), PATH="/nowhere", ROPE_SEARCH="")
    else:
        print(f"no Node 18 or later: the module for it isn't tried in {os.path.relpath(folder, ROOM)}")
    words = node_words()
    if words:
        wrong += wrong_in_web(words, os.path.join(folder, "web"))
    else:
        print(f"no Node with 64-bit memories: the module of WebAssembly isn't tried in {os.path.relpath(folder, ROOM)}")
    return wrong


def wrong_release():
    """The unpacked archive: its program runs, its modules find the library, its links are right, and its demo, its
    language server and the commands of docs/embedding.md run."""
    folder = os.path.join(ROOM, "released")
    os.mkdir(folder)
    done = made("release", f"RELEASES={folder}")
    if done.returncode:
        return done.stderr.splitlines()
    archive = os.path.join(folder, done.stdout.split()[-1])
    subprocess.run(["tar", "-C", folder, "-xf", archive], check=True)
    top = archive[:-len(".tar.gz")]
    pages = glob.glob(os.path.join(top, "**", "*.md"), recursive=True)
    wrong = [link for page in sorted(pages) for link in broken_links(page)] if pages else ["there is no page"]
    wrong += wrong_server(top) + wrong_commands(top)
    shown = subprocess.run([sys.executable, "-B", os.path.join(top, "examples", "demo.py"), os.path.join(
        top, "examples", "first.session")], capture_output=True, text=True, cwd=folder, env={"PATH": os.environ["PATH"]})
    if shown.returncode or "m 0 16 20" not in shown.stdout:
        wrong.append(shown.stdout + shown.stderr)
    if chromium():
        wrong += wrong_released(top)
    else:
        print("no chromium: the page of examples/web isn't tried where a release is unpacked")
    bindings = os.path.join(top, "bindings")
    wrong += [path for path in glob.glob(os.path.join(bindings, "**", "*"), recursive=True) if re.search(r"/(target|Cargo\.lock)$", path)]
    return wrong + wrong_session(os.path.join(bindings, "python")) + wrong_packages(bindings)


def wrong_files():
    folder = os.path.join(ROOM, "installed")
    done = made("install", f"DESTDIR={folder}", "PREFIX=/usr")
    if done.returncode:
        return done.stderr.splitlines()
    top = os.path.join(folder, "usr")
    found = sorted(os.path.relpath(os.path.join(at, name), top) for at, _, names in os.walk(top) for name in names)
    wrong = [f"{name} is missing" for name in sorted(set(INSTALLED) - set(found))]
    wrong += [f"{name} is there too" for name in sorted(set(found) - set(INSTALLED))]
    with open_input(FIRST) as given:
        ended = end_of(start(program=os.path.join(top, "bin", "rope-search"), stdin=given))
    if (ended.out, ended.status) != examples_of_page()[0][1:]:
        wrong.append(f"the program answers {ended.out!r} and status {ended.status}")
    version = read("VERSION").strip()
    for name, line in (("lib/pkgconfig/rope_search.pc", f"Version: {version}"), ("share/man/man1/rope-search.1", version)):
        with open(os.path.join(top, name), encoding="utf-8") as file:
            if line not in file.read():
                wrong.append(f"{name} doesn't tell {line!r}")
    if shutil.which("pkg-config"):
        flags = subprocess.run(["pkg-config", "--cflags", "--libs", "rope_search"], capture_output=True, text=True, env=dict(
            os.environ, PKG_CONFIG_PATH=os.path.join(top, "lib", "pkgconfig"))).stdout
        wrong += [f"{name} isn't in {flags!r}" for name in ("lib/pkgconfig/../../include", "-lrope_search") if name not in flags]
    modules = os.path.join(top, "share", "rope-search")
    return wrong + wrong_session(modules) + wrong_packages(modules)


def test_all():
    test("the manual has each command, refusal, status and message", wrong_manual())
    test("the manual is laid out", laid_out_wrong())
    test("the program answers the manual's example so", wrong_example())
    if os.path.exists(LIBRARY) and {LIBRARY_FOLDER, os.path.dirname(PROGRAM)} == {os.path.join(TOP, "bin")}:
        test("what is installed, and that it works there", wrong_files())
        test("a release works where it is unpacked", wrong_release())
