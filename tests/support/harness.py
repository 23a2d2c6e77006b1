"""What all tests of the built programs share: running a program, comparing its output, and counting the tests that
passed."""
import atexit
import functools
import os
import re
import shutil
import subprocess
import sys
import tempfile
import threading

TOP = os.path.dirname(os.path.dirname(os.path.dirname(os.path.abspath(__file__))))
PROGRAM = os.path.abspath(os.environ.get("ROPE_SEARCH") or os.path.join(TOP, "bin", "rope-search"))
ROPE_PROGRAM = os.path.abspath(os.environ.get("ROPE_DRIVER") or os.path.join(TOP, "bin", "rope-driver"))
RUN_PROGRAM = os.path.abspath(os.environ.get("RUN_DRIVER") or os.path.join(TOP, "bin", "run-driver"))
SEARCH_PROGRAM = os.path.abspath(os.environ.get("SEARCH_DRIVER") or os.path.join(TOP, "bin", "search-driver"))
LIBRARY_FOLDER = os.path.abspath(os.environ.get("ROPE_SEARCH_LIBRARIES") or os.path.join(TOP, "bin"))
LIBRARY = os.path.join(LIBRARY_FOLDER, "librope_search.so")
with open(os.path.join(TOP, "VERSION"), encoding="utf-8") as file:
    VERSION = file.read().strip()
SONAME = "librope_search.so." + VERSION.rpartition(".")[0]  # used by programs to find the shared library when they run
ROOM = tempfile.mkdtemp(prefix="rope-search-")  # the only folder that tests write to
atexit.register(shutil.rmtree, ROOM, ignore_errors=True)
SECONDS = 600  # the timeout of a program in a test, also on a busy machine
SHARE = int(os.environ.get("SHARE") or 100)  # the percentage of the random cases that are tried
PASSED, FAILED = [], []

# The first session of docs/protocol.md, which is also the stored run of the program.
FIRST = b"text 5\nab abpattern 6\n(a)(b)replace 4\n$2$1print\nundo\nlist\nprint\nredo\nlist\n"


def share_of(cases):
    """How many of this number of random cases are tried."""
    return max(1, cases * SHARE // 100)


def test(name, problems):
    """Counts a test. `problems` says what is wrong; it is empty if the test passes."""
    problems = list(problems)
    (FAILED if problems else PASSED).append(name)
    if problems:
        print(f"FAILED: {name}")
        for problem in problems[:5]:
            print(f"    {problem}")
        if len(problems) > 5:
            print(f"    and {len(problems) - 5} more")
    else:
        print(f"passed: {name}")
    sys.stdout.flush()


@functools.lru_cache(maxsize=None)
def library(name, what):
    """The library made from tests/support/NAME.c, to preload into a program, built once, or None if that fails."""
    made = os.path.join(ROOM, name + ".so")
    build = [os.environ.get("CC", "cc"), "-std=c11", "-D_GNU_SOURCE", "-O2", "-Wall", "-Wextra", "-shared", "-fPIC"]
    build += ["-o", made, os.path.join(TOP, "tests", "support", name + ".c")]
    try:
        built = subprocess.run(build, stdin=subprocess.DEVNULL, stderr=subprocess.PIPE, text=True)
        problems = [] if built.returncode == 0 else built.stderr.splitlines() or ["the compiler failed"]
    except OSError as error:
        problems = [f"no C compiler: {error}"]
    test(f"the library that {what} is built", problems)
    return None if problems else made


def example_rows(page, form, section="Examples"):
    """The rows of the table in a section of a page of docs/, as matches of this form."""
    with open(os.path.join(TOP, "docs", page), encoding="utf-8") as file:
        lines = file.read().split(f"\n## {section}\n")[1].split("\n## ")[0].split("\n")
    rows = []
    for row in [line for line in lines if line.startswith("|")][2:]:
        found = re.fullmatch(form, row)
        if not found:
            raise SystemExit(f"docs/{page}: this row is no example: {row}")
        rows.append(found)
    return rows


class Run:
    """The output and the status of a run: that of the process, or minus the number of the signal that ended it."""

    def __init__(self, status, out, err):
        self.status, self.out, self.err = status, out, err


def short(data):
    return repr(data if len(data) <= 200 else data[:150] + b" .. " + data[-50:])[1:]


def end_of(process):
    try:
        out, err = process.communicate(timeout=SECONDS)
    except subprocess.TimeoutExpired:
        process.kill()
        process.communicate()
        return Run(None, b"", b"(no end within %d seconds)" % SECONDS)
    return Run(process.returncode, out or b"", err or b"")


def start(arguments=(), environment=None, program=PROGRAM, **files):
    settings = {"stdin": subprocess.DEVNULL, "stdout": subprocess.PIPE, "stderr": subprocess.PIPE}
    settings.update(files)
    settings["env"] = dict(os.environ, **(environment or {}))
    return subprocess.Popen([program, *arguments], cwd=ROOM, **settings)


def run(data, arguments=(), environment=None):
    """Runs the program with these bytes in a file as its input."""
    with tempfile.TemporaryFile(dir=ROOM) as given:
        given.write(data)
        given.seek(0)
        return end_of(start(arguments, environment, stdin=given))


def run_in_pieces(data, size):
    """Runs the program on a pipe, of which each read gives the next `size` bytes, or fewer at the end."""
    read_end, write_end = os.pipe2(os.O_DIRECT | os.O_CLOEXEC)  # a read gets the bytes of one write

    def feed():
        try:
            for at in range(0, len(data), size):
                os.write(write_end, data[at : at + size])
        except BrokenPipeError:
            pass  # the program ended before the input did
        finally:
            os.close(write_end)

    process = start(stdin=read_end)
    os.close(read_end)
    feeder = threading.Thread(target=feed)
    feeder.start()
    ended = end_of(process)
    feeder.join()
    return ended


def differences(ended, out, status, err=b""):
    """What is wrong with a run that must write `out` and `err` and exit with `status`."""
    wrong = []
    if ended.out != out:
        wrong.append(f"wrote {short(ended.out)}, not {short(out)}")
    if ended.status != status:
        wrong.append(f"ended with {ended.status}, not {status}")
    if ended.err != err:
        wrong.append(f"told {short(ended.err)}, not {short(err)}")
    return wrong


def told(message):
    return b"rope-search: " + message + b"\n"


def open_input(data):
    """A file with these bytes, open at its start."""
    given = tempfile.TemporaryFile(dir=ROOM)
    given.write(data)
    given.seek(0)
    return given
