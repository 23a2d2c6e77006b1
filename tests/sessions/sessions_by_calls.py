"""Random sessions by calls of the library for C, in one process with a plain model. The program is in Rust, in
tests/sessions; it is built with rustc and the static library, and reads data of Unicode that Python writes."""
import base64
import functools
import os
import re
import shutil
import subprocess
import tempfile

from harness import LIBRARY_FOLDER, ROOM, TOP
from pattern_model import folded_alike, letter_class

STATIC_LIBRARY = os.path.join(LIBRARY_FOLDER, "librope_search.a")
GUIDED = os.path.join(TOP, "tests", "sessions", "guided.txt")
KEPT = os.environ.get("SESSIONS_ROOM")  # a folder that keeps the program and its files from run to run
LEAST_RUSTC = 85  # the first with the 2024 edition
BUILD = ["--edition", "2024", "-O", "-C", "panic=abort", "-C", "link-arg=-Wl,--wrap=malloc,--wrap=realloc,--wrap=free"]


def missing_compiler():
    """What is missing to compile the program, or None."""
    if not shutil.which("rustc"):
        return "no rustc"
    told = subprocess.run(["rustc", "--version"], stdin=subprocess.DEVNULL, stdout=subprocess.PIPE, text=True).stdout
    version = re.match(r"rustc 1\.(\d+)", told)
    return None if version and int(version[1]) >= LEAST_RUSTC else f"no rustc from 1.{LEAST_RUSTC} on"


def missing():
    """What the sessions need and isn't available, or None."""
    if not os.access(STATIC_LIBRARY, os.R_OK):
        return f"no {os.path.relpath(STATIC_LIBRARY, TOP)}"
    return missing_compiler()


@functools.lru_cache(maxsize=None)
def unicode_file():
    """A file with the ranges of the letter classes, and the characters that have one simple case folding."""
    path = os.path.join(KEPT or ROOM, "unicode.txt")
    if KEPT and os.path.exists(path):
        return path
    with open(path, "w", encoding="utf-8") as out:
        for letter in "dsw":
            print(letter, *(number for ends in letter_class(letter).ranges for number in ends), file=out)
        for numbers in folded_alike():
            print("f", *sorted(numbers), file=out)
    return path


@functools.lru_cache(maxsize=None)
def built():
    """The program, or None if it can't be built, and what rustc says then."""
    made = os.path.join(KEPT or ROOM, "sessions")
    if KEPT and os.path.exists(made):
        return made, []
    words = ["rustc", *BUILD, "-L", f"native={LIBRARY_FOLDER}", "-l", "static=rope_search", "-o", made,
             os.path.join(TOP, "tests", "sessions", "main.rs")]
    done = subprocess.run(words, stdin=subprocess.DEVNULL, stderr=subprocess.PIPE, text=True, errors="replace")
    return (made if done.returncode == 0 else None), done.stderr.splitlines()


def ran(what, *words):
    """The output of the program for some sessions, and its status."""
    words = [built()[0], unicode_file(), what, *map(str, words)]
    settings = {"stdin": subprocess.DEVNULL, "stdout": subprocess.PIPE, "text": True, "errors": "replace"}
    done = subprocess.run(words, check=False, env={**os.environ, "RUST_BACKTRACE": "0"}, **settings)
    return done.stdout, done.returncode


def compared(*words):
    """Messages about sessions that fail, and the number of those that were compared in part."""
    said, status = ran(*words)
    *failed, last = said.rstrip("\n").split("\n")
    counts = last.split(" ")
    if status not in (0, 1) or counts[1:2] != ["sessions,"]:
        return [f"the program ends with {status}: {said[-2_000:]}"], 0
    failed = "\n".join(failed).split("FAILED: ")[1:]
    return [one.rstrip("\n") for one in failed], int(counts[-3])


def failures(seed, first, count, is_quick=False):
    """The same of these sessions of a seed; or quickly, the name of the first that fails alone."""
    return compared("quick" if is_quick else "check", seed, first, count)


def failures_of(paths):
    """Messages about failing sessions among those that the bytes of files choose."""
    return compared("bytes", *paths)[0]


def write_guided(folder):
    """Writes the bytes of the sessions of tests/sessions/guided.txt, each to a file: their paths."""
    with open(GUIDED, encoding="ascii") as lines:
        inputs = [base64.b64decode(line) for line in lines]
    paths = [os.path.join(folder, f"{number:05}") for number in range(len(inputs))]
    for path, data in zip(paths, inputs):
        with open(path, "wb") as out:
            out.write(data)
    return paths


def failures_of_guided():
    """Messages about failing sessions of tests/sessions/guided.txt, and the number of its sessions."""
    with tempfile.TemporaryDirectory(dir=ROOM) as folder:
        paths = write_guided(folder)
        return failures_of(paths), len(paths)


def sessions_told(seed, first, count):
    """The calls of sessions with the model's answers, as lines for plain_sessions."""
    said, _ = ran("tell", seed, first, count)
    return [[line for line in one.split("\n")[1:] if line] for one in ("\n" + said).split("\nsession ")[1:]]
