"""Shared by the tests of the bindings: copies of them, runs of their own tests, the code that their pages show, and programs
that execute commands by their calls."""
import os
import re
import shutil
import subprocess
import tempfile

from harness import ROOM, TOP, short
from protocol import spelled
from test_edits import BACK_AND_FORWARD, OF_ALL_KINDS, some_sessions
from test_replies import MORE_EXAMPLES, examples_of_page
from test_sources import broken_links

LIMIT = 900  # seconds
SESSIONS, SESSIONS_IN_RUN = 2_000, 500
PROGRAM_IN_RUST = """[package]
name = "shown"
version = "0.0.0"
edition = "2021"

[dependencies]
rope-search = {{ path = "{}" }}
"""


def read(*names):
    with open(os.path.join(TOP, *names), encoding="utf-8") as file:
        return file.read()


def copied(name):
    """A copy of a binding, with the pages that its tests read next to it, as in this repository; its folder."""
    top = os.path.join(ROOM, f"bindings-{name}")
    built = shutil.ignore_patterns("target", "node_modules", "Cargo.lock")
    shutil.copytree(os.path.join(TOP, "bindings", name), os.path.join(top, "bindings", name), ignore=built)
    shutil.copytree(os.path.join(TOP, "docs"), os.path.join(top, "docs"))
    return os.path.join(top, "bindings", name)


def ran(words, folder, **environment):
    """Runs a program in a folder, and returns its status and all its output."""
    settings = {"stdin": subprocess.DEVNULL, "stdout": subprocess.PIPE, "stderr": subprocess.STDOUT, "text": True}
    unset = ("ROPE_SEARCH_LIB_DIR", "ROPE_SEARCH_DYNAMIC", "PKG_CONFIG_PATH", "RUSTFLAGS", "CARGO_TARGET_DIR")
    kept = {name: value for name, value in os.environ.items() if name not in unset}
    try:
        done = subprocess.run(words, cwd=folder, timeout=LIMIT, errors="replace", env={**kept, **environment}, **settings)
    except subprocess.TimeoutExpired:
        return None, f"no end within {LIMIT} seconds"
    return done.returncode, done.stdout


def wrong_end(words, folder, due=(), **environment):
    """What is wrong with a run that must succeed and print lines of these forms."""
    status, said = ran(words, folder, **environment)
    if status != 0:
        return [f"ended with {status}", *said.splitlines()[-40:]]
    return [f"tells no {form!r}" for form in due if not re.search(form, said, re.M)]


def shown(name, language):
    """The code that a page shows first, and its output according to the page."""
    found = re.search(rf"(?s)```{language}\n(.*?)```.*?It prints\n\n```text\n(.*?)```", read("bindings", name, "README.md"))
    return found.groups() if found else ("", None)


def wrong_links(name):
    return broken_links(os.path.join(TOP, "bindings", name, "README.md"))


def wrong_prints(words, folder, due, **environment):
    """What is wrong with a program that must print this, in a folder."""
    status, said = ran(words, folder, **environment)
    return [] if (status, said) == (0, due) else [f"ended with {status}, and printed {said[-2_000:]!r}"]


def wrong_in_rust(package, target, **environment):
    """The code of the page must print what the page says, in a program of its own that depends on the package."""
    code, due = shown("rust", "rust")
    folder = tempfile.mkdtemp(dir=ROOM)
    os.mkdir(os.path.join(folder, "src"))
    for name, text in (("src/main.rs", code), ("Cargo.toml", PROGRAM_IN_RUST.format(package))):
        with open(os.path.join(folder, name), "w", encoding="utf-8") as out:
            out.write(text)
    words = ["cargo", "run", "--quiet", "--offline", "--target-dir", target]
    return wrong_prints(words, folder, due, **environment)


def wrong_in_node(node, package, **environment):
    """The same for Node's page, in a folder where the package is installed."""
    code, due = shown("node", "js")
    folder = tempfile.mkdtemp(dir=ROOM)
    os.mkdir(os.path.join(folder, "node_modules"))
    os.symlink(package, os.path.join(folder, "node_modules", "rope-search"))
    with open(os.path.join(folder, "main.mjs"), "w", encoding="utf-8") as out:
        out.write(code)
    return wrong_prints([node, "main.mjs"], folder, due, **environment)


def inputs_of_commands():
    """Inputs for a program that executes commands by calls of a binding, each with the expected output: the worked
    inputs, more, and random sessions, with the model's replies. If an input ends early the program's last line is left
    out."""
    inputs = [(data, re.sub(rb"error (command|end)\n$", b"", out) if status else out)
              for data, out, status in [*examples_of_page(), *MORE_EXAMPLES]]
    for kind, weights in (("of all kinds", OF_ALL_KINDS), ("back and forward", BACK_AND_FORWARD)):
        for seed in range(SESSIONS // SESSIONS_IN_RUN // 2):
            writer = some_sessions(("bindings", kind, seed).__repr__(), SESSIONS_IN_RUN, weights)
            inputs.append((b"".join(spelled(*command) for command in writer.commands), b"".join(writer.replies)))
    return inputs


def wrong_commands(words, **environment):
    """What is wrong with such a program."""
    for data, due in inputs_of_commands():
        done = subprocess.run(words, input=data, capture_output=True, timeout=LIMIT, env={**os.environ, **environment})
        if done.returncode or done.stdout != due:
            yield f"{short(data)}: status {done.returncode}, {short(done.stdout)}, not {short(due)}: {done.stderr.decode()}"


def newest_enough():
    """Node, if its version is at least 18, otherwise None."""
    node = shutil.which("node")
    if node:
        said = subprocess.run([node, "--version"], stdout=subprocess.PIPE, text=True).stdout
        if int((re.match(r"v(\d+)", said) or [0, "0"])[1]) >= 18:
            return node
    return None
