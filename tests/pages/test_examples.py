"""The examples of the pages: the session of `make demo`, also as a shell line, and code."""
import glob
import os
import re
import subprocess
import sys

from harness import PROGRAM, TOP, test


def test_demo():
    demo = os.path.join(TOP, "examples", "demo.py")
    session = os.path.join(TOP, "examples", "first.session")
    ended = subprocess.run([sys.executable, demo, session, PROGRAM], stdin=subprocess.DEVNULL, stdout=subprocess.PIPE)
    shown = ended.stdout.decode()
    test("the demo ends well", [] if ended.returncode == 0 else [f"with {ended.returncode}"])
    with open(session, "rb") as file:
        data = file.read()
    out = subprocess.run([PROGRAM], input=data, stdout=subprocess.PIPE).stdout.decode()
    told = "".join(line for line in shown.splitlines(True) if not line.startswith("> "))
    test("the demo shows what the program answers to the whole session", [] if told == out else [f"it shows {told!r}"])
    tried = [sys.executable, "-c", "import demo, sys; sys.exit(demo.show_tried(sys.argv[1]))", session]
    environment = dict(os.environ, RT=PROGRAM)  # which ignores the word `try`
    ended = subprocess.run(tried, cwd=os.path.dirname(demo), env=environment, stdout=subprocess.PIPE)
    first, _, rest = ended.stdout.decode().partition("\n")
    same = ended.returncode == 0 and first and rest == shown
    test("the demo shows the same where all replies come at the end", [] if same else [f"it shows {rest!r}"])
    with open(os.path.join(TOP, "README.md"), encoding="utf-8") as file:
        block = "".join(f"    {line}".rstrip() + "\n" for line in shown.splitlines())
        test("README.md shows the demo's session", [] if block in file.read() else ["it shows another"])


def test_by_hand():
    """README.md has the session as a line for a shell."""
    with open(os.path.join(TOP, "README.md"), encoding="utf-8") as file:
        lines = re.findall(r"^    (printf '%b' (?:.*\\\n)*.*) \| bin/rope-search$", file.read(), re.MULTILINE)
    test("README.md has a line for a shell", [] if len(lines) == 1 else [f"it has {len(lines)}"])
    for shell in ("sh", "bash"):
        sent = subprocess.run([shell, "-c", lines[0]], stdout=subprocess.PIPE).stdout
        with open(os.path.join(TOP, "examples", "first.session"), "rb") as file:
            test(f"it is the demo's session by {shell}", [] if sent == file.read() else [f"it sends {sent!r}"])


def names_of(tree, front=""):
    """The paths in a tree of `use`."""
    first, brace, inside = re.sub(r"\s", "", tree).partition("{")
    if not brace:
        return {front + first.replace("::self", "")} - {front}
    parts, depth = [""], 0
    for character in inside[:-1]:
        depth += (character == "{") - (character == "}")
        parts = parts + [""] if character == "," and depth == 0 else parts[:-1] + [parts[-1] + character]
    return {name.replace("::self", "") for part in parts if part for name in names_of(part, front + first)}


def used_in(code):
    """The paths in the `use` lines of code."""
    return {name for tree in re.findall(r"^use ([^;]*);", code, re.MULTILINE) for name in names_of(tree)}


def test_code():
    """Each code block of a page is in a test that the gate runs, which uses the same paths."""

    def bare(text):
        return "\n".join(line.strip() for line in text.splitlines())

    def read(path):
        with open(path, encoding="utf-8") as file:
            return file.read()

    def stands_in(block, code):
        body = re.sub(r"\A(?:use [^;]*;\n)+\n", "", block)
        return bare(body) in bare(code) and used_in(block) <= used_in(code)

    forms = (("crates", "*_tests", "src", "*.rt"), ("tests", "compiled", "*_tests", "src", "*.rt.txt"))
    tests = [read(path) for form in forms for path in glob.glob(os.path.join(TOP, *form))]
    for form in ("*.md", "docs/*.md", "crates/*/README.md"):
        for path in sorted(glob.glob(os.path.join(TOP, form))):
            name = os.path.relpath(path, TOP)
            blocks = re.findall(r"```rust\n(.*?)\n```", read(path), re.DOTALL)
            for block in blocks:
                stands = any(stands_in(block, code) for code in tests)
                test(f"{name}: {block.splitlines()[0]!r} is in a test", [] if stands else ["it is in none"])
            if name == "README.md":
                test("README.md has code", [] if len(blocks) >= 2 else [f"{len(blocks)} blocks"])


def naming(pattern):
    """The files of the crates from reports up that use regexes, except in ghost imports."""
    named, found = re.compile(rf"^(?!ghost use ).*\b{pattern}\b", re.MULTILINE), set()
    for path in glob.glob(os.path.join(TOP, "crates", "rope_search*", "src", "**", "*.rt"), recursive=True):
        with open(path, encoding="utf-8") as file:
            if named.search(file.read()):
                found.add(os.path.relpath(path, os.path.join(TOP, "crates", "rope_search_reports", "src")))
    return found


def test_one_regex():
    """The crate of reports builds its regex and searches with it in only one file, which counts each search."""
    home = os.path.join("rows", "counted.rt")
    found = naming("regex_cursor::engines")
    test("one file has the regex of a report", [] if found == {home} else [f"it is in {sorted(found)}"])
    found = naming("regex_cursor")
    due = {home, "explaining.rt", "escaping.rt"}  # the other two re-export why a text is no pattern, and how to escape one
    test("and names what it is made of", [] if found == due else [f"others name it: {sorted(found ^ due)}"])


def test_all():
    test_demo()
    test_by_hand()
    test_code()
    test_one_regex()
