"""The module for Node, which runs the program, by its own tests in a copy. If Node is missing, they are left out, and a
message says so."""
import glob
import os
import re

from bindings import SESSIONS, copied, newest_enough, read, wrong_commands, wrong_end, wrong_in_node, wrong_links
from harness import PROGRAM, TOP, test


def wrong_version():
    """The bindings must have the version of the repository."""
    version = read("VERSION").strip()
    told = {name: re.search(r'"?version"?\s*[:=]\s*"(.*?)"', read("bindings", *name.split("/")))[1]
            for name in ("rust/Cargo.toml", "node/package.json")}
    return [f"bindings/{name} has the version {other}" for name, other in told.items() if other != version]


def test_all():
    test("the bindings have the version of the repository", wrong_version())
    test("the links of bindings/node/README.md", wrong_links("node"))
    names = {os.path.basename(path) for path in glob.glob(os.path.join(TOP, "bindings", "node", "*.*s"))}
    listed = set(re.findall(r'"([\w-]+\.(?:d\.ts|js))"', read("bindings", "node", "package.json").partition('"files"')[2]))
    test("bindings/node/package.json names its files", sorted(f"{name} isn't listed" for name in names - listed))
    node = newest_enough()
    if not node:
        print("no Node 18 or later: the tests of bindings/node aren't run")
        return
    folder = copied("node")
    test("bindings/node: node --test", wrong_end([node, "--test"], folder, ["^# fail 0|^ℹ fail 0"], ROPE_SEARCH=PROGRAM))
    words = [node, os.path.join(folder, "examples", "commands.js")]
    wrong = wrong_commands(words, ROPE_SEARCH=PROGRAM)
    test(f"bindings/node: commands by calls, with {SESSIONS} sessions at random", wrong)
    test("bindings/node: the code of its page", wrong_in_node(node, folder, ROPE_SEARCH=PROGRAM))
