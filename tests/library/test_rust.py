"""The package for Rust, by its own tests in a copy: it declares what the header does, and links the library, which is found
by ROPE_SEARCH_LIB_DIR, by pkg-config, and next to the package. If cargo is missing, its tests are left out, and a message
says so.
"""
import os
import re
import shutil

from bindings import SESSIONS, copied, ran, read, wrong_commands, wrong_end, wrong_in_rust, wrong_links
from harness import LIBRARY, LIBRARY_FOLDER, ROOM, test
from test_library import declared, differing, reasons_declared, structures

# The types of the header in Rust.
IN_RUST = {
    "uint32_t": "u32", "uint64_t": "u64", "size_t": "usize", "bool": "bool", "bool*": "*mut bool", "const uint8_t*": "*const u8",
    "uint8_t*": "*mut u8", "rope_search*": "*mut RawSession", "size_t*": "*mut usize",
    "rope_search_position": "Position", "rope_search_position*": "*mut Position", "rope_search_span*": "*mut Span",
    "rope_search_match*": "*mut RawMatch", "rope_search_group*": "*mut RawGroup", "rope_search_stretch": "Stretch",
    "rope_search_pattern_reason*": "*mut RawReason", "const rope_search_text_edit*": "*const RawEdit",
    "rope_search_counts": "Counts", "rope_search_text_change*": "*mut TextChange",
    "rope_search_text_match*": "*mut Match", "rope_search_listed*": "*mut Listed",
}
STRUCTURES = {
    "rope_search": "RawSession", "rope_search_counts": "Counts",
    "rope_search_position": "Position", "rope_search_match": "RawMatch", "rope_search_span": "Span",
    "rope_search_group": "RawGroup", "rope_search_pattern_reason": "RawReason", "rope_search_text_edit": "RawEdit",
    "rope_search_stretch": "Stretch", "rope_search_text_change": "TextChange", "rope_search_text_match": "Match",
    "rope_search_listed": "Listed",
}


def wrong_declarations():
    """The calls and structures of raw.rs must be those of the header."""
    header, rust = read("include", "rope_search.h"), read("bindings", "rust", "src", "raw.rs")
    calls = {}
    for name, (result, *kinds) in declared(header).items():
        kinds = [IN_RUST.get(kind.replace(" *", "*"), kind) for kind in kinds]
        calls[name] = (None if result == "void" else IN_RUST[result], *kinds)
    ours = {}
    for name, parameters, result in re.findall(r"fn (rope_search_\w+)\(([^)]*)\)(?: -> (\w+))?;", rust):
        ours[name] = (result or None, *re.findall(r"\w+: ([^,]+?)(?=,|\s*$)", parameters))
    wrong = [f"{name}: {ours.get(name)}, not {calls.get(name)}" for name in {*calls, *ours} if calls.get(name) != ours.get(name)]
    types = rust + read("bindings", "rust", "src", "types.rs")
    for name, fields in structures(header).items():
        body = re.search(rf"#\[repr\(C\)\][^{{}}]*struct {STRUCTURES[name]} \{{(.*?)\n\}}", types, re.S)
        found = re.findall(r"(\w+): ([\w* ]+),", re.sub(r"//.*", "", body[1])) if body else []
        due = [(field.strip(" *"), kind, "*" in field) for kind, these in re.findall(r"(\w+) ([^;]+);", fields)
               for field in these.split(",")]
        due = [(field, "*mut c_void" if is_pointer else IN_RUST[kind]) for field, kind, is_pointer in due]
        wrong += [] if found == due else [f"{name}: {found}, not {due}"]
    return wrong


def wrong_words():
    """The reasons and refusals in Rust and Node must be those of the header."""
    header, rust = read("include", "rope_search.h"), read("bindings", "rust", "src", "error.rs")
    numbers, reasons, _ = reasons_declared(header, read("bindings", "lua", "rope_search.lua"))
    due = dict(zip(map(str, numbers[1:]), reasons))
    told = {number: text for number, text in re.findall(r'^    (\d+) \w+ "(.*)",$', rust, re.M)}
    wrong = differing("reasons", told, due)
    due = {number: word.lower() for word, number in re.findall(r"ROPE_SEARCH_(\w+) = (\d),? +/\*", header.partition("Why bytes are")[0])}
    words = dict(re.findall(r'Error::(\w+)(?:\(_\))? => "(\w+)"', rust))
    told = {number: words[name] for number, name in re.findall(r"^ +(\d) => Error::(\w+)", rust, re.M)}
    wrong += differing("refusals", told, due) + ([] if len(due) == 8 else [f"the header has {len(due)}"])
    in_node = set(re.findall(r'^  (\w+): "', read("bindings", "node", "rope-search.js"), re.M))
    return wrong + [f"Node: {word}" for word in in_node ^ (set(due.values()) - {"closed"})]


def wrong_ways(folder, target):
    """The library must be found by pkg-config and next to the package, as a shared one if that is requested; and if
    there is none, the build must say what to do."""
    check = ["cargo", "test", "--offline", "--quiet", "--target-dir", target, "--test", "session", "texts"]
    passed = [r"^test result: ok\. [1-9]"]
    ways = [("a shared library", {"ROPE_SEARCH_LIB_DIR": LIBRARY_FOLDER, "ROPE_SEARCH_DYNAMIC": "1"})]
    if shutil.which("pkg-config"):
        found = os.path.join(ROOM, "pkg-config")
        os.mkdir(found)
        with open(os.path.join(found, "rope_search.pc"), "w", encoding="utf-8") as out:
            out.write(f"Name: rope_search\nDescription: a test\nVersion: 1\nLibs: -L{LIBRARY_FOLDER} -lrope_search\n")
        ways.append(("pkg-config", {"PKG_CONFIG_PATH": found}))
    else:
        print("no pkg-config: bindings/rust isn't linked by it")
    wrong = [f"{way}: {line}" for way, environment in ways for line in wrong_end(check, folder, passed, **environment)]
    nowhere = {"PKG_CONFIG": "/nowhere/pkg-config"}
    status, said = ran(check, folder, **nowhere)
    if status == 0 or "ROPE_SEARCH_LIB_DIR" not in said:
        wrong.append("without a library it doesn't say what to do")
    status, said = ran(check, folder, ROPE_SEARCH_LIB_DIR=folder)
    if status == 0 or "ROPE_SEARCH_LIB_DIR" not in said:
        wrong.append("with a folder without the library it doesn't say so")
    beside = os.path.join(os.path.dirname(os.path.dirname(folder)), "lib")
    os.symlink(LIBRARY_FOLDER, beside)
    wrong += [f"beside the package: {line}" for line in wrong_end(check, folder, passed, **nowhere)]
    os.remove(beside)
    return wrong


def test_all():
    test("bindings/rust declares what the header does", wrong_declarations())
    test("bindings/rust and bindings/node name the reasons and refusals of the header", wrong_words())
    test("the links of bindings/rust/README.md", wrong_links("rust"))
    for tool, present in (("cargo", shutil.which("cargo")), (LIBRARY, os.path.exists(LIBRARY))):
        if not present:
            print(f"no {tool}: the tests of bindings/rust aren't run")
            return
    folder, target = copied("rust"), os.path.join(ROOM, "rust-target")
    found = {"ROPE_SEARCH_LIB_DIR": LIBRARY_FOLDER}
    words = ["cargo", "test", "--offline", "--target-dir", target, "--", "--show-output"]
    test("bindings/rust: cargo test", wrong_end(words, folder, [r"^\d+ worked inputs$", "Doc-tests rope_search"], **found))
    words = ["cargo", "build", "--offline", "--quiet", "--target-dir", target, "--example", "commands"]
    wrong = wrong_end(words, folder, **found) or wrong_commands([os.path.join(target, "debug", "examples", "commands")])
    test(f"bindings/rust: commands by calls, with {SESSIONS} sessions at random", wrong)
    test("bindings/rust: the code of its page", wrong_in_rust(folder, target, **found))
    test("bindings/rust: the ways to the library", wrong_ways(folder, target))
    if ran(["cargo", "clippy", "--version"], folder)[0] == 0:
        words = ["cargo", "clippy", "--offline", "--all-targets", "--target-dir", target, "--", "-D", "warnings"]
        test("bindings/rust: cargo clippy", wrong_end(words, folder, **found))
    else:
        print("no clippy: bindings/rust isn't read by it")
    if ran(["cargo", "fmt", "--version"], folder)[0] == 0:
        test("bindings/rust: cargo fmt", wrong_end(["cargo", "fmt", "--check"], folder))
    else:
        print("no rustfmt: the layout of bindings/rust isn't checked")
