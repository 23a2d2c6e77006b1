"""The page of examples/web in Chromium: a pattern and its matches, edits, replacement, a pattern on which RegExp hangs,
files. The marks are compared with those of a new search."""
import json
import os
import re
import tempfile

from browser import Page, Served
from harness import ROOM
from protocol import units

IDLE = "document.documentElement?.dataset.idle === 'true'"
# The lines that are shown, each with its number, its text, and what is marked in it, by columns.
SHOWN = """[...document.querySelectorAll("#lines .line")].map((line) => {
  let at = 0;
  const marks = [];
  for (const node of line.childNodes) {
    if (node.nodeName === "MARK") marks.push([at, at + node.textContent.length]);
    at += node.textContent.length;
  }
  return [Number(line.dataset.number), line.textContent, marks];
})"""
ARROWS = r"\w+\s*=>\s*\w+"


def text_of(page, name):
    return page.value(f"document.getElementById({name!r}).textContent")


def count_of(page):
    """The number of matches, as the page shows it."""
    return re.search(r"[\d,]+(?= match|$)", text_of(page, "place"))[0]


def settled(page):
    page.wait(IDLE)


def wrong_marks(page, pattern):
    """The marks must be those of a new search in the lines that are shown."""
    rows = page.value(SHOWN)
    wrong = [] if len(rows) > 20 else [f"{len(rows)} lines are shown"]
    for number, text, marks in rows:
        due = [[units(text[:place]) for place in found.span()] for found in re.finditer(pattern, text, re.A)]
        wrong += [] if marks == due else [f"line {number}, {text!r}: {marks}, not {due}"]
    return wrong + ([] if any(marks for _, _, marks in rows) else ["nothing is marked"])


def tab_to(page, name):
    for _ in range(20):
        if page.value("document.activeElement.id") == name:
            return []
        page.press("Tab")
    return [f"Tab doesn't lead to {name}"]


def set_pattern(page, pattern):
    page.value("document.getElementById('pattern').focus(), document.getElementById('pattern').select()")
    page.type(pattern)
    settled(page)


def wrong_search(page):
    """A pattern, its matches in order, and one that is none."""
    wrong = [] if text_of(page, "place") == "no pattern" else [f"at first: {text_of(page, 'place')}"]
    set_pattern(page, ARROWS)
    wrong += wrong_marks(page, ARROWS)
    count = re.match(r"([\d,]+) matches$", text_of(page, "place"))
    places = []
    for shift in (False, False, True, True):
        page.press("Enter", shift=shift)
        settled(page)
        places.append(text_of(page, "place").split(" of ")[0])
    is_right = count and places == ["1", "2", "1", count[1]]
    wrong += [] if is_right else [f"from match to match: {places}, {text_of(page, 'place')}"]
    wrong += wrong_marks(page, ARROWS)
    set_pattern(page, "(é")
    told = text_of(page, "fault")
    return wrong + ([] if "column 3: a group isn't closed" in told else [f"of no pattern it says {told!r}"])


# Sets a pattern at once, and keeps what the page then says of its matches.
WATCHED = """((pattern) => {
  const place = document.getElementById("place");
  window.said = [];
  new MutationObserver(() => window.said.push(place.textContent)).observe(place, { childList: true });
  const field = document.getElementById("pattern");
  field.value = pattern;
  field.dispatchEvent(new Event("input"));
})(PATTERN)"""


def wrong_slices(page):
    """The report comes in slices of 4,000 lines, with the marks of the lines in sight from the first on."""
    set_pattern(page, "x")
    page.value(WATCHED.replace("PATTERN", json.dumps(ARROWS)))
    page.wait("window.said.some((text) => / lines$/.test(text))")
    wrong = wrong_marks(page, ARROWS)
    settled(page)
    said = page.value("window.said")
    done = [re.fullmatch(r"[\d,]+ match(?:es)? in ([\d,]+) of ([\d,]+) lines", text) for text in said]
    pairs = [tuple(int(number.replace(",", "")) for number in found.groups()) for found in done if found]
    lines = pairs[0][1] if pairs else 0
    due = [(first, lines) for first in range(0, lines, 4000)]
    wrong += [] if pairs and sorted(set(pairs)) == due else [f"the slices are {pairs}"]
    is_whole = re.fullmatch(r"[\d,]+ matches|[\d,]+ of [\d,]+", said[-1])
    return wrong + ([] if is_whole else [f"at last: {said[-1]}"])


def wrong_edits(page):
    """Letters that are typed, undone and redone, with the keyboard only."""
    set_pattern(page, ARROWS)
    before = count_of(page)
    wrong = tab_to(page, "keys")
    page.press("Home", control=True)
    page.type("a => b ")
    page.press("Enter")
    page.type("c =")
    page.type("> d")
    settled(page)
    edited = [text for _, text, _ in page.value(SHOWN)][:2]
    wrong += [] if edited[0] == "a => b " and edited[1].startswith("c => dType") else [f"the edited lines are {edited}"]
    wrong += wrong_marks(page, ARROWS)
    steps = (("z", False, "c =Type"), ("z", False, "Type"), ("y", False, "c =Type"), ("z", True, "c => dType"))
    for key, shift, due in steps:
        page.press(key, control=True, shift=shift)
        settled(page)
        line = page.value(SHOWN)[1][1]
        wrong += [] if line.startswith(due) else [f"after {key}: {line!r}"]
        wrong += wrong_marks(page, ARROWS)
    for _ in range(4):
        page.press("z", control=True)
    settled(page)
    after = page.value(SHOWN)[0][1]
    wrong += [] if after.startswith("Type") else [f"after all undos: {after!r}"]
    return wrong + ([] if count_of(page) == before else [f"after all undos {count_of(page)} matches, not {before}"])


def wrong_replacement(page):
    set_pattern(page, ARROWS)
    before = [text for _, text, _ in page.value(SHOWN)]
    page.value("document.getElementById('template').focus()")
    page.type("[$0]")
    page.press("Enter")  # goes to a match
    page.press("Enter")  # and replaces it
    settled(page)
    page.value("document.getElementById('replaceAll').click()")
    settled(page)
    page.value("document.getElementById('keys').focus()")
    page.press("Home", control=True)
    settled(page)
    due = re.sub(ARROWS, r"[\g<0>]", "\n".join(before), flags=re.A).replace("[[", "[").replace("]]", "]")
    got = "\n".join(text for _, text, _ in page.value(SHOWN)).replace("[[", "[").replace("]]", "]")
    wrong = [] if got == due else ["the lines after a replacement are others"]
    page.press("z", control=True)
    page.press("z", control=True)
    page.press("Home", control=True)
    settled(page)
    return wrong + ([] if [text for _, text, _ in page.value(SHOWN)] == before else ["the undone lines are others"])


DROPPED = """((bytes) => {
  const files = new DataTransfer();
  files.items.add(new File([new Uint8Array(bytes)], "dropped.txt"));
  const how = { dataTransfer: files, bubbles: true, cancelable: true };
  document.getElementById("window").dispatchEvent(new DragEvent("drop", how));
})(BYTES)"""


def wrong_files(page):
    """A file that is dropped on the lines is opened, unless it isn't UTF-8."""
    set_pattern(page, "é+")
    data = "é\r\n🐸éé\r\n".encode() + b"\n".join(b"line %d" % number for number in range(40))
    for given in (data, b"\xff"):
        page.value(DROPPED.replace("BYTES", json.dumps(list(given))))
        # The file is read before it is sent.
        page.wait("document.querySelector('#lines .line').textContent === 'é'")
        settled(page)
    page.wait("document.getElementById('fault').textContent !== ''")
    rows, told = page.value(SHOWN)[:3], text_of(page, "fault")
    wrong = [] if rows == [[1, "é", [[0, 1]]], [2, "🐸éé", [[2, 4]]], [3, "line 0", []]] else [f"the lines are {rows}"]
    return wrong + ([] if "not UTF-8" in told else [f"of bytes that aren't UTF-8 it says {told!r}"])


def wrong_hanging(page):
    """A pattern on which RegExp takes exponential time: here its matches are found, and RegExp is stopped."""
    page.value("document.getElementById('hang').click()")
    settled(page)
    found = text_of(page, "place")
    page.wait("document.getElementById('thereAll').textContent === 'ended after 2 s'")
    return [] if re.fullmatch(r"[\d,]+ matches|\d+ of [\d,]+", found) else [f"it says {found!r}"]


def in_browser(top, module, checks):
    """What each of some checks finds wrong with the page of a repository or release."""
    with Served(top, module) as served, tempfile.TemporaryDirectory(dir=ROOM, ignore_cleanup_errors=True) as home, \
            Page(f"{served.at}/examples/web/", home) as page:
        page.wait(IDLE)
        return [check(page) for check in checks]


def wrong_released(top):
    """The page must work where a release is unpacked."""
    return in_browser(top, os.path.join(top, "bin", "rope_search.wasm"), [wrong_search])[0]


PARTS_OF_PAGE = {"a pattern and its matches": wrong_search, "a report in slices": wrong_slices, "edits": wrong_edits,
                 "replacement": wrong_replacement, "a pattern on which RegExp hangs": wrong_hanging, "files": wrong_files}
