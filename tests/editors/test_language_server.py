"""The language server of examples/: a client over pipes compared with a plain model of documents, after random edits in
each encoding; worked positions, replacements and wrong messages; and Neovim's own client, if Neovim is installed."""
import glob
import json
import os
import queue
import random
import re
import shutil
import subprocess
import sys
import threading

from harness import LIBRARY, ROOM, SECONDS, TOP, test
from pattern_model import matches
from protocol import lines_of
from walks import is_word

SERVER = os.path.join(TOP, "examples", "language_server")
COMMAND = [sys.executable, SERVER]
ENVIRONMENT = {"ROPE_SEARCH_LIBRARY": LIBRARY}
ENCODINGS = ("utf-8", "utf-16", "utf-32")
DEFAULT = "TODO|FIXME"
PARSE, REQUEST, METHOD, PARAMS, NOT_YET = -32700, -32600, -32601, -32602, -32002
DOCUMENTS, NOTIFICATIONS = 12, 40  # in each encoding, and of each document


# ---- a client


def frame(message):
    body = message if isinstance(message, bytes) else json.dumps(message).encode()
    return b"Content-Length: %d\r\n\r\n%b" % (len(body), body)


def frames(stream):
    """The messages of a server's output, which must be frames and nothing else."""
    while head := stream.readline():
        found = re.fullmatch(rb"Content-Length: (\d+)\r\n", head)
        if not found or stream.readline() != b"\r\n":
            yield {"no frame": head}
            return
        yield json.loads(stream.read(int(found[1])))


class Client:
    """A server, and its output. A thread reads that, so that neither waits for the other."""

    def __init__(self, command=tuple(COMMAND), environment=None):
        pipes = {"stdin": subprocess.PIPE, "stdout": subprocess.PIPE, "stderr": subprocess.DEVNULL}
        self.server = subprocess.Popen(command, cwd=ROOM, env=dict(os.environ, **(environment or ENVIRONMENT)), **pipes)
        self.said, self.told, self.count = queue.Queue(), [], 0
        threading.Thread(target=self.listen, daemon=True).start()

    def listen(self):
        for message in frames(self.server.stdout):
            self.said.put(message)
        self.said.put(None)

    def send(self, data):
        self.server.stdin.write(data)
        self.server.stdin.flush()

    def notify(self, method, **params):
        self.send(frame({"jsonrpc": "2.0", "method": method, "params": params}))

    def ask(self, method, **params):
        """The answer to a request. Notifications before it are kept in `told`, and so are answers without a request."""
        self.count += 1
        self.send(frame({"jsonrpc": "2.0", "id": self.count, "method": method, "params": params}))
        return self.answer(self.count)

    def answer(self, number):
        while True:
            message = self.said.get(timeout=SECONDS)
            if message is None or message.get("id") == number and "method" not in message:
                return message
            self.told.append(message)

    def begin(self, encodings=None, options=None, **capabilities):
        if encodings is not None:
            capabilities["general"] = {"positionEncodings": encodings}
        return self.ask("initialize", processId=None, rootUri=None, capabilities=capabilities, initializationOptions=options)

    def open(self, uri, text, version=1):
        self.notify("textDocument/didOpen", textDocument={"uri": uri, "languageId": "text", "version": version, "text": text})

    def change(self, uri, version, *changes):
        self.notify("textDocument/didChange", textDocument={"uri": uri, "version": version}, contentChanges=[
            {"text": change[-1], **({"range": range_of(*change[:2])} if len(change) == 3 else {})} for change in changes])

    def since(self):
        """The output of the server since the last call, once it has read everything that was sent."""
        self.ask("no/such/method")
        told, self.told = self.told, []
        return told

    def published(self):
        """The diagnostics that were published since, as pairs of a document and its list."""
        return [(told["params"]["uri"], [listed(one) for one in told["params"]["diagnostics"]])
                for told in self.since() if told.get("method") == "textDocument/publishDiagnostics"]

    def end(self):
        """The status with which the server ends when its input does."""
        self.server.stdin.close()
        try:
            return self.server.wait(SECONDS)
        except subprocess.TimeoutExpired:
            self.server.kill()
            return self.server.wait()


def range_of(start, end):
    (line, column), (to_line, to_column) = start, end
    return {"start": {"line": line, "character": column}, "end": {"line": to_line, "character": to_column}}


def span(value):
    """The line and columns of a range in one line, otherwise the whole range."""
    start, end = value["start"], value["end"]
    return (start["line"], start["character"], end["character"]) if start["line"] == end["line"] else value


def listed(diagnostic):
    return (*span(diagnostic["range"]), diagnostic["message"])


def highlights(answer):
    """The ranges that are highlighted, or the whole answer if it has no result."""
    return [span(one["range"]) for one in answer["result"]] if answer and "result" in answer else answer


def code(answer):
    return answer.get("error", {}).get("code") if answer else "no answer"


# ---- a model


def width(encoding, text):
    """The number of units of a text."""
    return {"utf-8": len(text.encode()), "utf-16": len(text.encode("utf-16-le")) // 2, "utf-32": len(text)}[encoding]


def place(encoding, text, line, column):
    """The character of a text at a position, clamped as the protocol requires."""
    lines = lines_of(text)
    if line >= len(lines):
        return len(text)
    start, end = lines[line]
    return max(at for at in range(start, end + 1) if width(encoding, text[start:at]) <= column)


def places(encoding, pattern, text):
    """The matches of a pattern in each line of a text, as a line, columns, and the match's text."""
    found = []
    for line, (start, end) in enumerate(lines_of(text)):
        row = text[start:end]
        spans = [one.span() for one in re.finditer(DEFAULT, row)] if pattern == DEFAULT else matches(pattern, row)
        found += [(line, width(encoding, row[:low]), width(encoding, row[:high]), row[low:high]) for low, high in spans]
    return found


def diagnosed(encoding, pattern, text):
    return [(*found[:3], found[3] or "empty match") for found in places(encoding, pattern, text)]


def words(text):
    """The words of each line of a text: their line, and where they start and end, in characters."""
    for line, (start, end) in enumerate(lines_of(text)):
        at = start
        while at < end:
            stop = at
            while stop < end and is_word(text[stop]):
                stop += 1
            if stop > at:
                yield line, at, stop
            at = max(stop, at + 1)


def highlighted(encoding, text, line, column):
    at, lines, all_words = place(encoding, text, line, column), lines_of(text), list(words(text))
    word = next((text[start:stop] for _, start, stop in all_words if start <= at <= stop), None)
    return [(row, *(width(encoding, text[lines[row][0] : end]) for end in (start, stop)))
            for row, start, stop in all_words if text[start:stop] == word]


def edited(encoding, text, start, end, new):
    low, high = sorted((place(encoding, text, *start), place(encoding, text, *end)))
    return text[:low] + new + text[high:]


# ---- random edits

PIECES = ("TODO", "FIXME", "TO", "DO", "FIX", "ME", " ", "\n", "\r", "\r\n", "é", "🐸", "a", "x1", "_", "\u2028", "e\u0301", "ß\n\n",
          "日本", "\x0b", "", "🐸🐸\rTODO\n", "a TODO é FIXME 🐸\r\n")


def some_text(chance, most):
    return "".join(chance.choice(PIECES) for _ in range(chance.randint(0, most)))


def some_position(chance, text):
    line = chance.choice((0, chance.randint(0, len(lines_of(text)) + 1), chance.randint(0, len(lines_of(text)) - 1)))
    return line, chance.choice((0, 1, chance.randint(0, 40), chance.randint(0, 9), (1 << 31) - 1))


def some_changes(chance, encoding, text):
    """Changes in order, as they are sent, and the text after them."""
    changes = []
    for _ in range(chance.choice((1, 1, 1, 2, 3, 5))):
        if chance.random() < 0.04:
            text = some_text(chance, 12)
            changes.append((text,))
            continue
        start, end = some_position(chance, text), some_position(chance, text)
        if chance.random() < 0.5:
            end = start
        new = some_text(chance, 3)
        changes.append((start, end, new) if chance.random() < 0.1 else (*sorted((start, end)), new))
        text = edited(encoding, text, start, end, new)
    return changes, text


def wrong_walk(encoding, pattern, seed):
    """What is wrong with a server's diagnostics of two documents that are changed randomly."""
    chance = random.Random(repr((encoding, pattern, seed)))
    client, texts, version = Client(), {}, 1
    client.begin([encoding], {"pattern": pattern})
    for uri in ("file:///a", "file:///b"):
        texts[uri] = some_text(chance, 20)
        client.open(uri, texts[uri])
    due = [(uri, diagnosed(encoding, pattern, text)) for uri, text in texts.items()]
    if (got := client.published()) != due:
        yield f"of the texts {texts} it publishes {got}, not {due}"
    for step in range(NOTIFICATIONS):
        uri, version = chance.choice(sorted(texts)), version + 1
        before = diagnosed(encoding, pattern, texts[uri])
        changes, texts[uri] = some_changes(chance, encoding, texts[uri])
        client.change(uri, version, *changes)
        after = diagnosed(encoding, pattern, texts[uri])
        due = [(uri, after)] if after != before else []
        if (got := client.published()) != due:
            yield f"seed {seed}, step {step}: after {changes} it publishes {got}, not {due}"
            break
        position = some_position(chance, texts[uri])
        answer = client.ask("textDocument/documentHighlight", textDocument={"uri": uri},
                            position={"line": position[0], "character": position[1]})
        got, due = highlights(answer), highlighted(encoding, texts[uri], *position)
        if got != due:
            yield f"seed {seed}, step {step}: at {position} of {texts[uri]!r} it highlights {got}, not {due}"
            break
    if (status := client.end()) != 1:
        yield f"it ends with {status}"


def test_walks():
    for encoding in ENCODINGS:
        for pattern in (DEFAULT, ".+", "a", "x*|é"):
            wrong = [one for seed in range(DOCUMENTS // 2) for one in wrong_walk(encoding, pattern, seed)]
            test(f"{DOCUMENTS} documents under `{pattern}`, {NOTIFICATIONS // 2} changes at random of each, in {encoding}", wrong)


# ---- rows

# A text, an encoding, and a position; and the text once `|` was inserted there.
POSITIONS = [
    ("aé🐸b", "utf-16", (0, 0), "|aé🐸b"),
    ("aé🐸b", "utf-16", (0, 2), "aé|🐸b"),
    ("aé🐸b", "utf-16", (0, 3), "aé|🐸b"),
    ("aé🐸b", "utf-16", (0, 4), "aé🐸|b"),
    ("aé🐸b", "utf-16", (0, 5), "aé🐸b|"),
    ("aé🐸b", "utf-16", (0, 6), "aé🐸b|"),
    ("aé🐸b", "utf-8", (0, 2), "a|é🐸b"),
    ("aé🐸b", "utf-8", (0, 3), "aé|🐸b"),
    ("aé🐸b", "utf-8", (0, 4), "aé|🐸b"),
    ("aé🐸b", "utf-8", (0, 6), "aé|🐸b"),
    ("aé🐸b", "utf-8", (0, 7), "aé🐸|b"),
    ("aé🐸b", "utf-8", (0, 9), "aé🐸b|"),
    ("aé🐸b", "utf-32", (0, 3), "aé🐸|b"),
    ("aé🐸b", "utf-32", (0, 5), "aé🐸b|"),
    ("aé🐸b", "utf-32", (7, 0), "aé🐸b|"),
    ("a\r\nb\rc\n", "utf-16", (0, 9), "a|\r\nb\rc\n"),
    ("a\r\nb\rc\n", "utf-16", (1, 9), "a\r\nb|\rc\n"),
    ("a\r\nb\rc\n", "utf-16", (2, 2), "a\r\nb\rc|\n"),
    ("a\r\nb\rc\n", "utf-16", (3, 0), "a\r\nb\rc\n|"),
    ("a\r\nb\rc\n", "utf-16", (3, 5), "a\r\nb\rc\n|"),
    ("a\r\nb\rc\n", "utf-16", ((1 << 31) - 1, 0), "a\r\nb\rc\n|"),
    ("\r\n\r\n", "utf-8", (0, 1), "|\r\n\r\n"),
    ("\r\n\r\n", "utf-8", (1, 77), "\r\n|\r\n"),
    ("é\r\n", "utf-8", (0, 90), "é|\r\n"),
    ("", "utf-32", (0, 5), "|"),
]


def wrong_positions():
    for text, encoding, position, due in POSITIONS:
        client = Client()
        client.begin([encoding], {"pattern": ".+"})
        client.open("a", text)
        client.since()
        client.change("a", 2, (position, position, "|"))
        published = client.published()
        if published != [("a", diagnosed(encoding, ".+", due))]:
            yield f"{position} of {text!r} in {encoding}: {published}"
        client.end()


# A text, a pattern and a template; and the text once all listed matches were replaced.
REPLACED = [
    ("TODO a\nFIXME TODO", DEFAULT, "done", "done a\ndone done"),
    ("TODO a\r\nTODO\rTODO", DEFAULT, "<$0>", "<TODO> a\r\n<TODO>\r<TODO>"),
    ("a1 b2\nc3", r"([a-z])(\d)", "$2$1", "1a 2b\n3c"),
    ("a1 b2 🐸c3", r"([a-z])(\d)|🐸", "($1)$$$3$x", "(a)$$x (b)$$x ()$$x(c)$$x"),
    ("é🐸é", "é", "🐸", "🐸🐸🐸"),
    ("ab\nb", "^", "- ", "- ab\n- b"),
    ("one TODO", DEFAULT, "", "one "),
    ("a\nb", "[ab]", "x\r\ny", "x\r\ny\nx\r\ny"),
]


def applied(encoding, text, edits):
    """A text with edits of the protocol made, whose positions are all in the text before."""
    for edit in reversed(edits):
        start, end = edit["range"]["start"], edit["range"]["end"]
        text = edited(encoding, text, (start["line"], start["character"]), (end["line"], end["character"]), edit["newText"])
    return text


def actions(client, uri, first, last, **context):
    return client.ask("textDocument/codeAction", textDocument={"uri": uri}, range=range_of((first, 0), (last, 0)),
                      context={"diagnostics": [], **context})["result"]


def wrong_replacements():
    for encoding in ENCODINGS:
        for text, pattern, template, due in REPLACED:
            client = Client()
            client.begin([encoding], {"pattern": pattern, "replacement": template})
            client.open("a", text, 7)
            found = actions(client, "a", 0, 9)
            edits = found[0]["edit"]["changes"]["a"] if found else []
            if (got := applied(encoding, text, edits)) != due:
                yield f"{text!r} by {template!r} in {encoding} gives {got!r}, not {due!r}"
            client.end()


def wrong_offers():
    """An action is offered if a match is in the lines of the range, with the version if the editor wants it."""
    client = Client()
    client.begin(options={"replacement": "x"}, workspace={"workspaceEdit": {"documentChanges": True}})
    client.open("a", "none\nTODO\nnone\nFIXME", 3)
    rows = [(0, 0, {}, 0), (0, 1, {}, 1), (1, 1, {}, 1), (2, 2, {}, 0), (2, 9, {}, 1), (4, 9, {}, 0), (3, 0, {}, 0),
            (1, 1, {"only": ["quickfix"]}, 1), (1, 1, {"only": ["refactor"]}, 0), (1, 1, {"only": []}, 0)]
    for first, last, context, due in rows:
        if len(got := actions(client, "a", first, last, **context)) != due:
            yield f"in rows {first} to {last} with {context} it offers {got}"
    found = actions(client, "a", 1, 1)[0]
    if found["edit"].get("documentChanges", [{}])[0].get("textDocument") != {"uri": "a", "version": 3}:
        yield f"the edit is {found['edit']}"
    client.change("a", 8, ("TODO",))
    found = actions(client, "a", 0, 0)[0]
    if (found["title"], found["kind"]) != ("Replace all 1 listed", "quickfix"):
        yield f"it offers {found}"
    if found["edit"]["documentChanges"][0]["textDocument"]["version"] != 8:
        yield f"the edit is {found['edit']}"
    client.notify("workspace/didChangeConfiguration", settings={"pattern": "TODO"})
    if got := actions(client, "a", 0, 0):
        yield f"without a template it offers {got}"
    client.end()


# What an editor offers, and the encoding that is chosen.
OFFERED = [
    (None, "utf-16"), ([], "utf-16"), (["utf-8"], "utf-8"), (["utf-32", "utf-8", "utf-16"], "utf-32"), (["utf-16", "utf-8"], "utf-16"),
    (["utf-7", "utf-8"], "utf-8"), (["utf-7"], "utf-16"), ([8, {}, "utf-32"], "utf-32"),
]


def wrong_encodings():
    for offered, due in OFFERED:
        client = Client()
        got = client.begin(offered)["result"]["capabilities"]["positionEncoding"]
        client.end()
        if got != due:
            yield f"of {offered} it chooses {got}"


def wrong_documents():
    """Several documents: their diagnostics, when they are opened, changed, searched for another pattern and closed."""
    client = Client()
    client.begin()
    todo, fixme, one = (0, 0, 4, "TODO"), (0, 0, 5, "FIXME"), (0, 5, 8, "one")
    steps = [
        (lambda: client.open("a", "TODO one"), [("a", [todo])]),
        (lambda: client.open("b", "FIXM"), [("b", [])]),
        (lambda: client.open("c", "no"), [("c", [])]),
        (lambda: client.change("b", 2, ((0, 4), (0, 4), "E")), [("b", [fixme])]),
        (lambda: client.change("a", 2, ((0, 8), (0, 8), "s")), []),
        (lambda: client.change("a", 3, ((0, 0), (0, 0), "x"), ((0, 0), (0, 1), "")), []),
        (lambda: client.change("a", 4, ((0, 0), (0, 1), "")), [("a", [])]),
        (lambda: client.change("a", 5, ((0, 0), (0, 0), "T"), ((0, 9), (9, 0), "")), [("a", [todo])]),
        (lambda: client.change("a", 6), []),
        (lambda: client.change("b", 3, ((0, 0), (0, 0), "\n"), ((0, 0), (1, 0), "")), []),
        (lambda: client.change("b", 4, ((0, 0), (0, 0), "\n")), [("b", [(1, 0, 5, "FIXME")])]),
        (lambda: client.change("b", 5, ("FIXME",)), [("b", [fixme])]),
        (lambda: client.notify("workspace/didChangeConfiguration", settings={"pattern": "one"}), [("a", [one]), ("b", [])]),
        (lambda: client.notify("workspace/didChangeConfiguration", settings={"rope_search": {"pattern": "one|no"}}),
         [("c", [(0, 0, 2, "no")])]),
        (lambda: client.notify("workspace/didChangeConfiguration", settings={"pattern": "no|one"}), []),
        (lambda: client.notify("workspace/didChangeConfiguration", settings=None), []),
        (lambda: client.notify("workspace/didChangeConfiguration"), []),
        (lambda: client.notify("workspace/didChangeConfiguration", settings={}), [("a", [todo]), ("b", [fixme]), ("c", [])]),
        (lambda: client.notify("textDocument/didClose", textDocument={"uri": "a"}), [("a", [])]),
        (lambda: client.change("a", 7, ("TODO",)), []),
        (lambda: client.open("a", "FIXME"), [("a", [fixme])]),
        (lambda: client.open("a", "TODO"), [("a", [todo])]),
        (lambda: client.open("d", "\ud800 TODO"), [("d", [(0, 2, 6, "TODO")])]),
        (lambda: client.change("d", 2, ((0, 1), (0, 1), "\udc00")), [("d", [(0, 3, 7, "TODO")])]),
    ]
    for number, (step, due) in enumerate(steps):
        step()
        if (got := client.published()) != due:
            yield f"step {number}: {got}, not {due}"
    client.end()


def wrong_long():
    """A document with many lines, in which all matches move, and one with a long line."""
    client, text = Client(), "a TODO é\n" * 3_000
    client.begin(["utf-8"])
    client.open("a", text)
    client.since()
    for change, due in (((0, 0), (0, 0), "\n\n"), "\n\n" + text), (((2, 0), (4, 0), ""), "\n\n" + text[18:]):
        client.change("a", 2, change)
        if client.published() != [("a", places("utf-8", DEFAULT, due))]:
            yield f"after {change} it publishes something else"
    text = "é🐸 TODO " * 2_000
    client.change("a", 3, (text,), ((0, 5), (0, 5), "TODO"))
    if client.published() != [("a", places("utf-8", DEFAULT, edited("utf-8", text, (0, 5), (0, 5), "TODO")))]:
        yield "of a long line it publishes something else"
    client.end()


def wrong_large():
    """A document that grows above the limit of sessions, here 20 bytes, is closed, because it can't be followed any
    more."""
    code = f"""import runpy, sys
sys.path.insert(0, {os.path.join(TOP, "bindings", "python")!r})
import rope_search
rope_search.Session.__init__.__defaults__ = (20,)
runpy.run_path({SERVER!r}, run_name="__main__")"""
    client = Client([sys.executable, "-B", "-c", code])
    client.begin()
    client.open("a", "TODO")
    client.change("a", 2, ((0, 0), (0, 0), "x" * 30))
    methods = [told["method"] for told in client.since() if "method" in told]
    if methods != ["textDocument/publishDiagnostics"] * 2 + ["window/logMessage"]:
        yield f"of a text that grows too long it says {methods}"
    client.change("a", 3, ("TODO",))
    client.open("b", "x" * 21)
    if [told["method"] for told in client.since() if "method" in told] != ["window/logMessage"] * 2:
        yield "a document that was closed so, or a text that is too long, is searched"
    client.open("a", "a TODO")
    if client.published() != [("a", [(0, 2, 6, "TODO")])]:
        yield "the document isn't searched once it is opened again"
    client.end()


# ---- wrong messages

POSITION = {"line": 0, "character": 0}
HIGHLIGHT = "textDocument/documentHighlight"


def request(method, params, **more):
    return {"jsonrpc": "2.0", "id": "it", "method": method, "params": params, **more}


def highlight(position, uri="a"):
    return request(HIGHLIGHT, {"textDocument": {"uri": uri}, "position": position})


# What is sent, and the error answers, each with the number of its request; then the server continues.
WRONG = [
    (b"{", [(None, PARSE)]),
    (b"", [(None, PARSE)]),
    (b"\xff", [(None, PARSE)]),
    (b"[" * 100_000, [(None, PARSE)]),
    (b"[]", [(None, REQUEST)]),
    ([request("shutdown", None)], [(None, REQUEST)]),
    (b"7", [(None, REQUEST)]),
    (b'"text"', [(None, REQUEST)]),
    (b"null", [(None, REQUEST)]),
    ({}, [(None, REQUEST)]),
    ({"jsonrpc": "2.0"}, [(None, REQUEST)]),
    ({"jsonrpc": "2.0", "id": 5}, [(5, REQUEST)]),
    ({"jsonrpc": "2.0", "id": 5, "result": 1}, [(5, REQUEST)]),
    ({"jsonrpc": "2.0", "id": None, "error": {"code": 1, "message": ""}}, [(None, REQUEST)]),
    ({"jsonrpc": "1.0", "id": 5, "method": HIGHLIGHT}, [(5, REQUEST)]),
    ({"id": 5, "method": HIGHLIGHT}, [(5, REQUEST)]),
    (request(7, None), [("it", REQUEST)]),
    (request(None, None), [("it", REQUEST)]),
    (request("shutdown", None, id=None), [(None, REQUEST)]),
    (request("shutdown", None, id=True), [(None, REQUEST)]),
    (request("shutdown", None, id=1.5), [(None, REQUEST)]),
    (request("shutdown", None, id=[1]), [(None, REQUEST)]),
    (request("no/such", None), [("it", METHOD)]),
    (request("\ud800", None, id="\ud800"), [("\ud800", METHOD)]),
    (request("$/no", None), [("it", METHOD)]),
    (request("textDocument/didOpen", {}), [("it", METHOD)]),
    (request("exit", None), [("it", METHOD)]),
    (request("initialize", {"capabilities": {}}), [("it", REQUEST)]),
    ({"jsonrpc": "2.0", "method": "no/such"}, []),
    ({"jsonrpc": "2.0", "method": "$/cancelRequest", "params": {"id": 1}}, []),
    ({"jsonrpc": "2.0", "method": "shutdown"}, []),
    ({"jsonrpc": "2.0", "method": HIGHLIGHT}, []),
    (request(HIGHLIGHT, None), [("it", PARAMS)]),
    (request(HIGHLIGHT, []), [("it", PARAMS)]),
    (request(HIGHLIGHT, {"textDocument": "a", "position": POSITION}), [("it", PARAMS)]),
    (highlight(POSITION, "closed"), [("it", PARAMS)]),
    (highlight(POSITION, "never opened"), [("it", PARAMS)]),
    (highlight(POSITION, 7), [("it", PARAMS)]),
    (highlight(POSITION, ["a"]), [("it", PARAMS)]),
    (highlight(None), [("it", PARAMS)]),
    (highlight({"line": 0}), [("it", PARAMS)]),
    (highlight({"line": -1, "character": 0}), [("it", PARAMS)]),
    (highlight({"line": 0, "character": 1 << 31}), [("it", PARAMS)]),
    (highlight({"line": 1 << 64, "character": 0}), [("it", PARAMS)]),
    (highlight({"line": 0.0, "character": 0}), [("it", PARAMS)]),
    (highlight({"line": True, "character": 0}), [("it", PARAMS)]),
    (highlight({"line": "0", "character": 0}), [("it", PARAMS)]),
    (request("textDocument/codeAction", {"textDocument": {"uri": "a"}}), [("it", PARAMS)]),
    (request("textDocument/codeAction", {"textDocument": {"uri": "a"}, "range": {"start": POSITION}}), [("it", PARAMS)]),
]


def notification(method, **params):
    return {"jsonrpc": "2.0", "method": method, "params": params}


def changing(*changes, uri="a", version=9):
    return notification("textDocument/didChange", textDocument={"uri": uri, "version": version}, contentChanges=list(changes))


WHOLE = {"text": "TODO TODO"}
# Wrong notifications: each is logged, and changes nothing, not even by the right changes before a wrong one.
REFUSED = [
    notification("textDocument/didOpen"),
    notification("textDocument/didOpen", textDocument={"uri": "a", "version": 1}),
    notification("textDocument/didOpen", textDocument={"uri": "a", "version": "1", "text": "TODO TODO"}),
    notification("textDocument/didOpen", textDocument={"uri": 7, "version": 1, "text": "TODO TODO"}),
    notification("textDocument/didClose", textDocument={"uri": "closed"}),
    notification("textDocument/didClose", textDocument={}),
    changing(WHOLE, uri="closed"),
    changing(WHOLE, version=None),
    changing(WHOLE, 7),
    changing(WHOLE, {}),
    changing(WHOLE, {"text": 7}),
    changing(WHOLE, {"text": "", "range": {}}),
    changing(WHOLE, {"text": "", "range": 7}),
    changing(WHOLE, {"text": "", "range": range_of((0, 0), (0, -1))}),
    changing(WHOLE, {"text": "", "range": range_of((0, 0), ("0", 0))}),
    notification("textDocument/didChange", textDocument={"uri": "a", "version": 9}, contentChanges=WHOLE),
    {"jsonrpc": "2.0", "method": "textDocument/didChange", "params": [WHOLE]},
]
# Settings that are refused, and what the editor shows as the reason.
SETTINGS = [
    ({"pattern": "one|(two"}, "a group isn't closed, at byte 8"),
    ({"pattern": "*"}, "there is nothing to repeat, at byte 0"),
    ({"pattern": 7}, "pattern is not of type str"),
    ({"pattern": "a", "replacement": []}, "replacement is not of type str"),
    ({"pattern": "a" * 65_537}, "65,536 bytes"),
    ({"pattern": r"\w{1000}"}, "weighs too much"),
    ({"pattern": "\ud800"}, "UTF-8"),
]
# Bytes that are no frames, and the error answers; then a frame is read.
BROKEN = [
    (b"\r\n\r\n", []),
    (b"\n", []),
    (b"Content-Type: x\r\n\r\n", [(None, PARSE)]),
    (b"Content-Length: -5\r\n\r\n", [(None, PARSE)]),
    (b"Content-Length: five\r\n\r\n", [(None, PARSE)]),
    (b"Content-Length: 99999999999999999999\r\n\r\n", [(None, PARSE)]),
    (b"Content-Length: 9999999999\r\n\r\n", [(None, PARSE)]),
    (b"no header\r\n", [(None, PARSE)]),
    (b"no header", [(None, PARSE)]),
    (b"one line\nand another\n\n", [(None, PARSE)]),
    (json.dumps(request("shutdown", None)).encode(), [(None, PARSE)]),
    (b"Content-Length: 0\r\n\r\n", [(None, PARSE)]),
    (b"Content-Length: 5\r\n\r\n" + json.dumps(request("shutdown", None)).encode(), [(None, PARSE), (None, PARSE)]),
    (b"x" * 200_000, [(None, PARSE)]),
    (b"\xff\x00\n", [(None, PARSE)]),
]
# Correct frames.
ODD = [
    b"content-length: %d\r\n\r\n%b", b"Content-Length:%d\n\n%b", b"Content-Type: x; charset=utf-8\r\nContent-Length: %d\r\n\r\n%b",
    b"Content-Length:  %d \r\nContent-Type: x\r\n\r\n%b", b"\r\nContent-Length: %d\r\n\r\n%b\r\n",
]


def running():
    """A client of a server with a document with one match, and with one that was closed."""
    client = Client()
    client.begin(options={"replacement": "x"})
    client.open("closed", "TODO")
    client.notify("textDocument/didClose", textDocument={"uri": "closed"})
    client.open("a", "one TODO")
    client.since()
    return client


def goes_on(client):
    """Whether the document is unchanged, and searched."""
    return highlights(client.ask(HIGHLIGHT, textDocument={"uri": "a"}, position={"line": 0, "character": 5})) == [(0, 4, 8)]


def wrong_answers(client, data, due, name):
    """What is wrong with the error answers to bytes, and with the server after them."""
    client.send(data)
    if not goes_on(client):
        yield f"{name}: the server doesn't go on"
    got = [(told.get("id"), code(told)) for told in client.told]
    client.told = []
    if got != due:
        yield f"{name} is answered {got}, not {due}"


def answers_to(rows):
    client, wrong = running(), []
    for data, due in rows:
        wrong += wrong_answers(client, data, due, str(data)[:120])
    return wrong + ([] if client.end() == 1 else ["it ends with another status"])


def wrong_refusals():
    client = running()
    for sent in REFUSED:
        client.send(frame(sent))
        told = client.since()
        if [one.get("method") for one in told] != ["window/logMessage"] or told[0]["params"]["type"] != 1:
            yield f"{sent} is reported as {told}"
        if not goes_on(client):
            yield f"after {sent} the server doesn't go on"
    for settings, due in SETTINGS:
        client.notify("workspace/didChangeConfiguration", settings=settings)
        told = client.since()
        if [one.get("method") for one in told] != ["window/showMessage"] or due not in told[0]["params"]["message"]:
            yield f"{str(settings)[:80]} is reported as {told}"
    client.change("a", 10, ("TODO one\nTODO",))
    if (got := client.published()) != [("a", [(0, 0, 4, "TODO"), (1, 0, 4, "TODO")])]:
        yield f"after refused settings it publishes {got}"
    client.end()
    client = Client()
    if code(client.begin(options={"pattern": "("})) is not None or [one["method"] for one in client.told] != ["window/showMessage"]:
        yield f"refused options are reported as {client.told}"
    client.open("a", "TODO (")
    if client.published() != [("a", [(0, 0, 4, "TODO")])]:
        yield "after options that are refused the pattern isn't the default"
    client.end()


def wrong_frames():
    client = running()
    for form in ODD:
        body = json.dumps(highlight({"line": 0, "character": 5})).encode()
        client.send(form % (len(body), body))
        if (answer := client.answer("it")) is None or not goes_on(client) or client.told:
            yield f"{form}: {answer}, {client.told}"
    for byte in frame(highlight({"line": 0, "character": 5})):
        client.send(bytes([byte]))
    if client.answer("it") is None:
        yield "a frame that comes byte by byte is not answered"
    client.send(b"Content-Length: 5000\r\n\r\n{}")
    if (status := client.end()) != 1 or client.answer(0) is not None:
        yield f"a frame that is cut ends the server with {status}"


# Requests in order, each with its error; the notifications among them have none. And the status at the end of the input.
LIVES = [
    ([("shutdown", NOT_YET), (HIGHLIGHT, NOT_YET), ("no/such", NOT_YET), ("$/no", NOT_YET)], 1),
    ([("initialize", None), ("initialize", REQUEST), ("no/such", METHOD)], 1),
    ([("initialize", None), ("initialized", "told"), ("shutdown", None)], 0),
    ([("initialize", None), ("shutdown", None), ("shutdown", REQUEST), ("initialize", REQUEST), (HIGHLIGHT, REQUEST),
      ("no/such", REQUEST), ("textDocument/didOpen", "told"), ("exit", "told")], 0),
    ([("initialize", None), ("exit", "told")], 1),
    ([("exit", "told")], 1),
    ([("textDocument/didOpen", "told"), ("workspace/didChangeConfiguration", "told"), ("initialize", None)], 1),
    ([], 1),
]


def wrong_lives():
    for steps, due in LIVES:
        client = Client()
        for method, error in steps:
            params = {"capabilities": {}} if method == "initialize" else {}
            if error == "told":
                client.notify(method, **params)
            elif (got := code(client.ask(method, **params))) != error:
                yield f"{method} of {steps} is answered {got}"
        if client.told:
            yield f"of {steps} it tells {client.told}"
        if steps and steps[-1][0] == "exit":
            client.server.wait(SECONDS)
        if (status := client.end()) != due:
            yield f"after {steps} it ends with {status}"
    client = Client()
    answers = [code(client.ask("initialize", **params)) for params in ({}, {"capabilities": 7})]
    if answers != [PARAMS, PARAMS] or code(client.begin()) is not None:
        yield f"an initialize without capabilities is answered {answers}"
    client.end()


def wrong_start():
    """Without the library it says so, and ends."""
    done = subprocess.run(COMMAND, stdin=subprocess.DEVNULL, capture_output=True, text=True, cwd=ROOM, check=False,
                          env=dict(os.environ, ROPE_SEARCH_LIBRARY=os.path.join(ROOM, "no.so")))
    if done.returncode != 1 or done.stdout or not re.fullmatch("language_server: .*no.so.*\n", done.stderr):
        yield f"without the library it says {done.stderr!r}"
    read_end, write_end = os.pipe()
    os.close(read_end)
    done = subprocess.run(COMMAND, input=frame(request("shutdown", {})), stdout=write_end, stderr=subprocess.PIPE, cwd=ROOM,
                          check=False, env=dict(os.environ, **ENVIRONMENT))
    os.close(write_end)
    if done.returncode != 1 or done.stderr:
        yield f"when the editor has gone it ends with {done.returncode} and {done.stderr}"


def test_length():
    """The server is short enough to be read in one sitting."""
    count = 0
    for path in glob.glob(os.path.join(SERVER, "*.py")):
        with open(path, encoding="utf-8") as file:
            count += len(file.readlines())
    test("examples/language_server has 400 lines at most", [] if 0 < count <= 400 else [f"it has {count}"])


# ---- Neovim


def neovim_lines():
    """The lines of the server's page for init.lua of Neovim."""
    with open(os.path.join(SERVER, "README.md"), encoding="utf-8") as file:
        return re.search(r"```lua\n(.*?)```", file.read(), re.S)[1].replace("PATH/", TOP + "/")


def test_neovim():
    if not shutil.which("nvim"):
        print("skipped: no Neovim, so its client is not run with examples/language_server")
        return
    lines = os.path.join(ROOM, "init_of_server.lua")
    with open(lines, "w", encoding="utf-8") as file:
        file.write(neovim_lines())
    run = ("lua local done, why = pcall(dofile, vim.v.argv[#vim.v.argv]) if not done then io.stdout:write(why, '\\n') "
           "vim.cmd('cquit 1') end")
    words = ["nvim", "--clean", "--headless", "-n", "-c", run, "-c", "qall!", "--", os.path.join(TOP, "tests", "editors", "nvim_server.lua")]
    done = subprocess.run(words, stdin=subprocess.DEVNULL, capture_output=True, text=True, errors="replace", timeout=SECONDS,
                          cwd=ROOM, check=False, env=dict(os.environ, **ENVIRONMENT, SERVER_LINES=lines, XDG_STATE_HOME=ROOM,
                                                          XDG_CACHE_HOME=ROOM))
    said = (done.stdout + done.stderr).splitlines()
    test("Neovim's client: what is typed, undone, opened and searched for, compared with a new search",
         [] if done.returncode == 0 else [*said[:20], f"ended with {done.returncode}"])


def test_all():
    test_length()
    test("positions of the protocol, clamped, in each encoding", wrong_positions())
    test("the encoding that is chosen", wrong_encodings())
    test("several documents, published where their report changes", wrong_documents())
    test("a document of many lines, and one of a long line", wrong_long())
    test("a document that grows too long", wrong_large())
    test("what replaces all that is listed", wrong_replacements())
    test("where a replacement is offered", wrong_offers())
    test("wrong messages are answered, and the server goes on", answers_to((frame(sent), due) for sent, due in WRONG))
    test("bytes that are no frames are answered, and the server goes on", answers_to(BROKEN))
    test("wrong notifications and settings are reported, and change nothing", wrong_refusals())
    test("frames in other forms, in pieces, and cut", wrong_frames())
    test("before initialize, after shutdown, and how it ends", wrong_lives())
    test("without the library, and without an editor", wrong_start())
    test_walks()
    test_neovim()
