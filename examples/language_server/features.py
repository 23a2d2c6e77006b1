"""What the editor sees: diagnostics for the matches of a pattern, highlights of a word, and an action that replaces."""
import bisect
from collections import namedtuple

from documents import Document, rope_search
from messages import INVALID_PARAMS, Wrong, look, member

# The pattern, and the template of the action that replaces all listed matches, if there is to be one.
Settings = namedtuple("Settings", "pattern replacement", defaults=("TODO|FIXME", None))


def settings_of(value):
    """Returns the settings that an object names. Raises Wrong, or the library's reason to refuse the pattern."""
    value = look(value, "rope_search") or value
    settings = Settings(**{name: member(value, str, name) for name in Settings._fields if look(value, name) is not None})
    if error := rope_search.pattern_error(settings.pattern):
        raise Wrong(INVALID_PARAMS, f"{error.reason}, at byte {error.place} of {settings.pattern!r}")
    with rope_search.Session() as session:
        session.set_pattern(settings.pattern)
    return settings


def place_of(value, *path):
    """Returns the line and the column of the position at the end of a path of names. Raises Wrong."""
    place = member(value, int, *path, "line"), member(value, int, *path, "character")
    if not all(0 <= number < 1 << 31 for number in place):
        raise Wrong(INVALID_PARAMS, "a position has a number that is negative or too large")
    return place


def places_of(value):
    return place_of(value, "range", "start"), place_of(value, "range", "end")


def change_of(value):
    """Returns the places between which a change is made, or None for the whole text, and the new text. Raises Wrong."""
    return None if look(value, "range") is None else places_of(value), member(value, str, "text")


def range_of(found):
    return {"start": {"line": found.line, "character": found.start}, "end": {"line": found.line, "character": found.stop}}


class Service:
    """The requests and the notifications that the server knows, over the documents that are open."""

    def __init__(self, client):
        self.client, self.documents, self.settings, self.encoding = client, {}, Settings(), "utf-16"
        self.requests = {"initialize": self.initialize, "textDocument/documentHighlight": self.highlights,
                         "textDocument/codeAction": self.actions, "shutdown": lambda _: None}
        self.notifications = {"textDocument/didOpen": self.open, "textDocument/didChange": self.change,
                              "textDocument/didClose": self.close, "workspace/didChangeConfiguration": self.configure}

    def initialize(self, params):
        capabilities = member(params, dict, "capabilities")
        offered = look(capabilities, "general", "positionEncodings") or []
        self.encoding = next((name for name in offered if name in ("utf-8", "utf-16", "utf-32")), "utf-16")
        self.has_versioned_edits = look(capabilities, "workspace", "workspaceEdit", "documentChanges") is True
        self.configure({"settings": look(params, "initializationOptions")})
        return {"serverInfo": {"name": "rope-search"}, "capabilities": {
            "positionEncoding": self.encoding, "textDocumentSync": {"openClose": True, "change": 2},
            "documentHighlightProvider": True, "codeActionProvider": {"codeActionKinds": ["quickfix"]}}}

    def configure(self, params):
        """Takes other settings, if there are any. If they are refused, the editor shows why, and the old ones stay."""
        if (value := look(params, "settings")) is None:
            return
        try:
            self.settings = settings_of(value)
            for uri, document in self.documents.items():
                before = document.listed
                document.set_pattern(self.settings.pattern)
                self.publish(uri, document.listed, before)
        except (Wrong, rope_search.Fault) as error:
            self.client.send(method="window/showMessage", params={"type": 1, "message": str(error) or error.__doc__})

    def document(self, params):
        """Returns the address of the document that a message is about, and the document. Raises Wrong."""
        uri = member(params, str, "textDocument", "uri")
        if uri not in self.documents:
            raise Wrong(INVALID_PARAMS, f"{uri} is not open")
        return uri, self.documents[uri]

    def open(self, params):
        kinds = {"uri": str, "version": int, "text": str}
        uri, version, text = (member(params, kind, "textDocument", name) for name, kind in kinds.items())
        if before := self.documents.pop(uri, None):
            before.close()
        self.documents[uri] = Document(version, text, self.settings.pattern, self.encoding)
        self.publish(uri, self.documents[uri].listed)

    def change(self, params):
        """Makes changes in order, each of the text after the one before. If one is no change, none is made."""
        uri, document = self.document(params)
        version = member(params, int, "textDocument", "version")
        changes, before = [change_of(value) for value in member(params, list, "contentChanges")], document.listed
        try:
            for places, text in changes:
                document.edit(*places, text) if places else document.set_text(text)
        except rope_search.Fault:  # The text is too long, or there is no memory: it can't be followed any more.
            self.close(params)
            raise
        document.version = version
        self.publish(uri, document.listed, before)

    def close(self, params):
        uri, document = self.document(params)
        document.close()
        del self.documents[uri]
        self.publish(uri, [])

    def publish(self, uri, listed, before=None):
        """Shows what a document lists, unless that is what it listed before. It names no version: some editors drop what is
        of an older one, and would go on without it, since no later version with the same matches is published."""
        if listed is not before and listed != before:
            fixed = {"severity": 3, "source": "rope-search"}
            shown = [{"range": range_of(found), "message": found.text or "empty match", **fixed} for found in listed]
            self.client.send(method="textDocument/publishDiagnostics", params={"uri": uri, "diagnostics": shown})

    def highlights(self, params):
        _, document = self.document(params)
        return [{"range": range_of(found)} for found in document.same_words(*place_of(params, "position"))]

    def actions(self, params):
        """Offers to replace all listed matches, if one of them is in the lines of the range."""
        uri, document = self.document(params)
        (first, _), (last, _) = places_of(params)
        kinds, template = look(params, "context", "only"), self.settings.replacement
        start, stop = (bisect.bisect_left(document.listed, (line,)) for line in (first, last + 1))
        if template is None or start >= stop or isinstance(kinds, list) and "quickfix" not in kinds:
            return []
        edits = [{"range": range_of(found), "newText": text} for found, text in document.replacements(template)]
        edit = {"changes": {uri: edits}}
        if self.has_versioned_edits:
            edit = {"documentChanges": [{"textDocument": {"uri": uri, "version": document.version}, "edits": edits}]}
        return [{"title": f"Replace all {len(edits)} listed", "kind": "quickfix", "edit": edit}]
