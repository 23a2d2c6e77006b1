"""A regular expression kept live over a text that is edited, undone and forked: the library of include/rope_search.h.

    with rope_search.Session() as session:
        session.set_text("one two\\none")
        session.set_pattern("one")
        session.edit((1, 0), (1, 0), "no ")
        print(session.matches())

Lines and columns count from 0; a column counts UTF-16 code units. A call that is refused raises the class of the reason, a
Fault, and leaves the session as it was. A session stays on the thread that opened it; other threads may have their own.
docs/protocol.md says what each command does, docs/patterns.md has the syntax of patterns.

The library is the file that ROPE_SEARCH_LIBRARY names, otherwise that in bin/ or lib/ above this file, otherwise the
system's. It is loaded with the first session. A number below 0 or of more than 64 bits raises ctypes.ArgumentError.
"""
import ctypes
import ctypes.util
import operator
import os
from typing import Iterable, List, NamedTuple, Optional, Tuple, Type, Union

Text = Union[str, bytes]
# The version of the header that is declared below.
VERSION = 2_000
_ALL = (1 << (8 * ctypes.sizeof(ctypes.c_size_t))) - 1


class Position(NamedTuple):
    """A line, and a column in it."""
    line: int
    column: int


class Match(NamedTuple):
    """A match in a whole text."""
    start: Position
    stop: Position


class Span(NamedTuple):
    """A match in a line: the columns where it starts and where it ends."""
    line: int
    start: int
    stop: int


class Listed(NamedTuple):
    """A match of a report: its line, its number in that row, from 0, and the columns where it starts and where it ends."""
    line: int
    number: int
    start: int
    stop: int


class PatternError(NamedTuple):
    """Where and why a text is no pattern: the byte offset of the first character that can't be there, or the text's length
    if it ends too early; and one of REASONS."""
    place: int
    reason: str


class Stretch(NamedTuple):
    """Rows of a report that were replaced: from row `first` on, `removed` old rows by `added` new ones. All rows before them
    are unchanged, and so are all after them, which may have moved."""
    first: int
    removed: int
    added: int


class TextChange(NamedTuple):
    """A range of the old text and the range of the new text that replaced it, in bytes. Either may be empty."""
    old_start: int
    old_end: int
    new_start: int
    new_end: int


class Counts(NamedTuple):
    """What a session counted: the rows that were made, and the searches of a whole text."""
    rows: int
    wholes: int


class Fault(Exception):
    """Why a call is refused."""


class Nothing(Fault):
    """There is no such buffer, no pattern, none pending, or no text to go back or forward to."""


class Range(Fault):
    """A position is not in the text, or positions are not in order."""


class Utf8(Fault):
    """The bytes aren't UTF-8."""


class Pattern(Fault):
    """The text is no pattern."""


class Limit(Fault):
    """The pattern has more than 65,536 bytes, or weighs too much."""


class Size(Fault):
    """The text, or the template, would have more bytes than the limit."""


class Memory(Fault):
    """Memory was refused."""


class Closed(Fault):
    """The session isn't open."""


FAULTS: Tuple[Type[Fault], ...] = (Nothing, Range, Utf8, Pattern, Limit, Size, Memory, Closed)


REASONS: Tuple[str, ...] = (
    "the pattern is nested too deeply",
    "a group isn't closed",
    "a parenthesis closes no group",
    "there is nothing to repeat",
    "a count isn't finished, or isn't one",
    "a count is above 65,535",
    "the greatest number of a count is below the least one",
    "an escape isn't finished, or isn't one",
    "the number of an escape is no character's",
    "a class isn't closed",
    "a class has no such item",
    "a range of characters runs backwards",
    "the head of a group isn't finished, or isn't one",
    "two groups have one name",
    "`.` stands beside a line terminator that isn't an ASCII byte",
)


def _fitting(number: int) -> int:
    """Returns the number, if C can take it: ctypes would silently keep its last bits."""
    number = operator.index(number)
    if not 0 <= number <= _ALL:
        raise ctypes.ArgumentError(f"{number} has no place in a size_t")
    return number


class _Number(ctypes.c_size_t):
    """A number that is passed to C."""

    @classmethod
    def from_param(cls, number: int) -> "_Number":
        return cls(_fitting(number))


class _Handle(ctypes.Structure):
    _fields_ = [("at", ctypes.c_void_p), ("is_open", ctypes.c_bool)]


class _Counts(ctypes.Structure):
    _fields_ = [("rows", ctypes.c_uint64), ("wholes", ctypes.c_uint64)]


class _Position(ctypes.Structure):
    _fields_ = [("line", ctypes.c_size_t), ("column", ctypes.c_size_t)]

    def __init__(self, line: int = 0, column: int = 0) -> None:
        super().__init__(_fitting(line), _fitting(column))


class _Match(ctypes.Structure):
    _fields_ = [("found", ctypes.c_bool), ("start", _Position), ("stop", _Position)]


class _TextMatch(ctypes.Structure):
    _fields_ = [("start", _Position), ("stop", _Position)]


class _Span(ctypes.Structure):
    _fields_ = [("line", ctypes.c_size_t), ("start", ctypes.c_size_t), ("stop", ctypes.c_size_t)]


class _Group(ctypes.Structure):
    _fields_ = [("found", ctypes.c_bool), ("line", ctypes.c_size_t), ("start", ctypes.c_size_t), ("stop", ctypes.c_size_t)]


class _Listed(ctypes.Structure):
    _fields_ = [(name, ctypes.c_size_t) for name in ("line", "number", "start", "stop")]


class _PatternReason(ctypes.Structure):
    _fields_ = [("reason", ctypes.c_uint32), ("place", ctypes.c_size_t)]


class _TextEdit(ctypes.Structure):
    _fields_ = [("start", _Position), ("stop", _Position), ("len", ctypes.c_size_t)]


class _Stretch(ctypes.Structure):
    _fields_ = [("first", ctypes.c_size_t), ("removed", ctypes.c_size_t), ("added", ctypes.c_size_t)]


class _TextChange(ctypes.Structure):
    _fields_ = [(name, ctypes.c_size_t) for name in TextChange._fields]


_HANDLE, _BYTES, _SIZE, _STATUS = ctypes.POINTER(_Handle), ctypes.c_char_p, ctypes.c_size_t, ctypes.c_uint32
_CALLS = {
    "version": (ctypes.c_uint32,),
    "open": (_STATUS, _SIZE, _HANDLE),
    "close": (None, _HANDLE),
    "set_text": (_STATUS, _HANDLE, _BYTES, _SIZE),
    "edit": (_STATUS, _HANDLE, _Position, _Position, _BYTES, _SIZE),
    "edit_all": (_STATUS, _HANDLE, ctypes.POINTER(_TextEdit), _SIZE, _BYTES, _SIZE),
    "edit_bytes": (_STATUS, _HANDLE, _SIZE, _SIZE, _BYTES, _SIZE),
    "undo": (_STATUS, _HANDLE),
    "redo": (_STATUS, _HANDLE),
    "set_pattern": (_STATUS, _HANDLE, _BYTES, _SIZE),
    "pattern_error": (_STATUS, _BYTES, _SIZE, ctypes.POINTER(_PatternReason)),
    "escape": (_STATUS, _BYTES, _SIZE, _BYTES, _SIZE, ctypes.POINTER(_SIZE)),
    "off": (_STATUS, _HANDLE),
    "next": (_STATUS, _HANDLE, _Position, ctypes.POINTER(_Match)),
    "next_all": (_STATUS, _HANDLE, _Position, ctypes.POINTER(_TextMatch), _SIZE, ctypes.POINTER(_SIZE)),
    "replace": (_STATUS, _HANDLE, _BYTES, _SIZE, ctypes.POINTER(_SIZE)),
    "replace_match": (_STATUS, _HANDLE, _SIZE, _SIZE, _BYTES, _SIZE),
    "replace_listed": (_STATUS, _HANDLE, _SIZE, _SIZE, _BYTES, _SIZE, ctypes.POINTER(_SIZE)),
    "fork": (_STATUS, _HANDLE, ctypes.POINTER(_SIZE)),
    "choose": (_STATUS, _HANDLE, ctypes.c_uint64),
    "forget": (_STATUS, _HANDLE),
    "keep": (_STATUS, _HANDLE, _SIZE),
    "join": (_STATUS, _HANDLE, _SIZE),
    "buffers": (_SIZE, _HANDLE),
    "chosen": (_SIZE, _HANDLE),
    "can_undo": (ctypes.c_bool, _HANDLE),
    "can_redo": (ctypes.c_bool, _HANDLE),
    "undo_steps": (_SIZE, _HANDLE),
    "redo_steps": (_SIZE, _HANDLE),
    "byte_of": (_STATUS, _HANDLE, _Position, ctypes.POINTER(_SIZE)),
    "position_of": (_STATUS, _HANDLE, _SIZE, ctypes.POINTER(_Position)),
    "column_in": (_STATUS, _HANDLE, ctypes.c_uint32, _Position, ctypes.POINTER(_SIZE)),
    "position_in": (_STATUS, _HANDLE, ctypes.c_uint32, _SIZE, _SIZE, ctypes.POINTER(_Position)),
    "clamp": (_STATUS, _HANDLE, ctypes.c_uint32, _SIZE, _SIZE, ctypes.POINTER(_Position)),
    "line_len": (_STATUS, _HANDLE, _SIZE, ctypes.c_uint32, ctypes.POINTER(_SIZE)),
    "copy_line": (ctypes.c_bool, _HANDLE, _SIZE, _BYTES, _SIZE),
    "text_len": (_SIZE, _HANDLE),
    "text_lines": (_SIZE, _HANDLE),
    "copy_text": (ctypes.c_bool, _HANDLE, _SIZE, _SIZE, _BYTES, _SIZE),
    "rows": (_SIZE, _HANDLE),
    "count_matches": (_SIZE, _HANDLE, _SIZE, _SIZE),
    "copy_matches": (_SIZE, _HANDLE, _SIZE, _SIZE, ctypes.POINTER(_Span), _SIZE),
    "copy_matches_in": (_SIZE, _HANDLE, ctypes.c_uint32, _SIZE, _SIZE, ctypes.POINTER(_Span), _SIZE),
    "groups_at": (_STATUS, _HANDLE, _SIZE, _SIZE, ctypes.POINTER(_Group), _SIZE),
    "listed_from": (ctypes.c_bool, _HANDLE, _Position, ctypes.POINTER(_Listed)),
    "listed_before": (ctypes.c_bool, _HANDLE, _Position, ctypes.POINTER(_Listed)),
    "list_index": (ctypes.c_bool, _HANDLE, _SIZE, _SIZE, ctypes.POINTER(_SIZE), ctypes.POINTER(_SIZE)),
    "changed": (_Stretch, _HANDLE),
    "text_changes": (_SIZE, _HANDLE, ctypes.POINTER(_TextChange), _SIZE),
    "begin_text": (_STATUS, _HANDLE),
    "append_part": (_STATUS, _HANDLE, _BYTES, _SIZE),
    "end_text": (_STATUS, _HANDLE),
    "cancel_text": (_STATUS, _HANDLE),
    "begin_pattern": (_STATUS, _HANDLE, _BYTES, _SIZE),
    "advance": (_STATUS, _HANDLE, _SIZE, ctypes.POINTER(ctypes.c_bool)),
    "cancel": (_STATUS, _HANDLE),
    "pending": (ctypes.c_bool, _HANDLE, ctypes.POINTER(_SIZE)),
    "count_pending": (_STATUS, _HANDLE, _SIZE, _SIZE, ctypes.POINTER(_SIZE)),
    "copy_pending": (_STATUS, _HANDLE, _SIZE, _SIZE, ctypes.POINTER(_Span), _SIZE, ctypes.POINTER(_SIZE)),
    "window": (_STATUS, _HANDLE, _SIZE, _SIZE, ctypes.POINTER(_Span), _SIZE, ctypes.POINTER(_SIZE)),
    "counted": (_Counts, _HANDLE),
}
# The types that are passed for such numbers of the header.
_HANDED = {_SIZE: _Number, ctypes.c_uint64: _Number}
# How C names what columns count.
_BITS = {"utf-8": 8, "utf-16": 16, "utf-32": 32}
_library: Optional[ctypes.CDLL] = None


def library_path() -> str:
    """Returns the path of the library, or nothing if there is none."""
    if named := os.environ.get("ROPE_SEARCH_LIBRARY"):
        return named
    top = os.path.dirname(os.path.dirname(os.path.dirname(os.path.abspath(__file__))))
    # bin/ of the repository, or lib/ of an installation or release.
    for folder in ("bin", "lib"):
        if os.path.exists(path := os.path.join(top, folder, "librope_search.so")):
            return path
    return ctypes.util.find_library("rope_search") or ""


def library() -> ctypes.CDLL:
    """Returns the library, with its calls declared. Raises OSError if it isn't found, or has another version."""
    global _library
    if _library is None:
        path = library_path()
        if not path:
            raise OSError("librope_search.so was not found: make lib builds it, ROPE_SEARCH_LIBRARY names it")
        opened = ctypes.CDLL(path)
        version = getattr(opened, "rope_search_version", int)()
        if version // 1_000 != VERSION // 1_000:
            raise OSError(f"{path} has the version {version}, not {VERSION}")
        for name, (result, *arguments) in _CALLS.items():
            call = getattr(opened, "rope_search_" + name)
            call.restype, call.argtypes = result, [_HANDED.get(kind, kind) for kind in arguments]
        _library = opened
    return _library


def _bytes_of(text: Text) -> bytes:
    """Returns the text's UTF-8. A lone surrogate has none; it makes bytes that are refused with Utf8."""
    return text if isinstance(text, bytes) else text.encode("utf-8", "surrogatepass")


def _match_of(match: Union[_Match, _TextMatch]) -> Match:
    return Match(Position(match.start.line, match.start.column), Position(match.stop.line, match.stop.column))


def _check(status: int) -> None:
    if status:
        raise FAULTS[status - 1]()


def pattern_error(pattern: Text) -> Optional[PatternError]:
    """Returns where and why a text is no pattern, if set_pattern raises Pattern for it, and otherwise None. Needs no session.
    Raises Utf8, Memory."""
    pattern, told = _bytes_of(pattern), _PatternReason()
    _check(library().rope_search_pattern_error(pattern, len(pattern), told))
    return PatternError(told.place, REASONS[told.reason - 1]) if told.reason else None


def escape(text: Text) -> str:
    """Returns a pattern that matches that text only: the text with a backslash before each character that has a special
    meaning in patterns. Needs no session. Raises Utf8; Limit if the pattern would have more than 65,536 bytes; Memory."""
    text = _bytes_of(text)
    # A pattern never has more bytes than this.
    room = min(2 * len(text), 65_536)
    out, size = ctypes.create_string_buffer(max(1, room)), _SIZE()
    _check(library().rope_search_escape(text, len(text), out, room, size))
    return out.raw[: size.value].decode("utf-8")


class Session:
    """Buffers, one of which is chosen: calls use that one. Texts have at most `limit` bytes."""

    def __init__(self, limit: int = 1 << 30) -> None:
        self._calls = library()
        self._handle = _Handle()
        _check(self._calls.rope_search_open(limit, self._handle))

    def __enter__(self) -> "Session":
        return self

    def __exit__(self, *_: object) -> None:
        self.close()

    def __del__(self) -> None:
        if hasattr(self, "_handle"):
            self.close()

    def close(self) -> None:
        """Ends the session: all further calls raise Closed. May be called again."""
        self._calls.rope_search_close(self._handle)

    @property
    def is_open(self) -> bool:
        """Whether the session isn't closed."""
        return self._handle.is_open

    # ---- commands

    def set_text(self, text: Text) -> None:
        """Sets a new text and starts a new history. Raises Utf8, Size, Memory."""
        text = _bytes_of(text)
        _check(self._calls.rope_search_set_text(self._handle, text, len(text)))

    def edit(self, start: Tuple[int, int], stop: Tuple[int, int], text: Text) -> None:
        """Replaces the text between two positions. Raises Range, Utf8, Size, Memory."""
        text = _bytes_of(text)
        _check(self._calls.rope_search_edit(self._handle, _Position(*start), _Position(*stop), text, len(text)))

    def edit_all(self, edits: Iterable[Tuple[Tuple[int, int], Tuple[int, int], Text]]) -> None:
        """Makes several edits as one undo step, each (start, stop, text), in ascending order, with positions in the text
        before any of them; two may touch. Raises Range, Utf8, Size, Memory; then none is made."""
        edits = [(_Position(*start), _Position(*stop), _bytes_of(text)) for start, stop, text in edits]
        told = (_TextEdit * max(1, len(edits)))(*((start, stop, len(text)) for start, stop, text in edits))
        text = b"".join(text for _, _, text in edits)
        _check(self._calls.rope_search_edit_all(self._handle, told, len(edits), text, len(text)))

    def edit_bytes(self, start: int, stop: int, text: Text) -> None:
        """Replaces the bytes from one offset to another. Raises Range if an offset is past the text, inside a character or
        between a CR and its LF; Utf8, Size, Memory."""
        text = _bytes_of(text)
        _check(self._calls.rope_search_edit_bytes(self._handle, start, stop, text, len(text)))

    def undo(self) -> None:
        """Goes one text back. Raises Nothing, Memory."""
        _check(self._calls.rope_search_undo(self._handle))

    def redo(self) -> None:
        """Goes one text forward. Raises Nothing, Memory."""
        _check(self._calls.rope_search_redo(self._handle))

    def set_pattern(self, pattern: Text) -> None:
        """Sets the pattern. Raises Utf8, Pattern, Limit, Memory."""
        pattern = _bytes_of(pattern)
        _check(self._calls.rope_search_set_pattern(self._handle, pattern, len(pattern)))

    def off(self) -> None:
        """Drops the pattern, if there is one."""
        _check(self._calls.rope_search_off(self._handle))

    def next(self, start: Tuple[int, int]) -> Optional[Match]:
        """Returns the first match in the whole text that starts at a position or after it, or None. Raises Nothing, Range,
        Memory."""
        match = _Match()
        _check(self._calls.rope_search_next(self._handle, _Position(*start), match))
        return _match_of(match) if match.found else None

    def next_all(self, start: Tuple[int, int], room: int = 1_024) -> List[Match]:
        """Returns the first matches in the whole text that start at a position or after it, at most `room`: of those that
        `replace` replaces, found from the text's start in one search. Raises Nothing, Range, Memory."""
        out, count = (_TextMatch * max(1, room))(), ctypes.c_size_t()
        _check(self._calls.rope_search_next_all(self._handle, _Position(*start), out, room, count))
        return [_match_of(match) for match in out[:count.value]]

    def replace(self, template: Text) -> int:
        """Replaces all matches, and returns their number. Raises Nothing, Utf8, Size, Memory."""
        template, count = _bytes_of(template), ctypes.c_size_t()
        _check(self._calls.rope_search_replace(self._handle, template, len(template), count))
        return count.value

    def replace_match(self, line: int, number: int, template: Text) -> None:
        """Replaces one match of the report, by its line and its number in that row, with the groups that the search of the
        line finds. Raises Nothing; Range if no such match is listed; Utf8, Size, Memory."""
        template = _bytes_of(template)
        _check(self._calls.rope_search_replace_match(self._handle, line, number, template, len(template)))

    def replace_listed(self, first: int, last: int, template: Text) -> int:
        """Replaces the matches that the report lists in the lines `first` up to, not including, `last`, with the groups that
        the search of each line finds, and returns their number. Raises Nothing, Utf8, Size, Memory."""
        template, count = _bytes_of(template), ctypes.c_size_t()
        _check(self._calls.rope_search_replace_listed(self._handle, first, last, template, len(template), count))
        return count.value

    def fork(self) -> int:
        """Adds a buffer with the current text, no history and no pattern, and returns its number. Raises Memory."""
        number = ctypes.c_size_t()
        _check(self._calls.rope_search_fork(self._handle, number))
        return number.value

    def choose(self, number: int) -> None:
        """Chooses a buffer by its number, from 0. Raises Nothing."""
        _check(self._calls.rope_search_choose(self._handle, number))

    def forget(self) -> None:
        """Drops the history: only the current text is left."""
        _check(self._calls.rope_search_forget(self._handle))

    def keep(self, steps: int) -> None:
        """Drops all undo steps but the last `steps`, and what could be redone."""
        _check(self._calls.rope_search_keep(self._handle, steps))

    def join(self, steps: int) -> None:
        """Makes the last `steps` undo steps one. Raises Nothing if there are fewer; Memory."""
        _check(self._calls.rope_search_join(self._handle, steps))

    # ---- reading

    @property
    def buffers(self) -> int:
        """The number of buffers."""
        return self._calls.rope_search_buffers(self._open())

    @property
    def chosen(self) -> int:
        """The number of the chosen buffer, from 0."""
        return self._calls.rope_search_chosen(self._open())

    @property
    def can_undo(self) -> bool:
        """Whether there is a text to go back to."""
        return self._calls.rope_search_can_undo(self._open())

    @property
    def can_redo(self) -> bool:
        """Whether there is a text to go forward to."""
        return self._calls.rope_search_can_redo(self._open())

    @property
    def undo_steps(self) -> int:
        """The number of texts to go back to."""
        return self._calls.rope_search_undo_steps(self._open())

    @property
    def redo_steps(self) -> int:
        """The number of texts to go forward to."""
        return self._calls.rope_search_redo_steps(self._open())

    def byte_of(self, position: Tuple[int, int]) -> int:
        """Returns the byte offset of a position. Raises Range."""
        byte = ctypes.c_size_t()
        _check(self._calls.rope_search_byte_of(self._handle, _Position(*position), byte))
        return byte.value

    def position_of(self, byte: int) -> Position:
        """Returns the position of a byte offset. Raises Range if no character starts there."""
        position = _Position()
        _check(self._calls.rope_search_position_of(self._handle, byte, position))
        return Position(position.line, position.column)

    def column_in(self, encoding: str, position: Tuple[int, int]) -> int:
        """Returns the column of a position, in bytes for "utf-8", in code units for "utf-16", in characters for "utf-32".
        Raises Range."""
        column = ctypes.c_size_t()
        _check(self._calls.rope_search_column_in(self._handle, _BITS.get(encoding, 0), _Position(*position), column))
        return column.value

    def position_in(self, encoding: str, line: int, column: int) -> Position:
        """Returns the position of a line and a column in an encoding. Raises Range if they are not in the text."""
        position = _Position()
        _check(self._calls.rope_search_position_in(self._handle, _BITS.get(encoding, 0), line, column, position))
        return Position(position.line, position.column)

    def clamp(self, line: int, column: int, encoding: str = "utf-16") -> Position:
        """Returns the position nearest to a line and a column in an encoding that need not be in the text: the end of the
        line's text for a column past it, the start of a character or surrogate pair for a column inside, the text's end for
        a line past the last one. Raises Range for another encoding."""
        position = _Position()
        _check(self._calls.rope_search_clamp(self._handle, _BITS.get(encoding, 0), line, column, position))
        return Position(position.line, position.column)

    def line_len(self, line: int, encoding: str = "utf-16") -> int:
        """Returns the length of a line's text in an encoding, without its break. Raises Range."""
        length = ctypes.c_size_t()
        _check(self._calls.rope_search_line_len(self._handle, line, _BITS.get(encoding, 0), length))
        return length.value

    def line_text(self, line: int) -> str:
        """Returns a line's text, without its break. Raises Range."""
        room = self.line_len(line, "utf-8")
        out = ctypes.create_string_buffer(max(1, room))
        if not self._calls.rope_search_copy_line(self._handle, line, out, room):
            raise Range()
        return out.raw[:room].decode("utf-8")

    @property
    def text_len(self) -> int:
        """The number of bytes of the text."""
        return self._calls.rope_search_text_len(self._open())

    @property
    def text_lines(self) -> int:
        """The number of lines of the text."""
        return self._calls.rope_search_text_lines(self._open())

    def text_bytes(self, start: int = 0, stop: Optional[int] = None) -> bytes:
        """Returns bytes of the text. Raises Range if they aren't in the text, or split a character."""
        stop = self.text_len if stop is None else stop
        room = max(0, min(stop, self.text_len) - start)
        out = ctypes.create_string_buffer(max(1, room))
        if not self._calls.rope_search_copy_text(self._open(), start, stop, out, room):
            raise Range()
        return out.raw[:room]

    @property
    def text(self) -> str:
        """The text."""
        return self.text_bytes().decode("utf-8")

    @property
    def rows(self) -> int:
        """The number of rows of the report: the text's lines, or 0 without a pattern."""
        return self._calls.rope_search_rows(self._open())

    def count_matches(self, start: int = 0, stop: Optional[int] = None) -> int:
        """Returns the number of matches in the rows from `start` up to, not including, `stop`."""
        return self._calls.rope_search_count_matches(self._open(), start, _ALL if stop is None else stop)

    def matches(self, start: int = 0, stop: Optional[int] = None, encoding: str = "utf-16") -> List[Span]:
        """Returns the matches in these rows, with columns in an encoding; none if there is no such encoding."""
        stop = _ALL if stop is None else stop
        count = self.count_matches(start, stop)
        out = (_Span * max(1, count))()
        if encoding == "utf-16":
            self._calls.rope_search_copy_matches(self._open(), start, stop, out, count)
        else:
            count = self._calls.rope_search_copy_matches_in(self._open(), _BITS.get(encoding, 0), start, stop, out, count)
        return [Span(span.line, span.start, span.stop) for span in out[:count]]

    def groups_at(self, line: int, number: int) -> List[Optional[Span]]:
        """Returns the groups 0 to 9 of match `number`, from 0, in a row: the first is the whole match, and a group that isn't
        in the match is None. The line is searched once more, which is counted. Raises Nothing, Range, Memory."""
        out = (_Group * 10)()
        _check(self._calls.rope_search_groups_at(self._handle, line, number, out, len(out)))
        return [Span(group.line, group.start, group.stop) if group.found else None for group in out]

    def listed_from(self, position: Tuple[int, int]) -> Optional[Listed]:
        """Returns the first match of the report that starts at a position or after it, or None."""
        match = _Listed()
        found = self._calls.rope_search_listed_from(self._open(), _Position(*position), match)
        return Listed(match.line, match.number, match.start, match.stop) if found else None

    def listed_before(self, position: Tuple[int, int]) -> Optional[Listed]:
        """Returns the last match of the report that starts before a position, or None."""
        match = _Listed()
        found = self._calls.rope_search_listed_before(self._open(), _Position(*position), match)
        return Listed(match.line, match.number, match.start, match.stop) if found else None

    def list_index(self, line: int, number: int) -> Optional[Tuple[int, int]]:
        """Returns the number of matches that the report lists before match `number`, from 0, of a row, and the number of all;
        None if there is no such match."""
        index, count = ctypes.c_size_t(), ctypes.c_size_t()
        found = self._calls.rope_search_list_index(self._open(), line, number, index, count)
        return (index.value, count.value) if found else None

    @property
    def changed(self) -> Stretch:
        """The rows that the last accepted command on the chosen buffer replaced. Only set_text, set_pattern, edits, undo,
        redo, off and replacements replace rows."""
        stretch = self._calls.rope_search_changed(self._open())
        return Stretch(stretch.first, stretch.removed, stretch.added)

    @property
    def text_changes(self) -> List[TextChange]:
        """The ranges of bytes in which the last accepted call on the chosen buffer replaced its text, of set_text, edit,
        edit_all, undo, redo and replace: ascending, never merged. The old text with each range replaced by the new text's
        range is the new text."""
        count = self._calls.rope_search_text_changes(self._open(), (_TextChange * 1)(), 0)
        out = (_TextChange * max(1, count))()
        self._calls.rope_search_text_changes(self._open(), out, count)
        return [TextChange(one.old_start, one.old_end, one.new_start, one.new_end) for one in out[:count]]

    # ---- a text that arrives in parts

    def begin_text(self) -> None:
        """Begins a text that arrives in parts, and drops what arrived of one that was begun before. The text of the buffer
        stays until end_text."""
        _check(self._calls.rope_search_begin_text(self._handle))

    def append_part(self, part: Text) -> None:
        """Adds the next bytes to the text that arrives; they may end inside a character. Refused: Nothing, where no text was
        begun; Utf8, Size, Memory, as soon as it is known that end_text will be refused."""
        part = _bytes_of(part)
        _check(self._calls.rope_search_append_part(self._handle, part, len(part)))

    def end_text(self) -> None:
        """Sets the text to the one that arrived, as set_text does. After this none arrives, also if it is refused: Nothing,
        where no text was begun; Utf8, Size, Memory."""
        _check(self._calls.rope_search_end_text(self._handle))

    def cancel_text(self) -> None:
        """Drops the text that arrives, if one was begun."""
        _check(self._calls.rope_search_cancel_text(self._handle))

    # ---- a pending pattern

    def begin_pattern(self, pattern: Text) -> None:
        """Makes a pattern pending: advance makes its report in slices. Until then the pattern and the report stay. Raises
        Utf8, Pattern, Limit, Memory."""
        pattern = _bytes_of(pattern)
        _check(self._calls.rope_search_begin_pattern(self._handle, pattern, len(pattern)))

    def advance(self, max_lines: int) -> bool:
        """Searches up to `max_lines` further lines for the pending pattern, and returns whether all are done: it is then the
        pattern, as set_pattern would have made it. Raises Nothing, Memory."""
        done = ctypes.c_bool()
        _check(self._calls.rope_search_advance(self._handle, max_lines, done))
        return done.value

    def cancel(self) -> None:
        """Drops the pending pattern, if there is one."""
        _check(self._calls.rope_search_cancel(self._handle))

    @property
    def pending(self) -> Optional[int]:
        """The number of lines that are done for the pending pattern; None without one."""
        lines = ctypes.c_size_t()
        return lines.value if self._calls.rope_search_pending(self._open(), lines) else None

    def count_pending(self, start: int = 0, stop: Optional[int] = None) -> int:
        """Returns the number of matches of the pending pattern in the lines that are done, from `start` up to, not including,
        `stop`. Raises Nothing."""
        count = ctypes.c_size_t()
        _check(self._calls.rope_search_count_pending(self._handle, start, _ALL if stop is None else stop, count))
        return count.value

    def pending_matches(self, start: int = 0, stop: Optional[int] = None) -> List[Span]:
        """Returns these matches. Raises Nothing."""
        stop = _ALL if stop is None else stop
        room, count = self.count_pending(start, stop), ctypes.c_size_t()
        out = (_Span * max(1, room))()
        _check(self._calls.rope_search_copy_pending(self._handle, start, stop, out, room, count))
        return [Span(span.line, span.start, span.stop) for span in out[:room]]

    def window(self, start: int, stop: int, room: int = 1_024) -> List[Span]:
        """Returns the matches of the pending pattern in the lines from `start` up to, not including, `stop`. Lines that are not
        done are searched: twice, if there are more matches than `room`. Raises Nothing, Memory."""
        count = ctypes.c_size_t(room)
        while True:
            room = max(1, count.value)
            out = (_Span * room)()
            _check(self._calls.rope_search_window(self._handle, start, stop, out, room, count))
            if count.value <= room:
                return [Span(span.line, span.start, span.stop) for span in out[:count.value]]

    @property
    def counted(self) -> Counts:
        """The counts so far."""
        counts = self._calls.rope_search_counted(self._open())
        return Counts(counts.rows, counts.wholes)

    def _open(self) -> _Handle:
        """Returns the handle. Raises Closed if the session isn't open."""
        if not self._handle.is_open:
            raise Closed()
        return self._handle
