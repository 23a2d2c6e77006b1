"""The replies of bin/rope-search: the examples of docs/protocol.md and longer ones, from a file, from a pipe in pieces,
truncated, and command by command."""
import os
import random
import re
import select
import subprocess
import tempfile

from harness import FIRST, ROOM, SECONDS, TOP, differences, end_of, example_rows, run, run_in_pieces, short, start, test
from protocol import TEXT_LIMIT, answer, read_commands, replies, spelled


def bytes_of(spelling):
    """The bytes of a spelling of the page: \\n, \\r and \\xHH are escapes."""
    return re.sub(
        r"\\(n|r|x[0-9a-f]{2})",
        lambda found: {"n": "\n", "r": "\r"}.get(found[1]) or chr(int(found[1][1:], 16)),
        spelling,
    ).encode("latin-1")


def examples_of_page():
    """The rows of the page's table of examples: input, output, status."""
    rows = example_rows("protocol.md", r"\| (?:`(.+)`|nothing) \| (?:`(.+)`|nothing) \| ([02]) \|")
    return [(bytes_of(row[1] or ""), bytes_of(row[2] or ""), int(row[3])) for row in rows]


# Texts outside the grammar; and patterns that match nowhere in the empty text, or once.
REFUSED_PATTERNS = ["\\", "+", "*", "?", "(", ")", "[", "{", "a{", "(b", "a)", "(?x)a", "(?=a)", "a{2,1}", "[b-a]", "\\q", "\\p{L}", "[a", "[[a]"]
REFUSED_PATTERNS += ["a|*", "a{,2}", "a{65536}", "(?i)*", "(?)", "(?ii)", "(?P<n>a)(?<n>b)", "(a)\\1"]
REFUSED_PATTERNS += ["\\<", "\\x{D800}", "[\\b]", "[]-a]"]
# Also these of 65,536 bytes, the maximum length of a pattern.
LONG_REFUSED = ["a" * 65_535 + "(", "(" * 65_536, "[" * 65_536, "a" + "*" * 65_535, "é" * 32_767 + "a)"]
PATTERNS = ["]", "}", "-", "&", "a", " ", "\n", "é", "🐸", "]a}", ".", "a.", "a+", "[ab]", "(a)b", "\\w", "\\b", "a{2}"]
EMPTY_PATTERNS = ["", "|", "^", "$", "a*", "a?", "()", "(?:a|b)*", "^$", "(?m)^$", "a{0}", "(?i)"]


def with_payload(word, text):
    """A command with a payload."""
    payload = text.encode()
    return spelled(word, (len(payload),), payload)


def listed_after(patterns, reply, report):
    """Patterns for the empty text, each followed by `list`."""
    data = b"".join(with_payload("pattern", pattern) + b"list\n" for pattern in patterns)
    return data, (reply + report) * len(patterns), 0


def long_lines(length):
    """Four lines, the first and the last of which may span chunks, which have 984 bytes at most, and their list with
    the pattern `éb`."""
    text = "a" * length + "éb\r\nébéb\r\r\n" + "é" * length + "b"
    places = [(0, length, length + 2), (1, 0, 2), (1, 2, 4), (3, length - 1, length + 1)]
    matches = b"".join(b"m %d %d %d\n" % place for place in places)
    return with_payload("text", text) + b"list\n", b"ok\n" + matches + b"ok 4\n"


def replaced_in_chunks(step, template):
    """A text with many chunks, with matches at this distance in bytes and one from its third line to its fourth, and
    its result after a template that names only group 0 replaces each."""
    text = ("-" * (step - 1) + "x") * (4_000 // step) + "\r\n\nab\r" + "-" * 1_000 + "c"
    new = re.sub("x|b\r-*", lambda found: template.replace("$0", found[0]), text)
    commands = [("text", text), ("pattern", "x|b\\r-*"), ("replace", template)]
    count = 4_000 // step + 1
    data = b"".join(with_payload(*command) for command in commands)
    return data + b"print\n", b"ok\nok\nok %d\ntext %d\n%b\n" % (count, len(new.encode()), new.encode()), 0


# Patterns that match each letter of a run of `a`, and whose searches, except the last ones, read to the run's end; with
# a template and its expansion for each letter.
FAR_READING = [
    ("a*b|a", "$0", "a"),
    (".*?x|a", "<$0>", "<a>"),
    (".*x|.", "b", "b"),
    ("(a|b)*c|a", "$1c", "c"),
    ("(?:a{0,200})*b|a", "", ""),
    ("(a*)b|(a)", "$2$1$2", "aa"),
]


def each_alone(count, pattern, template, new, letter="a"):
    """A run of this number of letters, each of which the pattern matches separately: listed, replaced, and listed after
    that is undone."""
    data = with_payload("text", letter * count) + with_payload("pattern", pattern) + b"list\n"
    data += with_payload("replace", template) + b"print\nundo\nlist\n"
    text = new.encode() * count
    rows = [b"m 0 %d %d\n" % (place, place + 1) for place in range(count)]
    told = [b"ok %d\n" % count, b"text %d\n%b\nok\n" % (len(text), text)]
    return data, b"".join([b"ok\nok\n", *rows, told[0], *told, *rows, told[0]]), 0


MOST = 2**64 - 1
TEXT = "a🐸b\r\nc\r"
# Positions that are nowhere in this text.
NOWHERE = [(0, 2), (0, 5), (0, 6), (1, 2), (2, 1), (3, 0), (MOST, 0), (0, MOST), (2, MOST)]
LONG_LINES = [long_lines(length) for length in (981, 982, 983, 984, 985, 1_967, 1_968, 3_000)]

MORE_EXAMPLES = [
    (b"x" * 128, b"error end\n", 2),
    (b"x" * 129, b"error command\n", 2),
    (b"x" * 128 + b"\n", b"error command\n", 2),
    (b"x" * 129 + b"\n", b"error command\n", 2),
    (b"text 0\n" + b" " * 128, b"ok\nerror end\n", 2),
    (b"text 0\n" + b" " * 129, b"ok\nerror command\n", 2),
    (b"use 0" + b" " * 123 + b"\n", b"error command\n", 2),
    (b"text  2\nhi", b"error command\n", 2),
    (b"edit 0 0 0 0\n", b"error command\n", 2),
    (b"list 1\n", b"error command\n", 2),
    (b"undo\nredo\n", b"error none\nerror none\n", 0),
    # more of what the page's table shows
    (b"edit 0 1 0 1 1\n\xffedit 0 0 0 0 1\n\xffprint\n", b"error range\nerror utf8\ntext 0\n\n", 0),
    (b"text 3\naabpattern 7\n(a)|(b)replace 6\n<$1$2>list\nprint\n", b"ok\nok\nok 3\nm 0 1 2\nm 0 4 5\nm 0 7 8\nok 3\ntext 9\n<a><a><b>\n", 0),
    (b"text 3\naaapattern 2\naalist\noff\nlist\n", b"ok\nok\nm 0 0 2\nok 1\nok\nerror none\n", 0),
    (b"text 4\na\r\nbpattern 1\n\rnext 0 0\nlist\n", b"ok\nok\nm 0 1 0 2\nok 0\n", 0),
    (b"text 3\nx\rypattern 1\nyedit 1 0 1 0 1\n\nlist\n", b"ok\nok\nok\nm 1 0 1\nok 1\n", 0),
    (b"text 1\naedit 0 1 0 1 1\nbundo\nredo\nprint\nundo\nedit 0 0 0 0 0\nredo\n", b"ok\nok\nok\nok\ntext 2\nab\nok\nok\nerror none\n", 0),
    (b"text 1\napattern 1\nareplace 6\n$$$0$xprint\n", b"ok\nok\nok 1\ntext 4\n$a$x\n", 0),
    (b"use  0\n", b"error command\n", 2),
    (b"", b"", 0),
    (b"print\n", b"text 0\n\n", 0),
    (b"text 00000000000000000002\nhiprint\n", b"ok\ntext 2\nhi\n", 0),
    (b"text 1\naprint", b"ok\nerror end\n", 2),
    (b"text 2\nabpattern 2\nx*replace 1\n-print\n", b"ok\nok\nok 3\ntext 5\n-a-b-\n", 0),
    (b"text 3\n\xe3\x81\x9bprint\n", b"ok\ntext 3\n\xe3\x81\x9b\n", 0),
    (b"text 2\nabpattern 3\n\\bbnext 0 1\n", b"ok\nok\nno match\n", 0),
    (b"text 4\na\r\napattern 2\na$list\nnext 0 0\n", b"ok\nok\nm 0 0 1\nm 1 0 1\nok 2\nm 1 0 1 1\n", 0),
    (b"next 0 0\npattern 1\nxnext 1 0\nnext 0 0\nnext 0 0 0\n", b"error none\nok\nerror range\nno match\nerror command\n", 2),
    (b"text 5\na\xe2\x80\xa8bpattern 1\nblist\n", b"ok\nok\nm 0 2 3\nok 1\n", 0),
    (b"text 6\na\xf0\x9f\x90\xb8bedit 0 1 0 3 1\nxprint\n", b"ok\nok\ntext 3\naxb\n", 0),
    (b"text 4\na\r\nbedit 0 2 0 2 1\nxedit 0 1 1 0 0\nprint\n", b"ok\nerror range\nok\ntext 2\nab\n", 0),
    (b"text 2\nabedit 0 1 0 0 1\nxedit 1 0 1 0 1\nxedit 0 2 0 3 1\nxprint\n", b"ok\nerror range\nerror range\nerror range\ntext 2\nab\n", 0),
    (b"pattern 1\naedit 0 0 0 0 3\na\naundo\nlist\nredo\nlist\noff\nundo\nprint\n", b"ok\nok\nok\nok 0\nok\nm 0 0 1\nm 1 0 1\nok 2\nok\nok\ntext 0\n\n", 0),
    (b"text 1\napattern 3\n(a)replace 9\n\\1\\n&${1}print\n", b"ok\nok\nok 1\ntext 9\n\\1\\n&${1}\n", 0),
    (b"text 2\nabpattern 1\nareplace 5\n$12$9print\n", b"ok\nok\nok 1\ntext 2\n2b\n", 0),
    (b"print\r\n", b"error command\n", 2),
    (b"text 0\nprint\n", b"ok\ntext 0\n\n", 0),
    (b"text 6\nprint\nprint\n", b"ok\ntext 6\nprint\n\n", 0),
    (b"text 1\n\xffprint\n", b"error utf8\ntext 0\n\n", 0),
    (b"use 18446744073709551615\nuse 18446744073709551616\nprint\n", b"error none\nerror command\n", 2),
    (b"text 5\nab", b"error end\n", 2),
    (b"\nprint\n", b"error command\n", 2),
    (b"pattern 1\n$list\nundo\n", b"ok\nm 0 0 0\nok 1\nerror none\n", 0),
    (b"text 1\n\xffprint\npattern 1\n*list\n", b"error utf8\ntext 0\n\nerror pattern\nerror none\n", 0),
    (b"text 1\napattern 1\nafork\nuse 1\nlist\n", b"ok\nok\nok 1\nok\nerror none\n", 0),
    (b"off\npattern 0\nlist\n", b"ok\nok\nm 0 0 0\nok 1\n", 0),
    (b"pattern 5\nlist\nlist\n", b"ok\nok 0\n", 0),
    (b"undo\nredo\nprint\n", b"error none\nerror none\ntext 0\n\n", 0),
    (b"edit 00 0 000 0 02\nhiprint\n", b"ok\ntext 2\nhi\n", 0),
    (b"edit 0 0 18446744073709551615 0 0\nprint\n", b"error range\ntext 0\n\n", 0),
    (b"edit 0 0 0 18446744073709551616 0\nprint\n", b"error command\n", 2),
    (b"edit 0 0 0 1\nprint\n", b"error command\n", 2),
    (b"edit 0 0 0 0 2\na", b"error end\n", 2),
    (b"undo 1\n", b"error command\n", 2),
    (b"replace 1\n\xffpattern 1\nareplace 1\n\xffreplace 0\n", b"error none\nok\nerror utf8\nok 0\n", 0),
    (b"replace 2\na", b"error end\n", 2),
    (b"replace\n", b"error command\n", 2),
    (b"pattern 2\na", b"error end\n", 2),
    (b"list 0\n", b"error command\n", 2),
    (b"print \n", b"error command\n", 2),
    (b" print\n", b"error command\n", 2),
    (b"print\t\n", b"error command\n", 2),
    (b"use\t0\n", b"error command\n", 2),
    (b"Print\n", b"error command\n", 2),
    (b"use -1\n", b"error command\n", 2),
    (b"use\n", b"error command\n", 2),
    (b"fork 1\n", b"error command\n", 2),
    (b"use 0\nuse 1\nfork\nuse 1\nuse 2\n", b"ok\nerror none\nok 1\nok\nerror none\n", 0),
    (b"text 2\nabpattern 1\nbpattern 2\nb(pattern 1\n\xfflist\n", b"ok\nok\nerror pattern\nerror utf8\nm 0 1 2\nok 1\n", 0),
    (b"text 5\nx\rb\nypattern 1\nylist\nedit 1 0 1 1 0\nlist\n", b"ok\nok\nm 2 0 1\nok 1\nok\nm 1 0 1\nok 1\n", 0),
    (b"text 3\nb\nypattern 1\nyedit 0 1 0 1 1\n\rlist\n", b"ok\nok\nok\nm 1 0 1\nok 1\n", 0),
    (b"text 5\nx\rb\nypattern 1\nyedit 1 0 1 1 2\n\n\rlist\n", b"ok\nok\nok\nm 2 0 1\nok 1\n", 0),
    (b"text 3\na\x0bbedit 0 2 0 2 1\nxprint\n", b"ok\nok\ntext 4\na\x0bxb\n", 0),
    (b"text 5\na\x0bb\x0ccpattern 1\nblist\n", b"ok\nok\nm 0 2 3\nok 1\n", 0),
    (b"text 1\nqfork\nedit 0 0 0 1 1\nzuse 1\nprint\n", b"ok\nok 1\nok\nok\ntext 1\nq\n", 0),
    (b"edit 0 0 0 0 1\natext 1\nbundo\nprint\n", b"ok\nok\nerror none\ntext 1\nb\n", 0),
    (b"text 5\na\rx\nypattern 1\nxreplace 0\nlist\nprint\n", b"ok\nok\nok 1\nok 0\ntext 4\na\r\ny\n", 0),
    (b"text 4\na\r\nbpattern 2\n\r\nreplace 2\n\n\rprint\nlist\n", b"ok\nok\nok 1\ntext 4\na\n\rb\nok 0\n", 0),
    (b"text 000000000000000000002\nhiprint\n", b"error command\n", 2),
    (b"text 3\n\xed\xa0\x80print\n", b"error utf8\ntext 0\n\n", 0),
    (b"text 1\nafork\ntext 1\nbfork\nuse 2\nprint\nuse 1\nprint\n", b"ok\nok 1\nok\nok 2\nok\ntext 1\nb\nok\ntext 1\na\n", 0),
    (b"text 7\na\xf0\x9f\x90\xb8b\npattern 1\nblist\n", b"ok\nok\nm 0 3 4\nok 1\n", 0),
    (b"edit 0 0 0 0 1\naedit 0 1 0 1 1\nbundo\nundo\nundo\nredo\nredo\nredo\nprint\n", b"ok\nok\nok\nok\nerror none\nok\nok\nerror none\ntext 2\nab\n", 0),
    (b"edit 0 0 0 0 1\nafork\nuse 1\nundo\nuse 0\nundo\nprint\n", b"ok\nok 1\nok\nerror none\nok\nok\ntext 0\n\n", 0),
    (b"text 1\napattern 1\nbreplace 1\ncundo\nundo\n", b"ok\nok\nok 0\nok\nerror none\n", 0),
    (b"text 3\na\nbpattern 3\na\nbreplace 1\ncundo\nlist\nredo\nprint\n", b"ok\nok\nok 1\nok\nok 0\nok\ntext 1\nc\n", 0),
    # buffers
    (b"use 1\nfork\nuse 1\nuse 2\nuse 0\n", b"error none\nok 1\nok\nerror none\nok\n", 0),
    (b"text 2\nabfork\nuse 2\nuse 1\nprint\nfork\nuse 2\nuse 3\n",
     b"ok\nok 1\nerror none\nok\ntext 2\nab\nok 2\nok\nerror none\n", 0),
    (with_payload("text", "aé") + b"fork\nuse 1\ntext 0\nprint\nuse 0\nprint\n",
     "ok\nok 1\nok\nok\ntext 0\n\nok\ntext 3\naé\n".encode(), 0),
    (b"fork\n" * 300 + b"use 300\nuse 301\n", b"".join(b"ok %d\n" % k for k in range(1, 301)) + b"ok\nerror none\n", 0),
    # payloads that spell commands
    (b"text 5\nlist\npattern 5\nlist\nlist\n", b"ok\nok\nok 0\n", 0),
    (b"text 9000\n" + b"print\n" * 1500 + b"print\n", b"ok\ntext 9000\n" + b"print\n" * 1500 + b"\n", 0),
    (b"text 9001\n" + b"print\n" * 1500 + b"\xff" + b"print\n", b"error utf8\ntext 0\n\n", 0),
    # patterns, and the state after the one before
    listed_after(REFUSED_PATTERNS, b"error pattern\n", b"error none\n"),
    listed_after(LONG_REFUSED, b"error pattern\n", b"error none\n"),
    listed_after(PATTERNS, b"ok\n", b"ok 0\n"),
    listed_after(EMPTY_PATTERNS, b"ok\n", b"m 0 0 0\nok 1\n"),
    (b"list\noff\npattern 1\n\xffpattern 2\na(list\npattern 5\nabcdelist\ntext 3\na\nalist\noff\nlist\n",
     b"error none\nok\nerror utf8\nerror pattern\nerror none\nok\nok 0\nok\nok 0\nok\nerror none\n", 0),
    (b"text 2\nabpattern 1\nbpattern 7\n(\nlist\npattern 2\na\xfflist\n",
     b"ok\nok\nerror pattern\nerror utf8\nm 0 1 2\nok 1\n", 0),
    (b"pattern 65536\n" + b"a" * 65536 + b"list\n", b"ok\nok 0\n", 0),
    (b"pattern 65537\n" + b"a" * 65537 + b"list\n", b"error limit\nerror none\n", 0),
    (b"pattern 65537\n" + b"a" * 65536 + b"\xfflist\n", b"error utf8\nerror none\n", 0),
    (b"pattern 65537\n" + b"*" * 65537 + b"list\n", b"error limit\nerror none\n", 0),
    (b"pattern 501\n" + b"(" * 250 + b"a" + b")" * 250 + b"list\n", b"ok\nok 0\n", 0),
    (b"pattern 503\n" + b"(" * 251 + b"a" + b")" * 251 + b"list\n", b"error pattern\nerror none\n", 0),
    (b"pattern 1401\na" + b"{65535}" * 200 + b"list\n", b"error limit\nerror none\n", 0),
    (b"pattern 18\na{65535}{65535}{0}", b"ok\n", 0),
    (b"pattern 17\n^a{65535}a{65535}pattern 18\n^^a{65535}a{65535}", b"ok\nerror limit\n", 0),
    # searches that read to the end
    *[each_alone(12, *row) for row in FAR_READING],
    each_alone(12, "é*b|é", "$0x", "éx", "é"),
    (b"text 9\naaaaaaaaapattern 4\na*b|list\nreplace 1\n-print\n",
     b"ok\nok\n" + b"".join(b"m 0 %d %d\n" % (k, k) for k in range(10)) + b"ok 10\nok 10\ntext 19\n" + b"-a" * 9 + b"-\n", 0),
    # the matches in a line
    (with_payload("text", "\na\na🐸b") + b"pattern 1\nblist\n", b"ok\nok\nm 2 3 4\nok 1\n", 0),
    (with_payload("text", "é🐸🐸") + with_payload("pattern", "🐸") + b"list\n", b"ok\nok\nm 0 1 3\nm 0 3 5\nok 2\n", 0),
    (with_payload("text", "Ãé©é") + with_payload("pattern", "é") + b"list\n", b"ok\nok\nm 0 1 2\nm 0 3 4\nok 2\n", 0),
    (b"text 9\naaa\naaaaapattern 2\naalist\n", b"ok\nok\nm 0 0 2\nm 1 0 2\nm 1 2 4\nok 3\n", 0),
    (b"text 10\nabacababab" + b"pattern 4\nabablist\n", b"ok\nok\nm 0 4 8\nok 1\n", 0),
    (with_payload("text", "🐸こんに") + with_payload("pattern", "こん") + b"list\n", b"ok\nok\nm 0 2 4\nok 1\n", 0),
    # the report follows the text, and stays with its buffer
    (b"text 2\nabpattern 1\nblist\ntext 3\nb\nblist\n", b"ok\nok\nm 0 1 2\nok 1\nok\nm 0 0 1\nm 1 0 1\nok 2\n", 0),
    (b"text 1\napattern 1\nafork\nuse 1\nlist\nuse 0\nlist\n", b"ok\nok\nok 1\nok\nerror none\nok\nm 0 0 1\nok 1\n", 0),
    (with_payload("text", "ab\r\nba\u2028") + b"pattern 1\nalist\nfork\nuse 1\nlist\nuse 0\npattern 2\na(text 1\na"
     + b"list\noff\nlist\noff\n",
     b"ok\nok\nm 0 0 1\nm 1 1 2\nok 2\nok 1\nok\nerror none\nok\nerror pattern\nok\n"
     + b"m 0 0 1\nok 1\nok\nerror none\nok\n", 0),
    # where a CR and an LF meet, and are separate again
    (b"text 5\nx\rb\nypattern 1\nyedit 1 0 1 1 0\nundo\nlist\nredo\nlist\n",
     b"ok\nok\nok\nok\nm 2 0 1\nok 1\nok\nm 1 0 1\nok 1\n", 0),
    (b"text 3\nx\rypattern 1\nyedit 1 0 1 0 1\n\nundo\nlist\nredo\nlist\n",
     b"ok\nok\nok\nok\nm 1 0 1\nok 1\nok\nm 1 0 1\nok 1\n", 0),
    (b"text 3\nb\nypattern 1\nyedit 0 1 0 1 1\n\rundo\nlist\nredo\nlist\n",
     b"ok\nok\nok\nok\nm 1 0 1\nok 1\nok\nm 1 0 1\nok 1\n", 0),
    (b"text 5\nx\rb\nypattern 1\nyedit 1 0 1 1 2\n\n\rundo\nlist\nredo\nlist\n",
     b"ok\nok\nok\nok\nm 2 0 1\nok 1\nok\nm 2 0 1\nok 1\n", 0),
    # lines and breaks at the end of a chunk of 984 bytes, and lines over several chunks
    (b"text 1969\n" + b"a" * 983 + b"xyz" + b"a" * 983 + b"pattern 3\nxyzlist\n", b"ok\nok\nm 0 983 986\nok 1\n", 0),
    (b"pattern 1\nbtext 1004\n" + b"a" * 982 + b"b\r\n" + b"a" * 18 + b"blist\n",
     b"ok\nok\nm 0 982 983\nm 1 18 19\nok 2\n", 0),
    (b"pattern 2\nabtext 3006\n" + b"a" * 3000 + b"b\n\nab\nlist\nprint\n",
     b"ok\nok\nm 0 2999 3001\nm 2 0 2\nok 2\ntext 3006\n" + b"a" * 3000 + b"b\n\nab\n\n", 0),
    (with_payload("pattern", "éb") + b"".join(data for data, _ in LONG_LINES),
     b"ok\n" + b"".join(out for _, out in LONG_LINES), 0),
    # the next match in the whole text
    (with_payload("text", "ab\r\nab") + with_payload("pattern", "b\\r\\na|$")
     + b"next 0 0\nnext 0 2\nlist\nnext 1 0\nnext 1 3\n",
     b"ok\nok\nm 0 1 1 1\nm 1 2 1 2\nm 0 2 2\nm 1 2 2\nok 2\nm 1 2 1 2\nerror range\n", 0),
    (with_payload("text", "a🐸\r\n\rb") + with_payload("pattern", "[^a]")
     + b"next 0 0\nnext 0 2\nnext 0 3\nnext 0 4\nnext 1 0\nnext 2 0\nnext 2 1\n",
     b"ok\nok\nm 0 1 0 3\nerror range\nm 0 3 0 4\nerror range\nm 1 0 2 0\nm 2 0 2 1\nno match\n", 0),
    (with_payload("text", "ab\ncd") + with_payload("pattern", "\\Bb|^.") + b"next 0 0\nnext 0 1\nnext 1 0\n"
     + with_payload("pattern", "(?m)^c") + b"next 0 1\nedit 0 2 1 0 0\nnext 0 1\nundo\nnext 0 1\nfork\nuse 1\nnext 0 0\n",
     b"ok\nok\nm 0 0 0 1\nm 0 1 0 2\nno match\nok\nm 1 0 1 1\nok\nno match\nok\nm 1 0 1 1\nok 1\nok\nerror none\n", 0),
    (b"next 9 9\npattern 0\nnext %d 0\nnext 0 %d\nnext 000 00\nnext 0 %d\n" % (MOST, MOST, MOST + 1),
     b"error none\nok\nerror range\nerror range\nm 0 0 0 0\nerror command\n", 2),
    (b"next 0\n", b"error command\n", 2),
    # all matches replaced, by templates
    (with_payload("text", "aé🐸 b") + with_payload("pattern", r"(\w)(é)?|(🐸)") + with_payload("replace", "[$0$1$2$3$4$9]")
     + b"list\nprint\nundo\nlist\nredo\nredo\n",
     "ok\nok\nok 3\nm 0 1 3\nm 0 3 5\nm 0 7 9\nm 0 9 11\nm 0 14 15\nm 0 15 16\nok 6\n"
     "text 23\n[aéaé][🐸🐸] [bb]\nok\nm 0 0 2\nm 0 2 4\nm 0 5 6\nok 3\nok\nerror none\n".encode(), 0),
    (b"text 3\nabcpattern 4\n(b)creplace 12\n$$$1$$1$a$$$print\nreplace 2\n$0print\nundo\nundo\nprint\nundo\n",
     b"ok\nok\nok 1\ntext 9\na$b$1$a$$\nok 0\ntext 9\na$b$1$a$$\nok\nok\ntext 3\nabc\nerror none\n", 0),
    (b"text 3\nabcpattern 1\nbreplace 3\n$\xc3\xa9" + b"replace 1\n$print\nreplace 1\n\xc3replace 2\n0\xffreplace 1\n0list\nprint\n",
     "ok\nok\nok 1\nok 0\ntext 5\na$éc\nerror utf8\nerror utf8\nok 0\nok 0\ntext 5\na$éc\n".encode(), 0),
    (b"replace 1\n\xffreplace 0\npattern 0\nreplace 1\naoff\nreplace 1\nbundo\nprint\nreplace 0 0\n",
     b"error none\nerror none\nok\nok 1\nok\nerror none\nok\ntext 0\n\nerror command\n", 2),
    (b"text 2\nabpattern 1\na" + b"edit 0 0 0 0 1\naundo\nreplace 1\nxredo\nlist\nundo\nlist\nprint\n",
     b"ok\nok\nok\nok\nok 1\nerror none\nok 0\nok\nm 0 0 1\nok 1\ntext 2\nab\n", 0),
    (b"text 2\nabpattern 1\nafork\nreplace 1\nxuse 1\nprint\nreplace 1\nyuse 0\nprint\n",
     b"ok\nok\nok 1\nok 1\nok\ntext 2\nab\nerror none\nok\ntext 2\nxb\n", 0),
    # replaced matches that start or end between a CR and an LF, or over several lines
    (with_payload("text", "a\r\nb\r\n") + with_payload("pattern", "\r") + with_payload("replace", "")
     + b"list\nprint\nundo\n" + with_payload("replace", "$0x") + b"list\nprint\n" + with_payload("pattern", "x")
     + b"list\n" + with_payload("replace", "") + b"list\nprint\n",
     b"ok\nok\nok 2\nok 0\ntext 4\na\nb\n\nok\nok 2\nok 0\ntext 8\na\rx\nb\rx\n\nok\nm 1 0 1\nm 3 0 1\nok 2\nok 2\nok 0\n"
     b"text 6\na\r\nb\r\n\n", 0),
    (with_payload("text", "aba\r\nbab\n\na") + with_payload("pattern", "(?s)b(.*?)b") + with_payload("replace", "b$1$1b")
     + b"list\nnext 0 0\nprint\n" + with_payload("pattern", "a|$") + b"list\n" + with_payload("replace", "\n") + b"list\nprint\n",
     b"ok\nok\nok 1\nm 2 0 3\nok 1\nm 0 1 2 1\ntext 14\naba\r\na\r\nbab\n\na\nok\nm 0 0 1\nm 0 2 3\nm 1 0 1\nm 2 1 2\n"
     b"m 2 3 3\nm 3 0 0\nm 4 0 1\nok 7\nok 5\nm 0 0 0\nm 1 1 1\nm 2 0 0\nm 3 0 0\nm 4 0 0\nm 5 1 1\nm 6 1 1\nm 7 0 0\n"
     b"m 8 0 0\nm 9 0 0\nok 10\ntext 14\n\nb\n\r\n\n\r\nb\nb\n\n\n\n", 0),
    # matches over chunks of 984 bytes, many in one, few in many, and a new text of one chunk or of many
    *[replaced_in_chunks(step, template) for step in (1, 30, 4_000) for template in ("", "y", "$0$0", "é\r\n" * 10)],
    # positions that are nowhere: inside the frog's pair, between CR and LF, after a line's text, past the last
    (with_payload("text", TEXT) + b"".join(b"edit %d %d %d %d 1\nx" % (place * 2) for place in NOWHERE) + b"undo\n",
     b"ok\n" + b"error range\n" * len(NOWHERE) + b"error none\n", 0),
]


def pieces(data, out, status):
    for size in (1, 2, 3, 4096):
        for wrong in differences(run_in_pieces(data, size), out, status):
            yield f"in pieces of {size}: {wrong}"


def cuts(data):
    """The input truncated after each of its bytes, by the model."""
    for length in range(len(data)):
        out, status = answer(data[:length])
        for wrong in differences(run(data[:length]), out, status):
            yield f"the first {length} bytes: {wrong}"


def test_examples(examples):
    test(f"the page has its examples ({len(examples)})", [] if len(examples) >= 10 else ["fewer than 10"])
    with open(os.path.join(TOP, "crates", "rope_search_cli", "stdin"), "rb") as stored:
        same = stored.read() == examples[0][0] == FIRST
    test("the program's stored run is the first example", [] if same else ["it is not"])
    for data, out, status in examples + MORE_EXAMPLES:
        name = short(data[:60]) + (f".. ({len(data)} bytes)" if len(data) > 60 else "")
        model = [] if answer(data) == (out, status) else [f"the model answers {answer(data)}"]
        test(f"{name} in a file", model + differences(run(data), out, status))
        test(f"{name} in pieces of 1, 2, 3 and 4,096 bytes", pieces(data, out, status))
        if len(data) <= 400:
            test(f"{name} cut after each of its bytes", cuts(data))


def counts_of(text, pattern, template):
    """How many matches of a pattern are listed, and how many are replaced, in a text; none if that has no answer."""
    commands = with_payload("text", text) + with_payload("pattern", pattern)
    told = run(commands + b"list\n" + with_payload("replace", template)).out
    return [int(count) for count in re.findall(rb"^ok (\d+)$", told, re.MULTILINE)]


def test_side_by_side():
    """The rows of the page on what is listed and what is replaced."""
    form = r"\| `(.+)` \| `(.+)` \| (\d) \| (\d) \| (?:`(.+?)`(?: with `(.+)`)?|none: .+) \|"
    rows, wrong = example_rows("protocol.md", form, "Line by line, or the whole text"), []
    for row in rows:
        text, patterns = bytes_of(row[1]).decode(), [cell and cell.replace("\\|", "|") for cell in (row[2], row[5])]
        found, due = counts_of(text, patterns[0], ""), [int(row[3]), int(row[4])]
        wrong += [] if found == due else [f"{row[0]}: {found}"]
        found = counts_of(text, patterns[1], row[6] or "") if patterns[1] else [0, 0]
        wrong += [] if len(found) == 2 and found[0] == found[1] else [f"{row[0]}: {found} by the second pattern"]
    test("what is listed and what is replaced, side by side", wrong if len(rows) >= 5 else ["there are fewer than 5 rows"])


def test_ample_memory():
    text = "".join(f"line {number}: wörter, 🐸\n" for number in range(20000)).encode()
    data = b"text %d\n" % len(text) + text + b"fork\nprint\nuse 1\nprint\n" * 3 + b"text 0\nprint\n"
    ended = run(data)
    wrong = differences(ended, *answer(data))
    test("a text of many reads, without lack of memory", wrong + (["error memory"] if b"error memory" in ended.out else []))
    test("the first session a thousand times over", differences(run(FIRST * 1_000), answer(FIRST)[0] * 1_000, 0))


# Patterns whose matches begin with literals, or with none that is known; each with the text to insert into lines.
BEGINNINGS = [
    ("xyz", "xyz"), ("xyz+", "xyzz"), ("^xyz", "xyz"), ("xyz$", "xyz"), ("(?m)^xyz$", "xyz"), ("\\bxy(z)?", "xy"),
    ("xy|xyz", "xyz"), ("xyz|abc", "abcxyz"), ("(?i)xYz", "XyZ"), ("é🐸.", "é🐸é"), ("x\\ny", "x\ny"), ("x[^a]?", "x\r\ny"),
    ("a{3}b*", "aaab"), ("x\\r", "x\r"), ("[xy]z", "yz"), ("z*", "z"),
]


def literals_at_seams():
    """Commands over texts with several chunks, the first of which ends before, in and after a literal and a break next
    to it: the lines before are skipped, and the one with the literal isn't."""
    for ending in ("\n", "\r\n", "\r"):
        data = with_payload("pattern", "xyz")
        for at in range(976, 988):
            for beside in range(-4, 6):
                text = ("ab c de\n" * 125)[:at] + "xyzq"
                text = text[: at + beside] + ending + text[at + beside :]
                data += with_payload("text", text + "\n" + "fg h\n" * 200 * (beside % 2) + "xyz") + b"list\n"
        yield f"literals at the end of a chunk, beside {ending!r}", data


def lines_far_apart():
    """Commands over texts with some thousand lines, for each of these patterns: the literal that its matches begin with
    is in each line, in few of them or in none, across the ends of chunks and of lines, and lines are added and
    removed."""
    maker = random.Random(41)
    for number, (pattern, literal) in enumerate(BEGINNINGS):
        for gap in (1, 12, 300, 5_000):
            lines = []
            for _ in range(2_000):
                line = "".join(maker.choice("ab -é") for _ in range(maker.choice((0, 1, 7, 30))))
                if maker.randrange(gap) == 0:
                    line = line[:4] + literal + line[4:]
                lines.append(line + maker.choice(("\n", "\n", "\n", "\r\n", "\r")))
            text = "".join(lines)
            data = with_payload("text", text) + with_payload("pattern", pattern) + b"list\n"
            for _ in range(4):
                first = maker.randrange(1_900)
                payload = (literal + "\n" + maker.choice(lines) * maker.choice((0, 3, 30))).encode()
                data += spelled("edit", (first, 0, first + maker.choice((0, 1, 40)), 0, len(payload)), payload) + b"list\n"
            yield f"lines with {pattern!r} about every {gap}", data + b"undo\nlist\nnext 900 0\n"


def test_lines_far_apart():
    for name, data in (*literals_at_seams(), *lines_far_apart()):
        test(name, differences(run(data), *answer(data)))


READ, WRITTEN = 4_096, 65_536  # the maximum number of bytes that a read requests, and that are buffered for writing
# The bytes at the end of the first read, at each offset: lines, payloads, breaks and characters, and lines as long as
# allowed and longer.
AT_THE_END = [
    with_payload("text", "é\r\n🐸\r") + b"print\n" + with_payload("pattern", "🐸|\\r") + b"list\nedit 1 0 1 2 2\n\xc3\xa9list\n",
    b"text 5\na\xff\xc3\r\nedit 0 0 0 0 2\n\xf0\x9fprint\njump\n",
    b"use 0" * 25 + b"use",
    b"use 0" * 25 + b"use \n",
]


def at_ends_of_reads():
    """Inputs whose first read ends at each offset of these."""
    for last in AT_THE_END:
        for before in range(len(last) + 1):
            filling = "a" * (READ - before - len(b"text 4000\n"))
            yield with_payload("text", filling) + last


def at_ends_of_writes():
    """Inputs whose replies fill the write buffer once and twice, up to each of some offsets."""
    for length in (*range(WRITTEN - 24, WRITTEN + 3), *range(2 * WRITTEN - 24, 2 * WRITTEN + 3)):
        yield with_payload("text", "a" * length) + b"print\nprint\nuse 0\nuse 9\n"
    for count in range(3):
        yield with_payload("text", "-a" * count + "a" * WRITTEN) + with_payload("pattern", "a") + b"list\nlist\n"


def wrong_at_ends(inputs):
    for data in inputs:
        for wrong in differences(run(data), *answer(data)):
            yield f"{len(data)} bytes, {short(data)}: {wrong}"


def test_at_ends():
    test("commands at each place where the first read ends", wrong_at_ends(at_ends_of_reads()))
    test("replies at places where what waits to be written is full", wrong_at_ends(at_ends_of_writes()))


# Patterns as long, as deep and as heavy as allowed, with their list in the text `x`.
START, END, WHOLE = b"m 0 0 0\n", b"m 0 1 1\n", b"m 0 0 1\n"
LARGE = [
    ("()" * 32_768, [START, END]),
    ("".join(f"(?<n{number:04}>)" for number in range(6_553)), [START, END]),
    ("|" * 65_536, [START, END]),
    ("^" * 65_536, [START]),
    ("$" * 65_536, [END]),
    ("\\b" * 32_768, [START, END]),
    ("[xy]" * 16_384, []),
    ("(?i)" + "k" * 65_532, []),
    ("x" + "*" * 250, [WHOLE]),
    ("(?:" * 125 + "x" + ")*" * 125, [WHOLE]),
    ("(?:x{0,200}){0,200}", [WHOLE]),
    ("(?:x|){65535}", [WHOLE]),
    ("x{0,65535}y{32763}|x", [WHOLE]),
]


def test_large_patterns():
    for pattern, listed in LARGE:
        data = with_payload("text", "x") + with_payload("pattern", pattern) + b"list\nnext 0 0\n"
        out = b"ok\nok\n" + b"".join(listed) + b"ok %d\n" % len(listed)
        out += b"m 0 %b 0 %b\n" % tuple(listed[0].split()[2:]) if listed else b"no match\n"
        test(f"{short(pattern[:40].encode())}, of {len(pattern)} bytes, is a pattern", differences(run(data), out, 0))
    data = with_payload("text", "x" * 4_000) + with_payload("pattern", "x{0,65535}y{32763}") + b"list\nnext 0 0\n"
    test("a long line under such a pattern, of which it has a front", differences(run(data), b"ok\nok\nok 0\nno match\n", 0))


LETTERS = 1_000_000


def test_far_reading():
    """A megabyte of letters, each of which is a match of a pattern whose searches read to the end, as one line and as a
    whole text; and two such lines, one of which is edited."""
    for row in FAR_READING:
        data, out, status = each_alone(LETTERS, *row)
        test(f"a megabyte of letters, each of which {row[0]} matches alone", differences(run(data), out, status))
    text = "a" * LETTERS + "\r\n" + "a" * LETTERS
    data = with_payload("text", text) + with_payload("pattern", "a*b|a") + b"edit 1 0 1 0 1\n-list\n"
    rows = [b"m %d %d %d\n" % (line, place, place + 1) for line in (0, 1) for place in range(line, line + LETTERS)]
    out = b"".join([b"ok\nok\nok\n", *rows, b"ok %d\n" % (2 * LETTERS)])
    test("two lines of such letters, of which one is edited", differences(run(data), out, 0))


def read_past(line, before=b""):
    """A command line whose number is that of a payload one byte over the limit, and `print`, in a sparse file. Returns
    the run."""
    line %= TEXT_LIMIT + 1
    with tempfile.TemporaryFile(dir=ROOM) as given:
        given.write(before + line)
        given.truncate(len(before) + len(line) + TEXT_LIMIT + 1)
        given.seek(0, os.SEEK_END)
        given.write(b"print\n")
        given.seek(0)
        return end_of(start(stdin=given))


def test_long_text():
    """A text one byte over the limit is skipped and refused, and so is a template; and a text that would be too long
    with all its matches replaced."""
    for name, line in (("a text", b"text %d\n"), ("an edit", b"edit 0 0 0 0 %d\n")):
        test(f"{name} one byte over the limit", differences(read_past(line), b"error size\ntext 0\n\n", 0))
    ended = read_past(b"replace %d\n", b"pattern 1\na")
    test("a template one byte over the limit", differences(ended, b"ok\nerror size\ntext 0\n\n", 0))
    ended = read_past(b"replace %d\n")
    test("such a template without a pattern", differences(ended, b"error none\ntext 0\n\n", 0))

    letters = 1 << 15
    text = b"a" * letters
    for pattern, template in ((b"a", b"x" * (letters + 1)), (b".*", b"$0" * (letters + 1))):
        data = spelled("text", (letters,), text) + spelled("pattern", (len(pattern),), pattern)
        data += spelled("replace", (len(template),), template) + b"print\n"
        out = b"ok\nok\nerror size\n" + b"text %d\n%b\n" % (letters, text)
        test(f"{letters + 1} times {letters} bytes in the place of {pattern.decode()}", differences(run(data), out, 0))


def test_conversation():
    """Each reply comes while the program waits for the next command."""

    def talk(data):
        commands, _ = read_commands(data)
        process = start(stdin=subprocess.PIPE, bufsize=0)
        try:
            for (word, numbers, payload), reply in zip(commands, replies(commands)):
                line = spelled(word, numbers)
                os.write(process.stdin.fileno(), line)
                if payload:
                    os.write(process.stdin.fileno(), payload)
                heard = b""
                while len(heard) < len(reply):
                    if not select.select([process.stdout], [], [], SECONDS)[0]:
                        yield f"after {short(line)} nothing more than {short(heard)} comes"
                        return
                    more = os.read(process.stdout.fileno(), len(reply) - len(heard))
                    if not more:
                        break
                    heard += more
                if heard != reply:
                    yield f"{short(line)} is answered {short(heard)}, not {short(reply)}"
                    return
            process.stdin.close()
            process.stdin = None
            yield from differences(end_of(process), b"", 0)
        except BrokenPipeError:
            yield "the program ended before the commands did"
        finally:
            process.kill()
            process.communicate()

    for data in (
        FIRST,
        b"print\nuse 7\ntext 1\n\xfffork\nuse 1\ntext 3\na\nbprint\n",
        b"text 3\na\nbpattern 1\nbedit 0 1 1 0 0\nlist\nundo\nlist\nredo\nedit 0 9 0 9 1\nbprint\n",
        b"list\npattern 1\naoff\ntext 3\na\napattern 1\nalist\npattern 1\n(list\n",
        b"next 0 0\ntext 4\na\nabpattern 3\n\\w+next 0 1\nnext 1 2\nnext 2 0\nedit 1 0 1 0 1\n\nnext 0 1\nlist\n",
        b"replace 1\nbpattern 1\nareplace 1\nbtext 3\na\nareplace 2\n$$listprint\nundo\nlist\n",
    ):
        test(f"{short(data)} command by command, each reply before the next", talk(data))


def test_arguments():
    for arguments in (["--help"], ["-", "print"], ["text", "2", ""], ["x"] * 500):
        name = " ".join(map(repr, arguments[:3])) + (" .." if len(arguments) > 3 else "")
        test(f"the arguments {name} are ignored", differences(run(FIRST, arguments), *answer(FIRST)))


def test_all():
    test_examples(examples_of_page())
    test_side_by_side()
    test_ample_memory()
    test_lines_far_apart()
    test_at_ends()
    test_large_patterns()
    test_far_reading()
    test_long_text()
    test_conversation()
    test_arguments()
