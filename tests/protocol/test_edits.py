"""Edits, replacements and their history: the answers of bin/rope-search to random sessions, to every edit of every
small text, and to every replacement in it, compared with the model."""
import itertools
import random

from harness import differences, run, share_of, short, test
from pattern_model import pattern_weight
from protocol import WEIGHT_LIMIT, Session, listed, positions_of, spelled
from random_patterns import Maker
from walks import spelled as spelled_tree

CHARACTERS = "aab\r\r\n\n\u2028🐸éÀA "
SESSIONS, SESSIONS_IN_RUN = max(500, share_of(20_000)), 500
# The frequency of each command in a random session: one with all kinds, and one with many undos and redos.
WORDS = ("edit", "undo", "redo", "list", "print", "pattern", "text", "fork", "use", "off", "next", "replace")
OF_ALL_KINDS = (34, 14, 5, 20, 4, 7, 2, 3, 4, 1, 8, 8)
BACK_AND_FORWARD = (14, 28, 16, 24, 2, 5, 1, 1, 1, 2, 0, 16)
SMALL = "\r\na\v"
PATTERNS = r"""
    a b ab aa é 🐸 x* a* a+? a?? (a|b)+ (?:a|ab)b? [^a] [ab]{2,3}? a|🐸 (?U)a+ (a*)*b (?:a|\b)+ \d*b
    \w+ \W \s+ \S+ (?i)A. (?i:É)|b . (?s). (?s)a.+b \r \n \r\n \r?\n [\r\n]+a \n|b$ \x{2028}|^b
    a$ ^ $ ^$ \b \B \ba a\b. (?m)^a (?m)a$ (?m)^$ \Aa|\z
""".split() + ["", "|b", "a\n", "a\r\n?"]
REFUSED_PATTERNS = r"a( * a|* (?x)a [b-a] a{2,1} \q [[a] (?<n>a)(?<n>b) (?=a) \w{1000}{1000} a{65535}{65535}".split()
# Random templates consist of these.
PIECES = ("$0", "$0", "$1", "$2", "$9", "$$", "$", "$a", "\r", "\n", "\n\r", "a", "b", "é🐸", "")
# With these all small texts are edited, their matches are replaced, and the next match is searched for from each
# position, with some more of them.
SMALL_PATTERNS = ("a", "x*", "a$", "^", r"\b", "(a|b)+")
REPLACED_PATTERNS = ("\r", "\n", "\r\n", "a", "x*")
TURNED_PATTERNS = ("a", "x*", "(?m)a$")
NEXT_PATTERNS = (*SMALL_PATTERNS, r"\r", r"\n", r"\r\n", "(?m)^a", "(?m)a$", "[^a]", r"\B", "(?s)a.*?$")

# The heaviest possible pattern; and the lines of a text, and the number of edits of it, with that pattern.
HEAVIEST, LINES, EDITS = "mark|^x{0,65535}y{32763}", 10_000, 1_000

class Writer:
    """Commands with the model's replies."""

    def __init__(self, session=None):
        self.session, self.commands, self.replies = session or Session(), [], []

    def write(self, word, *numbers, text=None):
        """Writes a command, with the payload that its text spells."""
        payload = b"" if text is None else text.encode("utf-8", "surrogatepass")
        command = (word, numbers if text is None else (*numbers, len(payload)), payload)
        self.commands.append(command)
        self.replies.append(self.session.reply(command))
        return self.replies[-1]

    def problems(self):
        """What is wrong with the program's replies: the first command with a different answer."""
        ended = run(b"".join(spelled(*command) for command in self.commands))
        wrong = differences(ended, b"".join(self.replies), 0)
        if not wrong:
            return
        at = 0
        for place, reply in enumerate(self.replies):
            if ended.out[at : at + len(reply)] != reply:
                before = b"".join(spelled(*command) for command in self.commands[max(place - 8, 0) : place + 1])
                yield f"command {place}, the last of {short(before)}, is answered {short(ended.out[at : at + 60])}, not {short(reply)}"
                return
            at += len(reply)
        yield from wrong


def some_text(chosen, most):
    return "".join(chosen.choice(CHARACTERS) for _ in range(chosen.randint(0, most)))


def ends_of_lines(text):
    """The first and the last position of each line."""
    last = dict(positions_of(text))
    return [(line, column) for line in last for column in (0, last[line])]


def some_edit(chosen, writer):
    """An edit between two positions of the current text: of any text, or between ends of lines of one at which a CR and
    an LF may meet. Sometimes its positions are anywhere."""
    text = writer.session.buffer.text
    positions = positions_of(text)
    payload = "\ud800" if chosen.random() < 0.02 else some_text(chosen, chosen.choice((0, 1, 2, 2, 6)))
    if chosen.random() < 0.35:
        positions, payload = ends_of_lines(text), chosen.choice(("", "\n", "\r", "\n\r"))
    first, last = sorted(chosen.choices(positions, k=2))
    if chosen.random() < 0.3:
        last = first
    if chosen.random() < 0.12:
        first, last = ((chosen.randint(0, 4), chosen.randint(0, 5)) for _ in range(2))
    writer.write("edit", *first, *last, text=payload)


def some_template(chosen, text):
    """A template, which in a long text expands to little more than it replaces."""
    if chosen.random() < 0.02:
        return "\ud800"
    most = 1 if len(text) > 30 else chosen.choice((0, 1, 1, 2, 2, 4))
    return "".join(chosen.choice(PIECES) for _ in range(chosen.randint(0, most)))


def some_pattern(chosen):
    """A pattern of those above, a random one, or one that is refused."""
    roll = chosen.random()
    if roll < 0.15:
        return spelled_tree(Maker(chosen, most_nodes=30).tree())
    return chosen.choice(PATTERNS if roll < 0.93 else REFUSED_PATTERNS)


def some_command(chosen, writer, weights):
    word = chosen.choices(WORDS, weights)[0]
    if writer.commands[-1][0] in ("undo", "redo") and chosen.random() < 0.4:
        word = "redo"
    if word == "edit":
        some_edit(chosen, writer)
    elif word == "pattern":
        writer.write("pattern", text=some_pattern(chosen))
    elif word == "text":
        writer.write("text", text=some_text(chosen, 12))
    elif word == "replace":
        writer.write("replace", text=some_template(chosen, writer.session.buffer.text))
    elif word == "next":
        positions = positions_of(writer.session.buffer.text)
        at = chosen.choice(positions) if chosen.random() < 0.9 else (chosen.randint(0, 4), chosen.randint(0, 5))
        writer.write("next", *at)
    elif word == "use":
        writer.write("use", chosen.randint(max(len(writer.session.buffers) - 4, 0), len(writer.session.buffers)))
    else:
        writer.write(word)


def some_sessions(seed, count, weights):
    """Sessions in order. Each begins in a buffer without a pattern and with a new text."""
    chosen, writer = random.Random(seed), Writer()
    for _ in range(count):
        writer.write("use", chosen.randrange(len(writer.session.buffers)))
        writer.write("off")
        writer.write("text", text=some_text(chosen, 12))
        if chosen.random() < 0.8:
            writer.write("pattern", text=some_pattern(chosen))
        for _ in range(chosen.randint(8, 20)):
            some_command(chosen, writer, weights)
        for word in ("list", "print"):
            writer.write(word)
    return writer


def texts_of(most, characters=SMALL):
    """All texts of a few characters."""
    for length in range(most + 1):
        yield from map("".join, itertools.product(characters, repeat=length))


def small_texts():
    """All texts of at most 4 characters, by their length, and their names."""
    for length in range(5):
        texts = [text for text in texts_of(length) if len(text) == length]
        yield f"the {len(texts)} texts of {length} characters over CR, LF, VT and a", texts


def edits_of(text, pattern):
    """The text with a pattern and with each edit of it: the list is that of the pattern set again, also after `undo`
    and `redo`, and the list from before is listed after `undo`."""
    writer = Writer()
    writer.write("text", text=text)
    writer.write("pattern", text=pattern)
    for first, last in itertools.combinations_with_replacement(positions_of(text), 2):
        for payload in texts_of(2):
            assert writer.write("edit", *first, *last, text=payload) == b"ok\n"
            assert writer.write("list") == listed(writer.session.buffer.text, pattern)
            for word in ("undo", "list", "redo", "list"):
                writer.write(word)
            writer.write("pattern", text=pattern)
            for word in ("list", "undo", "list"):
                writer.write(word)
    return writer


def turned_under(text, patterns):
    """The text with each edit of it, undone and redone with one pattern after the other, each set while another text
    was current, and without one."""
    writer = Writer()
    writer.write("text", text=text)
    for first, last in itertools.combinations_with_replacement(positions_of(text), 2):
        for payload in texts_of(2):
            writer.write("edit", *first, *last, text=payload)
            for pattern in patterns:
                writer.write("pattern", text=pattern)
                for word in ("undo", "list", "off", "redo"):
                    writer.write(word)
                writer.write("pattern", text=pattern)
                for word in ("undo", "list", "redo", "list"):
                    writer.write(word)
            for word in ("off", "undo"):
                writer.write(word)
    return writer


def replacements_in(text, pattern):
    """The text with all matches of a pattern replaced, by each of some templates: the list is that of the pattern set
    again, also after `undo` and `redo`, and the list from before is listed after `undo`."""
    writer = Writer()
    writer.write("text", text=text)
    writer.write("pattern", text=pattern)
    for template in (*texts_of(2, "\r\na"), "$0$0", "\n$0\r"):
        assert writer.write("replace", text=template).startswith(b"ok ")
        assert writer.write("list") == listed(writer.session.buffer.text, pattern)
        for word in ("print", "undo", "list", "redo", "list"):
            writer.write(word)
        writer.write("pattern", text=pattern)
        for word in ("list", "undo", "list"):
            writer.write(word)
    return writer


def nexts_of(text):
    """The next matches from each position of a text, for each of some patterns."""
    writer = Writer()
    writer.write("text", text=text)
    for pattern in NEXT_PATTERNS:
        writer.write("pattern", text=pattern)
        for position in positions_of(text):
            writer.write("next", *position)
    return writer


def positions_around(text):
    """The text with an edit between each two of all positions in it and around it."""
    writer = Writer()
    writer.write("text", text=text)
    writer.write("pattern", text="a")
    around = list(itertools.product(range(text.count("\r") + text.count("\n") + 2), range(len(text) + 2)))
    for first, last in itertools.product(around, repeat=2):
        if writer.write("edit", *first, *last, text="b") == b"ok\n":
            writer.write("undo")
    writer.write("print")
    return writer


def edited_under_heaviest():
    """Edits all over a text with many lines, which add matches and remove them, with undos and redos between them."""
    chosen, writer = random.Random(4), Writer()
    writer.write("text", text="".join(f"line {number} marks\n" for number in range(LINES)))
    assert writer.write("pattern", text=HEAVIEST) == b"ok\n"
    for number in range(EDITS):
        line = chosen.randrange(LINES)
        last = chosen.choice((0, 3))
        writer.write("edit", line, 0, line, last, text=chosen.choice(("mark", "x", "ma\n", "")))
        if number % 100 == 0:
            for word in ("list", "undo", "redo"):
                writer.write(word)
            writer.write("next", line, 0)
    writer.write("list")
    writer.write("print")
    return writer


def replaced_in_lines(count, *patterns):
    """Matches in this number of lines, replaced by more lines, by fewer and by equally many; each replacement is undone
    and redone."""
    writer = Writer()
    writer.write("text", text="".join(f"line {number}\n" for number in range(count)))
    for pattern in patterns:
        writer.write("pattern", text=pattern)
        for template in ("z", "", "$1\n"):
            writer.write("replace", text=template)
            for word in ("list", "undo", "redo", "list", "print", "undo"):
                writer.write(word)
    return writer


def test_all():
    weight = pattern_weight(HEAVIEST)
    test("the heaviest pattern weighs what one may", [] if weight == WEIGHT_LIMIT else [f"it weighs {weight}"])
    test(f"{EDITS} edits of {LINES} lines under it", edited_under_heaviest().problems())
    test(f"a match replaced in {LINES} lines", replaced_in_lines(LINES, "(e) 5000\n").problems())
    test("a match replaced in each line", replaced_in_lines(LINES // 10, r"\n", r"e", r"(?m)e(.*)$").problems())
    for name, texts in small_texts():
        for pattern in SMALL_PATTERNS:
            wrong = (wrong for text in texts for wrong in edits_of(text, pattern).problems())
            test(f"{name}, each edit under {pattern}", wrong)
