"""The texts of the measurements."""
import glob
import os
import random

TOP = os.path.dirname(os.path.dirname(os.path.abspath(__file__)))
WORDS = """let count lines iter filter line len value self match Some None Ok Err return fn pub use struct impl for in while
if else mut ref => todo Error 0x1f 42""".split()


def lines_of(lines):
    """Lines of words, 49 bytes and LF each, the same in each run: 20,000 different ones, over and over."""
    chosen = random.Random(5)
    out = []
    for _ in range(min(lines, 20_000)):
        line = ""
        while len(line) < 49:
            line += chosen.choice(WORDS) + " "
        out.append(line[:49] + "\n")
    return "".join((out * -(-lines // 20_000))[:lines]).encode()


def source_text():
    """Lines of this repository's sources, with a total of 250,000 bytes of ASCII."""
    out = []
    for path in sorted(glob.glob(os.path.join(TOP, "crates", "*", "src", "*.rt"))):
        with open(path, encoding="utf-8") as file:
            out.append("".join(letter for letter in file.read() if letter in "\t\n" or " " <= letter <= "~"))
    return "".join(out)[:250_000]


def part_of(kind):
    """The part that a text of a kind repeats."""
    if kind == "ascii":
        return source_text()
    if kind == "mixed":
        return "".join(line + " // こんにちは世界、これは文章です。\n" for line in source_text().split("\n"))
    if kind == "japanese":
        return "こんにちは世界、これは文章です。\nテキストの行と文字を数えます。\n" * 2500
    return "🐸🐹🐻🐼🐽🐾👀👁\n" * 7500


def text_of(kind, size):
    """A text of a kind: with this number of lines, or at least this number of bytes."""
    if kind == "lines":
        return lines_of(size)
    if kind == "short":
        return b"a short line\n" * size
    part = part_of(kind).encode()
    return part * -(-size // len(part))
