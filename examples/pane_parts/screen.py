"""Lines on a screen of cells: their visible part, the width of each character, and the marks of matches."""
import bisect
import functools
import unicodedata

TAB = 8  # cells from one tab stop to the next


@functools.lru_cache(maxsize=None)
def shown(character):
    """The text shown for a character, and its number of cells."""
    if unicodedata.category(character) in ("Mn", "Me"):
        return character, 0
    if not character.isprintable():
        return "·", 1
    return character, 2 if unicodedata.east_asian_width(character) in "WF" else 1


def placed(line):
    """Each character of a line: its column in UTF-16 code units, the text shown for it, its cell, and its number of cells."""
    column = cell = 0
    for character in line:
        text, size = (" " * (TAB - cell % TAB), TAB - cell % TAB) if character == "\t" else shown(character)
        yield column, text, cell, size
        column, cell = column + (2 if character > "\uffff" else 1), cell + size


def is_plain(line):
    """Whether each character has one column and one cell."""
    return line.isascii() and line.isprintable()


def cell_of(line, column):
    """The cell in which a column's character begins, or the one after the line's last."""
    if is_plain(line):
        return min(column, len(line))
    end = 0
    for place, _, cell, size in placed(line):
        if place >= column:
            return cell
        end = cell + size
    return end


def seen(line, left, width):
    """The part of a line in this number of cells from a cell on: for each character its column and the text shown for it;
    blanks for a wide character that is partly outside."""
    if is_plain(line):
        yield from enumerate(line[left : left + width], left)
        return
    for column, text, cell, size in placed(line):
        if cell >= left + width:
            return
        cut = max(0, left - cell) + max(0, cell + size - left - width)
        if cut < size or (size == 0 and cell > left):
            yield column, " " * (size - cut) if cut else text


def marked(line, left, width, matches, found, cursor):
    """The visible part of a line, with its matches in reverse video and the current match underlined. At the cursor's
    column, if it is in this line, the terminal saves the cursor position."""
    out, style, is_kept = "", (False, False), cursor is None
    for column, text in seen(line, left, width):
        at = bisect.bisect_right(matches, (column, float("inf"))) - 1
        new = at >= 0 and column < matches[at][1], bool(found) and found[0] <= column < found[1]
        if new != style or column == cursor:
            out += ends(style) + "\x1b7" * (column == cursor) + "\x1b[4m" * new[1] + "\x1b[7m" * new[0]
            style, is_kept = new, is_kept or column == cursor
        out += text
    return out + ends(style) + ("" if is_kept else "\x1b7")


def ends(style):
    return "\x1b[27m" * style[0] + "\x1b[24m" * style[1]


def cut(text, width, from_end=False):
    """As much of a text as fits in this number of cells, its start or its end."""
    sizes = [shown(character) for character in (reversed(text) if from_end else text)]
    out, room = [], width
    for character, size in sizes:
        if size > room:
            break
        out.append(character)
        room -= size
    return "".join(reversed(out) if from_end else out)


def cells(text):
    """The number of cells of a text in one line, with one for a tab."""
    return sum(shown(character)[1] for character in text)
