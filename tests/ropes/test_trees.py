"""Operations on the tree of a rope, on bin/rope-driver: a leaf gets a text inserted, and the tree is split, or joined
with another one. The rows give the leaves of the trees. ROPE_DRIVER names another program than bin/rope-driver.
"""
import itertools
import random

from rope_model import MOST_BYTES, clipped, hexed
from rope_rows import check, wrong_chunks
from rope_texts import cut_at_random, cuttings, full


# The replacement of bytes of one leaf, and the resulting leaf, or None if there is none.
REPLACED = [
    ("ab", 0, 0, "xyz", "xyzab"),
    ("ab", 1, 1, "é", "aéb"),
    ("ab", 2, 2, "🐸", "ab🐸"),
    ("ab", 0, 1, "", "b"),
    ("ab", 0, 2, "c", "c"),
    ("ab\r\ncd", 3, 3, "x", "ab\rx\ncd"),
    ("ab\rx\ncd", 3, 4, "", "ab\r\ncd"),
    ("\na\r", 1, 2, "", "\n\r"),
    ("\na\r", 0, 3, "\n\r", "\n\r"),
    # Past the end, and inside a character.
    ("ab", 3, 3, "c", None),
    ("ab", 1, 3, "c", None),
    ("é", 1, 1, "a", None),
    ("é", 0, 1, "a", None),
    # Nothing would be left.
    ("ab", 0, 2, "", None),
    # A neighbouring leaf would be affected.
    ("ab", 0, 0, "\n", None),
    ("ab", 2, 2, "\r", None),
    ("\na", 0, 0, "b", None),
    ("\na", 0, 1, "", None),
    ("a\r", 1, 2, "", None),
    ("a\r", 2, 2, "b", None),
]

# The number of leaves of 900 bytes with some replaced by others. A leaf takes a text of up to 983 bytes, and two leaves
# take one of up to 1,960.
FULL_LEAF = [
    (0, 0, 83, 1),
    (900, 900, 84, 2),
    (100, 200, 183, 1),
    (100, 200, 184, 2),
    (100, 200, 1_160, 2),
    (100, 200, 1_161, None),
    (0, 900, 983, 1),
    (0, 900, 984, 2),
    (0, 900, 1_960, 2),
    (0, 900, 1_961, None),
]


def told_tree(pieces, height):
    return "".join(hexed(piece) + "|" for piece in pieces) + str(height)


def leaves_in(answer):
    """The leaves of a printed tree, and its height."""
    *leaves, height = answer.split("|")
    return [bytes.fromhex(leaf).decode() for leaf in leaves], height


def tree_row(pieces, asks, wrong):
    """A row on an operation on a tree, and what is wrong with its answers."""
    line = " ".join(["node", "|".join(map(hexed, pieces)), *asks])

    def due(answer):
        answers = answer.split(";")
        if len(answers) != len(asks) + 1:
            return [f"{line[:150]}: {answer[:150]!r}"]
        return [f"{line[:80]} .. {ask}: {told}" for ask, one in zip(asks, answers) for told in wrong(ask, one)]

    return line, due


def replacements():
    for text, start, end, other, new in REPLACED:
        due = "None;" if new is None else told_tree([new], 0) + ";"
        yield f"node {hexed(text)} replace,{start},{end},{hexed(other)}", due
    for start, end, size, count in FULL_LEAF:

        def wrong(_, answer, text="a" * start + "b" * size + "a" * (900 - end), count=count):
            if count is None:
                return [] if answer == "None" else ["there is one"]
            leaves, _ = leaves_in(answer)
            return [] if "".join(leaves) == text and len(leaves) == count else [f"{len(leaves)} leaves"]

        yield tree_row(["a" * 900], [f"replace,{start},{end},62*{size}"], wrong)


def two_leaves():
    """A full leaf with characters inserted becomes two of 488 bytes or more, wherever a CR LF or a character spans its
    middle."""
    for unit in ("a", "\r\n", "é", "せ", "🐸", "a\r\n🐸"):
        for size in range(980, MOST_BYTES + 1):
            old = full(unit, size)

            def wrong(ask, answer, data=old.encode()):
                if answer == "None":
                    return
                at = int(ask.split(",")[1])
                leaves, height = leaves_in(answer)
                if "".join(leaves).encode() != data[:at] + "bcdé".encode() + data[at:] or height != "1":
                    yield "it is another text"
                if len(leaves) != 2 or min(len(leaf.encode()) for leaf in leaves) < 488:
                    yield f"leaves of {[len(leaf.encode()) for leaf in leaves]} bytes"

            yield tree_row([old], [f"replace,{at},{at},{hexed('bcdé')}" for at in range(0, size, 37)], wrong)


def edited_trees():
    """Trees with many leaves, one of which gets a text inserted, and becomes two and grows the tree, or there is no
    such tree; the tree itself is unchanged."""
    chance = random.Random(8)
    shapes = [(["a" * 983] * 24, "bcde"), (cut_at_random(chance, full("é\r\nab", 30_000)), "")]
    shapes += [(cut_at_random(chance, full("é\r\nab", 30_000)), "せせ"), (["ab"] * 600, "c" * 983)]
    for pieces, other in shapes:
        data = "".join(pieces).encode()
        places = [chance.randint(0, len(data)) for _ in range(60)]
        asks = [f"replace,{at},{at + size},{hexed(other)}" for at, size in zip(places, itertools.cycle(range(4)))]

        def wrong(ask, answer, data=data, pieces=pieces, other=other):
            _, start, end, _ = ask.split(",")
            if answer == "None":
                return
            leaves, height = leaves_in(answer)
            if "".join(leaves).encode() != data[: int(start)] + other.encode() + data[int(end) :]:
                yield "it is another text"
            if len(leaves) - len(pieces) not in (0, 1) or not 1 <= int(height) <= 3:
                yield f"{len(leaves)} leaves of {len(pieces)}, and height {height}"
            yield from wrong_chunks(leaves, 0)

        yield tree_row(pieces, asks, wrong)


def halves():
    """Trees that are split before each character. Both halves are split as the tree is, except the leaf at the seam."""
    chance = random.Random(9)
    texts = ["\r\n", "a\r\nb", "\n\r\r\n\n", "aé\r\nせ🐸"]
    shapes = [pieces for text in texts for pieces in cuttings(text)]
    shapes += [cut_at_random(chance, full("é\r\n", 1_200), most) for most in (4, 40, MOST_BYTES)]
    shapes += [("a", "é", "b\r\n") * 60]
    for pieces in shapes:
        text = "".join(pieces)

        def wrong(ask, answer, text=text, pieces=pieces):
            at = int(ask.split(",")[1])
            for half, start, end in zip(answer.split("&"), (0, at), (at, len(text))):
                leaves = leaves_in(half)[0]
                if tuple(leaves) != clipped(pieces, start, end):
                    yield f"{leaves[:9]} from {start} to {end}"

        yield tree_row(pieces, [f"split,{at}" for at in range(len(text) + 1)], wrong)


def joined_trees():
    """Trees of any heights that are joined: leaves at the seam that fit become one, a short one is filled, and no CR LF
    is split."""
    chance = random.Random(10)
    sizes = [(1, 1), (1, 50_000), (3_000, 3_000), (50_000, 3_000), (50_000, 50_000), (1, 300_000)]
    shapes = []
    for front, back in sizes:
        left, right = full("é", front), full("\nせ", back)
        for first, second in ((left, right), (right, left), (left + "\r", right), (right + "\r", left + "\r")):
            shapes.append([cut_at_random(chance, first), cut_at_random(chance, second)])
    shapes += [[("a",) * 700, ("\nb",) * 3], [("\r",), ("\n",)], [("a\r",) * 30, ("\n" + "b" * 983,) * 30]]
    shapes += [[("a" * 600,), ("b" * 383,)], [("a" * 600,), ("b" * 384,)], [("a" * 462,), ("b" * 984,) * 2]]
    shapes += [[("a" * 984,) * 2, ("b" * 462, "c" * 984)], [("a" * 983 + "\r",), ("\n" + "b" * 983,)]]
    for left, right in shapes:

        def wrong(_, answer, left=left, right=right):
            leaves, height = leaves_in(answer)
            if "".join(leaves) != "".join(left + right):
                yield "it is another text"
            yield from wrong_chunks(leaves, 0)
            merged = sum(map(len, (leaf.encode() for leaf in (left[-1], right[0])))) < MOST_BYTES
            if merged and len(leaves) >= len(left) + len(right):
                yield "the leaves at the seam aren't one"
            if 2 ** int(height) > max(len(leaves), 1):
                yield f"height {height} over {len(leaves)} leaves"

        yield tree_row(left, [f"append,{'|'.join(map(hexed, right))}"], wrong)


def test_all():
    check("trees in which a leaf takes a text, or becomes two", itertools.chain(replacements(), two_leaves(), edited_trees()))
    check("trees that are split and joined", itertools.chain(halves(), joined_trees()))
