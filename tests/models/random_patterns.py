"""Random patterns, as trees, and haystacks that they may match in."""
from walks import LOOKS, Alternation, Concat, Empty, Group, Look, Program, Repeat, Set, is_digit, is_space, is_word
from walks import may_be_empty

CHARACTERS = "aaabbbx3_éせ🐸 \r\n"
ESCAPES = {"\r": "\\r", "\n": "\\n"}
CLASSES = [
    Set(".", lambda c: c != "\n"),
    Set("(?s:.)", lambda c: True),
    Set("(?i:x)", lambda c: c in "xX"),
    Set("[ab]", lambda c: c in "ab"),
    Set("[^a]", lambda c: c != "a"),
    Set("[a-bé]", lambda c: c in "abé"),
    Set("[^b\\n]", lambda c: c not in "b\n"),
    Set("[é-せ]", lambda c: "é" <= c <= "せ"),
    Set("[^\\W_]", lambda c: is_word(c) and c != "_"),
    Set("[^\\s\\S]", lambda c: False),
    Set("\\w", is_word),
    Set("\\w", is_word),
    Set("\\W", lambda c: not is_word(c)),
    Set("\\d", is_digit),
    Set("\\D", lambda c: not is_digit(c)),
    Set("\\s", is_space),
    Set("\\S", lambda c: not is_space(c)),
]
COUNTS = [(0, None), (1, None), (0, 1), (0, 2), (1, 2), (2, 2), (2, 3), (2, None), (0, 0)]
COUNTS = COUNTS[:3] * 3 + COUNTS


def character(c):
    return Set(ESCAPES.get(c, c), c.__eq__)


class Maker:
    """Makes random trees. Repeats what may be empty only if `repeats_empty`."""

    def __init__(self, random, repeats_empty=True, most_nodes=60):
        self.random, self.repeats_empty, self.most_nodes, self.groups = random, repeats_empty, most_nodes, 0

    def tree(self):
        """A tree with a short program."""
        while True:
            self.groups = 0
            tree = self.alternation(3)
            if len(Program(tree).nodes) <= self.most_nodes:
                return tree

    def alternation(self, depth):
        parts = [self.row(depth) for _ in range(self.random.choice([1, 1, 1, 2, 2, 3]))]
        return Alternation(tuple(parts)) if len(parts) > 1 else parts[0]

    def row(self, depth):
        parts = [self.item(depth) for _ in range(self.random.choice([0, 1, 1, 1, 2, 2, 2, 3, 3]))]
        return Concat(tuple(parts)) if len(parts) > 1 else parts[0] if parts else Empty()

    def item(self, depth):
        tree = self.atom(depth)
        while self.random.random() < 0.4 and (self.repeats_empty or not may_be_empty(tree)):
            tree = Repeat(tree, *self.random.choice(COUNTS), self.random.random() < 0.6)
        return tree

    def atom(self, depth):
        roll = self.random.random()
        if roll < 0.13:
            return Look(self.random.choice(list(LOOKS)))
        if roll < 0.25:
            return self.random.choice(CLASSES)
        if roll < 0.6 or depth == 0:
            return character(self.random.choice(CHARACTERS))
        if roll < 0.7:
            return self.alternation(depth - 1)
        self.groups += 1
        return Group(self.groups, self.alternation(depth - 1))

    def word(self, tree):
        """A text that the tree may match, apart from assertions."""
        if isinstance(tree, Set):
            return self.random.choice([c for c in CHARACTERS if tree.has(c)] or [""])
        if isinstance(tree, Repeat):
            count = tree.least + self.random.choice([0, 0, 1, 1, 2])
            count = count if tree.most is None else min(count, tree.most)
            return "".join(self.word(tree.inside) for _ in range(count))
        if isinstance(tree, Alternation):
            return self.word(self.random.choice(tree.parts))
        if isinstance(tree, Concat):
            return "".join(map(self.word, tree.parts))
        return self.word(tree.inside) if isinstance(tree, Group) else ""

    def noise(self, most):
        return "".join(self.random.choice(CHARACTERS) for _ in range(self.random.randint(0, most)))

    def haystack(self, tree):
        """A short text with some that the tree may match."""
        return (self.noise(4) + self.word(tree) + self.noise(2) + self.word(tree) + self.noise(1))[:14]
