"""All small texts of bin/rope-search, compared with the model: replacements in them, edits that are undone with other
patterns, and positions. A separate part, because they take as long as the rest of test_edits.py, which makes them."""
from harness import test
from test_edits import (REPLACED_PATTERNS, TURNED_PATTERNS, nexts_of, positions_around, replacements_in, small_texts,
                        turned_under)


def test_all():
    for name, texts in small_texts():
        for pattern in REPLACED_PATTERNS:
            wrong = (wrong for text in texts for wrong in replacements_in(text, pattern).problems())
            test(f"{name}, each replacement under {pattern!r}", wrong)
        wrong = (wrong for text in texts for wrong in turned_under(text, TURNED_PATTERNS).problems())
        test(f"{name}, each edit undone under other patterns", wrong)
        test(f"{name}, next from each position", (wrong for text in texts for wrong in nexts_of(text).problems()))
        test(f"{name}, all positions", (wrong for text in texts for wrong in positions_around(text).problems()))
