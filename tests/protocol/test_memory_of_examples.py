"""Memory refused to bin/rope-search in every worked input: each of its requests, alone and with all later ones. A
separate part, because it takes as long as the rest of test_memory.py, which defines what has to hold."""
from memory import library
from test_memory import check_refusals
from test_replies import MORE_EXAMPLES, examples_of_page

# An input with more requests for memory, or more bytes, is run with nothing refused.
MOST, MOST_BYTES = 320, 3_100


def test_all():
    if library() is None:
        return
    for data in dict.fromkeys(data for data, _, _ in examples_of_page() + MORE_EXAMPLES):
        check_refusals(data, MOST if len(data) <= MOST_BYTES else 0)
