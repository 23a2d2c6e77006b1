"""Random sessions of bin/rope-search, compared with the model: a separate part, because they take as long as the rest
of test_edits.py, which makes them."""
from harness import test
from test_edits import BACK_AND_FORWARD, OF_ALL_KINDS, SESSIONS, SESSIONS_IN_RUN, some_sessions


def test_all():
    for seed in range(SESSIONS // SESSIONS_IN_RUN):
        for kind, weights in (("of all kinds", OF_ALL_KINDS), ("back and forward", BACK_AND_FORWARD)):
            name = f"{SESSIONS_IN_RUN} sessions at random {kind}, by seed {seed}"
            test(name, some_sessions(seed, SESSIONS_IN_RUN, weights).problems())
