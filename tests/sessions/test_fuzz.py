"""The first random sessions of tools/fuzz, of the program and of the library; that a failing one is shortened to its fewest
commands; the sessions that tools/guided found; and the model of the library's sessions, which is in Rust, compared with
Python's models."""
import os
import re
from dataclasses import dataclass

import plain_sessions
import sessions_by_calls
from harness import TOP, share_of, test
from protocol import read_commands, spelled
from random_sessions import Trial, failures, shortened, some_trial

SESSIONS, IN_TEST, SEED = share_of(300), 50, 0
BY_CALLS, BESIDE_PYTHON = max(2_000, share_of(10_000)), max(100, share_of(500))


@dataclass(frozen=True)
class Planted:
    """Finds a fault if an undo follows a pattern with a bar."""

    def wrong(self, data):
        words = [(word, payload) for word, _, payload in read_commands(data)[0]]
        bars = [place for place, (word, payload) in enumerate(words) if word == "pattern" and b"|" in payload]
        return ["planted"] if bars and ("undo", b"") in words[bars[0] :] else []


def wrong_shortening():
    trials = (some_trial(SEED, number).commands for number in range(1_000))
    commands = next(commands for commands in trials if Planted().wrong(b"".join(commands)))
    left = shortened(Trial(commands, Planted())).commands
    if left != [spelled("pattern", (1,), b"|"), b"undo\n"]:
        yield f"{len(commands)} commands are shortened to {left}"


def wrong_shortening_by_calls():
    said, _ = sessions_by_calls.ran("planted", SEED, 0, 1_000)
    if [line.strip() for line in said.split("\n")[1:]] != ['SetPattern "|"', "Undo", "planted", ""]:
        yield f"the calls are shortened to {said!r}"


def wrong_kinds():
    """The model has each call of the header, except two that are read after each command and those that it names as lacking."""
    with open(os.path.join(TOP, "include", "rope_search.h"), encoding="utf-8") as header:
        declared = set(re.findall(r"\brope_search_(\w+)\(", header.read()))
    with open(os.path.join(TOP, "tests", "sessions", "calls.rs"), encoding="utf-8") as file:
        text = file.read()
    kinds = re.findall(r"^    (\w+),$", text.split("pub enum Kind {")[1].split("\n}")[0], re.M)
    lacking = re.search(r"^/// Calls that the model lacks: (.*)\.$", text, re.M)[1]
    had = {re.sub(r"(?<!^)([A-Z])", r"_\1", kind).lower() for kind in kinds} | {"changed", "counted"}
    due = declared - set(re.findall(r"\w+", lacking))
    yield from (f"the model has no {name}" for name in sorted(due - had))
    yield from (f"the header has no {name}" for name in sorted(had - due))


def wrong_beside_python():
    """What is wrong with the model in Rust; at least two thirds of the sessions must be compared completely."""
    told = [plain_sessions.wrong_session(lines) for lines in sessions_by_calls.sessions_told(SEED, 0, BESIDE_PYTHON)]
    yield from (one for wrong, _ in told for one in wrong)
    whole = sum(is_whole for _, is_whole in told)
    if len(told) != BESIDE_PYTHON or whole < BESIDE_PYTHON * 2 // 3:
        yield f"of {BESIDE_PYTHON} sessions {len(told)} are told, and {whole} compared whole"


def test_by_calls():
    if missing := sessions_by_calls.missing():
        print(f"skipped, {missing}: sessions at random by calls of the library, and those that tools/guided found")
        return
    test("the model of sessions by calls has each call of the header", wrong_kinds())
    made, said = sessions_by_calls.built()
    test("the sessions by calls, with their model in Rust, are built", said)
    if made:
        wrong, parts = sessions_by_calls.failures(SEED, 0, BY_CALLS)
        test(f"{BY_CALLS} sessions of seed {SEED} by calls of the library, {parts} in part", wrong)
        wrong, count = sessions_by_calls.failures_of_guided()
        test(f"the {count} sessions of tests/sessions/guided.txt", wrong)
        test("a session by calls that fails is shortened to what fails in it", wrong_shortening_by_calls())
        test(f"the model in Rust beside Python's, {BESIDE_PYTHON} sessions of seed {SEED}", wrong_beside_python())


def test_all():
    for first in range(0, SESSIONS, IN_TEST):
        test(f"sessions {first} to {first + IN_TEST - 1} of seed {SEED}", failures(SEED, first, IN_TEST))
    test("a session that fails is shortened to what fails in it", wrong_shortening())
    test_by_calls()
