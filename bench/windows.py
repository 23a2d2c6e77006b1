"""Measures calls of the library that an editor makes to show a window, by bindings/python, without what Python takes to make
lists of what they return. Each function is a run of a topic, as those of `sessions` are."""
import ctypes
import os
import statistics
import sys
import time

from processes import RUNS
from texts import TOP, lines_of

SHOWN, SLICE = 50, 4_000  # lines
PATTERNS = ["let", r"\w+"]


def bindings():
    sys.path.insert(0, os.path.join(TOP, "bindings", "python"))
    import rope_search

    return rope_search


def spent(call):
    """The nanoseconds of a call, and what it answers."""
    start = time.perf_counter_ns()
    answer = call()
    return time.perf_counter_ns() - start, answer


def figure(times, is_right):
    return f"{statistics.median(times):.0f}", "ns" if is_right else "failed"


class InSlices:
    """A pattern that is made pending, and searched in slices."""

    def __init__(self, rope_search, session, pattern):
        self.calls, self.handle, self.pattern = rope_search.library(), session._handle, pattern.encode()
        self.spans, self.count, self.done = (rope_search._Span * 8_192)(), ctypes.c_size_t(), ctypes.c_bool()

    def first_window(self):
        """Begins the pattern, and copies the matches of the first lines."""
        status = self.calls.rope_search_begin_pattern(self.handle, self.pattern, len(self.pattern))
        return status or self.calls.rope_search_window(self.handle, 0, SHOWN, self.spans, len(self.spans), self.count)

    def advance(self):
        return self.calls.rope_search_advance(self.handle, SLICE, self.done)

    def slices(self):
        """What each slice takes, until all lines are done."""
        times, self.done.value = [], False
        while not self.done.value:
            time_of_slice, status = spent(self.advance)
            times.append(time_of_slice)
            if status:
                break
        return times


def first_windows(_, tiny):
    """A pattern whose report is made in slices, beside one that is set."""
    rope_search = bindings()
    with rope_search.Session() as session:
        session.set_text(lines_of(20_000 if tiny else 2_000_000))
        for pattern in PATTERNS:
            windows, longest, wholes, wanted, is_right = [], [], [], [], True
            for _ in range(RUNS):
                session.off()
                wanted.append(spent(lambda: session.set_pattern(pattern))[0])
                due = session.count_matches()
                session.off()
                in_slices = InSlices(rope_search, session, pattern)
                window, status = spent(in_slices.first_window)
                slices = in_slices.slices()
                windows.append(window)
                longest.append(max(slices))
                wholes.append(sum(slices))
                is_right &= status == 0 and session.count_matches() == due and session.pending is None
            of = f"`{pattern}`"
            yield of, "the first window", *figure(windows, is_right)
            yield of, "the longest slice", *figure(longest, is_right)
            yield of, "all slices", *figure(wholes, is_right)
            yield of, "`set_pattern`", *figure(wanted, is_right)


def copies(_, tiny):
    """Matches copied, with columns in UTF-16 code units and in bytes; and the first ones of the whole text from its middle."""
    rope_search = bindings()
    lines = 4_000 if tiny else 400_000
    ascii_lines = lines_of(lines).decode()
    for kind, text in (("ASCII", ascii_lines), ("`é` added", ascii_lines.replace("\n", "é\n"))):
        with rope_search.Session() as session:
            session.set_text(text)
            session.set_pattern(r"\w+")
            due = session.count_matches()
            out, calls, handle = (rope_search._Span * due)(), rope_search.library(), session._handle
            for what, call in (
                ("`copy_matches`", lambda: calls.rope_search_copy_matches(handle, 0, lines, out, due)),
                ("`copy_matches_in`, by bytes", lambda: calls.rope_search_copy_matches_in(handle, 8, 0, lines, out, due)),
            ):
                runs = [spent(call) for _ in range(RUNS)]
                times = [time_of_run / due for time_of_run, _ in runs]
                yield f"a match, {kind}", what, f"{statistics.median(times):.1f}", "ns" if all(count == due for _, count in runs) else "failed"
            found, count, middle = (rope_search._TextMatch * SHOWN)(), ctypes.c_size_t(), rope_search._Position(lines // 2, 0)
            next_all = lambda: calls.rope_search_next_all(handle, middle, found, SHOWN, count)
            runs = [spent(next_all) for _ in range(RUNS)]
            is_right = all(status == 0 for _, status in runs) and count.value == SHOWN
            yield f"{SHOWN} from the middle, {kind}", "`next_all`", *figure([time_of_run for time_of_run, _ in runs], is_right)
