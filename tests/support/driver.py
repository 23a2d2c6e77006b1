"""Cases for bin/search-driver: the lines that it reads, and their expected answers.

The head of tests/compiled/search_driver/src/main.rt.txt describes the lines.
"""
import itertools
from dataclasses import dataclass
from typing import Any, Optional

from harness import SEARCH_PROGRAM, differences, end_of, open_input, short, start, test
from memory import counted

# Why a pattern is refused.
TOO_LONG = "the pattern has more than 65,536 bytes"
TOO_DEEP = "the pattern is nested too deeply"
OUTSIDE = "the pattern isn't in the grammar"
TOO_LARGE = "the patterns are too large"
EVERY_CHARACTER = "all"  # the haystack of all scalar values

# The messages for out of memory: of the program itself, and of a pattern that is parsed or compiled.
WANT = b"no memory\n"
PATTERN_WANT, PROGRAM_WANT = b"there was no memory for the pattern\n", b"there was no memory for the program\n"
NO_MEMORY = [WANT, PATTERN_WANT, PROGRAM_WANT]


@dataclass(frozen=True)
class Settings:
    """The settings of a pattern: the flags that are on, the limit on nesting, the byte that `.` doesn't match, and the
    byte that ends lines."""

    flags: str = ""
    nest_limit: Optional[int] = None
    no_dot: Optional[int] = None
    line_end: Optional[int] = None

    def fields(self):
        return [self.flags, self.nest_limit, self.no_dot, self.line_end]


@dataclass(frozen=True)
class Case:
    """A line, the expected answer, or None if a test checks it itself, and a name for messages."""

    name: str
    line: str
    answer: Any = None


def written(content):
    """A text or bytes as a field; a text that isn't in hexadecimal digits is already one."""
    return content.encode().hex() if isinstance(content, str) else content.hex()


def line_of(word, *fields):
    """A line. None is a field that is left out."""
    return ",".join([word] + ["" if field is None else str(field) for field in fields]) + "\n"


def about(word, pattern, answer=None, settings=Settings(), *more):
    """A case about only a pattern."""
    settings_told = f" under {settings}" if settings != Settings() else ""
    name = f"{word} {pattern[:70]!r}{settings_told}{' with ' + str(more) if more else ''}"
    return Case(name, line_of(word, written(pattern), *settings.fields(), *more), answer)


def search(
    pattern, haystack, answer=None, cut=0, asked=None, inside=False, settings=Settings(), slots=None, taken=None
):
    """A case of a search for all matches, or for the first one with this number of slots, with a slice, a span, and
    where matches may start, in this number of bytes of the haystack, for which `EVERY_CHARACTER` is an abbreviation."""
    slice_, span, anchored = asked or ((None, None), (None, None), None)
    is_told = haystack != EVERY_CHARACTER
    fields = [written(pattern), *settings.fields(), cut, haystack.hex() if is_told else haystack, *slice_, *span]
    fields += ["" if anchored is None else int(anchored), int(inside)]
    line = line_of("search", *fields, taken) if slots is None else line_of("slots", *fields, slots)
    name = f"{pattern[:70]!r} in {short(haystack) if is_told else haystack}, cut by {cut}"
    name += "" if slots is None else f", {slots} slots"
    name += f" (slice, span, anchored: {asked})" if asked else ""
    name += f", inside characters {inside}, {settings}" if inside or settings != Settings() else ""
    return Case(name, line, answer)


def answer_to(lines, environment=None):
    with open_input(lines.encode()) as given:
        return end_of(start((), environment, program=SEARCH_PROGRAM, stdin=given))


def answers(cases):
    """The answers to cases, which are sent in one run, and what is wrong with that run."""
    ended = answer_to("".join(case.line for case in cases))
    told = ended.out.decode(errors="replace").split("\n")
    wrong = differences(ended, ended.out, 0)
    if len(told) != len(cases) + 1:
        wrong.append(f"{len(told) - 1} answers to {len(cases)} cases")
    return (told + [""] * len(cases))[: len(cases)], wrong


def problems(cases):
    """What is wrong with the answers to cases."""
    cases = list(cases)
    told, wrong = answers(cases)
    for case, answer in zip(cases, told):
        if answer != case.answer:
            yield f"{case.name}: {short(answer.encode())}, not {short(case.answer.encode())}"
    yield from wrong


def in_runs(cases, count=500):
    """What is wrong with the answers to cases, which are sent in runs of limited size, each of which must end in
    time."""
    cases = iter(cases)
    while batch := list(itertools.islice(cases, count)):
        yield from problems(batch)


def without_again(out):
    """An answer without the marks of searches that were refused memory and requested again."""
    return b" ".join(word for word in out[:-1].split(b" ") if word and word != b"again") + out[-1:]


def refusals(case, whole, count, due):
    """The case is answered, or out of memory is reported, whichever of the program's requests is refused, alone or with
    all later ones. If the program can't read its input, it writes nothing. The expected answer must occur."""
    seen = set()
    for number, name in itertools.product(range(1, count + 1), ("at", "from")):
        ended, _, _ = counted(lambda environment: answer_to(case.line, environment), **{name: number})
        if b"again" in ended.out:
            seen.add(b"again")
            ended.out = without_again(ended.out)
        seen.add(ended.out)
        if ended.status != 1 or ended.out:
            for line in differences(ended, ended.out if ended.out in NO_MEMORY else whole, 0):
                yield f"{name} request {number}: {line}"
    for word in due:
        if word not in seen:
            yield f"no refusal came to {short(word)}"


def check_memory(case, due, whole=None):
    """Tests a case with each of its requests for memory refused in turn. The answer is `whole`, if that is given."""
    ended, count, _ = counted(lambda environment: answer_to(case.line, environment))
    whole = ended.out if whole is None else whole
    test(f"{case.name}, nothing refused", differences(ended, whole, 0) + ([] if count else ["it asked for no memory"]))
    name = f"{case.name}, with each of its {count} requests refused, alone and with all that follow"
    test(name, refusals(case, whole, count, due))
