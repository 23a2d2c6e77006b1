"""What bin/rope-search does where a read or a write fails: its message, its exit status, and what it had
written by then; and as a child of a program that does without waiting, without a reader, or without any stream."""
import ctypes
import fcntl
import os
import pty
import re
import resource
import signal
import subprocess
import sys
import tempfile
import time
import tty

from harness import FIRST, PROGRAM, ROOM, Run, differences, end_of, library, open_input, run, short, start, test, told
from protocol import answer, read_commands, replies, spelled
from test_replies import LARGE, MORE_EXAMPLES, examples_of_page

F_SETPIPE_SZ = 1031  # of fcntl.h, which Python names from 3.10 on


def test_failing_reads():
    folder = os.open(ROOM, os.O_RDONLY | os.O_CLOEXEC)
    ended = end_of(start(stdin=folder))
    os.close(folder)
    test("standard input is a folder", differences(ended, b"", 1, told(b"read failed")))

    ended = end_of(start(stdin=subprocess.DEVNULL, preexec_fn=lambda: os.close(0)))
    test("standard input is closed", differences(ended, b"", 1, told(b"read failed")))

    def hung_up(data):
        """A terminal's controlling side as input: after the bytes written there, and once its other side is closed, a
        read from it fails."""
        control, terminal = pty.openpty()
        tty.setraw(terminal)
        os.write(terminal, data)
        process = start(stdin=control)
        os.close(control)
        os.close(terminal)
        return end_of(process)

    for length in range(len(FIRST) + 1):
        # The replies to the commands that were read completely, without a line for the ending.
        out = b"".join(replies(read_commands(FIRST[:length])[0]))
        wrong = differences(hung_up(FIRST[:length]), out, 1, told(b"read failed"))
        if wrong:
            break
    test("a read that fails after each byte of the first session", [f"after {length}: {line}" for line in wrong])


def test_failing_writes():
    with open("/dev/full", "wb") as full:
        ended = end_of(start(stdin=open_input(FIRST), stdout=full))
    test("standard output is full", differences(ended, b"", 1, told(b"write failed")))

    ended = end_of(start(stdin=open_input(FIRST), stdout=subprocess.DEVNULL, preexec_fn=lambda: os.close(1)))
    test("standard output is closed", differences(ended, b"", 1, told(b"write failed")))

    read_end, write_end = os.pipe()
    os.close(read_end)
    process = start(stdin=open_input(FIRST), stdout=write_end)
    os.close(write_end)
    test("nobody reads standard output", differences(end_of(process), b"", 1, told(b"write failed")))

    def rooms(data):
        """Standard output is a file that can't grow past this number of bytes."""
        out, status = answer(data)
        for room in range(len(out) + 1):

            def limit():
                signal.signal(signal.SIGXFSZ, signal.SIG_IGN)
                resource.setrlimit(resource.RLIMIT_FSIZE, (room, room))

            with tempfile.TemporaryFile(dir=ROOM) as held:
                ended = end_of(start(stdin=open_input(data), stdout=held, preexec_fn=limit))
                held.seek(0)
                ended.out = held.read()
            end = (status, b"") if room == len(out) else (1, told(b"write failed"))
            for wrong in differences(ended, out[:room], *end):
                yield f"room for {room}: {wrong}"

    for data in (
        FIRST,
        b"text 2\nhifork\n",
        b"use 1\ntext 1\n\xffjump\n",
        b"text 1\naprint\ntext 5\nab",
        b"text 3\na\napattern 1\nalist\n",
        b"text 4\na\nabpattern 3\n\\w+next 0 1\nnext 1 2\nnext 2 0\nlist\n",
    ):
        test(f"{short(data)} with room for each number of bytes", rooms(data))


def in_pieces(data, **settings):
    """A run with the library that splits reads and writes and can make one of them fail."""
    environment = {f"FAIL_IO_{name.upper()}": str(value) for name, value in settings.items()}
    return run(data, environment=dict(environment, LD_PRELOAD=library("fail_io", "fails reads and writes")))


def short_writes(data):
    """A write takes one byte, or two."""
    for most in (1, 2):
        for wrong in differences(in_pieces(data, write_most=most), *answer(data)):
            yield f"writes of {most}: {wrong}"


def each_read(data):
    """Each read of a byte, or of the end, fails, and the next one would succeed. It isn't tried if the bytes before end
    the run."""
    for at in range(1, len(data) + 2):
        commands, ending = read_commands(data[: at - 1])
        is_over = ending == "command"
        expected = answer(data[: at - 1]) if is_over else (b"".join(replies(commands)), 1, told(b"read failed"))
        for wrong in differences(in_pieces(data, read_most=1, read_at=at), *expected):
            yield f"read {at}: {wrong}"


def each_write(data):
    """Each write of a byte fails, and the next one would succeed."""
    out, _ = answer(data)
    for at in range(1, len(out) + 1):
        ended = in_pieces(data, write_most=1, write_at=at)
        for wrong in differences(ended, out[: at - 1], 1, told(b"write failed")):
            yield f"write {at}: {wrong}"


def test_each_call():
    if library("fail_io", "fails reads and writes") is None:
        return
    for data in [data for data, _, _ in examples_of_page() + MORE_EXAMPLES if len(data) <= 400]:
        name = short(data[:60])
        test(f"{name} with writes of one byte and of two", short_writes(data))
        test(f"{name} with each of its reads failed", each_read(data))
        test(f"{name} with each of its writes failed", each_write(data))


def without_waiting(end):
    """Makes an end of a pipe non-blocking."""
    fcntl.fcntl(end, fcntl.F_SETFL, fcntl.fcntl(end, fcntl.F_GETFL) | os.O_NONBLOCK)


def input_without_waiting(data):
    """The input is a non-blocking pipe with these bytes and then nothing more, which stays open."""
    read_end, write_end = os.pipe()
    without_waiting(read_end)
    os.write(write_end, data)
    process = start(stdin=read_end)
    os.close(read_end)
    ended = end_of(process)
    os.close(write_end)
    return ended


def wrong_inputs_without_waiting():
    for length in range(len(FIRST) + 1):
        out = b"".join(replies(read_commands(FIRST[:length])[0]))
        for wrong in differences(input_without_waiting(FIRST[:length]), out, 1, told(b"read failed")):
            yield f"after {length} bytes: {wrong}"


# A reply longer than the capacity of a pipe.
LONG_REPLY = spelled("text", (200_000,), b"a" * 200_000) + b"print\n"


def wrong_output_without_waiting():
    """The output is a non-blocking pipe that nobody reads until the program has ended: it gets a prefix of the
    output."""
    read_end, write_end = os.pipe()
    without_waiting(write_end)
    process = start(stdin=open_input(LONG_REPLY), stdout=write_end)
    os.close(write_end)
    ended = end_of(process)
    with os.fdopen(read_end, "rb") as left:
        taken = left.read()
    whole = answer(LONG_REPLY)[0]
    if not whole.startswith(taken) or not len(b"ok\n") < len(taken) < len(whole):
        yield f"{len(taken)} bytes are taken: {short(taken)}"
    yield from differences(ended, b"", 1, told(b"write failed"))


def wrong_pipes_without_waiting():
    """If there is always a byte to read and room to write, such pipes are like others."""
    read_end, write_end = os.pipe()
    without_waiting(read_end)
    os.write(write_end, FIRST)
    os.close(write_end)
    process = start(stdin=read_end)
    os.close(read_end)
    yield from differences(end_of(process), *answer(FIRST))


def reader_that_leaves(action):
    """The program gets commands one by one from a client that reads a reply and then exits, with SIGPIPE handled like
    this."""
    process = start(stdin=subprocess.PIPE, bufsize=0, preexec_fn=lambda: signal.signal(signal.SIGPIPE, action))
    process.stdin.write(b"print\n")
    heard = process.stdout.read(len(b"text 0\n\n"))
    process.stdout.close()
    process.stdin.write(b"print\n")
    process.stdout = None
    ended = end_of(process)
    yield from [] if heard == b"text 0\n\n" else [f"it heard {heard}"]
    yield from differences(ended, b"", 1, told(b"write failed"))


def closed_before(*ends):
    """Closes standard streams of the program before it starts."""
    def close():
        for end in ends:
            os.close(end)
    return close


def wrong_without_streams():
    """With standard error closed, or full, only the status reports the error; with the input closed too nothing is
    read, and with the output nothing is written."""
    for ends, given, status in (
        ((2,), FIRST, 0), ((0, 2), b"", 1), ((1, 2), FIRST, 1), ((0, 1), FIRST, 1), ((0, 1, 2), FIRST, 1),
    ):
        ended = end_of(start(stdin=open_input(given), preexec_fn=closed_before(*ends)))
        out = answer(FIRST)[0] if ends == (2,) else b""
        err = told(b"read failed") if ends == (0, 1) else b""
        yield from (f"without {ends}: {line}" for line in differences(ended, out, status, err))
    with open("/dev/full", "wb") as full:
        ended = end_of(start(stdin=open_input(FIRST), stdout=full, stderr=full))
    yield from (f"with a full standard error: {line}" for line in differences(ended, b"", 1))
    # Streams that are open for the wrong direction.
    with open(os.path.join(ROOM, "written"), "wb") as written:
        ended = end_of(start(stdin=written))
    yield from (f"with an input for writing alone: {line}" for line in differences(ended, b"", 1, told(b"read failed")))
    with open(os.path.join(ROOM, "written"), "rb") as read:
        ended = end_of(start(stdin=open_input(FIRST), stdout=read))
    yield from (f"with an output for reading alone: {line}" for line in differences(ended, b"", 1, told(b"write failed")))


def wrong_past_file_limit():
    """If a file must not grow further, the signal for that ends the program, unless it is ignored: what found room is
    written, and there is no message."""
    out = answer(FIRST)[0]
    for room in (0, 1, len(out) - 1, len(out)):
        def limit():
            signal.signal(signal.SIGXFSZ, signal.SIG_DFL)
            resource.setrlimit(resource.RLIMIT_FSIZE, (room, room))
            resource.setrlimit(resource.RLIMIT_CORE, (0, 0))

        with tempfile.TemporaryFile(dir=ROOM) as held:
            ended = end_of(start(stdin=open_input(FIRST), stdout=held, preexec_fn=limit))
            held.seek(0)
            ended.out = held.read()
        status = 0 if room == len(out) else -signal.SIGXFSZ
        yield from (f"room for {room}: {line}" for line in differences(ended, out[:room], status))


def wrong_stopped():
    """A program that is stopped and continued loses nothing."""
    process = start(stdin=subprocess.PIPE, bufsize=0)
    process.stdin.write(FIRST[:30])
    os.kill(process.pid, signal.SIGSTOP)
    process.stdin.write(FIRST[30:])
    os.kill(process.pid, signal.SIGCONT)
    yield from differences(end_of(process), *answer(FIRST))


def wrong_at_terminal():
    """A terminal's end of input ends the run, though more could be read after it."""
    control, terminal = pty.openpty()
    process = start(stdin=terminal)
    os.write(control, b"print\n\x04text 1\n")
    ended = end_of(process)
    os.close(control)
    os.close(terminal)
    yield from differences(ended, b"text 0\n\n", 0)


def until_it_waits(process):
    """Returns once the program sleeps, which it does in a read or a write alone, or has ended."""
    while process.poll() is None:
        with open(f"/proc/{process.pid}/stat", "rb") as stat:
            if stat.read().rpartition(b") ")[2].startswith(b"S"):
                return
        time.sleep(0.0005)


def wrong_slow_writer():
    """Each byte comes once the program waits for it."""
    process = start(stdin=subprocess.PIPE, bufsize=0)
    for byte in FIRST:
        until_it_waits(process)
        process.stdin.write(bytes([byte]))
    yield from differences(end_of(process), *answer(FIRST))


def wrong_slow_reader():
    """A byte at a time is taken from a pipe of a page, once the program waits for room; then the rest."""
    read_end, write_end = os.pipe()
    fcntl.fcntl(write_end, F_SETPIPE_SZ, 4_096)
    process = start(stdin=open_input(LONG_REPLY), stdout=write_end)
    os.close(write_end)
    heard = bytearray()
    while len(heard) < 6_000:
        if len(heard) % 50 == 0:
            until_it_waits(process)
        heard += os.read(read_end, 1)
    while more := os.read(read_end, 100):
        heard += more
    os.close(read_end)
    process.stdout = None
    ended = end_of(process)
    ended.out = bytes(heard)
    yield from differences(ended, *answer(LONG_REPLY))


def wrong_signalled():
    """Signals that a process ignores unless it handles them come while the program waits for a read, also in a payload,
    and for a write."""
    for number in (signal.SIGWINCH, signal.SIGCHLD, signal.SIGURG, signal.SIGCONT):
        process = start(stdin=subprocess.PIPE, bufsize=0)
        for part in (FIRST[:3], FIRST[3:10], FIRST[10:], LONG_REPLY):
            until_it_waits(process)
            process.send_signal(number)
            process.stdin.write(part)
        until_it_waits(process)
        process.send_signal(number)
        yield from (f"{number.name}: {line}" for line in differences(end_of(process), *answer(FIRST + LONG_REPLY)))


def wrong_ended_by_signal():
    """Other signals end the program in a read, and what was written are the replies to the commands that were read whole."""
    for number in (signal.SIGTERM, signal.SIGINT, signal.SIGHUP, signal.SIGKILL):
        process = start(stdin=subprocess.PIPE, bufsize=0)
        process.stdin.write(FIRST[:50])
        until_it_waits(process)
        process.send_signal(number)
        out = b"".join(replies(read_commands(FIRST[:50])[0]))
        yield from (f"{number.name}: {line}" for line in differences(end_of(process), out, -number))


# A parent that starts the program, whose number it leaves in a file, gives it some input, and is killed. With one word more
# it has the only end of a pipe to read the replies.
PARENT = """import os, signal, subprocess, sys
program, told, given, *hears = sys.argv[1:]
read_end, write_end = os.pipe()  # before the other pipe, so that its end is closed first
process = subprocess.Popen([program], stdin=subprocess.PIPE, stdout=write_end if hears else None)
os.close(write_end)
with open(told, "w") as out:
    out.write(str(process.pid))
with open(given, "rb") as data:
    process.stdin.write(data.read())
process.stdin.flush()
os.kill(os.getpid(), signal.SIGKILL)
"""
PR_SET_CHILD_SUBREAPER = 36


def orphaned(data, hears):
    """The run of a program whose parent is killed, whose end this process then waits for."""
    number, input_file = os.path.join(ROOM, "number"), os.path.join(ROOM, "given")
    with open(input_file, "wb") as out:
        out.write(data)
    with tempfile.TemporaryFile(dir=ROOM) as out, tempfile.TemporaryFile(dir=ROOM) as err:
        words = [sys.executable, "-c", PARENT, PROGRAM, number, input_file, *["hears"] * hears]
        subprocess.run(words, stdin=subprocess.DEVNULL, stdout=out, stderr=err, check=False)
        with open(number, encoding="ascii") as told_number:
            _, status = os.waitpid(int(told_number.read()), 0)
        out.seek(0)
        err.seek(0)
        status = -os.WTERMSIG(status) if os.WIFSIGNALED(status) else os.WEXITSTATUS(status)
        return Run(status, out.read(), err.read())


def wrong_without_parent():
    """If the parent is killed, the input ends, and a truncated command is reported; if only the parent read the replies,
    the next write fails, also one that waits for space."""
    becomes_parent = ctypes.CDLL(None).prctl
    becomes_parent(PR_SET_CHILD_SUBREAPER, 1, 0, 0, 0)
    cut = b"text 5\nab abprint\ntext 9\nabc"
    for data, hears, due in (
        (b"", False, (b"", 0)),
        (FIRST, False, answer(FIRST)),
        (cut, False, answer(cut)),
        (cut, True, (b"", 1, told(b"write failed"))),
        (LONG_REPLY, True, (b"", 1, told(b"write failed"))),
    ):
        yield from (f"{short(data)[:30]}: {line}" for line in differences(orphaned(data, hears), *due))
    becomes_parent(PR_SET_CHILD_SUBREAPER, 0, 0, 0, 0)


def given(word, payload):
    return b"%s %d\n" % (word, len(payload)) + payload


# Patterns that are nested as deeply as allowed and deeper, others that are large, texts with high ropes, and replies of
# many parts.
DEEP = [
    *(b"text 3\naxb" + given(b"pattern", pattern.encode()) + b"list\nnext 0 1\n" for pattern, _ in LARGE),
    b"text 9\naaabbbccc" + given(b"pattern", b"(" * 250 + b"a" + b")" * 250) + b"list\n" + given(b"replace", b"$9$0"),
    b"text 9\naaabbbccc" + given(b"pattern", b"(?:" * 83 + b"a" + b"+)*" * 83) + b"list\n" + given(b"replace", b"$0$0"),
    FIRST,
    b"text 9\naaabbbccc" + given(b"pattern", b"(" * 32_767 + b")" * 32_767) + b"list\n",
    b"text 9\naaabbbccc" + given(b"pattern", b"(?:" * 200 + b"a" + b"+)*" * 200) + b"list\n" + given(b"replace", b"$0$0")
    + b"print\n",
    b"text 4\nabab" + given(b"pattern", b"a|" * 32_767) + b"list\n" + given(b"pattern", b"[" * 30_000) + b"print\n",
    given(b"text", b"a line, and its mark\n" * 100_000) + given(b"pattern", b"mark$") + b"list\n"
    + b"".join(b"edit %d 0 %d 3 1\nx" % (line, line) for line in range(0, 100_000, 997)) + given(b"replace", b"\n")
    + b"undo\nprint\n",
]


def wrong_with_small_stack():
    """No command's call depth grows with its input, so 128 kB of stack suffice for all."""
    def limit():
        resource.setrlimit(resource.RLIMIT_STACK, (131_072, 131_072))
        resource.setrlimit(resource.RLIMIT_CORE, (0, 0))

    for number, data in enumerate(DEEP):
        wanted, ended = end_of(start(stdin=open_input(data))), end_of(start(stdin=open_input(data), preexec_fn=limit))
        wrong = [] if wanted.status == 0 else [f"status {wanted.status} with no limit"]
        yield from (f"input {number}: {line}" for line in wrong + differences(ended, wanted.out, wanted.status))


# The most kilobytes of stack that the program uses, by whole pages. Its buffer for replies is among them. A program that
# tools/compile compiled with checks, beside which it writes a checksum, has larger frames.
MOST_STACK = 128 if os.path.exists(f"{PROGRAM}.sum") else 120


def stack_of(data):
    """The kilobytes of stack that the program has used, once it waits for more input."""
    with tempfile.TemporaryFile(dir=ROOM) as out:
        process = subprocess.Popen([PROGRAM], cwd=ROOM, env={}, stdin=subprocess.PIPE, stdout=out, stderr=out, bufsize=0)
        for at in range(0, len(data), 65_536):
            process.stdin.write(data[at : at + 65_536])
        until_it_waits(process)
        with open(f"/proc/{process.pid}/smaps", encoding="ascii", errors="replace") as maps:
            found = re.search(r"\[stack\]\n(?:.*\n)*?Rss: +(\d+) kB", maps.read())
        process.communicate()
        return int(found[1])


def wrong_stack():
    used = [stack_of(data) for data in DEEP]
    print(f"stack: {max(used)} kB, and {stack_of(b'')} kB with no input")
    return [] if max(used) <= MOST_STACK else [f"the inputs use {used} kB"]


# The address space that the program gets, in megabytes.
SPACES = (16, 24, 32, 40, 48, 64, 80, 96, 128, 256)


def wrong_in_small_space():
    """If the address space is limited, a text of 20 MB is refused and the following answers are for the text before; or
    it is accepted."""
    text = b"0123456789abcde\n" * 1_250_000
    data = given(b"text", b"abc") + given(b"text", text) + b"edit 0 0 0 1 1\nxprint\n"
    answers = {b"ok\nerror memory\nok\ntext 3\nxbc\n": "refused", b"ok\nok\nok\n" + given(b"text", b"x" + text[1:]) + b"\n": "taken"}
    seen = []
    for megabytes in SPACES:
        def limit():
            resource.setrlimit(resource.RLIMIT_AS, (megabytes << 20, megabytes << 20))

        ended = end_of(start(stdin=open_input(data), preexec_fn=limit))
        seen.append(answers.get(ended.out))
        if ended.status != 0 or not seen[-1]:
            yield f"in {megabytes} MB: status {ended.status}, {short(ended.out)}"
    if seen[0] != "refused" or seen[-1] != "taken" or seen != sorted(seen):
        yield f"in more and more room: {seen}"


def test_budgets():
    test("a stack of 128 kB", wrong_with_small_stack())
    test(f"deep and large inputs use at most {MOST_STACK} kB of it", wrong_stack())
    test(f"a text of 20 MB in {SPACES[0]} to {SPACES[-1]} MB of address space", wrong_in_small_space())


def test_as_child():
    test("no byte yet at an input that doesn't wait", wrong_inputs_without_waiting())
    test("no room at an output that doesn't wait", wrong_output_without_waiting())
    test("an input that doesn't wait and ends", wrong_pipes_without_waiting())
    for name, action in (("as it is at first", signal.SIG_DFL), ("ignored", signal.SIG_IGN)):
        test(f"a reader that leaves after a reply, SIGPIPE {name}", reader_that_leaves(action))
    test("a file that may not grow further, SIGXFSZ as it is at first", wrong_past_file_limit())
    test("standard streams that are closed, full, or open the wrong way", wrong_without_streams())
    test("stopped, and then continued", wrong_stopped())
    test("a terminal's end of input", wrong_at_terminal())
    test("a slow writer", wrong_slow_writer())
    test("a slow reader of 200,000 bytes", wrong_slow_reader())
    test("signals during reads and writes that nothing handles", wrong_signalled())
    test("signals that end it during a read", wrong_ended_by_signal())
    test("a parent that is killed", wrong_without_parent())


def test_all():
    test_failing_reads()
    test_failing_writes()
    test_each_call()
    test_as_child()
    test_budgets()
