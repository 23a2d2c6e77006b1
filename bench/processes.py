"""Programs that get commands, and their cost: time, memory, instructions.

Time is the processor time of the program itself, including the kernel's work for it, so other load on the machine
matters little; for a program that runs alone on one thread it is the same as wall-clock time.
"""
import os
import re
import statistics
import subprocess
import tempfile
import threading
import time

from texts import TOP

PROGRAM = os.path.join(TOP, "bin", "rope-search")
PLAIN = os.path.join(TOP, "bin", "plain")  # if cargo and Rust's regex are installed: make bin/plain
OURS, THEIRS = "rope-search", "plain Rust program"
RUNS = 5


def programs():
    """The programs that execute commands, by their names."""
    return {OURS: PROGRAM, **({THEIRS: PLAIN} if os.path.exists(PLAIN) else {})}


def command(word, payload):
    return b"%s %d\n%s" % (word.encode(), len(payload), payload)


def text_and_pattern(text, pattern):
    """The commands that set both."""
    return [command("text", text), command("pattern", pattern.encode())]


def written(folder, name, *commands):
    path = os.path.join(folder, name)
    with open(path, "wb") as file:
        file.write(b"".join(commands))
    return path


def asked(process, commands):
    """The last lines of the replies of a program to commands. They are read while the commands are sent, if there are more
    than fit into a pipe."""
    if len(commands) > 10_000:
        threading.Thread(target=sent, args=(process, commands)).start()
    else:
        sent(process, commands)
    return b"".join(last_line(process.stdout) for _ in commands)


def last_line(replies):
    """The last line of the next reply: those before it, of `list`, are matches, with three numbers."""
    line = replies.readline()
    while line.startswith(b"m ") and line.count(b" ") == 3:
        line = replies.readline()
    return line


def sent(process, commands):
    process.stdin.write(b"".join(commands))
    process.stdin.flush()


class Session:
    """A program at the other end of pipes. If it ended early, it answers nothing."""

    def __init__(self, program):
        self.process = subprocess.Popen([program], stdin=subprocess.PIPE, stdout=subprocess.PIPE)

    def __enter__(self):
        return self

    def __exit__(self, *_):
        try:
            self.process.communicate()
        except OSError:
            self.process.wait()

    def spent(self):
        """The nanoseconds of processor time that the program took so far: the clock of its process number, as
        clock_getcpuclockid of C returns it."""
        return time.clock_gettime_ns(~self.process.pid << 3 | 2)

    def ask(self, commands):
        """The nanoseconds that commands take, and the replies, of a line each."""
        try:
            start = self.spent()
            said = asked(self.process, commands)
            return self.spent() - start, said
        except OSError:
            return 0, b""

    def resident(self):
        """The bytes of memory that the program has from the system."""
        with open(f"/proc/{self.process.pid}/statm") as told:
            return int(told.read().split()[1]) * os.sysconf("SC_PAGE_SIZE")


def kept_by(program, settings, commands):
    """The bytes that a session gets from the system after the commands, minus those that it had before them."""
    with Session(program) as session:
        session.ask(settings)
        before = session.resident()
        session.ask(commands)
        return session.resident() - before


def taken(program, settings, *batches, runs=RUNS):
    """The cost of batches of commands after settings, one after the other in a session: for each the nanoseconds, as
    the median of several sessions, and the replies."""
    times = []
    for _ in range(runs):
        with Session(program) as session:
            session.ask(settings)
            answers = [session.ask(batch) for batch in batches]
        times.append([nanos for nanos, _ in answers])
    return [(statistics.median(column), said) for column, (_, said) in zip(zip(*times), answers)]


def timed(words, given=os.devnull, out=None):
    """The nanoseconds of a run, and its output unless that goes to a file."""
    with open(given, "rb") as stdin, open(out or os.devnull, "wb") as file:
        process = subprocess.Popen(words, stdin=stdin, stdout=file if out else subprocess.PIPE)
        said = b"" if out else process.stdout.read()
        _, process.returncode, usage = os.wait4(process.pid, 0)
        return round((usage.ru_utime + usage.ru_stime) * 1e9), said


def nanos_of(call):
    """The nanoseconds of a call, and its result."""
    start = time.process_time_ns()
    answer = call()
    return time.process_time_ns() - start, answer


def peak_of(words, given):
    """The maximum memory that a run held, in kB. A child of this program would be reported with the pages that it
    inherited, so a small program starts it."""
    with open(given, "rb") as stdin, tempfile.NamedTemporaryFile() as told:
        by_time = ["/usr/bin/time", "-q", "-f", "%M", "-o", told.name, *words]
        subprocess.run(by_time, stdin=stdin, stdout=subprocess.DEVNULL, check=True)
        return int(told.read())


def tells_peak():
    return os.path.exists("/usr/bin/time")


def instructions(program, *commands):
    """The number of instructions of a program up to the last line of its last reply: nearly the same each time, whatever
    the load of the machine. It is stopped there, so what it frees at its end isn't counted."""
    words = ["valgrind", "--tool=callgrind", "--callgrind-out-file=/dev/null", program]
    with subprocess.Popen(words, stdin=subprocess.PIPE, stdout=subprocess.PIPE, stderr=subprocess.PIPE) as ran:
        asked(ran, commands)
        ran.terminate()
        return int(re.search(rb"Collected : (\d+)", ran.stderr.read())[1])
