"""Programs in C with the library: under sanitizers and valgrind, if these are installed, and the stack that calls use."""
import os
import shutil
import subprocess

from harness import LIBRARY_FOLDER, ROOM, SECONDS, TOP, test

STRICT = ["-std=c99", "-pedantic", "-O1", "-g", "-Wall", "-Wextra", "-Werror"]
LIMITED = ["-fno-sanitize-recover=all"]
# The thread sanitizer fails if addresses are randomized too widely.
FIXED = ["setarch", "-R"] if shutil.which("setarch") else []
LIBRARY = [os.path.join(LIBRARY_FOLDER, "librope_search.a"), "-lpthread"]
VALGRIND = ["valgrind", "-q", "--error-exitcode=9", "--leak-check=full", "--errors-for-leak-kinds=all"]
# The tools that programs run under: a name, the arguments of the compiler, and the words before the program. The sanitizers
# instrument the program and not the library; of the library they see the memory that it is given, allocates and frees.
# Valgrind sees each access to memory, and is slow.
TOOLS = [
    ("the address and undefined-behaviour sanitizers", ["-fsanitize=address,undefined", *LIMITED], []),
    ("the leak sanitizer", ["-fsanitize=leak", *LIMITED], []),
    ("the thread sanitizer", ["-fsanitize=thread", *LIMITED], FIXED),
    ("valgrind", [], VALGRIND),
]
# The programs: a name, the file in tests/library, further arguments of the compiler, and the arguments under valgrind.
PROGRAMS = [
    ("calls in C", "library_calls.c", [], []),
    ("requests for memory refused in turn", "library_memory.c", ["-Wl,--wrap=malloc,--wrap=realloc"], ["40"]),
    ("sessions on several threads", "library_threads.c", [], []),
]
# The bytes of stack that include/rope_search.h requires of a calling thread, and the most that a list of calls may use.
STACK, MOST_TAKEN = 131_072, 40_000


def said_by(words):
    """The status and the output of a command."""
    done = subprocess.run(words, stdin=subprocess.DEVNULL, stdout=subprocess.PIPE, stderr=subprocess.STDOUT, text=True,
                          errors="replace", timeout=SECONDS, cwd=ROOM, check=False)
    return done.returncode, done.stdout


def compiled(source, words, made, linked=LIBRARY):
    """The messages if a program in C can't be compiled and linked, or nothing."""
    command = [os.environ.get("CC", "cc"), *STRICT, *words, "-I", os.path.join(TOP, "include"), "-o", made, source, *linked]
    status, said = said_by(command)
    return [] if status == 0 else said.splitlines()[:5] or ["the compiler failed"]


def wrong_end(words):
    status, said = said_by(words)
    return [] if status == 0 else [*said.splitlines()[:20], f"ended with {status}"]


def is_at_hand(flags, before):
    """Whether a program that does nothing can be built and run under a tool."""
    if before and shutil.which(before[0]) is None:
        return False
    source, made = os.path.join(ROOM, "nothing.c"), os.path.join(ROOM, "nothing")
    with open(source, "w", encoding="ascii") as out:
        out.write("int main(void)\n{\n    return 0;\n}\n")
    return not compiled(source, flags, made, ()) and not wrong_end([*before, made])


def test_under_tools():
    for name, flags, before in TOOLS:
        if not is_at_hand(flags, before):
            print(f"skipped, no use of {name} here: {len(PROGRAMS)} programs in C over the library")
            continue
        for what, file, more, arguments in PROGRAMS:
            made = os.path.join(ROOM, "in-c")
            wrong = compiled(os.path.join(TOP, "tests", "library", file), [*flags, *more], made)
            test(f"{what}, under {name}", wrong or wrong_end([*before, made, *(arguments if before == VALGRIND else [])]))


def test_stack():
    """The deepest tree, the deepest and the largest patterns, and the most groups, on a stack that is measured."""
    made = os.path.join(ROOM, "stack")
    wrong = compiled(os.path.join(TOP, "tests", "library", "library_stack.c"), ["-D_GNU_SOURCE"], made)
    status, said = (None, "") if wrong else said_by([made, str(MOST_TAKEN)])
    print("".join(f"stack: {line}\n" for line in said.splitlines()), end="")
    wrong = wrong or ([] if status == 0 else [*said.splitlines(), f"ended with {status}"])
    test(f"calls take at most {MOST_TAKEN:,} of {STACK:,} bytes of stack", wrong)
