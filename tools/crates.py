"""The repository's crates, from crates.txt, and copies of them, in which rt can work beside another run of rt."""
import functools
import os
import shutil
import subprocess

RT = os.environ.get("RT", "rt")
ROOT = os.path.dirname(os.path.dirname(os.path.abspath(__file__)))


def read_list(path):
    """The crates of a list, each with the libraries that it names."""
    with open(path, encoding="utf-8") as file:
        lines = [line.partition("#")[0].partition(":") for line in file]
    return {crate.split()[0]: libraries.split() for crate, colon, libraries in lines if colon}


def listed():
    """The crates of the repository, each with the libraries that it names."""
    return read_list(f"{ROOT}/crates.txt")


def compiled():
    """The crates that are compiled with checks and not proved, each with the libraries that it names: those of
    tests/compiled, and the benchmarks' program."""
    return read_list(f"{ROOT}/tests/compiled/list.txt")


def sources_of(crate):
    """The folder of a crate's sources."""
    if crate not in compiled():
        return f"{ROOT}/crates/{crate}/src"
    return f"{ROOT}/bench/program/src" if crate == "bench" else f"{ROOT}/tests/compiled/{crate}/src"


@functools.lru_cache(maxsize=None)
def kit():
    """The folder of the kit."""
    doc = subprocess.run([RT, "doc"], stdout=subprocess.PIPE, text=True, check=True).stdout
    return os.path.dirname(doc.strip())


def toolchain_in(room, script):
    """A toolchain in a folder whose clang is a script, in which {clang} is the kit's clang; and the path of that
    script."""
    os.makedirs(f"{room}/toolchain/bin")
    os.symlink(f"{kit()}/toolchain/lib", f"{room}/toolchain/lib")
    for tool in os.listdir(f"{kit()}/toolchain/bin"):
        if tool != "clang":
            os.symlink(f"{kit()}/toolchain/bin/{tool}", f"{room}/toolchain/bin/{tool}")
    clang = f"{room}/toolchain/bin/clang"
    with open(clang, "w", encoding="utf-8") as file:
        file.write(script.format(clang=f"{kit()}/toolchain/bin/clang"))
    os.chmod(clang, 0o755)
    return f"{room}/toolchain", clang


def is_static(name):
    """Whether the crate is a static library, to be linked by programs that aren't written in Rattle."""
    with open(f"{ROOT}/crates.txt", encoding="utf-8") as file:
        return any(line.partition(":")[0].split() == [name, "staticlib"] for line in file)


def below(name):
    """The repository's crates that a crate depends on, with their libraries, the crate itself first."""
    crates, found = listed(), [name]
    for crate in found:
        found += [library for library in crates[crate] if library in crates and library not in found]
    return {crate: crates[crate] for crate in found}


def link(path, to):
    try:
        os.link(path, to)
    except OSError:
        shutil.copy2(path, to)


def copied(name, room):
    """Copies a crate with rt's work on it, and the crates below with rt's output, to a folder, and returns the crate's
    folder there. The libraries are links: rt removes one before it writes it again."""
    crates = below(name)
    for crate in crates:
        here, there = f"{ROOT}/crates/{crate}", f"{room}/crates/{crate}"
        shutil.copytree(here, there, ignore=shutil.ignore_patterns("out"))
        for kept in ["out"] if crate == name else ["out/rlib"]:
            if os.path.isdir(f"{here}/{kept}"):
                linking = {} if crate == name else {"copy_function": link}
                shutil.copytree(f"{here}/{kept}", f"{there}/{kept}", **linking)
    shutil.copy(f"{ROOT}/HANDLES", room)
    with open(f"{room}/crates.txt", "w", encoding="utf-8") as out:
        out.writelines(f"{crate}{' staticlib' * is_static(crate)}: {' '.join(libraries)}\n"
                       for crate, libraries in crates.items())
    return f"{room}/crates/{name}"


def words_over(command, name, libraries, jobs, toolchain=None):
    """The rattle command that checks or builds a crate, in its own folder, with the libraries that are built in a
    folder of crates, and this number of functions proved at a time. Another toolchain than the kit's may compile it."""
    top = "src/main.rt" if os.path.exists(f"{ROOT}/crates/{name}/src/main.rt") else "src/lib.rt"
    words = [f"{kit()}/bin/rattle", command, "--crate-name", name, top, "--extern", f"std={kit()}/rlibs/std.rlib"]
    crates = below(name)
    for library in crates[name]:
        built = f"{libraries}/{library}/out/rlib" if library in crates else f"{kit()}/rlibs"
        words += ["--extern", f"{library}={built}/{library}.rlib"]
    if is_static(name):
        words += ["--crate-type", "staticlib"]
    for folder in [f"{kit()}/rlibs", *(f"{libraries}/{library}/out/rlib" for library in crates if library != name)]:
        words += ["-L", f"dependency={folder}"]
    words += ["--antt-project", f"{kit()}/rattle/logic/antt-project.json", "--logic-built", f"{kit()}/logic_built"]
    if command == "build":
        words += ["--toolchain", toolchain or f"{kit()}/toolchain", "--backend", "llvm"]
    return [*words, "--jobs", jobs]
