"""A crate that allocates nothing, as rattle lowers it for wasm64, compared with the output of bindings/web/retarget.py
for its x86-64 lowering: the same functions, except for what surrounds exports.

rattle proves the crate for each, with str_indices as rt ci or make has built it.
"""
import os
import re
import shutil
import subprocess
import sys
import tempfile
from collections import Counter

from crates import ROOT, kit, toolchain_in

sys.path.insert(0, os.path.join(ROOT, "bindings", "web"))
import retarget

NAME = "lowered"
TARGETS = ("x86_64-unknown-linux-gnu", "wasm64-unknown-unknown")
LIBRARIES = ("counters", "str_indices")
# Replaces the kit's clang: keeps the bitcode that it gets, and stops.
KEEPING = """#!/bin/sh
for word in "$@"; do
    case $word in
    *.bc) cp "$word" "$0.bc" ;;
    esac
done
exit 1
"""
FRAME = [r"  % = call ptr @llvm.frameaddress.p0\(i32 0\)", r"  % = ptrto(?:int|addr) ptr % to i64",
         r"  % = icmp slt i64 %, 16", r"  br i1 %, label %, label %"]


def rlib(name):
    return f"{ROOT}/crates/{name}/out/rlib"


def lacking():
    """What is missing for it, or None."""
    if not shutil.which(os.environ.get("RT", "rt")):
        return "no kit"
    missing = [name for name in LIBRARIES if not os.path.exists(f"{rlib(name)}/{name}.rlib")]
    return f"no {rlib(missing[0])}" if missing else None


def lowered(target, room):
    """The module as text, or rattle's message."""
    folder = tempfile.mkdtemp(dir=room)
    toolchain, clang = toolchain_in(folder, KEEPING)
    os.mkdir(f"{folder}/src")
    shutil.copy(f"{ROOT}/tests/web/lowered/lib.rt.txt", f"{folder}/src/lib.rt")
    words = [f"{kit()}/bin/rattle", "build", "--crate-name", NAME, "src/lib.rt", "--crate-type", "staticlib",
             "--target", target, "--extern", f"std={kit()}/rlibs/std.rlib",
             "--extern", f"str_indices={rlib('str_indices')}/str_indices.rlib",
             *(word for at in (f"{kit()}/rlibs", *map(rlib, LIBRARIES)) for word in ("-L", f"dependency={at}")),
             "--antt-project", f"{kit()}/rattle/logic/antt-project.json", "--logic-built", f"{kit()}/logic_built",
             "--toolchain", toolchain, "--backend", "llvm", "--jobs", "1", "-o", f"{folder}/made.a"]
    ran = subprocess.run(words, cwd=folder, stdin=subprocess.DEVNULL, stdout=subprocess.PIPE, stderr=subprocess.STDOUT,
                         text=True)
    if not os.path.exists(f"{clang}.bc"):
        return None, ran.stdout.splitlines()[-5:]
    subprocess.run([f"{kit()}/toolchain/bin/clang", f"--target={target}", "-x", "ir", "-S", "-emit-llvm", "-Xclang",
                    "-disable-llvm-passes", f"{clang}.bc", "-o", f"{folder}/made.ll"], check=True)
    with open(f"{folder}/made.ll", encoding="utf-8") as text:
        return text.read().rstrip("\n").split("\n"), []


def functions(lines):
    """The functions, each as its lines without the names of values and labels."""
    found, name = {}, None
    for line in lines:
        line = re.sub(r"%[\w.]+", "%", line.partition(" ;")[0].rstrip())
        if line.startswith("define "):
            name = re.search(r'@("[^"]*"|[\w.]+)\(', line)[1]
            found[name] = [re.sub(r" #\d+.*", "", line)]
        elif line == "}":
            name = None
        elif name is not None and line.startswith("  "):
            found[name].append(line)
    return found


def counted(lines):
    """How often each line is in a function: where the stack is checked may differ, not whether it is."""
    count, at = Counter(), 0
    while at < len(lines):
        is_frame = all(re.fullmatch(form, line) for form, line in zip(FRAME, lines[at:at + len(FRAME)]))
        if is_frame and at + len(FRAME) <= len(lines):
            count["the frame is looked at"] += 1
            at += len(FRAME)
        else:
            count[re.sub(r"ptrto(?:int|addr)", "ptrtoaddr", lines[at])] += 1
            at += 1
    return count


def wrong_lowerings(room):
    texts = []
    for target in TARGETS:
        text, said = lowered(target, room)
        if text is None:
            return said
        texts.append(text)
    ours, kits = functions(retarget.retargeted(texts[0])[0]), functions(texts[1])
    with open(f"{ROOT}/tests/web/lowered/lib.rt.txt", encoding="utf-8") as source:
        exports = set(re.findall(r'pub extern "C" fn (\w+)', source.read()))
    inner = {f'"rattle::export {name}"' for name in exports}
    wrong = [f"{name} is in one alone" for name in set(ours) ^ set(kits) ^ inner]
    same = [name for name in set(ours) & set(kits) if counted(ours[name]) == counted(kits[name])]
    wrong += [f"{name} differs" for name in set(ours) & set(kits) - set(same) - exports]
    return wrong + ([] if len(same) > 50 else [f"only {len(same)} are the same"])
