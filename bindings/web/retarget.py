#!/usr/bin/env python3
"""Makes a module of LLVM for x86-64, as rattle lowers a static library, one for 64-bit WebAssembly.

    bindings/web/retarget.py FROM.ll TO.ll

rattle proves for wasm64 a crate that allocates, but doesn't build it. What it lowers for x86-64 means the same for wasm64
as long as it has nothing of x86-64's: both have 64-bit pointers, the same byte order, and the same alignments. So this
script knows each form of line that may be in the module, and fails at any other: at an instruction, an intrinsic, an
attribute or a type that isn't listed below, at a phi, at a call by a pointer. It changes the lines that name the target,
the attributes of functions, and the functions themselves in two ways, as rattle's own lowering for wasm64 does:

- An export first asks whether the module is spent. It is while a call is under way, and from then on if that call never
  returns; then the export traps.
- A function with a frame traps where the frame is below the end of the stack, before it writes to it.

One instruction of x86-64 may be in it, the byte shuffle by which UTF-8 is checked: WebAssembly has one that differs for
indices from 16 to 127, so these are cut to their last four bits.

Nothing proves this step. tests/web/test_web.py tests what comes of it.
"""
import re
import sys

X86_64 = ("e-m:e-p270:32:32-p271:32:32-p272:64:64-i64:64-i128:128-f80:128-n8:16:32:64-S128", "x86_64-unknown-linux-gnu")
WASM64 = ("e-m:e-p:64:64-p10:8:8-p20:8:8-i64:64-i128:128-n32:64-S128-ni:1:10:20", "wasm64-unknown-unknown")
FEATURES = "+simd128"

# ---- the forms of lines, each without what stands at its start and end

NAME = r'@(?:"[^"\n]*"|[\w.]+)'
VALUE = rf"(?:%[\w.]+|-?\d+|true|false|null|zeroinitializer|splat \(i\d+ -?\d+\)|<(?:i\d+ -?\d+(?:, )?)+>|{NAME})"
SCALAR = r"(?:i1|i8|i16|i32|i64|i128|i256|ptr)"
VECTOR = r"<\d+ x i\d+>"
TYPE = rf"(?:{SCALAR}|{VECTOR}|\{{ {SCALAR}, {SCALAR} \}}|\[\d+ x i8\])"
ALIGN = r", align \d+"
# What a parameter, an argument or a result may be said to be; a structure that C takes by value in memory is none of it.
SAID = r"(?:noundef|zeroext|signext|nonnull|noalias|nocapture|captures\(none\)|readonly|writeonly|writable|immarg|" \
    r"dead_on_unwind|align \d+|dereferenceable\(\d+\)|sret\(\[\d+ x i8\]\))"
RESULT = rf"(?:{SAID} )*(?:void|{TYPE})"
PARAMETERS = rf"(?:{TYPE}(?: {SAID})*(?: %[\w.]+)?(?:, )?)*"
ARGUMENTS = rf"(?:{TYPE}(?: {SAID})* {VALUE}(?:, )?)*"
INTRINSICS = r"@llvm\.(?:memset\.p0\.i64|memcpy\.p0\.p0\.i64|memmove\.p0\.p0\.i64|trap|(?:cttz|ctlz|ctpop|bswap|abs|umin|" \
    r"umax|smin|smax|[us]add\.sat|[us]sub\.sat|fshl|fshr)\.(?:v\d+)?i\d+|vector\.reduce\.(?:add|and|or|xor|umax|umin)\.v\d+i\d+|" \
    r"[us](?:add|sub|mul)\.with\.overflow\.i\d+|x86\.ssse3\.pshuf\.b\.128)"
# The byte shuffle of x86-64: an index has four bits, and gives 0 where its highest bit is set.
SHUFFLE, OWN_SHUFFLE = "@llvm.x86.ssse3.pshuf.b.128", "@__rattle_shuffle"
# What the library calls of C, which heap.c has.
OF_C = r"@rattle_(?:alloc|realloc|dealloc)"
METADATA = r"(?:, !(?:noundef|range|nonnull|align|dereferenceable) !\d+)*"

INSTRUCTIONS = {
    "alloca": rf"{TYPE}{ALIGN}",
    "load": rf"{TYPE}, ptr {VALUE}{ALIGN}{METADATA}",
    "store": rf"{TYPE} {VALUE}, ptr {VALUE}{ALIGN}",
    "getelementptr": rf"(?:inbounds |nuw |nusw )*i8, ptr {VALUE}, i64 {VALUE}",
    "icmp": rf"(?:eq|ne|[us](?:lt|le|gt|ge)) {TYPE} {VALUE}, {VALUE}",
    "select": rf"{TYPE} {VALUE}, {TYPE} {VALUE}, {TYPE} {VALUE}",
    "extractvalue": rf"{TYPE} {VALUE}, \d+",
    "insertvalue": rf"{TYPE} (?:poison|{VALUE}), {TYPE} {VALUE}, \d+",
    "extractelement": rf"{VECTOR} {VALUE}, i(?:32|64) {VALUE}",
    "insertelement": rf"{VECTOR} {VALUE}, {SCALAR} {VALUE}, i(?:32|64) {VALUE}",
    "shufflevector": rf"{VECTOR} {VALUE}, {VECTOR} (?:poison|{VALUE}), {VECTOR} {VALUE}",
    "br": r"label %[\w.]+|i1 (?:%[\w.]+|true|false), label %[\w.]+, label %[\w.]+",
    "switch": rf"{SCALAR} {VALUE}, label %[\w.]+ \[",
    "ret": rf"void|{TYPE} {VALUE}",
    "unreachable": "",
    "call": rf"{RESULT} {NAME}\({ARGUMENTS}\)(?: #\d+)?",
    **dict.fromkeys(("add", "sub", "mul", "shl"), rf"(?:nuw |nsw )*{TYPE} {VALUE}, {VALUE}"),
    **dict.fromkeys(("udiv", "sdiv", "lshr", "ashr"), rf"(?:exact )?{TYPE} {VALUE}, {VALUE}"),
    **dict.fromkeys(("urem", "srem", "and", "or", "xor"), rf"(?:disjoint )?{TYPE} {VALUE}, {VALUE}"),
    **dict.fromkeys(("zext", "sext", "trunc", "bitcast", "ptrtoint", "ptrtoaddr", "inttoptr"),
                    rf"(?:nneg |nuw |nsw )*{TYPE} {VALUE} to {TYPE}"),
}
INSTRUCTION = re.compile("|".join(rf"  (?:%[\w.]+ = )?{word}{' ' if form else ''}(?:{form})" for word, form in INSTRUCTIONS.items()))
LABEL = re.compile(r"[\w.]+:(?: +;.*)?")
CASE = re.compile(r"    i\d+ -?\d+, label %[\w.]+|  \]")
ALLOCA = re.compile(r"  %[\w.]+ = alloca ")
DEFINITION = re.compile(rf"define (internal )?({RESULT}) ({NAME})\(({PARAMETERS})\) (?:unnamed_addr )?#\d+ \{{")
DECLARATION = re.compile(rf"declare {RESULT} ({INTRINSICS}|{OF_C})\({PARAMETERS}\)(?: (?:local_)?unnamed_addr)? #\d+")
CALLED = re.compile(rf"({NAME})\(")
CONSTANT = re.compile(rf"({NAME}) = (?:private|internal) unnamed_addr constant .*, align \d+")
TOP = re.compile(rf"|;.*|source_filename = .*|{CONSTANT.pattern}|!llvm\.ident = .*|!\d+ = !\{{.*\}}")
ATTRIBUTES = re.compile(r'(attributes #\d+ = \{) (.*) \}')
DROPPED = r'"probe-stack"="inline-asm"|"stack-probe-size"="\d+"'
PROCESSOR = r'"target-cpu"="x86-64(?:-v\d)?"'
KEPT = r'nounwind|nobuiltin|cold|noreturn|nocallback|nofree|nosync|speculatable|willreturn|norecurse|noinline|alwaysinline|inlinehint|' \
    r'memory\([^()]*\)|"frame-pointer"="all"|"no-builtin-(?:bcmp|memcmp|strlen)"'
ATTRIBUTE = re.compile(rf"({DROPPED})|({PROCESSOR})|({KEPT})")
FOR_WASM64 = f'"no-builtin-bcmp" "no-builtin-memcmp" "no-builtin-strlen" "target-cpu"="lime1" "target-features"="{FEATURES}"'

ENTER = """  %enter = call zeroext i1 @__rattle_enter()
  br i1 %enter, label %spent, label %run

spent:
  call void @__rattle_trap()
  unreachable

run:""".split("\n")
LEAVE = "  call void @__rattle_leave()"
FRAME = """  %frame = call ptr @llvm.frameaddress.p0(i32 0)
  %frame.at = ptrtoint ptr %frame to i64
  %frame.below = icmp slt i64 %frame.at, 16
  br i1 %frame.below, label %frame.spent, label %frame.run

frame.spent:
  call void @llvm.trap()
  unreachable

frame.run:""".split("\n")
# An index of 16 or more gives 0 in WebAssembly.
SHUFFLES = f"""define internal <16 x i8> {OWN_SHUFFLE}(<16 x i8> %bytes, <16 x i8> %indices) {{
  %kept = and <16 x i8> %indices, splat (i8 -113)
  %found = call <16 x i8> @llvm.wasm.swizzle(<16 x i8> %bytes, <16 x i8> %kept)
  ret <16 x i8> %found
}}

declare <16 x i8> @llvm.wasm.swizzle(<16 x i8>, <16 x i8>)""".split("\n")
NEW_NAMES = re.compile(r"%(?:enter|spent|run|frame(?:\.\w+)?)\b")
GUARDS = """declare ptr @llvm.frameaddress.p0(i32 immarg)
declare void @llvm.trap()
declare zeroext i1 @__rattle_enter()
declare void @__rattle_leave()
declare void @__rattle_trap()""".split("\n")


class Unknown(Exception):
    """A line that isn't known."""


def known(form, line):
    found = form.fullmatch(line)
    if not found:
        raise Unknown(line)
    return found


def target_line(line):
    """A line that names the target, for the new one, or None."""
    for word, old, new in zip(("datalayout", "triple"), X86_64, WASM64):
        if line.startswith(f"target {word}"):
            if line != f'target {word} = "{old}"':
                raise Unknown(line)
            return f'target {word} = "{new}"'
    return None


def attributes_line(line):
    head, words = known(ATTRIBUTES, line).groups()
    kept, at = [], 0
    while at < len(words):
        found = ATTRIBUTE.match(words, at)
        if not found:
            raise Unknown(line)
        kept += [FOR_WASM64] if found[2] else [found[3]] if found[3] else []
        at = found.end() + 1
    return f"{head} {' '.join(kept)} }}"


def check_names(line, defined, constants):
    """A call is of a function of the module, of an intrinsic, or of what heap.c has. What else is named is a constant: no
    function's address is taken."""
    names = re.findall(NAME, line)
    if " call " in line:
        called = CALLED.search(line)[1]
        names.remove(called)
        if called not in defined and not re.fullmatch(f"{INTRINSICS}|{OF_C}", called):
            raise Unknown(line)
    if not constants.issuperset(names) or NEW_NAMES.search(line):
        raise Unknown(line)


def check_body(lines, defined, constants):
    for line in lines:
        if INSTRUCTION.fullmatch(line):
            if "@" in line or NEW_NAMES.search(line):
                check_names(line, defined, constants)
        elif line and not LABEL.fullmatch(line) and not CASE.fullmatch(line):
            raise Unknown(line)


def guarded(head, body):
    """The lines of a function, with what guards it. `body` has no line for its first label, nor for its end."""
    end = body.index("") if "" in body else len(body)
    allocas = [line for line in body[:end] if ALLOCA.match(line)]
    if any(ALLOCA.match(line) for line in body[end:]):
        raise Unknown(f"an alloca that isn't in the first block of {head}")
    rest = [line for line in body[:end] if not ALLOCA.match(line)] + body[end:]
    is_internal, _, name, _ = known(DEFINITION, head).groups()
    if is_internal:
        return [head, "start:", *allocas, *(FRAME if allocas else []), *rest, "}"]
    leaving = [line for each in rest for line in ([LEAVE] if each.startswith("  ret ") else []) + [each]]
    head = f'{head[:-1]}"wasm-export-name"="{name[1:]}" {{'
    return [head, "start:", *allocas, *ENTER, *(FRAME if allocas else []), *leaving, "}"]


def retargeted(lines):
    """The lines of the module for the new target."""
    defined = {known(DEFINITION, line)[3] for line in lines if line.startswith("define ")}
    constants = {found[1] for found in map(CONSTANT.fullmatch, lines) if found}
    out, at, exports = [], 0, 0
    while at < len(lines):
        line = lines[at]
        at += 1
        if line.startswith("define "):
            end = lines.index("}", at)
            if lines[at] != "start:":
                raise Unknown(lines[at])
            check_body(lines[at + 1:end], defined, constants)
            out += guarded(line, lines[at + 1:end])
            exports += " internal " not in line.partition("@")[0]
            at = end + 1
        elif line.startswith("attributes "):
            out.append(attributes_line(line))
        elif line.startswith("declare "):
            is_shuffle = known(DECLARATION, line)[1] == SHUFFLE
            out += SHUFFLES if is_shuffle else [line]
        else:
            out.append(target_line(line) or known(TOP, line)[0])
    names = {line.partition("@")[2].partition("(")[0] for line in out if line.startswith("declare ")}
    out += [line for line in GUARDS if line.partition("@")[2].partition("(")[0] not in names]
    return [line.replace(f"{SHUFFLE}(", f"{OWN_SHUFFLE}(") for line in out], exports, len(defined)


def main(given, to):
    with open(given, encoding="utf-8") as file:
        lines = file.read().rstrip("\n").split("\n")
    try:
        out, exports, functions = retargeted(lines)
    except Unknown as unknown:
        print(f"{given} has a line that isn't known to mean the same for wasm64: {str(unknown)[:300]}", file=sys.stderr)
        return 1
    with open(to, "w", encoding="utf-8") as file:
        file.write("\n".join(out) + "\n")
    print(f"{functions} functions, {exports} exports")
    return 0


if __name__ == "__main__":
    sys.exit(main(*sys.argv[1:]))
