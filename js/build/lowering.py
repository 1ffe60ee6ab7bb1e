"""Turns a WebAssembly module with a 64-bit memory into one with a 32-bit memory, in the text that
`wasm2wat` writes. Each address, and each length, that an instruction takes is cut to 32 bits.
Nothing else changes: what the code computes with still has 64 bits."""
import re

from repository import Failed

CUT = "i32.wrap_i64"
# The locals in which operands wait while one below them is cut.
LOCALS = {"i32": "$below_i32", "i64": "$below_i64", "f32": "$below_f32", "f64": "$below_f64",
          "v128": "$below_v128", "size": "$size"}
# Instructions that give one value and jump nowhere, by the operands that they take.
OPERANDS = {
    0: r"(?:local\.get|global\.get|\w+\.const)",
    1: r"(?:local\.tee|i32\.wrap_i64|v128\.load|i\d\d\.(?:load\w*|eqz|clz|ctz|popcnt|extend\w+))",
    2: r"i\d\d\.(?:add|sub|mul|and|or|xor|shl|shr_[su]|rotl|rotr|eq|ne|[lg][te]_[su])",
    3: r"select",
}
ACCESS = r"(i32|i64|f32|f64|v128)\.(load|store)(\w*?)(_lane)?(?: .*)?"
UNKNOWN = r"(?:memory|table|data|elem|ref|call_indirect|call_ref|.*\batomic)\b"


def operands(line):
    """How many operands an instruction takes, or None if it is none of OPERANDS."""
    word = line.partition(" ")[0]
    return next((it for it, form in OPERANDS.items() if re.fullmatch(form, word)), None)


def cut_below(body, kind):
    """Cuts what is below the value, of this type, that the body ends with: before the instructions
    that make the value, or, where these are not known, while it waits in a local. Returns the
    locals that this takes."""
    missing = 1
    for at in range(len(body) - 1, -1, -1):
        taken = operands(body[at])
        if taken is None:
            break
        missing += taken - 1
        if missing == 0:
            body.insert(at, CUT)
            return set()
    body += [f"local.set {LOCALS[kind]}", CUT, f"local.get {LOCALS[kind]}"]
    return {kind}


def cut_three(body, second):
    """Cuts where to, where from if the second operand is an address, and how many bytes."""
    body += [f"local.set {LOCALS['size']}", f"local.set {LOCALS[second]}", CUT,
             f"local.get {LOCALS[second]}", *[CUT] * (second == "i64"),
             f"local.get {LOCALS['size']}", CUT]
    return {second, "size"}


def append(line, body):
    """Appends an instruction to the body, with cuts where it takes addresses. Returns the locals
    that these take."""
    used, word = set(), line.partition(" ")[0]
    if found := re.fullmatch(ACCESS, line):
        if found[2] == "store" or found[4]:
            used = cut_below(body, found[1])
        else:
            body.append(CUT)
        body.append(line)
    elif word in ("memory.copy", "memory.fill"):
        used = cut_three(body, "i64" if word == "memory.copy" else "i32")
        body.append(line)
    elif word == "memory.size":
        body += [line, "i64.extend_i32_u"]
    elif word == "memory.grow":
        body += [CUT, line, "i64.extend_i32_s"]
    elif re.match(UNKNOWN, word):
        raise Failed(f"the instruction {line}")
    else:
        body.append(line)
    return used


def function(lines):
    """The lines of a function, of which the first ones are its head and its locals."""
    head = [lines[0]] + [it for it in lines[1:2] if it.startswith("(local ")]
    body, used = [], set()
    for line in lines[len(head):]:
        used |= append(line, body)
    locals_ = [f"(local {LOCALS[it]} {'i64' if it == 'size' else it})" for it in sorted(used)]
    return [*head, *locals_, *body, ")"]


def field(line):
    """A field of the module that is no function."""
    if line.startswith("(memory "):
        return line.replace("(memory i64 ", "(memory ", 1)
    if line.startswith("(data "):
        return line.replace("(i64.const ", "(i32.const ", 1)
    if not re.match(r"\((?:module|type|func|global|export) ?|\)", line):
        raise Failed(f"the field {line[:80]}")
    return line


def lowered(text):
    """The text of the module with a 32-bit memory."""
    made, inside = [], None
    for line in map(str.strip, text.splitlines()):
        if not line.startswith("(data "):
            line = re.sub(r" *\(;@?\w+;\)| *;; label = @\d+", "", line)
        if line.startswith("(func ") and line.count("(") > line.count(")"):
            inside = [line]
        elif inside is None:
            made.append(field(line))
        else:
            ends = line.count(")") > line.count("(")
            inside.append(line[:-1] if ends else line)
            if ends:
                made += function(inside)
                inside = None
    if inside:
        raise Failed("a function that does not end")
    return "\n".join(made) + "\n"
