#!/usr/bin/env python3
"""Writes what differ.c and differ.mjs share: the calls of each export, and the lines that they are
made of.

usage: js/test/differ.py FOLDER HOW-MANY SEED [CORE]

calls.h and calls.mjs have the same calls, written out of the parameters that the exports declare:
of all exports, or with CORE of those of the core module. `lines` has texts of crates/vectors/data,
changed at random by the seed.
"""
import pathlib
import random
import re
import sys

sys.dont_write_bytecode = True
ROOT = pathlib.Path(__file__).resolve().parents[2]
sys.path[:0] = [str(ROOT / "js" / "build"), str(ROOT / "tools")]
import bindings

# Where in the room of both programs a pointer leads, and how much is there. `line` and `before` are
# two lines, and `column` is both of them.
INPUTS = {name: ("LINE", "line_length") for name in
          ("text", "one", "bytes", "query", "scheme", "reference", "target")}
INPUTS |= {"base": ("BEFORE", "before_length"), "other": ("BEFORE", "before_length"),
           "texts": ("COLUMN", "column_length"), "lines": ("COLUMN", "column_length"),
           "offsets": ("OFFSETS", "3")}
OUTPUTS = {"out": ("OUT", "OUT_SIZE"), "parts": ("PARTS", "2"), "outcome": ("OUTCOME", "40"),
           "out_offsets": ("OUT_OFFSETS", "3"), "valid": ("VALID", "1"), "errors": ("ERRORS", "3"),
           "port": ("PORT", "4"), "hash": ("HASH", "8"), "position": ("POSITION", "8"),
           "pair": ("PAIR", "32")}
SIZES = {"PARTS": 288, "OUTCOME": 40, "OUT_OFFSETS": 24, "VALID": 8, "ERRORS": 8, "PORT": 4,
         "HASH": 8, "POSITION": 8, "PAIR": 32}
NUMBERS = {"kind": "kind", "options": "option", "component": "component", "error": "error",
           "seed": "SEED"}
PIECES = ("% %zz %C3%BC %2e / // /./ /../ ? # : @ [ ] < \" :: xn-- ü ß \u200e \ue000 \U000f0000 "
          "。 A z 0 .. . %7E").split() + [" ", "\t"]


def argument(name, kind):
    if name in NUMBERS:
        return NUMBERS[name]
    if name.endswith("_len"):
        return {**INPUTS, **OUTPUTS}[name.removesuffix("_len")][1]
    if name == "components":
        return "P(COMPONENTS)"
    if name == "parts" and kind.startswith("const "):
        return "P(PARSED)"
    return f"P({({**INPUTS, **OUTPUTS})[name][0]})"


def call(name, parameters, prefix):
    """A call, and what is written of what it made."""
    words = ", ".join(argument(*it) for it in parameters)
    made = [OUTPUTS[it][0] for it, kind in parameters
            if kind.endswith("*") and not kind.startswith("const ")]
    lines = [f"result({prefix}{name}({words}));"]
    lines += ["out();" if it == "OUT" else f"dump({it}, {SIZES[it]});" for it in made]
    if any(it == "parts" and kind.startswith("const ") for it, kind in parameters):
        return f"if (is_parsed) {{ {' '.join(lines)} }} done();\n"
    return " ".join([*lines, "done();\n"])


def lines(count, seed):
    drawn = random.Random(seed)
    rows = [line for file in sorted((ROOT / "crates" / "vectors" / "data").glob("*.txt"))
            for line in file.read_text(encoding="utf-8").splitlines() if " -> " in line]
    texts = sorted({it for row in rows for it in row.replace(" -> ", " ").split()[1:]
                    if len(it) < 300 and "\\" not in it})
    for _ in range(count):
        text = drawn.choice(texts)
        for _ in range(drawn.choice((0, 0, 1, 1, 2, 3, 5))):
            at, to = sorted(drawn.choices(range(len(text) + 1), k=2))
            other = drawn.choice(texts)
            text = drawn.choice((text[:at] + drawn.choice(PIECES) + text[at:],
                                 text[:at] + text[to:], text[:at] + other[at:]))
        bytes_ = text.encode()
        # (now and then no UTF-8)
        yield bytes_[:-1] + b"\xff" if bytes_ and drawn.random() < 0.01 else bytes_


def main(folder, count, seed, core=""):
    folder = pathlib.Path(folder)
    declared = bindings.declarations()
    named = {it: declared[it] for it in bindings.named(bindings.core() if core else None)}
    written = "".join(call(*it, "fluent_uri_") for it in named.items())
    (folder / "calls.h").write_text(written, encoding="utf-8")
    written = "".join(call(*it, "e.") for it in named.items())
    places = re.search(r"enum \{(.*?)\};", (ROOT / "js/test/differ.c").read_text(encoding="utf-8"),
                       re.S)[1].strip()
    names = ", ".join(re.findall(r"(\w+) =", places))
    (folder / "calls.mjs").write_text(
        f"const {places}, SEED = 7n;\nexport const places = {{ {names} }};\n"
        "export const calls = (e, P, result, dump, out, done, of) => {\n"
        "const { kind, option, component, error, is_parsed } = of;\n"
        f"const {{ line_length, before_length, column_length }} = of;\n{written}}};\n",
        encoding="utf-8")
    (folder / "lines").write_bytes(b"".join(it + b"\n" for it in lines(int(count), int(seed))))


if __name__ == "__main__":
    if not 4 <= len(sys.argv) <= 5:
        sys.exit(__doc__)
    main(*sys.argv[1:])
