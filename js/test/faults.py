#!/usr/bin/env python3
"""Puts faults into a copy of what makes the package, one at a time: .ci/js.sh must see each.

What it saw is kept by the digest of the sources, as the modules are (js/build/module).
"""
import hashlib
import os
import pathlib
import re
import shutil
import subprocess
import sys
import tempfile

ROOT = pathlib.Path(__file__).resolve().parents[2]
# What it turns, the part of .ci/js.sh that must see it and how that begins its last line, and the
# file with the text before and after.
FAULTS = [
    ("a memory that cannot grow has grown", "memory", "memory of the full module",
     "js/build/lowering.py", '"i64.extend_i32_s"', '"i64.extend_i32_u"'),
    ("a shuffle loses a bit of the index", "differ", "fluent_uri_full.wasm returns",
     "js/build/retarget.py", "splat (i8 -113)", "splat (i8 -121)"),
    ("an address is one too large", "differ", "fluent_uri_full.wasm returns",
     "js/build/bindings.py", '(void *)(uintptr_t){name}"', '(void *)(uintptr_t)({name} + 1)"'),
    ("a call is left out of the core", "rows", "rows",
     "js/build/core.txt", "decode encode next_pair", "encode next_pair"),
    ("the stack is above the data", "stacks", "stacks of the full module",
     "js/build/module", '"--stack-first", ', '"--no-stack-first", '),
    ("a block that moves loses bytes", "support", "the heap and its neighbours",
     "js/build/heap.c", "memcpy(made, block, kept)", "memcpy(made, block, kept / 2)"),
    ("a free block is given twice", "support", "the heap and its neighbours",
     "js/build/heap.c", "free_blocks[log2] = block->next;", ";"),
    ("what the host gives back is lost", "memory", "memory of the full module",
     "js/build/heap.c", "if (address) rattle_dealloc((void *)(uintptr_t)address);",
     "(void)address;"),
    ("the order of bytes is turned", "support", "the heap and its neighbours",
     "js/build/memory.c", "a[i] < b[i] ? -1 : 1", "a[i] < b[i] ? 1 : -1"),
    ("a shift by 0 brings bits", "support", "the heap and its neighbours",
     "js/build/wide.c", "a.low >> 1 >> (63 - by)", "a.low >> (63 - by)"),
    ("a pair of surrogates has three bytes", "random", "random strings",
     "js/src/units.mjs", "isPair ? 4 : 3", "isPair ? 3 : 3"),
    ("a lone surrogate is a character", "random", "random strings",
     "js/src/units.mjs", "text.isWellFormed?.() ? -1 : text.search(LONE)", "-1"),
    ("a target keeps the last segment of its base", "ajv", "Ajv over the suite",
     "js/src/uri-js.mjs", "whole.slice(0, whole.lastIndexOf('/') + 1) + path", "whole + path"),
]


def copied(to):
    """A copy of the sources, over the products of this folder."""
    ran = subprocess.run(["git", "ls-files", "-z", "--cached", "--others", "--exclude-standard"],
                         cwd=ROOT, check=True, stdout=subprocess.PIPE)
    for name in filter(None, ran.stdout.decode().split("\0")):
        if re.match(r"(?:js|tools|c|\.ci|crates|LICENSE|HANDLES)(?:/|\.txt$|$)", name):
            (to / name).parent.mkdir(parents=True, exist_ok=True)
            shutil.copy2(ROOT / name, to / name)
    (to / "crates" / "fluent_uri_c" / "out").symlink_to(ROOT / "crates" / "fluent_uri_c" / "out")


def is_seen(tree, part, wanted):
    """Whether the part fails, with a last line that begins with what is wanted."""
    ran = subprocess.run(["sh", tree / ".ci" / "js.sh", part], stdout=subprocess.PIPE, text=True,
                         stderr=subprocess.STDOUT, errors="replace",
                         env={**os.environ, "JS_LINES": "2000", "JS_SECONDS": "60"})
    last = ran.stdout.rstrip().rpartition("\n")[2]
    if ran.returncode and last.startswith(f"js: {wanted}"):
        return True
    print(ran.stdout[-2000:])
    return False


def digest():
    files = [it for top in ("js", ".ci", "crates/fluent_uri_c", "c")
             for it in sorted((ROOT / top).rglob("*"))
             if it.is_file() and it.suffix != ".md"
             and not {"out", "wasm", "cjs", "__pycache__"} & {*it.parts}]
    found = hashlib.sha256()
    for it in files:
        found.update(repr((str(it.relative_to(ROOT)), it.read_bytes())).encode())
    return found.hexdigest()


def main():
    cache = pathlib.Path(os.environ.get("XDG_CACHE_HOME") or pathlib.Path.home() / ".cache")
    kept = cache / "fluent-uri" / "js" / "faults" / digest()
    if kept.exists():
        print(f"faults: {len(FAULTS)} were seen, of the same sources")
        return 0
    unseen = []
    with tempfile.TemporaryDirectory(prefix="faults-") as room:
        tree = pathlib.Path(room) / "tree"
        copied(tree)
        for what, part, wanted, name, old, new in FAULTS:
            file = tree / name
            text = file.read_text(encoding="utf-8")
            if text.count(old) != 1:
                sys.exit(f"faults: {what}: `{old}` is {text.count(old)} times in {name}")
            file.write_text(text.replace(old, new), encoding="utf-8")
            if not is_seen(tree, part, wanted):
                print(f"faults: not seen: {what}")
                unseen.append(what)
            file.write_text(text, encoding="utf-8")
    if not unseen:
        kept.parent.mkdir(parents=True, exist_ok=True)
        kept.touch()
    print(f"faults: {len(FAULTS) - len(unseen)} of {len(FAULTS)} seen")
    return 1 if unseen else 0


if __name__ == "__main__":
    sys.exit(main())
