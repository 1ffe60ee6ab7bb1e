#!/usr/bin/env python3
"""Writes the programs of a page, its blocks ```js, as one, and what it must print, which the
comments of these blocks are: programs.py PAGE mjs|cjs OUT, with OUT.wanted beside it."""
import pathlib
import re
import sys

IMPORT = r"(?m)^import (\{.*?\}) from ('.*?');\n"


def main(page, kind, to):
    text = pathlib.Path(page).read_text(encoding="utf-8")
    blocks = [it for it in re.findall(r"(?ms)^```js\n(.*?)^```$", text) if re.search(IMPORT, it)]
    wanted = [it for block in blocks for it in re.findall(r"(?m)// (.*)$", block)]
    if not wanted:
        sys.exit(f"programs: {page} has no program that prints")
    if kind == "cjs":
        heads = []
        blocks = [re.sub(IMPORT, r"const \1 = require(\2);\n", it) for it in blocks]
    else:
        # (an import is at the top of a module)
        heads = sorted({it for block in blocks for it in re.findall(r"(?m)^import .*$", block)})
        blocks = [re.sub(IMPORT, "", it) for it in blocks]
    program = "\n".join([*heads, *(f"{{\n{it}}}" for it in blocks)])
    pathlib.Path(to).write_text(f"{program}\n", encoding="utf-8")
    pathlib.Path(f"{to}.wanted").write_text("".join(f"{it}\n" for it in wanted), encoding="utf-8")


if __name__ == "__main__":
    main(*sys.argv[1:])
