#!/usr/bin/env python3
"""Erases contracts, proofs and the prover's attributes from the library's sources, which leaves Rust.

usage: erase.py REPOSITORY OUT

OUT becomes the folder of the module `proved`: a module for each crate, and the two files of the shim.
It must not exist. The script stops at a form that it does not know, and if a word of a contract is
left.
"""
import shutil
import sys
from pathlib import Path

from erasure import Unknown
from erasure.contracts import without_contracts
from erasure.derives import with_errors, with_rust_clones, with_rust_derives
from erasure.forms import reject_leftovers, with_inline_hints, with_plain_examples
from erasure.forms import with_prelude, with_rust_lines

HERE = Path(__file__).resolve().parent
CRATES = [
    "uri_pct",
    "uri_parts",
    "uri_ops",
    "fluent_uri",
    "uri_relative",
    "uri_mend",
    "uri_order",
    "uri_basic",
    "uri_query",
]
SHIM = ["lanes16.rs", "lanes16_tests.rs", "rstd.rs"]
# The one constant that depends on the target. The sources are proved for either value of it.
SWIZZLES = "pub const SWIZZLES: bool = true;"
ON_THE_TARGET = "pub const SWIZZLES: bool = crate::proved::lanes16::SWIZZLES;"
# Laws about errors are proofs alone.
ERROR_LAWS = "    pub use error_laws::{"


def erased(crate, text):
    text = with_rust_clones(with_rust_derives(with_errors(without_contracts(text))))
    text = without_error_laws(with_plain_examples(text))
    text = with_prelude(with_inline_hints(with_rust_lines(text, crate, CRATES)))
    reject_leftovers(text, CRATES)
    return text.replace(SWIZZLES, ON_THE_TARGET)


def without_error_laws(text):
    if ERROR_LAWS not in text:
        return text
    start = text.index(ERROR_LAWS)
    return text[:start] + text[text.index("};\n", start) + 3 :]


def erase(repository, out):
    out.mkdir(parents=True)
    for crate in CRATES:
        sources = repository / "crates" / crate / "src"
        for file in sorted(sources.rglob("*.rt")):
            to = out / crate / file.relative_to(sources)
            to = to.with_name("mod.rs") if file.name == "lib.rt" else to.with_suffix(".rs")
            to.parent.mkdir(parents=True, exist_ok=True)
            try:
                to.write_text(erased(crate, file.read_text()))
            except Unknown as unknown:
                sys.exit(f"erase.py: {file}: {unknown}")
    for name in SHIM:
        shutil.copy(HERE / "shim" / name, out / name)
    if ON_THE_TARGET not in (out / "uri_pct" / "lanes.rs").read_text():
        sys.exit("erase.py: crates/uri_pct/src/lanes.rt has no constant SWIZZLES")


def main():
    if len(sys.argv) != 3:
        sys.exit(__doc__.split("\n\n")[1])
    repository, out = map(Path, sys.argv[1:])
    erase(repository, out)


if __name__ == "__main__":
    main()
