"""Forms that the two languages spell differently, line by line, and what must not be left."""
import re

from erasure import Unknown
from erasure.tokens import tokens_of

MACROS = {"matches", "prove", "unreachable", "write"}
MACROS |= {"by_byte", "by_digit", "classes_with", "macro_rules", "none", "sets", "sets_with"}
MACROS |= {"table", "unreserved_codes"}
CONTRACT_WORDS = {"antt", "decreases", "derive_where", "ensures", "final", "ghost", "invariant"}
CONTRACT_WORDS |= {"requires", "syntax", "tactic", "thiserror"}
FUNCTION = re.compile(r"\s*(?:pub(?:\(crate\))? )?(?:const )?(?:unsafe )?fn \w+")
TRAIT = re.compile(r"^((?:pub(?:\(crate\))? )?trait \w+(?:<[^>]*>)?)( :|:| \{|$)")


def with_rust_lines(text, crate, crates):
    """The code of a file of `crate`, whose paths lead to modules of one Rust crate."""
    lines, names = [], "|".join(crates)
    for line in text.split("\n"):
        if not line.lstrip().startswith("//"):
            line = re.sub(r"(?<![\w:])crate::", f"crate::proved::{crate}::", line)
            line = re.sub(rf"(?<![\w:])({names})::", r"crate::proved::\1::", line)
            line = re.sub(r"(?<![\w:])std::", "crate::proved::rstd::", line)
            # Every type of Rattle has a size that is known.
            line = TRAIT.sub(sized, line)
            # No `impl` of the library overrides a method, final or not.
            line = line.replace("final fn ", "fn ")
            # Rattle's formatter names its writer, and its `clone` may fail.
            line = line.replace("<W: fmt::Write>(", "(").replace(", W: fmt::Write>", ">")
            line = line.replace("Formatter<W>", "Formatter<'_>").replace(".clone()?", ".clone()")
        lines.append(line)
    return "\n".join(lines)


def sized(match):
    head, tail = match.groups()
    return f"{head}: Sized +" if tail in (" :", ":") else f"{head}: Sized{tail}"


def with_plain_examples(text):
    """Examples in comments are Rattle: rustdoc prints them, and runs none."""
    is_open, lines = False, []
    for line in text.split("\n"):
        match = re.match(r"(\s*//[/!] ?)```\s*$", line)
        if match:
            is_open = not is_open
            line = match.group(1) + "```text" if is_open else line
        lines.append(line)
    return "\n".join(lines)


def with_prelude(text):
    """The text with Rattle's `String`, `Vec` and `Drop` in the place of Rust's."""
    lines = text.split("\n")
    first = 0
    while first < len(lines) and (not lines[first].strip() or lines[first].startswith("//!")):
        first += 1
    lines.insert(first, "use crate::proved::rstd::prelude::*;")
    return "\n".join(lines)


def reject_leftovers(text, crates):
    """Stops at words of contracts, at characters of antt, at paths out of the crate, at macros."""
    literals = ("comment", "string", "char")
    code = "".join(part for kind, part in tokens_of(text) if kind not in literals)
    left = {
        "a word of contracts": rf"\b(?:{'|'.join(CONTRACT_WORDS)})\b",
        "a character of contracts": r"[^\x00-\x7f]",
        "a path to another crate": rf"(?<!:)\b(?:{'|'.join([*crates, 'std'])})\b",
        "a macro": rf"\b(?!(?:{'|'.join(MACROS)})!)\w+!(?!=)",
        "a trait with `Self` of no size": r"(?m)^(?:pub(?:\(crate\))? )?trait (?![^\n]*Sized)\w+",
    }
    for what, pattern in left.items():
        if match := re.search(pattern, code):
            raise Unknown(f"{what}: {match.group()}")


def with_inline_hints(text):
    """The text with `#[inline]` at each function that has a body and no hint.

    Rattle's compiler sees a whole program, and rustc the functions that have a hint.
    """
    lines = text.split("\n")
    hinted = []
    for number, line in enumerate(lines):
        if FUNCTION.match(line) and not has_hint(lines, number) and has_body(lines, number):
            hinted.append(f"{line[: len(line) - len(line.lstrip())]}#[inline]")
        hinted.append(line)
    return "\n".join(hinted)


def has_hint(lines, number):
    """Whether an attribute before the function of this line says if it is inlined."""
    while number > 0 and lines[number - 1].lstrip().startswith(("#[", "//")):
        number -= 1
        if lines[number].lstrip().startswith(("#[inline", "#[cold")):
            return True
    return False


def has_body(lines, number):
    """Whether the function that begins in this line has a body."""
    signature = re.search(r"[;{]", "\n".join(lines[number:]).replace("; ", ", "))
    return signature is not None and signature.group() == "{"
