"""Derives and trait methods that are not those of Rust."""
import re

from erasure import Unknown
from erasure.tokens import group_end, tokens_of

RUST_DERIVES = {"Clone", "Copy", "Debug", "PartialEq", "Eq", "PartialOrd", "Ord", "Hash", "Default"}
DERIVE = re.compile(r"([ \t]*)#\[derive\(([^)]*)\)\]\n")
# The facade's types compare their texts, so the comparisons of `Reference` have no use.
DERIVE_WHERE = re.compile(r"[ \t]*#\[derive_where\([^)]*\)\]\n")
ERROR_ENUM = re.compile(r"#\[derive\([^)]*\bError\b[^)]*\)\]\n(?:\s*#\[[^\n]*\]\n)*pub enum (\w+) \{")
VARIANT = re.compile(
    r'#\[error\((?P<message>"(?:[^"\\]|\\.)*")\)\]\s*(?P<name>\w+)\s*'
    r"(?:\{(?P<fields>[^}]*)\}|\((?P<value>[^)]*)\))?"
)
CLONE = re.compile(r"fn clone\(&self\) -> Result<Self, AllocError> \{\s*Ok\(")


def group_of(text, start):
    """The text after the bracket at `start` up to its partner, and where that ends."""
    tokens = tokens_of(text[start:])
    inner = "".join(part for _, part in tokens[: group_end(tokens, 0)])
    return inner[1:-1], start + len(inner)


def with_errors(text):
    """What thiserror derives, for messages with no field, a named one, or the value."""
    impls = ""
    for enum in ERROR_ENUM.finditer(text):
        name = enum.group(1)
        body, _ = group_of(text, enum.end() - 1)
        arms = "".join(error_arm(name, variant) for variant in VARIANT.finditer(body))
        impls += f"""
impl core::fmt::Display for {name} {{
    fn fmt(&self, f: &mut core::fmt::Formatter<'_>) -> core::fmt::Result {{
        match self {{
{arms}        }}
    }}
}}

impl core::error::Error for {name} {{}}
"""
    if not impls:
        return text
    text = re.sub(r'[ \t]*#\[error\("(?:[^"\\]|\\.)*"\)\]\n', "", text)
    return text.replace("use thiserror::Error;\n", "") + impls


def error_arm(enum, variant):
    fields, value, message = variant["fields"], variant["value"], variant["message"]
    pattern = f"{enum}::{variant['name']}"
    if fields:
        names = re.findall(r"^\s*(\w+):", fields, re.M)
        pattern += f" {{ {', '.join(names)} }}"
    elif value:
        message = message.replace("{0}", "{value}")
        pattern += "(value)" if "{value}" in message else "(_)"
    return f"            {pattern} => write!(f, {message}),\n"


def with_rust_derives(text):
    def rust_derive(match):
        names = [name.strip() for name in match.group(2).split(",")]
        kept = [name for name in names if name not in ("Drop", "Error")]
        unknown = set(kept) - RUST_DERIVES
        if unknown:
            raise Unknown(f"a derive: {', '.join(sorted(unknown))}")
        return f"{match.group(1)}#[derive({', '.join(kept)})]\n" if kept else ""

    return DERIVE.sub(rust_derive, DERIVE_WHERE.sub("", text))


def with_rust_clones(text):
    """`Ok(e)` as the whole body of a `clone`, which is proved not to fail, becomes `e`."""
    while match := CLONE.search(text):
        value, end = group_of(text, match.end() - 1)
        if not re.match(r"\s*\}", text[end:]):
            raise Unknown("a `clone` that is more than `Ok(..)`")
        head = "fn clone(&self) -> Self {\n        "
        text = text[: match.start()] + head + value + text[end:]
    return text
