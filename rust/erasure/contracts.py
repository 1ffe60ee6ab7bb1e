"""Removes contracts, ghost items and attributes for the prover."""
import re

from erasure import Unknown
from erasure.tokens import group_end, skip_space, text_at, tokens_of

# What is read by Rust, and what is only read by the prover.
KEPT_ATTRIBUTES = {"cold", "derive", "derive_where", "doc", "error", "inline", "must_use"}
PROVER_ATTRIBUTES = {"cycle", "tactic"}


def clause_end(tokens, i):
    """The index after the clause `requires NAME { .. }` or `ensures NAME { .. }` at `i`."""
    at = i + 1
    if tokens[at] == ("other", "*"):
        at += 1
    at = skip_space(tokens, at)
    if tokens[at][0] == "word":
        at = skip_space(tokens, at + 1)
    if tokens[at] != ("other", "{"):
        raise Unknown(f"a clause without braces: {text_at(tokens, i)}")
    return group_end(tokens, at)


def ghost_end(tokens, i):
    """The index after the item `ghost use ..;`, `ghost NAME: { .. }` or `ghost NAME = { .. }`."""
    at = skip_space(tokens, i + 1)
    if tokens[at] == ("word", "use"):
        while tokens[at] != ("other", ";"):
            at += 1
        return at + 1
    if tokens[at][0] != "word":
        raise Unknown(f"a ghost item: {text_at(tokens, i)}")
    sign = skip_space(tokens, at + 1)
    if tokens[sign] not in [("other", ":"), ("other", "=")]:
        raise Unknown(f"a ghost item: {text_at(tokens, i)}")
    braces = skip_space(tokens, sign + 1)
    if tokens[braces] != ("other", "{"):
        raise Unknown(f"a ghost item: {text_at(tokens, i)}")
    end = skip_space(tokens, group_end(tokens, braces))
    if tokens[end] not in [("other", ";"), ("other", ",")]:
        raise Unknown(f"a ghost item that does not end: {text_at(tokens, i)}")
    return end + 1


def without_pub(kept):
    """What was kept, without a `pub` of the ghost field that comes next, and without its docs."""
    text = re.sub(r"\bpub\s*$", "", "".join(kept))
    while True:
        shorter = re.sub(r"\n[ \t]*///[^\n]*\s*$", "\n", text)
        if shorter == text:
            return [text]
        text = shorter


def attribute_name(tokens, i):
    """The name of the attribute `#[NAME ..]` or `#![NAME ..]` at `i`, and where its `[` is."""
    at = i + 1
    if tokens[at] == ("other", "!"):
        at += 1
    return tokens[at + 1][1], at


def without_contracts(text):
    tokens, kept, i = tokens_of(text), [], 0
    while i < len(tokens):
        kind, word = tokens[i]
        if kind == "word" and word in ("requires", "ensures"):
            while kept[-1].isspace():
                kept.pop()
            i = clause_end(tokens, i)
        elif kind == "word" and word == "ghost":
            if tokens[skip_space(tokens, i + 1)] != ("word", "use"):
                kept = without_pub(kept)
            i = ghost_end(tokens, i)
        elif (kind, word) == ("other", "#"):
            name, bracket = attribute_name(tokens, i)
            end = group_end(tokens, bracket)
            if name in KEPT_ATTRIBUTES:
                kept.append("".join(part for _, part in tokens[i:end]))
                i = end
            elif name in PROVER_ATTRIBUTES:
                i = skip_space(tokens, end)
            else:
                raise Unknown(f"an attribute: {text_at(tokens, i)}")
        else:
            kept.append(word)
            i += 1
    return tidy("".join(kept).lstrip())


def tidy(text):
    """The text without the empty lines that removed items leave."""
    text = re.sub(r"[ \t]+\n", "\n", text)
    text = re.sub(r"\n{3,}", "\n\n", text)
    text = re.sub(r"\{\n\n+", "{\n", text)
    text = re.sub(r"\n\n+([ \t]*\})", r"\n\1", text)
    return re.sub(r"\n[ \t]*;", ";", text)
