"""A text of Rattle as tokens. Joined again they are the text."""
import re

from erasure import Unknown

TOKEN = re.compile(
    r"""(?P<comment>//[^\n]*)
    | (?P<string>b?"(?:[^"\\]|\\.)*")
    | (?P<char>b?'(?:[^'\\\n]|\\(?:x[0-9a-fA-F]{2}|u\{[0-9a-fA-F_]+\}|.))')
    | (?P<word>[^\W\d]\w*)
    | (?P<space>\s+)
    | (?P<other>.)""",
    re.X | re.S,
)
CLOSERS = {"{": "}", "[": "]", "(": ")"}


def tokens_of(text):
    """The tokens, each as its kind and its text."""
    return [(match.lastgroup, match.group()) for match in TOKEN.finditer(text)]


def skip_space(tokens, i):
    """The index of the first token from `i` on that is no space."""
    while i < len(tokens) and tokens[i][0] == "space":
        i += 1
    return i


def group_end(tokens, start):
    """The index after the group that begins at `start`, whose brackets are balanced."""
    opener = tokens[start][1]
    closer, depth = CLOSERS[opener], 0
    for i in range(start, len(tokens)):
        if tokens[i] == ("other", opener):
            depth += 1
        elif tokens[i] == ("other", closer):
            depth -= 1
            if depth == 0:
                return i + 1
    raise Unknown(f"a group that does not end: {text_at(tokens, start)}")


def text_at(tokens, i):
    """A few words from `i` on, for a message."""
    return " ".join("".join(text for _, text in tokens[i : i + 12]).split())
