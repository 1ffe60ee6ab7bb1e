"""Where the programs of pages and of doc comments are from."""
import functools

from api_items import ROOT

# The crates that examples of doc comments come from: all are proved.
EXAMPLES = (
    "cookbook", "obligations", "uri_commands", "uri_query", "uri_idna", "fluent_uri_c",
)


@functools.cache
def examples():
    """The files that examples come from, each with its lines."""
    paths = [it for name in EXAMPLES for it in (ROOT / "crates" / name / "src").rglob("*.rt")]
    return [(it.relative_to(ROOT), it.read_text(encoding="utf-8").splitlines())
            for it in sorted(paths)]


def place_of(program, lines):
    """The first line of a source from which the lines of a program follow one another, all as deep
    as one another there, or None."""
    wanted = [it.strip() for it in program]
    for at in range(len(lines) - len(wanted) + 1):
        part = lines[at : at + len(wanted)]
        if [it.strip() for it in part] == wanted:
            deeper = {len(b) - len(b.lstrip()) - len(a) + len(a.lstrip())
                      for a, b in zip(program, part) if a}
            if len(deeper) == 1:
                return at
    return None
