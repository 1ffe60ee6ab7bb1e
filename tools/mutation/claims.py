"""The clauses that docs/GUARANTEES.md names, and the rows of which no mutant names any.

A table of that page with a column `Clause` names in each row clauses of functions:

    `leads`, `back` of `Relativizer::relativize`; `page` of `links::page`

A function without clauses before it has one clause, which has no name. A cell `the same` is that of
the row above. A row is one claim, so a mutant of one of its clauses is enough. A law has no body
that could be wrong, so it needs no mutant.
"""
import re

from .mutant import ONLY_CLAUSE, Clause

PAGE = "docs/GUARANTEES.md"
NAME = r"`([^`]+)`"
NAMED = re.compile(rf"(?:({NAME}(?:, {NAME})*) of )?(law )?{NAME}")


def cells_of(text):
    """The cells of the columns `Clause`, each with its line."""
    column = None
    for line in text.split("\n"):
        cells = [it.strip() for it in line.strip("|").split("|")] if line.startswith("|") else []
        if not cells:
            column = None
        elif column is None:
            column = next((at for at, it in enumerate(cells) if it.startswith("Clause")), len(cells))
        elif column < len(cells) and not set(line) <= set("|- "):
            yield line, cells[column]


def clauses_in(cell):
    """The clauses that a cell names, but for laws, or None if it cannot be read."""
    found = []
    for part in cell.split("; ") if cell != "the same" else []:
        read = NAMED.fullmatch(part)
        if not read:
            return None
        if not read[4]:
            names = re.findall(NAME, read[1] or f"`{ONLY_CLAUSE}`")
            found += [Clause(re.findall(NAME, part)[-1], it) for it in names]
    return found


def faults(root, mutants):
    """What is wrong with the page: rows that cannot be read, and rows that no mutant shows."""
    turned = {(it.function, clause.name) for it in mutants for clause in it.clauses}
    for line, cell in cells_of((root / PAGE).read_text(encoding="utf-8")):
        claims = clauses_in(cell)
        shown = [it for it in claims or [] for function, name in turned
                 if name == it.name and it.is_of(function)]
        if claims is None:
            yield f"{PAGE}: the row cannot be read: {line}"
        elif claims and not shown:
            yield f"{PAGE}: no mutant names a clause of the row: {line}"
