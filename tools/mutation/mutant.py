"""A mutant as its file says it: what it turns, what shows it, and the clauses at which it falls."""
import re
from typing import NamedTuple

# The goal of a function's only clause, which has no name.
ONLY_CLAUSE = "returns"
CLAUSE = re.compile(r"(?:(\S+(?:, \S+)*) of )?(\S+)")
SHOWN = re.compile(r"(.+?) -> ?(.*), turned ?(.*)")
NOTHING_SHOWN = re.compile(r"nothing, since \S.*")


class Clause(NamedTuple):
    """A clause of a function, by the names that a reader uses."""

    function: str
    name: str

    def __str__(self):
        return self.function if self.name == ONLY_CLAUSE else f"{self.name} of {self.function}"

    def is_of(self, function):
        """Whether it is of this function, which a check names by its modules and the whole type."""
        words = self.function.split("::")
        whole = function.split("::")[-len(words) :]
        pairs = zip(words, whole)
        return len(words) == len(whole) and all(it == one or one.startswith(f"{it}+") for it, one in pairs)


def clauses_of(text):
    """The clauses that a text such as `text, back of Reference::parse` names, or None."""
    read = CLAUSE.fullmatch(text)
    return read and [Clause(read[2], it) for it in (read[1] or ONLY_CLAUSE).split(", ")]


class Mutant:
    def __init__(self, crate, path):
        self.crate, self.name = crate, f"{crate.name}/{path.stem}"
        self.text = path.read_text(encoding="utf-8")
        self.is_edit = path.suffix == ".edit"
        self.function, self.file = self.word("function"), self.word("file")
        self.clauses = clauses_of(self.word("clause")) or []
        # A wrong definition falls at lemmas on it, by which the function is not proved.
        self.lemmas = set(self.values("lemma"))
        self.is_of_definition = self.file.startswith("specs/")
        # Of each of these a check tries one mutant.
        self.turned = self.lemmas or {self.function}
        # Whether it has to be tried alone, how often it was tried, and what that came to.
        self.is_alone, self.tries = False, 0
        self.is_rejected, self.why = None, ""

    def values(self, key):
        head = f"{key}: "
        return [it[len(head) :].strip() for it in self.text.split("\n") if it.startswith(head)]

    def word(self, key):
        return next(iter(self.values(key)), "")

    def shown(self):
        """The lines `shows:` as words, output and output of the mutant; None if one cannot be read."""
        lines = [it for it in self.values("shows") if not NOTHING_SHOWN.fullmatch(it)]
        found = [SHOWN.fullmatch(it) for it in lines]
        return None if None in found else [it.groups() for it in found]

    def faults(self, edited):
        """What is wrong with the file; `edited` is the kit's own reader of such files."""
        if not (self.is_edit and re.match(r"# \S", self.text)):
            yield "the file is no .edit that begins with a line `# ` on what it turns"
        if not self.function:
            yield "it has no line `function: `"
        if not self.clauses or not all(it.is_of(self.function) for it in self.clauses):
            yield "its line `clause: ` names no clause of its function"
        if bool(self.lemmas) != self.is_of_definition:
            yield "it names lemmas exactly if it turns a definition"
        if not self.values("shows") or self.shown() is None:
            yield "it has no line `shows: INPUT -> OUTPUT, turned OUTPUT`"
        elif any(output == turned for _, output, turned in self.shown()):
            yield "a line `shows: ` shows no difference"
        why = edited(self.text, self.crate.folder)[1]
        if why:
            yield why

    def end(self, is_rejected, why):
        self.is_rejected, self.why = is_rejected, why

    def again(self, is_alone):
        """Has it tried once more, with other mutants at most twice."""
        self.tries += 1
        self.is_alone = is_alone or self.tries > 1

    def line(self, folder):
        """The line that its first pair changes. No mutant moves a line."""
        with open(f"{folder}/{self.file}", encoding="utf-8") as it:
            return it.read().partition(self.word_of_pair())[0].count("\n") + 1

    def word_of_pair(self):
        return next(it[5:] for it in self.text.split("\n") if it.startswith("old: "))
