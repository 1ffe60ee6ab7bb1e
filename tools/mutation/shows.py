"""Runs the lines `shows:` of mutants, unproved, and compares what is printed with what they say.

    shows: normalize iri http://a/%2F -> http://a/%2F, turned http://a//

The words, quoted as in a shell, are a command of `uritool`, or `row` and a row of `vectors` without
its expected words. What other words show, no program of the repository can say: those lines are
counted. An output is all that the program prints, errors too, with `\\n` between its lines.
"""
import concurrent.futures
import pathlib
import re
import shlex
import subprocess
import tempfile

from libraries import copy_crates

COMMANDS = {"parse", "normalize", "resolve", "links", "mend"}
PROGRAMS = {"uritool", "vectors"}
# The expected word that no row has, so that each row says what it got.
NEVER = "never"
GOT = re.compile(rf"(?m)^fail \S+: expected {NEVER}, got (.*)$")
LIMITS = ["--steps", "1000", "--seconds", "5"]
STOPPED = "stopped"


def program_of(words):
    """The program that takes the words of a line, if there is one."""
    return "uritool" if words[0] in COMMANDS else "vectors" if words[0] == "row" else None


def cases_of(mutant):
    """The lines of a mutant that a program takes, by the program: words, output, output turned."""
    found = {}
    for text, output, turned in mutant.shown():
        words = shlex.split(text)
        found.setdefault(program_of(words), []).append((words, output, turned))
    return found


def visible(text):
    """A text on one line, with what cannot be seen by its number."""
    text = text.replace("\n", "\\n")
    return "".join(it if it.isprintable() else f"\\u{{{ord(it):X}}}" for it in text)


def outputs(rt, program, lines, texts):
    """What a program over copies of the crates with these texts prints for each of these words."""
    if not lines:
        return []
    with tempfile.TemporaryDirectory(prefix="shows-") as folder:
        crates, given = pathlib.Path(folder, "repo", "crates"), pathlib.Path(folder, "given")
        copy_crates(rt, crates.parent)
        given.mkdir()
        for path, text in texts.items():
            (crates / path).write_text(text, encoding="utf-8")
        for at, words in enumerate(lines):
            is_row = program == "vectors"
            text = f"{' '.join(map(field, words[1:]))} -> {NEVER}\n" if is_row else ""
            (given / f"{at:03}").write_text(text, encoding="utf-8")
            arguments = ["{}"] if is_row else words
            (given / f"{at:03}.args").write_text("\n".join(arguments), encoding="utf-8")
        ran = subprocess.run(
            ["rt", "try", *LIMITS, "--cases", given], cwd=crates / program, capture_output=True,
            stdin=subprocess.DEVNULL, encoding="utf-8", errors="replace",
        )
    if not re.search(r"^cases=\d+ ", ran.stderr, re.MULTILINE):
        return [f"not made: {visible(ran.stderr[-200:])}"] * len(lines)
    parts = re.split(r"^== (?=\d+\n)", ran.stdout, flags=re.MULTILINE)[1:]
    said = dict(it.split("\n", 1) for it in parts)
    return [printed(program, said.get(f"{at:03}")) for at in range(len(lines))]


def printed(program, text):
    if text is None:
        return STOPPED
    got = GOT.search(text) if program == "vectors" else None
    return got[1] if got else visible(text.rstrip("\n"))


def field(word):
    return word.replace("\\", "\\u{5C}").replace(" ", "\\s") or '""'


class Shows:
    """What the programs print for the lines of these mutants: as they are, and with each mutant."""

    def __init__(self, rt, mutants):
        self.rt = rt
        self.cases = {it: cases_of(it) for it in mutants}
        self.plain = {}
        for program in PROGRAMS:
            lines = [it[0] for cases in self.cases.values() for it in cases.get(program, [])]
            self.plain[program] = dict(zip(map(tuple, lines), outputs(rt, program, lines, {})))

    def faults(self, mutant):
        """What the lines of a mutant say that is not printed."""
        texts, why = self.rt.edited(mutant.text, mutant.crate.folder)
        if why:
            return [why]
        texts = {f"{mutant.crate.name}/{path}": it for path, it in texts.items()}
        told = []
        for program in PROGRAMS & self.cases[mutant].keys():
            lines = self.cases[mutant][program]
            got = outputs(self.rt, program, [it[0] for it in lines], texts)
            for (words, output, turned), one in zip(lines, got):
                plain = self.plain[program][tuple(words)]
                if (plain, one) != (output, turned):
                    told.append(f"`{shlex.join(words)}` prints `{plain}`, turned `{one}`")
        return told


def show(rt, mutants):
    """Runs the lines of these mutants, and returns the status."""
    shows, failed = Shows(rt, mutants), 0
    with concurrent.futures.ThreadPoolExecutor(rt.processors()) as pool:
        for mutant, told in zip(mutants, pool.map(shows.faults, mutants)):
            failed += bool(told)
            print(*(f"shows {mutant.name}: {it}\n" for it in told), sep="", end="", flush=True)
    every = [program for it in shows.cases.values() for program, lines in it.items() for _ in lines]
    others = every.count(None)
    print(f"shows: {len(every) - others} lines were run, {others} are of other calls; {failed} mutants "
          "print otherwise")
    return 1 if failed else 0
