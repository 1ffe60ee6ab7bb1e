"""Tries mutants in checks of their functions, and holds each to the clauses that it names.

A check says of each function by itself whether it is proved, and a caller rests on the contract
alone. So one check tries mutants of different functions, and takes the others by their statements:
each has a hole for its proof, and no body, so that the check reads nothing of what that calls.
"""
import collections
import contextlib
import os
import pathlib
import re
import shutil
import subprocess
import tempfile

from libraries import functions_of

from .mutant import ONLY_CLAUSE

# How many mutants share a check.
MOST = 48
NAME = r"`([^`]+)`"
# What is said of an answer that names what the mutant took away: it tells nothing of the goal.
TAKEN_AWAY = re.compile(r"has no field|is not in scope|has no `|was not admitted|was rejected")
# What is said of a file that a hole has broken.
BROKEN = re.compile(r"\./proofs/\S+: error: expected ")
THROUGH_ANOTHER = re.compile(r"(it calls|it passes|a call of)\b.*not proved")
# What ends in a fact is a lemma, as `name : (n : ℕ) → n ≤ n + 1`.
LEMMA = re.compile(r"(?:pub )?(\S+) :\s(?:.*→)?([^→]*[≡≢≤<⊥↔][^→]*|\s*(?:Is|Are|Has|All|Lacks?|If)[A-Z][^→]*)", re.S)
FUNCTION = re.compile(r' *(?:pub(?:\([^)]*\))? )?(const )?(?:unsafe )?(?:extern "C" )?fn (\w+)')

# A proof that is not looked at.
HOLE = """use Rattle.{module}.Statement.{{statement}}

pub {function}_spec : {{M : Type 1}} → statement M
{function}_spec = ?
"""


class Room:
    """A copy of a crate in a folder, and the work that the first check of it keeps there."""

    def __init__(self, rt, crate, folder):
        self.rt, self.crate, self.checks, self.seconds = rt, crate, 0, 0.0
        self.sources, self.kept = pathlib.Path(folder, "crate"), pathlib.Path(folder, "kept")
        for part in rt.rtlib.PARTS:
            if os.path.isdir(f"{crate.folder}/{part}"):
                shutil.copytree(f"{crate.folder}/{part}", self.sources / part)

    def beside(self, folder):
        """Another copy, over what this one keeps."""
        other = Room(self.rt, self.crate, folder)
        other.kept = self.kept
        return other

    @contextlib.contextmanager
    def written(self, texts):
        """Writes these texts in place of the crate's own, for as long as they are needed."""
        for path, text in texts.items():
            (self.sources / path).write_text(text, encoding="utf-8")
        try:
            yield
        finally:
            for path in texts:
                shutil.copyfile(f"{self.crate.folder}/{path}", self.sources / path)

    def applied(self, mutant, texts):
        """The texts of the files that the mutant changes, over these, or why it cannot be applied."""
        with self.written(texts):
            return self.rt.edited(mutant.text, str(self.sources))

    @contextlib.contextmanager
    def going_on(self):
        """What is kept, if nothing is yet, and else a copy: no check takes what a later one left."""
        if not self.kept.exists():
            yield self.kept
            return
        with tempfile.TemporaryDirectory(dir=self.sources.parent) as folder:
            self.rt.linked(self.kept, f"{folder}/kept")
            yield f"{folder}/kept"

    def take_as_stated(self, functions):
        """Puts a hole in the place of the proof of each other function."""
        proofs = self.sources / "proofs"
        on_file = [it for name in ("Answers", "Invariants") for it in proofs.rglob(f"{name}.antt")]
        proved = {"::".join(it.parent.relative_to(proofs).parts) for it in on_file}
        for function in (proved | functions_of(self.crate)) - functions:
            words = function.split("::")
            folder = proofs.joinpath(*words)
            folder.mkdir(parents=True, exist_ok=True)
            for name in ("Answers", "Invariants"):
                (folder / f"{name}.antt").unlink(missing_ok=True)
            module = ".".join([self.crate.name, "proofs", *words])
            hole = HOLE.format(module=module, function=words[-1])
            (folder / "Proof.antt").write_text(hole, encoding="utf-8")

    def assume_lemmas(self):
        """Puts a hole in the place of the proof of each lemma."""
        for it in self.sources.glob("proofs/**/*.antt"):
            if it.name not in ("Answers.antt", "Invariants.antt", "Proof.antt"):
                it.write_text(assumed(it.read_text(encoding="utf-8")), encoding="utf-8")

    def without_bodies(self, functions, texts):
        """The texts of all sources, in which no other function with a contract has its body."""
        names = {it.rpartition("::")[2] for it in functions}
        files = (str(it.relative_to(self.sources)) for it in self.sources.glob("src/**/*.rt"))
        return texts | {it: stated(texts.get(it) or (self.sources / it).read_text(), names) for it in files}

    def check(self, functions, texts):
        """The lines that a check of these functions prints; the last begins `only=` if it read them all."""
        self.take_as_stated(functions)
        only = [word for it in sorted(functions) for word in ("--only", it)]
        words = ["check", *self.crate.words(["--jobs", "1", *only], keeps=False), "--allow-holes",
                 "--incremental"]
        with self.written(self.without_bodies(functions, texts)):
            return self.said_by(words)

    def said_by(self, words):
        """The lines that the prover printed, over what is kept."""
        command = ["nice", *self.rt.rtlib.guarded(), self.rt.rtlib.RATTLE, *words]
        with self.going_on() as kept, tempfile.TemporaryFile("w+", errors="replace") as said:
            how = {"cwd": self.sources, "stdin": subprocess.DEVNULL, "stdout": said}
            began = subprocess.Popen([*command, str(kept)], stderr=subprocess.STDOUT, **how)
            _, status, used = os.wait4(began.pid, 0)
            began.returncode = os.waitstatus_to_exitcode(status)
            said.seek(0)
            lines = said.read().rstrip("\n").split("\n")
        self.checks += 1
        self.seconds += used.ru_utime + used.ru_stime
        return lines


def assumed(text):
    """A file of `proofs` in which each lemma has a hole for its proof."""
    found, name = [], None
    for part in re.split(r"\n(?=[^]\s)}])", text):
        if name and part.startswith((f"{name} ", "unfolding ")):
            continue
        head = LEMMA.fullmatch(part.rstrip())
        name = head and head[1]
        found += [part.rstrip(), f"{name} = ?\n"] if name else [part]
    return "\n".join(found)


def stated(text, functions):
    """A source in which no function with a contract, but for these, has its body: `rt fmt` writes it
    between lines `{` and `}` of their own. Constants need those of a `const fn`."""
    found, name, has_contract, lines = [], None, False, iter(text.split("\n"))
    for line in lines:
        found.append(line)
        if head := FUNCTION.match(line):
            name, has_contract = head[2] if not head[1] else None, False
        elif line.endswith(";"):
            name = None
        elif line.lstrip().startswith("ensures"):
            has_contract = True
        elif name and has_contract and line.strip() == "{" and name not in functions:
            found += [f"{line[:-1]}    unreachable!()", next(it for it in lines if it == f"{line[:-1]}}}")]
    return "\n".join(found)


def batches_of(room, mutants):
    """Mutants of different functions to try in one check each, and the texts that they make."""
    left = list(mutants)
    while left:
        of_each = collections.Counter(name for it in left for name in it.turned)
        most = {it: max(of_each[name] for name in it.turned) for it in left}
        left.sort(key=lambda it: (it.is_alone, it.tries, -most[it], it.name))
        checks = max(*of_each.values(), -(-len(left) // MOST))
        batch, texts = next_batch(room, left, -(-len(left) // checks))
        left = [it for it in left if it.is_rejected is None and it not in batch]
        if batch:
            yield batch, texts


def next_batch(room, left, most):
    batch, texts = [], {}
    for it in left:
        if len(batch) == most or batch and batch[0].is_alone:
            break
        if batch and it.is_alone or any(it.turned & other.turned for other in batch):
            continue
        changed, why = room.applied(it, texts)
        if not why:
            texts.update(changed)
            batch.append(it)
        elif not texts:
            it.end(False, f"cannot be applied: {why}")
    return batch, texts


class Judge:
    """Tries the mutants of a batch in a room."""

    def __init__(self, room):
        self.room, self.rt, self.crate = room, room.rt, room.crate

    def judge(self, batch, texts):
        # (a wrong definition falls at lemmas)
        if not any(it.is_of_definition for it in batch):
            self.room.assume_lemmas()
        lines = self.room.check({it.function for it in batch}, texts)
        unread = [it for it in lines if self.rt.unread(it, texts) or BROKEN.match(it)]
        if lines[-1].startswith("only=") and not unread:
            for it in batch:
                self.read_verdict(it, lines, batch)
        elif len(batch) == 1:
            wrong = next((it for it in [*unread, *lines] if re.search(r"error|rattle:", it)), lines[-1])
            batch[0].end(False, f"the prover did not read it: {wrong}")
        else:
            self.set_apart(batch, lines)

    def set_apart(self, batch, lines):
        """Has each mutant that is nearest to a line that could not be read tried alone."""
        found = False
        for line in lines:
            at = re.match(r"(?:\./)?(\S+?):(\d+):\d+: error", line)
            near = [it for it in batch if at and it.file == at[1]]
            if near:
                min(near, key=lambda it: abs(it.line(self.crate.folder) - int(at[2]))).again(True)
                found = True
        for it in batch * (not found):
            it.again(True)

    def read_verdict(self, mutant, lines, batch):
        head = f"fn {self.crate.name}::{mutant.function}: "
        said = next((it[len(head) :] for it in lines if it.startswith(head)), "the check names no such function")
        is_rejected = re.match(r"not proved|no proof", said)
        if mutant.is_of_definition:
            wanted = mutant.lemmas
            goals = lemmas(lines).difference(*(it.lemmas for it in batch if it != mutant))
        else:
            wanted, goals = {it.name for it in mutant.clauses}, self.goals(mutant, lines)
        if is_rejected and goals == wanted:
            mutant.end(True, ", ".join(sorted(goals)))
        elif len(batch) > 1 and (mutant.is_of_definition or not (is_rejected and goals)):
            # (another mutant, or a full machine, may be the reason)
            mutant.again(True)
        elif not is_rejected:
            mutant.end(False, f"NOT REJECTED: {said}")
        elif not goals and THROUGH_ANOTHER.search(said):
            mutant.end(False, f"rejected only through another function: {said}")
        else:
            found = ", ".join(sorted(goals)) or f"no goal of its own: {said}"
            mutant.end(False, f"REJECTED ELSEWHERE: at {found}, and not at {', '.join(sorted(wanted))}")

    def goals(self, mutant, lines):
        """The goals of its function that a check says are not proved, each clause by its name."""
        own = f"./proofs/{mutant.function.replace('::', '/')}/"
        found, notes = set(), []
        for it in messages_of(lines):
            if it.startswith(own) and not TAKEN_AWAY.search(it):
                found.update(re.findall(r"^\S+: error: `([^`]+)`:", it))
            # (the notes on a function come before the line that says whether it is proved)
            elif it.startswith(f"fn {self.crate.name}::{mutant.function}: "):
                listed = re.search(r"`search` did not prove ((?:`[^`]+`(?:, | and )?)+)", it)
                found.update(notes, re.findall(NAME, listed[1] if listed else ""))
            if it.startswith("fn "):
                notes = []
            elif it.startswith("note: src/"):
                notes += re.findall(r"\(`([^`]+)`\)", it)
        return {clause_of(it) for it in found}


def lemmas(lines):
    """The lemmas that a check rejects, but for those that rest on rejected ones."""
    found = (re.match(r"(?:\./)?proofs/(\S+)\.antt:\d+:\d+: error: `([^`]+)`:", it)
             for it in messages_of(lines) if not TAKEN_AWAY.search(it))
    return {f"{it[1].replace('/', '.')}.{it[2]}" for it in found if it}


def messages_of(lines):
    """What a check says, each with the lines after it that belong to it."""
    found = []
    for line in lines:
        if line.startswith("  ") and found:
            found[-1] += line
        else:
            found.append(line)
    return found


def clause_of(goal):
    """The clause that a goal of an `ensures` is of, or another goal as it is named."""
    is_return = re.match(ONLY_CLAUSE + r"\b", goal)
    return (goal.partition("-clause-")[2] or ONLY_CLAUSE) if is_return else goal
