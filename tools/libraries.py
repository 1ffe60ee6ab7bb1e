"""The libraries that mutants, archives and modules are made over: as `rt ci` keeps them, or, where
it lacks one, as `rt check` builds them. What is kept goes by a digest of all it was made of."""
import contextlib
import json
import os
import pathlib
import re
import tempfile
import threading

ROOT = pathlib.Path(__file__).resolve().parent.parent


def copy_crates(rt, folder):
    """Copies the crates into a new folder, without what was made of them: the copies by name."""
    rt.copy_crates(str(ROOT), str(folder))
    # (by which the kit knows the top of a repository)
    os.mkdir(f"{folder}/.git")
    rt.Crate.allowed, rt.rtlib.Crate = rt.handles_of(str(ROOT)), rt.Crate
    return {it.name: it for it in rt.rtlib.crates_below(str(folder))}


class Libraries:
    """The libraries of a copy of the repository, and crates above them, where they are built."""

    def __init__(self, rt, crates, wanted, above=()):
        self.rt, self.lock, kept = rt, threading.Lock(), rt.Kept(crates.values())
        # (bottom up, and before the first check: none is given while another is checked over it)
        given = {it.name for it in crates.values()
                 if it.name in {*wanted, *above} and self.is_given(it, kept)}
        are_given = given.issuperset(wanted)
        self.ready = dict.fromkeys(wanted, True) if are_given else {}
        if not are_given:
            # (what is built in this copy is gone with it)
            rt.share_work(False)
            rt.offer = lambda *_: None

    def is_given(self, crate, kept):
        """Whether `rt ci` proved the crate, as it is, and what it built of it is here."""
        os.makedirs(f"{crate.folder}/out", exist_ok=True)
        is_given = kept.give(crate, False, kept.key(crate))
        kept.is_built(crate)
        return is_given

    def are_ready_below(self, crate):
        with self.lock:
            return all([self.is_ready(it) for it in crate.below()])

    def is_ready(self, library):
        if library.name not in self.ready:
            with open(os.devnull, "w", encoding="utf-8") as library.out:
                self.ready[library.name] = not library.build_rlib(["--jobs", "2"], anew=False)
        return self.ready[library.name]


# What the compiler makes of a trait, a type or a closure, and proves itself.
MADE = re.compile(r"\+decl$|Destruct|\+Fn\w*::")


def functions_of(crate):
    """The functions of a library, if it is built: by the routines that it has."""
    built = pathlib.Path(crate.folder, "out", "rlib", f"{crate.name}.rlib", "toolchain", "mir.json")
    routines = json.loads(built.read_text(encoding="utf-8")) if built.exists() else []
    names = [routine[0].removeprefix(f"{crate.name}::") for routine in routines]
    return {it for it in names if not MADE.search(it)}


def kept_of(name):
    """The folder in which tools/archive keeps what it proved of a crate."""
    return ROOT / "out" / "kept" / name


@contextlib.contextmanager
def crate_over_libraries(rt, name):
    """A crate in a copy of the repository, over its libraries."""
    rt.rtlib.guarded()
    with tempfile.TemporaryDirectory() as folder:
        crates = copy_crates(rt, f"{folder}/repo")
        crate = crates[name]
        if not Libraries(rt, crates, [it.name for it in crate.below()]).are_ready_below(crate):
            raise OSError(f"a library below {name} is not proved")
        yield crate
