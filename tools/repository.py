"""What ./build and ./test share: the crates of crates.txt, and how a command ends and reports."""
import os
import pathlib
import re
import shutil
import signal
import subprocess
import sys
import time

ROOT = pathlib.Path(__file__).resolve().parent.parent
OUT = ROOT / "out"
PARTS = ("src", "specs", "proofs")
NO_RT = (
    "rt is not on the PATH: add the folder bin of the Rattle kit "
    '(README.md, "Try it")'
)


class Failed(Exception):
    """Why a command cannot go on, in one line."""


class Crate:
    def __init__(self, line):
        head, _, below = line.partition("#")[0].partition(":")
        self.name, *words = head.split()
        self.is_library = "staticlib" in words
        self.folder = ROOT / "crates" / self.name
        self.is_program = (self.folder / "src" / "main.rt").exists()
        self.below = below.split()

    @property
    def product(self):
        """The file that building it makes, in its own folder out/."""
        return f"lib{self.name}.a" if self.is_library else self.name

    def sources(self):
        return [f"crates/{self.name}/{it}" for it in PARTS if (self.folder / it).is_dir()]


class Progress:
    """One line that is overwritten on a terminal, and elsewhere a line for each thing done."""

    def __init__(self, command):
        self.command, self.began = command, time.monotonic()
        self.is_terminal = sys.stderr.isatty()

    def elapsed(self):
        minutes, seconds = divmod(int(time.monotonic() - self.began), 60)
        return f"{minutes}:{seconds:02}"

    def at(self, text):
        if self.is_terminal:
            line = f"{self.command}: {text}, {self.elapsed()}"
            columns = max(20, shutil.get_terminal_size().columns - 1)
            print(f"\r\033[K{line[:columns]}", end="", file=sys.stderr, flush=True)

    def clear(self):
        if self.is_terminal:
            print("\r\033[K", end="", file=sys.stderr, flush=True)

    def done(self, text):
        self.clear()
        if not self.is_terminal:
            line = f"{self.command}: {text}, {self.elapsed()}"
            print(line, file=sys.stderr, flush=True)


def crates():
    lines = (ROOT / "crates.txt").read_text(encoding="utf-8").splitlines()
    found = [Crate(it) for it in lines if it.partition("#")[0].strip()]
    return {it.name: it for it in found}


def bottom_up(named, wanted):
    """The wanted crates and all below them, each after those that it uses."""
    found = {}

    def add(name):
        if name in named and name not in found:
            for it in named[name].below:
                add(it)
            found[name] = named[name]

    for it in wanted:
        add(it.name)
    return list(found.values())


def verdict_of(crate):
    """The file that has how the check of a crate ended."""
    return OUT / f"{crate.name}.verdict"


def keep_verdict(kept, said):
    """Keeps in a file how the check of a crate ended, for tools/statement, if the kit said so: it
    does not where nothing has changed."""
    lines = re.findall(r"(?m)^(?:axioms|logic=proved) .*", said)
    if lines and lines[-1].startswith("logic=proved"):
        kept.write_text("".join(f"{it}\n" for it in lines), encoding="utf-8")


def free_megabytes(folder=ROOT):
    return shutil.disk_usage(folder).free // 1_000_000


def stop_without_rt():
    if not shutil.which("rt"):
        raise Failed(NO_RT)


def tell_kit(command, *words):
    """Prints a line if the kit is another one than the tree was proved with."""
    subprocess.run([ROOT / "tools" / "kit", command, *words])


def interrupt(*_):
    raise KeyboardInterrupt


def run(command, about, work, interrupted):
    """Does the work with the words of the command, and returns the status of the command."""
    if {"-h", "--help"} & {*sys.argv[1:]}:
        print(about.strip())
        return 0
    for it in (signal.SIGINT, signal.SIGTERM, signal.SIGHUP):
        if signal.getsignal(it) is not signal.SIG_IGN:
            signal.signal(it, interrupt)
    try:
        return work(sys.argv[1:])
    except Failed as why:
        print(f"{command}: {why}", file=sys.stderr)
    except OSError as why:
        print(f"{command}: {why} ({free_megabytes()} MB are free in {ROOT})", file=sys.stderr)
    except KeyboardInterrupt:
        cleared = "\r\033[K" * sys.stderr.isatty()
        print(f"{cleared}{command}: {interrupted}", file=sys.stderr)
    return 1
