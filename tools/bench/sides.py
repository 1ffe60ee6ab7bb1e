"""How the libraries are built for a measurement, counted under callgrind, and timed."""
import os
import pathlib
import re
import shutil
import subprocess
import sys

BENCH = pathlib.Path(__file__).resolve().parent
ROOT = BENCH.parent.parent
OUT = ROOT / "out" / "bench"
# So many rounds one start of the programs has.
STARTED = 5
# The tables that were printed.
PRINTED = []


def run(*words, **how):
    subprocess.run([*map(str, words)], check=True, **how)


def built_original(given):
    """Builds the original's library of a copy, so that cargo writes nothing beside the sources."""
    crate = OUT / "original-crate"
    shutil.copytree(BENCH / "original", crate, dirs_exist_ok=True)
    words = ["cargo", "build", "--quiet", "--release"]
    if given:
        words += ["--offline", "--config", f'patch.crates-io.fluent-uri.path="{given.resolve()}"']
    run(*words, cwd=crate, env={**os.environ, "CARGO_TARGET_DIR": str(OUT / "target")})
    return [OUT / "target" / "release" / "libbench_original.a"]


def built_lines(given):
    """`urilines`, and the original in a loop of the same form."""
    built = [ROOT / "out" / "urilines", ROOT / "crates" / "urilines" / "out" / "urilines"]
    port = next((it for it in built if it.exists()), None)
    if not port:
        sys.exit("urilines is not built; ./build urilines makes it")
    OUT.mkdir(parents=True, exist_ok=True)
    return port, built_original(given)[0].with_name("lines")


def built_port():
    crate = ROOT / "crates" / "uri_bench"
    run(ROOT / "tools" / "archive", crate.name, stdout=sys.stderr)
    page = subprocess.run(["rt", "doc"], check=True, capture_output=True, text=True).stdout
    kit = pathlib.Path(page.strip()).parent
    return [crate / "out" / "liburi_bench.a", kit / "c" / "liblibc_c.a"]


def built_limit():
    """What no call can cost less than (`limits.c`)."""
    made = OUT / "limits.o"
    run(shutil.which("clang") or "cc", "-O2", "-mssse3", "-c", BENCH / "limits.c", "-o", made)
    return [made]


class Side:
    """The programs over one of the libraries."""

    def __init__(self, name, libraries):
        self.program, self.clock = OUT / name, [OUT / f"{name}-clock"]
        asked = ["malloc", "calloc", "realloc", "posix_memalign"]
        wraps = [f"-Wl,--wrap={it}" for it in asked]
        run("cc", "-O2", BENCH / "main.c", *libraries, *wraps, "-lm", "-o", self.program)
        run("cc", "-O2", BENCH / "clock.c", *libraries, "-lm", "-o", *self.clock)

    def counts(self, rows):
        """Of each row the instructions and the heap requests of a pass over its texts, how many
        texts are accepted, and how long their results are."""
        if not rows:
            return []
        asked, dumps = written(rows), self.program.with_suffix(".callgrind")
        for old in OUT.glob(f"{dumps.name}*"):
            old.unlink()
        words = ["valgrind", "--quiet", "--tool=callgrind", "--combine-dumps=yes"]
        words += [f"--callgrind-out-file={dumps}", self.program, asked]
        ran = subprocess.run(words, check=True, capture_output=True, text=True)
        counts, name = {"few": [], "many": []}, ""
        for line in dumps.read_text(encoding="utf-8").split("\n"):
            if found := re.fullmatch("desc: Trigger: Client Request: (few|many)", line):
                name = found[1]
            elif name and line.startswith(("summary: ", "totals: ")):
                counts[name].append(int(line.split()[1]))
                name = ""
        told = [[*map(int, line.split())] for line in ran.stdout.splitlines()]
        few, many = counts.values()
        if not len(few) == len(many) == len(told) == len(rows):
            sys.exit(f"bench: {len(rows)} rows, but {len(few)}, {len(many)}, {len(told)} counts")
        passes = [row.many - row.few for row in rows]
        return [
            ((more - less) / by, requests / by, *results)
            for less, more, (requests, *results), by in zip(few, many, told, passes)
        ]


def written(rows):
    """The file of the rows, for the programs to read."""
    file = OUT / "rows"
    file.write_bytes(b"".join(part for row in rows for part in row.written()))
    return file


def turns(sides, rows, rounds):
    """Of each row and each side the nanoseconds of a pass over its texts, and how many texts are
    accepted: the least of the rounds, in which the sides take turns, without the least for no work.
    The programs are started anew for each `STARTED` rounds, since where the system puts a program's
    stack decides some rows."""
    words, piped = [written(rows)], {"stdin": subprocess.PIPE, "stdout": subprocess.PIPE}

    def took(clock, row):
        clock.stdin.write(f"{row}\n")
        clock.stdin.flush()
        return [float(it) for it in clock.stdout.readline().split()]

    def least(its):
        """(each by itself: what disturbs one of the two of a round would be in the difference)"""
        whole, idle, accepted = zip(*its)
        return min(whole) - min(idle), int(accepted[0])

    # Each round is one of all rows, so that those of a row are far from each other.
    took_turns = []
    for start in range(0, rounds, STARTED):
        clocks = [subprocess.Popen([*side.clock, *words], text=True, **piped) for side in sides]
        for _ in range(min(STARTED, rounds - start)):
            took_turns.append([[took(it, row) for it in clocks] for row in range(len(rows))])
        for clock in clocks:
            clock.communicate()
    return [[least(its) for its in zip(*of_row)] for of_row in zip(*took_turns)]


def clocked(sides, rows, rounds):
    """The nanoseconds of `turns`."""
    return [[it[0] for it in of_row] for of_row in turns(sides, rows, rounds)]


def print_table(title, heads, lines):
    table = "\n".join(f"| {' | '.join(it)} |" for it in lines)
    head = f"### {title}\n\n| {' | '.join(['', *heads])} |\n|{'---|' * (len(heads) + 1)}"
    PRINTED.append(f"{head}\n{table}\n")
    print(f"\n{PRINTED[-1]}", end="", flush=True)
