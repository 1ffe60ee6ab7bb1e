#!/usr/bin/env python3
"""Distinct URLs by their meaning, over the workers of a Dask cluster that each pipe lines through
`urilines`, and again through one `urilines`.

usage: by_pipe.py [COUNT] [--workers N] [--partitions N] [--program FILE]

Each partition of COUNT URLs is normalised by `urilines --errors=drop normalize uri`. Its lines then
go to buckets by their hash: equivalent URLs have equal normal forms, so they meet in one bucket,
and each bucket keeps one of each. The lines are compared with those of one program over all URLs.

It needs dask and distributed (Debian: python3-distributed). Where this Python lacks them, it runs
by another one as `run` does: PYTHON, python3 or /usr/bin/python3. It ends with a word where none
has them, or the program is not there.
"""
import argparse
import os
import pathlib
import random
import shutil
import subprocess
import sys
import tempfile
import time
import zlib

ROOT = pathlib.Path(__file__).resolve().parents[2]
LIST = ROOT / "tools" / "bench" / "urls.txt"
BUILT = [ROOT / "out" / "urilines", ROOT / "crates" / "urilines" / "out" / "urilines"]


def spelt(url, dice):
    """The URL as somebody else might write it, or now and then something that is not a URL."""
    how = dice.randrange(6)
    scheme, _, rest = url.partition("://")
    authority, slash, path = rest.partition("/")
    if how == 0:
        return f"{scheme.upper()}://{rest}"
    if how == 1:
        return f"{scheme}://{authority.upper()}{slash}{path}"
    if how == 2 and slash:
        return f"{scheme}://{authority}/x/../{path}"
    if how == 3:
        return url.replace("e", "%65", 1) if "e" in path else url
    return url if how == 4 else f"{url} "


def urls(part, size, count):
    """The lines of a partition: URLs of the list with a number, spelt in some way."""
    known = [it for it in LIST.read_text(encoding="utf-8").split("\n") if it and it[0] != "#"]
    known = [it.partition("#")[0] for it in known]
    dice = random.Random(part)
    texts = (f"{dice.choice(known)}{dice.randrange(max(count // 500, 1))}" for _ in range(size))
    return "".join(f"{spelt(it, dice)}\n" for it in texts).encode()


def normal_lines(program, lines):
    """What the program writes for the lines, without those that are errors."""
    words = [program, "--errors=drop", "normalize", "uri"]
    return subprocess.run(words, input=lines, stdout=subprocess.PIPE).stdout.splitlines()


def by_hash(program, lines, count):
    """The normal forms of a partition in so many buckets, each of them once."""
    buckets = [set() for _ in range(count)]
    for form in normal_lines(program, lines):
        buckets[zlib.crc32(form) % count].add(form)
    return [b"\n".join(it) for it in buckets]


def distinct(parts):
    """The normal forms that the partitions have for a bucket, each of them once."""
    return sorted({form for it in parts for form in it.split(b"\n") if form})


def over_workers(program, count, partitions):
    import dask

    numbers, size = range(partitions), -(-count // partitions)
    parts = [dask.delayed(urls)(it, size, count) for it in numbers]
    parts = [dask.delayed(by_hash)(program, it, partitions) for it in parts]
    # Bucket i gets item i of each partition: the shuffle.
    kept = [dask.delayed(distinct)([it[at] for it in parts]) for at in numbers]
    return sorted(form for it in dask.compute(*kept) for form in it)


def on_one_machine(program, count, partitions):
    size = -(-count // partitions)
    lines = b"".join(urls(it, size, count) for it in range(partitions))
    return sorted(set(normal_lines(program, lines)))


def timed(call, *words):
    began = time.perf_counter()
    return call(*words), time.perf_counter() - began


def has_dask(python):
    words = [python, "-c", "import dask, distributed"]
    return shutil.which(python) and not subprocess.run(words, stderr=subprocess.DEVNULL).returncode


def run_where_dask_is():
    """Goes on in a Python that has Dask, if there is one."""
    for python in (os.environ.get("PYTHON") or "python3", "/usr/bin/python3"):
        if has_dask(python):
            os.execvp(python, [python, *sys.argv])
    sys.exit("by_pipe.py: skipped: no Python here has dask and distributed")


def main():
    parser = argparse.ArgumentParser(description=__doc__.split("\n\n", maxsplit=1)[0])
    parser.add_argument("count", nargs="?", type=int, default=200_000)
    parser.add_argument("--workers", type=int, default=2)
    parser.add_argument("--partitions", type=int, default=8)
    parser.add_argument("--program", default=next((str(it) for it in BUILT if it.exists()), None))
    given = parser.parse_args()
    if not given.program:
        sys.exit("by_pipe.py: skipped: urilines is not built; ./build urilines makes it")
    try:
        from distributed import Client, LocalCluster
    except ImportError:
        run_where_dask_is()
    work = (given.program, given.count, given.partitions)
    alone, alone_took = timed(on_one_machine, *work)
    with tempfile.TemporaryDirectory() as folder, LocalCluster(
        n_workers=given.workers, threads_per_worker=1, local_directory=folder,
        dashboard_address=None,
    ) as cluster, Client(cluster):
        spread, spread_took = timed(over_workers, *work)
    print(f"{given.count:,} lines, {len(alone):,} distinct: one program in {alone_took:.1f} s, "
          f"{given.workers} workers in {spread_took:.1f} s")
    if alone != spread:
        sys.exit("by_pipe.py: the lines differ")


if __name__ == "__main__":
    main()
