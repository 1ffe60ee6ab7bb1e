"""Distinct URLs by their meaning, over the workers of a Dask cluster, and again on one machine.

usage: by_batch.py [COUNT] [--workers N] [--partitions N]

Each partition of COUNT URLs is normalised by `batch.normalize`. Its normal forms then go to
buckets by their hash: equivalent URLs have equal normal forms, so they meet in one bucket. Each
bucket keeps the first URL of each normal form. The rows are compared with those of one pass over
all URLs.
"""
import argparse
import pathlib
import random
import re
import sys
import tempfile
import time
import zlib
from array import array

import dask
import dask.bag
from distributed import Client, LocalCluster

from fluent_uri import batch

LIST = pathlib.Path(__file__).resolve().parents[2] / "tools" / "bench" / "urls.txt"
OUTSIDE_OCTETS = re.compile("(?<!%)(?<!%[0-9A-Fa-f])e")


def spelt(url, dice):
    """The URL as somebody else might write it, or now and then something that is not a URL."""
    how = dice.randrange(8)
    scheme, _, rest = url.partition("://")
    authority, slash, path = rest.partition("/")
    if how == 0:
        return f"{scheme.upper()}://{rest}"
    if how == 1:
        return f"{scheme}://{authority.upper()}{slash}{path}"
    if how == 2 and slash:
        return f"{scheme}://{authority}/x/../{path}"
    if how == 3:
        return f"{scheme}://{authority}{slash}{OUTSIDE_OCTETS.sub('%65', path, count=1)}"
    if how == 4 and slash and ":" not in authority:
        return f"{scheme}://{authority}:{443 if scheme == 'https' else 80}/{path}"
    return f"{url} " if how == 5 else url


def urls(part, size, count):
    """Places and URLs from `part * size` on: those of the list with a number, spelt in some way."""
    known = [it for it in LIST.read_text(encoding="utf-8").split("\n") if it and it[0] != "#"]
    known = [it.partition("#")[0] for it in known]
    dice = random.Random(part)
    texts = (f"{dice.choice(known)}{dice.randrange(max(count // 500, 1))}" for _ in range(size))
    places = range(part * size, min((part + 1) * size, count))
    return [(place, spelt(text, dice)) for place, text in zip(places, texts)]


def normal_rows(rows):
    """The places of the URLs, and their normal forms."""
    places, texts = zip(*rows)
    return [it for it in zip(places, batch.normalize(texts)) if it[1] is not None]


def packed(rows):
    """The rows as bytes, which go from worker to worker much faster than tuples do."""
    places = array("Q", (place for place, _ in rows)).tobytes()
    return places, "\n".join(form for _, form in rows).encode()


def unpacked(places, forms):
    return zip(array("Q", places), forms.decode().split("\n"))


def by_hash(rows, count):
    """The normal forms of a partition in so many buckets, each packed."""
    buckets = [[] for _ in range(count)]
    for row in normal_rows(rows):
        buckets[zlib.crc32(row[1].encode()) % count].append(row)
    return [packed(it) for it in buckets]


def first_of_each(rows):
    """The first row of each normal form, of rows in order."""
    first = {}
    for place, form in rows:
        first.setdefault(form, place)
    return [(place, form) for form, place in first.items()]


def bucket(parts):
    """The same of what the partitions have for a bucket."""
    return packed(first_of_each(row for it in parts for row in unpacked(*it)))


def over_workers(count, partitions):
    numbers, size = range(partitions), -(-count // partitions)
    bag = dask.bag.from_delayed([dask.delayed(urls)(it, size, count) for it in numbers])
    parts = bag.map_partitions(by_hash, partitions).to_delayed()
    # Bucket i gets item i of each partition: the shuffle.
    kept = [dask.delayed(bucket)([it[at] for it in parts]) for at in numbers]
    return sorted(row for it in dask.compute(*kept) for row in unpacked(*it))


def on_one_machine(count, partitions):
    size = -(-count // partitions)
    rows = (row for it in range(partitions) for row in normal_rows(urls(it, size, count)))
    return first_of_each(rows)


def timed(call, *words):
    began = time.perf_counter()
    return call(*words), time.perf_counter() - began


def main():
    parser = argparse.ArgumentParser(description=__doc__.split("\n\n", maxsplit=1)[0])
    parser.add_argument("count", nargs="?", type=int, default=1_000_000)
    parser.add_argument("--workers", type=int, default=2)
    parser.add_argument("--partitions", type=int, default=16)
    given = parser.parse_args()
    alone, alone_took = timed(on_one_machine, given.count, given.partitions)
    with tempfile.TemporaryDirectory() as folder, LocalCluster(
        n_workers=given.workers,
        threads_per_worker=1,
        host="127.0.0.1",
        dashboard_address=None,
        local_directory=folder,
    ) as cluster, Client(cluster):
        rows, took = timed(over_workers, given.count, given.partitions)
    print(f"{given.count:,} URLs, {len(rows):,} distinct by their meaning")
    print(f"{given.workers} workers: {took:.1f} s; one machine: {alone_took:.1f} s")
    if rows != alone:
        print("the rows differ")
        return 1
    print("the rows are equal")
    return 0


if __name__ == "__main__":
    sys.exit(main())
