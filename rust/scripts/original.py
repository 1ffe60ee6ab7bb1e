"""Compares the made crate with fluent-uri 0.4.1, of whose source and tests there is a folder."""
import json
import os
import re
import shutil
import subprocess
import sys
from pathlib import Path

from scripts.crate_files import HERE, REPOSITORY
from scripts.parts import LANES, passed, report, run
from scripts.public_items import items_of

URLS = REPOSITORY / "tools" / "bench" / "urls.txt"
SEED = "20261128"
ROUNDS = "500"
FEATURES = ["--features", "std,net"]
# Its last assertion decodes formatting characters of bidirectional text (docs/RUST.md).
DIFFERENT_TEST = "uri_to_iri"
# What this crate alone has: modules, calls that return an error where memory is denied, those that
# take or apply rules of schemes, texts that are mended, and its errors as the original's.
FURTHER = re.compile(
    r"\w+ ::(basic|fallible|mend|order|query|relativize|rules)\b"
    r"|fn \S+::(try_\w+|scheme_rules_with|resolve_normalized) "
    r'|impl ::\w+ \{"trait": \{"args": null, "path": "Mend"\}'
    r'|impl ::(build::Build|resolve::Resolve)Error \{.*"path": "From"\}'
)
TESTS_MANIFEST = """[package]
name = "original-tests"
version = "0.0.0"
edition = "2021"

[dependencies]
fluent-uri = { package = "fluent-uri-rattle", path = "../fluent-uri", features = ["std", "net"] }

[features]
default = ["alloc", "net", "std"]
alloc = []
net = []
std = []

[workspace]
"""


def copies(original, out):
    """Copies the original and the comparing program beside the made crate."""
    for name, source in [("original", original), ("compare", HERE / "compare")]:
        shutil.rmtree(out / name, ignore_errors=True)
        shutil.copytree(source, out / name, ignore=shutil.ignore_patterns("target", "Cargo.lock"))


def documented_examples(document):
    """The code blocks of the docs of public items, each with what its fence says."""
    for _, item in sorted(document["index"].items(), key=lambda pair: int(pair[0])):
        yield from re.findall(r"^```(.*?)\n(.*?)^```$", item["docs"] or "", re.M | re.S)


def write_tests(out, document):
    """Writes a crate with the original's doc tests and tests, over the made crate."""
    crate = out / "original-tests"
    shutil.rmtree(crate, ignore_errors=True)
    (crate / "src").mkdir(parents=True)
    (crate / "Cargo.toml").write_text(TESTS_MANIFEST)
    examples = list(documented_examples(document))
    with open(crate / "src" / "lib.rs", "w") as library:
        for number, (fence, code) in enumerate(examples):
            lines = [f"```{fence}", *code.splitlines(), "```"]
            library.write("".join(f"/// {line}\n" for line in lines) + f"pub mod e{number} {{}}\n\n")
    shutil.copytree(out / "original" / "tests", crate / "tests")
    return crate, len(examples)


def test_its_tests(crate, count, target):
    """The original's tests and doc tests, over the made crate."""
    words = ["cargo", "test", "--quiet", "--doc"]
    done = passed(run("original's doc tests", words, crate, CARGO_TARGET_DIR=target))
    report("original's doc tests", f"{done} passed, of {count}")
    words = ["cargo", "test", "--tests", "--no-fail-fast"]
    environment = dict(os.environ, CARGO_TARGET_DIR=target, CARGO_NET_OFFLINE="true")
    done = subprocess.run(words, cwd=crate, env=environment, capture_output=True, text=True)
    results = re.findall(r"^test (\S+)(?: - should panic)? \.\.\. (\w+)$", done.stdout, re.M)
    failed = [name for name, result in results if result == "FAILED"]
    if failed != [DIFFERENT_TEST]:
        print(done.stdout[-4000:] + done.stderr[-4000:])
        sys.exit(f"rust: original's tests: failed: {', '.join(failed)}")
    ran = len(results) - len(failed)
    report("original's tests", f"{ran} passed, and {DIFFERENT_TEST} by its last line")


def described(crate, target):
    """What rustdoc's JSON has of the crate."""
    words = ["cargo", "rustdoc", "--quiet", "--lib", *FEATURES, "--", "-Z", "unstable-options"]
    words += ["--output-format", "json"]
    run("public items", words, crate, RUSTC_BOOTSTRAP="1", CARGO_TARGET_DIR=target)
    return json.loads(Path(target, "doc", "fluent_uri.json").read_text())


def test_public_items(ours, theirs):
    """Each public item, impl and auto trait of the original, and none more but FURTHER."""
    ours, theirs = items_of(ours), items_of(theirs)
    further = {item for item in ours - theirs if FURTHER.match(item)}
    missing, more = sorted(theirs - ours), sorted(ours - theirs - further)
    for item in missing:
        print(f"missing: {item[:300]}")
    for item in more:
        print(f"more: {item[:300]}")
    same = f"{len(theirs & ours)} of {len(theirs)} are the same"
    report("public items", f"{same}; {len(further)} more of its own")
    if missing or more:
        sys.exit(1)


def comparing_program(out, target, flags):
    words = ["cargo", "build", "--quiet", "--release"]
    run("compare", words, out / "compare", CARGO_TARGET_DIR=target, RUSTFLAGS=flags)
    return Path(target, "release", "compare")


def print_times(program, lanes, out):
    for line in run("time", [program, "time", URLS, ROUNDS], out).splitlines():
        report(f"time, {lanes}", line)


def compare_with_original(original, out, texts):
    copies(original, out)
    target = str(out / "target" / "original")
    theirs = described(out / "original", f"{target}/of-original")
    test_public_items(described(out / "fluent-uri", f"{target}/of-rattle"), theirs)
    test_its_tests(*write_tests(out, theirs), target)
    program = comparing_program(out, target, "")
    report("panics", run("panics", [program, "panics"], out).strip())
    report("values", run("values", [program, "values"], out).strip())
    report("texts", run("texts", [program, "texts", URLS, texts, SEED], out).strip())
    print_times(program, "default", out)
    program = comparing_program(out, f"{target}/x86-64-v2", LANES["x86-64-v2"])
    print_times(program, "x86-64-v2", out)
