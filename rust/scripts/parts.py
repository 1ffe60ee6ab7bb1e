"""Parts of a test that runs cargo: each prints a line, and a part that fails ends the test."""
import os
import subprocess
import sys

# The paths of the lanes on x86-64, and what has rustc take them.
LANES = {
    "default": "",
    "x86-64-v2": "-C target-cpu=x86-64-v2",
    "portable": "--cfg fluent_uri_portable",
}


def report(name, result):
    print(f"rust: {name}: {result}", flush=True)


skipped = []


def skip(name, why):
    """Says that a part is left out, also in the file that SKIPPED names."""
    line = f"skipped: rust: {name}: {why}"
    print(line, flush=True)
    skipped.append(line)
    if path := os.environ.get("SKIPPED"):
        with open(path, "a") as file:
            file.write(f"{line}\n")


def end():
    """Ends the test, which fails if a part was left out where none may be."""
    sys.exit(1 if skipped and os.environ.get("CI") == "true" else 0)


def run(name, command, folder, **environment):
    """Runs a command quietly. Returns what it wrote; if it fails, prints that and ends the test."""
    done = subprocess.run(
        [str(word) for word in command],
        cwd=folder,
        env={**os.environ, "CARGO_NET_OFFLINE": "true", **environment},
        stdout=subprocess.PIPE,
        stderr=subprocess.STDOUT,
        text=True,
    )
    if done.returncode != 0:
        print(done.stdout[-4000:])
        report(name, f"failed: {' '.join(map(str, command))}")
        sys.exit(1)
    return done.stdout


def passed(output):
    """How many tests cargo says have passed."""
    lines = [line for line in output.splitlines() if line.startswith("test result: ok. ")]
    return sum(int(line.split()[3]) for line in lines)
