"""Writes the Rust crate: a folder that cargo builds without a registry, and a package."""
import os
import re
import shutil
import subprocess
import sys
import tempfile
from pathlib import Path

from erase import erase

HERE = Path(__file__).resolve().parent.parent
REPOSITORY = HERE.parent
STANDINS = ["borrow-or-share", "ref-cast"]
# The heading of the page from which on it is for those who go over to Rattle.
NOT_OF_CRATE = "## From the crate to Rattle"


def write_crate(crate):
    """Writes the crate as its package has it."""
    shutil.copytree(HERE / "facade", crate, ignore=shutil.ignore_patterns("target", "Cargo.lock"))
    shutil.copy(REPOSITORY / "LICENSE", crate / "LICENSE")
    page = (REPOSITORY / "docs" / "RUST.md").read_text()
    (crate / "README.md").write_text(page.partition(f"\n{NOT_OF_CRATE}\n")[0])
    erase(REPOSITORY, crate / "src" / "proved")


def without_registry(manifest, has_serde):
    """The manifest with the stand-ins in the place of the registry's crates."""
    for name in STANDINS:
        manifest, count = re.subn(
            rf'^{name} = ".*"$', f'{name} = {{ path = "../standins/{name}" }}', manifest, flags=re.M
        )
        if count != 1:
            sys.exit(f"make: Cargo.toml has {count} lines for {name}")
    if not has_serde:
        manifest = re.sub(r"^serde = .*\n", "", manifest, flags=re.M)
        manifest = re.sub(r'(, )?"serde\?/\w+"', "", manifest)
    return manifest + "\n[workspace]\n"


def package(crate, out):
    """Writes the package of the crate."""
    with tempfile.TemporaryDirectory() as work:
        staged = Path(work) / "fluent-uri-rattle"
        shutil.copytree(crate, staged)
        command = ["cargo", "package", "--quiet", "--offline", "--no-verify", "--exclude-lockfile"]
        environment = dict(os.environ, CARGO_TARGET_DIR=f"{work}/target")
        subprocess.run(command, cwd=staged, env=environment, check=True)
        (made,) = Path(work, "target", "package").glob("*.crate")
        shutil.copy(made, out / made.name)


def make(out, has_serde):
    out.mkdir(parents=True, exist_ok=True)
    crate = out / "fluent-uri"
    for folder in [crate, out / "standins"]:
        shutil.rmtree(folder, ignore_errors=True)
    write_crate(crate)
    package(crate, out)
    manifest = crate / "Cargo.toml"
    manifest.write_text(without_registry(manifest.read_text(), has_serde))
    shutil.copytree(HERE / "standins", out / "standins")
