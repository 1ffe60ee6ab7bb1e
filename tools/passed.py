"""What `./check` keeps of a run for a release: how each crate's check ended, the programs and the
archive that it built and tested, and the message of the tag."""
import hashlib
import pathlib
import re
import shutil
import subprocess

from handed_on import PRODUCTS
from repository import OUT, ROOT, bottom_up, crates

KEPT = OUT / "checked"
MESSAGE = OUT / "check.passed"


def digest(path):
    return hashlib.sha256(path.read_bytes()).hexdigest()


def kit():
    ran = subprocess.run(["rt", "version"], capture_output=True, text=True, check=True)
    return ran.stdout.splitlines()[0]


def handed_on(named):
    """The crates that a release is built of."""
    return bottom_up(named, [named[it] for it in PRODUCTS])


def key(crate, named, identity):
    """A digest of all that the check of a crate reads: the kit's name, and the sources."""
    handles = ROOT / "HANDLES"
    found = hashlib.sha256(repr((identity, handles.exists() and handles.read_text())).encode())
    for it in bottom_up(named, [crate]):
        found.update(repr((it.name, it.is_library, it.below)).encode())
        for file in sorted(file for top in it.sources() for file in (ROOT / top).rglob("*")):
            if file.is_file():
                found.update(repr((str(file.relative_to(ROOT)), file.read_bytes())).encode())
    return found.hexdigest()


def said(log):
    """How the check of each crate that is proved ended, by what `rt ci` printed."""
    found, name, lines = {}, None, []
    for line in log.splitlines():
        if at := re.fullmatch(r"== (\w+)(: its tests)?", line):
            name, lines = None if at[2] else at[1], []
        elif line.startswith(("axioms ", "logic=proved ")):
            lines.append(line)
        elif name and line == f"rt: {name} proved" and lines:
            found[name] = lines
    return found


def keep(log):
    """Keeps what `rt ci` said and built, under the key of what it checked."""
    named, identity, told = crates(), kit(), said(log)
    KEPT.mkdir(parents=True, exist_ok=True)
    for crate in handed_on(named):
        head = f"of {key(crate, named, identity)}"
        kept = KEPT / f"{crate.name}.verdict"
        was = kept.read_text(encoding="utf-8").splitlines() if kept.exists() else []
        # (of a crate that an earlier run proved `rt ci` says no more than that)
        lines = told.get(crate.name) or (was[1:] if was[:1] == [head] else [])
        kept.write_text("\n".join([head, *lines]) + "\n", encoding="utf-8")
        made = crate.folder / "out" / crate.product
        (KEPT / crate.product).unlink(missing_ok=True)
        if crate.name in PRODUCTS and made.exists():
            shutil.copy2(made, KEPT / crate.product)


def kept_verdicts():
    """How the check of each crate ended, as it is kept of these sources."""
    named, identity, found = crates(), kit(), {}
    for crate in handed_on(named):
        kept = KEPT / f"{crate.name}.verdict"
        head, *lines = kept.read_text(encoding="utf-8").splitlines() if kept.exists() else [""]
        if head == f"of {key(crate, named, identity)}":
            found[crate.name] = lines
    return found


def message(tree):
    """The message of the tag of a release of this tree."""
    lines = ["./check passed", "", f"Checked-tree: {tree}", f"Checked-by: {kit()}"]
    for crate in map(crates().get, PRODUCTS):
        if (KEPT / crate.product).exists():
            lines.append(f"Checked-file: {digest(KEPT / crate.product)}  {crate.product}")
    for name, verdict in kept_verdicts().items():
        if verdict:
            lines += [f"Checked-crate: {name}", *(f"    {it}" for it in verdict)]
    return "\n".join(lines) + "\n"


class Told:
    """What the message of a tag says."""

    def __init__(self, text):
        self.fields = dict(re.findall(r"(?m)^(Checked-(?:tree|by)): (.*)$", text))
        self.files = {name: it for it, name in
                      re.findall(r"(?m)^Checked-file: ([0-9a-f]{64})  (.*)$", text)}
        self.crates = {name: re.findall(r"(?m)^    (.*)$", lines) for name, lines in
                       re.findall(r"(?m)^Checked-crate: (\w+)\n((?:    .*\n?)+)", text)}
