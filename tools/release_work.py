"""The copy of the sources that a release is made in."""
import os
import re
import shutil
import subprocess
import sys

from handed_on import PRODUCTS
from passed import KEPT, digest
from repository import OUT, ROOT, Failed, crates

# (a build must not hang on them)
DROPPED = r"(C|CXX|CPP|LD|MAKE)FLAGS|CC|CXX|MFLAGS|MAKELEVEL|DEB_.*|DH_.*|PYTHON.*|LANG|LC_.*"


def said(*words, **how):
    ran = subprocess.run(words, capture_output=True, text=True, cwd=ROOT, **how)
    if ran.returncode:
        raise Failed(f"{' '.join(words)}: {ran.stderr.strip()}")
    return ran.stdout.strip()


def epoch():
    """The date of debian/changelog, which is that of each file."""
    return int(said("dpkg-parsechangelog", "--show-field", "Timestamp"))


def facts(lines):
    """What lines of a check say, but for what it took from others."""
    return [[it for it in line.split() if not it.endswith("=trusted")] for line in lines]


class Work:
    """A copy of the sources, and what is made there."""

    def __init__(self, folder, version):
        self.folder, self.version = folder, version
        self.tree = folder / f"fluent-uri-{version}"
        self.environment = {name: it for name, it in os.environ.items()
                            if not re.fullmatch(DROPPED, name)}
        self.environment |= {"LC_ALL": "C.UTF-8", "TZ": "UTC", "SOURCE_DATE_EPOCH": str(epoch())}

    def does(self, what, *words):
        """Runs a command in the copy. What it prints is shown only if it fails."""
        print(f"release: {what}", file=sys.stderr, flush=True)
        log = self.folder / "log"
        with open(log, "w", encoding="utf-8") as kept:
            status = subprocess.call([*map(str, words)], cwd=self.tree, env=self.environment,
                                     stdin=subprocess.DEVNULL, stdout=kept, stderr=kept)
        if status:
            sys.stderr.write(log.read_text(encoding="utf-8", errors="replace")[-6000:])
            raise Failed(f"{what}: status {status}")

    def keep_in(self, folder):
        """Has the checks in the copy keep their work there, and take nothing that is elsewhere."""
        self.environment |= {"PATH": f"{self.tree / 'tools' / 'bin'}:{os.environ['PATH']}",
                             "RT_KEPT": str(folder / "rt"), "XDG_CACHE_HOME": str(folder)}

    def take_kept(self, files):
        """Takes what `./check` built and tested in this folder, if it has these digests, and the
        proof of the archive. Returns whether it could."""
        made = [KEPT / crates()[it].product for it in PRODUCTS]
        if not all(it.exists() and digest(it) == files.get(it.name) for it in made):
            return False
        print("release: takes what ./check built", file=sys.stderr, flush=True)
        for it in made:
            shutil.copy2(it, self.tree / "out")
        if (OUT / "kept" / PRODUCTS[0]).is_dir():
            shutil.copytree(OUT / "kept" / PRODUCTS[0], self.tree / "out" / "kept" / PRODUCTS[0])
        if (OUT / "kept" / "rt").is_dir():
            self.keep_in(OUT / "kept")
        return True

    def stop_if_other(self, told):
        """Stops if what was proved and built from nothing is not what `./check` had."""
        for name, wanted in told.files.items():
            if (found := digest(self.tree / "out" / name)) != wanted:
                raise Failed(f"{name} has the sha256 {found}, and ./check built {wanted}")
        for name, lines in told.crates.items():
            found = (self.tree / "out" / f"{name}.verdict").read_text(encoding="utf-8")
            if facts(found.splitlines()) != facts(lines):
                raise Failed(f"the check of {name} ended otherwise than for ./check: {found}")
