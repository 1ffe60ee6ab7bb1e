"""Which crates' mutants passed on this machine, kept outside the repository as the kit keeps proofs.

An entry's name is a digest of all that the verdicts rest on: the files of the crate and of the
libraries below it, its mutants, the kit, and these scripts. So no entry is ever stale.
"""
import hashlib
import os
import pathlib

HERE = pathlib.Path(__file__).parent
SCRIPTS = [*HERE.glob("*.py"), HERE.parent / "libraries.py", HERE.parent / "mutants"]
STORE = pathlib.Path(os.environ.get("XDG_CACHE_HOME") or pathlib.Path.home() / ".cache", "fluent-uri", "mutants")


class Passed:
    def __init__(self, rt, store=STORE):
        self.rt, self.store = rt, store
        self.kit = [pathlib.Path(rt.KIT, it).read_bytes() for it in ("KIT-ID", "WHAT")]
        self.scripts = [it.read_bytes() for it in sorted(SCRIPTS)]

    def entry(self, crate):
        """The file that is there if all mutants of the crate passed as the files are now."""
        digest = hashlib.sha256(repr((self.kit, self.scripts)).encode())
        for it in [*crate.below(), crate]:
            digest.update(repr((it.name, it.said)).encode())
            self.add(digest, it.folder, self.rt.rtlib.PARTS)
        self.add(digest, crate.folder, ["mutants"])
        return self.store / f"{crate.name}-{digest.hexdigest()[:32]}"

    def add(self, digest, folder, parts):
        for part in parts:
            for file in sorted(pathlib.Path(folder, part).rglob("*")):
                if file.is_file():
                    digest.update(repr((str(file.relative_to(folder)), file.read_bytes())).encode())

    def keep(self, entry, summary):
        """Notes that they passed, in place of what is kept of the crate's earlier files."""
        try:
            self.store.mkdir(parents=True, exist_ok=True)
            entry.write_text(f"{summary}\n", encoding="utf-8")
        except OSError as error:
            print(f"mutants: not kept: {error}", flush=True)
