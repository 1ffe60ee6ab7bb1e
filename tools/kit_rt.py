"""The kit's own `rt`, as a module: it knows how a crate is checked and how a mutant is read."""
import importlib.machinery
import importlib.util
import os
import pathlib
import subprocess


def load_rt():
    """If RT_KEPT names a folder, what checks keep is there, in the place of what is shared."""
    said = subprocess.run(["rt", "doc"], check=True, capture_output=True, text=True).stdout
    path = str(pathlib.Path(said.strip()).parent / "bin" / "rt")
    loader = importlib.machinery.SourceFileLoader("rt", path)
    made = importlib.util.module_from_spec(importlib.util.spec_from_loader("rt", loader))
    loader.exec_module(made)
    # (it reckons with 1 MB a line, and then has few checks at once; none of these takes more)
    made.need = lambda _: 4_400_000_000
    if kept := os.environ.get("RT_KEPT"):
        made.STORE, made.WORK = kept, f"{kept}/work"
        os.makedirs(made.WORK, exist_ok=True)
    return made
