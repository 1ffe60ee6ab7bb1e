"""What is handed on: the crates that it is built of, and what tools/release makes for Python beside
the wheel of python/make-wheel."""
import base64
import csv
import gzip
import hashlib
import io
import pathlib
import runpy
import tarfile
import zipfile

from repository import ROOT

# Those that `./build` proves and builds for others. The first is compiled for aarch64 too.
PRODUCTS = ("fluent_uri_c", "uritool", "urilines")
# What the source distribution has beside the package.
BESIDE = pathlib.Path(__file__).resolve().parent / "source_distribution"
SUFFIXES = (".py", ".c", ".h", ".pyi", ".typed")


def of_make_wheel(tree, name):
    """A function of python/make-wheel of a tree."""
    return runpy.run_path(str(tree / "python" / "make-wheel"))[name]


def add_statement(wheel, files):
    """Adds files to the folder sboms of a wheel, as PEP 770 has it."""
    zipped = of_make_wheel(ROOT, "zipped")
    with zipfile.ZipFile(wheel) as it:
        held = {name: it.read(name) for name in it.namelist()}
    (record,) = [it for it in held if it.endswith(".dist-info/RECORD")]
    info = record.removesuffix("/RECORD")
    lines = list(csv.reader(io.StringIO(held.pop(record).decode())))
    for file in files:
        data, name = file.read_bytes(), f"{info}/sboms/{file.name}"
        code = base64.urlsafe_b64encode(hashlib.sha256(data).digest()).decode().rstrip("=")
        held[name] = data
        lines.insert(-1, [name, f"sha256={code}", len(data)])
    kept = io.StringIO()
    csv.writer(kept, lineterminator="\n").writerows(lines)
    held[record] = kept.getvalue().encode()
    with zipfile.ZipFile(wheel, "w", zipfile.ZIP_DEFLATED) as it:
        for name, data in held.items():
            it.writestr(zipped(name), data)


def source_distribution(tree, version, epoch, to):
    """Writes the source distribution of the Python package, in the folders of the repository."""
    python = tree / "python"
    fields, _, about = of_make_wheel(tree, "metadata")()[1].decode().partition("\n\n")
    fields += f"\nRequires-External: libfluent_uri_c.so.0 (>={version})\n\n"
    files = {it.name: it for it in BESIDE.iterdir() if it.is_file()}
    named = ("LICENSE", "c/include/fluent_uri.h", "python/README.md", "python/build-compiled",
             "python/make-wheel", "python/pyproject.toml")
    files.update({name: tree / name for name in named})
    files.update({f"python/src/fluent_uri/{it.name}": it
                  for it in (python / "src" / "fluent_uri").iterdir() if it.suffix in SUFFIXES})
    held = {name: it.read_bytes() for name, it in files.items()}
    held["PKG-INFO"] = (fields + about).encode()
    packed = io.BytesIO()
    with tarfile.open(fileobj=packed, mode="w", format=tarfile.PAX_FORMAT) as made:
        for name, data in sorted(held.items()):
            it = tarfile.TarInfo(f"fluent_uri-{version}/{name}")
            it.size, it.mtime, it.mode = len(data), epoch, 0o644
            made.addfile(it, io.BytesIO(data))
    made = to / f"fluent_uri-{version}.tar.gz"
    made.write_bytes(gzip.compress(packed.getvalue(), 9, mtime=0))
