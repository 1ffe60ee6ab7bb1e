"""The C of the calls that a WebAssembly module exports: each call of `fluent_uri.h` under its name
without `fluent_uri_`, with addresses and lengths of 32 bits, so that JavaScript passes numbers."""
import importlib.machinery
import importlib.util
import pathlib

from repository import Failed

ROOT = pathlib.Path(__file__).resolve().parents[2]
PREFIX = "fluent_uri_"


def declarations():
    """The parameters of each export, as `c/declare` reads them from the sources of the crate. Those
    with offsets of 64 bits are left out: the memory has 32."""
    loader = importlib.machinery.SourceFileLoader("declare", str(ROOT / "c" / "declare"))
    declare = importlib.util.module_from_spec(importlib.util.spec_from_loader("declare", loader))
    loader.exec_module(declare)
    found = declare.exports(declare.sources(ROOT))
    return {name.removeprefix(PREFIX): it for name, it in found.items() if not name.endswith("64")}


def core():
    """The names of the calls of the core module."""
    lines = (pathlib.Path(__file__).parent / "core.txt").read_text(encoding="utf-8").splitlines()
    return [it for line in lines for it in line.partition("#")[0].split()]


def parameter(name, kind):
    """How a parameter is declared for the export, how it is taken, and how it is passed on."""
    if kind.endswith("*"):
        return "void *", f"uint32_t {name}", f"(void *)(uintptr_t){name}"
    if kind not in ("uint32_t", "size_t", "uint64_t"):
        raise Failed(f"no binding is known for a parameter of the type {kind}")
    taken = "uint64_t" if kind == "uint64_t" else "uint32_t"
    return kind, f"{taken} {name}", name


def binding(name, parameters):
    words = [parameter(*it) for it in parameters]
    declared, taken, passed = (", ".join(it[at] for it in words) for at in range(3))
    return (f"uint32_t {PREFIX}{name}({declared or 'void'});\n"
            f"uint32_t {name}({taken or 'void'}) {{\n"
            f"    return {PREFIX}{name}({passed});\n}}\n")


def named(names):
    """These names, or those of all calls."""
    declared = declarations()
    if unknown := [it for it in names or [] if it not in declared]:
        raise Failed(f"fluent_uri_c exports no {' '.join(unknown)}")
    return names or list(declared)


def bindings(names):
    """The C of the calls with these names."""
    declared = declarations()
    return '#include "wasm.h"\n' + "".join(binding(it, declared[it]) for it in names)
