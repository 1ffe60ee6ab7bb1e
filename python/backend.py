"""What pip builds the package by (PEP 517), as in `pip install ./python`: the wheel of make-wheel,
of the library that `make -C c` links or that FLUENT_URI_LIBRARY names. It needs Python alone, takes
nothing from the network, and leaves nothing beside the sources."""
import importlib.machinery
import importlib.util
import os
import pathlib
import sys

HERE = pathlib.Path(__file__).resolve().parent
LINKED = HERE.parent / "c" / "out" / "libfluent_uri_c.so.0"


def build_wheel(folder, config_settings=None, metadata_directory=None):
    named = os.environ.get("FLUENT_URI_LIBRARY")
    library = pathlib.Path(named) if named else LINKED
    if not library.is_file():
        sys.exit(
            f"fluent_uri: there is no shared library {library}: build it by `./build fluent_uri_c` "
            "and `make -C c`, or name one in FLUENT_URI_LIBRARY"
        )
    loader = importlib.machinery.SourceFileLoader("make_wheel", str(HERE / "make-wheel"))
    make_wheel = importlib.util.module_from_spec(
        importlib.util.spec_from_loader("make_wheel", loader)
    )
    loader.exec_module(make_wheel)
    return make_wheel.made(library, pathlib.Path(folder)).name


def build_sdist(folder, config_settings=None):
    sys.exit("fluent_uri: the library is built where the whole repository is: make a wheel")
