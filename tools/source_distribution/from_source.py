"""What pip builds the source distribution by (PEP 517): the wheel of python/make-wheel, with the
shared library that FLUENT_URI_LIBRARY names. It needs Python alone."""
import os
import pathlib
import subprocess
import sys

HERE = pathlib.Path(__file__).resolve().parent


def build_wheel(folder, config_settings=None, metadata_directory=None):
    library = os.environ.get("FLUENT_URI_LIBRARY", "")
    if not pathlib.Path(library).is_file():
        sys.exit(
            "fluent_uri: this source distribution has no shared library: install libfluent-uri0, "
            "and name libfluent_uri_c.so.0 in FLUENT_URI_LIBRARY (python/README.md)"
        )
    words = [sys.executable, HERE / "python" / "make-wheel", library, folder]
    made = subprocess.run(words, stdout=subprocess.PIPE, text=True, check=True).stdout
    return pathlib.Path(made.splitlines()[-1]).name


def build_sdist(folder, config_settings=None):
    sys.exit("fluent_uri: tools/release of the whole repository makes the source distribution")
