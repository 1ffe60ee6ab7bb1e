"""Copies of the package beside the one that is imported."""

import importlib
import os
import sys
from unittest import mock


def dropped():
    """The modules of the package, which are no longer imported."""
    names = [it for it in sys.modules if it.partition(".")[0] == "fluent_uri"]
    return {it: sys.modules.pop(it) for it in names}


def imported_anew(ctypes=""):
    """Another copy of the package, which calls by ctypes if that is asked for."""
    kept = dropped()
    try:
        with mock.patch.dict(os.environ, FLUENT_URI_CTYPES=ctypes):
            made = importlib.import_module("fluent_uri")
            importlib.import_module("fluent_uri.parse")
            return made
    finally:
        dropped()
        sys.modules.update(kept)
