"""How the shared library is found, and what is no library for the package."""

import importlib.util
import os
import subprocess
import sys
import unittest

from fluent_uri import _native


class Loading(unittest.TestCase):
    def test_what_is_not_the_library_is_an_import_error(self):
        other = importlib.util.find_spec("_ctypes").origin
        for path in [__file__, "/no/such/library", other]:
            ran = subprocess.run(
                [sys.executable, "-c", "import fluent_uri"],
                env={**os.environ, "FLUENT_URI_LIBRARY": path},
                stderr=subprocess.PIPE,
                text=True,
            )
            self.assertEqual(ran.returncode, 1)
            self.assertRegex(ran.stderr.splitlines()[-1], "^ImportError: .*libfluent_uri_c.so.0")

    def test_a_library_of_another_version_is_an_import_error(self):
        self.assertTrue(_native.has_version("0.1.99"))
        self.assertFalse(_native.has_version("0.2.0") or _native.has_version("1.1.0"))
        code = "import sys\nfrom unittest import mock\nimport ctypes\nreal = ctypes.PYFUNCTYPE\n"
        code += (
            "def other(*types):\n"
            "    made = real(*types)\n"
            "    return made if len(types) > 1 else lambda _: lambda: 0x000200\n"
            "with mock.patch('ctypes.PYFUNCTYPE', other):\n    import fluent_uri"
        )
        ran = subprocess.run([sys.executable, "-c", code], stderr=subprocess.PIPE, text=True)
        self.assertRegex(ran.stderr.splitlines()[-1], "^ImportError: .* not of the version 0.1.0")

    def test_an_older_processor_is_found(self):
        names = "fpu sse2 ssse3 cx16 sse4_1 popcnt lahf_lm"
        self.assertFalse(_native._lacks(f"processor : 0\nflags\t\t: {names} sse4_2 avx\n"))
        self.assertTrue(_native._lacks(f"flags\t\t: {names} avx\nflags\t\t: {names} sse4_2\n"))
        self.assertFalse(_native._lacks("Features : asimd"))


if __name__ == "__main__":
    unittest.main()
