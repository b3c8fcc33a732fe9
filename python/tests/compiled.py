"""Compiles what tests need beside the package, in a folder of their own."""

import os
import subprocess
import sysconfig
import tempfile
import unittest

from test_calls import LIBRARY

HERE = os.path.dirname(os.path.abspath(__file__))


def compiled(folder, name, *words):
    """The path of a shared object of sources."""
    include, cc = sysconfig.get_paths()["include"], os.environ.get("CC", "cc")
    if not os.path.exists(os.path.join(include, "Python.h")):
        raise AssertionError(f"there is no {include}/Python.h (Debian has it in the package python3-dev)")
    path = os.path.join(folder, name)
    flags = ["-shared", "-fPIC", "-O1", "-std=c99", "-Wall", "-Wextra", "-I", include, "-I", LIBRARY]
    subprocess.run([cc, *flags, "-o", path, *words], check=True)
    return path


class WithFolder(unittest.TestCase):
    @classmethod
    def setUpClass(cls):
        folder = tempfile.TemporaryDirectory()
        cls.addClassCleanup(folder.cleanup)
        cls.folder = folder.name
