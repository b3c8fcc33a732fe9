"""Runs the tests of the installed package, and the examples of its docstrings, of docs/PYTHON.md, docs/SCHEMES.md and both README.md.

    python/tests [interpreter]

With that word it leaves out the tests of what the library answers, which is the same by each Python: the extension is
one binary for all. The last line is 'N passed, M failed'.
"""

import doctest
import os
import sys
import unittest

import counted
import versions

HERE = os.path.dirname(os.path.abspath(__file__))
TOP = os.path.join(HERE, "..", "..")
NAMES = ("README.md", "docs/PYTHON.md", "docs/SCHEMES.md", "python/README.md")
PAGES = [os.path.join(TOP, name) for name in NAMES]


class Finder(doctest.DocTestFinder):
    """Finds the examples of methods too, whose functions are of the module that they are written in."""

    def _from_module(self, module, object):
        return str(getattr(object, "__module__", "")).startswith("versions._") or super()._from_module(module, object)


names = sorted(name[: -len(".py")] for name in os.listdir(HERE) if name.startswith("test_") and name.endswith(".py"))
suites = {name: unittest.defaultTestLoader.loadTestsFromName(name) for name in names}
if sys.argv[1:] == ["interpreter"]:
    suites = {name: unittest.TestSuite(counted.of_interpreter(suite)) for name, suite in suites.items()}
    suites = {name: suite for name, suite in suites.items() if suite.countTestCases()}
suites["versions"] = doctest.DocTestSuite(versions, test_finder=Finder())
suites["versions._library"] = doctest.DocTestSuite(versions._library, extraglobs=vars(versions))
for page in PAGES:
    suites[page] = doctest.DocFileSuite(page, module_relative=False, encoding="utf-8")
counted.end(suites)
