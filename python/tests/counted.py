"""Runs tests, and ends with their count: 'N passed, M failed'."""

import sys
import unittest

# Why a test may be skipped: what a Python lacks by its version. What the gate installs is no reason.
REASONS = ["no interpreter has a lock of its own before Python 3.12"]


def of_library(test):
    """Marks a test, or a class of them, of what the library answers: that is the same by each Python."""
    test.of_library = True
    return test


def of_interpreter(suite):
    """The tests of a suite that have no such mark: what they try goes by the interpreter too."""
    for test in suite:
        if isinstance(test, unittest.TestSuite):
            yield from of_interpreter(test)
        elif not hasattr(test, "of_library") and not hasattr(getattr(test, test._testMethodName), "of_library"):
            yield test


class Result(unittest.TextTestResult):
    passed = 0

    def addSuccess(self, test):
        super().addSuccess(test)
        self.passed += 1


def end(suites):
    """Runs suites by their names, in which there has to be a test, and names what was skipped."""
    tests = unittest.TestSuite(suites.values())
    empty = [name for name, suite in suites.items() if suite.countTestCases() == 0]
    result = unittest.TextTestRunner(sys.stdout, resultclass=Result).run(tests)
    skipped = [(test.id(), reason) for test, reason in result.skipped]
    failed = {test.id().split(" ")[0] for test, _ in result.failures + result.errors}
    failed |= {test.id() for test in result.unexpectedSuccesses}
    failed |= {name for name, reason in skipped if reason not in REASONS}
    for name in empty:
        print(f"FAILED: {name} has no test")
    for name, reason in skipped:
        print(f"skipped: {name}: {reason}")
    wrong = len(failed) + len(empty)
    print(f"{result.passed} passed, {wrong} failed")
    sys.exit(wrong > 0 or result.passed == 0)
