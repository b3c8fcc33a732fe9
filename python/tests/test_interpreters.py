"""The package in more than one interpreter of a process."""

import subprocess
import sys
import unittest

# Creates an interpreter: the first that shares the lock of the others, the second that has its own.
SHARED = """
try:
    import _interpreters as _x
    new = _x.create("legacy")
except ImportError:
    import _xxsubinterpreters as _x
    new = _x.create(isolated=False) if sys.version_info >= (3, 10) else _x.create()
"""
OWN = """
try:
    import _interpreters as _x
    new = _x.create("isolated")
except ImportError:
    import _xxsubinterpreters as _x
    new = _x.create()
"""
# What both do.
WORK = """
import versions
assert versions.kinds(["1.2", versions.Version("1.2.3")]) == ["general", "ideal"]
assert versions.Version("1") < versions.Version("2")
assert versions.Version("1.2.3") in versions.Requirement("^1.2.3")
assert (versions.VersionSet("^1.2") & ~versions.VersionSet("=1.3")).has_all(["1.2", "1.3"]) == [True, False]
try:
    versions.Version("1..2")
except versions.InvalidVersion:
    pass
"""


class Interpreters(unittest.TestCase):
    def run_in(self, create, work, times=1):
        program = f"""
import sys
{WORK}
for _ in range({times}):
    {create.replace(chr(10), chr(10) + "    ")}
    error = _x.run_string(new, {work!r})
    assert error is None, error
    _x.destroy(new)
{WORK}
print("ended")
"""
        done = subprocess.run([sys.executable, "-c", program], stdout=subprocess.PIPE, stderr=subprocess.STDOUT)
        self.assertEqual((done.returncode, done.stdout), (0, b"ended\n"), done.stdout.decode())

    def test_in_a_second_interpreter(self):
        self.run_in(SHARED, WORK)

    @unittest.skipIf(sys.version_info < (3, 12), "no interpreter has a lock of its own before Python 3.12")
    def test_in_interpreters_with_a_lock_of_their_own(self):
        self.run_in(OWN, WORK, times=5)

    @unittest.skipIf(sys.version_info < (3, 12), "no interpreter has a lock of its own before Python 3.12")
    def test_interpreters_at_the_same_time(self):
        busy = WORK + """
texts = [f"{n % 7}.{n % 1000}.{n}" for n in range(20_000)]
for _ in range(5):
    assert len(versions.sorted(map(versions.Version, texts), reverse=True)) == 20_000
    assert len(versions.Requirement(">=3.0.0").filter(map(versions.Version, texts))) == 11_428
    assert len((~versions.VersionSet("<3.0.0")).filter(map(versions.Version, texts))) == 11_428
"""
        program = f"""
import sys, threading
{WORK}
def work():
    {OWN.replace(chr(10), chr(10) + "    ")}
    said.append(_x.run_string(new, {busy!r}))
    _x.destroy(new)
said = []
threads = [threading.Thread(target=work) for _ in range(4)]
for thread in threads:
    thread.start()
for thread in threads:
    thread.join()
assert said == [None] * 4, said
print("ended")
"""
        done = subprocess.run([sys.executable, "-c", program], stdout=subprocess.PIPE, stderr=subprocess.STDOUT)
        self.assertEqual((done.returncode, done.stdout), (0, b"ended\n"), done.stdout.decode())
