"""Tests of the wheel and of the source distribution: what they hold, and how they are built, installed and removed.

    python_package.py FOLDER

FOLDER holds what python/build-wheel has built. It is run by the Python that built it, in a virtual environment with the
wheel. C_LIBRARY is a folder that c/build has built. The last line is 'N passed, M failed'.
"""

import email
import os
import re
import shutil
import subprocess
import sys
import sysconfig
import tarfile
import tempfile
import unittest
import zipfile
from pathlib import Path

TOP = Path(__file__).resolve().parent.parent.parent
BUILT = Path(sys.argv[1]).resolve()
LIBRARY = Path(os.environ["C_LIBRARY"]).resolve()
VERSION = re.search('^#define VERSIONS_VERSION "(.*)"$', (TOP / "c/versions.h").read_text(), re.M)[1]
WHEEL = f"proved_versions-{VERSION}-cp39-abi3-manylinux2014_x86_64.whl"
INFO = f"proved_versions-{VERSION}.dist-info"
C_SOURCES = {file.name for file in (TOP / "python/versions").iterdir() if file.suffix in (".c", ".h")}
SOURCES = {file.name for file in (TOP / "python/versions").iterdir() if file.suffix in (".py", ".pyi", ".typed")}
# With no C_LIBRARY, and no folder in which pkg-config finds anything.
NO_LIBRARY = {"PKG_CONFIG_LIBDIR": "/nowhere", "PKG_CONFIG_PATH": ""}


def run(*command, folder="/", **variables):
    """The status of a command, and all that it writes."""
    environment = {name: value for name, value in os.environ.items() if name != "C_LIBRARY"}
    # What is built here is thrown away: without optimization it takes a fraction of the time.
    environment.update({"CFLAGS": "-O0", **variables})
    done = subprocess.run(
        command, cwd=folder, env=environment, stdout=subprocess.PIPE, stderr=subprocess.STDOUT, text=True
    )
    return done.returncode, done.stdout


def names_of(option, file):
    """The names and the versions of the dynamic symbols that nm shows by an option."""
    status, said = run("nm", "--dynamic", option, str(file))
    assert status == 0, said
    return [tuple((line.split()[-1] + "@").split("@")[:2]) for line in said.splitlines()]


class Case(unittest.TestCase):
    def setUp(self):
        folder = tempfile.TemporaryDirectory()
        self.addCleanup(folder.cleanup)
        self.work = Path(folder.name)

    def succeeds(self, *command, **options):
        status, said = run(*command, **options)
        self.assertEqual(status, 0, said)
        return said


class Wheel(Case):
    def setUp(self):
        super().setUp()
        wheel = zipfile.ZipFile(BUILT / WHEEL)
        self.addCleanup(wheel.close)
        self.names = set(wheel.namelist())
        wheel.extractall(self.work)
        self.object = self.work / "versions/_library.abi3.so"

    def message(self, name):
        return email.message_from_string((self.work / INFO / name).read_text(encoding="utf-8"))

    def test_there_is_one_wheel(self):
        self.assertEqual([file.name for file in BUILT.glob("*.whl")], [WHEEL])

    def test_its_tag(self):
        said = self.message("WHEEL")
        self.assertEqual(said.get_all("Tag"), ["cp39-abi3-manylinux2014_x86_64"])
        self.assertEqual(said["Root-Is-Purelib"], "false")

    def test_its_files(self):
        package = {f"versions/{name}" for name in SOURCES | {"_library.abi3.so"}}
        self.assertEqual({name for name in self.names if not name.startswith(INFO)}, package)
        self.assertLessEqual({"__init__.py", "py.typed", "_library.pyi"}, SOURCES)
        # A newer setuptools has the licence in a folder of its own.
        info = {name[len(INFO) + 1 :].replace("licenses/", "") for name in self.names if name.startswith(INFO)}
        self.assertEqual(info, {"LICENSE", "METADATA", "RECORD", "WHEEL", "top_level.txt"})
        (licence,) = (name for name in self.names if name.endswith("/LICENSE"))
        self.assertEqual((self.work / licence).read_bytes(), (TOP / "LICENSE").read_bytes())

    def test_its_metadata(self):
        said = self.message("METADATA")
        wanted = {
            "Name": "proved-versions",
            "Version": VERSION,
            "Author": "Bozketh",
            "License": "MIT",
            "License-File": "LICENSE",
            "Requires-Python": ">=3.9",
            "Description-Content-Type": "text/markdown",
        }
        self.assertEqual({name: said[name] for name in wanted}, wanted)
        self.assertTrue(said["Summary"])
        self.assertIn("semver", said["Keywords"])
        self.assertEqual((said["Requires-Dist"], said["Project-URL"], said["Home-page"]), (None, None, None))
        classifiers = {
            "License :: OSI Approved :: MIT License",
            "Operating System :: POSIX :: Linux",
            "Programming Language :: Python :: Implementation :: CPython",
            "Typing :: Typed",
            *(f"Programming Language :: Python :: 3.{minor}" for minor in range(9, 14)),
        }
        self.assertLessEqual(classifiers, set(said.get_all("Classifier")))

    def test_its_long_description(self):
        description = self.message("METADATA").get_payload()
        self.assertEqual(description.strip(), (TOP / "python/README.md").read_text(encoding="utf-8").strip())
        # What it shows is so, and no link leads into the repository, which has no address.
        self.assertIn(">>> ", description)
        page = self.work / "description.txt"
        page.write_text(description, encoding="utf-8")
        self.succeeds(sys.executable, "-m", "doctest", str(page))
        self.assertEqual([link for link in re.findall(r"\]\((.*?)\)", description) if "://" not in link], [])

    def test_it_exports_one_symbol(self):
        self.assertEqual(names_of("--defined-only", self.object), [("PyInit__library", "")])

    def test_it_imports_what_the_tag_promises(self):
        imported = names_of("--undefined-only", self.object)
        versions = {version for _, version in imported if version}
        self.assertTrue(versions)
        for version in versions:
            self.assertRegex(version, r"^GLIBC_2\.\d+(\.\d+)?$")
            self.assertLessEqual(int(version.split(".")[1]), 17, imported)
        weak = {"__gmon_start__", "_ITM_deregisterTMCloneTable", "_ITM_registerTMCloneTable"}
        others = {name for name, version in imported if not version and not name.startswith(("Py", "_Py"))}
        self.assertLessEqual(others, weak)
        needed = re.findall(r"^ *NEEDED +(\S+)$", self.succeeds("objdump", "-p", str(self.object)), re.M)
        self.assertEqual(needed, ["libc.so.6"])


class SourceDistribution(Case):
    def test_its_files(self):
        (sdist,) = BUILT.glob("*.tar.gz")
        with tarfile.open(sdist) as archive:
            members = archive.getmembers()
        self.assertEqual([member.name for member in members if not (member.isfile() or member.isdir())], [])
        names = {member.name.partition("/")[2] for member in members if member.isfile()}
        top = {"LICENSE", "MANIFEST.in", "PKG-INFO", "README.md", "pyproject.toml", "setup.cfg", "setup.py"}
        package = {f"versions/{name}" for name in SOURCES | C_SOURCES}
        self.assertEqual({name for name in names if ".egg-info/" not in name}, top | package)
        self.assertLessEqual({"_library.c", "_library.h", "_arrow.c"}, C_SOURCES)


class Installing(Case):
    """Into a virtual environment that also has the setuptools of this Python, since nothing is taken from a network."""

    @classmethod
    def setUpClass(cls):
        folder = tempfile.TemporaryDirectory()
        cls.addClassCleanup(folder.cleanup)
        status, said = run(sys.executable, "-m", "venv", "--system-site-packages", folder.name)
        assert status == 0, said
        cls.python = str(Path(folder.name, "bin/python"))
        cls.site = Path(run(cls.python, "-c", "import sysconfig; print(sysconfig.get_path('platlib'))")[1].strip())

    def setUp(self):
        super().setUp()
        # The folder as it stands in a tree, in which the library is not built.
        self.folder = self.work / "python"
        shutil.copytree(TOP / "python", self.folder, ignore=shutil.ignore_patterns("out", "*.so", "__pycache__"))

    def pip(self, *words, **variables):
        return run(self.python, "-m", "pip", *words, folder=self.work, **variables)

    def installs(self, *words, **variables):
        """Installs, calls and removes, and compares the files that are there before and after."""
        before = sorted(self.site.rglob("*"))
        status, said = self.pip("install", "--no-build-isolation", *words, **variables)
        self.assertEqual(status, 0, said)
        self.assertGreater(len(list(self.site.rglob("*"))), len(before))
        call = "import versions; print(versions.__file__, versions.kind('1:1.0'))"
        said = self.succeeds(self.python, "-W", "error", "-X", "dev", "-c", call)
        self.assertEqual(said, f"{self.site}/versions/__init__.py general\n")
        status, said = self.pip("uninstall", "--yes", "proved-versions")
        self.assertEqual(status, 0, said)
        self.assertEqual(sorted(self.site.rglob("*")), before)

    def fails(self, sentence, **variables):
        """The build ends with a sentence, and shows nothing of where it was raised."""
        command = (self.python, "setup.py", "build_ext", "--build-lib", "built")
        status, said = run(*command, folder=self.folder, **variables)
        self.assertNotEqual(status, 0)
        self.assertRegex(said.splitlines()[-1], f"^error: {sentence}$")
        self.assertNotIn("Traceback", said)

    def fails_with(self, code, sentence, **variables):
        """The same where C code is added to the extension."""
        with open(self.folder / "versions/_library.c", "a", encoding="utf-8") as file:
            file.write(code)
        self.fails(sentence, C_LIBRARY=str(LIBRARY), **variables)

    def test_wheel(self):
        self.installs(str(BUILT / WHEEL))

    def test_sdist_with_c_library(self):
        (sdist,) = BUILT.glob("*.tar.gz")
        self.installs(str(sdist), C_LIBRARY=str(LIBRARY))

    def test_folder_beside_c_out(self):
        (self.work / "c").mkdir()
        (self.work / "c/out").symlink_to(LIBRARY)
        self.installs("./python", **NO_LIBRARY)

    def test_folder_with_pkg_config(self):
        folder = self.work / "a library"
        shutil.copytree(LIBRARY, folder)
        self.installs("./python", PKG_CONFIG_PATH=str(folder))

    def test_no_library_is_the_last_that_pip_shows_of_the_build(self):
        status, said = self.pip("install", "--no-build-isolation", "./python", **NO_LIBRARY)
        self.assertNotEqual(status, 0)
        self.assertNotIn("Traceback", said)
        self.assertRegex(said, r"\n +error: the library for C was not found: .*c/build.*\n +\[end of output\]\n")

    def test_out_beside_another_folder_is_not_taken(self):
        # As pip unpacks an sdist: into a folder of /tmp, where c/out may be anyone's.
        (self.work / "c").mkdir()
        (self.work / "c/out").symlink_to(LIBRARY)
        self.folder = self.folder.rename(self.work / "pip-req-build")
        self.fails("the library for C was not found: .*", **NO_LIBRARY)

    def test_a_folder_that_lacks_a_file(self):
        for file in ("versions.h", "libversions.a"):
            folder = self.work / f"without-{file}"
            shutil.copytree(LIBRARY, folder, ignore=shutil.ignore_patterns(file))
            self.fails(f"there is no {re.escape(str(folder))}/{file}: .*", C_LIBRARY=str(folder))
        self.fails("C_LIBRARY has to be an absolute path, and is c/out", C_LIBRARY="c/out")

    def test_a_library_of_another_version(self):
        folder = self.work / "other"
        shutil.copytree(LIBRARY, folder)
        header = folder / "versions.h"
        header.write_text(header.read_text().replace(f'"{VERSION}"', '"7.8.9"'))
        self.fails(f".*versions.h is not of version {re.escape(VERSION)}, .*", C_LIBRARY=str(folder))

    def test_a_symbol_above_the_tag(self):
        code = "\nextern int getentropy(void *, size_t);\nint planted(void *to) { return getentropy(to, 1); }\n"
        self.fails_with(code, r"the extension imports getentropy@GLIBC_2\.25, .*")

    def test_a_symbol_of_nobody(self):
        code = "\nint nobody(void);\nint planted(void) { return nobody(); }\n"
        self.fails_with(code, "the extension imports nobody, .*")

    def test_another_export(self):
        code = '\n__attribute__((visibility("default"))) int planted(void) { return 1; }\n'
        self.fails_with(code, "the extension exports planted, .*")

    def test_another_shared_object(self):
        self.fails_with("", r"the extension needs libm\.so\.6, .*", LDFLAGS="-Wl,--no-as-needed -lm")

    def test_the_compiler_has_no_warning(self):
        flags = "-Wall", "-Wextra", "-Werror", "-fsyntax-only", "-DPy_LIMITED_API=0x03090000"
        include = f"-isystem{sysconfig.get_path('include')}"
        sources = [str(TOP / "python/versions" / name) for name in sorted(C_SOURCES) if name.endswith(".c")]
        self.succeeds("cc", *flags, include, f"-I{LIBRARY}", *sources)


class Page(Case):
    """The commands of docs/PYTHON.md, in a folder with the package and the library as the repository has them."""

    def test_its_commands(self):
        page = (TOP / "docs/PYTHON.md").read_text(encoding="utf-8")
        blocks = re.findall(r"^```sh\n(.*?)^```$", page, re.M | re.S)
        self.assertEqual(len(blocks), 2)
        shutil.copytree(TOP / "python", self.work / "python", ignore=shutil.ignore_patterns("out", "__pycache__"))
        (self.work / "c").mkdir()
        shutil.copy(TOP / "c/target", self.work / "c")
        (self.work / "c/out").symlink_to(LIBRARY)
        # python3 is the Python that builds.
        path = f"{Path(shutil.which(os.environ['PYTHON'])).parent}:{os.environ['PATH']}"
        call = "import versions; print(versions.__file__, versions.kind('1:1.0'))"
        for block in blocks:
            self.succeeds("bash", "-euc", block, folder=self.work, PATH=path, C_LIBRARY=str(LIBRARY))
            said = self.succeeds(str(self.work / "environment/bin/python"), "-W", "error", "-c", call)
            self.assertRegex(said, f"^{self.work}/environment/lib/.*/versions/__init__.py general\n$")
            shutil.rmtree(self.work / "environment")


sys.path.insert(0, str(TOP / "python/tests"))
import counted  # noqa: E402

counted.end({"building and installing": unittest.defaultTestLoader.loadTestsFromModule(sys.modules["__main__"])})
