"""Builds the extension `versions._library`: one for every CPython from 3.9 on, on each Linux of manylinux2014.

The library for C is linked into it. That is versions.h and libversions.a: in the folder that C_LIBRARY names by an
absolute path; where C_LIBRARY isn't set, in c/out of the tree that this folder `python` is in; and where that isn't
there, in the folders that pkg-config has of `versions`.
"""

import os
import re
import subprocess
import sysconfig
from pathlib import Path

from setuptools import Extension, setup
from setuptools.command.build_ext import build_ext

HERE = Path(__file__).resolve().parent
# For which the extension is built: x86_64 or aarch64.
MACHINE = sysconfig.get_platform().rpartition("-")[2]
# The newest glibc whose symbols an object may import that is tagged manylinux2014.
GLIBC = (2, 17)


def stop(sentence):
    # No exception of another type, since pip would show where it was raised.
    raise SystemExit(f"error: {sentence}")


def said_by(*command):
    """What a command writes, or an empty text where it fails."""
    environment = dict(os.environ, LC_ALL="C")
    try:
        done = subprocess.run(command, stdout=subprocess.PIPE, stderr=subprocess.DEVNULL, env=environment, text=True)
    except OSError:
        return ""
    return done.stdout.strip() if done.returncode == 0 else ""


def library():
    """The header and the archive of the library for C."""
    named = os.environ.get("C_LIBRARY")
    in_tree = HERE.parent / "c" / "out"
    if named:
        if not os.path.isabs(named):
            stop(f"C_LIBRARY has to be an absolute path, and is {named}")
        include = folder = Path(named)
    elif HERE.name == "python" and in_tree.is_dir():
        include = folder = in_tree
    else:
        # pkg-config writes a backslash before each space.
        include, folder = (
            Path(said_by("pkg-config", f"--variable={name}", "versions").replace("\\ ", " "))
            for name in ("includedir", "libdir")
        )
        if folder == Path():
            stop("the library for C was not found: set C_LIBRARY to the folder that c/build has built it in")
    files = include / "versions.h", folder / "libversions.a"
    for file in files:
        if not file.is_file():
            stop(f"there is no {file}: the library for C, which c/build builds, has it")
    return files


def check(path):
    """Stops where the object exports or imports what the tags cp39-abi3 and manylinux2014 don't promise."""
    said = said_by("readelf", "--wide", "--dynamic", "--dyn-syms", path)
    if not said:
        stop(f"readelf can't read {path} (Debian has readelf in the package binutils)")
    for needed in re.findall(r"\(NEEDED\).*\[(.*)\]", said):
        if needed not in ("libc.so.6", "ld-linux-aarch64.so.1"):
            stop(f"the extension needs {needed}, and may need libc.so.6 and glibc's loader alone")
    # As `12: 0000000000000000     0 FUNC    GLOBAL DEFAULT  UND memcpy@GLIBC_2.14 (2)`.
    for bound, section, symbol in re.findall(r"^ *\d+: \w+ +\w+ \w+ +(GLOBAL|WEAK) +\w+ +(\w+) (\S+)", said, re.M):
        name, _, version = symbol.partition("@")
        glibc = re.fullmatch(r"GLIBC_(\d+)\.(\d+)(\.\d+)?", version)
        if section != "UND":
            if name != "PyInit__library":
                stop(f"the extension exports {name}, and may export PyInit__library alone")
        elif version:
            if not glibc or (int(glibc[1]), int(glibc[2])) > GLIBC:
                stop(f"the extension imports {symbol}, and manylinux2014 has symbols up to GLIBC_2.17")
        elif bound == "GLOBAL" and not name.startswith(("Py", "_Py")):
            stop(f"the extension imports {name}, which neither Python nor the library for C has")


class Build(build_ext):
    def run(self):
        header, archive = library()
        of_header = re.search('^#define VERSIONS_VERSION "(.*)"$', header.read_text(encoding="utf-8"), re.M)
        version = self.distribution.get_version()
        if not of_header or of_header[1] != version:
            stop(f"{header} is not of version {version}, which the package has")
        if not Path(sysconfig.get_path("include"), "Python.h").is_file():
            stop("Python has no Python.h here (Debian has it in the package python3-dev)")
        for extension in self.extensions:
            extension.include_dirs.append(str(header.parent))
            extension.extra_objects.append(str(archive))
            extension.depends += [str(header), str(archive)]
        super().run()

    def build_extension(self, extension):
        super().build_extension(extension)
        check(self.get_ext_fullpath(extension.name))


setup(
    packages=["versions"],
    package_data={"versions": ["py.typed", "*.pyi"]},
    include_package_data=False,
    ext_modules=[
        Extension(
            "versions._library",
            [f"versions/_{name}.c" for name in ("library", "texts", "values", "sets", "arrow")],
            depends=["versions/_library.h"],
            define_macros=[("Py_LIMITED_API", "0x03090000")],
            py_limited_api=True,
            extra_compile_args=["-fvisibility=hidden"],
            extra_link_args=["-Wl,--strip-debug,-z,relro,-z,now"],
        )
    ],
    cmdclass={"build_ext": Build},
    options={"bdist_wheel": {"py_limited_api": "cp39", "plat_name": f"manylinux2014_{MACHINE}"}},
)
