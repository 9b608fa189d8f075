"""Where the shared library is found, and what is said where it is not."""

import os
import shutil
import subprocess
import sys
import tempfile
import unittest
from pathlib import Path

from tests.support import ROOT
from tulonkasa import library

PACKAGE = ROOT / "host" / "python" / "tulonkasa"
PROGRAM = "from tulonkasa import library, Tile\nTile().sampling()\nprint(library.load()._name)"


class Found(unittest.TestCase):
    """The package and the library, copied to where they may stand."""

    def setUp(self):
        room = tempfile.TemporaryDirectory()
        self.addCleanup(room.cleanup)
        self.room = Path(room.name).resolve()
        self.file = library.find()

    def install(self, package, *files):
        """Copies the package to a folder, and the library to files."""
        shutil.copytree(PACKAGE, self.room / package / "tulonkasa")
        for file in files:
            (self.room / file).parent.mkdir(parents=True, exist_ok=True)
            shutil.copyfile(self.file, self.room / file)

    def run_in(self, package, **environment):
        """Makes a call there, and gives the name of the library that was loaded, or the last line that was said."""
        environment = {**{name: value for name, value in os.environ.items() if name != library.VARIABLE}, **environment}
        done = subprocess.run(
            [sys.executable, "-B", "-c", PROGRAM], cwd=self.room / package, env=environment, capture_output=True, text=True
        )
        return (done.stdout or done.stderr).splitlines()[-1]

    def test_beside_the_package(self):
        self.install("here", "here/tulonkasa/libtulonkasa.so")
        self.assertEqual(self.run_in("here"), str(self.room / "here/tulonkasa/libtulonkasa.so"))

    def test_below_a_prefix(self):
        self.install("usr/lib/python", "usr/lib/libtulonkasa.so.1")
        self.assertEqual(self.run_in("usr/lib/python"), str(self.room / "usr/lib/libtulonkasa.so.1"))

    def test_below_site_packages(self):
        self.install("usr/lib/python3.11/site-packages", "usr/lib/libtulonkasa.so")
        self.assertEqual(self.run_in("usr/lib/python3.11/site-packages"), str(self.room / "usr/lib/libtulonkasa.so"))

    def test_in_a_repository(self):
        made = "target/staticlib" if os.uname().machine == "x86_64" else f"target/staticlib/{os.uname().machine}"
        self.install("host/python", f"{made}/libtulonkasa.so")
        self.assertEqual(self.run_in("host/python"), str(self.room / made / "libtulonkasa.so"))

    def test_by_name_and_then_nowhere_else(self):
        self.install("here", "here/tulonkasa/libtulonkasa.so", "other.so")
        named = {library.VARIABLE: str(self.room / "other.so")}
        self.assertEqual(self.run_in("here", **named), str(self.room / "other.so"))
        named = {library.VARIABLE: str(self.room / "none.so")}
        self.assertEqual(
            self.run_in("here", **named),
            f"tulonkasa.library.LibraryMissing: {self.room}/none.so is missing. "
            "Make it with host/archive, or name it by TULONKASA_SHARED.",
        )

    def test_missing(self):
        self.install("here")
        self.assertEqual(
            self.run_in("here"),
            "tulonkasa.library.LibraryMissing: libtulonkasa.so is missing. "
            "Make it with host/archive, or name it by TULONKASA_SHARED.",
        )

    def test_no_library(self):
        self.install("here")
        (self.room / "text.so").write_text("text")
        said = self.run_in("here", **{library.VARIABLE: str(self.room / "text.so")})
        self.assertRegex(said, r"text\.so can't be loaded \(.*\)\. Make it with host/archive")

    def test_an_older_library(self):
        self.install("here")
        (self.room / "old.c").write_text("int tk_older;\n")
        subprocess.run(["gcc", "-shared", "-o", self.room / "old.so", self.room / "old.c"], check=True)
        said = self.run_in("here", **{library.VARIABLE: str(self.room / "old.so")})
        self.assertRegex(said, r"old\.so has no tk_sampling: it is older\. Make it with host/archive")

    def test_importing_needs_none(self):
        self.install("here")
        done = subprocess.run([sys.executable, "-B", "-c", "import tulonkasa"], cwd=self.room / "here", env={})
        self.assertEqual(done.returncode, 0)
