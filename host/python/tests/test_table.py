"""The example that lets the keys of many captures meet in one table, on a small set."""

import importlib.util
import os
import re
import shutil
import subprocess
import sys
import tempfile
import unittest
from pathlib import Path
from unittest import mock

from tests.support import ROOT, bank_of
from tulonkasa import CAPTURE_BYTES, Capture, Entry, Refused, Tile, split

EXAMPLES = ROOT / "host" / "python" / "examples"


def example(name):
    """An example's program as a module."""
    wanted = importlib.util.spec_from_file_location(name, EXAMPLES / f"{name}.py")
    module = importlib.util.module_from_spec(wanted)
    wanted.loader.exec_module(module)
    return module


TABLE, SCALE = example("table"), example("scale")
SCALE_PAGE = (ROOT / "docs" / "SCALE.md").read_text()
ONE = Tile(fmt=4, siz=1, width=1, height=1)


def record(seen, leftover, tile=ONE):
    """A record whose picture is one byte."""
    return bytes(tile) + bytes(bank_of({0: bytes([seen, leftover])}))


def commands_of(text):
    """The lines of a text that are commands over the table."""
    lines = [line.split("#")[0].strip() for line in text.splitlines() if line.startswith("    ")]
    return [line for line in lines if line.startswith("ls ") or line.endswith("captures.db")]


class Lines(list):
    """Stands in for Spark's distributed lists, with what the page uses of them."""

    def map(self, change):
        return Lines(map(change, self))

    def filter(self, keep):
        return Lines(filter(keep, self))

    def pipe(self, command):
        words = [sys.executable, EXAMPLES / command.split()[0], *command.split()[1:]]
        return Lines(
            subprocess.run(words, input="\n".join(self), capture_output=True, text=True, check=True).stdout.splitlines()
        )

    def reduceByKey(self, choose):
        found = {}
        for key, value in self:
            found[key] = choose(found[key], value) if key in found else value
        return Lines(found.items())

    def sortBy(self, key):
        return Lines(sorted(self, key=key))

    def zipWithIndex(self):
        return Lines((one, number) for number, one in enumerate(self))


class Table(unittest.TestCase):
    def setUp(self):
        room = tempfile.TemporaryDirectory()
        self.addCleanup(room.cleanup)
        self.room = Path(room.name)

    def run_table(self, *arguments, text="", status=0):
        """Runs the example, and gives its lines; where it must fail, what it says."""
        done = subprocess.run(
            [sys.executable, EXAMPLES / "table.py", *arguments], input=text, cwd=self.room, capture_output=True, text=True
        )
        self.assertEqual(done.returncode, status, done.stderr)
        return done.stderr if status else done.stdout

    def meet(self, *files, name="captures.db"):
        """The keys of captures, met in a table; and the sides of all in it, by file and number: digest, group, side."""
        self.run_table("meet", name, text=self.run_table("keys", *files))
        lines = [line.split("\t") for line in self.run_table("sides", name).splitlines()]
        return {(file, int(number)): (digest, int(group), side) for file, number, digest, group, side in lines}

    def by_hand(self, *files):
        """The same by the library's splitter, of at most 4,096 records."""
        keys = {}
        for file in files:
            for one in Capture(self.room / file):
                try:
                    keys[file, one.number] = one.key()
                except Refused:
                    pass
        sides = split(Entry.of(number, key) for number, key in enumerate(keys.values())).sides
        groups = {key: number for number, key in enumerate(dict.fromkeys(keys.values()))}
        return {place: (key.digest, groups[key], str(side)) for (place, key), side in zip(keys.items(), sides)}

    def test_drawn_captures(self):
        SCALE.make(str(self.room), 400, 4, 7)
        files = [f"{number:04}.bin" for number in range(4)]
        made = self.meet(*files)
        self.assertEqual(made, self.by_hand(*files))
        self.assertEqual(len(made), 400)
        self.assertLess(len({group for _, group, _ in made.values()}), 100)
        self.assertEqual({side for _, _, side in made.values()}, {"tuning", "held out"})

    def test_as_many_as_the_library_splits(self):
        (self.room / "many.bin").write_bytes(b"".join(record(number * number % 251, number % 256) for number in range(4096)))
        made = self.meet("many.bin")
        self.assertEqual(made, self.by_hand("many.bin"))
        self.assertEqual(len(made), 4096)

    def test_captures_that_come_later(self):
        SCALE.make(str(self.room), 200, 4, 8)
        files = [f"{number:04}.bin" for number in range(4)]
        first = self.meet(*files[:2])
        later = self.meet(*files[2:])
        self.assertEqual({place: later[place] for place in first}, first)
        self.assertEqual(later, self.meet(*files, name="at-once.db"))

    def test_names_by_standard_input(self):
        (self.room / "a.bin").write_bytes(record(1, 2))
        self.assertEqual(self.run_table("keys", text="a.bin\n"), self.run_table("keys", "a.bin"))

    def test_the_commands_of_its_words(self):
        SCALE.make(str(self.room), 40, 4, 9)
        commands = commands_of(TABLE.__doc__)
        self.assertEqual(len(commands), 3)
        self.assertEqual(commands, commands_of(SCALE_PAGE))
        shutil.copyfile(EXAMPLES / "table.py", self.room / "table.py")
        os.chmod(self.room / "table.py", 0o755)
        environment = {**os.environ, "PATH": f"{self.room}:{os.environ['PATH']}", "PYTHONPATH": str(EXAMPLES.parent)}
        done = subprocess.run(
            ["sh", "-ec", "\n".join(commands)], cwd=self.room, env=environment, capture_output=True, text=True, check=True
        )
        self.assertIn("40 records met, 0 refused", done.stdout)
        self.assertEqual(len(done.stdout.splitlines()), 41)

    def test_the_query_of_the_page(self):
        (self.room / "a.bin").write_bytes(record(1, 0) + record(2, 0) + record(1, 9))
        self.meet("a.bin")
        (query,) = [line.strip() for line in SCALE_PAGE.splitlines() if line.startswith("    SELECT ")]
        with TABLE.opened(self.room / "captures.db") as table:
            self.assertEqual(table.execute(query).fetchall(), [(0, 2, "a.bin:0,a.bin:2")])

    def test_the_lines_for_spark(self):
        SCALE.make(str(self.room), 120, 3, 4)
        files = [f"{number:04}.bin" for number in range(3)]
        code = re.findall(r"^    ((?:lines|rows|first|groups|sides) = .*)$", SCALE_PAGE, re.M)
        self.assertEqual(len(code), 5)
        spark = mock.Mock()
        spark.sparkContext.parallelize = lambda names, count: Lines(names)
        known = {"spark": spark, "names": [str(self.room / file) for file in files]}
        exec("\n".join(code), known)
        due = {digest: side for digest, _, side in self.meet(*files).values()}
        self.assertEqual({digest: side for (digest, _), side in known["sides"]}, due)
        self.assertIn("held out", due.values())

    def test_refused_records_take_no_part(self):
        wide = Tile(fmt=4, siz=1, width=4097, height=1)
        (self.room / "a.bin").write_bytes(record(1, 0) + record(2, 0, wide) + record(1, 9))
        made = self.meet("a.bin")
        self.assertEqual({place: group for place, (_, group, _) in made.items()}, {("a.bin", 0): 0, ("a.bin", 2): 0})
        self.assertIn("refused\ta.bin\t1\trefusal 2: ", self.run_table("keys", "a.bin"))

    def test_the_body_decides_and_not_the_digest(self):
        (self.room / "a.bin").write_bytes(record(1, 0) + record(1, 5))
        (one, _) = Capture(self.room / "a.bin")
        with TABLE.opened(self.room / "captures.db") as table, table:
            table.execute("INSERT INTO bodies VALUES (0, ?, ?)", (one.key().digest, TABLE.packed(bytes(4113))))
        made = self.meet("a.bin")
        self.assertEqual([group for _, group, _ in made.values()], [1, 1])

    def test_all_or_nothing(self):
        (self.room / "a.bin").write_bytes(record(1, 0) + record(2, 0))
        lines = self.run_table("keys", "a.bin").splitlines(keepends=True)
        digest = lines[1].split("\t")[0]
        wrong = lines[1].replace(digest, "0" * 64)
        self.assertIn("is not the digest of its line's body", self.run_table("meet", "t.db", text=lines[0] + wrong, status=1))
        self.assertEqual(self.run_table("sides", "t.db"), "")
        self.run_table("meet", "t.db", text="".join(lines))
        self.assertIn("UNIQUE constraint failed", self.run_table("meet", "t.db", text=lines[0], status=1))
        self.assertEqual(len(self.run_table("sides", "t.db").splitlines()), 2)

    def test_what_is_wrong(self):
        (self.room / "torn.bin").write_bytes(record(1, 0) + bytes(9))
        self.assertIn("torn.bin ends inside record 1: 9 of its 4,112 bytes", self.run_table("keys", "torn.bin", status=1))
        self.assertIn("No such file", self.run_table("keys", "none.bin", status=1))
        for arguments in ((), ("other",), ("meet",), ("sides", "a", "b")):
            self.assertIn("table.py keys [CAPTURE..]", self.run_table(*arguments, status=2))


class Scale(unittest.TestCase):
    def test_a_small_one(self):
        with tempfile.TemporaryDirectory() as room:
            done = subprocess.run(
                [sys.executable, EXAMPLES / "scale.py", "50", "3"],
                env={**os.environ, "TMPDIR": room},
                capture_output=True,
                text=True,
                check=True,
            )
            self.assertEqual(os.listdir(room), [])
        words = [line.split("\t")[0] for line in done.stdout.splitlines()]
        self.assertEqual([word for word in words if word in ("step", "keys", "meet", "sides")], ["step", "keys", "meet", "sides"])
        self.assertIn("50 records met, 0 refused", done.stdout)

    def test_its_captures(self):
        with tempfile.TemporaryDirectory() as room:
            SCALE.make(room, 50, 3, 1)
            self.assertEqual(sum(path.stat().st_size for path in Path(room).iterdir()), 50 * CAPTURE_BYTES)
            first = [path.read_bytes() for path in sorted(Path(room).iterdir())]
            SCALE.make(room, 50, 3, 1)
            self.assertEqual([path.read_bytes() for path in sorted(Path(room).iterdir())], first)
            for file in Path(room).iterdir():
                for one in Capture(file):
                    kind = SCALE.TILES.index(one.tile)
                    self.assertLess(max(address for address in one.tile.reach()), 2048)
                    self.assertLessEqual(one.key().kept, SCALE.SEEN[kind] + 2 * 16)
