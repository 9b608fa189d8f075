"""Runs the command as a user does, and reads what it wrote."""

import contextlib
import os
import pty
import struct
import subprocess
import sys
import tempfile
import unittest
import zlib
from pathlib import Path

sys.dont_write_bytecode = True  # no compiled files are left beside the tests
import expected

COMMAND = expected.ROOT / "tulonkasa"
# Settings of Python, such as one against buffers, are a user's affair.
ENVIRONMENT = {name: value for name, value in os.environ.items() if not name.startswith("PYTHON")}
sys.path.insert(0, str(expected.ROOT / "host" / "python"))


class Ran:
    """How a run of the command went."""

    def __init__(self, done):
        self.status = done.returncode
        self.out = done.stdout
        self.error = done.stderr.decode()

    @property
    def rows(self):
        """The table's lines as lists of cells."""
        return [line.split("\t") for line in self.out.decode().splitlines()]


class CommandTest(unittest.TestCase):
    """A test with a folder of its own."""

    maxDiff = None

    def setUp(self):
        room = tempfile.TemporaryDirectory()
        self.addCleanup(room.cleanup)
        self.room = Path(room.name)

    def run_command(self, *arguments, given=b"", **options):
        """Runs the command in the test's folder."""
        options = {"stdout": subprocess.PIPE, "env": ENVIRONMENT, **options}
        words = [str(COMMAND), *map(str, arguments)]
        return Ran(subprocess.run(words, input=given, stderr=subprocess.PIPE, cwd=self.room, timeout=120, **options))

    def prints(self, status, rows, *arguments, **options):
        """The command ends with this status, prints these lines and says nothing else."""
        ran = self.run_command(*arguments, **options)
        self.assertEqual(ran.error, "")
        self.assertEqual(ran.rows, [[str(cell) for cell in row] for row in rows])
        self.assertEqual(ran.status, status)

    def fails(self, status, sentence, *arguments, **options):
        """The command ends with this status and says this sentence, and no other."""
        ran = self.run_command(*arguments, **options)
        self.assertEqual(ran.error, f"tulonkasa {arguments[0]}: {sentence}\n")
        self.assertEqual(ran.status, status)
        return ran

    def write(self, name, data):
        """A file in the test's folder."""
        path = self.room / name
        path.write_bytes(data)
        return path

    def names(self, folder="."):
        """The names in a folder of the test's, hidden ones too."""
        return sorted(os.listdir(self.room / folder))


@contextlib.contextmanager
def terminal():
    """The end of a terminal to hand to a program, which is closed here afterwards; and a function that then answers all that the program
    said there, once it has ended."""
    master, slave = pty.openpty()

    def said():
        parts = []
        with contextlib.suppress(OSError):  # that is how a terminal ends
            while part := os.read(master, 65536):
                parts.append(part)
        os.close(master)
        return b"".join(parts).decode()

    try:
        yield slave, said
    finally:
        os.close(slave)


def png_size_and_texels(data):
    """Width, height and texels of a PNG file of eight bits a channel, with alpha, whose rows are stored as they are."""
    assert data[:8] == b"\x89PNG\r\n\x1a\n", data[:8]
    parts, at = {}, 8
    while at < len(data):
        length, kind = struct.unpack_from(">I4s", data, at)
        inside = data[at + 8 : at + 8 + length]
        assert struct.unpack_from(">I", data, at + 8 + length)[0] == zlib.crc32(kind + inside), kind
        parts[kind] = parts.get(kind, b"") + inside
        at += 12 + length
    width, height, *rest = struct.unpack(">2I5B", parts[b"IHDR"])
    assert rest == [8, 6, 0, 0, 0], rest
    rows = zlib.decompress(parts[b"IDAT"])
    step = 4 * width + 1
    assert len(rows) == step * height and not any(rows[::step]), "a filter"
    return width, height, b"".join(rows[step * y + 1 : step * (y + 1)] for y in range(height))
