"""What goes wrong: one sentence, an exit code, and no half a file. And what a person at a terminal is told."""

import contextlib
import os
import re
import subprocess
import time
import unittest

import expected
from expected import CAPTURE, COMPANION, REPLAY
from harness import COMMAND, ENVIRONMENT, CommandTest, terminal
from tulonkasa import command

COMMANDS = ("keys", "groups", "sheet", "dump", "find", "diff", "reads", "split", "check", "replay")
# Each command with a capture, whose name stands for CAPTURE, and what else it takes.
WITH_CAPTURE = {
    "keys": ["CAPTURE"],
    "groups": ["CAPTURE"],
    "sheet": ["CAPTURE", "sheet.html"],
    "dump": ["CAPTURE", "pictures"],
    "find": [".", "CAPTURE"],
    "diff": ["CAPTURE", str(CAPTURE)],
    "reads": ["CAPTURE", "50"],
    "split": ["CAPTURE"],
    "check": ["CAPTURE", str(CAPTURE)],
    "replay": ["CAPTURE", str(COMPANION)],
}


class Inputs(CommandTest):
    def each(self, name):
        """Each command, with this name of its capture."""
        for command, words in WITH_CAPTURE.items():
            with self.subTest(command):
                yield command, [name if word == "CAPTURE" else word for word in words]

    def test_missing_file(self):
        for command, words in self.each("nothing.bin"):
            self.fails(2, "there is no file nothing.bin.", command, *words)
            self.assertNotIn("sheet.html", self.names())

    def test_folder(self):
        (self.room / "folder").mkdir()
        for command, words in self.each("folder"):
            self.fails(2, "folder is a folder, and a file is needed.", command, *words)

    def test_torn(self):
        """A record and a byte of the next one; where entries or records of a replay are due, these."""
        torn = {"check": bytes(4) + expected.body(0) + b"1", "replay": REPLAY.read_bytes()[:49]}
        whole = {"check": "4,117", "replay": "48"}
        for command, words in self.each("torn.bin"):
            data = torn.get(command, expected.record(0) + b"1")
            self.write("torn.bin", data)
            sentence = f"ends inside record 1: 1 of its {whole.get(command, '4,112')} bytes are there."
            self.fails(2, f"torn.bin {sentence}", command, *words)
            words = ["-" if word == "torn.bin" else word for word in words]
            self.fails(2, f"standard input {sentence}", command, *words, given=data)
            self.assertNotIn("sheet.html", self.names())

    def test_lines_before_the_torn_record(self):
        ran = self.run_command("keys", "-", given=expected.record(0) + b"1")
        self.assertEqual([row[0] for row in ran.rows], ["record", "0"])


class Outputs(CommandTest):
    def test_full_disk(self):
        for command, words in WITH_CAPTURE.items():
            given = {"check": REPLAY, "replay": REPLAY}.get(command, CAPTURE)
            words = [str(given) if word == "CAPTURE" else word.replace("50", "0") for word in words]
            if command == "sheet":
                words[-1] = "-"
            if command == "check":
                words = [self.write("entries.bin", bytes(4) + expected.body(0)), self.write("banks.bin", expected.bank(0))]
            with self.subTest(command), open("/dev/full", "wb") as full:
                self.fails(2, "standard output: No space left on device.", command, *words, stdout=full)

    def test_full_disk_as_a_file(self):
        self.fails(2, "/dev/full: No space left on device.", "sheet", CAPTURE, "/dev/full")
        self.fails(2, "/dev/full: No space left on device.", "reads", CAPTURE, 0, "/dev/full")
        self.assertTrue(os.path.exists("/dev/full") and not os.path.isfile("/dev/full"))

    def test_a_file_that_is_too_large_leaves_the_old_one(self):
        """The page has some hundred thousand bytes, and a file may have forty thousand here."""
        self.write("sheet.html", b"old")
        words = ["bash", "-c", 'ulimit -f 40; trap "" XFSZ; exec "$@"', "-", str(COMMAND), "sheet", str(CAPTURE), "sheet.html"]
        ran = subprocess.run(words, cwd=self.room, capture_output=True, env=ENVIRONMENT)
        self.assertEqual((ran.returncode, ran.stderr), (2, b"tulonkasa sheet: sheet.html: File too large.\n"))
        self.assertEqual((self.names(), (self.room / "sheet.html").read_bytes()), (["sheet.html"], b"old"))

    def test_names_that_are_no_file(self):
        (self.room / "folder").mkdir()
        self.write("file", b"")
        self.fails(2, "folder is a folder, and a file is needed.", "sheet", CAPTURE, "folder")
        self.fails(2, "there is no file none/sheet.html.", "sheet", CAPTURE, "none/sheet.html")
        self.fails(2, "file is not a folder.", "dump", CAPTURE, "file")
        self.fails(2, "file is not a folder.", "find", "file", CAPTURE)
        self.fails(2, "there is no folder none.", "find", "none", CAPTURE)
        self.assertEqual(self.names(), ["file", "folder"])

    def test_a_slip_overwrites_no_capture(self):
        """As where a shell's star stands for two captures."""
        self.write("a.bin", expected.record(0))
        self.write("b.bin", expected.record(1))
        self.fails(2, "b.bin is to be written, and does not end in .html or .htm.", "sheet", "a.bin", "b.bin")
        self.fails(2, "b.bin is to be written, and does not end in .png or .pam.", "reads", "a.bin", 0, "b.bin")
        self.fails(2, "new is to be written, and does not end in .html or .htm.", "sheet", "a.bin", "new")
        self.assertEqual((self.names(), (self.room / "b.bin").read_bytes()), (["a.bin", "b.bin"], expected.record(1)))

    def test_link_stays_one(self):
        self.write("page.html", b"old")
        (self.room / "link.html").symlink_to("page.html")
        self.assertEqual(self.run_command("sheet", "-", "link.html", given=expected.record(0)).status, 0)
        self.assertTrue((self.room / "link.html").is_symlink())
        self.assertIn(b"<h1>standard input</h1>", (self.room / "page.html").read_bytes())

    def test_reader_that_goes_away(self):
        words = f"yes | head -c 41120000 | {COMMAND} keys - 2>said | head -n 1 >line"
        subprocess.run(["bash", "-c", words], cwd=self.room, env=ENVIRONMENT, check=True)
        self.assertEqual((self.room / "line").read_bytes(), b"record\tdigest\tsize\tkept\trefusal\n")
        self.assertEqual((self.room / "said").read_bytes(), b"")


class Use(CommandTest):
    def test_help(self):
        environment = {**ENVIRONMENT, "COLUMNS": "80"}
        text = self.run_command("--help", env=environment).out.decode()
        for command in COMMANDS:
            self.assertRegex(text, rf"(?m)^    {command} ")
            ran = self.run_command(command, "--help", env=environment)
            self.assertEqual((ran.status, ran.error), (0, ""))
            self.assertIn(f"\nexamples:\n  tulonkasa {command} ", ran.out.decode())
            self.assertIn("\nexit codes:\n  0  done\n", ran.out.decode())
            self.assertLess(max(map(len, ran.out.decode().splitlines())), 81, command)

    def test_version(self):
        header = (expected.ROOT / "include" / "tulonkasa.h").read_text(encoding="utf-8")
        numbers = re.findall(r"^#define TK_VERSION_(?:MAJOR|MINOR|PATCH) (\d+)", header, re.M)
        ran = self.run_command("--version")
        self.assertEqual((ran.status, ran.out.decode(), ran.error), (0, f"tulonkasa {'.'.join(numbers)}\n", ""))
        environment = {**ENVIRONMENT, "TULONKASA_SHARED": str(self.room / "none.so")}
        sentence = f"{self.room}/none.so is missing. Make it with host/archive, or name it by TULONKASA_SHARED."
        self.assertEqual(self.fails(2, sentence, "--version", env=environment).out, b"")

    def test_examples_of_the_helps(self):
        """Each is run where the samples are, with a partner's files: it ends with 0 or 1, and says nothing but its table."""
        (self.room / "samples").symlink_to(expected.SAMPLES)
        entry = bytes(4) + expected.body(0)
        for name, data in (("partner.bin", entry), ("entries.bin", entry), ("banks.bin", expected.bank(0))):
            self.write(name, data)
        environment = {**ENVIRONMENT, "PATH": f"{expected.ROOT}:{ENVIRONMENT['PATH']}"}
        examples = "\n".join(part.EXAMPLES for part in (command, *command.COMMANDS))
        lines = re.sub(r"\\\n +", "", examples).splitlines()
        for line in lines:
            words = re.sub(r"   +[^ ].*", "", line.strip())  # without what it is for
            if not words.startswith("#"):
                done = subprocess.run(["bash", "-c", words], cwd=self.room, env=environment, capture_output=True, text=True)
                self.assertIn((done.returncode, done.stderr), [(0, ""), (1, "")], words)
        self.assertGreater(len(lines), 2 * len(COMMANDS))

    def test_bad_use(self):
        for words in ([], ["nothing"], ["keys"], ["keys", "a", "b"], ["dump", CAPTURE], ["keys", "--loud", CAPTURE]):
            ran = self.run_command(*words)
            self.assertEqual((ran.status, ran.out), (2, b""), words)
            self.assertTrue(ran.error.startswith("usage: tulonkasa"), ran.error)

    def test_as_a_module(self):
        environment = {**ENVIRONMENT, "PYTHONPATH": str(expected.ROOT / "host" / "python"), "PYTHONDONTWRITEBYTECODE": "1"}
        words = ["python3", "-m", "tulonkasa", "keys", str(CAPTURE)]
        done = subprocess.run(words, cwd=self.room, capture_output=True, env=environment)
        self.assertEqual((done.returncode, done.stdout), (1, self.run_command("keys", CAPTURE).out))

    def test_library_is_missing(self):
        environment = {**ENVIRONMENT, "TULONKASA_SHARED": str(self.room / "none.so")}
        sentence = f"{self.room}/none.so is missing. Make it with host/archive, or name it by TULONKASA_SHARED."
        self.assertEqual(self.fails(2, sentence, "keys", CAPTURE, env=environment).out, b"")

    def test_closed_input_and_output(self):
        """Standard output first: nobody could read a table."""
        for closed, sentence in ((">&-", "standard output is closed."), ("<&-", "standard input is closed.")):
            done = subprocess.run(["bash", "-c", f"{COMMAND} keys - {closed}"], capture_output=True, env=ENVIRONMENT, text=True)
            self.assertEqual((done.returncode, done.stderr), (2, f"tulonkasa keys: {sentence}\n"))

    def test_interrupted(self):
        """It ends with the code of an interrupt, without a word."""
        words = [str(COMMAND), "keys", "-"]
        done = subprocess.Popen(words, stdin=subprocess.PIPE, stdout=subprocess.PIPE, stderr=subprocess.PIPE, env=ENVIRONMENT)
        done.stdin.write(expected.record(0))
        done.stdin.flush()
        time.sleep(1)
        done.send_signal(2)
        self.assertEqual((done.communicate()[1], done.returncode), (b"", 130))


class Terminal(CommandTest):
    def told(self, *words):
        """What the command says on a terminal of two records, of which the second comes late."""
        streams = dict(stdin=subprocess.PIPE, stdout=subprocess.DEVNULL, cwd=self.room, env=ENVIRONMENT)
        with terminal() as (slave, said):
            done = subprocess.Popen([str(COMMAND), *words], stderr=slave, **streams)
        with contextlib.closing(done.stdin):
            done.stdin.write(expected.record(0))
            done.stdin.flush()
            time.sleep(1.5)
            done.stdin.write(expected.record(expected.numbered("film without a palette")))
        text = said()
        self.assertEqual(done.wait(), 1)
        return text

    def test_progress_and_totals(self):
        self.assertEqual(self.told("keys", "-"), "\rrecords: 1\r\033[K2 records, of which 1 refused.\r\n")

    def test_table_on_the_terminal_has_no_progress_in_it(self):
        with terminal() as (slave, said):
            streams = dict(stdin=subprocess.PIPE, stdout=slave, stderr=slave, cwd=self.room, env=ENVIRONMENT)
            done = subprocess.Popen([str(COMMAND), "keys", "-"], **streams)
        with contextlib.closing(done.stdin):
            done.stdin.write(expected.record(0))
            done.stdin.flush()
            time.sleep(1)
            done.stdin.write(expected.record(0))
        lines = said().split("\r\n")
        self.assertEqual((done.wait(), [line.split("\t")[0] for line in lines[:3]]), (0, ["record", "0", "1"]))
        self.assertEqual(lines[3:], ["2 records, of which 0 refused.", ""])

    def test_totals_of_each(self):
        self.assertTrue(self.told("groups", "-").endswith("1 group of 1 key; 1 record refused.\r\n"))
        self.assertTrue(self.told("sheet", "-", "sheet.html").endswith("sheet.html: 1 picture of 2 records, 1 refused.\r\n"))
        self.assertTrue(self.told("dump", "-", "pictures").endswith("pictures: 1 new picture.\r\n"))
        self.assertTrue(self.told("find", "pictures", "-").endswith("1 record with a replacement.\r\n"))


class FirstCommand(CommandTest):
    """samples/sheet, which a newcomer runs first."""

    SCRIPT = expected.SAMPLES / "sheet"

    def ran(self, *words, **settings):
        environment = {**ENVIRONMENT, **settings}
        return subprocess.run([str(self.SCRIPT), *words], cwd=self.room, capture_output=True, text=True, env=environment)

    def test_page(self):
        done = self.ran(str(CAPTURE), "page.html")
        self.assertEqual((done.returncode, done.stdout, done.stderr), (0, "Open page.html in a browser.\n", ""))
        self.run_command("sheet", CAPTURE, "sheet.html")
        self.assertEqual((self.room / "page.html").read_bytes(), (self.room / "sheet.html").read_bytes())

    def test_standard_input(self):
        words = f"{self.SCRIPT} - page.html <{CAPTURE}"
        done = subprocess.run(["bash", "-c", words], cwd=self.room, capture_output=True, env=ENVIRONMENT)
        self.assertEqual((done.returncode, self.names()), (0, ["page.html"]))

    def test_drawn_capture_is_the_usual_one(self):
        page = expected.ROOT / "target" / "sheet.html"
        page.unlink(missing_ok=True)
        self.assertEqual(self.ran().stdout, f"Open {page} in a browser.\n")
        self.assertIn("<h1>drawn.bin</h1>", page.read_text(encoding="utf-8"))

    def test_missing_capture_is_said_before_anything_is_proved(self):
        missing = {"TULONKASA_SHARED": str(self.room / "none.so")}
        done = self.ran("nothing.bin", **missing)
        self.assertEqual((done.returncode, done.stderr), (2, "samples/sheet: there is no file nothing.bin.\n"))
        done = self.ran(".", **missing)
        self.assertEqual((done.returncode, done.stderr), (2, "samples/sheet: there is no file ..\n"))
        self.assertEqual(self.ran("a", "b", "c").returncode, 2)

    def test_library_is_made_at_the_first_run(self):
        """With a toolchain that only says that it was called, and fails: what takes so long is said before it is."""
        self.write("rt", b"#!/bin/sh\necho rt was called\nexit 3\n").chmod(0o755)
        settings = {"PATH": f"{self.room}:{ENVIRONMENT['PATH']}", "TULONKASA_SHARED": str(self.room / "none.so")}
        done = self.ran(str(CAPTURE), "page.html", **settings)
        page = expected.ROOT / "docs" / "sheet.html"
        first = (
            f"samples/sheet: {page} is the page of samples/drawn.bin, to look at in a browser. To make it, or another, the library is "
            "proved and compiled first, which takes five minutes, this once.\n"
        )
        self.assertEqual((done.returncode, done.stdout, done.stderr), (3, "", first + "rt was called\n"))
        self.assertEqual(self.names(), ["rt"])

    def test_torn_capture_fails(self):
        self.write("torn.bin", b"1")
        done = self.ran("torn.bin", "page.html")
        self.assertEqual((done.returncode, self.names()), (2, ["torn.bin"]))


if __name__ == "__main__":
    unittest.main()
