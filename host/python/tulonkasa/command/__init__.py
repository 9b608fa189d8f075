"""The command `tulonkasa`: keys, pictures and splits of captures, for a studio.

`tulonkasa --help` says what it does, and `tulonkasa COMMAND --help` shows examples. Each subcommand has a module of its own here, with
`HELP`, `EXAMPLES`, `arguments` (what it takes) and `run` (which answers the exit code).
"""

from __future__ import annotations

import argparse
import io
import os
import shutil
import signal
import sys
import textwrap
from collections.abc import Sequence
from typing import Any

from tulonkasa import LibraryMissing, library, version
from tulonkasa.command import check, diff, dump, find, groups, keys, reads, replay, sheet, split
from tulonkasa.command.files import Trouble
from tulonkasa.command.talk import BAD_USE

NAME = "tulonkasa"
COMMANDS = (keys, groups, sheet, dump, find, diff, reads, split, check, replay)
ABOUT = """\
Files the pictures of a capture under the bytes that making them reads, so that captures which differ only in leftover bytes have one key.

A capture is a file of records of 4,112 bytes: a tile record of 16, and the texture memory of 4,096. `-` stands for standard input. Tables
have a line that names the columns, and tabs between them."""
EXAMPLES = """\
  tulonkasa sheet samples/drawn.bin sheet.html   every picture, on one page
  tulonkasa groups samples/drawn.bin             which captures share a key
  tulonkasa dump samples/drawn.bin pictures      a file a picture, for painters
  tulonkasa find pictures samples/drawn.bin      the painted file of each record
  tulonkasa keys --help                          more about a command"""
EXITS = """\
  0  done
  1  done, and something was refused or differs
  2  bad use: a file is missing, torn or can't be written, or a word is wrong"""


class Version(argparse.Action):
    """Prints the version of the library, and ends the command."""

    def __call__(self, parser: argparse.ArgumentParser, namespace: object, values: object, option: str | None = None) -> None:
        try:
            print(NAME, ".".join(map(str, version())))
        except LibraryMissing as missing:
            parser.exit(ended("--version", str(missing)))
        parser.exit()


def parser() -> argparse.ArgumentParser:
    """What the command takes."""
    whole = argparse.ArgumentParser(prog=NAME, **laid_out(ABOUT, EXAMPLES))
    whole.add_argument("--version", action=Version, nargs=0, help="show the version of the library and exit")
    parts = whole.add_subparsers(metavar="COMMAND", required=True, title="commands")
    for command in COMMANDS:
        name = command.__name__.rpartition(".")[2]
        part = parts.add_parser(name, help=command.HELP, **laid_out(command.__doc__ or "", command.EXAMPLES))
        command.arguments(part)
        part.set_defaults(run=command.run, name=name)
    return whole


def laid_out(about: str, examples: str) -> dict[str, Any]:
    """How a help is laid out: what it is about, as wide as the terminal, and the examples as they are. So are indented lines."""
    width = min(shutil.get_terminal_size().columns - 2, 100)
    parts = [part if part.startswith(" ") else textwrap.fill(part, width) for part in about.split("\n\n")]
    return dict(
        description="\n\n".join(parts),
        epilog=f"examples:\n{examples}\n\nexit codes:\n{EXITS}",
        formatter_class=argparse.RawDescriptionHelpFormatter,
    )


def main(arguments: Sequence[str] | None = None) -> int:
    """Runs the command, and answers its exit code."""
    options = parser().parse_args(arguments)
    if sys.stdout is None:
        return ended(options.name, "standard output is closed")
    try:
        library.load()
        status: int = options.run(options)
        sys.stdout.flush()
    except Trouble as trouble:
        return ended(options.name, str(trouble), trouble.status)
    except LibraryMissing as missing:
        return ended(options.name, str(missing))
    except KeyboardInterrupt:
        return 128 + signal.SIGINT
    except OSError as error:
        # Files that are read or written have said their own names.
        leave_output()
        return ended(options.name, f"standard output: {error.strerror}")
    return status


def ended(name: str, sentence: str, status: int = BAD_USE) -> int:
    """Says why a command stopped, and answers its exit code."""
    print(f"{NAME} {name}: {sentence.rstrip('.')}.", file=sys.stderr)
    return status


def leave_output() -> None:
    """Sends what is still to be written nowhere, so that closing standard output does not fail again."""
    os.dup2(os.open(os.devnull, os.O_WRONLY), sys.stdout.fileno())


def run() -> None:
    """The command as a program. A reader that goes away, as `head` does, ends it quietly. Names of files are printed as they are."""
    signal.signal(signal.SIGPIPE, signal.SIG_DFL)
    if isinstance(sys.stdout, io.TextIOWrapper):
        sys.stdout.reconfigure(errors="surrogateescape")
    sys.exit(main())
