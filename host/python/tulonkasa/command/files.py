"""Files that a command reads and writes, and what it says when that fails."""

from __future__ import annotations

import contextlib
import os
import shutil
import sys
import tempfile
from collections.abc import Iterator
from pathlib import Path
from typing import IO, BinaryIO

from tulonkasa import Torn
from tulonkasa.command.talk import BAD_USE

STANDARD = "-"


class Trouble(Exception):
    """What stops a command, in one sentence, and the exit code that it then has."""

    def __init__(self, sentence: str, status: int = BAD_USE) -> None:
        super().__init__(sentence)
        self.status = status


def input_name(name: str) -> str:
    """A file's name as a person is told it."""
    return "standard input" if name == STANDARD else name


@contextlib.contextmanager
def explained(name: str) -> Iterator[None]:
    """Turns what the system says of a file into one sentence."""
    try:
        yield
    except FileNotFoundError:
        raise Trouble(f"there is no file {name}") from None
    except IsADirectoryError:
        raise Trouble(f"{name} is a folder, and a file is needed") from None
    except OSError as error:
        raise Trouble(f"{name}: {error.strerror or error}") from None


@contextlib.contextmanager
def opened(name: str) -> Iterator[BinaryIO]:
    """A file to read; `-` is standard input."""
    if name == STANDARD:
        if sys.stdin is None:
            raise Trouble("standard input is closed")
        yield sys.stdin.buffer
        return
    with explained(name):
        file = open(name, "rb")
    with file:
        yield file


@contextlib.contextmanager
def opened_anywhere(name: str) -> Iterator[IO[bytes]]:
    """A file that can be read at any place. What comes by a pipe is kept in a temporary file meanwhile."""
    with opened(name) as file:
        if file.seekable():
            yield file
            return
        with explained(input_name(name)):
            kept = tempfile.TemporaryFile()
            shutil.copyfileobj(file, kept)
            kept.seek(0)
        with kept:
            yield kept


@contextlib.contextmanager
def reading(name: str) -> Iterator[None]:
    """What goes wrong while a file is read, in one sentence that has its name."""
    try:
        with explained(input_name(name)):
            yield
    except Torn as torn:
        raise Trouble(Torn(input_name(name), *torn.args[1:]).words) from None


def only_one_standard(*names: str) -> None:
    """Standard input can be read once."""
    if names.count(STANDARD) > 1:
        raise Trouble("standard input can stand for one of the files alone")


def need_ending(name: str, *endings: str) -> None:
    """A file that is written has one of these endings, so that no capture is overwritten by a slip."""
    path = Path(name)
    if name != STANDARD and not name.endswith(endings) and (path.is_file() or not path.exists()):
        raise Trouble(f"{name} is to be written, and does not end in {' or '.join(endings)}")


def write_whole(name: str, data: bytes) -> None:
    """Writes a file whole or not at all: under another name first, which it then changes. `-` is standard output; a device or pipe
    is written to as it is."""
    path = Path(name)
    if name == STANDARD:
        sys.stdout.buffer.write(data)
        return
    with explained(name):
        if path.is_dir():
            raise IsADirectoryError
        if path.exists() and not path.is_file():
            path.write_bytes(data)
        else:
            replace(path.resolve(), data)


def replace(path: Path, data: bytes) -> None:
    """Puts a new file in the place of the one of this name, if there is one."""
    beside = path.with_name(f".{path.name}.{os.getpid()}")
    try:
        beside.write_bytes(data)
        beside.replace(path)
    except BaseException:
        beside.unlink(missing_ok=True)
        raise


def folder(name: str) -> Path:
    """A folder that is there."""
    path = Path(name)
    with explained(name):
        if not path.exists():
            raise Trouble(f"there is no folder {name}")
        if not path.is_dir():
            raise Trouble(f"{name} is not a folder")
    return path


def made_folder(name: str) -> Path:
    """A folder, which is made where there is none."""
    with explained(name):
        if not Path(name).exists():
            Path(name).mkdir(parents=True)
    return folder(name)
