"""Reads inputs that are pieces of one length, one behind the other: captures, replays, entries, banks."""

from __future__ import annotations

import contextlib
import io
import os
import sys
from typing import TYPE_CHECKING, BinaryIO, Iterator, Union, cast

from tulonkasa.refusal import Torn

if TYPE_CHECKING:
    from _typeshed import ReadableBuffer, SupportsRead

    Source = Union[str, "os.PathLike[str]", "SupportsRead[bytes]", ReadableBuffer]

STANDARD_INPUT = "-"


def is_path(source: object) -> bool:
    """Whether a source is the name of a file."""
    return isinstance(source, (str, os.PathLike)) and source != STANDARD_INPUT


@contextlib.contextmanager
def opened(source: Source) -> Iterator[BinaryIO]:
    """The source as a file to read: a path is opened and closed again; `-` is standard input; a file is taken as it is; and bytes, or
    anything with the buffer protocol, are the file's own bytes."""
    if is_path(source):
        with open(cast(str, source), "rb") as file:
            yield file
    elif source == STANDARD_INPUT:
        yield sys.stdin.buffer
    elif hasattr(source, "read"):
        yield cast(BinaryIO, source)
    else:
        yield io.BytesIO(memoryview(cast("ReadableBuffer", source)))


def name_of(source: Source) -> str:
    """What to call the source in a message."""
    if is_path(source):
        return os.fspath(cast(str, source))
    if source == STANDARD_INPUT:
        return "standard input"
    name = getattr(source, "name", None)
    return name if isinstance(name, str) else "the input"


def whole_or_rest(file: BinaryIO, length: int) -> bytes:
    """So many bytes of a file, or fewer where it ends. A pipe may give them piece by piece."""
    data = b""
    while len(data) < length:
        more = file.read(length - len(data))
        if more is None:
            raise BlockingIOError("the input has no bytes yet, and does not wait for them")
        if isinstance(more, str):
            raise TypeError("the file gives text; open it in binary mode")
        if not more:
            break
        data += more
    return data


def pieces(source: Source, length: int) -> Iterator[bytes]:
    """The pieces of a source, in order. Where it ends inside one, `Torn` is raised after the whole ones."""
    with opened(source) as file:
        number = 0
        while piece := whole_or_rest(file, length):
            if len(piece) < length:
                raise Torn(name_of(source), number, len(piece), length)
            yield piece
            number += 1
