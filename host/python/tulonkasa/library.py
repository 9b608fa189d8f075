"""Finds and loads the shared library, `libtulonkasa.so`.

It is looked for, in this order,

1. where the environment variable `TULONKASA_SHARED` says, and then nowhere else;
2. beside the package;
3. in the `lib` folder that the package is installed under (`PREFIX/lib/python/tulonkasa`, or deeper, as in `site-packages`);
4. in `target/staticlib` of the repository, where `host/archive` makes it.
"""

from __future__ import annotations

import ctypes
import functools
import os
import platform
from pathlib import Path
from typing import Iterator

VARIABLE = "TULONKASA_SHARED"
NAMES = ("libtulonkasa.so.1", "libtulonkasa.so")
PACKAGE = Path(__file__).resolve().parent
REMEDY = f"Make it with host/archive, or name it by {VARIABLE}."


class LibraryMissing(ImportError):
    """The shared library is not there, can't be loaded, or is older than this package. The message says what to do."""


def folders() -> Iterator[Path]:
    """Where the library may stand, when the environment does not say."""
    yield PACKAGE
    yield from (folder for folder in PACKAGE.parents if folder.name in ("lib", "lib64"))
    if PACKAGE.parts[-3:-1] == ("host", "python"):
        made = PACKAGE.parents[2] / "target" / "staticlib"
        yield made if platform.machine() == "x86_64" else made / platform.machine()


def find() -> Path:
    """The file of the shared library."""
    named = os.environ.get(VARIABLE)
    if named:
        return Path(named)
    for folder in folders():
        for name in NAMES:
            if (folder / name).is_file():
                return folder / name
    raise LibraryMissing(f"{NAMES[-1]} is missing. {REMEDY}")


@functools.lru_cache(maxsize=None)
def load() -> ctypes.CDLL:
    """The shared library, loaded once."""
    path = find()
    if not path.is_file():
        raise LibraryMissing(f"{path} is missing. {REMEDY}")
    try:
        return ctypes.CDLL(str(path.resolve()))
    except OSError as error:
        raise LibraryMissing(f"{path} can't be loaded ({error}). {REMEDY}") from error
