"""The version of the library."""

from __future__ import annotations

from tulonkasa import exports


def version() -> tuple[int, int, int]:
    """The version of the library that is loaded, as its three numbers; `include/tulonkasa.h` says what a new one means."""
    number = exports.tk_version()
    return number // 1_000_000, number // 1000 % 1000, number % 1000
