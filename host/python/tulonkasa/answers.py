"""What the library's exports answer, as C has it. `include/tulonkasa.h` says more. A refusal of 0 is success."""

from __future__ import annotations

import ctypes


def fields(*names: str) -> list[tuple[str, type[ctypes.c_uint32]]]:
    """The fields of an answer, all of them numbers of 32 bits."""
    return [(name, ctypes.c_uint32) for name in names]


class Answer(ctypes.Structure):
    """A refusal, and a count of reads, kept bytes or a file's bytes."""

    refusal: int
    count: int
    _fields_ = fields("refusal", "count")


class LoadAnswer(ctypes.Structure):
    """A refusal, a load's stores, how many of their bytes were made up, and the number of the last load after it."""

    refusal: int
    count: int
    made_up: int
    number: int
    _fields_ = fields("refusal", "count", "made_up", "number")


class ReplayAnswer(ctypes.Structure):
    """A refusal, a record's stores or kept bytes, and the number of the last load after it."""

    refusal: int
    count: int
    number: int
    _fields_ = fields("refusal", "count", "number")


class SamplingAnswer(ctypes.Structure):
    """A refusal, the sampling flag, and the texels to allocate."""

    refusal: int
    flag: int
    width: int
    height: int
    _fields_ = fields("refusal", "flag", "width", "height")


class SizeAnswer(ctypes.Structure):
    """A refusal, and the size of a picture that was read."""

    refusal: int
    width: int
    height: int
    _fields_ = fields("refusal", "width", "height")


class YesAnswer(ctypes.Structure):
    """A refusal, and 1 for yes or 0 for no."""

    refusal: int
    yes: int
    _fields_ = fields("refusal", "yes")


class ReasonAnswer(ctypes.Structure):
    """A refusal, and the reason of a rejected load, 0 for none."""

    refusal: int
    reason: int
    _fields_ = fields("refusal", "reason")


class CheckAnswer(ctypes.Structure):
    """A refusal; 1 if an offered key is right, else 0; the lowest wrong address, and what is wrong there."""

    refusal: int
    yes: int
    address: int
    wrong: int
    _fields_ = fields("refusal", "yes", "address", "wrong")


class SplitAnswer(ctypes.Structure):
    """A refusal, and how many entries are on each side."""

    refusal: int
    tuning: int
    held_out: int
    _fields_ = fields("refusal", "tuning", "held_out")
