"""What the library's exports take, and how Python's numbers and buffers are handed to C."""

from __future__ import annotations

import ctypes
import operator
from typing import TYPE_CHECKING, Any, Sequence, cast

if TYPE_CHECKING:
    from _typeshed import ReadableBuffer, WriteableBuffer


def fixed(data: ReadableBuffer) -> bytes:
    """The bytes of a buffer: themselves where they can't change, else a copy."""
    return data if isinstance(data, bytes) else bytes(memoryview(data))


class Parameter:
    """A parameter of an export: its name, and the types in C that it stands for."""

    types: Sequence[Any]

    def __init__(self, name: str) -> None:
        self.name = name

    def hand(self, argument: object) -> Sequence[Any]:
        """The argument as C gets it, one for each of the types."""
        raise NotImplementedError


class Number(Parameter):
    """A number of so many bits, from 0 on."""

    def __init__(self, name: str, bits: int = 32) -> None:
        super().__init__(name)
        self.bits = bits
        self.types = (ctypes.c_uint64 if bits == 64 else ctypes.c_uint32,)

    def hand(self, argument: object) -> Sequence[Any]:
        """The number as it is. One that C would cut short is stopped here."""
        number = operator.index(cast(int, argument))
        if number >> self.bits:
            raise OverflowError(f"{self.name} is {number}: a number from 0 to {(1 << self.bits) - 1:,} is due")
        return (number,)


class Buffer(Parameter):
    """A buffer. In C it is a pointer and a length."""

    types = (ctypes.c_void_p, ctypes.c_size_t)


class Read(Buffer):
    """A buffer that is read."""

    def hand(self, argument: object) -> Sequence[Any]:
        """Its bytes, fixed; so they can't overlap a buffer that is written."""
        data = fixed(cast("ReadableBuffer", argument))
        return data, len(data)


class Write(Buffer):
    """A buffer that is written."""

    def hand(self, argument: object) -> Sequence[Any]:
        """The very bytes: nothing is copied."""
        view = memoryview(cast("WriteableBuffer", argument))
        return ctypes.byref(ctypes.c_char.from_buffer(view)) if view.nbytes else None, view.nbytes


def numbers(*names: str) -> tuple[Parameter, ...]:
    """Parameters that are numbers of 32 bits."""
    return tuple(Number(name) for name in names)
