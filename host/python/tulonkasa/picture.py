"""A picture with its size, and the files that other programs take it from."""

from __future__ import annotations

import builtins
from dataclasses import dataclass
from typing import TYPE_CHECKING, Any

from tulonkasa import exports
from tulonkasa.parameters import fixed
from tulonkasa.png import png
from tulonkasa.refusal import Refused, refuse
from tulonkasa.sizes import PAM_HEADER_MOST

if TYPE_CHECKING:
    from _typeshed import ReadableBuffer


@dataclass(frozen=True)
class Picture:
    """A picture with its size.

    width     texels across
    height    texels down
    bytes     four bytes a texel: red, green, blue and alpha, row by row from the top

    It can't be changed. `view` shows it as a `memoryview` with rows, columns and channels, and `numpy.asarray` takes it as an array of that
    shape; both without a copy.

    >>> picture = Picture(2, 1, bytes([255, 0, 0, 255, 0, 0, 255, 128]))
    >>> picture.view()[0, 1, 3]
    128
    >>> Picture.from_pam(picture.to_pam()) == picture
    True
    """

    width: int
    height: int
    bytes: builtins.bytes

    def __post_init__(self) -> None:
        object.__setattr__(self, "bytes", fixed(self.bytes))
        due = 4 * self.width * self.height
        if self.width < 0 or self.height < 0 or len(self.bytes) != due:
            raise ValueError(f"a picture of {self.width} by {self.height} has not {len(self.bytes):,} bytes")

    def __repr__(self) -> str:
        return f"<Picture of {self.width} by {self.height}>"

    def __bytes__(self) -> builtins.bytes:
        return self.bytes

    def view(self) -> memoryview:
        """The picture as a `memoryview` of shape (height, width, 4), which can't be written and copies nothing.

        No `memoryview` has a shape with a zero in it, so for a picture with a zero side this raises `ValueError`.
        """
        if not self.bytes:
            raise ValueError(f"a picture of {self.width} by {self.height} has no view")
        return memoryview(self.bytes).cast("B", shape=(self.height, self.width, 4))

    @property
    def __array_interface__(self) -> dict[str, Any]:
        """What numpy reads: an array of shape (height, width, 4) over these very bytes, which can't be written."""
        return {"version": 3, "shape": (self.height, self.width, 4), "typestr": "|u1", "data": self.bytes}

    def to_png(self) -> builtins.bytes:
        """The picture as a PNG file. A zero side is refused by 12, as `to_pam` does: no file has it."""
        if not self.bytes:
            raise Refused(12)
        return png(self.width, self.height, self.bytes)

    def to_pam(self) -> builtins.bytes:
        """The picture as a PAM file, the format of the Netpbm programs: a header of lines of text, then the texels as they are here.

        A side above 4,096 is refused by 2, and a zero side by 12.
        """
        file = bytearray(PAM_HEADER_MOST + len(self.bytes))
        answer = exports.tk_write_pam(self.width, self.height, self.bytes, file)
        refuse(answer.refusal)
        return bytes(memoryview(file)[: answer.count])

    @classmethod
    def from_pam(cls, file: ReadableBuffer) -> Picture:
        """The picture of a PAM file's bytes, which any program may have written: its header may have its lines in another order, comments,
        and more white space. What follows the texels is not read.

        Refused by 13 (the header), 14 (not red, green, blue and alpha of a byte each), 2 (a side above 4,096) and 15 (too few texels).
        """
        # Whatever size the header states, the texels are no more than the file.
        texels = bytearray(memoryview(file).nbytes)
        answer = exports.tk_read_pam(file, texels)
        refuse(answer.refusal)
        return cls(answer.width, answer.height, bytes(memoryview(texels)[: 4 * answer.width * answer.height]))
