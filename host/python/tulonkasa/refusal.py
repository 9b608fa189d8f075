"""Why a call was refused."""

from __future__ import annotations

from types import MappingProxyType
from typing import Mapping

WORDS: Mapping[int, str] = MappingProxyType(
    {
        1: "a bank, key, written record or map, or the reasons, have a wrong length",
        2: "a field of the tile is out of range, or a side of the picture",
        3: "mode or lane is above 3",
        4: "a number of the load or decoding, or its source's length, is out of range",
        5: "the mode does not accept this pair of format and size, or it has no linear reading",
        6: "the buffer of the picture or of its file is too short",
        7: "the trail's buffer is too short",
        8: "a record has fewer than 48 bytes",
        10: "the kind of the record is above 3",
        11: "the record's source goes beyond the companion file",
        12: "the picture has a zero side, which a file can't have",
        13: "the file's header breaks the PAM description",
        14: "the file's depth is not 4, its maximum not 255, or its tuple type not RGB_ALPHA",
        15: "the file has fewer texel bytes than its header calls for",
        16: "there are more than 4,096 entries",
        17: "the entries are not 4,117 bytes each, or the sides not one byte each",
        18: "there were 65,535 loads, and no number is left for another",
        19: "the reason of a rejected load is not from 1 to 255",
    }
)
"""What each refusal means, by its number. 9 was the number of a test that no input could fail, and is not given out."""


class Refused(ValueError):
    """A call was refused, and has changed nothing.

    number    the number of the refusal, as C programs see it
    words     what it means

    >>> from tulonkasa import Bank, Tile
    >>> try:
    ...     Bank().picture(Tile(width=5000, height=1))
    ... except Refused as refused:
    ...     print(refused.number, refused.words, sep=": ")
    2: a field of the tile is out of range, or a side of the picture
    """

    number: int
    words: str

    def __init__(self, number: int, words: str | None = None) -> None:
        """The refusal of a number; `words` say more than the table where the caller knows more."""
        self.number = number
        self.words = WORDS.get(number, "a refusal without a name") if words is None else words
        super().__init__(number, self.words)

    def __str__(self) -> str:
        return f"refusal {self.number}: {self.words}"


class Torn(Refused):
    """An input ends inside a record. All records before it were given. It is a refusal by 8, as the programs print it.

    record    the number of the record that is torn, counted from 0: so many whole ones came before it
    left      how many bytes of it are there
    """

    record: int
    left: int

    def __init__(self, name: str, record: int, left: int, whole: int) -> None:
        """The input's name; the torn record's number; how many of its bytes are there, and how many a whole one has."""
        self.record = record
        self.left = left
        super().__init__(8, f"{name} ends inside record {record}: {left:,} of its {whole:,} bytes are there")
        self.args = (name, record, left, whole)


def refuse(number: int) -> None:
    """Raises the refusal of a number. 0 is success, and raises nothing."""
    if number:
        raise Refused(number)
