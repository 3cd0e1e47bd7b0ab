"""What goes wrong: refusals of the library, blank chips, and names that fit no entry or several."""

from __future__ import annotations

from typing import Dict, Tuple

#: A sentence about each number of a refusal, as the header's boardid_refusal_text has it.
REFUSAL_TEXTS: Dict[int, str] = {
    0: "not refused",
    1: "the library does not know the edition of the header",
    2: "the image, the room file or the output is longer than 65,536 bytes",
    3: "the image is shorter than the header, or the header is not this format's",
    4: "the image has another version of the format",
    5: "an entry or the end of the entries runs past the room, or a stored length is wrong",
    6: "the code or a length byte is one that no entry can have",
    7: "the entry or the new value breaks the rule of its code",
    8: "the code or the key comes a second time",
    9: "an entry comes after the string pool",
    10: "the stored check is wrong",
    11: "a required field is missing",
    12: "too few records, an output too small, or an image too long for Tiny or ONIE",
    13: "no entry has that number, or a field's key or value is not inside the values",
    14: "this edition does not name the code",
    15: "there is no string pool, or no string of that number",
    16: "the format is not known, or is none that this call is for",
    17: "no entry has a piece of a vendor payload",
    18: "the lengths of the vendor payload and of its parts or pieces do not fit",
    19: "the check of the vendor payload is wrong",
    20: "the vendor block has another version, or another length than nine bytes",
    21: "the room file's head or contents are wrong, or it has another form",
    22: "no board of the room file has that number",
    23: "a board of that number is in the room file already",
}


def refusal_text(number: int) -> str:
    """A sentence for people about a refusal's number, without a full stop."""
    return REFUSAL_TEXTS.get(number, "no refusal has this number")


class Error(Exception):
    """Whatever this module raises about images, room files and names."""


class Refused(Error):
    """A call was refused: `number` says what for and `place` where, as in docs/C-INTERFACE.md.

    In a write the place of 7, 8, 9, 13 and 14 is the number of the field in the list.
    """

    def __init__(self, number: int, place: int = 0, note: str = "") -> None:
        super().__init__(number, place, note)
        self.number = number
        self.place = place
        self.note = note

    @property
    def text(self) -> str:
        """The sentence about the number, with what is known beside it."""
        text = refusal_text(self.number)
        return f"{self.note}: {text}" if self.note else text

    def __str__(self) -> str:
        return f"{self.text} (refused {self.number} at {self.place})"


class Blank(Error):
    """The chip is blank: all its bytes are FFh, or all are 00h. `byte` is which."""

    def __init__(self, byte: int, length: int) -> None:
        super().__init__(byte, length)
        self.byte = byte
        self.length = length

    def __str__(self) -> str:
        many = f"all {self.length} bytes are" if self.length != 1 else "its one byte is"
        return f"the chip is blank: {many} {self.byte:02X}h"


class NoSuchName(Error, KeyError):
    """No entry, or nothing that the edition names, has that name."""

    def __str__(self) -> str:
        return str(self.args[0]) if self.args else ""


class AmbiguousName(NoSuchName):
    """Two or more entries have that name; `numbers` are theirs."""

    def __init__(self, message: str, numbers: Tuple[int, ...] = ()) -> None:
        super().__init__(message, numbers)
        self.numbers = numbers
