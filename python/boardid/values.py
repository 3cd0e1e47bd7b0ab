"""What a value reads as: addresses, string numbers, test flags, identities."""

from __future__ import annotations

import datetime
from dataclasses import dataclass
from typing import Optional, Tuple, Union

#: The words of the four factory tests, by their bit.
TESTS: Tuple[str, ...] = ("assembly", "configuration", "burn-in", "system")


@dataclass(frozen=True)
class AddressBlock:
    """Network addresses: the first one, and how many there are."""

    packed: bytes
    count: int = 1

    @property
    def address(self) -> str:
        """The first address, as 02:1a:2b:3c:4d:5e."""
        return self.packed.hex(":")

    @classmethod
    def of(cls, text: str, count: int = 1) -> "AddressBlock":
        """The block of six bytes with `:`, `-` or nothing between them; also ADDRESS/COUNT."""
        address, slash, number = text.partition("/")
        digits = address
        for separator in (":", "-"):
            parts = address.split(separator)
            if len(parts) == 6 and all(len(part) == 2 for part in parts):
                digits = "".join(parts)
        try:
            if len(digits) != 12 or not digits.isalnum():
                raise ValueError
            return cls(bytes.fromhex(digits), int(number) if slash else count)
        except ValueError:
            raise ValueError(f"{text!r} is no address of six bytes") from None

    def __str__(self) -> str:
        return self.address


@dataclass(frozen=True)
class String:
    """A string number of a Tiny image, with its text; None where the pool has none."""

    number: int
    text: Optional[str] = None

    def __str__(self) -> str:
        return self.text if self.text is not None else ""


@dataclass(frozen=True)
class Flags:
    """Test flags: bits 0 to 3 are the four factory tests, bits 4 to 7 are reserved."""

    number: int

    @property
    def words(self) -> Tuple[str, ...]:
        """The tests that were passed."""
        return tuple(test for bit, test in enumerate(TESTS) if self.number >> bit & 1)

    @property
    def passed(self) -> int:
        """How many of the four tests were passed."""
        return len(self.words)

    @property
    def reserved(self) -> int:
        """The reserved bits, where they stand."""
        return self.number & 0xF0

    @classmethod
    def of(cls, text: str) -> "Flags":
        """The flags of a list `assembly,system`, of `none`, or of a number."""
        number = 0
        for part in text.split(","):
            test = part.strip()
            if test in TESTS:
                number |= 1 << TESTS.index(test)
            elif test != "none" or part is not text:
                try:
                    number |= int(test, 0)
                except ValueError:
                    tests = ", ".join(TESTS)
                    raise ValueError(f"{test!r} is no test: {tests}, or a number") from None
        return cls(number)

    def __str__(self) -> str:
        parts = list(self.words) + ([f"0x{self.reserved:02x}"] if self.reserved else [])
        return ",".join(parts) or "none"


@dataclass(frozen=True)
class Identity:
    """A product's identity: two strings, a revision, two free bytes, perhaps a batch."""

    serial: String
    part: String
    major: int
    minor: int
    free: bytes = b"\0\0"
    batch: Optional[int] = None

    @property
    def revision(self) -> str:
        """The revision as 0A.12; major 128 to 153 is 0A to 0Z."""
        major = f"{self.major:02}" if self.major < 128 else "0" + chr(ord("A") + self.major - 128)
        return f"{major}.{self.minor:02}"

    @property
    def packed(self) -> bytes:
        """The value's bytes; ValueError where a number has no room in its bytes."""
        numbers = (self.serial.number, self.part.number, self.major, self.minor)
        batch = b"" if self.batch is None else self.batch.to_bytes(2, "little")
        return bytes(numbers) + self.free + batch


def revision_of(text: str) -> Tuple[int, int]:
    """Major and minor of a revision as 0A.12; ValueError of any other text."""
    major, point, minor = text.partition(".")
    if point and len(major) == 2 and major[0] == "0" and "A" <= major[1] <= "Z":
        number = ord(major[1]) - ord("A") + 128
    elif point and major.isdecimal() and major.isascii():
        number = int(major)
    else:
        raise ValueError(f"{text!r} is no revision as 0A.12")
    if not (minor.isdecimal() and minor.isascii()):
        raise ValueError(f"{text!r} is no revision as 0A.12")
    return number, int(minor)


#: What an entry's value may be. A `datetime.datetime` is also a `datetime.date`.
Value = Union[
    str, int, AddressBlock, String, Flags, Identity, datetime.date, datetime.datetime, bytes
]
