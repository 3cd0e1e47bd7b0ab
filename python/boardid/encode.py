"""From a value that a program has to the bytes that an entry stores."""

from __future__ import annotations

import datetime
import re
from typing import Iterable, List, Mapping, Tuple

from .records import string_text
from .errors import Refused
from .formats import Format, Kind, Reading, Tiny
from .library import lent
from .values import AddressBlock, Flags, Identity, String

#: How many bytes a number has.
_WIDTHS = {Format.FBOSS: 1, Format.ONIE: 2}

_DATE = re.compile(r"([0-9]{4})-([0-9]{2})-([0-9]{2})\Z")
_DATETIME = re.compile(r"([0-9]{4})-([0-9]{2})-([0-9]{2})[T ]([0-9]{2}:[0-9]{2}:[0-9]{2})\Z")


def text_bytes(text: str) -> bytes:
    """The bytes of a text. Those of no ASCII are for the library to refuse."""
    return text.encode("utf-8", "surrogateescape")


def number_bytes(number: int, width: int, place: int) -> bytes:
    """A number, high byte first; refused with 7 where it has no room, since no bytes can say it."""
    if not 0 <= number < 1 << (8 * width):
        raise Refused(7, place, f"{number} is not from 0 to {(1 << (8 * width)) - 1}")
    return number.to_bytes(width, "big")


def string_bytes(text: str, place: int) -> bytes:
    """A string as a pool stores it: its last byte has the top bit on. 7 where none can."""
    if not text or not text.isascii():
        what = "no string of the pool has that text" if text else "no string of the pool is empty"
        raise Refused(7, place, what)
    raw = text.encode("ascii")
    return raw[:-1] + bytes((raw[-1] | 0x80,))


def pool_parts(pool: bytes) -> Tuple[List[str], bytes]:
    """The strings of a pool, and the bytes after the last one, which are no string."""
    strings: List[str] = []
    start = 0
    for place, byte in enumerate(pool):
        if byte & 0x80:
            strings.append(string_text(pool[start : place + 1]))
            start = place + 1
    return strings, pool[start:]


def _date(value: object) -> bytes:
    if isinstance(value, datetime.date) and not isinstance(value, datetime.datetime):
        return text_bytes(f"{value.year:04}{value.month:02}{value.day:02}")
    if isinstance(value, str):
        match = _DATE.match(value)
        return text_bytes("".join(match.groups()) if match else value)
    raise TypeError(f"a date is needed, not {type(value).__name__}")


def _date_with_time(value: object) -> bytes:
    if isinstance(value, datetime.datetime):
        if value.tzinfo is not None:
            raise ValueError("no time zone is stored: give a time without one")
        clock = f"{value.hour:02}:{value.minute:02}:{value.second:02}"
        return text_bytes(f"{value.month:02}/{value.day:02}/{value.year:04} {clock}")
    if isinstance(value, str):
        match = _DATETIME.match(value)
        if match is None:
            return text_bytes(value)
        year, month, day, clock = match.groups()
        return text_bytes(f"{month}/{day}/{year} {clock}")
    raise TypeError(f"a date with time is needed, not {type(value).__name__}")


def _address(kind: Kind, value: object, place: int) -> bytes:
    block = AddressBlock.of(value) if isinstance(value, str) else value
    if not isinstance(block, AddressBlock):
        raise TypeError(f"an address is needed, not {type(value).__name__}")
    if kind.format == Format.FBOSS:
        return block.packed + number_bytes(block.count, 2, place)
    if block.count != 1:
        raise Refused(7, place, f"{kind.name} is one address, not {block.count}")
    return block.packed


def _flags(value: object, place: int) -> bytes:
    if isinstance(value, Flags):
        return number_bytes(value.number, 1, place)
    if isinstance(value, int):
        return number_bytes(value, 1, place)
    if isinstance(value, str):
        return number_bytes(Flags.of(value).number, 1, place)
    if isinstance(value, Iterable) and not isinstance(value, Mapping):
        return number_bytes(Flags.of(",".join(value) or "none").number, 1, place)
    raise TypeError(f"test flags are needed, not {type(value).__name__}")


def identity_bytes(identity: Identity, place: int) -> bytes:
    """The bytes of an identity; refused with 7 where a number has no room in them."""
    try:
        return identity.packed
    except (OverflowError, ValueError):
        raise Refused(7, place, "a number of the identity has no room in its bytes") from None


def encode(kind: Kind, value: object, place: int = 0) -> bytes:
    """The bytes of a value for a code; those of texts that count strings are made elsewhere.

    Bytes go as they are. TypeError where the value is of a type that the code does not take,
    ValueError where a text cannot be read, Refused with 7 at `place` where no bytes can say it.
    What breaks the rule of its code is for the library to refuse.
    """
    if isinstance(value, (bytes, bytearray, memoryview)):
        return lent(value)
    reading = kind.reading
    if reading == Reading.TEXT and isinstance(value, str):
        return text_bytes(value)
    if reading == Reading.NUMBER and isinstance(value, int):
        return number_bytes(value, _WIDTHS[kind.format], place)
    if reading == Reading.ADDRESS_BLOCK:
        return _address(kind, value, place)
    if reading == Reading.STRING_NUMBER and isinstance(value, (int, String)):
        return number_bytes(value if isinstance(value, int) else value.number, 1, place)
    if reading == Reading.TEST_FLAGS:
        return _flags(value, place)
    if reading in (Reading.IDENTITY, Reading.IDENTITY_WITH_BATCH) and isinstance(value, Identity):
        return identity_bytes(value, place)
    if reading == Reading.DATE:
        return _date(value)
    if reading == Reading.DATE_WITH_TIME:
        return _date_with_time(value)
    if kind.format == Format.VPD and kind.code == 0x01 and isinstance(value, str):
        return text_bytes(value)
    if kind.format == Format.TINY and kind.code == Tiny.ASCII_STRINGS:
        if isinstance(value, Iterable) and not isinstance(value, (str, Mapping)):
            return b"".join(string_bytes(text, place) for text in value)
    raise TypeError(f"{kind.name} takes no {type(value).__name__}")
