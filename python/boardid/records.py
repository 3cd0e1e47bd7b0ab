"""An entry of an image, made from the record that the library gives, and a field to write."""

from __future__ import annotations

import datetime
import struct
from dataclasses import dataclass
from typing import Callable, Optional, Tuple

from .formats import Format, Kind, Reading, kind_of
from .values import AddressBlock, Flags, Identity, String, Value

#: The bytes of a record: sixteen words, low byte first.
RECORD_SIZE = 64

_RECORD = struct.Struct("<16I")
_FIELD = struct.Struct("<5I")


@dataclass(frozen=True)
class Field:
    """A field to write or to add. Only VPD has keys; elsewhere the key is not looked at."""

    code: int
    value: bytes
    key: bytes = b""


@dataclass(frozen=True)
class Entry:
    """An entry of an image: where it stands, its bytes, and its value by its reading.

    `key` is None outside VPD. `kind` is 0 where the edition does not name the code; such an entry
    is read as plain bytes. `value` is by `reading`: text str, number int, address block
    AddressBlock, string number String, test flags Flags, identity Identity, date datetime.date,
    date with time datetime.datetime, plain bytes bytes. `raw` are the value's bytes as stored.
    """

    number: int
    format: Format
    code: int
    kind: int
    place: int
    key: Optional[bytes]
    value_place: int
    reading: Reading
    value: Value
    raw: bytes

    @property
    def value_length(self) -> int:
        return len(self.raw)

    @property
    def frame_length(self) -> int:
        """The bytes of the whole entry. In every format a frame ends with its value."""
        return self.value_place + len(self.raw) - self.place

    @property
    def what(self) -> Optional[Kind]:
        """What the edition knows of the code; None where it does not name it."""
        return kind_of(self.kind)

    @property
    def name(self) -> Optional[str]:
        """The document's name of the code; else None. VPD 01h has its key for a name."""
        kind = self.what
        return kind.name if kind is not None and kind.number != 0x201 else None

    @property
    def short(self) -> Tuple[str, ...]:
        """The short names of the code."""
        kind = self.what
        return kind.short if kind is not None else ()

    @property
    def field(self) -> Field:
        """The field that writes this entry."""
        return Field(self.code, self.raw, self.key or b"")


#: Gives the text of a string number, or None where the pool has none.
StringText = Callable[[int], Optional[str]]


def string_text(stored: bytes) -> str:
    """The text of a string as stored, whose last byte has its top bit on."""
    return bytes(byte & 0x7F for byte in stored).decode("ascii")


def _value(reading: int, carried: Tuple[int, ...], raw: bytes, text_of: StringText) -> Value:
    """The value of an entry by its reading."""
    if reading == Reading.TEXT:
        return raw.decode("ascii")
    if reading == Reading.NUMBER:
        return carried[0]
    if reading == Reading.ADDRESS_BLOCK:
        return AddressBlock((carried[0] << 32 | carried[1]).to_bytes(6, "big"), carried[2])
    if reading == Reading.STRING_NUMBER:
        return String(carried[0], text_of(carried[0]))
    if reading == Reading.TEST_FLAGS:
        return Flags(carried[0])
    if reading in (Reading.IDENTITY, Reading.IDENTITY_WITH_BATCH):
        return Identity(
            String(carried[0], text_of(carried[0])),
            String(carried[1], text_of(carried[1])),
            carried[2],
            carried[3],
            bytes(carried[4:6]),
            carried[6] if reading == Reading.IDENTITY_WITH_BATCH else None,
        )
    if reading == Reading.DATE:
        return datetime.date(*carried[:3])
    if reading == Reading.DATE_WITH_TIME:
        year, month, day, hour, minute, second = carried[:6]
        return datetime.datetime(year, month, day, hour, minute, second)
    return raw


def entry_of(format: int, image: bytes, number: int, record: bytes, text_of: StringText) -> Entry:
    """The entry of a record that the library has filled for that image."""
    numbers = _RECORD.unpack(record)
    code, kind, place, key_place, key_length, value_place, value_length, _, reading = numbers[:9]
    raw = image[value_place : value_place + value_length]
    return Entry(
        number=number,
        format=Format(format),
        code=code,
        kind=kind,
        place=place,
        key=image[key_place : key_place + key_length] if format == Format.VPD else None,
        value_place=value_place,
        reading=Reading(reading) if reading in iter(Reading) else Reading.PLAIN_BYTES,
        value=_value(reading, numbers[9:], raw, text_of),
        raw=raw,
    )


def field_bytes(field: Field, key_place: int, value_place: int) -> bytes:
    """A field as it is lent, with the places of its key and value in the lent values."""
    return _FIELD.pack(field.code, key_place, len(field.key), value_place, len(field.value))
