"""Which entry stands at a place of an image that is refused, for what is said of it.

The library gives the place of a refusal; entries before it are whole, so that a walk over their
lengths counts them. Nothing here decides whether an image is accepted.
"""

from __future__ import annotations

from typing import NamedTuple, Optional, Tuple

from .formats import Format, Vpd

_BEGIN = {Format.FBOSS: 4, Format.VPD: 0, Format.TINY: 3, Format.ONIE: 11}


class Frame(NamedTuple):
    """An entry of a refused image: its number and its code, and its VPD key where that is whole."""

    number: int
    code: int
    key: bytes


def _vpd_length(data: bytes, place: int) -> Optional[Tuple[int, int]]:
    """A length of VPD and the place after it; None where its bytes are not all there."""
    length = 0
    for byte in data[place : place + 4]:
        length = length << 7 | byte & 0x7F
        place += 1
        if not byte & 0x80:
            return length, place
    return None


def _vpd_key(data: bytes, place: int) -> Optional[Tuple[bytes, int]]:
    """The key of the VPD entry at a place and the place after it; None where it is not whole."""
    found = _vpd_length(data, place + 1)
    if found is None or found[1] + found[0] > len(data):
        return None
    return data[found[1] : found[1] + found[0]], found[1] + found[0]


def _after(data: bytes, format: Format, place: int) -> Optional[int]:
    """The place after the entry at a place; None where that cannot be told."""
    if format == Format.VPD:
        key = _vpd_key(data, place)
        value = _vpd_length(data, key[1]) if key is not None else None
        return value[1] + value[0] if value is not None else None
    if format == Format.TINY and place < len(data) and data[place] >> 4:
        return place + 1 + (data[place] >> 4)
    return place + 2 + data[place + 1] if place + 1 < len(data) else None


def _room(data: bytes, format: Format) -> bytes:
    """The bytes that the entries may have: a stored length ends them, in Tiny before the check."""
    if format == Format.TINY:
        return data[: max(data[2] - 1, 0)] if len(data) > 2 else data
    if format == Format.ONIE:
        return data[: 11 + int.from_bytes(data[9:11], "big")]
    return data


def frame_at(data: bytes, format: Format, place: int) -> Optional[Frame]:
    """The entry whose first byte is at a place; None where none begins there."""
    data = _room(data, format)
    here: Optional[int] = _BEGIN[format]
    number = 0
    while here is not None and here < place:
        here = _after(data, format, here)
        number += 1
    if here != place or place >= len(data):
        return None
    # A type that no entry can have is no type with a key.
    typed = format == Format.VPD and data[place] in (Vpd.STRING, Vpd.INFO)
    key = _vpd_key(data, place) if typed else None
    return Frame(number, data[place], key[0] if key is not None else b"")
