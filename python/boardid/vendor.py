"""The vendor payload of an optics lab's amplifiers, in the FDh entries of an ONIE image."""

from __future__ import annotations

import struct
from dataclasses import dataclass
from typing import Dict, List, Optional, Sequence, Tuple

from .formats import Format
from .library import EDITION, Bytes, call, lent, output, word

#: The names of the eight offsets, by their number in the block.
OFFSETS: Tuple[str, ...] = (
    "c-band-west-in",
    "c-band-west-out",
    "c-band-east-in",
    "c-band-east-out",
    "l-band-west-in",
    "l-band-west-out",
    "l-band-east-in",
    "l-band-east-out",
)

#: What the value of an FDh entry with a piece begins with.
PREFIX = b"\x00\x00\x1f\x79\x00"

#: The most bytes of a payload, of a piece without its prefix, and of a payload besides its serial.
PAYLOAD_MAX = 271
PIECE_MAX = 250
PAYLOAD_MIN = 16

_BLOCK = struct.Struct("<4I8i")


@dataclass(frozen=True)
class Vendor:
    """What a payload says: the serial, any bytes, and offsets in tenths of a decibel."""

    serial: bytes
    offsets: Tuple[int, ...]
    payload: bytes = b""

    @property
    def by_name(self) -> Dict[str, int]:
        """The offsets by their names, in tenths of a decibel."""
        return dict(zip(OFFSETS, self.offsets))

    @property
    def decibels(self) -> Dict[str, float]:
        """The offsets by their names, in decibels."""
        return {name: offset / 10 for name, offset in self.by_name.items()}


def vendor_read(image: Bytes, format: int = Format.ONIE, *, edition: int = EDITION) -> Vendor:
    """Reads the vendor payload of an ONIE image, from edition 3 on."""
    data = lent(image)
    payload, block = output(PAYLOAD_MAX), output(_BLOCK.size)
    read = call(
        "boardid_vendor_read",
        word(format, "a format"),
        word(edition, "an edition"),
        data,
        len(data),
        payload,
        len(payload),
        block,
        len(block),
    )
    numbers = _BLOCK.unpack(bytes(block))
    joined = bytes(payload)[: read.size]
    return Vendor(joined[numbers[0] : numbers[0] + numbers[1]], numbers[4:], joined)


def few_pieces(length: int) -> List[int]:
    """The lengths of as few pieces as possible for a payload, each but the last filled."""
    full, rest = divmod(length, PIECE_MAX)
    return [PIECE_MAX] * full + ([rest] if rest or not full else [])


def vendor_write(
    serial: Bytes,
    offsets: Sequence[int],
    pieces: Optional[Sequence[int]] = None,
    format: int = Format.ONIE,
    *,
    edition: int = EDITION,
) -> List[bytes]:
    """The values of the FDh entries that hold a payload, one for each piece, from edition 3 on.

    `offsets` are eight, in tenths of a decibel, -128 to 127. `pieces` are the lengths of the pieces
    without their prefix; as few as possible where they are not given.
    """
    raw = lent(serial)
    if len(offsets) != len(OFFSETS):
        raise ValueError(f"there are {len(OFFSETS)} offsets, not {len(offsets)}")
    for name, offset in zip(OFFSETS, offsets):
        if not -128 <= offset <= 127:
            raise ValueError(f"{name} is -128 to 127 tenths of a decibel, not {offset}")
    lengths = list(few_pieces(PAYLOAD_MIN + len(raw)) if pieces is None else pieces)
    words = [word(length, "the length of a piece") for length in lengths]
    table = struct.pack(f"<{len(words)}I", *words)
    out = output(len(PREFIX) * len(words) + PAYLOAD_MIN + len(raw))
    packed = int.from_bytes(struct.pack("<8b", *offsets), "little")
    call(
        "boardid_vendor_write",
        word(format, "a format"),
        word(edition, "an edition"),
        raw,
        len(raw),
        packed,
        table,
        len(table),
        out,
        len(out),
    )
    values: List[bytes] = []
    place = 0
    for length in lengths:
        end = place + len(PREFIX) + length
        values.append(bytes(out[place:end]))
        place = end
    return values
