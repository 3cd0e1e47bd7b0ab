"""The calls on an image. Each takes any bytes, and gives new ones: no argument is ever changed.

`format` is a Format or its number; where it is None the format is detected by `detect`. `edition`
is the edition of the header that a C program would have. `room` is how many bytes the new image
may have, and has: those after its end are FFh. A refusal is raised as Refused.
"""

from __future__ import annotations

import ctypes
import struct
from typing import Iterable, Iterator, List, Optional

from .records import RECORD_SIZE, Entry, Field, StringText, entry_of, field_bytes, string_text
from .errors import Blank, Refused
from .formats import Format
from .library import EDITION, IMAGE_MAX, Bytes, call, lent, output, word

_WALK = struct.Struct("<4I")


def is_blank(image: Bytes) -> bool:
    """Whether all bytes are FFh, or all are 00h; no bytes are not blank."""
    data = lent(image)
    return len(data) > 0 and data[0] in (0x00, 0xFF) and data.count(data[:1]) == len(data)


def detect(image: Bytes, *, edition: int = EDITION) -> Format:
    """The format that an image's first bytes are of. VPD has no magic: it has to be accepted.

    Blank where the chip is blank; Refused, as VPD is refused, where no format fits.
    """
    data = lent(image)
    if is_blank(data):
        raise Blank(data[0], len(data))
    if data.startswith(b"TlvInfo\0"):
        return Format.ONIE
    if data.startswith(b"\xfb\xfb"):
        return Format.FBOSS
    if data.startswith(b"\x56"):
        return Format.TINY
    try:
        call("boardid_check", Format.VPD, word(edition, "an edition"), data, len(data))
    except Refused as refused:
        if refused.number <= 2 or data[:1] in (b"\x01", b"\xfe"):
            raise
        note = f"it begins like no format ({data[:8].hex(' ')}); as VPD 2.0" if data else ""
        raise Refused(refused.number, refused.place, note) from None
    return Format.VPD


def _format(format: Optional[int], data: bytes, edition: int) -> int:
    """The format that is given, or the one that is detected."""
    return detect(data, edition=edition) if format is None else word(format, "a format")


def _texts(format: int, edition: int, data: bytes) -> StringText:
    """Gives the text of each string number of an image that was accepted; asks for each once."""
    known: dict[int, Optional[str]] = {}

    def text_of(number: int) -> Optional[str]:
        if number not in known:
            try:
                known[number] = string(data, number, format, edition=edition)
            except Refused:
                known[number] = None
        return known[number]

    return text_of


def check(image: Bytes, format: Optional[int] = None, *, edition: int = EDITION) -> int:
    """Checks an image, and gives the count of its entries."""
    data = lent(image)
    format = _format(format, data, edition)
    return call("boardid_check", format, word(edition, "an edition"), data, len(data)).size


def entries(image: Bytes, format: Optional[int] = None, *, edition: int = EDITION) -> List[Entry]:
    """All entries of an image, in its order."""
    data = lent(image)
    format = _format(format, data, edition)
    count = check(data, format, edition=edition)
    records = (ctypes.c_uint8 * (count * RECORD_SIZE))()
    call("boardid_list", format, edition, data, len(data), records, len(records))
    text_of = _texts(format, edition, data)
    filled = bytes(records)
    return [
        entry_of(format, data, n, filled[n * RECORD_SIZE : (n + 1) * RECORD_SIZE], text_of)
        for n in range(count)
    ]


def entry(image: Bytes, n: int, format: Optional[int] = None, *, edition: int = EDITION) -> Entry:
    """Entry n of an image, counted from 0."""
    data = lent(image)
    format = _format(format, data, edition)
    n = word(n, "an entry", 64)
    edition = word(edition, "an edition")
    record = output(RECORD_SIZE)
    call("boardid_entry", format, edition, data, len(data), n, record, len(record))
    return entry_of(format, data, n, bytes(record), _texts(format, edition, data))


def value(image: Bytes, n: int, format: Optional[int] = None, *, edition: int = EDITION) -> bytes:
    """The bytes of the value of entry n."""
    data = lent(image)
    format = _format(format, data, edition)
    n = word(n, "an entry", 64)
    part = call("boardid_value", format, word(edition, "an edition"), data, len(data), n)
    return data[part.place : part.place + part.size]


def string(
    image: Bytes, number: int, format: Optional[int] = Format.TINY, *, edition: int = EDITION
) -> str:
    """The text of a string of a Tiny image's pool, counted from 0."""
    data = lent(image)
    format = _format(format, data, edition)
    number = word(number, "a string number", 64)
    part = call("boardid_string", format, word(edition, "an edition"), data, len(data), number)
    return string_text(data[part.place : part.place + part.size])


def walk(
    image: Bytes, format: Optional[int] = None, *, edition: int = EDITION, start: int = 0
) -> Iterator[Entry]:
    """Goes through an image, an entry at each step, from entry `start` on.

    Each step reads the image from its start: `entries` is faster for a whole one. An image that is
    refused is refused at once, not at the first step.
    """
    data = lent(image)
    found = _format(format, data, edition)
    start = word(start, "an entry", 64)
    check(data, found, edition=edition)
    return _steps(data, found, edition, start)


def _steps(data: bytes, format: int, edition: int, start: int) -> Iterator[Entry]:
    """The steps of a walk over an image that was accepted, up to 13."""
    state = (ctypes.c_uint8 * _WALK.size).from_buffer_copy(
        _WALK.pack(format, edition, start & 0xFFFFFFFF, start >> 32)
    )
    text_of = _texts(format, edition, data)
    number = start
    while True:
        record = output(RECORD_SIZE)
        try:
            call("boardid_step", state, len(state), data, len(data), record, len(record))
        except Refused as refused:
            if refused.number == 13:
                return
            raise
        yield entry_of(format, data, number, bytes(record), text_of)
        number += 1


def write(
    fields: Iterable[Field], format: int, *, edition: int = EDITION, room: Optional[int] = None
) -> bytes:
    """An image of the fields, in their order. By default it has no byte after its end."""
    records: List[bytes] = []
    values: List[bytes] = []
    place = 0
    for field in fields:
        code = word(field.code, "a code")
        key, raw = lent(field.key), lent(field.value)
        records.append(field_bytes(Field(code, raw, key), place, place + len(key)))
        values += (key, raw)
        place += len(key) + len(raw)
        word(place, "the length of all keys and values")
    out = output(IMAGE_MAX if room is None else room)
    table, pool = b"".join(records), b"".join(values)
    format, edition = word(format, "a format"), word(edition, "an edition")
    made = call(
        "boardid_write", format, edition, table, len(table), pool, len(pool), out, len(out)
    )
    return bytes(out) if room is not None else bytes(out)[: made.size]


def edit(
    image: Bytes,
    n: int,
    value: Bytes,
    format: Optional[int] = None,
    *,
    edition: int = EDITION,
    room: Optional[int] = None,
) -> bytes:
    """The image with a new value of entry n; every other entry stays as it is."""
    data, raw = lent(image), lent(value)
    format = _format(format, data, edition)
    n = word(n, "an entry", 64)
    out = output(len(data) if room is None else room)
    edition = word(edition, "an edition")
    call("boardid_edit", format, edition, data, len(data), n, raw, len(raw), out, len(out))
    return bytes(out)


def add(
    image: Bytes,
    field: Field,
    format: Optional[int] = None,
    *,
    edition: int = EDITION,
    room: Optional[int] = None,
) -> bytes:
    """The image with one more entry, after the last one; in Tiny before the pool."""
    data = lent(image)
    format = _format(format, data, edition)
    key, raw = lent(field.key), lent(field.value)
    word(len(key) + len(raw), "the length of key and value")
    lent_field = field_bytes(Field(word(field.code, "a code"), raw, key), 0, len(key))
    pool = key + raw
    out = output(len(data) if room is None else room)
    call(
        "boardid_add",
        format,
        word(edition, "an edition"),
        data,
        len(data),
        lent_field,
        len(lent_field),
        pool,
        len(pool),
        out,
        len(out),
    )
    return bytes(out)


def remove(
    image: Bytes,
    n: int,
    format: Optional[int] = None,
    *,
    edition: int = EDITION,
    room: Optional[int] = None,
) -> bytes:
    """The image without entry n; every other entry stays as it is."""
    data = lent(image)
    format = _format(format, data, edition)
    n = word(n, "an entry", 64)
    out = output(len(data) if room is None else room)
    edition = word(edition, "an edition")
    call("boardid_remove", format, edition, data, len(data), n, out, len(out))
    return bytes(out)


def image_length(format: int, listed: Iterable[Entry]) -> int:
    """The length of an image that was accepted, its end included, by its entries."""
    end = {Format.FBOSS: 4, Format.VPD: 0, Format.TINY: 3, Format.ONIE: 11}[Format(format)]
    for one in listed:
        end = one.place + one.frame_length
    return end + {Format.FBOSS: 4, Format.VPD: 1, Format.TINY: 1, Format.ONIE: 6}[Format(format)]
