"""Room files: the images of a machine room's boards in one file."""

from __future__ import annotations

from dataclasses import dataclass
from typing import List, Optional

from .calls import detect
from .errors import Refused
from .library import EDITION, IMAGE_MAX, Bytes, call, lent, output, word

#: The form of room files that the library knows.
ROOM_FORM = 1

_HEAD_SIZE = 8
_ROW_SIZE = 8


@dataclass(frozen=True)
class RoomRow:
    """A row of a room file: the board, the format of its body, and where the body stands."""

    board: int
    format: int
    place: int
    length: int


def room_empty(*, form: int = ROOM_FORM) -> bytes:
    """A room file without boards; Refused with 21 of a form that is not known."""
    if form != ROOM_FORM:
        raise Refused(21)
    return bytes((0x52, 0x4D, form, 0, 0, 0, 0, 0))


def _put(
    name: str, file: Bytes, board: int, body: Bytes, format: Optional[int], edition: int, form: int
) -> bytes:
    """The file of an addition or a replacement."""
    data, raw = lent(file), lent(body)
    found = detect(raw, edition=edition) if format is None else word(format, "a format")
    out = output(IMAGE_MAX)
    made = call(
        name,
        word(form, "a form"),
        word(edition, "an edition"),
        data,
        len(data),
        word(board, "a board"),
        found,
        raw,
        len(raw),
        out,
        len(out),
    )
    return bytes(out)[: made.size]


def room_add(
    file: Bytes,
    board: int,
    body: Bytes,
    format: Optional[int] = None,
    *,
    edition: int = EDITION,
    form: int = ROOM_FORM,
) -> bytes:
    """The room file with one more board. The body goes in as it is; every other board stays."""
    return _put("boardid_room_add", file, board, body, format, edition, form)


def room_replace(
    file: Bytes,
    board: int,
    body: Bytes,
    format: Optional[int] = None,
    *,
    edition: int = EDITION,
    form: int = ROOM_FORM,
) -> bytes:
    """The room file with another body of a board, of the same format or another one."""
    return _put("boardid_room_replace", file, board, body, format, edition, form)


def room_remove(
    file: Bytes, board: int, *, edition: int = EDITION, form: int = ROOM_FORM
) -> bytes:
    """The room file without a board."""
    data = lent(file)
    form, edition = word(form, "a form"), word(edition, "an edition")
    board = word(board, "a board")
    out = output(IMAGE_MAX)
    made = call("boardid_room_remove", form, edition, data, len(data), board, out, len(out))
    return bytes(out)[: made.size]


def room_fetch(file: Bytes, board: int, *, edition: int = EDITION, form: int = ROOM_FORM) -> bytes:
    """The body of a board; its format stands in its row."""
    data = lent(file)
    form, edition = word(form, "a form"), word(edition, "an edition")
    board = word(board, "a board")
    part = call("boardid_room_fetch", form, edition, data, len(data), board)
    return data[part.place : part.place + part.size]


def room_rows(file: Bytes, *, edition: int = EDITION, form: int = ROOM_FORM) -> List[RoomRow]:
    """The rows of a room file whose head and contents are right; Refused with 1, 2 or 21 else.

    A body that the edition refuses does not matter here: a fetch of any board is refused for it.
    """
    data = lent(file)
    try:
        first = int.from_bytes(data[_HEAD_SIZE : _HEAD_SIZE + 4], "big")
        room_fetch(data, first, edition=edition, form=form)
    except Refused as refused:
        # 2 at another place than 0 is a body's own; the file itself is too long at 0.
        if refused.number in (1, 21) or (refused.number == 2 and refused.place == 0):
            raise
    rows: List[RoomRow] = []
    count = int.from_bytes(data[4:6], "big")
    place = _HEAD_SIZE + count * _ROW_SIZE
    for k in range(count):
        row = data[_HEAD_SIZE + k * _ROW_SIZE : _HEAD_SIZE + (k + 1) * _ROW_SIZE]
        length = int.from_bytes(row[6:8], "big")
        rows.append(RoomRow(int.from_bytes(row[:4], "big"), row[4], place, length))
        place += length
    return rows
