"""Room files: rows, bodies, and what the four calls are refused for."""

from __future__ import annotations

import pytest
from conftest import sample
from test_calls import SKU, refused

import boardid
from boardid import Format, RoomRow

EMPTY = bytes.fromhex("524d010000000000")
ONE = bytes.fromhex("524d010000010000 0000012c02000009") + SKU
TWO = bytes.fromhex("524d010000020000 0000000703000004 0000012c02000009 5602046f") + SKU
NONE = bytes.fromhex("5602046f")


def test_the_example_of_the_manual() -> None:
    assert boardid.room_empty() == EMPTY and boardid.room_rows(EMPTY) == []
    assert boardid.room_add(EMPTY, 300, SKU) == ONE
    assert boardid.room_add(ONE, 7, NONE, Format.TINY) == TWO
    assert boardid.room_rows(TWO) == [RoomRow(7, 3, 24, 4), RoomRow(300, 2, 28, 9)]
    assert boardid.room_fetch(TWO, 300) == SKU and boardid.room_fetch(TWO, 7) == NONE
    assert boardid.room_remove(TWO, 7) == ONE
    assert boardid.room_replace(TWO, 300, NONE) == boardid.room_add(
        boardid.room_remove(TWO, 300), 300, NONE
    )


def test_refusals() -> None:
    assert refused(lambda: boardid.room_add(TWO, 7, SKU)) == (23, 0)
    assert refused(lambda: boardid.room_remove(TWO, 8)) == (22, 0)
    assert refused(lambda: boardid.room_replace(TWO, 8, SKU)) == (22, 0)
    assert refused(lambda: boardid.room_fetch(TWO, 8)) == (22, 0)
    assert refused(lambda: boardid.room_fetch(TWO, 7, form=2)) == (21, 0)
    assert refused(lambda: boardid.room_fetch(TWO[:-1], 7)) == (21, 0)
    assert refused(lambda: boardid.room_replace(TWO, 300, SKU, Format.TINY)) == (3, 0)
    assert refused(lambda: boardid.room_add(TWO, 8, SKU, 257)) == (16, 0)
    assert refused(lambda: boardid.room_add(TWO, 8, SKU, Format.VPD, edition=5)) == (1, 0)
    assert refused(lambda: boardid.room_empty(form=2)) == (21, 0)
    full = boardid.write([boardid.Field(1, bytes(65000), b"k")], Format.VPD, room=65520)
    file = boardid.room_add(EMPTY, 1, full)
    assert len(file) == 65536
    assert refused(lambda: boardid.room_add(file, 2, SKU)) == (12, 0)
    assert refused(lambda: boardid.room_fetch(file + b"\0", 1)) == (2, 0)
    damaged = bytearray(TWO)
    damaged[27] ^= 1
    assert refused(lambda: boardid.room_fetch(damaged, 300)) == (10, 27)
    with pytest.raises(boardid.Blank):
        boardid.room_add(TWO, 8, bytes(16))
    for board in (-1, 1 << 32):
        with pytest.raises(ValueError):
            boardid.room_fetch(TWO, board)


def test_rows_of_what_is_no_room_file() -> None:
    for wrong in (b"", EMPTY[:7], b"\0" * 8, TWO[:-1], TWO + b"\0", SKU, sample("onie.bin")):
        assert refused(lambda: boardid.room_rows(wrong)) == (21, 0)
    assert refused(lambda: boardid.room_rows(bytes(65537))) == (2, 0)
    assert refused(lambda: boardid.room_rows(TWO, edition=5)) == (1, 0)
    assert refused(lambda: boardid.room_rows(TWO, form=2)) == (21, 0)


def test_rows_of_a_file_with_a_damaged_body() -> None:
    damaged = bytearray(TWO)
    damaged[27] ^= 1
    assert boardid.room_rows(damaged) == boardid.room_rows(TWO)


def test_the_sample() -> None:
    file = sample("room.bin")
    bodies = {17: "sku.vpd", 1001: "fboss.bin", 1002: "board.vpd", 2001: "tiny.bin", 0xF0000001: "onie.bin"}
    rows = boardid.room_rows(file)
    assert [row.board for row in rows] == sorted(bodies)
    made = boardid.room_empty()
    for row in rows:
        body = boardid.room_fetch(file, row.board)
        assert body == sample(bodies[row.board]) == file[row.place : row.place + row.length]
        assert boardid.detect(body) == row.format
        made = boardid.room_add(made, row.board, body)
    assert made == file
    for edition in (1, 2):
        assert refused(lambda: boardid.room_fetch(file, 17, edition=edition)) == (16, 8451)
        assert refused(lambda: boardid.room_remove(file, 17, edition=edition)) == (16, 8451)
    assert boardid.room_fetch(file, 17, edition=3) == SKU
