"""Vendor payloads: read, written, and in an image."""

from __future__ import annotations

import pytest
from conftest import sample
from test_calls import SKU, refused

import boardid
from boardid import Format, Image

WHOLE = bytes.fromhex("00001f7900 0844513030304d5057 0009 00 0000000000000000 0260514b")
OFFSETS = (24, -2, 0, 7, -13, 18, -1, 105)


def test_read() -> None:
    vendor = boardid.vendor_read(sample("amplifier.bin"))
    assert (vendor.serial, vendor.offsets) == (b"DQ000MPW", OFFSETS)
    assert vendor.by_name["c-band-west-in"] == 24 and vendor.decibels["l-band-east-out"] == 10.5
    assert list(vendor.by_name) == list(boardid.OFFSETS)
    assert len(vendor.payload) == 24 and vendor.payload[-4:].hex() == "07640c98"
    assert boardid.vendor_read(sample("onie.bin")).payload == WHOLE[5:]


def test_write() -> None:
    assert boardid.vendor_write(b"DQ000MPW", [0] * 8) == [WHOLE]
    first, second = boardid.vendor_write(b"DQ000MPW", [0] * 8, [23, 1])
    assert first == WHOLE[:-1] and second == WHOLE[:5] + WHOLE[-1:]
    values = [one.raw for one in boardid.entries(sample("amplifier.bin")) if one.code == 0xFD]
    assert boardid.vendor_write(b"DQ000MPW", OFFSETS, [10, 14]) == [values[0], values[2]]
    long = boardid.vendor_write(b"x" * 255, [0] * 8)
    assert [len(value) for value in long] == [255, 26]
    assert [len(value) for value in boardid.vendor_write(b"x" * 234, [0] * 8)] == [255]


def test_refusals() -> None:
    assert refused(lambda: boardid.vendor_write(b"x" * 256, [0] * 8)) == (18, 0)
    assert refused(lambda: boardid.vendor_write(b"x", [0] * 8, [])) == (18, 0)
    assert refused(lambda: boardid.vendor_write(b"x", [0] * 8, [16])) == (18, 0)
    assert refused(lambda: boardid.vendor_write(b"x", [0] * 8, [17], Format.VPD)) == (16, 0)
    assert refused(lambda: boardid.vendor_write(b"x", [0] * 8, edition=2)) == (16, 0)
    assert refused(lambda: boardid.vendor_write(b"x", [0] * 8, edition=5)) == (1, 0)
    assert refused(lambda: boardid.vendor_read(sample("onie.bin"), edition=2)) == (16, 0)
    assert refused(lambda: boardid.vendor_read(SKU, Format.VPD)) == (16, 0)
    assert refused(lambda: boardid.vendor_read(SKU)) == (3, 0)
    onie = sample("onie.bin")
    number = len(boardid.entries(onie)) - 1
    assert refused(lambda: boardid.vendor_read(boardid.remove(onie, number))) == (17, 0)
    assert refused(lambda: boardid.vendor_read(boardid.edit(onie, number, WHOLE[:-1]))) == (18, 0)
    wrong = WHOLE[:-1] + b"\0"
    assert refused(lambda: boardid.vendor_read(boardid.edit(onie, number, wrong))) == (19, 0)
    for offsets in ([0] * 7, [128] + [0] * 7, [0] * 7 + [-129]):
        with pytest.raises(ValueError):
            boardid.vendor_write(b"", offsets)


def test_an_image_with_another_payload() -> None:
    image = Image(sample("amplifier.bin"))
    same = image.with_vendor(offsets={"c-band-west-in": -5})
    assert same.vendor().offsets == (-5,) + OFFSETS[1:] and same.vendor().serial == b"DQ000MPW"
    assert [len(one.raw) for one in same] == [len(one.raw) for one in image]
    shorter = image.with_vendor(b"NEW")
    assert shorter.vendor().serial == b"NEW" and shorter.vendor().offsets == OFFSETS
    assert len(shorter) == len(image) - 1 and len(shorter.data) == len(image.data)
    assert image.with_vendor() == image
    longer = image.with_vendor(b"x" * 250, room=600)
    assert longer.vendor().serial == b"x" * 250 and longer.room == 600
    assert refused(lambda: image.with_vendor(b"x" * 250)) == (12, 0)
    pieces = boardid.vendor_write(b"SERIAL", OFFSETS, [4, 3, 0, 15])
    another = boardid.Field(0xFD, bytes.fromhex("00007ed973"))
    fields = [boardid.Field(0xFD, piece) for piece in pieces]
    cut = Image.new(fields[:2] + [another] + fields[2:], Format.ONIE, room=200)
    joined = cut.with_vendor(b"S")
    assert joined.vendor().serial == b"S" and joined.vendor().offsets == OFFSETS
    assert [one.raw for one in joined] == [boardid.vendor_write(b"S", OFFSETS)[0], another.value]
    bare = Image(sample("onie.bin")).without("extension")
    assert refused(bare.vendor) == (17, 0)
    assert bare.with_vendor(b"A").vendor().offsets == (0,) * 8
    with pytest.raises(boardid.NoSuchName):
        image.with_vendor(offsets={"x-band": 1})
    assert refused(Image(sample("tiny.bin")).vendor) == (16, 0)
