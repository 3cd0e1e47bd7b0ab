"""The models against the papers' own cases and the samples' page, without the command."""

from __future__ import annotations

import pytest

import formats as f
from running import IMAGES, NAMES, format_of, model, sample


def refusal(fmt: int, edition: int, image: bytes) -> tuple[int, int]:
    """Number and place of an image's refusal; 0 0 where it is accepted."""
    try:
        f.read(fmt, edition, image)
    except f.Refused as refused:
        return refused.number, refused.place
    return 0, 0


def test_checks() -> None:
    assert f.crc16(b"") == 0x1D0F
    assert f.crc16(b"A") == 0x9479
    assert f.crc16(b"123456789") == 0xE5CC
    assert f.crc16(b"A" * 256) == 0xE938
    assert f.crc8(bytes.fromhex("560204")) == 0x6F
    assert f.crc32(b"123456789") == 0xCBF43926


@pytest.mark.parametrize(
    "fmt, edition, image, number, place",
    [
        (1, 4, "fbfb05ff", 5, 4),
        (1, 4, "fbfb04ff", 4, 0),
        (2, 4, "", 5, 0),
        (2, 4, "00", 0, 0),
        (2, 4, "ff", 0, 0),
        (2, 4, "0103534b5502413700", 0, 0),
        (2, 4, "01000000", 7, 0),
        (2, 4, "0180808080", 6, 0),
        (2, 4, "018001410000", 0, 0),
        (2, 4, "010141000101410000", 8, 4),
        (2, 1, "fe0141030102030000", 0, 0),
        (2, 2, "fe01410301020300", 7, 0),
        (3, 4, "5602046f", 0, 0),
        (3, 4, "5602046e", 10, 3),
        (3, 4, "560203", 5, 2),
        (4, 2, "00", 16, 0),
        (4, 5, "00", 1, 0),
        (5, 5, "00", 16, 0),
    ],
)
def test_cases_of_the_papers(fmt: int, edition: int, image: str, number: int, place: int) -> None:
    assert refusal(fmt, edition, bytes.fromhex(image)) == (number, place)


def test_edits_of_the_papers() -> None:
    sku = bytes.fromhex("0103534b5502413700")
    assert f.edit_into(2, 4, sku, 0, b"B", 10).hex() == "0103534b55014200ffff"
    with pytest.raises(f.Refused) as refused:
        f.edit_into(2, 4, sku, 0, b"B", 7)
    assert refused.value.number == 12
    assert f.vpd_length(65793).hex() == "848201"


@pytest.mark.parametrize(
    "name, entries, length",
    [
        ("fboss.bin", 20, 210),
        ("sku.vpd", 1, 9),
        ("board.vpd", 4, 84),
        ("names.vpd", 4, 48),
        ("frames.vpd", 3, 231),
        ("tiny.bin", 8, 74),
        ("onie.bin", 13, 202),
        ("amplifier.bin", 12, 188),
    ],
)
def test_samples(name: str, entries: int, length: int) -> None:
    image = model(name)
    assert (len(image.entries), image.length) == (entries, length)
    assert f.detect(4, sample(name)) == format_of(name)


def test_frames_of_the_sample() -> None:
    assert [entry.frame_length for entry in model("frames.vpd").entries] == [8, 15, 207]


def test_vendor_payloads() -> None:
    found = f.vendor_read(4, 4, sample("amplifier.bin"))
    assert found.serial == b"DQ000MPW"
    assert found.offsets == [24, -2, 0, 7, -13, 18, -1, 105]
    assert found.pieces == [10, 14]
    assert f.vendor_payload(found.serial, found.offsets)[-4:].hex() == "07640c98"
    assert f.vendor_read(4, 4, sample("onie.bin")).offsets == [0] * 8


def test_room_file() -> None:
    boards = f.room_read(4, sample("room.bin"))
    bodies = ["sku.vpd", "fboss.bin", "board.vpd", "tiny.bin", "onie.bin"]
    assert [board.number for board in boards] == [17, 1001, 1002, 2001, 0xF0000001]
    assert [board.body for board in boards] == [sample(name) for name in bodies]
    rows = [(board.number, board.fmt, board.body) for board in boards]
    assert f.room_write(rows) == sample("room.bin")
    with pytest.raises(f.Refused) as refused:
        f.room_read(2, sample("room.bin"))
    assert (refused.value.number, refused.value.place) == (16, 8451)


@pytest.mark.parametrize("name", NAMES)
def test_an_edit_to_the_same_value_keeps_the_list(name: str) -> None:
    fmt, data = format_of(name), sample(name)
    for entry in model(name).entries:
        if entry.kind == 0:
            continue
        again = f.read(fmt, 4, f.edit(fmt, 4, data, entry.number, entry.value))
        assert [(e.code, e.key, e.value) for e in again.entries] == [
            (e.code, e.key, e.value) for e in model(name).entries
        ]


def test_every_format_has_a_sample() -> None:
    assert {fmt for _, fmt in IMAGES} == {1, 2, 3, 4}


def test_a_written_list_reads_back() -> None:
    fields = [f.Field(1, b"X"), f.Field(8, b"\1"), f.Field(9, b"\2"), f.Field(10, b"\3"), f.Field(11, b"S")]
    image = f.read(1, 1, f.write(1, 1, fields, 100))
    assert [(e.code, e.value) for e in image.entries] == [(x.code, x.value) for x in fields]
    with pytest.raises(f.Refused) as refused:
        f.write(1, 1, fields[:4], 100)
    assert refused.value.number == 11
