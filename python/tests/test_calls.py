"""The calls on an image: every one, on every sample, with what is refused and where."""

from __future__ import annotations

import datetime
import pickle
import threading
from typing import Any, Callable, List, Tuple

import pytest
from conftest import IMAGES, sample

import boardid
from boardid import AddressBlock, Field, Flags, Format, Identity, Reading, Refused, String

SKU = bytes.fromhex("0103534b5502413700")
TINY = bytes.fromhex("56020c1000010453 4e2db724")
ADDED = bytes.fromhex("5602131000 60021a2b3c4d5e 0104534e2db7 63")
ADDRESS = bytes.fromhex("021a2b3c4d5e")


def refused(call: Callable[[], object]) -> Tuple[int, int]:
    """Number and place of the refusal of a call."""
    with pytest.raises(Refused) as caught:
        call()
    assert str(caught.value).endswith(f"(refused {caught.value.number} at {caught.value.place})")
    assert boardid.refusal_text(caught.value.number) in str(caught.value)
    return caught.value.number, caught.value.place


def test_detect(image_name: str) -> None:
    assert boardid.detect(sample(image_name)).word == IMAGES[image_name]


def test_detect_of_no_format() -> None:
    assert refused(lambda: boardid.detect(b"RM\1\0\0\0\0\0")) == (6, 0)
    assert refused(lambda: boardid.detect(b"")) == refused(lambda: boardid.check(b"", Format.VPD))
    assert refused(lambda: boardid.detect(b"\1\1a")) == (5, 0)
    assert refused(lambda: boardid.detect(SKU, edition=5)) == (1, 0)
    assert refused(lambda: boardid.detect(b"\1" * 65537)) == (2, 0)
    for byte in (0x00, 0xFF):
        with pytest.raises(boardid.Blank) as caught:
            boardid.detect(bytes([byte]) * 256)
        assert str(caught.value) == f"the chip is blank: all 256 bytes are {byte:02X}h"
        assert (caught.value.byte, caught.value.length) == (byte, 256)
    assert boardid.check(bytes(256), Format.VPD) == 0
    assert not boardid.is_blank(b"") and not boardid.is_blank(b"\x01\x01")


@pytest.mark.parametrize("edition", [1, 2, 3, 4])
def test_every_sample_lists_alike_in_every_call(image_name: str, edition: int) -> None:
    data = sample(image_name)
    format = Format.of(IMAGES[image_name])
    if format == Format.ONIE and edition < 3:
        assert refused(lambda: boardid.check(data, edition=edition)) == (16, 0)
        assert refused(lambda: boardid.entries(data, edition=edition)) == (16, 0)
        assert refused(lambda: boardid.walk(data, edition=edition)) == (16, 0)
        return
    listed = boardid.entries(data, edition=edition)
    assert listed and boardid.check(data, format, edition=edition) == len(listed)
    assert list(boardid.walk(data, edition=edition)) == listed
    assert [boardid.entry(data, n, edition=edition) for n in range(len(listed))] == listed
    named = {kind.number: kind for kind in boardid.kinds(format, edition=edition)}
    for n, entry in enumerate(listed):
        assert entry.number == n and entry.format == format
        assert boardid.value(data, n, edition=edition) == entry.raw
        assert data[entry.value_place : entry.value_place + entry.value_length] == entry.raw
        if entry.kind:
            assert entry.kind == format * 256 + entry.code
            assert entry.reading == named[entry.kind].reading
        else:
            assert format * 256 + entry.code not in named
            assert entry.reading == Reading.PLAIN_BYTES and entry.value == entry.raw
            assert entry.name is None and entry.short == ()
        if n:
            before = listed[n - 1]
            assert before.place + before.frame_length == entry.place
    assert refused(lambda: boardid.entry(data, len(listed), edition=edition)) == (13, 0)
    assert refused(lambda: boardid.value(data, len(listed), edition=edition)) == (13, 0)


def test_frames_are_those_of_edition_4() -> None:
    assert [one.frame_length for one in boardid.entries(sample("frames.vpd"))] == [8, 15, 207]


def test_an_edition_that_there_is_none_of(image_name: str) -> None:
    data = sample(image_name)
    for edition in (0, 5, 0xFFFFFFFF):
        calls: List[Callable[[], object]] = [
            lambda: boardid.check(data, IMAGES_OF(image_name), edition=edition),
            lambda: boardid.entries(data, IMAGES_OF(image_name), edition=edition),
            lambda: boardid.entry(data, 0, IMAGES_OF(image_name), edition=edition),
            lambda: boardid.value(data, 0, IMAGES_OF(image_name), edition=edition),
            lambda: boardid.walk(data, IMAGES_OF(image_name), edition=edition),
            lambda: boardid.edit(data, 0, b"", IMAGES_OF(image_name), edition=edition),
            lambda: boardid.add(data, Field(1, b""), IMAGES_OF(image_name), edition=edition),
            lambda: boardid.remove(data, 0, IMAGES_OF(image_name), edition=edition),
            lambda: boardid.write([], IMAGES_OF(image_name), edition=edition),
            lambda: boardid.check(data, edition=edition),
        ]
        for call in calls:
            assert refused(call) == (1, 0)


def IMAGES_OF(name: str) -> Format:
    return Format.of(IMAGES[name])


def test_a_format_that_there_is_none_of() -> None:
    for format in (0, 5, 257, 0xFFFFFFFF):
        assert refused(lambda: boardid.check(SKU, format)) == (16, 0)
        assert refused(lambda: boardid.entries(SKU, format)) == (16, 0)
        assert refused(lambda: boardid.write([], format)) == (16, 0)
    assert refused(lambda: boardid.string(SKU, 0, Format.VPD)) == (16, 0)


def test_values_of_tiny() -> None:
    serial, tests, mac, identity, _, batch, last, pool = boardid.entries(sample("tiny.bin"))
    assert serial.value == String(0, "S4711")
    assert tests.value == Flags(7) and Flags(7).words == ("assembly", "configuration", "burn-in")
    assert mac.value == AddressBlock(ADDRESS, 1)
    assert isinstance(mac.value, AddressBlock) and mac.value.address == "02:1a:2b:3c:4d:5e"
    assert identity.value == Identity(String(0, "S4711"), String(1, "PN-1002"), 128, 5, b"A1")
    assert isinstance(identity.value, Identity) and identity.value.revision == "0A.05"
    assert identity.value.packed == identity.raw
    assert batch.value == Identity(String(0, "S4711"), String(1, "PN-1002"), 1, 99, b"B2", 42)
    assert isinstance(batch.value, Identity) and batch.value.packed == batch.raw
    assert last.value == Identity(String(2, "RACK-17"), String(3, "SYS-88"), 153, 0, b"XY", 9999)
    assert pool.value == pool.raw and pool.reading == Reading.PLAIN_BYTES
    assert pool.key is None


def test_values_of_fboss() -> None:
    listed = {one.code: one for one in boardid.entries(sample("fboss.bin"))}
    assert listed[1].value == "FIRST_SQUEEZE" and listed[8].value == 1
    assert listed[13].value == datetime.date(2013, 2, 3)
    assert listed[17].value == AddressBlock(bytes.fromhex("112233445566"), 258)
    assert {one.code: one.kind for one in boardid.entries(sample("fboss.bin"), edition=1)}[17] == 0


def test_values_of_onie() -> None:
    listed = {one.code: one for one in boardid.entries(sample("onie.bin"))}
    assert listed[0x25].value == datetime.datetime(2024, 2, 3, 4, 5, 6)
    assert listed[0x2A].value == 3 and listed[0x2C].value == "CZ"
    assert listed[0x26].value == b"\1" and listed[0x26].kind == 0
    assert listed[0xFD].raw.startswith(bytes.fromhex("00001f7900"))


def test_values_of_vpd() -> None:
    listed = boardid.entries(sample("names.vpd"))
    assert [one.key for one in listed] == [b"gVpdInfo", b"lab.rack", b"SKU", b"\x1bc\"\\\x00\xff"]
    assert [one.value for one in listed] == [b"\x21\0\0\0", b"R07", b"A7", b"x"]
    assert listed[1].name is None and listed[0].name == "info header"


def test_strings() -> None:
    tiny = sample("tiny.bin")
    texts = [boardid.string(tiny, n) for n in range(4)]
    assert texts == ["S4711", "PN-1002", "RACK-17", "SYS-88"]
    assert refused(lambda: boardid.string(tiny, 4)) == (15, 0)
    assert refused(lambda: boardid.string(bytes.fromhex("5602046f"), 0)) == (15, 0)
    lost = boardid.remove(TINY, 1)
    assert boardid.entries(lost)[0].value == String(0, None)


def test_a_walk_from_an_entry_on() -> None:
    tiny = sample("tiny.bin")
    assert list(boardid.walk(tiny, start=5)) == boardid.entries(tiny)[5:]
    assert list(boardid.walk(tiny, start=8)) == []
    assert list(boardid.walk(tiny, start=(1 << 32) + 1)) == []
    steps = boardid.walk(tiny)
    assert next(steps).number == 0 and next(steps).number == 1


def test_write() -> None:
    assert boardid.write([Field(1, b"A7", b"SKU")], Format.VPD) == SKU
    assert boardid.write([Field(1, b"A7", b"SKU")], Format.VPD, room=12) == SKU + b"\xff" * 3
    assert boardid.write([], Format.VPD) == b"\0"
    assert boardid.write([], Format.TINY) == bytes.fromhex("5602046f")
    assert boardid.write([], Format.ONIE).hex() == "546c76496e666f00010006fe04d4431c18"
    assert refused(lambda: boardid.write([], Format.FBOSS)) == (11, 0)
    fields = [Field(1, b"", b"a"), Field(1, b"", b"lab.rack")]
    assert refused(lambda: boardid.write(fields, Format.VPD)) == (7, 1)
    fields = [Field(1, b"", b"a"), Field(0xFE, b"1234", b"x"), Field(1, b"", b"a")]
    assert refused(lambda: boardid.write(fields, Format.VPD)) == (8, 2)
    assert refused(lambda: boardid.write(fields[:2], Format.VPD, edition=1)) == (14, 1)
    assert refused(lambda: boardid.write([Field(1, b""), Field(0x10, b"\0")], Format.TINY)) == (9, 1)
    assert refused(lambda: boardid.write(fields[:1], Format.VPD, room=4)) == (12, 0)
    assert refused(lambda: boardid.write(fields[:1], Format.VPD, room=65537)) == (2, 0)
    assert refused(lambda: boardid.write(fields[:1], Format.VPD, room=1 << 50)) == (2, 0)
    with pytest.raises(ValueError):
        boardid.write([], Format.VPD, room=-1)
    with pytest.raises(ValueError):
        boardid.write([Field(1 << 32, b"")], Format.VPD)


def test_a_list_that_is_written_again(image_name: str) -> None:
    """The fields of a list make the same image, where the edition names all and takes every key."""
    data = sample(image_name)
    listed = boardid.entries(data)
    fields = [one.field for one in listed]
    if any(one.kind == 0 for one in listed):
        assert refused(lambda: boardid.write(fields, listed[0].format)) == (14, 5)
    elif image_name == "names.vpd":
        assert refused(lambda: boardid.write(fields, listed[0].format)) == (7, 1)
    else:
        made = boardid.write(fields, listed[0].format, room=len(data))
        assert [one.field for one in boardid.entries(made)] == fields
        assert made == data or image_name == "frames.vpd"


def test_edit() -> None:
    data = sample("onie.bin")
    made = boardid.edit(data, 2, b"SN-8")
    assert len(made) == len(data) and made != data and data == sample("onie.bin")
    before, after = boardid.entries(data), boardid.entries(made)
    assert [one.raw for one in after] == [b"SN-8" if one.number == 2 else one.raw for one in before]
    assert boardid.edit(made, 2, b"LAB-000471") == data
    assert len(boardid.edit(data, 2, b"SN-8", room=300)) == 300
    assert refused(lambda: boardid.edit(data, 2, b"\x1f")) == (7, before[2].place)
    assert refused(lambda: boardid.edit(data, 4, b"02/31/2024 04:05:06")) == (7, before[4].place)
    assert refused(lambda: boardid.edit(data, 5, b"")) == (14, before[5].place)
    assert refused(lambda: boardid.edit(data, 13, b"")) == (13, 0)
    assert refused(lambda: boardid.edit(data, 2, b"", room=100)) == (12, 0)
    assert refused(lambda: boardid.edit(SKU, 0, b"A77")) == (12, 0)
    assert boardid.edit(SKU, 0, b"A77", room=10).hex() == "0103534b550341373700"
    assert refused(lambda: boardid.edit(SKU, 0, b"", room=65537)) == (2, 0)


def test_add_and_remove() -> None:
    field = Field(0x60, ADDRESS)
    assert refused(lambda: boardid.add(TINY, field)) == (12, 0)
    assert boardid.add(TINY, field, room=24) == ADDED + b"\xff" * 5
    assert boardid.remove(ADDED, 1) == TINY + b"\xff" * 7
    assert boardid.remove(ADDED, 1, room=12) == TINY
    without = bytes.fromhex("56021160021a2b3c4d5e0104534e2db782")
    assert boardid.remove(ADDED, 0, room=17) == without
    assert refused(lambda: boardid.add(ADDED, field, room=40)) == (8, 0)
    assert refused(lambda: boardid.add(TINY, Field(0x60, ADDRESS[:5]), room=40)) == (7, 0)
    assert refused(lambda: boardid.add(TINY, Field(0x53, b"12345"), room=40)) == (14, 0)
    assert refused(lambda: boardid.add(TINY, Field(0x80, bytes(8)), room=40, edition=1)) == (14, 0)
    assert refused(lambda: boardid.remove(ADDED, 3)) == (13, 0)
    fboss = sample("fboss.bin")
    assert refused(lambda: boardid.remove(fboss, 0)) == (11, 0)
    place = boardid.entries(fboss)[16].place
    assert refused(lambda: boardid.remove(fboss, 16, edition=1)) == (14, place)
    gone = boardid.remove(fboss, 16)
    assert boardid.add(gone, Field(17, boardid.value(fboss, 16))) != fboss
    key = boardid.add(SKU, Field(1, b"v", b"key"), room=20)
    assert [(one.key, one.value) for one in boardid.entries(key)] == [(b"SKU", b"A7"), (b"key", b"v")]


def test_an_image_that_is_damaged() -> None:
    data = bytearray(sample("tiny.bin"))
    data[-1] ^= 1
    assert refused(lambda: boardid.entries(data)) == (10, 73)
    data = bytearray(sample("onie.bin"))
    data[8] = 2
    assert refused(lambda: boardid.check(data)) == (4, 0)
    data = bytearray(sample("fboss.bin"))
    assert data[4] == 1
    data[4] = 255
    assert refused(lambda: boardid.check(data)) == (6, 4)


@pytest.mark.parametrize("make", [bytes, bytearray, memoryview, lambda data: memoryview(bytearray(data))])
def test_no_argument_is_changed(make: Callable[[bytes], Any]) -> None:
    """Any bytes-like is taken, and is what it was before."""
    tiny, room, onie = sample("tiny.bin"), sample("room.bin"), sample("onie.bin")
    image, body, pool = make(tiny), make(tiny), make(b"ab")
    file, lab, serial = make(room), make(onie), make(b"S")
    boardid.check(image)
    boardid.entries(image)
    boardid.entry(image, 0)
    boardid.value(image, 0)
    boardid.string(image, 0)
    list(boardid.walk(image))
    boardid.edit(image, 7, pool)
    boardid.remove(image, 0)
    with pytest.raises(Refused):
        boardid.add(image, Field(0x10, pool))
    boardid.write([Field(1, pool, make(b"k"))], Format.VPD)
    boardid.vendor_read(lab)
    boardid.vendor_write(serial, [0] * 8)
    boardid.room_add(file, 5, body)
    boardid.room_replace(file, 17, body)
    boardid.room_remove(file, 17)
    boardid.room_fetch(file, 17)
    boardid.room_rows(file)
    boardid.Image(image).with_value("serial", "other", room=200)
    assert (bytes(image), bytes(body), bytes(pool)) == (tiny, tiny, b"ab")
    assert (bytes(file), bytes(lab), bytes(serial)) == (room, onie, b"S")


def test_a_slice_of_a_buffer_is_taken() -> None:
    spaced = memoryview(bytes(byte for pair in zip(SKU, bytes(9)) for byte in pair))[::2]
    assert boardid.check(spaced) == 1


def test_a_refusal_can_be_pickled() -> None:
    again = pickle.loads(pickle.dumps(Refused(7, 61)))
    assert (again.number, again.place, str(again)) == (7, 61, str(Refused(7, 61)))
    assert pickle.loads(pickle.dumps(boardid.entries(SKU))) == boardid.entries(SKU)


def test_threads() -> None:
    """Calls of many threads give each its own answer."""
    wanted = {name: boardid.entries(sample(name)) for name in IMAGES}
    wrong: List[str] = []

    def work(name: str) -> None:
        for _ in range(30):
            data = sample(name)
            if boardid.entries(data) != wanted[name]:
                wrong.append(name)
            if list(boardid.walk(data)) != wanted[name]:
                wrong.append(name)

    threads = [threading.Thread(target=work, args=(name,)) for name in list(IMAGES) * 2]
    for thread in threads:
        thread.start()
    for thread in threads:
        thread.join()
    assert wrong == []
