"""Any bytes get an answer: random ones, samples cut at every length, samples with a byte changed."""

from __future__ import annotations

import random
from typing import Callable, Dict, List, Optional, Tuple

from conftest import sample
from test_calls import SKU

import boardid
from boardid import Field, Format, Refused


def number_of(call: Callable[[], object]) -> int:
    """The number that a call is refused with, or 0. Any other exception fails the test."""
    try:
        call()
    except Refused as refused:
        assert 1 <= refused.number <= 23 and 0 <= refused.place <= 2 * 65536
        return refused.number
    return 0


def try_all(data: bytes, format: int, edition: int) -> int:
    """Makes every call on an image; gives what the check is refused for."""
    before = bytes(bytearray(data))
    answer = number_of(lambda: boardid.check(data, format, edition=edition))
    assert answer == number_of(lambda: boardid.entries(data, format, edition=edition))
    first = answer or (13 if boardid.check(data, format, edition=edition) == 0 else 0)
    assert first == number_of(lambda: boardid.entry(data, 0, format, edition=edition))
    assert first == number_of(lambda: boardid.value(data, 0, format, edition=edition))
    walked = number_of(lambda: list(boardid.walk(data, format, edition=edition)))
    assert walked == answer
    number_of(lambda: boardid.string(data, 1, format, edition=edition))
    number_of(lambda: boardid.edit(data, 0, b"A", format, edition=edition))
    number_of(lambda: boardid.add(data, Field(1, b"A", b"k"), format, edition=edition, room=400))
    number_of(lambda: boardid.remove(data, 0, format, edition=edition))
    number_of(lambda: boardid.vendor_read(data, format, edition=edition))
    try:
        found: Optional[Format] = boardid.detect(data, edition=edition)
    except (Refused, boardid.Blank):
        found = None
    if found == format:
        assert answer == number_of(lambda: boardid.Image(data, edition=edition))
        if answer == 0:
            boardid.Image(data, edition=edition).to_json()
    assert data == before
    return answer


def test_random_bytes() -> None:
    chance = random.Random(1)
    heads = [b"", b"\xfb\xfb\x05\xff", b"\x01\x03", b"\x56\x02\x10", b"TlvInfo\0\x01\0\x20"]
    for _ in range(1500):
        data = chance.choice(heads) + chance.randbytes(chance.randrange(40))
        try_all(data, chance.randrange(6), chance.randrange(6))


def test_samples_cut_at_every_length() -> None:
    files = [("fboss.bin", 1), ("board.vpd", 2), ("names.vpd", 2), ("frames.vpd", 2), ("tiny.bin", 3), ("onie.bin", 4)]
    for name, format in files:
        data = sample(name)
        length = boardid.Image(data).length
        for cut in range(min(len(data), length + 3) + 1):
            answer = try_all(data[:cut], format, 4)
            assert (answer == 0) == (cut >= length), (name, cut)


def test_room_file_cut_at_every_length() -> None:
    file = sample("room.bin")
    for cut in range(len(file)):
        if cut > 200 and cut % 101:
            continue
        part = file[:cut]
        assert number_of(lambda: boardid.room_rows(part)) == 21
        assert number_of(lambda: boardid.room_fetch(part, 17)) == 21
        assert number_of(lambda: boardid.room_add(part, 1, SKU)) == 21
        assert number_of(lambda: boardid.room_remove(part, 17)) == 21


def test_a_byte_changed() -> None:
    """A changed byte is refused or read, by every edition alike where it is no matter of names."""
    chance = random.Random(2)
    for name, format in (("fboss.bin", 1), ("names.vpd", 2), ("tiny.bin", 3), ("onie.bin", 4)):
        data = bytearray(sample(name))
        length = boardid.Image(data).length
        for _ in range(150):
            place = chance.randrange(length)
            old = data[place]
            data[place] = chance.randrange(256)
            try_all(bytes(data), format, chance.randrange(1, 6))
            data[place] = old


def test_random_room_files() -> None:
    chance = random.Random(3)
    file = bytearray(sample("room.bin"))
    for _ in range(300):
        place = chance.randrange(60)
        old = file[place]
        file[place] = chance.randrange(256)
        data = bytes(file)
        rows = number_of(lambda: boardid.room_rows(data))
        fetch = number_of(lambda: boardid.room_fetch(data, 17))
        assert rows in (0, 21) and (rows == 21) == (fetch == 21)
        if rows == 0:
            for row in boardid.room_rows(data):
                assert 0 < row.length and row.place + row.length <= len(data)
        file[place] = old


def test_many_entries() -> None:
    """A long list: 21,845 entries of a type that edition 1 does not name."""
    data = b"\xfe\x00\x00" * 21845 + b"\x00"
    listed = boardid.entries(data, Format.VPD, edition=1)
    assert len(data) == 65536 and len(listed) == 21845
    assert (listed[-1].number, listed[-1].place, listed[-1].kind) == (21844, 65532, 0)


def test_random_changes_read_back() -> None:
    """What is added, edited and removed at random is in the list, and the rest stays."""
    chance = random.Random(4)
    model: Dict[bytes, bytes] = {}
    image = boardid.write([], Format.VPD, room=4096)
    for _ in range(400):
        listed = boardid.entries(image, Format.VPD)
        got: List[Tuple[Optional[bytes], bytes]] = [(one.key, one.raw) for one in listed]
        assert got == list(model.items())
        value = chance.randbytes(chance.randrange(200))
        key = b"k%d" % chance.randrange(12)
        if key not in model:
            image = boardid.add(image, Field(1, value, key), Format.VPD)
            model[key] = value
        elif chance.random() < 0.5:
            image = boardid.edit(image, list(model).index(key), value, Format.VPD)
            model[key] = value
        else:
            image = boardid.remove(image, list(model).index(key), Format.VPD)
            del model[key]
        assert len(image) == 4096
