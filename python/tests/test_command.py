"""The JSON and the table of `python3 -m boardid` against those of the command, where it is built."""

from __future__ import annotations

import json
import random
import subprocess
import zlib
from pathlib import Path
from typing import Any, Callable, Optional, Tuple, Union

import pytest
from conftest import ROOT, command, sample
from test_main import run

import boardid
from boardid import Field, Format, Image

COMMAND = command()

pytestmark = pytest.mark.skipif(COMMAND is None, reason="target/c/boardid is not built, and $BOARDID not set")


def both(*words: str, given: bytes = b"") -> Tuple[int, Any, int, Any]:
    """Status and JSON of the command, and of the module. What is no list is left to the status."""
    theirs = subprocess.run(
        [str(COMMAND), "list", "--json", *words], input=given, capture_output=True, check=False
    )
    mine = run("--json", *words, given=given)
    return (
        theirs.returncode,
        json.loads(theirs.stdout) if theirs.stdout else None,
        mine.returncode,
        json.loads(mine.stdout) if mine.stdout else None,
    )


def same(*words: str, given: bytes = b"") -> int:
    """Sees that both say the same: the list, or the status, number and place of what is wrong."""
    status, theirs, my_status, mine = both(*words, given=given)
    assert my_status == status
    if status == 0:
        assert mine == theirs
        assert list(mine) == list(theirs)
        for my_entry, entry in zip(mine["entries"], theirs["entries"]):
            assert list(my_entry) == list(entry)
    elif status != 2:
        assert mine["file"] == theirs["file"]
        assert list(mine["error"]) == list(theirs["error"])
        # Of a wrong header the command says which byte it is; the library's place is 0.
        header = mine["error"]["number"] in (3, 4)
        for key in ("status", "number") if header else ("status", "number", "place", "entry", "name"):
            assert mine["error"][key] == theirs["error"][key], (key, mine, theirs)
    return status


@pytest.mark.parametrize("edition", ["1", "2", "3", "4", "5"])
def test_every_sample(image_name: str, edition: str) -> None:
    path = str(ROOT / "samples" / image_name)
    status = same("--edition", edition, path)
    onie = image_name in ("onie.bin", "amplifier.bin")
    assert status == (1 if edition == "5" or (onie and edition in "12") else 0)


@pytest.mark.parametrize("edition", ["1", "2", "3", "4"])
def test_every_table(image_name: str, edition: str) -> None:
    words = ("--edition", edition, str(ROOT / "samples" / image_name))
    theirs = subprocess.run([str(COMMAND), "list", *words], capture_output=True, check=False)
    assert run(*words).stdout == theirs.stdout


def test_options(tmp_path: Path) -> None:
    path = tmp_path / "file"
    path.write_bytes(b"junk!" + sample("onie.bin") + b"\0" * 100)
    assert same("-o", "5", str(path)) == 0
    assert same("-o", "0x5", "-l", "512", str(path)) == 0
    assert same("-o", "5", "-l", "100", str(path)) == 1
    assert same("-o", "5", "-f", "onie", "-e", "3", str(path)) == 0
    assert same("-o", "5", "-f", "tiny", str(path)) == 1
    assert same(str(path)) == 1
    assert same("-o", "1000", str(path)) == 3
    assert same("-l", "1000", str(path)) == 3
    assert same("-o", "517", str(path)) == 4
    assert same(str(tmp_path)) == 3
    assert same(str(tmp_path / "none")) == 3
    assert same("-f", "eeprom", str(path)) == 2
    assert same("-e", "4294967296", str(path)) == 2


def test_odd_images() -> None:
    odd = [
        b"",
        b"\0",
        b"\xff" * 16,
        b"RM\1\0\0\0\0\0",
        boardid.write([], Format.ONIE),
        boardid.write([], Format.TINY),
        boardid.write([Field(1, b"", b"empty"), Field(1, b"\x7f", b"del"), Field(0xFE, b"1234")], 2),
        boardid.write([Field(1, b'quo"te \\', b"k" * 100), Field(1, bytes(60), b"b")], 2),
        boardid.write([Field(0x10, b"\7"), Field(0x11, b"\xf9"), Field(1, b'a"\xdc\xc1rest')], 3),
        boardid.write([Field(0x10, b"\0"), Field(0x61, b"\1\0\x80\0\0\0"), Field(1, b"\x1b\xb1A\xc1")], 3),
        boardid.write([Field(0x11, b"\0"), Field(1, b"")], 3),
        boardid.write([Field(0x23, b"x" * 255), Field(0xFD, bytes(255)), Field(0xFD, bytes(4))], 4),
        b"\1" * 70000,
    ]
    for data in odd:
        same("-", given=data)
    assert same("-f", "vpd", "-", given=b"\xff" * 16) == 0
    assert same("-f", "onie", "-", given=b"\xff" * 16) == 4
    assert same("-f", "onie", "-e", "9", "-", given=b"\xff" * 16) == 1


def test_damaged_samples() -> None:
    chance = random.Random(5)
    refused = 0
    for name in ("fboss.bin", "names.vpd", "tiny.bin", "onie.bin"):
        whole = sample(name)
        length = boardid.Image(whole).length
        for _ in range(100):
            data = bytearray(whole)
            data[chance.randrange(length)] = chance.randrange(256)
            if name == "onie.bin":  # with the right check, so that the entries' own rules are seen
                data[length - 4 : length] = zlib.crc32(data[: length - 4]).to_bytes(4, "big")
            refused += same("-", given=bytes(data)) != 0
        refused += same("-", given=whole[: chance.randrange(1, length)]) != 0
    assert refused > 20


def test_a_loud_file_name(tmp_path: Path) -> None:
    path = tmp_path / "\x1b[31m\udcff\u00e9\\"
    path.write_bytes(sample("sku.vpd"))
    assert same(str(path)) == 0


def changed(tmp_path: Path, data: bytes, *words: str) -> Union[bytes, int, None]:
    """The bytes that a change by the command makes, or the number that it is refused with."""
    path = tmp_path / "changed"
    path.write_bytes(data)
    line = [str(COMMAND), words[0], "--json", str(path), *words[1:]]
    ended = subprocess.run(line, capture_output=True, check=False)
    if ended.returncode == 0:
        return path.read_bytes()
    assert ended.returncode == 1 and path.read_bytes() == data, ended.stderr
    number: Optional[int] = json.loads(ended.stdout)["error"]["number"]
    return number


def mine(change: Callable[[], Image]) -> Union[bytes, int, None]:
    """The bytes that a change by the module makes, or the number that it is refused with."""
    try:
        return change().data
    except boardid.Refused as refused:
        return refused.number
    except boardid.Error:
        return None


@pytest.mark.parametrize(
    "name, entry, typed, value",
    [
        ("fboss.bin", "serial", "SN-8", "SN-8"),
        ("fboss.bin", "state", "200", 200),
        ("fboss.bin", "state", "256", 256),
        ("fboss.bin", "date", "2024-02-29", "2024-02-29"),
        ("fboss.bin", "date", "20240229", "20240229"),
        ("fboss.bin", "date", "2023-02-29", "2023-02-29"),
        ("fboss.bin", "bmc-mac", "02-1a-2b-3c-4d-5e/7", "02-1a-2b-3c-4d-5e/7"),
        ("fboss.bin", "assembly-part", "SHORT", "SHORT"),
        ("fboss.bin", "Product Name", "", ""),
        ("onie.bin", "date", "2023-12-31T23:59:58", "2023-12-31T23:59:58"),
        ("onie.bin", "date", "2023-12-31 23:59:58", "2023-12-31 23:59:58"),
        ("onie.bin", "date", "12/31/2023 23:59:60", "12/31/2023 23:59:60"),
        ("onie.bin", "macs", "0x102", 258),
        ("onie.bin", "macs", "65536", 65536),
        ("onie.bin", "mac", "020000000001", "020000000001"),
        ("onie.bin", "country", "cz", "cz"),
        ("onie.bin", "0x26", "x", b"x"),
        ("board.vpd", "UUID", "text", "text"),
        ("board.vpd", "3G_IMEI", "x" * 100, "x" * 100),
        ("tiny.bin", "serial", "RACK-17", "RACK-17"),
        ("tiny.bin", "serial", "NEW", "NEW"),
        ("tiny.bin", "serial", "", ""),
        ("tiny.bin", "tests", "assembly,system,0x40", "assembly,system,0x40"),
        ("tiny.bin", "tests", "none", "none"),
        ("tiny.bin", "tests", "9", 9),
        ("tiny.bin", "mac", "02:00:00:00:00:01", "02:00:00:00:00:01"),
        ("tiny.bin", "identity", "revision=0B.07 part=SYS-88", {"revision": "0B.07", "part": "SYS-88"}),
        ("tiny.bin", "identity-batch", "batch=1234 free=2020", {"batch": 1234, "free": "2020"}),
        ("tiny.bin", "identity-batch", "batch=9999 serial=LONGER", {"batch": 9999, "serial": "LONGER"}),
        ("tiny.bin", "system-identity", "serial=X part=Y", {"serial": "X", "part": "Y"}),
    ],
)
@pytest.mark.parametrize("spare", [0, 64])
def test_a_new_value(tmp_path: Path, name: str, entry: str, typed: str, value: object, spare: int) -> None:
    data = sample(name) + b"\xff" * spare
    theirs = changed(tmp_path, data, "set", entry, typed)
    assert mine(lambda: Image(data).with_value(entry, value)) == theirs


@pytest.mark.parametrize(
    "name, entry, typed, value",
    [
        ("fboss.bin", "cpu-mac", "021a2b3c4d5e/16", "021a2b3c4d5e/16"),
        ("fboss.bin", "date", "2024-02-29", "2024-02-29"),
        ("onie.bin", "serial", "SN-8", "SN-8"),
        ("onie.bin", "macs", "7", 7),
        ("onie.bin", "date", "2023-12-31T23:59:58", "2023-12-31T23:59:58"),
        ("board.vpd", "UUID", "text", "text"),
        ("tiny.bin", "serial", "NEW", "NEW"),
        ("tiny.bin", "tests", "burn-in", "burn-in"),
        ("tiny.bin", "identity", "serial=A part=B revision=01.02", {"serial": "A", "part": "B", "revision": "01.02"}),
        ("fboss.bin", "serial", "SN-8", "SN-8"),
    ],
)
def test_removed_and_added(tmp_path: Path, name: str, entry: str, typed: str, value: object) -> None:
    data = sample(name) + b"\xff" * 16
    theirs = changed(tmp_path, data, "remove", entry)
    assert mine(lambda: Image(data).without(entry)) == theirs
    rest = theirs if isinstance(theirs, bytes) else data
    added = changed(tmp_path, rest, "add", entry, typed)
    assert mine(lambda: Image(rest).with_field(entry, value)) == added
    assert isinstance(added, bytes) == isinstance(theirs, bytes)


def test_a_string_that_only_one_entry_counts(tmp_path: Path) -> None:
    fields = [Field(0x10, b"\0"), Field(0x61, b"\1\2\0\0\0\0"), Field(1, b"A\xc1B\xc2C\xc3rest")]
    data = boardid.write(fields, Format.TINY, room=80)
    for entry, typed, value in (
        ("serial", "LONGER", "LONGER"),
        ("serial", "BB", "BB"),
        ("identity", "serial=X part=X", {"serial": "X", "part": "X"}),
        ("identity", "part=AA", {"part": "AA"}),
    ):
        assert mine(lambda: Image(data).with_value(entry, value)) == changed(tmp_path, data, "set", entry, typed)


@pytest.mark.parametrize("edition", [1, 2, 3, 4])
def test_names(edition: int) -> None:
    line = [str(COMMAND), "names", "--json", "-e", str(edition)]
    made = json.loads(subprocess.run(line, capture_output=True, check=True).stdout)
    theirs = [(one["format"], one["code"], one["kind"], one["short"], one["since"]) for one in made["names"]]
    assert sorted(theirs) == [
        (kind.format.word, kind.code, kind.number, list(kind.short), kind.since)
        for kind in sorted(boardid.kinds(edition=edition), key=lambda kind: (kind.format.word, kind.code))
    ]
    for one in made["names"]:
        if one["kind"] != 0x201:
            assert one["name"] == boardid.kind_name(one["kind"])


def test_vendor(tmp_path: Path) -> None:
    for name in ("amplifier.bin", "onie.bin"):
        line = [str(COMMAND), "vendor", "--json", str(ROOT / "samples" / name)]
        theirs = json.loads(subprocess.run(line, capture_output=True, check=True).stdout)["vendor"]
        vendor = boardid.vendor_read(sample(name))
        assert theirs["offsets"] == vendor.by_name and list(theirs["offsets"]) == list(boardid.OFFSETS)
        assert theirs["serial_bytes"] == vendor.serial.hex()
        assert theirs["payload_length"] == len(vendor.payload)
    bare = Image(sample("onie.bin")).without("extension").data
    pieces = boardid.vendor_write(b"SERIAL", [0] * 8, [4, 3, 0, 15])
    cut = Image.new([Field(0xFD, piece) for piece in pieces], Format.ONIE, room=500).data
    for data in (sample("amplifier.bin"), sample("onie.bin"), bare, cut, sample("tiny.bin")):
        for serial, west in ((None, 24), ("NEW", None), ("DQ000MPX", -128), ("x" * 200, 127), ("x" * 256, 0)):
            words = [f"serial={serial}"] if serial is not None else []
            words += [f"c-band-west-in={west / 10}"] if west is not None else []
            offsets = {"c-band-west-in": west} if west is not None else {}
            text = serial.encode() if serial is not None else None
            theirs = changed(tmp_path, data, "vendor", *words)
            assert mine(lambda: Image(data).with_vendor(text, offsets)) == theirs, words


def test_rooms(tmp_path: Path) -> None:
    file = sample("room.bin")
    line = [str(COMMAND), "room", "list", "--json", str(ROOT / "samples" / "room.bin")]
    boards = json.loads(subprocess.run(line, capture_output=True, check=True).stdout)["boards"]
    assert [(one["board"], one["format"], one["place"], one["length"], one["entries"]) for one in boards] == [
        (row.board, Format(row.format).word, row.place, row.length, boardid.check(body, row.format))
        for row in boardid.room_rows(file)
        for body in [boardid.room_fetch(file, row.board)]
    ]
    path, body = tmp_path / "room", tmp_path / "body"
    body.write_bytes(sample("tiny.bin"))
    path.write_bytes(file)
    for what, board, made in (
        ("add", "5", boardid.room_add(file, 5, body.read_bytes())),
        ("replace", "17", boardid.room_replace(file, 17, body.read_bytes())),
        ("remove", "1001", boardid.room_remove(file, 1001)),
    ):
        extra = [] if what == "remove" else [str(body)]
        path.write_bytes(file)
        line = [str(COMMAND), "room", what, str(path), board, *extra]
        subprocess.run(line, check=True, capture_output=True)
        assert path.read_bytes() == made
    path.unlink()
    line = [str(COMMAND), "room", "add", str(path), "7", str(body)]
    subprocess.run(line, check=True, capture_output=True)
    assert path.read_bytes() == boardid.room_add(boardid.room_empty(), 7, body.read_bytes())


def test_write_takes_what_the_module_gives(image_name: str, tmp_path: Path) -> None:
    """An image goes from to_json through the command's write, where every entry can be written."""
    image = Image(sample(image_name))
    path = tmp_path / "made"
    line = [str(COMMAND), "write", "--size", str(image.room), str(path)]
    ended = subprocess.run(line, input=image.to_json().encode(), capture_output=True, check=False)
    fields = [one.field for one in image]
    try:
        wanted = boardid.write(fields, image.format, room=image.room)
    except boardid.Refused:
        assert ended.returncode == 1 and not path.exists()
        return
    assert ended.returncode == 0 and path.read_bytes() == wanted
