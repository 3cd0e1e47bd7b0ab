"""room: machine-room files of form 1, byte for byte as the models make them."""

from __future__ import annotations

import os
from pathlib import Path
from typing import Callable

import pytest

import formats as f
from running import DONE, FAILED, NAMES, REFUSED, SAMPLES, USAGE, Word, format_of, run, sample
from test_changes import runs_are_right

Copy = Callable[[str], Path]
ROOM = SAMPLES / "room.bin"


def rows() -> list[tuple[int, int, bytes]]:
    """The boards of the sample."""
    return [(board.number, board.fmt, board.body) for board in f.room_read(4, sample("room.bin"))]


def change(path: Path, wanted: bytes, command: str, *words: Word) -> None:
    """Runs a room change dry, through standard input, in JSON and in words; all make the same."""
    old = path.read_bytes()
    dry = run("room", command, "-n", "-j", path, *words)
    assert dry.status == DONE, dry
    assert path.read_bytes() == old
    runs_are_right(old, wanted, dry.json["changes"])
    assert "entry" not in dry.json and "board" in dry.json
    through = run("room", command, "-", *words, stdin=old, raw=True)
    assert (through.status, through.out) == (DONE, wanted), through.err
    done = run("room", command, "-j", path, *words)
    assert done.json == dry.json | {"dry_run": False}
    assert path.read_bytes() == wanted
    path.write_bytes(old)
    said = run("room", command, path, *words)
    assert (said.status, path.read_bytes()) == (DONE, wanted)
    assert str(words[0]) in said.text


def refused(path: Path, number: int, command: str, *words: Word) -> None:
    """A room change that is refused: the file stays."""
    old = path.read_bytes()
    result = run("room", command, "-j", path, *words)
    assert result.status == REFUSED, result
    assert result.error["number"] == number, result
    said = run("room", command, path, *words)
    assert said.status == REFUSED
    assert f"refused {number}" in said.said
    assert path.read_bytes() == old


def test_list() -> None:
    boards = f.room_read(4, sample("room.bin"))
    text = run("room", "list", ROOM).text
    for board in boards:
        assert str(board.number) in text
    answer = run("room", "list", "-j", ROOM).json
    assert list(answer) == ["file", "form", "edition", "length", "boards"]
    assert (answer["form"], answer["edition"], answer["length"]) == (1, 4, 8963)
    assert answer["boards"] == [
        {
            "board": board.number,
            "format": f.FORMAT_WORDS[board.fmt],
            "place": board.place,
            "length": len(board.body),
            "entries": len(f.read(board.fmt, 4, board.body).entries),
        }
        for board in boards
    ]
    assert list(answer["boards"][0]) == ["board", "format", "place", "length", "entries"]
    assert run("room", "list", "-j", "-", stdin=sample("room.bin")).json["boards"] == answer["boards"]


def test_list_of_no_boards() -> None:
    assert run("room", "list", "-j", "-", stdin=f.room_write([])).json["boards"] == []
    assert run("room", "list", "-", stdin=f.room_write([])).status == DONE


@pytest.mark.parametrize("edition", [1, 2, 3, 5])
def test_list_of_an_edition(edition: int) -> None:
    result = run("room", "list", "-j", "-e", edition, ROOM)
    try:
        f.room_read(edition, sample("room.bin"))
    except f.Refused as refusal:
        assert result.status == REFUSED
        assert result.error["number"] == refusal.number
        assert result.error["place"] == (None if refusal.number == 1 else refusal.place)
    else:
        assert result.status == DONE


def test_fetch(tmp_path: Path) -> None:
    for number, _, body in rows():
        out = tmp_path / "out"
        assert run("room", "fetch", ROOM, number, out).status == DONE
        assert out.read_bytes() == body
        assert run("room", "fetch", ROOM, hex(number), "-", raw=True).out == body
        assert run("room", "fetch", "-", number, "-", stdin=sample("room.bin"), raw=True).out == body
    answer = run("room", "fetch", "-j", ROOM, "2001", tmp_path / "out").json
    assert answer == {
        "file": str(ROOM),
        "board": 2001,
        "format": "tiny",
        "place": 8377,
        "length": 74,
        "out": str(tmp_path / "out"),
    }
    assert list(answer) == ["file", "board", "format", "place", "length", "out"]
    assert (tmp_path / "out").read_bytes() == sample("tiny.bin")
    assert os.listdir(tmp_path) == ["out"]


def test_fetch_refused(tmp_path: Path) -> None:
    result = run("room", "fetch", "-j", ROOM, "18", tmp_path / "out")
    assert (result.status, result.error["number"]) == (REFUSED, 22)
    assert not os.listdir(tmp_path)
    assert run("room", "fetch", ROOM, "17", tmp_path).status == FAILED
    assert run("room", "fetch", ROOM, "17", tmp_path / "a" / "b").status == FAILED
    for word in ("x", "", "-1", "4294967296", "1.5"):
        assert run("room", "fetch", ROOM, word, tmp_path / "out").status == USAGE, word


@pytest.mark.parametrize("number", [0, 16, 18, 1500, 0xFFFFFFFF])
@pytest.mark.parametrize("name", NAMES)
def test_add(number: int, name: str, copy: Copy) -> None:
    path = copy("room.bin")
    wanted = f.room_write(rows() + [(number, format_of(name), sample(name))])
    if name == "tiny.bin":
        change(path, wanted, "add", number, SAMPLES / name)
    else:
        assert run("room", "add", path, number, SAMPLES / name).status == DONE
        assert path.read_bytes() == wanted


@pytest.mark.parametrize("order", [[0, 1, 2, 3, 4], [4, 3, 2, 1, 0], [2, 0, 4, 1, 3]])
def test_made_from_nothing(order: list[int], tmp_path: Path) -> None:
    path, body = tmp_path / "room", tmp_path / "body"
    for k in order:
        body.write_bytes(rows()[k][2])
        assert run("room", "add", path, rows()[k][0], body).status == DONE
    assert path.read_bytes() == sample("room.bin")
    assert sorted(os.listdir(tmp_path)) == ["body", "room"]


def test_made_dry(tmp_path: Path) -> None:
    result = run("room", "add", "-n", "-j", tmp_path / "room", "1", SAMPLES / "sku.vpd")
    assert result.status == DONE
    assert not os.listdir(tmp_path)
    wanted = f.room_write([(1, f.VPD, sample("sku.vpd"))])
    assert "".join(run_["new"] for run_ in result.json["changes"]) == wanted.hex()


@pytest.mark.parametrize("number", [17, 1001, 1002, 2001, 0xF0000001])
def test_remove(number: int, copy: Copy) -> None:
    wanted = f.room_write([row for row in rows() if row[0] != number])
    change(copy("room.bin"), wanted, "remove", number)


@pytest.mark.parametrize("number", [17, 1001, 1002, 2001, 0xF0000001])
@pytest.mark.parametrize("name", ["tiny.bin", "amplifier.bin"])
def test_replace(number: int, name: str, copy: Copy) -> None:
    wanted = f.room_write([row for row in rows() if row[0] != number] + [(number, format_of(name), sample(name))])
    path = copy("room.bin")
    if wanted == sample("room.bin"):
        assert str(number) in run("room", "replace", path, number, SAMPLES / name).text
        assert path.read_bytes() == wanted
    else:
        change(path, wanted, "replace", number, SAMPLES / name)


def test_in_place_keeps_the_length(copy: Copy, tmp_path: Path) -> None:
    path, body = copy("room.bin"), tmp_path / "body"
    inode = path.stat().st_ino
    data = f.edit(f.TINY, 4, sample("tiny.bin"), 1, b"\x0f")
    body.write_bytes(data)
    assert run("room", "replace", "-i", path, "2001", body).status == DONE
    wanted = f.room_write([row if row[0] != 2001 else (2001, f.TINY, data) for row in rows()])
    assert (path.read_bytes(), path.stat().st_ino) == (wanted, inode)
    old = path.read_bytes()
    for words in (["remove", "17"], ["add", "18", str(body)], ["replace", "17", str(body)]):
        result = run("room", words[0], "-i", path, *words[1:])
        assert result.status in (USAGE, FAILED, REFUSED), words
        assert path.read_bytes() == old


def test_refusals(copy: Copy, tmp_path: Path) -> None:
    path = copy("room.bin")
    refused(path, 22, "remove", "18")
    refused(path, 22, "replace", "18", SAMPLES / "sku.vpd")
    refused(path, 23, "add", "17", SAMPLES / "sku.vpd")
    body = tmp_path / "body"
    body.write_bytes(sample("onie.bin")[:-400] + b"\xff")
    refused(path, 5, "add", "18", body)
    refused(path, 3, "add", "-f", "fboss", "18", SAMPLES / "sku.vpd")
    big = tmp_path / "big"
    big.write_bytes(sample("fboss.bin") + b"\xff" * (60000 - 8192))
    refused(path, 12, "add", "18", big)


def test_body_without_a_format(copy: Copy, tmp_path: Path) -> None:
    path, body = copy("room.bin"), tmp_path / "body"
    for data, status in ((b"hello", REFUSED), (b"\xff" * 20, 4), (b"", FAILED)):
        body.write_bytes(data)
        assert run("room", "add", path, "18", body).status == status
        assert path.read_bytes() == sample("room.bin")
    assert run("room", "add", path, "18", tmp_path / "none").status == FAILED
    assert run("room", "add", path, "18", tmp_path).status == FAILED
    body.write_bytes(b"\xff" * 20)
    assert run("room", "add", "-f", "vpd", path, "18", body).status == DONE
    assert path.read_bytes() == f.room_write(rows() + [(18, f.VPD, b"\xff" * 20)])


@pytest.mark.parametrize("place, byte", [(0, 0x53), (1, 0), (2, 2), (3, 1), (5, 6), (6, 1), (7, 1), (16, 0xFF), (13, 1), (15, 8)])
def test_wrong_heads_and_contents(place: int, byte: int, tmp_path: Path) -> None:
    data = bytearray(sample("room.bin"))
    data[place] = byte
    path = tmp_path / "room"
    path.write_bytes(data)
    with pytest.raises(f.Refused) as refusal:
        f.room_read(4, bytes(data))
    assert refusal.value.number == 21
    result = run("room", "list", "-j", path)
    assert (result.status, result.error["number"]) == (REFUSED, 21), result
    assert "refused 21" in run("room", "list", path).said
    refused(path, 21, "remove", "17")
    refused(path, 21, "add", "18", SAMPLES / "sku.vpd")


def test_a_broken_body(tmp_path: Path) -> None:
    data = bytearray(sample("room.bin"))
    data[8377 + 10] ^= 1
    path = tmp_path / "room"
    path.write_bytes(data)
    result = run("room", "list", "-j", path)
    assert (result.status, result.error["number"], result.error["place"]) == (REFUSED, 10, 8377 + 73)
    refused(path, 10, "remove", "17")
    assert "2001" in run("room", "list", path).said


def test_a_room_file_is_no_image_and_an_image_is_no_room_file() -> None:
    assert "boardid room list" in run("list", ROOM).said
    for name in NAMES:
        result = run("room", "list", "-j", SAMPLES / name)
        assert (result.status, result.error["number"]) == (REFUSED, 21)


def test_numbers_in_hexadecimal(copy: Copy) -> None:
    path = copy("room.bin")
    assert run("room", "remove", path, "0xF0000001").status == DONE
    assert path.read_bytes() == f.room_write(rows()[:4])
