"""Files that are none, cut or damaged images, and random bytes: an answer to all, and no raw byte."""

from __future__ import annotations

import os
import random
import shutil
from pathlib import Path

import pytest

import formats as f
import shown
from running import BLANK, DONE, FAILED, NAMES, OTHER, REFUSED, SAMPLES, Word, format_of, open_to_all, run, sample

READS: list[tuple[str, ...]] = [
    ("list", "FILE"),
    ("list", "--names", "FILE"),
    ("get", "FILE", "#0"),
    ("check", "FILE"),
    ("strings", "FILE"),
    ("vendor", "FILE"),
    ("room", "list", "FILE"),
]
CHANGES: list[tuple[str, ...]] = [
    ("set", "FILE", "#0", "X"),
    ("add", "FILE", "serial", "X"),
    ("remove", "FILE", "#0"),
    ("vendor", "FILE", "serial=X"),
    ("room", "remove", "FILE", "17"),
]
BOTH: list[list[str]] = [[], ["-j"]]


def line(words: tuple[str, ...], path: Word) -> list[Word]:
    """A command line with the file in its place."""
    return [path if word == "FILE" else word for word in words]


@pytest.mark.parametrize("words", READS + CHANGES, ids=lambda w: " ".join(w))
class TestNoFile:
    """What is no file with bytes is status 3, and stays as it was."""

    def test_missing(self, words: tuple[str, ...], tmp_path: Path) -> None:
        path = tmp_path / "none"
        result = run(*line(words, path))
        assert result.status == FAILED
        assert str(path) in result.said
        assert not os.listdir(tmp_path)
        assert run(*line(words, path), "--json").error["number"] is None

    def test_empty(self, words: tuple[str, ...], tmp_path: Path) -> None:
        path = tmp_path / "empty"
        path.write_bytes(b"")
        result = run(*line(words, path))
        assert result.status == FAILED
        assert "empty" in result.said
        assert path.read_bytes() == b""
        assert os.listdir(tmp_path) == ["empty"]

    def test_folder(self, words: tuple[str, ...], tmp_path: Path) -> None:
        result = run(*line(words, tmp_path))
        assert result.status == FAILED
        assert str(tmp_path) in result.said
        assert not os.listdir(tmp_path)

    def test_through_a_file(self, words: tuple[str, ...], tmp_path: Path) -> None:
        (tmp_path / "file").write_bytes(b"x")
        assert run(*line(words, tmp_path / "file" / "more")).status == FAILED

    def test_unreadable(self, words: tuple[str, ...], tmp_path: Path) -> None:
        if os.getuid() != 0 or shutil.which("setpriv") is None:
            pytest.skip("another user takes root and setpriv")
        path = tmp_path / "closed"
        path.write_bytes(sample("onie.bin"))
        path.chmod(0)
        open_to_all(tmp_path)
        result = run(*line(words, path), prefix=OTHER)
        assert result.status == FAILED
        assert path.read_bytes() == sample("onie.bin")


@pytest.mark.parametrize("byte", [0xFF, 0x00])
@pytest.mark.parametrize("size", [1, 2, 256, 8192, 65536, 65537])
@pytest.mark.parametrize("words", READS[:6], ids=lambda w: " ".join(w))
def test_blank(words: tuple[str, ...], size: int, byte: int, tmp_path: Path) -> None:
    path = tmp_path / "blank"
    path.write_bytes(bytes([byte]) * size)
    result = run(*line(words, path))
    assert result.status == BLANK
    count = "byte" if size == 1 else "bytes"
    assert "blank" in result.said and f"{byte:02X}h" in result.said and count in result.said
    answer = run(*line(words, path), "-j").error
    assert (answer["status"], answer["number"]) == (BLANK, None)


def test_blank_said_as_the_specification_says() -> None:
    said = run("list", "-", stdin=b"\xff" * 256).said
    assert "the chip is blank: all 256 bytes are FFh" in said
    assert "boardid write" in said


@pytest.mark.parametrize("byte", [0xFF, 0x00])
def test_blank_with_a_format(byte: int) -> None:
    data = bytes([byte]) * 64
    for fmt in ("fboss", "tiny", "onie"):
        assert run("list", "-f", fmt, "-", stdin=data).status == BLANK
    result = run("list", "-j", "-f", "vpd", "-", stdin=data)
    assert result.status == DONE
    assert result.json["entries"] == []


def test_blank_room_in_a_file() -> None:
    data = sample("onie.bin") + b"\xff" * 64
    assert run("list", "-o", "512", "-", stdin=data).status == BLANK
    assert run("list", "-o", "202", "-l", "310", "-", stdin=data).status == BLANK


@pytest.mark.parametrize("words", READS + CHANGES, ids=lambda w: " ".join(w))
def test_a_megabyte(words: tuple[str, ...], tmp_path: Path) -> None:
    path = tmp_path / "large"
    data = sample("onie.bin") + b"\xff" * (1024 * 1024)
    path.write_bytes(data)
    result = run(*line(words, path), "--json")
    assert result.status == REFUSED
    assert result.error["number"] == 2
    assert path.read_bytes() == data
    if words[0] != "room":
        assert "--length 65536" in (result.error["hint"] or "") + result.said
        assert run(*line(words, path), "-l", "65536", "--json").status in (DONE, REFUSED)


def test_first_65536_bytes_of_a_megabyte() -> None:
    data = sample("fboss.bin") + b"\xff" * (1024 * 1024)
    answer = run("check", "-j", "-l", "65536", "-", stdin=data).json
    assert (answer["entries"], answer["room"]) == (20, 65536)
    assert run("check", "-l", "65537", "-", stdin=data).status == REFUSED


@pytest.mark.parametrize("length", [16 * 1024 * 1024, 16 * 1024 * 1024 + 1, 20 * 1024 * 1024])
def test_sixteen_mebibytes(length: int, tmp_path: Path) -> None:
    path = tmp_path / "huge"
    with path.open("wb") as file:
        file.write(sample("sku.vpd"))
        file.truncate(length)
    assert run("get", "-l", "9", path, "SKU").text == "A7\n"
    result = run("set", "-l", "9", path, "SKU", "B7")
    assert result.status == (DONE if length <= 16 * 1024 * 1024 else FAILED)
    assert path.stat().st_size == length
    if result.status == FAILED:
        assert "too long" in result.said
        with path.open("rb") as file:
            assert file.read(9) == sample("sku.vpd")


def test_past_sixteen_mebibytes(tmp_path: Path) -> None:
    path = tmp_path / "huge"
    most = 16 * 1024 * 1024
    with path.open("wb") as file:
        file.truncate(most + 100)
        file.seek(most - 9)
        file.write(sample("sku.vpd"))
    assert run("get", "-o", most - 9, "-l", 9, path, "SKU").text == "A7\n"
    for words in (["-o", most - 9], ["-o", most - 9, "-l", 10], ["-o", most + 1], ["-o", most - 65536]):
        result = run("check", *words, path)
        assert result.status == FAILED and "first 16777216 bytes" in result.said, result
    assert run("check", "-j", "-o", most - 65537, "-f", "vpd", path).error["number"] == 2


def refusal(data: bytes, edition: int = 4) -> tuple[int, int, int]:
    """Status, number and place that a room of bytes should get from check; 0 0 0 where accepted."""
    if not data:
        return FAILED, 0, 0
    if f.blank(data):
        return BLANK, 0, 0
    fmt = f.detect(edition, data)
    try:
        f.read(f.VPD if fmt is None else fmt, edition, data)
    except f.Refused as refused:
        return REFUSED, refused.number, refused.place
    return DONE, 0, 0


def compare(data: bytes, edition: int = 4) -> None:
    """check of these bytes is what the model says."""
    result = run("check", "-j", "-e", edition, "-", stdin=data)
    status, number, place = refusal(data, edition)
    assert result.status == status, data.hex()
    if status == REFUSED:
        assert result.error["number"] == number, data.hex()
        assert result.error["place"] == (None if number in (1, 2, 16) else place), data.hex()


def every_read(data: bytes) -> None:
    """Every read of these bytes ends, with a status and nothing raw; run sees to that."""
    for words in READS:
        run(*line(words, "-"), stdin=data)
        run(*line(words, "-"), "-j", stdin=data)


@pytest.mark.parametrize("name", NAMES + ["room.bin"])
def test_cut(name: str) -> None:
    data = sample(name)
    whole = f.room_rows(data)[-1].place if name == "room.bin" else f.read(format_of(name), 4, data).length
    for length in list(range(0, whole + 3, max(1, whole // 20))) + [whole - 1, whole, whole + 1]:
        compare(data[:length])
    for length in range(0, whole + 3, max(1, whole // 4)):
        every_read(data[:length])


@pytest.mark.long
@pytest.mark.parametrize("name", NAMES)
def test_cut_at_every_length(name: str) -> None:
    data = sample(name)
    last = f.read(format_of(name), 4, data).length + 8
    for length in range(min(last, len(data)) + 1):
        compare(data[:length])
        every_read(data[:length])
    for length in range(last, len(data), 37):
        compare(data[:length])


@pytest.mark.long
def test_room_file_cut_at_every_length() -> None:
    data = sample("room.bin")
    for length in range(1, len(data)):
        result = run("room", "list", "-j", "-", stdin=data[:length])
        assert (result.status, result.error["number"]) == (REFUSED, 21), length
        if length % 100 == 0:
            compare(data[:length])
            every_read(data[:length])


@pytest.mark.long
def test_room_file_damaged() -> None:
    data = sample("room.bin")
    numbers = random.Random("room")
    places = list(range(120)) + numbers.sample(range(120, len(data)), 600)
    for place in places:
        now = data[:place] + bytes([data[place] ^ 1 << numbers.randrange(8)]) + data[place + 1 :]
        result = run("room", "list", "-j", "-", stdin=now)
        try:
            boards = f.room_read(4, now)
        except f.Refused as refused:
            assert (result.status, result.error["number"]) == (REFUSED, refused.number), place
            if refused.number in (5, 6, 7, 8, 9, 10):
                assert result.error["place"] == refused.place, place
        else:
            assert [row["board"] for row in result.json["boards"]] == [board.number for board in boards]


def damaged(name: str, at: int, byte: int) -> bytes:
    """A sample with another byte at a place."""
    data = bytearray(sample(name))
    data[at] = byte
    return bytes(data)


@pytest.mark.parametrize("name", NAMES)
def test_damage(name: str) -> None:
    length = f.read(format_of(name), 4, sample(name)).length
    numbers = random.Random(name)
    for at in range(0, length, max(1, length // 12)):
        compare(damaged(name, at, numbers.randrange(256)), numbers.choice([3, 4]))
    every_read(damaged(name, length // 2, 0x1B))


@pytest.mark.long
@pytest.mark.parametrize("name", NAMES)
def test_damage_of_every_byte(name: str) -> None:
    length = f.read(format_of(name), 4, sample(name)).length
    for at in range(length):
        old = sample(name)[at]
        for byte in {0x00, 0x01, 0x1B, 0x7F, 0xFE, 0xFF, old ^ 0x01, old ^ 0x80} - {old}:
            compare(damaged(name, at, byte))
        data = damaged(name, at, old ^ 0x80)
        for words in READS:
            run(*line(words, "-"), "-j", stdin=data)


def rough(numbers: random.Random) -> bytes:
    """Random bytes that begin like one of the formats, or like none."""
    start = numbers.choice([b"", b"TlvInfo\0\x01", b"\xfb\xfb\x05\xff", b"V\x02", b"\x01\x03", b"RM\x01\0", b"\xfe"])
    size = numbers.choice([1, 5, 40, 200, 300])
    palette = numbers.choice([bytes(range(256)), b"\x00\x01\x02\x03\x80\xfe\xff\x1b\n"])
    return start + bytes(numbers.choice(palette) for _ in range(size))


def hostile(numbers: random.Random) -> bytes:
    """An accepted image with hostile bytes in keys and values, where a format lets them in."""
    def raw(low: int = 0, high: int = 30) -> bytes:
        return bytes(numbers.choice(b"\x1b[]\n\r\t\0\x07\x7f\x80\x9b\xff\\\"%A{") for _ in range(numbers.randrange(low, high)))

    kind = numbers.randrange(4)
    if kind == 0:
        keys = {raw(1): raw() for _ in range(numbers.randrange(1, 6))}
        frames = [f.frame(f.VPD, f.Field(1, value, key)) for key, value in keys.items()]
        return f.ended(f.VPD, frames + [f.frame(f.VPD, f.Field(0xFE, raw(4, 5), raw()))], 600)
    if kind == 1:
        frames = [f.frame(f.TINY, f.Field(0x10, bytes([numbers.randrange(3)])))]
        frames.append(f.frame(f.TINY, f.Field(0x61, bytes([0, 1, 128, 9]) + raw(2, 3))))
        frames.append(f.frame(f.TINY, f.Field(0x23, raw(2, 3))))
        return f.ended(f.TINY, frames + [f.frame(f.TINY, f.Field(0x01, raw()))], 100)
    if kind == 2:
        fields = [f.Field(0xFD, raw(4)), f.Field(0x21, b"a\\b\"c%s%n"), f.Field(0x77, raw())]
        fields.append(f.Field(0xFD, f.PREFIX + f.vendor_payload(raw(), [-128, 127, 0, 1, 2, 3, 4, 5])))
        return f.ended(f.ONIE, [f.frame(f.ONIE, field) for field in fields], 400)
    image = f.read(f.FBOSS, 4, sample("fboss.bin"))
    return f.ended(f.FBOSS, image.frames + [f.frame(f.FBOSS, f.Field(99, raw()))], 400)


def random_images(seed: str, tries: int) -> None:
    """Random and hostile images, each read by every command."""
    numbers = random.Random(seed)
    for _ in range(tries):
        data = rough(numbers)
        compare(data, numbers.randrange(1, 5))
        every_read(data)
        data = hostile(numbers)
        assert refusal(data)[0] == DONE
        compare(data)
        every_read(data)


def test_random() -> None:
    random_images("quick", 12)


@pytest.mark.long
def test_random_long() -> None:
    random_images("long", 400)


def test_hostile_entries_are_shown_escaped() -> None:
    numbers = random.Random("escaped")
    for _ in range(25):
        data = hostile(numbers)
        fmt = f.detect(4, data)
        assert fmt is not None
        image = f.read(fmt, 4, data)
        table = run("list", "-", stdin=data).text
        answer = run("list", "-j", "-", stdin=data).json["entries"]
        for entry, said in zip(image.entries, answer):
            assert said["bytes"] == entry.value.hex()
            assert said == shown.entry_json(image, entry)
            if fmt == f.VPD:
                assert shown.escaped(entry.key) in table


HOSTILE_NAMES = [b"\x1bc.bin", b"a\nb", b"\xff\xfe", b"a\\b", b"\x9b31m", b'"q"', b"%s%n", b"-x", b"caf\xc3\xa9", b"\x7f"]


@pytest.mark.parametrize("name", HOSTILE_NAMES, ids=[name.hex() for name in HOSTILE_NAMES])
def test_hostile_file_names(name: bytes, tmp_path: Path) -> None:
    folder = os.fsencode(tmp_path)
    path = folder + b"/" + name
    with open(path, "wb") as file:
        file.write(sample("onie.bin"))
    for words in READS + CHANGES:
        for more in BOTH:
            run(*line(words, path), *more)
    answer = run("check", "-j", path).json
    assert shown.escaped(name) in answer["file"] or name.decode("utf-8", "replace") in answer["file"]
    with open(path, "wb") as file:
        file.write(sample("onie.bin")[:100])
    said = run("check", path).said
    assert shown.escaped(name) in said or (shown.printable(name) and name.decode() in said)
    run("check", path + b"/x")
    run("write", path, path)
    run("write", "-j", path, path)
    run("room", "fetch", path, "1", path)


@pytest.mark.parametrize("name", HOSTILE_NAMES, ids=[name.hex() for name in HOSTILE_NAMES])
def test_hostile_words(name: bytes) -> None:
    path = SAMPLES / "onie.bin"
    for more in BOTH:
        run("get", *more, "--", path, name)
        run("set", "-n", *more, "--", path, "serial", name)
        run("set", "-n", *more, "--", path, name, "X")
        run("add", "-n", *more, "--", path, name, name)
        run("vendor", "-n", *more, "--", path, name)
        run("vendor", "-n", *more, "--", path, b"serial=" + name)
        run("vendor", "-n", *more, "--", path, name + b"=1")
        run("add", "-n", *more, "--", SAMPLES / "board.vpd", name, name)
        run("set", "-n", *more, "--", SAMPLES / "tiny.bin", "serial", name)
        run("room", "add", "-n", *more, "--", SAMPLES / "room.bin", name, name)
    run(name)
    run("list", b"--" + name)
    run("list", b"-" + name)
    run("list", "-f", name, path)
    run("help", name)
    run("room", name, path)


def test_write_of_hostile_json() -> None:
    for text in [b"\x1b", b'{"\x1b": 1}', b"[\xff]", b'"\\u001b[2J"', b'[{"name": "\\u001bc", "value": "x"}]', b'{"format": "\\u001b"}', b'[{"code": 33, "type": "\\u001b", "value": "x"}]', b'[{"code": 33, "value": "\\u0000"}]', b'[{"code": 33, "value": "\xc3\xa9"}]']:
        for more in BOTH:
            result = run("write", "-n", "-f", "onie", *more, "-", "/dev/stdin", stdin=text, raw=True)
            assert result.status != DONE
            assert all(byte == 10 or 32 <= byte < 127 for byte in result.out)


def test_begins_like_no_format() -> None:
    result = run("list", "-", stdin=b"hello world")
    assert result.status == REFUSED
    assert "begins like no format" in result.said
    result = run("list", SAMPLES / "room.bin")
    assert result.status == REFUSED
    assert "boardid room list" in result.said
