"""Refusals: each number that the command can give, with its entry, place, name and words."""

from __future__ import annotations

from pathlib import Path
from typing import Callable, NamedTuple, Optional

import pytest

import formats as f
from running import REFUSED, SAMPLES, Word, model, run, sample

Copy = Callable[[str], Path]
FBOSS_FIELDS = [f.Field(1, b"P"), f.Field(8, b"\1"), f.Field(9, b"\2"), f.Field(10, b"\3"), f.Field(11, b"S")]


def fboss(*more: f.Field, fields: Optional[list[f.Field]] = None) -> bytes:
    """An FBOSS image of frames that no rule was asked about."""
    start = FBOSS_FIELDS if fields is None else fields
    return f.ended(f.FBOSS, [f.frame(f.FBOSS, field) for field in [*start, *more]], 200)


def onie(*fields: f.Field) -> bytes:
    """An ONIE image of frames that no rule was asked about."""
    return f.ended(f.ONIE, [f.frame(f.ONIE, field) for field in fields], 120)


def tiny(*frames: str) -> bytes:
    """A Tiny image of frames that no rule was asked about."""
    return f.ended(f.TINY, [bytes.fromhex(one) for one in frames], 80)


def vpd(*frames: str) -> bytes:
    """A VPD image of frames that no rule was asked about."""
    return f.ended(f.VPD, [bytes.fromhex(one) for one in frames], 80)


def with_byte(data: bytes, place: int, byte: int) -> bytes:
    """The bytes with another one at a place."""
    return data[:place] + bytes([byte]) + data[place + 1 :]


class Case(NamedTuple):
    """An image that is refused: the number, the entry's number and name, and words that are said."""

    what: str
    fmt: int
    data: bytes
    number: int
    entry: Optional[int] = None
    name: Optional[str] = None
    words: tuple[str, ...] = ()
    edition: int = 4


FB = sample("fboss.bin")
ON = sample("onie.bin")
TI = sample("tiny.bin")
DATE = "System Manufacturing Date"
CASES = [
    Case("edition", 1, FB, 1, edition=5, words=("edition",)),
    Case("fboss short", 1, b"\xfb\xfb\x05", 3),
    Case("fboss magic", 1, b"\xfb\xfa\x05\xff", 3),
    Case("fboss byte 3", 1, with_byte(FB, 3, 0), 3, words=("FFh",)),
    Case("fboss version", 1, with_byte(FB, 2, 4), 4, words=("4", "5")),
    Case("tiny version", 3, with_byte(TI, 1, 1), 4, words=("1", "2")),
    Case("onie version", 4, with_byte(ON, 8, 2), 4, words=("2", "1")),
    Case("onie short", 4, ON[:10], 3, words=("10",)),
    Case("fboss cut", 1, FB[:100], 5, 8, "Product Version"),
    Case("fboss no end", 1, FB[:206], 5, words=("without an end",)),
    Case("tiny length", 3, with_byte(TI, 2, 3), 5, words=("3",)),
    Case("tiny length past", 3, with_byte(TI, 2, 200), 5, words=("200", "74")),
    Case("onie length", 4, with_byte(ON, 9, 0x20), 5),
    Case("onie length past", 4, ON[:150], 5, words=("191", "139")),
    Case("onie bytes after the check", 4, with_byte(ON, 10, 0xC4), 5),
    Case("vpd cut", 2, sample("board.vpd")[:40], 5, 2),
    Case("fboss code 0", 1, with_byte(FB, 4, 0), 6, 0),
    Case("fboss code 255", 1, with_byte(FB, 19, 255), 6, 1),
    Case("fboss 250 with another length", 1, with_byte(FB, 207, 3), 6, 20),
    Case("vpd type", 2, vpd("0101410142", "0501410142"), 6, 1),
    Case("vpd length byte", 2, vpd("0101410142", "018080808041"), 6, 1),
    Case("tiny tag 00", 3, with_byte(TI, 3, 0), 6, 0),
    Case("onie code 00", 4, with_byte(ON, 11, 0), 6, 0),
    Case("fboss text", 1, fboss(f.Field(12, b"ab\x1fcd")), 7, 5, "System Manufacturer", ("1Fh",)),
    Case("fboss length", 1, fboss(f.Field(3, b"1234567")), 7, 5, "System Assembly Part Number", ("7 bytes", "8")),
    Case("fboss date", 1, fboss(f.Field(13, b"20230231")), 7, 5, DATE, ("20230231 is no day of the calendar",)),
    Case("fboss number", 1, fboss(fields=[FBOSS_FIELDS[0], f.Field(8, b"\1\2")]), 7, 1, "Product Production State", ("2 bytes",)),
    Case("fboss address", 1, fboss(f.Field(17, b"\1\2")), 7, 5, "X86 CPU MAC Addresses", ("2 bytes", "8")),
    Case("vpd empty key", 2, vpd("0101410142", "010000"), 7, 1, None, ("key",)),
    Case("vpd info", 2, vpd("fe0003414243"), 7, 0, "info header", ("3 bytes", "4")),
    Case("tiny major", 3, tiny("1000", "610001640000" + "00"), 7, 1, "Product identity", ("major", "100")),
    Case("tiny minor", 3, tiny("1000", "62000100640000"), 7, 1, "System product identity", ("minor", "100")),
    Case("tiny batch", 3, tiny("1000", "800001010200001027"), 7, 1, "Product identity w/ batch code", ("batch", "10000")),
    Case("onie country", 4, onie(f.Field(0x2C, b"cz")), 7, 0, "Country Code", ("A-Z",)),
    Case("onie date", 4, onie(f.Field(0x25, b"02/30/2023 00:00:00")), 7, 0, "Manufacture Date"),
    Case("onie time", 4, onie(f.Field(0x25, b"02/20/2023 24:00:00")), 7, 0, "Manufacture Date"),
    Case("onie extension", 4, onie(f.Field(0xFD, b"abc")), 7, 0, "Vendor Extension", ("3 bytes", "4")),
    Case("onie address", 4, onie(f.Field(0x24, b"abc")), 7, 0, "MAC #1 Base", ("3 bytes", "6")),
    Case("onie macs", 4, onie(f.Field(0x2A, b"abc")), 7, 0, "Num MACs", ("3 bytes", "2")),
    Case("fboss twice", 1, fboss(f.Field(12, b"a"), f.Field(9, b"\1")), 8, 6, "Product Version", ("entry 2",)),
    Case("vpd twice", 2, vpd("0101410142", "0101410143"), 8, 1, None, ("A", "entry 0")),
    Case("tiny twice", 3, tiny("1000", "1101", "1001"), 8, 2, "Serial number", ("entry 0",)),
    Case("onie twice", 4, onie(f.Field(0x21, b""), f.Field(0x21, b"")), 8, 1, "Product Name", ("entry 0",)),
    Case("tiny after the pool", 3, tiny("0101c1", "1000"), 9, 1),
    Case("fboss check", 1, with_byte(FB, 208, 0xD6), 10, words=("read the chip again",)),
    Case("tiny check", 3, with_byte(TI, 73, 0), 10, words=("read the chip again",)),
    Case("onie check", 4, with_byte(ON, 201, 0), 10, words=("read the chip again",)),
    Case("fboss required", 1, fboss(fields=FBOSS_FIELDS[:4]), 11, words=("Product Serial Number",)),
    Case("fboss required first", 1, fboss(fields=FBOSS_FIELDS[1:]), 11, words=("Product Name",)),
    Case("onie in edition 2", 4, ON, 16, edition=2, words=("edition 2",)),
    Case("onie in edition 1", 4, ON, 16, edition=1, words=("edition 1",)),
]


@pytest.mark.parametrize("case", CASES, ids=[case.what for case in CASES])
@pytest.mark.parametrize("offset", [0, 100])
def test_images(case: Case, offset: int, tmp_path: Path) -> None:
    path = tmp_path / "image"
    path.write_bytes(b"\xee" * offset + case.data)
    with pytest.raises(f.Refused) as refused:
        f.read(case.fmt, case.edition, case.data)
    assert refused.value.number == case.number
    options: list[Word] = ["-f", f.FORMAT_WORDS[case.fmt], "-e", case.edition]
    if offset:
        options += ["-o", offset]
    for command in ("list", "check"):
        result = run(command, "-j", *options, path)
        assert result.status == REFUSED, result
        error = result.error
        assert error["number"] == case.number, error
        if case.number in (5, 6, 7, 8, 9, 10):
            assert error["place"] == offset + refused.value.place, error
        assert error["entry"] == case.entry, error
        if case.name is not None:
            assert error["name"] == case.name, error
    said = run("list", *options, path)
    assert (said.status, said.out) == (REFUSED, b"")
    assert said.said.startswith(f"boardid: {path}: ")
    assert f"(refused {case.number})" in said.said
    if case.entry is not None:
        assert f"entry {case.entry}" in said.said
        assert f"byte {offset + refused.value.place}" in said.said
    if case.name is not None:
        assert case.name in said.said
    for word in case.words:
        assert word in said.said, said.said
    assert error["message"] in said.said or error["message"].split(" (refused")[0] in said.said


def test_too_long(tmp_path: Path) -> None:
    path = tmp_path / "long"
    path.write_bytes(FB + b"\xff" * 65536)
    said = run("list", path).said
    assert "refused 2" in said and "--length 65536" in said
    error = run("list", "-j", path).error
    assert error["number"] == 2
    assert "--length 65536" in error["hint"]


def test_sentence_of_the_specification(tmp_path: Path) -> None:
    path = tmp_path / "image"
    data = fboss(f.Field(13, b"20230231"))
    path.write_bytes(data)
    place = data.index(b"\x0d\x08")
    wanted = f"boardid: {path}: entry 5, System Manufacturing Date, at byte {place}: 20230231 is no day of the calendar (refused 7)"
    assert wanted in run("list", path).said.splitlines()


def test_twelve(copy: Copy) -> None:
    path = copy("sku.vpd")
    said = run("add", path, "k", "v").said
    assert f"boardid: {path}: needs 14 bytes, the room has 9" in said
    assert "-s 14 makes it longer" in said and "(refused 12)" in said
    error = run("add", "-j", path, "k", "v").error
    assert error["number"] == 12
    assert "14" in error["message"] and "9" in error["message"]


@pytest.mark.parametrize("edition", [1, 2, 3, 4])
def test_fourteen(edition: int, copy: Copy) -> None:
    path = copy("fboss.bin")
    result = run("remove", "-j", "-e", edition, path, "#16")
    if edition == 1:
        assert result.error["number"] == 14
        assert (result.error["entry"], result.error["place"]) == (16, model("fboss.bin").entries[16].place)
        said = run("remove", "-e", "1", path, "#16").said
        assert "edition 1 does not name code 17" in said and "edition 2 does" in said and "-e 2" in said
    else:
        assert result.status == 0


def test_fourteen_of_no_edition(copy: Copy) -> None:
    said = run("remove", copy("onie.bin"), "#5").said
    assert "refused 14" in said and "entry 5" in said
    assert "26h" in said.lower() or "0x26" in said.lower() or "38" in said


def test_eleven_in_a_removal(copy: Copy) -> None:
    path = copy("fboss.bin")
    result = run("remove", "-j", path, "serial")
    assert (result.status, result.error["number"]) == (REFUSED, 11)
    said = run("remove", path, "serial").said
    assert "refused 11" in said and "Product Serial Number" in said


def test_thirteen_fifteen_sixteen() -> None:
    said = run("get", SAMPLES / "onie.bin", "serial2").said
    assert "no entry serial2" in said
    said = run("strings", "-", stdin=tiny("1000")).said
    assert "refused 15" in said
    said = run("strings", SAMPLES / "onie.bin").said
    assert "refused 16" in said
    said = run("vendor", SAMPLES / "tiny.bin").said
    assert "refused 16" in said


def onie_payload(payload: bytes) -> bytes:
    """An ONIE image with these bytes as an amplifier's payload."""
    return onie(f.Field(0xFD, f.PREFIX + payload))


PAYLOAD = f.vendor_payload(b"S", [0] * 8)
OTHER_BLOCK = PAYLOAD[:4] + b"\1" + PAYLOAD[5:-4]
EVERY: dict[int, tuple[list[Word], bytes]] = {
    1: (["list", "-e", "5"], FB),
    2: (["list"], FB + b"\xff" * 65536),
    3: (["list"], with_byte(FB, 3, 0)),
    4: (["list"], with_byte(TI, 1, 3)),
    5: (["list"], ON[:100]),
    6: (["list"], with_byte(FB, 4, 0)),
    7: (["list"], onie(f.Field(0x2C, b"cz"))),
    8: (["list"], tiny("1000", "1000")),
    9: (["list"], tiny("0100", "1000")),
    10: (["list"], with_byte(TI, 73, 0)),
    11: (["list"], fboss(fields=FBOSS_FIELDS[:4])),
    12: (["set", "-n", "SKU", "x" * 40], sample("sku.vpd")),
    13: (["get", "#1"], sample("sku.vpd")),
    14: (["remove", "-n", "#5"], ON),
    15: (["strings"], tiny("1000")),
    16: (["strings"], ON),
    17: (["vendor"], onie(f.Field(0x21, b""))),
    18: (["vendor"], onie_payload(PAYLOAD + b"\0")),
    19: (["vendor"], onie_payload(PAYLOAD[:-1] + bytes([PAYLOAD[-1] ^ 1]))),
    20: (["vendor"], onie_payload(OTHER_BLOCK + f.crc32(OTHER_BLOCK).to_bytes(4, "big"))),
    21: (["room", "list"], b"RM\x01\0\0\1\0\0"),
    22: (["room", "remove", "-n", "18"], sample("room.bin")),
    23: (["room", "add", "-n", "17", SAMPLES / "sku.vpd"], sample("room.bin")),
}


@pytest.mark.parametrize("number", range(1, 24))
def test_every_number(number: int) -> None:
    words, data = EVERY[number]
    at = 2 if words[0] == "room" else 1
    line = [*words[:at], "-", *words[at:]]
    result = run(*line, stdin=data)
    assert (result.status, result.out) == (REFUSED, b"")
    assert f"(refused {number})" in result.said
    by_json = run(*line, "-j", stdin=data)
    assert by_json.error["number"] == number
    assert by_json.err == result.err


def test_the_message_is_the_same_in_json() -> None:
    for data in (fboss(f.Field(13, b"20230231")), tiny("0101c1", "1000"), with_byte(ON, 201, 0)):
        by_json = run("check", "-j", "-", stdin=data)
        by_words = run("check", "-", stdin=data)
        assert by_json.err == by_words.err
