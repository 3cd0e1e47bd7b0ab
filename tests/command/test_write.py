"""write: images from JSON field lists, byte for byte as the models write them."""

from __future__ import annotations

import json
import os
from pathlib import Path
from typing import Any, Optional

import pytest

import formats as f
from running import DONE, FAILED, REFUSED, SAMPLES, USAGE, Result, format_of, model, run, sample

WRITABLE = ["fboss.bin", "sku.vpd", "board.vpd", "frames.vpd", "tiny.bin", "amplifier.bin"]


def fields_of(name: str) -> list[f.Field]:
    """The entries of a sample as fields."""
    return [f.Field(entry.code, entry.value, entry.key) for entry in model(name).entries]


def written(fmt: int, fields: list[f.Field], room: Optional[int] = None, edition: int = 4) -> bytes:
    """An image of these fields, as long as it is or as its room."""
    image = f.write(fmt, edition, fields, 65536)
    length = f.read(fmt, edition, image).length
    return f.write(fmt, edition, fields, length if room is None else room)


def make(fmt: int, fields: Any, *words: str) -> Result:
    """write of a JSON text to standard output."""
    text = json.dumps(fields).encode()
    return run("write", "-f", f.FORMAT_WORDS[fmt], *words, "-", stdin=text, raw=True)


@pytest.mark.parametrize("name", WRITABLE)
def test_round_trip(name: str, tmp_path: Path) -> None:
    text = run("list", "-j", SAMPLES / name).out
    path, fmt = tmp_path / "new", format_of(name)
    assert run("write", path, stdin=text).status == DONE
    assert path.read_bytes() == written(fmt, fields_of(name))
    again = run("list", "-j", path).json["entries"]
    first = json.loads(text)["entries"]
    places = {"place", "value_place", "frame_length"}
    assert [{k: v for k, v in e.items() if k not in places} for e in again] == [
        {k: v for k, v in e.items() if k not in places} for e in first
    ]
    fields = tmp_path / "fields.json"
    fields.write_bytes(text)
    for word in (str(fields), "-"):
        path.write_bytes(b"\xee" * (len(sample(name)) + 10))
        assert run("write", path, word, stdin=text).status == DONE
        assert path.read_bytes() == written(fmt, fields_of(name), len(sample(name)) + 10)
    assert run("write", "-", fields, raw=True).out == written(fmt, fields_of(name))
    assert run("write", "-", stdin=text, raw=True).out == written(fmt, fields_of(name))
    assert sorted(os.listdir(tmp_path)) == ["fields.json", "new"]


@pytest.mark.parametrize("name", WRITABLE)
def test_round_trip_without_bytes(name: str) -> None:
    """The values alone make the same image."""
    answer = json.loads(run("list", "-j", SAMPLES / name).out)
    for entry in answer["entries"]:
        for key in ("number", "kind", "name", "short", "place", "frame_length", "value_place", "value_length", "bytes"):
            del entry[key]
    result = make(format_of(name), answer)
    assert (result.status, result.out) == (DONE, written(format_of(name), fields_of(name))), result


@pytest.mark.parametrize("name", WRITABLE)
def test_round_trip_by_bytes_alone(name: str) -> None:
    answer = json.loads(run("list", "-j", SAMPLES / name).out)
    keys = ("code", "key_bytes", "bytes")
    entries = [{key: entry[key] for key in keys if key in entry} for entry in answer["entries"]]
    result = make(format_of(name), entries)
    assert (result.status, result.out) == (DONE, written(format_of(name), fields_of(name))), result


@pytest.mark.parametrize("name, number, field", [("onie.bin", 14, 5), ("names.vpd", 7, 1)])
def test_round_trip_refused(name: str, number: int, field: int, tmp_path: Path) -> None:
    text = run("list", "-j", SAMPLES / name).out
    path = tmp_path / "new"
    result = run("write", "-j", path, stdin=text)
    assert (result.status, result.error["number"]) == (REFUSED, number)
    with pytest.raises(f.Refused) as refused:
        f.write(format_of(name), 4, fields_of(name), 1000)
    assert (refused.value.number, refused.value.place) == (number, field)
    said = run("write", path, stdin=text).said
    assert f"refused {number}" in said
    assert f"field {field}" in said or f"entry {field}" in said
    assert not os.listdir(tmp_path)


@pytest.mark.parametrize("edition", [1, 2, 3])
def test_round_trip_of_an_older_edition(edition: int) -> None:
    for name in WRITABLE:
        text = run("list", "-j", SAMPLES / name).out
        result = run("write", "-j", "-n", "-e", edition, "-", stdin=text)
        try:
            f.write(format_of(name), edition, fields_of(name), 9000)
        except f.Refused as refused:
            assert (result.status, result.error["number"]) == (REFUSED, refused.number), name
        else:
            assert result.status == DONE, name


ONIE_FIELDS: list[tuple[dict[str, Any], f.Field]] = [
    ({"code": 33, "value": "X"}, f.Field(0x21, b"X")),
    ({"name": "Product Name", "value": "X"}, f.Field(0x21, b"X")),
    ({"name": "product name", "value": "X"}, f.Field(0x21, b"X")),
    ({"short": "serial", "type": "text", "value": "S 1"}, f.Field(0x23, b"S 1")),
    ({"short": "serial", "value": ""}, f.Field(0x23, b"")),
    ({"code": 0x24, "type": "address", "value": "02:1a:2b:3c:4d:5e"}, f.Field(0x24, bytes.fromhex("021a2b3c4d5e"))),
    ({"code": 0x24, "value": "02-1A-2B-3C-4D-5E"}, f.Field(0x24, bytes.fromhex("021a2b3c4d5e"))),
    ({"short": "date", "type": "datetime", "value": "2023-02-28T12:34:56"}, f.Field(0x25, b"02/28/2023 12:34:56")),
    ({"short": "date", "value": "02/28/2023 12:34:56"}, f.Field(0x25, b"02/28/2023 12:34:56")),
    ({"short": "macs", "type": "number", "value": 258}, f.Field(0x2A, b"\1\2")),
    ({"short": "macs", "value": 0}, f.Field(0x2A, b"\0\0")),
    ({"short": "country", "value": "CZ"}, f.Field(0x2C, b"CZ")),
    ({"short": "extension", "type": "bytes", "value": "0000000141"}, f.Field(0xFD, b"\0\0\0\1A")),
    ({"short": "extension", "bytes": "0000000141"}, f.Field(0xFD, b"\0\0\0\1A")),
    ({"short": "extension", "value": None, "bytes": "0000000141"}, f.Field(0xFD, b"\0\0\0\1A")),
    ({"short": "serial", "type": "bytes", "bytes": "4142", "value": "4142"}, f.Field(0x23, b"AB")),
    ({"short": "serial", "value": "new", "bytes": "6f6c64"}, f.Field(0x23, b"new")),
]


@pytest.mark.parametrize("given, field", ONIE_FIELDS, ids=range(len(ONIE_FIELDS)))
def test_onie_fields(given: dict[str, Any], field: f.Field) -> None:
    result = make(f.ONIE, [given])
    assert (result.status, result.out) == (DONE, written(f.ONIE, [field])), result


def test_an_empty_list() -> None:
    for fmt in (f.VPD, f.TINY, f.ONIE):
        result = make(fmt, [])
        assert (result.status, result.out) == (DONE, written(fmt, [])), fmt
    result = run("write", "-n", "-j", "-f", "fboss", "-", stdin=b"[]")
    assert (result.status, result.error["number"]) == (REFUSED, 11)


def test_fboss_fields() -> None:
    given = [
        {"short": "product", "value": "P"},
        {"short": "state", "value": 1},
        {"short": "version", "value": 2},
        {"short": "sub-version", "value": 255},
        {"short": "serial", "value": "S"},
        {"short": "date", "type": "date", "value": "2024-02-29"},
        {"code": 17, "type": "address", "value": "02:1a:2b:3c:4d:5e", "count": 16},
    ]
    fields = [f.Field(1, b"P"), f.Field(8, b"\1"), f.Field(9, b"\2"), f.Field(10, b"\xff"), f.Field(11, b"S")]
    fields += [f.Field(13, b"20240229"), f.Field(17, bytes.fromhex("021a2b3c4d5e0010"))]
    result = make(f.FBOSS, given)
    assert (result.status, result.out) == (DONE, written(f.FBOSS, fields)), result


def test_vpd_fields() -> None:
    given = [
        {"code": 254, "key": "gVpdInfo", "bytes": "01020304"},
        {"code": 1, "key": "SKU", "value": "A7"},
        {"code": 1, "key_bytes": "6e6f7465", "type": "bytes", "value": "001bff"},
        {"code": 254, "key": "", "bytes": "01020304"},
    ]
    fields = [f.Field(0xFE, b"\1\2\3\4", b"gVpdInfo"), f.Field(1, b"A7", b"SKU"), f.Field(1, b"\0\x1b\xff", b"note")]
    result = make(f.VPD, given[:3])
    assert (result.status, result.out) == (DONE, written(f.VPD, fields)), result
    result = run("write", "-n", "-j", "-f", "vpd", "-", stdin=json.dumps(given).encode())
    assert (result.status, result.error["number"]) == (REFUSED, 8)


def test_tiny_fields() -> None:
    stored = f.string_stored
    strings = [
        {"short": "serial", "type": "string", "value": "S1"},
        {"short": "tests", "type": "flags", "value": ["assembly", "system"]},
    ]
    result = make(f.TINY, strings)
    fields = [f.Field(0x10, b"\0"), f.Field(0x11, b"\x09"), f.Field(0x01, stored(b"S1"))]
    assert (result.status, result.out) == (DONE, written(f.TINY, fields)), result
    pool = {"short": "pool", "type": "pool", "value": ["A", "S1"]}
    result = make(f.TINY, strings + [pool])
    fields = [f.Field(0x10, b"\1"), f.Field(0x11, b"\x09"), f.Field(0x01, stored(b"A") + stored(b"S1"))]
    assert (result.status, result.out) == (DONE, written(f.TINY, fields)), result
    result = make(f.TINY, strings + [{"short": "pool", "type": "pool", "value": ["A"]}])
    assert (result.status, result.out) == (DONE, written(f.TINY, fields)), result
    numbered = [{"short": "serial", "type": "string", "value": "S1", "string_number": 7}, pool]
    fields = [f.Field(0x10, b"\7"), f.Field(0x01, stored(b"A") + stored(b"S1"))]
    result = make(f.TINY, numbered)
    assert (result.status, result.out) == (DONE, written(f.TINY, fields)), result


def test_tiny_identities() -> None:
    stored = f.string_stored
    whole = {"serial": "S", "part": "P", "revision": "0A.12", "free": "2020"}
    result = make(f.TINY, [{"short": "identity", "type": "identity", "value": whole}])
    fields = [f.Field(0x61, bytes([0, 1, 128, 12, 0x20, 0x20])), f.Field(0x01, stored(b"S") + stored(b"P"))]
    assert (result.status, result.out) == (DONE, written(f.TINY, fields)), result
    batch = whole | {"batch": 9999, "serial_string": 5, "part_string": 6}
    result = make(f.TINY, [{"code": 0x80, "type": "identity", "value": batch}])
    fields = [f.Field(0x80, bytes([5, 6, 128, 12, 0x20, 0x20, 0x0F, 0x27]))]
    assert (result.status, result.out) == (DONE, written(f.TINY, fields)), result


def test_tiny_pool_with_a_rest() -> None:
    result = make(f.TINY, [{"short": "pool", "type": "pool", "value": ["AB"], "rest": "4445"}])
    assert (result.status, result.out) == (DONE, written(f.TINY, [f.Field(0x01, b"A\xc2DE")])), result


@pytest.mark.parametrize(
    "fmt, fields, number, field",
    [
        (f.ONIE, [{"code": 33, "value": "a"}, {"code": 33, "value": "b"}], 8, 1),
        (f.ONIE, [{"code": 38, "bytes": "01"}], 14, 0),
        (f.ONIE, [{"code": 33, "value": "a"}, {"short": "country", "value": "cz"}], 7, 1),
        (f.ONIE, [{"short": "macs", "value": 65536}], 7, 0),
        (f.ONIE, [{"short": "date", "value": "2023-02-31T00:00:00"}], 7, 0),
        (f.ONIE, [{"short": "extension", "bytes": "00" * 250}] * 9, 12, None),
        (f.VPD, [{"code": 1, "key": "lab.rack", "value": "x"}], 7, 0),
        (f.VPD, [{"code": 1, "key": "", "value": "x"}], 7, 0),
        (f.TINY, [{"short": "pool", "value": ["A"]}, {"short": "tests", "value": []}], 9, 1),
        (f.FBOSS, [{"short": "product", "value": "x"}], 11, None),
        (f.FBOSS, [{"short": "state", "value": 256}], 7, 0),
    ],
    ids=range(11),
)
def test_refused_fields(fmt: int, fields: list[dict[str, Any]], number: int, field: Optional[int]) -> None:
    word = f.FORMAT_WORDS[fmt]
    text = json.dumps(fields).encode()
    result = run("write", "-n", "-j", "-f", word, "-", stdin=text)
    assert (result.status, result.error["number"]) == (REFUSED, number), result
    if field is not None:
        assert result.error["entry"] == field, result
    said = run("write", "-n", "-f", word, "-", stdin=text)
    assert f"refused {number}" in said.said
    if field is not None:
        assert f"field {field}" in said.said or f"entry {field}" in said.said


@pytest.mark.parametrize(
    "text",
    [
        "",
        "{",
        "[",
        "null",
        "1",
        '"x"',
        "[1]",
        "[[]]",
        "[null]",
        "[{}]",
        "[{}] x",
        '{"entries": 1}',
        '{"format": "onie"}',
        '{"format": "onie", "entries": [{"code": 33}]}',
        '[{"code": -1, "value": "x"}]',
        '[{"code": 256, "value": "x"}]',
        '[{"code": 4294967329, "value": "x"}]',
        '[{"code": 33.5, "value": "x"}]',
        '[{"code": "33", "value": "x"}]',
        '[{"name": "no such name", "value": "x"}]',
        '[{"short": "no such name", "value": "x"}]',
        '[{"code": 33, "value": 1}]',
        '[{"code": 33, "value": []}]',
        '[{"code": 33, "value": "x", "value": "y"}]',
        '[{"code": 33, "bytes": "4"}]',
        '[{"code": 33, "bytes": "zz"}]',
        '[{"code": 33, "bytes": 7}]',
        '[{"code": 42, "value": "x"}]',
        '[{"code": 42, "value": 1.5}]',
        '[{"code": 42, "value": 1e3}]',
        '[{"code": 36, "value": 7}]',
        '[{"code": 33, "type": "none", "value": "x"}]',
        '[{"code": 33, "value": "\ud800"}]',
        "[" * 5000,
    ],
)
def test_what_is_no_field_list(text: str, tmp_path: Path) -> None:
    path = tmp_path / "fields.json"
    path.write_bytes(text.encode("utf-8", "surrogatepass"))
    result = run("write", "-j", "-f", "onie", tmp_path / "new", path)
    assert result.status == REFUSED, result
    assert os.listdir(tmp_path) == ["fields.json"]
    if text in ("{", "["):
        assert f"{path}:1:" in result.said


def test_the_place_in_the_text(tmp_path: Path) -> None:
    path = tmp_path / "fields.json"
    path.write_text('[\n  {"code": 33,\n   "value": }\n]\n')
    said = run("write", "-f", "onie", tmp_path / "new", path).said
    assert f"{path}:3:" in said


def test_no_format_is_given() -> None:
    result = run("write", "-n", "-", stdin=b'[{"code": 33, "value": "x"}]')
    assert result.status in (REFUSED, USAGE)
    result = run("write", "-n", "-", stdin=b'{"format": "eeprom", "entries": []}')
    assert result.status == REFUSED


def test_format_of_the_option_or_of_the_object(tmp_path: Path) -> None:
    text = b'{"format": "onie", "entries": [{"code": 33, "value": "x"}]}'
    assert run("write", "-", stdin=text, raw=True).out == written(f.ONIE, [f.Field(0x21, b"x")])


def test_write_over_a_chip(tmp_path: Path) -> None:
    path = tmp_path / "chip"
    text = b'[{"code": 33, "value": "x"}]'
    wanted = f.write(f.ONIE, 4, [f.Field(0x21, b"x")], 64)
    for old in (b"\xff" * 64, b"\0" * 64, b"anything" * 8, sample("onie.bin")[:64]):
        path.write_bytes(old)
        assert run("write", "-f", "onie", path, stdin=text).status == DONE
        assert path.read_bytes() == wanted
        path.write_bytes(b"front" + old + b"back")
        assert run("write", "-f", "onie", "-o", "5", "-l", "64", path, stdin=text).status == DONE
        assert path.read_bytes() == b"front" + wanted + b"back"
        path.write_bytes(b"front" + old)
        assert run("write", "-i", "-f", "onie", "-o", "5", path, stdin=text).status == DONE
        assert path.read_bytes() == b"front" + wanted
        path.write_bytes(b"front" + old)
        assert run("write", "-s", "100", "-f", "onie", "-o", "5", path, stdin=text).status == DONE
        assert path.read_bytes() == b"front" + f.write(f.ONIE, 4, [f.Field(0x21, b"x")], 100)
    path.write_bytes(b"\xff" * 10)
    result = run("write", "-f", "onie", path, stdin=text)
    assert result.status == REFUSED
    assert "refused 12" in result.said
    assert path.read_bytes() == b"\xff" * 10


def test_write_with_a_size(tmp_path: Path) -> None:
    path = tmp_path / "new"
    text = b'[{"code": 33, "value": "x"}]'
    assert run("write", "-s", "256", "-f", "onie", path, stdin=text).status == DONE
    assert path.read_bytes() == f.write(f.ONIE, 4, [f.Field(0x21, b"x")], 256)
    assert run("write", "-s", "19", "-f", "onie", path, stdin=text).status == REFUSED
    path.write_bytes(b"")
    assert run("write", "-s", "65537", "-f", "onie", path, stdin=text).status == REFUSED


def test_write_dry_run(tmp_path: Path) -> None:
    path = tmp_path / "new"
    text = b'[{"code": 33, "value": "x"}]'
    result = run("write", "-n", "-j", "-f", "onie", path, stdin=text)
    assert result.status == DONE
    assert not os.listdir(tmp_path)
    assert result.json["dry_run"] is True
    wanted = written(f.ONIE, [f.Field(0x21, b"x")])
    assert "".join(change["new"] for change in result.json["changes"]) == wanted.hex()
    assert run("write", "-f", "onie", path, stdin=text).status == DONE
    assert path.read_bytes() == wanted


def test_write_to_a_part_of_a_file_that_is_not_there(tmp_path: Path) -> None:
    for words in (["-o", "5"], ["-l", "50"], ["-i"]):
        assert run("write", "-f", "onie", *words, tmp_path / "new", stdin=b"[]").status == FAILED, words
    assert not os.listdir(tmp_path)
    assert run("write", "-f", "onie", "-s", "50", "-o", "0", tmp_path / "new", stdin=b"[]").status == DONE
    assert (tmp_path / "new").read_bytes() == f.write(f.ONIE, 4, [], 50)


def test_write_over_its_own_json(tmp_path: Path) -> None:
    path = tmp_path / "fields.json"
    path.write_text("[]")
    for name in (path, tmp_path / "link"):
        if name != path:
            name.symlink_to(path)
        assert run("write", "-f", "onie", name, path).status == USAGE
        assert path.read_text() == "[]"


def test_a_type_of_another_code(tmp_path: Path) -> None:
    for code, right, word, value in ((1, "pool", "string", "ABC"), (0x10, "string", "text", "A"), (0x11, "flags", "number", 1), (0x60, "address", "none", "A")):
        text = json.dumps([{"code": code, "type": word, "value": value}])
        result = run("write", "-j", "-f", "tiny", tmp_path / "new", stdin=text.encode())
        assert result.status == REFUSED and f"its type is {right}, or bytes" in result.said, result
    assert not os.listdir(tmp_path)


def test_write_to_and_from_what_is_no_file(tmp_path: Path) -> None:
    assert run("write", "-f", "onie", tmp_path, stdin=b"[]").status == FAILED
    assert run("write", "-f", "onie", tmp_path / "a" / "b", stdin=b"[]").status == FAILED
    assert run("write", "-f", "onie", tmp_path / "new", tmp_path / "none").status == FAILED
    assert run("write", "-f", "onie", tmp_path / "new", tmp_path).status == FAILED
    assert not os.listdir(tmp_path)
