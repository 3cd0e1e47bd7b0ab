"""set, add and remove on all formats, byte for byte as the models make them."""

from __future__ import annotations

import json
import os
from pathlib import Path
from typing import Callable, Optional

import pytest

import formats as f
from running import (
    BLANK,
    DONE,
    FAILED,
    NAMES,
    REFUSED,
    SAMPLES,
    USAGE,
    Result,
    Word,
    format_of,
    model,
    run,
    sample,
)

Copy = Callable[[str], Path]
CHANGE_KEYS = [
    "file",
    "format",
    "edition",
    "offset",
    "command",
    "entry",
    "name",
    "length",
    "room",
    "dry_run",
    "in_place",
    "changes",
]


def applied(old: bytes, changes: list[dict[str, object]]) -> bytes:
    """The old bytes with the runs of a change put in; a run that shortens or lengthens is the last."""
    out = bytearray(old)
    for k, change in enumerate(changes):
        place = change["place"]
        assert isinstance(place, int)
        before, after = bytes.fromhex(str(change["old"])), bytes.fromhex(str(change["new"]))
        assert out[place : place + len(before)] == before
        if len(before) != len(after):
            assert k == len(changes) - 1
            assert place + len(before) == len(old)
        out[place : place + len(before)] = after
    return bytes(out)


def runs_are_right(old: bytes, new: bytes, changes: list[dict[str, object]]) -> None:
    """The runs make the new bytes of the old ones, and have no byte that is the same."""
    assert applied(old, changes) == new
    common = min(len(old), len(new))
    said = {
        int(str(change["place"])) + k
        for change in changes
        for k in range(max(len(str(change["old"])), len(str(change["new"]))) // 2)
    }
    differ = {k for k in range(common) if old[k] != new[k]} | set(range(common, max(len(old), len(new))))
    assert said == differ


def both(path: Path, wanted: bytes, *words: Word) -> Result:
    """Runs a change as a filter, as a dry run in JSON, in JSON, and on the file; all make the same."""
    old = path.read_bytes()
    before = path.stat()
    command, rest = words[0], list(words[1:])

    dry = run(command, "-n", "-j", path, *rest)
    assert dry.status == DONE, dry
    assert path.read_bytes() == old
    assert (path.stat().st_mtime_ns, path.stat().st_ino) == (before.st_mtime_ns, before.st_ino)
    runs_are_right(old, wanted, dry.json["changes"])
    assert dry.json["dry_run"] is True

    through = run(command, "-", *rest, stdin=old, raw=True)
    assert (through.status, through.out) == (DONE, wanted), through

    done = run(command, "-j", path, *rest)
    assert done.status == DONE
    assert path.read_bytes() == wanted
    assert done.json == dry.json | {"dry_run": False}
    assert os.listdir(path.parent) == [path.name]

    path.write_bytes(old)
    said = run(command, path, *rest)
    assert said.status == DONE
    assert path.read_bytes() == wanted
    assert os.listdir(path.parent) == [path.name]

    if len(old) == len(wanted):
        path.write_bytes(old)
        inode = path.stat().st_ino
        assert run(command, "-i", path, *rest).status == DONE
        assert path.read_bytes() == wanted
        assert path.stat().st_ino == inode
    return said


def refused(path: Path, number: int, place: Optional[int], *words: Word) -> Result:
    """Runs a change that is refused: the file stays, and the number is told."""
    old, before = path.read_bytes(), path.stat()
    command, rest = words[0], list(words[1:])
    result = run(command, "-j", path, *rest)
    assert result.status == REFUSED, result
    assert result.error["number"] == number, result
    if place is not None and number in (5, 6, 7, 8, 9, 10, 14):
        assert result.error["place"] == place, result
    said = run(command, path, *rest)
    assert (said.status, said.out) == (REFUSED, b"")
    assert f"refused {number}" in said.said or number == 13, said.said
    through = run(command, "-", *rest, stdin=old)
    assert (through.status, through.out) == (REFUSED, b"")
    dry = run(command, "-n", path, *rest)
    assert (dry.status, dry.out) == (REFUSED, b"")
    assert path.read_bytes() == old
    assert (path.stat().st_mtime_ns, path.stat().st_ino) == (before.st_mtime_ns, before.st_ino)
    assert os.listdir(path.parent) == [path.name]
    return said


def other_value(entry: f.Entry) -> bytes:
    """Another value of the same length that keeps the rule of the entry's code."""
    if entry.reading in ("text", "pool"):
        return b"D" + entry.value[1:] if entry.value[:1] != b"D" else b"E" + entry.value[1:]
    if entry.reading == "date":
        return b"19991231"
    if entry.reading == "datetime":
        return b"12/31/1999 23:59:59"
    if entry.reading == "identity":
        return entry.value[:3] + bytes([98 - entry.value[3] // 2]) + entry.value[4:]
    return entry.value[:-1] + bytes([entry.value[-1] ^ 1])


@pytest.mark.parametrize("name", NAMES)
def test_set_every_entry_by_bytes(name: str, copy: Copy) -> None:
    fmt, data, image = format_of(name), sample(name), model(name)
    path = copy(name)
    for entry in image.entries:
        value = other_value(entry)
        path.write_bytes(data)
        try:
            wanted = f.edit(fmt, 4, data, entry.number, value)
        except f.Refused as refusal:
            assert refusal.number == 14
            refused(path, refusal.number, refusal.place, "set", "-x", f"#{entry.number}", value.hex())
            continue
        assert wanted != data
        both(path, wanted, "set", "-x", f"#{entry.number}", value.hex())


@pytest.mark.parametrize("name", NAMES)
@pytest.mark.parametrize("edition", [1, 2, 3, 4])
def test_remove_every_entry(name: str, edition: int, copy: Copy) -> None:
    fmt, data = format_of(name), sample(name)
    path = copy(name)
    for entry in model(name).entries:
        path.write_bytes(data)
        words: list[Word] = ["remove", "-e", edition, f"#{entry.number}"]
        try:
            wanted = f.remove(fmt, edition, data, entry.number, len(data))
        except f.Refused as refusal:
            refused(path, refusal.number, None if refusal.number == 11 else refusal.place, *words)
            continue
        if edition in (1, 4):
            both(path, wanted, *words)
        else:
            assert run("remove", path, *words[1:]).status == DONE
            assert path.read_bytes() == wanted


ADDITIONS: list[tuple[str, f.Field, str, str]] = [
    ("board.vpd", f.Field(1, b"rack 7", b"note"), "note", "rack 7"),
    ("sku.vpd", f.Field(1, b"", b"note"), "note", ""),
    ("frames.vpd", f.Field(1, b"x\\y", b"A_9"), "A_9", "x\\y"),
    ("onie.bin", f.Field(0xFD, b"\0\0\0\x01abc"), "extension", "00000001616263"),
    ("amplifier.bin", f.Field(0xFD, b"\0\0\0\x01abc"), "0xfd", "00:00:00:01:61:62:63"),
    ("amplifier.bin", f.Field(0xFD, b"\0\0\0\x01abc"), "253", "00 00 00 01 61 62 63"),
]


@pytest.mark.parametrize("name, field, word, value", ADDITIONS, ids=[f"{a[0]}-{a[2]}" for a in ADDITIONS])
def test_add(name: str, field: f.Field, word: str, value: str, copy: Copy) -> None:
    fmt, data = format_of(name), sample(name)
    path = copy(name)
    try:
        wanted = f.add(fmt, 4, data, field, len(data))
    except f.Refused as refusal:
        refused(path, refusal.number, None, "add", word, value)
    else:
        both(path, wanted, "add", word, value)


@pytest.mark.parametrize("name", ["fboss.bin", "tiny.bin", "onie.bin", "amplifier.bin", "board.vpd", "names.vpd"])
def test_remove_then_add_again(name: str, copy: Copy) -> None:
    """Every entry that may go is removed, then added by its bytes."""
    fmt, data = format_of(name), sample(name)
    path = copy(name)
    for entry in model(name).entries:
        try:
            without = f.remove(fmt, 4, data, entry.number, len(data))
        except f.Refused:
            continue
        path.write_bytes(without)
        field = f.Field(entry.code, entry.value, entry.key)
        words: list[Word] = ["add", "-x", f"0x{entry.code:02x}", entry.value.hex()]
        if fmt == f.VPD:
            words = ["add", "-x", "-c", f"0x{entry.code:02x}", "--", entry.key.replace(b"\0", b""), entry.value.hex()]
            field = f.Field(entry.code, entry.value, entry.key.replace(b"\0", b""))
        try:
            wanted = f.add(fmt, 4, without, field, len(data))
        except f.Refused as refusal:
            words[0:1] = []
            result = run("add", "-j", path, *[w for w in words if w != "--"])
            assert (result.status, result.error["number"]) == (REFUSED, refusal.number)
            assert path.read_bytes() == without
            continue
        both(path, wanted, *[w for w in words if w != "--"])


def test_add_refusals(copy: Copy) -> None:
    refused(copy("onie.bin"), 8, None, "add", "serial", "X")
    os.unlink(copy("onie.bin"))
    refused(copy("board.vpd"), 8, None, "add", "UUID", "X")
    os.unlink(copy("board.vpd"))
    refused(copy("board.vpd"), 7, None, "add", "lab.rack", "X")
    os.unlink(copy("board.vpd"))
    refused(copy("board.vpd"), 8, None, "add", "-c", "0xfe", "other", "01020304")
    os.unlink(copy("board.vpd"))
    refused(copy("sku.vpd"), 12, None, "add", "note", "x" * 200)
    os.unlink(copy("sku.vpd"))
    refused(copy("onie.bin"), 14, None, "add", "0x26", "01")
    os.unlink(copy("onie.bin"))
    refused(copy("onie.bin"), 14, None, "add", "38", "01")
    os.unlink(copy("onie.bin"))
    refused(copy("board.vpd"), 14, None, "add", "-c", "0x55", "k", "01")
    os.unlink(copy("board.vpd"))
    refused(copy("sku.vpd"), 14, None, "add", "-e", "1", "-c", "0xfe", "k", "01020304")


def test_add_of_a_name_that_the_format_does_not_have(copy: Copy) -> None:
    path = copy("onie.bin")
    result = run("add", "-j", path, "serial2", "X")
    assert result.status == REFUSED
    assert path.read_bytes() == sample("onie.bin")


def test_add_ambiguous(copy: Copy) -> None:
    path = copy("fboss.bin")
    without = f.remove(f.FBOSS, 4, sample("fboss.bin"), 16, 8192)
    path.write_bytes(without)
    result = run("add", "-j", path, "mac", "02:1a:2b:3c:4d:5e/3")
    assert (result.status, result.error["number"]) == (REFUSED, None)
    value = bytes.fromhex("021a2b3c4d5e0003")
    both(path, f.add(f.FBOSS, 4, without, f.Field(17, value), 8192), "add", "cpu-mac", "02:1a:2b:3c:4d:5e/3")


def test_add_vpd_info_with_an_empty_key(copy: Copy) -> None:
    path = copy("sku.vpd")
    data = sample("sku.vpd") + b"\xff" * 20
    path.write_bytes(data)
    wanted = f.add(f.VPD, 4, data, f.Field(0xFE, b"\1\2\3\4", b""), len(data))
    both(path, wanted, "add", "-c", "0xfe", "", "01020304")


def test_set_refusals(copy: Copy) -> None:
    path = copy("onie.bin")
    date = model("onie.bin").entries[4]
    refused(path, 7, date.place, "set", "date", "2023-02-31T01:02:03")
    refused(path, 13, None, "set", "#13", "x")
    refused(path, 13, None, "set", "serial2", "x")
    refused(path, 14, model("onie.bin").entries[5].place, "set", "0x26", "02")
    refused(path, 12, None, "set", "product", "x" * 255, "-e", "3", "-l", "210")


@pytest.mark.parametrize("name", [name for name in NAMES if name != "frames.vpd"])
def test_a_change_that_changes_nothing(name: str, copy: Copy) -> None:
    """All samples but frames.vpd, which ends with FFh, are what an edit to the same value makes."""
    path = copy(name)
    for entry in model(name).entries:
        if entry.kind == 0:
            continue
        assert f.edit(format_of(name), 4, sample(name), entry.number, entry.value) == sample(name)
        before = path.stat()
        kinds: list[list[str]] = [[], ["-i"], ["-n"]]
        for more in kinds:
            result = run("set", "-x", *more, path, f"#{entry.number}", entry.value.hex())
            assert result.status == DONE
            assert f"entry {entry.number}" in result.text
            after = path.stat()
            assert (before.st_mtime_ns, before.st_ino) == (after.st_mtime_ns, after.st_ino)
            assert path.read_bytes() == sample(name)


def test_what_is_said_of_a_change(copy: Copy) -> None:
    path = copy("onie.bin")
    dry = run("set", "-n", path, "serial", "LAB-000999")
    assert f"{path}: would set Serial Number (entry 2)" in dry.text
    assert '"LAB-000471" -> "LAB-000999"' in dry.text
    assert "202 of 512 bytes" in dry.text
    old, new = sample("onie.bin"), f.edit(f.ONIE, 4, sample("onie.bin"), 2, b"LAB-000999")
    place = next(k for k in range(512) if old[k] != new[k])
    lines = [line for line in dry.text.splitlines() if line.startswith(f"  byte {place}:")]
    assert len(lines) == 1
    left, right = lines[0].split(":", 1)[1].split("->")
    size = len(bytes.fromhex(left))
    assert bytes.fromhex(left) == old[place : place + size]
    assert bytes.fromhex(right) == new[place : place + size]
    done = run("set", path, "serial", "LAB-000999")
    assert f"{path}: set Serial Number (entry 2): " in done.text
    assert '"LAB-000471" -> "LAB-000999"' in done.text
    assert "202 of 512 bytes" in done.text
    answer = run("set", "-j", path, "serial", "LAB-000998").json
    assert list(answer) == CHANGE_KEYS
    assert {key: answer[key] for key in CHANGE_KEYS[:-1]} == {
        "file": str(path),
        "format": "onie",
        "edition": 4,
        "offset": 0,
        "command": "set",
        "entry": 2,
        "name": "Serial Number",
        "length": 202,
        "room": 512,
        "dry_run": False,
        "in_place": False,
    }
    answer = run("remove", "-j", "-i", path, "country").json
    assert (answer["command"], answer["entry"], answer["name"]) == ("remove", 10, "Country Code")
    assert (answer["length"], answer["in_place"]) == (198, True)
    answer = run("add", "-j", path, "country", "DE").json
    assert (answer["command"], answer["entry"], answer["name"]) == ("add", 12, "Country Code")


@pytest.mark.parametrize("name", ["onie.bin", "fboss.bin", "tiny.bin", "board.vpd"])
def test_offset_and_length_of_a_change(name: str, copy: Copy) -> None:
    fmt, data = format_of(name), sample(name)
    path = copy(name)
    number = {1: 10, 2: 1, 3: 2, 4: 2}[fmt]
    value = {1: b"NEW", 2: b"NEW", 3: b"\1\2\3\4\5\6", 4: b"NEW"}[fmt]
    wanted = f.edit(fmt, 4, data, number, value)
    before, after = b"\x56before\xff\0", b"after\xfb"
    path.write_bytes(before + data + after)
    words: list[Word] = ["set", "-x", "-o", len(before), "-l", len(data), f"#{number}", value.hex()]
    both(path, before + wanted + after, *words)
    path.write_bytes(before + data)
    both(path, before + wanted, "set", "-x", "-o", hex(len(before)), f"#{number}", value.hex())
    path.write_bytes(before + data + after)
    answer = run("set", "-n", "-j", path, *words[1:]).json
    assert answer["offset"] == len(before)
    assert answer["changes"][0]["place"] == len(before) + next(k for k in range(len(data)) if data[k] != wanted[k])


CHANGES_OF_ONIE: list[list[Word]] = [["set", "serial", "NEW"], ["add", "extension", "00010203"], ["remove", "country"], ["vendor", "serial=NEW"]]


@pytest.mark.parametrize("change", CHANGES_OF_ONIE, ids=lambda change: str(change[0]))
def test_what_stands_after_the_image_is_not_lost(change: list[Word], copy: Copy) -> None:
    path = copy("onie.bin")
    image = sample("onie.bin")
    other = b"\xff\0\xff" + b"other" + b"\xff\0"
    for before in (b"", b"\x56before"):
        path.write_bytes(before + image + other)
        line: list[Word] = [change[0], path, *change[1:], "-o", len(before)]
        for more in ([], ["-n"], ["-i"]):
            result = run(*line, *more)
            assert result.status == REFUSED and "--length 515" in result.said, result
            assert f"from byte {len(before) + 515} to byte {len(before) + 519}" in result.said
        error = run(*line, "-j").error
        assert (error["number"], error["place"]) == (None, len(before) + 515)
        assert path.read_bytes() == before + image + other
        assert run(*line, "-l", 515).status == DONE
        assert path.read_bytes()[len(before) + 515 :] == other[3:]
        path.write_bytes(before + image + other)
        assert run(*line, "-s", len(image + other)).status == DONE
        assert path.read_bytes()[len(before) + 512 :] == b"\xff" * len(other)
    path.write_bytes(image + b"\0\xff" * 9)
    assert run(change[0], path, *change[1:]).status == DONE
    assert path.read_bytes()[512:] == b"\xff" * 18


@pytest.mark.parametrize("name", NAMES)
def test_size(name: str, copy: Copy) -> None:
    fmt, data = format_of(name), sample(name)
    path = copy(name)
    number = {1: 10, 2: 0, 3: 2, 4: 2}[fmt]
    value = model(name).entries[number].value
    length = f.read(fmt, 4, f.edit(fmt, 4, data, number, value)).length
    for size in (length, length + 1, len(data) + 100):
        path.write_bytes(data)
        wanted = f.edit_into(fmt, 4, data, number, value, size)
        if wanted != data:
            both(path, wanted, "set", "-x", "-s", size, f"#{number}", value.hex())
        path.write_bytes(b"front" + data)
        both(path, b"front" + wanted, "set", "-x", "-o", "5", "-s", size, f"#{number}", value.hex()) if wanted != data else None
    path.write_bytes(data)
    refused(path, 12, None, "set", "-x", "-s", length - 1, f"#{number}", value.hex())
    for more in (["-i"], ["-l", str(length)]):
        assert run("set", "-x", "-s", "300", *more, path, f"#{number}", value.hex()).status == USAGE
    assert path.read_bytes() == data


def test_size_makes_room(copy: Copy) -> None:
    path = copy("sku.vpd")
    said = refused(path, 12, None, "set", "SKU", "longer than it was")
    length = len(f.edit_into(f.VPD, 4, sample("sku.vpd"), 0, b"longer than it was", 25))
    assert length == 25
    assert "needs 25 bytes" in said.said
    assert "the room has 9" in said.said
    assert "-s 25" in said.said
    wanted = f.edit_into(f.VPD, 4, sample("sku.vpd"), 0, b"longer than it was", 25)
    both(path, wanted, "set", "-s", "25", "SKU", "longer than it was")


def test_refused_12_of_a_tiny_image(copy: Copy) -> None:
    path = copy("tiny.bin")
    path.write_bytes(sample("tiny.bin") + b"\xff" * 300)
    refused(path, 12, None, "set", "-x", "pool", "41" * 254 + "c1")


def test_changes_of_a_blank_chip(tmp_path: Path) -> None:
    path = tmp_path / "blank"
    path.write_bytes(b"\xff" * 64)
    for words in (["set", "#0", "X"], ["add", "serial", "X"], ["remove", "#0"]):
        assert run(words[0], path, *words[1:]).status == BLANK
    assert path.read_bytes() == b"\xff" * 64
    wanted = f.write(f.VPD, 4, [f.Field(1, b"X", b"k")], 64)
    both(path, wanted, "add", "-f", "vpd", "k", "X")


def test_an_image_in_the_middle_of_a_megabyte(copy: Copy) -> None:
    path = copy("onie.bin")
    front, back = bytes(range(256)) * 200, bytes(reversed(range(256))) * 4000
    path.write_bytes(front + sample("onie.bin") + back)
    wanted = front + f.edit(f.ONIE, 4, sample("onie.bin"), 2, b"NEW") + back
    both(path, wanted, "set", "-o", len(front), "-l", "512", "serial", "NEW")
    grown = front + f.edit_into(f.ONIE, 4, sample("onie.bin") + back[:100], 2, b"NEW", 612) + back[100:]
    path.write_bytes(front + sample("onie.bin") + back)
    both(path, grown, "set", "-o", len(front), "-l", "612", "serial", "NEW")


def test_sizes_that_no_image_has(copy: Copy) -> None:
    path = copy("onie.bin")
    refused(path, 2, None, "set", "-s", "65537", "serial", "X")
    refused(path, 12, None, "set", "-s", "0", "serial", "X")
    assert run("set", "-s", "65536", path, "serial", "X").status == DONE
    assert path.read_bytes() == f.edit_into(f.ONIE, 4, sample("onie.bin"), 2, b"X", 65536)


def test_filters_say_it_on_standard_error() -> None:
    result = run("set", "-", "serial", "NEW", stdin=sample("onie.bin"), raw=True)
    assert result.out == f.edit(f.ONIE, 4, sample("onie.bin"), 2, b"NEW")
    assert "Serial Number" in result.said
    assert run("set", "-j", "-", "serial", "NEW", stdin=sample("onie.bin")).status == USAGE
    dry = run("set", "-j", "-n", "-", "serial", "NEW", stdin=sample("onie.bin"))
    assert dry.status == DONE
    assert applied(sample("onie.bin"), dry.json["changes"]) == result.out


def test_a_chain_of_filters() -> None:
    first = run("set", "-", "serial", "NEW", stdin=sample("onie.bin"), raw=True).out
    second = run("remove", "-", "country", stdin=first, raw=True).out
    third = run("add", "-", "country", "DE", stdin=second, raw=True).out
    wanted = f.edit(f.ONIE, 4, sample("onie.bin"), 2, b"NEW")
    wanted = f.remove(f.ONIE, 4, wanted, 10, 512)
    assert third == f.add(f.ONIE, 4, wanted, f.Field(0x2C, b"DE"), 512)


@pytest.mark.parametrize("edition", [1, 2, 3])
def test_an_older_edition_keeps_what_it_does_not_name(edition: int, copy: Copy) -> None:
    path = copy("fboss.bin")
    both(path, f.edit(f.FBOSS, edition, sample("fboss.bin"), 10, b"S2"), "set", "-e", edition, "serial", "S2")
    path.write_bytes(sample("fboss.bin"))
    if edition == 1:
        place = model("fboss.bin").entries[16].place
        said = refused(path, 14, place, "set", "-e", "1", "#16", "021a2b3c4d5e/1")
        assert "edition 1 does not name code 17" in said.said
        assert "edition 2 does" in said.said
        assert "-e 2" in said.said


def test_long_vpd_frames_are_kept(copy: Copy) -> None:
    path = copy("frames.vpd")
    data = sample("frames.vpd")
    both(path, f.edit(f.VPD, 4, data, 0, b"B"), "set", "SKU", "B")
    path.write_bytes(data)
    both(path, f.edit(f.VPD, 4, data, 1, b"hello"), "set", "note", "hello")
    path.write_bytes(data)
    both(path, f.edit_into(f.VPD, 4, data, 1, b"x" * 300, 700), "set", "-s", "700", "note", "x" * 300)


def test_json_answers_are_one_object() -> None:
    text = run("list", "-j", SAMPLES / "onie.bin").text
    assert json.loads(text)["format"] == "onie"
    assert text.endswith("}\n") and text.startswith("{\n  \"file\"")


def test_changes_of_a_missing_file_make_none(tmp_path: Path) -> None:
    for words in (["set", "#0", "X"], ["add", "serial", "X"], ["remove", "#0"]):
        assert run(words[0], tmp_path / "none", *words[1:]).status == FAILED
    assert not os.listdir(tmp_path)
