"""vendor: an amplifier's payload, shown and changed."""

from __future__ import annotations

from pathlib import Path
from typing import Callable, Optional

import pytest

import formats as f
from running import DONE, REFUSED, SAMPLES, USAGE, format_of, model, run, sample
from test_changes import both, refused

Copy = Callable[[str], Path]


def cut(payload: bytes, pieces: list[int]) -> list[bytes]:
    """A payload as the values of FDh entries."""
    out, at = [], 0
    for length in pieces:
        out.append(f.PREFIX + payload[at : at + length])
        at += length
    assert at == len(payload)
    return out


def changed(data: bytes, serial: Optional[bytes] = None, **offsets: int) -> bytes:
    """The image with another serial or other offsets, as the specification cuts the payload."""
    room = len(data)
    entries = f.read(f.ONIE, 4, data).entries
    try:
        old: Optional[f.Vendor] = f.vendor_read(f.ONIE, 4, data)
    except f.Refused as refusal:
        if refusal.number != 17:
            raise
        old = None
    now = [0] * 8 if old is None else list(old.offsets)
    for name, value in offsets.items():
        now[f.OFFSET_NAMES.index(name.replace("_", "-"))] = value
    payload = f.vendor_payload(serial if serial is not None else b"" if old is None else old.serial, now)
    if old is not None and sum(old.pieces) == len(payload):
        pieces = old.pieces
    else:
        pieces = [250, len(payload) - 250] if len(payload) > 250 else [len(payload)]
    values = cut(payload, pieces)
    had = [] if old is None else old.entries
    frames = []
    for entry in entries:
        if entry.number not in had:
            frames.append(data[entry.place : entry.place + entry.frame_length])
        elif had.index(entry.number) < len(values):
            frames.append(f.frame(f.ONIE, f.Field(0xFD, values[had.index(entry.number)])))
    frames += [f.frame(f.ONIE, f.Field(0xFD, value)) for value in values[len(had) :]]
    return f.ended(f.ONIE, frames, room)


@pytest.mark.parametrize("name", ["onie.bin", "amplifier.bin"])
def test_shown(name: str) -> None:
    payload = f.vendor_read(f.ONIE, 4, sample(name))
    text = run("vendor", SAMPLES / name).text
    assert "Serial" in text and "DQ000MPW" in text
    lines = text.splitlines()
    for k, offset in enumerate(payload.offsets):
        word = f"{offset / 10:.1f} dB"
        name_words = f.OFFSET_NAMES[k].split("-")
        fits = [line for line in lines if all(w in line.lower().replace("-", " ").split() for w in name_words)]
        assert len(fits) == 1, text
        assert word in fits[0]
    answer = run("vendor", "-j", SAMPLES / name).json
    assert list(answer) == ["file", "format", "edition", "offset", "length", "room", "vendor"]
    assert answer["vendor"] == {
        "serial": "DQ000MPW",
        "serial_bytes": b"DQ000MPW".hex(),
        "offsets": dict(zip(f.OFFSET_NAMES, payload.offsets)),
        "payload_length": 24,
    }
    assert list(answer["vendor"]["offsets"]) == f.OFFSET_NAMES


def test_extremes_and_hostile_serial() -> None:
    payload = f.vendor_payload(b"\x1b\xff\n", [-128, 127, -1, 1, 9, 10, -10, 0])
    data = f.write(f.ONIE, 4, [f.Field(0xFD, f.PREFIX + payload)], 80)
    text = run("vendor", "-", stdin=data).text
    for word in ("-12.8 dB", "12.7 dB", "-0.1 dB", "0.1 dB", "0.9 dB", "1.0 dB", "-1.0 dB", "0.0 dB", "\\x1b\\xff\\x0a"):
        assert word in text
    answer = run("vendor", "-j", "-", stdin=data).json["vendor"]
    assert (answer["serial"], answer["serial_bytes"]) == (None, "1bff0a")
    assert list(answer["offsets"].values()) == [-128, 127, -1, 1, 9, 10, -10, 0]


@pytest.mark.parametrize("name", ["onie.bin", "amplifier.bin"])
def test_changed(name: str, copy: Copy) -> None:
    path, data = copy(name), sample(name)
    both(path, changed(data, c_band_west_in=-1), "vendor", "c-band-west-in=-0.1")
    path.write_bytes(data)
    both(path, changed(data, b"XXXXXXXX", l_band_east_out=127), "vendor", "serial=XXXXXXXX", "l-band-east-out=12.7")
    path.write_bytes(data)
    both(path, changed(data, b"SHORT"), "vendor", "serial=SHORT")
    path.write_bytes(data)
    both(path, changed(data, b""), "vendor", "serial=")
    path.write_bytes(data)
    both(path, changed(data, b"A LONGER ONE", c_band_east_in=-128), "vendor", "serial=A LONGER ONE", "c-band-east-in=-12.8")
    path.write_bytes(data + b"\xff" * 500)
    for length in (234, 235, 255):
        path.write_bytes(data + b"\xff" * 500)
        wanted = changed(data + b"\xff" * 500, b"s" * length)
        assert f.vendor_read(f.ONIE, 4, wanted).serial == b"s" * length
        both(path, wanted, "vendor", "serial=" + "s" * length)


@pytest.mark.parametrize("k", range(8))
def test_every_offset(k: int) -> None:
    data, name = sample("amplifier.bin"), f.OFFSET_NAMES[k]
    for word, value in (("2.4", 24), ("-12.8", -128), ("12.7", 127), ("0", 0), ("-3", -30), ("5.0", 50), ("-0.5", -5), ("0.5", 5)):
        wanted = changed(data, None, **{name.replace("-", "_"): value})
        assert run("vendor", "-", f"{name}={word}", stdin=data, raw=True).out == wanted, word


@pytest.mark.parametrize("word", ["12.8", "-12.9", "100", "1.23", "x", "", "1.", "--1", "1e1", "0x1", "1 2", "1,5", "nan", "inf", "99999999999999999999"])
def test_offsets_that_are_none(word: str, copy: Copy) -> None:
    path = copy("amplifier.bin")
    result = run("vendor", path, f"c-band-west-in={word}")
    assert result.status in (REFUSED, USAGE)
    assert path.read_bytes() == sample("amplifier.bin")


@pytest.mark.parametrize("word", ["serial", "=1", "colour=red", "c-band-west-in", "C-band=1"])
def test_words_that_are_none(word: str, copy: Copy) -> None:
    path = copy("amplifier.bin")
    result = run("vendor", path, "serial=X", word)
    assert result.status in (REFUSED, USAGE)
    assert path.read_bytes() == sample("amplifier.bin")


def test_a_serial_that_is_too_long(copy: Copy) -> None:
    path = copy("amplifier.bin")
    path.write_bytes(sample("amplifier.bin") + b"\xff" * 500)
    result = run("vendor", "-j", path, "serial=" + "s" * 256)
    assert (result.status, result.error["number"]) == (REFUSED, 18)
    assert path.read_bytes() == sample("amplifier.bin") + b"\xff" * 500


def test_no_payload_yet(copy: Copy) -> None:
    path = copy("onie.bin")
    data = f.remove(f.ONIE, 4, sample("onie.bin"), 12, 512)
    path.write_bytes(data)
    result = run("vendor", "-j", path)
    assert (result.status, result.error["number"]) == (REFUSED, 17)
    wanted = changed(data, b"NEW", c_band_west_out=1)
    assert f.vendor_read(f.ONIE, 4, wanted).offsets == [0, 1, 0, 0, 0, 0, 0, 0]
    both(path, wanted, "vendor", "serial=NEW", "c-band-west-out=0.1")


def test_three_pieces_and_an_empty_one(copy: Copy) -> None:
    payload = f.vendor_payload(b"ABC", [1, 2, 3, 4, 5, 6, 7, 8])
    values = cut(payload, [0, 10, 0, 9])
    fields = [f.Field(0xFD, values[0]), f.Field(0x21, b"P"), f.Field(0xFD, values[1]), f.Field(0xFD, b"\0\0\0\1"), f.Field(0xFD, values[2])]
    data = f.write(f.ONIE, 4, fields + [f.Field(0xFD, values[3]), f.Field(0x2D, b"V")], 200)
    path = copy("onie.bin")
    path.write_bytes(data)
    both(path, changed(data, b"DEF"), "vendor", "serial=DEF")
    path.write_bytes(data)
    wanted = changed(data, b"DEFG")
    assert f.vendor_read(f.ONIE, 4, wanted).pieces == [20]
    both(path, wanted, "vendor", "serial=DEFG")


def broken(kind: int) -> bytes:
    """An ONIE image whose payload is refused with this number."""
    payload = f.vendor_payload(b"S", [0] * 8)
    if kind == 18:
        payload += b"\0"
    elif kind == 19:
        payload = payload[:-1] + bytes([payload[-1] ^ 1])
    elif kind == 20:
        data = b"\x01S\0\x09\x01" + b"\0" * 8
        payload = data + f.crc32(data).to_bytes(4, "big")
    else:
        return f.write(f.ONIE, 4, [f.Field(0xFD, b"\0\0\x7e\xd9x")], 100)
    return f.write(f.ONIE, 4, [f.Field(0xFD, f.PREFIX + payload)], 100)


@pytest.mark.parametrize("number", [17, 18, 19, 20])
def test_refused_payloads(number: int, copy: Copy) -> None:
    data = broken(number)
    with pytest.raises(f.Refused) as refusal:
        f.vendor_read(f.ONIE, 4, data)
    assert refusal.value.number == number
    result = run("vendor", "-j", "-", stdin=data)
    assert (result.status, result.error["number"]) == (REFUSED, number)
    assert f"refused {number}" in run("vendor", "-", stdin=data).said
    if number != 17:
        path = copy("onie.bin")
        path.write_bytes(data)
        refused(path, number, None, "vendor", "serial=X")


@pytest.mark.parametrize("name", ["fboss.bin", "tiny.bin", "board.vpd"])
def test_other_formats(name: str, copy: Copy) -> None:
    result = run("vendor", "-j", SAMPLES / name)
    assert (result.status, result.error["number"]) == (REFUSED, 16)
    refused(copy(name), 16, None, "vendor", "serial=X")
    assert format_of(name) != f.ONIE and model(name).entries


def test_no_room_for_a_longer_payload(copy: Copy) -> None:
    path = copy("amplifier.bin")
    refused(path, 12, None, "vendor", "serial=" + "s" * 200)
    wanted_length = f.read(f.ONIE, 4, changed(sample("amplifier.bin") + b"\xff" * 500, b"s" * 200)).length
    result = run("vendor", "-s", wanted_length, path, "serial=" + "s" * 200)
    assert result.status == DONE
    assert len(path.read_bytes()) == wanted_length
    assert f.vendor_read(f.ONIE, 4, path.read_bytes()).serial == b"s" * 200


def test_a_change_to_the_same_payload(copy: Copy) -> None:
    path = copy("amplifier.bin")
    before = path.stat()
    result = run("vendor", "-j", path, "c-band-west-in=2.4", "serial=DQ000MPW")
    assert (result.status, result.json["changes"]) == (DONE, [])
    assert (path.stat().st_mtime_ns, path.stat().st_ino) == (before.st_mtime_ns, before.st_ino)
