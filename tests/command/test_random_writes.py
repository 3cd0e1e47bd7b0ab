"""list --json | write of random images, and JSON texts that are damaged at random."""

from __future__ import annotations

import json
import random
from typing import Any

import pytest

import formats as f
from running import DONE, REFUSED, Result, format_of, run, sample
from test_random_changes import image_of
from test_write import WRITABLE


def written(data: bytes, fmt: int) -> Result:
    """write of what list gives of an image, to standard output."""
    text = run("list", "-j", "-f", fmt, "-", stdin=data).out
    return run("write", "-", stdin=text, raw=True)


def round_trip(data: bytes, fmt: int) -> bool:
    """list | write makes what the model writes of the same entries, or is refused for the same."""
    fields = [f.Field(entry.code, entry.value, entry.key) for entry in f.read(fmt, 4, data).entries]
    result = written(data, fmt)
    try:
        wanted = f.write(fmt, 4, fields, 65536)
    except f.Refused as refused:
        assert (result.status, result.out) == (REFUSED, b""), data.hex()
        assert f"(refused {refused.number})" in result.said, f"{data.hex()}: {result.said}"
        return False
    length = f.read(fmt, 4, wanted).length
    assert (result.status, result.out) == (DONE, wanted[:length]), f"{data.hex()}: {result}"
    return True


def round_trips(seed: str, tries: int) -> None:
    """Round trips of random images."""
    numbers = random.Random(seed)
    taken = 0
    for _ in range(tries):
        fmt = numbers.randrange(1, 5)
        taken += round_trip(image_of(numbers, fmt), fmt)
    assert 0 < taken < tries


def test_round_trips() -> None:
    round_trips("quick", 100)


@pytest.mark.long
def test_round_trips_long() -> None:
    round_trips("long", 4000)


@pytest.mark.parametrize("byte", [0x00, 0x0F, 0x40, 0xF8, 0xFF])
def test_reserved_flags_are_kept(byte: int) -> None:
    assert round_trip(f.write(f.TINY, 4, [f.Field(0x11, bytes([byte]))], 9), f.TINY)


@pytest.mark.parametrize("pool", [b"", b"abc", b"\x80", b"A\x1b\xc3", b"A\xc2rest", b"\xff\xff\xff", b"\\\xdc"])
def test_pools_are_kept(pool: bytes) -> None:
    for number in (0, 1, 9):
        fields = [f.Field(0x10, bytes([number])), f.Field(0x61, bytes([number, 0, 1, 2, 0, 255])), f.Field(0x01, pool)]
        assert round_trip(f.write(f.TINY, 4, fields, 60), f.TINY)


def test_vpd_values_are_kept() -> None:
    for value in (b"", b"\0", b"\\", b'"', b"a\nb", b"\xff", b"caf\xc3\xa9", bytes(range(256))):
        assert round_trip(f.write(f.VPD, 4, [f.Field(1, value, b"k")], 400), f.VPD)


def damaged(numbers: random.Random, value: Any) -> Any:
    """JSON with one part replaced, taken out or doubled."""
    others: list[Any] = [None, True, 0, -1, 256, 65536, 2**31, 2**63 - 1, 1.5, "", "x", "00", "\u00e9", "\x1b", [], {}, ["x"], {"x": 1}]
    if isinstance(value, dict) and value and numbers.randrange(8):
        key = numbers.choice(list(value))
        out = dict(value)
        if numbers.randrange(6) == 0:
            del out[key]
        else:
            out[key] = damaged(numbers, value[key])
        return out
    if isinstance(value, list) and value and numbers.randrange(8):
        at = numbers.randrange(len(value))
        kind = numbers.randrange(6)
        if kind == 0:
            return value[:at] + value[at + 1 :]
        if kind == 1:
            return value[:at] + [value[at]] + value[at:]
        return value[:at] + [damaged(numbers, value[at])] + value[at + 1 :]
    return numbers.choice(others)


def damaged_texts(seed: str, tries: int) -> None:
    """Damaged JSON gets an answer; what is made of it is an image."""
    numbers = random.Random(seed)
    for _ in range(tries):
        name = numbers.choice(WRITABLE)
        answer = json.loads(run("list", "-j", "-", stdin=sample(name)).out)
        text = json.dumps(damaged(numbers, answer)).encode()
        if numbers.randrange(3) == 0:
            at = numbers.randrange(len(text))
            text = text[:at] + bytes([numbers.randrange(256)]) + text[at + 1 :]
        result = run("write", "-", stdin=text, raw=True)
        assert result.status in (DONE, REFUSED), (text, result)
        if result.status == DONE:
            fmt = f.detect(4, result.out)
            assert fmt is not None or format_of(name) == f.VPD
            f.read(format_of(name) if fmt is None else fmt, 4, result.out)
        else:
            assert result.out == b""


def test_damaged_texts() -> None:
    damaged_texts("quick", 100)


@pytest.mark.long
def test_damaged_texts_long() -> None:
    damaged_texts("long", 5000)
