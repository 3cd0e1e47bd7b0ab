"""Random images and random changes of them, compared with the models byte for byte."""

from __future__ import annotations

import random
from typing import Callable

import pytest

import formats as f
from running import DONE, REFUSED, Word, run


def text(numbers: random.Random, most: int) -> bytes:
    """Printable bytes."""
    return bytes(numbers.randrange(0x20, 0x7F) for _ in range(numbers.randrange(most)))


def any_bytes(numbers: random.Random, most: int) -> bytes:
    """Any bytes."""
    return numbers.randbytes(numbers.randrange(most))


def value_of(numbers: random.Random, fmt: int, code: int) -> bytes:
    """A value for a code; most keep its rule, some do not."""
    if numbers.randrange(12) == 0:
        return any_bytes(numbers, 20)
    known = f.NAMED[fmt].get(code)
    reading = "bytes" if known is None else known.reading
    if reading == "date":
        return b"%04d%02d%02d" % (numbers.randrange(10000), numbers.randrange(1, 13), numbers.randrange(1, 32))
    if reading == "datetime":
        day = (numbers.randrange(1, 13), numbers.randrange(1, 32), numbers.randrange(10000))
        return b"%02d/%02d/%04d " % day + b"%02d:%02d:%02d" % (numbers.randrange(25), numbers.randrange(61), 0)
    if reading == "identity":
        start = bytes([numbers.randrange(6), numbers.randrange(6), numbers.choice([0, 99, 100, 128, 153, 154]), numbers.randrange(101)])
        return start + numbers.randbytes(2) + (b"" if code < 0x80 else numbers.choice([b"\0\0", b"\x0f\x27", b"\x10\x27"]))
    if reading == "text":
        fixed = {(1, 3): 8, (1, 4): 12, (1, 5): 12}.get((fmt, code))
        if (fmt, code) == (f.ONIE, 0x2C):
            return bytes(numbers.choice(b"ABYZ") for _ in range(2))
        return text(numbers, 40) if fixed is None else bytes(numbers.randrange(0x20, 0x7F) for _ in range(fixed))
    widths = {(1, 8): 1, (1, 9): 1, (1, 10): 1, (3, 0x10): 1, (3, 0x11): 1, (4, 0x2A): 2, (3, 0x60): 6, (4, 0x24): 6, (2, 0xFE): 4}
    if (fmt, code) in widths:
        return numbers.randbytes(widths[fmt, code])
    if reading == "address":
        return numbers.randbytes(8)
    return any_bytes(numbers, 30) + (b"abcd" if fmt == f.ONIE else b"")


def image_of(numbers: random.Random, fmt: int) -> bytes:
    """A random image that the newest edition accepts."""
    while True:
        codes = list(f.NAMED[fmt])
        chosen = numbers.sample(codes, numbers.randrange(len(codes) + 1))
        if fmt == f.FBOSS:
            chosen = list(dict.fromkeys(chosen + list(f.FBOSS_REQUIRED) + [numbers.randrange(21, 250)]))
        if fmt == f.ONIE:
            chosen += [0xFD] * numbers.randrange(3) + [numbers.randrange(0x30, 0xFD)]
        if fmt == f.TINY:
            chosen = [code for code in chosen if code != 1] + [0x25] + ([1] if numbers.randrange(2) else [])
        fields = [f.Field(code, value_of(numbers, fmt, code)) for code in chosen if (fmt, code) != (f.VPD, 1)]
        if fmt == f.TINY:
            fields = [field if field.code != 0x25 else f.Field(0x25, numbers.randbytes(2)) for field in fields]
        if fmt == f.VPD:
            fields = [f.Field(field.code, field.value, any_bytes(numbers, 5)) for field in fields]
            keys = {any_bytes(numbers, 9) + b"k" for _ in range(numbers.randrange(5))}
            fields += [f.Field(1, any_bytes(numbers, 200), key) for key in sorted(keys)]
            numbers.shuffle(fields)
        try:
            image = f.ended(fmt, [f.frame(fmt, field) for field in fields], 3000)
            length = f.read(fmt, 4, image).length
        except f.Refused:
            continue
        return image[:length] + numbers.choice([b"", b"\xff" * 5, b"\xff" * 60, b"junk"])


def asked_of(numbers: random.Random, fmt: int, data: bytes, edition: int, room: int) -> tuple[list[Word], Callable[[], bytes]]:
    """A random change: the words of the command, and what the model makes."""
    entries = f.read(fmt, 4, data).entries
    kind = numbers.randrange(3)
    if kind == 0 or (kind == 2 and not entries):
        code = numbers.choice([*f.NAMED[fmt], numbers.randrange(21, 254)])
        value = value_of(numbers, fmt, code)
        if fmt == f.VPD:
            key = numbers.choice([b"", b"key", b"a_B9", b"lab.rack", b"\xff"] + [e.key for e in entries if b"\0" not in e.key])
            words: list[Word] = ["add", "-x", "-c", code, "--", key, value.hex()]
            return words, lambda: f.add(fmt, edition, data, f.Field(code, value, key), room)
        return ["add", "-x", "--", f"0x{code:x}", value.hex()], lambda: f.add(fmt, edition, data, f.Field(code, value), room)
    number = numbers.randrange(len(entries) + 1)
    if kind == 1:
        code = entries[number].code if number < len(entries) else 1
        value = value_of(numbers, fmt, code)
        return ["set", "-x", "--", f"#{number}", value.hex()], lambda: f.edit_into(fmt, edition, data, number, value, room)
    return ["remove", "--", f"#{number}"], lambda: f.remove(fmt, edition, data, number, room)


def random_changes(seed: str, tries: int) -> None:
    """Random changes through the command and through the models."""
    numbers = random.Random(seed)
    taken = 0
    for k in range(tries):
        fmt = numbers.randrange(1, 5)
        data = image_of(numbers, fmt)
        edition = numbers.choice([4, 4, 4, 3, 2, 1])
        size = numbers.choice([None, None, len(data) + 40, len(data) + 400])
        if size is None and data.endswith(b"junk"):
            size = len(data)  # else the command keeps what stands after the image
        words, wanted = asked_of(numbers, fmt, data, edition, len(data) if size is None else size)
        at = words.index("--")
        line: list[Word] = [*words[:at], "-f", fmt, "-e", edition]
        line += [] if size is None else ["-s", size]
        line += ["--", "-", *words[at + 1 :]]
        told = f"try {k}: {line} of {data.hex()}"
        result = run(*line, stdin=data, raw=True)
        try:
            new = wanted()
        except f.Refused as refused:
            assert (result.status, result.out) == (REFUSED, b""), told
            error = run(*line[:1], "-n", "-j", *line[1:], stdin=data).error
            assert error["number"] == refused.number, f"{told}: {error}, {refused}"
        else:
            assert result.status == DONE, f"{told}: {result}"
            assert result.out == new, told
            taken += 1
    assert taken > tries // 4


def test_random_changes() -> None:
    random_changes("quick", 300)


@pytest.mark.long
@pytest.mark.parametrize("seed", range(8))
def test_random_changes_long(seed: int) -> None:
    random_changes(f"long {seed}", 1500)
