"""Values of every reading, as people type them, against the bytes that the models store."""

from __future__ import annotations

from pathlib import Path
from typing import Callable, Optional

import pytest

import formats as f
import shown
from running import DONE, REFUSED, USAGE, Word, format_of, model, run, sample
from test_changes import both, refused

Copy = Callable[[str], Path]


def entry_of(name: str, word: str) -> f.Entry:
    """The one entry of a sample that a name fits."""
    image = model(name)
    found = [entry for entry in image.entries if word in shown.names_of(image, entry)]
    assert len(found) == 1
    return found[0]


def typed(name: str, word: str, value: Word, stored: Optional[bytes], hexadecimal: bool = False) -> None:
    """A typed value makes the stored bytes, or is refused 7 where None."""
    fmt, data, entry = format_of(name), sample(name), entry_of(name, word)
    room = len(data) + 600
    data = data + b"\xff" * 600
    more: list[Word] = ["-x"] if hexadecimal else []
    result = run("set", *more, "--", "-", word, value, stdin=data, raw=True)
    if stored is None:
        assert result.status == REFUSED, (word, value, result)
        assert result.out == b""
        error = run("set", *more, "-n", "-j", "--", "-", word, value, stdin=data).error
        assert error["number"] == 7, (word, value, error)
        assert (error["entry"], error["place"]) == (entry.number, entry.place), error
        return
    assert result.status == DONE, (word, value, result)
    wanted = f.edit_into(fmt, 4, data, entry.number, stored, room)
    assert result.out == wanted, (word, value)


@pytest.mark.parametrize(
    "name, word, value, stored",
    [
        # FBOSS text
        ("fboss.bin", "product", "X", b"X"),
        ("fboss.bin", "product", "", b""),
        ("fboss.bin", "product", "a b\\c\"d'~", b"a b\\c\"d'~"),
        ("fboss.bin", "product", "x" * 255, b"x" * 255),
        ("fboss.bin", "product", "x" * 256, None),
        ("fboss.bin", "product", "a\tb", None),
        ("fboss.bin", "product", b"caf\xc3\xa9", None),
        ("fboss.bin", "product", "-1", b"-1"),
        ("fboss.bin", "assembly-part", "12345678", b"12345678"),
        ("fboss.bin", "assembly-part", "1234567", None),
        ("fboss.bin", "assembly-part", "123456789", None),
        ("fboss.bin", "pcba-part", "123456789012", b"123456789012"),
        ("fboss.bin", "pcba-part", "12345678901", None),
        ("fboss.bin", "pcb-part", "1234567890123", None),
        # FBOSS numbers of one byte
        ("fboss.bin", "state", "0", b"\0"),
        ("fboss.bin", "state", "255", b"\xff"),
        ("fboss.bin", "state", "0xff", b"\xff"),
        ("fboss.bin", "state", "0x0", b"\0"),
        ("fboss.bin", "state", "256", None),
        ("fboss.bin", "state", "-1", None),
        ("fboss.bin", "state", "", None),
        ("fboss.bin", "state", "one", None),
        ("fboss.bin", "state", "1 ", None),
        ("fboss.bin", "state", "18446744073709551616", None),
        ("fboss.bin", "state", "18446744073709551617", None),
        # FBOSS addresses with counts
        ("fboss.bin", "cpu-mac", "02:1a:2b:3c:4d:5e/16", bytes.fromhex("021a2b3c4d5e0010")),
        ("fboss.bin", "cpu-mac", "02-1A-2B-3C-4D-5E/16", bytes.fromhex("021a2b3c4d5e0010")),
        ("fboss.bin", "cpu-mac", "021a2b3c4d5e/65535", bytes.fromhex("021a2b3c4d5effff")),
        ("fboss.bin", "cpu-mac", "021a2b3c4d5e/0", bytes.fromhex("021a2b3c4d5e0000")),
        ("fboss.bin", "cpu-mac", "021a2b3c4d5e/65536", None),
        ("fboss.bin", "cpu-mac", "021a2b3c4d5e/", None),
        ("fboss.bin", "cpu-mac", "021a2b3c4d5e/x", None),
        ("fboss.bin", "cpu-mac", "02:1a:2b:3c:4d/1", None),
        ("fboss.bin", "cpu-mac", "02:1a:2b:3c:4d:5e:6f/1", None),
        ("fboss.bin", "cpu-mac", "02:1a:2b:3c:4d:5g/1", None),
        ("fboss.bin", "cpu-mac", "/1", None),
        ("fboss.bin", "cpu-mac", "", None),
        # FBOSS dates
        ("fboss.bin", "date", "2023-02-28", b"20230228"),
        ("fboss.bin", "date", "20230228", b"20230228"),
        ("fboss.bin", "date", "2024-02-29", b"20240229"),
        ("fboss.bin", "date", "0001-01-01", b"00010101"),
        ("fboss.bin", "date", "9999-12-31", b"99991231"),
        ("fboss.bin", "date", "2000-02-29", b"20000229"),
        ("fboss.bin", "date", "2023-02-29", None),
        ("fboss.bin", "date", "20230231", None),
        ("fboss.bin", "date", "1900-02-29", None),
        ("fboss.bin", "date", "0000-01-01", None),
        ("fboss.bin", "date", "2023-13-01", None),
        ("fboss.bin", "date", "2023-00-01", None),
        ("fboss.bin", "date", "2023-01-00", None),
        ("fboss.bin", "date", "2023-1-1", None),
        ("fboss.bin", "date", "10000-01-01", None),
        ("fboss.bin", "date", "today", None),
        ("fboss.bin", "date", "", None),
        ("fboss.bin", "date", "2023-02-28T00:00:00", None),
        # VPD text is any bytes that a word of a command line can have
        ("sku.vpd", "SKU", "B", b"B"),
        ("sku.vpd", "SKU", "", b""),
        ("sku.vpd", "SKU", b"\x1b[2J\xff\n", b"\x1b[2J\xff\n"),
        ("sku.vpd", "SKU", "y" * 127, b"y" * 127),
        ("sku.vpd", "SKU", "y" * 128, b"y" * 128),
        ("names.vpd", "lab.rack", "R08", b"R08"),
        ("board.vpd", "info", "01020304", b"\1\2\3\4"),
        ("board.vpd", "info", "01:02:03:04", b"\1\2\3\4"),
        ("board.vpd", "info", "010203", None),
        # Tiny
        ("tiny.bin", "mac", "02:1a:2b:3c:4d:5f", bytes.fromhex("021a2b3c4d5f")),
        ("tiny.bin", "mac", "021A2B3C4D5F", bytes.fromhex("021a2b3c4d5f")),
        ("tiny.bin", "mac", "02-1a-2b-3c-4d-5f", bytes.fromhex("021a2b3c4d5f")),
        ("tiny.bin", "mac", "02:1a:2b:3c:4d", None),
        ("tiny.bin", "tests", "none", b"\0"),
        ("tiny.bin", "tests", "assembly", b"\1"),
        ("tiny.bin", "tests", "assembly,configuration,burn-in,system", b"\x0f"),
        ("tiny.bin", "tests", "system,assembly", b"\x09"),
        ("tiny.bin", "tests", "assembly,0x40", b"\x41"),
        ("tiny.bin", "tests", "5", b"\5"),
        ("tiny.bin", "tests", "0xff", b"\xff"),
        ("tiny.bin", "tests", "256", None),
        ("tiny.bin", "tests", "assembly,nothing", None),
        ("tiny.bin", "tests", "", None),
        ("tiny.bin", "identity", "revision=0B.99", bytes([0, 1, 129, 99, 0x41, 0x31])),
        ("tiny.bin", "identity", "revision=99.00 free=0a1b", bytes([0, 1, 99, 0, 0x0A, 0x1B])),
        ("tiny.bin", "identity", "revision=0Z.00", bytes([0, 1, 153, 0, 0x41, 0x31])),
        ("tiny.bin", "identity", "revision=00.07", bytes([0, 1, 0, 7, 0x41, 0x31])),
        ("tiny.bin", "identity", "serial=PN-1002", bytes([1, 1, 128, 5, 0x41, 0x31])),
        ("tiny.bin", "identity", "part=SYS-88 serial=RACK-17", bytes([2, 3, 128, 5, 0x41, 0x31])),
        ("tiny.bin", "identity", "free=ffff", bytes([0, 1, 128, 5, 0xFF, 0xFF])),
        ("tiny.bin", "identity", "revision=0b.05", bytes([0, 1, 129, 5, 0x41, 0x31])),
        ("tiny.bin", "identity", "revision=0[.05", None),
        ("tiny.bin", "identity", "revision=100.00", None),
        ("tiny.bin", "identity", "revision=01.100", None),
        ("tiny.bin", "identity", "revision=1", None),
        ("tiny.bin", "identity", "free=0", None),
        ("tiny.bin", "identity", "colour=red", None),
        ("tiny.bin", "identity", "batch=1", None),
        ("tiny.bin", "identity-batch", "batch=9999", bytes([0, 1, 1, 99, 0x42, 0x32, 0x0F, 0x27])),
        ("tiny.bin", "identity-batch", "batch=0", bytes([0, 1, 1, 99, 0x42, 0x32, 0, 0])),
        ("tiny.bin", "identity-batch", "batch=10000", None),
        ("tiny.bin", "identity-batch", "batch=65536", None),
        ("tiny.bin", "identity-batch", "batch=x", None),
        # ONIE
        ("onie.bin", "serial", "S-1", b"S-1"),
        ("onie.bin", "serial", b"\x1b", None),
        ("onie.bin", "mac", "02:1a:2b:3c:4d:5f", bytes.fromhex("021a2b3c4d5f")),
        ("onie.bin", "mac", "021a2b3c4d5f/2", None),
        ("onie.bin", "date", "2023-02-28T12:34:56", b"02/28/2023 12:34:56"),
        ("onie.bin", "date", "2023-02-28 12:34:56", b"02/28/2023 12:34:56"),
        ("onie.bin", "date", "02/28/2023 12:34:56", b"02/28/2023 12:34:56"),
        ("onie.bin", "date", "0001-01-01T00:00:00", b"01/01/0001 00:00:00"),
        ("onie.bin", "date", "9999-12-31T23:59:59", b"12/31/9999 23:59:59"),
        ("onie.bin", "date", "2023-02-29T12:34:56", None),
        ("onie.bin", "date", "2023-02-28T24:00:00", None),
        ("onie.bin", "date", "2023-02-28T23:60:00", None),
        ("onie.bin", "date", "2023-02-28T23:00:60", None),
        ("onie.bin", "date", "2023-02-28", None),
        ("onie.bin", "date", "28/02/2023 12:34:56", None),
        ("onie.bin", "date", "", None),
        ("onie.bin", "macs", "0", b"\0\0"),
        ("onie.bin", "macs", "65535", b"\xff\xff"),
        ("onie.bin", "macs", "0x102", b"\1\2"),
        ("onie.bin", "macs", "65536", None),
        ("onie.bin", "macs", "0x", None),
        ("onie.bin", "country", "DE", b"DE"),
        ("onie.bin", "country", "de", None),
        ("onie.bin", "country", "DEU", None),
        ("onie.bin", "extension", "0000000141", b"\0\0\0\x01A"),
        ("onie.bin", "extension", "00:00:00:01", b"\0\0\0\x01"),
        ("onie.bin", "extension", "00 00 00 01 fF", b"\0\0\0\x01\xff"),
        ("onie.bin", "extension", "000000", None),
        ("onie.bin", "extension", "00" * 255, b"\0" * 255),
        ("onie.bin", "extension", "00" * 256, None),
    ],
)
def test_typed_values(name: str, word: str, value: Word, stored: Optional[bytes]) -> None:
    typed(name, word, value, stored)


@pytest.mark.parametrize(
    "name, word, value, stored",
    [
        ("onie.bin", "serial", "41 42", b"AB"),
        ("onie.bin", "serial", "41:42", b"AB"),
        ("onie.bin", "serial", "4142", b"AB"),
        ("onie.bin", "serial", "", b""),
        ("onie.bin", "serial", "1b", None),
        ("onie.bin", "macs", "0102", b"\1\2"),
        ("onie.bin", "macs", "010203", None),
        ("fboss.bin", "state", "ff", b"\xff"),
        ("sku.vpd", "SKU", "001bff", b"\0\x1b\xff"),
        ("tiny.bin", "serial", "03", b"\3"),
        ("tiny.bin", "serial", "ff", b"\xff"),
        ("tiny.bin", "pool", "41c2", b"A\xc2"),
        ("tiny.bin", "pool", "", b""),
        ("tiny.bin", "identity", "01 02 99 63 00 ff", bytes([1, 2, 0x99, 99, 0, 255])),
        ("tiny.bin", "identity", "01029a630000", None),
    ],
)
def test_hexadecimal_values(name: str, word: str, value: str, stored: Optional[bytes]) -> None:
    typed(name, word, value, stored, True)


@pytest.mark.parametrize("value", ["4", "414", "4g", "0x41", "41::42", "41,42", "zz", "41:4"])
def test_what_is_no_hexadecimal(value: str) -> None:
    result = run("set", "-x", "-", "serial", value, stdin=sample("onie.bin"))
    assert result.status in (REFUSED, USAGE)
    assert result.out == b""
    result = run("set", "-", "extension", value, stdin=sample("onie.bin"))
    assert result.status in (REFUSED, USAGE)


def test_a_pool_takes_hexadecimal_only(copy: Copy) -> None:
    result = run("set", copy("tiny.bin"), "pool", "A B")
    assert result.status in (REFUSED, USAGE)
    assert copy("tiny.bin").read_bytes() == sample("tiny.bin")


@pytest.mark.parametrize("name", ["fboss.bin", "board.vpd", "names.vpd", "frames.vpd", "tiny.bin", "onie.bin", "amplifier.bin"])
def test_what_get_prints_set_takes(name: str) -> None:
    """What get gives of an entry is a value that set takes, and it makes the same entry."""
    image, data = model(name), sample(name)
    for entry in image.entries:
        if entry.kind == 0 or shown.type_of(image, entry) == "pool":
            continue
        if image.fmt == f.VPD and shown.type_of(image, entry) == "bytes" and entry.code == 1:
            continue
        value = run("get", "-", f"#{entry.number}", stdin=data).text[:-1]
        result = run("set", "--", "-", f"#{entry.number}", value, stdin=data, raw=True)
        assert result.status == DONE, (entry, value, result)
        assert result.out == f.edit(image.fmt, 4, data, entry.number, entry.value)


# ---- Tiny strings by text ------------------------------------------------------------------


def tiny(fields: list[f.Field], room: int = 120) -> bytes:
    """A Tiny image of these fields."""
    return f.write(f.TINY, 4, fields, room)


def pool(*texts: str, rest: bytes = b"") -> f.Field:
    """A pool of these strings."""
    return f.Field(0x01, b"".join(f.string_stored(text.encode()) for text in texts) + rest)


def serial(number: int) -> f.Field:
    """A serial number that counts a string."""
    return f.Field(0x10, bytes([number]))


def identity(serial_number: int, part_number: int, code: int = 0x61) -> f.Field:
    """An identity that counts two strings."""
    return f.Field(code, bytes([serial_number, part_number, 1, 2, 3, 4]))


def test_string_found(tmp_path: Path) -> None:
    path = tmp_path / "tiny"
    path.write_bytes(tiny([serial(0), pool("A", "BB")]))
    both(path, tiny([serial(1), pool("A", "BB")]), "set", "serial", "BB")


def test_string_found_first(tmp_path: Path) -> None:
    path = tmp_path / "tiny"
    path.write_bytes(tiny([serial(0), pool("A", "BB", "BB")]))
    both(path, tiny([serial(1), pool("A", "BB", "BB")]), "set", "serial", "BB")


@pytest.mark.parametrize("text", ["C", "LONGER", "X"])
def test_string_rewritten(text: str, tmp_path: Path) -> None:
    path = tmp_path / "tiny"
    path.write_bytes(tiny([serial(1), identity(0, 2), pool("A", "BB", "CCC")]))
    wanted = tiny([serial(1), identity(0, 2), pool("A", text, "CCC")])
    both(path, wanted, "set", "serial", text)


def test_string_rewritten_before_a_rest(tmp_path: Path) -> None:
    path = tmp_path / "tiny"
    path.write_bytes(tiny([serial(0), pool("A", "BB", rest=b"zz")]))
    both(path, tiny([serial(0), pool("NEW", "BB", rest=b"zz")]), "set", "serial", "NEW")


def test_string_appended_where_another_counts_it(tmp_path: Path) -> None:
    path = tmp_path / "tiny"
    path.write_bytes(tiny([serial(1), identity(0, 1), pool("A", "BB")]))
    wanted = tiny([serial(2), identity(0, 1), pool("A", "BB", "NEW")])
    both(path, wanted, "set", "serial", "NEW")


def test_string_appended_where_the_old_one_is_not_there(tmp_path: Path) -> None:
    path = tmp_path / "tiny"
    path.write_bytes(tiny([serial(9), pool("A", "BB")]))
    both(path, tiny([serial(2), pool("A", "BB", "NEW")]), "set", "serial", "NEW")


def test_string_where_the_pool_ends_in_bytes_of_no_string(tmp_path: Path) -> None:
    path = tmp_path / "tiny"
    path.write_bytes(tiny([serial(1), identity(0, 1), pool("A", "BB", rest=b"zz")]))
    result = run("set", path, "serial", "NEW")
    assert result.status == REFUSED
    assert "the pool ends in 2 bytes of no string" in result.said
    assert path.read_bytes() == tiny([serial(1), identity(0, 1), pool("A", "BB", rest=b"zz")])


def test_string_without_a_pool(tmp_path: Path) -> None:
    path = tmp_path / "tiny"
    path.write_bytes(tiny([serial(3)]))
    both(path, tiny([serial(0), pool("NEW")]), "set", "serial", "NEW")


def test_string_added_without_a_pool(tmp_path: Path) -> None:
    path = tmp_path / "tiny"
    path.write_bytes(tiny([f.Field(0x11, b"\1")]))
    both(path, tiny([f.Field(0x11, b"\1"), serial(0), pool("NEW")]), "add", "serial", "NEW")


def test_string_added_to_a_pool(tmp_path: Path) -> None:
    path = tmp_path / "tiny"
    path.write_bytes(tiny([f.Field(0x11, b"\1"), pool("A")]))
    both(path, tiny([f.Field(0x11, b"\1"), serial(1), pool("A", "NEW")]), "add", "serial", "NEW")
    path.write_bytes(tiny([f.Field(0x11, b"\1"), pool("A")]))
    both(path, tiny([f.Field(0x11, b"\1"), serial(0), pool("A")]), "add", "serial", "A")


def test_identity_strings(tmp_path: Path) -> None:
    path = tmp_path / "tiny"
    path.write_bytes(tiny([identity(0, 1), pool("A", "BB")]))
    both(path, tiny([identity(0, 1), pool("NEW", "BB")]), "set", "identity", "serial=NEW")
    path.write_bytes(tiny([identity(0, 1), pool("A", "BB")]))
    both(path, tiny([identity(0, 1), pool("N1", "N2")]), "set", "identity", "serial=N1 part=N2")
    path.write_bytes(tiny([identity(0, 0), pool("A", "BB")]))
    result = run("set", path, "identity", "serial=NEW")
    assert result.status == DONE
    image = f.read(f.TINY, 4, path.read_bytes())
    value = image.entries[0].value
    assert (shown.string_at(image, value[0]), shown.string_at(image, value[1])) == (b"NEW", b"A")


def test_identity_added(tmp_path: Path) -> None:
    path = tmp_path / "tiny"
    path.write_bytes(tiny([pool("A")]))
    wanted = tiny([f.Field(0x61, bytes([0, 1, 128, 12, 0, 0])), pool("A", "P-2")])
    both(path, wanted, "add", "identity", "serial=A part=P-2 revision=0A.12")
    path.write_bytes(tiny([pool("A")]))
    wanted = tiny([f.Field(0x62, bytes([0, 0, 7, 8, 0xAB, 0xCD])), pool("A")])
    both(path, wanted, "add", "system-identity", "part=A serial=A revision=07.08 free=abcd")
    path.write_bytes(tiny([pool("A")]))
    wanted = tiny([f.Field(0x80, bytes([0, 0, 7, 8, 0, 0, 0xD2, 0x04])), pool("A")])
    both(path, wanted, "add", "identity-batch", "part=A serial=A revision=07.08 batch=1234")
    for value in ("serial=A part=A", "serial=A revision=01.01", "part=A revision=01.01", ""):
        path.write_bytes(tiny([pool("A")]))
        result = run("add", path, "identity", value)
        assert result.status == REFUSED, value
        assert path.read_bytes() == tiny([pool("A")])


def test_a_pool_is_added_by_bytes(tmp_path: Path) -> None:
    path = tmp_path / "tiny"
    path.write_bytes(tiny([serial(0)]))
    both(path, tiny([serial(0), pool("AB")]), "add", "-x", "pool", "41c2")


def test_an_empty_text_is_no_string(tmp_path: Path) -> None:
    path = tmp_path / "tiny"
    path.write_bytes(tiny([serial(0), pool("A")]))
    refused(path, 7, None, "set", "serial", "")
    refused(path, 7, None, "set", "serial", b"caf\xc3\xa9")


def test_a_string_that_makes_the_image_too_long(tmp_path: Path) -> None:
    path = tmp_path / "tiny"
    path.write_bytes(tiny([serial(0), pool("A")], 11))
    refused(path, 12, None, "set", "serial", "LONGER")
    both(path, tiny([serial(0), pool("LONGER")], 16), "set", "-s", "16", "serial", "LONGER")
    path.write_bytes(tiny([serial(0), identity(0, 0), pool("A")], 300))
    refused(path, 12, None, "set", "serial", "x" * 250)
