"""Models of the four formats, written from the papers alone.

They read, write, edit, add and remove as the papers say, and refuse with the papers' numbers and
places. What the command prints is compared with what they give.
"""

from __future__ import annotations

import datetime
from dataclasses import dataclass
from typing import Callable, Optional

FBOSS, VPD, TINY, ONIE = 1, 2, 3, 4
FORMAT_WORDS = {FBOSS: "fboss", VPD: "vpd", TINY: "tiny", ONIE: "onie"}
NEWEST = 4
IMAGE_MAX = 65536
ONIE_MAX = 2048


class Refused(Exception):
    """A refusal: the papers' number and place."""

    def __init__(self, number: int, place: int = 0) -> None:
        super().__init__(f"refused {number} at {place}")
        self.number = number
        self.place = place


# ---- Checks --------------------------------------------------------------------------------


def crc16(data: bytes) -> int:
    """FBOSS: polynomial 1021h, start 1D0Fh, high bit first."""
    check = 0x1D0F
    for byte in data:
        check ^= byte << 8
        for _ in range(8):
            check = (check << 1 ^ 0x1021 if check & 0x8000 else check << 1) & 0xFFFF
    return check


def crc8(data: bytes) -> int:
    """Tiny: polynomial 07h, start 0, high bit first."""
    check = 0
    for byte in data:
        check ^= byte
        for _ in range(8):
            check = (check << 1 ^ 0x07 if check & 0x80 else check << 1) & 0xFF
    return check


def crc32(data: bytes) -> int:
    """ONIE: IEEE 802.3, low bit first, start and end all ones."""
    check = 0xFFFFFFFF
    for byte in data:
        check ^= byte
        for _ in range(8):
            check = check >> 1 ^ 0xEDB88320 if check & 1 else check >> 1
    return check ^ 0xFFFFFFFF


# ---- What the editions name ----------------------------------------------------------------


@dataclass(frozen=True)
class Code:
    """A named code: since which edition, the document's name, short names, and its reading."""

    code: int
    since: int
    name: str
    short: tuple[str, ...]
    reading: str


def _codes(rows: list[tuple[int, int, str, str, str]]) -> dict[int, Code]:
    return {row[0]: Code(row[0], row[1], row[2], tuple(row[3].split()), row[4]) for row in rows}


NAMED: dict[int, dict[int, Code]] = {
    FBOSS: _codes(
        [
            (1, 1, "Product Name", "product", "text"),
            (2, 1, "Top Level 20- Product Part Number", "part", "text"),
            (3, 1, "System Assembly Part Number", "assembly-part", "text"),
            (4, 1, "Meta PCBA Part Number", "pcba-part", "text"),
            (5, 1, "Meta PCB Part Number", "pcb-part", "text"),
            (6, 1, "ODM/JDM PCBA Part Number", "odm-part", "text"),
            (7, 1, "ODM/JDM PCBA Serial Number", "odm-serial", "text"),
            (8, 1, "Product Production State", "state", "number"),
            (9, 1, "Product Version", "version", "number"),
            (10, 1, "Product Sub Version", "sub-version", "number"),
            (11, 1, "Product Serial Number", "serial", "text"),
            (12, 1, "System Manufacturer", "manufacturer", "text"),
            (13, 1, "System Manufacturing Date", "date", "date"),
            (14, 1, "PCB Manufacturer", "pcb-manufacturer", "text"),
            (15, 1, "Assembled at", "assembled", "text"),
            (16, 1, "EEPROM location on Fabric", "location", "text"),
            (17, 2, "X86 CPU MAC Addresses", "cpu-mac mac", "address"),
            (18, 2, "BMC MAC Addresses", "bmc-mac mac", "address"),
            (19, 2, "Switch ASIC MAC Addresses", "asic-mac mac", "address"),
            (20, 2, "Meta Reserved MAC Addresses", "meta-mac mac", "address"),
        ]
    ),
    VPD: _codes(
        [
            (0x01, 1, "string", "", "bytes"),
            (0xFE, 2, "info header", "info", "bytes"),
        ]
    ),
    TINY: _codes(
        [
            (0x01, 1, "ASCII encoded strings pool", "pool", "pool"),
            (0x10, 1, "Serial number", "serial", "string"),
            (0x11, 1, "Factory test flags", "tests", "flags"),
            (0x60, 1, "Base MAC address", "mac", "address"),
            (0x61, 1, "Product identity", "identity", "identity"),
            (0x62, 1, "System product identity", "system-identity", "identity"),
            (0x80, 2, "Product identity w/ batch code", "identity-batch", "identity"),
            (0x81, 2, "System product identity w/ batch code", "system-identity-batch", "identity"),
        ]
    ),
    ONIE: _codes(
        [
            (0x21, 3, "Product Name", "product", "text"),
            (0x22, 3, "Part Number", "part", "text"),
            (0x23, 3, "Serial Number", "serial", "text"),
            (0x24, 3, "MAC #1 Base", "mac", "address"),
            (0x25, 3, "Manufacture Date", "date", "datetime"),
            (0x2A, 3, "Num MACs", "macs", "number"),
            (0x2B, 3, "Manufacturer", "manufacturer", "text"),
            (0x2C, 3, "Country Code", "country", "text"),
            (0x2D, 3, "Vendor", "vendor", "text"),
            (0xFD, 3, "Vendor Extension", "extension", "bytes"),
        ]
    ),
}
FBOSS_REQUIRED = (1, 8, 9, 10, 11)
KEY_ALPHABET = set(b"abcdefghijklmnopqrstuvwxyzABCDEFGHIJKLMNOPQRSTUVWXYZ0123456789_")


def named(fmt: int, edition: int, code: int) -> Optional[Code]:
    """What the edition names of a code; None where it has no name."""
    found = NAMED[fmt].get(code)
    return found if found is not None and found.since <= edition else None


# ---- Rules ---------------------------------------------------------------------------------


def is_text(value: bytes) -> bool:
    """FBOSS's rule of text: each byte 20h to 7Eh, at most 255 of them."""
    return len(value) <= 255 and all(0x20 <= byte <= 0x7E for byte in value)


def is_day(text: str) -> bool:
    """Whether eight digits YYYYMMDD are a day of the calendar, years 0001 to 9999."""
    if len(text) != 8 or any(c not in "0123456789" for c in text):
        return False
    try:
        datetime.date(int(text[:4]), int(text[4:6]), int(text[6:]))
    except ValueError:
        return False
    return True


def is_time(value: bytes) -> bool:
    """Whether the bytes are MM/DD/YYYY HH:NN:SS with a day of the calendar."""
    if len(value) != 19 or any(byte > 0x7E for byte in value):
        return False
    text = value.decode("ascii")
    if text[2] + text[5] + text[10] + text[13] + text[16] != "// ::":
        return False
    digits = text[11:13] + text[14:16] + text[17:]
    if any(c not in "0123456789" for c in digits):
        return False
    if not is_day(text[6:10] + text[:2] + text[3:5]):
        return False
    return int(text[11:13]) <= 23 and int(text[14:16]) <= 59 and int(text[17:]) <= 59


def _identity(value: bytes, length: int) -> bool:
    if len(value) != length:
        return False
    if not (value[2] <= 99 or 128 <= value[2] <= 153) or value[3] > 99:
        return False
    return length == 6 or value[6] + 256 * value[7] <= 9999


def _fboss_rule(code: int, value: bytes) -> bool:
    if code in (8, 9, 10):
        return len(value) == 1
    if code >= 17:
        return len(value) == 8
    if code == 13:
        return len(value) == 8 and is_text(value) and is_day(value.decode("ascii"))
    return is_text(value) and len(value) == {3: 8, 4: 12, 5: 12}.get(code, len(value))


def _tiny_rule(code: int, value: bytes) -> bool:
    if code == 0x01:
        return len(value) <= 255
    if code in (0x61, 0x62, 0x80, 0x81):
        return _identity(value, code >> 4)
    return len(value) == code >> 4


def _onie_rule(code: int, value: bytes) -> bool:
    if code == 0x24:
        return len(value) == 6
    if code == 0x25:
        return is_time(value)
    if code == 0x2A:
        return len(value) == 2
    if code == 0x2C:
        return len(value) == 2 and all(0x41 <= byte <= 0x5A for byte in value)
    if code == 0xFD:
        return 4 <= len(value) <= 255
    return is_text(value)


def rule(fmt: int, code: int, key: bytes, value: bytes, writing: bool) -> bool:
    """Whether a named entry keeps the rule of its code; writing is stricter on VPD keys."""
    if fmt == VPD:
        if code == 0xFE:
            return len(value) == 4
        return len(key) >= 1 and (not writing or set(key) <= KEY_ALPHABET)
    rules: dict[int, Callable[[int, bytes], bool]] = {
        FBOSS: _fboss_rule,
        TINY: _tiny_rule,
        ONIE: _onie_rule,
    }
    return rules[fmt](code, value)


# ---- Reading -------------------------------------------------------------------------------


@dataclass(frozen=True)
class Entry:
    """An entry of an image; places count bytes of the image."""

    number: int
    code: int
    place: int
    frame_length: int
    key: bytes
    value_place: int
    value: bytes
    kind: int = 0
    reading: str = "bytes"


@dataclass(frozen=True)
class Image:
    """An accepted image: its entries, and its length with its end."""

    fmt: int
    edition: int
    entries: list[Entry]
    length: int
    frames: list[bytes]


def asked(fmt: int, edition: int, length: int) -> None:
    """The refusals of every call before the image is looked at: 16, 1, 2."""
    if not 1 <= fmt <= 4:
        raise Refused(16)
    if not 1 <= edition <= NEWEST:
        raise Refused(1)
    if fmt == ONIE and edition < 3:
        raise Refused(16)
    if length > IMAGE_MAX:
        raise Refused(2)


def _tlv(image: bytes, start: int, room: int, end: int, end_length: int) -> tuple[list[Entry], int]:
    """The entries of one-byte codes and lengths, and the place of the end's code."""
    entries: list[Entry] = []
    at = start
    while True:
        if at >= room:
            raise Refused(5, at)
        code = image[at]
        if code in (0, 255):
            raise Refused(6, at)
        if at + 1 >= room:
            raise Refused(5, at)
        length = image[at + 1]
        if code == end and length != end_length:
            raise Refused(6, at)
        if at + 2 + length > room:
            raise Refused(5, at)
        if code == end:
            return entries, at
        value = image[at + 2 : at + 2 + length]
        entries.append(Entry(len(entries), code, at, 2 + length, b"", at + 2, value))
        at += 2 + length


def _vpd_length(image: bytes, at: int, entry: int) -> tuple[int, int]:
    """A VPD length and the place after it."""
    length = 0
    for k in range(4):
        if at >= len(image):
            raise Refused(5, entry)
        byte = image[at]
        at += 1
        length = length << 7 | byte & 0x7F
        if not byte & 0x80:
            return length, at
        if k == 3:
            raise Refused(6, entry)
    raise AssertionError


def _vpd(image: bytes) -> tuple[list[Entry], int]:
    entries: list[Entry] = []
    at = 0
    while True:
        if at >= len(image):
            raise Refused(5, at)
        code = image[at]
        if code in (0x00, 0xFF):
            return entries, at + 1
        if code not in (0x01, 0xFE):
            raise Refused(6, at)
        key_length, key_place = _vpd_length(image, at + 1, at)
        if key_place + key_length > len(image):
            raise Refused(5, at)
        length, place = _vpd_length(image, key_place + key_length, at)
        if place + length > len(image):
            raise Refused(5, at)
        key, value = image[key_place : key_place + key_length], image[place : place + length]
        entries.append(Entry(len(entries), code, at, place + length - at, key, place, value))
        at = place + length


def _fboss(image: bytes) -> tuple[list[Entry], int]:
    if len(image) < 4 or image[:2] != b"\xfb\xfb":
        raise Refused(3)
    if image[2] != 5:
        raise Refused(4)
    if image[3] != 0xFF:
        raise Refused(3)
    entries, end = _tlv(image, 4, len(image), 250, 2)
    if crc16(image[:end]) != int.from_bytes(image[end + 2 : end + 4], "big"):
        raise Refused(10, end + 2)
    return entries, end + 4


def _tiny(image: bytes) -> tuple[list[Entry], int]:
    if len(image) < 3 or image[0] != 0x56:
        raise Refused(3)
    if image[1] != 2:
        raise Refused(4)
    total = image[2]
    if total < 4 or total > len(image):
        raise Refused(5, 2)
    entries: list[Entry] = []
    at, room, pool = 3, total - 1, False
    while at < room:
        if pool:
            raise Refused(9, at)
        tag = image[at]
        if tag == 0:
            raise Refused(6, at)
        place, length = at + 1, tag >> 4
        if length == 0:
            if at + 1 >= room:
                raise Refused(5, at)
            place, length = at + 2, image[at + 1]
        if place + length > room:
            raise Refused(5, at)
        value = image[place : place + length]
        entries.append(Entry(len(entries), tag, at, place + length - at, b"", place, value))
        pool = tag == 0x01
        at = place + length
    if crc8(image[:room]) != image[room]:
        raise Refused(10, room)
    return entries, total


def _onie(image: bytes) -> tuple[list[Entry], int]:
    if len(image) < 11 or image[:8] != b"TlvInfo\0":
        raise Refused(3)
    if image[8] != 1:
        raise Refused(4)
    declared = int.from_bytes(image[9:11], "big")
    if declared > ONIE_MAX or 11 + declared > len(image):
        raise Refused(5, 9)
    entries, end = _tlv(image, 11, 11 + declared, 0xFE, 4)
    if end + 6 != 11 + declared:
        raise Refused(5, 9)
    if crc32(image[: end + 2]) != int.from_bytes(image[end + 2 : end + 6], "big"):
        raise Refused(10, end + 2)
    return entries, end + 6


def read(fmt: int, edition: int, image: bytes) -> Image:
    """Reads an image, or refuses it."""
    asked(fmt, edition, len(image))
    entries, length = {FBOSS: _fboss, VPD: _vpd, TINY: _tiny, ONIE: _onie}[fmt](image)
    seen: set[tuple[int, bytes]] = set()
    out: list[Entry] = []
    for entry in entries:
        name = named(fmt, edition, entry.code)
        if name is None:
            out.append(entry)
            continue
        if not rule(fmt, entry.code, entry.key, entry.value, False):
            raise Refused(7, entry.place)
        mark = (entry.code, entry.key if (fmt, entry.code) == (VPD, 0x01) else b"")
        if mark in seen and (fmt, entry.code) != (ONIE, 0xFD):
            raise Refused(8, entry.place)
        seen.add(mark)
        out.append(
            Entry(
                entry.number,
                entry.code,
                entry.place,
                entry.frame_length,
                entry.key,
                entry.value_place,
                entry.value,
                fmt * 256 + entry.code,
                name.reading,
            )
        )
    if fmt == FBOSS and not set(FBOSS_REQUIRED) <= {entry.code for entry in out}:
        raise Refused(11)
    frames = [image[entry.place : entry.place + entry.frame_length] for entry in out]
    return Image(fmt, edition, out, length, frames)


# ---- Writing -------------------------------------------------------------------------------


@dataclass(frozen=True)
class Field:
    """A field to be written: code, key (VPD alone) and value."""

    code: int
    value: bytes
    key: bytes = b""


def vpd_length(length: int) -> bytes:
    """The shortest form of a VPD length."""
    groups = [length & 0x7F]
    while length >= 128:
        length >>= 7
        groups.append(length & 0x7F | 0x80)
    return bytes(reversed(groups))


def frame(fmt: int, field: Field) -> bytes:
    """The frame of a field as it is written; its rule holds."""
    if fmt == VPD:
        parts = [bytes([field.code]), vpd_length(len(field.key)), field.key]
        return b"".join(parts) + vpd_length(len(field.value)) + field.value
    if fmt == TINY and field.code >> 4:
        return bytes([field.code]) + field.value
    return bytes([field.code, len(field.value)]) + field.value


def ended(fmt: int, frames: list[bytes], room: int) -> bytes:
    """An image of these frames with its end, and FFh in the rest of the room, or 12."""
    body = b"".join(frames)
    if fmt == FBOSS:
        image = b"\xfb\xfb\x05\xff" + body
        image += b"\xfa\x02" + crc16(image).to_bytes(2, "big")
    elif fmt == VPD:
        image = body + b"\0"
    elif fmt == TINY:
        if len(body) + 4 > 255:
            raise Refused(12)
        image = b"\x56\x02" + bytes([len(body) + 4]) + body
        image += bytes([crc8(image)])
    else:
        if len(body) + 6 > ONIE_MAX:
            raise Refused(12)
        image = b"TlvInfo\0\x01" + (len(body) + 6).to_bytes(2, "big") + body + b"\xfe\x04"
        image += crc32(image).to_bytes(4, "big")
    if len(image) > room:
        raise Refused(12)
    return image + b"\xff" * (room - len(image))


def write(fmt: int, edition: int, fields: list[Field], room: int) -> bytes:
    """Writes an image of a room's length, or refuses with the number of the field."""
    asked(fmt, edition, room)
    seen: set[tuple[int, bytes]] = set()
    pool = False
    for number, field in enumerate(fields):
        if named(fmt, edition, field.code) is None:
            raise Refused(14, number)
        if fmt == TINY and pool:
            raise Refused(9, number)
        key = field.key if fmt == VPD else b""
        if not rule(fmt, field.code, key, field.value, True):
            raise Refused(7, number)
        mark = (field.code, key if (fmt, field.code) == (VPD, 0x01) else b"")
        if mark in seen and (fmt, field.code) != (ONIE, 0xFD):
            raise Refused(8, number)
        seen.add(mark)
        pool = (fmt, field.code) == (TINY, 0x01)
    if fmt == FBOSS and not set(FBOSS_REQUIRED) <= {field.code for field in fields}:
        raise Refused(11)
    return ended(fmt, [frame(fmt, field) for field in fields], room)


def edit(fmt: int, edition: int, image: bytes, n: int, value: bytes) -> bytes:
    """The image with another value of entry n, in a room as long as the image's."""
    return edit_into(fmt, edition, image, n, value, len(image))


def edit_into(fmt: int, edition: int, image: bytes, n: int, value: bytes, room: int) -> bytes:
    """The same in a room of another length."""
    old = read(fmt, edition, image)
    if n >= len(old.entries):
        raise Refused(13)
    entry = old.entries[n]
    if entry.kind == 0:
        raise Refused(14, entry.place)
    if not rule(fmt, entry.code, entry.key, value, False):
        raise Refused(7, entry.place)
    frames = list(old.frames)
    if fmt == VPD:
        _, key_place = _vpd_length(image, entry.place + 1, entry.place)
        head = image[entry.place : key_place + len(entry.key)]
        frames[n] = head + vpd_length(len(value)) + value
    else:
        frames[n] = frame(fmt, Field(entry.code, value))
    return ended(fmt, frames, room)


def add(fmt: int, edition: int, image: bytes, field: Field, room: int) -> bytes:
    """The image with one more field: last, in Tiny before the pool."""
    old = read(fmt, edition, image)
    if named(fmt, edition, field.code) is None:
        raise Refused(14)
    if not rule(fmt, field.code, field.key, field.value, True):
        raise Refused(7)
    for entry in old.entries:
        if entry.code == field.code and (fmt, field.code) != (ONIE, 0xFD):
            if (fmt, field.code) != (VPD, 0x01) or entry.key == field.key:
                raise Refused(8)
    at = len(old.frames)
    if fmt == TINY and old.entries and old.entries[-1].code == 0x01:
        at -= 1
    frames = old.frames[:at] + [frame(fmt, field)] + old.frames[at:]
    return ended(fmt, frames, room)


def remove(fmt: int, edition: int, image: bytes, n: int, room: int) -> bytes:
    """The image without entry n."""
    old = read(fmt, edition, image)
    if n >= len(old.entries):
        raise Refused(13)
    entry = old.entries[n]
    if entry.kind == 0:
        raise Refused(14, entry.place)
    if fmt == FBOSS and entry.code in FBOSS_REQUIRED:
        raise Refused(11)
    return ended(fmt, old.frames[:n] + old.frames[n + 1 :], room)


# ---- Tiny strings --------------------------------------------------------------------------


def pool_strings(pool: bytes) -> tuple[list[bytes], bytes]:
    """The strings of a pool, each with its last byte as stored, and the bytes of no string."""
    strings: list[bytes] = []
    start = 0
    for at, byte in enumerate(pool):
        if byte & 0x80:
            strings.append(pool[start : at + 1])
            start = at + 1
    return strings, pool[start:]


def string_text(stored: bytes) -> bytes:
    """A string's text: the top bit of its last byte taken off."""
    return stored[:-1] + bytes([stored[-1] & 0x7F])


def string_stored(text: bytes) -> bytes:
    """A text as a pool stores it."""
    return text[:-1] + bytes([text[-1] | 0x80])


# ---- Vendor payloads -----------------------------------------------------------------------

PREFIX = bytes.fromhex("00001f7900")
OFFSET_NAMES = [
    f"{band}-band-{side}-{way}" for band in "cl" for side in ("west", "east") for way in ("in", "out")
]


@dataclass(frozen=True)
class Vendor:
    """An amplifier's payload: serial, eight offsets in tenths of a decibel, lengths of the pieces."""

    serial: bytes
    offsets: list[int]
    pieces: list[int]
    entries: list[int]


def vendor_payload(serial: bytes, offsets: list[int]) -> bytes:
    """The payload of a serial and eight offsets."""
    if len(serial) > 255:
        raise Refused(18)
    block = b"\0" + bytes(offset & 0xFF for offset in offsets)
    data = bytes([len(serial)]) + serial + len(block).to_bytes(2, "big") + block
    return data + crc32(data).to_bytes(4, "big")


def vendor_read(fmt: int, edition: int, image: bytes) -> Vendor:
    """Reads the payload of an image."""
    if fmt != ONIE:
        raise Refused(16)
    found = [
        entry
        for entry in read(fmt, edition, image).entries
        if entry.code == 0xFD and entry.value[:5] == PREFIX
    ]
    if not found:
        raise Refused(17)
    payload = b"".join(entry.value[5:] for entry in found)
    if not payload or len(payload) < 1 + payload[0] + 2:
        raise Refused(18)
    serial_end = 1 + payload[0]
    block_end = serial_end + 2 + int.from_bytes(payload[serial_end : serial_end + 2], "big")
    if len(payload) != block_end + 4:
        raise Refused(18)
    if crc32(payload[:block_end]) != int.from_bytes(payload[block_end:], "big"):
        raise Refused(19)
    block = payload[serial_end + 2 : block_end]
    if len(block) != 9 or block[0] != 0:
        raise Refused(20)
    offsets = [byte - 256 if byte > 127 else byte for byte in block[1:]]
    pieces = [len(entry.value) - 5 for entry in found]
    return Vendor(payload[1:serial_end], offsets, pieces, [entry.number for entry in found])


# ---- Room files ----------------------------------------------------------------------------


@dataclass(frozen=True)
class Board:
    """A board of a room file; the place counts bytes of the file."""

    number: int
    fmt: int
    place: int
    body: bytes


def room_read(edition: int, data: bytes) -> list[Board]:
    """Reads a room file of form 1, every body too."""
    if not 1 <= edition <= NEWEST:
        raise Refused(1)
    if len(data) > IMAGE_MAX:
        raise Refused(2)
    boards = room_rows(data)
    for board in boards:
        try:
            read(board.fmt, edition, board.body)
        except Refused as refused:
            raise Refused(refused.number, board.place + refused.place) from None
    return boards


def room_rows(data: bytes) -> list[Board]:
    """The boards of a room file; its head and contents are looked at, no body."""
    if len(data) < 8 or data[:4] != b"RM\x01\0" or data[6:8] != b"\0\0":
        raise Refused(21)
    count = int.from_bytes(data[4:6], "big")
    at, last = 8 + 8 * count, -1
    if at > len(data):
        raise Refused(21)
    boards: list[Board] = []
    for k in range(count):
        row = data[8 + 8 * k : 16 + 8 * k]
        number, length = int.from_bytes(row[:4], "big"), int.from_bytes(row[6:], "big")
        if number <= last or row[5] != 0 or length == 0 or at + length > len(data):
            raise Refused(21)
        boards.append(Board(number, row[4], at, data[at : at + length]))
        last = number
        at += length
    if at != len(data):
        raise Refused(21)
    return boards


def room_write(boards: list[tuple[int, int, bytes]]) -> bytes:
    """A room file of boards given by number, format and body."""
    ordered = sorted(boards)
    head = b"RM\x01\0" + len(ordered).to_bytes(2, "big") + b"\0\0"
    rows = b"".join(
        number.to_bytes(4, "big") + bytes([fmt, 0]) + len(body).to_bytes(2, "big")
        for number, fmt, body in ordered
    )
    return head + rows + b"".join(body for _, _, body in ordered)


# ---- Detection -----------------------------------------------------------------------------


def detect(edition: int, room: bytes) -> Optional[int]:
    """The format that a room's first bytes say; None where none fits."""
    if room[:8] == b"TlvInfo\0":
        return ONIE
    if room[:2] == b"\xfb\xfb":
        return FBOSS
    if room[:1] == b"\x56":
        return TINY
    try:
        read(VPD, edition, room)
    except Refused:
        return None
    return VPD


def blank(room: bytes) -> bool:
    """Whether a room is all FFh or all 00h."""
    return room in (b"\xff" * len(room), b"\0" * len(room))
