"""What the command should show of an entry: the words of list and get, and the JSON object."""

from __future__ import annotations

from typing import Any, Optional

import formats as f

TESTS = ("assembly", "configuration", "burn-in", "system")


def escaped(data: bytes) -> str:
    """Text of any bytes: printable ASCII as it is, a backslash doubled, any other byte as \\x1b."""
    return "".join(
        "\\\\" if byte == 0x5C else chr(byte) if 0x20 <= byte <= 0x7E else f"\\x{byte:02x}"
        for byte in data
    )


def printable(data: bytes) -> bool:
    """Whether all bytes are printable ASCII."""
    return all(0x20 <= byte <= 0x7E for byte in data)


def strings_of(image: f.Image) -> list[bytes]:
    """The strings of a Tiny image's pool, as stored."""
    for entry in image.entries:
        if entry.code == 0x01 and entry.kind != 0:
            return f.pool_strings(entry.value)[0]
    return []


def string_at(image: f.Image, number: int) -> Optional[bytes]:
    """The text of a string of the pool; None where the pool has none of that number."""
    strings = strings_of(image)
    return f.string_text(strings[number]) if number < len(strings) else None


def address(value: bytes) -> str:
    """Six bytes as people write an address."""
    return ":".join(f"{byte:02x}" for byte in value[:6])


def revision(major: int, minor: int) -> str:
    """A revision, as 0A.12."""
    word = f"{major:02d}" if major < 128 else "0" + chr(ord("A") + major - 128)
    return f"{word}.{minor:02d}"


def tests_passed(byte: int) -> list[str]:
    """The words of the tests passed."""
    return [TESTS[bit] for bit in range(4) if byte >> bit & 1]


def flag_words(byte: int) -> list[str]:
    """The tests passed, and the reserved bits as a number where one is on."""
    return tests_passed(byte) + ([f"0x{byte & 0xF0:02x}"] if byte & 0xF0 else [])


def json_text(text: Optional[bytes]) -> Optional[str]:
    """Text in JSON: as it is where it is printable, else null."""
    return text.decode("ascii") if text is not None and printable(text) else None


def type_of(image: f.Image, entry: f.Entry) -> str:
    """The JSON type of an entry."""
    if entry.kind == 0:
        return "bytes"
    if image.fmt == f.VPD:
        return "text" if entry.code == 0x01 and printable(entry.value) else "bytes"
    return entry.reading


def _datetime(value: bytes, between: str) -> str:
    text = value.decode("ascii")
    return f"{text[6:10]}-{text[:2]}-{text[3:5]}{between}{text[11:]}"


def _date(value: bytes) -> str:
    text = value.decode("ascii")
    return f"{text[:4]}-{text[4:6]}-{text[6:]}"


def _word(image: f.Image, number: int) -> str:
    text = string_at(image, number)
    return f"string {number}" if text is None else escaped(text)


def got(image: f.Image, entry: f.Entry) -> str:
    """What get prints of an entry."""
    value, kind = entry.value, type_of(image, entry)
    if kind == "text":
        return escaped(value)
    if kind == "number":
        return str(int.from_bytes(value, "big"))
    if kind == "address":
        count = f"/{int.from_bytes(value[6:], 'big')}" if len(value) == 8 else ""
        return address(value) + count
    if kind == "string":
        text = string_at(image, value[0])
        if text is None:
            return f"string {value[0]}, which the pool does not have"
        return escaped(text)
    if kind == "flags":
        return ",".join(flag_words(value[0])) or "none"
    if kind == "identity":
        words = [
            f"serial={_word(image, value[0])}",
            f"part={_word(image, value[1])}",
            f"revision={revision(value[2], value[3])}",
            f"free={value[4:6].hex()}",
        ]
        if len(value) == 8:
            words.append(f"batch={value[6] + 256 * value[7]:04d}")
        return " ".join(words)
    if kind == "date":
        return _date(value)
    if kind == "datetime":
        return _datetime(value, "T")
    if kind == "pool":
        strings, rest = f.pool_strings(value)
        quoted = ", ".join(f'"{escaped(f.string_text(stored))}"' for stored in strings)
        return quoted + (f"; {len(rest)} bytes of no string" if rest else "")
    return value.hex()


def value_json(image: f.Image, entry: f.Entry) -> dict[str, Any]:
    """The keys type, value and what stands beside it, of an entry's JSON object."""
    value, kind = entry.value, type_of(image, entry)
    out: dict[str, Any] = {"type": kind}
    if kind == "text":
        out["value"] = value.decode("ascii")
    elif kind == "number":
        out["value"] = int.from_bytes(value, "big")
    elif kind == "address":
        out["value"] = address(value)
        out["count"] = int.from_bytes(value[6:], "big") if len(value) == 8 else 1
    elif kind == "string":
        out["value"] = json_text(string_at(image, value[0]))
        out["string_number"] = value[0]
    elif kind == "flags":
        out["value"] = tests_passed(value[0])
        out["flags"] = value[0]
    elif kind == "identity":
        out["value"] = {
            "serial": json_text(string_at(image, value[0])),
            "serial_string": value[0],
            "part": json_text(string_at(image, value[1])),
            "part_string": value[1],
            "revision": revision(value[2], value[3]),
            "free": value[4:6].hex(),
        }
        if len(value) == 8:
            out["value"]["batch"] = value[6] + 256 * value[7]
    elif kind == "date":
        out["value"] = _date(value)
    elif kind == "datetime":
        out["value"] = _datetime(value, "T")
    elif kind == "pool":
        strings, rest = f.pool_strings(value)
        texts = [json_text(f.string_text(stored)) for stored in strings]
        out["value"] = None if None in texts else texts
        if rest:
            out["rest"] = rest.hex()
    else:
        out["value"] = value.hex()
    return out


def entry_json(image: f.Image, entry: f.Entry) -> dict[str, Any]:
    """The JSON object of an entry, as edition 4 gives it."""
    name = f.named(image.fmt, image.edition, entry.code)
    out: dict[str, Any] = {
        "number": entry.number,
        "code": entry.code,
        "kind": entry.kind,
        "name": None if name is None or entry.kind == f.VPD * 256 + 1 else name.name,
        "short": [] if name is None else list(name.short),
    }
    if image.fmt == f.VPD:
        out["key"] = entry.key.decode("ascii") if printable(entry.key) else None
        out["key_bytes"] = entry.key.hex()
    out |= {
        "place": entry.place,
        "frame_length": entry.frame_length,
        "value_place": entry.value_place,
        "value_length": len(entry.value),
    }
    return out | value_json(image, entry) | {"bytes": entry.value.hex()}


def names_of(image: f.Image, entry: f.Entry) -> set[str]:
    """Every NAME but #N that an entry answers to."""
    out: set[str] = {f"0x{entry.code:02x}"}
    if image.fmt != f.VPD:
        out.add(str(entry.code))
    elif printable(entry.key) and entry.key:
        out.add(entry.key.decode("ascii"))
    name = f.named(image.fmt, image.edition, entry.code)
    if name is not None:
        if entry.kind != f.VPD * 256 + 1:
            out |= {name.name, name.name.upper(), name.name.lower()}
            out |= {name.name.replace(" ", "-"), name.name.replace(" ", "_")}
        out |= set(name.short)
    return out
