"""An image as people and other programs read it: a table, and the JSON object of `boardid list`."""

from __future__ import annotations

import datetime
from typing import Any, Dict, Iterable, List, Optional

from .encode import pool_parts
from .records import Entry
from .formats import Format, Tiny, Vpd
from .values import AddressBlock, Flags, Identity, String

#: How much of a text, of plain bytes and of a key the table shows.
TEXT_MAX = 256
BYTES_MAX = 32
KEY_MAX = 64

#: The longest name that makes the table's column wider.
NAME_MAX = 40


def printable(data: bytes) -> bool:
    """Whether bytes are printable ASCII."""
    return all(0x20 <= byte <= 0x7E for byte in data)


def escaped(text: str) -> str:
    """A text that may go to a terminal: bytes outside 20h to 7Eh as \\x1b, a backslash as \\\\."""
    parts: List[str] = []
    for byte in text.encode("utf-8", "surrogateescape"):
        if byte == 0x5C:
            parts.append("\\\\")
        elif 0x20 <= byte <= 0x7E:
            parts.append(chr(byte))
        else:
            parts.append(f"\\x{byte:02x}")
    return "".join(parts)


def escaped_bytes(data: bytes) -> str:
    """Bytes that may go to a terminal, as `escaped` gives a text."""
    return escaped(data.decode("ascii", "surrogateescape"))


def json_file(file: Optional[str]) -> Optional[str]:
    """The name of a file as JSON has it: a byte that is no character goes as \\xff, in letters."""
    if file is None:
        return None
    return "".join(
        f"\\x{ord(one) - 0xDC00:02x}" if 0xDC80 <= ord(one) <= 0xDCFF else one for one in file
    )


def _json_text(text: Optional[str]) -> Optional[str]:
    """A string of the pool as JSON has it: null where it is none or not printable."""
    return text if text is not None and printable(text.encode("ascii")) else None


def _is_pool(entry: Entry) -> bool:
    return entry.kind == Format.TINY * 256 + Tiny.ASCII_STRINGS


def _is_vpd_text(entry: Entry) -> bool:
    return entry.kind == Format.VPD * 256 + Vpd.STRING and printable(entry.raw)


def _identity_object(identity: Identity) -> Dict[str, Any]:
    made: Dict[str, Any] = {
        "serial": _json_text(identity.serial.text),
        "serial_string": identity.serial.number,
        "part": _json_text(identity.part.text),
        "part_string": identity.part.number,
        "revision": identity.revision,
        "free": identity.free.hex(),
    }
    if identity.batch is not None:
        made["batch"] = identity.batch
    return made


def _typed(entry: Entry) -> Dict[str, Any]:
    """Type and value of an entry as in JSON, with what stands beside the value."""
    value = entry.value
    if isinstance(value, str):
        return {"type": "text", "value": value}
    if isinstance(value, int):
        return {"type": "number", "value": value}
    if isinstance(value, AddressBlock):
        return {"type": "address", "value": value.address, "count": value.count}
    if isinstance(value, String):
        return {"type": "string", "value": _json_text(value.text), "string_number": value.number}
    if isinstance(value, Flags):
        return {"type": "flags", "value": list(value.words), "flags": value.number}
    if isinstance(value, Identity):
        return {"type": "identity", "value": _identity_object(value)}
    if isinstance(value, datetime.datetime):
        return {"type": "datetime", "value": value.isoformat(timespec="seconds")}
    if isinstance(value, datetime.date):
        return {"type": "date", "value": value.isoformat()}
    if _is_pool(entry):
        strings, rest = pool_parts(entry.raw)
        texts = [_json_text(text) for text in strings]
        made: Dict[str, Any] = {"type": "pool", "value": None if None in texts else texts}
        if rest:
            made["rest"] = rest.hex()
        return made
    if _is_vpd_text(entry):
        return {"type": "text", "value": entry.raw.decode("ascii")}
    return {"type": "bytes", "value": entry.raw.hex()}


def entry_object(entry: Entry, offset: int = 0) -> Dict[str, Any]:
    """An entry as JSON has it. Its places count bytes of the file, from `offset` on."""
    made: Dict[str, Any] = {
        "number": entry.number,
        "code": entry.code,
        "kind": entry.kind,
        "name": entry.name,
        "short": list(entry.short),
    }
    if entry.key is not None:
        made["key"] = entry.key.decode("ascii") if printable(entry.key) else None
        made["key_bytes"] = entry.key.hex()
    made["place"] = offset + entry.place
    made["frame_length"] = entry.frame_length
    made["value_place"] = offset + entry.value_place
    made["value_length"] = entry.value_length
    made.update(_typed(entry))
    made["bytes"] = entry.raw.hex()
    return made


def list_object(
    file: Optional[str],
    format: Format,
    edition: int,
    offset: int,
    length: int,
    room: int,
    listed: Iterable[Entry],
) -> Dict[str, Any]:
    """A listing as JSON has it."""
    return {
        "file": json_file(file),
        "format": format.word,
        "edition": edition,
        "offset": offset,
        "length": length,
        "room": room,
        "entries": [entry_object(entry, offset) for entry in listed],
    }


def _string_words(string: String) -> str:
    if string.text is None:
        return f"string {string.number}, which the pool does not have"
    return escaped(string.text)


def _in_quotes(text: str) -> str:
    return '"' + '\\"'.join(escaped(part) for part in text.split('"')) + '"'


def _quoted(string: String) -> str:
    return _in_quotes(string.text) if string.text is not None else _string_words(string)


def value_words(entry: Entry) -> str:
    """The value of an entry as the table has it. None of its characters needs escaping."""
    value = entry.value
    if isinstance(value, str):
        return escaped(value)
    if isinstance(value, int):
        return str(value)
    if isinstance(value, AddressBlock):
        if entry.format != Format.FBOSS:
            return value.address
        return f"{value.address}, {value.count} {'address' if value.count == 1 else 'addresses'}"
    if isinstance(value, String):
        return _string_words(value)
    if isinstance(value, Flags):
        return f"{value.passed} of 4: " + ", ".join(str(value).split(","))
    if isinstance(value, Identity):
        batch = "" if value.batch is None else f", batch {value.batch:04d}"
        return (
            f"serial {_quoted(value.serial)}, part {_quoted(value.part)}, "
            f"revision {value.revision}, free {value.free.hex(':')}{batch}"
        )
    if isinstance(value, datetime.datetime):
        return value.isoformat(" ", "seconds")
    if isinstance(value, datetime.date):
        return value.isoformat()
    if _is_pool(entry):
        strings, rest = pool_parts(entry.raw)
        words_of_pool = ", ".join(_in_quotes(text) for text in strings) or "no strings"
        return words_of_pool + (f"; {len(rest)} bytes of no string" if rest else "")
    if _is_vpd_text(entry):
        text = escaped_bytes(entry.raw[:TEXT_MAX])
        return text if len(entry.raw) <= TEXT_MAX else f"{text} .. ({len(entry.raw)} bytes)"
    shown = entry.raw[:BYTES_MAX].hex(" ") or "no bytes"
    return shown if len(entry.raw) <= BYTES_MAX else f"{shown} .. ({len(entry.raw)} bytes)"


def name_words(entry: Entry) -> str:
    """What an entry is called in the table: its name, or its code; in VPD also its key."""
    if entry.name is not None:
        name = entry.name
    elif entry.kind != 0:
        name = ""
    elif entry.format == Format.FBOSS:
        name = f"code {entry.code}"
    else:
        name = f"{'type' if entry.format == Format.VPD else 'code'} {entry.code:02X}h"
    if entry.key is None:
        return name
    key = escaped_bytes(entry.key[:KEY_MAX])
    if len(entry.key) > KEY_MAX:
        key += f" .. ({len(entry.key)} bytes)"
    return " ".join(part for part in (name, key) if part)


def _code_words(entry: Entry) -> str:
    return f"{entry.code:4}" if entry.format == Format.FBOSS else f"0x{entry.code:02x}"


def table(
    file: Optional[str],
    format: Format,
    edition: int,
    length: int,
    room: int,
    listed: Iterable[Entry],
) -> str:
    """A listing as people read it: a line for the image, and one for each entry."""
    shown = list(listed)
    count = f"{len(shown)} {'entry' if len(shown) == 1 else 'entries'}"
    name = f"{escaped(file)}: " if file is not None else ""
    lines = [f"{name}{format.title}, edition {edition}, {count}, {length} of {room} bytes"]
    names = [name_words(entry) for entry in shown]
    widest = max([4] + [len(one) for one in names if len(one) <= NAME_MAX])
    if shown:
        lines.append(f"entry  code  {'name':<{widest}}  value")
    for entry, one in zip(shown, names):
        number = f"#{entry.number}"
        lines.append(f"{number:>5}  {_code_words(entry)}  {one:<{widest}}  {value_words(entry)}")
    return "\n".join(lines)
