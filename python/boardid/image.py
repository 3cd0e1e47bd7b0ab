"""An image with its format and edition: its entries by name, and new images with a change."""

from __future__ import annotations

import json
import os
from typing import Any, Dict, Iterable, Iterator, List, Mapping, Optional, Tuple, Union

from . import calls
from .encode import encode, pool_parts, string_bytes, text_bytes
from .records import Entry, Field
from .errors import AmbiguousName, Error, NoSuchName, Refused
from .formats import Format, Kind, Reading, Tiny, Vpd, kinds, words
from .library import EDITION, IMAGE_MAX, Bytes, lent
from .listing import escaped, list_object, name_words, table
from .values import Identity, String, revision_of
from .vendor import PREFIX, Vendor, few_pieces, vendor_read, vendor_write

#: How many bytes at the front of a Tiny value are string numbers, in every edition.
_COUNTED: Dict[int, int] = {
    Tiny.ASCII_STRINGS: 0,
    Tiny.SERIAL_NUMBER: 1,
    Tiny.FACTORY_TEST_FLAGS: 0,
    Tiny.BASE_MAC_ADDRESS: 0,
    Tiny.PRODUCT_IDENTITY: 2,
    Tiny.SYSTEM_PRODUCT_IDENTITY: 2,
    Tiny.PRODUCT_IDENTITY_BATCH: 2,
    Tiny.SYSTEM_PRODUCT_IDENTITY_BATCH: 2,
}

#: What an entry is asked for by: a name, a code, or a VPD key.
Name = Union[str, int, bytes]


def _code_of(name: str, decimal: bool) -> Optional[int]:
    """The code that a name says: 0x24, or where `decimal` also 36; None of any other."""
    if name[:2].lower() == "0x":
        try:
            return int(name, 16) if "_" not in name else None
        except ValueError:
            return None
    return int(name) if decimal and name.isascii() and name.isdecimal() else None


class Image:
    """An image that the library has accepted; it never changes.

    `Image(data)` checks and lists the bytes; Refused and Blank are as the calls raise them.
    Iterating gives the entries, `len` counts them, `bytes` gives the image with its room.
    `image["serial"]` is the entry of a name: a document's name without regard to case, a short
    name, a VPD key, a code as `0x24`, or `#3` for entry 3. `image[0x24]` is the entry of a code,
    and `image[b"SKU"]` that of a VPD key.
    """

    __slots__ = ("_data", "_format", "_edition", "_entries", "_length", "_file", "_offset")

    def __init__(
        self, data: Bytes, format: Optional[int] = None, *, edition: int = EDITION
    ) -> None:
        raw = lent(data)
        found = calls.detect(raw, edition=edition) if format is None else format
        listed = tuple(calls.entries(raw, found, edition=edition))
        self._data = raw
        self._format = Format(found)
        self._edition = edition
        self._entries: Tuple[Entry, ...] = listed
        self._length = calls.image_length(self._format, listed)
        self._file: Optional[str] = None
        self._offset = 0

    @classmethod
    def read(
        cls,
        path: Union[str, "os.PathLike[str]"],
        format: Optional[int] = None,
        *,
        edition: int = EDITION,
        offset: int = 0,
        length: Optional[int] = None,
    ) -> "Image":
        """The image in a file, from byte `offset` on, with `length` bytes of room or all."""
        with open(path, "rb") as file:
            whole = file.read()
        end = len(whole) if length is None else offset + length
        if not 0 <= offset <= end <= len(whole):
            raise ValueError(f"{os.fspath(path)}: the file has {len(whole)} bytes")
        image = cls(whole[offset:end], format, edition=edition)
        image._file = os.fspath(path)
        image._offset = offset
        return image

    @classmethod
    def new(
        cls,
        fields: Iterable[Field],
        format: int,
        *,
        edition: int = EDITION,
        room: Optional[int] = None,
    ) -> "Image":
        """An image of the fields, in their order; by default without a byte after its end."""
        return cls(calls.write(fields, format, edition=edition, room=room), format, edition=edition)

    @property
    def data(self) -> bytes:
        """All bytes: the image, and what follows its end."""
        return self._data

    @property
    def format(self) -> Format:
        return self._format

    @property
    def edition(self) -> int:
        return self._edition

    @property
    def entries(self) -> Tuple[Entry, ...]:
        return self._entries

    @property
    def length(self) -> int:
        """The image's own length, its end included."""
        return self._length

    @property
    def room(self) -> int:
        """The bytes that the image may have."""
        return len(self._data)

    @property
    def strings(self) -> Tuple[str, ...]:
        """The strings of a Tiny image's pool; none of any other image."""
        pool = self._pool()
        return tuple(pool_parts(pool.raw)[0]) if pool is not None else ()

    def __bytes__(self) -> bytes:
        return self._data

    def __len__(self) -> int:
        return len(self._entries)

    def __bool__(self) -> bool:
        return True

    def __iter__(self) -> Iterator[Entry]:
        return iter(self._entries)

    def __eq__(self, other: object) -> bool:
        if not isinstance(other, Image):
            return NotImplemented
        mine = (self._data, self._format, self._edition)
        return mine == (other._data, other._format, other._edition)

    def __hash__(self) -> int:
        return hash((self._data, self._format, self._edition))

    def __repr__(self) -> str:
        return (
            f"<boardid.Image {self._format.title}, edition {self._edition}, "
            f"{len(self._entries)} entries, {self._length} of {len(self._data)} bytes>"
        )

    def __str__(self) -> str:
        return table(
            self._file, self._format, self._edition, self._length, len(self._data), self._entries
        )

    # ---- Names ------------------------------------------------------------------------------

    def find(self, name: Name) -> List[Entry]:
        """Every entry that fits a name, each once, in the image's order."""
        if isinstance(name, str) and name.startswith("#") and name[1:].isdecimal():
            return [entry for entry in self._entries if entry.number == int(name[1:])]
        return [entry for entry in self._entries if self._fits(entry, name)]

    def _fits(self, entry: Entry, name: Name) -> bool:
        """Whether an entry fits a name in any way but its number."""
        if isinstance(name, int):
            return entry.code == name
        if isinstance(name, bytes):
            return entry.key == name
        if entry.name is not None and words(entry.name) == words(name):
            return True
        if name in entry.short or (entry.key is not None and entry.key == text_bytes(name)):
            return True
        return entry.code == _code_of(name, self._format != Format.VPD)

    def __getitem__(self, name: Name) -> Entry:
        found = self.find(name)
        if len(found) == 1:
            return found[0]
        shown = escaped(name) if isinstance(name, str) else repr(name)
        if not found:
            there = ", ".join(dict.fromkeys(name_words(entry) for entry in self._entries))
            raise NoSuchName(f"no entry {shown}; it has: {there or 'none'}")
        listed = ", and ".join(f"entry {entry.number}, {name_words(entry)}" for entry in found)
        numbers = tuple(entry.number for entry in found)
        say = " or ".join(f"#{number}" for number in numbers)
        raise AmbiguousName(f"{shown} fits {listed}: say {say}", numbers)

    def __contains__(self, name: object) -> bool:
        if isinstance(name, Entry):
            return name in self._entries
        return isinstance(name, (str, int, bytes)) and bool(self.find(name))

    def get(self, name: Name, default: Optional[Entry] = None) -> Optional[Entry]:
        """The entry of a name, or `default` where none fits."""
        return self[name] if self.find(name) else default

    def _kind(self, name: Union[str, int]) -> Tuple[int, Optional[Kind]]:
        """The code that a field to add is meant by, with its kind where the edition names it."""
        known = kinds(self._format, edition=self._edition)
        code = name if isinstance(name, int) else _code_of(name, True)
        if code is not None:
            return code, next((kind for kind in known if kind.code == code), None)
        found = [
            kind
            for kind in known
            if isinstance(name, str) and (words(kind.name) == words(name) or name in kind.short)
        ]
        if not found:
            title = self._format.title
            raise NoSuchName(f"edition {self._edition} names no {escaped(str(name))} in {title}")
        if len(found) > 1:
            listed = ", and ".join(f"{kind.name}, {kind.code}" for kind in found)
            codes = tuple(kind.code for kind in found)
            raise AmbiguousName(f"{escaped(str(name))} is {listed}", codes)
        return found[0].code, found[0]

    # ---- Changes ----------------------------------------------------------------------------

    def with_value(self, name: Name, value: object, *, room: Optional[int] = None) -> "Image":
        """The image with a new value of an entry: bytes as they are, or a value by its reading.

        A text for a string number of a Tiny image goes into the pool: the string that is there, or
        the old one rewritten where nothing else counts it, or a new one. An identity may be given
        as a mapping of what changes: serial, part, revision, free, batch.
        """
        entry = self[name]
        base, stored = self._stored(entry.what, value, entry)
        return base._edited(entry.number, stored, self.room if room is None else room)

    def with_field(
        self, name: Name, value: object, *, code: Optional[int] = None, room: Optional[int] = None
    ) -> "Image":
        """The image with one more entry: its name or code, and its value as in with_value.

        In VPD the name is the new entry's key, and its type is 01h or `code`.
        """
        key = b""
        kind: Optional[Kind]
        if self._format == Format.VPD:
            if isinstance(name, int):
                number, kind = self._kind(name)
            else:
                key = name if isinstance(name, bytes) else text_bytes(name)
                number, kind = self._kind(Vpd.STRING if code is None else code)
        else:
            if isinstance(name, bytes) or code is not None:
                raise TypeError("only VPD has keys and takes a type")
            number, kind = self._kind(name)
        base, stored = self._stored(kind, value, None)
        field = Field(number, stored, key)
        return base._made(calls.add, field, self.room if room is None else room)

    def without(self, name: Name, *, room: Optional[int] = None) -> "Image":
        """The image without an entry."""
        return self._made(calls.remove, self[name].number, self.room if room is None else room)

    def vendor(self) -> Vendor:
        """The vendor payload of an ONIE image."""
        return vendor_read(self._data, self._format, edition=self._edition)

    def with_vendor(
        self,
        serial: Optional[Bytes] = None,
        offsets: Optional[Mapping[str, int]] = None,
        *,
        room: Optional[int] = None,
    ) -> "Image":
        """The image with another vendor payload; what is not given stays as it is.

        `offsets` are by name, in tenths of a decibel. A payload of the same length keeps its
        pieces; else there are as few as possible. Entries left over go, and new ones come last.
        """
        try:
            old = self.vendor()
        except Refused as refused:
            if refused.number != 17:
                raise
            old = Vendor(b"", (0,) * 8)
        by_name = old.by_name
        for name, offset in (offsets or {}).items():
            if name not in by_name:
                raise NoSuchName(f"no offset {escaped(name)}; there are: {', '.join(by_name)}")
            by_name[name] = offset
        holders = [
            entry for entry in self._entries if entry.code == 0xFD and entry.raw.startswith(PREFIX)
        ]
        text = old.serial if serial is None else lent(serial)
        lengths = [len(entry.raw) - len(PREFIX) for entry in holders]
        if len(text) != len(old.serial) or not holders:
            lengths = few_pieces(16 + len(text))
        values = vendor_write(text, tuple(by_name.values()), lengths, edition=self._edition)
        image = self
        for entry in reversed(holders[len(values) :]):
            image = image._made(calls.remove, entry.number, IMAGE_MAX)
        for entry, value in zip(holders, values):
            image = image._edited(entry.number, value, IMAGE_MAX)
        for value in values[len(holders) :]:
            image = image._made(calls.add, Field(0xFD, value), IMAGE_MAX)
        return image._fitted(self.room if room is None else room)

    def _like(self, data: bytes) -> "Image":
        """An image of the same format, edition and file."""
        image = Image(data, self._format, edition=self._edition)
        image._file, image._offset = self._file, self._offset
        return image

    def _made(self, change: Any, what: object, room: int) -> "Image":
        """The image of an addition or a removal."""
        return self._like(change(self._data, what, self._format, edition=self._edition, room=room))

    def _edited(self, number: int, value: bytes, room: int) -> "Image":
        """The image with a new value of the entry of that number."""
        return self._like(
            calls.edit(self._data, number, value, self._format, edition=self._edition, room=room)
        )

    def _fitted(self, room: int) -> "Image":
        """The image in that much room, with FFh after its end; 12 where it is too little."""
        if room > IMAGE_MAX:
            raise Refused(2)
        if self._length > room:
            raise Refused(12, 0, f"the image needs {self._length} bytes, the room has {room}")
        image = self._data[: self._length]
        return self._like(image + b"\xff" * (room - len(image)))

    # ---- Strings of a Tiny image ------------------------------------------------------------

    def _pool(self) -> Optional[Entry]:
        if self._format != Format.TINY:
            return None
        return next((one for one in self._entries if one.code == Tiny.ASCII_STRINGS), None)

    def _uses(self, number: int) -> int:
        """How often the entries count a string. A tag that no edition names may count any."""
        uses = 0
        for entry in self._entries:
            counted = _COUNTED.get(entry.code)
            uses += 1 if counted is None else entry.raw[:counted].count(number)
        return uses

    def _with_string(
        self, text: str, old: Optional[int], place: int, taken: Tuple[int, ...] = ()
    ) -> Tuple["Image", int]:
        """An image whose pool has a text, and its number there.

        `old` is the string that was counted before; it is rewritten where nothing else counts it,
        and it is not one of those `taken`. No entry changes its number: the pool is the last entry,
        or becomes it.
        """
        stored = string_bytes(text, place)
        strings = list(self.strings)
        if text in strings:
            return self, strings.index(text)
        pool = self._pool()
        if pool is None:
            return self._made(calls.add, Field(Tiny.ASCII_STRINGS, stored), IMAGE_MAX), 0
        there = old is not None and old < len(strings) and old not in taken
        if there and old is not None and self._uses(old) == 1:
            parts = [string_bytes(one, place) for one in strings]
            rest = pool_parts(pool.raw)[1]
            parts[old] = stored
            return self._edited(pool.number, b"".join(parts) + rest, IMAGE_MAX), old
        if pool_parts(pool.raw)[1]:
            raise Error("the pool ends in bytes of no string")
        return self._edited(pool.number, pool.raw + stored, IMAGE_MAX), len(strings)

    def _stored(
        self, kind: Optional[Kind], value: object, entry: Optional[Entry]
    ) -> Tuple["Image", bytes]:
        """The bytes of a value, and the image that they go into: its pool may have more."""
        if isinstance(value, (bytes, bytearray, memoryview)):
            return self, lent(value)
        if kind is None:
            return self, b""  # a code without a name is refused, whatever its value
        place = entry.place if entry is not None else 0
        old = entry.value if entry is not None else None
        if kind.reading == Reading.STRING_NUMBER and isinstance(value, str):
            number = old.number if isinstance(old, String) else None
            image, number = self._with_string(value, number, place)
            return image, encode(kind, number, place)
        if isinstance(value, Mapping) and kind.reading in (
            Reading.IDENTITY,
            Reading.IDENTITY_WITH_BATCH,
        ):
            image, identity = self._identity(kind, value, old, place)
            return image, encode(kind, identity, place)
        return self, encode(kind, value, place)

    def _identity(
        self, kind: Kind, given: Mapping[str, Any], old: object, place: int
    ) -> Tuple["Image", Identity]:
        """The identity of a mapping; what it leaves out is as in the old one."""
        known = {"serial", "part", "revision", "free", "batch"}
        for word in given:
            if word not in known:
                raise ValueError(f"{word!r} is no word of an identity: {', '.join(sorted(known))}")
        before = old if isinstance(old, Identity) else None
        if before is None and not {"serial", "part", "revision"} <= set(given):
            raise ValueError("a new identity needs serial, part and revision")
        image = self
        olds = {"serial": before.serial, "part": before.part} if before else {}
        numbers: Dict[str, int] = {}
        texts: Dict[str, str] = {}
        for word in ("serial", "part"):
            text = given.get(word, olds.get(word))
            if isinstance(text, str):
                texts[word] = text
            elif isinstance(text, (int, String)):
                numbers[word] = text if isinstance(text, int) else text.number
            else:
                raise TypeError(f"{word} is a text or a string number, not {type(text).__name__}")
        for word, text in texts.items():
            old_number = olds[word].number if word in olds else None
            taken = tuple(numbers.values())
            image, numbers[word] = image._with_string(text, old_number, place, taken)
        if "revision" in given:
            major, minor = revision_of(given["revision"])
        else:
            assert before is not None
            major, minor = before.major, before.minor
        free = given.get("free", before.free if before else b"\0\0")
        batch = given.get("batch", before.batch if before else None)
        if kind.reading == Reading.IDENTITY_WITH_BATCH and batch is None:
            batch = 0
        free_bytes = bytes.fromhex(free) if isinstance(free, str) else lent(free)
        return image, Identity(
            String(numbers["serial"]), String(numbers["part"]), major, minor, free_bytes, batch
        )

    # ---- JSON -------------------------------------------------------------------------------

    def to_dict(self) -> Dict[str, Any]:
        """The object that `boardid list --json` prints; file is null where none was read."""
        return list_object(
            self._file,
            self._format,
            self._edition,
            self._offset,
            self._length,
            len(self._data),
            self._entries,
        )

    def to_json(self) -> str:
        """The text of that object, in ASCII."""
        return json.dumps(self.to_dict(), indent=2)
