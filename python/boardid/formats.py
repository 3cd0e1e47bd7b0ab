"""Formats, codes and kinds: what the library names, since which edition, and what it is called."""

from __future__ import annotations

from enum import IntEnum
from typing import Dict, List, NamedTuple, Optional, Tuple

from .library import EDITION


class Format(IntEnum):
    """The four formats. `word` is the short word of the command line and of JSON."""

    FBOSS = 1
    VPD = 2
    TINY = 3
    ONIE = 4

    @property
    def word(self) -> str:
        return self.name.lower()

    @property
    def title(self) -> str:
        """The name of the format's document."""
        return _TITLES[self]

    @classmethod
    def of(cls, word: str) -> "Format":
        """The format of a word: fboss, vpd, tiny, onie, or its number; ValueError of any other."""
        for member in cls:
            if word.lower() == member.word or word == str(int(member)):
                return member
        raise ValueError(f"{word!r} is no format: fboss, vpd, tiny, onie, or 1 to 4")


_TITLES: Dict[Format, str] = {
    Format.FBOSS: "FBOSS v5",
    Format.VPD: "VPD 2.0",
    Format.TINY: "Tiny EEPROM version 2",
    Format.ONIE: "ONIE TlvInfo version 1",
}


class Reading(IntEnum):
    """How an entry's value is to be read."""

    PLAIN_BYTES = 0
    TEXT = 1
    NUMBER = 2
    ADDRESS_BLOCK = 3
    STRING_NUMBER = 4
    TEST_FLAGS = 5
    IDENTITY = 6
    IDENTITY_WITH_BATCH = 7
    DATE = 8
    DATE_WITH_TIME = 9


class Fboss(IntEnum):
    """The named codes of FBOSS v5."""

    PRODUCT_NAME = 1
    PRODUCT_PART_NUMBER = 2
    SYSTEM_ASSEMBLY_PART_NUMBER = 3
    META_PCBA_PART_NUMBER = 4
    META_PCB_PART_NUMBER = 5
    ODM_PCBA_PART_NUMBER = 6
    ODM_PCBA_SERIAL_NUMBER = 7
    PRODUCT_PRODUCTION_STATE = 8
    PRODUCT_VERSION = 9
    PRODUCT_SUB_VERSION = 10
    PRODUCT_SERIAL_NUMBER = 11
    SYSTEM_MANUFACTURER = 12
    SYSTEM_MANUFACTURING_DATE = 13
    PCB_MANUFACTURER = 14
    ASSEMBLED_AT = 15
    EEPROM_LOCATION_ON_FABRIC = 16
    X86_CPU_MAC_ADDRESSES = 17
    BMC_MAC_ADDRESSES = 18
    SWITCH_ASIC_MAC_ADDRESSES = 19
    META_RESERVED_MAC_ADDRESSES = 20


class Vpd(IntEnum):
    """The named types of VPD 2.0."""

    STRING = 0x01
    INFO = 0xFE


class Tiny(IntEnum):
    """The named tags of Tiny EEPROM version 2."""

    ASCII_STRINGS = 0x01
    SERIAL_NUMBER = 0x10
    FACTORY_TEST_FLAGS = 0x11
    BASE_MAC_ADDRESS = 0x60
    PRODUCT_IDENTITY = 0x61
    SYSTEM_PRODUCT_IDENTITY = 0x62
    PRODUCT_IDENTITY_BATCH = 0x80
    SYSTEM_PRODUCT_IDENTITY_BATCH = 0x81


class Onie(IntEnum):
    """The named codes of ONIE TlvInfo version 1."""

    PRODUCT_NAME = 0x21
    PART_NUMBER = 0x22
    SERIAL_NUMBER = 0x23
    BASE_MAC_ADDRESS = 0x24
    MANUFACTURE_DATE = 0x25
    MAC_ADDRESS_COUNT = 0x2A
    MANUFACTURER = 0x2B
    COUNTRY_CODE = 0x2C
    VENDOR = 0x2D
    VENDOR_EXTENSION = 0xFD


class Kind(NamedTuple):
    """What a code of a format is: its document's name, short names, first edition and reading."""

    format: Format
    code: int
    name: str
    short: Tuple[str, ...]
    since: int
    reading: Reading

    @property
    def number(self) -> int:
        """The kind that an entry's record has."""
        return self.format * 256 + self.code


_TEXT = Reading.TEXT
_NUMBER = Reading.NUMBER
_BLOCK = Reading.ADDRESS_BLOCK
_PLAIN = Reading.PLAIN_BYTES
_IDENTITY = Reading.IDENTITY
_BATCH = Reading.IDENTITY_WITH_BATCH

_KINDS: Tuple[Kind, ...] = (
    Kind(Format.FBOSS, 1, "Product Name", ("product",), 1, _TEXT),
    Kind(Format.FBOSS, 2, "Top Level 20- Product Part Number", ("part",), 1, _TEXT),
    Kind(Format.FBOSS, 3, "System Assembly Part Number", ("assembly-part",), 1, _TEXT),
    Kind(Format.FBOSS, 4, "Meta PCBA Part Number", ("pcba-part",), 1, _TEXT),
    Kind(Format.FBOSS, 5, "Meta PCB Part Number", ("pcb-part",), 1, _TEXT),
    Kind(Format.FBOSS, 6, "ODM/JDM PCBA Part Number", ("odm-part",), 1, _TEXT),
    Kind(Format.FBOSS, 7, "ODM/JDM PCBA Serial Number", ("odm-serial",), 1, _TEXT),
    Kind(Format.FBOSS, 8, "Product Production State", ("state",), 1, _NUMBER),
    Kind(Format.FBOSS, 9, "Product Version", ("version",), 1, _NUMBER),
    Kind(Format.FBOSS, 10, "Product Sub Version", ("sub-version",), 1, _NUMBER),
    Kind(Format.FBOSS, 11, "Product Serial Number", ("serial",), 1, _TEXT),
    Kind(Format.FBOSS, 12, "System Manufacturer", ("manufacturer",), 1, _TEXT),
    Kind(Format.FBOSS, 13, "System Manufacturing Date", ("date",), 1, Reading.DATE),
    Kind(Format.FBOSS, 14, "PCB Manufacturer", ("pcb-manufacturer",), 1, _TEXT),
    Kind(Format.FBOSS, 15, "Assembled at", ("assembled",), 1, _TEXT),
    Kind(Format.FBOSS, 16, "EEPROM location on Fabric", ("location",), 1, _TEXT),
    Kind(Format.FBOSS, 17, "X86 CPU MAC Addresses", ("cpu-mac", "mac"), 2, _BLOCK),
    Kind(Format.FBOSS, 18, "BMC MAC Addresses", ("bmc-mac", "mac"), 2, _BLOCK),
    Kind(Format.FBOSS, 19, "Switch ASIC MAC Addresses", ("asic-mac", "mac"), 2, _BLOCK),
    Kind(Format.FBOSS, 20, "Meta Reserved MAC Addresses", ("meta-mac", "mac"), 2, _BLOCK),
    Kind(Format.VPD, 0x01, "string", (), 1, _PLAIN),
    Kind(Format.VPD, 0xFE, "info header", ("info",), 2, _PLAIN),
    Kind(Format.TINY, 0x01, "ASCII encoded strings pool", ("pool",), 1, _PLAIN),
    Kind(Format.TINY, 0x10, "Serial number", ("serial",), 1, Reading.STRING_NUMBER),
    Kind(Format.TINY, 0x11, "Factory test flags", ("tests",), 1, Reading.TEST_FLAGS),
    Kind(Format.TINY, 0x60, "Base MAC address", ("mac",), 1, _BLOCK),
    Kind(Format.TINY, 0x61, "Product identity", ("identity",), 1, _IDENTITY),
    Kind(Format.TINY, 0x62, "System product identity", ("system-identity",), 1, _IDENTITY),
    Kind(Format.TINY, 0x80, "Product identity w/ batch code", ("identity-batch",), 2, _BATCH),
    Kind(
        Format.TINY,
        0x81,
        "System product identity w/ batch code",
        ("system-identity-batch",),
        2,
        _BATCH,
    ),
    Kind(Format.ONIE, 0x21, "Product Name", ("product",), 3, _TEXT),
    Kind(Format.ONIE, 0x22, "Part Number", ("part",), 3, _TEXT),
    Kind(Format.ONIE, 0x23, "Serial Number", ("serial",), 3, _TEXT),
    Kind(Format.ONIE, 0x24, "MAC #1 Base", ("mac",), 3, _BLOCK),
    Kind(Format.ONIE, 0x25, "Manufacture Date", ("date",), 3, Reading.DATE_WITH_TIME),
    Kind(Format.ONIE, 0x2A, "Num MACs", ("macs",), 3, _NUMBER),
    Kind(Format.ONIE, 0x2B, "Manufacturer", ("manufacturer",), 3, _TEXT),
    Kind(Format.ONIE, 0x2C, "Country Code", ("country",), 3, _TEXT),
    Kind(Format.ONIE, 0x2D, "Vendor", ("vendor",), 3, _TEXT),
    Kind(Format.ONIE, 0xFD, "Vendor Extension", ("extension",), 3, _PLAIN),
)

_BY_NUMBER: Dict[int, Kind] = {kind.number: kind for kind in _KINDS}


def kinds(format: Optional[int] = None, *, edition: int = EDITION) -> List[Kind]:
    """Every kind that an edition names, of one format or of all."""
    return [
        kind
        for kind in _KINDS
        if 1 <= kind.since <= edition <= EDITION and format in (None, kind.format)
    ]


def kind_of(number: int) -> Optional[Kind]:
    """The kind of that number; None of 0 and of any number that no kind has."""
    return _BY_NUMBER.get(number)


def kind_name(number: int) -> Optional[str]:
    """The document's name of a kind, as boardid_kind_name of the header has it; else None."""
    kind = _BY_NUMBER.get(number)
    return kind.name if kind is not None else None


def words(name: str) -> str:
    """A name as names are compared: without regard to case, with blanks for - and _."""
    return name.replace("-", " ").replace("_", " ").casefold()
