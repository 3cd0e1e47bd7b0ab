"""Names: the table of kinds against what each edition of the library names, and the documents' names."""

from __future__ import annotations

import re
from typing import Optional

import pytest
from conftest import ROOT

import boardid
from boardid import Field, Format, Refused

# The names stand in the header's boardid_kind_name, before it had that in the example list.
SOURCES = "".join(
    (ROOT / path).read_text() for path in ("include/edition-4/boardid.h", "examples/list.c")
)
NAMES = re.compile(
    r"BOARDID_KIND\(BOARDID_FORMAT_(\w+),\s*BOARDID_[A-Z]+_(\w+)\)(?:,|:\s*return)\s*\"([^\"]*)\""
)


def refusal(format: int, code: int, edition: int) -> Optional[Refused]:
    """What a write of one field with that code is refused for."""
    try:
        boardid.write([Field(code, b"")], format, edition=edition)
    except Refused as refused:
        return refused
    return None


@pytest.mark.parametrize("edition", [1, 2, 3, 4])
@pytest.mark.parametrize("format", list(Format))
def test_an_edition_names_what_the_library_names(format: Format, edition: int) -> None:
    named = []
    for code in list(range(257)) + [format * 256 + 1, 0xFFFFFFFF]:
        refused = refusal(format, code, edition)
        if refused is None or refused.number not in (14, 16):
            named.append(code)
    assert [kind.code for kind in boardid.kinds(format, edition=edition)] == named


def test_editions_that_there_are_none_of() -> None:
    for edition in (0, 5, 0xFFFFFFFF):
        assert boardid.kinds(edition=edition) == []
        refused = refusal(Format.VPD, 1, edition)
        assert refused is not None and (refused.number, refused.place) == (1, 0)


def test_names_are_those_of_the_documents() -> None:
    listed = NAMES.findall(SOURCES)
    assert len(listed) == 40
    groups = {"FBOSS": boardid.Fboss, "VPD": boardid.Vpd, "TINY": boardid.Tiny, "ONIE": boardid.Onie}
    for format, constant, name in listed:
        kind = Format[format] * 256 + groups[format][constant]
        assert boardid.kind_name(kind) == (name.strip() or "string")
    assert len(boardid.kinds()) == len(listed)


def test_a_kind_by_its_number() -> None:
    kind = boardid.kind_of(4 * 256 + 0x23)
    assert kind is not None
    assert (kind.format, kind.code, kind.name, kind.short, kind.since) == (
        Format.ONIE,
        0x23,
        "Serial Number",
        ("serial",),
        3,
    )
    assert kind.number == 0x423
    assert boardid.kind_of(0) is None and boardid.kind_name(0) is None
    assert boardid.kind_name(0x426) is None


def test_short_names_stand_for_one_code_but_mac() -> None:
    for format in Format:
        seen: "dict[str, list[int]]" = {}
        for kind in boardid.kinds(format):
            for short in kind.short:
                seen.setdefault(short, []).append(kind.code)
        many = {short: codes for short, codes in seen.items() if len(codes) > 1}
        assert many == ({"mac": [17, 18, 19, 20]} if format == Format.FBOSS else {})


def test_words_of_formats() -> None:
    assert [Format.of(word) for word in ("fboss", "VPD", "3", "onie")] == list(Format)
    assert [format.title for format in Format] == [
        "FBOSS v5",
        "VPD 2.0",
        "Tiny EEPROM version 2",
        "ONIE TlvInfo version 1",
    ]
    for wrong in ("", "0", "5", "eeprom"):
        with pytest.raises(ValueError):
            Format.of(wrong)


def test_the_reading_of_each_kind_is_the_library_s() -> None:
    """An image with one field of each kind reads as the table says."""
    values = {
        boardid.Reading.TEXT: b"AB",
        boardid.Reading.NUMBER: b"\1",
        boardid.Reading.ADDRESS_BLOCK: bytes(8),
        boardid.Reading.STRING_NUMBER: b"\0",
        boardid.Reading.TEST_FLAGS: b"\0",
        boardid.Reading.IDENTITY: bytes(6),
        boardid.Reading.IDENTITY_WITH_BATCH: bytes(8),
        boardid.Reading.DATE: b"20240229",
        boardid.Reading.DATE_WITH_TIME: b"02/29/2024 23:59:59",
        boardid.Reading.PLAIN_BYTES: b"ABCD",
    }
    lengths = {(1, 3): b"A" * 8, (1, 4): b"A" * 12, (1, 5): b"A" * 12, (4, 0x2A): b"\0\1"}
    lengths.update({(3, 0x60): bytes(6), (4, 0x24): bytes(6)})
    for format in Format:
        kinds = sorted(boardid.kinds(format), key=lambda kind: kind.code == 1 and format == Format.TINY)
        fields = [
            Field(kind.code, lengths.get((format, kind.code), values[kind.reading]), b"k") for kind in kinds
        ]
        image = boardid.write(fields, format)
        assert [(one.kind, one.reading) for one in boardid.entries(image, format)] == [
            (kind.number, kind.reading) for kind in kinds
        ]
