"""Images: entries by name, new images with a change, JSON."""

from __future__ import annotations

import datetime
import json
from pathlib import Path
from typing import List

import pytest
from conftest import IMAGES, sample
from test_calls import SKU, refused

import boardid
from boardid import AddressBlock, Field, Flags, Format, Identity, Image, String
from boardid.image import Name


def test_an_image_of_each_sample(image_name: str, tmp_path: Path) -> None:
    data = sample(image_name)
    image = Image(bytearray(data))
    assert bytes(image) == image.data == data and image.room == len(data)
    assert list(image) == list(image.entries) == boardid.entries(data) and len(image) == len(image.entries)
    assert image.format.word == IMAGES[image_name] and image.edition == 4
    path = tmp_path / "file"
    path.write_bytes(b"before" + data + b"after")
    read = Image.read(path, offset=6, length=len(data))
    assert read == image and hash(read) == hash(image) and read != Image(data, edition=3)
    assert Image(data[: image.length], image.format).entries == image.entries
    with pytest.raises(boardid.Refused):
        Image(data[: image.length - 1], image.format)


def test_length_with_the_end() -> None:
    lengths = {"fboss.bin": 210, "sku.vpd": 9, "board.vpd": 84, "names.vpd": 48, "frames.vpd": 231}
    lengths.update({"tiny.bin": 74, "onie.bin": 202, "amplifier.bin": 188})
    assert {name: Image(sample(name)).length for name in IMAGES} == lengths
    for format, length in ((Format.VPD, 1), (Format.TINY, 4), (Format.ONIE, 17)):
        image = Image.new([], format, room=20)
        assert (image.length, image.room, len(image), bool(image)) == (length, 20, 0, True)


def test_read_of_a_file(tmp_path: Path) -> None:
    with pytest.raises(FileNotFoundError):
        Image.read(tmp_path / "none")
    path = tmp_path / "blank"
    path.write_bytes(b"\xff" * 16)
    with pytest.raises(boardid.Blank):
        Image.read(path)
    for offset, length in ((17, None), (8, 9), (-1, None), (0, -1)):
        with pytest.raises(ValueError):
            Image.read(path, offset=offset, length=length)


def test_names() -> None:
    onie = Image(sample("onie.bin"))
    serial = onie["serial"]
    assert serial.value == "LAB-000471"
    good: List[Name] = ["Serial Number", "serial-number", "SERIAL_NUMBER", "0x23", "35", "#2"]
    good += [0x23, boardid.Onie.SERIAL_NUMBER]
    for name in good:
        assert onie[name] == serial
        assert name in onie and onie.get(name) == serial
    assert onie["0x26"].kind == 0 and onie["mac #1 base"].code == 0x24
    wrong: List[Name] = ["serial2", "#13", "#", "", "0x", "0xzz", 0x99, b"serial", "Serial", "-1"]
    for name in wrong:
        with pytest.raises(boardid.NoSuchName):
            onie[name]
        assert name not in onie and onie.get(name) is None
    assert serial in onie and None not in onie
    with pytest.raises(KeyError) as caught:
        onie["serial2"]
    assert str(caught.value).startswith("no entry serial2; it has: Product Name, Part Number, ")


def test_names_of_vpd() -> None:
    vpd = Image(sample("names.vpd"))
    assert vpd["SKU"] == vpd[b"SKU"] == vpd["#2"]
    assert vpd["info"] == vpd["Info-Header"] == vpd["0xFE"] == vpd["gVpdInfo"] == vpd[0xFE]
    assert vpd[b"\x1bc\"\\\x00\xff"].value == b"x"
    for name in ("sku", "254", "lab rack"):
        assert name not in vpd
    with pytest.raises(boardid.AmbiguousName) as caught:
        vpd["0x01"]
    assert caught.value.numbers == (1, 2, 3)


def test_a_name_that_fits_two() -> None:
    fboss = Image(sample("fboss.bin"))
    with pytest.raises(boardid.AmbiguousName) as caught:
        fboss["mac"]
    assert caught.value.numbers == (16, 17, 18, 19)
    assert "say #16 or #17 or #18 or #19" in str(caught.value)
    assert fboss["cpu-mac"] == fboss["17"] == fboss["X86 CPU MAC Addresses"]
    assert "cpu-mac" not in Image(sample("fboss.bin"), edition=1)
    extensions = Image(sample("amplifier.bin"))
    with pytest.raises(boardid.AmbiguousName):
        extensions.without("extension")


def test_new_values() -> None:
    fboss = Image(sample("fboss.bin"))
    assert fboss.with_value("serial", "SN-8")["serial"].value == "SN-8"
    assert fboss.with_value("state", 200)["state"].value == 200
    assert fboss.with_value("date", datetime.date(2024, 2, 29))["date"].raw == b"20240229"
    assert fboss.with_value("date", "2024-02-29")["date"].raw == b"20240229"
    assert fboss.with_value("date", "20240229")["date"].value == datetime.date(2024, 2, 29)
    block = AddressBlock.of("02-1A-2B-3C-4D-5E", 7)
    assert fboss.with_value("bmc-mac", block)["bmc-mac"].value == block
    assert fboss.with_value("bmc-mac", "021a2b3c4d5e/7")["bmc-mac"].value == block
    assert fboss.with_value("bmc-mac", block.packed + b"\0\7")["bmc-mac"].value == block
    onie = Image(sample("onie.bin"))
    when = datetime.datetime(2023, 12, 31, 23, 59, 58)
    assert onie.with_value("date", when)["date"].raw == b"12/31/2023 23:59:58"
    assert onie.with_value("date", "2023-12-31T23:59:58")["date"].value == when
    assert onie.with_value("date", "2023-12-31 23:59:58")["date"].value == when
    assert onie.with_value("date", "12/31/2023 23:59:58")["date"].value == when
    assert onie.with_value("macs", 258)["macs"].raw == b"\1\2"
    assert onie.with_value("mac", "02:00:00:00:00:01")["mac"].raw == bytes.fromhex("020000000001")
    vpd = Image(sample("board.vpd"))
    assert vpd.with_value("UUID", "text")["UUID"].value == b"text"
    assert vpd.with_value("info", b"1234")["info"].value == b"1234"
    assert fboss == Image(sample("fboss.bin")) and onie.data == sample("onie.bin")


def test_new_values_that_are_refused() -> None:
    fboss, onie = Image(sample("fboss.bin")), Image(sample("onie.bin"))
    place = fboss["state"].place
    for number in (256, -1):
        assert refused(lambda: fboss.with_value("state", number)) == (7, place)
    assert refused(lambda: fboss.with_value("date", "20230231")) == (7, fboss["date"].place)
    assert refused(lambda: fboss.with_value("date", "2023-02-31")) == (7, fboss["date"].place)
    assert refused(lambda: fboss.with_value("serial", "\u00e9")) == (7, fboss["serial"].place)
    assert refused(lambda: fboss.with_value("bmc-mac", "021a2b3c4d5e/65536")) == (7, fboss["bmc-mac"].place)
    assert refused(lambda: onie.with_value("macs", 65536)) == (7, onie["macs"].place)
    assert refused(lambda: onie.with_value("mac", "02:00:00:00:00:01/2")) == (7, onie["mac"].place)
    assert refused(lambda: onie.with_value("country", "cz")) == (7, onie["country"].place)
    assert refused(lambda: onie.with_value("0x26", b"x")) == (14, onie["0x26"].place)
    assert refused(lambda: onie.with_value("0x26", "x")) == (14, onie["0x26"].place)
    assert refused(lambda: onie.with_value("serial", "x" * 255, room=300)) == (12, 0)
    for name, wrong in (("serial", 7), ("macs", "7"), ("date", 7), ("date", datetime.date(2024, 1, 1))):
        with pytest.raises(TypeError):
            onie.with_value(name, wrong)
    with pytest.raises(TypeError):
        fboss.with_value("date", datetime.datetime(2024, 1, 1))
    with pytest.raises(TypeError):
        onie.with_value("extension", "text")
    no_addresses = ["02:1a:2b:3c:4d", "02:1a:2b:3c:4d:5e:6f", "02:1a-2b:3c:4d:5e", "2:1a:2b:3c:4d:5e"]
    no_addresses += ["021a2b3c4d", "021a2b3c4d5e6f", "zz1a2b3c4d5e", "0 1a2b3c4d5e", ""]
    for text in no_addresses:
        with pytest.raises(ValueError):
            onie.with_value("mac", text)
    zone = datetime.datetime(2024, 1, 1, tzinfo=datetime.timezone.utc)
    with pytest.raises(ValueError):
        onie.with_value("date", zone)


def test_fields_and_removals() -> None:
    onie = Image(sample("onie.bin"))
    less = onie.without("serial")
    assert "serial" not in less and len(less) == 12 and less.room == onie.room
    again = less.with_field("Serial-Number", "SN-8")
    assert again["serial"].value == "SN-8" and again["serial"].number == 12
    assert less.with_field(0x23, b"SN-8") == again == less.with_field("35", "SN-8")
    assert refused(lambda: onie.with_field("serial", "x")) == (8, 0)
    assert refused(lambda: onie.with_field(0x26, b"x")) == (14, 0)
    assert refused(lambda: onie.with_field(0x26, "x")) == (14, 0)
    assert refused(lambda: onie.without("0x26")) == (14, onie["0x26"].place)
    with pytest.raises(boardid.NoSuchName):
        onie.with_field("serial2", "x")
    with pytest.raises(boardid.AmbiguousName):
        Image(sample("fboss.bin")).with_field("mac", "x")
    with pytest.raises(TypeError):
        onie.with_field("serial", "x", code=1)
    vpd = Image(sample("board.vpd"))
    more = vpd.with_field("note", "rack 7")
    assert more["note"].raw == b"rack 7" and more["note"].code == 1 and more[b"note"].number == 4
    assert more.without(b"note") == Image(boardid.remove(more.data, 4))
    assert refused(lambda: vpd.with_field("lab.rack", "x")) == (7, 0)
    bare = vpd.without("info")
    assert bare.with_field("k.y", b"1234", code=0xFE)["info"].key == b"k.y"
    assert bare.with_field(0xFE, b"1234")["info"].key == b""
    assert refused(lambda: Image(SKU).with_field("k", "v")) == (12, 0)
    assert Image(SKU).with_field("k", "v", room=16).room == 16
    assert Image(SKU).without("SKU").data == b"\0" + b"\xff" * 8


def test_strings_of_the_pool() -> None:
    tiny = Image(sample("tiny.bin"), edition=4)
    assert tiny.strings == ("S4711", "PN-1002", "RACK-17", "SYS-88") and Image(SKU).strings == ()
    # (1) the pool has the text
    assert tiny.with_value("serial", "RACK-17")["serial"].value == String(2, "RACK-17")
    assert tiny.with_value("serial", "RACK-17").strings == tiny.strings
    # (3) others count the old string: the new one comes last
    longer = tiny.with_value("serial", "NEW", room=100)
    assert longer.strings == tiny.strings + ("NEW",) and longer["serial"].value == String(4, "NEW")
    assert longer["identity"] == tiny["identity"]
    assert refused(lambda: tiny.with_value("serial", "NEW")) == (12, 0)
    # (2) nothing else counts it: it is rewritten, and no number changes
    again = longer.with_value("serial", "OTHER")
    assert again.strings == tiny.strings + ("OTHER",) and again["serial"].value == String(4, "OTHER")
    assert refused(lambda: tiny.with_value("serial", "")) == (7, tiny["serial"].place)
    assert refused(lambda: tiny.with_value("serial", "\u00e9")) == (7, tiny["serial"].place)
    assert tiny.with_value("serial", 3)["serial"].value == String(3, "SYS-88")
    assert tiny.with_value("serial", String(3))["serial"].value == String(3, "SYS-88")
    bare = Image.new([Field(0x10, b"\0")], Format.TINY, room=64)
    assert bare["serial"].value == String(0, None)
    first = bare.with_value("serial", "A")
    assert first.strings == ("A",) and first["serial"].value == String(0, "A")
    assert Image.new([], Format.TINY, room=64).with_field("serial", "A")["serial"].value == String(0, "A")
    rest = bare.with_field("pool", b"\xc1tail")
    assert rest.strings == ("A",) and rest.with_value("serial", "B").strings == ("B",)
    twice = rest.with_field("identity", Identity(String(0), String(0), 1, 2))
    with pytest.raises(boardid.Error, match="the pool ends in bytes of no string"):
        twice.with_value("serial", "B")


def test_an_entry_without_a_name_may_count_a_string() -> None:
    """Edition 1 does not name 80h, which counts string 0: it must not lose its text."""
    fields = [Field(0x10, b"\0"), Field(0x80, bytes(8)), Field(1, b"S\xb1")]
    old = Image(boardid.write(fields, Format.TINY, room=64), edition=1)
    changed = old.with_value("serial", "T2")
    assert changed.strings == ("S1", "T2")
    newer = Image(changed.data)["identity-batch"].value
    assert isinstance(newer, Identity) and newer.serial.text == "S1"


def test_an_entry_without_a_name_that_counts_another_string() -> None:
    fields = [Field(0x10, b"\1"), Field(0x80, bytes(8)), Field(1, b"S\xb1T\xb1")]
    old = Image(boardid.write(fields, Format.TINY, room=64), edition=1)
    assert old.with_value("serial", "NEW").strings == ("S1", "NEW")


def test_a_tag_that_no_edition_names_may_count_any_string() -> None:
    """53h is a tag of five bytes. Its image is made by hand, with every check: one is right."""
    body = bytes.fromhex("5602111000531122334455") + b"\x01\x03A\xc1B"
    made = [body + bytes([check]) for check in range(256)]
    (image,) = [Image(one + b"\xff" * 9) for one in made if number_of(one) == 0]
    assert image.entries[1].kind == 0 and image.strings == ("AA",)
    with pytest.raises(boardid.Error, match="the pool ends in bytes of no string"):
        image.with_value("serial", "NEW")


def number_of(data: bytes) -> int:
    """What an image is refused with, or 0."""
    try:
        boardid.check(data)
    except boardid.Refused as refused:
        return refused.number
    return 0


def test_an_identity_whose_texts_are_swapped() -> None:
    """A string that one half has just been given is not rewritten for the other."""
    fields = [Field(0x61, b"\0\1\0\0\0\0"), Field(1, b"A\xc1B\xc2")]
    image = Image(boardid.write(fields, Format.TINY, room=64))
    for given, texts in (
        ({"serial": "BB", "part": "NEW"}, ("BB", "NEW")),
        ({"serial": "NEW", "part": "AA"}, ("NEW", "AA")),
        ({"serial": "BB", "part": "AA"}, ("BB", "AA")),
        ({"serial": 1, "part": "NEW"}, ("BB", "NEW")),
        ({"serial": "NEW", "part": 0}, ("NEW", "AA")),
        ({"serial": "NEW", "part": String(1)}, ("NEW", "BB")),
        ({"serial": "X", "part": "X"}, ("X", "X")),
        ({"part": "NEW"}, ("AA", "NEW")),
    ):
        value = image.with_value("identity", given)["identity"].value
        assert isinstance(value, Identity) and (value.serial.text, value.part.text) == texts
    with pytest.raises(TypeError):
        image.with_value("identity", {"serial": 1.5})


def test_flags_identities_and_pools() -> None:
    tiny = Image(sample("tiny.bin"))
    for flags, number in (
        (Flags(9), 9),
        (9, 9),
        ("assembly,system", 9),
        ("none", 0),
        ("0x41", 0x41),
        ("burn-in,0x40", 0x44),
        (("configuration",), 2),
        ((), 0),
    ):
        assert tiny.with_value("tests", flags)["tests"].value == Flags(number)
    assert str(Flags(0x49)) == "assembly,system,0x40" and str(Flags(0)) == "none"
    assert Flags(0x4F).passed == 4 and Flags(0x4F).reserved == 0x40
    for wrong in ("tested", "", "assembly,none"):
        with pytest.raises(ValueError):
            tiny.with_value("tests", wrong)
    assert refused(lambda: tiny.with_value("tests", 256)) == (7, tiny["tests"].place)
    changed = tiny.with_value("identity", {"revision": "0B.07", "part": "SYS-88"})["identity"].value
    assert changed == Identity(String(0, "S4711"), String(3, "SYS-88"), 129, 7, b"A1")
    batch = tiny.with_value("identity-batch", {"batch": 1234, "free": "2020"})["identity-batch"].value
    assert batch == Identity(String(0, "S4711"), String(1, "PN-1002"), 1, 99, b"  ", 1234)
    whole = Identity(String(3, "SYS-88"), String(2, "RACK-17"), 99, 99, b"\0\0")
    assert tiny.with_value("identity", whole)["identity"].value == whole
    place = tiny["identity-batch"].place
    assert refused(lambda: tiny.with_value("identity-batch", {"batch": 10000})) == (7, place)
    assert refused(lambda: tiny.with_value("identity-batch", {"batch": 70000})) == (7, place)
    assert refused(lambda: tiny.with_value("identity", {"revision": "100.00"})) == (7, tiny["identity"].place)
    assert refused(lambda: tiny.with_value("identity", {"batch": 1})) == (7, tiny["identity"].place)
    for given in ({"color": 1}, {"revision": "A.1"}, {"revision": "01"}, {"revision": "0A.x"}):
        with pytest.raises(ValueError):
            tiny.with_value("identity", given)
    less = tiny.without("identity")
    with pytest.raises(ValueError):
        less.with_field("identity", {"serial": "S4711"})
    made = less.with_field("identity", {"serial": "S4711", "part": "PN-1002", "revision": "01.02"})
    assert made["identity"].value == Identity(String(0, "S4711"), String(1, "PN-1002"), 1, 2)
    assert tiny.with_value("pool", ["A", "BC"]).strings == ("A", "BC")
    assert tiny.with_value("pool", b"A\xc2").strings == ("AB",)
    with pytest.raises(TypeError):
        tiny.with_value("pool", "AB")


def test_json(image_name: str) -> None:
    image = Image(sample(image_name))
    made = json.loads(image.to_json())
    assert made == image.to_dict() and image.to_json().isascii()
    assert list(made) == ["file", "format", "edition", "offset", "length", "room", "entries"]
    assert (made["file"], made["format"], made["edition"]) == (None, IMAGES[image_name], 4)
    assert (made["length"], made["room"]) == (image.length, image.room)
    for entry, one in zip(image, made["entries"]):
        assert bytes.fromhex(one["bytes"]) == entry.raw
        assert (one["number"], one["code"], one["kind"]) == (entry.number, entry.code, entry.kind)
        assert ("key" in one) == ("key_bytes" in one) == (image.format == Format.VPD)
        assert one["value_place"] + one["value_length"] == one["place"] + one["frame_length"]


def test_json_of_each_type() -> None:
    tiny = {one["code"]: one for one in Image(sample("tiny.bin")).to_dict()["entries"]}
    assert list(tiny[0x10]) == [
        "number", "code", "kind", "name", "short", "place", "frame_length", "value_place", "value_length",
        "type", "value", "string_number", "bytes",
    ]  # fmt: skip
    assert (tiny[0x10]["type"], tiny[0x10]["value"], tiny[0x10]["string_number"]) == ("string", "S4711", 0)
    assert (tiny[0x11]["value"], tiny[0x11]["flags"]) == (["assembly", "configuration", "burn-in"], 7)
    assert (tiny[0x60]["type"], tiny[0x60]["value"], tiny[0x60]["count"]) == ("address", "02:1a:2b:3c:4d:5e", 1)
    assert tiny[0x80]["value"] == {
        "serial": "S4711", "serial_string": 0, "part": "PN-1002", "part_string": 1,
        "revision": "01.99", "free": "4232", "batch": 42,
    }  # fmt: skip
    assert "batch" not in tiny[0x61]["value"] and tiny[0x61]["value"]["revision"] == "0A.05"
    assert tiny[1]["value"] == ["S4711", "PN-1002", "RACK-17", "SYS-88"] and "rest" not in tiny[1]
    onie = {one["code"]: one for one in Image(sample("onie.bin")).to_dict()["entries"]}
    assert (onie[0x25]["type"], onie[0x25]["value"]) == ("datetime", "2024-02-03T04:05:06")
    assert (onie[0x26]["type"], onie[0x26]["value"], onie[0x26]["name"]) == ("bytes", "01", None)
    assert (onie[0x2A]["type"], onie[0x2A]["value"], onie[0x2A]["short"]) == ("number", 3, ["macs"])
    fboss = {one["code"]: one for one in Image(sample("fboss.bin")).to_dict()["entries"]}
    assert (fboss[13]["type"], fboss[13]["value"]) == ("date", "2013-02-03")
    assert (fboss[17]["count"], fboss[17]["short"]) == (258, ["cpu-mac", "mac"])
    vpd = Image(sample("names.vpd")).to_dict()["entries"]
    assert (vpd[0]["type"], vpd[0]["value"], vpd[0]["name"]) == ("bytes", "21000000", "info header")
    assert (vpd[1]["type"], vpd[1]["value"], vpd[1]["name"], vpd[1]["key"]) == ("text", "R07", None, "lab.rack")
    assert (vpd[3]["key"], vpd[3]["key_bytes"]) == (None, "1b63225c00ff")
    early = datetime.date(1, 2, 3)
    assert Image(sample("fboss.bin")).with_value("date", early).to_dict()["entries"][12]["value"] == "0001-02-03"


def test_json_of_strings_that_are_no_text() -> None:
    bare = Image.new([Field(0x10, b"\0"), Field(1, b"\x1b\xc1ab")], Format.TINY, room=64)
    serial, pool = bare.to_dict()["entries"]
    assert (serial["value"], serial["string_number"]) == (None, 0)
    assert (pool["value"], pool["rest"]) == (None, "6162")


def test_what_an_image_prints() -> None:
    image = Image(sample("names.vpd"))
    assert repr(image) == "<boardid.Image VPD 2.0, edition 4, 4 entries, 48 of 64 bytes>"
    lines = str(image).splitlines()
    assert lines[0] == "VPD 2.0, edition 4, 4 entries, 48 of 64 bytes"
    assert lines[-1].split() == ["#3", "0x01", '\\x1bc"\\\\\\x00\\xff', "x"]
    assert str(image).replace("\n", "").isprintable()
