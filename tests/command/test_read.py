"""list, get, check, strings and names on every sample, for people and in JSON."""

from __future__ import annotations

from pathlib import Path
from typing import Any

import pytest

import formats as f
import shown
from running import DONE, NAMES, REFUSED, SAMPLES, USAGE, Result, format_of, model, run, sample

HEAD = ["file", "format", "edition", "offset", "length", "room"]
TINY_WITHOUT_POOL = f.write(f.TINY, 4, [f.Field(0x10, b"\x03"), f.Field(0x61, bytes([7, 0, 1, 2, 0x20, 0x0A]))], 20)


def head(name: str, edition: int = 4) -> dict[str, Any]:
    """The first six keys of an answer about a sample."""
    return {
        "file": str(SAMPLES / name),
        "format": f.FORMAT_WORDS[format_of(name)],
        "edition": edition,
        "offset": 0,
        "length": model(name, edition).length,
        "room": len(sample(name)),
    }


@pytest.mark.parametrize("name", NAMES)
def test_list_json(name: str) -> None:
    image = model(name)
    answer = run("list", "--json", SAMPLES / name).json
    assert list(answer) == HEAD + ["entries"]
    assert {key: answer[key] for key in HEAD} == head(name)
    assert len(answer["entries"]) == len(image.entries)
    for entry, said in zip(image.entries, answer["entries"]):
        wanted = shown.entry_json(image, entry)
        assert said == wanted
        assert list(said) == list(wanted)


@pytest.mark.parametrize("edition", [1, 2, 3, 4])
@pytest.mark.parametrize("name", NAMES)
def test_list_json_of_every_edition(name: str, edition: int) -> None:
    result = run("list", "-j", "-e", edition, SAMPLES / name)
    if format_of(name) == f.ONIE and edition < 3:
        assert result.status == REFUSED
        assert result.error["number"] == 16
        return
    image = model(name, edition)
    for entry, said in zip(image.entries, result.json["entries"]):
        assert said == shown.entry_json(image, entry)


def line_of(result: Result, number: int) -> str:
    """The line of the table that begins with an entry's number."""
    lines = [line for line in result.text.splitlines() if line.split()[:1] in ([f"#{number}"], [str(number)])]
    assert len(lines) == 1, result.text
    return lines[0]


def in_table(image: f.Image, entry: f.Entry) -> str:
    """What the table shows of a value."""
    kind, value = shown.type_of(image, entry), entry.value
    if kind == "address" and len(value) == 8:
        count = int.from_bytes(value[6:], "big")
        return f"{shown.address(value)}, {count} address{'' if count == 1 else 'es'}"
    if kind == "datetime":
        return shown.got(image, entry).replace("T", " ")
    if kind == "flags":
        names = shown.tests_passed(value[0])
        return f"{len(names)} of 4: {', '.join(names)}" if names else "0 of 4"
    if kind == "identity":
        serial, part = shown.string_at(image, value[0]), shown.string_at(image, value[1])
        assert serial is not None and part is not None
        free = f"{value[4]:02x}:{value[5]:02x}"
        batch = f", batch {value[6] + 256 * value[7]:04d}" if len(value) == 8 else ""
        return (
            f'serial "{shown.escaped(serial)}", part "{shown.escaped(part)}", '
            f"revision {shown.revision(value[2], value[3])}, free {free}{batch}"
        )
    if kind == "bytes":
        words = " ".join(f"{byte:02x}" for byte in value[:32])
        return words + (f" .. ({len(value)} bytes)" if len(value) > 32 else "")
    return shown.got(image, entry)


@pytest.mark.parametrize("name", NAMES)
def test_list_table(name: str) -> None:
    image = model(name)
    result = run("list", SAMPLES / name)
    assert result.status == DONE
    assert len([line for line in result.text.splitlines() if line]) >= len(image.entries)
    for entry in image.entries:
        line = line_of(result, entry.number)
        assert in_table(image, entry) in line
        named = f.named(image.fmt, 4, entry.code)
        if image.fmt == f.VPD:
            assert shown.escaped(entry.key) in line
        elif named is not None:
            assert named.name in line
        else:
            assert f"{entry.code:02x}" in line.lower() or str(entry.code) in line


def test_table_cuts_long_text() -> None:
    text = b"0123456789" * 50
    image = f.write(f.VPD, 4, [f.Field(1, text, b"long"), f.Field(1, b"\x1b" * 40, b"raw")], 700)
    line = line_of(run("list", "-", stdin=image), 0)
    assert text[:256].decode() in line and text[:257].decode() not in line
    assert ".. (500 bytes)" in line
    assert ".. (40 bytes)" in line_of(run("list", "-", stdin=image), 1)
    assert run("get", "-", "long", stdin=image).text == text.decode() + "\n"
    assert run("get", "-", "raw", stdin=image).text == "1b" * 40 + "\n"


@pytest.mark.parametrize("name", NAMES)
def test_get(name: str) -> None:
    image = model(name)
    for entry in image.entries:
        wanted = shown.got(image, entry) + "\n"
        assert run("get", SAMPLES / name, f"#{entry.number}").text == wanted
        assert run("get", "-x", SAMPLES / name, f"#{entry.number}").text == entry.value.hex() + "\n"
        raw = run("get", "--raw", SAMPLES / name, f"#{entry.number}", raw=True)
        assert (raw.status, raw.out) == (DONE, entry.value)


@pytest.mark.parametrize("name", NAMES)
def test_get_json(name: str) -> None:
    image = model(name)
    for entry in image.entries:
        answer = run("get", SAMPLES / name, f"#{entry.number}", "--json").json
        assert list(answer) == HEAD + ["entry"]
        assert {key: answer[key] for key in HEAD} == head(name)
        assert answer["entry"] == shown.entry_json(image, entry)


@pytest.mark.parametrize("name", NAMES)
def test_get_by_every_name(name: str) -> None:
    image = model(name)
    all_names = {entry.number: shown.names_of(image, entry) for entry in image.entries}
    for entry in image.entries:
        for word in all_names[entry.number]:
            fits = [n for n, words in all_names.items() if word in words]
            result = run("get", SAMPLES / name, word)
            if len(fits) == 1:
                assert result.status == DONE, word
                assert result.text == shown.got(image, entry) + "\n"
            else:
                assert result.status == REFUSED, word
                for n in fits:
                    assert f"#{n}" in result.said
                    assert f"entry {n}" in result.said
                error = run("get", "-j", SAMPLES / name, word).error
                assert error["number"] is None


def test_ambiguous_names_are_told() -> None:
    result = run("get", SAMPLES / "fboss.bin", "mac")
    for n, words in enumerate(["X86 CPU", "BMC", "Switch ASIC", "Meta Reserved"]):
        assert f"entry {16 + n}, {words} MAC Addresses" in result.said
        assert f"#{16 + n}" in result.said


@pytest.mark.parametrize("name", NAMES)
@pytest.mark.parametrize("word", ["serial2", "#99", "#-1", "0x99", "", "#", "#1x", "99999999999999999999", "#18446744073709551616"])
def test_get_of_what_is_not_there(name: str, word: str) -> None:
    result = run("get", "-j", SAMPLES / name, word)
    assert result.status == REFUSED
    assert result.error["number"] == 13
    plain = run("get", SAMPLES / name, word)
    assert plain.out == b""
    assert plain.status == REFUSED


def test_not_there_says_what_is() -> None:
    said = run("get", SAMPLES / "onie.bin", "serial2").said
    assert "no entry serial2" in said
    named = said.split("it has: ")[1].split(" (")[0].split(", ")
    assert "serial" in named and "country" in named and "0x26" in named
    for word in named:
        assert run("get", SAMPLES / "onie.bin", word).status == DONE


def test_vpd_keys_are_exact() -> None:
    assert run("get", SAMPLES / "sku.vpd", "SKU").text == "A7\n"
    assert run("get", SAMPLES / "sku.vpd", "sku").status == REFUSED
    assert run("get", SAMPLES / "sku.vpd", "SK").status == REFUSED
    assert run("get", SAMPLES / "names.vpd", "lab.rack").text == "R07\n"
    assert run("get", SAMPLES / "names.vpd", "lab_rack").status == REFUSED


def test_vpd_codes_are_hexadecimal_only() -> None:
    assert run("get", SAMPLES / "board.vpd", "0xfe").status == DONE
    assert run("get", SAMPLES / "board.vpd", "0xFE").status == DONE
    assert run("get", SAMPLES / "board.vpd", "254").status == REFUSED
    image = f.write(f.VPD, 4, [f.Field(1, b"one", b"254"), f.Field(0xFE, b"abcd")], 40)
    assert run("get", "-", "254", stdin=image).text == "one\n"


def test_a_key_that_is_also_a_code_or_a_short_name() -> None:
    image = f.write(f.VPD, 4, [f.Field(1, b"one", b"info"), f.Field(0xFE, b"abcd")], 40)
    result = run("get", "-", "info", stdin=image)
    assert result.status == REFUSED
    assert "#0" in result.said and "#1" in result.said


@pytest.mark.parametrize("name", NAMES)
def test_list_names(name: str) -> None:
    image = model(name)
    result = run("list", "--names", SAMPLES / name)
    lines = result.text.splitlines()
    assert lines
    for line in lines:
        assert run("get", SAMPLES / name, line).status == DONE, line
    reached = {
        entry.number
        for entry in image.entries
        for line in lines
        if line in shown.names_of(image, entry) | {f"#{entry.number}"}
    }
    assert reached == {entry.number for entry in image.entries}


@pytest.mark.parametrize("name", NAMES)
def test_check(name: str) -> None:
    image = model(name)
    result = run("check", SAMPLES / name)
    assert result.status == DONE
    free = len(sample(name)) - image.length
    for word in (len(image.entries), image.length, free):
        assert str(word) in result.text
    assert {1: "FBOSS v5", 2: "VPD 2.0", 3: "Tiny EEPROM version 2", 4: "ONIE TlvInfo version 1"}[image.fmt] in result.text
    answer = run("check", "-j", SAMPLES / name).json
    assert list(answer) == HEAD + ["entries"]
    assert answer == head(name) | {"entries": len(image.entries)}


def test_strings() -> None:
    result = run("strings", SAMPLES / "tiny.bin")
    assert result.status == DONE
    for number, text in enumerate(["S4711", "PN-1002", "RACK-17", "SYS-88"]):
        assert text in result.text
        assert str(number) in result.text
    answer = run("strings", "-j", SAMPLES / "tiny.bin").json
    assert list(answer) == HEAD + ["strings", "rest"]
    pool = model("tiny.bin").entries[-1]
    place = pool.value_place
    for number, stored in enumerate(f.pool_strings(pool.value)[0]):
        assert answer["strings"][number] == {
            "number": number,
            "text": f.string_text(stored).decode(),
            "place": place,
            "length": len(stored),
        }
        place += len(stored)
    assert len(answer["strings"]) == 4
    assert answer["rest"] == ""


def test_places_of_strings_count_the_offset() -> None:
    first = run("strings", "-j", SAMPLES / "tiny.bin").json["strings"]
    second = run("strings", "-j", "-o", "3", "-", stdin=b"abc" + sample("tiny.bin")).json["strings"]
    assert second == [string | {"place": string["place"] + 3} for string in first]


def test_strings_with_a_rest() -> None:
    image = f.write(f.TINY, 4, [f.Field(0x01, b"AB\xc3DE")], 30)
    answer = run("strings", "-j", "-", stdin=image).json
    assert [s["text"] for s in answer["strings"]] == ["ABC"]
    assert answer["rest"] == "4445"


def test_strings_that_are_not_printable() -> None:
    image = f.write(f.TINY, 4, [f.Field(0x10, b"\0"), f.Field(0x01, b"A\x1b\xc3\\\xdcAB\xc3")], 40)
    text = run("strings", "-", stdin=image).text
    assert "A\\x1bC" in text and "\\\\\\\\" in text and "ABC" in text
    answer = run("strings", "-j", "-", stdin=image).json
    assert [s["text"] for s in answer["strings"]] == [None, "\\\\", "ABC"]
    assert run("get", "-", "serial", stdin=image).text == "A\\x1bC\n"


def test_strings_refused() -> None:
    assert run("strings", "-j", "-", stdin=TINY_WITHOUT_POOL).error["number"] == 15
    assert run("strings", "-j", SAMPLES / "onie.bin").error["number"] == 16


def test_string_that_the_pool_does_not_have() -> None:
    wanted = "string 3, which the pool does not have"
    assert run("get", "-", "serial", stdin=TINY_WITHOUT_POOL).text == wanted + "\n"
    assert wanted in run("list", "-", stdin=TINY_WITHOUT_POOL).text
    answer = run("get", "-j", "-", "serial", stdin=TINY_WITHOUT_POOL).json["entry"]
    assert (answer["value"], answer["string_number"]) == (None, 3)
    answer = run("get", "-j", "-", "identity", stdin=TINY_WITHOUT_POOL).json["entry"]["value"]
    assert (answer["serial"], answer["serial_string"]) == (None, 7)
    assert (answer["part"], answer["part_string"]) == (None, 0)
    assert (answer["revision"], answer["free"]) == ("01.02", "200a")


@pytest.mark.parametrize("byte", [0x00, 0x01, 0x05, 0x0F, 0x40, 0xF8, 0xFF])
def test_flags(byte: int) -> None:
    image = f.read(f.TINY, 4, data := f.write(f.TINY, 4, [f.Field(0x11, bytes([byte]))], 9))
    entry = image.entries[0]
    assert run("get", "-", "tests", stdin=data).text == shown.got(image, entry) + "\n"
    answer = run("get", "-j", "-", "tests", stdin=data).json["entry"]
    assert answer == shown.entry_json(image, entry)


@pytest.mark.parametrize("name", NAMES)
def test_standard_input(name: str) -> None:
    by_file = run("list", "-j", SAMPLES / name).json
    by_input = run("list", "-j", "-", stdin=sample(name)).json
    assert by_input | {"file": ""} == by_file | {"file": ""}


@pytest.mark.parametrize("name", NAMES)
def test_forced_format(name: str) -> None:
    data = sample(name)
    for fmt, word in f.FORMAT_WORDS.items():
        for given in (word, str(fmt)):
            result = run("check", "-j", "-f", given, SAMPLES / name)
            try:
                image = f.read(fmt, 4, data)
            except f.Refused as refused:
                assert result.status == REFUSED
                assert (result.error["number"], result.error["place"]) == (refused.number, refused.place)
            else:
                assert result.json["format"] == word
                assert result.json["entries"] == len(image.entries)


@pytest.mark.parametrize("word", ["0", "5", "ONI", "", "eeprom", "1x", "-1"])
def test_unknown_format(word: str) -> None:
    assert run("list", "-f", word, SAMPLES / "onie.bin").status == USAGE


@pytest.mark.parametrize("edition", [0, 5, 6, 4294967295])
@pytest.mark.parametrize("name", NAMES)
def test_unknown_edition(name: str, edition: int) -> None:
    result = run("list", "-j", "-e", edition, SAMPLES / name)
    assert result.status == REFUSED
    assert result.error["number"] == 1


@pytest.mark.parametrize("word", ["", "x", "-1", "4294967296", "4x", "1.5", "0x"])
def test_edition_that_is_no_number(word: str) -> None:
    assert run("list", "-e", word, SAMPLES / "onie.bin").status == USAGE


@pytest.mark.parametrize("name", NAMES)
def test_offset_and_length(name: str, tmp_path: Path) -> None:
    data = sample(name)
    path = tmp_path / "two"
    path.write_bytes(b"\x01before" + data + b"after")
    wanted = run("list", "-j", SAMPLES / name).json
    for offset in ("7", "0x7", "0x07"):
        answer = run("list", "-j", "-o", offset, "-l", len(data), path).json
        assert (answer["offset"], answer["room"], answer["length"]) == (7, len(data), wanted["length"])
        for entry, before in zip(answer["entries"], wanted["entries"]):
            places = {"place": before["place"] + 7, "value_place": before["value_place"] + 7}
            assert entry == before | places
    answer = run("check", "-j", f"--offset={7}", path).json
    assert answer["room"] == len(data) + 5


def test_offset_and_length_past_the_end(tmp_path: Path) -> None:
    path = tmp_path / "small"
    path.write_bytes(sample("sku.vpd"))
    for words in (["-o", "10"], ["-o", "1", "-l", "9"], ["-l", "10"], ["-o", "18446744073709551615"], ["-l", "18446744073709551615", "-o", "5"]):
        result = run("list", *words, path)
        assert result.status == 3, words
        assert "9 bytes" in result.said
    for words in (["-o", "9"], ["-l", "0"]):
        result = run("list", *words, path)
        assert result.status == 3
        assert "empty" in result.said


@pytest.mark.parametrize("word", ["", "x", "-1", "1x", "0xg", "99999999999999999999999", "1.0"])
def test_offset_that_is_no_number(word: str) -> None:
    assert run("list", "-o", word, SAMPLES / "onie.bin").status == USAGE
    assert run("list", "-l", word, SAMPLES / "onie.bin").status == USAGE


@pytest.mark.parametrize("edition", [1, 2, 3, 4])
def test_names(edition: int) -> None:
    answer = run("names", "-j", "-e", edition).json
    assert list(answer) == ["edition", "names"]
    assert answer["edition"] == edition
    said = {(row["format"], row["code"]): row for row in answer["names"]}
    wanted = {
        (f.FORMAT_WORDS[fmt], code.code): (fmt, code)
        for fmt in f.NAMED
        for code in f.NAMED[fmt].values()
        if code.since <= edition
    }
    assert set(said) == set(wanted)
    assert len(answer["names"]) == len(wanted)
    for key, (fmt, code) in wanted.items():
        row = said[key]
        assert list(row) == ["format", "code", "kind", "name", "short", "since", "type"]
        assert row["kind"] == fmt * 256 + code.code
        assert row["short"] == list(code.short)
        assert row["since"] == code.since
        if key != ("vpd", 1):
            assert row["name"] == code.name
            assert row["type"] == code.reading


@pytest.mark.parametrize("words, number", [(["-e", "0"], 1), (["-e", "5"], 1), (["-f", "onie", "-e", "2"], 16)])
def test_names_refused(words: list[str], number: int) -> None:
    result = run("names", "-j", *words)
    assert (result.status, result.error["number"]) == (REFUSED, number)
    assert f"refused {number}" in result.said


@pytest.mark.parametrize("fmt", [1, 2, 3, 4])
def test_names_of_a_format(fmt: int) -> None:
    word = f.FORMAT_WORDS[fmt]
    rows = run("names", "-j", "-f", word).json["names"]
    assert {row["format"] for row in rows} == {word}
    assert {row["code"] for row in rows} == set(f.NAMED[fmt])
    table = run("names", "-f", word).text
    for code in f.NAMED[fmt].values():
        if (fmt, code.code) != (f.VPD, 1):
            assert code.name in table
        for short in code.short:
            assert short in table
