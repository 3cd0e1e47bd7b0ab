"""Usage errors, help and versions."""

from __future__ import annotations

from pathlib import Path

import pytest

from running import DONE, NAMES, SAMPLES, USAGE, Word, run, sample

COMMANDS = ["list", "get", "set", "add", "remove", "check", "strings", "vendor", "write", "names", "room", "help"]
ONIE = SAMPLES / "onie.bin"
ROOM = SAMPLES / "room.bin"

WRONG: list[list[Word]] = [
    [],
    ["no-such-command"],
    ["no-such-command", ONIE],
    ["LIST", ONIE],
    ["lis", ONIE],
    ["--no-such-option"],
    ["-z"],
    ["list"],
    ["list", ONIE, ONIE],
    ["list", "--no-such-option", ONIE],
    ["list", "-z", ONIE],
    ["list", "-n", ONIE],
    ["list", "-i", ONIE],
    ["list", "-x", ONIE],
    ["list", "-r", ONIE],
    ["list", "-s", "5", ONIE],
    ["list", "-c", "5", ONIE],
    ["list", "-f"],
    ["list", ONIE, "--format"],
    ["list", ONIE, "--edition"],
    ["get"],
    ["get", ONIE],
    ["get", ONIE, "serial", "more"],
    ["get", "-n", ONIE, "serial"],
    ["get", "-i", ONIE, "serial"],
    ["get", "-s", "5", ONIE, "serial"],
    ["get", "--names", ONIE, "serial"],
    ["set"],
    ["set", ONIE],
    ["set", ONIE, "serial"],
    ["set", ONIE, "serial", "X", "Y"],
    ["set", "-r", ONIE, "serial", "X"],
    ["set", "-c", "1", ONIE, "serial", "X"],
    ["set", "--names", ONIE, "serial", "X"],
    ["add", ONIE, "serial"],
    ["add", ONIE],
    ["add", ONIE, "serial", "X", "Y"],
    ["add", "-r", ONIE, "serial", "X"],
    ["remove", ONIE],
    ["remove", ONIE, "serial", "more"],
    ["remove", "-x", ONIE, "serial"],
    ["remove", "-c", "1", ONIE, "serial"],
    ["check"],
    ["check", ONIE, "more"],
    ["check", "-n", ONIE],
    ["check", "-x", ONIE],
    ["check", "-r", ONIE],
    ["strings"],
    ["strings", ONIE, "more"],
    ["strings", "-i", ONIE],
    ["vendor"],
    ["vendor", "-x", ONIE],
    ["vendor", "-c", "1", ONIE],
    ["write"],
    ["write", "new", "json", "more"],
    ["write", "-x", "new"],
    ["write", "-c", "1", "new"],
    ["names", "more"],
    ["names", "-o", "1"],
    ["names", "-n"],
    ["names", "-x"],
    ["room"],
    ["room", "no-such-command", ROOM],
    ["room", "list"],
    ["room", "list", ROOM, "more"],
    ["room", "list", "-n", ROOM],
    ["room", "list", "-x", ROOM],
    ["room", "add", ROOM],
    ["room", "add", ROOM, "1"],
    ["room", "add", ROOM, "1", ONIE, "more"],
    ["room", "add", ROOM, "x", ONIE],
    ["room", "add", ROOM, "-1", ONIE],
    ["room", "add", ROOM, "4294967296", ONIE],
    ["room", "replace", ROOM, "1"],
    ["room", "remove", ROOM],
    ["room", "remove", ROOM, "x"],
    ["room", "remove", ROOM, "1", "more"],
    ["room", "fetch", ROOM],
    ["room", "fetch", ROOM, "1"],
    ["room", "fetch", ROOM, "1", "out", "more"],
    ["help", "no-such-command"],
    ["help", "list", "more"],
    ["set", "-s", "300", "-i", ONIE, "serial", "X"],
    ["set", "-s", "300", "-l", "300", ONIE, "serial", "X"],
    ["set", "-s", "x", ONIE, "serial", "X"],
    ["set", "-s", "", ONIE, "serial", "X"],
    ["add", "-c", "x", SAMPLES / "sku.vpd", "k", "X"],
    ["set", "-j", "-", "serial", "X"],
    ["get", "-r", "-j", ONIE, "serial"],
    ["get", "-r", "-x", ONIE, "serial"],
    ["add", "-n", "-c", "1", ONIE, "serial", "X"],
    ["room", "list", "-o", "1", ROOM],
    ["room", "list", "-l", "1", ROOM],
    ["room", "add", "-s", "9000", ROOM, "1", ONIE],
    ["room", "fetch", ROOM, "17", ROOM],
    ["room", "remove", "-j", "-", "17"],
    ["vendor", "-j", "-", "serial=X"],
    ["remove", "-j", "-", "serial"],
    ["list", "-f", "eeprom", ONIE],
    ["list", "-e", "x", ONIE],
    ["list", "-o", "x", ONIE],
    ["list", "-l", "x", ONIE],
]


@pytest.mark.parametrize("line", WRONG, ids=lambda line: " ".join(str(w).split("/")[-1] for w in line) or "nothing")
@pytest.mark.parametrize("more", [[], ["--json"]], ids=["words", "json"])
def test_usage_errors(line: list[Word], more: list[Word], tmp_path: Path) -> None:
    result = run(*line, *more, stdin=sample("onie.bin"), cwd=tmp_path)
    assert result.status == USAGE, result
    assert result.out == b""
    assert "usage" in result.said.lower(), result.said
    assert not list(tmp_path.iterdir())
    if line and isinstance(line[0], str) and line[0] in COMMANDS and line[0] != "help":
        assert f"boardid {line[0]}" in result.said


@pytest.mark.parametrize("command", COMMANDS)
def test_help(command: str) -> None:
    texts = {run("help", command).text, run(command, "--help").text, run(command, "-h").text, run("--help", command).text}
    assert len(texts) == 1
    text = texts.pop()
    assert f"boardid {command}" in text
    for line in ([command, "--help"], [command, "-h"], ["help", command]):
        result = run(*line)
        assert (result.status, result.err) == (DONE, b"")


def test_help_of_all() -> None:
    for line in (["--help"], ["-h"], ["help"]):
        result = run(*line)
        assert (result.status, result.err) == (DONE, b"")
        for command in COMMANDS:
            assert command in result.text


@pytest.mark.parametrize("line", [[]] + [[command] for command in COMMANDS])
@pytest.mark.parametrize("word", ["--version", "-V"])
def test_version(line: list[str], word: str) -> None:
    result = run(*line, word)
    assert (result.status, result.err) == (DONE, b"")
    assert result.text == "boardid 4.3\neditions 1 to 4\n"


def test_help_comes_first() -> None:
    assert run("list", "--help", "/no/such/file").out == run("help", "list").out != b""
    assert run("set", "-h").out == run("help", "set").out != b""


def test_options_anywhere() -> None:
    wanted = run("get", "-f", "onie", "-e", "3", "-x", ONIE, "serial").out
    assert wanted == b"LAB-000471".hex().encode() + b"\n"
    lines: list[list[Word]] = [
        ["-f", "onie", "-e", "3", "-x", "get", ONIE, "serial"],
        ["get", ONIE, "serial", "-f", "onie", "-e", "3", "-x"],
        ["get", ONIE, "-f4", "serial", "-e3", "--hex"],
        ["get", "--format=onie", ONIE, "--edition=3", "serial", "-x"],
        ["get", "-xf", "onie", ONIE, "serial"],
    ]
    for line in lines:
        assert run(*line).out == wanted, line


def test_two_dashes_end_the_options(tmp_path: Path) -> None:
    path = tmp_path / "-j"
    path.write_bytes(sample("sku.vpd"))
    assert run("get", "--", "-j", "SKU", cwd=tmp_path).text == "A7\n"
    assert run("set", "--", "-j", "SKU", "-x", cwd=tmp_path).status == DONE
    assert run("get", "--", "-j", "SKU", cwd=tmp_path).text == "-x\n"
    assert list(tmp_path.iterdir()) == [path]


@pytest.mark.parametrize("name", NAMES)
def test_the_last_option_counts(name: str) -> None:
    first = run("check", "-e", "9", "-e", "4", SAMPLES / name)
    assert (first.status, first.out) == (DONE, run("check", SAMPLES / name).out)
    assert "edition 4" in first.text
    assert run("check", "-e", "4", "-e", "9", SAMPLES / name).status != DONE


def test_locale_and_environment_do_not_matter() -> None:
    wanted = run("list", ONIE).out
    assert b"LAB-000471" in wanted
    for env in ({"LC_ALL": "de_DE.UTF-8"}, {"LC_ALL": "C"}, {"POSIXLY_CORRECT": "1"}, {"TERM": "dumb"}, {"COLUMNS": "20"}):
        assert run("list", ONIE, env=env).out == wanted, env
