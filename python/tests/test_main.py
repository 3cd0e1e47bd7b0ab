"""python3 -m boardid: what it prints, where, and its exit status."""

from __future__ import annotations

import io
import json
import os
import pty
import subprocess
import sys
from pathlib import Path
from typing import Any, Dict, List, NamedTuple, Tuple, Union, cast

import pytest
from conftest import IMAGES, ROOT, sample

import boardid
from boardid.__main__ import main

Word = Union[str, bytes]


class Ended(NamedTuple):
    """How a run ended."""

    returncode: int
    stdout: bytes
    stderr: bytes


def run(*words: Word, given: bytes = b"") -> Ended:
    """Runs the module on words, in this process."""
    streams = [io.TextIOWrapper(io.BytesIO(data), "utf-8") for data in (given, b"", b"")]
    saved = sys.stdin, sys.stdout, sys.stderr
    sys.stdin, sys.stdout, sys.stderr = streams
    try:
        status = main([os.fsdecode(word) for word in words])
    except SystemExit as ended:
        status = int(ended.code or 0)
    finally:
        sys.stdin, sys.stdout, sys.stderr = saved
    for stream in streams[1:]:
        stream.flush()
    out, err = (cast(io.BytesIO, stream.buffer).getvalue() for stream in streams[1:])
    return Ended(status, out, err)


def spawn(*words: Word, given: bytes = b"", library: str = "") -> "subprocess.CompletedProcess[bytes]":
    """Runs the module on words, as a user does."""
    environment = dict(os.environ, PYTHONPATH=str(Path(boardid.__file__).parents[1]))
    if library:
        environment["BOARDID_LIBRARY"] = library
    line: List[Word] = [sys.executable, "-m", "boardid", *words]
    return subprocess.run(line, input=given, env=environment, capture_output=True, check=False)


def error_of(*words: Word, status: int, given: bytes = b"") -> Dict[str, Any]:
    """The error object of a run with --json, which also says it on standard error."""
    ended = run("--json", *words, given=given)
    assert ended.returncode == status, ended.stderr
    made = json.loads(ended.stdout)
    assert list(made) == ["file", "error"]
    error: Dict[str, Any] = made["error"]
    assert list(error) == ["status", "number", "place", "entry", "name", "message", "hint"]
    assert error["status"] == status
    plain = run(*words, given=given)
    assert plain.returncode == status and plain.stdout == b"" and plain.stderr == ended.stderr
    assert error["message"] in ended.stderr.decode()
    return error


def test_json_of_each_sample(image_name: str) -> None:
    path = str(ROOT / "samples" / image_name)
    ended = spawn("--json", path)
    assert (ended.returncode, ended.stderr) == (0, b"")
    image = boardid.Image.read(path)
    assert json.loads(ended.stdout) == image.to_dict()
    assert json.loads(ended.stdout)["file"] == path


def test_table_of_each_sample(image_name: str) -> None:
    path = str(ROOT / "samples" / image_name)
    ended = run(path)
    assert (ended.returncode, ended.stderr) == (0, b"")
    assert ended.stdout.decode("ascii") == str(boardid.Image.read(path)) + "\n"
    assert len(ended.stdout.splitlines()) == 2 + len(boardid.Image.read(path))


def test_a_table() -> None:
    ended = run("-", given=sample("tiny.bin"))
    assert ended.stdout.decode().splitlines()[:5] == [
        "standard input: Tiny EEPROM version 2, edition 4, 8 entries, 74 of 74 bytes",
        "entry  code  name                                   value",
        "   #0  0x10  Serial number                          S4711",
        "   #1  0x11  Factory test flags                     3 of 4: assembly, configuration, burn-in",
        "   #2  0x60  Base MAC address                       02:1a:2b:3c:4d:5e",
    ]
    long = boardid.write([boardid.Field(1, b"x" * 300, b"k" * 80), boardid.Field(1, bytes(40), b"b")], 2)
    _, _, first, second = run("-", given=long).stdout.decode().splitlines()
    assert first.endswith("k .. (80 bytes)  " + "x" * 256 + " .. (300 bytes)")
    assert second.endswith("  " + "00 " * 32 + ".. (40 bytes)")
    none = boardid.write([boardid.Field(0x11, b"\x40"), boardid.Field(1, b'"\xdcno')], 3)
    lines = run("-", given=none).stdout.decode().splitlines()
    assert lines[2].endswith("  0 of 4: 0x40")
    assert lines[3].endswith('  "\\"\\\\"; 2 bytes of no string')
    assert run("-", given=bytes.fromhex("5602046f")).stdout.count(b"\n") == 1


def test_options(tmp_path: Path) -> None:
    path = tmp_path / "file"
    path.write_bytes(b"\x56junk" + sample("onie.bin") + b"\0" * 100)
    made = json.loads(run("-j", "-o", "0x5", "-l", "512", str(path)).stdout)
    assert (made["offset"], made["room"], made["length"], made["format"]) == (5, 512, 202, "onie")
    assert made["entries"][0]["place"] == 16 and made["entries"][0]["value_place"] == 18
    made = json.loads(run("--json", str(path), "--offset=5", "--format", "4", "--edition", "3").stdout)
    assert (made["edition"], made["room"]) == (3, 612)
    made = json.loads(run("-j", "-f", "vpd", "-", given=b"\xff" * 16).stdout)
    assert (made["format"], made["entries"], made["length"]) == ("vpd", [], 1)
    one = json.loads(run("-j", "-e1", "-", given=sample("fboss.bin")).stdout)["entries"]
    assert [entry["kind"] for entry in one[16:]] == [0] * 4 and one[16]["name"] is None
    assert one[16]["frame_length"] == 10


def test_refused() -> None:
    tiny = bytearray(sample("tiny.bin"))
    tiny[-1] ^= 1
    error = error_of("-", status=1, given=bytes(tiny))
    assert (error["number"], error["place"]) == (10, 73)
    assert "the stored check is wrong (refused 10)" in error["message"]
    error = error_of("-o", "3", "-", status=1, given=b"abc" + bytes(tiny))
    assert (error["number"], error["place"]) == (10, 76)
    error = error_of("-", status=1, given=sample("room.bin"))
    assert error["number"] == 6 and error["hint"] == "it begins like a room file: boardid room list"
    assert "it begins like no format (52 4d " in error["message"]
    error = error_of("-e", "5", "-", status=1, given=sample("sku.vpd"))
    assert error["number"] == 1
    error = error_of("-e", "2", "-", status=1, given=sample("onie.bin"))
    assert error["number"] == 16
    error = error_of("-", status=1, given=b"\1" * 70000)
    assert (error["number"], error["hint"]) == (2, "--length 65536")
    assert error_of("-f", "tiny", "-", status=1, given=sample("sku.vpd"))["number"] == 3


def test_blank() -> None:
    for byte in (b"\0", b"\xff"):
        error = error_of("-", status=4, given=byte * 256)
        assert error["message"] == f"the chip is blank: all 256 bytes are {byte.hex().upper()}h"
        assert error["number"] is None
        error_of("-f", "onie", "-", status=4, given=byte * 256)
    assert run("-f", "vpd", "-", given=b"\0" * 256).returncode == 0
    assert error_of("-f", "onie", "-e", "5", "-", status=1, given=b"\0" * 8)["number"] == 1


def test_files(tmp_path: Path) -> None:
    assert error_of(str(tmp_path / "none"), status=3)["message"] == "No such file or directory"
    assert error_of(str(tmp_path), status=3)["message"] == "is a folder"
    assert error_of("-", status=3)["message"] == "is empty"
    assert "the file has 9 bytes" in error_of("-o", "10", "-", status=3, given=sample("sku.vpd"))["message"]
    assert "the file has 9 bytes" in error_of("-l", "10", "-", status=3, given=sample("sku.vpd"))["message"]
    assert error_of("-o", "9", "-", status=3, given=sample("sku.vpd"))["message"].startswith("is empty")
    ended = spawn("-", given=sample("sku.vpd"), library=str(tmp_path / "none.so"))
    assert ended.returncode == 3 and b"cannot be loaded" in ended.stderr and b"Traceback" not in ended.stderr


@pytest.mark.skipif(not os.path.exists("/dev/full"), reason="there is no /dev/full")
def test_the_list_cannot_be_written() -> None:
    line = [sys.executable, "-m", "boardid", str(ROOT / "samples" / "tiny.bin")]
    environment = dict(os.environ, PYTHONPATH=str(Path(boardid.__file__).parents[1]))
    with open("/dev/full", "wb") as full:
        ended = subprocess.run(line, env=environment, stdout=full, stderr=subprocess.PIPE, check=False)
    assert ended.returncode == 3 and b"cannot be written" in ended.stderr
    assert b"Traceback" not in ended.stderr and b"Exception" not in ended.stderr


@pytest.mark.parametrize(
    "words",
    [
        (),
        ("a", "b"),
        ("--colour", "a"),
        ("-f", "eeprom", "a"),
        ("-f", "5", "a"),
        ("-e", "x", "a"),
        ("-e", "4294967296", "a"),
        ("-e", "-1", "a"),
        ("-o", "0x", "a"),
        ("-o", "1_0", "a"),
        ("-l", "", "a"),
        ("-o",),
    ],
)
def test_usage(words: "tuple[str, ...]") -> None:
    ended = run(*words)
    assert ended.returncode == 2 and ended.stdout == b"" and ended.stderr.startswith(b"usage: ")


def test_statuses_of_a_process() -> None:
    tiny = bytearray(sample("tiny.bin"))
    tiny[-1] ^= 1
    for words, given, status in (
        (("-j", "-"), bytes(tiny), 1),
        (("-e", "-"), b"", 2),
        (("-",), b"", 3),
        (("-",), b"\xff" * 8, 4),
    ):
        ended, same = spawn(*words, given=given), run(*words, given=given)
        assert (ended.returncode, ended.stdout, ended.stderr) == (status, same.stdout, same.stderr)


def test_help() -> None:
    ended = run("--help")
    assert ended.returncode == 0 and b"--edition" in ended.stdout and ended.stderr == b""


def test_no_raw_byte_goes_to_a_terminal(tmp_path: Path) -> None:
    """What is printed is printable ASCII, whatever the image and the file's name have."""
    loud = os.fsencode(tmp_path) + b"/\x1b[31m\xff\xc3\xa9\\"
    for data, status in ((sample("names.vpd"), 0), (b"RM\x1b", 1), (b"\xff", 4), (b"", 3)):
        with open(loud, "wb") as file:
            file.write(data)
        lines: List[Tuple[Word, ...]] = [("-j", loud), (loud,), ("-f", loud, loud)]
        for words in lines:
            ended = run(*words)
            assert ended.returncode == (2 if len(words) == 3 else status)
            printed = (ended.stdout + ended.stderr).replace(b"\n", b"")
            assert printed and all(0x20 <= byte <= 0x7E for byte in printed), printed
    with open(loud, "wb") as file:
        file.write(sample("sku.vpd"))
    name = json.loads(run("-j", loud).stdout)["file"]
    assert name == f"{tmp_path}/\x1b[31m\\xff\u00e9\\"


def test_a_terminal() -> None:
    """The same on a terminal itself."""
    try:
        mine, theirs = pty.openpty()
    except OSError:
        pytest.skip("there are no terminals here")
    line = [sys.executable, "-m", "boardid", str(ROOT / "samples" / "names.vpd")]
    environment = dict(os.environ, PYTHONPATH=str(Path(boardid.__file__).parents[1]))
    ended = subprocess.run(line, env=environment, stdout=theirs, stderr=theirs, check=False)
    os.close(theirs)
    printed = os.read(mine, 65536)
    os.close(mine)
    assert ended.returncode == 0 and b"lab.rack" in printed
    assert all(0x20 <= byte <= 0x7E for byte in printed.replace(b"\r\n", b""))


def test_every_sample_is_tried() -> None:
    files = {path.name for path in (ROOT / "samples").iterdir() if path.suffix in (".bin", ".vpd")}
    assert files == set(IMAGES) | {"room.bin"}
