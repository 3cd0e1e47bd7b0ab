"""The shared library: its exports as the header declares them, and what is said where it is not there."""

from __future__ import annotations

import ctypes
import os
import re
import subprocess
import sys
from pathlib import Path

import pytest
from conftest import ROOT

import boardid
from boardid.errors import REFUSAL_TEXTS
from boardid.library import SIGNATURES, load, output, word

HEADER = (ROOT / "include" / "edition-4" / "boardid.h").read_text()
TYPES = {
    "uint32_t": ctypes.c_uint32,
    "uint64_t": ctypes.c_uint64,
    "size_t": ctypes.c_size_t,
    "const uint8_t *": ctypes.c_char_p,
    "uint8_t *": ctypes.POINTER(ctypes.c_uint8),
}


def declared() -> "dict[str, tuple[object, ...]]":
    """The exports of the header, with the types of their arguments."""
    found = {}
    for name, arguments in re.findall(r"^uint64_t (boardid_\w+)\(([^)]*)\);", HEADER, re.M):
        kinds = []
        for argument in arguments.split(","):
            match = re.match(r"(.*?)\w+$", " ".join(argument.split()))
            assert match is not None
            kinds.append(TYPES[match.group(1).strip()])
        found[name] = tuple(kinds)
    return found


def test_every_export_has_the_types_of_the_header() -> None:
    assert len(declared()) == 16
    assert SIGNATURES == declared()
    functions = load()
    assert sorted(functions) == sorted(declared())
    for name, arguments in declared().items():
        assert tuple(functions[name].argtypes) == arguments
        assert functions[name].restype is ctypes.c_uint64


def test_refusals_have_the_texts_of_the_header() -> None:
    names = {name: int(number) for name, number in re.findall(r"(BOARDID_\w*REFUSED\w*) = (\d+)", HEADER)}
    texts = dict(re.findall(r'case (BOARDID_\w+):\s+return "([^"]*)";', HEADER))
    for name, number in names.items():
        assert REFUSAL_TEXTS[number] == texts[name]
    assert sorted(REFUSAL_TEXTS) == sorted(names.values()) == list(range(24))
    assert boardid.refusal_text(24) == "no refusal has this number"


@pytest.mark.parametrize("group", [boardid.Fboss, boardid.Vpd, boardid.Tiny, boardid.Onie])
def test_codes_are_those_of_the_header(group: "type[boardid.Fboss]") -> None:
    pattern = rf"BOARDID_{group.__name__.upper()}_(\w+) = (0x[0-9A-F]+|\d+)"
    codes = HEADER.split("#define BOARDID_KIND")[0]
    constants = {name: int(number, 0) for name, number in re.findall(pattern, codes)}
    assert {member.name: int(member) for member in group} == constants


def test_readings_are_those_of_the_header() -> None:
    constants = re.findall(r"BOARDID_READING_(\w+) = (\d+)", HEADER)
    assert {name: int(number) for name, number in constants} == {one.name: int(one) for one in boardid.Reading}


def run(code: str, library: str, folder: str = "") -> "subprocess.CompletedProcess[str]":
    """Runs Python with another library, or with none named and a folder for the loader."""
    environment = dict(os.environ, BOARDID_LIBRARY=library, LD_LIBRARY_PATH=folder)
    environment["PYTHONPATH"] = str(Path(boardid.__file__).parents[1])
    return subprocess.run(
        [sys.executable, "-c", code], env=environment, capture_output=True, text=True, check=False
    )


def test_a_library_that_is_not_there(tmp_path: Path) -> None:
    ended = run("import boardid; print('imported'); boardid.check(b'\\0', 2)", str(tmp_path / "none.so"))
    assert ended.stdout == "imported\n"
    last = ended.stderr.splitlines()[-1]
    assert last.startswith(f"OSError: the shared library {tmp_path}/none.so cannot be loaded")
    assert "BOARDID_LIBRARY" in last


@pytest.mark.skipif(not os.environ.get("BOARDID_LIBRARY"), reason="the loader finds the library")
def test_a_library_that_the_loader_finds(tmp_path: Path) -> None:
    code = "import boardid; print(boardid.check(b'\\0', 2))"
    (tmp_path / "libboardid.so.1").symlink_to(Path(os.environ["BOARDID_LIBRARY"]).resolve())
    assert run(code, "", str(tmp_path)).stdout == "0\n"
    (tmp_path / "libboardid.so.1").unlink()
    (tmp_path / "libboardid.so.1").write_bytes(b"no library")
    last = run(code, "", str(tmp_path)).stderr.splitlines()[-1]
    assert last.startswith("OSError: the shared library libboardid.so.1 cannot be loaded (")
    assert "install the package libboardid1" in last


def test_a_library_without_the_exports() -> None:
    maps = Path("/proc/self/maps").read_text().splitlines()
    path = next(line.split()[-1] for line in maps if re.search(r"/libc\.so|/libc-", line))
    ended = run("import boardid; boardid.load()", path)
    last = ended.stderr.splitlines()[-1]
    assert last == (
        f"OSError: the shared library {path} has no boardid_check; this module needs version 4.2 or later"
    )


def test_numbers_are_not_cut() -> None:
    assert word(0xFFFFFFFF, "a format") == 0xFFFFFFFF
    for number in (-1, 1 << 32):
        with pytest.raises(ValueError):
            word(number, "a format")
        with pytest.raises(ValueError):
            boardid.check(b"\0", number)
        with pytest.raises(ValueError):
            boardid.check(b"\0", 2, edition=number)
    for number in (-1, 1 << 64):
        with pytest.raises(ValueError):
            boardid.entry(b"\0", number, 2)
        with pytest.raises(ValueError):
            boardid.value(b"\0", number, 2)
    with pytest.raises(TypeError):
        boardid.check(b"\0", 2.0)  # type: ignore[arg-type]
    with pytest.raises(ValueError):
        output(-1)
    assert len(output(1 << 60)) == 65537


def test_what_is_no_bytes() -> None:
    for wrong in ("text", 7, None):
        with pytest.raises(TypeError):
            boardid.check(wrong, 2)  # type: ignore[arg-type]


def test_the_version_is_one() -> None:
    """The package, the module and, where it has one, the header have the same version."""
    project = (Path(__file__).resolve().parents[1] / "pyproject.toml").read_text()
    assert f'version = "{boardid.__version__}"' in project
    assert re.findall(r'BOARDID_VERSION_TEXT "([^"]*)"', HEADER) in ([], [boardid.__version__])
