"""Runs the command, and holds every run to what every run must keep."""

from __future__ import annotations

import json
import os
import subprocess
from dataclasses import dataclass
from pathlib import Path
from typing import Any, Optional, Union

import pytest

import formats as f

HERE = Path(__file__).resolve().parent
ROOT = HERE.parent.parent
SAMPLES = ROOT / "samples"
COMMAND = Path(os.environ.get("BOARDID") or ROOT / "target/c/boardid").resolve()

IMAGES: list[tuple[str, int]] = [
    ("fboss.bin", f.FBOSS),
    ("sku.vpd", f.VPD),
    ("board.vpd", f.VPD),
    ("names.vpd", f.VPD),
    ("frames.vpd", f.VPD),
    ("tiny.bin", f.TINY),
    ("onie.bin", f.ONIE),
    ("amplifier.bin", f.ONIE),
]
NAMES = [name for name, _ in IMAGES]
DONE, REFUSED, USAGE, FAILED, BLANK = 0, 1, 2, 3, 4
Word = Union[str, bytes, Path, int]
OTHER = ["setpriv", "--reuid=65534", "--regid=65534", "--clear-groups"]


def open_to_all(folder: Path) -> None:
    """Lets another user reach a test's folder: it and the two of pytest above it, and none of the machine's."""
    for above in (folder, *folder.parents[:2]):
        if above == folder or above.name.startswith("pytest-"):
            above.chmod(0o755)
    if subprocess.run([*OTHER, "test", "-r", str(folder)], check=False).returncode != 0:
        pytest.skip(f"another user cannot reach {folder}")


@dataclass(frozen=True)
class Result:
    """What a run gave."""

    status: int
    out: bytes
    err: bytes

    @property
    def text(self) -> str:
        """Standard output as text; every run but a raw one is ASCII."""
        return self.out.decode("ascii")

    @property
    def said(self) -> str:
        """Standard error as text."""
        return self.err.decode("ascii")

    @property
    def json(self) -> Any:
        """Standard output as JSON."""
        return json.loads(self.out)

    @property
    def error(self) -> Any:
        """The error object of a JSON answer."""
        return self.json["error"]


def plain(data: bytes) -> bool:
    """Whether bytes are printable ASCII and line feeds only."""
    return all(byte == 0x0A or 0x20 <= byte <= 0x7E for byte in data)


def words(args: tuple[Word, ...]) -> list[bytes]:
    """The words of a command line as bytes."""
    return [
        word if isinstance(word, bytes) else os.fsencode(word) if not isinstance(word, int) else b"%d" % word
        for word in args
    ]


def wants_json(line: list[bytes]) -> bool:
    """Whether a command line asks for JSON."""
    before = line[: line.index(b"--")] if b"--" in line else line
    return b"--json" in before or b"-j" in before


def run(
    *args: Word,
    stdin: bytes = b"",
    raw: bool = False,
    env: Optional[dict[str, str]] = None,
    cwd: Optional[Path] = None,
    prefix: Optional[list[str]] = None,
) -> Result:
    """Runs the command; what every run must keep is checked here.

    The status is 0 to 4 and no signal. Standard error is printable, and so is standard output
    unless `raw` says that it may be bytes. What is not done is said on standard error. A usage
    error leaves standard output empty. What --json gives is JSON.
    """
    line = words(args)
    done = subprocess.run(
        [os.fsencode(word) for word in prefix or []] + [os.fsencode(COMMAND)] + line,
        input=stdin,
        capture_output=True,
        env=None if env is None else {**os.environ, **env},
        cwd=cwd,
        timeout=60,
        check=False,
    )
    result = Result(done.returncode, done.stdout, done.stderr)
    told = f"{line} gave {result}"
    assert 0 <= result.status <= 4, told
    assert plain(result.err), told
    assert raw or plain(result.out), told
    assert result.status == DONE or result.err != b"", told
    assert result.status != USAGE or result.out == b"", told
    if wants_json(line) and result.status != USAGE and not raw:
        answer = json.loads(result.out)
        assert isinstance(answer, dict), told
        assert ("error" in answer) == (result.status != DONE), told
        if result.status != DONE:
            error = answer["error"]
            assert list(answer) == ["file", "error"], told
            keys = ["status", "number", "place", "entry", "name", "message", "hint"]
            assert list(error) == keys, told
            assert error["status"] == result.status, told
            assert isinstance(error["message"], str) and error["message"], told
    return result


def sample(name: str) -> bytes:
    """The bytes of a sample."""
    return (SAMPLES / name).read_bytes()


def format_of(name: str) -> int:
    """The format of a sample."""
    return dict(IMAGES)[name]


def model(name: str, edition: int = f.NEWEST) -> f.Image:
    """A sample as the model reads it."""
    return f.read(format_of(name), edition, sample(name))
