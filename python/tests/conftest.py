"""Where the tests find the library, the samples and the command."""

from __future__ import annotations

import os
from pathlib import Path
from typing import Dict, Optional

import pytest


def _root() -> Path:
    """The repository: the folder above this file that has the samples."""
    for folder in Path(__file__).resolve().parents:
        if (folder / "samples" / "onie.bin").is_file():
            return folder
    raise RuntimeError("no folder above the tests has samples/")


ROOT = _root()
IMAGES: Dict[str, str] = {
    "amplifier.bin": "onie",
    "board.vpd": "vpd",
    "fboss.bin": "fboss",
    "frames.vpd": "vpd",
    "names.vpd": "vpd",
    "onie.bin": "onie",
    "sku.vpd": "vpd",
    "tiny.bin": "tiny",
}

# A library that was built here is taken where none is named; else the loader finds one.
_BUILT = ROOT / "target" / "c" / "libboardid.so.1"
if not os.environ.get("BOARDID_LIBRARY") and _BUILT.exists():
    os.environ["BOARDID_LIBRARY"] = str(_BUILT)


def sample(name: str) -> bytes:
    """The bytes of a sample."""
    return (ROOT / "samples" / name).read_bytes()


def command() -> Optional[str]:
    """The built command boardid, where there is one."""
    path = os.environ.get("BOARDID") or str(ROOT / "target" / "c" / "boardid")
    return path if os.access(path, os.X_OK) else None


@pytest.fixture(params=sorted(IMAGES))
def image_name(request: pytest.FixtureRequest) -> str:
    """Each sample image in turn."""
    return str(request.param)
