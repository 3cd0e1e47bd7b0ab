"""Options and fixtures of the tests of the command."""

from __future__ import annotations

import shutil
from pathlib import Path
from typing import Callable

import pytest

import running


def pytest_configure(config: pytest.Config) -> None:
    """The marker of the long part. Without a command there is nothing to test."""
    config.addinivalue_line("markers", "long: takes minutes; run by run.sh --long")
    if not running.COMMAND.is_file():
        pytest.exit(f"there is no command at {running.COMMAND}", 1)


@pytest.fixture
def copy(tmp_path: Path) -> Callable[[str], Path]:
    """Gives a copy of a sample that a test may change."""

    def make(name: str) -> Path:
        path = tmp_path / name
        shutil.copyfile(running.SAMPLES / name, path)
        return path

    return make
