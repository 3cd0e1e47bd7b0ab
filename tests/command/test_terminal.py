"""A run in a terminal, seen with tmux on a socket of its own."""

from __future__ import annotations

import os
import shutil
import subprocess
import tempfile
import time
from pathlib import Path
from typing import Iterator

import pytest

from running import COMMAND, ROOT


class Terminal:
    """A pane of a tmux of its own, with its socket in a folder of its own."""

    def __init__(self, folder: Path, shell: str) -> None:
        if shutil.which("tmux") is None:
            pytest.skip("tmux is not there")
        self.sockets = tempfile.mkdtemp(prefix="tmux-")
        try:
            self.tmux("new", "-d", "-x", "160", "-y", "50", "-n", "window", "-c", str(folder), shell)
        except subprocess.CalledProcessError as failed:
            shutil.rmtree(self.sockets)
            pytest.skip(f"tmux cannot be started: {failed.stderr.decode().strip()}")

    def tmux(self, *words: str) -> str:
        """Runs tmux on the socket."""
        env = {key: value for key, value in os.environ.items() if key not in ("TMUX", "TMUX_PANE")}
        env |= {"TMUX_TMPDIR": self.sockets, "TERM": "xterm", "LC_ALL": "C.UTF-8", "SHELL": "/bin/sh"}
        line = ["tmux", "-L", "boardid", "-f", "/dev/null", *words]
        return subprocess.run(line, capture_output=True, env=env, timeout=20, check=True).stdout.decode()

    def close(self) -> None:
        """Ends the pane, and the tmux with it."""
        self.tmux("kill-server")
        shutil.rmtree(self.sockets)

    def screen(self) -> str:
        """What the pane shows, with what has scrolled off."""
        return self.tmux("capture-pane", "-p", "-J", "-S", "-200")

    def state(self) -> str:
        """The pane's title, cursor, modes and character set."""
        return self.tmux(
            "display-message",
            "-p",
            "#{pane_title}|#{alternate_on}|#{cursor_flag}|#{insert_flag}|#{keypad_flag}|#{origin_flag}|"
            "#{wrap_flag}|#{mouse_any_flag}|#{scroll_region_upper}|#{scroll_region_lower}|#{window_name}",
        )

    def say(self, line: str) -> str:
        """Types a line and waits until it is done; gives the screen."""
        self.tmux("send-keys", "-l", f"{line}; printf 'done %s\\n' $?")
        self.tmux("send-keys", "Enter")
        for _ in range(400):
            screen = self.screen()
            if any(shown.startswith("done ") for shown in screen.splitlines()):
                return screen
            time.sleep(0.05)
        raise AssertionError(self.screen())


@pytest.fixture
def terminal() -> Iterator[Terminal]:
    """A pane with a plain shell."""
    one = Terminal(ROOT, "env PS1='$ ' sh")
    try:
        one.tmux("set-option", "-g", "allow-rename", "on")
        one.tmux("select-pane", "-T", "the title before")
        time.sleep(0.2)
        yield one
    finally:
        one.close()


def test_hostile_key_on_a_screen(terminal: Terminal) -> None:
    before = terminal.state()
    assert "the title before" in before
    screen = terminal.say(f"{COMMAND} list samples/names.vpd")
    assert "done 0" in screen
    assert "lab.rack" in screen and "SKU" in screen and "R07" in screen
    assert "\\x1bc\"\\\\\\x00\\xff" in screen
    assert terminal.state() == before


def test_a_title_in_a_file_does_not_become_the_title(terminal: Terminal, tmp_path: Path) -> None:
    before = terminal.state()
    key, value = b"\x1b]2;taken\x07\x1bktaken\x1b\\", b"\x1b[?1049h\x1b[?25l\x1b[2J\x9b2J"
    path = tmp_path / "bad.vpd"
    path.write_bytes(bytes([1, len(key)]) + key + bytes([len(value)]) + value + b"\0")
    screen = terminal.say(f"{COMMAND} list {path}; {COMMAND} get {path} '#0'; {COMMAND} list -j {path}; {COMMAND} get {path} x")
    assert "\\x1b]2;taken\\x07" in screen
    assert terminal.state() == before


def test_the_terminal_test_sees_a_change(terminal: Terminal) -> None:
    """The same bytes raw do change the state, so the tests above can fail."""
    before = terminal.state()
    terminal.say("printf '\\033]2;taken\\007\\033[?25l'")
    assert terminal.state() != before
