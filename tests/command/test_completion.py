"""The completion for bash, loaded in a bash of its own."""

from __future__ import annotations

import functools
import os
import shutil
import subprocess
import tempfile
import time
from pathlib import Path

import pytest

from running import COMMAND, ROOT, SAMPLES, run
from test_terminal import Terminal

COMPLETION = ROOT / "completions/boardid"
SCRIPT = r"""
[ -r /usr/share/bash-completion/bash_completion ] && . /usr/share/bash-completion/bash_completion
. "$1" || exit 9
shift
COMP_WORDS=("$@")
COMP_CWORD=$(($# - 1))
COMP_LINE="${COMP_WORDS[*]}"
COMP_POINT=${#COMP_LINE}
COMP_TYPE=9
COMP_KEY=9
spec=$(complete -p boardid) || exit 8
function=${spec#* -F }
function=${function%% *}
compopt() { :; }
"$function" boardid "${COMP_WORDS[COMP_CWORD]}" "${COMP_WORDS[COMP_CWORD - 1]}"
printf '%s\n' "${COMPREPLY[@]}"
"""


@functools.cache
def commands() -> tempfile.TemporaryDirectory[str]:
    """A folder with the command under its own name, whatever file it is."""
    folder = tempfile.TemporaryDirectory(prefix="boardid-")
    os.symlink(COMMAND, f"{folder.name}/boardid")
    return folder


def completed(*words: str, folder: Path = SAMPLES) -> set[str]:
    """What the completion offers for the last word."""
    if not COMPLETION.exists():
        pytest.skip("completions/boardid is not there")
    bash = shutil.which("bash")
    if bash is None:
        pytest.skip("bash is not there")
    path = f"{commands().name}:{os.environ.get('PATH', '/usr/bin:/bin')}"
    done = subprocess.run(
        [bash, "--norc", "--noprofile", "-c", SCRIPT, "bash", COMPLETION, "boardid", *words],
        capture_output=True,
        cwd=folder,
        env={**os.environ, "PATH": path},
        timeout=20,
        check=False,
    )
    assert done.returncode == 0, done
    assert done.stderr == b"", done.stderr
    return {line.rstrip(" ") for line in done.stdout.decode().splitlines() if line.strip()}


def test_commands() -> None:
    wanted = {"list", "get", "set", "add", "remove", "check", "strings", "vendor", "write", "names", "room", "help"}
    assert wanted <= completed("")
    assert completed("se") == {"set"}
    assert completed("st") == {"strings"}


def test_options() -> None:
    assert {"--format", "--edition", "--offset", "--length", "--json", "--help"} <= {w.rstrip("=") for w in completed("list", "--")}
    assert {w.rstrip("=") for w in completed("set", "--dr")} == {"--dry-run"}
    assert {w.rstrip("=") for w in completed("set", "--in")} == {"--in-place"}


def test_formats() -> None:
    assert {"fboss", "vpd", "tiny", "onie"} <= completed("list", "-f", "")
    assert completed("list", "--format", "on") == {"onie"}


def test_files() -> None:
    names = completed("list", "")
    assert {"onie.bin", "tiny.bin", "sku.vpd"} <= names
    assert completed("list", "on") == {"onie.bin"}


def unquoted(words: set[str]) -> set[str]:
    """Words without the shell's backslashes and quotes."""
    return {word.replace("\\", "").strip("'\"") for word in words}


@pytest.mark.parametrize("name", ["onie.bin", "fboss.bin", "tiny.bin", "board.vpd"])
@pytest.mark.parametrize("command", ["get", "set", "remove"])
def test_names_of_entries(command: str, name: str) -> None:
    offered = unquoted(completed(command, name, ""))
    wanted = set(run("list", "--names", SAMPLES / name).text.splitlines())
    assert offered and offered <= unquoted(wanted) | wanted
    assert len(offered) == len(wanted)


def test_names_begin_as_the_word_does() -> None:
    offered = completed("get", "board.vpd", "UU")
    assert offered == {"UUID"}


def test_room() -> None:
    assert completed("room", "") >= {"list", "add", "replace", "remove", "fetch"}


def test_nothing_is_run_from_an_image(tmp_path: Path) -> None:
    """Names out of a hostile image are words, not commands."""
    key = b"$(touch gone)`touch gone`;touch gone"
    (tmp_path / "bad.vpd").write_bytes(bytes([1, len(key)]) + key + b"\x01x\x00")
    completed("get", "bad.vpd", "", folder=tmp_path)
    completed("get", "bad.vpd", "$", folder=tmp_path)
    assert os.listdir(tmp_path) == ["bad.vpd"]


def test_typed_in_a_shell() -> None:
    """Tabs in a bash of a terminal: a command, a file and a name with blanks."""
    if not COMPLETION.exists():
        pytest.skip("completions/boardid is not there")
    if shutil.which("bash") is None:
        pytest.skip("bash is not there")
    shell = f"env PS1='$ ' PATH='{commands().name}:/usr/bin:/bin' bash --norc --noprofile"
    terminal = Terminal(SAMPLES, shell)
    try:
        terminal.say(f". {COMPLETION}")
        terminal.tmux("send-keys", "-l", "clear")
        terminal.tmux("send-keys", "Enter")
        terminal.tmux("send-keys", "-l", "boardid ge\ton\tSerial\t")
        terminal.tmux("send-keys", "-l", "; echo status $?")
        terminal.tmux("send-keys", "Enter")
        lines: list[str] = []
        for _ in range(400):
            lines = terminal.screen().splitlines()
            if any(line.startswith("status ") for line in lines):
                break
            time.sleep(0.05)
        typed = next(line for line in lines if "boardid get onie.bin " in line)
        assert "Serial" in typed and "Number" in typed, lines
        assert "LAB-000471" in lines and "status 0" in lines, lines
    finally:
        terminal.close()


def test_files_that_are_none(tmp_path: Path) -> None:
    assert completed("get", "none", "", folder=tmp_path) == set()
