"""Changes are safe: the file is the old one or the new one, whatever happens."""

from __future__ import annotations

import json
import os
import pty
import shutil
import signal
import stat
import struct
import subprocess
import threading
import time
from pathlib import Path
from typing import Callable, Optional, TextIO

import pytest

import formats as f
from running import COMMAND, DONE, FAILED, HERE, OTHER, REFUSED, SAMPLES, USAGE, Result, Word, open_to_all, plain, run, sample, words

Copy = Callable[[str], Path]
OLD = sample("onie.bin")
NEW = f.edit(f.ONIE, 4, OLD, 2, b"NEW-SERIAL-1")
SET: list[Word] = ["serial", "NEW-SERIAL-1"]


def needs_root(tool: Optional[str] = None) -> None:
    """Skips where the test takes root, or a tool that is missing."""
    if os.getuid() != 0:
        pytest.skip("takes root")
    if tool is not None and shutil.which(tool) is None:
        pytest.skip(f"{tool} is not there")


def files(folder: Path) -> list[str]:
    """The names in a folder."""
    return sorted(os.listdir(folder))


# ---- Replacing the file --------------------------------------------------------------------


@pytest.mark.parametrize("mode", [0o600, 0o644, 0o640, 0o666, 0o444, 0o777, 0o604])
def test_mode_is_kept(mode: int, copy: Copy) -> None:
    path = copy("onie.bin")
    path.chmod(mode)
    assert run("set", path, *SET).status == DONE
    assert stat.S_IMODE(path.stat().st_mode) == mode
    assert path.read_bytes() == NEW


def test_owner_is_kept(copy: Copy) -> None:
    needs_root()
    path = copy("onie.bin")
    os.chown(path, 1234, 2345)
    path.chmod(0o640)
    assert run("set", path, *SET).status == DONE
    after = path.stat()
    assert (after.st_uid, after.st_gid, stat.S_IMODE(after.st_mode)) == (1234, 2345, 0o640)
    assert path.read_bytes() == NEW


def test_owner_that_cannot_be_kept(copy: Copy, tmp_path: Path) -> None:
    needs_root("setpriv")
    path = copy("onie.bin")
    open_to_all(tmp_path)
    tmp_path.chmod(0o777)
    os.chown(path, 1234, 2345)
    path.chmod(0o666)
    result = run("set", path, *SET, prefix=OTHER)
    assert result.status == FAILED
    assert "--in-place" in result.said
    assert (path.read_bytes(), files(tmp_path)) == (OLD, ["onie.bin"])
    assert run("set", "-i", path, *SET, prefix=OTHER).status == DONE
    after = path.stat()
    assert (path.read_bytes(), after.st_uid, after.st_gid) == (NEW, 1234, 2345)


def test_folder_that_cannot_be_written(copy: Copy, tmp_path: Path) -> None:
    needs_root("setpriv")
    path = copy("onie.bin")
    open_to_all(tmp_path)
    os.chown(path, 65534, 65534)
    result = run("set", path, *SET, prefix=OTHER)
    assert result.status == FAILED
    assert path.read_bytes() == OLD
    assert run("set", "-i", path, *SET, prefix=OTHER).status == DONE
    assert path.read_bytes() == NEW


def test_file_that_cannot_be_written(copy: Copy, tmp_path: Path) -> None:
    needs_root("setpriv")
    path = copy("onie.bin")
    open_to_all(tmp_path)
    path.chmod(0o444)
    for more in (["-e", "4"], ["-i"]):
        assert run("set", *more, path, *SET, prefix=OTHER).status == FAILED
    assert run("set", "-n", path, *SET, prefix=OTHER).status == DONE
    assert path.read_bytes() == OLD


def test_own_file_that_is_closed(copy: Copy, tmp_path: Path) -> None:
    needs_root("setpriv")
    path = copy("onie.bin")
    open_to_all(tmp_path)
    for one in (tmp_path, path):
        os.chown(one, 65534, 65534)
    path.chmod(0o444)
    for more in ([], ["-i"]):
        result = run("set", *more, path, *SET, prefix=OTHER)
        assert result.status == FAILED and "Permission denied" in result.said
    assert path.read_bytes() == OLD
    path.chmod(0o644)
    assert run("set", path, *SET, prefix=OTHER).status == DONE
    assert path.read_bytes() == NEW


def test_symbolic_link(copy: Copy, tmp_path: Path) -> None:
    path = copy("onie.bin")
    folder = tmp_path / "links"
    folder.mkdir()
    first, second = folder / "first", folder / "second"
    first.symlink_to("../onie.bin")
    second.symlink_to(first)
    for link in (first, second):
        for more in (["-e", "4"], ["-i"]):
            path.write_bytes(OLD)
            assert run("set", *more, link, *SET).status == DONE
            assert link.is_symlink()
            assert not path.is_symlink()
            assert path.read_bytes() == NEW
    assert (files(folder), files(tmp_path)) == (["first", "second"], ["links", "onie.bin"])


def test_links_that_lead_nowhere(tmp_path: Path) -> None:
    link, loop = tmp_path / "link", tmp_path / "loop"
    link.symlink_to("none")
    loop.symlink_to("loop")
    for path in (link, loop):
        assert run("list", path).status == FAILED
        assert run("set", path, *SET).status == FAILED
    assert run("write", "-f", "onie", loop, stdin=b"[]").status == FAILED
    assert files(tmp_path) == ["link", "loop"]


def test_write_through_a_link_that_leads_nowhere(tmp_path: Path) -> None:
    link = tmp_path / "link"
    link.symlink_to("target")
    result = run("write", "-f", "onie", link, stdin=b"[]")
    if result.status == DONE:
        assert link.is_symlink()
        assert (tmp_path / "target").read_bytes() == f.write(f.ONIE, 4, [], 17)
    else:
        assert result.status == FAILED
        assert files(tmp_path) == ["link"]


def test_hard_link(copy: Copy, tmp_path: Path) -> None:
    path, second = copy("onie.bin"), tmp_path / "second"
    os.link(path, second)
    result = run("set", path, *SET)
    assert result.status == FAILED
    assert "--in-place" in result.said
    assert path.read_bytes() == OLD
    answer = run("set", "-j", path, *SET).error
    assert (answer["status"], answer["number"]) == (FAILED, None)
    assert "--in-place" in answer["hint"]
    assert run("set", "-n", path, *SET).status == FAILED
    assert run("set", "-n", "-i", path, *SET).status == DONE
    assert run("set", "-i", path, *SET).status == DONE
    assert (path.read_bytes(), second.read_bytes()) == (NEW, NEW)
    assert path.stat().st_ino == second.stat().st_ino
    assert files(tmp_path) == ["onie.bin", "second"]


def through_fifo(path: Path, line: list[Word]) -> Result:
    """Runs the command on a FIFO that is fed with the sample."""

    def feed() -> None:
        with open(path, "wb") as file:
            try:
                file.write(OLD)
            except BrokenPipeError:
                pass

    feeder = threading.Thread(target=feed, daemon=True)
    feeder.start()
    result = run(*line)
    feeder.join(5)
    return result


def test_what_is_no_regular_file(tmp_path: Path) -> None:
    path = tmp_path / "fifo"
    os.mkfifo(path)
    assert through_fifo(path, ["get", path, "serial"]).text == "LAB-000471\n"
    result = through_fifo(path, ["set", path, *SET])
    assert result.status == FAILED
    assert "--in-place" in result.said
    assert through_fifo(path, ["set", "-i", path, *SET]).status == FAILED
    assert stat.S_ISFIFO(path.stat().st_mode)
    assert files(tmp_path) == ["fifo"]


# ---- Calls that go wrong -------------------------------------------------------------------


@pytest.fixture(scope="module")
def shim(tmp_path_factory: pytest.TempPathFactory) -> Path:
    """The shim, compiled; it works on a command that is linked with a shared C library."""
    compiler = shutil.which("gcc") or shutil.which("clang")
    if compiler is None:
        pytest.skip("a C compiler is not there")
    folder = tmp_path_factory.mktemp("shim")
    out = folder / "shim.so"
    subprocess.run([compiler, "-shared", "-fPIC", "-O1", "-o", out, HERE / "shim.c"], check=True)
    return out


class Shimmed:
    """Runs the command with the shim, and reads what it noted."""

    def __init__(self, library: Path, log: Path) -> None:
        self.library = library
        self.log = log

    def run(self, what: str, *line: Word) -> Result:
        """A run; what was noted before is forgotten."""
        self.log.unlink(missing_ok=True)
        env = {"LD_PRELOAD": str(self.library), "SHIM_LOG": str(self.log), "SHIM_DO": what}
        return run(*line, env=env)

    def noted(self, name: str, path: Optional[Path] = None) -> list[tuple[int, int]]:
        """Place and length of each call of a name, on a file where one is given."""
        out = []
        for line in self.log.read_text().splitlines() if self.log.exists() else []:
            call, place, length, target = line.split(" ", 3)
            if call == name and (path is None or target == str(path)):
                out.append((int(place), int(length)))
        return out


@pytest.fixture
def shimmed(shim: Path, tmp_path_factory: pytest.TempPathFactory) -> Shimmed:
    """A shim with a log of its own."""
    return Shimmed(shim, tmp_path_factory.mktemp("log") / "log")


def test_in_place_writes_only_what_differs(shimmed: Shimmed, copy: Copy) -> None:
    path = copy("onie.bin")
    inode = path.stat().st_ino
    assert shimmed.run("", "set", "-i", path, *SET).status == DONE
    assert (path.read_bytes(), path.stat().st_ino) == (NEW, inode)
    written = [k for place, length in shimmed.noted("pwrite", path) for k in range(place, place + length)]
    assert sorted(written) == [k for k in range(512) if OLD[k] != NEW[k]]
    assert len(shimmed.noted("write", path)) == 0
    assert len(shimmed.noted("fsync", path)) == 1
    assert shimmed.noted("rename") == []


def test_in_place_with_an_offset(shimmed: Shimmed, copy: Copy) -> None:
    path = copy("onie.bin")
    path.write_bytes(b"front" + OLD + b"back")
    assert shimmed.run("", "set", "-i", "-o", "5", "-l", "512", path, *SET).status == DONE
    assert path.read_bytes() == b"front" + NEW + b"back"
    written = [k for place, length in shimmed.noted("pwrite", path) for k in range(place, place + length)]
    assert sorted(written) == [5 + k for k in range(512) if OLD[k] != NEW[k]]


def test_in_place_of_nothing_writes_nothing(shimmed: Shimmed, copy: Copy) -> None:
    path = copy("onie.bin")
    assert "Serial Number" in shimmed.run("", "set", "-i", path, "serial", "LAB-000471").text
    assert shimmed.noted("pwrite", path) == [] and shimmed.noted("write", path) == []
    assert shimmed.run("", "set", "-n", "-i", path, *SET).status == DONE
    assert shimmed.noted("pwrite", path) == []
    assert path.read_bytes() == OLD


@pytest.mark.parametrize("what", ["damage", "drop"])
def test_in_place_reads_back(what: str, shimmed: Shimmed, copy: Copy) -> None:
    path = copy("onie.bin")
    first = next(k for k in range(512) if OLD[k] != NEW[k])
    result = shimmed.run(what, "set", "-i", path, *SET)
    assert result.status == FAILED
    assert str(first) in result.said
    path.write_bytes(OLD)
    error = shimmed.run(what, "set", "-i", "-j", path, *SET).error
    assert (error["status"], error["number"], error["place"]) == (FAILED, None, first)


@pytest.mark.parametrize("what", ["short", "eintr", "einval"])
def test_in_place_goes_on(what: str, shimmed: Shimmed, copy: Copy) -> None:
    path = copy("onie.bin")
    result = shimmed.run(what, "set", "-i", path, *SET)
    assert (result.status, path.read_bytes()) == (DONE, NEW), result


@pytest.mark.parametrize("what", ["fail-pwrite", "fail-fsync"])
def test_in_place_fails(what: str, shimmed: Shimmed, copy: Copy) -> None:
    result = shimmed.run(what, "set", "-i", copy("onie.bin"), *SET)
    assert result.status == FAILED


@pytest.mark.parametrize("what", ["short", "eintr"])
def test_replacing_goes_on(what: str, shimmed: Shimmed, copy: Copy, tmp_path: Path) -> None:
    path = copy("onie.bin")
    result = shimmed.run(what, "set", path, *SET)
    assert (result.status, path.read_bytes()) == (DONE, NEW), result
    assert files(tmp_path) == ["onie.bin"]


@pytest.mark.parametrize("what", ["fail-write", "fail-fsync", "fail-rename", "fail-fchmod"])
def test_replacing_fails(what: str, shimmed: Shimmed, copy: Copy, tmp_path: Path) -> None:
    path = copy("onie.bin")
    path.chmod(0o640)
    result = shimmed.run(what, "set", path, *SET)
    assert shimmed.noted(what[5:])
    assert result.status == FAILED
    assert path.read_bytes() == OLD
    assert files(tmp_path) == ["onie.bin"]


def test_replacing_is_made_safe(shimmed: Shimmed, copy: Copy, tmp_path: Path) -> None:
    path = copy("onie.bin")
    assert shimmed.run("", "set", path, *SET).status == DONE
    calls = [line.split() for line in shimmed.log.read_text().splitlines()]
    order = [(call[0], call[3] if len(call) > 3 else "") for call in calls]
    temporary = [k for k, (name, target) in enumerate(order) if name == "fsync" and f"/.{path.name}." in target]
    renamed = [k for k, (name, _) in enumerate(order) if name == "rename"]
    folder = [k for k, (name, target) in enumerate(order) if name == "fsync" and target == str(tmp_path)]
    assert temporary and renamed and folder, order
    assert temporary[0] < renamed[0] < folder[0]
    assert not [call for call in order if call[0] in ("write", "pwrite") and call[1] == str(path)]


# ---- Standard output that cannot be written, terminals -------------------------------------


READERS: list[list[Word]] = [
    ["list", SAMPLES / "onie.bin"],
    ["list", "--names", SAMPLES / "onie.bin"],
    ["list", "-j", SAMPLES / "onie.bin"],
    ["get", SAMPLES / "onie.bin", "serial"],
    ["get", "-r", SAMPLES / "onie.bin", "serial"],
    ["check", SAMPLES / "onie.bin"],
    ["strings", SAMPLES / "tiny.bin"],
    ["vendor", SAMPLES / "onie.bin"],
    ["names"],
    ["room", "list", SAMPLES / "room.bin"],
    ["room", "fetch", SAMPLES / "room.bin", "17", "-"],
    ["set", "-n", SAMPLES / "onie.bin", "serial", "X"],
    ["--help"],
    ["--version"],
    ["help", "list"],
]


@pytest.mark.parametrize("line", READERS, ids=lambda line: " ".join(str(w).split("/")[-1] for w in line))
def test_full_standard_output(line: list[Word]) -> None:
    with open("/dev/full", "wb") as full:
        done = subprocess.run([COMMAND, *words(tuple(line))], stdout=full, stderr=subprocess.PIPE, check=False)
    assert done.returncode == FAILED, done
    assert done.stderr and plain(done.stderr)


def test_full_standard_output_of_a_filter() -> None:
    with open("/dev/full", "wb") as full:
        line = words((COMMAND, "set", "-", *SET))
        done = subprocess.run(line, input=OLD, stdout=full, stderr=subprocess.PIPE, check=False)
    assert done.returncode == FAILED
    assert done.stderr and plain(done.stderr)


def test_full_standard_output_of_a_change(copy: Copy, tmp_path: Path) -> None:
    path = copy("onie.bin")
    with open("/dev/full", "wb") as full:
        line = words((COMMAND, "set", path, *SET))
        done = subprocess.run(line, stdout=full, stderr=subprocess.PIPE, check=False)
    assert done.returncode == FAILED
    assert path.read_bytes() in (OLD, NEW)
    assert files(tmp_path) == ["onie.bin"]


@pytest.mark.parametrize("closed", ["<&-", ">&-", "2>&-", "<&- >&- 2>&-"])
@pytest.mark.parametrize("more", ["", "-i", "-j"])
def test_closed_standard_files(closed: str, more: str, copy: Copy, tmp_path: Path) -> None:
    """What is said does not get into the file, whatever number the file is opened under."""
    path = copy("onie.bin")
    script = f'exec "$0" set {more} "$1" serial NEW-SERIAL-1 {closed}'
    done = subprocess.run(["sh", "-c", script, COMMAND, path], capture_output=True, check=False)
    assert done.returncode in (DONE, FAILED)
    assert path.read_bytes() == NEW or (path.read_bytes() == OLD and done.returncode == FAILED)
    assert files(tmp_path) == ["onie.bin"]
    script = f'exec "$0" list "$1" {closed}'
    done = subprocess.run(["sh", "-c", script, COMMAND, path], capture_output=True, check=False)
    assert done.returncode in (DONE, FAILED)
    script = f'exec "$0" write -f onie "$1" {closed}'
    done = subprocess.run(["sh", "-c", script, COMMAND, tmp_path / "new"], input=b"[]", capture_output=True, check=False)
    assert done.returncode in (DONE, REFUSED, FAILED)
    if (tmp_path / "new").exists():
        assert (tmp_path / "new").read_bytes() == f.write(f.ONIE, 4, [], 17)


def on_terminal(line: list[Word], stdin: bytes = b"") -> tuple[int, bytes]:
    """Status and what a terminal shows of a run whose standard output is one."""
    main, side = pty.openpty()
    try:
        done = subprocess.run([COMMAND, *words(tuple(line))], input=stdin, stdout=side, stderr=subprocess.PIPE, check=False)
        os.set_blocking(main, False)
        try:
            seen = os.read(main, 65536)
        except BlockingIOError:
            seen = b""
        return done.returncode, seen
    finally:
        os.close(main)
        os.close(side)


@pytest.mark.parametrize(
    "line",
    [
        ["get", "-r", SAMPLES / "onie.bin", "extension"],
        ["room", "fetch", SAMPLES / "room.bin", "17", "-"],
        ["set", "-", "serial", "X"],
        ["add", "-", "serial", "X"],
        ["remove", "-", "serial"],
        ["vendor", "-", "serial=X"],
        ["write", "-f", "onie", "-"],
        ["room", "remove", "-", "17"],
    ],
    ids=lambda line: " ".join(str(w).split("/")[-1] for w in line),
)
def test_no_bytes_to_a_terminal(line: list[Word]) -> None:
    status, seen = on_terminal(line, b"[]" if line[0] == "write" else OLD)
    assert (status, seen) == (USAGE, b"")


def test_words_to_a_terminal() -> None:
    status, seen = on_terminal(["get", SAMPLES / "onie.bin", "extension"])
    assert status == DONE and seen.startswith(b"00001f79")
    status, seen = on_terminal(["set", "-n", SAMPLES / "onie.bin", "serial", "X"])
    assert status == DONE and b"would set" in seen
    status, seen = on_terminal(["set", "-n", "-j", "-", "serial", "X"], OLD)
    assert status == DONE and b"dry_run" in seen


# ---- A full disk ---------------------------------------------------------------------------

FULL_DISK = r"""
set -eu
mount -t tmpfs -o size=64k tmpfs "$1"
cp "$2" "$1/my.bin"
if [ "$4" != 0 ]; then dd if=/dev/zero of="$1/keep" bs=1k count="$4" 2>/dev/null; fi
dd if=/dev/zero of="$1/filler" bs=1k 2>/dev/null || true
if [ "$4" != 0 ]; then rm "$1/keep"; fi
set +e
"$3" set $5 "$1/my.bin" serial NEW-SERIAL-1
echo "status $?"
ls -A "$1"
cp "$1/my.bin" "$6"
"""


def full_disk(tmp_path: Path, room: int, option: str, name: str) -> tuple[int, list[str], bytes]:
    """Status, files and bytes of a change where the disk has so many kilobytes left."""
    needs_root("unshare")
    disk, out = tmp_path / "disk", tmp_path / "out"
    disk.mkdir()
    line = words(("unshare", "-m", "sh", "-c", FULL_DISK, "sh", disk, SAMPLES / name, COMMAND, room, option, out))
    done = subprocess.run(line, capture_output=True, check=False)
    if b"mount" in done.stderr and b"status" not in done.stdout:
        pytest.skip(f"a tmpfs cannot be mounted: {plain(done.stderr) and done.stderr.decode().strip()}")
    lines = done.stdout.decode().splitlines()
    status = next(line for line in lines if line.startswith("status "))
    return int(status.split()[1]), sorted(lines[lines.index(status) + 1 :]), out.read_bytes()


@pytest.mark.parametrize("name, room", [("onie.bin", 0), ("fboss.bin", 0), ("fboss.bin", 4)])
def test_full_disk(name: str, room: int, tmp_path: Path) -> None:
    status, left, data = full_disk(tmp_path, room, "-e 4", name)
    assert (status, left) == (FAILED, ["filler", "my.bin"])
    assert data == sample(name)


def test_full_disk_in_place(tmp_path: Path) -> None:
    status, left, data = full_disk(tmp_path, 0, "-i", "onie.bin")
    assert (status, left, data) == (DONE, ["filler", "my.bin"], NEW)


# ---- Ended in the middle -------------------------------------------------------------------


def ended_in_the_middle(shim: Path, path: Path, sent: signal.Signals, tries: int) -> tuple[int, int]:
    """Ends changes after growing delays; gives how many left the old and the new file."""
    folder = path.parent
    olds = news = 0
    for k in range(tries):
        path.write_bytes(OLD)
        env = dict(os.environ)
        longest = 0.004
        if k % 2:
            env |= {"LD_PRELOAD": str(shim), "SHIM_DO": "slow", "SHIM_SLOW": "2000"}
            longest = 0.015
        process = subprocess.Popen(
            [COMMAND, "set", path, *words(tuple(SET))], env=env, stdout=subprocess.DEVNULL, stderr=subprocess.DEVNULL
        )
        time.sleep(longest * k / tries)
        process.send_signal(sent)
        status = process.wait(20)
        assert status in (DONE, -sent), status
        data = path.read_bytes()
        assert data in (OLD, NEW), data.hex()
        if status == DONE:
            assert data == NEW
        olds, news = olds + (data == OLD), news + (data == NEW)
        others = [name for name in files(folder) if name != path.name]
        if sent != signal.SIGKILL:
            assert others == []
        for name in others:
            assert name.startswith(f".{path.name}."), name
            (folder / name).unlink()
    return olds, news


@pytest.mark.parametrize("sent", [signal.SIGTERM, signal.SIGKILL, signal.SIGINT, signal.SIGHUP])
def test_ended_in_the_middle(sent: signal.Signals, shim: Path, copy: Copy) -> None:
    olds, news = ended_in_the_middle(shim, copy("onie.bin"), sent, 40)
    assert olds + news == 40


@pytest.mark.long
@pytest.mark.parametrize("sent", [signal.SIGTERM, signal.SIGKILL])
def test_ended_in_the_middle_long(sent: signal.Signals, shim: Path, copy: Copy) -> None:
    olds, news = ended_in_the_middle(shim, copy("onie.bin"), sent, 400)
    assert olds > 0 and news > 0


def at_once(lines: list[list[Word]]) -> list[int]:
    """The statuses of runs of the command that are started together."""
    started = [subprocess.Popen([COMMAND, *map(str, line)], stdout=subprocess.DEVNULL, stderr=subprocess.DEVNULL) for line in lines]
    return [process.wait(20) for process in started]


@pytest.mark.parametrize("more", [[], ["-i"]], ids=["replaced", "in place"])
def test_two_changes_at_once(more: list[Word], copy: Copy, tmp_path: Path) -> None:
    """Of two changes of one file at the same time each is made, or said not to be: none is lost."""
    path = copy("onie.bin")
    wanted = {2: b"NEW-SERIAL-1", 1: b"NEW-PART"}
    for _ in range(40):
        path.write_bytes(OLD)
        statuses = at_once([["set", *more, path, "serial", "NEW-SERIAL-1"], ["set", *more, path, "part", "NEW-PART"]])
        if more and statuses != [DONE, DONE]:  # the other one may have been half written when it was read, or written when it was read back
            assert set(statuses) <= {DONE, FAILED, REFUSED}
            assert f.read(f.ONIE, 4, path.read_bytes())
        else:
            assert set(statuses) <= {DONE, FAILED}
            data = OLD
            for number, status in zip((2, 1), statuses):
                data = f.edit(f.ONIE, 4, data, number, wanted[number]) if status == DONE else data
            assert path.read_bytes() == data
        assert files(tmp_path) == ["onie.bin"]


def test_two_boards_of_a_new_room_file_at_once(tmp_path: Path) -> None:
    path = tmp_path / "room"
    for _ in range(20):
        statuses = at_once([["room", "add", path, "1", SAMPLES / "tiny.bin"], ["room", "add", path, "2", SAMPLES / "sku.vpd"]])
        assert set(statuses) <= {DONE, FAILED} and DONE in statuses
        boards = [board["board"] for board in run("room", "list", "-j", path).json["boards"]]
        assert boards == [number for number, status in zip((1, 2), statuses) if status == DONE]
        assert files(tmp_path) == ["room"]
        path.unlink()


def opened_for_a_reader(fifo: Path) -> TextIO:
    """A pipe to write to, as soon as another has opened it to read."""
    for _ in range(2000):
        try:
            return open(os.open(fifo, os.O_WRONLY | os.O_NONBLOCK), "w", encoding="ascii")
        except OSError:
            time.sleep(0.01)
    raise AssertionError("nobody reads the pipe")


@pytest.mark.parametrize("more", [[], ["-i"]], ids=["replaced", "in place"])
def test_a_file_that_changes_while_json_comes(more: list[Word], copy: Copy, tmp_path: Path) -> None:
    path, fields = copy("onie.bin"), tmp_path / "fields"
    os.mkfifo(fields)
    for changed in (NEW, b"short", OLD + b"\xff"):
        path.write_bytes(OLD)
        late = subprocess.Popen([COMMAND, "write", "-f", "onie", *map(str, more), path, fields], stdout=subprocess.DEVNULL, stderr=subprocess.PIPE)
        with opened_for_a_reader(fields) as pipe:  # which the command is after it has read the file
            path.write_bytes(changed)
            json.dump([{"name": "Serial Number", "value": "LATE"}], pipe)
        said = late.communicate(timeout=20)[1]
        longer = bool(more) and changed.startswith(OLD)
        assert late.returncode == (DONE if longer else FAILED), said
        if not longer:
            assert b"another program has changed it" in said
            assert path.read_bytes() == changed


def test_an_access_list_is_not_lost(copy: Copy) -> None:
    path = copy("onie.bin")
    entries = [(1, 6, 0xFFFFFFFF), (2, 6, 1234), (4, 0, 0xFFFFFFFF), (16, 6, 0xFFFFFFFF), (32, 0, 0xFFFFFFFF)]
    access = struct.pack("<I", 2) + b"".join(struct.pack("<HHI", *entry) for entry in entries)
    try:
        os.setxattr(path, "system.posix_acl_access", access)
    except OSError:
        pytest.skip("this file system has no access lists")
    for dry in ([], ["-n"]):
        result = run("set", *dry, path, *SET)
        assert result.status == FAILED and "--in-place" in result.said
    assert path.read_bytes() == OLD
    assert run("set", "-i", path, *SET).status == DONE
    assert path.read_bytes() == NEW
    assert os.getxattr(path, "system.posix_acl_access") == access
