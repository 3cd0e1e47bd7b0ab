"""Lists an image file: python3 -m boardid FILE [--json] [--edition N] [--format F] [--offset N]

Exit status, as of the command boardid: 0 listed; 1 refused; 2 usage; 3 the file cannot be read or
the list not be written; 4 the chip is blank.
"""

from __future__ import annotations

import argparse
import json
import os
import signal
import sys
from typing import Any, Dict, List, NoReturn, Optional

from .calls import detect, image_length, is_blank
from .calls import entries as list_entries
from .errors import Blank, Refused
from .formats import Format, kinds
from .frames import frame_at
from .library import EDITION, IMAGE_MAX, load
from .listing import escaped, json_file, list_object, printable, table

DONE, REFUSED, USAGE, FILE, BLANK = range(5)

#: The most bytes of a file that are read: an image has far less.
READ_MAX = 16 * 1024 * 1024


class _Failed(Exception):
    """The list cannot be made: the exit status, and what JSON says about it."""

    def __init__(
        self,
        status: int,
        message: str,
        hint: Optional[str] = None,
        number: Optional[int] = None,
        place: Optional[int] = None,
        entry: Optional[int] = None,
        name: Optional[str] = None,
    ) -> None:
        super().__init__(message)
        self.status = status
        self.message = message
        self.hint = hint
        self.number = number
        self.place = place
        self.entry = entry
        self.name = name

    def object(self, file: Optional[str]) -> Dict[str, Any]:
        """The object of --json."""
        error = {
            "status": self.status,
            "number": self.number,
            "place": self.place,
            "entry": self.entry,
            "name": self.name,
            "message": self.message,
            "hint": self.hint,
        }
        return {"file": file, "error": error}


class _Parser(argparse.ArgumentParser):
    """Says what is wrong with the command line, without a raw byte of it, and ends with 2."""

    def error(self, message: str) -> NoReturn:
        self.print_usage(sys.stderr)
        self.exit(USAGE, f"{self.prog}: {escaped(message)}\n")


def _number(text: str) -> int:
    """A number in decimal, or after 0x in hexadecimal."""
    digits = text[2:] if text[:2].lower() == "0x" else text
    base = 10 if digits is text else 16
    if not digits.isascii() or not digits.isalnum():
        raise argparse.ArgumentTypeError(f"{text} is no number")
    try:
        return int(digits, base)
    except ValueError:
        raise argparse.ArgumentTypeError(f"{text} is no number") from None


def _edition(text: str) -> int:
    """An edition: any number of 32 bits, for the library to refuse."""
    number = _number(text)
    if number >= 1 << 32:
        raise argparse.ArgumentTypeError(f"{text} is above 4294967295")
    return number


def _format(text: str) -> Format:
    try:
        return Format.of(text)
    except ValueError as error:
        raise argparse.ArgumentTypeError(str(error)) from None


def _parser() -> argparse.ArgumentParser:
    parser = _Parser(prog="python3 -m boardid", description="Lists the entries of an image file.")
    parser.add_argument("file", metavar="FILE", help="the file; - is standard input")
    parser.add_argument("-j", "--json", action="store_true", help="print JSON")
    parser.add_argument(
        "-e",
        "--edition",
        type=_edition,
        default=EDITION,
        metavar="N",
        help="the edition to ask the library with",
    )
    parser.add_argument(
        "-f",
        "--format",
        type=_format,
        metavar="F",
        help="fboss, vpd, tiny, onie or 1 to 4; else it is detected",
    )
    parser.add_argument(
        "-o", "--offset", type=_number, default=0, metavar="N", help="the image begins at byte N"
    )
    parser.add_argument("-l", "--length", type=_number, metavar="N", help="its room is N bytes")
    return parser


def _shown(file: str) -> str:
    """What a file is called for people."""
    return "standard input" if file == "-" else file


def _read(file: str) -> bytes:
    """The file's bytes, or standard input's."""
    try:
        if file == "-":
            return sys.stdin.buffer.read(READ_MAX + 1)
        with open(file, "rb") as opened:
            return opened.read(READ_MAX + 1)
    except OSError as error:
        folder = isinstance(error, IsADirectoryError)
        raise _Failed(FILE, "is a folder" if folder else error.strerror or str(error)) from None
    except ValueError as error:
        raise _Failed(FILE, str(error)) from None


def _list(options: argparse.Namespace) -> str:
    """The listing that the options ask for."""
    whole = _read(options.file)
    end = len(whole) if options.length is None else options.offset + options.length
    if options.offset > len(whole) or end > len(whole):
        many = f"more than {READ_MAX}" if len(whole) > READ_MAX else str(len(whole))
        raise _Failed(FILE, f"the image's room is past the end: the file has {many} bytes")
    data = whole[options.offset : end]
    if not data:
        raise _Failed(FILE, "is empty: the image's room has no bytes" if whole else "is empty")
    format: Optional[Format] = None
    try:
        load()
        format = options.format
        if format is None:
            format = detect(data, edition=options.edition)
        listed = list_entries(data, format, edition=options.edition)
    except OSError as error:
        raise _Failed(FILE, str(error)) from None
    except Blank as blank:
        raise _blank(blank) from None
    except Refused as refused:
        if refused.number not in (1, 16) and is_blank(data):
            raise _blank(Blank(data[0], len(data))) from None
        raise _refusal(refused, data, format, options.edition, options.offset) from None
    length = image_length(format, listed)
    if options.json:
        made = list_object(
            options.file, format, options.edition, options.offset, length, len(data), listed
        )
        return json.dumps(made, indent=2)
    return table(_shown(options.file), format, options.edition, length, len(data), listed)


def _blank(blank: Blank) -> _Failed:
    """What is said of a blank chip."""
    return _Failed(BLANK, str(blank), "boardid write makes an image")


def _refusal(
    refused: Refused, data: bytes, format: Optional[Format], edition: int, offset: int
) -> _Failed:
    """What is said of a refused image; the place counts bytes of the file."""
    number = refused.number
    hint: Optional[str] = None
    if number == 2 and len(data) > IMAGE_MAX:
        hint = f"--length {IMAGE_MAX}"
    elif data[:2] == b"RM" and refused.note:
        hint = "it begins like a room file: boardid room list"
    elif number == 10:
        hint = "damaged or half written: read the chip again"
    if number in (1, 2, 11, 16):
        return _Failed(REFUSED, f"{refused.text} (refused {number})", hint, number)
    place = refused.place + offset
    found = Format.VPD if format is None else format
    frame = frame_at(data, found, refused.place) if 5 <= number <= 9 else None
    if frame is None:
        message = f"at byte {place}: {refused.text} (refused {number})"
        return _Failed(REFUSED, message, hint, number, place)
    known = [kind for kind in kinds(found, edition=edition) if kind.code == frame.code]
    name: Optional[str] = None
    if known and known[0].number != 0x201:
        name = known[0].name
    elif frame.key and printable(frame.key):
        name = frame.key.decode("ascii")
    said = f"entry {frame.number}, {name}" if name is not None else f"entry {frame.number}"
    message = f"{said}, at byte {place}: {refused.text} (refused {number})"
    return _Failed(REFUSED, message, hint, number, place, frame.number, name)


def main(arguments: Optional[List[str]] = None) -> int:
    """Lists a file; gives the exit status."""
    options = _parser().parse_args(arguments)
    status = DONE
    try:
        text = _list(options)
    except _Failed as failed:
        status = failed.status
        text = json.dumps(failed.object(json_file(options.file)), indent=2) if options.json else ""
        shown = escaped(_shown(options.file))
        print(f"boardid: {shown}: {escaped(failed.message)}", file=sys.stderr)
        if failed.hint is not None:
            print(f"  hint: {failed.hint}", file=sys.stderr)
    try:
        if text:
            print(text)
        sys.stdout.flush()
    except OSError as error:
        print(f"boardid: the list cannot be written: {error.strerror}", file=sys.stderr)
        # What is left in the buffer must not be tried again when Python ends.
        os.dup2(os.open(os.devnull, os.O_WRONLY), sys.stdout.fileno())
        return FILE
    return status


if __name__ == "__main__":
    # Ends without a word where what it prints is no longer read, as other commands do.
    signal.signal(signal.SIGPIPE, signal.SIG_DFL)
    sys.exit(main())
