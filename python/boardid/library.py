"""The shared library by ctypes: where it is found, the types of its sixteen exports, and one call.

It is loaded when it is first needed, and once. Calls hold no lock: the library keeps nothing
between calls, and each is lent memory of its own.
"""

from __future__ import annotations

import ctypes
import operator
import os
import threading
from typing import Any, Dict, NamedTuple, Optional, Tuple, Union

from .errors import Refused

#: What the loader is asked for where BOARDID_LIBRARY names no file.
SONAME = "libboardid.so.1"

#: The newest edition that this module knows, and the one that a call asks with by default.
EDITION = 4

#: The most bytes of an image, of a room file and of an output.
IMAGE_MAX = 65536

#: Bytes that may be lent to a call. They are copied where they are no `bytes`.
Bytes = Union[bytes, bytearray, memoryview]

_U32 = ctypes.c_uint32
_U64 = ctypes.c_uint64
_IN = ctypes.c_char_p  # const uint8_t *: a bytes object as it is, zeros and all
_OUT = ctypes.POINTER(ctypes.c_uint8)
_SIZE = ctypes.c_size_t

#: The arguments of each export, in the order of the header.
SIGNATURES: Dict[str, Tuple[Any, ...]] = {
    "boardid_check": (_U32, _U32, _IN, _SIZE),
    "boardid_list": (_U32, _U32, _IN, _SIZE, _OUT, _SIZE),
    "boardid_entry": (_U32, _U32, _IN, _SIZE, _U64, _OUT, _SIZE),
    "boardid_value": (_U32, _U32, _IN, _SIZE, _U64),
    "boardid_string": (_U32, _U32, _IN, _SIZE, _U64),
    "boardid_step": (_OUT, _SIZE, _IN, _SIZE, _OUT, _SIZE),
    "boardid_write": (_U32, _U32, _IN, _SIZE, _IN, _SIZE, _OUT, _SIZE),
    "boardid_edit": (_U32, _U32, _IN, _SIZE, _U64, _IN, _SIZE, _OUT, _SIZE),
    "boardid_add": (_U32, _U32, _IN, _SIZE, _IN, _SIZE, _IN, _SIZE, _OUT, _SIZE),
    "boardid_remove": (_U32, _U32, _IN, _SIZE, _U64, _OUT, _SIZE),
    "boardid_room_add": (_U32, _U32, _IN, _SIZE, _U32, _U32, _IN, _SIZE, _OUT, _SIZE),
    "boardid_room_replace": (_U32, _U32, _IN, _SIZE, _U32, _U32, _IN, _SIZE, _OUT, _SIZE),
    "boardid_room_remove": (_U32, _U32, _IN, _SIZE, _U32, _OUT, _SIZE),
    "boardid_room_fetch": (_U32, _U32, _IN, _SIZE, _U32),
    "boardid_vendor_read": (_U32, _U32, _IN, _SIZE, _OUT, _SIZE, _OUT, _SIZE),
    "boardid_vendor_write": (_U32, _U32, _IN, _SIZE, _U64, _IN, _SIZE, _OUT, _SIZE),
}

_lock = threading.Lock()
_functions: Optional[Dict[str, Any]] = None


class Answer(NamedTuple):
    """What a call that was not refused gives: a count or length, and the place of a part."""

    size: int
    place: int


def _open() -> Dict[str, Any]:
    """Loads the library and sets the types of its exports; OSError says why it cannot."""
    named = os.environ.get("BOARDID_LIBRARY", "")
    path = os.path.abspath(named) if named else SONAME
    try:
        library = ctypes.CDLL(path)
    except OSError as error:
        hint = (
            "BOARDID_LIBRARY names it"
            if named
            else "install the package libboardid1, or let BOARDID_LIBRARY name the file"
        )
        raise OSError(f"the shared library {path} cannot be loaded ({error}); {hint}") from None
    functions: Dict[str, Any] = {}
    for name, arguments in SIGNATURES.items():
        try:
            function = getattr(library, name)
        except AttributeError:
            raise OSError(
                f"the shared library {path} has no {name}; this module needs version 4.2 or later"
            ) from None
        function.argtypes = arguments
        function.restype = ctypes.c_uint64
        functions[name] = function
    return functions


def load() -> Dict[str, Any]:
    """Loads the library, where it is not loaded yet, and gives its exports by name.

    Every call does this by itself. A program that wants to know early calls it first: OSError says
    that there is no such library.
    """
    global _functions
    if _functions is None:
        with _lock:
            if _functions is None:
                _functions = _open()
    return _functions


def call(name: str, *arguments: Any) -> Answer:
    """Makes a call and takes its answer apart; Refused where it is refused."""
    answer = int(load()[name](*arguments))
    number = answer >> 59
    if number != 0:
        raise Refused(number, answer & ((1 << 59) - 1))
    return Answer(answer >> 32, answer & 0xFFFFFFFF)


def lent(data: Bytes) -> bytes:
    """The bytes to lend: a copy of what is no `bytes`, so that no other thread changes it."""
    if isinstance(data, bytes):
        return data
    if isinstance(data, (int, str)):
        raise TypeError(f"bytes are needed, not {type(data).__name__}")
    return bytes(memoryview(data))


def word(number: int, what: str, bits: int = 32) -> int:
    """A number that fits the argument it is for; ctypes would cut any other."""
    number = operator.index(number)
    if not 0 <= number < 1 << bits:
        raise ValueError(f"{what} is a number from 0 to {(1 << bits) - 1}, not {number}")
    return number


def output(length: int) -> "ctypes.Array[ctypes.c_uint8]":
    """Memory for a call to write; no more of it than the library takes, and one byte."""
    length = operator.index(length)
    if length < 0:
        raise ValueError(f"a room has 0 bytes or more, not {length}")
    return (ctypes.c_uint8 * min(length, IMAGE_MAX + 1))()
