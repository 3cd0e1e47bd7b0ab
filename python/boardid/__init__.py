"""boardid reads, writes and edits the identity chips of boards, by the shared library libboardid.

    import boardid

    image = boardid.Image.read("onie.bin")
    print(image["serial"].value)
    changed = image.with_value("serial", "SN-8")
    open("new.bin", "wb").write(bytes(changed))

The calls below take any bytes and give new ones; no argument is changed. They keep nothing, so
that threads may make them at the same time.
"""

from .calls import (
    add,
    check,
    detect,
    edit,
    entries,
    entry,
    is_blank,
    remove,
    string,
    value,
    walk,
    write,
)
from .records import Entry, Field
from .errors import AmbiguousName, Blank, Error, NoSuchName, Refused, refusal_text
from .formats import Fboss, Format, Kind, Onie, Reading, Tiny, Vpd, kind_name, kind_of, kinds
from .image import Image
from .library import EDITION, IMAGE_MAX, load
from .rooms import (
    ROOM_FORM,
    RoomRow,
    room_add,
    room_empty,
    room_fetch,
    room_remove,
    room_replace,
    room_rows,
)
from .values import AddressBlock, Flags, Identity, String, Value
from .vendor import OFFSETS, Vendor, vendor_read, vendor_write

__version__ = "4.3"

__all__ = [
    "AddressBlock",
    "AmbiguousName",
    "Blank",
    "EDITION",
    "Entry",
    "Error",
    "Fboss",
    "Field",
    "Flags",
    "Format",
    "IMAGE_MAX",
    "Identity",
    "Image",
    "Kind",
    "NoSuchName",
    "OFFSETS",
    "Onie",
    "ROOM_FORM",
    "Reading",
    "Refused",
    "RoomRow",
    "String",
    "Tiny",
    "Value",
    "Vendor",
    "Vpd",
    "add",
    "check",
    "detect",
    "edit",
    "entries",
    "entry",
    "is_blank",
    "kind_name",
    "kind_of",
    "kinds",
    "load",
    "refusal_text",
    "remove",
    "room_add",
    "room_empty",
    "room_fetch",
    "room_remove",
    "room_replace",
    "room_rows",
    "string",
    "value",
    "vendor_read",
    "vendor_write",
    "walk",
    "write",
]
