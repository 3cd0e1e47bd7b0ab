"""Which entry stands at a place, for what is said of a refused image."""

from __future__ import annotations

from conftest import sample

import boardid
from boardid import Field, Format
from boardid.frames import Frame, frame_at


def test_every_entry_of_a_sample_and_no_other_place(image_name: str) -> None:
    data = sample(image_name)
    image = boardid.Image(data)
    wanted = {one.place: Frame(one.number, one.code, one.key or b"") for one in image}
    end = image.entries[-1].place + image.entries[-1].frame_length
    for place in range(end):
        assert frame_at(data, image.format, place) == wanted.get(place)
    assert frame_at(data, image.format, len(data)) is None


def test_vpd_lengths_of_more_bytes() -> None:
    fields = [Field(1, bytes(200), b"a" * 130), Field(1, b"", b"last")]
    data = boardid.write(fields, Format.VPD)
    last = boardid.entries(data)[1]
    assert frame_at(data, Format.VPD, last.place) == Frame(1, 1, b"last")
    assert frame_at(data[:-3], Format.VPD, last.place) == Frame(1, 1, b"")


def test_any_bytes() -> None:
    for format in Format:
        for data in (b"", b"\1", b"\xff" * 20, bytes(20), b"\x80" * 20, bytes(range(256))):
            for place in range(len(data) + 2):
                frame_at(data, format, place)
