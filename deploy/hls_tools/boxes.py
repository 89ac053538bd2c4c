"""The boxes of fragmented MP4 (ISO/IEC 14496-12 4.2): their positions, and whether some bytes are complete."""
from collections.abc import Iterator


def boxes(data: bytes) -> Iterator[tuple[bytes, int]]:
    """Yields the kind of each box and the position after its last byte, up to the first incomplete box. A size of 0 (up to the end of the
    file) isn't supported."""
    at, end = 0, len(data)
    while at + 8 <= end:
        size, kind, head = int.from_bytes(data[at:at + 4], "big"), data[at + 4:at + 8], 8
        if size == 1 and at + 16 <= end:
            size, head = int.from_bytes(data[at + 8:at + 16], "big"), 16
        if size < head or at + size > end:
            return
        yield kind, at + size
        at += size


def init_length(data: bytes) -> int:
    """Returns the length of the init section at the beginning, up to the end of its moov; 0 if it is incomplete."""
    return next((end for kind, end in boxes(data) if kind == b"moov"), 0)


def count_units(data: bytes) -> int | None:
    """Returns the number of units, or None if the bytes aren't complete units."""
    found = list(boxes(data))
    if not found or found[-1] != (b"mdat", len(data)):
        return None
    return sum(kind == b"moof" for kind, _ in found)
