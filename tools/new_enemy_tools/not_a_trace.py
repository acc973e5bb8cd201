"""What bytes are that are no trace and no evidence at all, where one can tell."""
import re
from typing import Iterator

BEGINNINGS = (
    (b"\xef\xbb\xbf", "it begins with a byte order mark, the bytes EF BB BF, which is no part of JSON: take these three bytes away"),
    (b"\xff\xfe", "it begins as UTF-16 does: write it as UTF-8"),
    (b"\xfe\xff", "it begins as UTF-16 does: write it as UTF-8"),
    (b"\x1f\x8b", "it begins as gzip does, with the bytes 1F 8B: unpack it, as by gzip -dc, and audit /dev/stdin"),
    (b"\x28\xb5\x2f\xfd", "it begins as zstd does: unpack it, as by zstd -dc, and audit /dev/stdin"),
    (b"PK\x03\x04", "it begins as a zip archive does: unpack it"))
NEARLY_MARKER = re.compile(rb"^(?!---$)[ \t]*---[ \t]*(\r?)$", re.MULTILINE)


def hints(data: bytes) -> Iterator[str]:
    """What may be wrong with the whole of some bytes that are refused. One pass over them at most."""
    for beginning, told in BEGINNINGS:
        if data.startswith(beginning):
            yield told
    found = NEARLY_MARKER.search(data)
    if found is not None:
        behind = "a carriage return" if found[1] else "spaces"
        yield "line %d is --- and %s; the line between a trace and its evidence is --- alone" % (data.count(b"\n", 0, found.start()) + 1, behind)
