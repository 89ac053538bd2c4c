"""Generated streams and texts of small examples: init sections, units, requests, replies and playlists, byte for byte."""
import os
import struct

ROOT = os.path.dirname(os.path.dirname(os.path.dirname(os.path.abspath(__file__))))

CRATE = os.path.join(ROOT, "crates", "hls_origin")
SAMPLES = os.path.join(ROOT, "samples")


def box(kind, *parts):
    content = b"".join(parts)
    return struct.pack(">I4s", 8 + len(content), kind) + content


def words(*numbers):
    return struct.pack(">%dI" % len(numbers), *numbers)


def init(scale=90000):
    """An init section of 600 bytes: one video track of this timescale."""
    track = box(b"trak", box(b"tkhd", words(3, 0, 0, 1), bytes(68)),
                box(b"mdia", box(b"mdhd", words(0, 0, 0, scale, 0, 0x55C40000)),
                    box(b"hdlr", bytes(8), b"vide", bytes(13))))
    extends = box(b"mvex", box(b"trex", words(0, 1, 1, 0, 0, 0)))
    return box(b"ftyp", b"isom", bytes(4)) + box(b"free", bytes(355)) + box(b"moov", track, extends)


def unit(start, end, sync=True, offset=108, base=b"", kind=b"mdat"):
    """A unit of 1000 bytes from one second to another."""
    flags = 0x02000000 if sync else 0x01010000
    tfhd = box(b"tfhd", words(1, 1), base) if base else box(b"tfhd", words(0x20000, 1))
    traf = box(b"traf", tfhd, box(b"tfdt", words(0x01000000), struct.pack(">Q", start * 90000)),
               box(b"trun", words(0x701, 1, offset, (end - start) * 90000, 892, flags)))
    return box(b"moof", box(b"mfhd", words(0, 1)), traf) + box(kind, b"\xaa" * 892)


def sample(name):
    with open(os.path.join(SAMPLES, name), "rb") as file:
        return file.read()


def playlist(*segments):
    """The playlist of `media.mp4` behind 600 bytes of init section; a segment is its lines."""
    head = ["#EXTM3U", "#EXT-X-VERSION:6", "#EXT-X-TARGETDURATION:6", "#EXT-X-MEDIA-SEQUENCE:0",
            "#EXT-X-DISCONTINUITY-SEQUENCE:0", "#EXT-X-PLAYLIST-TYPE:VOD",
            '#EXT-X-MAP:URI="media.mp4",BYTERANGE="600@0"']
    lines = head + [line for segment in segments for line in segment] + ["#EXT-X-ENDLIST"]
    return ("\n".join(lines) + "\n").encode()


def segment(seconds, length, offset, mark=False, date=None):
    return (["#EXT-X-DISCONTINUITY"] if mark else []) + (["#EXT-X-PROGRAM-DATE-TIME:" + date] if date else []) + [
        "#EXTINF:%s," % seconds, "#EXT-X-BYTERANGE:%d@%d" % (length, offset), "media.mp4"]


def short(status, text, *fields):
    """A reply of a short text."""
    lines = ["HTTP/1.1 " + status, "Content-Type: text/plain", "Content-Length: %d" % len(text)] + list(fields)
    return ("\r\n".join(lines) + "\r\n\r\n" + text).encode()


def asking(target, method=b"POST"):
    return method + b" " + target + b" HTTP/1.1\r\nHost: a\r\n\r\n"


def stream_of(units):
    """An init section and so many units of four seconds."""
    return init() + b"".join(unit(4 * k, 4 * k + 4) for k in range(units))


def put(target, stream, length=None):
    head = b"PUT %s HTTP/1.1\r\nHost: a\r\nContent-Length: %d\r\n\r\n"
    return head % (target, len(stream) if length is None else length) + stream
