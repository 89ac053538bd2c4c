"""Requests whose response nobody reads: interrupted before it arrives, reset, or refused for their head. What is fetched for them is
cached for later requests, so nobody makes the edge fetch the same thing again and again, or keeps others from it.

Not a script: tests/edge/attacks runs it on a channel behind a proxy that counts.
"""
import re
import socket
import ssl
import struct
import threading
import time

from edge_site import media_of
from harness import check

STRANGER = "127.9.60.1"
# Each kind has an address of its own, so that none is above the rate of what is cached for an address.
OTHERS = (f"127.9.61.{n}" for n in range(1, 250))
# What each says, and the statuses that are right for it. Of a segment no date and no tag is known.
HEADS = {
    "a range beyond the end": ("Range: bytes=99999999-\r\n", {416}),
    "a range that is none": ("Range: bytes=x\r\n", {416}),
    "a range and none": ("Range: bytes=0-0,x\r\n", {416}),
    "two fields of ranges": ("Range: bytes=x\r\nRange: bytes=0-1\r\n", {206, 416}),
    "a range of what it was": ('If-Range: "a"\r\nRange: bytes=1-2\r\n', {200}),
    "a range": ("Range: bytes=1-2\r\n", {206}),
    "a tag that must match": ('If-Match: "a"\r\n', {412}),
    "an empty tag that must match": ("If-Match:\r\n", {412}),
    "no change since long ago": ("If-Unmodified-Since: Thu, 01 Jan 1970 00:00:00 GMT\r\n", {200, 412}),
    "no change since nothing": ("If-Unmodified-Since:\r\n", {200, 412}),
    "no tag at all": ("If-None-Match: *\r\n", {304}),
    "a change since tomorrow": ("If-Modified-Since: Fri, 01 Jan 2100 00:00:00 GMT\r\n", {200}),
    "a cache that wants it anew": ("Cache-Control: no-cache\r\nPragma: no-cache\r\nX-Accel-Expires: 0\r\n", {200}),
}


def broken_off(site):
    """Ten times each, of a segment that nobody has asked for yet, and of a list all the time."""
    edge, wire = site.edge, site.wire
    paths, whole = site.segments(rendition=1)[0], media_of(0, 1, 60)

    def twice(name, ask_ten, most=2):
        path, here = paths.pop(), next(OTHERS)
        wire.asked()
        said = ask_ten(path, here)
        time.sleep(0.3)
        found = [edge.raw(path, here=here) for _ in range(2)]
        asked = wire.asked()
        first, last = map(int, re.search(r"/([0-9]+)-([0-9]+)\.", path).groups())
        check(f"{name}, ten times: it is fetched {most} times at most, and there", 1 <= len(asked) <= most and [one[0] for one in found] == [200] * 2 and
              found[1][1]["x-cache"] == "HIT" and found[0][2] == found[1][2] == whole[first:last + 1], (asked, [one[:2] for one in found]))
        return said
    for name, (head, statuses) in HEADS.items():
        said = twice(name, lambda path, here, head=head: {edge.raw(path, head, here=here)[0] for _ in range(10)})
        check(f"{name} is answered", said <= statuses, said)
    before = wire.bytes
    said = twice("HEAD", lambda path, here: [(*edge.raw(path, here=here, method="HEAD")[:2], wire.bytes - before) for _ in range(10)], 11)
    check("HEAD of what isn't cached is answered, and fetches no body", all(status == 200 and fields["content-length"] == "4000" and fetched < 4000 for status, fields, fetched in said), said[-1])
    for name in ("closed", "reset", "half closed"):
        twice(f"a connection that is {name}", lambda path, here, name=name: [left(edge, path, name, here) for _ in range(10)])
    twice("a stream of HTTP/2 that is reset", lambda path, here: by_http2(edge, [path] * 10, True, here=here))
    twice("a stream of HTTP/2 with an empty tag", lambda path, here: by_http2(edge, [path] * 10, False, [("if-match", "")], here))
    lists(site)


def lists(site):
    """A list goes on, and is asked for once a second, where all that asks for it anew is a stranger's that is refused it."""
    edge, wire, over, seen = site.edge, site.wire, threading.Event(), []

    def stranger():
        while not over.is_set():
            left(edge, "/hls/1.m3u8", "half closed")
            edge.raw("/hls/1.m3u8", "If-Match:\r\n", here=STRANGER)
            by_http2(edge, ["/hls/1.m3u8"], True)
    thread = threading.Thread(target=stranger)
    wire.asked()
    thread.start()
    begun = time.monotonic()
    for _ in range(3):
        site.more(1)
        time.sleep(2.5)
        seen.append(edge.raw("/hls/1.m3u8")[2])
    over.set()
    thread.join()
    asked = wire.asked().count("/hls/1.m3u8")
    check("a list that strangers alone have fetched anew goes on", len(set(seen)) == 3, seen)
    check("and is asked for once a second at most", 3 <= asked <= time.monotonic() - begun + 1, asked)


def left(edge, path, how, here=STRANGER):
    """Asks, and is gone before the reply is there."""
    with socket.create_connection(("127.0.0.1", edge.open), source_address=(here, 0)) as s:
        s.sendall(f"GET {path} HTTP/1.1\r\nHost: localhost\r\n\r\n".encode())
        if how == "reset":
            s.setsockopt(socket.SOL_SOCKET, socket.SO_LINGER, b"\1\0\0\0\0\0\0\0")
        if how == "half closed":
            s.shutdown(socket.SHUT_WR)
            time.sleep(0.02)


def by_http2(edge, paths, reset, more=(), here=STRANGER):
    """Asks for each path on one connection of HTTP/2 (RFC 9113), and resets the stream right behind its head where that is wanted."""
    def frame(kind, flags, stream, content):
        return struct.pack(">I", len(content))[1:] + bytes([kind, flags]) + struct.pack(">I", stream) + content

    def field(name, value):
        # a literal that isn't indexed, without Huffman's code (RFC 7541 6.2.2)
        return b"\0" + b"".join(bytes([len(text)]) + text for text in (name.encode(), value.encode()))
    context = edge.context()
    context.set_alpn_protocols(["h2"])
    with context.wrap_socket(socket.create_connection(("127.0.0.1", edge.port), source_address=(here, 0)), server_hostname="localhost") as s:
        assert s.selected_alpn_protocol() == "h2"
        s.sendall(b"PRI * HTTP/2.0\r\n\r\nSM\r\n\r\n" + frame(4, 0, 0, b""))
        for at, path in enumerate(paths):
            head = b"".join(field(*one) for one in [(":method", "GET"), (":scheme", "https"), (":authority", "localhost"), (":path", path), *more])
            s.sendall(frame(1, 5, 2 * at + 1, head) + (frame(3, 0, 2 * at + 1, struct.pack(">I", 8)) if reset else b""))
            time.sleep(0.02)
        time.sleep(0.2)
        try:
            s.unwrap()
        except (OSError, ssl.SSLError):
            pass
