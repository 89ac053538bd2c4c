"""An archive's pieces, and the playlists over all of them. A run reads only the pieces that the last run's playlists lack."""
import json
import os
import re
import sys

from .certificates import Certificate
from .edge import write_whole
from .programmes import names_in

NAME = re.compile(r"[0-9]{16}")
STATE = ".joined"                               # in the archive's folder: the pieces in the playlists, and the playlists' sizes
LONGEST = 4 << 20                               # most characters of a piece's playlist
# A piece's playlist: its target duration, and what is between its header and its end.
LIST = re.compile(r"#EXTM3U\n(?:#EXT-X-(?!MAP|DISCONTINUITY\n|PROGRAM)(?:TARGETDURATION:(\d{1,5})|(?!TARGETDURATION)[^\n]*)\n)*(#EXT-X-MAP:.*)#EXT-X-ENDLIST\n", re.S)
HEADER = "#EXTM3U\n#EXT-X-VERSION:6\n#EXT-X-TARGETDURATION:{}\n#EXT-X-MEDIA-SEQUENCE:0\n#EXT-X-PLAYLIST-TYPE:VOD\n"
TARGET = re.compile(r"^#EXT-X-TARGETDURATION:(\d{1,5})$", re.M)
MARK, END = "#EXT-X-DISCONTINUITY\n", "#EXT-X-ENDLIST\n"
# Where the segments of a piece begin in a playlist of the archive, after a discontinuity or not. A piece may have several initialization sections.
BEGIN = re.compile(rf'^({MARK})?(?=#EXT-X-MAP:[^\n]*URI="([0-9]{{16}})/)', re.M)
ODD = (OSError, ValueError, IndexError, KeyError, TypeError, StopIteration)     # raised by a folder that isn't a piece, or is being removed


def read(path: str) -> str:
    with open(path, encoding="ascii") as file:
        return file.read(LONGEST)


class Piece:
    """A piece of the archive: its first and last place, by its certificate, and its playlists."""

    def __init__(self, folder: str) -> None:
        self.folder, self.name = folder, os.path.basename(folder)
        with open(os.path.join(folder, "certificate.txt"), encoding="ascii") as file:
            certificate = Certificate(file.read())
        self.first, self.last = certificate.places[0], certificate.places[-1]
        self.begins, self.ends = certificate.begins, self.last[0].start
        if not 0 <= self.begins < self.ends:
            raise ValueError("its certificate has no places in order")
        self.lists = {number: self.playlist(number) for number in range(16) if os.path.exists(os.path.join(folder, f"{number}.m3u8"))}

    def continues(self, last: object) -> bool:
        """Whether this piece begins at a place, without a gap there."""
        return self.first == last and all(spot.run_in == spot.run_out for spot in self.first)

    def playlist(self, number: int) -> tuple[int, str]:
        """Returns the target duration of a rendition's playlist, and its segments with paths relative to the archive's folder."""
        found, media = LIST.fullmatch(read(os.path.join(self.folder, f"{number}.m3u8"))), f"{number}.mp4"
        if not found or set(names_in(found[2])) != {media}:
            raise ValueError(f"{number}.m3u8 isn't the playlist of a piece")
        return int(found[1]), re.sub(rf'^{media}$|(?<=URI="){media}(?=")', f"{self.name}/{media}", found[2], flags=re.M)


class Pieces:
    """The pieces in an archive's folder, each read at most once, when it is needed."""

    def __init__(self, folder: str) -> None:
        self.folder = folder
        self.found: dict[str, Piece | None] = {}

    def names(self) -> list[str]:
        """Returns the names of all folders that may be pieces, the earliest first."""
        return sorted(name for name in os.listdir(self.folder) if NAME.fullmatch(name))

    def get(self, name: str) -> Piece | None:
        """Returns a piece; None if it isn't a complete one, which is reported."""
        if name not in self.found:
            try:
                self.found[name] = Piece(os.path.join(self.folder, name))
            except ODD as fault:
                self.found[name] = None
                print(f"hls_archive: {name} isn't a complete piece, and is left out: {str(fault) or type(fault).__name__}", file=sys.stderr)
        return self.found[name]

    def newest(self) -> Piece | None:
        return next(filter(None, map(self.get, reversed(self.names()))), None)


class Segments:
    """What the pieces have in one playlist: their segments, and whether each follows the one before it without a discontinuity."""

    def __init__(self, text: str = "") -> None:
        found, text = TARGET.search(text), text.removesuffix(END)
        self.target = int(found[1]) if found else 1
        self.of: dict[str, str] = {}
        self.follows: dict[str, str] = {}
        name, begin = "", 0
        for start in BEGIN.finditer(text):
            if start[2] != name:
                if name:
                    self.of[name] = text[begin:start.start()]
                if name and not start[1]:
                    self.follows[start[2]] = name
                name, begin = start[2], start.end()
        if name:
            self.of[name] = text[begin:]

    def add(self, pieces: Pieces, piece: Piece, number: int) -> None:
        """Adds the segments of a piece, which comes after all others."""
        target, text = piece.lists[number]
        before = next(reversed(self.of), None)
        last = pieces.get(before) if before else None
        self.target, self.of[piece.name] = max(self.target, target), text
        if before and last and piece.continues(last.last):
            self.follows[piece.name] = before

    def playlist(self, target: int) -> str:
        parts, before = [HEADER.format(target)], ""
        for name, segments in self.of.items():
            parts += ["" if not before or self.follows.get(name) == before else MARK, segments]
            before = name
        return "".join([*parts, END])


class Lists:
    """The playlists of an archive, as the last run wrote them."""

    def __init__(self, folder: str) -> None:
        self.folder = folder
        self.joined: list[str] = []
        self.sizes: dict[str, int] = {}
        self.copied = ""
        try:
            with open(os.path.join(folder, STATE), encoding="ascii") as file:
                state = json.load(file)
            if all(os.path.getsize(self.path(number)) == size for number, size in state["sizes"].items()):
                self.joined, self.sizes, self.copied = state["pieces"], state["sizes"], state["copied"]
        except ODD:
            pass                                # all pieces are read again

    def path(self, number: str) -> str:
        return os.path.join(self.folder, f"{number}.m3u8")

    def keep(self) -> None:
        """Writes down what the playlists have."""
        write_whole(os.path.join(self.folder, STATE), json.dumps({"pieces": self.joined, "sizes": self.sizes, "copied": self.copied}), 0o644)

    def segments(self, number: str) -> Segments:
        with open(self.path(number), encoding="ascii") as file:
            return Segments(file.read())

    def join(self, pieces: Pieces) -> None:
        """Writes the playlists of all pieces, and the newest master playlist, unless they have the same pieces already."""
        names, old = pieces.names(), set(self.joined)
        now = [name for name in names if name in old or pieces.get(name)]
        newest = next(filter(None, map(pieces.get, reversed(now))), None)
        if now == self.joined or not newest:
            return
        numbers = [str(number) for number in newest.lists]
        kept = [name for name in now if name in old]
        if numbers != list(self.sizes) or now[:len(kept)] != kept:
            # another ladder, or a piece that was put between the others
            old, now = set(), [name for name in names if pieces.get(name)]
        made = {number: self.segments(number) if old else Segments() for number in numbers}
        for number, segments in made.items():
            segments.of = {name: segments.of[name] for name in now if name in segments.of}
            for piece in filter(None, (pieces.get(name) for name in now if name not in old)):
                if int(number) in piece.lists:
                    segments.add(pieces, piece, int(number))
        target = max(segments.target for segments in made.values())
        for number, segments in made.items():
            write_whole(self.path(number), segments.playlist(target), 0o644)
        write_whole(self.path("master"), read(os.path.join(newest.folder, "master.m3u8")), 0o644)
        self.joined, self.sizes, self.copied = now, {number: os.path.getsize(self.path(number)) for number in numbers}, ""
        self.keep()
