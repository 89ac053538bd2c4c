"""Certificates of programmes (docs/CERTIFICATE.md): a call of the program's checker, and the table of places with the allowed steps."""
import datetime
import itertools
import os
import re
import subprocess
from typing import NamedTuple

from .failures import Failure

PROGRAM = os.environ.get("HLS_ORIGIN", "hls_origin")


class Spot(NamedTuple):
    """A place in one rendition: the first unit after the cut, the end before it, the start after it, and the gaps before and after it."""

    fragment: int
    prev_end: int
    start: int
    run_in: int
    run_out: int


def check_certificate(text: str) -> list[str]:
    """Runs the program's checker. Returns its verdict: ["cut", COST], or ["none"] if there is no cut."""
    try:
        done = subprocess.run([PROGRAM, "check"], input=text.encode(), capture_output=True, timeout=600)
    except OSError as fault:
        raise Failure(f"{PROGRAM} can't be run, so the certificate isn't checked: {fault}") from fault
    verdict = done.stdout.decode("ascii", "replace").split()
    if done.returncode != 0 or verdict[:1] not in (["cut"], ["none"]):
        raise Failure(f"the certificate doesn't hold: check says {' '.join(verdict)[:200]!r}")
    return verdict


def format_time(time_us: int) -> str:
    """Formats a time of the channel's clock: as an instant if the clock counts from 1970, else in seconds."""
    if time_us < 10 ** 15:
        return f"{time_us / 1e6:.3f} s"
    return datetime.datetime.fromtimestamp(time_us // 1000 / 1000, datetime.timezone.utc).isoformat(timespec="milliseconds").replace("+00:00", "Z")


class Certificate:
    """A certificate that the checker accepted: its table of places, and its plan if there is a cut."""

    def __init__(self, text: str) -> None:
        lines = text.split("\n")
        fields = dict(line.split(" ", 1) for line in lines if re.match("(target|places|plan) ", line))
        self.target, self.plan = int(fields["target"]), [int(word) for word in fields.get("plan", "").split()]
        self.longest_us = self.target * 1_000_000 + 499_999
        begin = next(at for at, line in enumerate(lines) if line.startswith("places ")) + 1
        rows = [[int(word) for word in line.split()] for line in lines[begin:begin + int(fields["places"])]]
        self.places = [[Spot(*row[at:at + 5]) for at in range(0, len(row), 5)] for row in rows]
        if not self.places or self.plan and self.plan[-1] >= len(self.places):
            raise ValueError("it has no places, or its plan has a place that isn't in its table")
        # the first place's time in rendition 0, and the end of the media before the last place, in µs
        self.begins, self.ends = self.places[0][0].start, self.places[-1][0].prev_end

    def segments(self, rendition: int) -> list[tuple[int, int]]:
        """Returns the planned segments of a rendition: for each its number of units and its length in µs."""
        steps = [(self.places[p][rendition], self.places[q][rendition]) for p, q in zip(self.plan, self.plan[1:])]
        return [(q.fragment - p.fragment, q.prev_end - p.start) for p, q in steps]

    def is_step(self, first: int, last: int) -> bool:
        """Whether a segment may span two places."""
        return all(q.fragment > p.fragment and p.run_out == q.run_in and 0 < q.prev_end - p.start <= self.longest_us
                   for p, q in zip(self.places[first], self.places[last]))

    def is_past(self, first: int, last: int) -> bool:
        """Whether neither this place nor a later one can end a segment that begins at `first`: too long, or a gap inside."""
        return any(q.run_in > p.run_out or q.prev_end - p.start > self.longest_us for p, q in zip(self.places[first], self.places[last]))

    def last_reached(self, first: int) -> int:
        """Returns the last place that allowed steps reach from `first`."""
        found, waiting = {first}, [first]
        for at in waiting:
            ends = itertools.takewhile(lambda end: not self.is_past(at, end), range(at + 1, len(self.places)))
            reached = [end for end in ends if end not in found and self.is_step(at, end)]
            found.update(reached)
            waiting += reached
        return max(found)

    def pieces(self) -> list[tuple[int, int]]:
        """Returns what can be cut: the first and last places of the longest stretches, in order."""
        found, at = [], 0
        while at < len(self.places) - 1:
            end = self.last_reached(at)
            if end > at:
                found.append((at, end))
            at = max(end, at + 1)
        return found

    def _reason(self, last: int, first: int) -> str:
        away = [str(at) for at, (p, q) in enumerate(zip(self.places[last], self.places[first])) if p.run_out != q.run_in]
        if away:
            return (f"rendition {' and '.join(away)} has a gap there, not at a place where all renditions can be cut: its encoder was away, and "
                    "didn't resume at the beginning of a group of pictures of the others")
        return f"no place follows within the target of {self.target} s: for future recordings give the channel a longer --target, or have its encoders make more keyframes"

    def explain_no_cut(self) -> str:
        """Reports each gap, and what can be cut on either side of it."""
        pieces, last = self.pieces(), len(self.places) - 1
        lines = [f"refused NoCut: there is no cut from {format_time(self.begins)} to {format_time(self.ends)}"]
        for end, begin in zip([0, *(end for _, end in pieces)], [*(begin for begin, _ in pieces), last]):
            if begin > end:
                lines.append(f"  a gap from {format_time(self.places[end][0].prev_end)} to {format_time(self.places[begin][0].start)}: {self._reason(end, begin)}")
        lines.append("what can be cut:" if pieces else "no part of it can be cut")
        for begin, end in pieces:
            first, after = self.places[begin][0].start, self.places[end][0].prev_end
            lines.append(f"  --from {first} --to {after}   ({format_time(first)}, {(after - first) / 1e6:.3f} s)")
        return "\n".join(lines)
