"""The table of `hls_channel watch`: a row for each channel, those with faults first."""
import os
import time
from collections.abc import Sequence

from .health import Fault, Health

EVERY = 2.0                 # seconds between two looks
HEADER = ("CHANNEL", "LISTS", "LAG", "INPUT", "JOURNAL", "MEMORY", "DISK FREE", "FAULT, AND WHAT TO TYPE")
HOME, CLEAR_LINE, CLEAR_REST, RED, PLAIN = "\x1b[H", "\x1b[K", "\x1b[J", "\x1b[31m", "\x1b[0m"


def shown(value: float | None, form: str) -> str:
    """Returns a number in a form; nothing if there is none."""
    return "" if value is None else form.format(value)


def cells(one: Health) -> tuple[str, ...]:
    """Returns a channel's row."""
    words = one.input.split()
    return (one.name, shown(one.still, "{:.0f} s"), shown(one.lag, "{:.0f} s"), words[1] if words[:1] == ["input"] else "", one.journal,
            shown(one.memory, "{:.0%}"), shown(one.room, "{:.0%}"), one.line() if one.faults else "")


def rows(found: Sequence[Health]) -> list[str]:
    """Returns the table's lines, as wide as they need."""
    table = [HEADER, *(cells(one) for one in sorted(found, key=lambda one: not one.faults))]
    widths = [max(len(row[at]) for row in table) for at in range(len(HEADER))]
    return ["  ".join(cell.ljust(width) for cell, width in zip(row, widths)).rstrip() for row in table]


def screen(found: Sequence[Health], machine: Sequence[Fault], size: os.terminal_size) -> str:
    """Returns what a terminal gets: the whole screen, without a flicker, cut at its size."""
    ill = sum(bool(one.faults) for one in found)
    lines = [f"{time.strftime('%T')}  {len(found)} channels, {ill} with a fault", *(f"this machine: {one.text}. Type: {one.command}" for one in machine), "", *rows(found)]
    first = len(lines) - len(found)
    coloured = [(RED if first <= at < first + ill else "") + line[:size.columns - 1] + PLAIN for at, line in enumerate(lines[:size.lines - 1])]
    return HOME + "".join(line + CLEAR_LINE + "\n" for line in coloured) + CLEAR_REST
