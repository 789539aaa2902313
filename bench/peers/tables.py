"""What was measured, as tables: docs/PERFORMANCE.md has the least times of the second one."""
import statistics
from typing import Dict, Iterable, List, Optional, Tuple

from programs import OURS, PEERS, version

# By client and number of channels: what each row of each round took.
Times = Dict[Tuple[str, int], Dict[str, List[float]]]
Heap = Dict[Tuple[str, int], Dict[str, str]]

ROWS = {
    "frame_out": "ChannelData out, payload copied",
    "frame_head": "ChannelData out, payload in place",
    "frame_in": "ChannelData in",
    "around_out": "ChannelData out, payload copied, each channel in turn",
    "around_head": "ChannelData out, payload in place, each channel in turn",
    "around_in": "ChannelData in, each channel in turn",
    "send_out": "Send indication out, payload copied",
    "send_head": "Send indication out, payload in place",
    "data_in": "DATA indication in",
    "handshake": "handshake",
    "poll": "idle `poll`",
    "transmit": "idle `poll_transmit`",
}
# The clients that ours is compared with: the messages of coturn are no client.
RIVALS = [name for name, peer in PEERS.items() if name != OURS and peer.keeps_channels]


def markdown(rows: Iterable[Tuple[str, ...]]) -> str:
    lines = ["| " + " | ".join(row) + " |" for row in rows]
    lines.insert(1, "|" + "---|" * (lines[0].count(" | ") + 1))
    return "\n".join(lines)


def median(times: Times, name: str, channels: int, row: str) -> Optional[float]:
    found = times.get((name, channels), {}).get(row)
    return statistics.median(found) if found else None


def ratio(times: Times, row: str, channels: int) -> str:
    """The median of ours to that of the fastest client that has the row, and which that is."""
    ours = median(times, OURS, channels, row)
    theirs = [(found, name) for name in RIVALS if (found := median(times, name, channels, row)) is not None]
    if ours is None or not theirs:
        return ""
    least, name = min(theirs)
    return f"{ours / least:.2f} ({name})"


def sizes_of(row: str, sizes: List[int]) -> List[int]:
    """A handshake comes before any channel."""
    return sizes[:1] if row == "handshake" else sizes


def ratios(times: Times, sizes: List[int]) -> str:
    """How ours compares, by the number of channels."""
    rows = [("ours to the fastest, by the number of channels", *(f"{it:,}" for it in sizes))]
    for row, label in ROWS.items():
        found = [ratio(times, row, it) if it in sizes_of(row, sizes) else "" for it in sizes]
        if any(found):
            rows.append((label, *found))
    return markdown(rows)


def cell(times: Times, name: str, channels: int, row: str) -> str:
    """The least, and in parentheses the median."""
    found = times.get((name, channels), {}).get(row)
    return f"{min(found):,.0f} ({statistics.median(found):,.0f})" if found else ""


def nanoseconds(times: Times, sizes: List[int], names: List[str]) -> str:
    titles = [f"{name} {version(name)}" + ("" if PEERS[name].keeps_channels else ", messages alone") for name in names]
    rows = [("in ns: least (median)", "channels", *titles)]
    for row, label in ROWS.items():
        for channels in sizes_of(row, sizes):
            cells = [cell(times, name, channels, row) for name in names]
            if any(cells):
                rows.append((label, "" if row == "handshake" else f"{channels:,}", *cells))
    return markdown(rows)


def disturbed(times: Times) -> List[str]:
    """The figures whose median is over a tenth above the least: something else ran."""
    found = []
    for (name, channels), rows in times.items():
        found += [f"{name} {row} {channels}" for row, took in rows.items() if statistics.median(took) > 1.1 * min(took)]
    return found


def bytes_held(heap: Heap, sizes: List[int], names: List[str]) -> str:
    """What was asked of the heap, and behind it what the C library gave for it. Go tells what its heap gave alone."""
    rows = [("bytes of heap, by the number of channels", "none", *(f"{it:,}" for it in sizes), "allocations of a handshake")]
    for name in [it for it in names if PEERS[it].keeps_channels]:
        found = [heap[name, sizes[0]]] + [heap[name, it] for it in sizes]
        words = [("asked_idle", "held_idle")] + [("asked", "held")] * len(sizes)
        cells = [f"{int(row[asked]):,} ({int(row[held]):,})" if asked in row else f"({int(row[held]):,})"
                 for row, (asked, held) in zip(found, words)]
        rows.append((name, *cells, f"{int(found[0]['allocations']):,}"))
    return markdown(rows)
