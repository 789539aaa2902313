"""A picture of what a packet costs, by the number of channels, as SVG."""
import math
import pathlib
import statistics
from typing import List, Tuple

from programs import PEERS
from tables import Times

COLOURS = {"yarrowdoor": "#1a7f37", "libre": "#b35900", "pion": "#0b5cad"}
PANELS = {"frame_out": "ChannelData of 1,200 bytes out, payload copied", "frame_in": "ChannelData of 1,200 bytes in"}
ACROSS = "channels"
WIDTH, HEIGHT, LEFT, TOP, GAP = 370, 260, 76, 40, 90


class Panel:
    """A diagram with logarithmic axes, whose left upper corner is here."""

    def __init__(self, left: int, sizes: List[int], least: int, most: int) -> None:
        self.left, self.sizes, self.decades = left, sizes, (least, most)

    def across(self, channels: float) -> float:
        return self.left + WIDTH * math.log(channels) / math.log(self.sizes[-1])

    def down(self, nanoseconds: float) -> float:
        least, most = self.decades
        return TOP + HEIGHT * (1 - (math.log10(nanoseconds) - least) / (most - least))

    def axes(self) -> List[str]:
        lines = []
        for decade in range(self.decades[0], self.decades[1] + 1):
            y = self.down(10**decade)
            lines.append(f'<line x1="{self.left}" y1="{y:.1f}" x2="{self.left + WIDTH}" y2="{y:.1f}" stroke="#ddd"/>')
            lines.append(f'<text x="{self.left - 6}" y="{y + 4:.1f}" text-anchor="end">{10**decade:,} ns</text>')
        for channels in self.sizes:
            x = self.across(channels)
            lines.append(f'<line x1="{x:.1f}" y1="{TOP}" x2="{x:.1f}" y2="{TOP + HEIGHT}" stroke="#eee"/>')
            lines.append(f'<text x="{x:.1f}" y="{TOP + HEIGHT + 18}" text-anchor="middle">{channels:,}</text>')
        lines.append(f'<text x="{self.left + WIDTH / 2}" y="{TOP + HEIGHT + 36}" text-anchor="middle">{ACROSS}</text>')
        return lines

    def curve(self, colour: str, points: List[Tuple[int, float]]) -> List[str]:
        at = [(self.across(channels), self.down(value)) for channels, value in points]
        path = " ".join(f"{x:.1f},{y:.1f}" for x, y in at)
        dots = [f'<circle cx="{x:.1f}" cy="{y:.1f}" r="3" fill="{colour}"/>' for x, y in at]
        return [f'<polyline points="{path}" fill="none" stroke="{colour}" stroke-width="2"/>', *dots]


def points_of(times: Times, name: str, row: str, sizes: List[int]) -> List[Tuple[int, float]]:
    return [(it, statistics.median(times[name, it][row])) for it in sizes if row in times.get((name, it), {})]


def legend(names: List[str]) -> List[str]:
    lines = []
    for index, name in enumerate(names):
        x, y = LEFT + 110 * index, TOP + HEIGHT + 62
        lines.append(f'<rect x="{x}" y="{y - 9}" width="18" height="4" fill="{COLOURS[name]}"/>')
        lines.append(f'<text x="{x + 24}" y="{y - 3}">{name}</text>')
    return lines


def draw(times: Times, sizes: List[int], names: List[str], file: pathlib.Path) -> None:
    shown = [name for name in names if PEERS[name].keeps_channels]
    values = [value for name in shown for row in PANELS for _, value in points_of(times, name, row, sizes)]
    least, most = math.floor(math.log10(min(values))), math.ceil(math.log10(max(values)))
    width, height = LEFT + len(PANELS) * WIDTH + (len(PANELS) - 1) * GAP + 20, TOP + HEIGHT + 74
    lines = [f'<svg xmlns="http://www.w3.org/2000/svg" viewBox="0 0 {width} {height}" font-family="sans-serif" font-size="12">',
             f'<rect width="{width}" height="{height}" fill="white"/>']
    for index, (row, title) in enumerate(PANELS.items()):
        panel = Panel(LEFT + index * (WIDTH + GAP), sizes, least, most)
        lines.append(f'<text x="{panel.left}" y="{TOP - 16}" font-size="14">{title}</text>')
        lines += panel.axes()
        for name in shown:
            lines += panel.curve(COLOURS[name], points_of(times, name, row, sizes))
    lines += [*legend(shown), "</svg>"]
    file.write_text("\n".join(lines) + "\n")
