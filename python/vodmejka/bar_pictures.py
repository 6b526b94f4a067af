"""Pictures of bars, as SVG."""
from __future__ import annotations

import html
from fractions import Fraction
from typing import Sequence, Union

from .texts import numeral

WIDTH, HEIGHT = 760, 260
Height = Union[int, Fraction]


class Picture(str):
    """A picture as the text of an SVG, which notebooks show."""

    __slots__ = ()

    def _repr_html_(self) -> str:
        return str(self)

    def save(self, path: str) -> None:
        """Writes it to a file, as of the name picture.svg."""
        text = self if self.startswith("<svg xmlns=") else self.replace("<svg ", '<svg xmlns="http://www.w3.org/2000/svg" ', 1)
        with open(path, "w", encoding="utf-8") as file:
            file.write(text)


def bars(pairs: Sequence[tuple[str, Sequence[Height]]], unit: str) -> str:
    """A picture of bars: pairs of a label and one or two heights."""
    heights = [height for _, several in pairs for height in several]
    low, high = min(0, *heights), max(0, *heights)
    span = (high - low) or 1
    wide = (WIDTH - 80) / max(1, len(pairs))

    def y(height: Height) -> float:
        return 20 + float((high - height) / span) * (HEIGHT - 60)

    out = [f'<svg viewBox="0 0 {WIDTH} {HEIGHT}" role="img" font-family="sans-serif" font-size="11">']
    for height in sorted({low, high, 0}):
        out.append(f'<line x1="70" y1="{y(height):.1f}" x2="{WIDTH}" y2="{y(height):.1f}" stroke="#ccc"/>')
        out.append(f'<text x="64" y="{y(height) + 4:.1f}" text-anchor="end">{numeral(f"{float(height):,.4g}")}{unit}</text>')
    for number, (label, several) in enumerate(pairs):
        each = wide * 0.8 / len(several)
        for k, height in enumerate(several):
            top, end = min(y(height), y(0)), max(y(height), y(0))
            left = 75 + number * wide + k * each
            out.append(f'<rect x="{left:.1f}" y="{top:.1f}" width="{max(1, each - 1):.1f}" height="{end - top:.1f}" '
                       f'fill="{("#1b5e9b", "#d08a3c")[k]}"><title>{html.escape(label)}: {numeral(f"{float(height):,.6g}")}{unit}</title></rect>')
        out.append(f'<text x="{75 + number * wide + wide * 0.4:.1f}" y="{HEIGHT - 16}" text-anchor="middle">{html.escape(label)}</text>')
    return "\n".join([*out, "</svg>"])
