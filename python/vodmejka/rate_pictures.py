"""Pictures of rates along an amount, as SVG: lines of marginal rates and dashes of mean rates, with a legend below in which no label is cut."""
from __future__ import annotations

import textwrap
from decimal import Decimal
from fractions import Fraction
from typing import Callable, Iterator, NamedTuple, Sequence
from xml.sax.saxutils import escape

from .texts import numeral, said

WIDTH, PLOT, LEFT, RIGHT, TOP, BOTTOM, LINE = 860, 380, 60, 20, 20, 50, 20
LETTERS = 105  # of a line of the legend
COLOURS = ("#1b5e9b", "#b3421e", "#2e7d32", "#7b3fa0", "#8a6d00", "#00707a")
Point = tuple[float, float]


class Curve(NamedTuple):
    """What a line is called, the value of which it shows the rates, and at each amount the marginal and the mean rate, or None."""

    name: str
    of: str
    marginal: Sequence[Fraction | None]
    mean: Sequence[Fraction | None]


def plain(value: Decimal) -> str:
    """An amount as the program reads it, and no zero with a sign."""
    return format(value.normalize() + 0, "f")


def ticks(low: Decimal, high: Decimal, most: int) -> Iterator[Decimal]:
    """Round numbers that cut a range into at most `most` parts."""
    span = max(high - low, Decimal(1) / 1000)
    part = Decimal(10) ** (span.adjusted() - 1)
    for factor in map(Decimal, ("1", "2", "2.5", "5", "10", "20", "25", "50", "100")):
        if span / (part * factor) <= most:
            part *= factor
            break
    first = (low / part).to_integral_value(rounding="ROUND_CEILING") * part
    while first <= high:
        yield first
        first += part


def polyline(points: Sequence[Point | None], style: str) -> list[str]:
    """A line through points, with a gap where one has no number."""
    run: list[str] = []
    pieces = []
    for point in [*points, None]:
        if point is not None:
            run.append("%.1f,%.1f" % point)
        elif run:
            pieces.append(f'<polyline points="{" ".join(run)}" fill="none" {style}/>')
            run = []
    return pieces


def thinned(points: Sequence[Point | None]) -> list[Point | None]:
    """The points of which at most four are within a quarter of a pixel: the first, the least, the greatest and the last."""
    kept: list[Point | None] = []
    near: list[Point] = []
    for point in [*points, None]:
        if near and (point is None or round(point[0] * 4) != round(near[0][0] * 4)):
            ends = {0, len(near) - 1, *(near.index(found(near, key=lambda one: one[1])) for found in (min, max))}
            kept += [near[at] for at in sorted(ends)]
            near = []
        if point is None:
            kept.append(None)
        else:
            near.append(point)
    return kept[:-1]


def picture(amounts: Sequence[Decimal], curves: Sequence[Curve], code: str) -> str:
    """The rates of curves along the amounts of a code."""
    shown = [rate for curve in curves for rates in (curve.marginal, curve.mean) for rate in rates if rate is not None]
    low, high = decimal_of(min([*shown, Fraction(0)]) * 100), decimal_of(max([*shown, Fraction(1, 10)]) * 100)
    first, last = amounts[0], amounts[-1]

    def x(value: Decimal) -> float:
        return LEFT + float((value - first) / ((last - first) or 1)) * (WIDTH - LEFT - RIGHT)

    def y(value: Decimal) -> float:
        return TOP + float((high - value) / (high - low)) * (PLOT - TOP - BOTTOM)

    legend = [(number, line) for number, curve in enumerate(curves) for line in textwrap.wrap(said_of(curve, code), LETTERS)]
    height = PLOT + LINE * (len(legend) + 1)
    out = [f'<svg xmlns="http://www.w3.org/2000/svg" viewBox="0 0 {WIDTH} {height}" font-family="sans-serif" font-size="13">']
    out.append(f'<rect width="{WIDTH}" height="{height}" fill="white"/>')
    out += grid(list(ticks(low, high, 8)), list(ticks(first, last, 9)), x, y)
    out.append(f'<text x="{WIDTH - RIGHT}" y="{PLOT - 8}" text-anchor="end">{escape(code)}</text>')
    for number, curve in enumerate(curves):
        colour = COLOURS[number % len(COLOURS)]
        for rates, style in ((curve.marginal, f'stroke="{colour}" stroke-width="1.5"'), (curve.mean, f'stroke="{colour}" stroke-dasharray="5 4"')):
            points = [None if rate is None else (x(at), y(decimal_of(rate * 100))) for at, rate in zip(amounts, rates)]
            out += polyline(thinned(points), style)
    for place, (number, line) in enumerate(legend, 1):
        out.append(f'<text x="{LEFT}" y="{PLOT + LINE * place}" fill="{COLOURS[number % len(COLOURS)]}">{escape(line)}</text>')
    return "\n".join([*out, "</svg>\n"])


def said_of(curve: Curve, code: str) -> str:
    """The text of a curve in the legend."""
    return said("marginal.legend", name=curve.name, of=curve.of, code=code)


def grid(rates: Sequence[Decimal], amounts: Sequence[Decimal], x: Callable[[Decimal], float], y: Callable[[Decimal], float]) -> list[str]:
    """Lines at round rates, and round amounts below."""
    out = []
    for tick in rates:
        out.append(f'<line x1="{LEFT}" y1="{y(tick):.1f}" x2="{WIDTH - RIGHT}" y2="{y(tick):.1f}" stroke="#dddddd"/>')
        out.append(f'<text x="{LEFT - 8}" y="{y(tick) + 4:.1f}" text-anchor="end">{numeral(plain(tick))} %</text>')
    for tick in amounts:
        anchor = "end" if x(tick) > WIDTH - RIGHT - LEFT else "middle"
        out.append(f'<text x="{x(tick):.1f}" y="{PLOT - BOTTOM + 20}" text-anchor="{anchor}">{numeral(f"{tick.normalize():,f}")}</text>')
    return out


def decimal_of(rate: Fraction) -> Decimal:
    """A rate as a decimal, of as many digits as decimals have."""
    return Decimal(rate.numerator) / Decimal(rate.denominator)
