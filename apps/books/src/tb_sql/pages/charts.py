"""Charts as SVG, made here: no script draws them. Each has a title and a description in words."""

from __future__ import annotations

from typing import Callable, List, NamedTuple, Sequence, Tuple

from markupsafe import Markup, escape

from ..names import decimal
from ..numbers import time_text

HEIGHT = 200
PHONE, NARROW, WIDE = 360, 560, 1160  # a phone's chart is shown in place of a wider one
LEFT, RIGHT, TOP, BOTTOM = 92, 8, 10, 26  # around the drawing


def grouped(value: int) -> str:
    """A number with commas, in the way that people read it."""
    return f"{value:,}"


def short(value: int, places: int = 0) -> str:
    """An amount of so many decimal places for an axis: with commas, or its first digits and a
    power of ten."""
    digits = str(abs(value))
    if len(digits) - places > 9:
        sign = "-" if value < 0 else ""
        return f"{sign}{digits[0]}.{digits[1:3]}e{len(digits) - 1 - places}"
    is_whole = value % 10**places == 0
    return grouped(value // 10**places) if is_whole else decimal(value, places)


def nice_step(span: int, parts: int) -> int:
    """A step of 1, 2 or 5 times a power of ten, of which some `parts` cover a span."""
    least = max(1, -(-span // parts))
    power = int("1" + "0" * (len(str(least)) - 1))
    return next(it * power for it in (1, 2, 5, 10) if it * power >= least)


def axis(least: int, greatest: int) -> List[int]:
    """Round numbers from at most the least value to at least the greatest one."""
    step = nice_step(greatest - least or 1, 4)
    start = least // step * step
    ticks = [start]
    while ticks[-1] < greatest:
        ticks.append(ticks[-1] + step)
    return ticks if len(ticks) > 1 else [start, start + step]


def place(value: int, low: int, high: int, start: float, end: float) -> float:
    """The place at which a value is drawn. The share is taken of whole numbers, which may have 128
    bits."""
    share = (value - low) * 1_000_000 // (high - low) / 1_000_000
    return start + (end - start) * share


def frame(ticks: Sequence[int], start: int, end: int, width: int, places: int = 0) -> List[str]:
    """The lines and words around a drawing of amounts of so many decimal places."""
    parts = []
    for tick in ticks:
        y = place(tick, ticks[0], ticks[-1], HEIGHT - BOTTOM, TOP)
        kind = "zero" if tick == 0 else "grid"
        parts.append(
            f'<line class="{kind}" x1="{LEFT}" x2="{width - RIGHT}" y1="{y:.1f}" y2="{y:.1f}"/>'
        )
        shown = escape(short(tick, places))
        parts.append(f'<text class="y" x="{LEFT - 8}" y="{y + 4:.1f}">{shown}</text>')
    first, last = axis_times(start, end)
    parts.append(f'<text x="{LEFT}" y="{HEIGHT - 6}">{first}</text>')
    parts.append(f'<text class="end" x="{width - RIGHT}" y="{HEIGHT - 6}">{last}</text>')
    return parts


def axis_times(start: int, end: int) -> Tuple[str, str]:
    """The times at both ends of an axis, no more exact than their distance asks for."""
    span = (end - start) // 10**9
    length = 10 if span > 3 * 86400 else 16 if span > 3 * 3600 else 19 if span > 30 else 30
    first, last = (time_text(it)[:length].replace("T", " ") for it in (start, end))
    return first, last


def drawing(name: str, title: str, description: str, parts: Sequence[str], width: int) -> Markup:
    kind, id = "phone" if width == PHONE else "wide", f"{name}-{width}"
    return Markup(
        f'<svg class="chart {kind}" viewBox="0 0 {width} {HEIGHT}" role="img"'
        f' aria-labelledby="{id}-title {id}-description">'
        f'<title id="{id}-title">{escape(title)}</title>'
        f'<desc id="{id}-description">{escape(description)}</desc>{"".join(parts)}</svg>'
    )


def bars(name: str, title: str, counted: Sequence[Tuple[int, int, int]]) -> Markup:
    """A bar for each span of time: its start, its end, and what was counted. In two widths, of
    which one is shown."""
    return Markup("").join(_bars(name, title, counted, it) for it in (NARROW, PHONE))


class Unit(NamedTuple):
    """How the amounts of a chart are written: on its axis, and in its description."""

    places: int = 0
    written: Callable[[int], str] = grouped


def steps(
    name: str,
    title: str,
    points: Sequence[Tuple[int, int]],
    is_whole: bool,
    unit: Unit = Unit(),
) -> Markup:
    """A line that holds each value until the next one, in two widths."""
    return Markup("").join(_steps(name, title, points, is_whole, unit, it) for it in (WIDE, PHONE))


def _bars(name: str, title: str, counted: Sequence[Tuple[int, int, int]], width: int) -> Markup:
    start, end = counted[0][0], counted[-1][1]
    greatest = max(it[2] for it in counted)
    total = sum(it[2] for it in counted)
    ticks = axis(0, greatest or 1)
    parts = frame(ticks, start, end, width)
    base = HEIGHT - BOTTOM
    for begin, finish, count in counted:
        if count == 0:
            continue
        left = place(begin, start, end, LEFT, width - RIGHT)
        right = place(finish, start, end, LEFT, width - RIGHT)
        y = min(place(count, 0, ticks[-1], base, TOP), base - 1.5)
        gap = min(1.0, (right - left) / 5)
        across = max(1.0, right - left - 2 * gap)
        parts.append(
            f'<rect class="{name}" x="{left + gap:.1f}" width="{across:.1f}"'
            f' y="{y:.1f}" height="{base - y:.1f}"><title>{grouped(count)} from '
            f"{time_text(begin)}</title></rect>"
        )
    description = (
        f"{grouped(total)} in all, from {time_text(start)} to {time_text(end)}; at most "
        f"{grouped(greatest)} in one of {len(counted)} spans."
    )
    return drawing(name, title, description, parts, width)


def _steps(
    name: str,
    title: str,
    points: Sequence[Tuple[int, int]],
    is_whole: bool,
    unit: Unit,
    width: int,
) -> Markup:
    values = [value for _, value in points]
    start, end = points[0][0], points[-1][0]
    ticks = axis(min(0, *values), max(0, *values))
    parts = frame(ticks, start, end, width, unit.places)
    drawn: List[str] = []
    for time, value in points:
        x = place(time, start, max(end, start + 1), LEFT, width - RIGHT)
        y = place(value, ticks[0], ticks[-1], HEIGHT - BOTTOM, TOP)
        drawn.append(f"H{x:.1f}V{y:.1f}" if drawn else f"M{x:.1f} {y:.1f}")
    drawn.append(f"H{width - RIGHT}")
    parts.append(f'<path class="{name}" d="{"".join(drawn)}"/>')
    what = "each posting" if is_whole else f"{len(points)} moments"
    lowest, highest, last = map(unit.written, (min(values), max(values), values[-1]))
    description = (
        f"By {what} from {time_text(start)} to {time_text(end)}: lowest {lowest}, highest "
        f"{highest}, at the end {last}."
    )
    return drawing(name, title, description, parts, width)
