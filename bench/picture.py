"""The picture in bench/README.md: throughput by the size of the file, for each program."""

import math
from typing import NamedTuple

# agep has a line for each level of processor, the first level in the first color.
AGEP_COLORS = "#0b5fa5", "#63a8dc", "#9aa5b1"
COLORS = {"age": "#c8423a", "gpg": "#4f8a5b", "openssl": "#8a6d1d"}
SIZES = (1 << 10, 1 << 30)
RATES = (1e5, 1e10)
RATE_NAMES = {1e5: "100 kB/s", 1e6: "1 MB/s", 1e7: "10 MB/s", 1e8: "100 MB/s", 1e9: "1 GB/s", 1e10: "10 GB/s"}
SIZE_NAMES = {1 << 10: "1 KiB", 1 << 15: "32 KiB", 1 << 20: "1 MiB", 1 << 25: "32 MiB", 1 << 30: "1 GiB"}


class Panel(NamedTuple):
    """A part of the picture with two logarithmic axes, which begins at `left`."""

    left: int
    width: int = 330
    top: int = 50
    height: int = 260

    def x(self, size):
        return self.left + self.width * math.log(size / SIZES[0], SIZES[1] / SIZES[0])

    def y(self, rate):
        return self.top + self.height * (1 - math.log(rate / RATES[0], RATES[1] / RATES[0]))


def text(x, y, words, anchor="middle", color="#333"):
    return f'<text x="{x:.0f}" y="{y:.0f}" text-anchor="{anchor}" fill="{color}">{words}</text>'


def grid(panel, title):
    low, high = panel.top, panel.top + panel.height
    yield text(panel.left + panel.width / 2, panel.top - 12, title)
    for rate, name in RATE_NAMES.items():
        y = panel.y(rate)
        yield f'<path d="M{panel.left} {y:.1f}h{panel.width}" stroke="#ddd"/>'
        yield text(panel.left - 6, y + 4, name, "end")
    for size, name in SIZE_NAMES.items():
        x = panel.x(size)
        yield f'<path d="M{x:.1f} {low}V{high}" stroke="#ddd"/>'
        yield text(x, high + 18, name)


def colored(programs):
    """Each program with its color."""
    agep = iter(AGEP_COLORS)
    return [(program, COLORS.get(program) or next(agep)) for program in programs]


def lines(panel, rates):
    """A line for each program: `rates` has its bytes per second by size."""
    for (_, color), points in zip(colored(rates), rates.values()):
        places = " ".join(f"{panel.x(size):.1f},{panel.y(rate):.1f}" for size, rate in points.items())
        yield f'<polyline points="{places}" fill="none" stroke="{color}" stroke-width="2"/>'


def draw(works):
    """The picture: a panel for each kind of work, side by side, from its name and its rates."""
    panels = [(Panel(80 + 430 * number), name, rates) for number, (name, rates) in enumerate(works.items())]
    width = panels[-1][0].left + 350
    body = [part for panel, name, rates in panels for part in (*grid(panel, name), *lines(panel, rates))]
    for number, (program, color) in enumerate(colored(panels[0][2])):
        body.append(f'<path d="M{80 + 150 * number} 352h24" stroke="{color}" stroke-width="2"/>')
        body.append(text(110 + 150 * number, 356, program, "start", color))
    head = f'<svg xmlns="http://www.w3.org/2000/svg" viewBox="0 0 {width} 370" font-family="sans-serif" font-size="12">'
    return "\n".join([head, f'<rect width="{width}" height="370" fill="white"/>', *body, "</svg>"]) + "\n"
