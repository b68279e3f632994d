"""The chart docs/benchmarks.svg: for each family a line a call over the sizes."""

import math

from tables import SIZES

LINES = {"run_order": "#0072b2", "find_and_run": "#009e73", "LEMON": "#d55e00", "CLP": "#cc79a7", "GLPK": "#777777"}


def chart(name, times, low, high):
    """Return the SVG of one family: a line for each call over the sizes, microseconds on a logarithmic scale."""
    width, height = 210, 170
    place = {size: width * position / (len(SIZES) - 1) for position, size in enumerate(SIZES)}

    def level(value):
        return height * (high - math.log10(value)) / (high - low)

    parts = [f'<text x="{width / 2}" y="-8" text-anchor="middle" font-weight="bold">{name}</text>']
    for power in range(low, high + 1):
        y = level(10.0**power)
        parts.append(f'<path d="M0 {y:.1f}H{width}" stroke="#ddd"/><text x="-6" y="{y + 4:.1f}" text-anchor="end">{10.0**power:,g}</text>')
    parts += [f'<text x="{x:.0f}" y="{height + 16}" text-anchor="middle">{size}</text>' for size, x in place.items()]
    for call, colour in LINES.items():
        points = " ".join(f"{place[size]:.0f},{level(times[name, size, call]):.1f}" for size in SIZES)
        parts.append(f'<polyline points="{points}" fill="none" stroke="{colour}" stroke-width="2"/>')
    return "".join(parts)


def plot(times, names):
    """Return the SVG of six families: a chart for each."""
    shown = [times[name, size, call] for name in names for size in SIZES for call in LINES]
    low, high = math.floor(math.log10(min(shown))), math.ceil(math.log10(max(shown)))
    parts = ['<svg xmlns="http://www.w3.org/2000/svg" viewBox="0 0 840 510" font-family="sans-serif" font-size="11">',
             '<rect width="840" height="510" fill="white"/>',
             '<text x="10" y="22" font-size="13">Microseconds a call, by lots and calls (8 to 32 of each)</text>']
    for position, (call, colour) in enumerate(LINES.items()):
        x = 370 + 97 * position
        parts.append(f'<path d="M{x} 18h18" stroke="{colour}" stroke-width="3"/><text x="{x + 22}" y="22">{call}</text>')
    for position, name in enumerate(names):
        x, y = 55 + 270 * (position % 3), 65 + 230 * (position // 3)
        parts.append(f'<g transform="translate({x} {y})">{chart(name, times, low, high)}</g>')
    return "\n".join(parts) + "\n</svg>\n"
