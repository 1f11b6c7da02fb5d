"""Pictures of measured times, as SVG."""

import math
from html import escape

WIDTH, HEIGHT = 640, 400
LEFT, RIGHT, TOP, BOTTOM = 70, 110, 40, 50
COLOURS = ("#1b6ca8", "#c8553d", "#4a7c3a", "#7a4d9e")
STEPS = 5


def rounded_up(value):
    """The next number of one digit and zeros, 1, 2 or 5."""
    unit = 10 ** math.floor(math.log10(value))
    return next(step * unit for step in (1, 2, 5, 10) if step * unit >= value * 0.999)


def text(x, y, said, anchor="middle"):
    return f'<text x="{x:.1f}" y="{y:.1f}" text-anchor="{anchor}">{escape(said)}</text>'


def line(points, colour, width):
    places = " ".join(f"{x:.1f},{y:.1f}" for x, y in points)
    return f'<polyline points="{places}" fill="none" stroke="{colour}" stroke-width="{width}"/>'


def drawn(title, across, up, series):
    """Lines through the points of each series, which go by their names, over axes that begin with 0."""
    widest = max(x for points in series.values() for x, _ in points)
    step = rounded_up(max(y for points in series.values() for _, y in points) / STEPS)
    highest = step * STEPS

    def place(x, y):
        return LEFT + x / widest * (WIDTH - LEFT - RIGHT), HEIGHT - BOTTOM - y / highest * (HEIGHT - TOP - BOTTOM)

    parts = [
        f'<svg xmlns="http://www.w3.org/2000/svg" viewBox="0 0 {WIDTH} {HEIGHT}" font-family="sans-serif" font-size="12">',
        f'<rect width="{WIDTH}" height="{HEIGHT}" fill="white"/>',
        text(WIDTH / 2, TOP / 2, title),
        text((LEFT + WIDTH - RIGHT) / 2, HEIGHT - 10, across),
        text(15, TOP - 10, up, "start"),
    ]
    for number in range(STEPS + 1):
        y = number * step
        parts.append(line([place(0, y), place(widest, y)], "#cccccc", 1))
        parts.append(text(LEFT - 8, place(0, y)[1] + 4, f"{y:g}", "end"))
    for x in sorted({x for points in series.values() for x, _ in points} | {0}):
        parts.append(line([place(x, 0), (place(x, 0)[0], place(x, 0)[1] + 5)], "#666666", 1))
        parts.append(text(place(x, 0)[0], HEIGHT - BOTTOM + 20, f"{x:,}"))
    for (name, points), colour in zip(series.items(), COLOURS):
        places = [place(*point) for point in points]
        parts.append(line(places, colour, 2))
        parts += [f'<circle cx="{x:.1f}" cy="{y:.1f}" r="3" fill="{colour}"/>' for x, y in places]
        x, y = places[-1]
        parts.append(text(x + 8, y + 4, name, "start"))
    return "\n".join([*parts, "</svg>", ""])
