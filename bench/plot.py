#!/usr/bin/env python3
"""Draws what an octet costs by size and shape, and prints the table of odd cards.

  plot.py COSTS SVG      COSTS is what `bench costs` prints
"""
import collections
import sys

COLOURS = {"judge": "#1b6ca8", "read": "#c0392b", "fold": "#2e8b57", "unescape": "#8e44ad", "escape": "#d68910"}
DASHES = {"escape": 'stroke-dasharray="5 5"'}  # so that unescape, which costs much the same, shows through
PANELS = [  # what an input's name starts with, title, label below, greatest x and the step of its ticks
    ("size", "Size", "octets of the input; of a text's escaped form", 16384, 4096),
    ("lines", "Lines, 15,360 octets", "NOTE lines of one card", 2000, 500),
    ("parameters", "Parameters, 15,360 octets", "parameters of one NOTE line", 3500, 500),
    ("folds", "Folds, 15,360 octets", "folds of one NOTE line", 3500, 500),
]
WIDTH, HEIGHT, LEFT, TOP, RIGHT, BOTTOM = 420, 270, 52, 34, 28, 44
LEGEND = 30


def read_costs(path):
    """Nanoseconds an octet: by panel and routine a list of points, and by name and routine."""
    panels, named = collections.defaultdict(lambda: collections.defaultdict(list)), {}
    for row in open(path):
        name, _, routine, cost = row.split()
        named[name, routine] = float(cost)
        kind, _, x = name.partition("-")
        if x.isdigit():
            kind = "size" if kind in ("escaped", "prose") else kind
            panels[kind][routine].append((int(x), float(cost)))
    return panels, named


def tick_step(most):
    """A round step that gives four to eight ticks."""
    step = 0.25
    while most / step > 8:
        step *= 2
    return step


def text(x, y, words, more=""):
    return f'<text x="{x:.1f}" y="{y:.1f}" {more}>{words}</text>'


def axes(title, label, most_x, step_x, most_y):
    """The frame of a panel: its ticks, their numbers and the labels."""
    width, height = WIDTH - LEFT - RIGHT, HEIGHT - TOP - BOTTOM
    out = [text(LEFT, 20, title, 'font-weight="bold"')]
    step = tick_step(most_y)
    for i in range(int(most_y / step) + 1):
        y = TOP + height - height * i * step / most_y
        out.append(f'<path d="M{LEFT} {y:.1f}h{width}" stroke="#ddd"/>' + text(LEFT - 6, y + 4, f"{i * step:g}", 'text-anchor="end"'))
    for n in range(0, most_x + 1, step_x):
        x = LEFT + width * n / most_x
        out.append(f'<path d="M{x:.1f} {TOP + height}v5" stroke="#444"/>' + text(x, TOP + height + 18, f"{n:,}", 'text-anchor="middle"'))
    out.append(text(LEFT + width / 2, TOP + height + 36, label, 'text-anchor="middle"'))
    out.append(text(14, TOP + height / 2, "ns an octet", f'text-anchor="middle" transform="rotate(-90 14 {TOP + height / 2:.1f})"'))
    out.append(f'<path d="M{LEFT} {TOP}v{height}h{width}" fill="none" stroke="#444"/>')
    return out


def panel(points, title, label, most_x, step_x):
    """A panel with a line for each routine."""
    width, height = WIDTH - LEFT - RIGHT, HEIGHT - TOP - BOTTOM
    most_y = max(cost for line in points.values() for _, cost in line) * 1.08
    out = axes(title, label, most_x, step_x, most_y)
    for routine, line in points.items():
        places = [(LEFT + width * x / most_x, TOP + height - height * cost / most_y) for x, cost in sorted(line)]
        path = " ".join(f"{x:.1f},{y:.1f}" for x, y in places)
        out.append(f'<polyline points="{path}" fill="none" stroke="{COLOURS[routine]}" stroke-width="1.6" {DASHES.get(routine, "")}/>')
        out += [f'<circle cx="{x:.1f}" cy="{y:.1f}" r="2.4" fill="{COLOURS[routine]}"/>' for x, y in places]
    return out


def draw(panels):
    out = [f'<svg xmlns="http://www.w3.org/2000/svg" width="{2 * WIDTH}" height="{2 * HEIGHT + LEGEND}" font-family="sans-serif" font-size="12" fill="#222">']
    out.append('<rect width="100%" height="100%" fill="white"/>')
    for i, (kind, *labels) in enumerate(PANELS):
        out.append(f'<g transform="translate({i % 2 * WIDTH} {i // 2 * HEIGHT + LEGEND})">')
        out += panel(panels[kind], *labels) + ["</g>"]
    for i, (routine, colour) in enumerate(COLOURS.items()):
        x = LEFT + i * 110
        out.append(f'<path d="M{x} 18h24" stroke="{colour}" stroke-width="3" {DASHES.get(routine, "")}/>' + text(x + 30, 22, routine))
    return "\n".join(out + ["</svg>"]) + "\n"


def print_odd(named):
    """What odd cards cost, as times what the book does."""
    print("\n| Card, 16,381 to 16,384 octets | judge, times the book | read, times the book |\n|---|---|---|")
    for name in dict.fromkeys(name for name, _ in named if name.startswith("odd-")):
        times = [named[name, routine] / named["book", routine] for routine in ("judge", "read")]
        print(f"| {name[4:].replace('-', ' '):28} | {times[0]:.2f} | {times[1]:.2f} |")


def main():
    panels, named = read_costs(sys.argv[1])
    with open(sys.argv[2], "w") as svg:
        svg.write(draw(panels))
    print_odd(named)


main()
