#!/usr/bin/env python3
"""plot.py DUMPS: prints the picture of docs/PERFORMANCE.md, instructions a call, from callgrind's files of `bench count`."""
import math
import sys
from html import escape

import figures

WIDTH, HEIGHT = 1240, 470
INK, GRID, PAPER = "#1f2933", "#d9dee3", "#ffffff"
COLOURS = {"memcpy": "#9aa5b1", "anchor": "#2f6fb3", "library": "#c1580b"}
SIZE = 13

KINDS = ("waypoint", "D, 1 SID", "D, 3 SIDs", "Di, 3 SIDs", "D4, 0 waypoints", "D4, 2 waypoints", "E6", "E4")


def text(x, y, words, anchor="start", colour=INK, weight="normal", size=SIZE):
    return (f'<text x="{x:.1f}" y="{y:.1f}" text-anchor="{anchor}" fill="{colour}" font-weight="{weight}" '
            f'font-size="{size}">{escape(words)}</text>')


def line(x1, y1, x2, y2, colour=GRID, width=1.0, dash=""):
    dashed = f' stroke-dasharray="{dash}"' if dash else ""
    return f'<line x1="{x1:.1f}" y1="{y1:.1f}" x2="{x2:.1f}" y2="{y2:.1f}" stroke="{colour}" stroke-width="{width}"{dashed}/>'


def kinds_panel(counts, left, top, width, height):
    """A bar for each kind and subject, at 164 octets with 8 records in order."""
    names, room = 118, 78
    most = max(counts[(kind, 164, 8, "in order", "hot")]["library"] for kind in KINDS)
    scale = (width - names - room) / most
    drawn = [text(left, top - 26, "164 octets, 8 records in order", weight="bold", size=15)]
    for tick in range(0, most + 1, 500 if most < 2000 else 1000):
        x = left + names + tick * scale
        drawn += [line(x, top, x, top + height), text(x, top + height + 18, f"{tick:,}", "middle")]
    step = height / len(KINDS)
    for row, kind in enumerate(KINDS):
        c = counts[(kind, 164, 8, "in order", "hot")]
        y = top + row * step + 5
        drawn.append(text(left + names - 8, y + step / 2, kind, "end"))
        for bar, subject in enumerate(("memcpy", "anchor", "library")):
            thick = (step - 10) / 3
            drawn.append(f'<rect x="{left + names:.1f}" y="{y + bar * thick:.1f}" width="{c[subject] * scale:.1f}" '
                         f'height="{thick - 1:.1f}" fill="{COLOURS[subject]}"/>')
        ratio = f"{c['library'] / c['anchor']:.2f} times"
        drawn.append(text(left + names + c["library"] * scale + 6, y + 2.5 * (step - 10) / 3 + 4, ratio, colour=COLOURS["library"]))
    return drawn


def growth_panel(title, places, series, left, top, width, height):
    """A line for each of the series (name, subject, values, dash) over places; both axes are logarithmic."""
    first, last = math.log(places[0]), math.log(places[-1])
    low = min(min(values) for _, _, values, _ in series) / 2
    high = max(max(values) for _, _, values, _ in series) * 1.3
    bottom, reach = math.log10(low), math.log10(high) - math.log10(low)

    def across(value):
        return left + 52 + (math.log(value) - first) / (last - first) * (width - 130)

    def up(value):
        return top + height - (math.log10(value) - bottom) / reach * height

    drawn = [text(left, top - 26, title, weight="bold", size=15)]
    for power in range(math.floor(bottom), int(math.log10(high)) + 1):
        for factor in (1, 3):
            tick = factor * 10 ** power
            if low <= tick <= high:
                drawn += [line(left + 52, up(tick), left + width - 70, up(tick)), text(left + 46, up(tick) + 4, f"{tick:,}", "end")]
    for place in places:
        drawn.append(text(across(place), top + height + 18, f"{place:,}", "middle"))
    ends = []
    for name, subject, values, dash in series:
        colour = COLOURS[subject]
        points = [(across(p), up(v)) for p, v in zip(places, values)]
        for (x1, y1), (x2, y2) in zip(points, points[1:]):
            drawn.append(line(x1, y1, x2, y2, colour, 2, dash))
        drawn += [f'<circle cx="{x:.1f}" cy="{y:.1f}" r="3.5" fill="{colour}"/>' for x, y in points]
        ends.append((points[-1][1] + 4, points[-1][0] + 8, name, colour))
    below = 0.0
    for y, x, name, colour in sorted(ends):
        below = max(y, below)  # names of lines that end close together stand one below the other
        drawn.append(text(x, below, name, colour=colour))
        below += SIZE + 1
    return drawn


def picture(counts):
    def di(subject, octets, records, order="in order"):
        return counts[("Di, 3 SIDs", octets, records, order, "hot")][subject]

    records, octets = [1, 8, 64], [64, 164, 1500]
    tables = [(subject, subject, [di(subject, 164, n) for n in records], "") for subject in ("memcpy", "anchor", "library")]
    tables += [("shuffled", subject, [di(subject, 164, 1)] + [di(subject, 164, n, "shuffled") for n in records[1:]], "5 4")
               for subject in ("anchor", "library")]
    packets = [(subject, subject, [di(subject, n, 8) for n in octets], "") for subject in ("memcpy", "anchor", "library")]
    drawn = [f'<rect width="{WIDTH}" height="{HEIGHT}" fill="{PAPER}"/>',
             text(24, 30, "Instructions a call", weight="bold", size=18)]
    for place, subject in enumerate(("memcpy", "anchor", "library")):
        x = 220 + 110 * place
        drawn += [f'<rect x="{x}" y="19" width="13" height="13" fill="{COLOURS[subject]}"/>', text(x + 19, 30, subject)]
    drawn += kinds_panel(counts, 24, 96, 500, 330)
    drawn += growth_panel("Di, 164 octets, by entries", records, tables, 540, 96, 350, 330)
    drawn += growth_panel("Di, 8 entries in order, by octets", octets, packets, 890, 96, 350, 330)
    return "\n".join([f'<svg xmlns="http://www.w3.org/2000/svg" viewBox="0 0 {WIDTH} {HEIGHT}" width="{WIDTH}" height="{HEIGHT}" '
                      'font-family="DejaVu Sans, Arial, sans-serif">', *drawn, "</svg>"])


if __name__ == "__main__":
    if len(sys.argv) != 2:
        sys.exit("usage: plot.py DUMPS")
    print(picture(figures.read_counts(sys.argv[1])[0]))
