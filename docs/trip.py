#!/usr/bin/env python3
"""trip.py: prints docs/trip.svg, the picture of a trip: the first packet of the yard's downlink capture from the UPF to the radio.

    python3 docs/trip.py > docs/trip.svg
"""

from html import escape

WIDTH, HEIGHT = 1240, 366
NODE_WIDTH, NODE_HEIGHT, NODE_TOP = 120, 50, 24
COLUMN = 222  # from one node to the next
LEFT = 65     # the middle of the first node
CARD_WIDTH, CARD_TOP, LINE, PAD, INDENT = 210, 132, 17, 8, 12

INK, LINK, PAPER = "#1f2933", "#7b8794", "#ffffff"
SITE, GATEWAY, WAYPOINT = "#e4e7eb", "#b3d4fc", "#c1eac5"
IP, UDP, GTPU, SRH, INNER = "#dbe9fb", "#eef0f2", "#fbd5b5", "#d3f0d6", "#fdf3c4"
ARGS = "#b4450b"  # what is carried of the GTP-U header, there and in the SID

NODES = [
    (SITE, "UPF", "in the office"),
    (GATEWAY, "near gateway", "Di"),
    (WAYPOINT, "waypoint", "gate"),
    (WAYPOINT, "waypoint", "mast"),
    (GATEWAY, "far gateway", "E6"),
    (SITE, "radio", "on the crane"),
]

# How a line begins that is a segment: the one that the packet is on its way to, or another.
ACTIVE, WAITING = ">", "-"

# Text between asterisks is what Args carry.
SID = "2001:db8:b:1:*1601:203:4*00:0"
TUNNEL = [
    (IP, ["IPv6", "to 2001:db8:77::9"]),
    (UDP, ["UDP to port 2152"]),
    (GTPU, ["GTP-U, *TEID 0x01020304*", "*QFI 5, R 1*, downlink"]),
    (INNER, ["inner packet, 40 octets"]),
]


def routed(destination: str, segments_left: int) -> list[tuple[str, list[str]]]:
    path = ["2001:db8:77::9", SID, "2001:db8:2::e", "2001:db8:1::e"]
    listed = [(ACTIVE if place == segments_left else WAITING) + segment for place, segment in enumerate(path)]
    return [
        (IP, ["IPv6", "to " + destination]),
        (SRH, [f"SRH, Segments Left {segments_left}", *listed]),
        (INNER, ["inner packet, 40 octets"]),
    ]


# What is on each link, and its octets.
LINKS = [
    (TUNNEL, 104),
    (routed("2001:db8:1::e", 3), 152),
    (routed("2001:db8:2::e", 2), 152),
    (routed(SID, 1), 152),
    (TUNNEL, 104),
]


def text(x: float, y: float, words: str, size: int = 12, anchor: str = "start", weight: str = "normal") -> str:
    spans = "".join(
        f'<tspan fill="{ARGS}" font-weight="bold">{escape(part)}</tspan>' if number % 2 else escape(part)
        for number, part in enumerate(words.split("*"))
    )
    return f'<text x="{x:g}" y="{y:g}" font-size="{size}" text-anchor="{anchor}" font-weight="{weight}">{spans}</text>'


def box(x: float, y: float, width: float, height: float, fill: str, radius: int = 3) -> str:
    place = f'x="{x:g}" y="{y:g}" width="{width:g}" height="{height:g}" rx="{radius}"'
    return f'<rect {place} fill="{fill}" stroke="{INK}" stroke-width="0.8"/>'


def node(number: int) -> list[str]:
    fill, name, place = NODES[number]
    middle = LEFT + COLUMN * number
    return [
        box(middle - NODE_WIDTH / 2, NODE_TOP, NODE_WIDTH, NODE_HEIGHT, fill, 8),
        text(middle, NODE_TOP + 21, name, 14, "middle", "bold"),
        text(middle, NODE_TOP + 39, place, 12, "middle"),
    ]


def card_line(x: float, y: float, words: str) -> list[str]:
    if words[0] not in ACTIVE + WAITING:
        return [text(x, y, words, 11)]
    mark = [f'<path d="M{x:g} {y - 9:g} l7 4.5 l-7 4.5 z"/>'] if words[0] == ACTIVE else []
    return mark + [text(x + INDENT, y, words[1:], 11)]


def link(number: int) -> list[str]:
    """The arrow between two nodes, and below it the packet that is on it."""
    headers, octets = LINKS[number]
    start = LEFT + COLUMN * number + NODE_WIDTH / 2
    end = start + COLUMN - NODE_WIDTH
    middle, height = (start + end) / 2, NODE_TOP + NODE_HEIGHT / 2
    drawn = [
        f'<line x1="{start + 2:g}" y1="{height:g}" x2="{end - 9:g}" y2="{height:g}" stroke="{INK}" stroke-width="2" '
        'marker-end="url(#arrow)"/>',
        f'<line x1="{middle:g}" y1="{height + 6:g}" x2="{middle:g}" y2="{CARD_TOP - 22}" stroke="{LINK}" stroke-dasharray="3 3"/>',
        text(middle, CARD_TOP - 8, f"{octets} octets", 12, "middle", "bold"),
    ]
    top = CARD_TOP
    for fill, lines in headers:
        tall = LINE * len(lines) + PAD
        drawn.append(box(middle - CARD_WIDTH / 2, top, CARD_WIDTH, tall, fill))
        for i, words in enumerate(lines):
            drawn += card_line(middle - CARD_WIDTH / 2 + 7, top + LINE * (i + 1), words)
        top += tall
    return drawn


def main() -> None:
    parts = [
        f'<svg xmlns="http://www.w3.org/2000/svg" viewBox="0 0 {WIDTH} {HEIGHT}" width="{WIDTH}" height="{HEIGHT}" '
        f'font-family="DejaVu Sans, Verdana, sans-serif" fill="{INK}">',
        "<title>A trip: a G-PDU from the UPF through a gateway, two waypoints and a gateway to the radio</title>",
        f'<defs><marker id="arrow" viewBox="0 0 8 8" refX="1" refY="4" markerWidth="4" markerHeight="4" orient="auto">'
        f'<path d="M0 0 L8 4 L0 8 z" fill="{INK}"/></marker></defs>',
        f'<rect width="{WIDTH}" height="{HEIGHT}" fill="{PAPER}"/>',
    ]
    for number in range(len(NODES)):
        parts += node(number)
    for number in range(len(LINKS)):
        parts += link(number)
    parts += [
        text(WIDTH / 2, HEIGHT - 46, "The near gateway takes UDP and GTP-U off and puts *TEID, QFI and R* into the SID of the far gateway. "
             "Each waypoint sends the packet on to the next segment.", 12, "middle"),
        text(WIDTH / 2, HEIGHT - 26, "The far gateway writes the GTP-U header anew: same destination, traffic class, TEID, QFI, R and "
             "inner octets. What comes out is proved, octet for octet.", 12, "middle"),
        "</svg>",
    ]
    print("\n".join(parts))


if __name__ == "__main__":
    main()
