"""A plot of cost against size as SVG, both axes logarithmic."""

from math import ceil, floor, log10

WIDTH, HEIGHT, LEFT, RIGHT, TOP, BOTTOM = 640, 400, 80, 110, 40, 30
# what, side, colour, dashes
LINES = [
    ("read", "ours", "#0a6", "none"),
    ("read", "rust", "#c40", "none"),
    ("write", "ours", "#0a6", "6 4"),
    ("write", "rust", "#c40", "6 4"),
]


def ticks(low, high):
    return [10**e for e in range(floor(log10(low)), ceil(log10(high)) + 1)]


def svg(title, points):
    read, write = points
    sizes = [size for size, _ in read]
    costs = [cost for _, sides in read + write for cost in sides.values()]
    across, up = ticks(min(sizes), max(sizes)), ticks(min(costs), max(costs))

    def x(size):
        return LEFT + (WIDTH - LEFT - RIGHT) * log10(size / across[0]) / log10(across[-1] / across[0])

    def y(cost):
        return HEIGHT - BOTTOM - (HEIGHT - TOP - BOTTOM) * log10(cost / up[0]) / log10(up[-1] / up[0])

    out = [
        f'<svg xmlns="http://www.w3.org/2000/svg" width="{WIDTH}" height="{HEIGHT}" font-family="sans-serif" font-size="12">',
        f'<rect width="{WIDTH}" height="{HEIGHT}" fill="#fff"/>',
        f'<text x="{LEFT}" y="22" font-size="15">{title}</text>',
    ]
    for size in across:
        out.append(f'<path d="M{x(size):.1f} {TOP}V{HEIGHT - BOTTOM}" stroke="#ddd"/>')
        out.append(f'<text x="{x(size):.1f}" y="{HEIGHT - BOTTOM + 16}" text-anchor="middle">{size:,}</text>')
    for cost in up:
        out.append(f'<path d="M{LEFT} {y(cost):.1f}H{WIDTH - RIGHT}" stroke="#ddd"/>')
        out.append(f'<text x="{LEFT - 6}" y="{y(cost) + 4:.1f}" text-anchor="end">{cost:,}</text>')
    labels = []
    for what, side, colour, dash in LINES:
        line = [(x(size), y(sides[side])) for size, sides in (read if what == "read" else write)]
        path = "L".join(f"{a:.1f} {b:.1f}" for a, b in line)
        out.append(f'<path d="M{path}" fill="none" stroke="{colour}" stroke-width="2" stroke-dasharray="{dash}"/>')
        for a, b in line:
            out.append(f'<circle cx="{a:.1f}" cy="{b:.1f}" r="3" fill="{colour}"/>')
        labels.append((line[-1][1] + 4, f"{what}, {'ours' if side == 'ours' else 'Rust'}", colour))
    # names of lines that end close together are moved apart
    lowest = 0
    for place, name, colour in sorted(labels):
        lowest = max(place, lowest + 14)
        out.append(f'<text x="{WIDTH - RIGHT + 8}" y="{lowest:.1f}" fill="{colour}">{name}</text>')
    return "\n".join(out + ["</svg>", ""])


def save(path, title, points):
    path.write_text(svg(title, points))
