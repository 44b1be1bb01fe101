"""The plot: a panel for each load, both scales logarithmic. Its colours show on white and on black."""
from math import ceil, log10

from loads import LOADS, SIZES

GREY, LOWEST = "#7a7a7a", 2
LINES = {"untested": ("C, no test", GREY), "plain": ("plain C", "#3182ce"), "quick": ("quick C", "#2f9e5b"), "product": ("product", "#d0651c")}
LEFT, TOP, WIDTH, HEIGHT, RIGHT, BELOW = 72, 50, 220, 190, 148, 70


def words(x, y, text, anchor="start", colour=GREY):
    return f'<text x="{x:.1f}" y="{y:.1f}" text-anchor="{anchor}" fill="{colour}">{text}</text>'


def apart(places, least):
    """The same places, the lowest first, moved up where two are closer than that."""
    free = float("inf")
    for key, y in sorted(places.items(), key=lambda pair: -pair[1]):
        free = min(y, free - least)
        yield key, free


def panel(left, top, kind, rows, highest):
    def y_of(count):
        return top + HEIGHT * (highest - log10(count)) / (highest - LOWEST)

    xs = [left + WIDTH * i / (len(SIZES) - 1) for i in range(len(SIZES))]
    yield words(left, top - 22, f'<tspan font-weight="bold">{kind}</tspan>: {LOADS[kind][0]}')
    for count in (10**decade for decade in range(LOWEST, highest + 1)):
        yield words(left - 8, y_of(count) + 4, f"{count:,}", "end")
        yield f'<path d="M{left} {y_of(count):.1f}h{WIDTH}" stroke="{GREY}" stroke-opacity=".3"/>'
    for x, size in zip(xs, SIZES):
        yield words(x, top + HEIGHT + 18, f"{size:,}", "middle")
    ends = {}
    for program, (_, colour) in LINES.items():
        points = [(x, y_of(rows[kind, size][1][program])) for x, size in zip(xs, SIZES)]
        ends[program] = points[-1][1]
        yield f'<path d="M{"L".join(f"{x:.1f} {y:.1f}" for x, y in points)}" fill="none" stroke="{colour}" stroke-width="2"/>'
        yield from (f'<circle cx="{x:.1f}" cy="{y:.1f}" r="3" fill="{colour}"/>' for x, y in points)
    for program, y in apart(ends, 14):
        label, colour = LINES[program]
        yield words(left + WIDTH + 9, y + 4, f"{label} {rows[kind, SIZES[-1]][1][program]:,.0f}", colour=colour)


def drawn(rows):
    highest = ceil(log10(max(max(totals.values()) for _, totals in rows.values())))
    across, down = LEFT + WIDTH + RIGHT, HEIGHT + BELOW
    width, height = 2 * across, TOP + ceil(len(LOADS) / 2) * down
    size = f'width="{width}" height="{height}" viewBox="0 0 {width} {height}"'
    parts = [f'<svg xmlns="http://www.w3.org/2000/svg" {size} font-family="sans-serif" font-size="12">']
    for i, kind in enumerate(LOADS):
        parts += panel(LEFT + i % 2 * across, TOP + i // 2 * down, kind, rows, highest)
    scales = "Up: instructions per call, fewer is better. Across: transactions of the load. Both scales are logarithmic."
    return "\n".join([*parts, words(LEFT, height - 20, scales), "</svg>", ""])
