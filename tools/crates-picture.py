#!/usr/bin/env python3
"""Draws docs/crates.svg from crates.txt: a box for each crate, a line to each crate that it rests on directly.

    tools/crates-picture.py            writes docs/crates.svg
    tools/crates-picture.py --check    ends with 1 where docs/crates.svg is not what it would write

A line that follows from two others is left out (transitive reduction). Needs Python 3.9 or newer, nothing else.
"""
import pathlib
import sys

TOP = pathlib.Path(__file__).resolve().parent.parent
PICTURE = TOP / "docs" / "crates.svg"
KIT = {"bytes", "io", "libc", "os", "check"}
BOX_HEIGHT, LAYER, GAP, MARGIN, LETTER = 26, 78, 16, 20, 7.4


def read_crates():
    """Each crate with the crates of this repository that its line names."""
    crates = {}
    for line in (TOP / "crates.txt").read_text().splitlines():
        line = line.split("#")[0].strip()
        if line:
            name, rest = line.split(":")
            crates[name.split()[0]] = [d for d in rest.split() if d not in KIT]
    return crates


def below(crates):
    """Everything that each crate rests on, directly or not."""
    found = {}

    def visit(name):
        if name not in found:
            found[name] = set()
            for d in crates[name]:
                found[name] |= {d} | visit(d)
        return found[name]

    for name in crates:
        visit(name)
    return found


def reduced(crates):
    """The lines that follow from no others."""
    rests = below(crates)
    return {name: [d for d in deps if not any(d in rests[e] for e in deps)] for name, deps in crates.items()}


def layered(crates):
    """Layers from the leaves up: a crate stands above everything that it rests on."""
    level = {}
    for name in sorted(crates, key=lambda n: len(below(crates)[n])):
        level[name] = 1 + max((level[d] for d in crates[name]), default=-1)
    layers = [[] for _ in range(max(level.values()) + 1)]
    for name in crates:
        layers[level[name]].append(name)
    return layers


def stretched(layers, lines):
    """Long lines get a bend in each layer that they pass, so that they go between the boxes and not behind them."""
    level = {n: i for i, layer in enumerate(layers) for n in layer}
    routes, links = [], {n: [] for n in level}
    for name, deps in lines.items():
        for d in deps:
            route = [name] + [(name, d, i) for i in range(level[name] - 1, level[d], -1)] + [d]
            for i, bend in enumerate(route[1:-1]):
                layers[level[name] - 1 - i].append(bend)
            for upper, lower in zip(route, route[1:]):
                links.setdefault(upper, []).append(lower)
            routes.append(route)
    return routes, links


def width(node):
    return len(node) * LETTER + 18 if isinstance(node, str) else 2


def place(layers, lines):
    """The middle of each box: every layer is ordered by the middle of its neighbours, some times over, up and down."""
    users = {}
    for upper, lowers in lines.items():
        for lower in lowers:
            users.setdefault(lower, []).append(upper)
    widest = max(sum(width(n) + GAP for n in layer) for layer in layers)
    middle = {}

    def spread(layer):
        total = sum(width(n) for n in layer)
        gap = (widest - total) / (len(layer) + 1)
        x = gap
        for n in layer:
            middle[n] = x + width(n) / 2
            x += width(n) + gap

    for layer in layers:
        spread(layer)
    for turn in range(40):
        order, near = (layers, lines) if turn % 2 == 0 else (layers[::-1], users)
        for layer in order:
            layer.sort(key=lambda n: sum(middle[m] for m in near[n]) / len(near[n]) if near.get(n) else middle[n])
            spread(layer)
    return middle, widest


def draw(crates):
    layers = layered(crates)
    routes, links = stretched(layers, reduced(crates))
    middle, widest = place(layers, links)
    height = LAYER * (len(layers) - 1) + BOX_HEIGHT + 2 * MARGIN
    y = {n: height - MARGIN - BOX_HEIGHT - LAYER * i for i, layer in enumerate(layers) for n in layer}
    svg = [
        f'<svg xmlns="http://www.w3.org/2000/svg" viewBox="0 0 {widest + 2 * MARGIN:.0f} {height}" role="img" '
        'font-family="sans-serif" font-size="13">',
        "<title>The crates of Pouchkettle</title>",
        "<desc>A crate stands above those that it rests on; docs/ARCHITECTURE.md says it in words.</desc>",
        '<rect width="100%" height="100%" fill="white"/>',
    ]
    for route in routes:
        path = ""
        for upper, lower in zip(route, route[1:]):
            x1, y1, x2, y2 = middle[upper] + MARGIN, y[upper] + BOX_HEIGHT, middle[lower] + MARGIN, y[lower]
            half = (y1 + y2) / 2
            path += f"{'L' if path else 'M'}{x1:.0f} {y1}C{x1:.0f} {half:.0f} {x2:.0f} {half:.0f} {x2:.0f} {y2}"
        svg.append(f'<path d="{path}" fill="none" stroke="#888"/>')
    for name in crates:
        x = middle[name] + MARGIN - width(name) / 2
        svg.append(
            f'<rect x="{x:.0f}" y="{y[name]}" width="{width(name):.0f}" height="{BOX_HEIGHT}" rx="4" '
            'fill="#f4f4f0" stroke="#333"/>'
        )
        svg.append(f'<text x="{middle[name] + MARGIN:.0f}" y="{y[name] + 18}" text-anchor="middle">{name}</text>')
    return "\n".join(svg + ["</svg>", ""])


def main():
    picture = draw(read_crates())
    if sys.argv[1:] == ["--check"]:
        if not PICTURE.exists() or PICTURE.read_text() != picture:
            sys.exit("docs/crates.svg is not what crates.txt gives: run tools/crates-picture.py")
        return
    if sys.argv[1:]:
        sys.exit(__doc__)
    PICTURE.write_text(picture)


if __name__ == "__main__":
    main()
