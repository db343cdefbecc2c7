#!/usr/bin/env python3
"""Draws the figures that bench/peers.sh has written to a file, as SVG. Usage: bench/peers_plot.py FIGURES > IMAGE.

Each panel has one action: bars for the documents, one colour for each format, on a scale of powers of ten, with the
figure after each bar. A format that cannot do it, or was not there, has no bar.
"""

import math
import sys
from html import escape

WIDTH = 1240
MARGIN = 24
BAR = 11
GROUP = 10
LABEL = 74
HEAD = 40

# what is timed and the action, with the panel's title; the panels of one row lie beside one another
ROWS = [
    [
        (("program", "build"), "programs: build, seconds"),
        (("program", "question"), "programs: open and answer {questions} questions, seconds"),
        (("program", "edit"), "programs: open and do {questions} edits, seconds"),
    ],
    [
        (("process", "build"), "in a process: build, milliseconds"),
        (("process", "open"), "in a process: check, milliseconds"),
        (("process", "question"), "in a process: a question, nanoseconds"),
        (("process", "edit"), "in a process: an edit, nanoseconds"),
    ],
    [
        (("typed", "question"), "known type: a look-up, nanoseconds"),
        (("typed", "write"), "known type: write an entry, nanoseconds"),
        (("typed", "open"), "known type: check an entry, nanoseconds"),
        (("bytes", "size"), "size, megabytes"),
    ],
]

NOTE = "In a process this project builds from a text, and reads lines and spells answers; the others do not."

# formats in the order of bars: what the legend says, the names in figures, colours on light and on dark
PEERS = [
    ("this project (cab, crates/cabinet_c, crates/archive_bench)", ("cab", "cabinet"), "#0b63c4", "#5aa9ff"),
    ("rkyv", ("rkyv",), "#c2410c", "#ff9254"),
    ("FlatBuffers", ("FlatBuffers",), "#7a3fb0", "#c598f5"),
    ("SQLite", ("sqlite3", "SQLite"), "#1b7f4d", "#4fcf8c"),
    ("jq, JSON", ("jq", "JSON"), "#8a6a00", "#e0b93a"),
    ("Rust's own map", ("std",), "#5b6472", "#aab4c3"),
    ("Rust's own map, the same hash", ("std, same hash",), "#b3246b", "#ff7dba"),
]

# page, text, soft text and lines, on light and on dark
SHADES = {
    "rect.page": ("#ffffff", "#15181c"),
    "text": ("#1c2024", "#eceff3"),
    "text.soft": ("#5f6670", "#a3abb6"),
}
LINES = ("#d9dde2", "#343a42")

STYLE = """text { font: 11px system-ui, sans-serif; }
text.title { font-size: 17px; font-weight: 600; }
text.panel { font-weight: 600; }
text.end { text-anchor: end; }
"""


def read(path):
    """Returns what is known of the run, and the figures by what, action, document and format."""
    about, figures = {}, {}
    with open(path, encoding="utf-8") as lines:
        for line in lines:
            line = line.rstrip("\n")
            if line.startswith("# "):
                name, _, value = line[2:].partition(": ")
                about[name] = value
            elif line.count("\t") == 5:
                what, document, action, peer, figure, unit = line.split("\t")
                scale = 1e6 if unit == "bytes" else 1
                panel = figures.setdefault((what, action), {})
                panel.setdefault(document, {})[peer] = float(figure) / scale
    return about, figures


def grouped(number):
    """Returns a number, if it is one, with its digits in groups of three."""
    return f"{int(number):,}" if number.isdecimal() else number


def spelled(figure):
    """Returns a figure with three digits that count, all before the point, and at most three after it."""
    if figure <= 0:
        return "0"
    places = max(0, 2 - math.floor(math.log10(figure)))
    return f"{figure:,.{min(places, 3)}f}"


def bars(panel):
    """Returns for each document of a panel its bars, each the number of a format and a figure."""
    groups = []
    for document, peers in panel.items():
        found = []
        for number, (_, names, _, _) in enumerate(PEERS):
            figure = next((peers[name] for name in names if name in peers), None)
            if figure is not None:
                found.append((number, figure))
        groups.append((document, found))
    return groups


def text(x, y, said, classes=""):
    return f'<text x="{x:.1f}" y="{y:.1f}" class="{classes}">{escape(said)}</text>'


def height_of(panel):
    return HEAD + sum(GROUP + BAR * len(found) for _, found in bars(panel))


def scale_of(groups):
    """Returns the powers of ten at which the scale of a panel begins and ends."""
    figures = [figure for _, found in groups for _, figure in found if figure > 0] or [1]
    low = math.floor(math.log10(min(figures)))
    if min(figures) < 1.3 * 10**low:
        low -= 1
    return low, max(math.ceil(math.log10(max(figures))), low + 1)


def draw_scale(x, y, width, height, low, high):
    """Returns a line for each power of ten, and its name below the panel's title."""
    drawn = []
    for power in range(low, high + 1):
        at = x + width * (power - low) / (high - low)
        name = f"{10**power:,}" if power >= 0 else f"{10.0**power:.{-power}f}"
        drawn.append(f'<line x1="{at:.1f}" x2="{at:.1f}" y1="{y + 22}" y2="{y + height}"/>')
        drawn.append(text(at + 2, y + 29, name, "soft"))
    return drawn


def name_lines(document):
    """Returns a document's name in the lines of its label."""
    kind, _, entries = document.partition(", ")
    return [kind, grouped(entries.removesuffix(" entries"))] if entries else [kind]


def draw_panel(x, y, width, title, panel):
    groups = bars(panel)
    low, high = scale_of(groups)
    left, room = x + LABEL, width - LABEL - 52
    drawn = [text(x, y + 12, title, "panel")]
    drawn += draw_scale(left, y, room, height_of(panel), low, high)
    at = y + HEAD
    for document, found in groups:
        for place, line in enumerate(name_lines(document)):
            drawn.append(text(left - 6, at + 9 + 12 * place, line, "end"))
        for number, figure in found:
            share = (math.log10(figure) - low) / (high - low) if figure > 0 else 0
            length = max(1.0, room * share)
            drawn.append(
                f'<rect class="p{number}" x="{left:.1f}" y="{at:.1f}" width="{length:.1f}" height="{BAR - 2}">'
                f"<title>{escape(document)}, {escape(PEERS[number][0])}: {spelled(figure)}</title></rect>"
            )
            drawn.append(text(left + length + 4, at + 8.5, spelled(figure), "soft"))
            at += BAR
        at += GROUP
    return drawn


def draw_legend(y, used):
    drawn, x = [], MARGIN
    for number in sorted(used):
        name = PEERS[number][0]
        drawn.append(f'<rect class="p{number}" x="{x}" y="{y - 9}" width="10" height="10"/>')
        drawn.append(text(x + 15, y, name))
        x += 15 + 6.2 * len(name) + 22
    return drawn


def draw_rows(about, figures, y):
    """Returns what is drawn of all panels that have figures, and where they end."""
    drawn = []
    for row in ROWS:
        panels = [(title, figures[key]) for key, title in row if key in figures]
        if not panels:
            continue
        width = (WIDTH - 2 * MARGIN) / len(panels)
        for place, (title, panel) in enumerate(panels):
            title = title.format(questions=grouped(about.get("questions", "all")))
            drawn += draw_panel(MARGIN + place * width, y, width - 16, title, panel)
        y += max(height_of(panel) for _, panel in panels) + 26
    return drawn, y


def shades(dark):
    """Returns the colours for light or for dark."""
    fills = dict(SHADES)
    for number, (_, _, *colours) in enumerate(PEERS):
        fills[f"rect.p{number}"] = colours
    rules = [f"{name} {{ fill: {colours[dark]}; }}" for name, colours in fills.items()]
    return "\n".join([*rules, f"line {{ stroke: {LINES[dark]}; }}"])


def styles():
    return f"{STYLE}{shades(0)}\n@media (prefers-color-scheme: dark) {{\n{shades(1)}\n}}"


def draw(about, figures):
    used = {number for panel in figures.values() for _, found in bars(panel) for number, _ in found}
    title = f"Documents of {grouped(about.get('leaves', '?'))} leaves in several formats"
    times = f"Processor time, the least of all runs, on scales of powers of ten: less is better. {NOTE}"
    machine = f"{about.get('machine', '?')}; compiled for {about.get('compiled for', '?')}; {about.get('date', '?')}"
    drawn = [
        text(MARGIN, 32, title, "title"),
        text(MARGIN, 51, times, "soft"),
        text(MARGIN, 67, f"{machine}; {about.get('peers', '')}", "soft"),
    ]
    drawn += draw_legend(90, used)
    panels, end = draw_rows(about, figures, 112)
    size = f'viewBox="0 0 {WIDTH} {end:.0f}" width="{WIDTH}" height="{end:.0f}"'
    return "\n".join(
        [
            f'<svg xmlns="http://www.w3.org/2000/svg" {size} role="img">',
            f"<title>{escape(title)}</title>",
            f"<style>{styles()}</style>",
            '<rect class="page" width="100%" height="100%"/>',
            *drawn,
            *panels,
            "</svg>",
        ]
    )


def main():
    if len(sys.argv) != 2:
        sys.exit("usage: peers_plot.py FIGURES > IMAGE")
    print(draw(*read(sys.argv[1])))


if __name__ == "__main__":
    main()
