#!/usr/bin/env python3
"""Draws the pictures of docs/: docs/pictures/draw.py, at the top of the repository.

layers.svg  the crates as crates.txt lists them, each on what it stands on, with its lines of code, definitions and proofs
time.svg    frames, stamps and the permitted frame on a line of time
join.svg    a join as arrows between a client and the server
bench.svg   the figures of docs/pictures/bench.txt as bars
load.svg    the figures of docs/pictures/load.txt, a server under load, as bars

Only Python's standard library is used. A picture changes only where what it shows has changed.
"""
import pathlib
import re

TOP = pathlib.Path(__file__).resolve().parents[2]
HERE = TOP / "docs/pictures"
FONT = 'font-family="sans-serif" font-size="13"'


class Picture:
    def __init__(self, width, height):
        self.width, self.height, self.parts = width, height, []

    def text(self, x, y, text, anchor="start", weight="normal", fill="#222"):
        text = text.replace("&", "&amp;").replace("<", "&lt;")
        self.parts.append(f'<text x="{x:.0f}" y="{y:.0f}" text-anchor="{anchor}" font-weight="{weight}" fill="{fill}">{text}</text>')

    def box(self, x, y, width, height, fill):
        self.parts.append(f'<rect x="{x:.1f}" y="{y:.1f}" width="{width:.1f}" height="{height:.1f}" fill="{fill}"/>')

    def line(self, x1, y1, x2, y2, dash=False, arrow=False):
        more = (' stroke-dasharray="4 3"' if dash else "") + (' marker-end="url(#tip)"' if arrow else "")
        self.parts.append(f'<line x1="{x1:.0f}" y1="{y1:.0f}" x2="{x2:.0f}" y2="{y2:.0f}" stroke="#444"{more}/>')

    def save(self, name):
        tip = '<defs><marker id="tip" markerWidth="8" markerHeight="8" refX="7" refY="4" orient="auto"><path d="M0,0 L8,4 L0,8 z" fill="#444"/></marker></defs>'
        head = f'<svg xmlns="http://www.w3.org/2000/svg" width="{self.width}" height="{self.height}" {FONT}>'
        back = f'<rect width="{self.width}" height="{self.height}" fill="white"/>'
        (HERE / name).write_text("\n".join([head, tip, back, *self.parts, "</svg>", ""]), encoding="utf-8")


def crates():
    """Each crate of crates.txt with the crates of this repository that it stands on."""
    found = {}
    for line in (TOP / "crates.txt").read_text(encoding="utf-8").splitlines():
        made = re.match(r"(\w+)[^:#]*:(.*)", line)
        if made:
            found[made[1]] = made[2].split()
    return {name: [it for it in below if it in found] for name, below in found.items()}


def lines(crate, folder, ending):
    return sum(len(it.read_text(encoding="utf-8").splitlines()) for it in (TOP / "crates" / crate / folder).rglob(f"*{ending}"))


def layers():
    below = crates()
    depth = {}
    for name in below:
        depth[name] = 1 + max((depth.get(it, 0) for it in below[name]), default=0)
    rows = sorted(below, key=lambda name: (depth[name], name))
    sizes = {name: (lines(name, "src", ".rt"), lines(name, "specs", ".antt"), lines(name, "proofs", ".antt")) for name in rows}
    scale = 420 / max(sum(it) for it in sizes.values())
    picture = Picture(860, 70 + 22 * len(rows))
    picture.text(20, 24, "The crates, each above what it stands on: lines of code, definitions, proofs", weight="bold")
    for place, (label, fill) in enumerate([("code", "#3b6ea8"), ("definitions", "#7fb07f"), ("proofs", "#d0d0d0")]):
        picture.box(20 + 110 * place, 36, 12, 12, fill)
        picture.text(38 + 110 * place, 47, label)
    for row, name in enumerate(rows):
        y, x = 62 + 22 * row, 260
        picture.text(20 + 10 * (depth[name] - 1), y + 13, name)
        for size, fill in zip(sizes[name], ["#3b6ea8", "#7fb07f", "#d0d0d0"]):
            picture.box(x, y, size * scale, 16, fill)
            x += size * scale
        picture.text(x + 6, y + 13, " + ".join(str(it) for it in sizes[name]))
    picture.save("layers.svg")


def time():
    picture = Picture(860, 220)
    picture.text(20, 24, "frame_freq 3: what a tick stamps, and up to where clients may run", weight="bold")
    left, step = 60, 92
    picture.line(left - 20, 120, left + 8 * step + 30, 120, arrow=True)
    for frame in range(9):
        x = left + frame * step
        picture.line(x, 114, x, 126)
        picture.text(x, 144, str(frame), "middle")
    picture.text(left + 5 * step, 60, "FRAME(5, 8) has been told: a client may run up to frame 8, its permitted frame", "middle")
    picture.line(left + 5 * step, 68, left + 5 * step, 110, arrow=True)
    picture.text(left + 5 * step, 100, " the server", "start")
    picture.text(left + 2 * step, 178, "a client that lags stands at frame 2", "middle")
    picture.line(left + 2 * step, 165, left + 2 * step, 150, arrow=True)
    picture.text(left + 5 * step, 204, "a command that comes now is stamped for frame 9: nobody has run it", "middle")
    picture.box(left + 5 * step, 122, 3 * step, 4, "#7fb07f")
    picture.save("time.svg")


def join():
    steps = [
        (">", "CLIENT_JOIN", "revision, name, company"),
        ("<", "SERVER_WELCOME", "its number; passwords are asked for before it"),
        (">", "CLIENT_GETMAP", ""),
        ("<", "SERVER_WAIT", "only while another client downloads: how many are before it"),
        ("<", "SERVER_MAP_BEGIN, SERVER_MAP_SIZE", "the map's frame, its bytes"),
        ("<", "SERVER_MAP_DATA ..", "up to four pieces each tick"),
        ("<", "SERVER_MAP_DONE", ""),
        (">", "CLIENT_MAP_OK", ""),
        ("<", "SERVER_CLIENT_INFO ..", "each client that was welcomed"),
        ("<", "SERVER_COMMAND ..", "each entry stamped above the map's frame: nothing is missed"),
        ("<", "SERVER_FRAME", "frame, permitted frame, token"),
        (">", "CLIENT_ACK", "frame, token: near enough, it plays"),
    ]
    picture = Picture(860, 80 + 30 * len(steps))
    picture.text(20, 24, "A join", weight="bold")
    picture.text(60, 50, "client", "middle", "bold")
    picture.text(400, 50, "server", "middle", "bold")
    bottom = 66 + 30 * len(steps)
    picture.line(60, 58, 60, bottom)
    picture.line(400, 58, 400, bottom)
    for row, (way, name, what) in enumerate(steps):
        y = 82 + 30 * row
        picture.text(230, y - 5, name, "middle")
        picture.line(*((64, y, 396, y) if way == ">" else (396, y, 64, y)), arrow=True)
        picture.text(420, y + 1, what, fill="#555")
    picture.save("join.svg")


def bench():
    """bench.txt: lines `work | number | unit`, the bars of one unit drawn to one scale; lines with # are left out."""
    rows = [line.split("|") for line in (HERE / "bench.txt").read_text(encoding="utf-8").splitlines() if line.strip() and not line.startswith("#")]
    rows = [(work.strip(), float(number), unit.strip()) for work, number, unit in rows]
    most = {}
    for _, number, unit in rows:
        most[unit] = max(most.get(unit, 0), number)
    picture = Picture(860, 50 + 24 * len(rows))
    picture.text(20, 24, "What tt_bench measured", weight="bold")
    for row, (work, number, unit) in enumerate(rows):
        y = 40 + 24 * row
        picture.text(380, y + 13, work, "end")
        picture.box(390, y, 300 * number / most[unit], 16, "#3b6ea8")
        picture.text(396 + 300 * number / most[unit], y + 13, f"{number:g} {unit}")
    picture.save("bench.svg")


def load():
    """load.txt: lines `what | here | OpenTTD 13's dedicated server | unit`, two bars each, drawn to the larger one."""
    if not (HERE / "load.txt").exists():
        return
    rows = [line.split("|") for line in (HERE / "load.txt").read_text(encoding="utf-8").splitlines() if line.strip() and not line.startswith("#")]
    picture = Picture(860, 60 + 46 * len(rows))
    picture.text(20, 24, "A server under load, beside OpenTTD 13's dedicated server (grey): shorter is better", weight="bold")
    for row, (what, here, there, unit) in enumerate(rows):
        y, most = 44 + 46 * row, max(float(here), float(there))
        picture.text(330, y + 20, what.strip(), "end")
        for place, (value, fill) in enumerate(((here, "#3b6ea8"), (there, "#aaa"))):
            width = 360 * float(value) / most
            picture.box(340, y + 17 * place, max(width, 1), 14, fill)
            picture.text(346 + width, y + 12 + 17 * place, f"{float(value):g} {unit.strip()}")
    picture.save("load.svg")


layers()
time()
join()
bench()
load()
