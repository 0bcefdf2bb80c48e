"""Plots as SVG: lines over two logarithmic axes, with ticks and labels as text, for light and for dark pages."""

import math

WIDTH, HEIGHT = 760, 420
LEFT, RIGHT, TOP, BOTTOM = 90, 190, 50, 60  # of the room around the lines; names of lines stand at their right ends

STYLE = """<style>
.page{fill:#ffffff} .ink{fill:#222222} .axis{stroke:#444444;fill:none} .grid{stroke:#dddddd;fill:none}
.line{fill:none;stroke-width:2} .s0{stroke:#0b5cad} .s1{stroke:#b34700} .s2{stroke:#2a7d2e} .s3{stroke:#7a3fa0}
.t0,.d0{fill:#0b5cad} .t1,.d1{fill:#b34700} .t2,.d2{fill:#2a7d2e} .t3,.d3{fill:#7a3fa0}
@media (prefers-color-scheme: dark){
.page{fill:#16181d} .ink{fill:#e6e6e6} .axis{stroke:#bbbbbb} .grid{stroke:#3a3d44}
.s0{stroke:#6db3ff} .s1{stroke:#ff9d57} .s2{stroke:#74cf79} .s3{stroke:#cda1ee}
.t0,.d0{fill:#6db3ff} .t1,.d1{fill:#ff9d57} .t2,.d2{fill:#74cf79} .t3,.d3{fill:#cda1ee}}
</style>"""
DASHES = ["", "7 4", "2 4", "10 3 2 3"]  # lines are told apart without colours too


def duration(nanoseconds):
    for unit, size in (("s", 1e9), ("ms", 1e6), ("µs", 1e3)):
        if nanoseconds >= size:
            return f"{nanoseconds / size:g} {unit}"
    return f"{nanoseconds:g} ns"


class Scale:
    """A logarithmic axis from `low` to `high`, which lie at `start` and `end` of the page."""

    def __init__(self, low, high, start, end):
        self.low, self.high, self.start, self.end = low, high, start, end

    def __call__(self, value):
        part = math.log(value / self.low) / math.log(self.high / self.low)
        return round(self.start + part * (self.end - self.start), 1)

    def ticks(self):
        """1, 2 and 5 times powers of ten; of a long axis the powers alone."""
        steps = (1, 2, 5) if self.high / self.low < 2000 else (1,)
        powers = range(math.floor(math.log10(self.low)), math.ceil(math.log10(self.high)) + 1)
        return [s * 10.0 ** p for p in powers for s in steps if self.low <= s * 10.0 ** p <= self.high]


def text(x, y, words, kind="ink", anchor="middle", size=13, more=""):
    return f'<text x="{x}" y="{y}" class="{kind}" text-anchor="{anchor}" font-size="{size}"{more}>{words}</text>'


def axes(x, y, ticks, title, x_label, y_label):
    bottom, right, middle = HEIGHT - BOTTOM, WIDTH - RIGHT, (LEFT + WIDTH - RIGHT) / 2
    parts = [text(middle, 26, title, size=16)]
    for value in y.ticks():
        parts.append(f'<path class="grid" d="M{LEFT} {y(value)}H{right}"/>')
        parts.append(text(LEFT - 8, y(value) + 4, duration(value), anchor="end"))
    for value in ticks:
        parts.append(f'<path class="axis" d="M{x(value)} {bottom}v5"/>')
        parts.append(text(x(value), bottom + 20, f"{value:,}"))
    parts.append(f'<path class="axis" d="M{LEFT} {TOP}V{bottom}H{right}"/>')
    parts.append(text(middle, HEIGHT - 14, x_label))
    parts.append(text(20, (TOP + bottom) / 2, y_label, more=f' transform="rotate(-90 20 {(TOP + bottom) / 2})"'))
    return parts


def apart(heights, least=18):
    """Heights for the names of lines, moved down where two would lie on each other."""
    placed, last = {}, -least
    for index in sorted(range(len(heights)), key=lambda i: heights[i]):
        last = max(heights[index], last + least)
        placed[index] = last
    return [placed[i] for i in range(len(heights))]


def line(index, points, x, y):
    path = "M" + "L".join(f"{x(a)} {y(b)}" for a, b in points)
    dash = f' stroke-dasharray="{DASHES[index]}"' if DASHES[index] else ""
    dots = [f'<circle class="d{index}" cx="{x(a)}" cy="{y(b)}" r="3"/>' for a, b in points]
    return [f'<path class="line s{index}" d="{path}"{dash}/>', *dots]


def plot(title, x_label, ticks, lines):
    """`lines`: pairs of a name and its points (x, nanoseconds)."""
    values = [b for _, points in lines for _, b in points]
    places = [a for _, points in lines for a, _ in points]
    x = Scale(min(places), max(places), LEFT + 12, WIDTH - RIGHT - 12)
    y = Scale(min(values) / 1.25, max(values) * 1.25, HEIGHT - BOTTOM, TOP)
    parts = [f'<rect class="page" width="{WIDTH}" height="{HEIGHT}"/>', *axes(x, y, ticks, title, x_label, "time for a graph")]
    heights = apart([y(points[-1][1]) for _, points in lines])
    for index, (name, points) in enumerate(lines):
        parts += line(index, points, x, y)
        parts.append(text(WIDTH - RIGHT + 8, heights[index] + 4, name, f"t{index}", "start"))
    head = f'<svg xmlns="http://www.w3.org/2000/svg" viewBox="0 0 {WIDTH} {HEIGHT}" width="{WIDTH}" height="{HEIGHT}" font-family="sans-serif">'
    return "\n".join([head, f"<title>{title}</title>", STYLE, *parts, "</svg>", ""])
