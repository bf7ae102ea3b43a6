"""Lines over a scale of powers, as an SVG. It needs the standard library alone."""
import math
from html import escape

COLORS = ["#c0392b", "#2471a3", "#1e8449", "#b9770e", "#6c3483", "#566573"]
WIDTH, HEIGHT = 720, 420
LEFT, RIGHT, TOP, BOTTOM = 80, 170, 40, 56


def short(number):
    """a number as people write it: 1.5M, 200k, 0.7"""
    for size, letter in ((1e6, "M"), (1e3, "k")):
        if abs(number) >= size:
            return f"{number / size:g}{letter}"
    return f"{number:g}"


def steps(low, high, by_powers):
    """where the lines of a scale stand"""
    if by_powers:
        first, last = math.floor(math.log10(low)), math.ceil(math.log10(high))
        return [10.0**n for n in range(first, last + 1)]
    step = 10 ** math.floor(math.log10(max(high - low, 1e-9)))
    while (high - low) / step < 4:
        step /= 2
    return [round(n * step, 9) for n in range(math.floor(low / step), math.ceil(high / step) + 1)]


class Scale:
    def __init__(self, values, by_powers, start, end):
        self.by_powers = by_powers
        self.marks = steps(min(values), max(values), by_powers)
        self.low, self.high = self.place(self.marks[0]), self.place(self.marks[-1])
        self.start, self.end = start, end

    def place(self, value):
        return math.log10(value) if self.by_powers else value

    def __call__(self, value):
        part = (self.place(value) - self.low) / ((self.high - self.low) or 1)
        return self.start + part * (self.end - self.start)


def text(x, y, words, anchor="middle", more=""):
    return f'<text x="{x:.1f}" y="{y:.1f}" text-anchor="{anchor}" {more}>{escape(words)}</text>'


def plot(title, across, up, lines, across_by_powers=True, up_by_powers=False, from_zero=True):
    """an SVG of lines, each a name and a list of points (x, y)"""
    points = [point for _, all_of_line in lines for point in all_of_line]
    heights = [y for _, y in points] + ([0] if from_zero and not up_by_powers else [])
    x = Scale([x for x, _ in points], across_by_powers, LEFT, WIDTH - RIGHT)
    y = Scale(heights, up_by_powers, HEIGHT - BOTTOM, TOP)
    out = [
        f'<svg xmlns="http://www.w3.org/2000/svg" viewBox="0 0 {WIDTH} {HEIGHT}" font-family="sans-serif" font-size="12">',
        f'<rect width="{WIDTH}" height="{HEIGHT}" fill="white"/>',
        text(LEFT, 22, title, "start", 'font-size="15"'),
        text((LEFT + WIDTH - RIGHT) / 2, HEIGHT - 14, across),
        text(16, (TOP + HEIGHT - BOTTOM) / 2, up, "middle", f'transform="rotate(-90 16 {(TOP + HEIGHT - BOTTOM) / 2:.1f})"'),
    ]
    for mark in x.marks:
        out.append(f'<line x1="{x(mark):.1f}" y1="{TOP}" x2="{x(mark):.1f}" y2="{HEIGHT - BOTTOM}" stroke="#ddd"/>')
        out.append(text(x(mark), HEIGHT - BOTTOM + 16, short(mark)))
    for mark in y.marks:
        out.append(f'<line x1="{LEFT}" y1="{y(mark):.1f}" x2="{WIDTH - RIGHT}" y2="{y(mark):.1f}" stroke="#ddd"/>')
        out.append(text(LEFT - 6, y(mark) + 4, short(mark), "end"))
    for number, (name, all_of_line) in enumerate(lines):
        color = COLORS[number % len(COLORS)]
        path = " ".join(f"{x(a):.1f},{y(b):.1f}" for a, b in all_of_line)
        out.append(f'<polyline points="{path}" fill="none" stroke="{color}" stroke-width="2"/>')
        out += [f'<circle cx="{x(a):.1f}" cy="{y(b):.1f}" r="3" fill="{color}"/>' for a, b in all_of_line]
        at = TOP + 10 + 20 * number
        out.append(f'<line x1="{WIDTH - RIGHT + 12}" y1="{at}" x2="{WIDTH - RIGHT + 34}" y2="{at}" stroke="{color}" stroke-width="2"/>')
        out.append(text(WIDTH - RIGHT + 40, at + 4, name, "start"))
    return "\n".join(out + ["</svg>", ""])
