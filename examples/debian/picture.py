#!/usr/bin/env python3
"""Draws a series as SVG: series.py REPORT LINE KEY | picture.py --title TEXT --first YEAR > PICTURE

It reads lines `EPOCH NUMBER`. YEAR is what epoch 1 is called below the picture; the epochs that follow count on.
"""
import argparse
import sys
from xml.sax.saxutils import escape

WIDTH, HEIGHT = 760, 340
LEFT, RIGHT, TOP, BOTTOM = 60, 20, 46, 40
STEPS = (1, 2, 5)


def step_for(most):
    """A round step of at most six grid lines up to `most`."""
    power = 0.001
    while True:
        for step in STEPS:
            if most <= 6 * step * power:
                return step * power
        power *= 10


class Scale:
    """Where epochs and numbers lie in the picture."""

    def __init__(self, points):
        self.first, self.last = points[0][0], points[-1][0]
        self.step = step_for(max(number for _, number in points) or 1)
        self.most = self.step * -(-max(number for _, number in points) // self.step) or self.step

    def across(self, epoch):
        """The place of an epoch, from the left."""
        return LEFT + (epoch - self.first) * (WIDTH - LEFT - RIGHT) / max(self.last - self.first, 1)

    def down(self, number):
        """The place of a number, from the top."""
        return HEIGHT - BOTTOM - number * (HEIGHT - TOP - BOTTOM) / self.most


def picture(points, title, first):
    """The lines of the picture."""
    scale = Scale(points)
    box = f'viewBox="0 0 {WIDTH} {HEIGHT}"'
    yield f'<svg xmlns="http://www.w3.org/2000/svg" {box} font-family="sans-serif" font-size="12">'
    yield f'<rect width="{WIDTH}" height="{HEIGHT}" fill="white"/>'
    yield f'<text x="{LEFT}" y="24" font-size="15">{escape(title)}</text>'
    for count in range(round(scale.most / scale.step) + 1):
        number, y = count * scale.step, scale.down(count * scale.step)
        yield f'<line x1="{LEFT}" x2="{WIDTH - RIGHT}" y1="{y:.1f}" y2="{y:.1f}" stroke="#dddddd"/>'
        yield f'<text x="{LEFT - 8}" y="{y + 4:.1f}" text-anchor="end">{number:g}</text>'
    for epoch, _ in points:
        x, year = scale.across(epoch), first + epoch - 1
        if year % 5 == 0:
            yield f'<text x="{x:.1f}" y="{HEIGHT - 16}" text-anchor="middle">{year}</text>'
    places = [f'{scale.across(epoch):.1f},{scale.down(number):.1f}' for epoch, number in points]
    yield f'<polyline points="{" ".join(places)}" fill="none" stroke="#1f5fa8" stroke-width="2"/>'
    for place in places:
        x, y = place.split(',')
        yield f'<circle cx="{x}" cy="{y}" r="2.5" fill="#1f5fa8"/>'
    yield '</svg>'


def main():
    parser = argparse.ArgumentParser(description='Draws a series as SVG.')
    parser.add_argument('--title', required=True)
    parser.add_argument('--first', type=int, default=1)
    asked = parser.parse_args()
    points = [(int(epoch), float(number)) for epoch, number in (line.split() for line in sys.stdin)]
    if not points:
        sys.exit('no epoch has this line')
    print('\n'.join(picture(points, asked.title, asked.first)))


if __name__ == '__main__':
    main()
