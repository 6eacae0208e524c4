#!/usr/bin/env python3
"""Draws the two-contact sheet: reads the bits of two-contact.sheet and writes docs/two-contact.svg. `draw.py --check` only
compares.

What the drawing says (states, outputs, conditions, priorities, waits) is read from the sheet; the names come from make.py,
and the table below says only where things stand. A transition home, which each state but 0 has in the same form, is drawn
once as a rule.
"""
import os
import sys
from html import escape

sys.dont_write_bytecode = True
import make

HERE = os.path.dirname(os.path.abspath(__file__))
DRAWING = os.path.join(os.path.dirname(HERE), 'docs', 'two-contact.svg')


# ---- Reading a sheet (an accepted one: `chz check` says whether it is)

class Bits:
    def __init__(self, data):
        self.text = ''.join(format(byte, '08b') for byte in data)
        self.at = 0

    def take(self, width):
        value = int(self.text[self.at:self.at + width], 2)
        self.at += width
        return value


def read_condition(bits):
    tag = bits.take(2)
    if tag == 0:
        return bits.take(4)
    return (['not', 'and', 'or'][tag - 1],) + tuple(read_condition(bits) for _ in range(1 if tag == 1 else 2))


def read_sheet(data):
    bits = Bits(data)
    states, inputs, outputs, transitions = bits.take(5) + 1, bits.take(4) + 1, bits.take(4) + 1, bits.take(7) + 1
    rows = [[a for a in range(outputs) if bits.take(1)] for _ in range(states)]
    arcs = [(bits.take(5), bits.take(5), bits.take(7), bits.take(24), read_condition(bits)) for _ in range(transitions)]
    return inputs, rows, arcs


def words(c, inputs, outer=True):
    if isinstance(c, int):
        return inputs[c]
    if c[0] == 'not':
        return 'NOT ' + words(c[1], inputs, False)
    text = f'{words(c[1], inputs, False)} {c[0].upper()} {words(c[2], inputs, False)}'
    return text if outer else f'({text})'


# ---- Where things stand

WIDTH, HEIGHT = 1600, 815
X = [150, 475, 800, 1125, 1450]
HALF = 105

# state: centre, and half of its height
STATES = {0: (X[2], 70, 36), 1: (X[2], 245, 62), 2: (X[1], 450, 36), 3: (X[3], 450, 36), 4: (X[0], 450, 36), 5: (X[4], 450, 36),
          6: (X[2], 755, 36), 7: (X[3], 755, 36), 8: (X[2], 605, 36)}

# transition: the corners of its way; then where its label begins (or ends: 'end') and its second line stands
WAYS = {
    (0, 1): ([(800, 106), (800, 183)], (812, 150, 'start')),
    (1, 8): ([(765, 307), (765, 569)], (755, 345, 'end')),
    (1, 2): ([(695, 295), (510, 295), (510, 414)], (683, 287, 'end')),
    (1, 3): ([(905, 295), (1090, 295), (1090, 414)], (917, 287, 'start')),
    (2, 1): ([(440, 414), (440, 262), (695, 262)], (430, 398, 'end')),
    (3, 1): ([(1160, 414), (1160, 262), (905, 262)], (1170, 398, 'start')),
    (2, 4): ([(370, 450), (255, 450)], (312, 440, 'middle')),
    (3, 5): ([(1230, 450), (1345, 450)], (1288, 440, 'middle')),
    (2, 8): ([(475, 486), (475, 605), (695, 605)], (485, 512, 'start')),
    (3, 8): ([(1125, 486), (1125, 605), (905, 605)], (1115, 512, 'end')),
    (4, 1): ([(150, 414), (150, 229), (695, 229)], (160, 398, 'start')),
    (5, 1): ([(1450, 414), (1450, 229), (905, 229)], (1440, 398, 'end')),
    (6, 1): ([(695, 755), (25, 755), (25, 196), (695, 196)], (683, 745, 'end')),
    (7, 1): ([(1230, 755), (1575, 755), (1575, 196), (905, 196)], (1242, 745, 'start')),
    (6, 7): ([(905, 755), (1020, 755)], (962, 745, 'middle')),
    (8, 1): ([(835, 569), (835, 307)], (845, 553, 'start')),
    (8, 6): ([(800, 641), (800, 719)], (812, 685, 'start')),
}

# One colour for each different row of outputs, in the order of the states.
COLOURS = [('#eef0f3', '#5c6773'), ('#e6f0fb', '#2c6cb0'), ('#fdeaea', '#b3362f'), ('#e7f6ea', '#2b8246'), ('#fff6dd', '#94710a')]


def round_way(points, radius=14):
    def toward(p, q, by):
        dx, dy = q[0] - p[0], q[1] - p[1]
        length = abs(dx) + abs(dy)
        return p[0] + dx * by / length, p[1] + dy * by / length

    d = f'M{points[0][0]},{points[0][1]}'
    for before, corner, after in zip(points, points[1:], points[2:]):
        a, b = toward(corner, before, radius), toward(corner, after, radius)
        d += f' L{a[0]:g},{a[1]:g} Q{corner[0]},{corner[1]} {b[0]:g},{b[1]:g}'
    return d + f' L{points[-1][0]},{points[-1][1]}'


def label(x, y, anchor, priority, text, wait):
    drawn = (f'<text class="label" x="{x}" y="{y}" text-anchor="{anchor}"><tspan class="rank">{priority}</tspan>'
             f'<tspan dx="7">{escape(text)}</tspan></text>\n')
    if wait:
        drawn += f'<text class="wait" x="{x}" y="{y + 28}" text-anchor="{anchor}">after {wait} ms</text>\n'
    return drawn


def draw(data, described):
    inputs, outputs, names = described['inputs'], described['outputs'], list(described['states'])
    count, rows, arcs = read_sheet(data)
    if count != len(inputs) or len(rows) != len(names):
        sys.exit('the sheet and its description do not fit')
    home = [arc for arc in arcs if arc[1] == 0]
    if [arc[0] for arc in home] != list(range(1, len(rows))) or {arc[2:] for arc in home} != {(0, 0, ('not', 0))}:
        sys.exit('not one transition home of the one form for each state')
    others = [arc for arc in arcs if arc[1] != 0]
    if {arc[:2] for arc in others} != set(WAYS):
        sys.exit('the table WAYS has other transitions than the sheet')

    kinds = []
    for row in rows:
        if row not in kinds:
            kinds.append(row)

    s = f'''<svg xmlns="http://www.w3.org/2000/svg" viewBox="0 0 {WIDTH} {HEIGHT}" width="{WIDTH}" height="{HEIGHT}" role="img"
 aria-label="The two-contact sheet: {len(rows)} states, {len(arcs)} transitions">
<style>
text {{ font-family: "DejaVu Sans", Verdana, sans-serif; fill: #1d232a; }}
.name {{ font-size: 17px; font-weight: bold; }}
.out {{ font-size: 15px; }}
.label {{ font-size: 15px; }}
.wait {{ font-size: 14px; font-style: italic; }}
.rank {{ font-weight: bold; fill: #8a4b00; }}
.note {{ font-size: 15px; fill: #444c56; }}
.way {{ fill: none; stroke: #444c56; stroke-width: 1.7; marker-end: url(#tip); }}
.home {{ stroke-dasharray: 7 5; }}
</style>
<defs><marker id="tip" viewBox="0 0 10 10" refX="9.2" refY="5" markerWidth="9" markerHeight="9" orient="auto">
<path d="M0,0.8 L10,5 L0,9.2 z" fill="#444c56"/></marker></defs>
<rect width="{WIDTH}" height="{HEIGHT}" fill="#ffffff"/>
'''
    # The rule for all transitions home.
    x, y, half = STATES[0]
    first, last = home[0][0], home[-1][0]
    s += f'<rect x="330" y="{y - 24}" width="170" height="48" rx="24" fill="none" stroke="#444c56" stroke-width="1.7" stroke-dasharray="7 5"/>\n'
    s += f'<text class="out" x="415" y="{y + 6}" text-anchor="middle">each of {first} to {last}</text>\n'
    s += f'<path class="way home" d="M500,{y} L{x - HALF},{y}"/>\n'
    s += label(512, y - 10, 'start', 0, words(home[0][4], inputs), 0)

    for source, destination, priority, wait, c in others:
        points, (lx, ly, anchor) = WAYS[source, destination]
        s += f'<path class="way" d="{round_way(points)}"/>\n'
        s += label(lx, ly, anchor, priority, words(c, inputs), wait)

    for state, row in enumerate(rows):
        x, y, half = STATES[state]
        fill, stroke = COLOURS[kinds.index(row) % len(COLOURS)]
        true = ', '.join(outputs[a] for a in row) or 'no output'
        s += (f'<rect x="{x - HALF}" y="{y - half}" width="{2 * HALF}" height="{2 * half}" rx="14" fill="{fill}" stroke="{stroke}" '
              f'stroke-width="2"/>\n')
        s += f'<text class="name" x="{x}" y="{y - 4}" text-anchor="middle">{state} {escape(names[state])}</text>\n'
        s += f'<text class="out" x="{x}" y="{y + 20}" text-anchor="middle">{escape(true)}</text>\n'

    s += f'''<text class="note" x="1130" y="56">In a box: the state, and the outputs true in it.</text>
<text class="note" x="1130" y="80">On an arrow: its priority (0 goes first), its condition,</text>
<text class="note" x="1130" y="104">and where it has one, its wait.</text>
</svg>
'''
    return s


if __name__ == '__main__':
    with open(os.path.join(HERE, 'two-contact.sheet'), 'rb') as file:
        drawn = draw(file.read(), make.TWO_CONTACT)
    if '--check' not in sys.argv:
        with open(DRAWING, 'w', encoding='utf-8') as file:
            file.write(drawn)
    with open(DRAWING, encoding='utf-8') as file:
        if file.read() != drawn:
            sys.exit('docs/two-contact.svg is not what draw.py draws')
    print('docs/two-contact.svg: as drawn')
