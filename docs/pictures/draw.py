#!/usr/bin/env python3
"""Draws the two pictures of README.md beside this file. Offsets are those of the specification's worked disc."""
from pathlib import Path
from xml.sax.saxutils import escape

DARK = dict(header='#1f3a5f', block='#1e6b3a', table='#9a5b00', index='#5b2a86')
LIGHT = dict(header='#dfe8f3', block='#dcefe2', table='#fbe9cc', index='#ecdff6')
TEXT, MUTED, PALE = '#20242a', '#4a5058', '#8a8f98'
MARGIN = 28


class Picture:
    def __init__(self, width, height, title, description):
        self.lines = [
            f'<svg xmlns="http://www.w3.org/2000/svg" viewBox="0 0 {width} {height}" width="{width}" height="{height}" role="img" '
            'aria-labelledby="title desc" font-family="DejaVu Sans, Verdana, sans-serif">',
            f'<title id="title">{escape(title)}</title>',
            f'<desc id="desc">{escape(description)}</desc>',
            '<defs>',
            *(f'<marker id="to-{kind}" viewBox="0 0 10 10" refX="9" refY="5" markerWidth="7" markerHeight="7" orient="auto">'
              f'<path d="M0 0 10 5 0 10z" fill="{colour}"/></marker>' for kind, colour in DARK.items()),
            '<pattern id="free" width="8" height="8" patternUnits="userSpaceOnUse" patternTransform="rotate(45)">'
            '<path d="M0 0V8" stroke="#e3e6ea" stroke-width="3"/></pattern>',
            '</defs>',
            f'<rect x="0.5" y="0.5" width="{width - 1}" height="{height - 1}" rx="10" fill="#fff" stroke="#d0d5db"/>',
        ]

    def text(self, x, y, words, size=12, colour=MUTED, anchor='start', **more):
        more = ''.join(f' {name.replace("_", "-")}="{value}"' for name, value in more.items())
        self.lines.append(f'<text x="{x:g}" y="{y:g}" font-size="{size}" fill="{colour}" text-anchor="{anchor}"{more}>{escape(words)}</text>')

    def box(self, x, y, width, height, fill, stroke, stroke_width=2, dash='none'):
        self.lines.append(f'<rect x="{x:g}" y="{y:g}" width="{width:g}" height="{height}" rx="2" fill="{fill}" stroke="{stroke}" '
                          f'stroke-width="{stroke_width}" stroke-dasharray="{dash}"/>')

    def arrow(self, start, end, y, bend, kind, width=2):
        """From one x to another at the same height, bent upwards where `bend` is negative."""
        self.lines.append(f'<path d="M{start:g} {y:g}C{start:g} {y + bend:g} {end:g} {y + bend:g} {end:g} {y:g}" fill="none" '
                          f'stroke="{DARK[kind]}" stroke-width="{width}" marker-end="url(#to-{kind})"/>')

    def write(self, name):
        Path(__file__).with_name(name).write_text('\n'.join([*self.lines, '</svg>', '']))


def image_layout():
    p = Picture(1208, 322, 'An AaruFormat image', 'The header names the index; the index names the table and every data block; '
                'an entry of the table names an item of a block, which is the sector.')
    top, height = 132, 86
    x = MARGIN

    def record(kind, name, lines, width):
        nonlocal x
        p.box(x, top, width, height, LIGHT[kind], DARK[kind])
        p.text(x + 9, top + 21, name, 13.5, DARK[kind], font_weight='bold')
        for n, line in enumerate(lines):
            p.text(x + 9, top + 39 + 15 * n, line, 11, DARK[kind])
        x += width
        return x - width

    def cell(kind, lines, width, **more):
        """Answers where its middle is."""
        nonlocal x
        p.box(x, top, width, height, '#fff', DARK[kind])
        for n, line in enumerate(lines):
            p.text(x + width / 2, top + height / 2 + 4 + 14 * (n - (len(lines) - 1) / 2), line, 11, DARK[kind], 'middle', **more)
        x += width
        return x - width / 2

    p.text(MARGIN, 36, 'The header names the index, the index names the table and the data blocks, a table entry names an item: '
           'that is the sector.', 14.5, TEXT, font_weight='bold')
    record('header', 'header', ['identifier, application,', 'versions, media type', '104 bytes'], 156)
    index_offset = cell('header', ['indexOffset'], 88, font_weight='bold')
    cell('header', ['two', 'times'], 52)
    x += 14
    block = record('block', 'data block', ["'DBLK', size of a sector,", 'length, two checksums', '36 bytes, then the items'], 160)
    items = [cell('block', ['item', str(n)], 54) for n in range(3)]
    x += 14
    table = record('table', 'table', ["'DDT*', shift, count,", 'two checksums', '49 bytes, then 8 each'], 142)
    entries = [cell('table', ['entry', str(n)], 46) for n in range(3)]
    x += 14
    index = record('index', 'index', ["'IDX2', count,", 'a checksum', '20, then 16 each'], 112)
    names = [cell('index', ['entry', kind], 50) for kind in ('DDT*', 'DBLK')]

    above, below = top - 3, top + height + 3
    p.arrow(index_offset, index + 30, above, -86, 'header', 2.5)
    p.text(index_offset + 66, top - 74, 'offset of the index in force', 11.5, DARK['header'])
    for entry, end, bend in ((0, items[0] + 6, -48), (1, items[0] - 8, -58), (2, items[1], -48)):
        p.arrow(entries[entry], end, above, bend, 'table')
    p.text((items[1] + entries[0]) / 2 + 8, top - 12, 'block offset, item number', 11.5, DARK['table'], 'middle')
    p.arrow(names[0], table + 60, below, 46, 'index')
    p.arrow(names[1], block + 60, below, 92, 'index')
    p.text(block + 112, below + 21, 'type and offset of each block and of the table', 11.5, DARK['index'])
    p.text(MARGIN, below + 89, 'Behind the header, records may stand in any order and with gaps between them. All numbers are little-endian; equal sectors share an item.')
    p.write('image-layout.svg')


# kind, start, end, and for a table what its entries point to
RECORDS = [('header', 0, 104, ''), ('table', 104, 177, '– – –'), ('index', 177, 213, ''), ('block', 213, 257, ''),
           ('table', 257, 330, 'A – B'), ('index', 330, 382, ''), ('table', 382, 455, 'A A B'), ('index', 455, 507, '')]
# call, what it does, `used` after it, the index, table and block in force
CALLS = [
    ('create, 3 sectors', 'the header, a table of three entries that are 0, an index of one entry', 213, 177, 104, None),
    ('commit, addresses 0 and 2: AAAA, BBBB', 'appends a block with both sectors, a new table, a new index; then sets the header', 382, 330, 257, 213),
    ('commit, address 1: AAAA', 'AAAA is on the disc already: no block; a new table and a new index', 507, 455, 382, 213),
    ('rollback to 330', 'sets the header and nothing else: address 1 is not written again, and 455 can be had back', 507, 330, 257, 213),
]
ROW, SCALE = 152, 1.98


def at(offset):
    return MARGIN + offset * SCALE


def commit_and_rollback():
    p = Picture(1150, 108 + ROW * len(CALLS), 'What a commit appends and a rollback undoes', 'Four states of one buffer: after creating, '
                'after two commits, after a rollback to the first of them.')
    p.text(MARGIN, 36, 'What a commit appends, and what a rollback undoes', 16, TEXT, font_weight='bold')
    p.text(MARGIN, 56, 'One buffer after each of four calls. Offsets in bytes, to scale; filled records are in force, pale ones are kept and '
           'can be rolled back to.')
    for row, (call, effect, used, index, table, block) in enumerate(CALLS):
        top, height = 140 + row * ROW, 40
        p.text(MARGIN, top - 48, call, 13.5, TEXT, font_weight='bold')
        p.text(MARGIN + 8.5 * len(call) + 18, top - 48, effect)
        p.box(MARGIN, top, 553 * SCALE, height, 'url(#free)', '#c3c8cf', 1)
        for kind, start, end, entries in RECORDS:
            if end <= used:
                draw_record(p, top, height, kind, start, end, entries, index, start in (0, index, table, block))
        p.text(at(used) - 11, top + height + 15, f'{used} = used', 10.5, TEXT, font_weight='bold')
        middle = at(index + (18 if index == 177 else 26))
        p.arrow(at(84), middle - 5, top - 3, -44, 'header', 2.5)
        p.arrow(middle, at(table + 36), top + height + 3, 34, 'index', 1.8)
        if block:
            p.arrow(middle + 10, at(block + 22), top + height + 3, 58 if index == 455 else 46, 'index', 1.8)
    p.text(MARGIN, 88 + ROW * len(CALLS), 'A table is shown by what its entries point to: A is the item AAAA, B is BBBB, – is an entry of 0, not written.')
    p.write('commit-and-rollback.svg')


def draw_record(p, top, height, kind, start, end, entries, index, in_force):
    colour = DARK[kind] if in_force else PALE
    if in_force:
        p.box(at(start), top, (end - start) * SCALE, height, LIGHT[kind], DARK[kind])
    else:
        p.box(at(start), top, (end - start) * SCALE, height, '#f7f8f9', '#b5bac2', 1.2, '4 3')
    second = {'header': f'indexOffset {index}', 'block': 'AAAA BBBB', 'table': entries, 'index': ''}[kind]
    middle = at((start + end) / 2)
    p.text(middle, top + (17 if second else 24), kind, 12, colour, 'middle', font_weight='bold')
    if second:
        p.text(middle, top + 32, second, 10.5, colour, 'middle')
    p.text(at(start), top + height + 15, str(start), 10.5, MUTED, 'middle' if start else 'start')


image_layout()
commit_and_rollback()
