#!/usr/bin/env python3
"""Draws speed.svg and memory.svg from measured.csv, all beside this script; prints the numbers.

usage: pictures.py

Colours are middle tones that can be read on any ground; where the reader's setting is known, text
is darker or lighter."""
import csv, math, os, textwrap
from xml.sax.saxutils import escape

HERE = os.path.dirname(os.path.abspath(__file__))
WIDTH = 720
STYLE = '''
text { font: 13px system-ui, -apple-system, "Segoe UI", Helvetica, Arial, sans-serif;
  fill: #787c82 }
.head { font-size: 16px; font-weight: 600 }
.note { font-size: 12px }
.program { font-family: ui-monospace, Menlo, Consolas, monospace; font-size: 12px }
.own { font-weight: 600 }
.ion { fill: #3b82d6 } .other { fill: #8d929a }
.line { fill: none; stroke: #3b82d6; stroke-width: 2.5 }
.grid { stroke: #8d929a; stroke-opacity: .3 } .axis { stroke: #8d929a }
@media (prefers-color-scheme: light) { text { fill: #1f2328 } .note, .soft { fill: #59636e } }
@media (prefers-color-scheme: dark) { text { fill: #e6edf3 } .note, .soft { fill: #9da7b1 } }
'''


# The works of the table in the words of the picture.
NAMES = {'text to text': 'text to canonical text', 'text checked': 'text, only checked',
         'text to binary': 'text to canonical binary', 'binary to text': 'binary to canonical text'}


class Picture:
    """Parts of a picture, each in a line of its own."""

    def __init__(self, title, tells):
        self.title, self.tells, self.parts = title, tells, []

    def text(self, x, y, words, kind='', anchor=''):
        kind = f' class="{kind}"' if kind else ''
        anchor = f' text-anchor="{anchor}"' if anchor else ''
        end = '\n>' if len(words) > 40 else '>'
        self.parts.append(f'<text x="{x:.1f}" y="{y:.1f}"{anchor}{kind}{end}'
                          f'{escape(words)}</text>')

    def line(self, x1, y1, x2, y2, kind):
        self.parts.append(f'<line x1="{x1:.1f}" y1="{y1:.1f}" x2="{x2:.1f}" y2="{y2:.1f}" '
                          f'class="{kind}"/>')

    def shape(self, points, kind):
        spelled = ' '.join(f'{x:.1f},{y:.1f}' for x, y in points)
        self.parts.append(f'<polygon points="{spelled}" class="{kind}"/>')

    def write(self, name, height):
        tells = '\n'.join(textwrap.wrap(escape(self.tells), 80))
        head = (f'<svg xmlns="http://www.w3.org/2000/svg" width="{WIDTH}" height="{height:.0f}"\n'
                f'viewBox="0 0 {WIDTH} {height:.0f}" role="img" aria-labelledby="t d">\n'
                f'<title id="t">{escape(self.title)}</title>\n'
                f'<desc id="d">{tells}</desc>\n<style>{STYLE}</style>\n')
        with open(f'{HERE}/{name}', 'w', newline='\n') as file:
            file.write(head + '\n'.join(self.parts) + '\n</svg>\n')


def rows_of(part):
    with open(f'{HERE}/measured.csv', newline='') as file:
        return [row for row in csv.DictReader(file) if row['part'] == part]


def best_speeds():
    """MB/s of the best run by processor time, by program and work; their bytes; the records."""
    best, sizes, records, runs = {}, {}, 0, 0
    for row in rows_of('speed'):
        if row['value']:
            continue
        key, size = (row['name'], row['work']), int(row['bytes'])
        speed = size / 1e6 / float(row['processor_s'])
        best[key], sizes[key] = max(speed, best.get(key, 0)), size
        records, runs = int(row['records']), max(runs, int(row['run']))
    return best, sizes, records, runs


def number(x):
    return f'{x:,.0f}' if x >= 9.95 else f'{x:.1f}'


def draw_speed(about):
    best, sizes, records, runs = best_speeds()
    groups = []
    for work, command in (('text to text', 'show'), ('text checked', 'check'),
                          ('text to binary', 'convert'), ('binary to text', 'show')):
        groups.append((NAMES[work], [(f'ion {command}', ('ion', work)), ('yard', ('yard', work))]))
    groups.append(('the same records as JSON', [('jq -c .', ('jq', 'JSON to JSON'))]))
    groups.append(('the text, only copied', [('cat', ('cat', 'text copied'))]))
    groups = [(work, [bar for bar in bars if bar[1] in best]) for work, bars in groups]
    groups = [(work, bars) for work, bars in groups if bars]
    most = max(speed for (name, _), speed in best.items() if name != 'cat')
    step = next(s for s in (10, 20, 25, 50, 100, 200, 250, 500, 1000) if most / s <= 6)
    end = step * math.ceil(most / step)
    told = '; '.join(f'{work}: ' + ', '.join(f'{label} {number(best[key])}' for label, key in bars)
                     for work, bars in groups)
    picture = Picture('Speed in MB/s of input', f'Bars, longer is faster. MB/s: {told}.')
    left, right, top, row = 284, 648, 46, 21
    picture.text(16, 26, 'Speed: MB of input a second, longer is faster', 'head')
    bottom = top + sum(len(bars) * row + 9 for _, bars in groups)
    at = lambda speed: left + (right - left) * speed / end
    for tick in range(0, end + 1, step):
        picture.line(at(tick), bottom, at(tick), bottom + 4, 'axis')
        picture.text(at(tick), bottom + 18, f'{tick:,}', 'soft', 'middle')
    picture.line(left, top, left, bottom, 'axis')
    picture.line(left, bottom, at(end), bottom, 'axis')
    picture.text(left - 12, bottom + 18, 'MB/s of input', 'soft', 'end')
    y = top + 6
    for work, bars in groups:
        picture.text(16, y + len(bars) * row / 2 + 3, work)
        for label, key in bars:
            own = key[0] == 'ion'
            picture.text(left - 8, y + 13, label, 'program own' if own else 'program', 'end')
            x, under, kind = at(best[key]), y + row - 3, 'ion' if own else 'other'
            if best[key] <= end:
                picture.shape([(left, y), (x, y), (x, under), (left, under)], kind)
            else:  # longer than the picture: cut by a slanted gap
                x, cut = right + 4, right - 26
                picture.shape([(left, y), (cut + 4, y), (cut - 4, under), (left, under)], kind)
                picture.shape([(cut + 10, y), (x, y), (x, under), (cut + 2, under)], kind)
            picture.text(x + 6, y + 13, number(best[key]), 'own' if own else '')
            y += row
        y += 9
    jq = about['jq --version'].replace('-', ' ')
    notes = [f'{sizes["cat", "text copied"] / 1e6:.0f} MB of text, {records:,} records of a log; '
             'MB are those of each program\'s own input.',
             f'Processor time (user and system), best of {runs} runs in turn, to /dev/null. '
             'cat\'s bar is cut.']
    if ('jq', 'JSON to JSON') in best:
        notes.append(f'{jq} does another job: the same records as JSON, with floats and no '
                     'canonical form.')
    if about['yard'].startswith('plain'):
        notes.append('yard is plain Rust written for speed: the same checks, the same output, '
                     'nothing proved.')
    notes.append(f'{about["date"][:10]}, {about["processor"]}, {about["cores"]} cores, '
                 f'load {about["load at the start"].split()[0]} at the start.')
    y = bottom + 43
    for note in notes:
        picture.text(16, y, note, 'note')
        y += 17
    picture.write('speed.svg', y)
    print('| work | program | MB/s of input | records a second |\n|---|---|---|---|')
    for work, bars in groups:
        for label, key in bars:
            seconds = sizes[key] / 1e6 / best[key]
            print(f'| {work} | `{label}` | {number(best[key])} | {records / seconds:,.0f} |')


def size_of(n):
    return f'{n / 1e9:.0f} GB' if n >= 9.5e8 else f'{n / 1e6:.0f} MB'


def draw_memory(about):
    most = {}
    for row in rows_of('memory'):
        if not row['value']:
            size, peak = int(row['bytes']), int(row['peak_kb']) * 1024 / 1e6
            most[size] = max(peak, most.get(size, 0))
    if not most:
        return print('\nno picture of memory: the table has no measurements of it')
    sizes = sorted(most)
    end = 2 * math.ceil(max(most.values()) / 2 + .5)
    told = ', '.join(f'{size_of(size)} {most[size]:.1f}' for size in sizes)
    picture = Picture('Peak resident memory of ion against the size of the input',
                      f'A flat line. MB of memory by size of the text: {told}.')
    left, right, top, bottom = 70, 690, 50, 210
    low = math.log10(sizes[0])
    wide = (right - left - 64) / max(math.log10(sizes[-1]) - low, 1)
    at = lambda size: left + 32 + wide * (math.log10(size) - low)
    up = lambda peak: bottom - (bottom - top) * peak / end
    picture.text(16, 26, 'Memory: the peak of ion, whatever the size of the input', 'head')
    for tick in range(0, end + 1):
        picture.line(left, up(tick), right, up(tick), 'grid' if tick else 'axis')
        picture.text(left - 8, up(tick) + 4, f'{tick} MB', 'soft', 'end')
    points = ' '.join(f'{at(size):.1f},{up(most[size]):.1f}' for size in sizes)
    picture.parts.append(f'<polyline points="{points}" class="line"/>')
    for size in sizes:
        picture.parts.append(f'<circle cx="{at(size):.1f}" cy="{up(most[size]):.1f}" r="4.5" '
                             'class="ion"/>')
        picture.text(at(size), up(most[size]) + 20, f'{most[size]:.1f} MB', 'own', 'middle')
        picture.text(at(size), bottom + 18, size_of(size), 'soft', 'middle')
    picture.text((left + right) / 2, bottom + 36, 'size of the text that is read', 'soft', 'middle')
    y = bottom + 62
    for note in ('Resident memory of the whole process at its peak, its code and the system\'s '
                 'library too:',
                 'the highest of ion show, ion check and ion convert, by default limits.',
                 'The text is a log, again and again through a pipe. 1 MB is 1,000,000 bytes.',
                 f'{about["date"][:10]}, {about["system"].split("-")[0]}.'):
        picture.text(16, y, note, 'note')
        y += 17
    picture.write('memory.svg', y)
    print(f'\n| text | peak of memory |\n|---|---|')
    for size in sizes:
        print(f'| {size_of(size)} | {most[size]:.2f} MB |')


def main():
    about = {row['name']: row['value'] for row in rows_of('about')}
    draw_speed(about)
    draw_memory(about)


main()
