"""Draws a state of the heap in parts: strips of SVG of one width, which a page stacks, and the same in letters for a terminal."""
from dataclasses import dataclass
from functools import lru_cache
from html import escape

from . import rules
from .rules import LFH_START, PAGE, SEGMENT_PAGES, VS_START

ROW = 32                    # pages of a row of the map
CELL, HIGH = 34, 24         # of a page, and of a block of the front end
BAND = 11                   # above a page in the map, for the name of its span
LEFT = 92                   # room for the labels at the left
WIDTH = LEFT + ROW * CELL + 4
SPAN = ROW * CELL

STYLE = """
text{font:11px system-ui,'DejaVu Sans',Arial,sans-serif;fill:#222}
.h{font-weight:600;font-size:13px}.s{fill:#555}.t{font-size:9px}.w{fill:#fff}
rect{stroke:none}.pg{stroke:#b9bec5;stroke-width:.6}
.header{fill:#c9cdd2}.free{fill:#fff}.kept{fill:#e3e7ec}
.vs{fill:#d6e6f8}.lfh{fill:#fbe3c0}.back{fill:#e4d5ef}.large{fill:#f3d2d6}
.vs1{fill:#2f6fb3}.lfh1{fill:#c26a12}.back1{fill:#77459b}.large1{fill:#a8404e}
.vs2{fill:#1b4674}.slot{stroke:#d9a15a;stroke-width:.6}
.edge{stroke:#333;stroke-width:1.4}.mark{fill:none;stroke:#d4002a;stroke-width:2.4}
"""

NAMES = {'vs': 'variable size (VS)', 'lfh': 'low-fragmentation (LFH)', 'back': 'back end', 'large': 'large area'}


@dataclass(frozen=True)
class Part:
    """A strip: its height and its SVG."""
    height: int
    svg: str


def hex_of(n):
    return f'{n:#x}'


def called(block):
    """A block in words, for a title."""
    name = f'{block[3]}: ' if block[3] else ''
    return f'{name}{block[1]:,} bytes at {block[0]:#x}'


def key_of(block):
    """A block as a tuple: address, size, layer, name, start, bytes."""
    return block.address, block.size, block.layer, block.name, block.start, block.bytes


def text(x, y, words, kind=''):
    return f'<text x="{x:g}" y="{y}"{f" class={chr(34)}{kind}{chr(34)}" if kind else ""}>{escape(words)}</text>'


def box(x, y, wide, high, kind, title=''):
    inner = f'<title>{escape(title)}</title></rect>' if title else ''
    head = f'<rect x="{x:g}" y="{y:g}" width="{wide:g}" height="{high:g}" class="{kind}"'
    return f'{head}>{inner}' if title else head + '/>'


def bare(x, y, wide, high, kind):
    """A box that lies over others and leaves hovering to them."""
    return f'<rect x="{x:.1f}" y="{y}" width="{wide:.1f}" height="{high}" class="{kind}" pointer-events="none"/>'


def fitting(words, wide, size=5.6):
    """The words where they fit a width, or their front."""
    most = int(wide / size)
    return words if len(words) <= most else words[:most - 1] + '…' if most > 3 else ''


def parts_of(state, mark=None):
    """The parts of a whole picture. The block at the address mark is outlined."""
    found = [legend(sum(it.layer != 'large' for it in state.blocks()), len(state.large), state.is_exact)]
    spans = {it.first: it for it in state.runs}
    for segment in state.segments:
        found += segment_parts(segment, [it for first, it in spans.items() if first // SEGMENT_PAGES == segment], mark)
    for run in state.runs:
        if run.kind == 'vs':
            found += vs_parts(run, mark)
        elif run.kind == 'lfh':
            found += lfh_parts(run, mark)
    if state.large:
        found.append(large_part(state, mark))
    if not state.segments and not state.large:
        found.append(Part(30, text(4, 18, 'No segment is reserved, and no block lives.')))
    return found


@lru_cache(maxsize=None)
def legend(blocks, large, is_exact):
    """What the colours mean."""
    svg, x = [], 4
    rows = [('header', 'segment header'), ('free', 'free, not committed'), ('kept', 'free, committed'), ('vs1', 'VS block'), ('vs', 'VS gap'),
            ('lfh1', 'LFH block'), ('lfh', 'LFH free block'), ('back1', 'back-end block'), ('back', 'unused end')]
    if large:
        rows.append(('large1', 'large block'))
    for kind, words in rows:
        svg.append(box(x, 4, 15, 13, f'{kind} pg') + text(x + 20, 15, words, 's'))
        x += 34 + 6 * len(words)
    if not is_exact:
        svg.append(text(4, 34, 'From an output alone: the front of a VS gap may belong to the block before it, 16 bytes at most.', 's'))
    return Part(26 if is_exact else 42, ''.join(svg))


def segment_parts(segment, runs, mark):
    """The map of a segment: a heading and rows of pages."""
    held = sum(it.pages for it in runs if it.kind != 'free')
    kept = sum(it.committed for it in runs if it.kind == 'free')
    free = rules.SERVING_PAGES - held
    start = segment * SEGMENT_PAGES
    words = f'Segment {segment}'
    more = f'pages {start} to {start + 255}, from {hex_of(start * PAGE)} on: {held} held, {free} free ({kept} of them committed)'
    found = [Part(26, text(4, 19, words, 'h') + text(LEFT, 19, more, 's'))]
    for first in range(start, start + SEGMENT_PAGES, ROW):
        inside = tuple(run_key(it, first, mark) for it in runs if it.first < first + ROW and it.first + it.pages > first)
        found.append(map_row(first, inside))
    return found


def run_key(run, row, mark):
    """What a row of the map shows of a run."""
    low, high = row * PAGE, (row + ROW) * PAGE
    blocks = tuple(key_of(it) + (it.address == mark,) for it in run.blocks if it.start < high and it.end > low)
    return run.kind, run.first, run.pages, run.bucket, run.slot, run.committed, run.marks, len(run.blocks), blocks


def is_kept(run, page):
    """Whether a free page is committed; where a report tells only how many are, None unless it is all or none."""
    kind, first, pages, _, _, committed, marks = run[:7]
    if marks is not None:
        return bool(marks[page - first])
    return True if committed == pages else False if committed == 0 else None


def page_title(run, page):
    if run is None:
        return f'page {page} at {hex_of(page * PAGE)}: header of segment {page // SEGMENT_PAGES}'
    kind, first, pages, bucket, slot, committed, _, blocks = run[:8]
    head = f'page {page} at {hex_of(page * PAGE)}, {page - first + 1} of {pages} of '
    if kind == 'free':
        kept = is_kept(run, page)
        said = {True: 'committed', False: 'not committed', None: f'{committed} of the run are committed'}[kept]
        return f'{head}a free run; {said}'
    if kind == 'lfh':
        return f'{head}an LFH subsegment of bucket {bucket} ({rules.block_size(bucket):,} bytes), slot {slot}: {blocks} of {rules.block_count(bucket)} blocks taken'
    if kind == 'vs':
        return f'{head}a VS subsegment with {blocks} block{"" if blocks == 1 else "s"}'
    return f'{head}a back-end block'


@lru_cache(maxsize=None)
def map_row(first, runs):
    """A row of pages: each page a cell with its number on hover, the taken bytes dark inside."""
    svg = [text(4, BAND + 14, f'page {first}', 's')]
    at = 0
    for page in range(first, first + ROW):
        while at < len(runs) and runs[at][1] + runs[at][2] <= page:
            at += 1
        run = runs[at] if at < len(runs) and runs[at][1] <= page else None
        kind = 'header' if run is None else 'kept' if run[0] == 'free' and is_kept(run, page) is not False else run[0]
        svg.append(box(LEFT + (page - first) * CELL, BAND, CELL, HIGH - 3, f'{kind} pg', page_title(run, page)))
    for run in runs:
        svg += taken_in_row(run, first)
    for run in runs:
        svg += run_edge(run, first)
    return Part(BAND + HIGH, ''.join(svg))


def taken_in_row(run, row):
    """The taken bytes of a run in a row, neighbours drawn as one."""
    kind, low = run[0], row * PAGE
    high, scale = low + ROW * PAGE, CELL / PAGE
    pieces = []
    for address, size, _, _, start, length, _ in run[8]:
        end = start + length if kind in ('vs', 'lfh') else address + size
        start, end = max(start, low), min(end, high)
        if pieces and start - pieces[-1][1] < 0.35 / scale:
            pieces[-1][1] = end
        else:
            pieces.append([start, end])
    svg = []
    for start, end in pieces:
        svg.append(bare(LEFT + (start - low) * scale, BAND + 3, max(0.7, (end - start) * scale), HIGH - 9, f'{kind}1'))
    for address, size, _, _, start, length, marked in run[8]:
        if marked:
            start, end = max(start, low), min(start + length, high)
            svg.append(bare(LEFT + (start - low) * scale - 1, BAND + 1, max(2, (end - start) * scale + 2), HIGH - 5, 'mark'))
    return svg


def run_edge(run, row):
    """The first edge of a run, and its name above where it begins in this row."""
    kind, first, pages, bucket = run[:4]
    if not row <= first < row + ROW:
        return []
    x = LEFT + (first - row) * CELL
    room = (min(first + pages, row + ROW) - first) * CELL - 5
    block = run[8][0] if kind == 'back' and run[8] else None
    words = {'free': f'free {pages}', 'vs': f'VS {pages}', 'lfh': f'LFH {pages}, bucket {bucket}', 'back': f'back {pages}'}[kind]
    if block is not None:
        words += f', {block[3]}: {block[1]:,}' if block[3] else f', {block[1]:,}'
    shown = words if 5 * len(words) <= room else {'lfh': f'LFH {bucket}', 'vs': 'VS'}.get(kind) or fitting(words, room, 5)
    return [f'<path d="M{x} 1V{HIGH + BAND - 2}" class="edge"/>', text(x + 3, BAND - 2, shown, 't')]


def vs_parts(run, mark):
    """A subsegment of the variable-size layer, a page a row; pages in the midst of one block or gap are told in words."""
    gaps = run.gaps()
    most = max((n for _, n in gaps), default=0)
    blocks = len(run.blocks)
    words = f'VS subsegment at page {run.first}'
    more = f'{pages_in(run)}, {counted(blocks, "block")}, {counted(len(gaps), "gap")}' + (f', the largest of {most:,} bytes' if gaps else '')
    found = [Part(28, text(4, 21, words, 'h') + text(LEFT + 130, 21, more, 's'))]
    chunks = [(run.start, VS_START, None, False)]
    chunks += [(it.start, it.bytes, key_of(it), it.address == mark) for it in run.blocks] + [(a, n, None, False) for a, n in gaps]
    chunks.sort(key=lambda it: it[0])
    at, skipped = 0, []
    for page in range(run.first, run.first + run.pages):
        low, high = page * PAGE, (page + 1) * PAGE
        while chunks[at][0] + chunks[at][1] <= low:
            at += 1
        inside = [it for it in chunks[at:at + 300] if it[0] < high]
        if len(inside) == 1 and inside[0][0] < low and inside[0][0] + inside[0][1] >= high and page + 1 < run.first + run.pages:
            skipped.append((page, inside[0]))
            continue
        found += told(skipped)
        skipped = []
        found.append(chunk_row(page, tuple(inside)))
    return found + told(skipped)


def told(skipped):
    """Pages that lie in one chunk, in words."""
    if not skipped:
        return []
    first, last, (_, length, block, _) = skipped[0][0], skipped[-1][0], skipped[0][1]
    pages = f'page {first}' if first == last else f'pages {first} to {last}'
    return [Part(18, text(LEFT, 13, f'{pages}: ' + (f'in the block {called(block)}' if block else f'in a gap of {length:,} bytes'), 's'))]


@lru_cache(maxsize=None)
def chunk_row(page, chunks):
    """A page of a subsegment: places with their header in front, and gaps."""
    low, scale = page * PAGE, SPAN / PAGE
    svg = [text(4, 15, f'page {page}', 's')]
    for start, length, block, marked in chunks:
        begin, end = max(start, low), min(start + length, low + PAGE)
        x, wide = LEFT + (begin - low) * scale, (end - begin) * scale
        if block is None and start % PAGE == 0 and length == VS_START:
            svg.append(box(x, 1, wide, 20, 'header pg', f'first {VS_START} bytes of the subsegment, at {hex_of(start)}'))
        elif block is None:
            svg.append(box(x, 1, wide, 20, 'vs pg', f'gap of {length:,} bytes ({length // 16:,} granules) at {hex_of(start)}'))
            svg.append(label(x, wide, f'gap {length:,}', 's'))
        else:
            title = f'{called(block)}, in {length:,} bytes with its header ({length // 16:,} granules)'
            svg.append(box(x, 1, wide, 20, 'vs1 pg', title))
            if begin == start:
                svg.append(bare(x, 1, 16 * scale, 20, 'vs2'))
            svg.append(label(x + 16 * scale, wide - 16 * scale, (f'{block[3]} ' if block[3] else '') + f'{block[1]:,}', 'w'))
        if marked:
            svg.append(bare(x, 1, wide, 20, 'mark'))
    return Part(24, ''.join(svg))


def label(x, wide, words, kind):
    shown = fitting(words, wide - 4)
    return f'<g pointer-events="none">{text(x + 3, 15, shown, kind)}</g>' if shown else ''


def lfh_parts(run, mark):
    """A subsegment of the front end: a cell for each block, in order."""
    size, count = rules.block_size(run.bucket), rules.block_count(run.bucket)
    words = f'LFH subsegment at page {run.first}'
    more = f'bucket {run.bucket} of {size:,} bytes, slot {run.slot}, {run.pages} page{"" if run.pages == 1 else "s"}: {len(run.blocks)} of {count} blocks taken'
    found = [Part(28, text(4, 21, words, 'h') + text(LEFT + 130, 21, more, 's'))]
    taken = {(it.address - run.start - LFH_START) // size: it for it in run.blocks}
    for first in range(0, count, ROW):
        cells = tuple((i, key_of(taken[i]) + (taken[i].address == mark,) if i in taken else None) for i in range(first, min(count, first + ROW)))
        found.append(slot_row(run.start + LFH_START, size, cells))
    return found


@lru_cache(maxsize=None)
def slot_row(base, size, cells):
    svg = [text(4, 17, f'block {cells[0][0]}', 's')]
    for k, (i, block) in enumerate(cells):
        x = LEFT + k * CELL
        if block is None:
            svg.append(box(x, 1, CELL, HIGH, 'lfh slot', f'block {i} at {hex_of(base + i * size)}: free, {size:,} bytes'))
            svg.append(f'<g pointer-events="none">{text(x + 3, 11, str(i), "t")}</g>')
        else:
            svg.append(box(x, 1, CELL, HIGH, 'lfh1 slot', f'block {i}, {called(block)} of {size:,}'))
            svg.append(f'<g pointer-events="none">{text(x + 3, 11, str(i), "t w")}{text(x + 3, 21, fitting(block[3] or f"{block[1]:,}", CELL - 2, 5), "t w")}</g>')
            if block[6]:
                svg.append(bare(x + 1, 2, CELL - 2, HIGH - 2, 'mark'))
    return Part(HIGH + 3, ''.join(svg))


def large_part(state, mark):
    """The large area as one bar."""
    start = state.large_start if state.large_start is not None else state.large[0].first
    end = start + state.large_pages if state.large_pages is not None else state.large[-1].first + state.large[-1].pages
    scale = SPAN / max(1, end - start)
    held = sum(it.pages for it in state.large)
    known = f'{end - start:,} pages' if state.large_pages is not None else 'as far as its last block'
    more = f'{known}, from {hex_of(start * PAGE)} on: {counted(held, "page")} in {counted(len(state.large), "block")}'
    svg = [text(4, 21, 'Large area', 'h'), text(LEFT, 21, more, 's')]
    svg.append(box(LEFT, 30, SPAN, 26, 'free pg', f'large area: pages {start} to {end - 1}'))
    for run in state.large:
        x, wide = LEFT + (run.first - start) * scale, run.pages * scale
        block = key_of(run.blocks[0]) if run.blocks else None
        svg.append(box(x, 30, wide, 26, 'large1 pg', f'pages {run.first} to {run.first + run.pages - 1}: {called(block) if block else "a large block"}'))
        if block:
            svg.append(f'<g transform="translate(0 32)">{label(x, wide, (f"{block[3]} " if block[3] else "") + f"{block[1]:,}", "w")}</g>')
            if block[0] == mark:
                svg.append(bare(x, 30, wide, 26, 'mark'))
    return Part(64, ''.join(svg))


def svg_of(parts, title):
    """One SVG of all parts, for a file of its own."""
    at, rows = 34, []
    for part in parts:
        rows.append(f'<g transform="translate(0 {at})">{part.svg}</g>')
        at += part.height
    head = f'<svg xmlns="http://www.w3.org/2000/svg" viewBox="-12 -8 {WIDTH + 24} {at + 16}" width="{WIDTH + 24}" height="{at + 16}">'
    ground = '<rect x="-12" y="-8" width="100%" height="100%" fill="#fff"/>'
    return f'{head}<title>{escape(title)}</title><style>{STYLE}</style>{ground}{text(4, 18, title, "h")}{"".join(rows)}</svg>\n'


# The same in letters.

PAINT = {'header': '100', 'free': '0', 'kept': '47;30', 'vs': '44;97', 'lfh': '43;30', 'back': '45;97', 'large': '41;97'}
LETTER = {'free': '.', 'kept': ':', 'vs': 'v', 'lfh': 'l', 'back': 'b', 'large': 'g'}


def painted(pieces, colour):
    """Letters with their kinds, neighbours of one kind painted as one."""
    out, at = [], 0
    while at < len(pieces):
        end = at
        while end < len(pieces) and pieces[end][1] == pieces[at][1]:
            end += 1
        letters = ''.join(it for it, _ in pieces[at:end])
        out.append(f'\033[{PAINT[pieces[at][1]]}m{letters}\033[0m' if colour and pieces[at][1] else letters)
        at = end
    return ''.join(out)


LETTERS = ['pages: # header  . free  : free and committed  V v variable size (VS)  L l low-fragmentation (LFH)',
           '       B b back end; a capital begins a span']


def letters_of(state, colour, mark=None):
    """The picture in lines of text."""
    lines = []
    for segment in state.segments:
        runs = [it for it in state.runs if it.first // SEGMENT_PAGES == segment]
        lines += segment_letters(segment, runs, colour)
    for run in state.runs:
        if run.kind == 'vs':
            lines += vs_letters(run, colour, mark)
        elif run.kind == 'lfh':
            lines += lfh_letters(run, colour, mark)
        elif run.kind == 'back':
            lines += [f'back page {run.first}, {pages_in(run)}: {called(key_of(it))}, {it.bytes - it.size:,} unused{" <" if it.address == mark else ""}'
                      for it in run.blocks]
    for run in state.large:
        lines += [f'large page {run.first}, {pages_in(run)}: {called(key_of(it))}{" <" if it.address == mark else ""}' for it in run.blocks]
    if not state.segments and not state.large:
        lines.append('no segment is reserved, and no block lives')
    return lines


def counted(n, word):
    return f'{n:,} {word}{"" if n == 1 else "s"}'


def pages_in(run):
    return counted(run.pages, 'page')


def segment_letters(segment, runs, colour):
    start = segment * SEGMENT_PAGES
    cells = [('#', 'header')] * SEGMENT_PAGES
    for run in runs:
        for page in range(run.first, run.first + run.pages):
            kind = run.kind
            if kind == 'free' and is_kept((kind, run.first, run.pages, 0, 0, run.committed, run.marks), page) is not False:
                kind = 'kept'
            letter = LETTER[kind]
            cells[page - start] = (letter.upper() if page == run.first and kind in ('vs', 'lfh', 'back') else letter, kind)
    lines = [f'segment {segment}']
    for first in range(0, SEGMENT_PAGES, 64):
        lines.append(f'{start + first:>6} {painted(cells[first:first + 64], colour)}')
    return lines


def vs_letters(run, colour, mark):
    """A bar of 64 cells, each a share of the subsegment, and the gaps."""
    wide, cells = (run.end - run.start) / 64, []
    for k in range(64):
        low, high = run.start + k * wide, run.start + (k + 1) * wide
        taken = sum(max(0, min(high, it.end) - max(low, it.start)) for it in run.blocks)
        marked = any(it.address == mark and it.start < high and it.end > low for it in run.blocks)
        letter = '<' if marked else '█' if taken > 0.98 * wide else '▓' if taken > 0.5 * wide else '▒' if taken else '·'
        cells.append((letter, None))
    gaps = sorted(run.gaps(), key=lambda it: -it[1])
    said = '; no gap'
    if gaps:
        said = f'; {len(gaps)} gaps, the largest' if len(gaps) > 1 else '; a gap of'
        said += f' {gaps[0][1]:,} bytes at {gaps[0][0]:#x}'
    return [f'vs page {run.first}, {pages_in(run)}: {counted(len(run.blocks), "block")}{said}', f'{"":7}{painted(cells, colour)}']


def lfh_letters(run, colour, mark):
    size, count = rules.block_size(run.bucket), rules.block_count(run.bucket)
    taken = {(it.address - run.start - LFH_START) // size: it for it in run.blocks}
    cells = [('<' if taken[i].address == mark else '█', None) if i in taken else ('·', None) for i in range(count)]
    lines = [f'lfh page {run.first}, {pages_in(run)}: bucket {run.bucket} of {size:,} bytes, slot {run.slot}, {len(taken)} of {count} blocks']
    for first in range(0, count, 64):
        lines.append(f'{first:>6} {painted(cells[first:first + 64], colour)}')
    return lines
