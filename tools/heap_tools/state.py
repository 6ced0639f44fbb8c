"""What a heap holds at one moment: runs of pages, blocks and the bytes that they hold. From a report, or from the heap of the rules."""
from dataclasses import dataclass, field

from . import rules
from .rules import GRANULE, PAGE, VS_START


@dataclass(slots=True)
class Held:
    """A live block and the bytes that it holds, from start on; in the variable-size layer with its header."""
    address: int
    size: int
    layer: str
    start: int
    bytes: int
    name: str = None

    @property
    def end(self):
        return self.start + self.bytes


@dataclass(slots=True)
class Pages:
    """A span, a free run, or a block of the large area."""
    kind: str
    first: int
    pages: int
    bucket: int = 0
    slot: int = 0
    committed: int = 0      # pages of a free run that are committed
    marks: bytes = None     # which ones, where that is known
    blocks: list = field(default_factory=list)

    @property
    def start(self):
        return self.first * PAGE

    @property
    def end(self):
        return (self.first + self.pages) * PAGE

    def gaps(self):
        """The free bytes of a subsegment of the variable-size layer, as start and length."""
        found, at = [], self.start + VS_START
        for block in self.blocks:
            if block.start > at:
                found.append((at, block.start - at))
            at = block.end
        if self.end > at:
            found.append((at, self.end - at))
        return found


@dataclass
class State:
    segments: list = field(default_factory=list)    # numbers of the reserved ones
    runs: list = field(default_factory=list)        # in the order of pages
    large: list = field(default_factory=list)
    large_start: int = None                         # first page and pages of the large area, where known
    large_pages: int = None
    is_exact: bool = True                           # False where places of the variable-size layer may hold 16 bytes more

    def blocks(self):
        return [it for run in self.runs + self.large for it in run.blocks]


def held(address, size, layer, bucket=0, granules=0, name=None):
    """A block with the bytes that it holds."""
    if layer == 'lfh':
        return Held(address, size, layer, address, rules.block_size(bucket), name)
    if layer == 'vs':
        return Held(address, size, layer, address - GRANULE, GRANULE * (granules or rules.granules_of(size)), name)
    return Held(address, size, layer, address, PAGE * rules.pages_of(size), name)


def of_report(report):
    """The state that a report tells. A place of the variable-size layer is given the granules that its size needs, and one more
    where a single granule is left before the next place or the end."""
    state = State(list(report.segments), is_exact=False)
    state.runs = [Pages(it.kind, it.first, it.pages, it.bucket, it.slot, it.committed) for it in report.runs]
    state.large = [Pages('large', it.first, it.pages) for it in report.large]
    spans = [it for it in state.runs if it.kind != 'free'] + state.large
    spans.sort(key=lambda it: it.first)
    at = 0
    for block in report.blocks:
        while at < len(spans) and spans[at].end <= block.address:
            at += 1
        if at == len(spans) or spans[at].start > block.address:
            continue
        spans[at].blocks.append(held(block.address, block.size, block.layer, spans[at].bucket))
    for span in spans:
        if span.kind == 'vs':
            fill_single_granules(span)
    return state


def fill_single_granules(span):
    for block, behind in zip(span.blocks, [*(it.start for it in span.blocks[1:]), span.end]):
        if behind - block.end == GRANULE:
            block.bytes += GRANULE


def of_heap(heap):
    """The state of the heap of the rules."""
    back = heap.back
    state = State(list(range(back.reserved)), large_start=heap.large.start, large_pages=heap.large.pages)
    state.runs = [Pages(it.kind, it.first, it.pages, it.bucket, it.slot) for it in back.spans.values()]
    for first, pages in back.free.items():
        marks = bytes(back.committed[first:first + pages])
        state.runs.append(Pages('free', first, pages, committed=marks.count(1), marks=marks))
    state.runs.sort(key=lambda it: it.first)
    state.large = [Pages('large', first, pages) for first, pages in heap.large.runs]
    spans = {it.first: it for it in state.runs + state.large}
    for _, block in sorted(heap.blocks.items()):
        span = spans[block.first]
        span.blocks.append(held(block.address, block.size, block.layer, span.bucket, block.granules, block.name))
    return state


def differs(state, report):
    """Where a report and the state of the rules differ, in words, or None."""
    told = [(it.kind, it.first, it.pages, it.bucket, it.slot, it.committed) for it in report.runs]
    found = [(it.kind, it.first, it.pages, it.bucket, it.slot, it.committed) for it in state.runs]
    if list(report.segments) != state.segments:
        return f'the output has {len(report.segments)} reserved segments, and the rules give {len(state.segments)}'
    for a, b in zip(told, found):
        if a != b:
            return f'the output has a run {a[0]} at page {a[1]} of {a[2]} pages where the rules give {b[0]} at page {b[1]} of {b[2]} pages'
    blocks = [(it.address, it.size, it.layer) for it in state.blocks()]
    for a, b in zip([(it.address, it.size, it.layer) for it in report.blocks], blocks):
        if a != b:
            return f'the output has a block at {a[0]:#x} of {a[1]} bytes where the rules give one at {b[0]:#x} of {b[1]} bytes'
    if len(told) != len(found) or len(report.blocks) != len(blocks):
        return 'the output has another number of runs or blocks than the rules give'
    return None


def sums(state):
    """The numbers of each layer: blocks, bytes asked and held, pages, and what is lost inside and between blocks."""
    found = {}
    for layer in rules.LAYERS:
        runs = state.large if layer == 'large' else [it for it in state.runs if it.kind == layer]
        blocks = [it for run in runs for it in run.blocks]
        asked, holds = sum(it.size for it in blocks), sum(it.bytes for it in blocks)
        pages = sum(it.pages for it in runs)
        row = {'blocks': len(blocks), 'asked': asked, 'held': holds, 'pages': pages, 'inside': holds - asked, 'between': pages * PAGE - holds}
        row['runs'] = len(runs)
        if layer == 'vs':
            row['largest_free'] = max((n for run in runs for _, n in run.gaps()), default=0)
        if layer == 'lfh':
            row['free_blocks'] = sum(rules.block_count(it.bucket) - len(it.blocks) for it in runs)
        found[layer] = row
    free = [it for it in state.runs if it.kind == 'free']
    pages = {
        'segments': len(state.segments),
        'header': rules.HEADER_PAGES * len(state.segments),
        'free': sum(it.pages for it in free),
        'free_committed': sum(it.committed for it in free),
        'largest_free': max((it.pages for it in free), default=0),
    }
    pages['committed'] = pages['free_committed'] + sum(it.pages for it in state.runs if it.kind != 'free')
    whole = {key: sum(row[key] for row in found.values()) for key in ('blocks', 'asked', 'held', 'pages', 'inside', 'between')}
    return {'layers': found, 'pages': pages, 'all': whole}
