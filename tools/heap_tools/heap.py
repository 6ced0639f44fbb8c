"""The heap by its rules, for callers that come one after another: the same replies as the program's, with the reason of each.

It is written from docs/heap-rules.md and docs/formats.md alone, so that what a tool says does not rest on the program. Where a
reply that was read differs from the one found here, the tools say so."""
from bisect import bisect_left, bisect_right, insort
from dataclasses import dataclass, field

from . import rules
from .layers import MASK, BackEnd, Draws, LargeArea, Span, VsLayer, count
from .rules import GRANULE, LFH_START, PAGE, SEGMENT_PAGES, VS_START

LOCK_DEPTH = 65_535
GRANULES_A_PAGE = PAGE // GRANULE


@dataclass(slots=True)
class Block:
    address: int
    size: int
    layer: str
    first: int              # first page of its span, or of itself in the large area
    granules: int = 0       # of its place, in the variable-size layer
    name: str = None


@dataclass
class Answer:
    """A reply, and why it is so: the layer and short sentences. The changes are for films."""
    what: object
    layer: str = None
    why: list = field(default_factory=list)
    block: Block = None
    words: int = 0
    blocks: tuple = ()
    is_new: bool = False    # the block was placed by this call


class Heap:
    """The heap. A caller is a slot and a generator of draws; the calls come one after another."""

    def __init__(self, segments=16, large_pages=0, seed=1, slots=1):
        self.back = BackEnd(segments)
        self.vs = VsLayer()
        self.large = LargeArea(segments * SEGMENT_PAGES, large_pages)
        self.seed, self.slots = seed, slots
        self.draws, self.drawn = {}, 0
        self.blocks = {}                                # by address
        self.asked = 0                                  # bytes of all live blocks
        self.active = set()
        self.live = [0] * (rules.BUCKETS + 1)           # live blocks of the variable-size layer
        self.served = [0] * (rules.BUCKETS + 1)
        self.hints, self.heads = {}, {}                 # by bucket and slot
        self.data = {}
        self.depth = {}

    # Allocation.

    def alloc(self, size, caller=0, zero=False, name=None):
        why = []
        block = self.new_block(size, caller, why)
        if block is None:
            return Answer('nofit', None, why)
        block.name = name
        if zero:
            self.clear(block.address, 0, rules.words_of(size))
        return Answer(block.address, block.layer, why, block, is_new=True)

    def clear(self, address, start, end):
        for i in range(start, end):
            self.data.pop((address >> 3) + i, None)

    def new_block(self, size, caller, why):
        """A live block of this size, or None where no range fits."""
        bucket = rules.bucket_of(size)
        if bucket is not None:
            return self.small_block(size, bucket, caller, why)
        layer = rules.route(size)
        if layer == 'vs':
            why.append(f'{count(size, "byte")}, too large for a bucket: variable size')
            return self.vs_block(size, why)
        if layer == 'back':
            return self.back_block(size, why)
        return self.large_block(size, why)

    def small_block(self, size, bucket, caller, why):
        live, served = self.live[bucket], self.served[bucket]
        if bucket not in self.active and (live >= rules.DUE_LIVE or served >= rules.DUE_SERVED):
            cause = f'{live} of its blocks live in the variable-size layer' if live >= rules.DUE_LIVE else f'{served:,} of its blocks were placed there'
            why.append(f'bucket {bucket} was due ({cause}) and becomes active')
            self.active.add(bucket)
        elif bucket in self.active:
            why.append(f'bucket {bucket} is active')
        else:
            why.append(f'bucket {bucket} is inactive ({live} of {rules.DUE_LIVE} live, {served:,} of {rules.DUE_SERVED:,} placed)')
        if bucket in self.active:
            block = self.lfh_block(size, bucket, caller, why)
            if block is not None:
                return block
            why.append('so the request goes to the variable-size layer')
        return self.vs_block(size, why)

    def lfh_block(self, size, bucket, caller, why):
        slot = caller % self.slots
        draw = self.draws.setdefault(caller, Draws(self.seed, caller)).draw()
        self.drawn += 1
        key = bucket, slot
        head = self.hints.get(key)
        if head is not None:
            index = self.pick(head, draw)
            if index is not None:
                why.append(f'block {index} of the hinted subsegment at page {head}, by the draw {draw:08x}')
                return self.claim(head, index, size)
        for other in self.heads.get(key, ()):
            index = self.pick(other, draw)
            if index is not None:
                why.append(f'the hinted subsegment is full; the next with a free block is at page {other}: block {index}, by the draw {draw:08x}')
                self.hints[key] = other
                return self.claim(other, index, size)
        why.append('no subsegment of the bucket has a free block' if key in self.heads else 'the bucket has no subsegment yet')
        span = Span('lfh', 0, 0, bucket, slot, [0] * rules.up(rules.block_count(bucket), 64))
        if not self.back.take(rules.subsegment_pages(bucket), span, why):
            return None
        insort(self.heads.setdefault(key, []), span.first)
        self.hints[key] = span.first
        index = self.pick(span.first, draw)
        why.append(f'a new subsegment at page {span.first}: block {index}, by the draw {draw:08x}')
        return self.claim(span.first, index, size)

    def pick(self, head, draw):
        """The block that the draw picks in a subsegment, or None where all are taken."""
        span = self.back.spans[head]
        blocks, words = rules.block_count(span.bucket), span.taken
        for k in range(len(words)):
            i = (draw // 64 + k) % len(words)
            valid = (1 << min(64, blocks - 64 * i)) - 1
            free = valid & ~words[i]
            if free:
                start = draw % 64
                late = free >> start << start
                bit = (late or free) & -(late or free)
                return 64 * i + bit.bit_length() - 1
        return None

    def claim(self, head, index, size):
        span = self.back.spans[head]
        span.taken[index // 64] |= 1 << index % 64
        span.blocks += 1
        return self.made(Block(PAGE * head + LFH_START + index * rules.block_size(span.bucket), size, 'lfh', head))

    def made(self, block):
        self.blocks[block.address] = block
        self.asked += block.size
        return block

    def vs_block(self, size, why):
        granules = rules.granules_of(size)
        gap = self.vs.best(granules)
        if gap is None:
            why.append(f'no gap has {granules:,} granules' if self.vs.index else 'the layer has no gap')
            pages = rules.vs_pages(granules)
            span = Span('vs', 0, 0)
            if not self.back.take(pages, span, why):
                return None
            first = span.first * GRANULES_A_PAGE + VS_START // GRANULE
            self.vs.add_gap(first, GRANULES_A_PAGE * pages - VS_START // GRANULE)
            why.append(f'a new subsegment of {pages} pages at page {span.first}')
            start = first
        else:
            has, start = gap
            alike = bisect_right(self.vs.index, (has, MASK)) - bisect_left(self.vs.index, (has, -1))
            tie = f', the lowest of {alike} alike' if alike > 1 else ''
            why.append(f'the smallest gap that has {granules:,} granules: {has:,} at {start * GRANULE:#x}{tie}')
        got = self.vs.place(start, granules)
        if got > granules:
            why.append('it takes the whole gap, as less than 2 granules would remain')
        span = self.vs_span(start)
        span.blocks += 1
        bucket = rules.bucket_of(size)
        if bucket is not None:
            self.live[bucket] += 1
            self.served[bucket] = min(rules.DUE_SERVED, self.served[bucket] + 1)
        return self.made(Block(start * GRANULE + GRANULE, size, 'vs', span.first, got))

    def vs_span(self, granule):
        """The subsegment in which a granule lies."""
        page = granule // GRANULES_A_PAGE
        while page not in self.back.spans:
            page -= 1
        return self.back.spans[page]

    def back_block(self, size, why):
        span = Span('back', 0, 0, blocks=1)
        why.append(f'{count(size, "byte")}, too large for the variable-size layer: {rules.pages_of(size)} pages of the back end')
        if not self.back.take(rules.pages_of(size), span, why):
            return None
        return self.made(Block(PAGE * span.first, size, 'back', span.first))

    def large_block(self, size, why):
        pages = rules.pages_of(size)
        why.append(f'{count(size, "byte")}, too large for the back end: {count(pages, "page")} of the large area')
        first = self.large.take(pages)
        if first is None:
            longest = max((n for _, n in self.large.gaps()), default=0)
            why.append(f'refused: no run of the large area has {count(pages, "page")} (the longest has {longest:,})')
            return None
        why.append(f'the lowest run of the large area that has {count(pages, "page")}, at page {first}')
        return self.made(Block(PAGE * first, size, 'large', first))

    # What is asked of a live block.

    def at(self, address, why):
        block = self.blocks.get(address)
        if block is None:
            why.append(self.why_not_live(address))
        return block

    def why_not_live(self, address):
        if address == 0:
            return 'the address is 0: the name was never given a block, or its request was refused'
        inside = self.inside(address)
        if inside is not None:
            return f'no block begins there: it lies in the block at {inside.address:#x}'
        return 'no live block begins there'

    def inside(self, address):
        """The live block in which an address lies, or None. Asked only where something is told, so a walk serves."""
        return next((it for it in self.blocks.values() if it.address < address < it.address + max(1, it.size)), None)

    def free(self, address):
        why = []
        block = self.at(address, why)
        if block is None:
            return Answer('notlive', None, why)
        self.drop(block, why)
        return Answer('ok', block.layer, why, block)

    def drop(self, block, why):
        del self.blocks[block.address]
        self.asked -= block.size
        if block.layer == 'vs':
            self.drop_vs(block, why)
        elif block.layer == 'lfh':
            span = self.back.spans[block.first]
            index = (block.address - PAGE * span.first - LFH_START) // rules.block_size(span.bucket)
            span.taken[index // 64] &= ~(1 << index % 64)
            span.blocks -= 1
            left = f'{span.blocks} left' if span.blocks else 'the last one; the subsegment stays until the heap is compacted'
            why.append(f'block {index} of the subsegment at page {span.first} of bucket {span.bucket} is free again, {left}')
        elif block.layer == 'back':
            self.drop_span(block.first)
            why.append(f'{count(rules.pages_of(block.size), "page")} go back from page {block.first} on, and stay committed')
        else:
            self.large.drop(block.first)
            why.append(f'{count(rules.pages_of(block.size), "page")} of the large area go back')

    def drop_span(self, first):
        """Ends a span. A hint that names its page is forgotten."""
        self.back.drop_span(first)
        for key in [key for key, head in self.hints.items() if head == first]:
            del self.hints[key]

    def drop_vs(self, block, why):
        span = self.back.spans[block.first]
        span.blocks -= 1
        start, granules = self.vs.drop(block.address // GRANULE - 1, block.granules)
        bucket = rules.bucket_of(block.size)
        if bucket is not None:
            self.live[bucket] -= 1
        if span.blocks == 0:
            self.vs.drop_gap(start)
            pages = span.pages
            self.drop_span(span.first)
            why.append(f'the last block of its subsegment: {count(pages, "page")} go back from page {block.first} on, and stay committed')
        elif granules > block.granules:
            why.append(f'its place joins the free space beside it: a gap of {granules:,} granules at {start * GRANULE:#x}')
        else:
            why.append(f'its place is a gap of {granules:,} granules at {start * GRANULE:#x}')

    def size(self, address):
        why = []
        block = self.at(address, why)
        return Answer('notlive', None, why) if block is None else Answer(block.size, block.layer, why, block)

    def word(self, address, index):
        """The block and the number of its word, or a refusal."""
        why = []
        block = self.at(address, why)
        if block is None:
            return None, Answer('notlive', None, why)
        words = rules.words_of(block.size)
        if index >= words:
            return None, Answer('past', block.layer, [f'the block has {count(words, "word")}, numbered from 0'], block, words)
        return block, (address >> 3) + index

    def get(self, address, index):
        block, at = self.word(address, index)
        return at if block is None else Answer(self.data.get(at, 0), block.layer, [], block)

    def put(self, address, index, value):
        block, at = self.word(address, index)
        if block is None:
            return at
        self.data[at] = value
        return Answer('ok', block.layer, [], block)

    # Another size.

    def realloc(self, address, size, caller=0, in_place=False):
        why = []
        block = self.at(address, why)
        if block is None:
            return Answer('notlive', None, why)
        if self.stays(block, size, why):
            self.resize(block, size)
            return Answer(block.address, block.layer, why, block)
        if in_place:
            return Answer('noroom', block.layer, why, block)
        old = block.size
        new = self.new_block(size, caller, why)
        if new is None:
            return Answer('nofit', None, why)
        for i in range(rules.words_of(min(old, size))):
            value = self.data.get((address >> 3) + i, 0)
            if value:
                self.data[(new.address >> 3) + i] = value
            else:
                self.data.pop((new.address >> 3) + i, None)
        new.name = block.name
        self.drop(block, gone := [])
        why += ['the old block: ' + it for it in gone]
        return Answer(new.address, new.layer, why, new, is_new=True)

    def stays(self, block, size, why):
        """Whether the block keeps its address at this size."""
        if block.layer == 'lfh':
            most = rules.block_size(self.back.spans[block.first].bucket)
            stays = size <= rules.LFH_MOST and size <= most
            why.append(f'blocks of its bucket hold {most:,} bytes: it {"stays" if stays else "moves"}')
        elif block.layer == 'vs':
            room = block.granules + self.vs.gaps.get(block.address // GRANULE - 1 + block.granules, 0)
            need = rules.granules_of(size)
            stays = size <= rules.VS_MOST and need <= room
            why.append(f'its place and the gap behind it have {room:,} granules, and {need:,} are needed: it {"stays" if stays else "moves"}')
        else:
            has = self.back.room_behind(block.first) if block.layer == 'back' else self.large.room_behind(block.first)
            fits = rules.VS_MOST < size <= rules.BACK_MOST if block.layer == 'back' else size > rules.BACK_MOST
            need = rules.pages_of(size)
            stays = fits and need <= has
            cause = f'its pages and the free ones behind it are {has:,}, and {need:,} are needed' if fits else 'the size belongs to another layer'
            why.append(f'{cause}: it {"stays" if stays else "moves"}')
        if not stays:
            why[-1] = why[-1].replace(': it moves', ': it does not stay')
        return stays

    def resize(self, block, size):
        old, block.size = block.size, size
        self.asked += size - old
        if block.layer == 'vs':
            start = block.address // GRANULE - 1
            room = block.granules
            if start + room in self.vs.gaps:
                room += self.vs.drop_gap(start + room)
            need = rules.granules_of(size)
            block.granules = need if room - need >= 2 else room
            if block.granules < room:
                self.vs.add_gap(start + block.granules, room - block.granules)
            for bucket, by in ((rules.bucket_of(old), -1), (rules.bucket_of(size), 1)):
                if bucket is not None:
                    self.live[bucket] += by
        elif block.layer == 'back':
            self.back.resize(block.first, rules.pages_of(size))
        elif block.layer == 'large':
            self.large.resize(block.first, rules.pages_of(size))

    # The heap lock, a walk, compaction.

    def lock(self, caller=0):
        if self.depth.get(caller, 0) == LOCK_DEPTH:
            return Answer('depth', None, [f'the lock is held {LOCK_DEPTH:,} deep, which is the most'])
        self.depth[caller] = self.depth.get(caller, 0) + 1
        return Answer('ok', None, [f'held {self.depth[caller]} deep'])

    def unlock(self, caller=0):
        if not self.depth.get(caller, 0):
            return Answer('notowner', None, ['the lock is not held'])
        self.depth[caller] -= 1
        return Answer('ok', None, [f'held {self.depth[caller]} deep' if self.depth[caller] else 'given back'])

    def walk(self, caller=0):
        if not self.depth.get(caller, 0):
            return Answer('notlocked', None, ['a walk needs the heap lock'])
        return Answer('end', None, [], blocks=tuple((it.address, it.size, it.layer) for _, it in sorted(self.blocks.items())))

    def compact(self):
        empty = [first for first, span in sorted(self.back.spans.items()) if span.kind == 'lfh' and span.blocks == 0]
        for first in empty:
            span = self.back.spans[first]
            key = span.bucket, span.slot
            self.heads[key].remove(first)
            hinted = self.hints.get(key) == first
            self.back.drop_span(first)
            if not self.heads[key]:
                del self.heads[key]
                self.hints.pop(key, None)
            elif hinted:
                self.hints[key] = self.heads[key][0]
        pages = 0
        for first, length in self.back.free.items():
            pages += self.back.count_committed(first, length)
            self.back.committed[first:first + length] = bytes(length)
        gone = f'{count(len(empty), "empty subsegment")} of the front end went back, and ' if empty else ''
        return Answer(pages, None, [f'{gone}{count(pages, "free page")} {"is" if pages == 1 else "are"} no longer committed'])

    def serve(self, command, address, caller=0):
        """The answer to a command of a script at this address."""
        word, numbers = command.word, command.numbers
        if word in ('alloc', 'zalloc'):
            return self.alloc(numbers[0], caller, word == 'zalloc', command.name)
        if word in ('realloc', 'inplace'):
            return self.realloc(address, numbers[0], caller, word == 'inplace')
        if word in ('free', 'size'):
            return getattr(self, word)(address)
        if word == 'get':
            return self.get(address, numbers[0])
        if word == 'put':
            return self.put(address, *numbers)
        if word == 'compact':
            return self.compact()
        return getattr(self, word)(caller)
