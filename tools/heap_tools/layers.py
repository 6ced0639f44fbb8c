"""The parts of the heap of the rules: draws, segments with their spans, gaps, the large area. Each gives its reasons in words."""
from bisect import bisect_left, insort
from dataclasses import dataclass

from . import rules
from .rules import SEGMENT_PAGES

MASK = 2**64 - 1


class Draws:
    """The draws of a caller: PCG32 of the heap's seed and the caller's stream."""
    STEP = 6364136223846793005

    def __init__(self, seed, stream):
        self.add = (stream << 1 | 1) & MASK
        self.state = (seed + self.add) * self.STEP + self.add & MASK

    def draw(self):
        state = self.state
        self.state = state * self.STEP + self.add & MASK
        word = ((state >> 18 ^ state) >> 27) & 0xFFFFFFFF
        turn = state >> 59
        return (word >> turn | word << (-turn & 31)) & 0xFFFFFFFF


@dataclass(slots=True)
class Span:
    """Pages that a layer holds."""
    kind: str
    first: int
    pages: int
    bucket: int = 0
    slot: int = 0
    taken: list = None      # bitmap words of a subsegment of the front end
    blocks: int = 0         # live blocks in it


class BackEnd:
    """Segments, committed pages and spans."""

    def __init__(self, segments):
        self.segments, self.reserved = segments, 0
        self.committed = bytearray(segments * SEGMENT_PAGES)
        self.spans = {}
        self.free = {}          # free runs: first page and number of pages
        self.free_ends = {}     # the page behind each free run, and its first page
        self.used = 0           # pages of all spans

    def add_free(self, first, pages):
        self.free[first] = pages
        self.free_ends[first + pages] = first

    def drop_free(self, first):
        pages = self.free.pop(first)
        del self.free_ends[first + pages]
        return pages

    def count_committed(self, first, pages):
        return self.committed.count(1, first, first + pages)

    def longest(self):
        return max(self.free.values(), default=0)

    def take(self, pages, span, why):
        """Gives the span its pages by best fit. False where no range fits; then nothing changed."""
        fits = [(length, -self.count_committed(first, length), first) for first, length in self.free.items() if length >= pages]
        if fits:
            length, marks, first = min(fits)
            why.append(best_fit_reason(fits, pages, length, -marks, first))
        elif self.reserved < self.segments and pages <= rules.SERVING_PAGES:
            first = self.reserved * SEGMENT_PAGES + rules.HEADER_PAGES
            why.append(f'no free run has {count(pages, "page")}: segment {self.reserved} is reserved for it')
            self.reserved += 1
            self.add_free(first, rules.SERVING_PAGES)
        else:
            why.append(f'refused: no free run has {count(pages, "page")} (the longest has {self.longest()}), and no segment is left to reserve')
            return False
        length = self.drop_free(first)
        if length > pages:
            self.add_free(first + pages, length - pages)
        self.commit(first, pages)
        span.first, span.pages = first, pages
        self.spans[first] = span
        self.used += pages
        return True

    def commit(self, first, pages):
        self.committed[first:first + pages] = b'\1' * pages

    def give(self, first, pages):
        """Joins pages with the free runs beside them."""
        if first in self.free_ends:
            before = self.free_ends[first]
            first, pages = before, pages + self.drop_free(before)
        if first + pages in self.free:
            pages += self.drop_free(first + pages)
        self.add_free(first, pages)

    def drop_span(self, first):
        pages = self.spans.pop(first).pages
        self.used -= pages
        self.give(first, pages)

    def room_behind(self, first):
        """The pages of the span and of the free run right behind it."""
        pages = self.spans[first].pages
        return pages + self.free.get(first + pages, 0)

    def resize(self, first, pages):
        span = self.spans[first]
        behind = first + span.pages
        room = span.pages
        if behind in self.free:
            room += self.drop_free(behind)
        if room > pages:
            self.add_free(first + pages, room - pages)
        self.commit(first, pages)
        self.used += pages - span.pages
        span.pages = pages


def count(n, word):
    """A number with its noun."""
    return f'{n:,} {word}{"" if n == 1 else "s"}'


def best_fit_reason(fits, pages, length, marks, first):
    """Why this free run was taken."""
    alike = [it for it in fits if it[0] == length]
    text = f'best fit: the free run of {count(length, "page")} at page {first}'
    if len(fits) == 1:
        return f'{text}, the only one that has {pages}'
    if len(alike) == 1:
        return f'{text}, the shortest of the {len(fits)} that have {pages}'
    if len([it for it in alike if it[1] == -marks]) == 1:
        return f'{text}, of {len(alike)} of this length the one with most committed pages ({marks})'
    return f'{text}, the lowest of {len(alike)} of this length'


class VsLayer:
    """Places and gaps of the variable-size layer, by granule number."""

    def __init__(self):
        self.gaps, self.gap_ends = {}, {}
        self.index = []             # (granules, start), sorted

    def add_gap(self, start, granules):
        self.gaps[start] = granules
        self.gap_ends[start + granules] = start
        insort(self.index, (granules, start))

    def drop_gap(self, start):
        granules = self.gaps.pop(start)
        del self.gap_ends[start + granules]
        del self.index[bisect_left(self.index, (granules, start))]
        return granules

    def best(self, granules):
        at = bisect_left(self.index, (granules, -1))
        return self.index[at] if at < len(self.index) else None

    def place(self, start, granules):
        """Takes the front of the gap that starts here, and answers the granules of the place."""
        has = self.drop_gap(start)
        if has - granules < 2:
            return has
        self.add_gap(start + granules, has - granules)
        return granules

    def drop(self, start, granules):
        """Makes a place a gap, joined with those beside it. Answers the gap."""
        if start in self.gap_ends:
            before = self.gap_ends[start]
            start, granules = before, granules + self.drop_gap(before)
        if start + granules in self.gaps:
            granules += self.drop_gap(start + granules)
        self.add_gap(start, granules)
        return start, granules


class LargeArea:
    """Runs of large pages, from the page behind the segments on."""

    def __init__(self, start, pages):
        self.start, self.pages = start, pages
        self.runs = []      # (first, pages), sorted

    def gaps(self):
        at = self.start
        for first, pages in self.runs:
            if first > at:
                yield at, first - at
            at = first + pages
        if self.start + self.pages > at:
            yield at, self.start + self.pages - at

    def take(self, pages):
        for first, room in self.gaps():
            if room >= pages:
                insort(self.runs, (first, pages))
                return first
        return None

    def room_behind(self, first):
        behind = next((it for it, _ in self.runs if it > first), self.start + self.pages)
        return behind - first

    def resize(self, first, pages):
        at = bisect_left(self.runs, (first, 0))
        self.runs[at] = (first, pages)

    def drop(self, first):
        del self.runs[bisect_left(self.runs, (first, 0))]
