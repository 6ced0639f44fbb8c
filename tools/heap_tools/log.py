"""Reads what a real program asked of its allocator: the log of glibc's mtrace, and that of ltrace over malloc, calloc, realloc and free."""
import re
from dataclasses import dataclass

from .script import MOST_NUMBER

MTRACE = re.compile(r'(?:@ .* )?([-+<>!]) (0x[0-9a-fA-F]+|\(nil\))(?: (0x[0-9a-fA-F]+|0))?\s*\Z')
MARKS = re.compile(r'= (Start|End)\s*\Z')
WORDS = 'malloc|calloc|realloc|free'
WHO = r'(?:\[pid +)?(\d+\b(?![.:]))?.*?'
LTRACE = re.compile(rf'{WHO}(?:^|[\s>])({WORDS})\(([^()]*)\)\s*= (\S+.*)')
BEGUN = re.compile(rf'{WHO}(?:^|[\s>])({WORDS})\(([^()]*?)\s*<unfinished \.\.\.>')
RESUMED = re.compile(rf'{WHO}<\.\.\. ({WORDS}) resumed>\s*([^()]*)\)\s*= (\S+.*)')
NOTHING = re.compile(r'(?:\[pid +)?(?:\d+\]? +)?(?:\d\S* +)?(?:\+\+\+|---) ')


@dataclass(slots=True)
class Event:
    """What the program did: alloc, free or realloc. An address of 0 is none; of a failed request the new address is 0."""
    kind: str
    old: int = 0
    new: int = 0
    size: int = 0
    zero: bool = False


def value(text):
    """A number as ltrace and mtrace print it, or None."""
    text = text.strip()
    if text in ('nil', '(nil)', 'NULL', '<void>'):
        return 0
    try:
        return int(text, 0) if text.startswith(('0x', '0X')) else int(text)
    except ValueError:
        return None


class Reader:
    """Takes the lines of a log in order, and gives the events that are whole."""

    def __init__(self):
        self.old = None         # of a realloc of mtrace, between its two lines
        self.begun = {}         # of calls of ltrace that are not finished, by process
        self.lines = self.known = 0
        self.kinds = set()

    def take(self, line):
        self.lines += 1
        event = self.of_mtrace(line)
        if event is None:
            event = self.of_ltrace(line)
        if event is None:
            if MARKS.match(line):
                self.note('mtrace')
            elif NOTHING.match(line):
                self.note('ltrace')
            return []
        return event

    def note(self, kind):
        self.kinds.add(kind)
        self.known += 1

    def of_mtrace(self, line):
        found = MTRACE.match(line)
        if not found:
            return None
        self.note('mtrace')
        sign, address, size = found[1], value(found[2]), value(found[3] or '0')
        if sign == '+':
            return [Event('alloc', new=address, size=size)]
        if sign == '-':
            return [Event('free', old=address)]
        if sign == '!':
            return [Event('realloc', old=address, size=size)]
        if sign == '<':
            self.old = address
            return []
        old, self.old = self.old, None
        return [Event('realloc', old=old or 0, new=address, size=size)]

    def of_ltrace(self, line):
        found = BEGUN.match(line)
        if found:
            self.note('ltrace')
            self.begun[found[1], found[2]] = found[3]
            return []
        found = RESUMED.match(line)
        if found:
            self.note('ltrace')
            given = self.begun.pop((found[1], found[2]), None)
            return [] if given is None else self.call(found[2], ', '.join(it for it in (given, found[3].strip()) if it), found[4])
        found = LTRACE.match(line)
        if not found:
            return None
        self.note('ltrace')
        return self.call(found[2], found[3], found[4])

    def call(self, word, given, result):
        """The event of a call with these arguments and this result."""
        fields = [value(it) for it in given.split(',')]
        result = value(result.split()[0] if not result.startswith('<') else result.strip())
        if None in fields or len(fields) != {'calloc': 2, 'realloc': 2}.get(word, 1) or result is None:
            return []
        if word == 'free':
            return [Event('free', old=fields[0])]
        if word == 'malloc':
            return [Event('alloc', new=result, size=fields[0])]
        if word == 'calloc':
            return [Event('alloc', new=result, size=fields[0] * fields[1], zero=True)]
        old, size = fields
        if old == 0:
            return [Event('alloc', new=result, size=size)]
        if size == 0 and result == 0:
            return [Event('free', old=old)]
        return [Event('realloc', old=old, new=result, size=size)]


PLAIN_MOST = 520_192


class Writer:
    """Turns events into lines of a script, and counts what it leaves out."""

    def __init__(self, plain=False, limit=1_048_576):
        self.plain, self.limit = plain, limit
        self.names, self.count = {}, 0
        self.lines, self.bytes = [], 0
        self.large = set()          # blocks that are left out for their size
        self.cut = 0                # commands behind the limit
        self.made = dict.fromkeys(('alloc', 'free', 'realloc'), 0)
        self.left = dict.fromkeys(LEFT, 0)

    def take(self, event):
        if event.kind == 'free':
            self.free(event.old)
        elif event.kind == 'alloc' or event.old not in self.names:
            self.alloc(event)
        else:
            self.realloc(event)

    def line(self, text):
        """Adds a line, and answers whether it fits."""
        room = self.limit - ROOM
        if self.cut or self.bytes + len(text) + 1 > room:
            self.cut += 1
            return False
        self.lines.append(text)
        self.bytes += len(text) + 1
        return True

    def name(self):
        self.count += 1
        return f'b{self.count}'

    def alloc(self, event):
        if event.kind == 'realloc' and event.old not in self.large:
            self.left['strange'] += event.new != 0
        self.large.discard(event.old)
        if event.new == 0:
            self.left['failed'] += 1
            return
        if event.new in self.names:
            self.left['unseen'] += 1
            self.free(event.new)
        self.large.discard(event.new)
        if self.is_left_out(event):
            return
        word = 'zalloc' if event.zero and not self.plain else 'alloc'
        self.names[event.new] = name = self.name()
        self.made['alloc'] += self.line(f'{word} {name} {event.size}')

    def is_left_out(self, event):
        """Whether the request is too large, for --plain or for any script; then the block's end is left out too."""
        why = 'wild' if event.size > MOST_NUMBER else 'large' if self.plain and event.size > PLAIN_MOST else None
        if why:
            self.large.add(event.new)
            self.left[why] += 1
        return why is not None

    def free(self, address):
        if address == 0:
            return
        if address in self.large:
            self.large.discard(address)
            return
        name = self.names.pop(address, None)
        if name is None:
            self.left['free'] += 1
        else:
            self.made['free'] += self.line(f'free {name}')

    def realloc(self, event):
        if event.new == 0:
            self.left['failed'] += 1
            return
        if event.new != event.old and event.new in self.names:
            self.left['unseen'] += 1
            self.free(event.new)
        old = self.names.pop(event.old)
        if self.is_left_out(event):
            self.made['free'] += self.line(f'free {old}')
            return
        if not self.plain:
            self.names[event.new] = old
            self.made['realloc'] += self.line(f'realloc {old} {event.size}')
            return
        self.names[event.new] = name = self.name()
        self.made['alloc'] += self.line(f'alloc {name} {event.size}')
        self.made['free'] += self.line(f'free {old}')

    def told(self):
        """What was left out, in words."""
        return [words[self.left[key] > 1].format(n=f'{self.left[key]:,}') for key, words in LEFT.items() if self.left[key]]

    def script(self, kinds):
        """The whole script, with what it is in comments."""
        source = ' and '.join(sorted(kinds)) or 'a log'
        names = {'alloc': 'allocation', 'free': 'free', 'realloc': 'reallocation'}
        made = ', '.join(f'{n:,} {names[key]}{"" if n == 1 else "s"}' for key, n in self.made.items())
        head = [f'# from {source}: {made}'] + [f'# {it}' for it in self.told()]
        end = [f'# cut: {self.cut:,} commands of the log do not fit the limit of {self.limit:,} bytes'] if self.cut else []
        return '\n'.join([*head, *self.lines, *end]) + '\n'


LEFT = {
    'free': ('left out: {n} free of an address never seen', 'left out: {n} frees of addresses never seen'),
    'failed': ('left out: {n} request that the program was refused', 'left out: {n} requests that the program was refused'),
    'large': ('left out: {n} request of more than 520,192 bytes, which --plain does not take',
              'left out: {n} requests of more than 520,192 bytes, which --plain does not take'),
    'wild': ('left out: {n} request whose size is above 64 bits, as ltrace prints some wrongly',
             'left out: {n} requests whose sizes are above 64 bits, as ltrace prints some wrongly'),
    'strange': ('{n} reallocation of an address never seen stands as an allocation', '{n} reallocations of addresses never seen stand as allocations'),
    'unseen': ('{n} block was freed unseen, as its address was given again', '{n} blocks were freed unseen, as their addresses were given again'),
}
# Room that is kept for the comments.
ROOM = 700
