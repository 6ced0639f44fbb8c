"""Reads what the program writes: the report of docs/formats.md, or the text that it gives in its place."""
import re
from dataclasses import dataclass, field

WORDS = ('alloc', 'zalloc', 'realloc', 'inplace', 'free', 'size', 'get', 'put', 'lock', 'unlock', 'walk', 'compact')
REFUSALS = ('ok', 'nofit', 'notlive', 'noroom', 'depth', 'notowner', 'notlocked')
LAYERS = ('lfh', 'vs', 'back', 'large')
NUMBER = re.compile(r'[0-9]{1,20}\Z')


@dataclass(slots=True)
class Reply:
    """The reply to one command. What is a number for an address, a size, a word or a count; else the text of the refusal or ok."""
    round: int
    thread: int
    word: str
    what: object
    words: int = 0              # of past
    blocks: tuple = ()          # of a walk: address, size, layer

    def text(self):
        if self.what == 'past':
            return f'past {self.words}'
        if self.word == 'walk' and self.what == 'end':
            return f'{len(self.blocks)} blocks'
        return str(self.what)


@dataclass(slots=True)
class Run:
    """A span or a free run of a segment."""
    kind: str
    first: int
    pages: int
    bucket: int = 0
    slot: int = 0
    committed: int = 0


@dataclass(slots=True)
class Block:
    address: int
    size: int
    layer: str


@dataclass
class Report:
    replies: list = field(default_factory=list)
    segments: list = field(default_factory=list)    # numbers of the reserved ones
    runs: list = field(default_factory=list)
    large: list = field(default_factory=list)       # runs of the large area
    blocks: list = field(default_factory=list)


class Refused(Exception):
    """The program refused, and this is its text."""


class NoReport(Exception):
    """What was read is no output of the program; the message names the line."""


def is_output(text):
    """Whether a text looks like an output, and not like a script."""
    lines = text.rstrip(b'\n').rsplit(b'\n', 1)
    last = lines[-1]
    whole = re.fullmatch(rb'blocks [0-9]+ bytes [0-9]+', last) or re.fullmatch(rb'(usage fault|read fault|line [0-9]+ [a-z]+)', text.strip())
    return bool(whole or re.match(rb'[0-9]', text))


def numbers(fields, count):
    """So many fields that are all numbers."""
    if len(fields) != count or not all(NUMBER.match(it) for it in fields):
        raise ValueError
    return [int(it) for it in fields]


def read_reply(fields, replies):
    """Adds the reply of a line, or a line of a walk to the reply that it belongs to."""
    r, t = numbers(fields[:2], 2)
    word, rest = fields[2], fields[3:]
    if word not in WORDS or not rest:
        raise ValueError
    if word == 'walk':
        if not (replies and replies[-1].word == 'walk' and replies[-1].what is None and (replies[-1].round, replies[-1].thread) == (r, t)):
            replies.append(Reply(r, t, word, None))
        reply = replies[-1]
        if rest == ['notlocked']:
            reply.what = 'notlocked'
        elif rest[0] == 'end':
            if numbers(rest[1:], 1)[0] != len(reply.blocks):
                raise ValueError
            reply.what = 'end'
        else:
            address, size = numbers(rest[:2], 2)
            if rest[2:] not in [[it] for it in LAYERS]:
                raise ValueError
            reply.blocks += ((address, size, rest[2]),)
        return
    if rest[0] == 'past':
        replies.append(Reply(r, t, word, 'past', numbers(rest[1:], 1)[0]))
    elif len(rest) == 1 and (rest[0] in REFUSALS or NUMBER.match(rest[0])):
        replies.append(Reply(r, t, word, rest[0] if rest[0] in REFUSALS else int(rest[0])))
    else:
        raise ValueError


def read_run(fields):
    """The span or free run of a line of the layout."""
    kind = fields[0]
    if kind in ('back', 'vs', 'large'):
        return Run(kind, *numbers(fields[1:], 2))
    if kind == 'lfh' and len(fields) == 7 and fields[3::2] == ['bucket', 'slot']:
        first, pages, bucket, slot = numbers([fields[1], fields[2], fields[4], fields[6]], 4)
        return Run(kind, first, pages, bucket, slot)
    if kind == 'free' and len(fields) == 5 and fields[3] == 'committed':
        first, pages, committed = numbers([fields[1], fields[2], fields[4]], 3)
        return Run(kind, first, pages, committed=committed)
    raise ValueError


def read_report(text, progress=None):
    """The report of an output in bytes. Raises Refused where the program refused, NoReport where it is no output."""
    try:
        lines = text.decode('ascii').split('\n')
    except UnicodeDecodeError:
        raise NoReport('it is not plain text') from None
    if lines[-1] == '':
        lines.pop()
    if lines and len(lines) == 1 and re.fullmatch(r'usage fault|read fault|line [0-9]+ [a-z]+', lines[0]):
        raise Refused(lines[0])
    report, ended = Report(), False
    for at, line in enumerate(lines, 1):
        if progress and at % 4096 == 0:
            progress(at, len(lines))
        fields = line.split(' ')
        try:
            if ended:
                raise ValueError
            if fields[0].isdigit():
                read_reply(fields, report.replies)
            elif fields[0] == 'segment':
                report.segments.append(numbers(fields[1:], 1)[0])
            elif fields[0] == 'block':
                if len(fields) != 4 or fields[3] not in LAYERS:
                    raise ValueError
                report.blocks.append(Block(*numbers(fields[1:3], 2), fields[3]))
            elif fields[0] == 'blocks':
                count, size = numbers([fields[1], fields[3]], 2) if len(fields) == 4 and fields[2] == 'bytes' else (-1, -1)
                if (count, size) != (len(report.blocks), sum(it.size for it in report.blocks)):
                    raise ValueError
                ended = True
            else:
                run = read_run(fields)
                (report.large if run.kind == 'large' else report.runs).append(run)
        except ValueError:
            raise NoReport(f'line {at} is no line of a report: {line[:80]!r}') from None
    if not ended:
        raise NoReport('its last line, "blocks N bytes B", is missing' if lines else 'it is empty')
    return report
