"""A script and its replies as one list of steps, each with its reason by the rules of the heap."""
from dataclasses import dataclass, field

from . import heap as heaps
from . import rules, state


@dataclass(slots=True)
class Step:
    """One command, its reply, and why it is so."""
    round: int
    thread: int
    command: object
    reply: object           # what the program replied, or the rules where no program ran
    text: str               # the reply as text
    address: int = None     # of the target, or the new one
    layer: str = None
    why: list = field(default_factory=list)
    note: str = None        # where the rules give another reply
    blocks: tuple = ()      # of a walk


@dataclass
class Story:
    steps: list = field(default_factory=list)
    state: object = None
    heap: object = None
    notes: list = field(default_factory=list)
    is_followed: bool = True
    placed: dict = field(default_factory=lambda: dict.fromkeys(rules.LAYERS, 0))    # blocks that each layer was asked to place, and did
    refused: int = 0
    peak: dict = field(default_factory=dict)        # where most bytes were asked for at once


class Mismatch(Exception):
    """The output has another shape than the script."""


@dataclass(frozen=True)
class Setting:
    """What the program was told: 16 segments where nothing is said."""
    segments: int | None = None
    large: int | None = None
    seed: int = 1
    slots: int | None = None

    def heap(self, segments=None, many=False):
        slots = self.slots if self.slots is not None else 4 if many else 1
        return heaps.Heap(segments or self.segments or 16, 1_024 if self.large is None else self.large, self.seed, slots)

    def words(self, mode='one'):
        """The words of the program."""
        words = ['--mode', mode]
        for name, value in (('--segments', self.segments), ('--large', self.large), ('--slots', self.slots)):
            words += [] if value is None else [name, str(value)]
        return words + ([] if self.seed == 1 else ['--seed', str(self.seed)])


def text_of(answer):
    """A reply of the rules as the report prints it."""
    if answer.what == 'past':
        return f'past {answer.words}'
    return f'{len(answer.blocks)} blocks' if answer.what == 'end' else str(answer.what)


def is_many(script):
    return any(len([it for it in threads if it]) > 1 for threads in script.rounds)


class Teller:
    """Walks a script with the values of its names, the replies, and the heap of the rules."""

    def __init__(self, script, replies, heap, each=None, progress=None):
        self.script, self.replies, self.heap = script, replies, heap
        self.each, self.progress = each, progress
        self.story, self.values, self.at = Story(heap=heap), {}, 0

    def tell(self):
        total = self.script.count()
        if self.replies is not None and len(self.replies) != total:
            raise Mismatch(f'the script has {total:,} commands and the output {len(self.replies):,} replies')
        for r, threads in enumerate(self.script.rounds):
            self.round(r, threads, total)
        return self.story

    def round(self, r, threads, total):
        ends = []
        together = len([it for it in threads if it]) > 1
        if together and self.story.is_followed:
            self.story.notes.append(f'The threads of round {r} ran at the same time. They are told here one after another, and reasons are those of this order.')
        for t, commands in enumerate(threads):
            own = {}
            for command in commands:
                if self.progress:
                    self.progress(self.at, total)
                self.step(r, t, command, own, together)
                self.at += 1
            ends.append(own)
        for own in ends:
            self.values.update(own)

    def target(self, command, own):
        """The address of a command's target."""
        if command.address is not None:
            return command.address
        return own.get(command.name, self.values.get(command.name, 0)) if command.name else None

    def step(self, r, t, command, own, together):
        reply = self.replies[self.at] if self.replies is not None else None
        if reply is not None and (reply.round, reply.thread, reply.word) != (r, t, command.word):
            raise Mismatch(f'reply {self.at + 1} is of "{reply.word}" of round {reply.round}, thread {reply.thread}, where the script has "{command.text()}"')
        makes = command.word in ('alloc', 'zalloc')
        address = None if makes else self.target(command, own)
        answer = self.heap.serve(command, address, t) if self.story.is_followed else None
        step = Step(r, t, command, reply, reply.text() if reply is not None else text_of(answer), address)
        step.blocks = reply.blocks if reply is not None else answer.blocks
        if answer is not None:
            step.layer, step.why = answer.layer, answer.why
            self.compare(step, answer, together)
        if not self.story.is_followed:
            self.by_size(step, makes)
        given = int(step.text) if step.text.isdigit() else None
        if makes:
            own[command.name] = given or 0
        elif command.word in ('realloc', 'inplace') and given is not None and command.name is not None:
            own[command.name] = given
        if command.word in ('alloc', 'zalloc', 'realloc', 'inplace') and given is not None:
            step.address = given
        self.story.steps.append(step)
        if self.story.is_followed:
            self.weigh(step, answer)
        if self.each:
            self.each(step, self.heap)

    def weigh(self, step, answer):
        """Counts what was placed, and keeps the moment at which most bytes were asked for."""
        word, block = step.command.word, answer.block
        if answer.what == 'nofit':
            self.story.refused += 1
        if block is None or word not in ('alloc', 'zalloc', 'realloc', 'inplace', 'free') or not isinstance(answer.what, int) and answer.what != 'ok':
            return
        if word != 'free' and answer.is_new:
            self.story.placed[block.layer] += 1
        heap = self.heap
        if heap.asked > self.story.peak.get('asked', 0):
            pages = heap.back.used + sum(pages for _, pages in heap.large.runs)
            self.story.peak = {'line': step.command.line, 'blocks': len(heap.blocks), 'asked': heap.asked, 'pages': pages}

    def compare(self, step, answer, together):
        """Notes where the reply is another than that of the rules."""
        same = step.reply is None or text_of(answer) == step.text and answer.blocks == step.reply.blocks
        if same:
            return
        self.story.is_followed = False
        if together or is_many(self.script):
            self.story.notes.append(f'From line {step.command.line} on the replies are those of another order of the threads: what is said from '
                                    'there on is said by sizes and addresses alone.')
        else:
            step.note = f'the rules give {text_of(answer)} here'
            self.story.notes.append(f'Line {step.command.line}: the output has "{step.text}" where the rules give "{text_of(answer)}". '
                                    'Was it run with other words (--segments), or another script? From here on reasons are said by sizes alone.')

    def by_size(self, step, makes):
        """What the size alone tells."""
        step.layer, step.why = None, []
        size = step.command.size
        if makes and step.text.isdigit():
            bucket = rules.bucket_of(size)
            if bucket is not None:
                step.why = [f'bucket {bucket}: the variable-size layer, or the front end where the bucket is active']
            else:
                step.layer = rules.route(size)


def tell(script, report, setting, each=None, progress=None):
    """The story of a script and its report; by the rules alone where report is None.

    Where nothing was said of the segments and 16 do not give these replies, as many as the report has are tried."""
    replies = None if report is None else report.replies
    many = is_many(script)
    story = Teller(script, replies, setting.heap(many=many), each, progress).tell()
    if report is not None and not story.is_followed and setting.segments is None and not many and report.segments:
        other = Teller(script, replies, setting.heap(len(report.segments)), each, progress).tell()
        if other.is_followed:
            other.notes.append(f'The replies are those of a heap of {len(report.segments)} segments.')
            story = other
    if story.is_followed:
        story.state = state.of_heap(story.heap)
        other = None if report is None else state.differs(story.state, report)
        if other and many:
            story.is_followed = False
            story.notes.append('One after another, the threads give the same replies and another layout: they ran in another order.')
        elif other:
            story.is_followed = False
            story.notes.append(f'The layout differs from that of the rules: {other}.')
    if not story.is_followed:
        story.state = state.of_report(report)
    return story
