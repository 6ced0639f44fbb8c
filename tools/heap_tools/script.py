"""Reads the script language of docs/script-language.md, with the faults that the program names."""
import re
from dataclasses import dataclass, field

MOST_BYTES = 1_048_576
MOST_THREADS = 64
MOST_WALKS = 16
MOST_NUMBER = 2**64 - 1

# The fields behind each word: n a name, t a target, # a number.
FIELDS = {
    'round': '', 'thread': '', 'lock': '', 'unlock': '', 'walk': '', 'compact': '',
    'alloc': 'n#', 'zalloc': 'n#',
    'realloc': 't#', 'inplace': 't#',
    'free': 't', 'size': 't',
    'get': 't#', 'put': 't##',
}
USAGE = {it: it for it in FIELDS} | {
    'alloc': 'alloc NAME SIZE', 'zalloc': 'zalloc NAME SIZE', 'realloc': 'realloc TARGET SIZE', 'inplace': 'inplace TARGET SIZE',
    'free': 'free TARGET', 'size': 'size TARGET', 'get': 'get TARGET INDEX', 'put': 'put TARGET INDEX VALUE',
}
SPLIT = re.compile(rb'[ \t\r]+')
NAME = re.compile(rb'[A-Za-z_][A-Za-z0-9_]{0,31}')
NUMBER = re.compile(rb'[0-9]{1,20}')


@dataclass(slots=True)
class Command:
    """One command of a thread."""
    line: int
    word: str
    name: str | None = None     # of alloc and zalloc, and of a target that is a name
    address: int | None = None  # of a target that is an address
    numbers: tuple = ()

    @property
    def size(self):
        """The asked size, of a command that has one."""
        return self.numbers[0] if self.word in ('alloc', 'zalloc', 'realloc', 'inplace') else None

    def text(self):
        """The command as the language writes it."""
        target = [] if self.name is None and self.address is None else [self.name if self.name is not None else f'@{self.address}']
        return ' '.join([self.word, *target, *map(str, self.numbers)])


@dataclass
class Script:
    """Rounds of threads of commands."""
    rounds: list = field(default_factory=list)

    def commands(self):
        """Each command with the numbers of its round and its thread."""
        for r, threads in enumerate(self.rounds):
            for t, commands in enumerate(threads):
                for command in commands:
                    yield r, t, command

    def count(self):
        return sum(len(commands) for threads in self.rounds for commands in threads)


class Fault(Exception):
    """The first faulty line of a text, and its cause."""

    def __init__(self, line, cause, why, fields=()):
        super().__init__(f'line {line} {cause}')
        self.line, self.cause, self.why, self.fields = line, cause, why, fields


def shown(raw):
    """Bytes as a person may read them."""
    return raw.decode('utf-8', 'backslashreplace')


def number(raw):
    """The value of a number, or None."""
    if NUMBER.fullmatch(raw):
        value = int(raw)
        if value <= MOST_NUMBER:
            return value
    return None


def why_no_number(raw):
    text = shown(raw)
    if re.fullmatch(rb'[0-9]{21,}', raw):
        return f'"{text}" has {len(raw)} digits, and a number has at most 20'
    if re.fullmatch(rb'[0-9]+', raw):
        return f'{text} is above {MOST_NUMBER}, the largest number'
    if raw[:1] == b'-':
        return f'"{text}" is no number: there are no negative ones'
    if raw[:2].lower() == b'0x':
        try:
            return f'"{text}" is no number: numbers are decimal, so write {int(raw, 16)}'
        except ValueError:
            pass
    return f'"{text}" is no number: a number is 1 to 20 decimal digits, and nothing else'


def why_no_name(raw):
    text = shown(raw)
    if raw[:1] == b'@':
        return f'"{text}" is an address, and this word needs a name'
    if len(raw) > 32:
        return f'"{text}" has {len(raw)} bytes, and a name has at most 32'
    if raw[:1].isdigit():
        address = f' (an address is written @{text})' if raw.isdigit() else ''
        return f'"{text}" begins with a digit: a name begins with a letter or _{address}'
    return f'"{text}" is no name: a name is a letter or _ first, then letters, digits or _'


def read_fields(at, fields):
    """The command of a line's fields."""
    word = fields[0].decode('ascii', 'replace')
    form = FIELDS.get(word)
    if form is None:
        raise Fault(at, 'badline', f'"{shown(fields[0])}" is no word of the language', fields)
    if len(fields) != 1 + len(form):
        have = len(fields) - 1
        need = 'no field' if not form else f'{len(form)} field{"s" * (len(form) > 1)}'
        raise Fault(at, 'badline', f'"{word}" needs {need} behind it and has {have}: the form is "{USAGE[word]}"', fields)
    command = Command(at, word)
    numbers = []
    for kind, raw in zip(form, fields[1:]):
        if kind == '#' or kind == 't' and raw[:1] == b'@':
            value = number(raw if kind == '#' else raw[1:])
            if value is None:
                raise Fault(at, 'badnumber', why_no_number(raw if kind == '#' else raw[1:]), fields)
            if kind == 't':
                command.address = value
            else:
                numbers.append(value)
        elif NAME.fullmatch(raw):
            command.name = raw.decode()
        else:
            raise Fault(at, 'badname', why_no_name(raw), fields)
    command.numbers = tuple(numbers)
    return command


class Reader:
    """What is known between two lines of a text."""

    def __init__(self):
        self.rounds, self.depth, self.walks = [], 0, 0

    def close_thread(self, at):
        if self.depth:
            raise Fault(at, 'unbalanced', f'the thread that ends here still holds the heap lock {self.depth} deep: an "unlock" is missing')

    def open_round(self):
        self.rounds.append([])

    def open_thread(self, at):
        if len(self.rounds[-1]) == MOST_THREADS:
            raise Fault(at, 'threads', f'a round has at most {MOST_THREADS} threads')
        self.rounds[-1].append([])

    def take(self, at, command):
        if command.word in ('round', 'thread'):
            self.close_thread(at)
            if command.word == 'round' or not self.rounds:
                self.open_round()
            if command.word == 'thread':
                self.open_thread(at)
            return
        if not self.rounds:
            self.open_round()
        if not self.rounds[-1]:
            self.open_thread(at)
        if command.word == 'lock':
            self.depth += 1
        if command.word == 'unlock':
            if self.depth == 0:
                raise Fault(at, 'unbalanced', 'no "lock" of this thread stands open here')
            self.depth -= 1
        if command.word == 'walk':
            self.walks += 1
            if self.walks > MOST_WALKS:
                raise Fault(at, 'walks', f'a text has at most {MOST_WALKS} "walk" lines')
        self.rounds[-1][-1].append(command)


def read_script(text, progress=None):
    """The script of a text in bytes. Raises Fault where it is none."""
    if len(text) > MOST_BYTES:
        raise Fault(0, 'toolong', f'the text has more than {MOST_BYTES:,} bytes')
    lines = text.split(b'\n')
    if lines[-1] == b'':
        lines.pop()
    reader = Reader()
    for at, line in enumerate(lines, 1):
        if progress and at % 4096 == 0:
            progress(at, len(lines))
        fields = [it for it in SPLIT.split(line) if it]
        if fields and fields[0][:1] != b'#':
            reader.take(at, read_fields(at, fields))
    reader.close_thread(len(lines) + 1)
    return Script(reader.rounds)


def second_thread(text):
    """The line of the first second thread of a round of a text that is a script, or None."""
    seen = 0
    for at, line in enumerate(text.split(b'\n'), 1):
        fields = [it for it in SPLIT.split(line) if it]
        if not fields or fields[0][:1] == b'#':
            continue
        if fields[0] == b'round':
            seen = 0
        elif fields[0] == b'thread':
            seen += 1
            if seen == 2:
                return at
        elif seen == 0:
            seen = 1
    return None


def never_given(script):
    """The commands whose target is a name that no earlier command can have given a block, each name once."""
    given, found = set(), {}
    for threads in script.rounds:
        new = set()
        for commands in threads:
            own = set()
            for command in commands:
                if command.word in ('alloc', 'zalloc'):
                    own.add(command.name)
                elif command.name is not None and command.name not in given and command.name not in own:
                    found.setdefault(command.name, command)
            new |= own
        given |= new
    return list(found.values())
