#!/usr/bin/env python3
"""Times the program on scripts of rising length, outside the gate, by processor time: nanoseconds a command, and how they grow.

    bench/measure.py [PROGRAM] [--only WORD] [--rounds N]

PROGRAM is crates/command_run/out/command_run where none is named. Each script of a row makes a base of N blocks and then its turns.
Its twin has the same base, and a `size` of the same name in place of each turn: so start, reading, names and report are in both,
and the difference is what the heap does for a turn beyond finding a block. Runs go in turn over all scripts, and the least of N
rounds (5) counts for each. The exponent is that by which the cost grew from the first N of a row to the last: 0 is flat, 1 is
linear. The last rows are texts that ask the heap for next to nothing: nanoseconds a line, beyond the run of an empty text.

A bucket is active behind 17 live blocks of its size, and then subsegments of the front end serve it: 15 blocks of 256 in a page,
252 of 16. In a full heap no page is free, so blocks of any size stay in the variable-size layer."""
import math
import os
import random
import subprocess
import sys
import tempfile

HERE = os.path.dirname(os.path.dirname(os.path.abspath(__file__)))
SEGMENTS = 16
MOST_BYTES = 1_048_576
TURNS = 5_000
FRONT = 17      # live blocks of a bucket behind which the front end serves it


def name(kind, i):
    """A name of four letters and digits."""
    letters = '0123456789abcdefghijklmnopqrstuvwxyz'
    return kind + letters[i // 1296 % 36] + letters[i // 36 % 36] + letters[i % 36]


def blocks(kind, count, size):
    return [f'alloc {name(kind, i)} {size}' for i in range(count)]


def at_once(what, size, turns=TURNS):
    """One block more, made and freed again and again behind a base."""
    return what, [f'alloc x {size}', 'free x'] * (turns // 2)


def full_heap():
    """No page is free: each segment has 7 subsegments of 33 pages and one of 23. In each of the 7 is a gap of 131,072 bytes."""
    seven = 7 * SEGMENTS
    return (blocks('b', seven, 131072) + blocks('c', SEGMENTS, 94000)
            + [f'alloc {name("h", i)} {2100 + 128 * (i % 15)}' for i in range(seven)] + [f'free {name("b", i)}' for i in range(seven)])


# Each pattern gives the lines of a base of n blocks, and the lines of the turns.

def churn(size):
    """Each turn frees one of the blocks, or makes it again."""
    def pattern(n):
        draw = random.Random(n)
        turns = []
        for _ in range(TURNS // 2):
            one = name('a', draw.randrange(n))
            turns += [f'free {one}', f'alloc {one} {size}']
        return blocks('a', n, size), turns
    return pattern


def holes(size):
    """Every second block is freed first, so that there are as many gaps as blocks."""
    return lambda n: at_once(blocks('a', n, size) + [f'free {name("a", i)}' for i in range(0, n, 2)], size)


def beside_spans(size):
    """Beside n subsegments of the front end, of one page each."""
    return lambda n: at_once(blocks('a', FRONT + 15 * n, 256), size)


def refused_beside_spans(n):
    """A size that no free run has, beside n subsegments."""
    return blocks('a', FRONT + 15 * n, 256) + blocks('b', 70, 135168), ['alloc x 520192'] * TURNS


def equal_runs(n):
    """Of n free runs of equal length the first is taken."""
    base = blocks('a', FRONT, 256)
    for i in range(n):
        base += [f'alloc {name("v", i)} 60000'] + [f'alloc {name("q", 15 * i + k)} 256' for k in range(15)]
    return at_once(base + [f'free {name("v", i)}' for i in range(n)], 60000)


def passes(size, each):
    """One of the last two of n full subsegments has its one free block in turn, and the other one is hinted."""
    def pattern(n):
        count = FRONT + each * n
        one, other = name('a', count - 1 - each), name('a', count - 1)
        turns = [f'free {one}', f'alloc {one} {size}', f'free {other}', f'alloc {other} {size}']
        return blocks('a', count, size), turns * (TURNS // 4)
    return pattern


def gaps(length_of, size):
    """In a full heap, n gaps with a block between each two."""
    def pattern(n):
        base = full_heap()
        for i in range(n):
            base += [f'alloc {name("a", 2 * i)} {length_of(i)}', f'alloc {name("a", 2 * i + 1)} 16']
        return at_once(base + [f'free {name("a", 2 * i)}' for i in range(n)], size)
    return pattern


def made_in_full_heap(n):
    return full_heap(), [f'alloc {name("a", i)} 16' for i in range(n)]


def made(size):
    return lambda n: ([], blocks('a', n, size))


ROWS = [
    ('back end, blocks of 135,168', churn(135168), (28, 56, 112)),
    ('back end, with holes', holes(135168), (28, 56, 112)),
    ('back end, equal free runs', equal_runs, (14, 56, 210)),
    ('back end beside subsegments', beside_spans(135168), (60, 660, 2_600)),
    ('refused beside subsegments', refused_beside_spans, (60, 660, 1_900)),
    ('variable size, blocks of 20,000', churn(20000), (100, 300, 700)),
    ('variable size, with holes', holes(20000), (100, 300, 700)),
    ('gaps of 16 in a full heap', gaps(lambda i: 16, 16), (1_000, 5_000, 20_000)),
    ('gaps of 100 lengths in a full heap', gaps(lambda i: 16 * (1 + i % 100), 1008), (1_000, 5_000, 10_000)),
    ('blocks of 16 made in a full heap', made_in_full_heap, (1_000, 10_000, 40_000)),
    ('active bucket, blocks of 16', churn(16), (1_000, 10_000, 40_000)),
    ('active bucket, blocks of 256', churn(256), (1_000, 10_000, 40_000)),
    ('active bucket, blocks of 256 made', made(256), (1_000, 10_000, 40_000)),
    ('pass over full subsegments of 15', passes(256, 15), (60, 660, 2_600)),
    ('pass over full subsegments of 252', passes(16, 252), (10, 40, 150)),
]


def many_names():
    order = [f'n{i:05d}' for i in range(60_000)]
    random.Random(1).shuffle(order)
    return ''.join(f'size {one}\n' for one in order)


TEXTS = [
    ('blank lines', '\n' * MOST_BYTES),
    ('sizes of an address', 'size @0\n' * 131_072),
    ('sizes of one name', 'size a\n' * 60_000),
    ('sizes of 60,000 names', many_names()),
    ('rounds of one command', 'round\nsize @0\n' * 74_898),
]


def as_text(lines):
    return ''.join(line + '\n' for line in lines)


def twin_of(turns):
    return ['size ' + line.split()[1] for line in turns]


class Scripts:
    """Texts in files of a folder, each with the least processor time of its runs so far."""

    def __init__(self, folder):
        self.folder, self.least = folder, []

    def add(self, text):
        assert len(text) <= MOST_BYTES, len(text)
        with open(self.path(len(self.least)), 'w') as out:
            out.write(text)
        self.least.append(math.inf)
        return len(self.least) - 1

    def path(self, number):
        return os.path.join(self.folder, f'{number}.heap')

    def run_all(self, program, rounds):
        for _ in range(rounds):
            for number in range(len(self.least)):
                self.least[number] = min(self.least[number], processor_seconds(program, self.path(number)))

    def nanoseconds(self, number, twin, count):
        return (self.least[number] - self.least[twin]) / count * 1e9


def processor_seconds(program, path):
    with open(path, 'rb') as script, open(os.devnull, 'wb') as nowhere:
        child = subprocess.Popen([program, '--mode', 'one', '--segments', str(SEGMENTS)], stdin=script, stdout=nowhere)
        _, status, use = os.wait4(child.pid, 0)
    child.returncode = os.waitstatus_to_exitcode(status)
    if child.returncode != 0:
        sys.exit(f'{path}: status {child.returncode}')
    return use.ru_utime + use.ru_stime


def exponent(sizes, costs):
    if costs[0] <= 0 or costs[-1] <= 0:
        return ''
    return f'{math.log(costs[-1] / costs[0]) / math.log(sizes[-1] / sizes[0]):.2f}'


def measure(program, only, rounds, folder):
    scripts = Scripts(folder)
    empty = scripts.add('')
    rows, texts = [], []
    for label, pattern, sizes in ROWS:
        if only in label:
            cells = []
            for n in sizes:
                base, turns = pattern(n)
                cells.append((scripts.add(as_text(base + turns)), scripts.add(as_text(base + twin_of(turns))), len(turns)))
            rows.append((label, sizes, cells))
    for label, text in TEXTS:
        if only in label:
            texts.append((label, scripts.add(text), text.count('\n')))
    scripts.run_all(program, rounds)
    print(f'an empty script: {scripts.least[empty] * 1e3:.1f} ms')
    print(f'{"ns a command":36}' + f'{"N: cost":>16}' * 3 + f'{"exponent":>10}')
    for label, sizes, cells in rows:
        costs = [scripts.nanoseconds(*cell) for cell in cells]
        print(f'{label:36}' + ''.join(f'{f"{n:,}: {cost:,.0f}":>16}' for n, cost in zip(sizes, costs)) + f'{exponent(sizes, costs):>10}')
    for label, number, lines in texts:
        print(f'{label:36}{scripts.nanoseconds(number, empty, lines):16,.0f} ns a line')


def main():
    words = sys.argv[1:]

    def option(word, default):
        if word not in words:
            return default
        at = words.index(word)
        value = words[at + 1]
        del words[at:at + 2]
        return value
    only, rounds = option('--only', ''), int(option('--rounds', '5'))
    program = os.path.abspath(words[0]) if words else os.path.join(HERE, 'crates/command_run/out/command_run')
    with tempfile.TemporaryDirectory(prefix='measure.') as folder:
        measure(program, only, rounds, folder)


if __name__ == '__main__':
    main()
