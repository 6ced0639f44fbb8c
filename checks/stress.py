#!/usr/bin/env python3
"""Runs random scripts of four threads with all commands, and checks that replies and layout agree, outside the gate.

    checks/stress.py [SECONDS] [PROGRAM]

SECONDS is 60 where none is given; PROGRAM is crates/command_run/out/command_run where none is named. Each script has three rounds of
four threads. In a round a name belongs to one thread, so that what a thread asks of its own blocks has one right reply whatever the
others do: sizes, words that were put and are kept by a reallocation, zeroes, blocks that stay in place. Between rounds the names are dealt
anew, so blocks are used and freed by other threads than those that made them. A walk has to show the walker's own blocks. At the end the
blocks of the report are those that the replies leave, they are disjoint and each stands in a run of its layer, and the runs tile their
segments. What it prints of a script that fails is enough to run it again. The last line is 'N runs, N commands, N failed', and the status
is 0 where none failed."""
import os
import random
import subprocess
import sys
import time

HERE = os.path.dirname(os.path.dirname(os.path.realpath(__file__)))
THREADS, ROUNDS, COMMANDS, NAMES, WALKS = 4, 3, 150, 96, 16
SIZES = ((60, 1, 512), (20, 1, 16_368), (10, 1, 131_072), (7, 131_073, 520_192), (3, 520_193, 900_000))


class Wrong(Exception):
    """A reply or a line that can't be."""


def a_size(draw):
    _, least, most = draw.choices(SIZES, [it[0] for it in SIZES])[0]
    return draw.randint(least, most)


def words_of(size):
    return -(-size // 8)


class Maker:
    """Makes a script."""

    def __init__(self, draw):
        self.draw = draw
        self.walks = WALKS

    def command(self, names, depth):
        kind = self.draw.choices(('alloc', 'zalloc', 'free', 'realloc', 'inplace', 'size', 'put', 'get', 'compact', 'walk'), (24, 6, 22, 10, 5, 8, 12, 10, 1, 2))[0]
        name = self.draw.choice(names)
        if kind in ('alloc', 'zalloc', 'realloc', 'inplace'):
            return f'{kind} {name} {a_size(self.draw)}'
        if kind in ('free', 'size'):
            return f'{kind} {name}'
        if kind == 'put':
            return f'put {name} {self.draw.randint(0, 70)} {self.draw.getrandbits(64)}'
        if kind == 'get':
            return f'get {name} {self.draw.randint(0, 70)}'
        if kind == 'walk':
            if not depth or not self.walks:
                return f'size {name}'
            self.walks -= 1
        return kind

    def thread(self, names):
        lines, depth = [], 0
        for _ in range(COMMANDS):
            if self.draw.random() < 0.02 and depth < 3:
                lines.append('lock')
                depth += 1
            elif depth and self.draw.random() < 0.2:
                lines.append('unlock')
                depth -= 1
            else:
                lines.append(self.command(names, depth))
        return lines + ['unlock'] * depth

    def script(self):
        names = [f'n{k}' for k in range(NAMES)]
        rounds = []
        for _ in range(ROUNDS):
            self.draw.shuffle(names)
            rounds.append([self.thread(names[t::THREADS]) for t in range(THREADS)])
        return rounds


class Blocks:
    """What the replies say of the blocks of names. A name without a block stands for no address that lives."""

    def __init__(self):
        self.live = {}      # name: [address, size, words that are known]
        self.given = set()  # names that were freed, whose address another thread may have by now
        self.lost = []      # blocks whose name was given another one: they live to the end

    def check(self, reply, *wanted):
        if reply not in wanted:
            raise Wrong(f'{reply}, which is none of {", ".join(wanted)}')

    def placed(self, name, size, reply, words):
        self.live.pop(name, None)
        self.given.discard(name)
        if reply != 'nofit':
            self.live[name] = [int(reply), size, words]

    def moved(self, name, size, reply, stays):
        addr, old, words = self.live[name]
        if reply == ('noroom' if stays else 'nofit'):
            return
        if stays:
            self.check(reply, str(addr))
        kept = words_of(min(old, size))
        self.live[name] = [int(reply), size, {k: v for k, v in words.items() if k < kept}]

    def word(self, kind, name, index, value, reply):
        _, size, words = self.live[name]
        if index >= words_of(size):
            self.check(reply, f'past {words_of(size)}')
        elif kind == 'put':
            self.check(reply, 'ok')
            words[index] = value
        else:
            if index in words:
                self.check(reply, str(words[index]))
            words[index] = int(reply)

    def reply(self, line, reply):
        """A command of a name, and its reply. Of a name that was freed nothing is known."""
        kind, name, *rest = line.split()
        if kind in ('alloc', 'zalloc'):
            size = int(rest[0])
            if name in self.live:
                self.lost.append(tuple(self.live[name][:2]))
            self.placed(name, size, reply, dict.fromkeys(range(min(words_of(size), 71)), 0) if kind == 'zalloc' else {})
        elif name in self.given:
            raise Wrong('a command of a name that was freed was made')
        elif name not in self.live:
            self.check(reply, 'notlive')
        elif kind == 'free':
            self.check(reply, 'ok')
            del self.live[name]
            self.given.add(name)
        elif kind == 'size':
            self.check(reply, str(self.live[name][1]))
        elif kind in ('realloc', 'inplace'):
            self.moved(name, int(rest[0]), reply, kind == 'inplace')
        else:
            self.word(kind, name, int(rest[0]), int(rest[1]) if kind == 'put' else 0, reply)


def usable(rounds):
    """The text of a script, which is changed so that a name that was freed stands in an allocation before it stands in anything else."""
    freed, lines = set(), []
    for threads in rounds:
        lines.append('round')
        for thread in threads:
            lines.append('thread')
            for place, line in enumerate(thread):
                kind, *rest = line.split()
                name = rest[0] if rest else None
                if kind in ('alloc', 'zalloc'):
                    freed.discard(name)
                elif name in freed:
                    line = thread[place] = f'alloc {name} {1 + len(lines) % 700}'
                    freed.discard(name)
                elif kind == 'free':
                    freed.add(name)
                lines.append(line)
    return '\n'.join(lines) + '\n'


def walked(blocks, own, seen):
    """A walk shows blocks in order, none in another, and all of the walker's own."""
    disjoint(seen)
    shown = {addr: size for addr, size, _ in seen}
    for name in own:
        if name in blocks.live:
            addr, size, _ = blocks.live[name]
            if shown.get(addr) != size:
                raise Wrong(f'the walk shows no {size} bytes at {addr} of {name}')


def disjoint(blocks):
    end = 0
    for addr, size, _ in blocks:
        if addr < end:
            raise Wrong(f'the block at {addr} begins before {end}')
        end = addr + max(size, 1)


def thread_replies(blocks, lines, replies, number):
    """Checks the replies of a thread, and answers how many lines of the report they take."""
    own = {it.split()[1] for it in lines if ' ' in it}
    taken, depth = 0, 0
    for line in lines:
        kind, seen = line.split()[0], []
        while True:
            fields = replies[taken].split(' ', 3)
            taken += 1
            if fields[:3] != [*number, kind]:
                raise Wrong(f'{" ".join(fields)} in place of a reply to {line}')
            reply = fields[3]
            if kind != 'walk' or reply.startswith('end '):
                break
            addr, size, layer = reply.split()
            seen.append((int(addr), int(size), layer))
        try:
            if kind == 'walk':
                blocks.check(reply, f'end {len(seen)}')
                walked(blocks, own, seen)
            elif kind in ('lock', 'unlock'):
                blocks.check(reply, 'ok')
                depth += 1 if kind == 'lock' else -1
            elif kind == 'compact':
                int(reply)
            else:
                blocks.reply(line, reply)
        except Wrong as wrong:
            raise Wrong(f'{line}: {wrong}') from None
    return taken


def layout(lines, segments):
    """The runs of the layout, each with its kind, its first byte and the one behind its last; they tile their segments."""
    runs, at = [], None
    for line in lines:
        kind, *fields = line.split()
        if kind == 'segment':
            if at is not None and at % 256:
                raise Wrong(f'{line} comes at page {at}')
            at = 256 * int(fields[0]) + 2
            continue
        first, pages = int(fields[0]), int(fields[1])
        if kind != 'large':
            if first != at:
                raise Wrong(f'{line} is not at page {at}')
            at += pages
        elif first < 256 * segments:
            raise Wrong(f'{line} is in a segment')
        runs.append((kind, 4096 * first, 4096 * (first + pages)))
    if at is not None and at % 256:
        raise Wrong(f'the layout ends at page {at}')
    return runs


def stand(blocks, runs):
    """Each block stands in a run of its layer, and each block of the back end and of the large area has one of its own."""
    for addr, size, layer in blocks:
        found = [it for it in runs if it[0] == layer and it[1] <= addr and addr + size <= it[2]]
        if len(found) != 1 or (layer in ('back', 'large') and (found[0][1] != addr or found[0][2] - addr - size >= 4096)):
            raise Wrong(f'no {layer} run has the {size} bytes at {addr}')
    for layer in ('back', 'large'):
        if sum(it[0] == layer for it in runs) != sum(it[2] == layer for it in blocks):
            raise Wrong(f'a {layer} run has no block')


def check(rounds, out, segments):
    lines = out.split('\n')[:-1]
    blocks, at = Blocks(), 0
    for r, threads in enumerate(rounds):
        for t, thread in enumerate(threads):
            at += thread_replies(blocks, thread, lines[at:], (str(r), str(t)))
    shown = [it.split()[1:] for it in lines[at:] if it.startswith('block ')]
    shown = [(int(addr), int(size), layer) for addr, size, layer in shown]
    disjoint(shown)
    wanted = sorted([(it[0], it[1]) for it in blocks.live.values()] + blocks.lost)
    if [it[:2] for it in shown] != wanted:
        raise Wrong(f'the blocks are not those of the replies: {sorted(set(wanted) ^ {it[:2] for it in shown})[:6]}')
    stand(shown, layout([it for it in lines[at:-1] if not it.startswith('block ')], segments))
    if lines[-1] != f'blocks {len(shown)} bytes {sum(it[1] for it in shown)}':
        raise Wrong(lines[-1])


def run_one(program, seed):
    draw = random.Random(seed)
    segments, slots = draw.choice((1, 2, 4, 16)), draw.choice((1, 2, 4))
    rounds = Maker(draw).script()
    text = usable(rounds)
    words = ['--segments', str(segments), '--large', '512', '--slots', str(slots), '--seed', str(seed)]
    ran = subprocess.run([program, *words], input=text.encode(), stdout=subprocess.PIPE, timeout=120)
    try:
        if ran.returncode:
            raise Wrong(f'status {ran.returncode}: {ran.stdout[:80]!r}')
        check(rounds, ran.stdout.decode(), segments)
        return True
    except (Wrong, ValueError, IndexError) as wrong:
        print(f'script {seed} ({" ".join(words)}): {wrong!r}')
        return False


def main():
    seconds = float(sys.argv[1]) if len(sys.argv) > 1 else 60
    program = sys.argv[2] if len(sys.argv) > 2 else os.path.join(HERE, 'crates/command_run/out/command_run')
    begun, runs, failed = time.monotonic(), 0, 0
    while time.monotonic() - begun < seconds:
        runs += 1
        failed += not run_one(program, runs)
    print(f'{runs} runs, {runs * THREADS * ROUNDS * COMMANDS} commands, {failed} failed')
    return failed > 0


if __name__ == '__main__':
    sys.exit(main())
