#!/usr/bin/env python3
"""Tries the program, as it is built, where memory is refused and where its devices fail, outside the gate.

    checks/refused.py [PROGRAM]

PROGRAM is crates/command_run/out/command_run where none is named, and ./segheap builds it where it is not there. The last line is
'N passed, N failed', and the status is 0 where none failed.

Memory: each allocation of a run is refused in turn, from the first up to a run that asks for no more. A run has to end with status 6
and write nothing, or end and write as a run without a refusal does, where what was refused was not needed. The allocations are those
of the whole process: the words, the text, the heap and the report. They are refused by refuse.c, which cc makes a library of that
the program is run with. (The kit can do the same one number at a time, by `rt try --fail-alloc`, and builds anew for each.)

Devices: a full device, a closed output and a pipe whose reader went away have to give status 5; a closed input and a folder as input
give 4, and 5 where that can't be written either. A byte at a time on both sides changes nothing. Of a text that is too long
1,048,577 bytes are read. What is due stands in this file, or is checked by the rules of the heap as tools/heap_tools has them."""
import os
import subprocess
import sys
import tempfile
import threading

HERE = os.path.dirname(os.path.dirname(os.path.realpath(__file__)))
sys.dont_write_bytecode = True
sys.path.insert(0, os.path.join(HERE, 'tools'))
from heap_tools import common, report, script, story    # noqa: E402

MOST_READ = 1_048_577
SECONDS = 60
WORDS = ('--mode', 'one', '--segments', '1', '--large', '128')
THREADED = ('--segments', '1', '--large', '256')

SHORT = b"""alloc x 24
put x 0 7
put x 2 9
alloc y 16
get x 0
get x 2
"""
SHORT_DUE = b"""0 0 alloc 8256
0 0 put ok
0 0 put ok
0 0 alloc 8304
0 0 get 7
0 0 get 9
segment 0
vs 2 16
free 18 238 committed 0
block 8256 24 vs
block 8304 16 vs
blocks 2 bytes 40
"""

# Blocks of all layers, and so many names, replies and blocks that each list grows a few times.
LONG = ''.join(f'alloc x{i} 16\n' for i in range(40)) + 'alloc b 131073\nzalloc c 520193\nput c 65024 7\nget c 65024\nfree x3\nfree x3\nsize b\nalloc d 600000\n'


# Two threads in each of three rounds, whose replies no order of the threads changes.
TWO = b"""thread
alloc x 200000
put x 0 5
thread
alloc y 600000
round
thread
free y
thread
realloc x 300000
get x 0
round
thread
lock
walk
unlock
thread
size x
"""

# Four threads in three rounds, blocks of all layers that other threads free. Where they stand hangs on the order; at the end none is left.
FOUR = b"""round
thread
alloc a0 8
alloc a1 40
alloc a2 600000
thread
alloc b0 24
alloc b1 4096
alloc b2 200000
thread
alloc c0 100
alloc c1 16368
thread
alloc d0 70000
zalloc d1 512
round
thread
free b0
realloc b1 9000
thread
free a0
realloc a1 64
thread
free d0
thread
put c0 0 7
get c0 0
round
thread
free a1
free a2
thread
free b1
free b2
thread
free c0
free c1
thread
free d1
"""


class Tally:
    """Counts what passed, and prints what did not."""

    def __init__(self):
        self.passed, self.failed = 0, 0

    def check(self, what, found, wanted):
        if found == wanted:
            self.passed += 1
        else:
            self.failed += 1
            print(f'FAILED {what}: {found!r:.300}\n    wanted {wanted!r:.300}')


class Program:
    def __init__(self, path):
        self.path = path

    def run(self, words, text, **more):
        """Status and output on a text."""
        it = subprocess.run([self.path, *words], input=text, stdout=subprocess.PIPE, timeout=SECONDS, **more)
        return it.returncode, it.stdout


# Memory

def library_in(folder):
    """The library that refuses, or None where there is no compiler."""
    made = os.path.join(folder, 'refuse.so')
    source = os.path.join(HERE, 'checks', 'refuse.c')
    for compiler in ('cc', 'clang', 'gcc'):
        try:
            subprocess.run([compiler, '-O1', '-fno-builtin', '-shared', '-fPIC', '-o', made, source], check=True)
            return made
        except FileNotFoundError:
            pass
    return None


def refusals(program, library, folder, words, text):
    """Number, status and output of each run in which an allocation was refused."""
    mark = os.path.join(folder, 'refused')
    number = 1
    while True:
        env = {'LD_PRELOAD': library, 'REFUSE': str(number), 'REFUSED': mark}
        status, out = program.run(words, text, env=env)
        if not os.path.exists(mark):
            return
        os.remove(mark)
        yield number, status, out
        number += 1


def empties(found):
    """The status, and whether the report ends without a block."""
    return found[0], found[1].endswith(b'blocks 0 bytes 0\n')


def whole(found):
    return found


def try_memory(tally, program, library, folder):
    for what, words, text, seen in (
            ('a short script', WORDS, SHORT, whole), ('a long script', WORDS, LONG.encode(), whole), ('the largest heap', ('--mode', 'one'), SHORT, whole),
            ('no script', WORDS, b'', whole), ('a refused script', WORDS, b'alloc x\n', whole), ('wrong words', ('--mode',), b'', whole),
            ('a long word', ('--mode', 'o' * 5_000), b'', whole), ('two threads', THREADED, TWO, whole), ('four threads', (), FOUR, empties),
            ('a script that is drawn', ('--mode', 'gen', '--count', '60', '--segments', '1'), b'', whole)):
        due = seen(program.run(words, text))
        ends = {6: 0, due[0]: 0}
        for number, status, out in refusals(program, library, folder, words, text):
            tally.check(f'{what}, allocation {number} refused', (status, out) if status == 6 else seen((status, out)), (6, b'') if status == 6 else due)
            ends[status] = ends.get(status, 0) + 1
        print(f'{what}: {sum(ends.values())} allocations, each refused in turn: {ends[6]} runs ended with 6, {ends[due[0]]} as without a refusal')
        tally.check(f'{what}, that allocations are refused', ends[6] > 0, True)


# Devices

def follows_rules(text, out):
    """Whether this is the report of a script by the rules of the heap, or why not."""
    try:
        told = story.tell(script.read_script(text), report.read_report(out), story.Setting(1, 128))
        return told.is_followed and not told.notes
    except (report.NoReport, report.Refused) as why:
        return str(why)


def try_texts(tally, program):
    """What is due where nothing fails: by this file, and by the rules."""
    tally.check('a short script', program.run(WORDS, SHORT), (0, SHORT_DUE))
    status, out = program.run(WORDS, LONG.encode())
    tally.check('a long script by the rules', (status, follows_rules(LONG.encode(), out)), (0, True))


def gone():
    """The end of a pipe that is written to, whose reader went away."""
    reader, writer = os.pipe()
    os.close(reader)
    return writer


def status_into(program, words, given, output, **more):
    """The status where the output goes to a file descriptor, or is closed where that is None. The input is a text, or a descriptor."""
    if isinstance(given, bytes):
        with tempfile.TemporaryFile() as it:
            it.write(given)
            it.seek(0)
            return status_into(program, words, it.fileno(), output, **more)
    closes = None if output is not None else lambda: os.close(1)
    return subprocess.run([program.path, *words], stdin=given, stdout=output, preexec_fn=closes, timeout=SECONDS, **more).returncode


def try_outputs(tally, program):
    """No text is written there, whichever it is."""
    folder = os.open('/', os.O_RDONLY)
    full = os.open('/dev/full', os.O_WRONLY)
    for what, words, given in (
            ('a report', WORDS, SHORT), ('a long report', WORDS, LONG.encode()), ('wrong words', ('--mode',), b''), ('a refused script', WORDS, b'alloc x\n'),
            ('a failed read', WORDS, folder), ('a report of threads', (), FOUR), ('threads with a failed read', (), folder),
            ('a summary', ('--mode', 'gen', '--count', '10'), b'')):
        tally.check(f'{what} on a full device', status_into(program, words, given, full), 5)
        tally.check(f'{what} on a closed output', status_into(program, words, given, None), 5)
        for ignored in (True, False):
            writer = gone()
            found = status_into(program, words, given, writer, restore_signals=not ignored)
            tally.check(f'{what} on a pipe without a reader, its signal {"ignored" if ignored else "as it is"}', found, 5)
            os.close(writer)
    os.close(full)
    os.close(folder)


def try_leaving_reader(tally, program):
    """The reader of a pipe goes away in the midst of a report that no pipe holds."""
    front = b'0 0 alloc 8256\n' + b'0 0 size 16\n' * 100
    it = subprocess.Popen([program.path, *WORDS], stdin=subprocess.PIPE, stdout=subprocess.PIPE, bufsize=0)
    it.stdin.write(b'alloc x 16\n' + b'size x\n' * 20_000)
    it.stdin.close()
    found = bytearray()
    while len(found) < len(front) and (piece := it.stdout.read(len(front) - len(found))):
        found += piece
    it.stdout.close()
    tally.check('a reader that goes away', (it.wait(SECONDS), bytes(found)), (5, front))


def try_inputs(tally, program):
    """A read fails, and its text is whole."""
    failed = (4, b'read fault\n')
    folder = os.open('/', os.O_RDONLY)
    it = subprocess.run([program.path, *WORDS], stdin=folder, stdout=subprocess.PIPE, timeout=SECONDS)
    tally.check('a folder as input', (it.returncode, it.stdout), failed)
    it = subprocess.run([program.path, '--mode'], stdin=folder, stdout=subprocess.PIPE, timeout=SECONDS)
    tally.check('wrong words with a folder as input', (it.returncode, it.stdout), (2, b'usage fault\n'))
    os.close(folder)
    it = subprocess.run([program.path, *WORDS], stdout=subprocess.PIPE, preexec_fn=lambda: os.close(0), timeout=SECONDS)
    tally.check('a closed input', (it.returncode, it.stdout), failed)


def try_bytes(tally, program):
    """One byte at a time through pipes on both sides."""
    it = subprocess.Popen([program.path, *WORDS], stdin=subprocess.PIPE, stdout=subprocess.PIPE, bufsize=0)

    def give():
        for byte in SHORT:
            it.stdin.write(bytes([byte]))
        it.stdin.close()

    giver = threading.Thread(target=give)
    giver.start()
    found = bytearray()
    while byte := it.stdout.read(1):
        found += byte
    giver.join()
    tally.check('a byte at a time', (it.wait(SECONDS), bytes(found)), (0, SHORT_DUE))


def try_long_texts(tally, program):
    """How far a file is read that is longer than a script may be, or just as long."""
    for size, read, due in (
            (MOST_READ - 1, MOST_READ - 1, b'line 1 badline\n'), (MOST_READ, MOST_READ, b'line 0 toolong\n'), (2 * MOST_READ, MOST_READ, b'line 0 toolong\n')):
        with tempfile.TemporaryFile() as it:
            it.write(b'a' * size)
            it.seek(0)
            ran = subprocess.run([program.path, *WORDS], stdin=it.fileno(), stdout=subprocess.PIPE, timeout=SECONDS)
            tally.check(f'a text of {size:,} bytes', (ran.returncode, ran.stdout, os.lseek(it.fileno(), 0, os.SEEK_CUR)), (3, due, read))


def program_at(words):
    """The program that is named, or the built one."""
    if words:
        return os.path.abspath(words[0])
    if not os.path.exists(common.PROGRAM):
        subprocess.run([os.path.join(HERE, 'segheap'), '--mode', 'one'], stdin=subprocess.DEVNULL, stdout=subprocess.DEVNULL, check=True)
    return common.PROGRAM


def main(words):
    if set(words) & {'-h', '--help'} or len(words) > 1:
        print(__doc__)
        return 0 if len(words) == 1 else 2
    program, tally = Program(program_at(words)), Tally()
    try_texts(tally, program)
    try_outputs(tally, program)
    try_leaving_reader(tally, program)
    try_inputs(tally, program)
    try_bytes(tally, program)
    try_long_texts(tally, program)
    with tempfile.TemporaryDirectory() as folder:
        library = library_in(folder)
        tally.check('a C compiler', library is not None, True)
        if library:
            try_memory(tally, program, library, folder)
    print(f'{tally.passed} passed, {tally.failed} failed')
    return 0 if tally.passed and not tally.failed else 1


if __name__ == '__main__':
    sys.exit(main(sys.argv[1:]))
