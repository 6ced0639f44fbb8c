#!/usr/bin/env python3
"""Times an allocation of 16 bytes and its free, outside the gate, beside a loop of the bare atomic steps that they need.

    bench/calls.py [FOLDER] [--rounds N] [--turns N]

Nanoseconds of processor time a pair, by one caller and by 2 and 4 threads, each with a caller of a slot of its own. The pair is
`alloc_now` and `free_now` of `heap_now`, of a size that the front end serves. Its bare steps are those on a table of the kit under
no rule: gate, active word, hint, bitmap word, fetch_or, size word, gate; then gate, tag, swap of the size word, fetch_and, gate.
A second row has the gate alone, in and out twice, as a pair goes. What is left of the pair is the work of the front end: its
search, claim and size word, the tag, the taking and the clearing.

The program is in bench/calls, with its proofs; it runs one loop of so many rounds. A loop of 2 N rounds beside one of N (2,000,000)
gives the time of a round. Runs go in turn over all loops, and the least of so many turns (5) counts for each. The clock is that of
the processor, so other programs matter less; what they do to caches and to threads that meet at the gate they still do.

A last row is a full subsegment that a search passes over, of one word of bits: one caller takes a block again that it gave back in the
last of 20 or of 200 full subsegments, where the hint names the first.

With --instructions it counts those of one caller by valgrind's callgrind, which no load changes.

Where FOLDER is named the copy of the crates that is built stays there, with what their proofs kept; else it goes. Each crate that
has no proof on this machine is proved first, so run it where `rt all check` or `rt ci` ran, or give it time."""
import math
import os
import re
import shutil
import subprocess
import sys
import tempfile

HERE = os.path.dirname(os.path.dirname(os.path.abspath(__file__)))
PROGRAM = 'call_bench'
KINDS = ('bare', 'calls', 'bare-gate', 'gate')
THREADS = (1, 2, 4)
FULL = (20, 200)      # subsegments


def line_of(name, lines):
    return next(line for line in lines if line.split(':')[0].split()[0] == name)


def used_by(lines):
    """`heap_now` and all crates that it stands on, in the order of crates.txt, and the libraries of the kit that they use."""
    ours = [line.split(':')[0].split()[0] for line in lines]
    words, new = set(), {'heap_now'}
    while new:
        words |= new
        new = {word for name in new if name in ours for word in line_of(name, lines).split(':')[1].split()} - words
    return [name for name in ours if name in words], sorted(words - set(ours))


def copied(source, target):
    """The parts of a crate that its proof reads, and its built library where there is one."""
    for part in ('src', 'specs', 'proofs', 'out/rlib'):
        if os.path.isdir(os.path.join(source, part)):
            shutil.copytree(os.path.join(source, part), os.path.join(target, part), dirs_exist_ok=True)


def program_in(folder):
    """The program's crate, in a copy of the crates that it stands on."""
    with open(os.path.join(HERE, 'crates.txt')) as names:
        lines = [line for line in names if ':' in line and not line.startswith('#')]
    ours, kit = used_by(lines)
    for name in ours:
        copied(os.path.join(HERE, 'crates', name), os.path.join(folder, 'crates', name))
    top = os.path.join(folder, 'crates', PROGRAM)
    for at, _, files in os.walk(os.path.join(HERE, 'bench', 'calls')):
        to = os.path.join(top, os.path.relpath(at, os.path.join(HERE, 'bench', 'calls')))
        os.makedirs(to, exist_ok=True)
        for name in files:
            # (where it lies no check reads it, so it has an ending of its own)
            shutil.copy(os.path.join(at, name), os.path.join(to, name.removesuffix('.txt')))
    # how a call begins and ends, as the public calls do it
    frame = os.path.join(HERE, 'crates', 'heap_now')
    shutil.copy(os.path.join(frame, 'src', 'frame.rt'), os.path.join(top, 'src', 'frame.rt'))
    for call in ('enter_call', 'leave_call'):
        with open(os.path.join(frame, 'proofs', 'frame', call, 'Answers.antt')) as proof:
            text = proof.read().replace('Rattle.heap_now.proofs.frame.', f'Rattle.{PROGRAM}.proofs.frame.')
        os.makedirs(os.path.join(top, 'proofs', 'frame', call), exist_ok=True)
        with open(os.path.join(top, 'proofs', 'frame', call, 'Answers.antt'), 'w') as out:
            out.write(text)
    shutil.copy(os.path.join(HERE, 'HANDLES'), folder)
    with open(os.path.join(folder, 'crates.txt'), 'w') as out:
        out.writelines(line_of(name, lines) for name in ours)
        out.write(f'{PROGRAM}: ' + ' '.join(ours + kit) + '\n')
    return top


def built(folder):
    top = program_in(folder)
    ran = subprocess.run(['rt', 'run', '--', 'bare', '1', '1'], cwd=top, capture_output=True, text=True)
    if ran.returncode != 0:
        sys.exit(ran.stdout[-3000:] + ran.stderr[-3000:])
    return os.path.join(top, 'out', PROGRAM)


def processor_seconds(words, rounds):
    child = subprocess.Popen(words, stdout=subprocess.PIPE)
    told = child.stdout.read().strip()
    _, status, use = os.wait4(child.pid, 0)
    child.returncode = os.waitstatus_to_exitcode(status)
    if child.returncode != 0 or told != str(rounds).encode():
        sys.exit(f'{" ".join(words)}: status {child.returncode}, {told.decode()} of {rounds} rounds')
    return use.ru_utime + use.ru_stime


def passed(cost):
    """Of one full subsegment, where cost(n) is that of a round over n."""
    few, many = FULL
    return (cost(many) - cost(few)) / (many - few)


def times(program, rounds, turns):
    """Nanoseconds a round, by kind and number of threads, and those of a full subsegment."""
    runs = [(kind, threads, count) for kind in KINDS for threads in THREADS for count in (rounds, 2 * rounds)]
    runs += [('pass', full, count) for full in FULL for count in (rounds // 20, rounds // 10)]
    least = dict.fromkeys(runs, math.inf)
    for _ in range(turns):
        for run in runs:
            kind, threads, count = run
            words = [program, kind, str(count), str(threads)]
            least[run] = min(least[run], processor_seconds(words, count if kind == 'pass' else count * threads))
    told = {(kind, threads): (least[kind, threads, 2 * rounds] - least[kind, threads, rounds]) / (rounds * threads) * 1e9 for kind in KINDS for threads in THREADS}
    few = rounds // 20
    return told, passed(lambda full: (least['pass', full, rounds // 10] - least['pass', full, few]) / few * 1e9)


def instructions(program):
    """Instructions a round of one caller, by kind, and those of a full subsegment."""
    def count(kind, rounds, last=1):
        with tempfile.NamedTemporaryFile() as out:
            words = ['valgrind', '--tool=callgrind', f'--callgrind-out-file={out.name}', program, kind, str(rounds), str(last)]
            ran = subprocess.run(words, capture_output=True, text=True)
        return int(re.search(r'Collected\s*:\s*(\d+)', ran.stderr)[1])
    told = {(kind, 1): (count(kind, 20_000) - count(kind, 10_000)) / 10_000 for kind in KINDS}
    return told, passed(lambda full: (count('pass', 2_000, full) - count('pass', 1_000, full)) / 1_000)


def row(label, bare, calls):
    print(f'{label:36}{bare:10.1f}{calls:10.1f}{calls / bare:8.2f}')


def table(told, full, labels):
    for label, one in labels:
        row(f'{label}, a pair', told['bare', one], told['calls', one])
        row('  of it in and out of the gate', told['bare-gate', one], told['gate', one])
        row('  of it the front end', *(told[kind, one] - told[gate, one] for kind, gate in (('bare', 'bare-gate'), ('calls', 'gate'))))
    print(f'{"a full subsegment in a pass":46}{full:10.1f}')


def main():
    words = sys.argv[1:]

    def option(word, default):
        if word not in words:
            return default
        at = words.index(word)
        value = words[at + 1]
        del words[at:at + 2]
        return int(value)
    rounds, turns = option('--rounds', 2_000_000), option('--turns', 5)
    counts = '--instructions' in words
    words = [word for word in words if word != '--instructions']
    folder = os.path.abspath(words[0]) if words else tempfile.mkdtemp(prefix='calls.')
    program = built(folder)
    print(f'{"instructions" if counts else "nanoseconds":36}{"bare":>10}{"calls":>10}{"ratio":>8}')
    if counts:
        table(*instructions(program), [('one caller', 1)])
    else:
        table(*times(program, rounds, turns), [('one caller', 1), ('two threads', 2), ('four threads', 4)])
    if not words:
        shutil.rmtree(folder)


if __name__ == '__main__':
    main()
