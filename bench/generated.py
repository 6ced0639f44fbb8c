#!/usr/bin/env python3
"""Times mode gen beside the malloc of the C library doing the same script, outside the gate, by processor time.

    bench/generated.py [PROGRAM] [--rounds N] [--seeds N]

PROGRAM is crates/command_run/out/command_run where none is named. For each of N seeds (5) both run 100,000 commands and none, in
turn, and the least of N rounds (15) counts for each of the four. The difference of a pair is what the commands take: to draw them and
to run them. The other program, bench/generated.c, is built by cc -O2; where the heap refuses nothing, both have the same blocks at the
end, which is looked at first."""
import os
import subprocess
import sys
import tempfile

HERE = os.path.dirname(os.path.dirname(os.path.abspath(__file__)))
COUNT = 100_000
COMPARED = 1_000


def run(words):
    """What a program writes, and its processor time."""
    read, write = os.pipe()
    child = subprocess.Popen(words, stdin=subprocess.DEVNULL, stdout=write)
    os.close(write)
    with os.fdopen(read) as pipe:
        text = pipe.read()
    _, status, use = os.wait4(child.pid, 0)
    child.returncode = os.waitstatus_to_exitcode(status)
    if child.returncode != 0:
        sys.exit(f'{" ".join(words)}: status {child.returncode}')
    return text, use.ru_utime + use.ru_stime


def built(folder):
    made = os.path.join(folder, 'generated')
    subprocess.run(['cc', '-O2', '-o', made, os.path.join(HERE, 'bench/generated.c')], check=True)
    return made


def ours(program, count, seed):
    return [program, '--mode', 'gen', '--count', str(count), '--seed', str(seed)]


def compare(program, other):
    """The same blocks are left, where nothing was refused."""
    found = 0
    for seed in range(10):
        lines = run(ours(program, COMPARED, seed))[0].splitlines()
        if lines[1:4] == ['nofit 0', 'notlive 0', 'past 0']:
            found += 1
            theirs = run([other, str(COMPARED), str(seed)])[0].strip()
            if lines[4] != theirs:
                sys.exit(f'seed {seed}: "{lines[4]}", and "{theirs}" by malloc')
    print(f'the same blocks for {found} seeds')


def measure(program, other, seeds, rounds):
    sums = [0.0, 0.0]
    print(f'{"ns a command":14}{"heap":>10}{"malloc":>10}{"ratio":>8}')
    for seed in range(1, seeds + 1):
        runs = [ours(program, COUNT, seed), ours(program, 0, seed), [other, str(COUNT), str(seed)], [other, '0', str(seed)]]
        least = [min(times) for times in zip(*([run(words)[1] for words in runs] for _ in range(rounds)))]
        pair = [(least[0] - least[1]) / COUNT * 1e9, (least[2] - least[3]) / COUNT * 1e9]
        sums = [sums[0] + pair[0], sums[1] + pair[1]]
        print(f'seed {seed:<9}{pair[0]:10,.0f}{pair[1]:10,.0f}{pair[0] / pair[1]:8.2f}')
    print(f'{"all":14}{sums[0] / seeds:10,.0f}{sums[1] / seeds:10,.0f}{sums[0] / sums[1]:8.2f}')


def main():
    words = sys.argv[1:]

    def option(word, default):
        if word not in words:
            return default
        at = words.index(word)
        value = words[at + 1]
        del words[at:at + 2]
        return value
    rounds, seeds = int(option('--rounds', '15')), int(option('--seeds', '5'))
    program = os.path.abspath(words[0]) if words else os.path.join(HERE, 'crates/command_run/out/command_run')
    with tempfile.TemporaryDirectory(prefix='generated.') as folder:
        other = built(folder)
        compare(program, other)
        measure(program, other, seeds, rounds)


if __name__ == '__main__':
    main()
