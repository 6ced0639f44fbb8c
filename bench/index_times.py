#!/usr/bin/env python3
"""Times the index of gaps and the search over words, outside the gate, in nanoseconds a call.

    bench/index_times.py [COPY]      COPY: the folder where the program is made and built, one of its own where none is named

The index (`vs_free_tree`) stands beside the sorted vector that it replaced, with gaps put in, looked up and taken out in rising,
falling and random order. The lanes (`lane_scan`) stand beside a plain loop, on 4,096 words of which none matches. Each gap is
looked for before it is put in, as no gap may be put in twice. The program is proved before it is built."""
import os
import re
import shutil
import subprocess
import sys
import tempfile

HERE = os.path.dirname(os.path.dirname(os.path.abspath(__file__)))
USED = ['heap_model', 'vs_free_tree', 'lane_scan']

SORTED = '''// Gaps in a sorted vector.
ghost use Rattle.std.specs.Prelude.{◌≤◌, length};

pub fn place(pairs: &[(u16, u32)], units: u16, at: u32) -> usize
    ensures { result ≤ length pairs.now }
{
    pairs.partition_point(|pair| pair.0 < units || pair.0 == units && pair.1 < at)
}

pub fn add(pairs: &mut Vec<(u16, u32)>, units: u16, at: u32) -> bool {
    let here = place(pairs, units, at);
    if here < pairs.len() && pairs[here].0 == units && pairs[here].1 == at {
        return false;
    }
    here <= pairs.len() && pairs.insert(here, (units, at)).is_ok()
}

pub fn remove(pairs: &mut Vec<(u16, u32)>, units: u16, at: u32) -> bool {
    let here = place(pairs, units, at);
    if here < pairs.len() && pairs[here].0 == units && pairs[here].1 == at {
        pairs.remove(here);
        return true;
    }
    false
}

pub fn best(pairs: &[(u16, u32)], units: u16) -> Option<(u16, u32)> {
    pairs.get(place(pairs, units, 0)).copied()
}
'''

MAIN = '''// Times the index of gaps and the search over words.
#![tactic(auto)]

mod sorted;

use lane_scan::next_match;
use std::io;
use std::time::Instant;
use vs_free_tree::FreeIndex;

#[derive(Clone, Copy)]
enum Order {
    Rising,
    Falling,
    Random,
}

// The gap that comes as the i-th of n.
fn gap(order: Order, n: u32, i: u32) -> (u16, u32) {
    let k = match order {
        Order::Rising => i,
        Order::Falling => n.saturating_sub(1).saturating_sub(i),
        Order::Random => (u64::from(i) * 48_271 % u64::from(n.max(1))) as u32,
    };
    ((2 + k / 8 % 60_000) as u16, k)
}

fn name(order: Order) -> &'static str {
    match order {
        Order::Rising => "rising",
        Order::Falling => "falling",
        Order::Random => "random",
    }
}

fn each(nanos: u128, n: u32) -> u64 {
    (nanos / u128::from(n.max(1)) % 1_000_000_000_000) as u64
}

fn put(index: &mut FreeIndex, units: u16, at: u32) {
    if index.spare() > 0 && !index.remove(units, at) {
        index.add(units, at);
    }
}

fn time_tree(rt: &HostRuntime, order: Order, n: u32) -> io::Result<()> {
    let Ok(mut index) = FreeIndex::new(rt.alloc(), n) else {
        return Ok(());
    };
    let start = Instant::now(rt)?;
    for i in 0..n {
        let (units, at) = gap(order, n, i);
        put(&mut index, units, at);
    }
    let add = start.elapsed(rt)?.as_nanos();
    let start = Instant::now(rt)?;
    let mut found = 0u32;
    for i in 0..n {
        if index.best(gap(order, n, i).0).is_some() {
            found = found.saturating_add(1);
        }
    }
    let best = start.elapsed(rt)?.as_nanos();
    let start = Instant::now(rt)?;
    for i in 0..n {
        let (units, at) = gap(order, n, i);
        if index.remove(units, at) {
            found = found.saturating_add(1);
        }
    }
    let remove = start.elapsed(rt)?.as_nanos();
    let (add, best, remove) = (each(add, n), each(best, n), each(remove, n));
    let order = name(order);
    println!(*rt; "tree {n} {order} {add} {best} {remove} {found}")
}

fn time_sorted(rt: &HostRuntime, order: Order, n: u32) -> io::Result<()> {
    let Ok(mut pairs) = Vec::with_capacity(rt.alloc(), n as usize) else {
        return Ok(());
    };
    let start = Instant::now(rt)?;
    let mut found = 0u32;
    for i in 0..n {
        let (units, at) = gap(order, n, i);
        sorted::add(&mut pairs, units, at);
    }
    let add = start.elapsed(rt)?.as_nanos();
    let start = Instant::now(rt)?;
    for i in 0..n {
        if sorted::best(&pairs, gap(order, n, i).0).is_some() {
            found = found.saturating_add(1);
        }
    }
    let best = start.elapsed(rt)?.as_nanos();
    let start = Instant::now(rt)?;
    for i in 0..n {
        let (units, at) = gap(order, n, i);
        if sorted::remove(&mut pairs, units, at) {
            found = found.saturating_add(1);
        }
    }
    let remove = start.elapsed(rt)?.as_nanos();
    let (add, best, remove) = (each(add, n), each(best, n), each(remove, n));
    let order = name(order);
    println!(*rt; "sorted {n} {order} {add} {best} {remove} {found}")
}

fn time_words(rt: &HostRuntime) -> io::Result<()> {
    let words = [3u64; 4096];
    let rounds = 20_000u32;
    let mut found = 0u32;
    let start = Instant::now(rt)?;
    for i in 0..rounds {
        if next_match(&words, 16, 16, (i % 2) as usize).is_some() {
            found = found.saturating_add(1);
        }
    }
    let lanes = start.elapsed(rt)?.as_nanos();
    let start = Instant::now(rt)?;
    for i in 0..rounds {
        let value = 16 + u64::from(i % 2) * 32;
        if words.iter().position(|word| *word & value == value).is_some() {
            found = found.saturating_add(1);
        }
    }
    let plain = start.elapsed(rt)?.as_nanos();
    let (lanes, plain) = (each(lanes, rounds), each(plain, rounds));
    println!(*rt; "words 4096 none {lanes} {plain} {found}")
}

fn main(rt: HostRuntime) -> io::Result<()> {
    time_words(&rt)?;
    for n in [1_000u32, 10_000, 60_000, 260_000] {
        for order in [Order::Rising, Order::Falling, Order::Random] {
            time_tree(&rt, order, n)?;
            time_sorted(&rt, order, n)?;
        }
    }
    Ok(())
}
'''


def made(copy):
    """The program, built in a folder of its own over copies of the crates that it times."""
    lines = [line for line in open(os.path.join(HERE, 'crates.txt')) if line.split(':')[0].strip() in USED]
    os.makedirs(os.path.join(copy, 'crates', 'index_bench', 'src'), exist_ok=True)
    with open(os.path.join(copy, 'crates.txt'), 'w') as out:
        out.writelines(lines + ['index_bench: ' + ' '.join(USED) + '\n'])
    for crate in USED:
        shutil.copytree(os.path.join(HERE, 'crates', crate), os.path.join(copy, 'crates', crate), dirs_exist_ok=True)
    for name, text in (('main.rt', MAIN), ('sorted.rt', SORTED)):
        with open(os.path.join(copy, 'crates', 'index_bench', 'src', name), 'w') as out:
            out.write(text)
    ran = subprocess.run(['rt', 'run'], cwd=os.path.join(copy, 'crates', 'index_bench'), capture_output=True, text=True)
    if ran.returncode != 0:
        sys.exit(ran.stdout[-3000:] + ran.stderr[-3000:])
    return ran.stdout


def main():
    copy = os.path.abspath(sys.argv[1]) if len(sys.argv) > 1 else tempfile.mkdtemp(prefix='index_bench.')
    told = made(copy)
    words = re.search(r'^words 4096 none (\d+) (\d+)', told, re.M)
    print(f'4,096 words: {words[1]} ns by lanes, {words[2]} ns one by one')
    print(f'{"ns a call":24}{"add":>8}{"best":>8}{"remove":>8}   sorted: {"add":>8}{"best":>8}{"remove":>8}')
    rows = {(m[1], m[2], m[3]): m.groups()[3:6] for m in re.finditer(r'^(tree|sorted) (\d+) (\w+) (\d+) (\d+) (\d+)', told, re.M)}
    for kind, n, order in rows:
        if kind == 'tree':
            tree, plain = rows[kind, n, order], rows['sorted', n, order]
            print(f'{int(n):>9,} {order:14}' + ''.join(f'{t:>8}' for t in tree) + ' ' * 11 + ''.join(f'{t:>8}' for t in plain))
    if len(sys.argv) < 2:
        shutil.rmtree(copy)


if __name__ == '__main__':
    main()
