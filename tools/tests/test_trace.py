"""Logs of mtrace and ltrace become scripts."""
import os
import unittest

from heap_tools import log, script

HERE = os.path.dirname(os.path.realpath(__file__))


def traced(text, **words):
    reader, writer = log.Reader(), log.Writer(**words)
    for line in text.splitlines():
        for event in reader.take(line):
            writer.take(event)
    made = writer.script(reader.kinds)
    script.read_script(made.encode())
    return [it for it in made.splitlines() if it[0] != '#'], writer, reader


MTRACE = """= Start
@ ./a b:(main+0x1a)[0x11a5] + 0x100 0x18
@ ./a:[0x1] + 0x200 0
@ ./a:[0x1] < 0x100
@ ./a:[0x1] > 0x300 0x1388
@ ./a:[0x1] - 0x200
@ ./a:[0x1] - 0x999
@ ./a:[0x1] ! 0x300 0x10
+ (nil) 0x10
@ ./a:[0x1] - 0x300
= End
"""

LTRACE = """[pid 12] malloc(24 <unfinished ...>
[pid 13] malloc(40)                     = 0x200
[pid 12] <... malloc resumed> )         = 0x100
1773 10:25:14.094163 realloc(0x100, 80 <unfinished ...>
1773 10:25:14.094164 <... realloc resumed> ) = 0x300
libstdc++.so.6->malloc(72704) = 0x1000
free(nil) = <void>
12.5 malloc(3) = nil
calloc(2, 8) = 0x2000 <0.000012>
puts("free(0x1000) = 1") = 3
prog->realloc(0, 7)  = 0x4000
prog->realloc(0x4000, 0)  = 0
10:11:12 free(0x2000) = <void>
+++ exited (status 0) +++
"""


class Trace(unittest.TestCase):
    def test_mtrace(self):
        lines, writer, _ = traced(MTRACE)
        self.assertEqual(lines, ['alloc b1 24', 'alloc b2 0', 'realloc b1 5000', 'free b2', 'free b1'])
        self.assertEqual((writer.left['free'], writer.left['failed']), (1, 2))

    def test_plain(self):
        self.assertEqual(traced(MTRACE, plain=True)[0], ['alloc b1 24', 'alloc b2 0', 'alloc b3 5000', 'free b1', 'free b2', 'free b3'])

    def test_ltrace(self):
        lines, _, reader = traced(LTRACE)
        self.assertEqual(lines, ['alloc b1 40', 'alloc b2 24', 'realloc b2 80', 'alloc b3 72704', 'zalloc b4 16', 'alloc b5 7', 'free b5', 'free b4'])
        self.assertEqual(reader.kinds, {'ltrace'})

    def test_processes_of_ltrace(self):
        """With -o, a number stands before each line; calls that were cut in two are matched by it."""
        text = '71 malloc(1 <unfinished ...>\n72 malloc(2 <unfinished ...>\n71 <... malloc resumed> ) = 0x10\n72 <... malloc resumed> ) = 0x20\n'
        self.assertEqual(traced(text)[0], ['alloc b1 1', 'alloc b2 2'])

    def test_large_blocks_of_plain(self):
        text = '+ 0x10 0x7f001\n- 0x10\n+ 0x20 0x7f000\n< 0x20\n> 0x30 0x100000\n- 0x30\n'
        self.assertEqual(traced(text, plain=True)[0], ['alloc b1 520192', 'free b1'])

    def test_sizes_beyond_a_script(self):
        lines, writer, _ = traced('calloc(94176697277184, 2048000) = 0x10\nfree(0x10) = <void>\nmalloc(5) = 0x20\nrealloc(0x20, 99999999999999999999) = 0x30\nfree(0x30) = <void>\n')
        self.assertEqual((lines, writer.left['wild'], writer.left['free']), (['alloc b1 5', 'free b1'], 2, 0))

    def test_unseen(self):
        """An address that is given again was freed where the log does not show it."""
        lines, writer, _ = traced('+ 0x10 0x8\n+ 0x10 0x9\n< 0x77\n> 0x88 0x5\n')
        self.assertEqual(lines, ['alloc b1 8', 'free b1', 'alloc b2 9', 'alloc b3 5'])
        self.assertEqual((writer.left['unseen'], writer.left['strange']), (1, 1))

    def test_limit(self):
        text = ''.join(f'+ {16 * i:#x} 0x10\n' for i in range(1, 5_000))
        lines, writer, reader = traced(text, limit=10_000)
        made = writer.script(reader.kinds)
        self.assertLessEqual(len(made), 10_000)
        self.assertEqual(len(lines) + writer.cut, 4_999)
        self.assertTrue(made.splitlines()[-1].startswith(f'# cut: {writer.cut:,} commands'))

    def test_no_log(self):
        reader = log.Reader()
        self.assertEqual(reader.take('hello world'), [])
        self.assertEqual(reader.known, 0)

    def test_both_logs_of_one_program(self):
        """The stored logs of words.c tell the same calls; mtrace does not tell calloc from malloc."""
        found = []
        for name in ('words.mtrace', 'words.ltrace'):
            with open(os.path.join(HERE, name), encoding='utf-8') as it:
                found.append(traced(it.read())[0])
        self.assertNotEqual(found[0], found[1])
        self.assertEqual(found[0], [it.replace('zalloc', 'alloc') for it in found[1]])
