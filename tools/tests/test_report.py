"""Outputs: what is read, what is none, and the state that a report tells."""
import unittest

from heap_tools import report, state

WHOLE = b"""0 0 alloc 8256
0 0 lock ok
0 0 walk 8256 5 vs
0 0 walk end 1
0 0 unlock ok
0 0 walk notlocked
0 0 get past 3
segment 0
vs 2 16
lfh 18 1 bucket 2 slot 0
back 19 33
free 52 204 committed 7
large 256 128
block 8256 5 vs
block 73792 20 lfh
block 77824 131073 back
block 1048576 520193 large
blocks 4 bytes 651291
"""


class Report(unittest.TestCase):
    def test_whole(self):
        read = report.read_report(WHOLE)
        self.assertEqual([it.text() for it in read.replies], ['8256', 'ok', '1 blocks', 'ok', 'notlocked', 'past 3'])
        self.assertEqual(read.replies[2].blocks, ((8256, 5, 'vs'),))
        self.assertEqual((len(read.runs), len(read.large), len(read.blocks)), (4, 1, 4))

    def test_state(self):
        found = state.of_report(report.read_report(WHOLE))
        held = {it.layer: (it.start, it.bytes) for it in found.blocks()}
        self.assertEqual(held, {'vs': (8240, 32), 'lfh': (73792, 32), 'back': (77824, 33 * 4096), 'large': (1048576, 128 * 4096)})
        self.assertFalse(found.is_exact)

    def test_refusals(self):
        for text in (b'usage fault\n', b'line 3 badline\n', b'read fault\n'):
            with self.assertRaises(report.Refused):
                report.read_report(text)

    def test_no_reports(self):
        for text in (b'', b'0 0 alloc 8256\n', b'blocks 1 bytes 0\n', b'0 0 alloc x\nblocks 0 bytes 0\n', b'\xff\n', b'blocks 0 bytes 0\nsegment 0\n', b'vs 2\nblocks 0 bytes 0\n'):
            with self.assertRaises(report.NoReport):
                report.read_report(text)

    def test_what_is_an_output(self):
        for text in (WHOLE, b'blocks 0 bytes 0\n', b'line 1 badline\n', b'0 0 alloc 8'):
            self.assertTrue(report.is_output(text))
        for text in (b'', b'alloc a 5\n', b'# comment\n', b'round\n'):
            self.assertFalse(report.is_output(text))
