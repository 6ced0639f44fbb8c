"""The heap of the rules: worked rows, each computed by hand from the rules of the heap."""
import unittest

from heap_tools import heap, rules, script, state, story


def replies(text, segments=1, large=1_024, slots=None):
    told = story.tell(script.read_script(text.encode()), None, story.Setting(segments, large, 1, slots))
    return [it.text for it in told.steps], told


def words(text):
    """Commands separated by semicolons."""
    return '\n'.join(it.strip() for it in text.split(';'))


ROWS = [
    ('alloc x 131073', ['8192']),
    ('alloc x 131072', ['8256']),
    ('alloc x 1; alloc y 1', ['8256', '8288']),
    ('alloc x 0; size x', ['8256', '0']),
    ('alloc a 520192; alloc b 520192; alloc c 520192', ['8192', '528384', 'nofit']),
    ('alloc x 18446744073709551615', ['nofit']),
    ('alloc a 139264; alloc b 163840; alloc c 135168; alloc d 163840; free a; free c; alloc e 135000',
     ['8192', '147456', '311296', '446464', 'ok', 'ok', '311296']),
    ('alloc a 135168; alloc b 135168; alloc c 135168; alloc d 135168; free a; compact; free c; alloc e 135168',
     ['8192', '143360', '278528', '413696', 'ok', '33', 'ok', '278528']),
    ('alloc x 24; put x 0 7; put x 2 9; alloc y 16; realloc x 200; get x 0; get x 2', ['8256', 'ok', 'ok', '8304', '8336', '7', '9']),
    ('alloc x 100; realloc x 113; alloc y 16; inplace x 500; size x', ['8256', '8256', '8400', 'noroom', '113']),
    ('alloc x 16; free @8240; free @8257; free @0; free x; free x', ['8256', 'notlive', 'notlive', 'notlive', 'ok', 'notlive']),
    ('alloc x 24; get x 3', ['8256', 'past 3']),
    ('alloc a 16384; alloc b 16384; alloc c 16384; alloc d 16384', ['8256', '24656', '41056', '73792']),
    ('alloc a 32; alloc b 16; free a; alloc c 16; alloc d 16; realloc c 32', ['8256', '8304', 'ok', '8256', '8336', '8256']),
    ('alloc x 131073; realloc x 520192; realloc x 131073', ['8192', '8192', '8192']),
    ('alloc x 16; put x 0 5; free x; alloc y 16; get y 0; free y; zalloc z 16; get z 0', ['8256', 'ok', 'ok', '8256', '5', 'ok', '8256', '0']),
    ('alloc x 5; lock; walk; unlock; walk', ['8256', 'ok', '1 blocks', 'ok', 'notlocked']),
]


class Rows(unittest.TestCase):
    def test_rows(self):
        for text, wanted in ROWS:
            with self.subTest(text=text):
                self.assertEqual(replies(words(text))[0], wanted)

    def test_second_segment(self):
        self.assertEqual(replies(words('alloc a 520192; alloc b 520192; alloc c 520192'), 2)[0][2], '1056768')

    def test_large(self):
        self.assertEqual(replies('alloc x 520193', 1, 128)[0], ['1048576'])
        self.assertEqual(replies('alloc x 520193', 1, 127)[0], ['nofit'])
        row = words('alloc x 520192; put x 0 5; realloc x 600000; get x 0; realloc x 100; get x 0')
        self.assertEqual(replies(row, 1, 147)[0], ['8192', 'ok', '1048576', '5', '8256', '5'])

    def test_lock_depth(self):
        found = replies('lock\n' * 65_536 + 'unlock\n' * 65_536)[0]
        self.assertEqual((found.count('ok'), found[65_535], found[-1]), (131_070, 'depth', 'notowner'))

    def test_due_by_live_blocks(self):
        """The 18th block of a bucket is the first of the front end, and its place is the draw's: seed 42 and stream 54, as published
        with the generator."""
        one = heap.Heap(1, 0, 42)
        found = [one.alloc(16, caller=54).what for _ in range(20)]
        self.assertEqual(found, [8256 + 32 * i for i in range(17)] + [76720, 73936, 74560])
        self.assertEqual([one.free(76720).what, one.free(76720).what, one.free(73936).what, one.alloc(16, caller=54).what, one.size(76144).what],
                         ['ok', 'notlive', 'ok', 76144, 16])
        self.assertEqual([(it.kind, it.first, it.pages) for it in state.of_heap(one).runs], [('vs', 2, 16), ('lfh', 18, 1), ('free', 19, 237)])

    def test_due_by_placed_blocks(self):
        found = replies('alloc x 16\nfree x\n' * 2_040 + 'alloc x 16')
        self.assertEqual(set(found[0][:-1]), {'8256', 'ok'})
        self.assertEqual([(it.kind, it.first, it.pages, it.committed) for it in found[1].state.runs], [('lfh', 2, 1, 0), ('free', 3, 253, 15)])

    def test_full_subsegment(self):
        """Fifteen blocks of 256 bytes fill a subsegment, each once; the next makes another."""
        found = replies('\n'.join(f'alloc n{i} 256' for i in range(33)))[0]
        self.assertEqual(found[:17], [str(8256 + 272 * i) for i in range(17)])
        self.assertEqual(sorted(map(int, found[17:32])), [73792 + 256 * i for i in range(15)])
        self.assertIn(int(found[32]) - 77888, range(0, 15 * 256, 256))

    def test_fallback(self):
        """Where the front end has no range, the variable-size layer serves the request; where it has none either, it is refused."""
        text = [f'alloc n{i} 16' for i in range(18)] + ['alloc p 520192', 'alloc q 450560'] + [f'alloc m{i} 16' for i in range(252)] + ['alloc r 131072']
        found = replies('\n'.join(text))[0]
        self.assertEqual(found[18:20] + found[-2:], ['77824', '598016', '8800', 'nofit'])
        self.assertEqual(sorted(map(int, found[17:18] + found[20:-2])), [73792 + 16 * i for i in range(252)])

    def test_compaction(self):
        """An empty subsegment goes back, and free pages are no longer committed: the 16 of the variable-size layer and the one."""
        text = [f'alloc n{i} 16' for i in range(18)] + [f'free n{i}' for i in range(18)] + ['compact']
        found, told = replies('\n'.join(text))
        self.assertEqual(found[-1], '17')
        self.assertEqual([(it.kind, it.pages, it.committed) for it in told.state.runs], [('free', 254, 0)])

    def test_threads_by_turns(self):
        found, told = replies('thread\nalloc x 200000\nthread\nalloc x 300000\nround\nsize x', slots=4)
        self.assertEqual(found[-1], '300000')
        self.assertTrue(told.is_followed)


class Draws(unittest.TestCase):
    def test_first_draws(self):
        draws = heap.Draws(42, 54)
        self.assertEqual([f'{draws.draw():08x}' for _ in range(4)], ['a15c02b7', '7b47f409', 'ba1d3330', '83d2f293'])


class Rules(unittest.TestCase):
    def test_buckets(self):
        sizes = [0, 16, 17, 1024, 1025, 2048, 2049, 4096, 4097, 8192, 8193, 16368, 16369]
        self.assertEqual([rules.bucket_of(it) for it in sizes], [1, 1, 2, 64, 65, 80, 81, 96, 97, 112, 113, 128, None])

    def test_blocks(self):
        rows = {16: (1, 252), 64: (1, 63), 256: (1, 15), 272: (4, 60), 1024: (4, 15), 1088: (16, 60), 2048: (16, 31), 4096: (16, 15), 4352: (64, 60), 8192: (64, 31), 8704: (64, 30), 16384: (64, 15)}
        for size, row in rows.items():
            bucket = rules.bucket_of(min(size, 16368))
            self.assertEqual((rules.block_size(bucket), rules.subsegment_pages(bucket), rules.block_count(bucket)), (size, *row))


class Sums(unittest.TestCase):
    def test_sums(self):
        """A block of 100 bytes has 8 granules with its header; one of 131,073 bytes 33 pages."""
        told = replies('alloc a 100\nalloc b 131073')[1]
        found = state.sums(told.state)
        vs, back = found['layers']['vs'], found['layers']['back']
        self.assertEqual((vs['blocks'], vs['asked'], vs['held'], vs['inside'], vs['pages'], vs['largest_free']), (1, 100, 128, 28, 16, 65_536 - 48 - 128))
        self.assertEqual((back['pages'], back['inside'], found['pages']['committed'], found['pages']['largest_free']), (33, 33 * 4096 - 131_073, 49, 205))
