"""The tools as they are called, on outputs written by hand or by the rules alone: no program is needed."""
import json
import os
import re
import tempfile
import unittest
import xml.etree.ElementTree as xml

from tool import file, ran

SCRIPT = 'alloc a 131072\nalloc b 24\nfree a\nfree a\nalloc c 520193\nsize nobody\n'
OUTPUT = """0 0 alloc 8192
0 0 alloc 143360
0 0 free ok
segment 0
free 2 33 committed 33
back 35 33
free 68 188 committed 0
block 143360 131073 back
blocks 1 bytes 131073
"""
OF_OUTPUT = 'alloc a 131073\nalloc b 131073\nfree a\n'
THREADS = 'thread\nalloc x 200000\nthread\nalloc y 300000\nround\nfree x\n'
OF_THREADS = """0 0 alloc 311296
0 1 alloc 8192
1 0 free ok
segment 0
back 2 74
free 76 180 committed 49
block 8192 300000 back
blocks 1 bytes 300000
"""


class Folder(unittest.TestCase):
    def setUp(self):
        self.room = tempfile.TemporaryDirectory()
        self.addCleanup(self.room.cleanup)
        self.at = self.room.name

    def file(self, name, text):
        return file(self.at, name, text)


class Explain(Folder):
    def test_by_rules(self):
        status, out, _ = ran('explain', '--rules', '--width', '400', self.file('s', SCRIPT))
        rows = {int(it.split()[0]): it for it in out.splitlines() if re.match(r' *\d+  ', it)}
        self.assertEqual(status, 0)
        for line, parts in {
            1: ['0x2040', 'vs', '131,072 bytes, too large for a bucket: variable size', 'segment 0 is reserved', 'new subsegment of 33 pages at page 2'],
            2: ['0x22050', 'bucket 2 is inactive (0 of 17 live, 0 of 2,040 placed)', 'the smallest gap that has 3 granules'],
            3: ['ok', 'at 0x2040', 'gap of'],
            4: ['notlive', 'no live block begins there'],
            5: ['0x1000000', 'large', '520,193 bytes, too large for the back end: 128 pages', 'lowest run of the large area that has 128 pages'],
            6: ['notlive', 'the address is 0'],
        }.items():
            for part in parts:
                self.assertIn(part, rows[line])
        self.assertIn('most bytes at once: 520,217 in 2 blocks behind line 5', out)

    def test_script_and_output(self):
        status, out, said = ran('explain', self.file('s', OF_OUTPUT), self.file('o', OUTPUT))
        self.assertEqual((status, said), (0, ''))
        self.assertIn('33 pages go back from page 2 on', out)
        self.assertNotIn('!', out)

    def test_json(self):
        status, out, _ = ran('explain', '--json', self.file('s', OF_OUTPUT), self.file('o', OUTPUT))
        found = json.loads(out)
        self.assertEqual([it['reply'] for it in found['commands']], ['8192', '143360', 'ok'])
        self.assertEqual([it['layer'] for it in found['commands']], ['back'] * 3)
        self.assertEqual(found['summary']['layers']['back']['pages'], 33)
        self.assertEqual(found['summary']['pages']['free_committed'], 33)
        self.assertEqual([it['name'] for it in found['blocks']], ['b'])
        self.assertEqual((status, found['notes']), (0, []))

    def test_output_alone(self):
        status, out, _ = ran('explain', given=OUTPUT)
        self.assertEqual(status, 0)
        self.assertIn('alloc: 2 answered', out)
        self.assertIn('0x23000  page 35 of segment 0; at the end a block of 131,073 bytes, back', out)

    def test_another_output(self):
        """An output that is not that of the script: told as such, or refused where its shape is another."""
        status, out, _ = ran('explain', self.file('s', OF_OUTPUT.replace('131073', '140000')), self.file('o', OUTPUT))
        self.assertEqual(status, 0)
        self.assertIn('! Line 2: the output has "143360" where the rules give "151552"', out)
        status, _, said = ran('explain', self.file('s', 'alloc a 5\n'), self.file('o', OUTPUT))
        self.assertEqual(status, 1)
        self.assertIn('do not belong together', said)

    def test_segments_found(self):
        """An output of a heap of one segment: the replies tell it."""
        script = 'alloc a 520192\nalloc b 520192\nalloc c 520192\n'
        output = '0 0 alloc 8192\n0 0 alloc 528384\n0 0 alloc nofit\nsegment 0\nback 2 127\nback 129 127\nblock 8192 520192 back\nblock 528384 520192 back\nblocks 2 bytes 1040384\n'
        status, out, _ = ran('explain', '--width', '300', self.file('s', script), self.file('o', output))
        self.assertEqual(status, 0)
        self.assertIn('refused: no free run has 127 pages (the longest has 0), and no segment is left to reserve', out)
        self.assertIn('a heap of 1 segments', out)

    def test_threads(self):
        """Threads that ran the other way round: sizes and addresses are told, and what the layers hold."""
        status, out, _ = ran('explain', self.file('s', THREADS), self.file('o', OF_THREADS))
        self.assertEqual(status, 0)
        self.assertIn('another order of the threads', out)
        self.assertIn('round 0, thread 1', out)
        self.assertRegex(out, r'back +1 +300,000')

    def test_bad_input(self):
        for words, given, part in [
            (['/nowhere'], '', '/nowhere cannot be read'), ([], 'alloc x\n', 'line 1 "alloc x"'), ([], 'blocks 1 bytes 3\n', 'no output of the program'),
            ([], 'line 4 badline\n', 'refused the script: line 4'), (['--rules'], OUTPUT, '--rules needs a script'),
        ]:
            status, out, said = ran('explain', *words, given=given)
            self.assertEqual((status, out), (1, ''), said)
            self.assertIn(part, said)

    def test_help(self):
        for name in ('explain', 'picture', 'trace', 'test'):
            status, out, _ = ran(name, '--help')
            self.assertEqual(status, 0)
            self.assertIn('tools/' + name, out)


class Picture(Folder):
    def test_letters(self):
        status, out, _ = ran('picture', given=OUTPUT)
        rows = out.splitlines()
        self.assertEqual(status, 0)
        self.assertEqual(rows[4], '     0 ##' + ':' * 33 + 'B' + 'b' * 28)
        self.assertEqual(rows[5], '    64 bbbb' + '.' * 60)
        self.assertIn('\033[45;97mB', ran('picture', '--color', 'always', given=OUTPUT)[1])

    def test_svg(self):
        path = os.path.join(self.at, 'x.svg')
        self.assertEqual(ran('picture', '--rules', '--svg', path, self.file('s', SCRIPT)), (0, '', ''))
        tree = xml.parse(path)
        titles = [it.text for it in tree.iter('{http://www.w3.org/2000/svg}title')]
        self.assertEqual(len([it for it in titles if it.startswith('page ')]), 256)
        for part in ('b: 24 bytes at 0x22050, in 48 bytes with its header (3 granules)', 'gap of 131,088 bytes (8,193 granules) at 0x2030', 'pages 4096 to 4223: c: 520,193 bytes at 0x1000000'):
            self.assertTrue(part in titles, part)

    def test_front_end(self):
        """Every block of a subsegment is there with its number, the taken ones with their sizes."""
        out = ran('picture', '--rules', '--svg', '-', given=''.join(f'alloc n{i} 200\n' for i in range(20)))[1]
        titles = [it.text for it in xml.fromstring(out).iter('{http://www.w3.org/2000/svg}title')]
        cells = [it for it in titles if re.match(r'block \d+', it)]
        self.assertEqual(len(cells), 19)
        self.assertEqual(len([it for it in cells if 'n1' in it and it.endswith('200 bytes at ' + it.split(' at ')[1])]), 3)

    def test_page_stands_alone(self):
        path = os.path.join(self.at, 'x.html')
        ran('picture', '--rules', '--html', path, self.file('s', SCRIPT))
        with open(path, encoding='utf-8') as it:
            page = it.read()
        self.assertNotRegex(page, r'(src|href)=|@import|url\(')
        self.assertIn('c: 520,193 bytes', page)

    def test_film(self):
        path = os.path.join(self.at, 'x.html')
        self.assertEqual(ran('picture', '--rules', '--film', '--html', path, self.file('s', SCRIPT))[0], 0)
        with open(path, encoding='utf-8') as it:
            frames = json.loads(re.search(r'const FRAMES=(.*);', it.read())[1])
        self.assertEqual(len(frames), 6)
        self.assertEqual(frames[1][0], 'line 2: alloc b 24 → 0x22050')

    def test_film_of_drawings(self):
        base = os.path.join(self.at, 'y.svg')
        self.assertEqual(ran('picture', '--rules', '--film', '--frames', '3', '--svg', base, self.file('s', SCRIPT))[0], 0)
        self.assertEqual(sorted(it for it in os.listdir(self.at) if it.endswith('.svg')), ['y-0002.svg', 'y-0004.svg', 'y-0006.svg'])

    def test_film_in_letters(self):
        out = ran('picture', '--rules', '--film', self.file('s', SCRIPT))[1]
        self.assertEqual(out.count('segment 0\n'), 6)

    def test_films_that_cannot_be(self):
        status, _, said = ran('picture', '--film', given=OUTPUT)
        self.assertEqual(status, 1)
        self.assertIn('needs the script', said)
        status, _, said = ran('picture', '--film', self.file('s', THREADS), self.file('o', OF_THREADS))
        self.assertEqual(status, 1)
        self.assertIn('order of the threads', said)
