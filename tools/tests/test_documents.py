"""What the documents say of the repository is so."""
import glob
import os
import re
import unittest

from heap_tools import crates
from tool import HERE, ran


def text(name):
    with open(os.path.join(HERE, name), encoding='utf-8') as it:
        return it.read()


class Documents(unittest.TestCase):
    def test_crates_stand_in_order(self):
        """Each crate of crates.txt has a comment, and stands below all that it stands on."""
        self.assertEqual(crates.faults(crates.read(text('crates.txt'))), [])

    def test_map(self):
        picture = re.search(r'```\n(.*?)\n```', text('docs/map.md'), re.S)[1]
        self.assertEqual(picture, ran('map')[1].rstrip('\n'), 'tools/map --write mends it')

    def test_code_of_callers_is_built(self):
        """Each piece of code in a CALLING.md stands in its crate, so the gate proves it."""
        for page in glob.glob(os.path.join(HERE, 'crates/*/CALLING.md')):
            sources = [text(it) for it in glob.glob(os.path.join(os.path.dirname(page), 'src/*.rt'))]
            for piece in re.findall(r'```rust\n(.*?)\n```', text(page), re.S):
                self.assertTrue(any(piece in it for it in sources), f'{os.path.relpath(page, HERE)}: {piece[:60]}')

    def test_links(self):
        """Links between documents lead somewhere, save one to a page that a crate may lack."""
        for page in ['README.md', *glob.glob('docs/*.md', root_dir=HERE)]:
            for link in re.findall(r'\]\(([^)#:]+)\)', text(page)):
                path = os.path.normpath(os.path.join(HERE, os.path.dirname(page), link))
                self.assertTrue(os.path.exists(path) or path.endswith('CALLING.md'), f'{page}: {link}')


class Map(unittest.TestCase):
    ROWS = '# low\nlow: rand_pcg\n\n# mid\nmid: low\n# top\ncommand_run status=0: mid low\n# aside\nlaws: low\n'

    def test_picture(self):
        self.assertEqual(crates.picture(crates.read(self.ROWS)).splitlines(), [
            ' 3  command_run  top    mid',
            ' 2 *laws         aside  low',
            '    mid          mid    low',
            ' 1  low          low',
        ])

    def test_faults(self):
        self.assertEqual(crates.faults(crates.read('a: b\n# b\nb:\n')), ['a has no comment above its line', 'a stands above b in crates.txt, and stands on it'])
