"""The program itself beside the rules, through ./segheap, which builds it where it is not there."""
import os
import random
import re
import shutil
import subprocess
import tempfile
import unittest

from heap_tools import advice, common, report, script, story
from tool import HERE, TESTS, ran

SIZES = [[(0, 64)], [(0, 16_368)], [(1, 16), (16_369, 131_072)], [(131_073, 520_192), (1, 100)], [(0, 300), (1_000, 1_200), (8_000, 16_368)]]


def scripts():
    """Ten scripts of rising length, over sizes of all layers that are built."""
    for seed in range(10):
        rng = random.Random(seed)
        lines, names = [], []
        for i in range(100 + 100 * seed):
            if rng.random() < 0.6 or not names:
                names.append(f'n{i}')
                lines.append(f'alloc n{i} {rng.randint(*rng.choice(SIZES[seed % len(SIZES)]))}')
            elif rng.random() < 0.9:
                lines.append(f'free {names.pop(rng.randrange(len(names)))}')
            else:
                lines.append(f'size {rng.choice(names)}' if rng.random() < 0.5 else f'free @{rng.randrange(8_000, 200_000)}')
        yield '\n'.join(lines) + '\n', 1 + seed % 3


FIELDS = ['a', '9x', 'n' * 32, 'n' * 33, '@5', '@x', '@', '0', '520192', '520193', '18446744073709551615', '18446744073709551616', '1' * 21, '-1', 'é']


def texts():
    """A hundred texts that are mostly no script, or one that the program does not run."""
    words = [*script.FIELDS, 'foo', '#c', '']
    for seed in range(100):
        rng = random.Random(seed)
        lines = []
        for _ in range(rng.randint(1, 8)):
            word = rng.choice(words)
            if seed % 2:
                fields = [rng.choice(FIELDS) for _ in range(rng.randint(0, 3))]
            else:
                fields = [rng.choice({'n': ['a', 'b'], 't': ['a', '@5'], '#': ['5', '520193']}[it]) for it in script.FIELDS.get(word, '')]
            lines.append(rng.choice([' ', '']) + rng.choice(['  ', '\t']).join([word, *fields]) + rng.choice(['', '\r']))
        yield ('\n'.join(lines) + rng.choice(['', '\n'])).encode()


def open_text(name):
    with open(os.path.join(HERE, name), encoding='utf-8') as it:
        return it.read()


class Program(unittest.TestCase):
    @classmethod
    def setUpClass(cls):
        status, _, said = ran('segheap', '--mode', 'one')
        if status:
            raise AssertionError(f'./segheap ended with status {status}: {said}')

    def test_rules_and_program(self):
        """Replies and layout of the program are those of the rules, which these tools have written again."""
        for text, segments in scripts():
            out = subprocess.run([common.PROGRAM, '--mode', 'one', '--segments', str(segments)], input=text.encode(), stdout=subprocess.PIPE, check=True).stdout
            told = story.tell(script.read_script(text.encode()), report.read_report(out), story.Setting(segments))
            self.assertEqual((told.is_followed, told.notes), (True, []))

    def test_faults_and_program(self):
        """The line and the cause that segheap tells in words are those that the program prints."""
        for text in texts():
            out = subprocess.run([common.PROGRAM, '--mode', 'one'], input=text, stdout=subprocess.PIPE).stdout.decode()
            fault = advice.script_fault(text)
            self.assertEqual(out if out.startswith('line') else None, f'line {fault.line} {fault.cause}\n' if fault else None, text)

    def test_examples(self):
        for name in sorted(os.listdir(os.path.join(HERE, 'examples'))):
            status, out, said = ran('explain', os.path.join('examples', name))
            self.assertEqual((status, said), (0, ''), name)
            self.assertNotIn('!', out)

    def test_documents(self):
        """The examples of README and of --help, and the pictures of the documents, are what they show."""
        readme = open_text('README.md')
        for text in (readme, ran('segheap', '--help')[1]):
            shown = re.search(r"^ *\$ printf '(.*)' \| ./segheap\n((?: +\S.*\n)+)", text, re.M)
            wanted = ''.join(it.strip() + '\n' for it in shown[2].splitlines())
            self.assertEqual(ran('segheap', given=shown[1].replace('\\n', '\n'))[1], wanted)
        letters = ran('picture', 'examples/bucket.heap')[1].splitlines()[3:]
        self.assertTrue(''.join(f'    {it}\n' for it in letters) in readme)
        self.assertTrue(ran('picture', 'examples/bucket.heap', '--svg', '-')[1] == open_text('docs/picture.svg'), 'tools/picture examples/bucket.heap --svg docs/picture.svg')

    def test_second_thread(self):
        status, out, said = ran('explain', given='alloc a 5\nround\nthread\nthread\n')
        self.assertEqual((status, out), (1, ''))
        self.assertIn('a second thread of a round', said)
        self.assertIn('; --rules tells', said)

    def test_statuses(self):
        """The texts on standard output and the statuses are the program's own; what helps a person is on standard error."""
        for words, given, status, out, parts in [
            (['--mode', 'one'], '', 0, 'blocks 0 bytes 0\n', []),
            (['--mode', 'one', '--segments', '17'], '', 2, 'usage fault\n', ['"17" is no number of segments']),
            (['--mode', 'one', '--segment', '1'], '', 2, 'usage fault\n', ['did you mean --segments?']),
            (['--mode', 'one'], 'alloc a 5\n alocate x 3\n', 3, 'line 2 badline\n', ['line 2: alocate x 3', 'did you mean "alloc NAME SIZE"?']),
            (['--mode', 'one'], 'free\n', 3, 'line 1 badline\n', ['line 1: free', 'needs 1 field behind it and has 0']),
            (['--mode', 'one'], 'walk\n', 0, '0 0 walk notlocked\nblocks 0 bytes 0\n', []),
            (['--mode', 'one'], 'thread\nthread\n', 3, 'line 2 notsingle\n', ['one caller']),
            ([], 'thread\nthread\n', 0, 'blocks 0 bytes 0\n', []),
            (['--slots=1'], 'lock\nwalk\nunlock\n', 0, '0 0 lock ok\n0 0 walk end 0\n0 0 unlock ok\nblocks 0 bytes 0\n', []),
            (['--mode', 'one'], 'free y\n', 0, '0 0 free notlive\nblocks 0 bytes 0\n', ['line 1: "free y"', 'the reply is notlive']),
            (['--mode', 'one'], 'free @5\n', 0, '0 0 free notlive\nblocks 0 bytes 0\n', []),
        ]:
            found = ran('segheap', *words, given=given)
            self.assertEqual(found[:2], (status, out))
            if not parts:
                self.assertEqual(found[2], '')
            for part in parts:
                self.assertIn(part, found[2])

    def test_chain(self):
        """A real program's log through the whole chain, both ways."""
        log = os.path.join(TESTS, 'words.mtrace')
        status, made, said = ran('trace', '--plain', log)
        self.assertEqual((status, said), (0, ''))
        status, out, said = ran('segheap', '--mode', 'one', given=made)
        self.assertEqual((status, said), (0, ''))
        status, told, _ = ran('explain', given=out)
        self.assertEqual(status, 0)
        self.assertRegex(told, r'all +37 ')     # 18 words that stand once, a node and a copy each, and the forgotten block
        status, told, _ = ran('explain', '--width', '300', given=made)
        self.assertEqual(status, 0)
        self.assertNotIn('!', told)
        for part in ('bucket 2 was due (17 of its blocks live in the variable-size layer) and becomes active', 'requests refused: 0', 'alloc b1 200000'):
            self.assertIn(part, told)
        self.assertEqual(ran('picture', given=out)[0], 0)

    def test_log_made_anew(self):
        """The stored log is what the program in words.c does, where it can be compiled and traced here."""
        library = next((f'/{at}/libc_malloc_debug.so.0' for at in ('lib/x86_64-linux-gnu', 'usr/lib/x86_64-linux-gnu', 'lib64', 'usr/lib64', 'usr/lib') if os.path.exists(f'/{at}/libc_malloc_debug.so.0')), None)
        if not shutil.which('cc') or not library:
            self.skipTest('there is no C compiler, or no libc_malloc_debug.so.0, on this machine')
        with tempfile.TemporaryDirectory() as room:
            made, log = os.path.join(room, 'words'), os.path.join(room, 'log')
            subprocess.run(['cc', '-O0', '-w', '-o', made, os.path.join(TESTS, 'words.c')], check=True)
            subprocess.run([made], env={'MALLOC_TRACE': log, 'LD_PRELOAD': library}, check=True)
            self.assertEqual(ran('trace', log)[1], ran('trace', os.path.join(TESTS, 'words.mtrace'))[1])
