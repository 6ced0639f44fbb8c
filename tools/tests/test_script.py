"""The script language: what is read, and each fault at its line with its cause."""
import unittest

from heap_tools import advice, script

# From docs/script-language.md, and a few more.
FAULTS = [
    ('alloc x', 1, 'badline'),
    ('allocate x 1', 1, 'badline'),
    ('alloc x 18446744073709551616', 1, 'badnumber'),
    ('alloc 9x 1', 1, 'badname'),
    ('alloc @8 1', 1, 'badname'),
    ('size @x', 1, 'badnumber'),
    ('# c\nfree', 2, 'badline'),
    ('lock', 2, 'unbalanced'),
    ('unlock', 1, 'unbalanced'),
    ('lock\nthread', 2, 'unbalanced'),
    ('round\n' + 'thread\n' * 65, 66, 'threads'),
    ('walk\n' * 17, 17, 'walks'),
    ('\n' * 1_048_577, 0, 'toolong'),
    ('alloc ' + 'n' * 33 + ' 1', 1, 'badname'),
    ('put x y 1', 1, 'badnumber'),
    ('alloc x 1\n\n\tfree\r x extra', 3, 'badline'),
]


class Script(unittest.TestCase):
    def test_faults(self):
        for text, line, cause in FAULTS:
            with self.subTest(text=text[:40]):
                with self.assertRaises(script.Fault) as caught:
                    script.read_script(text.encode())
                self.assertEqual((caught.exception.line, caught.exception.cause), (line, cause))

    def test_longest_text(self):
        self.assertEqual(script.read_script(b'\n' * 1_048_576).count(), 0)

    def test_rounds_and_threads(self):
        read = script.read_script(b'# one thread\nalloc a 100\nalloc b 200\n\nround\nthread\nfree a\nthread\nsize b\nput b 0 7\n')
        self.assertEqual([[[it.text() for it in thread] for thread in threads] for threads in read.rounds],
                         [[['alloc a 100', 'alloc b 200']], [['free a'], ['size b', 'put b 0 7']]])
        self.assertEqual(script.read_script(b'round\nround').rounds, [[], []])

    def test_targets(self):
        read = script.read_script(b'free @00012\nrealloc x 5').rounds[0][0]
        self.assertEqual((read[0].address, read[0].name, read[1].name, read[1].size), (12, None, 'x', 5))

    def test_second_thread(self):
        self.assertEqual(script.second_thread(b'thread\nthread\n'), 2)
        self.assertEqual(script.second_thread(b'alloc a 1\n# thread\nthread'), 3)
        self.assertIsNone(script.second_thread(b'thread\nround\nthread\n'))

    def test_names_never_given(self):
        read = script.read_script(b'free x\nalloc x 1\nfree x\nsize @8\nround\nthread\nalloc y 1\nthread\nfree y\nround\nfree y\nsize z\nsize z')
        self.assertEqual([(it.line, it.name) for it in script.never_given(read)], [(1, 'x'), (9, 'y'), (12, 'z')])


class Advice(unittest.TestCase):
    def test_nearest(self):
        for word, near in [('alocate', 'alloc'), ('fre', 'free'), ('Alloc', 'alloc'), ('malloc', 'alloc'), ('calloc', 'zalloc'), ('relloc', 'realloc'), ('sizee', 'size'), ('xyzzy', None)]:
            self.assertEqual(advice.nearest(word, script.FIELDS), near, word)

    def test_words(self):
        for words in ('', '--segments 2', '--mode=run', '--slots=1 --mode run', '--mode one', '--mode=one', '--mode one --segments 1', '--segments=00016 --mode one', '--large 0 --mode gen --count=0', '--mode one --large 1 --segments 1',
                      '--count 100000 --slots 16 --seed 18446744073709551615 --mode gen'):
            self.assertIsNone(advice.words_fault(words.split()), words)
        for words, part in [
            ('--mdoe one', 'did you mean --mode?'), ('--mode', 'needs a value'), ('--mode on', 'did you mean one?'),
            ('--mode=walk', 'no mode'), ('--mode one --segment 2', 'did you mean --segments?'), ('--mode one --segments=17', '1 to 16'), ('--mode one --segments 0', '1 to 16'),
            ('--mode one --segments 2 x', 'is no option'), ('--mode one --large 4097', '0 to 4,096'), ('--mode one --mode=one', 'stands twice'), ('--mode gen --count 100001', '0 to 100,000'),
            ('--slots=0 --mode one', '1 to 16'), ('--mode one --seed -1', 'needs a value'), ('--mode one --seed=-1', 'is no seed'), ('--mode one --', 'is no option'),
        ]:
            self.assertIn(part, advice.words_fault(words.split()) or '', words)

    def test_causes_in_words(self):
        for text, parts in [
            ('alloc x', ['line 1: alloc x', 'needs 2 fields', 'alloc NAME SIZE']), ('alloc x 0x10', ['write 16']), ('alloc x -1', ['no negative']),
            ('alloc 9 1', ['@9']), ('alloc @8 1', ['is an address']), ('lock', ['the end of the text', '1 deep']),
            ('thread\nthread', ['line 2: thread', 'one caller']),
        ]:
            fault = advice.script_fault(text.encode())
            said = advice.quoted(fault, text.encode()) + ' ' + advice.fault_words(fault)
            for part in parts:
                self.assertIn(part, said)
