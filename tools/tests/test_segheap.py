"""The script ./segheap beside a stand-in for the kit: what it answers itself, when it builds, and what it says."""
import os
import shutil
import subprocess
import tempfile
import unittest

from tool import HERE, file, ran

# It "proves" the two crates of the stand-in and makes a program that counts its lines.
KIT = """#!/bin/sh
echo "rt: $*" >>"$ROOM/calls"
[ "${FAILS:-}" = 1 ] && { echo 'error: a goal is open'; exit 1; } >&2
mkdir -p ../low/out/rlib out
touch ../low/out/rlib/stamp
cat >out/command_run <<'PROGRAM'
#!/bin/sh
wc -l | tr -d ' '
PROGRAM
chmod +x out/command_run
"""


class Segheap(unittest.TestCase):
    def setUp(self):
        room = tempfile.TemporaryDirectory()
        self.addCleanup(room.cleanup)
        self.at = os.path.join(room.name, 'a folder')
        for it in ('crates/command_run/src', 'crates/low/specs', 'tools'):
            os.makedirs(os.path.join(self.at, it))
        shutil.copy(os.path.join(HERE, 'segheap'), self.at)
        shutil.copytree(os.path.join(HERE, 'tools/heap_tools'), os.path.join(self.at, 'tools/heap_tools'))
        file(self.at, 'crates.txt', '# crates\nlow:\nother:\ncommand_run: low rand_pcg\n')
        file(self.at, 'HANDLES', '')
        self.source = file(self.at, 'crates/command_run/src/main.rt', 'fn main() {}\n')
        self.below = file(self.at, 'crates/low/specs/Lib.antt', 'x\n')
        os.makedirs(os.path.join(room.name, 'bin'))
        kit = file(room.name, 'bin/rt', KIT)
        os.chmod(kit, 0o755)
        self.room = room.name
        self.env = {'PATH': f'{room.name}/bin:/usr/bin:/bin', 'ROOM': room.name}
        self.without = {'PATH': '/usr/bin:/bin'}
        if shutil.which('rt', path=self.without['PATH']):
            self.without = None

    def ran(self, *words, given='', env=None, by=None, cwd='/'):
        it = subprocess.run([by or os.path.join(self.at, 'segheap'), *words], input=given.encode(), stdout=subprocess.PIPE, stderr=subprocess.PIPE, cwd=cwd, env=env or self.env)
        return it.returncode, it.stdout.decode(), it.stderr.decode()

    def calls(self):
        path = os.path.join(self.room, 'calls')
        if not os.path.exists(path):
            return 0
        with open(path, encoding='utf-8') as it:
            return it.read().count('\n')

    def touch(self, path, seconds):
        """Makes a file so many seconds newer than the program."""
        made = os.path.join(self.at, 'crates/command_run/out/command_run')
        then = os.path.getmtime(made) + seconds
        os.utime(path, (then, then))

    def test_help_builds_nothing(self):
        for words in (['--help'], ['-h'], ['--mode', 'one', '--help']):
            status, out, said = self.ran(*words, env=self.without)
            self.assertEqual((status, said), (0, ''))
            for part in ('--mode one', '--segments N', '1 to 16', 'default 16', 'docs/script-language.md', 'printf'):
                self.assertIn(part, out)
        self.assertEqual(self.calls(), 0)

    def test_version(self):
        status, out, _ = ran('segheap', '--version')
        self.assertEqual(status, 0)
        self.assertRegex(out, r'^Hirvanto segheap, commit \w+, proved with rattle-kit')

    def test_builds_once_and_says_so(self):
        status, out, said = self.ran('--mode', 'one', given='a\nb\n')
        self.assertEqual((status, out, self.calls()), (0, '2\n', 1))
        for part in ('not built yet', '2 of its crates', 'on this machine', 'built in'):
            self.assertIn(part, said)
        self.assertEqual(self.ran('--mode', 'one', given='a\n')[:2], (0, '1\n'))
        self.assertEqual(self.calls(), 1)

    def test_builds_again_for_a_newer_source(self):
        self.ran('--mode', 'one')
        other = os.path.join(self.at, 'crates/other/src')
        os.makedirs(other)
        self.touch(file(other, 'lib.rt', 'x\n'), 5)
        self.ran('--mode', 'one')
        self.assertEqual(self.calls(), 1)
        for path in (self.source, self.below, os.path.join(self.at, 'crates.txt')):
            before = self.calls()
            self.touch(path, 5)
            self.assertIn('a source is newer', self.ran('--mode', 'one')[2])
            self.assertEqual(self.calls(), before + 1)
            self.touch(path, -5)

    def test_a_removed_source_counts(self):
        self.ran('--mode', 'one')
        self.touch(os.path.dirname(self.below), 5)
        self.ran('--mode', 'one')
        self.assertEqual(self.calls(), 2)

    def test_without_the_kit(self):
        if self.without is None:
            self.skipTest('rt is on the plain path here')
        status, out, said = self.ran('--mode', 'one', env=self.without)
        self.assertEqual((status, out), (1, ''))
        self.assertIn("rt, the command of Rattle's kit, which is not on the path", said)

    def test_wrong_words_build_nothing(self):
        status, out, said = self.ran('--mode', 'two')
        self.assertEqual((status, out, self.calls()), (2, 'usage fault\n', 0))
        self.assertIn('"two" is no mode', said)

    def test_a_build_that_fails(self):
        status, out, said = self.ran('--mode', 'one', env=self.env | {'FAILS': '1'})
        self.assertEqual((status, out), (1, ''))
        self.assertIn('the build failed', said)
        self.assertIn('a goal is open', said)

    def test_through_links(self):
        links = os.path.join(self.room, 'links')
        os.makedirs(links)
        os.symlink('../a folder/segheap', os.path.join(links, 'one'))
        os.symlink('one', os.path.join(links, 'two'))
        self.assertEqual(self.ran('--mode', 'one', given='x\n', by=os.path.join(links, 'two'))[:2], (0, '1\n'))
        self.assertEqual(self.ran('--mode', 'one', given='x\n', by='./two', cwd=links)[:2], (0, '1\n'))
