"""Which of a script and an output a tool was given, and the story that they tell together."""
import sys

from . import common, report, story


def add_words(parser):
    """The words that explain and picture share."""
    parser.add_argument('script', nargs='?', metavar='SCRIPT', help='a script, or an output alone; standard input where none is named, or for "-"')
    parser.add_argument('output', nargs='?', metavar='OUTPUT', help='the output of the program for the script; where none is named, the program is run')
    parser.add_argument('--rules', action='store_true', help='run no program: tell what the rules of the heap give (also for commands that the program does not run yet)')
    parser.add_argument('--segments', type=number(1, 16), metavar='N', help='segments of the heap, 1 to 16 (16)')
    parser.add_argument('--large', type=number(0, 4096), metavar='N', help='pages of the large area, 0 to 4,096, for a program that has one (1,024)')
    parser.add_argument('--slots', type=number(1, 16), metavar='N', help='slots of the front end, 1 to 16, for a program that runs threads (4, or 1 for one thread)')
    parser.add_argument('--seed', type=number(0, 2**64 - 1), default=1, metavar='N', help='the seed of the draws, for a program that takes one (1)')
    parser.add_argument('--mode', default='one', choices=('one', 'run'), help='the mode in which the program is run (one)')


def number(least, most):
    """Reads a number of an option."""
    def read(text):
        value = int(text) if text.isascii() and text.isdigit() else -1
        if not least <= value <= most:
            raise ValueError
        return value
    read.__name__ = f'number of {least} to {most}'
    return read


class Given:
    """A script or None, a report or None, and the name of each."""

    def __init__(self, words):
        self.script = self.report = self.text = None
        text = common.read_input(words.script)
        name = 'standard input' if words.script in (None, '-') else words.script
        if words.output is not None:
            self.take_script(text, name)
            self.take_report(common.read_input(words.output), words.output)
        elif report.is_output(text):
            if words.rules:
                raise common.Stop('--rules needs a script, and this is an output')
            self.take_report(text, name)
        else:
            self.take_script(text, name)
            if not words.rules:
                setting = setting_of(words)
                self.take_report(common.run_program(setting.words(words.mode), text), 'the program')

    def take_script(self, text, name):
        self.text = text
        progress = common.Progress('reading', 'line')
        self.script = common.script_of(text, name, progress)
        progress.end()

    def take_report(self, text, name):
        try:
            self.report = common.read_report(text, name)
        except report.Refused as said:
            raise common.Stop(self.why_refused(str(said))) from None

    def why_refused(self, said):
        why = common.refused(said, self.text or b'')
        if said.endswith('notsingle') and self.text is not None:
            return why + '; --rules tells what the rules of the heap give for it, without the program'
        return why

    def story(self, words, tool, each=None):
        progress = common.Progress(tool, 'command')
        try:
            return story.tell(self.script, self.report, setting_of(words), each, progress)
        except story.Mismatch as why:
            raise common.Stop(f'the script and the output do not belong together: {why}') from None
        finally:
            progress.end()


def setting_of(words):
    return story.Setting(words.segments, words.large, words.seed, words.slots)


def note(tool, text):
    sys.stderr.write(f'{tool}: {text}\n')
