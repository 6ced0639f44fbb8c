"""What all tools do alike: read their input, tell of progress, run the program, end with a message."""
import os
import subprocess
import sys
import time

from . import report, script

HERE = os.path.dirname(os.path.dirname(os.path.dirname(os.path.abspath(__file__))))
SEGHEAP = os.path.join(HERE, 'segheap')
PROGRAM = os.path.join(HERE, 'crates', 'command_run', 'out', 'command_run')


class Stop(Exception):
    """Ends the tool with a message and status 1."""


class Progress:
    """A line on standard error, from two seconds on."""

    def __init__(self, tool, what):
        self.tool, self.what = tool, what
        self.start = self.last = time.monotonic()
        self.shown = False

    def __call__(self, done, of=None):
        now = time.monotonic()
        if now - self.start < 2 or now - self.last < 0.5:
            return
        self.last = now
        share = f' of {of:,}' if of else ''
        line = f'{self.tool}: {self.what} {done:,}{share}'
        if sys.stderr.isatty():
            sys.stderr.write(f'\r{line}\033[K')
        elif not self.shown or now - self.start > 10:
            sys.stderr.write(line + '\n')
            self.start = now - 2
        sys.stderr.flush()
        self.shown = True

    def end(self):
        if self.shown and sys.stderr.isatty():
            sys.stderr.write('\r\033[K')


def read_input(name):
    """The bytes of a file, or of standard input for None and "-"."""
    try:
        if name in (None, '-'):
            return sys.stdin.buffer.read()
        with open(name, 'rb') as it:
            return it.read()
    except OSError as error:
        raise Stop(f'{name or "standard input"} cannot be read: {error.strerror}') from None


def script_of(text, name='the script', progress=None):
    """The script of a text, or a message that names the faulty line."""
    try:
        return script.read_script(text, progress)
    except script.Fault as fault:
        raise Stop(f'{name}: {refusal(fault.line, fault.cause, text, fault.why)}') from None


def refusal(line, cause, text, why=None):
    """A refused script in words, with the faulty line itself."""
    lines = text.split(b'\n')
    said = script.shown(lines[line - 1].strip()) if 0 < line <= len(lines) else ''
    faulty = f'line {line} "{said[:100]}"' if said else f'line {line}' if line else 'the whole text'
    return f'{faulty}: {why or CAUSES.get(cause, cause)}'


CAUSES = {
    'toolong': f'the text has more than {script.MOST_BYTES:,} bytes',
    'badline': 'it is no line of the language',
    'badname': 'a name or target is none',
    'badnumber': 'a number is none',
    'unbalanced': 'the locks and unlocks of a thread do not match',
    'threads': f'a round has more than {script.MOST_THREADS} threads',
    'walks': f'the text has more than {script.MOST_WALKS} "walk" lines',
    'notsingle': 'a second thread of a round, where only one caller runs',
}


def run_program(words, text):
    """The output of the program on a script: through ./segheap, which builds the program where it is not there."""
    try:
        ran = subprocess.run([SEGHEAP, *words], input=text, stdout=subprocess.PIPE, env=os.environ | {'SEGHEAP_ADVICE': 'none'})
    except OSError as error:
        raise Stop(f'{SEGHEAP} cannot be run: {error.strerror}') from None
    if ran.returncode not in (0, 2, 3):
        raise Stop(f'./segheap {" ".join(words)} ended with status {ran.returncode}')
    return ran.stdout


def refused(said, text):
    """The program's refusal in words."""
    fields = said.split()
    if fields[0] != 'line':
        return f'the program refused its words or its input: "{said}"'
    line, cause = int(fields[1]), fields[2]
    return f'the program refused the script: {refusal(line, cause, text)}'


def show(tool, call):
    """Runs a tool, and ends with its status."""
    try:
        status = call()
        sys.stdout.flush()
    except Stop as why:
        sys.stderr.write(f'{tool}: {why}\n')
        status = 1
    except BrokenPipeError:
        # Whoever reads the output has enough of it.
        os.dup2(os.open(os.devnull, os.O_WRONLY), 1)
        status = 141
    except KeyboardInterrupt:
        status = 130
    sys.exit(status)


def read_report(text, name='the output'):
    """The report of an output, or a message."""
    try:
        return report.read_report(text)
    except report.NoReport as why:
        raise Stop(f'{name} is no output of the program: {why}') from None
