"""What segheap adds for a person on standard error: which word was wrong and the nearest valid one, the faulty line and its cause,
names that were never given a block.

    advice.py words WORD..               status 2 where the words are not valid
    advice.py run STATUS FILE WORD..     after a run that ended with this status, on the script in the file"""
import difflib
import os
import sys

sys.path.insert(0, os.path.dirname(os.path.dirname(os.path.realpath(__file__))))
from heap_tools import common, script

# Each option with what its number is, and its least and its most.
NUMBERS = {
    '--segments': ('number of segments', 1, 16), '--large': ('number of large pages', 0, 4_096), '--slots': ('number of slots', 1, 16),
    '--seed': ('seed', 0, 2**64 - 1), '--count': ('number of commands', 0, 100_000),
}
OPTIONS = ('--mode', *NUMBERS)
MODES = ('run', 'one', 'gen')
MOST_NAMES = 5


# Words of other languages for ours.
OTHERS = {
    'malloc': 'alloc', 'new': 'alloc', 'allocate': 'alloc', 'calloc': 'zalloc', 'delete': 'free', 'dealloc': 'free',
    'read': 'get', 'write': 'put', 'resize': 'realloc',
}


def nearest(word, of):
    """The nearest of some words, where one is near."""
    word = word.lower()
    if OTHERS.get(word) in of:
        return OTHERS[word]
    found = difflib.get_close_matches(word, of, 1, 0.55)
    return found[0] if found else None


def words_fault(words):
    """What is wrong with the program's words, or None."""
    given, rest = {}, list(words)
    while rest:
        name, joined, value = rest.pop(0).partition('=')
        if name not in OPTIONS:
            return f'"{name}" is no option: {option_hint(name)}'
        if name in given:
            return f'{name} stands twice'
        if not joined:
            if not rest or rest[0].startswith('-'):
                return f'{name} needs a value behind it, {values_of(name)}'
            value = rest.pop(0)
        fault = value_fault(name, value)
        if fault:
            return fault
        given[name] = value
    return None


def values_of(name):
    if name == '--mode':
        return ' or '.join(MODES)
    _, least, most = NUMBERS[name]
    return f'{least} to {most:,}'


def value_fault(name, value):
    """What is wrong with the value of an option, or None."""
    if name == '--mode':
        if value in MODES:
            return None
        near = nearest(value, MODES)
        return f'"{value}" is no mode{f"; did you mean {near}?" if near else ""} (the modes are {", ".join(MODES)})'
    what, least, most = NUMBERS[name]
    number = script.number(os.fsencode(value))
    if number is None or not least <= number <= most:
        return f'"{value}" is no {what}: {name} takes {values_of(name)}'
    return None


def option_hint(name):
    near = nearest(name, OPTIONS)
    return f'did you mean {near}?' if near else f'the options are {", ".join(OPTIONS)}'


def quoted(fault, text):
    """The faulty line with its number."""
    lines = text.split(b'\n')
    if lines[-1] == b'':
        lines.pop()
    if not 0 < fault.line <= len(lines):
        return f'line {fault.line}' + (' (the end of the text)' if fault.line else ' (the whole text)')
    return f'line {fault.line}: {script.shown(lines[fault.line - 1].strip())[:120]}'


def fault_words(fault):
    """The cause in words, with the nearest command for an unknown one."""
    if fault.cause == 'badline' and fault.fields and fault.fields[0].decode('ascii', 'replace') not in script.FIELDS:
        word = script.shown(fault.fields[0])
        near = nearest(word, script.FIELDS)
        return fault.why + (f'; did you mean "{script.USAGE[near]}"?' if near else f': the words are {", ".join(script.FIELDS)}')
    return fault.why


def mode_of(words):
    """The mode of words that are valid."""
    for place, word in enumerate(words):
        name, joined, value = word.partition('=')
        if name == '--mode':
            return value if joined else words[place + 1]
    return 'run'


def script_fault(text, mode='one'):
    """The fault of a script, as the program finds it; in mode one last a thread that one caller does not run."""
    try:
        script.read_script(text)
    except script.Fault as fault:
        return fault
    if mode != 'one':
        return None
    line = script.second_thread(text)
    if line:
        return script.Fault(line, 'notsingle', 'a second thread of a round, and mode one has one caller: leave out --mode one, or give each thread a round of its own')
    return None


def tell(text):
    sys.stderr.write(f'segheap: {text}\n')


def on_script(text, mode):
    """A script that was refused."""
    fault = script_fault(text, mode)
    if fault is not None:
        tell(quoted(fault, text))
        tell(f'{fault.cause}: {fault_words(fault)}')


def on_names(text):
    """Names that were never given a block, of a script that ran."""
    try:
        found = script.never_given(script.read_script(text))
    except script.Fault:
        return
    for command in found[:MOST_NAMES]:
        tell(f'line {command.line}: "{command.text()}": no line before it gives "{command.name}" a block; that is allowed, and the reply is notlive')
    if len(found) > MOST_NAMES:
        tell(f'and {len(found) - MOST_NAMES} more such names')


def main(words):
    if words[0] == 'words':
        fault = words_fault(words[1:])
        if fault:
            tell(fault + ' (./segheap --help)')
        return 2 if fault else 0
    status, text = int(words[1]), common.read_input(words[2])
    if status == 2:
        fault = words_fault(words[3:])
        if fault:
            tell(fault + ' (./segheap --help)')
    elif status == 3:
        on_script(text, mode_of(words[3:]))
    else:
        on_names(text)
    return 0


if __name__ == '__main__':
    sys.exit(main(sys.argv[1:]))
