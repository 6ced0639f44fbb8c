"""Runs a tool as a person does."""
import os
import subprocess
import sys

TOOLS = os.path.dirname(os.path.dirname(os.path.realpath(__file__)))
HERE = os.path.dirname(TOOLS)
TESTS = os.path.join(TOOLS, 'tests')


def ran(name, *words, given='', env=None, cwd=HERE):
    """The status, the output and the messages of a tool, or of segheap."""
    path = os.path.join(HERE, 'segheap') if name == 'segheap' else os.path.join(TOOLS, name)
    start = [path] if name == 'segheap' else [sys.executable, '-B', path]
    it = subprocess.run([*start, *words], input=given.encode(), stdout=subprocess.PIPE, stderr=subprocess.PIPE, cwd=cwd, env=env)
    return it.returncode, it.stdout.decode(), it.stderr.decode()


def file(folder, name, text):
    path = os.path.join(folder, name)
    with open(path, 'w', encoding='utf-8') as it:
        it.write(text)
    return path
