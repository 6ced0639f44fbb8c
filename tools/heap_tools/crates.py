"""The crates of the repository as crates.txt has them: what each is, and what it stands on."""
import re
from dataclasses import dataclass, field

ROW = re.compile(r'([a-z0-9_]+)[^:#]*:([^#]*)')


@dataclass
class Crate:
    name: str
    what: str = ''                              # the comment right above its line
    uses: list = field(default_factory=list)    # crates of the repository, in the order of the line


def read(text):
    """The crates in the order of the file."""
    found, comment = [], ''
    for line in text.split('\n'):
        row = ROW.match(line)
        if row:
            found.append(Crate(row[1], comment, row[2].split()))
        comment = line[1:].strip() if line.startswith('#') else ''
    names = {it.name for it in found}
    for it in found:
        it.uses = [use for use in it.uses if use in names]
    return found


class Layers:
    """How the crates stand on one another."""

    def __init__(self, crates):
        self.crates = {it.name: it for it in crates}
        self.known = {}

    def below(self, name):
        """All that a crate stands on."""
        if name not in self.known:
            self.known[name] = set()
            for use in self.crates[name].uses:
                self.known[name] |= {use} | self.below(use)
        return self.known[name]

    def right_below(self, name):
        """What a crate stands on and none of its other crates does."""
        uses = self.crates[name].uses
        return [it for it in uses if not any(it in self.below(other) for other in uses if other != it)]

    def level(self, name):
        return 1 + max((self.level(it) for it in self.crates[name].uses), default=0)


def faults(crates):
    """What is wrong with the order and the comments of crates.txt."""
    seen, found = set(), []
    for it in crates:
        if not it.what:
            found.append(f'{it.name} has no comment above its line')
        found += [f'{it.name} stands above {use} in crates.txt, and stands on it' for use in it.uses if use not in seen]
        seen.add(it.name)
    return found


def picture(crates, top='command_run'):
    """The crates by level, each with what it is and what it stands on directly. Those outside the program have a star."""
    layers = Layers(crates)
    inside = layers.below(top) | {top} if top in layers.crates else set()
    order = {it.name: at for at, it in enumerate(crates)}
    rows = sorted(layers.crates, key=lambda it: (-layers.level(it), -order[it]))
    wide = max(len(it) for it in rows) + 2
    what = max(len(it.what) for it in crates) + 2
    lines, last = [], None
    for name in rows:
        level = layers.level(name)
        star = ' ' if name in inside else '*'
        head = f'{level if level != last else "":>2} {star}{name:{wide}}{layers.crates[name].what:{what}}'
        lines.append((head + ' '.join(layers.right_below(name))).rstrip())
        last = level
    return '\n'.join(lines)
