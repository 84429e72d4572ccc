"""The crates of a commit, and which items of two commits are the same."""

import io
import subprocess
import tarfile
from collections import Counter, defaultdict
from dataclasses import dataclass, field
from pathlib import PurePosixPath

from .items import PROOFS, antt_items, rattle_items

PARTS = {'src': '.rt', 'specs': '.antt', 'proofs': '.antt'}


@dataclass
class Crate:
    """For each kind the items, each with its place in the crate; for each part the number of lines."""

    items: dict = field(default_factory=lambda: defaultdict(list))
    lines: Counter = field(default_factory=Counter)


@dataclass(frozen=True)
class Placed:
    name: str
    place: str
    item: object

    @property
    def text(self):
        return self.item.text


def placed(part, path, item):
    """A function's proof is named by the function, whose folder it has: every one of them has its own `returns`."""
    if part == 'proofs' and path.stem in PROOFS:
        return Placed(f'{path.parent.name}.{item.name}', path.parent.parent.name, item)
    return Placed(item.name, path.stem, item)


def kind_of(part, item):
    return {'specs': 'definitions', 'proofs': 'lemmas'}.get(part) or ('contracts' if item.kind == 'fn' else 'types')


def files(commit, repository):
    """Path and bytes of each file of the commit's crates; the working tree is not looked at."""
    tree = subprocess.run(['git', '-C', repository, 'archive', commit, 'crates'], stdout=subprocess.PIPE, check=True).stdout
    with tarfile.open(fileobj=io.BytesIO(tree)) as archive:
        for entry in archive:
            if entry.isfile():
                yield PurePosixPath(entry.name), archive.extractfile(entry).read()


def crates(commit, repository):
    found = defaultdict(Crate)
    for path, content in files(commit, repository):
        if len(path.parts) < 4 or path.suffix != PARTS.get(path.parts[2]):
            continue
        text, part, crate = content.decode(), path.parts[2], found[path.parts[1]]
        crate.lines[part] += text.count('\n')
        for item in (rattle_items if part == 'src' else antt_items)(text):
            crate.items[kind_of(part, item)].append(placed(part, path, item))
    return found


def paired(old, new):
    """Pairs of the same item, before and after; None where there is none.

    Alike in all; the same text in another file; the only ones of their name, or of their name in their file.
    """
    often = Counter(i.name for i in old), Counter(i.name for i in new)
    rounds = (
        lambda i: (i.name, i.place, i.text),
        lambda i: (i.name, i.text),
        lambda i: i.name if all(count[i.name] == 1 for count in often) else (i.name, i.place),
    )
    pairs = []
    for key in rounds:
        waiting, left = defaultdict(list), []
        for i in new:
            waiting[key(i)].append(i)
        for i in old:
            if waiting[key(i)]:
                pairs.append((i, waiting[key(i)].pop(0)))
            else:
                left.append(i)
        old, new = left, [i for some in waiting.values() for i in some]
    return pairs + [(i, None) for i in old] + [(None, i) for i in new]
