"""What the checker said of each must-fail edit, and what docs/PROOFS.md says of it.

A row of a table names edits, `crate/edit`, before its last cell; the crate need not be said again. The last cell begins with what refuses
them: one name for each edit, in that order, or one for all. Where no proof file answers the goal, it also says `no proof`.
"""

import re
from dataclasses import dataclass
from pathlib import PurePosixPath

from .items import PROOFS, antt_items, rattle_items

# what `rt ci` and `rt must-fail` say of an edit that was refused, with the place of the first fault; but a proof that only names what the
# edit took away shows nothing of a contract
REFUSED = re.compile(r'^rt: must-fail (\w+)/([\w.-]+)\.edit: refused, as it must be(?! \(only because a proof file).*?: (?:note: )?(?:\./)?(\S+?):(\d+):\d+:', re.M)
WORD = re.compile(r'`([^`]+)`')
EDIT = re.compile(r'(?:(\w+)/(?:must-fail/)?)?(\w+)')
NAMES = re.compile(r'`[^`]+`(?:, `[^`]+`)*')


@dataclass(frozen=True)
class Place:
    """Where the checker stopped first: a function, a law or a definition."""

    name: str
    file: str
    line: int

    @property
    def unproved(self):
        """No proof file answers the goal, and the checker's own search found no proof."""
        return self.file.startswith('src/')


def edits(crates):
    """All edits, as crate and name."""
    return sorted((path.parent.parent.name, path.stem) for path in crates.glob('*/must-fail/*.edit'))


def name_at(folder, file, line):
    path = PurePosixPath(file)
    if path.stem in PROOFS:
        return path.parent.name
    if not (folder / file).is_file():
        return file
    read = rattle_items if path.suffix == '.rt' else antt_items
    return next((item.name for item in read((folder / file).read_text()) if item.first <= line <= item.last), file)


def places(crates, log):
    """The first fault of each edit that the log tells as refused. An edit changes no number of a line, so the crate's own files have its name."""
    found = {}
    for crate, edit, file, line in REFUSED.findall(log):
        found[crate, edit] = Place(name_at(crates / crate, file, int(line)), file, int(line))
    return found


def edits_in(cells, known):
    """The edits that a row names; KeyError for one that is not there."""
    crate, named = None, []
    for word in WORD.findall(' '.join(cells)):
        match = EDIT.fullmatch(word)
        if not match or (match[1] and match[1] not in {owner for owner, _ in known}):
            continue
        crate = match[1] or crate
        if (crate, match[2]) in known:
            named.append((crate, match[2]))
        elif match[1]:
            raise KeyError(word)
    return named


def rows(text, known):
    """For each edit what the rows say refuses it, and the whole last cell."""
    told = {}
    for line in text.splitlines():
        if not line.startswith('|'):
            continue
        *cells, last = [cell.strip() for cell in line.strip().strip('|').split('|')]
        named, names = edits_in(cells, known), NAMES.match(last)
        names = WORD.findall(names[0]) if names else []
        if len(names) == 1:
            names *= len(named)
        for at, edit in enumerate(named):
            told.setdefault(edit, []).append((names[at] if at < len(names) else None, last))
    return told


def faults(found, told):
    """What is not so in the rows of one edit."""
    if found is None:
        return ['the log does not say where it is refused']
    if not told:
        return ['no row says what refuses it']
    wrong = []
    for name, cell in told:
        if name != found.name:
            wrong.append(f'its row says {name or "nothing"}')
        if ('no proof' in cell) != found.unproved:
            wrong.append('its row does not say "no proof"' if found.unproved else 'its row says "no proof"')
    return wrong


def report(root, log, only=()):
    """A line for each edit, and how many have a fault."""
    known = edits(root / 'crates')
    told = rows((root / 'docs/PROOFS.md').read_text(), known)
    refused = places(root / 'crates', log)
    lines, bad = [], 0
    for crate, edit in known:
        if only and crate not in only:
            continue
        found = refused.get((crate, edit))
        wrong = faults(found, told.get((crate, edit)))
        at = f'`{found.name}`, {found.file}:{found.line}' if found else '?'
        lines.append(f'{crate}/{edit}: {at}' + ''.join(f'; WRONG: {fault}' for fault in wrong))
        bad += bool(wrong)
    return lines, bad
