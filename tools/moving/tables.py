"""The tables of a landing note, in Markdown."""

from .trees import Crate, paired

TITLES = {
    'definitions': 'Definitions',
    'types': 'Types and constants of the code',
    'contracts': 'Contracts: functions with their clauses',
    'lemmas': 'Lemmas',
}
STATES = ('added', 'taken away', 'changed', 'stayed')
CODE = 'of these, other code'


def state(before, after):
    if before is None:
        return 'added'
    if after is None:
        return 'taken away'
    return 'stayed' if before.text == after.text else 'changed'


def sorted_out(old, new):
    """The pairs of a crate and kind by what became of them."""
    by_state = {name: [] for name in (*STATES, CODE)}
    for before, after in paired(old, new):
        by_state[state(before, after)].append((before, after))
        if state(before, after) == 'stayed' and before.item.code != after.item.code:
            by_state[CODE].append((before, after))
    return by_state


def row(first, cells):
    return f'| {first} | ' + ' | '.join(str(cell) for cell in cells) + ' |'


def table(heads, rows):
    return [row('crate', heads), '|---' * (len(heads) + 1) + '|', *rows]


def name_of(before, after):
    """The name, and whether it is seen outside since, or no longer."""
    name = f'`{(after or before).name}`'
    if before and after and before.item.public != after.item.public:
        name += ' (now public)' if after.item.public else ' (no longer public)'
    return name


def named(crate, by_state, kind):
    """A line with the names of what did not stay; of functions only those that are public."""
    told = []
    for what in STATES[:3]:
        pairs = [p for p in by_state[what] if kind != 'contracts' or any(i and i.item.public for i in p)]
        if pairs:
            pairs.sort(key=lambda p: (p[1] or p[0]).name)
            told.append(f'{what} ' + ', '.join(name_of(*p) for p in pairs))
    return [f'- `{crate}`: ' + '; '.join(told)] if told else []


def counted(old, new, kind):
    """The table of one kind, and the names below it; a crate that never had any of the kind has no row."""
    columns = STATES + ((CODE,) if kind == 'contracts' else ())
    rows, names, sums = [], [], dict.fromkeys(columns, 0)
    for crate in sorted(old.keys() | new.keys()):
        by_state = sorted_out(old.get(crate, Crate()).items[kind], new.get(crate, Crate()).items[kind])
        counts = {column: len(by_state[column]) for column in columns}
        if any(counts.values()):
            rows.append(row(f'`{crate}`', counts.values()))
            sums = {column: sums[column] + counts[column] for column in columns}
        if kind != 'lemmas':
            names += named(crate, by_state, kind)
    whose = 'Public ones:' if kind == 'contracts' else 'By name:'
    return [f'## {TITLES[kind]}', '', *table(columns, [*rows, row('all', sums.values())]), *(['', whose, '', *names] if names else []), '']


def lines(old, new):
    parts = {'src': 'code', 'specs': 'definitions', 'proofs': 'proofs'}
    rows, sums = [], {part: [0, 0] for part in parts}
    for crate in sorted(old.keys() | new.keys()):
        cells = []
        for part in parts:
            pair = [tree.get(crate, Crate()).lines[part] for tree in (old, new)]
            sums[part] = [a + b for a, b in zip(sums[part], pair)]
            cells.append(pair)
        rows.append(row(f'`{crate}`', map(moved, cells)))
    return ['## Lines', '', *table(parts.values(), [*rows, row('all', map(moved, sums.values()))])]


def moved(pair):
    return pair[0] if pair[0] == pair[1] else f'{pair[0]} → {pair[1]}'


def note(old, new):
    return '\n'.join([line for kind in TITLES for line in counted(old, new, kind)] + lines(old, new))
