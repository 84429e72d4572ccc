#!/usr/bin/env python3
"""Brings the names of definitions and lemmas to today's spelling: functions, lemmas and fields in snake case, modules in camel case.

Run once at the top of the repository, right after the toolchain's own port. Functions of src/, exported names, strings, inputs and
outputs keep their names. A dash stays where it joins the names of two functions; a lemma that would get the name of something else
gets `_lem`. With --list it prints the renaming and changes nothing.
"""
import collections
import glob
import os
import re
import subprocess
import sys

CRATES = [line.split(':')[0] for line in open('crates.txt') if ':' in line and not line.startswith('#')]
SEPARATORS = r'[\s(){};,."\[\]`]'
DECLARED = re.compile(r'\s*(?:(?:abbrev|unfoldable|pub)\s+)*(?:record\s+|data\s+)?([^\s(){}:=.,;]+)(?:\s.*?)?\s?:(?=\s|$)')
KEYWORDS = {'use', 'module', 'let', 'rw', 'λ', 'where', 'in', '--', '|', '→', 'elim', 'record'}


def files(pattern):
    return sorted(f for f in glob.glob(pattern, recursive=True) if '/out/' not in f)


def code_of(line, mark):
    at = line.find(mark)
    return line if at < 0 else line[:at]


def snake(name):
    return re.sub(r'(?<=[a-z0-9])([A-Z])', lambda m: '_' + m.group(1).lower(), name)


antt = files('crates/**/*.antt')
rt = files('crates/**/*.rt')
foreign, declared, defined, tokens = set(), set(), set(), collections.Counter()
for f in antt + rt:
    for line in open(f, encoding='utf-8'):
        line = code_of(line, '--' if f.endswith('.antt') else '//')
        m = re.match(r'\s*(?:pub )?(?:ghost )?use ([^{]*?)\.\{(.*)\}', line)
        if m and not (m.group(1).startswith('Rattle.') and m.group(1).split('.')[1] in CRATES):
            foreign |= {n.strip().split(' as ')[0] for n in m.group(2).split(',')}
        elif not m and f.endswith('.antt'):
            d = DECLARED.match(line)
            if d and d.group(1) not in KEYWORDS:
                name = d.group(1)
                if not f.endswith('/Proof.antt'):
                    declared.add(name)
                elif name.endswith('-spec'):
                    declared.add(name)
                if '/specs/' in f and not name[0].isupper():
                    defined.add(name)
        for t in re.split(SEPARATORS + '+', line):
            tokens[t] += 1

words = {snake(d) for d in defined} | foreign


def joined(name):
    parts = name.split('-')
    out = parts[0]
    for left, right in zip(parts, parts[1:]):
        out += ('-' if left in words and right in words else '_') + right
    return out


# a lemma that has a definition's new name already: its new name, in .antt files alone
lemmas = {snake(d): snake(d) + '_lem' for d in defined if snake(d) != d and snake(d) in declared - defined}
names, taken = {}, declared - set(lemmas) | foreign | set(lemmas.values())
for name in sorted(declared - foreign, key=lambda n: (n not in defined, n)):
    if name[0].isupper() or not (re.search('[a-z][A-Z]', name) or re.search(r'[^\W_].*-|-.*[^\W_]', name)):
        continue
    new = joined(snake(name)) if not name[0] in '-' else name
    if new == name:
        continue
    while new in taken:
        if name in defined:
            print('a definition falls together:', name, new, file=sys.stderr)
            break
        new += '_lem'
    taken.add(new)
    names[name] = new

# folders of lemmas alone are modules of ours
folders = {}
for top in files('crates/*/proofs/*/'):
    crate, folder = top.split('/')[1], top.split('/')[3]
    if folder[0].islower() and not glob.glob(f'crates/{crate}/src/{folder}.rt') and not glob.glob(f'{top}**/Proof.antt', recursive=True):
        folders[(crate, folder)] = folder[0].upper() + folder[1:]

if '--list' in sys.argv:
    for old, new in {**names, **lemmas}.items():
        print(old, new)
    print(folders)
    sys.exit()

SPLIT = re.compile('(' + SEPARATORS + ')')


def respelled(text, mark):
    known = {**names, **lemmas} if mark == '--' else names
    out = []
    for line in text.split('\n'):
        at = line.find(mark) if mark else -1
        code, comment = (line, '') if at < 0 else (line[:at], line[at:])
        pieces, quoted = SPLIT.split(code), False
        for k, p in enumerate(pieces):
            if p == '"':
                quoted = not quoted
            elif not quoted:
                pieces[k] = known.get(p, p)
        # prose has plain words; only a name with a capital inside is surely ours
        comment = re.sub(r"[A-Za-z][\w-]*", lambda m: names.get(m.group(), m.group()) if re.search('[a-z][A-Z]', m.group()) else m.group(), comment)
        out.append(''.join(pieces) + comment)
    text = '\n'.join(out)
    for (crate, folder), new in folders.items():
        text = re.sub(rf'Rattle\.{crate}\.proofs\.{folder}\b(?!\.[a-z_0-9]+\.(Statement|Tie))', f'Rattle.{crate}.proofs.{new}', text)
        text = text.replace(f'crates/{crate}/proofs/{folder}/', f'crates/{crate}/proofs/{new}/')
    return text


for f in antt + rt + files('crates/*/must-fail/*.edit') + files('docs/**/*.md') + ['README.md']:
    text = open(f, encoding='utf-8').read()
    mark = '--' if f.endswith('.antt') else '//' if f.endswith('.rt') else None
    if f.endswith('.md'):
        new = re.sub(r'`[^`\n]+`', lambda m: respelled(m.group(), None), text)
    else:
        new = respelled(text, mark)
    crate = f.split('/')[1] if '/' in f else ''
    for (c, folder), upper in folders.items():
        if c == crate and f.endswith('/Lib.antt'):
            new = re.sub(rf'^((?:pub )?mod ){folder}$', rf'\g<1>{upper}', new, flags=re.M)
        if c == crate and f.endswith('.edit'):
            new = new.replace(f'file: proofs/{folder}/', f'file: proofs/{upper}/')
    if new != text:
        open(f, 'w', encoding='utf-8').write(new)

for (crate, folder), new in folders.items():
    for end in ('', '.antt'):
        old = f'crates/{crate}/proofs/{folder}{end}'
        if os.path.exists(old):
            subprocess.run(['git', 'mv', '-k', old, f'crates/{crate}/proofs/{new}{end}'], check=True)
            if os.path.exists(old):
                os.rename(old, f'crates/{crate}/proofs/{new}{end}')
