"""The items of a file: of antt its named declarations, of Rattle its functions, types and constants."""

import re
from dataclasses import dataclass

# what the proof of a function is called, in a folder that has the function's name
PROOFS = ('Answers', 'Invariants', 'Proof')
MARKS = r'(?:(?:unfoldable|abbrev|axiom|pub)\s+)*'
HEAD = re.compile(MARKS + r'(?:(?:record|data|ruleset)\s+(\S+)|(\S+)(?:\s+\{[^}]*\})?\s+:(?:\s|$))')
# what names nothing; `use` and `mod` lines stand above every item
UNNAMED = re.compile(r'(?:open|infix[lr]?)\s')
BLOCK = re.compile(r'module\s|mutual$')

CLAUSE = re.compile(r'\b(?:requires|ensures)\*?(?:\s+\w+)?\s*$')
CODE = re.compile(
    r'(?:#\[[^\]]*\]\s*)*(?P<seen>pub(?:\(\w+\))?\s+)?(?:extern\s+"[^"]*"\s+)?(?:const\s+(?=fn))?'
    r'\b(?P<kind>fn|struct|enum|const|impl|mod)\s+(?:[\w:]+\s+for\s+)?(?P<name>\w+)'
)
OPENER = re.compile(r'[(\[{;]')


@dataclass(frozen=True)
class Item:
    name: str
    text: str
    first: int
    last: int
    public: bool = False
    code: str = ''
    kind: str = ''


def folded(text):
    return ' '.join(text.split())


def uncommented(text, mark):
    """The text with its comments taken out; in a quoted text nothing begins one."""
    return re.sub(r'("(?:\\.|[^"\\\n])*")|(?:^|(?<=\s))' + mark + r'.*', lambda m: m[1] or '', text, flags=re.M)


def antt_lines(text):
    """Number, indentation and words of each line that is not blank; a block's opening is one line."""
    lines = []
    for number, line in enumerate(uncommented(text, '--').split('\n'), 1):
        words = line.strip()
        if not words:
            continue
        if lines and BLOCK.match(lines[-1][2]) and not re.search(r'(\bwhere|^mutual)$', lines[-1][2]):
            lines[-1] = (*lines[-1][:2], lines[-1][2] + ' ' + words)
        else:
            lines.append((number, len(line) - len(line.lstrip()), words))
    return lines


def antt_items(text):
    """What stands in `module _ (..) where` has that line in its text, since it is part of the statement."""
    blocks, found, current = [(0, '')], [], None
    for number, indent, words in antt_lines(text):
        if blocks[-1][0] is None:
            blocks[-1] = (indent, blocks[-1][1])
        while indent < blocks[-1][0]:
            blocks.pop()
        top = indent == blocks[-1][0]
        head = HEAD.match(words)
        if top and BLOCK.match(words):
            blocks.append((None, words))
            current = None
        elif top and UNNAMED.match(words):
            current = None
        elif top and head:
            around = [opening for _, opening in blocks if opening]
            current = [head[1] or head[2], number, number, *around, words]
            found.append(current)
        elif current:
            current[2] = number
            current.append(words)
    return [Item(name, folded(' '.join(parts)), first, last) for name, first, last, *parts in found]


def closing(mask, at):
    """The place after the bracket that closes the one at `at`."""
    depth = 0
    for place in range(at, len(mask)):
        if mask[place] in '([{':
            depth += 1
        elif mask[place] in ')]}':
            depth -= 1
            if depth == 0:
                return place + 1
    raise ValueError('a bracket is not closed')


def parts(mask, at, kind):
    """Where the body of the item begins and where the item ends; without a body both are the same."""
    while True:
        at = OPENER.search(mask, at).start()
        if mask[at] == ';':
            return at, at + 1
        if mask[at] == '{' and kind != 'const' and not CLAUSE.search(mask, 0, at):
            return at, closing(mask, at)
        at = closing(mask, at)


def rattle_items(text, inside=''):
    """Functions, types and constants; a method's name has its type before it."""
    text = uncommented(text, '//')
    # brackets in texts and characters close nothing
    mask = re.sub(r'"(?:\\.|[^"\\\n])*"|(?<![\w\'])b?\'(?:\\.|[^\'\\])\'', lambda m: '"' + ' ' * (len(m[0]) - 2) + '"', text)
    found, at = [], 0
    while head := CODE.search(mask, at):
        kind, name = head['kind'], inside + head['name']
        body, at = parts(mask, head.end(), kind)
        line = text.count('\n', 0, head.start()) + 1
        if kind in ('impl', 'mod'):
            # as many lines before as the file has, so that the numbers of lines stay
            found += rattle_items('\n' * (text.count('\n', 0, body)) + text[body + 1 : at - 1], name + '::')
            continue
        told, code = (text[head.start() : body], text[body:at]) if kind == 'fn' else (text[head.start() : at], '')
        public = (head['seen'] or '').strip() == 'pub'
        found.append(Item(name, folded(told), line, text.count('\n', 0, at) + 1, public, folded(code), kind))
    return found
