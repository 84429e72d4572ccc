"""Small trees in a repository of their own, and what tools/moved says of them."""

import subprocess
import tempfile
import unittest
from pathlib import Path

from .tables import STATES, CODE, note, sorted_out
from .trees import crates

SPEC = 'crates/rules/specs/Cells.antt'
CODE_FILE = 'crates/rules/src/lib.rt'
PROOF = 'crates/rules/proofs/Laws.antt'

RECORD = """-- a cell
pub record Cell : Type 0 where
  pub number : ℕ
  pub sign : ℤ
"""
FUNCTION = """// The next number.
pub fn next(c: u8) -> u8
    requires { ⌜ c < 255 ⌝ }
    ensures { λ r. ⌜ record { n = r } ≡ record { n = c + 1 } ⌝ }
{
    c + 1
}
"""
LEMMA = """returns : tie.Need-returns
returns c = omega arith
"""


class Repository(unittest.TestCase):
    def setUp(self):
        room = tempfile.TemporaryDirectory()
        self.addCleanup(room.cleanup)
        self.root = Path(room.name)
        self.git('init', '-q')

    def git(self, *words):
        told = subprocess.run(
            ['git', '-C', self.root, '-c', 'user.name=x', '-c', 'user.email=x', *words], check=True, capture_output=True, text=True
        )
        return told.stdout.strip()

    def commit(self, files):
        """A commit with these files under crates/ and no others."""
        self.git('rm', '-rqf', '--ignore-unmatch', '.')
        for path, text in files.items():
            (self.root / path).parent.mkdir(parents=True, exist_ok=True)
            (self.root / path).write_text(text)
        self.git('add', '-A')
        self.git('commit', '-qm', 'x', '--allow-empty')
        return self.git('rev-parse', 'HEAD')

    def trees(self, old, new):
        return [crates(self.commit(files), self.root) for files in (old, new)]

    def assert_moved(self, kind, old, new, crate='rules', **expected):
        """Each state that is not expected has no name."""
        before, after = self.trees(old, new)
        by_state = sorted_out(before[crate].items[kind], after[crate].items[kind])
        names = {what.replace(' ', '_'): sorted((i or j).name for i, j in pairs) for what, pairs in by_state.items() if pairs}
        names = {('code' if what == CODE.replace(' ', '_') else what): them for what, them in names.items()}
        self.assertEqual(names, expected)


class Definitions(Repository):
    def test_added_taken_away_changed_stayed(self):
        old = 'abbrev pub gone : ℕ\ngone = 1\n\nunfoldable pub other : ℕ\nother = 1\n\nsame : ℕ\nsame = 1\n'
        new = 'abbrev pub come : ℕ\ncome = 1\n\nunfoldable pub other : ℕ\nother = 2\n\nsame : ℕ\nsame = 1\n'
        self.assert_moved('definitions', {SPEC: old}, {SPEC: new}, added=['come'], taken_away=['gone'], changed=['other'], stayed=['same'])

    def test_a_record_has_its_fields(self):
        new = RECORD + '  pub dim : ℕ\n'
        self.assert_moved('definitions', {SPEC: RECORD}, {SPEC: new}, changed=['Cell'])

    def test_comments_use_lines_and_white_space_do_not_count(self):
        old = 'use lib.Dec.{eqb}\n\npub text : List ℕ\ntext = f "a -- b"  -- so\n'
        new = '-- more\nuse lib.Dec.{eqb, leb}\npub mod Other\n\npub text : List ℕ\n\ntext =\n    f "a -- b"\n'
        self.assert_moved('definitions', {SPEC: old}, {SPEC: new}, stayed=['text'])

    def test_a_quoted_text_counts(self):
        old, new = ('pub text : List ℕ\ntext = f "a -- %s"\n' % last for last in 'bc')
        self.assert_moved('definitions', {SPEC: old}, {SPEC: new}, changed=['text'])

    def test_an_operator_has_its_clauses(self):
        old, new = ('pub _⊕_ : ℕ → ℕ → ℕ\nzero ⊕ y = y\nsuc x ⊕ y = %s\n' % last for last in ('suc (x ⊕ y)', 'x'))
        self.assert_moved('definitions', {SPEC: old}, {SPEC: new}, changed=['_⊕_'])
        self.assert_moved('definitions', {SPEC: old}, {SPEC: old + 'infixl 60 _⊕_\n'}, stayed=['_⊕_'])

    def test_moved_to_another_file(self):
        other = {'crates/rules/specs/Numbers.antt': RECORD}
        self.assert_moved('definitions', {SPEC: RECORD}, other, stayed=['Cell'])
        other = {'crates/rules/specs/Numbers.antt': RECORD.replace('ℤ', 'ℕ')}
        self.assert_moved('definitions', {SPEC: RECORD}, other, changed=['Cell'])


class Lemmas(Repository):
    def test_a_function_s_proof_in_another_room(self):
        old = {'crates/rules/proofs/next/Proof.antt': LEMMA}
        new = {'crates/rules/proofs/numbers/next/Proof.antt': LEMMA}
        self.assert_moved('lemmas', old, new, stayed=['next.returns'])

    def test_two_of_one_name(self):
        one, two, three = (f'crates/rules/proofs/{function}/Proof.antt' for function in ('one', 'two', 'three'))
        other = LEMMA.replace('omega arith', 'refl')
        self.assert_moved('lemmas', {one: LEMMA, two: LEMMA}, {one: LEMMA, two: other}, changed=['two.returns'], stayed=['one.returns'])
        expected = dict(added=['three.returns'], stayed=['one.returns'], taken_away=['two.returns'])
        self.assert_moved('lemmas', {one: LEMMA, two: LEMMA}, {one: LEMMA, three: LEMMA}, **expected)

    def test_two_of_one_name_in_files_of_laws(self):
        one, two, three = (f'crates/rules/proofs/{name}.antt' for name in ('One', 'Two', 'Three'))
        low, high, zero = (f'pub here : ℕ\nhere = {n}\n' for n in (1, 9, 0))
        self.assert_moved('lemmas', {one: low, two: high}, {one: zero, three: high}, changed=['here'], stayed=['here'])
        expected = dict(added=['here'], taken_away=['here'], stayed=['here'])
        self.assert_moved('lemmas', {one: low, two: high}, {one: low, three: zero}, **expected)

    def test_the_module_around_is_part_of_the_statement(self):
        text = 'module _ (c : %s)\n    (d : ℕ) where\n  pub law : P c\n  law = record {\n  }\n\n'
        text += '  module _ (e : ℕ) where\n    inner : P e\n    inner = refl\n\npub after : ℕ\nafter = 0\n'
        self.assert_moved('lemmas', {PROOF: text % 'ℕ'}, {PROOF: text % 'ℤ'}, changed=['inner', 'law'], stayed=['after'])

    def test_where_and_unfolding_are_part_of_the_item(self):
        text = 'pub law : ℕ\nunfolding %s\nlaw = go 0\n  where\n    go : ℕ → ℕ\n    go x = %s\n'
        self.assert_moved('lemmas', {PROOF: text % ('f', 'x')}, {PROOF: text % ('f', 'x')}, stayed=['law'])
        self.assert_moved('lemmas', {PROOF: text % ('f', 'x')}, {PROOF: text % ('g', 'x')}, changed=['law'])
        self.assert_moved('lemmas', {PROOF: text % ('f', 'x')}, {PROOF: text % ('f', '0')}, changed=['law'])


class Contracts(Repository):
    def test_body_alone(self):
        new = FUNCTION.replace('    c + 1\n', '    1 + c\n')
        self.assert_moved('contracts', {CODE_FILE: FUNCTION}, {CODE_FILE: new}, stayed=['next'], code=['next'])

    def test_clause(self):
        for old, new in (('c < 255', 'c < 254'), ('n = c + 1', 'n = 1 + c'), ('c: u8', 'c: u16'), ('pub fn', 'pub(crate) fn')):
            self.assert_moved('contracts', {CODE_FILE: FUNCTION}, {CODE_FILE: FUNCTION.replace(old, new)}, changed=['next'])

    def test_comment_and_white_space(self):
        new = FUNCTION.replace('// The', '// the').replace('    requires', '        requires').replace('c + 1\n', 'c + 1 // so\n')
        self.assert_moved('contracts', {CODE_FILE: FUNCTION}, {CODE_FILE: new}, stayed=['next'])

    def test_brackets_in_characters_and_lengths(self):
        text = "fn put(out: &mut [u8; 4]) {\n    out[0] = b'{';\n}\n\n" + FUNCTION
        self.assert_moved('contracts', {CODE_FILE: text}, {CODE_FILE: text}, stayed=['next', 'put'])
        self.assert_moved('contracts', {CODE_FILE: text}, {CODE_FILE: text.replace("'{'", "'}'")}, stayed=['next', 'put'], code=['put'])

    def test_methods(self):
        text = 'impl Counts {\n' + FUNCTION + '}\n\n' + FUNCTION
        expected = dict(stayed=['Counts::next', 'next'])
        self.assert_moved('contracts', {CODE_FILE: text}, {CODE_FILE: text}, **expected)

    def test_types_and_constants(self):
        text = 'pub const SIDE: usize = 96;\n\nconst TABLE: [[i8; 2]; 1] = [[%d, 0]];\n\npub struct Cell {\n    pub n: %s,\n}\n'
        text += '\nconst MOST: u8 = if WIDE { 1 } else { %d };\n'
        expected = dict(changed=['Cell', 'MOST', 'TABLE'], stayed=['SIDE'])
        self.assert_moved('types', {CODE_FILE: text % (1, 'u8', 1)}, {CODE_FILE: text % (2, 'u16', 2)}, **expected)

    def test_only_public_ones_are_named(self):
        text = 'pub(crate) fn hidden() {\n}\n\n' + FUNCTION + '\n#[no_mangle]\npub extern "C" fn exported() {\n}\n\npub fn shown() {\n}\n'
        new = text.replace('hidden()', 'hidden(n: u8)').replace('exported()', 'exported(n: u8)').replace('pub fn shown', 'fn shown')
        said = note(*self.trees({CODE_FILE: text}, {CODE_FILE: new}))
        self.assertIn('| `rules` | 0 | 0 | 3 | 1 | 0 |', said)
        self.assertIn('- `rules`: changed `exported`, `shown` (no longer public)\n', said)


class Notes(Repository):
    def test_new_crate_lines_and_sums(self):
        both = {SPEC: RECORD, CODE_FILE: FUNCTION}
        cone = {'crates/cone/specs/Cone.antt': RECORD, 'crates/cone/proofs/f/Proof.antt': LEMMA, 'crates/cone/proofs/g/Proof.antt': LEMMA}
        said = note(*self.trees(both, {**both, **cone}))
        self.assertIn('| `cone` | 1 | 0 | 0 | 0 |\n| `rules` | 0 | 0 | 0 | 1 |\n| all | 1 | 0 | 0 | 1 |\n', said)
        self.assertIn('- `cone`: added `Cell`\n', said)
        self.assertIn('| `cone` | 0 | 0 → 4 | 0 → 4 |\n| `rules` | 7 | 4 | 0 |\n| all | 7 | 4 → 8 | 0 → 4 |', said)

    def test_crate_taken_away(self):
        said = note(*self.trees({SPEC: RECORD, 'crates/cone/specs/Cone.antt': RECORD}, {SPEC: RECORD}))
        self.assertIn('| `cone` | 0 | 1 | 0 | 0 |', said)

    def test_the_working_tree_is_not_looked_at(self):
        commit = self.commit({SPEC: RECORD})
        (self.root / SPEC).write_text('')
        self.assertEqual([i.name for i in crates(commit, self.root)['rules'].items['definitions']], ['Cell'])

    def test_every_state_has_a_column(self):
        said = note(*self.trees({SPEC: RECORD}, {SPEC: RECORD}))
        self.assertIn('| crate | ' + ' | '.join(STATES) + ' |', said)
