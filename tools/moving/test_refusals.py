"""What tools/refusals says of a small repository, with what the checker printed of each edit."""

import tempfile
import unittest
from pathlib import Path

from .refusals import report

CODE = 'use x;\n\npub fn seven() -> u8\n    ensures small { result < 9 }\n    ensures value { result ≡ 7 }\n{\n    8\n}\n\nfn other() {\n}\n'
LAWS = 'pub first : ℕ\nfirst = 1\n\nmodule _ (c : ℕ) where\n  pub second : ℕ\n  second =\n      2\n'
REFUSED = 'rt: must-fail form/{}.edit: refused, as it must be: {}'
ONLY = 'rt: must-fail form/{}.edit: refused, as it must be (only by a limit of the prover, which gave no verdict: choose another): {}'
CAUSED = './proofs/first/Answers.antt:3:5: error: 1 declaration that depends on `first`, which was rejected, was not checked: other\n'
LOGS = {
    'code': REFUSED.format('code', 'note: src/lib.rt:7:5: it is not proved that what the function ensures holds when it returns (`ensures-value`)'),
    'caused': CAUSED + REFUSED.format('caused', 'note: src/lib.rt:7:5: it is not proved that what the function ensures holds when it returns (`ensures-value`)'),
    'proof': REFUSED.format('proof', './proofs/lists/entry_form/Answers.antt:10:13: error: `returns`: x: y'),
    'law': REFUSED.format('law', './proofs/Laws.antt:7:7: error: `second`: x'),
    'law_again': ONLY.format('law_again', 'proofs/Laws.antt:6:3: error: `second`: x'),
    'gone': ONLY.format('gone', './proofs/Laws.antt:6:3: error: `second`: x').replace('by a limit', 'because a proof file names what the edit took away'),
    'nowhere': 'rt: must-fail form/nowhere.edit: refused, as it must be',
    'missed': 'rt: must-fail form/missed.edit: NOT REFUSED: the crate is still proved with this edit',
}
HEAD = '| edit | what is wrong | what refuses it |\n|---|---|---|\n'


class Refusals(unittest.TestCase):
    def setUp(self):
        room = tempfile.TemporaryDirectory()
        self.addCleanup(room.cleanup)
        self.root = Path(room.name)
        self.log = ''

    def write(self, path, text):
        (self.root / path).parent.mkdir(parents=True, exist_ok=True)
        (self.root / path).write_text(text)

    def tried(self, edit):
        self.write(f'crates/form/must-fail/{edit}.edit', '')
        self.write('crates/form/src/lib.rt', CODE)
        self.write('crates/form/proofs/Laws.antt', LAWS)
        self.log += LOGS[edit] + '\n'

    def said(self, rows, *only):
        self.write('docs/PROOFS.md', HEAD + rows + '\n')
        return report(self.root, 'rt: form proved\n' + self.log, only)

    def test_a_law(self):
        self.tried('law')
        told = 'form/law: `second`, proofs/Laws.antt:7'
        self.assertEqual(self.said('| `form/law` | x | `second` (`Laws`), a product |'), ([told], 0))
        self.assertEqual(self.said('| `form/must-fail/law` | x | `second` |'), ([told], 0))
        self.assertEqual(self.said('| `form/law` | x | `first` |'), ([told + '; WRONG: its row says first'], 1))
        self.assertEqual(self.said('| `form/law` | x | in `second` |'), ([told + '; WRONG: its row says nothing'], 1))

    def test_a_function_s_proof(self):
        self.tried('proof')
        told = 'form/proof: `entry_form`, proofs/lists/entry_form/Answers.antt:10'
        self.assertEqual(self.said('| `form/proof` | x | `entry_form` |'), ([told], 0))
        wrong = [told + '; WRONG: its row says "no proof"']
        self.assertEqual(self.said('| `form/proof` | x | `entry_form`, no proof is found |'), (wrong, 1))

    def test_a_function_with_no_proof_file(self):
        self.tried('code')
        told = 'form/code: `seven`, src/lib.rt:7'
        self.assertEqual(self.said('| `form/code` | x | `seven`: no proof is found |'), ([told], 0))
        self.assertEqual(self.said('| `form/code` | x | `seven` |'), ([told + '; WRONG: its row does not say "no proof"'], 1))

    def test_what_follows_from_another_fault_is_passed_over(self):
        self.tried('caused')
        self.assertEqual(self.said('| `form/caused` | x | `seven`: no proof is found |'), (['form/caused: `seven`, src/lib.rt:7'], 0))

    def test_a_proof_that_names_what_is_gone_is_no_refusal(self):
        self.tried('gone')
        self.assertEqual(self.said('| `form/gone` | x | `second` |')[1], 1)

    def test_several_edits_in_a_row(self):
        self.tried('law')
        self.tried('proof')
        self.assertEqual(self.said('| `form/law`, `proof` | x; `y` | `second`, `entry_form` |')[1], 0)
        self.assertEqual(self.said('| `form/law`, `proof` | x | `entry_form`, `second` |')[1], 2)
        self.assertEqual(self.said('| `form/law`, `proof` | x | `second` |')[1], 1)
        self.assertEqual(self.said('| `form/law`, `proof` | x | `entry_form`, `second` |', 'mesh'), ([], 0))

    def test_one_name_for_all(self):
        self.tried('law')
        self.tried('law_again')
        self.assertEqual(self.said('| `form/law`, `law_again` | x | `second` |')[1], 0)
        self.assertEqual(self.said('| `form/law`, `law_again` | x | `first` |')[1], 2)

    def test_every_row_is_looked_at(self):
        self.tried('law')
        self.assertEqual(self.said('| `form/law` | x | `second` |\n| call | `form/law` | `first` |')[1], 1)
        self.assertEqual(self.said('| `form/law` | x | `first` |\n| call | `form/law` | `second` |')[1], 1)

    def test_no_row(self):
        self.tried('law')
        told = 'form/law: `second`, proofs/Laws.antt:7; WRONG: no row says what refuses it'
        self.assertEqual(self.said('| `mesh/law` | x | `second` |'), ([told], 1))

    def test_no_such_edit(self):
        self.tried('law')
        with self.assertRaises(KeyError):
            self.said('| `form/law` | x | `second` |\n| `form/lore` | x | `second` |')

    def test_not_refused_not_tried_no_place(self):
        self.tried('nowhere')
        self.tried('missed')
        self.write('crates/form/must-fail/new.edit', '')
        lines, bad = self.said('| `form/missed`, `nowhere`, `new` | x | `second` |')
        self.assertEqual(bad, 3)
        self.assertTrue(all(line.endswith('?; WRONG: the log does not say where it is refused') for line in lines))
