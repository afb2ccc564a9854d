#!/usr/bin/env python3
"""Tests of the tools beside this file, on small crates in a temporary folder. Nothing is proved or built.

  python3 -m unittest discover -s tools
"""
import io
import os
import re
import subprocess
import tempfile
import unittest
from contextlib import redirect_stdout
from unittest import mock

import graph
import pages
import proofs
import tidy
import twin

REPOSITORY = os.path.dirname(os.path.dirname(os.path.abspath(__file__)))


class InFolder(unittest.TestCase):
    """A test in a folder of its own, which is the repository to the tools."""

    def setUp(self):
        folder = tempfile.TemporaryDirectory()
        self.addCleanup(folder.cleanup)
        self.addCleanup(os.chdir, os.getcwd())
        os.chdir(folder.name)

    def write(self, path, text):
        if os.path.dirname(path):
            os.makedirs(os.path.dirname(path), exist_ok=True)
        with open(path, 'w') as file:
            file.write(text)

    def read(self, path):
        with open(path) as file:
            return file.read()


class Pages(InFolder):
    PAGE = """Text.

```console
$ printf 'a\\nb\\n'
a
b
$ .ci/run
...
3 passed, 0 failed
$ printf 'first\\n2\\nlast\\n' >&2
...
last
```

```text
$ false
```
"""

    def shown(self, page):
        """What is said of a page, and the status."""
        for name in pages.PAGES:
            self.write(name, page)
        said = io.StringIO()
        with redirect_stdout(said):
            try:
                pages.main()
            except SystemExit as end:
                return said.getvalue(), end.code
        return said.getvalue(), None

    def test_commands_print_what_the_page_shows(self):
        said, status = self.shown(self.PAGE)
        self.assertIsNone(status)
        self.assertEqual(said.count("printf 'a"), len(pages.PAGES))
        self.assertNotIn('.ci/run', said)
        self.assertNotIn('false', said)

    def test_another_line_or_one_too_many_is_told(self):
        for old, new in [('a\nb\n$', 'a\nc\n$'), ('a\nb\n$', 'a\n$'), ('last\n', 'lost\n')]:
            said, status = self.shown(self.PAGE.replace(old, new))
            self.assertIn('README.md shows:', status)

    def test_a_page_without_examples_is_told(self):
        self.assertIn('no examples', self.shown('Text.\n')[1])


class Graph(InFolder):
    CRATES = '''# a comment
base:  # what all stand on
left: base io  # one side
right: base left  # the other side
top: base right apart
apart: base
'''
    DRAWING = '''base               what all stand on
├── left           one side
│   └── right      the other side
│       └── top (and on apart)
└── apart
'''

    def test_each_crate_is_below_what_it_needs_most(self):
        drawn = graph.draw(self.CRATES)
        self.assertEqual([line.split() for line in drawn.splitlines()], [line.split() for line in self.DRAWING.splitlines()])

    def test_the_page_is_written_and_checked(self):
        self.write('crates.txt', self.CRATES)
        self.write('README.md', f'before\n{graph.BEGIN}\nold\n{graph.END}\nafter\n')
        with self.assertRaises(SystemExit):
            graph.main(['--check'])
        graph.main([])
        graph.main(['--check'])
        page = self.read('README.md')
        self.assertIn(graph.draw(self.CRATES), page)
        self.assertTrue(page.startswith('before\n') and page.endswith('after\n'))
        self.write('crates.txt', self.CRATES.replace('top: base right apart', 'top: base right'))
        with self.assertRaises(SystemExit):
            graph.main(['--check'])


class Tidy(InFolder):
    SPEC = '''-- A comment that mentions reverse does not use it.
use lib.ListN.{length, map, reverse, _++_}
use lib.Order as order
use lib.Unused as unused
use lib.Gone.{gone}

lengths : (xs ys : List ℕ) → length (xs ++ ys) ≡ order.sum (length xs) (length ys) → length (map f xs) ≡ length xs → xs ≡ xs
'''

    def tidied(self, path, text):
        """Returns a file of crate `sample` after the tool, and the commands that the tool ran."""
        self.write(path, text)
        with mock.patch('tidy.subprocess.run') as run:
            tidy.main(['sample'])
        return self.read(path), [call.args[0] for call in run.call_args_list]

    def test_unused_imports_go(self):
        text, ran = self.tidied('crates/sample/specs/Sample.antt', self.SPEC)
        imports = [line for line in text.split('\n') if line.startswith('use ')]
        self.assertEqual(imports, ['use lib.ListN.{length, map, _++_}', 'use lib.Order as order'])
        self.assertEqual(ran, [['rt', 'fmt']])

    def test_long_lines_are_broken_before_an_arrow(self):
        text, _ = self.tidied('crates/sample/proofs/Sample.antt', self.SPEC)
        lines = text.split('\n')
        self.assertTrue(all(len(line) <= tidy.LIMIT for line in lines), text)
        law = lines[lines.index('') + 1:]
        self.assertTrue(law[1].startswith('    → '), text)
        # Nothing is lost but the place where the line ends.
        self.assertEqual(' '.join(' '.join(law).split()), self.SPEC.split('\n')[-2])

    def test_code_and_comments_stay(self):
        comment, code = '// ' + 'word ' * 30, '    let sum = ' + ' + '.join(['number'] * 20) + ';'
        contract = '    ensures { λ r. ⌜ ' + ' → '.join(['r ≡ meaning-of first'] * 6) + ' ⌝ }'
        source = '\n'.join([comment, 'fn f(first: u32) -> u32', contract, '{', code, '}', ''])
        lines = self.tidied('crates/sample/src/lib.rt', source)[0].split('\n')
        self.assertEqual((lines[0], lines[-3]), (comment, code))
        self.assertTrue(all(len(line) <= tidy.LIMIT for line in lines[1:-3]), lines)
        self.assertEqual(' '.join(' '.join(lines[2:-4]).split()), contract.strip())

    def test_long_imports_are_several(self):
        names = [f'name-{place}' for place in range(30)]
        spec = f"use lib.Names.{{{', '.join(names)}}}\n\nall = {' '.join(names)}\n"
        lines = self.tidied('crates/sample/specs/Sample.antt', spec)[0].split('\n')
        imports = [line for line in lines if line.startswith('use lib.Names.{')]
        self.assertGreater(len(imports), 1)
        self.assertEqual(re.findall(r'name-\d+', ' '.join(imports)), names)


class Proofs(InFolder):
    # As `rt dev --generated` writes them: a record for each place, and the place at which each need is due.
    RECORDS = '''pub record At-start : Type 0 where
  pub args : Args
  pub pre : Pre
pub record At-put·own : Type 0 where
  pub value : ℕ
pub record At-put : Type 0 where
  pub before : At-start
  pub put : Put
pub record At-next : Type 0 where
  pub before : At-put
  pub next : Next

abbrev Need-add-text = (c : At-next) → Fits
abbrev pub Need-returns = (c : At-put) → Post
'''
    PROOF = '''-- `sample::put_row` meets its contract. Assumes nothing.
use native.Mathlib.Omega.{arith}

add-text : Need-add-text
add-text c = omega (arith, c .before .put .ensures, c .next .result, c .before .before .pre .0)

returns : Need-returns
returns c = c .put .ensures
'''
    NAMED = PROOF.replace('c .before .put', '@put').replace('c .next', '@next').replace('c .before .before .pre', '@pre')
    PATH = 'crates/sample/proofs/put_row/Proof.antt'

    def setUp(self):
        super().setUp()
        self.write('generated/Rattle·sample·proofs/proofs/put_row/Lts.antt', self.RECORDS)
        self.write(self.PATH, self.PROOF)
        generated = mock.patch('proofs.generate', return_value=os.path.abspath('generated'))
        generated.start()
        self.addCleanup(generated.stop)

    def test_cycles_are_found_in_modules_too(self):
        self.write('crates/sample/proofs/+f+g/Proof.antt', '')
        self.write('crates/sample/proofs/nodes/+h+call/Proof.antt', '')
        self.assertEqual(proofs.proof_dir('sample', 'g'), '+f+g')
        self.assertEqual(proofs.proof_dir('sample', 'nodes/call'), 'nodes/+h+call')
        self.assertEqual(proofs.proof_dir('sample', 'nodes/alone'), 'nodes/alone')
        self.assertEqual(proofs.members('nodes/+h+call'), ['h', 'call'])
        self.assertEqual(proofs.members('put_row'), [])

    def test_records_are_read(self):
        found = proofs.records('sample', 'put_row')
        self.assertEqual(found.fields['At-next'], [('before', 'At-put'), ('next', 'Next')])
        self.assertNotIn('At-put·own', found.fields)
        self.assertEqual(found.need, {'Need-add-text': 'At-next', 'Need-returns': 'At-put'})
        self.assertEqual(found.chain('Need-add-text'), [('next', 0), ('put', 1), ('args', 2), ('pre', 2), ('S', 2)])

    def test_paths_are_listed_nearest_first(self):
        with redirect_stdout(io.StringIO()) as printed:
            proofs.paths('sample', 'put_row')
        self.assertEqual(printed.getvalue(), 'add-text: next put args pre S\nreturns: put args pre S\n')

    def test_names_and_back(self):
        proofs.names('sample', ['put_row'])
        self.assertEqual(self.read(self.PATH), self.NAMED)
        proofs.expand('sample', ['put_row'])
        self.assertEqual(self.read(self.PATH), self.PROOF)

    def test_paths_follow_the_code(self):
        proofs.names('sample', ['put_row'])
        # The code has changed: there is one more place between the two.
        longer = self.RECORDS.replace('pub before : At-put\n', 'pub before : At-check\n')
        longer += 'pub record At-check : Type 0 where\n  pub before : At-put\n  pub check : Check\n'
        self.write('generated/Rattle·sample·proofs/proofs/put_row/Lts.antt', longer)
        proofs.cache.clear()
        proofs.expand('sample', ['put_row'])
        text = self.read(self.PATH)
        self.assertIn('c .before .before .put .ensures, c .next .result, c .before .before .before .pre .0', text)
        self.assertIn('returns c = c .put .ensures', text)

    def test_what_is_not_there_is_said(self):
        self.write(self.PATH, self.PROOF.replace('c .next', '@other'))
        with self.assertRaisesRegex(SystemExit, 'no other among next put args pre S'):
            proofs.expand('sample', ['put_row'])

    def test_long_paths_are_named_once(self):
        path = 'c' + ' .before' * 6
        uses = ', '.join(f'{path} .put .{field}' for field in ['first', 'second', 'third'])
        proof = f'add-text : Need-add-text\nadd-text c = omega (arith, {uses})\n'
        self.write(self.PATH, proof)
        proofs.short('sample', [])
        named = f'let at-put = {path} in\n    omega (arith, at-put .put .first, at-put .put .second, at-put .put .third)'
        self.assertEqual(self.read(self.PATH), f'add-text : Need-add-text\nadd-text c =\n    {named}\n')
        self.write('log', f'{self.PATH}:7: note: large solution (in `add-text`)\n')
        proofs.long('sample', 'log')
        self.assertEqual(self.read(self.PATH), proof)

    def test_skeletons_are_written_where_there_is_no_proof(self):
        printed = ''.join(f'help: write crates/sample/proofs/{name}/Proof.antt with these lines:\n    use lib.{name}\n\n    law = ?\n\n'
                          for name in ['put_row', 'new_row'])
        ended = subprocess.CompletedProcess([], 1, stdout=printed + 'rt: failed\n', stderr='')
        with mock.patch('proofs.subprocess.run', return_value=ended), redirect_stdout(io.StringIO()) as said:
            proofs.skel('sample')
        self.assertEqual(self.read('crates/sample/proofs/new_row/Proof.antt'), 'use lib.new_row\n\nlaw = ?\n')
        self.assertEqual(self.read(self.PATH), self.PROOF)
        self.assertEqual(said.getvalue(), 'wrote crates/sample/proofs/new_row/Proof.antt\n')


class Twin(InFolder):
    ROWS = '''// Rows.
ghost use lib.ListN.{length};

pub struct Row {
    pub letter: u32,
}

// Returns a number of a row.
pub fn number(rows: &[u32], row: usize) -> u32
    requires { ⌜ row * 4 < length rows ⌝ }
    ensures { λ r. ⌜ r ≡ at rows { row * 4 } ⌝ }
{
    rows[row * 4] // the letter
}
'''
    SERVICES = '''use rows::Row;

#[unsafe(no_mangle)]
pub extern "C" fn sum_rows(rows: &[u32], total: &mut u32, counts: &mut [u32], from: u64) -> u64
    ensures { λ r. ⌜ r ≡ 0 ⌝ }
{
    let part = &rows[0..4];
    counts[0] = rows::number(part, 0);
    *total += part[counts[0] as usize];
    let held = Held { part };
    *total += held.part[from as usize];
    from
}
'''
    WRAPPER = '''//! A wrapper.
mod answers;
#[cfg(test)]
mod header;

mod c {
    extern "C" {
        pub fn sum_rows();
    }
}
'''

    def setUp(self):
        super().setUp()
        self.write('crates.txt', '# NAME: what it stands on\nrows:\nunused: rows\nservices: rows\n')
        self.write('crates/rows/src/lib.rt', self.ROWS)
        self.write('crates/services/src/lib.rt', self.SERVICES)
        self.write('fickle/src/lib.rs', self.WRAPPER)
        self.write('fickle/src/answers.rs', 'pub enum Answer {}\n')
        self.write('docs/REFUSALS.md', '# Refusals\n')

    def written(self, path):
        twin.main(['write'])
        return self.read(f'target/twin/{path}')

    def test_contracts_and_ghosts_go_and_statements_stay(self):
        rust = '''


#[derive(Clone, Copy)]
pub struct Row {
    pub letter: u32,
}


pub fn number(rows: &[u32], row: usize) -> u32
{
    rows[row * 4]
}
'''
        self.assertEqual(self.written('twin/src/rows.rs').replace(' \n', '\n').lstrip(), rust.lstrip())
        services = self.written('twin/src/services.rs')
        self.assertIn('use crate::rows::Row;', services)
        self.assertIn('#[inline(never)]\npub fn sum_rows(', services)
        self.assertIn('    counts[0] = crate::rows::number(part, 0);\n', services)

    def test_unchecked_indices(self):
        services = self.written('unchecked/src/services.rs')
        self.assertIn('let part = &rows[0..4];', services)
        self.assertIn('(*unsafe { counts.get_unchecked_mut(0) }) = crate::rows::number(part, 0);', services)
        self.assertIn('(*unsafe { part.get_unchecked((*unsafe { counts.get_unchecked(0) }) as usize) })', services)
        self.assertIn('*total += (*unsafe { held.part.get_unchecked(from as usize) });', services)

    def test_unchecked_indices_of_the_repository(self):
        os.chdir(REPOSITORY)
        crates = twin.crates_below(twin.ROOT)
        files = [file for crate in crates for file, _ in twin.sources(crate)]
        self.assertIn('crates/evaluator/src/lib.rt', files)
        for file in files:
            self.assertNotIn('.(', twin.without_checks(twin.rust_of(file, crates)), file)

    def test_slices_cross_as_pointer_and_length(self):
        crossed = self.written('guarded/src/c.rs')
        self.assertIn('sum_rows(rows: *const u32, rows_length: usize, total: *mut u32, '
                      'counts: *mut u32, counts_length: usize, from: u64) -> u64', crossed)
        self.assertIn('crate::services::sum_rows(std::slice::from_raw_parts(rows, rows_length), &mut *total, '
                      'std::slice::from_raw_parts_mut(counts, counts_length), from)', crossed)

    def test_the_wrapper_is_over_the_twin(self):
        wrapper = self.written('twin/src/lib.rs')
        self.assertIn('\nmod c;\n', wrapper)
        self.assertTrue(wrapper.endswith('mod rows;\nmod services;\n'), wrapper)
        self.assertNotIn('extern', wrapper)
        self.assertEqual(self.read('target/twin/twin/src/answers.rs'), 'pub enum Answer {}\n')

    def test_what_is_left_of_a_contract_is_said(self):
        self.write('crates/rows/src/lib.rt', 'fn f() decreases n {}\n')
        with self.assertRaisesRegex(SystemExit, "has 'decreases' where no contract is"):
            twin.main(['write'])

    def test_the_sources_that_are_here(self):
        os.chdir(REPOSITORY)
        modules = twin.MODULE.findall(self.read('fickle/src/lib.rs'))
        files = {name[:-3] for name in os.listdir('fickle/src')} - {'lib', 'header'}
        crates = twin.crates_below(twin.ROOT)
        self.assertEqual(set(modules), files)
        self.assertEqual(set(modules) & set(crates), set())
        for crate in crates:
            for file, _ in twin.sources(crate):
                twin.rust_of(file, crates)


if __name__ == '__main__':
    unittest.main()
