"""Tests the scripts that prove, besides `build`: `edits`, `bench/gate` and `tools/together` use only calls of `rt` that every release
documents, and record what is refused. Here `rt` only pretends to prove; see scripts.py."""
import os
import pathlib
import shutil
import subprocess
import sys
import tempfile

from renaming import CODE, EDIT
from scripts import RT

TOP = pathlib.Path(__file__).resolve().parent.parent
# `check` refuses a crate whose `at` takes the first span, and the gate and `must-fail` refuse every mutant.
PROVES = RT.partition('[ "${RT-}" != fails ]')[0] + '''
if [ "$1" = check ]; then
  grep -q 'list.0.' src/lib.rt || exit 0
  echo 'fn low::lib::at: not proved'
  exit 1
fi
ls -d crates/*/must-fail/*.edit 2>/dev/null | sed 's|crates/\\(.*\\)/must-fail/|rt: must-fail \\1/|; s|$|: refused, as it must be|'
ls crates >>"$ASKED"
'''


class Repository:
    """A folder with the scripts, three crates and a mutant, and the command `rt` for a test."""

    def __init__(self, folder):
        self.top, self.asked = folder / 'top', folder / 'asked'
        (self.top / 'bench').mkdir(parents=True)
        for name in ('edits', 'bench/gate'):
            shutil.copy(TOP / name, self.top / name)
        shutil.copytree(TOP / 'tools', self.top / 'tools')
        (self.top / 'crates.txt').write_text('low:\nhigh: low\nother: low\n')
        for name in ('low', 'high', 'other'):
            (self.top / 'crates' / name / 'src').mkdir(parents=True)
            (self.top / 'crates' / name / 'src' / 'lib.rt').write_text(CODE)
        (self.top / 'crates' / 'low' / 'edits' / 'lib').mkdir(parents=True)
        (self.top / 'crates' / 'low' / 'edits' / 'lib' / 'first_one.edit').write_text(EDIT)
        (folder / 'bin').mkdir()
        (folder / 'bin' / 'rt').write_text(PROVES)
        (folder / 'bin' / 'rt').chmod(0o755)
        self.env = {**os.environ, 'PATH': '%s:%s' % (folder / 'bin', os.environ['PATH']), 'ASKED': str(self.asked)}
        self.env.pop('RT_JOBS', None)

    def run(self, *words, release=''):
        return subprocess.run([sys.executable, self.top / words[0], *words[1:]], cwd=self.top, capture_output=True, text=True, timeout=60,
                              env={**self.env, 'RT': release})

    def questions(self):
        """Returns the calls of `rt` since the last time, and after each that is made at the top the crates that are there."""
        said = self.asked.read_text().split('\n')[:-1] if self.asked.exists() else []
        self.asked.unlink(missing_ok=True)
        return said


def unlike(asked, given, of=''):
    return [] if asked == given else ['%s: expected %r, given %r' % (of, asked, given)]


def mutants_tried(repository):
    """Whatever the release, a due mutant is tried in a copy that has only its crate and those below, and is then no longer due."""
    found, record = [], repository.top / 'crates' / 'low' / 'edits' / 'TRIED'
    for release in ('', 'newer'):
        for words, calls in (([], ['check', 'must-fail low', 'low']), (['--gate'], ['ci', 'low'])):
            record.unlink(missing_ok=True)
            ran = repository.run('edits', *words, 'low', release=release)
            found += unlike((0, 'edits: low: 1 of 1 refused'), (ran.returncode, ran.stdout.splitlines()[-1:][0]), 'output')
            found += unlike(calls, repository.questions(), 'calls')
            found += unlike('', repository.run('edits', '--due').stdout, 'due')
    return found


def mutants_tried_together(repository):
    ran = repository.run('tools/together', 'low')
    said = ran.stdout.splitlines()[-1].partition(', output')[0]
    found = unlike((0, 'together: low: 1 refused, 0 left'), (ran.returncode, said), 'output')
    found += unlike(['check --jobs 1', 'check --jobs 1'], repository.questions(), 'calls')
    found += unlike('', repository.run('edits', '--due').stdout, 'due') + unlike(2, repository.run('tools/together').returncode, 'no name')
    (repository.top / 'crates' / 'low' / 'src' / 'lib.rt').write_text(CODE + '// list[0]\n')
    return found + unlike(1, repository.run('tools/together', 'low').returncode, 'not proved')


def parts_of_the_gate(repository):
    found = []
    for words, crates in (([], ['high', 'low', 'other']), (['high'], ['high', 'low'])):
        ran = repository.run('bench/gate', *words)
        found += unlike((0, ['ci', *crates]), (ran.returncode, repository.questions()), 'gate of %r' % words)
        found += [] if '| high |' in ran.stdout else ['no table: %r, %r' % (ran.stdout, ran.stderr)]
    return found + unlike([], repository.questions()) + unlike(1, repository.run('bench/gate', 'none').returncode, 'unknown crate')


def tested(test):
    def run(_):
        with tempfile.TemporaryDirectory() as folder:
            return test(Repository(pathlib.Path(folder)))
    return run


TESTS = [('proving/' + test.__name__, tested(test)) for test in (mutants_tried, mutants_tried_together, parts_of_the_gate)]
