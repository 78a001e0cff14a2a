"""Tests `tools/rename`, `./edits --carry` and `tools/together` in a small repository made for a test."""
import importlib.machinery
import importlib.util
import pathlib
import shutil
import subprocess
import sys
import tempfile

TOP = pathlib.Path(__file__).resolve().parent.parent
CODE = """/// What stands at a place.
pub fn at(list: &[Span], place: usize) -> usize
    ensures { result ≡ got list.now place }
{
    // The place is an index.
    work();
    say("at no place // at \\"place\\"");
    list[place].place
}

/// Where it lies.
pub fn lies(place: usize) -> usize {
    place
}
"""
PROOF = """use Rattle.low.specs.place.Places.{got}

pub returns : goal.returns
returns c = c.index-place.ensures ∙ got_at c.args.place c.span.place c.loop-place.place (record { place = c.place })
"""
EDIT = 'file: src/lib.rt\nold:     list[place].place\nnew:     list[0].place\nold:     work();\nnew:     work(place);\n'
RENAMED = {
    'crates/low/src/lib.rt': CODE.replace('], place:', '], number:').replace('now place', 'now number').replace('[place]', '[number]'),
    'crates/low/proofs/lib/at/Answers.antt': PROOF.replace('index-place', 'index-number').replace('args.place', 'args.number')
        .replace('loop-place.place', 'loop-number.number'),
    'crates/low/edits/first_one.edit': EDIT.replace('[place]', '[number]').replace('(place)', '(number)')}
FILES = {'crates.txt': 'low:\n', 'crates/low/src/lib.rt': CODE, 'crates/low/proofs/lib/at/Answers.antt': PROOF,
         'crates/low/edits/first_one.edit': EDIT}


DEFINITIONS = {
    'crates/low/specs/Names.antt': "-- where it is held\nabbrev pub held : ℕ → ℕ\nheld n = n\n",
    'crates/low/specs/Given.antt': 'pub use Rattle.low.specs.Names.{held, kept}\n',
    'crates/high/src/at.rt':
        'ghost use Rattle.low.specs.Names as names;\n\nfn at()\n    ensures { names.held 0 ≡ h.held }\n{\n    held()\n}\n',
    'crates/high/proofs/Lemmas.antt':
        'use Rattle.low.specs.Given.{\n  kept, held}\n\nfirst : held 0 ≡ 0\nfirst = c.held-1 ∙ held kept.held -- held\n',
    'crates/high/proofs/Left.antt': 'use Rattle.low.specs.Names.{held}\n\nsecond : (held : ℕ) → held ≡ held\n',
    'crates/high/proofs/Other.antt': 'third : held 0 ≡ 0\n'}
DEFINED = {
    'crates/low/specs/Names.antt': "-- where it is held\nabbrev pub owner_of : ℕ → ℕ\nowner_of n = n\n",
    'crates/low/specs/Given.antt': 'pub use Rattle.low.specs.Names.{owner_of, kept}\n',
    'crates/high/src/at.rt': DEFINITIONS['crates/high/src/at.rt'].replace('names.held', 'names.owner_of'),
    'crates/high/proofs/Lemmas.antt':
        'use Rattle.low.specs.Given.{\n  kept, owner_of}\n\nfirst : owner_of 0 ≡ 0\nfirst = c.held-1 ∙ owner_of kept.held -- held\n',
    'crates/high/proofs/Left.antt': DEFINITIONS['crates/high/proofs/Left.antt'].replace('{held}', '{owner_of}')}


def called(top, *words):
    return subprocess.run([sys.executable, top / words[0], *words[1:]], cwd=top, capture_output=True, text=True, timeout=60)


def made(top, files=FILES, crate='low', mutant='first_one'):
    """Makes the repository, with the mutant noted as tried and everything committed."""
    for name, text in files.items():
        (top / name).parent.mkdir(parents=True, exist_ok=True)
        (top / name).write_text(text)
    for name in ('edits', 'tools/rename', 'tools/toolchain.py', 'tools/trials.py'):
        (top / name).parent.mkdir(exist_ok=True)
        shutil.copy(TOP / name, top / name)
    spec = importlib.util.spec_from_file_location('trials_there', top / 'tools' / 'trials.py')
    trials = importlib.util.module_from_spec(spec)
    spec.loader.exec_module(trials)
    trials.note(crate, {mutant})
    for words in (['init', '-q'], ['add', '.'], ['-c', 'user.name=a', '-c', 'user.email=a', 'commit', '-q', '-m', 'a']):
        subprocess.run(['git', *words], cwd=top, check=True)


def unlike(expected, given):
    return [] if expected == given else ['expected %r, given %r' % (expected, given)]


def a_value_of_a_function(_):
    with tempfile.TemporaryDirectory() as folder:
        top = pathlib.Path(folder)
        made(top)
        found = unlike(0, called(top, 'tools/rename', 'low::at', 'place', 'number').returncode)
        found += [line for name, text in RENAMED.items() for line in unlike(text, (top / name).read_text())]
        return found + unlike(1, called(top, 'tools/rename', 'low::lib::at', 'list', 'number').returncode)


def a_word_of_a_crate(_):
    with tempfile.TemporaryDirectory() as folder:
        top = pathlib.Path(folder)
        made(top)
        found = unlike(1, called(top, 'tools/rename', '--in', 'low', 'lies', 'at').returncode)
        found += unlike(0, called(top, 'tools/rename', '--in', 'low', 'at', 'span_of').returncode)
        found += unlike(True, (top / 'crates/low/proofs/lib/span_of/Answers.antt').exists())
        text = (top / 'crates/low/src/lib.rt').read_text()
        return found + unlike(CODE.replace('fn at(', 'fn span_of('), text)


def a_definition(_):
    with tempfile.TemporaryDirectory() as folder:
        top = pathlib.Path(folder)
        made(top, {**FILES, **DEFINITIONS, 'crates.txt': 'low:\nhigh: low\n'})
        ran = called(top, 'tools/rename', '--definition', 'low::Names', 'held', 'owner_of')
        found = unlike((1, 'tools/rename: left to hand: crates/high/proofs/Left.antt\n'), (ran.returncode, ran.stderr))
        found += [line for name, text in {**DEFINITIONS, **DEFINED}.items() for line in unlike(text, (top / name).read_text())]
        return found + unlike(1, called(top, 'tools/rename', '--definition', 'low::Names', 'owner_of', 'kept').returncode)


def trials_are_carried_over(_):
    with tempfile.TemporaryDirectory() as folder:
        top = pathlib.Path(folder)
        made(top)
        called(top, 'tools/rename', 'low::at', 'place', 'number')
        source = top / 'crates/low/src/lib.rt'
        source.write_text(source.read_text().replace('// The place', '// It'))
        found = unlike('low\n', called(top, './edits', '--due').stdout)
        called(top, './edits', '--carry', 'HEAD', 'list=number')
        found += unlike('low\n', called(top, './edits', '--due').stdout)
        called(top, './edits', '--carry', 'HEAD', 'place=number')
        found += unlike('', called(top, './edits', '--due').stdout)
        source.write_text(source.read_text().replace('    place\n', '    0\n'))
        called(top, './edits', '--carry', 'HEAD', 'place=number')
        return found + unlike('low\n', called(top, './edits', '--due').stdout)


def fields_taken_over(_):
    """A record that names each field equals one that only names those that differ."""
    with tempfile.TemporaryDirectory() as folder:
        top = pathlib.Path(folder)
        head, spec = 'abbrev pub in_front : Span → Span\n', 'crates/low/specs/Fronts.antt'
        made(top, {**FILES, spec: head + 'in_front s = record {\n  start = s.start;\n  place = at s;\n  end = s.end;\n}\n'})
        found = []
        for text, due in (('s { place = at s }', ''), ('s { place = at t }', 'low\n'), ('t { place = at s }', 'low\n'),
                          ('s { place = at s; end = s.start }', 'low\n'), ('{ start = s.start; place = at s; end = s.end }', '')):
            (top / spec).write_text(head + 'in_front s = record %s\n' % text)
            subprocess.run(['git', 'checkout', '-q', 'HEAD', 'crates/low/edits/TRIED'], cwd=top, check=True)
            called(top, './edits', '--carry', 'HEAD', 'a=a')
            found += unlike((text, due), (text, called(top, './edits', '--due').stdout))
        return found


def a_file_moves_below(_):
    with tempfile.TemporaryDirectory() as folder:
        top = pathlib.Path(folder)
        made(top, {'crates.txt': 'low:\nhigh: low\n', 'crates/low/src/lib.rt': '//! Nothing.\n',
                   'crates/high/src/at.rt': CODE.replace('pub', 'pub(crate)'),
                   'crates/high/src/lib.rt': 'mod at;\n\nfn first() -> usize {\n    at::at(LIST, 0)\n}\n',
                   'crates/high/edits/last.edit': 'file: src/lib.rt\nold: 0)\nnew: 1)\n'}, 'high', 'last')
        (top / 'crates/high/src/at.rt').unlink()
        (top / 'crates/low/src/at.rt').write_text(CODE)
        (top / 'crates/low/src/lib.rt').write_text('mod at;\n\npub use at::{at, lies};\n')
        (top / 'crates/high/src/lib.rt').write_text('use low::at;\n\nfn first() -> usize {\n    at::at(LIST, 0)\n}\n')
        found = unlike('high\n', called(top, './edits', '--due').stdout)
        called(top, './edits', '--carry', 'HEAD', 'a=a')
        found += unlike('', called(top, './edits', '--due').stdout)
        (top / 'crates/low/src/at.rt').write_text(CODE.replace('≡ got', '≢ got'))
        called(top, './edits', '--carry', 'HEAD', 'a=a')
        return found + unlike('high\n', called(top, './edits', '--due').stdout)


LOW = """mod parts;

pub use parts::{Part, Mark, Other};
"""
PARTS = """/// What is marked.
pub struct Part {
    place: usize,
}

pub struct Mark(pub usize);

pub struct Other(pub usize);

impl Part {
    /// Its mark.
    pub fn mark(&self) -> Mark
        ensures { result.0 ≡ self.now.place }
    {
        Mark(self.place)
    }

    /// Another.
    pub fn other(&self) -> Other
        ensures { result.0 ≡ self.now.place }
    {
        Other(self.place)
    }
}
"""
HIGH = """use low::Part;

fn first(part: &Part) -> usize {
    part.mark().0
}
"""


def what_a_crate_meets(_):
    """A mutant is due after changes to lower types that its crate meets, by name or as results of calls, and to the calls it makes."""
    with tempfile.TemporaryDirectory() as folder:
        top = pathlib.Path(folder)
        made(top, {'crates.txt': 'low:\nhigh: low\n', 'crates/low/src/lib.rt': LOW, 'crates/low/src/parts.rt': PARTS,
                   'crates/high/src/lib.rt': HIGH,
                   'crates/high/edits/last.edit': 'file: src/lib.rt\nold: .0\nnew: .0 + 1\n'}, 'high', 'last')
        found = []
        for old, new, due in (('Other(pub usize', 'Other(pub u32', ''), ('Mark(pub usize', 'Mark(pub u32', 'high\n'),
                              ('    place: usize', '    place: u32', 'high\n'), ('    Other(self.place)', '    Other(0)', '')):
            (top / 'crates/low/src/parts.rt').write_text(PARTS.replace(old, new))
            found += unlike((old, due), (old, called(top, './edits', '--due').stdout))
        front, _, back = PARTS.partition('pub fn other')
        for old, text, due in (('of mark', front.replace('≡', '≢') + 'pub fn other' + back, 'high\n'),
                               ('of other', front + 'pub fn other' + back.replace('≡', '≢'), '')):
            (top / 'crates/low/src/parts.rt').write_text(text)
            found += unlike((old, due), (old, called(top, './edits', '--due').stdout))
        return found


SAID = """so far: fn low::lib::at: not proved
./proofs/lib/at/Answers.antt:9:4: error: `returns`: expected another type
fn low::lib::at: not proved
fn low::lib::lies: no proof: it calls `low::lib::at`, which is not proved
fn low::threads::fn::run_all::scope: not proved
fn low::threads::run_all: no proof: it calls `low::threads::fn::run_all::scope`, which is not proved
fn low::parts::Part::mark: no proof: expected answers in ./proofs/parts/Part/mark/Answers.antt; `search` did not prove `returns`
"""


def mutants_in_one_copy(_):
    """Mutants of different functions share a copy, and one counts as refused only if its own function is."""
    loader = importlib.machinery.SourceFileLoader('together', str(TOP / 'tools' / 'together'))
    together = importlib.util.module_from_spec(importlib.util.spec_from_loader('together', loader))
    sys.path.insert(0, str(TOP / 'tools'))
    loader.exec_module(together)
    with tempfile.TemporaryDirectory() as folder:
        crate = pathlib.Path(folder)
        texts = {'a': 'old:     work();\nnew:     rest();\n', 'b': 'old:     list[place].place\nnew:     list[0].place\n',
                 'c': 'old:     place\n}\nnew:     0\n}\n', 'd': 'old: pub fn lies(place: usize)\nnew: pub fn lies(_: usize)\n'}
        (crate / 'src').mkdir()
        (crate / 'src/lib.rt').write_text(CODE)
        edits = [crate / (name + '.edit') for name in texts]
        for edit in edits:
            edit.write_text('file: src/lib.rt\n' + texts[edit.stem])
        shared = [sorted(it.stem for it in mutants) for mutants, _ in together.in_copies(crate, edits)]
    found = unlike([['a', 'c'], ['b', 'd']], shared)
    for file, function, refused in (('src/lib.rt', ('', 'at'), True), ('src/lib.rt', ('', 'lies'), False),
                                    ('src/parts.rt', ('Part', 'mark'), True), ('src/parts.rt', ('', 'mark'), False),
                                    ('src/threads.rt', ('', 'run_all'), True), ('src/threads.rt', ('', 'run_one'), False)):
        found += unlike((function, refused), (function, together.fails(SAID, file, function)))
    return found


TESTS = [('renaming/' + test.__name__, test) for test in (
    a_value_of_a_function, a_word_of_a_crate, a_definition, trials_are_carried_over, fields_taken_over, a_file_moves_below,
    what_a_crate_meets, mutants_in_one_copy)]
