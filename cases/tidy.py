"""Tests that `tools/tidy` finds nothing new in the repository, and finds each kind of break in a small one made for a test."""
import os
import pathlib
import shutil
import subprocess
import sys
import tempfile

TOP = pathlib.Path(__file__).resolve().parent.parent
CODE = '''/// Where a thing is.
pub struct Place;
pub struct Bare;

/// The sum.
pub fn sum(a: u8, b: u8, c: u8, d: u8, e: u8, f: &impl Fn(u8, u8) -> u8) -> u8 { 0 }

fn told<T: Into<(u8, u8)>>(a: u8, b: u8, c: u8, d: u8, e: u8, f: T, g: u8)
    ensures told { a ≡ b }
{
%s}
''' % ('    work();\n' * 39)
OTHER = '/// Where another is.\n#[derive(Clone)]\npub enum Place {}\nstruct Thing;\nimpl Each for Thing {\n    type Item = u8;\n}\n'
SHAPES = """pub record Shape : Type 0 where
  pub sides : ℕ
  pub place : Option Span
  pub row : List ℕ
  pub gate : X
  pub list : IsLong sides

abbrev pub shape_of : ℕ → Shape
shape_of n = record { sides = n }
"""
RELATIONS = 'abbrev pub Shape : ℕ → Type 0\nShape n = Unit\n\nIsWide : Shape 0\n'
LEMMAS = 'first : (a b : ℕ) → a ≡ b\n    → b ≡ a\nfirst a b e = sym e\n\nT : ℕ → Type 0\nT n = Unit\n'
AGAIN = 'second : (a b : ℕ)   → a ≡ b → b ≡ a\nsecond a b e = sym e\n\nU : ℕ → Type 0\nU n = Unit\n'
DEFINITION = 'IsWide : Type 0\nIsWide = %s\n\nIsNot : Type 0\nIsNot = %s\n' % ('x' * 132, 'ℕ' * 132)
GLOSSARY = """## Glossary

| word | what it means | its types |
|---|---|---|
| place | a line | `Place` |
| row, list | many of one | `u8` |
| gate | a door | |
"""
NAMED = """struct Thing<'a> {
    place: Option<&'a low::Place>,
    pub(crate) row: Vec<[u8; 4]>,
    list: Vec<usize>,
    gate: u8,
}

impl Each for Thing<'_> {
    type Item = u8;
}

fn show(mut place: &mut u32, row: &[u8]) {
    let place: u64 = 0;
}
"""
GIVEN = """fn place_of(text: &str) -> Option<Span> {
    text.find()
}

fn nearest_place(text: &str) -> Result<Place<'_>, Memory>
    ensures { IfOk result (λ p. p ≡ place_in text.now) }
{
    text.place()
}

fn is_place(text: &str) -> bool {
    false
}

fn judge_places(text: &str) -> Mistake {
    text.mistake()
}

fn pair_of_places(text: &str) -> (Span, Span) {
    text.two()
}
"""
GIVES = """abbrev pub place_in : List ℕ → (Span → ℕ)
    → Span
place_in text f = first text

places : List ℕ → List PlaceModel
places text = []

row_at : List ℕ → ℕ → Option ℕ
row_at row k = slice_get row k

rows : List Kind → List Symbol
rows kinds = []

in_a_list : List Kind → Symbol
in_a_list kinds = kinds

module _ (n : ℕ) where
  unfoldable pub moved : ℕ
      → ℕ
  moved k = k

  moved_less : (k : ℕ) → moved k ≡ k
  moved_less k = refl

abbrev pub typed : Kind → List Symbol
typed kind = []
"""
PAGE = 'See `low/src/lib.rt`, `low/src/gone.rt`, `old/src/lib.rt`, `low::sum`, `low::missing`, `out/program` and `NAME/src/lib.rt`.\n'
MINUTES, HOURS = 'minutes', 'hours'  # names, since the rule finds a number of them in this file too
SLOW = 'The gate takes\n20 processor %s.\n\n- A proof.\n- A run of 2 %s.\n| 3 %s | a test |\n' % (MINUTES, HOURS, HOURS)
FILES = {'crates.txt': 'low:\nhigh: low\n', 'README.md': PAGE, 'docs/ARCHITECTURE.md': GLOSSARY,
         **{page: SLOW for page in ('docs/TOUR.md', 'docs/PERFORMANCE.md', 'CHANGELOG.md')},
         'docs/low.1': 'It is built in ten %s.\n' % MINUTES, 'tools/slow.py': '"""Is tested\nfor four %s."""\n' % HOURS,
         'crates/low/src/lib.rt': CODE, 'crates/low/src/named.rt': NAMED, 'crates/low/src/given.rt': GIVEN, 'crates/high/src/lib.rt': OTHER,
         'crates/low/specs/Shapes.antt': SHAPES, 'crates/high/specs/Shapes.antt': RELATIONS,
         'crates/low/specs/Wide.antt': DEFINITION, 'crates/low/specs/Gives.antt': GIVES,
         'crates/high/specs/Long.antt': '-- A line.\n' * 401, 'bench/times.py': '# %s\n' % ('ä' * 139),
         'crates/low/proofs/Lemmas.antt': LEMMAS, 'crates/high/proofs/Lemmas.antt': AGAIN,
         **{'crates/low/%s/%d.edit' % (folder, k): '' for folder in ('edits', 'out') for k in range(41)}}
FOUND = ['crates/low/src/lib.rt:3 no doc comment on Bare, it is public',
         'crates/low/src/lib.rt:8 long function told, 43 lines', 'crates/low/src/lib.rt:8 many arguments of told, 7 arguments',
         'crates/low/src/lib.rt:8 bare participle told, name it by a verb or by what comes of it',
         'crates/low/specs/Gives.antt:18 bare participle moved, name it by a verb or by what comes of it',
         'crates/low/edits:1 crowded folder, 41 files',
         'crates/low/specs/Wide.antt:2 wide line in IsWide, 141 columns', 'crates/high/specs/Long.antt:1 long file, 401 lines',
         'crates/high/src/lib.rt:3 type Place twice, also crates/low/src/lib.rt:2',
         'crates/high/src/lib.rt:4 type Thing twice, also crates/low/src/named.rt:1',
         'crates/high/specs/Shapes.antt:1 type Shape twice, also crates/low/specs/Shapes.antt:1',
         'crates/low/specs/Shapes.antt:3 place of type Option Span, the glossary has Place',
         'crates/high/proofs/Lemmas.antt:1 lemma second twice, also crates/low/proofs/Lemmas.antt:1',
         'crates/low/src/named.rt:4 list of type usize, the glossary has u8',
         'crates/low/src/named.rt:12 place of type u32, the glossary has Place',
         'crates/low/src/given.rt:1 place_of gives Option<Span>, the glossary has Place',
         'crates/low/specs/Gives.antt:1 place_in gives Span, the glossary has Place',
         'bench/times.py:1 wide line in a script, 141 columns', 'README.md:1 unknown name low/src/gone.rt, nothing here is called so',
         'README.md:1 unknown name old/src/lib.rt, nothing here is called so',
         'README.md:1 unknown name low::missing, nothing here is called so',
         *('%s time of a proof (%s %s), docs/PERFORMANCE.md has such times' % it for it in
           (('docs/TOUR.md:2', '20 processor', MINUTES), ('docs/TOUR.md:6', 3, HOURS), ('docs/low.1:1', 'ten', MINUTES),
            ('tools/slow.py:2', 'four', HOURS)))]


def run(top, *words):
    # Python runs the tool: its file was just written, and may still count as open while another thread starts a program.
    return subprocess.run([sys.executable, top / 'tools' / 'tidy', *words], stdin=subprocess.DEVNULL, stdout=subprocess.PIPE,
                          stderr=subprocess.STDOUT, timeout=60, text=True, env=dict(os.environ, PYTHONDONTWRITEBYTECODE='1'))


def made(folder, known):
    """Makes a small repository with the tool and this list."""
    for name, text in {**FILES, 'tools/tidy.txt': known}.items():
        (folder / name).parent.mkdir(parents=True, exist_ok=True)
        (folder / name).write_text(text)
    for tool in ('tidy', 'reports.py'):
        shutil.copy(TOP / 'tools' / tool, folder / 'tools' / tool)
    return folder


def unlike(asked, given):
    return [] if asked == given else ['expected %r, given %r' % (asked, given)]


def nothing_new(_):
    ran = run(TOP)
    return ran.stdout.splitlines() + unlike(0, ran.returncode)


def each_kind_is_found(_):
    with tempfile.TemporaryDirectory() as folder:
        ran = run(made(pathlib.Path(folder), ''))
        return unlike(sorted(FOUND), sorted(ran.stdout.splitlines())) + unlike(1, ran.returncode)


def what_is_listed_stays(_):
    """Listed breaks are not reported, unless an entry has no reason or its break is mended."""
    known = [line.partition(',')[0].partition(' ') for line in FOUND]
    known = ['%s %s: a reason' % (place.partition(':')[0], what) for place, _, what in known]
    found = []
    for more, asked in (([], []), (['README.md unknown name low/src/lib.rt: gone'],
                                   ['tools/tidy.txt:%d is out of date: README.md unknown name low/src/lib.rt' % (len(FOUND) + 2)])):
        with tempfile.TemporaryDirectory() as folder:
            top = made(pathlib.Path(folder), '# What stays.\n' + '\n'.join(known + more))
            ran = run(top)
            found += unlike((asked, int(bool(asked))), (ran.stdout.splitlines(), ran.returncode))
            found += unlike(len(FOUND), sum(line in FOUND for line in run(top, '--all').stdout.splitlines()))
    with tempfile.TemporaryDirectory() as folder:
        ran = run(made(pathlib.Path(folder), '\n'.join([known[0].partition(':')[0], *known[1:]])))
        found += unlike((['tools/tidy.txt:1 has no reason'], 1), (ran.stdout.splitlines(), ran.returncode))
    return found


TESTS = [('tidy/' + test.__name__, test) for test in (nothing_new, each_kind_is_found, what_is_listed_stays)]
