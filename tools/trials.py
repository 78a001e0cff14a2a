"""Finds what the trial of a mutant rests on, and keeps the record of trials, crates/NAME/edits/TRIED. `./edits --help` defines due."""
import collections
import datetime
import functools
import hashlib
import pathlib
import re

TOP = pathlib.Path(__file__).resolve().parent.parent
CRATES = TOP / 'crates'
RULES = 'sound'  # its edits are the wrong rules
NAMED = re.compile(r'\bRattle\.(\w+)\.specs\.(declared\.)?(\w+)')
TYPE = re.compile(r' *pub (?:const|enum|struct|trait) (\w+)')
IMPL = re.compile(r'impl\b(?:<[^>]*>)?(?: .*? for)? (\w+)')
CALL = re.compile(r' *pub (const )?fn ')
IMPORT = re.compile(r'^ *(?:ghost |pub )?use .*\n', re.M)


@functools.cache
def text_of(path):
    return path.read_text()


@functools.cache
def needs():
    """Maps each crate to the libraries that it names."""
    lines = [line.partition('#')[0].partition(':') for line in text_of(TOP / 'crates.txt').splitlines()]
    return {front.split()[0]: rest.split() for front, _, rest in lines if front.strip()}


def below(name):
    """Returns the crates of the repository that a crate depends on, directly or through others."""
    found, left = [], list(needs()[name])
    while left:
        need = left.pop()
        if need in needs() and need not in found:
            found.append(need)
            left += needs()[need]
    return sorted(found)


@functools.cache
def items(source):
    """Returns what a source shows to other crates, each item as a type, a name and a text. A public type has an empty name. A public call
    has its own name and the type that it belongs to, if any; its text ends at the line that opens the body. What the source states about
    the values of a type has an empty name too."""
    found, of, type_of = [], None, ''
    for line in source.splitlines():
        if IMPL.match(line):
            type_of = IMPL.match(line)[1]
        elif line == '}' and of is None:
            type_of = ''
        if CALL.match(line):
            of, claused = 'call', False
            found.append((type_of, re.search(r'fn (\w+)', line)[1], []))
        elif TYPE.match(line) and of is None:
            of, indent = 'type', len(line) - len(line.lstrip())
            found.append((TYPE.match(line)[1], '', []))
            if re.search(r'[;}]$', line):
                found[-1][2].append(line)
                of = None
        if of == 'call':
            found[-1][2].append(line)
            claused = claused or re.match(r' *(requires|ensures)', line) is not None
            if re.match(r' *\{\}?$', line) or not claused and re.search(r'\{\}?$', line):
                of = None
        elif of == 'type':
            found[-1][2].append(line)
            if len(line) - len(line.lstrip()) == indent and re.search(r'[\]})]', line) and not TYPE.match(line):
                of = None
    impls = re.findall(r'^(impl\b.*?)^}', source, re.M | re.S)
    held = [(IMPL.match(it)[1], '', re.findall(r'^ +ghost [^;]*;', it, re.M)) for it in impls if IMPL.match(it)]
    return [(of, name, '\n'.join(lines)) for of, name, lines in found + held if lines]


@functools.cache
def brought(path):
    """Returns imported names of definitions with their file and their name there; and files that are imported whole, by their name here."""
    names, called = {}, {}
    for line in re.findall(r'^ *(?:ghost )?use Rattle\.\w+\.specs\.[^;\n]*', text_of(path), re.M):
        crate, declared, file = NAMED.search(line).groups()
        of = CRATES / crate / ('src' if declared else 'specs') / (file + ('.rt' if declared else '.antt'))
        for name, alias in re.findall(r'(\w+)(?: as (\w+))?', line.partition('{')[2]):
            names[alias or name] = of, name
        if '{' not in line:
            called[line.split()[-1].rpartition('.')[2]] = of
    return names, called


@functools.cache
def paragraphs(path):
    """Returns the paragraphs of a file of definitions by the names that they define, without imports and comments."""
    found = collections.defaultdict(list)
    for text in re.split(r'\n\s*\n', text_of(path) if path.exists() else ''):
        lines = [line for line in text.split('\n') if not re.match(r'\s*(use |--)', line)]
        for name in set(re.findall(r'^\s*(?:(?:abbrev|unfoldable|pub|record|data)\s+)*(\w+)', '\n'.join(lines), re.M)):
            found[name].append('\n'.join(lines))
    return dict(found)


def meant(path, text):
    """Returns the definitions that a text from a file names, each as its file and its name there."""
    names, called = brought(path)
    words = set(re.findall(r'\w+', text))
    found = {names[word] for word in words & set(names)}
    found |= {(of, name) for alias, of in called.items() for name in re.findall(r'\b%s\.(\w+)' % alias, text)}
    return found | ({(path, word) for word in words & set(paragraphs(path))} if path.suffix == '.antt' else set())


def reached(texts):
    """Returns the texts of the definitions that these texts name, directly or through others; and the source files of named types."""
    left = {it for path, text in texts for it in meant(path, text)}
    known, sources = set(left), set()
    while left:
        path, name = left.pop()
        if path.suffix == '.rt':
            sources.add(path)
            continue
        for text in paragraphs(path).get(name, []):
            left |= meant(path, text) - known
            known |= left
    return [(path, text) for path, name in sorted(known) if path.suffix == '.antt' for text in paragraphs(path).get(name, [])], sources


def exported(name):
    """Returns the source files from which a crate exports something."""
    lib = CRATES / name / 'src' / 'lib.rt'
    if not lib.exists():
        return []
    modules = re.findall(r'^pub mod (\w+);|^pub use (?:crate::)?(\w+)::', text_of(lib), re.M)
    files = {CRATES / name / 'src' / ('%s.rt' % (a or b)) for a, b in modules} | {lib}
    return sorted(it for it in files if it.exists())


def own_files(name):
    """Returns the sources and files of definitions of a crate."""
    return sorted([*(CRATES / name / 'src').rglob('*.rt'), *(CRATES / name / 'specs').rglob('*.antt')])


@functools.cache
def shown(crate):
    """Returns what a crate shows to those above it, each part with its file."""
    return [(path, of, name, text) for path in exported(crate) for of, name, text in items(text_of(path))]


@functools.cache
def types_of(crate):
    return {of for _, of, name, _ in shown(crate) if not name}


@functools.cache
def brought_in(path):
    """Returns the names that a source uses from other crates, each with its crate."""
    source = text_of(path)
    found = {(crate, word) for crate, words in re.findall(r'\b(\w+)::\{([^}]*)\}', source) for word in re.findall(r'\w+', words)}
    return found | {(crate, word) for crate, way in re.findall(r'(?<!:)\b(\w+)((?:::\w+)+)', source) for word in re.findall(r'\w+', way)}


def met(known, named):
    """Returns what a crate reaches in the crates below through the names `known`, each part with its file: types, facts about their values,
    their calls in `named`, and calls that belong to no type. Types that these parts name are followed too."""
    left, known, found = list(known), set(known), []
    while left:
        crate, word = left.pop()
        for path, of, name, text in shown(crate):
            if word == (of or name) and (not of or not name or name in named):
                found.append((path, text))
                words = set(re.findall(r'\w+', text))
                more = {(crate, it) for it in types_of(crate) & words} | {it for it in brought_in(path) if it[1] in words}
                more = {it for it in more if it[0] in needs()} - known
                left += more
                known |= more
    return found


@functools.cache
def basis(name):
    """Returns what the refusal of every mutant of a crate rests on."""
    own = own_files(name)
    named = set(re.findall(r'\w+(?=\()|(?<=::)\w+', '\n'.join(map(text_of, [*own, *edits_of(name)]))))
    known = {it for path in own for it in brought_in(path) if it[0] in needs()}
    while True:
        found = met(known, named)
        definitions, sources = reached([(path, text_of(path)) for path in own] + found)
        sources = {it for it in sources.difference(own) if it.exists()}
        more = {(it.parts[-3], of) for it in sources for of, call, _ in items(text_of(it)) if not call}
        if more <= known:
            break
        known |= more
    hidden = [(path, text) for path in sources for _, call, text in items(text_of(path)) if not call]
    parts = [(path, text_of(path)) for path in own] + [it for it in definitions if it[0] not in own] + sorted({*found, *hidden})
    return '\0'.join('%s\0%s' % (path.relative_to(TOP), text) for path, text in parts)


def folder_of(name):
    return CRATES / name / ('edits-below' if name == RULES else 'edits')


def edits_of(name):
    return sorted(folder_of(name).rglob('*.patch' if name == RULES else '*.edit'), key=lambda edit: edit.stem)


def rests_on(name, edit):
    """Returns what the refusal of a mutant rests on: the mutant, the basis of its crate, and for a wrong rule more files."""
    parts = [text_of(edit), basis(name)]
    if name == RULES:
        changed = re.findall(r'^\+\+\+ b/(\S+)', text_of(edit), re.M)
        files = {TOP / it for it in changed if (TOP / it).exists()}
        parts += [IMPORT.sub('', text_of(it)) for it in sorted({*files, *(CRATES / name / 'proofs').rglob('*.antt')})]
    return parts


def hash_of(name, edit):
    return hashlib.sha256('\0'.join(rests_on(name, edit)).encode()).hexdigest()[:32]


def tried(name):
    """Returns the lines of TRIED: the hash and the date of each mutant."""
    record = folder_of(name) / 'TRIED'
    lines = [line.split() for line in record.read_text().splitlines()] if record.exists() else []
    return {words[0]: words[1:] for words in lines if len(words) == 3}


def due(name):
    known = tried(name)
    return [it for it in edits_of(name) if known.get(it.stem, [''])[0] != hash_of(name, it)]


def note(name, refused, dates=None):
    """Records the refused mutants, each with its date in `dates` or today, and drops mutants that no longer exist."""
    known, today = tried(name), datetime.date.today().isoformat()
    known.update({it.stem: [hash_of(name, it), (dates or {}).get(it.stem, today)] for it in edits_of(name) if it.stem in refused})
    lines = ['%s %s\n' % (it.stem, ' '.join(known[it.stem])) for it in edits_of(name) if it.stem in known]
    (folder_of(name) / 'TRIED').write_text(''.join(lines))
