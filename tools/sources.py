"""Reads types, traits and constants of crates/*/src for tools/theorem, which lists them."""
import functools
import pathlib
import re

CRATES = pathlib.Path(__file__).resolve().parent.parent / 'crates'


class SourceItem:
    """A public type, trait or constant that definitions name: its lines without comments, and the text of its comments."""

    def __init__(self, crate, file, name):
        self.crate, self.name, self.path = crate, name, CRATES / crate / 'src' / (file + '.rt')
        text = self.path.read_text()
        item = r'pub(?:\(\w+\))? (?:const|enum|struct|trait) %s\b(?:.*;\n|(?:.*\n)*?}\n)' % name
        head = re.search(r'^((?:///.*\n|#\[.*\n)*)(%s)' % item, text, re.M)
        self.lines = [line for line in head[2].splitlines() if line.strip() and not line.lstrip().startswith('//')]
        comment = ' '.join(re.findall(r'^///(.*)', head[1].split('///\n')[0], re.M))
        value = re.search(r' = (?:(\w+)::)?(\w+);$', head[2].strip()) if ' const ' in head[2] else None
        if value:
            same = source_named(value[1], value[2]) if value[1] else None
            comment += same.comment[same.comment.rindex(' It is '):] if same else ' It is %s.' % value[2]
        self.comment = re.sub(' +', ' ', comment).strip()
        for said, variant in re.findall(r'((?:^ +///.*\n)+)(?: +#\[.*\n)* +(\w+)', head[2] if ' enum ' in head[2] else '', re.M):
            self.comment += ' `%s`: %s' % (variant, ' '.join(re.findall(r'///\s*(.*)', said)))

    def size(self):
        return len(self.lines)

    def parts(self):
        """Returns its lines without names of variants and fields, and without the `ghost` lines that state facts about its values."""
        return '\n'.join(re.sub(r'^ +(?:pub )?\w+', '', line) for line in self.lines if not line.lstrip().startswith('ghost'))


@functools.cache
def source_item(crate, file, name):
    return SourceItem(crate, file, name)


@functools.cache
def source_named(crate, name):
    """Returns the type, trait or constant of this name that a crate of the repository shows, or None."""
    for path in sorted((CRATES / crate / 'src').rglob('*.rt')):
        if re.search(r'^pub(?:\(\w+\))? (?:const|enum|struct|trait) %s\b' % name, path.read_text(), re.M):
            return source_item(crate, path.stem, name)
    return None


@functools.cache
def source_imports(path):
    """Maps each name that a source file imports to its crate."""
    text = re.sub(r'^ *ghost use .*', '', path.read_text(), flags=re.M)
    return {name: path.parts[-3] if crate == 'crate' else crate
            for crate, names in re.findall(r'^use (\w+)::([^;]*);', text, re.M) for name in re.findall(r'\w+', names)}


def source_meant(path, text):
    """Yields the types, traits and constants of the code that a text from a source file names."""
    crates = source_imports(path)
    for name in set(re.findall(r'(?<![\w.])[A-Z]\w+', text)):
        item = source_named(crates.get(name, path.parts[-3]), name)
        if item:
            yield item
