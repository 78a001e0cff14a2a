"""Tests the examples of the documents. Each block marked `sing` is a text. The next marked block has its report: a block marked `text` that
of `bounds`, one marked `check` that of `check`, and one marked `why` that of `why` and, without its traces, that of `check`. A block marked
`sh` has commands, run at the top of the repository. If a block marked `text` is next, it is what they print, also on standard error."""
import functools
import os
import pathlib
import re
import shlex
import subprocess

TOP = pathlib.Path(__file__).resolve().parent.parent
BLOCK = re.compile(r'^```(sing|text|check|why|sh)\n(.*?)^```$', re.M | re.S)
TRACE = re.compile(r'^  \d+:\d+ .*\n', re.M)
COMMANDS = {'text': ['bounds'], 'check': ['check'], 'why': ['check', 'why']}
PAGES = [*sorted(TOP.glob('*.md')), *sorted(TOP.glob('docs/**/*.md')), *sorted(TOP.glob('*/README.md'))]


def cases(folder):
    """Writes the inputs to this folder, and returns the cases: (name, folder, arguments, stdout, stderr, status)."""
    made = []
    for page in PAGES:
        text = None
        for number, block in enumerate(BLOCK.finditer(page.read_text())):
            kind, body = block.groups()
            for command in COMMANDS.get(kind, []) if text is not None else []:
                name = '%s_%d.sg' % (page.stem, number)
                (folder / name).write_text(text)
                asked = body if command == 'why' else TRACE.sub('', body)
                status = 1 if '\nfindings: ' in '\n' + body else 0
                named = 'documents/%s%s' % ('why_' if command == 'why' else '', name)
                made.append((named, folder, [command, name], asked.encode(), b'', status))
            text = body if kind == 'sing' else None
    return made


def printed(commands, asked, program):
    """Runs the commands with the program in place of the script `./singcheck`, and returns how their output differs."""
    commands = commands.replace('./singcheck', shlex.quote(program))
    ran = subprocess.run(['bash', '-c', commands], cwd=TOP, stdin=subprocess.DEVNULL, stdout=subprocess.PIPE, stderr=subprocess.STDOUT,
                         timeout=60, env=dict(os.environ, PYTHONDONTWRITEBYTECODE='1'))
    return [] if ran.stdout.decode() == asked else ['expected %r, given %r' % (asked, ran.stdout.decode())]


def commands():
    """Returns a test for each block of commands followed by their output."""
    made = []
    for page in PAGES:
        blocks = [block.groups() for block in BLOCK.finditer(page.read_text())]
        for number, ((kind, body), (after, asked)) in enumerate(zip(blocks, blocks[1:])):
            if (kind, after) == ('sh', 'text'):
                made.append(('documents/%s_%d' % (page.stem, number), functools.partial(printed, body, asked)))
    return made


def first_page_is_short(_):
    """The first page is short enough to be read as a whole, and so is each cell of its tables."""
    lines = (TOP / 'README.md').read_text().splitlines()
    cells = [cell.strip() for line in lines if line.startswith('|') for cell in line.strip('|').split(' | ')]
    found = ['a cell of %d characters: %s' % (len(cell), cell) for cell in cells if len(cell) > 160]
    return found + (['%d lines' % len(lines)] if len(lines) > 150 else [])


def texts_of_the_tour_are_examples(_):
    """Each text of the first page and the tour is among the examples, with the same lines."""
    examples = {path.read_text() for path in TOP.glob('examples/*.sg')}
    shown = [body for page in ('README.md', 'docs/TOUR.md') for kind, body in BLOCK.findall((TOP / page).read_text()) if kind == 'sing']
    return ['no example has this text: %r' % body for body in shown if body not in examples]


def anchors(page):
    """Returns the anchors of a page's headings."""
    lines = re.sub(r'^```.*?^```$', '', page.read_text(), flags=re.M | re.S).splitlines()
    titles = [re.sub(r'[`*]|\]\([^)]*\)|\[', '', line.lstrip('#').strip()).lower() for line in lines if re.match('#+ ', line)]
    return {re.sub(r'[^\w -]', '', title).replace(' ', '-') for title in titles}


def links_lead_somewhere(_):
    found = []
    for page in PAGES:
        for link in re.findall(r'\]\(([^)\s]*)\)', page.read_text()):
            path, _, anchor = link.partition('#')
            target = (page.parent / path).resolve() if path else page
            there = '://' in link or target.exists() and (not anchor or anchor in anchors(target))
            found += [] if there else ['%s: %s' % (page.relative_to(TOP), link)]
    return found


def theorem_page_is_made(_):
    """The page of the theorem lists the definitions that the clauses reach, and no more lines than it allows."""
    ran = subprocess.run([TOP / 'tools' / 'theorem', '--check'], stdin=subprocess.DEVNULL, stdout=subprocess.PIPE, stderr=subprocess.STDOUT,
                         env=dict(os.environ, PYTHONDONTWRITEBYTECODE='1'))
    return [] if ran.returncode == 0 else [ran.stdout.decode()]


TESTS = commands() + [('documents/' + test.__name__, test) for test in
                      (first_page_is_short, texts_of_the_tour_are_examples, links_lead_somewhere, theorem_page_is_made)]
