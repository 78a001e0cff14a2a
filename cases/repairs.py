"""Tests the repairs of the tour: after each one the example has no findings, and no tried run of it meets a fault."""
import functools
import pathlib
import random
import re
import subprocess
import tempfile

import refusals

TOP = pathlib.Path(__file__).resolve().parent.parent
# `PIECES` are the pieces of text that the tour inserts into programs.
BLOCKS = re.findall(r'^```(\w*)\n(.*?)^```$', (TOP / 'docs/TOUR.md').read_text(), re.M | re.S)
PIECES = [body for kind, body in BLOCKS if not kind]


def lines_of(name):
    return (TOP / 'examples' / (name + '.sg')).read_text().splitlines(keepends=True)


def exchanged(name, line):
    """Returns the program with this line and the next one exchanged."""
    lines = lines_of(name)
    return lines[:line - 1] + [lines[line], lines[line - 1]] + lines[line + 1:]


def put(name, line, text):
    """Returns the program with this text before the line of this number."""
    lines = lines_of(name)
    return lines[:line - 1] + [text] + lines[line - 1:]


def without(name, line):
    """Returns the program without the line of this number."""
    lines = lines_of(name)
    return lines[:line - 1] + lines[line:]


def with_piece(name, line, word):
    """Returns the program with the piece of the tour that has this word before the line of this number."""
    return put(name, line, ''.join(piece for piece in PIECES if word in piece))


# For each example with a mistake: the repair of the tour, its line, and what `check` then prints.
REPAIRS = {
    'note': (exchanged, 6, 'ok: 0 contracts, 1 methods\n'),
    'state_forgotten': (functools.partial(with_piece, word='customer.Price'), 22, 'ok: 1 contracts, 2 methods\n'),
    'used_after_sent': (exchanged, 20, 'ok: 1 contracts, 2 methods\n'),
    'missing_case': (functools.partial(with_piece, word='numbers.Done'), 28, 'ok: 1 contracts, 3 methods\n'),
    'leak_on_one_way': (functools.partial(put, text='            delete sheet;\n'), 74, 'ok: 1 contracts, 3 methods\n'),
    'reply_spent': (without, 28, 'ok: 2 contracts, 3 methods\n'),
}
ENTRIES = {'note': 'Desk.Write', 'state_forgotten': 'Street.Main', 'used_after_sent': 'Desk.Main', 'missing_case': 'Adder.Main',
           'leak_on_one_way': 'Mill.Main', 'reply_spent': 'Office.Main'}
WALKS, EVENTS = 4, 40


def nothing_found(name, program):
    repair, line, asked = REPAIRS[name]
    with tempfile.TemporaryDirectory() as folder:
        text = pathlib.Path(folder) / 'repaired.sg'
        text.write_text(''.join(repair(name, line)))
        ran = subprocess.run([program, 'check', text], capture_output=True, timeout=60, stdin=subprocess.DEVNULL)
    given = ran.stdout.decode()
    return [] if (given, ran.returncode) == (asked, 0) else ['expected %r, given %r and status %d' % (asked, given, ran.returncode)]


def replayed(program, folder, entry, events):
    """Returns what `replay` prints for the program in this folder along these events."""
    (folder / 'schedule').write_text(''.join(events))
    words = [program, 'replay', folder / 'repaired.sg', entry, folder / 'schedule']
    return subprocess.run(words, capture_output=True, timeout=60, stdin=subprocess.DEVNULL).stdout.decode()


def walked(program, folder, entry, chance):
    """Returns the answer for a random run that meets a fault, if it does. Events that are no steps are left out."""
    events = []
    for _ in range(EVENTS):
        events.append('%d %d\n' % (chance.choice([0, 0, 1, 2]), chance.choice([0, 0, 0, 1])))
        given = replayed(program, folder, entry, events)
        if 'fault' in given or not given.startswith('steps '):
            return [given]
        if 'stop: end of schedule' not in given:
            events.pop()
    return []


def no_fault(name, program):
    """The schedule that meets the fault of the example meets none after the repair, and neither does a random one."""
    repair, line, _ = REPAIRS[name]
    program, entry = refusals.itself(program), ENTRIES[name]
    with tempfile.TemporaryDirectory() as made:
        folder = pathlib.Path(made)
        (folder / 'repaired.sg').write_text((TOP / 'examples' / (name + '.sg')).read_text())
        schedule = (TOP / 'examples' / (name + '.schedule')).read_text().splitlines(keepends=True)
        before = replayed(program, folder, entry, schedule)
        (folder / 'repaired.sg').write_text(''.join(repair(name, line)))
        after = replayed(program, folder, entry, schedule)
        found = [] if 'stop: fault ' in before and after.startswith('steps ') and 'fault' not in after else [before + after]
        return found + [given for seed in range(WALKS) for given in walked(program, folder, entry, random.Random(seed))]


TESTS = [('repairs/%s/%s' % (test.__name__, name), functools.partial(test, name)) for test in (nothing_found, no_fault) for name in REPAIRS]
