"""Tests that each prefix of three programs has the report that the definition of the language gives it. The expected reports are in
prefixes.txt, made once by a separate plain implementation of the language. A line of that file has the name of the program, the first and
the last length for which it holds, and the finding or the line `ok: ..`. `end` is the place after the last byte of the prefix, which this
script computes."""
import concurrent.futures
import functools
import pathlib
import subprocess
import tempfile

import refusals

HERE = pathlib.Path(__file__).resolve().parent
COMMENTED = b'''/* One * and / and ** */ rep struct D { int n; } // the struct
class K { static void F(D* in ExHeap p) { /**/ p.n = 10 + 2147483647 /* 2 */; } }
'''
TEXTS = {
    'server_waits': (HERE / 'replays' / 'server_waits' / 'input.sg').read_bytes(),
    'sent_to_a_freed_peer': (HERE / 'replays' / 'sent_to_a_freed_peer' / 'input.sg').read_bytes(),
    'commented': COMMENTED,
}


def expected():
    """Returns, for each program, the expected finding or `ok: ..` line of each length."""
    known = {name: {} for name in TEXTS}
    for line in (HERE / 'prefixes.txt').read_text().splitlines():
        name, first, last, what = line.split(' ', 3)
        known[name].update(dict.fromkeys(range(int(first), int(last) + 1), what))
    return known


def report(text, what):
    """Returns the report and the status that a line of the file gives for a text."""
    if what.startswith('ok: '):
        return (what + '\n').encode(), 0
    end = '%d:%d' % (text.count(b'\n') + 1, len(text) - text.rfind(b'\n'))
    return ('%s\nfindings: 1\n' % what.replace('end ', end + ' ', 1)).encode(), 1


def unlike(program, folder, text, what):
    """Returns how the answer to a text differs from the expected one."""
    path = pathlib.Path(folder) / str(len(text))
    path.write_bytes(text)
    ran = subprocess.run([program, 'check', path], stdin=subprocess.DEVNULL, capture_output=True, timeout=60)
    given, asked = (ran.stdout, ran.returncode, ran.stderr), (*report(text, what), b'')
    return [] if given == asked else ['%d bytes: expected %r, given %r' % (len(text), asked, given)]


def each_prefix(name, program):
    text, known = TEXTS[name], expected()[name]
    if sorted(known) != list(range(len(text) + 1)):
        return ['prefixes.txt does not have each length once']
    with tempfile.TemporaryDirectory() as folder, concurrent.futures.ThreadPoolExecutor(4) as pool:
        answers = pool.map(lambda size: unlike(refusals.itself(program), folder, text[:size], known[size]), known)
        return [found for answer in answers for found in answer]


TESTS = [('prefixes/' + name, functools.partial(each_prefix, name)) for name in TEXTS]
