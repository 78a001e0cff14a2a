"""Tests that `--slots` is the size of the table: in less memory than the words of a large table take, a check with a large table runs out
of memory, and one with a small table does not."""
import pathlib
import subprocess

import refusals

HERE = pathlib.Path(__file__).resolve().parent
FOLDER = HERE / 'ownership' / 'all_owned_and_given_back'
KILOBYTES = 100 << 10  # the words of 16,777,216 slots take 128 MB
LIMITED = 'ulimit -v %d && exec "$0" "$@"' % KILOBYTES


def answer(program, slots):
    words = ['bash', '-c', LIMITED, refusals.itself(program), 'check', 'input.sg', '--workers', '1', '--slots', slots]
    ran = subprocess.run(words, cwd=FOLDER, stdin=subprocess.DEVNULL, capture_output=True, timeout=refusals.SECONDS)
    return ran.stdout, ran.stderr, ran.returncode


def no_memory_for_a_large_table(program):
    given = answer(program, '16777216')
    return [] if given == refusals.OUT_OF_MEMORY else ['%r' % (given,)]


def memory_for_a_small_table(program):
    given = answer(program, '65536')
    return [] if given == ((FOLDER / 'stdout').read_bytes(), b'', 0) else ['%r' % (given,)]


TESTS = [('slots/' + test.__name__, test) for test in (no_memory_for_a_large_table, memory_for_a_small_table)]
