"""Refuses each growth of memory in turn. A small library, loaded before the C library, refuses the Nth growth, for N = 1, 2, .. until
runs meet no refusal. Starting a thread counts as a growth. Each run has to give the right answer, or report that memory is out and print
nothing else. One test refuses only new lists of the length of a shelf, and the report has to be the same without the shelf."""
import functools
import itertools
import os
import pathlib
import shutil
import subprocess
import tempfile
import threading

HERE = pathlib.Path(__file__).resolve().parent
BUILT = HERE.parent / 'crates' / 'singcheck_cli' / 'out' / 'singcheck_cli'
OUT_OF_MEMORY = (b'', b'singcheck: out of memory\n', 4)
ROOM_OF_A_SHELF = 32 * 48  # a new shelf has no room; the first `put` makes some for 32 verdicts of 48 bytes
MOST = 5000
SECONDS = 60
QUIET = 3  # workers share the tasks differently in each run, so the number of growths varies a little
ONCE = threading.Lock()
REFUSER = r'''
#define _GNU_SOURCE
#include <dlfcn.h>
#include <errno.h>
#include <fcntl.h>
#include <pthread.h>
#include <stdlib.h>
#include <unistd.h>
extern void *__libc_malloc(size_t);
extern void *__libc_realloc(void *, size_t);
typedef int maker(pthread_t *, const pthread_attr_t *, void *(*)(void *), void *);
static long asked;
static int refused(size_t size) {
    const char *nth = getenv("REFUSE_NTH"), *mark = getenv("REFUSE_MARK"), *only = getenv("REFUSE_SIZE");
    if (!nth || !mark || (only && size != (size_t)atol(only)) || __atomic_add_fetch(&asked, 1, __ATOMIC_SEQ_CST) != atol(nth)) return 0;
    close(open(mark, O_CREAT | O_WRONLY, 0600));
    errno = ENOMEM;
    return 1;
}
void *malloc(size_t size) { return refused(size) ? NULL : __libc_malloc(size); }
void *realloc(void *old, size_t size) { return refused(0) ? NULL : __libc_realloc(old, size); }
int pthread_create(pthread_t *thread, const pthread_attr_t *with, void *(*run)(void *), void *on) {
    return refused(0) ? EAGAIN : ((maker *)dlsym(RTLD_NEXT, "pthread_create"))(thread, with, run, on);
}
'''


@functools.lru_cache(maxsize=None)
def refuser():
    """Builds the library once, and returns its folder, which lasts as long as the process, and its path."""
    folder = tempfile.TemporaryDirectory()
    source, library = pathlib.Path(folder.name) / 'refuser.c', pathlib.Path(folder.name) / 'refuser.so'
    source.write_text(REFUSER)
    compiler = next(filter(None, map(shutil.which, ('clang', 'cc', 'gcc'))))
    subprocess.run([compiler, '-shared', '-fPIC', '-O1', '-o', library, source], check=True)
    return folder, library


def run(program, words, folder, nth, mark, **more):
    with ONCE:
        library = refuser()[1]
    more = dict(os.environ, LD_PRELOAD=str(library), REFUSE_NTH=str(nth), REFUSE_MARK=str(mark), **more)
    try:
        ran = subprocess.run([program, *words], cwd=folder, stdin=subprocess.DEVNULL, capture_output=True, timeout=SECONDS, env=more)
    except subprocess.TimeoutExpired:
        return b'', b'no end in %d seconds' % SECONDS, None
    return ran.stdout, ran.stderr, ran.returncode


def itself(program):
    """Returns the program itself in place of its script, since what the script calls allocates memory too."""
    return program if pathlib.Path(program).read_bytes()[:2] != b'#!' else str(BUILT)


def refused_runs(program, words, folder, **more):
    """Runs the program for N = 1, 2, .. and yields N, whether there was an Nth growth to refuse, and the answer."""
    quiet = 0
    with tempfile.TemporaryDirectory() as made:
        mark = pathlib.Path(made) / 'refused'
        for nth in itertools.count(1):
            mark.unlink(missing_ok=True)
            given = run(program, words, folder, nth, mark, **more)
            refused = mark.exists()
            yield nth, refused, given
            quiet = 0 if refused else quiet + 1
            if quiet == QUIET:
                return


def is_allowed(refused, given, answer):
    return given == answer or refused and given == OUT_OF_MEMORY


def each_refused(program, words, folder, answer):
    growths = 0
    for nth, refused, given in refused_runs(itself(program), words, folder):
        if not is_allowed(refused, given, answer):
            return ['growth %d refused: %r' % (nth, given)]
        if nth == MOST:
            return ['more than %d growths' % MOST]
        growths += refused
    return [] if growths else ['no growth was refused']


def stored(name, more, program):
    """Tests the case of that name, with `more` at the end of its command line."""
    folder = HERE / name
    words = (folder / 'command').read_text().split()
    answer = ((folder / 'stdout').read_bytes(), b'', int((folder / 'status').read_text()))
    return each_refused(program, words + more, folder, answer)


def verdict_without_a_place(program):
    """Refuses each new list of the length of a shelf in turn. If `put` has no room, the verdict that it gives back has to go into the
    report. A refusal of another list of that length ends the run, so exactly one leaves the report as it is."""
    folder = HERE / 'ownership/a_finding_in_each_of_two_methods'
    words = (folder / 'command').read_text().split() + ['--workers', '1']
    answer = ((folder / 'stdout').read_bytes(), b'', 1)
    runs = refused_runs(itself(program), words, folder, REFUSE_SIZE=str(ROOM_OF_A_SHELF))
    same = [nth for nth, refused, given in runs if refused and given == answer]
    return [] if len(same) == 1 else ['the report is the same after %d refusals: %s' % (len(same), same)]


def branching(methods, branches):
    """Returns methods that free each of their blocks on one branch of an `if`, and their report. Each block may be the first that is left
    at the end. A method has 2 to the power of `branches` rows there."""
    lines, found = ['rep struct D { int n; }', 'class K {'], []
    names = ['p%d' % number for number in range(1, branches + 1)]
    for method in range(methods):
        lines += ['static void F%d(bool b) {' % method]
        lines += ['D* in ExHeap %s = new[ExHeap] D(); if (b) { delete %s; }' % (name, name) for name in names] + ['}']
        found += ['%d:1 A08 %s still owned' % (len(lines), name) for name in sorted(names)]
    return '\n'.join(lines + ['}', '']).encode(), '\n'.join(found + ['findings: %d' % len(found), '']).encode()


def branches_in_a_full_table(methods, branches, program):
    """Tests methods with a worker for each. The table has two slots, so the workers keep almost all rows themselves."""
    text, report = branching(methods, branches)
    with tempfile.TemporaryDirectory() as folder:
        pathlib.Path(folder, 'input.sg').write_bytes(text)
        words = ['check', 'input.sg', '--slots', '2', '--workers', str(methods)]
        return each_refused(program, words, folder, (report, b'', 1))


CASES = ('bounds/ping', 'bounds/burst', 'bounds/two_contracts', 'conditions/one_direction_round',
         'conditions/both_directions_and_twice', 'names/unknown_everywhere', 'text/comment_not_closed', 'text/trailing_comma',
         'ownership/all_owned_and_given_back', 'ownership/a_finding_in_each_of_two_methods',
         'replays/endpoint_in_its_own_queue', 'replays/sent_to_a_freed_peer', 'replays/queue_of_a_deleted_endpoint',
         'replays/message_taken_of_a_freed_peer', 'replays/server_and_client_to_the_end', 'replays/finding_of_names',
         'replays/trace_of_a_server_and_a_client', 'replays/all_events', 'runs/seed_after_the_greatest_is_0',
         'fields/owning_field_outside_exchange', 'fields/endpoint_in_a_wrong_state_for_an_exchange',
         'fields/struct_sent_with_what_is_in_it', 'fields/replay_of_blocks_in_blocks', 'fields/replay_of_a_queue_deleted_with_its_block',
         'runs/process_that_waits_for_a_lost_end', 'runs/lost_end_of_the_shortest_deadlock', 'why/second_finding_named',
         'why/end_expected_to_be_a_brace', 'why/ring_of_two_edges', 'why/both_directions')
TESTS = [('refusals/' + name, functools.partial(stored, name, [])) for name in CASES]
TESTS += [('refusals/%s by 2 workers' % name, functools.partial(stored, name, ['--workers', '2']))
          for name in ('channels/blocks_between_two_processes',)]
TESTS += [('refusals/%d methods of %d branches' % shape, functools.partial(branches_in_a_full_table, *shape)) for shape in ((1, 8), (3, 5))]
TESTS += [('refusals/a verdict that the shelf has no room for', verdict_without_a_place)]
