"""Tests `run` and `explore` on programs of the folder `runs`, which have no findings and mostly go wrong all the same, and on examples.

Each written schedule is replayed: it ends in the world that the run has printed, and if that is a deadlock, no waiting process goes on.
With `--trace` the replay begins with the lines of the run. The table of several runs is made again from runs with one seed each. The
numbers of `DEADLOCKS` and `WORLDS` are those of a search written apart from the program. In programs without findings, the lost blocks are
those that no block of a process leads to. Also tests command lines that are refused, and schedules that cannot be written."""
import functools
import os
import pathlib
import re
import subprocess
import tempfile

HERE = pathlib.Path(__file__).resolve().parent
EXAMPLES = HERE.parent / 'examples'
DEADLOCK = EXAMPLES / 'deadlock.sg'
NOTE = EXAMPLES / 'note.sg'
SECONDS = 600  # as for `cases/run`
SEEDS = range(1, 21)
KEPT = b'what was there\n'
MOST_EVENTS = 1048576 // len('0 0\n')  # of a run with one process: a schedule has at most 1,048,576 bytes
TOO_LONG = b'singcheck: no schedule has that many events\n'

# Programs with their entry, and the fewest events that lead them into a deadlock.
DEADLOCKS = {
    'call_back_to_a_waiting_client': ('C.Main', 10),
    'each_with_one_fork': ('Table.Main', 23),
    'locks_in_both_orders': ('Table.Main', 23),
    'ring_without_a_token': ('R.Main', 25),
    'room_that_waits_for_a_speaker': ('Chat.Main', 19),
    'transfers_that_cross': ('Bank.Main', 25),
}
# Programs without a deadlock with their entry, and the number of worlds that runs reach.
WORLDS = {
    'endless_close': ('Office.Main', 490),
    'hand_over': ('Desk.Main', 39),
    'members_that_listen': ('Chat.Main', 2727),
    'request': ('Office.Main', 82),
    'server_for_two': ('Office.Main', 310),
    'shop': ('Street.Main', 48),
}
# Programs that go wrong in another way with their entry, and what one of a few runs prints: an end received again and again, or a block
# that is lost with what is inside it or in its queue.
AGAIN = r'(?s)(P\d \d+:\d+ receives ChannelClosed on \w+\n).*\1'
LEFT = r'(?s)\nend: every process has ended, .*\nblock \d+ %s, lost\n'
WRONG = {
    'buffer_lost_at_the_close': ('Pools.Main', LEFT % r'byte\[\] owner block \d+, lost\nblock \d+ Buffer owner channel holds \[\d+\]'),
    'close_counted_three_times': ('Main.Main', AGAIN),
    'session_that_spins': ('Main.Main', AGAIN + r'end: still running, after 300 events\n(?!.*, lost)'),
    'stack_deleted_with_its_nodes': ('Stacks.Main', LEFT % r'Rest.Imp More owner block \d+ queue \[Next\(\d+\)\]'),
}
ENTRIES = {**{name: entry for table in (DEADLOCKS, WORLDS, WRONG) for name, (entry, _) in table.items()},
           'clients': 'Shop.Main', 'join': 'Office.Main', 'list': 'Lists.Main', 'pipeline': 'Mill.Main'}
LOOPS = 'class K { static void Main() { start Go(true); Go(true); } static void Go(bool b) { while (true) { if (b) { } } } }\n'
# The end of the answer to several runs if the printed one has met a deadlock. After the seed there is the table.
FAILED = (r'\nend: deadlock, after (\d+) events\n(?:P\d+ .* waits on .*\n)+(?:block .*\n)*chosen: \d+ conditions\nseed: (\d+)\n'
          r'((?:\d+ runs: .*\n)+)$')
WAYS = ('every process has ended', 'deadlock', 'fault', 'still running')  # in which a run ends, in the order of the table
# A program whose runs end in each of these ways, if they have few steps. No channel and no block passes between processes.
EACH_WAY = '''rep struct D { int n; }
contract W { out message M(); state S: M! -> E; state E: ; }
class K {
  static void Main() {
    bool b = true;
    while (b) { }
    if (b) { return; }
    if (b) {
      W.Imp i; W.Exp e;
      W.NewChannel(out i, out e);
      switch receive { case i.M(): break; case i.ChannelClosed(): break; }
      delete i; delete e;
    }
    D* in ExHeap p;
    p.n = 1;
  }
}
'''
QUIET = ' (?:uses|takes) | leaves a scope$| constant condition$'  # in lines of events that only `--all` prints

# Command lines that are refused with some text, for a program with the entry `K.Main`.
REFUSED = ['run', 'explore', 'run method.sg', 'explore method.sg', 'run method.sg K.Main more', 'run method.sg K.Main --steps 0',
           'run method.sg K.Main --runs 0', 'explore method.sg K.Main --worlds 0', 'run method.sg K.Main --worlds 1',
           'explore method.sg K.Main --seed 1', 'explore method.sg K.Main --all', 'run method.sg K.Main --seed -1',
           'run method.sg K.Main --seed x', 'run method.sg K.Main --steps', 'run method.sg K.Main --schedule',
           'run method.sg K.Main --seed 18446744073709551616', 'run method.sg K.Main --steps=18446744073709551616',
           'run method.sg K.Main --runs=99999999999999999999', 'explore method.sg K.Main --worlds 18446744073709551616',
           'run method.sg K.Main --trace', 'explore method.sg K.Main --trace', 'replay method.sg K.Main --trace',
           'replay method.sg K.Main --all', 'replay method.sg K.Main no_events --trace=1', 'replay method.sg K.Main no_events --all=x',
           'replay method.sg K.Main no_events --trace --trace', 'replay method.sg K.Main no_events --all --all',
           'replay method.sg K.Main no_events --trace more', 'replay method.sg K.Main no_events --seed 1',
           'replay method.sg K.Main no_events --runs 2', 'replay method.sg K.Main no_events --schedule again', 'bounds method.sg --trace',
           'check method.sg --all', 'replay method.sg K.Main no_events --traces', 'replay method.sg K.Main no_events -trace']


def cases(folder):
    """Writes the inputs to this folder, and returns the cases: (name, folder, arguments, stdout, stderr, status)."""
    (folder / 'method.sg').write_text('class K { static void Main() { } static int Number() { return 1; } }\n')
    (folder / 'no_events').write_text('')
    made = [("runs/refused '%s'" % words, folder, words.split(), b'', None, 2) for words in REFUSED]
    reason = 'K.Number has parameters or a result, so no run begins with it\n'
    for command, more in (('run', []), ('explore', []), ('replay', ['no_events']), ('replay', ['no_events', '--trace'])):
        for entry, why in (('K.Nothing', ''), ('K.Number', reason), ('Main', '')):
            refused = 'singcheck: no entry %s\n%sentry: K.Main\n' % (entry, why)
            words = [command, 'method.sg', entry, *more]
            made.append(("runs/no entry '%s'" % ' '.join(words), folder, words, b'', refused.encode(), 2))
    return made


def ran(program, *words, **more):
    """Runs the program with these words."""
    more.setdefault('stdout', subprocess.PIPE)
    return subprocess.run([program, *map(str, words)], stdin=subprocess.DEVNULL, stderr=subprocess.PIPE, timeout=SECONDS, **more)


def printed(program, *words):
    """Returns what the program prints on standard output, and its status."""
    given = ran(program, *words)
    return given.stdout.decode(), given.returncode


def text_of(name):
    """Returns the path of a program: a case of `runs`, or an example."""
    case = HERE / 'runs' / name / 'input.sg'
    return case if case.exists() else EXAMPLES / (name + '.sg')


def world_of_run(lines):
    """Returns the world that the lines of a run print: the places of processes that have not ended, and the blocks that are not freed."""
    places = [tuple(line.split()[:2]) for line in lines if re.match(r'P\d+ \d+:\d+ (waits on|runs$)', line)]
    return places, [line.removesuffix(', lost') for line in lines if line.startswith('block ')]


def world_of_replay(lines):
    """Returns the same for the lines of a replay."""
    places = [('P' + line.split()[1], line.split()[3].rstrip(',')) for line in lines if re.match(r'process \d+ at ', line)]
    return places, [line for line in lines if line.startswith('block ') and not line.endswith(' freed')]


def waits(program, text, entry, schedule, process):
    """Returns whether a process waits after a schedule, along each choice that it has."""
    longer = schedule.with_name('longer')
    for choice in range(10):
        longer.write_text('%s%d %d\n' % (schedule.read_text(), process, choice))
        stop = printed(program, 'replay', text, entry, longer)[0].split('\n')[1]
        if stop != 'stop: process %d waits' % process:
            return choice > 0 and stop == 'stop: no choice %d of process %d' % (choice, process)
    return False


def traced(program, text, entry, schedule, answer, flag):
    """Returns how the replay of a schedule with this flag differs from the lines of the run that wrote it, then those of the replay without
    the flag, and then the number of conditions. The answer of the run has lines for the same events."""
    replay, status = printed(program, 'replay', text, entry, schedule)
    lines, chosen = answer.split('end: ')[0], re.search(r'^chosen: .*\n', answer, re.M)[0]
    given = printed(program, 'replay', text, entry, schedule, *flag.split())
    return [] if given == (lines + replay + chosen, status) else ['%s: %s' % (flag, given[0]), lines + replay + chosen]


def replayed(program, text, entry, schedule, answer):
    """Returns how the replay of a schedule differs from the run that wrote it and printed this answer, also with `--trace`."""
    end, events = re.search(r'^end: (.*), after (\d+) events$', answer, re.M).groups()
    lines, status = printed(program, 'replay', text, entry, schedule)
    stop = 'stop: ' + (end if end.startswith('fault ') else 'end of schedule')
    alike = lines.split('\n')[:2] == ['steps ' + events, stop] and status == (stop != 'stop: end of schedule')
    found = [] if alike and world_of_run(answer.split('\n')) == world_of_replay(lines.split('\n')) else [answer + lines]
    found += traced(program, text, entry, schedule, answer, '--trace')
    if end == 'deadlock':
        processes = [int(line.split()[0][1:]) for line in answer.split('\n') if ' waits on ' in line]
        found += ['process %d goes on' % one for one in processes if not waits(program, text, entry, schedule, one)]
    return found


def failing_runs(name, program):
    """Some of a hundred runs end in a deadlock, and a shortest of these is printed, which is in the table. With its seed alone, and without
    `--runs`, the answer is the same without the table."""
    (entry, least), text = DEADLOCKS[name], text_of(name)
    with tempfile.TemporaryDirectory() as folder:
        schedule = pathlib.Path(folder) / 'schedule'
        answer, status = printed(program, 'run', text, entry, '--runs', 100, '--schedule', schedule)
        end = re.search(FAILED, answer)
        if not end or status != 1 or int(end[1]) < least or not 1 <= int(end[2]) <= 100:
            return ['%s, status %d' % (answer, status)]
        counts = re.findall(r'^(\d+) runs: ', end[3], re.M)
        line = ' runs: deadlock, the shortest after %s events with seed %s\n' % (end[1], end[2])
        found = [] if sum(map(int, counts)) == 100 and line in end[3] and 'fault' not in end[3] else [end[3]]
        alone = answer.removesuffix(end[3])
        again = printed(program, 'run', '--seed', end[2], text, entry)
        found += [] if again == (alone, 1) else ['%r' % (again,)]
        return found + replayed(program, text, entry, schedule, alone)


def end_of(answer):
    """Returns in which way the run of this answer has ended, and the number of its events."""
    how, events = re.search(r'^end: (.*), after (\d+) events$', answer, re.M).groups()
    return next(way for way in WAYS if how.startswith(way)), int(events)


def several(answers):
    """Returns what is printed of several runs, and the status: the answers to each of them alone come with their seeds, in their order."""
    ends = [(*end_of(answer), at, seed) for at, (seed, (answer, _)) in enumerate(answers)]
    table = ''
    for way in WAYS:
        runs = [(events, at, seed) for how, events, at, seed in ends if how == way]
        table += '%d runs: %s, the shortest after %d events with seed %d\n' % (len(runs), way, min(runs)[0], min(runs)[2]) if runs else ''
    failed = [(events, at) for how, events, at, _ in ends if how in ('deadlock', 'fault')]
    answer, status = answers[min(failed)[1] if failed else -1][1]
    return answer + table, status


def table_again(program, text, entry, seeds, *more):
    """Returns how the answer to runs with these seeds differs from what follows from a run with each seed, and the expected answer. With
    one run, the answer is the same as without `--runs`."""
    answers = [(seed, printed(program, 'run', text, entry, '--seed', seed, *more)) for seed in seeds]
    asked = several(answers)
    given = printed(program, 'run', text, entry, '--seed', seeds[0], '--runs', len(seeds), *more)
    found = [] if given == asked else ['expected %s, given %s' % (asked, given)]
    single = printed(program, 'run', text, entry, '--seed', seeds[0], '--runs', 1, *more)
    return found + ([] if single == answers[0][1] else ['one run: %s' % single[0]]), asked[0]


def table(name, program):
    """The table of twenty runs, and which of them is printed, follow from twenty runs alone."""
    entry = (DEADLOCKS.get(name) or WRONG[name])[0]
    return table_again(program, text_of(name), entry, SEEDS, '--steps', 200)[0]


def table_of_each_way(program):
    """A table has a line for each way in which runs end, in one order. The seed after the greatest is 0."""
    with tempfile.TemporaryDirectory() as folder:
        text = pathlib.Path(folder) / 'ways.sg'
        text.write_text(EACH_WAY)
        found, lines = table_again(program, text, 'K.Main', range(1, 61), '--steps', 8)
        found += [] if re.findall(r'^\d+ runs: (.*), the shortest', lines, re.M) == list(WAYS) else [lines]
        return found + table_again(program, text, 'K.Main', [2 ** 64 - 2, 2 ** 64 - 1, 0, 1, 2], '--all')[0]


def schedule_of_the_printed_run(program):
    """The schedule of several runs is that of the printed one."""
    with tempfile.TemporaryDirectory() as folder:
        one, many, text = (pathlib.Path(folder) / name for name in ('one', 'many', 'ways.sg'))
        text.write_text(EACH_WAY)
        answer, _ = printed(program, 'run', text, 'K.Main', '--runs', 20, '--schedule', many)
        seed = re.search(r'^seed: (\d+)$', answer, re.M)[1]
        printed(program, 'run', text, 'K.Main', '--seed', seed, '--schedule', one)
        return [] if one.read_text() == many.read_text() != '' else ['seed %s: %r, %r' % (seed, one.read_text(), many.read_text())]


def shortest_deadlock(name, program):
    """A search meets a deadlock along as few events as possible."""
    (entry, least), text = DEADLOCKS[name], text_of(name)
    with tempfile.TemporaryDirectory() as folder:
        schedule = pathlib.Path(folder) / 'schedule'
        answer, status = printed(program, 'explore', text, entry, '--schedule', schedule)
        if '\nend: deadlock, after %d events\n' % least not in answer or status != 1:
            return ['expected %d events, given %s and status %d' % (least, answer, status)]
        return replayed(program, text, entry, schedule, answer)


def all_worlds(name, program):
    """If the limit is the number of worlds, all are visited; if it is one less, the search does not know."""
    (entry, worlds), text = WORLDS[name], text_of(name)
    asked = [(worlds, 'no deadlock in all %d worlds\n' % worlds), (worlds - 1, 'no deadlock within %d worlds\n' % (worlds - 1))]
    given = [(most, printed(program, 'explore', text, entry, '--worlds', most)) for most, _ in asked]
    return [] if given == [(most, (line, 0)) for most, line in asked] else ['%r' % given]


def lost_blocks(lines):
    """Returns the addresses of the printed blocks that are lost, in a program without findings. Each block of a process is in a variable
    there, so the others have to be found from those: in their fields, and in the messages of their queues."""
    blocks = [line for line in lines if line.startswith('block ')]
    held = {line.split()[1]: re.findall(r'\d+', ' '.join(re.findall(r' holds \[.*|\([\d,]+\)', line))) for line in blocks}
    reached, found = set(), [line.split()[1] for line in blocks if ' owner process ' in line]
    while found:
        address = found.pop()
        found += [] if address in reached else held[address]
        reached.add(address)
    return [address for address in held if address not in reached]


def marked_blocks(name, program):
    """The lines of lost blocks end with `, lost`, and no others do. Some runs are stopped on their way."""
    entry, text, found = ENTRIES[name], text_of(name), []
    for seed in SEEDS[:10]:
        answer = printed(program, 'run', text, entry, '--seed', seed, '--steps', 20 * seed)[0]
        lines = answer.split('\n')
        marked = [line.split()[1] for line in lines if line.startswith('block ') and line.endswith(', lost')]
        found += [] if '\nend: ' in answer and marked == lost_blocks(lines) else [answer]
    return found


def wrong_run(name, program):
    """One of a few runs shows what goes wrong, and none of them is said to fail. The schedule of each ends in its world."""
    (entry, pattern), text = WRONG[name], text_of(name)
    with tempfile.TemporaryDirectory() as folder:
        schedule = pathlib.Path(folder) / 'schedule'
        for seed in SEEDS:
            answer, status = printed(program, 'run', text, entry, '--seed', seed, '--steps', 300, '--schedule', schedule)
            found = ['%s, status %d' % (answer, status)] if status else replayed(program, text, entry, schedule, answer)
            if found or re.search(pattern, answer):
                return found
    return ['no run shows it']


def every_event(name, program):
    """With `--all` each event has a line, without it each notable one; the same in a replay. The number of conditions is that of their
    lines."""
    entry, text = (DEADLOCKS.get(name) or WRONG[name])[0], text_of(name)
    found = []
    with tempfile.TemporaryDirectory() as folder:
        schedule = pathlib.Path(folder) / 'schedule'
        for seed in SEEDS[:5]:
            asked = ['run', text, entry, '--seed', seed, '--steps', 200, '--schedule', schedule]
            whole, few = (printed(program, *asked, *more)[0] for more in (['--all'], []))
            lines, rest = whole.split('end: ')
            notable = ''.join(line for line in lines.splitlines(True) if not re.search(QUIET, line))
            alike = rest.split(', after ')[1].startswith('%d events\n' % lines.count('\n')) and notable + 'end: ' + rest == few
            chosen = '\nchosen: %d conditions\n' % len(re.findall(' condition (?:true|false)$', lines, re.M))
            found += [] if alike and chosen in whole else [whole + few]
            for flag, answer in (('--trace', few), ('--all', whole), ('--trace --all', whole)):
                found += traced(program, text, entry, schedule, answer, flag)
    return found


def chances(program):
    """Two processes that never wait are taken about equally often, and a condition is true about three times in four."""
    with tempfile.TemporaryDirectory() as folder:
        text = pathlib.Path(folder) / 'loops.sg'
        text.write_text(LOOPS)
        answer = printed(program, 'run', text, 'K.Main', '--steps', 6000, '--all')[0]
    of_0, of_1, right, wrong = (answer.count(word) for word in ('P0 ', 'P1 ', ' condition true\n', ' condition false\n'))
    alike = 0.47 < of_0 / (of_0 + of_1) < 0.53 and 0.72 < right / (right + wrong) < 0.78
    return [] if alike else ['%d to %d events, %d to %d conditions' % (of_0, of_1, right, wrong)]


def fault_in_a_schedule(program):
    """The schedule of a run that ends in a fault has the event that is the fault."""
    with tempfile.TemporaryDirectory() as folder:
        schedule = pathlib.Path(folder) / 'schedule'
        answer, status = printed(program, 'run', NOTE, 'Desk.Write', '--schedule', schedule)
        found = replayed(program, NOTE, 'Desk.Write', schedule, answer)
        return found + ([] if (schedule.read_text(), status) == ('0 0\n0 0\n0 0\n', 1) else [schedule.read_text()])


def schedule_kept(program):
    """What was in the file stays if there is no schedule: the entry is unknown, the text has findings, or no deadlock is found. Nothing is
    said of the file. It also stays if the answer cannot be written."""
    with tempfile.TemporaryDirectory() as folder, open('/dev/full', 'wb') as full:
        schedule, broken = pathlib.Path(folder) / 'schedule', pathlib.Path(folder) / 'broken.sg'
        broken.write_text('class\n')
        asked = [(['run', DEADLOCK, 'Ring.Nothing'], {}, 2), (['explore', DEADLOCK, 'Ring.Nothing'], {}, 2),
                 (['run', broken, 'K.Main'], {}, 1), (['explore', broken, 'K.Main'], {}, 1),
                 (['explore', DEADLOCK, 'Ring.Main', '--worlds', 5], {}, 0), (['explore', text_of('shop'), 'Street.Main'], {}, 0),
                 (['run', DEADLOCK, 'Ring.Main'], {'stdout': full}, 3), (['explore', DEADLOCK, 'Ring.Main'], {'stdout': full}, 3)]
        found = []
        for words, more, status in asked:
            schedule.write_bytes(KEPT)
            given = ran(program, *words, '--schedule', schedule, **more)
            alike = (given.returncode, schedule.read_bytes()) == (status, KEPT) and b'schedule' not in given.stderr
            found += [] if alike else ['%s: %r' % (words, given)]
        return found


def schedule_too_long(program):
    """A run of as many events as a schedule can have is written. With one more, nothing is, and the program says so."""
    with tempfile.TemporaryDirectory() as folder:
        schedule, found = pathlib.Path(folder) / 'schedule', []
        for steps, written, said in ((MOST_EVENTS, b'0 0\n' * MOST_EVENTS, b''), (MOST_EVENTS + 1, KEPT, TOO_LONG)):
            schedule.write_bytes(KEPT)
            given = ran(program, 'run', text_of('still_running_after_the_last_step'), 'K.Main', '--steps', steps, '--schedule', schedule)
            lines = b'end: still running, after %d events\nP0 3:5 runs\nchosen: 0 conditions\nseed: 1\n' % steps
            alike = (given.stdout, given.stderr, given.returncode) == (lines, said, 0) and schedule.read_bytes() == written
            found += [] if alike else ['%d events: %r, a schedule of %d bytes' % (steps, given, schedule.stat().st_size)]
        return found


def schedule_not_written(program):
    """If the schedule cannot be written, the answer is still printed, and the status is 3."""
    with tempfile.TemporaryDirectory() as folder:
        kept = pathlib.Path(folder) / 'kept'
        kept.write_bytes(KEPT)
        found = []
        for command in ('run', 'explore'):
            answer = printed(program, command, DEADLOCK, 'Ring.Main')[0].encode()
            for name, error in ((folder, 21), (str(kept) + '/schedule', 20), (folder + '/nowhere/schedule', 2), ('/dev/full', 28)):
                given = ran(program, command, DEADLOCK, 'Ring.Main', '--schedule', name)
                why = 'singcheck: cannot write %s\n%s (os error %d)\n' % (name, os.strerror(error), error)
                asked = (answer, why.encode(), 3)
                found += [] if (given.stdout, given.stderr, given.returncode) == asked else ['expected %r, given %r' % (asked, given)]
        return found + ([] if kept.read_bytes() == KEPT else ['%r' % kept.read_bytes()])


TESTS = [('runs/%s/%s' % (test.__name__, name), functools.partial(test, name)) for test, names in (
    (failing_runs, DEADLOCKS), (shortest_deadlock, DEADLOCKS), (all_worlds, WORLDS), (wrong_run, WRONG), (marked_blocks, ENTRIES),
    (every_event, ('transfers_that_cross', 'session_that_spins', 'stack_deleted_with_its_nodes')),
    (table, ('transfers_that_cross', 'ring_without_a_token', 'session_that_spins', 'close_counted_three_times'))) for name in names]
TESTS += [('runs/' + test.__name__, test) for test in (
    table_of_each_way, schedule_of_the_printed_run, chances, fault_in_a_schedule, schedule_kept, schedule_too_long, schedule_not_written)]
