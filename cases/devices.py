"""Tests devices that fail, and paths that are not regular files."""
import errno
import functools
import os
import pathlib
import select
import subprocess
import tempfile

from schedules import FORM

HERE = pathlib.Path(__file__).resolve().parent
PING = HERE / 'bounds' / 'ping' / 'input.sg'
ANSWER = b'Ping: to Exp 1, to Imp 1\nok: 1 contracts\n'
WHY = HERE / 'why' / 'two_findings_in_a_method' / 'input.sg'
SERVER = HERE / 'replays' / 'server_waits'
DEADLOCK = HERE.parent / 'examples' / 'deadlock.sg'
# The answers to a replay of the server along no events, and along its schedule.
STARTED = b'steps 0\nstop: end of schedule\nprocess 0 at 5:6, frames 1\n'
WAITS = (SERVER / 'stdout').read_bytes()
FOUND = b'1:10 S05 unexpected end\nfindings: 1\n'
CANNOT_WRITE = b'singcheck: cannot write\n'
NO_ENTRY = b'singcheck: no entry K.None\nentry: K.Main\n'  # of the server
# For each command, arguments to which it has an answer.
WORDS = {
    'bounds': ['bounds', PING],
    'check': ['check', PING],
    'why': ['why', WHY],
    'replay': ['replay', SERVER / 'input.sg', 'K.Main', SERVER / 'schedule'],
    'replay with a trace': ['replay', SERVER / 'input.sg', 'K.Main', SERVER / 'schedule', '--trace'],
    'run': ['run', DEADLOCK, 'Ring.Main'],
    'explore': ['explore', DEADLOCK, 'Ring.Main'],
    'help': ['--help'],
    'version': ['--version'],
}


def compared(ran, stdout, stderr, status):
    given = (ran.stdout, ran.stderr, ran.returncode)
    return [] if given == (stdout, stderr, status) else ['expected %r, given %r' % ((stdout, stderr, status), given)]


def run(program, *words, **more):
    more.setdefault('stdout', subprocess.PIPE)
    return subprocess.run([program, *map(str, words)], stdin=subprocess.DEVNULL, stderr=subprocess.PIPE, timeout=60, **more)


def cannot_read(name, number):
    """Returns the lines about an input that cannot be read: which one, and why."""
    return ('singcheck: cannot read %s\n%s (os error %d)\n' % (name, os.strerror(number), number)).encode()


def full_device(command, program):
    with open('/dev/full', 'wb') as full:
        return compared(run(program, *WORDS[command], stdout=full), None, CANNOT_WRITE, 3)


def closed_pipe(command, program):
    """The output is a pipe without a reader, which needs no words. The test waits for that, since a process that another test starts may
    briefly have a copy."""
    read, write = os.pipe()
    os.close(read)
    ended = select.poll()
    ended.register(write, 0)
    ended.poll(60_000)
    try:
        return compared(run(program, *WORDS[command], stdout=write), None, b'', 3)
    finally:
        os.close(write)


def closed_output(command, program):
    return compared(run('bash', '-c', '"$0" "$@" >&-', program, *WORDS[command], stdout=None), None, CANNOT_WRITE, 3)


def closed_error(command, program):
    """With standard error closed the answer and the status stay the same. If the answer is a line on standard error, the status does."""
    shut = ['bash', '-c', '"$0" "$@" 2>&-', program]
    ran = run(*shut, *WORDS[command])
    found = compared(ran, run(program, *WORDS[command]).stdout, b'', ran.returncode)
    return found + compared(run(*shut, command, 'nowhere.sg', *WORDS[command][2:]), b'', b'', 3)


def full_error(program):
    """If standard error is full, an entry and a schedule are refused without a word."""
    full = ['bash', '-c', '"$0" "$@" 2>/dev/full', program]
    found = compared(run(*full, *WORDS['replay'][:2], 'K.None', WORDS['replay'][3]), b'', b'', 2)
    return found + compared(run(*full, *WORDS['replay'][:3], WORDS['replay'][1]), b'', b'', 2)


def check_of_nothing(program):
    return compared(run(program, 'check', 'nowhere.sg', '--workers', '0'), b'', cannot_read('nowhere.sg', errno.ENOENT), 3)


def folder(command, program):
    """A folder can be opened but not read."""
    with tempfile.TemporaryDirectory() as made:
        return compared(run(program, command, made, *WORDS[command][2:]), b'', cannot_read(made, errno.EISDIR), 3)


def null(program):
    found = compared(run(program, 'bounds', '/dev/null'), b'ok: 0 contracts\n', b'', 0)
    return found + compared(run(program, *WORDS['replay'][:3], '/dev/null'), STARTED, b'', 0)


def without_end(program):
    """Reading stops one byte past the greatest size of a text or a schedule."""
    found = compared(run(program, 'check', '/dev/zero'), b'1:1 S03 text too long\nfindings: 1\n', b'', 1)
    return found + compared(run(program, *WORDS['replay'][:3], '/dev/zero'), b'', b'singcheck: schedule line 1\n' + FORM, 2)


def piped(program, words, place, answer):
    """Compares the answer if the file at this place of the words comes through a named pipe, after a while."""
    with tempfile.TemporaryDirectory() as made:
        path = os.path.join(made, 'pipe')
        os.mkfifo(path)
        feeder = subprocess.Popen(['bash', '-c', 'sleep 0.15; cat "$0" > "$1"', str(words[place]), path])
        found = compared(run(program, *words[:place], path, *words[place + 1:]), *answer)
        feeder.wait()
        return found


def pipes_by_name(program):
    found = piped(program, WORDS['bounds'], 1, (ANSWER, b'', 0))
    return found + [other for place in (1, 3) for other in piped(program, WORDS['replay'], place, (WAITS, b'', 1))]


def no_entry_of_a_piped_text(program):
    """An unknown entry of a text that comes through a named pipe is refused, and nothing waits for the text to come a second time."""
    with tempfile.TemporaryDirectory() as made:
        path = os.path.join(made, 'pipe')
        os.mkfifo(path)
        feeder = subprocess.Popen(['bash', '-c', 'cat "$0" > "$1"', str(DEADLOCK), path])
        try:
            ran = run(program, 'run', path, 'Ring.None')
        finally:
            feeder.wait()
        line = ran.stderr.startswith(b'singcheck: no entry Ring.None\n')
        return [] if line and (ran.stdout, ran.returncode) == (b'', 2) else ['%r' % ran]


def standard_input(program):
    """The schedule comes from another program, through `/dev/stdin`."""
    ran = subprocess.run([program, *map(str, WORDS['replay'][:3]), '/dev/stdin'], input=(SERVER / 'schedule').read_bytes(),
                         capture_output=True, timeout=60)
    return compared(ran, WAITS, b'', 1)


def schedule_that_is_a_folder(program):
    """The schedule is read last. If the text has findings, or there is no such entry, it is opened but not read."""
    with tempfile.TemporaryDirectory() as made:
        short = pathlib.Path(made) / 'short.sg'
        short.write_bytes(b'class K {')
        found = compared(run(program, *WORDS['replay'][:3], made), b'', cannot_read(made, errno.EISDIR), 3)
        found += compared(run(program, 'replay', short, 'K.Main', made), FOUND, b'', 1)
        return found + compared(run(program, *WORDS['replay'][:2], 'K.None', made), b'', NO_ENTRY, 2)


def text_that_is_a_folder_and_no_schedule(program):
    """Both files are opened before either is read."""
    with tempfile.TemporaryDirectory() as made:
        return compared(run(program, 'replay', made, 'K.Main', 'nowhere'), b'', cannot_read('nowhere', errno.ENOENT), 3)


def unreadable(program):
    """The file may not be read. Root can read every file, so this tests nothing for root."""
    with tempfile.TemporaryDirectory() as made:
        path = pathlib.Path(made) / 'closed'
        path.write_bytes(b'')
        path.chmod(0)
        if os.access(path, os.R_OK):
            return []
        found = compared(run(program, 'bounds', path), b'', cannot_read(path, errno.EACCES), 3)
        return found + compared(run(program, *WORDS['replay'][:3], path), b'', cannot_read(path, errno.EACCES), 3)


READERS = ('bounds', 'check', 'why', 'replay', 'run', 'explore')
EACH = {full_device: WORDS, closed_pipe: WORDS, closed_output: WORDS, closed_error: READERS, folder: READERS}
TESTS = [('devices/%s/%s' % (test.__name__, command), functools.partial(test, command))
         for test, commands in EACH.items() for command in commands]
TESTS += [('devices/' + test.__name__, test) for test in
          (full_error, check_of_nothing, null, without_end, pipes_by_name, no_entry_of_a_piped_text, standard_input,
           schedule_that_is_a_folder, text_that_is_a_folder_and_no_schedule, unreadable)]
