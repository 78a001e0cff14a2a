"""Runs programs, for scripts that run many short ones."""
import json
import os
import select
import shlex
import signal
import subprocess
import time

NOTHING = os.open(os.devnull, os.O_RDWR)
ENVIRONMENT = dict(os.environ)


def both_read(pipes, end):
    """Reads two pipes to their ends. Returns what they had, or None if they do not end in time."""
    parts, poll = {pipe: [] for pipe in pipes}, select.poll()
    for pipe in pipes:
        poll.register(pipe, select.POLLIN)
    left = len(pipes)
    while left:
        ready = poll.poll(max(0, end - time.monotonic()) * 1000)
        if not ready:
            return None
        for pipe, _ in ready:
            part = os.read(pipe, 1 << 20)
            parts[pipe].append(part)
            if not part:
                poll.unregister(pipe)
                left -= 1
    return [b''.join(parts[pipe]) for pipe in pipes]


def answer(words, limit=3600):
    """Returns the standard output, the standard error and the status of a program, or None if it does not end within `limit` seconds."""
    (out, out_end), (err, err_end) = os.pipe(), os.pipe()
    actions = [(os.POSIX_SPAWN_DUP2, NOTHING, 0), (os.POSIX_SPAWN_DUP2, out_end, 1), (os.POSIX_SPAWN_DUP2, err_end, 2)]
    process = os.posix_spawn(words[0], words, ENVIRONMENT, file_actions=actions)
    os.close(out_end)
    os.close(err_end)
    try:
        said = both_read((out, err), time.monotonic() + limit)
        if said is None:
            os.kill(process, signal.SIGKILL)
    finally:
        os.close(out)
        os.close(err)
    status = os.waitstatus_to_exitcode(os.waitpid(process, 0)[1])
    return said and (said[0], said[1], status)


class Reference:
    """A program that is asked line by line: for each command line, a list of words as JSON, it writes a line of JSON with `out` and
    `status`."""

    def __init__(self, command):
        self.process = subprocess.Popen(shlex.split(command), stdin=subprocess.PIPE, stdout=subprocess.PIPE)

    def ask(self, words):
        self.process.stdin.write(json.dumps(words).encode() + b'\n')
        self.process.stdin.flush()
        told = json.loads(self.process.stdout.readline())
        return told['out'].encode('latin-1'), told['status']
