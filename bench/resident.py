"""Measures the memory of a program."""
import subprocess
import sys

# Until a new process runs its own program, it counts the memory of its parent. So a small process starts the program.
STARTER = '''
import os, sys
process = os.fork()
if process == 0:
    os.dup2(os.open(sys.argv[1], os.O_WRONLY), 1)
    os.execv(sys.argv[2], sys.argv[2:])
_, status, used = os.wait4(process, 0)
print(os.waitstatus_to_exitcode(status), used.ru_maxrss)
'''


def resident(words, file):
    """Runs a program with its output in this file. Returns its status and its greatest resident memory in KiB."""
    words = [sys.executable, '-S', '-E', '-c', STARTER, file, *words]
    ran = subprocess.run(words, stdin=subprocess.DEVNULL, capture_output=True, check=True, text=True)
    return tuple(map(int, ran.stdout.split()))
