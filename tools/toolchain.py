"""How the scripts use `rt`, the command of the toolchain: what they may call, and the copies of the repository in which it works.

Kits with the same logic have different releases of `rt`. The scripts call what `rt help` of all of them documents: `rt ci` without names,
`rt must-fail [NAME ..]`, `rt check`, `rt run`, `rt try` and `rt help`. What only newer releases have is behind `is_newer`.
"""
import functools
import os
import pathlib
import re
import shutil
import subprocess

TOP = pathlib.Path(__file__).resolve().parent.parent
CRATES = TOP / 'crates'
MUTANTS = 'must-fail', 'edits', 'edits-below'  # folders of a crate
ROOM = 4 << 30  # bytes of memory for the proof of one crate


@functools.lru_cache(maxsize=None)
def is_newer():
    """Returns whether this `rt` takes names of crates after `ci`: `rt help` then has `rt ci [NAME`. Releases that do also keep on this
    machine what `rt ci` has proved, and read RT_JOBS, which no help mentions: so many crates are proved at once, with one job each. Other
    releases print their usage if `ci` has a name, and prove everything anew each time. Nothing needs the newer ones; they save time."""
    try:
        ran = subprocess.run(['rt', 'help'], stdin=subprocess.DEVNULL, stdout=subprocess.PIPE, stderr=subprocess.STDOUT, timeout=60)
    except (OSError, subprocess.TimeoutExpired):
        return False
    return re.search(rb'\brt ci +\[NAME', ran.stdout) is not None


def with_jobs(count):
    """Returns the environment for a call of `rt` that may prove `count` crates at once. If it is not newer, it decides that itself."""
    return {**os.environ, 'RT_JOBS': str(count)} if is_newer() else dict(os.environ)


def jobs():
    """Returns how many proofs may run at once: as many as processors and free memory allow."""
    free = int(re.search(r'MemAvailable: *(\d+)', pathlib.Path('/proc/meminfo').read_text())[1]) << 10
    return max(1, min(free // ROOM, len(os.sched_getaffinity(0))))


def lines():
    """Returns the lines of crates.txt by crate, in their order."""
    found = [line for line in (TOP / 'crates.txt').read_text().splitlines() if re.match('[a-z]', line)]
    return {re.match(r'\w+', line)[0]: line for line in found}


def needs():
    """Returns the libraries that each crate names, by crate, in the order of crates.txt."""
    return {name: line.partition('#')[0].partition(':')[2].split() for name, line in lines().items()}


def with_below(names):
    """Returns these crates and those of the repository that they depend on, in the order of crates.txt."""
    named, found = needs(), set(names)
    while True:
        more = {need for name in found for need in named[name] if need in named} - found
        if not more:
            return [name for name in named if name in found]
        found |= more


def copied(folder, names, left_out):
    """Makes a repository of these crates in a folder, without these folders of each crate. `rt` finds its top by the folder .git. It writes
    files BUILD.bazel when it makes a crate, and refuses them in a gate."""
    (folder / '.git').mkdir(parents=True, exist_ok=True)
    (folder / 'crates.txt').write_text(''.join(line + '\n' for name, line in lines().items() if name in names))
    if (TOP / 'HANDLES').exists():
        shutil.copy(TOP / 'HANDLES', folder)
    for name in names:
        shutil.copytree(CRATES / name, folder / 'crates' / name, ignore=shutil.ignore_patterns(*left_out, 'BUILD.bazel'))


def copy_kept_work(folder, names, top):
    """Copies to such a repository what `rt check` has kept here: the libraries of these crates, and the proofs of one of them, `top`. So a
    check of `top` there proves no other crate again. Newer releases of `rt` find most of this by themselves."""
    for name in names:
        for part in ('rlib', 'incremental') if name == top else ('rlib',):
            kept = CRATES / name / 'out' / part
            if kept.is_dir():
                shutil.copytree(kept, folder / 'crates' / name / 'out' / part, symlinks=True)
