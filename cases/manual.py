"""Tests the manual page: readers of such pages accept it without warnings. It has the version, and the commands and options of the help,
and says what `why` prints. The help itself has the program's name, the range and the default of each number, the exit statuses, and an
example for each command."""
import os
import pathlib
import re
import shutil
import subprocess

PAGE = pathlib.Path(__file__).resolve().parent.parent / 'docs' / 'singcheck.1'
READERS = {'man': ['man', '--warnings', '-l', PAGE], 'groff': ['groff', '-man', '-Tutf8', '-ww', PAGE]}


def without_warnings(_):
    """The installed readers have no warnings about the page."""
    found = []
    for name, words in READERS.items():
        if shutil.which(name):
            ran = subprocess.run(words, capture_output=True, timeout=60, stdin=subprocess.DEVNULL, env=dict(os.environ, LC_ALL='C.UTF-8'))
            found += ['%s: %d %r' % (name, ran.returncode, ran.stderr)] if ran.returncode or ran.stderr else []
    return found


def helped(program, *words):
    return subprocess.run([program, *words, '--help'], capture_output=True, timeout=60, stdin=subprocess.DEVNULL).stdout.decode()


def commands_and_options_of_the_help(program):
    """The page has each command and each long option of the help, and no others."""
    text = PAGE.read_text().replace('\\-', '-')
    known = set(re.findall(r'^  (\w+)\b', helped(program).partition('Commands:')[2].partition('\n\n')[0], re.M)) - {'help'}
    options = {option for words in ([], *([command] for command in known)) for option in re.findall(r'--\w+', helped(program, *words))}
    section = text.partition('.SH COMMANDS')[2].partition('.SH OUTPUT')[0]
    named = set(re.findall(r'^\.BI (\w+) " FILE', section, re.M))
    given = set(re.findall(r'--\w+', section))
    return ([] if known and known == named else ['commands: help %s, page %s' % (sorted(known), sorted(named))]) + (
        [] if options == given else ['options: help %s, page %s' % (sorted(options), sorted(given))])


def what_the_help_says(program):
    said = {command: helped(program, *command.split()) for command in ('', 'bounds', 'check', 'replay', 'why', 'run', 'explore')}
    asked = [(command, word) for command in said for word in ('Usage: singcheck %s' % command, 'Example: singcheck %s' % command)]
    asked += [('', word) for word in ['Exit status:'] + ['\n  %d  ' % status for status in range(5)]]
    asked += [('why', '<FILE> [LINE:COL]')]
    asked += [('replay', '<FILE> <ENTRY> <SCHEDULE>'), ('replay', 'Class.Method'), ('replay', '--trace'), ('replay', '--all')]
    asked += [('check', '--workers <N>'), ('check', '--slots <N>')]
    asked += [('check', '1 to 64, default 4'), ('check', '1 to 16777216, default 65536')]
    asked += [(command, word) for command in ('run', 'explore') for word in ('<FILE> <ENTRY>', '--schedule <OUT>')]
    asked += [('run', '--all'), ('run', '--seed <N>'), ('run', '--steps <N>'), ('run', '--runs <N>'), ('explore', '--worlds <N>')]
    asked += [('run', 'choices, default 1\n'), ('run', 'a run, default 10000\n'), ('run', 'seed on, default 1\n')]
    asked += [('explore', 'visited, default 100000\n')]
    return ['help of %r lacks %r' % (command, word) for command, word in asked if word not in said[command]]


def version_of_the_page(program):
    """The program prints the version of the page. The script that starts it adds whether it is proved."""
    version = re.match(r'\.TH SINGCHECK 1 "[\d-]+" "(singcheck [\d.]+)"', PAGE.read_text())[1]
    ran = subprocess.run([program, '--version'], capture_output=True, timeout=60, stdin=subprocess.DEVNULL)
    given = ran.stdout.decode().splitlines()
    fits = given[:1] == [version] and given[1:] in ([], ['proved on this machine'], ['not proved on this machine'])
    return [] if fits and ran.returncode == 0 else ['page %s, given %r' % (version, ran)]


def unknown_names(program):
    """Under an unknown name `why` prints the nearest name, as the page says."""
    text = b'class K {\n  static void F(int count) {\n    int n = cuont;\n  }\n}\n'
    ran = subprocess.run([program, 'why', '/dev/stdin'], input=text, capture_output=True, timeout=60)
    has_line = ran.stdout.decode() == '3:13 N02 cuont unknown\n  2:21 the nearest name is count\nfindings: 1\n'
    is_on_page = 'Under an unknown name it prints the nearest name that could be meant' in PAGE.read_text().replace('\n', ' ')
    return [] if has_line and is_on_page else ['page: %s, given %r' % (is_on_page, ran.stdout)]


TESTS = [('manual/' + test.__name__, test) for test in (
    without_warnings, commands_and_options_of_the_help, what_the_help_says, version_of_the_page, unknown_names)]
