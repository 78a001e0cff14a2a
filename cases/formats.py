"""Tests `tools/check` on many files, and the formats of findings: each format has the findings that `check` prints for every text, and with
--why the traces that `why` prints."""
import collections
import concurrent.futures
import functools
import json
import os
import pathlib
import pty
import re
import signal
import subprocess
import tempfile
import time
import urllib.parse

TOP = pathlib.Path(__file__).resolve().parent.parent
FINDING = re.compile(r'(\d+):(\d+) ([A-Z]\d\d) (.*)')
MARK = b'\xef\xbb\xbf'
SECONDS = 600  # for a run on all texts, which takes long with the program of ./build --unproved


def run(program, *words, tool='check', **more):
    words = [TOP / 'tools' / tool, *(['--program', program] if tool == 'check' else []), *words]
    return subprocess.run(words, stdin=more.pop('stdin', subprocess.DEVNULL) if 'input' not in more else None, stdout=subprocess.PIPE,
                          stderr=subprocess.PIPE, timeout=SECONDS, **more)


def printed(program, path):
    said = subprocess.run([program, 'check', path], stdin=subprocess.DEVNULL, stdout=subprocess.PIPE, check=False).stdout.decode()
    return [(int(it[1]), int(it[2]), it[3], it[4]) for it in map(FINDING.fullmatch, said.splitlines()) if it]


def texts():
    return sorted(str(path.relative_to(TOP)) for folder in ('cases', 'examples') for path in (TOP / folder).rglob('*.sg'))


@functools.cache
def all_printed(program):
    """Returns what `check` prints for each text, by its name."""
    names = texts()
    with concurrent.futures.ThreadPoolExecutor(4) as pool:
        return dict(zip(names, pool.map(lambda name: printed(program, TOP / name), names)))


def characters(name, line, column):
    """Converts a column in bytes to one in characters."""
    rows = (TOP / name).read_bytes().removeprefix(MARK).split(b'\n')
    return len((rows[line - 1] if line <= len(rows) else b'')[:column - 1].decode('utf-8', 'replace')) + 1


def unlike(asked, given, of=''):
    return [] if asked == given else ['%s: expected %r, given %r' % (of, asked, given)]


def compared(asked, given):
    found = collections.defaultdict(list)
    for name, *finding in given:
        found[name].append(tuple(finding))
    return [it for name in asked for it in unlike(asked[name], found[name], name)]


def plain_lines(program):
    ran = run(program, '--format', 'plain', 'cases', 'examples', cwd=TOP)
    rows = [re.fullmatch(r'([^:]+):(\d+):(\d+): ([A-Z]\d\d) (.*)', line).groups() for line in ran.stdout.decode().splitlines()]
    return compared(all_printed(program), [(name, int(line), int(column), code, text) for name, line, column, code, text in rows])


def json_lines(program):
    ran = run(program, '--format', 'json', 'cases', 'examples', cwd=TOP)
    given = [json.loads(line) for line in ran.stdout.decode().splitlines()]
    keys = {'file', 'line', 'column', 'code', 'text'}
    found = ['keys %r' % sorted(it) for it in given if set(it) != keys]
    return found + compared(all_printed(program), [(it['file'], it['line'], it['column'], it['code'], it['text']) for it in given])


def commands_of_github(program):
    """The form is `::error PROPERTY=VALUE,..::TEXT`. %, CR and LF become %25, %0D and %0A; a value escapes : and , too."""
    ran = run(program, '--format', 'github', 'cases', 'examples', cwd=TOP)
    given = []
    for line in ran.stdout.decode().splitlines():
        it = re.fullmatch(r'::error file=([^,:]+),line=(\d+),col=(\d+),title=([A-Z]\d\d)::((?:[^%]|%25)*)', line)
        if not it:
            return ['no command: %r' % line]
        given.append((urllib.parse.unquote(it[1]), int(it[2]), int(it[3]), it[4], it[5].replace('%25', '%')))
    asked = {name: [(line, characters(name, line, column), code, text) for line, column, code, text in its]
             for name, its in all_printed(program).items()}
    return compared(asked, given)


def is_sarif(log):
    """Checks what SARIF 2.1.0 requires of the parts that are written: the required properties, their types, and valid indexes."""
    found = [] if log.get('version') == '2.1.0' and isinstance(log.get('runs'), list) else ['no version 2.1.0, or no runs']
    for one in log['runs']:
        driver = one['tool']['driver']
        found += [] if isinstance(driver['name'], str) else ['no name of the driver']
        rules = driver.get('rules', [])
        found += ['a rule twice'] if len({it['id'] for it in rules}) != len(rules) else []
        found += ['rule %r' % it for it in rules if not isinstance(it['shortDescription']['text'], str)]
        found += [] if one['columnKind'] in ('utf16CodeUnits', 'unicodeCodePoints') else ['columnKind']
        ends = one['newlineSequences']
        found += [] if ends and len(set(ends)) == len(ends) else ['newlineSequences']
        for it in one['results']:
            fits = rules[it['ruleIndex']]['id'] == it['ruleId'] and it['level'] in ('none', 'note', 'warning', 'error')
            place = it['locations'][0]['physicalLocation']
            fits = fits and isinstance(it['message']['text'], str) and urllib.parse.urlparse(place['artifactLocation']['uri']).scheme == ''
            fits = fits and place['region']['startLine'] >= 1 and place['region']['startColumn'] >= 1
            found += [] if fits else ['result %r' % it]
            found += ['flow %r' % its for its in it.get('codeFlows', []) if not is_flow(its)]
    return found


def is_flow(flow):
    """Returns whether a code flow has thread flows, each with locations that are places with a message."""
    threads = flow['threadFlows']
    steps = [step['location'] for thread in threads for step in thread['locations']]
    regions = [step['physicalLocation']['region'] for step in steps]
    fits = all(isinstance(step['message']['text'], str) and 'uri' in step['physicalLocation']['artifactLocation'] for step in steps)
    fits = fits and all(min(region.values()) >= 1 for region in regions)
    return fits and all(thread['locations'] for thread in threads) and bool(threads)


def sarif(program):
    ran = run(program, '--format', 'sarif', 'cases', 'examples', cwd=TOP)
    log = json.loads(ran.stdout)
    given = []
    for it in log['runs'][0]['results']:
        place = it['locations'][0]['physicalLocation']
        given.append((urllib.parse.unquote(place['artifactLocation']['uri']), place['region']['startLine'], place['region']['startColumn'],
                      it['ruleId'], it['message']['text']))
    asked = {name: [(line, characters(name, line, column), code, text) for line, column, code, text in its]
             for name, its in all_printed(program).items()}
    return is_sarif(log) + compared(asked, given)


def sarif_of_nothing(program):
    ran = run(program, '--format', 'sarif', 'examples/ping.sg', cwd=TOP)
    return is_sarif(json.loads(ran.stdout)) + unlike(0, ran.returncode, 'status')


EXPLAINED = ('examples', 'cases/channels', 'cases/text')  # texts with all kinds of traces, or none


def explained(program, name):
    """Returns what `why` prints for a text: each finding, with the places and words of its trace."""
    said = subprocess.run([program, 'why', TOP / name], stdin=subprocess.DEVNULL, stdout=subprocess.PIPE, check=False).stdout.decode()
    made = []
    for line in said.splitlines():
        it, note = FINDING.fullmatch(line), re.fullmatch(r'  (\d+):(\d+) (.*)', line)
        if it:
            made.append((int(it[1]), int(it[2]), it[3], it[4], []))
        elif note:
            made[-1][4].append((int(note[1]), int(note[2]), note[3]))
    return made


@functools.cache
def all_explained(program):
    names = [name for name in texts() if name.startswith(EXPLAINED)]
    with concurrent.futures.ThreadPoolExecutor(4) as pool:
        return dict(zip(names, pool.map(lambda name: explained(program, name), names)))


def traces_in_json(program):
    ran = run(program, '--why', '--format', 'json', *EXPLAINED, cwd=TOP)
    given = [json.loads(line) for line in ran.stdout.decode().splitlines()]
    found = ['an empty list of %r' % it for it in given if it.get('trace') == []]
    found += [] if any('trace' in it for it in given) else ['no trace']
    return found + compared(all_explained(program), [
        (it['file'], it['line'], it['column'], it['code'], it['text'],
         [(note['line'], note['column'], note['text']) for note in it.get('trace', [])]) for it in given])


def traces_in_sarif(program):
    """A trace is one flow that ends at the place of the finding."""
    log = json.loads(run(program, '--why', '--format', 'sarif', *EXPLAINED, cwd=TOP).stdout)
    asked = [[(name, line, characters(name, line, column), text) for line, column, text in (*notes, (line, column, text))]
             for name, its in all_explained(program).items() for line, column, _, text, notes in its if notes]
    given = []
    for it in log['runs'][0]['results']:
        for flow in it.get('codeFlows', []):
            steps = [its['location'] for its in flow['threadFlows'][0]['locations']]
            places = [its['physicalLocation'] for its in steps]
            given.append([(urllib.parse.unquote(place['artifactLocation']['uri']), place['region']['startLine'],
                           place['region']['startColumn'], its['message']['text']) for its, place in zip(steps, places)])
    return is_sarif(log) + unlike(sorted(asked), sorted(given))


def traces_of_the_note(program):
    """The example of the first page: line 5 makes the note, and line 6 deletes it."""
    asked = {'plain': 'examples/note.sg:7:5: A01 note not owned\nexamples/note.sg:5:21: note: note new\n'
                      'examples/note.sg:6:12: note: note deleted\n',
             'github': '::error file=examples/note.sg,line=7,col=5,title=A01::note not owned%0A5:21 note new%0A6:12 note deleted\n'}
    return [it for kind in asked
            for it in unlike(asked[kind], run(program, '--why', '--format=' + kind, 'examples/note.sg', cwd=TOP).stdout.decode(), kind)]


def show_has_the_formats(program):
    """In each format `show` prints what `tools/check` prints, also for a report with traces."""
    name, found = 'examples/note.sg', []
    for command, words in (('check', []), ('why', ['--why'])):
        report = subprocess.run([program, command, name], cwd=TOP, stdin=subprocess.DEVNULL, stdout=subprocess.PIPE).stdout
        for kind in ('plain', 'sarif', 'github', 'json'):
            asked = run(program, *words, '--format', kind, name, cwd=TOP)
            given = run(program, '--format', kind, name, tool='show', input=report, cwd=TOP)
            found += unlike((asked.stdout, 1), (given.stdout, given.returncode), command + ' ' + kind)
    return found


def the_worst_status(program):
    found = unlike(0, run(program, 'examples/ping.sg', cwd=TOP).returncode, 'clean')
    found += unlike(1, run(program, 'examples/ping.sg', 'examples/note.sg', cwd=TOP).returncode, 'found')
    ran = run(program, 'examples/note.sg', 'nowhere.sg', cwd=TOP)
    found += unlike((3, b'examples/note.sg:7:5: A01 note not owned\n'), (ran.returncode, ran.stdout), 'not there')
    found += [] if b'nowhere.sg' in ran.stderr and ran.stderr.count(b'\n') == 1 else ['no line that names the file: %r' % ran.stderr]
    found += unlike(2, run(program, '--fast', cwd=TOP).returncode, 'an option')
    found += unlike(2, run(program, '--format', 'xml').returncode, 'xml')
    found += unlike(2, run(program, '--why=yes', 'examples/note.sg', cwd=TOP).returncode, 'a value of --why')
    with tempfile.TemporaryDirectory() as folder:
        return found + unlike(70, run(os.path.join(folder, 'none'), 'examples/note.sg', cwd=TOP).returncode, 'not built')


def standard_input_and_odd_names(program):
    note = (TOP / 'examples' / 'note.sg').read_bytes()
    found = unlike(b'-:7:5: A01 note not owned\n', run(program, '-', input=note).stdout, 'standard input')
    with tempfile.TemporaryDirectory() as folder:
        for name in ('-x.sg', 'a b.sg', 'e\x1b[2J.sg', 'c,d:e%.sg'):
            (pathlib.Path(folder) / name).write_bytes(note)
        plain = run(program, '--', '-x.sg', 'a b.sg', 'e\x1b[2J.sg', cwd=folder).stdout.decode()
        asked = ''.join('%s:7:5: A01 note not owned\n' % name for name in ('-x.sg', 'a b.sg', 'e\u241b[2J.sg'))
        found += unlike(asked, plain, 'names')
        command = run(program, '--format=github', 'c,d:e%.sg', cwd=folder).stdout
        found += unlike(b'::error file=c%2Cd%3Ae%25.sg,line=7,col=5,title=A01::note not owned\n', command, 'escapes')
        report = b'7:5 A01 note not owned\nfindings: 1\n'
        given = run(program, '--plain', '--', '-x.sg', tool='show', input=report, cwd=folder).stdout
        found += unlike(b'-x.sg:7:5: A01 note not owned\n', given, 'show')
        for kind in ('plain', 'sarif', 'github', 'json'):
            ran = run(program, '--format', kind, '--', 'no\x1b[2J.sg', cwd=folder)
            is_said = b'cannot read' in ran.stderr and 'no\u241b[2J.sg'.encode() in ran.stderr and b'\x1b' not in ran.stderr
            found += unlike((3, True), (ran.returncode, is_said), 'not there, ' + kind)
        return found


def without_reader(command, data):
    """Runs a command of the repository whose output nobody reads any more."""
    reads, writes = os.pipe()
    os.close(reads)
    ran = subprocess.run(command, input=data, stdout=writes, stderr=subprocess.PIPE, timeout=60, cwd=TOP)
    os.close(writes)
    return ran


def ends_as_other_tools(program):
    """A full disk or a closed output gives status 3, and a reader that is gone ends a tool by SIGPIPE. Neither looks like findings."""
    note, found = str(TOP / 'examples' / 'note.sg'), []
    report = b'7:5 A01 note not owned\nfindings: 1\n'
    for tool, words, data in (('check', ['--program', program, note], b''), ('show', [note], report), ('explain', ['A01'], b'')):
        command = [TOP / 'tools' / tool, *words]
        with open('/dev/full', 'wb') as full:
            ran = subprocess.run(command, input=data, stdout=full, stderr=subprocess.PIPE, timeout=60)
        is_said = b'cannot write' in ran.stderr and b'Traceback' not in ran.stderr
        found += unlike((3, True), (ran.returncode, is_said), tool + ' on a full disk')
        ran = subprocess.run(['sh', '-c', '"$@" >&-', 'sh', *command], input=data, stderr=subprocess.PIPE, timeout=60)
        found += unlike((3, False), (ran.returncode, b'Traceback' in ran.stderr), tool + ' on a closed stream')
        ran = subprocess.run(['sh', '-c', '"$@" <&- 2>&-', 'sh', *command], stdout=subprocess.PIPE, timeout=60)
        found += unlike(3 if tool == 'show' else 1 if tool == 'check' else 0, ran.returncode, tool + ' without input')
        ran = without_reader(command, data)
        found += unlike((-signal.SIGPIPE, b''), (ran.returncode, ran.stderr), tool + ' without a reader')
    for command in (['tools/lsp', '--help'], ['tools/tidy', '--all'], ['./build', '--help']):
        ran = without_reader(command, b'')
        found += unlike((-signal.SIGPIPE, b''), (ran.returncode, ran.stderr), ' '.join(command) + ' without a reader')
    ran = subprocess.run(['sh', '-c', '"$@" - <&-', 'sh', TOP / 'tools' / 'check', '--program', program], capture_output=True, timeout=60)
    found += unlike((3, b'', b'check: cannot read -: it is closed\n'), (ran.returncode, ran.stdout, ran.stderr), 'closed input')
    return found + ends_when_interrupted(note)


def ends_when_interrupted(note):
    """An interrupt, sent as a terminal does, ends `show` while it reads, and `check` while it waits for the program."""
    found = []
    with tempfile.TemporaryDirectory() as folder:
        slow, begun = pathlib.Path(folder) / 'slow', pathlib.Path(folder) / 'begun'
        slow.write_text('#!/bin/sh\n: >"%s"\nexec sleep 60\n' % begun)
        slow.chmod(0o755)
        for command in ([TOP / 'tools' / 'show', note], [TOP / 'tools' / 'check', '--program', slow, note]):
            waiting = subprocess.Popen(command, stdin=subprocess.PIPE, stdout=subprocess.PIPE, stderr=subprocess.PIPE,
                                       start_new_session=True)
            if command[0].name == 'show':
                waiting.stdin.write(b' ' * (1 << 18))  # more than a pipe holds, so the write ends only once the tool reads
                waiting.stdin.flush()
            else:
                while not begun.exists() and waiting.poll() is None:
                    time.sleep(0.01)
            os.killpg(waiting.pid, signal.SIGINT)
            said = waiting.communicate(timeout=60)[1]
            found += unlike((-signal.SIGINT, b''), (waiting.returncode, said), command[0].name + ' interrupted')
    return found


def on_a_terminal(program, *words, columns=40, names=(TOP / 'examples' / 'note.sg',), **more):
    """Returns what `tools/check` prints of these files on a terminal with `columns` columns."""
    master, slave = pty.openpty()
    env = {**os.environ, 'COLUMNS': str(columns), 'TERM': 'xterm', **more}
    env.pop('NO_COLOR', None) if 'NO_COLOR' not in more else None
    command = [TOP / 'tools' / 'check', '--program', program, *words, *names]
    child = subprocess.Popen(command, stdin=subprocess.DEVNULL, stdout=slave, stderr=slave, env=env)
    os.close(slave)
    data = b''
    while True:
        try:
            piece = os.read(master, 65536)
        except OSError:
            break
        if not piece:
            break
        data += piece
    os.close(master)
    child.wait(60)
    return data.decode().replace('\r\n', '\n')


def colours_and_width(program):
    found = []
    for words in ([], ['--why']):
        coloured = on_a_terminal(program, *words)
        bare = on_a_terminal(program, *words, NO_COLOR='1')
        found += [] if '\x1b[' in coloured and '\x1b[' not in bare else ['colours: %r, %r' % (coloured, bare)]
        found += unlike(bare, re.sub(r'\x1b\[\d+m', '', coloured), 'without colours')
        wide = [line for line in bare.splitlines()[1:] if len(line) > 40]
        found += ['wider than the terminal: %r' % wide] if wide else []
    return found


def the_end_on_a_terminal(program):
    """On a terminal the last line counts the files and the findings."""
    note, ping = (TOP / 'examples' / name for name in ('note.sg', 'ping.sg'))
    found = []
    for names, asked in (([ping], '1 file, no findings'), ([ping, note, ping], '3 files, 1 finding'), ([note, note], '2 files, 2 findings'),
                         ([ping, 'nowhere.sg'], '2 files, no findings, 1 not checked')):
        found += unlike(asked, on_a_terminal(program, names=names).splitlines()[-1], 'last line')
    return found + unlike(['1 file, no findings'], on_a_terminal(program, names=[ping]).splitlines(), 'clean')


def folders_without_texts(program):
    """A folder without a text is refused, whatever the others have, in each format. So a mistyped name does not pass."""
    found = []
    with tempfile.TemporaryDirectory() as folder:
        (pathlib.Path(folder) / 'empty' / 'a.sg').mkdir(parents=True)
        (pathlib.Path(folder) / 'full').mkdir()
        (pathlib.Path(folder) / 'full' / 'note.sg').write_bytes((TOP / 'examples' / 'note.sg').read_bytes())
        said = b'check: there is no *.sg file in empty\n'
        for kind in ('plain', 'github', 'json'):
            ran = run(program, '--format', kind, 'empty', cwd=folder)
            found += unlike((2, b'', said), (ran.returncode, ran.stdout, ran.stderr), kind)
        ran = run(program, 'full', 'empty', cwd=folder)
        found += unlike((2, b'full/note.sg:7:5: A01 note not owned\n', said), (ran.returncode, ran.stdout, ran.stderr), 'two folders')
        ran = run(program, cwd=pathlib.Path(folder) / 'empty')
        found += unlike((2, b'', said.replace(b'empty', b'.')), (ran.returncode, ran.stdout, ran.stderr), 'this folder')
        ran = run(program, '--format=sarif', 'empty', cwd=folder)
        return found + is_sarif(json.loads(ran.stdout)) + unlike((2, said), (ran.returncode, ran.stderr), 'sarif')


def many_small_files(program):
    """Two hundred files, each with its finding, in the order of their names."""
    with tempfile.TemporaryDirectory() as folder:
        note = (TOP / 'examples' / 'note.sg').read_bytes()
        for number in range(200):
            (pathlib.Path(folder) / ('%03d.sg' % number)).write_bytes(note)
        ran = run(program, cwd=folder)
    asked = ''.join('%03d.sg:7:5: A01 note not owned\n' % number for number in range(200))
    return unlike(asked, ran.stdout.decode(), 'files')


TESTS = [('formats/' + test.__name__, test) for test in
         (plain_lines, json_lines, commands_of_github, sarif, sarif_of_nothing, traces_in_json, traces_in_sarif, traces_of_the_note,
          show_has_the_formats, the_worst_status, standard_input_and_odd_names, ends_as_other_tools, colours_and_width,
          the_end_on_a_terminal, folders_without_texts, many_small_files)]
