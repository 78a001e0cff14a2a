"""Tests the language server. A scripted client opens, changes and closes texts, and gets exactly what `check` prints, with the traces that
`why` prints."""
import json
import os
import pathlib
import re
import shlex
import shutil
import signal
import subprocess
import tempfile
import threading
import time

TOP = pathlib.Path(__file__).resolve().parent.parent
FINDING = re.compile(r'(\d+):(\d+) ([A-Z]\d\d) (.*)')
TRACED = re.compile(r'  (\d+):(\d+) (.*)')
WAIT = 60  # seconds for an answer that has to come


class Client:
    """A client of the server that keeps what notifications bring."""

    def __init__(self, program, encodings=('utf-8',), related=False, top=TOP):
        words = [top / 'tools' / 'lsp', *(['--program', program] if program else [])]
        self.server = subprocess.Popen(words, stdin=subprocess.PIPE, stdout=subprocess.PIPE, stderr=subprocess.PIPE,
                                       env=dict(os.environ, PYTHONDONTWRITEBYTECODE='1'))
        self.answers, self.published, self.shown, self.news = {}, {}, [], threading.Condition()
        self.number = 0
        threading.Thread(target=self.listen, daemon=True).start()
        shows = {'publishDiagnostics': {'relatedInformation': True}} if related else {}
        asked = {'general': {'positionEncodings': list(encodings)}, 'textDocument': shows}
        self.can = self.ask('initialize', capabilities=asked)['result']['capabilities']
        self.tell('initialized')

    def listen(self):
        while True:
            size = None
            for line in iter(self.server.stdout.readline, b''):
                if not line.strip():
                    break
                name, _, value = line.partition(b':')
                size = int(value) if name == b'Content-Length' else size
            body = self.server.stdout.read(size or 0)
            if not body:
                return
            message = json.loads(body)
            with self.news:
                params = message.get('params') or {}
                if message.get('method') == 'textDocument/publishDiagnostics':
                    self.published[params['uri']] = params
                elif message.get('method') == 'window/showMessage':
                    self.shown.append(params['message'])
                else:
                    self.answers[message['id']] = message
                self.news.notify_all()

    def send(self, body):
        self.server.stdin.write(b'Content-Length: %d\r\n\r\n' % len(body) + body)
        self.server.stdin.flush()

    def tell(self, method, **params):
        self.send(json.dumps({'jsonrpc': '2.0', 'method': method, 'params': params}).encode())

    def ask(self, method, **params):
        self.number += 1
        self.send(json.dumps({'jsonrpc': '2.0', 'id': self.number, 'method': method, 'params': params}).encode())
        return self.until(lambda: self.answers.pop(self.number, None))

    def until(self, given):
        """Waits until `given` returns something other than None, and returns that."""
        ended = time.monotonic() + WAIT
        with self.news:
            while True:
                it = given()
                if it is not None:
                    return it
                if not self.news.wait(max(0, ended - time.monotonic())) and time.monotonic() >= ended:
                    raise TimeoutError('the server is silent')

    def open(self, uri, text, version=1):
        self.tell('textDocument/didOpen', textDocument={'uri': uri, 'languageId': 'sing', 'version': version, 'text': text})

    def change(self, uri, text, version):
        self.tell('textDocument/didChange', textDocument={'uri': uri, 'version': version}, contentChanges=[{'text': text}])

    def found(self, uri, version):
        """Returns the diagnostics of this version of a text."""
        return self.until(lambda: self.published.get(uri) if self.published.get(uri, {}).get('version') == version else None)['diagnostics']

    def at(self, uri, line, character):
        return {'textDocument': {'uri': uri}, 'position': {'line': line, 'character': character}}

    def end(self):
        self.ask('shutdown')
        self.tell('exit')
        return self.server.wait(WAIT)


def with_client(test, **how):
    def run(program):
        client = Client(program, **how)
        try:
            return test(client, program)
        finally:
            client.server.kill()
            client.server.wait()
    return run


def checked(program, data):
    """Returns what `check` prints for a text: places, codes and texts."""
    said = subprocess.run([program, 'check', '/dev/stdin'], input=data, stdout=subprocess.PIPE, check=False).stdout.decode()
    return [(int(it[1]), int(it[2]), it[3], it[4]) for it in map(FINDING.fullmatch, said.splitlines()) if it]


def told(diagnostics, text):
    """Returns diagnostics as the program would print them, for a text with LF line ends and no byte order mark."""
    return [(its['range']['start']['line'] + 1, its['range']['start']['character'] + 1, its['code'], its['message']) for its in diagnostics]


def unlike(asked, given, of=''):
    return [] if asked == given else ['%sexpected %r, given %r' % (of and of + ': ', asked, given)]


def texts():
    """Returns the texts of the cases and the examples."""
    return sorted([*TOP.glob('cases/*/*/input.sg'), *TOP.glob('examples/*.sg')])


def plain(data):
    """Returns whether the protocol can carry a text unchanged and counts its lines as the program does."""
    try:
        return not data.startswith(b'\xef\xbb\xbf') and b'\r' not in data and data.decode('utf-8').encode() == data
    except UnicodeDecodeError:
        return False


def each_text_has_its_findings(client, program):
    """For each text of the cases and examples the server publishes what `check` prints."""
    found = []
    for number, path in enumerate(texts()):
        data = path.read_bytes()
        if not plain(data) or len(data) > 1 << 20:
            continue
        client.open('file:///%d.sg' % number, data.decode())
        given = told(client.found('file:///%d.sg' % number, 1), data)
        found += unlike(sorted(checked(program, data)), sorted(given), str(path.relative_to(TOP)))
        client.tell('textDocument/didClose', textDocument={'uri': 'file:///%d.sg' % number})
    return found + unlike(0, client.end())


NOTE = (TOP / 'examples' / 'note.sg').read_text()
TRACE_OF_NOTE = '```text\n7:5 A01 note not owned\n  5:21 note new\n  6:12 note deleted\n```\n\n---\n\n'


def edits_faster_than_runs(client, _):
    """If twenty texts change faster than they are checked, the last change of each counts."""
    uris = ['file:///edit%d.sg' % number for number in range(20)]
    for uri in uris:
        client.open(uri, NOTE)
    for version in range(2, 12):
        for uri in uris:
            client.change(uri, NOTE if version % 2 else NOTE.replace('note.pages = 2;', ''), version)
    found = []
    for uri in uris:
        found += unlike(1, len(client.found(uri, 11)))
        client.tell('textDocument/didSave', textDocument={'uri': uri})
    for uri in uris:
        client.tell('textDocument/didClose', textDocument={'uri': uri})
        client.until(lambda uri=uri: client.published[uri]['diagnostics'] == [] or None)
    return found + unlike(0, client.end())


def columns_are_the_clients(client, _):
    """After letters of two and four bytes, a column counts the agreed units."""
    client.open('file:///wide.sg', NOTE.replace('    note.pages = 2;', '/* \u00e4 \U0001f600 */ note.pages = 2;'))
    start = client.found('file:///wide.sg', 1)[0]['range']['start']
    return unlike({'utf-8': 14, 'utf-16': 11}[client.can['positionEncoding']], start['character']) + unlike(6, start['line'])


def other_ends_of_lines(client, _):
    """CR LF and a byte order mark change no place. After a CR alone a client counts another line."""
    found = []
    given = (('crlf', NOTE.replace('\n', '\r\n'), 6), ('mark', '\ufeff' + NOTE, 6), ('cr', NOTE.replace('// ', '/* \r */ // ', 1), 7))
    for name, text, line in given:
        client.open('file:///%s.sg' % name, text)
        start = client.found('file:///%s.sg' % name, 1)[0]['range']['start']
        found += unlike({'line': line, 'character': 4}, start, name)
    return found


def explained(program, data):
    """Returns what `why` prints for a text: the place, code and text of each finding, and the places and texts of its trace."""
    said = subprocess.run([program, 'why', '/dev/stdin'], input=data, stdout=subprocess.PIPE, check=False).stdout.decode()
    made = []
    for line in said.splitlines():
        it, note = FINDING.fullmatch(line), TRACED.fullmatch(line)
        if it:
            made.append((int(it[1]), int(it[2]), it[3], it[4], []))
        elif note:
            made[-1][4].append((int(note[1]), int(note[2]), note[3]))
    return made


def traces_are_related_places(client, program):
    """A client that takes related places gets each trace: here that of the note, worked out by hand, and what `why` prints for texts. Some
    such clients show these places nowhere, so a hover has the trace too."""
    client.open('file:///note.sg', NOTE)
    start, deleted = client.found('file:///note.sg', 1)[0]['relatedInformation']
    found = unlike({'location': {'uri': 'file:///note.sg', 'range': {'start': {'line': 4, 'character': 20}, 'end': {
        'line': 4, 'character': 24}}}, 'message': 'note new'}, start)
    found += unlike((5, 11, 'note deleted'), (*deleted['location']['range']['start'].values(), deleted['message']))
    page = client.ask('textDocument/hover', **client.at('file:///note.sg', 6, 5))['result']['contents']['value']
    found += unlike(TRACE_OF_NOTE + (TOP / 'docs' / 'codes' / 'A01.md').read_text(), page, 'page')
    for path in sorted([*TOP.glob('examples/*.sg'), *TOP.glob('cases/channels/*/input.sg')]):
        uri, data = path.as_uri(), path.read_bytes()
        client.open(uri, data.decode())
        diagnostics = client.found(uri, 1)
        notes = [[(*(it + 1 for it in its['location']['range']['start'].values()), its['message'])
                  for its in it.get('relatedInformation', [])] for it in diagnostics]
        given = [(*one, its) for one, its in zip(told(diagnostics, data), notes)]
        found += unlike(explained(program, data), given, str(path.relative_to(TOP)))
    return found + unlike(0, client.end())


def findings_without_traces(program):
    """If the program does not know `why`, takes long for it or prints only part of it, the findings come from `check`."""
    found = []
    for name, answer in (('unknown', 'exit 2'), ('slow', 'exec sleep 600'), ('cut', 'echo "7:5 A01 note not owned"; exit 1')):
        with tempfile.TemporaryDirectory() as folder:
            path = pathlib.Path(folder) / 'program'
            path.write_text('#!/bin/sh\nif [ "$1" = why ]; then %s; fi\nexec %s "$@"\n' % (answer, shlex.quote(program)))
            path.chmod(0o755)
            client = Client(str(path), related=True)
            try:
                client.open('file:///note.sg', NOTE)
                its = client.found('file:///note.sg', 1)
                found += unlike([(7, 5, 'A01', 'note not owned')], told(its, NOTE), name)
                found += unlike(False, 'relatedInformation' in its[0], name)
            finally:
                client.server.kill()
                client.server.wait()
    return found


def pages_and_bounds(client, _):
    """A hover over a finding shows its trace and the page of its code. A hover over a contract's name shows its bounds."""
    client.open('file:///note.sg', NOTE)
    its = client.found('file:///note.sg', 1)[0]
    shown = client.ask('textDocument/hover', **client.at('file:///note.sg', 6, 5))['result']['contents']['value']
    found = unlike(TRACE_OF_NOTE + (TOP / 'docs' / 'codes' / 'A01.md').read_text(), shown) + unlike(False, 'relatedInformation' in its)
    client.open('file:///ping.sg', (TOP / 'examples' / 'ping.sg').read_text())
    lines = (TOP / 'examples' / 'ping.sg').read_text().splitlines()
    row = next(number for number, line in enumerate(lines) if line.startswith('contract'))
    said = client.ask('textDocument/hover', **client.at('file:///ping.sg', row, 10))['result']['contents']['value']
    found += [] if re.fullmatch(r'Bounds of the queues of `\w+`: to Exp \d+, to Imp \d+', said) else [said]
    return found + unlike(None, client.ask('textDocument/hover', **client.at('file:///note.sg', 0, 0))['result'])


def names_lead_to_declarations(client, _):
    """Each use of a contract, state, message, struct, class or method leads to its declaration, which is in the outline."""
    found, kinds = [], set()
    for path in (TOP / 'examples' / 'ping.sg', TOP / 'examples' / 'hand_over.sg'):
        uri, text = path.as_uri(), path.read_text()
        client.open(uri, text)
        symbols = client.ask('textDocument/documentSymbol', textDocument={'uri': uri})['result']
        all_symbols = [its for outer in symbols for its in [outer, *outer['children']]]
        kinds |= {its['kind'] for its in all_symbols}
        words = {its['name']: its['selectionRange'] for its in all_symbols}
        for name, span in words.items():
            row = text.splitlines()[span['start']['line']]
            found += unlike(name, row[span['start']['character']:span['end']['character']])
        for number, line in enumerate(text.splitlines()):
            for use in re.finditer(r'\b(%s)\b' % '|'.join(map(re.escape, words)), line.partition('//')[0]):
                given = client.ask('textDocument/definition', **client.at(uri, number, use.start()))['result'] or []
                is_met = any(its == {'uri': uri, 'range': words[use[1]]} for its in given)
                found += [] if is_met else ['%s:%d: %s leads to %r' % (path.name, number + 1, use[1], given)]
    return found + unlike({5: 'class', 6: 'method', 11: 'contract', 22: 'state', 23: 'struct', 24: 'message'}.keys(), kinds)


def parts_of_a_diagnostic(client, _):
    """A finding is an error of singcheck with its code, on the word at its place, with a link to the page of the code."""
    client.open('file:///note.sg', NOTE)
    its = client.found('file:///note.sg', 1)[0]
    page = its.pop('codeDescription')['href']
    span = {'start': {'line': 6, 'character': 4}, 'end': {'line': 6, 'character': 8}}
    asked = {'range': span, 'severity': 1, 'code': 'A01', 'source': 'singcheck', 'message': 'note not owned'}
    return unlike(asked, its) + unlike((TOP / 'docs' / 'codes' / 'A01.md').as_uri(), page)


def refusals(client, _):
    """A request that the server does not know or cannot read gets the error of the protocol, and the server continues."""
    found = unlike(-32601, client.ask('textDocument/rename')['error']['code'])
    found += unlike(-32602, client.ask('textDocument/hover')['error']['code'])
    client.tell('$/setTrace', value='off')
    client.send(b'{')
    found += unlike(-32700, client.until(lambda: client.answers.pop(None, None))['error']['code'])
    client.send(b'[]')
    found += unlike(-32600, client.until(lambda: client.answers.pop(None, None))['error']['code'])
    found += unlike(-32600, client.ask('initialize')['error']['code'])
    found += unlike(None, client.ask('shutdown')['result'])
    found += unlike(-32600, client.ask('textDocument/hover')['error']['code'])
    client.tell('exit')
    return found + unlike(0, client.server.wait(WAIT))


def a_client_that_dies(client, _):
    client.open('file:///note.sg', NOTE)
    client.server.stdin.close()
    return unlike(1, client.server.wait(WAIT))


class Slow:
    """A program that does not know `why`. Its `check` notes its process and does not end."""

    def __enter__(self):
        self.folder = tempfile.TemporaryDirectory()
        self.noted = pathlib.Path(self.folder.name) / 'noted'
        self.program = pathlib.Path(self.folder.name) / 'program'
        self.program.write_text('#!/bin/sh\n[ "$1" = check ] || exit 2\necho $$ >>%s\nexec sleep 600\n' % shlex.quote(str(self.noted)))
        self.program.chmod(0o755)
        return self

    def __exit__(self, *_):
        self.folder.cleanup()

    def runs(self, count):
        """Waits until `count` runs have begun, and returns their processes."""
        return awaited(lambda: self.noted.exists() and len(self.noted.read_text().split()) >= count and self.noted.read_text().split())


def awaited(given):
    """Waits until `given` returns something true, and returns that, or the last value after the time limit."""
    ended = time.monotonic() + WAIT
    while not given() and time.monotonic() < ended:
        time.sleep(0.02)
    return given()


def is_over(process):
    return not pathlib.Path('/proc', process).exists()


def an_overtaken_run_is_stopped(_):
    """The run on an older text is stopped when a newer one comes, and the last run when the text is closed."""
    with Slow() as slow:
        client = Client(str(slow.program))
        try:
            client.open('file:///note.sg', NOTE)
            slow.runs(1)
            client.change('file:///note.sg', NOTE + '\n', 2)
            first, last = slow.runs(2)[:2]
            found = [] if awaited(lambda: is_over(first)) else ['the first run goes on']
            found += ['the last run is over'] if is_over(last) else []
            client.tell('textDocument/didClose', textDocument={'uri': 'file:///note.sg'})
            return found + ([] if awaited(lambda: is_over(last)) else ['a closed text is checked'])
        finally:
            client.server.kill()
            client.server.wait()


def a_server_that_is_killed(program):
    """A server that gets SIGTERM stops its current run, and a new server reports the findings of the text as it then is."""
    with Slow() as slow:
        client = Client(str(slow.program))
        client.open('file:///note.sg', NOTE)
        last = slow.runs(1)[0]
        client.server.send_signal(signal.SIGTERM)
        found = unlike(128 + signal.SIGTERM, client.server.wait(WAIT))
        found += [] if awaited(lambda: is_over(last)) else ['the run goes on']
    for number in (signal.SIGKILL, signal.SIGTERM):
        client = Client(program)
        client.open('file:///note.sg', NOTE * 200)
        client.server.send_signal(number)
        client.server.wait(WAIT)
    client = Client(program)
    client.open('file:///note.sg', NOTE, 7)
    return found + unlike([(7, 5, 'A01', 'note not owned')], told(client.found('file:///note.sg', 7), NOTE)) + unlike(0, client.end())


def a_large_text(client, program):
    text = NOTE + '// ' + 'x' * (4194304 - len(NOTE) - 3)
    client.open('file:///large.sg', text)
    return unlike(checked(program, text.encode()), told(client.found('file:///large.sg', 1), text))


def not_built(_):
    """Without a program the user gets one message about it."""
    with tempfile.TemporaryDirectory() as folder:
        client = Client(os.path.join(folder, 'none'))
        try:
            client.open('file:///a.sg', NOTE)
            client.open('file:///b.sg', NOTE)
            client.ask('textDocument/documentSymbol', textDocument={'uri': 'file:///b.sg'})
            return unlike(1, len(client.shown)) + ([] if './build' in client.shown[0] else client.shown)
        finally:
            client.server.kill()
            client.server.wait()


def not_proved(program):
    """If the server takes a program without proofs by itself, the user gets one message about it, and the findings."""
    with tempfile.TemporaryDirectory() as folder:
        top = pathlib.Path(folder)
        for name in ('tools', 'docs/codes'):
            shutil.copytree(TOP / name, top / name)
        (top / 'out').mkdir()
        (top / 'out' / 'unproved').symlink_to(program)
        client = Client(None, top=top)
        try:
            for name in ('a', 'b'):
                client.open('file:///%s.sg' % name, NOTE)
                found = unlike([(7, 5, 'A01', 'note not owned')], told(client.found('file:///%s.sg' % name, 1), NOTE))
            return found + unlike(['singcheck is not proved on this machine.'], client.shown)
        finally:
            client.server.kill()
            client.server.wait()


TESTS = [('server/' + test.__name__, with_client(test)) for test in
         (each_text_has_its_findings, edits_faster_than_runs, columns_are_the_clients, other_ends_of_lines, parts_of_a_diagnostic,
          pages_and_bounds, names_lead_to_declarations, refusals, a_client_that_dies, a_large_text)]
TESTS += [('server/columns_of_utf_16', with_client(columns_are_the_clients, encodings=())), ('server/not_built', not_built),
          ('server/not_proved', not_proved),
          ('server/traces_are_related_places', with_client(traces_are_related_places, related=True)),
          ('server/findings_without_traces', findings_without_traces),
          ('server/an_overtaken_run_is_stopped', an_overtaken_run_is_stopped),
          ('server/a_server_that_is_killed', a_server_that_is_killed)]
