"""What the tools share: reading reports of `check`, `why` and `bounds`, showing findings, and ending a tool."""
import collections
import functools
import json
import os
import pathlib
import re
import shutil
import signal
import sys
import textwrap
import unicodedata
import urllib.parse

TOP = pathlib.Path(__file__).resolve().parent.parent
IS_INSTALLED = TOP.parts[-2:] == ('share', 'singcheck')  # as ./build --install does it
CODES = TOP / 'docs' / 'codes'
UNPROVED = TOP / 'out' / 'unproved'
FINDING = re.compile(r'(\d+):(\d+) ([A-Z]\d\d) (.*)')
NOTE = re.compile(r'  (\d+):(\d+) (.*)')
MARK = b'\xef\xbb\xbf'
WINDOW = 60  # how many bytes of a long line are shown before the place, and as many after it, unless the terminal is narrower
NARROWEST = 8
FORMATS = ('plain', 'sarif', 'github', 'json')
RED, BLUE, BOLD, OFF = '\x1b[31m', '\x1b[34m', '\x1b[1m', '\x1b[0m'

# A finding, with the notes of its trace, which `why` prints below it.
Finding = collections.namedtuple('Finding', 'line column code text trace')
Note = collections.namedtuple('Note', 'line column text')
# The greatest width of the output (None: no limit), and whether it has colours.
Style = collections.namedtuple('Style', 'width colours')


def parsed(report):
    """Returns the findings of a report and its other lines, or None if its last line is not that of a complete report."""
    lines = report.split('\n')
    if lines.pop() != '' or not lines:
        return None
    findings, others = [], []
    for line in lines:
        match, note = FINDING.fullmatch(line), NOTE.fullmatch(line)
        if match:
            findings.append(Finding(int(match[1]), int(match[2]), match[3], match[4], []))
        elif note and findings:
            findings[-1].trace.append(Note(int(note[1]), int(note[2]), note[3]))
        else:
            others.append(line)
    whole = lines[-1] == 'findings: %d' % len(findings) if findings else lines[-1].startswith('ok: ')
    return (findings, others) if whole else None


def shown(character):
    """Returns a character that is safe to print. It replaces one that moves the cursor or changes the direction of the line."""
    if character == '\t':
        return '    '
    if unicodedata.category(character) not in ('Cc', 'Cf', 'Cs', 'Zl', 'Zp'):
        return character
    number = ord(character)
    return chr(0x2400 + number) if number < 32 else '\u2421' if number == 127 else '\ufffd'


def visible(data):
    text = data.decode('utf-8', 'replace')
    return text if text.isascii() and text.isprintable() else ''.join(map(shown, text))


def visible_name(name):
    """Returns a file name that is safe to print. It replaces characters that control a terminal."""
    return name if name.isascii() and name.isprintable() else ''.join(map(shown, name))


def width(text):
    """Returns how many columns of a terminal a text takes."""
    if text.isascii():
        return len(text)
    flat = (character for character in text if unicodedata.category(character) not in ('Mn', 'Me'))
    return sum(2 if unicodedata.east_asian_width(character) in 'WF' else 1 for character in flat)


def boundary(line, at):
    """Returns where the character begins to which this byte belongs. In UTF-8 at most three more bytes follow the first."""
    if at >= len(line):
        return at
    back = next((k for k in range(min(3, at) + 1) if line[at - k] & 0xC0 != 0x80), 0)
    return at - back


def excerpt(line, column, window=WINDOW):
    """Returns the shown part of a line, and how far to the right the caret is. Columns count bytes. It copies only the shown part, since a
    long line may have a finding at each place."""
    size = len(line) - line.endswith(b'\r')
    at = min(column - 1, size)
    start, end = boundary(line, max(0, at - window)), min(boundary(line, at + window), size)
    front = ('..' if start else '') + visible(line[start:at])
    return front + visible(line[at:end]) + ('..' if end < size else ''), width(front)


def for_reader(text):
    """Returns a text with the names that tools and pages have for its reader. In the repository these are tools/NAME and docs/PAGE."""
    if not IS_INSTALLED:
        return text
    named = re.sub(r'\btools/(check|explain|lsp|show)\b', r'singcheck-\1', text)
    return re.sub(r'\bdocs/(?=\w+\.md)', lambda _: '%s/docs/' % TOP, named)


@functools.lru_cache(maxsize=None)
def repair(code):
    """Returns the rest of the line on the code's page that begins with `Repair:`, or None if there is none."""
    page = CODES / (code + '.md')
    lines = page.read_text(encoding='utf-8').splitlines() if page.exists() else []
    return next((for_reader(line[len('Repair: '):]) for line in lines if line.startswith('Repair: ')), None)


@functools.lru_cache(maxsize=None)
def title(code):
    """Returns the title of the code's page without the code, or the code if there is no page."""
    page = CODES / (code + '.md')
    return page.read_text(encoding='utf-8').splitlines()[0].lstrip('# ').partition(': ')[2] if page.exists() else code


def heading(name, finding):
    return '%s:%d:%d: %s %s' % (visible_name(name), *finding[:4])


def note_heading(name, note):
    return '%s:%d:%d: note: %s' % (visible_name(name), *note)


def painted(colour, text, style):
    return colour + text + OFF if style.colours else text


def wrapped(front, text, style):
    """Returns a text in lines that fit, the first one after this front and the others indented as far."""
    if style.width is None:
        return [front + text]
    room = max(style.width - len(front), NARROWEST)
    lines = textwrap.wrap(text, room, break_on_hyphens=False) or ['']
    return [front + lines[0]] + [' ' * len(front) + line for line in lines[1:]]


def is_in(lines, it):
    """Returns whether the place of a finding or a note is in these lines."""
    return it.line <= len(lines) and it.column <= len(lines[it.line - 1]) + 1


def line_shown(gutter, lines, it, style):
    """Returns the line of a place as it is shown, and how far to the right the place is."""
    room = WINDOW if style.width is None else min(WINDOW, max(NARROWEST, (style.width - len(gutter) - 7) // 2))
    line, right = excerpt(lines[it.line - 1], it.column, room)
    return (painted(BLUE, str(it.line).rjust(len(gutter)) + ' |', style) + ' ' + line).rstrip(), right


def traced(gutter, lines, trace, style):
    """Returns the printed lines of a trace: each line of the text, a mark under each place, and the text of the note."""
    said, last = [], None
    bar = painted(BLUE, gutter + ' |', style)
    for it in trace:
        if not is_in(lines, it):
            said += wrapped(gutter + ' = note: ', '%d:%d %s' % it, style)
            last = None
            continue
        line, right = line_shown(gutter, lines, it, style)
        said += [line] if line != last else []
        last = line
        blank = ' ' * (len(gutter) + 3 + right)
        words = [words[len(blank) + 2:] for words in wrapped(blank + '- ', it.text, style)]
        said.append(bar + ' ' + ' ' * right + painted(BLUE, '- ' + words[0], style))
        said += [bar + ' ' + ' ' * (right + 2) + painted(BLUE, more, style) for more in words[1:]]
    return [bar] + said if said else []


def described(name, lines, finding, style=Style(None, False)):
    """Returns the printed lines of a finding."""
    gutter = ' ' * len(str(max(it.line for it in (finding, *finding.trace))))
    said = [painted(BOLD, heading(name, finding), style)]
    if is_in(lines, finding):
        bar = painted(BLUE, gutter + ' |', style)
        line, right = line_shown(gutter, lines, finding, style)
        said += [bar, line, bar + ' ' + ' ' * right + painted(RED, '^', style)]
    else:
        said.append(gutter + ' = note: %s has no such place now' % visible_name(name))
    said += traced(gutter, lines, finding.trace, style)
    if repair(finding.code):
        hint = for_reader('(tools/explain %s)' % finding.code)
        said += wrapped(gutter + ' = help: ', '%s %s' % (repair(finding.code), hint), style)
    return said + ['']


def text_of(name):
    """Returns the lines of a file without its byte order mark, which no column counts."""
    return lines_of(pathlib.Path(name).read_bytes())


def lines_of(data):
    return (data[len(MARK):] if data.startswith(MARK) else data).split(b'\n')


def characters(lines, it):
    """Returns the column of a finding or a note in characters instead of bytes, from 1."""
    line = lines[it.line - 1] if it.line <= len(lines) else b''
    return len(line[:it.column - 1].decode('utf-8', 'replace')) + 1


def as_plain(found):
    """Returns a line for each finding and for each note of its trace."""
    return [line for name, _, it in found for line in [heading(name, it)] + [note_heading(name, note) for note in it.trace]]


def as_json(found):
    """Returns one object a line, with a list of the notes if there is a trace. Columns count bytes, as in the program."""
    objects = [{'file': name, 'line': it.line, 'column': it.column, 'code': it.code, 'text': it.text,
                **({'trace': [note._asdict() for note in it.trace]} if it.trace else {})} for name, _, it in found]
    return [json.dumps(its) for its in objects]


def escaped(text, more=''):
    """Returns a text escaped for a workflow command."""
    for sign in '%\r\n' + more:
        text = text.replace(sign, '%%%02X' % ord(sign))
    return text


def as_github(found):
    """Returns GitHub workflow commands, which annotate the lines. The notes of a trace are further lines of the message."""
    said = []
    for name, lines, it in found:
        text = '\n'.join([it.text] + ['%d:%d %s' % note for note in it.trace])
        place = escaped(name, ':,'), it.line, characters(lines, it)
        said.append('::error file=%s,line=%d,col=%d,title=%s::%s' % (*place, it.code, escaped(text)))
    return said


def location(name, lines, it):
    """Returns a place as a SARIF location."""
    return {'physicalLocation': {'artifactLocation': {'uri': urllib.parse.quote(name, errors='surrogateescape')},
                                 'region': {'startLine': it.line, 'startColumn': characters(lines, it)}}}


def flow(name, lines, finding):
    """Returns a trace as the only code flow of a result: the notes, then the finding. Without a trace there is no flow."""
    steps = [{'location': {**location(name, lines, it), 'message': {'text': it.text}}} for it in (*finding.trace, finding)]
    return {'codeFlows': [{'threadFlows': [{'locations': steps}]}]} if finding.trace else {}


def as_sarif(found):
    """Returns a SARIF 2.1.0 log for code scanning. Columns count characters, and only LF ends a line."""
    codes = sorted({it.code for _, _, it in found})
    rules = [{'id': code, 'shortDescription': {'text': title(code)}, **({'help': {'text': repair(code)}} if repair(code) else {})}
             for code in codes]
    results = [{'ruleId': it.code, 'ruleIndex': codes.index(it.code), 'level': 'error', 'message': {'text': it.text},
                'locations': [location(name, lines, it)], **flow(name, lines, it)} for name, lines, it in found]
    return [json.dumps({'$schema': 'https://json.schemastore.org/sarif-2.1.0.json', 'version': '2.1.0', 'runs': [{
        'tool': {'driver': {'name': 'singcheck', 'rules': rules}}, 'columnKind': 'unicodeCodePoints', 'newlineSequences': ['\n'],
        'results': results}]})]


def formatted(kind, found):
    """Returns the lines of findings in a format. Each finding comes with the name of its file and the lines of its text."""
    return {'plain': as_plain, 'sarif': as_sarif, 'github': as_github, 'json': as_json}[kind](found)


def style_of(stream):
    """Returns the style for a stream: on a terminal its width, and colours unless the environment turns them off."""
    if not stream.isatty():
        return Style(None, False)
    return Style(shutil.get_terminal_size().columns, 'NO_COLOR' not in os.environ and os.environ.get('TERM') != 'dumb')


def built(asked=None):
    """Returns the program to run, or None if there is none: `asked` if it is given, else the proved one of this repository or prefix, else
    the one that is not proved. A repository without either uses `singcheck` on the PATH; installed tools use their own program only."""
    own = [TOP / 'out' / 'singcheck', UNPROVED]
    for path in [asked] if asked else own if IS_INSTALLED else [*own, 'singcheck']:
        found = shutil.which(str(path))
        if found:
            return found
    return None


def not_built():
    """Returns what to do if there is no program."""
    if IS_INSTALLED:
        return 'the program is not installed with this tool; ./build --install %s in the repository installs it' % TOP.parent.parent
    return 'the program is not built; ./build proves and builds it, ./build --unproved is quicker'


def say(tool, text):
    if sys.stderr:
        print('%s: %s' % (tool, text), file=sys.stderr)


def helped(text):
    """Prints the help of a tool and returns its exit status."""
    print(for_reader(text), end='')
    return 0


def failed(tool, text, status):
    say(tool, text)
    return status


def ended(tool, main):
    """Runs a tool and exits with its status, or with 3 if the output cannot be written. A closed pipe or an interrupt ends the tool by
    its signal, as is usual."""
    signal.signal(signal.SIGPIPE, signal.SIG_DFL)
    signal.signal(signal.SIGINT, signal.SIG_DFL)
    if not sys.stdout:
        sys.exit(failed(tool, 'cannot write', 3))
    for stream in filter(None, (sys.stdout, sys.stderr)):
        stream.reconfigure(encoding='utf-8', errors='surrogateescape')
    try:
        status = main(sys.argv[1:])
        sys.stdout.flush()
    except OSError as error:
        status = failed(tool, 'cannot write: %s' % error.strerror, 3)
        os.dup2(os.open(os.devnull, os.O_WRONLY), 1)  # so that Python does not try to write the rest at exit
    sys.exit(status)
