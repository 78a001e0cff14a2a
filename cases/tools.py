"""Tests the scripts of `tools` on reports and texts whose answers follow from their documentation, and on reports of the program."""
import os
import pathlib
import pty
import re
import subprocess
import tempfile

TOP = pathlib.Path(__file__).resolve().parent.parent
CODES = sorted(page.stem for page in (TOP / 'docs' / 'codes').glob('*.md'))
OK = b'ok: 0 contracts, 0 methods\n'
NOT_WHOLE = b'show: there is no whole report on standard input\n'


def run(tool, *words, report=b'', **more):
    return subprocess.run([TOP / 'tools' / tool, *words], input=report, capture_output=True, timeout=60, **more)


def differs(ran, stdout, stderr=b'', status=1):
    given, asked = (ran.stdout, ran.stderr, ran.returncode), (stdout, stderr, status)
    return [] if given == asked else ['expected %r, given %r' % (asked, given)]


def show(text, report, *words):
    """Runs `show` on a report of this text."""
    with tempfile.TemporaryDirectory() as folder:
        (pathlib.Path(folder) / 'a.sg').write_bytes(text)
        return run('show', *words, 'a.sg', report=report, cwd=folder)


def one(text, finding, line, caret):
    """Compares a finding without a page with the shown line, and the line with the caret below it."""
    place, rest = finding.split(' ', 1)
    number = place.split(':')[0]
    gutter = ' ' * len(number)
    asked = ['a.sg:%s: %s' % (place, rest), gutter + ' |', '%s | %s' % (number, line), '%s | %s' % (gutter, caret), '', 'findings: 1', '']
    return differs(show(text, (finding + '\nfindings: 1\n').encode()), '\n'.join(asked).encode())


def a_finding(_):
    text = b'rep struct D { int n; }\nclass K {\n  static void F() {\n    D* in ExHeap p;\n    delete p;\n  }\n}\n'
    help_line = next(line for line in (TOP / 'docs/codes/A01.md').read_text().splitlines() if line.startswith('Repair: '))[8:]
    asked = ('a.sg:5:12: A01 p not owned\n  |\n5 |     delete p;\n  |            ^\n'
             '  = help: %s (tools/explain A01)\n\nfindings: 1\n' % help_line)
    return differs(show(text, b'5:12 A01 p not owned\nfindings: 1\n'), asked.encode())


TRACED = b'4:1 Z99 here\n  2:3 p new\n  2:6 p sent as X on e\n  3:1 condition true\n  2:3 p new\n9:9 Z99 there\n  8:1 q new\nfindings: 2\n'


def a_trace(_):
    """The trace is below its finding, in the order of the path, each place with a dash and its words. A line is not shown twice in a row. A
    place that is not in the text has no line of the text."""
    text = b'class K {\n  p e;\nwhile\nend\n'
    asked = ('a.sg:4:1: Z99 here\n  |\n4 | end\n  | ^\n  |\n2 |   p e;\n  |   - p new\n  |      - p sent as X on e\n'
             '3 | while\n  | - condition true\n2 |   p e;\n  |   - p new\n\n'
             'a.sg:9:9: Z99 there\n  = note: a.sg has no such place now\n  |\n  = note: 8:1 q new\n\nfindings: 2\n')
    plain = ('a.sg:4:1: Z99 here\na.sg:2:3: note: p new\na.sg:2:6: note: p sent as X on e\na.sg:3:1: note: condition true\n'
             'a.sg:2:3: note: p new\na.sg:9:9: Z99 there\na.sg:8:1: note: q new\n')
    return differs(show(text, TRACED), asked.encode()) + differs(show(text, TRACED, '--plain'), plain.encode())


def a_trace_of_longer_numbers(_):
    """The line numbers of a finding and of its trace are aligned."""
    text = b'\n' * 8 + b'p\n' + b'q\n'
    asked = b'a.sg:9:1: Z99 here\n   |\n 9 | p\n   | ^\n   |\n10 | q\n   | - q new\n\nfindings: 1\n'
    return differs(show(text, b'9:1 Z99 here\n  10:1 q new\nfindings: 1\n'), asked)


def two_findings_plain(_):
    asked = b'a.sg:1:2: Z99 one\na.sg:10:3: Z99 two words\n'
    return differs(show(b'', b'1:2 Z99 one\n10:3 Z99 two words\nfindings: 2\n', '--plain'), asked)


def plain_needs_no_text(_):
    return differs(run('show', '--plain', 'nowhere.sg', report=b'1:2 Z99 one\nfindings: 1\n'), b'nowhere.sg:1:2: Z99 one\n')


def tabs(_):
    return one(b'\n\t\tdelete p;\n', '2:10 Z99 here', '        delete p;', ' ' * 15 + '^')


def columns_count_bytes(_):
    # The letter takes two bytes and one column of a terminal, and the character after it three bytes and two columns.
    return one('/* ä界 */ p'.encode(), '1:13 Z99 here', '/* ä界 */ p', ' ' * 10 + '^')


def carriage_return(_):
    return one(b'class K {\r\n}\r\n', '1:9 Z99 here', 'class K {', ' ' * 8 + '^')


def byte_order_mark(_):
    return one(b'\xef\xbb\xbf# class', '1:1 Z99 here', '# class', '^')


def end_of_the_text(_):
    asked = b'a.sg:2:1: Z99 end\n  |\n2 |\n  | ^\n\nfindings: 1\n'
    return differs(show(b'contract C {\n', b'2:1 Z99 end\nfindings: 1\n'), asked)


def end_of_a_line(_):
    return one(b'class K {', '1:10 Z99 here', 'class K {', ' ' * 9 + '^')


def what_a_terminal_obeys(_):
    # An escape, a byte that is not UTF-8, and a character that reverses the direction of the line.
    return one(b'//\x1b[2J\xff\xe2\x80\xaex', '1:11 Z99 here', '//␛[2J��x', ' ' * 8 + '^')


def long_line(_):
    # Sixty bytes before the place, and sixty from there on.
    return one(b'a' * 500 + b'#' + b'b' * 500, '1:501 Z99 here', '..' + 'a' * 60 + '#' + 'b' * 59 + '..', ' ' * 62 + '^')


def long_line_cut_at_letters(_):
    # The sixty bytes before the place begin inside a letter of two bytes, and those after it end inside one. Such letters are left out.
    line = ('ä' * 100 + 'x#' + 'ä' * 100).encode()
    return one(line, '1:202 Z99 here', '..' + 'ä' * 30 + 'x#' + 'ä' * 29 + '..', ' ' * 33 + '^')


def no_such_place(_):
    asked = b'a.sg:9:1: Z99 here\n  = note: a.sg has no such place now\n\nfindings: 1\n'
    return differs(show(b'class K { }\n', b'9:1 Z99 here\nfindings: 1\n'), asked)


def nothing_found(_):
    return differs(show(b'', OK), OK, status=0) + differs(show(b'', OK, '--plain'), b'', status=0)


def bounds(_):
    report = b'Ping: to Exp 1, to Imp 1\nok: 1 contracts\n'
    return differs(show(b'', report), report, status=0)


def report_not_whole(_):
    cut = [b'', b'\n', b'1:1 Z99 here\n', b'1:1 Z99 here\nfindings: 2\n', b'1:1 Z99 here\nfindings: 1', b'1:1 Z99 here\nok: 0 contracts\n',
           b'findings: 1\n', b'Ping: to Exp 1, to Imp 1\n', b'1:1 Z99 here\n  1:1 p new\n', b'  1:1 p new\nfindings: 1\n']
    return [found for report in cut for found in differs(show(b'', report), b'', NOT_WHOLE, 3)]


def run_of_a_schedule(program):
    """What `replay`, `run` and `explore` print of a run is not a report, whole or not. The report that is printed in place of one is."""
    words = [program, 'replay', 'examples/hand_over.sg', 'Desk.Main', 'examples/hand_over.schedule']
    printed = subprocess.run(words, cwd=TOP, capture_output=True, timeout=60).stdout
    refused = b'show: this is a run, printed by replay, run or explore; give a report of check, why or bounds\n'
    runs = [printed, b'steps 0\nstop: fault F1 at 1:1 in process 0\nprocess 0 at 1:1, frames 1\n', b'steps 12\nstop: ',
            b'P0 1:2 ended\nsteps 1\nstop: end of schedule\n', b'P0 1:2 starts P1: A.B\nP1 2:3 ended\nend: deadlock, after 2 events\n',
            b'end: still running, after 0 events\n', b'no deadlock in all 4 worlds\n', b'no deadlock within 2 worlds\n']
    found = [found for report in runs for words in ([], ['--plain']) for found in differs(show(b'', report, *words), b'', refused, 3)]
    words = [program, 'replay', 'input.sg', 'K.Main', '/dev/null']
    report = subprocess.run(words, cwd=TOP / 'cases/text/trailing_comma', capture_output=True, timeout=60).stdout
    return found + differs(show(b'', report, '--plain'), b'a.sg:1:33: S05 unexpected token\n')


def text_not_there(_):
    return differs(run('show', 'nowhere.sg', report=OK), b'', b'show: cannot read nowhere.sg: No such file or directory\n', 3)


def show_says_what_it_waits_for(_):
    """If standard input is a terminal, `show` says what it waits for, and then reads the report."""
    ours, its = pty.openpty()
    with tempfile.TemporaryFile() as said:
        show = subprocess.Popen([TOP / 'tools' / 'show', '--plain', 'a.sg'], stdin=its, stdout=subprocess.PIPE, stderr=said)
        os.close(its)
        os.write(ours, b'1:2 Z99 one\nfindings: 1\n\x04')
        stdout = show.communicate(timeout=60)[0]
        os.close(ours)
        said.seek(0)
        given = stdout, said.read(), show.returncode
    asked = (b'a.sg:1:2: Z99 one\n', b'show: waits for a report on standard input; it usually comes from a pipe: '
             b'singcheck why FILE | tools/show FILE\n', 1)
    return [] if given == asked else ['expected %r, given %r' % (asked, given)]


def words_of_show(_):
    refused = b'show: give one FILE; see tools/show --help\n'
    return [found for words in ([], ['a', 'b'], ['--plian', 'a'], ['--plian']) for found in differs(run('show', *words), b'', refused, 2)]


def each_page_is_printed(_):
    return [found for code in CODES
            for found in differs(run('explain', code.lower()), (TOP / 'docs/codes' / (code + '.md')).read_bytes(), status=0)]


def words_of_explain(_):
    refused = ('explain: give one of these codes: %s\n' % ' '.join(CODES)).encode()
    return [found for words in ([], ['A99'], ['A01', 'A02'], ['../README']) for found in differs(run('explain', *words), b'', refused, 2)]


def each_code_has_a_page_with_one_repair(_):
    source = (TOP / 'crates/source/src/finding.rt').read_text()
    body = re.search(r'pub enum Code \{(.*?)\}', source, re.S)[1]
    codes = sorted(re.findall(r'[A-Z]\d\d', body))
    found = [] if codes == CODES else ['codes %s, pages %s' % (codes, CODES)]
    for code in CODES:
        repairs = re.findall(r'^Repair: .{1,125}$', (TOP / 'docs/codes' / (code + '.md')).read_text(), re.M)
        found += [] if len(repairs) == 1 else ['%s has %d lines with a repair' % (code, len(repairs))]
    return found


def program_in_front(program):
    example = 'examples/note.sg'
    report = subprocess.run([program, 'check', example], cwd=TOP, capture_output=True, timeout=60).stdout
    found = differs(run('show', '--plain', example, report=report, cwd=TOP), b'examples/note.sg:7:5: A01 note not owned\n')
    report = subprocess.run([program, 'why', example], cwd=TOP, capture_output=True, timeout=60).stdout
    asked = (b'examples/note.sg:7:5: A01 note not owned\nexamples/note.sg:5:21: note: note new\n'
             b'examples/note.sg:6:12: note: note deleted\n')
    return found + differs(run('show', '--plain', example, report=report, cwd=TOP), asked)


TESTS = [('tools/' + test.__name__, test) for test in
         (a_finding, a_trace, a_trace_of_longer_numbers, two_findings_plain, plain_needs_no_text, tabs, columns_count_bytes,
          carriage_return, byte_order_mark, end_of_the_text, end_of_a_line, what_a_terminal_obeys, long_line, long_line_cut_at_letters,
          no_such_place, nothing_found, bounds, report_not_whole, run_of_a_schedule, text_not_there,
          show_says_what_it_waits_for, words_of_show, each_page_is_printed,
          words_of_explain, each_code_has_a_page_with_one_repair, program_in_front)]
