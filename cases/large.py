"""Makes cases with large inputs: at the limits of a text, of the states, methods and variables of a program, of a schedule, and of nested
brackets."""
from schedules import FORM

TEXT = 4194304
NOTHING = b'ok: 0 contracts\n'
HEAD = b'contract B { out message A(); in message Z(); state S: '
TAIL = b'T; state T: Z? -> S; }'
# The column of the name of the 500,001st state, one past the limit: T, after the chain.
PAST_STATES = len(HEAD) + 4 * 500000 + len(b'T; state ') + 1


def chain(states):
    """Returns a contract with this number of states, all but two of them unnamed, and a walk of sends from the first to the last."""
    return HEAD + b'A!->' * (states - 1) + TAIL


def methods(count):
    """Returns a class with this number of methods."""
    return b'class K {\n' + b''.join(b'static void M%d() { }\n' % k for k in range(count)) + b'}\n'


def variables(count):
    """Returns a method with this number of variables of the exchange heap."""
    declared = b''.join(b'D* in ExHeap v%d;\n' % k for k in range(count))
    return b'rep struct D { int n; }\nclass K { static void F() {\n' + declared + b'} }\n'


def uses(count):
    """Returns a method that uses its parameter `count` times, with a point for each use and one for the Return."""
    return b'rep struct D { int n; }\nclass K {\nstatic void F(D* in ExHeap p) { int k;\n' + b'k=p.n;' * count + b'\n} }\n'


def maybe_freed(count):
    """Returns a method that frees each of n blocks on one branch of an `if`. It has 4 * 2^n - 3 pairs, including those at the end."""
    declared = b''.join(b'D* in ExHeap p%d = new[ExHeap] D(); if (b) { delete p%d; }\n' % (k, k) for k in range(1, count + 1))
    return b'rep struct D { int n; }\nclass K {\nstatic void F(bool b) {\n' + declared + b'}\n}\n'


def kept(*numbers):
    """Returns the findings of such a method about these blocks."""
    return b''.join(b'16:1 A08 p%d still owned\n' % k for k in numbers)


def kept_behind(count):
    """Returns a method that keeps its block after `count` conditions, each on its own line. On the shortest path none is true."""
    head = b'rep struct D { int n; }\nclass K {\nstatic void F([Claims] D* in ExHeap p, bool b) { int k;\n'
    return head + b'if (b) { k = p.n; }\n' * count + b'} }\n'


def why_kept_behind(count):
    """Returns what `why` prints for it."""
    choices = b''.join(b'  %d:1 condition false\n' % (4 + k) for k in range(count))
    return b'%d:1 A08 p still owned\n  3:13 p has a block\n' % (4 + count) + choices + b'findings: 1\n'


def within(statement):
    """Returns a method with this statement, inside two open brackets."""
    return b'class K { static void F(bool b, int[] in ExHeap a) { ' + statement + b' } }\n'


def explained():
    """Returns methods at the limit of pairs, and long traces: (name, text, stdout, status)."""
    return [
        ('pairs_20000_explained', uses(19999), b'ok: 0 contracts, 1 methods\n', 0),
        ('pairs_20001_explained', uses(20000), b'3:13 A14 too many pairs\n  3:13 more than 20000 pairs are reached\nfindings: 1\n', 1),
        # A path of 19,999 steps. Its trace has only what the method begins with.
        ('steps_19999_explained', uses(19999).replace(b'F(D*', b'F([Claims] D*'),
         b'5:1 A08 p still owned\n  3:13 p has a block\nfindings: 1\n', 1),
        ('lines_9999_explained', kept_behind(9998), why_kept_behind(9998), 1),
        ('limit_of_bytes', b' ' * (TEXT + 1), b'1:1 S03 text too long\n  1:1 a text may have at most 4194304 bytes\nfindings: 1\n', 1),
        ('limit_of_states', chain(500001), b'1:%d N06 limit passed\n  1:%d a program may have at most 500000 states\nfindings: 1\n'
         % (PAST_STATES, PAST_STATES), 1),
        ('limit_of_methods', methods(4097),
         b'4098:13 N06 limit passed\n  4098:13 a program may have at most 4096 methods\nfindings: 1\n', 1),
        ('limit_of_variables', variables(1001),
         b'1003:14 N06 limit passed\n  1003:14 a method may have at most 1000 variables of the exchange heap\nfindings: 1\n', 1),
    ]


def schedules():
    """Returns schedules at the limit of bytes: (name, bytes, stdout, stderr, status). An event has four bytes and is a round of a loop."""
    rounds = b'0 0\n' * 262143
    steps = b'steps %d\nstop: end of schedule\nprocess 0 at 1:32, frames 1\n'
    refused = b'singcheck: schedule line %d\n' + FORM
    return [
        ('schedule_1048576', rounds + b'0 0\n', steps % 262144, b'', 0),
        ('schedule_1048576_without_an_end', rounds + b'0  0', steps % 262144, b'', 0),
        ('schedule_1048577', rounds + b'0 0\n0', b'', refused % 262145, 2),
        ('schedule_1048577_of_whole_lines', rounds + b'0 0\n\n', b'', refused % 262145, 2),
        # The end of a line belongs to that line, even if it is the first byte past the limit.
        ('schedule_1048577_at_an_end', rounds + b'0  0\n', b'', refused % 262144, 2),
        ('schedule_of_malformed_lines_alone', b'x\n' * 524288, b'', refused % 1, 2),
        ('schedule_1048577_after_a_malformed_line', b'x\n' + rounds + b'0 0\n', b'', refused % 1, 2),
    ]


def cases(folder):
    """Writes the inputs to this folder, and returns the cases: (name, folder, arguments, stdout, stderr, status)."""
    passed = b'1:%d N06 limit passed\nfindings: 1\n' % PAST_STATES
    inputs = [
        ('states_500000', chain(500000), b'B: to Exp 1, to Imp 499999\nok: 1 contracts\n', 0),
        ('states_500001', chain(500001), passed, 1),
        ('blanks_4194304', b' ' * TEXT, b'ok: 0 contracts\n', 0),
        ('blanks_4194305', b' ' * (TEXT + 1), b'1:1 S03 text too long\nfindings: 1\n', 1),
        ('methods_4096', methods(4096), NOTHING, 0),
        ('methods_4097', methods(4097), b'4098:13 N06 limit passed\nfindings: 1\n', 1),
        ('variables_1000', variables(1000), NOTHING, 0),
        ('variables_1001', variables(1001), b'1003:14 N06 limit passed\nfindings: 1\n', 1),
        ('parentheses_100', within(b'int k = ' + b'(' * 98 + b'1' + b')' * 98 + b';'), NOTHING, 0),
        ('indices_100', within(b'int k = ' + b'a[' * 98 + b'0' + b']' * 98 + b';'), NOTHING, 0),
        ('blocks_100', within(b'{' * 98 + b'}' * 98), NOTHING, 0),
        ('ifs_100', within(b'if (b) {' * 98 + b'}' * 98), NOTHING, 0),
        ('whiles_100', within(b'while (b) {' * 98 + b'}' * 98), NOTHING, 0),
    ]
    checked = [
        ('pairs_20000', uses(19999), b'ok: 0 contracts, 1 methods\n', 0),
        ('pairs_20001', uses(20000), b'3:13 A14 too many pairs\nfindings: 1\n', 1),
        # Twelve blocks have 16,381 pairs, and thirteen 32,765. The texts of findings are sorted by bytes.
        ('blocks_12_maybe_freed', maybe_freed(12), kept(1, 10, 11, 12, 2, 3, 4, 5, 6, 7, 8, 9) + b'findings: 12\n', 1),
        ('blocks_13_maybe_freed', maybe_freed(13), b'3:13 A14 too many pairs\nfindings: 1\n', 1),
        # Each method has as many pairs as allowed.
        ('pairs_40000_in_two_methods', uses(19999) + uses(19999).replace(b'rep struct D', b'rep struct E').replace(b'class K', b'class L'),
         b'ok: 0 contracts, 2 methods\n', 0),
        ('methods_4096_checked', methods(4096), b'ok: 0 contracts, 4096 methods\n', 0),
        ('variables_1000_checked', variables(1000), b'ok: 0 contracts, 1 methods\n', 0),
    ]
    made = []
    for command, given in (('bounds', inputs), ('check', checked), ('why', explained())):
        for name, text, stdout, status in given:
            (folder / name).write_bytes(text)
            made.append(('large/' + name, folder, [command, name], stdout, b'', status))
    (folder / 'loop.sg').write_bytes(b'class K { static void Main() { while (true) { } } }\n')
    for name, schedule, stdout, stderr, status in schedules():
        (folder / name).write_bytes(schedule)
        made.append(('large/' + name, folder, ['replay', 'loop.sg', 'K.Main', name], stdout, stderr, status))
    return made
