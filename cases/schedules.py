"""Tests schedules with a malformed line, and entries that no run can begin with: each is refused with a line of its own and status 2. After
the line there is the form of a schedule, or why no run begins with the method, if there is one, and which entries there are."""
import pathlib

TEXT = pathlib.Path(__file__).resolve().parent / 'replays' / 'server_waits' / 'input.sg'

# Each schedule with the number of its first malformed line. Empty lines and comments count.
MALFORMED = {
    'letters': (b'a b\n', 1),
    'one_number': (b'0 0\n\n0', 3),
    'three_numbers': (b'0 0\n0 0 0\n', 2),
    'choice_too_large': (b'0 4294967296', 1),
    'process_too_large': (b'0 0\n4294967296 0\n', 2),
    'many_digits': (b'0 99999999999999999999999999\n', 1),
    'minus_sign': (b'0 0\n-1 0\n', 2),
    'plus_sign': (b'0 +0\n', 1),
    'hexadecimal': (b'0 0x0\n', 1),
    'comma': (b'0,0\n', 1),
    'tab': (b'0\t0\n', 1),
    'space_in_front': (b' 0 0', 1),
    'space_at_the_end': (b'0 0 ', 1),
    'line_of_spaces': (b'0 0\n  \n0 0\n', 2),
    'return_within_a_line': (b'0 0\n0\r 0\n', 2),
    'return_at_the_end_of_the_file': (b'0 0\n0 0\r', 2),
    'return_alone_at_the_end_of_the_file': (b'0 0\n\r', 2),
    'two_returns': (b'0 0\r\r\n', 1),
    'third_number_before_a_comment': (b'# a server and a client\n0 0\n\n0 0 0 # three numbers\n', 4),
    'one_number_before_a_comment': (b'0 0 # the channel\n0 # 0\n', 2),
    'space_in_front_before_a_comment': (b' 0 0 # the channel\n', 1),
    'tab_before_a_comment': (b'0 0\t# the channel\n', 1),
    'return_before_a_comment': (b'0 0\r# the channel\n', 1),
    'space_at_the_end_after_a_comment': (b'# the channel\n0 0 \n', 2),
    'comment_of_two_slashes': (b'0 0 // the channel\n', 1),
    'byte_order_mark': (b'\xef\xbb\xbf0 0\n', 1),
    'byte_zero': (b'0 0\n0 0\x00\n', 2),
    'two_malformed_lines': (b'0 0\n0 y\n\n0 0 0\nz\n', 2),
    'malformed_after_an_event_of_no_process': (b'9 9\n0 0\nx\n', 3),
}

# What follows the line of a malformed schedule.
FORM = (b'a line is PROCESS CHOICE: two numbers up to 4294967295, with spaces between them; # begins a comment; '
        b'at most 1048576 bytes in all\n')
HEADS = b'''rep struct D { int n; }
class K {
  static void Main() { }
  static int Number() { return 1; }
  static D* in ExHeap Block() { D* in ExHeap p = new[ExHeap] D(); return p; }
  static void Lent(D* in ExHeap p) { }
  static void Claimed([Claims] D* in ExHeap p) { delete p; }
  static void Scalar(int n) { }
}
class Other { static void Side() { } }
'''
ENTRIES = ['K.None', 'K.Number', 'K.Block', 'K.Lent', 'K.Claimed', 'K.Scalar', 'Main', 'Side', 'K.Side', 'Other.Main', 'k.main',
           'K.Main.Main', 'K.Main ', ' K.Main', 'K .Main', 'K.', '.Main', '.', 'K', 'D', '']
METHODS = ('K.Number', 'K.Block', 'K.Lent', 'K.Claimed', 'K.Scalar')  # those of `ENTRIES` that are methods


def cases(folder):
    """Writes the inputs to this folder, and returns the cases: (name, folder, arguments, stdout, stderr, status)."""
    (folder / 'server.sg').write_bytes(TEXT.read_bytes())
    (folder / 'heads.sg').write_bytes(HEADS)
    (folder / 'malformed').write_bytes(b'x\n')
    made = []
    for name, (schedule, line) in MALFORMED.items():
        (folder / name).write_bytes(schedule)
        refused = b'singcheck: schedule line %d\n' % line + FORM
        made.append(('schedules/' + name, folder, ['replay', 'server.sg', 'K.Main', name], b'', refused, 2))
    for entry in ENTRIES:
        why = entry + ' has parameters or a result, so no run begins with it\n' if entry in METHODS else ''
        refused = ('singcheck: no entry %s\n%sentry: K.Main\nentry: Other.Side\n' % (entry, why)).encode()
        made.append(("schedules/entry '%s'" % entry, folder, ['replay', 'heads.sg', entry, 'malformed'], b'', refused, 2))
    return made
