"""Programs as trees of contracts, methods and statements, and their texts."""
import collections

Message = collections.namedtuple('Message', 'name sends types')
Contract = collections.namedtuple('Contract', 'name messages states senders')
Method = collections.namedtuple('Method', 'name parameters result scalar')
End = collections.namedtuple('End', 'contract side state')
Block = collections.namedtuple('Block', 'name')
# `fields` has the kinds of the owning fields f0, f1, ..; each struct also has a number n.
Struct = collections.namedtuple('Struct', 'name fields')

# A simple statement has its instructions and the variables of the exchange heap that it declares. The others contain statements.
Say = collections.namedtuple('Say', 'text instructions declares')
If = collections.namedtuple('If', 'condition first other')
While = collections.namedtuple('While', 'condition body')
Switch = collections.namedtuple('Switch', 'cases')
Case = collections.namedtuple('Case', 'endpoint message name bound body')
# `fixed` is the number of the only branch that a condition takes, or None.
Condition = collections.namedtuple('Condition', 'text reads fixed')

SIDES = ('Imp', 'Exp')
BLOCKS = [Block('Page* in ExHeap'), Block('Note* in ExHeap'), Block('byte[] in ExHeap'), Block('int[] in ExHeap')]
STRUCTS = 'rep struct Page { int n; bool b; }\nrep struct Note { byte n; int m; }'


class Body(list):
    """The statements of a block; `break` and `continue` are plain words. `left` is set if its end cannot be reached."""
    left = False


def other(side):
    return SIDES[1 - SIDES.index(side)]


def written(kind, contracts, with_state):
    """Returns a type as the text has it; a scalar is None."""
    if kind in (None, 'int'):
        return 'int'
    if isinstance(kind, Block):
        return kind.name
    state = ':S%d' % kind.state if with_state and kind.state else ''
    return '%s.%s%s' % (contracts[kind.contract].name, kind.side, state)


def struct_of(kind):
    """Returns the name of the struct of a block, or None for an array."""
    return kind.name.split('*')[0] if '*' in kind.name else None


def struct_text(struct, contracts):
    fields = ''.join(' %s f%d;' % (written(kind, contracts, True), number) for number, kind in enumerate(struct.fields))
    return 'rep struct %s { int n;%s }' % (struct.name, fields)


def contract_text(each, contracts):
    lines = ['contract %s {' % each.name]
    for message in each.messages:
        kinds = ', '.join('%s x%d' % (written(kind, contracts, True), k) for k, kind in enumerate(message.types))
        lines.append('  %s message %s(%s);' % ('in' if message.sends == 'Imp' else 'out', message.name, kinds))
    for number, edges in enumerate(each.states):
        sign = '?' if each.senders[number] == 'Imp' else '!'
        paths = ' '.join('%s%s -> S%d;' % (each.messages[m].name, sign, to) for m, to in edges.items())
        lines.append('  state S%d: %s' % (number, 'one { %s }' % paths if edges else ';'))
    return lines + ['}']


def cases_text(switch, blanks):
    lines = []
    for case in switch.cases:
        bound = ', '.join(name for name, _ in case.bound)
        lines += ['%scase %s.%s(%s):' % (blanks, case.endpoint, case.name, bound)] + body_text(case.body, blanks + '  ')
    return lines


def statement_text(statement, blanks):
    more = blanks + '  '
    if isinstance(statement, Say):
        return [blanks + statement.text]
    if isinstance(statement, str):
        return ['%s%s;' % (blanks, statement)]
    if isinstance(statement, Body):
        return [blanks + '{'] + body_text(statement, more) + [blanks + '}']
    if isinstance(statement, Switch):
        return [blanks + 'switch receive {'] + cases_text(statement, more) + [blanks + '}']
    if isinstance(statement, While):
        return ['%swhile (%s) {' % (blanks, statement.condition.text)] + body_text(statement.body, more) + [blanks + '}']
    lines = ['%sif (%s) {' % (blanks, statement.condition.text)] + body_text(statement.first, more)
    if statement.other is not None:
        lines += [blanks + '} else {'] + body_text(statement.other, more)
    return lines + [blanks + '}']


def body_text(body, blanks):
    return [line for statement in body for line in statement_text(statement, blanks)]


def method_text(method, body, contracts):
    parameters = ['int n'] if method.scalar else []
    for name, kind, claimed in method.parameters:
        parameters.append('%s%s %s' % ('[Claims] ' if claimed else '', written(kind, contracts, True), name))
    result = written(method.result, contracts, True) if method.result else 'void'
    lines = ['  static %s %s(%s) {' % (result, method.name, ', '.join(parameters))]
    if not method.scalar:
        lines.append('    int n = 0;')
    return lines + body_text(body, '    ') + ['  }']


def program_text(program):
    lines = [STRUCTS] + [struct_text(struct, program.contracts) for struct in program.structs]
    for each in program.contracts:
        lines += contract_text(each, program.contracts)
    lines.append('class K {')
    for method in program.methods:
        lines += method_text(method, program.bodies[method.name], program.contracts)
    return '\n'.join(lines + ['}', ''])
