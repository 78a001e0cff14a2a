"""Reads texts whose only findings may be those in methods. The statements of a method have their instructions."""
import collections
import re
from types import SimpleNamespace

TOKEN = re.compile(r'\s+|//[^\n]*|/\*.*?\*/|([A-Za-z_]\w*|\d+|==|!=|<=|>=|&&|\|\||->|.)', re.S | re.A)
SCALARS = ('int', 'bool', 'byte')
ACCESS = ('public', 'private', 'internal')
MARK = b'\xef\xbb\xbf'

Token = collections.namedtuple('Token', 'word place')
# A kind: an endpoint with its written state or None, a block with its struct or None for an array, or None for a scalar.
End = collections.namedtuple('End', 'contract side state')
Block = collections.namedtuple('Block', 'struct')
Variable = collections.namedtuple('Variable', 'name kind role')
Given = collections.namedtuple('Given', 'number variable place')
Case = collections.namedtuple('Case', 'endpoint place message bound body')


def tokens_of(data):
    text = data[len(MARK) * data.startswith(MARK):].decode('latin-1')
    found, line, begun = [], 1, 0
    for match in TOKEN.finditer(text):
        if match[1]:
            found.append(Token(match[1], (line, match.start() - begun + 1)))
        elif '\n' in match[0]:
            line, begun = line + match[0].count('\n'), match.start() + match[0].rindex('\n') + 1
    return found


def instruction(word, place, **more):
    return SimpleNamespace(word=word, place=place, next=None, **more)


class Reader:
    """A position in a list of tokens."""

    def __init__(self, tokens, at=0):
        self.tokens, self.at = tokens, at

    def word(self, more=0):
        at = self.at + more
        return self.tokens[at].word if at < len(self.tokens) else ''

    def take(self, expected=None):
        token = self.tokens[self.at]
        assert expected in (None, token.word), (expected, token)
        self.at += 1
        return token

    def has(self, word):
        """Takes the word if it is next, and returns whether it was."""
        there = self.word() == word
        self.at += there
        return there

    def kind(self):
        first = self.take().word
        if self.has('['):
            self.take(']')
            made = Block(None)
        elif self.has('*'):
            made = Block(first)
        elif self.has('.'):
            side = self.take().word
            made = End(first, side, self.take().word if self.has(':') else None)
        else:
            return None
        self.has('!')
        if self.has('in'):
            self.take('ExHeap')
        return made

    def listed(self, end, read):
        """Reads items with commas between them, up to an end."""
        found = []
        while not self.has(end):
            found.append(read())
            self.has(',')
        return found


class Text(Reader):
    """The items of a text. Bodies are read later, once all items are known."""

    def __init__(self, data):
        super().__init__(tokens_of(data))
        self.contracts, self.structs, self.methods = {}, {}, {}
        while self.at < len(self.tokens):
            self.access()
            {'contract': self.contract, 'rep': self.struct, 'class': self.group}[self.take().word]()

    def access(self):
        if self.word() in ACCESS:
            self.take()

    def contract(self):
        made = SimpleNamespace(messages={}, names=[], edges=[])
        self.contracts[self.take().word], numbers, paths = made, {}, []
        self.take('{')
        while not self.has('}'):
            if self.take().word == 'state':
                numbers[self.word()] = len(made.names)
                made.names.append(self.take().word)
                paths += [(len(made.names) - 1, path) for path in self.paths()]
            else:
                self.take('message')
                name = self.take().word
                self.take('(')
                made.messages[name] = self.listed(')', self.named_kind)
                self.take(';')
        made.edges = [[] for _ in made.names]
        for start, (edges, end) in paths:
            for message, sign in edges[:-1]:
                made.edges[start].append((message, sign, len(made.names)))
                start = len(made.names)
                made.edges.append([])
                made.names.append(None)
            made.edges[start].append((*edges[-1], numbers[end]))
        # An unnamed state is printed as the message of its edge.
        made.names = [name or '(%s)' % out[0][0] for name, out in zip(made.names, made.edges)]
        made.numbers = numbers

    def named_kind(self):
        kind = self.kind()
        self.take()
        return kind

    def paths(self):
        self.take(':')
        if self.has(';'):
            return []
        if not self.has('one'):
            return [self.path()]
        self.take('{')
        found = []
        while not self.has('}'):
            found.append(self.path())
        self.has(';')
        return found

    def path(self):
        edges = []
        while self.word(1) in ('!', '?'):
            edges.append((self.take().word, self.take().word))
            self.take('->')
        end = self.take().word
        self.take(';')
        return edges, end

    def struct(self):
        self.take('struct')
        fields = self.structs[self.take().word] = {}
        self.take('{')
        while not self.has('}'):
            self.access()
            kind = self.kind()
            name = self.take().word
            if kind:
                fields[name] = kind
            self.take(';')

    def group(self):
        name = self.take().word
        self.take('{')
        while not self.has('}'):
            self.access()
            self.take('static')
            result = None if self.word() == 'void' and self.take() else (self.kind(),)
            token = self.take()
            self.take('(')
            parameters = self.listed(')', self.parameter)
            made = SimpleNamespace(group=name, place=token.place, result=result, parameters=parameters, at=self.at)
            self.methods[name, token.word] = made
            self.skipped()

    def parameter(self):
        claims = self.has('[')
        if claims:
            self.take('Claims')
            self.take(']')
        kind = self.kind()
        return Variable(self.take().word, kind, 'claimed' if claims else 'lent')

    def skipped(self):
        deep = 0
        while True:
            deep += {'{': 1, '}': -1}.get(self.take().word, 0)
            if not deep:
                return


class Body(Reader):
    """The statements of a method, and its variables of the exchange heap, numbered in order of declaration."""

    def __init__(self, text, method):
        super().__init__(text.tokens, method.at)
        self.text, self.method, self.variables = text, method, []
        self.scopes, self.marks = [{}], []
        for parameter in method.parameters:
            self.declare(parameter.name, parameter.kind, parameter.role)
        self.take('{')
        self.statements = self.several(('}',))
        place = self.take('}').place
        end = instruction('stop', place) if method.result else instruction('return', place, value=None, scope=self.owned())
        self.statements.append(('chain', [end]))

    def declare(self, name, kind, role='local'):
        """Declares a variable and returns its number, or None for a scalar."""
        number = None
        if kind:
            number = len(self.variables)
            self.variables.append(Variable(name, kind, role))
        self.scopes[-1][name] = number
        return number

    def number(self, name):
        return next((scope[name] for scope in reversed(self.scopes) if name in scope), None)

    def is_variable(self, name):
        return any(name in scope for scope in self.scopes)

    def owned(self, level=0):
        """Returns the variables of the exchange heap that are declared in scopes from `level` on."""
        return [number for scope in self.scopes[level:] for number in scope.values() if number is not None]

    def forget(self, level, place):
        gone = self.owned(level)
        return [instruction('forget', place, gone=gone)] if gone else []

    def several(self, ends):
        found = []
        while self.word() not in ends:
            found.append(self.statement())
        return found

    def block(self):
        self.take('{')
        self.scopes.append({})
        found = self.several(('}',))
        found.append(('chain', self.forget(-1, self.take('}').place)))
        self.scopes.pop()
        return found

    def statement(self):
        word = self.word()
        if word == '{':
            return 'block', self.block()
        known = {'if': self.branch, 'while': self.loop, 'switch': self.switch, 'break': self.leave, 'continue': self.leave}
        if word in known:
            return known[word]()
        known = {'start': self.start, 'delete': self.delete, 'exchange': self.exchange, 'return': self.give}
        found = known[word]() if word in known else self.other()
        self.take(';')
        return 'chain', found

    def other(self):
        """Reads a declaration, a call, a send, a new channel or an assignment. The words after the first name decide which."""
        if self.word() in SCALARS or self.word(1) == '*' or self.word(1) == '.' and self.word(2) in ('Imp', 'Exp'):
            return self.declaration()
        if self.word(1) == '.' and self.word(2) == 'NewChannel':
            return self.channel()
        return self.call() if self.is_call() else self.assignment()

    def is_call(self):
        return self.word(1) == '(' or self.word(1) == '.' and self.word(3) == '('

    # Only the reads of an expression count. It ends at a comma, a semicolon or a closing bracket that is not its own.

    def expression(self):
        begun, deep = self.at, 0
        while deep or self.word() not in (',', ';', ')', ']'):
            deep += {'(': 1, '[': 1, ')': -1, ']': -1}.get(self.take().word, 0)
        return self.tokens[begun:self.at]

    def reads(self, tokens):
        found = []
        for number, (word, place) in enumerate(tokens):
            behind = tokens[number + 1].word if number + 1 < len(tokens) else ''
            after_dot = number and tokens[number - 1].word == '.'
            if behind in ('.', '[') and not after_dot:
                found.append(instruction('use', place, variable=self.number(word)))
        return found

    def is_given(self, tokens):
        return len(tokens) == 1 and self.number(tokens[0].word) is not None

    def arguments(self):
        """Returns the reads of the arguments, and the variables given as arguments."""
        self.take('(')
        reads, given = [], []
        for number, tokens in enumerate(self.listed(')', self.expression)):
            if self.is_given(tokens):
                given.append(Given(number, self.number(tokens[0].word), tokens[0].place))
            else:
                reads += self.reads(tokens)
        return reads, given

    def condition(self):
        """Returns the reads of a condition, and its value if it is just `true` or `false`."""
        self.take('(')
        tokens = self.expression()
        self.take(')')
        fixed = {'true': True, 'false': False}.get(tokens[0].word) if len(tokens) == 1 else None
        return self.reads(tokens), fixed

    # Statements that become a chain of instructions.

    def declaration(self):
        kind, token = self.kind(), self.take()
        if not self.has('='):
            self.declare(token.word, kind)
            return []
        # The scope of the name begins after the value.
        number = len(self.variables) if kind else None
        if kind:
            self.variables.append(Variable(token.word, kind, 'local'))
        found = self.value(number, token.place)
        self.scopes[-1][token.word] = number
        return found

    def value(self, target, place):
        if self.has('new'):
            return self.new(target, place)
        if self.is_call():
            return self.call((target, place) if target is not None else None)
        tokens = self.expression()
        if target is None:
            return self.reads(tokens)
        return [instruction('move', place, variable=target, source=Given(0, self.number(tokens[0].word), tokens[0].place))]

    def new(self, target, place):
        for word in ('[', 'ExHeap', ']'):
            self.take(word)
        reads, given = [], []
        if self.take().word in SCALARS:
            self.take('[')
            reads = self.reads(self.expression())
            self.take(']')
        else:
            _, given = self.arguments()
        return reads + [instruction('new', place, variable=target, given=given)]

    def assignment(self):
        token, reads = self.take(), []
        if self.has('='):
            return self.value(self.number(token.word), token.place)
        if self.has('['):
            reads = self.reads(self.expression())
            self.take(']')
        else:
            self.take('.')
            self.take()
        self.take('=')
        use = [instruction('use', token.place, variable=self.number(token.word))]
        return self.call() + reads + use if self.is_call() else reads + self.reads(self.expression()) + use

    def call(self, target=None, word='call'):
        first = self.take()
        name = self.take() if self.has('.') else first
        reads, given = self.arguments()
        if name is not first and self.is_variable(first.word):
            more = {'endpoint': Given(0, self.number(first.word), first.place), 'message': name.word[len('Send'):]}
            return reads + [instruction('send', name.place, given=given, **more)]
        group = self.method.group if name is first else first.word
        return reads + [instruction(word, name.place, given=given, method=self.text.methods[group, name.word], target=target)]

    def start(self):
        self.take('start')
        return self.call(word='start')

    def delete(self):
        self.take('delete')
        return [instruction('delete', self.tokens[self.at].place, variable=self.number(self.take().word))]

    def mention(self):
        token = self.take()
        return Given(0, self.number(token.word), token.place)

    def exchange(self):
        place = self.take('exchange').place
        self.take('(')
        holder = self.mention()
        self.take('.')
        field = self.take().word
        self.take(',')
        made = instruction('exchange', place, holder=holder, field=field, source=self.mention())
        self.take(')')
        return [made]

    def channel(self):
        contract = self.take().word
        self.take('.')
        place = self.take('NewChannel').place
        self.take('(')
        self.take('out')
        first = self.mention()
        self.take(',')
        self.take('out')
        made = instruction('channel', place, contract=contract, ends=(first, self.mention()))
        self.take(')')
        return [made]

    def give(self):
        place = self.take('return').place
        tokens = self.expression()
        if self.is_given(tokens):
            value = Given(0, self.number(tokens[0].word), tokens[0].place)
            return [instruction('return', place, value=value, scope=self.owned())]
        return self.reads(tokens) + [instruction('return', place, value=None, scope=self.owned())]

    # Statements that contain others, and those that leave them.

    def branch(self):
        place = self.take('if').place
        reads, fixed = self.condition()
        first, other = self.block(), []
        if self.has('else'):
            other = [self.branch()] if self.word() == 'if' else self.block()
        return 'if', reads, place, fixed, first, other

    def loop(self):
        place = self.take('while').place
        reads, fixed = self.condition()
        self.marks.append(('while', len(self.scopes)))
        body = self.block()
        self.marks.pop()
        return 'while', reads, place, fixed, body

    def leave(self):
        word, place = self.take()
        level = next(level for kind, level in reversed(self.marks) if word == 'break' or kind == 'while')
        self.take(';')
        return word, self.forget(level, place)

    def switch(self):
        place = self.take('switch').place
        self.take('receive')
        self.take('{')
        self.marks.append(('switch', len(self.scopes)))
        cases = []
        while self.word() == 'case':
            cases.append(self.case())
        self.marks.pop()
        self.take('}')
        return 'switch', place, cases

    def case(self):
        self.take('case')
        endpoint = self.mention()
        self.take('.')
        message = self.take().word
        message = None if message == 'ChannelClosed' else message
        self.take('(')
        contract = self.text.contracts[self.variables[endpoint.variable].kind.contract]
        kinds = contract.messages[message] if message else []
        self.scopes.append({})
        names = self.listed(')', self.bound)
        bound = [self.declare(name, kind) for name, kind in zip(names, kinds)]
        self.take(':')
        body = self.several(('case', '}'))
        body.append(('chain', self.forget(-1, self.tokens[self.at].place)))
        self.scopes.pop()
        return Case(endpoint.variable, endpoint.place, message, [(v, kind) for v, kind in zip(bound, kinds) if kind], body)

    def bound(self):
        """Reads a name that a case binds, with or without a type."""
        if self.word(1) not in (',', ')'):
            self.kind()
        return self.take().word
