"""Writes the body of a method: blocks of the exchange heap, calls, and branches that part and meet.

The writer knows at each place what each variable has. An endpoint that it takes to be in a state is in that state or cut off: a cut off
endpoint may do whatever a state allows. When branches meet, each gives away what not all of them still have.
"""
from clean.tree import SIDES, Block, Body, Condition, End, If, Say, While, struct_of, written



class Writer:
    """Writes the body of one method of a program. A lent or frozen variable may be used, but not given away or brought to another state."""

    def __init__(self, program, method):
        self.program, self.chance, self.method = program, program.chance, method
        self.contracts = program.contracts
        self.has = {name: kind for name, kind, _ in method.parameters}
        self.lent = {name for name, _, claimed in method.parameters if not claimed}
        self.frozen, self.loops, self.in_switch, self.serving = set(), [], False, False
        self.number, self.fuel, self.deep = 0, self.chance.randint(6, 16), 0

    def fresh(self):
        self.number += 1
        return 'v%d' % self.number

    def ends(self):
        return [v for v, kind in self.has.items() if isinstance(kind, End)]

    def blocks(self):
        return [v for v, kind in self.has.items() if isinstance(kind, Block)]

    def scalar_of(self, name):
        """Returns the suffix for a scalar field of a variable's block, or for an element."""
        struct = struct_of(self.has[name])
        return '[0]' if struct is None else '.m' if struct == 'Note' else '.n'

    def fields_of(self, kind):
        """Returns the kinds of the owning fields of a block."""
        return next((struct.fields for struct in self.program.structs if isinstance(kind, Block) and struct.name == struct_of(kind)), [])

    def free(self, names):
        """Returns those of the names that may be given away or brought to another state."""
        return [v for v in names if v not in self.lent and v not in self.frozen]

    # Simple statements.

    def say(self, body, text, *instructions, declares=()):
        body.append(Say(text, instructions, declares))

    def read(self):
        """Returns a numeric expression and the instructions for its reads."""
        names = self.blocks()
        if not names or self.chance.random() < 0.5:
            return self.chance.choice(['n', str(self.chance.randint(0, 9)), 'n + 1']), []
        name = self.chance.choice(names)
        array = struct_of(self.has[name]) is None
        return name + (self.chance.choice(['.Length', '[0]']) if array else self.scalar_of(name)), [('use', name)]

    def condition(self):
        if self.chance.random() < 0.1:
            return Condition('true', [], 0)
        text, reads = self.read()
        return Condition('%s %s %d' % (text, self.chance.choice(['<', '==', '>=']), self.chance.randint(0, 9)), reads, None)

    def new(self, body, kind, name=None, but=()):
        """Writes a new block for a variable and returns its name. Its fields take variables other than `but`, or new ones."""
        given = []
        for field in self.fields_of(kind):
            given.append(self.made(body, field, given + list(but)))
        text, reads = self.read()
        if struct_of(kind):
            value, reads = 'new[ExHeap] %s(%s)' % (struct_of(kind), ', '.join(given)), []
        else:
            value = 'new[ExHeap] %s[%s]' % (kind.name.split('[')[0], text)
        for gone in given:
            del self.has[gone]
        if name:
            self.say(body, '%s = %s;' % (name, value), *reads, ('new', name, *given))
        else:
            name = self.fresh()
            self.say(body, '%s %s = %s;' % (kind.name, name, value), *reads, ('new', name, *given), declares=(name,))
        self.has[name] = kind
        return name

    def exchange(self, body):
        """Exchanges a field and a variable."""
        holders = [v for v in self.blocks() if self.fields_of(self.has[v])]
        if holders:
            holder = self.chance.choice(holders)
            field, kind = self.chance.choice(list(enumerate(self.fields_of(self.has[holder]))))
            name = self.made(body, kind, [holder])
            self.say(body, 'exchange(%s.f%d, %s);' % (holder, field, name), ('exchange', holder, field, name))

    def channel(self, body, number):
        names = {'Imp': self.fresh(), 'Exp': self.fresh()}
        for side, name in names.items():
            kind = End(number, side, 0)
            self.say(body, '%s %s;' % (written(kind, self.contracts, False), name), declares=(name,))
            self.has[name] = kind
        first, second = self.chance.sample(SIDES, 2)
        self.say(body, '%s.NewChannel(out %s, out %s);' % (self.contracts[number].name, names[first], names[second]),
                 ('channel', names[first], names[second], first == 'Imp'))
        return names

    def made(self, body, kind, but=()):
        """Returns a variable of this kind other than `but`: an existing or a new one."""
        there = [v for v in self.free(self.has) if self.has[v] == kind and v not in but]
        if there and self.chance.random() < 0.6:
            return self.chance.choice(there)
        return self.new(body, kind, None, but) if isinstance(kind, Block) else self.channel(body, kind.contract)[kind.side]

    def delete(self, body, name):
        self.say(body, 'delete %s;' % name, ('delete', name))
        del self.has[name]

    def method_for(self, wanted, word):
        """Returns a method to call or start, or None. Only in a branch is it this method or an earlier one, so not every run is endless."""
        behind = 1 if self.deep and self.chance.random() < 0.7 else self.program.methods.index(self.method) + 1
        return self.program.method_for(wanted, word, behind)

    def give_away(self, body, name):
        """Frees what a variable has, or starts a process with it."""
        kind = self.has[name]
        if isinstance(kind, End) and name not in self.lent and self.chance.random() < 0.6:
            method = self.method_for([(kind, True)], 'start')
            if method:
                return self.call(body, method, [name], 'start')
        self.delete(body, name)

    def send(self, body, name, message):
        kind = self.has[name]
        told = self.contracts[kind.contract].messages[message]
        texts, reads, given = [], [], []
        for payload_kind in told.types:
            if payload_kind is None:
                text, more = self.read()
                reads += more
            else:
                text = self.made(body, payload_kind, given + [name])
                given.append(text)
            texts.append(text)
        self.say(body, '%s.Send%s(%s);' % (name, told.name, ', '.join(texts)), *reads, ('send', name, message, tuple(given)))
        for gone in given:
            del self.has[gone]
        self.has[name] = kind._replace(state=self.contracts[kind.contract].states[kind.state][message])

    def call(self, body, method, names, word='call'):
        text, reads = self.read() if method.scalar else ('', [])
        call = 'K.%s(%s)' % (method.name, ', '.join(([text] if method.scalar else []) + names))
        claimed = tuple((v, c) for v, (_, _, c) in zip(names, method.parameters))
        for name, taken in claimed:
            if taken:
                del self.has[name]
        if word == 'start':
            self.say(body, 'start %s;' % call, *reads, ('start', method.name, claimed))
        elif method.result in (None, 'int'):
            self.say(body, '%s%s;' % ('n = ' if method.result else '', call), *reads, ('call', method.name, claimed, None))
        else:
            name = self.fresh()
            self.say(body, '%s %s = %s;' % (written(method.result, self.contracts, False), name, call), *reads,
                     ('call', method.name, claimed, name), declares=(name,))
            self.has[name] = method.result

    def use(self, body):
        names = self.blocks()
        if not names:
            return
        name = self.chance.choice(names)
        field = self.scalar_of(name)
        text, reads = self.read()
        if self.chance.random() < 0.5:
            self.say(body, '%s%s = %s;' % (name, field, text), *reads, ('use', name))
        else:
            self.say(body, 'n = %s%s + %s;' % (name, field, text), ('use', name), *reads)

    def move(self, body):
        names = self.free(self.has)
        if names:
            name, to = self.chance.choice(names), self.fresh()
            kind = self.has.pop(name)
            self.say(body, '%s %s = %s;' % (written(kind, self.contracts, False), to, name), ('move', to, name), declares=(to,))
            self.has[to] = kind

    # Exits, and how branches meet.

    def leave(self, body):
        """Ends the method."""
        result = None
        if self.method.result not in (None, 'int'):
            result = self.made(body, self.method.result)
        for name in [v for v in self.has if v not in self.lent and v != result]:
            self.give_away(body, name)
        self.say(body, 'return%s;' % (' n' if self.method.result == 'int' else ' ' + result if result else ''), ('return', result))
        body.left = True

    def way(self, write, bound=()):
        """Writes a branch. Returns its body and what the variables have after it. At its end it gives away what it declares."""
        before, body = dict(self.has), Body()
        self.deep += 1
        self.has.update(bound)
        write(body)
        if not body.left:
            for name in [v for v in self.has if v in declared_in(body, bound)]:
                self.give_away(body, name)
        self.deep -= 1
        behind, self.has = self.has, before
        return body, behind

    def meet(self, ways):
        """Joins branches, which delete what not all of them have in the same state. Returns True if no branch reaches its end."""
        live = [(body, has) for body, has in ways if not body.left]
        if live:
            same = {v: kind for v, kind in live[0][1].items() if all(has.get(v) == kind for _, has in live)}
            for body, has in live:
                for name in [v for v in has if v not in same]:
                    body.append(Say('delete %s;' % name, (('delete', name),), ()))
            self.has = same
        return not live

    def restored(self, body, wanted):
        """Gives the variables what a loop needs to start its next round."""
        for name in [v for v in wanted if v not in self.has]:
            self.new(body, wanted[name], name, wanted)
        for name in [v for v in self.has if v not in wanted]:
            self.delete(body, name)

    def branch(self, body):
        condition = self.condition()
        first = self.way(self.statements)
        second = self.way(self.statements if self.chance.random() < 0.6 else lambda inner: None)
        if condition.fixed == 0:
            second[0].left = True
        body.left = self.meet([first, second])
        body.append(If(condition, first[0], second[0] or None))

    def loop(self, body):
        condition, wanted, kept = self.condition(), dict(self.has), self.frozen
        self.frozen = kept | set(self.ends())
        self.loops.append(wanted)
        in_switch, self.in_switch = self.in_switch, False

        def write(inner):
            self.statements(inner)
            if not inner.left:
                self.restored(inner, wanted)

        inner, _ = self.way(write)
        self.loops.pop()
        self.frozen, self.in_switch = kept, in_switch
        self.has = wanted
        body.left = condition.fixed == 0 and not has_break(inner)
        body.append(While(condition, inner))

    def out_of_loop(self, body):
        """Writes a `break` or a `continue` under a condition."""
        if not self.loops:
            return
        word = 'continue' if self.in_switch else self.chance.choice(['break', 'continue'])

        def write(inner):
            self.restored(inner, self.loops[-1])
            inner.append(word)
            inner.left = True

        inner, _ = self.way(write)
        body.append(If(Condition('n == %d' % self.chance.randint(0, 9), [], None), inner, None))

    def block(self, body):
        inner, has = self.way(self.statements)
        body.left = inner.left
        self.has = has if not inner.left else self.has
        body.append(inner)

    def calls(self, body, word='call'):
        lent = [] if word == 'start' else list(self.has)
        wanted, names = [], []
        for _ in range(self.chance.randint(1 if word == 'start' else 0, 3)):
            free = [v for v in self.free(self.has) if v not in names]
            if free and (self.chance.random() < 0.4 or word == 'start'):
                names.append(self.chance.choice(free))
                wanted.append((self.has[names[-1]], True))
            elif [v for v in lent if v not in names]:
                names.append(self.chance.choice([v for v in lent if v not in names]))
                wanted.append((self.has[names[-1]], False))
        if word == 'start' and not names:
            return
        method = self.method_for(wanted, word)
        if method:
            self.call(body, method, names, word)


def declared_in(body, bound):
    return {name for statement in body if isinstance(statement, Say) for name in statement.declares}.union(bound)


def has_break(body):
    """Returns whether a body has a `break` that leaves the loop around it."""
    for statement in body:
        inner = [statement] if isinstance(statement, Body) else []
        if isinstance(statement, If):
            inner = [statement.first, statement.other or []]
        if statement == 'break' or any(map(has_break, inner)):
            return True
    return False
