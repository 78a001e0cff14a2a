"""Lowers methods to the instructions of docs/OWNERSHIP.md. Each instruction takes one event."""
import collections

from clean.tree import Body, If, Say, Switch, While

# The points to which a `break` and a `continue` go, and whether a variable goes out of scope before that.
Ways = collections.namedtuple('Ways', 'behind forgets_behind again forgets_again')


class Method:
    """A lowered method: its instructions, the point of the first one, and the numbers of its variables."""

    def __init__(self, method, body, numbers):
        self.methods, self.code, self.variables = numbers, [], {}
        self.parameters = [self.number(name) for name, _, _ in method.parameters]
        ending = self.add(('return', None))
        self.first = self.block(body, ending, Ways(ending, False, ending, False), (), True)

    def number(self, name):
        return self.variables.setdefault(name, len(self.variables))

    def add(self, instruction):
        self.code.append(instruction)
        return len(self.code) - 1

    def block(self, body, behind, ways, bound=(), whole=False):
        """Returns the first point of a block that continues at `behind`. A method's own block has no Forgets."""
        there, before = bool(bound), []
        for statement in body:
            before.append(there)
            there = there or isinstance(statement, Say) and bool(statement.declares)
        point = self.add(('forget', behind)) if there and not whole else behind
        for statement, some in zip(reversed(body), reversed(before)):
            here = ways._replace(forgets_behind=ways.forgets_behind or some, forgets_again=ways.forgets_again or some)
            point = self.statement(statement, point, here)
        return point

    def statement(self, statement, point, ways):
        if isinstance(statement, Say):
            return self.chain(statement.instructions, point)
        if statement == 'break':
            return self.add(('forget', ways.behind)) if ways.forgets_behind else ways.behind
        if statement == 'continue':
            return self.add(('forget', ways.again)) if ways.forgets_again else ways.again
        if isinstance(statement, Body):
            return self.block(statement, point, ways)
        return {If: self.branch, While: self.loop, Switch: self.switch}[type(statement)](statement, point, ways)

    def branch(self, statement, point, ways):
        first = self.block(statement.first, point, ways)
        other = self.block(statement.other or Body(), point, ways)
        fixed = statement.condition.fixed
        return self.chain(statement.condition.reads, self.add(('branch', (first, other) if fixed is None else (first,))))

    def loop(self, statement, point, ways):
        test = self.add(None)
        again = self.chain(statement.condition.reads, test)
        first = self.block(statement.body, again, Ways(point, False, again, False))
        self.code[test] = ('branch', (first, point) if statement.condition.fixed is None else (first,))
        return again

    def switch(self, statement, point, ways):
        endpoints, cases = [], {}
        for case in statement.cases:
            endpoint = self.number(case.endpoint)
            if endpoint not in endpoints:
                endpoints.append(endpoint)
            bound = tuple(self.number(name) for name, kind in case.bound if kind is not None)
            cases[endpoint, case.message] = self.block(case.body, point, ways._replace(behind=point, forgets_behind=False), bound), bound
        return self.add(('switch', tuple(endpoints), cases))

    def chain(self, instructions, point):
        for instruction in reversed(instructions):
            point = self.add(self.numbered(instruction, point))
        return point

    def numbered(self, instruction, point):
        """Returns an instruction with its next point, and with numbers in place of names."""
        word, *names = instruction
        if word == 'channel':
            return word, point, self.number(names[0]), self.number(names[1]), names[2]
        if word == 'exchange':
            return word, point, self.number(names[0]), names[1], self.number(names[2])
        if word == 'send':
            return word, point, self.number(names[0]), names[1], tuple(map(self.number, names[2]))
        if word in ('call', 'start'):
            given = tuple((self.number(name), claimed) for name, claimed in names[1])
            return word, point, self.methods[names[0]], given, self.number(names[2]) if names[2:] and names[2] else None
        if word == 'return':
            return word, self.number(names[0]) if names[0] else None
        return (word, point, *map(self.number, names))


def lowered(program):
    numbers = {method.name: number for number, method in enumerate(program.methods)}
    return [Method(method, program.bodies[method.name], numbers) for method in program.methods]
