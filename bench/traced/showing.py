"""The lines that show a finding in a contract: the sign of a message, an earlier edge, an edge of each sign, or a ring of one sign."""
import collections
from types import SimpleNamespace

from traced.reading import ACCESS, Reader, tokens_of

Edge = collections.namedtuple('Edge', 'start message sign end place')
TAKES = {'in': 'an in message is followed by ?', 'out': 'an out message is followed by !'}


class Contracts(Reader):
    """The contracts of a text without findings of earlier stages. Their states and edges have places."""

    def __init__(self, data):
        super().__init__(tokens_of(data))
        self.contracts = []
        while self.word():
            if self.word() in ACCESS:
                self.take()
            if self.take().word == 'contract':
                self.contract()
            else:
                self.skip()

    def skip(self):
        """Passes over a struct or a class."""
        depth = 0
        while True:
            word = self.take().word
            depth += (word == '{') - (word == '}')
            if word == '}' and depth == 0:
                return

    def contract(self):
        made = SimpleNamespace(directions={}, states={}, edges=[])
        self.contracts.append(made)
        self.take()
        self.take('{')
        while not self.has('}'):
            word = self.take().word
            if word == 'state':
                self.state(made)
            else:
                self.take('message')
                made.directions[self.take().word] = word
                while not self.has(';'):
                    self.take()

    def state(self, made):
        """Reads a state: how it is printed, by its place, and its edges. No other state of the contract has this place."""
        name, place = self.take()
        made.states[place] = name
        self.take(':')
        if self.has(';'):
            return
        several = self.has('one')
        if several:
            self.take('{')
        while not (several and self.has('}')):
            self.path(made, place)
            if not several:
                return
        self.has(';')

    def path(self, made, start):
        while self.word(1) in ('!', '?'):
            message, place = self.take()
            sign = self.take().word
            self.take('->')
            if self.word(1) in ('!', '?'):
                end = self.tokens[self.at].place
                made.states[end] = '(%s)' % self.word()
            else:
                end = self.word()
            made.edges.append(Edge(start, message, sign, end, place))
            start = end
        self.take()
        self.take(';')


def joined(contract):
    """Returns the edges, with the place of the next state in place of its name."""
    named = {}
    for place, name in contract.states.items():
        named.setdefault(name, place)
    return [edge._replace(end=named.get(edge.end, edge.end)) for edge in contract.edges]


def line(contract, edge):
    return (*edge.place, '%s%s -> %s' % (edge.message, edge.sign, contract.states[edge.end]))


def ways_round(edges, state, sign):
    """Returns the length of a shortest ring of this sign through a state, or None."""
    front, seen, steps = {state}, set(), 0
    while front:
        steps += 1
        front = {edge.end for edge in edges if edge.start in front and edge.sign == sign} - seen
        if state in front:
            return steps
        seen |= front
    return None


def is_round(contract, edges, state, lines):
    """Returns whether the lines are those of a shortest ring of one sign from a state."""
    at, signs = state, set()
    for shown in lines:
        fit = [edge for edge in edges if edge.start == at and line(contract, edge) == shown]
        if not fit:
            return False
        at = fit[0].end
        signs.add(fit[0].sign)
    return at == state and len(signs) == 1 and len(lines) in [ways_round(edges, state, sign) for sign in signs]


def shows(data, finding, lines):
    """Returns whether the lines show a finding in a contract, given its place and code."""
    place, code = finding
    for contract in Contracts(data).contracts:
        edges = joined(contract)
        here = [edge for edge in edges if edge.place == place]
        if code == 'C01' and here:
            return lines == [(*place, TAKES[contract.directions[here[0].message]])]
        if code == 'C02' and here:
            return lines == [line(contract, next(e for e in edges if (e.start, e.message) == (here[0].start, here[0].message)))]
        if code == 'C03' and place in contract.states:
            return lines == [line(contract, next(e for e in edges if (e.start, e.sign) == (place, sign))) for sign in '!?']
        if code == 'C04' and place in contract.states:
            return is_round(contract, edges, place, lines)
    return False
