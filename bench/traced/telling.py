"""The lines of a path through a method: its choices, and the changes of the variables that a finding is about."""
import collections

from traced.rules import NOTHING, Failed, Rules, is_state

MOST_PAIRS = 20000
# What is known of a finding: its distance, the pairs at this distance that fail with it, and the variables that it is about.
Found = collections.namedtuple('Found', 'distance pairs about')


class Search:
    """A breadth-first search of a method: the reached pairs with their distances and successors, and the findings."""

    def __init__(self, text, method):
        self.rules, self.method = Rules(text, method), method
        self.begin = (method.first, self.rules.start())
        self.distance, self.next, self.found = {self.begin: 0}, {}, {}
        queue = collections.deque([self.begin])
        while queue and not self.is_large():
            pair = queue.popleft()
            for other in self.onward(pair):
                if other not in self.distance:
                    self.distance[other] = self.distance[pair] + 1
                    queue.append(other)

    def is_large(self):
        return len(self.distance) > MOST_PAIRS

    def onward(self, pair):
        try:
            self.next[pair] = self.rules.step(*pair)
        except Failed as failed:
            self.next[pair] = []
            found = self.found.setdefault(failed.finding, Found(self.distance[pair], [], failed.about))
            if found.distance == self.distance[pair]:
                found.pairs.append(pair)
        return self.next[pair]

    def name(self, variable):
        return self.method.variables[variable].name

    def has(self, variable, leaf):
        """Returns the words for what a variable has."""
        return '%s %s' % (self.name(variable), 'in ' + self.rules.contract(variable).names[leaf] if is_state(leaf) else leaf)

    def beginning(self, about):
        row = self.begin[1]
        return [(*self.method.signature.place, self.has(v, row[v])) for v in about if row[v] != NOTHING]

    def lines(self, about, before, after):
        """Returns the lines of a step."""
        made, told = self.method.code[before[0]], []
        place = made.place
        if made.word == 'branch' and len(set(made.ways)) == 2:
            told.append((*made.place, 'condition ' + ('true' if after[0] == made.ways[0] else 'false')))
        if made.word == 'switch':
            arrived = [case for case, pair in self.rules.arrivals(made, before[1]) if pair == after]
            taken = [case for case, _ in made.cases if case in arrived]
            for front, case in zip(['case'] + ['or case'] * len(taken), taken):
                told.append((*case.place, '%s %s.%s' % (front, self.name(case.endpoint), case.message or 'ChannelClosed')))
            place = taken[0].place
        changed = [v for v in about if before[1][v] != after[1][v]]
        if made.word == 'move':
            del changed[1:]  # a move changes two variables, but has one line
        return told + [(*place, self.change(made, v, after[1][v])) for v in changed]

    def change(self, made, variable, leaf):
        name = self.name(variable)
        if made.word == 'new':
            return '%s takes %s' % (self.name(made.variable), name) if leaf == NOTHING else name + ' new'
        if made.word == 'move':
            return '%s takes %s' % (self.name(made.variable), self.name(made.source.variable))
        if made.word == 'delete':
            return name + ' deleted'
        if leaf == NOTHING and made.word == 'send':
            return '%s sent as %s on %s' % (name, made.message, self.name(made.endpoint.variable))
        if leaf == NOTHING and made.word in ('call', 'start'):
            return 'the %s takes %s' % ('call' if made.word == 'call' else 'process', name)
        return self.has(variable, leaf)

    def is_told(self, finding, lines):
        """Returns whether some shortest path to the finding has these lines."""
        found = self.found[finding]
        first = self.beginning(found.about)
        here = {(self.begin, len(first))} if lines[:len(first)] == first else set()
        for distance in range(found.distance):
            behind = set()
            for pair, count in here:
                for other in set(self.next[pair]):
                    told = self.lines(found.about, pair, other)
                    if self.distance[other] == distance + 1 and lines[count:count + len(told)] == told:
                        behind.add((other, count + len(told)))
            here = behind
        return any((pair, len(lines)) in here for pair in found.pairs)

    def example(self, finding):
        """Returns the lines of a shortest path to the finding."""
        found = self.found[finding]
        path, before = [found.pairs[0]], {}
        for pair, others in self.next.items():
            for other in others:
                if self.distance[other] == self.distance[pair] + 1:
                    before.setdefault(other, pair)
        while path[0] != self.begin:
            path.insert(0, before[path[0]])
        steps = [line for one, two in zip(path, path[1:]) for line in self.lines(found.about, one, two)]
        return self.beginning(found.about) + steps
