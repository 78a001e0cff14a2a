"""Makes programs that are clean by construction, for `bench/runs`."""
from clean.tree import BLOCKS, SIDES, Block, Contract, End, Message, Method, Struct, other
from clean.talking import Talker

MOST_METHODS = 9


def payload(chance, number, blocks):
    """Returns the payload of a message: scalars, blocks, and endpoints of earlier contracts in their first state."""
    kinds = []
    for _ in range(chance.choice([0, 0, 1, 1, 2])):
        ends = [End(chance.randrange(number), chance.choice(SIDES), 0)] * 3 if number else []
        kinds.append(chance.choice([None] + blocks + ends))
    return kinds


def contract(chance, number, blocks):
    """Returns a sound contract. Edges lead to later states, or back to the first one from a state with the other sender."""
    count, ends = chance.randint(2, 5), chance.random() < 0.5
    senders = [chance.choice(SIDES) for _ in range(count)]
    if not ends:
        senders[-1] = other(senders[0])
    messages, states = [], []
    for state in range(count):
        targets = list(range(state + 1, count)) + [0] * (2 if senders[state] != senders[0] else 0)
        edges = {}
        for _ in range(0 if ends and state == count - 1 else chance.randint(1, 3)):
            old = [k for k, message in enumerate(messages) if message.sends == senders[state] and k not in edges]
            if not old or chance.random() < 0.7:
                old = [len(messages)]
                messages.append(Message('M%d' % old[0], senders[state], payload(chance, number, blocks)))
            edges[chance.choice(old)] = chance.choice(targets)
        states.append(edges)
    return Contract('C%d' % number, messages, states, senders)


def structs(chance, contracts, count):
    """Returns structs whose fields own blocks, endpoints in their first state, and blocks of earlier structs."""
    made = []
    for number in range(count):
        blocks = BLOCKS + [Block(struct.name + '* in ExHeap') for struct in made] * 2
        ends = [End(chance.randrange(contracts), chance.choice(SIDES), 0) for _ in range(4)]
        made.append(Struct('Box%d' % number, [chance.choice(blocks + ends) for _ in range(chance.choice([1, 1, 2, 3]))]))
    return made


class Program:
    """Contracts, structs, methods and their bodies. A run begins with K.Main."""

    def __init__(self, chance):
        self.chance = chance
        boxes = chance.choice([0, 1, 2, 3])
        self.blocks = BLOCKS + [Block('Box%d* in ExHeap' % number) for number in range(boxes)] * 2
        self.contracts = [contract(chance, number, self.blocks) for number in range(chance.randint(1, 4))]
        self.structs = structs(chance, len(self.contracts), boxes)
        self.methods, self.bodies = [Method('Main', [], None, False)], {}
        for method in self.methods:
            self.bodies[method.name] = Talker(self, method).whole()

    def method_for(self, wanted, word, behind):
        """Returns a method to call or start with these arguments, numbered `behind` or later, or a new one without a body yet, or None."""
        there = [m for m in self.methods[behind:] if [(kind, claimed) for _, kind, claimed in m.parameters] == wanted
                 and (word == 'call' or m.result is None)]
        if there and (self.chance.random() < 0.5 or len(self.methods) >= MOST_METHODS):
            return self.chance.choice(there)
        if len(self.methods) >= MOST_METHODS:
            return None
        end = End(self.chance.randrange(len(self.contracts)), self.chance.choice(SIDES), 0)
        result = self.chance.choice([None, None, 'int', end, *self.chance.sample(self.blocks, 2)]) if word == 'call' else None
        parameters = [('p%d' % number, kind, claimed) for number, (kind, claimed) in enumerate(wanted)]
        method = Method('F%d' % len(self.methods), parameters, result, self.chance.random() < 0.5)
        self.methods.append(method)
        return method
