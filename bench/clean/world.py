"""Runs of lowered methods. A schedule is chosen event by event, so that each event is a step.

This knows only as much of the machine as decides where a process continues: queues, freed peers and frames. Whether an event is a fault is
left to the program.
"""
import collections

MODES = ('even', 'bursts', 'first', 'newest')
WORDS = 'use new exchange channel move delete send switch branch forget call start return'.split()
ONE = (0,)


class World:
    """The processes as stacks of frames, the blocks, and what was met so far. A block has its owner as printed, the blocks in its owning
    fields, and whether it is freed; an endpoint also has its peer and its queue.

    A process that waits is asleep until something arrives at an endpoint of its switch."""

    def __init__(self, methods):
        self.methods, self.met = methods, collections.Counter()
        self.peers, self.queues, self.freed, self.owners, self.fields = [], [], [], [], []
        self.stacks, self.ready, self.asleep, self.waits = [], [], set(), {}
        self.does = {word: getattr(self, word) for word in WORDS}
        self.begin(0, [])

    def begin(self, number, given):
        self.hand(given, 'process %d' % len(self.stacks))
        self.ready.append(len(self.stacks))
        self.stacks.append([self.frame(number, given)])

    def frame(self, number, given):
        method = self.methods[number]
        variables = [None] * len(method.variables)
        for parameter, address in zip(method.parameters, given):
            variables[parameter] = address
        return [method.code, method.first, variables]

    def block(self, process, peer, fields=()):
        self.peers.append(peer)
        self.queues.append([])
        self.freed.append(False)
        self.owners.append('process %d' % process)
        self.fields.append(list(fields))
        return len(self.peers) - 1

    def hand(self, addresses, owner):
        for address in addresses:
            self.owners[address] = owner

    def taken(self, frame, names):
        """Takes what these variables have out of them, and returns it."""
        addresses = [frame[2][name] for name in names]
        for name in names:
            frame[2][name] = None
        return addresses

    def choices(self, process):
        """Returns the choices that make the next event of a process a step. Without any, the process waits and falls asleep."""
        code, point, variables = self.stacks[process][-1]
        instruction = code[point]
        if instruction[0] == 'branch':
            return range(len(instruction[1]))
        if instruction[0] != 'switch':
            return ONE
        addresses = [variables[endpoint] for endpoint in instruction[1]]
        choices = [n for n, address in enumerate(addresses) if self.queues[address] or self.freed[self.peers[address]]]
        if not choices:
            self.met['waits'] += 1
            self.ready.remove(process)
            self.asleep.add(process)
            self.waits.update((address, process) for address in addresses)
        return choices

    def wake(self, address):
        """Wakes the process that waits at an endpoint, unless another endpoint has already woken it."""
        process = self.waits.pop(address, None)
        if process in self.asleep:
            self.asleep.remove(process)
            self.ready.append(process)

    def step(self, process, choice):
        frame = self.stacks[process][-1]
        instruction = frame[0][frame[1]]
        self.met[instruction[0]] += 1
        self.does[instruction[0]](process, frame, instruction, choice)

    # One method for each instruction. It gets the number of the process, its innermost frame, the instruction and the choice.

    def use(self, process, frame, instruction, choice):
        frame[1] = instruction[1]

    forget = use

    def new(self, process, frame, instruction, choice):
        _, frame[1], target, *names = instruction
        given = self.taken(frame, names)
        frame[2][target] = self.block(process, None, given)
        self.hand(given, 'block %d' % frame[2][target])
        self.met['blocks put into new ones'] += len(given)

    def exchange(self, process, frame, instruction, choice):
        _, frame[1], holder, field, name = instruction
        fields, given = self.fields[frame[2][holder]], frame[2][name]
        self.hand([given], 'block %d' % frame[2][holder])
        self.hand([fields[field]], 'process %d' % process)
        fields[field], frame[2][name] = given, fields[field]

    def channel(self, process, frame, instruction, choice):
        _, frame[1], first, second, first_is_imp = instruction
        imp = self.block(process, len(self.peers) + 1)
        exp = self.block(process, imp)
        frame[2][first], frame[2][second] = (imp, exp) if first_is_imp else (exp, imp)

    def move(self, process, frame, instruction, choice):
        _, frame[1], to, source = instruction
        frame[2][to], frame[2][source] = frame[2][source], None

    def delete(self, process, frame, instruction, choice):
        _, frame[1], name = instruction
        inside = self.taken(frame, [name])
        while inside:
            self.free(inside.pop(), inside)

    def free(self, address, inside):
        """Frees one block, and adds the blocks directly inside it to `inside`."""
        self.freed[address] = True
        if self.peers[address] is None:
            self.met['a block freed'] += 1
        else:
            self.met['second end deleted' if self.freed[self.peers[address]] else 'first end deleted'] += 1
            self.met['messages left in a deleted queue'] += len(self.queues[address])
            self.wake(self.peers[address])
        self.met['blocks freed inside others'] += len(self.fields[address])
        inside += self.fields[address]
        for _, brought in self.queues[address]:
            self.hand(brought, 'channel')
        self.queues[address], self.fields[address] = [], []

    def send(self, process, frame, instruction, choice):
        _, frame[1], endpoint, message, given = instruction
        peer = self.peers[frame[2][endpoint]]
        brought = self.taken(frame, given)
        self.met['blocks sent'] += len(brought)
        self.hand(brought, 'channel' if self.freed[peer] else 'queue %d' % peer)
        if self.freed[peer]:
            self.met['sent to a deleted end'] += 1
        else:
            self.queues[peer].append((message, brought))
            self.met['sent to a queue that has some'] += len(self.queues[peer]) > 1
            self.wake(peer)

    def switch(self, process, frame, instruction, choice):
        _, endpoints, cases = instruction
        queue = self.queues[frame[2][endpoints[choice]]]
        message, brought = queue.pop(0) if queue else (None, [])
        self.met['received' if message is not None else 'closed'] += 1
        frame[1], bound = cases[endpoints[choice], message]
        self.hand(brought, 'process %d' % process)
        for name, address in zip(bound, brought):
            frame[2][name] = address

    def branch(self, process, frame, instruction, choice):
        frame[1] = instruction[1][choice]

    def given(self, frame, given):
        addresses = [frame[2][name] for name, _ in given]
        for name, claimed in given:
            if claimed:
                frame[2][name] = None
        self.met['arguments claimed'] += sum(claimed for _, claimed in given)
        self.met['arguments lent'] += sum(not claimed for _, claimed in given)
        return addresses

    def call(self, process, frame, instruction, choice):
        stack = self.stacks[process]
        stack.append(self.frame(instruction[2], self.given(frame, instruction[3])))
        self.met['recursive calls'] += any(below[0] is stack[-1][0] for below in stack[:-1])

    def start(self, process, frame, instruction, choice):
        frame[1] = instruction[1]
        self.begin(instruction[2], self.given(frame, instruction[3]))

    def end(self, process, frame, instruction, choice):
        address = None if instruction[1] is None else frame[2][instruction[1]]
        self.stacks[process].pop()
        if not self.stacks[process]:
            self.met['ends of processes'] += 1
            self.ready.remove(process)
            return
        below = self.stacks[process][-1]
        _, below[1], _, _, target = below[0][below[1]]
        if target is not None:
            below[2][target] = address
            self.met['results taken'] += 1


setattr(World, 'return', World.end)


def scheduled(methods, chance, most):
    """Returns a schedule, the world after it, and why it ends: all processes have ended, the rest wait, or it has enough events."""
    world, events, mode = World(methods), [], chance.choice(MODES)
    leaves, at = chance.choice([0.3, 0.5, 0.5, 0.8]), 0
    while world.ready and len(events) < most:
        at = preferred(chance.random(), mode, world.ready, at)
        choices = world.choices(at)
        if not choices:
            continue
        choice = choices[0]
        if len(choices) > 1:
            choice = choices[chance.random() < leaves] if len(choices) == 2 else chance.choice(choices)
        world.step(at, choice)
        events.append((at, choice))
    return events, world, 'enough' if world.ready else 'waiting' if any(world.stacks) else 'ended'


def preferred(number, mode, ready, last):
    """Returns the process that takes the next step."""
    if mode == 'first' and number < 0.9:
        return min(ready)
    if mode == 'newest' and number < 0.8:
        return ready[-1]
    if mode == 'bursts' and number < 0.9 and last in ready:
        return last
    return ready[int(number * 1000003) % len(ready)]
