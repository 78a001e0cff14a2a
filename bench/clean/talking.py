"""Writes the sends and switches of a method, and walks through a contract; and so its whole body."""
from clean.tree import SIDES, Body, Case, Condition, Switch, While
from clean.writer import Writer

MOST_ENDS, DEEPEST = 4, 3


class Talker(Writer):
    """A writer that can also send and receive."""

    def edges(self, kind):
        """Returns the edges along which an endpoint sends, and those along which it receives."""
        contract = self.contracts[kind.contract]
        edges = contract.states[kind.state]
        return (edges, {}) if contract.senders[kind.state] == kind.side else ({}, edges)

    def switch(self, body, names, write):
        """Writes a switch at these endpoints. `write` writes the rest of a case, given its endpoint and whether it is the close."""
        cases, ways = [], []
        in_switch, self.in_switch = self.in_switch, True
        for name in names:
            kind = self.has[name]
            messages = self.contracts[kind.contract].messages
            for message, state in list(self.edges(kind)[1].items()) + [(None, kind.state)]:
                bound = [(self.fresh(), brought) for brought in (messages[message].types if message is not None else [])]
                self.has[name] = kind._replace(state=state)
                way = self.way(lambda inner: write(inner, name, message is None), {v: k for v, k in bound if k is not None})
                self.has[name] = kind
                ways.append(way)
                cases.append(Case(name, message, messages[message].name if message is not None else 'ChannelClosed', bound, way[0]))
        self.in_switch = in_switch
        body.left = self.meet(ways)
        for case in cases:
            if not case.body.left and self.chance.random() < 0.6:
                case.body.append('break')
        body.append(Switch(cases))

    def wait(self, body):
        names = [v for v in self.free(self.ends()) if self.edges(self.has[v])[1]]
        if names:
            chosen = [self.chance.choice(names)]
            more = [v for v in self.free(self.ends()) if v not in chosen]
            if more and self.chance.random() < 0.4:
                chosen.append(self.chance.choice(more))
            self.switch(body, chosen, lambda inner, name, closed: self.statements(inner, 2))

    def leads(self, kind, target, always):
        """Returns whether an endpoint can reach a state: for any messages received on the way if `always`, or else for some."""
        if kind.state == target:
            return True
        sends, receives = self.edges(kind)
        onward = [self.leads(kind._replace(state=s), target, always) for s in list(sends.values()) + list(receives.values())
                  if s == target or s > kind.state]
        whole = len(onward) == len(sends) + len(receives)
        return bool(onward) and (whole and all(onward) if always and receives else any(onward))

    def drive(self, body, name, target, always, on=False):
        """Brings an endpoint to a state, along at least one edge. With `on` it has already begun."""
        kind = self.has[name]
        if on and kind.state == target:
            return
        sends, receives = self.edges(kind)
        if receives:
            return self.switch(body, [name], lambda inner, _, closed: self.driven(inner, name, kind, target, always, closed))
        good = [m for m, s in sends.items() if (s == target or s > kind.state) and self.leads(kind._replace(state=s), target, always)]
        self.send(body, name, self.chance.choice(good))
        self.drive(body, name, target, always, True)

    def driven(self, body, name, before, target, always, closed):
        """Writes a case on the way to a state. The method ends if the case leads elsewhere, and often at a close."""
        now = self.has[name]
        if closed and self.chance.random() < (0.1 if self.serving else 0.7):
            self.has[name] = before._replace(state=target)
        elif closed or not self.leads(now, target, always) or (now.state <= before.state and now.state != target):
            self.leave(body)
        else:
            if self.chance.random() < 0.4:
                self.use(body)
            self.drive(body, name, target, always, True)

    def rounds(self, kind):
        """Returns whether an endpoint can return to its state, along at least one edge, for any messages received."""
        sends, receives = self.edges(kind)
        on = [self.leads(kind._replace(state=s), kind.state, True) for s in list(sends.values()) + list(receives.values())]
        return bool(on) and (all(on) if receives else any(on))

    def round(self, body):
        """Brings an endpoint in the first state, which may be lent or from an outer loop, round to that state again."""
        names = [v for v in self.ends() if self.has[v].state == 0 and self.rounds(self.has[v])]
        if names:
            name = self.chance.choice(names)
            self.drive(body, name, self.has[name].state, True)

    def onward(self, body):
        names = [v for v in self.free(self.ends()) if self.contracts[self.has[v].contract].states[self.has[v].state]]
        if names:
            name = self.chance.choice(names)
            kind = self.has[name]
            targets = [s for s in range(kind.state + 1, len(self.contracts[kind.contract].states)) if self.leads(kind, s, False)]
            if targets:
                self.drive(body, name, self.chance.choice(targets), False)

    def serve(self, body):
        """Writes a loop that serves an endpoint in the first state."""
        names = [v for v in self.free(self.ends()) if self.has[v].state == 0 and self.returns(self.has[v])]
        if not names:
            return
        name, kept, in_switch = self.chance.choice(names), self.frozen, self.in_switch
        condition = Condition('true', [], 0) if self.chance.random() < 0.6 else self.condition()
        self.frozen, self.in_switch = kept | set(self.has), False
        wanted = dict(self.has)
        serving, self.serving = self.serving, True
        inner, _ = self.way(lambda inner: self.drive(inner, name, 0, False))
        self.serving = serving
        self.frozen, self.in_switch, self.has = kept, in_switch, wanted
        body.left = condition.fixed == 0
        body.append(While(condition, inner))

    def returns(self, kind):
        edges = self.contracts[kind.contract].states[kind.state]
        return any(self.leads(kind._replace(state=s), 0, False) for s in edges.values())

    def some_send(self, body):
        names = [v for v in self.free(self.ends()) if self.edges(self.has[v])[0]]
        if names:
            name = self.chance.choice(names)
            self.send(body, name, self.chance.choice(list(self.edges(self.has[name])[0])))

    def some_delete(self, body):
        names = self.free(self.has)
        if names:
            self.give_away(body, self.chance.choice(names))

    def opened(self, body):
        """Opens a channel, and mostly starts a process with one end."""
        names = self.channel(body, self.chance.randrange(len(self.contracts)))
        if self.chance.random() < 0.8:
            name = names[self.chance.choice(SIDES)]
            method = self.method_for([(self.has[name], True)], 'start')
            if method:
                self.call(body, method, [name], 'start')

    def statement(self, body):
        """Writes one statement, or nothing if the chosen kind lacks a suitable variable."""
        kinds = [(2, lambda b: self.new(b, self.chance.choice(self.program.blocks))), (2, self.use), (1, self.move),
                 (4, self.exchange), (4, self.calls), (1, lambda b: self.calls(b, 'start')), (1, self.out_of_loop),
                 (1, self.some_delete)]
        if self.ends():
            kinds += [(4, self.wait), (4, self.round), (4, self.onward), (4, self.some_send)]
        if len(self.ends()) < MOST_ENDS:
            kinds.append((6, self.opened))
        if self.deep < DEEPEST:
            kinds += [(1, self.block), (2, self.branch), (1, self.loop), (2, self.serve)]
        self.chance.choices([write for _, write in kinds], [weight for weight, _ in kinds])[0](body)

    def statements(self, body, most=4):
        for _ in range(self.chance.randint(1, most)):
            if self.fuel > 0 and not body.left:
                self.fuel -= 1
                self.statement(body)

    def whole(self):
        """Returns the body of the method. It first uses the endpoints among its parameters."""
        body = Body()
        for write in self.chance.sample([self.onward, self.round, self.serve], 2) if self.ends() else []:
            if not body.left:
                write(body)
        while self.fuel > 0 and not body.left:
            self.statements(body)
        if not body.left:
            self.leave(body)
            if self.method.result is None and self.chance.random() < 0.5:
                body.pop()
        return body
