"""The rule table of docs/OWNERSHIP.md. A row has a leaf for each variable: nothing, a block, cut off, or the number of a state."""

NOTHING, BLOCK, CUT_OFF = 'has nothing', 'has a block', 'is cut off'


class Failed(Exception):
    """A failed check: the finding, and the variables that it is about."""

    def __init__(self, place, code, text, about):
        super().__init__()
        self.finding, self.about = (*place, code, text), about


def is_state(leaf):
    return isinstance(leaf, int)


class Rules:
    """The rules for one method of a text."""

    def __init__(self, text, method):
        self.text, self.method, self.variables = text, method, method.variables

    def start(self):
        return tuple(NOTHING if v.role == 'local' else self.declared(v.kind) for v in self.variables)

    def contract(self, variable):
        return self.text.contracts[self.variables[variable].kind.contract]

    def declared(self, kind):
        if len(kind) == 1:
            return BLOCK
        return self.text.contracts[kind.contract].numbers[kind.state] if kind.state else 0

    def is_wrong(self, leaf, kind):
        return is_state(leaf) and leaf != self.declared(kind)

    def edges(self, variable, leaf, sends):
        """Returns the edges of an endpoint's state along which it sends, or those along which it receives."""
        if not is_state(leaf):
            return []
        sign = '?' if (self.variables[variable].kind.side == 'Imp') == sends else '!'
        return [edge for edge in self.contract(variable).edges[leaf] if edge[1] == sign]

    def fail(self, place, code, text, variable, *more):
        raise Failed(place, code, self.variables[variable].name + text, [variable, *more])

    # Checks that several instructions share.

    def owned(self, row, variable, place):
        if row[variable] == NOTHING:
            self.fail(place, 'A01', ' not owned', variable)

    def not_lent(self, variable, place):
        if self.variables[variable].role == 'lent':
            self.fail(place, 'A10', ' is lent', variable)

    def free(self, row, variable, place):
        self.not_lent(variable, place)
        if row[variable] != NOTHING:
            self.fail(place, 'A07', ' overwritten', variable)

    def once(self, given, seen=()):
        seen = set(seen)
        for each in given:
            if each.variable in seen:
                self.fail(each.place, 'A11', ' twice', each.variable)
            seen.add(each.variable)

    def step(self, point, row):
        """Returns the successors of a pair. Raises Failed if a check fails."""
        made = self.method.code[point]
        return [pair for _, pair in self.arrivals(made, row)] if made.word == 'switch' else getattr(self, '_' + made.word)(made, row)

    def _use(self, made, row):
        self.owned(row, made.variable, made.place)
        return [(made.next, row)]

    def _new(self, made, row):
        self.once(made.given)
        fields = list(self.text.structs.get(self.variables[made.variable].kind.struct, {}).values())
        for number, variable, place in made.given:
            self.given(row, variable, place, fields[number], 'A15', ' in a wrong state for the field')
        row = put(row, [(each.variable, NOTHING) for each in made.given])
        self.free(row, made.variable, made.place)
        return [(made.next, put(row, [(made.variable, BLOCK)]))]

    def given(self, row, variable, place, kind, code, text, *more):
        self.not_lent(variable, place)
        self.owned(row, variable, place)
        if self.is_wrong(row[variable], kind):
            self.fail(place, code, text, variable, *more)

    def _exchange(self, made, row):
        _, holder, place = made.holder
        _, source, source_place = made.source
        if holder == source:
            self.fail(source_place, 'A11', ' twice', source)
        self.owned(row, holder, place)
        kind = self.text.structs[self.variables[holder].kind.struct][made.field]
        self.given(row, source, source_place, kind, 'A15', ' in a wrong state for the field')
        return [(made.next, put(row, [(source, self.declared(kind))]))]

    def _channel(self, made, row):
        for _, variable, place in made.ends:
            self.free(row, variable, place)
        return [(made.next, put(row, [(each.variable, 0) for each in made.ends]))]

    def _move(self, made, row):
        _, source, place = made.source
        if source == made.variable:
            self.fail(place, 'A11', ' twice', source)
        self.not_lent(source, place)
        self.owned(row, source, place)
        self.free(row, made.variable, made.place)
        return [(made.next, put(row, [(made.variable, row[source]), (source, NOTHING)]))]

    def _delete(self, made, row):
        self.not_lent(made.variable, made.place)
        self.owned(row, made.variable, made.place)
        return [(made.next, put(row, [(made.variable, NOTHING)]))]

    def _send(self, made, row):
        _, endpoint, place = made.endpoint
        self.owned(row, endpoint, place)
        self.once(made.given, [endpoint])
        kinds = self.contract(endpoint).messages[made.message]
        for number, variable, where in made.given:
            self.given(row, variable, where, kinds[number], 'A03', ' in a wrong state for ' + made.message, endpoint)
        changed = [(each.variable, NOTHING) for each in made.given]
        if is_state(row[endpoint]):
            ends = [end for message, _, end in self.edges(endpoint, row[endpoint], True) if message == made.message]
            if not ends:
                raise Failed(made.place, 'A02', made.message + ' not sent here', [endpoint])
            changed.append((endpoint, ends[0]))
        return [(made.next, put(row, changed))]

    def arrivals(self, made, row):
        """Returns the cases that a switch can take, each with the pair to which it leads."""
        cases = {(case.endpoint, case.message): (case, point) for case, point in reversed(made.cases)}
        endpoints = {}
        for case, _ in made.cases:
            endpoints.setdefault(case.endpoint, case.place)
        for endpoint, place in endpoints.items():
            self.owned(row, endpoint, place)
        if all(self.edges(endpoint, row[endpoint], True) for endpoint in endpoints):
            raise Failed(made.place, 'A06', 'nothing to receive', list(endpoints))
        found = []
        for endpoint, place in endpoints.items():
            for message, _, end in self.edges(endpoint, row[endpoint], False):
                if (endpoint, message) not in cases:
                    self.fail(place, 'A05', '.%s not covered' % message, endpoint)
                case, point = cases[endpoint, message]
                found.append((case, (point, put(row, [(endpoint, end)] + [(v, self.declared(kind)) for v, kind in case.bound]))))
            case, point = cases[endpoint, None]
            found.append((case, (point, put(row, [(endpoint, CUT_OFF)]))))
        return found

    def passed(self, made, row):
        """Returns the row after a call or a start has claimed its arguments."""
        self.once(made.given)
        claimed = []
        for number, variable, place in made.given:
            _, kind, role = made.method.parameters[number]
            self.owned(row, variable, place)
            if role == 'claimed':
                self.not_lent(variable, place)
                claimed.append((variable, NOTHING))
            if self.is_wrong(row[variable], kind):
                self.fail(place, 'A04', ' in a wrong state for the call', variable)
        return put(row, claimed)

    def _call(self, made, row):
        row = self.passed(made, row)
        if made.target:
            variable, place = made.target
            self.free(row, variable, place)
            row = put(row, [(variable, self.declared(made.method.result[0]))])
        return [(made.next, row)]

    def _start(self, made, row):
        return [(made.next, self.passed(made, row))]

    def _branch(self, made, row):
        return [(point, row) for point in made.ways]

    def _forget(self, made, row):
        for variable in made.gone:
            if row[variable] != NOTHING:
                self.fail(made.place, 'A08', ' still owned', variable)
        return [(made.next, row)]

    def _return(self, made, row):
        given = None
        if made.value:
            _, given, place = made.value
            self.given(row, given, place, self.method.signature.result[0], 'A12', ' in a wrong state for the result')
        for variable in made.scope:
            if variable != given and self.variables[variable].role != 'lent' and row[variable] != NOTHING:
                self.fail(made.place, 'A08', ' still owned', variable)
        for variable in made.scope:
            _, kind, role = self.variables[variable]
            if role == 'lent' and self.is_wrong(row[variable], kind):
                self.fail(made.place, 'A09', ' not back in its state', variable)
        return []

    def _stop(self, made, row):
        raise Failed(made.place, 'A13', 'no result', [])


def put(row, changes):
    made = list(row)
    for variable, leaf in changes:
        made[variable] = leaf
    return tuple(made)
