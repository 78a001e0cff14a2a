"""Lowers methods to lists of instructions, by the table of docs/OWNERSHIP.md. A point is the index of an instruction."""
from traced.reading import Body, instruction


class Method:
    """The instructions of a method, built from its end to its beginning, and its first point."""

    def __init__(self, text, signature):
        body = Body(text, signature)
        self.signature, self.variables, self.code = signature, body.variables, []
        self.first = self.several(body.statements, None, None, None)

    def add(self, made, point):
        made.next = point
        self.code.append(made)
        return len(self.code) - 1

    def chain(self, instructions, point):
        for made in reversed(instructions):
            point = self.add(made, point)
        return point

    def several(self, statements, point, behind, again):
        """Returns the first point of statements that continue at `point`. A `break` goes to `behind`, a `continue` to `again`."""
        for word, *parts in reversed(statements):
            point = getattr(self, '_' + word)(*parts, point, behind, again)
        return point

    def _chain(self, instructions, point, *_):
        return self.chain(instructions, point)

    def _block(self, statements, point, behind, again):
        return self.several(statements, point, behind, again)

    def _break(self, forget, point, behind, again):
        return self.chain(forget, behind)

    def _continue(self, forget, point, behind, again):
        return self.chain(forget, again)

    def _if(self, reads, place, fixed, first, other, *ways):
        past, inside = self.several(other, *ways), self.several(first, *ways)
        return self.chain(reads + [instruction('branch', place, ways=went(fixed, inside, past))], None)

    def _while(self, reads, place, fixed, body, point, *_):
        test = instruction('branch', place, ways=())
        head = self.chain(reads, self.add(test, None))
        test.ways = went(fixed, self.several(body, head, point, head), point)
        return head

    def _switch(self, place, cases, point, behind, again):
        entries = [(case, self.several(case.body, point, point, again)) for case in cases]
        return self.add(instruction('switch', place, cases=entries), None)


def went(fixed, inside, past):
    """Returns the points to which a condition can lead, the one for true first."""
    return (inside, past) if fixed is None else (inside,) if fixed else (past,)
