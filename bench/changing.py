"""Changes texts of cases and examples at random."""
import pathlib
import random
import re

TOP = pathlib.Path(__file__).resolve().parent.parent
RESERVED = (b'bool break byte case class ChannelClosed Claims continue contract delete else exchange Exp ExHeap false if Imp in int '
            b'internal message new NewChannel one out private public receive rep return start state static struct switch true void '
            b'while').split()
TOKEN = re.compile(rb'//[^\n]*|/\*.*?\*/|\s+|[A-Za-z_]\w*|\d+|==|!=|<=|>=|&&|\|\||->|.', re.S)
STATEMENT = re.compile(rb'[^;{}]*[;{}]|[^;{}]+')
NAME = re.compile(rb'\b(?!(?:%s)\b)[A-Za-z_]\w*' % b'|'.join(RESERVED))
DEEPEST = 120


def texts():
    """Returns the texts to change: those of all cases and examples that are not empty."""
    names = sorted(TOP.glob('cases/*/*/input.sg')) + sorted(TOP.glob('examples/*.sg'))
    return [text for text in (name.read_bytes() for name in names) if text]


# A change returns new pieces for a text. Rough changes work on tokens, blanks and comments, and the result is rarely a program.

def flipped(pieces, chance, _):
    data = bytearray(b''.join(pieces))
    for _ in range(chance.randint(1, 3)):
        if data:
            data[chance.randrange(len(data))] ^= 1 << chance.randrange(8)
    return TOKEN.findall(bytes(data))


def doubled(pieces, chance, _):
    at, more = chance.randrange(len(pieces)), chance.choice([1, 1, 3, 10])
    return pieces[:at] + pieces[at:at + more] + pieces[at:]


def exchanged(pieces, chance, _):
    first, second = chance.randrange(len(pieces)), chance.randrange(len(pieces))
    pieces[first], pieces[second] = pieces[second], pieces[first]
    return pieces


def cut(pieces, chance, _):
    at, most = chance.randrange(len(pieces)), chance.choice([1, 1, 2, 6, len(pieces)])
    return pieces[:at] + pieces[at + most:]


def brought(pieces, chance, others):
    more = TOKEN.findall(chance.choice(others))
    start, at = chance.randrange(len(more)), chance.randrange(len(pieces))
    return pieces[:at] + more[start:start + chance.choice([1, 4, 20])] + pieces[at:]


def nested(pieces, chance, _):
    opening, closing = chance.choice([(b'{', b'}'), (b'(', b')'), (b'[', b']'), (b'a[', b']'), (b'if (b) {', b'}'), (b'while (b) {', b'}')])
    at, size, deep = chance.randrange(len(pieces)), chance.choice([0, 1, 3, 12]), chance.choice([1, 2, 90, DEEPEST])
    return pieces[:at] + [opening] * deep + pieces[at:at + size] + [closing] * deep + pieces[at + size:]


def grown(pieces, chance, _):
    number = chance.choice([b'0', b'2147483647', b'2147483648', b'9' * 40, b'007'])
    return [number if piece.isdigit() and chance.random() < 0.5 else piece for piece in pieces]


ROUGH = [flipped, doubled, exchanged, cut, brought, nested, grown]


# Gentle changes work on whole statements, or put one name in place of another. The result is often a program.

def statement_doubled(text, chance):
    pieces, at = STATEMENT.findall(text), ended(text, chance)
    return b''.join(pieces[:at] + pieces[at:at + 1] + pieces[at:])


def statements_exchanged(text, chance):
    pieces, first, second = STATEMENT.findall(text), ended(text, chance), ended(text, chance)
    pieces[first], pieces[second] = pieces[second], pieces[first]
    return b''.join(pieces)


def statement_cut(text, chance):
    pieces, at = STATEMENT.findall(text), ended(text, chance)
    return b''.join(pieces[:at] + pieces[at + 1:])


def statement_in_a_block(text, chance):
    pieces, at = STATEMENT.findall(text), ended(text, chance)
    pieces[at] = chance.choice([b'{ %s }', b'if (true) { %s }', b'if (1 < 2) { %s }', b'while (1 < 2) { %s }']) % pieces[at]
    return b''.join(pieces)


def named_alike(text, chance):
    """Puts one name in place of another, sometimes or always."""
    names = sorted(set(NAME.findall(text))) or [b'a']
    old, new, often = chance.choice(names), chance.choice(names), chance.choice([0.2, 1])
    return NAME.sub(lambda match: new if match[0] == old and chance.random() < often else match[0], text)


GENTLE = [statement_doubled, statements_exchanged, statement_cut, statement_in_a_block, named_alike, named_alike]


def ended(text, chance):
    """Returns the number of a piece that ends in a semicolon, or of any piece if there is none."""
    pieces = STATEMENT.findall(text)
    return chance.choice([k for k, piece in enumerate(pieces) if piece.endswith(b';')] or range(len(pieces)))


def changed(seed, others):
    """Returns the changed text of a seed."""
    chance = random.Random(seed)
    text = chance.choice(others)
    for _ in range(chance.randint(1, 4) if chance.random() < 0.7 else 0):
        text = chance.choice(GENTLE)(text, chance) or b' '
    for _ in range(chance.choice([0, 0, 1, 3])):
        text = b''.join(chance.choice(ROUGH)(TOKEN.findall(text), chance, others)) or b' '
    return text
