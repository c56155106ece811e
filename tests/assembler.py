"""Writes rule-set files: classes, methods and instructions as Python data, encoded as docs/FORMAT.md says.

An instruction is a tuple such as ('Load', 1), ('Push', 5), ('Getfield', 0, 4) or ('Goto', 'loop'). A string in the
code is a label; jumps take a label or an offset, and handlers take labels or places.
"""
from dataclasses import dataclass, field

VOID, BOOLEAN, INTEGER, NULL = 0, 1, 2, 3
OBJECT, NULL_POINTER, CLASS_CAST, OUT_OF_MEMORY = 0, 1, 2, 3
UNIT = 'unit'

OPCODES = ['Load', 'Store', 'Push', 'Pop', 'New', 'Getfield', 'Putfield', 'Checkcast', 'Invoke', 'Return', 'IAdd',
           'CmpEq', 'IfFalse', 'Goto', 'Throw']


def class_type(c):
    return 4 + c


@dataclass
class Method:
    name: int
    params: list
    result: int
    height: int
    extras: int
    code: list
    handlers: list = field(default_factory=list)


@dataclass
class Class:
    superclass: int
    fields: list = field(default_factory=list)
    methods: list = field(default_factory=list)


def number(n):
    out = bytearray()
    while n >= 128:
        out.append(n % 128 + 128)
        n //= 128
    out.append(n)
    return bytes(out)


def signed(z):
    return number(2 * z if z >= 0 else -2 * z - 1)


def literal(value):
    if value == UNIT and isinstance(value, str):
        return number(0)
    if value is None:
        return number(1)
    if isinstance(value, bool):
        return number(2) + number(int(value))
    return number(3) + signed(value)


def places_of(code):
    """The instructions without labels, and the place of each label."""
    labels, plain = {}, []
    for item in code:
        if isinstance(item, str):
            labels[item] = len(plain)
        else:
            plain.append(item)
    return plain, labels


def instruction(item, place, labels):
    code, *operands = item
    out = number(OPCODES.index(code))
    if code == 'Push':
        return out + literal(operands[0])
    if code in ('IfFalse', 'Goto'):
        target = operands[0]
        return out + signed(labels[target] - place if isinstance(target, str) else target)
    return out + b''.join(map(number, operands))


def handler(item, labels):
    return b''.join(number(labels[n] if isinstance(n, str) else n) for n in item)


def method(m):
    plain, labels = places_of(m.code)
    head = [m.name, len(m.params), *m.params, m.result, m.height, m.extras, len(plain)]
    code = [instruction(item, place, labels) for place, item in enumerate(plain)]
    handlers = [handler(item, labels) for item in m.handlers]
    return b''.join([*map(number, head), *code, number(len(handlers)), *handlers])


def class_(c):
    out = [number(c.superclass), number(len(c.fields))]
    out += [number(n) for pair in c.fields for n in pair]
    return b''.join([*out, number(len(c.methods)), *map(method, c.methods)])


def encode(classes):
    """The bytes of a set."""
    return b''.join([number(len(classes)), *map(class_, classes)])
