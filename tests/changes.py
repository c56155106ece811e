"""Changes for the fuzz driver: to random sets, just inside a rule or just outside, and to the bytes of files."""
from assembler import INTEGER, VOID, Method, places_of
from classes import some_name, some_type
from programs import Coder

# ---- changes to a set ----------------------------------------------------------------------------------------------

def nudge_height(rng, world, method):
    method.height = max(0, method.height + rng.choice([-1, -1, 1]))


def nudge_registers(rng, world, method):
    method.extras = rng.choice([0, max(0, method.extras - 1), method.extras + 1, 15 - len(method.params),
                                16 - len(method.params)])


def nudge_handler(rng, world, method):
    """One number of a handler, where there is one; places stand for labels then."""
    plain, labels = places_of(method.code)
    if not method.handlers:
        method.handlers.append((0, len(plain), rng.choice([0, 1, 2, 3]), rng.randrange(len(plain)), 0))
        return
    at, part = rng.randrange(len(method.handlers)), rng.randrange(5)
    numbers = [labels.get(n, n) for n in method.handlers[at]]
    near = [max(0, numbers[part] - 1), numbers[part] + 1]
    numbers[part] = rng.choice(near * 3 + [len(plain) - 1, len(plain), 0, 16, 32, 255, 256, 257])
    method.handlers[at] = tuple(numbers)


def nudge_jump(rng, world, method):
    jumps = [i for i, item in enumerate(method.code) if item[0] in ('IfFalse', 'Goto')]
    if jumps:
        at = rng.choice(jumps)
        method.code[at] = (method.code[at][0], rng.choice([0, 1, 1, 2, -1, -2, 255, -255, 256, -256]))


def nudge_types(rng, world, method):
    types = [*method.params, method.result]
    types[rng.randrange(len(types))] = some_type(rng, world.count() + rng.choice([0, 0, 0, 1]))
    method.params, method.result = types[:-1], types[-1]


def nudge_class(rng, world, method):
    own = rng.choice(world.classes)
    kind = rng.randrange(3)
    if kind == 0:
        own.superclass = rng.randrange(world.count())
    elif kind == 1:
        own.fields = [*own.fields, (rng.choice([9, 10, 255, 256, some_name(rng)]), some_type(rng, world.count()))]
    else:
        room = max(0, 8 - len(own.fields))
        own.fields = own.fields + [(20 + i, INTEGER) for i in range(room + rng.choice([0, 0, 1]))]


def nudge_crowd(rng, world, method):
    """As many methods as a set may have, or one more."""
    own = world.classes[-1]
    room = max(0, 64 - len(world.methods()))
    own.methods += [Method(30 + i, [], VOID, 0, 0, [('Goto', 0)]) for i in range(room + rng.choice([0, 0, 1]))]


def nudge_code(rng, world, method):
    """An instruction left out, doubled, or another one in its place."""
    at = rng.choice([i for i, item in enumerate(method.code) if not isinstance(item, str)])
    kind = rng.randrange(3)
    coder = Coder(world, 4, method, 0, 0)
    coder.anything()
    method.code[at:at + 1] = [[('Goto', 1)], [method.code[at]] * 2, coder.code][kind]


NUDGES = [nudge_height] * 6 + [nudge_handler] * 6 + [nudge_registers, nudge_jump, nudge_types, nudge_class] * 2 + [
    nudge_crowd, nudge_code]


def nudged(rng, world):
    """Changes a set in a few places, so that it is just inside a rule or just outside."""
    methods = world.methods()
    for _ in range(rng.choice([1, 1, 1, 2])):
        if methods:
            rng.choice(NUDGES)(rng, world, rng.choice(methods)[1])
    return world


# ---- bytes ---------------------------------------------------------------------------------------------------------

ODD_NUMBERS = [b'\x00', b'\x01', b'\x03', b'\x04', b'\x07', b'\x0e', b'\x0f', b'\x10', b'\x11', b'\x1c', b'\x1d',
               b'\x7f', b'\x80', b'\x80\x00', b'\x80\x01', b'\xff\x01', b'\x80\x02', b'\x81\x02', b'\xfd\x03',
               b'\xff\x03', b'\x80\x04', b'\xff\xff\xff\xff\x0f', b'\xff\xff\xff\xff\x10', b'\x80\x80\x80\x80\x00',
               b'\x80\x80\x80\x80\x80', b'\xff']


def mutated(rng, data):
    """The bytes with a few random changes."""
    data = bytearray(data)
    for _ in range(rng.choice([1, 1, 1, 2, 3, 8])):
        at = rng.randrange(len(data) + 1)
        kind = rng.randrange(7)
        if kind == 0:
            data[at:at + 1] = bytes([rng.randrange(256)])
        elif kind == 1:
            data[at:at + 1] = bytes([rng.randrange(16)])
        elif kind == 2:
            data[at:at + 1] = rng.choice(ODD_NUMBERS)
        elif kind == 3:
            data[at:at] = rng.choice(ODD_NUMBERS)
        elif kind == 4:
            del data[at:at + rng.choice([1, 1, 2, 5])]
        elif kind == 5 and data:
            at = min(at, len(data) - 1)
            data[at] = (data[at] + rng.choice([-1, 1])) % 256
        else:
            del data[at:]
    return bytes(data)
