"""Random rule sets for the fuzz driver: code that is mostly well typed.

The code is made along the typing rules: the generator keeps the types of stack and registers while it writes, so
that a good share of the sets is accepted. Now and then it writes an instruction that may break a rule.
"""
from assembler import BOOLEAN, INTEGER, NULL, OPCODES, UNIT, VOID, class_type, encode, places_of
from classes import skeleton, some_name, some_type

TOP_STACK = 16
EASY_STACK = 12
MAX_CODE = 256


class Coder:
    """Writes the code of one method and keeps the types of its stack and registers."""

    def __init__(self, world, owner, method, budget, wild):
        self.world, self.rng, self.method = world, world.rng, method
        self.registers = [class_type(owner), *method.params, *[None] * method.extras]
        self.stack, self.code, self.handlers = [], [], []
        self.highest, self.budget, self.wild, self.labels = 0, budget, wild, 0
        self.loops = []      # label, height and registers at each loop head around
        self.watched = []    # for each try around, the join of all registers so far

    # ---- writing ---------------------------------------------------------------------------------------------------

    def emit(self, *item):
        self.code.append(item)

    def push(self, ty):
        self.stack.append(ty)
        self.highest = max(self.highest, len(self.stack))

    def put(self, item, ty):
        """An instruction that pushes."""
        self.emit(*item)
        self.push(ty)

    def label(self):
        self.labels += 1
        return f'label {self.labels}'

    def left(self):
        return self.budget - len(self.code)

    # ---- values ----------------------------------------------------------------------------------------------------

    def value(self, ty, fuel=3):
        """Code that leaves a value of this type or below on the stack."""
        options = [self.simple]
        if fuel > 0 and len(self.stack) < EASY_STACK and self.left() > 0:
            options += [self.simple, self.from_register, self.from_register, self.from_field, self.from_call]
            if ty in (INTEGER, BOOLEAN):
                options.append(self.computed)
            if ty >= 4:
                options.append(self.cast)
        for option in self.rng.sample(options, len(options)):
            if option(ty, fuel):
                return
        self.simple(ty, fuel)

    def simple(self, ty, _fuel):
        rng = self.rng
        if ty >= 4 and rng.random() < 0.75:
            c = rng.choice(self.world.subclasses(ty - 4))
            self.put(('New', c), class_type(c))
        elif ty == INTEGER:
            self.put(('Push', rng.choice([0, 1, 1, 2, -1, 63, 64, -65, 2**31 - 1, -2**31])), ty)
        elif ty == BOOLEAN:
            self.put(('Push', rng.random() < 0.5), ty)
        elif ty == VOID:
            self.put(('Push', UNIT), ty)
        else:
            self.put(('Push', None), NULL)
        return True

    def from_register(self, ty, _fuel):
        good = [r for r, t in enumerate(self.registers) if t is not None and self.world.below(t, ty)]
        if good:
            r = self.rng.choice(good)
            self.put(('Load', r), self.registers[r])
        return bool(good)

    def from_field(self, ty, fuel):
        good = [f for f in self.world.fields() if self.world.below(f[2], ty)]
        if good:
            c, name, found = self.rng.choice(good)
            self.value(class_type(c), fuel - 1)
            self.emit('Getfield', name, c)
            self.stack.pop()
            self.push(found)
        return bool(good)

    def from_call(self, ty, fuel):
        good = [m for m in self.world.methods() if self.world.below(m[1].result, ty)]
        if good:
            self.call(*self.rng.choice(good), fuel)
        return bool(good)

    def call(self, c, method, fuel):
        height = len(self.stack)
        self.value(class_type(c), fuel - 1)
        if self.stack[-1] == NULL:
            self.emit('Checkcast', c)
        params = [*method.params, INTEGER] if self.rng.random() < self.wild else method.params
        for ty in params:
            self.value(ty, 0)
        self.emit('Invoke', method.name, len(params))
        del self.stack[height:]
        self.push(method.result)

    def computed(self, ty, fuel):
        if ty == INTEGER:
            kinds, code = (INTEGER, INTEGER), 'IAdd'
        else:
            kind = some_type(self.rng, self.world.count())
            kinds, code = (kind, kind), 'CmpEq'
        for kind in kinds:
            self.value(kind, fuel - 1)
        self.emit(code)
        del self.stack[-2:]
        self.push(ty)
        return True

    def cast(self, ty, fuel):
        self.value(class_type(self.rng.choice(list(self.world.upward(ty - 4)))), fuel - 1)
        self.emit('Checkcast', ty - 4)
        self.stack[-1] = ty
        return True

    # ---- statements ------------------------------------------------------------------------------------------------

    def block(self, most):
        """Statements that leave the stack's height; answers whether the end is reached."""
        for _ in range(self.rng.randrange(most + 1)):
            if self.left() <= 0:
                return True
            if not self.statement():
                return False
        return True

    def statement(self):
        rng = self.rng
        if rng.random() < self.wild:
            self.anything()
            return True
        simple = [self.store, self.store, self.store, self.drop, self.put_field, self.put_field]
        nested = [self.branch, self.loop, self.guard, self.guard, self.tight, self.carried] if self.left() > 12 else []
        leaving = [self.leave] if rng.random() < 0.1 else []
        return rng.choice(simple + nested + leaving)()

    def store(self):
        r = self.rng.randrange(len(self.registers))
        heads = [h[2][r] for h in self.loops if h[2][r] is not None]
        ty = heads[-1] if heads else some_type(self.rng, self.world.count())
        self.value(ty)
        found = self.stack.pop()
        if not all(self.world.below(found, head) for head in heads):
            self.emit('Pop')
            return True
        self.emit('Store', r)
        self.registers[r] = found
        for watched in self.watched:
            watched[r] = self.world.join(watched[r], found)
        return True

    def drop(self):
        self.value(some_type(self.rng, self.world.count()))
        self.emit('Pop')
        self.stack.pop()
        return True

    def put_field(self):
        fields = self.world.fields()
        if not fields:
            return self.drop()
        c, name, ty = self.rng.choice(fields)
        self.value(class_type(c))
        self.value(ty)
        self.emit('Putfield', name, c)
        del self.stack[-2:]
        return True

    def leave(self):
        """Ends the path: a return, a throw, an Invoke on Null, or a jump back to a loop's head."""
        heads = [h for h in self.loops if h[1] == len(self.stack)]
        if heads and self.rng.random() < 0.5:
            self.emit('Goto', self.rng.choice(heads)[0])
            return False
        height = len(self.stack)
        kind = self.rng.choice(['Return', 'Return', 'Throw', 'Invoke'])
        if kind == 'Return':
            self.value(self.method.result)
            self.emit('Return')
        elif kind == 'Throw':
            self.value(class_type(self.rng.randrange(self.world.count())))
            self.emit('Throw')
        else:
            self.put(('Push', None), NULL)
            self.emit('Invoke', some_name(self.rng), 0)
        del self.stack[height:]
        return False

    def meet(self, paths):
        """Goes on with the registers of all paths that reach this place."""
        reached = [registers for open_, registers in paths if open_]
        if not reached:
            return False
        self.registers = [self.joined([path[r] for path in reached]) for r in range(len(self.registers))]
        return True

    def joined(self, types):
        result = types[0]
        for ty in types[1:]:
            result = self.world.join(result, ty)
        return result

    def branch(self):
        other, end = self.label(), self.label()
        self.value(BOOLEAN)
        self.emit('IfFalse', other)
        self.stack.pop()
        before = list(self.registers)
        first = self.block(3)
        after_first = self.registers
        if first:
            self.emit('Goto', end)
        self.code.append(other)
        self.registers = before
        second = self.block(3)
        self.code.append(end)
        return self.meet([(first, after_first), (second, self.registers)])

    def loop(self):
        """Stores in the body stay below the registers at the head."""
        head, end = self.label(), self.label()
        before = list(self.registers)
        self.code.append(head)
        self.value(BOOLEAN, 2)
        self.emit('IfFalse', end)
        self.stack.pop()
        self.loops.append((head, len(self.stack), before))
        if self.block(4):
            self.emit('Goto', head)
        self.loops.pop()
        self.code.append(end)
        self.registers = before
        return True

    def carried(self):
        """Statements above a cell that waits for them."""
        self.value(some_type(self.rng, self.world.count()), 1)
        open_ = len(self.stack) >= EASY_STACK or self.block(3)
        if open_:
            self.emit('Pop')
        self.stack.pop()
        return open_

    def guard(self, caught=None):
        """A range of statements with a handler behind it."""
        first, end = self.label(), self.label()
        cells, watched = list(self.stack), list(self.registers)
        self.watched.append(watched)
        self.code.append(first)
        open_ = self.block(4)
        self.code.append(end)
        self.watched.pop()
        depth = len(cells) if self.rng.random() < 0.8 else self.rng.randrange(len(cells) + 1)
        return self.handled(first, end, cells, depth, open_, watched, caught)

    def tight(self):
        """A range around one instruction that may throw; its handler may keep the instruction's own operands."""
        first, end = self.label(), self.label()
        base = len(self.stack)
        c = self.rng.randrange(self.world.count())
        self.value(class_type(c), 1)
        if self.rng.random() < 0.3:
            self.value(class_type(c), 1)
        cells = list(self.stack)
        code = self.rng.choice([('Throw',), ('Checkcast', c), ('New', c)])
        self.code.append(first)
        self.emit(*code)
        self.code.append(end)
        if code[0] == 'New':
            self.push(class_type(c))
        if code[0] != 'Throw':
            self.drop_to(base)
        del self.stack[base:]
        depth = self.rng.randrange(len(cells) + 1)
        return self.handled(first, end, cells, depth, code[0] != 'Throw', self.registers, None)

    def handled(self, first, end, cells, depth, open_, registers, caught):
        """The handler of a range, and the place behind both where the stack is as it is now."""
        target, after = self.label(), self.label()
        below, after_range = list(self.stack), self.registers
        if open_:
            self.emit('Goto', after)
        if caught is None:
            caught = self.rng.choice([0, 0, 1, 2, 3, self.rng.randrange(self.world.count())])
        self.handlers.append((first, end, caught, target, depth))
        self.code.append(target)
        self.stack, self.registers = cells[:depth], list(registers)
        self.push(class_type(caught))
        reached = self.catch(len(below))
        self.stack = below
        self.code.append(after)
        return self.meet([(open_, after_range), (reached, self.registers)])

    def catch(self, height):
        """The handler's code; where it has fewer cells it cannot join the path behind the range."""
        if self.rng.random() < 0.2:
            self.emit('Throw')
            return False
        self.drop_to(min(height, len(self.stack) - 1))
        return self.block(2) if len(self.stack) == height else self.leave()

    def drop_to(self, height):
        while len(self.stack) > height:
            self.emit('Pop')
            self.stack.pop()

    def anything(self):
        """An instruction with random operands, whatever the types."""
        rng = self.rng
        code = rng.choice(OPCODES)
        number = lambda: rng.choice([0, 1, 2, 3, 4, 5, 7, 16, 31, 255])
        operands = {'Load': 1, 'Store': 1, 'New': 1, 'Checkcast': 1, 'Getfield': 2, 'Putfield': 2, 'Invoke': 2}
        if code == 'Push':
            self.emit(code, rng.choice([UNIT, None, True, 7]))
        elif code in ('IfFalse', 'Goto'):
            self.emit(code, rng.choice([0, 1, 1, 1, 2, -1, 5, -255, 255]))
        else:
            self.emit(code, *(number() for _ in range(operands.get(code, 0))))

    # ---- the whole method ------------------------------------------------------------------------------------------

    def endless(self):
        """A loop that catches whatever its body throws."""
        head = self.label()
        self.code.append(head)
        self.loops.append((head, 0, list(self.registers)))
        self.guard(0)
        self.emit('Goto', head)

    def body(self):
        if self.rng.random() < 0.4:
            self.endless()
        elif self.tight() if self.rng.random() < 0.2 else self.block(self.rng.choice([1, 2, 4, 8, 20])):
            self.value(self.method.result)
            self.emit('Return')
        else:
            self.emit('Goto', 0)

    def write(self):
        self.body()
        self.method.code = self.code
        self.method.handlers = self.handlers
        self.method.height = min(TOP_STACK, self.highest + self.rng.choice([0, 0, 1, 4]))
        if self.rng.random() < 0.02:
            self.method.height = max(0, self.highest - 1)
        if self.rng.random() < 0.1:
            self.rng.shuffle(self.method.handlers)
        if self.rng.random() < 0.02:
            self.method.handlers.append(tuple(self.rng.choice([0, 1, 2, 4, 31, 200, 255]) for _ in range(5)))


def fill(world, owner, method, wild):
    """Writes code until it keeps the limit of a method."""
    budget = world.rng.choice([10, 20, 40, 100, 200])
    while True:
        Coder(world, owner, method, budget, wild).write()
        if len(places_of(method.code)[0]) <= MAX_CODE:
            return
        budget //= 2


def program(rng, wild=(0, 0, 0, 0, 0, 0.02, 0.2)):
    """A random set; wild is how often its instructions may break rules, one of these shares for the whole set."""
    world = skeleton(rng)
    share = rng.choice(wild)
    total = handlers = 0
    for c, method in world.methods():
        fill(world, c, method, share)
        total += len(places_of(method.code)[0])
        handlers += len(method.handlers)
        if total > 1024 or handlers > 64:
            method.code, method.handlers, method.height = [('Goto', 0)], [], 0
    return world


def encoded(world):
    return encode(world.classes)
