"""Random classes for the fuzz driver: fields, signatures and the relations that typing asks for, without code."""
from assembler import BOOLEAN, INTEGER, NULL, VOID, Class, Method, class_type


class World:
    """The classes of a set while it is made, with the relations that typing asks for."""

    def __init__(self, rng):
        self.rng = rng
        self.classes = []

    def count(self):
        return 4 + len(self.classes)

    def superclass(self, c):
        return 0 if c < 4 else self.classes[c - 4].superclass

    def upward(self, c):
        while c:
            yield c
            c = self.superclass(c)
        yield 0

    def below(self, t, u):
        return t == u or (u >= 4 and (t == NULL or (t >= 4 and u - 4 in self.upward(t - 4))))

    def join(self, t, u):
        """The least type above both, or none."""
        if t is None or u is None:
            return None
        if self.below(t, u) or self.below(u, t):
            return u if self.below(t, u) else t
        if t < 4 or u < 4:
            return None
        return 4 + next(c for c in self.upward(t - 4) if c in self.upward(u - 4))

    def row(self, c):
        return sum(len(self.classes[d - 4].fields) for d in self.upward(c) if d >= 4)

    def seen(self, c, name):
        for d in self.upward(c):
            for method in self.classes[d - 4].methods if d >= 4 else []:
                if method.name == name:
                    return method
        return None

    def fields(self):
        """Every declared field: class, name, type."""
        return [(4 + i, name, ty) for i, c in enumerate(self.classes) for name, ty in c.fields]

    def methods(self):
        """Every declared method: class, method."""
        return [(4 + i, m) for i, c in enumerate(self.classes) for m in c.methods]

    def subclasses(self, c):
        return [d for d in range(self.count()) if c in self.upward(d)]


def some_type(rng, count):
    plain = rng.choice([VOID, BOOLEAN, BOOLEAN, INTEGER, INTEGER, INTEGER, NULL])
    return class_type(rng.randrange(count)) if rng.random() < 0.45 else plain


def some_name(rng):
    return rng.choice([0, 1, 2, 3, 4, 5, 6, 7, 7, 127, 128, 255])


def signature(world, c, name, count):
    """An overriding method keeps the inherited types."""
    rng = world.rng
    inherited = world.seen(world.superclass(c), name)
    if inherited and rng.random() < 0.99:
        return list(inherited.params), inherited.result
    params = [some_type(rng, count) for _ in range(rng.choice([0, 0, 0, 1, 1, 2, 3, 8]))]
    return params, some_type(rng, count)


def add_class(world, count, methods):
    rng = world.rng
    c = world.count()
    own = Class(rng.choice([0, c - 1, rng.randrange(c)]))
    world.classes.append(own)
    room = 8 - world.row(c)
    names = list(dict.fromkeys(some_name(rng) for _ in range(rng.choice([0, 1, 1, 2, 3, 8]))))
    own.fields = [(name, some_type(rng, count)) for name in names[:room]]
    for name in list(dict.fromkeys(some_name(rng) for _ in range(rng.choice(methods)))):
        params, result = signature(world, c, name, count)
        extras = min(rng.choice([0, 1, 1, 2, 3, 4, 15]), 15 - len(params))
        own.methods.append(Method(name, params, result, 0, extras, []))


def skeleton(rng):
    """Classes, fields and signatures; the types may name classes that come later."""
    own = rng.choice([1, 1, 1, 2, 2, 2, 3, 3, 4, 4, 5, 6, 8, 28]) if rng.random() < 0.99 else 0
    world = World(rng)
    for _ in range(own):
        add_class(world, 4 + own, [0, 1, 2, 2] if own == 28 else [0, 1, 1, 2, 3, 5])
    return world
