#!/usr/bin/env python3
"""Writes the rule-set files that are measured, into bench/files.

Usage: bench/make_files.py        (from the repository's root)

Each set is begun with class 4 and name 7 unless bench/run says otherwise, and runs for ever or is begun again.
"""
import sys
from pathlib import Path

ROOT = Path(__file__).resolve().parent.parent
sys.dont_write_bytecode = True
sys.path.insert(0, str(ROOT / 'tests'))

from assembler import (BOOLEAN, CLASS_CAST, INTEGER, NULL_POINTER, OBJECT, OUT_OF_MEMORY, UNIT, VOID, Class, Method,
                       class_type, encode)  # noqa: E402

MAIN = 7
LAST_CLASS = 31


def counting():
    """A counter to 1,000, over and over: loads, stores, sums, comparisons and jumps."""
    code = [
        ('Push', 0), ('Store', 1),
        'loop', ('Load', 1), ('Push', 1), ('IAdd',), ('Store', 1),
        ('Load', 1), ('Push', 1000), ('CmpEq',), ('IfFalse', 'loop'),
        ('Push', 0), ('Store', 1), ('Goto', 'loop'),
    ]
    return [Class(OBJECT, methods=[Method(MAIN, [], VOID, 2, 1, code)])]


def chain(methods_of, fields_of=lambda c: [], length=28):
    """Classes 4, 5, .. each below the one before."""
    return [Class(OBJECT if c == 4 else c - 1, fields_of(c), methods_of(c)) for c in range(4, 4 + length)]


def calls():
    """Virtual calls on objects of three depths: one name declared at the top alone, one overridden all the way."""
    top_only = Method(8, [], INTEGER, 1, 0, [('Push', 1), ('Return',)])
    objects = [step for register, c in ((1, LAST_CLASS), (2, 17), (3, 4)) for step in (('New', c), ('Store', register))]
    body = [step for register in (1, 2, 3) for step in (
        ('Load', register), ('Invoke', 8, 0), ('Pop',),
        ('Load', register), ('Push', 5), ('Invoke', 9, 1), ('Pop',))]
    main = Method(MAIN, [], VOID, 2, 3, [*objects, 'loop', *body, ('Goto', 'loop')])

    def methods_of(c):
        own = Method(9, [INTEGER], INTEGER, 2, 0, [('Load', 1), ('Push', c), ('IAdd',), ('Return',)])
        return [main, top_only, own] if c == 4 else [own]

    return chain(methods_of)


def fields():
    """Eight fields over two classes read and written: numbers and references."""
    low = [(f, INTEGER) for f in range(3)] + [(3, class_type(5))]
    high = [(f, INTEGER) for f in range(3)] + [(3, class_type(4))]
    number_moves = [step for f in range(3) for step in (
        ('Load', 1), ('Load', 1), ('Getfield', f, 4), ('Push', 1), ('IAdd',), ('Putfield', f, 5))]
    reference_moves = [
        ('Load', 1), ('Load', 1), ('Putfield', 3, 4),
        ('Load', 1), ('Getfield', 3, 4), ('Load', 1), ('Getfield', 3, 4), ('Putfield', 3, 5),
        ('Load', 1), ('Load', 1), ('Getfield', 0, 5), ('Putfield', 0, 4),
    ]
    code = [('New', 5), ('Store', 1), 'loop', *number_moves, *reference_moves, ('Goto', 'loop')]
    return [Class(OBJECT, low, [Method(MAIN, [], VOID, 3, 1, code)]), Class(4, high)]


def casts():
    """An object nine classes below 4 cast to each class above it."""
    body = [step for c in range(4, 14) for step in (('Load', 1), ('Checkcast', c), ('Store', 2))]
    code = [('New', 13), ('Store', 1), 'loop', *body, ('Goto', 'loop')]
    main = Method(MAIN, [], VOID, 1, 2, code)
    return chain(lambda c: [main] if c == 4 else [], length=10)


def throws():
    """Exceptions caught in the frame itself, two frames up, after a cast that fails and after a null receiver."""
    any_object, exception = class_type(OBJECT), class_type(5)
    throws_it = Method(8, [exception], any_object, 1, 0, [('Load', 1), ('Throw',)])
    between = Method(9, [exception], any_object, 2, 0, [('Load', 0), ('Load', 1), ('Invoke', 8, 1), ('Return',)])
    code = [
        ('New', 5), ('Store', 1),
        'own', ('Load', 1), ('Throw',),
        'far', ('Pop',), ('Load', 0), ('Load', 1), ('Invoke', 9, 1), ('Return',),
        'cast', ('Pop',), ('Load', 0), ('Checkcast', 5), ('Return',),
        'null', ('Pop',), ('Push', None), ('Getfield', 0, 4), ('Return',),
        'over', ('Pop',), ('Goto', 'own'),
    ]
    handlers = [('own', 'far', 5, 'far', 0), ('far', 'cast', OBJECT, 'cast', 0),
                ('cast', 'null', CLASS_CAST, 'null', 0), ('null', 'over', NULL_POINTER, 'over', 0)]
    main = Method(MAIN, [], any_object, 2, 1, code, handlers)
    return [Class(OBJECT, [(0, any_object)], [main, throws_it, between]), Class(OBJECT)]


def allocation():
    """New until the heap refuses. Name 7 then returns (to be begun again); name 8 goes on in the full heap."""
    filling = ['new', ('New', 5), ('Pop',), ('Goto', 'new')]
    ends = Method(7, [], VOID, 1, 0, [*filling, 'full', ('Pop',), ('Push', UNIT), ('Return',)],
                  [('new', 'full', OUT_OF_MEMORY, 'full', 0)])
    goes_on = Method(8, [], VOID, 1, 0, [*filling, 'full', ('Pop',), ('Goto', 'new')],
                     [('new', 'full', OUT_OF_MEMORY, 'full', 0)])
    return [Class(OBJECT, methods=[ends, goes_on]), Class(OBJECT, [(f, INTEGER) for f in range(4)])]


def everyday(c, m):
    """Sixteen instructions of most kinds, with one handler: a method of the largest set."""
    code = [
        'top', ('Load', 0), ('Checkcast', 4), ('Getfield', 200, 4), ('Push', 100_000 + c), ('IAdd',), ('Store', 2),
        ('Load', 1), ('IfFalse', 'other'),
        'work', ('Load', 0), ('Load', 1), ('Invoke', 128 + m, 1), ('Goto', 'join'),
        'other', ('New', c),
        'join', ('Checkcast', 4),
        'caught', ('Pop',), ('Goto', 'top'),
    ]
    return Method(128 + m, [BOOLEAN], class_type(4), 2, 1, code, [('work', 'caught', OBJECT, 'caught', 0)])


def largest():
    """28 classes in a chain, 64 methods of 16 instructions with a handler each: the greatest set of everyday code."""
    def methods_of(c):
        return [everyday(c, m) for m in range(3 if c < 12 else 2)]

    return chain(methods_of, lambda c: [(200, INTEGER)] if c == 4 else [])


def climbing():
    """256 instructions whose rows rise often: each way round the loop brings a higher class, and each class wanders
    from register to register, one a round."""
    code = [('New', LAST_CLASS), ('Store', 2)]
    code += [step for r in range(3, 13) for step in (('Load', 2), ('Store', r))]
    code += ['head', *[step for r in range(12, 2, -1) for step in (('Load', r - 1), ('Store', r))]]
    for k in range(42):
        away = f'away {k}'
        code += [('Load', 1), ('IfFalse', away), ('New', LAST_CLASS - k % 28), ('Store', 2), ('Goto', 'head'), away]
    return code + [('Load', 1), ('Pop',), ('Goto', 1), ('Goto', 'head')]


def hardest():
    """The greatest set with three methods that make the verifier go round and round."""
    short = [('Load', 1), ('Pop',), ('Load', 0), ('Return',)]
    codes = [climbing()] * 3 + [[('Load', 1), ('Pop',)] * 6 + short] + [short] * 60
    classes = chain(lambda c: [])
    for k, code in enumerate(codes):
        extras = 11 if k < 3 else 0
        classes[k % 28].methods.append(Method(MAIN + k, [BOOLEAN], class_type(4), 1, extras, code))
    return classes


def main():
    out = ROOT / 'bench' / 'files'
    out.mkdir(exist_ok=True)
    for make in (counting, calls, fields, casts, throws, allocation, largest, hardest):
        (out / f'{make.__name__}.lr').write_bytes(encode(make()))


if __name__ == '__main__':
    main()
