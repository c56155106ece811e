#!/usr/bin/env python3
"""Writes tests/scripts: commands for the shell in NAME.in, and the answers to them in NAME.out.

Usage: tests/scripts.py        (from the repository's root, with the plain machine of bench/ built)

The answers are those of the plain machine, which shares no code with the crates. What each case is to answer is said
here too, by hand, and the plain machine is held to it.
"""
import subprocess
from pathlib import Path

from assembler import BOOLEAN, INTEGER, NULL, OBJECT, UNIT, VOID, Class, Method, class_type, encode

ROOT = Path(__file__).resolve().parent.parent
PLAIN = ROOT / 'bench' / 'plain' / 'target' / 'release' / 'plain'
CAR, CABIN, CHAIR = 4, 5, 6
NAME, OTHER = 7, 8
LEAVE = [('Push', UNIT), ('Return',)]


# ---- verifying --------------------------------------------------------------------------------------------------

def cars(*methods):
    """Class 4 with a number and a car, two classes below it, and the methods in class 4."""
    other = Method(OTHER, [INTEGER], INTEGER, 2, 0, [('Load', 1), ('Return',)])
    return [Class(OBJECT, [(0, INTEGER), (1, class_type(CAR))], [other, *methods]),
            Class(CAR, [(2, BOOLEAN)]), Class(CAR)]


def method(code, params=(), result=VOID, height=2, extras=0, handlers=()):
    return cars(Method(NAME, list(params), result, height, extras, code, list(handlers)))


ON_CABIN = [class_type(CABIN)]
ON_NUMBER = [INTEGER]
THROWS = [('Load', 1), ('Throw',), 'caught', ('Pop',), *LEAVE]

# what it shows, whether it is accepted, the method
VERIFYING = [
    ('a register is loaded', True, method([('Load', 0), ('Pop',), *LEAVE])),
    ('a register that there is not is loaded', False, method([('Load', 1), ('Pop',), *LEAVE])),
    ('an unusable register is loaded', False, method([('Load', 1), ('Pop',), *LEAVE], extras=1)),
    ('a register that there is not is stored', False, method([('Push', 1), ('Store', 1), *LEAVE])),
    ('nothing is stored', False, method([('Store', 0), *LEAVE])),
    ('this object is stored over', True, method([('Push', 1), ('Store', 0), *LEAVE])),
    ('a push above the greatest height', False, method([('Push', 1), *LEAVE], height=1)),
    ('nothing is popped', False, method([('Pop',), *LEAVE])),
    ('a new object', True, method([('New', CABIN), ('Pop',), *LEAVE])),
    ('a new object of no class', False, method([('New', 7), ('Pop',), *LEAVE])),
    ('a new object above the greatest height', False, method([('Push', 1), ('New', 4), *LEAVE], height=1)),
    ('a field of a class below', True, method([('Load', 1), ('Getfield', 0, CAR), ('Pop',), *LEAVE], ON_CABIN)),
    ('a field of Null', True, method([('Push', None), ('Getfield', 0, CAR), ('Pop',), *LEAVE])),
    ('a field that is only inherited', False, method([('Load', 1), ('Getfield', 0, CABIN), ('Pop',), *LEAVE], ON_CABIN)),
    ('a field of a number', False, method([('Load', 1), ('Getfield', 0, CAR), ('Pop',), *LEAVE], ON_NUMBER)),
    ('a field of nothing', False, method([('Getfield', 0, CAR), ('Pop',), *LEAVE])),
    ('a field is put', True, method([('Load', 0), ('Load', 1), ('Putfield', 1, CAR), *LEAVE], ON_CABIN)),
    ('a number is put into a car', False, method([('Load', 0), ('Push', 1), ('Putfield', 1, CAR), *LEAVE])),
    ('a field of a class above is put', False, method([('Load', 0), ('Push', True), ('Putfield', 2, CABIN), *LEAVE])),
    ('a field is put with one cell', False, method([('Push', 1), ('Putfield', 0, CAR), *LEAVE])),
    ('a field of Null is put', True, method([('Push', None), ('Push', 1), ('Putfield', 0, CAR), *LEAVE])),
    ('a cast', True, method([('Load', 0), ('Checkcast', CHAIR), ('Store', 1), *LEAVE], extras=1)),
    ('a cast of a number', False, method([('Push', 1), ('Checkcast', CAR), ('Pop',), *LEAVE])),
    ('a cast to no class', False, method([('Load', 0), ('Checkcast', 7), ('Pop',), *LEAVE])),
    ('a call', True, method([('Load', 1), ('Push', 1), ('Invoke', OTHER, 1), ('Pop',), *LEAVE], ON_CABIN)),
    ('a call on a number', False, method([('Push', 1), ('Push', 1), ('Invoke', OTHER, 1), ('Pop',), *LEAVE])),
    ('a call of no method', False, method([('Load', 0), ('Push', 1), ('Invoke', 9, 1), ('Pop',), *LEAVE])),
    ('a call with too few arguments', False, method([('Load', 0), ('Invoke', OTHER, 0), ('Pop',), *LEAVE])),
    ('a call with another argument', False, method([('Load', 0), ('Push', True), ('Invoke', OTHER, 1), ('Pop',), *LEAVE])),
    ('a call with too few cells', False, method([('Push', 1), ('Invoke', OTHER, 1), ('Pop',), *LEAVE])),
    ('a call on Null has no successor and no needs', True, method([('Push', None), ('Push', 1), ('Invoke', 99, 1)])),
    ('another result', False, method([('Push', 1), ('Return',)])),
    ('no result', False, method([('Return',)])),
    ('a result above other cells', True, method([('Push', 1), *LEAVE])),
    ('a sum of a number and a Boolean', False, method([('Push', 1), ('Push', True), ('IAdd',), ('Pop',), *LEAVE])),
    ('a number compared with a Boolean', False, method([('Push', 1), ('Push', True), ('CmpEq',), ('Pop',), *LEAVE])),
    ('Null compared with a car', True, method([('Push', None), ('Load', 0), ('CmpEq',), ('Pop',), *LEAVE])),
    ('two Units compared', True, method([('Push', UNIT), ('Push', UNIT), ('CmpEq',), ('Pop',), *LEAVE])),
    ('one cell compared', False, method([('Push', 1), ('CmpEq',), ('Pop',), *LEAVE])),
    ('a branch on a number', False, method([('Push', 1), ('IfFalse', 1), *LEAVE])),
    ('a branch behind the end', False, method([('Push', True), ('IfFalse', 9), *LEAVE])),
    ('a branch before the first', False, method([('Push', True), ('IfFalse', -9), *LEAVE])),
    ('a jump behind the end', False, method([('Goto', 1)])),
    ('a jump to itself at height 0', True, method([('Goto', 0)], height=0)),
    ('a throw of a number', False, method([('Push', 1), ('Throw',)])),
    ('a throw of Null', True, method([('Push', None), ('Throw',)])),
    ('code runs off its end', False, method([('Push', 1)])),
    ('unreached code is not looked at', True, method([*LEAVE, ('IAdd',), ('New', 99), ('Goto', 9)])),
    ('paths meet with two types in a stack cell', False, method(
        [('Load', 1), ('IfFalse', 'no'), ('Push', 5), ('Goto', 'meet'), 'no', ('Push', None), 'meet', ('Store', 2), *LEAVE],
        [BOOLEAN], height=1, extras=1)),
    ('paths meet with two types in a register', True, method(
        [('Load', 1), ('IfFalse', 'no'), ('Push', 5), ('Store', 2), ('Goto', 'meet'), 'no', ('Push', None), ('Store', 2),
         'meet', *LEAVE], [BOOLEAN], height=1, extras=1)),
    ('paths meet with stacks of two heights', False, method(
        [('Load', 1), ('IfFalse', 'no'), ('Push', 5), 'no', *LEAVE], [BOOLEAN])),
    ('two classes meet in a loop', True, method(
        [('New', CABIN), ('Store', 2), 'loop', ('New', CHAIR), ('Store', 2), ('Load', 1), ('IfFalse', 'loop'), ('Load', 2),
         ('Getfield', 0, CAR), ('Pop',), *LEAVE], [BOOLEAN], extras=1)),
    ('a number and a car meet in a loop', True, method(
        [('Load', 0), ('Store', 2), 'loop', ('Push', 1), ('Store', 2), ('Load', 1), ('IfFalse', 'loop'), *LEAVE],
        [BOOLEAN], extras=1)),
    ('a handler keeps its lowest cells', True, method(
        [('Push', 1), ('Push', True), ('Load', 0), ('Throw',), 'caught', ('Pop',), ('Push', 2), ('IAdd',), ('Return',)],
        result=INTEGER, height=3, handlers=[(3, 4, OBJECT, 'caught', 1)])),
    ('a handler keeps cells of another type', False, method(
        [('Push', True), ('Push', 1), ('Load', 0), ('Throw',), 'caught', ('Pop',), ('Push', 2), ('IAdd',), ('Return',)],
        result=INTEGER, height=3, handlers=[(3, 4, OBJECT, 'caught', 1)])),
    ('a handler as deep as the height', True, method(
        [('Load', 1), ('Throw',), 'caught', ('Pop',), ('Pop',), *LEAVE], ON_CABIN, handlers=[(1, 2, OBJECT, 'caught', 1)])),
    ('a handler deeper than the height', False, method(THROWS, ON_CABIN, height=3, handlers=[(1, 2, OBJECT, 'caught', 2)])),
    ('a handler as deep as the greatest height', False, method(THROWS, ON_CABIN, height=1, handlers=[(1, 2, OBJECT, 'caught', 1)])),
    ('a handler with its target behind the end', False, method(THROWS, ON_CABIN, handlers=[(1, 2, OBJECT, 9, 0)])),
    ('a handler with the first instruction as target', False, method(THROWS, ON_CABIN, handlers=[(1, 2, OBJECT, 0, 0)])),
    ('a handler of no class over a throw', False, method(THROWS, ON_CABIN, handlers=[(1, 2, 99, 'caught', 0)])),
    ('a handler of no class over a field', True, method(
        [('Load', 0), ('Getfield', 0, CAR), ('Pop',), *LEAVE], handlers=[(0, 9, 99, 200, 9)])),
    ('a handler of another class over a new object', True, method(
        [('New', CAR), ('Pop',), *LEAVE], handlers=[(0, 9, 1, 200, 9)])),
    ('a handler that covers nothing', True, method(THROWS, ON_CABIN, handlers=[(2, 1, OBJECT, 200, 9)])),
    ('two handlers with one target', True, method(
        THROWS, ON_CABIN, handlers=[(1, 2, OBJECT, 'caught', 0), (1, 2, 1, 'caught', 0)])),
    ('no handler hides another', False, method(
        THROWS, ON_CABIN, handlers=[(1, 2, OBJECT, 'caught', 0), (1, 2, 1, 0, 0)])),
]


def verifying():
    for label, accepted, classes in VERIFYING:
        answer = 'accepted' if accepted else 'refused 11 at 1'
        yield f'load {encode(classes).hex()}', answer, label
        if accepted:
            yield f'table {CABIN} {NAME}', '', None


# ---- running ----------------------------------------------------------------------------------------------------

def alone(code, result=VOID, height=2, **more):
    return [Class(OBJECT, [], [Method(NAME, [], result, height, 0, code, **more)])]


FILL = [('New', 4), ('Pop',), ('Goto', -2)]


def run_once(classes, heap, number):
    yield f'load {encode(classes).hex()}', 'accepted', None
    yield f'heap {heap}', 'heap ok', None
    yield f'make {number}', 'made', None


def running():
    yield 'begin 4 7', 'error', 'no machine yet'
    yield from run_once(alone([('Push', 2), ('Push', 3), ('IAdd',), ('Return',)], INTEGER), 'slot', 1)
    for command, answer in [('step', 'refused 16'), ('run 0', 'refused 16'), ('end', 'refused 16'),
                            ('begin 4 8', 'refused 13'), ('begin 3 7', 'refused 13'), ('begin 4 7 1', 'refused 14'),
                            ('begin 4 7', 'begun'), ('begin 4 7', 'refused 12'), ('look', 'running | method 0 at 0'),
                            ('run 0', 'ran 0 answer 0'), ('step', 'answer 0'), ('run 2', 'ran 2 answer 0'),
                            ('look', 'running | method 0 at 3 stack [5]'), ('step', 'answer 0'), ('step', 'answer 1'),
                            ('run 3', 'ran 0 answer 1'), ('run 0', 'ran 0 answer 0'), ('look', 'finished'),
                            ('end', 'ended finished 4 5'), ('use', '4/128'), ('look', 'idle')]:
        yield command, answer, None
    wraps = alone([('Push', 2147483647), ('Push', 1), ('IAdd',), ('Return',)], INTEGER)
    for heap in ['slot', 'cell']:
        yield from run_once(wraps, heap, 2)
        yield 'begin 4 7', 'begun', 'sums wrap'
        yield 'run 99', 'ran 4 answer 1', None
        yield 'end', 'ended finished 4 -2147483648', None
    yield from run_once(alone([('Load', 0), ('Invoke', NAME, 0), ('Return',)]), 'slot', 3)
    yield 'begin 4 7', 'begun', 'frames are full at step 64'
    yield 'run 100', 'ran 63 answer 3', None
    yield 'step', 'answer 3', None
    yield 'end', 'ended running 63 -', None
    for heap, answer, news in [('slot', 'begun', 124), ('cell', 'begun', 1020), ('slot 1 0 4', 'begun', 0),
                               ('slot 1 0 5', 'begun', 1), ('cell 1 0 9 2 0 12', 'begun', 2),
                               ('slot 1 0 3', 'refused 15', None), ('slot 1 0 0', 'refused 15', None)]:
        yield from run_once(alone(FILL), heap, 4)
        yield 'begin 4 7', answer, f'a heap is filled: {heap}'
        if news is not None:
            yield 'run 10000', f'ran {3 * news + 1} answer 2', None
            yield 'end', f'ended uncaught {3 * news + 1} @2', None
        yield 'use', '', None
        yield 'objects', '', None


# ---- both -------------------------------------------------------------------------------------------------------

def write(name, cases):
    cases = list(cases)
    script = ''.join((f'# {label}\n' if label else '') + command + '\n' for command, _, label in cases)
    out = subprocess.run([PLAIN, 'shell'], input=script, capture_output=True, text=True, check=True).stdout
    answers = out.splitlines()
    assert len(answers) == len(cases), (len(answers), len(cases))
    for (command, expected, label), answer in zip(cases, answers):
        assert answer.startswith(expected), (label, command, expected, answer)
    (ROOT / 'tests' / 'scripts' / f'{name}.in').write_text(script)
    (ROOT / 'tests' / 'scripts' / f'{name}.out').write_text(out)
    print(f'{name}: {len(cases)} commands')


if __name__ == '__main__':
    write('verifying', verifying())
    write('running', running())
