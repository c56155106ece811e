#!/usr/bin/env python3
"""Writes the cases of crates/cases: rule-set files in stdin, and in stdout what an independent reader says of each.

Usage: tests/reading_cases.py        (from the repository's root)

The reader below follows docs/FORMAT.md and shares no code with the crates.
"""
from pathlib import Path


# ---- an independent reader -------------------------------------------------------------------------------------

class Refused(Exception):
    pass


class Reader:
    def __init__(self, data):
        self.data = data
        self.at = 0
        self.began = 0

    def refuse(self, number):
        raise Refused(number, self.began)

    def number(self):
        self.began = self.at
        value = 0
        for group in range(5):
            if self.at >= len(self.data):
                self.refuse(1)
            byte = self.data[self.at]
            self.at += 1
            if group == 4 and byte > 15:
                self.refuse(3)
            value |= (byte & 127) << (7 * group)
            if byte < 128:
                if group > 0 and byte == 0:
                    self.refuse(2)
                return value
        raise AssertionError

    def upto(self, most):
        n = self.number()
        if n > most:
            self.refuse(4)
        return n

    def type(self, classes):
        t = self.number()
        if t >= 8 + classes:
            self.refuse(6)
        return t

    def literal(self):
        kind = self.number()
        if kind > 3:
            self.refuse(5)
        if kind == 2 and self.number() > 1:
            self.refuse(5)
        if kind == 3:
            self.number()

    def instruction(self):
        code = self.number()
        if code > 14:
            self.refuse(5)
        if code in (0, 1, 4, 7):
            self.upto(255)
        elif code in (5, 6, 8):
            self.upto(255)
            self.upto(255)
        elif code == 2:
            self.literal()
        elif code in (12, 13):
            n = self.number()
            z = n // 2 if n % 2 == 0 else -(n + 1) // 2
            if not -255 <= z <= 255:
                self.refuse(4)

    def method(self, out, classes, superclass, mine):
        name = self.upto(255)
        if name in mine:
            self.refuse(7)
        params = [self.type(classes) for _ in range(self.upto(8))]
        result = self.type(classes)
        c = superclass
        while c >= 4:
            if name in out['classes'][c - 4]['methods']:
                if out['classes'][c - 4]['methods'][name] != (params, result):
                    self.refuse(8)
                break
            c = out['classes'][c - 4]['superclass']
        mine[name] = (params, result)
        self.upto(16)
        if 1 + len(params) + self.number() > 16:
            self.refuse(4)
        n = self.number()
        if n == 0 or n > 256 or out['instructions'] + n > 1024:
            self.refuse(4)
        for _ in range(n):
            self.instruction()
        out['instructions'] += n
        n = self.number()
        if out['handlers'] + n > 64:
            self.refuse(4)
        for _ in range(n):
            self.upto(256)
            self.upto(256)
            self.upto(255)
            self.upto(256)
            self.upto(256)
        out['handlers'] += n

    def class_(self, out, classes):
        superclass = self.number()
        if superclass >= 4 + len(out['classes']):
            self.refuse(6)
        inherited = out['classes'][superclass - 4]['rows'] if superclass >= 4 else 0
        n = self.number()
        if inherited + n > 8:
            self.refuse(4)
        fields = []
        for _ in range(n):
            name = self.upto(255)
            if name in fields:
                self.refuse(7)
            fields.append(name)
            self.type(classes)
        m = self.number()
        if out['methods'] + m > 64:
            self.refuse(4)
        mine = {}
        for _ in range(m):
            self.method(out, classes, superclass, mine)
        out['methods'] += m
        out['classes'].append({'superclass': superclass, 'rows': inherited + n, 'methods': mine})

    def file(self):
        out = {'classes': [], 'methods': 0, 'instructions': 0, 'handlers': 0}
        classes = self.upto(28)
        for _ in range(classes):
            self.class_(out, classes)
        if self.at < len(self.data):
            self.began = self.at
            self.refuse(9)
        return out


def answer(data):
    try:
        out = Reader(data).file()
    except Refused as r:
        return f'refused {r.args[0]} at {r.args[1]}'
    return f"read classes {len(out['classes'])} methods {out['methods']} instructions {out['instructions']}, written the same"


# ---- files -----------------------------------------------------------------------------------------------------

def num(n):
    out = []
    while n >= 128:
        out.append(n % 128 + 128)
        n //= 128
    return bytes(out + [n])


def signed(z):
    return num(2 * z if z >= 0 else -2 * z - 1)


def nums(*ns):
    return b''.join(num(n) for n in ns)


def counted(items):
    return num(len(items)) + b''.join(items)


RETURN = nums(9)


def method(name=7, params=(), result=0, height=1, extras=0, code=(RETURN,), handlers=()):
    return (num(name) + counted([num(t) for t in params]) + nums(result, height, extras)
            + counted(list(code)) + counted([nums(*h) for h in handlers]))


def klass(superclass=0, fields=(), methods=()):
    return num(superclass) + counted([nums(*f) for f in fields]) + counted(list(methods))


def file(*classes):
    return counted(list(classes))


def one(*code, **more):
    return file(klass(methods=[method(code=code, **more)]))


SUM = bytes.fromhex('01 00 00 01 07 00 02 02 00 04 02 03 04 02 03 06 0A 09 00')
BIG = 4294967295


def largest():
    code = [nums(2, 3) + signed(-2147483648)] * 15 + [RETURN]
    classes = []
    for c in range(28):
        superclass = 3 + c if c else 0
        fields = [(k, 35) for k in range(8)] if c == 0 else []
        count = 64 - 2 * 27 if c == 27 else 2
        classes.append(klass(superclass, fields, [method(name=3 * c + k + 100, params=[35] * 8, result=35, height=16, extras=7, code=code,
                                                         handlers=[(256, 256, 255, 256, 256)]) for k in range(count)]))
    return file(*classes)


def deep():
    return file(*[klass(3 + c if c else 0, [(200, 4)] if c < 8 else [], [method(name=9, params=[2, 4], result=1)]) for c in range(28)])


def cases():
    yield 'sum of two numbers', SUM
    yield 'its last byte gone', SUM[:-1]
    yield 'a byte behind it', SUM + b'\0'
    yield 'a padded instruction count', SUM[:9] + b'\x84\0' + SUM[10:]
    yield 'no own classes', b'\0'
    yield 'no bytes', b''
    yield 'cut in the first number', b'\x80'
    yield 'a fifth byte of 128 and nothing behind', b'\x80' * 5
    yield 'six groups, the last 0', b'\x80' * 5 + b'\0'
    yield 'five groups, the last 0', b'\x80' * 4 + b'\0'
    yield 'the greatest number', num(BIG)
    yield 'a fifth byte of 16', b'\xff\xff\xff\xff\x10'
    yield 'left over bytes are not read', b'\0\x80'
    for k in range(len(SUM)):
        yield f'cut at {k}', SUM[:k]
    yield '28 classes', file(*[klass()] * 28)
    yield '29 classes', num(29) + klass() * 29
    yield 'a count of classes above its limit, cut behind', num(29)
    yield 'superclass 3', file(klass(3))
    yield 'superclass itself', file(klass(4))
    yield 'superclass the class before', file(klass(), klass(4))
    yield 'superclass a later class', file(klass(), klass(6), klass())
    yield 'superclass 256', file(klass(256))
    yield 'the greatest superclass', file(klass(BIG))
    eight = [(k, 2) for k in range(8)]
    yield '8 fields', file(klass(fields=eight))
    yield '9 fields', file(klass(fields=eight + [(8, 2)]))
    yield '8 fields with inherited ones', file(klass(fields=eight[:5]), klass(4, fields=eight[5:]))
    yield '9 fields with inherited ones', file(klass(fields=eight[:5]), klass(4, fields=eight[4:]))
    yield '9 fields over three classes', file(klass(fields=eight[:3]), klass(4, fields=eight[:3]), klass(5, fields=eight[:3]))
    yield 'a count of fields, cut behind', nums(1, 0, 9)
    yield 'field name 255', file(klass(fields=[(255, 0)]))
    yield 'field name 256', file(klass(fields=[(256, 0)]))
    yield 'a field name again', file(klass(fields=[(1, 2), (2, 2), (1, 3)]))
    yield 'a field name again below', file(klass(fields=[(1, 2)]), klass(4, fields=[(1, 3)]))
    yield 'a field and a method of one name', file(klass(fields=[(7, 2)], methods=[method(7)]))
    for t in (0, 1, 2, 3, 4, 7, 8, 9, 40, BIG):
        yield f'a field of type {t} in a set of one class', file(klass(fields=[(1, t)]))
    yield 'the type of a later class', file(klass(fields=[(1, 9)]), klass())
    yield 'a parameter of no class', one(RETURN, params=[9])
    yield 'a result of no class', one(RETURN, result=9)
    yield '64 methods', file(klass(methods=[method(k) for k in range(64)]))
    yield '65 methods', file(klass(methods=[method(k) for k in range(65)]))
    yield '65 methods over two classes', file(klass(methods=[method(k) for k in range(40)]), klass(methods=[method(k) for k in range(25)]))
    yield 'method name 255', one(RETURN, name=255)
    yield 'method name 256', one(RETURN, name=256)
    yield 'a method name again', file(klass(methods=[method(1), method(2), method(1)]))
    yield 'a method name again, with other types', file(klass(methods=[method(1), method(1, result=2)]))
    yield '8 parameters', one(RETURN, params=[2] * 8)
    yield '9 parameters', one(RETURN, params=[2] * 9)
    yield 'an overriding method', file(klass(methods=[method(1, params=[2])]), klass(4, methods=[method(1, params=[2])]))
    yield 'overriding with another result', file(klass(methods=[method(1)]), klass(4, methods=[method(1, result=2)]))
    yield 'overriding with another parameter', file(klass(methods=[method(1, params=[1])]), klass(4, methods=[method(1, params=[2])]))
    yield 'overriding with one parameter more', file(klass(methods=[method(1, params=[1])]), klass(4, methods=[method(1, params=[1, 1])]))
    yield 'overriding over a class between', file(klass(methods=[method(1)]), klass(4), klass(5, methods=[method(1, result=2)]))
    yield 'a result of no class that also overrides', file(klass(methods=[method(1)]), klass(4, methods=[method(1, result=99)]))
    yield 'the same name beside, with other types', file(klass(methods=[method(1)]), klass(0, methods=[method(1, result=2)]))
    yield 'height 16', one(RETURN, height=16)
    yield 'height 17', one(RETURN, height=17)
    yield '16 registers', one(RETURN, params=[2] * 3, extras=12)
    yield '17 registers', one(RETURN, params=[2] * 3, extras=13)
    yield 'the greatest count of extras', one(RETURN, extras=BIG)
    yield 'no instructions', one()
    yield '256 instructions', one(*[RETURN] * 256)
    yield '257 instructions', one(*[RETURN] * 257)
    full = [method(k, code=[RETURN] * 256) for k in range(4)]
    yield '1,024 instructions', file(klass(methods=full))
    yield '1,025 instructions', file(klass(methods=full + [method(4)]))
    yield '1,025 instructions over two classes', file(klass(methods=full[:2]), klass(methods=full[2:] + [method(4)]))
    for code in (14, 15, 255, 256, BIG):
        yield f'instruction {code}', one(num(code))
    for code in (0, 1, 4, 7):
        yield f'operand 255 of instruction {code}', one(nums(code, 255))
        yield f'operand 256 of instruction {code}', one(nums(code, 256))
    for code in (5, 6, 8):
        yield f'operands 255 of instruction {code}', one(nums(code, 255, 255))
        yield f'first operand 256 of instruction {code}', one(nums(code, 256, 0))
        yield f'second operand 256 of instruction {code}', one(nums(code, 0, 256))
    for code in (12, 13):
        for n in (509, 510, 511, 512):
            yield f'offset {n} of instruction {code}', one(nums(code, n))
    for kind in (0, 1, 4, 256):
        yield f'kind {kind}', one(nums(2, kind))
    for b in (0, 1, 2, 256):
        yield f'Boolean {b}', one(nums(2, 2, b))
    for n in (0, 1, BIG - 1, BIG):
        yield f'Integer {n}', one(nums(2, 3, n))
    yield 'an oversize Integer', one(nums(2, 3) + b'\xff\xff\xff\xff\x1f')
    handler = (256, 256, 255, 256, 256)
    yield 'handler numbers at their limits', one(RETURN, handlers=[handler])
    for k in range(5):
        over = list(handler)
        over[k] += 1
        yield f'handler number {k} past its limit', one(RETURN, handlers=[over])
    yield '64 handlers', one(RETURN, handlers=[handler] * 64)
    yield '65 handlers', one(RETURN, handlers=[handler] * 65)
    yield '65 handlers over two methods', file(klass(methods=[method(1, handlers=[handler] * 33), method(2, handlers=[handler] * 32)]))
    yield 'the largest set', largest()
    yield 'the deepest classes', deep()


def main():
    here = Path(__file__).resolve().parent.parent / 'crates' / 'cases'
    stdin, stdout = [], []
    for label, data in cases():
        stdin += [f'# {label}', data.hex()]
        stdout += [f'# {label}', answer(data)]
    (here / 'stdin').write_text('\n'.join(stdin) + '\n')
    (here / 'stdout').write_text('\n'.join(stdout) + '\n')


main()
