#!/usr/bin/env python3
"""Feeds two shells the same random files and histories and compares every answer line.

Usage: tests/fuzz.py [--files N] [--histories N] [--seed S] [--ours CMD] [--plain CMD] [--out FILE]

The first difference is made small and written to a file as a script for the shell. A step that answers 4, or a set
that is not written as it was loaded, is a difference too, though both shells may agree on it. Exit status 1 then.
"""
import argparse
import random
import shlex
import subprocess
import sys
from collections import Counter
from pathlib import Path

ROOT = Path(__file__).resolve().parent.parent
sys.dont_write_bytecode = True
sys.path.insert(0, str(ROOT / 'tests'))

from changes import mutated, nudged  # noqa: E402
from programs import encoded, program  # noqa: E402

# Each case begins with what brings a shell back to its first state.
FRESH = ['load 00', 'heap slot', 'make 0']
CASES_A_BATCH = 40
PATIENCE = 120


# ---- cases: lists of command lines -----------------------------------------------------------------------------------

def file_case(rng):
    """A file, read and loaded; most of them changed, in the set or in the bytes."""
    kind = rng.random()
    world = program(rng)
    tables = [table_line(rng, world) for _ in range(3)]
    data = encoded(nudged(rng, world) if kind < 0.4 else world)
    if 0.4 < kind < 0.75:
        data = mutated(rng, data)
    elif kind > 0.95:
        data = bytes(rng.randrange(rng.choice([4, 16, 256])) for _ in range(rng.randrange(40)))
    return ['read ' + data.hex(), 'write', 'load ' + data.hex(), 'write', *tables, f'table {some_class(rng)} 7']


def some_class(rng):
    return rng.choice([0, 1, 3, 4, 4, 5, 6, 8, 31, 32, 255])


def history_case(rng):
    """A set, heaps over it, and calls in any order."""
    world = program(rng, wild=[0] * 19 + [0.02])
    data = encoded(world)
    lines = ['load ' + (mutated(rng, data) if rng.random() < 0.05 else data).hex()]
    for _ in range(rng.choice([1, 1, 2, 3])):
        lines += [heap_line(rng), f'make {rng.choice([0, 1, 4294967295])}']
        lines += calls(rng, world)
    return lines


def heap_line(rng):
    number = lambda: rng.choice([0, 0, 0, 1, 1, 1, 1, 1, 2, 3, 10, 65535])
    total = lambda: rng.choice([3, 4, 5, 8, 20, 60, 100, 300, 1000, 65535, 65535, 65535])
    triples = [f'{number()} {number()} {total()}' for _ in range(rng.choice([0, 0, 0, 1, 1, 2]))]
    return ' '.join(['heap', rng.choice(['slot', 'cell']), *triples])


def calls(rng, world):
    """Mostly runs from begin to end, with looks between and calls that are refused here and there."""
    lines = []
    for _ in range(rng.choice([1, 2, 3, 6])):
        lines.append(begin_line(rng, world))
        for _ in range(rng.choice([1, 2, 4, 8, 16])):
            lines.append(call_line(rng, world))
        lines += rng.sample(['look', 'objects', 'use', 'end', 'step'], rng.randrange(6))
        if rng.random() < 0.9:
            lines.append('end')
    return lines


def call_line(rng, world):
    kind = rng.random()
    if kind < 0.35:
        return 'step'
    if kind < 0.65:
        return f'run {rng.choice([0, 1, 2, 3, 5, 10, 30, 100, 1000, 5000])}'
    if kind < 0.8:
        return 'look'
    if kind < 0.95:
        return rng.choice(['objects', 'use', 'write'])
    return rng.choice([begin_line(rng, world), table_line(rng, world), 'end', odd_line(rng)])


def table_line(rng, world):
    c, method = some_method(rng, world)
    return f'table {c} {method.name if method else 7}'


def odd_line(rng):
    return rng.choice(['step 1', 'run', 'run x', 'run -1', 'run 18446744073709551616', 'begin 4', 'begin 256 7',
                       'begin 4 7 @65536', 'begin 4 7 2147483648', 'begin 4 7 word', 'heap', 'heap other',
                       'heap slot 1', 'heap slot 1 2 65536', 'heap cell 1 1 1 1 1 1 1 1 1', 'make', 'make 4294967296',
                       'read 0', 'load zz', 'table 4', 'table 4 7 1', 'table 256 7', 'nothing', 'look 1', 'end now'])


def some_method(rng, world):
    """A class and a method that it sees, mostly."""
    methods = world.methods()
    if not methods:
        return some_class(rng), None
    c, method = rng.choice(methods)
    return rng.choice(world.subclasses(c)), method


def begin_line(rng, world):
    c, method = some_method(rng, world)
    if method is None or rng.random() < 0.03:
        return f'begin {some_class(rng)} {rng.choice([0, 1, 7, 255])}'
    values = [some_value(rng, ty) for ty in world.seen(c, method.name).params]
    if rng.random() < 0.05:
        values = values[1:] if values and rng.random() < 0.5 else [*values, rng.choice(['unit', '1', 'null'])]
    return ' '.join(['begin', str(c), str(method.name), *values])


def some_value(rng, ty):
    if rng.random() < 0.02:
        return rng.choice(['unit', 'null', 'true', '5', '@0', '@3', '@65535'])
    plain = {0: ['unit'], 1: ['true', 'false'], 2: ['0', '1', '-1', '2147483647', '-2147483648']}
    return rng.choice(plain.get(ty, ['null']))


# ---- two shells ------------------------------------------------------------------------------------------------------

def answers(command, lines):
    """The answer lines of a shell; one that does not come to an end has none."""
    text = '\n'.join(lines) + '\n'
    try:
        done = subprocess.run(command, input=text, stdout=subprocess.PIPE, stderr=subprocess.STDOUT, text=True,
                              timeout=PATIENCE)
    except subprocess.TimeoutExpired:
        return []
    out = done.stdout.splitlines()
    return ['error:' if line.startswith('error:') else line for line in out]


def broken(lines, out):
    """The place of the first answer that breaks a promise by itself, or none."""
    held = None
    for at, (line, answer) in enumerate(zip(lines, out)):
        word = line.split()[0]
        if word in ('step', 'run') and answer.endswith('answer 4'):
            return at
        if word in ('read', 'load') and answer != 'error:':
            read = answer.startswith(('read', 'accepted')) or (word == 'load' and answer.startswith('refused 11'))
            held = ''.join(line.split()[1:]) if read else '00'
        if word == 'write' and held is not None and answer != held:
            return at
    return None


def difference(ours, plain, lines):
    """The place of the first line that the two answer differently or wrongly, or none."""
    mine, other = answers(ours, lines), answers(plain, lines)
    for at in range(len(lines)):
        if mine[at:at + 1] != other[at:at + 1]:
            return at
    wrong = broken(lines, mine)
    return wrong if len(mine) == len(lines) else len(lines) - 1


def smaller(ours, plain, lines):
    """Leaves out lines, large pieces first, as long as a difference stays."""
    shown = lines[:(difference(ours, plain, lines) or 0) + 1]
    if difference(ours, plain, shown) is not None:
        lines = shown
    piece = len(lines) // 2
    while piece > 0:
        at = 0
        while at < len(lines):
            shorter = lines[:at] + lines[at + piece:]
            if shorter and difference(ours, plain, shorter) is not None:
                lines = shorter
            else:
                at += piece
        piece //= 2
    return lines


# ---- counting and reporting ------------------------------------------------------------------------------------------

class Tally:
    def __init__(self):
        self.counts = Counter()
        self.refused = Counter()
        self.answers = Counter()
        self.phases = Counter()

    def add(self, lines, out):
        for line, answer in zip(lines, out):
            self.one(line.split()[0], answer.split())

    def one(self, command, answer):
        if not answer:
            return
        if answer[0] == 'refused':
            self.refused[int(answer[1])] += 1
        elif answer[0] == 'error:':
            self.counts['errors'] += 1
        elif command in ('load', 'begin'):
            self.counts[answer[0]] += 1
        elif command == 'step':
            self.answers[int(answer[1])] += 1
            self.counts['steps'] += answer[1] == '0'
        elif command == 'run':
            self.answers[int(answer[3])] += 1
            self.counts['steps'] += int(answer[1])
        elif command == 'end':
            self.phases[answer[1]] += 1

    def report(self):
        for name in ('files', 'histories', 'accepted', 'begun', 'steps', 'errors'):
            print(f'{name} {self.counts[name]}')
        for name, counter in (('refused', self.refused), ('last answers', self.answers), ('ended', self.phases)):
            print(name, ' '.join(f'{key}:{counter[key]}' for key in sorted(counter)))


def batches(options):
    """Lists of cases, each with its kind."""
    kinds = [('files', file_case)] * options.files + [('histories', history_case)] * options.histories
    for start in range(0, len(kinds), CASES_A_BATCH):
        batch = []
        for at in range(start, min(start + CASES_A_BATCH, len(kinds))):
            kind, make = kinds[at]
            batch.append((kind, FRESH + make(random.Random(f'{options.seed} {at}'))))
        yield batch


def run_batch(batch, ours, plain, tally):
    """Answers the first case with a difference, or none."""
    lines = [line for _, case in batch for line in case]
    mine, other = answers(ours, lines), answers(plain, lines)
    complete = len(mine) == len(other) == len(lines)
    at = 0
    for kind, case in batch:
        end = at + len(case)
        if mine[at:end] != other[at:end] or broken(case, mine[at:end]) is not None:
            # A shell that broke off may have swallowed answers that it owed before.
            return lines[:end] if complete else lines, case
        tally.counts[kind] += 1
        tally.add(case[len(FRESH):], mine[at + len(FRESH):end])
        at = end
    return None if complete else (lines, lines)


def report_difference(found, ours, plain, out):
    """A case mostly shows its difference alone; else all lines before it are kept."""
    before, case = found
    start = case if difference(ours, plain, case) is not None else before
    lines = smaller(ours, plain, start)
    Path(out).parent.mkdir(parents=True, exist_ok=True)
    Path(out).write_text('\n'.join(lines) + '\n')
    print(f'DIFFERENCE: script of {len(lines)} lines written to {out}')
    for name, command in (('ours', ours), ('plain', plain)):
        print(f'  {name}: {(answers(command, lines) or ["(nothing)"])[-1][:300]}')


def options():
    parser = argparse.ArgumentParser(description=__doc__.splitlines()[0])
    parser.add_argument('--files', type=int, default=2000)
    parser.add_argument('--histories', type=int, default=1000)
    parser.add_argument('--seed', default='1')
    parser.add_argument('--ours', default=f'{ROOT}/crates/loadrules/out/loadrules shell')
    parser.add_argument('--plain', default=f'{ROOT}/bench/plain/target/release/plain shell')
    parser.add_argument('--out', default=f'{ROOT}/tests/out/fuzz-difference.txt')
    return parser.parse_args()


def is_shell(command):
    try:
        return answers(command, ['load 00']) == ['accepted classes 0 methods 0 instructions 0']
    except OSError:
        return False


def main():
    chosen = options()
    ours, plain = shlex.split(chosen.ours), shlex.split(chosen.plain)
    for command in (ours, plain):
        if not is_shell(command):
            print(f'{shlex.join(command)} is no shell')
            return 2
    tally, found = Tally(), None
    for batch in batches(chosen):
        found = run_batch(batch, ours, plain, tally)
        if found:
            break
    tally.report()
    if found:
        report_difference(found, ours, plain, chosen.out)
        return 1
    print('no difference')
    return 0


if __name__ == '__main__':
    sys.exit(main())
