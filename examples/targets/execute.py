"""Runs what `regs @x86-64` writes: random functions are selected, assembled, linked and called, and what they
give is compared with an evaluator of trees that stands here.

    python3 examples/targets/execute.py PROGRAM FOLDER [FUNCTIONS [SEED]]

Each function stores one expression, and returns another, or one that a comparison chooses. The expressions
are over constants, memory with and without an index, and all arithmetic of the grammar. It needs a C compiler for
x86-64 with an assembler that takes Intel's syntax, and ends with status 1 at a difference.
"""
import os
import random
import subprocess
import sys

MASK = (1 << 64) - 1
# No value outlives a call, `rcx` is taken by shifts, and `rax` by what is returned.
REGISTERS = 'r8,r9,r10,r11,rsi,rdi,rdx'
TABLE = [3, -1, 1 << 40, -(1 << 62), 0, 255, 7_777_777_777, -12]
PLACES = {'first': 41, 'second': -9_000_000_000_000, 'third': (1 << 63) - 1}


def signed(value):
    value &= MASK
    return value - (1 << 64) if value >> 63 else value


class Tree:
    """An operator, its attribute, its kids, and what it is worth."""

    def __init__(self, name, attribute=None, kids=(), value=None):
        self.name, self.attribute, self.kids, self.value = name, attribute, kids, value

    def __str__(self):
        head = self.name if self.attribute is None else f'{self.name}:{self.attribute}'
        return f'{head}({",".join(map(str, self.kids))})' if self.kids else head


def constant(value):
    return Tree('CNST', value, (), value)


def address(symbol):
    return Tree('ADDR', symbol)


OPERATIONS = {
    'ADD': lambda a, b: a + b,
    'SUB': lambda a, b: a - b,
    'MUL': lambda a, b: a * b,
    'AND': lambda a, b: a & b,
    'OR': lambda a, b: a | b,
    'XOR': lambda a, b: a ^ b,
    'SHL': lambda a, b: a << (b & 63),
    'SHR': lambda a, b: a >> (b & 63),
}


def operation(name, left, right):
    return Tree(name, None, (left, right), signed(OPERATIONS[name](left.value, right.value)))


def some_constant(draw):
    kind = draw.random()
    if kind < 0.5:
        return constant(draw.randrange(-9, 65))
    if kind < 0.75:
        return constant(draw.choice([-(1 << 31), (1 << 31) - 1, 1 << 31, -(1 << 31) - 1, -(1 << 63), (1 << 63) - 1]))
    return constant(signed(draw.getrandbits(64)))


def loaded(draw, depth):
    """Memory by its name, at a distance, and by an index."""
    kind = draw.random()
    if kind < 0.4:
        name = draw.choice(list(PLACES))
        return Tree('INDIR', None, (address(name),), PLACES[name])
    if kind < 0.6:
        at = draw.randrange(8)
        return Tree('INDIR', None, (Tree('ADD', None, (address('table'), constant(8 * at))),), TABLE[at])
    index = operation('AND', expression(draw, depth - 1), constant(3))
    scaled = Tree('SHL', None, (index, constant(3)))
    where = Tree('ADD', None, (address('table'), scaled))
    further = draw.choice([0, 0, 2, 4])
    if further:
        where = Tree('ADD', None, (where, constant(8 * further)))
    return Tree('INDIR', None, (where,), TABLE[index.value + further])


def expression(draw, depth):
    if depth <= 0:
        return some_constant(draw)
    kind = draw.random()
    if kind < 0.15:
        return some_constant(draw)
    if kind < 0.35:
        return loaded(draw, depth)
    if kind < 0.42:
        kid = expression(draw, depth - 1)
        return Tree('NEG', None, (kid,), signed(-kid.value))
    return operation(draw.choice(list(OPERATIONS)), expression(draw, depth - 1), expression(draw, depth - 1))


COMPARED = {'BEQ': lambda a, b: a == b, 'BNE': lambda a, b: a != b, 'BLT': lambda a, b: a < b}


def function(draw, number):
    """The trees of a function, what it stores and what it returns."""
    stored, returned = expression(draw, draw.randrange(1, 5)), expression(draw, draw.randrange(1, 5))
    trees = [Tree('ASGN', None, (address('stored'), stored))]
    result = returned.value
    if draw.random() < 0.5:
        name = draw.choice(list(COMPARED))
        left = expression(draw, 2)
        right = draw.choice([left, expression(draw, 2)])
        other = expression(draw, draw.randrange(1, 4))
        label = f'.Lother{number}'
        trees += [Tree(name, label, (left, right)), Tree('RET', None, (returned,)), Tree('LABEL', label), Tree('RET', None, (other,))]
        if COMPARED[name](left.value, right.value):
            result = other.value
    else:
        trees.append(Tree('RET', None, (returned,)))
    return trees, stored.value, result


def answered(output):
    """The text of each tree, or None where it needs more registers."""
    texts = []
    for line in output.splitlines():
        if line.startswith('; tree '):
            texts.append(None if ' needs ' in line else '')
        else:
            texts[-1] += line + '\n'
    return texts


DRIVER = '''#include <stdio.h>
long first = {first}, second = {second}, third = {third}, stored;
long table[] = {{{table}}};
{heads}
long (*const called[])(void) = {{{names}}};
int main(void)
{{
	for (unsigned at = 0; at < sizeof called / sizeof *called; at++) {{
		long returned = called[at]();
		printf("%ld %ld\\n", stored, returned);
	}}
	return 0;
}}
'''


def literal(value):
    return f'(long)0x{value & MASK:x}UL'


def built(folder, functions):
    """The program of these functions, by their names and texts."""
    with open(os.path.join(folder, 'functions.s'), 'w') as out:
        print('.intel_syntax noprefix\n.text', file=out)
        for name, text in functions:
            print(f'.globl {name}\n{name}:\n{text}', file=out)
        print('.section .note.GNU-stack,"",@progbits', file=out)
    names = [name for name, _ in functions]
    with open(os.path.join(folder, 'driver.c'), 'w') as out:
        out.write(DRIVER.format(**{name: literal(value) for name, value in PLACES.items()}, table=', '.join(map(literal, TABLE)),
                                heads='\n'.join(f'long {name}(void);' for name in names), names=', '.join(names)))
    program = os.path.join(folder, 'program')
    subprocess.run(['cc', '-no-pie', '-o', program, os.path.join(folder, 'driver.c'), os.path.join(folder, 'functions.s')], check=True)
    return program


def main():
    program, folder = sys.argv[1:3]
    count = int(sys.argv[3]) if len(sys.argv) > 3 else 1_000
    draw = random.Random(int(sys.argv[4]) if len(sys.argv) > 4 else 1)
    drawn = [function(draw, number) for number in range(count)]
    forest = os.path.join(folder, 'functions.forest')
    with open(forest, 'w') as out:
        for trees, _, _ in drawn:
            print(*trees, sep='\n', file=out)
    ran = subprocess.run([program, 'regs', '@x86-64', forest, '--registers', REGISTERS], capture_output=True, text=True)
    if ran.returncode not in (0, 8):
        sys.exit(f'regs ended with {ran.returncode}: {ran.stderr}')
    texts = iter(answered(ran.stdout))
    functions, wanted, dear = [], [], 0
    for number, (trees, stored, returned) in enumerate(drawn):
        own = [next(texts) for _ in trees]
        if None in own:
            dear += 1
            continue
        functions.append((f'function{number}', ''.join(own)))
        wanted.append(f'{stored} {returned}')
    came = subprocess.run([built(folder, functions)], capture_output=True, text=True, check=True).stdout.splitlines()
    wrong = [(name, want, got) for (name, _), want, got in zip(functions, wanted, came) if want != got]
    print(f'{len(functions)} functions of {sum(len(trees) for trees, _, _ in drawn)} trees were run, {dear} needed more registers; {len(wrong)} gave something else')
    for row in wrong[:10]:
        print(*row)
    sys.exit(1 if wrong or len(came) != len(wanted) else 0)


if __name__ == '__main__':
    main()
