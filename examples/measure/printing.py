"""Times `print` over forests of 20 MB against md5sum, by turns, in processor time.

    python3 examples/measure/printing.py crates/sel/out/sel FOLDER

makes the forests and their grammars in the folder, and writes a line for each forest: the least and
the middle time of either, and how many times md5sum's they are.
"""
import os
import random
import resource
import statistics
import subprocess
import sys

SIZE = 20_000_000
TURNS = 9


def write_grammar(name, leaves, inner):
    with open(f'{name}.grammar', 'w') as out:
        numbers = (f'{operator}={n + 1}' for n, operator in enumerate(leaves + inner))
        print('%term', *numbers, file=out)
        print('%%', file=out)
        for leaf in leaves:
            print(f's: {leaf} ""', file=out)
        for root in inner:
            print(f's: {root}(s,s) "" 1', file=out)


def write_forest(name, leaves, inner, attribute, most):
    """Random trees, each drawn to have up to `most` nodes."""
    random.seed(5)
    write_grammar(name, leaves, inner)

    def tree(nodes):
        if nodes < 3:
            return random.choice(leaves) + attribute()
        left = random.randrange(1, nodes - 1)
        root = random.choice(inner) + attribute()
        return f'{root}({tree(left)},{tree(nodes - 1 - left)})'

    size = 0
    with open(f'{name}.forest', 'w') as out:
        while size < SIZE:
            size += out.write(tree(random.randrange(1, most)) + '\n')


def write_line(name, leaves, inner, line):
    """The same line over and over."""
    write_grammar(name, leaves, inner)
    with open(f'{name}.forest', 'w') as out:
        out.write(line * (SIZE // len(line)))


def short_attribute():
    return ':' + random.choice('abcxyz0123456789') if random.random() < 0.6 else ''


def make_forests():
    pairs = [a + b for a in 'ABCDEFGHIJKLMNOP' for b in 'abcdefghijklmnop'][:250]
    leaves = ['CONSTANT_VALUE', 'REGISTER_NUMBER']
    inner = ['ASSIGNMENT_TO_MEMORY', 'ADDITION_OF_TWO']
    write_forest('letters', ['X'], ['P'], lambda: '', 40)
    write_forest('attributes', ['X'], ['P'], short_attribute, 40)
    write_forest('numbers', ['X'], ['P'], lambda: f':{random.randrange(-1000, 1000)}', 40)
    write_forest('operators', pairs[:125], pairs[125:], lambda: '', 40)
    write_forest('words', leaves, inner, lambda: f':symbol_{random.randrange(10**6)}', 16)
    write_line('line', ['A', 'C'], ['P'], 'P(A:x,P(P(A:y,C:1),C:4))\n')
    write_grammar('blank', ['X'], ['P'])
    with open('blank.forest', 'w') as out:
        out.write('X\n' + '\n' * (SIZE - 2))
    return ['letters', 'attributes', 'numbers', 'operators', 'words', 'line', 'blank']


def processor_time(command):
    before = resource.getrusage(resource.RUSAGE_CHILDREN)
    subprocess.run(command, stdout=subprocess.DEVNULL, check=True)
    after = resource.getrusage(resource.RUSAGE_CHILDREN)
    return after.ru_utime + after.ru_stime - before.ru_utime - before.ru_stime


def main():
    program = os.path.abspath(sys.argv[1])
    os.chdir(sys.argv[2])
    for name in make_forests():
        prints, sums = [], []
        for _ in range(TURNS):
            prints.append(processor_time([program, 'print', f'{name}.grammar', f'{name}.forest']))
            sums.append(processor_time(['md5sum', f'{name}.forest']))
        for of in min, statistics.median:
            print(f'{name:10} {of.__name__:6} {of(prints):.3f} s {of(sums):.3f} s {of(prints) / of(sums):.1f} times')


main()
