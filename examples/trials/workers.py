"""Runs the built program with many workers and with tiny tables, and compares all bytes.

    python3 examples/trials/workers.py PROGRAM FOLDER [MINUTES]

Over random grammars and forests, and over made forests of the shipped grammars: what `cover` and `select`
write, and the status, must be the same with any number of workers and any limits of the table as with one
worker and a table with room; `summary` must have the same first three lines. Where its limits leave room
the lines on states and keys must be the same too. It ends with status 1 at the first difference, and
else says how many runs it compared.
"""
import os
import random
import subprocess
import sys
import time

HERE = os.path.dirname(os.path.abspath(__file__))
sys.path.insert(0, os.path.join(HERE, '..', 'measure'))
import grammars
import made

WORKERS = [1, 2, 3, 4, 8, 64]
TARGETS = ['x86-64', 'aarch64', 'rv64i']


def run(program, *words):
    ran = subprocess.run([program, *map(str, words)], capture_output=True, timeout=600)
    if ran.returncode not in (0, 8):
        sys.exit(f'{words} ended with {ran.returncode}: {ran.stderr.decode()}')
    return ran.returncode, ran.stdout


def texts(draw, folder):
    """A grammar's word and a forest's name."""
    forest = os.path.join(folder, 'f')
    if draw.random() < 0.3:
        target = draw.choice(TARGETS)
        start, rules = made.read_grammar(open(os.path.join(HERE, '..', 'targets', f'{target}.grammar')).read())
        with open(forest, 'w') as out:
            for line in made.made(start, rules, draw.randrange(1 << 40), draw.randrange(0, 3000), draw.randrange(4, 64)):
                print(line, file=out)
        return '@' + target, forest
    text, operators = grammars.grammar(draw)
    grammar = os.path.join(folder, 'g')
    with open(grammar, 'w') as out:
        out.write(text)
    with open(forest, 'w') as out:
        out.write(grammars.forest(draw, operators, draw.choice([0, 1, 5, 300, 2500]), draw.choice([3, 12, 60])))
    return grammar, forest


def main():
    program, folder = sys.argv[1:3]
    minutes = float(sys.argv[3]) if len(sys.argv) > 3 else 2
    draw = random.Random(11)
    end, compared, refused = time.monotonic() + 60 * minutes, 0, 0
    while time.monotonic() < end:
        grammar, forest = texts(draw, folder)
        judged = subprocess.run([program, 'print', grammar], capture_output=True)
        if judged.returncode == 4:
            refused += 1
            continue
        for mode in ('cover', 'select', 'summary'):
            wanted = run(program, mode, grammar, forest, '--workers', 1)
            for workers in draw.sample(WORKERS, 3):
                roomy = run(program, mode, grammar, forest, '--workers', workers)
                states, rows = draw.choice([0, 1, 2, 7, 40]), draw.choice([0, 1, 2, 7, 65, 400])
                tiny = run(program, mode, grammar, forest, '--workers', workers, '--states', states, '--rows', rows)
                head = wanted[1].splitlines()[:3]
                if roomy != wanted or (tiny != wanted if mode != 'summary' else tiny[1].splitlines()[:3] != head):
                    sys.exit(f'{mode} {grammar} {forest} differs with {workers} workers, or with {states} states and {rows} rows')
                compared += 2
    print(f'{compared} runs compared, no difference; {refused} grammars were refused')


if __name__ == '__main__':
    main()
