"""Times a made forest of @x86-64 by parts, with 1, 2 and 4 workers, and writes two markdown tables.

    python3 examples/measure/parts.py PROGRAM [TREES]

makes the forest in a temporary folder (examples/measure/made.py, seed 7, size 64; 200,000 trees where no
number is given), and runs each of these by turns, five times: a forest with a fault in its last line, which
is only read; `summary` under a start symbol that derives no tree, which reads and labels; `summary`, which
reduces, too; `cover`; and `select`. The first table has what each took, as seconds on the clock and seconds
of all processors, of each the least of the five; the second one has the parts, as differences.
"""
import os
import subprocess
import sys
import tempfile
import time

import count

WORKERS = [1, 2, 4]
TURNS = 5
PARTS = [
    ('reading', 'read', None),
    ('labelling', 'label', 'read'),
    ('reducing', 'summary', 'label'),
    ('listing rules and writing (`cover`)', 'cover', 'summary'),
    ('expanding and writing (`select`)', 'select', 'summary'),
]


def dead(grammar):
    """The same grammar under a start symbol that derives no tree."""
    lines = grammar.splitlines()
    lines[0] = '%start dead'
    lines.insert(lines.index('%%'), '%term NEVER=200')
    return '\n'.join([*lines, 'dead: NEVER ""']) + '\n'


def commands(folder, trees):
    """What is run, by name: its words, and the status that it ends with."""
    forest, faulty, never = (os.path.join(folder, name) for name in ('made.forest', 'faulty.forest', 'dead.grammar'))
    count.write_forest(forest, trees)
    with open(forest) as text, open(faulty, 'w') as out:
        out.write(text.read() + 'FOO\n')
    with open(count.GRAMMAR) as text, open(never, 'w') as out:
        out.write(dead(text.read()))
    return {
        'read': (['summary', '@x86-64', faulty], 5),
        'label': (['summary', never, forest], 8),
        'summary': (['summary', '@x86-64', forest], 0),
        'cover': (['cover', '@x86-64', forest], 0),
        'select': (['select', '@x86-64', forest], 0),
    }


def taken(program, words, status):
    """The seconds on the clock, and those of all processors."""
    begin = time.perf_counter()
    child = subprocess.Popen([program, *words], stdout=subprocess.DEVNULL, stderr=subprocess.DEVNULL)
    _, ended, usage = os.wait4(child.pid, 0)
    clock = time.perf_counter() - begin
    child.returncode = os.waitstatus_to_exitcode(ended)
    if child.returncode != status:
        sys.exit(f'{words} ended with {child.returncode}')
    return clock, usage.ru_utime + usage.ru_stime


def measured(program, tasks):
    """For each command and number of workers the least of each kind of seconds."""
    found = {}
    for _ in range(TURNS):
        for name, (words, status) in tasks.items():
            for workers in WORKERS:
                now = taken(program, [*words, '--workers', str(workers)], status)
                found[name, workers] = tuple(map(min, now, found.get((name, workers), now)))
    return found


def table(head, rows):
    """Each row is a name, and a pair of seconds for each number of workers."""
    columns = [f'{kind}, {workers}' for workers in WORKERS for kind in ('clock', 'processors')]
    print(f'\n| {head} |', ' | '.join(columns), '|')
    print('|---|' + '---|' * len(columns))
    for name, pairs in rows:
        print(f'| {name} |', ' | '.join(f'{seconds:.2f}' for pair in pairs for seconds in pair), '|')


def main():
    program = os.path.abspath(sys.argv[1])
    trees = int(sys.argv[2]) if len(sys.argv) > 2 else 200_000
    with tempfile.TemporaryDirectory() as folder:
        tasks = commands(folder, trees)
        print(f'{trees} trees, {os.path.getsize(tasks["summary"][0][2])} bytes; seconds by number of workers, the least of {TURNS}')
        found = measured(program, tasks)
    table('run', [(name, [found[name, workers] for workers in WORKERS]) for name in tasks])
    rows = []
    for part, name, less in PARTS:
        pairs = [found[name, workers] for workers in WORKERS]
        before = [found[less, workers] if less else (0, 0) for workers in WORKERS]
        rows.append((part, [(a - c, b - d) for (a, b), (c, d) in zip(pairs, before)]))
    table('part', rows)


if __name__ == '__main__':
    main()
