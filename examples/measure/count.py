"""Counts the instructions of each mode over a made forest of @x86-64, with valgrind's callgrind.

    python3 examples/measure/count.py PROGRAM FOLDER [TREES]

makes the forest in the folder (`make`'s own distribution, seed 7, size 64; 20,000 trees where no number
is given), and writes a line for each mode: millions of instructions, and how many they are for a node.
The same counts come on every run. It needs valgrind (Debian's package of that name).
"""
import os
import re
import subprocess
import sys

HERE = os.path.dirname(os.path.abspath(__file__))
sys.path.insert(0, HERE)
import made

GRAMMAR = os.path.join(HERE, '..', 'targets', 'x86-64.grammar')
MODES = ['print', 'cover', 'summary', 'select']


def write_forest(name, trees):
    start, rules = made.read_grammar(open(GRAMMAR).read())
    with open(name, 'w') as out:
        for line in made.made(start, rules, 7, trees, 64):
            print(line, file=out)


def count(program, mode, forest):
    words = [program, mode, '@x86-64', forest, '--workers', '1']
    ran = subprocess.run(['valgrind', '--tool=callgrind', '--callgrind-out-file=/dev/null', *words],
                         stdout=subprocess.DEVNULL, stderr=subprocess.PIPE, text=True)
    found = re.search(r'Collected : (\d+)', ran.stderr)
    if ran.returncode not in (0, 8) or not found:
        sys.exit(ran.stderr)
    return int(found.group(1))


def main():
    program, folder = sys.argv[1:3]
    trees = int(sys.argv[3]) if len(sys.argv) > 3 else 20_000
    forest = os.path.join(folder, f'made-{trees}.forest')
    write_forest(forest, trees)
    nodes = sum(len(re.findall(r'[A-Z]\w*', re.sub(r':[^,()]*', '', line))) for line in open(forest))
    print(f'{trees} trees, {nodes} nodes, {os.path.getsize(forest)} bytes')
    for mode in MODES:
        counted = count(program, mode, forest)
        print(f'{mode:8} {counted / 1e6:8.1f} million, {counted / nodes:6.0f} a node')


if __name__ == '__main__':
    main()
