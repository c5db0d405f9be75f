"""Runs the built program under valgrind: whole runs, and runs with one growth of memory refused.

    python3 examples/trials/leaks.py PROGRAM FOLDER [GROWTHS]

The commands are those of refusals.py. Each runs whole, and then GROWTHS times (5) with one growth refused,
spread over all. No run may leak a block, read or write beside one, or rest on a value that nobody set. It
needs cc and valgrind, and writes how many runs there were.
"""
import os
import subprocess
import sys

import refusals

ERROR = 99


def checked(program, library, words, **refused):
    settings = {'REFUSE_IN': os.path.basename(program)} | {f'REFUSE_{name.upper()}': str(value) for name, value in refused.items()}
    valgrind = ['valgrind', '--quiet', '--leak-check=full', '--soname-synonyms=somalloc=nouserintercepts', f'--error-exitcode={ERROR}', '--fair-sched=yes']
    return subprocess.run([*valgrind, program, *words], capture_output=True, timeout=600, env={**os.environ, **settings, 'LD_PRELOAD': library})


def main():
    program, folder = sys.argv[1:3]
    growths = int(sys.argv[3]) if len(sys.argv) > 3 else 5
    library = os.path.join(folder, 'refuse.so')
    subprocess.run(['cc', '-O2', '-shared', '-fPIC', '-o', library, os.path.join(refusals.HERE, 'refuse.c'), '-ldl'], check=True)
    runs, wrong = 0, []
    for words in refusals.commands(program, folder):
        counts = os.path.join(folder, 'counts')
        refusals.run(program, library, words, counts=counts)
        count = int(open(counts).read().split()[0])
        for number in [0, *range(1, count + 1, max(1, count // growths))]:
            ran = checked(program, library, words, **({'growth': number} if number else {}))
            runs += 1
            if ran.returncode not in (0, 1, 7, 8) or b'== ' in ran.stderr:
                wrong.append((number, ran.returncode, words, ran.stderr[:2_000].decode()))
    print(f'{runs} runs under valgrind, {len(wrong)} were wrong')
    for row in wrong[:5]:
        print(*row, sep='\n')
    sys.exit(1 if wrong else 0)


if __name__ == '__main__':
    main()
