"""Refuses the built program each growth of memory, each read and each write in turn.

    python3 examples/trials/refusals.py PROGRAM FOLDER [MOST]

For each mode, and for 1 and 4 workers, over the store's grammar and forest and over a made forest of
@x86-64. Each run must end by itself: with the whole output and its status (and a front of its line, where
there was no memory for that), or, where a growth was refused,
with status 7, `no memory` and a front of that output; where a read was, with status 2; where a write was,
with status 6 and a front. MOST is how many growths of one command are refused at most (2,000), spread over all.
It needs cc. It writes how many runs of each kind it tried.
"""
import os
import subprocess
import sys

HERE = os.path.dirname(os.path.abspath(__file__))
sys.path.insert(0, os.path.join(HERE, '..', 'measure'))
import made

EXAMPLES = os.path.join(HERE, '..')


def commands(program, folder):
    start, rules = made.read_grammar(open(os.path.join(EXAMPLES, 'targets', 'x86-64.grammar')).read())
    forest = os.path.join(folder, 'made.forest')
    with open(forest, 'w') as out:
        for line in made.made(start, rules, 3, 40, 30):
            print(line, file=out)
    store = [os.path.join(EXAMPLES, name) for name in ('store.grammar', 'store.forest')]
    for workers in ('1', '4'):
        for mode in ('cover', 'select', 'regs', 'summary', 'print', 'certify'):
            yield [mode, *store, '--workers', workers]
            yield [mode, '@x86-64', forest, '--workers', workers]
        yield ['make', '@x86-64', '--trees', '50', '--workers', workers]
    for name, texts in (('store', store), ('made', ['@x86-64', forest])):
        certificate = os.path.join(folder, f'{name}.certificate')
        with open(certificate, 'wb') as out:
            subprocess.run([program, 'certify', *texts], stdout=out)
        yield ['check', *texts, certificate]
    yield ['print', store[0]]
    yield ['cover', store[0]]


def run(program, library, words, **refused):
    settings = {f'REFUSE_{name.upper()}': str(value) for name, value in refused.items()}
    return subprocess.run([program, *words], capture_output=True, timeout=120, env={**settings, 'LD_PRELOAD': library})


def main():
    program, folder = sys.argv[1:3]
    most = int(sys.argv[3]) if len(sys.argv) > 3 else 2_000
    library = os.path.join(folder, 'refuse.so')
    subprocess.run(['cc', '-O2', '-shared', '-fPIC', '-o', library, os.path.join(HERE, 'refuse.c'), '-ldl'], check=True)
    tried, told = dict.fromkeys(('growth', 'read', 'write'), 0), 0
    wrong = []
    for words in commands(program, folder):
        whole = run(program, library, words)
        counts = os.path.join(folder, 'counts')
        run(program, library, words, counts=counts)
        for kind, count, status, line in zip(tried, map(int, open(counts).read().split()), (7, 2, 6), (b'no memory\n', b'cannot read', b'write fault\n')):
            for number in range(1, count + 1, max(1, count // most)):
                ran = run(program, library, words, **{kind: number})
                tried[kind] += 1
                if (ran.returncode, ran.stdout) == (whole.returncode, whole.stdout) and whole.stderr.startswith(ran.stderr):
                    continue
                told += 1
                if ran.returncode != status or not ran.stderr.startswith(line) or not whole.stdout.startswith(ran.stdout):
                    wrong.append((kind, number, ran.returncode, words))
    print(*(f'{count} runs with a {kind} refused' for kind, count in tried.items()), sep=', ', end='')
    print(f'; {told} told it, the others wrote all; {len(wrong)} were wrong')
    for row in wrong[:20]:
        print(*row)
    sys.exit(1 if wrong else 0)


if __name__ == '__main__':
    main()
