"""Runs the built program over texts at every limit at once, and says what each took.

    python3 examples/trials/limits.py PROGRAM FOLDER

- A grammar of 255 operators, 64 nonterminals, 1,023 rules, 512 nonterminals of the normal form, with one
  pattern of 63 names, ranges with the largest bounds, and costs up to the largest;
- under it trees of 65,535 nodes, a row, a comb and a full one, each with half as many nodes, too, so that
  the growth shows; 10,000 trees of all operators, whose states and transitions no table holds; and 1,000,000
  trees of five operators;
- a template that prints one value until the text has 1,048,576 bytes, and one byte more.

The costs are compared with a plain dynamic programming below (of the large forests some trees'),
what is printed with the text that was read, and the covers' costs with those of `select`. It ends with
status 1 at the first difference.
"""
import os
import random
import subprocess
import sys

NODES = 65_535
TREES = 1_000_000
TEXT = 1_048_576
LARGEST = 65_535


class Grammar:
    """Rules as (left, pattern, first cost, bounds or None); a pattern is a nonterminal's number or a tuple."""

    def __init__(self, draw):
        self.leaves = [f'L{n}' for n in range(85)]
        self.unary = [f'U{n}' for n in range(85)]
        self.binary = [f'B{n}' for n in range(85)]
        self.rules = []
        some = lambda: draw.randrange(64)
        cost = lambda: draw.choice([1, 2, 3, LARGEST])
        for at in range(64):
            self.rules.append((at, (at + 1) % 64, 1, None))
        for leaf in self.leaves:
            self.rules.append((some(), (leaf,), cost(), None))
        for name in self.unary:
            self.rules.append((some(), (name, some()), cost(), None))
        for name in self.binary:
            self.rules.append((some(), (name, some(), some()), cost(), None))
        deep = some()
        for _ in range(62):
            deep = ('U0', deep)
        self.rules.append((some(), deep, 1, None))
        for _ in range(387):
            inner = (draw.choice(self.binary), some(), some())
            self.rules.append((some(), (draw.choice(self.unary), inner), cost(), None))
        while len(self.rules) < 1_023 - 40:
            self.rules.append((some(), (draw.choice(self.binary), some(), some()), cost(), None))
        while len(self.rules) < 1_023:
            low = draw.choice([-1 << 63, draw.randrange(-9, 9)])
            high = draw.choice([(1 << 63) - 1, draw.randrange(-9, 9)])
            self.rules.append((some(), (draw.choice(self.leaves),), cost(), (low, high)))
        self.over = {}
        for rule in self.rules:
            if isinstance(rule[1], tuple):
                self.over.setdefault(rule[1][0], []).append(rule)

    def text(self):
        def pattern(part):
            if isinstance(part, int):
                return f'n{part}'
            if len(part) == 1:
                return part[0]
            return f'{part[0]}({",".join(map(pattern, part[1:]))})'

        names = self.leaves + self.unary + self.binary
        lines = ['%start n0', '%term ' + ' '.join(f'{name}={number}' for number, name in enumerate(names)), '%%']
        for left, body, cost, bounds in self.rules:
            template = '"%0"' if isinstance(body, int) else '"x%c\\n"'
            price = str(cost) if bounds is None else f'range(a,{bounds[0]},{bounds[1]})+{cost}'
            lines.append(f'n{left}: {pattern(body)} {template} {price}')
        return '\n'.join(lines) + '\n'

    def least(self, tree):
        """The least cost of the tree from the start symbol, by the costs of its nodes from each nonterminal."""
        costs = []
        stack = []
        for name, attribute, kids in tree:
            below = stack[len(stack) - kids:]
            del stack[len(stack) - kids:]
            node = (name, attribute, below, [None] * 64)
            found = node[3]
            for left, body, cost, bounds in self.over[name]:
                if bounds is not None and not (attribute is not None and bounds[0] <= attribute <= bounds[1]):
                    continue
                under = self.under(body, node)
                if under is not None and (found[left] is None or under + cost < found[left]):
                    found[left] = under + cost
            for _ in range(2):
                for at in reversed(range(64)):
                    other = found[(at + 1) % 64]
                    if other is not None and (found[at] is None or other + 1 < found[at]):
                        found[at] = other + 1
            stack.append(node)
            costs.append(found)
        return costs[-1][0]

    def under(self, body, node):
        """What the leaves of the pattern cost where it lies over the node, or None."""
        total = 0
        parts = [(body, node)]
        while parts:
            part, at = parts.pop()
            if isinstance(part, int):
                if at[3][part] is None:
                    return None
                total += at[3][part]
            elif part[0] != at[0]:
                return None
            else:
                parts.extend(zip(part[1:], at[2]))
        return total


def drawn(draw, names, nodes):
    """A tree of these leaves, unary and binary operators, in postorder."""
    leaves, unary, binary = names
    if nodes == 1:
        return [(draw.choice(leaves), draw.choice([None, 3, 3_000]), 0)]
    if nodes == 2 or draw.random() < 0.4:
        return drawn(draw, names, nodes - 1) + [(draw.choice(unary), None, 1)]
    left = draw.randrange(1, nodes - 1)
    return drawn(draw, names, left) + drawn(draw, names, nodes - 1 - left) + [(draw.choice(binary), None, 2)]


def row(nodes):
    return [('L0', None, 0)] + [(f'U{at % 2}', None, 1) for at in range(nodes - 1)]


def comb(nodes):
    return [(f'L{at % 85}', at, 0) for at in range(nodes // 2 + 1)] + [('B1', None, 2)] * (nodes // 2)


def full(nodes):
    tree = [('L2', 7, 0)]
    while 2 * len(tree) + 1 <= nodes:
        tree = tree + tree + [('B2', None, 2)]
    return tree


def written(tree):
    """The tree's text, with no blank."""
    stack = []
    for name, attribute, kids in tree:
        head = name if attribute is None else f'{name}:{attribute}'
        below = stack[len(stack) - kids:]
        del stack[len(stack) - kids:]
        stack.append([head] if not kids else [head, '(', below[0], *([',', below[1]] if kids == 2 else []), ')'])
    out, todo = [], [stack.pop()]
    while todo:
        part = todo.pop()
        if isinstance(part, str):
            out.append(part)
        else:
            todo.extend(reversed(part))
    return ''.join(out)


def run(program, folder, words):
    """Status and output; it says the time on the clock, that of processors, and the most memory held."""
    taken = os.path.join(folder, 'taken')
    ran = subprocess.run(['time', '--quiet', '-f', '%e %U %S %M', '-o', taken, program, *words], stdout=subprocess.PIPE)
    clock, user, system, kilobytes = map(float, open(taken).read().split())
    print(f'{" ".join(os.path.basename(word) for word in words):44} status {ran.returncode}, {clock:6.2f} s, '
          f'{user + system:6.2f} s of processors, {kilobytes / 1024:6.0f} MB', flush=True)
    return ran.returncode, ran.stdout


def wrong(told):
    print(told)
    sys.exit(1)


def costs_of(output):
    """The costs by tree, of lines `; tree 1 cost 12`, or `; tree 1 least 12`."""
    found = {}
    for line in output.split(b'\n'):
        if line.startswith(b'; tree '):
            _, _, number, *rest = line.split()
            found[int(number)] = int(rest[1]) if rest[0] in (b'cost', b'least') else None
    return found


def put(folder, name, text):
    path = os.path.join(folder, name)
    with open(path, 'w') as out:
        out.write(text)
    return path


def judge(program, folder, path, grammar, name, trees, workers=('1', '4'), is_certified=True):
    """Each mode over the forest, by so many workers. A million trees' certificates would be too long a text."""
    text = ''.join(line + '\n' for line in trees[0])
    forest = put(folder, name, text)
    code, output = run(program, folder, ['print', path, forest])
    if (code, output) != (0, text.encode()):
        wrong('the printed forest is another one')
    answers = {}
    for mode in ('cover', 'select', 'regs', 'summary'):
        outputs = {run(program, folder, [mode, path, forest, '--workers', count]) for count in workers}
        if len(outputs) != 1 and mode != 'summary':
            wrong(f'{mode} answers otherwise by other workers')
        code, answers[mode] = outputs.pop()
        if code != 0:
            wrong(f'{mode} ended with {code}')
    found = costs_of(answers['cover'])
    if found != costs_of(answers['select']) or found != costs_of(answers['regs']):
        wrong('the costs of cover, select and regs differ')
    if is_certified:
        certificate = os.path.join(folder, f'{name}.certificate')
        code, output = run(program, folder, ['certify', path, forest])
        with open(certificate, 'wb') as out:
            out.write(output)
        if code != 0 or costs_of(run(program, folder, ['check', path, forest, certificate])[1]) != found:
            wrong('the certificates prove other costs')
    if len(found) != len(trees[0]):
        wrong('a tree has no answer')
    for number, tree in trees[1]:
        if found[number] != grammar.least(tree):
            wrong(f'tree {number} costs {grammar.least(tree)}')
    if answers['summary'].splitlines()[2] != f'cost {sum(found.values())}'.encode():
        wrong('the sum of the costs is another one')


def many(draw, names, count, step):
    """The texts of so many trees, and some of the trees with their numbers."""
    texts, some = [], []
    for number in range(1, count + 1):
        tree = drawn(draw, names, draw.randrange(1, 12))
        texts.append(written(tree))
        if number % step == 0:
            some.append((number, tree))
    return texts, some


def long_texts(program, folder):
    """A value that is printed twice at each node: 20 nodes above one byte give 2^20 bytes."""
    grammar = put(folder, 'twice', '%term X=1 U=2 V=3\n%%\na: X "x" 1\na: U(a) "%0%0" 1\na: V(a) "y%0" 1\n')
    most = 'U(' * 20 + 'X' + ')' * 20
    forest = put(folder, 'long', f'{most}\nV({most})\nX\n')
    code, output = run(program, folder, ['select', grammar, forest])
    wanted = '; tree 1 cost 21\n' + 'x' * TEXT + '\n; tree 2 too long\n; tree 3 cost 1\nx\n'
    if (code, output) != (8, wanted.encode()):
        wrong('the text of 1,048,576 bytes isn\'t as wanted, or the one of one more')


def main():
    program, folder = os.path.abspath(sys.argv[1]), sys.argv[2]
    draw = random.Random(5)
    grammar = Grammar(draw)
    path = put(folder, 'limits', grammar.text())
    if run(program, folder, ['print', path])[0] != 0:
        wrong('the grammar is refused')
    for make in (row, comb, full):
        for nodes in (NODES // 2, NODES):
            tree = make(nodes)
            judge(program, folder, path, grammar, f'{make.__name__}-{len(tree)}', ([written(tree)], [(1, tree)]), ('1',))
    long_texts(program, folder)
    every = (grammar.leaves, grammar.unary, grammar.binary)
    judge(program, folder, path, grammar, 'all-operators', many(draw, every, 10_000, 20))
    some = (grammar.leaves[:2], grammar.unary[:2], grammar.binary[:1])
    judge(program, folder, path, grammar, 'many', many(draw, some, TREES, 1_000), is_certified=False)
    for words in (['--trees', '1000000', '--size', '16'], ['--trees', '16000', '--size', '1000']):
        if run(program, folder, ['make', '@x86-64', *words])[0] != 0:
            wrong('make failed')
    print('all as wanted')


if __name__ == '__main__':
    main()
