"""Writes the forest that `make` makes of a grammar, as text: the same trees from the same numbers.

    ./sel print @x86-64 > x86-64.grammar
    python3 examples/measure/made.py x86-64.grammar SEED TREES SIZE > made.forest

The grammar is in its printed form. How a forest is made stands in docs/FORESTS.md; this is a reading of
it in another language, so that a forest of that distribution can be covered, selected and printed, too.
"""
import re
import sys

MASK = (1 << 64) - 1
MASK128 = (1 << 128) - 1
MULTIPLIER = 0x2360ED051FC65DA44385DF649FCCF645


def seed_bytes(state):
    """What `seed_from_u64` of rand_core fills a seed of 32 bytes with: the words of a PCG of 32 bits."""
    out = b''
    for _ in range(8):
        state = (state * 6364136223846793005 + 11634580027462260723) & MASK
        shifted = (((state >> 18) ^ state) >> 27) & 0xFFFFFFFF
        turn = state >> 59
        word = ((shifted >> turn) | (shifted << ((32 - turn) & 31))) & 0xFFFFFFFF
        out += word.to_bytes(4, 'little')
    return out


class Words:
    """`Lcg128Xsl64` of rand_pcg."""

    def __init__(self, seed):
        given = seed_bytes(seed)
        state = int.from_bytes(given[:16], 'little')
        self.increment = int.from_bytes(given[16:], 'little') | 1
        self.state = ((state + self.increment) * MULTIPLIER + self.increment) & MASK128

    def next(self):
        self.state = (self.state * MULTIPLIER + self.increment) & MASK128
        turn = self.state >> 122
        mixed = ((self.state >> 64) ^ self.state) & MASK
        return ((mixed >> turn) | (mixed << ((64 - turn) & 63))) & MASK


class Rule:
    def __init__(self, left, pattern, bounds):
        self.left, self.pattern, self.bounds = left, pattern, bounds


def read_pattern(text, operators):
    name = re.match(r'\w+', text).group()
    rest = text[len(name):]
    kids = []
    if rest.startswith('('):
        while rest[0] != ')':
            kid, rest = read_pattern(rest[1:], operators)
            kids.append(kid)
        rest = rest[1:]
    return (name, name in operators, kids), rest


def read_grammar(text):
    start, operators, rules = None, set(), []
    for line in text.splitlines():
        if line.startswith('%start'):
            start = line.split()[1]
        elif line.startswith('%term'):
            operators.update(entry.split('=')[0] for entry in line.split()[1:])
        elif not line.startswith('%'):
            left, rest = line.split(': ', 1)
            pattern, rest = read_pattern(rest, operators)
            bounds = re.search(r'range\(a,(-?\d+),(-?\d+)\)', rest.rsplit('"', 1)[-1])
            rules.append(Rule(left, pattern, bounds and tuple(map(int, bounds.groups()))))
    return start or rules[0].left, rules


def leaves(pattern):
    name, is_operator, kids = pattern
    if not is_operator:
        return [name]
    return [leaf for kid in kids for leaf in leaves(kid)]


def least_sizes(rules):
    """How many rules the least derivation from each nonterminal has."""
    sizes, changed = {}, True
    while changed:
        changed = False
        for rule in rules:
            below = [sizes.get(leaf) for leaf in leaves(rule.pattern)]
            if None not in below and sum(below) + 1 < sizes.get(rule.left, 1 << 60):
                sizes[rule.left], changed = sum(below) + 1, True
    return sizes


def made(start, rules, seed, trees, size):
    sys.setrecursionlimit(100_000)
    words = Words(seed)
    rules = [rule for rule in rules if not rule.bounds or rule.bounds[0] <= rule.bounds[1]]
    sizes = least_sizes(rules)
    if sizes.get(start, size + 1) > size:
        return

    def attribute(rule):
        word = words.next()
        if rule.bounds:
            low, high = rule.bounds
            return str(low + word % (high - low + 1))
        return f's{word // 4 % 100}' if word % 4 == 0 else str(word // 4 % 8192 - 4096)

    def tree(nonterminal, most):
        usable = [(rule, [sizes[leaf] for leaf in leaves(rule.pattern)]) for rule in rules
                  if rule.left == nonterminal and all(leaf in sizes for leaf in leaves(rule.pattern))]
        usable = [(rule, shares) for rule, shares in usable if sum(shares) + 1 <= most]
        rule, shares = usable[words.next() % len(usable)]
        spare = most - sum(shares) - 1
        for place in range(len(shares)):
            more = spare if place + 1 == len(shares) else words.next() % (spare + 1)
            shares[place] += more
            spare -= more
        given = iter(shares)

        def walk(pattern):
            name, is_operator, kids = pattern
            if not is_operator:
                return tree(name, next(given))
            if not kids:
                return f'{name}:{attribute(rule)}'
            return f'{name}({",".join([walk(kid) for kid in kids])})'

        return walk(rule.pattern)

    for _ in range(trees):
        yield tree(start, size)


if __name__ == '__main__':
    start, rules = read_grammar(open(sys.argv[1]).read())
    for line in made(start, rules, *map(int, sys.argv[2:5])):
        print(line)
