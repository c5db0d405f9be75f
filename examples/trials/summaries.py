"""A reading of `summary` and `make` in another language, and a trial of the built program against it.

    python3 examples/trials/summaries.py PROGRAM FOLDER [MINUTES]
    python3 examples/trials/summaries.py make GRAMMAR SEED TREES SIZE

The first form compares what the program writes with what is read here: `make` and `summary` over the three
shipped grammars and random ones, also with room for exactly as many states and keys as there are, and for
one less. It ends with status 1 at the first difference, and else says how many runs of which kinds it
compared. The second form writes what `make` is to write for a grammar's file.

It is written from the manuals: docs/GRAMMARS.md (texts, normal form, which derivation is taken), docs/WORDS.md
and docs/FORESTS.md (made forests, by examples/measure/made.py), docs/ARCHITECTURE.md and the definitions that
it names (item sets, keys, tabled nodes). Of small forests each node's item set is found a second time, from
the derivations of its subtree under the grammar's own rules, with no normal form and no relative costs.
"""
import bisect
import os
import random
import re
import subprocess
import sys
import time
from collections import Counter

HERE = os.path.dirname(os.path.abspath(__file__))
sys.path.insert(0, os.path.join(HERE, '..', 'measure'))
import grammars
import made

TARGETS = ['rv64i', 'aarch64', 'x86-64']
MOST_STATES, MOST_KEYS, WORKERS = 4_096, 65_536, 4
LEAST, GREATEST = -1 << 63, (1 << 63) - 1
TOKEN = re.compile(r'(?:[ \t\r\f\n]|/\*.*?\*/)*(%start|%term|%%|%\{.*?%\}|[A-Za-z_]\w*|\d+|"(?:\\.|[^"\\\n])*"|[:=(),;+-]|$)', re.DOTALL | re.ASCII)


# ---- a grammar's text

class Rule:
    """A rule as the text has it; a pattern is (name, whether it is an operator, kids)."""

    def __init__(self, left, pattern, cost, bounds):
        self.left, self.pattern, self.cost, self.bounds = left, pattern, cost, bounds


class Tokens:
    def __init__(self, text):
        self.text, self.at = text, 0

    def peek(self):
        return TOKEN.match(self.text, self.at).group(1)

    def take(self, *wanted):
        found = TOKEN.match(self.text, self.at)
        if not found or wanted and found.group(1) not in wanted:
            sys.exit(f'{self.text[self.at:self.at + 40]!r} isn\'t as wanted')
        self.at = found.end()
        return found.group(1)

    def is_blank_line(self):
        """Only blanks and whole comments stand before the next line end."""
        return re.compile(r'(?:[ \t\r\f]|/\*.*?\*/)*(\n|$)').match(self.text, self.at) is not None


def read_pattern(tokens, operators):
    name, kids = tokens.take(), []
    if tokens.peek() == '(':
        tokens.take()
        kids.append(read_pattern(tokens, operators))
        while tokens.take(',', ')') == ',':
            kids.append(read_pattern(tokens, operators))
    return name, name in operators, kids


def read_amount(tokens):
    if tokens.peek() != '(':
        return int(tokens.take()), 0
    tokens.take()
    first, second = int(tokens.take()), 0
    if tokens.take(',', ')') == ',':
        second = int(tokens.take())
        tokens.take(')')
    return first, second


def read_bound(tokens):
    if tokens.peek() != '-':
        return int(tokens.take())
    tokens.take()
    return -int(tokens.take())


def read_tail(tokens):
    """The cost of a rule and its range, behind the pattern."""
    if tokens.take()[0] == '=':
        tokens.take()
        cost = read_amount(tokens) if tokens.peek() == '(' else (0, 0)
        tokens.take(';')
        return cost, None
    if tokens.is_blank_line():
        return (0, 0), None
    if tokens.peek() != 'range':
        return read_amount(tokens), None
    for word in ('range', '(', 'a', ','):
        tokens.take(word)
    low = read_bound(tokens)
    tokens.take(',')
    high = read_bound(tokens)
    tokens.take(')')
    if tokens.is_blank_line():
        return (0, 0), (low, high)
    tokens.take('+')
    return read_amount(tokens), (low, high)


class Grammar:
    """The start symbol, the rules in their order, and the nonterminals as the rules first name them."""

    def __init__(self, text):
        tokens, operators, self.rules, start = Tokens(text), [], [], None
        while tokens.peek() != '%%':
            word = tokens.take()
            if word == '%start':
                start = tokens.take()
            while word == '%term' and tokens.peek()[0] not in '%':
                operators.append(tokens.take())
                tokens.take('=')
                tokens.take()
        tokens.take()
        while tokens.peek() not in ('', '%%'):
            left = tokens.take()
            tokens.take(':')
            pattern = read_pattern(tokens, operators)
            self.rules.append(Rule(left, pattern, *read_tail(tokens)))
        self.start = start or self.rules[0].left
        self.nonterminals = list(dict.fromkeys(name for rule in self.rules for name in [rule.left, *made.leaves(rule.pattern)]))
        self.has_second_costs = any(rule.cost[1] for rule in self.rules)
        self.ranges = [rule.bounds for rule in self.rules if rule.bounds]


# ---- trees

class Node:
    def __init__(self, operator, number, kids):
        self.operator, self.number, self.kids = operator, number, kids


PIECE = re.compile(r'(\w+)(?::([^(),]*))?(\(?)|\)', re.ASCII)


def read_tree(line):
    """The nodes of a line's tree, kids before parents, left before right; a kid is told by its place."""
    nodes, parents, levels = [], [], [[]]

    def close(name, number, kids):
        nodes.append(Node(name, number, kids))
        levels[-1].append(len(nodes) - 1)

    for name, attribute, opens in PIECE.findall(line):
        number = int(attribute) if re.fullmatch(r'-?\d+', attribute) else None
        if opens:
            parents.append((name, number))
            levels.append([])
        elif name:
            close(name, number, [])
        else:
            close(*parents.pop(), levels.pop())
    return nodes


# ---- costs

def plus(a, b):
    return a[0] + b[0], a[1] + b[1]


def minus(a, b):
    return a[0] - b[0], a[1] - b[1]


def relative(entries):
    """The least cost of the entries, each (cost, rule) or nothing, and the entries less that cost."""
    least = min((entry[0] for entry in entries if entry), default=(0, 0))
    return least, tuple(entry and (minus(entry[0], least), entry[1]) for entry in entries)


def fits_words(items):
    return all(entry is None or entry[0][0] < 1 << 28 and -(1 << 19) <= entry[0][1] < 1 << 19 for entry in items)


def offer(entries, place, cost, rule):
    """Puts the candidate in its place where its cost is less, or the same by a lower rule; tells whether it did."""
    if entries[place] is not None and entries[place] <= (cost, rule):
        return False
    entries[place] = cost, rule
    return True


# ---- the normal form, and what follows from keys

class Classes:
    """Classes of numbers: 1 and how many cuts are at most the number; 0 where there is none."""

    def __init__(self, ranges):
        ranges = [(low, high) for low, high in ranges if low <= high]
        self.cuts = sorted({low for low, _ in ranges} | {high + 1 for _, high in ranges if high < GREATEST})

    def of(self, number):
        return 0 if number is None else 1 + bisect.bisect_right(self.cuts, number)

    def hold(self, bounds, of_class):
        return bounds is None or bounds[0] <= bounds[1] and self.of(bounds[0]) <= of_class <= self.of(bounds[1])


class NormalForm:
    """Chain rules, and for each operator the rules of one operator over nonterminals; each inner operator has a helper."""

    def __init__(self, grammar):
        self.number = {name: at for at, name in enumerate(grammar.nonterminals)}
        self.nonterminals, self.start = len(self.number), self.number[grammar.start]
        self.chains, self.over, helpers = [], {}, []
        for rule_number, rule in enumerate(grammar.rules, 1):
            place = self.number[rule.left]
            if not rule.pattern[1]:
                self.chains.append((place, self.number[rule.pattern[0]], rule.cost, rule_number))
            else:
                self.cut(rule.pattern, place, rule.cost, rule_number, rule.bounds, helpers)
        for number, (pattern, place, kids) in enumerate(helpers, len(grammar.rules) + 1):
            self.over.setdefault(pattern[0], []).append((place, kids, (0, 0), number, None))

    def cut(self, pattern, place, cost, rule, bounds, helpers):
        kids = [self.place_of(kid, helpers) for kid in pattern[2]]
        self.over.setdefault(pattern[0], []).append((place, kids, cost, rule, bounds))

    def place_of(self, part, helpers):
        name, is_operator, kids = part
        if not is_operator:
            return self.number[name]
        place, own = self.nonterminals, len(helpers)
        self.nonterminals += 1
        helpers.append(None)
        helpers[own] = part, place, [self.place_of(kid, helpers) for kid in kids]
        return place

    def follows(self, operator, of_class, kids, classes):
        """The least of all costs, and the item set, that follow from a key."""
        entries = [None] * self.nonterminals
        for place, leaves, cost, rule, bounds in self.over.get(operator, []):
            below = [kid[leaf] for kid, leaf in zip(kids, leaves)]
            if None not in below and classes.hold(bounds, of_class):
                for entry in below:
                    cost = plus(cost, entry[0])
                offer(entries, place, cost, rule)
        changed = True
        while changed:
            changed = False
            for place, other, cost, rule in self.chains:
                if entries[other] is not None and offer(entries, place, plus(cost, entries[other][0]), rule):
                    changed = True
        return relative(entries)


# ---- the same by derivations

def item_sets(grammar, nodes):
    """Each node's item set by the costs of derivations under the grammar's own rules."""
    found, sets = [], []
    parts = [part for rule in grammar.rules for kid in rule.pattern[2] for part in operators_of(kid)]
    for node in nodes:
        best = {}
        found.append((node, best))
        price = lambda pattern: lies_over(pattern, len(found) - 1, found)
        changed = True
        while changed:
            changed = False
            for number, rule in enumerate(grammar.rules, 1):
                below = price(rule.pattern)
                passes = rule.bounds is None or node.number is not None and rule.bounds[0] <= node.number <= rule.bounds[1]
                if below is not None and passes:
                    candidate = plus(rule.cost, below), number
                    if rule.left not in best or candidate < best[rule.left]:
                        best[rule.left], changed = candidate, True
        entries = [best.get(name) for name in grammar.nonterminals]
        for number, part in enumerate(parts, len(grammar.rules) + 1):
            cost = price(part)
            entries.append(None if cost is None else (cost, number))
        sets.append(relative(entries)[1])
    return sets


def operators_of(pattern):
    return [pattern, *[part for kid in pattern[2] for part in operators_of(kid)]] if pattern[1] else []


def lies_over(pattern, at, found):
    """What the derivations below the pattern's leaves cost where it lies over the node, or None."""
    name, is_operator, kids = pattern
    node, best = found[at]
    if not is_operator:
        return best[name][0] if name in best else None
    if name != node.operator:
        return None
    total = 0, 0
    for kid, below in zip(kids, node.kids):
        cost = lies_over(kid, below, found)
        if cost is None:
            return None
        total = plus(total, cost)
    return total


# ---- the summary

class Summary:
    """What is counted of trees, and the text that tells it."""

    def __init__(self, grammar):
        self.grammar, self.form, self.classes = grammar, NormalForm(grammar), Classes(grammar.ranges)
        self.trees, self.uncovered, self.cost = 0, 0, (0, 0)
        self.numbers, self.sets, self.known = {}, [], {}
        self.states, self.keys, self.askable = set(), set(), set()

    def number_of(self, items):
        if items not in self.numbers:
            self.numbers[items] = len(self.sets)
            self.sets.append((items, fits_words(items)))
        return self.numbers[items]

    def count(self, nodes, is_checked=False):
        labels = []
        for node in nodes:
            below = [labels[kid] for kid in node.kids]
            key = node.operator, 0 if below else self.classes.of(node.number), tuple(number for number, _, _ in below)
            if key not in self.known:
                least, items = self.form.follows(*key[:2], [self.sets[number][0] for number in key[2]], self.classes)
                self.known[key] = least, self.number_of(items)
            base, number = self.known[key]
            are_tabled = all(is_tabled for _, _, is_tabled in below)
            is_tabled = are_tabled and self.sets[number][1]
            for _, other, _ in below:
                base = plus(base, other)
            labels.append((number, base, is_tabled))
            if are_tabled:
                self.askable.add(key)
            if is_tabled:
                self.states.add(number)
                self.keys.add(key)
        if is_checked and [self.sets[number][0] for number, _, _ in labels] != item_sets(self.grammar, nodes):
            sys.exit('the item sets by keys and by derivations differ')
        self.add(*labels[-1][:2])

    def add(self, number, base):
        self.trees += 1
        entry = self.sets[number][0][self.form.start]
        if entry is None:
            self.uncovered += 1
        else:
            self.cost = plus(self.cost, plus(base, entry[0]))

    def head(self):
        cost = '{},{}'.format(*self.cost) if self.grammar.has_second_costs else str(self.cost[0])
        return f'trees {self.trees}\nuncovered {self.uncovered}\ncost {cost}\n'

    def texts(self, states=MOST_STATES, rows=MOST_KEYS, workers=WORKERS):
        """The texts that may come with this room: one, but where the definitions leave a mark open."""
        counts = f'states {len(self.states)}\nkeys {len(self.keys)}\n'
        texts = []
        if len(self.states) <= states:
            if len(self.keys) <= rows:
                texts.append(counts)
            if len(self.askable) > rows:
                texts.append('row full\n')
        if len(self.states) + workers > states:
            texts.append('used up\n')
            if len(self.askable) > rows:
                texts.append('used up\nrow full\n')
        return [self.head() + text for text in texts]


def summed(grammar, lines, is_checked=False):
    summary = Summary(grammar)
    for line in lines:
        summary.count(read_tree(line), is_checked)
    return summary


def made_lines(grammar, seed, trees, size):
    return made.made(grammar.start, grammar.rules, seed, trees, size)


# ---- the trial

def run(program, *words):
    ran = subprocess.run([program, *map(str, words)], capture_output=True, timeout=600)
    return ran.returncode, ran.stdout.decode(), ran.stderr.decode()


def judge(program, words, wanted, room, tried):
    """One run with its room, against the texts that may come."""
    options = [word for name, value in room.items() for word in (f'--{name}', value)]
    told = run(program, *words, *options)
    texts = wanted.texts(**room)
    if told[0] != (8 if wanted.uncovered else 0) or told[1] not in texts or told[2]:
        print(*words, *options)
        print(told, 'and not', *texts, sep='\n')
        sys.exit(1)
    tried[words[0], 'with marks' if len(told[1].split()) < 10 else 'with counts', 'one text may come' if len(texts) == 1 else 'a mark is open'] += 1


def rooms(wanted, draw):
    """The room where none is said; just enough; too few states; too little room for keys; any room."""
    states, keys, workers = len(wanted.states), len(wanted.keys), draw.choice([1, 2, 4, 8])
    yield {}
    yield {'states': states + workers, 'rows': len(wanted.askable), 'workers': workers}
    yield {'states': max(states - 1, 0), 'rows': len(wanted.askable), 'workers': workers}
    yield {'states': states + workers, 'rows': max(keys - 1, 0), 'workers': workers}
    yield {'states': draw.randrange(states + 2), 'rows': draw.randrange(keys + 2), 'workers': workers}


def mixed(draw, text):
    """Some rules without ranges as rules of the BURG manual, and comments between rules."""
    lines = []
    for number, line in enumerate(text.splitlines(), 1):
        rule = re.fullmatch(r'(\w+: \S+) "[^"]*" (\(?[\d,]+\)?)', line)
        if rule and draw.random() < 0.5:
            cost = rule[2] if rule[2][0] == '(' else f'({rule[2]})'
            line = f'{rule[1]} = {number} {cost};' if draw.random() < 0.5 else f'{rule[1]}\n  = {number} /* or\n {cost} */ {cost} ;'
        lines.append(line + (' /* a rule */' if draw.random() < 0.2 else ''))
    return '\n'.join(lines) + '\n'


def wide(draw):
    """A grammar whose nonterminals' costs go apart, so that item sets of deep trees fit no words, and operators for trees of it."""
    symbols, unary = 'sab'[:draw.choice([2, 3])], ['U0', 'U1', 'U2']
    rules = [f'{symbol}: L0 "" {draw.randrange(3)}' for symbol in symbols]
    for symbol in symbols:
        for name in unary:
            rules.append(f'{symbol}: {name}({symbol}) "" ({draw.choice([1, 1, 2])},{draw.choice([0, 3, 65_535])})')
        rules.append(f'{symbol}: B0({draw.choice(symbols)},{symbol}) "" ({draw.randrange(2)},{draw.choice([0, 65_535])})')
    if draw.random() < 0.3:
        rules.append('s: a "" (1,7)')
    return '%term L0=1 U0=2 U1=3 U2=4 B0=5\n%%\n' + '\n'.join(rules) + '\n', (['L0'], unary, ['B0'])


def try_shipped(program, folder, draw, tried):
    """`make` of a shipped grammar, as it is named and as a file, and `summary` of the same forest."""
    target = draw.choice(TARGETS)
    path = os.path.join(HERE, '..', 'targets', f'{target}.grammar')
    grammar = Grammar(open(path).read())
    seed, trees, size = draw.randrange(1 << 64), draw.choice([0, 1, 50, 400]), draw.choice([1, 2, 9, 64, 200])
    lines = list(made_lines(grammar, seed, trees, size))
    wanted = summed(grammar, lines, is_checked=trees <= 50)
    words = ['--seed', seed, '--trees', trees, '--size', size]
    forest = put(folder, 'f', ''.join(line + '\n' for line in lines))
    for room in rooms(wanted, draw):
        judge(program, ['make', draw.choice(['@' + target, path]), *words], wanted, room, tried)
        judge(program, ['summary', '@' + target, forest], wanted, room, tried)


def try_random(program, folder, draw, tried):
    """`make` of a random grammar, and `summary` of random trees over its operators, some of which have no cover."""
    text, operators = wide(draw) if draw.random() < 0.2 else grammars.grammar(draw)
    path = put(folder, 'g', mixed(draw, text) if draw.random() < 0.7 else text)
    grammar = Grammar(open(path).read())
    if run(program, 'print', path)[0] == 4:
        tried['grammars refused', '', ''] += 1
        return
    seed, trees, size = draw.randrange(1 << 64), draw.choice([1, 20, 300]), draw.choice([3, 12, 64])
    wanted = summed(grammar, made_lines(grammar, seed, trees, size), is_checked=trees <= 20)
    for room in rooms(wanted, draw):
        judge(program, ['make', path, '--seed', seed, '--trees', trees, '--size', size], wanted, room, tried)
    lines = grammars.forest(draw, operators, trees, draw.choice([3, 12, 60]))
    wanted = summed(grammar, lines.splitlines(), is_checked=trees <= 20)
    for room in rooms(wanted, draw):
        judge(program, ['summary', path, put(folder, 'f', lines)], wanted, room, tried)


def put(folder, name, text):
    path = os.path.join(folder, name)
    with open(path, 'w') as out:
        out.write(text)
    return path


def try_known(program, tried):
    """`make` of each shipped grammar with the words that rows have."""
    for target in TARGETS:
        path = os.path.join(HERE, '..', 'targets', f'{target}.grammar')
        grammar = Grammar(open(path).read())
        for seed, trees in ((1, 50), (7, 50), (1, 1_000), (7, 1_000)):
            wanted = summed(grammar, made_lines(grammar, seed, trees, 64))
            judge(program, ['make', '@' + target, '--seed', seed, '--trees', trees], wanted, {}, tried)


def main():
    if sys.argv[1] == 'make':
        grammar = Grammar(open(sys.argv[2]).read())
        print(*summed(grammar, made_lines(grammar, *map(int, sys.argv[3:6]))).texts(), sep='or\n', end='')
        return
    program, folder = sys.argv[1:3]
    minutes = float(sys.argv[3]) if len(sys.argv) > 3 else 2
    draw, tried = random.Random(17), Counter()
    try_known(program, tried)
    end = time.monotonic() + 60 * minutes
    while time.monotonic() < end:
        draw.choice([try_shipped, try_random])(program, folder, draw, tried)
    for kind, count in sorted(tried.items()):
        print(count, *filter(None, kind))
    print(f'{sum(tried.values())} cases, no difference')


if __name__ == '__main__':
    main()
