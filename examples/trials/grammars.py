"""Random grammars in the printed form, and random trees over them, for trials of the built program."""
import random


def grammar(draw):
    """A grammar whose trees have covers of many costs: deep patterns, chain rules, ranges, pairs of costs."""
    leaves = [f'L{n}' for n in range(draw.randrange(1, 4))]
    unary = [f'U{n}' for n in range(draw.randrange(1, 4))]
    binary = [f'B{n}' for n in range(draw.randrange(1, 4))]
    symbols = [f's{n}' for n in range(draw.randrange(1, 6))]
    pairs = draw.random() < 0.3

    def cost(least):
        first = draw.randrange(least, 5)
        return f'({first},{draw.randrange(0, 4)})' if pairs else str(first)

    def pattern(depth):
        kind = draw.random()
        if depth == 0 or kind < 0.35:
            return draw.choice(symbols)
        if kind < 0.5:
            return draw.choice(leaves)
        if kind < 0.75:
            return f'{draw.choice(unary)}({pattern(depth - 1)})'
        return f'{draw.choice(binary)}({pattern(depth - 1)},{pattern(depth - 1)})'

    def over(operator):
        if operator in leaves:
            return operator
        if operator in unary:
            return f'{operator}({pattern(2)})'
        return f'{operator}({pattern(2)},{pattern(2)})'

    operators = leaves + unary + binary
    rules = [(symbol, leaves[0], cost(0)) for symbol in symbols]
    rules += [(draw.choice(symbols), over(operator), cost(0)) for operator in operators for _ in range(draw.randrange(1, 4))]
    rules += [(draw.choice(symbols), draw.choice(symbols), cost(1)) for _ in range(draw.randrange(0, 4))]
    for leaf in leaves:
        if draw.random() < 0.5:
            low = draw.randrange(-20, 20)
            rules.append((draw.choice(symbols), leaf, f'range(a,{low},{low + draw.randrange(0, 20)})'))
    head, first = rules[0], rules[1:]
    draw.shuffle(first)
    lines = [f'%term {" ".join(f"{name}={n + 1}" for n, name in enumerate(operators))}', '%%']
    for left, body, price in [head, *first]:
        kids = sum(body.count(symbol) for symbol in symbols)
        template = '"' + ' '.join(['x', '%a'] + [f'%{n}' for n in range(min(kids, 9))]) + draw.choice(['', '\\n']) + '"'
        lines.append(f'{left}: {body} {template} {price}')
    return '\n'.join(lines) + '\n', (leaves, unary, binary)


def tree(draw, operators, most):
    leaves, unary, binary = operators
    if most < 2:
        attribute = draw.choice(['', f':{draw.randrange(-25, 25)}', ':q'])
        return draw.choice(leaves) + attribute
    if most < 3 or draw.random() < 0.4:
        return f'{draw.choice(unary)}({tree(draw, operators, most - 1)})'
    left = draw.randrange(1, most - 1)
    return f'{draw.choice(binary)}({tree(draw, operators, left)},{tree(draw, operators, most - 1 - left)})'


def forest(draw, operators, trees, most):
    return ''.join(tree(draw, operators, draw.randrange(1, most)) + '\n' for _ in range(trees))
