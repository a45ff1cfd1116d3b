"""Writes the cases of data/paths.cases below its head: numbers, and sums of costs, are lowered over all cells at once until
none changes.

    paths.py              in the folder of the crate
"""
import random

FILE = 'data/paths.cases'
OUT = []

random.seed(52)


def near(a, kind):
    all_steps = [(i, j) for i in (-1, 0, 1) for j in (-1, 0, 1)]
    return [(a[0] + i, a[1] + j) for i, j in all_steps if (i or j) and (kind == 'Eight' or not (i and j))]


def lowered(cells, known, cost, kind):
    while True:
        new = dict(known)
        for a in cells:
            for b in near(a, kind):
                if b in known and cells[b] == cells[a]:
                    new[a] = min(known[b] + cost, new.get(a, known[b] + cost))
        if new == known:
            return known
        known = new


for k in range(200):
    m, n = random.randint(1, 12) if k % 9 else 1, random.randint(1, 12) if k % 9 != 4 else 1
    odds = (0.3, 0.0, 0.4, 0.2, 1.0, 0.3, 0.35, 0.25)[k % 8]
    letters = '#ab' if k % 3 == 0 else '#'
    board = [''.join(random.choice(letters) if random.random() < odds else '.' for _ in range(n)) for _ in range(m)]
    cells = {(r, c): board[r][c] for r in range(m) for c in range(n)}
    floor = {a: x for a, x in cells.items() if x == '.'}
    at = [(random.randrange(m), random.randrange(n)) for _ in range(3)] + [(m, 0)]
    kind = ('Four', 'Eight', 'Four')[k % 3]
    steps = lowered(floor, {a: 0 for a in at[:1] if a in floor}, 1, kind)
    nearest = lowered(floor, {a: 0 for a in at if a in floor}, 1, kind)
    labels = lowered(cells, {a: i for i, a in enumerate(sorted(cells))}, 0, kind)
    order = sorted(set(labels.values()))
    filled = {a: 'x' if labels[a] == labels[at[0]] else cells[a] for a in cells}
    entered = {a for a in at if cells.get(a, '#') != '#'}
    for _ in cells:
        entered |= {b for a in entered if cells[a] == '.' for b in near(a, kind) if cells.get(b, '#') != '#'}
    flooded = {a: 'x' if a in entered else cells[a] for a in cells}

    def table(values, end):
        return ''.join(''.join(f'{values.get((r, c), ".")}{end}' for c in range(n)) + '\n' for r in range(m))

    answers = [('distances', at[:1], table(steps, ','))]
    if k % 3 == 0 or k % 9 == 4:
        numbers = {a: order.index(x) for a, x in labels.items()}
        answers += [('distances_from', at, table(nearest, ',')), ('shortest_path', at[:2], f'{steps.get(at[1], ".")}\n'),
                    ('fill_region', at[:1], table(filled, '')), ('flood', at, f'{len(entered)}\n' + table(flooded, '')), ('regions', [], f'{len(order)}\n' + table(numbers, ','))]
    for call, positions, answer in answers:
        asked = ' '.join(['==', call, kind] + [f'{r} {c}' for r, c in positions])
        OUT.extend([asked, *board, '--', *answer.splitlines()])

# Digits are what it costs to enter a cell.
for k in range(60):
    m, n = random.randint(1, 9) if k % 9 else 1, random.randint(1, 9) if k % 9 != 4 else 1
    letters = ('0123456789##', '0019##', '1', '0', '123456789', '09#')[k % 6]
    board = [''.join(random.choice(letters) for _ in range(n)) for _ in range(m)]
    costs = {(r, c): int(board[r][c]) for r in range(m) for c in range(n) if board[r][c] != '#'}
    start = (random.randrange(m), random.randrange(n)) if k % 20 else (m, 0)
    kind = ('Four', 'Eight', 'Four')[k % 3]
    known = {start: 0} if start in costs else {}
    while True:
        new = dict(known)
        for a in costs:
            for b in near(a, kind):
                if b in known:
                    new[a] = min(known[b] + costs[a], new.get(a, known[b] + costs[a]))
        if new == known:
            break
        known = new
    OUT.extend([f'== cheapest {kind} {start[0]} {start[1]}', *board, '--'])
    for r in range(m):
        OUT.append(''.join(f'{known.get((r, c), ".")},' for c in range(n)))

with open(FILE) as file:
    head = file.read().partition('== ')[0]
with open(FILE, 'w') as file:
    print(head + OUT[0], *OUT[1:], sep='\n', file=file)
