#!/usr/bin/env python3
"""Prints the cases 'long-..' of scripts.cases: scripts of many lines and on large boards, with what they write, by a list of
rows. The numbers are the same in each run: crates/test_cases/long_scripts.py >>crates/test_cases/data/scripts.cases
"""
import random

SYMMETRIES = {
    "identity": lambda t: [list(row) for row in t],
    "flip_cols": lambda t: [row[::-1] for row in t],
    "flip_rows": lambda t: t[::-1],
    "rotate_half": lambda t: [row[::-1] for row in t[::-1]],
    "transpose": lambda t: [list(row) for row in zip(*t)],
    "rotate_left": lambda t: [list(row) for row in zip(*t)][::-1],
    "rotate_right": lambda t: [list(row) for row in zip(*t[::-1])],
    "anti_transpose": lambda t: [list(row)[::-1] for row in zip(*t)][::-1],
}


def line_edit(t, word, kind, numbers):
    """The rows after an edit of rows, and the reply. A column edit is this between two transposes."""
    count, width = len(t), len(t[0])
    if kind in ("push", "insert"):
        at, cells = (count, numbers) if kind == "push" else (numbers[0], numbers[1:])
        if len(cells) != width:
            return t, "refused length"
        if at > count:
            return t, "refused index"
        return t[:at] + [cells] + t[at:], "ok"
    if kind == "insert_all":
        at, length, cells = numbers[0], numbers[1], numbers[2:]
        return t[:at] + [cells[k : k + length] for k in range(0, len(cells), length)] + t[at:], "ok"
    if kind in ("pop", "remove"):
        at = count - 1 if kind == "pop" else numbers[0]
        if at >= count:
            return t, "none"
        return t[:at] + t[at + 1 :], " ".join(map(str, ["line", *t[at]]))
    if kind == "delete":
        at, several = numbers if len(numbers) == 2 else (numbers[0], 1)
        return (t[:at] + t[at + several :], "yes") if at + several <= count else (t, "no")
    zeros = [[0] * width for _ in range(numbers[0])]
    return (t + zeros if kind == "expand" else zeros + t), "ok"


def step(t, words):
    """The rows after a command, and the reply."""
    word, numbers = words[0], list(map(int, words[1:]))
    count, width = len(t), len(t[0])
    if word in SYMMETRIES:
        return SYMMETRIES[word](t), "ok"
    if word == "size":
        return t, f"size {count} {width}"
    if word in ("get", "set"):
        row, col = numbers[:2]
        if row >= count or col >= width:
            return t, "none" if word == "get" else "refused index"
        if word == "get":
            return t, f"cell {t[row][col]}"
        t[row][col] = numbers[2]
        return t, "ok"
    if word == "swap":
        r, c, s, d = numbers
        if r >= count or s >= count or c >= width or d >= width:
            return t, "refused index"
        t[r][c], t[s][d] = t[s][d], t[r][c]
        return t, "ok"
    if word in ("row", "col"):
        lines = t if word == "row" else SYMMETRIES["transpose"](t)
        return t, " ".join(map(str, ["line", *lines[numbers[0]]])) if numbers[0] < len(lines) else "none"
    kind, axis = word.rsplit("_", 1)
    kind = "insert_all" if word in ("insert_rows", "insert_cols") else kind
    if axis.startswith("row"):
        return line_edit(t, word, kind, numbers)
    turned, reply = line_edit(SYMMETRIES["transpose"](t), word, kind, numbers)
    return SYMMETRIES["transpose"](turned), reply


def command(rng, t, low, high):
    """A command at a board that keeps between `low` and `high` lines each way."""
    count, width = len(t), len(t[0])
    cell = lambda: rng.randrange(-99, 1000)
    kind = rng.choice(["read", "write", "turn", "grow", "shrink", "refused"])
    if kind == "read":
        return rng.choice([f"get {rng.randrange(count + 1)} {rng.randrange(width)}", f"row {rng.randrange(count + 1)}", f"col {rng.randrange(width)}", "size"])
    if kind == "write":
        place = lambda: f"{rng.randrange(count)} {rng.randrange(width)}"
        return rng.choice([f"set {place()} {cell()}", f"swap {place()} {place()}"])
    if kind == "turn":
        return rng.choice([*SYMMETRIES])
    if kind == "refused":
        return rng.choice([f"set {count} 0 7", f"insert_row {count + 1} " + " ".join("1" for _ in range(width)), "push_col " + " ".join("1" for _ in range(count + 1)), f"delete_rows {count} 1", f"swap 0 0 0 {width}"])
    axis, lines, across = rng.choice([("row", count, width), ("col", width, count)])
    line = lambda: " ".join(str(cell()) for _ in range(across))
    if kind == "grow" and lines < high:
        return rng.choice([f"push_{axis} {line()}", f"insert_{axis} {rng.randrange(lines + 1)} {line()}", f"insert_{axis}s {rng.randrange(lines + 1)} {across} {line()} {line()}", f"expand_{axis}s 1", f"prepend_{axis}s 2"])
    if kind == "shrink" and lines > low + 1:
        at = rng.randrange(lines - 1)
        return rng.choice([f"pop_{axis}", f"remove_{axis} {at}", f"delete_{axis} {at}", f"delete_{axis}s {at} 2"])
    return "size"


def case(name, seed, order, count, width, low, high, lines):
    rng = random.Random(seed)
    t = [[rng.randrange(-99, 1000) for _ in range(width)] for _ in range(count)]
    stored = t if order == "RowMajor" else SYMMETRIES["transpose"](t)
    script, output = [f"{order} {width} " + " ".join(str(it) for line in stored for it in line)], []
    while len(script) < lines:
        words = command(rng, t, low, high)
        t, reply = step(t, words.split())
        script.append(words)
        output.append(reply)
    output.append("[" + "".join("[" + ", ".join(map(str, row)) + "]" for row in t) + "]")
    print("== " + name, *script, "--", *output, sep="\n")


case("long-a-thousand-lines-row-major", 1, "RowMajor", 3, 4, 2, 6, 1000)
case("long-a-thousand-lines-column-major", 2, "ColumnMajor", 3, 4, 2, 6, 1000)
case("long-two-thousand-cells-row-major", 3, "RowMajor", 40, 50, 38, 54, 60)
case("long-two-thousand-cells-column-major", 4, "ColumnMajor", 50, 40, 38, 54, 60)
