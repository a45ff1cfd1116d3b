#!/usr/bin/env python3
"""Writes a script of N mixed commands on a board of 100 rows and 100 columns, which stays near that size."""
import random
import sys


def main():
    count = int(sys.argv[1])
    rand = random.Random(1)
    rows = cols = 100
    print("RowMajor 100", *(rand.randint(-999, 999) for _ in range(rows * cols)))
    turns = ["flip_cols", "flip_rows", "rotate_half", "transpose", "rotate_left", "rotate_right", "anti_transpose"]

    def line(length):
        return " ".join(str(rand.randint(-999, 999)) for _ in range(length))

    def edit(axis, lines, length):
        """An edit of `lines` lines of this length; returns how many it adds."""
        if lines >= 100:
            at = rand.randint(0, lines - 1)
            print(rand.choice([f"pop_{axis}", f"remove_{axis} {at}", f"delete_{axis} {at}"]))
            return -1
        if rand.random() < 0.2:
            print(rand.choice([f"expand_{axis}s 1", f"prepend_{axis}s 1"]))
        else:
            at = rand.randint(0, lines)
            print(rand.choice([f"push_{axis} {line(length)}", f"insert_{axis} {at} {line(length)}"]))
        return 1

    for _ in range(count):
        kind = rand.random()
        row, col = rand.randint(0, rows), rand.randint(0, cols)
        if kind < 0.35:
            print("get", row, col)
        elif kind < 0.60:
            print("set", row, col, rand.randint(-999, 999))
        elif kind < 0.72:
            print("swap", row, col, rand.randint(0, rows), rand.randint(0, cols))
        elif kind < 0.76:
            print("size")
        elif kind < 0.79:
            print(rand.choice(["row", "col"]), row)
        elif kind < 0.85:
            turn = rand.choice(turns)
            print(turn)
            if turn in ("transpose", "rotate_left", "rotate_right", "anti_transpose"):
                rows, cols = cols, rows
        elif rand.random() < 0.5:
            rows += edit("row", rows, cols)
        else:
            cols += edit("col", cols, rows)


main()
