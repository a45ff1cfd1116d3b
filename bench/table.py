#!/usr/bin/env python3
"""usage: table.py [--page PAGE.md] RUN.tsv..

Prints the shortest times over these runs of bench/run as tables. With --page, it also writes their ratios into the
page: the section for these sizes, which it replaces or adds.
"""
import csv
import datetime
import os
import re
import sys

page, runs = None, sys.argv[1:]
if runs[0] == "--page":
    page, runs = runs[1], runs[2:]
found, order = {}, []
for path in runs:
    for line in csv.DictReader(open(path), delimiter="\t"):
        key = (line["name"], line["type"], line["order"], int(line["n"]))
        if key not in found:
            found[key] = {"port": [], "rust": [], "same": True}
            order.append(key)
        found[key]["port"].append(float(line["port_ns"]))
        found[key]["rust"].append(float(line["upstream_ns"]))
        found[key]["same"] &= line["checksum"] == "same"


def size(n):
    if n >= 200_000:
        return f"{n - 200_000}x65536"
    return f"65536x{n - 100_000}" if n >= 100_000 else f"{n}x{n}"


def time(ns):
    for unit, ends, scale in (("ns", 1e3, 1), ("µs", 1e6, 1e3), ("ms", 1e9, 1e6)):
        if ns < ends:
            return f"{ns / scale:.3g} {unit}"
    return f"{ns / 1e9:.3g} s"


def short(ratio):
    return f"{ratio:.2f}" if ratio >= 0.0995 else f"{ratio:.2g}"


sizes = list(dict.fromkeys(key[3] for key in order))
types = list(dict.fromkeys(key[1] for key in order))
names = list(dict.fromkeys(key[0] for key in order))
above, ratios = [], {}
for cells in types:
    print(f"\nCells {cells}: port / Rust = ratio\n")
    print("| call | order | " + " | ".join(map(size, sizes)) + " |")
    print("|---|---|" + "---|" * len(sizes))
    for name in names:
        for layout in ("RowMajor", "ColumnMajor"):
            row = []
            for n in sizes:
                times = found.get((name, cells, layout, n))
                if not times:
                    row.append("")
                    continue
                port, rust = min(times["port"]), min(times["rust"])
                ratio = ratios[name, layout, n, cells] = port / max(rust, 0.001)
                other = "" if times["same"] else " OTHER RESULTS"
                row.append(f"{time(port)} / {time(rust)} = **{ratio:.2f}**{other}")
                if ratio > 1.1:
                    above.append((ratio, name, cells, layout, size(n)))
            if any(row):
                print(f"| {name} | {layout} | " + " | ".join(row) + " |")
same = sum(found[key]["same"] for key in order)
print(f"\n{len(order)} comparisons, the same results in {same}; slower than 1.1 in {len(above)}.")

if page:
    heading = "## Boards of " + " and ".join(map(size, sizes))
    columns = [(n, cells) for n in sizes for cells in types]
    lines = [
        heading,
        "",
        f"Measured on {datetime.date.today()} on {os.cpu_count()} cores: the shortest times of {len(runs)} "
        f"run{'s' * (len(runs) > 1)}. {len(order)} comparisons, {len(above)} of them above 1.1; the results are the same "
        f"in {'all' if same == len(order) else same}.",
        "",
        "| call | order | " + " | ".join(f"{cells} {size(n)}" for n, cells in columns) + " |",
        "|---|---|" + "---|" * len(columns),
    ]
    for name in names:
        for layout in ("RowMajor", "ColumnMajor"):
            row = [ratios.get((name, layout, n, cells)) for n, cells in columns]
            if any(ratio is not None for ratio in row):
                cells_of_row = ["" if ratio is None else short(ratio) for ratio in row]
                lines.append(f"| {name} | {layout} | " + " | ".join(cells_of_row) + " |")
    head, *sections = re.split(r"^(?=## )", open(page).read(), flags=re.M)
    new = "\n".join(lines) + "\n\n"
    at = [i for i, text in enumerate(sections) if text.split("\n")[0] == heading]
    if at:
        sections[at[0]] = new
    else:
        boards = sum(text.startswith("## Boards of ") for text in sections)
        sections.insert(boards, new)
    open(page, "w").write(head + "".join(sections).rstrip("\n") + "\n")
