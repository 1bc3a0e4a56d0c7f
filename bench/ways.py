#!/usr/bin/env python3
"""Prints how many ways lead down through crates.txt from each crate, and how often the gate goes over them.

The gate goes over the crates below a crate once for each way that leads down to them, on one processor and before its first proof:
once for each source file of the crate, and once for each name that a `ghost use` there brings in. So a crate that lists a crate less,
since another one passes a function on by `pub use`, spares most where many names are brought in high up. It prints the crates for
which most is gone over, and all in all."""
import os
import re

root = os.path.join(os.path.dirname(os.path.abspath(__file__)), "..")
below = {}
with open(os.path.join(root, "crates.txt"), encoding="utf-8") as lines:
    for line in lines:
        name, colon, names = line.split("#")[0].partition(":")
        if colon:
            below[name.split()[0]] = names.split()

counted = {}


def ways(name):
    if name not in counted:
        counted[name] = 1 + sum(ways(it) for it in below[name] if it in below)
    return counted[name]


def turns(name):
    """How often the gate goes over the crates below this one: its source files, and the names that they bring into clauses."""
    found = 0
    for at, _, files in os.walk(os.path.join(root, "crates", name, "src")):
        for file in files:
            with open(os.path.join(at, file), encoding="utf-8") as text:
                brought = re.findall(r"\bghost use\b[^;{]*(?:\{([^;]*)\})?;", text.read())
            found += 1 + sum(1 + it.count(",") for it in brought)
    return found


gone_over = {it: ways(it) * turns(it) for it in below}
print(f"{'ways':>12} {'gone over':>14}")
for name in sorted(below, key=gone_over.get, reverse=True)[:20]:
    print(f"{ways(name):>12,} {gone_over[name]:>14,} {name}")
print(f"{sum(map(ways, below)):>12,} {sum(gone_over.values()):>14,} in all")
