"""The table of bench/headers: python3 headers.py DIR RUNS

DIR has `machine`, `sections`, counts.1 .. counts.RUNS and `outside`, the symbols that the archives leave undefined. Exit status 1
where an accepted header takes more than MOST of the Rust's instructions to read, or where there is such a symbol.
"""

import sys
from pathlib import Path

from tables import counted, mark, number, ratio, row, table

MOST = 1.05


def cells(sides, most=None):
    value = ratio(sides)
    return [number(sides["ours"]), number(sides["rust"]), mark(value, most and value > most)]


def main():
    folder, runs = Path(sys.argv[1]), int(sys.argv[2])
    costs = counted(folder, runs)
    for line in (folder / "machine").read_text().splitlines():
        print(f"- {line}")
    print()
    table(["class", "read, ours", "Rust", "ratio", "read alone, ours", "Rust", "ratio", "write, ours", "Rust", "ratio"])
    over, accepted = [], []
    for name, whats in costs["header"].items():
        alone = costs["alone"][name]
        if "refused" in whats:
            row([f"{name}, refused"] + cells(whats["refused"]) + cells(alone["refused"]) + ["", "", ""])
            continue
        row([name] + cells(whats["read"], MOST) + cells(alone["read"], MOST) + cells(whats["write"]))
        accepted.append(name)
        if max(ratio(whats["read"]), ratio(alone["read"])) > MOST:
            over.append(name)
    met = f"not in {', '.join(over)}" if over else f"yes, in {', '.join(accepted)}"
    print(f"\nAn accepted header is read with at most {MOST} of the Rust's instructions: {met}.")
    outside = (folder / "outside").read_text().split()
    called = ", ".join(f"`{name}`" for name in outside) or "nothing, so nothing is allocated"
    print(f"Called outside the archives: {called}.")
    sys.exit(1 if over or outside else 0)


main()
