"""The tables of bench/ies: python3 ies.py DIR RUNS

DIR has `machine`, `sections`, counts.1 .. counts.RUNS and `outside`, the symbols that the archives leave undefined. A class is
named NAME_COUNT, by the IEs of its bodies. Exit status 1 where a target is missed, or where there is such a symbol.
"""

import sys
from pathlib import Path

from tables import counted, mark, number, ratio, row, table

# the highest ratio where IEs have payloads, and where all are empty
PAYLOADS, EMPTY = 0.15, 0.6
# how much one IE more may cost at one size, against the size where it costs least
LINEAR = 1.05


class Body:
    """Bodies of one class and size, and the same class one size below."""

    def __init__(self, full_name, whats, below):
        self.name, _, count = full_name.rpartition("_")
        self.count = int(count)
        self.what, self.sides = next(iter(whats.items()))
        self.below = below if below and below.name == self.name else None
        self.most = EMPTY if self.name.startswith("empty") else PAYLOADS

    def shown(self):
        return f"{self.name}, refused" if self.what == "refused" else self.name

    def ratio(self):
        return ratio(self.sides)

    def missed(self):
        return self.what == "read" and self.ratio() > self.most

    def step(self, side):
        """What each IE costs that the size below doesn't have."""
        return (self.sides[side] - self.below.sides[side]) / (self.count - self.below.count)

    def cells(self, side):
        cost = self.sides[side]
        return [number(cost), number(cost / self.count), number(self.step(side)) if self.below else ""]


def bodies_of(classes):
    bodies = []
    for name, whats in classes.items():
        bodies.append(Body(name, whats, bodies[-1] if bodies else None))
    return bodies


def whole_table(bodies, dropped):
    table(["class", "IEs", "ours", "per IE", "each more", "Rust", "per IE", "each more", "ratio", "Rust, dropped", "ratio"])
    for body, other in zip(bodies, dropped, strict=True):
        words = [body.shown(), f"{body.count:,}"] + body.cells("ours") + body.cells("rust")
        row(words + [mark(body.ratio(), body.missed()), number(other.sides["rust"]), mark(other.ratio(), False)])


def one_table(bodies):
    table(["one IE", "ours", "Rust", "ratio"])
    for body in bodies:
        row([body.shown(), number(body.sides["ours"]), number(body.sides["rust"]), mark(body.ratio(), False)])


def by_name(bodies):
    names = {}
    for body in bodies:
        names.setdefault(body.name, []).append(body)
    return names


def missed_in(bodies):
    """The ratios that are too high, by class; says so in a line."""
    accepted = [body for body in bodies if body.what == "read"]
    missed = [body for body in accepted if body.missed()]
    words = []
    for name, some in by_name(missed).items():
        ratios = sorted(f"{body.ratio():.3f}" for body in some)
        words.append(f"{name} {ratios[0]}" + (f" to {ratios[-1]}" if len(ratios) > 1 else ""))
    met = f"missed in {len(missed)} of {len(accepted)}: {', '.join(words)}" if missed else f"yes, in all {len(accepted)}"
    print(f"- Whole bodies, at most {PAYLOADS} of the Rust's instructions, {EMPTY} where all IEs are empty: {met}.")
    return missed


def bent(bodies):
    """The accepted classes in which ours isn't linear; says so in a line."""
    found = []
    for name, some in by_name(body for body in bodies if body.what == "read").items():
        steps = [body.step("ours") for body in some if body.below]
        if steps and max(steps) > LINEAR * min(steps):
            found.append(name)
    met = f"not in {', '.join(found)}" if found else "yes, in every class"
    print(f"- Linear, one IE more costs at most {LINEAR} of what it costs at the size where it costs least: {met}.")
    return found


def called_outside(folder):
    outside = (folder / "outside").read_text().split()
    called = ", ".join(f"`{name}`" for name in outside) or "nothing, so nothing is allocated"
    print(f"- Called outside the archives: {called}.")
    return outside


def main():
    folder, runs = Path(sys.argv[1]), int(sys.argv[2])
    costs = counted(folder, runs)
    for line in (folder / "machine").read_text().splitlines():
        print(f"- {line}")
    whole, dropped, one = (bodies_of(costs[kind]) for kind in ("ies", "dropped", "ie"))
    print()
    whole_table(whole, dropped)
    print()
    one_table(one)
    print()
    bad = [missed_in(whole), bent(whole), called_outside(folder)]
    sys.exit(1 if any(bad) else 0)


main()
