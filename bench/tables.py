"""The tables and plots of bench/run: python3 tables.py DIR RUNS

DIR has `machine`, `sections`, counts.1 .. counts.RUNS, `times` (on x86-64) and `assembly`. A cost is that of a call
without the loop; a ratio is ours divided by the Rust's.
"""

import sys
from pathlib import Path

import plot
from stack import Stack

KINDS = {
    "ue_ip_address": "UE IP Address",
    "f_teid": "F-TEID",
    "fseid": "F-SEID",
    "node_id": "Node ID",
    "outer_header_creation": "Outer Header Creation",
    "pfd_contents": "PFD Contents",
    "utf8": "UTF-8 check",
}
# the highest ratio allowed, and whether it may be reached
READ, MEAN, REFUSED, WRITE = 1.0, 0.8, 0.15, 0.3
UTF8 = {"ascii_60000": 1.0, "mixed_60000": 1.5}


def stop(why):
    raise SystemExit(f"tables: {why}")


class Costs:
    """Costs per call: [kind][class][what][side], what being read, refused, write or utf8."""

    def __init__(self):
        self.of = {}

    def put(self, kind, name, what, side, cost):
        self.of.setdefault(kind, {}).setdefault(name, {}).setdefault(what, {})[side] = cost

    def without_loop(self, back):
        for classes in self.of.values():
            for whats in classes.values():
                for sides in whats.values():
                    loop = sides.pop("loop") - back
                    for side in sides:
                        sides[side] -= loop
        return self


def counted(folder, runs):
    """Instructions, which must be the same in all runs."""
    sections, back = {}, 0
    for line in (folder / "sections").read_text().splitlines():
        words = line.split()
        if words[0] == "empty":
            back = int(words[1])
        if words[0] == "section":
            sections[int(words[1])] = words[2:]
    if not back:
        stop("`empty` isn't compiled as expected")
    counts = []
    for run in range(1, runs + 1):
        lines = (folder / f"counts.{run}").read_text().splitlines()
        counts.append({int(a): int(b) for a, b in (line.split() for line in lines)})
    costs = Costs()
    for section, (kind, name, what, side, calls) in sections.items():
        found = {count.get(section, 0) for count in counts}
        if 0 in found:
            stop(f"a run lacks section {section}")
        if len(found) > 1:
            stop(f"the runs differ in section {section}: {sorted(found)}")
        costs.put(kind, name, what, side, found.pop() / int(calls))
    return costs.without_loop(back).of


def timed(folder):
    path = folder / "times"
    if not path.exists():
        return None
    costs = Costs()
    for line in path.read_text().splitlines():
        _, kind, name, what, side, cost = line.split()
        costs.put(kind, name, what, side, float(cost))
    return costs.without_loop(0).of


def ratio(sides):
    return sides["ours"] / sides["rust"]


def missed(what, name, value):
    if what == "read":
        return value >= READ
    if what == "refused":
        return value > REFUSED
    if what == "write":
        return value > WRITE
    return value > UTF8.get(name, 9)


def number(x):
    return f"{x:,.1f}" if x < 1000 else f"{x:,.0f}"


def cells(costs, times, kind, name, what):
    sides = costs[kind][name].get(what)
    if not sides:
        return ["", "", "", ""]
    value = ratio(sides)
    shown = f"{value:.3f}"
    row = [number(sides["ours"]), number(sides["rust"]), f"**{shown}**" if missed(what, name, value) else shown]
    if times:
        row.append(f"{ratio(times[kind][name][what]):.2f}")
    else:
        row.append("")
    return row


def row(words):
    print("| " + " | ".join(words) + " |")


def table(head):
    row(head)
    row(["---"] * len(head))


def kind_table(costs, times, kind):
    print(f"\n### {KINDS[kind]}\n")
    table(["class", "read, ours", "Rust", "ratio", "in time", "write, ours", "Rust", "ratio", "in time"])
    for name, whats in costs[kind].items():
        refused = "refused" in whats
        shown = f"{name}, refused" if refused else name
        row([shown] + cells(costs, times, kind, name, "refused" if refused else "read") + cells(costs, times, kind, name, "write"))


def ratios(costs, kind, what):
    return [ratio(whats[what]) for whats in costs[kind].values() if what in whats]


def mark(value, bad):
    return f"**{value:.3f}**" if bad else f"{value:.3f}"


def summary(costs):
    print("\n## Ratios, ours / Rust, in instructions\n")
    table(["kind", "read, mean", "worst", "refused, worst", "write, mean", "worst"])
    for kind in costs:
        if kind == "utf8":
            continue
        read, refused, write = (ratios(costs, kind, what) for what in ("read", "refused", "write"))
        mean = sum(read) / len(read)
        row([
            KINDS[kind],
            mark(mean, mean > MEAN),
            mark(max(read), max(read) >= READ),
            mark(max(refused), max(refused) > REFUSED),
            f"{sum(write) / len(write):.3f}",
            mark(max(write), max(write) > WRITE),
        ])


def missing(costs):
    """The classes that miss their target."""
    print("\n## Targets missed\n")
    all_of = 0
    for kind in costs:
        read = ratios(costs, kind, "read")
        if read and sum(read) / len(read) > MEAN:
            print(f"- {KINDS[kind]}, mean of the reads: {sum(read) / len(read):.3f}")
        for what in ("read", "refused", "write", "utf8"):
            found = {name: ratio(whats[what]) for name, whats in costs[kind].items() if what in whats}
            all_of += len(found)
            bad = [f"{name} {value:.3f}" for name, value in found.items() if missed(what, name, value)]
            if bad:
                print(f"- {KINDS[kind]}, {what}: {', '.join(bad)}")
    print(f"\nAll other of the {all_of} ratios are within their targets.")


def utf8_table(costs, times):
    print("\n### UTF-8 check\n")
    table(["text", "ours", "from_utf8", "ratio", "in time"])
    for name in costs["utf8"]:
        row([name] + cells(costs, times, "utf8", name, "utf8"))


def series(costs, kind, prefix, what):
    """Sizes and sides of the classes prefix_SIZE."""
    found = []
    for name, whats in costs.get(kind, {}).items():
        start, _, size = name.rpartition("_")
        if start == prefix and what in whats:
            found.append((int(size), whats[what]))
    return found


# kind, class, unit, plot
GROWTH = [
    ("node_id", "ascii", "bytes of an ASCII name", "names-ascii"),
    ("node_id", "mixed", "bytes of a mixed name", "names-mixed"),
    ("pfd_contents", "ascii", "bytes of an ASCII text", None),
    ("pfd_contents", "mixed", "bytes of a mixed text", None),
    ("pfd_contents", "list", "entries of a list, 20 bytes of ASCII each", "lists"),
]


def growth(costs):
    print("\n## Growth: instructions for each unit more, from size to size\n")
    table(["kind, unit", "what", "side", "first to second", "to third", "to fourth"])
    for kind, prefix, unit, _ in GROWTH:
        for what in ("read", "write"):
            points = series(costs, kind, prefix, what)
            for side in ("ours", "rust"):
                steps = [(b[1][side] - a[1][side]) / (b[0] - a[0]) for a, b in zip(points, points[1:])]
                if steps:
                    sizes = ", ".join(f"{size:,}" for size, _ in points)
                    name = "ours" if side == "ours" else "Rust"
                    row([f"{KINDS[kind]}, {unit} ({sizes})", what, name] + [f"{s:.2f}" for s in steps])


def stacks(folder):
    stack = Stack(folder / "assembly")
    print("\n## Stack, in bytes, the return address included\n")
    table(["kind", "read", "write", "strict"])
    for kind in KINDS:
        names = [f"yerondatt_{kind}_{what}" for what in ("read", "write", "strict")]
        if names[0] in stack.by_name:
            row([KINDS[kind]] + [str(8 + stack.need(n)) if n in stack.by_name else "" for n in names])
    outside = ", ".join(f"`{name}`" for name in sorted(stack.outside)) or "nothing"
    print(f"\nNo recursion, no call through a pointer. Called outside the archive: {outside}.")


def main():
    folder, runs = Path(sys.argv[1]), int(sys.argv[2])
    costs, times = counted(folder, runs), timed(folder)
    for line in (folder / "machine").read_text().splitlines():
        print(f"- {line}")
    summary(costs)
    missing(costs)
    print("\n## Instructions per call")
    for kind in costs:
        if kind != "utf8":
            kind_table(costs, times, kind)
    utf8_table(costs, times)
    growth(costs)
    stacks(folder)
    for kind, prefix, unit, name in GROWTH:
        points = series(costs, kind, prefix, "read"), series(costs, kind, prefix, "write")
        if name and all(points):
            plot.save(folder / f"{name}.svg", f"{KINDS[kind]}: instructions by {unit}", points)


if __name__ == "__main__":
    main()
