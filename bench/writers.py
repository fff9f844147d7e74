"""The table of bench/stack: python3 writers.py DIR names | depths | table

DIR has the assembly of both archives, `assembly` and `assembly.marshals`, and for the table `machine` and `held`. `names` prints each
`marshal`; `depths` of each kind how deep in NAME_marshal's stack the part is that is its `marshal`'s own. Exit status 1 where a stack
holds a byte of an address.
"""

import sys
from pathlib import Path

from stack import Stack
from tables import KINDS, row, stop, table

MARSHAL = {
    "ue_ip_address": "ue_ip_address::UeIpAddress::marshal",
    "f_teid": "f_teid::Fteid::marshal",
    "fseid": "fseid::Fseid::marshal",
    "node_id": "node_id::NodeId::marshal",
    "outer_header_creation": "outer_header_creation::OuterHeaderCreation::marshal",
    "pfd_contents": "pfd_contents::PfdContents::marshal",
    "header": "header::Header::marshal",
}


def depths(marshals):
    for kind, name in MARSHAL.items():
        marshals.need(f"{kind}_marshal")
        found = marshals.calls.get((f"{kind}_marshal", name), set())
        if len(found) != 1:
            stop(f"{kind}_marshal calls {name} at the depths {sorted(found)}; it is to be at one")
        # below the return addresses of both, and the registers of its caller that `marshal` saves
        print(kind, found.pop() + 16 + marshals.saved(name))


def most_held(folder):
    """The most bytes of an address on a stack: [kind][write or marshal]."""
    held = {}
    for kind, what, count in (line.split() for line in (folder / "held").read_text().splitlines()):
        held.setdefault(kind, {}).setdefault(what, []).append(int(count))
    return {kind: {what: max(counts) for what, counts in whats.items()} for kind, whats in held.items()}


def main():
    folder = Path(sys.argv[1])
    if sys.argv[2] == "names":
        return print(*MARSHAL.values(), sep="\n")
    marshals = Stack(folder / "assembly.marshals")
    if sys.argv[2] == "depths":
        return depths(marshals)
    archive, held = Stack(folder / "assembly"), most_held(folder)
    for line in (folder / "machine").read_text().splitlines():
        print(f"- {line}")
    print()
    table(["record", "the archive's write", "of an address", "`marshal`", "of an address"])
    for kind, name in MARSHAL.items():
        write = f"yerondatt_{kind}_write"
        deep = str(8 + archive.need(write)) if write in archive.by_name else ""
        of = held.get(kind, {"write": "", "marshal": ""})
        row([KINDS.get(kind, "message header"), deep, str(of["write"]), str(8 + marshals.need(name)), str(of["marshal"])])
    some = [KINDS[kind] for kind, of in held.items() if any(of.values())]
    print(f"\nA byte of an address on its stack: {', '.join(some) or 'none'}.")
    sys.exit(1 if some else 0)


if __name__ == "__main__":
    main()
