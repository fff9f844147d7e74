"""Stack of the archive's functions, from the assembly that `objdump -dr --no-show-raw-insn` prints.

Every path of a function is walked; a call adds its return address and what the called function needs. Recursion, a
call through a pointer and a call of anything but the functions of MEMORY stop it. python3 stack.py ASSEMBLY prints all.
"""

import re
import sys

# what the compiler itself may call, of the C library; none of them uses the heap
MEMORY = {"memcpy", "memmove", "memset", "memcmp", "bcmp"}

# the registers that a function must leave as they were
KEPT = {"%rbx", "%rbp", "%r12", "%r13", "%r14", "%r15"}


class Function:
    def __init__(self, name):
        self.name = name
        self.code = []  # (address, operation, operands, relocation)


def functions(path):
    """The functions of an assembly, by name and by section."""
    by_name, by_section = {}, {}
    section = function = None
    for line in open(path):
        if m := re.match(r"Disassembly of section (\S+):", line):
            section = m[1]
        elif m := re.match(r"[0-9a-f]+ <(.+)>:$", line):
            function = by_name[m[1]] = Function(m[1])
            by_section.setdefault(section, function)
        elif m := re.match(r"\s+[0-9a-f]+: (R_X86_64_\S+)\s+(\S+)", line):
            at, operation, operands, _ = function.code[-1]
            function.code[-1] = (at, operation, operands, m[2])
        elif m := re.match(r"\s+([0-9a-f]+):\s+(\S+)\s*(.*)", line):
            operation, operands = m[2], m[3]
            while operation in ("notrack", "rep", "repz", "lock", "bnd", "data16", "cs"):
                operation, _, operands = operands.partition(" ")
                operands = operands.strip()
            function.code.append((int(m[1], 16), operation, operands, None))
    return by_name, by_section


class Stack:
    def __init__(self, path):
        self.by_name, self.by_section = functions(path)
        self.known, self.open = {}, []
        self.outside = set()
        self.calls = {}  # (caller, called): the depths of the caller's own stack at its calls

    def called(self, relocation):
        """The name of a called function, None where it is one of the C library's."""
        name = re.sub(r"[-+]0x[0-9a-f]+$", "", relocation)
        if name in self.by_section:
            return self.by_section[name].name
        if name in self.by_name:
            return name
        if name not in MEMORY:
            raise SystemExit(f"stack: {self.open[-1]} calls {name}")
        self.outside.add(name)
        return None

    def need(self, name):
        """Bytes below the stack pointer of the caller, without the return address."""
        if name in self.known:
            return self.known[name]
        if name in self.open:
            raise SystemExit(f"stack: {name} calls itself")
        self.open.append(name)
        self.known[name] = self.walk(self.by_name[name].code)
        self.open.pop()
        return self.known[name]

    def saved(self, name):
        """Bytes of the registers that a function keeps for its caller, which stand right below its return address."""
        registers = {operands for _, operation, operands, _ in self.by_name[name].code if operation == "push"}
        return 8 * len(registers & KEPT)

    def below(self, relocation, depth):
        called = self.called(relocation)
        self.calls.setdefault((self.open[-1], called), set()).add(depth)
        return 8 + (self.need(called) if called else 0)

    def walk(self, code):
        place = {at: i for i, (at, *_) in enumerate(code)}
        seen, deepest = {}, 0
        todo, table = [(0, 0)], None
        while todo or (table is not None and len(seen) < len(code)):
            if not todo:
                # behind a jump by a table: all that no other way reaches, at the depth of the jump
                todo.append((next(i for i in range(len(code)) if i not in seen), table))
            i, depth = todo.pop()
            if i >= len(code) or i in seen:
                continue
            at, operation, operands, relocation = code[i]
            depth = self.step(operation, operands, depth)
            seen[i] = depth
            # a function without calls may use bytes below the stack pointer as they are
            beyond = [int(x, 16) for x in re.findall(r"-(0x[0-9a-f]+)\(%rsp", operands)]
            deepest = max([deepest, depth] + [depth + x for x in beyond])
            if operation.startswith("call"):
                if operands.startswith("*") or relocation is None:
                    raise SystemExit(f"stack: {self.open[-1]} has the call {operands}")
                deepest = max(deepest, depth + self.below(relocation, depth))
            if operation.startswith("ret") or operation == "ud2":
                continue
            if operation.startswith("j"):
                if operands.startswith("*"):
                    table = depth
                    continue
                if relocation:
                    # a jump to another function takes over its return address
                    deepest = max(deepest, depth + self.below(relocation, depth) - 8)
                else:
                    todo.append((place[int(operands.split()[0], 16)], depth))
                if operation == "jmp":
                    continue
            todo.append((i + 1, depth))
        return deepest

    @staticmethod
    def step(operation, operands, depth):
        """The depth after an instruction."""
        if operation.startswith("push"):
            return depth + 8
        if operation.startswith("pop") and operation != "popcnt":
            return depth - 8
        if not operands.endswith(",%rsp"):
            return depth
        if m := re.match(r"(add|sub)q?$", operation):
            amount = int(operands.split(",")[0].lstrip("$"), 16)
            if amount >= 1 << 63:
                amount -= 1 << 64
            return depth - amount if m[1] == "add" else depth + amount
        if m := re.match(r"(-?0x[0-9a-f]+)\(%rsp\),%rsp", operands):
            return depth - int(m[1], 16)
        if operation.startswith(("cmp", "test")):
            return depth
        raise SystemExit(f"stack: not understood: {operation} {operands}")


if __name__ == "__main__":
    stack = Stack(sys.argv[1])
    for name in sorted(stack.by_name):
        print(f"{8 + stack.need(name):6} {name}")
    print("of the C library:", ", ".join(sorted(stack.outside)) or "none")
