#!/usr/bin/env python3
"""What the calls of the C library can reach: tests/c/reach.py ARCHIVE HEADER MAKING..

Reads the compiled archive by objdump and follows each call and jump from the functions that HEADER
declares. Those that MAKING names make or free a library, and may allocate and count. None of the others may reach an
allocation, an atomic instruction, or a call or jump to where a register or memory says. (A jump by a table of
offsets, as compilers make of a choice among cases, stays in its function.) A line tells of each that does, with
the way there. The status is 0 where none does. Without words it tries what it knows of instructions on examples.
"""
import re
import subprocess
import sys

HEAP = {"rattle_alloc", "rattle_realloc", "malloc", "realloc", "calloc"}
FUNCTION = re.compile(r"^[0-9a-f]+ <(.+)>:$")
RELOCATION = re.compile(r"^\s+[0-9a-f]+: (R_X86_64_\w+)\s+([^\s+-]+)")
DIRECT = re.compile(r"^\s+[0-9a-f]+:\s+(?:notrack\s+|bnd\s+)?(?:call|j\w+)\s+[0-9a-f]+ <([^>+]+)")
INDIRECT = re.compile(r"^\s+[0-9a-f]+:\s+(?:notrack\s+|bnd\s+)?(?:call|jmp)\s+\*(.+?)(?:\s+#.*)?$")
ATOMIC = re.compile(r"^\s+[0-9a-f]+:\s+(lock\b|xchg\s+%\w+,[^%]|mfence)")
OFFSET = re.compile(r"\bmovslq\s+\w*\((%\w+),%\w+,4\),(%\w+)$")
NEAR = 8
"""How many lines before a jump its offset may be taken from a table."""


def is_by_table(before, register):
    """Whether the last instructions give a register the sum of a table's place and an offset from the table."""
    for at, line in enumerate(before):
        taken = OFFSET.search(line)
        if taken and register in taken.groups():
            other = taken[2] if register == taken[1] else taken[1]
            if any(re.search(rf"\badd\s+{other},{register}$", it) for it in before[at + 1 :]):
                return True
    return False


def is_unknown(operand, before, behind):
    """Whether a call or jump by an operand may go anywhere, between the lines before it and that behind it."""
    if operand.endswith("(%rip)"):
        # (an entry of the table of global places is a name that the linker knows)
        named = RELOCATION.match(behind)
        return not (named and "GOTPCREL" in named[1])
    return not (re.fullmatch(r"%\w+", operand) and is_by_table(before, operand))


def functions_of(lines):
    """Each function that objdump tells of, with the names that it calls and what it does itself."""
    found, name, start = {}, None, 0
    for at, line in enumerate(lines):
        begun = FUNCTION.match(line)
        if begun:
            name, start = begun[1], at
            found.setdefault(name, (set(), set()))
            continue
        if name is None:
            continue
        calls, does = found[name]
        for pattern in (DIRECT, RELOCATION):
            met = pattern.match(line)
            if met:
                # (a function of the same object is named by its section)
                calls.add(re.sub(r"^\.text\.(unlikely\.|hot\.|startup\.)?", "", met[met.lastindex]))
        aimed = INDIRECT.match(line)
        if aimed and is_unknown(aimed[1], lines[max(start, at - NEAR) : at], "".join(lines[at + 1 : at + 2])):
            does.add("a call or jump to where a register or memory says")
        if ATOMIC.match(line):
            does.add("an atomic instruction")
    return found


def way_to(found, first):
    """The first way from a function to the heap, an atomic instruction or an unknown call, or none."""
    ways, left = {first: [first]}, [first]
    while left:
        name = left.pop(0)
        if name in HEAP:
            return ways[name], "the heap"
        if name not in found:
            continue
        calls, does = found[name]
        if does:
            return ways[name], sorted(does)[0]
        for called in sorted(calls):
            if called not in ways:
                ways[called] = [*ways[name], called]
                left.append(called)
    return None


EXAMPLES = [
    (True, ["  1:\tcall   *%rax"]),
    (True, ["  1:\tcall   *0x8(%rax)"]),
    (True, ["  1:\tcall   *(%rax,%rsi,8)"]),
    (True, ["  1:\tjmp    *%rax"]),
    (True, ["  1:\tjmp    *0x8(%rax)"]),
    (True, ["  1:\tnotrack jmp *%rax"]),
    (True, ["  1:\tcall   *0x0(%rip)        # 7 <f+0x7>", "\t\t\t3: R_X86_64_PC32\tnext-0x4"]),
    (True, ["  1:\tmovslq (%rcx,%rax,4),%rax", "  5:\tadd    %rcx,%rax", "  8:\tjmp    *%rdx"]),
    (True, ["  1:\tmovslq (%rcx,%rax,4),%rax", "  5:\tjmp    *%rax"]),
    (True, ["  1:\tlock xadd %rax,(%rdi)"]),
    (True, ["  1:\txchg   %rax,(%rdi)"]),
    (False, ["  1:\tmovslq (%rcx,%rax,4),%rax", "  5:\tadd    %rcx,%rax", "  8:\tjmp    *%rax"]),
    (False, ["  1:\tmovslq (%rcx,%rax,4),%rdx", "  5:\tadd    %rcx,%rdx", "  8:\tnotrack jmp *%rdx"]),
    (False, ["  1:\tmovslq (%rcx,%rax,4),%rdx", "  5:\tadd    %rdx,%rcx", "  8:\tjmp    *%rcx"]),
    (False, ["  1:\tcall   *0x0(%rip)        # 7 <f+0x7>", "\t\t\t3: R_X86_64_GOTPCRELX\tg-0x4"]),
    (False, ["  1:\tcall   7 <g>", "  6:\tjmp    9 <f+0x9>", "  8:\txchg   %ax,%ax"]),
]
"""Instructions of a function, and whether they may go anywhere or are atomic."""


def try_examples():
    """Tells of each example that is not taken for what it is; the status is 0 if there is none."""
    wrong = [lines for does, lines in EXAMPLES if bool(functions_of(["0 <f>:", *lines])["f"][1]) != does]
    for lines in wrong:
        print("reach: is not taken for what it is:", *lines, sep="\n")
    return 1 if wrong else 0


def main(archive, header, *making):
    with open(header, encoding="utf-8") as it:
        declared = re.findall(r"^\w[\w *]*?\b(lobj_\w+)\(", it.read(), re.MULTILINE)
    text = subprocess.run(
        ["objdump", "-dr", "--no-show-raw-insn", archive], check=True, capture_output=True, text=True
    ).stdout
    found = functions_of(text.splitlines())
    declared = sorted(set(declared) & set(found))
    failed = 0
    for name in declared:
        if name in making:
            continue
        way = way_to(found, name)
        if way:
            failed += 1
            print(f"{name} reaches {way[1]}: {' > '.join(way[0])}")
    read = [it for it in declared if it not in making]
    for name in making:
        if name in found and not way_to(found, name):
            failed += 1
            print(f"{name} reaches nothing, so this script does not see what it should")
    print(f"reach: {len(read)} calls allocate nothing and share nothing" if not failed else f"reach: {failed} of {len(declared)} calls failed")
    return 1 if failed or not read else 0


if __name__ == "__main__":
    sys.exit(main(*sys.argv[1:]) if sys.argv[1:] else try_examples())
