#!/usr/bin/env python3
"""Compares what `make` prints with what `serial` comes to on the same bundle, which is made here once more, by the
rules of docs/BUNDLE.md alone: tests/made.py PROGRAM"""
import sys

from case_files import read
from programs import answer
from results import Results

COMMANDS = [
    lambda q: "new a LC_ALL us",
    lambda q: "new a LC_ALL fr a",
    lambda q: "use a",
    lambda q: "free a",
    lambda q: 'money "%%n" %d.%02d' % (q % 1000000 // 100, q % 100),
    lambda q: 'time "%%c" 2021-01-%02d 12:00:00 %d %d' % (q % 31 + 1, (q % 31 + 5) % 7, q % 31),
    lambda q: "info CRNCYSTR",
    lambda q: "class alpha %d" % (q % 256),
]
LARGE_SEEDS = [2**32, 2**63 - 1, 2**64 - 1]
SIZES = [*((7, count) for count in (1, 2, 3, 5, 8, 100)), *((seed, 20000) for seed in [*range(17), *LARGE_SEEDS])]


def drawn(seed, count):
    commands = []
    x = seed
    for i in range(count):
        x = (x * 6364136223846793005 + 1442695040888963407) % 2**64
        r = x // 2**33
        commands.append("new a LC_ALL us" if i < 4 else COMMANDS[r % 8](r // 8))
    return commands


def locales():
    """The locales us and fr, which are the first two blocks of a case."""
    lines = read("tests/cases/localeconv_of_two_locales").decode().split("\n")
    start = next(at for at, line in enumerate(lines) if line.startswith(".locale"))
    ends = [at for at, line in enumerate(lines) if line == ".end"]
    return lines[start : ends[1] + 1]


def bundle(seed, count):
    lines, commands = locales(), drawn(seed, count)
    for thread in range(4):
        lines += [f".thread T{thread}", *commands[thread::4]]
    return "".join(f"{line}\n" for line in lines).encode()


def summary(count, output):
    """The line for what `serial` printed of the bundle."""
    lines = [line.split(b" ", 5) for line in output.split(b"\n")[:-1]]
    replies = [line[5] for line in lines if line[0] == b"1"]
    refused = sum(reply.startswith(b"refused") for reply in replies)
    size = sum(len(reply) for reply in replies)
    return b"made: threads 4 commands %d refused %d bytes %d\n" % (count, refused, size)


def main(program):
    results = Results("made bundles")
    for seed, count in SIZES:
        name = f"made_{seed}_{count}"
        by_serial = answer(name, [program, "serial"], bundle(seed, count))
        by_make = answer(name, [program, "make", f"seed={seed}", f"commands={count}"])
        wanted = 0, 0, summary(count, by_serial.output)
        results.compares(name, (by_serial.status, by_make.status, by_make.output), wanted)
    return results.end()


if __name__ == "__main__":
    sys.exit(main(*sys.argv[1:]))
