#!/usr/bin/env python3
"""Runs the cases of `serial`, and those of `check` that are kept, by `run`: tests/by_run.py PROGRAM. What it prints of
threads that share is another order of calls at each run, so that it is judged by a replay."""
import sys

import make_cases
from case_files import DONE, kept, read
from judging import judged_run
from programs import answer
from results import Results, shown


def cases():
    """The cases that are run."""
    of_check = {case.name for case in kept() if case.mode == b"check"}
    for case in make_cases.all_cases():
        if case.status == DONE and case.reason is None and (case.mode == b"serial" or case.name in of_check):
            yield case


def exchanged(output):
    """The output of the case freed_while_in_use where the two threads of its last round have exchanged their places."""
    return output.replace(b"\n5 A 5 8 ", b"\n5 A 5 9 ").replace(b"\n5 B 6 9 ", b"\n5 B 6 8 ")


def freed_while_in_use(program):
    """In the last round of this case two threads call, and nothing but their order may differ."""
    case = "tests/cases/freed_while_in_use"
    came, wanted = answer("freed_while_in_use", [program, "run"], read(case)), read(f"{case}.stdout")
    if came.status == 0 and came.output in (wanted, exchanged(wanted)):
        return None
    return f"status {came.status}, {shown(came.output)}"


def lines_of_a(output):
    """The lines of the thread A in the first round, but for their places."""
    rows = [line.split(b" ") for line in output.splitlines()]
    return [[*row[:3], row[3] == b"-", *row[4:]] for row in rows if row[:2] == [b"1", b"A"]]


def places(output):
    return sorted(int(row[3]) for row in map(bytes.split, output.splitlines()) if row[3] != b"-")


def alone_and_beside(program):
    """A thread's own lines are the same beside another one and alone, but for their places, each of them once."""
    bundle = read("tests/cases/ordinary_session")
    alone, beside = (
        answer("alone_and_beside", [program, "run"], text).output for text in (bundle.split(b".thread B\n")[0], bundle)
    )
    if len(lines_of_a(alone)) == 4 and lines_of_a(alone) == lines_of_a(beside) and places(beside) == list(range(6)):
        return None
    return f"alone {shown(alone)}, beside {shown(beside)}"


def main(program):
    results = Results("cases by run")
    results.judges("freed_while_in_use", freed_while_in_use(program))
    results.judges("alone_and_beside", alone_and_beside(program))
    for case in cases():
        words = [word.decode() for word in case.words[1:]]
        results.judges(case.name, judged_run(case.name, program, case.source, words))
    return results.end()


if __name__ == "__main__":
    sys.exit(main(*sys.argv[1:]))
