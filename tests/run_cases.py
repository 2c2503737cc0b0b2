#!/usr/bin/env python3
"""Runs locale_cli on each case and compares its output and its status: tests/run_cases.py [PROGRAM]. Without a
program it is built unproved, and runs each sixteenth of the cases that are many, and none that is long."""
import collections
import sys
import tempfile
from dataclasses import replace

import make_cases
from programs import answer, unproved_answers
from results import Results, shown

MANY = ("refused_", "words_", "run_", "shown_")
EACH = 16
LONG = 65536


def wrong(case, came):
    """What is wrong of an answer, or None."""
    if came.status != case.status:
        return f"status {came.status} in place of {case.status}\n{came.messages.decode(errors='replace')}"
    if case.reason is not None:
        return reason_wrong(case.reason, came.output)
    if came.output != case.output:
        return f"{shown(came.output)} in place of {shown(case.output)}"
    return None


def reason_wrong(reason, output):
    """What is wrong of an output whose last line before the closing ones ends with a refusal."""
    lines = [line for line in output.splitlines() if line.startswith(b"1 ")]
    if lines and lines[-1].endswith(b" refused " + reason):
        return None
    return f"{shown(lines[-1:])} in place of a line that ends with {shown(b'refused ' + reason)}"


def sample(cases):
    """Those that are run unproved, where each takes a second."""
    counts = collections.Counter()
    for case in cases:
        kind = next((it for it in MANY if case.name.startswith(it) and case.reason is None), None)
        counts[kind] += 1
        if (kind is None or counts[kind] % EACH == 1) and max(len(case.source), len(case.output)) <= LONG:
            yield case


def built_answers(program, cases):
    for count, case in enumerate(cases, 1):
        yield case, answer(case.name, [program, *case.words], case.source)
        if count % 200 == 0:
            print(f"bundles and words: {count} so far", flush=True)


def tried_answers(cases):
    """The answers of the unproved program, which prints the output of a case that has none beside it."""
    with tempfile.TemporaryDirectory() as folder:
        make_cases.write([replace(case, reason=b"") for case in cases], folder)
        answers = unproved_answers("locale_cli", folder)
    return [(case, answers.get(case.name)) for case in cases]


def main(program=None):
    results = Results("bundles and words")
    cases = make_cases.all_cases()
    if program is None:
        cases = list(sample(cases))
        print(f"building locale_cli unproved, and then {len(cases)} cases", flush=True)
    for case, came in built_answers(program, cases) if program else tried_answers(cases):
        results.judges(case.name, wrong(case, came) if came else "no answer")
    return results.end()


if __name__ == "__main__":
    sys.exit(main(*sys.argv[1:]))
