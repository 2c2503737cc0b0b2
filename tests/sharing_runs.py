#!/usr/bin/env python3
"""Runs scripts of sixteen threads that share objects, each twice, and judges what is printed by a replay:
tests/sharing_runs.py PROGRAM. A hundred runs have 64 rounds, the first four of them as many commands as a script may
have, and twenty have more commands in a round."""
import sys

from judging import judged_run
from results import Results
from sharing import bundle

RUNS, THREADS = 120, 16


def size(count):
    """The rounds of the script of a run, and the commands of a thread in each."""
    if count <= 4:
        return 64, 19
    return (64, 3) if count <= 100 else (8, 12)


def main(program):
    results = Results("threads that share")
    for count in range(1, RUNS + 1):
        seed = (count + 1) // 2 * 2 - 1
        script = bundle(seed, THREADS, *size(seed)).encode()
        words = [f"rows={count % 5 * 4 + 1}", f"generations={count % 7 + 2}"]
        results.judges(f"sharing_{count}", judged_run(f"sharing_{count}", program, script, words))
    return results.end()


if __name__ == "__main__":
    sys.exit(main(*sys.argv[1:]))
