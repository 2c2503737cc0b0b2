#!/usr/bin/env python3
"""Tries the replay on outputs that are forged: tests/forged.py PROGRAM. It takes an output that may be printed, and
names a line of each that is made of it by an edit of tests/forged/NAME.edits: lines NAME and a script of sed."""
import subprocess
import sys

from case_files import lines, read
from judging import judged
from results import Results


def main(program):
    results = Results("forged outputs")
    for name in ("threads", "catalogs", "both"):
        bundle, output = read(f"tests/forged/{name}"), read(f"tests/forged/{name}.out")
        results.judges(f"{name}_not_forged", judged(bundle, output, program=program))
        for line in lines(f"tests/forged/{name}.edits"):
            edit, script = line.decode().split(" ", 1)
            forged = subprocess.run(["sed", "-E", script], input=output, stdout=subprocess.PIPE, check=True).stdout
            told = judged(bundle, forged, program=program) or "it is accepted"
            results.judges(f"{name}_forged_{edit}", None if " -- wanted: " in told else told)
    return results.end()


if __name__ == "__main__":
    sys.exit(main(*sys.argv[1:]))
