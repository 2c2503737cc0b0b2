#!/usr/bin/env python3
"""Makes the cases of the program, those of files, of the documents, the long ones, and those that `run` answers as
`serial` does. `tests/make_cases.py FOLDER` writes them, for the eye: NAME, NAME.args and NAME.stdout."""
import collections
import os
import sys
from dataclasses import replace

import case_files
import documents
import long_cases


def is_the_same_by_run(output):
    """Whether `run` prints what `serial` does: where in each round one thread alone calls the table, one alone the
    catalogs, and no other reads the global locale that it sets. The closing lines, those of the last round, stand in
    order in any case."""
    rows = [line.split(b" ", 5)[:5] for line in output.splitlines()]
    rows = [row for row in rows if row[0] != rows[-1][0]]
    callers, openers, setters, readers = (collections.defaultdict(set) for _ in range(4))
    for round_number, thread, _, place, version in rows:
        is_call = place[:1].isdigit()
        if is_call:
            callers[round_number].add(thread)
        if place.startswith(b"c"):
            openers[round_number].add(thread)
        if version != b"-":
            (setters if is_call else readers)[round_number].add(thread)
    alone = all(len(threads) == 1 for of in (callers, openers) for threads in of.values())
    return alone and all(readers[it] <= setters[it] for it in setters)


def by_run(cases):
    """The cases of `serial` that `run` answers alike, once more by `run`."""
    for case in cases:
        if case.mode == b"serial" and case.status == case_files.DONE and not case.reason:
            if is_the_same_by_run(case.output):
                yield replace(case, name=f"run_{case.name}", words=(b"run", *case.words[1:]))


def all_cases():
    kinds = [case_files.kept, case_files.refused_bundles, case_files.wrong_words, case_files.examples]
    made = [case for kind in [*kinds, documents.cases, long_cases.cases] for case in kind()]
    made += by_run(made)
    twice = [name for name, count in collections.Counter(case.name for case in made).items() if count > 1]
    if twice:
        raise ValueError(f"two cases have the name {' '.join(twice)}")
    return made


def write(cases, folder):
    """Writes an input, its words, one a line, and its output, where that is known."""
    for case in cases:
        texts = {"": case.source, ".args": b"".join(word + b"\n" for word in case.words)}
        if case.reason is None:
            texts[".stdout"] = case.output
        for end, text in texts.items():
            with open(os.path.join(folder, case.name + end), "wb") as file:
                file.write(text)


if __name__ == "__main__":
    if len(sys.argv) != 2:
        sys.exit(__doc__)
    os.makedirs(sys.argv[1])
    write(all_cases(), sys.argv[1])
