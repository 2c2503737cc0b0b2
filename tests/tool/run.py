#!/usr/bin/env python3
"""Runs locale_tool on each of its cases and compares both streams and the status: run.py [PROGRAM]. Without a program
it is built unproved, and runs each eighth of the cases."""
import os
import sys
import tempfile

sys.path.insert(0, os.path.dirname(os.path.dirname(os.path.realpath(__file__))))
from programs import Answer, answer, unproved_answers  # noqa: E402
from results import Results  # noqa: E402
from tool_cases import all_cases, make_files, text_of  # noqa: E402

EACH = 8


def built_answers(program, cases, work):
    for case in cases:
        yield case, answer(case.name, [program, *case.words], text_of(case.input).encode(), cwd=work)


def tried_answers(cases, work):
    """The answers of the unproved program, which calls itself `program`."""
    folder = f"{work}/tool_cases"
    os.mkdir(folder)
    for case in cases:
        for path, lines in ((case.name, case.input), (f"{case.name}.args", case.words)):
            with open(f"{folder}/{path}", "w", encoding="utf-8") as it:
                it.write(text_of(lines))
    data = [f"files/{name}={work}/files/{name}" for name in sorted(os.listdir(f"{work}/files"))]
    answers = unproved_answers("locale_tool", folder, data)
    for case in cases:
        came = answers.get(case.name)
        yield case, came and named(came)


def named(came):
    renamed = (it.replace(b"Usage: program", b"Usage: locale_tool") for it in (came.output, came.messages))
    return Answer(came.status, *renamed)


def main(program=None):
    results, cases = Results("tool"), all_cases()
    if program is None:
        cases = cases[::EACH]
        print(f"building locale_tool unproved, and then {len(cases)} cases", flush=True)
    with tempfile.TemporaryDirectory() as work:
        make_files(work)
        came = built_answers(os.path.abspath(program), cases, work) if program else tried_answers(cases, work)
        for case, one in came:
            results.judges(case.name, case.wrong(one) if one else "no answer")
    return results.end()


if __name__ == "__main__":
    sys.exit(main(*sys.argv[1:]))
