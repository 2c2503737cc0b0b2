#!/usr/bin/env python3
"""Looks whether the table of reasons of reason_rules has a row for each reason of lc_base, with each part and limit,
and for each refusal of a command, whether each command of tool_commands has one row, and whether the man page names
each command and argument: rows.py. With PROGRAM, a built tool, whether each example of the table that breaks a rule is
refused for it, and each that keeps it is accepted."""
import os
import re
import sys
import tempfile

sys.path.insert(0, os.path.dirname(os.path.dirname(os.path.realpath(__file__))))
from programs import TOP, answer  # noqa: E402
from results import Results  # noqa: E402

CATEGORIES = "LC_CTYPE", "LC_NUMERIC", "LC_MONETARY", "LC_TIME", "LC_MESSAGES"
TABLE, COMMANDS = "crates/reason_rules/src/table.rt", "crates/tool_commands/src/rows.rt"
OF_COMMANDS = {"Why": "crates/script_out/src/output.rt", "Refusal": "crates/handle_table/src/op.rt"}
# how an example begins that is in words, since in full it would be long
IN_WORDS = re.compile(r"(a|texts) |\d+ (`|threads|commands)")


def source(file):
    with open(f"{TOP}/{file}", encoding="utf-8") as it:
        return it.read()


def quoted(file, form):
    return re.findall(form, source(file))


def variants(file, name):
    body = re.search(rf"pub enum {name} \{{(.*?)\n\}}", source(file), re.S)[1]
    return re.findall(r"^    ([A-Z]\w*)", body, re.M)


def row_names():
    return quoted(TABLE, r'(?m)^ +name: "([^"]+)",')


def row_of_reason(enum, variant):
    """The row of a reason, a part of a line or a limit, or None."""
    rows, names = row_names(), source("crates/reason_rules/src/names.rt")
    arm = re.search(rf"{enum}::{variant}(?:\([^)]*\))? => (?:(\d+)|\w+\()", names)
    row = arm and rows[int(arm[1] or 0)]
    begins = {"LinePart": f"BadLine {variant.lower()}", "Limit": "OverLimit "}.get(enum, variant)
    return row if row and (not arm[1] or row.startswith(begins)) else None


def refusals_of_commands():
    """Each refusal of a command, as its enum and its variant."""
    return [(enum, it) for enum, file in OF_COMMANDS.items() for it in variants(file, enum)]


def row_of_refusal(variant):
    row = "NoData" if variant == "Table" else variant
    return row if row in row_names() else None


def check_tables(results):
    for enum in ("Reason", "LinePart", "Limit"):
        for it in variants("crates/lc_base/src/reason.rt", enum):
            results.judges(f"{enum}::{it}", None if row_of_reason(enum, it) else "reason_rules has no row for it")
    for enum, it in refusals_of_commands():
        results.judges(f"{enum}::{it}", None if row_of_refusal(it) else "reason_rules has no row for it")
    rows = row_names()
    results.judges("reason_rules", sorted(f"the row {it} is there twice" for it in set(rows) if rows.count(it) > 1))
    for enum in ("LocaleCommand", "ToolCommand"):
        for it in set(variants(COMMANDS, enum)) - {"Locale"}:
            count = len(quoted(COMMANDS, rf"command: .*\b{enum}::{it}\b"))
            results.compares(f"rows of tool_commands for {enum}::{it}", count, 1)
    page = source("docs/man/locale_tool.1").replace("\\-", "-")
    for it in sorted(set(quoted(COMMANDS, r'name: "(\w+)"'))):
        named = re.search(rf"\b{it}\b", page)
        results.judges(it, None if named else "docs/man/locale_tool.1 does not name it")


def examples():
    """The rows with their examples: a name, lines that break the rule, and lines that keep it."""
    text = r'"((?:[^"\\]|\\.)*)"'
    for row in re.findall(rf"name: {text},\s+rule: {text},\s+breaks: {text},\s+keeps: {text},", source(TABLE)):
        name, _, breaks, keeps = (re.sub(r"\\(.)", lambda it: {"n": "\n"}.get(it[1], it[1]), field) for field in row)
        yield name, breaks, keeps


def forms(name, example):
    """The files that an example may stand for, each with the command that takes it; none where it is in words."""
    if IN_WORDS.match(example):
        return []
    if example.startswith(".") or name.startswith("BadLine"):
        return [("serial", example)]
    if example.startswith("LC_"):
        return [("check", example.replace(" of the locale a", ""))]
    if example.startswith("<"):
        return [("check", example if "CHARMAP" in example else f"CHARMAP\n{example}\nEND CHARMAP")]
    made = "new x LC_ALL C\n"
    scripts = [f".catalog greet C\n.end\n.thread A\n{it}{example}" for it in ("", made, f"{made}hold x\n")]
    sections = [f"{it}\n{example}\nEND {it}" for it in CATEGORIES]
    return [("serial", it) for it in [*scripts, f".catalog a C\n{example}\n.end"]] + [("check", it) for it in sections]


def came_of(program, folder, command, text):
    """The status of a file with the name `a`, the reasons of its faults, and those of its refused commands."""
    with open(f"{folder}/a", "w", encoding="utf-8") as file:
        file.write(f"{text}\n")
    words = [program, command, *(["--path", "."] if command == "check" else []), "a"]
    came = answer(text, words, cwd=folder)
    faults = re.findall(r"^a:\d+:\d+: ([^:]*): ", came.messages.decode(errors="replace"), re.M)
    refusals = re.findall(r" refused ([^\n]*)$", came.output.decode(errors="replace"), re.M)
    return came.status, faults, refusals


def is_refused(name, came):
    """Whether the file is refused for this reason, or else one of its commands."""
    status, faults, refusals = came
    return any(f"{it} ".startswith(f"{name} ") for it in (faults if status == 1 else refusals))


def is_accepted(name, came):
    """Whether the file is accepted, and, where the rule is one of commands, each of its commands, too."""
    status, _, refusals = came
    return status == 0 and not (refusals and name in [it for _, it in refusals_of_commands()])


def check_examples(results, program):
    results.compares("rows with examples", len(list(examples())), len(row_names()))
    with tempfile.TemporaryDirectory() as folder:
        for name, breaks, keeps in examples():
            for example, is_right in ((breaks, is_refused), (keeps, is_accepted)):
                tried = forms(name, example)
                if tried:
                    is_so = any(is_right(name, came_of(program, folder, *it)) for it in tried)
                    results.judges(name, None if is_so else f"an example is not so: {example!r}")


def main(program=None):
    results = Results("examples of reasons" if program else "tables of the tool")
    if program:
        check_examples(results, os.path.abspath(program))
    else:
        check_tables(results)
    return results.end()


if __name__ == "__main__":
    sys.exit(main(*sys.argv[1:]))
