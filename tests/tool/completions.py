#!/usr/bin/env python3
"""Looks whether each command and option of the tool stands in the completions for bash, zsh and fish, and whether a
shell that is installed completes by them what the table below says; of zsh only that it reads the file:
completions.py"""
import os
import re
import shutil
import sys
import tempfile

sys.path.insert(0, os.path.dirname(os.path.dirname(os.path.realpath(__file__))))
from programs import TOP, answer  # noqa: E402
from results import Results  # noqa: E402

TABLE = f"{TOP}/crates/tool_commands/src/rows.rt"
FILES = {it: f"{TOP}/completions/{it}" for it in ("locale_tool.bash", "_locale_tool", "locale_tool.fish")}
# Stands for the tool, whose items and reasons the completions ask for.
STUB = """#!/bin/sh
case $1 in
  info) printf 'CODESET="a"\\nDAY_1="b=c"\\n' ;;
  explain) printf 'OverLimit list\\nOverLimit text\\nStale\\n' ;;
esac
"""
# The words of a command line, the last one unfinished, and all that may stand in its place.
CASES = [
    (["mo"], ["money"]),
    (["s"], ["serial"]),
    (["info", "C"], ["CODESET"]),
    (["info", "D"], ["DAY_1"]),
    (["class", "al"], ["alpha", "alnum"]),
    (["explain", "O"], ["OverLimit"]),
    (["help", "mo"], ["money"]),
    (["time", "%c", "n"], ["now"]),
    (["check", "--s"], ["--summary"]),
    (["run", "--e"], ["--explain"]),
    (["serial", "--st"], ["--strict"]),
    (["conv", "--lo"], ["--locale"]),
    (["check", "--cha"], ["--charmap"]),
    (["conv", "--charmap", "so"], ["source"]),
    (["conv", "--locale", "so"], ["source"]),
    (["conv", "-l", "so"], ["source"]),
    (["conv", "--path", "fo"], ["folder"]),
    (["check", "so"], ["source"]),
    (["import", "so"], ["source"]),
    (["import", "--n"], ["--notes"]),
    (["parse", "--j"], ["--json"]),
    (["number", "--str"], ["--strict"]),
    (["upper", "--co"], ["--color"]),
    (["check", "--color", "n"], ["never"]),
    (["import", "-o", "fo"], ["folder"]),
    (["run", "so"], ["source"]),
    (["number", "--re"], ["--read"]),
    (["compare", "so"], ["source"]),
    (["compare", "--j"], ["--json"]),
    (["preview", "so"], ["source"]),
    (["preview", "--h"], ["--html", "--help"]),
    (["check", "--summary", "a b"], ["a bundle"]),
]


def read(path):
    with open(path, encoding="utf-8") as file:
        return file.read()


def quoted(form):
    return re.findall(form, read(TABLE))


def check_names(results):
    """Whether each completion names the commands, the options, and what they are about."""
    commands = quoted(r'name: "(\w+)",\n\s+about: ')
    abouts = quoted(r'about: "([^"]*)"')
    options = quoted(r'name: "([a-z]+)",\n\s+takes: Takes::(?:File|Folders?|Flag|When|Text)')
    results.judges(TABLE, None if len(commands) == 16 and len(options) >= 5 else "the table is not read")
    for name, path in FILES.items():
        forms = [rf"\b{it}\b" for it in [*commands, "help"]]
        option = r"-l {}\b" if name.endswith("fish") else r"--{}\b"
        forms += [option.format(it) for it in [*options, "help", "version"]]
        if not name.endswith("bash"):
            forms += [re.escape(it) for it in abouts]
        text = read(path)
        results.judges(name, [f"it lacks {it}" for it in forms if not re.search(it, text)])


def by_bash(words):
    script = f'. "$0"; COMP_WORDS=("$@"); COMP_CWORD={len(words)}; _locale_tool; printf "%s\\n" "${{COMPREPLY[@]}}"'
    return ["bash", "-c", script, FILES["locale_tool.bash"], "locale_tool", *words]


def by_fish(words):
    line = " ".join(["locale_tool", *(it.replace(" ", "\\ ") for it in words)])
    return ["fish", "--no-config", "-c", f"source $argv[1]; complete -C $argv[2]", FILES["locale_tool.fish"], line]


def make_stub(folder):
    """Makes a folder with a stub of the tool, files, and a folder."""
    os.mkdir(f"{folder}/folder")
    for name in ("source", "a bundle"):
        open(f"{folder}/{name}", "w").close()
    with open(f"{folder}/locale_tool", "w") as it:
        it.write(STUB)
    os.chmod(f"{folder}/locale_tool", 0o755)


def check_shell(results, folder, shell, line_of):
    """Whether a shell completes each line of the table as it says."""
    inside = {**os.environ, "PATH": f"{folder}:{os.environ['PATH']}", "HOME": folder}
    for words, wanted in CASES:
        name = f"{shell} {' '.join(words)}"
        came = answer(name, line_of(words), cwd=folder, env=inside)
        texts = [it.split("\t")[0].replace("\\ ", " ").rstrip("/") for it in came.output.decode().splitlines()]
        results.compares(name, (sorted(texts), came.messages), (sorted(wanted), b""))


def main():
    results = Results("completions")
    check_names(results)
    with tempfile.TemporaryDirectory() as folder:
        make_stub(folder)
        for shell, line_of in (("bash", by_bash), ("fish", by_fish)):
            if shutil.which(shell):
                check_shell(results, folder, shell, line_of)
            else:
                results.leaves_out(shell, "it is not installed", len(CASES))
    if shutil.which("zsh"):
        came = answer("zsh", ["zsh", "-n", FILES["_locale_tool"]])
        results.compares("zsh reads its file", (came.status, came.messages), (0, b""))
    else:
        results.leaves_out("zsh", "it is not installed")
    return results.end()


if __name__ == "__main__":
    sys.exit(main())
