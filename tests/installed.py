#!/usr/bin/env python3
"""Installs the built programs below a temporary folder, looks what is there, and removes it: tests/installed.py"""
import os
import re
import sys
import tempfile

from case_files import read
from programs import TOP, answer
from results import Results

FILES = [
    "bin/locale_cli",
    "share/man/man1/locale_cli.1",
    "share/man/man1/locale_tool.1",
    "share/zsh/site-functions/_locale_tool",
    "share/fish/vendor_completions.d/locale_tool.fish",
    "include/locale_objects.h",
]
BASH_COMPLETION = "share/bash-completion/completions/locale_tool"


def files_below(folder):
    return [os.path.join(path, name) for path, _, names in os.walk(folder) for name in names]


def listed(prefix):
    """What the list of installed files has."""
    with open(f"{prefix}/share/locale_objects/files", encoding="utf-8") as it:
        return it.read().splitlines()


def try_parts(results, folder):
    """Parts by themselves, below a folder that stands for the root."""
    install, inside = f"{TOP}/install", {**os.environ, "DESTDIR": f"{folder}/root"}
    came = answer("part", [install, "--only", "tool", "/usr"], env=inside)
    found = {os.path.relpath(it, f"{folder}/root/usr") for it in files_below(folder) if "/root/" in it}
    wanted = {*listed(f"{folder}/root/usr"), "share/locale_objects/files"}
    results.compares("install --only tool", (came.status, found), (0, wanted))
    results.judges("the files of the tool", None if "bin/locale_tool" in found else "no tool")
    results.judges("the files of others", [it for it in found if it.startswith(("include/", "lib/", "share/man/man3"))])
    came = answer("part", [install, "--uninstall", "/usr"], env=inside)
    results.compares("what is left of the part", [it for it in files_below(folder) if "/root/" in it], [])
    for words in (["--only", "all", "/usr"], ["--libdir", "/usr/lib", "/usr"], ["--libdir", "../lib", "/usr"], [], ["/usr", "/usr"]):
        results.compares(f"install {' '.join(words)}", answer("words", [install, *words], env=inside).status, 2)


def try_upgrades(results, prefix):
    """What an earlier version had is removed, and a list tells all that is there where an upgrade fails."""
    install, files = f"{TOP}/install", listed(prefix)
    os.makedirs(f"{prefix}/share/former")
    open(f"{prefix}/share/former/gone", "w", encoding="utf-8").close()
    with open(f"{prefix}/share/locale_objects/files", "a", encoding="utf-8") as it:
        it.write("share/former/gone\n")
    os.rename(f"{prefix}/include", f"{prefix}/kept")
    open(f"{prefix}/include", "w", encoding="utf-8").close()
    came = answer("failing upgrade", [install, prefix])
    results.compares("a failing upgrade", (came.status, sorted(listed(prefix))), (1, sorted([*files, "share/former/gone"])))
    os.remove(f"{prefix}/include")
    os.rename(f"{prefix}/kept", f"{prefix}/include")
    came = answer("upgrade", [install, prefix])
    results.compares("an upgrade", (came.status, listed(prefix)), (0, files))
    results.judges("what the upgrade has no more", "it is there" if os.path.exists(f"{prefix}/share/former") else None)


def main():
    results = Results("install")
    with tempfile.TemporaryDirectory() as folder:
        prefix = f"{folder}/prefix"
        came = answer("install", [f"{TOP}/install", prefix])
        told = f"status {came.status}\n{(came.output + came.messages).decode()}"
        results.judges("install", None if came.status == 0 else told)
        for path in FILES:
            results.judges(path, None if os.path.isfile(f"{prefix}/{path}") else "it is not there")
        version = read("VERSION").decode().strip()
        came = answer("version", [f"{prefix}/bin/locale_tool", "--version"])
        is_told = re.fullmatch(rf"locale_tool {re.escape(version)}\n", came.output.decode())
        results.judges("bin/locale_tool", None if is_told else f"--version prints {came.output!r}")
        script = '. "$0" && complete -p locale_tool'
        came = answer("completion", ["bash", "-c", script, f"{prefix}/{BASH_COMPLETION}"])
        results.judges(BASH_COMPLETION, None if came.status == 0 else came.messages.decode())
        try_parts(results, folder)
        try_upgrades(results, prefix)
        came = answer("uninstall", [f"{TOP}/install", "--uninstall", prefix])
        results.compares("install --uninstall", (came.status, files_below(prefix)), (0, []))
    return results.end()


if __name__ == "__main__":
    sys.exit(main())
