#!/usr/bin/env python3
"""Looks whether each place that tells the version tells that of the file VERSION: tests/versions.py"""
import re
import sys

from programs import TOP
from results import Results

VERSION = r"(\d+\.\d+(?:\.\d+)?)"
PLACES = [
    ("VERSION", rf"\A{VERSION}\n\Z"),
    ("crates/tool_commands/src/commands.rt", rf'\.version\("{VERSION}"\)'),
    ("tests/tool/cases", rf"^>locale_tool {VERSION}$"),
    ("include/locale_objects.h", rf'^#define LOBJ_VERSION "{VERSION}"$'),
    ("docs/man/locale_cli.1", rf'^\.TH \S+ 1 \S+ "locale objects {VERSION}"$'),
    ("docs/man/locale_tool.1", rf'^\.TH \S+ 1 \S+ "locale objects {VERSION}"$'),
    ("docs/man/locale_objects.3", rf'^\.TH \S+ 3 \S+ "locale objects {VERSION}"$'),
    ("python/pyproject.toml", rf'^version = "{VERSION}"$'),
    ("python/locale_objects/_version.py", rf'^__version__ = "{VERSION}"$'),
    ("README.md", rf"^Version {VERSION};"),
    ("CHANGELOG.md", rf"^## {VERSION} "),
]


NUMBERS = [
    ("include/locale_objects.h", r"^#define LOBJ_VERSION_NUMBER (\d+)$"),
    ("crates/c_values/src/answer.rt", r"^pub const VERSION: u32 = (\d+);$"),
]


def told(path, form):
    """The version that a file tells, the first one where it tells several, or None."""
    with open(f"{TOP}/{path}", encoding="utf-8") as file:
        found = re.search(form, file.read(), re.MULTILINE)
    return found and found[1]


def main():
    results = Results("versions")
    wanted = told(*PLACES[0])
    for path, form in PLACES:
        results.compares(path, told(path, form), wanted or "a version")
    major, minor = (wanted or "0.0").split(".")[:2]
    for path, form in NUMBERS:
        results.compares(path, told(path, form), str(100 * int(major) + int(minor)))
    return results.end()


if __name__ == "__main__":
    sys.exit(main())
