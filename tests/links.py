#!/usr/bin/env python3
"""Looks whether each link of the documents leads to a file, and to a heading of it, and whether nothing unexpected
stands at the top of the repository: tests/links.py"""
import functools
import glob
import os
import re
import subprocess
import sys

from programs import TOP
from results import Results

# What may stand at the top.
FILES = ".gitignore CHANGELOG.md CONTRIBUTING.md HANDLES README.md VERSION crates.txt install".split()
FOLDERS = ".ci bench completions crates docs examples include packaging python tests".split()


def text_lines(path):
    """The lines of a document outside of its blocks of code, with their numbers."""
    inside = False
    with open(path, encoding="utf-8") as file:
        for number, line in enumerate(file, 1):
            if line.startswith("```"):
                inside = not inside
            elif not inside:
                yield number, line


@functools.lru_cache(maxsize=None)
def anchors(path):
    """What links may name of a document: its headings, as GitHub makes names of them."""
    names = set()
    for _, line in text_lines(path):
        heading = re.match(r"#+ (.*)", line)
        if not heading:
            continue
        text = re.sub(r"\[([^]]*)\]\([^)]*\)", r"\1", heading[1]).strip().lower()
        name = re.sub(r"[^\w\- ]", "", text).replace(" ", "-")
        count = sum(it == name or re.fullmatch(rf"{re.escape(name)}-\d+", it) is not None for it in names)
        names.add(f"{name}-{count}" if count else name)
    return names


def faults(document):
    """The links of a document that lead nowhere, a line each."""
    for number, line in text_lines(f"{TOP}/{document}"):
        for link in re.findall(r"\]\(([^)\s]+)\)", re.sub(r"`[^`]*`", "", line)):
            if re.match(r"[a-z]+:", link):
                continue
            file, _, anchor = link.partition("#")
            target = os.path.normpath(f"{TOP}/{os.path.dirname(document)}/{file}") if file else f"{TOP}/{document}"
            if not os.path.exists(target):
                yield f"{document}:{number}: no file {file}"
            elif anchor and anchor not in anchors(target):
                yield f"{document}:{number}: no heading #{anchor} in {file or document}"


def at_top():
    """What git knows at the top, or would add; all that stands there, where the folder is no clone."""
    if not os.path.exists(f"{TOP}/.git"):
        return set(os.listdir(TOP))
    words = ["git", "ls-files", "--cached", "--others", "--exclude-standard", "--deduplicate"]
    said = subprocess.run(words, cwd=TOP, capture_output=True, text=True, check=True)
    return {path.partition("/")[0] for path in said.stdout.splitlines() if os.path.lexists(f"{TOP}/{path}")}


def main():
    results = Results("links")
    paths = [it for form in ("*.md", "bench/*.md", "docs/*.md") for it in glob.glob(f"{TOP}/{form}")]
    for document in sorted(os.path.relpath(it, TOP) for it in paths):
        results.judges(document, list(faults(document)))
    unexpected = sorted(at_top() - {*FILES, *FOLDERS})
    results.judges("the top of the repository", [f"{it} is not expected" for it in unexpected])
    return results.end()


if __name__ == "__main__":
    sys.exit(main())
