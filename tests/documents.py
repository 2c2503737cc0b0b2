#!/usr/bin/env python3
"""Looks whether the blocks of the documents are marked as CONTRIBUTING.md says: tests/documents.py. `cases` are the
bundles, locale sources and charmaps that they show, and the examples of the tables of docs/REFUSALS.md."""
import glob
import os
import re
import sys

from case_files import DONE, REFUSED, TOP, Case, counted
from results import Results

MARKS = {"bundle", "output", "locale", "charmap", "lines", "rust", "c", "python", "sh", "text"}
OF_A_BUNDLE = re.compile(r"(\.(catalog|charmap|end|later|locale|native|round|thread)( |$)|CHARMAP$|LC_[A-Z]+$)")
# What stands around the example of a row, by a word of the heading above its table.
AROUND = {
    "charmaps": ".charmap m\n%s.end\n",
    "catalogs": ".catalog a C\n%s.end\n",
    "sources": ".locale a UTF-8\n%s.end\n",
}


class Document:
    """The cases of a document, and what is wrong with its blocks."""

    def __init__(self, path):
        self.path, self.cases, self.problems = path, [], []
        self.number, self.bundle, self.heading = 0, None, ""
        self.read()

    def problem(self, what):
        self.problems.append(f"{self.path}:{self.number}: {what}")

    def read(self):
        """Reads the lines outside of blocks, and each block as a whole."""
        with open(f"{TOP}/{self.path}", encoding="utf-8") as file:
            lines = iter(file.read().splitlines())
        for line in self.numbered(lines):
            if line.startswith("```"):
                self.open_block(*line[3:].split(), block=list(self.inside(lines)))
            else:
                self.outside(line)
        if self.bundle is not None:
            self.problem("a bundle without output")

    def numbered(self, lines):
        for line in lines:
            self.number += 1
            yield line

    def inside(self, lines):
        for line in self.numbered(lines):
            if line == "```":
                return
            yield line
        self.problem("an open block")

    def open_block(self, mark="text", name="", *_, block):
        if mark not in MARKS:
            self.problem("no such mark")
        if (self.bundle is not None) != (mark == "output"):
            self.problem("an output stands behind each bundle, and nowhere else")
        if mark == "lines":
            known = lines_of_output(name)
            self.problems += [f"{self.path}: no line of {name}.out: {line}" for line in block if line not in known]
        if mark == "text" and any(OF_A_BUNDLE.match(line) for line in block):
            self.problem("a bundle or a source whose fence does not say so")
        self.take(mark, "".join(f"{line}\n" for line in block))

    def take(self, mark, text):
        """Adds the case of a block, if it is one."""
        bundle, self.bundle = self.bundle, text if mark == "bundle" else None
        if mark == "output":
            status = REFUSED if text.startswith("refused: ") else DONE
            self.add(bundle or "", b"serial", status, text.encode())
        if mark == "locale":
            self.add(f".locale x UTF-8\n{text}.end\n", b"check", DONE, counted(locales=1))
        if mark == "charmap":
            self.add(f".charmap m\n{text}.end\n", b"check", DONE, counted(charmaps=1))

    def add(self, source, mode, status, output, reason=None):
        shown = os.path.basename(self.path).removesuffix(".md").lower()
        name = f"shown_{shown}_{len(self.cases) + 1}"
        self.cases.append(Case(name, source.encode(), (mode,), status, output, reason))

    def outside(self, line):
        if re.match(r"[ \t]+```", line):
            self.problem("a block behind blanks")
        if self.path == "docs/REFUSALS.md":
            if line.startswith("## "):
                self.heading = line
            elif self.heading and line.startswith("|") and not line.startswith("|---"):
                self.take_row(re.split(r" *\| *", line))

    def take_row(self, cells):
        """Adds the case of a row: the reason, where it comes, an example, its place, and the page."""
        if len(cells) != 7:
            self.problem("a row without five cells")
            return
        example = "".join(f"{it}\n" for it in re.findall(r"`([^`]*)`", cells[3]))
        if not example:
            return
        reason = cells[1].removeprefix("`").partition("`")[0]
        if "commands" in self.heading:
            self.add(f".thread A\n{example}", b"serial", DONE, b"", reason.encode())
            return
        for word, form in AROUND.items():
            example = form % example if word in self.heading else example
        self.add(example, b"check", REFUSED, f"refused: {cells[4]} {reason}\n".encode())


def lines_of_output(name):
    """The lines of NAME.out, which lies in examples where no folder is named."""
    folder = "" if "/" in name else "examples/"
    with open(f"{TOP}/{folder}{name}.out", encoding="utf-8") as file:
        return set(file.read().splitlines())


def documents():
    paths = ["README.md", "CONTRIBUTING.md", *sorted(glob.glob("docs/*.md", root_dir=TOP))]
    return [Document(path) for path in paths]


def cases():
    return [case for document in documents() for case in document.cases]


def main():
    results = Results("documents")
    for document in documents():
        results.judges(document.path, document.problems)
    return results.end()


if __name__ == "__main__":
    sys.exit(main())
