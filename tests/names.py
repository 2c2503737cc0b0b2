#!/usr/bin/env python3
"""Looks whether the C header and the Python package name items and fields of localeconv as the tables of the library
do, in the same order: tests/names.py. Prints a sentence for each list that does not, and ends with 1 where there is
one."""
import ast
import os
import re
import sys

TOP = os.path.dirname(os.path.dirname(os.path.realpath(__file__)))
WORDS = "crates/script_words/src/table.rt"
ORDER = "crates/c_values/src/items.rt"
FIELDS = "crates/langinfo/src/conv.rt"
HEADER = "include/locale_objects.h"
PYTHON = "python/locale_objects/_native.py"


def text_of(path):
    """A file of the repository."""
    with open(os.path.join(TOP, path), encoding="utf-8") as file:
        return file.read()


def part(path, first, last):
    """What stands between two patterns of a file, the first of which comes once."""
    found = re.findall(rf"{first}(.*?){last}", text_of(path), re.S)
    if len(found) != 1:
        sys.exit(f"names: {path}: {len(found)} lists begin with {first}, and not one")
    return re.sub(r"/\*.*?\*/|//[^\n]*", "", found[0], flags=re.S)


def item_names():
    """The names of items, in the order of their numbers in C."""
    rows = part(WORDS, r"\bITEMS: \[[^]]*\] = \[", r"\n\];")
    names = {item: name for name, item in re.findall(r'"(\w+)", Item::(\w+)', rows)}
    order = re.findall(r"Item::(\w+)", part(ORDER, r"\bITEMS: \[[^]]*\] = \[", r"\n\];"))
    if sorted(order) != sorted(names):
        sys.exit(f"names: {ORDER} has other items than {WORDS}")
    return [names[item] for item in order]


def field_names(function):
    """The names of localeconv's fields that a function of the library lists."""
    return re.findall(r'b"(\w+)"', part(FIELDS, rf"\nfn {function}\b", r"\n}"))


def enum_names(comment):
    """The names of an enum of the header, behind its comment."""
    return re.findall(r"\bLOBJ_(\w+)", part(HEADER, rf"/\* {comment}[^{{]*enum {{", "}"))


def struct_names(name):
    """The names of the members of a struct of the header."""
    return re.findall(r"(\w+);", part(HEADER, rf"struct {name} {{", "}"))


def python_lists():
    """The lists of names of the Python package, without its library."""
    wanted = ("CONV_TEXTS", "CONV_NUMBERS", "ITEMS", "_numbered")
    tree = ast.parse(text_of(PYTHON))
    tree.body = [
        node
        for node in tree.body
        if isinstance(node, ast.FunctionDef) and node.name in wanted
        or isinstance(node, ast.Assign) and getattr(node.targets[0], "id", None) in wanted
    ]
    lists = {"List": list}
    exec(compile(tree, PYTHON, "exec"), lists)
    return lists


def difference(here, path, names, table, wanted):
    """The sentence for a list that differs from that of a table, or nothing."""
    if names == wanted:
        return None
    pairs = enumerate(zip(names + [None], wanted + [None]))
    place, (name, right) = next((i, pair) for i, pair in pairs if pair[0] != pair[1])
    return f"{path}: {here} {place} is {name or 'none'}, and {right or 'none'} in {table}"


def main():
    items = item_names()
    texts = field_names("text_field")
    numbers = field_names("number_fields")
    python = python_lists()
    upper = [name.upper() for name in texts]
    looks = [
        ("the item", HEADER, enum_names("The items of nl_langinfo"), WORDS, items),
        ("the text", HEADER, enum_names("The texts of localeconv"), FIELDS, upper),
        ("the number", HEADER, struct_names("lobj_lconv"), FIELDS, numbers),
        ("the item", PYTHON, sorted(python["ITEMS"], key=python["ITEMS"].get), WORDS, items),
        ("the text", PYTHON, list(python["CONV_TEXTS"]), FIELDS, texts),
        ("the number", PYTHON, list(python["CONV_NUMBERS"]), FIELDS, numbers),
    ]
    faults = [fault for fault in (difference(*look) for look in looks) if fault]
    for fault in faults:
        print(fault)
    if not (items and texts and numbers):
        sys.exit("names: a table of the library has no names")
    if faults:
        sys.exit(1)
    print(f"names: {sum(len(look[4]) for look in looks)} passed")


main()
