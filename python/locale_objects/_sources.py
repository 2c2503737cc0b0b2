"""The sources of a library."""

from __future__ import annotations

import os
import re
import subprocess
from typing import Iterable, NamedTuple, Union

from ._faults import LibraryMissingError, SourceError, SystemSourceError

NAME = re.compile(r"[A-Za-z0-9_.@-]{1,64}\Z")
BAD_NAME = "a name has 1 to 64 letters, digits, `_`, `.`, `-` and `@`, and is neither C nor POSIX"


CHARMAP, LOCALE, CATALOG = range(3)
"""The kinds of sources."""


class Source(NamedTuple):
    """One charmap, locale source or message catalog."""

    kind: int
    name: str
    label: str
    """The charset of a locale, the locale of a catalog; empty of a charmap."""
    file: str
    """The file, or the name that stands for it in faults."""
    text: bytes


def named(name: str, kind: str) -> str:
    """A name that a source may have."""
    if not isinstance(name, str):
        raise TypeError(f"the name of a {kind} is a str, and not a {type(name).__name__}")
    if not NAME.match(name) or name in ("C", "POSIX"):
        raise SourceError(repr(name), 0, 0, "BadName", f"{BAD_NAME} (it is to be the name of a {kind})")
    return name


def as_bytes(text: Union[str, bytes, bytearray, memoryview], name: str) -> bytes:
    """The bytes of a source with a name."""
    if isinstance(text, (bytes, bytearray, memoryview)):
        return bytes(text)
    if not isinstance(text, str):
        raise TypeError(f"a source is a str or bytes, and not a {type(text).__name__}")
    try:
        return text.encode("utf-8", "surrogateescape")
    except UnicodeEncodeError as fault:
        before = text[: fault.start]
        line = before.count("\n") + 1
        column = len(before.rpartition("\n")[2].encode("utf-8", "surrogateescape")) + 1
        raise SourceError(name, line, column, "UnknownCharacter", "a lone surrogate is no character") from None


def imported(name: str, tool: str, folders: Iterable[str]) -> bytes:
    """The standard source that the tool makes of a system's own."""
    words = [tool, "import", *(word for folder in folders for word in ("--path", os.fspath(folder))), "--", name]
    try:
        ran = subprocess.run(words, stdin=subprocess.DEVNULL, capture_output=True, check=False)
    except FileNotFoundError as missing:
        raise LibraryMissingError(
            f"{tool} is not installed: ./install puts it in PREFIX/bin; LOCALE_TOOL names another one"
        ) from missing
    except OSError as fault:
        raise LibraryMissingError(f"{tool} cannot be run: {fault}; LOCALE_TOOL names another one") from fault
    if ran.returncode:
        raise SystemSourceError(ran.stderr.decode("utf-8", "replace").strip() or f"{tool} import {name} ended with {ran.returncode}")
    return ran.stdout


def name_of_file(path: Union[str, "os.PathLike[str]"]) -> str:
    """The name of the locale in a file: that of the file without its folder."""
    return os.path.basename(os.fspath(path))
