"""The cases of the program: an input, the words of the command line, and the status and the output that are wanted.
Reads those that are kept in files."""
import glob
import os
from dataclasses import dataclass

from programs import TOP

DONE, USAGE, REFUSED, TOO_LARGE = 0, 2, 3, 7


@dataclass(frozen=True)
class Case:
    name: str
    source: bytes
    words: tuple = (b"serial",)
    status: int = DONE
    output: bytes = b""
    # of a command that is refused, where no more is known of the output
    reason: bytes | None = None

    @property
    def mode(self):
        return self.words[0] if self.words else b""


def read(path):
    with open(f"{TOP}/{path}", "rb") as file:
        return file.read()


def lines(path):
    """The lines of a file, without their ends."""
    text = read(path)
    return text.removesuffix(b"\n").split(b"\n") if text else []


def counted(locales=0, charmaps=0, threads=0, rounds=1, commands=0):
    """What `check` prints of an accepted bundle."""
    numbers = f"locales {locales} charmaps {charmaps} threads {threads} rounds {rounds} commands {commands}"
    return f"ok: {numbers}\n".encode()


def kept():
    """Those of tests/cases: `serial`, where there is no NAME.args, and done, where tests/statuses has no row."""
    rows = (line.decode().split() for line in lines("tests/statuses"))
    statuses = {name: int(status) for name, status in rows}
    for path in sorted(glob.glob(f"{TOP}/tests/cases/*[!.]*")):
        name = os.path.basename(path)
        if "." in name:
            continue
        case = f"tests/cases/{name}"
        words = tuple(lines(f"{case}.args")) if os.path.exists(f"{path}.args") else (b"serial",)
        yield Case(name, read(case), words, statuses.pop(name, DONE), read(f"{case}.stdout"))
    if statuses:
        raise ValueError(f"tests/statuses names no case: {' '.join(statuses)}")


def blocks(path):
    """The blocks of a file, each below a line `@ HEAD`: the words of the head, and the lines of the block."""
    found = []
    for line in lines(path):
        if line.startswith(b"@ "):
            found.append((line[2:], []))
        elif found:
            found[-1][1].append(line)
    return found


def refused_bundles():
    """Those of tests/refusals: `check` refuses each bundle with the place and the reason of its head."""
    for head, body in blocks("tests/refusals"):
        name, _, told = head.partition(b" ")
        source = b"".join(line + b"\n" for line in body)
        yield Case(f"refused_{name.decode()}", source, (b"check",), REFUSED, b"refused: %s\n" % told)


def wrong_words():
    """Those of tests/wrong_words, which are refused before the input is read."""
    for head, words in blocks("tests/wrong_words"):
        yield Case(f"words_{head.decode()}", b".thread A\nuse ?\n", tuple(words), USAGE, b"refused: usage\n")


def examples():
    """The bundles of examples: `serial` prints NAME.out, and `check` NAME.counts, where there is one."""
    for path in sorted(glob.glob(f"{TOP}/examples/*.bundle")):
        name = os.path.basename(path).removesuffix(".bundle")
        source = read(f"examples/{name}.bundle")
        yield Case(f"example_{name}", source, output=read(f"examples/{name}.out"))
        if os.path.exists(f"{TOP}/examples/{name}.counts"):
            yield Case(f"example_{name}_counted", source, (b"check",), output=read(f"examples/{name}.counts"))
