"""The cases of the tool: the words and the standard input of a run, and what it has to write to each stream. Reads
those of the file `cases`, and makes those that need files which are large or many, or bytes that are no text."""
import os
import re
import shutil
from dataclasses import dataclass, field

HERE = os.path.dirname(os.path.realpath(__file__))


@dataclass
class Wanted:
    """What a stream has to have: lines, and parts that have to stand in it. Without parts the lines are all of it."""

    lines: list = field(default_factory=list)
    parts: list = field(default_factory=list)

    def is_met_by(self, written):
        text = written.decode(errors="replace")
        if not self.parts:
            return text == text_of(self.lines)
        rest = iter(text.splitlines())
        return all(it in text for it in self.parts) and all(line in rest for line in self.lines)


class Case:
    def __init__(self, name, status, words=(), messages=()):
        self.name, self.status = name, int(status)
        self.words, self.input, self.output, self.messages = [*words], [], Wanted(), Wanted([*messages])

    def wrong(self, came):
        """What is wrong of an answer, with all that came; None where nothing is."""
        if came.status != self.status:
            wrong = f"status {came.status} in place of {self.status}"
        elif not self.output.is_met_by(came.output):
            wrong = "other output"
        elif not self.messages.is_met_by(came.messages):
            wrong = "other messages"
        else:
            return None
        return f"{wrong}\n{(came.output + came.messages).decode(errors='replace')}"


def text_of(lines):
    return "".join(f"{it}\n" for it in lines)


def kept():
    """Those of the file `cases`, whose head says how they are written."""
    cases = []
    with open(f"{HERE}/cases", encoding="utf-8") as file:
        rows = [line for line in file.read().splitlines() if not line.startswith("#")]
    for line in rows:
        if line.startswith("@ "):
            cases.append(Case(*line[2:].split(" ")))
            case = cases[-1]
            of = {"|": case.input, ">": case.output.lines, "<": case.output.parts}
            of |= {"!": case.messages.lines, "~": case.messages.parts}
        elif line[:1] in of:
            of[line[0]].append(line[1:])
        else:
            case.words.append(line)
    return cases


def make_files(work):
    """Makes the folder `files` of the cases: those that are kept, a large one, and sources that each copy the next."""
    shutil.copytree(f"{HERE}/files", f"{work}/files")
    with open(f"{work}/files/large", "wb") as it:
        it.write(b"%" * 20_000_000)
    for number in range(65):
        copies = f'copy "chain_{number + 1}"' if number < 64 else ""
        with open(f"{work}/files/chain_{number}", "w", encoding="utf-8") as it:
            it.write(text_of(["LC_TIME", copies, "END LC_TIME"]))


def past_limits():
    too_large = "locale_tool: files/large: it has more than 16777216 bytes"
    too_long = [
        "files/chain_63:2:6: OverLimit locales: this is more than the limit allows; a bundle has at most 64 locales",
        'copy "chain_64"',
        "     ^",
        "hint: copies are followed up to 64 files",
    ]
    too_big = "locale_tool: TooBig: the text has at most as many bytes as were asked for, here 1048576"
    return [
        Case("large_file", 1, ["money", "-l", "files/large", "%n", "1"], [too_large]),
        Case("chain_of_files", 0, ["check", "files/chain_1", "--path", "files"]),
        Case("too_long_chain_of_files", 1, ["check", "files/chain_0", "--path", "files"], too_long),
        Case("number_too_big", 1, ["number", "%255f" * 4113, *["1"] * 4113], [too_big]),
    ]


def control_bytes():
    """Words that would turn a terminal red: a message shows their escape bytes by their numbers, and in a line of
    which a place is marked as `?`."""
    red, shown = "\x1b[31m", "locale_tool: \\x1b[31m: "
    told = {
        "amount": (2, ["money", "%n", red], "an amount is"),
        "time": (2, ["time", "%F", red], "a time is"),
        "item": (2, ["info", red], "there is no such item"),
        "class": (1, ["class", red, "a"], "NoClass: "),
        "reason": (2, ["explain", red], "there is no such reason"),
        "file": (1, ["money", "-l", red, "%n", "1"], "there is no such file"),
    }
    cases = []
    for name, (status, words, wanted) in told.items():
        cases.append(Case(f"escape_byte_of_{name}", status, words))
        cases[-1].messages.parts = [shown + wanted]
    cases.append(Case("escape_byte_of_format", 1, ["money", f"%Q{red}", "1"]))
    cases[-1].messages.parts = ["\n%Q?[31m\n^\n"]
    return cases


def coloured(text):
    """Places and marks of a message, in colours."""
    text = re.sub(r"^(\S+:\d+:\d+:) ", "\x1b[1m\\1\x1b[0m ", text, flags=re.M)
    return re.sub(r"^(\s*)\^$", "\\1\x1b[1;32m^\x1b[0m", text, flags=re.M)


def colours():
    """Messages with colours, of faults in a file, of a format, and of an import."""
    faults = [
        "files/twice:2:1: WrongCount: `abday` has 1 text; it takes 7 texts in quotes, Sunday first",
        'abday "a"',
        "^",
    ]
    told = {
        "file": (1, ["check", "--color=always", "files/twice"], faults),
        "format": (1, ["money", "--color", "always", "%n %n", "1"], ["FORMAT:1:4: MissingAmount: each conversion of the format has an amount", "%n %n", "   ^"]),
        "no_place": (1, ["check", "--color=always", "files/none"], ["locale_tool: files/none: there is no such file"]),
    }
    cases = [Case(f"colours_of_{name}", status, words) for name, (status, words, _) in told.items()]
    for case, (_, _, wanted) in zip(cases, told.values()):
        case.messages.parts = [coloured("\n".join(wanted))]
    cases.append(Case("colours_of_notes", 0, ["import", "--color=always", "--notes", "files/gnu_notes"]))
    cases[-1].output.parts = ['d_fmt "%Od"']
    cases[-1].messages.parts = [f"\x1b[1mfiles/gnu_notes:{it}:\x1b[0m " for it in ("3:1", "7:1", "10:1", "21:12")]
    return cases


def all_cases():
    return kept() + past_limits() + control_bytes() + colours()
