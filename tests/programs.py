"""Runs a program on words and an input: one that is built, or a crate's that `rt try` builds unproved."""
import os
import re
import subprocess
import sys
import tempfile
from dataclasses import dataclass

TOP = os.path.dirname(os.path.dirname(os.path.realpath(__file__)))
SECONDS = 120
TRIES = 2


@dataclass(frozen=True)
class Answer:
    """What came of a run; the status is None where none came in time, and a word where a try stopped at a fault."""

    status: int | str | None
    output: bytes
    messages: bytes


NO_ANSWER = Answer(None, b"", b"")


def answer(name, words, source=b"", seconds=SECONDS, **settings):
    """Runs a program over a file as its input, and takes what it writes to streams that the settings do not name; a run
    that is ended for its time is told, and tried once more."""
    settings = {"stdout": subprocess.PIPE, "stderr": subprocess.PIPE, **settings}
    with open(os.memfd_create("input"), "w+b") as file:
        file.write(source)
        for _ in range(TRIES):
            file.seek(0)
            try:
                done = subprocess.run(words, stdin=file, timeout=seconds, check=False, **settings)
                return Answer(done.returncode, done.stdout or b"", done.stderr or b"")
            except subprocess.TimeoutExpired:
                tell_no_answer(name, seconds)
    return NO_ANSWER


def tell_no_answer(name, seconds=SECONDS):
    print(f"{name}: no answer in {seconds} s", flush=True)


def unproved_answers(crate, folder, data=()):
    """The answers of a crate's program, built once by `rt try`, to the files NAME of a folder, with words of NAME.args:
    by name. Those that came to no answer in time are tried once more."""
    answers, left = {}, sorted(it for it in os.listdir(folder) if "." not in it)
    for _ in range(TRIES):
        with tempfile.TemporaryDirectory() as work:
            for name in left:
                for file in (name, f"{name}.args"):
                    os.link(f"{folder}/{file}", f"{work}/{file}")
            answers.update(tried_answers(crate, work, data))
        left = [name for name in left if name not in answers]
        for name in left:
            tell_no_answer(name)
        if not left or not answers:
            break
    return answers


def tried_answers(crate, folder, data):
    """The answers that came of one `rt try`, which prints each output below its name, and messages above its line."""
    # one step: the interpreter runs no program that reads arguments, and the checked build answers alone
    words = ["rt", "try", "--steps", "1", "--seconds", str(SECONDS), "--cases", folder]
    words += [word for it in data for word in ("--data", it)]
    statuses, messages, told = {}, {}, b""
    with tempfile.TemporaryFile() as printed:
        with subprocess.Popen(words, cwd=f"{TOP}/crates/{crate}", stdout=printed, stderr=subprocess.PIPE) as run:
            for line in run.stderr:
                case = re.match(r"case=(\w+) run=(\S+)(?: status=(\d+))?", line.decode(errors="replace"))
                if case and case[2] != "no-answer":
                    statuses[case[1]], messages[case[1]] = int(case[3]) if case[3] else case[2], told
                    if len(statuses) % 100 == 0:
                        print(f"{crate}: {len(statuses)} answers so far", flush=True)
                told = b"" if case else told + line
        printed.seek(0)
        outputs = dict(re.findall(rb"^== (\w+)\n(.*?)(?=^== \w+\n|\Z)", printed.read(), re.M | re.S))
    if not statuses:
        sys.stdout.write(told.decode(errors="replace")[-3000:])
    return {it: Answer(statuses[it], outputs.get(it.encode(), b""), messages[it]) for it in statuses}
