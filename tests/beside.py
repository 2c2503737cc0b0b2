#!/usr/bin/env python3
"""Shows by what a built program prints that the threads of a round are under way at once: beside.py PROGRAM

Runs each of two scripts until an output shows it, at most so often, and has that output judged by a replay. Each
script is one test.

Between its calls a thread makes reads of some 1 ms each, so that it is under way for longer than threads take to
begin, and than a processor stays with one of them. Nearly each run then shows it. Where that was measured, each of 800
runs of either script did: 200 by four processors and 200 by one, among the other work of a load of 11 to 13, and as
many ahead of that work (nice -n -20); and with reads that took a quarter of the time, 799 of 800 runs of both. So a
right program hardly ever needs a second run, and one that never shows it in 200 or 50 runs is taken for wrong.
"""
import sys

from judging import judged
from programs import answer
from results import Results

# A locale whose %c stands for 16 * 16 * 16 conversions.
LOCALE = """.locale a UTF-8
LC_TIME
d_t_fmt "%s"
t_fmt "%s"
t_fmt_ampm "%s"
END LC_TIME
.end
""" % ("%X" * 16, "%r" * 16, "%n" * 16)
SLOW_READ = 'parse "%c" "7"'


def script(threads):
    """A bundle with one round of these threads, each a name and its commands."""
    return LOCALE + "".join(".thread %s\n%s\n" % (name, "\n".join(commands)) for name, commands in threads)


def contended():
    """Sixteen threads with 70 commands, which but for the slow reads take the turn, and print their places."""
    def commands(number):
        other = "T%d" % ((number + 1) % 16)
        calls = ["new x LC_TIME a", "use x", "post 0 x", "fetch y %s.0" % other, "setlocale LC_TIME a", "free x"]
        return [*calls, SLOW_READ]
    return script(("T%d" % number, commands(number) * 10) for number in range(16))


def mutual():
    """Two threads that again and again post a handle of their own and fetch what the other has posted."""
    return script(
        (name, ["new x LC_TIME a", "use x"] + ["post 0 x", "fetch y %s.0" % other, SLOW_READ] * 100)
        for name, other in ("AB", "BA"))


def gave_each_other(output):
    """Whether each of two threads got a handle of the other in their one round. Where one of them makes its calls
    before the other begins, it gets none, since the other has posted nothing yet."""
    lines = [line.split(b" ", 5) for line in output.splitlines()]
    got = {(line[1], line[5].split(b".")[0]) for line in lines if line[0] == b"1"}
    return {(b"A", b"handle B"), (b"B", b"handle A")} <= got


def until_shown(program, name, most, bundle, shows):
    """What is wrong of the first output that shows what its script is for, or None; and how many runs there were."""
    for count in range(1, most + 1):
        came = answer(name, [program, "run"], bundle)
        if came.status != 0:
            return f"status {came.status} in place of 0", count
        if shows(came.output):
            return judged(bundle, came.output, program=program), count
    return "no output shows it", most


def main(program):
    results = Results("overlap")
    script = contended().encode()
    alone = answer("serial", [program, "serial"], script).output
    for name, most, bundle, shows in (
        ("run_differs_from_serial", 200, script, lambda output: output != alone),
        ("handles_both_ways", 50, mutual().encode(), gave_each_other),
    ):
        wrong, count = until_shown(program, name, most, bundle, shows)
        print(f"overlap: {name}: {count} runs", flush=True)
        results.judges(name, wrong)
    return results.end()


if __name__ == "__main__":
    sys.exit(main(*sys.argv[1:]))
