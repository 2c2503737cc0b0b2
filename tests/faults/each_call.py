#!/usr/bin/env python3
"""Runs a built program of locales over one bundle, each time with one of its calls failing: an allocation,
the start of a thread, a read of standard input, a write to standard output; and over fronts of the bundle.
It also counts the threads that are started, and what scripts of many calls allocate.

    each_call.py PROGRAM BUNDLE OUTPUT

OUTPUT is what serial prints for the bundle, which has one round, whose threads share no handles. Prints the number of
runs of each kind of fault, which is one test, and below it what went wrong. The faults come from preload.c, which is
compiled by cc; where there is no cc, only the fronts are run."""
import itertools
import os
import shutil
import struct
import subprocess
import sys
import tempfile
from concurrent.futures import ThreadPoolExecutor

HERE = os.path.dirname(os.path.realpath(__file__))
sys.path.insert(0, os.path.dirname(HERE))
from programs import answer  # noqa: E402
from results import Results  # noqa: E402

KINDS = ["FAULTS_ALLOCATION", "FAULTS_THREAD", "FAULTS_READ", "FAULTS_WRITE"]
DONE, REFUSED, READ_FAULT, WRITE_FAULT, MEMORY = 0, 3, 4, 5, 6
LIMIT = 16777216
FEW_COMMANDS, MOST_COMMANDS = 64, 20000
BLOCKS = """.locale a UTF-8
LC_NUMERIC
END LC_NUMERIC
.end
.later k a UTF-8
LC_NUMERIC
END LC_NUMERIC
.end
.catalog m C
1 Hi
.end
.thread A
"""
# Commands that are calls of the table or of the catalogs: a name, those that come before, and those that are repeated,
# which are accepted, or refused; and a command that calls neither, and whose reply has as many texts of its own.
MADE, FREED = ["new x LC_NUMERIC a"], ["new x LC_NUMERIC a", "free x"]
CLOSED = ["catopen c m", "catclose c"]
ACCEPTED = [
    ("made_and_freed", [], FREED, "use ?"),
    ("changed", MADE, ["new x LC_NUMERIC a x"], "use ?"),
    ("copied_and_freed", [], ["dup x GLOBAL", "free x"], "use ?"),
    ("selected", MADE, ["use x", "use GLOBAL"], "use ?"),
    ("held_and_released", MADE, ["hold x", "release x"], "use ?"),
    ("held_for_a_read", MADE, ["class_l x alpha 97"], "use ?"),
    ("pins_counted", MADE, ["pins x"], "use ?"),
    ("posted_and_fetched", MADE, ["post 0 x", "fetch y A.0"], "use ?"),
    ("set", [], ["setlocale LC_NUMERIC a"], "info RADIXCHAR"),
    ("installed", [], ["install k"], "use ?"),
    ("opened_and_closed", [], CLOSED, "use ?"),
    ("message_read", ["catopen c m"], ['catgets c 1 1 "x"'], "info RADIXCHAR"),
]
REFUSED_CALLS = [
    ("no_row", [], MADE, "use ?"),
    ("stale", FREED, [
        "free x", "use x", "hold x", "release x", "post 0 x", "pins x", "dup y x", "new y LC_NUMERIC a x"], "use ?"),
    ("nothing_posted", [], ["fetch y A.1"], "use ?"),
    ("no_row_of_the_catalogs", [], ["catopen c m"], "use ?"),
    ("closed", CLOSED, ["catclose c", 'catgets c 1 1 "x"'], "use ?"),
]


class Program:
    """A built program, and what is preloaded into it."""

    def __init__(self, path, preload, folder):
        self.path, self.preload, self.folder = path, preload, folder
        self.names = itertools.count()

    def run(self, mode, text, **faults):
        """The status, what was written, and how often each kind of call was made."""
        settings = dict(os.environ)
        file = os.path.join(self.folder, f"counts{next(self.names)}")
        if self.preload is not None:
            with open(file, "wb") as counts:
                counts.write(bytes(8 * len(KINDS)))
            settings.update(LD_PRELOAD=self.preload, FAULTS_COUNTS=file)
            settings.update((f"FAULTS_{name.upper()}", str(value)) for name, value in faults.items())
        words = [self.path] + mode.split()
        done = answer(f"{mode} {faults}", words, text, env=settings)
        if done.messages:
            return f"{done.status}, and wrote to standard error", done.output, [0] * len(KINDS)
        if self.preload is None:
            return done.status, done.output, [0] * len(KINDS)
        with open(file, "rb") as counts:
            made = struct.unpack(f"{len(KINDS)}Q", counts.read())
        os.unlink(file)
        return done.status, done.output, made

    def reached(self, kind, mode, text, **faults):
        """How many calls of a kind a run without a failing one makes."""
        return self.run(mode, text, **faults)[2][KINDS.index(kind)]


def preloaded(folder):
    """The library of the faults, or None where there is no compiler."""
    compiler = shutil.which("cc")
    if compiler is None:
        return None
    library = os.path.join(folder, "preload.so")
    source = os.path.join(HERE, "preload.c")
    subprocess.run([compiler, "-O1", "-shared", "-fPIC", "-o", library, source, "-ldl"], check=True)
    return library


def outputs_of(output):
    """What run may print, where serial prints this: the calls of the round in any order that keeps the order
    of each thread's own."""
    lines = [line.split(b" ", 4) for line in output.splitlines(keepends=True)]
    calls = [line[1] for line in lines if line[0] == b"1" and line[3] != b"-"]
    made = []
    for order in sorted(set(itertools.permutations(calls))):
        places = {name: iter([i for i, caller in enumerate(order) if caller == name]) for name in calls}
        made.append(b"".join(
            b" ".join([*line[:3], b"%d" % next(places[line[1]]), line[4]])
            if line[0] == b"1" and line[3] != b"-" else b" ".join(line)
            for line in lines))
    return made


def checked(rows):
    """Runs rows, each a call that gives what is wrong or None: how many there are, and what was wrong."""
    with ThreadPoolExecutor(os.cpu_count()) as pool:
        wrong = [said for said in pool.map(lambda row: row(), rows) if said is not None]
    return len(rows), wrong


def row(program, mode, text, allowed, **faults):
    """A run that must end with a status and an output for which `allowed` holds."""
    def tried():
        status, written, _ = program.run(mode, text, **faults)
        if allowed(status, written):
            return None
        return f"{mode} {faults}: status {status}, {len(written)} bytes: {written[:60]!r}"
    return tried


def is_just(status, wanted):
    """That this status comes, with one of these outputs."""
    return lambda came, written: came == status and written in wanted


def is_front(length, wanted):
    """That a write failed behind so many bytes of one of these outputs."""
    return lambda came, written: (
        came == WRITE_FAULT and len(written) == length and any(text.startswith(written) for text in wanted))


def is_cut(came, written):
    """What a front of a bundle may give: it is refused by one line, or done."""
    refused = written.startswith(b"refused: ") and written.count(b"\n") == 1
    return came == REFUSED and refused or came == DONE and not written.startswith(b"refused")


def allocations(program, mode, bundle, wanted):
    """Each allocation refused in turn, until one is not reached any more."""
    count = program.reached("FAULTS_ALLOCATION", mode, bundle)
    def allowed(came, written):
        return came == MEMORY and written == b"" or came == DONE and written in wanted
    # (a run beside another order of calls may make some more)
    return [row(program, mode, bundle, allowed, allocation=n) for n in range(1, count + 9)]


def threads(program, mode, bundle, wanted):
    """The start of each thread refused in turn."""
    count = program.reached("FAULTS_THREAD", mode, bundle)
    def allowed(came, written):
        return came == MEMORY and written == b"" or came == DONE and written in wanted
    return [row(program, mode, bundle, allowed, thread=n) for n in range(1, count + 1)]


def reads(program, mode, bundle):
    """Each read of at most 64 bytes failing in turn, and the first one of a whole buffer."""
    count = program.reached("FAULTS_READ", mode, bundle, read_step=64)
    allowed = is_just(READ_FAULT, [b""])
    return [row(program, mode, bundle, allowed, read=n, read_step=64) for n in range(1, count + 1)] + [
        row(program, mode, bundle, allowed, read=1)]


def writes(program, mode, text, wanted):
    """Each write of at most 7 bytes failing in turn."""
    count = program.reached("FAULTS_WRITE", mode, text, write_step=7)
    return [
        row(program, mode, text, is_front(7 * (n - 1), wanted), write=n, write_step=7)
        for n in range(1, count + 1)]


def begun_beside(program):
    """The threads of a script run concurrently: each round starts one for each, or one fewer where the
    caller is one of them. `serial` starts none, and `make` runs its script as `run` does."""
    rounds, count = 5, 16
    script = "".join(
        ".round\n" * (made > 0) + "".join(f".thread T{number}\nuse ?\n" for number in range(count))
        for made in range(rounds)).encode()
    def tried(mode, least, most):
        started = program.reached("FAULTS_THREAD", mode, script)
        return None if least <= started <= most else f"{mode}: {started} threads, and not {least} to {most}"
    return [
        lambda: tried("run", rounds * (count - 1), rounds * count),
        lambda: tried("serial", 0, 0),
        lambda: tried("make seed=0 commands=4", 3, 4)]


def steps(program):
    """A call of the table or of the catalogs takes no memory: from few commands to as many as a script may have,
    what `serial` allocates behind the reading grows as it does for as many commands that call neither, but for
    the longer output."""
    def allocated(before, repeated, is_refused, count):
        lines = (before + repeated * count)[:count]
        script = (BLOCKS + "".join(line + "\n" for line in lines)).encode()
        status, written, made = program.run("serial generations=2147483647", script)
        refusals = written.count(b" refused ")
        if status != DONE or (refusals <= count // 2 if is_refused else refusals > 0):
            raise ValueError(f"{repeated}: status {status}, {refusals} of {count} refused")
        return made[KINDS.index("FAULTS_ALLOCATION")] - program.reached("FAULTS_ALLOCATION", "check", script)
    def grown(*commands):
        return allocated(*commands, MOST_COMMANDS) - allocated(*commands, FEW_COMMANDS)
    def tried(is_refused, name, before, repeated, like):
        try:
            more = grown(before, repeated, is_refused) - grown([], [like], False)
        except ValueError as wrong:
            return f"{name}: {wrong}"
        return None if more <= 2 else f"{name}: {more} allocations more than of {like}"
    return [
        lambda is_refused=is_refused, call=call: tried(is_refused, *call)
        for is_refused, calls in ((False, ACCEPTED), (True, REFUSED_CALLS)) for call in calls]


def no_more_reads(program, size, other):
    """A longer input is read no further than one byte past the limit."""
    def tried():
        count, more = (program.reached("FAULTS_READ", "check", bytes(length)) for length in (size, other))
        return None if count == more else f"check: {count} reads, and {more} of a longer input"
    return tried


def kinds_of_mode(program, mode, bundle, outputs):
    """The kinds of faults in a run of a mode that may print these outputs: names, and their rows."""
    return {
        f"refused_allocations_of_{mode}": lambda: allocations(program, mode, bundle, outputs),
        f"failing_reads_of_{mode}": lambda: reads(program, mode, bundle),
        f"failing_writes_of_{mode}": lambda: writes(program, mode, bundle, outputs),
        f"room_of_100_bytes_of_{mode}": lambda: [row(program, mode, bundle, is_front(100, outputs), room=100)],
        f"output_that_takes_nothing_of_{mode}": lambda: [row(program, mode, bundle, is_front(0, outputs), nothing=1)],
        f"single_bytes_of_{mode}": lambda: [
            row(program, mode, bundle, is_just(DONE, outputs), read_step=1, write_step=1)],
    }


def kinds_of_faults(program, bundle, output):
    """All kinds of faults that are preloaded."""
    by_run, bad_line = outputs_of(output), [b"refused: 1:1 BadLine directive\n"]
    usage, too_large = [b"refused: usage\n"], [b"refused: too large\n"]
    return {
        **kinds_of_mode(program, "serial", bundle, [output]),
        **kinds_of_mode(program, "run", bundle, by_run),
        "threads_begun_beside": lambda: begun_beside(program),
        "steps_without_memory": lambda: steps(program),
        "threads_that_do_not_start": lambda: threads(program, "run", bundle, by_run),
        "failing_writes_of_a_refusal": lambda: writes(program, "check", b".end\n", bad_line),
        "failing_writes_of_wrong_words": lambda: writes(program, "chek", bundle, usage),
        "failing_writes_of_too_large": lambda: writes(program, "check", bytes(LIMIT + 1), too_large),
        "no_read_past_the_limit": lambda: [no_more_reads(program, LIMIT + 1, 2 * LIMIT)],
    }


def main(path, bundle_path, output_path):
    bundle, output = read(bundle_path), read(output_path)
    results = Results("failing calls")
    with tempfile.TemporaryDirectory() as folder:
        program = Program(os.path.abspath(path), preloaded(folder), folder)
        fronts = [row(program, "serial", bundle[:end], is_cut) for end in range(len(bundle))]
        results.judges("fronts_of_the_bundle", checked(fronts)[1])
        kinds = kinds_of_faults(program, bundle, output)
        if program.preload is None:
            results.leaves_out("each call failing", "there is no cc", len(kinds))
            kinds = {}
        for name, rows in kinds.items():
            count, wrong = checked(rows())
            print(f"failing calls: {name}: {count} runs", flush=True)
            results.judges(name, wrong[:10] if count else "there was no run")
    return results.end()


def read(path):
    with open(path, "rb") as file:
        return file.read()


if __name__ == "__main__":
    sys.exit(main(*sys.argv[1:]))
