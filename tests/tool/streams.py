#!/usr/bin/env python3
"""Runs a built locale_tool where a stream is full or closed, where words are no text, in time zones, and at a terminal,
which gets colours and, while a check is long, a count: streams.py PROGRAM"""
import contextlib
import os
import pty
import subprocess
import sys
import tempfile
import threading
import time

sys.path.insert(0, os.path.dirname(os.path.dirname(os.path.realpath(__file__))))
from programs import SECONDS, answer, tell_no_answer  # noqa: E402
from results import Results  # noqa: E402
from tool_cases import coloured, make_files  # noqa: E402

# the status of what a signal SIGPIPE ends
CLOSED_PIPE = 141
UNWRITTEN = 3, b"locale_tool: standard output could not be written\n"


class Tool:
    """A built tool, and the folder where it runs."""

    def __init__(self, program, work):
        self.program, self.work = os.path.abspath(program), work

    def came(self, *words, source=b"", env=None):
        """The status, the output and the messages."""
        came = answer(f"locale_tool {words!r}", [self.program, *words], source, cwd=self.work, env=env)
        return came.status, came.output, came.messages

    def told(self, *words):
        """The status and the messages of a run that prints nothing."""
        status, output, messages = self.came(*words)
        return status, output + messages

    def with_stream(self, words, **stream):
        """The status, and what comes of the other stream, of the output and the messages."""
        came = answer(f"locale_tool {words!r}", [self.program, *words], cwd=self.work, **stream)
        return came.status, came.output + came.messages

    def on_full_device(self, *words):
        with open("/dev/full", "wb") as full:
            return self.with_stream(words, stdout=full)

    def to_closed_pipe(self, stream, *words):
        """Where nobody reads a stream."""
        reader, writer = os.pipe()
        os.close(reader)
        try:
            return self.with_stream(words, **{stream: writer})
        finally:
            os.close(writer)

    def of_piped_source(self, source):
        """The status and the messages of a check of a source that is there once."""
        words = ["bash", "-c", 'cat | "$0" check /dev/stdin', self.program]
        came = answer("a piped source", words, source, cwd=self.work)
        return came.status, came.messages

    def told_to(self, ends, *words, **settings):
        """The status, and what comes to the first of two ends of a terminal or a pipe; the second is standard error."""
        here, there = ends
        run = subprocess.Popen([self.program, *words], cwd=self.work, stderr=there, **settings)
        os.close(there)
        with until(SECONDS, run):
            told = read_to_end(here)
        os.close(here)
        return run.wait(), told

    def on_terminal(self, *words, **variables):
        """The status, and what is told at a terminal, the newlines as they were written."""
        status, told = self.told_to(pty.openpty(), *words, stdout=subprocess.DEVNULL, env=variables)
        return status, told.replace(b"\r\n", b"\n").decode()

    def of_slow_files(self, name, ends):
        """The status, and what is told while two files are checked that take more than a second."""
        slow = f"{self.work}/{name}"
        os.mkfifo(slow)
        threading.Thread(target=feed, args=(slow, b"LC_TIME\nEND LC_TIME\n"), daemon=True).start()
        return self.told_to(ends, "check", slow, slow, "files/base")


@contextlib.contextmanager
def until(seconds, run):
    """Ends a run that takes longer, and tells so."""

    def end():
        tell_no_answer(f"locale_tool {run.args[1:]!r}")
        run.kill()

    timer = threading.Timer(seconds, end)
    timer.start()
    yield
    timer.cancel()


def feed(path, text):
    """Gives a text to each reader of a pipe, two thirds of a second late."""
    while True:
        with open(path, "wb") as pipe:
            time.sleep(0.7)
            pipe.write(text)
        # so that the reader meets the end before the pipe is opened again
        time.sleep(1)


def read_to_end(here):
    """What comes until the other end is closed, which a terminal tells by an error."""
    told = b""
    while True:
        try:
            read = os.read(here, 4096)
        except OSError:
            return told
        if not read:
            return told
        told += read


def check_streams(results, tool):
    """Streams that are full or that nobody reads."""
    closed, faults = (CLOSED_PIPE, b""), ["check", "files/three_faults"]
    results.compares("full_device", tool.on_full_device("conv"), UNWRITTEN)
    results.compares("help_on_full_device", tool.on_full_device("--help"), UNWRITTEN)
    results.compares("closed_pipe", tool.to_closed_pipe("stdout", "info"), closed)
    results.compares("help_to_a_closed_pipe", tool.to_closed_pipe("stdout", "--help"), closed)
    results.compares("messages_to_a_closed_pipe", tool.to_closed_pipe("stderr", *faults), closed)
    results.compares("usage_to_a_closed_pipe", tool.to_closed_pipe("stderr", "mony"), closed)
    came = tool.to_closed_pipe("stderr", "money", "%n", "1")
    results.compares("no_messages_to_a_closed_pipe", came, (0, b"1.00\n"))


def check_no_text(results, tool):
    """Words that are no text, and a source that is there once."""

    def wanted(word):
        return 2, b"locale_tool: %s\n" % word

    long_word, name = b"\xff" * 5000, b"caf\xe9\x1b[m"
    results.compares("no_text", tool.told(b"\xff"), wanted(rb"\xff: the word is no UTF-8 text"))
    shown = rb"caf\xe9\x1b[m: the word is no UTF-8 text"
    results.compares("file_of_no_text", tool.told("check", name, b"\xff"), wanted(shown))
    results.compares("long_word_of_no_text", tool.told(long_word), wanted(b"a word is no UTF-8 text"))
    status, told = tool.of_piped_source(b"LC_TIME\nOn\nEND LC_TIME\n")
    results.compares("piped_source", (status, told.splitlines()[1:]), (1, [b"On", b"^"]))


def check_zones(results, tool):
    """The time of the clock where a variable names its zone."""
    rule = "the system knows no such time zone, which the variable TZ names; the time is in UTC"

    def unknown(shown):
        return 0, b"UTC\n", f"locale_tool: warning: {shown}: {rule}\n".encode()

    rows = {
        "no_zone": ("", (0, b"UTC\n", b"")),
        "zone_of_a_rule": ("XYZ4", (0, b"XYZ\n", b"")),
        "unknown_zone": ("Nowhere/Land", unknown("Nowhere/Land")),
        "unknown_zone_of_a_colon": (":None", unknown(":None")),
        "unknown_zone_like_a_rule": ("AAA5BBB6", unknown("AAA5BBB6")),
        "zone_that_moves_a_terminal": ("\x1b[m", unknown("\\x1b[m")),
        "zone_of_no_text": (b"\xff", unknown("TZ")),
    }
    for name, (zone, wanted) in rows.items():
        results.compares(name, tool.came("time", "%Z", env={"TZ": zone}), wanted)


def check_colours(results, tool):
    """The colours of a message at a terminal."""
    plain = "FORMAT:1:4: MissingNumber: each conversion of the format has a number\n%d %d\n   ^\n"
    rows = {
        "colours_on_a_terminal": ([], {"TERM": "xterm"}, coloured(plain)),
        "colours_with_an_empty_variable": ([], {"TERM": "xterm", "NO_COLOR": ""}, coloured(plain)),
        "no_colours_wanted": ([], {"TERM": "xterm", "NO_COLOR": "1"}, plain),
        "no_colours_on_a_dumb_terminal": ([], {"TERM": "dumb"}, plain),
        "colours_never_on_a_terminal": (["--color=never"], {"TERM": "xterm"}, plain),
        "colours_always_on_a_dumb_terminal": (["--color=always"], {"TERM": "dumb"}, coloured(plain)),
    }
    for name, (words, variables, wanted) in rows.items():
        came = tool.on_terminal("number", "%d %d", "1", *words, **variables)
        results.compares(name, came, (1, wanted))


def check_counts(results, tool):
    """The count of the files that a long check has seen, which stands at a terminal and goes when it ends."""
    results.compares("no_terminal", tool.of_slow_files("no_terminal", os.pipe()), (0, b""))
    status, told = tool.of_slow_files("terminal", pty.openpty())
    is_right = status == 0 and b"2 of 3 files" in told and told.endswith(b"\r\x1b[K")
    results.judges("terminal", None if is_right else f"status {status}, {told!r}")


def main(program):
    results = Results("streams of the tool")
    with tempfile.TemporaryDirectory() as work:
        make_files(work)
        tool = Tool(program, work)
        for check in (check_streams, check_no_text, check_zones, check_colours, check_counts):
            check(results, tool)
    return results.end()


if __name__ == "__main__":
    sys.exit(main(*sys.argv[1:]))
