#!/usr/bin/env python3
"""Runs a built locale_cli over streams of the system that fail: tests/streams.py PROGRAM"""
import sys
import tempfile

from case_files import read
from programs import TOP, answer
from results import Results

BUNDLE = "tests/cases/sign_cells"
READ_FAULT, WRITE_FAULT = 4, 5
# A name, a line of bash for the program $0 and a bundle $1, its status, and what comes of its output.
ROWS = [
    ("folder_as_input", '"$0" serial < /', READ_FAULT, b""),
    ("input_closed", '"$0" serial <&-', READ_FAULT, b""),
    ("full_device_as_output", '"$0" serial < "$1" > /dev/full', WRITE_FAULT, b""),
    ("output_closed", '"$0" check < "$1" >&-', WRITE_FAULT, b""),
    ("output_of_a_refusal_closed", '"$0" < "$1" >&-', WRITE_FAULT, b""),
    ("output_not_needed", '"$0" serial < /dev/null >&-', 0, b""),
    ("input_not_read_by_make", '"$0" make seed=0 commands=4 < /', 0, read("tests/cases/made_bundle.stdout")),
    ("full_device_as_output_of_make", '"$0" make seed=0 commands=4 > /dev/full', WRITE_FAULT, b""),
]
# a file that takes 1024 bytes
FULL_FILE = "trap '' XFSZ; ulimit -f 1; exec \"$0\" serial < \"$1\" > \"$2\""


def main(program):
    results = Results("streams")
    for name, line, status, output in ROWS:
        came = answer(name, ["bash", "-c", line, program, f"{TOP}/{BUNDLE}"])
        results.compares(name, (came.status, came.output), (status, output))
    with tempfile.NamedTemporaryFile() as full:
        came = answer("full_file_as_output", ["bash", "-c", FULL_FILE, program, f"{TOP}/{BUNDLE}", full.name])
        wanted = read(f"{BUNDLE}.stdout")[:1024]
        results.compares("full_file_as_output", (came.status, full.read()), (WRITE_FAULT, wanted))
    return results.end()


if __name__ == "__main__":
    sys.exit(main(*sys.argv[1:]))
