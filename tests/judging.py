"""Judges what `run` printed: by tests/replay.py, which makes all calls again in the order of their places."""
import replay
from programs import answer


def judged(bundle, output, **options):
    """What is wrong of an output, or None."""
    try:
        return replay.wrong(bundle.decode("latin-1"), output.decode("latin-1"), **options)
    except (ArithmeticError, LookupError, ValueError) as error:
        return f"the replay does not end: {error!r}"


def judged_run(name, program, bundle, words=()):
    """What is wrong where a program runs a bundle, with options `rows=N` and `generations=N`, or None."""
    came = answer(name, [program, "run", *words], bundle)
    if came.status != 0:
        return f"status {came.status} in place of 0"
    options = dict(word.split("=") for word in words)
    return judged(bundle, came.output, program=program, **{name: int(value) for name, value in options.items()})
