"""What a part of the tests tells: a line for each thing that differs, and at the end one line of counts."""
import re

COUNTS = re.compile(r"\b(\d+) passed(?:, (\d+) failed)?(?:, (\d+) left out)?\b")


class Results:
    def __init__(self, part):
        self.part, self.passed, self.failed, self.left_out = part, 0, 0, 0

    def counts(self):
        left_out = f", {self.left_out} left out" if self.left_out else ""
        return f"{self.part}: {self.passed} passed, {self.failed} failed{left_out}"

    def passes(self):
        self.passed += 1

    def fails(self, name, why):
        """Tells what is wrong; more lines than one stand below the name."""
        self.failed += 1
        print(f"{self.part}: {name}: {why}".rstrip("\n"), flush=True)

    def leaves_out(self, name, why, count=1):
        self.left_out += count
        print(f"{self.part}: {name}: left out, {why}", flush=True)

    def compares(self, name, came, wanted):
        """Counts what came as right where it is what is wanted."""
        if came == wanted:
            self.passes()
        else:
            self.fails(name, f"{shown(came)} in place of {shown(wanted)}")

    def judges(self, name, wrong):
        """Counts as right where nothing is wrong: None, or an empty text or list."""
        if not wrong:
            self.passes()
        else:
            self.fails(name, wrong if isinstance(wrong, str) else "\n  ".join(wrong))

    def end(self):
        """Prints the counts, and gives the status of the part."""
        print(self.counts(), flush=True)
        return 1 if self.failed else 0


def shown(value, most=300):
    text = repr(value)
    return text if len(text) <= most else f"{text[:most]}.. ({len(text)} characters)"
