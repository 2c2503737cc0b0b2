"""One order of all that the lines of a script did, beside the two histories that they print.

A line looks at the version of the global locale, makes calls on the table of locale objects, or makes one on
catalogs; a `catopen` may look and then call. One order of all this has the calls of either history in the order of
their places, what a thread did in the order of its lines, what a round did before what later rounds did, and each
look at a version between the `setlocale` that made it and the next one.
"""
from collections import deque
from itertools import groupby

LOOK, TABLE, CATALOGS = "look", "table", "catalogs"


def deeds_of(line):
    """What a line did, in order: of which kind, at which version or place, and the line."""
    looks = [line.version] if line.version is not None and not line.places else []
    calls = [line.catalog] if line.catalog is not None else []
    each = ((LOOK, looks), (TABLE, line.places), (CATALOGS, calls))
    return [(kind, number, line) for kind, numbers in each for number in numbers]


def is_change(kind, line):
    """Whether the call of a line changed the global locale."""
    return kind == TABLE and line.version is not None


class Order:
    """How far an order has come: the next place of either history, the version, and the looks that are to come."""

    def __init__(self, lines):
        self.next, self.version = {TABLE: 0, CATALOGS: 0}, 0
        self.calls, self.makers, self.looks = {}, {}, {}
        for kind, number, line in (deed for line in lines for deed in deeds_of(line)):
            if kind == LOOK:
                self.looks.setdefault(number, {})[line] = None
            else:
                self.calls[kind, number] = line
            if is_change(kind, line):
                self.makers[line.version] = line

    def line_before(self, kind, number, line):
        """A line that has something to do before this; None where this can come next."""
        if kind == LOOK:
            return None if number == self.version else self.makers[number]
        if number != self.next[kind]:
            return self.calls[kind, self.next[kind]]
        return next(iter(self.looks.get(self.version, ())), None) if is_change(kind, line) else None

    def come(self, kind, number, line):
        """The order goes on with what can come next."""
        if kind == LOOK:
            del self.looks[number][line]
        else:
            self.next[kind] += 1
        if is_change(kind, line):
            self.version = line.version

    def circle_in(self, lines):
        """Goes on with the lines of a round, each thread as far as it can, until all are done, or none can go on."""
        queues = {line.thread: deque() for line in lines}
        for line in lines:
            queues[line.thread].extend(deeds_of(line))
        while any(queues.values()):
            came = 0
            for queue in queues.values():
                while queue and self.line_before(*queue[0]) is None:
                    self.come(*queue.popleft())
                    came += 1
            if not came:
                heads = {who: queue[0] for who, queue in queues.items() if queue}
                return circle_among({who: (head[2], self.line_before(*head)) for who, head in heads.items()})
        return []


def circle_among(waiting):
    """Of threads that wait, each with its line and the line that has to come before, those that wait for each other."""
    who, seen = next(iter(waiting)), []
    while who not in seen:
        seen.append(who)
        who = waiting[who][1].thread
    return [waiting[one] for one in seen[seen.index(who) :]]


def circle(lines):
    """Lines that no one order has, each with one that has to come before it; the next of the circle is a line of the
    same thread as the latter, and not behind it. Empty where there is one order. The two histories are right."""
    order = Order(lines)
    rounds = (list(some) for _, some in groupby(lines, key=lambda line: line.round))
    return next((found for found in map(order.circle_in, rounds) if found), [])
