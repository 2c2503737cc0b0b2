#!/usr/bin/env python3
"""Checks what a script printed, whoever ran it: replay.py BUNDLE OUTPUT [rows=N] [generations=N] [program=PATH]

Reads the bundle's commands and the printed lines, and nothing else. The lines are one for each command, in
order; the places are those of one history, each once, going up along a thread, from round to round and along
the closing lines; and each reply is the one that a table of locale objects gives at that place, when all calls
are made again one after another in the order of their places. A read tells what its object says: the radix
character and the separator of thousands as the source has them, any other read the same for the same object
and words. A version that a line prints is one that its thread could have read there. Calls on message catalogs
have a history of their own, of which the same holds; a message is the one that a plain source has. One order of
all calls and all reads of the global locale agrees with both histories, the threads and the rounds. Prints the
first line that is wrong, or lines that no one order has, and ends with 1.

With a program, its `serial` must print the same replies, reads and versions included: for a script of the same
calls in the order of their places, or, where there is none, as a bundle has too few rounds for that order, for one
that makes each object that was read anew.
"""
import subprocess
import sys

from joint_order import circle

CATEGORIES = ["LC_CTYPE", "LC_NUMERIC", "LC_MONETARY", "LC_TIME", "LC_MESSAGES"]
CATALOG_CALLS = ("catopen", "catgets", "catclose")
READS = ("info", "conv", "class", "upper", "lower", "money", "time", "number", "parse")
GLOBAL = "GLOBAL"
# what a bundle may have
MOST_ROUNDS = 64
MOST_COMMANDS = 20000
MOST_ROWS = 64


class Wrong(Exception):
    pass


def want(holds, text):
    if not holds:
        raise Wrong(text)


def words_of(line):
    """The words of a command: a blank between quotes does not end one."""
    words, at = [], 0
    while at < len(line):
        if line[at] in " \t":
            at += 1
            continue
        end, quoted = at, False
        while end < len(line) and (quoted or line[end] not in " \t"):
            if line[end] == "\\" and quoted:
                end += 1
            elif line[end] == '"':
                quoted = not quoted
            end += 1
        words.append(line[at:end])
        at = end
    return words


def plain(word):
    """The text of a word, which may stand in quotes."""
    if not word.startswith('"'):
        return word
    text, at = "", 1
    while at < len(word) - 1:
        if word[at] == "\\" and word[at + 1] == "x":
            text += chr(int(word[at + 2 : at + 4], 16))
            at += 4
        elif word[at] == "\\":
            text += word[at + 1]
            at += 2
        else:
            text += word[at]
            at += 1
    return text


class Source:
    """A locale source: its name, a later version's key, which categories it has, and the two texts of LC_NUMERIC."""

    def __init__(self, name, lines, key=None):
        self.name, self.key = name, key
        self.has = {c for c in CATEGORIES if c in (line.strip() for line in lines)}
        self.texts, inside = {}, None
        for line in lines:
            words = line.split(None, 1)
            if words and words[0] in CATEGORIES:
                inside = words[0]
            elif words and words[0] == "END":
                inside = None
            elif inside == "LC_NUMERIC" and len(words) == 2:
                text = words[1].strip()
                if words[0] == "copy":
                    self.texts.update(decimal_point=None, thousands_sep=None)
                simple = len(text) > 1 and text[0] == text[-1] == '"' and not set(text[1:-1]) & set('<\\"')
                self.texts[words[0]] = text[1:-1] if simple else None


class Catalog:
    """The source of a message catalog: its name, its locale, and its messages, where it has simple lines alone."""

    def __init__(self, name, locale, lines):
        self.name, self.locale = name, locale
        self.messages, self.is_simple, number = {}, True, 1
        for line in lines:
            words = line.split(" ", 1)
            if line.startswith("$set "):
                number = int(line.split()[1])
            elif words[0].isdigit() and len(words) == 2 and not set(words[1]) & set('\\"'):
                self.messages[number, int(words[0])] = words[1]
            elif line and line != "$" and not line.startswith("$ "):
                self.is_simple = False


POSIX = Source("C", CATEGORIES)
POSIX.texts = {"decimal_point": ".", "thousands_sep": ""}


class Bundle:
    def __init__(self, text):
        self.threads, self.commands, self.native = [], [], "C"
        self.opening, self.later, self.blocks = {"C": POSIX}, {}, []
        self.catalogs = []
        self.rounds, thread = 1, None
        lines = iter(text.split("\n"))
        for line in lines:
            words = line.split()
            if not words or words[0].startswith("#"):
                continue
            if line.startswith((".locale ", ".later ", ".charmap ", ".catalog ")):
                block = list(iter(lambda: next(lines), ".end"))
                self.blocks += [line, *block, ".end"]
                if words[0] == ".locale":
                    self.opening[words[1]] = Source(words[1], block)
                elif words[0] == ".later":
                    self.later[words[1]] = Source(words[2], block, words[1])
                elif words[0] == ".catalog":
                    self.catalogs.append(Catalog(words[1], words[2], block))
            elif words[0] == ".native":
                self.native = words[1]
                self.blocks.append(line)
            elif words[0] == ".thread":
                if words[1] not in self.threads:
                    self.threads.append(words[1])
                thread = self.threads.index(words[1])
            elif words[0] == ".round":
                self.rounds += 1
                thread = None
            else:
                self.commands.append((self.rounds, thread, words_of(line)))
        for source in self.later.values():
            self.opening.setdefault(source.name, None)
        # (`sorted` keeps the order of the text along a thread)
        self.commands = sorted(self.commands, key=lambda command: command[:2])

    def names(self, name, mask):
        """The name of each category of a mask, or the first category of it that no block names."""
        parts = [part.split("=", 1) for part in name.split(";")]
        mixed = [part[0] for part in parts] == CATEGORIES and all(len(p) == 2 and p[1] for p in parts)
        each = [part[1] for part in parts] if mixed else [name or self.native] * 5
        each = ["C" if one == "POSIX" else one for one in each]
        for i, one in enumerate(each):
            if mask >> i & 1 and one not in self.opening:
                return CATEGORIES[i], None
        return None, each


class Handles:
    """Handles that threads get in rows. A handle is a triple."""

    def __init__(self, count, rows, generations):
        self.rows, self.generations = rows, generations
        self.made = [[0] * rows for _ in range(count)]
        self.live = {}

    def was_made(self, h):
        owner, row, generation = h
        return row < self.rows and 1 <= generation <= self.made[owner][row]

    def stale(self, h):
        if not self.was_made(h):
            return "NeverMade"
        return None if h in self.live else "Stale"

    def pins(self, _):
        return 0

    def free_row(self, who):
        for row in range(self.rows):
            handle = (who, row, self.made[who][row])
            if self.made[who][row] < self.generations and handle not in self.live and not self.pins(handle):
                return row
        return None

    def make(self, who, what, said):
        row = self.free_row(who)
        if row is None:
            return ("refused", "TooMany")
        self.made[who][row] += 1
        handle = (who, row, self.made[who][row])
        self.live[handle] = what
        return (said, handle)


class Catalogs(Handles):
    """The catalogs that threads have open."""

    def step(self, who, op, *words):
        return getattr(self, "step_" + op)(who, *words)

    def step_catopen(self, who, catalog):
        return self.make(who, catalog, "opened")

    def step_catgets(self, _, h, *__):
        why = self.stale(h)
        return ("refused", why) if why else ("catalog", self.live[h])

    def step_catclose(self, _, h):
        why = self.stale(h)
        if why:
            return ("refused", why)
        del self.live[h]
        return ("closed",)


class Table(Handles):
    """The table of locale objects. A handle is a triple, an object a tuple of five sources."""

    def __init__(self, bundle, rows, generations):
        count = len(bundle.threads)
        super().__init__(count, rows, generations)
        self.bundle, self.installs = bundle, 0
        self.shelf = dict(bundle.opening)
        self.globals = [(POSIX,) * 5]
        self.selected = [GLOBAL] * count
        self.own = [None] * count
        self.holds = [{} for _ in range(count)]
        self.cells = {}

    def pins(self, h):
        return self.selected.count(h) + sum(h in holds for holds in self.holds)

    def composed(self, mask, names, base):
        """The object, or the first category that its named locale lacks."""
        for i in range(5):
            offer = self.shelf.get(names[i])
            if mask >> i & 1 and (offer is None or CATEGORIES[i] not in offer.has):
                return CATEGORIES[i], None
        return None, tuple(self.shelf[names[i]] if mask >> i & 1 else base[i] for i in range(5))

    def step(self, who, op, *words):
        return getattr(self, "step_" + op)(who, *words)

    def step_new(self, who, mask, names, base):
        lacking, _ = self.composed(mask, names, self.globals[0])
        if lacking:
            return ("refused", "NoData " + lacking)
        if base is None:
            return self.make(who, self.composed(mask, names, self.globals[0])[1], "handle")
        why = "GlobalHandle" if base == GLOBAL else self.stale(base)
        if why:
            return ("refused", why)
        self.live[base] = self.composed(mask, names, self.live[base])[1]
        return ("handle", base)

    def step_dup(self, who, h):
        why = None if h == GLOBAL else self.stale(h)
        return ("refused", why) if why else self.make(who, self.globals[-1] if h == GLOBAL else self.live[h], "handle")

    def step_free(self, who, h):
        why = "GlobalHandle" if h == GLOBAL else self.stale(h)
        if why:
            return ("refused", why)
        del self.live[h]
        return ("freed",)

    def step_use(self, who, h):
        why = None if h == GLOBAL else self.stale(h)
        if why:
            return ("refused", why)
        former, self.selected[who] = self.selected[who], h
        self.own[who] = None if h == GLOBAL else self.live[h]
        return ("was", former)

    def step_hold(self, who, h):
        why = "GlobalHandle" if h == GLOBAL else self.stale(h) or ("AlreadyHeld" if h in self.holds[who] else None)
        if why:
            return ("refused", why)
        self.holds[who][h] = self.live[h]
        return ("held",)

    def step_release(self, who, h):
        why = "GlobalHandle" if h == GLOBAL else None if h in self.holds[who] else "NotHeld"
        if why:
            return ("refused", why)
        del self.holds[who][h]
        return ("released",)

    def step_setlocale(self, who, category, mask, names):
        lacking, parts = self.composed(mask, names, self.globals[-1])
        if lacking:
            return ("refused", "NoData " + lacking)
        self.globals.append(parts)
        return ("name", name_of(parts, category))

    def step_install(self, who, key):
        source = self.bundle.later[key]
        self.shelf[source.name] = source
        self.installs += 1
        return ("installed", self.installs)

    def step_post(self, who, cell, h):
        why = "GlobalHandle" if h == GLOBAL else self.stale(h)
        if why:
            return ("refused", why)
        self.cells[who, cell] = h
        return ("posted",)

    def step_fetch(self, who, owner, cell):
        h = self.cells.get((owner, cell))
        return ("refused", "EmptyCell") if h is None else ("handle", h)

    def step_pins(self, who, h):
        why = "GlobalHandle" if h == GLOBAL else None if self.was_made(h) else "NeverMade"
        return ("refused", why) if why else ("pins", self.pins(h))

    def step_end(self, who):
        self.selected[who], self.own[who], self.holds[who] = GLOBAL, None, {}
        return ("ended",)


def name_of(parts, category):
    names = [part.name for part in parts]
    if category != "LC_ALL":
        return names[CATEGORIES.index(category)]
    return names[0] if len(set(names)) == 1 else ";".join(map("=".join, zip(CATEGORIES, names)))


class Line:
    def __init__(self, text):
        fields = text.split(" ", 5)
        want(len(fields) == 6, "a line has six fields")
        self.text, self.told = text, tuple(fields[3:])
        self.round, self.thread, self.index = int(fields[0]), fields[1], int(fields[2])
        self.catalog = int(fields[3][1:]) if fields[3].startswith("c") else None
        has_none = fields[3] == "-" or self.catalog is not None
        self.places = [] if has_none else [int(place) for place in fields[3].split(",")]
        self.version = None if fields[4] == "-" else int(fields[4][1:])
        self.reply = fields[5]


class Step:
    """A command that stands for a line or a part of it: its place, if it has one, and what is told of it."""

    def __init__(self, line, words, place, told):
        self.line, self.command, self.place, self.told = line, " ".join(words), place, told


class Check:
    def __init__(self, bundle, lines, rows, generations):
        self.bundle, self.lines = bundle, lines
        self.table = Table(bundle, rows, generations)
        self.catalogs = Catalogs(len(bundle.threads), rows, generations)
        self.variables = [{} for _ in bundle.threads]
        self.catalog_variables = [{} for _ in bundle.threads]
        self.catalog_calls, self.messages = {}, {}
        self.said, self.sets, self.objects = {}, [0], {}
        self.steps = [[] for _ in bundle.threads]

    def spelled(self, h):
        return GLOBAL if h == GLOBAL else "%s.%d.%d" % (self.bundle.threads[h[0]], h[1], h[2])

    def printed(self, reply):
        return " ".join(self.spelled(w) if isinstance(w, tuple) else str(w) for w in reply)

    def handle(self, who, word):
        """What a word names; None where it is a variable that nothing bound."""
        return GLOBAL if word == GLOBAL else self.handle_in(self.variables[who], word)

    def handle_in(self, variables, word):
        if "." in word:
            owner, row, generation = word.split(".")
            return (self.bundle.threads.index(owner), int(row), int(generation))
        return variables.get(word)

    def cell(self, word):
        owner, cell = word.split(".")
        return self.bundle.threads.index(owner), int(cell)

    def mask(self, word):
        if word.isdigit():
            return int(word)
        return 31 if word == "LC_ALL" else sum(1 << CATEGORIES.index(c) for c in set(word.split(",")))

    def wish(self, who, words):
        """What a command asks for: a call, a read of what is named, a read, or why it is refused."""
        name = words[0]
        if name == "new":
            base = self.handle(who, words[4]) if len(words) == 5 else None
            mask = self.mask(words[2])
            if len(words) == 5 and base is None:
                return ("refused", "Unset")
            if mask > 31:
                return ("refused", "BadMask")
            lacking, names = self.bundle.names(plain(words[3]), mask)
            return ("refused", "NoData " + lacking) if lacking else ("call", "new", mask, names, base)
        if name == "setlocale":
            if len(words) == 2:
                return ("name", words[1])
            mask = self.mask(words[1])
            lacking, names = self.bundle.names(plain(words[2]), mask)
            return ("refused", "NoData " + lacking) if lacking else ("call", name, words[1], mask, names)
        if name == "install":
            return ("call", name, words[1])
        if name == "fetch":
            return ("call", name, *self.cell(words[2]))
        if name == "use" and words[1] == "?":
            return ("selection",)
        if name in READS:
            return ("read", words)
        if name == "catopen":
            return (name, words[2])
        if name in CATALOG_CALLS:
            named = self.handle_in(self.catalog_variables[who], words[1])
            return ("refused", "Unset") if named is None else (name, named, *words[2:])
        named = self.handle(who, words[2 if name in ("dup", "post") else 1])
        if named is None:
            return ("refused", "Unset")
        if name.endswith("_l"):
            return ("read_of", named, [name[:-2], *words[2:]])
        return ("call", name, *([int(words[1])] if name == "post" else []), named)

    def bind(self, who, words, reply):
        if words[0] in ("new", "dup", "fetch") and reply.startswith("handle "):
            self.variables[who][words[1]] = self.handle(who, reply[7:])
        if words[0] == "catopen" and reply.startswith("opened "):
            self.catalog_variables[who][words[1]] = self.handle_in({}, reply[7:])

    def tells(self, parts, words, reply):
        """The reply to a read is what the object says."""
        key = {"RADIXCHAR": "decimal_point", "THOUSEP": "thousands_sep"}.get(words[1] if len(words) == 2 else None)
        if words[0] == "info" and key:
            text = parts[1].texts.get(key, POSIX.texts[key])
            want(text is None or reply == 'text "%s"' % text, "reads %s" % text)
        before = self.said.setdefault(parts, {}).setdefault(" ".join(words), reply)
        want(before == reply, "the same read of the same object gave " + before)

    def bare(self, line, who, wish):
        """A line without a place: what the thread knows by its own calls, or a version of the global locale."""
        want(not line.places, "has no place")
        want(line.catalog is None or wish[0] in CATALOG_CALLS, "is no call on catalogs")
        if wish[0] == "refused":
            want(line.version is None and line.reply == "refused " + wish[1], "is refused " + wish[1])
        elif wish[0] in ("catgets", "catclose"):
            want(line.version is None and line.catalog is not None, "has a place among the calls on catalogs")
            self.catalog_calls[line.catalog] = (line, who, wish)
        elif wish[0] == "catopen" and self.table.own[who]:
            want(line.version is None, "goes by its own object")
            self.opens(line, who, wish[1], self.table.own[who])
        elif wish[0] == "selection":
            is_printed = "is " + self.spelled(self.table.selected[who])
            want(line.version is None and line.reply == is_printed, is_printed)
        elif wish[0] == "read" and self.table.own[who]:
            want(line.version is None, "reads its own object")
            self.tells(self.table.own[who], wish[1], line.reply)
        else:
            want(line.version is not None, "tells a version")
            self.objects[line] = (who, wish)

    def opens(self, line, who, name, parts):
        """The catalog of a name for the LC_MESSAGES of an object; without one there is no call."""
        at = (name, parts[CATEGORIES.index("LC_MESSAGES")].name)
        found = next((one for one in self.bundle.catalogs if (one.name, one.locale) == at), None)
        if found is None:
            return want(line.catalog is None and line.reply == "refused NoCatalog", "is refused NoCatalog")
        want(line.catalog is not None, "has a place among the calls on catalogs")
        self.catalog_calls[line.catalog] = (line, who, ("catopen", found))
        return None

    def catalog_places(self):
        """The places of calls on catalogs: each once; going up along a thread and from round to round."""
        lines = [line for line in self.lines if line.catalog is not None]
        before, number, last, top, taken = {}, 0, -1, -1, set()
        for line in lines:
            if line.round != number:
                number, last = line.round, top
            want_line(line, line.catalog < len(lines) and line.catalog not in taken, "a place of its own")
            want_line(line, before.get(line.thread, -1) < line.catalog and last < line.catalog, "a later place")
            taken.add(line.catalog)
            before[line.thread] = line.catalog
            top = max(top, line.catalog)

    def replay_catalogs(self):
        """All calls on catalogs again, in the order of their places."""
        for place in range(len(self.catalog_calls)):
            line, who, wish = self.catalog_calls[place]
            reply = self.catalogs.step(who, *wish)
            if reply[0] == "catalog":
                judged(line, self.message, 0, reply[1], *wish[2:])
            else:
                want_line(line, line.reply == self.printed(reply), self.printed(reply))

    def message(self, line, _, catalog, *words):
        """The message of a catalog, or the default; the same at each time."""
        at = (int(words[0]), int(words[1]))
        told = line.reply[6:-1] if line.reply.startswith('text "') else None
        want(told is not None, "is a text")
        default = words[2][1:-1]
        if catalog.is_simple:
            text = catalog.messages.get(at, default)
            want("\\" in text or told == text, "is " + text)
        else:
            before = self.messages.setdefault((catalog, at), told)
            want(told in (before, default) or before == default, "the same message was " + before)

    def call(self, line, who, step, wish):
        """One call of a line, of which it is the first or the second."""
        if wish[0] == "read_of":
            reply = self.table.step(who, "release" if step else "hold", wish[1])
            if reply[0] == "held":
                want(len(line.places) == 2 and line.version is None, "has two places")
                return self.tells(self.table.holds[who][wish[1]], wish[2], line.reply)
            if reply[0] == "released":
                return None
        else:
            want(wish[0] == "call", "makes no call")
            reply = self.table.step(who, *wish[1:])
        want(len(line.places) == 1, "has one place")
        want(line.reply == self.printed(reply), self.printed(reply))
        made = len(self.table.globals) - 1 if reply[0] == "name" else None
        return want(line.version == made, "the version that it made")

    def held_read(self, line, who, wish):
        """A read of what the thread holds has no place."""
        want(wish[1] in self.table.holds[who] and not line.places and line.version is None, "is held")
        self.tells(self.table.holds[who][wish[1]], wish[2], line.reply)

    def closing(self):
        """What closes the threads, in order: a release of each open hold, and the end."""
        tasks = []
        for who in range(len(self.bundle.threads)):
            tasks += [(who, ("call", "release", h)) for h in self.table.holds[who]]
            tasks.append((who, ("call", "end")))
        return tasks

    def in_order(self, lines, first):
        """The lines stand by rounds, then by threads, and the index counts along a thread."""
        counts = first
        for line, (number, who, _) in zip(lines, self.bundle.commands):
            counts[who] += 1
            named = (number, self.bundle.threads[who], counts[who])
            want_line(line, (line.round, line.thread, line.index) == named, "is line %d %s %d" % named)
        return counts

    def places(self):
        """Each place once; going up along a thread and from round to round."""
        total = sum(len(line.places) for line in self.lines)
        self.at = [None] * total
        before, last, number, most, top = {}, -1, 0, -1, -1
        for line in self.lines:
            if line.round != number:
                number, last = line.round, top
            for step, place in enumerate(line.places):
                want_line(line, place < total and self.at[place] is None, "a place of its own")
                want_line(line, before.get(line.thread, -1) < place and last < place, "a later place")
                before[line.thread] = place
                top = max(top, place)
                self.at[place] = (line, step)
                closes = line.round == self.bundle.rounds + 1
                want_line(line, not closes or most < place, "closing lines go up")
                most = place if closes else most

    def run(self):
        commands = self.bundle.commands
        if not self.bundle.threads:
            return want(not self.lines, "no line")
        want(len(self.lines) >= len(commands), "a line for each command")
        counts = self.in_order(self.lines, [0] * len(self.bundle.threads))
        self.places()
        self.catalog_places()
        queues = [[] for _ in self.bundle.threads]
        for line, (_, who, words) in zip(self.lines, commands):
            queues[who].append((line, words))
        self.replay(queues)
        closing = self.lines[len(commands) :]
        tasks = self.closing()
        want(len(closing) == len(tasks), "%d closing lines" % len(tasks))
        for line, (who, wish) in zip(closing, tasks):
            counts[who] += 1
            named = (self.bundle.rounds + 1, self.bundle.threads[who], counts[who])
            want_line(line, (line.round, line.thread, line.index) == named, "is line %d %s %d" % named)
            want_line(line, line.places == [len(self.sets) - 1], "the next place")
            judged(line, self.call, who, 0, wish)
            self.sets.append(len(self.table.globals) - 1)
        self.versions()
        self.replay_catalogs()
        self.one_order()

    def replay(self, queues):
        """All calls of the commands again, in the order of their places; between them the lines without one."""
        open_wish = {}
        for place, (line, step) in enumerate(self.at):
            if line.round == self.bundle.rounds + 1:
                break
            who = self.bundle.threads.index(line.thread)
            if step == 0:
                self.lines_up_to(queues[who], who, line)
                words = queues[who].pop(0)[1]
                open_wish[who] = judged(line, self.wish, who, words)
                judged(line, self.call, who, 0, open_wish[who])
                self.bind(who, words, line.reply)
                self.steps[who] += steps_of(line, words)
            else:
                judged(line, self.call, who, 1, open_wish[who])
            self.sets.append(len(self.table.globals) - 1)
        for who, queue in enumerate(queues):
            self.lines_up_to(queue, who, None)

    def lines_up_to(self, queue, who, end):
        """The lines of a thread up to its next one with a place."""
        while queue and queue[0][0] is not end:
            line, words = queue.pop(0)
            wish = judged(line, self.wish, who, words)
            judged(line, self.held_read if wish[0] == "read_of" else self.bare, who, wish)
            self.bind(who, words, line.reply)
            self.steps[who].append(Step(line, words, None, line.told))

    def one_order(self):
        """The two histories are parts of one order."""
        found = circle(self.lines)
        told = ", and ".join("(%s) comes after (%s)" % (line.text, before.text) for line, before in found)
        want(not found, told + " -- wanted: one order of all calls")

    def versions(self):
        """The bounds of each version that a line tells without having made it."""
        told_in, ends, behind = {}, {}, {}
        for line in self.lines:
            ends[line.round] = ends.get(line.round, 0) + len(line.places)
        upper = {}
        for line in reversed(self.lines):
            upper[line] = behind.get(line.thread)
            if line.places:
                behind[line.thread] = line.places[0]
        lower, told, earlier, number, start, most = {}, {}, 0, 0, 0, 0
        for line in self.lines:
            if line.round != number:
                number, start, earlier = line.round, sum(ends[r] for r in ends if r < line.round), most
            if line in self.objects:
                version, (who, wish) = line.version, self.objects[line]
                least = max(self.sets[lower.get(line.thread, 0)], self.sets[start], told.get(line.thread, 0), earlier)
                greatest = min(self.sets[upper[line]], self.sets[start + ends[number]])
                want_line(line, least <= version <= greatest, "a version from %d to %d" % (least, greatest))
                parts = self.table.globals[version]
                if wish[0] == "catopen":
                    judged(line, lambda it, *_: self.opens(it, who, wish[1], parts))
                elif wish[0] == "name":
                    want_line(line, line.reply == "name " + name_of(parts, wish[1]), name_of(parts, wish[1]))
                else:
                    judged(line, lambda it, *_: self.tells(parts, wish[1], it.reply))
            if line.version is not None:
                told[line.thread] = max(line.version, told.get(line.thread, 0))
                most = max(most, line.version)
            if line.places:
                lower[line.thread] = line.places[-1] + 1

    def in_order_of_places(self):
        """The steps with their threads in the order of the places; one without a place once its version is made,
        and a call on catalogs behind those of lower places. None where one tells a version that is older than the
        newest one there: a thread may see a version, and then make a call on catalogs behind those of a thread that
        saw a newer one."""
        order, count = [], len(self.steps)
        queues = [list(enumerate(steps)) for steps in self.steps]
        moments, last, following = [(-1, 0)] * count, (-1, 0, 0), 0
        while any(queues):
            for who, queue in enumerate(queues):
                while queue and queue[0][1].line.catalog in (None, following):
                    number, step = queue.pop(0)
                    at, stage = moments[who]
                    if step.place is not None:
                        at, stage = step.place, 0
                    elif step.line.version and self.sets.index(step.line.version) - 1 > at:
                        at, stage = self.sets.index(step.line.version) - 1, 0
                    if step.line.catalog is not None:
                        following += 1
                        at, stage = max((at, stage), last[:2])
                    caller = self.bundle.threads.index(self.at[at][0].thread) if at >= 0 else 0
                    rank = (who - caller) % count
                    if step.line.catalog is not None:
                        stage += (at, stage) == last[:2] and rank < last[2]
                        last = (at, stage, rank)
                    if step.place is None and step.line.version not in (None, self.sets[at + 1]):
                        return None
                    moments[who] = (at, stage)
                    order.append((at, step.place is None, stage, rank, number, who, step))
        return [(who, step) for *_, who, step in sorted(order, key=lambda it: it[:5])]


def steps_of(line, words):
    """The commands that make the calls of a line one by one."""
    if len(line.places) == 1:
        return [Step(line, words, line.places[0], line.told)]
    hold, release = line.places
    return [
        Step(line, ["hold", words[1]], hold, (str(hold), "-", "held")),
        Step(line, words, None, ("-", "-", line.reply)),
        Step(line, ["release", words[1]], release, (str(release), "-", "released")),
    ]


class Serial:
    """The program's `serial`, with the options of the output."""

    def __init__(self, program, rows, generations):
        self.program, self.rows, self.generations = program, rows, generations

    def lines(self, script, rows):
        words = [self.program, "serial", "rows=%d" % rows, "generations=%d" % self.generations]
        done = subprocess.run(words, input="\n".join(script).encode("latin-1"), capture_output=True, check=False)
        want(done.returncode == 0, "serial ended with %d" % done.returncode)
        return [Line(line) for line in done.stdout.decode("latin-1").split("\n")[:-1]]

    def judges(self, check):
        """Compares what was told with what `serial` tells."""
        order = check.in_order_of_places()
        script = script_in_order(check.bundle, order) if order is not None else None
        if script is None:
            return self.judges_anew(check.bundle, check.said)
        lines = self.lines(script, self.rows)
        wanted = [(step.line, step.told) for _, step in order]
        wanted += [(line, line.told) for line in check.lines[len(check.bundle.commands) :]]
        want(len(lines) == len(wanted), "serial prints %d lines for %d" % (len(lines), len(wanted)))
        for line, (printed, told) in zip(lines, wanted):
            want_line(printed, line.told == told, "what serial tells: " + line.text)
        return None

    def judges_anew(self, bundle, said):
        objects = list(said.items())
        for first in range(0, len(objects), MOST_ROWS):
            script, wanted = script_anew(bundle, objects[first : first + MOST_ROWS])
            lines = {line.index: line for line in self.lines(script, MOST_ROWS)}
            for index, (command, reply) in wanted.items():
                by_serial = "%s told %s, and by serial %s" % (command, reply, lines[index].reply)
                want(lines[index].told == ("-", "-", reply), by_serial)


def script_in_order(bundle, order):
    """A script in which the threads make these steps in this order; None where a bundle may not have so many."""
    script = [*bundle.blocks, *(".thread " + name for name in bundle.threads)]
    before, rounds = None, 1
    for who, step in order:
        if before is not None and who < before:
            script.append(".round")
            rounds += 1
        if who != before:
            script.append(".thread " + bundle.threads[who])
        script.append(step.command)
        before = who
    return script if rounds <= MOST_ROUNDS and len(order) <= MOST_COMMANDS else None


def script_anew(bundle, objects):
    """A script that makes objects of the same parts and reads them, and what is wanted of its commands, by number."""
    commands, wanted = [], {}
    for number, (parts, _) in enumerate(objects):
        names = ["%s=%s" % (c, "C" if part.key else part.name) for c, part in zip(CATEGORIES, parts)]
        commands.append('new x%d LC_ALL "%s"' % (number, ";".join(names)))
    for key, source in bundle.later.items():
        commands.append("install " + key)
        for number, (parts, _) in enumerate(objects):
            mask = ",".join(c for c, part in zip(CATEGORIES, parts) if part is source)
            if mask:
                commands.append("new x%d %s %s x%d" % (number, mask, source.name, number))
    for number, (_, reads) in enumerate(objects):
        commands.append("use x%d" % number)
        for command, reply in reads.items():
            commands.append(command)
            wanted[len(commands)] = command, reply
    return [*bundle.blocks, ".thread A", *commands], wanted


def want_line(line, holds, text):
    want(holds, "%s -- wanted: %s" % (line.text, text))


def judged(line, call, *rest):
    try:
        return call(*rest) if call.__name__ == "wish" else call(line, *rest)
    except Wrong as wrong:
        raise Wrong("%s -- wanted: %s" % (line.text, wrong)) from None


def wrong(bundle, output, rows=16, generations=65535, program=None):
    """What is wrong of an output of a bundle; None where it may be printed."""
    try:
        want(output == "" or output.endswith("\n"), "the last line ends")
        lines = [Line(line) for line in output.split("\n")[:-1]]
        check = Check(Bundle(bundle), lines, rows, generations)
        check.run()
        if program and lines:
            Serial(program, rows, generations).judges(check)
    except Wrong as told:
        return str(told)
    return None


def main(bundle, output, *options):
    given = dict(option.split("=") for option in options)
    numbers = {name: int(given[name]) for name in ("rows", "generations") if name in given}
    texts = []
    for path in (bundle, output):
        with open(path, encoding="latin-1", newline="\n") as it:
            texts.append(it.read())
    told = wrong(*texts, **numbers, program=given.get("program"))
    if told:
        print("%s: %s" % (output, told))
    return 1 if told else 0


if __name__ == "__main__":
    sys.exit(main(*sys.argv[1:]))
