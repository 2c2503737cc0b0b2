#!/usr/bin/env python3
"""Prints a bundle whose threads share objects through cells: sharing.py SEED THREADS ROUNDS COMMANDS

Each thread of each round has so many commands. They make, copy, change, free, select, hold and release objects,
post and fetch handles, set the global locale, install later versions of locales, read, and open, read and close
message catalogs.
"""
import random
import sys

LOCALES = """.locale us UTF-8
LC_CTYPE
END LC_CTYPE
LC_NUMERIC
decimal_point "."
thousands_sep ","
grouping 3;3
END LC_NUMERIC
LC_MONETARY
currency_symbol "$"
mon_decimal_point "."
frac_digits 2
p_cs_precedes 1
END LC_MONETARY
LC_TIME
d_fmt "%m/%d/%Y"
END LC_TIME
LC_MESSAGES
END LC_MESSAGES
.end
.locale fr UTF-8
LC_CTYPE
END LC_CTYPE
LC_NUMERIC
decimal_point ","
thousands_sep " "
grouping 3
END LC_NUMERIC
LC_MONETARY
currency_symbol "EUR"
mon_decimal_point ","
frac_digits 2
p_cs_precedes 0
END LC_MONETARY
LC_TIME
d_fmt "%d/%m/%Y"
END LC_TIME
LC_MESSAGES
END LC_MESSAGES
.end
.locale part UTF-8
LC_NUMERIC
decimal_point ":"
END LC_NUMERIC
.end
.catalog greet us
1 Hello
2 Bye
$set 2
1 Second
.end
.catalog greet fr
1 Bonjour
.end
.catalog greet C
1 plain
.end
.later f2 fr UTF-8
LC_CTYPE
END LC_CTYPE
LC_NUMERIC
decimal_point ";"
END LC_NUMERIC
.end
.later p2 part UTF-8
LC_NUMERIC
decimal_point "!"
END LC_NUMERIC
LC_TIME
d_fmt "%Y"
END LC_TIME
.end
.later n1 new UTF-8
LC_NUMERIC
decimal_point "'"
thousands_sep "_"
END LC_NUMERIC
.end
"""


VARIABLES = ["a", "b", "c", "d", "e"]
PLACES = ["us", "fr", "part", "new", "C", "POSIX", '""', "nowhere"]
PLACES += ['"LC_CTYPE=C;LC_NUMERIC=fr;LC_MONETARY=us;LC_TIME=part;LC_MESSAGES=C"']
CATEGORIES = ["LC_CTYPE", "LC_NUMERIC", "LC_MONETARY", "LC_TIME", "LC_MESSAGES", "LC_ALL"]
MASKS = ["LC_ALL", "LC_NUMERIC", "LC_NUMERIC,LC_TIME", "0", "2", "31", "33", *CATEGORIES]
READS = ["info RADIXCHAR", "info THOUSEP", 'money "%n" 1234.5', 'time "%x" 2021-01-03 14:05:06 0 2', "class alpha 97"]
READS += ["upper 97", 'number "%\'d" 1234567', 'parse "%x" "02/03/2021"']


def command_kinds(some, names):
    """The commands of threads of these names, each with its weight and what draws it."""
    def handle():
        return "%s.%d.%d" % (some.choice(names), some.randrange(3), some.randrange(1, 5))

    def named():
        if some.random() < 0.08:
            return "GLOBAL"
        return handle() if some.random() < 0.15 else some.choice(VARIABLES)

    def read_of():
        word, rest = some.choice(READS).split(" ", 1)
        return "%s_l %s %s" % (word, named(), rest)

    def catalog():
        return handle() if some.random() < 0.3 else some.choice(VARIABLES)

    return [
        (24, lambda: "new %s %s %s" % (some.choice(VARIABLES), some.choice(MASKS), some.choice(PLACES))),
        (4, lambda: "new %s %s %s %s" % (some.choice(VARIABLES), some.choice(MASKS), some.choice(PLACES), named())),
        (5, lambda: "dup %s %s" % (some.choice(VARIABLES), named())),
        (5, lambda: "free %s" % named()),
        (8, lambda: "use %s" % named()),
        (2, lambda: "use ?"),
        (8, lambda: "hold %s" % named()),
        (4, lambda: "release %s" % named()),
        (3, lambda: "setlocale %s %s" % (some.choice(CATEGORIES), some.choice(PLACES))),
        (3, lambda: "setlocale %s" % some.choice(CATEGORIES)),
        (2, lambda: "install %s" % some.choice(["f2", "p2", "n1"])),
        (10, lambda: "post %d %s" % (some.randrange(3), named())),
        (20, lambda: "fetch %s %s.%d" % (some.choice(VARIABLES), some.choice(names), some.randrange(3))),
        (4, lambda: "pins %s" % named()),
        (12, lambda: some.choice(READS)),
        (12, read_of),
        (6, lambda: "catopen %s %s" % (some.choice(VARIABLES), some.choice(["greet", "greet", "other"]))),
        (8, lambda: 'catgets %s %d %d "?"' % (catalog(), some.randrange(1, 3), some.randrange(1, 4))),
        (3, lambda: "catclose %s" % catalog()),
    ]


def bundle(seed, threads, rounds, commands):
    """The bundle that a seed draws."""
    some, names = random.Random(seed), ["T%d" % i for i in range(threads)]
    weights, draws = zip(*command_kinds(some, names))
    lines = []
    for number in range(rounds):
        lines += [".round"] * (number > 0)
        for name in names:
            lines.append(".thread " + name)
            lines += [some.choices(draws, weights)[0]() for _ in range(commands)]
    return LOCALES + "".join(line + "\n" for line in lines)


if __name__ == "__main__":
    sys.stdout.write(bundle(*map(int, sys.argv[1:])))
