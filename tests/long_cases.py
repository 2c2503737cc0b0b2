"""Cases that are too long to be kept: at each limit and one past it, from a line or a piece that is repeated."""
from case_files import DONE, REFUSED, TOO_LARGE, Case, counted


def accepted(name, source, **counts):
    return Case(name, source.encode(), (b"check",), DONE, counted(**counts))


def refused(name, source, told, status=REFUSED):
    return Case(name, source.encode(), (b"check",), status, f"refused: {told}\n".encode())


def served(name, source, output):
    return Case(name, source.encode(), (b"serial",), DONE, output.encode())


def text_of(*lines):
    return "".join(f"{line}\n" for line in lines)


def locale(category, *lines, name="a", charset="UTF-8"):
    """A locale of one category."""
    return text_of(f".locale {name} {charset}", category, *lines, f"END {category}", ".end")


def rounds():
    def script(count):
        return ".round\n" * count

    yield accepted("most_rounds", script(63), rounds=64)
    yield refused("one_round_too_many", script(64), "64:1 OverLimit rounds")
    yield refused("wrong_round_at_the_limit", script(63) + ".round x\n", "64:1 BadLine directive")


def commands():
    def script(count, *more):
        return ".thread A\n" + "use ?\n" * count + text_of(*more)

    yield accepted("most_commands", script(20000), threads=1, commands=20000)
    yield refused("one_command_too_many", script(20001), "20002:1 OverLimit commands")
    yield refused("limit_before_a_wrong_command", script(20000, "  frees x"), "20002:3 OverLimit commands")
    yield refused("limit_before_a_wrong_word", script(20000, "use x y"), "20002:1 OverLimit commands")
    yield refused("wrong_word_at_the_limit", script(19999, "use x y"), "20001:7 BadLine argument")


def locales():
    most = "".join(f".locale l{i} UTF-8\n.end\n" for i in range(64))
    later = "".join(f".later k{i} a UTF-8\n.end\n" for i in range(64))
    yield refused("wrong_name_before_the_limit", most + ".locale POSIX UTF-8\n", "129:1 BadLine directive")
    yield refused("limit_before_no_end", most + ".locale a UTF-8\n", "129:1 OverLimit locales")
    yield refused("limit_before_names", most + ".locale l0 UTF-8\n.end\n", "129:1 OverLimit locales")
    yield refused("wrong_later_version_at_the_limit", later + ".later k a\n", "129:1 BadLine directive")


def copies():
    def chain(last):
        middle = (locale("LC_NUMERIC", f'copy "l{i + 1}"', name=f"l{i}") for i in range(63))
        return "".join(middle) + locale("LC_NUMERIC", last, name="l63")

    yield accepted("longest_chain_of_copies", chain('decimal_point ","'), locales=64)
    yield refused("longest_circle_of_copies", chain('copy "l0"'), "3:6 CopyCycle")


def catalogs():
    def bundle(count, *more):
        return "".join(f".catalog greet l{i}\n1 Hello\n.end\n" for i in range(count)) + text_of(*more)

    yield accepted("most_catalogs", bundle(64))
    yield refused("one_catalog_too_many", bundle(65), "193:1 OverLimit catalogs")
    yield refused("wrong_catalog_at_the_limit", bundle(64, ".catalog greet"), "193:1 BadLine directive")
    yield refused("limit_of_catalogs_before_names", bundle(64, ".catalog greet l0"), "193:1 OverLimit catalogs")


def messages():
    def catalog(lines):
        return f".catalog greet us\n{lines}.end\n"

    yield accepted("most_messages", catalog("1 Hello\n" * 4096))
    yield refused("one_message_too_many", catalog("1 Hello\n" * 4097), "4098:1 OverLimit messages")
    yield accepted("longest_message", catalog("1 " + "a" * 4096 + "\n"))
    yield refused("message_too_long", catalog("1 " + "a" * 4097 + "\n"), "2:1 OverLimit message")


def names():
    def charmap(*more):
        return text_of(".charmap m", "CHARMAP", r"<j00000>...<j65535> \x80\x00\x00", *more, "END CHARMAP", ".end")

    asked = {8388607: "no", 8388608: "yes", 8421376: "yes", 8454143: "yes", 8454144: "no"}
    each = "upper " + ";".join(f"<j{i:05}>" for i in range(65536))
    script = text_of(".thread A", "setlocale LC_CTYPE a", *(f"class upper {it}" for it in asked))
    replies = [f"1 A {number} - g1 {it}" for number, it in enumerate(asked.values(), 2)]
    yield accepted("most_names", charmap(), charmaps=1)
    yield refused("one_name_too_many", charmap(r"<qq> \x80"), "4:1 OverLimit names")
    yield served(
        "each_of_most_names",
        locale("LC_CTYPE", each, charset="m") + charmap() + script,
        text_of("1 A 1 0 g1 name a", *replies, "2 A 7 1 - ended"),
    )


def operands():
    def line(text):
        return text_of(".locale a UTF-8", text, ".end")

    grouping, weeks, letters = "grouping 3" + ";3" * 65536, "week 7" + ";7" * 65536, "uper A" + ";A" * 65537
    yield refused("one_operand_too_many", locale("LC_NUMERIC", grouping), "3:131082 OverLimit operands")
    yield accepted("operands_that_are_passed_over", locale("LC_TIME", weeks), locales=1)
    yield refused("operands_before_their_keyword", locale("LC_CTYPE", letters), "3:131078 OverLimit operands")
    most = "k " + "a;" * 65536
    yield refused("escape_in_the_place_of_an_operand", line(most + r"\4"), "2:131075 BadEscape")
    yield refused("escape_in_one_operand_too_many", line(most + r"a\4"), "2:131075 OverLimit operands")


def inputs():
    """A comment of as many bytes as an input may have, and of one more."""
    yield accepted("largest_input", "#" + "x" * (16777216 - 2) + "\n")
    yield refused("one_byte_too_many", "#" + "x" * (16777217 - 2) + "\n", "too large", TOO_LARGE)


ONES, BLANKS, LETTERS = " 1" * 64, " " * 1023, "a" * 1024


def reads():
    """One command of a thread, which reads the global locale."""

    def read(name, command, reply):
        return served(name, f".thread A\n{command}\n", f"1 A 1 - g0 {reply}\n2 A 2 0 - ended\n")

    yield read("most_numbers", f'number "{"%d" * 64}"{ONES}', f'text "{"1" * 64}"')
    longest = "%255d." * 16
    yield read("longest_text_of_numbers", f'number max=4096 "{longest}"{ONES}', f'text "{(" " * 254 + "1.") * 16}"')
    yield read("text_of_numbers_too_long", f'number max=4096 "{longest}."{ONES}', "refused TooBig")
    parsed = "parsed - - 7 - - - - - 1024"
    yield read("longest_scanned_text", f'parse "%n%d" "{BLANKS}7"', parsed)
    yield read("longest_scanned_text_in_escapes", f'parse "%n%d" "{BLANKS.replace(" ", chr(92) + "x20")}7"', parsed)
    same = "parsed - - - - - - - - 1024"
    yield read("longest_format_of_a_scanned_text", f'parse "{LETTERS}" "{LETTERS}"', same)


def refused_reads():
    rows = [
        ("one_number_too_many", f'number "%d"{ONES} 1', "141 OverLimit numbers"),
        ("wrong_number_at_the_limit", f'number "%d"{ONES} x', "141 BadLine argument"),
        ("one_number_too_many_of_a_handle", f'number_l x "%d"{ONES} 1 x', "145 OverLimit numbers"),
        ("format_of_numbers_too_long", f'number "a{LETTERS}" x', "8 OverLimit format"),
        ("scanned_text_too_long", f'parse "%n%d" "{BLANKS} 7"', "14 OverLimit text"),
        ("scanned_text_too_long_before_a_word", f'parse_l x "%n%d" "{BLANKS} 7" x', "18 OverLimit text"),
        ("default_too_long", f'catgets c 1 1 "a{LETTERS}"', "15 OverLimit text"),
        ("default_too_long_before_a_word", f'catgets A.0.1 1 1 "a{LETTERS}" x', "19 OverLimit text"),
        ("format_of_a_scanned_text_too_long", f'parse "a{LETTERS}" 7', "7 OverLimit format"),
    ]
    for name, command, told in rows:
        yield refused(name, f".thread A\n{command}\n", f"2:{told}")


def defaults():
    script = [".catalog greet C", ".end", ".thread A", "catopen c greet", f'catgets c 1 1 "{LETTERS}"']
    replies = ["1 A 1 c0 g0 opened A.0.1", f'1 A 2 c1 - text "{LETTERS}"', "2 A 3 0 - ended"]
    yield served("longest_default", text_of(*script), text_of(*replies))


def formats_of_formats():
    """Formats of a locale that stand for formats: 4096 items for each of 16 conversions."""
    formats = [f'd_t_fmt "{"%X" * 16}"', f't_fmt "{"%r" * 16}"', f't_fmt_ampm "{"%n" * 16}"']
    script = text_of(".thread A", "setlocale LC_TIME a", f'parse "{"%c" * 16}" "{BLANKS}7"')
    replies = ["1 A 1 0 g1 name a", "1 A 2 - g1 parsed - - - - - - - - 1023", "2 A 3 1 - ended"]
    yield served("scanned_formats_that_multiply", locale("LC_TIME", *formats) + script, text_of(*replies))


def alternative_digits():
    def digits(count, text):
        return locale("LC_TIME", "alt_digits " + ";".join([f'"{text}"'] * count))

    yield accepted("most_digits", digits(100, ""), locales=1)
    yield refused("one_digit_too_many", digits(101, ""), "3:312 TooManyDigits")
    yield refused("digits_too_long", digits(100, "1234567890" * 4), "3:4269 OverLimit list")


def lists_of_texts():
    """Sixteen texts of LC_TIME of 4096 bytes together with the `;` between them, or with one byte more, which the
    last text passes."""

    def texts(keyword, front, longer):
        sizes = [256] * longer + [255] * (16 - longer)
        return locale("LC_TIME", f"{keyword} " + ";".join(f'"{front.ljust(size, "x")}"' for size in sizes))

    for keyword, what, front, place in (("alt_digits", "digits", "", 3884), ("era", "eras", "+:1:1/1/1:+*:e:", 3877)):
        yield accepted(f"longest_{what}", texts(keyword, front, 1), locales=1)
        yield refused(f"longest_{what}_and_a_byte", texts(keyword, front, 2), f"3:{place} OverLimit list")


def formats():
    """Formats of 1024 bytes, 64 amounts, and a text of 4096 bytes and of one byte more."""
    x, amount = "x" * 1024, "7.00".rjust(255)
    rows = [
        (f'money "{x}"', f'text "{x}"'),
        (f'time "{x}" 2021-01-03 0:0:0 0 2', f'text "{x}"'),
        (f'money "{"%!.0n" * 64}"{" 7" * 64}', f'text "{"7" * 64}"'),
        (f'money max=4096 "{"%255n" * 16}{"x" * 16}"{" 7" * 16}', f'text "{amount * 16}{"x" * 16}"'),
        (f'money max=4096 "{"%255n" * 16}{"x" * 17}"{" 7" * 16}', "refused TooBig"),
        ('money "%#255n" 7', f'text "{" " * 255}7.00"'),
        ('money "%.255n" 7', f'text "7.{"0" * 255}"'),
    ]
    replies = [f"1 A {number} - g0 {reply}" for number, (_, reply) in enumerate(rows, 1)]
    script = text_of(".thread A", *(command for command, _ in rows))
    yield served("longest_formats", script, text_of(*replies, "2 A 8 0 - ended"))


def repeated_range():
    """A range that a class lists a thousand times."""
    asked = {96: "no", 97: "yes", 122: "yes", 123: "no"}
    script = text_of(".thread A", "setlocale LC_CTYPE a", *(f"class alpha {it}" for it in asked))
    replies = [f"1 A {number} - g1 {it}" for number, it in enumerate(asked.values(), 2)]
    output = text_of("1 A 1 0 g1 name a", *replies, "2 A 6 1 - ended")
    yield served("range_a_thousand_times", locale("LC_CTYPE", "alpha " + ";".join(["a;...;z"] * 1000)) + script, output)


class LongScript:
    """20000 commands of 16 threads in 64 rounds. Each thread makes, shares, holds, frees and reads objects, sets the
    global locale, and leaves nothing behind, so that each line is known."""

    ROUNDS, THREADS, MOST = 64, 16, 20000

    def __init__(self):
        self.script, self.output, self.place, self.counts = [], [], 0, [0] * self.THREADS
        for round_number in range(1, self.ROUNDS + 1):
            self.script += [".round"] * (round_number > 1)
            for thread in range(self.THREADS):
                self.script.append(f".thread T{thread}")
                self.add_commands(round_number, thread)
        for thread in range(self.THREADS):
            self.add(self.ROUNDS + 1, thread, None, 1, "-", "ended")

    def add(self, round_number, thread, command, places, version, reply):
        """Adds a command that takes so many places, and its line."""
        self.script += [command] if command else []
        self.counts[thread] += 1
        taken = ",".join(str(self.place + i) for i in range(places)) or "-"
        self.place += places
        self.output.append(f"{round_number} T{thread} {self.counts[thread]} {taken} {version} {reply}")

    def add_commands(self, round_number, thread):
        version = (round_number - 1) * self.THREADS + thread + 1
        made, copied = f"T{thread}.0.{2 * round_number - 1}", f"T{thread}.0.{2 * round_number}"
        for row in commands_of_a_round(thread, made, copied, f"g{version}"):
            self.add(round_number, thread, *row)
        without = self.ROUNDS * self.THREADS * 19
        if version <= self.MOST - without:
            self.add(round_number, thread, "use ?", 0, "-", "is GLOBAL")


def commands_of_a_round(thread, made, copied, version):
    """Commands, each with how many places it takes, the version of the global locale that it prints, and its reply."""
    return [
        ("new x LC_NUMERIC a", 1, "-", f"handle {made}"),
        ("use x", 1, "-", "was GLOBAL"),
        ("info RADIXCHAR", 0, "-", 'text ","'),
        ("hold x", 1, "-", "held"),
        ("post 0 x", 1, "-", "posted"),
        ("free x", 1, "-", "freed"),
        ("upper_l x 97", 0, "-", "value 65"),
        ("use GLOBAL", 1, "-", f"was {made}"),
        ("pins x", 1, "-", "pins 1"),
        ("release x", 1, "-", "released"),
        ('money_l x "%n" 1', 1, "-", "refused Stale"),
        (f"fetch y T{thread}.0", 1, "-", f"handle {made}"),
        ("setlocale LC_NUMERIC a", 1, version, "name a"),
        ("info RADIXCHAR", 0, version, 'text ","'),
        ('money "%n" 1', 0, version, 'text "1.00"'),
        ('time "%F" 2021-01-03 0:0:0 0 2', 0, version, 'text "2021-01-03"'),
        ("dup z GLOBAL", 1, "-", f"handle {copied}"),
        ("class_l z alpha 97", 2, "-", "yes"),
        (f"free {copied}", 1, "-", "freed"),
    ]


def long_script():
    made = LongScript()
    source = locale("LC_NUMERIC", 'decimal_point ","') + text_of(*made.script)
    yield accepted("long_script_counted", source, locales=1, threads=16, rounds=64, commands=20000)
    yield served("long_script", source, text_of(*made.output))


PARTS = [rounds, commands, locales, copies, catalogs, messages, names, operands, inputs, reads, refused_reads]
PARTS += [defaults, formats_of_formats, alternative_digits, lists_of_texts, formats, repeated_range, long_script]


def cases():
    return [case for part in PARTS for case in part()]
