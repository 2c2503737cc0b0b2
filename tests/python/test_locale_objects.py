"""Tests of the package over the built library: `tests/python/run` says where it is."""

import copy
import ctypes.util
import datetime
import gc
import locale as system
import multiprocessing
import pickle
import os
import resource
import signal
import struct
import subprocess
import sys
import tempfile
import threading
import time
import unittest
from decimal import Decimal

import locale_objects
from locale_objects import (
    AmountError, FormatError, Library, LibraryMissingError, LocaleError, NumberError, SourceError, SystemSourceError, TextError,
    TimeError, UnknownLocaleError, UnknownNameError, __version__, _native, _quick,
)

US = """LC_CTYPE
END LC_CTYPE
LC_NUMERIC
decimal_point "."
thousands_sep ","
grouping 3;3
END LC_NUMERIC
LC_MONETARY
int_curr_symbol "USD "
currency_symbol "$"
mon_decimal_point "."
mon_thousands_sep ","
mon_grouping 3;3
positive_sign ""
negative_sign "-"
int_frac_digits 2
frac_digits 2
p_cs_precedes 1
p_sep_by_space 0
n_cs_precedes 1
n_sep_by_space 0
p_sign_posn 1
n_sign_posn 1
END LC_MONETARY
LC_TIME
d_t_fmt "%a %d %b %Y %r"
d_fmt "%m/%d/%Y"
t_fmt "%r"
END LC_TIME
LC_MESSAGES
END LC_MESSAGES
"""

DE = """LC_CTYPE
END LC_CTYPE
LC_NUMERIC
decimal_point ","
thousands_sep "."
grouping 3;3
END LC_NUMERIC
LC_MONETARY
int_curr_symbol "EUR "
currency_symbol "<U20AC>"
mon_decimal_point ","
mon_thousands_sep "."
mon_grouping 3;3
negative_sign "-"
int_frac_digits 2
frac_digits 2
p_cs_precedes 0
p_sep_by_space 1
n_cs_precedes 0
n_sep_by_space 1
p_sign_posn 1
n_sign_posn 1
END LC_MONETARY
LC_TIME
abday "So";"Mo";"Di";"Mi";"Do";"Fr";"Sa"
day "Sonntag";"Montag";"Dienstag";"Mittwoch";"Donnerstag";"Freitag";"Samstag"
mon "Januar";"Februar";"M<U00E4>rz";"April";"Mai";"Juni";"Juli";"August";"September";"Oktober";"November";"Dezember"
d_t_fmt "%a %d. %B %Y %T"
d_fmt "%d.%m.%Y"
t_fmt "%T"
am_pm "";""
t_fmt_ampm ""
END LC_TIME
LC_MESSAGES
yesexpr "^[jJyY]"
END LC_MESSAGES
"""

MOMENT = datetime.datetime(2026, 7, 14, 9, 5, 0)

MANY = 20_000 if os.environ.get("LOCALE_OBJECTS_TESTS") == "short" else 1_000_000
"""How many calls show that memory is flat."""


def made() -> Library:
    return Library.from_texts({"us": US, "de": DE})


class Texts(unittest.TestCase):
    """Amounts, times, numbers and items, by the rules of the sources above."""

    def setUp(self):
        self.library = made()
        self.us, self.de = self.library.locale("us"), self.library.locale("de")

    def test_amounts(self):
        rows = [
            (self.us, "%n", Decimal("1234567.89"), "$1,234,567.89"),
            (self.us, "%i", Decimal("-0.5"), "-USD 0.50"),
            (self.us, "%n", 3, "$3.00"),
            (self.us, "%.0n", Decimal("2.5"), "$2"),
            (self.us, "%.0n", Decimal("3.5"), "$4"),
            (self.us, "%(n", Decimal("-1.25"), "($1.25)"),
            (self.de, "%n", Decimal("1234567.89"), "1.234.567,89 €"),
            (self.de, "%n", Decimal("-0.5"), "-0,50 €"),
            (self.de, "%!n", Decimal("1E+3"), "1.000,00"),
            (self.us, "%n", Decimal("0.1") + Decimal("0.2"), "$0.30"),
            (self.us, "%.18n", Decimal("0.000000000000000001"), "$0.000000000000000001"),
            (self.us, "%n", Decimal("1.5000000000000000000000"), "$1.50"),
            (self.us, "%n", Decimal("-0.00"), "$0.00"),
        ]
        for by, format, amount, text in rows:
            with self.subTest(format=format, amount=amount):
                self.assertEqual(by.money(amount, format=format), text)
        self.assertEqual(self.us.money(1, Decimal("2.5"), format="%n and %n"), "$1.00 and $2.50")

    def test_times(self):
        rows = [
            (self.us, "%c", "Tue 14 Jul 2026 09:05:00 AM"),
            (self.de, "%c", "Di 14. Juli 2026 09:05:00"),
            (self.de, "%A, %d. %B %Y", "Dienstag, 14. Juli 2026"),
            (self.us, "%F %T %j %u %V", "2026-07-14 09:05:00 195 2 29"),
            (self.us, "%z%Z", ""),
        ]
        for by, format, text in rows:
            with self.subTest(format=format):
                self.assertEqual(by.time(MOMENT, format), text)
                self.assertEqual(by.time(MOMENT.timetuple(), format), text)
        zone = datetime.timezone(datetime.timedelta(hours=-3, minutes=-30), "NST")
        self.assertEqual(self.us.time(MOMENT.replace(tzinfo=zone), "%H:%M %z %Z"), "09:05 -0330 NST")
        self.assertEqual(self.us.time(datetime.date(2024, 2, 29), "%F %j"), "2024-02-29 060")

    def test_numbers(self):
        self.assertEqual(self.us.number(1234567), "1,234,567")
        self.assertEqual(self.de.number(-1234567), "-1.234.567")
        self.assertEqual(self.us.number(7, 8, format="%03d/%+d"), "007/+8")

    def test_long_texts(self):
        self.assertEqual(self.us.money(1, format="%255n"), " " * 250 + "$1.00")
        for _ in range(3):
            self.assertEqual(self.us.money(1, 2, format="%250n%250n"), " " * 245 + "$1.00" + " " * 245 + "$2.00")
            self.assertEqual(self.us.money(1, format="x" * 300 + "%n"), "x" * 300 + "$1.00")
            self.assertEqual(self.us.time(MOMENT, "%A" * 40), "Tuesday" * 40)
            self.assertEqual(self.us.time(MOMENT, "ä" * 4000 + "%d"), "ä" * 4000 + "14")
            self.assertEqual(self.us.number(7, format="%255d!"), " " * 254 + "7!")
            self.assertEqual(self.us.number(7, format="%255d%%" + "\0"), " " * 254 + "7%\0")
            self.assertEqual(self.us.time(MOMENT, "\0%d\0"), "\x0014\0")
            self.assertEqual(self.us.time(MOMENT, "\udcff%d"), "\udcff14")
            self.assertEqual(self.us.time(MOMENT, ""), "")

    def test_many_formats(self):
        """Formats are kept, and not without end."""
        for number in range(3000):
            self.assertEqual(self.us.number(number, format=f"{number} %d"), f"{number} {number}")
            self.assertEqual(self.us.time(MOMENT, f"%d {number}"), f"14 {number}")
        self.assertLess(len(_quick.FORMS), 1000)
        self.assertLess(sum(len(it) for it in _quick.FORMS), 100_000)

    def test_days(self):
        """The days of the week and of the year are those of `datetime`."""

        class Own(datetime.datetime):
            pass

        self.assertEqual(struct.calcsize("@8i?i"), ctypes.sizeof(_native.TmValue))
        for year in (1, 1900, 2000, 2023, 2024, 9999):
            for number in range(366 if year in (2000, 2024) else 365):
                day = datetime.date(year, 1, 1) + datetime.timedelta(days=number)
                wanted = f"{day.month} {day.day} {number + 1:03} {day.isoweekday()}"
                self.assertEqual(day.year, year)
                for when in (day, datetime.datetime(*day.timetuple()[:3], 23, 59, 59), Own(*day.timetuple()[:3])):
                    told = self.us.time(when, "%m %d %j %u").split()
                    self.assertEqual(" ".join([str(int(told[0])), str(int(told[1])), *told[2:]]), wanted)

    def test_read_numbers(self):
        for by in (self.us, self.de, self.library.locale()):
            for number in (0, 7, -7, 999, 1000, -1000, 1234567, 2**63 - 1, -(2**63)):
                self.assertEqual(by.read_number(by.number(number)), number)
        self.assertEqual(self.us.read_number("1,234,567"), 1234567)
        self.assertEqual(self.de.read_number("-1.234.567"), -1234567)
        for wrong in ("", "1.234.567", "1234567", "-0", "01", " 1", "1 ", "+1", "1,23", "9,223,372,036,854,775,808", "x", "\ud800"):
            with self.subTest(text=wrong), self.assertRaises(NumberError):
                self.us.read_number(wrong)

    def test_items(self):
        self.assertEqual(self.de.item("DAY_2"), "Montag")
        self.assertEqual(self.de.item("CODESET"), "UTF-8")
        self.assertEqual(self.de.item("CRNCYSTR"), "+€")
        conv = self.de.conv()
        self.assertEqual((conv["decimal_point"], conv["grouping"], conv["frac_digits"]), (",", [3, 3], 2))
        self.assertEqual(set(conv) - set(system.localeconv()), {
            it for it in conv if it.startswith("int_") and it not in system.localeconv()
        })

    def test_classes(self):
        self.assertTrue(self.de.is_class("q", "alpha"))
        self.assertFalse(self.de.is_class("7", "alpha"))
        self.assertEqual(self.de.upper("straße 7"), "STRAßE 7")
        self.assertEqual(self.de.lower("ABC"), "abc")

    def test_cases(self):
        posix = Library.from_texts({"us": US}, charsets={"us": "POSIX"}).locale("us")
        for text in ("", "abc", "straße", "a" * 5000, "a\0b", "\U0001F600x", "a\ud800\udcffb"):
            wanted = "".join(it.upper() if it in "abcdefghijklmnopqrstuvwxyz" else it for it in text)
            with self.subTest(text=text):
                self.assertEqual(self.de.upper(text), wanted)
                lower = "".join(it.lower() if it in "ABCDEFGHIJKLMNOPQRSTUVWXYZ" else it for it in wanted)
                self.assertEqual(self.de.lower(wanted), lower)
        self.assertEqual((posix.upper("ab1"), posix.lower("AB1")), ("AB1", "ab1"))
        wide = Library.from_texts({
            "xx": "LC_CTYPE\nupper <U20AC>;<U00C9>\nlower <U00E9>\ntoupper (<U0061>,<U20AC>);(<U00E9>,<U00C9>)\nEND LC_CTYPE\n"
        })
        self.assertEqual(wide.locale(ctype="xx").upper("aé" * 300), "€É" * 300)

    def test_parsed(self):
        told = self.de.parse_time("14. Juli 2026, 9 Uhr", "%d. %B %Y")
        self.assertEqual((told.year, told.month, told.day, told.hour), (2026, 7, 14, None))
        self.assertEqual(told.end, len("14. Juli 2026"))
        self.assertEqual(told.date(), datetime.date(2026, 7, 14))
        march = self.de.parse_time("März 2026 x", "%B %Y")
        self.assertEqual((march.month, march.end), (3, len("März 2026")))


class Values(unittest.TestCase):
    """Locales are values."""

    def test_equal(self):
        library = made()
        self.assertEqual(library.locale("us"), library.locale("us"))
        self.assertNotEqual(library.locale("us"), library.locale("de"))
        self.assertNotEqual(library.locale("us"), made().locale("us"))
        self.assertEqual(len({library.locale("us"), library.locale("us"), library.locale("de")}), 2)

    def test_parts(self):
        library = made()
        mixed = library.locale("us", monetary="de")
        self.assertEqual(mixed.money(1), "1,00 €")
        self.assertEqual(mixed.number(1000), "1,000")
        self.assertEqual(library.locale(base=mixed, numeric="de").number(1000), "1.000")
        self.assertEqual(library.locale().number(1000), "1000")

    def test_names(self):
        library = made()
        mixed = library.locale("us", monetary="de")
        self.assertEqual((library.locale("us").name(), library.locale().name()), ("us", "C"))
        self.assertEqual((mixed.name("monetary"), mixed.name("time")), ("de", "us"))
        self.assertEqual(library.locale(mixed.name()), mixed)
        self.assertIn("<Locale us of", repr(library.locale("us")))
        with self.assertRaises(UnknownNameError):
            mixed.name("collate")

    def test_catalogs(self):
        library = Library.from_texts(
            {"us": US, "de": DE},
            catalogs={
                ("greetings", "us"): "$set 1\n1 Hello\n2 Good bye\n$set 255\n32767 Last\n",
                ("greetings", "de"): "$set 1\n1 Grüß Gott\n",
                ("greetings", "C"): "$set 1\n1 hello\n",
            },
        )
        us, de = (library.locale(it).catalog("greetings") for it in ("us", "de"))
        self.assertEqual((us.get(1, 1), us.get(1, 2), us.get(255, 32767)), ("Hello", "Good bye", "Last"))
        self.assertEqual((de.get(1, 1), de.get(1, 2), de.get(1, 2, "?")), ("Grüß Gott", None, "?"))
        self.assertEqual(library.locale("de", messages="us").catalog("greetings").get(1, 1), "Hello")
        self.assertEqual(library.locale().catalog("greetings").get(1, 1), "hello")
        for set, number in ((0, 0), (256, 1), (1, 1 << 40), (-1, 1)):
            self.assertEqual(us.get(set, number, "none"), "none")
        with self.assertRaises(UnknownNameError):
            library.locale("de").catalog("farewells")
        with self.assertRaises(TypeError):
            us.get("1", 1)

    def test_joined(self):
        first = Library.from_texts({"us": US, "shop": DE}, catalogs={("greetings", "us"): "1 Hello\n"})
        second = Library.from_texts({"de": DE, "shop": US})
        kept = first.locale("us")
        both = first.joined(second)
        self.assertEqual(both.names, ("us", "shop", "de"))
        self.assertEqual([both.locale(it).money(1) for it in both.names], ["$1.00", "$1.00", "1,00 €"])
        self.assertEqual(both.locale("us").catalog("greetings").get(1, 1), "Hello")
        self.assertEqual(first.locale("shop").money(1), "1,00 €")
        with self.assertRaises(UnknownLocaleError):
            first.locale("de")
        del first, second
        gc.collect()
        self.assertEqual((kept.money(1), both.locale("de").money(1)), ("$1.00", "1,00 €"))

    def test_many_locales(self):
        library = Library.from_texts({f"x{n}": US for n in range(300)})
        self.assertEqual(library.locale("x299").money(1), "$1.00")

    def test_library_outlives(self):
        kept = made().locale("us")
        gc.collect()
        self.assertEqual(kept.money(1), "$1.00")


class Faults(unittest.TestCase):
    """Each fault once, by its own class and place."""

    def setUp(self):
        self.library = made()
        self.us = self.library.locale("us")

    def test_source(self):
        with self.assertRaises(SourceError) as met:
            Library.from_texts({"us": US, "xx": "LC_NUMERIC\ngrouping 3\ndecimal_point \"\"\nEND LC_NUMERIC\n"})
        fault = met.exception
        self.assertEqual((fault.file, fault.line, fault.column, fault.reason), ("xx", 3, 15, "EmptyRadix"))
        again = pickle.loads(pickle.dumps(fault))
        self.assertEqual((again.file, again.line), ("xx", 3))

    def test_unknown(self):
        with self.assertRaises(UnknownLocaleError):
            self.library.locale("fr")
        with self.assertRaises(UnknownNameError):
            self.us.item("D_D_FMT")
        with self.assertRaises(UnknownNameError):
            self.us.is_class("q", "vowel")
        with self.assertRaises(TypeError):
            self.library.locale("us", collate="de")

    def test_formats(self):
        with self.assertRaises(FormatError) as met:
            self.us.money(1, format="äö %n %q")
        self.assertEqual(met.exception.at, 6)
        with self.assertRaises(FormatError):
            self.us.money(format="%n")
        with self.assertRaises(FormatError):
            self.us.time(MOMENT, "%Q")
        with self.assertRaises(TimeError):
            self.us.parse_time("x", "%d")

    def test_amounts(self):
        with self.assertRaisesRegex(TypeError, "a float holds most decimal fractions only nearly"):
            self.us.money(0.1)
        many = "1" * 100_000
        for wrong in (
            "NaN", "sNaN", "-Infinity", "Infinity", "1E+30", "1E-19", "9223372036854775808", "-9223372036854775809", "1E+999999999999999",
            "0.1234567890123456789", "1E-999999999999999", many, f"0.{many}",
        ):
            with self.subTest(amount=wrong[:30]), self.assertRaises(AmountError):
                self.us.money(Decimal(wrong))
        for wrong in (2**63, -(2**63) - 1, 10**5000):
            with self.assertRaises(AmountError):
                self.us.money(wrong)
        rows = [
            ("9223372036854775807", "$9,223,372,036,854,775,807.00"), ("-9223372036854775808", "-$9,223,372,036,854,775,808.00"),
            ("1.5" + "0" * 50_000, "$1.50"), ("0E+50", "$0.00"), ("0E-50", "$0.00"), ("12E+2", "$1,200.00"),
            ("1.2345E+2", "$123.45"), ("92233720368547758.07", "$92,233,720,368,547,758.07"),
        ]
        for amount, text in rows:
            self.assertEqual(self.us.money(Decimal(amount)), text)
        with self.assertRaises(TypeError):
            self.us.money("1")
        for wrong in (2**63, -(2**63) - 1, 10**5000):
            with self.assertRaises(NumberError):
                self.us.number(wrong)
        for wrong in (True, 1.0, "1", None):
            with self.assertRaises(TypeError):
                self.us.number(wrong)

    def test_times(self):
        fields = list(MOMENT.timetuple())
        for at, wrong in ((0, 10000), (0, 2**32 + 2026), (1, 13), (2, 0), (3, 24), (5, 61), (7, 367), (7, -(2**40))):
            with self.subTest(field=at), self.assertRaises(TimeError):
                self.us.time(time.struct_time((*fields[:at], wrong, *fields[at + 1:])))
        for wrong in (0, "2026", None, datetime.time(1)):
            with self.assertRaises(TypeError):
                self.us.time(wrong)
        with self.assertRaises(TypeError):
            self.us.time(time.struct_time((*fields[:3], "9", *fields[4:])))

    def test_types(self):
        for call in (
            lambda: self.us.money(1, format=b"%n"), lambda: self.us.time(MOMENT, 5), lambda: self.us.number(1, format=None),
            lambda: self.us.read_number(b"1"), lambda: self.us.parse_time(b"1", "%d"), lambda: self.library.locale(5),
            lambda: Library.from_texts({"us": 5}), lambda: Library.from_texts({5: US}), lambda: Library([US]), lambda: Library(5),
            lambda: self.library.locale("us", base=5), lambda: self.library.joined("us"), lambda: self.us.item(5),
            lambda: self.us.name(5), lambda: self.us.is_class("a", 5), lambda: self.us.is_class(5, "alpha"), lambda: self.us.upper(5),
            lambda: self.us.lower(b"A"), lambda: self.us.catalog(5), lambda: self.us.money([1]), lambda: self.us.time("now"),
        ):
            with self.assertRaises(TypeError):
                call()

    def test_lone_surrogates(self):
        """Each text with a character that is none has the fault of what it was to be."""
        wrong = "a\ud800b"
        for kind, call in (
            (UnknownLocaleError, lambda: self.library.locale(wrong)), (UnknownNameError, lambda: self.us.item(wrong)),
            (UnknownNameError, lambda: self.us.is_class("a", wrong)), (UnknownNameError, lambda: self.us.catalog(wrong)),
            (FormatError, lambda: self.us.money(1, format=wrong)), (FormatError, lambda: self.us.number(1, format=wrong)),
            (FormatError, lambda: self.us.time(MOMENT, wrong)), (FormatError, lambda: self.us.parse_time("1", wrong)),
            (TextError, lambda: self.us.parse_time(wrong, "%d")), (NumberError, lambda: self.us.read_number(wrong)),
            (SourceError, lambda: Library.from_texts({"us": "LC_TIME\n" + wrong})), (SourceError, lambda: Library.from_texts({wrong: US})),
            (TimeError, lambda: self.us.time(MOMENT.replace(tzinfo=datetime.timezone(datetime.timedelta(0), wrong)))),
            (TextError, lambda: self.us.is_class("ab", "alpha")), (TextError, lambda: self.us.is_class("", "alpha")),
        ):
            with self.subTest(kind=kind), self.assertRaises(kind) as met:
                call()
            self.assertIsInstance(met.exception, LocaleError)
        with self.assertRaises(FormatError) as met:
            self.us.time(MOMENT, wrong)
        self.assertEqual(met.exception.at, 1)
        with self.assertRaises(SourceError) as met:
            Library.from_texts({"us": "LC_TIME\nä" + wrong})
        self.assertEqual((met.exception.line, met.exception.column), (2, 4))
        self.assertEqual(self.us.upper(wrong), "A\ud800B")

    def test_dates_that_are_none(self):
        for text, format in (
            ("366 2026", "%j %Y"), ("30 2 2026", "%d %m %Y"), ("29 2 2026", "%d %m %Y"), ("1 1 0000", "%d %m %Y"), ("14", "%d"),
            ("2026", "%Y"),
        ):
            with self.subTest(text=text), self.assertRaises(TimeError):
                self.us.parse_time(text, format).date()
        self.assertEqual(self.us.parse_time("366 2024", "%j %Y").date(), datetime.date(2024, 12, 31))
        with self.assertRaises(TimeError):
            self.us.time(time.struct_time(MOMENT.timetuple(), {"tm_zone": "X", "tm_gmtoff": float("inf")}))

    def test_of_others(self):
        with self.assertRaises(UnknownLocaleError):
            self.library.locale("us", base=made().locale("us"))
        many = Library.from_texts({f"x{n}": "" for n in range(2500)})
        with self.assertRaises(SourceError) as met:
            many.joined(many)
        self.assertEqual(met.exception.reason, "TooMany")

    def test_tools(self):
        with tempfile.TemporaryDirectory() as folder:
            for tool in (os.path.join(folder, "none"), folder):
                with self.subTest(tool=tool), self.assertRaises(LibraryMissingError):
                    Library.from_system("de_DE", tool=tool)
        with self.assertRaises(SystemSourceError):
            Library.from_system("de_DE", tool="false")

    def test_former_names(self):
        for former, name in (
            ("SourceFault", "SourceError"), ("UnknownLocale", "UnknownLocaleError"), ("FormatFault", "FormatError"),
            ("AmountFault", "AmountError"), ("NumberFault", "NumberError"), ("TimeFault", "TimeError"),
            ("UnknownName", "UnknownNameError"), ("ImportFault", "SystemSourceError"), ("LibraryMissing", "LibraryMissingError"),
        ):
            self.assertIs(getattr(locale_objects, former), getattr(locale_objects, name))

    def test_version(self):
        class Other:
            lobj_version = staticmethod(lambda: 0)

        major = int(__version__.split(".")[0])
        for number in (100 * major + 99, 100 * major):
            Other.lobj_version = lambda number=number: number
            _native._check_version(Other, "other.so")
        Other.lobj_version = lambda: 100 * major + 203
        with self.assertRaisesRegex(LibraryMissingError, f"other.so is version {major + 2}.3 of the library"):
            _native._check_version(Other, "other.so")
        libc = ctypes.util.find_library("c") or "libc.so.6"
        program = "from locale_objects import LibraryMissingError\ntry:\n    from locale_objects import Library\nexcept ImportError as fault:\n"
        program += "    assert isinstance(fault, LibraryMissingError)\n    print(fault)\n"
        for path, told in ((libc, "does not tell its version"), ("/nowhere/at_all.so", "cannot be loaded")):
            ran = subprocess.run(
                [sys.executable, "-c", program], env={**os.environ, "LOCALE_OBJECTS_LIBRARY": path}, capture_output=True, text=True,
            )
            self.assertIn(told, ran.stdout, ran.stderr)

    def test_names(self):
        for wrong in ("", "C", "POSIX", "a b", "x" * 65, "\ud800"):
            with self.subTest(name=wrong), self.assertRaises(SourceError) as met:
                Library.from_texts({wrong: US})
            self.assertEqual((met.exception.line, met.exception.reason), (0, "BadName"))
        with self.assertRaises(UnknownLocaleError):
            Library.from_texts({"us": US}, charsets={"de": "UTF-8"})

    def test_sources_as_such(self):
        with self.assertRaises(SourceError) as met:
            Library.from_texts({"us": US}, charsets={"us": "LATIN"})
        fault = met.exception
        self.assertEqual((fault.file, fault.line, fault.column, fault.reason), ("us", 0, 0, "NoCharmap"))
        self.assertEqual(str(fault), f"us: NoCharmap: {fault.rule}")
        with tempfile.TemporaryDirectory() as folder:
            for part in ("a", "b"):
                os.mkdir(os.path.join(folder, part))
                with open(os.path.join(folder, part, "us"), "w", encoding="utf-8") as it:
                    it.write(US)
            with self.assertRaises(SourceError) as met:
                Library.from_files(os.path.join(folder, "a", "us"), os.path.join(folder, "b", "us"))
        self.assertEqual((met.exception.file, met.exception.reason), (os.path.join(folder, "b", "us"), "NameTwice"))

    def test_catalogs(self):
        with self.assertRaises(SourceError) as met:
            Library.from_texts({"us": US}, catalogs={("greetings", "us"): "$set 1\n1 Hello\n1x Again\n"})
        fault = met.exception
        self.assertEqual((fault.file, fault.line, fault.reason, fault.text), ("greetings", 3, "BadMessage", "1x Again"))


def in_child(amount: int) -> str:
    return KEPT.money(amount)


KEPT = made().locale("us")


MISUSE = r"""
import gc, itertools
from locale_objects import Catalog, Library, Locale

TEXT = 'LC_NUMERIC\ndecimal_point ","\nEND LC_NUMERIC\n' + "".join(
    f"LC_{it}\nEND LC_{it}\n" for it in ("CTYPE", "MONETARY", "TIME", "MESSAGES")
)
JUNK = (None, 5, "x", b"x", [], object())


def used(locale, catalog):
    for _ in range(3):
        gc.collect()
        assert locale.money(5) and locale.number(7) == "7" and locale.item("RADIXCHAR") == ",", locale
        assert catalog.get(1, 1) == "Hello", catalog


def attempt(call):
    try:
        call()
        return True
    except (TypeError, ValueError, AttributeError, LookupError, NotImplementedError):
        return False


def made():
    library = Library.from_texts({"us": TEXT}, catalogs={("hello", "us"): "1 Hello\n"})
    locale = library.locale("us")
    return {"library": library, "locale": locale, "catalog": locale.catalog("hello")}


attempts = changed = 0
for which, kind in (("library", Library), ("locale", Locale), ("catalog", Catalog)):
    names = [it for it in dir(kind) if not it.startswith("_")] + ["__class__", "__dict__", "__weakref__", "__doc__", "__slots__"]
    for name, value in itertools.product(names, (*JUNK, "other")):
        of = made()
        one = of.pop(which)
        other = made()[which] if value == "other" else value
        attempts += 1
        changed += attempt(lambda: setattr(one, name, other)) + attempt(lambda: delattr(one, name))
        locale, catalog = of.get("locale", one), of.get("catalog", one)
        of = one = other = None
        used(locale, catalog)
    for words in ((), ([],), (None,), (5,), ("us",), (made()["library"],), (made()["library"], 5), (made()["library"], "us", 5)):
        of = made()
        one = of.pop(which)
        attempts += 1
        changed += attempt(lambda: one.__init__(*words))
        for state in (None, {"library": None}, (None, {"library": None})):
            changed += attempt(lambda: one.__setstate__(state))
        empty = kind.__new__(kind)
        for call in ("money", "number", "time", "item", "get", "locale", "names", "upper", "conv", "joined", "__repr__", "__hash__"):
            attempt(lambda: getattr(empty, call)(*words))
        del empty
        attempt(lambda: kind(*words))
        locale, catalog = of.get("locale", one), of.get("catalog", one)
        of = one = None
        used(locale, catalog)
assert not changed, changed
print(attempts)
"""
"""What a program may do with what is public of a library, a locale and a catalog; it ends in order."""


class Misuse(unittest.TestCase):
    """Nothing that is public can be changed, and no use of it ends the process."""

    def test_attributes(self):
        ran = subprocess.run(
            [sys.executable, "-c", MISUSE], capture_output=True, text=True,
            env={**os.environ, "PYTHONMALLOC": "debug", "MALLOC_PERTURB_": "165"},
        )
        self.assertEqual(ran.returncode, 0, ran.stderr)
        self.assertGreater(int(ran.stdout), 200)

    def test_made_once(self):
        library = made()
        us = library.locale("us")
        for call in (lambda: library.__init__([]), lambda: us.__init__(), lambda: locale_objects.Locale(), lambda: locale_objects.Catalog()):
            with self.assertRaises(TypeError):
                call()
        with self.assertRaises(AttributeError):
            us.library = None
        gc.collect()
        self.assertEqual(us.money(5), "$5.00")

    def test_copies(self):
        library = Library.from_texts({"us": US, "de": DE}, catalogs={("greetings", "us"): "1 Hello\n"})
        mixed = library.locale("us", monetary="de")
        catalog = mixed.catalog("greetings")
        for it in (library, mixed, catalog):
            self.assertIs(copy.copy(it), it)
            self.assertIs(copy.deepcopy({"kept": [it]})["kept"][0], it)
        for protocol in range(pickle.HIGHEST_PROTOCOL + 1):
            others, other, messages = pickle.loads(pickle.dumps((library, mixed, catalog), protocol))
            self.assertIs(other.library, others)
            self.assertEqual((others.names, other.name(), other.money(1)), (library.names, mixed.name(), "1,00 €"))
            self.assertEqual((messages.name, messages.get(1, 1)), ("greetings", "Hello"))
            self.assertEqual(others.locale("us", monetary="de"), other)

    def test_pickled_joins(self):
        first, second = Library.from_texts({"us": US, "shop": DE}), Library.from_texts({"de": DE, "shop": US})
        both = first.joined(second).joined(Library.from_texts({"us": DE}))
        former = first.joined(second).locale("us")
        again, shop = pickle.loads(pickle.dumps((both, both.locale("shop"))))
        self.assertEqual((again.names, again.locale("us").money(1), shop.money(1)), (both.names, "1,00 €", "$1.00"))
        self.assertEqual(pickle.loads(pickle.dumps(former)).money(1), "$1.00")

    def test_spawned(self):
        """A pool of processes that are begun anew is given locales."""
        with multiprocessing.get_context("spawn").Pool(2) as pool:
            self.assertEqual(pool.map(made().locale("us").money, range(3)), ["$0.00", "$1.00", "$2.00"])

    def test_shown(self):
        library = Library.from_texts({f"{'x' * 50}{n}": US for n in range(300)})
        names = library.names
        locale = library.locale(names[0], monetary=names[1], time=names[2], messages=names[3], numeric=names[4])
        for it in (library, locale, made(), made().locale("us")):
            self.assertLessEqual(len(repr(it)), 200)
        self.assertIn("and 299 more", repr(library))
        self.assertEqual(repr(made()), "<Library of us, de>")
        self.assertEqual(repr(made().locale("us")), "<Locale us of <Library of us, de>>")


class Threads(unittest.TestCase):
    """Any number of threads, and children of a fork, read one library."""

    def test_sixteen_threads(self):
        library = made()
        wanted = {"us": "$1,234.50", "de": "1.234,50 €"}
        wrong = []

        def work(name: str) -> None:
            by = library.locale(name)
            for _ in range(100_000 // 16):
                if by.money(Decimal("1234.5")) != wanted[name]:
                    wrong.append(name)
                if by.number(len(name) * 1000, format="%d " + name) != f"2000 {name}" or by.time(MOMENT, name + "%d") != f"{name}14":
                    wrong.append(name)

        threads = [threading.Thread(target=work, args=(("us", "de")[n % 2],)) for n in range(16)]
        for it in threads:
            it.start()
        for it in threads:
            it.join()
        self.assertEqual(wrong, [])

    def test_within(self):
        """A call that a time zone or a signal handler makes within another leaves that one's text as it is."""
        us = made().locale("us")

        class Zone(datetime.tzinfo):
            def utcoffset(self, when):
                return datetime.timedelta(minutes=int(us.number(90)))

            def dst(self, when):
                return None

            def tzname(self, when):
                return us.time(datetime.datetime(1999, 1, 2), "%F") + us.money(5)

        for _ in range(3):
            self.assertEqual(us.time(MOMENT.replace(tzinfo=Zone()), "%F %z %Z"), "2026-07-14 +0130 1999-01-02$5.00")

        met = []
        before = signal.signal(signal.SIGALRM, lambda *_: met.append((us.money(-77), us.time(MOMENT, "%H"), us.number(-8))))
        signal.setitimer(signal.ITIMER_REAL, 0.0005, 0.0005)
        try:
            for number in range(20_000):
                self.assertEqual(us.money(number % 1000), f"${number % 1000}.00")
                self.assertEqual(us.number(number % 1000), str(number % 1000))
                self.assertEqual(us.time(MOMENT, "%d.%m"), "14.07")
        finally:
            signal.setitimer(signal.ITIMER_REAL, 0)
            signal.signal(signal.SIGALRM, before)
        self.assertGreater(len(met), 0)
        self.assertEqual(set(met), {("-$77.00", "09", "-8")})
        self.assertLess(len(_quick.AMOUNTS), 50)

    def test_fork(self):
        with multiprocessing.get_context("fork").Pool(4) as pool:
            texts = pool.map(in_child, range(1000))
        self.assertEqual(texts[999], "$999.00")
        self.assertEqual(KEPT.money(1), "$1.00")

    def test_memory_is_flat(self):
        by = made().locale("de")
        amount = Decimal("1234.5")
        for _ in range(20_000):
            by.money(amount)
        before = resource.getrusage(resource.RUSAGE_SELF).ru_maxrss
        for _ in range(MANY):
            by.money(amount)
        for _ in range(MANY // 20):
            by.time(MOMENT, "%c")
            by.number(1234567)
            by.read_number("1.234.567")
            by.upper("straße")
            by.name()
        self.assertLess(resource.getrusage(resource.RUSAGE_SELF).ru_maxrss - before, 1024)

    def test_libraries_are_freed(self):
        for _ in range(20):
            made()
        before = resource.getrusage(resource.RUSAGE_SELF).ru_maxrss
        for _ in range(200):
            made().locale("us").money(1)
        gc.collect()
        self.assertLess(resource.getrusage(resource.RUSAGE_SELF).ru_maxrss - before, 4096)


if __name__ == "__main__":
    unittest.main()
