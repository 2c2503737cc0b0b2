"""Beside `locale`: what the system's C library says of a locale, and the package of the same source.

Wants the built `locale_tool` (LOCALE_TOOL), the sources of the system and localedef, which compiles them into
a folder of the test's own."""

import locale as system
import os
import shutil
import subprocess
import tempfile
import time
import unittest
from decimal import Decimal

from locale_objects import Library

SOURCES = "/usr/share/i18n/locales"
NAMES = ("de_DE", "fr_FR", "en_US", "ja_JP", "cs_CZ", "tr_TR", "en_IN")
TOOL = os.environ.get("LOCALE_TOOL")
# (formats of the locale go beyond the standard in some, which import notes and writes otherwise)
ITEMS = [
    *("RADIXCHAR", "THOUSEP", "YESEXPR", "NOEXPR", "CRNCYSTR"),
    *(f"{kind}_{n}" for kind, count in (("DAY", 7), ("ABDAY", 7), ("MON", 12), ("ABMON", 12)) for n in range(1, count + 1)),
]
FORMATS = ("%A %a", "%B %b", "%d %e %H %I %j %m %M %S %U %u %V %G %W %w %y %Y %%", "%D %F %R %T")
NUMBERS = (0, 7, -7, 999, 1000, -1234567, 12345678901, 2**63 - 1, -(2**63))


@unittest.skipUnless(TOOL and os.path.exists(TOOL), "there is no built locale_tool")
@unittest.skipUnless(os.path.isdir(SOURCES) and shutil.which("localedef"), "there are no sources of the system, or no localedef")
class Beside(unittest.TestCase):
    """Items, localeconv's fields, times and whole numbers are those of the system."""

    @classmethod
    def setUpClass(cls):
        cls.folder = tempfile.mkdtemp()
        cls.addClassCleanup(shutil.rmtree, cls.folder)
        cls.addClassCleanup(system.setlocale, system.LC_ALL, "C")
        os.environ["LOCPATH"] = cls.folder
        cls.addClassCleanup(os.environ.pop, "LOCPATH")
        for name in NAMES:
            sections = "".join(
                f'{it}\ncopy "{name}"\nEND {it}\n' for it in ("LC_CTYPE", "LC_NUMERIC", "LC_MONETARY", "LC_TIME", "LC_MESSAGES")
            )
            source = os.path.join(cls.folder, f"{name}.source")
            with open(source, "w", encoding="ascii") as file:
                file.write(sections)
            # (the other categories lack, of which it complains)
            subprocess.run(
                ["localedef", "-c", "-i", source, "-f", "UTF-8", os.path.join(cls.folder, f"own_{name}")],
                capture_output=True, check=False,
            )
        cls.library = Library.from_system(*NAMES, tool=TOOL)

    def each(self, test):
        """Calls a test with each locale, under which the system then is."""
        for name in NAMES:
            with self.subTest(name=name):
                system.setlocale(system.LC_ALL, f"own_{name}")
                test(self.library.locale(name))

    def test_items(self):
        def test(by):
            for item in ITEMS:
                self.assertEqual(by.item(item), system.nl_langinfo(getattr(system, item)), item)

        self.each(test)

    def test_conv(self):
        def test(by):
            ours = by.conv()
            for key, wanted in system.localeconv().items():
                if key in ("grouping", "mon_grouping"):
                    # (a list of Python's ends in 0, which stands for the end here)
                    wanted = [it for it in wanted if it]
                self.assertEqual(ours[key], wanted, key)

        self.each(test)

    def test_times(self):
        def test(by):
            for days in range(0, 20000, 617):
                at = time.gmtime(days * 86400 + days * 3617 % 86400)
                for form in FORMATS:
                    self.assertEqual(by.time(at, form), time.strftime(form, at), form)

        self.each(test)

    def test_numbers(self):
        def test(by):
            for number in NUMBERS:
                self.assertEqual(by.number(number), system.format_string("%d", number, grouping=True))

        self.each(test)

    def test_amounts(self):
        """Python's `currency` has rules of its own for blanks and signs; the digits are the same."""

        def test(by):
            for amount in (Decimal("0"), Decimal("1234567.89"), Decimal("0.5")):
                digits = [it for it in by.money(amount) if it.isdigit()]
                self.assertEqual(digits, [it for it in system.currency(amount, grouping=True) if it.isdigit()])

        self.each(test)


if __name__ == "__main__":
    unittest.main()
