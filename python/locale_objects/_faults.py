"""What can go wrong: one class a cause."""

from __future__ import annotations

from typing import Optional, Tuple

__all__ = [
    "LocaleError",
    "SourceError",
    "UnknownLocaleError",
    "FormatError",
    "AmountError",
    "NumberError",
    "TextError",
    "TimeError",
    "UnknownNameError",
    "SystemSourceError",
    "LibraryMissingError",
]


class LocaleError(Exception):
    """The class of all faults of this package."""


class LibraryMissingError(LocaleError, ImportError):
    """The shared library, or the tool that imports sources, was not found, or the library has another version."""


class SourceError(LocaleError, ValueError):
    """A charmap, a locale source or a message catalog breaks a rule."""

    def __init__(self, file: str, line: int, column: int, reason: str, rule: str = "", text: str = ""):
        self.file = file
        """The name of the source: a path, or the name that `from_texts` was given."""
        self.line = line
        """The line, counted from 1; 0 where the source as a whole is at fault."""
        self.column = column
        """The column in bytes, counted from 1; 0 with the line."""
        self.reason = reason
        """The reason in one word or a few, as `BadNumber`."""
        self.rule = rule
        """The rule that is broken, in a sentence."""
        self.text = text
        """The line itself."""
        place = f"{file}:{line}:{column}" if line else file
        super().__init__(f"{place}: {reason}" + (f": {rule}" if rule else ""))

    def __reduce__(self) -> Tuple[object, ...]:
        return type(self), (self.file, self.line, self.column, self.reason, self.rule, self.text)


class UnknownLocaleError(LocaleError, LookupError):
    """No locale of the library has the name, or it lacks a category that was asked for."""

    def __init__(self, name: str, category: Optional[str] = None):
        self.name = name
        """The name that was asked for."""
        self.category = category
        """The category that no locale of the name has."""
        lacking = f" has no {category}" if category else " is not in the library"
        super().__init__(f"the locale {name!r}{lacking}")

    def __reduce__(self) -> Tuple[object, ...]:
        return type(self), (self.name, self.category)


class FormatError(LocaleError, ValueError):
    """A format has a `%` that begins no conversion, or one without a value, or a character that is none."""

    def __init__(self, format: str, at: int, why: str):
        self.format = format
        self.at = at
        """The index in the format of the `%`, or of the character."""
        super().__init__(f"{why} at index {at} of {format!r}")
        self._why = why

    def __reduce__(self) -> Tuple[object, ...]:
        return type(self), (self.format, self.at, self._why)


class AmountError(LocaleError, ValueError):
    """An amount is not finite, or has more than 18 fraction digits, or needs more than 64 bits."""


class NumberError(LocaleError, ValueError):
    """A number needs more than 64 bits, or a text is no such whole number as the locale writes it."""


class TextError(LocaleError, ValueError):
    """A text has a character that is none, or is not one character where one is asked for."""


class TimeError(LocaleError, ValueError):
    """A time has a field out of its range, or a text does not meet the format, or tells no date that there is."""


class UnknownNameError(LocaleError, LookupError):
    """There is no such item, class, category, or message catalog."""


class SystemSourceError(LocaleError, ValueError):
    """A source of the system could not be imported; the text has what the tool says."""


# The names until 1.0, which the next version drops.
SourceFault, UnknownLocale, FormatFault, AmountFault = SourceError, UnknownLocaleError, FormatError, AmountError
NumberFault, TimeFault, UnknownName, ImportFault = NumberError, TimeError, UnknownNameError, SystemSourceError
LibraryMissing = LibraryMissingError
