"""POSIX locale objects by proved formatters: amounts, times, numbers and items on any number of threads.

    >>> from locale_objects import Library
    >>> from decimal import Decimal
    >>> library = Library.from_system("de_DE", "ja_JP")
    >>> library.locale("de_DE").money(Decimal("1234567.89"))
    '1.234.567,89 €'

A `Library` is compiled from locale sources, and never changes. A `Locale` is a value of it. Nothing is
global: no call changes what another thread reads.
"""

from typing import TYPE_CHECKING, Any

from ._faults import (
    AmountError,
    AmountFault,
    FormatError,
    FormatFault,
    ImportFault,
    LibraryMissing,
    LibraryMissingError,
    LocaleError,
    NumberError,
    NumberFault,
    SourceError,
    SourceFault,
    SystemSourceError,
    TextError,
    TimeError,
    TimeFault,
    UnknownLocale,
    UnknownLocaleError,
    UnknownName,
    UnknownNameError,
)
from ._values import ParsedTime
from ._version import __version__

if TYPE_CHECKING:
    from ._library import Catalog, Library, Locale

__all__ = [
    "AmountError",
    "Catalog",
    "FormatError",
    "Library",
    "LibraryMissingError",
    "Locale",
    "LocaleError",
    "NumberError",
    "ParsedTime",
    "SourceError",
    "SystemSourceError",
    "TextError",
    "TimeError",
    "UnknownLocaleError",
    "UnknownNameError",
    "__version__",
]


def __getattr__(name: str) -> Any:
    # (the shared library is loaded by what needs it, so that its fault can be imported and caught)
    if name in ("Catalog", "Library", "Locale"):
        from . import _library

        return getattr(_library, name)
    raise AttributeError(f"module {__name__!r} has no attribute {name!r}")
