"""Libraries of compiled locales, and locales as values."""

from __future__ import annotations

import os
from typing import Dict, Iterable, List, Mapping, Optional, Sequence, Tuple, Type, TypeVar, Union

from . import _native as native
from ._faults import FormatError, NumberError, TextError, TimeError, UnknownLocaleError, UnknownNameError
from ._quick import (
    AMOUNTS, FORMS, NUMBERS, ONE, SIZE, TIMES, Buffers, amount_buffers, int_format, keep, number_buffers, pointer, strfmon,
    strftime, time_buffers,
)
from ._sources import CATALOG, CHARMAP, LOCALE, Source, as_bytes, imported, name_of_file, named
from ._values import LEAST, MOST, Amount, Moment, ParsedTime, amount_parts, put_time, shown

CATEGORIES = ("ctype", "numeric", "monetary", "time", "messages")
MASKS = {name: 1 << bit for bit, name in enumerate(CATEGORIES)}
ALL = 31

Text = Union[str, bytes]
Kind = TypeVar("Kind")

MOST_SHOWN = 200
"""The most characters of a `repr`."""


def encoded(text: str) -> bytes:
    """The bytes of a text; what was no UTF-8 comes back as it was."""
    if not isinstance(text, str):
        raise TypeError(f"a text is a str, and not a {type(text).__name__}")
    try:
        return text.encode("utf-8", "surrogateescape")
    except UnicodeEncodeError as fault:
        raise TextError(f"a lone surrogate is no character, at index {fault.start} of {shown_text(text)}") from None


def shown_text(text: str) -> str:
    """A text in a sentence, cut where it is long."""
    return repr(text if len(text) <= 80 else f"{text[:60]}...")


def decoded(text: bytes) -> str:
    """The text of bytes; a byte that is no UTF-8 becomes a lone surrogate, as in file names."""
    return text.decode("utf-8", "surrogateescape")


def _index(text: bytes, at: int) -> int:
    """The index in characters of a byte's index."""
    return len(decoded(text[:at]))


class _Value:
    """What never changes: a copy of it is itself."""

    __slots__ = ()

    def __copy__(self: Kind) -> Kind:
        return self

    def __deepcopy__(self: Kind, memo: Dict[int, object]) -> Kind:
        return self


class Library(_Value):
    """Locales compiled from sources. It never changes, any thread may use it, and it is freed with the last of its locales.

    It is pickled by its sources, which are then compiled again.
    """

    __slots__ = ("_handle", "_names", "_sources", "__weakref__")

    def __init__(self, sources: Iterable[Source]):
        if hasattr(self, "_handle"):
            raise TypeError("a library is made once")
        given = tuple(sources)
        if not all(isinstance(it, Source) for it in given):
            raise TypeError("a library is made by from_texts, from_files or from_system")
        self._names = tuple(it.name for it in given if it.kind == LOCALE)
        self._sources: Tuple[Tuple[Source, ...], ...] = (given,)
        self._handle = native.Handle.of(given)

    def __reduce__(self) -> Tuple[object, ...]:
        return _compiled, (type(self), self._sources)

    @classmethod
    def from_texts(
        cls,
        locales: Mapping[str, Text],
        *,
        charmaps: Optional[Mapping[str, Text]] = None,
        charsets: Optional[Mapping[str, str]] = None,
        catalogs: Optional[Mapping[Tuple[str, str], Text]] = None,
    ) -> "Library":
        """The library of locale sources by their names.

        `charsets` names the charset of a locale: UTF-8, which is the default, POSIX, or one of `charmaps`.
        `catalogs` has sources of message catalogs by name and locale. The first rule that is broken is a
        `SourceError`, which names the source.
        """
        _have_locales(charsets, locales)
        sources = [
            Source(CHARMAP, named(name, "charmap"), "", name, as_bytes(text, name)) for name, text in (charmaps or {}).items()
        ]
        for name, text in locales.items():
            sources.append(Source(LOCALE, named(name, "locale"), _charset(charsets, name), name, as_bytes(text, name)))
        for (name, of), text in (catalogs or {}).items():
            sources.append(Source(CATALOG, named(name, "catalog"), _locale_of(of), name, as_bytes(text, name)))
        return cls(sources)

    @classmethod
    def from_files(
        cls,
        *paths: Union[str, os.PathLike],
        charmaps: Optional[Mapping[str, Union[str, os.PathLike]]] = None,
        charsets: Optional[Mapping[str, str]] = None,
        catalogs: Optional[Mapping[Tuple[str, str], Union[str, os.PathLike]]] = None,
    ) -> "Library":
        """The library of locale sources in files, each of which names its locale."""
        _have_locales(charsets, [name_of_file(it) for it in paths])
        sources = [_file(CHARMAP, named(name, "charmap"), "", path) for name, path in (charmaps or {}).items()]
        for path in paths:
            name = named(name_of_file(path), "locale")
            sources.append(_file(LOCALE, name, _charset(charsets, name), path))
        for (name, of), path in (catalogs or {}).items():
            sources.append(_file(CATALOG, named(name, "catalog"), _locale_of(of), path))
        return cls(sources)

    @classmethod
    def from_system(
        cls, *names: str, folders: Iterable[Union[str, os.PathLike]] = (), tool: Optional[str] = None
    ) -> "Library":
        """The library of locales whose sources the system has (on Debian the package `locales`).

        Each source is made standard by `locale_tool import`, which `tool` or the variable LOCALE_TOOL
        names; `folders` are looked in before the system's own.
        """
        by = tool or os.environ.get("LOCALE_TOOL", "locale_tool")
        paths = [os.fspath(it) for it in folders]
        return cls(Source(LOCALE, named(it, "locale"), "UTF-8", it, imported(it, by, paths)) for it in names)

    def joined(self, other: "Library") -> "Library":
        """A library with the locales of both, without reading their sources again; a name of both is the other's."""
        if not isinstance(other, Library):
            raise TypeError(f"a library is joined with a Library, and not with a {type(other).__name__}")
        library = object.__new__(type(self))
        library._names = self._names + tuple(it for it in other._names if it not in self._names)
        library._sources = self._sources + other._sources
        library._handle = self._handle.joined(other._handle)
        return library

    @property
    def names(self) -> Tuple[str, ...]:
        """The names of its locales, in the order in which they were given."""
        return self._names

    def locale(self, name: Optional[str] = None, *, base: Optional["Locale"] = None, **parts: str) -> "Locale":
        """The locale of a name; or one with single categories of other names, as `monetary="de_CH"`.

        Without a name the other categories are those of `base`, or of the POSIX locale. The categories are
        `ctype`, `numeric`, `monetary`, `time` and `messages`.
        """
        unknown = [it for it in parts if it not in MASKS]
        if unknown:
            raise TypeError(f"{unknown[0]!r} is no category: these are {', '.join(CATEGORIES)}")
        value = self._handle.posix() if base is None else self._own(base)
        if name is not None:
            value = self._new(ALL, name, value)
        for category, of in parts.items():
            value = self._new(MASKS[category], of, value)
        return Locale._of(self, value)

    def _own(self, base: "Locale") -> "native.LocaleValue":
        if not isinstance(base, Locale):
            raise TypeError(f"a base is a Locale, and not a {type(base).__name__}")
        if base._library is not self:
            raise UnknownLocaleError(base.name())
        return base._value

    def _new(self, mask: int, name: str, base: "native.LocaleValue") -> "native.LocaleValue":
        try:
            return self._handle.new(mask, encoded(name), base)
        except TextError:
            raise UnknownLocaleError(name) from None
        except native.NoData as lacking:
            known = name in self._names or name in ("C", "POSIX")
            category = next((it for it in CATEGORIES if MASKS[it] == lacking.mask), None)
            raise UnknownLocaleError(name, f"LC_{category.upper()}" if known and category else None) from None

    def __repr__(self) -> str:
        return f"<Library of {_listed(self._names, MOST_SHOWN // 2)}>"


class Locale(_Value):
    """A locale: a value that any thread may use. Two are equal if they have the same five categories of one library.

    It comes from `Library.locale`, and is pickled with its library.
    """

    __slots__ = ("_library", "_handle", "_value", "_key", "_at")

    def __init__(self) -> None:
        raise TypeError("a locale comes from Library.locale")

    @classmethod
    def _of(cls, library: Library, value: "native.LocaleValue") -> "Locale":
        # (it keeps the handle itself, as its pointer is of that)
        locale = object.__new__(cls)
        locale._library, locale._handle, locale._value = library, library._handle, value
        locale._key = bytes(value)
        locale._at = pointer(library._handle._at)
        return locale

    @property
    def library(self) -> Library:
        """The library that it is of."""
        return self._library

    def __reduce__(self) -> Tuple[object, ...]:
        return _located, (self._library, tuple(getattr(self._value, it) for it in CATEGORIES))

    def __eq__(self, other: object) -> bool:
        return isinstance(other, Locale) and self._library is other._library and self._key == other._key

    def __hash__(self) -> int:
        return hash((id(self._library), self._key))

    def name(self, category: Optional[str] = None) -> str:
        """The name of the locale that a category is of, as `monetary`; else the one that all are of, or a mixed name
        with the part of each, which `Library.locale` takes. That of the POSIX locale is `C`.
        """
        mask = ALL if category is None else MASKS.get(_name(category))
        if mask is None:
            raise UnknownNameError(f"there is no category {category!r}: these are {', '.join(CATEGORIES)}")
        return decoded(self._handle.name(self._value, mask))

    def money(self, *amounts: Amount, format: str = "%n") -> str:
        """Amounts of money by a format of strfmon (XSH strfmon), exactly: `Decimal` or `int`, and no `float`."""
        form = FORMS.get(format)
        if form is None or len(amounts) != 1:
            return self._money(format, [amount_parts(it) for it in amounts])
        units, scale = amount_parts(amounts[0])
        try:
            kept = AMOUNTS.pop()
        except IndexError:
            kept = amount_buffers()
        text, out, amount, at = kept
        amount.units = units
        amount.scale = scale
        answer = strfmon(out, SIZE, self._at, self._value, form[0], form[1], at, ONE)
        if answer.code:
            AMOUNTS.append(kept)
            return self._money(format, [(units, scale)])
        told = text[: answer.n].decode("utf-8", "surrogateescape")
        AMOUNTS.append(kept)
        return told

    def _money(self, format: str, given: List[Tuple[int, int]]) -> str:
        text = _kept(format)
        try:
            return decoded(self._handle.money(self._value, text, given))
        except native.Numbered as at:
            raise _format_fault(format, text, at) from None

    def time(self, when: Moment, format: str = "%c") -> str:
        """A time by a format of strftime (XSH strftime). An aware datetime has its own offset and zone."""
        try:
            kept = TIMES.pop()
        except IndexError:
            kept = time_buffers()
        text, out, tm, at = kept
        zone = put_time(when, tm)
        form, by = FORMS.get(format), FORMS.get(zone)
        if form is None or by is None:
            return self._time(format, kept, zone)
        answer = strftime(out, SIZE, self._at, self._value, form[0], form[1], at, by[0], by[1])
        if answer.code:
            return self._time(format, kept, zone)
        told = text[: answer.n].decode("utf-8", "surrogateescape")
        TIMES.append(kept)
        return told

    def _time(self, format: str, kept: Buffers, zone: str) -> str:
        text = _kept(format)
        try:
            told = decoded(self._handle.time(self._value, text, kept[2], _zone(zone)))
        except native.Numbered as at:
            raise _format_fault(format, text, at) from None
        TIMES.append(kept)
        return told

    def parse_time(self, text: str, format: str) -> ParsedTime:
        """What a text tells of a time by a format of strptime (XSH strptime)."""
        given, by = encoded(text), _format(format)
        try:
            fields, end = self._handle.parse(self._value, given, by)
        except native.Mismatch as at:
            raise TimeError(f"{text!r} does not meet {format!r} at index {_index(given, at.n)}") from None
        except native.Numbered as at:
            raise _format_fault(format, by, at) from None
        year, mon, mday, hour, minute, second, wday, yday = (it if it >= 0 else None for it in fields)
        return ParsedTime(
            year, mon, mday, hour, minute, second,
            (wday + 6) % 7 if wday is not None else None, yday + 1 if yday is not None else None, _index(given, end),
        )

    def number(self, *numbers: int, format: str = "%'d") -> str:
        """Whole numbers by a format of printf with `d`, `i` and `u` (XSH fprintf), grouped by default."""
        form = FORMS.get(format)
        if form is None or len(numbers) != 1:
            return self._number(format, numbers)
        given = numbers[0]
        if type(given) is not int or not LEAST <= given <= MOST:
            return self._number(format, numbers)
        try:
            kept = NUMBERS.pop()
        except IndexError:
            kept = number_buffers()
        text, out, number, at = kept
        number.value = given
        answer = int_format(out, SIZE, self._at, self._value, form[0], form[1], at, ONE)
        if answer.code:
            NUMBERS.append(kept)
            return self._number(format, numbers)
        told = text[: answer.n].decode("utf-8", "surrogateescape")
        NUMBERS.append(kept)
        return told

    def _number(self, format: str, numbers: Tuple[int, ...]) -> str:
        for it in numbers:
            if isinstance(it, bool) or not isinstance(it, int):
                raise TypeError(f"a number is an int, and not a {type(it).__name__}")
            if not LEAST <= it <= MOST:
                raise NumberError(f"{shown(it)} does not fit 64 bits")
        text = _kept(format)
        try:
            return decoded(self._handle.number(self._value, text, numbers))
        except native.Numbered as at:
            raise _format_fault(format, text, at) from None

    def read_number(self, text: str) -> int:
        """The whole number of 64 bits that `number` writes so: with the locale's groups, and without leading zeros."""
        try:
            return self._handle.read_number(self._value, encoded(text))
        except (native.Mismatch, TextError):
            raise NumberError(f"{text!r} is no whole number of 64 bits as the locale writes it") from None

    def item(self, name: str) -> str:
        """The text of an item of nl_langinfo (XSH nl_langinfo), as `D_FMT` or `DAY_1`."""
        number = native.ITEMS.get(_name(name))
        if number is None:
            raise UnknownNameError(f"there is no item {name!r}")
        return decoded(self._handle.item(self._value, number))

    def conv(self) -> Dict[str, Union[str, int, List[int]]]:
        """How numbers and amounts are written (XSH localeconv), as `locale.localeconv()` tells it."""
        return self._handle.conv(self._value, decoded)

    def is_class(self, char: str, name: str) -> bool:
        """Whether a character is of a class (XSH iswctype), as `alpha` or one that the locale declares."""
        value = _value(char)
        try:
            return self._handle.is_class(self._value, value, encoded(_name(name)))
        except (native.NoClass, TextError):
            raise UnknownNameError(f"the locale has no class {name!r}") from None

    def catalog(self, name: str) -> "Catalog":
        """The message catalog with a name for the locale that `LC_MESSAGES` is of (XSH catopen)."""
        try:
            value = self._handle.catalog(self._value, encoded(_name(name)))
        except TextError:
            value = None
        if value is None:
            raise UnknownNameError(f"there is no message catalog {name!r} for the locale {self.name('messages')!r}")
        return Catalog._of(self._library, name, value)

    def upper(self, text: str) -> str:
        """A text in upper case, character by character (XSH towupper)."""
        handle = self._handle
        try:
            return decoded(handle.upper_text(self._value, _string(text).encode("utf-8")))
        except (native.NoText, UnicodeEncodeError):
            return "".join(chr(handle.upper(self._value, ord(it))) for it in text)

    def lower(self, text: str) -> str:
        """A text in lower case, character by character (XSH towlower)."""
        handle = self._handle
        try:
            return decoded(handle.lower_text(self._value, _string(text).encode("utf-8")))
        except (native.NoText, UnicodeEncodeError):
            return "".join(chr(handle.lower(self._value, ord(it))) for it in text)

    def __repr__(self) -> str:
        return f"<Locale {_cut(self.name(), MOST_SHOWN // 3)} of {self._library!r}>"


class Catalog(_Value):
    """A message catalog of a library: a value that any thread may use, and that is not closed.

    It comes from `Locale.catalog`, and is pickled with its library.
    """

    __slots__ = ("_library", "_handle", "_name", "_value")

    def __init__(self) -> None:
        raise TypeError("a message catalog comes from Locale.catalog")

    @classmethod
    def _of(cls, library: Library, name: str, value: "native.CatalogValue") -> "Catalog":
        catalog = object.__new__(cls)
        catalog._library, catalog._handle, catalog._name, catalog._value = library, library._handle, name, value
        return catalog

    @property
    def library(self) -> Library:
        """The library that it is of."""
        return self._library

    @property
    def name(self) -> str:
        """Its name."""
        return self._name

    def __reduce__(self) -> Tuple[object, ...]:
        return _opened, (self._library, self._name, self._value.number)

    def get(self, set: int, number: int, default: Optional[str] = None) -> Optional[str]:
        """A message by its set and its number in it, or else the default (XSH catgets)."""
        if not (_is_number(set) and _is_number(number)):
            return default
        text = self._handle.message(self._value, set, number)
        return default if text is None else decoded(text)

    def __repr__(self) -> str:
        return f"<Catalog {_cut(self._name, MOST_SHOWN // 3)} of {self._library!r}>"


def _compiled(kind: Type[Library], groups: Sequence[Sequence[Source]]) -> Library:
    """The library of sources, each group of them joined with those before."""
    library = kind(groups[0])
    for group in groups[1:]:
        library = library.joined(kind(group))
    return library


def _located(library: Library, numbers: Sequence[int]) -> Locale:
    """The locale with the compiled ones of these numbers."""
    value = library._handle.posix()
    for category, number in zip(CATEGORIES, numbers):
        setattr(value, category, number)
    library._handle.name(value, ALL)
    return Locale._of(library, value)


def _opened(library: Library, name: str, number: int) -> Catalog:
    """The message catalog with a number."""
    value = native.CatalogValue(library._handle.posix().mark, number)
    library._handle.message(value, 0, 0)
    return Catalog._of(library, name, value)


def _cut(text: str, most: int) -> str:
    """A text of at most so many characters, of which the last are dots where it was longer."""
    return text if len(text) <= most else f"{text[:most - 3]}..."


def _listed(names: Sequence[str], most: int) -> str:
    """Names in a line of about so many characters: the first ones, and how many more there are."""
    if not names:
        return "no locale"
    count, width = 0, 0
    while count < len(names) and width + len(names[count]) <= most:
        width += len(names[count]) + 2
        count += 1
    first, more = ", ".join(names[:count]), len(names) - count
    if not more:
        return first
    return f"{first} and {more} more" if first else f"{len(names)} locales"


def _name(given: str) -> str:
    """A name that is looked for."""
    if not isinstance(given, str):
        raise TypeError(f"a name is a str, and not a {type(given).__name__}")
    return given


def _string(given: str) -> str:
    """A text whose case is changed."""
    if not isinstance(given, str):
        raise TypeError(f"a text is a str, and not a {type(given).__name__}")
    return given


def _have_locales(charsets: Optional[Mapping[str, str]], names: Iterable[str]) -> None:
    """Each charset is that of a locale which is given."""
    known = set(names)
    for name in charsets or {}:
        if name not in known:
            raise UnknownLocaleError(name)


def _is_number(given: int) -> bool:
    """Whether a set or a message can have a number."""
    if isinstance(given, bool) or not isinstance(given, int):
        raise TypeError(f"a number is an int, and not a {type(given).__name__}")
    return 0 <= given < 1 << 32


def _file(kind: int, name: str, label: str, path: Union[str, os.PathLike]) -> Source:
    """A source in a file."""
    with open(path, "rb") as it:
        return Source(kind, name, label, os.fspath(path), it.read())


def _charset(charsets: Optional[Mapping[str, str]], name: str) -> str:
    """The charset of a locale."""
    charset = (charsets or {}).get(name, "UTF-8")
    return charset if charset in ("UTF-8", "POSIX") else named(charset, "charmap")


def _locale_of(name: str) -> str:
    """The locale of a catalog, which may be the POSIX locale."""
    return name if name == "C" else named(name, "locale")


def _value(char: str) -> int:
    if len(_string(char)) != 1:
        raise TextError(f"{shown_text(char)} is not one character")
    return ord(char)


def _format(format: str) -> bytes:
    """The bytes of a format."""
    try:
        return encoded(format)
    except TextError:
        at = next(at for at, it in enumerate(format) if "\ud800" <= it < "\udc80" or "\udcff" < it <= "\udfff")
        raise FormatError(format, at, "a lone surrogate stands") from None


def _kept(format: str) -> bytes:
    """The bytes of a format, which is kept for the next call with it."""
    text = _format(format)
    keep(format, text)
    return text


def _zone(name: str) -> bytes:
    """The bytes of a zone's name, which is kept for the next call with it."""
    try:
        text = encoded(name)
    except TextError:
        raise TimeError("the name of the time's zone has a lone surrogate") from None
    keep(name, text)
    return text


def _format_fault(format: str, text: bytes, fault: "native.Numbered") -> Exception:
    """What a fault says of a format, by its index in the `str`."""
    if isinstance(fault, native.BadFormat):
        return FormatError(format, _index(text, fault.n), "a `%` begins no conversion")
    if isinstance(fault, native.Missing):
        return FormatError(format, _index(text, fault.n), "a `%` has no value")
    return fault
