"""The calls of the C library, by ctypes. `include/locale_objects.h` says what each does."""

from __future__ import annotations

import ctypes
import os
import weakref
from ctypes import POINTER, byref, c_bool, c_char_p, c_int32, c_int64, c_size_t, c_uint8, c_uint32, c_uint64, c_void_p
from typing import Callable, Dict, List, Optional, Sequence, Tuple

from ._faults import LibraryMissingError, LocaleError, SourceError, TimeError
from ._sources import BAD_NAME as NAME_RULE
from ._sources import Source
from ._values import TM_FIELDS
from ._version import __version__

NAME = "liblocale_objects.so.1"

OK, NO_MEMORY, TOO_LONG, BAD_TEXT, NO_LOCALE, BAD_MASK, NO_DATA, TOO_SMALL = range(8)
BAD_FORMAT, MISSING, BAD_AMOUNT, TM_RANGE, NO_ITEM, NO_CLASS, MISMATCH, NOT_UTF8, BAD_CHARACTER = range(8, 17)
TOO_MANY, BAD_NAME, NAME_TWICE, NO_CHARMAP, NO_CATALOG, NO_MESSAGE = range(17, 23)


class Answer(ctypes.Structure):
    _fields_ = [("code", c_uint32), ("n", c_size_t)]


class LocaleValue(ctypes.Structure):
    _fields_ = [("mark", c_uint64)] + [(it, c_uint32) for it in ("ctype", "numeric", "monetary", "time", "messages")]


class CatalogValue(ctypes.Structure):
    _fields_ = [("mark", c_uint64), ("number", c_uint32)]


class Fault(ctypes.Structure):
    _fields_ = [
        ("part", c_size_t), ("line", c_uint32), ("column", c_uint32), ("reason", c_uint32), ("start", c_size_t),
        ("length", c_size_t),
    ]


class AmountValue(ctypes.Structure):
    _fields_ = [("units", c_int64), ("scale", c_uint8)]


class TmValue(ctypes.Structure):
    _fields_ = [(it, c_int32) for it in ("year", "mon", "mday", "hour", "min", "sec", "wday", "yday")] + [
        ("has_offset", c_bool),
        ("offset", c_int32),
    ]


class ParsedValue(ctypes.Structure):
    _fields_ = [(it, c_int32) for it in ("year", "mon", "mday", "hour", "min", "sec", "wday", "yday")]


CONV_TEXTS = (
    "decimal_point", "thousands_sep", "grouping", "int_curr_symbol", "currency_symbol", "mon_decimal_point",
    "mon_thousands_sep", "mon_grouping", "positive_sign", "negative_sign",
)
CONV_NUMBERS = (
    "int_frac_digits", "frac_digits", "p_cs_precedes", "p_sep_by_space", "n_cs_precedes", "n_sep_by_space",
    "p_sign_posn", "n_sign_posn", "int_p_cs_precedes", "int_n_cs_precedes", "int_p_sep_by_space",
    "int_n_sep_by_space", "int_p_sign_posn", "int_n_sign_posn",
)


class ConvValue(ctypes.Structure):
    _fields_ = [(it, c_uint8) for it in CONV_NUMBERS]


def _numbered(first: str, count: int) -> List[str]:
    return [f"{first}_{n}" for n in range(1, count + 1)]


ITEMS = {
    name: number
    for number, name in enumerate(
        ["CODESET", "D_T_FMT", "D_FMT", "T_FMT", "T_FMT_AMPM", "AM_STR", "PM_STR"]
        + _numbered("DAY", 7) + _numbered("ABDAY", 7) + _numbered("MON", 12) + _numbered("ABMON", 12)
        + ["ERA", "ERA_D_FMT", "ERA_D_T_FMT", "ERA_T_FMT", "ALT_DIGITS"]
        + ["RADIXCHAR", "THOUSEP", "YESEXPR", "NOEXPR", "CRNCYSTR"]
    )
}


class Numbered(Exception):
    """An answer with its number, before it is told in the caller's terms."""

    def __init__(self, n: int):
        self.n = n


class BadFormat(Numbered):
    pass


class Missing(Numbered):
    pass


class Mismatch(Numbered):
    pass


class NoClass(Numbered):
    pass


class NoText(Numbered):
    """The text is not in UTF-8, or the locale is not."""


class NoMessage(Numbered):
    pass


class NoData(Numbered):
    @property
    def mask(self) -> int:
        """The mask of the category."""
        return self.n


def _loaded() -> ctypes.CDLL:
    here = os.path.dirname(os.path.abspath(__file__))
    named = os.environ.get("LOCALE_OBJECTS_LIBRARY")
    # (installed below PREFIX/lib/python3/dist-packages or the like, with the library in PREFIX/lib)
    above = [os.path.join(here, *[os.pardir] * n, NAME) for n in range(1, 5)]
    for path in [named] if named else [*(it for it in above if os.path.exists(it)), NAME]:
        try:
            library = ctypes.CDLL(path)
        except OSError as fault:
            raise LibraryMissingError(
                f"{path} cannot be loaded: {fault}; ./install puts it in PREFIX/lib, and LOCALE_OBJECTS_LIBRARY names it"
            ) from fault
        _check_version(library, path)
        return library
    raise AssertionError


def _check_version(library: ctypes.CDLL, path: str) -> None:
    wanted = __version__.split(".")[0]
    try:
        library.lobj_version.restype, library.lobj_version.argtypes = c_uint32, []
        version = library.lobj_version()
    except AttributeError:
        raise LibraryMissingError(f"{path} does not tell its version: this package wants version {wanted} of the library") from None
    if str(version // 100) != wanted:
        raise LibraryMissingError(
            f"{path} is version {version // 100}.{version % 100} of the library: this package wants version {wanted}; "
            "./install puts both in place"
        )


_TEXT = [c_char_p, c_size_t]
_BUFFER = [c_char_p, c_size_t]
_READ = [c_void_p, LocaleValue]
_PROTOTYPES: Dict[str, Tuple[list, type]] = {
    "lobj_builder_new": ([POINTER(c_void_p)], Answer),
    "lobj_add": ([POINTER(c_void_p), c_uint32, *_TEXT, *_TEXT, *_TEXT], Answer),
    "lobj_build": ([c_void_p, POINTER(c_void_p), POINTER(Fault), *_BUFFER], Answer),
    "lobj_builder_free": ([c_void_p], None),
    "lobj_join": ([c_void_p, c_void_p, POINTER(c_void_p)], Answer),
    "lobj_library_free": ([c_void_p], None),
    "lobj_posix_locale": ([c_void_p, POINTER(LocaleValue)], None),
    "lobj_newlocale": ([c_void_p, c_uint32, *_TEXT, LocaleValue, POINTER(LocaleValue)], Answer),
    "lobj_strfmon": ([*_BUFFER, *_READ, *_TEXT, POINTER(AmountValue), c_size_t], Answer),
    "lobj_strftime": ([*_BUFFER, *_READ, *_TEXT, POINTER(TmValue), *_TEXT], Answer),
    "lobj_int_format": ([*_BUFFER, *_READ, *_TEXT, POINTER(c_int64), c_size_t], Answer),
    "lobj_int_read": ([*_READ, *_TEXT, POINTER(c_int64)], Answer),
    "lobj_locale_name": ([*_BUFFER, *_READ, c_uint32], Answer),
    "lobj_nl_langinfo": ([*_BUFFER, *_READ, c_uint32], Answer),
    "lobj_conv_text": ([*_BUFFER, *_READ, c_uint32], Answer),
    "lobj_localeconv": ([*_READ, POINTER(ConvValue)], Answer),
    "lobj_iswctype": ([*_READ, c_uint32, *_TEXT], Answer),
    "lobj_towupper": ([*_READ, c_uint32], Answer),
    "lobj_towlower": ([*_READ, c_uint32], Answer),
    "lobj_upper_text": ([*_BUFFER, *_READ, *_TEXT], Answer),
    "lobj_lower_text": ([*_BUFFER, *_READ, *_TEXT], Answer),
    "lobj_strptime": ([*_READ, *_TEXT, *_TEXT, POINTER(ParsedValue)], Answer),
    "lobj_catopen": ([*_READ, *_TEXT, POINTER(CatalogValue)], Answer),
    "lobj_catgets": ([*_BUFFER, c_void_p, CatalogValue, c_uint32, c_uint32], Answer),
}

_C = _loaded()
for _name, (_arguments, _result) in _PROTOTYPES.items():
    try:
        _call = getattr(_C, _name)
    except AttributeError:
        raise LibraryMissingError(f"{_C._name} has no {_name}: it is older than this package, of version {__version__}") from None
    _call.argtypes, _call.restype = _arguments, _result

_FIRST_SIZE = 256
_FORMATS = {
    BAD_FORMAT: BadFormat, MISSING: Missing, MISMATCH: Mismatch, NO_CLASS: NoClass, NO_DATA: NoData,
    NOT_UTF8: NoText, BAD_CHARACTER: NoText, NO_MESSAGE: NoMessage,
}


def _fault(answer: Answer) -> Exception:
    """What an answer that is not OK says."""
    kind = _FORMATS.get(answer.code)
    if kind is not None:
        return kind(answer.n)
    if answer.code == NO_MEMORY:
        return MemoryError("the library is out of memory")
    if answer.code == TM_RANGE:
        return TimeError(f"the {TM_FIELDS[answer.n - 1]} of the time is out of its range")
    return LocaleError(f"the library answered {answer.code}, {answer.n}")


def _text(call: Callable, *arguments, size: int = _FIRST_SIZE) -> bytes:
    """The text that a call gives, in a buffer that is made as long as it needs."""
    while True:
        buffer = ctypes.create_string_buffer(size)
        answer = call(buffer, size, *arguments)
        if answer.code == OK:
            return buffer.raw[: answer.n]
        if answer.code != TOO_SMALL or answer.n <= size:
            raise _fault(answer)
        size = answer.n


_PART_FAULTS = {
    TOO_MANY: ("TooMany", "a library has at most 4096 charmaps, 4096 locales and 4096 message catalogs"),
    TOO_LONG: ("TooLong", "a source has less than 2^31 bytes, and all sources less than 2^31 lines"),
    BAD_NAME: ("BadName", NAME_RULE),
    NAME_TWICE: ("NameTwice", "a name is given once"),
    NO_CHARMAP: ("NoCharmap", "a charset is `UTF-8`, `POSIX` or a charmap that is given"),
}
"""What is wrong with a source as a whole."""


def _refused(answer: Answer, fault: Fault, message: bytes, sources: Sequence[Source]) -> Exception:
    """What an answer that is not OK says of sources."""
    if answer.code == BAD_TEXT:
        source = sources[fault.part]
        reason, _, rule = message.decode("utf-8", "replace").partition(": ")
        line = source.text[fault.start : fault.start + fault.length].decode("utf-8", "replace")
        return SourceError(source.file, fault.line, fault.column, reason, rule, line)
    if answer.code in _PART_FAULTS:
        return SourceError(sources[fault.part].file, 0, 0, *_PART_FAULTS[answer.code])
    return _fault(answer)


def _built(sources: Sequence[Source]) -> c_void_p:
    """The library of sources."""
    builder, library = c_void_p(), c_void_p()
    answer = _C.lobj_builder_new(byref(builder))
    if answer.code != OK:
        raise _fault(answer)
    try:
        for source in sources:
            name, label, text = source.name.encode("utf-8"), source.label.encode("utf-8"), source.text
            answer = _C.lobj_add(byref(builder), source.kind, name, len(name), label, len(label), text, len(text))
            if answer.code != OK:
                raise _fault(answer)
        fault, message = Fault(), ctypes.create_string_buffer(4 * _FIRST_SIZE)
        answer = _C.lobj_build(builder, byref(library), byref(fault), message, len(message))
        if answer.code != OK:
            raise _refused(answer, fault, message.value, sources)
    finally:
        _C.lobj_builder_free(builder)
    return library


class Handle:
    """A library, which is freed with this handle."""

    __slots__ = ("_at", "_end", "__weakref__")

    def __init__(self, at: c_void_p):
        self._at = at
        self._end = weakref.finalize(self, _C.lobj_library_free, at)
        # (at the end of the process nothing is freed: another thread may still read)
        self._end.atexit = False

    @classmethod
    def of(cls, sources: Sequence[Source]) -> "Handle":
        return cls(_built(sources))

    def joined(self, other: "Handle") -> "Handle":
        at = c_void_p()
        answer = _C.lobj_join(self._at, other._at, byref(at))
        if answer.code == TOO_MANY:
            raise SourceError("the joined library", 0, 0, *_PART_FAULTS[TOO_MANY])
        if answer.code != OK:
            raise _fault(answer)
        return Handle(at)

    def posix(self) -> LocaleValue:
        out = LocaleValue()
        _C.lobj_posix_locale(self._at, byref(out))
        return out

    def new(self, mask: int, name: bytes, base: LocaleValue) -> LocaleValue:
        out = LocaleValue()
        answer = _C.lobj_newlocale(self._at, mask, name, len(name), base, byref(out))
        if answer.code != OK:
            raise _fault(answer)
        return out

    def money(self, by: LocaleValue, format: bytes, amounts: Sequence[Tuple[int, int]]) -> bytes:
        given = (AmountValue * len(amounts))(*amounts)
        return _text(_C.lobj_strfmon, self._at, by, format, len(format), given, len(amounts))

    def time(self, by: LocaleValue, format: bytes, tm: TmValue, zone: bytes) -> bytes:
        return _text(_C.lobj_strftime, self._at, by, format, len(format), byref(tm), zone, len(zone))

    def number(self, by: LocaleValue, format: bytes, numbers: Sequence[int]) -> bytes:
        given = (c_int64 * len(numbers))(*numbers)
        return _text(_C.lobj_int_format, self._at, by, format, len(format), given, len(numbers))

    def read_number(self, by: LocaleValue, text: bytes) -> int:
        out = c_int64()
        answer = _C.lobj_int_read(self._at, by, text, len(text), byref(out))
        if answer.code != OK:
            raise _fault(answer)
        return out.value

    def name(self, by: LocaleValue, mask: int) -> bytes:
        return _text(_C.lobj_locale_name, self._at, by, mask)

    def item(self, by: LocaleValue, item: int) -> bytes:
        return _text(_C.lobj_nl_langinfo, self._at, by, item)

    def conv(self, by: LocaleValue, decoded: Callable[[bytes], str]) -> Dict[str, object]:
        found: Dict[str, object] = {}
        for number, name in enumerate(CONV_TEXTS):
            text = _text(_C.lobj_conv_text, self._at, by, number)
            found[name] = list(text) if name.endswith("grouping") else decoded(text)
        numbers = ConvValue()
        answer = _C.lobj_localeconv(self._at, by, byref(numbers))
        if answer.code != OK:
            raise _fault(answer)
        found.update((name, getattr(numbers, name)) for name in CONV_NUMBERS)
        return found

    def is_class(self, by: LocaleValue, value: int, name: bytes) -> bool:
        answer = _C.lobj_iswctype(self._at, by, value, name, len(name))
        if answer.code != OK:
            raise _fault(answer)
        return bool(answer.n)

    def upper(self, by: LocaleValue, value: int) -> int:
        return _C.lobj_towupper(self._at, by, value).n

    def lower(self, by: LocaleValue, value: int) -> int:
        return _C.lobj_towlower(self._at, by, value).n

    def upper_text(self, by: LocaleValue, text: bytes) -> bytes:
        return _text(_C.lobj_upper_text, self._at, by, text, len(text), size=len(text) + 64)

    def lower_text(self, by: LocaleValue, text: bytes) -> bytes:
        return _text(_C.lobj_lower_text, self._at, by, text, len(text), size=len(text) + 64)

    def parse(self, by: LocaleValue, text: bytes, format: bytes) -> Tuple[List[int], int]:
        fields = ParsedValue()
        answer = _C.lobj_strptime(self._at, by, text, len(text), format, len(format), byref(fields))
        if answer.code != OK:
            raise _fault(answer)
        return [getattr(fields, name) for name, _ in ParsedValue._fields_], answer.n

    def catalog(self, by: LocaleValue, name: bytes) -> Optional[CatalogValue]:
        out = CatalogValue()
        answer = _C.lobj_catopen(self._at, by, name, len(name), byref(out))
        if answer.code == NO_CATALOG:
            return None
        if answer.code != OK:
            raise _fault(answer)
        return out

    def message(self, of: CatalogValue, set: int, number: int) -> Optional[bytes]:
        try:
            return _text(_C.lobj_catgets, self._at, of, set, number)
        except NoMessage:
            return None
