"""The calls that are made most, with their arguments kept ready.

A call takes its buffers from a list and puts them back once it has read them. So no two calls share
buffers, also where a thread, a signal handler or a time zone makes one within another. What a fault
leaves out of the list is freed.

These calls keep the interpreter's lock, as they take less time than to give it up and take it again.
"""

from __future__ import annotations

import ctypes
from ctypes import byref, c_char, c_int64, c_size_t, c_void_p
from typing import Any, Dict, List, Optional, Tuple

from ._native import _C, AmountValue, Answer, TmValue

Form = Tuple[bytes, Any]
"""The bytes of a format, and their number as an argument."""

_SIZE = 256
SIZE = c_size_t.from_param(_SIZE)
ONE = c_size_t.from_param(1)

_LONGEST = 64
"""The most characters of a format that is kept."""
_MOST_FORMS = 512

FORMS: Dict[str, Form] = {}
"""The formats, and names of zones, that were given, but for long ones."""

_HELD = ctypes.PyDLL(_C._name, handle=_C._handle)


def _call(name: str) -> Any:
    # (without `argtypes`: each argument is made beforehand in the form in which ctypes hands it on)
    call = _HELD[name]
    call.restype = Answer
    return call


strfmon, strftime, int_format = _call("lobj_strfmon"), _call("lobj_strftime"), _call("lobj_int_format")


def keep(given: str, text: bytes) -> Optional[Form]:
    """Keeps a format for the next call with it, if it is short."""
    if type(given) is not str or len(given) > _LONGEST:
        return None
    if len(FORMS) >= _MOST_FORMS:
        FORMS.clear()
    form = FORMS[given] = (text, c_size_t.from_param(len(text)))
    return form


def pointer(at: c_void_p) -> Any:
    """A pointer as an argument."""
    return c_void_p.from_param(at.value)


def _text() -> Tuple[bytearray, Any]:
    text = bytearray(_SIZE)
    return text, byref((c_char * _SIZE).from_buffer(text))


Buffers = Tuple[bytearray, Any, Any, Any]
"""A buffer for a text, that as an argument, what is given, and that as an argument."""

AMOUNTS: List[Buffers] = []
TIMES: List[Buffers] = []
NUMBERS: List[Buffers] = []


def amount_buffers() -> Buffers:
    given = AmountValue()
    return (*_text(), given, byref(given))


def time_buffers() -> Buffers:
    given = TmValue()
    return (*_text(), given, byref(given))


def number_buffers() -> Buffers:
    given = c_int64()
    return (*_text(), given, byref(given))
