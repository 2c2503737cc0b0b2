"""Amounts and times in the form that the library takes."""

from __future__ import annotations

import datetime
import struct
import time
from decimal import Decimal
from operator import index
from typing import Any, NamedTuple, Optional, Tuple, Union

from ._faults import AmountError, TimeError

Amount = Union[Decimal, int]
Moment = Union[datetime.datetime, datetime.date, time.struct_time]

MOST_SCALE = 18
"""The most fraction digits of an amount."""

LEAST, MOST = -(2**63), 2**63 - 1
MOST_DIGITS = len(str(MOST))
LEAST_FIELD, MOST_FIELD = -(2**31), 2**31 - 1

TM_FIELDS = ("year", "month", "day", "hour", "minute", "second", "day of the week", "day of the year", "offset")

DAYS_BEFORE = (0, -1, 30, 58, 89, 119, 150, 180, 211, 242, 272, 303, 333)
"""The days of a year without a leap day before each month from 1 on, less one."""

_pack = struct.Struct("@8i?i").pack_into

DIGITS_FIT = "its digits without the point are a number from -2^63 to 2^63 - 1"

FLOAT_REFUSED = (
    "an amount is a Decimal or an int: a float holds most decimal fractions only nearly, so that 0.1 + 0.2 is not "
    "0.3; write Decimal('0.10')"
)


def shown(amount: Amount) -> str:
    """An amount in a sentence, cut where it is long."""
    if isinstance(amount, int) and amount.bit_length() > 200:
        return f"an int of {amount.bit_length()} bits"
    text = str(amount)
    return text if len(text) <= 80 else f"{text[:60]}..."


def amount_parts(amount: Amount) -> Tuple[int, int]:
    """The units and the scale of an amount: it is units / 10 ** scale, exactly."""
    kind = type(amount)
    if kind is Decimal:
        told = str(amount)
        if len(told) <= MOST_SCALE:
            whole, _, part = told.partition(".")
            try:
                return int(whole + part), len(part)
            except ValueError:
                # (with an exponent, or not finite)
                pass
    elif kind is int and LEAST <= amount <= MOST:
        return amount, 0
    return _checked_parts(amount)


def _checked_parts(amount: Amount) -> Tuple[int, int]:
    if isinstance(amount, bool) or isinstance(amount, float):
        raise TypeError(FLOAT_REFUSED if isinstance(amount, float) else "an amount is a Decimal or an int, and no bool")
    if isinstance(amount, int):
        units, scale = int(amount), 0
    elif isinstance(amount, Decimal):
        units, scale = _decimal_parts(amount)
    else:
        raise TypeError(f"an amount is a Decimal or an int, and not a {type(amount).__name__}")
    if not LEAST <= units <= MOST:
        raise AmountError(f"{shown(amount)} does not fit 64 bits: {DIGITS_FIT}")
    return units, scale


def _decimal_parts(amount: Decimal) -> Tuple[int, int]:
    if not amount.is_finite():
        raise AmountError(f"{shown(amount)} is no amount: it is not finite")
    sign, given, exponent = amount.as_tuple()
    digits = "".join(map(str, given)).lstrip("0")
    if not digits:
        return 0, min(max(-exponent, 0), MOST_SCALE)
    zeros = min(len(digits) - len(digits.rstrip("0")), max(-exponent - MOST_SCALE, 0))
    digits, exponent = digits[: len(digits) - zeros], exponent + zeros
    if -exponent > MOST_SCALE:
        raise AmountError(f"{shown(amount)} has {-exponent} fraction digits: at most {MOST_SCALE} can be told")
    if len(digits) + max(exponent, 0) > MOST_DIGITS:
        raise AmountError(f"{shown(amount)} does not fit 64 bits: {DIGITS_FIT}")
    units = int(digits) * 10 ** max(exponent, 0)
    return -units if sign else units, max(-exponent, 0)


def _minutes(seconds: float) -> int:
    """Seconds east of UTC as whole minutes, towards UTC."""
    try:
        return int(seconds / 60)
    except (OverflowError, ValueError):
        raise TimeError("the offset of the time is out of its range") from None


def put_time(when: Moment, into: Any) -> str:
    """Writes the fields of a time to a `TmValue`, and gives the name of its zone.

    An aware datetime has its own offset and zone; a naive one has neither.
    """
    if type(when) is datetime.datetime:
        year, month, day = when.year, when.month, when.day
        yday = DAYS_BEFORE[month] + day
        if month > 2 and not year % 4 and (year % 100 or not year % 400):
            yday += 1
        if when.tzinfo is None:
            _pack(into, 0, year, month, day, when.hour, when.minute, when.second, when.isoweekday() % 7, yday, False, 0)
            return ""
        offset = when.utcoffset()
        _pack(
            into, 0, year, month, day, when.hour, when.minute, when.second, when.isoweekday() % 7, yday,
            offset is not None, _minutes(offset.total_seconds()) if offset is not None else 0,
        )
        return when.tzname() or ""
    fields, zone = _time_fields(when)
    for number, field in enumerate(fields):
        if not LEAST_FIELD <= index(field) <= MOST_FIELD:
            raise TimeError(f"the {TM_FIELDS[number - (number > 8)]} of the time is out of its range")
    _pack(into, 0, *fields)
    return zone


def _time_fields(when: Moment) -> Tuple[Tuple[int, ...], str]:
    if isinstance(when, datetime.datetime):
        offset = when.utcoffset()
        return (
            when.year, when.month, when.day, when.hour, when.minute, when.second,
            when.isoweekday() % 7, when.timetuple().tm_yday - 1,
            offset is not None, _minutes(offset.total_seconds()) if offset is not None else 0,
        ), when.tzname() or ""
    if isinstance(when, datetime.date):
        return (
            when.year, when.month, when.day, 0, 0, 0, when.isoweekday() % 7, when.timetuple().tm_yday - 1, False, 0
        ), ""
    if isinstance(when, time.struct_time):
        known = when.tm_gmtoff is not None
        return (
            when.tm_year, when.tm_mon, when.tm_mday, when.tm_hour, when.tm_min, when.tm_sec,
            (when.tm_wday + 1) % 7, when.tm_yday - 1,
            known, _minutes(when.tm_gmtoff) if known else 0,
        ), when.tm_zone or ""
    raise TypeError(f"a time is a datetime, a date or a struct_time, and not a {type(when).__name__}")


class ParsedTime(NamedTuple):
    """What a text tells of a time. A field that it does not tell is `None`."""

    year: Optional[int]
    month: Optional[int]
    day: Optional[int]
    hour: Optional[int]
    minute: Optional[int]
    second: Optional[int]
    weekday: Optional[int]
    """From 0, which is Monday, to 6, as in `datetime`."""
    day_of_year: Optional[int]
    """From 1 to 366, as `tm_yday`."""
    end: int
    """The index of the first character that was not read."""

    def date(self) -> datetime.date:
        """The date, where the text tells one: by year, month and day, or by year and day of the year."""
        if self.year is None:
            raise TimeError("the text tells no year")
        try:
            if self.month is not None and self.day is not None:
                return datetime.date(self.year, self.month, self.day)
            if self.day_of_year is not None:
                day = datetime.date(self.year, 1, 1) + datetime.timedelta(days=self.day_of_year - 1)
                if day.year != self.year:
                    raise ValueError("the year has no such day")
                return day
        except (OverflowError, ValueError) as fault:
            raise TimeError(f"the text tells no date that there is: {fault}") from None
        raise TimeError("the text tells no date")

    def datetime(self) -> datetime.datetime:
        """The date with the time of day, in which what is not told is 0."""
        if self.second == 60:
            raise TimeError("a datetime has no leap second")
        return datetime.datetime.combine(self.date(), datetime.time(self.hour or 0, self.minute or 0, self.second or 0))
