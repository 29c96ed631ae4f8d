"""Esfenruk: one day's SYNOP reports of up to 32 stations, checked and summed up, one day line a station.

    >>> import datetime, esfenruk
    >>> store = esfenruk.Store.open(datetime.date(2024, 4, 11), [(40001, esfenruk.Row.LOWLAND)])
    >>> store.file("AAXX 11061 40001 12360 62704 10103 20071 40132 60042=")
    >>> store.settle(40001)
    >>> line = store.day(40001)
    >>> line.warmest, line.rain, line.read
    (0, None, 7)

A refused call raises `Refused`, which has the refusal's number and says what it means. A refusal changes no byte of the store. Each
call's refusals are named in the order in which they are tested: the first that holds is raised.

    >>> store.settle(40002)
    Traceback (most recent call last):
    esfenruk.Refused: refused 6: the station is not in the store

What is not there is None: no total is not a total of 0. So ask `line.rain is None`, not `not line.rain`, which a dry day is too.

The calls are those of the shared library that tools/install links, by `ctypes`. A whole number that C's type has no room for is handed
on as the type's largest, which every call refuses. The interpreter's lock, where it has one, is held during a call, so that threads may
share a store.
"""

import ctypes
import datetime
import enum
import operator
import os
import pathlib
from dataclasses import dataclass
from typing import Iterable, List, Optional, Tuple, Union

__all__ = [
    "HIGHEST_RANK",
    "ORDINARY",
    "SLOTS",
    "STATIONS",
    "VAPOUR_TABLE",
    "Cell",
    "DayLine",
    "Element",
    "Flag",
    "Kind",
    "Mean",
    "Refusal",
    "Refused",
    "Row",
    "State",
    "Store",
    "Tally",
    "hour",
    "vapour_table",
]
__version__ = "0.7.0"

#: The rank of a report that amends none.
ORDINARY = 0
#: The highest rank of a report: 1 to 24 are the amended ones, CCA to CCX.
HIGHEST_RANK = 24
#: How many stations a store has at most.
STATIONS = 32
#: How many slots a day D has: 06, 09, 12, 15, 18, 21 UTC of D, then 00, 03, 06 UTC of the day after it.
SLOTS = 9
#: How many numbers the vapour table has.
VAPOUR_TABLE = 1001


def hour(slot: int) -> int:
    """The hour of a slot, 0 to 8, UTC: 6, 9, 12, 15, 18, 21 of the store's day, then 0, 3, 6 of the day after it."""
    if operator.index(slot) not in range(SLOTS):
        raise ValueError(f"there is no slot {slot}")
    return (6 + 3 * slot) % 24


class Refusal(enum.IntEnum):
    """Why a call was refused. What to do about each stands in the README."""

    UNENDED = 1
    UNKNOWN_BYTE = 2
    SHAPE = 3
    OUT_OF_RANGE = 4
    ORDER = 5
    UNKNOWN_STATION = 6
    NO_SLOT = 7
    FILED = 8
    UNSOUND = 9
    UNOPENABLE = 10
    NOT_SETTLED = 11
    NO_CELL = 12
    RANK = 13
    NOT_UNDER_WAY = 14

    @property
    def meaning(self) -> str:
        """What it means, in a few words."""
        return _MEANINGS[self]


_MEANINGS = {
    Refusal.UNENDED: "the text is empty or too long, or its = is absent, early or not last",
    Refusal.UNKNOWN_BYTE: "a byte other than 0-9, A-Z, /, space, CR, LF and =",
    Refusal.SHAPE: "a group without its shape, the first not AAXX, or NIL not fourth and last",
    Refusal.OUT_OF_RANGE: "YY not 01-31, GG not 00-23, iw not 0, 1, 3 or 4, or IIiii 00000",
    Refusal.ORDER: "too few groups, or groups out of order",
    Refusal.UNKNOWN_STATION: "the station is not in the store",
    Refusal.NO_SLOT: "no slot of the store's day has that day and hour",
    Refusal.FILED: "the slot is filed already with this rank",
    Refusal.UNSOUND: "the store is unsound",
    Refusal.UNOPENABLE: "not 1 to 32 stations, a wrong length, a bad date, a row not 0 or 1, or numbers not ascending in 1 to 99999",
    Refusal.NOT_SETTLED: "the station is not settled",
    Refusal.NO_CELL: "an element or slot above 8",
    Refusal.RANK: "the rank is above 24 or below that of the report in the slot",
    Refusal.NOT_UNDER_WAY: "no settling of the station is under way",
}


class Refused(Exception):
    """A call was refused; `refusal` tells why."""

    def __init__(self, refusal: Refusal):
        super().__init__(refusal)
        self.refusal = refusal

    def __str__(self) -> str:
        return f"refused {self.refusal.value}: {self.refusal.meaning}"


class Row(enum.IntEnum):
    """A station's climate row: by it go the limits of T, D, X and M."""

    LOWLAND = 0
    HILL = 1


class Element(enum.IntEnum):
    """What is measured; `unit` is that of a cell's value. A day's values fill few of the 18 cells of X and M, and of the nine of R."""

    TEMPERATURE = 0
    DEW_POINT = 1
    PRESSURE = 2
    WIND_SPEED = 3
    CLOUD = 4
    VISIBILITY = 5
    RAIN = 6
    MAXIMUM = 7
    MINIMUM = 8

    @property
    def letter(self) -> str:
        """As the rules call it."""
        return "TDPWCVRXM"[self]

    @property
    def unit(self) -> str:
        """The unit of a cell's value."""
        return _UNITS[self]


_UNITS = {
    Element.TEMPERATURE: "tenths of °C",
    Element.DEW_POINT: "tenths of °C",
    Element.PRESSURE: "tenths of hPa",
    Element.WIND_SPEED: "tenths of m/s",
    Element.CLOUD: "eighths of the sky",
    Element.VISIBILITY: "hundreds of metres",
    Element.RAIN: "tenths of mm",
    Element.MAXIMUM: "tenths of °C",
    Element.MINIMUM: "tenths of °C",
}


class State(enum.IntEnum):
    """How a cell came to what it holds.

    MISSING: it holds nothing.
    READ: as the report gave it, or the rain 0 of a dry station.
    CORRECTED: a temperature whose sign was mended.
    FILLED: from its two neighbours in time.
    HUMIDITY: read; a relative humidity in place of a dew point, in cells of `Element.DEW_POINT` alone.
    """

    MISSING = 0
    READ = 1
    CORRECTED = 2
    FILLED = 3
    HUMIDITY = 4


class Flag(enum.IntEnum):
    """What the last test that doubted a value was. A missing or filled cell with a flag other than NONE had a value discarded.

    RANGE: it was outside its limits.
    INTERNAL: it did not go with another value of the report.
    TIME: it was too far from both neighbours in time.
    SUSPECT: it was doubted, and kept; it counts as read, and nothing but this flag tells.
    """

    NONE = 0
    RANGE = 1
    INTERNAL = 2
    TIME = 3
    SUSPECT = 4


@dataclass(frozen=True)
class Cell:
    """One checked cell.

    state, flag: how it came to what it holds, and what the last test that doubted it was.
    value: in the element's unit; None where the cell is missing or has a humidity.
    humidity: percent; None in any other state than HUMIDITY.
    """

    state: State
    flag: Flag
    value: Optional[int]
    humidity: Optional[int] = None


class Kind(enum.IntEnum):
    """How a mean came about.

    ABSENT: a slot of 0 to 7 has no value; it is missing, or a humidity in the place of a dew point.
    READ: all eight are read.
    MENDED: one or more of them are corrected or filled.
    """

    ABSENT = 0
    READ = 1
    MENDED = 2


@dataclass(frozen=True)
class Mean:
    """A mean over slots 0 to 7, exact; its value is None where it is absent."""

    kind: Kind
    value: Optional[float]


@dataclass(frozen=True)
class DayLine:
    """The day line of a station.

    temperature, dew_point: means in tenths of °C.
    pressure: mean in tenths of hPa.
    wind_speed: mean in tenths of m/s.
    cloud: mean in eighths of the sky.
    vapour_pressure: mean in hundredths of hPa; of a humidity, its share of the pressure at the temperature.
    rain: 06 UTC to 06 UTC in tenths of mm, 0 on a dry day; None where there is no total.
    warmest: of slots 0 to 7 the latest of the warmest; None without any temperature.
    coldest: of slots 0 to 7 the earliest of the coldest; None without any temperature.
    read, corrected, filled, missing: how many of the 81 checked cells are so; suspect ones and humidities are read. On a whole day 20
    or so are missing.
    """

    temperature: Mean
    dew_point: Mean
    pressure: Mean
    wind_speed: Mean
    cloud: Mean
    vapour_pressure: Mean
    rain: Optional[int]
    warmest: Optional[int]
    coldest: Optional[int]
    read: int
    corrected: int
    filled: int
    missing: int


@dataclass(frozen=True)
class Tally:
    """How many reports of a bulletin were accepted, NIL too, and how many refused, each as `Store.file` would."""

    accepted: int
    refused: int


#: A date, or year, month and day where it may be none.
Date = Union[datetime.date, Tuple[int, int, int]]
Text = Union[str, bytes, bytearray]
Bytes = Union[bytes, bytearray, memoryview]


class Store:
    """One day of 1 to 32 stations: a buffer of bytes, and the calls on it. Stores are equal where their bytes are; a copy has bytes of
    its own."""

    def __init__(self, size: int):
        """A buffer of zeros, for `open` and `from_bytes`."""
        self._buffer = (ctypes.c_uint8 * size)()

    @classmethod
    def open(cls, date: Date, stations: Iterable[Tuple[int, int]]) -> "Store":
        """A fresh store for a date and stations, ascending, each with its climate row: 10."""
        year, month, day = (date.year, date.month, date.day) if isinstance(date, datetime.date) else map(_whole, date)
        pairs = list(stations)
        # More stations than a store has are refused at any length.
        store = cls(_HEADER + _STATION * min(len(pairs), STATIONS))
        numbers = (ctypes.c_uint32 * len(pairs))(*(_whole(number) for number, _ in pairs))
        rows = (ctypes.c_uint16 * len(pairs))(*(_whole(row, 16) for _, row in pairs))
        store._call("open", year, month, day, numbers, len(pairs), rows, len(pairs))
        return store

    @classmethod
    def from_bytes(cls, data: Bytes) -> "Store":
        """A store of the bytes that another one gave. Bytes that are no store are refused 9 by each call."""
        whole = memoryview(data).tobytes()
        store = cls(len(whole))
        store._buffer[:] = whole
        return store

    def __bytes__(self) -> bytes:
        """The bytes of the store, to be kept and given to `from_bytes` again."""
        return bytes(self._buffer)

    def __eq__(self, other: object) -> bool:
        return bytes(self) == bytes(other) if isinstance(other, Store) else NotImplemented

    def __reduce__(self):
        """For `copy` and `pickle`."""
        return type(self).from_bytes, (bytes(self),)

    def file(self, text: Text, rank: int = ORDINARY) -> None:
        """Files a report at a rank: 9, 13 (above 24), 1 to 7, 13 (below the rank of the report in the slot), 8.

        The text is at most 512 bytes, `AAXX` to `=`; it names its slot by day of the month and hour alone. A higher rank, 1 to 24 for
        CCA to CCX, replaces all nine values of the slot: what the new report leaves out is missing. The station is no longer settled.
        NIL is accepted at any rank up to 24 and changes nothing. A report with iR 3 and no group 6 is a dry station's: its rain is 0,
        for 12 hours (tR 2) at slots 0, 4 and 8 and for 6 hours (tR 1) at slots 2 and 6, and missing at the others.
        """
        self._call("file", *_text(text), _whole(rank))

    def bulletin(self, text: Text, rank: int = ORDINARY) -> Tally:
        """Files the reports of a bulletin in order, all at one rank: 9, 13 (above 24), 1, 3, 4, for the whole.

        The text is the heading `AAXX YYGGiw` and then reports without it, each ended by `=`, at most 16384 bytes.
        """
        counts = (ctypes.c_uint32 * 2)()
        self._call("bulletin", *_text(text), _whole(rank), counts)
        return Tally(*counts)

    def settle(self, station: int) -> None:
        """Checks, mends and fills the station's values: 9, 6. A settling under way is dropped."""
        self._call("settle", _whole(station))

    def begin(self, station: int) -> None:
        """Begins to settle a station in portions, four calls of `step`: 9, 6.

        Where no report for the station comes in between they leave it as `settle` does. Reports may be filed meanwhile: the settling
        goes on with the values that the station had at `begin`, and after the fourth step the station is settled if no report but NIL
        was accepted for it since. Until it is settled its cells and its day line are refused 11.
        """
        self._call("begin", _whole(station))

    def step(self, station: int) -> None:
        """Does the step that is due, range, internal, time or fill: 9, 6, 14."""
        self._call("step", _whole(station))

    def cell(self, station: int, element: int, slot: int) -> Cell:
        """One checked cell: 9, 6, 12, 11."""
        out = (ctypes.c_int32 * 3)()
        self._call("cell", _whole(station), _whole(element), _whole(slot), out)
        state, flag, number = State(out[0]), Flag(out[1]), out[2]
        humid = state == State.HUMIDITY
        return Cell(state, flag, None if humid or state == State.MISSING else number, number if humid else None)

    def day(self, station: int) -> DayLine:
        """The day line of a station: 9, 6, 11."""
        means, numbers = (ctypes.c_double * 6)(), (ctypes.c_int32 * 14)()
        self._call("day", _whole(station), means, numbers)
        kinds = [Kind(number) for number in numbers[:6]]
        return DayLine(
            *(Mean(kind, None if kind == Kind.ABSENT else mean) for kind, mean in zip(kinds, means)),
            numbers[7] if numbers[6] else None,
            *(None if slot < 0 else slot for slot in numbers[8:10]),
            *numbers[10:],
        )

    def _call(self, name: str, *arguments) -> None:
        """The call of that name on the buffer; what refuses it is raised."""
        answer = getattr(_library, f"esfenruk_{name}")(self._buffer, len(self._buffer), *arguments)
        if answer:
            raise Refused(Refusal(answer))


def vapour_table() -> List[int]:
    """The vapour pressure, hundredths of hPa, at each dew point from -500 to 500 tenths of a degree, computed by the recurrence."""
    entries = (ctypes.c_uint16 * VAPOUR_TABLE)()
    needed = _library.esfenruk_vapour_table(entries, len(entries))
    if needed:
        raise RuntimeError(f"the library's vapour table has {needed} numbers")
    return list(entries)


# A store of n stations has so many bytes: ESFENRUK_LENGTH(n).
_HEADER, _STATION = 16, 710


def _whole(number: int, bits: int = 32) -> int:
    """The number as C takes it. One outside its type stands for the type's largest, which each call refuses."""
    number = operator.index(number)
    largest = (1 << bits) - 1
    return number if 0 <= number <= largest else largest


def _text(text: Text) -> Tuple[bytes, int]:
    """A text's bytes and their number."""
    data = text.encode("utf-8", "surrogatepass") if isinstance(text, str) else memoryview(text).tobytes()
    return data, len(data)


# What each call takes behind the store and its length, as in the header.
_NUMBER, _LENGTH, _DATA = ctypes.c_uint32, ctypes.c_size_t, ctypes.c_char_p
_ARGUMENTS = {
    "open": (_NUMBER, _NUMBER, _NUMBER, ctypes.POINTER(ctypes.c_uint32), _LENGTH, ctypes.POINTER(ctypes.c_uint16), _LENGTH),
    "file": (_DATA, _LENGTH, _NUMBER),
    "bulletin": (_DATA, _LENGTH, _NUMBER, ctypes.POINTER(ctypes.c_uint32)),
    "settle": (_NUMBER,),
    "begin": (_NUMBER,),
    "step": (_NUMBER,),
    "cell": (_NUMBER, _NUMBER, _NUMBER, ctypes.POINTER(ctypes.c_int32)),
    "day": (_NUMBER, ctypes.POINTER(ctypes.c_double), ctypes.POINTER(ctypes.c_int32)),
}


def _load() -> ctypes.PyDLL:
    """The shared library of this version: in the folder ESFENRUK_DIR, where tools/install put it beside this file or in the
    repository's target/installed, or where the system looks for libraries."""
    name = f"libesfenruk.so.{__version__.rpartition('.')[0]}"
    here = pathlib.Path(__file__).resolve().parent
    named = os.environ.get("ESFENRUK_DIR")
    places = [named] if named else [here / "../../../lib", here / "../../target/installed/lib"]
    folders = [pathlib.Path(place).resolve() for place in places]
    found = next((str(folder / name) for folder in folders if (folder / name).is_file()), name)
    try:
        library = ctypes.PyDLL(found)
    except OSError as error:
        where = ", ".join(str(folder) for folder in folders)
        raise ImportError(f"{name} is not in {where}; run tools/install, or set ESFENRUK_DIR to its folder ({error})") from error
    for call, arguments in _ARGUMENTS.items():
        function = getattr(library, f"esfenruk_{call}")
        function.argtypes = (ctypes.POINTER(ctypes.c_uint8), _LENGTH, *arguments)
        function.restype = _NUMBER
    library.esfenruk_vapour_table.argtypes = (ctypes.POINTER(ctypes.c_uint16), _LENGTH)
    library.esfenruk_vapour_table.restype = _NUMBER
    return library


_library = _load()
