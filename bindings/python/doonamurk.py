"""Calls the proved reserving engine from Python: run, read and write, history for the windows of a long history, hindsight for trial indices on a record's own past,
and flat, fading and shock for indices of inflation rates, over the shared library that bindings/build makes.

    import doonamurk
    results = doonamurk.run(open("examples/motor_account.rec", "rb").read(), year=2026)
    doonamurk.sections(results)["provisions"]        {0: 0, 1: 52, 2: 166, 3: 542}, by origin year
    doonamurk.history(2, 2, [1, 1], [60, 40, 66])    [Position(refused=0, shares=[622641509, 377358491], levels=[9636, 10600])]
    doonamurk.hindsight(record, [1000000]).best      0, the place of the best setting
    doonamurk.flat(0.02, 4)                          [1020000, 1040400, 1061208, 1082432], years 1 to 4 in millionths

A refusal is raised as Refused, with the number of the first question that says no. docs/FORMAT.md has the record, the lists and the questions.

The library is target/lib/libdoonamurk.so of this repository, or the file that the environment variable DOONAMURK_LIBRARY names.

Of every call here:
- A record is bytes, or what else lends its memory as single bytes (bytearray, memoryview, array("B")). It is copied in, and what is returned is a new
  list or new bytes of the caller's own: nothing is kept, and nothing that is handed in is changed.
- The library has no global state: any number of threads may call at once. A bytearray must not be changed by another thread while it is copied in.
- What is refused gives nothing at all: no list, no record.
"""

import ctypes
import operator
import os
from collections import namedtuple
from pathlib import Path

K_MAX = 15
RECORD_MAX = 797
FIELDS_MAX = 203
RESULTS_MAX = 505
YEARS_MAX = 16
# Of a history: its origin years, the development years of one of them, the width of a window, its cells and the entries of its result.
HISTORY_YEARS_MAX = 64
HISTORY_DEVELOPMENT_MAX = 16
WIDTH_MIN, WIDTH_MAX = 2, 16
HISTORY_CELLS_MAX = 904
HISTORY_RESULTS_MAX = 1617
# Of a hindsight run: its settings and the entries of its report.
SETTINGS_MAX = 8
REPORT_MAX = 961

# In the order in which they are asked: 20 and 21 of rates only, which come before a record is made, and 27 and 28 of histories only, whose positions are then
# asked 7 to 10.
QUESTIONS = {
    20: "Is every rate a number from -0.5 to 1.0, a shock's year among the years wanted, and their number from 1 to 16?",
    21: "Is every index of a year wanted from 1 to 5,000,000?",
    27: "Has the history at most 64 years, and is the width from 2 to 16 and no more than the history's years?",
    28: "Have the exposures, the cells and the lent result just the lengths that the years and the width call for, and is every exposure from 1 to 1,000,000 and "
        "every cell from -10^10 to 10^10?",
    1: "Is there a first byte, and is k at least 1?",
    2: "Is the length just what k calls for, and every filling bit zero?",
    3: "Does the list hold all entries?",
    4: "Is every field in its range?",
    5: "Do the reporting shares sum to 1,000,000?",
    6: "Is every given cumulative from 0 to 10^11?",
    13: "Is every chain-ladder base at least 1, and every development factor at most 50,000,000?",
    7: "Is every column and every diagonal of the averages at least 0, and their total at most 10^9?",
    8: "Is T_h - v_h at least 1 for every h from 1 to k?",
    9: "Is every running share at least 1?",
    10: "Is every level at most 10^9?",
    18: "Is the average of what is still to be paid for year 0 after year k at most 10^9?",
    19: "Is the average of what is still to be paid after year k, carried to each year by the indices, at most 5 * 10^9?",
    11: "Is every ultimate at most 10^12?",
    12: "Is the total of paid increments at least 1, and the total of the ULAE totals at most that?",
    15: "From valuation year 2027 on: is the total paid in the latest payment year at least 1?",
    16: "From valuation year 2027 on: is the divisor of the ULAE ratio not 0?",
    17: "From valuation year 2027 on: is the corrected ULAE ratio at most 1,000,000?",
    14: "Is every completed cumulative at most 10^11?",
}

# The writer asks these two otherwise.
WRITE_QUESTIONS = {
    **QUESTIONS,
    1: "Is k from 1 to 15?",
    2: "Has the buffer just the length that k calls for, and each list its own?",
}

# A hindsight run asks one more directly after 2; its record is then asked 3 to 6 and its steps 7 to 10.
HINDSIGHT_QUESTIONS = {
    **QUESTIONS,
    29: "Are there 1 to 8 settings, each from 1 to 5,000,000, and is k at least 2?",
}


class Refused(Exception):
    """The first question that says no: its number, and the question in words. It can be pickled and copied, so that a process pool hands it on."""

    def __init__(self, number, question):
        # An exception is pickled as its class and args, so args are just what this takes.
        super().__init__(number, question)
        self.number = number
        self.question = question

    def __str__(self):
        return f"refused {self.number}: {self.question}"


def cells(k):
    """The cells of a triangle with years 0 to k."""
    return (k + 1) * (k + 2) // 2


def record_bytes(k):
    """The bytes of a record with years 0 to k, for k from 1 to 15."""
    return (155 + 97 * k + 35 * cells(k) + 7) // 8


def field_count(k):
    """The fields of a record with years 0 to k, for k from 1 to 15."""
    return cells(k) + 4 * k + 7


def result_count(k):
    """The entries of a result list with years 0 to k, for k from 1 to 15."""
    return 3 * cells(k) + 6 * k + 7


def history_cells(years):
    """The cells of a history of so many years, row by row: origin year i has its first min(16, years - i) development years."""
    least = min(years, HISTORY_DEVELOPMENT_MAX)
    return least * (least + 1) // 2 + HISTORY_DEVELOPMENT_MAX * (years - least)


def history_count(years, width):
    """The entries of a history's result, for a width of at most its years."""
    return (years - width + 1) * (1 + 2 * width)


def report_count(k, settings):
    """The entries of the report of a hindsight run of so many settings, for k from 2 to 15."""
    return settings * (k * (k + 1) // 2) + 1


# The sections of a result list in their order: name, the years of its entries, unit (docs/FORMAT.md has the same table).
SECTIONS = (
    ("averages", "cells", "hundredths a claim"),
    ("shares", "years", "billionths"),
    ("levels", "years", "hundredths a claim"),
    ("future_levels", "future years", "hundredths a claim"),
    ("payments", "future cells", "currency units"),
    ("provisions", "years", "currency units"),
    ("total_provision", "one", "currency units"),
    ("not_reported", "years", "currency units"),
    ("ulae_reserves", "years", "currency units"),
    ("total_ulae_reserve", "one", "currency units"),
    ("ulae_ratio", "one", "millionths"),
    ("development_factors", "steps", "millionths"),
    ("completed_cumulatives", "future cells", "currency units"),
    ("tail_payments", "years", "currency units"),
)


def _years(shape, k):
    """The years of a section's entries, in the order of the list; None for a section of one entry."""
    origin = range(k + 1)
    return {
        "cells": [(i, j) for i in origin for j in range(k + 1 - i)],
        "future cells": [(i, j) for i in origin for j in range(k + 1 - i, k + 1)],
        "years": list(origin),
        "future years": list(range(k + 1, 2 * k + 1)),
        "steps": list(range(k)),
        "one": [None],
    }[shape]


def sections(results):
    """A result list as a dictionary: the name of each section, and under it its entries by their years, as docs/FORMAT.md gives them: (origin year,
    development year) for cells, one year for the others, and just the number for a section of one entry."""
    counts = {result_count(k): k for k in range(1, K_MAX + 1)}
    if len(results) not in counts:
        raise ValueError(f"results: no result list has {len(results)} entries")
    k = counts[len(results)]
    named, start = {}, 0
    for name, shape, _ in SECTIONS:
        years = _years(shape, k)
        entries = results[start : start + len(years)]
        named[name] = entries[0] if shape == "one" else dict(zip(years, entries))
        start += len(years)
    return named


class _Indices(ctypes.Structure):
    """What flat, fading and shock of the library hand back by value: zeros past the years wanted, or on a refusal."""

    _fields_ = [("refused", ctypes.c_uint64), ("values", ctypes.c_uint64 * YEARS_MAX)]


def _load():
    path = os.environ.get("DOONAMURK_LIBRARY")
    # A name without a folder would be looked for in the folders of the system, so the path is made absolute.
    path = Path(path).resolve() if path else Path(__file__).resolve().parents[2] / "target/lib/libdoonamurk.so"
    if not path.is_file():
        raise OSError(f"{path} is missing: run bindings/build first, it makes it")
    library = ctypes.CDLL(str(path))
    size = ctypes.c_size_t
    byte_list, signed_list, list_ = (ctypes.POINTER(t) for t in (ctypes.c_uint8, ctypes.c_int64, ctypes.c_uint64))
    library.doonamurk_run.restype = library.doonamurk_read.restype = ctypes.c_uint64
    library.doonamurk_run.argtypes = [ctypes.c_uint64, byte_list, size, signed_list, size]
    library.doonamurk_read.argtypes = [byte_list, size, signed_list, size]
    library.doonamurk_write.restype = ctypes.c_uint64
    library.doonamurk_write.argtypes = [
        ctypes.c_uint64, list_, size, signed_list, size, list_, size, list_, size, ctypes.c_uint64, list_, size, ctypes.c_uint64, byte_list, size
    ]
    library.doonamurk_history.restype = ctypes.c_uint64
    library.doonamurk_history.argtypes = [ctypes.c_uint64, ctypes.c_uint64, list_, size, signed_list, size, signed_list, size]
    library.doonamurk_hindsight.restype = ctypes.c_uint64
    library.doonamurk_hindsight.argtypes = [byte_list, size, list_, size, signed_list, size]
    library.doonamurk_flat.restype = library.doonamurk_fading.restype = library.doonamurk_shock.restype = _Indices
    library.doonamurk_flat.argtypes = [ctypes.c_double, ctypes.c_uint64]
    library.doonamurk_fading.argtypes = [ctypes.c_double, ctypes.c_double, ctypes.c_uint64]
    library.doonamurk_shock.argtypes = [ctypes.c_double, ctypes.c_double, ctypes.c_uint64, ctypes.c_uint64]
    return library


_library = _load()


def _bytes_of(record):
    """The bytes of a record, copied. A list of numbers, or memory of wider items, is no record: its length would not be counted in bytes."""
    try:
        view = memoryview(record)
    except TypeError:
        raise TypeError(f"record: bytes are due, not {type(record).__name__}") from None
    if view.itemsize != 1:
        raise TypeError(f"record: items of one byte are due, these have {view.itemsize}")
    return view.tobytes()


def _filled(call, record, count_of):
    """The count_of(k) entries that a call fills from a record, in a buffer of just that length."""
    record = _bytes_of(record)
    count = count_of(record[0] >> 4 if record else 0)
    packed = (ctypes.c_uint8 * len(record)).from_buffer_copy(record)
    entries = (ctypes.c_int64 * count)()
    number = call(packed, len(record), entries, count)
    if number:
        raise Refused(number, QUESTIONS[number])
    return list(entries)


def _years_of(name, years):
    """A year, or a number of years, as a whole number that 64 bits hold; ctypes would cut any other."""
    try:
        years = operator.index(years)
    except TypeError:
        raise TypeError(f"{name}: a whole number is due, not {type(years).__name__}") from None
    if not 0 <= years < 2**64:
        raise ValueError(f"{name}: {years} is not from 0 to 2^64 - 1")
    return years


def run(record, year):
    """The result list of a record for a valuation year, a list of whole numbers. From 2027 on the ULAE ratio is corrected for growth.

    Refusals: raises Refused with the first of questions 1 to 19 that says no, 15 to 17 only from 2027 on; question 3 never does, for the list is made as long
    as it must be. Raises ValueError where the year is not from 0 to 2^64 - 1, and TypeError where it is no whole number or where the record is not bytes or
    memory of single bytes.
    Ownership: the record is copied in and not changed or kept; the list is a new one, the caller's.
    Threads: any number may call at once, with the same record too."""
    year = _years_of("year", year)
    return _filled(lambda *buffers: _library.doonamurk_run(year, *buffers), record, result_count)


def read(record):
    """The fields of a record in its order, k first, increments signed: a list of whole numbers.

    Refusals: raises Refused with the first of questions 1, 2, 4 and 5 that says no; question 3 never does, for the list is made as long as it must be.
    Raises TypeError where the record is not bytes or memory of single bytes.
    Ownership: the record is copied in and not changed or kept; the list is a new one, the caller's.
    Threads: any number may call at once, with the same record too."""
    return _filled(_library.doonamurk_read, record, field_count)


def _numbers(name, kind, values):
    """The values of an argument as a C list. ctypes would cut one that 64 bits cannot hold, so it is refused here, by the argument's name."""
    bits = 8 * ctypes.sizeof(kind)
    least, most = (-(2 ** (bits - 1)), 2 ** (bits - 1) - 1) if kind is ctypes.c_int64 else (0, 2**bits - 1)
    try:
        numbers = [operator.index(value) for value in values]
    except TypeError as wrong:
        raise TypeError(f"{name}: whole numbers are due ({wrong})") from None
    for place, value in enumerate(numbers):
        if not least <= value <= most:
            raise OverflowError(f"{name}: number {place + 1} is {value}, not from {least} to {most}")
    return (kind * len(numbers))(*numbers)


def write(k, exposures, increments, indices, reporting, weight, ulae, tail):
    """The record (bytes) of the given fields: k, k + 1 exposures, the paid increments row by row, k + 1 future indices, k + 1 reporting shares, the
    reporting weight, k + 1 ULAE totals and the amount still to be paid for year 0 after year k.

    Refusals: raises Refused with the first of questions 1, 2, 4 and 5 that says no, OverflowError for a number that 64 bits cannot hold, and TypeError for one
    that is no whole number; the last two name the argument.
    Ownership: the numbers are copied in and no list is changed or kept; the record is new bytes, the caller's.
    Threads: any number may call at once, with the same lists too as long as none of them is changed meanwhile."""
    natural = ctypes.c_uint64
    k, weight, tail = (_numbers(name, natural, [value])[0] for name, value in (("k", k), ("weight", weight), ("tail", tail)))
    # A k past 15 is refused under question 1 whatever the buffer, so it need not be large.
    record = (ctypes.c_uint8 * record_bytes(min(k, K_MAX)))()
    lists = [_numbers(*argument) for argument in
             (("exposures", natural, exposures), ("increments", ctypes.c_int64, increments), ("indices", natural, indices),
              ("reporting", natural, reporting), ("ulae", natural, ulae))]
    n, c, e, b, u = ((values, len(values)) for values in lists)
    number = _library.doonamurk_write(k, *n, *c, *e, *b, weight, *u, tail, record, len(record))
    if number:
        raise Refused(number, WRITE_QUESTIONS[number])
    return bytes(record)


# A position of a window: 0 or the first of questions 7 to 10 that says no, the shares in billionths by development year, and the levels in hundredths a claim by
# payment year, counted from the position's first; zeros where it is refused.
Position = namedtuple("Position", "refused shares levels")


def history(years, width, exposures, cells):
    """Slides a window of `width` origin years over a history, one origin year at a time up to the latest payment year: a list of a Position for each of its
    years - width + 1 positions, the oldest first. Position a is the triangle of the origin years a to a + width - 1 and of their cells that are paid by the last
    of them.

    The history has `years` origin years, at most 64, the oldest first; `exposures` one for each, from 1 to 1,000,000; and `cells` the paid increments row by row,
    from -10^10 to 10^10, history_cells(years) of them: origin year i has its first min(16, years - i) development years.

    Refusals: a position that one of questions 7 to 10 refuses has its number, and zeros. Raises Refused for the whole with 27 where `years` is above 64 or `width`
    outside 2 to 16 or above `years`, then with 28 where a list has another length or a number is out of its range, one that no window has too. Raises
    OverflowError for a number that 64 bits cannot hold, and TypeError for one that is no whole number; both name the argument.
    Ownership: the numbers are copied in and no list is changed or kept; the positions are new, the caller's.
    Threads: any number may call at once, with the same lists too as long as none of them is changed meanwhile."""
    natural = ctypes.c_uint64
    years, width = (_numbers(name, natural, [value])[0] for name, value in (("years", years), ("width", width)))
    exposures, cells = _numbers("exposures", natural, exposures), _numbers("cells", ctypes.c_int64, cells)
    # Other years or another width are refused under question 27 whatever the result, so it need not be large.
    count = history_count(years, width) if width <= years <= HISTORY_YEARS_MAX else 0
    result = (ctypes.c_int64 * count)()
    number = _library.doonamurk_history(years, width, exposures, len(exposures), cells, len(cells), result, count)
    if number:
        raise Refused(number, QUESTIONS[number])
    places = range(0, count, 1 + 2 * width)
    return [Position(result[at], result[at + 1 : at + 1 + width], result[at + 1 + width : at + 1 + 2 * width]) for at in places]


# A report of a hindsight run: what it says of each setting, and the place of the best setting, from 0. Of a setting: its steps, the largest triangle first, and the
# sum of their absolute gaps. A step of the payment years 0 to K: 0 or the first of questions 7 to 10 that says no of it, and for the origin years 1 to K what is paid
# in year K + 1 less what is forecast; zeros where it is refused.
Report = namedtuple("Report", "settings best")
Tried = namedtuple("Tried", "steps sum")
Step = namedtuple("Step", "refused gaps")


def hindsight(record, settings):
    """Tries one-year indices, the settings, on a record's own past: a Report. For each setting the latest payment years are dropped one after another down to a
    triangle of two years; each step is fitted, and what it forecasts of the year after is held to what is paid in it. The best setting has the smallest sum of
    absolute gaps, the first on a tie.

    `settings` are 1 to 8 whole numbers in millionths, each 1 to 5,000,000. Of the record only k, the exposures and the increments take part.

    Refusals: a step that one of questions 7 to 10 refuses has its number, the same under every setting, and zeros, and counts for no setting; where all are refused
    the best is 0. Raises Refused for the whole with the first of questions 1, 2, 29, 4, 5 and 6, in this order, that says no; question 3 never does, for the report
    is made as long as it must be, and no later one is asked of the record. Raises OverflowError for a setting that 64 bits cannot hold, and TypeError for one that
    is no whole number or where the record is not bytes or memory of single bytes.
    Ownership: the record and the numbers are copied in and not changed or kept; the report is new, the caller's.
    Threads: any number may call at once, with the same record too."""
    record = _bytes_of(record)
    settings = _numbers("settings", ctypes.c_uint64, settings)
    k = record[0] >> 4 if record else 0
    # More settings are refused under question 29 whatever the report, so it need not be large.
    count = report_count(k, min(len(settings), SETTINGS_MAX))
    packed = (ctypes.c_uint8 * len(record)).from_buffer_copy(record)
    entries = (ctypes.c_int64 * count)()
    number = _library.doonamurk_hindsight(packed, len(record), settings, len(settings), entries, count)
    if number:
        raise Refused(number, HINDSIGHT_QUESTIONS[number])
    rest = iter(entries)
    tried = []
    for _ in range(len(settings)):
        steps = [Step(next(rest), [next(rest) for _ in range(gaps)]) for gaps in range(k - 1, 0, -1)]
        tried.append(Tried(steps, next(rest)))
    return Report(tried, next(rest))


def _rate_of(name, rate):
    """A rate as a float, which has the 64 bits that are due; another number is rounded to one. A text is no number, so float() will not do: it reads one."""
    try:
        return ctypes.c_double(rate).value
    except TypeError:
        raise TypeError(f"{name}: a number is due, not {type(rate).__name__}") from None
    except OverflowError:
        raise OverflowError(f"{name}: the number is too large for a float") from None


def _wanted(call, *arguments):
    """The indices that a call hands back, of just the years wanted, which are its last argument."""
    indices = call(*arguments)
    if indices.refused:
        raise Refused(indices.refused, QUESTIONS[indices.refused])
    return indices.values[: arguments[-1]]


def flat(rate, years):
    """The indices of one flat rate in years 1 to `years`, in millionths: a list of whole numbers. A rate of 0.02 is two percent.

    A path starts at 1.0 and is multiplied each year by 1.0 plus that year's rate; a year's index is the path times 1,000,000.0 to the nearest whole number, halves up.
    Every operation is rounded to a float by itself.

    Refusals: raises Refused with 20 where a rate is not a number or lies outside -0.5 to 1.0, one that no year uses too, or where `years` is not from 1 to
    16; then with 21 where an index leaves 1 to 5,000,000. The limits are inside, and so is -0.0. Raises TypeError for a rate that is of no numeric type or
    years that are of no whole one, ValueError for years that are not from 0 to 2^64 - 1, and OverflowError for a rate too large for a float; all of them name
    the argument.
    Ownership: nothing is kept; the list is a new one, the caller's.
    Threads: any number may call at once."""
    return _wanted(_library.doonamurk_flat, _rate_of("rate", rate), _years_of("years", years))


def fading(rate, long_run, years):
    """The indices of a rate that moves halfway each year toward a long-run rate: `rate` in year 1, and in each later one
    long_run + 0.5 * (the rate of the year before - long_run). Else as flat; `long_run` is asked about for a single year too."""
    return _wanted(_library.doonamurk_fading, _rate_of("rate", rate), _rate_of("long_run", long_run), _years_of("years", years))


def shock(rate, other, year, years):
    """The indices of a shock, `rate` in the one named `year`, the first being year 1, with the rate `other` in the others. Else as flat; refused with 20 too
    where `year` is not from 1 to `years`, and `other` is asked about where the shock is in the only year too."""
    return _wanted(_library.doonamurk_shock, _rate_of("rate", rate), _rate_of("other", other), _years_of("year", year), _years_of("years", years))
