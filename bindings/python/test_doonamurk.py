"""Taylor's motor account, document 01's two years, payments after the last year, valuation years, refusals, the way from fields to a record and back, the
windows of histories, hindsight runs, and indices of inflation rates.

    python3 -m unittest discover bindings/python
"""

import array
import copy
import ctypes
import decimal
import fractions
import math
import multiprocessing
import os
import pickle
import struct
import subprocess
import sys
import threading
import unittest
from pathlib import Path

sys.path.insert(0, str(Path(__file__).resolve().parent))
import doonamurk

MOTOR = dict(
    k=3,
    exposures=[1, 1, 1, 1],
    increments=[504, 282, 90, 48, 580, 292, 97, 595, 332, 662],
    indices=[1100000, 1210000, 1331000, 1000000],
    reporting=[700000, 200000, 80000, 20000],
    weight=500000,
    ulae=[20, 25, 30, 35],
    tail=0,
)
TWO_YEARS = dict(k=1, exposures=[1, 1], increments=[60, 40, 66], indices=[1100000, 1000000], reporting=[800000, 200000], weight=500000, ulae=[6, 10], tail=0)
TWO_YEARS_PRINTED = [6000, 4000, 6600, 622641509, 377358491, 9636, 10600, 11660, 44, 0, 44, 44, 0, 22, 0, 3, 3, 96385, 1666666, 109, 0, 0]
SHARES = [583475514, 287767456, 86614799, 42142231]
LEVELS = [86378, 98939, 101998, 113900]


def total_or_number(record):
    """What a worker of a process pool makes of a record."""
    return doonamurk.sections(doonamurk.run(record, 2026))["total_provision"]


class Calls(unittest.TestCase):
    def refused(self, number, call, *arguments, **fields):
        with self.assertRaises(doonamurk.Refused) as caught:
            call(*arguments, **fields)
        self.assertEqual(caught.exception.number, number)
        return caught.exception

    def test_sizes(self):
        for count, first, last in (
            (doonamurk.record_bytes, 45, doonamurk.RECORD_MAX),
            (doonamurk.field_count, 14, doonamurk.FIELDS_MAX),
            (doonamurk.result_count, 22, doonamurk.RESULTS_MAX),
        ):
            self.assertEqual((count(1), count(doonamurk.K_MAX)), (first, last))

    def test_motor_account(self):
        results = doonamurk.run(doonamurk.write(**MOTOR), 2026)
        self.assertEqual(len(results), doonamurk.result_count(3))
        self.assertEqual(results[10:14], SHARES)
        self.assertEqual(results[14:18], LEVELS)

    def test_example_file(self):
        record = (Path(__file__).resolve().parents[2] / "examples/motor_account.rec").read_bytes()
        self.assertEqual(doonamurk.run(record, 2026)[10:14], SHARES)

    def test_two_years(self):
        self.assertEqual(doonamurk.run(doonamurk.write(**TWO_YEARS), 2026), TWO_YEARS_PRINTED)

    def test_halves_go_to_the_even_hundredth(self):
        record = doonamurk.write(3, [8] * 4, [401, -1, 3, 5, 403, 7, -3, 405, 9, 407], [1000000] * 4, [1000000, 0, 0, 0], 0, [0] * 4, 0)
        self.assertEqual(doonamurk.run(record, 2026)[:10], [5012, -12, 38, 62, 5038, 88, -38, 5062, 112, 5088])

    def test_payments_after_the_last_year(self):
        named = doonamurk.sections(doonamurk.run(doonamurk.write(**{**TWO_YEARS, "indices": [1100000, 1210000], "tail": 100}), 2026))
        self.assertEqual(named["tail_payments"], {0: 100, 1: 110})
        self.assertEqual(named["provisions"], {0: 100, 1: 154})
        self.assertEqual((named["not_reported"], named["ulae_reserves"]), ({0: 0, 1: 44}, {0: 4, 1: 9}))

    def test_valuation_years(self):
        """From 2027 on 108 are reported in the latest year and 106 paid, and the divisor is 1.009433: of the list just the ratio changes."""
        record = doonamurk.write(**TWO_YEARS)
        for year in 0, 2026:
            self.assertEqual(doonamurk.run(record, year), TWO_YEARS_PRINTED)
        for year in 2027, 2028, 2**16 + 2026, 2**64 - 1:
            self.assertEqual(doonamurk.run(record, year=year), TWO_YEARS_PRINTED[:17] + [95484] + TWO_YEARS_PRINTED[18:])
        tail = doonamurk.sections(doonamurk.run(doonamurk.write(**{**TWO_YEARS, "indices": [1100000, 1210000], "tail": 100}), 2027))
        self.assertEqual((tail["ulae_ratio"], tail["ulae_reserves"]), (63458, {0: 3, 1: 6}))

    def test_refusals_from_2027_on(self):
        late = dict(reporting=[0, 1000000], weight=1000000)
        for number, change in (
            (15, dict(exposures=[300, 1], increments=[10, -1, 1], ulae=[0, 0])),
            (16, dict(increments=[1, 0, 2000000], **late)),
            (17, dict(ulae=[66, 100], **late)),
        ):
            record = doonamurk.write(**{**TWO_YEARS, **change})
            self.assertEqual(len(doonamurk.run(record, 2026)), 22)
            refusal = self.refused(number, doonamurk.run, record, 2027)
            self.assertEqual(refusal.question, doonamurk.QUESTIONS[number])

    def test_what_a_year_may_be(self):
        record = doonamurk.write(**TWO_YEARS)
        for year in -1, 2**64, -(2**64) + 2026, 2**64 + 2026:
            with self.assertRaisesRegex(ValueError, f"^year: {year} is not from 0 to 2\\^64 - 1$"):
                doonamurk.run(record, year)
        for year in 2026.0, "2026", None, b"\x07\xea":
            with self.assertRaisesRegex(TypeError, "^year: a whole number is due, not "):
                doonamurk.run(record, year)
        with self.assertRaises(TypeError):
            doonamurk.run(record)

    def test_round_trip(self):
        record = doonamurk.write(**MOTOR)
        fields = doonamurk.read(record)
        self.assertEqual(fields, [3, *MOTOR["exposures"], *MOTOR["increments"], *MOTOR["indices"], *MOTOR["reporting"], 500000, *MOTOR["ulae"], 0])
        back = doonamurk.write(fields[0], fields[1:5], fields[5:15], fields[15:19], fields[19:23], fields[23], fields[24:28], fields[28])
        self.assertEqual(back, record)

    def test_refused_records(self):
        record = doonamurk.write(**MOTOR)
        for number, bad in (
            (1, b""),
            (1, bytes(45)),
            (2, record[:-1]),
            (2, record + b"\0"),
            (2, record[:-1] + bytes([record[-1] | 1])),
            (4, b"\x30\0\0" + record[3:]),
        ):
            self.refused(number, doonamurk.run, bad, 2026)
            self.refused(number, doonamurk.read, bad)

    def test_a_refusal_leaves_the_lent_buffer(self):
        """The functions of the library themselves, on buffers that hold a pattern: run and read on a list, write on bytes."""
        pattern = [-1000 - n for n in range(doonamurk.RESULTS_MAX)]
        record = doonamurk.write(**MOTOR)
        zero = doonamurk.write(**{**TWO_YEARS, "increments": [60, 40, 0]})
        library = doonamurk._library
        read = library.doonamurk_read

        def run(*buffers):
            return library.doonamurk_run(2026, *buffers)

        full = doonamurk.RESULTS_MAX
        for number, call, bad, room in (
            (1, run, b"", full), (1, read, b"", full),
            (2, run, record[:-1], full), (2, read, record[:-1], full),
            (3, run, record, doonamurk.result_count(3) - 1), (3, read, record, doonamurk.field_count(3) - 1),
            (4, run, b"\x30\0\0" + record[3:], full), (4, read, b"\x30\0\0" + record[3:], full),
            (8, run, zero, full),
        ):
            lent = (ctypes.c_int64 * full)(*pattern)
            packed = (ctypes.c_uint8 * len(bad)).from_buffer_copy(bad)
            self.assertEqual(call(packed, len(bad), lent, room), number)
            self.assertEqual(list(lent), pattern)
        natural = ctypes.c_uint64
        for number, k, exposure, length in ((1, 16, 1, 45), (2, 1, 1, 44), (4, 1, 0, 45)):
            lent = (ctypes.c_uint8 * 45)(*range(45))
            n, c = (natural * 2)(exposure, 1), (ctypes.c_int64 * 3)(60, 40, 66)
            e, b, u = (natural * 2)(1100000, 1000000), (natural * 2)(800000, 200000), (natural * 2)(6, 10)
            self.assertEqual(library.doonamurk_write(k, n, 2, c, 3, e, 2, b, 2, 500000, u, 2, 0, lent, length), number)
            self.assertEqual(bytes(lent), bytes(range(45)))

    def test_what_a_record_may_be(self):
        record = doonamurk.write(**MOTOR)
        results = doonamurk.run(record, 2026)
        for same in (bytearray(record), memoryview(record), array.array("B", record), (ctypes.c_uint8 * len(record)).from_buffer_copy(record)):
            self.assertEqual(doonamurk.run(same, 2026), results)
            self.assertEqual(bytes(same), record)
        for other in (list(record), "30", None, array.array("H", [0x30] * 60), 48):
            with self.assertRaises(TypeError):
                doonamurk.run(other, 2026)
            with self.assertRaises(TypeError):
                doonamurk.read(other)

    def test_library_named_by_the_environment(self):
        """A path without a folder is a file of the working folder, not of the system's folders."""
        here = Path(doonamurk._library._name)
        found = {**os.environ, "DOONAMURK_LIBRARY": here.name, "PYTHONPATH": str(Path(__file__).resolve().parent)}
        shown = subprocess.run([sys.executable, "-c", "import doonamurk; print(doonamurk._library._name)"], cwd=here.parent, env=found,
                               stdout=subprocess.PIPE, check=True, universal_newlines=True)
        self.assertEqual(shown.stdout.strip(), str(here))

    def test_marked_refusals(self):
        for number, change in (
            (8, dict(increments=[60, 40, 0])),
            (13, dict(increments=[0, 40, 66])),
            (13, dict(increments=[0, 40, 66], ulae=[6, 161])),
            (6, dict(increments=[0, -1, 66])),
            (12, dict(ulae=[6, 161])),
            (18, dict(tail=10000001)),
            (19, dict(indices=[1, 6], tail=10000000)),
        ):
            refusal = self.refused(number, doonamurk.run, doonamurk.write(**{**TWO_YEARS, **change}), 2026)
            self.assertEqual(refusal.question, doonamurk.QUESTIONS[number])

    def test_no_base_of_the_chain_ladder_comes_before_a_running_share_of_0(self):
        """Document 01's k = 2 case, and one that has a base and small factors."""
        three_years = dict(k=2, exposures=[100] * 3, indices=[1000000] * 3, reporting=[1000000, 0, 0], weight=0, ulae=[0] * 3, tail=0)
        for number, increments in ((13, [0, 5000, 999999, 0, 0, 1]), (9, [5000, 45000, 2000000, 0, 0, 1])):
            record = doonamurk.write(**three_years, increments=increments)
            for year in (2026, 2027):
                self.refused(number, doonamurk.run, record, year)
        order = [20, 21, 27, 28, 1, 2, 3, 4, 5, 6, 13, 7, 8, 9, 10, 18, 19, 11, 12, 15, 16, 17, 14]
        self.assertEqual((list(doonamurk.QUESTIONS), list(doonamurk.WRITE_QUESTIONS)), (order, order))

    def test_triangles_without_the_solution_that_the_method_needs(self):
        """No exact solution, many, and exactly one, whose shares are -1, 0, 2; then the products of shares 3/5, 2/5 and levels 100, 200."""
        three_years = dict(k=2, exposures=[1] * 3, indices=[1000000] * 3, reporting=[1000000, 0, 0], weight=0, ulae=[0] * 3, tail=0)
        for increments in ([1, 0, 0, 0, 1, 0], [1, 0, 0, 0, 0, 0], [0, 1, 2, 1, -1, 0]):
            record = doonamurk.write(**three_years, increments=increments)
            for year in (2026, 2027):
                self.refused(8, doonamurk.run, record, year)
        named = doonamurk.sections(doonamurk.run(doonamurk.write(**{**TWO_YEARS, "increments": [60, 80, 120]}), 2026))
        self.assertEqual((named["shares"], named["levels"]), ({0: 600000000, 1: 400000000}, {0: 10000, 1: 20000}))

    def test_refused_writes(self):
        for number, change in (
            (1, dict(k=0)),
            (1, dict(k=16)),
            (1, dict(k=2**64 - 1)),
            (2, dict(increments=[504])),
            (2, dict(ulae=[])),
            (2, dict(indices=MOTOR["indices"][:3])),
            (4, dict(exposures=[0, 1, 1, 1])),
            (4, dict(weight=1000001)),
            (4, dict(tail=10**10 + 1)),
            (4, dict(increments=[-(2**63)] + MOTOR["increments"][1:])),
            (5, dict(reporting=[700000, 200000, 80000, 20001])),
        ):
            self.refused(number, doonamurk.write, **{**MOTOR, **change})

    def test_numbers_past_64_bits_are_not_cut(self):
        for change in (dict(k=2**64 + 3), dict(k=-1), dict(weight=2**64), dict(tail=-1), dict(exposures=[2**64 + 1, 1, 1, 1]), dict(ulae=[-1, 0, 0, 0])):
            with self.assertRaisesRegex(OverflowError, f"^{next(iter(change))}: number 1 is "):
                doonamurk.write(**{**MOTOR, **change})

    def test_a_wrong_type_names_its_argument(self):
        for change in (dict(k="3"), dict(k=3.0), dict(weight=None), dict(exposures=[1, 1, 1, 1.5]), dict(increments=5), dict(indices=["1100000"] * 4),
                       dict(reporting=[None] * 4), dict(ulae="20"), dict(tail=[0])):
            with self.assertRaisesRegex(TypeError, f"^{next(iter(change))}: whole numbers are due"):
                doonamurk.write(**{**MOTOR, **change})
        with self.assertRaisesRegex(TypeError, "^record: bytes are due, not str"):
            doonamurk.run("30", 2026)

    def test_sections(self):
        named = doonamurk.sections(TWO_YEARS_PRINTED)
        self.assertEqual(named, {
            "averages": {(0, 0): 6000, (0, 1): 4000, (1, 0): 6600},
            "shares": {0: 622641509, 1: 377358491},
            "levels": {0: 9636, 1: 10600},
            "future_levels": {2: 11660},
            "payments": {(1, 1): 44},
            "provisions": {0: 0, 1: 44},
            "total_provision": 44,
            "not_reported": {0: 0, 1: 22},
            "ulae_reserves": {0: 0, 1: 3},
            "total_ulae_reserve": 3,
            "ulae_ratio": 96385,
            "development_factors": {0: 1666666},
            "completed_cumulatives": {(1, 1): 109},
            "tail_payments": {0: 0, 1: 0},
        })
        motor = doonamurk.sections(doonamurk.run(doonamurk.write(**MOTOR), 2026))
        self.assertEqual(list(motor["shares"].values()), SHARES)
        self.assertEqual(motor["payments"], {(1, 3): 52, (2, 2): 108, (2, 3): 58, (3, 1): 360, (3, 2): 119, (3, 3): 63})
        for k in range(1, doonamurk.K_MAX + 1):
            numbered = list(range(doonamurk.result_count(k)))
            back = [e for entries in doonamurk.sections(numbered).values() for e in (entries.values() if isinstance(entries, dict) else [entries])]
            self.assertEqual(back, numbered)
        with self.assertRaisesRegex(ValueError, "^results: no result list has 21 entries"):
            doonamurk.sections(TWO_YEARS_PRINTED[1:])

    def test_a_refusal_pickles_and_copies(self):
        refusal = self.refused(2, doonamurk.run, b"\x30", 2026)
        for same in (pickle.loads(pickle.dumps(refusal)), copy.copy(refusal), copy.deepcopy(refusal)):
            self.assertEqual((type(same), same.number, same.question, str(same)), (doonamurk.Refused, 2, refusal.question, str(refusal)))

    def test_process_pool(self):
        good, bad = doonamurk.write(**TWO_YEARS), doonamurk.write(**{**TWO_YEARS, "increments": [60, 40, 0]})
        with multiprocessing.Pool(2) as pool:
            self.assertEqual(pool.map(total_or_number, [good] * 4), [44] * 4)
            self.refused(8, pool.map, total_or_number, [good, bad, good])

    def test_refusal_says_its_question(self):
        self.assertEqual(str(self.refused(1, doonamurk.run, b"", 2026)), "refused 1: Is there a first byte, and is k at least 1?")
        self.assertEqual(str(self.refused(1, doonamurk.write, **{**MOTOR, "k": 0})), "refused 1: Is k from 1 to 15?")

    def test_threads(self):
        records = [doonamurk.write(**MOTOR), doonamurk.write(**TWO_YEARS)]
        expected = [doonamurk.run(record, 2026) for record in records]
        wrong = []

        def work(n):
            for _ in range(300):
                if doonamurk.run(records[n % 2], 2026) != expected[n % 2]:
                    wrong.append(n)

        threads = [threading.Thread(target=work, args=(n,)) for n in range(4)]
        for thread in threads:
            thread.start()
        for thread in threads:
            thread.join()
        self.assertEqual(wrong, [])


def rows(years):
    """The origin year and the development year of each cell of a history."""
    return [(i, j) for i in range(years) for j in range(min(16, years - i))]


# A history of sixty-four years that is accepted everywhere: payments fall with the development year and rise with the payment year.
LONG_EXPOSURES = [1000 + 7 * i for i in range(64)]
LONG_CELLS = [(900000 + 31000 * (i + j)) >> (2 * j // 3) for i, j in rows(64)]


class History(unittest.TestCase):
    def refused(self, number, *arguments):
        """A call is refused; the library's own leaves what it is lent, of the length that is needed and of others."""
        with self.assertRaises(doonamurk.Refused) as caught:
            doonamurk.history(*arguments)
        self.assertEqual((caught.exception.number, caught.exception.question), (number, doonamurk.QUESTIONS[number]))
        years, width, exposures, cells = arguments
        n, c = (ctypes.c_uint64 * len(exposures))(*exposures), (ctypes.c_int64 * len(cells))(*cells)
        for room in {0, 5, max((min(years, 70) - min(width, 20) + 1) * (1 + 2 * min(width, 20)), 0)}:
            pattern = [-1000 - place for place in range(room + 4)]
            lent = (ctypes.c_int64 * (room + 4))(*pattern)
            self.assertEqual(doonamurk._library.doonamurk_history(years, width, n, len(n), c, len(c), lent, room), number)
            self.assertEqual(list(lent), pattern)

    def test_sizes(self):
        self.assertEqual([doonamurk.history_cells(years) for years in (0, 1, 2, 15, 16, 17, 64)], [0, 1, 3, 120, 136, 152, doonamurk.HISTORY_CELLS_MAX])
        self.assertEqual((doonamurk.history_count(2, 2), doonamurk.history_count(64, 16)), (5, doonamurk.HISTORY_RESULTS_MAX))
        for years in range(65):
            self.assertEqual(len(rows(years)), doonamurk.history_cells(years))

    def test_two_years(self):
        self.assertEqual(doonamurk.history(2, 2, [1, 1], [60, 40, 66]), [(0, [622641509, 377358491], [9636, 10600])])

    def test_motor_account_through_windows_of_each_width(self):
        """In windows of four years it is the record's, and document 01 has 0.6099 for the cut of its first three."""
        for width, due in (
            (2, [(0, [672853828, 327146172], [74904, 86200]), (0, [670800450, 329199550], [86463, 88700]), (0, [665995975, 334004025], [89339, 99400])]),
            (3, [(0, [609925952, 297955317, 92118731], [82632, 94946, 97700]), (0, [608846923, 302243819, 88909258], [95262, 97355, 109100])]),
            (4, [(0, SHARES, LEVELS)]),
        ):
            self.assertEqual(doonamurk.history(4, width, MOTOR["exposures"], MOTOR["increments"]), due)

    def test_each_position_equals_the_record_that_is_cut_out_for_it(self):
        by_years = dict(zip(rows(64), LONG_CELLS))
        for width in range(2, 17):
            positions = doonamurk.history(64, width, LONG_EXPOSURES, LONG_CELLS)
            self.assertEqual(len(positions), 65 - width)
            for start, position in enumerate(positions):
                increments = [by_years[start + i, j] for i in range(width) for j in range(width - i)]
                exposures = LONG_EXPOSURES[start : start + width]
                record = doonamurk.write(width - 1, exposures, increments, [1000000] * width, [1000000] + [0] * (width - 1), 0, [0] * width, 0)
                named = doonamurk.sections(doonamurk.run(record, 2026))
                self.assertEqual(position, (0, list(named["shares"].values()), list(named["levels"].values())))

    def test_refused_positions(self):
        """7 by a column below zero, 8 by a year without payments, 10 by a level above 10^9, beside accepted ones; 9, which takes three years, by a running share
        of 0."""
        cells = [60, 40, 0, 0, 0, 0, 66, -1, 0, 0, 0, 80, 5, 0, 0, 0, 1000000, 0, 1000, 1000000, 1]
        positions = doonamurk.history(6, 2, [100] * 6, cells)
        self.assertEqual([position.refused for position in positions], [0, 7, 8, 0, 10])
        for position in positions:
            self.assertEqual(sum(position.shares), 0 if position.refused else 10**9)
            self.assertEqual(position.levels == [0, 0], position.refused != 0)
        self.assertEqual(doonamurk.history(3, 3, [100] * 3, [0, 5000, 999999, 0, 0, 1]), [(9, [0] * 3, [0] * 3)])
        # questions 13 and 6 are not put: nothing is paid at first, and more is paid back than was paid
        self.assertEqual([position.refused for position in doonamurk.history(3, 2, [1] * 3, [0, 40, 0, 66, 5, 70])], [0, 0])
        self.assertEqual([position.refused for position in doonamurk.history(3, 3, [1] * 3, [60, 90, 5, 70, -80, 90])], [0])

    def test_a_lent_result_of_another_length(self):
        """The library's own call, for Python makes the result as long as it must be: refused with 28 and left, and filled to its end where the length is right."""
        n, c = (ctypes.c_uint64 * 4)(*MOTOR["exposures"]), (ctypes.c_int64 * 10)(*MOTOR["increments"])
        for room in (0, 13, 14, 15, doonamurk.HISTORY_RESULTS_MAX):
            pattern = [-1000 - place for place in range(room + 4)]
            lent = (ctypes.c_int64 * (room + 4))(*pattern)
            self.assertEqual(doonamurk._library.doonamurk_history(4, 3, n, 4, c, 10, lent, room), 0 if room == 14 else 28)
            filled = [entry for position in doonamurk.history(4, 3, n, c) for entry in (position.refused, *position.shares, *position.levels)]
            self.assertEqual(list(lent), filled + pattern[14:] if room == 14 else pattern)

    def test_years_and_widths(self):
        def of(years, width):
            return years, width, LONG_EXPOSURES[: min(years, 64)] + [1] * (min(years, 66) - 64), [1] * doonamurk.history_cells(min(years, 66))

        for years, width in ((2, 2), (5, 5), (16, 16), (17, 16), (64, 2), (64, 16)):
            self.assertEqual(len(doonamurk.history(*of(years, width))), years - width + 1)
        for years, width in ((0, 0), (0, 2), (1, 1), (1, 2), (2, 0), (2, 1), (2, 3), (5, 6), (17, 17), (64, 17), (65, 2), (66, 16), (20, 2**32 + 2),
                             (20, 2**63 + 2), (20, 2**64 - 1), (2**32 + 20, 2), (2**63 + 20, 2**63 + 2), (2**64 - 1, 2), (2**64 - 1, 2**64 - 1)):
            self.refused(27, *of(years, width))

    def test_lengths_and_ranges(self):
        exposures, cells = LONG_EXPOSURES[:20], [1000] * doonamurk.history_cells(20)
        for changed in (exposures[:-1], exposures + [1], []):
            self.refused(28, 20, 2, changed, cells)
        for changed in (cells[:-1], cells + [1], []):
            self.refused(28, 20, 2, exposures, changed)
        for bad in (0, 10**6 + 1, 2**32 + 1, 2**63, 2**64 - 1):
            for place in (0, 7, 19):
                self.refused(28, 20, 2, [*exposures[:place], bad, *exposures[place + 1 :]], cells)
        # the first cell, the last one, and one that no window of two years has
        for place in (0, len(cells) - 1, rows(20).index((3, 15))):
            for bad in (10**10 + 1, -(10**10) - 1, 2**63 - 1, -(2**63)):
                self.refused(28, 20, 2, exposures, [*cells[:place], bad, *cells[place + 1 :]])
            for limit in (10**10, -(10**10)):
                self.assertEqual(len(doonamurk.history(20, 2, exposures, [*cells[:place], limit, *cells[place + 1 :]])), 19)

    def test_27_comes_before_28(self):
        for years, width in ((65, 2), (0, 2), (4, 1), (4, 17), (4, 5), (2**64 - 1, 2)):
            for exposures, cells in (([0] * 4, [1] * 10), ([1] * 3, [1] * 10), ([1] * 4, [10**10 + 1] * 10), ([1] * 4, [1] * 9)):
                self.refused(27, years, width, exposures, cells)

    def test_what_a_number_may_be(self):
        for name, call in (
            ("years", lambda wrong: doonamurk.history(wrong, 2, [1, 1], [60, 40, 66])),
            ("width", lambda wrong: doonamurk.history(2, wrong, [1, 1], [60, 40, 66])),
            ("exposures", lambda wrong: doonamurk.history(2, 2, [wrong, 1], [60, 40, 66])),
            ("cells", lambda wrong: doonamurk.history(2, 2, [1, 1], [wrong, 40, 66])),
        ):
            for wrong in (2.0, "2", None):
                with self.assertRaisesRegex(TypeError, f"^{name}: whole numbers are due"):
                    call(wrong)
            for wrong in (2**64, -(2**64)):
                with self.assertRaisesRegex(OverflowError, f"^{name}: number 1 is {wrong}, not from "):
                    call(wrong)
        self.assertEqual(doonamurk.history(2, 2, array.array("Q", [1, 1]), (60, 40, 66))[0].refused, 0)


# document 01's two years and the year after them, 0, 44, 70
THREE_YEARS = [60, 40, 0, 66, 44, 70]


def plain(exposures, increments, first_index=1000000):
    """The record of a triangle, its other fields plain."""
    k = len(exposures) - 1
    return doonamurk.write(k, exposures, increments, [first_index] + [1000000] * k, [1000000] + [0] * k, 0, [0] * (k + 1), 0)


def cells_of(k):
    """The years of the cells of a record, in its order."""
    return [(i, j) for i in range(k + 1) for j in range(k + 1 - i)]


class Hindsight(unittest.TestCase):
    def refused(self, number, record, settings, room=None):
        """A call is refused; the library's own leaves what it is lent, of the length that is needed and of others."""
        if room is None:
            with self.assertRaises(doonamurk.Refused) as caught:
                doonamurk.hindsight(record, settings)
            self.assertEqual((caught.exception.number, caught.exception.question), (number, doonamurk.HINDSIGHT_QUESTIONS[number]))
        packed, tried = (ctypes.c_uint8 * len(record))(*record), (ctypes.c_uint64 * len(settings))(*settings)
        needed = doonamurk.report_count(record[0] >> 4 if record else 0, len(settings))
        for length in {needed, needed + 5, doonamurk.REPORT_MAX} if room is None else {room}:
            pattern = [-1000 - place for place in range(length + 4)]
            lent = (ctypes.c_int64 * (length + 4))(*pattern)
            self.assertEqual(doonamurk._library.doonamurk_hindsight(packed, len(packed), tried, len(tried), lent, length), number)
            self.assertEqual(list(lent), pattern)

    def test_sizes(self):
        self.assertEqual((doonamurk.report_count(2, 1), doonamurk.report_count(15, 8)), (4, doonamurk.REPORT_MAX))

    def test_three_years(self):
        """The forecasts of row 1 are 0, 40, 44, 48 and 200, and 44 are paid; on a tie the first setting is the best."""
        record = plain([1] * 3, THREE_YEARS)
        gaps = {1: 44, 1000000: 4, 1100000: 0, 1200000: -4, 5000000: -156}
        for settings, best in (([1100000], 0), ([1, 1000000, 1200000, 5000000], 1), ([1200000, 1000000, 1], 0), ([1200000, 1000000, 1100000], 2), ([1, 1], 0)):
            due = [([(0, [gaps[setting]])], abs(gaps[setting])) for setting in settings]
            self.assertEqual(doonamurk.hindsight(record, settings), (due, best))

    def test_motor_account(self):
        report = doonamurk.hindsight(doonamurk.write(**MOTOR), [1000000, 1])
        self.assertEqual(report.settings[0].steps, [(0, [7, 41]), (0, [10])])
        self.assertEqual(report.settings[1].steps[0].gaps, [97, 332])
        self.assertEqual(([tried.sum for tried in report.settings], report.best), ([58, 721], 0))

    def test_each_step_equals_the_record_that_is_cut_out_for_it(self):
        settings = [1000000, 1040000, 1, 900000, 5000000, 1100000, 3, 1030000]
        by_years = dict(zip(rows(64), LONG_CELLS))
        for k in range(2, 16):
            tried = settings[: 1 + k % 8]
            report = doonamurk.hindsight(plain(LONG_EXPOSURES[: k + 1], [by_years[years] for years in cells_of(k)]), tried)
            self.assertEqual(len(report.settings), len(tried))
            for setting, (steps, total) in zip(tried, report.settings):
                self.assertEqual([len(step.gaps) for step in steps], list(range(k - 1, 0, -1)))
                for latest, step in zip(range(k - 1, 0, -1), steps):
                    record = plain(LONG_EXPOSURES[: latest + 1], [by_years[years] for years in cells_of(latest)], setting)
                    payments = doonamurk.sections(doonamurk.run(record, 2026))["payments"]
                    next_ = [(i, latest + 1 - i) for i in range(1, latest + 1)]
                    self.assertEqual(step, (0, [by_years[years] - payments[years] for years in next_]))
                self.assertEqual(total, sum(abs(gap) for step in steps for gap in step.gaps))
            sums = [total for _, total in report.settings]
            self.assertEqual(report.best, sums.index(min(sums)))

    def test_refused_steps(self):
        """7 by a column below zero, 8 by a year without payments, 9 by a running share of 0, 10 by a level above 10^9, each between two steps that are fitted."""
        for number, increments in (
            (7, [60, 40, -50, 3, 1, 66, 45, 60, 2, 70, 47, 50, 80, 50, 90]),
            (8, [60, 40, 0, 3, 1, 66, 0, 10, 2, 0, 40, 9, 80, 50, 90]),
            (9, [100, 5000000, 500000000, 0, 0, 1, 0, 0, 0, 1, 0, 7, 400000000, 100000000, 2]),
            (10, [60, 40, 400000000, 0, 0, 66, 10, 0, 3, 10, 0, 100000000, 500000000, 44, 100000000]),
        ):
            report = doonamurk.hindsight(plain([100] * 5, increments), [1000000, 1100000])
            for steps, _ in report.settings:
                self.assertEqual([step.refused for step in steps], [0, number, 0])
                self.assertEqual(steps[1].gaps, [0, 0])
        # every step is refused
        marked = ([(8, [0, 0]), (8, [0])], 0)
        self.assertEqual(doonamurk.hindsight(plain([1] * 4, [0] * 10), [5000000, 1]), ([marked, marked], 0))
        # the latest year is in no step, and the engine's later questions are not asked
        late = plain([1] * 3, THREE_YEARS[:-1] + [10**10])
        with self.assertRaisesRegex(doonamurk.Refused, "^refused 7: "):
            doonamurk.run(late, 2026)
        self.assertEqual(doonamurk.hindsight(late, [1100000]), ([([(0, [0])], 0)], 0))

    def test_a_lent_report_of_another_length(self):
        """The library's own call, for Python makes the report as long as it must be: refused with 3 and left where it is too short, and left past its entries."""
        record = plain([1] * 3, THREE_YEARS)
        for room in (0, 1, 6):
            self.refused(3, record, [1000000, 1100000], room)
        packed, tried = (ctypes.c_uint8 * len(record))(*record), (ctypes.c_uint64 * 2)(1000000, 1100000)
        for room in (7, 8, doonamurk.REPORT_MAX):
            pattern = [-1000 - place for place in range(room + 4)]
            lent = (ctypes.c_int64 * (room + 4))(*pattern)
            self.assertEqual(doonamurk._library.doonamurk_hindsight(packed, len(packed), tried, 2, lent, room), 0)
            self.assertEqual(list(lent), [0, 4, 4, 0, 0, 0, 1] + pattern[7:])

    def test_settings(self):
        record = plain([1] * 3, THREE_YEARS)
        for count in (0, 9, 10, 256, 257):
            self.refused(29, record, [1000000] * count)
        for count in range(1, 9):
            self.assertEqual(len(doonamurk.hindsight(record, [1000000] * count).settings), count)
            for place in {0, count - 1}:
                for bad in (0, 5000001, 2**32 + 1, 2**32 + 1000000, 2**63, 2**64 - 1):
                    settings = [1000000] * count
                    settings[place] = bad
                    self.refused(29, record, settings)
        for limit in (1, 5000000):
            self.assertEqual(doonamurk.hindsight(record, (limit,)).best, 0)
        self.refused(29, doonamurk.write(**TWO_YEARS), [1000000])

    def test_questions_in_their_order(self):
        """1, 2, 29, 3, 4, 5, 6: of two that say no the first. The first exposure ends with the third byte, and the first reporting share has most of its bits in
        bytes 43 and 44."""
        record = plain([1] * 3, THREE_YEARS)
        no_claims = record[:2] + b"\0" + record[3:]
        unreported = record[:43] + b"\0\0" + record[45:]
        both = no_claims[:43] + b"\0\0" + no_claims[45:]
        paid_back = plain([1] * 3, [60, 40, 0, 66, -67, 70])
        for number, wrong in ((1, b""), (1, b"\x0f" + record[1:]), (2, record[:-1]), (2, record + b"\0"), (2, record[:1]), (4, no_claims), (4, both),
                              (5, unreported), (6, paid_back)):
            self.refused(number, wrong, [1000000])
            self.refused(min(number, 29, key=[1, 2, 29, 4, 5, 6].index), wrong, [0])
            self.refused(min(number, 3, key=[1, 2, 3, 4, 5, 6].index), wrong, [1000000], 0)
            self.refused(min(number, 29, key=[1, 2, 29, 4, 5, 6].index), wrong, [], 0)

    def test_what_a_record_and_settings_may_be(self):
        record = plain([1] * 3, THREE_YEARS)
        for same in (bytearray(record), memoryview(record), array.array("B", record)):
            self.assertEqual(doonamurk.hindsight(same, array.array("Q", [1100000])).best, 0)
        with self.assertRaisesRegex(TypeError, "^record: bytes are due"):
            doonamurk.hindsight(list(record), [1000000])
        for wrong in (1.0, "1", None):
            with self.assertRaisesRegex(TypeError, "^settings: whole numbers are due"):
                doonamurk.hindsight(record, [1000000, wrong])
        with self.assertRaisesRegex(TypeError, "^settings: whole numbers are due"):
            doonamurk.hindsight(record, 1000000)
        for wrong in (2**64, -1):
            with self.assertRaisesRegex(OverflowError, f"^settings: number 2 is {wrong}, not from "):
                doonamurk.hindsight(record, [1000000, wrong])

    def test_a_refusal_says_its_question(self):
        with self.assertRaisesRegex(doonamurk.Refused, r"^refused 29: Are there 1 to 8 settings, each from 1 to 5,000,000, and is k at least 2\?$"):
            doonamurk.hindsight(plain([1] * 3, THREE_YEARS), [])


def of_bits(bits):
    """The float of 64 bits."""
    return struct.unpack("<d", struct.pack("<Q", bits))[0]


# A rate in each of its places in each call, 0.0 in the others. For one year, and for a shock in the only one, the second rate is not used.
PLACES = (
    ("flat", lambda rate, years: (rate, years)),
    ("fading", lambda rate, years: (rate, 0.0, years)),
    ("fading", lambda rate, years: (0.0, rate, years)),
    ("shock", lambda rate, years: (rate, 0.0, years, years)),
    ("shock", lambda rate, years: (0.0, rate, years, years)),
)


class Inflation(unittest.TestCase):
    def called(self, name, *arguments):
        """What a call gives: its list, or the number of the refusal. The library's own has the same, and sixteen values always: zeros past them."""
        got = getattr(doonamurk._library, "doonamurk_" + name)(*arguments)
        try:
            values = getattr(doonamurk, name)(*arguments)
        except doonamurk.Refused as refusal:
            self.assertEqual(refusal.question, doonamurk.QUESTIONS[refusal.number])
            self.assertEqual((got.refused, list(got.values)), (refusal.number, [0] * 16))
            return refusal.number
        self.assertEqual((got.refused, list(got.values)), (0, values + [0] * (16 - arguments[-1])))
        return values

    def test_worked_indices(self):
        for due, call in (
            ([1020000, 1040400, 1061208, 1082432], ("flat", 0.02, 4)),
            ([1070000, 1118150, 1154490, 1184795, 1212194], ("fading", 0.07, 0.02, 5)),
            ([1020000, 1040400, 1144440, 1167329], ("shock", 0.1, 0.02, 3, 4)),
            ([500000, 250000, 125000, 62500, 31250, 15625, 7813, 3906, 1953, 977, 488, 244, 122, 61, 31, 15], ("flat", -0.5, 16)),
            ([1000000] * 16, ("flat", 0.0, 16)),
            ([2000000, 4000000], ("flat", 1.0, 2)),
            (21, ("flat", 1.0, 3)),
            (21, ("fading", 1.0, 1.0, 3)),
            ([2000000, 4000000, 5000000], ("shock", 0.25, 1.0, 3, 3)),
            (21, ("shock", 0.25000025, 1.0, 3, 3)),
        ):
            self.assertEqual(self.called(*call), due)

    def test_question_20_comes_before_21(self):
        for call in (("flat", 1.0, 17), ("fading", 1.0, math.nan, 3), ("fading", 1.0, 1.5, 3), ("shock", 1.0, 1.0, 0, 3), ("shock", 1.0, 1.0, 4, 3)):
            self.assertEqual(self.called(*call), 20)

    def test_rates_outside_are_refused_used_or_not(self):
        """NaNs quiet and signalling, of both signs and of all bits; the infinities; the neighbours of 1.0 and -0.5; the largest float."""
        outside = [math.nan, -math.nan, math.inf, -math.inf, sys.float_info.max, -sys.float_info.max]
        outside += map(of_bits, (0x7FF8 << 48, 0xFFF8 << 48, (0x7FF0 << 48) + 1, (0xFFF0 << 48) + 1, 2**63 - 1, 2**64 - 1))
        outside += map(of_bits, ((0x3FF0 << 48) + 1, (0xBFE0 << 48) + 1))
        for rate in outside:
            for name, arguments in PLACES:
                for years in (1, 2, 16):
                    self.assertEqual(self.called(name, *arguments(rate, years)), 20)

    def test_zeros_and_the_least_rates_change_no_year(self):
        for rate in (0.0, -0.0, 5e-324, -5e-324, sys.float_info.min, -sys.float_info.min):
            for name, arguments in PLACES:
                for years in range(1, 17):
                    self.assertEqual(self.called(name, *arguments(rate, years)), [1000000] * years)

    def test_limits_of_a_rate_are_inside(self):
        for rate in (1.0, -0.5, of_bits((0x3FF0 << 48) - 1), of_bits((0xBFE0 << 48) - 1)):
            for name, arguments in PLACES:
                for years in (1, 2):
                    self.assertEqual(len(self.called(name, *arguments(rate, years))), years)

    def test_years_wanted_and_the_year_of_a_shock(self):
        for years in (0, 17, 2**32 + 1, 2**64 - 1):
            for name, arguments in PLACES:
                self.assertEqual(self.called(name, *arguments(0.0, years)), 20)
            self.assertEqual(self.called("shock", 0.0, 0.0, 1, years), 20)
        for years in range(1, 17):
            for year in (*range(18), 2**32 + 1, 2**64 - 1):
                self.assertEqual(self.called("shock", 0.0, 0.0, year, years), [1000000] * years if 1 <= year <= years else 20)

    def test_numbers_past_64_bits_are_not_cut(self):
        for years in (-1, 2**64 + 1, -(2**64) + 1):
            for call in (lambda: doonamurk.flat(0.0, years), lambda: doonamurk.fading(0.0, 0.0, years), lambda: doonamurk.shock(0.0, 0.0, 1, years)):
                with self.assertRaisesRegex(ValueError, f"^years: {years} is not from 0 to 2\\^64 - 1$"):
                    call()
            with self.assertRaisesRegex(ValueError, f"^year: {years} is not from 0 to 2\\^64 - 1$"):
                doonamurk.shock(0.0, 0.0, years, 1)
        with self.assertRaisesRegex(OverflowError, "^rate: "):
            doonamurk.flat(10**400, 1)

    def test_what_a_rate_and_years_may_be(self):
        for rate in (1, True, fractions.Fraction(1), decimal.Decimal(1)):
            self.assertEqual(doonamurk.flat(rate, 2), [2000000, 4000000])
        for name, call in (
            ("rate", lambda wrong: doonamurk.flat(wrong, 1)),
            ("long_run", lambda wrong: doonamurk.fading(0.0, wrong, 1)),
            ("other", lambda wrong: doonamurk.shock(0.0, wrong, 1, 1)),
        ):
            for wrong in ("0.02", b"0.02", None, [0.02], 0.02j):
                with self.assertRaisesRegex(TypeError, f"^{name}: a number is due, not {type(wrong).__name__}$"):
                    call(wrong)
        for name, call in (
            ("years", lambda wrong: doonamurk.flat(0.0, wrong)),
            ("years", lambda wrong: doonamurk.fading(0.0, 0.0, wrong)),
            ("year", lambda wrong: doonamurk.shock(0.0, 0.0, wrong, 1)),
            ("years", lambda wrong: doonamurk.shock(0.0, 0.0, 1, wrong)),
        ):
            for wrong in (1.0, "1", None):
                with self.assertRaisesRegex(TypeError, f"^{name}: a whole number is due, not {type(wrong).__name__}$"):
                    call(wrong)

    def test_a_refusal_says_its_question(self):
        with self.assertRaises(doonamurk.Refused) as caught:
            doonamurk.flat(1.0, 3)
        self.assertEqual(str(caught.exception), "refused 21: Is every index of a year wanted from 1 to 5,000,000?")
        with self.assertRaises(doonamurk.Refused) as caught:
            doonamurk.shock(0.0, math.nan, 1, 1)
        self.assertEqual(
            str(caught.exception),
            "refused 20: Is every rate a number from -0.5 to 1.0, a shock's year among the years wanted, and their number from 1 to 16?",
        )


if __name__ == "__main__":
    unittest.main()
