#!/usr/bin/env python3
"""make_cases.py: writes the stored input and expected output of the test programs read_cases, write_cases, run_cases, inflation_cases, history_cases and
hindsight_cases and of the programs reserve, reserve_many, gather, fields, report, report_html, csv, pack, unpack, rates, history_report, history_report_html and
history_report_csv, and the input of motor_account; the records of the examples from their texts, their pages and their lists as comma-separated values
(tests/pages for the valuation year 2026, tests/pages/2027), and those of the examples of histories (tests/pages/history); records that question 7 refuses, or
13 before it, with what is said of them (tests/refusals); and the texts that pack must accept or refuse, with the record of each or what pack says
(tests/texts), and those of histories (tests/history_texts).

What is expected comes from model.py, inflation.py, history.py, hindsight.py, page.py, history_page.py and sheet.py, which are written from documents 01 and 02 and
from the docs and share nothing with the Rattle code.
"""
import glob
import os
import random
import re
from fractions import Fraction

import hindsight
import history
import history_page
import history_texts
import inflation
import model
import page
import sheet

HERE = os.path.dirname(os.path.abspath(__file__))
CRATES = os.path.join(HERE, "..", "crates")


def figures(k, pick):
    """Fields of a record of the years 0 to k: pick(row, place, least, most) for each, with reporting shares that sum to M."""
    fields = [k]
    for name, count, sign, _, least, most in model.rows(k)[1:]:
        if name == "b":
            part = model.M // (k + 1)
            fields += [model.M - part * k] + [part] * k
        else:
            for place in range(count):
                value = pick(name, place, least, most)
                fields.append(-value if sign and place % 2 else value)
    return fields


def smallest(row, place, least, most):
    return least


def largest(row, place, least, most):
    return most


def mixed(row, place, least, most):
    return least + (7919 * (place + 1) * (len(row) + ord(row)) ** 3) % (most - least + 1)


def places(k):
    """Where each row starts among the fields."""
    out, at = {}, 0
    for name, count, *_ in model.rows(k):
        out[name] = at
        at += count
    return out


def changed(fields, at, value):
    return fields[:at] + [value] + fields[at + 1:]


def read_cases():
    good = [model.pack(model.TWO_YEARS)]
    for k in (1, 2, 4, 15):
        for pick in (smallest, largest, mixed):
            good.append(model.pack(figures(k, pick)))
    for record in good:
        count = model.field_count(record[0] >> 4)
        for room in (count, count + 3, count - 1, 0):
            yield room, record
    bad = [b"", b"\x00", b"\x0f" + good[0][1:], good[0][:-1], good[0] + b"\x00", good[0][:1], bytes(3000)]
    for k in (1, 15):
        fields = figures(k, mixed)
        record, at, count = model.pack(fields), places(k), model.field_count(k)
        bad += [record[:-1], record + b"\x00", record[1:]]
        fill = 8 * len(record) - model.bit_count(k)
        for bit in range(fill):
            bad.append(record[:-1] + bytes([record[-1] | 1 << bit]))
        zeros = at["P"]
        bad.append(model.pack(changed(fields, zeros, 0), negative_zeros=(zeros,)))
        last = at["e"] - 1
        bad.append(model.pack(changed(fields, last, 0), negative_zeros=(last,)))
        for name, n, sign, size, least, most in model.rows(k)[1:]:
            for place in (at[name], at[name] + n - 1):
                bad.append(model.pack(changed(fields, place, most + 1)))
                bad.append(model.pack(changed(fields, place, 2**size - 1)))
                if sign:
                    bad.append(model.pack(changed(fields, place, -most - 1)))
                if least:
                    bad.append(model.pack(changed(fields, place, least - 1)))
        for step in (-1, 1):
            bad.append(model.pack(changed(fields, at["b"], fields[at["b"]] + step)))
            bad.append(model.pack(changed(fields, at["e"] - 1, fields[at["b"] - 1] + step)))
        both = changed(changed(fields, at["b"], fields[at["b"]] - 1), at["n"], 0)
        bad += [model.pack(both), model.pack(both)[:-1]]
    for record in bad:
        for room in (255, 3):
            yield room, record


def number(value):
    """A sign byte, 1 for negative, and a size of seven bytes, high byte first."""
    return bytes([value < 0]) + abs(value).to_bytes(7, "big")


def write_inputs():
    good = [model.TWO_YEARS] + [figures(k, pick) for k in (1, 2, 15) for pick in (smallest, largest, mixed)]
    for fields in good:
        yield model.byte_count(fields[0]), fields[0], model.lists(fields)
    for k in (1, 15):
        fields = figures(k, mixed)
        lists, at, size = model.lists(fields), places(k), model.byte_count(k)
        for room in (0, size - 1, size + 1):
            yield room, k, lists
        for other in (0, 16, 2**40):
            yield size, other, lists
        for name in "nPebU":
            for part in ([], lists[name][:-1], lists[name] + lists[name][-1:]):
                yield size, k, dict(lists, **{name: part})
        for name, n, sign, _, least, most in model.rows(k)[1:]:
            for place in (0, n - 1):
                for value in [most + 1, 2**56 - 1] + ([-most - 1, 1 - 2**56] if sign else []) + ([least - 1] if least else []):
                    yield size, k, model.lists(changed(fields, at[name] + place, value))
        for step in (-1, 1):
            yield size, k, model.lists(changed(fields, at["b"], fields[at["b"]] + step))
        yield size - 1, k, model.lists(changed(fields, at["n"], 0))
        yield size, k, model.lists(changed(changed(fields, at["b"], 0), at["n"], 0))


def fields_of(n, rows, e=None, b=None, w=500000, U=None, a=0):
    """The fields of a record whose increments are given by row; those left out are plain."""
    k = len(rows) - 1
    e = e or [model.M] * (k + 1)
    b = b or [model.M] + [0] * k
    fields = [k] + n + sum(rows, []) + e + b + [w] + (U or [0] * (k + 1)) + [a]
    assert len(fields) == model.field_count(k)
    return fields


def account(k, source, column=lambda j: 1):
    """A plain account: payments that fall by the year, times column(j), with some negative ones and exposures and indices of its own; something is still to be
    paid for year 0 where k is even."""
    n = [source.randint(1, 3000) for _ in range(k + 1)]
    rows = []
    for i in range(k + 1):
        rows.append([])
        for j in range(k + 1 - i):
            size = n[i] * source.randint(5000, 9000) // 2**j
            sign = -0.25 if j % 3 == 2 and i % 2 else 1
            rows[i].append(int(sign * size * column(j)))
    e = [source.randint(1, 2 * model.M) for _ in range(k + 1)]
    cuts = sorted(source.randint(0, model.M) for _ in range(k))
    b = [high - low for low, high in zip([0] + cuts, cuts + [model.M])]
    U = [source.randint(0, 1000) for _ in range(k + 1)]
    a = 0 if k % 2 else n[0] * source.randint(0, 900) + source.randint(0, 99)
    return fields_of(n, rows, e, b, source.randint(0, model.M), U, a)


def plain(k, first, other, claims=1):
    """Increments that are `first` in column 0 and `other` elsewhere, by row, all of the same exposure."""
    return [claims] * (k + 1), [[first] + [other] * (k - i) for i in range(k + 1)]


def accepted():
    """Fields that the engine accepts, the limits of the questions among them."""
    million, most = 10**6, 10**10
    source = random.Random(1)
    yield model.TWO_YEARS
    yield model.MOTOR_ACCOUNT
    for k in range(1, 16):
        yield account(k, source)
    # columns of zeros: the last, one in the middle, all but the first
    yield account(3, source, lambda j: j < 3)
    yield account(6, source, lambda j: j != 4)
    yield account(5, source, lambda j: j == 0)
    # a last share of a few billionths and of a few hundred-thousandths
    yield fields_of([million, 100], [[10**10, 5000], [300000000]], w=0)
    yield fields_of([million, 100, 100], [[10**10, 10**9, 5000], [10**8, 10**7], [200000000]], b=[0, 0, million])
    yield fields_of([100, 100], [[100000, 3], [100000]], w=million)
    n, rows = plain(15, 30000000, 100, 100)
    yield fields_of(n, rows, [5 * million] * 16, [0] * 15 + [million])
    # the largest figures
    n, rows = plain(9, most, most, million)
    yield fields_of(n, rows, w=million, U=[most] * 10)
    n, rows = plain(15, most, 0, million)
    yield fields_of(n, rows, [5 * million] * 16, U=[most] * 16)
    # a smallest index, and every increment 1
    n, rows = plain(15, 1, 1)
    yield fields_of(n, rows, [1] * 16)
    # a column and a diagonal of zero
    yield fields_of([1, 1, 1], [[0, 5, 0], [5, 5], [7]])
    yield from halves()
    yield from tails()
    yield from products()
    for _, within, _ in all_edges():
        yield within


def product_of(shares, levels):
    """Fields whose averages are exactly share times level, all n 1, and which have those as their exact solution."""
    k = len(shares) - 1
    rows = [[shares[j] * levels[i + j] for j in range(k + 1 - i)] for i in range(k + 1)]
    assert all(paid == int(paid) for row in rows for paid in row)
    assert model.positive_solution([[100 * paid for paid in row] for row in rows]) == (shares, [100 * level for level in levels])
    return fields_of([1] * (k + 1), [[int(paid) for paid in row] for row in rows])


def products():
    """Fields whose averages are exactly share times level."""
    # 60, 80 / 120; 50, 36, 30 / 60, 45 / 75; a share and a level of 0
    yield product_of([Fraction(3, 5), Fraction(2, 5)], [100, 200])
    yield product_of([Fraction(1, 2), Fraction(3, 10), Fraction(1, 5)], [100, 120, 150])
    yield product_of([Fraction(1, 2), Fraction(0), Fraction(1, 4), Fraction(1, 4)], [40, 0, 80, 100])
    # a level that is no whole number: only the first share, 2/3, meets it
    yield product_of([Fraction(2, 3), Fraction(1, 3)], [Fraction(3, 2), 30])
    yield product_of([Fraction(16 - j, 136) for j in range(16)], [136 * (100 + h * h) for h in range(16)])


def left_edges():
    """As edges: beside one development year 1 hundredth is left, in its first payment year and first or last column, and none; of others there is more."""
    for k, h in ((2, 1), (2, 2), (3, 1), (3, 2), (3, 3), (15, 1), (15, 2), (15, 8), (15, 14), (15, 15)):
        rest = [(i, j) for i in range(k + 1) for j in range(k + 1 - i) if j < h <= i + j]
        for last in sorted({(h, 0), (1, h - 1)}):
            yield 8, *(plain_but(k, {cell: left if cell == last else 0 for cell in rest}) for left in (1, 0))


def edges():
    """The number of a question, fields at its limit and fields just past it."""
    million, most = 10**6, 10**10
    n, rows = plain(15, 10**9, 0, million)
    # a cumulative of 10^11
    yield 6, *(fields_of(n, [[most] * 10 + [more] + [0] * 5] + rows[1:]) for more in (0, 1))
    # averages that total S
    yield 7, *(fields_of([100, 1], [[500000000, 200000000 + more], [3000000]]) for more in (0, 1))
    # T_1 - v_1 of 1
    yield 8, *(fields_of([100, 100], [[10, 3], [latest]]) for latest in (1, 0))
    # A_0 of 1
    yield 9, *(fields_of([1, million, million], [[0, 200, last], [5000, 0], [5001]]) for last in (400, 600))
    # a level of S
    yield 10, *(fields_of([100, 100], [[first, 200000], [1]]) for first in (4999, 5000))
    # an ultimate of 10^12
    yield 11, *(fields_of([100, million], [[10**7, 19800002], [9999900000 + more]], [5 * million, million]) for more in (0, 1))
    # ULAE totals as large as what is paid
    yield 12, *(changed(model.TWO_YEARS, places(1)["U"] + 1, latest) for latest in (160, 161))
    # a factor of 50
    yield 13, *(fields_of([1000, 1000], [[million, 49 * million + more], [million]]) for more in (0, 1))
    # a completed cumulative of 10^11; a factor that is a millionth larger
    yield 14, *(fields_of([million, million], [[10**9, 9 * 10**9 + more], [most]]) for more in (0, 1000))


def halves():
    """Fields whose averages are halves, or next to them, in size and sign."""
    million = 10**6
    # odd multiples of 12.5 and of 2.5, of either sign
    yield fields_of([8] * 4, [[401, -1, 3, 5], [403, 7, -3], [405, 9], [407]])
    yield fields_of([8] * 4, [[401, -5, 3, 5], [403, -7, 7], [405, 109], [407]])
    yield fields_of([40] * 4, [[2001, -1, 3, 1], [2003, 7, -3], [2005, 9], [2007]])
    # an odd exposure has thirds above a half and below it
    yield fields_of([3] * 3, [[100, -2, 1], [100, 50], [100]])
    yield fields_of([3] * 3, [[100, -1, 2], [100, 50], [100]])
    # a half and just below and above it, up to the most of an exposure
    for claims, halves_ in ((199, (1, 3)), (200, (1, 2, 3, 5)), (201, (1, 3)), (million, (4999, 5000, 5001, 14999, 15000, 15001))):
        for paid in halves_:
            yield fields_of([claims, claims], [[9 * claims, paid], [10 * claims]])
            yield fields_of([claims, claims], [[9 * claims, claims + paid], [10 * claims - paid]])
    # negative halves in a column that is positive together
    for paid in (4999, 5000, 5001, 14999, 15000, 15001):
        yield fields_of([million] * 3, [[9 * million, -paid, 1], [9 * million, million], [9 * million]])
    # the largest halves, and next to them
    yield fields_of([8, 8], [[39999999, 3], [39999997]])
    yield fields_of([million, million], [[10**10 - 5000, 5000], [10**10 - 15000]])
    for less in (4999, 5000, 5001, 14999, 15000, 15001):
        yield fields_of([million] * 3, [[10**10, less - 10**10, 1], [10**10, 10**10], [10**10]])


def half_edges():
    """The number of a question, fields at its limit and fields just past it, all by a half."""
    million = 10**6
    # averages that total S by a half that goes down, and S + 1 by one that goes up
    yield 7, *(fields_of([100, 8], [[500000000, 200000000 - whole], [24000000 + half]]) for half, whole in ((1, 12), (3, 37)))
    # a column of minus a half, which is 0, and of a little more than that
    yield 7, *(fields_of([claims, 100], [[9000, -1], [66]]) for claims in (200, 199))
    # a diagonal of minus a half, and of minus one and a half, which is -2
    yield 7, *(fields_of([200, 100, 100], [[60, late, 3], [0, 90], [90]]) for late in (-1, -3))
    # T_1 - v_1 of a little more than a half, which is 1, and of a half, which is 0
    yield 8, *(fields_of([100, claims], [[10, 3], [1]]) for claims in (199, 200))
    # a latest average of one and a half, which is 2, and of a little less
    yield 9, *(fields_of([1, million, million], [[0, 200, 500], [5000, 0], [latest]]) for latest in (15000, 14999))
    # a level just within S, and past it by a half that goes up
    yield 10, *(fields_of([200, 100], [[first, 400000], [1]]) for first in (9998, 9999))


def tailed(k, e, a, exposures=None):
    """A plain account with this amount still to be paid; all n 100, so that the amount is its average, but for the exposures given by year."""
    n = [(exposures or {}).get(i, 100) for i in range(k + 1)]
    rows = [[n[i] * (300 + i)] + [n[i] * 50] * (k - i) for i in range(k + 1)]
    return fields_of(n, rows, e, [800000] + [0] * (k - 1) + [200000], U=[100 * (t + 1) for t in range(k + 1)], a=a)


def tails():
    """Fields with payments after the last year."""
    million, most = 10**6, 10**10
    # the two years with 100 still to be paid for year 0, carried by 1.1, and with 10, whose second average is 10.90
    for a, later in ((100, 1210000), (10, 1200000)):
        yield changed(changed(model.TWO_YEARS, places(1)["e"] + 1, later), places(1)["a"], a)
    # a zero amount, whatever the last index is
    for later in (1, million, 5 * million):
        yield changed(model.TWO_YEARS, places(1)["e"] + 1, later)
    # the amount's average is a half, or next to it; a million claims of year 1 show it in full
    for claims, amounts in ((8, (1, 3, 5)), (199, (1, 3)), (200, (1, 2, 3, 5)), (201, (1, 3)), (million, (4999, 5000, 5001, 14999, 15000, 15001))):
        for a in amounts:
            yield tailed(1, None, a, {0: claims, 1: million})
    # each year is carried from year 0 and not from the year before, and its average rounded down
    yield tailed(2, [2, 3, 5], 1, {2: million})
    yield tailed(3, [7, 6, 5, 13], 1, {1: million, 2: million, 3: million})
    # indices far apart: the average of year 1 is five million times that of year 0, or nothing of it
    yield tailed(1, [1, 5 * million], 1000)
    yield tailed(1, [5 * million, 1], 4999999)
    yield tailed(1, [5 * million, 1], 5 * million)
    # the largest amount, over the most claims and over the fewest that question 18 lets pass; the largest ultimate of year 0
    yield tailed(15, [5 * million] * 16, most, dict.fromkeys(range(16), million))
    yield tailed(15, None, most, {0: 1000})
    n, rows = plain(9, most, most, million)
    yield fields_of(n, rows, a=most)
    # what is not reported and the reserve with each weight of the reporting
    for w in (0, million):
        yield changed(tailed(4, [1100000, 1210000, 1331000, 1464100, 1610510], 12345), places(4)["w"], w)


def tail_edges():
    """As edges: the questions that payments after the last year put, and 11 by such a payment alone."""
    million = 10**6
    # an average of S and of S + 1; of S + 1/2, which is S, and of S + 1
    yield 18, *(tailed(1, None, a) for a in (model.S, model.S + 1))
    yield 18, *(tailed(15, None, a) for a in (model.S, model.S + 1))
    yield 18, *(tailed(1, None, a, {0: 200}) for a in (2 * model.S + 1, 2 * model.S + 2))
    # the largest amount over 1,000 and over 999 claims
    yield 18, *(tailed(1, None, 10**10, {0: claims}) for claims in (1000, 999))
    # an average of 5S and of 5S + 1, in the last year and in one between; 47/8 of 851063830 is 5S + 1.25
    assert 851063830 * 47 // 8 == 5 * model.S + 1
    for k, i in ((1, 1), (3, 3), (3, 1), (3, 2), (15, 15), (15, 7)):
        yield 19, tailed(k, changed([million] * (k + 1), i, 5 * million), model.S), tailed(k, changed([8] * (k + 1), i, 47), 851063830)
        yield 19, *(tailed(k, changed([8] * (k + 1), i, 47), a) for a in (851063829, 851063830))
        yield 19, *(tailed(k, changed([first] + [million] * k, i, 5 * million), model.S) for first in (million, 999999))
    # an ultimate of 10^12 with the payment after the last year, in the last row and in one between
    for k, i in ((1, 1), (3, 3), (3, 2), (15, 1)):
        n, rows = plain(k, 100, 0, 100)
        yield 11, *(fields_of(changed(n, i, million), changed(rows, i, [10**9 + more] + [0] * (k - i)), a=99900000) for more in (0, 1))
    # an ultimate of 10^12 without it, to which the last index adds nothing or 10,000
    yield 11, *(fields_of([100, million], [[10**7, 19800002], [9999900000]], [5 * million, later], a=1) for later in (4999999, 5 * million))
    # a payment after the last year of 10^12 alone, from an average of 5S
    yield 11, *(tailed(1, [million, 5 * million], model.S, {1: claims}) for claims in (19999, 20000))


def developing(k, h, base, above, claims=100):
    """Fields whose chain-ladder B and A of development year h are these, whose other factors are small: of the years that develop from h, only year 0 is paid,
    with so many claims, `base` in development year 0 and the rest in h + 1."""
    rows = [[10000] + [10] * (k - i) if i >= k - h else [0] * (k + 1 - i) for i in range(k + 1)]
    rows[0][0], rows[0][h + 1] = base, above - base
    return fields_of(changed([100] * (k + 1), 0, claims), rows)


def some_years(k):
    """The first, a middle and the last development year that the chain ladder develops from."""
    return sorted({0, k // 2, k - 1})


def development_edges():
    """As edges: question 13 in every k, in the first, a middle and the last development year."""
    million = 10**6
    for k in range(1, 16):
        for place, h in enumerate(some_years(k)):
            # B of 1 and of 0; a factor of 50 and of 51; of 50 and a millionth more, B being a million; of 50 still, by rounding down, and a millionth more
            limits = [(13, (1, 7), (0, 7), 100), (13, (1, 50), (1, 51), 100), (13, (million, 50 * million), (million, 50 * million + 1), million),
                      (13, (2 * million + 1, 100 * million + 52), (2 * million + 1, 100 * million + 53), million)]
            # all of them for a few k, and one in turn for the others
            for number_, within, past, claims in limits if k in (1, 2, 5) else [limits[(k + place) % 4]]:
                yield number_, developing(k, h, *within, claims), developing(k, h, *past, claims)


def all_edges():
    return (*edges(), *half_edges(), *total_edges(), *tail_edges(), *development_edges(), *left_edges())


def plain_but(k, cells):
    """Fields of 10,000 hundredths in the first column and 10 elsewhere but for the cells given, all n 100."""
    rows = [[10000] + [10] * (k - i) for i in range(k + 1)]
    for (i, j), paid in cells.items():
        rows[i][j] = paid
    return fields_of([100] * (k + 1), rows)


def diagonal_of(k, h, total):
    """As plain_but: diagonal h, from 2 on, adds up to a total, by its cell in row 1, whose column is made up for in row 0."""
    return plain_but(k, {(h, 0): 0, (1, h - 1): total - 10 * (h - 1), (0, h - 1): 10000})


def total_edges():
    """As edges: the averages of one column and of one diagonal add up to 0 and to -1, year by year; those of the first ones are never below 0."""
    for k, years in ((3, (1, 2, 3)), (15, (1, 2, 8, 14, 15))):
        for c in years:
            yield 7, *(plain_but(k, {(0, c): total - 10 * (k - c)}) for total in (0, -1))
        yield 7, *(plain_but(k, {(0, 1): total, (1, 0): 0}) for total in (0, -1))
        for h in years[1:-1]:
            yield 7, *(diagonal_of(k, h, total) for total in (0, -1))


def refused():
    """Number and fields that the engine refuses with it, for the numbers from 4."""
    source = random.Random(2)
    million = 10**6
    for k in (1, 7, 15):
        fields, at = account(k, source), places(k)
        yield 4, changed(fields, at["n"] + k, 0)
        yield 4, changed(fields, at["U"] + k, 10**10 + 1)
        yield 4, changed(fields, at["e"] + k, 0)
        yield 4, changed(fields, at["e"] + k, 5 * million + 1)
        yield 4, changed(fields, at["a"], 10**10 + 1)
        yield 5, changed(fields, at["b"] + k, fields[at["b"] + k] + 1)
        yield 6, changed(fields, at["P"], -1)
        yield 12, changed(fields, at["U"], 10**10)
    for number_, _, past in all_edges():
        yield number_, past
    # the latest diagonal adds up to 0, and to less
    for k in (3, 15):
        yield 8, diagonal_of(k, k, 0)
        yield 7, diagonal_of(k, k, -1)
    # the last column and the latest diagonal are below 0, so that T_k - v_k is 0 too
    yield 7, plain_but(2, {(0, 2): -1, (1, 1): 0, (2, 0): 0})
    # by halves T_1 - v_1 is 0 and a column is below 0 too; a column is 0; the chain ladder's base is zero too
    yield 7, fields_of([100, 200], [[10, -1], [1]])
    yield 7, fields_of([200, 200], [[9, -3], [1]])
    yield 8, fields_of([100, 200], [[1, 3], [1]])
    yield 13, fields_of([100, 200], [[0, 3], [1]])
    # the ULAE totals are too large too
    yield 7, fields_of([200, 100], [[9000, -3], [66]], U=[10**10, 10**10])
    # every average is a half, which is 0
    yield 8, fields_of([200, 200], [[1, 1], [1]])
    # the largest averages of all
    yield 7, fields_of([1, 1], [[10**10, 0], [1]])
    yield 7, fields_of([1, 1], [[10**10, -(10**10)], [1]])
    yield 6, fields_of([1, 1], [[60, -61], [66]])
    yield 7, fields_of([1, 1], [[60, -1], [66]])
    yield 7, fields_of([1, 1000, 1000], [[60, -5, 5], [70, 0], [70]])
    n, rows = plain(15, 10**10, 10**10, 10)
    yield 7, fields_of(n, [row[:9] + [0] * len(row[9:]) for row in rows])
    yield 8, changed(model.TWO_YEARS, 5, 0)
    # without the 1 the chain ladder's base is zero too
    yield 8, fields_of([1, 1, 1], [[1, 5, 0], [0, 5], [0]])
    yield 13, fields_of([1, 1, 1], [[0, 5, 0], [0, 5], [0]])
    yield 8, fields_of([1] * 4, [[5, 5, 5, 0], [5, 0, 5], [0, 0], [0]])
    # in all of these a level would be too large; a running share is 0 too, and no question before it says no
    yield 9, RUNNING_OUT
    yield 9, changed(RUNNING_OUT, places(2)["U"], 10**10)
    yield 10, fields_of([100] * 3, [[100, 500, 20000], [0, 0], [1]])
    # a running share is 0 or a level too large, and the chain ladder's base is zero, its first factor too large, or its second
    yield 13, model.THREE_YEARS
    yield 13, fields_of([100] * 3, [[5, 500, 999999], [0, 0], [1]])
    yield 13, fields_of([100] * 3, [[5000, 5000, 999999], [0, 0], [1]])
    # the ULAE totals are too large too; and the chain ladder's base is zero
    for number_, first in ((11, 10**7), (13, 0)):
        yield number_, fields_of([100, million], [[first, 19800002], [9999900001]], [5 * million, million], U=[10**10, 10**10])
    yield 13, changed(model.TWO_YEARS, 3, 0)
    yield 13, fields_of([1, 1], [[1, 50], [66]])
    yield 13, fields_of([1, 1, 1], [[0, 5, 5], [0, 5], [7]])
    n, rows = plain(10, 10**9, 10**9, million)
    yield 14, fields_of(n, rows[:10] + [[10**10]])
    yield from tail_refusals()
    yield from over_developed()
    yield from unsolved()


def unsolved():
    """As refused: triangles without an exact solution whose running shares and level sums are positive, 8 with each of 7, 9, 10 and 13 among them."""
    for number_, n, rows in (
            # no exact solution; many, by the shares and by the first level; exactly one, whose shares are -1, 0, 2
            (8, [1] * 3, [[1, 0, 0], [0, 1], [0]]),
            (8, [1] * 2, [[60, 40], [0]]),
            (8, [1] * 3, [[1, 0, 0], [0, 0], [0]]),
            (8, [1] * 2, [[1, 0], [0]]),
            (8, [1000, 1], [[1, 40], [0]]),
            (8, [1] * 3, [[0, 1, 2], [1, -1], [0]]),
            # every first level does of 0, 40 / 0 too, but the chain ladder's base is zero; a factor is above 50
            (13, [1] * 2, [[0, 40], [0]]),
            (13, [1] * 2, [[1, 50], [0]]),
            # averages are too large together; a column and the latest diagonal are below 0, and another diagonal
            (7, [1] * 2, [[10**7, 1], [0]]),
            (7, [1] * 3, [[60, 0, 0], [60, -1], [0]]),
            (7, [1] * 3, [[60, -1, 0], [0, 0], [0]]),
            # A_1 would be 0; l_1 would be too large
            (8, [100] * 4, [[5000, 45000, 2000000, 50000000], [0, 0, 0], [0, 1], [0]]),
            (8, [100] * 3, [[5000, 200000, 8000000], [0, 1], [0]])):
        assert model.positive_solution(model.averages(n, rows)) is None
        yield number_, fields_of(n, rows)


# A_0 is 0 and a level would be too large, and the chain ladder's factors are within their limit
RUNNING_OUT = fields_of([100] * 3, [[5000, 45000, 2000000], [0, 0], [1]])


def over_developed():
    """As refused: factors within their limit carry the last year past 10^11, and each question before 14 but 15 to 17 says no too."""
    million, most = 10**6, 10**10
    # year 0 is paid about fifty times as much each year, and the years between nothing; in the last case no other question says no
    paid = [1, 49, 2450, 122500, 6125000, 306250000, most]
    claims = (7, 1, 100, 10000), (8, million, million, 20), (9, million, 100, 20), (10, million, 100, 100), (14, million, 100, 10000)
    for number_, first, last, latest in claims:
        yield number_, fields_of([first] + [100] * 5 + [last], [paid] + [[0] * (7 - i) for i in range(1, 6)] + [[latest]])
    for number_, other in ((18, dict(a=model.S + 1)), (19, dict(e=[1, 6], a=model.S)), (11, dict(a=model.S)), (12, dict(U=[most, most])), (14, dict())):
        yield number_, fields_of([100, million], [[1000, 49000], [most]], **other)


def tail_refusals():
    """As refused: two questions say no, or more, those about payments after the last year among them."""
    million, most = 10**6, 10**10
    cells = [[60000, 40000], [66000000]]
    # 19, and with one claim less 18; the payment of year 1 would be 5 × 10^19
    for number_, claims in ((19, 1000), (18, 999)):
        yield number_, fields_of([claims, million], cells, [1, 5 * million], a=most)
    # 18 and 19, and 11 by the payments of the triangle
    yield 18, tailed(1, [1, 6], model.S + 1)
    yield 18, tailed(3, [1, 1, 6, 1], model.S + 1)
    large = [[10**7, 19800002], [9999900001]]
    yield 18, fields_of([100, million], large, [5 * million, million], a=model.S + 1)
    yield 19, fields_of([100, million], large, [800000, 5 * million], a=model.S)
    # 11 by the payment after the last year too
    yield 18, tailed(1, None, model.S + 1, {1: million})
    yield 19, tailed(1, [8, 47], 851063830, {1: million})
    # a level is too large too
    poor = [[5000, 200000], [1]]
    yield 10, fields_of([100, 100], poor, a=model.S + 1)
    yield 10, fields_of([100, 100], poor, [1, 6], a=model.S)
    yield 10, fields_of([100, 100], poor, [1, 6], a=most)
    # each question before them, with an average above S
    yield 6, fields_of([100, 100], [[60, -61], [66]], a=most)
    yield 7, fields_of([100, 100], [[60, -1], [66]], a=most)
    yield 8, fields_of([100, 100], [[60, 40], [0]], a=most)
    yield 9, changed(RUNNING_OUT, places(2)["a"], most)
    yield 13, changed(model.THREE_YEARS, places(2)["a"], most)
    # a question after them, ULAE totals too large; and no base of the chain ladder, which comes before them
    for number_, e, a in ((18, None, model.S + 1), (19, [1, 6], model.S), (11, None, model.S)):
        yield number_, fields_of([100, million], [[30, 40], [660000]], e, U=[most, most], a=a)
        yield 13, fields_of([100, million], [[0, 40], [660000]], e, U=[most, most], a=a)


def paid_back(k, latest, n=None, **other):
    """Fields with 40 paid back and this paid in the latest year; the 40 are of 10,000 claims, so that their average is 0."""
    rows = [[60] + [0] * (k - i) for i in range(k + 1)]
    rows[1][-1], rows[k] = -40, [latest]
    return fields_of(n or changed([1] * (k + 1), 1, 10000), rows, **other)


def deep(k, b, U):
    """Fields with 1 paid in the latest year and, by payments after the last year, ultimates of 10^12 in all rows but the first, a little less in the last."""
    rows = [[0, 1] + [0] * (k - 1)] + [[100000] + [0] * (k - i) for i in range(1, k)] + [[101]]
    rows[1][0], rows[1][-1] = 100100, -100
    return fields_of([1] + [20000] * k, rows, [model.M] + [5 * model.M] * k, b, model.M, U, a=10**7 - 1)


def growth_accepted():
    """The answer before 2027, the answer from 2027 on, and fields: both are accepted, and the ULAE ratio under growth is another one."""
    million = 10**6
    two, at = model.TWO_YEARS, places(1)
    # weights of 0, a millionth and 1; with a weight of 0 the ratio stays, a ratio of 1 too
    for w in (0, 1, million):
        yield 0, 0, changed(two, at["w"], w)
    yield 0, 0, changed(changed(two, at["w"], 0), at["U"] + 1, 160)
    # what is reported is rounded down once
    yield 0, 0, fields_of([1] * 3, [[7, 3, 2], [8, 5], [9]], b=[333333, 333333, 333334], w=700000, U=[9, 8, 7])
    yield 0, 0, fields_of([3, 7, 2, 5], [[70, 30, -2, 3], [80, -3, 9], [90, 31], [77]], b=[250001, 249999] * 2, w=999999, U=[40, 50, 60, 70], a=9)
    source = random.Random(5)
    for k in (2, 8, 15):
        yield 0, 0, account(k, source)
    # the largest ultimates, reported evenly and in one year: the largest divisor, 10^18
    for b in ([62500] * 16, [0, million] + [0] * 14):
        yield 0, 0, deep(15, b, [1400102] + [0] * 15)


def growth_edges():
    """As growth_accepted: both sides of questions 15, 16 and 17."""
    million, late = 10**6, [0, 10**6]
    # 15: Y below 0, of 0 and of 1
    yield 0, 15, model.PAID_BACK
    for since, latest in ((15, 40), (0, 41)):
        yield 0, since, changed(model.PAID_BACK, places(2)["P"] + 5, latest)
        yield 0, since, paid_back(15, latest, U=[20] * 16)
    for since, latest in ((15, 1), (0, 2)):
        yield 0, since, fields_of([300, 1], [[10, -1], [latest]], U=[3, 4])
    # 16: a divisor of 0, and of 1 by what is paid, by the weight and by what is reported
    yield 0, 16, fields_of([1, 1], [[1, 0], [2000000]], b=late, w=million)
    for since, latest in ((0, million), (16, million + 1)):
        yield 0, since, fields_of([1, 1], [[1, 0], [latest]], b=late, w=million)
    yield 0, 0, fields_of([1, 1], [[1, 0], [2000000]], b=late, w=million - 1)
    yield 0, 0, fields_of([1, 1], [[1, 0], [2000000]], b=[1, 999999], w=million)
    # 17: a corrected ratio of 1.06; of 1 and a millionth more; of 1, of 2 and of a million by a divisor of a millionth
    yield 0, 17, fields_of([1, 1], [[60, 40], [66]], [1100000, million], late, million, [66, 100])
    for since, total in ((0, 714285), (17, 714286)):
        yield 0, since, fields_of([1000, 1000], [[300000, 200000], [500000]], b=late, w=million, U=[total, 0])
    for since, total in ((0, 2), (17, 3), (17, million + 1)):
        yield 0, since, fields_of([1, 1], [[1, 0], [million]], b=late, w=million, U=[total, 0])


def growth_refusals():
    """As growth_accepted: two questions say no, or more, 15 to 17 among them."""
    million, most, late = 10**6, 10**10, [0, 10**6]
    # 15, and a divisor of that Y would be above 0 and give 17; 13 and 15, and a divisor of that Y would be 0; 15 and 14
    yield 0, 15, fields_of([1, 100, 1], [[0, 1, 0], [50, -40], [1]], b=[0, 0, million], U=[6, 3, 3])
    yield 13, 13, fields_of([1, 10000, 1], [[0, 0, 0], [50, -40], [1]], b=[0, 0, million], w=million)
    yield 0, 15, fields_of([300, 10000, 1], [[1, 0, -1], [50, -40], [1]], b=[0, 0, million], w=million)
    yield 14, 15, fields_of([1, million, 1], [[0, 5000, 245000], [most, -5 * 10**9], [million]])
    # 13 and 16; 16, of year 0 as much is paid back as is paid; 16 and 14; 13 and 17, 17 and 14
    yield 13, 13, fields_of([1, 1], [[0, 0], [2000000]], b=late, w=million)
    yield 0, 16, fields_of([300, 1], [[1, -1], [2000000]], b=late, w=million)
    yield 14, 16, fields_of([1, million], [[1, 49], [most]], b=late, w=million)
    yield 13, 13, fields_of([1, 1], [[0, 100], [66]], b=late, w=million, U=[66, 100])
    yield 14, 17, fields_of([1, million], [[1, 49], [most]], b=late, w=million - 1, U=[10**9, 0])
    # 12, and 15, 16 and 17 in turn
    yield 12, 12, changed(model.PAID_BACK, places(2)["U"], 100)
    yield 12, 12, fields_of([1, 1], [[1, 0], [2000000]], b=late, w=million, U=[2000000, 2])
    yield 12, 12, fields_of([1, 1], [[60, 40], [66]], b=late, w=million, U=[66, 101])
    # each question before 12, and 15; 13 with 9 too
    yield 11, 11, paid_back(2, 1, [1, 20000, 1], e=[million, 5 * million, million], a=10**7)
    yield 19, 19, paid_back(2, 1, e=[1, 6, 1], a=10**7)
    yield 18, 18, paid_back(2, 1, a=10**7 + 1)
    yield 10, 10, fields_of([100, million, 100], [[5000, 25, 200000], [300000, -250000], [26]])
    yield 9, 9, fields_of([100, million, 100], [[0, 2000000, 9 * 10**7], [7 * 10**8, -6 * 10**8], [60001]])
    yield 13, 13, fields_of([100, million, 100], [[0, 60001, 5 * 10**8], [7 * 10**8, -6 * 10**8], [60001]])
    yield 8, 8, fields_of([300, 300], [[10, -1], [1]])
    yield 7, 7, fields_of([1, 1, 1], [[60, 0, 0], [60, -40], [1]])
    yield 6, 6, fields_of([1, 1], [[60, -61], [1]])
    yield 5, 5, changed(model.PAID_BACK, places(2)["b"], 0)


def growth_cases():
    return (*growth_accepted(), *growth_edges(), *growth_refusals())


def unpaid(rows, h):
    """Nothing is paid up to development year h of the years that develop from it: the chain ladder's B of h is 0."""
    k = len(rows) - 1
    return [[0] * (h + 1) + row[h + 1:] if i < k - h else row for i, row in enumerate(rows)]


def jumping(rows, h):
    """Year 0 is paid fifty times B more in development year h + 1: the factor of h is above 50."""
    base = sum(sum(row[:h + 1]) for row in rows[:len(rows) - 1 - h])
    return [changed(rows[0], h + 1, rows[0][h + 1] + 50 * base)] + rows[1:]


def refused_by(question, k, change=lambda rows: rows):
    """Fields that question 13 lets pass and this one, of 7 to 12 and 15 to 19, is the first to refuse from 2027 on; or those fields with changed increments."""
    million, most = 10**6, 10**10
    n, rows = [100] * (k + 1), [[10000] + [10] * (k - i) for i in range(k + 1)]
    other = {}
    if question == 7:
        # the averages total more than S by the last year alone
        n[k], rows[k] = 1, [10**7]
    if question == 8:
        rows = [row if i == 0 else [0] + row[1:] for i, row in enumerate(rows)]
    if question == 9:
        n, rows = [1] + [million] * k, [[0, 200] + [0] * (k - 2) + [600]] + [[5000] + [0] * (k - i) for i in range(1, k)] + [[5001]]
    if question == 10:
        rows = [[5000, 200000] + [0] * (k - 1)] + [[0] * (k + 1 - i) for i in range(1, k)] + [[1]]
    if question == 15:
        n, rows[1], rows[k] = changed(n, 1, million), [6000] + [0] * (k - 2) + [-5000], [1]
        rows[0] = [60] + [0] * k
        rows[2:k] = [[60] + [0] * (k - i) for i in range(2, k)]
    if question in (16, 17):
        other = dict(b=[0] * k + [million], w=million)
        rows = [[1] + [0] * (k - i) for i in range(k)] + [[2000000]] if question == 16 else rows[:k] + [[10**6]]
    rows = change(rows)
    if question == 11:
        n[k], other = million, dict(a=model.S)
    if question == 12:
        other = dict(U=[most] * (k + 1))
    if question == 17:
        other["U"] = [sum(map(sum, rows))] + [0] * k
    if question == 18:
        other = dict(a=model.S + 1)
    if question == 19:
        other = dict(e=[1] * k + [6], a=model.S)
    return fields_of(n, rows, **other)


# the questions whose answer gives way to 13
GIVING_WAY = [7, 8, 9, 10, 18, 19, 11, 12, 15, 16, 17]


def apart(year, fields):
    """What question 13 answers of fields that pass 1 to 6, and what those that give way to it do, each by itself."""
    figures = model.opened(model.pack(fields), model.result_count(15))
    C = model.cumulatives(figures[2])
    return model.answer(model.development_factors, C)[0], model.answer(model.forecast, year, *figures, C)[0]


def two_refuse():
    """As growth_accepted: fields that a question that gives way to 13 refuses, alone and with 13, which says no by turns for want of a base and by too large a
    factor, in the first, a middle and the last development year; and other questions with 13."""
    turn = 0
    for k in (1, 2, 5, 15):
        for question in GIVING_WAY:
            # where k is 1 no running share is 0, and where 13 says no too and nothing is paid in the latest year, 8 says no before 15
            if k == 1 and question in (9, 15):
                continue
            alone = refused_by(question, k)
            assert apart(2027, alone) == (0, question), (question, k, apart(2027, alone))
            yield 0 if question in (15, 16, 17) else question, question, alone
            changes = [lambda rows, change=change, h=h: change(rows, h) for h in some_years(k) for change in (unpaid, jumping)]
            both = [fields for fields in (refused_by(question, k, change) for change in changes)
                    if model.answer(apart, 2027, fields) == (0, (13, question))]
            assert both, (question, k)
            yield 13, 13, both[turn % len(both)]
            turn += 1
    # 6 comes before 13: a cumulative is below 0, or above 10^11
    yield 6, 6, fields_of([1, 1], [[0, -1], [66]])
    yield 6, 6, fields_of([1] * 3, [[0, 0, 0], [50, -51], [1]])
    yield 6, 6, fields_of([10**6] * 16, [[1] + [10**10] * 10 + [0] * 5] + [[0] * (16 - i) for i in range(1, 16)])
    yield 6, 6, fields_of([10**6] * 16, [[0] * 5 + [10**10] * 11] + [[0] * (16 - i) for i in range(1, 16)])
    # 5 and 4 do too; a cumulative would be completed past 10^11 by the factor that is too large
    yield 5, 5, changed(model.THREE_YEARS, places(2)["b"], 0)
    yield 4, 4, changed(model.THREE_YEARS, places(2)["n"], 0)
    yield 13, 13, fields_of([1, 10**6], [[1, 50], [10**10]])


def by_chance(source):
    """Fields of few years, of few sizes."""
    million = 10**6
    k = source.randint(1, 4)
    scale = source.choice((1, 100, million))
    n = [source.choice((1, 100, million, scale)) for _ in range(k + 1)]
    rows = [[0 if source.random() < 0.3 else source.choice((1, 2, 60, 49 * scale, 51 * scale, scale, -scale if j else 0, 10**7)) for j in range(k + 1 - i)]
            for i in range(k + 1)]
    b = source.choice(([million] + [0] * k, [0] * k + [million]))
    U = [source.choice((0, 0, 1, scale)) for _ in range(k + 1)]
    e = [source.choice((1, 6, million)) for _ in range(k + 1)]
    return fields_of(n, rows, e, b, source.choice((0, million)), U, source.choice((0, 0, 0, 1, 10**7, 10**7 + 1, 10**10)))


def changed_answers():
    """Request 6 in small: over the stored records and over records by chance the answer is another than with 13 directly before 14 just where 1 to 6 pass, 13
    says no and so does one of those that give way to it; it is then 13."""
    def before(year, k, n, P, *rest):
        C = model.cumulatives(P)
        model.forecast(year, k, n, P, *rest, C)
        model.completed(C, model.development_factors(C))

    source, most = random.Random(6), model.result_count(15)
    records = list(dict.fromkeys([record for *_, record in run_inputs()] + [model.pack(by_chance(source)) for _ in range(1500)]))
    met, same = {}, 0
    for record in records:
        number_, figures = model.answer(model.opened, record, most)
        for year in () if number_ else (2026, 2027):
            six, C = model.answer(model.cumulatives, figures[2])
            factors, rest = [0 if six else model.answer(*call)[0] for call in ((model.development_factors, C), (model.forecast, year, *figures, C))]
            old, new = model.answer(before, year, *figures)[0], model.run(year, record, most)[0]
            moves = six == 0 and factors == 13 and rest in GIVING_WAY
            assert (new != old) == moves and (new == 13 or not moves), (year, record.hex(), old, new)
            if moves:
                met[rest] = met.get(rest, 0) + 1
            else:
                same += 1
    assert sorted(met) == sorted(GIVING_WAY), met
    print("answers that request 6 makes 13, by what they were:", dict(sorted(met.items())), "and the same:", same)


def run_inputs():
    """Valuation years, lengths of the result buffer and records."""
    for place, fields in enumerate(accepted()):
        record, count = model.pack(fields), model.result_count(fields[0])
        assert model.run(2026, record, count)[0] == 0, (place, fields, model.run(2026, record, count)[0])
        # every third buffer is longer than the list
        yield 2026, count + (place % 3 == 2), record
    for number_, fields in refused():
        record, count = model.pack(fields), model.result_count(fields[0])
        assert model.run(2026, record, count)[0] == number_, (number_, fields, model.run(2026, record, count)[0])
        yield 2026, count, record
    for room, record in damaged_and_short():
        yield 2026, room, record
    for before, since, fields in (*growth_cases(), *two_refuse()):
        record, count = model.pack(fields), model.result_count(fields[0])
        for year, number_ in ((2026, before), (2027, since)):
            assert model.run(year, record, count)[0] == number_, (year, number_, fields, model.run(year, record, count)[0])
            if year == 2027 or before != since or since == 13:
                yield year, count, record
    yield from years()


def damaged_and_short():
    """Lengths of the result buffer and records that are refused under questions 1 to 4, and the longest list in a longer buffer."""
    two, longest = model.pack(model.TWO_YEARS), model.pack(account(15, random.Random(3)))
    filled = longest[:-1] + bytes([longest[-1] | 1])
    assert model.bit_count(15) % 8 and filled != longest
    # among them records without the last index and the amount
    for record in (b"", b"\x00", b"\x0f" + two[1:], two[:-1], two + b"\x00", two[:38], longest[:790], filled, longest + b"\x00", two[:1], bytes([16]) * 4096):
        yield 22, record
    zero = places(1)["P"]
    yield 22, model.pack(changed(model.TWO_YEARS, zero, 0), negative_zeros=(zero,))
    # question 3, also before questions 4, 13, 8 and 18; 20 entries are the list without the payments after the last year
    for room in (0, 20, 21):
        yield room, two
        yield room, model.pack(changed(model.TWO_YEARS, 1, 0))
        yield room, model.pack(changed(model.TWO_YEARS, 3, 0))
        yield room, model.pack(changed(model.TWO_YEARS, 5, 0))
        yield room, model.pack(changed(model.TWO_YEARS, places(1)["a"], 10**10))
    yield 489, longest
    yield 504, longest
    yield 512, longest


def years():
    """As run_inputs: the two years, also with payments after the last year, the motor account, and a record that 15, 16 and 17 each refuse, in other years; cut
    to fewer bits some of these are before 2027."""
    for year in (0, 2027, 2028, 65535, 2**16 + 2026, 2**32 + 2026, 2**63, 2**64 - 1):
        yield year, 22, model.pack(model.TWO_YEARS)
    tail = changed(changed(model.TWO_YEARS, places(1)["e"] + 1, 1210000), places(1)["a"], 100)
    yield 2027, 22, model.pack(tail)
    yield 2027, model.result_count(3), model.pack(model.MOTOR_ACCOUNT)
    for fields in {since: fields for _, since, fields in growth_edges() if since}.values():
        for year in (0, 2**64 - 1):
            yield year, model.result_count(fields[0]), model.pack(fields)
    # a buffer that is an entry too short, and no record, come before what the year asks
    yield 2027, 21, model.pack(model.TWO_YEARS)
    yield 2027, model.result_count(2) - 1, model.pack(model.PAID_BACK)
    yield 2027, 22, b""
    yield 2**64 - 1, 22, b"\x00"


def of_year(year, rest):
    """What a program that runs the engine is given: the valuation year in two bytes, the high one first, and then the record or the records."""
    return year.to_bytes(2, "big") + rest


# a title that tries to end its element, and a first year
HEAD = ("Taylor's <motor> account & more</h1></title><script>\x01\t\x7f \u00e9".encode("utf-8"), 1967)


def of_report(year, record, title=b"", first=0, line=b""):
    """What a report's program is given: the valuation year and the first origin year in two bytes each, the title and a line of inflation, each behind its length
    and of length 0 where there is none, and then the record."""
    return year.to_bytes(2, "big") + first.to_bytes(2, "big") + bytes([len(title)]) + title + bytes([len(line)]) + line + record


def main():
    given, wanted = b"", ""
    for room, record in read_cases():
        given += bytes([room]) + len(record).to_bytes(2, "big") + record
        number_, fields = model.answer(model.read, record, room)
        wanted += shown(number_, fields, room)
    store("read_cases", given, wanted)
    given, wanted = b"", ""
    for room, k, lists in write_inputs():
        given += number(room) + number(k) + number(lists["w"][0]) + number(lists["a"][0])
        for name in "nPebU":
            given += number(len(lists[name])) + b"".join(number(v) for v in lists[name])
        number_, record = model.answer(
            model.write, k, lists["n"], lists["P"], lists["e"], lists["b"], lists["w"][0], lists["U"], lists["a"][0], room)
        wanted += f"answer {number_}\n"
        wanted += "unchanged\n" if record is None else record.hex() + "\n"
    store("write_cases", given, wanted)
    given, wanted, numbers = b"", "", []
    for year, room, record in run_inputs():
        given += year.to_bytes(8, "big") + room.to_bytes(2, "big") + len(record).to_bytes(2, "big") + record
        number_, results = model.run(year, record, room)
        numbers.append(number_)
        wanted += shown(number_, results, room)
    # run_cases stops after so many
    assert len(numbers) <= 1000
    store("run_cases", given, wanted)
    print("cases by number:", {number_: numbers.count(number_) for number_ in sorted(set(numbers))})
    changed_answers()
    inflation_cases()
    history_cases()
    hindsight_cases()
    record = model.pack(model.TWO_YEARS)
    store("fields", record, "".join(f"{v}\n" for v in model.TWO_YEARS))
    record = model.pack(model.MOTOR_ACCOUNT)
    put(os.path.join(CRATES, "motor_account", "stdin"), of_year(2026, record))
    store("reserve", of_year(2026, record), "".join(f"{v}\n" for v in model.run(2026, record, model.result_count(3))[1]))
    store("report", of_report(2026, record, *HEAD), page.page(2026, record, False, *HEAD).encode("latin-1"))
    store("report_html", of_report(2026, record, *HEAD), page.page(2026, record, True, *HEAD).encode("latin-1"))
    # every record once; run_cases has most of them in 2026
    records = list(dict.fromkeys(record for *_, record in run_inputs()))
    stream = b"".join(len(record).to_bytes(2, "big") + record for record in records)
    store("reserve_many", of_year(2027, stream), "".join(row(2027, record) for record in records))
    gather(record)
    examples()
    refusals()
    refused_pages()
    given_pages()
    rates()
    texts()
    histories()
    history_texts.main()


# the bits of rates: both limits, and what is no number and infinities
LEAST_RATE, MOST_RATE, MINUS = 0xbfe << 52, 0x3ff << 52, 1 << 63
NO_RATES = [0x7ff << 52, 0xfff << 52, (0x7ff << 52) + 1, 0x7ff8 << 48, 0xfff8 << 48, MINUS - 1, 2**64 - 1]
# the next ones past the limits, others that are out of range, and the largest
TOO_FAR = [LEAST_RATE + 1, MOST_RATE + 1, 0xbff << 52, 0x400 << 52, 0xbfe8 << 48, 0x3ff8 << 48, (0x7ff << 52) - 1, (0xfff << 52) - 1]
# the limits, the next ones within, zeros, the least, the largest subnormal, the least normal, and 2^-54 and 2^-53, which 1 swallows
IN_RANGE = [LEAST_RATE, LEAST_RATE - 1, MOST_RATE, MOST_RATE - 1, 0, MINUS, 1, MINUS + 1, 2**52 - 1, MINUS + 2**52 - 1, 2**52, MINUS + 2**52,
            0x3c9 << 52, 0xbc9 << 52, 0x3ca << 52, 0xbca << 52, (0x3ca << 52) + 1, (0xbca << 52) - 1]

# Name of a blunder of inflation.py, and a call whose indices it changes. Of the decimals most have a product that would be a half in exact arithmetic.
TOLD_APART = [
    ("power", "flat", [0x3f9a09a91e99ff9b], 16), ("power", "flat", [0x3fb1b1874b19c716], 16), ("power", "flat", [0x3fc399b5a754db48], 3),
    ("power", "fading", ["0.08", "0.03"], 3), ("power", "shock", ["0.1", "0.15", 3], 4), ("power", "shock", [0x3fc5a4e737ac763d, "0.03", 4], 9),
    ("fused", "flat", [0x3fb671c723749748], 16), ("fused", "flat", [0x3fcc01cdbabdc3cc], 3), ("fused", "fading", ["0.08", "0.03"], 3),
    ("fused", "fading", ["0.16", "0.05"], 3), ("fused", "shock", ["0.1", "0.15", 2], 4), ("fused", "shock", ["0.02", "0.15", 1], 4),
    ("added", "flat", [0x3fb14379712602c9], 16), ("added", "flat", [0x3fca7d3feb7d5cbc], 3), ("added", "fading", ["0.08", "0.09"], 3),
    ("added", "shock", ["0.06", "0.05", 1], 4), ("added", "shock", ["0.06", "0.05", 2], 4), ("added", "shock", ["0.25", "0.1", 1], 6),
    ("scaled", "flat", [0x3fa8d7f79f99998e], 16), ("scaled", "flat", [0x3fd8202c9ce3e9cc], 3), ("scaled", "fading", ["0.16", "0.09"], 3),
    ("scaled", "shock", ["0.14", "0.15", 2], 4), ("scaled", "shock", ["0.14", "0.15", 3], 4),
    ("mean", "fading", ["-0.5", "0.3"], 6), ("mean", "fading", ["-0.48", "0.05"], 3), ("mean", "fading", [0x3fbbd09fa4da56c5, "0.02"], 10),
    ("mean", "fading", [0x3fd78b4a77482724, "0.02"], 16),
    ("halves", "fading", ["-0.48", "0.09"], 3), ("halves", "fading", [0x3fb600d6b88f6a32, "0.02"], 10), ("halves", "fading", [0x3fea00281cc7e442, "-0.3"], 6),
    ("from_rate", "fading", ["-0.4", "-0.05"], 3), ("from_rate", "fading", [0x3fba32b8e5289ec6, "0.02"], 10),
    ("from_rate", "fading", [0x3fd97f2eca92cf6d, "0.02"], 16),
    ("unrounded", "fading", ["0.08", "0.13"], 3), ("unrounded", "fading", ["0.16", "0.05"], 3), ("unrounded", "shock", ["0.18", "0.05", 1], 4),
    ("even", "flat", ["-0.5"], 7), ("even", "fading", ["0.08", "0.07"], 3), ("even", "shock", ["0.04", "0.25", 1], 5),
    ("down", "flat", ["-0.5"], 16), ("down", "fading", ["0.16", "0.19"], 3), ("down", "shock", ["0.02", "0.25", 1], 4),
]


def rate_bits(rate):
    """The bits of a rate that is given as bits or as a decimal."""
    if not isinstance(rate, str):
        return rate
    return MINUS if rate == "-0" else inflation.bits_of(inflation.decimal(rate))


def numbers_of(shape, sent):
    """What inflation.py takes for the numbers of a call: rates as bits or decimals and, of a shock, its year."""
    count = inflation.SHAPES[shape]
    return [inflation.of_bits(rate_bits(rate)) for rate in sent[:count]] + sent[count:]


def call_bytes(shape, sent, years):
    """A call as inflation_cases is given it: the shape in a byte, then the rates' bits, the year of the shock and the years wanted, each in eight bytes."""
    count = inflation.SHAPES[shape]
    numbers = [rate_bits(rate) for rate in sent[:count]] + [0] * (2 - count) + (sent[count:] or [0]) + [years]
    return bytes([list(inflation.SHAPES).index(shape)]) + b"".join(number_.to_bytes(8, "big") for number_ in numbers)


def last_rate(shape, rest, years, most):
    """The bits of the largest rate from 0 on with which the index of the last of these years is at most this."""
    low, high = 0, MOST_RATE
    while low < high:
        middle = (low + high + 1) // 2
        if inflation.every_index(shape, numbers_of(shape, [middle, *rest]), years)[-1] <= most:
            low = middle
        else:
            high = middle - 1
    return low


def worked_calls():
    """Calls of each shape and of each count of years, some of them worked out in inflation.py."""
    for years in range(1, 17):
        yield "flat", ["0.03"], years
        yield "fading", ["0.08", "0.02"], years
        yield "shock", ["0.1", "0.025", (years + 1) // 2], years
    for rate in ("-0.5", "-0", "0", "0.1", "-0.02"):
        yield "flat", [rate], 16
    # from one limit toward the other and toward zero, upward, level, and from zeros of either sign
    yield "fading", ["-0.5", "1"], 5
    for rate, long_run in (("1", "-0.5"), ("1", "0"), ("0.5", "-0.5"), ("0", "0.05"), ("-0.3", "0.02"), ("0.04", "0.04"), ("-0", "0"), ("0", "-0")):
        yield "fading", [rate, long_run], 16
    # the shock in each year, and a fall back from 4,000,000
    for year in range(1, 17):
        yield "shock", ["0.4", "0.02", year], 16
    for year in (1, 2, 3):
        yield "shock", ["-0.5", "1", year], 3
    yield "shock", ["0.25", "1", 3], 3


def limit_calls():
    """Both sides of each limit of question 20, in each place, and two of them at once."""
    for rate in IN_RANGE + TOO_FAR + NO_RATES:
        yield "flat", [rate], 2
        yield "fading", [rate, "0.02"], 3
        yield "fading", ["0.02", rate], 3
        yield "shock", [rate, "0.02", 2], 3
        yield "shock", ["0.02", rate, 2], 3
    # a rate that no year uses
    for rate in (MOST_RATE, MOST_RATE + 1, NO_RATES[3]):
        yield "fading", ["0.02", rate], 1
        yield "shock", ["0.02", rate, 1], 1
    # years; cut to fewer bits some are in range
    for years in (0, 17, 18, 255, 2**8 + 1, 2**16 + 1, 2**32 + 16, 2**63, 2**63 + 1, 2**64 - 1):
        yield "flat", ["0.02"], years
        yield "fading", ["0.05", "0.02"], years
        yield "shock", ["0.05", "0.02", 1], years
        yield "shock", ["0.05", "0.02", years], years
    for years in (1, 2, 15, 16):
        for year in (0, 1, years, years + 1, 2**8 + 1, 2**32 + 1, 2**63, 2**64 - 1):
            yield "shock", ["0.05", "0.02", year], years
    # two of them; one of them and an index that would be too large
    for rate in (NO_RATES[3], MOST_RATE + 1):
        yield "flat", [rate], 0
        yield "fading", [rate, rate], 17
        yield "shock", [rate, "0.02", 0], 3
        yield "shock", ["0.02", rate, 4], 3
        yield "flat", [rate], 16
        yield "fading", ["1", rate], 16
        yield "shock", [rate, "1", 16], 16
    yield "shock", ["1", "1", 17], 16
    yield "flat", ["1"], 17


def edge_calls():
    """Both sides of question 21: the rate with which the last index is 5,000,000 and the next one; an index that comes back, and one past the years wanted."""
    most = inflation.INDEX_MOST
    for shape, rest, counts in (("flat", [], range(3, 17)), ("fading", ["0.1"], (8, 12, 16)), ("fading", ["0.5"], (4, 5)), ("shock", ["1", 3], (3,)),
                                ("shock", ["1", 1], (3,)), ("shock", ["0.1", 16], (16,)), ("shock", ["0.09", 7], (16,)), ("shock", ["0.5", 2], (4,))):
        for years in counts:
            last = last_rate(shape, rest, years, most)
            answers = [inflation.indices(shape, numbers_of(shape, [rate, *rest]), years)[0] for rate in (last, last + 1)]
            assert answers == [0, 21], (shape, rest, years, answers)
            yield shape, [last, *rest], years
            yield shape, [last + 1, *rest], years
    for years in (4, 5, 16):
        yield "shock", ["-0.5", "1", 4], years
    for rate, years in (("1", 1), ("1", 2), ("1", 3), ("1", 16), ("0.5", 3), ("0.5", 4), ("0.144", 11), ("0.144", 12)):
        yield "flat", [rate], years
    yield "fading", ["1", "0.02"], 16
    yield "fading", ["1", "0.01"], 16
    yield "fading", ["-0.5", "1"], 6


def half_calls():
    """Products that are a half or next to it, of even and of odd indices."""
    for below in (1000000, 1000001, 1048575, 1048576, 1500000, 1999998, 1234566, 1234567):
        last = last_rate("flat", [], 1, below)
        yield "flat", [last], 1
        yield "flat", [last + 1], 1
        # paths from 1 to 2 have steps of 2^-52
        path = inflation.grow(1, inflation.of_bits(last))
        for place in (-1, 0, 1, 2):
            yield "flat", [inflation.bits_of(path + place * inflation.power(-52) - 1)], 1
    for below, years in ((1500000, 4), (2400001, 9), (1300000, 16), (4999998, 16)):
        last = last_rate("flat", [], years, below)
        yield "flat", [last], years
        yield "flat", [last + 1], years
    for rate in ("0.0000005", "0.0000015", "0.0000025", "-0.0000005", "-0.0000015", "-0.4999995", "-0.4999985", "0.9999995"):
        yield "flat", [rate], 1


def rate_by_chance(source):
    """The bits of a rate: of any size up to a half, of any value, or from -5 to 12 percent with few digits or with all."""
    kind = source.randrange(5)
    if kind == 0:
        return source.choice((0, MINUS)) + source.randrange(0x3fe << 52)
    percent = Fraction(source.randint(-50000, 120000), 10**6)
    value = Fraction(source.randint(-2**60, 2**61), 2**61) if kind == 1 else percent if kind < 4 else percent + Fraction(source.getrandbits(60), 2**80)
    return inflation.bits_of(inflation.rounded(value))


def calls_by_chance():
    source = random.Random(10)
    for place in range(96):
        shape, years = list(inflation.SHAPES)[place % 3], source.randint(1, 16)
        rates = [rate_by_chance(source) for _ in range(inflation.SHAPES[shape])]
        yield shape, rates + ([source.randint(1, years)] if shape == "shock" else []), years


def inflation_calls():
    """Shape, numbers and years wanted of each call."""
    yield from worked_calls()
    for name, shape, sent, years in TOLD_APART:
        by_rule, by_blunder = (inflation.indices(shape, numbers_of(shape, sent), years, steps) for steps in (inflation.RULE, inflation.BLUNDERS[name]))
        assert by_rule[0] == 0 and by_rule != by_blunder, (name, shape, sent, years)
        yield shape, sent, years
    yield from limit_calls()
    yield from edge_calls()
    yield from half_calls()
    yield from calls_by_chance()


def inflation_cases():
    """What inflation_cases is given, each call once, and for each call a line with the answer and the sixteen indices."""
    calls = {call_bytes(*call): call for call in inflation_calls()}
    wanted, numbers = "", []
    for shape, sent, years in calls.values():
        number_, values = inflation.indices(shape, numbers_of(shape, sent), years)
        numbers.append(number_)
        wanted += " ".join(map(str, [number_, *values])) + "\n"
    # inflation_cases takes so many bytes
    assert 33 * len(calls) <= 65536
    assert {name for name, *_ in TOLD_APART} == set(inflation.BLUNDERS)
    store("inflation_cases", b"".join(calls), wanted)
    print("calls by number:", {number_: numbers.count(number_) for number_ in sorted(set(numbers))})


def cut_out(exposures, P):
    """What a run says of the record that is cut out for a window, its other fields plain: the number, and the shares and levels where it is 0. The record's
    questions 6 and 13 come before 7 to 10, so of what they refuse it says nothing of the separation."""
    fields = fields_of(exposures, P, w=0, U=[0] * len(P))
    count = model.cells(len(P) - 1)
    number_, results = model.run(2026, model.pack(fields), model.result_count(len(P) - 1))
    return number_, results and results[count:count + 2 * len(P)]


def hold_positions(calls):
    """Each position equals the record cut out for it under questions 7 to 10 alone: where none but those can say no of the record, the number, the shares and
    the levels are the same. Prints how many were of each number, and how many of what else the record is refused for."""
    same, other = {}, {}
    for years, width, exposures, cells, room in calls:
        if history.history(years, width, exposures, cells, room)[0]:
            continue
        rows = history.by_row(years, cells)
        for start, (number_, shares, levels) in enumerate(history.positions(width, exposures, rows)):
            run, factors = cut_out(*history.window(exposures, rows, width, start))
            if run in (0, 7, 8, 9, 10):
                assert (run, factors or [0] * 2 * width) == (number_, shares + levels), (years, width, start)
                same[number_] = same.get(number_, 0) + 1
            else:
                other[run, number_] = other.get((run, number_), 0) + 1
    assert set(same) == {0, 7, 8, 9, 10} and {(6, 0), (13, 0)} <= set(other), (same, other)
    print("positions as their records, by number:", dict(sorted(same.items())), "and refused otherwise:", dict(sorted(other.items())))


def history_bytes(years, width, exposures, cells, room):
    """What history_cases is given of a call."""
    # it takes lists that are so long
    assert len(exposures) <= 128 and len(cells) <= 1024 and room <= 2048
    eight, two = (lambda values, size=size: b"".join(value.to_bytes(size, "big") for value in values) for size in (8, 2))
    return eight((years, width)) + two((len(exposures), len(cells), room)) + eight(exposures) + b"".join(map(number, cells))


def history_cases():
    """What history_cases is given, each call once, and for each the answer and the whole result."""
    calls = {history_bytes(*call): call for call in history.calls()}
    wanted, numbers = "", []
    for call in calls.values():
        number_, result = history.history(*call)
        numbers.append(number_)
        wanted += shown(number_, result, call[-1])
    # history_cases stops after so many
    assert len(calls) <= 1000
    store("history_cases", b"".join(calls), wanted)
    print("histories by number:", {number_: numbers.count(number_) for number_ in sorted(set(numbers))})
    hold_positions(calls.values())


def refused_runs():
    """Records that the engine refuses with 7 or later in 2027, one of each number and k, but of few k by 13: a hindsight run asks only 1 to 6 of its record."""
    found = {}
    for *_, record in run_inputs():
        number_ = model.run(2027, record, model.result_count(15))[0]
        k = record[0] >> 4 if record else 0
        if number_ > 6 and k >= hindsight.K_LEAST and (number_ != 13 or k in (2, 5, 15)):
            found.setdefault((number_, k), record)
    assert {number_ for number_, _ in found} == set(range(7, 20))
    return found.values()


def first_future(K, results):
    """The payments of rows 1 to K in the first future year, of a result list of the years 0 to K."""
    start = model.cells(K) + 2 * (K + 1) + K
    return [results[start + i * (i - 1) // 2] for i in range(1, K + 1)]


def hold_steps(calls):
    """Each step equals the record cut out for it, whose first index is the setting, under questions 7 to 10 alone: where none but those can say no of the record,
    the mark is the same, and the gaps are what is paid less document 01's payments. Held for the first setting and the last. Prints as hold_positions does."""
    same, other = {}, {}
    for record, settings, room in calls:
        number_, entries = hindsight.hindsight(record, settings, room)
        if number_:
            continue
        n, P = hindsight.opened(record, settings, room)
        k = len(P) - 1
        found, best = hindsight.parts(k, len(settings), entries)
        assert all(total == sum(abs(gap) for _, gaps in steps for gap in gaps) for steps, total in found)
        assert [place for place, (_, total) in enumerate(found) if total == min(total for _, total in found)][0] == best
        for index, (steps, _) in list(zip(settings, found))[::max(len(settings) - 1, 1)]:
            for K, (mark, gaps) in zip(range(k - 1, 0, -1), steps):
                rows = [P[i][:K + 1 - i] for i in range(K + 1)]
                fields = fields_of(n[:K + 1], rows, [index] + [1] * K, w=0)
                run, results = model.run(2026, model.pack(fields), model.result_count(K))
                if run in (0, 7, 8, 9, 10):
                    due = [P[i][K + 1 - i] - paid for i, paid in enumerate(first_future(K, results), 1)] if results else [0] * K
                    assert (run, due) == (mark, gaps), (record.hex(), index, K)
                    same[mark] = same.get(mark, 0) + 1
                else:
                    other[run, mark] = other.get((run, mark), 0) + 1
    assert set(same) == {0, 7, 8, 9, 10} and {(11, 0), (13, 0)} <= set(other), (same, other)
    print("steps as their records, by mark:", dict(sorted(same.items())), "and refused otherwise:", dict(sorted(other.items())))


def hindsight_bytes(record, settings, room):
    """What hindsight_cases is given of a call."""
    # it takes lists that are so long
    assert len(record) <= 4096 and len(settings) <= 512 and room <= 1024
    lengths = b"".join(length.to_bytes(2, "big") for length in (len(record), len(settings), room))
    return lengths + record + b"".join(index.to_bytes(8, "big") for index in settings)


def hindsight_cases():
    """What hindsight_cases is given, each call once, and for each the answer and the whole report."""
    settings = [10**6, 1100000]
    given = (*hindsight.calls(), *((record, settings, hindsight.report_count(record[0] >> 4, 2)) for record in refused_runs()))
    calls = {hindsight_bytes(*call): call for call in given}
    wanted, numbers = "", []
    for call in calls.values():
        number_, entries = hindsight.hindsight(*call)
        numbers.append(number_)
        wanted += shown(number_, entries, call[-1])
    # hindsight_cases stops after so many
    assert len(calls) <= 1000
    store("hindsight_cases", b"".join(calls), wanted)
    print("hindsight runs by number:", {number_: numbers.count(number_) for number_ in sorted(set(numbers))})
    hold_steps(calls.values())


def gather(record):
    """The files that gather is given: a record, a text, a file longer than any record, an empty one, and a name that no file has."""
    with open(os.path.join(HERE, "..", "examples", "two_years.txt"), "rb") as text:
        files = {"account.rec": record, "figures.txt": text.read(), "long": record + bytes(5000), "empty": b""}
    for name, data in files.items():
        put(os.path.join(CRATES, "gather", "data", name), data)
    put(os.path.join(CRATES, "gather", "args"), "".join(f"{name}\n" for name in [*files, "missing"]))
    taken = [record, b"", files["long"][:4096], b"", b""]
    put(os.path.join(CRATES, "gather", "stdout"), b"".join(len(data).to_bytes(2, "big") + data for data in taken))


def examples():
    """The record, the page and the list of every example, the page with its line of inflation where it has one; the longest of them is what pack, unpack and report_csv
    are given."""
    for path in sorted(glob.glob(os.path.join(HERE, "..", "examples", "*.txt"))):
        name = os.path.splitext(os.path.basename(path))[0]
        with open(path, "rb") as text:
            given = text.read()
        fields, said = sheet.read(given)
        assert said is None, said
        record, line = model.pack(fields), page.line_of_inflation(given)
        put(os.path.splitext(path)[0] + ".rec", record)
        for year, folder in ((2026, "pages"), (2027, os.path.join("pages", "2027"))):
            if year == 2026 or name in ("two_years", "liability_tail"):
                store_pages(os.path.join(HERE, folder, name), year, record, line=line)
        if name == "liability_book":
            store("pack", given, record)
            store("unpack", record, page.sheet(fields))
            store("report_csv", of_year(2027, record), page.csv(2027, record))


def store_pages(path, year, record, title=b"", first=0, line=b""):
    """The pages and the list of a record that is accepted."""
    put(path + ".txt", page.page(year, record, False, title, first, line))
    put(path + ".html", page.page(year, record, True, title, first, line))
    put(path + ".csv", page.csv(year, record))


def refusals():
    """Records that question 13 or 7 refuses, each for another reason, and what is said of them, 13 first (tests/refusals)."""
    many = model.M
    made = {
        "column": fields_of([1, 1], [[60, -1], [66]]),
        "later_column": fields_of([1] * 4, [[60, 5, -9, 1], [70, 5, 8], [80, 5], [90]]),
        # the first column is below 0 by a half, which is 0, and the second by one and a half
        "half_column": fields_of([200] * 3, [[900, -1, -3], [900, 0], [900]]),
        "diagonal": fields_of([1] * 3, [[60, -5, 5], [0, 5], [70]]),
        "too_large": fields_of([100, 1], [[500000000, 200000001], [3000000]]),
        # nothing paid in the first development year but for the latest origin year, in a later one, in the last, and paid back
        "base_of_two_years": fields_of([1, 1], [[0, 40], [66]]),
        "base": fields_of([1] * 4, [[0, 5, 5, 5], [0, 5, 5], [0, 5], [9]]),
        "later_base": fields_of([1] * 4, [[0, 0, 5, 1], [0, 0, 7], [9, 9], [9]]),
        "last_base": fields_of([1] * 4, [[0, 0, 0, 5], [0, 3, 3], [9, 9], [9]]),
        "paid_back": fields_of([1] * 4, [[4, 0, -4, 5], [5, 3, 3], [9, 9], [9]]),
        # a factor of 50.000001, in the last year after one of 50, from one currency unit, and from none and above 50 in other years
        "factor": fields_of([many] * 2, [[1000000, 49000001], [66]]),
        "last_factor": fields_of([many] * 4, [[1000000, 49000000, 0, 2450000050], [1000000, 49000000, 0], [1000000, 49000000], [66]]),
        "factor_of_one": fields_of([1, 1], [[1, 50], [66]]),
        "factor_and_then_base": fields_of([1] * 3, [[1, -1, 5], [1, 200], [9]]),
        "base_and_then_factor": fields_of([1] * 3, [[0, 1, 100], [0, 1], [9]]),
        # years of two digits
        "base_of_16_years": fields_of([1] * 16, [[0] * 15 + [5]] + [[10] + [1] * (15 - i) for i in range(1, 16)]),
        "factor_of_16_years": fields_of([1] * 16, [[10] + [0] * 14 + [491]] + [[10] + [0] * (15 - i) for i in range(1, 16)]),
        # 7 would say no too: a column below 0, and averages that are too large; and 9, of document 01's last marked item
        "base_and_column": fields_of([1] * 3, [[0, 5, -3], [0, 2], [9]]),
        "factor_and_too_large": fields_of([1, 1], [[1000000, 49000001], [66]]),
        "base_and_share": model.THREE_YEARS,
    }
    assert [apart(2026, made[name]) for name in list(made)[-3:]] == [(13, 7), (13, 7), (13, 9)]
    for name, fields in made.items():
        record = model.pack(fields)
        put(os.path.join(HERE, "refusals", name + ".rec"), record)
        put(os.path.join(HERE, "refusals", name + ".said"), page.refusal(record))


def refused_pages():
    """A record that each question refuses, behind its year, and the pages that say so; then others, for the place and the figures of each, and some with a line of
    inflation (tests/pages/refused)."""
    folder = os.path.join(HERE, "pages", "refused")
    stored = set()

    def store_page(name, year, record, first, line=b""):
        number_ = model.run(year, record, 505)[0]
        assert name[:2] == f"{number_:02}" and name not in stored, (name, number_)
        stored.add(name)
        put(os.path.join(folder, name + ".given"), of_report(year, record, b"", first, line))
        put(os.path.join(folder, name + ".txt"), page.refused_page(year, record, False, b"", first, line))
        put(os.path.join(folder, name + ".html"), page.refused_page(year, record, True, b"", first, line))

    left = set(page.QUESTIONS) - {3}
    for year, _, record in run_inputs():
        number_ = model.run(year, record, 505)[0]
        if number_ in left and year < 65536:
            left.remove(number_)
            store_page(f"{number_:02}", year, record, 2012)
    assert not left, left
    for name, year, record, place, also in more_refused():
        store_page(name, year, record, 2012)
        assert page.why(int(name[:2]), record, 0)[0] == place, (name, page.why(int(name[:2]), record, 0))
        if also is not None:
            store_page(f"{name}_{also or 'no_first_year'}", year, record, also)
    for name, year, record, line, said in refused_with_rates():
        store_page(name, year, record, 2012, line)
        hold_words(page.refused_page, year, record, line, said)
    for name in sorted({os.path.splitext(file)[0] for file in os.listdir(folder)} - stored):
        print(f"tests/pages/refused/{name} is not made here")


def more_refused():
    """Name, year and record, the place where the answer is no as it is without a first year, and another first year to store it with too or None."""
    million, most = 10**6, 10**10
    two, three = model.TWO_YEARS, [2, 1, 1, 1, 60, 40, 20, 66, 50, 70, 1100000, 1210000, 1331000, 800000, 150000, 50000, 500000, 6, 10, 9, 15]
    at = places(2)
    assert model.run(2026, model.pack(three), 505)[0] == model.run(2027, model.pack(three), 505)[0] == 0

    def but(*changes, minus=()):
        fields = list(three)
        for name, place, value in changes:
            fields[at[name] + place] = value
        return model.pack(fields, negative_zeros=[at["P"] + place for place in minus])

    # a first byte whose first bits are zero; a record that is longer, and one with filling bits set
    yield "01_no_years", 2026, b"\x0f" + model.pack(two)[1:], None, None
    yield "02_long", 2026, model.pack(two) + bytes(1000), None, None
    yield "02_filling_bits", 2026, model.pack(two)[:-1] + b"\x07", None, 0
    # each kind of field; the increments are of row 0 up to place 2, of row 1 up to 4, and of row 2
    yield "04_exposure", 2026, but(("n", 1, million + 1)), "exposure of origin year 1", None
    yield "04_exposure_most", 2026, but(("n", 2, 2**20 - 1)), "exposure of origin year 2", None
    yield "04_exposure_zero", 2026, but(("n", 0, 0)), "exposure of origin year 0", 65535
    yield "04_paid", 2026, but(("P", 2, most + 1)), "paid increment of origin year 0, development year 2", None
    yield "04_paid_below", 2026, but(("P", 1, -most - 1)), "paid increment of origin year 0, development year 1", None
    yield "04_paid_minus_zero", 2026, but(("P", 0, 0), minus=[0]), "paid increment of origin year 0, development year 0", None
    yield "04_paid_later_row", 2026, but(("P", 4, 2**34 - 1)), "paid increment of origin year 1, development year 1", 0
    yield "04_paid_later_row_minus_zero", 2026, but(("P", 3, 0), minus=[3]), "paid increment of origin year 1, development year 0", None
    yield "04_paid_last_row_below", 2026, but(("P", 5, 1 - 2**34)), "paid increment of origin year 2, development year 0", None
    yield "04_index", 2026, but(("e", 2, 5 * million + 1)), "index e_3", None
    yield "04_index_zero", 2026, but(("e", 0, 0)), "index e_1", None
    yield "04_reporting", 2026, but(("b", 1, million + 1)), "reporting share of development year 1", None
    yield "04_weight", 2026, but(("w", 0, million + 1)), "reporting weight", None
    yield "04_ulae", 2026, but(("U", 1, most + 1)), "ULAE total of payment year 1", 0
    yield "04_tail", 2026, but(("a", 0, most + 1)), "amount still to be paid for the first origin year", None
    # an increment, an index and the amount are out of range; and with 16 years the increment of row 1 in development year 14 and a later one of row 3
    yield "04_three_fields", 2026, but(("P", 5, 0), ("e", 0, 0), ("a", 0, 2**34 - 1), minus=[5]), "paid increment of origin year 2, development year 0", None
    longest, P = figures(15, smallest), places(15)["P"]
    yield ("04_paid_of_16_years", 2026, model.pack(changed(longest, P + 30, most + 7), negative_zeros=[P + 46]),
           "paid increment of origin year 1, development year 14", None)
    # the shares sum to less than 1, to nothing, and to 3
    yield "05_below", 2026, but(("b", 2, 49999)), None, None
    yield "05_nothing", 2026, but(("b", 0, 0), ("b", 1, 0), ("b", 2, 0)), None, None
    yield "05_three", 2026, but(("b", 0, million), ("b", 1, million), ("b", 2, million)), None, None
    # a cumulative below zero, and too large by 1; one in a later row but an earlier development year is below zero too
    yield "06_below_zero", 2026, but(("P", 4, -67)), "origin year 1, development year 1", 0
    rows = [[1] * (13 - i) for i in range(13)]
    rows[2] = [most] * 10 + [1]
    yield "06_too_large", 2026, model.pack(fields_of([million] * 13, rows)), "origin year 2, development year 10", None
    yield "06_two_cells", 2026, but(("P", 2, -101), ("P", 3, -7)), "origin year 0, development year 2", None
    # nothing to develop from, in a later year and where all is paid back; a factor of 50.000001; a base of 0 and in the next year a factor, and the other way round
    yield "13_base", 2026, model.pack(fields_of([1] * 4, [[0, 0, 5, 1], [0, 0, 7], [9, 9], [9]])), "development year 1", 0
    yield "13_base_paid_back", 2026, model.pack(fields_of([1] * 4, [[4, 0, -4, 5], [5, 3, 3], [9, 9], [9]])), "development year 2", None
    yield "13_factor", 2026, model.pack(fields_of([million] * 3, [[9, 1, 5], [999991, 49000000], [66]])), "development year 0", None
    yield ("13_last_factor", 2026, model.pack(fields_of([million] * 4, [[1000000, 49000000, 0, 2450000050], [1000000, 49000000, 0], [1000000, 49000000], [66]])),
           "development year 2", None)
    yield "13_base_and_then_factor", 2026, model.pack(fields_of([1] * 3, [[0, 1, 100], [0, 1], [9]])), "development year 0", None
    yield "13_factor_and_then_base", 2026, model.pack(fields_of([1] * 3, [[1, -1, 5], [1, 200], [9]])), "development year 0", None
    # a column, a payment year, both, and all together; with all together a column too
    yield "07_column", 2026, model.pack(fields_of([1] * 4, [[60, 5, -9, 1], [70, 5, 8], [80, 5], [90]])), "development year 2", None
    yield "07_payment_year", 2026, model.pack(fields_of([1] * 3, [[60, -5, 5], [0, 5], [70]])), "payment year 1", 0
    yield "07_both", 2026, model.pack(fields_of([1] * 4, [[60, -5, -9, 1], [0, 5, 8], [80, 5], [90]])), "development year 2", None
    yield "07_whole", 2026, model.pack(fields_of([100, 8], [[500000000, 199999963], [24000003]])), None, 0
    yield "07_whole_and_column", 2026, model.pack(fields_of([1, 1], [[most, -1], [most]])), "development year 1", None
    # T_h less v_h is 0 in two years, and below 0 in one
    yield "08_two_years", 2026, model.pack(fields_of([1] * 4, [[5, 5, 5, 1], [5, 0, 0], [0, 0], [0]])), "development year 2", 0
    yield "08_below", 2026, model.pack(fields_of([1] * 4, [[50, 5, 5, 1], [9, -4, 5], [0, 3], [0]])), "development year 2", None
    # of the years 1 and 3, and not of 2; of the years from 10 on, by amounts of many digits, below 0 in two
    yield "08_first_and_last", 2026, model.pack(fields_of([1] * 4, [[5, 5, 5, 1], [0, 5, 0], [0, 0], [0]])), "development year 1", None
    rows = [[1000 if i + j < 10 else 0 for j in range(16 - i)] for i in range(16)]
    rows[2][0], rows[2][9], rows[0][9], rows[0][11], rows[0][13] = 90000, -90000, 91000, 90000, 1234567
    yield "08_16_years", 2027, model.pack(fields_of([10] * 16, rows)), "development year 10", None
    # the triangles with no exact solution, with many and with one
    for name, rows, h in (("none", [[1, 0, 0], [0, 1], [0]], 1), ("many", [[1, 0, 0], [0, 0], [0]], 1), ("one", [[0, 1, 2], [1, -1], [0]], 2)):
        yield f"08_solutions_{name}", 2026, model.pack(fields_of([1] * 3, rows)), f"development year {h}", None
    # the first running share is 0, and the first two
    yield "09_one", 2026, model.pack(RUNNING_OUT), "development year 0", None
    yield "09_two", 2026, model.pack(fields_of([100] * 4, [[5000, 45000, 2000000, 50000000], [0, 0, 0], [0, 0], [1]])), "development year 0", None
    # the level of a later payment year, and of two
    yield "10_later", 2026, model.pack(fields_of([100, million, 100], [[50, 60000, 2000000], [4000, 0], [100]])), "payment year 1", 0
    yield "10_two_years", 2026, model.pack(fields_of([100] * 3, [[5000, 60000, 2000000], [0, 0], [100]])), "payment year 0", None
    # the amount's average is above the limit by one and a half, which is two, and by far
    yield "18_half", 2026, model.pack(tailed(1, None, 2 * model.S + 3, {0: 200})), "origin year 0", 0
    yield "18_largest", 2026, model.pack(tailed(2, None, most, {0: 1})), "origin year 0", None
    # the average of a later year, and of two
    yield "19_later", 2026, model.pack(tailed(3, [999999, million, 5 * million, million], model.S)), "origin year 2", 65535
    yield "19_two_years", 2026, model.pack(tailed(3, [1, 1, 6, 5 * million], model.S)), "origin year 2", None
    # the ultimate of a later year by its tail payment, by its payments, and those of two years
    n, rows = plain(3, 100, 0, 100)
    yield "11_later", 2026, model.pack(fields_of(changed(n, 2, million), changed(rows, 2, [10**9 + 1, 0]), a=99900000)), "origin year 2", 0
    yield "11_payments", 2026, model.pack(fields_of([100, million], [[10**7, 19800002], [9999900001]], [5 * million, million])), "origin year 1", None
    yield "11_two_years", 2026, model.pack(tailed(3, [million, 4 * million, 5 * million, 5 * million], model.S, {2: 20000, 3: 999999})), "origin year 2", None
    # what is paid in the latest payment year is below 0; the weight is 1 and 1 is reported, which is less than a millionth of what is paid, or nothing is
    yield "15_below", 2027, model.pack(model.PAID_BACK), "payment year 2", 0
    yield "16_reported", 2027, model.pack(fields_of([1, 1], [[1, 0], [2000000]], b=[0, million], w=million)), None, None
    yield "16_nothing_reported", 2027, model.pack(fields_of([300, 1], [[1, -1], [2000000]], b=[0, million], w=million)), None, None
    # a divisor of a millionth
    yield "17_largest", 2027, model.pack(fields_of([1, 1], [[1, 0], [million]], b=[0, million], w=million, U=[million + 1, 0])), None, None
    # a later row and development year; a later row passes the limit in an earlier development year
    rows = [[1000, 0, 9000, 190000], [1000, 0, 9000], [10**9, 0], [10**9]]
    yield "14_later", 2026, model.pack(fields_of([million] * 4, rows)), "origin year 2, development year 3", 0
    rows = [[1000, 0, 9000, 190000], [10**9, 0, 9 * 10**9], [most, most], [10**9]]
    yield "14_two_rows", 2026, model.pack(fields_of([million] * 4, rows)), "origin year 1, development year 3", None


def given_pages():
    """Records that are accepted, with what stands before them, their pages and their lists (tests/pages/given)."""
    folder = os.path.join(HERE, "pages", "given")
    stored = set()

    def store_page(name, year, record, *head):
        assert name not in stored
        stored.add(name)
        put(os.path.join(folder, name + ".given"), of_report(year, record, *head))
        store_pages(os.path.join(folder, name), year, record, *head)

    # averages that lose payments and are below zero
    lost = fields_of([1000] * 4, [[90000, 9000, 3, 5], [95000, -800, 4], [99000, 9500], [99000]])
    store_page("lost", 2026, model.pack(lost), b"Averages that lose payments", 2024)
    for name, year, record, line, said in accepted_with_rates():
        store_page("inflation_" + name, year, record, b"", 0, line)
        hold_words(page.page, year, record, line, said)
    # a title that is a line of inflation too, of other rates
    line = b"inflation fading 0.08 0.02"
    store_page("inflation_titled", 2027, with_rates(model.MOTOR_ACCOUNT, line), b"inflation flat 0.05", 2024, line)
    for name in sorted({os.path.splitext(file)[0] for file in os.listdir(folder)} - stored):
        print(f"tests/pages/given/{name} is not made here")


def with_rates(fields, line):
    """The record of fields with the indices that a line of inflation makes, also one whose rates are refused."""
    k, (_, words) = fields[0], sheet.cells(line)
    at = places(k)["e"]
    return model.pack(fields[:at] + inflation.every_index(*sheet.call(words), k + 1) + fields[at + k + 1:])


def hold_words(make, year, record, line, said):
    """The pages that `make` makes have a section of the rates, directly between the inputs and what is proved, which says this; or none where nothing is said."""
    text, web = make(year, record, False, line=line), make(year, record, True, line=line)
    if not said:
        assert "Inflation" not in text + web and (text, web) == (make(year, record), make(year, record, True))
        return
    words = f"The indices are made from {said}", "Each is the whole number nearest to the path in millionths, a half going up."
    assert re.findall(r"(?<=\n\n)(?:Inputs as given|Inflation|What is proved)(?=[,\n])", text) == ["Inputs as given", "Inflation", "What is proved"]
    assert "\n\nInflation\n\n{}\n{}\n\nWhat is proved".format(*words) in text
    assert f"</section>\n<section>\n<h2>Inflation</h2>\n<p>{' '.join(words)}</p>\n</section>\n<section>\n<h2>What is proved" in web
    assert re.findall("<h2>(.*?)</h2>", web)[-4:-2] == ["Inputs as given", "Inflation"]


# Lines of inflation and what is said of their rates, word for word
FLAT = b"inflation flat 0.03", "one flat rate of inflation, 0.03."
FADING = b"inflation fading 0.08 0.02", "a rate of inflation of 0.08 that moves halfway each year toward a long-run rate of 0.02."
# of four years the third future one, the seventh of all, is year 6
SHOCK = b"inflation shock 0.10 0.02 3", "a rate of inflation of 0.10 in future year 6 and of 0.02 in the others."


def accepted_with_rates():
    """Name, valuation year, record and line of inflation, and what is said of the rates or None where nothing is."""
    two, motor, longest = model.TWO_YEARS, model.MOTOR_ACCOUNT, account(15, random.Random(1))
    for name, year, fields, line, said in (
            ("flat", 2026, two, *FLAT), ("fading", 2026, motor, *FADING), ("shock", 2027, motor, *SHOCK),
            # bits in letters of either size, and bits that are all digits
            ("hex", 2026, two, b"inflation fading 3fB47Ae147aE147b 3f947ae147ae147b",
             "a rate of inflation of 3fB47Ae147aE147b that moves halfway each year toward a long-run rate of 3f947ae147ae147b."),
            ("hex_digits", 2026, two, b"inflation flat 3000000000000000", "one flat rate of inflation, 3000000000000000."),
            # rates as they are typed, and the year without zeros in front
            ("quotes", 2026, two, b'"inflation", "shock" ,"-0.0100",0.02,"002",,""', "a rate of inflation of -0.0100 in future year 3 and of 0.02 in the others."),
            ("blanks", 2026, two, b"   inflation  flat \t 000.0300 ", "one flat rate of inflation, 000.0300."),
            # the longest line, and with 16 years the longest rates
            ("longest_line", 2026, motor, SHOCK[0].replace(b" ", b" " * 57) + b"    ", SHOCK[1]),
            ("16_years", 2026, longest, b"inflation shock -0.12345678901234 -0.02000000000001 16",
             "a rate of inflation of -0.12345678901234 in future year 31 and of -0.02000000000001 in the others.")):
        yield name, year, with_rates(fields, line), line, said
    # the example without its line, as where its record is all there is
    yield "none", 2026, with_rates(motor, b"inflation fading 0.10 0.04"), b"", None
    # the first index is another one, and the last
    for name, fields, line, place, step in (("first_index", two, FLAT[0], 0, -1), ("last_index", motor, FADING[0], 3, 1)):
        made = model.read(with_rates(fields, line), model.field_count(fields[0]))
        at = places(fields[0])["e"] + place
        yield name, 2026, model.pack(changed(made, at, made[at] + step)), line, None
    # a year past those wanted and a rate past its limit, with the indices that they would make
    for name, line in (("refused_year", b"inflation shock 0.10 0.02 3"), ("refused_rate", b"inflation fading 1.00000000000001 -0.5")):
        yield name, 2026, with_rates(two, line), line, None
    # bytes that are no line of inflation, as many as there may be
    yield "other_bytes", 2026, model.pack(two), bytes(range(1, 256)), None


def refused_with_rates():
    """As accepted_with_rates, of records that are refused: the rates are named where the inputs are, from question 6 on."""
    two, motor = model.TWO_YEARS, model.MOTOR_ACCOUNT
    at, late = places(1), places(3)
    yield "01_inflation", 2026, b"", FLAT[0], None
    yield "02_inflation", 2026, with_rates(two, FLAT[0])[:-1], FLAT[0], None
    yield "04_inflation", 2026, with_rates(changed(two, at["n"], 0), FLAT[0]), FLAT[0], None
    yield "05_inflation", 2026, with_rates(changed(two, at["b"], 0), FLAT[0]), FLAT[0], None
    yield "06_inflation", 2026, with_rates(changed(two, at["P"], -1), FLAT[0]), *FLAT
    yield "08_inflation", 2027, with_rates(fields_of([1] * 4, [[5, 5, 5, 1], [5, 0, 0], [0, 0], [0]]), FADING[0]), *FADING
    yield "12_inflation", 2026, with_rates(changed(motor, late["U"], 10**10), SHOCK[0]), *SHOCK
    yield "12_inflation_other_rates", 2026, with_rates(changed(motor, late["U"], 10**10), SHOCK[0]), FADING[0], None


def rates():
    """A text whose line of inflation stands behind comments, blank lines and lines with another label, and has a comment after it."""
    line = b'  "inflation"  fading 0.10\t0.04 '
    before = (b'# inflation flat 3\n"# inflation flat 3",,\n\n \t,;"\n  # inflation flat 3\nk 3\r\npaid inflation flat 3 # inflation flat 3\n'
              b"inflations flat 3\nInflation flat 3\n\tinflation flat 3\n,inflation,flat,3\n")
    given = before + line + b"# as the economists send it\ninflation flat 0.05\n"
    assert page.line_of_inflation(given) == line
    store("rates", given, line)


def texts():
    """The texts that pack must accept or refuse, with the record of each or what pack says."""
    for text, said in SAID.items():
        assert sheet.read(text.encode())[1] == said.encode(), (text, sheet.read(text.encode()))
    folder = os.path.join(HERE, "texts")
    made = {}
    for name, text in text_cases():
        given = text if isinstance(text, bytes) else text.encode()
        fields, said = sheet.read(given)
        made[name + ".txt"] = given
        made.update({name + ".rec": model.pack(fields)} if fields else {name + ".said": said + b"\n"})
    for name, data in made.items():
        put(os.path.join(folder, name), data)
    for name in sorted(set(os.listdir(folder)) - set(made)):
        print(f"tests/texts/{name} is not made here")


def histories():
    """The pages and the list of every example of a history (tests/pages/history); one of them is what the programs are given."""
    for path in sorted(glob.glob(os.path.join(HERE, "..", "examples", "history", "*.txt"))):
        name = os.path.splitext(os.path.basename(path))[0]
        with open(path, "rb") as text:
            given = text.read()
        listed, said = history_page.taken(given)
        assert said is None, said
        stored = os.path.join(HERE, "pages", "history", name)
        put(stored + ".txt", history_page.pages(listed))
        put(stored + ".html", history_page.pages(listed, True))
        put(stored + ".csv", history_page.csv(listed))
        if name == "liability_book":
            first = 2005
            store("history_report", of_report(0, given, first=first), history_page.pages(listed, first=first))
            store("history_report_html", of_report(0, given, first=first), history_page.pages(listed, True, first=first))
            store("history_report_csv", of_report(0, given, first=first), history_page.csv(listed, first))


def row(year, record):
    """The line of a record among many: the entries of its list with blanks between, or its refusal."""
    number_, results = model.run(year, record, model.result_count(15))
    return (f"refused {number_}" if number_ else " ".join(map(str, results))) + "\n"


# Messages word for word, as docs/SHEET.md has them.
SAID = {
    "k 1\nexposures 1 1\npaid 60 40\npaid 66\nindicse 1\n": "line 5: a line that starts with `indices` or `inflation` is due, not with `indicse`",
    "k 1\nexposures 1 1\npaid 60 40\npaid 66\n": "line 5: the text ends where `indices` or `inflation` is due",
    "\n\n\nk 3\nexposures 1 1 1 1\npaid 504 282 90 48\npaid 580 662.5 97\n":
        "line 7: number 2 of `paid` is `662.5`, and a whole number from -10000000000 to 10000000000 is due",
    "k 1\nexposures 1 1\npaid;1;;2\n": "line 3: number 2 of `paid` is an empty cell, and a whole number from -10000000000 to 10000000000 is due",
    "k 1\n\n\nexposures 1 1\npaid 1 2 3\n": "line 5: `paid` takes 2 numbers, and 3 stand there",
    "k 1\nexposures 1 1\npaid 1\n": "line 3: `paid` takes 2 numbers, and 1 stands there",
    "k 1 2\n": "line 1: `k` takes 1 number, and 2 stand there",
    "\nk 1\nexposures 1 0\n": "refused 4: line 3: number 2 of `exposures` is `0`, and a whole number from 1 to 1000000 is due",
    "k 16\n": "refused 1: line 1: number 1 of `k` is `16`, and a whole number from 1 to 15 is due",
    "k 1\nexposures 1 1\n": "line 3: the text ends where `paid` is due",
    "k 1\nexposures 1 1\npaid 60 40\npaid 66\nindices 1 1\nreporting 800000 200000\nweight 0\nulae 6 10\n": "line 9: the text ends where `tail` is due",
    # of the inflation, in a seventh line
    "\n\n\n\n\nk 3\ninflation fadig 0.02 0.01\n": "line 7: `flat`, `fading` or `shock` is due after `inflation`, not `fadig`",
    "\n\n\n\n\nk 3\ninflation\n": "line 7: `flat`, `fading` or `shock` is due after `inflation`, not an empty cell",
    "\n\n\n\n\nk 3\ninflation fading 0.02\n": "line 7: `fading` takes 2 numbers, and 1 stands there",
    "\n\n\n\n\nk 3\ninflation flat 0.02 0.01\n": "line 7: `flat` takes 1 number, and 2 stand there",
    "\n\n\n\n\nk 3\ninflation fading 0.02 0.0x\n":
        "line 7: number 2 of `fading` is `0.0x`, and a decimal of at most 15 digits or 16 hex digits is due",
    "\n\n\n\n\nk 3\ninflation,fading,,0.02\n":
        "line 7: number 1 of `fading` is an empty cell, and a decimal of at most 15 digits or 16 hex digits is due",
    "\n\n\n\n\nk 3\ninflation shock 0.1 0.02 x\n": "line 7: number 3 of `shock` is `x`, and a year from 1 to 4 is due",
    "\n\n\n\n\nk 3\ninflation flat 3\n": "refused 20: line 7: number 1 of `flat` is `3`, and a rate from -0.5 to 1.0 is due",
    "\n\n\n\n\nk 3\ninflation shock 0.1 0.02 9\n": "refused 20: line 7: number 3 of `shock` is `9`, and a year from 1 to 4 is due",
    "\n\n\n\n\nk 3\ninflation flat 1\n": "refused 21: line 7: the index of year 3 leaves 1 to 5,000,000",
}


def text_cases():
    """Name and text of each, both sides of each rule of docs/SHEET.md."""
    plain = page.sheet(model.TWO_YEARS)
    two_years = plain.splitlines()
    three_years = page.sheet([2, 1, 1, 1, 60, 40, 20, 66, 50, 70, 1100000, 1210000, 1331000, 800000, 150000, 50000, 500000, 6, 10, 9, 15]).splitlines()

    def with_line(number_, line, lines=two_years):
        """The two years with another line in this place, counted from 1."""
        return "\n".join(lines[:number_ - 1] + [line] + lines[number_:]) + "\n"

    rows = [line.split(" ") for line in two_years]

    def saved(comma, end="\n", width=0):
        """The two years as a spreadsheet saves them, with empty cells up to a width."""
        return "".join(comma.join(row + [""] * (width - len(row))) + end for row in rows)

    # what separates
    yield "plain", plain
    yield "commas", saved(",")
    yield "semicolons", saved(";")
    yield "tabs", saved("\t")
    yield "spreadsheet", b"\xef\xbb\xbf" + saved(",", "\r\n", 4).encode()
    yield "semicolons_to_a_width", saved(";", "\r\n", 7)
    yield "tabs_to_a_width", saved("\t", "\n", 7)
    yield "blanks_around_cells", saved(" ; ").replace(" ; ", "; ").replace("60; 40", "60  ;  40 ")
    yield "blank_before_the_separator", with_line(3, "paid ;60;40")
    yield "each_line_its_own", ("k 1\nexposures,1,1\npaid;60;40\npaid\t66\nindices 1100000 1000000\nreporting;800000;200000;\nweight,500000,\n"
                                "ulae 6\t10\ntail\t0\n")
    yield "tabs_and_comments", plain.replace("k 1\n", "# two years\n  k\t1   # the last year\n\n").replace("paid 66", "  paid   0066 # year 1")[:-1]
    yield "comma_in_blanks", with_line(3, "paid 60, 40")
    yield "thousands", with_line(5, "indices 1,100,000")
    yield "thousands_of_two", with_line(3, "paid 1,332")
    yield "comma_in_semicolons", with_line(3, "paid;595,32;;;")
    yield "semicolon_in_commas", with_line(3, "paid,60;40")
    yield "comma_in_tabs", with_line(3, "paid\t60,5\t40")
    yield "tab_in_commas", with_line(3, "paid,60\t40")
    yield "tab_around_a_cell", with_line(3, "paid,60,\t40")
    yield "blank_in_a_cell", with_line(3, "paid;6 0;40")
    # comments, and a # that begins none
    yield "comment_after_numbers", with_line(3, "paid 60 40 # note")
    yield "comment_after_commas", with_line(3, "paid,60,40, # note, typed")
    yield "comment_after_blanks", '  # two years\n "# as sent"\n' + plain
    yield "comment_of_cells", '"# two years, as sent",,,\n#,1,2\n' + plain
    yield "comment_in_place_of_numbers", with_line(4, "paid # 66")
    yield "comment_in_quotes", with_line(4, 'paid,"66 # note"')
    yield "comment_in_a_label", with_line(4, '"paid # 66')
    yield "sharp_in_a_number", with_line(3, "paid,60,4#0")
    yield "sharp_after_a_number", with_line(3, "paid 60 40#note")
    yield "sharp_after_a_label", with_line(4, "paid# 66")
    yield "sharp_after_a_tab", with_line(3, "paid 60 40\t# note")
    yield "sharp_in_tabs", with_line(3, "paid\t60\t40\t#REF!")
    yield "tab_before_a_comment_line", "\t# two years\n" + plain
    yield "comma_before_a_comment_line", ",# two years\n" + plain
    yield "error_value", with_line(3, "paid,60,#REF!")
    yield "error_value_at_the_end", with_line(3, "paid,60,40,#REF!")
    yield "error_value_in_quotes", with_line(3, 'paid;60;40;"#N/A"')
    # empty cells
    yield "empty_cell_between", with_line(4, "paid;580;;97;;677", three_years)
    yield "empty_cell_first", with_line(3, "paid,,60,40")
    yield "empty_cells_at_the_end", with_line(3, "paid,60,40,,, ,")
    yield "empty_quotes_at_the_end", with_line(3, '"paid","60","40","",""')
    yield "empty_quotes_between", with_line(3, 'paid,"",40')
    yield "all_cells_empty", with_line(3, "paid,,,")
    yield "lines_of_separators", plain.replace("\n", "\n,,,\n;;\n\t\t\n\"\"\n")
    # quotes
    yield "label_in_quotes", with_line(4, '"paid" 66')
    yield "quoted", "".join(",".join(f'"{cell}"' for cell in row) + "\n" for row in rows)
    yield "quoted_comment", '"# two years",,\n' + plain
    yield "quoted_blanks", with_line(3, 'paid "60" "40"')
    yield "quote_not_closed", with_line(4, '"paid 66')
    yield "quote_at_one_side", with_line(4, 'paid "66')
    yield "quote_alone", with_line(3, 'paid,",40')
    yield "blank_in_quotes", with_line(3, 'paid,"60 ",40')
    yield "after_the_quotes", with_line(4, '"paid"66')
    # rows that a sheet may have besides
    yield "header", "label,0,1\n" + saved(",")
    yield "row_totals", with_line(3, "paid,60,40,100")
    yield "totals", plain + "total 126\n"
    # carriage returns and marks
    yield "carriage_returns", plain.replace("\n", "\r\n")
    yield "carriage_return_inside", with_line(3, "paid 60\r 40")
    yield "two_carriage_returns", with_line(3, "paid 60 40\r\r")
    yield "mark_at_the_start", b"\xef\xbb\xbf" + plain.encode()
    yield "mark_elsewhere", plain.encode().replace(b"exposures", b"\xef\xbb\xbfexposures")
    yield "two_marks", b"\xef\xbb\xbf" * 2 + plain.encode()
    yield "part_of_a_mark", b"\xef\xbb" + plain.encode()
    # cells that are no numbers
    yield "letter", with_line(3, "paid 60 4o")
    yield "decimals", with_line(4, "paid 66.0")
    yield "minus_alone", with_line(4, "paid -")
    yield "two_minus", with_line(4, "paid --5")
    yield "plus", with_line(4, "paid +5")
    yield "two_labels", with_line(3, "paid 60 40 paid 66")
    yield "long_word", with_line(4, "paid 1234567890123456789x")
    yield "longer_word", with_line(4, "paid 12345678901234567890x")
    yield "long_label", with_line(4, "paid_of_the_second_origin_year 66")
    yield "negative", plain.replace("60 40", "60 -4")
    yield "negative_zero", plain.replace("60 40", "60 -0")
    # labels
    yield "label", with_line(5, "index 1100000")
    yield "label_in_capitals", with_line(4, "PAID 66")
    yield "label_goes_on", with_line(4, "paidx 66")
    yield "label_cut", with_line(4, "pai 66")
    yield "label_after_a_tab", with_line(4, "\tpaid 66")
    yield "no_label", with_line(4, ",paid,66")
    yield "order", "\n".join(two_years[:6] + [two_years[7], two_years[6], two_years[8]]) + "\n"
    yield "tail_before_ulae", "\n".join(two_years[:7] + [two_years[8], two_years[7]]) + "\n"
    # counts of numbers
    yield "too_many", with_line(7, "weight 500 000")
    yield "too_few", "# one payment is missing\n\n" + with_line(3, "paid 60")
    yield "none", with_line(4, "paid")
    yield "one_index_for_two_years", with_line(5, "indices 1100000")
    yield "tail_of_each_year", with_line(9, "tail 0 0")
    # too short and too long
    yield "empty", ""
    yield "only_comments", "# nothing\n# here\n"
    yield "ends_early", "\n".join(two_years[:8]) + "\n"
    yield "ends_without_a_line_feed", "\n".join(two_years[:7])
    yield "no_last_line_feed", plain[:-1]
    yield "goes_on", plain + "\npaid 3\n"
    # two things wrong at once: the first line counts, and on a line label, numbers, count, ranges in that order
    yield "label_and_number", with_line(4, "payed x")
    yield "number_and_count", with_line(3, "paid 1 2 x")
    yield "number_and_range", with_line(2, "exposures 0 x")
    yield "count_and_range", with_line(2, "exposures 0 1 1")
    yield "two_lines", with_line(2, "exposures 0 1").replace("weight", "wait")
    # both sides of each limit
    limits = [(1, 0, 15), (2, 1, 10**6), (3, -10**10, 10**10), (5, 1, 5 * 10**6), (6, 0, 10**6), (7, 0, 10**6), (8, 0, 10**10),
              (9, 0, 10**10)]
    for number_, least, most in limits:
        label, *numbers = two_years[number_ - 1].split(" ")
        for side, value in [("least", least), ("below", least - 1), ("most", most), ("above", most + 1)]:
            yield f"{label}_{side}", with_line(number_, " ".join([label, *numbers[:-1], str(value)]))
    yield "k_huge", with_line(1, "k 100000000000000000000000000001")
    # 2^64 + 1, which would be 1 if it were cut to 64 bits
    yield "amount_huge", with_line(4, "paid 18446744073709551617")
    yield "many_zeros", with_line(4, "paid " + "0" * 40 + "66")
    yield "reporting_sum", with_line(6, "reporting 800000 200001")
    for name, text in (*inflation_texts(), *inflation_said(), *inflation_order()):
        yield "inflation_" + name, text


def hex_of(rate):
    return f"{rate_bits(rate):016x}"


def with_inflation(line, k=1, end="\n"):
    """The figures of two, four or sixteen years with this line in the place of the indices."""
    fields = {1: model.TWO_YEARS, 3: model.MOTOR_ACCOUNT, 15: figures(15, smallest)}[k]
    return "".join((line if other.startswith("indices") else other) + end for other in page.sheet(fields).splitlines())


def inflation_texts():
    """Name and text with an `inflation` line that is accepted, or refused with 20 or 21."""
    # the shapes, of two, four and sixteen years
    yield "flat", with_inflation("inflation flat 0.03")
    yield "fading", with_inflation("inflation fading 0.08 0.03")
    yield "shock", with_inflation("inflation shock 0.1 0.02 2")
    yield "shock_first", with_inflation("inflation shock 0.1 0.02 1", 3)
    yield "flat_of_16_years", with_inflation("inflation flat 0.103", 15)
    yield "fading_of_16_years", with_inflation("inflation fading 0.12 -0.02", 15)
    yield "shock_of_16_years", with_inflation("inflation shock 0.15 0.02 16", 15)
    # cells, quotes and comments
    yield "commas", with_inflation("inflation,fading,0.08,0.03")
    yield "semicolons", with_inflation("inflation;shock;0.1;0.02;2")
    yield "tabs", with_inflation("inflation\tflat\t0.03")
    yield "blanks", with_inflation("  inflation   shock\t0.1  0.02\t2 ")
    yield "blanks_around_cells", with_inflation("inflation; shock ; 0.1;0.02 ;  2 ;")
    yield "empty_cells_at_the_end", with_inflation('inflation,flat,0.03,, ,""')
    yield "quotes", with_inflation('"inflation","shock","0.1","0.02","2"')
    yield "quotes_in_blanks", with_inflation('"inflation" "flat" "0.03"')
    yield "comment", with_inflation("# inflation flat 3\ninflation flat 0.03 # flat 3")
    yield "quoted_comment", '"# inflation flat 3",,\n' + with_inflation("inflation flat 0.03")
    yield "carriage_returns", b"\xef\xbb\xbf" + with_inflation("inflation,flat,0.03,", end="\r\n").encode()
    # decimals, and the bits of the same rates
    yield "negative", with_inflation("inflation flat -0.02")
    yield "zeros_around", with_inflation("inflation flat 000.03000")
    yield "whole", with_inflation("inflation fading 1 0")
    yield "minus_zero", with_inflation("inflation fading -0 -0.0")
    yield "hex", with_inflation("inflation flat " + hex_of("0.03"))
    yield "hex_capitals", with_inflation("inflation flat " + hex_of("0.03").upper())
    yield "hex_and_decimal", with_inflation("inflation fading 3fB47Ae147aE147b 0.03")
    yield "hex_minus_zero", with_inflation("inflation flat 8000000000000000")
    yield "hex_subnormal", with_inflation("inflation fading 0000000000000001 800fffffffffffff")
    yield "fifteen_digits", with_inflation("inflation fading 0.08000000000000 000000000000000")
    yield "fifteen_digits_negative", with_inflation("inflation flat -0.02000000000001")
    # 15 digits in a row are a decimal, and 16 are bits: those of a rate that is next to nothing, and those of 2
    yield "fifteen_digits_in_a_row", with_inflation("inflation flat 300000000000000")
    yield "sixteen_digits_in_a_row", with_inflation("inflation flat 3000000000000000")
    yield "sixteen_digits_past", with_inflation("inflation flat 4000000000000000")
    # decimals whose index is another one where they are not read as the nearest double: times 10^-7, digit by digit, the next one above or below
    for place, text in enumerate(("0.5000115", "0.5000085", "0.5000055", "0.35988216401275", "0.67976233437948", "0.94952955863716"), 1):
        yield f"nearest_{place}", with_inflation("inflation flat " + text)
    # without rounding all of these would be a half, in the fourth and in the seventh year
    yield "half_down", with_inflation("inflation shock 0.1 0.15 2", 3)
    yield "half_up", with_inflation("inflation shock 0.1 0.15 3", 3)
    yield "half_of_16_years", with_inflation("inflation flat -0.5", 15)
    yield from inflation_limits()


def inflation_limits():
    """As inflation_texts: both sides of each limit, and two that are past."""
    for name, limit, past in (("least", "-0.5", "-0.50000000000001"), ("most", "1.0", "1.00000000000001")):
        bits = rate_bits(limit)
        for side, rate in (("", limit), ("_past", past), ("_hex", f"{bits:016x}"), ("_hex_past", f"{bits + 1:016x}"), ("_hex_within", f"{bits - 1:016x}")):
            yield f"rate_{name}{side}", with_inflation("inflation flat " + rate)
    for place, bits in enumerate(NO_RATES[:4], 1):
        yield f"no_number_{place}", with_inflation(f"inflation flat {bits:016x}")
    yield "long_run_past", with_inflation("inflation fading 0.08 1.5")
    yield "other_rate_past", with_inflation(f"inflation shock 0.1 {LEAST_RATE + 1:016X} 2")
    for name, year in (("zero", 0), ("first", 1), ("last", 4), ("after_the_last", 5), ("16", 16), ("below_10_17", 10**17 - 1), ("10_17", 10**17),
                       ("2_64", 2**64 + 1)):
        yield "year_" + name, with_inflation(f"inflation shock 0.1 0.02 {year}", 3)
    yield "year_zeros_in_front", with_inflation("inflation shock 0.1 0.02 " + "0" * 30 + "2")
    yield "year_17_of_16", with_inflation("inflation shock 0.1 0.02 17", 15)
    yield "index_most", with_inflation("inflation shock -0.375 1 1", 3)
    yield "index_half", with_inflation("inflation shock -0.3749999375 1 1", 3)
    yield "index_below_the_half", with_inflation("inflation shock -0.3749999376 1 1", 3)
    for k in (3, 15):
        last = last_rate("flat", [], k + 1, inflation.INDEX_MOST)
        yield f"index_most_of_{k + 1}_years", with_inflation(f"inflation flat {last:016x}", k)
        yield f"index_past_of_{k + 1}_years", with_inflation(f"inflation flat {last + 1:016x}", k)
    yield "index_of_year_3", with_inflation("inflation flat 1", 3)
    yield "index_of_year_12", with_inflation("inflation flat 0.144", 15)
    yield "index_comes_back", with_inflation("inflation shock -0.5 1 4", 3)
    # both rates, a rate and the year, and an index that would be too large
    yield "both_rates_past", with_inflation("inflation fading -3 4")
    yield "rate_and_year", with_inflation("inflation shock 0.1 3 9")
    yield "rate_and_index", with_inflation(f"inflation fading 1 {MOST_RATE + 1:016x}", 15)
    yield "year_and_index", with_inflation("inflation shock 1 1 5", 3)


def inflation_said():
    """Name and text with an `inflation` line that is no call."""
    # no shape
    for name, line in (("missing", "inflation"), ("empty_cells", "inflation,,"), ("first_cell_empty", "inflation,,0.03"),
                       ("quotes_empty", 'inflation,"",0.03'), ("in_a_comment", "inflation # flat 0.03"), ("misspelt", "inflation fadig 0.08 0.03"),
                       ("capitals", "inflation Flat 0.03"), ("goes_on", "inflation flats 0.03"), ("cut", "inflation fla 0.03"), ("a_number", "inflation 0.03"),
                       ("in_one_cell", "inflation,flat 0.03"), ("comma_after", "inflation flat, 0.03"), ("long", "inflation a_rate_of_each_of_the_years 0.03"),
                       ("and_count", "inflation steady 0.03 x 4")):
        yield "shape_" + name, with_inflation(line)
    # another count of numbers
    for name, line in (("flat_none", "inflation flat"), ("flat_two", "inflation flat 0.03 0.02"), ("fading_one", "inflation fading 0.08"),
                       ("fading_three", "inflation fading 0.08 0.03 2"), ("shock_none", "inflation,shock,,,"), ("shock_two", "inflation shock 0.1 0.02"),
                       ("shock_four", "inflation shock 0.1 0.02 2 2"), ("decimal_comma", "inflation,flat,0,03"), ("and_form", "inflation flat x y"),
                       ("and_range", "inflation fading 3")):
        yield "count_" + name, with_inflation(line)
    # rates of another form
    for name, rate in (("letter", "0.0x"), ("no_digit_before", ".03"), ("no_digit_after", "3."), ("plus", "+0.03"), ("exponent", "3e-2"), ("comma", "0,03"),
                       ("percent", "3%"), ("minus_alone", "-"), ("two_minus", "--0.03"), ("minus_inside", "0.-3"), ("two_points", "0.0.3"),
                       ("point_alone", "."), ("minus_point", "-.5"), ("sixteen_digits", "0.030000000000000"), ("sixteen_digits_negative", "-0000000000000000"),
                       ("seventeen_digits_in_a_row", "00000000000000003"), ("fifteen_hex", "3f9eb851eb851eb"), ("seventeen_hex", "3f9eb851eb851eb80"),
                       ("hex_and_point", "3f9eb851.eb851eb8"), ("hex_negative", "-3f9eb851eb851eb8"), ("hex_marked", "0x3f9eb851eb851eb8"),
                       ("no_hex_letter", "3f9eb851eb851ebg"), ("nan", "nan"), ("infinity", "inf"), ("long", "0.03000000000000000000000000"),
                       ("sharp", "0.03#note")):
        yield "rate_" + name, with_inflation("inflation flat " + rate)
    yield "rate_empty", with_inflation("inflation,fading,,0.03")
    yield "rate_empty_second", with_inflation("inflation;shock;0.1;;2")
    yield "rate_empty_quotes", with_inflation('inflation,shock,0.1,"",2')
    yield "rate_blank_inside", with_inflation("inflation,flat,0. 03")
    # years of another form
    for name, year in (("letter", "x"), ("decimals", "2.0"), ("negative", "-1"), ("minus_zero", "-0"), ("plus", "+2"), ("hex", "3ff0000000000000")):
        yield "year_" + name, with_inflation("inflation shock 0.1 0.02 " + year)
    # two of another form, and one that is out of range before one of another form
    yield "form_of_two", with_inflation("inflation shock x 0.02 y")
    yield "form_of_rate_and_year", with_inflation("inflation shock 0.1 0.02x y")
    yield "form_and_range", with_inflation("inflation fading 3 x")
    yield "form_of_year_and_range", with_inflation("inflation shock 3 0.02 x")


def inflation_order():
    """Name and text with an `inflation` line and something wrong in another, or in another place."""
    two_years = page.sheet(model.TWO_YEARS)
    good, past = "inflation flat 0.03\n", "inflation flat 3\n"

    def put_in(line, *changes):
        """The two years with this line in the place of the indices, and with other changes."""
        text = with_inflation(line.rstrip("\n"))
        for old, new in changes:
            assert old in text
            text = text.replace(old, new)
        return text

    # another line is wrong too, before it or after it
    wrong = {"exposure": ("exposures 1", "exposures 0"), "paid": ("paid 66", "paid 6x"), "shares": ("reporting 800000", "reporting 800001"),
             "label": ("weight", "wait"), "longer": ("tail 0\n", "tail 0\npaid 3\n")}
    for name, change in wrong.items():
        yield "good_and_" + name, put_in(good, change)
        yield "past_and_" + name, put_in(past, change)
    yield "past_and_all", put_in(past, *wrong.values())
    yield "shape_and_exposure", put_in("inflation fadig 0.03", wrong["exposure"])
    yield "count_and_label", put_in("inflation flat", wrong["label"])
    yield "form_and_paid", put_in("inflation flat x", wrong["paid"])
    yield "index_and_exposure", with_inflation("inflation flat 1", 3).replace(*wrong["exposure"])
    yield "past_and_the_end", "k 1\nexposures 1 1\ninflation flat 3"
    # the line of k alone is asked before it
    for name, k in (("past", "k 16"), ("below", "k 0"), ("huge", "k 18446744073709551617"), ("label", "kk 1"), ("letter", "k x"), ("two", "k 1 1"),
                    ("none", "k")):
        yield "and_k_" + name, put_in(past, ("k 1\n", k + "\n"))
    yield "before_k", past + put_in(good)
    yield "k_second", put_in(past, ("k 1\nexposures 1 1\n", "exposures 1 1\nk 1\n"))
    # in another place: a label that is not due, and lines before it come first, but not before what is wrong with its cells
    indices, reporting = (line + "\n" for line in two_years.splitlines()[4:6])
    yield "alone", "k 1\n" + good
    for name, old, new in (("second", "k 1\n", "k 1\n{}"), ("before_paid", "paid 66\n", "{}paid 66\n"), ("for_reporting", reporting, "{}"),
                           ("at_the_end", "tail 0\n", "tail 0\n{}"), ("before_indices", indices, "{}" + indices), ("after_indices", indices, indices + "{}")):
        yield name, two_years.replace(old, new.format(good))
        yield name + "_past", two_years.replace(old, new.format(past))
    yield "at_the_end_and_exposure", (two_years + good).replace(*wrong["exposure"])
    # twice: the first is asked
    yield "twice", put_in(good + good)
    yield "twice_second_past", put_in(good + past)
    yield "twice_first_past", put_in(past + good)
    yield "twice_no_shape_and_past", put_in("inflation fadig 0.03\n" + past)
    # words that are not its label, and a text that ends before it
    for name, line in (("in_capitals", "INFLATION flat 3"), ("goes_on", "inflations flat 3"), ("cut", "inflatio flat 3"), ("after_a_tab", "\tinflation flat 3"),
                       ("after_a_comma", ",inflation,flat,3"), ("quote_not_closed", '"inflation flat 3')):
        yield "label_" + name, put_in(line)
    yield "as_a_cell", two_years.replace("paid 66", "paid inflation flat 3")
    yield "ends_before", two_years[:two_years.index("indices")]


def shown(number_, values, room):
    """What a test program writes of an answer and a lent list of `room` entries."""
    text = f"answer {number_}\n"
    return text + ("unchanged\n" if values is None else "".join(f"{v}\n" for v in values + [-7] * (room - len(values))))


def put(path, data):
    """Writes a file of bytes, or of text as UTF-8 with its line ends as they are."""
    os.makedirs(os.path.dirname(path), exist_ok=True)
    with open(path, "wb") as out:
        out.write(data if isinstance(data, bytes) else data.encode())


def store(name, given, wanted):
    put(os.path.join(CRATES, name, "stdin"), given)
    put(os.path.join(CRATES, name, "stdout"), wanted)
    print(name, len(given), "bytes in,", f"{len(wanted)} bytes out" if isinstance(wanted, bytes) else f"{wanted.count(chr(10))} lines out")


if __name__ == "__main__":
    main()
