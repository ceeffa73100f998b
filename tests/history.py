"""Request 11 of document 02, shares through a long history of origin years, in plain Python, written from the paper and not from the Rattle code; averages and
separation are those of model.py.

make_cases.py makes of it what the test program history_cases is expected to write. Below the model are histories to try: of all sizes and characters, at
both sides of every limit, refused as a whole, and with positions that each of 7 to 10 refuses.
"""
import random

import model

# the most origin years of a history, the most development years of one of them, and the widths
YEARS, DEVELOPMENT = 64, 16
WIDTH_LEAST, WIDTH_MOST = 2, 16
EXPOSURE_MOST, AMOUNT_MOST = 10**6, 10**10


def row_counts(years):
    """How many development years each origin year has."""
    return [min(DEVELOPMENT, years - i) for i in range(years)]


def cell_count(years):
    return sum(row_counts(years))


def by_row(years, cells):
    """The cells of each origin year."""
    rest = iter(cells)
    return [[next(rest) for _ in range(count)] for count in row_counts(years)]


def position_count(years, width):
    return years - width + 1


def result_count(years, width):
    """The entries of all positions: of each the number, the shares and the levels."""
    return position_count(years, width) * (1 + 2 * width)


def window(exposures, rows, width, start):
    """The exposures of the `width` origin years from `start` on, and of their cells, by row, those that are paid by the last of these years."""
    years = range(start, start + width)
    last = start + width - 1
    return [exposures[i] for i in years], [[paid for j, paid in enumerate(rows[i]) if i + j <= last] for i in years]


def position(n, P):
    """The number, 0 or the first of questions 7 to 10 that says no, the shares and the levels of a window, zeros where it is refused; P by row."""
    number, found = model.answer(model.separate, model.averages(n, P))
    r, levels, _ = found or ([0] * len(n), [0] * len(n), None)
    return number, r, levels


def positions(width, exposures, rows):
    """Every position of a history that has passed 27 and 28; its cells by row."""
    return [position(*window(exposures, rows, width, start)) for start in range(position_count(len(rows), width))]


def fits(years, width):
    """Question 27."""
    return years <= YEARS and WIDTH_LEAST <= width <= WIDTH_MOST and width <= years


def in_order(years, width, exposures, cells, room):
    """Question 28, of a history that has passed 27."""
    lengths = len(exposures) == years and len(cells) == cell_count(years) and room == result_count(years, width)
    return lengths and all(1 <= n <= EXPOSURE_MOST for n in exposures) and all(-AMOUNT_MOST <= paid <= AMOUNT_MOST for paid in cells)


def history(years, width, exposures, cells, room):
    """The answer to a call and, where it is 0, the entries of a result of `room` entries."""
    if not fits(years, width):
        return 27, None
    if not in_order(years, width, exposures, cells, room):
        return 28, None
    return 0, [entry for number, r, levels in positions(width, exposures, by_row(years, cells)) for entry in (number, *r, *levels)]


def flat(rows):
    return [paid for row in rows for paid in row]


def call(width, exposures, rows):
    """A call with the history of these rows, all lengths as they must be: years, width, exposures, cells and the length of the lent result. A width that is
    refused whatever the result has none that it needs, and is lent a short one."""
    return len(rows), width, exposures, flat(rows), max(result_count(len(rows), width), 0)


# the shares of a line of business that is paid over sixteen years, in ten thousandths
PATTERN = [2900, 2350, 1500, 1000, 700, 480, 340, 240, 160, 110, 75, 55, 40, 25, 15, 10]


def drifting(years, source, claims=(800, 1200), size=4000, noise=15):
    """Exposures and rows as an account has them: the pattern drifts toward later payment, payments rise by some percent a payment year, and each cell is up to
    `noise` percent off."""
    n = [source.randint(*claims) for _ in range(years)]
    rows = []
    for i, count in enumerate(row_counts(years)):
        row = [n[i] * size * PATTERN[j] * (100 + j * i // 8) * 104 ** (i + j) // (10**6 * 100 ** (i + j)) for j in range(count)]
        rows.append([min(paid * source.randint(100 - noise, 100 + noise) // 100, AMOUNT_MOST) for paid in row])
    return n, rows


def refunded(years, source):
    """A drifting account with some increments below zero, so many that question 6 would say no in some windows."""
    n, rows = drifting(years, source)
    for row in rows:
        for j in range(len(row)):
            if source.random() < 0.12:
                row[j] = -source.randint(0, row[j] // (1 + 3 * (j == 0)))
    return n, rows


def sparse(years, source):
    """Small accounts in which most years pay nothing or a few units."""
    n = [source.choice((1, 3, 8, 40, 200)) for _ in range(years)]
    return n, [[source.choice((0, 0, 0, 1, 2, 5, 25, 1000)) for _ in range(count)] for count in row_counts(years)]


def rough(years, source):
    """An account of 100 claims a year in which some origin years are paid nothing at once, some much too late, and some take a payment back."""
    rows = []
    for count in row_counts(years):
        row = [source.randint(1, 400) // (j + 1) for j in range(count)]
        kind = source.randrange(12)
        if kind == 0:
            row[0] = 0
        elif kind == 1:
            row = [0] * count
        elif kind == 2:
            row[source.randrange(count)] *= -3
        elif kind in (3, 4):
            row[-1] = source.choice((10**6, 10**8, 999 * 10**6))
            row[max(count - 2, 0)] = source.choice((1, 10**6, 10**8))
        elif kind == 5:
            row[source.randrange(count)] = source.choice((10**6, 10**8, 4 * 10**8))
        elif kind == 6:
            row[0] = source.choice((10**6, 10**8))
        rows.append(row)
    return [100] * years, rows


def halves(years, source):
    """Averages that lie halfway between two hundredths, or next to it, on both sides of zero."""
    n = [source.choice((8, 40, 200, 10**6)) for _ in range(years)]
    odd = {8: 1, 40: 1, 200: 1, 10**6: 5000}

    def paid(claims, j):
        size = odd[claims] * (2 * source.randint(0, 60) + 1) + source.choice((-1, 0, 0, 0, 1))
        return -size if j and source.random() < 0.2 else size

    return n, [[paid(claims, j) for j in range(count)] for claims, count in zip(n, row_counts(years))]


def at_limits(years, source):
    """Exposures and cells at their limits or next to them; with many claims the averages fit question 7."""
    n = [source.choice((1, 2, EXPOSURE_MOST - 1, EXPOSURE_MOST, EXPOSURE_MOST, EXPOSURE_MOST)) for _ in range(years)]
    amounts = (0, 1, 100, AMOUNT_MOST - 1, AMOUNT_MOST, AMOUNT_MOST, -1, -AMOUNT_MOST)
    return n, [[source.choice(amounts[:8 if source.random() < 0.1 else 6]) for _ in range(count)] for count in row_counts(years)]


def anything(years, source):
    n = [source.randint(1, EXPOSURE_MOST) >> source.randrange(20) or 1 for _ in range(years)]
    return n, [[(source.randint(-AMOUNT_MOST // 8, AMOUNT_MOST)) >> source.randrange(34) for _ in range(count)] for count in row_counts(years)]


CHARACTERS = [drifting, refunded, sparse, rough, halves, at_limits, anything]


def worked():
    """What can be looked up or worked out by hand: document 01's two years, its motor account through windows of each width, request 8's products, and halves."""
    motor = model.by_row(3, model.MOTOR)
    yield call(2, [1, 1], [[60, 40], [66]])
    for width in (2, 3, 4):
        yield call(width, [1] * 4, motor)
    yield call(2, [1, 1], [[60, 80], [120]])
    yield call(4, [8] * 4, [[401, -1, 3, 5], [403, 7, -3], [405, 9], [407]])
    # document 01's k = 2 case, which 13 refuses in a record and 9 here, and one that has a base of the chain ladder; averages that are all 0
    yield call(3, [100] * 3, [[0, 5000, 999999], [0, 0], [1]])
    yield call(3, [100] * 3, [[5000, 45000, 2000000], [0, 0], [1]])
    yield call(2, [10**6] * 3, [[1, 1, 1], [1, 1], [1]])


def sizes():
    """The fewest years and the most, those about sixteen and some others, each with the least and the largest windows, of all characters in turn; and every
    width over twenty years."""
    source, place = random.Random(64), 0
    for years in (2, 3, 4, 15, 16, 17, 18, 31, 63, 64):
        for width in sorted({2, 3, 15, 16, years} if years < 32 else {2, 16}):
            if fits(years, width):
                yield call(width, *CHARACTERS[place % len(CHARACTERS)](years, source))
                place += 1
    for width in range(WIDTH_LEAST, WIDTH_MOST + 1):
        yield call(width, *drifting(20, source))


def extremes():
    """Every cell and every exposure at a limit."""
    for years, width in ((2, 2), (16, 16), (64, 16)):
        for claims in (1, EXPOSURE_MOST) if years < YEARS else (EXPOSURE_MOST,):
            for paid in (-AMOUNT_MOST, 0, AMOUNT_MOST) if years < YEARS else (AMOUNT_MOST,):
                yield call(width, [claims] * years, [[paid] * count for count in row_counts(years)])


def changed(values, place, value):
    return values[:place] + [value] + values[place + 1:]


def wrong_sizes():
    """Histories and widths on both sides of the limits of question 27, all else as their numbers call for where that can be; those within are accepted."""
    source = random.Random(27)
    n, rows = drifting(66, source)
    for years, width in ((0, 0), (0, 1), (0, 2), (1, 1), (1, 2), (2, 0), (2, 1), (2, 2), (2, 3), (5, 5), (5, 6), (16, 16), (16, 17), (17, 16), (17, 17), (20, 1),
                         (20, 17), (20, 18), (20, 20), (64, 17), (65, 2), (65, 16), (66, 2)):
        yield call(width, n[:years], [row[:count] for row, count in zip(rows, row_counts(years))])
    # numbers that are within when they are cut to fewer bits, or whose difference is
    n, rows = drifting(5, source)
    good = call(3, n, rows)
    for years in (2**8 + 5, 2**16 + 5, 2**32 + 5, 2**63, 2**63 + 5, 2**64 - 1):
        yield (years, *good[1:])
    for width in (2**8 + 3, 2**16 + 3, 2**32 + 3, 2**63, 2**63 + 3, 2**64 - 1, 2**64 - 3):
        yield (good[0], width, *good[2:])
    for years, width in ((2**64 - 1, 2**64 - 1), (2**63 + 5, 2**63 + 3), (2**32 + 5, 2**32 + 3), (3, 5), (2, 2**64 - 1)):
        yield (years, width, *good[2:])


def wrong_lengths():
    """Lists and results of lengths on both sides of those needed (question 28), of several sizes of history."""
    source = random.Random(28)
    for years, width in ((2, 2), (5, 3), (17, 16), (64, 16)):
        n, rows = drifting(years, source)
        _, _, _, cells, room = call(width, n, rows)
        for exposures in (n[:-1], n + n[-1:]):
            yield years, width, exposures, cells, room
        for others in (cells[:-1], cells + cells[-1:]):
            yield years, width, n, others, room
        for length in (room - 1, room + 1):
            yield years, width, n, cells, length
        if years < YEARS:
            yield years, width, [], cells, room
            yield years, width, n, [], room
            yield years, width, n + [1], cells[:-1], room
            # rows of all sixteen years, and of the years of this width
            for others in (flat(row + [0] * (DEVELOPMENT - len(row)) for row in rows), flat(row[:width] for row in rows)):
                if others != cells:
                    yield years, width, n, others, room
            # nothing, the longest, one entry more than that, the entries without the numbers, and those of the positions but the last
            longest, each = result_count(YEARS, WIDTH_MOST), 1 + 2 * width
            for length in (0, longest, longest + 1, room - position_count(years, width), room - each):
                yield years, width, n, cells, length


def unseen(years, width):
    """The places of the cells that no window of this width has: those of later development years."""
    places = [(i, j) for i, count in enumerate(row_counts(years)) for j in range(count)]
    return [place for place, (_, j) in enumerate(places) if j >= width]


def wrong_numbers():
    """Exposures and cells on both sides of their limits, first, last and in the middle, and cells that no window has (question 28); the limits are accepted."""
    source = random.Random(29)
    claims = (0, 1, EXPOSURE_MOST, EXPOSURE_MOST + 1, 2**20 - 1, 2**32 + 1, 2**63, 2**64 - 1)
    amounts = (AMOUNT_MOST, AMOUNT_MOST + 1, 2**34 + 1, 2**40 + 1, 2**56 - 1)
    for years, width in ((2, 2), (6, 2), (18, 3)):
        n, rows = drifting(years, source, claims=(10**5, 10**6))
        _, _, _, cells, room = call(width, n, rows)
        for place in (0, years // 2, years - 1):
            for value in claims if years < 18 else claims[:4]:
                yield years, width, changed(n, place, value), cells, room
        later = unseen(years, width)
        for place in sorted({0, len(cells) // 2, len(cells) - 1, *later[:1], *later[-1:]}):
            for amount in amounts if years < 18 else amounts[:2]:
                yield years, width, n, changed(cells, place, amount), room
                yield years, width, n, changed(cells, place, -amount), room
    n, rows = drifting(YEARS, source)
    _, _, _, cells, room = call(2, n, rows)
    yield YEARS, 2, n[:-1] + [0], cells, room
    yield YEARS, 2, n, cells[:-1] + [AMOUNT_MOST + 1], room
    yield YEARS, 2, n, changed(cells, unseen(YEARS, 2)[-1], -AMOUNT_MOST - 1), room


def both_wrong():
    """Refused by 27 and by 28: the answer is 27."""
    source = random.Random(55)
    n, rows = drifting(YEARS + 1, source)
    all_cells = flat(rows)
    for years, width in ((65, 2), (0, 2), (4, 1), (4, 17), (4, 5), (2**64 - 1, 2)):
        few = years if years <= 65 else 4
        cells = all_cells[:cell_count(few)]
        yield years, width, n[:few][:-1], cells, 9
        yield years, width, [0] + n[1:few], cells, 9
        yield years, width, n[:few], changed(cells, 0, AMOUNT_MOST + 1), 9
        yield years, width, [], [], 0


def numbers_of(width, exposures, rows):
    return [number for number, _, _ in positions(width, exposures, rows)]


def met_by(numbers):
    """The pairs of numbers of neighbouring positions of which one is accepted and the other refused."""
    return {pair for pair in zip(numbers, numbers[1:]) if 0 in pair and pair != (0, 0)}


def refused_positions():
    """Rough accounts until, over a few histories of each width, every number has stood directly after and directly before an accepted position; in windows of
    two years 9 cannot be: there A_0 is at least 1 by question 7."""
    source = random.Random(7)
    for width in (2, 3, 5, 8, 16):
        due = {pair for number in (7, 8, 9, 10) if (width, number) != (2, 9) for pair in ((0, number), (number, 0))}
        while due:
            n, rows = rough(source.randint(width + 2, min(width + 24, YEARS)), source)
            new = met_by(numbers_of(width, n, rows)) & due
            if new:
                due -= new
                yield call(width, n, rows)


def by_chance(source, most):
    """A history that is accepted, of at most so many years, of any width and character."""
    years = source.randint(2, most)
    width = source.randint(WIDTH_LEAST, min(WIDTH_MOST, years))
    return call(width, *source.choice(CHARACTERS)(years, source))


def calls():
    """The calls that are stored."""
    yield from worked()
    yield from sizes()
    yield from extremes()
    yield from refused_positions()
    source = random.Random(11)
    for _ in range(40):
        yield by_chance(source, 12)
    yield from wrong_sizes()
    yield from wrong_lengths()
    yield from wrong_numbers()
    yield from both_wrong()


def marked():
    """What document 01 marks, seen through windows."""
    assert (cell_count(YEARS), result_count(YEARS, WIDTH_MOST), result_count(YEARS, WIDTH_LEAST)) == (904, 1617, 315)
    answers = [history(*given) for given in worked()]
    assert answers[0] == (0, [0, 622641509, 377358491, 9636, 10600])
    assert answers[3] == (0, [0, 583475514, 287767456, 86614799, 42142231, 86378, 98939, 101998, 113900])
    assert answers[4] == (0, [0, 600000000, 400000000, 10000, 20000])
    assert answers[6] == answers[7] == (0, [9] + [0] * 6) and answers[8] == (0, [8, 0, 0, 0, 0] * 2)
    # windows of two years: A_0 is the part of the later year's first payments in what is paid in its year, and l_0 what is paid in the year before over it
    motor = model.by_row(3, model.MOTOR)
    for start, entries in enumerate(zip(*[iter(answers[1][1])] * 5)):
        first, later, next_ = (100 * paid for paid in (*motor[start][:2], motor[start + 1][0]))
        share = model.S * next_ // (later + next_)
        assert entries == (0, share, model.S - share, first * model.S // share, later + next_)


marked()
