"""Request 12 of document 02, the hindsight run for trial indices, in plain Python, written from the paper and not from the Rattle code; the record's questions,
averages and separation are those of model.py.

make_cases.py makes of it what the test program hindsight_cases is expected to write. Below the model are calls to try: of every k and every number of settings,
at both sides of every limit, refused by each question and by two at once, with steps that each of 7 to 10 marks, with ties for the best setting, and with the
largest figures.
"""
import random

import history
import model

# the most settings of a call, and the largest of them
SETTINGS_MOST, INDEX_MOST = 8, 5 * 10**6
EXPOSURE_MOST, AMOUNT_MOST, CUMULATIVE_MOST = 10**6, 10**10, 10**11
K_LEAST, K_MOST = 2, 15


def steps(k):
    """The latest payment year of each cut, the largest triangle first."""
    return range(k - 1, 0, -1)


def report_count(k, settings):
    """The entries of a report on so many settings: of each the mark and the gaps of every step and the sum, and then the best."""
    return settings * (sum(1 + K for K in steps(k)) + 1) + 1


def cut(P, K):
    """The cells that are paid by year K; P by row."""
    return [row[:K + 1 - i] for i, row in enumerate(P[:K + 1])]


def fits(n, P):
    """For each step its latest year, the mark, 0 or the first of questions 7 to 10 that says no of the cut, and where it is 0 the shares and the latest diagonal."""
    for K in steps(len(P) - 1):
        mark, found = model.answer(model.separate, model.averages(n, cut(P, K)))
        yield K, mark, found and (found[0], found[2])


def forecast(claims, share, latest, index):
    """Document 01's payment of a cell of the first future year."""
    level = latest * index // model.M
    return claims * (share * level // model.S) // 100


def tried(n, P, fitted, index):
    """The mark and the gaps of each step under a setting."""
    for K, mark, found in fitted:
        if mark:
            yield mark, [0] * K
        else:
            r, latest = found
            # the next diagonal without its first row and its last, of which the fit lacks the development year or the origin year
            yield 0, [P[i][K + 1 - i] - forecast(n[i], r[K + 1 - i], latest, index) for i in range(1, K + 1)]


def best(sums):
    """The place of the smallest sum, the first on a tie."""
    return sums.index(min(sums))


def report(n, P, settings):
    """The report on a triangle that has passed questions 1 to 6; P by row."""
    fitted = list(fits(n, P))
    entries, sums = [], []
    for index in settings:
        found = list(tried(n, P, fitted, index))
        sums.append(sum(abs(gap) for _, gaps in found for gap in gaps))
        entries += [entry for mark, gaps in found for entry in (mark, *gaps)] + sums[-1:]
    return entries + [best(sums)]


def within(k, settings):
    """Question 29."""
    return 1 <= len(settings) <= SETTINGS_MOST and all(1 <= index <= INDEX_MOST for index in settings) and k >= K_LEAST


def opened(record, settings, room):
    """The exposures and the increments by row of a call: questions 1, 2, 29, 3, 4, 5 and 6."""
    def count_of(k):
        # the reader wants the length of the list directly after 2
        if not within(k, settings):
            raise model.Refused(29)
        return report_count(k, len(settings))

    given = model.lists(model.read(record, room, count_of))
    P = model.by_row(given["k"][0], given["P"])
    model.cumulatives(P)
    return given["n"], P


def hindsight(record, settings, room):
    """The answer to a call and, where it is 0, the entries of the report, for a lent one of `room` entries."""
    return model.answer(lambda: report(*opened(record, settings, room), settings))


def parts(k, settings, entries):
    """A report on so many settings taken apart: for each the steps, each a mark and its gaps, and the sum; and the best."""
    rest, out = iter(entries), []
    for _ in range(settings):
        out.append(([(next(rest), [next(rest) for _ in range(K)]) for K in steps(k)], next(rest)))
    return out, next(rest)


def fields_of(n, rows, source=None):
    """The fields of a record with these exposures and increments, by row. The others take no part in a report: plain, or by chance."""
    k = len(rows) - 1
    e, b, w, U, a = [model.M] * (k + 1), [model.M] + [0] * k, 0, [0] * (k + 1), 0
    if source:
        e = [source.randint(1, INDEX_MOST) for _ in range(k + 1)]
        cuts = sorted(source.randint(0, model.M) for _ in range(k))
        b = [high - low for low, high in zip([0] + cuts, cuts + [model.M])]
        w, a = source.randint(0, model.M), source.choice((0, source.randint(0, AMOUNT_MOST)))
        U = [source.randint(0, AMOUNT_MOST) >> source.randrange(34) for _ in range(k + 1)]
    return [k, *n, *sum(rows, []), *e, *b, w, *U, a]


def call(n, rows, settings, more=0, source=None):
    """A call with this triangle: the record, the settings and the length of the lent report, so many entries more than it must have."""
    return model.pack(fields_of(n, rows, source)), settings, report_count(len(rows) - 1, len(settings)) + more


def some(count, source):
    """Settings that are accepted: mostly near 1, or at a limit, or any."""
    def one():
        return source.choice((source.randint(900000, 1200000), source.randint(900000, 1200000), source.randint(1, INDEX_MOST), 1, INDEX_MOST))

    return [one() for _ in range(count)]


def holds(rows):
    """Question 6."""
    return model.answer(model.cumulatives, rows)[0] == 0


def account(k, source, character):
    """Exposures and increments, by row, of a character of history.py, that pass question 6."""
    while True:
        n, rows = character(k + 1, source)
        if holds(rows):
            return n, rows


def marks_of(n, rows):
    return [mark for _, mark, _ in fits(n, rows)]


# 60, 40 / 66 is document 01's; the diagonal of the year after is 0, 44, 70
THREE_YEARS = [1] * 3, [[60, 40, 0], [66, 44], [70]]


def worked():
    """What can be worked out by hand: see marked."""
    motor = [1] * 4, model.by_row(3, model.MOTOR)
    yield call(*THREE_YEARS, [1100000])
    yield call(*THREE_YEARS, [1, 10**6, 1200000, INDEX_MOST])
    yield call(*THREE_YEARS, [1200000, 10**6, 1])
    yield call(*THREE_YEARS, [1200000, 10**6, 1100000])
    yield call(*motor, [10**6])
    yield call(*motor, [1095000, 1150000, 900000, 1095000])
    yield call(*motor, list(range(1060000, 1140000, 10000)))
    # 100 claims a year: the cut to three years is document 01's k = 2 case, or one that has a base of the chain ladder, and is marked 9; that to two is marked 8
    yield call([100] * 4, [[0, 5000, 999999, 0], [0, 0, 0], [1, 0], [0]], [10**6, 1, INDEX_MOST])
    yield call([100] * 4, [[5000, 45000, 2000000, 0], [0, 0, 0], [1, 0], [0]], [10**6, 1, INDEX_MOST])
    # averages that are halves
    yield call([8] * 4, [[401, -1, 3, 5], [403, 7, -3], [405, 9], [407]], [10**6, 1040000])


def sizes():
    """Every k with one setting, with eight and with a number in turn, of all characters in turn."""
    source, place = random.Random(12), 0
    for k in range(K_LEAST, K_MOST + 1):
        for count in (1, SETTINGS_MOST, 2 + k % 6):
            character = history.CHARACTERS[place % len(history.CHARACTERS)]
            yield call(*account(k, source, character), some(count, source), source=source)
            place += 1


def other_fields():
    """One triangle with other indices, reporting shares, weights, ULAE totals and amounts still to be paid: the report is the same."""
    source = random.Random(3)
    n, rows = account(5, source, history.drifting)
    for _ in range(3):
        yield call(n, rows, [980000, 1040000, 1100000], source=source)


def extremes():
    """The largest figures, and every cell and every exposure at a limit."""
    # one cell is nearly all that is paid, and so nearly all of the share of its development year: the forecast of the row below is 5 * 10^13 less 50,000
    most = model.S - 1
    yield call([100, 10**6, 1], [[0, most, 0], [10000, -10000], [0]], [INDEX_MOST, INDEX_MOST - 1, 1])
    yield call([100, 10**6, 1], [[0, most, 0], [10000, AMOUNT_MOST], [0]], [1, INDEX_MOST])
    # as much is paid back as can be: 10^10 below a forecast of 5 * 10^13 less 5 * 10^10
    yield call([100, 10**6, 1], [[0, model.S - 10**6, 0], [AMOUNT_MOST, -AMOUNT_MOST], [0]], [INDEX_MOST, 1])
    # an ultimate above 10^12 of the fit
    yield call([100, 10**6, 1], [[10**7, 19800002, 0], [9999900001, -5], [0]], [INDEX_MOST, 10**6])
    # all is paid in the first development year, and nearly all in the second
    for k in (2, 8, K_MOST):
        for first, second in ((AMOUNT_MOST, 0), (10000, AMOUNT_MOST)):
            yield call([EXPOSURE_MOST] * (k + 1), [([first, second] + [0] * k)[:k + 1 - i] for i in range(k + 1)], [1, INDEX_MOST])
    # every cell at a limit, or as large as the cumulatives may be
    for k in (2, 9, K_MOST):
        for claims in (1, EXPOSURE_MOST):
            for paid in (0, 1, min(AMOUNT_MOST, CUMULATIVE_MOST // (k + 1))):
                yield call([claims] * (k + 1), [[paid] * (k + 1 - i) for i in range(k + 1)], [1, INDEX_MOST])
    # the latest diagonal takes no part in a fit: averages far above 10^9 in it, and payments back
    n, rows = account(4, random.Random(9), history.drifting)
    for paid in (AMOUNT_MOST, None):
        late = [row[:-1] + [-sum(row[:-1]) if paid is None else paid] for row in rows[:-1]] + [[paid or 0]]
        yield call(n, late, [10**6, 1100000])


def ties():
    """Settings that are as good as each other: the same one again, and others whose forecasts are the same or lie as far on the other side."""
    n, rows = account(6, random.Random(8), history.drifting)
    for settings in ([10**6] * 8, [1100000, 10**6, 10**6], [1040000, 1, 1040000, INDEX_MOST], [1, 10**6, INDEX_MOST, 1040000, 10**6, 1040000]):
        yield call(n, rows, settings)
    # a last digit that no forecast shows
    yield call(*THREE_YEARS, [1100002, 1100001, 1100000])
    # 40 and 48 about 44, and every larger distance before and after them
    for settings in ([10**6, 1200000], [1200000, 10**6], [1, INDEX_MOST, 1200000, 10**6], [INDEX_MOST, 10**6, 1200000, 1], [1200000] * 4 + [10**6] * 4):
        yield call(*THREE_YEARS, settings)
    # nothing is paid in a later development year, so no setting has a forecast
    yield call([1] * 4, [[5, 0, 0, 7], [6, 0, 0], [7, 0], [8]], [INDEX_MOST, 1, 10**6])


def all_marked():
    """Every step is marked: the sums are 0, and the first setting is the best. Nothing is paid; nothing in the latest year of a cut; too much at once."""
    for k in (2, 3, 9, K_MOST):
        settings = [1, INDEX_MOST, 10**6][:1 + k % 3]
        yield call([1] * (k + 1), [[0] * (k + 1 - i) for i in range(k + 1)], settings)
        yield call([1] * (k + 1), [[5] + [0] * k] + [[0] * (k + 1 - i) for i in range(1, k + 1)], settings)
        yield call([1] * (k + 1), [[AMOUNT_MOST] + [7] * (k - i) for i in range(k + 1)], settings)


def of_diagonals(diagonals):
    """The rows of a triangle that is given by payment year, each by origin year."""
    return [[diagonals[h][i] for h in range(i, len(diagonals))] for i in range(len(diagonals))]


def one_marked():
    """For each of 7 to 10 a step with that mark between two without one: 100 claims a year, so that an average is what is paid."""
    for diagonals in (
        # a development year whose first payment is taken back, which the year after makes up for
        ([60], [40, 66], [-50, 45, 70], [3, 60, 47, 80], [1, 2, 50, 50, 90]),
        # a payment year in which nothing is paid
        ([60], [40, 66], [0, 0, 0], [3, 10, 40, 80], [1, 2, 9, 50, 90]),
        # nearly all of a year in its last development year, so that a running share is 0, and so that it is small and a level too large
        ([100], [5 * 10**6, 1], [5 * 10**8, 0, 1], [0, 0, 0, 4 * 10**8], [0, 0, 7, 10**8, 2]),
        ([60], [40, 66], [4 * 10**8, 10, 10], [0, 0, 0, 5 * 10**8], [0, 3, 10**8, 44, 10**8]),
    ):
        yield call([100] * len(diagonals), of_diagonals(diagonals), [10**6, 1100000])


def met_by(marks):
    """The pairs of marks of one step and the next of which one is 0."""
    return {pair for pair in zip(marks, marks[1:]) if 0 in pair and pair != (0, 0)}


def marked_steps():
    """Rough accounts until every mark has stood directly before and directly after a step without one, for a few k; two years cannot be marked 9: there A_0 is
    at least 1 by question 7."""
    source = random.Random(10)
    for k in (3, 7, 15):
        due = {pair for mark in (7, 8, 9, 10) for pair in ((0, mark), (mark, 0)) if (k, pair) != (3, (0, 9))}
        while due:
            n, rows = account(k, source, history.rough)
            new = met_by(marks_of(n, rows)) & due
            if new:
                due -= new
                yield call(n, rows, some(source.randint(1, 3), source), source=source)


def changed(values, place, value):
    return values[:place] + [value] + values[place + 1:]


# past the limits of a setting, or within them when cut to fewer bits
TOO_FAR = (0, INDEX_MOST + 1, 2**23 - 1, 2**32 + 1, 2**32 + 10**6, 2**63, 2**63 + 10**6, 2**64 - 1)


def wrong_settings():
    """Settings, and how many, on both sides of the limits of question 29; those within are accepted."""
    source = random.Random(29)
    n, rows = account(3, source, history.drifting)
    for count in (0, 1, 8, 9, 16):
        yield call(n, rows, [10**6] * count)
    # as many as none, one and eight when cut to fewer bits, with the report of these
    for count in (0, 1, 8):
        yield call(n, rows, [10**6] * (2**8 + count), report_count(3, count) - report_count(3, 2**8 + count))
    for count in (1, 3, 8):
        for place in sorted({0, count // 2, count - 1}):
            for value in (1, INDEX_MOST, *(TOO_FAR if count == 1 else TOO_FAR[:4])):
                yield call(n, rows, changed([1040000] * count, place, value))
    yield call(n, rows, [0] * 8)
    # two years, whatever the report and the settings
    for settings in ([10**6], [10**6] * 8):
        for more in (-len(settings) - 1, -1, 0, 1, 500):
            yield call([1, 1], [[60, 40], [66]], settings, more)
    # and three
    for settings in ([10**6], [10**6] * 8):
        yield call(*THREE_YEARS, settings)


def rooms():
    """Reports that are too short, just long enough and longer (question 3)."""
    source = random.Random(30)
    for k, count in ((2, 1), (2, 8), (5, 3), (9, 2), (15, 1), (15, 8)):
        n, rows = account(k, source, history.drifting)
        settings = some(count, source)
        due = report_count(k, count)
        # none, one entry, without the place of the best and the last sum, one too few, just enough and longer; those of a setting less and of a year less
        for room in sorted({0, 1, due - 2, due - 1, due, due + 1, due + 30 if k < K_MOST else 1024, report_count(k, count - 1), report_count(k - 1, count)}):
            yield call(n, rows, settings, room - due)


def damaged(record):
    """Records that question 2 refuses."""
    yield record[:-1]
    yield record + b"\x00"
    yield record[:1]
    if model.bit_count(record[0] >> 4) % 8:
        yield record[:-1] + bytes([record[-1] | 1])
    # that of another k
    yield bytes([record[0] ^ 16]) + record[1:]


def places(k):
    """Where each row of fields starts."""
    out, at = {}, 0
    for name, count, *_ in model.rows(k):
        out[name] = at
        at += count
    return out


def out_of_range(fields):
    """Records that question 4 refuses: a field of each row past its limits, first or last, and a zero with a sign; the limits themselves are not among them."""
    at = places(fields[0])
    for name, count, sign, size, least, most in model.rows(fields[0])[1:]:
        for place in sorted({at[name], at[name] + count - 1}):
            yield model.pack(changed(fields, place, most + 1))
            if sign:
                yield model.pack(changed(fields, place, 0), negative_zeros=(place,))
            if least:
                yield model.pack(changed(fields, place, least - 1))


def shares_off(fields):
    """Records that question 5 refuses: the reporting shares sum to one more or one less."""
    at = places(fields[0])["b"]
    for place in (at, at + fields[0]):
        yield model.pack(changed(fields, place, fields[place] + (1 if fields[place] < model.M else -1)))


def below_zero():
    """Triangles that question 6 refuses, and those beside them that it accepts: a cumulative of -1 or 0 and of 10^11 or one more, in the first row or the last, within
    what is fitted or on the latest diagonal."""
    for k in (2, 6, 15):
        n, rows = [1000] * (k + 1), [[9000] + [50] * (k - i) for i in range(k + 1)]
        for less in (0, 1):
            for i, j in ((0, 1), (0, k), (1, k - 1)):
                row = rows[i][:j] + [-sum(rows[i][:j]) - less] + [50] * (k - i - j)
                yield call(n, changed(rows, i, row), [10**6])
            yield call(n, changed(rows, k, [-less]), [10**6])
    n = [EXPOSURE_MOST] * 16
    for more in (0, 1):
        for late in (10, 15):
            first = [AMOUNT_MOST] * 9 + [AMOUNT_MOST - 1] + [0] * 6
            yield call(n, [changed(first, late, 1 + more)] + [[10**9] + [0] * (15 - i) for i in range(1, 16)], [10**6, 1])


def wrong_records():
    """Records that each of 1, 2, 4, 5 and 6 refuses."""
    source = random.Random(4)
    for record in (b"", b"\x00", b"\x0f"):
        for room in (0, 9, 1024):
            yield record, [10**6], room
    for k in (2, 7, 15):
        fields = fields_of(*account(k, source, history.drifting), source)
        record = model.pack(fields)
        room = report_count(k, 2)
        yield b"\x0f" + record[1:], [10**6, 1], room
        for others in (damaged(record), out_of_range(fields), shares_off(fields)):
            for other in others:
                yield other, [10**6, 1], room
    yield bytes([2 << 4]) * 4096, [10**6], 1024
    yield from below_zero()


# the questions in their order
ORDER = (1, 2, 29, 3, 4, 5, 6)


def ways(k):
    """For each question, ways to change a call of this k so that it says no: the fields, the settings, the length of the report or the record. Each may be made
    beside those of other questions."""
    at = places(k)
    return {
        4: [lambda fields: changed(fields, at["n"], 0), lambda fields: changed(fields, at["w"], model.M + 1)],
        5: [lambda fields: changed(fields, at["b"], 1)],
        6: [lambda fields: changed(fields, at["P"], -1), lambda fields: changed(fields, at["e"] - 1, -1)],
        29: [lambda settings: [], lambda settings: settings + [10**6] * 9, lambda settings: settings + [0], lambda settings: [INDEX_MOST + 1] + settings[1:]],
        3: [lambda room: room - 1, lambda room: 0],
        1: [lambda record: b"", lambda record: bytes([record[0] & 15]) + record[1:]],
        2: [lambda record: record[:-1], lambda record: record + b"\x00"],
    }


def put_wrong(triangle, changes, source):
    """A call with these changes, by the number of their question."""
    fields = fields_of(*triangle)
    for question in (4, 5, 6):
        fields = changes[question](fields) if question in changes else fields
    settings = changes.get(29, list)(some(2, source))
    room = changes.get(3, int)(report_count(fields[0], len(settings)))
    record = model.pack(fields)
    for question in (1, 2):
        record = changes.get(question, bytes)(record)
    return record, settings, room


def several_wrong():
    """Questions that all refuse a call, and the call: every two, each way of the one beside one of the other, and many at once."""
    source = random.Random(2)
    for k in (2, 5):
        by_question = ways(k)
        for place, number in enumerate(ORDER):
            for other in ORDER[place + 1:]:
                for way in range(max(len(by_question[number]), len(by_question[other]))):
                    both = {question: by_question[question][way % len(by_question[question])] for question in (number, other)}
                    yield both, put_wrong(account(k, source, history.drifting), both, source)
        for place in range(len(ORDER)):
            rest = {question: by_question[question][0] for question in ORDER[place:]}
            yield rest, put_wrong(account(k, source, history.drifting), rest, source)
    # two years, which 29 refuses, with each of the others
    for question in ORDER:
        one = {question: ways(1)[question][0]}
        yield {29, *one}, put_wrong(([1, 1], [[60, 40], [66]]), one, source)


def by_chance(source, most):
    """A call that is accepted, of at most this k, of any character and number of settings; every fourth report is longer."""
    k = source.randint(K_LEAST, most)
    triangle = account(k, source, source.choice(history.CHARACTERS))
    return call(*triangle, some(source.randint(1, SETTINGS_MOST), source), source.choice((0, 0, 0, source.randint(1, 40))), source)


def calls():
    """The calls that are stored."""
    yield from worked()
    yield from sizes()
    yield from other_fields()
    yield from extremes()
    yield from ties()
    yield from all_marked()
    yield from one_marked()
    yield from marked_steps()
    source = random.Random(1)
    for _ in range(40):
        yield by_chance(source, 8)
    yield from wrong_settings()
    yield from rooms()
    yield from wrong_records()
    for _, given in several_wrong():
        yield given


def marked():
    """What can be worked out by hand."""
    assert (report_count(2, 1), report_count(15, 8), [report_count(k, 1) for k in (3, 15)]) == (4, 961, [7, 121])
    answers = [hindsight(*given) for given in worked()]
    # the cut is document 01's two years: r_1 is 377358491 and d_1 10600; with 1.1 the level is 11660, the unit 4400 and the forecast of row 1 is 44, as it is paid
    assert answers[0] == (0, [0, 0, 0, 0])
    # with 0.000001 the level is 0; with 1 it is 10600, the unit 4000 and the forecast 40; with 1.2 12720, 4800 and 48; with 5 53000, 20000 and 200
    assert answers[1] == (0, [0, 44, 44, 0, 4, 4, 0, -4, 4, 0, -156, 156, 1])
    assert answers[2] == (0, [0, -4, 4, 0, 4, 4, 0, 44, 44, 0]) and answers[3] == (0, [0, -4, 4, 0, 4, 4, 0, 0, 0, 2])
    # the motor account with 1: the cut to three years has shares 609925952, 297955317 and 92118731 and a latest diagonal of 97700, so the units of rows 1 and 2 are 9000
    # and 29110, the forecasts 90 and 291, and 97 and 332 are paid; that to two years has 327146172 and 86200, so 28200 and 282, and 292 are paid
    assert [share * latest // model.S for share, latest in ((92118731, 97700), (297955317, 97700), (327146172, 86200))] == [9000, 29110, 28200]
    assert answers[4] == (0, [0, 97 - 90, 332 - 291, 0, 292 - 282, 7 + 41 + 10, 0])
    assert answers[7] == answers[8] == (0, [9, 0, 0, 8, 0, 0] * 3 + [0])
    # each of 7 to 10 between two steps without a mark
    for mark, given in zip((7, 8, 9, 10), one_marked()):
        (first, second), _ = parts(4, 2, hindsight(*given)[1])
        assert [[number for number, _ in found] for found, _ in (first, second)] == [[0, mark, 0]] * 2
    # the report on a triangle does not depend on the record's other fields
    assert len({record for record, *_ in other_fields()}) == 3 and len({tuple(hindsight(*given)[1]) for given in other_fields()}) == 1
    for given in all_marked():
        found, place = parts(given[0][0] >> 4, len(given[1]), hindsight(*given)[1])
        assert place == 0 and all(total == 0 and all(mark and not any(gaps) for mark, gaps in steps_) for steps_, total in found)
    # the largest forecasts; with 0.000001 the level is 1000 and the unit 999
    most = [hindsight(*given)[1] for given, _ in zip(extremes(), range(3))]
    assert [entries[1] for entries in most] == [-10000 - (5 * 10**13 - 50000), AMOUNT_MOST - 9990000, -(5 * 10**13 - 4 * 10**10)]
    # of the questions that say no the first in the order
    for questions, given in several_wrong():
        assert hindsight(*given)[0] == min(questions, key=ORDER.index), (questions, given)


marked()
