"""Document 01's record and engine, with requests 1, 3, 4 and 6 of document 02 (the ULAE ratio under growth, payments after the last year, halves to the even
hundredth, question 13 directly after 6), and the exact solution that its request 8 is about, in plain Python, written from the paper and not from the Rattle
code.

Used to make the stored inputs and expected outputs of the test programs (make_cases.py), and timed beside the engine by tests/benchmark.
"""
from fractions import Fraction
from itertools import accumulate

S = 10**9
M = 10**6
# the first valuation year whose ULAE ratio is corrected for growth
FIRST_CORRECTED = 2027


def cells(k):
    return (k + 1) * (k + 2) // 2


def rows(k):
    """The record's rows in order: name, how many fields, sign bit, bits of size, least size, most size."""
    return [
        ("k", 1, False, 4, 1, 15),
        ("n", k + 1, False, 20, 1, 10**6),
        ("P", cells(k), True, 34, 0, 10**10),
        ("e", k + 1, False, 23, 1, 5 * 10**6),
        ("b", k + 1, False, 20, 0, M),
        ("w", 1, False, 20, 0, M),
        ("U", k + 1, False, 34, 0, 10**10),
        ("a", 1, False, 34, 0, 10**10),
    ]


def bit_count(k):
    return sum(count * (size + sign) for _, count, sign, size, _, _ in rows(k))


def byte_count(k):
    return (bit_count(k) + 7) // 8


def field_count(k):
    return sum(count for _, count, *_ in rows(k))


class Refused(Exception):
    """The number of the first question whose answer is no."""


def answer(call, *given):
    """The answer to a call: 0 and what it gives, or the number of its refusal and None."""
    try:
        return 0, call(*given)
    except Refused as no:
        return no.args[0], None


def pack(fields, negative_zeros=()):
    """The record with these fields, no question asked; the increments at the places given are written with sign 1."""
    k = fields[0]
    text, at = "", 0
    for _, count, sign, size, _, _ in rows(k):
        for _ in range(count):
            value = fields[at]
            if sign:
                text += "1" if value < 0 or at in negative_zeros else "0"
            text += format(abs(value), f"0{size}b")[-size:]
            at += 1
    text += "0" * (-len(text) % 8)
    return bytes(int(text[i:i + 8], 2) for i in range(0, len(text), 8))


def read(record, room, count_of=field_count):
    """The fields of a record, for a lent list of `room` entries of which count_of(k) are filled."""
    if not record or record[0] >> 4 < 1:
        raise Refused(1)
    k = record[0] >> 4
    if len(record) != byte_count(k):
        raise Refused(2)
    text = "".join(format(byte, "08b") for byte in record)
    if "1" in text[bit_count(k):]:
        raise Refused(2)
    if room < count_of(k):
        raise Refused(3)
    fields, at, fine = [], 0, True
    for _, count, sign, size, least, most in rows(k):
        for _ in range(count):
            negative = sign and text[at] == "1"
            at += sign
            value = int(text[at:at + size], 2)
            at += size
            fine = fine and least <= value <= most and not (negative and value == 0)
            fields.append(-value if negative else value)
    if not fine:
        raise Refused(4)
    if sum(lists(fields)["b"]) != M:
        raise Refused(5)
    return fields


def lists(fields):
    """The fields by row."""
    out, at = {}, 0
    for name, count, *_ in rows(fields[0]):
        out[name] = fields[at:at + count]
        at += count
    return out


def by_row(k, increments):
    """The increments of each origin year."""
    rest = iter(increments)
    return [[next(rest) for _ in range(k + 1 - i)] for i in range(k + 1)]


def write(k, n, P, e, b, w, U, a, room):
    """The record with these fields, for a buffer of `room` bytes."""
    if not 1 <= k <= 15:
        raise Refused(1)
    given = {"k": [k], "n": n, "P": P, "e": e, "b": b, "w": [w], "U": U, "a": [a]}
    if room != byte_count(k) or any(len(given[name]) != count for name, count, *_ in rows(k)):
        raise Refused(2)
    for name, _, sign, _, least, most in rows(k):
        if any(not least <= (abs(v) if sign else v) <= most for v in given[name]):
            raise Refused(4)
    if sum(b) != M:
        raise Refused(5)
    return pack([k] + n + P + e + b + [w] + U + [a])


def result_count(k):
    """How many entries the result list has: three triangles' worth of cells, without the diagonal in two of them, and the rest."""
    future = k * (k + 1) // 2
    return cells(k) + (k + 1) * 2 + k + future + (k + 1) + 1 + (k + 1) * 2 + 1 + 1 + k + future + (k + 1)


def average(paid, claims):
    """Hundredths a claim, to the nearest whole, halves to the even neighbour: Python rounds a fraction so."""
    return round(Fraction(100 * paid, claims))


def averages(n, P):
    """The averages of the increments P, both by row."""
    return [[average(paid, claims) for paid in row] for claims, row in zip(n, P)]


def cumulatives(P):
    """C by row, under question 6; P by row."""
    C = [[sum(row[:j + 1]) for j in range(len(row))] for row in P]
    if any(not 0 <= c <= 10**11 for row in C for c in row):
        raise Refused(6)
    return C


def development_factors(C):
    """m_0 to m_{k-1} of the cumulatives, under question 13."""
    k = len(C) - 1
    m = []
    for h in range(k):
        above = sum(C[i][h + 1] for i in range(k - h))
        below = sum(C[i][h] for i in range(k - h))
        if below < 1 or M * above // below > 50 * M:
            raise Refused(13)
        m.append(M * above // below)
    return m


def sums(s):
    """The columns v_0 to v_k and the diagonals d_0 to d_k of a triangle of averages, given by row."""
    k = len(s) - 1
    v = [sum(s[i][j] for i in range(k + 1 - j)) for j in range(k + 1)]
    d = [sum(s[i][h - i] for i in range(h + 1)) for h in range(k + 1)]
    return v, d


def exact_solution(s):
    """The exact r_0 to r_k and l_0 to l_k of a triangle of averages, given by row, as fractions (document 01, "Shares and levels"): l_h = d_h / A_h and
    r_h = v_h / (l_h + .. + l_k), from the latest year down, r_0 being A_0. None where that divides by zero; where it does not, no other solution is there. It
    is 004's (5) and (6), without T_h."""
    v, d = sums(s)
    r, levels, A, level_sum = [], [], Fraction(1), Fraction(0)
    for h in range(len(s) - 1, -1, -1):
        if A == 0:
            return None
        levels.insert(0, d[h] / A)
        level_sum += levels[0]
        if h > 0 and level_sum == 0:
            return None
        r.insert(0, v[h] / level_sum if h > 0 else A)
        A -= r[0]
    return r, levels


def positive(r, levels):
    """The named sums of request 8 of document 02 are positive: every running share from r_0 to r_0 + .. + r_{k-1}, every l_h + .. + l_k with h from 1 to k."""
    named = list(accumulate(r))[:-1] + list(accumulate(reversed(levels)))[:-1]
    return min(named) > 0


def positive_solution(s):
    """The exact solution whose named sums are positive, which request 8 of document 02 is about; None where there is none."""
    found = exact_solution(s)
    return found if found and positive(*found) else None


def running_shares(s):
    """A_0 to A_k and the diagonals d_0 to d_k of a triangle of averages, given by row, under questions 7 and 8."""
    k = len(s) - 1
    v, d = sums(s)
    if min(v + d) < 0 or sum(v) > S:
        raise Refused(7)
    T = [sum(s[i][j] for i in range(k + 1) for j in range(k + 1 - i) if j <= h <= i + j) for h in range(k + 1)]
    if any(T[h] - v[h] < 1 for h in range(1, k + 1)):
        raise Refused(8)
    A = [0] * k + [S]
    for h in range(k, 0, -1):
        A[h - 1] = A[h] * (T[h] - v[h]) // T[h]
    return A, d


def level(A, d, h):
    """l_h, of a running share A_h of at least 1."""
    return d[h] * S // A[h]


def separate(s):
    """Shares, levels and the latest diagonal of a triangle of averages, given by row, under questions 7 to 10."""
    A, d = running_shares(s)
    if min(A) < 1:
        raise Refused(9)
    r = [A[0]] + [A[h] - A[h - 1] for h in range(1, len(A))]
    levels = [level(A, d, h) for h in range(len(A))]
    if max(levels) > S:
        raise Refused(10)
    return r, levels, d[-1]


def tail_payments(n, e, a):
    """What is paid of each origin year after year k, where the amount a is still to be paid for year 0, under questions 18 and 19; e[i] is e_{i+1}."""
    first = average(a, n[0])
    if first > S:
        raise Refused(18)
    t = [first * index // e[0] for index in e]
    if max(t) > 5 * S:
        raise Refused(19)
    return [claims * unit // 100 for claims, unit in zip(n, t)]


def plain_ratio(P, U):
    """The ULAE ratio of what is paid, P by row, under question 12."""
    paid = sum(map(sum, P))
    if paid < 1 or sum(U) > paid:
        raise Refused(12)
    return M * sum(U) // paid


def growth(k, P, b, w, X):
    """What the ratio is corrected by, under questions 15 and 16: what is reported in the latest payment year (B), what is paid in it (Y), and the divisor."""
    paid = sum(P[i][k - i] for i in range(k + 1))
    if paid < 1:
        raise Refused(15)
    reported = sum(b[j] * X[k - j] for j in range(k + 1)) // M
    divisor = M - w + w * reported // paid
    if divisor == 0:
        raise Refused(16)
    return reported, paid, divisor


def ratio_used(year, p, k, P, b, w, X):
    """The plain ratio p, or from 2027 on the one corrected for growth, under questions 15 to 17."""
    if year < FIRST_CORRECTED:
        return p
    _, _, divisor = growth(k, P, b, w, X)
    corrected = p * M // divisor
    if corrected > M:
        raise Refused(17)
    return corrected


def forecast(year, k, n, P, e, b, w, U, a, C):
    """The entries of the result list up to p, and the tail payments, which end it, under questions 7 to 12 and 15 to 19."""
    years = range(k + 1)
    s = averages(n, P)
    r, levels, latest = separate(s)
    L = [None] + [latest * e[t - 1] // M for t in range(1, k + 1)]
    y = [[n[i] * (r[j] * L[i + j - k] // S) // 100 for j in range(k + 1 - i, k + 1)] for i in years]
    z = tail_payments(n, e, a)
    R = [sum(y[i]) + z[i] for i in years]
    X = [C[i][k - i] + R[i] for i in years]
    if max(X) > 10**12:
        raise Refused(11)
    p = ratio_used(year, plain_ratio(P, U), k, P, b, w, X)
    N = [X[i] * sum(b[k - i + 1:]) // M for i in years]
    H = [(w * N[i] + (M - w) * R[i]) // M for i in years]
    Q = [p * H[i] // M for i in years]
    return sum(s, []) + r + levels + L[1:] + sum(y, []) + R + [sum(R)] + N + Q + [sum(Q)] + [p], z


def completed(C, m):
    """The completed C by row, those past the diagonal only, under question 14."""
    k = len(m)
    out = []
    for i in range(k + 1):
        c = C[i][k - i]
        for h in range(k - i, k):
            c = c * m[h] // M
            out.append(c)
    if any(c > 10**11 for c in out):
        raise Refused(14)
    return out


def results(year, k, n, P, e, b, w, U, a):
    """The result list of a valuation year and of fields that have passed questions 4 and 5; P by row. Question 13 is put directly after 6."""
    C = cumulatives(P)
    m = development_factors(C)
    entries, z = forecast(year, k, n, P, e, b, w, U, a, C)
    out = entries + m + completed(C, m) + z
    assert len(out) == result_count(k)
    return out


def opened(record, room):
    """What results and forecast take: the fields of a record, for a result buffer of `room` entries, under questions 1 to 5."""
    given = lists(read(record, room, result_count))
    k = given["k"][0]
    return k, given["n"], by_row(k, given["P"]), given["e"], given["b"], given["w"][0], given["U"], given["a"][0]


def run(year, record, room):
    """The answer to a record in a valuation year and the result list where it is 0, for a buffer of `room` entries."""
    return answer(lambda: results(year, *opened(record, room)))


# a zero amount, with e_{k+1} = M, as request 3 has the marked triangles
TWO_YEARS = [1, 1, 1, 60, 40, 66, 1100000, M, 800000, 200000, 500000, 6, 10, 0]
MOTOR = [504, 282, 90, 48, 580, 292, 97, 595, 332, 662]
MOTOR_ACCOUNT = ([3, 1, 1, 1, 1] + MOTOR + [1100000, 1210000, 1331000, M] + [700000, 200000, 80000, 20000] + [500000] + [20, 25, 30, 35] + [0])
# document 01's last marked item, whose other fields are free: nothing is paid in development year 0, and A_0 is 0
THREE_YEARS = [2, 100, 100, 100, 0, 5000, 999999, 0, 0, 1, M, M, M, M, 0, 0, 0, 0, 0, 0, 0]


# document 02's request 1 on paper: Y is -39, and with the last cell 41 it is 1
PAID_BACK = [2, 1, 100, 1, 0, 1, 0, 50, -40, 1, M, M, M, M, 0, 0, 500000, 0, 0, 0, 0]


def marked():
    """The items of document 01's "Marked triangles and edges", which are of 2026, averages as request 4 of document 02 marks them, the amount zero as request 3
    does, and the k = 2 case as request 6 does; and what the ratio under growth makes of the two years; exact solutions."""
    def put(*changes, year=2026):
        fields = list(TWO_YEARS)
        for at, value in changes:
            fields[at] = value
        return run(year, pack(fields), 22)

    assert (bit_count(1), byte_count(1), bit_count(15), byte_count(15)) == (357, 45, 6370, 797)
    assert (cells(15), result_count(1), result_count(15)) == (136, 22, 505)
    printed = [int(x) for x in "6000 4000 6600 622641509 377358491 9636 10600 11660 44 0 44 44 0 22 0 3 3 96385 1666666 109 0 0".split()]
    assert put() == put(year=0) == (0, printed)
    number, out = run(2026, pack(MOTOR_ACCOUNT), result_count(3))
    assert number == 0 and out[10:14] == [583475514, 287767456, 86614799, 42142231]
    assert out[14:18] == [86378, 98939, 101998, 113900] and out[-4:] == [0] * 4
    assert [average(*a) for a in ((1, 8), (-1, 8), (1, 3), (1, 200), (1, 201))] == [12, -12, 33, 0, 0]
    assert [average(*a) for a in ((3, 8), (-3, 8), (5, 8), (3, 200), (-1, 200))] == [38, -38, 62, 2, 0]
    assert put((5, 0)) == (8, None)
    assert put((3, 0)) == (13, None)
    assert put((12, 161)) == (12, None)
    assert put((12, 160))[0] == 0 and put((12, 160))[1][17] == M
    assert [run(year, pack(THREE_YEARS), result_count(2)) for year in (2026, 2027)] == [(13, None)] * 2
    # of its separation itself: A_1 and A_0, refused 9, and l_1 would be too large too
    s = averages([100] * 3, by_row(2, lists(THREE_YEARS)["P"]))
    A, d = running_shares(s)
    assert A == [0, 1000, S] and level(A, d, 1) > S and answer(separate, s) == (9, None)
    # an amount of 100 for year 0, carried to year 1 by e_2 / e_1 = 1.1: provisions, claims not reported and reserves
    tail = (7, 1210000), (13, 100)
    number, out = put(*tail)
    assert number == 0 and out[9:17] == [100, 154, 254, 0, 44, 4, 9, 13] and out[20:] == [100, 110]
    # 108 are reported and 106 paid in the latest year, the divisor is 1,009,433: the ratio alone changes
    assert growth(1, [[60, 40], [66]], [800000, 200000], 500000, [100, 110]) == (108, 106, 1009433)
    assert put(year=2027) == put(year=2**64 - 1) == (0, printed[:17] + [95484] + printed[18:])
    assert put(*tail, year=2027) == (0, out[:14] + [3, 6, 9, 63458] + out[18:])
    # Y is below 1, and is 1; all is reported a year late and the weight is 1: the divisor is 0, and the corrected ratio 1,060,000
    late = PAID_BACK[:9] + [41] + PAID_BACK[10:]
    assert [run(year, pack(fields), result_count(2))[0] for fields in (PAID_BACK, late) for year in (2026, 2027)] == [0, 15, 0, 0]
    reported_late = (8, 0), (9, M), (10, M)
    assert [put((3, 1), (4, 0), (5, 2000000), *reported_late, year=year)[0] for year in (2026, 2027)] == [0, 16]
    assert [put((11, 66), (12, 100), *reported_late, year=year)[0] for year in (2026, 2027)] == [0, 17]
    # of request 8: shares 3/5, 2/5 times levels 100, 200; the only solution, A_0 being -1; division by zero, where there is none or are many
    assert positive_solution([[6000, 8000], [12000]]) == ([Fraction(3, 5), Fraction(2, 5)], [10000, 20000])
    wrong_kind = [[0, 100, 200], [100, -100], [0]]
    assert exact_solution(wrong_kind) == ([-1, 0, 2], [0, -200, 100]) and positive_solution(wrong_kind) is None
    assert [exact_solution(s) for s in ([[100, 0, 0], [0, 100], [0]], [[100, 0, 0], [0, 0], [0]], [[6000, 4000], [0]])] == [None] * 3


marked()
