"""Request 5 of document 02, indices of the rates that economists send as 64-bit floats, in plain Python, written from the paper and not from the Rattle code.

Every value is an exact fraction, and after each operation one function rounds it to the nearest binary64, in whole numbers: no float of the machine takes part.
The sign of a zero changes no result and is not kept. make_cases.py makes of it what the test program inflation_cases is expected to write, and sheet.py reads
the `inflation` line with it.
"""
from collections import namedtuple
from fractions import Fraction
from math import floor

M = 10**6
HALF = Fraction(1, 2)
YEARS = 16
RATE_LEAST, RATE_MOST = -HALF, Fraction(1)
INDEX_MOST = 5 * 10**6
# how many rates each shape has; a shock has its year after them
SHAPES = {"flat": 1, "fading": 2, "shock": 2}

# a binary64 is a mantissa of at most 53 bits times 2^exponent, the exponent from -1074 on
MANTISSA, EXPONENT_LEAST = 53, -1074


def power(exponent):
    """2^exponent."""
    return Fraction(2**exponent) if exponent >= 0 else Fraction(1, 2**-exponent)


def of_bits(bits):
    """The value of a binary64; None of an infinity and of what is no number."""
    field, mantissa = bits >> 52 & 2047, bits & 2**52 - 1
    if field == 2047:
        return None
    size = (mantissa + 2**52) * power(field - 1 + EXPONENT_LEAST) if field else mantissa * power(EXPONENT_LEAST)
    return -size if bits >> 63 else size


def bits_of(x):
    """The bits of a binary64; of zero those of the positive one."""
    units = abs(x) / power(EXPONENT_LEAST)
    assert units.denominator == 1
    exponent = max(units.numerator.bit_length() - MANTISSA, 0)
    # the mantissa's highest bit adds one to the exponent
    return (x < 0) << 63 | (exponent << 52) + (units.numerator >> exponent)


def rounded(x):
    """The nearest binary64 of a value within their range, of two as near the one with the even mantissa."""
    above, below = abs(x.numerator), x.denominator
    size = above.bit_length() - below.bit_length()
    # above / below is less than 2^(size + 1), and mostly less than 2^size: then the smaller exponent is the right one
    for exponent in (size - MANTISSA, size - MANTISSA + 1):
        unit = power(max(exponent, EXPONENT_LEAST))
        divisor = below * unit.numerator
        mantissa, rest = divmod(above * unit.denominator, divisor)
        if mantissa < 2**MANTISSA:
            break
    # twice the rest, and one more where the mantissa is odd, is above the divisor where the neighbour above is due
    mantissa += 2 * rest + mantissa % 2 > divisor
    return (-mantissa if x < 0 else mantissa) * unit


def decimal(text):
    """The binary64 nearest to a decimal."""
    return rounded(Fraction(text))


def fade(rate, long_run):
    """The rate of the year after one with this rate."""
    return rounded(long_run + rounded(HALF * rounded(rate - long_run)))


def grow(path, rate):
    return rounded(path * rounded(1 + rate))


def to_whole(product):
    """W with W - 1/2 <= product < W + 1/2."""
    return floor(product + HALF)


def index(path):
    return to_whole(rounded(path * M))


# where a path starts, and how the next fading rate, the next path and the index are made
Steps = namedtuple("Steps", "start fade grow index")
RULE = Steps(Fraction(1), fade, grow, index)

# the rule with one step done otherwise, and nearly the same: make_cases.py has calls that tell them apart
BLUNDERS = {
    # the power, or the product of all years, rounded once
    "power": RULE._replace(grow=lambda path, rate: path * rounded(1 + rate), index=lambda path: index(rounded(path))),
    # the addition and the multiplication rounded together
    "fused": RULE._replace(grow=lambda path, rate: rounded(path * (1 + rate))),
    # the path and what it grows by
    "added": RULE._replace(grow=lambda path, rate: rounded(path + rounded(path * rate))),
    # a path in millionths from the start
    "scaled": RULE._replace(start=Fraction(M), index=to_whole),
    # the mean of the two rates; half of each; halfway from the rate in place of from the long-run rate
    "mean": RULE._replace(fade=lambda rate, long_run: rounded(HALF * rounded(rate + long_run))),
    "halves": RULE._replace(fade=lambda rate, long_run: rounded(rounded(HALF * rate) + rounded(HALF * long_run))),
    "from_rate": RULE._replace(fade=lambda rate, long_run: rounded(rate + rounded(HALF * rounded(long_run - rate)))),
    # the product with a million not rounded
    "unrounded": RULE._replace(index=lambda path: to_whole(path * M)),
    # halves to the even neighbour, as Python rounds a fraction; halves down
    "even": RULE._replace(index=lambda path: round(rounded(path * M))),
    "down": RULE._replace(index=lambda path: -to_whole(-rounded(path * M))),
}


def rates(shape, numbers, years, steps=RULE):
    """The rate of each year wanted; `numbers` are the rates sent and, of a shock, its year."""
    if shape == "flat":
        return numbers * years
    if shape == "shock":
        rate, other, year = numbers
        return [rate if t == year else other for t in range(1, years + 1)]
    rate, long_run = numbers
    out = [rate]
    while len(out) < years:
        out.append(steps.fade(out[-1], long_run))
    return out


def path(by_year, steps=RULE):
    """The path after each year, of the rates by year."""
    out = [steps.start]
    for rate in by_year:
        out.append(steps.grow(out[-1], rate))
    return out[1:]


def every_index(shape, numbers, years, steps=RULE):
    """The index of each year wanted, of numbers that are in range, however large it is."""
    return [steps.index(value) for value in path(rates(shape, numbers, years, steps), steps)]


def out_of_range(shape, numbers, years):
    """The places, from 1, of the numbers of a call that question 20 refuses; a rate is None where it is no number or an infinity."""
    count = SHAPES[shape]
    fine = [rate is not None and RATE_LEAST <= rate <= RATE_MOST for rate in numbers[:count]] + [1 <= year <= years for year in numbers[count:]]
    return [place for place, within in enumerate(fine, 1) if not within]


def years_past(values):
    """The years, from 1, whose index question 21 refuses."""
    return [year for year, value in enumerate(values, 1) if not 1 <= value <= INDEX_MOST]


def indices(shape, numbers, years, steps=RULE):
    """The answer to a call, 0 or the number of its refusal, and sixteen indices."""
    if not 1 <= years <= YEARS or out_of_range(shape, numbers, years):
        return 20, [0] * YEARS
    values = every_index(shape, numbers, years, steps)
    if years_past(values):
        return 21, [0] * YEARS
    return 0, values + [0] * (YEARS - years)


def marked():
    """What can be worked out by hand."""
    assert [of_bits(bits) for bits in (0, 1 << 63, 1, 0x3ff << 52, 0xbfe << 52)] == [0, 0, power(-1074), 1, -HALF]
    assert of_bits(2047 << 52) is of_bits((2047 << 52) + 1) is None and of_bits((2047 << 52) - 1) == (2**53 - 1) * power(971)
    assert all(bits_of(of_bits(bits)) == bits for bits in (0, 1, 2**52 - 1, 2**52, 2**53, 0x3fb999999999999a, 0xbfe << 52, (2047 << 52) - 1))
    assert [bits_of(decimal(text)) for text in ("0.1", "-0.25", "-0")] == [0x3fb999999999999a, 0xbfd << 52, 0]
    # above 1 a unit is 2^-52, and below 1 a half of it; halves go to the even one, as do those of the smallest unit
    assert [(rounded(1 + part * power(-54)) - 1) * 2**53 for part in (-4, -3, -2, -1, 0, 1, 2, 3, 4, 5, 6, 7)] == [-2, -2, -1, 0, 0, 0, 0, 2, 2, 2, 4, 4]
    assert [rounded(part * power(-1075)) * 2**1074 for part in (-3, -1, 1, 3, 5)] == [-2, 0, 0, 2, 2]

    def of(shape, *numbers, years=YEARS):
        return indices(shape, [Fraction(number) for number in numbers], years)

    # 7812.5 in the seventh year
    halved = [500000, 250000, 125000, 62500, 31250, 15625, 7813, 3906, 1953, 977, 488, 244, 122, 61, 31, 15]
    assert of("flat", -HALF) == (0, halved) and of("flat", -HALF, years=7) == (0, halved[:7] + [0] * 9)
    assert of("flat", 1, years=2) == (0, [2 * M, 4 * M] + [0] * 14) and of("flat", 1, years=3) == (21, [0] * 16)
    # 1, 1/2, 1/4, 1/8 and 1/16, and 4.482421875 in the end; 2, 4 and 5; 2, 4 and 2
    assert of("fading", 1, 0, years=5) == (0, [2 * M, 3 * M, 3750000, 4218750, 4482422] + [0] * 11)
    assert of("shock", Fraction(1, 4), 1, 3, years=3) == (0, [2 * M, 4 * M, 5 * M] + [0] * 13)
    assert of("shock", -HALF, 1, 3, years=3) == (0, [2 * M, 4 * M, 2 * M] + [0] * 13)
    assert [of("shock", 0, 0, year, years=years)[0] for year, years in ((0, 1), (1, 1), (2, 1), (16, 16), (17, 17), (17, 16))] == [20, 0, 20, 0, 20, 20]


marked()
