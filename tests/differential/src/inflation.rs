//! Request 5 of document 02 in plain Rust, written from the paper alone: the indices of rates that are sent as binary64 floats.
//!
//! Floats are their bits here. Every sum and every product is worked out in whole numbers and rounded to the nearest float, of two as near to the even one, so
//! the float unit of the machine takes no part. The sign of a zero changes no result.

const YEARS: usize = 16;
const INDEX_MAX: u64 = 5_000_000;

const SIGN: u64 = 1 << 63;
/// The bits of 1.0, 0.5 and 1,000,000.0.
const ONE: u64 = 0x3ff0_0000_0000_0000;
const HALF: u64 = 0x3fe0_0000_0000_0000;
const MILLION: u64 = 0x412e_8480_0000_0000;

/// What is sent; rates are the bits of a float.
#[derive(Clone, Copy, Debug)]
pub enum Shape {
    Flat(u64),
    /// The first rate and the long-run rate.
    Fading(u64, u64),
    /// The shock rate, the rate of the other years, and the year of the shock, from 1.
    Shock(u64, u64, u64),
}

/// The bits of a mantissa after its first.
const FRACTION_BITS: u32 = 52;
const EXPONENT_MIN: i32 = -1074;

/// The number size × 2^exponent, or minus that. The size is from 2^52 to 2^53, or less where the exponent is the least.
#[derive(Clone, Copy)]
struct Float {
    negative: bool,
    size: u64,
    exponent: i32,
}

impl Float {
    /// The number of bits that are neither those of an infinity nor of what is no number.
    fn of(bits: u64) -> Float {
        let fraction = bits & ((1 << FRACTION_BITS) - 1);
        let field = ((bits & !SIGN) >> FRACTION_BITS) as i32;
        let first = u64::from(field > 0) << FRACTION_BITS;
        Float {
            negative: bits & SIGN != 0,
            size: first | fraction,
            exponent: EXPONENT_MIN + (field - 1).max(0),
        }
    }

    /// The nearest to size × 2^exponent; the size is below 2^120.
    fn nearest(negative: bool, size: u128, exponent: i32) -> Float {
        if size == 0 {
            return Float::of(0);
        }
        // Of 120 bits 53 are kept, and fewer where the exponent would be below the least; 121 are dropped where all are too small.
        let up = size.leading_zeros() - 8;
        let (size, exponent) = (size << up, exponent - up as i32);
        let drop = (EXPONENT_MIN - exponent).clamp(67, 121);
        let kept = size >> drop;
        let rest = size - (kept << drop);
        let half = 1 << (drop - 1);
        let above = rest > half || (rest == half && kept % 2 == 1);
        Float {
            negative,
            size: kept as u64 + u64::from(above),
            exponent: (exponent + drop).max(EXPONENT_MIN),
        }
    }

    fn plus(self, other: Float) -> Float {
        const SPARE: u32 = 64;
        let self_is_larger = (self.exponent, self.size) >= (other.exponent, other.size);
        let (large, small) = if self_is_larger {
            (self, other)
        } else {
            (other, self)
        };
        let apart = (large.exponent - small.exponent) as u32;
        let first = u128::from(large.size) << SPARE;
        let second = shortened(u128::from(small.size) << SPARE, apart);
        let size = if large.negative == small.negative {
            first + second
        } else {
            first - second
        };
        Float::nearest(large.negative, size, large.exponent - SPARE as i32)
    }

    fn minus(self, other: Float) -> Float {
        self.plus(Float {
            negative: !other.negative,
            ..other
        })
    }

    fn times(self, other: Float) -> Float {
        let size = u128::from(self.size) * u128::from(other.size);
        Float::nearest(
            self.negative != other.negative,
            size,
            self.exponent + other.exponent,
        )
    }

    /// W with W − 1/2 ≤ self < W + 1/2, of a positive number below 2^52 and not below 2^-10.
    fn to_whole(self) -> u64 {
        let below_the_point = -self.exponent as u32;
        let half = 1 << (below_the_point - 1);
        (self.size + half) >> below_the_point
    }
}

/// A number without its last bits, of which it keeps one: whether any of them is set. That is enough to round by.
fn shortened(number: u128, bits: u32) -> u128 {
    let kept = number.checked_shr(bits).unwrap_or(0);
    let lost = kept.checked_shl(bits) != Some(number);
    kept | u128::from(lost && number != 0)
}

/// A number and no infinity, from −0.5 to 1.0: without the sign, larger bits are those of a larger size.
fn is_rate(bits: u64) -> bool {
    let most = if bits & SIGN == 0 { ONE } else { HALF };
    bits & !SIGN <= most
}

/// Question 20.
fn in_range(shape: Shape, years: u64) -> bool {
    let sent = match shape {
        Shape::Flat(rate) => is_rate(rate),
        Shape::Fading(rate, long_run) => is_rate(rate) && is_rate(long_run),
        Shape::Shock(rate, other, year) => {
            is_rate(rate) && is_rate(other) && (1..=years).contains(&year)
        }
    };
    sent && (1..=YEARS as u64).contains(&years)
}

/// The answer, 0 or the number of the refusal, and the index of each year; zeros past the years wanted, and on a refusal.
pub fn indices(shape: Shape, years: u64) -> (u64, [u64; YEARS]) {
    if !in_range(shape, years) {
        return (20, [0; YEARS]);
    }
    let mut values = [0; YEARS];
    let mut path = Float::of(ONE);
    let mut fading = None;
    for (year, value) in (1..=years).zip(&mut values) {
        let rate = match shape {
            Shape::Flat(rate) => Float::of(rate),
            Shape::Fading(first, long_run) => {
                let next = fading.map_or(Float::of(first), |rate| faded(rate, long_run));
                fading = Some(next);
                next
            }
            Shape::Shock(rate, _, named) if year == named => Float::of(rate),
            Shape::Shock(_, other, _) => Float::of(other),
        };
        path = path.times(Float::of(ONE).plus(rate));
        *value = path.times(Float::of(MILLION)).to_whole();
        // Question 21.
        if !(1..=INDEX_MAX).contains(value) {
            return (21, [0; YEARS]);
        }
    }
    (0, values)
}

/// The rate of the year after one with this rate.
fn faded(rate: Float, long_run: u64) -> Float {
    let long_run = Float::of(long_run);
    long_run.plus(Float::of(HALF).times(rate.minus(long_run)))
}
