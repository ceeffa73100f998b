//! Calls for inflation indices by chance: rates of several characters, at the limits of questions 20 and 21, and where a half is rounded.

use crate::inflation::Shape;
use crate::random::Random;

const SIGN: u64 = 1 << 63;
const ONE: u64 = 0x3ff0_0000_0000_0000;
const HALF: u64 = 0x3fe0_0000_0000_0000;
const INFINITY: u64 = 0x7ff0_0000_0000_0000;
const INDEX_MAX: f64 = 5_000_000.0;

/// From 0 to 1, of all digits.
fn part(r: &mut Random) -> f64 {
    (r.number() >> 11) as f64 / (1u64 << 53) as f64
}

/// Some percent, as economists write them: two to seven digits after the point.
fn short(r: &mut Random) -> u64 {
    let tens = 10i64.pow(r.between(2, 7) as u32);
    (r.between(-tens / 20, tens / 8) as f64 / tens as f64).to_bits()
}

/// The bits of a rate; about one in six is refused.
fn rate(r: &mut Random) -> u64 {
    let any = r.number();
    let sign = r.pick(&[0, SIGN]);
    let size = r.between(0, if sign == 0 { ONE } else { HALF } as i64) as u64;
    let next = r.below(3) as u64;
    match r.below(24) {
        0..=6 => short(r),
        7..=10 => (0.17 * part(r) - 0.05).to_bits(),
        11..=13 => (1.5 * part(r) - 0.5).to_bits(),
        14 => sign | size,
        // The limits, and next to them on both sides.
        15 => ONE - 1 + next,
        16 => (SIGN | HALF) - 1 + next,
        // Zeros, subnormal rates, and rates that 1 swallows or nearly so: from 2^-56 to 2^-49.
        17 => sign | r.pick(&[0, 0, 1, any >> 12]),
        18 => sign | r.between(0x3c7 << 52, 0x3ce << 52) as u64,
        // A half of a millionth and its odd multiples.
        19 => (((r.between(-500_000, 999_999) as f64 + 0.5) / 1e6).to_bits() - 1) + next,
        // Past the limits, and no number.
        20 => sign | (ONE + r.spread(1 << 60)),
        21 => (SIGN | HALF) + r.spread(1 << 60),
        22 => sign | (INFINITY + r.pick(&[0, 1, 1 << 51, any >> 12])),
        _ => any,
    }
}

/// Years wanted: mostly 1 to 16, or next to that, or any.
fn years(r: &mut Random) -> u64 {
    match r.below(12) {
        0 => r.below(19) as u64,
        1 if r.one_in(3) => r.number() >> r.below(64),
        // Cut to fewer bits these are in range.
        1 => (1 << r.pick(&[8, 16, 32, 63])) + r.below(17) as u64,
        2..=4 => 16,
        _ => 1 + r.below(16) as u64,
    }
}

/// The year of a shock: mostly one of those wanted, or next to them, or any.
fn shock_year(r: &mut Random, years: u64) -> u64 {
    let any = r.number() >> r.below(64);
    let wanted = r.below(16) as u64 % years.max(1) + 1;
    match r.below(12) {
        0 => r.pick(&[0, any, (1 << 32) + wanted, years.wrapping_add(1)]),
        1 => 1,
        2 => years,
        _ => wanted,
    }
}

/// The product with a million after the last of up to 16 years, by the machine's floats: it only aims calls.
fn product(shape: Shape, years: u64) -> f64 {
    let mut path = 1.0;
    let mut before = None;
    for year in 1..=years {
        let rate = match (shape, before) {
            (Shape::Fading(_, long_run), Some(rate)) => {
                let long_run = f64::from_bits(long_run);
                long_run + 0.5 * (rate - long_run)
            }
            (Shape::Shock(_, other, named), _) if year != named => f64::from_bits(other),
            (Shape::Flat(rate) | Shape::Fading(rate, _) | Shape::Shock(rate, ..), _) => {
                f64::from_bits(rate)
            }
        };
        before = Some(rate);
        path *= 1.0 + rate;
    }
    path * 1e6
}

/// The least rate from 0 on whose last product reaches what is sought, or 1: larger bits are those of a larger rate.
fn least_rate(of: impl Fn(u64) -> Shape, years: u64, sought: f64) -> u64 {
    let (mut low, mut high) = (0, ONE);
    while low < high {
        let middle = low + (high - low) / 2;
        if product(of(middle), years) < sought {
            low = middle + 1;
        } else {
            high = middle;
        }
    }
    low
}

/// A rate or one next to it, or some further up or down.
fn near(r: &mut Random, rate: u64) -> u64 {
    let some = r.below(40) as u64;
    let down = r.pick(&[0, 1, some]);
    let up = r.pick(&[0, 0, some]);
    (rate.saturating_sub(down) + up).min(ONE)
}

/// A call whose last product is a half, or next to one on either side, where its rate can bring that about; often the half above 5,000,000.
fn rounded(r: &mut Random) -> (Shape, u64) {
    let years = 1 + r.below(16) as u64;
    let rates = [(0.11 * part(r)).to_bits(), short(r) & !SIGN];
    let other = r.pick(&rates);
    let year = 1 + r.below(years as usize) as u64;
    let kind = r.below(3);
    let of = |rate| match kind {
        0 => Shape::Flat(rate),
        1 => Shape::Fading(rate, other),
        _ => Shape::Shock(rate, other, year),
    };
    let usual = product(of((0.25 * part(r)).to_bits()), years).floor();
    let sought = r.pick(&[usual, usual, INDEX_MAX]) + 0.5;
    let least = least_rate(of, years, sought);
    (of(near(r, least)), years)
}

/// A call whose last index but one is 5,000,000 or next to it, and the last one less.
fn coming_back(r: &mut Random) -> (Shape, u64) {
    let years = 3 + r.below(13) as u64;
    let least = least_rate(Shape::Flat, years, INDEX_MAX + 0.5);
    let fall = (-0.5 * part(r)).to_bits();
    (Shape::Shock(fall, near(r, least), years + 1), years + 1)
}

/// Rates of any character, and years of any number.
fn any(r: &mut Random) -> (Shape, u64) {
    let years = years(r);
    let shape = match r.below(3) {
        0 => Shape::Flat(rate(r)),
        1 => Shape::Fading(rate(r), rate(r)),
        _ => Shape::Shock(rate(r), rate(r), shock_year(r, years)),
    };
    (shape, years)
}

/// A shape and the years wanted.
pub fn call(r: &mut Random) -> (Shape, u64) {
    match r.below(24) {
        0 => coming_back(r),
        1..=7 => rounded(r),
        _ => any(r),
    }
}
