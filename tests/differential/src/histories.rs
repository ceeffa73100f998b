//! Histories by chance: accounts of several characters one after another, with windows at the edges of questions 7 to 10 put into them, and calls that questions 27
//! and 28 refuse.

use crate::generate::{triangle, Account};
use crate::history::{cells, entries, row, Given, YEARS};
use crate::paper::{AMOUNT_MAX, EXPOSURE_MAX, YEARS as WIDTH_MAX};
use crate::random::Random;

/// Years and a width that are accepted: often the fewest and the most.
fn size(r: &mut Random) -> (usize, usize) {
    let any = 2 + r.below(YEARS - 1);
    let few = 2 + r.below(18);
    let years = r.pick(&[few, few, few, few, any, any, YEARS - 1, YEARS]);
    let most = years.min(WIDTH_MAX);
    let any = 2 + r.below(most - 1);
    (years, r.pick(&[any, any, any, 2, most]))
}

/// A history of so many years, for windows of this width, and the entries of its result; of years and a width that question 27 refuses too, where that can be.
fn of_size(r: &mut Random, years: usize, width: usize) -> (Given, usize) {
    let last = width.max(2) - 1;
    let mut account = Account::new(r);
    let mut given = Given {
        years: years as u64,
        width: width as u64,
        ..Given::default()
    };
    for i in 0..years {
        if r.one_in(24) {
            account = Account::new(r);
        }
        given.exposures.push(account.exposure(r));
        for j in 0..row(years, i) {
            given.cells.push(account.increment(r, last, i, j));
        }
    }
    let room = if width <= years {
        entries(years, width)
    } else {
        1 + 2 * width
    };
    (given, room)
}

/// Puts the triangle of an account in the place of the window from an origin year on.
fn put_window(r: &mut Random, given: &mut Given, years: usize, width: usize, start: usize) {
    let window = triangle(r, width - 1);
    given.exposures[start..start + width].copy_from_slice(&window.exposures);
    let mut rest = &window.increments[..];
    let mut at = cells(years) - cells(years - start);
    for i in 0..width {
        let (paid, below) = rest.split_at(width - i);
        given.cells[at..at + paid.len()].copy_from_slice(paid);
        at += row(years, start + i);
        rest = below;
    }
}

/// A history that is accepted, and the entries of its result.
fn accepted(r: &mut Random) -> (Given, usize) {
    let (years, width) = size(r);
    let (mut given, room) = of_size(r, years, width);
    let windows = r.below(1 + years.div_ceil(width).min(4));
    for _ in 0..windows {
        let start = r.below(years - width + 1);
        put_window(r, &mut given, years, width, start);
    }
    (given, room)
}

/// Years or a width past a limit, all else as they call for.
fn past_a_limit(r: &mut Random) -> (Given, usize) {
    let (years, width) = size(r);
    let (years, width) = r.pick(&[
        (YEARS + 1, width),
        (YEARS + 2, width),
        (years, 0),
        (years, 1),
        (years, WIDTH_MAX + 1),
        (years, years + 1),
        (0, width),
        (0, 0),
        (1, 1),
        (1, 2),
    ]);
    of_size(r, years, width)
}

/// Changes the years, the width, a length or a number of a call, mostly so that it is refused.
fn change(r: &mut Random, given: &mut Given, room: &mut usize) {
    let bits = 1u64 << r.pick(&[6, 8, 16, 32, 63]);
    let any = r.number() >> r.below(64);
    match r.below(8) {
        // Cut to fewer bits these are as they were.
        0 => given.years = r.pick(&[given.years.wrapping_add(bits), any, 0, u64::MAX]),
        1 => given.width = r.pick(&[given.width.wrapping_add(bits), any, 0, 1, 17, u64::MAX]),
        2 => {
            given.years = given.years.wrapping_add(bits);
            given.width = given.width.wrapping_add(bits);
        }
        3 => *room = r.pick(&[0, room.saturating_sub(1), *room + 1, 2 * *room]),
        4 => {
            let length = given.exposures.len();
            let changed = r.pick(&[0, length.saturating_sub(1), length + 1, 2 * length]);
            given.exposures.resize(changed, 1);
        }
        5 => {
            let length = given.cells.len();
            let changed = r.pick(&[0, length.saturating_sub(1), length + 1, length + 16]);
            given.cells.resize(changed, 1);
        }
        6 if !given.exposures.is_empty() => {
            let place = r.below(given.exposures.len());
            let limits = [0, 1, EXPOSURE_MAX, EXPOSURE_MAX + 1, bits, u64::MAX, any];
            given.exposures[place] = r.pick(&limits);
        }
        _ if !given.cells.is_empty() => {
            let place = r.below(given.cells.len());
            let most = AMOUNT_MAX as i64;
            let limits = [
                most,
                most + 1,
                -most,
                -most - 1,
                i64::MAX,
                i64::MIN,
                any as i64,
            ];
            given.cells[place] = r.pick(&limits);
        }
        _ => {}
    }
}

/// A call, and the entries of the result that it is lent.
pub fn call(r: &mut Random) -> (Given, usize) {
    let (mut given, mut room) = if r.one_in(10) {
        past_a_limit(r)
    } else {
        accepted(r)
    };
    let changes = r.pick(&[0, 0, 0, 0, 0, 0, 0, 1, 1, 2]);
    for _ in 0..changes {
        change(r, &mut given, &mut room);
    }
    (given, room)
}
