//! Hindsight runs by chance: records of all kinds, with accounts at the edges of questions 7 to 10 in the place of their first years, and settings and reports at the
//! edges of questions 29 and 3, by themselves and beside each other.

use crate::generate::{self, buffer_length, fields, triangle};
use crate::hindsight::{entries, SETTINGS};
use crate::paper::{Given, CUMULATIVE_MAX, INDEX_MAX};
use crate::random::Random;
use crate::records::{cell, pack};

/// Puts the triangle of an account in the place of the payment years up to `last`.
fn put_first(r: &mut Random, given: &mut Given, k: usize, last: usize) {
    let first = triangle(r, last);
    given.exposures[..=last].copy_from_slice(&first.exposures);
    for i in 0..=last {
        let row = &first.increments[cell(last, i, 0)..][..=last - i];
        given.increments[cell(k, i, 0)..][..row.len()].copy_from_slice(row);
    }
}

/// Pays nearly all of year `last` in its last development year, so that the running shares before it are next to nothing and 9 or 10 says no of its step; and as
/// much, or nothing more, at once in the year after, so that its step is fitted.
fn pay_late(r: &mut Random, given: &mut Given, k: usize, last: usize) {
    for i in 0..=last {
        given.increments[cell(k, i, last - i)] = 0;
    }
    let late = 1_000_000 * r.between(1, 450);
    let at_once = r.pick(&[0, late, late]);
    for (i, j, paid) in [
        (0, last, late),
        (last, 0, r.between(1, 9)),
        (last + 1, 0, at_once),
    ] {
        given.exposures[i] = 100;
        given.increments[cell(k, i, j)] = paid;
    }
}

/// Changes the increments that take a cumulative below 0 or above 10^11, so that question 6 says yes.
fn mend(given: &mut Given, k: usize) {
    for i in 0..=k {
        let mut cumulative = 0;
        for paid in &mut given.increments[cell(k, i, 0)..=cell(k, i, k - i)] {
            *paid = (cumulative + *paid).clamp(0, CUMULATIVE_MAX) - cumulative;
            cumulative += *paid;
        }
    }
}

/// A record of three years or more, mostly one that passes question 6.
fn whole(r: &mut Random) -> Vec<u8> {
    let any = 2 + r.below(14);
    let k = r.pick(&[any, any, any, any, 2, 3, 15]);
    let mut given = if r.one_in(2) {
        fields(r, k)
    } else {
        triangle(r, k)
    };
    // A larger one first: the smaller then stands within it.
    let mut last = k;
    for _ in 0..r.below(3) {
        if last > 1 {
            last = 1 + r.below(last - 1);
            put_first(r, &mut given, k, last);
        }
    }
    if r.one_in(12) {
        let last = 1 + r.below(k - 1);
        pay_late(r, &mut given, k, last);
    }
    if !r.one_in(8) {
        mend(&mut given, k);
    }
    pack(&given)
}

/// A setting that is accepted.
fn setting(r: &mut Random) -> u64 {
    match r.below(8) {
        0 => r.pick(&[1, 2, INDEX_MAX - 1, INDEX_MAX]),
        1 => r.between(1, INDEX_MAX as i64) as u64,
        2 => r.spread(INDEX_MAX),
        _ => r.between(900_000, 1_300_000) as u64,
    }
}

/// One to eight settings, some of them twice.
fn settings(r: &mut Random) -> Vec<u64> {
    let any = 1 + r.below(SETTINGS);
    let count = r.pick(&[any, any, any, 1, SETTINGS]);
    let mut settings: Vec<u64> = (0..count).map(|_| setting(r)).collect();
    if r.one_in(3) {
        let (from, to) = (r.below(count), r.below(count));
        settings[to] = settings[from];
    }
    if r.one_in(6) {
        // So near each other that few of them have forecasts of their own.
        let first = settings[0];
        for setting in &mut settings[1..] {
            *setting = (first + r.below(4) as u64).min(INDEX_MAX);
        }
    }
    settings
}

/// Settings that question 29 refuses, by their number or by one of them.
fn refused_settings(r: &mut Random) -> Vec<u64> {
    let mut settings = settings(r);
    if r.one_in(2) {
        let count = r.pick(&[0, 0, SETTINGS + 1, SETTINGS + 1, 64, 256, 257]);
        settings.resize(count, 1_000_000);
    } else {
        // Cut to fewer bits some of these are accepted.
        let place = r.below(settings.len());
        let any = (r.number() >> r.below(40)).max(INDEX_MAX + 1);
        let far = r.pick(&[1u64 << 23, 1 << 32, 1 << 40, 1 << 63]) + settings[place];
        settings[place] = r.pick(&[0, 0, INDEX_MAX + 1, INDEX_MAX + 1, u64::MAX, any, far]);
    }
    settings
}

/// A record at an edge of question 4, 5 or 6, or one that something has happened to.
fn wrong(r: &mut Random) -> Vec<u8> {
    let k = 2 + r.below(14);
    match r.pick(&[0, 0, 4, 4, 5, 6]) {
        0 => generate::damaged(r, k),
        question => generate::edge(r, k, question),
    }
}

/// A record, settings, and the entries of the report that is lent. What is wrong with the record often goes with wrong settings or too short a report.
pub fn call(r: &mut Random) -> (Vec<u8>, Vec<u64>, usize) {
    let (record, other_wrong) = match r.below(12) {
        0..=2 => (generate::record(r), 6),
        3 => (wrong(r), 2),
        _ => (whole(r), 8),
    };
    let settings = if r.one_in(other_wrong) {
        refused_settings(r)
    } else {
        settings(r)
    };
    let k = record.first().map_or(0, |byte| usize::from(byte >> 4));
    // So many are refused whatever the report.
    let needed = entries(k, settings.len().min(SETTINGS + 1));
    let room = if r.one_in(2 * other_wrong) {
        needed - 1
    } else {
        buffer_length(r, needed)
    };
    (record, settings, room)
}
