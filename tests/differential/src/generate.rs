//! Cases by chance: accounts of several characters, records at the edge of each question, damaged records, fields that a writer must refuse, and valuation
//! years.

use crate::paper::{self, Given};
use crate::random::Random;
use crate::records::{account, cell, pack, rows, set_bits};

const AMOUNT_MAX: i64 = 10_000_000_000;
const EXPOSURE_MAX: i64 = 1_000_000;
const INDEX_MAX: i64 = 5_000_000;
const M: i64 = 1_000_000;
const S: i64 = 1_000_000_000;
const CUMULATIVE_MAX: i64 = 100_000_000_000;
const ULTIMATE_MAX: i64 = 1_000_000_000_000;

/// The last valuation year with the plain ULAE ratio, and the first with the corrected one.
pub const LAST_PLAIN: u64 = 2026;
pub const FIRST_CORRECTED: u64 = 2027;

/// Another valuation year; some would be plain ones if they were cut to fewer bits.
pub fn other_year(r: &mut Random) -> u64 {
    let any = r.number();
    r.pick(&[
        0,
        2025,
        2028,
        65_535,
        (1 << 16) + 2026,
        (1 << 32) + 2026,
        1 << 63,
        u64::MAX,
        any,
        any % 2027,
    ])
}

/// What the account looks like.
#[derive(Clone, Copy)]
enum Character {
    Steady,
    LongTail,
    Negative,
    Recoveries,
    Zeros,
    Limits,
    LargeExposures,
    Anything,
}

const CHARACTERS: [Character; 8] = [
    Character::Steady,
    Character::LongTail,
    Character::Negative,
    Character::Recoveries,
    Character::Zeros,
    Character::Limits,
    Character::LargeExposures,
    Character::Anything,
];

/// A number from least to most, mostly at one of the two or next to it.
fn at_limit(r: &mut Random, least: i64, most: i64) -> i64 {
    match r.below(6) {
        0 | 1 => least,
        2 => least + 1,
        3 => most - 1,
        4 => most,
        _ => r.between(least, most),
    }
}

/// k + 1 shares of a million: the same for all, all in one, or by chance.
fn reporting(r: &mut Random, k: usize) -> Vec<u64> {
    let mut left = M;
    let mut shares: Vec<u64> = (0..=k)
        .map(|j| {
            let share = match r.below(4) {
                _ if j == k => left,
                0 => 0,
                1 => left / (k + 1 - j) as i64,
                2 => left,
                _ => r.between(0, left),
            };
            left -= share;
            share as u64
        })
        .collect();
    if r.one_in(2) {
        shares.reverse();
    }
    shares
}

/// What is still to be paid for year 0: nothing, a few units, about what one of the late payments is, or anything.
fn still_to_pay(r: &mut Random, limits: bool, size: i64) -> i64 {
    match r.below(6) {
        0 | 1 => 0,
        2 => r.between(1, 300),
        3 => r.spread(AMOUNT_MAX as u64) as i64,
        4 if limits => at_limit(r, 0, AMOUNT_MAX),
        _ => size / r.between(1, 100),
    }
}

/// An account by chance: what it looks like, about how much development year 0 pays, and about how many claims an origin year has.
pub struct Account {
    character: Character,
    size: i64,
    claims: i64,
}

impl Account {
    pub fn new(r: &mut Random) -> Account {
        Account {
            character: r.pick(&CHARACTERS),
            size: r.spread(AMOUNT_MAX as u64 / 2) as i64,
            claims: r.spread(EXPOSURE_MAX as u64 / 2) as i64,
        }
    }

    /// What origin year i is paid in development year j, the last of which is k, in its range.
    pub fn increment(&self, r: &mut Random, k: usize, i: usize, j: usize) -> i64 {
        let size = self.size;
        let usual = size * r.between(70, 130) / 100 / (1 + j * j) as i64;
        let late = 2 * j > k;
        let paid = match self.character {
            Character::Steady => usual + r.between(0, 9),
            // The last development year pays next to nothing.
            Character::LongTail if j == k => r.between(0, 2),
            Character::LongTail => size * r.between(90, 110) / 100 / (1 + j as i64),
            Character::Negative if j > 0 && r.one_in(4) => -usual / 2,
            Character::Recoveries if late => -r.between(0, size / (8 * (k as i64 + 1)) + 1),
            Character::Zeros if r.one_in(2) => 0,
            Character::Limits => {
                r.pick(&[0, 1, -1, 2, AMOUNT_MAX, AMOUNT_MAX - 1, -AMOUNT_MAX, size])
            }
            Character::LargeExposures => {
                r.between(AMOUNT_MAX / 100, AMOUNT_MAX) / (1 + (i + j) as i64)
            }
            Character::Anything => r.between(-AMOUNT_MAX, AMOUNT_MAX) >> r.below(34),
            _ => usual,
        };
        paid.clamp(-AMOUNT_MAX, AMOUNT_MAX)
    }

    /// The claims of an origin year, in their range.
    pub fn exposure(&self, r: &mut Random) -> u64 {
        let claims = match self.character {
            Character::Limits => at_limit(r, 1, EXPOSURE_MAX),
            Character::LargeExposures => r.between(EXPOSURE_MAX - 100_000, EXPOSURE_MAX),
            Character::Anything => r.between(1, EXPOSURE_MAX),
            _ => self.claims + r.between(0, self.claims),
        };
        claims as u64
    }
}

/// Fields in range; whether a run accepts them is another matter.
pub fn fields(r: &mut Random, k: usize) -> Given {
    let account = Account::new(r);
    let mut increments = Vec::with_capacity(paper::cells(k));
    for i in 0..=k {
        for j in 0..=k - i {
            increments.push(account.increment(r, k, i, j));
        }
    }
    let paid: i64 = increments.iter().sum();
    let limits = matches!(account.character, Character::Limits);
    let many = |r: &mut Random, count: usize, one: &dyn Fn(&mut Random) -> i64| {
        (0..count).map(|_| one(r) as u64).collect::<Vec<u64>>()
    };
    let exposures = (0..=k).map(|_| account.exposure(r)).collect();
    let mut indices = many(r, k + 1, &|r| {
        if limits {
            at_limit(r, 1, INDEX_MAX)
        } else {
            r.between(M - 200_000, M + 900_000)
        }
    });
    if r.one_in(12) {
        // Every later year is paid many times what year 0 is.
        indices[0] = r.spread(100_000);
    }
    let cost = (paid / (k as i64 + 1)).clamp(0, AMOUNT_MAX);
    let ulae = many(r, k + 1, &|r| {
        if limits {
            at_limit(r, 0, AMOUNT_MAX)
        } else {
            r.between(0, cost / 4)
        }
    });
    Given {
        k: k as u64,
        exposures,
        increments,
        indices,
        reporting: reporting(r, k),
        weight: at_limit(r, 0, M) as u64,
        ulae,
        tail: still_to_pay(r, limits, account.size) as u64,
    }
}

fn answer(valuation_year: u64, given: &Given) -> u64 {
    paper::run(valuation_year, &pack(given), &mut [0; paper::LONGEST])
        .err()
        .unwrap_or(0)
}

/// The result list of fields that are accepted with the plain ratio.
fn plain_list(given: &Given) -> Option<[i64; paper::LONGEST]> {
    let mut list = [0; paper::LONGEST];
    let outcome = paper::run(LAST_PLAIN, &pack(given), &mut list);
    outcome.is_ok().then_some(list)
}

/// Where the provisions stand in a result list.
fn provisions(k: usize) -> usize {
    2 * paper::cells(k) + 2 * k + 1
}

/// Fields on the way from one set to another; the reporting shares stay, for they must sum to a million.
fn between(from: &Given, to: &Given, part: u32) -> Given {
    let step =
        |a: i64, b: i64| a + (((i128::from(b) - i128::from(a)) * i128::from(part)) >> 31) as i64;
    let steps = |a: &[u64], b: &[u64]| {
        let pairs = a.iter().zip(b);
        pairs
            .map(|(&a, &b)| step(a as i64, b as i64) as u64)
            .collect()
    };
    let pairs = from.increments.iter().zip(&to.increments);
    Given {
        k: from.k,
        exposures: steps(&from.exposures, &to.exposures),
        increments: pairs.map(|(&a, &b)| step(a, b)).collect(),
        indices: steps(&from.indices, &to.indices),
        reporting: from.reporting.clone(),
        weight: step(from.weight as i64, to.weight as i64) as u64,
        ulae: steps(&from.ulae, &to.ulae),
        tail: step(from.tail as i64, to.tail as i64) as u64,
    }
}

/// Two sets of fields next to each other on the way between two with different answers: one of them on each side of an edge.
fn edge_between(valuation_year: u64, from: &Given, to: &Given) -> [Given; 2] {
    let (mut low, mut high) = (0u32, 1 << 31);
    let first = answer(valuation_year, from);
    while high - low > 1 {
        let middle = low + (high - low) / 2;
        if answer(valuation_year, &between(from, to, middle)) == first {
            low = middle;
        } else {
            high = middle;
        }
    }
    [between(from, to, low), between(from, to, high)]
}

/// An account whose averages are its increments: 100 claims a year, so that a total can be set to the unit.
fn plain(r: &mut Random, k: usize) -> Given {
    let mut a = account(k);
    a.exposures.fill(100);
    let shrink = r.between(3, 2_000);
    for paid in &mut a.increments {
        *paid = *paid / shrink + r.between(0, 40);
    }
    let cost = a.increments.iter().sum::<i64>() / (8 * (k as i64 + 1));
    a.ulae.fill_with(|| r.between(0, cost) as u64);
    a.reporting = reporting(r, k);
    a.weight = r.between(0, M) as u64;
    let most = 1_000_000 / shrink;
    a.tail = still_to_pay(r, false, most).min(most) as u64;
    a
}

/// An account whose averages are halves or next to them: of these exposures an odd number of units is an odd number of half hundredths a claim.
fn halves(r: &mut Random, k: usize) -> Given {
    let mut a = plain(r, k);
    for i in 0..=k {
        let (claims, unit) = if r.one_in(3) {
            // 25 × 8 and 5 × 40 are 200: an odd number of units again.
            let unit = r.pick(&[1, 3, 7, 24_999]);
            (r.pick(&[8, 40]) * unit, unit)
        } else {
            let any = r.between(1, EXPOSURE_MAX / 200);
            let unit = r.pick(&[1, 2, 5, EXPOSURE_MAX / 200, any]);
            (200 * unit, unit)
        };
        a.exposures[i] = claims as u64;
        if i == 0 {
            let odd = 2 * r.between(0, 50_000) + 1;
            let amount = unit * odd + r.pick(&[-1, 0, 0, 0, 1]);
            a.tail = amount.clamp(0, AMOUNT_MAX) as u64;
        }
        for j in 0..=k - i {
            let paid = &mut a.increments[cell(k, i, j)];
            let odd = 2 * (*paid * claims / 200 / unit) + 1;
            let size = unit * odd + r.pick(&[-1, 0, 0, 0, 1]);
            // A few small ones below zero, so that most of these accounts are accepted.
            let late = 3 * j > k && i + 2 < k;
            *paid = if late && r.one_in(4) {
                -(size.min(unit * 9 + 1))
            } else {
                size.min(AMOUNT_MAX)
            };
        }
    }
    a
}

/// A cumulative set to 0 or to 10^11, and past it.
fn cumulative_edge(r: &mut Random, a: &mut Given, k: usize, past: i64) {
    let i = r.below(k + 1);
    let count = k + 1 - i;
    let last = r.below(count);
    let row = &mut a.increments[cell(k, i, 0)..][..count];
    if count >= 11 && r.one_in(2) {
        // Ten of the largest increments make the largest cumulative.
        a.exposures[i] = EXPOSURE_MAX as u64;
        row[..10].fill(AMOUNT_MAX);
        row[10..].fill(0);
        row[9] += past.min(0);
        row[10] = past.max(0);
    } else {
        row[last] = -row[..last].iter().sum::<i64>() - past;
    }
}

/// The total of the averages set to S, or a column or a diagonal set to 0, and past it.
fn totals_edge(r: &mut Random, a: &mut Given, k: usize, past: i64) {
    let line = r.below(k + 1);
    let by_column = r.one_in(2);
    if r.one_in(2) {
        let total: i64 = a.increments.iter().sum();
        // In development year 0 so large a payment leaves the chain ladder's factors small; elsewhere question 13 mostly says no first.
        let place = if r.one_in(4) {
            r.below(a.increments.len())
        } else {
            cell(k, r.below(k + 1), 0)
        };
        a.increments[place] += S + past - total;
        return;
    }
    let on_line: Vec<(usize, usize)> = if by_column {
        (0..=k - line).map(|i| (i, line)).collect()
    } else {
        (0..=line).map(|i| (i, line - i)).collect()
    };
    let total: i64 = on_line
        .iter()
        .map(|&(i, j)| a.increments[cell(k, i, j)])
        .sum();
    // The last cell of the line past column 0 takes the change, and the row's first cell carries it, so that question 6 says yes.
    if let Some(&(i, j)) = on_line.iter().rfind(|&&(_, j)| j > 0) {
        a.increments[cell(k, i, j)] -= total + past;
        if !on_line.contains(&(i, 0)) {
            a.increments[cell(k, i, 0)] += (total + past).max(0);
        }
    }
}

/// A development year that the chain ladder develops from: mostly the first or the last.
fn development_year(r: &mut Random, k: usize) -> usize {
    let any = r.below(k);
    r.pick(&[0, k - 1, any])
}

/// B of development year h: what the years that develop from it have been paid up to it.
fn base(a: &Given, k: usize, h: usize) -> i64 {
    (0..k - h)
        .map(|i| {
            a.increments[cell(k, i, 0)..=cell(k, i, h)]
                .iter()
                .sum::<i64>()
        })
        .sum()
}

/// B of a development year set to 1 or to 0, or its factor to 50 × M or a millionth past it.
fn development_edge(r: &mut Random, a: &mut Given, k: usize, past: i64) {
    let h = development_year(r, k);
    if r.one_in(3) {
        // One of the years that develop from h takes the change in h + 1; it has so many claims that its averages stay small.
        let i = r.below(k - h);
        a.exposures[i] = EXPOSURE_MAX as u64;
        let base = base(a, k, h);
        let above: i64 = base
            + (0..k - h)
                .map(|i| a.increments[cell(k, i, h + 1)])
                .sum::<i64>();
        a.increments[cell(k, i, h + 1)] += factor_limit(r, base, past) - above;
        return;
    }
    // Of the years that develop from h only year 0 is paid, up to h and in h + 1.
    for i in 0..k - h {
        a.increments[cell(k, i, 0)..=cell(k, i, k - i)].fill(0);
    }
    let any = r.spread(30_000_000) as i64;
    let base = match r.below(5) {
        0 | 1 => 1 - past.max(0),
        2 => r.between(1, 60),
        _ => r.pick(&[M - 1, M, M + 1, any]),
    };
    if base >= 10_000 {
        a.exposures[0] = EXPOSURE_MAX as u64;
    }
    a.increments[r.below(h + 1)] = base;
    let above = if r.one_in(4) {
        base + r.between(0, 40)
    } else {
        factor_limit(r, base, past)
    };
    a.increments[h + 1] = above - base;
    let ratio = r.pick(&[0, M / 10]);
    set_ratio(r, a, ratio);
}

/// The largest A whose factor over this B is 50 × M, or 50 × B, or the least past it.
fn factor_limit(r: &mut Random, base: i64, past: i64) -> i64 {
    let least = (base + M - 1) / M;
    match past {
        1 => 50 * base + least,
        0 => 50 * base + r.pick(&[0, (least - 1).max(0)]),
        _ => 50 * base - 1,
    }
}

/// Nothing is paid of the years that develop from some development year up to it: its B is 0.
fn leave_unpaid(r: &mut Random, a: &mut Given, k: usize) {
    let h = development_year(r, k);
    for i in 0..k - h {
        a.increments[cell(k, i, 0)..=cell(k, i, h)].fill(0);
    }
}

/// A year is paid fifty times B more in the next development year: the factor is above 50.
fn jump(r: &mut Random, a: &mut Given, k: usize) {
    let h = development_year(r, k);
    let i = r.below(k - h);
    let late = 50 * base(a, k, h).max(1);
    a.increments[cell(k, i, h + 1)] += late;
    if i + h + 1 == k && r.one_in(2) {
        // What is paid in the latest year stays, where another year takes it back.
        let other = r.below(k + 1);
        a.increments[cell(k, other, k - other)] -= late;
    }
}

/// Fifty times as much is paid of year 0 each year, or a little less, and of the years between nothing: the last year, of which little is paid, is completed
/// past 10^11, and its average is so small that questions 8 to 10 say no, or so many are paid of few claims that 7 does.
fn over_developed(r: &mut Random, k: usize) -> Given {
    let k = k.max(6);
    let mut a = plain(r, k);
    a.increments.fill(0);
    let mut paid = 1;
    a.increments[0] = 1;
    for j in 1..=k {
        let increment = (r.between(45, 49) * paid).min(AMOUNT_MAX);
        if paid + increment > 2 * AMOUNT_MAX {
            break;
        }
        a.increments[j] = increment;
        paid += increment;
    }
    a.exposures[0] = r.pick(&[1, 1_000, M, M, M]) as u64;
    a.exposures[k] = r.pick(&[100, 100, M]) as u64;
    a.increments[cell(k, k, 0)] = 10 + r.spread(20_000) as i64;
    if r.one_in(4) {
        a.ulae.fill(AMOUNT_MAX as u64);
    }
    a
}

/// The last factor is large, and so is what is paid of year 1; what is paid in the latest year stays.
fn develop_late(a: &mut Given, k: usize) {
    let late = 30 * base(a, k, k - 1);
    a.increments[k] += late;
    a.exposures[1] = EXPOSURE_MAX as u64;
    a.increments[cell(k, 1, 0)] = AMOUNT_MAX;
    a.increments[cell(k, 1, k - 1)] -= late;
}

/// The last year's first cumulative set so that the first factor, tenfold or a little more, carries it to 10^11 or near it.
fn completed_edge(r: &mut Random, a: &mut Given, k: usize, past: i64) {
    let more = if r.one_in(3) { 0 } else { 1 };
    let (mut base, mut next) = (0, 0);
    for i in 0..k {
        let first = r.between(1, 4_000);
        let second = 9 * first + more * r.between(0, first);
        base += first;
        next += first + second;
        let row = &mut a.increments[cell(k, i, 0)..][..k + 1 - i];
        row.fill(0);
        row[0] = first;
        row[1] = second;
    }
    let factor = i128::from(M * next / base);
    let target = i128::from(CUMULATIVE_MAX + past) * i128::from(M);
    a.exposures[k] = EXPOSURE_MAX as u64;
    a.increments[cell(k, k, 0)] = ((target + factor - 1) / factor) as i64;
}

/// The average of what is still to be paid for year 0 set to S, or next to it, in steps of a unit of the amount.
fn first_tail_edge(r: &mut Random, a: &mut Given, past: i64) {
    // 1,000 claims have an average of S only of the largest amount, more have none.
    let any = r.between(20, 1_000);
    let claims = r.pick(&[100, 200, 999, 1_000, any]);
    a.exposures[0] = claims as u64;
    let amount = S * claims / 100 + r.pick(&[0, claims / 200]) + past;
    a.tail = amount.min(AMOUNT_MAX) as u64;
}

/// The average that the indices carry to some year set to 5S, or next to it; those of all other years are within it.
fn carried_tail_edge(r: &mut Random, a: &mut Given, k: usize, past: i64) {
    let i = 1 + r.below(k);
    let first = r.spread(INDEX_MAX as u64 / 5 - 1) as i64;
    for index in &mut a.indices[1..] {
        *index = r.between(1, 5 * first) as u64;
    }
    a.indices[0] = first as u64;
    if r.one_in(3) {
        // From S just 5S, or a little more or less.
        a.indices[i] = (5 * first + past).max(1) as u64;
        a.tail = S as u64;
    } else {
        let index = r.between(5 * first + 1, INDEX_MAX);
        a.indices[i] = index as u64;
        // The least amount that is refused; all n 100, so that it is its own average.
        let least =
            (i128::from(5 * S + 1) * i128::from(first) + i128::from(index) - 1) / i128::from(index);
        a.tail = (least as i64 + past - 1).max(0) as u64;
    }
}

/// The ultimate of some year at 10^12 or near it, by what is paid of it after the last year.
fn tail_ultimate_edge(r: &mut Random, k: usize, past: i64) -> Given {
    let mut a = plain(r, k);
    let i = 1 + r.below(k);
    a.exposures[0] = 5_000;
    a.exposures[i] = EXPOSURE_MAX as u64;
    a.indices.fill(M as u64);
    // Whole hundredths a claim, so that a little more or less paid leaves the averages as they are.
    for paid in &mut a.increments[cell(k, i, 0)..][..k + 1 - i] {
        *paid = 10_000 * (*paid).min(400_000);
    }
    let mut low = a.clone();
    low.tail = 0;
    let mut high = a;
    high.tail = AMOUNT_MAX as u64;
    let [mut within, outside] = edge_between(LAST_PLAIN, &low, &high);
    if answer(LAST_PLAIN, &within) != 0 || answer(LAST_PLAIN, &outside) != 11 {
        return outside;
    }
    let row = &mut within.increments[cell(k, i, 0)..][..k + 1 - i];
    let paid: i64 = row.iter().sum();
    if let Some(list) = plain_list(&within) {
        let gap = ULTIMATE_MAX - paid - list[provisions(k) + i];
        if gap < 5_000 {
            within.increments[cell(k, i, k - i)] += gap + past;
            return within;
        }
    }
    if past > 0 {
        outside
    } else {
        within
    }
}

/// What is paid in the latest year.
fn latest_paid(a: &Given, k: usize) -> i64 {
    (0..=k).map(|i| a.increments[cell(k, i, k - i)]).sum()
}

/// The divisor of the ratio under growth, of fields that are accepted with the plain one.
fn divisor(a: &Given, k: usize) -> Option<i64> {
    let list = plain_list(a)?;
    let paid = i128::from(latest_paid(a, k));
    if paid < 1 {
        return None;
    }
    let mut reported = 0;
    for i in 0..=k {
        let row = &a.increments[cell(k, i, 0)..][..k + 1 - i];
        let ultimate = row.iter().sum::<i64>() + list[provisions(k) + i];
        reported += i128::from(ultimate) * i128::from(a.reporting[k - i]);
    }
    let weight = a.weight as i64;
    let part = i128::from(weight) * (reported / i128::from(M)) / paid;
    Some(M - weight + i64::try_from(part).ok()?)
}

/// All is reported in the last development year, so that what is reported in the latest year is the ultimate of year 0.
fn report_late(a: &mut Given, k: usize) {
    a.reporting.fill(0);
    a.reporting[k] = M as u64;
}

/// ULAE totals that make the plain ratio this one, or near it where little is paid.
fn set_ratio(r: &mut Random, a: &mut Given, ratio: i64) {
    let paid = i128::from(a.increments.iter().sum::<i64>());
    let total = (i128::from(ratio) * paid + i128::from(M - 1)) / i128::from(M);
    let year = r.below(a.ulae.len());
    a.ulae.fill(0);
    a.ulae[year] = total.clamp(0, i128::from(AMOUNT_MAX)) as u64;
}

/// Of year 0 no more than 1 is paid, and taken back in the last year: its ultimate is 0 and its averages are, but no base of the chain ladder is.
fn take_back(a: &mut Given, k: usize) {
    a.exposures[0] = 1_000;
    a.increments[..=k].fill(0);
    a.increments[0] = 1;
    a.increments[k] = -1;
}

/// What is paid in the latest year set to 1, to 0 or far below: one year takes it back, which has so many claims that its average is small.
fn latest_paid_edge(r: &mut Random, a: &mut Given, k: usize, past: i64) {
    let far = -(r.spread(1_000_000) as i64);
    let target = r.pick(&[1 - past, 1 - past, 1 - past, far]);
    // Of two years only year 0 has a payment before the latest; what the other one pays is then below half a hundredth of it a claim.
    let i = if k == 1 { 0 } else { 1 + r.below(k - 1) };
    if k == 1 {
        a.increments[cell(k, 1, 0)] = r.between(1, 400);
    }
    a.exposures[i] = 100_000;
    for paid in &mut a.increments[cell(k, i, 0)..=cell(k, i, k - i)] {
        *paid *= 1_000;
    }
    if k > 1 && r.one_in(8) {
        // Nothing is reported in the latest year either: the divisor would be 0.
        report_late(a, k);
        a.weight = M as u64;
        a.tail = 0;
        take_back(a, k);
    }
    a.increments[cell(k, i, k - i)] += target - latest_paid(a, k);
    let ratio = r.pick(&[0, M / 10, M]);
    set_ratio(r, a, ratio);
}

/// The divisor set to a millionth or to 0: the weight is 1, and a million times what is reported in the latest year is paid in it, or a little more.
fn divisor_edge(r: &mut Random, a: &mut Given, k: usize, past: i64) {
    report_late(a, k);
    a.weight = r.pick(&[M, M, M, M, M - 1]) as u64;
    a.tail = 0;
    a.increments[..=k].fill(0);
    a.exposures[k] = EXPOSURE_MAX as u64;
    if r.one_in(8) {
        take_back(a, k);
    } else {
        let last = cell(k, k, 0);
        let others = latest_paid(a, k) - a.increments[last];
        let reported = others / M + r.pick(&[1, 1, 2, 3_000, 9_000]);
        a.increments[0] = reported;
        a.increments[last] = reported * M + past - others;
    }
    // A plain ratio of a millionth becomes 1, and one of two millionths becomes 2.
    let ratio = r.pick(&[0, 0, 1, 2, M]);
    set_ratio(r, a, ratio);
}

/// The plain ratio set to the divisor, so that the corrected one is 1, or one more or less.
fn corrected_edge(r: &mut Random, a: &mut Given, k: usize, past: i64) {
    a.weight = r.pick(&[M, M, M / 2, 1, M - 1]) as u64;
    if !r.one_in(4) {
        report_late(a, k);
    }
    if let Some(divisor) = divisor(a, k) {
        set_ratio(r, a, divisor.saturating_add(past).clamp(0, M));
    }
}

/// Ultimates near 10^12 in all years but the first, by what is paid after the last year, and next to nothing paid in the latest year.
fn deep(r: &mut Random, k: usize) -> Given {
    let k = k.max(2);
    let mut a = account(k);
    a.exposures.fill(20_000);
    a.exposures[0] = 1;
    a.indices.fill(INDEX_MAX as u64);
    a.indices[0] = M as u64;
    a.tail = 10_000_000 - r.pick(&[0, 1, 1, 1, 2, 1_000]);
    a.increments.fill(0);
    a.increments[1] = 1;
    for i in 1..k {
        a.increments[cell(k, i, 0)] = 100_000 + r.pick(&[-1, 0, 0, 0, 1]);
    }
    a.increments[cell(k, 1, 0)] += 100;
    a.increments[cell(k, 1, k - 1)] = -100;
    a.increments[cell(k, k, 0)] = 101 + r.pick(&[-1, 0, 0, 0, 1, 7]);
    a.reporting = reporting(r, k);
    a.weight = at_limit(r, 0, M) as u64;
    let ratio = at_limit(r, 0, M);
    set_ratio(r, &mut a, ratio);
    a
}

/// An account at an edge of a question from 6 on, changed so that another may say no too: mostly 13, by the base of some development year or by its factor,
/// else 14, 12 or one about payments after the last year.
fn crossed(r: &mut Random, k: usize) -> Given {
    let question = r.pick(&QUESTIONS[2..]);
    let mut a = set_to_edge(r, k, question);
    match r.below(14) {
        0 => a.ulae.fill(AMOUNT_MAX as u64),
        1 => a.tail = AMOUNT_MAX as u64,
        2 => {
            a.indices.fill(1_000);
            a.indices[1 + r.below(k)] = INDEX_MAX as u64;
            a.tail = S as u64 * a.exposures[0] / 100;
        }
        // A million claims at 10^8 hundredths.
        3 => a.tail = S as u64 * a.exposures[0] / 1_000,
        4..=6 => leave_unpaid(r, &mut a, k),
        7..=9 => jump(r, &mut a, k),
        10..=12 if k > 1 => develop_late(&mut a, k),
        _ => {
            (0..k).for_each(|i| a.increments[cell(k, i, 1)] += 20 * a.increments[cell(k, i, 0)]);
            a.exposures[k] = EXPOSURE_MAX as u64;
            a.increments[cell(k, k, 0)] = AMOUNT_MAX;
        }
    }
    a.tail = a.tail.min(AMOUNT_MAX as u64);
    for paid in &mut a.increments {
        *paid = (*paid).clamp(-AMOUNT_MAX, AMOUNT_MAX);
    }
    a
}

/// An account set to a limit of this question, from 6 on, or one past it.
fn set_to_edge(r: &mut Random, k: usize, question: u64) -> Given {
    let mut a = plain(r, k);
    // 0 is at the limit, 1 is past it; -1 is well within.
    let past = r.pick(&[-1, 0, 0, 1, 1]);
    match question {
        6 => cumulative_edge(r, &mut a, k, past),
        7 => totals_edge(r, &mut a, k, past),
        8 => {
            // T_h - v_h is the total of the cells left of column h on diagonal h or later.
            let h = 1 + r.below(k);
            for i in 0..=k {
                for j in 0..=k - i {
                    if j < h && i + j >= h {
                        a.increments[cell(k, i, j)] = 0;
                    }
                }
            }
            a.increments[cell(k, h, 0)] = 1 - past.max(0);
        }
        9 => {
            // A_0 is about S × x / (x + late) × x / (x + early). The years between pay so little a claim that their averages are 0; they are the base of the
            // first development factor.
            let (early, late, x);
            if r.one_in(2) {
                // No level is too large where x is 1: A_0 is 1, or it is 0.
                early = r.between(5_000, 30_000);
                late = (S / early * r.between(60, 140) / 100).min(49 * early);
                x = 1;
            } else {
                early = r.between(6_000, 6_000 + 230_000 * (k as i64 - 1));
                late = r.between(30, 49) * early;
                let middle = ((early * late / S) as f64).sqrt();
                x = (middle * r.between(50, 150) as f64 / 100.0).max(1.0) as i64;
            }
            a.increments.fill(0);
            a.increments[cell(k, 0, k)] = late;
            a.increments[cell(k, 0, 1)] += early;
            for i in 1..k {
                a.exposures[i] = EXPOSURE_MAX as u64;
                a.increments[cell(k, i, 0)] = r.between(4_800, 5_000);
            }
            a.increments[cell(k, k, 0)] = x;
        }
        10 => {
            // A level is above S just where its diagonal is above its running share; cell 0, 0 is diagonal 0 and no part of A_0.
            if r.one_in(3) {
                // A small share: the first development factor is within its limit up to about 200,000 paid in the next year, and past it from there on.
                let (last, early) = (r.between(1, 9), r.between(10_000, 500_000));
                a.increments.fill(0);
                a.increments[0] = S * last / (last + early) + past;
                a.increments[1] = early;
                a.increments[cell(k, k, 0)] = last;
            } else if let Some(list) = plain_list(&a) {
                let first_share = list[paper::cells(k)];
                a.increments[0] = first_share + past;
            }
        }
        15 => latest_paid_edge(r, &mut a, k, past),
        16 => divisor_edge(r, &mut a, k, past),
        17 => corrected_edge(r, &mut a, k, past),
        18 => first_tail_edge(r, &mut a, past),
        19 => carried_tail_edge(r, &mut a, k, past),
        11 if r.one_in(2) => return tail_ultimate_edge(r, k, past),
        11 => return ultimate_edge(r, k, past),
        12 => {
            let paid: i64 = a.increments.iter().sum();
            if r.one_in(6) {
                a.increments.fill(0);
                a.increments[0] = r.between(0, 1);
                a.ulae.fill(0);
            } else {
                let rest: u64 = a.ulae[1..].iter().sum();
                a.ulae[0] = (paid + past - rest as i64).clamp(0, AMOUNT_MAX) as u64;
            }
        }
        13 => development_edge(r, &mut a, k, past),
        _ => completed_edge(r, &mut a, k, past),
    }
    for paid in &mut a.increments {
        *paid = (*paid).clamp(-AMOUNT_MAX, AMOUNT_MAX);
    }
    a
}

/// An account of any character, of halves, or at an edge of the questions that a separation asks.
pub fn triangle(r: &mut Random, k: usize) -> Given {
    match r.below(8) {
        0..=2 => fields(r, k),
        3 => halves(r, k),
        _ => {
            let question = r.pick(&[7, 8, 9, 10]);
            set_to_edge(r, k, question)
        }
    }
}

/// The last year's ultimate at 10^12 or near it: a million claims, and the future indices raised until it is passed.
fn ultimate_edge(r: &mut Random, k: usize, past: i64) -> Given {
    let mut a = account(k);
    let claims = r.between(40, 70) as u64 * (k as u64 + 2) / 17 + 2;
    a.exposures.fill(claims);
    a.exposures[k] = EXPOSURE_MAX as u64;
    a.tail = r.pick(&[0, 0, 7]);
    let last = cell(k, k, 0);
    // A whole number of hundredths a claim, so that a little more or less paid leaves the average as it is.
    a.increments[last] = 10_000 * r.between(400, 9_000);
    let mut low = a.clone();
    low.indices.fill(1);
    let mut high = a;
    high.indices.fill(INDEX_MAX as u64);
    let [mut within, outside] = edge_between(LAST_PLAIN, &low, &high);
    if answer(LAST_PLAIN, &within) != 0 || answer(LAST_PLAIN, &outside) != 11 {
        return outside;
    }
    if let Some(list) = plain_list(&within) {
        let gap = ULTIMATE_MAX - within.increments[last] - list[provisions(k) + k];
        if gap < 5_000 {
            within.increments[last] += gap + past;
            return within;
        }
    }
    if past > 0 {
        outside
    } else {
        within
    }
}

/// The questions from 4 on, in their order.
const QUESTIONS: [u64; 16] = [4, 5, 6, 13, 7, 8, 9, 10, 18, 19, 11, 12, 15, 16, 17, 14];

/// A record at an edge of this question, from 4 on.
pub fn edge(r: &mut Random, k: usize, question: u64) -> Vec<u8> {
    match question {
        4 => {
            let mut record = pack(&plain(r, k));
            let (at, width, count) = r.pick(&rows(k)[1..]);
            let limits: &[u64] = match width {
                20 => &[0, 1, 1_000_000, 1_000_001, 1_048_575],
                23 => &[0, 1, 5_000_000, 5_000_001, 8_388_607],
                34 => &[0, 10_000_000_000, 10_000_000_001, 17_179_869_183],
                // With the sign bit: zero, the largest size and one more, of both signs.
                _ => &[
                    0,
                    10_000_000_000,
                    10_000_000_001,
                    1 << 34,
                    (1 << 34) + 10_000_000_000,
                    (1 << 34) + 10_000_000_001,
                ],
            };
            let place = at + width * r.below(count);
            set_bits(&mut record, place, width, r.pick(limits));
            record
        }
        5 => {
            let given = plain(r, k);
            let mut record = pack(&given);
            let (at, width, count) = rows(k)[4];
            let j = r.below(count);
            let share = given.reporting[j] as i64 + r.pick(&[-1, 1, -20, 1_000]);
            set_bits(&mut record, at + width * j, width, share.clamp(0, M) as u64);
            record
        }
        _ => pack(&set_to_edge(r, k, question)),
    }
}

/// A record that something has happened to.
pub fn damaged(r: &mut Random, k: usize) -> Vec<u8> {
    let mut record = pack(&fields(r, k));
    match r.below(8) {
        0 => {
            for _ in 0..=r.below(8) {
                let bit = r.below(8 * record.len());
                record[bit / 8] ^= 0x80 >> (bit % 8);
            }
        }
        1 => record.truncate(r.below(record.len())),
        2 => {
            let more = 1 + r.below(20);
            record.extend((0..more).map(|_| r.pick(&[0, 0, 0xff, 0x10])));
        }
        3 => {
            let filling = 8 * record.len() - paper::bits(k);
            let bits = r.below(1 << filling) as u8;
            if let Some(last) = record.last_mut() {
                *last |= bits;
            }
        }
        4 => record.fill_with(|| r.number() as u8),
        5 => {
            // The right k and length, everything else by chance.
            let filling = 8 * record.len() - paper::bits(k);
            record.fill_with(|| r.number() as u8);
            set_bits(&mut record, 0, 4, k as u64);
            let end = 8 * record.len() - filling;
            set_bits(&mut record, end, filling, 0);
        }
        6 => set_bits(&mut record, 0, 4, r.pick(&[0, 0, 1, 15, 16 - k as u64])),
        _ => record.clear(),
    }
    record
}

/// The record, or the bytes in the place of one, of a case.
pub fn record(r: &mut Random) -> Vec<u8> {
    let k = 1 + r.below(15);
    match r.below(20) {
        0..=5 => pack(&fields(r, k)),
        6 => pack(&plain(r, k)),
        7 | 8 => damaged(r, k),
        10 => pack(&halves(r, k)),
        9 if r.one_in(4) => {
            let from = fields(r, k);
            let to = if r.one_in(2) {
                fields(r, k)
            } else {
                plain(r, k)
            };
            let side = r.below(2);
            let year = r.pick(&[LAST_PLAIN, FIRST_CORRECTED]);
            pack(&edge_between(year, &from, &to)[side])
        }
        11 if r.one_in(4) => pack(&deep(r, k)),
        11 if r.one_in(4) => pack(&over_developed(r, k)),
        11..=13 => pack(&crossed(r, k)),
        14 if r.one_in(3) => edge(r, k, 13),
        _ => {
            let question = r.pick(&QUESTIONS);
            edge(r, k, question)
        }
    }
}

/// How long the buffer of a call is that needs `needed` entries: too short, just enough, longer, or empty.
pub fn buffer_length(r: &mut Random, needed: usize) -> usize {
    match r.below(20) {
        0 => r.below(needed.max(1)),
        1 => needed.saturating_sub(1),
        2 => 0,
        3..=9 => needed + r.below(30),
        _ => needed,
    }
}

/// Fields for a writer: in range, or with a k, a length or a field that it must refuse, and the length of the buffer.
pub fn written(r: &mut Random) -> (Given, usize) {
    let k = 1 + r.below(15);
    let mut given = fields(r, k);
    let mut length = paper::bytes(k);
    let list = r.below(4);
    let naturals = match list {
        0 => &mut given.exposures,
        1 => &mut given.indices,
        2 => &mut given.reporting,
        _ => &mut given.ulae,
    };
    match r.below(13) {
        0 => given.k = r.pick(&[0, 16, 17, 255, u64::MAX, 1 + k as u64]),
        1 => length = r.pick(&[0, length - 1, length + 1, 797, 45]),
        2 => {
            if r.one_in(2) {
                naturals.pop();
            } else {
                naturals.push(1);
            }
        }
        3 => {
            if r.one_in(2) {
                given.increments.pop();
            } else {
                given.increments.push(0);
            }
        }
        4 => {
            let place = r.below(naturals.len());
            naturals[place] = r.pick(&[
                0,
                1_000_000,
                1_000_001,
                5_000_000,
                5_000_001,
                10_000_000_000,
                10_000_000_001,
                u64::MAX,
            ]);
        }
        5 => {
            let place = r.below(given.increments.len());
            given.increments[place] = r.pick(&[
                0,
                AMOUNT_MAX,
                -AMOUNT_MAX,
                AMOUNT_MAX + 1,
                -AMOUNT_MAX - 1,
                i64::MIN,
                i64::MAX,
            ]);
        }
        6 => given.weight = r.pick(&[0, 1_000_000, 1_000_001, u64::MAX]),
        7 => {
            let place = r.below(given.reporting.len());
            given.reporting[place] = r.pick(&[0, 1, 500_000, 1_000_000]);
        }
        8 => given.tail = r.pick(&[0, 10_000_000_000, 10_000_000_001, u64::MAX]),
        9 => {
            given.exposures.clear();
            given.increments.clear();
        }
        _ => {}
    }
    (given, length)
}
