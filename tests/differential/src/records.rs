//! Records that need no chance: an account that is accepted, the same account changed so that one question says no, and single fields of a record.

use crate::paper::{self, Given};

/// The place of row i, column j among the increments.
pub fn cell(k: usize, i: usize, j: usize) -> usize {
    paper::cells(k) - paper::cells(k - i) + j
}

/// The record of fields that are known to be in range.
pub fn pack(given: &Given) -> Vec<u8> {
    let mut record = vec![0; paper::bytes(given.k as usize)];
    paper::write(given, &mut record).expect("fields in range");
    record
}

/// Puts the low bits of a value into a record, whether or not they are in range there.
pub fn set_bits(record: &mut [u8], at: usize, width: usize, value: u64) {
    for n in 0..width {
        let mask = 0x80 >> ((at + n) % 8);
        if value >> (width - 1 - n) & 1 == 1 {
            record[(at + n) / 8] |= mask;
        } else {
            record[(at + n) / 8] &= !mask;
        }
    }
}

/// The rows of a record: first bit, width and how many fields, in their order.
pub fn rows(k: usize) -> [(usize, usize, usize); 8] {
    let mut rows = [
        (0, 4, 1),
        (0, 20, k + 1),
        (0, 35, paper::cells(k)),
        (0, 23, k + 1),
        (0, 20, k + 1),
        (0, 20, 1),
        (0, 34, k + 1),
        (0, 34, 1),
    ];
    let mut at = 0;
    for row in &mut rows {
        row.0 = at;
        at += row.1 * row.2;
    }
    rows
}

/// A plain account of k + 1 years that is accepted: payments fall with the development year, rise with the payment year, and go on after the last.
pub fn account(k: usize) -> Given {
    let mut increments = Vec::with_capacity(paper::cells(k));
    for i in 0..=k {
        for j in 0..=k - i {
            increments.push(((9_000_000 + 310_007 * (i + j)) >> (2 * j / 3)) as i64);
        }
    }
    let mut reporting = vec![500_000 / (k as u64 + 1); k + 1];
    reporting[0] += 1_000_000 - reporting.iter().sum::<u64>();
    Given {
        k: k as u64,
        exposures: (0..=k as u64).map(|i| 18_000 + 411 * i).collect(),
        increments,
        indices: (1..=k as u64 + 1).map(|t| 1_000_000 + 31_000 * t).collect(),
        reporting,
        weight: 450_000,
        ulae: (0..=k as u64).map(|t| 210_000 + 9_000 * t).collect(),
        tail: 2_700_000,
    }
}

/// A valuation year in which every question is asked.
pub const ALL_ASKED: u64 = 2027;

/// The account of k + 1 years, changed so that this question is the first that says no, and says it late: the work of all questions before it is done.
/// `None` where the change does not bring that answer about: 3 never, for it is asked of the buffer, and others for some k.
pub fn refused(k: usize, question: u64) -> Option<Vec<u8>> {
    let record = changed(k, question)?;
    let answer = paper::run(ALL_ASKED, &record, &mut [0; paper::LONGEST]);
    (answer == Err(question)).then_some(record)
}

fn changed(k: usize, question: u64) -> Option<Vec<u8>> {
    let mut a = account(k);
    let [.., (shares, width, count), _, _, (tail, size, _)] = rows(k);
    match question {
        // The first four bits say that k is 0.
        1 => {
            let mut record = pack(&a);
            set_bits(&mut record, 0, 4, 0);
            return Some(record);
        }
        2 => {
            let mut record = pack(&a);
            if paper::bits(k) % 8 == 0 {
                // There is no filling bit, so the length has to be wrong.
                record.push(0);
            } else {
                *record.last_mut()? |= 1;
            }
            return Some(record);
        }
        4 => {
            let mut record = pack(&a);
            set_bits(&mut record, tail, size, 10_000_000_001);
            return Some(record);
        }
        5 => {
            let mut record = pack(&a);
            set_bits(
                &mut record,
                shares + width * (count - 1),
                width,
                a.reporting[k] + 1,
            );
            return Some(record);
        }
        6 => a.increments[cell(k, k, 0)] = -1,
        // The factor of the last development year alone is too large.
        13 => a.increments[k] = 50 * a.increments[..k].iter().sum::<i64>(),
        // The total of the averages is asked after the columns and the diagonals.
        7 => a.exposures.fill(1),
        // T_1 - v_1 is the total of column 0 below its first cell.
        8 => (1..=k).for_each(|i| a.increments[cell(k, i, 0)] = 0),
        9 => {
            a.exposures.fill(100);
            (1..=k).for_each(|i| a.increments[cell(k, i, 0)] = 0);
            a.increments[cell(k, k, 0)] = 1;
            // The first cell keeps the first development factor within its limit, and is no part of A_0.
            a.increments[cell(k, 0, 0)] = 20_000_000;
            a.increments[cell(k, 0, 1)] = 400_000_000;
        }
        10 => {
            a.exposures.fill(100);
            (1..=k).for_each(|i| a.increments[cell(k, i, 0)] = 1);
            a.increments[cell(k, 0, 0)] = 500_000_000;
        }
        // The largest amount over few claims.
        18 => {
            a.exposures[0] = 900;
            a.tail = 10_000_000_000;
        }
        // A hundredfold in the last year alone.
        19 => {
            a.indices.fill(50_000);
            a.indices[k] = 5_000_000;
            a.tail = 10_000_000_000;
        }
        // The last year has few increments and many claims, at the averages of the others.
        11 => {
            a.exposures.fill(60);
            a.exposures[k] = 1_000_000;
            a.indices.fill(5_000_000);
        }
        12 => a.ulae[k] = 10_000_000_000,
        // A year in the middle has many claims, at its averages, and in the latest year takes back what all others pay.
        15 => {
            let i = k / 2 + 1;
            let row = cell(k, i, 0)..=cell(k, i, k - i);
            a.exposures[i] *= 40;
            a.increments[row].iter_mut().for_each(|paid| *paid *= 40);
            let all: i64 = (0..=k).map(|i| a.increments[cell(k, i, k - i)]).sum();
            a.increments[cell(k, i, k - i)] -= all;
        }
        // All is reported in the last development year, and of year 0, the only one that is in it, next to nothing is paid.
        16 => {
            a.reporting.fill(0);
            a.reporting[k] = 1_000_000;
            a.weight = 1_000_000;
            a.increments[..=k].fill(0);
            a.increments[0] = 1;
            a.tail = 0;
        }
        // The plain ratio is 1, and less is reported in the latest year than is paid.
        17 => {
            a.reporting.fill(0);
            a.reporting[k] = 1_000_000;
            a.weight = 1_000_000;
            a.ulae.fill(0);
            a.ulae[0] = a.increments.iter().sum::<i64>() as u64;
        }
        14 => {
            (0..k).for_each(|i| a.increments[cell(k, i, 0)] /= 20);
            a.increments[cell(k, k, 0)] = 10_000_000_000;
        }
        _ => return None,
    }
    Some(pack(&a))
}
