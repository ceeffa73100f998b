//! Request 12 of document 02 in plain Rust, written from the paper alone: what trial indices would have forecast of a record's own past.

use crate::paper::{
    average, cells, last_year, separate, Record, CELLS, CUMULATIVE_MAX, INDEX_MAX, M, S, YEARS,
};

/// The most settings of a call.
pub const SETTINGS: usize = 8;
/// The entries of the longest report.
pub const LONGEST: usize = entries(15, SETTINGS);

/// The entries of a report on each setting: of the steps with K = k − 1 down to 1 a mark and K gaps, and the sum.
const fn each(k: usize) -> usize {
    k * (k + 1) / 2
}

/// The entries of a report on so many settings.
pub const fn entries(k: usize, settings: usize) -> usize {
    settings * each(k) + 1
}

/// Question 29, without its k.
pub fn tried(settings: &[u64]) -> bool {
    let range = 1..=INDEX_MAX;
    (1..=SETTINGS).contains(&settings.len()) && settings.iter().all(|e| range.contains(e))
}

/// The averages of a record, row by row: question 6.
fn averages(k: usize, figures: &Record) -> Result<[i64; CELLS], u64> {
    let mut averages = [0; CELLS];
    let mut places = averages.iter_mut().zip(&figures.increments);
    for (i, exposure) in figures.exposures[..=k].iter().enumerate() {
        let mut cumulative = 0;
        for (average, increment) in places.by_ref().take(k + 1 - i) {
            cumulative += increment;
            if !(0..=CUMULATIVE_MAX).contains(&cumulative) {
                return Err(6);
            }
            *average = self::average(*increment, *exposure);
        }
    }
    Ok(averages)
}

/// The report on settings: questions 1, 2, 29, 3, 4, 5 and 6. `Err` leaves the report as it was.
pub fn hindsight(record: &[u8], settings: &[u64], report: &mut [i64]) -> Result<(), u64> {
    let k = last_year(record)?;
    if !tried(settings) || k < 2 {
        return Err(29);
    }
    let report = report.get_mut(..entries(k, settings.len())).ok_or(3u64)?;
    let figures = Record::unpack(k, record)?;
    let averages = averages(k, &figures)?;

    let cell = |i: usize, j: usize| cells(k) - cells(k - i) + j;
    let mut columns = [0; YEARS];
    let mut diagonals = [0; YEARS];
    for i in 0..=k {
        for (j, average) in averages[cell(i, 0)..=cell(i, k - i)].iter().enumerate() {
            columns[j] += average;
            diagonals[i + j] += average;
        }
    }
    let mut sums = [0; SETTINGS];
    let mut at = 0;
    for last in (1..k).rev() {
        // The latest diagonal is dropped; by row it is what is forecast.
        let next = last + 1;
        let mut paid = [0; YEARS];
        for (j, column) in columns[..=next].iter_mut().enumerate() {
            let place = cell(next - j, j);
            *column -= averages[place];
            paid[next - j] = figures.increments[place];
        }
        diagonals[next] = 0;
        let fit = separate(last, &columns, &diagonals);
        let by_setting = report.chunks_exact_mut(each(k));
        for ((index, part), sum) in settings.iter().zip(by_setting).zip(&mut sums) {
            let step = &mut part[at..=at + last];
            step.fill(0);
            match &fit {
                Ok(factors) => {
                    let level = diagonals[last] as u64 * index / M;
                    for (i, gap) in step.iter_mut().enumerate().skip(1) {
                        let unit = factors.shares[next - i] * level / S;
                        *gap = paid[i] - (figures.exposures[i] * unit / 100) as i64;
                        *sum += gap.abs();
                    }
                }
                Err(mark) => step[0] = *mark as i64,
            }
        }
        at += 1 + last;
    }
    let sums = &sums[..settings.len()];
    for (part, sum) in report.chunks_exact_mut(each(k)).zip(sums) {
        part[at] = *sum;
    }
    // Of equal ones the first.
    let best = (0..sums.len()).min_by_key(|&place| sums[place]);
    report[sums.len() * each(k)] = best.unwrap_or(0) as i64;
    Ok(())
}
