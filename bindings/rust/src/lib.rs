//! Safe calls of the proved reserving engine: [`run`] gives the result list of a record for a valuation year, [`read`] its fields, and [`write`] makes the
//! record of given fields; [`history`] gives the shares and levels of every window of a long history, and [`hindsight`] what trial indices would have forecast of a
//! record's own past. Each has a form that fills a buffer of the caller's and one that returns a `Vec`. [`flat`], [`fading`] and [`shock`] make yearly indices of
//! inflation rates.
//!
//! The engine has no global state, allocates nothing and keeps nothing: any number of threads may call at once.
//! The record, the lists and the questions are described in `docs/FORMAT.md`.

use std::fmt;

/// The largest k: years run from 0 to at most 15.
pub const K_MAX: usize = 15;
/// The bytes of the longest record, that of k = 15.
pub const RECORD_MAX: usize = 797;
/// The fields of the longest record.
pub const FIELDS_MAX: usize = 203;
/// The entries of the longest result list.
pub const RESULTS_MAX: usize = 505;
/// The most years that a call of inflation rates may want.
pub const YEARS_MAX: usize = 16;
/// The most origin years of a history, and the most development years of one of them.
pub const HISTORY_YEARS_MAX: usize = 64;
pub const HISTORY_DEVELOPMENT_MAX: usize = 16;
/// The least and the largest width of a window.
pub const WIDTH_MIN: usize = 2;
pub const WIDTH_MAX: usize = 16;
/// The cells of the longest history, and the entries of the longest result of one.
pub const HISTORY_CELLS_MAX: usize = 904;
pub const HISTORY_RESULTS_MAX: usize = 1617;
/// The most settings of a hindsight run, and the entries of the longest report of one.
pub const SETTINGS_MAX: usize = 8;
pub const REPORT_MAX: usize = 961;

/// The cells of a triangle with years 0 to k.
pub const fn cells(k: usize) -> usize {
    (k + 1) * (k + 2) / 2
}

/// The bytes of a record with years 0 to k, for k from 1 to 15.
pub const fn record_bytes(k: usize) -> usize {
    (155 + 97 * k + 35 * cells(k)).div_ceil(8)
}

/// The fields of a record with years 0 to k, for k from 1 to 15.
pub const fn field_count(k: usize) -> usize {
    cells(k) + 4 * k + 7
}

/// The entries of a result list with years 0 to k, for k from 1 to 15.
pub const fn result_count(k: usize) -> usize {
    3 * cells(k) + 6 * k + 7
}

/// The cells of a history of so many years, row by row: origin year i has its first min(16, `years` - i) development years.
pub const fn history_cells(years: usize) -> usize {
    if years <= HISTORY_DEVELOPMENT_MAX {
        years * (years + 1) / 2
    } else {
        cells(K_MAX) + HISTORY_DEVELOPMENT_MAX * (years - HISTORY_DEVELOPMENT_MAX)
    }
}

/// The place of origin year i and development year j, i below `years` and j below min(16, `years` - i), among the cells of a history.
pub const fn history_cell(years: usize, i: usize, j: usize) -> usize {
    history_cells(years) - history_cells(years - i) + j
}

/// The entries of a history's result, for a width of at most `years`: 1 + 2 * `width` of each of its `years` - `width` + 1 positions.
pub const fn history_count(years: usize, width: usize) -> usize {
    (years - width + 1) * (1 + 2 * width)
}

/// The entries that a report has of each setting, for k from 2 to 15: of each step the mark and the gaps, and the sum.
const fn setting_count(k: usize) -> usize {
    k * (k + 1) / 2
}

/// The entries of the report of a hindsight run of so many settings with years 0 to k, for k from 2 to 15; the last is the place of the best setting.
pub const fn report_count(k: usize, settings: usize) -> usize {
    settings * setting_count(k) + 1
}

mod engine {
    extern "C" {
        pub fn doonamurk_run(
            valuation_year: u64,
            record: *const u8,
            record_len: usize,
            results: *mut i64,
            results_len: usize,
        ) -> u64;
        pub fn doonamurk_read(
            record: *const u8,
            record_len: usize,
            list: *mut i64,
            list_len: usize,
        ) -> u64;
        pub fn doonamurk_write(
            k: u64,
            exposures: *const u64,
            n: usize,
            increments: *const i64,
            c: usize,
            indices: *const u64,
            e: usize,
            reporting: *const u64,
            b: usize,
            weight: u64,
            ulae: *const u64,
            u: usize,
            tail: u64,
            record: *mut u8,
            record_len: usize,
        ) -> u64;
        pub fn doonamurk_history(
            years: u64,
            width: u64,
            exposures: *const u64,
            n: usize,
            cells: *const i64,
            c: usize,
            result: *mut i64,
            m: usize,
        ) -> u64;
        pub fn doonamurk_hindsight(
            record: *const u8,
            record_len: usize,
            settings: *const u64,
            n: usize,
            report: *mut i64,
            m: usize,
        ) -> u64;
        pub fn doonamurk_flat(rate: f64, years: u64) -> super::Indices;
        pub fn doonamurk_fading(rate: f64, long_run: f64, years: u64) -> super::Indices;
        pub fn doonamurk_shock(rate: f64, other: f64, year: u64, years: u64) -> super::Indices;
    }
}

/// The call that refused: the questions of a writer are worded otherwise than those of a reader.
#[derive(Clone, Copy, Debug, PartialEq, Eq, Hash)]
pub enum Call {
    Run,
    Read,
    Write,
    History,
    Hindsight,
    /// [`flat`], [`fading`] or [`shock`].
    Inflation,
}

/// A refusal: the first question that said no.
#[derive(Clone, Copy, Debug, PartialEq, Eq, Hash)]
pub struct Refused {
    call: Call,
    number: u64,
}

impl Refused {
    /// The call that refused.
    pub fn call(&self) -> Call {
        self.call
    }

    /// The number of the question: 1 to 21, or 27 to 29.
    pub fn number(&self) -> u64 {
        self.number
    }

    /// The question in words.
    pub fn question(&self) -> &'static str {
        match (self.call, self.number) {
            (_, 20) => {
                "Is every rate a number from -0.5 to 1.0, a shock's year among the years wanted, and their number from 1 to 16?"
            }
            (_, 21) => "Is every index of a year wanted from 1 to 5,000,000?",
            (_, 27) => "Has the history at most 64 years, and is the width from 2 to 16 and no more than the history's years?",
            (_, 28) => "Have the exposures, the cells and the lent result just the lengths that the years and the width call for, and is every exposure from 1 to 1,000,000 and every cell from -10^10 to 10^10?",
            (_, 29) => "Are there 1 to 8 settings, each from 1 to 5,000,000, and is k at least 2?",
            (Call::Write, 1) => "Is k from 1 to 15?",
            (Call::Write, 2) => {
                "Has the buffer just the length that k calls for, and each list its own?"
            }
            (_, 1) => "Is there a first byte, and is k at least 1?",
            (_, 2) => "Is the length just what k calls for, and every filling bit zero?",
            (Call::Read, 3) => "Does the list hold all fields?",
            (Call::Hindsight, 3) => "Does the lent report hold all entries?",
            (_, 3) => "Does the result buffer hold the whole list?",
            (_, 4) => "Is every field in its range?",
            (_, 5) => "Do the reporting shares sum to 1,000,000?",
            (_, 6) => "Is every given cumulative from 0 to 10^11?",
            (_, 13) => {
                "Is every chain-ladder base at least 1, and every development factor at most 50,000,000?"
            }
            (_, 7) => {
                "Is every column and every diagonal of the averages at least 0, and their total at most 10^9?"
            }
            (_, 8) => "Is T_h - v_h at least 1 for every h from 1 to k?",
            (_, 9) => "Is every running share at least 1?",
            (_, 10) => "Is every level at most 10^9?",
            (_, 18) => {
                "Is the average of what is still to be paid for year 0 after year k at most 10^9?"
            }
            (_, 19) => "Is the average of what is still to be paid after year k, carried to each year by the indices, at most 5 * 10^9?",
            (_, 11) => "Is every ultimate at most 10^12?",
            (_, 12) => {
                "Is the total of paid increments at least 1, and the total of the ULAE totals at most that?"
            }
            (_, 15) => "From valuation year 2027 on: is the total paid in the latest payment year at least 1?",
            (_, 16) => "From valuation year 2027 on: is the divisor of the ULAE ratio not 0?",
            (_, 17) => "From valuation year 2027 on: is the corrected ULAE ratio at most 1,000,000?",
            (_, 14) => "Is every completed cumulative at most 10^11?",
            _ => "a number that no question has",
        }
    }
}

impl fmt::Display for Refused {
    fn fmt(&self, f: &mut fmt::Formatter<'_>) -> fmt::Result {
        write!(f, "refused {}: {}", self.number, self.question())
    }
}

impl std::error::Error for Refused {}

fn outcome(call: Call, number: u64) -> Result<(), Refused> {
    if number == 0 {
        Ok(())
    } else {
        Err(Refused { call, number })
    }
}

/// k as the record's first four bits have it; 0 where there is no first byte.
fn k_of(record: &[u8]) -> usize {
    record.first().map_or(0, |byte| usize::from(byte >> 4))
}

/// Runs from a record to its result list for a valuation year.
///
/// From 2027 on the ULAE ratio is corrected for growth; `valuation_year` may be any number, and is no part of the record.
/// `Ok` fills the first [`result_count`] entries of `results`; entries past them keep what they held. `Err` names the first of the questions 1 to 19
/// that says no (15 to 17 are asked only from 2027 on), and leaves all of `results` as it was. `record` may be any bytes of any length; `results` may be
/// longer than the list ([`RESULTS_MAX`] holds every list), and is refused under question 3 where it is shorter. Both stay the caller's, nothing is kept.
/// Safe to call from any number of threads.
pub fn run(valuation_year: u64, record: &[u8], results: &mut [i64]) -> Result<(), Refused> {
    // SAFETY: both are slices, so each pointer is non-null and valid for its length, and a borrowed and a lent slice do not overlap.
    let number = unsafe {
        engine::doonamurk_run(
            valuation_year,
            record.as_ptr(),
            record.len(),
            results.as_mut_ptr(),
            results.len(),
        )
    };
    outcome(Call::Run, number)
}

/// Runs from a record to its result list, in a `Vec` of just its length. As [`run`], except that question 3 never says no.
pub fn run_to_vec(valuation_year: u64, record: &[u8]) -> Result<Vec<i64>, Refused> {
    let mut results = vec![0; result_count(k_of(record))];
    run(valuation_year, record, &mut results)?;
    Ok(results)
}

/// A result list by its sections, in their order; `docs/FORMAT.md` has the same table.
#[derive(Clone, Copy, Debug, PartialEq, Eq)]
pub struct Sections<'a> {
    /// The last year.
    pub k: usize,
    /// Averages in hundredths a claim, by [`cell`].
    pub averages: &'a [i64],
    /// Shares in billionths, development years 0 to k.
    pub shares: &'a [i64],
    /// Levels in hundredths a claim, payment years 0 to k.
    pub levels: &'a [i64],
    /// Future levels in hundredths a claim, payment years k + 1 to 2k.
    pub future_levels: &'a [i64],
    /// Completed payments, by [`future_cell`].
    pub payments: &'a [i64],
    /// Provisions, origin years 0 to k.
    pub provisions: &'a [i64],
    pub total_provision: i64,
    /// What is not yet reported, origin years 0 to k.
    pub not_reported: &'a [i64],
    /// ULAE reserves, origin years 0 to k.
    pub ulae_reserves: &'a [i64],
    pub total_ulae_reserve: i64,
    /// The ULAE ratio in millionths; from valuation year 2027 on the corrected one.
    pub ulae_ratio: i64,
    /// Development factors in millionths, from each of the development years 0 to k - 1 to the next.
    pub development_factors: &'a [i64],
    /// Completed cumulatives of the chain ladder, by [`future_cell`].
    pub completed_cumulatives: &'a [i64],
    /// What is paid after year k, origin years 0 to k; the provisions include it.
    pub tail_payments: &'a [i64],
}

/// The place of origin year i and development year j, i + j at most k, within a section of cells.
pub const fn cell(k: usize, i: usize, j: usize) -> usize {
    i * (2 * k + 3 - i) / 2 + j
}

/// The place of origin year i and development year j, i + j above k, within a section of future cells.
pub const fn future_cell(k: usize, i: usize, j: usize) -> usize {
    i * (i + 1) / 2 + j - k - 1
}

/// The sections of a result list of the years 0 to k: the first [`result_count`] entries of `results`. `None` where k is not from 1 to 15 or `results`
/// is shorter.
pub fn sections(k: usize, results: &[i64]) -> Option<Sections<'_>> {
    if !(1..=K_MAX).contains(&k) || results.len() < result_count(k) {
        return None;
    }
    let mut rest = results;
    let mut next = |count: usize| {
        let (section, after) = rest.split_at(count);
        rest = after;
        section
    };
    let (years, future) = (k + 1, cells(k) - (k + 1));
    // The fields are worked out in this order, which is that of the list.
    Some(Sections {
        k,
        averages: next(cells(k)),
        shares: next(years),
        levels: next(years),
        future_levels: next(k),
        payments: next(future),
        provisions: next(years),
        total_provision: next(1)[0],
        not_reported: next(years),
        ulae_reserves: next(years),
        total_ulae_reserve: next(1)[0],
        ulae_ratio: next(1)[0],
        development_factors: next(k),
        completed_cumulatives: next(future),
        tail_payments: next(years),
    })
}

/// Reads a record into a list of its fields.
///
/// `Ok` fills the first [`field_count`] entries of `list` with the fields in the record's order, k first, increments signed; entries past them keep
/// what they held. `Err` names the first of the questions 1 to 5 that says no, and leaves all of `list` as it was. `record` may be any bytes of any
/// length; `list` may be longer than the fields ([`FIELDS_MAX`] holds those of every record), and is refused under question 3 where it is shorter.
/// Both stay the caller's, nothing is kept. Safe to call from any number of threads.
pub fn read(record: &[u8], list: &mut [i64]) -> Result<(), Refused> {
    // SAFETY: both are slices, so each pointer is non-null and valid for its length, and a borrowed and a lent slice do not overlap.
    let number = unsafe {
        engine::doonamurk_read(record.as_ptr(), record.len(), list.as_mut_ptr(), list.len())
    };
    outcome(Call::Read, number)
}

/// Reads a record into a `Vec` of just its fields. As [`read`], except that question 3 never says no.
pub fn read_to_vec(record: &[u8]) -> Result<Vec<i64>, Refused> {
    let mut list = vec![0; field_count(k_of(record))];
    read(record, &mut list)?;
    Ok(list)
}

/// The fields of a record to be written. The lists are the caller's; [`write`] asks whether their lengths and figures are what k calls for.
#[derive(Clone, Copy, Debug, PartialEq, Eq)]
pub struct Fields<'a> {
    /// The last year, 1 to 15.
    pub k: u64,
    /// The exposures of years 0 to k, each 1 to 1,000,000.
    pub exposures: &'a [u64],
    /// The paid increments, row by row, [`cells`] of them, each -10^10 to 10^10.
    pub increments: &'a [i64],
    /// The k + 1 future indices in millionths, each 1 to 5,000,000.
    pub indices: &'a [u64],
    /// The k + 1 reporting shares in millionths; they sum to 1,000,000.
    pub reporting: &'a [u64],
    /// The reporting weight in millionths, 0 to 1,000,000.
    pub weight: u64,
    /// The ULAE totals of payment years 0 to k, each 0 to 10^10.
    pub ulae: &'a [u64],
    /// The amount still to be paid for year 0 after year k, 0 to 10^10.
    pub tail: u64,
}

/// Writes the record of the given fields.
///
/// `Ok` fills all of `record`, filling bits zero. `Err` names the first of the questions 1, 2, 4 and 5 that says no, and leaves all of `record` as it
/// was. `record` must have just the [`record_bytes`] that k calls for, else it is refused under question 2; so is a list of another length than k
/// calls for. All buffers stay the caller's, nothing is kept. Safe to call from any number of threads.
pub fn write(fields: &Fields, record: &mut [u8]) -> Result<(), Refused> {
    // SAFETY: all are slices, so each pointer is non-null and valid for its length, and a lent slice overlaps no borrowed one.
    let number = unsafe {
        engine::doonamurk_write(
            fields.k,
            fields.exposures.as_ptr(),
            fields.exposures.len(),
            fields.increments.as_ptr(),
            fields.increments.len(),
            fields.indices.as_ptr(),
            fields.indices.len(),
            fields.reporting.as_ptr(),
            fields.reporting.len(),
            fields.weight,
            fields.ulae.as_ptr(),
            fields.ulae.len(),
            fields.tail,
            record.as_mut_ptr(),
            record.len(),
        )
    };
    outcome(Call::Write, number)
}

/// Writes the record of the given fields into a `Vec`. As [`write`], except that the buffer always has its length.
pub fn write_to_vec(fields: &Fields) -> Result<Vec<u8>, Refused> {
    // A k past 15 is refused under question 1 whatever the buffer, so it need not be large.
    let k = usize::try_from(fields.k).map_or(0, |k| k.min(K_MAX));
    let mut record = vec![0; record_bytes(k)];
    write(fields, &mut record)?;
    Ok(record)
}

/// Slides a window of `width` origin years over a history, one origin year at a time up to the latest payment year, and gives the shares and levels of each of
/// its positions.
///
/// Position a is the triangle of the origin years a to a + `width` - 1 and of their cells that are paid by the last of them. It has 1 + 2 * `width` entries: 0,
/// its shares in billionths by development year and its levels in hundredths a claim by payment year; or the number of the first of the questions 7 to 10 that
/// says no of the triangle, and zeros. [`positions`] takes a result apart.
///
/// `exposures` has one for each of the `years` origin years, 1 to 1,000,000, and `cells` the paid increments row by row, as many as [`history_cells`], -10^10 to
/// 10^10: origin year i has its first min(16, `years` - i) development years. `Ok` fills all of `result`, which must have just the [`history_count`] of `years`
/// and `width`. `Err` names question 27 where `years` is above 64 or `width` is outside 2 to 16 or above `years`, then 28 where a list or the result has another
/// length or a number is out of its range, one that no window has too, and leaves all of `result` as it was. All buffers stay the caller's, nothing is kept.
/// Safe to call from any number of threads.
pub fn history(
    years: u64,
    width: u64,
    exposures: &[u64],
    cells: &[i64],
    result: &mut [i64],
) -> Result<(), Refused> {
    // SAFETY: all are slices, so each pointer is non-null and valid for its length, and a lent slice overlaps no borrowed one.
    let number = unsafe {
        engine::doonamurk_history(
            years,
            width,
            exposures.as_ptr(),
            exposures.len(),
            cells.as_ptr(),
            cells.len(),
            result.as_mut_ptr(),
            result.len(),
        )
    };
    outcome(Call::History, number)
}

/// The result of a history in a `Vec`. As [`history`], except that the result always has its length.
pub fn history_to_vec(
    years: u64,
    width: u64,
    exposures: &[u64],
    cells: &[i64],
) -> Result<Vec<i64>, Refused> {
    // Other years or another width are refused under question 27 whatever the result, so it need not be large.
    let fits = years <= HISTORY_YEARS_MAX as u64 && width <= years;
    let count = if fits {
        history_count(years as usize, width as usize)
    } else {
        0
    };
    let mut result = vec![0; count];
    history(years, width, exposures, cells, &mut result)?;
    Ok(result)
}

/// One position of a window in a history.
#[derive(Clone, Copy, Debug, PartialEq, Eq)]
pub struct Position<'a> {
    /// 0, or the number of the first of the questions 7 to 10 that says no.
    pub refused: i64,
    /// Shares in billionths, development years 0 to width - 1; zeros where it is refused.
    pub shares: &'a [i64],
    /// Levels in hundredths a claim, payment years 0 to width - 1 counted from the position's first; zeros where it is refused.
    pub levels: &'a [i64],
}

/// The positions of a history's result, the first origin year's first.
pub fn positions(width: usize, result: &[i64]) -> impl Iterator<Item = Position<'_>> {
    result.chunks_exact(1 + 2 * width).map(move |entries| {
        let (shares, levels) = entries[1..].split_at(width);
        Position {
            refused: entries[0],
            shares,
            levels,
        }
    })
}

/// Tries one-year indices, the settings, on a record's own past: drops the latest payment years one after another down to two years, fits the rest, and gives what
/// each setting would have forecast too much or too little of the year after.
///
/// A step is the triangle of the payment years 0 to K, from K = k - 1 down to 1, and has 1 + K entries: 0 and the gaps of the origin years 1 to K, what is paid in
/// year K + 1 less what is forecast; or its mark, the number of the first of the questions 7 to 10 that says no of the triangle, and zeros. The report goes setting
/// by setting: the steps, the largest triangle first, and then the sum of the absolute gaps. The place of the best setting, from 0, ends it: that of the smallest
/// sum, the first on a tie. [`report`] takes it apart.
///
/// `settings` are 1 to 8 indices in millionths, each 1 to 5,000,000. `Ok` fills the first [`report_count`] entries of `report`; entries past them keep what they
/// held. `Err` names the first of the questions 1, 2, 29, 3, 4, 5 and 6 that says no, in this order, and leaves all of `report` as it was; no later question is
/// asked of the record. `record` may be any bytes of any length; `report` may be longer than it must be ([`REPORT_MAX`] holds every report), and is refused under
/// question 3 where it is shorter. All stay the caller's, nothing is kept. Safe to call from any number of threads.
pub fn hindsight(record: &[u8], settings: &[u64], report: &mut [i64]) -> Result<(), Refused> {
    // SAFETY: all are slices, so each pointer is non-null and valid for its length, and a lent slice overlaps no borrowed one.
    let number = unsafe {
        engine::doonamurk_hindsight(
            record.as_ptr(),
            record.len(),
            settings.as_ptr(),
            settings.len(),
            report.as_mut_ptr(),
            report.len(),
        )
    };
    outcome(Call::Hindsight, number)
}

/// The report of a hindsight run in a `Vec` of just its length. As [`hindsight`], except that question 3 never says no.
pub fn hindsight_to_vec(record: &[u8], settings: &[u64]) -> Result<Vec<i64>, Refused> {
    // More settings are refused under question 29 whatever the report, so it need not be large.
    let count = settings.len().min(SETTINGS_MAX);
    let mut report = vec![0; report_count(k_of(record), count)];
    hindsight(record, settings, &mut report)?;
    Ok(report)
}

/// One step of a hindsight run under one setting.
#[derive(Clone, Copy, Debug, PartialEq, Eq)]
pub struct Step<'a> {
    /// 0, or the number of the first of the questions 7 to 10 that says no of the triangle; it is the same under every setting.
    pub refused: i64,
    /// What is paid in the year after less what is forecast, in currency units: of the origin years 1 to K, K being how many they are; zeros where it is refused.
    pub gaps: &'a [i64],
}

/// What a report says of one setting.
#[derive(Clone, Copy, Debug, PartialEq, Eq)]
pub struct Tried<'a> {
    /// The sum of the absolute gaps of all steps.
    pub sum: i64,
    k: usize,
    entries: &'a [i64],
}

impl<'a> Tried<'a> {
    /// The steps, the largest triangle first: k - 1 gaps, then k - 2, down to 1.
    pub fn steps(&self) -> impl Iterator<Item = Step<'a>> {
        let mut rest = self.entries;
        (1..self.k).rev().map(move |gaps| {
            let (step, after) = rest.split_at(1 + gaps);
            rest = after;
            Step {
                refused: step[0],
                gaps: &step[1..],
            }
        })
    }
}

/// The report of a hindsight run.
#[derive(Clone, Copy, Debug, PartialEq, Eq)]
pub struct Report<'a> {
    /// The place of the best setting, from 0.
    pub best: usize,
    k: usize,
    entries: &'a [i64],
}

impl<'a> Report<'a> {
    /// What is said of each setting, in their order.
    pub fn settings(&self) -> impl Iterator<Item = Tried<'a>> {
        let k = self.k;
        self.entries
            .chunks_exact(setting_count(k))
            .map(move |entries| {
                let (sum, entries) = entries.split_last().expect("at least three entries");
                Tried {
                    sum: *sum,
                    k,
                    entries,
                }
            })
    }
}

/// The report on so many settings of a record of the years 0 to k: the first [`report_count`] entries of `entries`. `None` where k is not from 2 to 15 or the
/// settings are not 1 to 8, or where `entries` is shorter.
pub fn report(k: usize, settings: usize, entries: &[i64]) -> Option<Report<'_>> {
    if !(2..=K_MAX).contains(&k) || !(1..=SETTINGS_MAX).contains(&settings) {
        return None;
    }
    let (best, entries) = entries.get(..report_count(k, settings))?.split_last()?;
    Some(Report {
        best: usize::try_from(*best).ok()?,
        k,
        entries,
    })
}

/// What [`flat`], [`fading`] and [`shock`] hand back, laid out as C has it.
#[repr(C)]
#[derive(Clone, Copy, Debug, PartialEq, Eq)]
pub struct Indices {
    /// 0, or the number of the first question that says no, 20 or 21.
    pub refused: u64,
    /// The indices of years 1, 2, ... in millionths; zeros past the years wanted, or where `refused` is not 0.
    pub values: [u64; YEARS_MAX],
}

impl Indices {
    /// The indices of just the years wanted, or the refusal.
    pub fn wanted(&self) -> Result<&[u64], Refused> {
        outcome(Call::Inflation, self.refused)?;
        // An index of a year wanted is at least 1 (question 21), so the first zero is past them.
        let years = self.values.iter().take_while(|&&index| index != 0).count();
        Ok(&self.values[..years])
    }
}

/// The indices of one flat rate in years 1 to `years`; 0.02 is two percent.
///
/// A path starts at 1.0 and is multiplied each year by 1.0 plus that year's rate; a year's index is the path times 1,000,000.0 to the nearest whole number, halves up.
/// Every operation is rounded to an `f64` by itself. Refused 20 where a rate is not a number or lies outside -0.5 to 1.0, one that no year uses too, or where
/// `years` is not from 1 to [`YEARS_MAX`]; then 21 where an index leaves 1 to 5,000,000. The limits are inside, and so is -0.0. Nothing is allocated or kept.
/// Safe to call from any number of threads.
pub fn flat(rate: f64, years: u64) -> Indices {
    // SAFETY: numbers go in and come back by value, and `Indices` is laid out as the call's own struct.
    unsafe { engine::doonamurk_flat(rate, years) }
}

/// The indices of a rate that moves halfway each year toward a long-run rate.
///
/// As [`flat`], with `rate` in year 1 and in each later one `long_run` + 0.5 * (the rate of the year before - `long_run`). `long_run` is asked about for a
/// single year too.
pub fn fading(rate: f64, long_run: f64, years: u64) -> Indices {
    // SAFETY: as for `flat`.
    unsafe { engine::doonamurk_fading(rate, long_run, years) }
}

/// The indices of a shock, `rate` in the one named `year`, with the rate `other` in the others.
///
/// As [`flat`]; the first year is year 1, and 20 is given too where `year` is not from 1 to `years`. `other` is asked about where the shock is in the only
/// year too.
pub fn shock(rate: f64, other: f64, year: u64, years: u64) -> Indices {
    // SAFETY: as for `flat`.
    unsafe { engine::doonamurk_shock(rate, other, year, years) }
}
