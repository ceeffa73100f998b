//! Document 01, with requests 1, 3, 4 and 6 of document 02, in plain Rust, written from the paper alone: the reader, the writer and the run from a record to
//! its result list.
//!
//! The differential test holds the proved engine against it, and the benchmark measures the engine beside it.
//! Each answer is `Ok`, or `Err` with the number of the first question that says no; an `Err` leaves the lent buffer as it was.
//! Every product below stays under 2^63 by the questions asked before it, so 64 bits are enough throughout.

/// The total of the shares, in billionths.
pub const S: u64 = 1_000_000_000;
/// The unit of indices, reporting shares, weight, ratio and development factors, in millionths.
pub const M: u64 = 1_000_000;

/// The most years of a triangle.
pub const YEARS: usize = 16;
pub const CELLS: usize = 136;

pub const EXPOSURE_MAX: u64 = 1_000_000;
pub const AMOUNT_MAX: u64 = 10_000_000_000;
pub const INDEX_MAX: u64 = 5_000_000;
pub const CUMULATIVE_MAX: i64 = 100_000_000_000;
const ULTIMATE_MAX: u64 = 1_000_000_000_000;
const TAIL_MAX: u64 = 5 * S;
const FACTOR_MAX: u64 = 50 * M;
/// The first valuation year whose ULAE ratio is corrected for growth.
const FIRST_CORRECTED: u64 = 2027;

const K_BITS: usize = 4;
const EXPOSURE_BITS: usize = 20;
const SIGN_BITS: usize = 1;
const AMOUNT_BITS: usize = 34;
const INDEX_BITS: usize = 23;
const SHARE_BITS: usize = 20;

/// The cells of a triangle with years 0 to k.
pub const fn cells(k: usize) -> usize {
    (k + 1) * (k + 2) / 2
}

/// The fields of a record.
pub fn fields(k: usize) -> usize {
    1 + (k + 1) + cells(k) + (k + 1) + (k + 1) + 1 + (k + 1) + 1
}

/// The bits of a record before its filling bits.
pub fn bits(k: usize) -> usize {
    K_BITS
        + (k + 1) * EXPOSURE_BITS
        + cells(k) * (SIGN_BITS + AMOUNT_BITS)
        + (k + 1) * INDEX_BITS
        + (k + 2) * SHARE_BITS
        + (k + 2) * AMOUNT_BITS
}

/// The bytes of a record.
pub fn bytes(k: usize) -> usize {
    bits(k).div_ceil(8)
}

/// The entries of a result list.
pub const fn entries(k: usize) -> usize {
    let future = cells(k) - (k + 1);
    let before_tails =
        cells(k) + 2 * (k + 1) + k + future + (k + 1) + 1 + 2 * (k + 1) + 1 + 1 + k + future;
    before_tails + (k + 1)
}

/// The entries of the longest result list.
pub const LONGEST: usize = entries(15);

/// Takes fields off a record, the most significant bit first.
struct Bits<'a> {
    record: &'a [u8],
    at: usize,
}

impl Bits<'_> {
    fn take(&mut self, width: usize) -> u64 {
        let byte = self.at / 8;
        // A field is at most 35 bits wide and starts in the window's first byte, so eight bytes hold it.
        let window = match self.record.get(byte..byte + 8) {
            Some(eight) => u64::from_be_bytes(eight.try_into().expect("eight bytes")),
            None => {
                let mut eight = [0; 8];
                let last = &self.record[byte..];
                eight[..last.len()].copy_from_slice(last);
                u64::from_be_bytes(eight)
            }
        };
        let value = window << (self.at % 8) >> (64 - width);
        self.at += width;
        value
    }

    /// Takes a field under question 4.
    fn take_within(&mut self, width: usize, least: u64, most: u64) -> Result<u64, u64> {
        let value = self.take(width);
        if (least..=most).contains(&value) {
            Ok(value)
        } else {
            Err(4)
        }
    }
}

/// A record's fields; of each list only what k calls for is used.
pub struct Record {
    k: usize,
    pub exposures: [u64; YEARS],
    pub increments: [i64; CELLS],
    indices: [u64; YEARS],
    reporting: [u64; YEARS],
    weight: u64,
    ulae: [u64; YEARS],
    /// What is still to be paid for year 0 after year k.
    tail: u64,
}

/// Questions 1 and 2; answers k.
pub fn last_year(record: &[u8]) -> Result<usize, u64> {
    let k = usize::from(record.first().ok_or(1u64)? >> 4);
    if k == 0 {
        return Err(1);
    }
    if record.len() != bytes(k) {
        return Err(2);
    }
    let filling = 8 * bytes(k) - bits(k);
    if record[record.len() - 1].trailing_zeros() < filling as u32 {
        return Err(2);
    }
    Ok(k)
}

impl Record {
    /// Questions 4 and 5, for a record of which 1 and 2 said yes.
    pub fn unpack(k: usize, record: &[u8]) -> Result<Record, u64> {
        let mut figures = Record {
            k,
            exposures: [0; YEARS],
            increments: [0; CELLS],
            indices: [0; YEARS],
            reporting: [0; YEARS],
            weight: 0,
            ulae: [0; YEARS],
            tail: 0,
        };
        let mut field = Bits { record, at: K_BITS };
        for exposure in &mut figures.exposures[..=k] {
            *exposure = field.take_within(EXPOSURE_BITS, 1, EXPOSURE_MAX)?;
        }
        for increment in &mut figures.increments[..cells(k)] {
            let signed = field.take(SIGN_BITS + AMOUNT_BITS);
            let size = signed & ((1 << AMOUNT_BITS) - 1);
            let negative = signed != size;
            if size > AMOUNT_MAX || (negative && size == 0) {
                return Err(4);
            }
            *increment = if negative {
                -(size as i64)
            } else {
                size as i64
            };
        }
        for index in &mut figures.indices[..=k] {
            *index = field.take_within(INDEX_BITS, 1, INDEX_MAX)?;
        }
        for share in &mut figures.reporting[..=k] {
            *share = field.take_within(SHARE_BITS, 0, M)?;
        }
        figures.weight = field.take_within(SHARE_BITS, 0, M)?;
        for total in &mut figures.ulae[..=k] {
            *total = field.take_within(AMOUNT_BITS, 0, AMOUNT_MAX)?;
        }
        figures.tail = field.take_within(AMOUNT_BITS, 0, AMOUNT_MAX)?;
        if figures.reporting.iter().sum::<u64>() != M {
            return Err(5);
        }
        Ok(figures)
    }
}

/// Reads a record into a list of its fields, k first: questions 1 to 5.
pub fn read(record: &[u8], list: &mut [i64]) -> Result<(), u64> {
    let k = last_year(record)?;
    if list.len() < fields(k) {
        return Err(3);
    }
    let figures = Record::unpack(k, record)?;
    let plain = |values: &[u64], place: &mut [i64]| {
        for (entry, &value) in place.iter_mut().zip(values) {
            *entry = value as i64;
        }
    };
    list[0] = k as i64;
    let (exposures, list) = list[1..].split_at_mut(k + 1);
    let (increments, list) = list.split_at_mut(cells(k));
    let (indices, list) = list.split_at_mut(k + 1);
    let (reporting, list) = list.split_at_mut(k + 1);
    let (weight, list) = list.split_at_mut(1);
    let (ulae, list) = list.split_at_mut(k + 1);
    plain(&figures.exposures, exposures);
    increments.copy_from_slice(&figures.increments[..cells(k)]);
    plain(&figures.indices, indices);
    plain(&figures.reporting, reporting);
    weight[0] = figures.weight as i64;
    plain(&figures.ulae, ulae);
    list[0] = figures.tail as i64;
    Ok(())
}

/// What a writer is given: k, the lists, the weight and the amount still to be paid for year 0, of any lengths and sizes.
#[derive(Clone, Debug, Default)]
pub struct Given {
    pub k: u64,
    pub exposures: Vec<u64>,
    pub increments: Vec<i64>,
    pub indices: Vec<u64>,
    pub reporting: Vec<u64>,
    pub weight: u64,
    pub ulae: Vec<u64>,
    pub tail: u64,
}

/// Puts fields into a record, the most significant bit first.
struct Packer<'a> {
    record: &'a mut [u8],
    full: usize,
    held: u64,
    width: usize,
}

impl Packer<'_> {
    fn put(&mut self, width: usize, value: u64) {
        self.held = self.held << width | value;
        self.width += width;
        while self.width >= 8 {
            self.width -= 8;
            self.record[self.full] = (self.held >> self.width) as u8;
            self.full += 1;
        }
    }

    fn fill(mut self) {
        if self.width > 0 {
            self.put(8 - self.width, 0);
        }
    }
}

/// Writes the record of the given fields: questions 1, 2, 4 and 5.
pub fn write(given: &Given, record: &mut [u8]) -> Result<(), u64> {
    if !(1..=15).contains(&given.k) {
        return Err(1);
    }
    let k = given.k as usize;
    let lengths = [
        (record.len(), bytes(k)),
        (given.exposures.len(), k + 1),
        (given.increments.len(), cells(k)),
        (given.indices.len(), k + 1),
        (given.reporting.len(), k + 1),
        (given.ulae.len(), k + 1),
    ];
    if lengths.iter().any(|(has, needs)| has != needs) {
        return Err(2);
    }
    let within = |values: &[u64], least, most| values.iter().all(|v| (least..=most).contains(v));
    let in_range = within(&given.exposures, 1, EXPOSURE_MAX)
        && given
            .increments
            .iter()
            .all(|p| p.unsigned_abs() <= AMOUNT_MAX)
        && within(&given.indices, 1, INDEX_MAX)
        && within(&given.reporting, 0, M)
        && given.weight <= M
        && within(&given.ulae, 0, AMOUNT_MAX)
        && given.tail <= AMOUNT_MAX;
    if !in_range {
        return Err(4);
    }
    if given.reporting.iter().sum::<u64>() != M {
        return Err(5);
    }
    let mut packer = Packer {
        record,
        full: 0,
        held: 0,
        width: 0,
    };
    packer.put(K_BITS, given.k);
    for &exposure in &given.exposures {
        packer.put(EXPOSURE_BITS, exposure);
    }
    for &increment in &given.increments {
        packer.put(SIGN_BITS, u64::from(increment < 0));
        packer.put(AMOUNT_BITS, increment.unsigned_abs());
    }
    for &index in &given.indices {
        packer.put(INDEX_BITS, index);
    }
    for &share in &given.reporting {
        packer.put(SHARE_BITS, share);
    }
    packer.put(SHARE_BITS, given.weight);
    for &total in &given.ulae {
        packer.put(AMOUNT_BITS, total);
    }
    packer.put(AMOUNT_BITS, given.tail);
    packer.fill();
    Ok(())
}

/// 100 × increment / exposure to the nearest whole hundredth, halves to the even neighbour.
pub fn average(increment: i64, exposure: u64) -> i64 {
    let hundredths = 100 * increment.unsigned_abs();
    let (below, rest) = (hundredths / exposure, hundredths % exposure);
    // Twice the rest, and one more where the neighbour below is odd, is above the exposure where the neighbour above is due.
    let size = below + u64::from(2 * rest + below % 2 > exposure);
    if increment < 0 {
        -(size as i64)
    } else {
        size as i64
    }
}

/// Shares r_0 to r_k and levels l_0 to l_k, and zeros behind them.
pub struct Factors {
    pub shares: [u64; YEARS],
    pub levels: [u64; YEARS],
}

/// The shares and levels of a triangle of averages, of its columns v and its diagonals d, zeros behind those of year k: questions 7 to 10.
#[inline]
pub fn separate(
    k: usize,
    columns: &[i64; YEARS],
    diagonals: &[i64; YEARS],
) -> Result<Factors, u64> {
    let negative = columns.iter().chain(diagonals).any(|&total| total < 0);
    if negative || columns.iter().sum::<i64>() > S as i64 {
        return Err(7);
    }
    let v = columns.map(|total| total as u64);
    let d = diagonals.map(|total| total as u64);

    // T_h less column h, and diagonal h − 1 more, is T_{h−1}.
    let mut t = [0; YEARS];
    t[k] = d[k];
    for h in (1..=k).rev() {
        if t[h] <= v[h] {
            return Err(8);
        }
        t[h - 1] = t[h] - v[h] + d[h - 1];
    }
    let mut running = [0; YEARS];
    running[k] = S;
    for h in (1..=k).rev() {
        running[h - 1] = running[h] * (t[h] - v[h]) / t[h];
        if running[h - 1] == 0 {
            return Err(9);
        }
    }
    let mut shares = [0; YEARS];
    let mut levels = [0; YEARS];
    shares[0] = running[0];
    for h in 1..=k {
        shares[h] = running[h] - running[h - 1];
    }
    for h in 0..=k {
        levels[h] = d[h] * S / running[h];
        if levels[h] > S {
            return Err(10);
        }
    }
    Ok(Factors { shares, levels })
}

/// What is paid of each origin year after year k: questions 18 and 19.
fn tail_payments(figures: &Record) -> Result<[u64; YEARS], u64> {
    let first = average(figures.tail as i64, figures.exposures[0]) as u64;
    if first > S {
        return Err(18);
    }
    // e_1 stands at place 0, so year i has e_{i+1} beside its exposure.
    let years = figures.exposures.iter().zip(&figures.indices);
    let mut tails = [0; YEARS];
    for (tail, (exposure, index)) in tails[..=figures.k].iter_mut().zip(years) {
        let unit = first * index / figures.indices[0];
        if unit > TAIL_MAX {
            return Err(19);
        }
        *tail = exposure * unit / 100;
    }
    Ok(tails)
}

/// The ULAE ratio under growth, of the plain one: questions 15 to 17.
fn corrected(figures: &Record, ultimates: &[u64; YEARS], ratio: u64) -> Result<u64, u64> {
    let k = figures.k;
    // The last increment of each row is paid in the latest year.
    let mut end = 0;
    let mut paid = 0;
    for i in 0..=k {
        end += k + 1 - i;
        paid += figures.increments[end - 1];
    }
    if paid < 1 {
        return Err(15);
    }
    // What development year j reports in the latest year is of origin year k − j.
    let pairs = figures.reporting[..=k]
        .iter()
        .zip(ultimates[..=k].iter().rev());
    let reported = pairs.map(|(share, ultimate)| share * ultimate).sum::<u64>() / M;
    let divisor = M - figures.weight + figures.weight * reported / paid as u64;
    if divisor == 0 {
        return Err(16);
    }
    let corrected = ratio * M / divisor;
    if corrected > M {
        return Err(17);
    }
    Ok(corrected)
}

/// The result list as it grows; it is worked out in the order in which it is listed, but for the development factors and for the tail payments, which end it.
struct List<'a, const ROOM: usize> {
    entries: &'a mut [i64; ROOM],
    len: usize,
}

impl<const ROOM: usize> List<'_, ROOM> {
    #[inline]
    fn push(&mut self, entry: i64) {
        self.entries[self.len] = entry;
        self.len += 1;
    }

    #[inline]
    fn extend(&mut self, values: &[u64]) {
        for &value in values {
            self.push(value as i64);
        }
    }
}

/// Runs from a record to its result list for a valuation year: questions 1 to 14, with 13 after 6, 18 and 19 before 11 and, from 2027 on, 15 to 17 after 12.
pub fn run(valuation_year: u64, record: &[u8], results: &mut [i64]) -> Result<(), u64> {
    let k = last_year(record)?;
    if results.len() < entries(k) {
        return Err(3);
    }
    let figures = Record::unpack(k, record)?;
    let results = &mut results[..entries(k)];
    // Four lengths of room, so that a short list need not clear the longest.
    match k {
        1..=2 => fill::<{ entries(2) }>(valuation_year, &figures, results),
        3..=5 => fill::<{ entries(5) }>(valuation_year, &figures, results),
        6..=9 => fill::<{ entries(9) }>(valuation_year, &figures, results),
        _ => fill::<LONGEST>(valuation_year, &figures, results),
    }
}

/// The results are lent, and a later question may still say no: the list grows in a room of its own first.
fn fill<const ROOM: usize>(
    valuation_year: u64,
    figures: &Record,
    results: &mut [i64],
) -> Result<(), u64> {
    let mut list = [0; ROOM];
    work_out::<ROOM, true>(valuation_year, figures, &mut list)?;
    results.copy_from_slice(&list[..results.len()]);
    Ok(())
}

/// What questions say of a record by themselves, if 1 to 6 say yes: 13; the first of 7 to 12 and 15 to 19; and 14, if 13 says yes. A run answers with one of
/// them; the differential test counts the records that two refuse.
pub fn apart(valuation_year: u64, record: &[u8]) -> Option<[u64; 3]> {
    let k = last_year(record).ok()?;
    let figures = Record::unpack(k, record).ok()?;
    let between = work_out::<LONGEST, false>(valuation_year, &figures, &mut [0; LONGEST]);
    if between == Err(6) {
        return None;
    }
    let ladder = ladder_alone(&figures);
    let only = |number| if ladder == number { number } else { 0 };
    Some([only(13), between.err().unwrap_or(0), only(14)])
}

/// What the chain ladder by itself says of a record that has passed question 6: 13, 14 or 0.
fn ladder_alone(figures: &Record) -> u64 {
    let k = figures.k;
    let mut increments = figures.increments.iter();
    let cumulatives: Vec<Vec<i64>> = (0..=k)
        .map(|i| {
            let row = increments.by_ref().take(k + 1 - i);
            row.scan(0, |sum, x| {
                *sum += x;
                Some(*sum)
            })
            .collect()
        })
        .collect();
    let total = |h: usize, years| {
        cumulatives[..years]
            .iter()
            .map(|row| row[h] as u64)
            .sum::<u64>()
    };
    let mut factors = Vec::new();
    for h in 0..k {
        let base = total(h, k - h);
        if base < 1 || M * total(h + 1, k - h) / base > FACTOR_MAX {
            return 13;
        }
        factors.push(M * total(h + 1, k - h) / base);
    }
    for i in 1..=k {
        let mut cumulative = cumulatives[i][k - i] as u64;
        for factor in &factors[k - i..] {
            cumulative = cumulative * factor / M;
            if cumulative > CUMULATIVE_MAX as u64 {
                return 14;
            }
        }
    }
    0
}

/// The questions from 6 on, and the list where all say yes; without the chain ladder all but 13 and 14, and the list up to the ULAE ratio.
fn work_out<const ROOM: usize, const LADDER: bool>(
    valuation_year: u64,
    figures: &Record,
    entries: &mut [i64; ROOM],
) -> Result<(), u64> {
    let k = figures.k;
    let mut list = List { entries, len: 0 };

    // Averages, their columns v and diagonals d; of the cumulatives only the column totals and each row's latest are needed.
    let mut columns = [0i64; YEARS];
    let mut diagonals = [0i64; YEARS];
    let mut cumulative_columns = [0u64; YEARS];
    let mut latest = [0u64; YEARS];
    let mut rest = &figures.increments[..cells(k)];
    for i in 0..=k {
        let (row, below) = rest.split_at(k + 1 - i);
        rest = below;
        let mut cumulative = 0;
        for (j, &increment) in row.iter().enumerate() {
            cumulative += increment;
            if !(0..=CUMULATIVE_MAX).contains(&cumulative) {
                return Err(6);
            }
            cumulative_columns[j] += cumulative as u64;
            let s = average(increment, figures.exposures[i]);
            list.push(s);
            columns[j] += s;
            diagonals[i + j] += s;
        }
        latest[i] = cumulative as u64;
    }
    // Row k − h is the one whose latest cumulative stands in column h and has no next one.
    let mut factors = [0; YEARS];
    let developed = if LADDER { k } else { 0 };
    for h in 0..developed {
        let base = cumulative_columns[h] - latest[k - h];
        if base < 1 {
            return Err(13);
        }
        factors[h] = M * cumulative_columns[h + 1] / base;
        if factors[h] > FACTOR_MAX {
            return Err(13);
        }
    }
    let Factors { shares, levels } = separate(k, &columns, &diagonals)?;
    list.extend(&shares[..=k]);
    list.extend(&levels[..=k]);

    // Future levels L_1 to L_k, from place 0.
    let mut future = [0; YEARS];
    for (level, index) in future.iter_mut().zip(&figures.indices[..k]) {
        *level = diagonals[k] as u64 * index / M;
    }
    list.extend(&future[..k]);

    let tails = tail_payments(figures)?;
    let mut provisions = tails;
    let mut ultimates = [0; YEARS];
    for i in 0..=k {
        let after = &shares[k - i + 1..=k];
        for (share, level) in after.iter().zip(&future[..i]) {
            let unit = share * level / S;
            let payment = figures.exposures[i] * unit / 100;
            list.push(payment as i64);
            provisions[i] += payment;
        }
        ultimates[i] = latest[i] + provisions[i];
        if ultimates[i] > ULTIMATE_MAX {
            return Err(11);
        }
    }
    list.extend(&provisions[..=k]);
    list.push(provisions.iter().sum::<u64>() as i64);

    let paid = latest.iter().sum::<u64>();
    let expense = figures.ulae.iter().sum::<u64>();
    if paid < 1 || expense > paid {
        return Err(12);
    }
    let mut ratio = M * expense / paid;
    if valuation_year >= FIRST_CORRECTED {
        ratio = corrected(figures, &ultimates, ratio)?;
    }
    let mut unreported = [0; YEARS];
    let mut reserves = [0; YEARS];
    let mut still_to_report = 0;
    for i in 0..=k {
        unreported[i] = ultimates[i] * still_to_report / M;
        let weighted = figures.weight * unreported[i] + (M - figures.weight) * provisions[i];
        reserves[i] = ratio * (weighted / M) / M;
        still_to_report += figures.reporting[k - i];
    }
    list.extend(&unreported[..=k]);
    list.extend(&reserves[..=k]);
    list.push(reserves.iter().sum::<u64>() as i64);
    list.push(ratio as i64);

    if !LADDER {
        return Ok(());
    }
    list.extend(&factors[..k]);

    for i in 1..=k {
        let mut cumulative = latest[i];
        for factor in &factors[k - i..k] {
            cumulative = cumulative * factor / M;
            if cumulative > CUMULATIVE_MAX as u64 {
                return Err(14);
            }
            list.push(cumulative as i64);
        }
    }
    list.extend(&tails[..=k]);
    Ok(())
}
