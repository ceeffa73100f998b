//! Request 11 of document 02 in plain Rust, written from the paper alone: the shares and levels of a window that slides over a history of origin years.

use crate::paper::{average, separate, AMOUNT_MAX, EXPOSURE_MAX, YEARS as WIDTH_MAX};

/// The most origin years of a history.
pub const YEARS: usize = 64;
/// The most development years of an origin year.
const DEVELOPMENT: usize = 16;
/// The entries of the longest result.
pub const LONGEST: usize = entries(YEARS, WIDTH_MAX);

/// How many development years an origin year of a history has.
pub fn row(years: usize, origin: usize) -> usize {
    DEVELOPMENT.min(years - origin)
}

/// The cells of a history.
pub fn cells(years: usize) -> usize {
    (0..years).map(|origin| row(years, origin)).sum()
}

/// The entries of a result: of each position the number, the shares and the levels.
pub const fn entries(years: usize, width: usize) -> usize {
    (years - width + 1) * (1 + 2 * width)
}

/// The history of a call, of any lengths and sizes.
#[derive(Clone, Debug, Default)]
pub struct Given {
    pub years: u64,
    pub width: u64,
    pub exposures: Vec<u64>,
    pub cells: Vec<i64>,
}

/// Question 27.
fn fits(years: u64, width: u64) -> bool {
    years <= YEARS as u64 && (2..=WIDTH_MAX as u64).contains(&width) && width <= years
}

/// Every position of a history: questions 27 and 28. `Err` leaves the result as it was.
pub fn history(
    years: u64,
    width: u64,
    exposures: &[u64],
    cells: &[i64],
    result: &mut [i64],
) -> Result<(), u64> {
    if !fits(years, width) {
        return Err(27);
    }
    let (years, width) = (years as usize, width as usize);
    let lengths = exposures.len() == years
        && cells.len() == self::cells(years)
        && result.len() == entries(years, width);
    let ranges = exposures.iter().all(|n| (1..=EXPOSURE_MAX).contains(n))
        && cells.iter().all(|paid| paid.unsigned_abs() <= AMOUNT_MAX);
    if !lengths || !ranges {
        return Err(28);
    }

    let mut averages = [[0; DEVELOPMENT]; YEARS];
    let mut rest = cells;
    for (origin, exposure) in exposures.iter().enumerate() {
        let (row, below) = rest.split_at(row(years, origin));
        rest = below;
        // Later development years stand in no window.
        for (s, paid) in averages[origin][..width].iter_mut().zip(row) {
            *s = average(*paid, *exposure);
        }
    }

    let positions = result.chunks_exact_mut(1 + 2 * width);
    for (window, position) in averages[..years].windows(width).zip(positions) {
        let mut columns = [0; WIDTH_MAX];
        let mut diagonals = [0; WIDTH_MAX];
        for (i, row) in window.iter().enumerate() {
            for (j, s) in row[..width - i].iter().enumerate() {
                columns[j] += s;
                diagonals[i + j] += s;
            }
        }
        position.fill(0);
        match separate(width - 1, &columns, &diagonals) {
            Ok(factors) => {
                let both = factors.shares[..width]
                    .iter()
                    .chain(&factors.levels[..width]);
                for (entry, value) in position[1..].iter_mut().zip(both) {
                    *entry = *value as i64;
                }
            }
            Err(number) => position[0] = number as i64,
        }
    }
    Ok(())
}
