/* Doonamurk, a reserving engine: from one record of paid claims, exposures and assumptions to its result list for a valuation year; from a long history of paid
 * claims to the shares and levels of each of its windows; from a record and trial indices to what each of them would have forecast of the record's own past; and
 * from inflation rates to yearly indices.
 *
 * Link target/lib/libdoonamurk.a or libdoonamurk.so (bindings/build makes both; x86-64 Linux). docs/FORMAT.md has the record, the lists and the
 * questions.
 *
 * Of every function here:
 * - It answers 0, or the number of the first question that says no; then every lent buffer is left as it was. flat, fading and shock are lent none: they hand
 *   back the number and the indices by value.
 * - The caller owns every buffer. Nothing is allocated, kept or freed, and a buffer may be used anew as soon as the call has returned.
 * - Lengths count elements (bytes, 64-bit numbers), not bytes of memory. A pointer must be valid for its length and aligned for its type. None may be
 *   null, not even one of length 0: any non-null pointer will do for that.
 * - A buffer that is filled must not overlap any other buffer of the call. Buffers that are only read may overlap each other.
 * - There is no global state: any number of threads may call at once, each with buffers of its own to fill; what is only read may be shared.
 *
 * The questions, asked in this order; the answer is the number of the first that says no:
 *   20  Is every rate a number from -0.5 to 1.0, a shock's year among the years wanted, and their number from 1 to 16? (flat, fading, shock)
 *   21  Is every index of a year wanted from 1 to 5,000,000? (flat, fading, shock)
 *   27  Has the history at most 64 years, and is the width from 2 to 16 and no more than the history's years? (history)
 *   28  Have the exposures, the cells and the lent result just the lengths that the years and the width call for, and is every exposure from 1 to 1,000,000 and
 *       every cell from -10^10 to 10^10? (history)
 *    1  Is there a first byte, and is k at least 1? (write: is k from 1 to 15?)
 *    2  Is the length just what k calls for, and every filling bit zero? (write: has the buffer just the length that k calls for, and each list its own?)
 *   29  Are there 1 to 8 settings, each from 1 to 5,000,000, and is k at least 2? (hindsight)
 *    3  Does the list that is filled hold all entries? (run, read, hindsight)
 *    4  Is every field in its range?
 *    5  Do the reporting shares sum to 1,000,000?
 *    6  Is every given cumulative from 0 to 10^11?
 *   13  Is every chain-ladder base at least 1, and every development factor at most 50,000,000?
 *    7  Is every column and every diagonal of the averages at least 0, and their total at most 10^9?
 *    8  Is T_h - v_h at least 1 for every h from 1 to k? (The number is given if and only if Taylor's equations have no exact solution in which every
 *       running share before the last, and every sum of levels from a payment year after the first to the latest, is above 0.)
 *    9  Is every running share at least 1?
 *   10  Is every level at most 10^9?
 *   18  Is the average of what is still to be paid for year 0 after year k at most 10^9?
 *   19  Is the average of what is still to be paid after year k, carried to each year by the indices, at most 5 * 10^9?
 *   11  Is every ultimate at most 10^12?
 *   12  Is the total of paid increments at least 1, and the total of the ULAE totals at most that?
 *   15  From valuation year 2027 on: is the total paid in the latest payment year at least 1?
 *   16  From valuation year 2027 on: is the divisor of the ULAE ratio not 0?
 *   17  From valuation year 2027 on: is the corrected ULAE ratio at most 1,000,000?
 *   14  Is every completed cumulative at most 10^11?
 * run asks 1 to 19, but 15 to 17 only from valuation year 2027 on; read asks 1 to 5, and write 1, 2, 4 and 5. flat, fading and shock ask 20 and 21 and no
 * other, for they come before a record is made. history asks 27 and 28, and 7 to 10 of each position of its window, whose number stands in the result. hindsight
 * asks 1, 2, 29 and 3 to 6, and 7 to 10 of each of its steps, whose number stands in the report.
 */
#ifndef DOONAMURK_H
#define DOONAMURK_H

#include <stddef.h>
#include <stdint.h>

#ifdef __cplusplus
extern "C" {
#endif

#define DOONAMURK_ACCEPTED 0

/* The longest of each, for buffers that are to hold any: years 0 to k, bytes of a record, fields of a record, entries of a result list. */
#define DOONAMURK_K_MAX 15
#define DOONAMURK_RECORD_MAX 797
#define DOONAMURK_FIELDS_MAX 203
#define DOONAMURK_RESULTS_MAX 505

/* The most years that a call of inflation rates may want. */
#define DOONAMURK_YEARS_MAX 16

/* Of a history: the most origin years, the most development years of one of them, the least and the largest width of a window, the cells of the longest history,
 * and the entries of the longest result. */
#define DOONAMURK_HISTORY_YEARS_MAX 64
#define DOONAMURK_HISTORY_DEVELOPMENT_MAX 16
#define DOONAMURK_WIDTH_MIN 2
#define DOONAMURK_WIDTH_MAX 16
#define DOONAMURK_HISTORY_CELLS_MAX 904
#define DOONAMURK_HISTORY_RESULTS_MAX 1617

/* Of a hindsight run: the most settings, and the entries of the longest report. */
#define DOONAMURK_SETTINGS_MAX 8
#define DOONAMURK_REPORT_MAX 961

/* For k from 1 to 15: the cells of the triangle, the bytes of the record, its fields, and the entries of the result list. */
static inline size_t doonamurk_cells(size_t k) { return (k + 1) * (k + 2) / 2; }
static inline size_t doonamurk_record_bytes(size_t k) { return (155 + 97 * k + 35 * doonamurk_cells(k) + 7) / 8; }
static inline size_t doonamurk_field_count(size_t k) { return doonamurk_cells(k) + 4 * k + 7; }
static inline size_t doonamurk_result_count(size_t k) { return 3 * doonamurk_cells(k) + 6 * k + 7; }

/* The sections of a result list in their order (docs/FORMAT.md has the same table, with units). */
enum doonamurk_section {
    DOONAMURK_AVERAGES,              /* cells */
    DOONAMURK_SHARES,                /* development years 0 to k */
    DOONAMURK_LEVELS,                /* payment years 0 to k */
    DOONAMURK_FUTURE_LEVELS,         /* payment years k + 1 to 2k */
    DOONAMURK_PAYMENTS,              /* future cells */
    DOONAMURK_PROVISIONS,            /* origin years 0 to k */
    DOONAMURK_TOTAL_PROVISION,       /* one entry */
    DOONAMURK_NOT_REPORTED,          /* origin years 0 to k */
    DOONAMURK_ULAE_RESERVES,         /* origin years 0 to k */
    DOONAMURK_TOTAL_ULAE_RESERVE,    /* one entry */
    DOONAMURK_ULAE_RATIO,            /* one entry: the ratio that is used, from valuation year 2027 on the corrected one */
    DOONAMURK_DEVELOPMENT_FACTORS,   /* development years 0 to k - 1, each to the next */
    DOONAMURK_COMPLETED_CUMULATIVES, /* future cells */
    DOONAMURK_TAIL_PAYMENTS,         /* origin years 0 to k: paid after year k, and part of the provisions */
    DOONAMURK_SECTIONS
};

/* How many entries a section has, and where it starts in the list; the start of DOONAMURK_SECTIONS is the list's length. */
static inline size_t doonamurk_section_count(size_t k, enum doonamurk_section section)
{
    switch (section) {
    case DOONAMURK_AVERAGES:
        return doonamurk_cells(k);
    case DOONAMURK_PAYMENTS:
    case DOONAMURK_COMPLETED_CUMULATIVES:
        return doonamurk_cells(k) - (k + 1);
    case DOONAMURK_FUTURE_LEVELS:
    case DOONAMURK_DEVELOPMENT_FACTORS:
        return k;
    case DOONAMURK_TOTAL_PROVISION:
    case DOONAMURK_TOTAL_ULAE_RESERVE:
    case DOONAMURK_ULAE_RATIO:
        return 1;
    default:
        return k + 1;
    }
}
static inline size_t doonamurk_section_start(size_t k, enum doonamurk_section section)
{
    size_t start = 0;
    for (int before = 0; before < (int)section; before++)
        start += doonamurk_section_count(k, (enum doonamurk_section)before);
    return start;
}

/* The place of origin year i and development year j within a section of cells (i + j at most k), and of future cells (i + j above k, j at most k). */
static inline size_t doonamurk_cell(size_t k, size_t i, size_t j) { return i * (k + 1) - i * (i - 1) / 2 + j; }
static inline size_t doonamurk_future_cell(size_t k, size_t i, size_t j) { return i * (i - 1) / 2 + (i + j - k - 1); }

/* Runs from a record to its result list for a valuation year.
 *
 * Answers 0 and fills the first doonamurk_result_count(k) entries of results; entries past them keep what they held. Else answers 1 to 19, the first question
 * that says no, and leaves all of results as it was; too short a buffer is question 3.
 *
 * valuation_year        any number; from 2027 on the ULAE ratio is corrected for growth and questions 15 to 17 are asked. It is no part of the record
 * record, record_len    any bytes, of any length; only read
 * results, results_len  the buffer that is filled; DOONAMURK_RESULTS_MAX entries hold every list
 *
 * The caller owns both and nothing is kept or freed; neither may be null and they must not overlap; any number of threads may call at once. */
uint64_t doonamurk_run(uint64_t valuation_year, const uint8_t *record, size_t record_len, int64_t *results, size_t results_len);

/* Reads a record into a list of its fields.
 *
 * Answers 0 and fills the first doonamurk_field_count(k) entries of list with the fields in the record's order, k first, increments signed; entries
 * past them keep what they held. Else answers 1 to 5, the first question that says no, and leaves all of list as it was; too short a list is question 3.
 *
 * record, record_len  any bytes, of any length; only read
 * list, list_len      the buffer that is filled; DOONAMURK_FIELDS_MAX entries hold the fields of every record
 *
 * The caller owns both and nothing is kept or freed; neither may be null and they must not overlap; any number of threads may call at once. */
uint64_t doonamurk_read(const uint8_t *record, size_t record_len, int64_t *list, size_t list_len);

/* Writes the record of the given fields.
 *
 * Answers 0 and fills all of record, filling bits zero. Else answers 1, 2, 4 or 5, the first question that says no, and leaves all of record as it was.
 * A k outside 1 to 15 is question 1; a length other than the one below is question 2; a field out of its range is question 4.
 *
 * k                   the last year, 1 to 15
 * exposures, n        n = k + 1 exposures, 1 to 1,000,000
 * increments, c       c = doonamurk_cells(k) paid increments, row by row, -10^10 to 10^10
 * indices, e          e = k + 1 future indices in millionths, 1 to 5,000,000
 * reporting, b        b = k + 1 reporting shares in millionths, which sum to 1,000,000 (question 5)
 * weight              the reporting weight in millionths, 0 to 1,000,000
 * ulae, u             u = k + 1 ULAE totals, 0 to 10^10
 * tail                the amount still to be paid for year 0 after year k, 0 to 10^10
 * record, record_len  the buffer that is filled, record_len = doonamurk_record_bytes(k)
 *
 * The caller owns all of them and nothing is kept or freed; none may be null and record must not overlap a list; any number of threads may call at once. */
uint64_t doonamurk_write(uint64_t k, const uint64_t *exposures, size_t n, const int64_t *increments, size_t c,
                         const uint64_t *indices, size_t e, const uint64_t *reporting, size_t b, uint64_t weight,
                         const uint64_t *ulae, size_t u, uint64_t tail, uint8_t *record, size_t record_len);

/* For years up to 64: the cells of a history, and the place of origin year i (below years) and development year j (below 16 and below years - i) among them. For a
 * width of at most the years: the entries of a result, and where a position starts in it: the number, and then `width` shares and `width` levels. */
static inline size_t doonamurk_history_cells(size_t years) { return years <= 16 ? years * (years + 1) / 2 : 136 + 16 * (years - 16); }
static inline size_t doonamurk_history_cell(size_t years, size_t i, size_t j)
{
    return doonamurk_history_cells(years) - doonamurk_history_cells(years - i) + j;
}
static inline size_t doonamurk_history_count(size_t years, size_t width) { return (years - width + 1) * (1 + 2 * width); }
static inline size_t doonamurk_position_start(size_t width, size_t position) { return position * (1 + 2 * width); }

/* Slides a window of `width` origin years over a history, one origin year at a time up to the latest payment year, and gives the shares and levels of each of its
 * positions, years - width + 1 of them.
 *
 * Position a is the triangle of the origin years a to a + width - 1 and of their cells that are paid by the last of these years, so it is that of a record with
 * k = width - 1. Of each position the result has 0, its shares in billionths (development years 0 to k) and its levels in hundredths a claim (payment years 0 to k
 * counted from its first); or the number of the first of questions 7 to 10 that says no of the triangle, and zeros in their places.
 *
 * Answers 0 and fills all of result. Else answers 27 or 28 and leaves all of result as it was: 27 where years is above 64, or width outside 2 to 16 or above years
 * (so for 0 years too), then 28 where a list or the result has another length than below or a number is out of its range, also a cell that no window has.
 *
 * years          the origin years of the history, the oldest first, at most 64
 * width          the origin years of the window, 2 to 16
 * exposures, n   n = years exposures, 1 to 1,000,000
 * cells, c       c = doonamurk_history_cells(years) paid increments, row by row, -10^10 to 10^10: origin year i has its first min(16, years - i) development years
 * result, m      the buffer that is filled, m = doonamurk_history_count(years, width), no entry more
 *
 * The caller owns all of them and nothing is kept or freed; none may be null and result must not overlap a list; any number of threads may call at once. */
uint64_t doonamurk_history(uint64_t years, uint64_t width, const uint64_t *exposures, size_t n, const int64_t *cells, size_t c, int64_t *result, size_t m);

/* For k from 2 to 15: the entries of a report on so many settings, the last of which is the place of the best; where a step of a setting starts, the settings
 * counted from 0 and the step by the latest payment year of its triangle, 1 to k - 1: its mark, and then the gap of origin year i, from 1 on, i places later; and
 * where the setting's sum stands. */
static inline size_t doonamurk_report_count(size_t k, size_t settings) { return settings * (k * (k + 1) / 2) + 1; }
static inline size_t doonamurk_step_start(size_t k, size_t setting, size_t latest)
{
    return (setting + 1) * (k * (k + 1) / 2) - 1 - latest * (latest + 3) / 2;
}
static inline size_t doonamurk_setting_sum(size_t k, size_t setting) { return (setting + 1) * (k * (k + 1) / 2) - 1; }

/* Tries one-year indices, the settings, on a record's own past: drops the latest payment years one after another down to a triangle of two years, fits the rest, and
 * gives what each setting would have forecast too much or too little of the year after.
 *
 * A step is the triangle of the payment years 0 to K, from K = k - 1 down to 1, with the record's own exposures. Where questions 7 to 10 say yes of it, the report
 * has 0 and K gaps, of the origin years 1 to K, which are those whose next development year is fitted: what is paid in year K + 1 less what is forecast, in currency
 * units. Else it has the step's mark, the number of the first of these questions that says no, and K zeros; the mark is the same under every setting.
 * The report goes setting by setting: the steps, the largest triangle first, and then the sum of the absolute gaps. The place of the best setting, from 0, ends
 * it: that of the smallest sum, the first on a tie.
 *
 * Answers 0 and fills the first doonamurk_report_count(k, n) entries of report; entries past them keep what they held. Else answers the first of 1, 2, 29, 3, 4, 5
 * and 6, in this order, that says no, and leaves all of report as it was. No later question is asked of the record: one that run refuses with 7 or later gets its
 * report.
 *
 * record, record_len  any bytes, of any length; only read. Of its fields only k, the exposures and the increments take part
 * settings, n         n = 1 to 8 indices in millionths, each 1 to 5,000,000; other numbers of them, or others of them, are refused with 29, and so is k = 1
 * report, m           the buffer that is filled; DOONAMURK_REPORT_MAX entries hold every report
 *
 * The caller owns all of them and nothing is kept or freed; none may be null and report must not overlap another; any number of threads may call at once. */
uint64_t doonamurk_hindsight(const uint8_t *record, size_t record_len, const uint64_t *settings, size_t n, int64_t *report, size_t m);

/* What flat, fading and shock hand back. */
typedef struct {
    uint64_t refused;                     /* 0, or the first question that says no, 20 or 21 */
    uint64_t values[DOONAMURK_YEARS_MAX]; /* the indices of years 1, 2, ... in millionths; zeros past the years wanted, or where refused is not 0 */
} doonamurk_indices;

/* From inflation rates to the indices of the years wanted, year 1 being the first: of one flat rate; of a rate that moves halfway each year toward a long-run
 * rate; and of a shock rate in one named year, with another rate in the others.
 *
 * A path starts at 1.0 and is multiplied each year by 1.0 plus that year's rate. The fading rate of year 1 is the rate as sent, and each later one is
 * long_run + 0.5 * (the rate of the year before - long_run). A year's index is the path times 1,000,000.0 to the nearest whole number, halves up. Every operation is
 * rounded to a 64-bit float by itself.
 *
 * Refused 20 where a rate is not a number or lies outside -0.5 to 1.0, one that no year uses too (the long-run rate of a single year, the other rate of a
 * shock in the only year), where year is not from 1 to years, and where years is not from 1 to 16; then 21 where an index leaves 1 to 5,000,000. The limits are
 * inside, and so is -0.0. The sixteen values are zeros on either.
 *
 * rate                 the flat rate; the rate of year 1; the rate of the shock: 0.02 is two percent
 * long_run, other      the long-run rate; the rate of the years without the shock
 * year                 the year of the shock, 1 to years
 * years                how many years are wanted, 1 to 16
 *
 * Nothing is allocated, kept or freed; any number of threads may call at once. A thread's rounding must be to nearest, as it is where a program starts. */
doonamurk_indices doonamurk_flat(double rate, uint64_t years);
doonamurk_indices doonamurk_fading(double rate, double long_run, uint64_t years);
doonamurk_indices doonamurk_shock(double rate, double other, uint64_t year, uint64_t years);

#ifdef __cplusplus
}
#endif

#endif
