/* What R's .C can call: R has no 64-bit whole numbers and passes everything by reference, so results, indices and years are doubles and counts ints.
 *
 * Every result is below 2^53 (a total of provisions is below 2^44, and a sum of absolute gaps, the largest, below 5.3 * 10^15), so a double holds it exactly;
 * fits() checks it all the same, and the answer is then -1. A refused run, read, write, history or hindsight run leaves R's vectors as they were.
 *
 * Threads: nothing here is shared or kept between calls, so any number could call at once; R itself calls from one thread only. R owns every vector. */
#include "../c/doonamurk.h"

#include <stdlib.h>

static int fits(const int64_t *list, size_t n)
{
    for (size_t i = 0; i < n; i++)
        if (list[i] > (int64_t)1 << 53 || list[i] < -((int64_t)1 << 53))
            return 0;
    return 1;
}

/* Copies n entries out, or none of them. */
static int hand_out(const int64_t *list, double *out, size_t n)
{
    if (!fits(list, n))
        return -1;
    for (size_t i = 0; i < n; i++)
        out[i] = (double)list[i];
    return 0;
}

/* The result list of a record for a valuation year, which is whole and from 0 to 2^53. results has *results_len doubles, as many as are to be filled at most.
 * *answer is 0, or 1 to 19, the first question that says no, or -1; results is filled only where it is 0. */
void doonamurk_r_run(const double *year, const unsigned char *record, const int *record_len, double *results, const int *results_len, int *answer)
{
    int64_t list[DOONAMURK_RESULTS_MAX];
    size_t room = *results_len < DOONAMURK_RESULTS_MAX ? (size_t)*results_len : DOONAMURK_RESULTS_MAX;
    *answer = (int)doonamurk_run((uint64_t)*year, record, (size_t)*record_len, list, room);
    if (*answer == 0)
        *answer = hand_out(list, results, doonamurk_result_count(record[0] >> 4));
}

/* The fields of a record, k first, in the same way; *answer is 0, or 1 to 5, or -1. */
void doonamurk_r_read(const unsigned char *record, const int *record_len, double *fields, const int *fields_len, int *answer)
{
    int64_t list[DOONAMURK_FIELDS_MAX];
    size_t room = *fields_len < DOONAMURK_FIELDS_MAX ? (size_t)*fields_len : DOONAMURK_FIELDS_MAX;
    *answer = (int)doonamurk_read(record, (size_t)*record_len, list, room);
    if (*answer == 0)
        *answer = hand_out(list, fields, doonamurk_field_count(record[0] >> 4));
}

/* n doubles, whole and from 0 to 2^53, as 64-bit numbers; null where there is no memory. */
static uint64_t *whole(const double *values, size_t n)
{
    uint64_t *numbers = malloc((n + 1) * sizeof *numbers);
    for (size_t i = 0; numbers && i < n; i++)
        numbers[i] = (uint64_t)values[i];
    return numbers;
}

/* The record of the years 0 to *k. numbers has the exposures, increments, indices, reporting shares, the weight, the ULAE totals and the amount still to be
 * paid one after another, counts how many of each; all are whole and at most 2^53 in size, and none but the increments is below zero. *answer is 0, or 1, 2,
 * 4 or 5, or -1 where there is no memory; record is filled only where it is 0. */
void doonamurk_r_write(const double *k, const double *numbers, const int *counts, unsigned char *record, const int *record_len, int *answer)
{
    const double *paid = numbers + counts[0], *indices = paid + counts[1], *reporting = indices + counts[2], *weight = reporting + counts[3];
    const double *ulae = weight + 1, *tail = ulae + counts[5];
    uint64_t *n = whole(numbers, (size_t)counts[0]), *e = whole(indices, (size_t)counts[2]), *b = whole(reporting, (size_t)counts[3]);
    uint64_t *u = whole(ulae, (size_t)counts[5]);
    int64_t *p = malloc(((size_t)counts[1] + 1) * sizeof *p);
    *answer = -1;
    if (n && e && b && u && p) {
        for (int i = 0; i < counts[1]; i++)
            p[i] = (int64_t)paid[i];
        *answer = (int)doonamurk_write((uint64_t)*k, n, (size_t)counts[0], p, (size_t)counts[1], e, (size_t)counts[2], b, (size_t)counts[3],
                                       (uint64_t)*weight, u, (size_t)counts[5], (uint64_t)*tail, record, (size_t)*record_len);
    }
    free(n);
    free(e);
    free(b);
    free(u);
    free(p);
}

/* The result of a history of *years years, the entries of its positions one after another, for a window of *width years; both are whole and from 0 to 2^53.
 * exposures has *n doubles and cells *c, row by row, all whole and at most 2^53 in size, and no exposure below zero; result has *m. *answer is 0, or 27 or 28, or
 * -1 where an entry is past 2^53 or there is no memory; result is filled only where it is 0. */
void doonamurk_r_history(const double *years, const double *width, const double *exposures, const int *n, const double *cells, const int *c, double *result,
                         const int *m, int *answer)
{
    uint64_t *claims = whole(exposures, (size_t)*n);
    int64_t *paid = malloc(((size_t)*c + 1) * sizeof *paid), *list = malloc(((size_t)*m + 1) * sizeof *list);
    *answer = -1;
    if (claims && paid && list) {
        for (int i = 0; i < *c; i++)
            paid[i] = (int64_t)cells[i];
        *answer = (int)doonamurk_history((uint64_t)*years, (uint64_t)*width, claims, (size_t)*n, paid, (size_t)*c, list, (size_t)*m);
        if (*answer == 0)
            *answer = hand_out(list, result, (size_t)*m);
    }
    free(claims);
    free(paid);
    free(list);
}

/* The report of a hindsight run over a record: *n settings, all whole and from 0 to 2^53. report has *m doubles, as many as are to be filled at most. *answer is 0, or
 * 29 or 1 to 6, or -1 where an entry is past 2^53 or there is no memory; report is filled only where it is 0. */
void doonamurk_r_hindsight(const unsigned char *record, const int *record_len, const double *settings, const int *n, double *report, const int *m, int *answer)
{
    int64_t list[DOONAMURK_REPORT_MAX];
    size_t room = *m < DOONAMURK_REPORT_MAX ? (size_t)*m : DOONAMURK_REPORT_MAX;
    uint64_t *tried = whole(settings, (size_t)*n);
    *answer = -1;
    if (tried) {
        *answer = (int)doonamurk_hindsight(record, (size_t)*record_len, tried, (size_t)*n, list, room);
        if (*answer == 0)
            *answer = hand_out(list, report, doonamurk_report_count(record[0] >> 4, (size_t)*n));
    }
    free(tried);
}

/* Hands out all sixteen indices, as the engine does: zeros past the years wanted, or on a refusal. Its answer is 0, 20 or 21, or -1 as above. */
static int hand_out_indices(doonamurk_indices indices, double *out)
{
    for (size_t i = 0; i < DOONAMURK_YEARS_MAX; i++) {
        if (indices.values[i] > (uint64_t)1 << 53)
            return -1;
        out[i] = (double)indices.values[i];
    }
    return (int)indices.refused;
}

/* The indices of rates, which may be any doubles, in *years years; that and the year of a shock are whole and from 0 to 2^53. values has 16 doubles. */
void doonamurk_r_flat(const double *rate, const double *years, double *values, int *answer)
{
    *answer = hand_out_indices(doonamurk_flat(*rate, (uint64_t)*years), values);
}

void doonamurk_r_fading(const double *rate, const double *long_run, const double *years, double *values, int *answer)
{
    *answer = hand_out_indices(doonamurk_fading(*rate, *long_run, (uint64_t)*years), values);
}

void doonamurk_r_shock(const double *rate, const double *other, const double *year, const double *years, double *values, int *answer)
{
    *answer = hand_out_indices(doonamurk_shock(*rate, *other, (uint64_t)*year, (uint64_t)*years), values);
}
