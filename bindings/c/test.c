/* Tests the C functions on Taylor's motor account, on document 01's two years, also with payments after the last year and in other valuation years, on
 * histories, on hindsight runs, on inflation rates, on refusals, and from several threads at once. Says which check fails, and ends with status 1. */
#include "doonamurk.h"

#include <pthread.h>
#include <stdio.h>
#include <string.h>

static int failures = 0;

static void check(int holds, const char *what)
{
    if (!holds) {
        printf("failed: %s\n", what);
        failures++;
    }
}

#define MOTOR_K 3
static const uint64_t motor_exposures[] = {1, 1, 1, 1};
static const int64_t motor_increments[] = {504, 282, 90, 48, 580, 292, 97, 595, 332, 662};
static const uint64_t motor_indices[] = {1100000, 1210000, 1331000, 1000000};
static const uint64_t motor_reporting[] = {700000, 200000, 80000, 20000};
static const uint64_t motor_ulae[] = {20, 25, 30, 35};

/* The record of the motor account, with the first exposure and the length of the increments to choose. */
static uint64_t write_motor(uint64_t k, uint64_t exposure, size_t cells, uint8_t *record, size_t record_len)
{
    uint64_t exposures[4];
    memcpy(exposures, motor_exposures, sizeof exposures);
    exposures[0] = exposure;
    return doonamurk_write(k, exposures, 4, motor_increments, cells, motor_indices, 4, motor_reporting, 4, 500000,
                           motor_ulae, 4, 0, record, record_len);
}

static void fill(int64_t *list, size_t n)
{
    for (size_t i = 0; i < n; i++)
        list[i] = -1000 - (int64_t)i;
}

static int filled(const int64_t *list, size_t from, size_t n)
{
    for (size_t i = from; i < n; i++)
        if (list[i] != -1000 - (int64_t)i)
            return 0;
    return 1;
}

static void sizes(void)
{
    check(doonamurk_record_bytes(1) == 45 && doonamurk_record_bytes(15) == DOONAMURK_RECORD_MAX, "bytes of a record");
    check(doonamurk_field_count(1) == 14 && doonamurk_field_count(15) == DOONAMURK_FIELDS_MAX, "fields of a record");
    check(doonamurk_result_count(1) == 22 && doonamurk_result_count(15) == DOONAMURK_RESULTS_MAX, "entries of a result list");
}

/* The places by name, for every k: sections follow one another to the end of the list, and so do the cells of each. */
static void places(void)
{
    for (size_t k = 1; k <= DOONAMURK_K_MAX; k++) {
        size_t cell = 0, future = 0;
        check(doonamurk_section_start(k, DOONAMURK_SECTIONS) == doonamurk_result_count(k), "where the last section ends");
        for (size_t i = 0; i <= k; i++)
            for (size_t j = 0; j <= k; j++)
                check(i + j <= k ? doonamurk_cell(k, i, j) == cell++ : doonamurk_future_cell(k, i, j) == future++, "the place of a cell");
        check(cell == doonamurk_section_count(k, DOONAMURK_AVERAGES), "how many cells");
        check(future == doonamurk_section_count(k, DOONAMURK_PAYMENTS), "how many future cells");
    }
}

static void named_sections(void)
{
    uint8_t record[DOONAMURK_RECORD_MAX];
    int64_t list[DOONAMURK_RESULTS_MAX];
    size_t k = MOTOR_K;
    check(write_motor(k, 1, 10, record, doonamurk_record_bytes(k)) == 0, "the motor account is written");
    check(doonamurk_run(2026, record, doonamurk_record_bytes(k), list, DOONAMURK_RESULTS_MAX) == 0, "the motor account is accepted");
    check(list[doonamurk_section_start(k, DOONAMURK_AVERAGES) + doonamurk_cell(k, 2, 1)] == 33200, "an average by its years");
    check(list[doonamurk_section_start(k, DOONAMURK_SHARES) + 3] == 42142231, "a share by its year");
    check(list[doonamurk_section_start(k, DOONAMURK_PAYMENTS) + doonamurk_future_cell(k, 3, 1)] == 360, "a payment by its years");
    check(list[doonamurk_section_start(k, DOONAMURK_TOTAL_PROVISION)] == 760, "the total provision");
    check(list[doonamurk_section_start(k, DOONAMURK_TOTAL_ULAE_RESERVE)] == 19, "the total ULAE reserve");
    check(list[doonamurk_section_start(k, DOONAMURK_ULAE_RATIO)] == 31591, "the ULAE ratio");
    check(list[doonamurk_section_start(k, DOONAMURK_COMPLETED_CUMULATIVES) + doonamurk_future_cell(k, 3, 3)] == 1195, "a completed cumulative");
}

/* The record of document 01's two years, with the indices and the amount still to be paid for year 0 to choose. */
static void write_two_years(uint64_t next_index, uint64_t last_index, uint64_t tail, uint8_t *record)
{
    const uint64_t exposures[] = {1, 1}, indices[] = {next_index, last_index}, reporting[] = {800000, 200000}, ulae[] = {6, 10};
    const int64_t increments[] = {60, 40, 66};
    check(doonamurk_write(1, exposures, 2, increments, 3, indices, 2, reporting, 2, 500000, ulae, 2, tail, record, 45) == 0,
          "the two years are written");
}

static void two_years(void)
{
    static const int64_t printed[] = {6000, 4000, 6600, 622641509, 377358491, 9636, 10600, 11660, 44, 0,
                                      44, 44, 0, 22, 0, 3, 3, 96385, 1666666, 109, 0, 0};
    uint8_t record[45];
    int64_t results[22];
    write_two_years(1100000, 1000000, 0, record);
    check(doonamurk_run(2026, record, 45, results, 22) == 0, "the two years are accepted");
    check(memcmp(results, printed, sizeof printed) == 0, "the two years have the printed list");
}

/* The two years with 100 still to be paid for year 0, which the indices carry to 110 for year 1. */
static void tail_payments(void)
{
    static const int64_t tails[] = {100, 110}, provisions[] = {100, 154}, reserves[] = {4, 9};
    uint8_t record[45];
    int64_t results[22], fields[14];
    write_two_years(1100000, 1210000, 100, record);
    check(doonamurk_run(2026, record, 45, results, 22) == 0, "an amount still to be paid is accepted");
    check(memcmp(results + doonamurk_section_start(1, DOONAMURK_TAIL_PAYMENTS), tails, sizeof tails) == 0, "payments after the last year");
    check(memcmp(results + doonamurk_section_start(1, DOONAMURK_PROVISIONS), provisions, sizeof provisions) == 0, "provisions with them");
    check(memcmp(results + doonamurk_section_start(1, DOONAMURK_ULAE_RESERVES), reserves, sizeof reserves) == 0, "ULAE reserves with them");
    check(doonamurk_read(record, 45, fields, 14) == 0 && fields[7] == 1210000 && fields[13] == 100, "the last index and the amount are read");
}

/* The ratio of a valuation year: from 2027 on 108 are reported in the latest year and 106 paid, and the divisor is 1.009433. */
static void valuation_years(void)
{
    static const struct { uint64_t year; int64_t ratio, ratio_with_tail; } due[] = {
        {0, 96385, 96385}, {2026, 96385, 96385}, {2027, 95484, 63458}, {2028, 95484, 63458}, {UINT64_MAX, 95484, 63458},
    };
    uint8_t record[45], with_tail[45];
    int64_t results[22];
    size_t ratio = doonamurk_section_start(1, DOONAMURK_ULAE_RATIO), reserves = doonamurk_section_start(1, DOONAMURK_ULAE_RESERVES);
    write_two_years(1100000, 1000000, 0, record);
    write_two_years(1100000, 1210000, 100, with_tail);
    for (size_t i = 0; i < sizeof due / sizeof *due; i++) {
        check(doonamurk_run(due[i].year, record, 45, results, 22) == 0 && results[ratio] == due[i].ratio, "the ratio of a valuation year");
        check(doonamurk_run(due[i].year, with_tail, 45, results, 22) == 0 && results[ratio] == due[i].ratio_with_tail,
              "the ratio of a valuation year with payments after the last year");
    }
    check(results[reserves] == 3 && results[reserves + 1] == 6, "ULAE reserves by the corrected ratio");
}

/* Averages that lie halfway between two hundredths go to the even one, negative ones too. */
static void halves(void)
{
    static const int64_t averages[] = {5012, -12, 38, 62, 5038, 88, -38, 5062, 112, 5088};
    const uint64_t exposures[] = {8, 8, 8, 8}, indices[] = {1000000, 1000000, 1000000, 1000000}, reporting[] = {1000000, 0, 0, 0}, ulae[] = {0, 0, 0, 0};
    const int64_t increments[] = {401, -1, 3, 5, 403, 7, -3, 405, 9, 407};
    uint8_t record[DOONAMURK_RECORD_MAX];
    int64_t results[DOONAMURK_RESULTS_MAX];
    size_t bytes = doonamurk_record_bytes(3);
    check(doonamurk_write(3, exposures, 4, increments, 10, indices, 4, reporting, 4, 0, ulae, 4, 0, record, bytes) == 0, "halves are written");
    check(doonamurk_run(2026, record, bytes, results, DOONAMURK_RESULTS_MAX) == 0, "halves are accepted");
    check(memcmp(results, averages, sizeof averages) == 0, "halves go to the even hundredth");
}

static void motor_account(void)
{
    static const int64_t shares[] = {583475514, 287767456, 86614799, 42142231};
    static const int64_t levels[] = {86378, 98939, 101998, 113900};
    uint8_t record[DOONAMURK_RECORD_MAX];
    int64_t results[DOONAMURK_RESULTS_MAX];
    size_t bytes = doonamurk_record_bytes(MOTOR_K), count = doonamurk_result_count(MOTOR_K);
    check(write_motor(MOTOR_K, 1, 10, record, bytes) == 0, "the motor account is written");
    fill(results, DOONAMURK_RESULTS_MAX);
    check(doonamurk_run(2026, record, bytes, results, DOONAMURK_RESULTS_MAX) == 0, "the motor account is accepted");
    check(memcmp(results + 10, shares, sizeof shares) == 0, "shares of the motor account");
    check(memcmp(results + 14, levels, sizeof levels) == 0, "levels of the motor account");
    check(filled(results, count, DOONAMURK_RESULTS_MAX), "entries past the list keep what they held");

    int64_t list[DOONAMURK_FIELDS_MAX];
    fill(list, DOONAMURK_FIELDS_MAX);
    check(doonamurk_read(record, bytes, list, DOONAMURK_FIELDS_MAX) == 0, "the motor account is read");
    check(list[0] == MOTOR_K && memcmp(list + 5, motor_increments, sizeof motor_increments) == 0, "fields of the motor account");
    check(filled(list, doonamurk_field_count(MOTOR_K), DOONAMURK_FIELDS_MAX), "entries past the fields keep what they held");
}

/* A refused run or read leaves every entry. */
static void refused_in(uint64_t year, uint64_t number, const uint8_t *record, size_t len, size_t room, const char *what)
{
    int64_t results[DOONAMURK_RESULTS_MAX];
    fill(results, DOONAMURK_RESULTS_MAX);
    uint64_t answer = doonamurk_run(year, record, len, results, room);
    check(answer == number && filled(results, 0, DOONAMURK_RESULTS_MAX), what);
    if (number <= 5 && number != 3) {
        answer = doonamurk_read(record, len, results, room);
        check(answer == number && filled(results, 0, DOONAMURK_RESULTS_MAX), what);
    }
}

static void refused(uint64_t number, const uint8_t *record, size_t len, size_t room, const char *what)
{
    refused_in(2026, number, record, len, room, what);
}

static void refusals(void)
{
    uint8_t record[DOONAMURK_RECORD_MAX], changed[DOONAMURK_RECORD_MAX];
    size_t bytes = doonamurk_record_bytes(MOTOR_K);
    check(write_motor(MOTOR_K, 1, 10, record, bytes) == 0, "the motor account is written");

    refused(1, record, 0, DOONAMURK_RESULTS_MAX, "refused 1: no first byte");
    refused(2, record, bytes - 1, DOONAMURK_RESULTS_MAX, "refused 2: a byte too few");
    refused(3, record, bytes, doonamurk_result_count(MOTOR_K) - 1, "refused 3: an entry too few");
    memcpy(changed, record, bytes);
    changed[bytes - 1] |= 1;
    refused(2, changed, bytes, DOONAMURK_RESULTS_MAX, "refused 2: a filling bit");
    memcpy(changed, record, bytes);
    changed[0] &= 0xf0; /* the first exposure, bits 4 to 23, is 0 */
    changed[1] = changed[2] = 0;
    refused(4, changed, bytes, DOONAMURK_RESULTS_MAX, "refused 4: an exposure of 0");

    int64_t list[DOONAMURK_FIELDS_MAX];
    fill(list, DOONAMURK_FIELDS_MAX);
    check(doonamurk_read(record, bytes, list, doonamurk_field_count(MOTOR_K) - 1) == 3 && filled(list, 0, DOONAMURK_FIELDS_MAX),
          "refused 3 by read: an entry too few");

    /* Document 01: the two-year cells with 66 made 0 are refused 8, with first cell 0 refused 13, with U 6, 161 refused 12. */
    const struct { int64_t cells[3]; uint64_t ulae[2]; uint64_t number; const char *what; } marked[] = {
        {{60, 40, 0}, {6, 10}, 8, "refused 8: the two years with 66 made 0"},
        {{0, 40, 66}, {6, 10}, 13, "refused 13: the two years with first cell 0"},
        {{0, 40, 66}, {6, 161}, 13, "refused 13: the two years with first cell 0 and U 6, 161"},
        {{0, -1, 66}, {6, 10}, 6, "refused 6: the two years with first cell 0 and less paid after it"},
        {{60, 40, 66}, {6, 161}, 12, "refused 12: the two years with U 6, 161"},
    };
    const uint64_t exposures[] = {1, 1}, indices[] = {1100000, 1000000}, reporting[] = {800000, 200000};
    for (size_t i = 0; i < sizeof marked / sizeof *marked; i++) {
        check(doonamurk_write(1, exposures, 2, marked[i].cells, 3, indices, 2, reporting, 2, 500000, marked[i].ulae, 2, 0, changed, 45) == 0,
              "a changed two years is written");
        refused(marked[i].number, changed, 45, 22, marked[i].what);
    }
    /* Document 01's k = 2 case: nothing is paid in development year 0, and a running share is 0; and one that has a base and small factors. */
    const struct { int64_t cells[6]; uint64_t number; const char *what; } three_years[] = {
        {{0, 5000, 999999, 0, 0, 1}, 13, "refused 13: no base of the chain ladder, and a running share of 0"},
        {{5000, 45000, 2000000, 0, 0, 1}, 9, "refused 9: a running share of 0"},
    };
    const uint64_t hundred[] = {100, 100, 100}, level[] = {1000000, 1000000, 1000000}, at_once[] = {1000000, 0, 0}, none[] = {0, 0, 0};
    for (size_t i = 0; i < sizeof three_years / sizeof *three_years; i++) {
        bytes = doonamurk_record_bytes(2);
        check(doonamurk_write(2, hundred, 3, three_years[i].cells, 6, level, 3, at_once, 3, 0, none, 3, 0, changed, bytes) == 0, "three years are written");
        refused_in(2026, three_years[i].number, changed, bytes, doonamurk_result_count(2), three_years[i].what);
        refused_in(2027, three_years[i].number, changed, bytes, doonamurk_result_count(2), three_years[i].what);
    }
    /* An average of 10^9 and 100 hundredths, and one of 10^9 that the indices carry to 6 * 10^9. */
    write_two_years(1000000, 1000000, 10000001, changed);
    refused(18, changed, 45, 22, "refused 18: an average still to be paid above 10^9");
    write_two_years(1, 6, 10000000, changed);
    refused(19, changed, 45, 22, "refused 19: an average carried to year 1 above 5 * 10^9");
}

/* Refused 8: no exact solution, many, and exactly one, whose shares are -1, 0, 2. Accepted: the products of shares 3/5, 2/5 and levels 100, 200. */
static void solutions(void)
{
    const struct { int64_t cells[6]; const char *what; } without[] = {
        {{1, 0, 0, 0, 1, 0}, "refused 8: no exact solution"},
        {{1, 0, 0, 0, 0, 0}, "refused 8: many exact solutions"},
        {{0, 1, 2, 1, -1, 0}, "refused 8: exactly one exact solution, of the wrong kind"},
    };
    const uint64_t one[] = {1, 1, 1}, level[] = {1000000, 1000000, 1000000}, at_once[] = {1000000, 0, 0}, none[] = {0, 0, 0};
    uint8_t record[DOONAMURK_RECORD_MAX];
    for (size_t i = 0; i < sizeof without / sizeof *without; i++) {
        size_t bytes = doonamurk_record_bytes(2);
        check(doonamurk_write(2, one, 3, without[i].cells, 6, level, 3, at_once, 3, 0, none, 3, 0, record, bytes) == 0, "three years are written");
        refused_in(2026, 8, record, bytes, doonamurk_result_count(2), without[i].what);
        refused_in(2027, 8, record, bytes, doonamurk_result_count(2), without[i].what);
    }
    static const int64_t products[] = {60, 80, 120}, shares[] = {600000000, 400000000}, levels[] = {10000, 20000};
    int64_t results[22];
    check(doonamurk_write(1, one, 2, products, 3, level, 2, at_once, 2, 0, none, 2, 0, record, 45) == 0, "products are written");
    check(doonamurk_run(2026, record, 45, results, 22) == 0, "products of shares and levels are accepted");
    check(memcmp(results + doonamurk_section_start(1, DOONAMURK_SHARES), shares, sizeof shares) == 0, "the shares of products");
    check(memcmp(results + doonamurk_section_start(1, DOONAMURK_LEVELS), levels, sizeof levels) == 0, "the levels of products");
}

/* What only valuation years from 2027 on ask; in 2026 each of these is accepted. */
static void growth_refusals(void)
{
    const struct { uint64_t exposures[2]; int64_t cells[3]; uint64_t ulae[2]; uint64_t number; const char *what; } asked[] = {
        {{300, 1}, {10, -1, 1}, {0, 0}, 15, "refused 15: as much is paid back in the latest year as is paid"},
        {{1, 1}, {1, 0, 2000000}, {0, 0}, 16, "refused 16: the divisor is 0"},
        {{1, 1}, {60, 40, 66}, {66, 100}, 17, "refused 17: the corrected ratio is 1.06"},
    };
    const uint64_t indices[] = {1100000, 1000000}, reporting[] = {0, 1000000};
    for (size_t i = 0; i < sizeof asked / sizeof *asked; i++) {
        uint8_t record[45];
        int64_t results[22];
        check(doonamurk_write(1, asked[i].exposures, 2, asked[i].cells, 3, indices, 2, reporting, 2, 1000000, asked[i].ulae, 2, 0, record, 45) == 0,
              "a changed two years is written");
        check(doonamurk_run(2026, record, 45, results, 22) == 0, "what 2027 asks is not asked in 2026");
        refused_in(2027, asked[i].number, record, 45, 22, asked[i].what);
    }
}

static void refused_writes(void)
{
    static const struct { uint64_t k, exposure; size_t cells, over; uint64_t number; const char *what; } calls[] = {
        {0, 1, 10, 0, 1, "write refused 1: k is 0"},
        {16, 1, 10, 0, 1, "write refused 1: k is 16"},
        {3, 1, 9, 0, 2, "write refused 2: an increment too few"},
        {3, 1, 10, 1, 2, "write refused 2: a byte too many"},
        {3, 0, 10, 0, 4, "write refused 4: an exposure of 0"},
        {3, 1000001, 10, 0, 4, "write refused 4: an exposure above a million"},
    };
    uint8_t record[DOONAMURK_RECORD_MAX], before[DOONAMURK_RECORD_MAX];
    memset(before, 0xa5, sizeof before);
    for (size_t i = 0; i < sizeof calls / sizeof *calls; i++) {
        memcpy(record, before, sizeof record);
        uint64_t answer = write_motor(calls[i].k, calls[i].exposure, calls[i].cells, record, doonamurk_record_bytes(MOTOR_K) + calls[i].over);
        check(answer == calls[i].number && memcmp(record, before, sizeof record) == 0, calls[i].what);
    }
    const uint64_t reporting[] = {700000, 200000, 80000, 20001};
    memcpy(record, before, sizeof record);
    uint64_t answer = doonamurk_write(MOTOR_K, motor_exposures, 4, motor_increments, 10, motor_indices, 4, reporting, 4, 500000,
                                      motor_ulae, 4, 0, record, doonamurk_record_bytes(MOTOR_K));
    check(answer == 5 && memcmp(record, before, sizeof record) == 0, "write refused 5: reporting shares of 1,000,001");
    answer = doonamurk_write(MOTOR_K, motor_exposures, 4, motor_increments, 10, motor_indices, 3, motor_reporting, 4, 500000,
                             motor_ulae, 4, 0, record, doonamurk_record_bytes(MOTOR_K));
    check(answer == 2 && memcmp(record, before, sizeof record) == 0, "write refused 2: an index too few");
    answer = doonamurk_write(MOTOR_K, motor_exposures, 4, motor_increments, 10, motor_indices, 4, motor_reporting, 4, 500000,
                             motor_ulae, 4, 10000000001, record, doonamurk_record_bytes(MOTOR_K));
    check(answer == 4 && memcmp(record, before, sizeof record) == 0, "write refused 4: an amount still to be paid above 10^10");
}

/* The motor account as a history, through windows of each width; in those of four years it is the record's, and the cut of its first three is 004's. */
static void motor_history(void)
{
    static const struct { uint64_t width; size_t count; int64_t due[15]; } windows[] = {
        {2, 15, {0, 672853828, 327146172, 74904, 86200, 0, 670800450, 329199550, 86463, 88700, 0, 665995975, 334004025, 89339, 99400}},
        {3, 14, {0, 609925952, 297955317, 92118731, 82632, 94946, 97700, 0, 608846923, 302243819, 88909258, 95262, 97355, 109100}},
        {4, 9, {0, 583475514, 287767456, 86614799, 42142231, 86378, 98939, 101998, 113900}},
    };
    for (size_t i = 0; i < sizeof windows / sizeof *windows; i++) {
        int64_t result[24];
        size_t count = windows[i].count;
        fill(result, 24);
        check(count == doonamurk_history_count(4, windows[i].width), "entries of the motor account's windows");
        check(doonamurk_history(4, windows[i].width, motor_exposures, 4, motor_increments, 10, result, count) == 0, "the motor account as a history");
        check(memcmp(result, windows[i].due, count * sizeof *result) == 0, "windows of the motor account");
        check(filled(result, count, 24), "entries past a history's result keep what they held");
    }
}

/* A history of sixty-four years, all that fits, and its sizes and places. */
static uint64_t long_exposures[DOONAMURK_HISTORY_YEARS_MAX + 1];
static int64_t long_cells[DOONAMURK_HISTORY_CELLS_MAX + 17];

static void fill_long(void)
{
    size_t at = 0;
    for (size_t i = 0; i < DOONAMURK_HISTORY_YEARS_MAX; i++) {
        long_exposures[i] = 1000 + 7 * i;
        for (size_t j = 0; j < 16 && i + j < DOONAMURK_HISTORY_YEARS_MAX; j++) {
            check(doonamurk_history_cell(DOONAMURK_HISTORY_YEARS_MAX, i, j) == at, "the place of a history's cell");
            long_cells[at++] = (int64_t)((900000 + 31000 * (i + j)) >> (2 * j / 3));
        }
    }
    check(at == DOONAMURK_HISTORY_CELLS_MAX && at == doonamurk_history_cells(DOONAMURK_HISTORY_YEARS_MAX), "the cells of a long history");
    check(doonamurk_history_count(64, 16) == DOONAMURK_HISTORY_RESULTS_MAX && doonamurk_history_count(2, 2) == 5, "entries of a history's result");
    long_exposures[DOONAMURK_HISTORY_YEARS_MAX] = 1;
}

/* Each position equals the record that is cut out for it. */
static void cut_out(void)
{
    for (size_t width = DOONAMURK_WIDTH_MIN; width <= DOONAMURK_WIDTH_MAX; width++) {
        static int64_t result[DOONAMURK_HISTORY_RESULTS_MAX + 4];
        size_t years = DOONAMURK_HISTORY_YEARS_MAX, k = width - 1, count = doonamurk_history_count(years, width);
        fill(result, count + 4);
        check(doonamurk_history(years, width, long_exposures, years, long_cells, DOONAMURK_HISTORY_CELLS_MAX, result, count) == 0, "a long history");
        check(filled(result, count, count + 4), "entries past a long history's result keep what they held");
        for (size_t a = 0; a + width <= years; a++) {
            const uint64_t none[16] = {0}, all[16] = {1000000};
            uint64_t level[16];
            int64_t cells[136], list[DOONAMURK_RESULTS_MAX];
            uint8_t record[DOONAMURK_RECORD_MAX];
            size_t at = 0, bytes = doonamurk_record_bytes(k);
            for (size_t i = 0; i < width; i++) {
                level[i] = 1000000;
                for (size_t j = 0; i + j < width; j++)
                    cells[at++] = long_cells[doonamurk_history_cell(years, a + i, j)];
            }
            check(doonamurk_write(k, long_exposures + a, width, cells, at, level, width, all, width, 0, none, width, 0, record, bytes) == 0
                  && doonamurk_run(2026, record, bytes, list, DOONAMURK_RESULTS_MAX) == 0, "the record that is cut out for a position");
            const int64_t *position = result + doonamurk_position_start(width, a);
            check(position[0] == 0 && memcmp(position + 1, list + doonamurk_section_start(k, DOONAMURK_SHARES), 2 * width * sizeof *list) == 0,
                  "a position equals the record that is cut out for it");
        }
    }
}

/* A position that is refused has its number and zeros, and the others are as they are: 7 by a column below zero, 8 by a year without payments, 10 by a level above
 * 10^9, and 9, which takes three years, by a running share of 0. */
static void refused_positions(void)
{
    static const uint64_t hundred[6] = {100, 100, 100, 100, 100, 100};
    static const int64_t two[21] = {60, 40, 0, 0, 0, 0, 66, -1, 0, 0, 0, 80, 5, 0, 0, 0, 1000000, 0, 1000, 1000000, 1};
    static const int64_t numbers[5] = {0, 7, 8, 0, 10};
    int64_t result[25];
    check(doonamurk_history(6, 2, hundred, 6, two, 21, result, 25) == 0, "a history with refused positions");
    for (size_t a = 0; a < 5; a++) {
        const int64_t *position = result + doonamurk_position_start(2, a);
        check(position[0] == numbers[a], "the number of a position");
        check(numbers[a] == 0 ? position[1] + position[2] == 1000000000 : position[1] == 0 && position[2] == 0 && position[3] == 0 && position[4] == 0,
              "shares that sum to 10^9, or zeros");
    }
    static const int64_t three[6] = {0, 5000, 999999, 0, 0, 1}, nine[7] = {9, 0, 0, 0, 0, 0, 0};
    check(doonamurk_history(3, 3, hundred, 3, three, 6, result, 7) == 0 && memcmp(result, nine, sizeof nine) == 0, "a position that 9 refuses");
}

/* A refused history leaves every entry. */
static void history_is(uint64_t number, uint64_t years, uint64_t width, size_t n, size_t c, size_t m, const char *what)
{
    static int64_t result[DOONAMURK_HISTORY_RESULTS_MAX + 8];
    fill(result, DOONAMURK_HISTORY_RESULTS_MAX + 8);
    check(doonamurk_history(years, width, long_exposures, n, long_cells, c, result, m) == number, what);
    check(number == 0 || filled(result, 0, DOONAMURK_HISTORY_RESULTS_MAX + 8), what);
}

static void refused_histories(void)
{
    const uint64_t far = (uint64_t)1 << 32, sign = (uint64_t)1 << 63;
    history_is(0, 64, 16, 64, 904, 1617, "the longest history");
    history_is(27, 65, 16, 65, 920, 1650, "refused 27: 65 years");
    history_is(27, 0, 2, 0, 0, 0, "refused 27: no years");
    history_is(27, 1, 1, 1, 1, 3, "refused 27: one year");
    history_is(27, 1, 2, 1, 1, 5, "refused 27: a width above the years");
    history_is(27, 5, 6, 5, 15, 13, "refused 27: a width above the years");
    history_is(27, 20, 17, 20, 200, 140, "refused 27: a width of 17");
    history_is(27, 20, 1, 20, 200, 60, "refused 27: a width of 1");
    history_is(27, 20, 0, 20, 200, 21, "refused 27: a width of 0");
    history_is(27, far + 20, 2, 20, 200, 95, "refused 27: years past 32 bits");
    history_is(27, 20, far + 2, 20, 200, 95, "refused 27: a width past 32 bits");
    history_is(27, sign + 20, sign + 2, 20, 200, 95, "refused 27: years and a width past 63 bits");
    history_is(27, UINT64_MAX, 2, 20, 200, 95, "refused 27: the most years of 64 bits");
    history_is(27, 20, UINT64_MAX, 20, 200, 95, "refused 27: the largest width of 64 bits");
    history_is(27, 65, 2, 64, 904, 0, "refused 27 before 28");
    history_is(28, 20, 2, 19, 200, 95, "refused 28: an exposure too few");
    history_is(28, 20, 2, 21, 200, 95, "refused 28: an exposure too many");
    history_is(28, 20, 2, 20, 199, 95, "refused 28: a cell too few");
    history_is(28, 20, 2, 20, 201, 95, "refused 28: a cell too many");
    history_is(28, 20, 2, 20, 200, 94, "refused 28: a result that is an entry too short");
    history_is(28, 20, 2, 20, 200, 96, "refused 28: a result that is an entry too long");
    history_is(28, 20, 2, 20, 200, 0, "refused 28: no result");
    static const uint64_t claims[] = {0, 1000001, ((uint64_t)1 << 32) + 1, (uint64_t)1 << 63, UINT64_MAX};
    for (size_t i = 0; i < sizeof claims / sizeof *claims; i++) {
        uint64_t before = long_exposures[19];
        long_exposures[19] = claims[i];
        history_is(28, 20, 2, 20, 200, 95, "refused 28: an exposure out of its range");
        history_is(27, 20, 1, 20, 200, 60, "refused 27 before 28: an exposure out of its range");
        long_exposures[19] = before;
    }
    /* the first cell, the last one, and one that no window of two years has */
    static const int64_t amounts[] = {10000000001, -10000000001, INT64_MAX, INT64_MIN};
    const size_t places[] = {0, 199, doonamurk_history_cell(20, 3, 15)};
    for (size_t i = 0; i < sizeof amounts / sizeof *amounts; i++)
        for (size_t p = 0; p < sizeof places / sizeof *places; p++) {
            int64_t before = long_cells[places[p]];
            long_cells[places[p]] = amounts[i];
            history_is(28, 20, 2, 20, 200, 95, "refused 28: a cell out of its range");
            history_is(27, 20, 17, 20, 200, 140, "refused 27 before 28: a cell out of its range");
            long_cells[places[p]] = amounts[i] < 0 ? -10000000000 : 10000000000;
            history_is(0, 20, 2, 20, 200, 95, "a cell at its limit");
            long_cells[places[p]] = before;
        }
}

/* The record of a triangle of so many years, its other fields plain; its length. */
static size_t write_plain(size_t years, const uint64_t *exposures, const int64_t *cells, uint64_t first_index, uint8_t *record)
{
    const uint64_t none[16] = {0}, all[16] = {1000000};
    uint64_t indices[16];
    size_t k = years - 1, bytes = doonamurk_record_bytes(k);
    for (size_t i = 0; i < years; i++)
        indices[i] = i == 0 ? first_index : 1000000;
    check(doonamurk_write(k, exposures, years, cells, doonamurk_cells(k), indices, years, all, years, 0, none, years, 0, record, bytes) == 0,
          "a plain record is written");
    return bytes;
}

static const uint64_t hundreds[5] = {100, 100, 100, 100, 100}, single[5] = {1, 1, 1, 1, 1};

/* A hindsight run whose report is this one, and no entry more. */
static void report_is(const uint8_t *record, size_t bytes, const uint64_t *settings, size_t n, const int64_t *due, size_t count, const char *what)
{
    int64_t report[DOONAMURK_REPORT_MAX];
    fill(report, DOONAMURK_REPORT_MAX);
    check(count == doonamurk_report_count(record[0] >> 4, n), "entries of a report");
    check(doonamurk_hindsight(record, bytes, settings, n, report, DOONAMURK_REPORT_MAX) == 0, what);
    check(memcmp(report, due, count * sizeof *report) == 0, what);
    check(filled(report, count, DOONAMURK_REPORT_MAX), "entries past a report keep what they held");
}

/* Document 01's two years with the year after them, 0, 44, 70: the forecasts of row 1 are 0, 40, 44, 48 and 200. The motor account with an index of 1: 90 and 291 from
 * the cut to three years, 282 from that to two. Where every step is marked the first setting is the best. The latest year takes no part in a step. */
static void worked_reports(void)
{
    static const int64_t three_years[6] = {60, 40, 0, 66, 44, 70}, nothing[10] = {0}, late[6] = {60, 40, 0, 66, 44, 10000000000};
    static const struct { size_t n; uint64_t settings[4]; int64_t due[13]; } runs[] = {
        {1, {1100000}, {0, 0, 0, 0}},
        {4, {1, 1000000, 1200000, 5000000}, {0, 44, 44, 0, 4, 4, 0, -4, 4, 0, -156, 156, 1}},
        {3, {1200000, 1000000, 1}, {0, -4, 4, 0, 4, 4, 0, 44, 44, 0}},
        {3, {1200000, 1000000, 1100000}, {0, -4, 4, 0, 4, 4, 0, 0, 0, 2}},
    };
    uint8_t record[DOONAMURK_RECORD_MAX];
    size_t bytes = write_plain(3, single, three_years, 1000000, record);
    for (size_t i = 0; i < sizeof runs / sizeof *runs; i++)
        report_is(record, bytes, runs[i].settings, runs[i].n, runs[i].due, doonamurk_report_count(2, runs[i].n), "three years in hindsight");
    static const uint64_t even[2] = {1000000, 1};
    static const int64_t motor[13] = {0, 7, 41, 0, 10, 58, 0, 97, 332, 0, 292, 721, 0}, marked[13] = {8, 0, 0, 8, 0, 0, 8, 0, 0, 8, 0, 0, 0}, zeros[4] = {0};
    check(write_motor(MOTOR_K, 1, 10, record, doonamurk_record_bytes(MOTOR_K)) == 0, "the motor account is written");
    report_is(record, doonamurk_record_bytes(MOTOR_K), even, 2, motor, 13, "the motor account in hindsight");
    bytes = write_plain(4, single, nothing, 1000000, record);
    report_is(record, bytes, even, 2, marked, 13, "nothing paid in hindsight");
    int64_t results[DOONAMURK_RESULTS_MAX];
    bytes = write_plain(3, single, late, 1000000, record);
    check(doonamurk_run(2026, record, bytes, results, DOONAMURK_RESULTS_MAX) == 7, "a latest year that 7 refuses");
    report_is(record, bytes, runs[0].settings, 1, zeros, 4, "a latest year that 7 refuses, in hindsight");
}

/* Each step equals the record that is cut out for it, with the setting for its first index. */
static void cut_steps(void)
{
    static const uint64_t settings[DOONAMURK_SETTINGS_MAX] = {1000000, 1040000, 1, 900000, 5000000, 1100000, 3, 1030000};
    check(doonamurk_report_count(2, 1) == 4 && doonamurk_report_count(15, 8) == DOONAMURK_REPORT_MAX, "entries of a report");
    for (size_t k = 2; k <= DOONAMURK_K_MAX; k++) {
        uint8_t record[DOONAMURK_RECORD_MAX];
        int64_t report[DOONAMURK_REPORT_MAX], cells[136];
        size_t n = 1 + k % DOONAMURK_SETTINGS_MAX, best = 0, at = 0;
        for (size_t i = 0; i <= k; i++)
            for (size_t j = 0; i + j <= k; j++)
                cells[at++] = long_cells[doonamurk_history_cell(DOONAMURK_HISTORY_YEARS_MAX, i, j)];
        size_t bytes = write_plain(k + 1, long_exposures, cells, 1000000, record);
        check(doonamurk_hindsight(record, bytes, settings, n, report, DOONAMURK_REPORT_MAX) == 0, "a long record in hindsight");
        at = 0;
        for (size_t setting = 0; setting < n; setting++) {
            int64_t sum = 0;
            for (size_t latest = k - 1; latest >= 1; latest--) {
                int64_t cut[136], list[DOONAMURK_RESULTS_MAX];
                size_t c = 0, payments = doonamurk_section_start(latest, DOONAMURK_PAYMENTS);
                check(doonamurk_step_start(k, setting, latest) == at, "where a step starts");
                for (size_t i = 0; i <= latest; i++)
                    for (size_t j = 0; i + j <= latest; j++)
                        cut[c++] = cells[doonamurk_cell(k, i, j)];
                bytes = write_plain(latest + 1, long_exposures, cut, settings[setting], record);
                check(doonamurk_run(2026, record, bytes, list, DOONAMURK_RESULTS_MAX) == 0, "the record that is cut out for a step");
                check(report[at] == 0, "a step without a mark");
                for (size_t i = 1; i <= latest; i++) {
                    size_t j = latest + 1 - i;
                    int64_t gap = cells[doonamurk_cell(k, i, j)] - list[payments + doonamurk_future_cell(latest, i, j)];
                    check(report[at + i] == gap, "a step equals the record that is cut out for it");
                    sum += gap < 0 ? -gap : gap;
                }
                at += 1 + latest;
            }
            check(doonamurk_setting_sum(k, setting) == at && report[at] == sum, "the sum of a setting");
            if (sum < report[doonamurk_setting_sum(k, best)])
                best = setting;
            at++;
        }
        check(at + 1 == doonamurk_report_count(k, n) && report[at] == (int64_t)best, "the best setting");
    }
}

/* For each of 7 to 10 a step with that mark and zeros between two that are fitted: a column below zero, a year without payments, a running share of 0, a level above
 * 10^9. */
static void marked_steps(void)
{
    static const struct { int64_t mark, cells[15]; } triangles[] = {
        {7, {60, 40, -50, 3, 1, 66, 45, 60, 2, 70, 47, 50, 80, 50, 90}},
        {8, {60, 40, 0, 3, 1, 66, 0, 10, 2, 0, 40, 9, 80, 50, 90}},
        {9, {100, 5000000, 500000000, 0, 0, 1, 0, 0, 0, 1, 0, 7, 400000000, 100000000, 2}},
        {10, {60, 40, 400000000, 0, 0, 66, 10, 0, 3, 10, 0, 100000000, 500000000, 44, 100000000}},
    };
    static const uint64_t settings[2] = {1000000, 1100000};
    for (size_t t = 0; t < sizeof triangles / sizeof *triangles; t++) {
        uint8_t record[DOONAMURK_RECORD_MAX];
        int64_t report[21];
        size_t bytes = write_plain(5, hundreds, triangles[t].cells, 1000000, record);
        check(doonamurk_hindsight(record, bytes, settings, 2, report, 21) == 0, "a record with a marked step");
        for (size_t setting = 0; setting < 2; setting++) {
            const int64_t *step = report + doonamurk_step_start(4, setting, 2);
            check(step[0] == triangles[t].mark && step[1] == 0 && step[2] == 0, "a mark and zeros");
            check(report[doonamurk_step_start(4, setting, 3)] == 0 && report[doonamurk_step_start(4, setting, 1)] == 0, "steps beside a marked one");
        }
    }
}

/* A refused hindsight run leaves every entry. */
static void hindsight_is(uint64_t number, const uint8_t *record, size_t len, const uint64_t *settings, size_t n, size_t m, const char *what)
{
    int64_t report[DOONAMURK_REPORT_MAX + 8];
    fill(report, DOONAMURK_REPORT_MAX + 8);
    check(doonamurk_hindsight(record, len, settings, n, report, m) == number, what);
    check(number == 0 || filled(report, 0, DOONAMURK_REPORT_MAX + 8), what);
}

static void refused_hindsights(void)
{
    static const int64_t three_years[6] = {60, 40, 0, 66, 44, 70}, paid_back[6] = {60, 40, 0, 66, -67, 70}, over[6] = {60, 40, 0, 66, -66, 70};
    uint64_t settings[9] = {1000000, 1000000, 1000000, 1000000, 1000000, 1000000, 1000000, 1000000, 1000000};
    uint8_t record[72] = {0}, two[45];
    size_t bytes = write_plain(3, single, three_years, 1000000, record);
    for (size_t n = 1; n <= 8; n++) {
        hindsight_is(0, record, bytes, settings, n, 3 * n + 1, "a report of just its length");
        hindsight_is(0, record, bytes, settings, n, DOONAMURK_REPORT_MAX, "a longer report");
        hindsight_is(3, record, bytes, settings, n, 3 * n, "refused 3: a report that is an entry too short");
        hindsight_is(3, record, bytes, settings, n, 0, "refused 3: no report");
    }
    hindsight_is(29, record, bytes, settings, 0, 1, "refused 29: no settings");
    hindsight_is(29, record, bytes, settings, 9, 28, "refused 29: nine settings");
    hindsight_is(29, record, bytes, settings, 0, 0, "refused 29 before 3: no settings");
    hindsight_is(29, record, bytes, settings, 9, 0, "refused 29 before 3: nine settings");
    static const uint64_t outside[] = {0, 5000001, ((uint64_t)1 << 32) + 1000000, (uint64_t)1 << 63, UINT64_MAX};
    for (size_t place = 0; place < 8; place++) {
        for (size_t i = 0; i < sizeof outside / sizeof *outside; i++) {
            settings[place] = outside[i];
            hindsight_is(29, record, bytes, settings, 8, DOONAMURK_REPORT_MAX, "refused 29: a setting out of its range");
            hindsight_is(29, record, bytes, settings, 8, 0, "refused 29 before 3: a setting out of its range");
            hindsight_is(2, record, bytes - 1, settings, 8, 0, "refused 2 before 29: a byte too few");
            hindsight_is(1, record, 0, settings, 8, 0, "refused 1 before 29: no byte");
        }
        settings[place] = 1;
        hindsight_is(0, record, bytes, settings, 8, DOONAMURK_REPORT_MAX, "a setting of 1");
        settings[place] = 5000000;
        hindsight_is(0, record, bytes, settings, 8, DOONAMURK_REPORT_MAX, "a setting of 5,000,000");
    }
    write_two_years(1100000, 1000000, 0, two);
    hindsight_is(29, two, 45, settings, 1, DOONAMURK_REPORT_MAX, "refused 29: two years");
    hindsight_is(29, two, 45, settings, 1, 0, "refused 29 before 3: two years");
    hindsight_is(2, two, 44, settings, 1, 0, "refused 2 before 29: two years, a byte too few");
    hindsight_is(2, record, bytes + 1, settings, 1, 0, "refused 2 before 3: a byte too many");
    hindsight_is(2, record, 1, settings, 1, 4, "refused 2: one byte");
    hindsight_is(1, record, 0, settings, 1, 4, "refused 1: no byte");
    hindsight_is(1, record + 1, bytes - 1, settings, 0, 0, "refused 1: k is 0");
    /* the first exposure, 1, ends with the third byte, and the first reporting share has most of its bits in bytes 43 and 44 */
    uint8_t byte = record[43];
    record[43] = 0;
    hindsight_is(5, record, bytes, settings, 1, 4, "refused 5");
    hindsight_is(3, record, bytes, settings, 1, 3, "refused 3 before 5");
    hindsight_is(29, record, bytes, settings, 0, 4, "refused 29 before 5");
    record[2] = 0;
    hindsight_is(4, record, bytes, settings, 1, 4, "refused 4 before 5");
    record[43] = byte;
    hindsight_is(4, record, bytes, settings, 1, 4, "refused 4");
    hindsight_is(3, record, bytes, settings, 1, 3, "refused 3 before 4");
    hindsight_is(29, record, bytes, settings, 0, 4, "refused 29 before 4");
    write_plain(3, single, over, 1000000, record);
    hindsight_is(0, record, bytes, settings, 1, 4, "a cumulative of 0");
    write_plain(3, single, paid_back, 1000000, record);
    hindsight_is(6, record, bytes, settings, 1, 4, "refused 6");
    hindsight_is(3, record, bytes, settings, 1, 3, "refused 3 before 6");
    hindsight_is(29, record, bytes, settings, 9, 4, "refused 29 before 6");
}

enum shape { FLAT, FADING, SHOCK };

/* A call of inflation rates; the second rate and the year are those that its shape has. */
static doonamurk_indices indices_of(enum shape shape, double rate, double second, uint64_t year, uint64_t years)
{
    switch (shape) {
    case FLAT:
        return doonamurk_flat(rate, years);
    case FADING:
        return doonamurk_fading(rate, second, years);
    default:
        return doonamurk_shock(rate, second, year, years);
    }
}

static int same(doonamurk_indices got, doonamurk_indices due) { return memcmp(&got, &due, sizeof got) == 0; }

/* Refused, with sixteen zeros. */
static int refused_rates(uint64_t number, doonamurk_indices got) { return same(got, (doonamurk_indices){number, {0}}); }

/* Accepted, with 1,000,000 in each of the years wanted, and zeros past them. */
static int millions(uint64_t years, doonamurk_indices got)
{
    doonamurk_indices due = {0, {0}};
    for (uint64_t n = 0; n < years; n++)
        due.values[n] = 1000000;
    return same(got, due);
}

/* Worked values, and what question 21 says of them; a list that is given short ends in zeros. */
static void worked_indices(void)
{
    static const struct { enum shape shape; double rate, second; uint64_t year, years; doonamurk_indices due; const char *what; } calls[] = {
        {FLAT, 0.02, 0, 0, 4, {0, {1020000, 1040400, 1061208, 1082432}}, "a flat rate"},
        {FADING, 0.07, 0.02, 0, 5, {0, {1070000, 1118150, 1154490, 1184795, 1212194}}, "a fading rate"},
        {SHOCK, 0.1, 0.02, 3, 4, {0, {1020000, 1040400, 1144440, 1167329}}, "a shock"},
        {FLAT, -0.5, 0, 0, 16, {0, {500000, 250000, 125000, 62500, 31250, 15625, 7813, 3906, 1953, 977, 488, 244, 122, 61, 31, 15}}, "half each year"},
        {FLAT, 1.0, 0, 0, 2, {0, {2000000, 4000000}}, "twice each year"},
        {FLAT, 1.0, 0, 0, 3, {21, {0}}, "refused 21: a flat rate"},
        {FADING, 1.0, 1.0, 0, 3, {21, {0}}, "refused 21: a fading rate"},
        {SHOCK, 1.0, 1.0, 3, 3, {21, {0}}, "refused 21: a shock"},
        {SHOCK, 0.25, 1.0, 3, 3, {0, {2000000, 4000000, 5000000}}, "an index of 5,000,000"},
        {SHOCK, 0.25000025, 1.0, 3, 3, {21, {0}}, "refused 21: an index of 5,000,001"},
        {FLAT, 1.0, 0, 0, 17, {20, {0}}, "refused 20 before 21: too many years"},
        {FADING, 1.0, 1.5, 0, 3, {20, {0}}, "refused 20 before 21: a rate above 1.0"},
        {SHOCK, 1.0, 1.0, 4, 3, {20, {0}}, "refused 20 before 21: a shock after the last year"},
    };
    for (size_t i = 0; i < sizeof calls / sizeof *calls; i++)
        check(same(indices_of(calls[i].shape, calls[i].rate, calls[i].second, calls[i].year, calls[i].years), calls[i].due), calls[i].what);
}

static double of_bits(uint64_t bits)
{
    double value;
    memcpy(&value, &bits, sizeof value);
    return value;
}

/* Each rate in each place of each call; for one year, and for a shock in the only one, the second rate is not used. */
static void rates(void)
{
    static const uint64_t outside[] = {
        0x7ff8000000000000, 0xfff8000000000000, 0x7fffffffffffffff, /* not a number: quiet, negative, of all bits */
        0x7ff0000000000001, 0xfff0000000000001, 0x7ff7ffffffffffff, /* signalling, negative, of all bits */
        0x7ff0000000000000, 0xfff0000000000000,                     /* the infinities */
        0x3ff0000000000001, 0xbfe0000000000001,                     /* the neighbours of 1.0 and -0.5 */
        0x7fefffffffffffff, 0xffefffffffffffff,                     /* the largest in size */
    };
    /* 0.0 and -0.0, the least in size, the largest subnormal and the least above it, each of both signs */
    static const uint64_t nothing[] = {0, 1, 0x000fffffffffffff, 0x0010000000000000};
    /* the limits, and their neighbours inside */
    static const uint64_t limits[] = {0x3ff0000000000000, 0xbfe0000000000000, 0x3fefffffffffffff, 0xbfdfffffffffffff};
    static const uint64_t wanted[] = {1, 2, DOONAMURK_YEARS_MAX};
    for (size_t y = 0; y < sizeof wanted / sizeof *wanted; y++) {
        uint64_t years = wanted[y];
        for (enum shape shape = FLAT; shape <= SHOCK; shape++) {
            for (size_t i = 0; i < sizeof outside / sizeof *outside; i++) {
                double bad = of_bits(outside[i]);
                check(refused_rates(20, indices_of(shape, bad, 0.0, years, years)), "refused 20: a rate outside");
                check(shape == FLAT || refused_rates(20, indices_of(shape, 0.0, bad, years, years)), "refused 20: a second rate outside");
                check(shape == FLAT || refused_rates(20, indices_of(shape, bad, bad, years, years)), "refused 20: both rates outside");
            }
            for (size_t i = 0; i < 2 * (sizeof nothing / sizeof *nothing); i++) {
                double zero = of_bits(nothing[i / 2] | (uint64_t)(i % 2) << 63);
                check(millions(years, indices_of(shape, zero, 0.0, years, years)), "a rate of nothing");
                check(millions(years, indices_of(shape, 0.0, zero, years, years)), "a second rate of nothing");
                check(millions(years, indices_of(shape, zero, zero, years, years)), "rates of nothing");
            }
        }
    }
    for (size_t i = 0; i < sizeof limits / sizeof *limits; i++) {
        double limit = of_bits(limits[i]);
        for (enum shape shape = FLAT; shape <= SHOCK; shape++) {
            check(indices_of(shape, limit, 0.0, 1, 2).refused == 0, "a rate at a limit");
            check(indices_of(shape, 0.0, limit, 1, 2).refused == 0, "a second rate at a limit");
            check(indices_of(shape, limit, limit, 1, 2).refused == 0, "rates at a limit");
        }
    }
}

/* How many years are wanted, and the year of a shock; also numbers whose low 32 bits would be accepted. */
static void years_wanted(void)
{
    static const uint64_t outside[] = {0, DOONAMURK_YEARS_MAX + 1, ((uint64_t)1 << 32) + 1, (uint64_t)1 << 63, UINT64_MAX};
    for (enum shape shape = FLAT; shape <= SHOCK; shape++)
        for (size_t i = 0; i < sizeof outside / sizeof *outside; i++)
            check(refused_rates(20, indices_of(shape, 0.0, 0.0, 1, outside[i])), "refused 20: so many years");
    for (uint64_t years = 1; years <= DOONAMURK_YEARS_MAX; years++) {
        check(millions(years, doonamurk_flat(0.0, years)), "years of a flat rate");
        check(millions(years, doonamurk_fading(0.0, 0.0, years)), "years of a fading rate");
        for (uint64_t year = 0; year <= DOONAMURK_YEARS_MAX + 1; year++) {
            doonamurk_indices got = doonamurk_shock(0.0, 0.0, year, years);
            check(year >= 1 && year <= years ? millions(years, got) : refused_rates(20, got), "the year of a shock");
        }
        for (size_t i = 2; i < sizeof outside / sizeof *outside; i++)
            check(refused_rates(20, doonamurk_shock(0.0, 0.0, outside[i], years)), "refused 20: a shock in a year far off");
    }
}

#define THREADS 4
#define RUNS 2000

/* What a thread is given and hands back: the record and the list are shared and only read, the count of what differs is its own. */
struct work {
    const uint8_t *record;
    const int64_t *expected;
    int different;
};

static void *run_many(void *given)
{
    struct work *work = given;
    size_t count = doonamurk_result_count(MOTOR_K);
    for (int n = 0; n < RUNS; n++) {
        int64_t results[DOONAMURK_RESULTS_MAX];
        fill(results, DOONAMURK_RESULTS_MAX);
        uint64_t answer = doonamurk_run(2026, work->record, doonamurk_record_bytes(MOTOR_K), results, DOONAMURK_RESULTS_MAX);
        if (answer != 0 || memcmp(results, work->expected, count * sizeof *results) != 0 || !filled(results, count, DOONAMURK_RESULTS_MAX))
            work->different++;
        if (!same(doonamurk_shock(0.1, 0.02, 3, 4), (doonamurk_indices){0, {1020000, 1040400, 1144440, 1167329}}))
            work->different++;
        /* The motor account as a history with one position: its shares and levels stand in the list too. */
        int64_t position[9];
        if (doonamurk_history(4, 4, motor_exposures, 4, motor_increments, 10, position, 9) != 0 || memcmp(position + 1, work->expected + 10, 8 * sizeof *position) != 0)
            work->different++;
        int64_t report[7];
        static const uint64_t even[1] = {1000000};
        static const int64_t due[7] = {0, 7, 41, 0, 10, 58, 0};
        if (doonamurk_hindsight(work->record, doonamurk_record_bytes(MOTOR_K), even, 1, report, 7) != 0 || memcmp(report, due, sizeof due) != 0)
            work->different++;
    }
    return NULL;
}

static void threads(void)
{
    uint8_t record[DOONAMURK_RECORD_MAX];
    int64_t expected[DOONAMURK_RESULTS_MAX];
    size_t bytes = doonamurk_record_bytes(MOTOR_K);
    check(write_motor(MOTOR_K, 1, 10, record, bytes) == 0, "the motor account is written");
    check(doonamurk_run(2026, record, bytes, expected, DOONAMURK_RESULTS_MAX) == 0, "the motor account is accepted");
    pthread_t thread[THREADS];
    struct work work[THREADS];
    int started = 0;
    for (; started < THREADS; started++) {
        work[started] = (struct work){record, expected, 0};
        if (pthread_create(&thread[started], NULL, run_many, &work[started]) != 0)
            break;
    }
    check(started == THREADS, "every thread starts");
    for (int n = 0; n < started; n++) {
        pthread_join(thread[n], NULL);
        check(work[n].different == 0, "threads that run at once have the same list, indices, position and report");
    }
}

int main(void)
{
    sizes();
    places();
    named_sections();
    two_years();
    tail_payments();
    valuation_years();
    halves();
    motor_account();
    refusals();
    solutions();
    growth_refusals();
    refused_writes();
    motor_history();
    fill_long();
    cut_out();
    refused_positions();
    refused_histories();
    worked_reports();
    cut_steps();
    marked_steps();
    refused_hindsights();
    worked_indices();
    rates();
    years_wanted();
    threads();
    return failures != 0;
}
