# Calls the proved reserving engine from R: doonamurk_run gives the result list of a record for a valuation year, doonamurk_sections its sections by name,
# doonamurk_read the fields of a record, and doonamurk_write makes a record of figures. doonamurk_history gives the shares and levels of every window of a long
# history, and doonamurk_hindsight what trial indices would have forecast of a record's own past. doonamurk_flat, doonamurk_fading and doonamurk_shock make yearly
# indices of inflation rates.
#
#     source("bindings/r/doonamurk.R")
#     doonamurk_load("target/lib/doonamurk_r.so")
#     f <- "examples/motor_account.rec"
#     doonamurk_run(readBin(f, "raw", file.size(f)), year = 2026)     all of the file: cut short, a file that is too long could pass for a record
#     doonamurk_history(2, c(1, 1), rbind(c(60, 40), c(66, NA)))$shares   a row for each position of a window of two years: 622641509 377358491
#     doonamurk_hindsight(readBin(f, "raw", file.size(f)), c(1000000, 1040000))$best     the place of the best of these settings, from 0
#     doonamurk_flat(0.02, 4)                                         1020000 1040400 1061208 1082432, years 1 to 4 in millionths
#
# The library is made by bindings/test, or by hand after bindings/build:
#
#     cc -shared -fPIC -o target/lib/doonamurk_r.so bindings/r/glue.c -Ltarget/lib -ldoonamurk -Wl,-rpath,'$ORIGIN'
#
# A refusal is an R error of class "doonamurk_refused" with the number of the first question that says no. The record, the lists and the questions are
# in docs/FORMAT.md.

# By their numbers, in the order in which they are asked: 20 and 21 of rates only, which come before a record is made, and 27 and 28 of histories only, whose
# positions are then asked 7 to 10.
doonamurk_questions <- c(
  "20" = "Is every rate a number from -0.5 to 1.0, a shock's year among the years wanted, and their number from 1 to 16?",
  "21" = "Is every index of a year wanted from 1 to 5,000,000?",
  "27" = "Has the history at most 64 years, and is the width from 2 to 16 and no more than the history's years?",
  "28" = paste(
    "Have the exposures, the cells and the lent result just the lengths that the years and the width call for, and is every exposure from 1 to 1,000,000 and",
    "every cell from -10^10 to 10^10?"
  ),
  "1" = "Is there a first byte, and is k at least 1?",
  "2" = "Is the length just what k calls for, and every filling bit zero?",
  "3" = "Does the list hold all entries?",
  "4" = "Is every field in its range?",
  "5" = "Do the reporting shares sum to 1,000,000?",
  "6" = "Is every given cumulative from 0 to 10^11?",
  "13" = "Is every chain-ladder base at least 1, and every development factor at most 50,000,000?",
  "7" = "Is every column and every diagonal of the averages at least 0, and their total at most 10^9?",
  "8" = "Is T_h - v_h at least 1 for every h from 1 to k?",
  "9" = "Is every running share at least 1?",
  "10" = "Is every level at most 10^9?",
  "18" = "Is the average of what is still to be paid for year 0 after year k at most 10^9?",
  "19" = "Is the average of what is still to be paid after year k, carried to each year by the indices, at most 5 * 10^9?",
  "11" = "Is every ultimate at most 10^12?",
  "12" = "Is the total of paid increments at least 1, and the total of the ULAE totals at most that?",
  "15" = "From valuation year 2027 on: is the total paid in the latest payment year at least 1?",
  "16" = "From valuation year 2027 on: is the divisor of the ULAE ratio not 0?",
  "17" = "From valuation year 2027 on: is the corrected ULAE ratio at most 1,000,000?",
  "14" = "Is every completed cumulative at most 10^11?"
)

# The writer asks these two otherwise.
doonamurk_write_questions <- replace(doonamurk_questions, c("1", "2"), c(
  "Is k from 1 to 15?",
  "Has the buffer just the length that k calls for, and each list its own?"
))

# A hindsight run asks one more directly after 2; its record is then asked 3 to 6 and its steps 7 to 10.
doonamurk_hindsight_questions <- c(
  doonamurk_questions,
  "29" = "Are there 1 to 8 settings, each from 1 to 5,000,000, and is k at least 2?"
)

# Loads the library of the glue. Once in a session, before any call.
doonamurk_load <- function(library) {
  if (!file.exists(library)) stop(library, " is missing: run bindings/test, it makes it")
  invisible(dyn.load(library))
}

# The cells of a triangle with years 0 to k.
doonamurk_cells <- function(k) (k + 1) * (k + 2) / 2

# k as the record's first four bits have it; 0 where there is no first byte.
doonamurk_k <- function(record) if (length(record) == 0) 0 else as.integer(record[1]) %/% 16

# The R error of a refusal: its number, and the question in words.
doonamurk_refused <- function(number, questions = doonamurk_questions) {
  message <- sprintf("refused %d: %s", number, questions[[as.character(number)]])
  structure(class = c("doonamurk_refused", "error", "condition"), list(message = message, call = NULL, number = number))
}

# Calls a function of the glue, with what it takes before the record, and a list of just the length that it fills. A vector without bytes would be a null
# pointer, so one byte stands there. .C copies its arguments: the record stays the caller's and as it was, and the list that comes back is a new one.
doonamurk_filled <- function(name, record, count, ...) {
  stopifnot(is.raw(record))
  bytes <- if (length(record) == 0) as.raw(0) else record
  out <- .C(name, ..., bytes, length(record), list = double(count), as.integer(count), answer = 0L)
  if (out$answer < 0) stop("a result is past 2^53")
  if (out$answer > 0) stop(doonamurk_refused(out$answer))
  out$list
}

# The result list of a record (a raw vector) for a valuation year, in whole numbers, all below 2^53 and so exact. From 2027 on the ULAE ratio is corrected for
# growth. The engine takes any year of 64 bits; R has no such numbers, so here it is a whole number from 0 to 2^53.
# Refusals: an error of class "doonamurk_refused" whose number is the first of questions 1 to 19 that says no, 15 to 17 only from 2027 on; never 3, for the
# list is made as long as it must be. Another vector than a raw one, or another year, is a plain error.
# Ownership: the record is copied in and not changed or kept; the list is a new vector.
# Threads: the engine could be called from many at once, but R calls from its one thread; for more cores start more R processes.
doonamurk_run <- function(record, year) {
  year <- doonamurk_years("year", year)
  k <- doonamurk_k(record)
  doonamurk_filled("doonamurk_r_run", record, 3 * doonamurk_cells(k) + 6 * k + 7, year)
}

# The fields of a record (a raw vector) in its order, k first, increments signed.
# Refusals: as above, with the first of questions 1, 2, 4 and 5 that says no.
# Ownership: the record is copied in and not changed or kept; the list is a new vector.
# Threads: as above.
doonamurk_read <- function(record) {
  k <- doonamurk_k(record)
  doonamurk_filled("doonamurk_r_read", record, doonamurk_cells(k) + 4 * k + 7)
}

# The triangle that a list of cells by row fills in a matrix of origin years by development years, NA where `given` is FALSE.
doonamurk_triangle <- function(k, given, entries) {
  years <- as.character(0:k)
  # R fills a matrix column by column, and the list goes row by row.
  cells <- matrix(NA_real_, k + 1, k + 1, dimnames = list(development = years, origin = years))
  cells[t(given)] <- entries
  t(cells)
}

# The result list of a record (as doonamurk_run gives it) as a named list of its sections: matrices of origin years by development years, NA where there
# is no cell, vectors named by their years, and single numbers. docs/FORMAT.md has the sections, their years and units.
doonamurk_sections <- function(results) {
  k <- which(3 * doonamurk_cells(1:15) + 6 * (1:15) + 7 == length(results))
  if (length(k) != 1) stop("results: no result list has ", length(results), " entries")
  place <- 0
  take <- function(count) {
    place <<- place + count
    results[seq_len(count) + place - count]
  }
  years <- function(from, count) setNames(take(count), seq_len(count) + from - 1)
  given <- outer(0:k, 0:k, `+`) <= k
  list(
    averages = doonamurk_triangle(k, given, take(doonamurk_cells(k))),
    shares = years(0, k + 1),
    levels = years(0, k + 1),
    future_levels = years(k + 1, k),
    payments = doonamurk_triangle(k, !given, take(doonamurk_cells(k) - k - 1)),
    provisions = years(0, k + 1),
    total_provision = take(1),
    not_reported = years(0, k + 1),
    ulae_reserves = years(0, k + 1),
    total_ulae_reserve = take(1),
    ulae_ratio = take(1),
    development_factors = years(0, k),
    completed_cumulatives = doonamurk_triangle(k, !given, take(doonamurk_cells(k) - k - 1)),
    tail_payments = years(0, k + 1)
  )
}

# The numbers of an argument as doubles: whole, and such that a double holds them exactly. Anything else is an error that names the argument.
doonamurk_whole <- function(name, values, least = 0) {
  wrong <- if (!is.numeric(values)) TRUE else is.na(values) | values != floor(values) | values < least | values > 2^53
  if (any(wrong)) stop(name, ": whole numbers from ", format(least, digits = 16), " to 2^53 are due", call. = FALSE)
  as.double(values)
}

# The record (a raw vector) of figures: exposures of the origin years 0 to k; paid increments as a matrix of k + 1 origin years by k + 1 development
# years, NA below the diagonal; k + 1 future indices, k + 1 reporting shares, the reporting weight, k + 1 ULAE totals and the amount still to be paid for
# year 0 after year k.
# Refusals: an error of class "doonamurk_refused" whose number is the first of questions 1, 2, 4 and 5 that says no. A matrix that is not a triangle, or
# numbers that are not whole, are plain errors that name the argument.
doonamurk_write <- function(exposures, paid, indices, reporting, weight, ulae, tail) {
  if (!is.matrix(paid) || nrow(paid) != ncol(paid)) stop("paid: a square matrix of origin years by development years is due", call. = FALSE)
  k <- nrow(paid) - 1
  given <- outer(0:k, 0:k, `+`) <= k
  if (any(is.na(paid[given]))) stop("paid: a cell up to the diagonal is NA", call. = FALSE)
  if (any(!is.na(paid[!given]))) stop("paid: a cell below the diagonal is not NA", call. = FALSE)
  if (length(weight) != 1) stop("weight: one number is due", call. = FALSE)
  if (length(tail) != 1) stop("tail: one number is due", call. = FALSE)
  numbers <- list(
    doonamurk_whole("exposures", exposures), doonamurk_whole("paid", t(paid)[t(given)], -2^53), doonamurk_whole("indices", indices),
    doonamurk_whole("reporting", reporting), doonamurk_whole("weight", weight), doonamurk_whole("ulae", ulae),
    doonamurk_whole("tail", tail)
  )
  # A k outside 1 to 15 is refused under question 1 whatever the buffer, so it need not be large.
  bytes <- if (k > 15) 1 else (155 + 97 * k + 35 * doonamurk_cells(k) + 7) %/% 8
  out <- .C("doonamurk_r_write", as.double(k), unlist(numbers), lengths(numbers), record = raw(bytes), as.integer(bytes), answer = 0L)
  if (out$answer < 0) stop("there is no memory for the lists")
  if (out$answer > 0) stop(doonamurk_refused(out$answer, doonamurk_write_questions))
  out$record
}

# Slides a window of `width` origin years over a history, one origin year at a time up to the latest payment year, and gives the shares and levels of each of its
# positions. Position a is the triangle of the origin years a to a + width - 1 and of their cells that are paid by the last of them.
# The history is `exposures`, one for each origin year, the oldest first, and `paid`, a matrix of origin years by development years, which are as many as the origin
# years and at most 16, NA where a cell is paid after the latest year.
# Gives a list of `refused`, for each position 0 or the first of questions 7 to 10 that says no, `shares` in billionths, a matrix of positions by development years,
# and `levels` in hundredths a claim, a matrix of positions by payment years counted from the position's first; rows of zeros where a position is refused. Positions
# are named by their first origin year, from 0.
# Refusals: an error of class "doonamurk_refused" whose number is 27 where there are more than 64 years, or the width is outside 2 to 16 or above the years; then 28
# where there are not as many exposures as years, or an exposure is outside 1 to 1,000,000 or a cell outside -10^10 to 10^10, one that no window has too. A matrix of
# another form, or numbers that are not whole, are plain errors that name the argument.
# Ownership: the vectors are copied in and not changed or kept; the list is a new one.
# Threads: as above.
doonamurk_history <- function(width, exposures, paid) {
  width <- doonamurk_years("width", width)
  if (!is.matrix(paid) || ncol(paid) != min(nrow(paid), 16)) {
    stop("paid: a matrix of origin years by as many development years, at most 16, is due", call. = FALSE)
  }
  years <- nrow(paid)
  given <- outer(seq_len(years), seq_len(ncol(paid)), `+`) <= years + 1
  if (any(is.na(paid[given]))) stop("paid: a cell up to the diagonal is NA", call. = FALSE)
  if (any(!is.na(paid[!given]))) stop("paid: a cell below the diagonal is not NA", call. = FALSE)
  exposures <- doonamurk_whole("exposures", exposures)
  cells <- doonamurk_whole("paid", t(paid)[t(given)], -2^53)
  # Other years or another width are refused under question 27 whatever the result, so it need not be large.
  count <- if (years <= 64 && width <= years) (years - width + 1) * (1 + 2 * width) else 0
  out <- .C(
    "doonamurk_r_history", as.double(years), width, exposures, length(exposures), cells, length(cells),
    result = double(count), as.integer(count), answer = 0L
  )
  if (out$answer < 0) stop("an entry is past 2^53, or there is no memory for the lists")
  if (out$answer > 0) stop(doonamurk_refused(out$answer))
  # The entries go position by position, and R fills a matrix column by column.
  entries <- matrix(out$result, ncol = 1 + 2 * width, byrow = TRUE)
  positions <- as.character(seq_len(nrow(entries)) - 1)
  part <- function(from, years) {
    matrix(entries[, from + seq_len(width)], ncol = width, dimnames = setNames(list(positions, as.character(seq_len(width) - 1)), c("position", years)))
  }
  list(refused = setNames(entries[, 1], positions), shares = part(1, "development"), levels = part(1 + width, "payment"))
}

# Tries one-year indices, the settings, on a record's own past: drops the latest payment years one after another down to a triangle of two years, fits the rest, and
# gives what each setting would have forecast too much or too little of the year after. A step is the triangle of the payment years 0 to K, from K = k - 1 down to 1.
# The record is a raw vector, of which only k, the exposures and the increments take part, and `settings` are 1 to 8 indices in millionths, each 1 to 5,000,000.
# Gives a list of `refused`, for each step 0 or the first of questions 7 to 10 that says no, the same under every setting; `gaps`, an array of settings by steps by
# origin years, what is paid in year K + 1 less what is forecast, zeros where a step is refused and NA past its origin years 1 to K; `sums`, for each setting the
# sum of its absolute gaps; and `best`, the place of the smallest sum from 0, the first on a tie. Settings are named by their places, from 0, and steps by K, the
# largest triangle first.
# Refusals: an error of class "doonamurk_refused" whose number is the first of questions 1, 2, 29, 4, 5 and 6, in this order, that says no; never 3, for the report is
# made as long as it must be, and no later question is asked of the record. Another vector than a raw one, or settings that are not whole, are plain errors.
# Ownership: the vectors are copied in and not changed or kept; the list is a new one.
# Threads: as above.
doonamurk_hindsight <- function(record, settings) {
  stopifnot(is.raw(record))
  settings <- doonamurk_whole("settings", settings)
  k <- doonamurk_k(record)
  # More settings are refused under question 29 whatever the report, so it need not be large.
  count <- min(length(settings), 8) * k * (k + 1) / 2 + 1
  bytes <- if (length(record) == 0) as.raw(0) else record
  out <- .C(
    "doonamurk_r_hindsight", bytes, length(record), settings, length(settings), report = double(count), as.integer(count), answer = 0L
  )
  if (out$answer < 0) stop("an entry is past 2^53, or there is no memory for the settings")
  if (out$answer > 0) stop(doonamurk_refused(out$answer, doonamurk_hindsight_questions))
  # The entries go setting by setting, and R fills a matrix column by column, so a setting is a column: the mark and the gaps of each step, and the sum.
  entries <- matrix(out$report[-count], ncol = length(settings))
  steps <- rev(seq_len(k - 1))
  marks <- cumsum(c(1, 1 + steps))[seq_along(steps)]
  places <- as.character(seq_along(settings) - 1)
  gaps <- array(
    NA_real_, c(length(settings), k - 1, k - 1),
    dimnames = list(setting = places, step = as.character(steps), origin = as.character(seq_len(k - 1)))
  )
  for (step in seq_along(steps)) {
    rows <- seq_len(steps[step])
    gaps[, step, rows] <- t(entries[marks[step] + rows, , drop = FALSE])
  }
  list(
    refused = setNames(entries[marks, 1], as.character(steps)), gaps = gaps, sums = setNames(entries[nrow(entries), ], places), best = out$report[count]
  )
}

# One rate as a double, NA_real_ and NaN too: question 20 is the engine's to ask. A vector of another type or length is an error that names the argument.
doonamurk_rate <- function(name, rate) {
  if (!is.numeric(rate) || length(rate) != 1) stop(name, ": one number is due", call. = FALSE)
  as.double(rate)
}

# A year, or a number of years, as a double.
doonamurk_years <- function(name, years) {
  if (length(years) != 1) stop(name, ": one number is due", call. = FALSE)
  doonamurk_whole(name, years)
}

# Calls a function of the glue with its rates, a shock's year and the years wanted, and gives the indices of just those. NAOK, for R would stop at a rate that
# is no number or not finite by itself.
doonamurk_wanted <- function(name, ..., years) {
  out <- .C(name, ..., years, values = double(16), answer = 0L, NAOK = TRUE)
  if (out$answer < 0) stop("an index is past 2^53")
  if (out$answer > 0) stop(doonamurk_refused(out$answer))
  out$values[seq_len(years)]
}

# The indices of one flat rate in years 1 to `years`, in millionths; a rate of 0.02 is two percent. A path starts at 1.0 and is multiplied each year by 1.0 plus
# that year's rate; a year's index is the path times 1,000,000.0 to the nearest whole number, halves up. Every operation is rounded to a double by itself.
# Refusals: an error of class "doonamurk_refused" whose number is 20 where a rate is NA, NaN or outside -0.5 to 1.0, one that no year uses too, or where
# `years` is not from 1 to 16; then 21 where an index leaves 1 to 5,000,000. The limits are inside, and so is -0.0. A rate of no numeric type, years that are
# not a whole number from 0 to 2^53, and vectors of another length than 1 are plain errors that name the argument.
# Ownership: nothing is kept; the indices are a new vector.
# Threads: as above.
doonamurk_flat <- function(rate, years) {
  doonamurk_wanted("doonamurk_r_flat", doonamurk_rate("rate", rate), years = doonamurk_years("years", years))
}

# The indices of a rate that moves halfway each year toward a long-run rate: `rate` in year 1, and in each later one
# long_run + 0.5 * (the rate of the year before - long_run). Else as above; `long_run` is asked about for a single year too.
doonamurk_fading <- function(rate, long_run, years) {
  doonamurk_wanted("doonamurk_r_fading", doonamurk_rate("rate", rate), doonamurk_rate("long_run", long_run), years = doonamurk_years("years", years))
}

# The indices of a shock, `rate` in the one named `year`, the first being year 1, with the rate `other` in the others. Else as above; refused with 20 too where
# `year` is not from 1 to `years`, and `other` is asked about where the shock is in the only year too.
doonamurk_shock <- function(rate, other, year, years) {
  doonamurk_wanted(
    "doonamurk_r_shock", doonamurk_rate("rate", rate), doonamurk_rate("other", other), doonamurk_years("year", year),
    years = doonamurk_years("years", years)
  )
}
