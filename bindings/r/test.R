# Taylor's motor account, document 01's two years, payments after the last year, valuation years, refusals, the windows of histories, hindsight runs, and indices of
# inflation rates. From the repository's root, after bindings/build and with the glue compiled:
#
#     Rscript bindings/r/test.R
#
# Ends with an error, and so with a status other than 0, where a check fails.

source("bindings/r/doonamurk.R")
doonamurk_load("target/lib/doonamurk_r.so")

record <- function(file) readBin(file, "raw", file.size(file))
refused <- function(call) tryCatch({ call; 0 }, doonamurk_refused = function(refusal) refusal$number)

motor <- record("examples/motor_account.rec")
results <- doonamurk_run(motor, 2026)
stopifnot(
  length(results) == 55,
  results[11:14] == c(583475514, 287767456, 86614799, 42142231),
  results[15:18] == c(86378, 98939, 101998, 113900)
)

fields <- doonamurk_read(motor)
stopifnot(
  length(fields) == 29,
  fields[1:5] == c(3, 1, 1, 1, 1),
  fields[6:15] == c(504, 282, 90, 48, 580, 292, 97, 595, 332, 662)
)

two_years <- doonamurk_run(record("examples/two_years.rec"), 2026)
stopifnot(two_years == c(
  6000, 4000, 6600, 622641509, 377358491, 9636, 10600, 11660, 44, 0, 44, 44, 0, 22, 0, 3, 3, 96385, 1666666, 109, 0, 0
))

longest <- doonamurk_run(record("examples/liability_book.rec"), 2026)
stopifnot(length(longest) == 505, longest == floor(longest), sum(longest[137:152]) == 1e9)

filled <- motor
filled[length(filled)] <- as.raw(as.integer(filled[length(filled)]) + 1L)
no_claims <- motor
no_claims[1:3] <- as.raw(c(0x30, 0, 0))
stopifnot(
  refused(doonamurk_run(raw(0), 2026)) == 1,
  refused(doonamurk_run(raw(45), 2026)) == 1,
  refused(doonamurk_run(motor[-1], 2026)) == 1,
  refused(doonamurk_run(head(motor, -1), 2026)) == 2,
  refused(doonamurk_run(filled, 2026)) == 2,
  refused(doonamurk_run(no_claims, 2026)) == 4,
  refused(doonamurk_read(no_claims)) == 4,
  refused(doonamurk_run(motor, 2026)) == 0
)
words <- tryCatch(doonamurk_run(raw(0), 2026), doonamurk_refused = conditionMessage)
stopifnot(words == "refused 1: Is there a first byte, and is k at least 1?")

# A refusal leaves the lent vector: the functions of the glue themselves, on a vector that holds a pattern.
left <- function(name, bytes, bytes_len, room, number) {
  pattern <- -1000.5 - seq_len(505)
  lent <- list(bytes, as.integer(bytes_len), lent = pattern, as.integer(room), answer = 0L)
  out <- do.call(.C, c(name, if (name == "doonamurk_r_run") 2026, lent))
  out$answer == number && identical(out$lent, pattern)
}
stopifnot(
  left("doonamurk_r_run", as.raw(0), 0, 505, 1),
  left("doonamurk_r_run", motor, length(motor) - 1, 505, 2),
  left("doonamurk_r_run", motor, length(motor), 54, 3),
  left("doonamurk_r_run", no_claims, length(no_claims), 505, 4),
  left("doonamurk_r_read", motor, length(motor) - 1, 505, 2),
  left("doonamurk_r_read", motor, length(motor), 28, 3),
  left("doonamurk_r_read", no_claims, length(no_claims), 505, 4)
)

# Sections by name and years.
named <- doonamurk_sections(results)
stopifnot(
  identical(names(named), c(
    "averages", "shares", "levels", "future_levels", "payments", "provisions", "total_provision", "not_reported", "ulae_reserves",
    "total_ulae_reserve", "ulae_ratio", "development_factors", "completed_cumulatives", "tail_payments"
  )),
  identical(unname(named$averages["2", ]), c(59500, 33200, NA, NA)), named$averages["0", "3"] == 4800, named$averages["3", "0"] == 66200,
  named$shares["3"] == 42142231, names(named$future_levels) == c("4", "5", "6"), named$future_levels["5"] == 137819,
  named$payments["3", "1"] == 360, named$payments["2", "2"] == 108, is.na(named$payments["2", "1"]), sum(is.na(named$payments)) == 10,
  named$provisions == c(0, 52, 166, 542), named$total_provision == 760, named$total_ulae_reserve == 19, named$ulae_ratio == 31591,
  named$development_factors["0"] == 1539606, named$completed_cumulatives["3", "3"] == 1195, named$tail_payments == c(0, 0, 0, 0)
)
stopifnot(inherits(tryCatch(doonamurk_sections(results[-1]), error = identity), "error"))

# The record of figures, the triangle as a matrix.
paid <- rbind(c(504, 282, 90, 48), c(580, 292, 97, NA), c(595, 332, NA, NA), c(662, NA, NA, NA))
write_motor <- function(exposures = rep(1, 4), paid_ = paid, indices = c(1100000, 1210000, 1331000, 1000000), reporting = c(700000, 200000, 80000, 20000),
                        weight = 500000, ulae = c(20, 25, 30, 35), tail = 0) {
  doonamurk_write(exposures, paid_, indices, reporting, weight, ulae, tail)
}
stopifnot(identical(write_motor(), motor))

# From valuation year 2027 on the ratio of the two years is another one, and there are questions more; 2^53 is the last year that R can hand over.
says <- function(call) tryCatch({ call; "nothing" }, error = conditionMessage)
ratio <- function(bytes, year) doonamurk_sections(doonamurk_run(bytes, year))$ulae_ratio
changed <- function(exposures, paid, ulae) doonamurk_write(exposures, rbind(paid[1:2], c(paid[3], NA)), c(1100000, 1000000), c(0, 1000000), 1000000, ulae, 0)
asked <- list(changed(c(300, 1), c(10, -1, 1), c(0, 0)), changed(c(1, 1), c(1, 0, 2000000), c(0, 0)), changed(c(1, 1), c(60, 40, 66), c(66, 100)))
years <- record("examples/two_years.rec")
stopifnot(
  vapply(c(0, 2026, 2027, 2028, 2^53), function(year) ratio(years, year), 0) == c(96385, 96385, 95484, 95484, 95484),
  ratio(years, 2027L) == 95484,
  vapply(asked, function(bytes) refused(doonamurk_run(bytes, 2026)), 0) == 0,
  vapply(asked, function(bytes) refused(doonamurk_run(bytes, 2027)), 0) == c(15, 16, 17),
  grepl("^year: whole numbers from 0 to 2\\^53 are due", vapply(list(-1, 2026.5, 2^54, NA, "2026"), function(year) says(doonamurk_run(years, year)), "")),
  grepl("^year: one number is due", says(doonamurk_run(years, c(2026, 2027)))),
  says(doonamurk_run(years)) != "nothing"
)

# The two years with 100 still to be paid for year 0, which the indices carry to 110 for year 1; an average too large, and one that they carry too far.
write_two_years <- function(indices, tail) {
  doonamurk_write(c(1, 1), rbind(c(60, 40), c(66, NA)), indices, c(800000, 200000), 500000, c(6, 10), tail)
}
after <- doonamurk_sections(doonamurk_run(write_two_years(c(1100000, 1210000), 100), 2026))
words <- tryCatch(doonamurk_run(write_two_years(c(1, 6), 10000000), 2026), doonamurk_refused = conditionMessage)
stopifnot(
  after$tail_payments == c(100, 110), after$provisions == c(100, 154), after$ulae_reserves == c(4, 9),
  refused(doonamurk_run(write_two_years(c(1000000, 1000000), 10000001), 2026)) == 18,
  refused(doonamurk_run(write_two_years(c(1, 6), 10000000), 2026)) == 19,
  words == "refused 19: Is the average of what is still to be paid after year k, carried to each year by the indices, at most 5 * 10^9?"
)

# The two years with 66 made 0, with first cell 0, also with U 6, 161, and with less paid after it. Document 01's k = 2 case: nothing is paid in development
# year 0, and a running share is 0; and one that has a base and small factors.
two_years_paid <- function(paid, ulae = c(6, 10)) {
  doonamurk_write(c(1, 1), rbind(paid[1:2], c(paid[3], NA)), c(1100000, 1000000), c(800000, 200000), 500000, ulae, 0)
}
three_years_paid <- function(first) {
  doonamurk_write(rep(100, 3), rbind(first, c(0, 0, NA), c(1, NA, NA)), rep(1000000, 3), c(1000000, 0, 0), 0, rep(0, 3), 0)
}
stopifnot(
  refused(doonamurk_run(two_years_paid(c(60, 40, 0)), 2026)) == 8,
  refused(doonamurk_run(two_years_paid(c(0, 40, 66)), 2026)) == 13,
  refused(doonamurk_run(two_years_paid(c(0, 40, 66), c(6, 161)), 2026)) == 13,
  refused(doonamurk_run(two_years_paid(c(0, -1, 66)), 2026)) == 6,
  vapply(c(2026, 2027), function(year) refused(doonamurk_run(three_years_paid(c(0, 5000, 999999)), year)), 0) == 13,
  vapply(c(2026, 2027), function(year) refused(doonamurk_run(three_years_paid(c(5000, 45000, 2000000)), year)), 0) == 9,
  names(doonamurk_questions) == c(20, 21, 27, 28, 1:6, 13, 7:10, 18, 19, 11, 12, 15:17, 14),
  names(doonamurk_write_questions) == names(doonamurk_questions)
)

# Refused 8: no exact solution, many, and exactly one, whose shares are -1, 0, 2. Accepted: the products of shares 3/5, 2/5 and levels 100, 200.
without <- list(
  rbind(c(1, 0, 0), c(0, 1, NA), c(0, NA, NA)), rbind(c(1, 0, 0), c(0, 0, NA), c(0, NA, NA)), rbind(c(0, 1, 2), c(1, -1, NA), c(0, NA, NA))
)
refused_three <- function(paid, year) {
  refused(doonamurk_run(doonamurk_write(rep(1, 3), paid, rep(1000000, 3), c(1000000, 0, 0), 0, rep(0, 3), 0), year))
}
products <- doonamurk_sections(doonamurk_run(two_years_paid(c(60, 80, 120)), 2026))
stopifnot(
  vapply(without, refused_three, 0, 2026) == 8,
  vapply(without, refused_three, 0, 2027) == 8,
  products$shares == c(600000000, 400000000), products$levels == c(10000, 20000)
)

# Averages that lie halfway between two hundredths go to the even one, negative ones too.
halves <- write_motor(exposures = rep(8, 4), paid_ = rbind(c(401, -1, 3, 5), c(403, 7, -3, NA), c(405, 9, NA, NA), c(407, NA, NA, NA)))
stopifnot(doonamurk_run(halves, 2026)[1:10] == c(5012, -12, 38, 62, 5038, 88, -38, 5062, 112, 5088))
stopifnot(
  refused(write_motor(paid_ = matrix(5, 1, 1))) == 1,
  refused(write_motor(paid_ = replace(matrix(NA_real_, 17, 17), outer(0:16, 0:16, `+`) <= 16, 1))) == 1,
  refused(write_motor(exposures = 1)) == 2,
  refused(write_motor(ulae = numeric(0))) == 2,
  refused(write_motor(indices = c(1100000, 1210000, 1331000))) == 2,
  refused(write_motor(exposures = c(0, 1, 1, 1))) == 4,
  refused(write_motor(paid_ = replace(paid, 1, -10000000001))) == 4,
  refused(write_motor(tail = 10000000001)) == 4,
  refused(write_motor(reporting = c(700000, 200000, 80000, 20001))) == 5
)
negative <- write_motor(paid_ = replace(paid, 5, -282))
stopifnot(doonamurk_read(negative)[7] == -282)
stopifnot(
  grepl("^weight: ", says(write_motor(weight = 0.5))),
  grepl("^exposures: ", says(write_motor(exposures = c(1, NA, 1, 1)))),
  grepl("^indices: ", says(write_motor(indices = "1100000"))),
  grepl("^tail: ", says(write_motor(tail = c(0, 0)))),
  grepl("^ulae: ", says(write_motor(ulae = c(-1, 0, 0, 0)))),
  grepl("^paid: a cell up to the diagonal is NA", says(write_motor(paid_ = replace(paid, 1, NA)))),
  grepl("^paid: a cell below the diagonal is not NA", says(write_motor(paid_ = replace(paid, 16, 0)))),
  grepl("^paid: whole", says(write_motor(paid_ = paid + 0.5))),
  grepl("^paid: a square matrix", says(write_motor(paid_ = paid[1:3, ])))
)
words <- tryCatch(write_motor(paid_ = matrix(5, 1, 1)), doonamurk_refused = conditionMessage)
stopifnot(words == "refused 1: Is k from 1 to 15?")

# The windows of a history: the two years, and the motor account through windows of each width; in those of four years it is the record's, and document 01 has
# 0.6099 for the cut of its first three.
two_years_history <- doonamurk_history(2, c(1, 1), rbind(c(60, 40), c(66, NA)))
by_two <- doonamurk_history(2, rep(1, 4), paid)
by_three <- doonamurk_history(3, rep(1, 4), paid)
by_four <- doonamurk_history(4, rep(1, 4), paid)
stopifnot(
  two_years_history$refused == 0, two_years_history$shares == c(622641509, 377358491), two_years_history$levels == c(9636, 10600),
  identical(names(by_two), c("refused", "shares", "levels")), names(by_two$refused) == c("0", "1", "2"), dim(by_two$shares) == c(3, 2),
  by_two$shares == rbind(c(672853828, 327146172), c(670800450, 329199550), c(665995975, 334004025)),
  by_two$levels == rbind(c(74904, 86200), c(86463, 88700), c(89339, 99400)),
  by_three$shares == rbind(c(609925952, 297955317, 92118731), c(608846923, 302243819, 88909258)),
  by_three$levels == rbind(c(82632, 94946, 97700), c(95262, 97355, 109100)), by_three$shares["1", "2"] == 88909258,
  by_four$refused == 0, dim(by_four$shares) == c(1, 4), by_four$shares == results[11:14], by_four$levels == results[15:18]
)

# A history of 64 years: origin year i has its first min(16, 64 - i) development years. Each position equals the record that is cut out for it.
history_of <- function(years, cell) {
  columns <- min(16, years)
  origin <- matrix(rep(seq_len(years) - 1, columns), years, columns)
  development <- matrix(rep(seq_len(columns) - 1, each = years), years, columns)
  replace(cell(origin, development), origin + development >= years, NA)
}
long_paid <- history_of(64, function(i, j) (900000 + 31000 * (i + j)) %/% 2^((2 * j) %/% 3))
long_exposures <- 1000 + 7 * 0:63
for (width in c(2, 3, 16)) {
  windows <- doonamurk_history(width, long_exposures, long_paid)
  stopifnot(windows$refused == 0, dim(windows$levels) == c(65 - width, width), rowSums(windows$shares) == 1e9)
  for (start in c(0, 20, 64 - width)) {
    cut_out <- long_paid[start + seq_len(width), seq_len(width)]
    cut_out[outer(seq_len(width), seq_len(width), `+`) > width + 1] <- NA
    bytes <- doonamurk_write(long_exposures[start + seq_len(width)], cut_out, rep(1000000, width), c(1000000, rep(0, width - 1)), 0, rep(0, width), 0)
    cut_out <- doonamurk_sections(doonamurk_run(bytes, 2026))
    stopifnot(windows$shares[as.character(start), ] == cut_out$shares, windows$levels[as.character(start), ] == cut_out$levels)
  }
}

# Positions that 7, 8, 10 and 9 refuse have their number and zeros.
beside <- doonamurk_history(2, rep(100, 6), rbind(
  c(60, 40, 0, 0, 0, 0), c(66, -1, 0, 0, 0, NA), c(80, 5, 0, 0, NA, NA), c(0, 1000000, 0, NA, NA, NA), c(1000, 1000000, NA, NA, NA, NA), c(1, rep(NA, 5))
))
nine <- doonamurk_history(3, rep(100, 3), rbind(c(0, 5000, 999999), c(0, 0, NA), c(1, NA, NA)))
stopifnot(
  beside$refused == c(0, 7, 8, 0, 10), rowSums(beside$shares) == ifelse(beside$refused == 0, 1e9, 0), (rowSums(beside$levels) == 0) == (beside$refused != 0),
  nine$refused == 9, nine$shares == 0, nine$levels == 0, dim(nine$levels) == c(1, 3)
)

# Years, widths, lengths and ranges; 27 comes before 28.
ones <- function(years) history_of(years, function(i, j) 0 * i + 1)
number_of <- function(years, width, exposures = rep(1, years), paid = ones(years)) refused(doonamurk_history(width, exposures, paid))
stopifnot(
  mapply(number_of, c(2, 5, 16, 17, 64, 64), c(2, 5, 16, 16, 2, 16)) == 0,
  mapply(number_of, c(1, 1, 2, 2, 2, 5, 17, 64, 65, 65, 20, 20), c(1, 2, 0, 1, 3, 6, 17, 17, 2, 16, 2^32 + 2, 2^53)) == 27,
  refused(doonamurk_history(2, numeric(0), matrix(0, 0, 0))) == 27,
  number_of(20, 2, rep(1, 19)) == 28, number_of(20, 2, rep(1, 21)) == 28, number_of(20, 2, numeric(0)) == 28,
  vapply(c(0, 1000001, 2^32 + 1, 2^53), function(bad) number_of(20, 2, c(rep(1, 19), bad)), 0) == 28,
  # the first cell, the last one, and one that no window of two years has
  vapply(list(c(1, 1), c(20, 1), c(4, 16)), function(place) {
    put_in <- function(value) number_of(20, 2, paid = replace(ones(20), place[1] + 20 * (place[2] - 1), value))
    all(vapply(c(10000000001, -10000000001, 2^53, -2^53), put_in, 0) == 28, vapply(c(10000000000, -10000000000), put_in, 0) == 0)
  }, TRUE),
  number_of(65, 2, 0) == 27, number_of(4, 17, rep(0, 4)) == 27, number_of(4, 5, paid = 10000000001 * ones(4)) == 27,
  says(doonamurk_history(2, 1, matrix(60, 1, 1))) ==
    "refused 27: Has the history at most 64 years, and is the width from 2 to 16 and no more than the history's years?",
  grepl("^refused 28: Have the exposures, .* and every cell from -10\\^10 to 10\\^10\\?$", says(doonamurk_history(2, 1, ones(2)))),
  grepl("^width: whole numbers from 0 to 2\\^53 are due", vapply(list(-1, 2.5, 2^54, NA, "2"), function(width) says(doonamurk_history(width, c(1, 1), ones(2))), "")),
  grepl("^width: one number is due", says(doonamurk_history(2:3, rep(1, 4), ones(4)))),
  grepl("^exposures: ", says(doonamurk_history(2, c(1, NA), ones(2)))),
  grepl("^paid: a matrix of origin years", c(says(doonamurk_history(2, c(1, 1), c(60, 40, 66))), says(doonamurk_history(2, rep(1, 20), matrix(1, 20, 20))))),
  grepl("^paid: a cell up to the diagonal is NA", says(doonamurk_history(2, c(1, 1), rbind(c(60, NA), c(66, NA))))),
  grepl("^paid: a cell below the diagonal is not NA", says(doonamurk_history(2, c(1, 1), rbind(c(60, 40), c(66, 0))))),
  grepl("^paid: whole", says(doonamurk_history(2, c(1, 1), ones(2) / 2)))
)

# A refused history leaves the lent vector: the glue's own call, on vectors of other lengths than 14.
left_by_history <- function(room) {
  pattern <- -1000.5 - seq_len(room + 4)
  out <- .C("doonamurk_r_history", 4, 3, rep(1, 4), 4L, as.double(t(paid)[!is.na(t(paid))]), 10L, lent = pattern, as.integer(room), answer = 0L)
  out$answer == 28 && identical(out$lent, pattern)
}
stopifnot(left_by_history(0), left_by_history(13), left_by_history(15), left_by_history(1617), !left_by_history(14))

# Hindsight runs. The record of a triangle, a matrix with NA below the diagonal, its other fields plain.
plain <- function(exposures, paid, first_index = 1000000) {
  k <- nrow(paid) - 1
  doonamurk_write(exposures, paid, c(first_index, rep(1000000, k)), c(1000000, rep(0, k)), 0, rep(0, k + 1), 0)
}
# Document 01's two years and the year after, 0, 44, 70: the forecasts of row 1 are 0, 40, 44, 48 and 200. On a tie the first setting is the best.
three_paid <- rbind(c(60, 40, 0), c(66, 44, NA), c(70, NA, NA))
three <- plain(rep(1, 3), three_paid)
in_hindsight <- doonamurk_hindsight(three, c(1, 1000000, 1200000, 5000000))
one_setting <- doonamurk_hindsight(three, 1100000)
stopifnot(
  identical(names(in_hindsight), c("refused", "gaps", "sums", "best")),
  identical(in_hindsight$refused, c("1" = 0)), dim(in_hindsight$gaps) == c(4, 1, 1), in_hindsight$gaps[, "1", "1"] == c(44, 4, -4, -156),
  identical(in_hindsight$sums, c("0" = 44, "1" = 4, "2" = 4, "3" = 156)), in_hindsight$best == 1,
  doonamurk_hindsight(three, c(1200000, 1000000, 1))$best == 0, doonamurk_hindsight(three, c(1200000, 1000000, 1100000))$best == 2,
  dim(one_setting$gaps) == c(1, 1, 1), one_setting$gaps == 0, one_setting$sums == 0, one_setting$best == 0
)

# The motor account: 90 and 291 are forecast from the cut to three years, 282 from that to two.
in_hindsight <- doonamurk_hindsight(motor, c(1000000, 1))
stopifnot(
  identical(in_hindsight$refused, c("2" = 0, "1" = 0)), dim(in_hindsight$gaps) == c(2, 2, 2),
  in_hindsight$gaps["0", "2", ] == c(7, 41), in_hindsight$gaps["1", "2", ] == c(97, 332), in_hindsight$gaps[, "1", "1"] == c(10, 292),
  is.na(in_hindsight$gaps[, "1", "2"]), in_hindsight$sums == c(58, 721), in_hindsight$best == 0
)

# Each step equals the record that is cut out for it, with the setting for its first index.
for (k in c(2, 3, 8, 15)) {
  triangle <- function(years) replace(long_paid[seq_len(years), seq_len(years)], outer(seq_len(years), seq_len(years), `+`) > years + 1, NA)
  settings <- c(1000000, 1040000, 1, 900000, 5000000, 1100000, 3, 1030000)[seq_len(1 + k %% 8)]
  in_hindsight <- doonamurk_hindsight(plain(long_exposures[seq_len(k + 1)], triangle(k + 1)), settings)
  stopifnot(in_hindsight$refused == 0, dim(in_hindsight$gaps) == c(length(settings), k - 1, k - 1))
  for (place in seq_along(settings)) {
    for (latest in seq_len(k - 1)) {
      bytes <- plain(long_exposures[seq_len(latest + 1)], triangle(latest + 1), settings[place])
      payments <- doonamurk_sections(doonamurk_run(bytes, 2026))$payments
      # origin years 1 to K in payment year K + 1: rows and columns of matrices count from 1
      next_year <- cbind(seq_len(latest) + 1, latest + 2 - seq_len(latest))
      stopifnot(in_hindsight$gaps[place, as.character(latest), seq_len(latest)] == long_paid[next_year] - payments[next_year])
    }
    stopifnot(in_hindsight$sums[place] == sum(abs(in_hindsight$gaps[place, , ]), na.rm = TRUE))
  }
  stopifnot(in_hindsight$best == which.min(in_hindsight$sums) - 1)
}

# For each of 7 to 10 a step with that mark and zeros between two that are fitted; every step marked; and a latest year, which is in no step, that 7 refuses.
by_diagonals <- function(...) {
  diagonals <- list(...)
  years <- seq_along(diagonals)
  t(vapply(years, function(i) c(vapply(diagonals[i:length(diagonals)], function(diagonal) diagonal[i], 0), rep(NA, i - 1)), double(length(diagonals))))
}
stopifnot(identical(by_diagonals(60, c(40, 66), c(0, 44, 70)), three_paid))
beside <- list(
  "7" = by_diagonals(60, c(40, 66), c(-50, 45, 70), c(3, 60, 47, 80), c(1, 2, 50, 50, 90)),
  "8" = by_diagonals(60, c(40, 66), c(0, 0, 0), c(3, 10, 40, 80), c(1, 2, 9, 50, 90)),
  "9" = by_diagonals(100, c(5e6, 1), c(5e8, 0, 1), c(0, 0, 0, 4e8), c(0, 0, 7, 1e8, 2)),
  "10" = by_diagonals(60, c(40, 66), c(4e8, 10, 10), c(0, 0, 0, 5e8), c(0, 3, 1e8, 44, 1e8))
)
for (mark in names(beside)) {
  in_hindsight <- doonamurk_hindsight(plain(rep(100, 5), beside[[mark]]), c(1000000, 1100000))
  stopifnot(in_hindsight$refused == c(0, as.numeric(mark), 0), in_hindsight$gaps[, "2", c("1", "2")] == 0)
}
nothing <- doonamurk_hindsight(plain(rep(1, 4), replace(paid, !is.na(paid), 0)), c(5000000, 1))
late <- plain(rep(1, 3), replace(three_paid, 3, 10000000000))
stopifnot(
  nothing$refused == c(8, 8), nothing$gaps[!is.na(nothing$gaps)] == 0, nothing$sums == 0, nothing$best == 0,
  refused(doonamurk_run(late, 2026)) == 7, doonamurk_hindsight(late, 1100000)$sums == 0
)

# Settings, and the questions in their order: 1, 2, 29, 4, 5, 6. The first exposure of the three years ends with the third byte, and the first reporting share has
# most of its bits in bytes 43 and 44, counted from 0.
of_settings <- function(settings, bytes = three) refused(doonamurk_hindsight(bytes, settings))
unasked <- replace(three, 3, as.raw(0))
unreported <- replace(three, 44:45, as.raw(c(0, 0)))
paid_back <- plain(rep(1, 3), replace(three_paid, 5, -67))
wrong <- list(raw(0), three[-1], head(three, -1), c(three, as.raw(0)), unasked, replace(unasked, 44:45, as.raw(c(0, 0))), unreported, paid_back)
stopifnot(
  vapply(1:8, function(count) of_settings(rep(1000000, count)), 0) == 0, vapply(c(9, 10, 300), function(count) of_settings(rep(1000000, count)), 0) == 29,
  of_settings(numeric(0)) == 29, vapply(c(1, 5000000), of_settings, 0) == 0, vapply(c(0, 5000001, 2^32 + 1, 2^53), of_settings, 0) == 29,
  vapply(1:8, function(place) of_settings(replace(rep(1000000, 8), place, 5000001)), 0) == 29,
  of_settings(1000000, record("examples/two_years.rec")) == 29,
  vapply(wrong, function(bytes) of_settings(1000000, bytes), 0) == c(1, 1, 2, 2, 4, 4, 5, 6),
  vapply(wrong, function(bytes) of_settings(0, bytes), 0) == c(1, 1, 2, 2, 29, 29, 29, 29),
  says(doonamurk_hindsight(three, 0)) == "refused 29: Are there 1 to 8 settings, each from 1 to 5,000,000, and is k at least 2?",
  grepl("^settings: whole numbers from 0 to 2\\^53 are due", vapply(list(-1, 1.5, 2^54, NA, "1", NULL), function(bad) says(doonamurk_hindsight(three, bad)), "")),
  says(doonamurk_hindsight(as.integer(three), 1000000)) != "nothing"
)

# A refused hindsight run leaves the lent vector, and an accepted one what is past its entries: the glue's own call.
lent_to_hindsight <- function(bytes, settings, room) {
  pattern <- -1000.5 - seq_len(1000)
  out <- .C("doonamurk_r_hindsight", bytes, length(bytes), as.double(settings), length(settings), lent = pattern, as.integer(room), answer = 0L)
  filled <- if (out$answer == 0) 3 * length(settings) + 1 else 0
  stopifnot(identical(out$lent[seq_len(1000) > filled], pattern[seq_len(1000) > filled]))
  out$answer
}
stopifnot(
  vapply(c(7, 8, 961, 1000), function(room) lent_to_hindsight(three, c(1000000, 1100000), room), 0L) == 0,
  vapply(c(0, 1, 6), function(room) lent_to_hindsight(three, c(1000000, 1100000), room), 0L) == 3,
  lent_to_hindsight(three, c(1000000, 0), 0) == 29, lent_to_hindsight(three[-1], 0, 0) == 1, lent_to_hindsight(head(three, -1), 0, 0) == 2,
  lent_to_hindsight(unasked, 1000000, 3) == 3, lent_to_hindsight(unasked, 1000000, 4) == 4, lent_to_hindsight(paid_back, 1000000, 3) == 3
)

# Indices of inflation rates: those of the years wanted, or the number of a refusal. The glue's own call has the same, and sixteen values always, zeros past
# those.
indexed <- function(name, ...) {
  given <- lapply(list(...), as.double)
  values <- tryCatch(do.call(paste0("doonamurk_", name), given), doonamurk_refused = function(refusal) refusal$number)
  number <- if (is.integer(values)) values else 0L
  out <- do.call(.C, c(paste0("doonamurk_r_", name), given, list(values = rep(-7, 16), answer = -7L, NAOK = TRUE)))
  stopifnot(identical(out$answer, number), identical(out$values, if (number != 0) double(16) else c(values, double(16 - length(values)))))
  values
}
stopifnot(
  identical(indexed("flat", 0.02, 4), c(1020000, 1040400, 1061208, 1082432)),
  identical(indexed("fading", 0.07, 0.02, 5), c(1070000, 1118150, 1154490, 1184795, 1212194)),
  identical(indexed("shock", 0.1, 0.02, 3, 4), c(1020000, 1040400, 1144440, 1167329)),
  identical(indexed("flat", -0.5, 16), c(500000, 250000, 125000, 62500, 31250, 15625, 7813, 3906, 1953, 977, 488, 244, 122, 61, 31, 15)),
  identical(indexed("flat", 0, 16), rep(1000000, 16)),
  identical(indexed("flat", 1, 2), c(2000000, 4000000)),
  identical(indexed("shock", 0.25, 1, 3, 3), c(2000000, 4000000, 5000000)),
  identical(c(indexed("flat", 1, 3), indexed("fading", 1, 1, 3), indexed("shock", 0.25000025, 1, 3, 3)), rep(21L, 3)),
  # 20 before 21
  identical(c(indexed("flat", 1, 17), indexed("fading", 1, NaN, 3), indexed("shock", 1, 1, 0, 3), indexed("shock", 1, 1, 4, 3)), rep(20L, 4))
)

# A rate in each of its places in each call, 0 in the others. For one year, and for a shock in the only one, the second rate is not used.
in_each_place <- function(rate, years) {
  list(
    indexed("flat", rate, years), indexed("fading", rate, 0, years), indexed("fading", 0, rate, years),
    indexed("shock", rate, 0, years, years), indexed("shock", 0, rate, years, years)
  )
}
all_are <- function(rates, wanted, due) {
  for (rate in rates) for (years in wanted) stopifnot(identical(in_each_place(rate, years), rep(list(due(years)), 5)))
}
# Signalling NaNs and negative ones by their bytes; NA_real_ is a NaN too. Then the infinities, and the neighbours of 1 and -0.5.
by_bytes <- function(...) readBin(as.raw(c(...)), "double", endian = "big")
not_numbers <- list(
  NaN, NA_real_, by_bytes(0x7f, 0xf8, 0, 0, 0, 0, 0, 0), by_bytes(0xff, 0xf8, 0, 0, 0, 0, 0, 0), by_bytes(0x7f, 0xf0, 0, 0, 0, 0, 0, 1),
  by_bytes(0xff, 0xf0, 0, 0, 0, 0, 0, 1), by_bytes(0x7f, rep(0xff, 7))
)
stopifnot(is.nan(1 + not_numbers[[5]]), 1 + 2^-52 > 1, -0.5 - 2^-53 < -0.5, 2^-1074 > 0)
all_are(not_numbers, c(1, 2, 16), function(years) 20L)
all_are(c(Inf, -Inf, 1 + 2^-52, -0.5 - 2^-53, .Machine$double.xmax, -.Machine$double.xmax), c(1, 2, 16), function(years) 20L)
# Zeros of both signs and the least rates change no year; the limits and their neighbours inside are accepted.
all_are(c(0, -0, 2^-1074, -2^-1074, 2^-1022, -2^-1022), 1:16, function(years) rep(1000000, years))
for (rate in c(1, -0.5, 1 - 2^-53, -0.5 + 2^-54)) for (years in 1:2) {
  stopifnot(vapply(in_each_place(rate, years), is.double, TRUE), lengths(in_each_place(rate, years)) == years)
}
# Years wanted and the year of a shock; 2^53 is the last that R can hand over, and 2^64 - 1 is none.
all_are(0, c(0, 17, 2^32 + 1, 2^53), function(years) 20L)
for (years in 1:16) for (year in c(0:17, 2^32 + 1, 2^53)) {
  stopifnot(identical(indexed("shock", 0, 0, year, years), if (year >= 1 && year <= years) rep(1000000, years) else 20L))
}
wrong_years <- list(-1, 1.5, 2^54, 2^64 - 1, NA, NaN, Inf, "1")
wrong_rates <- list("0.02", NA, NULL, numeric(0), c(0, 0), TRUE)
stopifnot(
  grepl("^years: whole numbers from 0 to 2\\^53 are due", vapply(wrong_years, function(years) says(doonamurk_flat(0, years)), "")),
  grepl("^years: whole numbers from 0 to 2\\^53 are due", vapply(wrong_years, function(years) says(doonamurk_fading(0, 0, years)), "")),
  grepl("^years: whole numbers from 0 to 2\\^53 are due", vapply(wrong_years, function(years) says(doonamurk_shock(0, 0, 1, years)), "")),
  grepl("^year: whole numbers from 0 to 2\\^53 are due", vapply(wrong_years, function(year) says(doonamurk_shock(0, 0, year, 1)), "")),
  grepl("^years: one number is due", says(doonamurk_flat(0, 1:2))),
  grepl("^rate: one number is due", vapply(wrong_rates, function(rate) says(doonamurk_flat(rate, 1)), "")),
  grepl("^long_run: one number is due", vapply(wrong_rates, function(rate) says(doonamurk_fading(0, rate, 1)), "")),
  grepl("^other: one number is due", vapply(wrong_rates, function(rate) says(doonamurk_shock(0, rate, 1, 1)), "")),
  identical(doonamurk_flat(1L, 2L), c(2000000, 4000000)),
  refused(doonamurk_flat(NA_integer_, 1)) == 20,
  says(doonamurk_flat(1, 3)) == "refused 21: Is every index of a year wanted from 1 to 5,000,000?",
  says(doonamurk_shock(0, NA_real_, 1, 1)) ==
    "refused 20: Is every rate a number from -0.5 to 1.0, a shock's year among the years wanted, and their number from 1 to 16?"
)
