//! Taylor's motor account, document 01's two years, payments after the last year, valuation years, refusals, threads, the way from fields to a record and
//! back, the windows of histories, hindsight runs, and indices of inflation rates.

use doonamurk::{
    cell, cells, fading, field_count, flat, future_cell, hindsight, hindsight_to_vec, history,
    history_cell, history_cells, history_count, history_to_vec, positions, read, read_to_vec,
    record_bytes, report, report_count, result_count, run, run_to_vec, sections, shock, write,
    write_to_vec, Call, Fields, Indices, Position, Step, FIELDS_MAX, HISTORY_CELLS_MAX,
    HISTORY_DEVELOPMENT_MAX, HISTORY_RESULTS_MAX, HISTORY_YEARS_MAX, K_MAX, RECORD_MAX, REPORT_MAX,
    RESULTS_MAX, SETTINGS_MAX, WIDTH_MAX, WIDTH_MIN, YEARS_MAX,
};

const MOTOR: Fields = Fields {
    k: 3,
    exposures: &[1, 1, 1, 1],
    increments: &[504, 282, 90, 48, 580, 292, 97, 595, 332, 662],
    indices: &[1_100_000, 1_210_000, 1_331_000, 1_000_000],
    reporting: &[700_000, 200_000, 80_000, 20_000],
    weight: 500_000,
    ulae: &[20, 25, 30, 35],
    tail: 0,
};

const TWO_YEARS: Fields = Fields {
    k: 1,
    exposures: &[1, 1],
    increments: &[60, 40, 66],
    indices: &[1_100_000, 1_000_000],
    reporting: &[800_000, 200_000],
    weight: 500_000,
    ulae: &[6, 10],
    tail: 0,
};

fn motor() -> Vec<u8> {
    write_to_vec(&MOTOR).expect("the motor account is written")
}

#[test]
fn sizes_are_those_of_the_paper() {
    assert_eq!((record_bytes(1), record_bytes(K_MAX)), (45, RECORD_MAX));
    assert_eq!((field_count(1), field_count(K_MAX)), (14, FIELDS_MAX));
    assert_eq!((result_count(1), result_count(K_MAX)), (22, RESULTS_MAX));
    assert_eq!(cells(K_MAX), 136);
}

#[test]
fn motor_account() {
    let results = run_to_vec(2026, &motor()).expect("accepted");
    assert_eq!(results.len(), result_count(3));
    assert_eq!(
        results[10..14],
        [583_475_514, 287_767_456, 86_614_799, 42_142_231]
    );
    assert_eq!(results[14..18], [86_378, 98_939, 101_998, 113_900]);
}

#[test]
fn sections_by_name() {
    let results = run_to_vec(2026, &motor()).expect("accepted");
    let named = sections(3, &results).expect("a whole list");
    assert_eq!(named.averages[cell(3, 2, 1)], 33_200);
    assert_eq!(named.shares, &results[10..14]);
    assert_eq!(named.future_levels, &[125_290, 137_819, 151_600]);
    assert_eq!(named.payments[future_cell(3, 3, 1)], 360);
    assert_eq!(named.provisions, &[0, 52, 166, 542]);
    assert_eq!(
        (
            named.total_provision,
            named.total_ulae_reserve,
            named.ulae_ratio
        ),
        (760, 19, 31_591)
    );
    assert_eq!(named.completed_cumulatives[future_cell(3, 3, 3)], 1_195);
    assert_eq!(named.tail_payments, &[0; 4]);
    assert_eq!(sections(3, &results[1..]), None);
    assert_eq!(
        (sections(0, &results), sections(16, &[0; 999])),
        (None, None)
    );
}

#[test]
fn cells_follow_one_another() {
    for k in 1..=K_MAX {
        let years = || (0..=k).flat_map(|i| (0..=k).map(move |j| (i, j)));
        let given = years().filter(|(i, j)| i + j <= k);
        let future = years().filter(|(i, j)| i + j > k);
        assert!(given.map(|(i, j)| cell(k, i, j)).eq(0..cells(k)));
        assert!(future
            .map(|(i, j)| future_cell(k, i, j))
            .eq(0..cells(k) - (k + 1)));
    }
}

#[test]
fn two_years_have_the_printed_list() {
    let record = write_to_vec(&TWO_YEARS).expect("written");
    let printed = [
        6000, 4000, 6600, 622641509, 377358491, 9636, 10600, 11660, 44, 0, 44, 44, 0, 22, 0, 3, 3,
        96385, 1666666, 109, 0, 0,
    ];
    assert_eq!(run_to_vec(2026, &record).expect("accepted"), printed);
}

/// The ratio of the two years, changed, in a valuation year, or the refusal.
fn ratio(valuation_year: u64, fields: &Fields) -> Result<i64, u64> {
    let record = write_to_vec(fields).expect("written");
    let results = run_to_vec(valuation_year, &record).map_err(|refused| refused.number())?;
    Ok(sections(fields.k as usize, &results)
        .expect("a whole list")
        .ulae_ratio)
}

#[test]
fn from_2027_on_the_ratio_is_corrected_for_growth() {
    for (year, due) in [
        (0, 96_385),
        (2026, 96_385),
        (2027, 95_484),
        (u64::MAX, 95_484),
    ] {
        assert_eq!(ratio(year, &TWO_YEARS), Ok(due));
    }
    let tail = Fields {
        indices: &[1_100_000, 1_210_000],
        tail: 100,
        ..TWO_YEARS
    };
    assert_eq!(
        (ratio(2026, &tail), ratio(2027, &tail)),
        (Ok(96_385), Ok(63_458))
    );
}

#[test]
fn questions_from_2027_on() {
    let late = Fields {
        reporting: &[0, 1_000_000],
        weight: 1_000_000,
        ..TWO_YEARS
    };
    let changed: [(Fields, u64); 3] = [
        (
            Fields {
                exposures: &[300, 1],
                increments: &[10, -1, 1],
                ulae: &[0, 0],
                ..TWO_YEARS
            },
            15,
        ),
        (
            Fields {
                increments: &[1, 0, 2_000_000],
                ..late
            },
            16,
        ),
        (
            Fields {
                ulae: &[66, 100],
                ..late
            },
            17,
        ),
    ];
    for (fields, number) in changed {
        assert!(ratio(2026, &fields).is_ok());
        assert_eq!(ratio(2027, &fields), Err(number));
    }
}

#[test]
fn payments_after_the_last_year() {
    let record = write_to_vec(&Fields {
        indices: &[1_100_000, 1_210_000],
        tail: 100,
        ..TWO_YEARS
    })
    .expect("written");
    let results = run_to_vec(2026, &record).expect("accepted");
    let named = sections(1, &results).expect("a whole list");
    assert_eq!(named.tail_payments, &[100, 110]);
    assert_eq!(named.provisions, &[100, 154]);
    assert_eq!(named.not_reported, &[0, 44]);
    assert_eq!(named.ulae_reserves, &[4, 9]);
    assert_eq!(named.payments, &[44]);
}

#[test]
fn halves_go_to_the_even_hundredth() {
    let record = write_to_vec(&Fields {
        k: 3,
        exposures: &[8; 4],
        increments: &[401, -1, 3, 5, 403, 7, -3, 405, 9, 407],
        indices: &[1_000_000; 4],
        reporting: &[1_000_000, 0, 0, 0],
        weight: 0,
        ulae: &[0; 4],
        tail: 0,
    })
    .expect("written");
    let averages = [5012, -12, 38, 62, 5038, 88, -38, 5062, 112, 5088];
    assert_eq!(run_to_vec(2026, &record).expect("accepted")[..10], averages);
}

#[test]
fn entries_past_the_list_keep_what_they_held() {
    let mut results = [-7; RESULTS_MAX];
    run(2026, &motor(), &mut results).expect("accepted");
    assert!(results[..result_count(3)].iter().all(|&entry| entry >= 0));
    assert!(results[result_count(3)..].iter().all(|&entry| entry == -7));
}

#[test]
fn a_refused_run_or_read_leaves_the_buffer() {
    let record = motor();
    let mut filled = record.clone();
    *filled.last_mut().expect("a last byte") |= 1;
    let mut no_claims = record.clone();
    no_claims[0] = 0x30;
    no_claims[1..3].fill(0);
    let refused: [(&[u8], u64); 5] = [
        (&[], 1),
        (&[0x0f; 45], 1),
        (&record[1..], 1),
        (&filled, 2),
        (&no_claims, 4),
    ];
    for (record, number) in refused {
        let mut list = [-7; RESULTS_MAX];
        let refusal = run(2026, record, &mut list).expect_err("refused");
        assert_eq!((refusal.number(), refusal.call()), (number, Call::Run));
        let refusal = read(record, &mut list).expect_err("refused");
        assert_eq!((refusal.number(), refusal.call()), (number, Call::Read));
        assert_eq!(list, [-7; RESULTS_MAX]);
    }
}

#[test]
fn a_short_buffer_is_refused_and_left() {
    let record = motor();
    let mut results = vec![-7; result_count(3) - 1];
    assert_eq!(
        run(2026, &record, &mut results).map_err(|r| r.number()),
        Err(3)
    );
    assert!(results.iter().all(|&entry| entry == -7));
    let mut list = vec![-7; field_count(3) - 1];
    assert_eq!(read(&record, &mut list).map_err(|r| r.number()), Err(3));
    assert!(list.iter().all(|&entry| entry == -7));
    assert_eq!(run(2026, &record, &mut []).map_err(|r| r.number()), Err(3));
}

#[test]
fn marked_refusals_of_the_engine() {
    let changed: [(Fields, u64); 7] = [
        (
            Fields {
                increments: &[60, 40, 0],
                ..TWO_YEARS
            },
            8,
        ),
        (
            Fields {
                increments: &[0, 40, 66],
                ..TWO_YEARS
            },
            13,
        ),
        (
            Fields {
                increments: &[0, 40, 66],
                ulae: &[6, 161],
                ..TWO_YEARS
            },
            13,
        ),
        (
            Fields {
                increments: &[0, -1, 66],
                ..TWO_YEARS
            },
            6,
        ),
        (
            Fields {
                ulae: &[6, 161],
                ..TWO_YEARS
            },
            12,
        ),
        (
            Fields {
                tail: 10_000_001,
                ..TWO_YEARS
            },
            18,
        ),
        (
            Fields {
                indices: &[1, 6],
                tail: 10_000_000,
                ..TWO_YEARS
            },
            19,
        ),
    ];
    for (fields, number) in changed {
        let record = write_to_vec(&fields).expect("written");
        let refusal = run_to_vec(2026, &record).expect_err("refused");
        assert_eq!(refusal.number(), number);
        assert!(refusal.question().ends_with('?'));
    }
}

/// Document 01's k = 2 case, and one that has a base and small factors.
#[test]
fn no_base_of_the_chain_ladder_comes_before_a_running_share_of_0() {
    let cases: [([i64; 6], u64); 2] = [
        ([0, 5_000, 999_999, 0, 0, 1], 13),
        ([5_000, 45_000, 2_000_000, 0, 0, 1], 9),
    ];
    for (increments, number) in cases {
        let record = write_to_vec(&Fields {
            k: 2,
            exposures: &[100; 3],
            increments: &increments,
            indices: &[1_000_000; 3],
            reporting: &[1_000_000, 0, 0],
            weight: 0,
            ulae: &[0; 3],
            tail: 0,
        })
        .expect("written");
        for year in [2026, 2027] {
            let refusal = run_to_vec(year, &record).expect_err("refused");
            assert_eq!(refusal.number(), number);
        }
    }
}

/// No exact solution, many, and exactly one, whose shares are -1, 0, 2; then the products of shares 3/5, 2/5 and levels 100, 200.
#[test]
fn triangles_without_the_solution_that_the_method_needs() {
    let cases: [[i64; 6]; 3] = [[1, 0, 0, 0, 1, 0], [1, 0, 0, 0, 0, 0], [0, 1, 2, 1, -1, 0]];
    for increments in cases {
        let record = write_to_vec(&Fields {
            k: 2,
            exposures: &[1; 3],
            increments: &increments,
            indices: &[1_000_000; 3],
            reporting: &[1_000_000, 0, 0],
            weight: 0,
            ulae: &[0; 3],
            tail: 0,
        })
        .expect("written");
        for year in [2026, 2027] {
            let refusal = run_to_vec(year, &record).expect_err("refused");
            assert_eq!(refusal.number(), 8);
        }
    }
    let record = write_to_vec(&Fields {
        increments: &[60, 80, 120],
        ..TWO_YEARS
    })
    .expect("written");
    let results = run_to_vec(2026, &record).expect("accepted");
    let named = sections(1, &results).expect("a list of two years");
    assert_eq!(named.shares, [600_000_000, 400_000_000]);
    assert_eq!(named.levels, [10_000, 20_000]);
}

#[test]
fn a_refused_write_leaves_the_buffer() {
    let calls: [(Fields, usize, u64); 8] = [
        (Fields { k: 0, ..MOTOR }, 0, 1),
        (Fields { k: 16, ..MOTOR }, 0, 1),
        (
            Fields {
                increments: &[504],
                ..MOTOR
            },
            0,
            2,
        ),
        (MOTOR, 1, 2),
        (
            Fields {
                indices: &[1_100_000, 1_210_000, 1_331_000],
                ..MOTOR
            },
            0,
            2,
        ),
        (
            Fields {
                tail: 10_000_000_001,
                ..MOTOR
            },
            0,
            4,
        ),
        (
            Fields {
                exposures: &[0, 1, 1, 1],
                ..MOTOR
            },
            0,
            4,
        ),
        (
            Fields {
                reporting: &[700_000, 200_000, 80_000, 20_001],
                ..MOTOR
            },
            0,
            5,
        ),
    ];
    for (fields, over, number) in calls {
        let mut record = vec![0xa5; record_bytes(3) + over];
        let refusal = write(&fields, &mut record).expect_err("refused");
        assert_eq!((refusal.number(), refusal.call()), (number, Call::Write));
        assert!(record.iter().all(|&byte| byte == 0xa5));
    }
    assert_eq!(
        write_to_vec(&Fields {
            k: u64::MAX,
            ..MOTOR
        })
        .map_err(|r| r.number()),
        Err(1)
    );
}

#[test]
fn a_refusal_says_its_question() {
    let refusal = run_to_vec(2026, &[]).expect_err("refused");
    assert_eq!(
        refusal.to_string(),
        "refused 1: Is there a first byte, and is k at least 1?"
    );
    let refusal = write_to_vec(&Fields { k: 0, ..MOTOR }).expect_err("refused");
    assert_eq!(refusal.to_string(), "refused 1: Is k from 1 to 15?");
}

#[test]
fn fields_come_back_from_their_record() {
    let record = motor();
    let list = read_to_vec(&record).expect("read");
    let natural = |from: usize, count: usize| -> Vec<u64> {
        list[from..from + count].iter().map(|&v| v as u64).collect()
    };
    assert_eq!(list.len(), field_count(3));
    assert_eq!(list[5..15], *MOTOR.increments);
    let back = write_to_vec(&Fields {
        k: list[0] as u64,
        exposures: &natural(1, 4),
        increments: &list[5..15],
        indices: &natural(15, 4),
        reporting: &natural(19, 4),
        weight: list[23] as u64,
        ulae: &natural(24, 4),
        tail: list[28] as u64,
    });
    assert_eq!(back, Ok(record));
}

#[test]
fn threads_run_at_once_and_agree() {
    let records = [motor(), write_to_vec(&TWO_YEARS).expect("written")];
    let expected: Vec<Vec<i64>> = records
        .iter()
        .map(|record| run_to_vec(2026, record).expect("accepted"))
        .collect();
    std::thread::scope(|scope| {
        for n in 0..4 {
            let (record, expected) = (&records[n % 2], &expected[n % 2]);
            scope.spawn(move || {
                for _ in 0..2000 {
                    assert_eq!(run_to_vec(2026, record).as_ref(), Ok(expected));
                }
            });
        }
    });
}

/// A history that is accepted in every position: payments fall with the development year and rise with the payment year.
fn long_history(years: usize) -> (Vec<u64>, Vec<i64>) {
    let exposures = (0..years as u64).map(|i| 1000 + 7 * i).collect();
    let mut cells = Vec::new();
    for i in 0..years {
        for j in 0..HISTORY_DEVELOPMENT_MAX.min(years - i) {
            assert_eq!(history_cell(years, i, j), cells.len());
            cells.push((900_000 + 31_000 * (i + j) as i64) >> (2 * j / 3));
        }
    }
    assert_eq!(cells.len(), history_cells(years));
    (exposures, cells)
}

#[test]
fn sizes_of_histories() {
    let counts = [0, 1, 2, 15, 16, 17, HISTORY_YEARS_MAX].map(history_cells);
    assert_eq!(counts, [0, 1, 3, 120, 136, 152, HISTORY_CELLS_MAX]);
    assert_eq!(history_count(2, 2), 5);
    assert_eq!(
        history_count(HISTORY_YEARS_MAX, WIDTH_MAX),
        HISTORY_RESULTS_MAX
    );
}

/// In windows of four years the motor account is the record's, and document 01 has 0.6099 for the cut of its first three.
#[test]
fn motor_account_through_windows_of_each_width() {
    let due: [(usize, &[Position]); 3] = [
        (
            2,
            &[
                Position {
                    refused: 0,
                    shares: &[672_853_828, 327_146_172],
                    levels: &[74_904, 86_200],
                },
                Position {
                    refused: 0,
                    shares: &[670_800_450, 329_199_550],
                    levels: &[86_463, 88_700],
                },
                Position {
                    refused: 0,
                    shares: &[665_995_975, 334_004_025],
                    levels: &[89_339, 99_400],
                },
            ],
        ),
        (
            3,
            &[
                Position {
                    refused: 0,
                    shares: &[609_925_952, 297_955_317, 92_118_731],
                    levels: &[82_632, 94_946, 97_700],
                },
                Position {
                    refused: 0,
                    shares: &[608_846_923, 302_243_819, 88_909_258],
                    levels: &[95_262, 97_355, 109_100],
                },
            ],
        ),
        (
            4,
            &[Position {
                refused: 0,
                shares: &[583_475_514, 287_767_456, 86_614_799, 42_142_231],
                levels: &[86_378, 98_939, 101_998, 113_900],
            }],
        ),
    ];
    for (width, due) in due {
        let result =
            history_to_vec(4, width as u64, MOTOR.exposures, MOTOR.increments).expect("accepted");
        assert!(positions(width, &result).eq(due.iter().copied()));
    }
}

#[test]
fn each_position_equals_the_record_that_is_cut_out_for_it() {
    let years = HISTORY_YEARS_MAX;
    let (exposures, cells) = long_history(years);
    for width in WIDTH_MIN..=WIDTH_MAX {
        let k = width - 1;
        let result =
            history_to_vec(years as u64, width as u64, &exposures, &cells).expect("accepted");
        assert_eq!(positions(width, &result).count(), years - width + 1);
        for (start, position) in positions(width, &result).enumerate() {
            let rows = (0..width).map(|i| &cells[history_cell(years, start + i, 0)..][..width - i]);
            let mut reporting = vec![0; width];
            reporting[0] = 1_000_000;
            let record = write_to_vec(&Fields {
                k: k as u64,
                exposures: &exposures[start..start + width],
                increments: &rows.collect::<Vec<_>>().concat(),
                indices: &vec![1_000_000; width],
                reporting: &reporting,
                weight: 0,
                ulae: &vec![0; width],
                tail: 0,
            })
            .expect("written");
            let list = run_to_vec(2026, &record).expect("accepted");
            let named = sections(k, &list).expect("a whole list");
            let cut_out = Position {
                refused: 0,
                shares: named.shares,
                levels: named.levels,
            };
            assert_eq!(position, cut_out);
        }
    }
}

/// 7 by a column below zero, 8 by a year without payments, 10 by a level above 10^9, beside accepted ones; 9, which takes three years, by a running share of 0.
#[test]
fn refused_positions_have_their_number_and_zeros() {
    let cells = [
        60, 40, 0, 0, 0, 0, 66, -1, 0, 0, 0, 80, 5, 0, 0, 0, 1_000_000, 0, 1_000, 1_000_000, 1,
    ];
    let result = history_to_vec(6, 2, &[100; 6], &cells).expect("accepted");
    let numbers: Vec<i64> = positions(2, &result)
        .map(|position| position.refused)
        .collect();
    assert_eq!(numbers, [0, 7, 8, 0, 10]);
    for position in positions(2, &result) {
        let zeros = position.shares == [0, 0] && position.levels == [0, 0];
        assert_eq!(zeros, position.refused != 0);
        assert!(zeros || position.shares.iter().sum::<i64>() == 1_000_000_000);
    }
    let nine = history_to_vec(3, 3, &[100; 3], &[0, 5_000, 999_999, 0, 0, 1]);
    assert_eq!(nine, Ok(vec![9, 0, 0, 0, 0, 0, 0]));
    // Questions 13 and 6 are not put: nothing is paid at first, and more is paid back than was paid.
    let unasked: [(u64, [i64; 6]); 2] = [(2, [0, 40, 0, 66, 5, 70]), (3, [60, 90, 5, 70, -80, 90])];
    for (width, cells) in unasked {
        let result = history_to_vec(3, width, &[1; 3], &cells).expect("accepted");
        assert!(positions(width as usize, &result).all(|position| position.refused == 0));
    }
}

/// A refused history: its number, and the result as it was lent.
fn history_number(years: u64, width: u64, exposures: &[u64], cells: &[i64], room: usize) -> u64 {
    let mut result = vec![-7; room];
    let outcome = history(years, width, exposures, cells, &mut result);
    let number = outcome.map_or_else(|refused| refused.number(), |()| 0);
    assert!(number == 0 || result.iter().all(|&entry| entry == -7));
    number
}

#[test]
fn years_and_widths_of_histories() {
    let far = 1 << 32;
    let sign = 1 << 63;
    let sizes: [(u64, u64, u64); 24] = [
        (2, 2, 0),
        (5, 5, 0),
        (16, 16, 0),
        (17, 16, 0),
        (64, 2, 0),
        (64, 16, 0),
        (0, 0, 27),
        (0, 2, 27),
        (1, 1, 27),
        (1, 2, 27),
        (2, 1, 27),
        (2, 3, 27),
        (5, 6, 27),
        (17, 17, 27),
        (64, 17, 27),
        (64, 1, 27),
        (65, 2, 27),
        (66, 16, 27),
        (20, far + 2, 27),
        (20, u64::MAX, 27),
        (far + 20, 2, 27),
        (sign + 20, sign + 2, 27),
        (u64::MAX, 2, 27),
        (u64::MAX, u64::MAX, 27),
    ];
    for (years, width, number) in sizes {
        let few = years.min(66) as usize;
        let (exposures, cells) = long_history(few);
        let room = if width as usize <= few {
            history_count(few, width as usize)
        } else {
            5
        };
        assert_eq!(
            history_number(years, width, &exposures, &cells, room),
            number,
            "{years}, {width}"
        );
        let to_vec = history_to_vec(years, width, &exposures, &cells);
        assert_eq!(
            to_vec.map_or_else(|refused| refused.number(), |_| 0),
            number
        );
        // 27 before 28
        if number == 27 {
            assert_eq!(history_number(years, width, &[0; 4], &cells, room), 27);
            assert_eq!(
                history_number(years, width, &exposures, &[i64::MIN; 10], room + 1),
                27
            );
        }
    }
}

#[test]
fn lengths_and_ranges_of_histories() {
    let (exposures, cells) = long_history(20);
    let number = |exposures: &[u64], cells: &[i64], room: usize| {
        history_number(20, 2, exposures, cells, room)
    };
    assert_eq!(number(&exposures, &cells, 95), 0);
    for room in [0, 94, 96, HISTORY_RESULTS_MAX] {
        assert_eq!(number(&exposures, &cells, room), 28);
    }
    let longer = [&exposures[..], &[1]].concat();
    for changed in [&exposures[1..], &[], &longer] {
        assert_eq!(number(changed, &cells, 95), 28);
    }
    let longer = [&cells[..], &[1]].concat();
    for changed in [&cells[1..], &[], &longer] {
        assert_eq!(number(&exposures, changed, 95), 28);
    }
    for bad in [0, 1_000_001, (1 << 32) + 1, 1 << 63, u64::MAX] {
        for place in [0, 7, 19] {
            let mut changed = exposures.clone();
            changed[place] = bad;
            assert_eq!(number(&changed, &cells, 95), 28);
        }
    }
    // The first cell, the last one, and one that no window of two years has.
    for place in [0, cells.len() - 1, history_cell(20, 3, 15)] {
        let mut changed = cells.clone();
        for bad in [10_000_000_001, -10_000_000_001, i64::MAX, i64::MIN] {
            changed[place] = bad;
            assert_eq!(number(&exposures, &changed, 95), 28);
        }
        for limit in [10_000_000_000, -10_000_000_000] {
            changed[place] = limit;
            assert_eq!(number(&exposures, &changed, 95), 0);
        }
    }
}

#[test]
fn a_refusal_of_a_history_says_its_question() {
    let refusal = history_to_vec(1, 2, &[1], &[60]).expect_err("refused");
    assert_eq!((refusal.number(), refusal.call()), (27, Call::History));
    assert_eq!(
        refusal.to_string(),
        "refused 27: Has the history at most 64 years, and is the width from 2 to 16 and no more than the history's years?"
    );
    let refusal = history_to_vec(2, 2, &[1], &[60]).expect_err("refused");
    assert_eq!((refusal.number(), refusal.call()), (28, Call::History));
    assert!(refusal
        .question()
        .ends_with("every cell from -10^10 to 10^10?"));
}

/// The record of a triangle, its other fields plain.
fn plain_record(exposures: &[u64], increments: &[i64], first_index: u64) -> Vec<u8> {
    let years = exposures.len();
    let mut indices = vec![1_000_000; years];
    indices[0] = first_index;
    let mut reporting = vec![0; years];
    reporting[0] = 1_000_000;
    write_to_vec(&Fields {
        k: years as u64 - 1,
        exposures,
        increments,
        indices: &indices,
        reporting: &reporting,
        weight: 0,
        ulae: &vec![0; years],
        tail: 0,
    })
    .expect("written")
}

/// Document 01's two years, and the year after: 0, 44, 70.
fn three_years() -> Vec<u8> {
    plain_record(&[1; 3], &[60, 40, 0, 66, 44, 70], 1_000_000)
}

#[test]
fn sizes_of_reports() {
    assert_eq!((report_count(2, 1), report_count(3, 2)), (4, 13));
    assert_eq!(report_count(K_MAX, SETTINGS_MAX), REPORT_MAX);
}

/// The forecasts of row 1 are 0, 40, 44, 48 and 200, and 44 are paid. On a tie the first setting is the best.
#[test]
fn three_years_in_hindsight() {
    let calls: [(&[u64], &[i64]); 5] = [
        (&[1_100_000], &[0, 0, 0, 0]),
        (
            &[1, 1_000_000, 1_200_000, 5_000_000],
            &[0, 44, 44, 0, 4, 4, 0, -4, 4, 0, -156, 156, 1],
        ),
        (
            &[1_200_000, 1_000_000, 1],
            &[0, -4, 4, 0, 4, 4, 0, 44, 44, 0],
        ),
        (
            &[1_200_000, 1_000_000, 1_100_000],
            &[0, -4, 4, 0, 4, 4, 0, 0, 0, 2],
        ),
        (&[1, 1], &[0, 44, 44, 0, 44, 44, 0]),
    ];
    for (settings, due) in calls {
        let entries = hindsight_to_vec(&three_years(), settings);
        assert_eq!(entries.as_deref(), Ok(due));
    }
}

/// The cut to three years has the units 9000 and 29110, that to two years 28200; 97, 332 and 292 are paid.
#[test]
fn motor_account_in_hindsight() {
    let entries = hindsight_to_vec(&motor(), &[1_000_000, 1]).expect("accepted");
    assert_eq!(entries.len(), report_count(3, 2));
    let taken = report(3, 2, &entries).expect("a whole report");
    let step = |gaps| Step { refused: 0, gaps };
    let due: [(&[Step], i64); 2] = [
        (&[step(&[7, 41]), step(&[10])], 58),
        (&[step(&[97, 332]), step(&[292])], 721),
    ];
    assert_eq!((taken.best, taken.settings().count()), (0, 2));
    for (tried, (steps, sum)) in taken.settings().zip(due) {
        assert_eq!(tried.sum, sum);
        assert!(tried.steps().eq(steps.iter().copied()));
    }
    assert_eq!(report(3, 2, &entries[1..]), None);
    for (k, settings) in [(1, 1), (16, 1), (3, 0), (3, 9)] {
        assert_eq!(report(k, settings, &[0; 2_000]), None);
    }
}

/// The cells of a triangle that are paid by a year.
fn cut(k: usize, increments: &[i64], last: usize) -> Vec<i64> {
    let rows = (0..=last).map(|i| &increments[cell(k, i, 0)..][..=last - i]);
    rows.collect::<Vec<_>>().concat()
}

#[test]
fn each_step_equals_the_record_that_is_cut_out_for_it() {
    for k in 2..=K_MAX {
        let (exposures, increments) = long_history(k + 1);
        let settings = [
            1_000_000, 1_040_000, 1, 900_000, 5_000_000, 1_100_000, 3, 1_030_000,
        ];
        let settings = &settings[..1 + k % SETTINGS_MAX];
        let record = plain_record(&exposures, &increments, 1_000_000);
        let entries = hindsight_to_vec(&record, settings).expect("accepted");
        let taken = report(k, settings.len(), &entries).expect("a whole report");
        let mut sums = Vec::new();
        for (tried, &index) in taken.settings().zip(settings) {
            let mut sum = 0;
            for (step, last) in tried.steps().zip((1..k).rev()) {
                let cut_out = cut(k, &increments, last);
                let record = plain_record(&exposures[..=last], &cut_out, index);
                let list = run_to_vec(2026, &record).expect("accepted");
                let payments = sections(last, &list).expect("a whole list").payments;
                let gaps: Vec<i64> = (1..=last)
                    .map(|i| {
                        let forecast = payments[future_cell(last, i, last + 1 - i)];
                        increments[cell(k, i, last + 1 - i)] - forecast
                    })
                    .collect();
                assert_eq!((step.refused, step.gaps), (0, &gaps[..]));
                sum += gaps.iter().map(|gap| gap.abs()).sum::<i64>();
            }
            assert_eq!(tried.sum, sum);
            sums.push(sum);
        }
        let least = sums.iter().min();
        assert_eq!(
            sums.iter().position(|sum| Some(sum) == least),
            Some(taken.best)
        );
    }
}

/// 7 by a column below zero, 8 by a year without payments, 9 by a running share of 0, 10 by a level above 10^9, each between two steps that are accepted. A report
/// without a step that is accepted has the first setting for the best. The latest diagonal is in no step: the engine refuses it with 7.
#[test]
fn refused_steps_have_their_number_and_zeros() {
    let triangles: [(i64, [i64; 15]); 4] = [
        (
            7,
            [60, 40, -50, 3, 1, 66, 45, 60, 2, 70, 47, 50, 80, 50, 90],
        ),
        (8, [60, 40, 0, 3, 1, 66, 0, 10, 2, 0, 40, 9, 80, 50, 90]),
        (
            9,
            [
                100,
                5_000_000,
                500_000_000,
                0,
                0,
                1,
                0,
                0,
                0,
                1,
                0,
                7,
                400_000_000,
                100_000_000,
                2,
            ],
        ),
        (
            10,
            [
                60,
                40,
                400_000_000,
                0,
                0,
                66,
                10,
                0,
                3,
                10,
                0,
                100_000_000,
                500_000_000,
                44,
                100_000_000,
            ],
        ),
    ];
    for (number, increments) in triangles {
        let record = plain_record(&[100; 5], &increments, 1_000_000);
        let entries = hindsight_to_vec(&record, &[1_000_000, 1_100_000]).expect("accepted");
        let taken = report(4, 2, &entries).expect("a whole report");
        for tried in taken.settings() {
            let marks: Vec<i64> = tried.steps().map(|step| step.refused).collect();
            assert_eq!(marks, [0, number, 0]);
            assert!(tried
                .steps()
                .all(|step| step.refused == 0 || step.gaps == [0, 0]));
        }
    }
    let nothing = plain_record(&[1; 4], &[0; 10], 1_000_000);
    let report = hindsight_to_vec(&nothing, &[5_000_000, 1]);
    assert_eq!(report, Ok(vec![8, 0, 0, 8, 0, 0, 8, 0, 0, 8, 0, 0, 0]));
    let late = plain_record(&[1; 3], &[60, 40, 0, 66, 44, 10_000_000_000], 1_000_000);
    assert_eq!(run_to_vec(2026, &late).map_err(|no| no.number()), Err(7));
    assert_eq!(hindsight_to_vec(&late, &[1_100_000]), Ok(vec![0, 0, 0, 0]));
}

/// A hindsight run: its number, and the report as it was lent where it is refused, or past its entries.
fn hindsight_number(record: &[u8], settings: &[u64], room: usize) -> u64 {
    let mut report = vec![-7; room];
    let outcome = hindsight(record, settings, &mut report);
    let number = outcome.map_or_else(|refused| refused.number(), |()| 0);
    let filled = if number == 0 {
        report_count(usize::from(record[0] >> 4), settings.len())
    } else {
        0
    };
    assert!(report[filled..].iter().all(|&entry| entry == -7));
    number
}

#[test]
fn settings_of_a_hindsight_run() {
    let record = three_years();
    for count in 0..=20 {
        let settings = vec![1_000_000; count];
        let due = if (1..=SETTINGS_MAX).contains(&count) {
            0
        } else {
            29
        };
        let room = report_count(2, count);
        assert_eq!(hindsight_number(&record, &settings, room), due);
        let number = hindsight_to_vec(&record, &settings).map_or_else(|no| no.number(), |_| 0);
        assert_eq!(number, due);
    }
    let far = 1 << 32;
    let outside = [0, 5_000_001, far + 1, far + 1_000_000, 1 << 63, u64::MAX];
    for place in 0..SETTINGS_MAX {
        let mut settings = [1_000_000; SETTINGS_MAX];
        for limit in [1, 5_000_000] {
            settings[place] = limit;
            assert_eq!(hindsight_number(&record, &settings, REPORT_MAX), 0);
        }
        for bad in outside {
            settings[place] = bad;
            assert_eq!(hindsight_number(&record, &settings, REPORT_MAX), 29);
        }
    }
    let two = write_to_vec(&TWO_YEARS).expect("written");
    for room in [0, 2, REPORT_MAX] {
        assert_eq!(hindsight_number(&two, &[1_000_000], room), 29);
    }
}

/// 1, 2, 29, 3, 4, 5, 6: of two that say no the first in this order.
#[test]
fn refused_hindsight_runs_leave_the_report() {
    let record = three_years();
    let (good, bad): (&[u64], &[u64]) = (&[1_000_000, 1_100_000], &[]);
    let enough = report_count(2, 2);
    for room in [enough, enough + 1, REPORT_MAX, REPORT_MAX + 9] {
        assert_eq!(hindsight_number(&record, good, room), 0);
    }
    for room in [0, 1, enough - 1] {
        assert_eq!(hindsight_number(&record, good, room), 3);
        assert_eq!(hindsight_number(&record, bad, room), 29);
    }
    for settings in [good, bad] {
        for room in [enough, 0] {
            assert_eq!(hindsight_number(&[], settings, room), 1);
            assert_eq!(hindsight_number(&[15; 67], settings, room), 1);
            assert_eq!(hindsight_number(&record[1..], settings, room), 1);
            assert_eq!(hindsight_number(&record[..1], settings, room), 2);
            let longer = [&record[..], &[0]].concat();
            assert_eq!(hindsight_number(&longer, settings, room), 2);
        }
    }
    // The first exposure, 1, ends with the third byte, and the first reporting share has most of its bits in bytes 43 and 44.
    let mut no_claims = record.clone();
    no_claims[2] = 0;
    let mut unreported = record.clone();
    unreported[43..45].fill(0);
    let paid_back = plain_record(&[1; 3], &[60, 40, 0, 66, -67, 70], 1_000_000);
    for (number, record) in [(4, no_claims), (5, unreported), (6, paid_back)] {
        assert_eq!(hindsight_number(&record, good, enough), number);
        assert_eq!(hindsight_number(&record, good, enough - 1), 3);
        assert_eq!(hindsight_number(&record, bad, enough), 29);
    }
}

#[test]
fn a_refusal_of_a_hindsight_run_says_its_question() {
    let refusal = hindsight_to_vec(&motor(), &[]).expect_err("refused");
    assert_eq!((refusal.number(), refusal.call()), (29, Call::Hindsight));
    assert_eq!(
        refusal.to_string(),
        "refused 29: Are there 1 to 8 settings, each from 1 to 5,000,000, and is k at least 2?"
    );
    let refusal = hindsight(&motor(), &[1], &mut []).expect_err("refused");
    assert_eq!(
        refusal.to_string(),
        "refused 3: Does the lent report hold all entries?"
    );
}

/// What a call hands back that is refused, or accepted with these indices: zeros past them.
fn handed_back(due: Result<&[u64], u64>) -> Indices {
    let mut indices = Indices {
        refused: due.err().unwrap_or(0),
        values: [0; YEARS_MAX],
    };
    if let Ok(values) = due {
        indices.values[..values.len()].copy_from_slice(values);
    }
    indices
}

#[test]
fn worked_indices() {
    let halved = [
        500_000, 250_000, 125_000, 62_500, 31_250, 15_625, 7_813, 3_906, 1_953, 977, 488, 244, 122,
        61, 31, 15,
    ];
    let calls: [(Indices, Result<&[u64], u64>); 10] = [
        (
            flat(0.02, 4),
            Ok(&[1_020_000, 1_040_400, 1_061_208, 1_082_432]),
        ),
        (
            fading(0.07, 0.02, 5),
            Ok(&[1_070_000, 1_118_150, 1_154_490, 1_184_795, 1_212_194]),
        ),
        (
            shock(0.1, 0.02, 3, 4),
            Ok(&[1_020_000, 1_040_400, 1_144_440, 1_167_329]),
        ),
        (flat(-0.5, 16), Ok(&halved)),
        (flat(0.0, 16), Ok(&[1_000_000; 16])),
        (flat(1.0, 2), Ok(&[2_000_000, 4_000_000])),
        (flat(1.0, 3), Err(21)),
        (fading(1.0, 1.0, 3), Err(21)),
        (
            shock(0.25, 1.0, 3, 3),
            Ok(&[2_000_000, 4_000_000, 5_000_000]),
        ),
        (shock(0.25000025, 1.0, 3, 3), Err(21)),
    ];
    for (indices, due) in calls {
        assert_eq!(indices, handed_back(due));
        assert_eq!(indices.wanted().map_err(|refused| refused.number()), due);
    }
}

#[test]
fn question_20_comes_before_21() {
    for indices in [
        flat(1.0, 17),
        fading(1.0, f64::NAN, 3),
        fading(1.0, 1.5, 3),
        shock(1.0, 1.0, 0, 3),
        shock(1.0, 1.0, 4, 3),
    ] {
        assert_eq!(indices, handed_back(Err(20)));
    }
}

/// The calls with a rate in each of its places and 0.0 in the others. For one year, and for a shock in the only one, the second rate is not used.
fn in_each_place(rate: f64, years: u64) -> [Indices; 5] {
    [
        flat(rate, years),
        fading(rate, 0.0, years),
        fading(0.0, rate, years),
        shock(rate, 0.0, years, years),
        shock(0.0, rate, years, years),
    ]
}

#[test]
fn rates_outside_are_refused_used_or_not() {
    let outside = [
        // not a number: quiet, signalling, negative ones, of all bits
        0x7ff8_0000_0000_0000,
        0x7ff0_0000_0000_0001,
        0xfff8_0000_0000_0000,
        0xfff0_0000_0000_0001,
        0x7fff_ffff_ffff_ffff,
        // the infinities, and the neighbours of 1.0 and -0.5
        0x7ff0_0000_0000_0000,
        0xfff0_0000_0000_0000,
        0x3ff0_0000_0000_0001,
        0xbfe0_0000_0000_0001,
    ];
    for bits in outside {
        for years in [1, 2, 16] {
            let refused = handed_back(Err(20));
            assert_eq!(in_each_place(f64::from_bits(bits), years), [refused; 5]);
        }
    }
}

#[test]
fn zeros_of_both_signs_and_the_least_rates_change_no_year() {
    for bits in [0, 1, 1 << 52] {
        for rate in [f64::from_bits(bits), -f64::from_bits(bits)] {
            for years in 1..=16 {
                let level = handed_back(Ok(&[1_000_000; YEARS_MAX][..years]));
                assert_eq!(in_each_place(rate, years as u64), [level; 5]);
            }
        }
    }
}

#[test]
fn limits_of_a_rate_are_inside() {
    let (most, least) = (1.0f64.to_bits(), (-0.5f64).to_bits());
    for bits in [most, most - 1, least, least - 1] {
        for years in [1, 2] {
            let calls = in_each_place(f64::from_bits(bits), years);
            assert!(calls.iter().all(|indices| indices.refused == 0));
        }
    }
}

#[test]
fn years_wanted_and_the_year_of_a_shock() {
    let refused = handed_back(Err(20));
    // the low 32 bits of one of them would be accepted
    for years in [0, 17, (1 << 32) + 1, u64::MAX] {
        assert_eq!(in_each_place(0.0, years), [refused; 5]);
        assert_eq!(shock(0.0, 0.0, 1, years), refused);
    }
    for years in 1..=16 {
        for year in 0..=17 {
            let within = 1 <= year && year <= years;
            let number = shock(0.0, 0.0, year, years).refused;
            assert_eq!(number, if within { 0 } else { 20 });
        }
        for year in [(1 << 32) + 1, u64::MAX] {
            assert_eq!(shock(0.0, 0.0, year, years), refused);
        }
    }
}

#[test]
fn a_refusal_of_rates_says_its_question() {
    let refusal = flat(f64::NAN, 1);
    let refusal = refusal.wanted().expect_err("refused");
    assert_eq!((refusal.number(), refusal.call()), (20, Call::Inflation));
    assert_eq!(
        refusal.to_string(),
        "refused 20: Is every rate a number from -0.5 to 1.0, a shock's year among the years wanted, and their number from 1 to 16?"
    );
    let refusal = flat(1.0, 3);
    assert_eq!(
        refusal.wanted().expect_err("refused").to_string(),
        "refused 21: Is every index of a year wanted from 1 to 5,000,000?"
    );
}
