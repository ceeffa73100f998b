//! Times the proved engine beside document 01 in plain Rust (`paper.rs`) and in Python (`tests/model.py`), on the same records in one run.
//!
//!     benchmark LAYOUT..      runs each of these programs in turn and prints the tables
//!     benchmark --times       the times of this program alone, a line a record: engine, Rust
//!
//! Where code stands in a program moves its time by some parts in a hundred, so the benchmark is built several times: a function of padding, sixteen bytes more
//! each time, shifts all code behind it, that of the engine and that of Rust alike. Each program takes both in turn, in small batches, so that other work on the
//! machine meets them alike, and in every second layout Rust goes first. The time of a record in a layout is the best of all its batches; the tables have the
//! mean over the layouts, and the lowest and the highest ratio among them. Python is timed apart, in a process of its own.

use differential::generate::LAST_PLAIN;
use differential::random::Random;
use differential::records::ALL_ASKED;
use differential::{generate, hindsight, history, paper, records};
use std::arch::global_asm;
use std::hint::black_box;
use std::io::{ErrorKind, Write};
use std::path::Path;
use std::process::{Command, ExitCode, Stdio};
use std::time::Instant;

const BATCHES: usize = 120;
const BATCH_NANOS: f64 = 100_000.0;
/// How often the layouts are gone over.
const PASSES: usize = 3;
const PYTHON_RUNS: u32 = 15;
const MANY: usize = 100_000;
const ROOM: usize = paper::LONGEST;

global_asm!(
    ".pushsection .text.layout_padding,\"ax\",@progbits",
    ".globl layout_padding",
    "layout_padding:",
    concat!(".skip ", env!("BUILT_PADDING"), ", 0x90"),
    "ret",
    ".popsection"
);

extern "C" {
    fn layout_padding();
}

/// The padding is in the program only where something names it.
#[used]
static PADDING: unsafe extern "C" fn() = layout_padding;

struct Row {
    name: String,
    valuation_year: u64,
    record: Vec<u8>,
    /// The entries of the buffer that is lent.
    room: usize,
    answer: u64,
}

/// Nanoseconds a record.
#[derive(Clone, Copy)]
struct Times {
    engine: f64,
    rust: f64,
}

/// The questions in the order in which they are asked.
const QUESTIONS: [u64; 19] = [
    1, 2, 3, 4, 5, 6, 13, 7, 8, 9, 10, 18, 19, 11, 12, 15, 16, 17, 14,
];

/// How many rows are accepted; they come first.
const ACCEPTED: usize = 5;

/// The records that are timed: accepted, of several lengths, in 2026 and the longest in 2027 too, and of sixteen years refused in 2027 at each question in
/// turn.
fn rows() -> Vec<Row> {
    let accepted: [(usize, u64); ACCEPTED] = [
        (1, LAST_PLAIN),
        (4, LAST_PLAIN),
        (9, LAST_PLAIN),
        (15, LAST_PLAIN),
        (15, ALL_ASKED),
    ];
    let mut rows: Vec<Row> = accepted
        .map(|(k, valuation_year)| Row {
            name: format!("k = {k}, accepted, {valuation_year}"),
            valuation_year,
            record: records::pack(&records::account(k)),
            room: ROOM,
            answer: 0,
        })
        .into();
    for question in QUESTIONS {
        let short = question == 3;
        let record = if short {
            records::pack(&records::account(15))
        } else {
            records::refused(15, question).expect("a record of sixteen years for each question")
        };
        rows.push(Row {
            name: format!("k = 15, refused {question}"),
            valuation_year: ALL_ASKED,
            record,
            room: ROOM - usize::from(short),
            answer: question,
        });
    }
    rows
}

/// The time of one call, over a batch of about the same length whatever the call.
fn batch(calls: usize, mut call: impl FnMut()) -> f64 {
    let start = Instant::now();
    for _ in 0..calls {
        call();
    }
    start.elapsed().as_nanos() as f64 / calls as f64
}

/// The best batch of each side.
fn measure(row: &Row, rust_first: bool) -> Times {
    let mut list = [0i64; ROOM];
    let (year, record) = (row.valuation_year, &row.record[..]);
    let list = &mut list[..row.room];
    let engine = |calls: usize, list: &mut [i64]| {
        batch(calls, || {
            black_box(doonamurk::run(black_box(year), black_box(record), list)).ok();
            black_box(&list);
        })
    };
    let rust = |calls: usize, list: &mut [i64]| {
        batch(calls, || {
            black_box(paper::run(black_box(year), black_box(record), list)).ok();
            black_box(&list);
        })
    };
    let calls = (BATCH_NANOS / engine(200, list)) as usize + 1;
    let mut best = Times {
        engine: f64::MAX,
        rust: f64::MAX,
    };
    for _ in 0..BATCHES {
        if rust_first {
            best.rust = best.rust.min(rust(calls, list));
        }
        best.engine = best.engine.min(engine(calls, list));
        if !rust_first {
            best.rust = best.rust.min(rust(calls, list));
        }
    }
    best
}

/// The times of this program alone.
fn times() {
    let padding: usize = env!("BUILT_PADDING").parse().expect("a number");
    for row in rows() {
        let times = measure(&row, padding / 16 % 2 == 1);
        println!("{} {}", times.engine, times.rust);
    }
}

/// The best times of each layout, by record.
fn over_layouts(programs: &[String], count: usize) -> Result<Vec<Vec<Times>>, String> {
    let mut best: Vec<Vec<Option<Times>>> = vec![vec![None; programs.len()]; count];
    for _ in 0..PASSES {
        for (layout, program) in programs.iter().enumerate() {
            let output = Command::new(program).arg("--times").output();
            let output = output.map_err(|error| format!("{program}: {error}"))?;
            let text = String::from_utf8_lossy(&output.stdout);
            let lines: Vec<&str> = text.lines().collect();
            if !output.status.success() || lines.len() != count {
                return Err(format!("{program} gave {} of {count} times", lines.len()));
            }
            for (line, best) in lines.iter().zip(&mut best) {
                let mut numbers = line.split(' ').filter_map(|n| n.parse::<f64>().ok());
                let (Some(engine), Some(rust)) = (numbers.next(), numbers.next()) else {
                    return Err(format!("{program}: not two times: {line}"));
                };
                let so_far = best[layout].get_or_insert(Times { engine, rust });
                so_far.engine = so_far.engine.min(engine);
                so_far.rust = so_far.rust.min(rust);
            }
        }
    }
    Ok(best
        .into_iter()
        .map(|layouts| layouts.into_iter().flatten().collect())
        .collect())
}

fn mean(layouts: &[Times]) -> Times {
    let sum =
        |side: fn(&Times) -> f64| layouts.iter().map(side).sum::<f64>() / layouts.len() as f64;
    Times {
        engine: sum(|times| times.engine),
        rust: sum(|times| times.rust),
    }
}

/// The answer and the sum of the list, the same from the engine and from the paper.
fn outcome(row: &Row) -> (u64, i64) {
    let mut ours = [0; ROOM];
    let mut theirs = [0; ROOM];
    let (year, record) = (row.valuation_year, &row.record);
    let answer = doonamurk::run(year, record, &mut ours[..row.room]);
    let answer = answer.map_err(|refused| refused.number());
    assert_eq!(answer, paper::run(year, record, &mut theirs[..row.room]));
    assert_eq!(ours, theirs);
    assert_eq!(answer.err().unwrap_or(0), row.answer, "{}", row.name);
    (row.answer, ours.iter().sum())
}

/// Nanoseconds of tests/model.py for each record, `None` where there is no python3, or what went wrong with it.
fn python(rows: &[Row]) -> Result<Option<Vec<f64>>, String> {
    let script = Path::new(env!("CARGO_MANIFEST_DIR")).join("time_model.py");
    let child = Command::new("python3")
        .arg(script)
        .arg(PYTHON_RUNS.to_string())
        .stdin(Stdio::piped())
        .stdout(Stdio::piped())
        .spawn();
    let mut child = match child {
        Ok(child) => child,
        Err(error) if error.kind() == ErrorKind::NotFound => return Ok(None),
        Err(error) => return Err(format!("python3 does not start: {error}")),
    };
    let mut lines = String::new();
    for row in rows {
        lines.push_str(&format!("{} ", row.valuation_year));
        lines.extend(row.record.iter().map(|byte| format!("{byte:02x}")));
        lines.push('\n');
    }
    // A script that has ended takes no more lines; its status below says so.
    let mut input = child.stdin.take().expect("a pipe");
    let sent = input.write_all(lines.as_bytes());
    drop(input);
    let output = child.wait_with_output().map_err(|e| e.to_string())?;
    if sent.is_err() || !output.status.success() {
        return Err(format!(
            "the Python model failed ({}), see above",
            output.status
        ));
    }
    let said = String::from_utf8_lossy(&output.stdout);
    let numbers: Vec<Vec<i64>> = said
        .lines()
        .map(|line| line.split(' ').filter_map(|n| n.parse().ok()).collect())
        .collect();
    if numbers.len() != rows.len() {
        return Err(format!(
            "the Python model gave {} of {} times",
            numbers.len(),
            rows.len()
        ));
    }
    let mut times = Vec::new();
    for (row, numbers) in rows.iter().zip(numbers) {
        let (answer, sum) = outcome(row);
        match numbers[..] {
            [number, total, nanos] if (number, total) == (answer as i64, sum) => {
                times.push(nanos as f64);
            }
            _ => {
                return Err(format!(
                    "{}: the Python model gave {numbers:?}, the engine answers {answer} and its list sums to {sum}",
                    row.name
                ));
            }
        }
    }
    Ok(Some(times))
}

/// Whole nanoseconds, and tenths below ten.
fn nanos(time: f64) -> String {
    if time < 9.95 {
        format!("{time:.1}")
    } else {
        format!("{time:.0}")
    }
}

fn compare(rows: &[Row], times: &[Vec<Times>]) -> Result<(), String> {
    for row in rows {
        outcome(row);
    }
    let python = python(&rows[..ACCEPTED])?;
    println!("Nanoseconds a record: the best of {} batches in each of {} layouts, mean over the layouts\n", PASSES * BATCHES, times[0].len());
    println!("| record | engine | Rust | engine / Rust | lowest and highest | Python |\n|---|---|---|---|---|---|");
    for (n, (row, layouts)) in rows.iter().zip(times).enumerate() {
        let all = mean(layouts);
        let ratios: Vec<f64> = layouts
            .iter()
            .map(|times| times.engine / times.rust)
            .collect();
        let least = ratios.iter().copied().fold(f64::MAX, f64::min);
        let most = ratios.iter().copied().fold(0.0, f64::max);
        let python = match &python {
            Some(model) if n < model.len() => nanos(model[n]),
            _ => String::new(),
        };
        println!(
            "| {} | {} | {} | {:.2} | {least:.2}, {most:.2} | {python} |",
            row.name,
            nanos(all.engine),
            nanos(all.rust),
            all.engine / all.rust
        );
    }
    println!("\nRefused in 2027. Refused 1: k is 0; 2: a filling bit is set; 3: the buffer is an entry too short. From 4 on the work of all questions before is done.");
    Ok(())
}

/// What is done between one refusal and the next.
const STAGES: [(u64, &str); 8] = [
    (2, "opening, questions 1 and 2"),
    (5, "fields and ranges, questions 3 to 5"),
    (
        13,
        "cumulatives, averages, their totals and development factors, questions 6 and 13",
    ),
    (8, "T, questions 7 and 8"),
    (10, "shares and levels, questions 9 and 10"),
    (19, "payments after the last year, questions 18 and 19"),
    (
        17,
        "completed triangle and ULAE ratio, corrected, questions 11, 12 and 15 to 17",
    ),
    (
        0,
        "ULAE reserve, completed cumulatives, question 14, and the list",
    ),
];

/// The time of a record that is refused after a stage, less that of one that is refused before it.
fn stages(rows: &[Row], times: &[Vec<Times>]) {
    println!("\nWhat the time of k = 15 in 2027 is made of (nanoseconds; differences of the times above, of different records, so a few more or less say nothing)\n");
    println!("| stage | engine | Rust |\n|---|---|---|");
    let mut before = Times {
        engine: 0.0,
        rust: 0.0,
    };
    for (answer, name) in STAGES {
        let last = rows.iter().rposition(|row| row.answer == answer);
        let all = mean(&times[last.expect("a record for each answer")]);
        println!(
            "| {name} | {:.0} | {:.0} |",
            all.engine - before.engine,
            all.rust - before.rust
        );
        before = all;
    }
    println!("| all stages | {:.0} | {:.0} |", before.engine, before.rust);
}

/// The sixteen indices of a fading rate in plain Rust with the machine's floats, questions 20 and 21 asked.
fn fading(rate: f64, long_run: f64, years: u64) -> (u64, [u64; 16]) {
    let fits = |rate: f64| (-0.5..=1.0).contains(&rate);
    if !(1..=16).contains(&years) || !fits(rate) || !fits(long_run) {
        return (20, [0; 16]);
    }
    let (mut values, mut rate, mut path) = ([0; 16], rate, 1.0);
    for value in &mut values[..years as usize] {
        path *= 1.0 + rate;
        let product: f64 = path * 1_000_000.0;
        let whole = product.trunc();
        let index = whole as u64 + u64::from(product >= whole + 0.5);
        if !(1..=5_000_000).contains(&index) {
            return (21, [0; 16]);
        }
        *value = index;
        rate = long_run + 0.5 * (rate - long_run);
    }
    (0, values)
}

/// Sixteen years of a fading rate: the best batch of each side, in turn.
fn indices() {
    let (rate, long_run, years) = (0.08, 0.02, 16);
    let ours = doonamurk::fading(rate, long_run, years);
    assert_eq!((ours.refused, ours.values), fading(rate, long_run, years));
    let (mut engine, mut rust) = (f64::MAX, f64::MAX);
    for _ in 0..PASSES * BATCHES {
        engine = engine.min(batch(1000, || {
            black_box(doonamurk::fading(
                black_box(rate),
                black_box(long_run),
                black_box(years),
            ));
        }));
        rust = rust.min(batch(1000, || {
            black_box(fading(
                black_box(rate),
                black_box(long_run),
                black_box(years),
            ));
        }));
    }
    println!(
        "\nSixteen indices of a fading rate of inflation, in one layout (nanoseconds a call)\n"
    );
    println!("| engine | Rust | engine / Rust |\n|---|---|---|");
    println!(
        "| {} | {} | {:.2} |",
        nanos(engine),
        nanos(rust),
        engine / rust
    );
}

/// A history of the most years, accepted in every position: payments fall with the development year and rise with the payment year.
fn long_history() -> (Vec<u64>, Vec<i64>) {
    let exposures = (0..history::YEARS as u64).map(|i| 18_000 + 411 * i);
    let row = |i| (0..history::row(history::YEARS, i)).map(move |j| (i, j));
    let cells = (0..history::YEARS).flat_map(row);
    let paid = |(i, j)| ((9_000_000 + 310_007 * (i + j)) >> (2 * j / 3)) as i64;
    (exposures.collect(), cells.map(paid).collect())
}

/// The windows of the widest and of the least width over a history of the most years: the best batch of each side, in turn.
fn windows() {
    let (exposures, cells) = long_history();
    let years = history::YEARS;
    println!(
        "\nEvery window of a history of {years} years, {} cells, in one layout (nanoseconds a call)\n",
        cells.len()
    );
    println!("| width | positions | engine | Rust | engine / Rust |\n|---|---|---|---|---|");
    for width in [paper::YEARS, 2] {
        let count = history::entries(years, width);
        let (mut ours, mut theirs) = (vec![-1; count], vec![-2; count]);
        let given = (years as u64, width as u64, &exposures[..], &cells[..]);
        let engine = |calls: usize, result: &mut [i64]| {
            batch(calls, || {
                let (years, width, exposures, cells) = black_box(given);
                black_box(doonamurk::history(years, width, exposures, cells, result)).ok();
                black_box(&result);
            })
        };
        let rust = |calls: usize, result: &mut [i64]| {
            batch(calls, || {
                let (years, width, exposures, cells) = black_box(given);
                black_box(history::history(years, width, exposures, cells, result)).ok();
                black_box(&result);
            })
        };
        let calls = (BATCH_NANOS / engine(20, &mut ours)) as usize + 1;
        rust(1, &mut theirs);
        assert_eq!(ours, theirs);
        assert!(doonamurk::positions(width, &ours).all(|position| position.refused == 0));
        let mut best = Times {
            engine: f64::MAX,
            rust: f64::MAX,
        };
        for _ in 0..PASSES * BATCHES {
            best.engine = best.engine.min(engine(calls, &mut ours));
            best.rust = best.rust.min(rust(calls, &mut theirs));
        }
        println!(
            "| {width} | {} | {} | {} | {:.2} |",
            years - width + 1,
            nanos(best.engine),
            nanos(best.rust),
            best.engine / best.rust
        );
    }
}

/// Hindsight runs over the longest record with the most settings and with one, and over the shortest: the best batch of each side, in turn.
fn hindsights() {
    println!("\nHindsight runs, every step fitted, in one layout (nanoseconds a call)\n");
    println!(
        "| k | settings | entries | engine | Rust | engine / Rust |\n|---|---|---|---|---|---|"
    );
    let all: Vec<u64> = (0..hindsight::SETTINGS as u64)
        .map(|n| 990_000 + 10_000 * n)
        .collect();
    for (k, count) in [(15, hindsight::SETTINGS), (15, 1), (2, 1)] {
        let record = records::pack(&records::account(k));
        let room = hindsight::entries(k, count);
        let (mut ours, mut theirs) = (vec![-1; room], vec![-2; room]);
        let given = (&record[..], &all[..count]);
        let engine = |calls: usize, report: &mut [i64]| {
            batch(calls, || {
                let (record, settings) = black_box(given);
                black_box(doonamurk::hindsight(record, settings, report)).ok();
                black_box(&report);
            })
        };
        let rust = |calls: usize, report: &mut [i64]| {
            batch(calls, || {
                let (record, settings) = black_box(given);
                black_box(hindsight::hindsight(record, settings, report)).ok();
                black_box(&report);
            })
        };
        let calls = (BATCH_NANOS / engine(20, &mut ours)) as usize + 1;
        rust(1, &mut theirs);
        assert_eq!(ours, theirs);
        let report = doonamurk::report(k, count, &ours).expect("a whole report");
        let fitted = |tried: doonamurk::Tried| tried.steps().all(|step| step.refused == 0);
        assert!(report.settings().all(fitted));
        let mut best = Times {
            engine: f64::MAX,
            rust: f64::MAX,
        };
        for _ in 0..PASSES * BATCHES {
            best.engine = best.engine.min(engine(calls, &mut ours));
            best.rust = best.rust.min(rust(calls, &mut theirs));
        }
        println!(
            "| {k} | {count} | {room} | {} | {} | {:.2} |",
            nanos(best.engine),
            nanos(best.rust),
            best.engine / best.rust
        );
    }
}

/// Whether a record is accepted.
type Accepts = fn(&[u8], &mut [i64]) -> bool;

/// Records of all k that are accepted in 2026, one behind another, and where each ends.
fn accepted() -> (Vec<u8>, Vec<usize>) {
    let mut packed = Vec::new();
    let mut ends = Vec::with_capacity(MANY);
    let mut list = [0i64; ROOM];
    let mut case = 0;
    while ends.len() < MANY {
        let mut r = Random::new(1, case);
        case += 1;
        let k = 1 + r.below(15);
        let record = records::pack(&generate::fields(&mut r, k));
        if paper::run(LAST_PLAIN, &record, &mut list).is_ok() {
            packed.extend_from_slice(&record);
            ends.push(packed.len());
        }
    }
    (packed, ends)
}

/// The time of reserve_many on a stream of these records, its text thrown away.
fn program(packed: &[u8], ends: &[usize]) -> Result<f64, String> {
    let path = Path::new(env!("CARGO_MANIFEST_DIR")).join("../../target/bin/reserve_many");
    let mut stream = (LAST_PLAIN as u16).to_be_bytes().to_vec();
    let mut from = 0;
    for &end in ends {
        stream.extend_from_slice(&((end - from) as u16).to_be_bytes());
        stream.extend_from_slice(&packed[from..end]);
        from = end;
    }
    let start = Instant::now();
    let child = Command::new(&path)
        .stdin(Stdio::piped())
        .stdout(Stdio::null())
        .spawn();
    let mut child = child.map_err(|error| format!("{}: {error}", path.display()))?;
    let sent = child.stdin.take().expect("a pipe").write_all(&stream);
    let status = child.wait().map_err(|error| error.to_string())?;
    if sent.is_err() || !status.success() {
        return Err(format!("{}: {status}", path.display()));
    }
    Ok(start.elapsed().as_secs_f64())
}

fn many() -> Result<(), String> {
    let (packed, ends) = accepted();
    let mut list = [0i64; ROOM];
    println!("\n{MANY} different records of all k that are accepted in 2026, one after another in one process: the best of five whole passes\n");
    println!("| | seconds | records a second |\n|---|---|---|");
    let calls: [(&str, Accepts); 2] = [
        ("engine, called", |record, list| {
            doonamurk::run(LAST_PLAIN, record, list).is_ok()
        }),
        ("Rust, called", |record, list| {
            paper::run(LAST_PLAIN, record, list).is_ok()
        }),
    ];
    let say = |name: &str, seconds: f64| {
        println!("| {name} | {seconds:.3} | {:.0} |", MANY as f64 / seconds);
    };
    for (name, accepts) in calls {
        let mut best = f64::MAX;
        for _ in 0..5 {
            let start = Instant::now();
            let mut from = 0;
            for &end in &ends {
                assert!(accepts(black_box(&packed[from..end]), &mut list));
                black_box(&list);
                from = end;
            }
            best = best.min(start.elapsed().as_secs_f64());
        }
        say(name, best);
    }
    let mut best = f64::MAX;
    for _ in 0..5 {
        best = best.min(program(&packed, &ends)?);
    }
    say("`reserve_many`, from stream to text", best);
    Ok(())
}

/// The first line that a command prints.
fn said(command: &str, argument: &str) -> String {
    let output = Command::new(command).arg(argument).output();
    let said = output.map_or(String::new(), |output| {
        String::from_utf8_lossy(&output.stdout).into_owned()
    });
    match said.lines().next() {
        Some(line) => line.to_string(),
        None => format!("{command} not known"),
    }
}

fn machine(load: &str) {
    let file = |path: &str| std::fs::read_to_string(path).unwrap_or_default();
    let cpus = file("/proc/cpuinfo");
    let of = |name: &str| {
        let line = cpus
            .lines()
            .find_map(|line| line.strip_prefix(name)?.split(": ").nth(1));
        line.unwrap_or("not known").to_string()
    };
    let cores = std::thread::available_parallelism().map_or(1, usize::from);
    println!(
        "\nMachine: {} (model {}), {cores} cores, Linux {}; {}; {}, {} profile, opt-level {}; load {load} before and {} after",
        of("model name"),
        of("model\t"),
        file("/proc/sys/kernel/osrelease").trim(),
        said("rt", "version"),
        said("rustc", "--version"),
        env!("BUILT_PROFILE"),
        env!("BUILT_OPT_LEVEL"),
        load_now()
    );
}

/// The load of the last minute.
fn load_now() -> String {
    let load = std::fs::read_to_string("/proc/loadavg").unwrap_or_default();
    load.split(' ').next().unwrap_or("not known").to_string()
}

fn tables(programs: &[String]) -> Result<(), String> {
    let load = load_now();
    let rows = rows();
    let times = over_layouts(programs, rows.len())?;
    compare(&rows, &times)?;
    stages(&rows, &times);
    windows();
    hindsights();
    indices();
    many()?;
    machine(&load);
    Ok(())
}

fn main() -> ExitCode {
    let arguments: Vec<String> = std::env::args().skip(1).collect();
    if arguments == ["--times"] {
        times();
        return ExitCode::SUCCESS;
    }
    if arguments.is_empty() {
        eprintln!("usage: benchmark LAYOUT.. (tests/benchmark makes them)");
        return ExitCode::from(2);
    }
    if let Err(what) = tables(&arguments) {
        eprintln!("benchmark: {what}");
        return ExitCode::FAILURE;
    }
    ExitCode::SUCCESS
}
