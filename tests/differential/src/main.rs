//! Holds the proved reader, writer and engine against document 01 in plain Rust (`paper.rs`), on records made by chance from a seed, and against document 02 the
//! proved indices of inflation (`inflation.rs`), on rates made by chance, the proved windows of a history (`history.rs`), on histories made by chance, and the proved
//! hindsight runs (`hindsight.rs`), on records and settings made by chance.
//!
//!     differential [--seconds N] [--seed S] [--cases N]
//!     differential --histories ..             the same, with a history in each case and nothing else
//!     differential --hindsights ..            the same, with a hindsight run in each case and nothing else
//!     differential --records YEAR N FOLDER    writes N records that are accepted in this valuation year into the folder, one a file
//!     differential --stream YEAR N FOLDER     writes N records of all kinds, damaged ones too, into the folder as one stream, `records`, the year in two
//!                                             bytes and each record behind its length, and the line of each by plain Rust, `rows`
//!
//! Each case compares the answer and every entry of the lent buffer, those past the list too; a record is run in 2026, in 2027 and in one other valuation
//! year. What is lent is the middle of a larger array, and what stands on both sides of it must stay. A call for inflation indices goes with each case, and a
//! history and a hindsight run with every eighth, each about a tenth of the time or less. A difference is printed and ends with status 1.

use differential::inflation::{self, Shape};
use differential::paper::{self, Given};
use differential::random::Random;
use differential::{generate, hindsight, hindsights, histories, history, rates, records};
use doonamurk::{Fields, Indices};
use std::panic::{catch_unwind, AssertUnwindSafe};
use std::path::Path;
use std::process::ExitCode;
use std::time::{Duration, Instant};

const SEED: u64 = 1977;
const CASES: u64 = 400_000;
/// From so many cases on, every answer must have been reached.
const FAIR: u64 = 20_000;
/// A history and a hindsight run go with one case of so many.
const FURTHER_EVERY: u64 = 8;
/// The entries on each side of what is lent.
const GUARD: usize = 16;

/// The questions that are asked only from 2027 on.
const GROWTH: std::ops::RangeInclusive<usize> = 15..=17;

/// How often each question said no (at 0: how often all said yes), by call; runs in valuation years before 2027 and from 2027 on apart; and how often one that
/// is asked between 13 and 14 says no in 2027 of what one of those refuses too. Of the calls for inflation indices: how many were accepted, and how many 20 and
/// 21 refused. Of the histories: how many were accepted, and how many 27 and 28 refused; of their positions: how many were accepted, and how many 7 to 10 refused;
/// and how many of each number come directly after an accepted one. Of the hindsight runs: how many were accepted, and how many each question refused, in their
/// order; how many 29, and how many 3, refuses by itself of those that another refuses too, by the other; of their steps: how many are fitted, and how many 7 to 10
/// mark, and how many of each come directly after and directly before a fitted one; and how many reports have the first of several equal settings for the best,
/// another than the first setting, and no step that is fitted.
#[derive(Default)]
struct Tally {
    plain: [u64; 20],
    corrected: [u64; 20],
    with_13: [u64; 20],
    with_14: [u64; 20],
    read: [u64; 20],
    write: [u64; 20],
    back: u64,
    inflation: [u64; 3],
    histories: [u64; 3],
    positions: [u64; 5],
    after_accepted: [u64; 5],
    hindsights: [u64; ASKED.len()],
    with_29: [u64; ASKED.len()],
    with_3: [u64; ASKED.len()],
    steps: [u64; 5],
    after_fitted: [u64; 5],
    before_fitted: [u64; 5],
    ties: u64,
    later_best: u64,
    unfitted: u64,
}

/// What a hindsight run answers, in the order of its questions.
const ASKED: [u64; 8] = [0, 1, 2, 29, 3, 4, 5, 6];

/// The place of an answer of a hindsight run.
fn asked(answer: u64) -> usize {
    let place = ASKED.iter().position(|&number| number == answer);
    place.unwrap_or_else(|| panic!("a hindsight run answers {answer}"))
}

impl Tally {
    fn print(&self) {
        println!("answer  run to 2026  run from 2027  and 13  and 14         read        write");
        for number in 0..20 {
            let runs = [self.plain, self.corrected, self.with_13, self.with_14];
            let [plain, corrected, with_13, with_14] = runs.map(|tally| tally[number]);
            let [read, write] = [self.read, self.write].map(|tally| tally[number]);
            println!(
                "{number:6} {plain:12} {corrected:14} {with_13:7} {with_14:7} {read:12} {write:12}"
            );
        }
        println!("read, and written back to the same record: {}", self.back);
        let [accepted, twenty, twenty_one] = self.inflation;
        println!("inflation indices: {accepted}, refused 20: {twenty}, refused 21: {twenty_one}");
        self.print_histories();
        self.print_hindsights();
    }

    fn print_histories(&self) {
        let [accepted, by_27, by_28] = self.histories;
        println!("histories: {accepted}, refused 27: {by_27}, refused 28: {by_28}");
        let [accepted, refused @ ..] = self.positions;
        println!("their positions: {accepted}, refused 7 to 10: {refused:?}");
        let after = &self.after_accepted[1..];
        println!("of these directly after one that is accepted: {after:?}");
    }

    fn complete_histories(&self) -> bool {
        let all = [&self.histories[..], &self.positions, &self.after_accepted];
        all.into_iter().flatten().all(|&n| n > 0)
    }

    fn print_hindsights(&self) {
        let [accepted, refused @ ..] = self.hindsights;
        let numbers = &ASKED[1..];
        println!("hindsight runs: {accepted}, refused {numbers:?}: {refused:?}");
        let [with_29, with_3] = [&self.with_29[1..], &self.with_3[1..]];
        println!("refused by these, and by 29 too: {with_29:?}, by 3 too: {with_3:?}");
        let [fitted, marked @ ..] = self.steps;
        println!("their steps: {fitted}, marked 7 to 10: {marked:?}");
        let [after, before] = [&self.after_fitted[1..], &self.before_fitted[1..]];
        println!("of these directly after a fitted one: {after:?}, directly before: {before:?}");
        let [ties, later, unfitted] = [self.ties, self.later_best, self.unfitted];
        println!("reports with a tie for the best: {ties}, with a later best: {later}, without a fitted step: {unfitted}");
    }

    /// Every answer and every mark, beside fitted steps too, 29 and 3 with all others that may say no too, and every kind of report.
    fn complete_hindsights(&self) -> bool {
        let steps = [&self.steps, &self.after_fitted, &self.before_fitted];
        let all = |tally: &[u64]| tally.iter().all(|&n| n > 0);
        // 29 and k of 1 are one question, and 3 is asked of a k.
        let met = [1, 2, 3, 4, 5, 6].map(|number| self.with_29[asked(number)]);
        let short = [4, 5, 6].map(|number| self.with_3[asked(number)]);
        let reports = [self.ties, self.later_best, self.unfitted];
        all(&self.hindsights)
            && steps.into_iter().all(|tally| all(tally))
            && all(&met)
            && all(&short)
            && all(&reports)
    }

    /// Every number that a call can answer has been answered, and no other; and every question between 13 and 14 has met each of the two.
    fn complete(&self) -> bool {
        let mut between = (7..=12).chain(15..=19);
        let met = between.all(|n| self.with_13[n] > 0 && self.with_14[n] > 0);
        let plain = (0..20).all(|n| (self.plain[n] > 0) != GROWTH.contains(&n));
        let corrected = self.corrected.iter().all(|&n| n > 0);
        let read = self.read[..6].iter().all(|&n| n > 0);
        let write = [0, 1, 2, 4, 5].iter().all(|&n| self.write[n] > 0);
        let inflation = self.inflation.iter().all(|&n| n > 0);
        let apart = inflation && self.complete_histories() && self.complete_hindsights();
        plain && corrected && met && read && write && self.back > 0 && apart
    }
}

fn hex(bytes: &[u8]) -> String {
    bytes.iter().map(|byte| format!("{byte:02x}")).collect()
}

fn number(outcome: Result<(), u64>) -> u64 {
    outcome.err().unwrap_or(0)
}

fn engine_number(outcome: Result<(), doonamurk::Refused>) -> u64 {
    outcome.err().map_or(0, |refused| refused.number())
}

fn fields(given: &Given) -> Fields<'_> {
    Fields {
        k: given.k,
        exposures: &given.exposures,
        increments: &given.increments,
        indices: &given.indices,
        reporting: &given.reporting,
        weight: given.weight,
        ulae: &given.ulae,
        tail: given.tail,
    }
}

/// The fields of a list as `read` fills it, k first.
fn given(list: &[i64]) -> Given {
    let k = list[0] as usize;
    let mut rest = &list[1..];
    let mut take = |count: usize| {
        let (these, after) = rest.split_at(count);
        rest = after;
        these
    };
    let natural = |these: &[i64]| these.iter().map(|&value| value as u64).collect();
    Given {
        k: k as u64,
        exposures: natural(take(k + 1)),
        increments: take(paper::cells(k)).to_vec(),
        indices: natural(take(k + 1)),
        reporting: natural(take(k + 1)),
        weight: take(1)[0] as u64,
        ulae: natural(take(k + 1)),
        tail: take(1)[0] as u64,
    }
}

/// A buffer to lend: the middle of an array in which every entry holds a pattern, with guard entries on both sides.
struct Lent<T> {
    all: Vec<T>,
    start: Vec<T>,
}

impl<T: Copy + PartialEq> Lent<T> {
    fn new(length: usize, pattern: impl Fn(usize) -> T) -> Lent<T> {
        let all: Vec<T> = (0..length + 2 * GUARD).map(pattern).collect();
        Lent {
            start: all.clone(),
            all,
        }
    }

    fn middle(&self) -> std::ops::Range<usize> {
        GUARD..self.all.len() - GUARD
    }

    fn lend(&mut self) -> &mut [T] {
        let middle = self.middle();
        &mut self.all[middle]
    }

    fn held(&self) -> &[T] {
        &self.all[self.middle()]
    }

    fn unchanged(&self) -> bool {
        self.all == self.start
    }

    fn guards_stand(&self) -> bool {
        let middle = self.middle();
        self.all[..middle.start] == self.start[..middle.start]
            && self.all[middle.end..] == self.start[middle.end..]
    }
}

/// Calls both the engine and the paper, which read bytes into a list, with buffers of the same pattern; the answer and the buffer, or what is different.
fn both(
    name: &str,
    engine: impl Fn(&[u8], &mut [i64]) -> Result<(), doonamurk::Refused>,
    paper: impl Fn(&[u8], &mut [i64]) -> Result<(), u64>,
    record: &[u8],
    length: usize,
    pattern: i64,
) -> Result<(u64, Vec<i64>), String> {
    let mut lent = Lent::new(length, |n| pattern ^ n as i64);
    let mut theirs = lent.held().to_vec();
    let answer = engine_number(engine(record, lent.lend()));
    let expected = number(paper(record, &mut theirs));
    let untouched = answer == 0 || lent.unchanged();
    let ours = lent.held();
    if answer == expected && ours == theirs && untouched && lent.guards_stand() {
        return Ok((answer, theirs));
    }
    let place = ours.iter().zip(&theirs).position(|(a, b)| a != b);
    let mut said = format!(
        "{name} with {length} entries\nrecord {}\nengine answers {answer}, paper {expected}",
        hex(record)
    );
    if !untouched {
        said += "\nthe engine refused and changed the buffer";
    }
    if !lent.guards_stand() {
        said += "\nthe engine wrote beside the buffer";
    }
    if let Some(n) = place {
        said += &format!("\nentry {n}: engine {}, paper {}", ours[n], theirs[n]);
        said += &format!("\nengine {ours:?}\npaper {theirs:?}");
    }
    Err(said)
}

fn compare_write(given: &Given, length: usize, pattern: u8) -> Result<u64, String> {
    let mut lent = Lent::new(length, |n| pattern ^ n as u8);
    let mut theirs = lent.held().to_vec();
    let answer = engine_number(doonamurk::write(&fields(given), lent.lend()));
    let expected = number(paper::write(given, &mut theirs));
    let untouched = answer == 0 || lent.unchanged();
    if answer == expected && lent.held() == theirs && untouched && lent.guards_stand() {
        return Ok(answer);
    }
    let mut said = format!(
        "write into {length} bytes of {given:?}\nengine answers {answer}, record {}\npaper answers {expected}, record {}",
        hex(lent.held()),
        hex(&theirs)
    );
    if !lent.guards_stand() {
        said += "\nthe engine wrote beside the buffer";
    }
    Err(said)
}

fn engine_indices(shape: Shape, years: u64) -> Indices {
    let rate = f64::from_bits;
    match shape {
        Shape::Flat(sent) => doonamurk::flat(rate(sent), years),
        Shape::Fading(sent, long_run) => doonamurk::fading(rate(sent), rate(long_run), years),
        Shape::Shock(sent, other, year) => doonamurk::shock(rate(sent), rate(other), year, years),
    }
}

fn compare_indices(shape: Shape, years: u64) -> Result<u64, String> {
    let ours = engine_indices(shape, years);
    let (expected, theirs) = inflation::indices(shape, years);
    if ours.refused == expected && ours.values == theirs {
        return Ok(expected);
    }
    Err(format!(
        "inflation indices of {shape:016x?}, {years} years\nengine answers {}, {:?}\npaper answers {expected}, {theirs:?}",
        ours.refused, ours.values
    ))
}

fn compare_history(
    given: &history::Given,
    length: usize,
    pattern: i64,
) -> Result<(u64, Vec<i64>), String> {
    let history::Given {
        years,
        width,
        exposures,
        cells,
    } = given;
    let mut lent = Lent::new(length, |n| pattern ^ n as i64);
    let mut theirs = lent.held().to_vec();
    let ours = doonamurk::history(*years, *width, exposures, cells, lent.lend());
    let answer = engine_number(ours);
    let paper = history::history(*years, *width, exposures, cells, &mut theirs);
    let expected = number(paper);
    let untouched = answer == 0 || lent.unchanged();
    if answer == expected && lent.held() == theirs && untouched && lent.guards_stand() {
        return Ok((answer, theirs));
    }
    let mut said = format!(
        "{given:?} with {length} entries\nengine answers {answer}, {:?}\npaper answers {expected}, {theirs:?}",
        lent.held()
    );
    if !lent.guards_stand() {
        said += "\nthe engine wrote beside the buffer";
    }
    Err(said)
}

fn history_case(r: &mut Random, tally: &mut Tally) -> Result<(), String> {
    let (given, length) = histories::call(r);
    let (answer, result) = compare_history(&given, length, r.number() as i64)?;
    tally.histories[(answer as usize).saturating_sub(26)] += 1;
    if answer == 0 {
        let mut accepted_before = false;
        for position in doonamurk::positions(given.width as usize, &result) {
            let place = (position.refused as usize).saturating_sub(6);
            tally.positions[place] += 1;
            tally.after_accepted[place] += u64::from(accepted_before);
            accepted_before = position.refused == 0;
        }
    }
    Ok(())
}

fn compare_hindsight(
    record: &[u8],
    settings: &[u64],
    length: usize,
    pattern: i64,
) -> Result<(u64, Vec<i64>), String> {
    both(
        &format!("hindsight run of the settings {settings:?}"),
        |record, report| doonamurk::hindsight(record, settings, report),
        |record, report| hindsight::hindsight(record, settings, report),
        record,
        length,
        pattern,
    )
}

/// How often each mark comes directly after a step that is fitted.
fn count_after(marks: impl Iterator<Item = usize>, tally: &mut [u64; 5]) {
    let mut fitted = false;
    for mark in marks {
        tally[mark] += u64::from(fitted);
        fitted = mark == 0;
    }
}

fn hindsight_case(r: &mut Random, tally: &mut Tally) -> Result<(), String> {
    let (record, settings, length) = hindsights::call(r);
    let (answer, entries) = compare_hindsight(&record, &settings, length, r.number() as i64)?;
    tally.hindsights[asked(answer)] += 1;

    // What the other questions say where 29, or 3 too, says yes.
    let mut any = [0; hindsight::LONGEST];
    let of_record = number(hindsight::hindsight(&record, &[1], &mut any));
    if !hindsight::tried(&settings) {
        let k = record.first().map_or(0, |byte| usize::from(byte >> 4));
        let short = of_record == 0 && length < hindsight::entries(k, settings.len());
        tally.with_29[asked(if short { 3 } else { of_record })] += 1;
    } else if answer == 3 {
        tally.with_3[asked(of_record)] += 1;
    }

    if answer == 0 {
        let k = usize::from(record[0] >> 4);
        let report = doonamurk::report(k, settings.len(), &entries).ok_or("no whole report")?;
        let tried: Vec<_> = report.settings().collect();
        let marks = tried[0].steps().map(|step| step.refused as usize);
        let marks: Vec<usize> = marks.map(|mark| mark.saturating_sub(6)).collect();
        for &mark in &marks {
            tally.steps[mark] += 1;
        }
        count_after(marks.iter().copied(), &mut tally.after_fitted);
        count_after(marks.iter().rev().copied(), &mut tally.before_fitted);
        let least = tried[report.best].sum;
        let equal = tried.iter().filter(|tried| tried.sum == least).count();
        let fitted = marks.contains(&0);
        tally.ties += u64::from(fitted && equal > 1);
        tally.later_best += u64::from(report.best > 0);
        tally.unfitted += u64::from(!fitted);
    }
    Ok(())
}

fn case(r: &mut Random, tally: &mut Tally) -> Result<(), String> {
    let record = generate::record(r);
    let k = record.first().map_or(0, |byte| usize::from(byte >> 4));
    let pattern = r.number() as i64;

    let length = generate::buffer_length(r, paper::entries(k));
    let other = generate::other_year(r);
    for year in [generate::LAST_PLAIN, generate::FIRST_CORRECTED, other] {
        let (answer, _) = both(
            &format!("run of valuation year {year}"),
            |record, list| doonamurk::run(year, record, list),
            |record, list| paper::run(year, record, list),
            &record,
            length,
            pattern,
        )?;
        let plain = year <= generate::LAST_PLAIN;
        let runs = if plain {
            &mut tally.plain
        } else {
            &mut tally.corrected
        };
        runs[answer as usize] += 1;
    }
    if let Some([thirteen, between, fourteen]) = paper::apart(generate::FIRST_CORRECTED, &record) {
        if thirteen != 0 {
            tally.with_13[between as usize] += 1;
        }
        if fourteen != 0 {
            tally.with_14[between as usize] += 1;
        }
    }

    let length = generate::buffer_length(r, paper::fields(k));
    let (answer, list) = both(
        "read",
        doonamurk::read,
        paper::read,
        &record,
        length,
        pattern,
    )?;
    tally.read[answer as usize] += 1;
    if answer == 0 {
        let mut back = Lent::new(record.len(), |_| !0);
        let written = engine_number(doonamurk::write(&fields(&given(&list)), back.lend()));
        if written != 0 || back.held() != record || !back.guards_stand() {
            return Err(format!(
                "written back\nrecord {}\nwrite answers {written}, record between {GUARD} guards on each side {}",
                hex(&record),
                hex(&back.all)
            ));
        }
        tally.back += 1;
    }

    let (given, length) = generate::written(r);
    let answer = compare_write(&given, length, pattern as u8)?;
    tally.write[answer as usize] += 1;

    let (shape, years) = rates::call(r);
    let answer = compare_indices(shape, years)?;
    tally.inflation[(answer as usize).saturating_sub(19)] += 1;
    Ok(())
}

/// Every part of a case by its place.
fn whole_case(seed: u64, place: u64, tally: &mut Tally) -> Result<(), String> {
    let mut r = Random::new(seed, place);
    case(&mut r, tally)?;
    if place % FURTHER_EVERY == 0 {
        history_case(&mut r, tally)?;
        hindsight_case(&mut r, tally)?;
    }
    Ok(())
}

fn write_records(valuation_year: u16, count: u64, folder: &Path) -> std::io::Result<()> {
    let mut results = [0; paper::LONGEST];
    let mut case = 0;
    for n in 0..count {
        let record = loop {
            let mut r = Random::new(SEED, case);
            case += 1;
            let k = 1 + r.below(15);
            let record = records::pack(&generate::fields(&mut r, k));
            if paper::run(valuation_year.into(), &record, &mut results).is_ok() {
                break record;
            }
        };
        std::fs::write(folder.join(format!("{n:06}.rec")), record)?;
    }
    Ok(())
}

/// Writes so many records of a valuation year into a folder.
type Writer = fn(u16, u64, &Path) -> std::io::Result<()>;

/// What a case has: all, or one call and nothing else.
#[derive(Clone, Copy)]
enum Part {
    Whole,
    Histories,
    Hindsights,
}

struct Options {
    part: Part,
    seed: u64,
    cases: u64,
    seconds: Option<u64>,
}

fn options(arguments: &[String]) -> Option<Options> {
    let part = match arguments.first().map(String::as_str) {
        Some("--histories") => Part::Histories,
        Some("--hindsights") => Part::Hindsights,
        _ => Part::Whole,
    };
    let named = usize::from(!matches!(part, Part::Whole));
    let mut options = Options {
        part,
        seed: SEED,
        cases: CASES,
        seconds: None,
    };
    let mut counted = false;
    for pair in arguments[named..].chunks(2) {
        let value = pair.get(1)?.parse().ok()?;
        match pair[0].as_str() {
            "--seconds" => options.seconds = Some(value),
            "--seed" => options.seed = value,
            "--cases" => {
                options.cases = value;
                counted = true;
            }
            _ => return None,
        }
    }
    if options.seconds.is_some() && !counted {
        options.cases = u64::MAX;
    }
    Some(options)
}

/// The line of a record among many.
fn row(valuation_year: u16, record: &[u8]) -> String {
    let mut results = [0; paper::LONGEST];
    match paper::run(valuation_year.into(), record, &mut results) {
        Ok(()) => {
            let list = &results[..paper::entries(usize::from(record[0] >> 4))];
            list.iter()
                .map(i64::to_string)
                .collect::<Vec<_>>()
                .join(" ")
        }
        Err(number) => format!("refused {number}"),
    }
}

fn write_stream(valuation_year: u16, count: u64, folder: &Path) -> std::io::Result<()> {
    let mut stream = valuation_year.to_be_bytes().to_vec();
    let mut rows = String::new();
    for case in 0..count {
        let record = generate::record(&mut Random::new(SEED, case));
        let length = u16::try_from(record.len()).map_err(std::io::Error::other)?;
        stream.extend_from_slice(&length.to_be_bytes());
        stream.extend_from_slice(&record);
        rows.push_str(&row(valuation_year, &record));
        rows.push('\n');
    }
    std::fs::write(folder.join("records"), stream)?;
    std::fs::write(folder.join("rows"), rows)
}

fn main() -> ExitCode {
    let arguments: Vec<String> = std::env::args().skip(1).collect();
    if let [mode, year, count, folder] = &arguments[..] {
        let write: Option<Writer> = match mode.as_str() {
            "--records" => Some(write_records),
            "--stream" => Some(write_stream),
            _ => None,
        };
        if let (Some(write), Ok(year), Ok(count)) = (write, year.parse(), count.parse()) {
            return match write(year, count, Path::new(folder)) {
                Ok(()) => ExitCode::SUCCESS,
                Err(error) => {
                    eprintln!("{folder}: {error}");
                    ExitCode::FAILURE
                }
            };
        }
    }
    let Some(Options {
        part,
        seed,
        cases,
        seconds,
    }) = options(&arguments)
    else {
        eprintln!("usage: differential [--histories | --hindsights] [--seconds N] [--seed S] [--cases N] | --records YEAR N FOLDER | --stream YEAR N FOLDER");
        return ExitCode::from(2);
    };

    let start = Instant::now();
    let end = seconds.map(|n| start + Duration::from_secs(n));
    let mut tally = Tally::default();
    let mut done = 0;
    while done < cases && end.map_or(true, |end| done % 256 != 0 || Instant::now() < end) {
        let outcome = catch_unwind(AssertUnwindSafe(|| {
            let alone = &mut Random::new(seed, done);
            match part {
                Part::Whole => whole_case(seed, done, &mut tally),
                Part::Histories => history_case(alone, &mut tally),
                Part::Hindsights => hindsight_case(alone, &mut tally),
            }
        }));
        if let Err(difference) = outcome.unwrap_or_else(|_| Err("the panic above".into())) {
            println!("DIFFERENT: seed {seed}, case {done}: {difference}");
            return ExitCode::FAILURE;
        }
        done += 1;
    }
    let complete = match part {
        Part::Whole => {
            tally.print();
            tally.complete()
        }
        Part::Histories => {
            tally.print_histories();
            tally.complete_histories()
        }
        Part::Hindsights => {
            tally.print_hindsights();
            tally.complete_hindsights()
        }
    };
    println!(
        "{done} cases of seed {seed} in {:.1} s, no difference",
        start.elapsed().as_secs_f64()
    );
    // A run of fair length that misses an answer tests less than it says.
    if done < FAIR {
        println!("fewer than {FAIR} cases: it was not asked whether every answer was reached");
    } else if !complete {
        println!("an answer was never reached, or never two at once");
        return ExitCode::FAILURE;
    }
    ExitCode::SUCCESS
}
