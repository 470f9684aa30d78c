//! Vectors to replay: whole calls, sheet checks, and texts of the tried list's
//! program. README.md has the form.

use std::fs;
use std::io;
use std::path::{Path, PathBuf};

use crate::boundary::{against_lead, boundary_sheets, overlapping, star, wide_star};
use crate::cases::{Case, DEFAULT_LIMIT, LIST_LIMIT, ample, cases};
use crate::compare::{WIDE, follows};
use crate::damage::damaged;
use crate::outcome::{Lists, Outcome, answer};
use crate::published;
use crate::random::Random;
use crate::random_sheets::random_sheet;
use crate::reference::call;
use crate::reference::check::check;
use crate::reference::search::has_inner_rows;
use crate::samples::samples;
use crate::sheet::{CROSS_PRODUCT, INNER, Sheet};
use crate::walks::{Small, each_small_sheet};

const CALLS_SEED: u64 = 20_261_016;
const CHECKS_SEED: u64 = 20_261_017;
/// Cases taken for each random sheet.
const CASES_EACH: usize = 4;
const SMALL_SHEETS: usize = 48;
const MIDDLE_SHEETS: usize = 72;
const WIDE_SHEETS: usize = 8;
const DAMAGED_SHEETS: usize = 240;
/// Fresh calls: sheets of at most 7 leaves, and of at most 12.
const FRESH_SHEETS: usize = 3_000;
const FRESH_WIDE_SHEETS: usize = 200;

/// One record: words of 4 and 8 bytes, little-endian, under its length.
struct Record(Vec<u8>);

impl Record {
    /// A record that begins with a sheet, filled up with zeros to whole words.
    fn of_sheet(sheet: &[u8]) -> Self {
        let mut record = Record(vec![0; 4]);
        record.bytes(sheet);
        record
    }

    /// Bytes under their number, filled up with zeros to whole words.
    fn bytes(&mut self, bytes: &[u8]) {
        self.words(&[bytes.len() as u32]);
        self.0.extend(bytes);
        self.0.resize(self.0.len().next_multiple_of(4), 0);
    }

    fn words(&mut self, words: &[u32]) {
        for word in words {
            self.0.extend(word.to_le_bytes());
        }
    }

    fn longs(&mut self, longs: &[u64]) {
        for long in longs {
            self.0.extend(long.to_le_bytes());
        }
    }

    fn finish(mut self) -> Vec<u8> {
        let length = self.0.len() as u32;
        self.0[..4].copy_from_slice(&length.to_le_bytes());
        self.0
    }
}

fn call_record(sheet: &[u8], case: &Case, outcome: &Outcome) -> Vec<u8> {
    let lists = &outcome.lists;
    let mut record = Record::of_sheet(sheet);
    record.words(&case.lists.map(|length| length as u32));
    record.words(&[case.limit, outcome.answer]);
    record.words(&[lists.edges.len(), lists.plans.len(), lists.memo.len()].map(|n| n as u32));
    record.words(&[outcome.visits, lists.chosen]);
    for edge in &lists.edges {
        record.longs(&[edge.left, edge.right]);
        record.words(&[edge.predicate, edge.source, edge.join_type]);
    }
    for plan in &lists.plans {
        record.longs(&[plan.set]);
        record.words(&[plan.left, plan.right, plan.lead, plan.kind]);
        record.longs(&[plan.rows, plan.cost]);
    }
    for entry in &lists.memo {
        record.longs(&[entry.set]);
        record.words(&[entry.plan]);
    }
    record.finish()
}

/// Holds a call to the Rust where the search ends, within the case or within
/// the wide one, and gives whether it was held.
fn hold(bytes: &[u8], case: &Case, outcome: &Outcome) -> bool {
    let ends = outcome.ended() || call(bytes, &WIDE.lists, WIDE.limit).ended();
    if ends {
        let sheet = check(bytes).expect("a search that ends is over an accepted sheet");
        let published = published::run(&sheet);
        assert!(follows(outcome, &published, case), "the Rust differs on {:?}", sheet.words());
    }
    ends
}

/// The call vectors, and counts of what is in them.
#[derive(Default)]
struct Calls {
    records: Vec<Vec<u8>>,
    answers: [usize; answer::COUNT],
    with_candidates: usize,
    unequal: usize,
    /// Calls that were held to the Rust.
    held: usize,
    /// Candidates by kind: all, and those whose rows are not an Inner join's.
    kinds: [(usize, usize); CROSS_PRODUCT as usize + 1],
}

impl Calls {
    fn add(&mut self, sheet: &[u8], case: &Case) {
        let fits = case.lists.iter().zip(ample().lists).all(|(length, most)| *length <= most);
        assert!(fits, "lists fit a replaying program's arrays");
        let outcome = call(sheet, &case.lists, case.limit);
        self.held += usize::from(hold(sheet, case, &outcome));
        self.unequal += usize::from(case.is_unequal());
        self.answers[outcome.answer as usize] += 1;
        self.with_candidates += usize::from(!outcome.lists.candidates().is_empty());
        self.count_kinds(sheet, &outcome.lists);
        self.records.push(call_record(sheet, case, &outcome));
    }

    fn count_kinds(&mut self, bytes: &[u8], lists: &Lists) {
        let Ok(sheet) = check(bytes) else {
            return;
        };
        for plan in lists.candidates() {
            let (all, not_inner) = &mut self.kinds[plan.kind as usize];
            *all += 1;
            *not_inner += usize::from(!has_inner_rows(&sheet, lists, plan));
        }
    }

    /// Adds some of the cases around a sheet's need, the ample one among them.
    fn around(&mut self, sheet: &[u8], most: usize, random: &mut Random) {
        let mut left = cases(sheet, ample(), random);
        let mut taken = Vec::new();
        while !left.is_empty() && taken.len() < most {
            let case =
                left.swap_remove(if taken.is_empty() { 0 } else { random.below(left.len()) });
            if !taken.contains(&case) {
                self.add(sheet, &case);
                taken.push(case);
            }
        }
    }
}

fn small_sheets(random: &mut Random) -> Vec<Sheet> {
    let mut all = Vec::new();
    for (leaves, step) in [(3, 1), (4, 1009)] {
        let small = Small { leaves, most_predicates: 2, step };
        each_small_sheet(&small, &mut |sheet| all.push(sheet.clone()));
    }
    (0..SMALL_SHEETS).map(|_| all.swap_remove(random.below(all.len()))).collect()
}

/// Random sheets of at most `leaves` leaves that fit the ample stores.
fn random_sheets(count: usize, leaves: usize, random: &mut Random) -> Vec<Sheet> {
    let ends = |sheet: &Sheet| call(&sheet.bytes(), &ample().lists, ample().limit).ended();
    std::iter::repeat_with(|| random_sheet(leaves, random)).filter(ends).take(count).collect()
}

/// The wide star is stopped by the limit where none is stated, and ends within
/// the limit that the tried list's program states.
fn add_wide_star(calls: &mut Calls) {
    let sheet = wide_star().bytes();
    let limits = [(DEFAULT_LIMIT, answer::SPENT_SHIFT), (LIST_LIMIT, answer::POURED)];
    for (limit, expected) in limits {
        let case = Case { limit, ..ample() };
        let found = call(&sheet, &case.lists, limit).answer;
        assert_eq!(found, expected, "the wide star within {limit} visits");
        calls.add(&sheet, &case);
    }
}

fn calls() -> Calls {
    let mut random = Random::new(CALLS_SEED);
    let mut calls = Calls::default();
    for sample in samples() {
        calls.around(&sample.sheet.bytes(), usize::MAX, &mut random);
    }
    for bounded in boundary_sheets() {
        let refused = check(&bounded.bytes).is_err() || bounded.answer == answer::TANGLE;
        calls.around(&bounded.bytes, if refused { 2 } else { 1 }, &mut random);
    }
    for sheet in small_sheets(&mut random) {
        calls.add(&sheet.bytes(), &ample());
    }
    for sheet in random_sheets(MIDDLE_SHEETS, 7, &mut random) {
        calls.around(&sheet.bytes(), CASES_EACH, &mut random);
    }
    for sheet in random_sheets(WIDE_SHEETS, 12, &mut random) {
        calls.add(&sheet.bytes(), &ample());
    }
    for kind in 1..=7 {
        calls.add(&against_lead(kind).bytes(), &ample());
    }
    calls.add(&overlapping(9).bytes(), &ample());
    calls.add(&star(30, INNER).bytes(), &Case { limit: 500, ..ample() });
    add_wide_star(&mut calls);
    assert!(calls.answers.iter().all(|count| *count > 0), "all answers occur");
    assert!(
        calls.kinds[1..=7].iter().all(|(_, not_inner)| *not_inner > 0),
        "each kind's rule shows"
    );
    calls
}

/// Random sheets with stores and limits around their need, a damaged copy of
/// each, and wide sheets.
fn fresh_calls(seed: u64) -> Calls {
    let mut random = Random::new(seed);
    let mut calls = Calls::default();
    for sheet in random_sheets(FRESH_SHEETS, 7, &mut random) {
        calls.around(&sheet.bytes(), CASES_EACH, &mut random);
        calls.add(&damaged(&sheet.bytes(), &mut random), &ample());
    }
    for sheet in random_sheets(FRESH_WIDE_SHEETS, 12, &mut random) {
        calls.add(&sheet.bytes(), &ample());
    }
    calls
}

/// Sheets with the sheet check's answer: 1 to 9, or 0 if it has none of these.
fn checks() -> Vec<Vec<u8>> {
    let mut random = Random::new(CHECKS_SEED);
    let mut sheets: Vec<Vec<u8>> =
        boundary_sheets().into_iter().map(|bounded| bounded.bytes).collect();
    for sheet in random_sheets(DAMAGED_SHEETS, 6, &mut random) {
        sheets.push(damaged(&sheet.bytes(), &mut random));
    }
    let record = |sheet: Vec<u8>| {
        let mut record = Record::of_sheet(&sheet);
        record.words(&[check(&sheet).err().unwrap_or(0)]);
        record.finish()
    };
    sheets.into_iter().map(record).collect()
}

/// The sample sheets' files, by name.
fn sample_files(samples: &Path) -> io::Result<Vec<PathBuf>> {
    let mut files: Vec<PathBuf> =
        fs::read_dir(samples)?.map(|entry| Ok(entry?.path())).collect::<io::Result<_>>()?;
    files.retain(|file| file.extension().is_some_and(|extension| extension == "sheet"));
    files.sort();
    Ok(files)
}

/// What the tried list's program has to print of a sheet.
fn tried_list(sheet: &[u8]) -> String {
    let outcome = call(sheet, &ample().lists, ample().limit);
    hold(sheet, &ample(), &outcome);
    let Outcome { answer, visits, lists } = outcome;
    let mut text = format!("{answer} {} {visits}\n", lists.candidates().len());
    for (number, (left, right)) in lists.tried().enumerate() {
        text += &format!("{number} {left:016x} {right:016x}\n");
    }
    text
}

/// The sample sheets, each with the text of its tried list.
fn texts(samples: &Path) -> io::Result<Vec<Vec<u8>>> {
    let wide = fs::read(samples.join("wide_star.sheet"))?;
    assert!(wide == wide_star().bytes(), "samples/wide_star.sheet is the wide star");
    let record = |file: PathBuf| {
        let sheet = fs::read(file)?;
        let mut record = Record::of_sheet(&sheet);
        record.bytes(tried_list(&sheet).as_bytes());
        Ok(record.finish())
    };
    sample_files(samples)?.into_iter().map(record).collect()
}

/// Writes the records under a line that says how they were made, and from what.
fn write(path: &Path, what: &str, from: &str, records: &[Vec<u8>]) -> io::Result<()> {
    let count = records.len();
    let line = format!("{what}: {count} records, made by oracle/run.sh vectors, {from}\n");
    let contents = [line.as_bytes(), &records.concat()].concat();
    fs::write(path, &contents)?;
    println!("{}: {count} records, {} bytes", path.display(), contents.len());
    Ok(())
}

fn write_calls(folder: &Path, seed: u64, calls: &Calls) -> io::Result<()> {
    fs::create_dir_all(folder)?;
    write(&folder.join("calls.bin"), "calls", &format!("seed {seed}"), &calls.records)?;
    println!(
        "  {} with trials, {} with unequal lists, {} held to the Rust, by answer {:?}",
        calls.with_candidates, calls.unequal, calls.held, calls.answers
    );
    println!("  trials by kind, and with rows that are not an Inner join's: {:?}", calls.kinds);
    Ok(())
}

/// `samples`: the folder of the sample sheets.
pub fn write_vectors(folder: &Path, samples: &Path) -> io::Result<()> {
    write_calls(folder, CALLS_SEED, &calls())?;
    let seed = format!("seed {CHECKS_SEED}");
    write(&folder.join("checks.bin"), "sheet checks", &seed, &checks())?;
    write(&folder.join("texts.bin"), "tried lists", "of samples/*.sheet", &texts(samples)?)
}

pub fn write_fresh(folder: &Path, seed: u64) -> io::Result<()> {
    write_calls(folder, seed, &fresh_calls(seed))
}
