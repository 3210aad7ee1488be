//! Many sheets of every kind through the program, and the table of what came of them.

use crate::kinds::{KINDS, Kind};
use crate::options::Options;
use crate::program::shown;
use crate::reading::{self, OUTCOMES};
use cases::Random;
use command_line::Progress;
use std::io;
use std::path::Path;
use std::sync::Mutex;
use std::sync::atomic::{AtomicUsize, Ordering};
use std::time::{Duration, Instant};

/// Where the smallest sheet that differs is kept.
const KEPT: &str = "target/log/different.sheet";

/// One row of the table.
#[derive(Clone, Default)]
struct Row {
    outcomes: [usize; OUTCOMES.len()],
    /// The reading found something else than the kind is made for.
    misread: usize,
    different: usize,
}

/// A sheet whose line is not the wanted one.
struct Difference {
    case: usize,
    sheet: Vec<u8>,
    wanted: String,
    got: String,
}

/// What all runs have come to so far.
struct Tally {
    rows: Vec<Row>,
    done: usize,
    smallest: Option<Difference>,
    progress: Progress,
}

/// Runs so many sheets and prints the table. Whether all was as wanted.
pub fn run(options: &Options) -> bool {
    let began = Instant::now();
    let next = AtomicUsize::new(0);
    let tally = Mutex::new(Tally {
        rows: vec![Row::default(); KINDS.len()],
        done: 0,
        smallest: None,
        progress: Progress::start(),
    });
    std::thread::scope(|scope| {
        for _ in 0..options.jobs {
            scope.spawn(|| work(options, &next, &tally));
        }
    });
    let tally = tally.into_inner().expect("no run panicked");
    tally.print_table(options.seed, began.elapsed());
    tally.print_smallest();
    let complaints = tally.complaints();
    complaints.iter().for_each(|it| println!("{it}"));
    tally.different() == 0 && complaints.is_empty()
}

/// Writes each sheet to a file of its own, with its line beside it.
pub fn write(options: &Options, folder: &Path) -> io::Result<()> {
    for case in 0..options.cases {
        let sheet = sheet_of(options.seed, case);
        let name = folder.join(format!("{case:06}"));
        std::fs::write(&name, &sheet)?;
        std::fs::write(
            name.with_extension("stdout"),
            format!("{}\n", reading::read(&sheet)),
        )?;
    }
    Ok(())
}

/// Takes the next case until there is none.
fn work(options: &Options, next: &AtomicUsize, tally: &Mutex<Tally>) {
    loop {
        let case = next.fetch_add(1, Ordering::Relaxed);
        if case >= options.cases {
            return;
        }
        let sheet = sheet_of(options.seed, case);
        let line = reading::read(&sheet);
        let wanted = line.to_string();
        let got = match options.program.run(&sheet) {
            Ok(ran) if ran.wrote(&wanted) => None,
            Ok(ran) => Some(ran.description()),
            Err(error) => Some(format!("could not be run: {error}")),
        };
        let difference = got.map(|got| Difference {
            case,
            sheet,
            wanted,
            got,
        });
        let mut tally = tally.lock().expect("no run panicked");
        tally.count(case, line.outcome(), difference);
        tally.tell_progress(options.cases);
    }
}

/// The sheet of a case, which its number and the seed alone decide.
fn sheet_of(seed: u64, case: usize) -> Vec<u8> {
    let kind = &KINDS[case % KINDS.len()];
    (kind.make)(&mut Random::new(seed, &format!("{} {case}", kind.name)))
}

impl Tally {
    fn count(&mut self, case: usize, outcome: &str, difference: Option<Difference>) {
        let at = case % KINDS.len();
        let row = &mut self.rows[at];
        self.done += 1;
        for (count, name) in row.outcomes.iter_mut().zip(OUTCOMES) {
            *count += usize::from(name == outcome);
        }
        row.misread += usize::from(
            KINDS[at]
                .outcome
                .is_some_and(|made_for| made_for != outcome),
        );
        let Some(difference) = difference else { return };
        row.different += 1;
        let size = |it: &Difference| (it.sheet.len(), it.case);
        if self
            .smallest
            .as_ref()
            .is_none_or(|it| size(&difference) < size(it))
        {
            self.smallest = Some(difference);
        }
    }

    fn different(&self) -> usize {
        self.rows.iter().map(|row| row.different).sum()
    }

    fn tell_progress(&mut self, cases: usize) {
        let (done, different) = (self.done, self.different());
        self.progress
            .tell(|| format!("sheets: {done} of {cases}, {different} different"));
    }

    fn print_table(&self, seed: u64, took: Duration) {
        let print = |name: &str, cells: &[String]| {
            let cells: String = cells.iter().map(|cell| format!(" {cell:>9}")).collect();
            println!("{name:<29}{cells}");
        };
        let heads = [&["cases"], OUTCOMES.as_slice(), &["different"]].concat();
        print(
            "kind of sheet",
            &heads
                .iter()
                .map(|head| head.to_string())
                .collect::<Vec<_>>(),
        );
        let mut sum = Row::default();
        for (kind, row) in KINDS.iter().zip(&self.rows) {
            print(kind.name, &row.cells());
            sum.add(row);
        }
        print("all", &sum.cells());
        let rate = self.done as f64 / took.as_secs_f64();
        println!(
            "{} sheets, {} different; seed {seed}; {:.0} s, {rate:.0} a second",
            self.done,
            sum.different,
            took.as_secs_f64()
        );
    }

    /// What makes the run no test: a line that no sheet had, a kind with no sheet, a kind that is not
    /// what it is made to be.
    fn complaints(&self) -> Vec<String> {
        let lines = (0..OUTCOMES.len())
            .filter(|&i| self.rows.iter().all(|row| row.outcomes[i] == 0))
            .map(|i| format!("no sheet was to give {}", OUTCOMES[i]));
        let kinds = KINDS
            .iter()
            .zip(&self.rows)
            .filter_map(|(kind, row)| row.complaint(kind));
        lines.chain(kinds).collect()
    }

    /// The smallest sheet that differs, and both lines.
    fn print_smallest(&self) {
        let Some(it) = &self.smallest else { return };
        let front = it.sheet.len().min(256);
        let hex: Vec<String> = it.sheet[..front]
            .iter()
            .map(|byte| format!("{byte:02x}"))
            .collect();
        let rest = if front < it.sheet.len() { " .." } else { "" };
        println!(
            "the smallest that differs: case {}, {}, {} bytes",
            it.case,
            KINDS[it.case % KINDS.len()].name,
            it.sheet.len()
        );
        println!("  {}{rest}", hex.join(" "));
        println!("  wanted: {}", shown(&format!("{}\n", it.wanted)));
        println!("  got:    {}", it.got);
        match std::fs::write(KEPT, &it.sheet) {
            Ok(()) => println!("  the whole sheet is in {KEPT}"),
            Err(error) => println!("  the whole sheet could not be kept in {KEPT}: {error}"),
        }
    }
}

impl Row {
    fn cases(&self) -> usize {
        self.outcomes.iter().sum()
    }

    fn complaint(&self, kind: &Kind) -> Option<String> {
        if self.cases() == 0 {
            return Some(format!("no sheet was of the kind: {}", kind.name));
        }
        let made_for = kind.outcome.filter(|_| self.misread > 0)?;
        Some(format!(
            "{}: {} not read as {made_for}",
            kind.name, self.misread
        ))
    }

    fn cells(&self) -> Vec<String> {
        let numbers = [&[self.cases()], self.outcomes.as_slice(), &[self.different]].concat();
        numbers.iter().map(usize::to_string).collect()
    }

    fn add(&mut self, other: &Row) {
        for (sum, count) in self.outcomes.iter_mut().zip(other.outcomes) {
            *sum += count;
        }
        self.different += other.different;
    }
}
