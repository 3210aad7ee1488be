//! Runs the cases in batches, counts, and says what differs.

use crate::case::Case;
use crate::groups::Maker;
use crate::options::Options;
use calls::{Answer, Arg, CALLS, Ours};
use cases::Random;
use command_line::Progress;

/// Cases that are run at a time.
const BATCH: usize = 256;

/// Differences that are printed in full, for each row of the table.
const SHOWN: usize = 3;

/// One row of the table.
struct Row {
    label: &'static str,
    cases: usize,
    refused: usize,
    different: usize,
}

pub struct Runner {
    ours: Ours,
    rows: Vec<Row>,
    missing: Vec<&'static str>,
    batch: Vec<Case>,
    progress: Progress,
}

impl Runner {
    pub fn new(ours: Ours) -> Self {
        Self {
            ours,
            rows: vec![],
            missing: vec![],
            batch: vec![],
            progress: Progress::start(),
        }
    }

    /// Runs all cases of one call.
    pub fn run(&mut self, maker: &Maker, options: &Options) {
        if !CALLS[calls::number(maker.call)].present {
            self.missing.push(maker.call);
            return;
        }
        let mut random = Random::new(options.seed, maker.call);
        (maker.make)(&mut random, options.cases, &mut |case| {
            self.batch.push(case);
            if self.batch.len() == BATCH {
                self.finish_batch();
            }
        });
        self.finish_batch();
    }

    fn finish_batch(&mut self) {
        let batch = std::mem::take(&mut self.batch);
        let requests: Vec<_> = batch.iter().map(|case| case.request.clone()).collect();
        for (case, got) in batch.iter().zip(self.ours.run(&requests)) {
            self.count(case, &got);
        }
        self.tell_progress();
    }

    fn count(&mut self, case: &Case, got: &Answer) {
        let at = self.rows.iter().position(|row| row.label == case.label);
        let at = at.unwrap_or_else(|| {
            self.rows.push(Row {
                label: case.label,
                cases: 0,
                refused: 0,
                different: 0,
            });
            self.rows.len() - 1
        });
        let row = &mut self.rows[at];
        row.cases += 1;
        row.refused += usize::from(case.want.refusal != 0);
        if *got != case.want {
            row.different += 1;
            if row.different <= SHOWN {
                tell_difference(case, got);
            }
        }
    }

    fn tell_progress(&mut self) {
        let Some(row) = self.rows.last() else { return };
        self.progress.tell(|| {
            format!(
                "{}: {} cases, {} different",
                row.label, row.cases, row.different
            )
        });
    }

    pub fn print_table(&self) {
        let width = self
            .rows
            .iter()
            .map(|row| row.label.len())
            .max()
            .unwrap_or(0)
            .max(8);
        let print = |label: &str, cases: &str, refused: &str, different: &str| {
            println!("{label:<width$} {cases:>10} {refused:>10} {different:>10}");
        };
        print("call", "cases", "refused", "different");
        for row in &self.rows {
            let [cases, refused, different] =
                [row.cases, row.refused, row.different].map(|count| count.to_string());
            print(row.label, &cases, &refused, &different);
        }
        for call in &self.missing {
            println!("{call} is declared, and no archive has it");
        }
        let sum = |part: fn(&Row) -> usize| self.rows.iter().map(part).sum::<usize>();
        println!(
            "{} cases, {} different",
            sum(|row| row.cases),
            sum(|row| row.different)
        );
    }

    pub fn is_clean(&self, allow_missing: bool) -> bool {
        self.rows.iter().all(|row| row.different == 0) && (allow_missing || self.missing.is_empty())
    }
}

/// The whole input, and where the answer is another one than the wanted.
fn tell_difference(case: &Case, got: &Answer) {
    println!("{} differs on {:?}", case.label, case.request.args);
    if got.refusal != case.want.refusal {
        println!(
            "  refusal: wanted {}, got {}",
            case.want.refusal, got.refusal
        );
    }
    if got.strayed {
        println!("  something was written outside what was lent");
    }
    for (i, (want, got)) in case.want.args.iter().zip(&got.args).enumerate() {
        let (want, got) = (items(want), items(got));
        for (k, (want, got)) in want.iter().zip(&got).enumerate() {
            if want != got {
                println!("  argument {i}, item {k}: wanted {want}, got {got}");
            }
        }
    }
}

fn items(arg: &Arg) -> Vec<u64> {
    match arg {
        Arg::Number(number) => vec![*number],
        Arg::Words(words) => words.clone(),
        Arg::Indices(indices) => indices.iter().copied().map(u64::from).collect(),
        Arg::Bytes(bytes) => bytes.iter().copied().map(u64::from).collect(),
    }
}
