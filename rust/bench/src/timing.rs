//! The two ways to run: against the clock, or only so often.

use crate::items;
use crate::options::Options;
use crate::side::Side;
use cases::Random;
use oracle::field::P;
use std::time::Instant;

/// Words in a block: 125 KiB, which stay in a cache that is warm. A longer list is a block of its
/// own.
const BLOCK: usize = 16_000;

/// Prints the table of times.
pub fn table(options: &Options) -> Result<(), String> {
    let mut items = items::all();
    items.retain(|item| options.only.is_empty() || options.only == item.name);
    if items.is_empty() {
        return Err(format!("nothing is called {}", options.only));
    }
    println!("ns for each call, least block (median block)");
    println!(
        "{:<32} {:>9} {:>22} {:>22} {:>16} {:>14}",
        "call", "calls", "ours", "theirs", "ratio", "ours, a word"
    );
    for item in &items {
        let Some(ours) = (item.ours)(item) else {
            println!("{:<32} not linked", item.name);
            continue;
        };
        let block = (BLOCK / item.size).max(1);
        let blocks = (options.calls / item.share).div_ceil(block).max(1);
        let times = race(item.size * block, blocks, [ours, (item.theirs)(item)]);
        let [our, their] = times.map(|mut times| {
            times.sort_by(f64::total_cmp);
            [times[0], times[times.len() / 2]].map(|time| time / block as f64)
        });
        println!(
            "{:<32} {:>9} {:>22} {:>22} {:>16} {:>14}",
            item.name,
            blocks * block,
            format!("{:.1} ({:.1})", our[0], our[1]),
            format!("{:.1} ({:.1})", their[0], their[1]),
            format!("{:.3} ({:.3})", our[0] / their[0], our[1] / their[1]),
            format!("{:.1}", our[0] / item.size as f64),
        );
    }
    Ok(())
}

fn good(random: &mut Random, count: usize) -> Vec<u64> {
    (0..count).map(|_| random.below(P)).collect()
}

/// The time of each block for each side, in ns. The sides take turns in going first, and what they
/// answer is compared.
fn race(size: usize, blocks: usize, mut sides: [Box<dyn Side>; 2]) -> [Vec<f64>; 2] {
    let mut random = Random::new(1, "bench");
    let mut times = [vec![], vec![]];
    for turn in 0..blocks {
        let words = good(&mut random, size);
        for side in [turn % 2, 1 - turn % 2] {
            sides[side].load(&words);
            let start = Instant::now();
            sides[side].run();
            times[side].push(start.elapsed().as_nanos() as f64);
        }
        assert!(
            sides[0].answers() == sides[1].answers(),
            "the two sides answer differently"
        );
    }
    times
}

/// Makes one call so often on one side, for a tool that counts instructions.
pub fn repeat(only: &str, iterations: usize) -> Result<(), String> {
    let (side, name) = only.split_once('-').ok_or("--only names no side")?;
    let items = items::all();
    let item = items.iter().find(|item| item.name == name);
    let item = item.ok_or_else(|| format!("nothing is called {name}"))?;
    let mut side = match side {
        "ours" => (item.ours)(item).ok_or_else(|| format!("{name} is not linked"))?,
        "theirs" => (item.theirs)(item),
        other => return Err(format!("there is no side {other}")),
    };
    side.load(&good(&mut Random::new(1, "bench"), item.size));
    for _ in 0..iterations {
        side.run();
    }
    std::hint::black_box(side.answers());
    Ok(())
}
