//! The driver: makes chunks, feeds them to both sides and compares.

pub mod compare;
pub mod editions;
pub mod figures;
pub mod generate;
pub mod known;
pub mod paper;
pub mod published;
pub mod sample;
pub mod wrong;

use compare::{Bench, Oracle, Verdict, hex};
use figures::Figures;
use told::{Decode, Encode};

/// The number after a word of the command line.
pub fn option(words: &[String], name: &str, default: u64) -> u64 {
    let at = words.iter().position(|w| w == name);
    at.and_then(|k| words.get(k + 1)).map_or(default, |w| w.parse().expect("a number"))
}

/// A run: so many chunks from a seed.
pub struct Run {
    pub seed: u64,
    pub count: u64,
    /// How many differences are printed.
    pub shown: u64,
}

/// Calls `take` with so many chunks, each with its family's number and its own number in the family.
pub fn chunks(run: &Run, take: &mut dyn FnMut(u64, u64, generate::Chunk)) {
    let mut made = 0;
    let mut number = 0;
    while made < run.count {
        let mut inner = 0;
        generate::family(run.seed, number, &mut |chunk| {
            if made < run.count {
                take(number, inner, chunk);
            }
            made += 1;
            inner += 1;
        });
        number += 1;
    }
}

/// Compares so many chunks, encodes what was accepted, prints the first differences with the smallest chunk found for each, and counts.
pub fn compare_all(run: &Run, oracle: Oracle, decode: Decode, encode: Encode) -> (Figures, u64) {
    let mut bench = Bench::new(oracle, decode);
    let mut small = Bench::new(oracle, decode);
    let mut figures = Figures::default();
    let mut differences = 0;
    let mut beyond = 0;
    chunks(run, &mut |family, inner, chunk| {
        let (_, ours, verdict) = bench.run(&chunk.bytes, chunk.four);
        if let Ok(reading) = &ours {
            figures.count(chunk.name, &chunk.bytes, chunk.four, reading, &verdict);
            if let (0, Ok(seen)) = (reading.number, bench.pools.seen(reading)) {
                figures.count_rows(reading.version, &seen);
                match bench.pools.restored(encode, &chunk.bytes, 3, reading) {
                    Ok(()) => figures.restored += 1,
                    Err(why) => {
                        differences += 1;
                        if differences <= run.shown {
                            println!(
                                "NOT RESTORED, family {family} chunk {inner} ({}): {why}: {}",
                                chunk.name,
                                hex(&chunk.bytes)
                            );
                        }
                    }
                }
            }
        }
        match verdict {
            Verdict::Different(why) => {
                differences += 1;
                if differences <= run.shown {
                    let least = small.smallest(&chunk.bytes, chunk.four);
                    let (_, _, again) = small.run(&least, chunk.four);
                    println!("DIFFERENT, family {family} chunk {inner} ({}): {why}", chunk.name);
                    println!("  smallest found: {} {again:?}", hex(&least));
                }
            }
            Verdict::Beyond(why) => {
                beyond += 1;
                if beyond <= run.shown {
                    println!("beyond the domain, family {family} chunk {inner} ({}): {why}: {}", chunk.name, hex(&chunk.bytes));
                }
            }
            Verdict::Same | Verdict::Unsaid => {}
        }
    });
    (figures, differences)
}
