//! Shows that the comparisons notice wrong readers: each is fed the same chunks as the right one, and must differ.

use std::process::ExitCode;

use crate::compare::{Oracle, Pools, Verdict, hex, judge};
use crate::editions::{lent, tried};
use crate::generate::{LARGEST, Rng};
use crate::paper::Paper;
use crate::{Run, chunks, option};
use told::{Decode, Rows};

/// A wrong copy: its name, what is wrong with it, whether decode.rs can tell it from the right one, and its reader.
pub type Copy = (&'static str, &'static str, bool, Decode);

/// What was seen of a copy: how many chunks told it apart, the number of the first of them, and the shortest with how it differs.
#[derive(Default)]
struct Noticed {
    chunks: u64,
    first: u64,
    shortest: Option<(String, String)>,
}

impl Noticed {
    fn note(&mut self, number: u64, chunk: &[u8], why: String) {
        self.chunks += 1;
        if self.chunks == 1 {
            self.first = number;
        }
        let text = hex(chunk);
        if self.shortest.as_ref().is_none_or(|(least, _)| text.len() < least.len()) {
            self.shortest = Some((text, why));
        }
    }

    fn show(&self) -> String {
        match &self.shortest {
            None => "not noticed".to_string(),
            Some((chunk, why)) => format!("{} chunks, first number {}; {why}: {chunk}", self.chunks, self.first),
        }
    }
}

/// Replays a sample with each copy. Exit status 1 if the copy with no change is wrong anywhere.
fn by_sample(file: &[u8], all: &[Copy]) -> ExitCode {
    let answers = all.iter().map(|(name, what, _, decode)| {
        let (right, wrong) = crate::sample::replay(file, *decode);
        println!("{name} ({what}): {right} right, {wrong} wrong");
        wrong
    });
    let answers: Vec<u32> = answers.collect();
    println!("{} wrong copies, {} noticed by the sample", all.len() - 1, answers[1..].iter().filter(|n| **n > 0).count());
    ExitCode::from(u8::from(answers[0] > 0))
}

/// Feeds all copies, or replays a sample with each: --sample FILE. Exit status 1 if one was not noticed, or the copy with no change was.
pub fn main(oracle: Oracle, unchanged: Decode, copies: &[Copy]) -> ExitCode {
    let words: Vec<String> = std::env::args().skip(1).collect();
    std::panic::set_hook(Box::new(|_| {}));
    let run = Run { seed: option(&words, "--seed", 1), count: option(&words, "--count", 100_000), shown: 0 };
    let all: Vec<Copy> = [("unchanged", "no change", false, unchanged)].iter().chain(copies).copied().collect();
    if let Some(at) = words.iter().position(|w| w == "--sample") {
        return by_sample(&std::fs::read(&words[at + 1]).expect("the sample is read"), &all);
    }
    let mut by_rust: Vec<Noticed> = all.iter().map(|_| Noticed::default()).collect();
    let mut by_paper: Vec<Noticed> = all.iter().map(|_| Noticed::default()).collect();
    let (paper, mut rows, mut pools, mut number) = (Paper::default(), Rows::default(), Pools::default(), 0);
    let mut rng = Rng::new(run.seed, u64::MAX);
    chunks(&run, &mut |_, _, mut chunk| {
        number += 1;
        let told = oracle(&chunk.bytes, chunk.four, &mut rows);
        for ((.., decode), seen) in all.iter().zip(&mut by_rust) {
            let ours = pools.read(*decode, &chunk.bytes, chunk.four, 3);
            match judge(&told, &rows, &ours, &pools) {
                Verdict::Same | Verdict::Unsaid => {}
                Verdict::Beyond(why) | Verdict::Different(why) => seen.note(number, &chunk.bytes, why),
            }
        }
        let edition = rng.below(5);
        let mut lent = lent(&mut rng, chunk.bytes.len());
        // Past the largest size the pools do not matter, and short ones are soon filled.
        if number % 2_000 == 0 {
            chunk.bytes.resize(LARGEST + 1 + rng.below(8) as usize, 0);
            lent = [0; 3];
        }
        for ((.., decode), seen) in all.iter().zip(&mut by_paper) {
            if let (_, Err(why)) = tried(&paper, *decode, &mut pools, &chunk.bytes, chunk.four, edition, lent) {
                seen.note(number, &chunk.bytes, format!("edition {edition}, pools {lent:?}: {why}"));
            }
        }
    });
    println!("seed {}, {} chunks", run.seed, run.count);
    let mut missed = 0;
    for (((name, what, rust, _), a), b) in all.iter().zip(&by_rust).zip(&by_paper) {
        println!("{name} ({what})\n  by decode.rs: {}\n  by oracle/paper.rs: {}", a.show(), b.show());
        let right = if *name == "unchanged" { a.chunks + b.chunks == 0 } else { (!rust || a.chunks > 0) && b.chunks > 0 };
        missed += u32::from(!right);
    }
    let told = copies.iter().filter(|copy| copy.2).count();
    println!("{} wrong copies, {told} of them for decode.rs to tell; {missed} not told as they should be", copies.len());
    ExitCode::from(u8::from(missed > 0))
}
