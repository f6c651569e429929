//! Compares our side with the independent reading of document 01 at every edition and with pools of other lengths: everything
//! that decode.rs cannot tell, refusals 1, 5, 10 and 14 included.

use crate::compare::{Lent, Pools, first_difference, hex, smallest};
use crate::generate::{LARGEST, Rng};
use crate::paper::{Answer, Paper};
use crate::{Run, chunks};
use told::{Decode, Encode, Reading};

/// Compares one answer of each side.
fn same(paper: &Answer, ours: &Reading, pools: &Pools) -> Result<(), String> {
    match paper {
        Err((number, place)) => {
            if (ours.number, ours.place) != (*number, *place) {
                return Err(format!("ours {} at {}, the paper's {number} at {place}", ours.number, ours.place));
            }
            pools.refused(ours)?;
        }
        Ok((version, rows)) => {
            if (ours.number, ours.place, ours.version) != (0, 0, *version) {
                return Err(format!("ours {} at {}, version {:X}; the paper accepts", ours.number, ours.place, ours.version));
            }
            let seen = pools.seen(ours)?;
            first_difference("instruction row", seen.instructions, &rows.instructions, 16)?;
            first_difference("operand row", seen.operands, &rows.operands, 16)?;
            first_difference("word", seen.words, &rows.words, 1)?;
        }
    }
    Ok(())
}

/// Pools for a chunk: mostly of just the length required, sometimes longer, sometimes one of them a word short or empty.
pub fn lent(rng: &mut Rng, size: usize) -> Lent {
    let m = (size / 4).saturating_sub(2);
    let mut lent = [16 * m, 16 * m, m];
    let k = rng.below(3) as usize;
    match rng.below(40) {
        0 => lent[k] = lent[k].saturating_sub(1),
        1 => lent[k] = 0,
        2 => lent = lent.map(|l| l + 17),
        _ => {}
    }
    lent
}

/// Both answers to a chunk, compared.
pub fn tried(
    paper: &Paper,
    decode: Decode,
    pools: &mut Pools,
    bytes: &[u8],
    four: u32,
    edition: u32,
    lent: Lent,
) -> (Reading, Result<(), String>) {
    let theirs = paper.read(bytes, four, edition, lent);
    match pools.read_into(decode, bytes, four, edition, lent) {
        Ok(ours) => (ours, same(&theirs, &ours, pools)),
        Err(why) => (Reading { number: 99, place: 0, version: 0, instructions: 0, operands: 0, words: 0 }, Err(why)),
    }
}

/// Compares so many chunks at each edition from 0 to 4, and prints the first differences and how many fell into each class.
pub fn compare(run: &Run, decode: Decode, encode: Encode) -> u64 {
    let paper = Paper::default();
    let mut pools = Pools::default();
    let mut rng = Rng::new(run.seed, u64::MAX);
    let mut classes = [[0u64; 17]; 5];
    let mut kinds = [[0u64; 6]; 5];
    let mut restored = 0u64;
    let mut differences = 0;
    let mut one = |bytes: &[u8], four: u32, edition: u32, lent: Lent, what: &str| {
        let (ours, result) = tried(&paper, decode, &mut pools, bytes, four, edition, lent);
        classes[edition.min(4) as usize][ours.number.min(16) as usize] += 1;
        if let (0, Ok(seen)) = (ours.number, pools.seen(&ours)) {
            seen.instructions.chunks(16).for_each(|row| kinds[edition.min(4) as usize][row[3] as usize] += 1);
            match pools.restored(encode, bytes, edition, &ours) {
                Ok(()) => restored += 1,
                Err(why) => {
                    differences += 1;
                    println!("NOT RESTORED, {what}, edition {edition}, pools {lent:?}: {why}: {}", hex(bytes));
                }
            }
        }
        if let Err(why) = result {
            differences += 1;
            if differences <= run.shown {
                let m = |size: usize| (size / 4).saturating_sub(2);
                let least = smallest(bytes, &mut |b| {
                    tried(&paper, decode, &mut pools, b, four, edition, [16 * m(b.len()), 16 * m(b.len()), m(b.len())]).1.is_err()
                });
                println!("DIFFERENT, {what}, edition {edition}, pools {lent:?}: {why}: {}", hex(&least));
            }
        }
    };
    chunks(run, &mut |family, inner, chunk| {
        let what = format!("family {family} chunk {inner} ({})", chunk.name);
        for edition in [0, 1, 2, 3] {
            one(&chunk.bytes, chunk.four, edition, lent(&mut rng, chunk.bytes.len()), &what);
        }
        if rng.below(50) == 0 {
            let edition = [4, 5, 255, 0x8000_0000, u32::MAX][rng.below(5) as usize];
            one(&chunk.bytes, chunk.four, edition, lent(&mut rng, chunk.bytes.len()), &what);
        }
        // Chunks past the largest size, most of them whole dwords.
        if rng.below(2_000) == 0 {
            let mut bytes = chunk.bytes;
            bytes.resize(LARGEST + rng.below(9) as usize, 0);
            let pools = if rng.below(10) == 0 { lent(&mut rng, bytes.len()) } else { [0; 3] };
            one(&bytes, chunk.four, 3, pools, &what);
        }
    });
    println!("seed {}, {} chunks, differences {differences}", run.seed, run.count);
    println!("accepted chunks whose rows and words our encoder makes into the same bytes at the same edition: {restored}");
    for edition in 0..5 {
        let list = |counts: &[u64]| {
            let texts = counts.iter().enumerate().filter(|(_, n)| **n > 0).map(|(k, n)| format!("{k}: {n}"));
            texts.collect::<Vec<_>>().join(", ")
        };
        let name = if edition == 4 { "other editions".to_string() } else { format!("edition {edition}") };
        println!("{name}, chunks by refusal (0: accepted): {}; rows by kind: {}", list(&classes[edition]), list(&kinds[edition]));
    }
    differences
}
