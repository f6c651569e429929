//! The second run: decode.rs with the published ir.rs and opcodes.rs beside decode.rs with the stand-ins, on the same chunks.

use std::collections::BTreeMap;

use crate::compare::{Oracle, hex, smallest};
use crate::{Run, chunks};
use told::{Rows, Told};

/// How two records part: what is different, and the code of the instruction where it is.
type Parting = (&'static str, u32);

fn code_at(chunk: &[u8], place: u32) -> u32 {
    let at = place as usize;
    u32::from(u16::from_le_bytes([chunk[at], chunk[at + 1]])) & 0x7FF
}

/// Where the two part first; None if they agree.
fn parting(chunk: &[u8], paper: &(Told, Rows), published: &(Told, Rows)) -> Option<Parting> {
    if paper == published {
        return None;
    }
    Some(match (&paper.0, &published.0) {
        (_, Told::Refused { number: 13, place }) => ("refused with 13", code_at(chunk, *place)),
        (Told::Accepted { lost: a, .. }, Told::Accepted { lost: Some(b), .. }) if *a != Some(*b) => {
            ("records from which it is not restored", code_at(chunk, *b))
        }
        (Told::Accepted { .. }, Told::Accepted { .. }) => {
            let rows = paper.1.instructions.chunks(16).zip(published.1.instructions.chunks(16));
            match rows.clone().find(|(a, b)| a != b) {
                Some((a, b)) if a[3] != b[3] => ("read as operands (kind 1)", a[2]),
                Some((a, _)) => ("another row", a[2]),
                None => ("other operands or words", 0),
            }
        }
        _ => ("something else", 0),
    })
}

/// Compares the two on so many chunks, and prints each parting with how often it was met and the smallest chunk found.
pub fn compare(run: &Run, paper: Oracle, published: Oracle) {
    let mut met: BTreeMap<Parting, (u64, Vec<u8>, u32)> = BTreeMap::new();
    let read = |oracle: Oracle, bytes: &[u8], four: u32| {
        let mut rows = Rows::default();
        (oracle(bytes, four, &mut rows), rows)
    };
    let mut apart = 0;
    chunks(run, &mut |_, _, chunk| {
        let (a, b) = (read(paper, &chunk.bytes, chunk.four), read(published, &chunk.bytes, chunk.four));
        if let Some(key) = parting(&chunk.bytes, &a, &b) {
            apart += 1;
            let entry = met.entry(key).or_insert_with(|| (0, chunk.bytes.clone(), chunk.four));
            entry.0 += 1;
            if chunk.bytes.len() < entry.1.len() {
                entry.1 = chunk.bytes;
                entry.2 = chunk.four;
            }
        }
    });
    println!("seed {}, {} chunks, {apart} of them read differently", run.seed, run.count);
    for (key, (count, chunk, four)) in met {
        let least =
            smallest(&chunk, &mut |bytes| parting(bytes, &read(paper, bytes, four), &read(published, bytes, four)) == Some(key));
        println!("code {}: {}, {count} chunks; smallest found {}", key.1, key.0, hex(&least));
    }
}
