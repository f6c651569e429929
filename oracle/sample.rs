//! A sample of the oracle's answers as data, for a replay with no Rust at hand.
//!
//! The file has the form of crates/cases/data/cases: dwords, the lowest byte first; their first is the number of cases. A case is
//! a head of 14 dwords, the chunk's bytes up to a whole dword, the entries of the three pools that an accepted chunk uses, and
//! questions of 9 dwords each. crates/case_file says what each dword is.

use std::collections::BTreeMap;

use crate::compare::{Oracle, Pools};
use crate::{Run, chunks, generate::Chunk};
use told::{Decode, Rows, Told};

/// No pool of the sample has more entries than this.
const MOST_ENTRIES: usize = 4096;

/// The entries that the pools have room for, for a chunk of so many bytes.
fn payload(size: usize) -> usize {
    (size / 4).saturating_sub(2)
}

/// Something that a chunk can be an example of.
type Example = (&'static str, u32, u32, u32);

/// What a chunk is an example of. A chunk is taken while it is an example of something of which there are few.
fn examples(chunk: &Chunk, told: &Told, rows: &Rows) -> Vec<Example> {
    let dword = |at: usize| u32::from_le_bytes([chunk.bytes[at], chunk.bytes[at + 1], chunk.bytes[at + 2], chunk.bytes[at + 3]]);
    let at = |place: u32| dword(place as usize);
    let code = |place: u32| (at(place) & 0x7FF).min(240);
    let mut all: Vec<Example> = match told {
        Told::Refused { number, place: 0 } if chunk.bytes.len() < 8 || *number < 6 => vec![("header", *number, 0, 0)],
        Told::Refused { number, place: 0 } => {
            // Which of the checks fail that come after the one that is told.
            let (version, second) = (dword(0), dword(4));
            let model = matches!(version & 0xFF, 0x40 | 0x41 | 0x50 | 0x51);
            let wraps = (second as usize) << 2 & 0xFFFF_FFFF == chunk.bytes.len();
            vec![("header", *number, u32::from(model) + 2 * u32::from(wraps), version >> 15 & 1)]
        }
        Told::Refused { number, place } => vec![("refused", *number, code(*place), 0)],
        Told::Accepted { lost: Some(place), .. } => vec![(chunk.name, 14, code(*place), 0)],
        Told::Accepted { version, lost: None } => {
            let model51 = u32::from(version & 0xFF == 0x51);
            let instructions = rows.instructions.chunks(16).map(|row| ("row", row[3], row[2].min(240), row[8] | model51 << 8));
            let operands = rows.operands.chunks(16).map(|row| ("operand", row[1], row[6], row[7]));
            let empty = rows.instructions.is_empty().then_some(("empty", version & 0xFF, 0, 0));
            instructions.chain(operands).chain(empty).collect()
        }
        Told::Strange(_) => Vec::new(),
    };
    if chunk.name == "field values" && matches!(at(8) & 0x7FF, 88 | 90 | 98..=100 | 150 | 151 | 156) {
        all.push(("field", at(8) & 0x7FF, at(8) >> 11 & 31, 0));
    }
    if chunk.name == "operand tokens" {
        let (token, after) = (at(12), chunk.bytes.len() as u32 / 4 - 4);
        all.push(("token", token & 15, token >> 12 & 0xFF, after.min(5)));
    }
    all
}

/// How many examples are taken.
fn enough(example: &Example) -> u32 {
    match example.0 {
        "header" => 12,
        "refused" | "row" | "operand" => 2,
        _ => 1,
    }
}

/// What a larger chunk may be an example of: operands 62 to 66 deep, in an instruction or a declaration; lists past 127 dwords.
fn rare(chunk: &Chunk, told: &Told, rows: &Rows) -> Option<Example> {
    if chunk.levels > 61 {
        let kind = u32::from(matches!(told, Told::Accepted { .. })) + 2 * u32::from(u32::from(chunk.bytes[8]) > 87);
        return Some(("levels", chunk.levels, kind, 0));
    }
    match told {
        Told::Accepted { lost: None, .. } => {
            let long = rows.instructions.chunks(16).find(|row| row[1] > 127)?;
            Some(("long", long[3], long[2], 0))
        }
        _ => None,
    }
}

/// A number with its four bits as a signed number, and 8 added.
fn offset(nibble: u32) -> u32 {
    (nibble & 15) ^ 8
}

/// A question on a row: its number, the count, where its words begin and how many they are, what it shows and with which bits
/// (0 nothing, 1 a count, 2 a factor), and u, v, w with 8 added.
fn question(rows: &Rows, number: usize) -> [u32; 9] {
    let row = &rows.instructions[number * 16..number * 16 + 16];
    let first = rows.words.get(row[14] as usize).copied().unwrap_or(0);
    let shown = match (row[3], row[2]) {
        (4, 152) => [2, first],
        (4, 94 | 104 | 144 | 153 | 154 | 206) => [1, first],
        _ => [0, 0],
    };
    let count = rows.instructions.len() as u32 / 16;
    let [u, v, w] = if row[8] & 1 == 1 { [row[9], row[9] >> 4, row[9] >> 8].map(offset) } else { [8; 3] };
    // An empty part begins at 0 only where the row is out of reach; a row's own part begins where it says.
    [number as u32, count, row[14], row[15], shown[0], shown[1], u, v, w]
}

/// A case in the file.
fn case(chunk: &Chunk, told: &Told, rows: &Rows) -> Vec<u8> {
    let size = chunk.bytes.len();
    let lent = payload(size);
    let mut given = chunk.bytes.clone();
    given.resize(size.div_ceil(4) * 4, 0);
    let empty = Rows::default();
    let (number, said, rows) = match told {
        Told::Refused { number, place } => (*number, *place, &empty),
        Told::Accepted { lost: Some(place), .. } => (14, *place, &empty),
        Told::Accepted { version, lost: None } => (0, *version, rows),
        Told::Strange(what) => panic!("{what}"),
    };
    let asked: Vec<[u32; 9]> = (0..rows.instructions.len() / 16)
        .map(|number| question(rows, number))
        .filter(|q| q[4] != 0 || q[6..] != [8; 3] || q[0] == 0)
        .collect();
    let head = [
        chunk.four,
        3,
        size as u32,
        given.len() as u32,
        lent as u32 * 16,
        lent as u32 * 16,
        lent as u32,
        0xA5A5_0000,
        number,
        said,
        rows.instructions.len() as u32 / 16,
        rows.operands.len() as u32 / 16,
        rows.words.len() as u32,
        asked.len() as u32,
    ];
    let after = rows.instructions.iter().chain(&rows.operands).chain(&rows.words).chain(asked.iter().flatten());
    let mut out: Vec<u8> = head.iter().flat_map(|d| d.to_le_bytes()).collect();
    out.extend(given);
    out.extend(after.flat_map(|d| d.to_le_bytes()));
    out
}

/// The file for so many chunks, and how many of each refusal (0: accepted) it has.
pub fn make(run: &Run, most_bytes: usize, oracle: Oracle) -> (Vec<u8>, BTreeMap<u32, u64>) {
    let mut taken: BTreeMap<Example, u32> = BTreeMap::new();
    let mut classes = BTreeMap::new();
    let mut cases = Vec::new();
    let mut rows = Rows::default();
    let every = Run { seed: run.seed, count: run.count * 200, shown: 0 };
    chunks(&every, &mut |_, _, chunk| {
        if cases.len() as u64 == run.count || payload(chunk.bytes.len()) * 16 > MOST_ENTRIES {
            return;
        }
        let told = oracle(&chunk.bytes, chunk.four, &mut rows);
        let keys = if chunk.bytes.len() > most_bytes {
            rare(&chunk, &told, &rows).into_iter().collect()
        } else {
            examples(&chunk, &told, &rows)
        };
        if !keys.iter().any(|key| taken.get(key).is_none_or(|n| *n < enough(key))) {
            return;
        }
        for key in keys {
            *taken.entry(key).or_default() += 1;
        }
        let class = match &told {
            Told::Refused { number, .. } => *number,
            Told::Accepted { lost: Some(_), .. } => 14,
            _ => 0,
        };
        *classes.entry(class).or_default() += 1;
        cases.push(case(&chunk, &told, &rows));
    });
    let mut file = (cases.len() as u32).to_le_bytes().to_vec();
    file.extend(cases.concat());
    (file, classes)
}

/// Replays a file with our side alone: how many cases are right, and how many wrong.
pub fn replay(file: &[u8], decode: Decode) -> (u32, u32) {
    let at = |k: usize| u32::from_le_bytes([file[k], file[k + 1], file[k + 2], file[k + 3]]);
    let mut pools = Pools::default();
    let (mut right, mut wrong, mut from) = (0, 0, 4);
    for _ in 0..at(0) {
        let head: Vec<usize> = (0..14).map(|k| at(from + 4 * k) as usize).collect();
        from += 56;
        let chunk = &file[from..from + head[2]];
        from += head[3];
        let mut next = |count: usize| {
            let entries: Vec<u32> = (0..count).map(|k| at(from + 4 * k)).collect();
            from += count * 4;
            entries
        };
        let rows = Rows { instructions: next(head[10] * 16), operands: next(head[11] * 16), words: next(head[12]) };
        next(head[13] * 9);
        let ours = pools.read(decode, chunk, head[0] as u32, head[1] as u32);
        let same = ours.is_ok_and(|ours| {
            if head[8] != 0 {
                return (ours.number as usize, ours.place as usize) == (head[8], head[9]) && pools.refused(&ours).is_ok();
            }
            (ours.number, ours.version as usize) == (0, head[9])
                && pools.seen(&ours).is_ok_and(|seen| {
                    seen.instructions == rows.instructions && seen.operands == rows.operands && seen.words == rows.words
                })
        });
        if same {
            right += 1;
        } else {
            wrong += 1;
        }
    }
    assert_eq!(from, file.len(), "the file ends with its last case");
    (right, wrong)
}
