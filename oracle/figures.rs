//! How many chunks fell into each class.

use std::collections::{BTreeMap, HashSet};
use std::fmt;
use std::hash::{DefaultHasher, Hash, Hasher};

use crate::compare::{Seen, Verdict};
use crate::generate::DECLARATIONS;
use told::Reading;

pub struct Figures {
    pub chunks: u64,
    pub bytes: u64,
    largest: usize,
    /// A number made of each chunk and its FourCC, to count those that are not alike.
    distinct: HashSet<u64>,
    families: BTreeMap<&'static str, u64>,
    /// Chunks by refusal, 0 for those accepted.
    refusals: [u64; 17],
    different: u64,
    beyond: u64,
    /// Accepted chunks that our encoder gives back.
    pub restored: u64,
    /// Rows of accepted chunks, by kind and by code.
    kinds: [u64; 6],
    codes: Vec<u64>,
    /// Chunks refused with 13 and with 14, by the code of the instruction at the place.
    at_13: Vec<u64>,
    at_14: Vec<u64>,
    /// Operand rows of accepted chunks: all, by form, by dimension, by representation of an index, with immediates, with
    /// modifiers; and chunks by how deep their operands go.
    operands: u64,
    forms: [u64; 5],
    dimensions: [u64; 4],
    representations: [u64; 5],
    immediates: u64,
    modified: u64,
    depths: [u64; 65],
    /// Rows of accepted chunks: with extension types, long forms, long forms and custom data past 127 dwords, tails of kind 1.
    extended: [u64; 8],
    long: u64,
    past_127: u64,
    tails: u64,
    /// Rows of kind 4 in model 5.1, by code.
    in_51: Vec<u64>,
}

impl Default for Figures {
    fn default() -> Self {
        Figures {
            chunks: 0,
            bytes: 0,
            largest: 0,
            distinct: HashSet::new(),
            families: BTreeMap::new(),
            refusals: [0; 17],
            different: 0,
            beyond: 0,
            restored: 0,
            kinds: [0; 6],
            codes: vec![0; 2048],
            at_13: vec![0; 2048],
            at_14: vec![0; 2048],
            operands: 0,
            forms: [0; 5],
            dimensions: [0; 4],
            representations: [0; 5],
            immediates: 0,
            modified: 0,
            depths: [0; 65],
            extended: [0; 8],
            long: 0,
            past_127: 0,
            tails: 0,
            in_51: vec![0; 2048],
        }
    }
}

/// How deep the operand of a row goes: 1 for one with no operand in it.
fn depth(operands: &[u32], row: usize) -> usize {
    let children = &operands[row * 16 + 11..row * 16 + 14];
    1 + children.iter().filter(|c| **c != 0).map(|c| depth(operands, *c as usize)).max().unwrap_or(0)
}

impl Figures {
    pub fn count(&mut self, name: &'static str, chunk: &[u8], four: u32, ours: &Reading, verdict: &Verdict) {
        let mut hasher = DefaultHasher::new();
        (chunk, four).hash(&mut hasher);
        self.distinct.insert(hasher.finish());
        self.chunks += 1;
        self.bytes += chunk.len() as u64;
        self.largest = self.largest.max(chunk.len());
        *self.families.entry(name).or_default() += 1;
        self.refusals[ours.number.min(16) as usize] += 1;
        match verdict {
            Verdict::Different(_) => self.different += 1,
            Verdict::Beyond(_) => self.beyond += 1,
            Verdict::Same | Verdict::Unsaid => {}
        }
        let place = ours.place as usize;
        let code = |at: usize| usize::from(u16::from_le_bytes([chunk[at], chunk[at + 1]]) & 0x7FF);
        match ours.number {
            13 => self.at_13[code(place)] += 1,
            14 => self.at_14[code(place)] += 1,
            _ => {}
        }
    }

    /// What an accepted chunk's rows are.
    pub fn count_rows(&mut self, version: u32, seen: &Seen) {
        for row in seen.instructions.chunks(16) {
            let [dwords, code, kind] = [row[1], row[2], row[3]].map(|w| w as usize);
            self.kinds[kind] += 1;
            self.codes[code] += 1;
            self.extended[row[8] as usize & 7] += 1;
            self.long += u64::from(row[8] & 8 != 0);
            self.past_127 += u64::from(dwords > 127);
            self.in_51[code] += u64::from(kind == 4 && version & 0xFF == 0x51);
            let operands = &seen.operands[row[12] as usize * 16..];
            if kind == 1 {
                let mut taken = 1 + (row[8] & 7).count_ones();
                let mut at = 0;
                for _ in 0..row[13] {
                    taken += operands[at * 16 + 15];
                    at += operands[at * 16 + 14] as usize;
                }
                self.tails += u64::from(taken < row[1]);
            }
        }
        for row in seen.operands.chunks(16) {
            self.operands += 1;
            self.forms[row[1] as usize] += 1;
            self.dimensions[row[6] as usize] += 1;
            for i in 0..row[6] {
                self.representations[(row[7] >> (3 * i)) as usize & 7] += 1;
            }
            self.immediates += u64::from(row[5] != 0);
            self.modified += u64::from(row[3] != 0);
        }
        let deepest = (0..seen.operands.len() / 16).filter(|r| seen.operands[r * 16 + 14] > 1).map(|r| depth(seen.operands, r));
        let least = usize::from(!seen.operands.is_empty());
        self.depths[deepest.max().unwrap_or(least)] += 1;
    }
}

/// `name number` for each entry that is not 0.
fn list(f: &mut fmt::Formatter<'_>, title: &str, entries: impl Iterator<Item = (String, u64)>) -> fmt::Result {
    let text: Vec<String> = entries.filter(|(_, n)| *n > 0).map(|(name, n)| format!("{name}: {n}")).collect();
    writeln!(f, "{title}: {}", text.join(", "))
}

fn numbered(counts: &[u64]) -> impl Iterator<Item = (String, u64)> + '_ {
    counts.iter().enumerate().map(|(k, n)| (k.to_string(), *n))
}

impl fmt::Display for Figures {
    fn fmt(&self, f: &mut fmt::Formatter<'_>) -> fmt::Result {
        let distinct = self.distinct.len();
        writeln!(f, "chunks {}, {distinct} of them distinct, bytes {}, largest {} bytes", self.chunks, self.bytes, self.largest)?;
        writeln!(f, "differences {}, beyond the domain {}", self.different, self.beyond)?;
        list(f, "chunks by family", self.families.iter().map(|(name, n)| (name.to_string(), *n)))?;
        list(f, "chunks by refusal (0: accepted)", numbered(&self.refusals))?;
        writeln!(f, "accepted chunks whose rows and words our encoder makes into the same bytes: {}", self.restored)?;
        list(f, "instruction rows of accepted chunks by kind", numbered(&self.kinds))?;
        let declared =
            |counts: &[u64]| DECLARATIONS.iter().map(|(c, _)| (c.to_string(), counts[*c as usize])).collect::<Vec<_>>();
        list(f, "accepted rows of each declaration", declared(&self.codes).into_iter())?;
        list(f, "of these in model 5.1", declared(&self.in_51).into_iter())?;
        list(f, "chunks refused with 14 at each declaration", declared(&self.at_14).into_iter())?;
        let other = |k: usize| !DECLARATIONS.iter().any(|(c, _)| *c as usize == k);
        let others = numbered(&self.codes).enumerate().filter(|(k, _)| other(*k) && *k < 256).map(|(_, e)| e);
        list(f, "accepted rows of each other code below 256", others)?;
        let high = &self.codes[256..];
        let hit = high.iter().filter(|n| **n > 0).count();
        writeln!(f, "accepted rows of codes from 256 on: {} over {hit} of 1792 codes", high.iter().sum::<u64>())?;
        list(f, "chunks refused with 13 at each code", numbered(&self.at_13))?;
        let others = numbered(&self.at_14).enumerate().filter(|(k, _)| other(*k) && *k < 256).map(|(_, e)| e);
        list(f, "chunks refused with 14 at each other code below 256", others)?;
        list(f, "extension types of accepted rows (sum of 1, 2, 4)", numbered(&self.extended))?;
        writeln!(f, "long forms {}, past 127 dwords {}, kind 1 with a tail {}", self.long, self.past_127, self.tails)?;
        writeln!(f, "operand rows {}, with immediates {}, with modifiers {}", self.operands, self.immediates, self.modified)?;
        list(f, "operand rows by form", numbered(&self.forms))?;
        list(f, "operand rows by dimension", numbered(&self.dimensions))?;
        list(f, "indices by representation", numbered(&self.representations))?;
        list(f, "accepted chunks by levels of operands", numbered(&self.depths))
    }
}
