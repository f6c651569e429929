//! Reads a chunk with both sides and compares everything that they tell.

use std::panic::{AssertUnwindSafe, catch_unwind};

use told::{Decode, Encode, Reading, Rows, Told, Writing, numbers};

/// A reader of the Rust's side.
pub type Oracle = fn(&[u8], u32, &mut Rows) -> Told;

/// Entries past the lent part of a pool, which no call may touch.
const PAST: usize = 4;

/// Three pools for our side. Before a call entry k of each pool holds a number of its own.
#[derive(Default)]
pub struct Pools {
    instructions: Vec<u32>,
    operands: Vec<u32>,
    words: Vec<u32>,
}

/// The lengths of the three lent pools.
pub type Lent = [usize; 3];

/// What an entry holds before a call.
fn before(k: usize) -> u32 {
    0xA5A5_0000u32.wrapping_add(k as u32)
}

fn prepare(pool: &mut Vec<u32>, lent: usize) {
    pool.clear();
    pool.extend((0..lent + PAST).map(before));
}

fn untouched(pool: &[u32], from: usize) -> bool {
    pool.iter().enumerate().skip(from).all(|(k, entry)| *entry == before(k))
}

/// The rows and words that our side wrote.
pub struct Seen<'a> {
    pub instructions: &'a [u32],
    pub operands: &'a [u32],
    pub words: &'a [u32],
}

impl Pools {
    /// Reads a chunk with our side, into pools of just the length that document 01 requires. Err: a panic.
    pub fn read(&mut self, decode: Decode, chunk: &[u8], four: u32, edition: u32) -> Result<Reading, String> {
        let dwords = (chunk.len() / 4).saturating_sub(2);
        self.read_into(decode, chunk, four, edition, [dwords * 16, dwords * 16, dwords])
    }

    /// Reads a chunk with our side, into pools of these lengths.
    pub fn read_into(&mut self, decode: Decode, chunk: &[u8], four: u32, edition: u32, lent: Lent) -> Result<Reading, String> {
        let [a, b, c] = lent;
        prepare(&mut self.instructions, a);
        prepare(&mut self.operands, b);
        prepare(&mut self.words, c);
        let (i, o, w) = (&mut self.instructions, &mut self.operands, &mut self.words);
        catch_unwind(AssertUnwindSafe(|| decode(chunk, four, edition, &mut i[..a], &mut o[..b], &mut w[..c])))
            .map_err(|_| "our side panics".to_string())
    }

    /// What an accepted chunk left in the pools. Entries past those used must be as they were.
    pub fn seen(&self, reading: &Reading) -> Result<Seen<'_>, String> {
        let used = [reading.instructions as usize * 16, reading.operands as usize * 16, reading.words as usize];
        let pools = [&self.instructions, &self.operands, &self.words];
        for (pool, used) in pools.iter().zip(used) {
            if pool.len() < used + PAST {
                return Err("a count is past its pool".to_string());
            }
            if !untouched(pool, used) {
                return Err("an entry past those used is changed".to_string());
            }
        }
        Ok(Seen {
            instructions: &self.instructions[..used[0]],
            operands: &self.operands[..used[1]],
            words: &self.words[..used[2]],
        })
    }

    /// Encodes what an accepted chunk left in the pools, into an output of just its size: the chunk's bytes must come back.
    pub fn restored(&self, encode: Encode, chunk: &[u8], edition: u32, reading: &Reading) -> Result<(), String> {
        let lent = |pool: &'_ [u32]| pool.len() - PAST;
        let (i, o, w) = (&self.instructions, &self.operands, &self.words);
        // Each byte is another one than the chunk's before the call, and those past the output must stay.
        let before = |k: usize| chunk.get(k).map_or(0xA5, |byte| !byte);
        let mut output: Vec<u8> = (0..chunk.len() + PAST).map(before).collect();
        let written = encode(
            edition,
            reading.version,
            (&i[..lent(i)], reading.instructions),
            (&o[..lent(o)], reading.operands),
            (&w[..lent(w)], reading.words),
            &mut output[..chunk.len()],
        );
        if written != (Writing { number: 0, size: chunk.len() as u32 }) {
            return Err(format!("the encoder says {} with {} bytes", written.number, written.size));
        }
        if output[..chunk.len()] != *chunk || output[chunk.len()..] != [0xA5; PAST] {
            return Err("the encoder writes other bytes".to_string());
        }
        Ok(())
    }

    /// After a refusal: counts are 0; 1 to 10 leave the pools, 11 to 14 fill them with zero.
    pub fn refused(&self, reading: &Reading) -> Result<(), String> {
        if [reading.version, reading.instructions, reading.operands, reading.words] != [0; 4] {
            return Err("a refusal has counts".to_string());
        }
        for pool in [&self.instructions, &self.operands, &self.words] {
            let lent = pool.len() - PAST;
            let zero = reading.number > 10;
            if zero && pool[..lent].iter().any(|entry| *entry != 0) {
                return Err("a pool is not all zero after 11 to 14".to_string());
            }
            if !untouched(pool, if zero { lent } else { 0 }) {
                return Err("a pool is changed that should not be".to_string());
            }
        }
        Ok(())
    }
}

/// The first place where two lists of rows or words differ.
pub fn first_difference(what: &str, ours: &[u32], theirs: &[u32], width: usize) -> Result<(), String> {
    if ours == theirs {
        return Ok(());
    }
    if ours.len() != theirs.len() {
        return Err(format!("{what}: {} are ours, {} theirs", ours.len() / width, theirs.len() / width));
    }
    let at = ours.iter().zip(theirs).position(|(a, b)| a != b).unwrap_or(0) / width * width;
    let (a, b) = (&ours[at..at + width], &theirs[at..at + width]);
    Err(format!("{what} {}: ours {}, theirs {}", at / width, numbers(a), numbers(b)))
}

/// What a comparison comes to.
#[derive(Clone, PartialEq, Eq, Debug)]
pub enum Verdict {
    /// Both refuse alike, or both accept with the same rows and words.
    Same,
    /// We refuse with 14, and the Rust accepts with records from which the same instruction first cannot be restored.
    Unsaid,
    /// Document 01's domain does not hold the chunk, as we refuse with 14 and the Rust accepts; but the Rust's records would
    /// restore the chunk, or lose another instruction first.
    Beyond(String),
    Different(String),
}

/// Compares what both sides told of a chunk at edition 3.
pub fn judge(told: &Told, rows: &Rows, ours: &Result<Reading, String>, pools: &Pools) -> Verdict {
    match compare(told, rows, ours, pools) {
        Ok(verdict) => verdict,
        Err(why) => Verdict::Different(why),
    }
}

fn compare(told: &Told, rows: &Rows, ours: &Result<Reading, String>, pools: &Pools) -> Result<Verdict, String> {
    let ours = ours.as_ref().map_err(String::clone)?;
    let said = if ours.number == 0 { "we accept".to_string() } else { format!("ours {} at {}", ours.number, ours.place) };
    if ours.number != 0 {
        pools.refused(ours)?;
    }
    match told {
        Told::Strange(what) => Err(format!("{said}, the Rust is strange: {what}")),
        Told::Refused { number, place } => {
            if (ours.number, ours.place) == (*number, *place) {
                return Ok(Verdict::Same);
            }
            Err(format!("{said}, the Rust's {number} at {place}"))
        }
        Told::Accepted { lost: Some(lost), .. } if ours.number == 14 => {
            if ours.place == *lost {
                return Ok(Verdict::Unsaid);
            }
            Ok(Verdict::Beyond(format!("{said}, the Rust's records first lose the instruction at {lost}")))
        }
        Told::Accepted { lost: None, .. } if ours.number == 14 => {
            Ok(Verdict::Beyond(format!("{said}, the Rust's records restore the chunk")))
        }
        Told::Accepted { .. } if ours.number != 0 => Err(format!("{said}, the Rust accepts")),
        Told::Accepted { lost: Some(lost), .. } => {
            Err(format!("{said}, the Rust's records do not hold all of the instruction at {lost}"))
        }
        Told::Accepted { version, lost: None } => {
            if ours.version != *version || ours.place != 0 {
                return Err(format!("version {:X} is ours, {version:X} the Rust's", ours.version));
            }
            let seen = pools.seen(ours)?;
            first_difference("instruction row", seen.instructions, &rows.instructions, 16)?;
            first_difference("operand row", seen.operands, &rows.operands, 16)?;
            first_difference("word", seen.words, &rows.words, 1)?;
            Ok(Verdict::Same)
        }
    }
}

/// Both sides with what they need.
pub struct Bench {
    pub oracle: Oracle,
    pub decode: Decode,
    pub rows: Rows,
    pub pools: Pools,
}

impl Bench {
    pub fn new(oracle: Oracle, decode: Decode) -> Self {
        Bench { oracle, decode, rows: Rows::default(), pools: Pools::default() }
    }

    /// Reads a chunk with both sides, as edition 3.
    pub fn run(&mut self, chunk: &[u8], four: u32) -> (Told, Result<Reading, String>, Verdict) {
        let told = (self.oracle)(chunk, four, &mut self.rows);
        let ours = self.pools.read(self.decode, chunk, four, 3);
        let verdict = judge(&told, &self.rows, &ours, &self.pools);
        (told, ours, verdict)
    }

    /// A smaller chunk that differs too.
    pub fn smallest(&mut self, chunk: &[u8], four: u32) -> Vec<u8> {
        smallest(chunk, &mut |bytes| matches!(self.run(bytes, four).2, Verdict::Different(_)))
    }
}

/// Sets the header's second dword to the number of dwords.
fn fit(mut bytes: Vec<u8>) -> Vec<u8> {
    let dwords = (bytes.len() / 4) as u32;
    bytes[4..8].copy_from_slice(&dwords.to_le_bytes());
    bytes
}

/// How much there is to a chunk: its size, and the bits that are set.
fn weight(bytes: &[u8]) -> (usize, u32) {
    (bytes.len(), bytes.iter().map(|b| b.count_ones()).sum())
}

/// A chunk without some dwords from a place on, if it holds: as it is, or with an instruction before the gap made shorter.
fn without(best: &[u8], at: usize, run: usize, holds: &mut dyn FnMut(&[u8]) -> bool) -> Option<Vec<u8>> {
    let mut less = best.to_vec();
    less.drain(at..at + 4 * run);
    let less = fit(less);
    if holds(&less) {
        return Some(less);
    }
    (8..at).step_by(4).rev().find_map(|token| {
        let mut mended = less.clone();
        if usize::from(mended[token + 3] & 127) > run {
            mended[token + 3] -= run as u8;
            if holds(&mended) {
                return Some(mended);
            }
        }
        let mut mended = less.clone();
        let second = mended.get(token..token + 4)?;
        let length = u32::from_le_bytes([second[0], second[1], second[2], second[3]]).checked_sub(run as u32)?;
        mended[token..token + 4].copy_from_slice(&length.to_le_bytes());
        holds(&mended).then_some(mended)
    })
}

/// A smaller chunk of which something holds too: dwords are left out and bits cleared, as long as that goes on.
pub fn smallest(chunk: &[u8], holds: &mut dyn FnMut(&[u8]) -> bool) -> Vec<u8> {
    let mut best = chunk.to_vec();
    if best.len() % 4 != 0 || best.len() < 8 || best.len() > 20_000 {
        return best;
    }
    let mut plain = best.clone();
    plain[..4].copy_from_slice(&0x50u32.to_le_bytes());
    if holds(&plain) {
        best = plain;
    }
    loop {
        let before = weight(&best);
        for run in [256, 64, 16, 4, 2, 1] {
            let mut at = 8;
            while at + 4 * run <= best.len() {
                match without(&best, at, run, holds) {
                    Some(less) => best = less,
                    None => at += 4,
                }
            }
        }
        for bit in (64..best.len() * 8).rev() {
            if best[bit / 8] >> (bit % 8) & 1 == 1 {
                best[bit / 8] ^= 1 << (bit % 8);
                if !holds(&best) {
                    best[bit / 8] ^= 1 << (bit % 8);
                }
            }
        }
        if weight(&best) == before {
            return best;
        }
    }
}

/// A chunk as document 01 writes one: its dwords in hexadecimal.
pub fn hex(chunk: &[u8]) -> String {
    if chunk.len() % 4 != 0 || chunk.len() > 2000 {
        return format!("{} bytes beginning {:02X?}", chunk.len(), &chunk[..chunk.len().min(64)]);
    }
    let dwords = chunk.chunks(4).map(|d| format!("{:X}", u32::from_le_bytes([d[0], d[1], d[2], d[3]])));
    dwords.collect::<Vec<_>>().join(" ")
}
