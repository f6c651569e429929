//! Calls the archive through this crate and compares whole answers, pools and outputs, entries past the used ones included. What is expected
//! is worked out from document 01: its cases P1 to P10 and its rules on refusals, pools and rows; for longer chunks by oracle/paper.rs, a
//! reading of that paper of its own.
// where paper.rs takes its rows from
extern crate self as told;
#[path = "../../../oracle/paper.rs"]
mod paper;

use shex::{decode, encode, offsets, shows, words, Offsets, Reading, Refusal, Shown, LIMIT, SHDR, SHEX};

/// What stands in a pool or an output before a call.
const OLD: u32 = 0xDEAD_BEEF;
const OLD_BYTE: u8 = 0xA5;

/// The rows and words of an accepted chunk.
#[derive(Default)]
pub struct Rows {
    pub instructions: Vec<u32>,
    pub operands: Vec<u32>,
    pub words: Vec<u32>,
}

impl Rows {
    fn told(&self, version: u32) -> Reading {
        Reading {
            version,
            instructions: self.instructions.len() as u32 / 16,
            operands: self.operands.len() as u32 / 16,
            words: self.words.len() as u32,
        }
    }
}

fn bytes(dwords: &[u32]) -> Vec<u8> {
    dwords.iter().flat_map(|d| d.to_le_bytes()).collect()
}

/// Three pools filled with OLD.
#[derive(Clone, Debug, PartialEq)]
struct Pools {
    instructions: Vec<u32>,
    operands: Vec<u32>,
    words: Vec<u32>,
}

impl Pools {
    fn of(instructions: usize, operands: usize, words: usize) -> Pools {
        Pools { instructions: vec![OLD; instructions], operands: vec![OLD; operands], words: vec![OLD; words] }
    }

    fn filled(&self, with: u32) -> Pools {
        Pools {
            instructions: vec![with; self.instructions.len()],
            operands: vec![with; self.operands.len()],
            words: vec![with; self.words.len()],
        }
    }

    /// With these rows and words in front.
    fn holding(&self, instructions: &[[u32; 16]], operands: &[[u32; 16]], words: &[u32]) -> Pools {
        self.with(&Rows { instructions: instructions.concat(), operands: operands.concat(), words: words.to_vec() })
    }

    fn with(&self, rows: &Rows) -> Pools {
        let mut p = self.clone();
        p.instructions[..rows.instructions.len()].copy_from_slice(&rows.instructions);
        p.operands[..rows.operands.len()].copy_from_slice(&rows.operands);
        p.words[..rows.words.len()].copy_from_slice(&rows.words);
        p
    }

    fn decode(&mut self, chunk: &[u8], four: u32, edition: u32) -> Result<Reading, Refusal> {
        decode(chunk, four, edition, &mut self.instructions, &mut self.operands, &mut self.words)
    }

    fn encode(&self, edition: u32, reading: Reading, output: &mut [u8]) -> Result<usize, Refusal> {
        encode(edition, reading, &self.instructions, &self.operands, &self.words, output)
    }
}

/// Pools for a payload of m dwords: exact, and longer by an entry, a row and a number that is no multiple of 16.
fn rooms(m: usize) -> [Pools; 4] {
    [
        Pools::of(16 * m, 16 * m, m),
        Pools::of(16 * m + 1, 16 * m + 1, m + 1),
        Pools::of(16 * m + 16, 16 * m + 16, m + 16),
        Pools::of(16 * m + 23, 16 * m + 7, m + 3),
    ]
}

/// The chunk is read to exactly this, whatever room there is, and encoded back into exact and longer outputs, a shorter one left alone.
fn accepts(dwords: &[u32], edition: u32, instructions: &[[u32; 16]], operands: &[[u32; 16]], words: &[u32]) {
    let chunk = bytes(dwords);
    let reading = Reading {
        version: dwords[0],
        instructions: instructions.len() as u32,
        operands: operands.len() as u32,
        words: words.len() as u32,
    };
    for four in [SHEX, SHDR] {
        for mut pools in rooms(dwords.len() - 2) {
            let after = pools.holding(instructions, operands, words);
            assert_eq!(pools.decode(&chunk, four, edition), Ok(reading), "{dwords:X?}");
            assert_eq!(pools, after, "{dwords:X?}");
            for more in [0, 1, 17] {
                let mut output = vec![OLD_BYTE; chunk.len() + more];
                assert_eq!(pools.encode(edition, reading, &mut output), Ok(chunk.len()), "{dwords:X?}");
                assert_eq!(output[..chunk.len()], chunk[..]);
                assert!(output[chunk.len()..].iter().all(|b| *b == OLD_BYTE));
            }
            for size in [0, 1, chunk.len() - 4, chunk.len() - 1] {
                let mut output = vec![OLD_BYTE; size];
                assert_eq!(pools.encode(edition, reading, &mut output), Err(Refusal::OutputShort));
                assert!(output.iter().all(|b| *b == OLD_BYTE));
            }
            assert_eq!(pools, after);
        }
    }
}

/// The chunk is refused with this number and place: 1 to 10 leave the pools, 11 to 14 zero all of them.
fn refuses(chunk: &[u8], four: u32, edition: u32, number: u32, place: u32) {
    for mut pools in rooms((chunk.len() / 4).saturating_sub(2)) {
        let after = if number > 10 { pools.filled(0) } else { pools.clone() };
        let refusal = pools.decode(chunk, four, edition).expect_err("refused");
        assert_eq!((refusal.number(), refusal.place()), (number, place), "{} bytes", chunk.len());
        assert_eq!(pools, after);
    }
}

const P6: [u32; 7] = [0x50, 7, 0x0500_0036, 0x0010_00F2, 0, 0x0010_0E46, 1];
const P6_INSTRUCTION: [u32; 16] = [8, 5, 54, 1, 0, 0, 0, 0, 0, 0, 0, 0, 0, 2, 0, 2];
const P6_OPERANDS: [[u32; 16]; 2] =
    [[0, 2, 15, 0, 0, 0, 1, 0, 0, 0, 0, 0, 0, 0, 1, 2], [0, 3, 228, 0, 0, 0, 1, 0, 1, 0, 0, 0, 0, 0, 1, 2]];

/// A row of an instruction without operands and extensions: its words start at `first`.
fn row(at: u32, dwords: u32, code: u32, kind: u32, first: u32, count: u32) -> [u32; 16] {
    [at, dwords, code, kind, 0, 0, 0, 0, 0, 0, 0, 0, 0, 0, first, count]
}

#[test]
fn marked_cases() {
    accepts(&[0x50, 2], 3, &[], &[], &[]);
    accepts(&[0x50, 3, 0x0100_003E], 3, &[row(8, 1, 62, 1, 0, 0)], &[], &[]);
    refuses(&bytes(&[0x50, 3, 0x0000_003A]), SHEX, 3, 11, 8);
    refuses(&bytes(&[0x50, 3, 0x0200_003E]), SHEX, 3, 12, 8);
    accepts(&[0x50, 4, 0x0200_003E, 0xAABB_CCDD], 3, &[row(8, 2, 62, 1, 0, 1)], &[], &[0xAABB_CCDD]);
    accepts(&P6, 3, &[P6_INSTRUCTION], &P6_OPERANDS, &[0, 1]);
    refuses(&bytes(&[0x50, 5, 0x0300_0036, 0x0010_00F2, 0]), SHEX, 3, 13, 8);
    refuses(&bytes(&[0x50, 4, 0x35, 1]), SHEX, 3, 11, 12);
    refuses(&bytes(&[0x50, 3, 0x0100_00BF]), SHEX, 3, 13, 8);
    accepts(&[0x50, 3, 0x0100_00BF], 1, &[row(8, 1, 191, 0, 0, 1)], &[], &[0x0100_00BF]);
    // 1001 is type 1 with u 8, E01 with u 7
    let mut sampled = row(8, 2, 58, 1, 0, 0);
    sampled[8] = 1;
    sampled[9] = 8;
    accepts(&[0x50, 4, 0x8200_003A, 0x1001], 3, &[sampled], &[], &[]);
    sampled[9] = 7;
    accepts(&[0x50, 4, 0x8200_003A, 0xE01], 3, &[sampled], &[], &[]);
    refuses(&bytes(&[0x150, 2]), SHEX, 3, 6, 0);
}

#[test]
fn each_refusal_of_the_header() {
    refuses(&bytes(&[0x50, 2]), SHEX, 4, 1, 0);
    refuses(&bytes(&[0x50, 2]), 0, 3, 2, 0);
    for size in 0..8 {
        refuses(&vec![0; size], SHEX, 3, 3, 0);
    }
    for size in [9, 10, 11, 13] {
        refuses(&vec![0; size], SHEX, 3, 4, 0);
    }
    refuses(&bytes(&[0x60, 2]), SHEX, 3, 7, 0);
    refuses(&bytes(&[0x52, 2]), SHEX, 3, 7, 0);
    refuses(&bytes(&[0x0006_0050, 2]), SHEX, 3, 8, 0);
    refuses(&bytes(&[0x50, 3]), SHEX, 3, 9, 0);
    refuses(&bytes(&[0x50, 0x4000_0002]), SHEX, 3, 9, 0);
    // 14 waits for the whole stream: the zero length of the second instruction comes first
    refuses(&bytes(&[0x50, 4, 0x0104_003A, 0x3A]), SHEX, 3, 11, 12);
    refuses(&bytes(&[0x50, 3, 0x0104_003A]), SHEX, 3, 14, 8);
}

#[test]
fn pools_of_every_length_around_the_room() {
    let chunk = bytes(&P6);
    let (m, reading) = (5, Reading { version: 0x50, instructions: 1, operands: 2, words: 2 });
    let rows = [0, 1, 16 * m - 16, 16 * m - 1, 16 * m, 16 * m + 1, 16 * m + 16];
    let lengths = [0, 1, m - 1, m, m + 1, 16 * m - 1, 16 * m];
    for i in rows {
        for o in rows {
            for w in lengths {
                let mut pools = Pools::of(i, o, w);
                if i < 16 * m || o < 16 * m || w < m {
                    let after = pools.clone();
                    assert_eq!(pools.decode(&chunk, SHEX, 3), Err(Refusal::Room), "{i} {o} {w}");
                    assert_eq!(pools, after);
                } else {
                    let after = pools.holding(&[P6_INSTRUCTION], &P6_OPERANDS, &[0, 1]);
                    assert_eq!(pools.decode(&chunk, SHEX, 3), Ok(reading), "{i} {o} {w}");
                    assert_eq!(pools, after);
                }
            }
        }
    }
}

/// A chunk of several instructions: temporaries, a sample with extensions, an index that is an operand, a modifier and four immediates,
/// custom data, and then `last`.
fn mixed(last: &[u32]) -> Vec<u8> {
    let mut dwords = vec![0x50, 0, 0x0200_0068, 12];
    dwords.extend([0x8B00_0045, 0x8000_00C2, 0x0015_5543, 0x0010_00F2, 0, 0x0010_0046, 1, 0x0010_7E46, 2, 0x0010_6000, 0]);
    dwords.extend([0x0800_0036, 0x0010_00F2, 3, 0x0620_8E46, 0, 5, 0x0010_000A, 2]);
    dwords.extend([0x0B00_0038, 0x0010_2072, 1, 0x8010_0E46, 0x41, 0, 0x0000_4002, 1, 2, 3, 4]);
    dwords.extend([0x1835, 6, 9, 8, 7, 6]);
    dwords.extend(last);
    dwords[1] = dwords.len() as u32;
    bytes(&dwords)
}

/// Chunks that are accepted, and four that are refused in their last instruction, with 11, 12, 13 and 14.
fn longer_chunks() -> Vec<Vec<u8>> {
    let mut chunks = vec![bytes(&P6), mixed(&[])];
    chunks.extend([0x0100_003E, 0x3E, 0x0200_003E, 0x0100_0036, 0x0180_003E].map(|token| mixed(&[token])));
    chunks.push(include_bytes!("../../../samples/grey.ps_4_0.shex").to_vec());
    chunks.push(include_bytes!("../../../samples/grey.ps_5_1.shex").to_vec());
    chunks.push(include_bytes!("../../../samples/grey.vs_5_0.shex").to_vec());
    chunks
}

#[test]
fn longer_chunks_and_pools_around_the_room() {
    let paper = paper::Paper::default();
    let mut numbers = Vec::new();
    for chunk in longer_chunks() {
        let m = chunk.len() / 4 - 2;
        let lengths = [0, m - 1, m, 16 * m - 1, 16 * m, 16 * m + 5];
        for (i, o, w) in lengths.iter().flat_map(|i| lengths.map(|o| (*i, o))).flat_map(|(i, o)| lengths.map(|w| (i, o, w))) {
            for edition in if (i, o, w) == (16 * m, 16 * m, m) { 0..4 } else { 3..4 } {
                let mut pools = Pools::of(i, o, w);
                let (expected, after) = match paper.read(&chunk, SHEX, edition, [i, o, w]) {
                    Ok((version, rows)) => (Ok(rows.told(version)), pools.with(&rows)),
                    Err(refusal) => (Err(refusal), if refusal.0 > 10 { pools.filled(0) } else { pools.clone() }),
                };
                let answer = pools.decode(&chunk, SHEX, edition).map_err(|refusal| (refusal.number(), refusal.place()));
                assert_eq!(answer, expected, "{i} {o} {w} {edition}");
                assert!(pools == after, "{i} {o} {w} {edition}");
                numbers.push(expected.map_or_else(|(number, _)| number, |_| 0));
            }
        }
    }
    numbers.sort();
    numbers.dedup();
    assert_eq!(numbers, [0, 10, 11, 12, 13, 14]);
}

#[test]
fn longer_chunks_and_pools_and_outputs_around_their_lengths() {
    for chunk in longer_chunks() {
        let m = chunk.len() / 4 - 2;
        let mut full = Pools::of(16 * m, 16 * m, m);
        let Ok(reading) = full.decode(&chunk, SHEX, 3) else { continue };
        let used = [16 * reading.instructions as usize, 16 * reading.operands as usize, reading.words as usize];
        // the entries that are used, one more, all that were lent, and one too few
        let around = |used: usize, lent: usize| [used, used + 1, lent, used.wrapping_sub(1)].into_iter().filter(move |n| *n <= lent);
        for (i, o) in around(used[0], 16 * m).flat_map(|i| around(used[1], 16 * m).map(move |o| (i, o))) {
            for (w, size) in around(used[2], m).flat_map(|w| [0, 1, 2, 11].map(|more| (w, chunk.len() - 2 + more))) {
                let pools = Pools {
                    instructions: full.instructions[..i].to_vec(),
                    operands: full.operands[..o].to_vec(),
                    words: full.words[..w].to_vec(),
                };
                let before = pools.clone();
                let mut output = vec![OLD_BYTE; size];
                let mut after = output.clone();
                let expected = if i < used[0] || o < used[1] || w < used[2] {
                    Err(Refusal::NoReading)
                } else if size < chunk.len() {
                    Err(Refusal::OutputShort)
                } else {
                    after[..chunk.len()].copy_from_slice(&chunk);
                    Ok(chunk.len())
                };
                assert_eq!(pools.encode(3, reading, &mut output), expected, "{i} {o} {w} {size}");
                assert!(output == after && pools == before, "{i} {o} {w} {size}");
            }
        }
        // a count of one more, and the largest
        for wrong in [
            Reading { instructions: reading.instructions + 1, ..reading },
            Reading { operands: reading.operands + 1, ..reading },
            Reading { words: reading.words + 1, ..reading },
            Reading { instructions: u32::MAX, ..reading },
            Reading { operands: u32::MAX, ..reading },
            Reading { words: u32::MAX, ..reading },
        ] {
            let mut output = vec![OLD_BYTE; chunk.len() + 64];
            assert_eq!(full.encode(3, wrong, &mut output), Err(Refusal::NoReading), "{wrong:?}");
            assert!(output.iter().all(|b| *b == OLD_BYTE));
        }
    }
}

#[test]
fn slices_of_length_0() {
    let mut none = Pools::of(0, 0, 0);
    assert_eq!(none.decode(&[], SHEX, 3), Err(Refusal::Short));
    let empty = Reading { version: 0x50, instructions: 0, operands: 0, words: 0 };
    assert_eq!(none.decode(&bytes(&[0x50, 2]), SHEX, 3), Ok(empty));
    assert_eq!(none.encode(3, empty, &mut []), Err(Refusal::OutputShort));
    let mut output = [OLD_BYTE; 9];
    assert_eq!(none.encode(3, empty, &mut output), Ok(8));
    assert_eq!(output, [0x50, 0, 0, 0, 2, 0, 0, 0, OLD_BYTE]);
    // counts past a pool
    for (instructions, operands, words) in [(1, 0, 0), (0, 1, 0), (0, 0, 1), (u32::MAX, u32::MAX, u32::MAX)] {
        let counted = Reading { version: 0x50, instructions, operands, words };
        let mut output = [OLD_BYTE; 64];
        assert_eq!(none.encode(3, counted, &mut output), Err(Refusal::NoReading));
        assert_eq!(output, [OLD_BYTE; 64]);
    }
}

#[test]
fn every_edition() {
    let chunk = bytes(&P6);
    let reading = Reading { version: 0x50, instructions: 1, operands: 2, words: 2 };
    for edition in (0..=255).chain([256, 1 << 31, u32::MAX]) {
        let mut pools = Pools::of(85, 83, 9);
        let before = pools.clone();
        let full = pools.holding(&[P6_INSTRUCTION], &P6_OPERANDS, &[0, 1]);
        let mut output = [OLD_BYTE; 40];
        if edition < 4 {
            assert_eq!(pools.decode(&chunk, SHEX, edition), Ok(reading));
            assert_eq!(pools, full);
            assert_eq!(full.encode(edition, reading, &mut output), Ok(28));
            assert_eq!(output[..28], chunk[..]);
            assert_eq!(output[28..], [OLD_BYTE; 12]);
        } else {
            assert_eq!(pools.decode(&chunk, SHEX, edition), Err(Refusal::Edition));
            assert_eq!(pools, before);
            assert_eq!(full.encode(edition, reading, &mut output), Err(Refusal::Edition));
            assert_eq!(output, [OLD_BYTE; 40]);
        }
    }
}

#[test]
fn four_cc_one_letter_off() {
    let chunk = bytes(&P6);
    for name in [*b"SHEX", *b"SHDR"] {
        for place in 0..4 {
            for letter in 0..=255 {
                let mut four = name;
                four[place] = letter;
                if four != *b"SHEX" && four != *b"SHDR" {
                    let mut pools = Pools::of(80, 80, 5);
                    let before = pools.clone();
                    assert_eq!(pools.decode(&chunk, u32::from_le_bytes(four), 3), Err(Refusal::FourCc), "{four:?}");
                    assert_eq!(pools, before);
                }
            }
        }
    }
}

/// A chunk of so many dwords, all of them `ret`.
fn rets(dwords: usize) -> Vec<u8> {
    let mut all = vec![0x0100_003E; dwords];
    all[0] = 0x50;
    all[1] = dwords as u32;
    bytes(&all)
}

#[test]
fn the_limit_and_past_it() {
    let chunk = rets(LIMIT / 4);
    assert_eq!(chunk.len(), 1_048_576);
    let m = LIMIT / 4 - 2;
    let rows: Vec<[u32; 16]> = (0..m).map(|k| row(8 + 4 * k as u32, 1, 62, 1, 0, 0)).collect();
    let mut pools = Pools::of(16 * m + 3, 16 * m, m + 1);
    let after = pools.holding(&rows, &[], &[]);
    let reading = Reading { version: 0x50, instructions: m as u32, operands: 0, words: 0 };
    assert_eq!(pools.decode(&chunk, SHEX, 3), Ok(reading));
    assert!(pools == after);
    let mut output = vec![OLD_BYTE; LIMIT + 5];
    assert_eq!(pools.encode(3, reading, &mut output), Ok(LIMIT));
    assert!(output[..LIMIT] == chunk[..] && output[LIMIT..] == [OLD_BYTE; 5]);
    let mut output = vec![OLD_BYTE; LIMIT - 1];
    assert_eq!(pools.encode(3, reading, &mut output), Err(Refusal::OutputShort));
    assert!(output.iter().all(|b| *b == OLD_BYTE));

    // one byte past it is no whole dword, which is asked first; one dword past it is too long
    let mut pools = Pools::of(16 * m + 16, 16 * m + 16, m + 1);
    let before = pools.clone();
    let mut past = chunk.clone();
    past.push(0);
    assert_eq!(pools.decode(&past, SHEX, 3), Err(Refusal::NotDwords));
    assert!(pools == before);
    assert_eq!(pools.decode(&rets(LIMIT / 4 + 1), SHEX, 3), Err(Refusal::Long));
    assert!(pools == before);

    // rows of a chunk that is too long are nobody's reading
    let mut rows = rows;
    rows.push(row(8 + 4 * m as u32, 1, 62, 1, 0, 0));
    let pools = before.holding(&rows, &[], &[]);
    let longer = Reading { instructions: m as u32 + 1, ..reading };
    let mut output = vec![OLD_BYTE; LIMIT + 8];
    assert_eq!(pools.encode(3, longer, &mut output), Err(Refusal::NoReading));
    assert!(output.iter().all(|b| *b == OLD_BYTE));
}

#[test]
fn every_changed_entry_is_another_reading_or_none() {
    let reading = Reading { version: 0x50, instructions: 1, operands: 2, words: 2 };
    let full = Pools::of(80, 80, 5).holding(&[P6_INSTRUCTION], &P6_OPERANDS, &[0, 1]);
    for k in 0..16 {
        let mut pools = full.clone();
        pools.instructions[k] ^= 1 << 20;
        let mut output = [OLD_BYTE; 28];
        assert_eq!(pools.encode(3, reading, &mut output), Err(Refusal::NoReading), "word {k}");
        assert_eq!(output, [OLD_BYTE; 28]);
    }
    // entries past the used ones are not looked at
    let mut pools = full.clone();
    pools.instructions[16] = 1;
    pools.operands[32] = 1;
    pools.words[2] = 1;
    let mut output = [OLD_BYTE; 28];
    assert_eq!(pools.encode(3, reading, &mut output), Ok(28));
    assert_eq!(output[..], bytes(&P6)[..]);
}

/// An instruction pool of one row, with these words 2, 3, 8, 9, 14 and 15.
fn one(code: u32, kind: u32, extension: u32, nibbles: u32, first: u32, count: u32) -> [u32; 16] {
    [8, 2, code, kind, 0, 0, 0, 0, extension, nibbles, 0, 0, 0, 0, first, count]
}

#[test]
fn words_of_a_row() {
    let pool = [10, 11, 12, 13, 14];
    for (first, count, part) in
        [(0, 0, &pool[0..0]), (0, 5, &pool[0..5]), (1, 3, &pool[1..4]), (4, 1, &pool[4..5]), (5, 0, &pool[5..5])]
    {
        let got = words(&one(62, 1, 0, 0, first, count), &pool, 0, 1);
        assert_eq!((got, got.as_ptr()), (part, part.as_ptr()), "{first} {count}");
    }
    for (first, count) in [(0, 6), (1, 5), (5, 1), (6, 0), (u32::MAX, 0), (0, u32::MAX), (u32::MAX, u32::MAX), (3, u32::MAX - 2)] {
        let got = words(&one(62, 1, 0, 0, first, count), &pool, 0, 1);
        assert_eq!((got.len(), got.as_ptr()), (0, pool.as_ptr()), "{first} {count}");
    }
    let two = [one(62, 1, 0, 0, 0, 2), one(62, 1, 0, 0, 2, 3)].concat();
    assert_eq!(words(&two, &pool, 0, 2), [10, 11]);
    assert_eq!(words(&two, &pool, 1, 2), [12, 13, 14]);
    assert_eq!(words(&two, &pool, 1, u32::MAX), [12, 13, 14]);
    for (row, count) in [(0, 0), (1, 1), (2, 2), (2, 3), (u32::MAX, u32::MAX), (u32::MAX - 1, u32::MAX), (1 << 28, u32::MAX)] {
        assert!(words(&two, &pool, row, count).is_empty(), "{row} {count}");
    }
    // the second row lacks its last word
    assert!(words(&two[..31], &pool, 1, 2).is_empty());
    assert!(words(&[], &pool, 0, 1).is_empty());
    assert!(words(&two, &[], 1, 2).is_empty());
    assert!(words(&[], &[], 0, 0).is_empty());
}

#[test]
fn what_a_row_shows() {
    let pool = [0x4280_0000, 7];
    for code in [94, 104, 144, 153, 154, 206] {
        assert_eq!(shows(&one(code, 4, 0, 0, 1, 1), &pool, 0, 1), Shown::Count(7), "{code}");
    }
    assert_eq!(shows(&one(152, 4, 0, 0, 0, 1), &pool, 0, 1), Shown::Factor(64.0));
    for code in [62, 93, 95, 103, 105, 143, 145, 151, 155, 205, 207] {
        assert_eq!(shows(&one(code, 4, 0, 0, 0, 1), &pool, 0, 1), Shown::Nothing, "{code}");
    }
    for kind in [0, 1, 2, 3, 5, u32::MAX] {
        assert_eq!(shows(&one(152, kind, 0, 0, 0, 1), &pool, 0, 1), Shown::Nothing, "{kind}");
    }
    for (first, count) in [(0, 0), (0, 2), (2, 1), (2, 0), (u32::MAX, 1), (0, u32::MAX)] {
        assert_eq!(shows(&one(104, 4, 0, 0, first, count), &pool, 0, 1), Shown::Nothing, "{first} {count}");
    }
    let one_row = one(152, 4, 0, 0, 0, 1);
    assert_eq!(shows(&one_row, &pool, 0, 0), Shown::Nothing);
    assert_eq!(shows(&one_row, &pool, 1, 2), Shown::Nothing);
    assert_eq!(shows(&one_row[..15], &pool, 0, 1), Shown::Nothing);
    assert_eq!(shows(&one_row, &[], 0, 1), Shown::Nothing);
    assert_eq!(shows(&[], &[], 0, 0), Shown::Nothing);
    // the dword's own bits: zeros, infinities, the smallest number, and NaNs
    for bits in [0, 1 << 31, 0x7F80_0000, 0xFF80_0000, 1, 0x7FC0_0001, 0x7F80_0001, 0xFFFF_FFFF] {
        let Shown::Factor(factor) = shows(&one_row, &[bits], 0, 1) else { panic!("{bits:X}") };
        assert_eq!(factor.to_bits(), bits);
    }
}

#[test]
fn offsets_of_a_row() {
    let o = |u, v, w| Offsets { u, v, w };
    for (nibbles, expected) in [
        (0, o(0, 0, 0)),
        (7, o(7, 0, 0)),
        (8, o(-8, 0, 0)),
        (15, o(-1, 0, 0)),
        (0x70, o(0, 7, 0)),
        (0x80, o(0, -8, 0)),
        (0xF0, o(0, -1, 0)),
        (0x700, o(0, 0, 7)),
        (0x800, o(0, 0, -8)),
        (0xF00, o(0, 0, -1)),
        (0x1F8, o(-8, -1, 1)),
        (u32::MAX, o(-1, -1, -1)),
        (0xFFFF_F000, o(0, 0, 0)),
    ] {
        for extension in [1, 3, 5, 9, u32::MAX] {
            assert_eq!(offsets(&one(69, 1, extension, nibbles, 0, 0), 0, 1), expected, "{nibbles:X}");
        }
        for extension in [0, 2, 8, u32::MAX - 1] {
            assert_eq!(offsets(&one(69, 1, extension, nibbles, 0, 0), 0, 1), o(0, 0, 0));
        }
    }
    let row = one(69, 1, 1, 0x777, 0, 0);
    assert_eq!(offsets(&row, 0, 1), o(7, 7, 7));
    for (row_number, count) in [(0, 0), (1, 1), (1, 2), (u32::MAX, u32::MAX), (u32::MAX - 1, u32::MAX)] {
        assert_eq!(offsets(&row, row_number, count), o(0, 0, 0));
    }
    assert_eq!(offsets(&row[..15], 0, 1), o(0, 0, 0));
    assert_eq!(offsets(&[], 0, 1), o(0, 0, 0));
}

#[test]
fn a_refusal_is_an_error() {
    let mut pools = Pools::of(48, 48, 3);
    let chunk = bytes(&[0x50, 5, 0x0300_0036, 0x0010_00F2, 0]);
    let refusal = pools.decode(&chunk, SHEX, 3).unwrap_err();
    assert_eq!(refusal, Refusal::OperandCount { at: 8 });
    let error: Box<dyn std::error::Error> = Box::new(refusal);
    assert_eq!(error.to_string(), "refused 13 8: an operand count differs from the table");
    assert!(error.source().is_none());
}
