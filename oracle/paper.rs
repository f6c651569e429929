//! A reading of document 01 of its own, from the paper alone, at every edition and with all of the refusals 1 to 14. It shares
//! nothing with our reader's sources, with decode.rs or with records.rs but the form of the answer, and it is written to be
//! compared with the paper, not to be quick.

use told::Rows;

/// A refusal's number and place; or the version token, with the rows and words.
pub type Answer = Result<(u32, Rows), (u32, u32)>;

/// The lengths of the instruction, operand and word pools.
pub type Pools = [usize; 3];

/// "Editions 0, 1, 2, 3 know codes below 107, 112, 210, 2048."
const CEILINGS: [u32; 4] = [107, 112, 210, 2048];

/// "Operand counts."
const COUNTS: [&str; 7] = [
    "2 7 9 10 18-23 48 58 62 190",
    "3 4 6 8 13 31 44 63 76 117-119 143",
    "5 11 12 25-28 40 43 47 54 59 64-68 75 86 111 121-125 129-131 134-137 141 178 179 199 201 202 205 212 214-217",
    "0 1 14-17 24 29 30 32-34 36 37 39 41 42 45 49 51 52 56 57 60 61 77 79 80 83-85 87 110 163-166 169-171 173-177 191-198 203 204 210",
    "35 38 46 50 55 69 78 81 82 108 109 132 133 138 139 167 168 172 180-184 186-189 200 211 213",
    "70-72 74 126 127 140 142 185",
    "73 128",
];

/// "Declarations": codes | field bits, with their least and most value where the paper bounds them | what follows.
/// o: operand, d: dword, h: dword under 65,536, s: one more dword in model 5.1, t: a count and that many dwords, n: lengths and
/// as many dwords as the low 16 bits say, x: all that is left. Custom data and phases stand with them.
const DECLARATIONS: [&str; 26] = [
    "88 | 11-15:1-10 16-22 | o h s",
    "156 | 11-15:1-10 16-23 | o h s",
    "89 | 11-11 | o s s",
    "90 | 11-14:0-2 | o s",
    "91 | | o d",
    "92 93 147 148 | 11-16 |",
    "95 101 | | o",
    "96 97 102 103 | | o d",
    "98 | 11-14:0-7 | o",
    "99 100 | 11-14:0-7 | o d",
    "94 104 144 152 153 154 206 | | d",
    "105 155 | | d d d",
    "106 | 11-19 |",
    "149 | 11-12 |",
    "150 151 | 11-13:0-4 |",
    "157 | 16-23 | o s",
    "158 | 16-23 | o d s",
    "159 | | o d",
    "160 | | o d d",
    "161 | | o s",
    "162 | | o d s",
    "120 | | d o",
    "145 | | d t",
    "146 | 11-11 | d d n",
    "53 | 11-15 | x",
    "113 114 115 116 | |",
];

fn bits(token: u32, low: u32, high: u32) -> u32 {
    (token >> low) & (u32::MAX >> (31 - (high - low)))
}

/// All bits from one to another.
fn mask(low: u32, high: u32) -> u32 {
    bits(u32::MAX, low, high) << low
}

fn range(word: &str) -> (u32, u32) {
    let (low, high) = word.split_once('-').unwrap_or((word, word));
    (low.parse().unwrap(), high.parse().unwrap())
}

/// A code's row of the table of declarations.
#[derive(Clone, Default)]
struct Layout {
    kind: u32,
    count: u32,
    /// From bit, to bit, least value, most value.
    fields: Vec<(u32, u32, u32, u32)>,
    items: Vec<char>,
}

/// The layout of every code.
pub struct Paper {
    layouts: Vec<Layout>,
}

impl Default for Paper {
    fn default() -> Self {
        let opaque = Layout { kind: 2, ..Layout::default() };
        let mut layouts = vec![opaque; 2048];
        for (count, line) in COUNTS.iter().enumerate() {
            for (low, high) in line.split(' ').map(range) {
                for code in low..=high {
                    let fields = match code {
                        61 | 111 => vec![(11, 12, 0, 3)],
                        190 => vec![(11, 14, 0, 15)],
                        _ => Vec::new(),
                    };
                    layouts[code as usize] = Layout { kind: 1, count: count as u32, fields, items: Vec::new() };
                }
            }
        }
        for line in DECLARATIONS {
            let parts: Vec<&str> = line.split('|').collect();
            let fields = parts[1].split_whitespace().map(|word| {
                let (place, values) = word.split_once(':').unwrap_or((word, "0-65535"));
                let ((low, high), (least, most)) = (range(place), range(values));
                (low, high, least, most)
            });
            let fields: Vec<_> = fields.collect();
            let items: Vec<char> = parts[2].split_whitespace().map(|word| word.chars().next().unwrap()).collect();
            for code in parts[0].split_whitespace() {
                let code: usize = code.parse().unwrap();
                let kind = match code {
                    53 => 5,
                    113..=116 => 3,
                    _ => 4,
                };
                layouts[code] = Layout { kind, count: 0, fields: fields.clone(), items: items.clone() };
            }
        }
        Paper { layouts }
    }
}

impl Paper {
    /// Reads a chunk. The pools' lengths matter to refusal 10 alone.
    pub fn read(&self, chunk: &[u8], four: u32, edition: u32, pools: Pools) -> Answer {
        let size = chunk.len();
        let no = |number| Err((number, 0));
        if edition > 3 {
            return no(1);
        }
        if &four.to_le_bytes() != b"SHEX" && &four.to_le_bytes() != b"SHDR" {
            return no(2);
        }
        if size < 8 {
            return no(3);
        }
        if size % 4 != 0 {
            return no(4);
        }
        if size > 1_048_576 {
            return no(5);
        }
        let dwords: Vec<u32> = chunk.chunks(4).map(|d| u32::from_le_bytes([d[0], d[1], d[2], d[3]])).collect();
        let version = dwords[0];
        if bits(version, 8, 15) != 0 {
            return no(6);
        }
        if ![4, 5].contains(&bits(version, 4, 7)) || ![0, 1].contains(&bits(version, 0, 3)) {
            return no(7);
        }
        if bits(version, 16, 31) > 5 {
            return no(8);
        }
        if u64::from(dwords[1]) * 4 != size as u64 {
            return no(9);
        }
        let m = dwords.len() - 2;
        if pools[0] < 16 * m || pools[1] < 16 * m || pools[2] < m {
            return no(10);
        }
        self.stream(&dwords, version, CEILINGS[edition as usize])
    }

    /// Checks 11, 12, 13 for each instruction in turn; then 14, from the first; then all is read.
    fn stream(&self, dwords: &[u32], version: u32, ceiling: u32) -> Answer {
        let model51 = bits(version, 0, 7) == 0x51;
        let mut places = Vec::new();
        let mut at = 2;
        while at < dwords.len() {
            let place = at as u32 * 4;
            let token = dwords[at];
            let code = bits(token, 0, 10);
            let next = code == 53 || ((code == 145 || code == 146) && bits(token, 31, 31) == 1);
            let length = if next { dwords.get(at + 1).copied().unwrap_or(0) } else { bits(token, 24, 30) };
            if length == 0 {
                return Err((11, place));
            }
            if length as usize > dwords.len() - at {
                return Err((12, place));
            }
            let own = &dwords[at..at + length as usize];
            let layout = &self.layouts[code as usize];
            if code < ceiling && layout.kind == 1 {
                let from = passed_chain(own, 0);
                if operands(own, from, layout.count).is_none() && layout.count > 0 {
                    return Err((13, place));
                }
            }
            places.push((at, length as usize));
            at += length as usize;
        }
        let mut rows = Rows::default();
        for (at, length) in places {
            let own = &dwords[at..at + length];
            let written = if bits(own[0], 0, 10) < ceiling {
                self.known(own, at as u32 * 4, model51, &mut rows)
            } else {
                unread(own, at as u32 * 4, &mut rows);
                Some(())
            };
            if written.is_none() {
                return Err((14, at as u32 * 4));
            }
        }
        Ok((version, rows))
    }

    /// Writes an instruction of a known code. None: its dwords are not exactly those of its layout.
    fn known(&self, own: &[u32], offset: u32, model51: bool, rows: &mut Rows) -> Option<()> {
        let token = own[0];
        let code = bits(token, 0, 10);
        let layout = &self.layouts[code as usize];
        let kind = layout.kind;
        let long = kind == 4 && (code == 145 || code == 146) && bits(token, 31, 31) == 1;
        let mut row = [0; 16];
        row[..4].copy_from_slice(&[offset, own.len() as u32, code, kind]);
        row[12] = rows.operands.len() as u32 / 16;
        row[14] = rows.words.len() as u32;

        // The token: which bits are allowed, and what they say.
        let mut allowed = mask(0, 10);
        if long || kind == 5 {
            allowed |= u32::from(long) << 31;
        } else {
            allowed |= mask(24, 30);
        }
        if kind < 3 {
            allowed |= 1 << 31;
        }
        if kind < 4 {
            allowed |= mask(19, 22);
            row[6] = bits(token, 19, 22);
            if code != 190 {
                allowed |= 1 << 13;
                row[4] = bits(token, 13, 13);
            }
        }
        if [3, 5, 8, 13, 31, 63].contains(&code) {
            allowed |= 1 << 18;
            row[5] = bits(token, 18, 18);
        }
        for &(low, high, least, most) in &layout.fields {
            let value = bits(token, low, high);
            if value < least || most < value {
                return None;
            }
            allowed |= mask(low, high);
            row[7] |= value << (low - 11);
        }
        if token & !allowed != 0 {
            return None;
        }

        // The extension chain of kinds 1 and 2; the length dword of the others.
        let mut at = 1;
        if kind < 3 {
            at = passed_chain(own, 0)?;
            extensions(&own[1..at], &mut row)?;
        }
        if kind == 5 || long {
            at = 2;
        }
        if long {
            row[8] = 8;
        }

        // What follows.
        let mut tail = kind < 3;
        match kind {
            1 => {
                row[13] = layout.count;
                for _ in 0..layout.count {
                    at = operand(own, at, 0, rows)?;
                }
            }
            _ => {
                for &item in &layout.items {
                    at = match item {
                        'o' => {
                            row[13] += 1;
                            operand(own, at, 0, rows)?
                        }
                        'd' => words(own, at, 1, rows)?,
                        'h' if *own.get(at)? > 65_535 => return None,
                        'h' => words(own, at, 1, rows)?,
                        's' => words(own, at, usize::from(model51), rows)?,
                        't' => words(own, at, 1 + *own.get(at)? as usize, rows)?,
                        'n' => words(own, at, 1 + (*own.get(at)? & 0xFFFF) as usize, rows)?,
                        _ => {
                            tail = true;
                            at
                        }
                    };
                }
            }
        }
        if kind == 5 && (own.len() < 2 || row[7] == 3 && (own.len() - 2) % 4 != 0) {
            return None;
        }
        if tail {
            at = words(own, at, own.len() - at, rows)?;
        }
        row[15] = rows.words.len() as u32 - row[14];
        rows.instructions.extend(row);
        (at == own.len()).then_some(())
    }
}

/// "A code not known is unread (kind 0): only framing applies, and all its dwords go to the word pool."
fn unread(own: &[u32], offset: u32, rows: &mut Rows) {
    let mut row = [0; 16];
    row[..3].copy_from_slice(&[offset, own.len() as u32, bits(own[0], 0, 10)]);
    row[12] = rows.operands.len() as u32 / 16;
    row[14] = rows.words.len() as u32;
    row[15] = own.len() as u32;
    rows.instructions.extend(row);
    rows.words.extend(own);
}

/// Takes so many dwords as words. None: there are fewer.
fn words(own: &[u32], at: usize, count: usize, rows: &mut Rows) -> Option<usize> {
    let end = at.checked_add(count)?;
    rows.words.extend(own.get(at..end)?);
    Some(end)
}

/// The place behind the chain that the dword at a place announces. None: it runs off the end.
fn passed_chain(own: &[u32], mut at: usize) -> Option<usize> {
    while bits(*own.get(at)?, 31, 31) == 1 {
        at += 1;
    }
    Some(at + 1)
}

/// The extensions of an instruction, into words 8 to 11 of its row.
fn extensions(chain: &[u32], row: &mut [u32; 16]) -> Option<()> {
    let mut last = 0;
    for &extension in chain {
        let kind = bits(extension, 0, 5);
        if kind <= last || kind > 3 {
            return None;
        }
        last = kind;
        row[8] |= 1 << (kind - 1);
        match kind {
            1 => {
                if extension & !(1 << 31 | mask(9, 20) | 1) != 0 {
                    return None;
                }
                let [u, v, w] = [bits(extension, 9, 12), bits(extension, 13, 16), bits(extension, 17, 20)];
                row[9] = u + 16 * v + 256 * w;
            }
            2 => row[10] = bits(extension, 0, 30),
            _ => row[11] = bits(extension, 0, 30),
        }
    }
    Some(())
}

/// How many components an operand's token says, with mode 3 and a count of 3 read as none: 0, 1 or 4.
fn components(token: u32) -> u32 {
    match (bits(token, 0, 1), bits(token, 2, 3)) {
        (1, _) => 1,
        (2, 0..=2) => 4,
        _ => 0,
    }
}

/// The dwords of its own that a representation has, and whether it has an operand. None: malformed.
fn representation(repr: u32) -> Option<(usize, bool)> {
    match repr {
        0 => Some((1, false)),
        1 => Some((2, false)),
        2 => Some((0, true)),
        3 => Some((1, true)),
        4 => Some((2, true)),
        _ => None,
    }
}

/// Passes so many operands. None: there is no start, or an operand is malformed.
fn operands(own: &[u32], from: Option<usize>, count: u32) -> Option<usize> {
    let mut at = from?;
    for _ in 0..count {
        at = passed_operand(own, at, 0)?;
    }
    Some(at)
}

/// The place behind an operand, whatever bits it has. None: malformed.
fn passed_operand(own: &[u32], at: usize, depth: u32) -> Option<usize> {
    if depth == 64 {
        return None;
    }
    let token = *own.get(at)?;
    let kind = bits(token, 12, 19);
    let dimension = bits(token, 20, 21);
    let mut at = passed_chain(own, at)?;
    if kind == 4 || kind == 5 {
        if dimension > 0 {
            return None;
        }
        at += components(token) as usize;
    }
    for index in 0..dimension {
        let (dwords, nests) = representation(bits(token, 22 + 3 * index, 24 + 3 * index))?;
        at += dwords;
        if at > own.len() {
            return None;
        }
        if nests {
            at = passed_operand(own, at, depth + 1)?;
        }
    }
    (at <= own.len()).then_some(at)
}

/// Writes an operand's row, then its children's, and its words in reading order. None: malformed, or not exact.
fn operand(own: &[u32], start: usize, depth: u32, rows: &mut Rows) -> Option<usize> {
    if depth == 64 {
        return None;
    }
    let token = *own.get(start)?;
    let kind = bits(token, 12, 19);
    let dimension = bits(token, 20, 21);
    let mut allowed = mask(0, 1) | mask(12, 21) | 1 << 31;
    let mut row = [0; 16];
    row[0] = kind;
    (row[1], row[2]) = match (bits(token, 0, 1), bits(token, 2, 3)) {
        (0, _) => (0, 0),
        (1, _) => (1, 0),
        (2, 0) => (2, bits(token, 4, 7)),
        (2, 1) => (3, bits(token, 4, 11)),
        (2, 2) => (4, bits(token, 4, 5)),
        _ => return None,
    };
    allowed |= match row[1] {
        2 => mask(2, 7),
        3 => mask(2, 11),
        4 => mask(2, 5),
        _ => 0,
    };
    row[6] = dimension;
    if dimension > 0 {
        allowed |= mask(22, 21 + 3 * dimension);
        row[7] = bits(token, 22, 21 + 3 * dimension);
    }
    if token & !allowed != 0 {
        return None;
    }
    let mut at = passed_chain(own, start)?;
    if at - start > 2 {
        return None;
    }
    if at - start == 2 {
        let extension = own[start + 1];
        let modifier = bits(extension, 6, 13);
        row[3] = modifier + 4 * bits(extension, 17, 17) + 16 * bits(extension, 14, 16);
        if bits(extension, 0, 5) != 1 || modifier > 3 || row[3] == 0 || bits(extension, 18, 31) != 0 {
            return None;
        }
    }
    let number = rows.operands.len();
    rows.operands.extend([0; 16]);
    if kind == 4 || kind == 5 {
        if dimension > 0 {
            return None;
        }
        row[5] = components(token);
        row[4] = if row[5] > 0 { rows.words.len() as u32 } else { 0 };
        at = words(own, at, row[5] as usize, rows)?;
    }
    for index in 0..dimension {
        let (dwords, nests) = representation(bits(token, 22 + 3 * index, 24 + 3 * index))?;
        if dwords > 0 {
            row[8 + index as usize] = rows.words.len() as u32;
        }
        at = words(own, at, dwords, rows)?;
        if nests {
            row[11 + index as usize] = rows.operands.len() as u32 / 16;
            at = operand(own, at, depth + 1, rows)?;
        }
    }
    row[14] = (rows.operands.len() - number) as u32 / 16;
    row[15] = (at - start) as u32;
    rows.operands[number..number + 16].copy_from_slice(&row);
    Some(at)
}
