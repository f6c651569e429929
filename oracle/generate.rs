//! Chunks, from a seed: well-formed ones of every kind and declaration, systematically damaged ones, noise and header faults.
//!
//! Chunks come in families. A family is settled by the seed and its number alone, so that any chunk can be made again.

pub const SHEX: u32 = 0x5845_4853;
pub const SHDR: u32 = 0x5244_4853;
pub const LARGEST: usize = 1_048_576;

/// A stream of numbers (splitmix64).
pub struct Rng(u64);

impl Rng {
    pub fn new(seed: u64, family: u64) -> Self {
        let mut rng = Rng(seed.wrapping_mul(0x9E37_79B9_7F4A_7C15) ^ family.wrapping_mul(0xD134_2543_DE82_EF95));
        rng.next();
        rng
    }

    fn next(&mut self) -> u64 {
        self.0 = self.0.wrapping_add(0x9E37_79B9_7F4A_7C15);
        let mut z = self.0;
        z = (z ^ (z >> 30)).wrapping_mul(0xBF58_476D_1CE4_E5B9);
        z = (z ^ (z >> 27)).wrapping_mul(0x94D0_49BB_1331_11EB);
        z ^ (z >> 31)
    }

    /// A number below a bound.
    pub fn below(&mut self, bound: u32) -> u32 {
        (((self.next() >> 32) * u64::from(bound)) >> 32) as u32
    }

    /// A number from one to another, both included.
    fn within(&mut self, low: u32, high: u32) -> u32 {
        low + self.below(high - low + 1)
    }

    fn one_in(&mut self, n: u32) -> bool {
        self.below(n) == 0
    }

    fn pick<T: Copy>(&mut self, from: &[T]) -> T {
        from[self.below(from.len() as u32) as usize]
    }

    /// A dword: often a small one or one at a border.
    fn dword(&mut self) -> u32 {
        match self.below(4) {
            0 => self.below(8),
            1 => self.pick(&[0, 1, 0xFFFF, 0x1_0000, 0x7FFF_FFFF, 0x8000_0000, 0xFFFF_FFFF, 0x7FC0_0001, 0x3F80_0000]),
            2 => 1 << self.below(32),
            _ => self.next() as u32,
        }
    }
}

/// A chunk, with the name of what it is made to be.
pub struct Chunk {
    pub name: &'static str,
    /// How many operands stand one in the other, in the family that is about this.
    pub levels: u32,
    pub four: u32,
    pub bytes: Vec<u8>,
}

/// A program before its header is written: a version token and instructions.
#[derive(Clone)]
struct Program {
    version: u32,
    instructions: Vec<Vec<u32>>,
}

impl Program {
    /// All dwords, the header's included.
    fn dwords(&self) -> Vec<u32> {
        let size = 2 + self.instructions.iter().map(Vec::len).sum::<usize>();
        let mut all = Vec::with_capacity(size);
        all.extend([self.version, size as u32]);
        all.extend(self.instructions.iter().flatten());
        all
    }
}

fn bytes_of(dwords: &[u32]) -> Vec<u8> {
    dwords.iter().flat_map(|d| d.to_le_bytes()).collect()
}

/// Sets the header's second dword to the number of dwords.
fn sized(mut dwords: Vec<u32>) -> Vec<u32> {
    dwords[1] = dwords.len() as u32;
    dwords
}

/// Document 01's operand counts, written down again so that a slip in one copy is seen.
const COUNTED: [&[u32]; 7] = [
    &[2, 7, 9, 10, 18, 19, 20, 21, 22, 23, 48, 58, 62, 190],
    &[3, 4, 6, 8, 13, 31, 44, 63, 76, 117, 118, 119, 143],
    &[
        5, 11, 12, 25, 26, 27, 28, 40, 43, 47, 54, 59, 64, 65, 66, 67, 68, 75, 86, 111, 121, 122, 123, 124, 125, 129, 130, 131,
        134, 135, 136, 137, 141, 178, 179, 199, 201, 202, 205, 212, 214, 215, 216, 217,
    ],
    &[
        0, 1, 14, 15, 16, 17, 24, 29, 30, 32, 33, 34, 36, 37, 39, 41, 42, 45, 49, 51, 52, 56, 57, 60, 61, 77, 79, 80, 83, 84, 85,
        87, 110, 163, 164, 165, 166, 169, 170, 171, 173, 174, 175, 176, 177, 191, 192, 193, 194, 195, 196, 197, 198, 203, 204,
        210,
    ],
    &[
        35, 38, 46, 50, 55, 69, 78, 81, 82, 108, 109, 132, 133, 138, 139, 167, 168, 172, 180, 181, 182, 183, 184, 186, 187, 188,
        189, 200, 211, 213,
    ],
    &[70, 71, 72, 74, 126, 127, 140, 142, 185],
    &[73, 128],
];

/// A declaration: its code and what follows its token. o: operand; d: dword; h: dword under 65,536; s: dword in model 5.1;
/// t: a count and so many dwords; n: lengths, whose low half counts the dwords after it.
pub const DECLARATIONS: [(u32, &str); 40] = [
    (88, "ohs"),
    (89, "oss"),
    (90, "os"),
    (91, "od"),
    (92, ""),
    (93, ""),
    (94, "d"),
    (95, "o"),
    (96, "od"),
    (97, "od"),
    (98, "o"),
    (99, "od"),
    (100, "od"),
    (101, "o"),
    (102, "od"),
    (103, "od"),
    (104, "d"),
    (105, "ddd"),
    (106, ""),
    (120, "do"),
    (144, "d"),
    (145, "dt"),
    (146, "ddn"),
    (147, ""),
    (148, ""),
    (149, ""),
    (150, ""),
    (151, ""),
    (152, "d"),
    (153, "d"),
    (154, "d"),
    (155, "ddd"),
    (156, "ohs"),
    (157, "os"),
    (158, "ods"),
    (159, "od"),
    (160, "odd"),
    (161, "os"),
    (162, "ods"),
    (206, "d"),
];

/// The field of a declaration, from bit 11 on.
fn field(rng: &mut Rng, code: u32) -> u32 {
    match code {
        88 => rng.within(1, 10) | rng.below(128) << 5,
        156 => rng.within(1, 10) | rng.below(256) << 5,
        89 | 146 => rng.below(2),
        90 => rng.below(3),
        98..=100 => rng.below(8),
        92 | 93 | 147 | 148 => rng.below(64),
        106 => rng.below(512),
        149 => rng.below(4),
        150 | 151 => rng.below(5),
        157 | 158 => rng.below(256) << 5,
        _ => 0,
    }
}

/// The token of an instruction of so many dwords, its length in bits 24 to 30.
fn with_length(mut instruction: Vec<u32>) -> Vec<u32> {
    instruction[0] |= (instruction.len() as u32) << 24;
    instruction
}

/// Writes an operand. `nest` of 8 indices hold an operand, fewer the deeper it goes.
fn operand(rng: &mut Rng, out: &mut Vec<u32>, depth: u32, nest: u32) {
    let low = match rng.below(6) {
        0 => 0,
        1 => 1,
        2 => 2 | rng.below(16) << 4,
        3 => 10 | rng.below(4) << 4,
        _ => 6 | rng.below(256) << 4,
    };
    let four = low & 3 == 2;
    if rng.one_in(5) {
        let kind = rng.pick(&[4, 5]);
        front(rng, out, low | kind << 12);
        let count = if four { 4 } else { low & 3 };
        out.extend((0..count).map(|_| rng.dword()));
        return;
    }
    let kind = match rng.below(8) {
        0 => rng.below(256),
        1..=3 => 0,
        _ => rng.below(43),
    };
    let kind = if kind == 4 || kind == 5 { kind + 2 } else { kind };
    let dimension = rng.pick(&[0, 1, 1, 1, 2, 2, 3]);
    let mut token = low | kind << 12 | dimension << 20;
    let mut reprs = [0; 3];
    for (i, repr) in reprs.iter_mut().enumerate().take(dimension as usize) {
        *repr = if depth < 63 && rng.below(8) < nest { rng.within(2, 4) } else { rng.pick(&[0, 0, 0, 1]) };
        token |= *repr << (22 + 3 * i);
    }
    front(rng, out, token);
    for repr in reprs.into_iter().take(dimension as usize) {
        out.extend((0..own(repr)).map(|_| rng.dword()));
        if repr >= 2 {
            operand(rng, out, depth + 1, nest.saturating_sub(1));
        }
    }
}

/// The dwords of its own that an index has.
fn own(repr: u32) -> u32 {
    match repr {
        0 | 3 => 1,
        1 | 4 => 2,
        _ => 0,
    }
}

/// An operand's token, sometimes with an extension that says something.
fn front(rng: &mut Rng, out: &mut Vec<u32>, token: u32) {
    if !rng.one_in(4) {
        out.push(token);
        return;
    }
    let mut extension = rng.below(4) << 6 | rng.below(8) << 14 | rng.below(2) << 17;
    if extension == 0 {
        extension = rng.within(1, 3) << 6;
    }
    out.extend([token | 1 << 31, extension | 1]);
}

/// Operands one in the other: `levels` of them, at depths 0 to levels - 1. Fits 120 dwords.
fn nested(rng: &mut Rng, out: &mut Vec<u32>, levels: u32) {
    let mut spare = 100u32.saturating_sub(levels);
    for level in 1..=levels {
        if level == levels {
            operand_leaf(rng, out);
            return;
        }
        let repr = rng.pick(&[2, 2, 2, 3, 4]);
        let repr = if spare < 4 { 2 } else { repr };
        spare -= own(repr).min(spare);
        if spare > 6 && rng.one_in(12) {
            // The operand stands in the second index, after a dword.
            spare -= 1;
            out.extend([2 << 20 | repr << 25, rng.dword()]);
        } else {
            out.push(1 << 20 | repr << 22);
        }
        out.extend((0..own(repr)).map(|_| rng.dword()));
    }
}

/// A small operand: immediate, with an index or with neither.
fn operand_leaf(rng: &mut Rng, out: &mut Vec<u32>) {
    match rng.below(3) {
        0 => out.push(0),
        1 => out.extend([0x4001, rng.dword()]),
        _ => out.extend([0x0010_0000, rng.dword()]),
    }
}

/// Extensions of an instruction: some of types 1, 2, 3, rising.
fn extensions(rng: &mut Rng, out: &mut Vec<u32>) {
    let types = rng.within(1, 7);
    for (bit, last) in [(1, types == 1), (2, types < 4), (4, true)] {
        if types & bit != 0 {
            let lower = match bit {
                1 => 1 | rng.below(4096) << 9,
                2 => 2 | rng.below(1 << 25) << 6,
                _ => 3 | rng.below(1 << 25) << 6,
            };
            out.push(lower | u32::from(!last) << 31);
        }
    }
}

/// An instruction of kind 1 of a given code and count.
fn counted(rng: &mut Rng, code: u32, count: u32) -> Vec<u32> {
    let mut nest = rng.pick(&[0, 0, 0, 1, 2, 3]);
    loop {
        let mut out = vec![code | kind_bits(rng, code)];
        if rng.one_in(3) {
            out[0] |= 1 << 31;
            extensions(rng, &mut out);
        }
        for _ in 0..count {
            operand(rng, &mut out, 0, nest);
        }
        if rng.one_in(5) {
            let tail = rng.pick(&[1, 1, 2, 3, 9, 40]);
            out.extend((0..tail).map(|_| rng.dword()));
        }
        if out.len() < 128 {
            return with_length(out);
        }
        nest = nest.saturating_sub(1);
    }
}

/// The bits that kinds 1 and 2 may have beside code and length.
fn kind_bits(rng: &mut Rng, code: u32) -> u32 {
    let mut bits = 0;
    if rng.one_in(3) {
        bits |= rng.below(16) << 19;
    }
    if matches!(code, 3 | 5 | 8 | 13 | 31 | 63) {
        bits |= rng.below(2) << 18;
    }
    match code {
        190 => bits | rng.below(16) << 11,
        61 | 111 => bits | rng.below(4) << 11 | rng.below(2) << 13,
        _ => bits | u32::from(rng.one_in(4)) << 13,
    }
}

/// An instruction of kind 2: a known code with neither count nor layout.
fn opaque(rng: &mut Rng) -> Vec<u32> {
    let code = match rng.below(3) {
        0 => rng.pick(&[107, 112, 207, 208, 209, 218, 255, 256, 1024, 2047]),
        1 => rng.within(218, 240),
        _ => rng.within(235, 2047),
    };
    let mut out = vec![code | kind_bits(rng, code)];
    if rng.one_in(3) {
        out[0] |= 1 << 31;
        extensions(rng, &mut out);
    }
    let kept = rng.pick(&[0, 1, 2, 5, 20, 123]);
    out.extend((0..kept).map(|_| rng.dword()));
    with_length(out)
}

fn phase(rng: &mut Rng) -> Vec<u32> {
    with_length(vec![rng.within(113, 116) | rng.below(2) << 13 | rng.below(16) << 19])
}

/// How many dwords a list has: mostly few, sometimes more than 127.
fn list_size(rng: &mut Rng) -> u32 {
    match rng.below(12) {
        0 => rng.within(110, 130),
        1 => rng.within(130, 700),
        _ => rng.below(6),
    }
}

/// Custom data.
fn custom(rng: &mut Rng) -> Vec<u32> {
    let class = if rng.one_in(2) { rng.below(5) } else { rng.below(32) };
    let mut size = list_size(rng);
    if class == 3 {
        size -= size % 4;
    }
    let mut out = vec![53 | class << 11, size + 2];
    out.extend((0..size).map(|_| rng.dword()));
    out
}

/// The items after a declaration's token.
fn items(rng: &mut Rng, items: &str, model51: bool, nest: u32, out: &mut Vec<u32>) {
    for item in items.chars() {
        match item {
            'o' => operand(rng, out, 0, nest),
            'd' => out.push(rng.dword()),
            'h' => out.push(rng.below(65536)),
            's' if model51 => out.push(rng.dword()),
            't' | 'n' => {
                let size = list_size(rng);
                out.push(if item == 't' { size } else { size | rng.below(65536) << 16 });
                out.extend((0..size).map(|_| rng.dword()));
            }
            _ => {}
        }
    }
}

/// A declaration. 145 and 146 take the long form where they must, and otherwise as often as not.
fn declaration(rng: &mut Rng, (code, rest): (u32, &str), model51: bool) -> Vec<u32> {
    let mut nest = rng.pick(&[0, 0, 1, 2]);
    loop {
        let mut out = vec![code | field(rng, code) << 11];
        items(rng, rest, model51, nest, &mut out);
        if (code == 145 || code == 146) && (out.len() > 127 || rng.one_in(2)) {
            out[0] |= 1 << 31;
            out.insert(1, out.len() as u32 + 1);
            return out;
        }
        if out.len() < 128 {
            return with_length(out);
        }
        nest = nest.saturating_sub(1);
    }
}

/// A well-formed instruction of any kind.
fn instruction(rng: &mut Rng, model51: bool) -> Vec<u32> {
    match rng.below(20) {
        0..=8 => {
            let all = COUNTED.iter().map(|codes| codes.len() as u32).sum();
            let mut k = rng.below(all) as usize;
            for (count, codes) in COUNTED.iter().enumerate() {
                if k < codes.len() {
                    return counted(rng, codes[k], count as u32);
                }
                k -= codes.len();
            }
            unreachable!("k is below the number of codes")
        }
        9..=15 => {
            let row = rng.pick(&DECLARATIONS);
            declaration(rng, row, model51)
        }
        16 => opaque(rng),
        17 => phase(rng),
        _ => custom(rng),
    }
}

/// A version token that passes.
fn version(rng: &mut Rng) -> u32 {
    rng.below(6) << 16 | rng.pick(&[0x40, 0x41, 0x50, 0x50, 0x51, 0x51])
}

fn model51(version: u32) -> bool {
    version & 0xFF == 0x51
}

/// A well-formed program of so many instructions.
fn program(rng: &mut Rng, count: u32) -> Program {
    let version = version(rng);
    let instructions = (0..count).map(|_| instruction(rng, model51(version))).collect();
    Program { version, instructions }
}

/// A small program to damage: few instructions, and no long lists.
fn small(rng: &mut Rng) -> Program {
    loop {
        let count = rng.within(1, 3);
        let p = program(rng, count);
        if p.dwords().len() < 60 {
            return p;
        }
    }
}

/// Where in a program's dwords an instruction begins.
fn start(p: &Program, k: usize) -> usize {
    2 + p.instructions[..k].iter().map(Vec::len).sum::<usize>()
}

/// Takes what a family makes.
pub struct Sink<'a> {
    name: &'static str,
    levels: u32,
    four: u32,
    take: &'a mut dyn FnMut(Chunk),
}

impl Sink<'_> {
    fn dwords(&mut self, dwords: &[u32]) {
        self.bytes(bytes_of(dwords));
    }

    fn bytes(&mut self, bytes: Vec<u8>) {
        (self.take)(Chunk { name: self.name, levels: self.levels, four: self.four, bytes });
    }
}

/// Makes the chunks of a family.
type Family = fn(&mut Rng, &mut Sink);

/// The families, with how often each is taken. The names stand in the figures.
const FAMILIES: [(&str, u32, Family); 21] = [
    ("well-formed", 900, well_formed),
    ("bits of one dword", 60, bits_of_one),
    ("bits of every dword", 3, bits_of_all),
    ("several bits", 60, several_bits),
    ("dropped dwords", 25, dropped),
    ("added dwords", 25, added),
    ("lengths", 20, lengths),
    ("truncated dwords", 12, truncated_dwords),
    ("truncated bytes", 3, truncated_bytes),
    ("noise", 100, noise),
    ("noise in the shape of instructions", 200, shaped_noise),
    ("header faults", 2, header_faults),
    ("depth", 80, depth),
    ("field values", 20, field_values),
    ("custom data lengths", 6, custom_lengths),
    ("operand tokens", 2, operand_tokens),
    ("every code", 25, every_code),
    ("faults in a row", 120, faults_in_a_row),
    ("extension chains", 60, chains),
    ("thousands of bytes", 6, thousands),
    ("large", 1, large),
];

/// Makes the chunks of a family.
pub fn family(seed: u64, number: u64, take: &mut dyn FnMut(Chunk)) {
    let mut rng = Rng::new(seed, number);
    let all = FAMILIES.iter().map(|f| f.1).sum();
    let mut k = rng.below(all);
    for (name, weight, make) in FAMILIES {
        if k < weight {
            let four = if rng.one_in(4) { SHDR } else { SHEX };
            make(&mut rng, &mut Sink { name, levels: 0, four, take });
            return;
        }
        k -= weight;
    }
}

/// The names of all families.
pub fn names() -> impl Iterator<Item = &'static str> {
    FAMILIES.iter().map(|f| f.0)
}

fn well_formed(rng: &mut Rng, sink: &mut Sink) {
    let count = rng.pick(&[0, 1, 1, 1, 2, 2, 3, 4, 6, 9, 14]);
    sink.dwords(&program(rng, count).dwords());
}

/// Each bit of one dword of a small program is turned over.
fn bits_of_one(rng: &mut Rng, sink: &mut Sink) {
    let p = small(rng);
    let mut dwords = p.dwords();
    // An instruction's token every other time, any dword otherwise.
    let at = if rng.one_in(2) {
        let k = rng.below(p.instructions.len() as u32) as usize;
        start(&p, k)
    } else {
        rng.below(dwords.len() as u32) as usize
    };
    for bit in 0..32 {
        dwords[at] ^= 1 << bit;
        sink.dwords(&dwords);
        dwords[at] ^= 1 << bit;
    }
}

/// Each bit of each dword of a very small program is turned over.
fn bits_of_all(rng: &mut Rng, sink: &mut Sink) {
    let p = program(rng, 1);
    let mut dwords = p.dwords();
    for at in 0..dwords.len().min(24) {
        for bit in 0..32 {
            dwords[at] ^= 1 << bit;
            sink.dwords(&dwords);
            dwords[at] ^= 1 << bit;
        }
    }
}

fn several_bits(rng: &mut Rng, sink: &mut Sink) {
    let p = small(rng);
    for _ in 0..16 {
        let mut dwords = p.dwords();
        for _ in 0..rng.within(2, 4) {
            let at = rng.within(2, dwords.len() as u32 - 1) as usize;
            dwords[at] ^= 1 << rng.below(32);
        }
        sink.dwords(&dwords);
    }
}

/// An instruction's length is set anew, where its token or its second dword holds it.
fn relength(instruction: &mut [u32], long: bool) {
    let n = instruction.len() as u32;
    if long && instruction.len() > 1 {
        instruction[1] = n;
    } else if !long {
        instruction[0] = instruction[0] & 0x80FF_FFFF | (n & 127) << 24;
    }
}

/// Whether the second dword of an instruction holds its length.
fn is_long(instruction: &[u32]) -> bool {
    let code = instruction[0] & 0x7FF;
    code == 53 || (code == 145 || code == 146) && instruction[0] >> 31 == 1
}

/// Every dword is dropped, one at a time: the header fits, and the instruction's length is mended or not.
fn dropped(rng: &mut Rng, sink: &mut Sink) {
    let p = small(rng);
    for k in 0..p.instructions.len() {
        for at in 0..p.instructions[k].len() {
            let mut q = p.clone();
            q.instructions[k].remove(at);
            sink.dwords(&q.dwords());
            if at > 0 {
                let long = is_long(&p.instructions[k]);
                relength(&mut q.instructions[k], long);
                sink.dwords(&q.dwords());
            }
        }
    }
    sink.dwords(&p.dwords()[1..]);
}

/// A dword is added at every place.
fn added(rng: &mut Rng, sink: &mut Sink) {
    let p = small(rng);
    for k in 0..p.instructions.len() {
        for at in 0..=p.instructions[k].len() {
            let mut q = p.clone();
            let new = rng.dword();
            q.instructions[k].insert(at, new);
            sink.dwords(&q.dwords());
            if at > 0 && q.instructions[k].len() < 128 {
                let long = is_long(&p.instructions[k]);
                relength(&mut q.instructions[k], long);
                sink.dwords(&q.dwords());
            }
        }
    }
}

/// The length of an instruction is set to every value around each border.
fn lengths(rng: &mut Rng, sink: &mut Sink) {
    let p = small(rng);
    let k = rng.below(p.instructions.len() as u32) as usize;
    let at = start(&p, k);
    let mut dwords = p.dwords();
    let left = (dwords.len() - at) as u32;
    if is_long(&p.instructions[k]) {
        let own = dwords[at + 1];
        let borders = [0, 2, own, left, 127, 128, 0x3FFF_FFFF, 0x4000_0000, 0x7FFF_FFFF, 0x8000_0000, 0xFFFF_FFFD];
        for border in borders {
            for by in 0..5 {
                dwords[at + 1] = border.wrapping_add(by).wrapping_sub(2);
                sink.dwords(&dwords);
            }
        }
    } else {
        let token = dwords[at] & 0x80FF_FFFF;
        for length in 0..128u32 {
            if !(8..=124).contains(&length) || length < left + 3 {
                dwords[at] = token | length << 24;
                sink.dwords(&dwords);
            }
        }
    }
    // The header's length, around the size.
    let mut dwords = p.dwords();
    let size = dwords.len() as u32;
    for second in [0, 1, 2, size - 1, size + 1, size | 0x4000_0000, size | 0x8000_0000, size | 0xC000_0000, 0xFFFF_FFFF] {
        dwords[1] = second;
        sink.dwords(&dwords);
    }
}

/// The stream is cut after every dword, and the header fits.
fn truncated_dwords(rng: &mut Rng, sink: &mut Sink) {
    let count = rng.within(1, 5);
    let dwords = program(rng, count).dwords();
    for size in 2..dwords.len().min(400) {
        sink.dwords(&sized(dwords[..size].to_vec()));
    }
}

/// The chunk is cut after every byte, and the header stays.
fn truncated_bytes(rng: &mut Rng, sink: &mut Sink) {
    let bytes = bytes_of(&small(rng).dwords());
    for size in 0..bytes.len() {
        sink.bytes(bytes[..size].to_vec());
    }
}

/// Dwords of any bits, under a header that passes.
fn noise(rng: &mut Rng, sink: &mut Sink) {
    for _ in 0..4 {
        let size = rng.below(40);
        let mut dwords = vec![version(rng), 0];
        dwords.extend((0..size).map(|_| rng.next() as u32));
        sink.dwords(&sized(dwords));
    }
}

/// A token of any code and a length that mostly fits, then dwords that look like operands or like nothing.
fn shaped_noise(rng: &mut Rng, sink: &mut Sink) {
    let mut dwords = vec![version(rng), 0];
    for _ in 0..rng.within(1, 4) {
        let code = if rng.one_in(8) { rng.below(2048) } else { rng.below(240) };
        let length = rng.pick(&[1, 2, 2, 3, 3, 4, 5, 6, 8, 12]);
        let bits = match rng.below(4) {
            0 => rng.next() as u32 & 0x80FF_F800,
            1 => 1 << rng.within(11, 23),
            _ => 0,
        };
        if code == 53 {
            dwords.extend([code | bits, length]);
        } else {
            dwords.push(code | bits | length << 24);
        }
        while dwords.len() % 16 != 0 && rng.below(length + 1) > 0 {
            let look = match rng.below(8) {
                0 => rng.next() as u32,
                1 => rng.dword(),
                2 => rng.below(1 << 12) | rng.below(8) << 12,
                3 => 0x0010_0000 | rng.below(1 << 12),
                4 => 0x8010_0000 | rng.below(1 << 12),
                5 => rng.below(8) << 22 | rng.below(4) << 20 | rng.below(2) << 31,
                6 => rng.below(4) << 6 | 1,
                _ => 0,
            };
            dwords.push(look);
        }
    }
    sink.dwords(&sized(dwords));
}

/// Each bit of the header and of the FourCC, every model, program types around the border, and sizes from 0 on.
fn header_faults(rng: &mut Rng, sink: &mut Sink) {
    let p = small(rng);
    let dwords = p.dwords();
    for at in 0..2 {
        for bit in 0..32 {
            let mut wrong = dwords.clone();
            wrong[at] ^= 1 << bit;
            sink.dwords(&wrong);
        }
    }
    for model in 0..256 {
        let mut wrong = dwords.clone();
        wrong[0] = wrong[0] & 0xFFFF_0000 | model;
        sink.dwords(&wrong);
    }
    for kind in [4, 5, 6, 7, 0x00FF, 0x0100, 0x8000, 0xFFFA, 0xFFFF] {
        let mut wrong = dwords.clone();
        wrong[0] = wrong[0] & 0xFFFF | kind << 16;
        sink.dwords(&wrong);
    }
    let right = sink.four;
    for bit in 0..32 {
        sink.four = right ^ 1 << bit;
        sink.dwords(&dwords);
    }
    sink.four = rng.next() as u32;
    sink.dwords(&dwords);
    // Several faults at once, in the header and before it.
    for _ in 0..32 {
        let mut wrong = bytes_of(&dwords);
        let size = wrong.len() as u32;
        for _ in 0..rng.within(1, 4) {
            let bit = rng.below(64) as usize;
            wrong[bit / 8] ^= 1 << (bit % 8);
        }
        if rng.one_in(2) {
            wrong.truncate(rng.below(size) as usize);
        }
        sink.four = if rng.one_in(4) { right ^ 1 << rng.below(32) } else { right };
        sink.bytes(wrong);
    }
    sink.four = right;
    for size in 0..13 {
        let zeros = vec![rng.next() as u8; size];
        sink.bytes(zeros);
    }
}

/// Operands one in the other, up to 66 of them and past the border of 64, in instructions and in declarations.
fn depth(rng: &mut Rng, sink: &mut Sink) {
    let levels = if rng.one_in(2) { rng.within(61, 67) } else { rng.within(1, 67) };
    let version = version(rng);
    let mut out;
    if rng.one_in(2) {
        let (code, rest) = loop {
            let row = rng.pick(&DECLARATIONS);
            if row.1.contains('o') {
                break row;
            }
        };
        out = vec![code | field(rng, code) << 11];
        for item in rest.chars() {
            if item == 'o' {
                nested(rng, &mut out, levels);
            } else {
                items(rng, &item.to_string(), model51(version), 0, &mut out);
            }
        }
    } else {
        let count = rng.within(1, 2);
        let code = rng.pick(COUNTED[count as usize]);
        out = vec![code];
        let deep = rng.below(count);
        for i in 0..count {
            if i == deep {
                nested(rng, &mut out, levels);
            } else {
                operand_leaf(rng, &mut out);
            }
        }
    }
    if out.len() > 127 {
        return;
    }
    let mut dwords = vec![version, 0];
    dwords.extend(with_length(out));
    let dwords = sized(dwords);
    sink.levels = levels;
    sink.dwords(&dwords);
    sink.levels = 0;
    // One damage somewhere along the way.
    for _ in 0..4 {
        let mut wrong = dwords.clone();
        let at = rng.within(2, dwords.len() as u32 - 1) as usize;
        wrong[at] ^= 1 << rng.below(32);
        sink.dwords(&wrong);
    }
}

/// Each value of bits 11 to 16 of an instruction's token, and each single bit above them; then the borders of its first dword.
fn field_values(rng: &mut Rng, sink: &mut Sink) {
    let version = version(rng);
    let row = rng.pick(&DECLARATIONS);
    let own = if rng.one_in(4) { instruction(rng, model51(version)) } else { declaration(rng, row, model51(version)) };
    let mut dwords = vec![version, 0];
    dwords.extend(own);
    let mut dwords = sized(dwords);
    let token = dwords[2];
    for value in 0..64 {
        dwords[2] = token & !(63 << 11) | value << 11;
        sink.dwords(&dwords);
    }
    dwords[2] = token;
    // A declaration's last dword, around the border of 65,536.
    let last = dwords.len() - 1;
    let kept = dwords[last];
    for value in [0, 0xFFFF, 0x1_0000, 0x8000_0000, 0xFFFF_FFFF] {
        if last > 2 {
            dwords[last] = value;
            sink.dwords(&dwords);
        }
    }
    dwords[last] = kept;
    // The length dwords of 145 and 146, around their own values.
    for at in 3..dwords.len().min(7) {
        let kept = dwords[at];
        for by in [1, 2, u32::MAX, u32::MAX - 1, 0x1_0000, 0x4000_0000] {
            dwords[at] = kept.wrapping_add(by);
            sink.dwords(&dwords);
        }
        dwords[at] = kept;
    }
}

/// Custom data of a few classes and of every length from 0 to 9 dwords after the two.
fn custom_lengths(rng: &mut Rng, sink: &mut Sink) {
    let version = version(rng);
    for class in [3, rng.below(32)] {
        for size in 0..10 {
            let mut dwords = vec![version, 0, 53 | class << 11, size + 2];
            dwords.extend((0..size).map(|_| rng.dword()));
            sink.dwords(&sized(dwords));
        }
    }
}

/// An operand of each value of its lowest four bits, of three types and each dimension, with 0 to 5 dwords after it.
fn operand_tokens(rng: &mut Rng, sink: &mut Sink) {
    let version = version(rng);
    let code = rng.pick(&[4, 95, 101, 117]);
    for low in 0..16 {
        for kind in [4, 5, rng.below(43)] {
            let bits = if rng.one_in(4) { 1 << rng.within(4, 30) } else { 0 };
            let dimension = if rng.one_in(4) { rng.below(4) } else { 0 };
            for size in 0..6 {
                let mut out = vec![code, low | kind << 12 | dimension << 20 | bits];
                out.extend((0..size).map(|_| rng.below(4)));
                let mut dwords = vec![version, 0];
                dwords.extend(with_length(out));
                sink.dwords(&sized(dwords));
            }
        }
    }
}

/// One code, with 0 to 9 small operands after it, and 0 to 2 dwords more.
fn every_code(rng: &mut Rng, sink: &mut Sink) {
    let code = if rng.one_in(4) { rng.below(2048) } else { rng.below(256) };
    let version = version(rng);
    for count in 0..10 {
        let mut out = vec![code];
        if code == 53 {
            out.push(0);
        }
        for _ in 0..count {
            operand_leaf(rng, &mut out);
        }
        out.extend((0..rng.below(3)).map(|_| rng.dword()));
        if code == 53 {
            out[1] = out.len() as u32;
        } else {
            out = with_length(out);
        }
        let mut dwords = vec![version, 0];
        dwords.extend(out);
        sink.dwords(&sized(dwords));
    }
}

/// Several instructions, most of them damaged: the first refusal of each number must win in the right order.
fn faults_in_a_row(rng: &mut Rng, sink: &mut Sink) {
    let count = rng.within(2, 6);
    let p = program(rng, count);
    for _ in 0..4 {
        let mut q = p.clone();
        for own in &mut q.instructions {
            match rng.below(8) {
                0 => own[0] ^= 1 << rng.within(11, 23),
                1 => {
                    let at = rng.below(own.len() as u32) as usize;
                    own[at] ^= 1 << rng.below(32);
                }
                2 if own.len() > 1 && !is_long(own) => {
                    own.pop();
                    relength(own, false);
                }
                3 if own.len() < 127 && !is_long(own) => {
                    own.push(rng.dword());
                    relength(own, false);
                }
                4 if rng.one_in(4) => own[0] &= 0x80FF_FFFF,
                _ => {}
            }
        }
        sink.dwords(&q.dwords());
    }
}

/// Extension chains of any types and lengths, on instructions and on operands; some run off the end.
fn chains(rng: &mut Rng, sink: &mut Sink) {
    for _ in 0..4 {
        let version = version(rng);
        let count = rng.below(4);
        let code = match rng.below(6) {
            0 => rng.within(218, 240),
            1 => rng.pick(&DECLARATIONS).0,
            _ => rng.pick(COUNTED[count as usize]),
        };
        let mut out = vec![code | 1 << 31];
        let links = rng.within(1, 4);
        for link in 0..links {
            let follows = u32::from(link + 1 < links || rng.one_in(12));
            out.push(extension(rng) | follows << 31);
        }
        for _ in 0..count {
            if rng.one_in(2) {
                out.push(rng.pick(&[0, 2, 0xE46, 0x4001]) | 1 << 31);
                let links = rng.within(1, 3);
                for link in 0..links {
                    let follows = u32::from(link + 1 < links || rng.one_in(12));
                    let body = if rng.one_in(2) { 1 | rng.below(4) << 6 | rng.below(16) << 14 } else { extension(rng) };
                    out.push(body | follows << 31);
                }
            } else {
                operand_leaf(rng, &mut out);
            }
        }
        let mut dwords = vec![version, 0];
        dwords.extend(with_length(out));
        if rng.one_in(2) {
            dwords.extend(instruction(rng, model51(version)));
        }
        sink.dwords(&sized(dwords));
    }
}

/// An extension dword of any type, mostly one that is known; bit 31 is clear.
fn extension(rng: &mut Rng) -> u32 {
    let kind = if rng.one_in(6) { rng.below(64) } else { rng.within(1, 3) };
    let bits = match rng.below(4) {
        0 => 0,
        1 => rng.below(4096) << 9,
        2 => 1 << rng.within(6, 30),
        _ => rng.next() as u32 & 0x7FFF_FFC0,
    };
    kind | bits
}

/// Well-formed instructions until a program has so many dwords; the last one is a `ret` or custom data that fills it up.
fn filled(rng: &mut Rng, dwords: usize) -> Program {
    let version = version(rng);
    let mut p = Program { version, instructions: Vec::new() };
    let mut left = dwords - 2;
    while left > 0 {
        let own = if left > 200_000 && rng.one_in(3) {
            let size = rng.within(1000, 150_000);
            let mut out = vec![rng.pick(&[53, 53 | 2 << 11]), size + 2];
            out.resize(size as usize + 2, rng.dword());
            out
        } else {
            instruction(rng, model51(version))
        };
        if own.len() <= left {
            left -= own.len();
            p.instructions.push(own);
        } else {
            p.instructions.push(vec![0x0100_003E]);
            left -= 1;
        }
    }
    p
}

fn thousands(rng: &mut Rng, sink: &mut Sink) {
    let size = rng.within(500, 4000);
    let p = filled(rng, size as usize);
    sink.dwords(&p.dwords());
    for _ in 0..3 {
        let mut dwords = p.dwords();
        let at = rng.within(2, size - 1) as usize;
        dwords[at] ^= 1 << rng.below(32);
        sink.dwords(&dwords);
    }
}

/// Up to the largest size, and at it.
fn large(rng: &mut Rng, sink: &mut Sink) {
    let most = (LARGEST / 4) as u32;
    let size = match rng.below(4) {
        0 => most,
        1 => most - rng.below(4),
        _ => rng.within(4000, most),
    };
    if rng.one_in(3) {
        // A list past 16 bits: custom data or the long form of 145; that of 146 ends at 65,535.
        let code = rng.pick(&[53, 53 | 3 << 11, 145 | 1 << 31, 146 | 1 << 31]);
        let rest = match code & 0x7FF {
            53 => size - 2 - (size - 4) % 4,
            _ => size - 2,
        };
        let mut out = vec![code, rest];
        match code & 0x7FF {
            145 => out.extend([7, rest - 4]),
            146 => out.extend([7, 9, (rest - 5) & 0xFFFF]),
            _ => {}
        }
        if code & 0x7FF == 146 {
            let n = (rest - 5) & 0xFFFF;
            out[1] = n + 5;
        }
        out.resize(out[1] as usize, rng.dword());
        let mut dwords = vec![0x50, 0];
        dwords.extend(out);
        let dwords = sized(dwords);
        sink.dwords(&dwords);
        let mut wrong = dwords;
        wrong[3] = wrong[3].wrapping_add(rng.pick(&[1, u32::MAX]));
        sink.dwords(&wrong);
        return;
    }
    let p = filled(rng, size as usize);
    sink.dwords(&p.dwords());
    let mut dwords = p.dwords();
    let at = rng.within(2, size - 1) as usize;
    dwords[at] ^= 1 << rng.below(32);
    sink.dwords(&dwords);
}
