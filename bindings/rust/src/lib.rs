//! Reads and writes shader listings: SHEX and SHDR chunks into rows and words, and back to the same bytes.
//!
//! The work is done by the proved library `libshex.a`; this crate makes its calls safe and gives its answers Rust's shapes. Numbers, places,
//! rows and words are document 01's. The caller lends all memory: for a chunk of M + 2 dwords the two row pools need 16 M entries and the
//! word pool M.
//!
//! ```
//! use shex::{decode, encode, words, SHEX};
//!
//! // mov r0.xyzw, r1.xyzw
//! let dwords: [u32; 7] = [0x50, 7, 0x05000036, 0x001000F2, 0, 0x00100E46, 1];
//! let chunk: Vec<u8> = dwords.iter().flat_map(|d| d.to_le_bytes()).collect();
//!
//! let (mut instructions, mut operands, mut pool) = ([0; 80], [0; 80], [0; 5]);
//! let reading = decode(&chunk, SHEX, 3, &mut instructions, &mut operands, &mut pool)?;
//! assert_eq!((reading.instructions, reading.operands, reading.words), (1, 2, 2));
//! assert_eq!(instructions[..4], [8, 5, 54, 1]);
//! assert_eq!(words(&instructions, &pool, 0, reading.instructions), [0, 1]);
//!
//! let mut output = [0; 28];
//! let size = encode(3, reading, &instructions, &operands, &pool, &mut output)?;
//! assert_eq!(output[..size], chunk[..]);
//!
//! let refusal = decode(&chunk[..27], SHEX, 3, &mut instructions, &mut operands, &mut pool).unwrap_err();
//! assert_eq!((refusal.number(), refusal.place()), (4, 0));
//! # Ok::<(), shex::Refusal>(())
//! ```
#![warn(missing_docs)]

use std::fmt;

/// The FourCC `SHEX`.
pub const SHEX: u32 = u32::from_le_bytes(*b"SHEX");
/// The FourCC `SHDR`.
pub const SHDR: u32 = u32::from_le_bytes(*b"SHDR");
/// The most bytes of a chunk.
pub const LIMIT: usize = 1_048_576;
/// The words of a row.
pub const ROW: usize = 16;

mod archive {
    #[repr(C)]
    pub struct Reading {
        pub number: u32,
        pub place: u32,
        pub version: u32,
        pub instructions: u32,
        pub operands: u32,
        pub words: u32,
    }

    #[repr(C)]
    pub struct Writing {
        pub number: u32,
        pub size: u32,
    }

    #[repr(C)]
    pub struct Span {
        pub start: usize,
        pub length: usize,
    }

    #[repr(C)]
    pub struct Showing {
        pub kind: u32,
        pub dword: u32,
    }

    #[repr(C)]
    pub struct Sides {
        pub u: i8,
        pub v: i8,
        pub w: i8,
    }

    extern "C" {
        pub fn shex_decode(
            chunk: *const u8,
            chunk_size: usize,
            four: u32,
            edition: u32,
            instructions: *mut u32,
            instructions_length: usize,
            operands: *mut u32,
            operands_length: usize,
            words: *mut u32,
            words_length: usize,
        ) -> Reading;
        pub fn shex_encode(
            edition: u32,
            version: u32,
            instructions: *const u32,
            instructions_length: usize,
            instruction_count: u32,
            operands: *const u32,
            operands_length: usize,
            operand_count: u32,
            words: *const u32,
            words_length: usize,
            word_count: u32,
            output: *mut u8,
            output_size: usize,
        ) -> Writing;
        pub fn shex_words(
            instructions: *const u32,
            instructions_length: usize,
            words: *const u32,
            words_length: usize,
            row: u32,
            count: u32,
        ) -> Span;
        pub fn shex_shows(
            instructions: *const u32,
            instructions_length: usize,
            words: *const u32,
            words_length: usize,
            row: u32,
            count: u32,
        ) -> Showing;
        pub fn shex_offsets(instructions: *const u32, instructions_length: usize, row: u32, count: u32) -> Sides;
    }
}

/// Why a chunk, or rows, are refused. `at` is the byte offset of an instruction in the chunk.
#[derive(Clone, Copy, Debug, PartialEq, Eq, Hash)]
pub enum Refusal {
    /// 1: the edition is not 0 to 3.
    Edition,
    /// 2: the FourCC is neither SHEX nor SHDR.
    FourCc,
    /// 3: under 8 bytes.
    Short,
    /// 4: the size is not a multiple of 4.
    NotDwords,
    /// 5: over 1,048,576 bytes.
    Long,
    /// 6: bits 8-15 of the version token are not zero.
    Reserved,
    /// 7: a shader model other than 4.0, 4.1, 5.0 and 5.1.
    Model,
    /// 8: a program type over 5.
    Program,
    /// 9: the second dword is not the chunk's size in dwords.
    Size,
    /// 10: a pool is too short.
    Room,
    /// 11: an instruction of zero length.
    ZeroLength {
        /// Where the instruction starts.
        at: u32,
    },
    /// 12: an instruction passes the end.
    PastEnd {
        /// Where the instruction starts.
        at: u32,
    },
    /// 13: an instruction's operand count differs from the table.
    OperandCount {
        /// Where the instruction starts.
        at: u32,
    },
    /// 14: an instruction's dwords are not exactly those of its layout.
    Layout {
        /// Where the instruction starts.
        at: u32,
    },
    /// 15: no chunk that is read at the edition gives the version token, counts, rows and words.
    NoReading,
    /// 16: the output is too short.
    OutputShort,
}

impl Refusal {
    /// Document 01's number of the refusal.
    pub fn number(self) -> u32 {
        match self {
            Refusal::Edition => 1,
            Refusal::FourCc => 2,
            Refusal::Short => 3,
            Refusal::NotDwords => 4,
            Refusal::Long => 5,
            Refusal::Reserved => 6,
            Refusal::Model => 7,
            Refusal::Program => 8,
            Refusal::Size => 9,
            Refusal::Room => 10,
            Refusal::ZeroLength { .. } => 11,
            Refusal::PastEnd { .. } => 12,
            Refusal::OperandCount { .. } => 13,
            Refusal::Layout { .. } => 14,
            Refusal::NoReading => 15,
            Refusal::OutputShort => 16,
        }
    }

    /// The byte offset of the instruction that is refused; 0 where no instruction is.
    pub fn place(self) -> u32 {
        match self {
            Refusal::ZeroLength { at }
            | Refusal::PastEnd { at }
            | Refusal::OperandCount { at }
            | Refusal::Layout { at } => at,
            _ => 0,
        }
    }

    fn of(number: u32, at: u32) -> Refusal {
        match number {
            1 => Refusal::Edition,
            2 => Refusal::FourCc,
            3 => Refusal::Short,
            4 => Refusal::NotDwords,
            5 => Refusal::Long,
            6 => Refusal::Reserved,
            7 => Refusal::Model,
            8 => Refusal::Program,
            9 => Refusal::Size,
            10 => Refusal::Room,
            11 => Refusal::ZeroLength { at },
            12 => Refusal::PastEnd { at },
            13 => Refusal::OperandCount { at },
            14 => Refusal::Layout { at },
            15 => Refusal::NoReading,
            16 => Refusal::OutputShort,
            _ => unreachable!("the archive's contract has refusals 1 to 16 only"),
        }
    }
}

impl fmt::Display for Refusal {
    fn fmt(&self, f: &mut fmt::Formatter<'_>) -> fmt::Result {
        let why = match self {
            Refusal::Edition => "the edition is not 0 to 3",
            Refusal::FourCc => "the FourCC is neither SHEX nor SHDR",
            Refusal::Short => "the chunk is under 8 bytes",
            Refusal::NotDwords => "the chunk's size is not a multiple of 4",
            Refusal::Long => "the chunk is over 1,048,576 bytes",
            Refusal::Reserved => "bits 8-15 of the version token are not zero",
            Refusal::Model => "the shader model is not 4.0, 4.1, 5.0 or 5.1",
            Refusal::Program => "the program type is over 5",
            Refusal::Size => "the second dword is not the chunk's size in dwords",
            Refusal::Room => "a pool is too short",
            Refusal::ZeroLength { .. } => "an instruction has zero length",
            Refusal::PastEnd { .. } => "an instruction passes the end",
            Refusal::OperandCount { .. } => "an operand count differs from the table",
            Refusal::Layout { .. } => "an instruction's dwords are not those of its layout",
            Refusal::NoReading => "no chunk is read to these rows and words",
            Refusal::OutputShort => "the output is too short",
        };
        write!(f, "refused {} {}: {}", self.number(), self.place(), why)
    }
}

impl std::error::Error for Refusal {}

/// An accepted chunk: its version token, and how many rows and words it was read to.
#[derive(Clone, Copy, Debug, PartialEq, Eq, Hash)]
pub struct Reading {
    /// The chunk's first dword.
    pub version: u32,
    /// Instruction rows, of 16 words each.
    pub instructions: u32,
    /// Operand rows, of 16 words each.
    pub operands: u32,
    /// Words.
    pub words: u32,
}

/// What an instruction row shows.
#[derive(Clone, Copy, Debug, PartialEq)]
pub enum Shown {
    /// The factor of code 152, with the dword's own bits, those of a NaN included.
    Factor(f32),
    /// A count.
    Count(u32),
    /// Nothing.
    Nothing,
}

/// The texture offsets of an instruction row, each from -8 to 7.
#[derive(Clone, Copy, Debug, Default, PartialEq, Eq, Hash)]
pub struct Offsets {
    /// Along u.
    pub u: i8,
    /// Along v.
    pub v: i8,
    /// Along w.
    pub w: i8,
}

/// Reads a chunk of a FourCC at an edition into three pools.
///
/// Refusals 1 to 10 leave the pools as they are, 11 to 14 fill them with 0. When the chunk is accepted, entries past the used ones are left
/// as they are.
pub fn decode(
    chunk: &[u8],
    four: u32,
    edition: u32,
    instructions: &mut [u32],
    operands: &mut [u32],
    words: &mut [u32],
) -> Result<Reading, Refusal> {
    // Each pointer and length is a slice's own, and the pools are borrowed apart from each other and from the chunk.
    let r = unsafe {
        archive::shex_decode(
            chunk.as_ptr(),
            chunk.len(),
            four,
            edition,
            instructions.as_mut_ptr(),
            instructions.len(),
            operands.as_mut_ptr(),
            operands.len(),
            words.as_mut_ptr(),
            words.len(),
        )
    };
    match r.number {
        0 => Ok(Reading {
            version: r.version,
            instructions: r.instructions,
            operands: r.operands,
            words: r.words,
        }),
        number => Err(Refusal::of(number, r.place)),
    }
}

/// Writes the chunk that is read, at the edition, to this version token and the first so many rows and words; its size in bytes.
///
/// Only the chunk's own bytes of the output change, and a refusal (1, 15 or 16) changes nothing.
pub fn encode(
    edition: u32,
    reading: Reading,
    instructions: &[u32],
    operands: &[u32],
    words: &[u32],
    output: &mut [u8],
) -> Result<usize, Refusal> {
    // Each pointer and length is a slice's own, and the output is borrowed apart from the pools.
    let w = unsafe {
        archive::shex_encode(
            edition,
            reading.version,
            instructions.as_ptr(),
            instructions.len(),
            reading.instructions,
            operands.as_ptr(),
            operands.len(),
            reading.operands,
            words.as_ptr(),
            words.len(),
            reading.words,
            output.as_mut_ptr(),
            output.len(),
        )
    };
    match w.number {
        0 => Ok(w.size as usize),
        number => Err(Refusal::of(number, 0)),
    }
}

/// The part of the word pool that holds an instruction row's words; `count` is how many instruction rows there are.
///
/// The part is empty, at the pool's start, for a row number at or past the count, a row outside its pool or a span outside the word pool.
pub fn words<'a>(instructions: &[u32], words: &'a [u32], row: u32, count: u32) -> &'a [u32] {
    // Each pointer and length is a slice's own.
    let s = unsafe {
        archive::shex_words(instructions.as_ptr(), instructions.len(), words.as_ptr(), words.len(), row, count)
    };
    &words[s.start..s.start + s.length]
}

/// What an instruction row shows; `count` is how many instruction rows there are.
pub fn shows(instructions: &[u32], words: &[u32], row: u32, count: u32) -> Shown {
    // Each pointer and length is a slice's own.
    let s = unsafe {
        archive::shex_shows(instructions.as_ptr(), instructions.len(), words.as_ptr(), words.len(), row, count)
    };
    match s.kind {
        0 => Shown::Nothing,
        1 => Shown::Count(s.dword),
        2 => Shown::Factor(f32::from_bits(s.dword)),
        _ => unreachable!("the archive's contract has kinds 0 to 2 only"),
    }
}

/// The texture offsets of an instruction row; 0 for a row without them, a row number at or past the count or a row outside its pool.
pub fn offsets(instructions: &[u32], row: u32, count: u32) -> Offsets {
    // The pointer and length are the slice's own.
    let s = unsafe { archive::shex_offsets(instructions.as_ptr(), instructions.len(), row, count) };
    Offsets { u: s.u, v: s.v, w: s.w }
}
