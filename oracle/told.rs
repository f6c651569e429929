//! What a reader tells of a chunk, in the numbers of document 01. Both sides are brought into this form and compared in it.

use std::fmt;

/// The rows and words of an accepted chunk, one pool each.
#[derive(Clone, Default, PartialEq, Eq, Debug)]
pub struct Rows {
    pub instructions: Vec<u32>,
    pub operands: Vec<u32>,
    pub words: Vec<u32>,
}

impl Rows {
    pub fn clear(&mut self) {
        self.instructions.clear();
        self.operands.clear();
        self.words.clear();
    }
}

/// A reading in numbers, as crates/shex/src/lib.rt declares it: 0 and the version token with the three counts; or a refusal's
/// number and place, and counts of 0.
#[repr(C)]
#[derive(Clone, Copy, PartialEq, Eq, Debug)]
pub struct Reading {
    pub number: u32,
    pub place: u32,
    pub version: u32,
    pub instructions: u32,
    pub operands: u32,
    pub words: u32,
}

/// A reader of our side: a chunk, a FourCC, an edition and three lent pools.
pub type Decode = fn(&[u8], u32, u32, &mut [u32], &mut [u32], &mut [u32]) -> Reading;

/// A writing in numbers, as crates/shex/src/lib.rt declares it: 0 and the chunk's size in bytes; or a refusal's number and 0.
#[repr(C)]
#[derive(Clone, Copy, PartialEq, Eq, Debug)]
pub struct Writing {
    pub number: u32,
    pub size: u32,
}

/// An encoder of our side: an edition, a version token, three pools with the count of each, and an output.
pub type Encode = fn(u32, u32, (&[u32], u32), (&[u32], u32), (&[u32], u32), &mut [u8]) -> Writing;

/// What the Rust tells. Its records are written into `Rows`, and from there into dwords again: where these are not the chunk's
/// own, the records do not hold all that the chunk says, and `lost` is the byte offset of the first such instruction.
#[derive(Clone, PartialEq, Eq, Debug)]
pub enum Told {
    Refused {
        number: u32,
        place: u32,
    },
    Accepted {
        version: u32,
        lost: Option<u32>,
    },
    /// A panic, or a message that document 01 has no number for.
    Strange(String),
}

/// The form in which a chunk's record is printed.
pub struct Printed<'a>(pub &'a Told, pub &'a Rows);

impl fmt::Display for Printed<'_> {
    fn fmt(&self, f: &mut fmt::Formatter<'_>) -> fmt::Result {
        match self.0 {
            Told::Refused { number, place } => writeln!(f, "refused {number} {place}"),
            Told::Strange(what) => writeln!(f, "strange {what}"),
            Told::Accepted { lost: Some(place), .. } => writeln!(f, "accepted, and not all of it is in the records: {place}"),
            Told::Accepted { version, lost: None } => {
                writeln!(f, "accepted {version:X}")?;
                for row in self.1.instructions.chunks(16) {
                    writeln!(f, "instruction {}", numbers(row))?;
                }
                for row in self.1.operands.chunks(16) {
                    writeln!(f, "operand {}", numbers(row))?;
                }
                let words: Vec<String> = self.1.words.iter().map(|w| format!(" {w:X}")).collect();
                writeln!(f, "words{}", words.concat())
            }
        }
    }
}

/// Numbers with commas between them.
pub fn numbers(row: &[u32]) -> String {
    row.iter().map(u32::to_string).collect::<Vec<_>>().join(",")
}
