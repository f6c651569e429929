//! The Rust's answer in the numbers of document 01: a message becomes a refusal's number and place, and a program's records
//! become rows and words. Each instruction is also written into dwords again from its records alone, to see whether they hold
//! all that the chunk says; this is what the Rust's own re-encoding check is for, and what document 01 refuses with 14.

use crate::shex::decode::{DecodeError, decode_with_fourcc};
use crate::shex::ir::{
    ComponentSelect, CustomDataType, GsOutputTopology, GsPrimitive, Instruction, InstructionKind, MinPrecision, Operand,
    OperandIndex, Program, RegisterType, ReturnType, SystemValue,
};
use crate::shex::opcodes::Opcode;
use told::{Rows, Told};

/// Reads a chunk with decode.rs. A panic is told, not passed on.
pub fn read(chunk: &[u8], four: u32, rows: &mut Rows) -> Told {
    rows.clear();
    nostdio::forget();
    match std::panic::catch_unwind(|| decode_with_fourcc(chunk, four.to_le_bytes())) {
        Err(_) => Told::Strange("panic".to_string()),
        Ok(Err(error)) => refusal(&error),
        Ok(Ok(program)) => Told::Accepted { version: version(&program), lost: write_all(&program, chunk, rows) },
    }
}

/// The number and the place that a message stands for.
fn refusal(error: &DecodeError) -> Told {
    let text = error.message.as_str();
    let place =
        text.split_once("at byte offset ").and_then(|(_, rest)| rest.split(|c: char| !c.is_ascii_digit()).next()?.parse().ok());
    let header = [
        ("invalid shader-code FourCC", 2),
        ("SHEX/SHDR chunk too short", 3),
        ("SHEX/SHDR size", 4),
        ("version token has reserved bits", 6),
        ("unsupported shader model", 7),
        ("invalid tokenized-program type", 8),
        ("declared shader length overflows", 9),
        ("shader length is", 9),
    ];
    if let Some((_, number)) = header.iter().find(|(start, _)| text.starts_with(start)) {
        return Told::Refused { number: *number, place: 0 };
    }
    let stream = [
        ("has zero length", 11),
        ("instruction length overflows", 12),
        ("extends past end of chunk", 12),
        ("specification requires", 13),
    ];
    match (stream.iter().find(|(part, _)| text.contains(part)), place) {
        (Some((_, number)), Some(place)) => Told::Refused { number: *number, place },
        _ => Told::Strange(text.to_string()),
    }
}

/// The version token. The Rust keeps its parts.
fn version(program: &Program) -> u32 {
    let types = ["ps", "vs", "gs", "hs", "ds", "cs"];
    let number = types.iter().position(|name| *name == program.shader_type).unwrap_or(0xFFFF);
    (number as u32) << 16 | program.major_version << 4 | program.minor_version
}

/// Where an instruction stands, how long it is, and whether its length came from the next dword.
struct Frame {
    offset: u32,
    dwords: usize,
    sized: bool,
}

/// The frames that decode.rs met: it seeks an instruction's token, the dword after it where that holds the length, and then
/// the token again, from which it reads the whole instruction.
fn frames() -> Vec<Frame> {
    nostdio::with_visits(|visits| {
        let mut frames = Vec::new();
        let mut rest = visits;
        while let [token, next, ..] = rest {
            let sized = next.at != token.at;
            let Some(whole) = rest.get(1 + usize::from(sized)) else { break };
            frames.push(Frame { offset: token.at as u32, dwords: whole.dwords, sized });
            rest = &rest[2 + usize::from(sized)..];
        }
        frames
    })
}

/// The operand count of each code, as decode.rs is told it.
pub fn counts() -> Vec<Option<usize>> {
    (0..2048).map(|code| Opcode::from_u32(code).expected_operand_count()).collect()
}

/// What each list of ir.rs and opcodes.rs makes of each number: the number that it gives back.
pub fn lists() -> Vec<(&'static str, Vec<u32>)> {
    vec![
        ("codes", (0..2048).map(|v| Opcode::from_u32(v).to_u32()).collect()),
        ("operand types", (0..256).map(|v| RegisterType::from_u32(v).to_u32()).collect()),
        ("precisions", (0..8).map(|v| MinPrecision::from_u32(v).to_u32()).collect()),
        ("return types", (0..16).map(|v| ReturnType::from_u32(v).to_u32()).collect()),
        ("system values", (0..65_536).map(|v| SystemValue::from_u32(v).to_u32()).collect()),
        ("custom data classes", (0..32).map(|v| class(CustomDataType::from_u32(v))).collect()),
        ("topologies of code 92", (0..64).map(|v| GsOutputTopology::from_raw(v).to_raw()).collect()),
        ("primitives of code 93", (0..64).map(|v| GsPrimitive::from_raw(v).to_raw()).collect()),
    ]
}

/// Writes all rows and words. The place of the first instruction whose records do not hold all that it says, if there is one.
fn write_all(program: &Program, chunk: &[u8], rows: &mut Rows) -> Option<u32> {
    let frames = frames();
    assert_eq!(frames.len(), program.instructions.len(), "a frame for each instruction");
    let model51 = program.major_version == 5 && program.minor_version == 1;
    let mut dwords = Vec::new();
    for (instruction, frame) in program.instructions.iter().zip(&frames) {
        dwords.clear();
        let mut writer = Writer { rows, dwords: &mut dwords, model51 };
        let written = writer.instruction(instruction, frame);
        let own = &chunk[frame.offset as usize..frame.offset as usize + frame.dwords * 4];
        let same = own.len() == dwords.len() * 4 && own.chunks(4).zip(&dwords).all(|(a, b)| *a == b.to_le_bytes());
        if written.is_none() || !same {
            return Some(frame.offset);
        }
    }
    None
}

/// Writes rows, and beside them the dwords that they stand for.
struct Writer<'a> {
    rows: &'a mut Rows,
    dwords: &'a mut Vec<u32>,
    model51: bool,
}

/// The parts of an instruction's row that its kind settles.
#[derive(Default)]
struct Shape {
    kind: u32,
    field: u32,
    /// Dwords that stand before the operands; they are words.
    before: Vec<u32>,
    /// Dwords that stand after them; they are words too.
    after: Vec<u32>,
}

/// The place of a name in a list.
fn named(names: &[&str], name: &str) -> Option<u32> {
    names.iter().position(|n| *n == name).map(|n| n as u32)
}

const DIMENSIONS: [&str; 11] = [
    "",
    "buffer",
    "texture1d",
    "texture2d",
    "texture2dms",
    "texture3d",
    "texturecube",
    "texture1darray",
    "texture2darray",
    "texture2dmsarray",
    "texturecubearray",
];

const INTERPOLATIONS: [&str; 8] = [
    "undefined",
    "constant",
    "linear",
    "linearCentroid",
    "linearNoperspective",
    "linearNoperspectiveCentroid",
    "linearSample",
    "linearNoperspectiveSample",
];

const GLOBAL_FLAGS: [&str; 9] = [
    "refactoringAllowed",
    "enableDoublePrecisionFloatOps",
    "forceEarlyDepthStencil",
    "enableRawAndStructuredBuffers",
    "skipOptimization",
    "enableMinPrecision",
    "enable11_1DoubleExtensions",
    "enable11_1ShaderExtensions",
    "allResourcesBound",
];

const DOMAINS: [&str; 4] = ["undefined", "isoline", "tri", "quad"];

const PARTITIONINGS: [&str; 5] = ["undefined", "integer", "pow2", "fractional_odd", "fractional_even"];

const OUTPUT_PRIMITIVES: [&str; 5] = ["undefined", "point", "line", "triangle_cw", "triangle_ccw"];

/// The dword of four return types, four bits each.
fn return_types(types: &[ReturnType; 4]) -> u32 {
    types.iter().rev().fold(0, |sum, t| sum << 4 | t.to_u32())
}

fn class(subtype: CustomDataType) -> u32 {
    match subtype {
        CustomDataType::Comment => 0,
        CustomDataType::DebugInfo => 1,
        CustomDataType::Opaque => 2,
        CustomDataType::ImmediateConstantBuffer => 3,
        CustomDataType::Other(raw) => raw,
    }
}

/// A declaration without operands.
fn bare(field: u32, before: &[u32]) -> Option<Shape> {
    Some(Shape { kind: 4, field, before: before.to_vec(), after: Vec::new() })
}

/// A declaration of one operand, then dwords. None: the Rust found no operand, or several.
fn declared(operands: &[Operand], field: u32, after: &[u32]) -> Option<Shape> {
    (operands.len() == 1).then(|| Shape { kind: 4, field, before: Vec::new(), after: after.to_vec() })
}

/// The dword of a system value. None: the code has one, and the Rust left it out as there was no dword for it.
fn valued(instruction: &Instruction, value: Option<SystemValue>) -> Option<Vec<u32>> {
    let has_value = matches!(instruction.opcode.to_u32(), 96 | 97 | 99 | 100 | 102 | 103);
    (has_value == value.is_some()).then(|| value.map(|v| v.to_u32()).into_iter().collect())
}

impl Writer<'_> {
    /// Some dwords, and one more in model 5.1.
    fn spaced(&self, dwords: &[u32], space: u32) -> Vec<u32> {
        let mut all = dwords.to_vec();
        if self.model51 {
            all.push(space);
        }
        all
    }

    /// What the kind of an instruction settles. None: no row can say what the record says.
    fn shape(&self, instruction: &Instruction, frame: &Frame) -> Option<Shape> {
        use InstructionKind as K;
        match &instruction.kind {
            K::Generic { trailing_tokens, .. } => Some(Shape {
                kind: if instruction.opcode.expected_operand_count().is_some() { 1 } else { 2 },
                field: instruction.resinfo_return_type.unwrap_or(0) + u32::from(instruction.sync_flags),
                before: Vec::new(),
                after: trailing_tokens.to_vec(),
            }),
            K::HsPhase => Some(Shape { kind: 3, ..Shape::default() }),
            K::CustomData { subtype, values, raw, raw_dword_count } => {
                if *raw_dword_count != frame.dwords {
                    return None;
                }
                let floats = values.iter().flatten().map(|f| f.to_bits());
                let after = floats.chain(raw.iter().copied()).collect();
                Some(Shape { kind: 5, field: class(*subtype), before: Vec::new(), after })
            }
            K::DclInput { interpolation, system_value, operands } => {
                let field = interpolation.map_or(Some(0), |name| named(&INTERPOLATIONS, name))?;
                declared(operands, field, &valued(instruction, *system_value)?)
            }
            K::DclOutput { system_value, operands } => declared(operands, 0, &valued(instruction, *system_value)?),
            K::DclResource { dimension, sample_count, return_type, operands, space } => {
                let field = named(&DIMENSIONS, dimension)? | sample_count << 5;
                declared(operands, field, &self.spaced(&[return_types(return_type)], *space))
            }
            K::DclUavTyped { dimension, flags, return_type, operands, space } => {
                let field = named(&DIMENSIONS, dimension)? | flags << 5;
                declared(operands, field, &self.spaced(&[return_types(return_type)], *space))
            }
            K::DclSampler { mode, operands, space } => {
                declared(operands, named(&["default", "comparison", "mono"], mode)?, &self.spaced(&[], *space))
            }
            K::DclConstantBuffer { access, operands, size, space } => {
                let field = named(&["immediateIndexed", "dynamicIndexed"], access)?;
                let own = [*size, *space];
                // Before model 5.1 the size is a copy of the second index, where that is one dword.
                let copied = match operands.first().and_then(|o| o.indices.get(1)) {
                    Some(OperandIndex::Imm32(value)) => *value,
                    _ => 0,
                };
                if !self.model51 && own != [copied, 0] {
                    return None;
                }
                declared(operands, field, if self.model51 { &own } else { &[] })
            }
            K::DclUavRaw { flags, operands, space } => declared(operands, flags << 5, &self.spaced(&[], *space)),
            K::DclUavStructured { flags, stride, operands, space } => {
                declared(operands, flags << 5, &self.spaced(&[*stride], *space))
            }
            K::DclResourceRaw { operands, space } => declared(operands, 0, &self.spaced(&[], *space)),
            K::DclResourceStructured { stride, operands, space } => declared(operands, 0, &self.spaced(&[*stride], *space)),
            K::DclThreadGroupSharedMemoryRaw { operands, byte_count } => declared(operands, 0, &[*byte_count]),
            K::DclThreadGroupSharedMemoryStructured { operands, stride, count } => declared(operands, 0, &[*stride, *count]),
            K::DclIndexRange { operands, count } => declared(operands, 0, &[*count]),
            K::InterfaceCall { function_index, operands } => {
                let shape = declared(operands, 0, &[])?;
                Some(Shape { before: vec![*function_index], ..shape })
            }
            kind => self.bare_shape(kind),
        }
    }

    /// The declarations that have no operands.
    fn bare_shape(&self, kind: &InstructionKind) -> Option<Shape> {
        use InstructionKind as K;
        match kind {
            K::DclGlobalFlags { flags } => {
                let mut field = 0;
                for name in flags.iter() {
                    field |= 1 << named(&GLOBAL_FLAGS, name)?;
                }
                bare(field, &[])
            }
            K::DclGsInputPrimitive { primitive } => bare(primitive.to_raw(), &[]),
            K::DclGsOutputTopology { topology } => bare(topology.to_raw(), &[]),
            K::DclInputControlPointCount { count } | K::DclOutputControlPointCount { count } => bare(*count, &[]),
            K::DclTessDomain { domain } => bare(named(&DOMAINS, domain)?, &[]),
            K::DclTessPartitioning { partitioning } => bare(named(&PARTITIONINGS, partitioning)?, &[]),
            K::DclTessOutputPrimitive { primitive } => bare(named(&OUTPUT_PRIMITIVES, primitive)?, &[]),
            K::DclHsMaxTessFactor { value } => bare(0, &[value.to_bits()]),
            K::DclTemps { count }
            | K::DclMaxOutputVertexCount { count }
            | K::DclGsInstanceCount { count }
            | K::DclHsForkPhaseInstanceCount { count }
            | K::DclHsJoinPhaseInstanceCount { count } => bare(0, &[*count]),
            K::DclFunctionBody { index } => bare(0, &[*index]),
            K::DclIndexableTemp { reg, size, components } => bare(0, &[*reg, *size, *components]),
            K::DclThreadGroup { x, y, z } => bare(0, &[*x, *y, *z]),
            K::DclFunctionTable { table_index, body_indices } => {
                let mut before = vec![*table_index, body_indices.len() as u32];
                before.extend_from_slice(body_indices);
                bare(0, &before)
            }
            K::DclInterface { dynamically_indexed, interface_index, expected_table_size, array_length, table_indices } => {
                let lengths = table_indices.len() as u32 | u32::from(*array_length) << 16;
                let mut before = vec![*interface_index, *expected_table_size, lengths];
                before.extend_from_slice(table_indices);
                bare(u32::from(*dynamically_indexed), &before)
            }
            _ => None,
        }
    }

    /// Words, which stand in the chunk as they are.
    fn words(&mut self, words: &[u32]) {
        self.rows.words.extend_from_slice(words);
        self.dwords.extend_from_slice(words);
    }

    /// Writes an instruction's row, its operands' rows and its words.
    fn instruction(&mut self, instruction: &Instruction, frame: &Frame) -> Option<()> {
        let shape = self.shape(instruction, frame)?;
        let code = instruction.opcode.to_u32();
        let long = frame.sized && shape.kind == 4;
        let extended = shape.kind < 3;
        let extensions = if extended { extensions_of(instruction) } else { Vec::new() };
        let row = self.rows.instructions.len();
        let first_row = self.rows.operands.len() as u32 / 16;
        let first_word = self.rows.words.len() as u32;
        let operands = instruction_operands(&instruction.kind);
        let [saturate, test] = [instruction.saturate, instruction.test_nonzero].map(u32::from);
        let precise = u32::from(instruction.precise_mask);
        let offsets = instruction.tex_offsets.filter(|_| extended);
        let second = instruction.resource_dim.filter(|_| extended);
        let third = instruction.resource_return_type.filter(|_| extended);
        let bits =
            u32::from(offsets.is_some()) + 2 * u32::from(second.is_some()) + 4 * u32::from(third.is_some()) + 8 * u32::from(long);
        self.rows.instructions.extend_from_slice(&[
            frame.offset,
            frame.dwords as u32,
            code,
            shape.kind,
            saturate,
            test,
            precise,
            shape.field,
            bits,
            offsets.map_or(0, nibbles),
            second.unwrap_or(0),
            third.unwrap_or(0),
            first_row,
            operands.len() as u32,
            first_word,
            0,
        ]);
        let length = if frame.sized { 0 } else { frame.dwords as u32 };
        let follows = u32::from(long || !extensions.is_empty());
        let token = code | shape.field << 11 | saturate << 13 | test << 18 | precise << 19;
        self.dwords.push(token | length << 24 | follows << 31);
        if frame.sized {
            self.dwords.push(frame.dwords as u32);
        }
        self.dwords.extend_from_slice(&extensions);
        self.words(&shape.before);
        for operand in operands {
            self.operand(operand);
        }
        self.words(&shape.after);
        self.rows.instructions[row + 15] = self.rows.words.len() as u32 - first_word;
        Some(())
    }

    /// Writes an operand's row, and those of the operands in it after it.
    fn operand(&mut self, operand: &Operand) {
        let row = self.rows.operands.len();
        let start = self.dwords.len();
        let modifiers = u32::from(operand.negate)
            + 2 * u32::from(operand.abs)
            + 4 * u32::from(operand.non_uniform)
            + 16 * operand.min_precision.to_u32();
        let (form, low, selection) = selected(&operand.components);
        let reprs = operand.indices.iter().rev().fold(0, |sum, index| sum << 3 | representation(index));
        let dimension = operand.indices.len() as u32;
        let kind = operand.reg_type.to_u32();
        let immediates = &operand.immediate_values;
        self.rows.operands.extend_from_slice(&[0; 16]);
        let token = low | selection << 4 | kind << 12 | dimension << 20 | reprs << 22;
        self.dwords.push(token | u32::from(modifiers != 0) << 31);
        if modifiers != 0 {
            self.dwords.push(1 | (modifiers & 3) << 6 | (modifiers >> 4) << 14 | (modifiers >> 2 & 1) << 17);
        }
        let place = if immediates.is_empty() { 0 } else { self.rows.words.len() as u32 };
        self.words(immediates);
        let mut places = [0; 3];
        let mut children = [0; 3];
        for (i, index) in operand.indices.iter().enumerate() {
            (places[i], children[i]) = self.index(index);
        }
        let rows = (self.rows.operands.len() - row) as u32 / 16;
        let dwords = (self.dwords.len() - start) as u32;
        let count = immediates.len() as u32;
        let [w0, w1, w2] = places;
        let [c0, c1, c2] = children;
        self.rows.operands[row..row + 16].copy_from_slice(&[
            kind, form, selection, modifiers, place, count, dimension, reprs, w0, w1, w2, c0, c1, c2, rows, dwords,
        ]);
    }

    /// Writes an index: the place of its own dwords and its child's row, 0 for what it does not have.
    fn index(&mut self, index: &OperandIndex) -> (u32, u32) {
        let place = self.rows.words.len() as u32;
        let (own, child): (&[u32], _) = match index {
            OperandIndex::Imm32(value) => (&[*value], None),
            OperandIndex::Imm64(value) => (&[*value as u32, (*value >> 32) as u32], None),
            OperandIndex::Relative(operand) => (&[], Some(operand)),
            OperandIndex::RelativePlusImm(value, operand) => (&[*value], Some(operand)),
            OperandIndex::RelativePlusImm64(value, operand) => (&[*value as u32, (*value >> 32) as u32], Some(operand)),
        };
        self.words(own);
        let row = self.rows.operands.len() as u32 / 16;
        if let Some(operand) = child {
            self.operand(operand);
        }
        (if own.is_empty() { 0 } else { place }, if child.is_some() { row } else { 0 })
    }
}

fn instruction_operands(kind: &InstructionKind) -> &[Operand] {
    use InstructionKind as K;
    match kind {
        K::Generic { operands, .. }
        | K::DclInput { operands, .. }
        | K::DclOutput { operands, .. }
        | K::DclResource { operands, .. }
        | K::DclSampler { operands, .. }
        | K::DclConstantBuffer { operands, .. }
        | K::DclUavTyped { operands, .. }
        | K::DclUavRaw { operands, .. }
        | K::DclUavStructured { operands, .. }
        | K::DclResourceRaw { operands, .. }
        | K::DclResourceStructured { operands, .. }
        | K::DclThreadGroupSharedMemoryRaw { operands, .. }
        | K::DclThreadGroupSharedMemoryStructured { operands, .. }
        | K::InterfaceCall { operands, .. }
        | K::DclIndexRange { operands, .. } => operands,
        _ => &[],
    }
}

/// u + 16v + 256w.
fn nibbles(offsets: [i8; 3]) -> u32 {
    offsets.iter().rev().fold(0, |sum, o| sum << 4 | (*o as u32 & 15))
}

/// The extension dwords of an instruction, each with bit 31 where another follows.
fn extensions_of(instruction: &Instruction) -> Vec<u32> {
    let first = instruction.tex_offsets.map(|o| 1 | nibbles(o) << 9);
    let mut all: Vec<u32> = [first, instruction.resource_dim, instruction.resource_return_type].into_iter().flatten().collect();
    if let Some((_, before)) = all.split_last_mut() {
        before.iter_mut().for_each(|e| *e |= 1 << 31);
    }
    all
}

/// Form, the token's lowest four bits, and selection.
fn selected(components: &ComponentSelect) -> (u32, u32, u32) {
    match components {
        ComponentSelect::ZeroComponent => (0, 0, 0),
        ComponentSelect::OneComponent => (1, 1, 0),
        ComponentSelect::Mask(mask) => (2, 2, u32::from(*mask)),
        ComponentSelect::Swizzle(s) => (3, 6, s.iter().rev().fold(0, |sum, c| sum << 2 | u32::from(*c))),
        ComponentSelect::Scalar(one) => (4, 10, u32::from(*one)),
    }
}

fn representation(index: &OperandIndex) -> u32 {
    match index {
        OperandIndex::Imm32(_) => 0,
        OperandIndex::Imm64(_) => 1,
        OperandIndex::Relative(_) => 2,
        OperandIndex::RelativePlusImm(..) => 3,
        OperandIndex::RelativePlusImm64(..) => 4,
    }
}
