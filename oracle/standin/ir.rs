//! A stand-in for ir.rs: the records that decode.rs fills, with the raw number wherever the published file has a list of names.

use smallvec::SmallVec;

use super::opcodes::Opcode;

pub type Operands = SmallVec<[Operand; 4]>;
pub type Indices = SmallVec<[OperandIndex; 3]>;
pub type Immediates = SmallVec<[u32; 4]>;
pub type SmallU32Vec = SmallVec<[u32; 8]>;
pub type FlagNames = SmallVec<[&'static str; 8]>;

pub struct Program {
    pub shader_type: &'static str,
    pub major_version: u32,
    pub minor_version: u32,
    pub instructions: Vec<Instruction>,
    pub warnings: Vec<String>,
    pub fourcc: [u8; 4],
}

pub struct Instruction {
    pub opcode: Opcode,
    pub saturate: bool,
    pub test_nonzero: bool,
    pub precise_mask: u8,
    pub resinfo_return_type: Option<u32>,
    pub sync_flags: u8,
    pub tex_offsets: Option<[i8; 3]>,
    pub resource_dim: Option<u32>,
    pub resource_return_type: Option<u32>,
    pub kind: InstructionKind,
}

pub enum InstructionKind {
    Generic {
        operands: Operands,
        trailing_tokens: SmallU32Vec,
    },
    DclGlobalFlags {
        flags: FlagNames,
    },
    DclInput {
        interpolation: Option<&'static str>,
        system_value: Option<SystemValue>,
        operands: Operands,
    },
    DclOutput {
        system_value: Option<SystemValue>,
        operands: Operands,
    },
    DclResource {
        dimension: &'static str,
        sample_count: u32,
        return_type: [ReturnType; 4],
        operands: Operands,
        space: u32,
    },
    DclSampler {
        mode: &'static str,
        operands: Operands,
        space: u32,
    },
    DclConstantBuffer {
        access: &'static str,
        operands: Operands,
        size: u32,
        space: u32,
    },
    DclTemps {
        count: u32,
    },
    DclIndexableTemp {
        reg: u32,
        size: u32,
        components: u32,
    },
    DclGsInputPrimitive {
        primitive: GsPrimitive,
    },
    DclGsOutputTopology {
        topology: GsOutputTopology,
    },
    DclMaxOutputVertexCount {
        count: u32,
    },
    DclGsInstanceCount {
        count: u32,
    },
    DclOutputControlPointCount {
        count: u32,
    },
    DclInputControlPointCount {
        count: u32,
    },
    DclTessDomain {
        domain: &'static str,
    },
    DclTessPartitioning {
        partitioning: &'static str,
    },
    DclTessOutputPrimitive {
        primitive: &'static str,
    },
    DclHsMaxTessFactor {
        value: f32,
    },
    DclHsForkPhaseInstanceCount {
        count: u32,
    },
    DclHsJoinPhaseInstanceCount {
        count: u32,
    },
    DclThreadGroup {
        x: u32,
        y: u32,
        z: u32,
    },
    DclUavTyped {
        dimension: &'static str,
        flags: u32,
        return_type: [ReturnType; 4],
        operands: Operands,
        space: u32,
    },
    DclUavRaw {
        flags: u32,
        operands: Operands,
        space: u32,
    },
    DclUavStructured {
        flags: u32,
        stride: u32,
        operands: Operands,
        space: u32,
    },
    DclResourceRaw {
        operands: Operands,
        space: u32,
    },
    DclResourceStructured {
        stride: u32,
        operands: Operands,
        space: u32,
    },
    DclThreadGroupSharedMemoryRaw {
        operands: Operands,
        byte_count: u32,
    },
    DclThreadGroupSharedMemoryStructured {
        operands: Operands,
        stride: u32,
        count: u32,
    },
    DclFunctionBody {
        index: u32,
    },
    DclFunctionTable {
        table_index: u32,
        body_indices: SmallU32Vec,
    },
    DclInterface {
        dynamically_indexed: bool,
        interface_index: u32,
        expected_table_size: u32,
        array_length: u16,
        table_indices: SmallU32Vec,
    },
    InterfaceCall {
        function_index: u32,
        operands: Operands,
    },
    DclIndexRange {
        operands: Operands,
        count: u32,
    },
    HsPhase,
    CustomData {
        subtype: CustomDataType,
        values: Vec<[f32; 4]>,
        raw: Vec<u32>,
        raw_dword_count: usize,
    },
}

pub struct Operand {
    pub reg_type: RegisterType,
    pub components: ComponentSelect,
    pub negate: bool,
    pub abs: bool,
    pub min_precision: MinPrecision,
    pub non_uniform: bool,
    pub indices: Indices,
    pub immediate_values: Immediates,
}

pub enum ComponentSelect {
    ZeroComponent,
    OneComponent,
    Mask(u8),
    Swizzle([u8; 4]),
    Scalar(u8),
}

impl ComponentSelect {
    /// 0 none, 1 one, 2 four.
    pub fn num_components(&self) -> u32 {
        match self {
            Self::ZeroComponent => 0,
            Self::OneComponent => 1,
            Self::Mask(_) | Self::Swizzle(_) | Self::Scalar(_) => 2,
        }
    }
}

pub enum OperandIndex {
    Imm32(u32),
    Imm64(u64),
    Relative(Box<Operand>),
    RelativePlusImm(u32, Box<Operand>),
    RelativePlusImm64(u64, Box<Operand>),
}

/// The two types that decode.rs asks for have names.
#[derive(Clone, Copy)]
pub enum RegisterType {
    Immediate32,
    Immediate64,
    Unknown(u32),
}

impl RegisterType {
    pub fn from_u32(raw: u32) -> Self {
        match raw {
            4 => Self::Immediate32,
            5 => Self::Immediate64,
            raw => Self::Unknown(raw),
        }
    }

    pub fn to_u32(&self) -> u32 {
        match self {
            Self::Immediate32 => 4,
            Self::Immediate64 => 5,
            Self::Unknown(raw) => *raw,
        }
    }
}

#[derive(Clone, Copy)]
pub enum MinPrecision {
    Default,
    Raw(u32),
}

impl MinPrecision {
    pub fn from_u32(raw: u32) -> Self {
        Self::Raw(raw)
    }

    pub fn to_u32(self) -> u32 {
        match self {
            Self::Default => 0,
            Self::Raw(raw) => raw,
        }
    }
}

#[derive(Clone, Copy)]
pub enum ReturnType {
    Unknown(u32),
}

impl ReturnType {
    pub fn from_u32(raw: u32) -> Self {
        Self::Unknown(raw)
    }

    pub fn to_u32(&self) -> u32 {
        let Self::Unknown(raw) = self;
        *raw
    }
}

#[derive(Clone, Copy)]
pub struct SystemValue(u32);

impl SystemValue {
    pub fn from_u32(raw: u32) -> Self {
        Self(raw)
    }

    pub fn to_u32(self) -> u32 {
        self.0
    }
}

#[derive(Clone, Copy)]
pub struct GsPrimitive(u32);

impl GsPrimitive {
    pub fn from_raw(raw: u32) -> Self {
        Self(raw)
    }

    pub fn to_raw(self) -> u32 {
        self.0
    }
}

#[derive(Clone, Copy)]
pub struct GsOutputTopology(u32);

impl GsOutputTopology {
    pub fn from_raw(raw: u32) -> Self {
        Self(raw)
    }

    pub fn to_raw(self) -> u32 {
        self.0
    }
}

#[derive(Clone, Copy, PartialEq)]
pub enum CustomDataType {
    Comment,
    DebugInfo,
    Opaque,
    ImmediateConstantBuffer,
    Other(u32),
}

impl CustomDataType {
    pub fn from_u32(raw: u32) -> Self {
        match raw {
            0 => Self::Comment,
            1 => Self::DebugInfo,
            2 => Self::Opaque,
            3 => Self::ImmediateConstantBuffer,
            raw => Self::Other(raw),
        }
    }
}
