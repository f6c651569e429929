//! A stand-in for opcodes.rs: a code is its number, and its operand count is that of document 01's table. The names are those
//! that decode.rs uses; their numbers are those of the public header d3d11TokenizedProgramFormat.hpp.

#[derive(Debug, Clone, Copy, PartialEq, Eq)]
pub struct Opcode(u32);

macro_rules! codes {
    ($($name:ident = $code:literal,)*) => {
        #[allow(non_upper_case_globals)]
        impl Opcode {
            $(pub const $name: Opcode = Opcode($code);)*
        }
    };
}

codes! {
    Breakc = 3,
    Callc = 5,
    Continuec = 8,
    Discard = 13,
    If = 31,
    CustomData = 53,
    Resinfo = 61,
    Retc = 63,
    DclResource = 88,
    DclConstantBuffer = 89,
    DclSampler = 90,
    DclIndexRange = 91,
    DclGsOutputPrimitiveTopology = 92,
    DclGsInputPrimitive = 93,
    DclMaxOutputVertexCount = 94,
    DclInput = 95,
    DclInputSgv = 96,
    DclInputSiv = 97,
    DclInputPs = 98,
    DclInputPsSgv = 99,
    DclInputPsSiv = 100,
    DclOutput = 101,
    DclOutputSgv = 102,
    DclOutputSiv = 103,
    DclTemps = 104,
    DclIndexableTemp = 105,
    DclGlobalFlags = 106,
    SampleInfo = 111,
    HsDecls = 113,
    HsControlPointPhase = 114,
    HsForkPhase = 115,
    HsJoinPhase = 116,
    InterfaceCall = 120,
    DclStream = 143,
    DclFunctionBody = 144,
    DclFunctionTable = 145,
    DclInterface = 146,
    DclInputControlPointCount = 147,
    DclOutputControlPointCount = 148,
    DclTessDomain = 149,
    DclTessPartitioning = 150,
    DclTessOutputPrimitive = 151,
    DclHsMaxTessFactor = 152,
    DclHsForkPhaseInstanceCount = 153,
    DclHsJoinPhaseInstanceCount = 154,
    DclThreadGroup = 155,
    DclUnorderedAccessViewTyped = 156,
    DclUnorderedAccessViewRaw = 157,
    DclUnorderedAccessViewStructured = 158,
    DclThreadGroupSharedMemoryRaw = 159,
    DclThreadGroupSharedMemoryStructured = 160,
    DclResourceRaw = 161,
    DclResourceStructured = 162,
    Sync = 190,
    DclGsInstanceCount = 206,
}

/// Document 01, "Operand counts", as it is printed there: the codes of 0 operands, of 1, and so on.
pub const COUNTS: [&str; 7] = [
    "2 7 9 10 18-23 48 58 62 190",
    "3 4 6 8 13 31 44 63 76 117-119 143",
    "5 11 12 25-28 40 43 47 54 59 64-68 75 86 111 121-125 129-131 134-137 141 178 179 199 201 202 205 212 214-217",
    "0 1 14-17 24 29 30 32-34 36 37 39 41 42 45 49 51 52 56 57 60 61 77 79 80 83-85 87 110 163-166 169-171 173-177 191-198 203 204 210",
    "35 38 46 50 55 69 78 81 82 108 109 132 133 138 139 167 168 172 180-184 186-189 200 211 213",
    "70-72 74 126 127 140 142 185",
    "73 128",
];

const CODES: usize = 2048;

/// The codes of a printed line.
fn codes_of(line: &str) -> impl Iterator<Item = usize> + '_ {
    line.split(' ').flat_map(|word| {
        let (first, last) = word.split_once('-').unwrap_or((word, word));
        first.parse::<usize>().unwrap()..=last.parse::<usize>().unwrap()
    })
}

fn count_table() -> [Option<usize>; CODES] {
    let mut table = [None; CODES];
    for (count, line) in COUNTS.iter().enumerate() {
        for code in codes_of(line) {
            assert!(table[code].is_none(), "code {code} stands twice in the table");
            table[code] = Some(count);
        }
    }
    table
}

impl Opcode {
    pub fn from_u32(code: u32) -> Self {
        Opcode(code)
    }

    pub fn to_u32(&self) -> u32 {
        self.0
    }

    pub fn name(&self) -> &'static str {
        "code"
    }

    pub fn expected_operand_count(&self) -> Option<usize> {
        static TABLE: std::sync::LazyLock<[Option<usize>; CODES]> = std::sync::LazyLock::new(count_table);
        TABLE[self.0 as usize]
    }
}
