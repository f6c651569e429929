//! Our side: the static library of crate `shex`, by its C functions.

use told::{Reading, Writing};

unsafe extern "C" {
    fn shex_decode(
        chunk: *const u8,
        size: usize,
        four: u32,
        edition: u32,
        instructions: *mut u32,
        instruction_words: usize,
        operands: *mut u32,
        operand_words: usize,
        words: *mut u32,
        word_count: usize,
    ) -> Reading;

    fn shex_encode(
        edition: u32,
        version: u32,
        instructions: *const u32,
        instruction_words: usize,
        instruction_count: u32,
        operands: *const u32,
        operand_words: usize,
        operand_count: u32,
        words: *const u32,
        words_lent: usize,
        word_count: u32,
        output: *mut u8,
        output_size: usize,
    ) -> Writing;
}

/// Reads a chunk into three lent pools.
pub fn decode(
    chunk: &[u8],
    four: u32,
    edition: u32,
    instructions: &mut [u32],
    operands: &mut [u32],
    words: &mut [u32],
) -> Reading {
    // SAFETY: each pointer comes with the length of the slice that it is from, and the function uses them during the call only.
    unsafe {
        shex_decode(
            chunk.as_ptr(),
            chunk.len(),
            four,
            edition,
            instructions.as_mut_ptr(),
            instructions.len(),
            operands.as_mut_ptr(),
            operands.len(),
            words.as_mut_ptr(),
            words.len(),
        )
    }
}

/// Encodes so many rows and words of three pools into the output.
pub fn encode(
    edition: u32,
    version: u32,
    instructions: (&[u32], u32),
    operands: (&[u32], u32),
    words: (&[u32], u32),
    output: &mut [u8],
) -> Writing {
    // SAFETY: as above.
    unsafe {
        shex_encode(
            edition,
            version,
            instructions.0.as_ptr(),
            instructions.0.len(),
            instructions.1,
            operands.0.as_ptr(),
            operands.0.len(),
            operands.1,
            words.0.as_ptr(),
            words.0.len(),
            words.1,
            output.as_mut_ptr(),
            output.len(),
        )
    }
}
