/* The reader, the encoder and the calls on rows of `shex`, for C. The archive is target/staticlib/libshex.a (bindings/run); it links
   into x86-64 programs. Each function is proved to meet its contract in crates/shex_c/src/lib.rt; numbers, places, rows and words are document
   01's. Nothing is allocated and nothing is kept between calls, so calls on different buffers may run at the same time.

   A buffer is a pointer and its length in entries. The pointer is never null and is aligned for its entries, also where the length is 0.
   Buffers that are written overlap no other buffer. */
#ifndef SHEX_H
#define SHEX_H

#include <stddef.h>
#include <stdint.h>

#ifdef __cplusplus
extern "C" {
#endif

/* The two FourCCs that are read: the letters, first letter lowest. */
#define SHEX_FOURCC_SHEX UINT32_C(0x58454853)
#define SHEX_FOURCC_SHDR UINT32_C(0x52444853)

/* The most bytes of a chunk. */
#define SHEX_LIMIT 1048576

/* Words in a row of the instruction pool and of the operand pool. */
#define SHEX_ROW 16

/* The refusals, by document 01's numbers. 11 to 14 have a place, the byte offset of an instruction; 15 and 16 are the encoder's. */
enum {
    SHEX_ACCEPTED = 0,
    SHEX_EDITION = 1,
    SHEX_FOURCC = 2,
    SHEX_SHORT = 3,
    SHEX_NOT_DWORDS = 4,
    SHEX_LONG = 5,
    SHEX_RESERVED = 6,
    SHEX_MODEL = 7,
    SHEX_PROGRAM = 8,
    SHEX_SIZE = 9,
    SHEX_ROOM = 10,
    SHEX_ZERO_LENGTH = 11,
    SHEX_PAST_END = 12,
    SHEX_OPERAND_COUNT = 13,
    SHEX_LAYOUT = 14,
    SHEX_NO_READING = 15,
    SHEX_OUTPUT_SHORT = 16
};

/* Accepted: number and place 0, the version token, and how many rows and words were written. Refused: the refusal, all else 0. */
struct shex_reading {
    uint32_t number, place, version, instructions, operands, words;
};

/* Reads a chunk of M + 2 dwords at an edition, 0 to 3. The row pools need 16 * M words and the word pool M. Refusals 1 to 10 leave the pools
   as they are, 11 to 14 fill them with 0; accepted, entries past the used ones are left as they are. */
struct shex_reading shex_decode(const uint8_t *chunk, size_t chunk_size, uint32_t four, uint32_t edition,
                                uint32_t *instructions, size_t instructions_length,
                                uint32_t *operands, size_t operands_length,
                                uint32_t *words, size_t words_length);

/* Written: number 0 and the chunk's size in bytes. Refused: 1, 15 or 16, and size 0. */
struct shex_writing {
    uint32_t number, size;
};

/* Writes the chunk that is read to this version token and these rows and words at the edition. Only the chunk's own bytes of the output
   change; a refusal changes nothing. */
struct shex_writing shex_encode(uint32_t edition, uint32_t version,
                                const uint32_t *instructions, size_t instructions_length, uint32_t instruction_count,
                                const uint32_t *operands, size_t operands_length, uint32_t operand_count,
                                const uint32_t *words, size_t words_length, uint32_t word_count,
                                uint8_t *output, size_t output_size);

/* Where a row's words are in the word pool. */
struct shex_span {
    size_t start, length;
};

/* The words of an instruction row. The span is empty and starts at 0 for a row number at or past the count, a row outside its pool or a
   span outside the word pool. */
struct shex_span shex_words(const uint32_t *instructions, size_t instructions_length,
                            const uint32_t *words, size_t words_length, uint32_t row, uint32_t count);

/* What a row shows: nothing (the dword is 0), a count, or a 32-bit float by its bits, those of a NaN included. */
enum { SHEX_NOTHING = 0, SHEX_COUNT = 1, SHEX_FACTOR = 2 };
struct shex_showing {
    uint32_t kind, dword;
};
struct shex_showing shex_shows(const uint32_t *instructions, size_t instructions_length,
                               const uint32_t *words, size_t words_length, uint32_t row, uint32_t count);

/* The texture offsets of a row, each from -8 to 7; 0 for a row without them or no row. */
struct shex_sides {
    int8_t u, v, w;
};
struct shex_sides shex_offsets(const uint32_t *instructions, size_t instructions_length, uint32_t row, uint32_t count);

#ifdef __cplusplus
}
#endif

#endif
