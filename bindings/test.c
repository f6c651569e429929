/* Calls every function of shex.h once or more, and compares with what document 01 says; 0 if all is as it says. The whole of the tests is in
   rust/tests/calls.rs. */
#include <stdio.h>
#include <string.h>

#include "shex.h"

static int wrong;

static void expect(int holds, int line) {
    if (!holds) {
        fprintf(stderr, "bindings/test.c:%d: not as expected\n", line);
        wrong = 1;
    }
}

#define EXPECT(holds) expect((holds), __LINE__)

/* P6, mov r0.xyzw, r1.xyzw. x86-64 is little-endian, so that a dword is its bytes. */
static const uint32_t p6[7] = {0x50, 7, 0x05000036, 0x001000F2, 0, 0x00100E46, 1};
static const uint32_t p6_instruction[16] = {8, 5, 54, 1, 0, 0, 0, 0, 0, 0, 0, 0, 0, 2, 0, 2};
static const uint32_t p6_operands[32] = {0, 2, 15, 0, 0, 0, 1, 0, 0, 0, 0, 0, 0, 0, 1, 2, 0, 3, 228, 0, 0, 0, 1, 0, 1, 0, 0, 0, 0, 0, 1, 2};

static uint32_t instructions[81], operands[81], words[6], zeros[81];

static int is_old(const uint32_t *pool, size_t from, size_t to) {
    for (size_t k = from; k < to; k++)
        if (pool[k] != 0xDEADBEEF) return 0;
    return 1;
}

static void fill(void) {
    for (size_t k = 0; k < 81; k++) instructions[k] = operands[k] = 0xDEADBEEF;
    for (size_t k = 0; k < 6; k++) words[k] = 0xDEADBEEF;
}

static struct shex_reading decode(const uint32_t *dwords, size_t size, size_t rows, size_t room) {
    fill();
    return shex_decode((const uint8_t *)dwords, size, SHEX_FOURCC_SHEX, 3, instructions, rows, operands, rows, words, room);
}

static void refusals(void) {
    static const uint32_t p7[5] = {0x50, 5, 0x03000036, 0x001000F2, 0};
    struct shex_reading r = decode(p6, 28, 79, 5);
    EXPECT(r.number == SHEX_ROOM && r.place == 0 && r.instructions == 0 && r.operands == 0 && r.words == 0 && r.version == 0);
    EXPECT(is_old(instructions, 0, 81) && is_old(operands, 0, 81) && is_old(words, 0, 6));
    r = decode(p6, 28, 80, 4);
    EXPECT(r.number == SHEX_ROOM);
    r = decode(p7, 20, 81, 6);
    EXPECT(r.number == SHEX_OPERAND_COUNT && r.place == 8 && r.version == 0);
    EXPECT(!memcmp(instructions, zeros, sizeof zeros) && !memcmp(operands, zeros, sizeof zeros) && !memcmp(words, zeros, sizeof words));
    r = decode(p6, 0, 81, 6);
    EXPECT(r.number == SHEX_SHORT);
}

static void read_and_written(size_t rows, size_t room) {
    uint8_t output[30];
    struct shex_reading r = decode(p6, 28, rows, room);
    EXPECT(r.number == 0 && r.place == 0 && r.version == 0x50 && r.instructions == 1 && r.operands == 2 && r.words == 2);
    EXPECT(!memcmp(instructions, p6_instruction, 64) && is_old(instructions, 16, 81));
    EXPECT(!memcmp(operands, p6_operands, 128) && is_old(operands, 32, 81));
    EXPECT(words[0] == 0 && words[1] == 1 && is_old(words, 2, 6));
    for (size_t size = 27; size < 31; size++) {
        memset(output, 0xA5, sizeof output);
        struct shex_writing w = shex_encode(3, 0x50, instructions, rows, 1, operands, rows, 2, words, room, 2, output, size);
        if (size < 28) {
            EXPECT(w.number == SHEX_OUTPUT_SHORT && w.size == 0 && output[0] == 0xA5 && output[26] == 0xA5);
        } else {
            EXPECT(w.number == 0 && w.size == 28 && !memcmp(output, p6, 28) && output[28] == 0xA5 && output[29] == 0xA5);
        }
    }
    struct shex_span s = shex_words(instructions, rows, words, room, 0, 1);
    EXPECT(s.start == 0 && s.length == 2);
    s = shex_words(instructions, rows, words, room, 1, 1);
    EXPECT(s.start == 0 && s.length == 0);
    EXPECT(shex_shows(instructions, rows, words, room, 0, 1).kind == SHEX_NOTHING);
}

static void of_rows(void) {
    uint32_t row[16] = {8, 2, 152, 4, 0, 0, 0, 0, 1, 0x1F8, 0, 0, 0, 0, 1, 1}, pool[2] = {5, 0x7FC00001};
    struct shex_showing s = shex_shows(row, 16, pool, 2, 0, 1);
    EXPECT(s.kind == SHEX_FACTOR && s.dword == 0x7FC00001);
    row[2] = 104;
    s = shex_shows(row, 16, pool, 2, 0, 1);
    EXPECT(s.kind == SHEX_COUNT && s.dword == 0x7FC00001);
    s = shex_shows(row, 15, pool, 2, 0, 1);
    EXPECT(s.kind == SHEX_NOTHING && s.dword == 0);
    struct shex_span w = shex_words(row, 16, pool, 2, 0, 1);
    EXPECT(w.start == 1 && w.length == 1);
    w = shex_words(row, 16, pool, 1, 0, 1);
    EXPECT(w.start == 0 && w.length == 0);
    struct shex_sides o = shex_offsets(row, 16, 0, 1);
    EXPECT(o.u == -8 && o.v == -1 && o.w == 1);
    o = shex_offsets(row, 16, 1, 1);
    EXPECT(o.u == 0 && o.v == 0 && o.w == 0);
}

int main(void) {
    refusals();
    read_and_written(80, 5);
    read_and_written(81, 6);
    of_rows();
    puts(wrong ? "failed" : "as expected");
    return wrong;
}
