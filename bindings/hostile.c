/* Encodes rows that are made to cost much. hostile KIND ROWS TURNS expects refusal 15 and an untouched output; hostile KIND names the kind;
   hostile tries each kind with 1,000,000 rows. 0 if all is as expected. bench/run counts the instructions. */
#include <stdio.h>
#include <stdlib.h>
#include <string.h>

#include "shex.h"

/* The first five are one operand of so many rows and up to 64 levels, in which all rows, or nearly all, are walked before the fault. */
enum { TOO_LONG, LAST_ROW, POINTS_BACK, OVERLAPS, REPEATS, CLAIMS, INSTRUCTIONS, COUNTS, WORDS_WRAP, IMMEDIATES_WRAP, KINDS };

static const char *const names[KINDS] = {
    "operand rows that are right, in an instruction that is too long",
    "operand rows that are right but the last",
    "operand rows, the first of which has itself as its child",
    "operand rows with a child that begins inside another",
    "operand rows with a child that is another once more",
    "instruction and operand rows that each claim an operand of 64 levels",
    "instruction rows that are right but the last",
    "counts of 2^32 - 1",
    "a span of words that wraps",
    "a span of immediates that wraps",
};

static uint32_t *instructions, *operands, fork_row;
static uint8_t output[SHEX_LIMIT];

/* The most rows of an operand of so many levels. */
static uint64_t most(unsigned levels) {
    return levels > 20 ? UINT32_MAX : levels == 0 ? 0 : 3 * most(levels - 1) + 1;
}

/* An operand of so many rows, as deep as the levels let it be: a row has two or three children only where one cannot hold the rest. */
static void tree(uint32_t row, uint32_t rows, unsigned levels) {
    uint32_t *q = operands + (size_t)16 * row, at = row + 1, rest = rows - 1;
    uint32_t children = rest == 0 ? 0 : rest <= most(levels - 1) ? 1 : rest < 3 ? rest : 3;
    if (children > 1 && fork_row == 0) fork_row = row;
    q[6] = children;
    q[14] = q[15] = rows;
    for (uint32_t k = 0; k < children; k++) {
        uint32_t part = rest / (children - k);
        q[7] |= UINT32_C(2) << 3 * k;
        q[11 + k] = at;
        tree(at, part, levels - 1);
        at += part;
        rest -= part;
    }
}

/* The row of code 13, which has one operand, or of another that has none. */
static void instruction(uint32_t row, uint32_t place, uint32_t dwords, uint32_t code, uint32_t operand) {
    uint32_t *q = instructions + (size_t)16 * row;
    q[0] = place;
    q[1] = dwords;
    q[2] = code;
    q[3] = 1;
    q[12] = operand;
    q[13] = code == 13;
}

/* Encodes rows of a kind so many times: the answer's number, or 99 where a refusal changes the output. */
static uint32_t encode(int kind, uint32_t rows, int turns) {
    size_t lent = (size_t)16 * rows, old = 0;
    uint32_t words[2] = {0, 0}, i = 1, o = rows, w = 0;
    struct shex_writing r = {0, 0};
    instructions = calloc(lent, 4);
    operands = calloc(lent, 4);
    if (!instructions || !operands) return 99;
    fork_row = 0;
    memset(output, 0xA5, sizeof output);
    instruction(0, 8, rows + 1, 13, 0);
    if (kind <= REPEATS) tree(0, rows, 64);
    uint32_t *fork = operands + (size_t)16 * fork_row;
    switch (kind) {
    case LAST_ROW: operands[lent - 1] = 2; break;
    case POINTS_BACK: operands[11] = 0; break;
    case OVERLAPS: fork[12] = fork[11] + 1; break;
    case REPEATS: fork[12] = fork[11]; break;
    case CLAIMS:
        for (i = 0; i < rows; i++) {
            uint32_t *q = operands + (size_t)16 * i;
            instruction(i, 8 + 264 * i, 66, 13, i);
            q[6] = 1;
            q[7] = 2;
            q[11] = i + 1;
            q[14] = q[15] = 64;
        }
        break;
    case INSTRUCTIONS:
        for (i = 0; i < rows; i++) instruction(i, 8 + 4 * i, 1, 62, 0);
        instructions[lent - 16] = 0;
        o = 0;
        break;
    case COUNTS: i = o = w = UINT32_MAX; break;
    case WORDS_WRAP:
        instruction(0, 8, 3, 62, 0);
        instructions[14] = UINT32_MAX;
        instructions[15] = w = 2;
        o = 0;
        break;
    case IMMEDIATES_WRAP:
        instruction(0, 8, 3, 13, 0);
        instructions[15] = w = 1;
        operands[0] = 4;
        operands[1] = 1;
        operands[4] = UINT32_MAX;
        operands[5] = operands[14] = o = 1;
        operands[15] = 2;
    }
    for (; turns > 0; turns--) r = shex_encode(3, 0x50, instructions, lent, i, operands, lent, o, words, 2, w, output, sizeof output);
    while (old < sizeof output && output[old] == 0xA5) old++;
    free(instructions);
    free(operands);
    return r.number != 0 && (r.size != 0 || old < sizeof output) ? 99 : r.number;
}

int main(int argc, char **argv) {
    if (argc == 2) return puts(names[atoi(argv[1])]) < 0;
    if (argc == 4) return encode(atoi(argv[1]), (uint32_t)atoi(argv[2]), atoi(argv[3])) != SHEX_NO_READING;
    /* the operand itself is right: where the instruction is not too long, it is written */
    int wrong = encode(TOO_LONG, 126, 1) != 0;
    for (int kind = 0; kind < KINDS; kind++) {
        if (encode(kind, 1000000, 1) == SHEX_NO_READING) continue;
        printf("not refused with 15: %s\n", names[kind]);
        wrong = 1;
    }
    puts(wrong ? "failed" : "as expected");
    return wrong;
}
