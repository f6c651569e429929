/* Reads the chunk in each file once, and then reads or encodes it so many times, with buffers that are filled once; for counting
   instructions: `calls decode FILE.. TURNS`, `calls encode FILE.. TURNS`. `calls mix FILE..` prints the dwords of all chunks, and the
   dwords and the operands of an instruction on average. */
#include <stdio.h>
#include <stdlib.h>
#include <string.h>

#include "shex.h"

static uint8_t chunk[1 << 20], output[1 << 20];
static uint32_t instructions[16 << 18], operands[16 << 18], words[1 << 18];

static struct shex_reading decode(size_t size) {
    return shex_decode(chunk, size, SHEX_FOURCC_SHEX, 3, instructions, 16 << 18, operands, 16 << 18, words, 1 << 18);
}

int main(int argc, char **argv) {
    int mixes = argc > 2 && strcmp(argv[1], "mix") == 0;
    int encodes = argc > 2 && strcmp(argv[1], "encode") == 0;
    int files = argc - 2 - !mixes;
    if (files < 1) return 2;
    double dwords = 0, count = 0, wide = 0;
    for (int k = 0; k < files; k++) {
        FILE *file = fopen(argv[2 + k], "rb");
        if (!file) return 2;
        size_t size = fread(chunk, 1, sizeof chunk, file);
        fclose(file);
        struct shex_reading r = decode(size);
        struct shex_writing w = {0, (uint32_t)size};
        dwords += size / 4, count += r.instructions, wide += r.operands;
        memcpy(output, chunk, size);
        for (int turn = mixes ? 0 : atoi(argv[argc - 1]); turn > 0; turn--) {
            if (encodes) {
                w = shex_encode(3, r.version, instructions, 16 << 18, r.instructions, operands, 16 << 18, r.operands, words, 1 << 18,
                                r.words, output, size);
            } else {
                r = decode(size);
            }
        }
        if (r.number != 0 || w.number != 0 || w.size != size || memcmp(output, chunk, size) != 0) return 1;
    }
    if (mixes) printf("%.0f %.2f %.2f\n", dwords, (dwords - 2 * files) / count, wide / count);
    return 0;
}
