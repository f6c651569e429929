"""Writes a chunk that looks like shipped shaders: shaders.py DWORDS FILE. Of 33 instructions 23 are moves, multiply-adds, samples and
declarations; the others are products, sums, a branch and a return. On average an instruction has the 7.7 dwords and 2.5 operands of shipped
shaders. The chunk is the same for the same number of dwords."""
import random
import struct
import sys

REGISTER, CONSTANT_BUFFER, FOUR, ONE = 0x00100000, 0x00208006, 0x00004002, 0x00004001
MASKS = [0xF2, 0x72, 0x32, 0x12, 0x82]


def target():
    return [REGISTER | random.choice(MASKS) | random.choice([0, 0, 0, 0x2000]), random.randrange(16)]


def swizzle():
    return random.randrange(256) << 4


def source():
    kind = random.random()
    register = REGISTER | random.choice([0, 0, 0x1000])
    if kind < 0.07:  # negated or absolute
        return [0x80000006 | register | swizzle(), random.choice([0x41, 0x81]), random.randrange(16)]
    if kind < 0.45:
        return [CONSTANT_BUFFER | swizzle(), random.randrange(4), random.randrange(64)]
    if kind < 0.67:
        return [FOUR] + [random.randrange(1 << 32) for _ in range(4)]
    if kind < 0.71:
        return [ONE, random.randrange(1 << 32)]
    if kind < 0.73:  # an index that is an operand
        return [0x06000000 | CONSTANT_BUFFER | swizzle(), 0, 5, 0x0010000A, 2]
    if kind < 0.85:  # one component
        return [register | 0xA | random.randrange(4) << 4, random.randrange(16)]
    return [register | 6 | swizzle(), random.randrange(16)]


def counted(code, sources):
    dwords = target() + sum((source() for _ in range(sources)), [])
    saturate = random.random() < 0.1
    return [code | saturate << 13 | (1 + len(dwords)) << 24] + dwords


def sample():
    extensions = random.choice([[], [0x800000C2, 0x00155543]])
    dwords = extensions + target() + [0x00100046, 1, 0x00107E46, random.randrange(8), 0x00106000, 0]
    return [69 | (1 + len(dwords)) << 24 | bool(extensions) << 31] + dwords


def declaration():
    return random.choice([
        [0x03001062, 0x00101032, random.randrange(8)],
        [0x04001858, 0x00107000, random.randrange(8), 0x5555],
        [0x0300005A, 0x00106000, 0],
        [0x04000059, 0x00208E46, 0, 16],
        [0x02000068, 12],
    ])


DECK = (5 * [declaration] + 8 * [lambda: counted(54, 1)] + 7 * [lambda: counted(50, 3)] + 3 * [sample] + 3 * [lambda: counted(56, 2)]
        + 3 * [lambda: counted(0, 2)] + [lambda: counted(16, 2)] + [lambda: [0x0304001F, 0x0010000A, 2]] + [lambda: [0x01000015]]
        + [lambda: [0x0100003E]])


def main(dwords, path):
    random.seed(8)
    stream, deck = [], []
    while len(stream) < dwords - 2:
        deck = deck or random.sample(DECK, len(DECK))
        instruction = deck.pop()()
        if len(stream) + len(instruction) <= dwords - 2:
            stream += instruction
    with open(path, 'wb') as file:
        file.write(struct.pack('<%dI' % dwords, 0x50, dwords, *stream))


main(int(sys.argv[1]), sys.argv[2])
