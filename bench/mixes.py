"""Writes a chunk by one of four mixes of instructions and operands: mixes.py MIX DWORDS FILE, where MIX is pixel, vertex, compute or long.
They stand beside the chunk of shaders.py, so that no shape of the code is chosen by that one alone. A vertex shader of this mix has an
index that is an operand in 3 of 100 sources, as one that moves points by bones has; the others in 1 of 100. The chunk is the same for the
same arguments."""
import random
import struct
import sys

REGISTER, INPUT, CONSTANT_BUFFER = 0x00100000, 0x00101000, 0x00208000
EXTENSIONS = [0x800000C2, 0x00155543]
# How many of 100 sources are a register, a constant, four immediates, one immediate, an input, negated or absolute, or have such an index.
SOURCES = {
    'pixel': (44, 22, 13, 5, 9, 6, 1),
    'vertex': (34, 36, 6, 3, 14, 4, 3),
    'compute': (56, 12, 14, 10, 2, 5, 1),
    'long': (38, 24, 20, 4, 6, 7, 1),
}


def components():
    if random.random() < 0.7:
        return 6 | random.randrange(256) << 4
    return 0xA | random.randrange(4) << 4


def constant():
    return [random.randrange(4), random.randrange(200)]


def negated():
    extension = random.choice([0x41, 0x41, 0x81, 0xC1])
    if random.random() < 0.3:
        return [0x80000000 | CONSTANT_BUFFER | components(), extension] + constant()
    return [0x80000000 | REGISTER | components(), extension, random.randrange(20)]


def number():
    return random.choice([0, 0x3F800000, random.randrange(1 << 32)])


KINDS = [
    lambda: [REGISTER | components(), random.randrange(20)],
    lambda: [CONSTANT_BUFFER | components()] + constant(),
    lambda: [0x00004002] + [number() for _ in range(4)],
    lambda: [0x00004001, number()],
    lambda: [INPUT | components(), random.randrange(8)],
    negated,
    lambda: [0x06000000 | CONSTANT_BUFFER | components()] + constant() + [REGISTER | 0xA, random.randrange(20)],
]


def source():
    return random.choices(KINDS, SOURCES[mix])[0]()


def target():
    mask = random.choice([0xF2, 0x72, 0x72, 0x32, 0x12, 0x12, 0x22, 0x42, 0x82])
    return [REGISTER | mask | random.choice(9 * [0] + [0x2000]), random.randrange(20)]


def of(code, sources, saturates=0.06):
    dwords = target() + sum((source() for _ in range(sources)), [])
    return [code | (random.random() < saturates) << 13 | (1 + len(dwords)) << 24] + dwords


def texture(code, sampled, more=0):
    chain = random.choice([[], EXTENSIONS])
    dwords = chain + target() + [REGISTER | 0xE46, random.randrange(20), 0x00107E46, random.randrange(12)]
    dwords += ([0x00106000, random.randrange(8)] if sampled else []) + sum((source() for _ in range(more)), [])
    return [code | (1 + len(dwords)) << 24 | bool(chain) << 31] + dwords


def declaration():
    return random.choice([[0x03001062, 0x00101032, random.randrange(8)], [0x0300005F, 0x00101072, random.randrange(8)],
                          [0x04001858, 0x00107000, random.randrange(8), 0x5555], [0x0300005A, 0x00106000, random.randrange(8)],
                          [0x04000059, 0x00208E46, random.randrange(4), 16], [0x02000068, 12], [0x03000065, 0x001020F2, 0],
                          [0x04000067, 0x001020F2, 0, 1], [0x0100086A]])


def flow():
    return random.choice([[0x01000012], [0x01000015], [0x0304001F, 0x0010000A, random.randrange(20)], [0x0100003E], [0x01000002],
                          [0x03040003, 0x0010000A, 1], [0x01000030], [0x01000016]])


def one_of(*codes):
    return lambda sources, saturates=0.06: of(random.choice(codes), sources, saturates)


ONE, TWO, WHOLE = one_of(68, 75, 47, 25, 26), one_of(51, 52), one_of(27, 28, 43, 86)
# How often each instruction comes: a move, a product, a multiply-add, a sum, ...
DECKS = {
    'pixel': [(8, declaration), (12, lambda: of(54, 1)), (12, lambda: of(56, 2)), (15, lambda: of(50, 3)), (9, lambda: of(0, 2)),
              (8, lambda: of(16, 2)), (7, lambda: texture(69, True)), (2, lambda: texture(72, True, 1)), (2, lambda: texture(45, False)),
              (4, lambda: ONE(1)), (4, lambda: TWO(2)), (3, lambda: of(49, 2, 0)), (3, lambda: of(1, 2, 0)), (3, lambda: of(55, 3)),
              (6, flow), (2, lambda: WHOLE(1, 0))],
    'vertex': [(10, declaration), (16, lambda: of(54, 1)), (10, lambda: of(56, 2)), (22, lambda: of(50, 3)), (8, lambda: of(0, 2)),
               (19, lambda: of(17, 2)), (3, lambda: of(68, 1)), (2, lambda: of(43, 1, 0)), (3, flow)],
    'compute': [(8, declaration), (14, lambda: of(54, 1)), (10, lambda: of(56, 2)), (12, lambda: of(50, 3)), (12, lambda: of(0, 2)),
                (8, lambda: of(30, 2, 0)), (6, lambda: of(35, 3, 0)), (6, lambda: of(1, 2, 0)), (4, lambda: of(41, 2, 0)),
                (5, lambda: texture(45, False)), (4, lambda: of(55, 3)), (8, flow), (4, lambda: of(79, 2, 0)),
                (3, lambda: texture(69, True))],
    'long': [(6, declaration), (12, lambda: of(54, 1)), (12, lambda: of(56, 2)), (18, lambda: of(50, 3)), (10, lambda: of(0, 2)),
             (5, lambda: of(16, 2)), (9, lambda: texture(69, True)), (3, lambda: texture(72, True, 1)), (5, lambda: TWO(2)),
             (4, lambda: of(68, 1)), (4, lambda: of(55, 3)), (4, flow), (3, lambda: of(49, 2, 0))],
}


def main(dwords, path):
    random.seed(mix)
    often, makers = zip(*DECKS[mix])
    stream = []
    while len(stream) < dwords - 2:
        instruction = random.choices(makers, often)[0]()
        if len(stream) + len(instruction) <= dwords - 2:
            stream += instruction
    with open(path, 'wb') as file:
        file.write(struct.pack('<%dI' % dwords, 0x50, dwords, *stream))


mix = sys.argv[1]
main(int(sys.argv[2]), sys.argv[3])
