"""Words that are no instruction, each as the first word of a program, which the machine has to stop at as illegal:
illegal.py PROGRAM FILE COUNT runs PROGRAM on COUNT of them, with FILE to write executable files to."""

import random
import struct
import subprocess
import sys

program, elf, wanted = sys.argv[1], sys.argv[2], int(sys.argv[3])
chance = random.Random(20)

# The manual's "RV32/64G Instruction Set Listings": the opcode, then funct3, then the bits above, as far as these
# are fixed. The fields of operands take any value.
TABLE = []


def row(opcode, funct3=None, upper=None, width=7):
    mask, match = 0x7F, opcode
    if funct3 is not None:
        mask, match = mask | 7 << 12, match | funct3 << 12
    if upper is not None:
        mask, match = mask | (2**width - 1) << 32 - width, match | upper << 32 - width
    TABLE.append((mask, match))


for opcode in (0x37, 0x17, 0x6F):                        # lui, auipc, jal
    row(opcode)
row(0x67, 0)                                             # jalr
for opcode, rows in ((0x63, (0, 1, 4, 5, 6, 7)),         # branches
                     (0x03, (0, 1, 2, 3, 4, 5, 6)),      # loads
                     (0x23, (0, 1, 2, 3)),               # stores
                     (0x13, (0, 2, 3, 4, 6, 7)),         # addi, slti, sltiu, xori, ori, andi
                     (0x1B, (0,))):                      # addiw
    for funct3 in rows:
        row(opcode, funct3)
for funct3, upper in ((1, 0), (5, 0), (5, 16)):          # slli, srli, srai: 6 bits above the amount
    row(0x13, funct3, upper, 6)
for funct3, upper in ((1, 0), (5, 0), (5, 32)):          # slliw, srliw, sraiw
    row(0x1B, funct3, upper)
for funct3 in range(8):                                  # add to and; mul to remu
    row(0x33, funct3, 0)
    row(0x33, funct3, 1)
row(0x33, 0, 32)                                         # sub
row(0x33, 5, 32)                                         # sra
for funct3, upper in ((0, 0), (1, 0), (5, 0), (0, 32), (5, 32), (0, 1), (4, 1), (5, 1), (6, 1), (7, 1)):
    row(0x3B, funct3, upper)                             # addw, sllw, srlw, subw, sraw, mulw, divw to remuw
TABLE.append((2**32 - 1, 0x00000073))                    # ecall
assert len(TABLE) == 63


def is_legal(word):
    return any(word & mask == match for mask, match in TABLE)


# instructions of other extensions and of the rest of the manual
words = [0, 2**32 - 1, 0x0000000F, 0x0FF0000F, 0x8330000F, 0x0000100F,  # fence, fence.tso, fence.i
         0x00100073, 0x30200073, 0x10200073, 0x10500073, 0x12000073,    # ebreak, mret, sret, wfi, sfence.vma
         0xC0001073, 0xC0102573, 0x00000873, 0x00008073, 0x00000173,    # csrrw, rdtime; ecall with other fields
         0x1005252F, 0x0000202F, 0x00B5302F, 0x00052007, 0x00053027,    # lr.w, amoadd, flw, fsd
         0x00B50533 | 1 << 26, 0x60051513, 0x40A54533, 0x20B52533,      # a bit of funct7, clz, xnor, sh1add
         0x0000006B, 0x0000000B, 0x00000077, 0x0000001F, 0x0000007F,    # reserved and custom opcodes, long words
         0x00010001, 0x80828082, 0x00004505, 0xA001, 0x9002]            # compressed: nop, ret, li, j, ebreak
opcodes = sorted({match & 0x7F for _, match in TABLE} | {0x0F})
while len(words) < wanted:
    kind = len(words) % 4
    if kind == 0:      # any word
        word = chance.getrandbits(32)
    elif kind == 1:    # one bit away from a row
        mask, match = chance.choice(TABLE)
        word = (chance.getrandbits(32) & ~mask | match) ^ 1 << chance.choice([n for n in range(32) if mask >> n & 1])
    elif kind == 2:    # an opcode of the table
        word = chance.getrandbits(25) << 7 | chance.choice(opcodes)
    else:              # any word that isn't compressed
        word = chance.getrandbits(30) << 2 | 3
    if not is_legal(word) and word not in words:
        words.append(word)
assert not any(map(is_legal, words))

# one segment of 12 bytes at 0x10000: the word, and the end of the program with status 9
ENTRY = 0x10000


def file_of(word):
    header = b"\x7fELF\x02\x01\x01" + bytes(9)
    header += struct.pack("<HHIQQQIHHHHHH", 2, 243, 1, ENTRY, 64, 0, 0, 64, 56, 1, 0, 0, 0)
    text = struct.pack("<IIIII", word, 0x00900513, 0x05D00893, 0x00000073, 0)
    return header + struct.pack("<IIQQQQQQ", 1, 5, 120, ENTRY, ENTRY, len(text), len(text), 4096) + text


def run(word):
    with open(elf, "wb") as file:
        file.write(file_of(word))
    done = subprocess.run([program, "run", elf], stdin=subprocess.DEVNULL, capture_output=True)
    return done.returncode, done.stdout, done.stderr


# the same program is carried out where its first word is an instruction
if run(0x00000013) != (9, b"", b""):
    sys.exit(f"illegal: nop gives {run(0x00000013)}")
refused = (132, b"", b"ilc: 29 Trap 10000 illegal\n")
bad = [(f"{word:08x}", seen) for word in words if (seen := run(word)) != refused]
for word, seen in bad[:20]:
    print(f"illegal: {word} gives {seen}")
if bad:
    sys.exit(f"illegal: {len(bad)} of {len(words)} words are not refused")
print(f"checks/illegal.sh: {len(words)} words are refused")
