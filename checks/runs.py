"""Programs for RV64IM: writes NAME.s to a folder for each, and NAME.in, what it is to read; prints the names."""

import random
import sys

folder = sys.argv[1]
chance = random.Random(20)

# ends of the ranges of 32 and 64 bits, patterns with the sign bit of each half, and amounts to shift by
VALUES = [0, 1, 2, 7, 31, 32, 33, 63, 64, 2**31 - 1, 2**31, 2**31 + 1, 2**32 - 1, 2**32, 2**32 + 1, 2**63 - 1, 2**63,
          2**63 + 1, 2**64 - 2**31 - 1, 2**64 - 2**31, 2**64 - 2, 2**64 - 1, 0x7FFFFFFF7FFFFFFF, 0x8000000080000000,
          0x0123456789ABCDEF, 0xFEDCBA9876543210]
IMMEDIATES = [-2048, -2047, -1366, -33, -32, -1, 0, 1, 31, 32, 63, 64, 1365, 2046, 2047]
REGISTER_FORMS = """add sub sll slt sltu xor srl sra or and mul mulh mulhsu mulhu div divu rem remu
    addw subw sllw srlw sraw mulw divw divuw remw remuw""".split()
IMMEDIATE_FORMS = "addi slti sltiu xori ori andi addiw".split()
SHIFTS = {"slli": 64, "srli": 64, "srai": 64, "slliw": 32, "srliw": 32, "sraiw": 32}
LOADS = "lb lh lw ld lbu lhu lwu".split()
STORES = "sb sh sw sd".split()
# each branch with operands that take it
BRANCHES = {"beq": (5, 5), "bne": (5, 6), "blt": (-1, 1), "bge": (1, -1), "bltu": (1, -1), "bgeu": (-1, 1)}

# `keep` adds a register to the results, to which s1 points
HEAD = """  .option norvc
  .option norelax
  .macro keep register
  sd \\register, 0(s1)
  addi s1, s1, 8
  .endm
  .globl _start
_start:
  la s1, results
"""
TAIL = """
  la a1, results
  sub a2, s1, a1
  li a0, 1
  li a7, 64
  ecall
  li a0, 0
  li a7, 93
  ecall
  .bss
  .balign 8
results: .space 200000
"""


def write(name, text, given=b""):
    with open(f"{folder}/{name}.s", "w") as file:
        file.write(text)
    with open(f"{folder}/{name}.in", "wb") as file:
        file.write(given)
    print(name)


def program(name, body, data="", given=b""):
    """A program that keeps results and writes them at its end."""
    values = "\n  .data\n  .balign 8\nvalues: .dword " + ", ".join(map(str, VALUES)) + "\nvalues_end:\n" + data
    write(name, HEAD + body + TAIL + values, given)


def each_value(body):
    """What is done for each value in a1."""
    return f"""  la s2, values
  la s4, values_end
each:
  ld a1, 0(s2)
{body}
  addi s2, s2, 8
  bltu s2, s4, each
"""


def each_pair(body):
    """What is done for each pair of values in a1 and a2."""
    return each_value(f"""  la s3, values
each_second:
  ld a2, 0(s3)
{body}
  addi s3, s3, 8
  bltu s3, s4, each_second
""")


for op in REGISTER_FORMS:
    program(op, each_pair(f"""
  {op} a0, a1, a2
  keep a0
  mv a3, a1
  {op} a3, a3, a2
  keep a3
  mv a3, a2
  {op} a3, a1, a3
  keep a3
  {op} a0, a1, a1
  keep a0
  {op} zero, a1, a2
  keep zero
"""))


def immediate_form(op, immediates):
    one = "  {op} a0, a1, {n}\n  keep a0\n  mv a3, a1\n  {op} a3, a3, {n}\n  keep a3\n"
    forms = "".join(one.format(op=op, n=n) for n in immediates)
    program(op, each_value(f"{forms}  {op} zero, a1, 1\n  keep zero\n  {op} a0, zero, 1\n  keep a0\n"))


for op in IMMEDIATE_FORMS:
    immediate_form(op, IMMEDIATES)
for op, width in SHIFTS.items():
    immediate_form(op, [n for n in (0, 1, 7, 15, 16, 30, 31, 32, 33, 48, 62, 63) if n < width])

for op in ("lui", "auipc"):
    upper = 0, 1, 2, 0x12345, 0x7FFFF, 0x80000, 0x80001, 0xFFFFE, 0xFFFFF
    program(op, "".join(f"  {op} a0, {n}\n  keep a0\n" for n in upper) + f"  {op} zero, 1\n  keep zero\n")

# in the block around `middle`, from its first byte to its last
block = bytes(chance.choice((0x00, 0x01, 0x7F, 0x80, 0xFE, 0xFF, chance.randrange(256))) for _ in range(4104))
BLOCK = "".join(f"{name}: .byte {', '.join(map(str, part))}\n" for name, part in
                (("block", block[:2048]), ("middle", block[2048:])))
for op in LOADS:
    offsets = [*range(-2048, -2036), *range(-12, 13), *range(2036, 2048)]
    program(op, "  la a1, middle\n" + "".join(f"  {op} a0, {n}(a1)\n  keep a0\n" for n in offsets)
            + f"  {op} zero, 0(a1)\n  keep zero\n  {op} a1, 1(a1)\n  keep a1\n", BLOCK)

# into three double words, at each alignment and with offsets to both ends
for op in STORES:
    places = [(k, 0) for k in range(17)] + [(11, n) for n in (-2048, -1, 1, 2047)]
    program(op, each_value("".join(f"""
  la a3, place
  li a4, 0x5aa5966996695aa5
  sd a4, 0(a3)
  sd a4, 8(a3)
  sd a4, 16(a3)
  li a4, {k - n}
  add a4, a3, a4
  {op} a1, {n}(a4)
  ld a0, 0(a3)
  keep a0
  ld a0, 8(a3)
  keep a0
  ld a0, 16(a3)
  keep a0
  {op} zero, 0(a3)
  ld a0, 0(a3)
  keep a0
""" for k, n in places)), "place: .space 24\n")

# a0 is 0 where the branch is taken; then at the greatest distance and at the least
for op, (first, second) in BRANCHES.items():
    program(op, each_pair(f"""
  li a0, 0
  {op} a1, a2, 1f
  li a0, 1
1: keep a0
  li a0, 0
  {op} a1, a1, 1f
  li a0, 1
1: keep a0
  li a0, 0
  {op} zero, a2, 1f
  li a0, 1
1: keep a0
""") + f"""
  li a1, {first}
  li a2, {second}
  li a0, 0
  {op} a1, a2, . + 4092
  li a0, 1
  .fill 1021, 4, 0x13
  keep a0
  j backward
landing: j landed
  .fill 1023, 4, 0x13
backward: {op} a1, a2, . - 4096
  li a0, 2
landed: keep a0
""")

program("jal", """
  jal a0, 1f
  li a0, 1
1: keep a0
  jal zero, 1f
  keep zero
1: keep zero
  j 2f
1: keep a0
  j 3f
2: jal a0, 1b
3: jal a0, . + 0xffffc
  li a0, 1
  .fill 262141, 4, 0x13
  keep a0
  j 4f
landing: j 5f
  .fill 131070, 4, 0x13
4: j backward
5: j landed
  .fill 131071, 4, 0x13
backward: jal a0, . - 0x100000
  li a0, 2
landed: keep a0
""")

# bit 0 of the sum is cleared; the link may go into the base
program("jalr", "".join(f"""
  la a1, 1f
  li a2, {add}
  add a1, a1, a2
  jalr {link}, {offset}(a1)
  li {link}, 1
1: keep {link}
  keep a1
""" for add, offset, link in [(0, 0, "a0"), (1, 0, "a0"), (0, 1, "a0"), (1, -1, "a0"), (-1, 1, "a0"), (-1, 2, "a0"),
                              (2048, -2048, "a0"), (-2047, 2047, "a0"), (-2046, 2047, "a0"), (0, 0, "a1"), (1, 0, "a1"),
                              (0, 0, "ra"), (0, 0, "zero"), (1, 0, "zero")]))

# computations of all kinds over all registers, s1 alone being left as it is
names = ["zero", "ra", "sp", "gp", "tp", "t0", "t1", "t2", "s0", "s1"] + [f"x{n}" for n in range(10, 32)]
mix = "".join(f"  li {r}, {chance.choice(VALUES + [chance.getrandbits(64)])}\n" for r in names[1:] if r != "s1")
for _ in range(4000):
    op = chance.choice(REGISTER_FORMS + IMMEDIATE_FORMS + list(SHIFTS) + ["lui", "auipc"])
    rd = chance.choice([r for r in names if r != "s1"])
    if op in REGISTER_FORMS:
        rest = f"{chance.choice(names)}, {chance.choice(names)}"
    elif op in IMMEDIATE_FORMS:
        rest = f"{chance.choice(names)}, {chance.randrange(-2048, 2048)}"
    elif op in SHIFTS:
        rest = f"{chance.choice(names)}, {chance.randrange(SHIFTS[op])}"
    else:
        rest = f"{chance.randrange(2**20)}"
    mix += f"  {op} {rd}, {rest}\n  keep {rd}\n"
program("mix", mix)


def call(number, a0, a1, a2):
    return f"  li a0, {a0}\n  la a1, {a1}\n  li a2, {a2}\n  li a7, {number}\n  ecall\n  keep a0\n"


BUFFER = "buffer: .space 70000\n"
pieces = (0, 0), (0, 4), (5, 9000), (9100, 20000), (30000, 100), (40000, 1), (50000, 0)
reading = "".join(call(63, 0, f"buffer + {at}", count) for at, count in pieces) + call(64, 1, "buffer", 70000)
program("read_nothing", reading, BUFFER)
program("read_short", reading, BUFFER, b"\x00short\xff\n")
program("read_long", reading, BUFFER, chance.randbytes(20000))
program("write", call(64, 1, "text", 5) + call(64, 2, "text + 5", 6) + call(64, 1, "text", 0) + call(64, 2, "text", 0)
        + call(64, 2, "text + 1", 1) + call(64, 1, "buffer", 65537) + call(64, 1, "text + 10", 1),
        'text: .ascii "first second"\n' + BUFFER)
for n, status in enumerate((0, 1, 127, 255, 256, 263, 2**32 + 5, -1, -256, 2**63, 2**63 - 1)):
    end = f"  li a0, {status}\n  li a7, 93\n  ecall\n  li a0, 99\n  ecall\n"
    write(f"status_{n}", HEAD + end + "  .bss\nresults: .space 8\n")
