# One loop of additions, branches, loads and stores: 28,000,000 rounds of 10 instructions, and of one more in every
# other run of 8 rounds. It writes the block that it works on.
  .globl _start
_start:
  la s1, block
  li s2, 28000000
  li a0, 0
loop:
  andi t0, s2, 0x1f8
  add t1, s1, t0
  ld t2, 0(t1)
  add a0, a0, t2
  addi a0, a0, 5
  sd a0, 0(t1)
  andi t0, s2, 8
  beq t0, zero, 1f
  addi a0, a0, 1
1: addi s2, s2, -1
  bne s2, zero, loop
  li a0, 1
  mv a1, s1
  li a2, 512
  li a7, 64
  ecall
  li a0, 0
  li a7, 93
  ecall
  .bss
  .balign 8
block: .space 512
