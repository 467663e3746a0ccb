#!/usr/bin/env bash
# The words of the table that tests rv_isa against GNU as: each row becomes a line of assembler text, and each variant of
# `Ins` has to have a row.
. "$(dirname "${BASH_SOURCE[0]}")/common.bash"
wants riscv64-linux-gnu-as=binutils-riscv64-linux-gnu

# a word and its instruction, as `00000073 Ecall`
sed -n '/^[0-9a-f]\{8\} [A-Z]/p' crates/library_tests/src/encodings.rt >"$work/rows"

sed -n 's/^    \([A-Z][a-z0-9]*\)[ ,].*$/\1/p' crates/rv_isa/src/ins.rt | sort -u >"$work/variants"
cut -d ' ' -f 2 "$work/rows" | sort -u >"$work/tested"
diff "$work/variants" "$work/tested" || { echo "encodings: the table test lacks an instruction"; exit 1; }

{
  echo ".option norvc"
  echo ".option norelax"
  awk '{
    gsub(/[{},]|[a-z]+[0-9]*:/, " ")
    $0 = $0
    name = tolower($2)
    if (name ~ /^(jalr|l[bhwd]u?)$/) print name, $3 ", " $5 "(" $4 ")"
    else if (name ~ /^s[bhwd]$/) print name, $4 ", " $5 "(" $3 ")"
    else if (name ~ /^b/) print name, $3 ", " $4 ", . + " $5
    else if (name == "jal") print name, $3 ", . + " $4
    else if (NF == 2) print name
    else if (NF == 4) print name, $3 ", " $4
    else print name, $3 ", " $4 ", " $5
  }' "$work/rows"
} >"$work/rows.s"
riscv64-linux-gnu-as -march=rv64im -o "$work/rows.o" "$work/rows.s" || exit 1
riscv64-linux-gnu-objcopy -O binary -j .text "$work/rows.o" "$work/rows.bin" || exit 1
od -An -v -tx4 -w4 --endian=little "$work/rows.bin" | tr -d ' ' >"$work/words"
cut -d ' ' -f 1 "$work/rows" >"$work/ours"
diff "$work/ours" "$work/words" || { echo "encodings: a word differs from that of GNU as"; exit 1; }
echo "$check: $(wc -l <"$work/ours") words are those of GNU as"
