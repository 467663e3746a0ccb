#!/usr/bin/env bash
# Builds bodies with each form of `ldc.i4`, bodies that compute by `add`, `sub` and `mul` with `dup`, `pop` and `nop`,
# and bodies with branches; compares what `ilc run` answers with the low byte of the result, with what qemu-riscv64
# answers of the same file, and with what mono gives for the same instructions; looks at the headers by readelf, at the
# permission to execute, and at what becomes of a longer file and of what is no regular file.
. "$(dirname "${BASH_SOURCE[0]}")/common.bash"
wants python3=python3
builds
python3 checks/body.py "$work" || exit 1
has "$check by qemu-riscv64" qemu-riscv64=qemu-user && has_qemu=1 || has_qemu=
failed=0
fails() {
  echo "body: $1"
  failed=1
}

while read -r body expected; do
  printf '%b' "$(sed 's/../\\x&/g' <<<"$body")" >"$work/body"
  rm -f "$work/elf"
  "$program" body "$work/body" -o "$work/elf" && [ -x "$work/elf" ] || { fails "$body isn't built"; continue; }
  "$program" run "$work/elf"
  status=$?
  [ "$status" -eq "$expected" ] || fails "$body: ilc run gives $status, not $expected"
  if [ -n "$has_qemu" ]; then
    qemu-riscv64 "$work/elf"
    status=$?
    [ "$status" -eq "$expected" ] || fails "$body: qemu-riscv64 gives $status, not $expected"
  fi
done <"$work/table"

if has "$check by mono" ilasm=mono-devel mono=mono-runtime; then
  ilasm "$work/bodies.il" "/output:$work/bodies.exe" >"$work/log" 2>&1 || { cat "$work/log"; failed=1; }
  mono "$work/bodies.exe" >"$work/results" || fails "mono gives no results"
  cut -d' ' -f2 "$work/table" | diff - "$work/results" >"$work/log" || fails "mono differs: $(head -n 5 "$work/log")"
fi

# an executable file takes the place of a longer one
head -c 100000 /dev/zero >"$work/longer"
"$program" body "$work/body" -o "$work/longer" && cmp -s "$work/elf" "$work/longer" ||
  fails "a longer file isn't replaced"

# what is no regular file is refused as a fault of reading, and nothing is created
mkfifo "$work/pipe"
for file in "$work" "$work/pipe" /dev/null; do
  said=$("$program" body "$file" -o "$work/none" 2>&1 </dev/null)
  [ "$? $said" = "74 ilc: read fault" ] && [ ! -e "$work/none" ] || fails "$file is read as a body: $said"
done

if has "$check by readelf" riscv64-linux-gnu-readelf=binutils-riscv64-linux-gnu; then
  riscv64-linux-gnu-readelf -lh "$work/elf" >"$work/headers" 2>&1
  for wanted in 'ELF64' "little endian" 'EXEC (Executable file)' 'RISC-V' 'Entry point address: *0x100b0' \
    'Number of program headers: *2' 'LOAD  *0x0*0 0x0*10000 0x0*10000'; do
    grep -q "$wanted" "$work/headers" || fails "readelf doesn't show: $wanted"
  done
  [ "$(grep -c '^ *LOAD' "$work/headers")" -eq 2 ] || fails "readelf doesn't show two LOAD headers"
  grep -A1 '^ *LOAD' "$work/headers" | grep -q 'R E  *0x1000' || fails "readelf shows no segment to execute"
  grep -A1 '^ *LOAD' "$work/headers" | grep -q 'RW  *0x1000' || fails "readelf shows no segment to write"
fi

[ "$failed" -eq 0 ] && echo "$check: $(wc -l <"$work/table") bodies agree"
exit "$failed"
