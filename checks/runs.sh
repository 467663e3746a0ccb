#!/usr/bin/env bash
# Small programs for RV64IM, run by `ilc run` and by qemu-riscv64, which have to agree in the output, the error text
# and the status: each computation on all pairs of extreme values, each load and store at several alignments, each
# branch taken and not, jumps, the calls of the environment, and one long mix of computations.
. "$(dirname "${BASH_SOURCE[0]}")/common.bash"
wants python3=python3 riscv64-linux-gnu-as=binutils-riscv64-linux-gnu qemu-riscv64=qemu-user
builds
python3 checks/runs.py "$work" >"$work/names" || exit 1
failed=0
bytes=0
fails() {
  echo "runs: $name: $1"
  failed=1
}

while read -r name; do
  of=$work/$name
  assembles "$name" || exit 1
  qemu-riscv64 "$of" <"$of.in" >"$of.expected" 2>"$of.expected_error"
  expected=$?
  "$program" run "$of" <"$of.in" >"$of.output" 2>"$of.error"
  status=$?
  [ "$status" -eq "$expected" ] || fails "ilc run gives $status, not $expected"
  cmp "$of.expected" "$of.output" || fails "the output differs"
  cmp "$of.expected_error" "$of.error" || fails "the error text differs"
  # but for the rows about the status each program has something to say, and ends well
  case $name in
    status_*) ;;
    *) [ "$expected" -eq 0 ] && [ -s "$of.expected" ] || fails "qemu-riscv64 gives $expected" ;;
  esac
  bytes=$((bytes + $(stat -c %s "$of.expected")))
done <"$work/names"

[ "$failed" -eq 0 ] && echo "$check: $(wc -l <"$work/names") programs agree, with $bytes bytes of output"
exit "$failed"
