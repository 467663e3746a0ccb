#!/usr/bin/env bash
# How fast the machine is: one loop of additions, branches, loads and stores by `ilc run` and by qemu-riscv64, in
# processor seconds. Only a wrong answer fails.
. "$(dirname "${BASH_SOURCE[0]}")/common.bash"
wants riscv64-linux-gnu-as=binutils-riscv64-linux-gnu qemu-riscv64=qemu-user
builds
cp checks/loop.s "$work/loop.s"
assembles loop || exit 1
steps=$((28000000 * 21 / 2))

# NAME COMMAND..: its output into NAME.output, and its processor seconds into NAME.seconds
TIMEFORMAT='%U %S'
timed() {
  local name=$work/$1
  shift
  { time "$@" >"$name.output" 2>"$name.error"; } 2>"$name.seconds" || { cat "$name.error"; exit 1; }
}
timed qemu qemu-riscv64 "$work/loop"
timed ilc "$program" run "$work/loop"
[ -s "$work/qemu.output" ] || { echo "speed: qemu-riscv64 writes nothing"; exit 1; }
cmp "$work/qemu.output" "$work/ilc.output" || { echo "speed: the output differs"; exit 1; }
cat "$work/ilc.seconds" "$work/qemu.seconds" | awk -v check="$check" -v steps="$steps" '
  { seconds[NR] = $1 + $2; rate[NR] = steps / seconds[NR] / 1000000 }
  END {
    printf "%s: %d million steps: ilc run %.2f s, %.0f million a second; ", check, steps / 1000000, seconds[1], rate[1]
    printf "qemu-riscv64 %.2f s, %.0f million a second; ratio %.1f\n", seconds[2], rate[2], seconds[1] / seconds[2]
  }'
