# What the checks share. Each begins with `. "$(dirname "${BASH_SOURCE[0]}")/common.bash"`; it then stands at the top of
# the repository, and its files go into the folder $work, which is removed at its end.
set -u
cd "$(dirname "$(readlink -f "${BASH_SOURCE[0]}")")/.." || exit 2
export PYTHONDONTWRITEBYTECODE=1
check=checks/$(basename "$0")
program=crates/ilc/out/ilc
work=$(mktemp -d) || exit 2
trap 'rm -rf "$work"' EXIT

# Whether these are all there, each a program and the Debian package that has it, as ilasm=mono-devel. Where one isn't,
# a line says what is skipped, which is the second word or else the whole check.
has() {
  local part=$1 it
  shift
  for it in "$@"; do
    if ! command -v "${it%=*}" >/dev/null; then
      echo "skipped: $part: ${it%=*} isn't there (Debian package ${it#*=})"
      return 1
    fi
  done
}

# ends the check where one of these isn't there
wants() {
  has "$check" "$@" || exit 0
}

# Proves and builds the program where that isn't done yet; without words it then ends with 64.
builds() {
  ./ilc 2>&1 | grep -v '^ilc: usage 0$' >&2
  [ "${PIPESTATUS[0]}" -eq 64 ] || exit 1
}

# makes $work/NAME of $work/NAME.s, an executable file for RV64IM without shortened instructions
assembles() {
  riscv64-linux-gnu-as -march=rv64im -o "$work/$1.o" "$work/$1.s" &&
    riscv64-linux-gnu-ld -static --no-relax -o "$work/$1" "$work/$1.o"
}
